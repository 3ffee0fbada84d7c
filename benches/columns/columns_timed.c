/* Times the columns of the calendar: N ROUNDS, and prints a line `CALL WHO NANOSECONDS` for each. Answers are compared first. */
#define _POSIX_C_SOURCE 200809L
#include "calendar.h"

#include <stdio.h>
#include <stdlib.h>
#include <string.h>
#include <time.h>

/* The loops of C, by the kit's flags and by -O3 alone. */
#define LOOPS_OF(who) \
    void who##_weekdays(const int32_t *, uint8_t *, size_t); \
    void who##_split(const int32_t *, int32_t *, uint8_t *, uint8_t *, size_t); \
    void who##_join(const int32_t *, const uint8_t *, const uint8_t *, int32_t *, size_t); \
    void who##_add_months(const int32_t *, int32_t, int32_t *, size_t); \
    void who##_write_dates(const int32_t *, uint8_t *, size_t); \
    void who##_read_dates(const uint8_t *, int32_t *, size_t);
LOOPS_OF(limit)
LOOPS_OF(plain)
void copy_text(const int32_t *, uint8_t *, size_t);
void copy_1(const int32_t *, uint8_t *, size_t);
void copy_4(const int32_t *, int32_t *, size_t);
void copy_split(const int32_t *, int32_t *, uint8_t *, uint8_t *, size_t);
void copy_join(const int32_t *, const uint8_t *, const uint8_t *, int32_t *, size_t);

/* A set of weekdays, Monday as its lowest bit. */
enum { MONDAY_AND_FRIDAY = 1 | 1 << 4 };

static int32_t *dates, *years, *numbers, *wanted;
static uint8_t *months, *days, *small, *texts;
static uint16_t *ordinals;
static int64_t *wide;
static size_t n;

static uint64_t state = 88172645463325252ull;

static uint64_t draw(void)
{
    state ^= state << 13;
    state ^= state >> 7;
    return state ^= state << 17;
}

static void *room(size_t size)
{
    void *made = malloc(n * size);
    if (!made) exit(2);
    memset(made, 1, n * size);
    return made;
}

static double now(void)
{
    struct timespec it;
    clock_gettime(CLOCK_THREAD_CPUTIME_ID, &it);
    return (double)it.tv_sec + (double)it.tv_nsec * 1e-9;
}

/* ---- the calls: columns, the same one by one, the loops of C, and copies */

#define RUNS_OF(who) \
    static void weekdays_##who(void) { who##_weekdays(dates, small, n); } \
    static void split_##who(void) { who##_split(dates, years, months, days, n); } \
    static void join_##who(void) { who##_join(years, months, days, numbers, n); } \
    static void add_months_##who(void) { who##_add_months(dates, 7, numbers, n); } \
    static void write_dates_##who(void) { who##_write_dates(dates, texts, n); } \
    static void read_dates_##who(void) { who##_read_dates(texts, numbers, n); }
RUNS_OF(limit)
RUNS_OF(plain)

static void weekdays_ours(void) { calendar_column_weekdays(dates, n, small, n); }
static void weekdays_single(void) { for (size_t i = 0; i < n; i++) small[i] = (uint8_t)calendar_weekday(dates[i]); }
static void weekdays_copy(void) { copy_1(dates, small, n); }
static void years_ours(void) { calendar_column_years(dates, n, numbers, n); }
static void years_single(void) { for (size_t i = 0; i < n; i++) numbers[i] = calendar_year(dates[i]); }
static void years_copy(void) { copy_4(dates, numbers, n); }
static void ordinals_ours(void) { calendar_column_ordinals(dates, n, ordinals, n); }
static void iso_weeks_ours(void) { calendar_column_iso_weeks(dates, n, numbers, n, small, n); }
static void split_ours(void) { calendar_column_split(dates, n, years, n, months, n, days, n); }
static void split_copy(void) { copy_split(dates, years, months, days, n); }
static void split_single(void)
{
    for (size_t i = 0; i < n; i++) {
        calendar_ymd it = calendar_split(dates[i]);
        years[i] = it.year, months[i] = it.month, days[i] = it.day;
    }
}
static void join_ours(void) { calendar_column_join(years, n, months, n, days, n, numbers, n); }
static void join_single(void) { for (size_t i = 0; i < n; i++) numbers[i] = calendar_from_ymd(years[i], months[i], days[i]); }
static void join_copy(void) { copy_join(years, months, days, numbers, n); }
static void add_days_ours(void) { calendar_column_add_days(dates, n, 1000, numbers, n); }
static void add_days_single(void) { for (size_t i = 0; i < n; i++) numbers[i] = calendar_add_days(dates[i], 1000); }
static void add_days_copy(void) { copy_4(dates, numbers, n); }
static void add_days_each_ours(void) { calendar_column_add_days_each(dates, n, years, n, numbers, n); }
static void add_days_each_single(void) { for (size_t i = 0; i < n; i++) numbers[i] = calendar_add_days(dates[i], years[i]); }
static void first_on_ours(void) { calendar_column_first_on(dates, n, MONDAY_AND_FRIDAY, numbers, n); }
static void first_on_single(void) { for (size_t i = 0; i < n; i++) numbers[i] = calendar_first_on(dates[i], MONDAY_AND_FRIDAY); }
static void add_months_ours(void) { calendar_column_add_months(dates, n, 7, numbers, n); }
static void add_months_single(void) { for (size_t i = 0; i < n; i++) numbers[i] = calendar_add_months(dates[i], 7); }
static void add_months_copy(void) { copy_4(dates, numbers, n); }
static void days_between_ours(void) { calendar_column_days_between(dates, n, years, n, numbers, n); }
static void to_unix_days_ours(void) { calendar_column_to_unix_days(dates, n, wide, n); }
static void from_unix_days_ours(void) { calendar_column_from_unix_days(wide, n, numbers, n); }
static void add_days_in_place_ours(void) { calendar_column_add_days_in_place(numbers, n, 1); }
static void add_days_each_in_place_ours(void) { calendar_column_add_days_each_in_place(numbers, n, years, n); }
static void add_months_in_place_ours(void) { calendar_column_add_months_in_place(numbers, n, 1); }
static volatile size_t there;
static void count_dates_ours(void) { there = calendar_column_count_dates(dates, n); }
static void write_dates_ours(void) { calendar_column_write_dates(dates, n, texts, n); }
static void write_dates_copy(void) { copy_text(dates, texts, n); }
static void write_dates_single(void) { for (size_t i = 0; i < n; i++) calendar_write_date(dates[i], texts + 10 * i, 10); }
static void read_dates_ours(void) { calendar_column_read_dates(texts, n, numbers, n); }
static void read_dates_single(void) { for (size_t i = 0; i < n; i++) numbers[i] = calendar_read_date(texts + 10 * i, 10); }

typedef struct {
    const char *call, *who;
    void (*run)(void);
} timed;

static const timed all[] = {
    {"weekdays", "ours", weekdays_ours}, {"weekdays", "single", weekdays_single}, {"weekdays", "limit", weekdays_limit}, {"weekdays", "plain", weekdays_plain},
    {"weekdays", "copy", weekdays_copy},
    {"years", "ours", years_ours}, {"years", "single", years_single}, {"years", "copy", years_copy},
    {"ordinals", "ours", ordinals_ours}, {"iso_weeks", "ours", iso_weeks_ours},
    {"split", "ours", split_ours}, {"split", "single", split_single}, {"split", "limit", split_limit}, {"split", "plain", split_plain}, {"split", "copy", split_copy},
    {"join", "ours", join_ours}, {"join", "single", join_single}, {"join", "limit", join_limit}, {"join", "plain", join_plain}, {"join", "copy", join_copy},
    {"add_days", "ours", add_days_ours}, {"add_days", "single", add_days_single}, {"add_days", "copy", add_days_copy},
    {"add_days_each", "ours", add_days_each_ours}, {"add_days_each", "single", add_days_each_single},
    {"first_on", "ours", first_on_ours}, {"first_on", "single", first_on_single},
    {"add_months", "ours", add_months_ours}, {"add_months", "single", add_months_single},
    {"add_months", "limit", add_months_limit}, {"add_months", "plain", add_months_plain}, {"add_months", "copy", add_months_copy},
    {"days_between", "ours", days_between_ours}, {"to_unix_days", "ours", to_unix_days_ours},
    {"from_unix_days", "ours", from_unix_days_ours},
    {"add_days_in_place", "ours", add_days_in_place_ours}, {"add_months_in_place", "ours", add_months_in_place_ours},
    {"add_days_each_in_place", "ours", add_days_each_in_place_ours},
    {"count_dates", "ours", count_dates_ours},
    {"write_dates", "ours", write_dates_ours}, {"write_dates", "single", write_dates_single},
    {"write_dates", "copy", write_dates_copy}, {"write_dates", "limit", write_dates_limit}, {"write_dates", "plain", write_dates_plain},
    {"read_dates", "ours", read_dates_ours}, {"read_dates", "single", read_dates_single}, {"read_dates", "limit", read_dates_limit}, {"read_dates", "plain", read_dates_plain},
};

#define CALLS (sizeof all / sizeof *all)

/* Ends the program unless each column is what the single calls and the loops of C make of it. */
static void compare(void)
{
    bool same = true;
    weekdays_ours(), memcpy(wanted, small, n), weekdays_limit(), same &= !memcmp(wanted, small, n);
    weekdays_plain(), same &= !memcmp(wanted, small, n);
    weekdays_single(), same &= !memcmp(wanted, small, n);
    years_ours(), memcpy(wanted, numbers, 4 * n), years_single(), same &= !memcmp(wanted, numbers, 4 * n);
    add_days_ours(), memcpy(wanted, numbers, 4 * n), add_days_single(), same &= !memcmp(wanted, numbers, 4 * n);
    split_limit();
    add_days_each_ours(), memcpy(wanted, numbers, 4 * n), add_days_each_single(), same &= !memcmp(wanted, numbers, 4 * n);
    memcpy(numbers, dates, 4 * n), add_days_each_in_place_ours(), same &= !memcmp(wanted, numbers, 4 * n);
    first_on_ours(), memcpy(wanted, numbers, 4 * n), first_on_single(), same &= !memcmp(wanted, numbers, 4 * n);
    add_months_ours(), memcpy(wanted, numbers, 4 * n), add_months_single(), same &= !memcmp(wanted, numbers, 4 * n);
    add_months_limit(), same &= !memcmp(wanted, numbers, 4 * n);
    add_months_plain(), same &= !memcmp(wanted, numbers, 4 * n);
    split_limit(), join_limit(), same &= !memcmp(dates, numbers, 4 * n);
    split_plain(), join_plain(), same &= !memcmp(dates, numbers, 4 * n);
    split_single(), join_single(), same &= !memcmp(dates, numbers, 4 * n);
    split_ours(), join_ours(), same &= !memcmp(dates, numbers, 4 * n);
    to_unix_days_ours(), from_unix_days_ours(), same &= !memcmp(dates, numbers, 4 * n);
    void (*const writers[])(void) = {write_dates_ours, write_dates_limit, write_dates_plain, write_dates_single};
    void (*const readers[])(void) = {read_dates_ours, read_dates_limit, read_dates_plain, read_dates_single};
    for (int i = 0; i < 4; i++) {
        memset(texts, 0, 10 * n), writers[i]();
        for (int j = 0; j < 4; j++) memset(numbers, 0, 4 * n), readers[j](), same &= !memcmp(dates, numbers, 4 * n);
    }
    if (!same) {
        fprintf(stderr, "the answers are not the same, so nothing was timed\n");
        exit(1);
    }
}

int main(int argc, char **argv)
{
    n = strtoull(argc > 1 ? argv[1] : "32768", NULL, 10);
    int rounds = argc > 2 ? atoi(argv[2]) : 100, repeats = n < 1000000 ? (int)(1000000 / n) : 1;
    dates = room(4), years = room(4), numbers = room(4), wanted = room(4), wide = room(8);
    months = room(1), days = room(1), small = room(1), ordinals = room(2), texts = room(10);
    for (size_t i = 0; i < n; i++) dates[i] = 657073 + (int32_t)(draw() % 146097);
    compare();
    double best[CALLS];
    for (int round = 0; round < rounds; round++) {
        for (size_t call = 0; call < CALLS; call++) {
            split_limit(); /* (the copies leave no names) */
            double began = now();
            for (int i = 0; i < repeats; i++) {
                all[call].run();
                __asm__ volatile("" ::: "memory");
            }
            double taken = (now() - began) / repeats / (double)n * 1e9;
            if (!round || taken < best[call]) best[call] = taken;
        }
    }
    for (size_t call = 0; call < CALLS; call++) printf("%s %s %.3f\n", all[call].call, all[call].who, best[call]);
    return 0;
}
