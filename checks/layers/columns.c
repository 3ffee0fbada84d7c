/* Columns of the calendar beside its single calls; checks/layers/columns.py builds and runs this. The last line is `N passed, M failed`.
 *
 * Swept are all dates and 100,000 numbers beyond each end, names and counts at the ends of their types, and columns of 0 to 70
 * elements at each place in memory, between bytes that have to stay. */
#include "calendar.h"

#include <stdio.h>
#include <stdlib.h>
#include <string.h>

#define NONE CALENDAR_NONE
#define BLOCK 4096
#define BEYOND 100000
#define LONGEST 70
#define PLACES 32
#define GUARD 64

static long passed, failed;

/* Counts a fact, and tells of the first that do not hold. */
static void count(bool is_right, const char *what, long long which)
{
    if (is_right) {
        passed++;
    } else if (failed++ < 20) {
        printf("FAILED: %s at %lld\n", what, which);
    }
}

static uint64_t state = 88172645463325252ull;

static uint64_t draw(void)
{
    state ^= state << 13;
    state ^= state >> 7;
    return state ^= state << 17;
}

static int32_t or_zero(int32_t number)
{
    return number == NONE ? 0 : number;
}

static bool is_date(int32_t number)
{
    return number >= CALENDAR_MIN && number <= CALENDAR_MAX;
}

/* ---- what each element has to be, by single calls */

static int32_t distance(int32_t date, int32_t base)
{
    return is_date(date) && is_date(base) ? date - base : NONE;
}

static int32_t from_unix(int64_t days)
{
    int64_t low = (int64_t)CALENDAR_MIN - CALENDAR_UNIX_EPOCH, high = (int64_t)CALENDAR_MAX - CALENDAR_UNIX_EPOCH;
    return days >= low && days <= high ? (int32_t)days + CALENDAR_UNIX_EPOCH : NONE;
}

static int64_t to_unix(int32_t date)
{
    return is_date(date) ? (int64_t)date - CALENDAR_UNIX_EPOCH : INT64_MIN;
}

/* The ten bytes of a date in a column of texts. */
static void text_of(int32_t date, uint8_t *text)
{
    uint8_t written[13];
    memset(text, 0, 10);
    if (calendar_write_date(date, written, 13) == 10) memcpy(text, written, 10);
}

/* Fields of one column, of BLOCK dates at most. */
static int32_t dates[BLOCK], bases[BLOCK], counts[BLOCK], numbers[BLOCK], years[BLOCK];
static uint8_t months[BLOCK], days[BLOCK], small[BLOCK];
static uint16_t ordinals[BLOCK];
static int64_t wide[BLOCK];
static uint8_t texts[10 * BLOCK];

/* The columns of n dates that stand in `dates`, each element beside the single call. */
static void compare_block(size_t n, int32_t days_on, int32_t months_on)
{
    bool answered = calendar_column_weekdays(dates, n, small, n);
    long wrong = !answered;
    for (size_t i = 0; i < n; i++) wrong += small[i] != or_zero(calendar_weekday(dates[i]));
    answered = calendar_column_years(dates, n, years, n);
    for (size_t i = 0; i < n; i++) wrong += years[i] != calendar_year(dates[i]);
    answered &= calendar_column_ordinals(dates, n, ordinals, n);
    for (size_t i = 0; i < n; i++) wrong += ordinals[i] != or_zero(calendar_ordinal(dates[i]));
    answered &= calendar_column_iso_weeks(dates, n, years, n, small, n);
    for (size_t i = 0; i < n; i++) {
        wrong += years[i] != calendar_iso_year(dates[i]) || small[i] != or_zero(calendar_iso_week(dates[i]));
    }
    answered &= calendar_column_split(dates, n, years, n, months, n, days, n);
    for (size_t i = 0; i < n; i++) {
        calendar_ymd one = calendar_split(dates[i]);
        wrong += years[i] != calendar_year(dates[i]) || months[i] != or_zero(calendar_month(dates[i]));
        wrong += days[i] != or_zero(calendar_day(dates[i]));
        wrong += one.year != years[i] || one.month != months[i] || one.day != days[i];
    }
    answered &= calendar_column_join(years, n, months, n, days, n, numbers, n);
    for (size_t i = 0; i < n; i++) wrong += numbers[i] != (is_date(dates[i]) ? dates[i] : NONE);
    answered &= calendar_column_add_days(dates, n, days_on, numbers, n);
    for (size_t i = 0; i < n; i++) wrong += numbers[i] != calendar_add_days(dates[i], days_on);
    answered &= calendar_column_add_months(dates, n, months_on, numbers, n);
    for (size_t i = 0; i < n; i++) wrong += numbers[i] != calendar_add_months(dates[i], months_on);
    for (size_t i = 0; i < n; i++) counts[i] = (int32_t)(draw() % 400000000) - 200000000, bases[i] = dates[n - 1 - i];
    answered &= calendar_column_add_days_each(dates, n, counts, n, numbers, n);
    for (size_t i = 0; i < n; i++) wrong += numbers[i] != calendar_add_days(dates[i], counts[i]);
    answered &= calendar_column_days_between(dates, n, bases, n, numbers, n);
    for (size_t i = 0; i < n; i++) wrong += numbers[i] != distance(dates[i], bases[i]);
    uint8_t set = (uint8_t)(draw() % 256);
    answered &= calendar_column_first_on(dates, n, set, numbers, n);
    for (size_t i = 0; i < n; i++) wrong += numbers[i] != calendar_first_on(dates[i], set);
    answered &= calendar_column_to_unix_days(dates, n, wide, n);
    for (size_t i = 0; i < n; i++) wrong += wide[i] != to_unix(dates[i]);
    size_t there = 0;
    for (size_t i = 0; i < n; i++) there += is_date(dates[i]);
    wrong += calendar_column_count_dates(dates, n) != there;
    memcpy(numbers, dates, 4 * n), calendar_column_add_days_in_place(numbers, n, days_on);
    for (size_t i = 0; i < n; i++) wrong += numbers[i] != calendar_add_days(dates[i], days_on);
    memcpy(numbers, dates, 4 * n), calendar_column_add_months_in_place(numbers, n, months_on);
    for (size_t i = 0; i < n; i++) wrong += numbers[i] != calendar_add_months(dates[i], months_on);
    memcpy(numbers, dates, 4 * n), answered &= calendar_column_add_days_each_in_place(numbers, n, counts, n);
    for (size_t i = 0; i < n; i++) wrong += numbers[i] != calendar_add_days(dates[i], counts[i]);
    for (size_t i = 0; i < n; i++) wide[i] = (int64_t)dates[i] - CALENDAR_UNIX_EPOCH;
    answered &= calendar_column_from_unix_days(wide, n, numbers, n);
    for (size_t i = 0; i < n; i++) wrong += numbers[i] != from_unix(wide[i]);
    answered &= calendar_column_write_dates(dates, n, texts, n);
    for (size_t i = 0; i < n; i++) {
        uint8_t one[10];
        text_of(dates[i], one);
        wrong += memcmp(texts + 10 * i, one, 10) != 0;
    }
    answered &= calendar_column_read_dates(texts, n, numbers, n);
    for (size_t i = 0; i < n; i++) wrong += numbers[i] != (texts[10 * i] ? dates[i] : NONE);
    count(answered && !wrong, "columns beside single calls, from the number", dates[0]);
}

/* ---- all dates, and the numbers beyond their ends */

static void sweep(void)
{
    static const int32_t months_on[] = {0, 1, -1, 12, -13, 7, 1200, -4800, 2400000, -6291431, 6291431, INT32_MIN, INT32_MAX};
    size_t turn = 0;
    for (int64_t first = (int64_t)CALENDAR_MIN - BEYOND; first <= (int64_t)CALENDAR_MAX + BEYOND; first += BLOCK, turn++) {
        int64_t left = (int64_t)CALENDAR_MAX + BEYOND + 1 - first;
        size_t n = left < BLOCK ? (size_t)left : BLOCK;
        for (size_t i = 0; i < n; i++) dates[i] = (int32_t)(first + (int64_t)i);
        compare_block(n, (int32_t)(turn * 7919 % 400000000) - 200000000, months_on[turn % 13]);
    }
}

/* Any numbers, with those at the ends of their type among them. */
static int32_t hostile(void)
{
    static const int32_t ends[] = {
        INT32_MIN, INT32_MIN + 1, -2000000000, CALENDAR_MIN - 1, CALENDAR_MIN, CALENDAR_MIN + 1, -262144, -262143, -1, 0, 1,
        262142, 262143, 719163, CALENDAR_MAX - 1, CALENDAR_MAX, CALENDAR_MAX + 1, 191491528, 191491529, INT32_MAX - 1, INT32_MAX,
    };
    uint64_t it = draw();
    return it % 3 ? (int32_t)(it >> 20) : ends[(it >> 8) % (sizeof ends / sizeof *ends)];
}

static void hostile_numbers(void)
{
    for (int turn = 0; turn < 500; turn++) {
        for (size_t i = 0; i < BLOCK; i++) dates[i] = hostile();
        compare_block(BLOCK, hostile(), hostile());
        for (size_t i = 0; i < BLOCK; i++) wide[i] = i % 4 ? (int64_t)draw() >> (draw() % 64) : (int64_t)hostile() * 4;
        wide[0] = INT64_MIN, wide[1] = INT64_MAX, wide[2] = (int64_t)UINT32_MAX + 1, wide[3] = -((int64_t)1 << 32);
        long wrong = !calendar_column_from_unix_days(wide, BLOCK, numbers, BLOCK);
        for (size_t i = 0; i < BLOCK; i++) wrong += numbers[i] != from_unix(wide[i]);
        count(!wrong, "days since 1970 of any size", turn);
    }
}

/* Texts of ten bytes that are a date's but for a byte or two, and bytes of any kind, each beside the single call. */
static void hostile_texts(void)
{
    static const char likely[] = "00112233456789999-//::+ T";
    for (int turn = 0; turn < 2000; turn++) {
        for (size_t i = 0; i < BLOCK; i++) {
            uint8_t *text = texts + 10 * i;
            text_of((int32_t)(draw() % 3652425) - 365, text);
            for (uint64_t left = draw() % 4; left; left--) {
                uint64_t it = draw();
                text[it % 10] = it % 3 ? (uint8_t)likely[(it >> 8) % (sizeof likely - 1)] : (uint8_t)(it >> 16);
            }
        }
        long wrong = !calendar_column_read_dates(texts, BLOCK, numbers, BLOCK);
        for (size_t i = 0; i < BLOCK; i++) wrong += numbers[i] != calendar_read_date(texts + 10 * i, 10);
        count(!wrong, "texts of ten bytes", turn);
    }
}

/* All months and days of a byte, in years of each kind and at the ends. */
static void hostile_names(void)
{
    static const int32_t of_years[] = {
        INT32_MIN, -2147400000, -262144, -262143, -4, -1, 0, 1, 4, 100, 400, 1900, 1999, 2000, 2023, 2024, 2100, 262142, 262143, INT32_MAX,
    };
    for (size_t y = 0; y < sizeof of_years / sizeof *of_years; y++) {
        for (size_t month = 0; month < 256; month++) {
            for (size_t i = 0; i < 256; i++) years[i] = of_years[y], months[i] = (uint8_t)month, days[i] = (uint8_t)i;
            long wrong = !calendar_column_join(years, 256, months, 256, days, 256, numbers, 256);
            for (size_t i = 0; i < 256; i++) wrong += numbers[i] != calendar_from_ymd(years[i], months[i], days[i]);
            count(!wrong, "names of days, year", of_years[y]);
        }
    }
}

/* ---- lengths and places */

/* A column of n elements of so many bytes, at a place in memory, between bytes that have to stay. */
typedef struct {
    uint8_t *whole, *at;
    size_t bytes;
} room;

static room room_of(size_t n, size_t size, size_t place)
{
    room made = {malloc(2 * GUARD + PLACES * 10 + n * size), NULL, n * size};
    if (!made.whole) exit(2);
    made.at = made.whole + GUARD + place * size;
    memset(made.whole, 0xA5, 2 * GUARD + PLACES * 10 + n * size);
    return made;
}

/* Whether the bytes of the column are these, and the others as they were. */
static bool holds(room made, const void *wanted)
{
    bool right = !memcmp(made.at, wanted, made.bytes);
    for (uint8_t *it = made.whole; it < made.at + made.bytes + GUARD; it++) {
        right &= (it >= made.at && it < made.at + made.bytes) || *it == 0xA5;
    }
    free(made.whole);
    return right;
}

static void one_length(size_t n, size_t place)
{
    for (size_t i = 0; i < n; i++) dates[i] = i % 5 == 3 ? hostile() : (int32_t)(draw() % 191491529) + CALENDAR_MIN;
    room in = room_of(n, 4, place), of_years = room_of(n, 4, place), of_months = room_of(n, 1, place), of_days = room_of(n, 1, place);
    memcpy(in.at, dates, 4 * n);
    const int32_t *from = (const int32_t *)in.at;
    bool right = calendar_column_split(from, n, (int32_t *)of_years.at, n, of_months.at, n, of_days.at, n);
    for (size_t i = 0; i < n; i++) {
        calendar_ymd one = calendar_split(dates[i]);
        years[i] = one.year, months[i] = one.month, days[i] = one.day;
    }
    right &= holds(of_years, years) & holds(of_months, months) & holds(of_days, days);
    room of_weekdays = room_of(n, 1, place), joined = room_of(n, 4, place), moved = room_of(n, 4, place), later = room_of(n, 4, place);
    right &= calendar_column_weekdays(from, n, of_weekdays.at, n);
    for (size_t i = 0; i < n; i++) small[i] = (uint8_t)or_zero(calendar_weekday(dates[i]));
    right &= holds(of_weekdays, small);
    right &= calendar_column_join(years, n, months, n, days, n, (int32_t *)joined.at, n);
    for (size_t i = 0; i < n; i++) numbers[i] = is_date(dates[i]) ? dates[i] : NONE;
    right &= holds(joined, numbers);
    right &= calendar_column_add_days(from, n, 40000, (int32_t *)moved.at, n);
    for (size_t i = 0; i < n; i++) numbers[i] = calendar_add_days(dates[i], 40000);
    right &= holds(moved, numbers);
    right &= calendar_column_add_months(from, n, -37, (int32_t *)later.at, n);
    for (size_t i = 0; i < n; i++) numbers[i] = calendar_add_months(dates[i], -37);
    right &= holds(later, numbers);
    room of_ordinals = room_of(n, 2, place), of_unix = room_of(n, 8, place % 8), again = room_of(n, 4, place);
    right &= calendar_column_ordinals(from, n, (uint16_t *)of_ordinals.at, n);
    for (size_t i = 0; i < n; i++) ordinals[i] = (uint16_t)or_zero(calendar_ordinal(dates[i]));
    right &= holds(of_ordinals, ordinals);
    right &= calendar_column_to_unix_days(from, n, (int64_t *)of_unix.at, n);
    for (size_t i = 0; i < n; i++) wide[i] = to_unix(dates[i]), numbers[i] = is_date(dates[i]) ? dates[i] : NONE;
    right &= calendar_column_from_unix_days((int64_t *)of_unix.at, n, (int32_t *)again.at, n);
    right &= holds(of_unix, wide) & holds(again, numbers);
    room days_moved = room_of(n, 4, place), months_moved = room_of(n, 4, place), each_moved = room_of(n, 4, place);
    memcpy(days_moved.at, dates, 4 * n), memcpy(months_moved.at, dates, 4 * n), memcpy(each_moved.at, dates, 4 * n);
    calendar_column_add_days_in_place((int32_t *)days_moved.at, n, 40000);
    for (size_t i = 0; i < n; i++) numbers[i] = calendar_add_days(dates[i], 40000), counts[i] = (int32_t)i - 30;
    right &= holds(days_moved, numbers);
    calendar_column_add_months_in_place((int32_t *)months_moved.at, n, -37);
    for (size_t i = 0; i < n; i++) numbers[i] = calendar_add_months(dates[i], -37);
    right &= holds(months_moved, numbers);
    right &= calendar_column_add_days_each_in_place((int32_t *)each_moved.at, n, counts, n);
    for (size_t i = 0; i < n; i++) numbers[i] = calendar_add_days(dates[i], counts[i]);
    right &= holds(each_moved, numbers);
    room written = room_of(n, 10, place), found = room_of(n, 4, place);
    for (size_t i = 0; i < n; i++) dates[i] = (int32_t)(draw() % 4000000) - 200000, text_of(dates[i], texts + 10 * i);
    right &= calendar_column_write_dates(dates, n, written.at, n) & calendar_column_read_dates(texts, n, (int32_t *)found.at, n);
    for (size_t i = 0; i < n; i++) numbers[i] = texts[10 * i] ? dates[i] : NONE;
    right &= holds(written, texts) & holds(found, numbers);
    size_t there = 0;
    for (size_t i = 0; i < n; i++) there += is_date(dates[i]);
    right &= calendar_column_count_dates(dates, n) == there;
    free(in.whole);
    count(right, "a column at a place, with length", (long long)n);
}

/* The other columns of a length at a place, with what they read at other places, which has to stay as it is. */
static void one_length_elsewhere(size_t n, size_t place)
{
    for (size_t i = 0; i < n; i++) dates[i] = i % 5 == 3 ? hostile() : (int32_t)(draw() % 191491529) + CALENDAR_MIN;
    for (size_t i = 0; i < n; i++) counts[i] = (int32_t)(draw() % 200000001) - 100000000;
    room in = room_of(n, 4, (5 * place + 3) % PLACES), by = room_of(n, 4, (3 * place + 1) % PLACES);
    memcpy(in.at, dates, 4 * n), memcpy(by.at, counts, 4 * n);
    const int32_t *from = (const int32_t *)in.at, *on = (const int32_t *)by.at;
    room of_years = room_of(n, 4, place), iso_years = room_of(n, 4, place), iso_weeks = room_of(n, 1, place);
    bool right = calendar_column_years(from, n, (int32_t *)of_years.at, n);
    right &= calendar_column_iso_weeks(from, n, (int32_t *)iso_years.at, n, iso_weeks.at, n);
    for (size_t i = 0; i < n; i++) {
        years[i] = calendar_year(dates[i]), numbers[i] = calendar_iso_year(dates[i]), small[i] = (uint8_t)or_zero(calendar_iso_week(dates[i]));
    }
    right &= holds(of_years, years) & holds(iso_years, numbers) & holds(iso_weeks, small);
    room moved = room_of(n, 4, place), apart = room_of(n, 4, place), found = room_of(n, 4, place);
    right &= calendar_column_add_days_each(from, n, on, n, (int32_t *)moved.at, n);
    for (size_t i = 0; i < n; i++) numbers[i] = calendar_add_days(dates[i], counts[i]);
    right &= holds(moved, numbers);
    right &= calendar_column_days_between(from, n, on, n, (int32_t *)apart.at, n);
    for (size_t i = 0; i < n; i++) numbers[i] = distance(dates[i], counts[i]);
    right &= holds(apart, numbers);
    right &= calendar_column_first_on(from, n, 0x24, (int32_t *)found.at, n);
    for (size_t i = 0; i < n; i++) numbers[i] = calendar_first_on(dates[i], 0x24);
    right &= holds(found, numbers) & holds(in, dates) & holds(by, counts);
    count(right, "a column that reads from another place, with length", (long long)n);
}

/* Columns of unequal lengths are not written. */
static void unequal(void)
{
    for (size_t n = 0; n < 4; n++) {
        for (size_t m = 0; m < 4; m++) {
            if (m == n) continue;
            uint8_t few[4] = {9, 9, 9, 9}, more[4] = {9, 9, 9, 9};
            int32_t of_years[4] = {9, 9, 9, 9}, of_dates[4] = {1, 2, 3, 4};
            bool any = calendar_column_weekdays(of_dates, n, few, m) | calendar_column_years(of_dates, n, of_years, m);
            any |= calendar_column_split(of_dates, n, of_years, m, few, n, more, n);
            any |= calendar_column_split(of_dates, n, of_years, n, few, m, more, n);
            any |= calendar_column_split(of_dates, n, of_years, n, few, n, more, m);
            any |= calendar_column_add_days(of_dates, n, 1, of_years, m) | calendar_column_add_months(of_dates, n, 1, of_years, m);
            any |= calendar_column_join(of_dates, n, few, m, more, n, of_years, n);
            any |= calendar_column_join(of_dates, n, few, n, more, m, of_years, n);
            any |= calendar_column_join(of_dates, n, few, n, more, n, of_years, m);
            any |= calendar_column_days_between(of_dates, n, of_dates, m, of_years, n);
            any |= calendar_column_add_days_each_in_place(of_years, n, of_dates, m);
            any |= calendar_column_iso_weeks(of_dates, n, of_years, m, few, n) | calendar_column_iso_weeks(of_dates, n, of_years, n, few, m);
            any |= calendar_column_first_on(of_dates, n, 1, of_years, m) | calendar_column_days_between(of_dates, n, of_dates, n, of_years, m);
            any |= calendar_column_add_days_each(of_dates, n, of_dates, m, of_years, n);
            any |= calendar_column_add_days_each(of_dates, n, of_dates, n, of_years, m);
            uint16_t of_ordinals[4] = {9, 9, 9, 9};
            int64_t of_days[4] = {9, 9, 9, 9};
            any |= calendar_column_ordinals(of_dates, n, of_ordinals, m) | calendar_column_to_unix_days(of_dates, n, of_days, m);
            any |= calendar_column_from_unix_days(of_days, n, of_years, m);
            for (int i = 0; i < 4; i++) any |= of_ordinals[i] != 9 || of_days[i] != 9;
            uint8_t of_texts[40] = {0};
            any |= calendar_column_write_dates(of_dates, n, of_texts, m) | calendar_column_read_dates(of_texts, n, of_years, m);
            for (int i = 0; i < 40; i++) any |= of_texts[i] != 0;
            for (int i = 0; i < 4; i++) any |= few[i] != 9 || more[i] != 9 || of_years[i] != 9;
            count(!any, "columns of unequal lengths", (long long)n);
        }
    }
}

int main(void)
{
    unequal();
    for (size_t n = 0; n <= LONGEST; n++) {
        for (size_t place = 0; place < PLACES; place++) one_length(n, place), one_length_elsewhere(n, place);
    }
    hostile_names();
    hostile_numbers();
    hostile_texts();
    sweep();
    printf("%ld passed, %ld failed\n", passed, failed);
    return failed != 0;
}
