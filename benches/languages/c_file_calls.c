/* Calls of calendar.h: `c_file_calls CALL COUNT` makes a call so many times, or one for a column of 4,096 dates, and prints a sum of
 * what is written. The dates are in the years 1800 to 2199. */
#include "calendar.h"

#include <stdio.h>
#include <stdlib.h>
#include <string.h>

enum { ROWS = 4096, TEXT = 10, ROOM = 32, FIRST = 657072, YEARS_400 = 146097, UNIX = 719163 };

static int32_t dates[ROWS], others[ROWS], years[ROWS], steps[ROWS], made[ROWS];
static int64_t unix_days[ROWS];
static uint16_t ordinals[ROWS];
static uint8_t months[ROWS], days[ROWS], texts[ROWS * TEXT], room[ROOM], moment_texts[ROWS][ROOM];
static calendar_date_time moments[ROWS];
static uint64_t state = 88172645463325252u, sum;

static uint32_t below(uint32_t bound)
{
    state ^= state << 13;
    state ^= state >> 7;
    state ^= state << 17;
    return (uint32_t)(state >> 32) % bound;
}

static void fill(void)
{
    for (int i = 0; i < ROWS; i++) {
        dates[i] = FIRST + (int32_t)below(YEARS_400);
        others[i] = FIRST + (int32_t)below(YEARS_400);
        steps[i] = (int32_t)below(2000) - 1000;
        unix_days[i] = dates[i] - UNIX;
        calendar_ymd it = calendar_split(dates[i]);
        years[i] = it.year;
        months[i] = (uint8_t)it.month;
        days[i] = (uint8_t)it.day;
        moments[i] = calendar_date_time_new(dates[i], below(86400), 0);
        calendar_write_date(dates[i], texts + TEXT * i, TEXT);
        calendar_write_date_time(moments[i], moment_texts[i], ROOM);
    }
}

/* A call whose answer counts for each row, and a call of a whole column. */
#define EACH(name, answer) if (!strcmp(call, #name)) for (size_t n = 0; n < count; n++) { size_t i = n % ROWS; sum += (uint64_t)(answer); }
#define WHOLE(name, ...) if (!strcmp(call, #name)) for (size_t n = 0; n < count; n++) (void)calendar_##name(__VA_ARGS__);

static void call_singles(const char *call, size_t count)
{
    EACH(from_ymd, calendar_from_ymd(years[i], months[i], days[i]))
    EACH(year, calendar_year(dates[i]))
    EACH(weekday, calendar_weekday(dates[i]))
    EACH(iso_week, calendar_iso_week(dates[i]))
    EACH(split, calendar_split(dates[i]).day)
    EACH(add_days, calendar_add_days(dates[i], steps[i]))
    EACH(add_months, calendar_add_months(dates[i], steps[i]))
    EACH(date_time_add, calendar_date_time_add(moments[i], ((calendar_duration){steps[i], 5})).seconds)
    EACH(date_time_since, calendar_date_time_since(moments[i], moments[(i + 1) % ROWS]).seconds)
    EACH(write_date, calendar_write_date(dates[i], room, ROOM))
    EACH(read_date, calendar_read_date(texts + TEXT * i, TEXT))
    EACH(write_date_time, calendar_write_date_time(moments[i], room, ROOM))
    EACH(read_date_time, calendar_read_date_time(moment_texts[i], 19).seconds)
}

static void call_columns(const char *call, size_t count)
{
    WHOLE(column_weekdays, dates, ROWS, months, ROWS)
    WHOLE(column_years, dates, ROWS, made, ROWS)
    WHOLE(column_ordinals, dates, ROWS, ordinals, ROWS)
    WHOLE(column_split, dates, ROWS, years, ROWS, months, ROWS, days, ROWS)
    WHOLE(column_iso_weeks, dates, ROWS, years, ROWS, months, ROWS)
    WHOLE(column_join, years, ROWS, months, ROWS, days, ROWS, made, ROWS)
    WHOLE(column_add_days, dates, ROWS, 90, made, ROWS)
    WHOLE(column_add_days_each, dates, ROWS, steps, ROWS, made, ROWS)
    WHOLE(column_add_months, dates, ROWS, 3, made, ROWS)
    WHOLE(column_days_between, dates, ROWS, others, ROWS, made, ROWS)
    WHOLE(column_first_on, dates, ROWS, 0x11, made, ROWS)
    WHOLE(column_from_unix_days, unix_days, ROWS, made, ROWS)
    WHOLE(column_to_unix_days, dates, ROWS, unix_days, ROWS)
    WHOLE(column_write_dates, dates, ROWS, texts, ROWS)
    WHOLE(column_read_dates, texts, ROWS, made, ROWS)
}

int main(int argc, char **argv)
{
    if (argc != 3)
        return 2;
    fill();
    call_singles(argv[1], strtoul(argv[2], NULL, 10));
    call_columns(argv[1], strtoul(argv[2], NULL, 10));
    for (int i = 0; i < ROWS; i++)
        sum = sum * 31 + (uint32_t)made[i] + (uint32_t)years[i] + months[i] + days[i] + ordinals[i] + (uint64_t)unix_days[i] + texts[i];
    printf("%016llx\n", (unsigned long long)sum);
    return 0;
}
