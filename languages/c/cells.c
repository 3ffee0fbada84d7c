/* An example of each layer in C. What stands behind `=` is what its line prints. checks/packages/cells.py looks for these parts. */
#include "calendar_layers.h"

#include <stdio.h>
#include <string.h>

enum { WEEKEND = 32 + 64, TEXT = 32 };

/* A text as the library takes it, and a date as it prints. */
#define BYTES(text) (const uint8_t *)(text), strlen(text)

static void print_date(int32_t date)
{
    uint8_t text[TEXT];
    int32_t length = calendar_write_date(date, text, sizeof text);
    printf("%.*s\n", (int)length, (const char *)text);
}

/* == texts read */
static void texts_read(void)
{
    print_date(calendar_read_date(BYTES("2024-02-29"))); /* = 2024-02-29 */
    printf("%d\n", calendar_read_date(BYTES("2023-02-29")) == CALENDAR_NONE); /* = 1 */
}

/* == patterns */
static void patterns(void)
{
    uint8_t text[TEXT];
    int32_t length = calendar_format_date(BYTES("%d.%m.%Y"), calendar_from_ymd(2024, 2, 29), text, sizeof text);
    printf("%.*s\n", (int)length, (const char *)text); /* = 29.02.2024 */
}

/* == schedules */
static void schedules(void)
{
    calendar_schedule schedule;
    calendar_fault fault;
    if (calendar_schedule_read(BYTES("30 4 1,15 * fri"), &schedule, &fault)) {
        calendar_date_time start = calendar_date_time_new(calendar_from_ymd(2024, 2, 9), 16200, 0);
        print_date(calendar_date_time_date(calendar_schedule_next(&schedule, start))); /* = 2024-02-15 */
    }
}

/* == schedules in a zone */
static void schedules_in_a_zone(void)
{
    const char *berlin = "CET-1CEST,M3.5.0,M10.5.0/3";
    calendar_schedule nightly;
    calendar_fault fault;
    if (calendar_schedule_read(BYTES("30 2 * * *"), &nightly, &fault)) {
        /* 12:00 in UTC on 30 March 2024, before the night in which the clock skips 02:30 */
        calendar_date_time start = {.seconds = 1711800000};
        calendar_date_time next = calendar_zone_schedule_next(&nightly, BYTES(berlin), start);
        printf("%lld\n", (long long)next.seconds); /* = 1711846800 */
        printf("%lld\n", (long long)calendar_zone_schedule_prev(&nightly, BYTES(berlin), next).seconds); /* = 1711762200 */
    }
}

/* == schedules with seconds */
static void schedules_with_seconds(void)
{
    /* after 04:30:15 of 9 February 2024 */
    calendar_date_time start = {.seconds = 1707453015};
    calendar_date_time next = calendar_timed_schedule_next(BYTES("*/15 30 4 * * *"), CALENDAR_DIALECT_SECONDS, start);
    printf("%lld\n", (long long)next.seconds); /* = 1707453030 */
}

/* == recurrence rules */
static void recurrence_rules(void)
{
    int32_t start = calendar_from_ymd(2024, 1, 1);
    print_date(calendar_rule_next(BYTES("FREQ=MONTHLY;BYDAY=-1FR"), start, start)); /* = 2024-01-26 */
}

/* == rules and calendars in a zone */
static void calendars_in_a_zone(void)
{
    const char *text = "DTSTART;TZID=Europe/Berlin:20240330T023000\nRRULE:FREQ=DAILY\n", *berlin = "CET-1CEST,M3.5.0,M10.5.0/3";
    /* the first instant, and the next in the night in which the clock skips 02:30 */
    calendar_date_time first = calendar_text_next(BYTES(text), BYTES(berlin), (calendar_date_time){.seconds = 0});
    printf("%lld\n", (long long)first.seconds); /* = 1711762200 */
    printf("%lld\n", (long long)calendar_text_next(BYTES(text), BYTES(berlin), first).seconds); /* = 1711848600 */
}

/* == open days */
static void open_days(void)
{
    int32_t holidays[] = {calendar_from_ymd(2024, 3, 29), calendar_from_ymd(2024, 4, 1)};
    print_date(calendar_add_open_days(WEEKEND, holidays, 2, calendar_from_ymd(2024, 3, 28), 2)); /* = 2024-04-03 */
}

/* == holidays */
static void holidays(void)
{
    int32_t found[20];
    printf("%d\n", (int)calendar_holidays_of(CALENDAR_TARGET, 2024, 2024, WEEKEND, found, 20)); /* = 6 */
    print_date(found[1]); /* = 2024-03-29 */
}

/* == Easter */
static void easter(void)
{
    print_date(calendar_easter(2024)); /* = 2024-03-31 */
}

/* == day counts */
static void day_counts(void)
{
    int32_t from = calendar_from_ymd(2024, 1, 31), to = calendar_from_ymd(2024, 3, 1);
    calendar_fraction part = calendar_day_count(CALENDAR_ACTUAL_360, from, to);
    printf("%d/%d\n", (int)part.numerator, (int)part.denominator); /* = 30/360 */
}

/* == columns */
static void columns(void)
{
    int32_t dates[] = {calendar_from_ymd(2024, 1, 31), CALENDAR_NONE}, moved[2];
    printf("%d\n", calendar_column_add_months(dates, 2, 1, moved, 2)); /* = 1 */
    print_date(moved[0]); /* = 2024-02-29 */
    printf("%d\n", moved[1] == CALENDAR_NONE); /* = 1 */
}

/* == zones */
static void zones(void)
{
    const char *berlin = "CET-1CEST,M3.5.0,M10.5.0/3";
    printf("%d\n", (int)calendar_zone_offset_at(BYTES(berlin), 1711846800)); /* = 7200 */
    /* 02:30 on 31 March 2024, which the clock skips */
    printf("%u\n", (unsigned)calendar_zone_offsets_of_local(BYTES(berlin), 1711852200).count); /* = 0 */
}

int main(void)
{
    texts_read();
    patterns();
    schedules();
    schedules_in_a_zone();
    schedules_with_seconds();
    recurrence_rules();
    calendars_in_a_zone();
    open_days();
    holidays();
    easter();
    day_counts();
    columns();
    zones();
    return 0;
}
