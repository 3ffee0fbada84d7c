/* Calls every function of calendar_layers.h, with answers that are known from outside. The last line is `N passed, M failed`. */
#include "calendar_layers.h"

#include <stdio.h>
#include <string.h>

static int passed, failed;

/* Counts an answer, and tells of a wrong one. */
static void count(bool is_right, int line, const char *call)
{
    if (is_right) {
        passed++;
    } else {
        failed++;
        printf("line %d: %s\n", line, call);
    }
}

#define IS(call, answer) count((call) == (answer), __LINE__, #call)

static calendar_date_time moment(int64_t seconds, uint32_t nanos)
{
    calendar_date_time made = {seconds, nanos};
    return made;
}

static bool same_moment(calendar_date_time moment, int64_t seconds, uint32_t nanos)
{
    return moment.seconds == seconds && moment.nanos == nanos;
}

#define IS_MOMENT(call, seconds, nanos) count(same_moment(call, seconds, nanos), __LINE__, #call)
#define NO_MOMENT(call) IS_MOMENT(call, 0, CALENDAR_NO_NANOS)

/* 2024-03-01T00:00:00 and the seconds of a day. */
#define MARCH 1709251200
#define DAY 86400

static bool reads(const char *text, calendar_schedule *schedule, calendar_fault *fault)
{
    return calendar_schedule_read((const uint8_t *)text, strlen(text), schedule, fault);
}

static bool has_fault(const char *text, uint32_t code, uint32_t field, size_t byte, size_t end)
{
    calendar_schedule schedule;
    calendar_fault fault;
    memset(&schedule, 0x5a, sizeof schedule);
    calendar_schedule before = schedule;
    return !reads(text, &schedule, &fault) && memcmp(&schedule, &before, sizeof schedule) == 0 && fault.code == code
        && fault.field == field && fault.byte == byte && fault.end == end;
}

static void texts_of_schedules(void)
{
    calendar_schedule schedule;
    calendar_fault fault = {7, 8, 9, 10};
    IS(reads("30 4 1,15 * fri", &schedule, &fault), true);
    IS(schedule.minutes, (uint64_t)1 << 30);
    IS(schedule.hours, (uint64_t)1 << 4);
    IS(schedule.days, (uint64_t)1 << 1 | (uint64_t)1 << 15);
    IS(schedule.months, (uint64_t)8190);
    IS(schedule.weekdays, (uint64_t)1 << 5);
    IS(schedule.marks, 1u);
    /* nothing is wrong, so the fault stays */
    IS(fault.code, 7u);
    IS(fault.end, 10u);
    IS(reads("0 0 L-3,15W,LW * 5L,7#2", &schedule, &fault), true);
    IS(schedule.days_from_end, 8u);
    IS(schedule.nearest_workdays, 32768u);
    IS(schedule.last_weekdays, 32u);
    IS(schedule.nth_weekdays, 128u);
    IS(schedule.marks, 3u);
    /* what begins with * in the minutes or the hours follows the clock */
    IS(reads("*/5 2 1 * 1", &schedule, &fault) && schedule.marks == 5u, true);
    IS(reads("@hourly", &schedule, &fault) && schedule.marks == 4u, true);
    IS(reads("@daily", &schedule, &fault) && schedule.marks == 0u, true);
    IS(has_fault("0 25,7 * * *", CALENDAR_SCHEDULE_OUT_OF_RANGE, 2, 2, 4), true);
    IS(has_fault("5,60 * * * *", CALENDAR_SCHEDULE_OUT_OF_RANGE, 1, 2, 4), true);
    IS(has_fault("* * * *", CALENDAR_SCHEDULE_TOO_FEW_FIELDS, 0, 7, 7), true);
    IS(has_fault("", CALENDAR_SCHEDULE_EMPTY, 0, 0, 0), true);
    IS(has_fault("* * * * * *", CALENDAR_SCHEDULE_TOO_MANY_FIELDS, 0, 10, 11), true);
    IS(has_fault("* * * foo *", CALENDAR_SCHEDULE_UNKNOWN_NAME, 4, 6, 9), true);
    IS(has_fault("* * * * */0", CALENDAR_SCHEDULE_STEP_OF_ZERO, 5, 10, 11), true);
    IS(has_fault("@reboot", CALENDAR_SCHEDULE_REBOOT, 0, 0, 7), true);
}

static bool says(uint32_t code, uint32_t field, size_t byte, const char *sentence)
{
    calendar_fault fault = {code, field, byte, byte};
    uint8_t text[99];
    int32_t length = calendar_schedule_fault_text(&fault, text, sizeof text);
    return length == (int32_t)strlen(sentence) && memcmp(text, sentence, strlen(sentence)) == 0;
}

static void sentences_of_schedules(void)
{
    calendar_fault fault = {CALENDAR_SCHEDULE_EMPTY, 1, 7, 7};
    uint8_t text[36];
    IS(says(CALENDAR_SCHEDULE_OUT_OF_RANGE, 2, 2, "hour, byte 2: a number that is out of range"), true);
    IS(says(CALENDAR_SCHEDULE_TOO_FEW_FIELDS, 0, 9, "byte 9: too few fields"), true);
    IS(says(CALENDAR_SCHEDULE_RANGE_TURNED_ROUND, 3, SIZE_MAX,
            "day of the month, byte 18446744073709551615: a range whose end is below its beginning"), true);
    IS(calendar_schedule_fault_text(&fault, text, 36), 36);
    IS(calendar_schedule_fault_text(&fault, text, 35), CALENDAR_NONE);
    fault.code = 0;
    IS(calendar_schedule_fault_text(&fault, text, sizeof text), CALENDAR_NONE);
    fault.code = CALENDAR_SCHEDULE_QUESTION_MARKS;
    IS(calendar_schedule_fault_text(&fault, text, sizeof text), CALENDAR_NONE);
    /* seconds and years, which have no names there */
    IS(says(CALENDAR_SCHEDULE_OUT_OF_RANGE, 6, 0, "byte 0: a number that is out of range"), true);
    IS(says(CALENDAR_SCHEDULE_OUT_OF_RANGE, 7, 12, "byte 12: a number that is out of range"), true);
}

typedef int32_t Sayer(const calendar_fault *fault, uint8_t *text, size_t room);

/* Whether a call writes a sentence where there is just room for it, and writes nothing where there is less. */
static bool is_written(Sayer *say, uint32_t code, uint32_t field, size_t byte, const char *sentence)
{
    calendar_fault fault = {code, field, byte, byte};
    uint8_t text[99] = {0};
    size_t length = strlen(sentence);
    return say(&fault, text, length - 1) == CALENDAR_NONE && text[0] == 0 && say(&fault, text, length) == (int32_t)length
        && memcmp(text, sentence, length) == 0;
}

static bool is_unknown(Sayer *say, uint32_t code)
{
    calendar_fault fault = {code, 0, 0, 0};
    uint8_t text[99];
    return say(&fault, text, sizeof text) == CALENDAR_NONE;
}

static void sentences_of_timed_schedules(void)
{
    Sayer *say = calendar_timed_schedule_fault_text;
    IS(is_written(say, CALENDAR_SCHEDULE_OUT_OF_RANGE, 6, 2, "second, byte 2: a number that is out of range"), true);
    IS(is_written(say, CALENDAR_SCHEDULE_OUT_OF_RANGE, 7, 12, "year, byte 12: a number that is out of range"), true);
    IS(is_written(say, CALENDAR_SCHEDULE_OUT_OF_RANGE, 2, 4, "hour, byte 4: a number that is out of range"), true);
    IS(is_written(say, CALENDAR_SCHEDULE_TOO_FEW_FIELDS, 0, 9, "byte 9: too few fields"), true);
    IS(is_written(say, CALENDAR_SCHEDULE_TOO_FEW_FIELDS, 8, 9, "byte 9: too few fields"), true);
    IS(is_written(say, CALENDAR_SCHEDULE_QUESTION_MARKS, 5, 10, "weekday, byte 10: not just one field of days is ?"), true);
    IS(is_written(say, CALENDAR_SCHEDULE_RANGE_TURNED_ROUND, 3, SIZE_MAX,
                  "day of the month, byte 18446744073709551615: a range whose end is below its beginning"), true);
    IS(is_unknown(say, 0), true);
    IS(is_unknown(say, CALENDAR_SCHEDULE_QUESTION_MARKS + 1), true);
}

static void sentences_of_holidays(void)
{
    Sayer *say = calendar_holidays_fault_text;
    IS(is_written(say, CALENDAR_HOLIDAYS_TOO_MANY, 0, CALENDAR_MOST_HOLIDAYS, "holiday 1000 is one too many"), true);
    IS(is_written(say, CALENDAR_HOLIDAYS_NOT_A_DATE, 0, 0, "holiday 0 is no date"), true);
    IS(is_written(say, CALENDAR_HOLIDAYS_NOT_RISING, 0, SIZE_MAX, "holiday 18446744073709551615 does not come after the one before"), true);
    IS(is_written(say, CALENDAR_HOLIDAYS_ON_WEEKEND, 0, 1, "holiday 1 is on the weekend"), true);
    IS(is_unknown(say, 0), true);
    IS(is_unknown(say, CALENDAR_HOLIDAYS_ON_WEEKEND + 1), true);
}

static void sentences_of_patterns(void)
{
    Sayer *say = calendar_pattern_fault_text;
    IS(is_written(say, CALENDAR_PATTERN_UNKNOWN, 0, 3, "byte 3: an unknown specifier"), true);
    IS(is_written(say, CALENDAR_PATTERN_CUT, 0, 3, "byte 3: the bytes end within a specifier"), true);
    IS(is_written(say, CALENDAR_TEXT_TOO_SHORT, 0, 0, "byte 0: the text ends too soon"), true);
    IS(is_written(say, CALENDAR_TEXT_TOO_LONG, 0, SIZE_MAX, "byte 18446744073709551615: the text goes on behind the end of the pattern"), true);
    IS(is_written(say, CALENDAR_TEXT_INVALID, 0, 2, "byte 2: the pattern has no such text there"), true);
    IS(is_written(say, CALENDAR_TEXT_OUT_OF_RANGE, 0, 3, "byte 3: the field has no such value"), true);
    IS(is_written(say, CALENDAR_TEXT_IMPOSSIBLE, 0, 0, "byte 0: no value fits all fields"), true);
    IS(is_written(say, CALENDAR_TEXT_NOT_ENOUGH, 0, 0, "byte 0: the fields do not suffice for the value"), true);
    IS(is_unknown(say, 0), true);
    IS(is_unknown(say, CALENDAR_TEXT_NOT_ENOUGH + 1), true);
}

static void times_of_schedules(void)
{
    calendar_schedule schedule;
    calendar_fault fault;
    calendar_date_time out[4];
    IS(reads("0 9 * * mon-fri", &schedule, &fault), true);
    /* 1 March 2024 is a Friday */
    IS_MOMENT(calendar_schedule_next(&schedule, moment(MARCH, 0)), MARCH + 9 * 3600, 0);
    IS_MOMENT(calendar_schedule_next(&schedule, moment(MARCH + 9 * 3600, 0)), MARCH + 3 * DAY + 9 * 3600, 0);
    IS_MOMENT(calendar_schedule_prev(&schedule, moment(MARCH + 3 * DAY, 0)), MARCH + 9 * 3600, 0);
    IS(calendar_schedule_is_due(&schedule, moment(MARCH + 9 * 3600, 0)), true);
    IS(calendar_schedule_is_due(&schedule, moment(MARCH + 9 * 3600, 1)), false);
    IS(calendar_schedule_is_due(&schedule, moment(MARCH + DAY + 9 * 3600, 0)), false);
    IS(calendar_schedule_due(&schedule, moment(MARCH, 0), moment(MARCH + 4 * DAY, 0), out, 4), 2u);
    IS_MOMENT(out[0], MARCH + 9 * 3600, 0);
    IS_MOMENT(out[1], MARCH + 3 * DAY + 9 * 3600, 0);
    IS(calendar_schedule_due(&schedule, moment(MARCH, 0), moment(INT64_C(8210266876799), 0), out, 4), 4u);
    IS_MOMENT(out[3], MARCH + 5 * DAY + 9 * 3600, 0);
    /* the last one counts */
    IS(calendar_schedule_due(&schedule, moment(MARCH, 0), moment(MARCH + 9 * 3600, 0), out, 4), 1u);
    IS(calendar_schedule_due(&schedule, moment(MARCH, 0), moment(MARCH + 9 * 3600 - 1, 0), out, 4), 0u);
    IS(calendar_schedule_due(&schedule, moment(MARCH, 0), moment(MARCH + DAY, 0), out, 0), 0u);
    NO_MOMENT(calendar_schedule_next(&schedule, moment(0, CALENDAR_NO_NANOS)));
    NO_MOMENT(calendar_schedule_prev(&schedule, moment(INT64_MIN, 0)));
    IS(calendar_schedule_is_due(&schedule, moment(INT64_MAX, 0)), false);
    IS(calendar_schedule_due(&schedule, moment(MARCH, 2000000000), moment(MARCH + DAY, 0), out, 4), 0u);
    IS(reads("0 0 30 2 *", &schedule, &fault), true);
    NO_MOMENT(calendar_schedule_next(&schedule, moment(MARCH, 0)));
    memset(&schedule, 0xff, sizeof schedule);
    IS_MOMENT(calendar_schedule_next(&schedule, moment(MARCH, 0)), MARCH + 60, 0);
}

static bool is_rule(const char *text, calendar_fault *fault)
{
    return calendar_rule_check((const uint8_t *)text, strlen(text), fault);
}

static bool is_wrong_rule(const char *text, uint32_t code, uint32_t field, size_t byte, size_t end, const char *sentence)
{
    calendar_fault fault;
    uint8_t said[64];
    return !is_rule(text, &fault) && fault.code == code && fault.field == field && fault.byte == byte && fault.end == end
        && calendar_rule_fault_text(&fault, said, sizeof said) == (int32_t)strlen(sentence) && memcmp(said, sentence, strlen(sentence)) == 0;
}

static void texts_of_rules(void)
{
    calendar_fault fault = {7, 8, 9, 10};
    uint8_t said[64];
    IS(is_rule("FREQ=MONTHLY;BYDAY=-1FR", &fault), true);
    IS(fault.code, 7u);
    IS(fault.end, 10u);
    IS(is_wrong_rule("FREQ=MONTHLY;BYMONTHDAY=1,32", CALENDAR_RULE_OUT_OF_RANGE, 6, 26, 28, "BYMONTHDAY: number out of range"), true);
    IS(is_wrong_rule("FREQ=WEEKLY;BYMONTHDAY=1;COUNT=3", CALENDAR_RULE_NOT_WITH_WEEKLY, 6, 12, 24, "BYMONTHDAY: does not go with WEEKLY"), true);
    IS(is_wrong_rule("FREQ=DAILY;BYDAY=1MO", CALENDAR_RULE_NUMBERS_NOT_WITH_DAILY, 7, 11, 20, "BYDAY: number does not go with DAILY"), true);
    IS(is_wrong_rule("FREQ=DAILY;BYHOUR=9", CALENDAR_RULE_OF_HOURS, 0, 11, 19, "BYHOUR: not in rules over days"), true);
    IS(is_wrong_rule("COUNT=3", CALENDAR_RULE_MISSING, 1, 7, 7, "FREQ: missing"), true);
    IS(is_wrong_rule("FREQ=YEARLY;BYSETPOS=1", CALENDAR_RULE_ALONE, 10, 12, 22, "BYSETPOS: needs another BY part"), true);
    IS(is_wrong_rule("", CALENDAR_RULE_EMPTY, 0, 0, 0, "empty"), true);
    fault.code = 0;
    IS(calendar_rule_fault_text(&fault, said, sizeof said), CALENDAR_NONE);
    fault.code = 30;
    IS(calendar_rule_fault_text(&fault, said, sizeof said), CALENDAR_NONE);
    fault.code = CALENDAR_RULE_EMPTY;
    fault.field = 0;
    IS(calendar_rule_fault_text(&fault, said, 5), 5);
    IS(calendar_rule_fault_text(&fault, said, 4), CALENDAR_NONE);
}

/* 1 January 2024, a Monday, and the last Fridays of the three months from it on. */
#define JANUARY_1 738886
#define JANUARY_26 738911
#define FEBRUARY_23 738939
#define MARCH_29 738974

static void days_of_rules(void)
{
    static const char last_friday[] = "FREQ=MONTHLY;BYDAY=-1FR", two[] = "RRULE:FREQ=WEEKLY;COUNT=2;", none[] = "FREQ=HOURLY";
    const uint8_t *rule = (const uint8_t *)last_friday, *twice = (const uint8_t *)two, *wrong = (const uint8_t *)none;
    size_t length = sizeof last_friday - 1, twice_length = sizeof two - 1, wrong_length = sizeof none - 1;
    int32_t out[4] = {1, 2, 3, 4};
    IS(calendar_rule_next(rule, length, JANUARY_1, JANUARY_1), JANUARY_26);
    IS(calendar_rule_next(rule, length, JANUARY_1, JANUARY_26), FEBRUARY_23);
    IS(calendar_rule_prev(rule, length, JANUARY_1, MARCH_29), FEBRUARY_23);
    IS(calendar_rule_prev(rule, length, JANUARY_1, JANUARY_26), CALENDAR_NONE);
    IS(calendar_rule_is_instance(rule, length, JANUARY_1, FEBRUARY_23), true);
    IS(calendar_rule_is_instance(rule, length, JANUARY_1, JANUARY_1), false);
    IS(calendar_rule_next(twice, twice_length, JANUARY_1, JANUARY_1), JANUARY_1 + 7);
    IS(calendar_rule_next(twice, twice_length, JANUARY_1, JANUARY_1 + 7), CALENDAR_NONE);
    IS(calendar_rule_instances(rule, length, JANUARY_1, JANUARY_1, MARCH_29, out, 4), 3u);
    IS(out[0], JANUARY_26);
    IS(out[1], FEBRUARY_23);
    IS(out[2], MARCH_29);
    IS(out[3], 4);
    IS(calendar_rule_instances(rule, length, JANUARY_1, JANUARY_26, MARCH_29 - 1, out, 4), 2u);
    IS(calendar_rule_instances(rule, length, JANUARY_1, JANUARY_26 + 1, CALENDAR_MAX, out, 1), 1u);
    IS(out[0], FEBRUARY_23);
    IS(calendar_rule_instances(rule, length, JANUARY_1, JANUARY_1, CALENDAR_MAX, out, 0), 0u);
    IS(calendar_rule_instances(wrong, wrong_length, JANUARY_1, JANUARY_1, CALENDAR_MAX, out, 4), 0u);
    IS(calendar_rule_instances(rule, length, JANUARY_1, JANUARY_1, INT32_MAX, out, 4), 0u);
    IS(calendar_rule_next(wrong, wrong_length, JANUARY_1, JANUARY_1), CALENDAR_NONE);
    IS(calendar_rule_next(rule, length, CALENDAR_NONE, JANUARY_1), CALENDAR_NONE);
    IS(calendar_rule_prev(rule, length, JANUARY_1, CALENDAR_NONE), CALENDAR_NONE);
    IS(calendar_rule_is_instance(wrong, wrong_length, JANUARY_1, JANUARY_1), false);
    IS(calendar_rule_is_instance(rule, length, INT32_MAX, JANUARY_1), false);
}

/* 29 February 2024 and some days around it. 1 January of year 1 is day 1. */
#define FEB_29 738945
#define FRIDAY_MARCH_1 738946
#define WEEKEND 96

static void open_days(void)
{
    /* Good Friday and Easter Monday of 2024 */
    const int32_t easter[] = {738974, 738977};
    const int32_t falling[] = {738977, 738974};
    const int32_t saturday[] = {738975};
    IS(calendar_is_open_day(WEEKEND, easter, 2, 738973), true);
    IS(calendar_is_open_day(WEEKEND, easter, 2, 738974), false);
    IS(calendar_is_open_day(WEEKEND, easter, 2, 738975), false);
    IS(calendar_is_open_day(WEEKEND, easter, 2, CALENDAR_NONE), false);
    IS(calendar_is_open_day(WEEKEND, falling, 2, 738973), false);
    IS(calendar_is_open_day(WEEKEND, saturday, 1, 738973), false);
    IS(calendar_add_open_days(WEEKEND, easter, 2, 738973, 1), 738978);
    IS(calendar_add_open_days(WEEKEND, easter, 2, 738973, 2), 738979);
    IS(calendar_add_open_days(WEEKEND, easter, 2, 738978, -1), 738973);
    IS(calendar_add_open_days(WEEKEND, easter, 0, 738973, 1), 738974);
    IS(calendar_add_open_days(WEEKEND, easter, 2, 738974, 0), 738978);
    IS(calendar_add_open_days(127, easter, 0, 738974, 0), CALENDAR_NONE);
    IS(calendar_add_open_days(WEEKEND, falling, 2, 738973, 1), CALENDAR_NONE);
    IS(calendar_add_open_days(WEEKEND, easter, 2, CALENDAR_MAX, 2), CALENDAR_NONE);
    IS(calendar_add_open_days(WEEKEND, easter, 2, CALENDAR_MAX, INT64_MIN), CALENDAR_NONE);
    IS(calendar_open_days_between(WEEKEND, easter, 2, FRIDAY_MARCH_1, 738977), 20);
    IS(calendar_open_days_between(WEEKEND, easter, 0, FRIDAY_MARCH_1, 738977), 21);
    IS(calendar_open_days_between(WEEKEND, easter, 2, 738977, FRIDAY_MARCH_1), -20);
    IS(calendar_open_days_between(WEEKEND, easter, 2, CALENDAR_NONE, 738977), INT64_MIN);
    IS(calendar_open_days_between(WEEKEND, easter, 2, 738977, INT32_MAX), INT64_MIN);
    IS(calendar_roll(WEEKEND, easter, 2, 738974, CALENDAR_ROLL_UNADJUSTED), 738974);
    IS(calendar_roll(WEEKEND, easter, 2, 738974, CALENDAR_ROLL_FOLLOWING), 738978);
    IS(calendar_roll(WEEKEND, easter, 2, 738974, CALENDAR_ROLL_PRECEDING), 738973);
    IS(calendar_roll(WEEKEND, easter, 2, 738976, CALENDAR_ROLL_MODIFIED_FOLLOWING), 738973);
    IS(calendar_roll(WEEKEND, easter, 2, 738977, CALENDAR_ROLL_MODIFIED_PRECEDING), 738978);
    IS(calendar_roll(WEEKEND, easter, 2, 738976, CALENDAR_ROLL_NEAREST_ISDA), 738978);
    IS(calendar_roll(WEEKEND, easter, 2, 738974, CALENDAR_ROLL_NEAREST_QUANTLIB), 738973);
    IS(calendar_roll(WEEKEND, easter, 2, 738973, CALENDAR_ROLL_FOLLOWING), 738973);
    IS(calendar_roll(WEEKEND, easter, 2, 738973, 7), CALENDAR_NONE);
    IS(calendar_roll(WEEKEND, easter, 2, CALENDAR_NONE, 1), CALENDAR_NONE);
}

/* Where each roll takes Saturday 9, Tuesday 12 and Sunday 31 March and Monday 1 April 2024: no two of them agree on all. */
static void rolls(void)
{
    const int32_t holidays[] = {738957, 738974, 738977}, days[] = {738954, 738957, 738976, 738977};
    const struct {
        uint32_t roll;
        int32_t to[4];
    } rows[] = {
        {CALENDAR_ROLL_UNADJUSTED, {738954, 738957, 738976, 738977}},
        {CALENDAR_ROLL_FOLLOWING, {738956, 738958, 738978, 738978}},
        {CALENDAR_ROLL_PRECEDING, {738953, 738956, 738973, 738973}},
        {CALENDAR_ROLL_MODIFIED_FOLLOWING, {738956, 738958, 738973, 738978}},
        {CALENDAR_ROLL_MODIFIED_PRECEDING, {738953, 738956, 738973, 738978}},
        {CALENDAR_ROLL_NEAREST_ISDA, {738953, 738956, 738978, 738978}},
        {CALENDAR_ROLL_NEAREST_QUANTLIB, {738953, 738958, 738978, 738978}},
    };
    for (size_t i = 0; i < sizeof rows / sizeof rows[0]; i++) {
        for (size_t at = 0; at < 4; at++) {
            IS(calendar_roll(WEEKEND, holidays, 3, days[at], rows[i].roll), rows[i].to[at]);
        }
    }
}

static void many_holidays(void)
{
    int32_t holidays[CALENDAR_MOST_HOLIDAYS + 1];
    for (int k = 0; k <= CALENDAR_MOST_HOLIDAYS; k++) {
        holidays[k] = FEB_29 + k;
    }
    IS(calendar_add_open_days(0, holidays, CALENDAR_MOST_HOLIDAYS, FEB_29, 0), FEB_29 + CALENDAR_MOST_HOLIDAYS);
    IS(calendar_add_open_days(0, holidays, CALENDAR_MOST_HOLIDAYS + 1, FEB_29, 0), CALENDAR_NONE);
}

static bool is_wrong_at(const int32_t *days, size_t length, uint32_t code, size_t place)
{
    calendar_fault fault;
    return !calendar_holidays_check(WEEKEND, days, length, &fault) && fault.code == code && fault.byte == place;
}

static void holidays(void)
{
    /* TARGET's closing days of 2024 (the ECB's calendar) */
    const int32_t target[] = {738886, 738974, 738977, 739007, 739245, 739246};
    const int32_t saturday[] = {738974, 738975}, twice[] = {738974, 738974}, no_date[] = {738974, CALENDAR_NONE};
    int32_t out[20], many[CALENDAR_MOST_HOLIDAYS + 1];
    calendar_fault fault = {7, 8, 9, 10};
    out[6] = 5;
    IS(calendar_holidays_of(CALENDAR_TARGET, 2024, 2024, WEEKEND, out, 20), 6);
    IS(memcmp(out, target, sizeof target), 0);
    IS(out[6], 5);
    IS(calendar_holidays_of(CALENDAR_TARGET, 2024, 2024, WEEKEND, out, 6), 6);
    IS(calendar_holidays_of(CALENDAR_TARGET, 2024, 2024, WEEKEND, out, 5), CALENDAR_NONE);
    /* New Year's Day of 2022 was kept in 2021 */
    IS(calendar_holidays_of(CALENDAR_US_FEDERAL, 2022, 2022, WEEKEND, out, 20), 11);
    IS(out[0], 738155);
    IS(calendar_holidays_of(CALENDAR_ENGLAND_AND_WALES, 2024, 2024, WEEKEND, out, 20), 8);
    IS(calendar_holidays_of(CALENDAR_TARGET, 2024, 2023, WEEKEND, out, 20), 0);
    /* before the rules begin, and in their first years */
    IS(calendar_holidays_of(CALENDAR_US_FEDERAL, -262143, 1970, WEEKEND, out, 20), 0);
    IS(calendar_holidays_of(CALENDAR_US_FEDERAL, 1971, 1971, WEEKEND, out, 20), 9);
    IS(calendar_holidays_of(CALENDAR_TARGET, -262143, 1998, WEEKEND, out, 20), 0);
    IS(calendar_holidays_of(CALENDAR_TARGET, 1999, 1999, WEEKEND, out, 20), 2);
    IS(calendar_holidays_of(CALENDAR_ENGLAND_AND_WALES, -262143, 1977, WEEKEND, out, 20), 0);
    IS(calendar_holidays_of(CALENDAR_ENGLAND_AND_WALES, 1978, 1978, WEEKEND, out, 20), 8);
    IS(calendar_holidays_of(CALENDAR_TARGET, 1999, 2300, WEEKEND, many, CALENDAR_MOST_HOLIDAYS + 1), CALENDAR_NONE);
    IS(calendar_holidays_of(8, 2024, 2024, WEEKEND, out, 20), CALENDAR_NONE);
    /* Christmas Day of 2021 was a Saturday: Fedwire was open on Friday, and the exchange closed */
    IS(calendar_holidays_of(CALENDAR_FEDWIRE, 2021, 2021, WEEKEND, out, 20), 9);
    IS(out[8], 738119);
    IS(calendar_holidays_of(CALENDAR_NYSE, 2021, 2021, WEEKEND, out, 20), 9);
    IS(out[8], 738148);
    /* 31 October 2017 in Germany, and Ascension Day of 2024 in France */
    IS(calendar_holidays_of(CALENDAR_GERMANY, 2017, 2017, WEEKEND, out, 20), 9);
    IS(out[6], 736633);
    IS(calendar_holidays_of(CALENDAR_FRANCE, 2024, 2024, WEEKEND, out, 20), 10);
    IS(out[4], 739015);
    /* 6 May and 22 September 2026 in Japan: a holiday on a Sunday is kept later, and a day lies between two holidays */
    IS(calendar_holidays_of(CALENDAR_JAPAN, 2026, 2026, WEEKEND, out, 20), 19);
    IS(out[9], 739742);
    IS(out[13], 739881);
    IS(calendar_holidays_of(CALENDAR_TARGET, INT32_MAX, 2024, WEEKEND, out, 20), CALENDAR_NONE);
    IS(calendar_holidays_of(CALENDAR_TARGET, 2024, INT32_MIN, WEEKEND, out, 20), CALENDAR_NONE);
    IS(calendar_holidays_of(CALENDAR_TARGET, INT32_MIN, 2024, WEEKEND, out, 20), CALENDAR_NONE);
    IS(calendar_holidays_of(CALENDAR_TARGET, 2024, INT32_MAX, WEEKEND, out, 20), CALENDAR_NONE);
    IS(calendar_easter(2024), 738976);
    IS(calendar_easter(INT32_MAX), CALENDAR_NONE);
    IS(calendar_holidays_check(WEEKEND, target, 6, &fault), true);
    IS(fault.code, 7u);
    IS(is_wrong_at(saturday, 2, CALENDAR_HOLIDAYS_ON_WEEKEND, 1), true);
    IS(is_wrong_at(twice, 2, CALENDAR_HOLIDAYS_NOT_RISING, 1), true);
    IS(is_wrong_at(no_date, 2, CALENDAR_HOLIDAYS_NOT_A_DATE, 1), true);
    for (int k = 0; k <= CALENDAR_MOST_HOLIDAYS; k++) {
        many[k] = FEB_29 + 7 * k;
    }
    IS(calendar_holidays_check(WEEKEND, many, CALENDAR_MOST_HOLIDAYS, &fault), true);
    IS(is_wrong_at(many, CALENDAR_MOST_HOLIDAYS + 1, CALENDAR_HOLIDAYS_TOO_MANY, CALENDAR_MOST_HOLIDAYS), true);
}

/* The first year of each known calendar. */
static void first_years(void)
{
    IS(calendar_holidays_first_year(CALENDAR_US_FEDERAL), 1971);
    IS(calendar_holidays_first_year(CALENDAR_TARGET), 1999);
    IS(calendar_holidays_first_year(CALENDAR_ENGLAND_AND_WALES), 1978);
    IS(calendar_holidays_first_year(CALENDAR_FEDWIRE), 1971);
    IS(calendar_holidays_first_year(CALENDAR_NYSE), 1998);
    IS(calendar_holidays_first_year(CALENDAR_GERMANY), 1995);
    IS(calendar_holidays_first_year(CALENDAR_FRANCE), 1982);
    IS(calendar_holidays_first_year(CALENDAR_JAPAN), 2007);
    IS(calendar_holidays_first_year(8), CALENDAR_NONE);
}

static void open_days_within(void)
{
    /* 30 December 2026 is a Wednesday, and 1 January 2027 a Friday */
    const int32_t jan_1_2026 = 739617, wednesday = 739980, jan_1_2027 = 739982, falling[] = {738977, 738974};
    int32_t days[20];
    IS(calendar_holidays_of(CALENDAR_TARGET, 2024, 2026, WEEKEND, days, 20), 17);
    IS(calendar_is_open_day_within(WEEKEND, days, 17, 2024, 2026, wednesday), 1);
    IS(calendar_is_open_day_within(WEEKEND, days, 17, 2024, 2026, jan_1_2026), 0);
    IS(calendar_is_open_day_within(WEEKEND, days, 17, 2024, 2026, jan_1_2027), CALENDAR_NONE);
    IS(calendar_is_open_day_within(WEEKEND, days, 17, 2024, 2026, 738885), CALENDAR_NONE);
    IS(calendar_is_open_day_within(WEEKEND, days, 17, INT32_MIN, INT32_MAX, CALENDAR_NONE), CALENDAR_NONE);
    IS(calendar_is_open_day_within(WEEKEND, falling, 2, 2024, 2026, wednesday), CALENDAR_NONE);
    IS(calendar_add_open_days_within(WEEKEND, days, 17, 2024, 2026, wednesday, 1), wednesday + 1);
    IS(calendar_add_open_days_within(WEEKEND, days, 17, 2024, 2026, wednesday, 2), CALENDAR_NONE);
    IS(calendar_add_open_days_within(WEEKEND, days, 17, 2024, 2027, wednesday, 2), jan_1_2027);
    IS(calendar_add_open_days_within(WEEKEND, days, 17, 2024, 2026, jan_1_2027, -1), CALENDAR_NONE);
    IS(calendar_add_open_days_within(WEEKEND, days, 17, 2024, 2026, 738887, -1), CALENDAR_NONE);
    IS(calendar_add_open_days_within(WEEKEND, falling, 2, 2024, 2026, wednesday, 1), CALENDAR_NONE);
    IS(calendar_add_open_days_within(WEEKEND, days, 17, 2024, 2026, CALENDAR_NONE, 1), CALENDAR_NONE);
    /* 261 days of 2026 are no weekends, and five of them holidays */
    IS(calendar_open_days_between_within(WEEKEND, days, 17, 2024, 2026, jan_1_2026, jan_1_2027), 256);
    IS(calendar_open_days_between_within(WEEKEND, days, 17, 2024, 2026, jan_1_2027, jan_1_2026), -256);
    IS(calendar_open_days_between_within(WEEKEND, days, 17, 2024, 2026, jan_1_2027, jan_1_2027), 0);
    IS(calendar_open_days_between_within(WEEKEND, days, 17, 2024, 2026, jan_1_2026, jan_1_2027 + 1), INT64_MIN);
    IS(calendar_open_days_between_within(WEEKEND, days, 17, 2026, 2026, jan_1_2026 - 1, jan_1_2027), INT64_MIN);
    IS(calendar_open_days_between_within(WEEKEND, falling, 2, 2024, 2026, jan_1_2026, jan_1_2026), INT64_MIN);
    IS(calendar_open_days_between_within(WEEKEND, days, 17, 2024, 2026, CALENDAR_NONE, jan_1_2026), INT64_MIN);
    IS(calendar_open_days_between_within(WEEKEND, days, 17, 2024, 2026, jan_1_2026, CALENDAR_NONE), INT64_MIN);
}

static void rolls_within(void)
{
    /* 31 December 2022 is a Saturday */
    const int32_t saturday = 738520, none[] = {0};
    const int32_t to[] = {saturday, CALENDAR_NONE, saturday - 1, saturday - 1, saturday - 1, saturday - 1, CALENDAR_NONE, CALENDAR_NONE};
    for (uint32_t roll = 0; roll < 8; roll++) {
        IS(calendar_roll_within(WEEKEND, none, 0, 2022, 2022, saturday, roll), to[roll]);
        IS(calendar_roll_within(WEEKEND, none, 0, 2023, 2024, saturday, roll), CALENDAR_NONE);
    }
    IS(calendar_roll_within(WEEKEND, none, 0, 2022, 2023, saturday, CALENDAR_ROLL_FOLLOWING), saturday + 2);
    IS(calendar_roll_within(WEEKEND, none, 0, 2022, 2023, saturday, CALENDAR_ROLL_NEAREST_QUANTLIB), saturday - 1);
    IS(calendar_roll_within(WEEKEND, none, 0, 2022, 2023, CALENDAR_NONE, CALENDAR_ROLL_FOLLOWING), CALENDAR_NONE);
}

static void columns(void)
{
    const int32_t easter[] = {738974, 738977}, falling[] = {738977, 738974};
    const int32_t dates[] = {738973, 738974, CALENDAR_NONE}, ends[] = {738978, CALENDAR_NONE, 738978};
    const int32_t days[] = {0, 19782, INT32_MAX, INT32_MIN};
    uint8_t marks[3] = {9, 9, 9};
    int32_t moved[4] = {9, 9, 9, 9};
    int64_t counted[3] = {9, 9, 9};
    IS(calendar_column_is_open_day(WEEKEND, falling, 2, dates, 3, marks, 3), false);
    IS(calendar_column_is_open_day(WEEKEND, easter, 2, dates, 3, marks, 2), false);
    IS(marks[0], 9);
    IS(calendar_column_is_open_day(WEEKEND, easter, 2, dates, 3, marks, 3), true);
    IS(marks[0] == 1 && marks[1] == 0 && marks[2] == 0, true);
    IS(calendar_column_add_open_days(WEEKEND, falling, 2, dates, 3, 1, moved, 3), false);
    IS(calendar_column_add_open_days(WEEKEND, easter, 2, dates, 3, 1, moved, 2), false);
    IS(moved[0], 9);
    IS(calendar_column_add_open_days(WEEKEND, easter, 2, dates, 3, 2, moved, 3), true);
    IS(moved[0] == 738979 && moved[1] == 738979 && moved[2] == CALENDAR_NONE, true);
    IS(calendar_column_open_days_between(WEEKEND, easter, 2, dates, 3, ends, 2, counted, 3), false);
    IS(calendar_column_open_days_between(WEEKEND, easter, 2, dates, 3, ends, 3, counted, 2), false);
    IS(calendar_column_open_days_between(WEEKEND, falling, 2, dates, 3, ends, 3, counted, 3), false);
    IS(counted[0], 9);
    IS(calendar_column_open_days_between(WEEKEND, easter, 2, dates, 3, ends, 3, counted, 3), true);
    IS(counted[0] == 1 && counted[1] == INT64_MIN && counted[2] == INT64_MIN, true);
    IS(calendar_column_roll(WEEKEND, easter, 2, dates, 3, 7, moved, 3), false);
    IS(calendar_column_roll(WEEKEND, easter, 2, dates, 3, 1, moved, 4), false);
    IS(calendar_column_roll(WEEKEND, falling, 2, dates, 3, 1, moved, 3), false);
    IS(calendar_column_roll(WEEKEND, easter, 2, dates, 3, CALENDAR_ROLL_FOLLOWING, moved, 3), true);
    IS(moved[0] == 738973 && moved[1] == 738978 && moved[2] == CALENDAR_NONE && moved[3] == 9, true);
    IS(calendar_column_from_date32(days, 4, moved, 3), false);
    IS(calendar_column_from_date32(days, 4, moved, 4), true);
    IS(moved[0] == 719163 && moved[1] == FEB_29 && moved[2] == CALENDAR_NONE && moved[3] == CALENDAR_NONE, true);
    IS(calendar_column_to_date32(ends, 3, moved, 2), false);
    IS(calendar_column_to_date32(ends, 3, moved, 3), true);
    IS(moved[0] == 19815 && moved[1] == CALENDAR_NONE, true);
}

static void columns_within(void)
{
    /* 1 January 2026 is a holiday, 30 December 2026 a Wednesday, and 1 January 2027 of a year that is not asked for */
    const int32_t dates[] = {739617, 739980, 739982, CALENDAR_NONE}, ends[] = {739982, 739982, 739982, 739982}, falling[] = {738977, 738974};
    int32_t days[20], moved[4] = {9, 9, 9, 9};
    uint8_t marks[4] = {9, 9, 9, 9};
    int64_t counted[4] = {9, 9, 9, 9};
    IS(calendar_holidays_of(CALENDAR_TARGET, 2024, 2026, WEEKEND, days, 20), 17);
    IS(calendar_column_is_open_day_within(WEEKEND, falling, 2, 2024, 2026, dates, 4, marks, 4), false);
    IS(calendar_column_is_open_day_within(WEEKEND, days, 17, 2024, 2026, dates, 4, marks, 3), false);
    IS(marks[0], 9);
    IS(calendar_column_is_open_day_within(WEEKEND, days, 17, 2024, 2026, dates, 4, marks, 4), true);
    IS(marks[0] == 0 && marks[1] == 1 && marks[2] == 2 && marks[3] == 0, true);
    IS(calendar_column_add_open_days_within(WEEKEND, falling, 2, 2024, 2026, dates, 4, 1, moved, 4), false);
    IS(calendar_column_add_open_days_within(WEEKEND, days, 17, 2024, 2026, dates, 4, 1, moved, 3), false);
    IS(moved[0], 9);
    IS(calendar_column_add_open_days_within(WEEKEND, days, 17, 2024, 2026, dates, 4, 1, moved, 4), true);
    IS(moved[0] == 739618 && moved[1] == 739981 && moved[2] == CALENDAR_NONE && moved[3] == CALENDAR_NONE, true);
    IS(calendar_column_add_open_days_within(WEEKEND, days, 17, 2024, 2026, dates, 4, 2, moved, 4), true);
    IS(moved[0] == 739621 && moved[1] == CALENDAR_NONE, true);
    IS(calendar_column_open_days_between_within(WEEKEND, days, 17, 2024, 2026, dates, 4, ends, 3, counted, 4), false);
    IS(calendar_column_open_days_between_within(WEEKEND, days, 17, 2024, 2026, dates, 4, ends, 4, counted, 3), false);
    IS(calendar_column_open_days_between_within(WEEKEND, falling, 2, 2024, 2026, dates, 4, ends, 4, counted, 4), false);
    IS(counted[0], 9);
    IS(calendar_column_open_days_between_within(WEEKEND, days, 17, 2026, 2026, dates, 4, ends, 4, counted, 4), true);
    IS(counted[0] == 256 && counted[1] == 2 && counted[2] == 0 && counted[3] == INT64_MIN, true);
    IS(calendar_column_open_days_between_within(WEEKEND, days, 17, 2024, 2025, dates, 4, ends, 4, counted, 4), true);
    IS(counted[0] == INT64_MIN && counted[2] == 0, true);
    IS(calendar_column_roll_within(WEEKEND, days, 17, 2024, 2026, dates, 4, 7, moved, 4), false);
    IS(calendar_column_roll_within(WEEKEND, falling, 2, 2024, 2026, dates, 4, 1, moved, 4), false);
    IS(calendar_column_roll_within(WEEKEND, days, 17, 2024, 2026, dates, 4, 1, moved, 3), false);
    IS(calendar_column_roll_within(WEEKEND, days, 17, 2026, 2026, dates, 4, CALENDAR_ROLL_FOLLOWING, moved, 4), true);
    IS(moved[0] == 739618 && moved[1] == 739980 && moved[2] == CALENDAR_NONE && moved[3] == CALENDAR_NONE, true);
    IS(calendar_column_roll_within(WEEKEND, days, 17, 2026, 2026, dates, 4, CALENDAR_ROLL_NEAREST_QUANTLIB, moved, 4), true);
    IS(moved[0] == CALENDAR_NONE && moved[1] == 739980, true);
}

static bool counts(uint32_t kind, int32_t from, int32_t to, int64_t numerator, int64_t denominator)
{
    calendar_fraction found = calendar_day_count(kind, from, to);
    return found.numerator == numerator && found.denominator == denominator;
}

static void day_counts(void)
{
    /* from 31 December 2023 to 2 January 2024: a day of either year */
    IS(counts(CALENDAR_ACTUAL_ACTUAL_ISDA, 738885, 738887, 731, 133590), true);
    IS(counts(CALENDAR_ACTUAL_360, 738885, 738887, 2, 360), true);
    IS(counts(CALENDAR_ACTUAL_365_FIXED, 738887, 738885, -2, 365), true);
    /* from 31 January to 29 February 2024 */
    IS(counts(CALENDAR_THIRTY_360, 738916, FEB_29, 29, 360), true);
    IS(counts(CALENDAR_THIRTY_E_360, 738916, FEB_29, 29, 360), true);
    /* from 29 February to 31 March 2024 */
    IS(counts(CALENDAR_THIRTY_360, FEB_29, 738976, 32, 360), true);
    IS(counts(CALENDAR_THIRTY_E_360, FEB_29, 738976, 31, 360), true);
    IS(counts(5, FEB_29, FEB_29, 0, 0), true);
    IS(counts(CALENDAR_ACTUAL_360, CALENDAR_NONE, FEB_29, 0, 0), true);
    IS(counts(CALENDAR_ACTUAL_360, FEB_29, INT32_MAX, 0, 0), true);
}

static const uint8_t *bytes_of(const char *text)
{
    return (const uint8_t *)text;
}

static bool is_wrong_pattern(const char *pattern, uint32_t code, size_t byte)
{
    calendar_fault fault;
    return !calendar_pattern_check(bytes_of(pattern), strlen(pattern), &fault) && fault.code == code && fault.byte == byte;
}

static bool formats(const char *pattern, int32_t date, const char *wanted)
{
    uint8_t text[64];
    int32_t length = calendar_format_date(bytes_of(pattern), strlen(pattern), date, text, sizeof text);
    return length == (int32_t)strlen(wanted) && memcmp(text, wanted, strlen(wanted)) == 0;
}

static bool formats_moment(const char *pattern, calendar_date_time moment, const char *wanted)
{
    uint8_t text[64];
    int32_t length = calendar_format_date_time(bytes_of(pattern), strlen(pattern), moment, text, sizeof text);
    return length == (int32_t)strlen(wanted) && memcmp(text, wanted, strlen(wanted)) == 0;
}

static bool fails_to_parse(const char *pattern, const char *text, uint32_t code, size_t byte)
{
    calendar_fault fault, other;
    int32_t date = calendar_parse_date(bytes_of(pattern), strlen(pattern), bytes_of(text), strlen(text), &fault);
    calendar_date_time moment = calendar_parse_date_time(bytes_of(pattern), strlen(pattern), bytes_of(text), strlen(text), &other);
    return date == CALENDAR_NONE && same_moment(moment, 0, CALENDAR_NO_NANOS) && fault.code == code && fault.byte == byte;
}

/* The text has this second, these nanoseconds and this offset, by the pattern. */
static bool parses_zoned(const char *pattern, const char *text, int64_t seconds, uint32_t nanos, int32_t offset)
{
    calendar_fault fault = {7, 8, 9, 10};
    calendar_zoned zoned = calendar_parse_zoned(bytes_of(pattern), strlen(pattern), bytes_of(text), strlen(text), &fault);
    return zoned.seconds == seconds && zoned.nanos == nanos && zoned.offset == offset && fault.code == 7;
}

static bool fails_to_parse_zoned(const char *pattern, const char *text, uint32_t code, size_t byte)
{
    calendar_fault fault;
    calendar_zoned zoned = calendar_parse_zoned(bytes_of(pattern), strlen(pattern), bytes_of(text), strlen(text), &fault);
    return zoned.seconds == 0 && zoned.nanos == CALENDAR_NO_NANOS && zoned.offset == 0 && fault.code == code && fault.byte == byte;
}

static void zoned_patterns(void)
{
    IS(calendar_pattern_names_offset(bytes_of("%F %T %:z"), 9), true);
    IS(calendar_pattern_names_offset(bytes_of("%+"), 2), true);
    IS(calendar_pattern_names_offset(bytes_of("%F %T %Z"), 8), false);
    IS(calendar_pattern_names_offset(bytes_of("%s"), 2), false);
    IS(calendar_pattern_names_offset(bytes_of("%z %"), 4), false);
    IS(parses_zoned("%F %R %z", "2024-03-01 13:00 +0530", MARCH + 13 * 3600, 0, 19800), true);
    IS(parses_zoned("%FT%T%.f%:z", "2024-02-29T23:59:60.5-09:30", MARCH - 1, 1500000000, -34200), true);
    IS(parses_zoned("%+", "2024-03-01T00:00:00Z", MARCH, 0, 0), true);
    IS(parses_zoned("%s", "1709251200", MARCH, 0, 0), true);
    IS(parses_zoned("%s %z", "1709251200 +0100", MARCH + 3600, 0, 3600), true);
    IS(fails_to_parse_zoned("%F %R", "2024-03-01 13:00", CALENDAR_TEXT_NOT_ENOUGH, 0), true);
    IS(fails_to_parse_zoned("%F %R %z", "2024-03-01 13:00", CALENDAR_TEXT_TOO_SHORT, 16), true);
    IS(fails_to_parse_zoned("%F %R %z", "2024-03-01 13:00 +2400", CALENDAR_TEXT_OUT_OF_RANGE, 17), true);
    IS(fails_to_parse_zoned("%F %R %", "2024-03-01 13:00", CALENDAR_PATTERN_CUT, 6), true);
}

static void patterns(void)
{
    calendar_fault fault = {7, 8, 9, 10};
    uint8_t text[10];
    IS(calendar_pattern_check(bytes_of("%d.%m.%Y"), 8, &fault), true);
    IS(fault.code, 7u);
    IS(is_wrong_pattern("%Y-%Q", CALENDAR_PATTERN_UNKNOWN, 3), true);
    IS(is_wrong_pattern("100%", CALENDAR_PATTERN_CUT, 3), true);
    IS(formats("%d.%m.%Y", FEB_29, "29.02.2024"), true);
    IS(formats("%A %-e %B, week %V of %G, day %j", FEB_29, "Thursday 29 February, week 09 of 2024, day 060"), true);
    IS(calendar_format_date(bytes_of("%H"), 2, FEB_29, text, 10), CALENDAR_NONE);
    IS(calendar_format_date(bytes_of("%F"), 2, CALENDAR_NONE, text, 10), CALENDAR_NONE);
    IS(calendar_format_date(bytes_of("%F"), 2, FEB_29, text, 9), CALENDAR_NONE);
    IS(calendar_format_date(bytes_of("%F"), 2, FEB_29, text, 10), 10);
    IS(calendar_format_date(bytes_of("%Q"), 2, FEB_29, text, 10), CALENDAR_NONE);
    IS(formats_moment("%I:%M %p, %s", moment(MARCH + 13 * 3600, 0), "01:00 PM, 1709298000"), true);
    IS(formats_moment("%T%.f", moment(MARCH - 1, 1500000000), "23:59:60.500"), true);
    IS(calendar_format_date_time(bytes_of("%z"), 2, moment(MARCH, 0), text, 10), CALENDAR_NONE);
    IS(calendar_format_date_time(bytes_of("%Q"), 2, moment(MARCH, 0), text, 10), CALENDAR_NONE);
    IS(calendar_format_date_time(bytes_of("%R"), 2, moment(INT64_MAX, 0), text, 10), CALENDAR_NONE);
    IS(calendar_parse_date(bytes_of("%d %b %Y"), 8, bytes_of("29 feb 2024"), 11, &fault), FEB_29);
    IS(fault.code, 7u);
    IS_MOMENT(calendar_parse_date_time(bytes_of("%F %R"), 5, bytes_of("2024-03-01 13:00"), 16, &fault), MARCH + 13 * 3600, 0);
    IS_MOMENT(calendar_parse_date_time(bytes_of("%FT%T%.f"), 8, bytes_of("2024-02-29T23:59:60.5"), 21, &fault), MARCH - 1, 1500000000);
    IS(fault.code, 7u);
    IS(fails_to_parse("%d.%m.%Y", "29.2.2023", CALENDAR_TEXT_IMPOSSIBLE, 9), true);
    IS(fails_to_parse("%d.%m.%Y", "29-2", CALENDAR_TEXT_INVALID, 2), true);
    IS(fails_to_parse("%d.%m.%Y", "29.13", CALENDAR_TEXT_OUT_OF_RANGE, 3), true);
    IS(fails_to_parse("%d.%m.%Y", "29.", CALENDAR_TEXT_TOO_SHORT, 3), true);
    IS(fails_to_parse("%d.%m.%Y", "29.2.2024x", CALENDAR_TEXT_TOO_LONG, 9), true);
    IS(fails_to_parse("%d.%m.", "29.2.", CALENDAR_TEXT_NOT_ENOUGH, 0), true);
    IS(fails_to_parse("%d.%", "29.2.", CALENDAR_PATTERN_CUT, 3), true);
    zoned_patterns();
}

static bool has_offsets(const char *zone, int64_t local, uint32_t number, int32_t earlier, int32_t later)
{
    calendar_offsets found = calendar_zone_offsets_of_local(bytes_of(zone), strlen(zone), local);
    return found.count == number && (number == 0 || number == CALENDAR_NO_ZONE || (found.earlier == earlier && found.later == later));
}

static bool is_wrong_zone(const char *zone, uint32_t code, size_t byte, size_t end, const char *sentence)
{
    calendar_fault fault;
    uint8_t text[64];
    bool is_zone = calendar_zone_check(bytes_of(zone), strlen(zone), &fault);
    int32_t length = calendar_zone_fault_text(&fault, text, sizeof text);
    return !is_zone && fault.code == code && fault.field == 0 && fault.byte == byte && fault.end == end
        && length == (int32_t)strlen(sentence) && memcmp(text, sentence, strlen(sentence)) == 0;
}

static int32_t offset_at(const char *zone, int64_t second)
{
    return calendar_zone_offset_at(bytes_of(zone), strlen(zone), second);
}

static int64_t holds_until(const char *zone, int64_t second)
{
    return calendar_zone_holds_until(bytes_of(zone), strlen(zone), second);
}

/* A TZif file of version 1: UTC up to 1970-01-01T00:01:00, and an hour ahead from then on. */
static const uint8_t small_file[] = {
    'T', 'Z', 'i', 'f', 0, 0, 0, 0, 0, 0, 0, 0, 0, 0, 0, 0, 0, 0, 0, 0, 0, 0, 0, 0, 0, 0, 0, 0, 0, 0, 0, 0, 0, 0, 0, 1, 0, 0, 0, 2, 0, 0, 0, 8,
    0, 0, 0, 60, 1, 0, 0, 0, 0, 0, 0, 0, 0, 14, 16, 1, 4, 'G', 'M', 'T', 0, 'B', 'S', 'T', 0,
};

static void files_of_zones(void)
{
    calendar_fault fault = {7, 8, 9, 10};
    size_t length = sizeof small_file;
    IS(calendar_zone_check(small_file, length, &fault), true);
    IS(fault.code, 7u);
    IS(calendar_zone_offset_at(small_file, length, 59), 0);
    IS(calendar_zone_offset_at(small_file, length, 60), 3600);
    IS(calendar_zone_holds_until(small_file, length, 0), 60);
    IS(calendar_zone_holds_until(small_file, length, 60), INT64_MAX);
    IS(calendar_zone_offsets_of_local(small_file, length, 60).count, 0u);
    IS(calendar_zone_offsets_of_local(small_file, length, 3659).count, 0u);
    IS(calendar_zone_offsets_of_local(small_file, length, 3660).earlier, 3600);
    IS(calendar_zone_check(small_file, length - 1, &fault), false);
    IS(fault.code, (uint32_t)CALENDAR_ZONE_CUT_OFF);
    IS(fault.byte, 44u);
    IS(fault.end, length - 1);
    IS(calendar_zone_offset_at(small_file, length - 1, 60), CALENDAR_NONE);
    uint8_t wrong[sizeof small_file];
    memcpy(wrong, small_file, length);
    wrong[48] = 2;
    IS(calendar_zone_check(wrong, length, &fault), false);
    IS(fault.code, (uint32_t)CALENDAR_ZONE_NO_ROW);
    IS(fault.field, 1u);
}

static void zones(void)
{
    const char *berlin = "CET-1CEST,M3.5.0,M10.5.0/3";
    calendar_fault fault = {7, 8, 9, 10};
    uint8_t text[64];
    IS(calendar_zone_check(bytes_of(berlin), strlen(berlin), &fault), true);
    IS(fault.code, 7u);
    /* The clock is set ahead at 01:00 UTC of 31 March 2024, and back at 01:00 UTC of 27 October. */
    IS(offset_at(berlin, 1711846799), 3600);
    IS(offset_at(berlin, 1711846800), 7200);
    IS(offset_at(berlin, 1729990799), 7200);
    IS(offset_at(berlin, 1729990800), 3600);
    IS(holds_until(berlin, 1711846800), 1729990800);
    IS(holds_until("HST10", 0), INT64_MAX);
    IS(has_offsets(berlin, 1711850399, 1, 3600, 3600), true);
    IS(has_offsets(berlin, 1711850400, 0, 0, 0), true);
    IS(has_offsets(berlin, 1711853999, 0, 0, 0), true);
    IS(has_offsets(berlin, 1711854000, 1, 7200, 7200), true);
    IS(has_offsets(berlin, 1729994399, 1, 7200, 7200), true);
    IS(has_offsets(berlin, 1729994400, 2, 7200, 3600), true);
    IS(has_offsets(berlin, 1729997999, 2, 7200, 3600), true);
    IS(has_offsets(berlin, 1729998000, 1, 3600, 3600), true);
    IS(has_offsets("EST5EDT", 0, CALENDAR_NO_ZONE, 0, 0), true);
    IS(offset_at("EST5EDT", 0), CALENDAR_NONE);
    IS(holds_until("", 0), INT64_MIN);
    IS(is_wrong_zone("EST5EDT", CALENDAR_ZONE_NO_DAYS, 7, 7, "the days of daylight time are missing"), true);
    IS(is_wrong_zone("EST", CALENDAR_ZONE_NO_OFFSET, 3, 3, "an offset is missing"), true);
    IS(is_wrong_zone("EST5EDT,M3.2.0,M13.1.0", CALENDAR_ZONE_NO_CHANGE, 15, 22, "no day stands there on which the clock is set"), true);
    IS(is_wrong_zone("5", CALENDAR_ZONE_NO_NAME, 0, 1, "a name of three letters or more is missing"), true);
    IS(is_wrong_zone("XXX24", CALENDAR_ZONE_OFFSET_OF_DAY, 3, 5, "the offset is a day or more"), true);
    IS(is_wrong_zone("TZif", CALENDAR_ZONE_CUT_OFF, 0, 4, "the file is cut off"), true);
    fault.code = 18;
    IS(calendar_zone_fault_text(&fault, text, sizeof text), CALENDAR_NONE);
    fault.code = CALENDAR_ZONE_NO_OFFSET;
    IS(calendar_zone_fault_text(&fault, text, 19), CALENDAR_NONE);
}

static void schedules_in_zones(void)
{
    const char *berlin = "CET-1CEST,M3.5.0,M10.5.0/3";
    size_t length = strlen(berlin);
    calendar_schedule nightly, hourly;
    calendar_fault fault;
    IS(reads("30 2 * * *", &nightly, &fault) && reads("30 * * * *", &hourly, &fault), true);
    /* 02:30 does not exist on 31 March 2024, and comes twice on 27 October. */
    IS_MOMENT(calendar_zone_schedule_next(&nightly, bytes_of(berlin), length, moment(1711800000, 0)), 1711846800, 0);
    IS_MOMENT(calendar_zone_schedule_next(&nightly, bytes_of(berlin), length, moment(1711846800, 0)), 1711931400, 0);
    IS_MOMENT(calendar_zone_schedule_next(&nightly, bytes_of(berlin), length, moment(1729980000, 0)), 1729989000, 0);
    IS_MOMENT(calendar_zone_schedule_next(&nightly, bytes_of(berlin), length, moment(1729989000, 0)), 1730079000, 0);
    IS_MOMENT(calendar_zone_schedule_next(&hourly, bytes_of(berlin), length, moment(1729989000, 0)), 1729992600, 0);
    IS_MOMENT(calendar_zone_schedule_next(&hourly, small_file, sizeof small_file, moment(0, 0)), 1800, 0);
    NO_MOMENT(calendar_zone_schedule_next(&hourly, bytes_of("EST"), 3, moment(0, 0)));
    NO_MOMENT(calendar_zone_schedule_next(&hourly, bytes_of(berlin), length, moment(INT64_MAX, 0)));
    /* The last second of the calendar, in UTC, at which Berlin's clock shows no date. */
    NO_MOMENT(calendar_zone_schedule_next(&hourly, bytes_of(berlin), length, moment(8210266876799, 0)));
    IS_MOMENT(calendar_zone_schedule_prev(&nightly, bytes_of(berlin), length, moment(1711931400, 0)), 1711846800, 0);
    IS_MOMENT(calendar_zone_schedule_prev(&nightly, bytes_of(berlin), length, moment(1711846800, 0)), 1711762200, 0);
    IS_MOMENT(calendar_zone_schedule_prev(&nightly, bytes_of(berlin), length, moment(1730079000, 0)), 1729989000, 0);
    IS_MOMENT(calendar_zone_schedule_prev(&hourly, bytes_of(berlin), length, moment(1729992600, 0)), 1729989000, 0);
    NO_MOMENT(calendar_zone_schedule_prev(&hourly, bytes_of("EST"), 3, moment(0, 0)));
    NO_MOMENT(calendar_zone_schedule_prev(&hourly, bytes_of(berlin), length, moment(INT64_MAX, 0)));
    NO_MOMENT(calendar_zone_schedule_prev(&hourly, bytes_of(berlin), length, moment(8210266876799, 0)));
}

/* A code of a fault, what the library says of it, and a text with that fault, if a text can have it alone. */
typedef struct {
    uint32_t code;
    const char *sentence, *text;
} Code;

static const Code codes_of_schedules[] = {
    {CALENDAR_SCHEDULE_EMPTY, "byte 0: nothing stands there", ""},
    {CALENDAR_SCHEDULE_TOO_FEW_FIELDS, "byte 0: too few fields", "*"},
    {CALENDAR_SCHEDULE_TOO_MANY_FIELDS, "byte 0: too many fields", "* * * * * *"},
    {CALENDAR_SCHEDULE_UNKNOWN_NICKNAME, "byte 0: an unknown nickname", "@nightly"},
    {CALENDAR_SCHEDULE_INTERVAL, "byte 0: an interval, which is no schedule", "@every 1h"},
    {CALENDAR_SCHEDULE_REBOOT, "byte 0: the start of a machine, which is no schedule", "@reboot"},
    {CALENDAR_SCHEDULE_TIME_ZONE, "byte 0: a time zone, which no schedule has", "CRON_TZ=UTC * * * * *"},
    {CALENDAR_SCHEDULE_UNKNOWN_NAME, "byte 0: an unknown name", "* * * foo *"},
    {CALENDAR_SCHEDULE_LONG_NAME, "byte 0: a name of more than three letters", "* * * march *"},
    {CALENDAR_SCHEDULE_NOT_A_NUMBER, "byte 0: no number of one digit or two", "100 * * * *"},
    {CALENDAR_SCHEDULE_OUT_OF_RANGE, "byte 0: a number that is out of range", "60 * * * *"},
    {CALENDAR_SCHEDULE_RANGE_TURNED_ROUND, "byte 0: a range whose end is below its beginning", "5-3 * * * *"},
    {CALENDAR_SCHEDULE_STEP_OF_ZERO, "byte 0: a step of 0", "*/0 * * * *"},
    {CALENDAR_SCHEDULE_STEP_OF_NUMBER, "byte 0: a step behind a number alone", "5/3 * * * *"},
};

static const Code codes_of_rules[] = {
    {CALENDAR_RULE_UNKNOWN, "unknown part", "FREQ=DAILY;BYEASTER=1"},
    {CALENDAR_RULE_OF_HOURS, "BYHOUR: not in rules over days", "FREQ=DAILY;BYHOUR=9"},
    {CALENDAR_RULE_OF_MINUTES, "BYMINUTE: not in rules over days", "FREQ=DAILY;BYMINUTE=9"},
    {CALENDAR_RULE_OF_SECONDS, "BYSECOND: not in rules over days", "FREQ=DAILY;BYSECOND=9"},
    {CALENDAR_RULE_EXTENSION, "an X- part, which is not read", "FREQ=DAILY;X-A=9"},
    {CALENDAR_RULE_OF_CALENDARS, "RSCALE: not in rules of RFC 5545", "FREQ=DAILY;RSCALE=CHINESE"},
    {CALENDAR_RULE_OF_SKIPS, "SKIP: not in rules of RFC 5545", "FREQ=DAILY;SKIP=OMIT"},
    {CALENDAR_RULE_BLANK, "a blank", "FREQ=DAILY; COUNT=9"},
    {CALENDAR_RULE_MISSING, "missing", "COUNT=9"},
    {CALENDAR_RULE_TWICE, "stands twice", "FREQ=DAILY;COUNT=9;COUNT=9"},
    {CALENDAR_RULE_EMPTY, "empty", ""},
    {CALENDAR_RULE_NOT_A_FREQUENCY, "not DAILY, WEEKLY, MONTHLY or YEARLY", "FREQ=FORTNIGHTLY"},
    {CALENDAR_RULE_NOT_A_NUMBER, "not a number", "FREQ=DAILY;COUNT=x"},
    {CALENDAR_RULE_RANGE, "a range; list each with commas", "FREQ=DAILY;BYMONTH=1-3"},
    {CALENDAR_RULE_OUT_OF_RANGE, "number out of range", "FREQ=DAILY;BYMONTH=13"},
    {CALENDAR_RULE_NOT_A_DATE, "not a date as 19971224", "FREQ=DAILY;UNTIL=20240230"},
    {CALENDAR_RULE_WITH_TIME, "a time stands behind the date", "FREQ=DAILY;UNTIL=20240229T000000Z"},
    {CALENDAR_RULE_NOT_A_WEEKDAY, "not a weekday as MO", "FREQ=DAILY;BYDAY=XX"},
    {CALENDAR_RULE_BESIDE_COUNT, "does not go with COUNT", "FREQ=DAILY;COUNT=9;UNTIL=20240229"},
    {CALENDAR_RULE_NUMBERS_BESIDE_WEEKS, "number does not go with BYWEEKNO", "FREQ=YEARLY;BYWEEKNO=9;BYDAY=1MO"},
    {CALENDAR_RULE_ALONE, "needs another BY part", "FREQ=DAILY;BYSETPOS=1"},
    {CALENDAR_RULE_NOT_WITH_DAILY, "does not go with DAILY", "FREQ=DAILY;BYWEEKNO=9"},
    {CALENDAR_RULE_NOT_WITH_WEEKLY, "does not go with WEEKLY", "FREQ=WEEKLY;BYMONTHDAY=9"},
    {CALENDAR_RULE_NOT_WITH_MONTHLY, "does not go with MONTHLY", "FREQ=MONTHLY;BYWEEKNO=9"},
    {CALENDAR_RULE_NOT_WITH_YEARLY, "does not go with YEARLY", NULL},
    {CALENDAR_RULE_NUMBERS_NOT_WITH_DAILY, "number does not go with DAILY", "FREQ=DAILY;BYDAY=1MO"},
    {CALENDAR_RULE_NUMBERS_NOT_WITH_WEEKLY, "number does not go with WEEKLY", "FREQ=WEEKLY;BYDAY=1MO"},
    {CALENDAR_RULE_NUMBERS_NOT_WITH_MONTHLY, "number does not go with MONTHLY", NULL},
    {CALENDAR_RULE_NUMBERS_NOT_WITH_YEARLY, "number does not go with YEARLY", NULL},
};

static const Code codes_of_zones[] = {
    {CALENDAR_ZONE_NO_HEADER, "no header of a TZif file stands there", NULL},
    {CALENDAR_ZONE_UNKNOWN_VERSION, "an unknown version of TZif", NULL},
    {CALENDAR_ZONE_CUT_OFF, "the file is cut off", "TZif"},
    {CALENDAR_ZONE_WRONG_COUNTS, "the counts of the header are wrong", NULL},
    {CALENDAR_ZONE_LEAP_SECONDS, "the file counts leap seconds", NULL},
    {CALENDAR_ZONE_WRONG_FOOTER, "the footer is wrong", NULL},
    {CALENDAR_ZONE_NO_FIRST_KIND, "no local time is named to begin with", NULL},
    {CALENDAR_ZONE_NO_ROW, "a row names no local time", NULL},
    {CALENDAR_ZONE_TOO_MANY_ROWS, "more than 512 rows", NULL},
    {CALENDAR_ZONE_NO_NAME, "a name of three letters or more is missing", "5"},
    {CALENDAR_ZONE_NO_OFFSET, "an offset is missing", "EST"},
    {CALENDAR_ZONE_OFFSET_OF_DAY, "the offset is a day or more", "XXX24"},
    {CALENDAR_ZONE_NO_DAYS, "the days of daylight time are missing", "EST5EDT"},
    {CALENDAR_ZONE_NO_CHANGE, "no day stands there on which the clock is set", "EST5EDT,M3.2.0,M13.1.0"},
    {CALENDAR_ZONE_UNORDERED, "a row does not follow the one before it", NULL},
    {CALENDAR_ZONE_NOT_JOINED, "the rule does not go on from the last row", NULL},
    {CALENDAR_ZONE_OTHER_VERSION, "the two headers name different versions", NULL},
};

static const Code codes_of_recurrences[] = {
    {CALENDAR_RECURRENCE_NO_COLON, "the line has no colon", "DTSTART"},
    {CALENDAR_RECURRENCE_UNKNOWN_PROPERTY, "none of DTSTART, RRULE, RDATE and EXDATE", "DTSTART:20240131T090000\nSUMMARY:x"},
    {CALENDAR_RECURRENCE_PROPERTY_TWICE, "a second DTSTART or RRULE", "DTSTART:20240131T090000\nDTSTART:20240131T090000"},
    {CALENDAR_RECURRENCE_NO_START, "DTSTART is missing", "RRULE:FREQ=DAILY"},
    {CALENDAR_RECURRENCE_UNKNOWN_PARAMETER, "the parameter is neither TZID nor VALUE", "DTSTART;X=1:20240131T090000"},
    {CALENDAR_RECURRENCE_PARAMETER_TWICE, "the parameter stands twice", "DTSTART;TZID=A;TZID=A:20240131T090000"},
    {CALENDAR_RECURRENCE_NOT_A_ZONE_NAME, "no name of a zone", "DTSTART;TZID=:20240131T090000"},
    {CALENDAR_RECURRENCE_UNKNOWN_VALUE_TYPE, "neither DATE nor DATE-TIME", "DTSTART;VALUE=TIME:090000"},
    {CALENDAR_RECURRENCE_ZONE_OF_DATE, "TZID does not go with VALUE=DATE", "DTSTART;TZID=A;VALUE=DATE:20240131"},
    {CALENDAR_RECURRENCE_NOT_A_TIME, "no date and no date-time as 20240131T090000", "DTSTART:x"},
    {CALENDAR_RECURRENCE_OTHER_KIND, "a time of another kind than the line says", "DTSTART;TZID=A:20240131T090000Z"},
    {CALENDAR_RECURRENCE_OTHER_ZONE, "a local time in another zone than DTSTART", "DTSTART:20240131T090000\nEXDATE;TZID=A:20240131T090000"},
    {CALENDAR_RECURRENCE_NOT_A_RULE, "no rule", "DTSTART:20240131T090000\nRRULE:"},
    {CALENDAR_RECURRENCE_TOO_LONG, "more than 8192 bytes", NULL},
    {CALENDAR_RECURRENCE_LONG_RULE, "the rule has 1024 bytes or more", NULL},
    {CALENDAR_RECURRENCE_NOT_LOCAL, "DTSTART is no local time", "DTSTART:20240131T090000Z"},
    {CALENDAR_RECURRENCE_FREQUENCY, "FREQ is missing or stands twice", "DTSTART:20240131T090000\nRRULE:COUNT=2"},
    {CALENDAR_RECURRENCE_HOURS, "BYHOUR stands twice or lists no hours", "DTSTART:20240131T090000\nRRULE:FREQ=DAILY;BYHOUR=24"},
    {CALENDAR_RECURRENCE_MINUTES, "BYMINUTE stands twice or lists no minutes", "DTSTART:20240131T090000\nRRULE:FREQ=DAILY;BYMINUTE=60"},
    {CALENDAR_RECURRENCE_SECONDS, "BYSECOND stands twice or lists no seconds", "DTSTART:20240131T090000\nRRULE:FREQ=DAILY;BYSECOND=61"},
    {CALENDAR_RECURRENCE_DAYS, "the parts of days are no rule", "DTSTART:20240131T090000\nRRULE:FREQ=DAILY;BYDAY=XX"},
    {CALENDAR_RECURRENCE_UNTIL, "UNTIL is no time in UTC, or stands beside COUNT", "DTSTART:20240131T090000\nRRULE:FREQ=DAILY;UNTIL=20241231"},
    {CALENDAR_RECURRENCE_NOT_TOGETHER, "parts of the rule do not go together",
     "DTSTART:20240131T090000\nRRULE:FREQ=DAILY;BYHOUR=1;BYSETPOS=1;BYDAY=MO"},
    {CALENDAR_RECURRENCE_NO_INSTANT, "a time of RDATE or EXDATE is no instant", "DTSTART:20240131T090000\nRDATE;VALUE=DATE:20240131"},
    {CALENDAR_RECURRENCE_TOO_MANY_TIMES, "more than 256 times in RDATE or EXDATE", NULL},
    {CALENDAR_RECURRENCE_NO_ZONE, "the bytes hold no zone", NULL},
};

typedef bool Checker(const char *text, calendar_fault *fault);

static bool is_schedule(const char *text, calendar_fault *fault)
{
    calendar_schedule schedule;
    return reads(text, &schedule, fault);
}

static bool is_zone(const char *text, calendar_fault *fault)
{
    return calendar_zone_check(bytes_of(text), strlen(text), fault);
}

static bool is_recurrence(const char *text, calendar_fault *fault)
{
    return calendar_text_check(bytes_of(text), strlen(text), bytes_of("UTC0"), 4, fault);
}

/* Each code has its sentence, and each text its code. */
static void test_codes(const Code *codes, size_t length, Sayer *say, Checker *check)
{
    for (size_t i = 0; i < length; i++) {
        const char *sentence = codes[i].sentence;
        calendar_fault fault = {codes[i].code, 0, 0, 0};
        uint8_t said[99];
        bool is_said = say(&fault, said, sizeof said) == (int32_t)strlen(sentence) && memcmp(said, sentence, strlen(sentence)) == 0;
        count(is_said, __LINE__, sentence);
        fault.code = 0;
        if (codes[i].text) {
            count(!check(codes[i].text, &fault) && fault.code == codes[i].code, __LINE__, codes[i].text);
        }
    }
}

static void all_codes(void)
{
    test_codes(codes_of_schedules, sizeof codes_of_schedules / sizeof codes_of_schedules[0], calendar_schedule_fault_text, is_schedule);
    test_codes(codes_of_rules, sizeof codes_of_rules / sizeof codes_of_rules[0], calendar_rule_fault_text, is_rule);
    test_codes(codes_of_zones, sizeof codes_of_zones / sizeof codes_of_zones[0], calendar_zone_fault_text, is_zone);
    test_codes(codes_of_recurrences, sizeof codes_of_recurrences / sizeof codes_of_recurrences[0], calendar_text_fault_text, is_recurrence);
}

static void texts_of_calendars(void)
{
    const char *berlin = "CET-1CEST,M3.5.0,M10.5.0/3", *text = "DTSTART;TZID=Europe/Berlin:20240330T023000\nRRULE:FREQ=DAILY;BYHOUR=2,17\n";
    const char *month = "DTSTART;TZID=Europe/Berl\r\n in:20240131T090000\r\nRRULE:FREQ=MONTHLY;COUNT=4\r\n"
                        "RDATE;TZID=Europe/Berlin:20240201T090000\r\nEXDATE;TZID=Europe/Berlin:20240531T090000\r\n";
    size_t zone = strlen(berlin), length = strlen(text), long_one = strlen(month);
    calendar_fault fault = {7, 8, 9, 10};
    uint8_t name[64];
    IS(calendar_text_check(bytes_of(text), length, bytes_of(berlin), zone, &fault), true);
    IS(fault.code, 7u);
    IS(calendar_text_zone(bytes_of(month), long_one, name, sizeof name), 13);
    IS(memcmp(name, "Europe/Berlin", 13), 0);
    IS(calendar_text_zone(bytes_of(month), long_one, name, 12), CALENDAR_NONE);
    IS(calendar_text_zone(bytes_of("DTSTART:20240131T090000"), 23, name, sizeof name), CALENDAR_NONE);
    /* 02:30 of 31 March does not exist, and stands for 03:30. */
    IS_MOMENT(calendar_text_next(bytes_of(text), length, bytes_of(berlin), zone, moment(0, 0)), 1711762200, 0);
    IS_MOMENT(calendar_text_next(bytes_of(text), length, bytes_of(berlin), zone, moment(1711762200, 0)), 1711816200, 0);
    IS_MOMENT(calendar_text_next(bytes_of(text), length, bytes_of(berlin), zone, moment(1711816200, 0)), 1711848600, 0);
    IS_MOMENT(calendar_text_prev(bytes_of(text), length, bytes_of(berlin), zone, moment(1711848600, 0)), 1711816200, 0);
    NO_MOMENT(calendar_text_prev(bytes_of(text), length, bytes_of(berlin), zone, moment(1711762200, 0)));
    IS(calendar_text_is_instance(bytes_of(text), length, bytes_of(berlin), zone, moment(1711848600, 0)), true);
    IS(calendar_text_is_instance(bytes_of(text), length, bytes_of(berlin), zone, moment(1711848600, 1)), false);
    IS(calendar_text_is_instance(bytes_of(text), length, bytes_of(berlin), zone, moment(1711845000, 0)), false);
    /* COUNT counts the 31st of May, which is left out. */
    calendar_date_time out[5] = {{0, 0}, {0, 0}, {0, 0}, {0, 0}, {5, 6}};
    IS(calendar_text_instances(bytes_of(month), long_one, bytes_of(berlin), zone, moment(0, 0), moment(1722409200, 0), out, 5), 4u);
    IS_MOMENT(out[0], 1706688000, 0);
    IS_MOMENT(out[1], 1706774400, 0);
    IS_MOMENT(out[2], 1711868400, 0);
    IS_MOMENT(out[3], 1722409200, 0);
    IS_MOMENT(out[4], 5, 6);
    /* until is in UTC */
    IS(calendar_text_instances(bytes_of(month), long_one, bytes_of(berlin), zone, moment(1706688000, 0), moment(1722409199, 0), out, 5), 2u);
    IS(calendar_text_instances(bytes_of(month), long_one, bytes_of(berlin), zone, moment(0, 0), moment(1722409200, 0), out, 1), 1u);
    NO_MOMENT(calendar_text_next(bytes_of(month), long_one, bytes_of(berlin), zone, moment(1722409200, 0)));
    NO_MOMENT(calendar_text_next(bytes_of(month), long_one, bytes_of("EST"), 3, moment(0, 0)));
    NO_MOMENT(calendar_text_next(bytes_of(month), long_one, bytes_of(berlin), zone, moment(8210266876799, 0)));
    NO_MOMENT(calendar_text_next(bytes_of(month), 9, bytes_of(berlin), zone, moment(0, 0)));
}

static bool has_text_fault(const char *text, const char *zone, uint32_t code, size_t byte)
{
    calendar_fault fault = {0, 0, 0, 0};
    uint8_t said[64];
    return !calendar_text_check(bytes_of(text), strlen(text), bytes_of(zone), strlen(zone), &fault) && fault.code == code && fault.field == 0
        && fault.byte == byte && fault.end == strlen(text) && calendar_text_fault_text(&fault, said, sizeof said) > 0;
}

static void faults_of_calendars(void)
{
    const char *zone = "UTC0", *start = "DTSTART:20240131T090000\n";
    char text[9000];
    IS(has_text_fault("DTSTART:20240131T0900\n", zone, CALENDAR_RECURRENCE_NOT_A_TIME, 8), true);
    IS(has_text_fault("RRULE:FREQ=DAILY", zone, CALENDAR_RECURRENCE_NO_START, 16), true);
    IS(has_text_fault("DTSTART:20240131T090000\nEXDATE;TZID=UTC:20240131T090000\n", zone, CALENDAR_RECURRENCE_OTHER_ZONE, 40), true);
    IS(has_text_fault("DTSTART:20240131T090000Z\n", zone, CALENDAR_RECURRENCE_NOT_LOCAL, 0), true);
    IS(has_text_fault("DTSTART:20240131T090000\nRRULE:FREQ=DAILY;BYHOUR=24\n", zone, CALENDAR_RECURRENCE_HOURS, 0), true);
    IS(has_text_fault("DTSTART:20240131T090000\nRRULE:COUNT=2\n", zone, CALENDAR_RECURRENCE_FREQUENCY, 0), true);
    IS(has_text_fault("DTSTART:20240131T090000\nRRULE:FREQ=DAILY;BYDAY=XX\n", zone, CALENDAR_RECURRENCE_DAYS, 0), true);
    IS(has_text_fault("DTSTART:20240131T090000\nRRULE:FREQ=DAILY;UNTIL=20241231\n", zone, CALENDAR_RECURRENCE_UNTIL, 0), true);
    IS(has_text_fault("DTSTART:20240131T090000\nRRULE:FREQ=DAILY;BYHOUR=1;BYSETPOS=1;BYDAY=MO\n", zone, CALENDAR_RECURRENCE_NOT_TOGETHER, 0), true);
    IS(has_text_fault("DTSTART:20240131T090000\nRDATE;VALUE=DATE:20240131\n", zone, CALENDAR_RECURRENCE_NO_INSTANT, 0), true);
    IS(has_text_fault("DTSTART:20240131T090000\n", "EST", CALENDAR_RECURRENCE_NO_ZONE, 0), true);
    memset(text, 0, sizeof text);
    strcpy(text, start);
    for (size_t i = 0; i < 257; i++) {
        strcat(text, i ? "," : "RDATE:");
        strcat(text, "20240131T090000");
    }
    IS(has_text_fault(text, zone, CALENDAR_RECURRENCE_TOO_MANY_TIMES, 0), true);
    memset(text, '\n', 8193);
    text[8193] = 0;
    memcpy(text, start, strlen(start));
    IS(has_text_fault(text, zone, CALENDAR_RECURRENCE_TOO_LONG, 0), true);
    text[8192] = 0;
    IS_MOMENT(calendar_text_next(bytes_of(text), 8192, bytes_of(zone), 4, moment(0, 0)), 1706691600, 0);
    memset(text, 'A', 1100);
    memcpy(text, start, strlen(start));
    memcpy(text + strlen(start), "RRULE:", 6);
    text[strlen(start) + 6 + 1024] = 0;
    IS(has_text_fault(text, zone, CALENDAR_RECURRENCE_LONG_RULE, 0), true);
    calendar_fault fault = {27, 0, 0, 0};
    uint8_t said[64];
    IS(calendar_text_fault_text(&fault, said, sizeof said), CALENDAR_NONE);
    fault.code = CALENDAR_RECURRENCE_NO_START;
    IS(calendar_text_fault_text(&fault, said, 18), 18);
    IS(memcmp(said, "DTSTART is missing", 18), 0);
    IS(calendar_text_fault_text(&fault, said, 17), CALENDAR_NONE);
}

static bool has_timed_fault(const char *text, uint32_t dialect, uint32_t code, uint32_t field, size_t byte, size_t end)
{
    calendar_fault fault = {0, 0, 0, 0};
    return !calendar_timed_schedule_check(bytes_of(text), strlen(text), dialect, &fault) && fault.code == code && fault.field == field
        && fault.byte == byte && fault.end == end;
}

static void timed_schedules(void)
{
    const char *quarters = "*/15 30 4 * * *", *years = "0 30 4 ? * MON-FRI 2024-2026";
    size_t length = strlen(quarters), long_one = strlen(years);
    calendar_fault fault = {7, 8, 9, 10};
    IS(calendar_timed_schedule_check(bytes_of(quarters), length, CALENDAR_DIALECT_SECONDS, &fault), true);
    IS(calendar_timed_schedule_check(bytes_of(quarters), length, 4, &fault), false);
    IS(fault.code, 7u);
    IS(has_timed_fault(quarters, CALENDAR_DIALECT_CRONTAB, CALENDAR_SCHEDULE_TOO_MANY_FIELDS, 0, 14, 15), true);
    IS(has_timed_fault("0,60 * * * * *", CALENDAR_DIALECT_SECONDS, CALENDAR_SCHEDULE_OUT_OF_RANGE, 6, 2, 4), true);
    IS(has_timed_fault("0 0 24 * * *", CALENDAR_DIALECT_SECONDS, CALENDAR_SCHEDULE_OUT_OF_RANGE, 2, 4, 6), true);
    IS(has_timed_fault("0 0 0 1 * MON", CALENDAR_DIALECT_QUARTZ, CALENDAR_SCHEDULE_QUESTION_MARKS, 5, 10, 13), true);
    IS(has_timed_fault("0 0 0 1 * ? 2100", CALENDAR_DIALECT_QUARTZ, CALENDAR_SCHEDULE_OUT_OF_RANGE, 7, 12, 16), true);
    IS(has_timed_fault("0 0 ? * 7", CALENDAR_DIALECT_ROBFIG, CALENDAR_SCHEDULE_OUT_OF_RANGE, 5, 8, 9), true);
    /* 9 February 2024, 04:30:15 */
    IS_MOMENT(calendar_timed_schedule_next(bytes_of(quarters), length, CALENDAR_DIALECT_SECONDS, moment(1707453015, 0)), 1707453030, 0);
    IS_MOMENT(calendar_timed_schedule_next(bytes_of(quarters), length, CALENDAR_DIALECT_SECONDS, moment(1707453045, 0)), 1707539400, 0);
    IS_MOMENT(calendar_timed_schedule_prev(bytes_of(quarters), length, CALENDAR_DIALECT_SECONDS, moment(1707453015, 0)), 1707453000, 0);
    IS(calendar_timed_schedule_is_due(bytes_of(quarters), length, CALENDAR_DIALECT_SECONDS, moment(1707453015, 0)), true);
    IS(calendar_timed_schedule_is_due(bytes_of(quarters), length, CALENDAR_DIALECT_SECONDS, moment(1707453016, 0)), false);
    IS(calendar_timed_schedule_is_due(bytes_of(quarters), length, CALENDAR_DIALECT_SECONDS, moment(1707453015, 1)), false);
    /* from Friday, 2 January 2026, to Monday, and no day of 2027 */
    IS_MOMENT(calendar_timed_schedule_next(bytes_of(years), long_one, CALENDAR_DIALECT_QUARTZ, moment(1767328200, 0)), 1767587400, 0);
    NO_MOMENT(calendar_timed_schedule_next(bytes_of(years), long_one, CALENDAR_DIALECT_QUARTZ, moment(1798691400, 0)));
    NO_MOMENT(calendar_timed_schedule_next(bytes_of(years), long_one, CALENDAR_DIALECT_SECONDS, moment(0, 0)));
    NO_MOMENT(calendar_timed_schedule_prev(bytes_of(years), long_one, 4, moment(0, 0)));
    NO_MOMENT(calendar_timed_schedule_prev(bytes_of(years), long_one, CALENDAR_DIALECT_QUARTZ, moment(INT64_MAX, 0)));
    IS(calendar_timed_schedule_is_due(bytes_of(years), long_one, CALENDAR_DIALECT_CRONTAB, moment(1767328200, 0)), false);
    /* from Friday, 16 February 2024, to the 21st, and to Friday, 1 March, where both fields of days have to match */
    const char *days = "30 4 */20 * FRI";
    IS_MOMENT(calendar_timed_schedule_next(bytes_of(days), strlen(days), CALENDAR_DIALECT_ROBFIG, moment(1708057800, 0)), 1708489800, 0);
    IS_MOMENT(calendar_timed_schedule_next(bytes_of(days), strlen(days), CALENDAR_DIALECT_CRONTAB, moment(1708057800, 0)), 1709267400, 0);
    /* a nickname is due at second 0 */
    IS_MOMENT(calendar_timed_schedule_next(bytes_of("@daily"), 6, CALENDAR_DIALECT_SECONDS, moment(MARCH - 1, 0)), MARCH, 0);
}

static void versions(void)
{
    uint8_t text[16];
    size_t length = strlen(CALENDAR_VERSION);
    IS(calendar_layers_version(text, sizeof text), (int32_t)length);
    IS(memcmp(text, CALENDAR_VERSION, length), 0);
    IS(calendar_layers_version(text, length - 1), CALENDAR_NONE);
}

int main(void)
{
    versions();
    texts_of_schedules();
    sentences_of_schedules();
    sentences_of_timed_schedules();
    sentences_of_holidays();
    sentences_of_patterns();
    times_of_schedules();
    texts_of_rules();
    days_of_rules();
    open_days();
    rolls();
    many_holidays();
    first_years();
    open_days_within();
    rolls_within();
    holidays();
    columns();
    columns_within();
    patterns();
    zones();
    files_of_zones();
    schedules_in_zones();
    texts_of_calendars();
    faults_of_calendars();
    timed_schedules();
    day_counts();
    all_codes();
    printf("%d passed, %d failed\n", passed, failed);
    return failed != 0;
}
