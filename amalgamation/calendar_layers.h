/* calendar_layers.h of proved_calendar: cron schedules, recurrence rules, texts of calendars, open days, holidays, day counts, patterns
 * and time zones, by functions that are proved.
 *
 * For example, calendar_schedule_read reads `30 4 1,15 * fri` into a calendar_schedule. calendar_schedule_next then finds the
 * next time at which it is due.
 *
 * It stands beside calendar.h, whose dates, date-times, sets of weekdays and texts it uses. Its library is libcalendar_layers.a.
 * It needs no other library.
 *
 * Every function accepts all values of its argument types. So a struct with any bytes is harmless. No function takes memory,
 * keeps anything between calls, or reads anything but its arguments. So any number of threads can call them. A call takes less
 * than 64 KB of stack. No pointer may be null, and no two pointers of a call may overlap unless both are const.
 */
#ifndef CALENDAR_LAYERS_H
#define CALENDAR_LAYERS_H

#include "calendar.h"

#ifdef __cplusplus
extern "C" {
#endif

/* ---- versions */

/* Writes CALENDAR_VERSION, such as 0.2.0-dev, over the first bytes and returns their number. Returns CALENDAR_NONE if room is too small.
 * The version is this library's. calendar_version of calendar.h tells that of the other. */
int32_t calendar_layers_version(uint8_t *text, size_t room);

/* ---- what is wrong with a text */

/* What is wrong, and where. A function that fills one in leaves it as it was if nothing is wrong. */
typedef struct {
    /* What is wrong, from 1. Each kind of text has its own numbers. */
    uint32_t code;
    /* The field that is wrong, from 1. 0 is none. */
    uint32_t field;
    /* Where the wrong part begins, in bytes from 0. For holidays it is the place of the wrong one. */
    size_t byte;
    /* Where it ends: the place of the next comma, semicolon, space or tab, or the length of the text. */
    size_t end;
} calendar_fault;

/* ---- cron schedules */

/* A schedule. The binary digit for 2^k of a set says whether k is listed. Digits of numbers that a field cannot have count for
 * nothing. Compare schedules field by field. */
typedef struct {
    /* minutes of the hour 0 to 59, hours 0 to 23, days of the month 1 to 31, months 1 to 12, weekdays 0 for Sunday to 6 */
    uint64_t minutes;
    uint64_t hours;
    uint64_t days;
    uint64_t months;
    uint64_t weekdays;
    /* L and L-k: the day of the month that k days follow */
    uint64_t days_from_end;
    /* kW: the workday that is nearest to the k-th day */
    uint64_t nearest_workdays;
    /* dL: the last day of the month with the weekday d */
    uint64_t last_weekdays;
    /* d#k: the k-th day of the month with the weekday d, as 7 * (k - 1) + d */
    uint64_t nth_weekdays;
    /* 1: a day of the month or a weekday is enough; otherwise both have to match. 2: LW, the last workday of the month.
     * 4: the minutes or the hours begin with *, so in a zone the schedule goes by what the clock shows. */
    uint64_t marks;
} calendar_schedule;

/* What is wrong with a schedule: the codes of calendar_fault. Its fields are 1 for minutes, hours, days, months, and 5 for
 * weekdays. */
enum {
    CALENDAR_SCHEDULE_EMPTY = 1,
    CALENDAR_SCHEDULE_TOO_FEW_FIELDS,
    CALENDAR_SCHEDULE_TOO_MANY_FIELDS,
    CALENDAR_SCHEDULE_UNKNOWN_NICKNAME,
    CALENDAR_SCHEDULE_INTERVAL,
    CALENDAR_SCHEDULE_REBOOT,
    CALENDAR_SCHEDULE_TIME_ZONE,
    CALENDAR_SCHEDULE_UNKNOWN_NAME,
    CALENDAR_SCHEDULE_LONG_NAME,
    CALENDAR_SCHEDULE_NOT_A_NUMBER,
    CALENDAR_SCHEDULE_OUT_OF_RANGE,
    CALENDAR_SCHEDULE_RANGE_TURNED_ROUND,
    CALENDAR_SCHEDULE_STEP_OF_ZERO,
    CALENDAR_SCHEDULE_STEP_OF_NUMBER
};

/* Reads a schedule as cron writes it, such as `30 4 1,15 * fri` or `@daily`, and returns whether the text is one. If it is none,
 * the schedule stays as it was, and fault says what is wrong first. */
bool calendar_schedule_read(const uint8_t *text, size_t length, calendar_schedule *schedule, calendar_fault *fault);

/* Writes what a fault of a schedule says, such as `hour, byte 2: a number that is out of range`, and returns the number of bytes,
 * at most 99. If fault has no such code, or room is too small, writes nothing and returns CALENDAR_NONE. */
int32_t calendar_schedule_fault_text(const calendar_fault *fault, uint8_t *text, size_t room);

/* Returns the first date-time after start at which the schedule is due. If there is none, or start is not a date-time, returns 0
 * seconds and CALENDAR_NO_NANOS. */
calendar_date_time calendar_schedule_next(const calendar_schedule *schedule, calendar_date_time start);

/* Returns the last date-time before start at which the schedule is due. */
calendar_date_time calendar_schedule_prev(const calendar_schedule *schedule, calendar_date_time start);

/* Returns whether the schedule is due at a date-time. It is due at the beginning of a minute, and never within one. */
bool calendar_schedule_is_due(const calendar_schedule *schedule, calendar_date_time moment);

/* Writes the date-times after start, up to until, at which the schedule is due, in order, and returns how many it wrote. It writes
 * at most room. The other elements stay as they were. Begin again from the last one if it wrote room of them. */
size_t calendar_schedule_due(const calendar_schedule *schedule, calendar_date_time start, calendar_date_time until,
                             calendar_date_time *out, size_t room);

/* ---- cron schedules with seconds and years
 *
 * Such a schedule is its text, and each call reads it by its dialect. If the text is no schedule of the dialect, the answers are those
 * for no date-time. */

/* What stands in a text: the five fields of cron, or six with seconds in front, or those of Quartz, which has weekdays from 1 for Sunday,
 * `?` for one field of days, and years such as `2024-2026` behind it, or the five fields of Go's robfig/cron. */
enum {
    CALENDAR_DIALECT_CRONTAB = 0,
    CALENDAR_DIALECT_SECONDS,
    CALENDAR_DIALECT_QUARTZ,
    CALENDAR_DIALECT_ROBFIG
};

/* What else can be wrong than with a schedule of cron: a text of Quartz has `?` in neither of the fields of days, or in both. */
enum { CALENDAR_SCHEDULE_QUESTION_MARKS = 15 };

/* Returns whether a text is a schedule of a dialect. If it is none, fault says what is wrong first, by the codes of schedules. Its field is
 * one of theirs, 6 for seconds, or 7 for years. If there is no such dialect, fault stays as it was. */
bool calendar_timed_schedule_check(const uint8_t *text, size_t length, uint32_t dialect, calendar_fault *fault);

/* Writes what a fault of such a schedule says, such as `second, byte 2: a number that is out of range`, and returns the number of bytes,
 * at most 99. It knows CALENDAR_SCHEDULE_QUESTION_MARKS and the fields 6 and 7, and else it is as calendar_schedule_fault_text. */
int32_t calendar_timed_schedule_fault_text(const calendar_fault *fault, uint8_t *text, size_t room);

/* Returns the first date-time after start at which the schedule is due, at the beginning of a second. */
calendar_date_time calendar_timed_schedule_next(const uint8_t *text, size_t length, uint32_t dialect, calendar_date_time start);

/* Returns the last date-time before start at which the schedule is due. */
calendar_date_time calendar_timed_schedule_prev(const uint8_t *text, size_t length, uint32_t dialect, calendar_date_time start);

/* Returns whether the schedule is due at a date-time. It is never due within a second. */
bool calendar_timed_schedule_is_due(const uint8_t *text, size_t length, uint32_t dialect, calendar_date_time moment);

/* ---- recurrence rules
 *
 * A rule is its text (RFC 5545, section 3.3.10), such as `FREQ=MONTHLY;BYDAY=-1FR`, and each call reads it. Rules are over days. To
 * give the instances a time of day, add it to each. A rule that begins on `start` has `start` as an instance only if the rule fits it. */

/* What is wrong with a rule: the codes of calendar_fault. Its fields are 1 for FREQ, INTERVAL, COUNT, UNTIL, BYMONTH, BYMONTHDAY, BYDAY,
 * BYYEARDAY, BYWEEKNO, BYSETPOS, and 11 for WKST. */
enum {
    CALENDAR_RULE_UNKNOWN = 1,
    CALENDAR_RULE_OF_HOURS,
    CALENDAR_RULE_OF_MINUTES,
    CALENDAR_RULE_OF_SECONDS,
    CALENDAR_RULE_EXTENSION,
    CALENDAR_RULE_OF_CALENDARS,
    CALENDAR_RULE_OF_SKIPS,
    CALENDAR_RULE_BLANK,
    CALENDAR_RULE_MISSING,
    CALENDAR_RULE_TWICE,
    CALENDAR_RULE_EMPTY,
    CALENDAR_RULE_NOT_A_FREQUENCY,
    CALENDAR_RULE_NOT_A_NUMBER,
    CALENDAR_RULE_RANGE,
    CALENDAR_RULE_OUT_OF_RANGE,
    CALENDAR_RULE_NOT_A_DATE,
    CALENDAR_RULE_WITH_TIME,
    CALENDAR_RULE_NOT_A_WEEKDAY,
    CALENDAR_RULE_BESIDE_COUNT,
    CALENDAR_RULE_NUMBERS_BESIDE_WEEKS,
    CALENDAR_RULE_ALONE,
    CALENDAR_RULE_NOT_WITH_DAILY,
    CALENDAR_RULE_NOT_WITH_WEEKLY,
    CALENDAR_RULE_NOT_WITH_MONTHLY,
    CALENDAR_RULE_NOT_WITH_YEARLY,
    CALENDAR_RULE_NUMBERS_NOT_WITH_DAILY,
    CALENDAR_RULE_NUMBERS_NOT_WITH_WEEKLY,
    CALENDAR_RULE_NUMBERS_NOT_WITH_MONTHLY,
    CALENDAR_RULE_NUMBERS_NOT_WITH_YEARLY
};

/* Returns whether a text is a rule. If it is none, fault says what is wrong first. */
bool calendar_rule_check(const uint8_t *text, size_t length, calendar_fault *fault);

/* Writes what a fault of a rule says, such as `BYMONTHDAY: number out of range`, and returns the number of bytes, at most 64. If fault
 * has no such code, or room is too small, writes nothing and returns CALENDAR_NONE. */
int32_t calendar_rule_fault_text(const calendar_fault *fault, uint8_t *text, size_t room);

/* Returns the first instance after a day of the rule that begins on start. Returns CALENDAR_NONE if there is none, if the text is not a
 * rule, or if one of the days is not a date. */
int32_t calendar_rule_next(const uint8_t *text, size_t length, int32_t start, int32_t day);

/* Returns the last instance before a day. */
int32_t calendar_rule_prev(const uint8_t *text, size_t length, int32_t start, int32_t day);

/* Returns whether a day is an instance. */
bool calendar_rule_is_instance(const uint8_t *text, size_t length, int32_t start, int32_t day);

/* Writes the instances on `from` and later, up to until, in order, and returns how many it wrote. It writes at most room. The other
 * elements stay as they were. Begin again from the day after the last one if it wrote room of them. Each call counts a rule with COUNT
 * from its start, so give twice as much room each time. */
size_t calendar_rule_instances(const uint8_t *text, size_t length, int32_t start, int32_t from, int32_t until, int32_t *out, size_t room);

/* ---- open days
 *
 * A calendar is a weekend, a set of weekdays, and holidays: a pointer to their day numbers and how many there are. The pointer must
 * not be null, even for none. Holidays are dates that rise strictly, none of them on the weekend, and at most CALENDAR_MOST_HOLIDAYS.
 * If they are not, a function returns what it returns for no date. It looks at each holiday once a call. */

/* The most holidays of a calendar. */
#define CALENDAR_MOST_HOLIDAYS 1000

/* Where a closed date goes (ISDA 2006, section 4.12). */
enum {
    CALENDAR_ROLL_UNADJUSTED = 0,
    CALENDAR_ROLL_FOLLOWING,
    CALENDAR_ROLL_PRECEDING,
    CALENDAR_ROLL_MODIFIED_FOLLOWING,
    CALENDAR_ROLL_MODIFIED_PRECEDING,
    /* the next open day from a Sunday or a Monday, and the last one from any other day */
    CALENDAR_ROLL_NEAREST_ISDA,
    /* the nearest open day, and of two the later, as QuantLib has it */
    CALENDAR_ROLL_NEAREST_QUANTLIB
};

/* Returns whether a date is open: neither on the weekend nor a holiday. */
bool calendar_is_open_day(uint8_t weekend, const int32_t *holidays, size_t count, int32_t date);

/* Returns the n-th open day after a date, or the -n-th before it if n is negative. If n is 0, returns the first open day from the
 * date on. Returns CALENDAR_NONE if the calendar has no such date. */
int32_t calendar_add_open_days(uint8_t weekend, const int32_t *holidays, size_t count, int32_t date, int64_t n);

/* Returns how many days are open from one date on and before another. If `to` is the earlier, the result is negative. Returns
 * INT64_MIN if one of them is not a date. */
int64_t calendar_open_days_between(uint8_t weekend, const int32_t *holidays, size_t count, int32_t from, int32_t to);

/* Returns the date that a date goes to by a roll, such as CALENDAR_ROLL_FOLLOWING. An open date stays. Returns CALENDAR_NONE if there
 * is no such open day, or no such roll. */
int32_t calendar_roll(uint8_t weekend, const int32_t *holidays, size_t count, int32_t date, uint32_t roll);

/* What is wrong with holidays: the codes of calendar_fault. Its byte is the place of the wrong one, from 0. */
enum {
    CALENDAR_HOLIDAYS_TOO_MANY = 1,
    CALENDAR_HOLIDAYS_NOT_A_DATE,
    CALENDAR_HOLIDAYS_NOT_RISING,
    CALENDAR_HOLIDAYS_ON_WEEKEND
};

/* Returns whether holidays are those of a calendar with a weekend. If they are not, fault says which is the first wrong one. */
bool calendar_holidays_check(uint8_t weekend, const int32_t *holidays, size_t count, calendar_fault *fault);

/* Writes what a fault of holidays says, such as `holiday 1 is on the weekend`, and returns the number of bytes, at most 63. If fault has
 * no such code, or room is too small, writes nothing and returns CALENDAR_NONE. */
int32_t calendar_holidays_fault_text(const calendar_fault *fault, uint8_t *text, size_t room);

/* Calendars whose holidays are known: the federal ones of the United States, those of the euro's payment system TARGET, and the bank
 * holidays of England and Wales. Then the days on which Fedwire and the New York Stock Exchange are closed, the holidays that all states
 * of Germany have, those of France, and the days on which banks in Japan are closed. */
enum {
    CALENDAR_US_FEDERAL = 0,
    CALENDAR_TARGET,
    CALENDAR_ENGLAND_AND_WALES,
    CALENDAR_FEDWIRE,
    CALENDAR_NYSE,
    CALENDAR_GERMANY,
    CALENDAR_FRANCE,
    CALENDAR_JAPAN
};

/* Writes the holidays of a known calendar for some years, but for those on the weekend, in order, and returns how many there are. The
 * other elements stay as they were. If they are more than room or CALENDAR_MOST_HOLIDAYS, or there is no such calendar or year,
 * writes nothing and returns CALENDAR_NONE. New Year's Day can be kept in the year before, so ask for one year more.
 * A calendar has none before its rules begin: 1971 for the United States and Fedwire, 1978 for England and Wales, 1982 for France.
 * Those of Germany begin in 1995, those of the exchange in 1998, and those of TARGET in 1999. Those of Japan begin in 2007, and have the
 * computed days of the equinoxes up to 2099. */
int32_t calendar_holidays_of(uint32_t which, int32_t first_year, int32_t last_year, uint8_t weekend, int32_t *out, size_t room);

/* Returns the first year of which the holidays of a known calendar are known. Returns CALENDAR_NONE if there is no such calendar. */
int32_t calendar_holidays_first_year(uint32_t which);

/* The same questions where holidays are known from a first year to a last one alone, which both count. A function that looks at a day of
 * another year returns CALENDAR_NONE or INT64_MIN. For a known calendar the first year is at least calendar_holidays_first_year. */

/* Returns 1 if a date is open and 0 if it is not. Returns CALENDAR_NONE if it lies in another year. */
int32_t calendar_is_open_day_within(uint8_t weekend, const int32_t *holidays, size_t count, int32_t first_year, int32_t last_year,
                                    int32_t date);

/* Returns what calendar_add_open_days does, if both dates lie in the years. */
int32_t calendar_add_open_days_within(uint8_t weekend, const int32_t *holidays, size_t count, int32_t first_year, int32_t last_year,
                                      int32_t date, int64_t n);

/* Returns what calendar_open_days_between does, if each day that it counts or not lies in the years. So the later date, which is not
 * looked at, can be the first day after them. */
int64_t calendar_open_days_between_within(uint8_t weekend, const int32_t *holidays, size_t count, int32_t first_year, int32_t last_year,
                                          int32_t from, int32_t to);

/* Returns what calendar_roll does, if both dates lie in the years. CALENDAR_ROLL_NEAREST_QUANTLIB looks at as many days on the other side
 * of the date, and these have to lie in the years too. */
int32_t calendar_roll_within(uint8_t weekend, const int32_t *holidays, size_t count, int32_t first_year, int32_t last_year, int32_t date,
                             uint32_t roll);

/* Returns Easter Sunday of a year, as the Gregorian churches have it. Returns CALENDAR_NONE if the calendar has no such year. */
int32_t calendar_easter(int32_t year);

/* ---- columns of open days
 *
 * As in calendar.h, a column is a pointer and the number of its elements. Each function writes all elements of its last column and
 * returns true. If the columns have different lengths, or the holidays are wrong, it writes nothing and returns false. It looks at the
 * holidays once. An element that is not a date gives 0, CALENDAR_NONE or INT64_MIN. */

/* Writes for each date 1 if it is open, and 0 otherwise. */
bool calendar_column_is_open_day(uint8_t weekend, const int32_t *holidays, size_t count, const int32_t *dates, size_t dates_length,
                                 uint8_t *marks, size_t marks_length);

/* Writes what calendar_add_open_days returns for each date. */
bool calendar_column_add_open_days(uint8_t weekend, const int32_t *holidays, size_t count, const int32_t *dates, size_t dates_length,
                                   int64_t n, int32_t *moved, size_t moved_length);

/* Writes what calendar_open_days_between returns for the dates at each place. */
bool calendar_column_open_days_between(uint8_t weekend, const int32_t *holidays, size_t count, const int32_t *from, size_t from_length,
                                       const int32_t *to, size_t to_length, int64_t *days, size_t days_length);

/* Writes what calendar_roll returns for each date. It also returns false if there is no such roll. */
bool calendar_column_roll(uint8_t weekend, const int32_t *holidays, size_t count, const int32_t *dates, size_t dates_length,
                          uint32_t roll, int32_t *rolled, size_t rolled_length);

/* Writes for each date 1 if it is open, 2 if it lies in a year that is not from first_year to last_year, and 0 otherwise. */
bool calendar_column_is_open_day_within(uint8_t weekend, const int32_t *holidays, size_t count, int32_t first_year, int32_t last_year,
                                        const int32_t *dates, size_t dates_length, uint8_t *marks, size_t marks_length);

/* Writes what calendar_add_open_days_within returns for each date. */
bool calendar_column_add_open_days_within(uint8_t weekend, const int32_t *holidays, size_t count, int32_t first_year, int32_t last_year,
                                          const int32_t *dates, size_t dates_length, int64_t n, int32_t *moved, size_t moved_length);

/* Writes what calendar_open_days_between_within returns for the dates at each place. */
bool calendar_column_open_days_between_within(uint8_t weekend, const int32_t *holidays, size_t count, int32_t first_year,
                                              int32_t last_year, const int32_t *from, size_t from_length, const int32_t *to,
                                              size_t to_length, int64_t *days, size_t days_length);

/* Writes what calendar_roll_within returns for each date. It also returns false if there is no such roll. */
bool calendar_column_roll_within(uint8_t weekend, const int32_t *holidays, size_t count, int32_t first_year, int32_t last_year,
                                 const int32_t *dates, size_t dates_length, uint32_t roll, int32_t *rolled, size_t rolled_length);

/* Writes the date of each 32-bit number of days since 1 January 1970, as Arrow's date32 has them. */
bool calendar_column_from_date32(const int32_t *days, size_t days_length, int32_t *dates, size_t dates_length);

/* Writes the days from 1 January 1970 to each date, as Arrow's date32 has them. */
bool calendar_column_to_date32(const int32_t *dates, size_t dates_length, int32_t *days, size_t days_length);

/* ---- patterns
 *
 * A pattern is bytes that are written as they are, and specifiers, such as `%d.%m.%Y`. The specifiers are those of chrono's `format`,
 * with English names. Each call reads the pattern. */

/* What is wrong with a pattern, or with a text that a pattern reads: the codes of calendar_fault. Its field is 0. It ends where the
 * pattern or the text ends. */
enum {
    CALENDAR_PATTERN_UNKNOWN = 1,
    CALENDAR_PATTERN_CUT,
    CALENDAR_TEXT_TOO_SHORT,
    CALENDAR_TEXT_TOO_LONG,
    CALENDAR_TEXT_INVALID,
    CALENDAR_TEXT_OUT_OF_RANGE,
    CALENDAR_TEXT_IMPOSSIBLE,
    CALENDAR_TEXT_NOT_ENOUGH
};

/* Returns whether bytes are a pattern. If they are none, fault says which specifier is wrong first. */
bool calendar_pattern_check(const uint8_t *pattern, size_t length, calendar_fault *fault);

/* Writes what a fault of a pattern, or of a text that a pattern reads, says, such as `byte 3: the field has no such value`. Returns the
 * number of bytes, at most 73. If fault has no such code, or room is too small, writes nothing and returns CALENDAR_NONE. */
int32_t calendar_pattern_fault_text(const calendar_fault *fault, uint8_t *text, size_t room);

/* Writes a date by a pattern, and returns the number of bytes, at most 1,000. If the pattern is wrong or has a specifier of the time or
 * of an offset, if there is no date, or if the text is longer than room or 1,000 bytes, writes nothing and returns CALENDAR_NONE. */
int32_t calendar_format_date(const uint8_t *pattern, size_t length, int32_t date, uint8_t *text, size_t room);

/* The same of a date-time, by a pattern with no specifier of an offset. */
int32_t calendar_format_date_time(const uint8_t *pattern, size_t length, calendar_date_time moment, uint8_t *text, size_t room);

/* Returns the date that a text is of. If there is none, returns CALENDAR_NONE, and fault says what is wrong with the pattern (codes 1
 * and 2) or with the text. */
int32_t calendar_parse_date(const uint8_t *pattern, size_t length, const uint8_t *text, size_t text_length, calendar_fault *fault);

/* Returns the date-time that a text is of. If there is none, returns 0 seconds and CALENDAR_NO_NANOS. */
calendar_date_time calendar_parse_date_time(const uint8_t *pattern, size_t length, const uint8_t *text, size_t text_length,
                                            calendar_fault *fault);

/* A local date-time and how many seconds its clock is ahead of UTC. nanos is CALENDAR_NO_NANOS, and the rest 0, if there is none. */
typedef struct {
    int64_t seconds;
    uint32_t nanos;
    int32_t offset;
} calendar_zoned;

/* Returns whether a pattern reads an offset from UTC, such as by `%z` or `%+`. calendar_parse_date_time reads one and drops it. Returns false
 * if the bytes are no pattern. */
bool calendar_pattern_names_offset(const uint8_t *pattern, size_t length);

/* Returns the local date-time and the offset that a text is of, by a pattern that reads an offset, or with `%s`, which is of UTC by itself. If
 * there is none, returns CALENDAR_NO_NANOS. */
calendar_zoned calendar_parse_zoned(const uint8_t *pattern, size_t length, const uint8_t *text, size_t text_length, calendar_fault *fault);

/* ---- time zones
 *
 * A zone is bytes: those of a TZif file, such as `/usr/share/zoneinfo/Europe/Berlin`, or the text of a POSIX rule, such as
 * `CET-1CEST,M3.5.0,M10.5.0/3`. The program reads the file. Each call reads the bytes and looks at each row: 1 to 4 microseconds for
 * the files of Berlin and New York, and half of one for a rule. An offset holds up to calendar_zone_holds_until, so keep it until then. A
 * zone has at most 512 rows, and each file of the database has fewer. Files with leap seconds, those below `right/`, are refused. Bytes that
 * begin with `TZif` are those of a file.
 *
 * An instant is a number of seconds from 1 January 1970 in UTC. A local second is counted as if the clock were one in UTC. */

/* What is wrong with a zone: the codes of calendar_fault. Its field is the row that is wrong, from 1, or 0. Codes 10 to 14 are of a rule:
 * that of the text, or that at the end of the file. */
enum {
    CALENDAR_ZONE_NO_HEADER = 1,
    CALENDAR_ZONE_UNKNOWN_VERSION,
    CALENDAR_ZONE_CUT_OFF,
    CALENDAR_ZONE_WRONG_COUNTS,
    CALENDAR_ZONE_LEAP_SECONDS,
    CALENDAR_ZONE_WRONG_FOOTER,
    CALENDAR_ZONE_NO_FIRST_KIND,
    CALENDAR_ZONE_NO_ROW,
    CALENDAR_ZONE_TOO_MANY_ROWS,
    CALENDAR_ZONE_NO_NAME,
    CALENDAR_ZONE_NO_OFFSET,
    CALENDAR_ZONE_OFFSET_OF_DAY,
    CALENDAR_ZONE_NO_DAYS,
    CALENDAR_ZONE_NO_CHANGE,
    CALENDAR_ZONE_UNORDERED,
    CALENDAR_ZONE_NOT_JOINED,
    CALENDAR_ZONE_OTHER_VERSION
};

/* The count of no offsets, which says that the bytes are no zone. */
#define CALENDAR_NO_ZONE UINT32_MAX

/* The offsets of a local time, in seconds ahead of UTC. The instants are the local second less each of them. */
typedef struct {
    /* 0 if the clock skips the local time, 1, or 2 if it shows it twice */
    uint32_t count;
    /* at the only instant, or at the earlier one; 0 if there is none */
    int32_t earlier;
    /* the same, or at the later one */
    int32_t later;
} calendar_offsets;

/* Returns whether bytes are a zone. If they are none, fault says what is wrong first. */
bool calendar_zone_check(const uint8_t *zone, size_t length, calendar_fault *fault);

/* Writes what a fault of a zone says, such as `an offset is missing`, and returns the number of bytes, at most 64. If fault has no such
 * code, or room is too small, writes nothing and returns CALENDAR_NONE. */
int32_t calendar_zone_fault_text(const calendar_fault *fault, uint8_t *text, size_t room);

/* Returns how many seconds the zone's clock is ahead of UTC at an instant. Returns CALENDAR_NONE if the bytes are no zone. */
int32_t calendar_zone_offset_at(const uint8_t *zone, size_t length, int64_t second);

/* Returns the offsets at all instants at which the zone's clock shows a local second. */
calendar_offsets calendar_zone_offsets_of_local(const uint8_t *zone, size_t length, int64_t local);

/* Returns the next second at which the zone sets its clock, up to which it keeps the offset of an instant, or INT64_MAX if there is none.
 * The zone can set it to the same offset there. Returns INT64_MIN if the bytes are no zone. */
int64_t calendar_zone_holds_until(const uint8_t *zone, size_t length, int64_t second);

/* Returns the first instant after start at which a schedule fires in the zone. Both are date-times in UTC. A time that the clock skips
 * fires as the gap ends, and one that it shows twice fires once. But a schedule whose minutes or hours begin with * goes by what the clock
 * shows, and so does any where the clock is set ahead by three hours or back by more. So do Vixie's cron and cronie. Returns 0 seconds and
 * CALENDAR_NO_NANOS if there is none. So it does if start is not a date-time, the bytes are no zone, or the zone's clock shows a date
 * outside the calendar at start. */
calendar_date_time calendar_zone_schedule_next(const calendar_schedule *schedule, const uint8_t *zone, size_t length,
                                               calendar_date_time start);

/* Returns the last instant before start at which a schedule fires in the zone, by the same rules. */
calendar_date_time calendar_zone_schedule_prev(const calendar_schedule *schedule, const uint8_t *zone, size_t length,
                                               calendar_date_time start);

/* ---- texts of calendars in a zone
 *
 * A text has lines of RFC 5545: DTSTART, a local time, and RRULE, RDATE and EXDATE. Each call reads it, and the bytes of its zone, which the
 * caller finds by the name in the text. A text has at most 8192 bytes, its rule fewer than 1024, and RDATE and EXDATE at most 256 times
 * each. Date-times are in UTC. */

/* What is wrong with a text: the codes of calendar_fault. Codes up to 13 have the byte at which the text is wrong. */
enum {
    CALENDAR_RECURRENCE_NO_COLON = 1,
    CALENDAR_RECURRENCE_UNKNOWN_PROPERTY,
    CALENDAR_RECURRENCE_PROPERTY_TWICE,
    CALENDAR_RECURRENCE_NO_START,
    CALENDAR_RECURRENCE_UNKNOWN_PARAMETER,
    CALENDAR_RECURRENCE_PARAMETER_TWICE,
    CALENDAR_RECURRENCE_NOT_A_ZONE_NAME,
    CALENDAR_RECURRENCE_UNKNOWN_VALUE_TYPE,
    CALENDAR_RECURRENCE_ZONE_OF_DATE,
    CALENDAR_RECURRENCE_NOT_A_TIME,
    CALENDAR_RECURRENCE_OTHER_KIND,
    CALENDAR_RECURRENCE_OTHER_ZONE,
    CALENDAR_RECURRENCE_NOT_A_RULE,
    CALENDAR_RECURRENCE_TOO_LONG,
    CALENDAR_RECURRENCE_LONG_RULE,
    CALENDAR_RECURRENCE_NOT_LOCAL,
    CALENDAR_RECURRENCE_FREQUENCY,
    CALENDAR_RECURRENCE_HOURS,
    CALENDAR_RECURRENCE_MINUTES,
    CALENDAR_RECURRENCE_SECONDS,
    CALENDAR_RECURRENCE_DAYS,
    CALENDAR_RECURRENCE_UNTIL,
    CALENDAR_RECURRENCE_NOT_TOGETHER,
    CALENDAR_RECURRENCE_NO_INSTANT,
    CALENDAR_RECURRENCE_TOO_MANY_TIMES,
    CALENDAR_RECURRENCE_NO_ZONE
};

/* Returns whether a text means a recurrence in a zone. If it means none, fault says what is wrong first. */
bool calendar_text_check(const uint8_t *text, size_t length, const uint8_t *zone, size_t zone_length, calendar_fault *fault);

/* Writes what a fault of a text says, such as `DTSTART is missing`, and returns the number of bytes, at most 64. If fault has no such code,
 * or room is too small, writes nothing and returns CALENDAR_NONE. */
int32_t calendar_text_fault_text(const calendar_fault *fault, uint8_t *text, size_t room);

/* Writes the name of the zone of a text, TZID of DTSTART, and returns the number of bytes. Returns CALENDAR_NONE if the text names none, if
 * the name has more than 1000 bytes, or if room is too small. */
int32_t calendar_text_zone(const uint8_t *text, size_t length, uint8_t *name, size_t room);

/* Returns the first instant after start that a text has in a zone. Where the clock skips a time, the offset before the gap counts, and where
 * it shows one twice, the first counts (RFC 5545, section 3.3.5). Returns 0 seconds and CALENDAR_NO_NANOS if there is none, if the text
 * means no recurrence, if the bytes are no zone, or if the zone's clock shows a date outside the calendar at start. */
calendar_date_time calendar_text_next(const uint8_t *text, size_t length, const uint8_t *zone, size_t zone_length, calendar_date_time start);

/* Returns the last instant before start that a text has in a zone. */
calendar_date_time calendar_text_prev(const uint8_t *text, size_t length, const uint8_t *zone, size_t zone_length, calendar_date_time start);

/* Returns whether a text has an instant in a zone at a date-time. */
bool calendar_text_is_instance(const uint8_t *text, size_t length, const uint8_t *zone, size_t zone_length, calendar_date_time moment);

/* Writes the instants after start, up to until, in order, and returns how many it wrote. It writes at most room. The other elements stay as
 * they were. Begin again from the last one if it wrote room of them. */
size_t calendar_text_instances(const uint8_t *text, size_t length, const uint8_t *zone, size_t zone_length, calendar_date_time start,
                               calendar_date_time until, calendar_date_time *out, size_t room);

/* ---- day counts */

/* An exact fraction, which is not reduced. Its denominator is 0 if there is none. */
typedef struct {
    int64_t numerator;
    int64_t denominator;
} calendar_fraction;

/* The day counts of ISDA 2006, section 4.16. */
enum {
    CALENDAR_ACTUAL_ACTUAL_ISDA = 0,
    CALENDAR_ACTUAL_360,
    CALENDAR_ACTUAL_365_FIXED,
    CALENDAR_THIRTY_360,
    CALENDAR_THIRTY_E_360
};

/* Returns the part of a year from one date to another by a day count. It is negative if `to` is the earlier. */
calendar_fraction calendar_day_count(uint32_t kind, int32_t from, int32_t to);

#ifdef __cplusplus
}
#endif

#endif
