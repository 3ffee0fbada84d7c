/* calendar.h of proved_calendar: the proleptic Gregorian calendar, by functions that are proved.
 *
 * For example, calendar_add_months(calendar_from_ymd(2024, 2, 29), 12) is 28 February 2025.
 *
 * A date is its day number: 1 is 1 January of year 1, 0 the day before it. Years count as in ISO 8601, so year 0 comes before
 * year 1. Compare and subtract dates as numbers.
 *
 * Every function accepts all values of its argument types, and a struct of any bytes. It returns CALENDAR_NONE if the date,
 * field or text does not exist. It also does so if an argument is not a date, weekday or date-time, but has to be one. A function
 * for date-times, times of day or durations then returns 0 seconds and CALENDAR_NO_NANOS. No function takes memory, keeps
 * anything between calls, or reads anything but its arguments. So any number of threads can call them.
 *
 * Weekdays count from 1 for Monday to 7 for Sunday (ISO 8601). A set of weekdays is a number with one binary digit for each:
 * 1 for Monday, 2 for Tuesday, 4, 8, 16, 32, and 64 for Sunday. The highest digit counts for nothing.
 *
 * The library is machine code for Linux on processors of the level x86-64-v2 or above, which have SSE4.2. On an older one a
 * call may end the program.
 *
 * Texts are ASCII, without a zero byte at the end. A text is passed as a pointer and a number of bytes. The pointer must not be
 * null, even for no bytes, and that many bytes must lie there.
 */
#ifndef CALENDAR_H
#define CALENDAR_H

#include <stdbool.h>
#include <stddef.h>
#include <stdint.h>

#ifdef __cplusplus
extern "C" {
#endif

/* The version of this header and of the library that comes with it. */
#define CALENDAR_VERSION "0.2.0-dev"

/* Returned if a date, a field or a length does not exist. */
#define CALENDAR_NONE INT32_MIN

/* The first date, 1 January of year -262143, and the last, 31 December of year 262142. */
#define CALENDAR_MIN (-95746129)
#define CALENDAR_MAX 95745399

/* 1 January 1970. */
#define CALENDAR_UNIX_EPOCH 719163

/* The nanos of a date-time, a time of day or a duration that does not exist. Its seconds are 0. */
#define CALENDAR_NO_NANOS UINT32_MAX

/* A date-time without time zone. seconds counts from 1970-01-01T00:00:00, with 86,400 for every day. nanos is 0 to 999,999,999.
 * In a leap second nanos is 1,000,000,000 to 1,999,999,999, and the second is the last of its minute. Any other pair of
 * numbers, or one whose day is not a date, is not a date-time. calendar_date_time_date returns CALENDAR_NONE for these only. */
typedef struct {
    int64_t seconds;
    uint32_t nanos;
} calendar_date_time;

/* A time of day. second counts from midnight, from 0 to 86,399. nanos is as in a date-time, so 23:59:60.5 is 86,399 and
 * 1,500,000,000. Any other pair of numbers is not a time of day. */
typedef struct {
    uint32_t second;
    uint32_t nanos;
} calendar_time;

/* A duration: whole seconds, rounded down, and 0 to 999,999,999 nanoseconds more. So 1.5 seconds are 1 and 500,000,000, and
 * -1.5 seconds are -2 and 500,000,000. calendar_duration_multiply by -1 gives the opposite. The size is at most INT64_MAX
 * milliseconds. Any other pair is not a duration. */
typedef struct {
    int64_t seconds;
    uint32_t nanos;
} calendar_duration;

/* ---- the version */

/* Writes CALENDAR_VERSION, such as 0.2.0-dev, over the first bytes and returns their number. Returns CALENDAR_NONE if room is too small.
 * The version is the library's. So a program can compare it with its header. */
int32_t calendar_version(uint8_t *text, size_t room);

/* ---- dates by their names */

/* Returns the date of a year, a month from 1 to 12 and a day of the month from 1 (ISO 8601 calendar date). */
int32_t calendar_from_ymd(int32_t year, uint32_t month, uint32_t day);

/* Returns the date of a year and a day of it, from 1 to 365 or 366 (ISO 8601 ordinal date). */
int32_t calendar_from_yo(int32_t year, uint32_t ordinal);

/* Returns the date of an ISO year, a week of it from 1 to 52 or 53, and a weekday (ISO 8601 week date). */
int32_t calendar_from_isoywd(int32_t year, uint32_t week, uint32_t weekday);

/* Returns the n-th day of a month that has the weekday, counted from 1. For example, weekday 5 and n 3 is the third Friday. */
int32_t calendar_from_weekday_of_month(int32_t year, uint32_t month, uint32_t weekday, uint32_t n);

/* ---- fields of a date */

/* Returns the year, from -262143 to 262142. */
int32_t calendar_year(int32_t date);

/* Returns the month, from 1 for January to 12. */
int32_t calendar_month(int32_t date);

/* Returns the day of the month, from 1 to 31. */
int32_t calendar_day(int32_t date);

/* Returns the day of the year, from 1 to 366 (ISO 8601 ordinal date). */
int32_t calendar_ordinal(int32_t date);

/* Returns the weekday, from 1 for Monday to 7. */
int32_t calendar_weekday(int32_t date);

/* Returns the ISO year, from -262143 to 262143: that of the Thursday of the date's week (ISO 8601 week date). */
int32_t calendar_iso_year(int32_t date);

/* Returns the week of the ISO year, from 1 to 53. */
int32_t calendar_iso_week(int32_t date);

/* ---- years and months */

/* Returns whether a year is a leap year: a multiple of 4, and if of 100 then also of 400. This holds for every int32_t. */
bool calendar_is_leap_year(int32_t year);

/* Returns the days of a month, from 28 to 31. Returns CALENDAR_NONE if the year has no dates or the month is not 1 to 12. */
int32_t calendar_days_in_month(int32_t year, uint32_t month);

/* ---- moves and distances */

/* Returns the date `days` days later, or earlier if days is negative. */
int32_t calendar_add_days(int32_t date, int64_t days);

/* Returns the date `months` months later, or earlier if months is negative. If that month is too short, returns its last day. */
int32_t calendar_add_months(int32_t date, int64_t months);

/* Returns the date `index` times `months` months after start, in one move. From 31 January 2024, months 1 gives 29 February for
 * index 1 and 31 March for index 2. Negative months lead back. */
int32_t calendar_every_months(int32_t start, int32_t months, uint32_t index);

/* Returns the whole years from base to date, or CALENDAR_NONE if date comes before base. From 29 February a year is whole on
 * 1 March of a common year, and on 29 February of a leap year. */
int32_t calendar_years_since(int32_t date, int32_t base);

/* Returns the first day of the week that contains date and begins on the weekday start. Returns CALENDAR_NONE if that day
 * is before CALENDAR_MIN. */
int32_t calendar_week_first_day(int32_t date, uint32_t start);

/* Returns the first date whose weekday is in the set, from date on, which counts too. Returns CALENDAR_NONE if the set is empty,
 * or if no such day comes up to CALENDAR_MAX. */
int32_t calendar_first_on(int32_t date, uint8_t weekdays);

/* Returns the days from a weekday to the next one in the set, 0 to 6, or CALENDAR_NONE if the set is empty. */
int32_t calendar_days_until(uint8_t weekdays, uint32_t from);

/* ---- texts of dates */

/* Writes the date as 2024-02-29 and returns the number of bytes, 10 to 13. A year before 0 or after 9999 has its sign. The other
 * bytes stay as they were. If date is not a date, or room is too small, writes nothing and returns CALENDAR_NONE. */
int32_t calendar_write_date(int32_t date, uint8_t *text, size_t room);

/* Returns the date whose text these bytes are, as calendar_write_date writes it. */
int32_t calendar_read_date(const uint8_t *text, size_t length);

/* ---- date-times */

/* Returns the date-time at a second of a date, from 0 to 86,399, and nanos after it. nanos is at most 999,999,999. In a leap
 * second, after the last second of a minute, it goes on to 1,999,999,999. */
calendar_date_time calendar_date_time_new(int32_t date, uint32_t second_of_day, uint32_t nanos);

/* Returns the date of a date-time. */
int32_t calendar_date_time_date(calendar_date_time moment);

/* Returns the second of the day of a date-time, from 0 to 86,399. */
int32_t calendar_date_time_second_of_day(calendar_date_time moment);

/* Returns the time of day of a date-time, with its leap second. */
calendar_time calendar_date_time_time(calendar_date_time moment);

/* Returns the date-time that is `by` later, or earlier if by is negative. A move from inside a leap second counts the rest of that
 * second, or for a move back the part that has passed. It counts no other leap second. */
calendar_date_time calendar_date_time_add(calendar_date_time moment, calendar_duration by);

/* Returns the time from base to moment: 86,400 seconds for each day between their dates, plus the distance of their times of
 * day. A leap second counts if one of the two is in it and has the smaller second of the day. If the dates differ and one is
 * in a leap second, the sign may be wrong, and the move may not lead back. For example, 2017-01-01T00:00:00 is -0.5 seconds
 * from 2016-12-31T23:59:60.5, and adding that gives 23:59:60. */
calendar_duration calendar_date_time_since(calendar_date_time moment, calendar_date_time base);

/* Writes the date-time as 2024-02-29T23:59:60.500 and returns the number of bytes, 19 to 32. The fraction has three, six or nine
 * digits, the fewest that hold it, and is left out if it is 0. The other bytes stay as they were. If moment is not a
 * date-time, or room is too small, writes nothing and returns CALENDAR_NONE. */
int32_t calendar_write_date_time(calendar_date_time moment, uint8_t *text, size_t room);

/* Returns the date-time whose text these bytes are: a date's text, a T or a space, and HH:MM:SS. A point and one to nine digits
 * may follow. The second 60 is a leap second. */
calendar_date_time calendar_read_date_time(const uint8_t *text, size_t length);

/* ---- times of day */

/* Writes the time of day as 23:59:60.500 and returns the number of bytes, 8 to 18. The fraction is as in a date-time. The other
 * bytes stay as they were. If time is not a time of day, or room is too small, writes nothing and returns CALENDAR_NONE. */
int32_t calendar_write_time(calendar_time time, uint8_t *text, size_t room);

/* Returns the time of day whose text these bytes are: HH:MM:SS, after which a point and one to nine digits may follow. The second
 * 60 is a leap second. */
calendar_time calendar_read_time(const uint8_t *text, size_t length);

/* ---- durations */

/* Returns the sum of two durations. If it is too long for a duration, or an argument is not one, there is none. */
calendar_duration calendar_duration_add(calendar_duration duration, calendar_duration by);

/* Returns `times` times a duration. If it is too long for a duration, or the argument is not one, there is none. */
calendar_duration calendar_duration_multiply(calendar_duration duration, int32_t times);

/* Returns a duration divided by `parts`. There is none if parts is 0, or the argument is not a duration. The seconds, rounded
 * down, and the nanoseconds past them are divided apart. Each quotient is rounded towards zero. So half of -1 ns is -1 ns. */
calendar_duration calendar_duration_divide(calendar_duration duration, int32_t parts);

/* Writes the duration in seconds as PT5400.5S (ISO 8601 duration) and returns the number of bytes, 3 to 30. A negative one has -
 * before it, and zero is P0D. The fraction has the fewest digits that hold it. The other bytes stay as they were. If duration is
 * not a duration, or room is too small, writes nothing and returns CALENDAR_NONE. */
int32_t calendar_write_duration(calendar_duration duration, uint8_t *text, size_t room);

/* Returns the duration whose text these bytes are, as calendar_write_duration writes it. The fraction has one to nine digits. */
calendar_duration calendar_read_duration(const uint8_t *text, size_t length);

/* ---- year, month and day of one date */

/* A year, a month from 1 to 12 and a day of the month from 1. If there is no date they are CALENDAR_NONE, 0 and 0. */
typedef struct {
    int32_t year;
    uint8_t month;
    uint8_t day;
} calendar_ymd;

/* Returns the year, the month and the day of a date, by one conversion (ISO 8601 calendar date). */
calendar_ymd calendar_split(int32_t date);

/* ---- columns of dates
 *
 * A column is a pointer to its first element and the number of its elements. The pointer must not be null, even for no elements.
 * It must be aligned for its type, and that many elements must lie there. A column that is written must not overlap another.
 *
 * Each function writes all elements of the columns that are not const, and returns true. If the columns have different lengths, it
 * writes nothing and returns false. The two functions that change a
 * single column return nothing.
 *
 * An element that is not a date has no fields. CALENDAR_NONE stands for no date, year or distance, and INT64_MIN for no days since
 * 1970. 0 stands for no month, day, ordinal, week or weekday. */

/* Writes the weekday of each date, from 1 for Monday to 7. */
bool calendar_column_weekdays(const int32_t *dates, size_t dates_length, uint8_t *weekdays, size_t weekdays_length);

/* Writes the year of each date. */
bool calendar_column_years(const int32_t *dates, size_t dates_length, int32_t *years, size_t years_length);

/* Writes the day of the year of each date, from 1 to 366 (ISO 8601 ordinal date). */
bool calendar_column_ordinals(const int32_t *dates, size_t dates_length, uint16_t *ordinals, size_t ordinals_length);

/* Writes the year, the month and the day of each date (ISO 8601 calendar date). */
bool calendar_column_split(const int32_t *dates, size_t dates_length, int32_t *years, size_t years_length,
                           uint8_t *months, size_t months_length, uint8_t *days, size_t days_length);

/* Writes the ISO year and week of each date (ISO 8601 week date). */
bool calendar_column_iso_weeks(const int32_t *dates, size_t dates_length, int32_t *years, size_t years_length,
                               uint8_t *weeks, size_t weeks_length);

/* Writes the date of each year, month and day (ISO 8601 calendar date). */
bool calendar_column_join(const int32_t *years, size_t years_length, const uint8_t *months, size_t months_length,
                          const uint8_t *days, size_t days_length, int32_t *dates, size_t dates_length);

/* Writes the date `days` days after each, or before it if days is negative. */
bool calendar_column_add_days(const int32_t *dates, size_t dates_length, int32_t days, int32_t *moved, size_t moved_length);

/* The same, in place: each date becomes the moved one. */
void calendar_column_add_days_in_place(int32_t *dates, size_t dates_length, int32_t days);

/* The same, with its own number of days for each date. CALENDAR_NONE days give no date. */
bool calendar_column_add_days_each(const int32_t *dates, size_t dates_length, const int32_t *days, size_t days_length,
                                   int32_t *moved, size_t moved_length);

/* The same, in place: each date becomes the moved one. */
bool calendar_column_add_days_each_in_place(int32_t *dates, size_t dates_length, const int32_t *days, size_t days_length);

/* Writes the date `months` months after each, or before it if months is negative. If that month is too short, writes its last
 * day. */
bool calendar_column_add_months(const int32_t *dates, size_t dates_length, int32_t months, int32_t *moved, size_t moved_length);

/* The same, in place: each date becomes the moved one. */
void calendar_column_add_months_in_place(int32_t *dates, size_t dates_length, int32_t months);

/* Writes the days from each date of bases to the date at the same place in dates. */
bool calendar_column_days_between(const int32_t *dates, size_t dates_length, const int32_t *bases, size_t bases_length,
                                  int32_t *days, size_t days_length);

/* Writes the first date whose weekday is in the set, from each date on, which counts too. */
bool calendar_column_first_on(const int32_t *dates, size_t dates_length, uint8_t weekdays, int32_t *found, size_t found_length);

/* Writes the date of each number of days since 1 January 1970. */
bool calendar_column_from_unix_days(const int64_t *days, size_t days_length, int32_t *dates, size_t dates_length);

/* Writes the days from 1 January 1970 to each date. */
bool calendar_column_to_unix_days(const int32_t *dates, size_t dates_length, int64_t *days, size_t days_length);

/* Writes the text of each date as 2024-02-29: ten bytes each, with nothing between. Writes ten zero bytes for an element that is
 * not a date or has a year outside 0 to 9999. texts_length counts the texts. */
bool calendar_column_write_dates(const int32_t *dates, size_t dates_length, uint8_t *texts, size_t texts_length);

/* Writes the date whose text each ten bytes are, as calendar_column_write_dates writes it. texts_length counts the texts. */
bool calendar_column_read_dates(const uint8_t *texts, size_t texts_length, int32_t *dates, size_t dates_length);

/* Returns how many elements of the column are dates. */
size_t calendar_column_count_dates(const int32_t *dates, size_t dates_length);

#ifdef __cplusplus
}
#endif

#endif
