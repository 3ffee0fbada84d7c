/* extension.h: what the parts of the PostgreSQL extension share.
 *
 * The functions that SQL calls begin with proved_, since PostgreSQL shows the names of one extension to all others.
 */
#ifndef EXTENSION_H
#define EXTENSION_H

#include "postgres.h"

#include "datatype/timestamp.h"
#include "fmgr.h"
#include "utils/date.h"

#include "calendar.h"
#include "calendar_layers.h"

/* ---- values.c: PostgreSQL's dates and times, and the library's */

/* The day number of a date. Fails if the date is infinite, or comes after the calendar. */
int32_t day_of(DateADT date);

/* The date of a day number. Fails if PostgreSQL has no such date, or the day is CALENDAR_NONE. */
DateADT date_of(int32_t day);

/* The date-time of a timestamp. Fails if it is infinite, or comes after the calendar. */
calendar_date_time moment_of(Timestamp time);

/* Whether PostgreSQL has the timestamp of a date-time, and the timestamp. */
bool has_timestamp(calendar_date_time moment, Timestamp *time);

/* A set has at most so many rows. */
#define MOST_ROWS 10000000

/* Fails if a set has its most rows before the next one. */
void count_row(const char *function, uint64 before);

/* ---- texts.c: texts that are read, and what is wrong with them */

/* Fails since a text is wrong, with a caret at the byte. */
void refuse(const char *what, const char *bytes, size_t length, size_t byte, const char *detail, const char *hint) pg_attribute_noreturn();

/* Reads a schedule, or fails. */
void read_schedule(const text *value, calendar_schedule *schedule);

/* The number of a word in a list that ends with null, in any case. Fails if it is none of them. */
uint32_t number_of_word(const char *what, const text *value, const char *const *words);

/* ---- instants.c: the clock of the session's zone */

/* The first instant after one at which the schedule fires by the zone's clock, as with Vixie's cron; whether there is one. */
bool next_instant(const calendar_schedule *schedule, TimestampTz after, TimestampTz *due);

/* ---- calendars.c: weekends and holidays */

/* The years of a calendar whose holidays are all known. */
#define FIRST_OF_ALL INT32_MIN
#define LAST_OF_ALL INT32_MAX

/* A weekend, the years of which holidays are known, and holidays that rise strictly, none of them on the weekend. */
typedef struct {
    uint8_t weekend;
    int32_t first_year, last_year;
    size_t count;
    int32_t *holidays;
} OpenDays;

/* The calendar of a name, from the tables that stand in the schema of the function that runs. */
const OpenDays *calendar_named(FunctionCallInfo fcinfo, int place);

/* The calendar of an array of holidays and an array of weekdays. */
const OpenDays *calendar_listed(FunctionCallInfo fcinfo, int place);

#endif
