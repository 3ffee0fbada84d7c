/* extension.h: what the parts of the SQLite extension share.
 *
 * A function that can refuse its arguments returns whether it took them. If not, *message is what is wrong, in memory of SQLite, or
 * null if there is no memory.
 */
#ifndef EXTENSION_H
#define EXTENSION_H

#include "calendar.h"
#include "calendar_layers.h"

#include "sqlite3ext.h"

/* The longest text of a date, and of a date-time. */
enum { DATE_ROOM = 13, MOMENT_ROOM = 32 };

/* ---- arguments.c: arguments that are read */

/* The bytes of a text. */
typedef struct {
    const char *bytes;
    size_t length;
} Text;

/* Takes the bytes of a value, which has to be a text. */
bool read_text(const char *function, sqlite3_value *value, const char *what, Text *text, char **message);

/* The day that a text writes, or CALENDAR_NONE. */
int32_t day_of(Text text);

/* The message that a text is not what it should be, and why, in words with no percent sign. */
char *refusal_at(const char *function, Text text, const char *what, size_t byte, const char *words);

/* The message that a text is not what it should be, since one part of it is no date. */
char *refusal_of_part(const char *function, Text text, const char *what, size_t from, size_t end);

/* Reads the text of a date. */
bool read_day(const char *function, sqlite3_value *value, int32_t *day, char **message);

/* Reads the text of a date-time. A date stands for its midnight. */
bool read_moment(const char *function, sqlite3_value *value, calendar_date_time *moment, char **message);

/* Reads a schedule as cron writes it. */
bool read_schedule(const char *function, sqlite3_value *value, calendar_schedule *schedule, char **message);

/* Whether a text is a word of a list that ends with null, in any case, and the number of the word. */
bool is_word(Text text, const char *const *words, uint32_t *number);

/* Reads a word of such a list as its number. */
bool read_word(const char *function, sqlite3_value *value, const char *what, const char *const *words, uint32_t *number, char **message);

/* Reads a whole number. */
bool read_number(const char *function, sqlite3_value *value, sqlite3_int64 *number, char **message);

/* Whether a value is the text of a date. */
bool is_day(sqlite3_value *value);

/* ---- calendars.c: weekends and holidays */

/* Saturday and Sunday. */
#define PLAIN_WEEKEND 96

/* The names of the known calendars in the order of calendar_layers.h, with null at the end. */
extern const char *const KNOWN_CALENDARS[];

/* The years of a calendar whose holidays are all known. */
#define FIRST_OF_ALL INT32_MIN
#define LAST_OF_ALL INT32_MAX

/* A weekend, the years of which holidays are known, and holidays that rise strictly, none of them on the weekend. */
typedef struct {
    uint8_t weekend;
    int32_t first_year, last_year;
    size_t count;
    int32_t holidays[];
} OpenDays;

/* Reads a text as holidays, which are dates and those of known calendars, and the digits of another as weekdays; Saturday and Sunday if there
 * is no other. The answer is memory of SQLite, or null. */
OpenDays *read_calendar(const char *function, sqlite3_value *holidays, sqlite3_value *weekend, char **message);

/* ---- answers.c: answers that are written */

/* Fails with a message, which it frees. */
void answer_refusal(sqlite3_context *context, char *message);

/* Answers a date as a text. */
void answer_day(sqlite3_context *context, int32_t day);

/* Answers a date-time as a text with a space before the time, as SQLite's datetime() writes it, or NULL if there is none. */
void answer_moment(sqlite3_context *context, calendar_date_time moment);

/* ---- functions that SQL calls, which each part adds to a connection; the result is SQLite's */

/* A function by its name, with the number of its arguments. */
typedef struct {
    const char *name;
    int count;
    void (*call)(sqlite3_context *context, int count, sqlite3_value **values);
} Scalar;

/* Adds functions that answer NULL if an argument is NULL. */
int add_scalars(sqlite3 *db, const Scalar *scalars, size_t count);

/* The name of the function that runs. */
const char *name_of(sqlite3_context *context);

int add_dates(sqlite3 *db);
int add_schedules(sqlite3 *db);
int add_open_day_functions(sqlite3 *db);
int add_days_of(sqlite3 *db);
int add_due_between(sqlite3 *db);
int add_rule_dates(sqlite3 *db);
int add_holidays_of(sqlite3 *db);

/* ---- tables.c: functions whose answer is a table */

enum { MOST_ARGUMENTS = 3, CHUNK = 64 };

/* A row that is read, and what leads to the next one. */
typedef struct {
    sqlite3_vtab_cursor base;
    sqlite3_int64 row;
    bool is_over;
    /* the arguments, of which one that is not given is null */
    sqlite3_value *given[MOST_ARGUMENTS];
    /* days_of */
    int32_t day, last;
    sqlite3_int64 step;
    /* what is found, and the place of the present row in it */
    size_t count, at;
    /* due_between */
    calendar_schedule schedule;
    calendar_date_time until, found[CHUNK];
    /* rule_dates: the text of the rule belongs to an argument. The dates stand in days, or in memory of their own, and there is room for so many */
    Text rule;
    int32_t start, days[CHUNK], *more, *dates;
    size_t room;
    /* holidays_of */
    uint32_t which;
    sqlite3_int64 year, last_year;
} Cursor;

/* A function whose answer is a table of one column. */
typedef struct {
    const char *name;
    /* how SQLite declares it, with a hidden column for each argument, whose name is seldom one of another table */
    const char *declaration;
    /* how many arguments it needs */
    int needed;
    /* Goes to the first row. No argument is NULL. */
    bool (*start)(Cursor *cursor, char **message);
    /* Goes to the next row. */
    void (*next)(Cursor *cursor);
    /* Answers the present row. */
    void (*answer)(const Cursor *cursor, sqlite3_context *context);
} Table;

/* Adds it to a connection. */
int add_table(sqlite3 *db, const Table *table);

#endif
