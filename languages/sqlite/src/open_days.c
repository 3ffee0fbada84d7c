/* open_days.c: functions of open days, and day counts. */
#include "extension.h"

SQLITE_EXTENSION_INIT3

/* The argument in which holidays stand, behind which the weekend may stand. */
enum { HOLIDAYS = 2 };

static bool has_years(const OpenDays *calendar)
{
    return calendar->first_year != FIRST_OF_ALL;
}

/* Fails since an answer looks at a year of which the holidays are not known. */
static void refuse_years(sqlite3_context *context, const OpenDays *calendar)
{
    answer_refusal(context, sqlite3_mprintf("%s: the holidays are known from %d to %d alone, and another year is looked at", name_of(context),
                                            calendar->first_year, calendar->last_year));
}

/* Takes the calendar of a call, or fails. SQLite keeps it from row to row while the holidays are constant and no weekend is given. If
 * it is a new one, `made` is it, and not null. */
static const OpenDays *take_calendar(sqlite3_context *context, int count, sqlite3_value **values, OpenDays **made)
{
    char *message;
    const OpenDays *kept = count == HOLIDAYS + 1 ? sqlite3_get_auxdata(context, HOLIDAYS) : NULL;
    *made = NULL;
    if (kept) {
        return kept;
    }
    *made = read_calendar(name_of(context), values[HOLIDAYS], count > HOLIDAYS + 1 ? values[HOLIDAYS + 1] : NULL, &message);
    if (!*made) {
        answer_refusal(context, message);
    }
    return *made;
}

/* Answers an open day of a calendar, or fails. */
static void answer_open_day(sqlite3_context *context, const OpenDays *calendar, int32_t day)
{
    if (day == CALENDAR_NONE && has_years(calendar)) {
        refuse_years(context, calendar);
    } else {
        answer_day(context, day);
    }
}

/* Answers a number of open days of a calendar, or fails. */
static void answer_count(sqlite3_context *context, const OpenDays *calendar, int64_t count)
{
    if (count == INT64_MIN) {
        refuse_years(context, calendar);
    } else {
        sqlite3_result_int64(context, count);
    }
}

/* The day that a day goes to by a roll. The nearest one of all is asked for without years, since these end with the calendar. */
static int32_t rolled(const OpenDays *calendar, int32_t day, uint32_t roll)
{
    return has_years(calendar) ? calendar_roll_within(calendar->weekend, calendar->holidays, calendar->count, calendar->first_year,
                                                      calendar->last_year, day, roll)
                               : calendar_roll(calendar->weekend, calendar->holidays, calendar->count, day, roll);
}

/* Gives a new calendar to SQLite, which keeps it or frees it, or frees it. It is the last that a call does. */
static void leave_calendar(sqlite3_context *context, int count, OpenDays *made)
{
    if (made && count == HOLIDAYS + 1) {
        sqlite3_set_auxdata(context, HOLIDAYS, made, sqlite3_free);
    } else {
        sqlite3_free(made);
    }
}

static void add_open_days(sqlite3_context *context, int count, sqlite3_value **values)
{
    const char *name = name_of(context);
    int32_t day;
    sqlite3_int64 number;
    char *message;
    OpenDays *made;
    if (!read_day(name, values[0], &day, &message) || !read_number(name, values[1], &number, &message)) {
        answer_refusal(context, message);
        return;
    }
    const OpenDays *calendar = take_calendar(context, count, values, &made);
    if (calendar) {
        answer_open_day(context, calendar, calendar_add_open_days_within(calendar->weekend, calendar->holidays, calendar->count, calendar->first_year,
                                                                         calendar->last_year, day, number));
    }
    leave_calendar(context, count, made);
}

static void open_days(sqlite3_context *context, int count, sqlite3_value **values)
{
    const char *name = name_of(context);
    int32_t from, until;
    char *message;
    OpenDays *made;
    if (!read_day(name, values[0], &from, &message) || !read_day(name, values[1], &until, &message)) {
        answer_refusal(context, message);
        return;
    }
    const OpenDays *calendar = take_calendar(context, count, values, &made);
    if (calendar) {
        answer_count(context, calendar, calendar_open_days_between_within(calendar->weekend, calendar->holidays, calendar->count,
                                                                          calendar->first_year, calendar->last_year, from, until));
    }
    leave_calendar(context, count, made);
}

/* The rolls in the order of calendar_layers.h. */
static const char *const ROLLS[] = {
    "unadjusted", "following", "preceding", "modified-following", "modified-preceding", "nearest-isda", "nearest-quantlib", NULL,
};

/* The day counts in the order of calendar_layers.h. */
static const char *const DAY_COUNTS[] = {"actual/actual", "actual/360", "actual/365", "30/360", "30e/360", NULL};

static void roll(sqlite3_context *context, int count, sqlite3_value **values)
{
    const char *name = name_of(context);
    int32_t day;
    uint32_t number;
    char *message;
    OpenDays *made;
    if (!read_day(name, values[0], &day, &message) || !read_word(name, values[1], "roll", ROLLS, &number, &message)) {
        answer_refusal(context, message);
        return;
    }
    const OpenDays *calendar = take_calendar(context, count, values, &made);
    if (calendar) {
        answer_open_day(context, calendar, rolled(calendar, day, number));
    }
    leave_calendar(context, count, made);
}

static void year_fraction(sqlite3_context *context, int count, sqlite3_value **values)
{
    const char *name = name_of(context);
    int32_t from, until;
    uint32_t number;
    char *message;
    (void)count;
    if (!read_word(name, values[0], "day count", DAY_COUNTS, &number, &message) || !read_day(name, values[1], &from, &message)
        || !read_day(name, values[2], &until, &message)) {
        answer_refusal(context, message);
        return;
    }
    calendar_fraction part = calendar_day_count(number, from, until);
    sqlite3_result_double(context, (double)part.numerator / (double)part.denominator);
}

static const Scalar SCALARS[] = {
    {"add_open_days", 3, add_open_days}, {"add_open_days", 4, add_open_days}, {"open_days", 3, open_days}, {"open_days", 4, open_days},
    {"roll", 3, roll}, {"roll", 4, roll}, {"year_fraction", 3, year_fraction},
};

int add_open_day_functions(sqlite3 *db)
{
    return add_scalars(db, SCALARS, sizeof SCALARS / sizeof *SCALARS);
}
