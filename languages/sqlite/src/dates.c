/* dates.c: functions of dates. */
#include "extension.h"

SQLITE_EXTENSION_INIT3

static void is_date(sqlite3_context *context, int count, sqlite3_value **values)
{
    (void)count;
    sqlite3_result_int(context, is_day(values[0]));
}

/* Answers a number that a date has. */
static void answer_field(sqlite3_context *context, sqlite3_value **values, int32_t (*field)(int32_t day))
{
    int32_t day;
    char *message;
    if (read_day(name_of(context), values[0], &day, &message)) {
        sqlite3_result_int(context, field(day));
    } else {
        answer_refusal(context, message);
    }
}

static int32_t length_of_month(int32_t day)
{
    return calendar_days_in_month(calendar_year(day), (uint32_t)calendar_month(day));
}

static void weekday(sqlite3_context *context, int count, sqlite3_value **values)
{
    (void)count;
    answer_field(context, values, calendar_weekday);
}

static void iso_week(sqlite3_context *context, int count, sqlite3_value **values)
{
    (void)count;
    answer_field(context, values, calendar_iso_week);
}

static void iso_year(sqlite3_context *context, int count, sqlite3_value **values)
{
    (void)count;
    answer_field(context, values, calendar_iso_year);
}

static void day_of_year(sqlite3_context *context, int count, sqlite3_value **values)
{
    (void)count;
    answer_field(context, values, calendar_ordinal);
}

static void days_in_month(sqlite3_context *context, int count, sqlite3_value **values)
{
    (void)count;
    answer_field(context, values, length_of_month);
}

/* Answers the date to which a move by a number leads. */
static void answer_move(sqlite3_context *context, sqlite3_value **values, int32_t (*move)(int32_t day, int64_t number))
{
    const char *name = name_of(context);
    int32_t day;
    sqlite3_int64 number;
    char *message;
    if (read_day(name, values[0], &day, &message) && read_number(name, values[1], &number, &message)) {
        answer_day(context, move(day, number));
    } else {
        answer_refusal(context, message);
    }
}

static void add_days(sqlite3_context *context, int count, sqlite3_value **values)
{
    (void)count;
    answer_move(context, values, calendar_add_days);
}

static void add_months(sqlite3_context *context, int count, sqlite3_value **values)
{
    (void)count;
    answer_move(context, values, calendar_add_months);
}

static void days_between(sqlite3_context *context, int count, sqlite3_value **values)
{
    const char *name = name_of(context);
    int32_t from, to;
    char *message;
    (void)count;
    if (read_day(name, values[0], &from, &message) && read_day(name, values[1], &to, &message)) {
        sqlite3_result_int64(context, (sqlite3_int64)to - from);
    } else {
        answer_refusal(context, message);
    }
}

/* NULL if the second date is before the first. */
static void years_between(sqlite3_context *context, int count, sqlite3_value **values)
{
    const char *name = name_of(context);
    int32_t from, to;
    char *message;
    (void)count;
    if (!read_day(name, values[0], &from, &message) || !read_day(name, values[1], &to, &message)) {
        answer_refusal(context, message);
    } else if (calendar_years_since(to, from) != CALENDAR_NONE) {
        sqlite3_result_int(context, calendar_years_since(to, from));
    }
}

static void easter(sqlite3_context *context, int count, sqlite3_value **values)
{
    sqlite3_int64 year;
    char *message;
    (void)count;
    if (read_number(name_of(context), values[0], &year, &message)) {
        answer_day(context, year == (int32_t)year ? calendar_easter((int32_t)year) : CALENDAR_NONE);
    } else {
        answer_refusal(context, message);
    }
}

static const Scalar SCALARS[] = {
    {"is_date", 1, is_date}, {"weekday", 1, weekday}, {"iso_week", 1, iso_week}, {"iso_year", 1, iso_year},
    {"day_of_year", 1, day_of_year}, {"days_in_month", 1, days_in_month}, {"add_days", 2, add_days},
    {"add_months", 2, add_months}, {"days_between", 2, days_between}, {"years_between", 2, years_between},
    {"easter", 1, easter},
};

int add_dates(sqlite3 *db)
{
    return add_scalars(db, SCALARS, sizeof SCALARS / sizeof *SCALARS);
}
