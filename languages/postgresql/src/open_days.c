/* open_days.c: functions of open days. Each is there twice: with the name of a calendar, and with arrays of holidays and weekdays. */
#include "extension.h"

#include "utils/builtins.h"

PG_FUNCTION_INFO_V1(proved_add_open_days_named);
PG_FUNCTION_INFO_V1(proved_add_open_days_listed);
PG_FUNCTION_INFO_V1(proved_open_days_named);
PG_FUNCTION_INFO_V1(proved_open_days_listed);
PG_FUNCTION_INFO_V1(proved_roll_named);
PG_FUNCTION_INFO_V1(proved_roll_listed);

/* The rolls in the order of calendar_layers.h. */
static const char *const ROLLS[] = {
    "unadjusted", "following", "preceding", "modified-following", "modified-preceding", "nearest-isda", "nearest-quantlib", NULL,
};

static bool has_years(const OpenDays *calendar)
{
    return calendar->first_year != FIRST_OF_ALL || calendar->last_year != LAST_OF_ALL;
}

/* Fails since an answer looks at a year of which the holidays of a calendar are not known. */
static void refuse_years(FunctionCallInfo fcinfo, const OpenDays *calendar)
{
    const char *from = calendar->first_year == FIRST_OF_ALL ? "" : psprintf(" from %d", calendar->first_year);
    const char *to = calendar->last_year == LAST_OF_ALL ? "" : psprintf(" to %d", calendar->last_year);
    ereport(ERROR, (errcode(ERRCODE_DATETIME_VALUE_OUT_OF_RANGE),
                    errmsg("the holidays of \"%s\" are known%s%s alone, and another year is looked at",
                           text_to_cstring(PG_GETARG_TEXT_PP(2)), from, to),
                    errhint("Call fill_calendar() for more years, or set the years in business_calendars.")));
}

/* The date of an open day of a calendar. Fails if there is none. */
static DateADT open_date(FunctionCallInfo fcinfo, const OpenDays *calendar, int32_t day)
{
    if (day == CALENDAR_NONE && has_years(calendar)) {
        refuse_years(fcinfo, calendar);
    }
    return date_of(day);
}

static DateADT moved(FunctionCallInfo fcinfo, const OpenDays *calendar)
{
    int32_t day = day_of(PG_GETARG_DATEADT(0));
    return open_date(fcinfo, calendar, calendar_add_open_days_within(calendar->weekend, calendar->holidays, calendar->count, calendar->first_year,
                                                                     calendar->last_year, day, PG_GETARG_INT32(1)));
}

static int64 counted(FunctionCallInfo fcinfo, const OpenDays *calendar)
{
    int32_t from = day_of(PG_GETARG_DATEADT(0)), until = day_of(PG_GETARG_DATEADT(1));
    int64 count = calendar_open_days_between_within(calendar->weekend, calendar->holidays, calendar->count, calendar->first_year,
                                                    calendar->last_year, from, until);
    if (count == INT64_MIN) {
        refuse_years(fcinfo, calendar);
    }
    return count;
}

static DateADT rolled(FunctionCallInfo fcinfo, const OpenDays *calendar)
{
    int32_t day = day_of(PG_GETARG_DATEADT(0));
    uint32_t roll = number_of_word("roll", PG_GETARG_TEXT_PP(1), ROLLS);
    /* (the nearest day of all is asked for without years, since these end with the calendar) */
    int32_t open = has_years(calendar)
        ? calendar_roll_within(calendar->weekend, calendar->holidays, calendar->count, calendar->first_year, calendar->last_year, day, roll)
        : calendar_roll(calendar->weekend, calendar->holidays, calendar->count, day, roll);
    return open_date(fcinfo, calendar, open);
}

Datum proved_add_open_days_named(PG_FUNCTION_ARGS)
{
    PG_RETURN_DATEADT(moved(fcinfo, calendar_named(fcinfo, 2)));
}

Datum proved_add_open_days_listed(PG_FUNCTION_ARGS)
{
    PG_RETURN_DATEADT(moved(fcinfo, calendar_listed(fcinfo, 2)));
}

Datum proved_open_days_named(PG_FUNCTION_ARGS)
{
    PG_RETURN_INT64(counted(fcinfo, calendar_named(fcinfo, 2)));
}

Datum proved_open_days_listed(PG_FUNCTION_ARGS)
{
    PG_RETURN_INT64(counted(fcinfo, calendar_listed(fcinfo, 2)));
}

Datum proved_roll_named(PG_FUNCTION_ARGS)
{
    PG_RETURN_DATEADT(rolled(fcinfo, calendar_named(fcinfo, 2)));
}

Datum proved_roll_listed(PG_FUNCTION_ARGS)
{
    PG_RETURN_DATEADT(rolled(fcinfo, calendar_listed(fcinfo, 2)));
}
