/* dates.c: functions of dates, and of the dates of timestamps. */
#include "extension.h"

#include "utils/fmgrprotos.h"
#include "utils/timestamp.h"

PG_FUNCTION_INFO_V1(proved_add_months_of_date);
PG_FUNCTION_INFO_V1(proved_add_months_of_timestamp);
PG_FUNCTION_INFO_V1(proved_add_months_of_timestamptz);
PG_FUNCTION_INFO_V1(proved_iso_week_of_date);
PG_FUNCTION_INFO_V1(proved_iso_week_of_timestamp);
PG_FUNCTION_INFO_V1(proved_iso_week_of_timestamptz);
PG_FUNCTION_INFO_V1(proved_easter);
PG_FUNCTION_INFO_V1(proved_year_fraction);

/* What the clock of the session's zone shows at an instant. */
static Timestamp local_of(TimestampTz instant)
{
    return DatumGetTimestamp(DirectFunctionCall1(timestamptz_timestamp, TimestampTzGetDatum(instant)));
}

Datum proved_add_months_of_date(PG_FUNCTION_ARGS)
{
    int32_t day = day_of(PG_GETARG_DATEADT(0));
    PG_RETURN_DATEADT(date_of(calendar_add_months(day, PG_GETARG_INT32(1))));
}

/* The same time of day on the date to which the months lead. */
static Timestamp moved_by_months(Timestamp time, int32 months)
{
    calendar_date_time moment = moment_of(time);
    int32_t day = calendar_date_time_date(moment);
    int32_t moved = calendar_add_months(day, months);
    moment.seconds += ((int64)moved - day) * SECS_PER_DAY;
    if (moved == CALENDAR_NONE || !has_timestamp(moment, &time)) {
        ereport(ERROR, (errcode(ERRCODE_DATETIME_VALUE_OUT_OF_RANGE), errmsg("timestamp out of range"),
                        errdetail("The answer is not from 4714-11-24 BC to 262142-12-31.")));
    }
    return time;
}

Datum proved_add_months_of_timestamp(PG_FUNCTION_ARGS)
{
    PG_RETURN_TIMESTAMP(moved_by_months(PG_GETARG_TIMESTAMP(0), PG_GETARG_INT32(1)));
}

Datum proved_add_months_of_timestamptz(PG_FUNCTION_ARGS)
{
    TimestampTz instant = PG_GETARG_TIMESTAMPTZ(0);
    Timestamp moved = moved_by_months(local_of(instant), PG_GETARG_INT32(1));
    if (PG_GETARG_INT32(1) == 0) {
        /* (the clock can show the local time twice) */
        PG_RETURN_TIMESTAMPTZ(instant);
    }
    return DirectFunctionCall1(timestamp_timestamptz, TimestampGetDatum(moved));
}

Datum proved_iso_week_of_date(PG_FUNCTION_ARGS)
{
    PG_RETURN_INT32(calendar_iso_week(day_of(PG_GETARG_DATEADT(0))));
}

Datum proved_iso_week_of_timestamp(PG_FUNCTION_ARGS)
{
    PG_RETURN_INT32(calendar_iso_week(calendar_date_time_date(moment_of(PG_GETARG_TIMESTAMP(0)))));
}

Datum proved_iso_week_of_timestamptz(PG_FUNCTION_ARGS)
{
    PG_RETURN_INT32(calendar_iso_week(calendar_date_time_date(moment_of(local_of(PG_GETARG_TIMESTAMPTZ(0))))));
}

Datum proved_easter(PG_FUNCTION_ARGS)
{
    PG_RETURN_DATEADT(date_of(calendar_easter(PG_GETARG_INT32(0))));
}

/* The day counts in the order of calendar_layers.h. */
static const char *const DAY_COUNTS[] = {"actual/actual", "actual/360", "actual/365", "30/360", "30e/360", NULL};

Datum proved_year_fraction(PG_FUNCTION_ARGS)
{
    uint32_t kind = number_of_word("day count", PG_GETARG_TEXT_PP(0), DAY_COUNTS);
    calendar_fraction part = calendar_day_count(kind, day_of(PG_GETARG_DATEADT(1)), day_of(PG_GETARG_DATEADT(2)));
    if (part.denominator == 0) {
        ereport(ERROR, (errcode(ERRCODE_DATETIME_VALUE_OUT_OF_RANGE), errmsg("there is no such day count")));
    }
    PG_RETURN_FLOAT8((double)part.numerator / (double)part.denominator);
}
