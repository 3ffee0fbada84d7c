/* values.c: dates and times of PostgreSQL, which count from 2000, and those of the library. */
#include "extension.h"

#include "utils/builtins.h"
#include "utils/timestamp.h"

/* 1 January 2000: its day number, and its second since 1970. */
#define POSTGRES_DAY 730120
#define POSTGRES_SECOND INT64CONST(946684800)

int32_t day_of(DateADT date)
{
    if (DATE_NOT_FINITE(date)) {
        ereport(ERROR, (errcode(ERRCODE_DATETIME_VALUE_OUT_OF_RANGE), errmsg("the date is infinite"),
                        errhint("Leave out such rows, for example by isfinite().")));
    }
    if (date > CALENDAR_MAX - POSTGRES_DAY) {
        ereport(ERROR, (errcode(ERRCODE_DATETIME_VALUE_OUT_OF_RANGE),
                        errmsg("date out of range: \"%s\"", DatumGetCString(DirectFunctionCall1(date_out, DateADTGetDatum(date)))),
                        errdetail("The calendar ends on 262142-12-31.")));
    }
    return date + POSTGRES_DAY;
}

DateADT date_of(int32_t day)
{
    if (day == CALENDAR_NONE || !IS_VALID_DATE(day - POSTGRES_DAY)) {
        ereport(ERROR, (errcode(ERRCODE_DATETIME_VALUE_OUT_OF_RANGE), errmsg("date out of range"),
                        errdetail("The answer is not from 4714-11-24 BC to 262142-12-31.")));
    }
    return day - POSTGRES_DAY;
}

calendar_date_time moment_of(Timestamp time)
{
    if (TIMESTAMP_NOT_FINITE(time)) {
        ereport(ERROR, (errcode(ERRCODE_DATETIME_VALUE_OUT_OF_RANGE), errmsg("the timestamp is infinite"),
                        errhint("Leave out such rows, for example by isfinite().")));
    }
    int64 second = time / USECS_PER_SEC - (time % USECS_PER_SEC < 0);
    calendar_date_time moment = {second + POSTGRES_SECOND, (uint32_t)(time - second * USECS_PER_SEC) * 1000};
    if (calendar_date_time_date(moment) == CALENDAR_NONE) {
        ereport(ERROR, (errcode(ERRCODE_DATETIME_VALUE_OUT_OF_RANGE),
                        errmsg("timestamp out of range: \"%s\"", DatumGetCString(DirectFunctionCall1(timestamp_out, TimestampGetDatum(time)))),
                        errdetail("The calendar ends on 262142-12-31.")));
    }
    return moment;
}

bool has_timestamp(calendar_date_time moment, Timestamp *time)
{
    if (moment.nanos == CALENDAR_NO_NANOS) {
        return false;
    }
    /* (the calendar's seconds are far from the ends of 64 bits, in microseconds too) */
    *time = (moment.seconds - POSTGRES_SECOND) * USECS_PER_SEC + moment.nanos / 1000;
    return IS_VALID_TIMESTAMP(*time);
}

void count_row(const char *function, uint64 before)
{
    if (before >= MOST_ROWS) {
        ereport(ERROR, (errcode(ERRCODE_PROGRAM_LIMIT_EXCEEDED), errmsg("%s gives more than %d rows", function, MOST_ROWS),
                        errhint("Ask for a shorter time.")));
    }
}
