/* holidays.c: the holidays of calendars that the library knows by name. */
#include "extension.h"

#include "funcapi.h"
#include "miscadmin.h"

PG_FUNCTION_INFO_V1(proved_given_holidays);
PG_FUNCTION_INFO_V1(proved_given_first_year);

/* The calendars in the order of calendar_layers.h. */
static const char *const GIVEN[] = {"us_federal", "target", "england_and_wales", "fedwire", "nyse", "germany", "france", "japan", NULL};

/* Saturday and Sunday. */
#define WEEKEND 96

/* A year, the next one's days that are kept in it, and the place of the next holiday. */
typedef struct {
    uint32_t which;
    int32 year, last_year;
    int32_t count, at, days[CALENDAR_MOST_HOLIDAYS];
} Years;

/* Finds the holidays of the next year: also those of the year after it, since a day on a weekend can be kept before. */
static void find_year(Years *years)
{
    CHECK_FOR_INTERRUPTS();
    years->at = 0;
    years->count = calendar_holidays_of(years->which, years->year, years->year + 1, WEEKEND, years->days, CALENDAR_MOST_HOLIDAYS);
    if (years->count == CALENDAR_NONE) {
        ereport(ERROR, (errcode(ERRCODE_DATETIME_VALUE_OUT_OF_RANGE), errmsg("year out of range: %d", years->year)));
    }
    years->year++;
}

/* Goes to the next holiday that lies in its year; whether there is one. */
static bool find_next(Years *years)
{
    for (;;) {
        while (years->at < years->count) {
            if (calendar_year(years->days[years->at]) == years->year - 1) {
                return true;
            }
            years->at++;
        }
        if (years->year > years->last_year) {
            return false;
        }
        find_year(years);
    }
}

Datum proved_given_holidays(PG_FUNCTION_ARGS)
{
    if (SRF_IS_FIRSTCALL()) {
        FuncCallContext *rows = SRF_FIRSTCALL_INIT();
        Years *years = MemoryContextAllocZero(rows->multi_call_memory_ctx, sizeof *years);
        years->which = number_of_word("calendar", PG_GETARG_TEXT_PP(0), GIVEN);
        years->year = PG_GETARG_INT32(1);
        years->last_year = PG_GETARG_INT32(2);
        if (years->year <= years->last_year && (years->year < -4712 || years->last_year > 262141)) {
            ereport(ERROR, (errcode(ERRCODE_DATETIME_VALUE_OUT_OF_RANGE), errmsg("the years are not from -4712 to 262141")));
        }
        rows->user_fctx = years;
    }
    FuncCallContext *rows = SRF_PERCALL_SETUP();
    Years *years = rows->user_fctx;
    if (!find_next(years)) {
        SRF_RETURN_DONE(rows);
    }
    SRF_RETURN_NEXT(rows, DateADTGetDatum(date_of(years->days[years->at++])));
}

Datum proved_given_first_year(PG_FUNCTION_ARGS)
{
    uint32_t which = number_of_word("calendar", PG_GETARG_TEXT_PP(0), GIVEN);
    int32 first_year = PG_GETARG_INT32(1), last_year = PG_GETARG_INT32(2), begin = calendar_holidays_first_year(which);
    if (Max(first_year, begin) > last_year) {
        ereport(ERROR, (errcode(ERRCODE_DATETIME_VALUE_OUT_OF_RANGE),
                        errmsg("there is no year from %d to %d of which the holidays of %s are known", first_year, last_year, GIVEN[which]),
                        errdetail("They are known from %d on.", begin)));
    }
    PG_RETURN_INT32(Max(first_year, begin));
}
