/* schedules.c: functions of schedules, as cron writes them. */
#include "extension.h"

#include "funcapi.h"
#include "miscadmin.h"
#include "utils/timestamp.h"

PG_FUNCTION_INFO_V1(proved_next_due_of_timestamp);
PG_FUNCTION_INFO_V1(proved_next_due_of_timestamptz);
PG_FUNCTION_INFO_V1(proved_due_between_of_timestamp);
PG_FUNCTION_INFO_V1(proved_due_between_of_timestamptz);

enum { CHUNK = 64 };

/* The schedule that a call site read last, with its text. */
typedef struct {
    calendar_schedule schedule;
    size_t length;
    char bytes[FLEXIBLE_ARRAY_MEMBER];
} Kept;

/* The schedule of the first argument, which is read again only if the text differs from that of the row before. */
static const calendar_schedule *schedule_of(FunctionCallInfo fcinfo)
{
    const text *value = PG_GETARG_TEXT_PP(0);
    size_t length = VARSIZE_ANY_EXHDR(value);
    Kept *kept = fcinfo->flinfo->fn_extra;
    if (kept && kept->length == length && memcmp(kept->bytes, VARDATA_ANY(value), length) == 0) {
        return &kept->schedule;
    }
    calendar_schedule schedule;
    read_schedule(value, &schedule);
    fcinfo->flinfo->fn_extra = NULL;
    if (kept) {
        pfree(kept);
    }
    kept = MemoryContextAlloc(fcinfo->flinfo->fn_mcxt, offsetof(Kept, bytes) + length);
    kept->schedule = schedule;
    kept->length = length;
    memcpy(kept->bytes, VARDATA_ANY(value), length);
    fcinfo->flinfo->fn_extra = kept;
    return &kept->schedule;
}

Datum proved_next_due_of_timestamp(PG_FUNCTION_ARGS)
{
    const calendar_schedule *schedule = schedule_of(fcinfo);
    Timestamp due;
    if (!has_timestamp(calendar_schedule_next(schedule, moment_of(PG_GETARG_TIMESTAMP(1))), &due)) {
        PG_RETURN_NULL();
    }
    PG_RETURN_TIMESTAMP(due);
}

Datum proved_next_due_of_timestamptz(PG_FUNCTION_ARGS)
{
    TimestampTz due;
    if (!next_instant(schedule_of(fcinfo), PG_GETARG_TIMESTAMPTZ(1), &due)) {
        PG_RETURN_NULL();
    }
    PG_RETURN_TIMESTAMPTZ(due);
}

/* ---- sets */

/* What leads to the next row. */
typedef struct {
    calendar_schedule schedule;
    /* of timestamps: the moments that are found, and the place of the next one; after fewer than CHUNK there are no more */
    calendar_date_time after, until, found[CHUNK];
    size_t count, at;
    /* of instants */
    TimestampTz last, end;
} Due;

/* Begins a set: reads the schedule into memory that stays until its end. */
static Due *begin(FunctionCallInfo fcinfo)
{
    FuncCallContext *rows = SRF_FIRSTCALL_INIT();
    Due *due = MemoryContextAllocZero(rows->multi_call_memory_ctx, sizeof *due);
    read_schedule(PG_GETARG_TEXT_PP(0), &due->schedule);
    due->count = due->at = CHUNK;
    rows->user_fctx = due;
    return due;
}

Datum proved_due_between_of_timestamp(PG_FUNCTION_ARGS)
{
    if (SRF_IS_FIRSTCALL()) {
        Due *due = begin(fcinfo);
        due->after = moment_of(PG_GETARG_TIMESTAMP(1));
        due->until = moment_of(PG_GETARG_TIMESTAMP(2));
    }
    FuncCallContext *rows = SRF_PERCALL_SETUP();
    Due *due = rows->user_fctx;
    Timestamp time;
    if (due->at == CHUNK) {
        CHECK_FOR_INTERRUPTS();
        due->count = calendar_schedule_due(&due->schedule, due->after, due->until, due->found, CHUNK);
        due->after = due->found[CHUNK - 1];
        due->at = 0;
    }
    if (due->at == due->count || !has_timestamp(due->found[due->at], &time)) {
        SRF_RETURN_DONE(rows);
    }
    count_row("due_between", rows->call_cntr);
    due->at++;
    SRF_RETURN_NEXT(rows, TimestampGetDatum(time));
}

Datum proved_due_between_of_timestamptz(PG_FUNCTION_ARGS)
{
    if (SRF_IS_FIRSTCALL()) {
        Due *due = begin(fcinfo);
        due->last = PG_GETARG_TIMESTAMPTZ(1);
        due->end = PG_GETARG_TIMESTAMPTZ(2);
        (void)moment_of(due->end);
    }
    FuncCallContext *rows = SRF_PERCALL_SETUP();
    Due *due = rows->user_fctx;
    CHECK_FOR_INTERRUPTS();
    if (!next_instant(&due->schedule, due->last, &due->last) || due->last > due->end) {
        SRF_RETURN_DONE(rows);
    }
    count_row("due_between", rows->call_cntr);
    SRF_RETURN_NEXT(rows, TimestampTzGetDatum(due->last));
}
