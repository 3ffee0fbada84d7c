/* rules.c: the dates of recurrence rules (RFC 5545, section 3.3.10). */
#include "extension.h"

#include "funcapi.h"
#include "miscadmin.h"

PG_FUNCTION_INFO_V1(proved_rule_dates);

/* How many dates are found at once: few at first, for who reads few. */
enum { FIRST_CHUNK = 64, LAST_CHUNK = 16384 };

/* What leads to the next row: the rule, the dates that are found, and the place of the next one. */
typedef struct {
    const uint8_t *rule;
    size_t length;
    int32_t start, from, until, *found;
    size_t room, count, at;
} Dates;

/* Fails if a text is no rule. */
static void check_rule(const text *value)
{
    const char *bytes = VARDATA_ANY(value);
    size_t length = VARSIZE_ANY_EXHDR(value);
    calendar_fault fault;
    uint8_t said[200];
    if (!calendar_rule_check((const uint8_t *)bytes, length, &fault)) {
        int32_t size = calendar_rule_fault_text(&fault, said, sizeof said);
        refuse("rule", bytes, length, fault.byte, psprintf("byte %zu: %.*s", fault.byte, (int)size, (char *)said),
               "A rule has parts with semicolons between them, as in \"FREQ=MONTHLY;BYDAY=-1FR\".");
    }
}

/* Begins a set, in memory that stays until its end. */
static void begin(FunctionCallInfo fcinfo)
{
    FuncCallContext *rows = SRF_FIRSTCALL_INIT();
    MemoryContext old = MemoryContextSwitchTo(rows->multi_call_memory_ctx);
    const text *rule = PG_GETARG_TEXT_P_COPY(0);
    Dates *dates = palloc0(sizeof *dates);
    check_rule(rule);
    dates->rule = (const uint8_t *)VARDATA(rule);
    dates->length = VARSIZE(rule) - VARHDRSZ;
    dates->start = dates->from = day_of(PG_GETARG_DATEADT(1));
    dates->until = day_of(PG_GETARG_DATEADT(2));
    rows->user_fctx = dates;
    MemoryContextSwitchTo(old);
}

/* Finds more dates, twice as many as before. Fewer than there is room for are the last. */
static void find_more(Dates *dates, MemoryContext place)
{
    CHECK_FOR_INTERRUPTS();
    if (dates->room < LAST_CHUNK) {
        dates->room = dates->room ? 2 * dates->room : FIRST_CHUNK;
        dates->found = MemoryContextAlloc(place, dates->room * sizeof(int32_t));
    }
    dates->count = calendar_rule_instances(dates->rule, dates->length, dates->start, dates->from, dates->until, dates->found, dates->room);
    dates->from = dates->count ? dates->found[dates->count - 1] + 1 : dates->from;
    dates->at = 0;
}

Datum proved_rule_dates(PG_FUNCTION_ARGS)
{
    if (SRF_IS_FIRSTCALL()) {
        begin(fcinfo);
    }
    FuncCallContext *rows = SRF_PERCALL_SETUP();
    Dates *dates = rows->user_fctx;
    if (dates->at == dates->room) {
        find_more(dates, rows->multi_call_memory_ctx);
    }
    if (dates->at == dates->count) {
        SRF_RETURN_DONE(rows);
    }
    count_row("rule_dates", rows->call_cntr);
    SRF_RETURN_NEXT(rows, DateADTGetDatum(date_of(dates->found[dates->at++])));
}
