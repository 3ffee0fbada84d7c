/* calendars.c: weekends and holidays, from the tables of the extension or from arrays. */
#include "extension.h"

#include "access/xact.h"
#include "catalog/pg_type.h"
#include "executor/spi.h"
#include "lib/stringinfo.h"
#include "miscadmin.h"
#include "storage/proc.h"
#include "utils/array.h"
#include "utils/builtins.h"
#include "utils/hsearch.h"
#include "utils/lsyscache.h"
#include "utils/memutils.h"
#include "utils/rls.h"
#include "utils/snapmgr.h"

/* A name has at most so many bytes, as the table demands. */
#define MOST_NAME 63

void _PG_init(void);

/* ---- parts of a calendar */

/* The set of weekdays of an array of numbers from 1 for Monday to 7. */
static uint8_t weekend_of(ArrayType *array)
{
    Datum *days;
    bool *are_null;
    int count;
    uint8_t weekend = 0;
    deconstruct_array(array, INT4OID, sizeof(int32), true, TYPALIGN_INT, &days, &are_null, &count);
    for (int i = 0; i < count; i++) {
        if (are_null[i] || DatumGetInt32(days[i]) < 1 || DatumGetInt32(days[i]) > 7) {
            ereport(ERROR, (errcode(ERRCODE_INVALID_PARAMETER_VALUE), errmsg("a weekend has a day that is no weekday"),
                            errhint("Count weekdays from 1 for Monday to 7.")));
        }
        weekend |= (uint8_t)(1 << (DatumGetInt32(days[i]) - 1));
    }
    return weekend;
}

static int compare_days(const void *one, const void *other)
{
    int32_t a = *(const int32_t *)one, b = *(const int32_t *)other;
    return (a > b) - (a < b);
}

/* Sorts holidays, and drops those that come twice or lie on the weekend. */
static void tidy(OpenDays *calendar)
{
    size_t kept = 0;
    qsort(calendar->holidays, calendar->count, sizeof(int32_t), compare_days);
    for (size_t i = 0; i < calendar->count; i++) {
        int32_t day = calendar->holidays[i];
        bool is_weekend = calendar->weekend >> (calendar_weekday(day) - 1) & 1;
        if (!is_weekend && (kept == 0 || calendar->holidays[kept - 1] != day)) {
            calendar->holidays[kept++] = day;
        }
    }
    if (kept > CALENDAR_MOST_HOLIDAYS) {
        ereport(ERROR, (errcode(ERRCODE_PROGRAM_LIMIT_EXCEEDED), errmsg("a calendar has more than %d holidays", CALENDAR_MOST_HOLIDAYS),
                        errhint("Leave out the years that you do not need.")));
    }
    calendar->count = kept;
}

/* ---- calendars of the tables
 *
 * What a statement reads is kept while its snapshot sees the same rows: so long as no transaction ends or begins that it could see,
 * and this one changes nothing. The next statement reads anew. It is kept for the role that reads it alone. Where policies choose the
 * rows of a role, they can go by anything, such as a setting, and nothing is kept. */

/* A calendar by the schema of the tables and its name. */
typedef struct {
    struct {
        Oid schema;
        char name[MOST_NAME + 1];
    } key;
    OpenDays calendar;
} Named;

static MemoryContext memory;
static HTAB *named;
static StringInfoData seen;
static uint64 rollbacks;

/* The query of a schema, which PostgreSQL has planned. */
static SPIPlanPtr plan;
static char planned_schema[NAMEDATALEN];

/* A part of a transaction that is taken back changes what the same snapshot sees. */
static void count_rollback(SubXactEvent event, SubTransactionId mine, SubTransactionId parent, void *argument)
{
    rollbacks += event == SUBXACT_EVENT_ABORT_SUB;
}

void _PG_init(void)
{
    RegisterSubXactCallback(count_rollback, NULL);
}

/* Writes what tells apart snapshots that see different rows, and roles that have different rights. */
static void describe(StringInfo text, Snapshot snapshot)
{
    Oid role = GetUserId();
    resetStringInfo(text);
    appendBinaryStringInfo(text, (char *)&role, sizeof role);
    appendBinaryStringInfo(text, (char *)&MyProc->lxid, sizeof MyProc->lxid);
    appendBinaryStringInfo(text, (char *)&rollbacks, sizeof rollbacks);
    appendBinaryStringInfo(text, (char *)&snapshot->xmin, sizeof snapshot->xmin);
    appendBinaryStringInfo(text, (char *)&snapshot->xmax, sizeof snapshot->xmax);
    appendBinaryStringInfo(text, (char *)&snapshot->curcid, sizeof snapshot->curcid);
    appendBinaryStringInfo(text, (char *)snapshot->xip, (int)(snapshot->xcnt * sizeof(TransactionId)));
    appendBinaryStringInfo(text, (char *)snapshot->subxip, (int)(snapshot->subxcnt * sizeof(TransactionId)));
}

/* Drops what is kept if the active snapshot could see other rows. */
static void drop_if_changed(void)
{
    static StringInfoData now;
    if (!memory) {
        memory = AllocSetContextCreate(TopMemoryContext, "calendars of proved_calendar", ALLOCSET_SMALL_SIZES);
        MemoryContext old = MemoryContextSwitchTo(TopMemoryContext);
        initStringInfo(&seen);
        initStringInfo(&now);
        MemoryContextSwitchTo(old);
    }
    if (!ActiveSnapshotSet()) {
        ereport(ERROR, (errcode(ERRCODE_OBJECT_NOT_IN_PREREQUISITE_STATE), errmsg("a calendar is read in a query alone")));
    }
    describe(&now, GetActiveSnapshot());
    if (named && now.len == seen.len && memcmp(now.data, seen.data, (size_t)now.len) == 0) {
        return;
    }
    named = NULL;
    MemoryContextReset(memory);
    StringInfoData swapped = seen;
    seen = now;
    now = swapped;
    HASHCTL control = {.keysize = sizeof((Named *)0)->key, .entrysize = sizeof(Named), .hcxt = memory};
    named = hash_create("calendars of proved_calendar", 16, &control, HASH_ELEM | HASH_BLOBS | HASH_CONTEXT);
}

/* Plans the query over the tables of a schema, unless that is done. */
static void make_plan(Oid schema)
{
    Oid kinds[] = {TEXTOID};
    const char *name = get_namespace_name(schema);
    if (plan && strcmp(planned_schema, name) == 0) {
        return;
    }
    const char *quoted = quote_identifier(name);
    SPIPlanPtr made = SPI_prepare(psprintf("SELECT c.weekend, h.day, c.first_year, c.last_year FROM %s.business_calendars c"
                                           " LEFT JOIN %s.business_holidays h ON h.calendar OPERATOR(pg_catalog.=) c.name"
                                           " WHERE c.name OPERATOR(pg_catalog.=) $1", quoted, quoted), 1, kinds);
    if (!made || SPI_keepplan(made) != 0) {
        elog(ERROR, "the query for a calendar is not planned");
    }
    if (plan) {
        SPI_freeplan(plan);
    }
    plan = made;
    strlcpy(planned_schema, name, sizeof planned_schema);
}

/* The year in a column of the first row, or another one if there is none. */
static int32_t year_in(int column, int32_t other)
{
    bool is_null;
    Datum year = SPI_getbinval(SPI_tuptable->vals[0], SPI_tuptable->tupdesc, column, &is_null);
    return is_null ? other : DatumGetInt32(year);
}

/* Takes the rows of a query as a calendar. */
static void take_rows(OpenDays *calendar)
{
    bool is_null;
    TupleDesc shape = SPI_tuptable->tupdesc;
    Datum weekend = SPI_getbinval(SPI_tuptable->vals[0], shape, 1, &is_null);
    calendar->weekend = weekend_of(DatumGetArrayTypeP(weekend));
    calendar->first_year = year_in(3, FIRST_OF_ALL);
    calendar->last_year = year_in(4, LAST_OF_ALL);
    calendar->holidays = MemoryContextAlloc(memory, SPI_processed * sizeof(int32_t));
    calendar->count = 0;
    for (uint64 i = 0; i < SPI_processed; i++) {
        Datum day = SPI_getbinval(SPI_tuptable->vals[i], shape, 2, &is_null);
        if (!is_null) {
            calendar->holidays[calendar->count++] = day_of(DatumGetDateADT(day));
        }
    }
    tidy(calendar);
}

/* Reads a calendar from the tables. */
static OpenDays load(Oid schema, const text *name)
{
    OpenDays calendar;
    Datum arguments[] = {PointerGetDatum(name)};
    SPI_connect();
    make_plan(schema);
    if (SPI_execute_plan(plan, arguments, NULL, true, 0) != SPI_OK_SELECT) {
        elog(ERROR, "the query for a calendar is not run");
    }
    if (SPI_processed == 0) {
        ereport(ERROR, (errcode(ERRCODE_UNDEFINED_OBJECT), errmsg("there is no calendar \"%s\"", text_to_cstring(name)),
                        errhint("Call fill_calendar(), or add a row to business_calendars.")));
    }
    take_rows(&calendar);
    SPI_finish();
    return calendar;
}

/* Whether policies choose which rows of a table the role sees. */
static bool has_policies(Oid schema, const char *table)
{
    Oid relation = get_relname_relid(table, schema);
    return OidIsValid(relation) && check_enable_rls(relation, InvalidOid, true) == RLS_ENABLED;
}

const OpenDays *calendar_named(FunctionCallInfo fcinfo, int place)
{
    const text *name = PG_GETARG_TEXT_PP(place);
    Named sought = {0};
    bool is_found;
    size_t length = Min(VARSIZE_ANY_EXHDR(name), MOST_NAME);
    sought.key.schema = get_func_namespace(fcinfo->flinfo->fn_oid);
    memcpy(sought.key.name, VARDATA_ANY(name), length);
    drop_if_changed();
    Named *entry = hash_search(named, &sought.key, HASH_FIND, NULL);
    bool is_chosen = has_policies(sought.key.schema, "business_calendars") || has_policies(sought.key.schema, "business_holidays");
    if (!entry || is_chosen || VARSIZE_ANY_EXHDR(name) > MOST_NAME) {
        OpenDays calendar = load(sought.key.schema, name);
        entry = hash_search(named, &sought.key, HASH_ENTER, &is_found);
        if (is_found) {
            pfree(entry->calendar.holidays);
        }
        entry->calendar = calendar;
    }
    return &entry->calendar;
}

/* ---- calendars of arrays */

/* The calendar that a call site had last, with the bytes of both arrays. */
typedef struct {
    OpenDays calendar;
    Size lengths[2];
    char *bytes;
} Kept;

static bool is_kept(const Kept *kept, ArrayType *const *arrays)
{
    return kept && kept->lengths[0] == VARSIZE(arrays[0]) && kept->lengths[1] == VARSIZE(arrays[1])
        && memcmp(kept->bytes, arrays[0], kept->lengths[0]) == 0
        && memcmp(kept->bytes + kept->lengths[0], arrays[1], kept->lengths[1]) == 0;
}

/* Takes the days of an array as holidays. */
static void take_days(OpenDays *calendar, ArrayType *array, MemoryContext place)
{
    Datum *days;
    bool *are_null;
    int count;
    deconstruct_array(array, DATEOID, sizeof(DateADT), true, TYPALIGN_INT, &days, &are_null, &count);
    calendar->holidays = MemoryContextAlloc(place, (Size)Max(count, 1) * sizeof(int32_t));
    calendar->count = (size_t)count;
    for (int i = 0; i < count; i++) {
        if (are_null[i]) {
            ereport(ERROR, (errcode(ERRCODE_NULL_VALUE_NOT_ALLOWED), errmsg("a holiday is null")));
        }
        calendar->holidays[i] = day_of(DatumGetDateADT(days[i]));
    }
    tidy(calendar);
}

const OpenDays *calendar_listed(FunctionCallInfo fcinfo, int place)
{
    ArrayType *arrays[] = {PG_GETARG_ARRAYTYPE_P(place), PG_GETARG_ARRAYTYPE_P(place + 1)};
    Kept *kept = fcinfo->flinfo->fn_extra;
    if (is_kept(kept, arrays)) {
        return &kept->calendar;
    }
    MemoryContext stays = fcinfo->flinfo->fn_mcxt;
    OpenDays calendar = {.weekend = weekend_of(arrays[1]), .first_year = FIRST_OF_ALL, .last_year = LAST_OF_ALL};
    take_days(&calendar, arrays[0], stays);
    if (kept) {
        pfree(kept->calendar.holidays);
        pfree(kept->bytes);
    } else {
        kept = MemoryContextAlloc(stays, sizeof *kept);
    }
    fcinfo->flinfo->fn_extra = NULL;
    kept->calendar = calendar;
    kept->lengths[0] = VARSIZE(arrays[0]);
    kept->lengths[1] = VARSIZE(arrays[1]);
    kept->bytes = MemoryContextAlloc(stays, kept->lengths[0] + kept->lengths[1]);
    memcpy(kept->bytes, arrays[0], kept->lengths[0]);
    memcpy(kept->bytes + kept->lengths[0], arrays[1], kept->lengths[1]);
    fcinfo->flinfo->fn_extra = kept;
    return &kept->calendar;
}
