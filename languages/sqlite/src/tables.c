/* tables.c: functions whose answer is a table, as SQLite's eponymous virtual tables. */
#include "extension.h"

#include <string.h>

SQLITE_EXTENSION_INIT3

/* A table of a connection. */
typedef struct {
    sqlite3_vtab base;
    const Table *table;
} Connected;

static const Table *table_of(const Cursor *cursor)
{
    return ((const Connected *)cursor->base.pVtab)->table;
}

/* Sets the message of a table, and returns SQLite's code of a failure. */
static int fail(sqlite3_vtab *base, char *message)
{
    sqlite3_free(base->zErrMsg);
    base->zErrMsg = message;
    return message ? SQLITE_ERROR : SQLITE_NOMEM;
}

static int connect(sqlite3 *db, void *table, int count, const char *const *words, sqlite3_vtab **made, char **message)
{
    (void)count, (void)words, (void)message;
    Connected *connected = sqlite3_malloc(sizeof *connected);
    if (!connected) {
        return SQLITE_NOMEM;
    }
    memset(connected, 0, sizeof *connected);
    connected->table = table;
    *made = &connected->base;
    sqlite3_vtab_config(db, SQLITE_VTAB_INNOCUOUS);
    return sqlite3_declare_vtab(db, connected->table->declaration);
}

static int disconnect(sqlite3_vtab *base)
{
    sqlite3_free(base);
    return SQLITE_OK;
}

/* Asks for the arguments in their order, which have hidden columns from 1 on. idxNum has a digit for each that is given. */
static int choose_index(sqlite3_vtab *base, sqlite3_index_info *info)
{
    const Table *table = ((const Connected *)base)->table;
    int place[MOST_ARGUMENTS] = {-1, -1, -1};
    int given = 0, later = 0, order = 0;
    for (int i = 0; i < info->nConstraint; i++) {
        int argument = info->aConstraint[i].iColumn - 1;
        if (argument >= 0 && info->aConstraint[i].op == SQLITE_INDEX_CONSTRAINT_EQ) {
            if (info->aConstraint[i].usable) {
                given |= 1 << argument;
                place[argument] = i;
            } else {
                later |= 1 << argument;
            }
        }
    }
    if (later & ~given) {
        return SQLITE_CONSTRAINT;
    }
    if (~given & ((1 << table->needed) - 1)) {
        return fail(base, sqlite3_mprintf("%s: it needs %d arguments", table->name, table->needed));
    }
    for (int argument = 0; argument < MOST_ARGUMENTS; argument++) {
        if (place[argument] >= 0) {
            info->aConstraintUsage[place[argument]].argvIndex = ++order;
            info->aConstraintUsage[place[argument]].omit = 1;
        }
    }
    info->idxNum = given;
    info->estimatedCost = 1000;
    info->estimatedRows = 1000;
    return SQLITE_OK;
}

static int open_cursor(sqlite3_vtab *base, sqlite3_vtab_cursor **made)
{
    (void)base;
    Cursor *cursor = sqlite3_malloc(sizeof *cursor);
    if (!cursor) {
        return SQLITE_NOMEM;
    }
    memset(cursor, 0, sizeof *cursor);
    *made = &cursor->base;
    return SQLITE_OK;
}

static void drop_arguments(Cursor *cursor)
{
    for (int i = 0; i < MOST_ARGUMENTS; i++) {
        sqlite3_value_free(cursor->given[i]);
        cursor->given[i] = NULL;
    }
}

static int close_cursor(sqlite3_vtab_cursor *base)
{
    drop_arguments((Cursor *)base);
    sqlite3_free(((Cursor *)base)->more);
    sqlite3_free(base);
    return SQLITE_OK;
}

/* Takes the arguments that are given. A NULL among them leaves no rows. */
static int filter(sqlite3_vtab_cursor *base, int given, const char *text, int count, sqlite3_value **values)
{
    Cursor *cursor = (Cursor *)base;
    char *message = NULL;
    int order = 0;
    (void)text, (void)count;
    drop_arguments(cursor);
    cursor->row = 1;
    cursor->is_over = false;
    for (int i = 0; i < MOST_ARGUMENTS; i++) {
        if (given >> i & 1) {
            cursor->is_over |= sqlite3_value_type(values[order]) == SQLITE_NULL;
            cursor->given[i] = sqlite3_value_dup(values[order++]);
            if (!cursor->given[i]) {
                return SQLITE_NOMEM;
            }
        }
    }
    return cursor->is_over || table_of(cursor)->start(cursor, &message) ? SQLITE_OK : fail(base->pVtab, message);
}

static int next_row(sqlite3_vtab_cursor *base)
{
    Cursor *cursor = (Cursor *)base;
    cursor->row++;
    table_of(cursor)->next(cursor);
    return SQLITE_OK;
}

static int is_at_end(sqlite3_vtab_cursor *base)
{
    return ((Cursor *)base)->is_over;
}

static int answer_column(sqlite3_vtab_cursor *base, sqlite3_context *context, int column)
{
    const Cursor *cursor = (Cursor *)base;
    if (column == 0) {
        table_of(cursor)->answer(cursor, context);
    } else if (cursor->given[column - 1]) {
        sqlite3_result_value(context, cursor->given[column - 1]);
    }
    return SQLITE_OK;
}

static int answer_row(sqlite3_vtab_cursor *base, sqlite3_int64 *row)
{
    *row = ((Cursor *)base)->row;
    return SQLITE_OK;
}

/* Without a way to create one, each table is there by its name alone. */
static const sqlite3_module MODULE = {
    .xConnect = connect, .xDisconnect = disconnect, .xBestIndex = choose_index, .xOpen = open_cursor, .xClose = close_cursor,
    .xFilter = filter, .xNext = next_row, .xEof = is_at_end, .xColumn = answer_column, .xRowid = answer_row,
};

int add_table(sqlite3 *db, const Table *table)
{
    return sqlite3_create_module(db, table->name, &MODULE, (void *)table);
}
