/* module.c: how SQLite loads the extension. */
#include "extension.h"

SQLITE_EXTENSION_INIT1

/* The first SQLite with innocuous functions, 3.31. */
#define OLDEST 3031000

const char *name_of(sqlite3_context *context)
{
    return ((const Scalar *)sqlite3_user_data(context))->name;
}

/* Calls a function, unless an argument is NULL: then the answer is NULL, as it is of a function that answers nothing. */
static void call_unless_null(sqlite3_context *context, int count, sqlite3_value **values)
{
    for (int i = 0; i < count; i++) {
        if (sqlite3_value_type(values[i]) == SQLITE_NULL) {
            return;
        }
    }
    ((const Scalar *)sqlite3_user_data(context))->call(context, count, values);
}

int add_scalars(sqlite3 *db, const Scalar *scalars, size_t count)
{
    int flags = SQLITE_UTF8 | SQLITE_DETERMINISTIC | SQLITE_INNOCUOUS, code = SQLITE_OK;
    for (size_t i = 0; i < count && code == SQLITE_OK; i++) {
        const Scalar *it = &scalars[i];
        code = sqlite3_create_function_v2(db, it->name, it->count, flags, (void *)it, call_unless_null, NULL, NULL, NULL);
    }
    return code;
}

/* SQLite finds this by the name of the file, proved_calendar.so. */
__attribute__((visibility("default"))) int sqlite3_provedcalendar_init(sqlite3 *db, char **message, const sqlite3_api_routines *api);

int sqlite3_provedcalendar_init(sqlite3 *db, char **message, const sqlite3_api_routines *api)
{
    SQLITE_EXTENSION_INIT2(api);
    if (sqlite3_libversion_number() < OLDEST) {
        *message = sqlite3_mprintf("proved_calendar needs SQLite 3.31 or later, and this is %s", sqlite3_libversion());
        return SQLITE_ERROR;
    }
    int (*const parts[])(sqlite3 *) = {add_dates, add_schedules, add_open_day_functions, add_days_of, add_due_between, add_rule_dates,
                                      add_holidays_of};
    int code = SQLITE_OK;
    for (size_t i = 0; i < sizeof parts / sizeof *parts && code == SQLITE_OK; i++) {
        code = parts[i](db);
    }
    return code;
}
