/* schedules.c: functions of schedules, as cron writes them. */
#include "extension.h"

SQLITE_EXTENSION_INIT3

/* Reads the schedule of a call. SQLite keeps it from row to row while the text is constant. */
static bool take_schedule(sqlite3_context *context, sqlite3_value *value, calendar_schedule *schedule, char **message)
{
    calendar_schedule *kept = sqlite3_get_auxdata(context, 0);
    if (kept) {
        *schedule = *kept;
        return true;
    }
    if (!read_schedule(name_of(context), value, schedule, message)) {
        return false;
    }
    kept = sqlite3_malloc(sizeof *kept);
    if (kept) {
        *kept = *schedule;
        sqlite3_set_auxdata(context, 0, kept, sqlite3_free);
    }
    return true;
}

/* Reads the schedule and the moment of a call, or fails. */
static bool take_both(sqlite3_context *context, sqlite3_value **values, calendar_schedule *schedule, calendar_date_time *moment)
{
    char *message;
    if (take_schedule(context, values[0], schedule, &message) && read_moment(name_of(context), values[1], moment, &message)) {
        return true;
    }
    answer_refusal(context, message);
    return false;
}

static void next_due(sqlite3_context *context, int count, sqlite3_value **values)
{
    calendar_schedule schedule;
    calendar_date_time moment;
    (void)count;
    if (take_both(context, values, &schedule, &moment)) {
        answer_moment(context, calendar_schedule_next(&schedule, moment));
    }
}

static void last_due(sqlite3_context *context, int count, sqlite3_value **values)
{
    calendar_schedule schedule;
    calendar_date_time moment;
    (void)count;
    if (take_both(context, values, &schedule, &moment)) {
        answer_moment(context, calendar_schedule_prev(&schedule, moment));
    }
}

static void is_due(sqlite3_context *context, int count, sqlite3_value **values)
{
    calendar_schedule schedule;
    calendar_date_time moment;
    (void)count;
    if (take_both(context, values, &schedule, &moment)) {
        sqlite3_result_int(context, calendar_schedule_is_due(&schedule, moment));
    }
}

static const Scalar SCALARS[] = {{"next_due", 2, next_due}, {"last_due", 2, last_due}, {"is_due", 2, is_due}};

int add_schedules(sqlite3 *db)
{
    return add_scalars(db, SCALARS, sizeof SCALARS / sizeof *SCALARS);
}

/* Finds the moments after one. */
static void find_after(Cursor *cursor, calendar_date_time start)
{
    cursor->count = calendar_schedule_due(&cursor->schedule, start, cursor->until, cursor->found, CHUNK);
    cursor->at = 0;
    cursor->is_over = cursor->count == 0;
}

static bool start_due(Cursor *cursor, char **message)
{
    calendar_date_time start;
    bool is_taken = read_schedule("due_between", cursor->given[0], &cursor->schedule, message)
        && read_moment("due_between", cursor->given[1], &start, message)
        && read_moment("due_between", cursor->given[2], &cursor->until, message);
    if (is_taken) {
        find_after(cursor, start);
    }
    return is_taken;
}

static void next_of_due(Cursor *cursor)
{
    cursor->at++;
    if (cursor->at == CHUNK) {
        find_after(cursor, cursor->found[CHUNK - 1]);
    } else {
        cursor->is_over = cursor->at == cursor->count;
    }
}

static void answer_due(const Cursor *cursor, sqlite3_context *context)
{
    answer_moment(context, cursor->found[cursor->at]);
}

static const Table DUE_BETWEEN = {
    "due_between", "CREATE TABLE due_between(due TEXT, given_schedule HIDDEN, given_from HIDDEN, given_until HIDDEN)", 3,
    start_due, next_of_due, answer_due,
};

int add_due_between(sqlite3 *db)
{
    return add_table(db, &DUE_BETWEEN);
}
