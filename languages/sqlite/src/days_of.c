/* days_of.c: the table of the days from one date to another. */
#include "extension.h"

SQLITE_EXTENSION_INIT3

static bool start_days(Cursor *cursor, char **message)
{
    cursor->step = 1;
    if (!read_day("days_of", cursor->given[0], &cursor->day, message) || !read_day("days_of", cursor->given[1], &cursor->last, message)
        || (cursor->given[2] && !read_number("days_of", cursor->given[2], &cursor->step, message))) {
        return false;
    }
    if (cursor->step == 0) {
        *message = sqlite3_mprintf("days_of: a step of 0 days leads nowhere");
        return false;
    }
    cursor->is_over = cursor->step > 0 ? cursor->day > cursor->last : cursor->day < cursor->last;
    return true;
}

static void next_of_days(Cursor *cursor)
{
    sqlite3_int64 left = (sqlite3_int64)cursor->last - cursor->day;
    cursor->is_over = cursor->step > 0 ? cursor->step > left : cursor->step < left;
    if (!cursor->is_over) {
        cursor->day += (int32_t)cursor->step;
    }
}

static void answer_days(const Cursor *cursor, sqlite3_context *context)
{
    answer_day(context, cursor->day);
}

static const Table DAYS_OF = {
    "days_of", "CREATE TABLE days_of(day TEXT, given_from HIDDEN, given_until HIDDEN, given_step HIDDEN)", 2,
    start_days, next_of_days, answer_days,
};

int add_days_of(sqlite3 *db)
{
    return add_table(db, &DAYS_OF);
}
