/* holidays_of.c: the table of the holidays of a calendar that the library knows by name. */
#include "extension.h"

SQLITE_EXTENSION_INIT3

/* Goes to the next holiday that lies in its year, or to the next year's. */
static void find_next(Cursor *cursor)
{
    for (;;) {
        for (; cursor->at < cursor->count; cursor->at++) {
            if (calendar_year(cursor->days[cursor->at]) == cursor->year - 1) {
                return;
            }
        }
        if (cursor->year > cursor->last_year) {
            cursor->is_over = true;
            return;
        }
        /* (those of the year after it too, since a day on a weekend can be kept before) */
        int32_t year = (int32_t)cursor->year++;
        int32_t count = calendar_holidays_of(cursor->which, year, year + 1, PLAIN_WEEKEND, cursor->days, CHUNK);
        cursor->count = count > 0 ? (size_t)count : 0;
        cursor->at = 0;
    }
}

static bool start_holidays(Cursor *cursor, char **message)
{
    if (!read_word("holidays_of", cursor->given[0], "calendar", KNOWN_CALENDARS, &cursor->which, message)
        || !read_number("holidays_of", cursor->given[1], &cursor->year, message)
        || !read_number("holidays_of", cursor->given[2], &cursor->last_year, message)) {
        return false;
    }
    if (cursor->year < -262143 || cursor->last_year > 262141) {
        *message = sqlite3_mprintf("holidays_of: the years are not from -262143 to 262141");
        return false;
    }
    cursor->count = cursor->at = 0;
    find_next(cursor);
    return true;
}

static void next_of_holidays(Cursor *cursor)
{
    cursor->at++;
    find_next(cursor);
}

static void answer_holiday(const Cursor *cursor, sqlite3_context *context)
{
    answer_day(context, cursor->days[cursor->at]);
}

static const Table HOLIDAYS_OF = {
    "holidays_of", "CREATE TABLE holidays_of(day TEXT, given_calendar HIDDEN, given_first_year HIDDEN, given_last_year HIDDEN)", 3,
    start_holidays, next_of_holidays, answer_holiday,
};

int add_holidays_of(sqlite3 *db)
{
    return add_table(db, &HOLIDAYS_OF);
}
