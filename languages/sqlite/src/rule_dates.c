/* rule_dates.c: the table of the dates of a recurrence rule (RFC 5545, section 3.3.10). */
#include "extension.h"

SQLITE_EXTENSION_INIT3

/* How many dates are found at once: CHUNK at first, then twice as many each time, up to a bound near to the days of 400 years. Each call counts
 * a rule with COUNT from its start, so all calls together count few dates for each that they find. */
enum { MOST_DATES = 1 << 17 };

/* Makes room for twice as many dates. Where there is no memory for them, the room stays. */
static void make_room(Cursor *cursor)
{
    size_t room = cursor->room < MOST_DATES ? 2 * cursor->room : cursor->room;
    int32_t *more = sqlite3_realloc64(cursor->more, room * sizeof *more);
    if (more) {
        cursor->dates = cursor->more = more;
        cursor->room = room;
    }
}

/* Finds the dates from one on. */
static void find_from(Cursor *cursor, int32_t day)
{
    cursor->count = calendar_rule_instances((const uint8_t *)cursor->rule.bytes, cursor->rule.length, cursor->start, day, cursor->last,
                                            cursor->dates, cursor->room);
    cursor->at = 0;
    cursor->is_over = cursor->count == 0;
}

/* Reads a rule. */
static bool read_rule(Cursor *cursor, char **message)
{
    calendar_fault fault;
    uint8_t words[200];
    Text *rule = &cursor->rule;
    if (!read_text("rule_dates", cursor->given[0], "rule", rule, message)) {
        return false;
    }
    bool is_rule = calendar_rule_check((const uint8_t *)rule->bytes, rule->length, &fault);
    if (!is_rule) {
        int32_t length = calendar_rule_fault_text(&fault, words, sizeof words);
        *message = sqlite3_mprintf("rule_dates: %!.80Q is no rule: byte %lld: %.*s", rule->bytes, (sqlite3_int64)fault.byte, (int)length,
                                   (char *)words);
    }
    return is_rule;
}

static bool start_dates(Cursor *cursor, char **message)
{
    bool is_taken = read_rule(cursor, message) && read_day("rule_dates", cursor->given[1], &cursor->start, message)
        && read_day("rule_dates", cursor->given[2], &cursor->last, message);
    if (is_taken) {
        cursor->dates = cursor->days;
        cursor->room = CHUNK;
        find_from(cursor, cursor->start);
    }
    return is_taken;
}

static void next_of_dates(Cursor *cursor)
{
    cursor->at++;
    if (cursor->at == cursor->room) {
        int32_t last = cursor->dates[cursor->at - 1];
        make_room(cursor);
        find_from(cursor, last + 1);
    } else {
        cursor->is_over = cursor->at == cursor->count;
    }
}

static void answer_date(const Cursor *cursor, sqlite3_context *context)
{
    answer_day(context, cursor->dates[cursor->at]);
}

static const Table RULE_DATES = {
    "rule_dates", "CREATE TABLE rule_dates(day TEXT, given_rule HIDDEN, given_start HIDDEN, given_until HIDDEN)", 3,
    start_dates, next_of_dates, answer_date,
};

int add_rule_dates(sqlite3 *db)
{
    return add_table(db, &RULE_DATES);
}
