/* calendars.c: weekends and holidays, which are texts. */
#include "extension.h"

#include <stdlib.h>
#include <string.h>

SQLITE_EXTENSION_INIT3

const char *const KNOWN_CALENDARS[] = {"us_federal", "target", "england_and_wales", "fedwire", "nyse", "germany", "france", "japan", NULL};

/* The last year of the calendar. */
#define LAST_YEAR 262142

/* How a list of holidays is called in messages. */
static const char LIST[] = "list of dates";

static bool is_between(char byte)
{
    return byte == ',' || byte == ' ' || byte == '\n';
}

/* Reads the set of weekdays of digits from 1 for Monday to 7. */
static bool read_weekend(const char *function, sqlite3_value *value, uint8_t *weekend, char **message)
{
    Text text;
    if (!read_text(function, value, "weekend", &text, message)) {
        return false;
    }
    *weekend = 0;
    for (size_t i = 0; i < text.length; i++) {
        if (text.bytes[i] < '1' || text.bytes[i] > '7') {
            *message = sqlite3_mprintf("%s: %!.80Q is no weekend: byte %lld: digits from 1 for Monday to 7 are wanted", function, text.bytes,
                                       (sqlite3_int64)i);
            return false;
        }
        *weekend |= (uint8_t)(1 << (text.bytes[i] - '1'));
    }
    return true;
}

/* The year that a text writes as a date does, or CALENDAR_NONE. */
static int32_t year_of(Text text)
{
    static const char FIRST_DAY[] = {'-', '0', '1', '-', '0', '1'};
    char bytes[DATE_ROOM];
    if (text.length > sizeof bytes - sizeof FIRST_DAY) {
        return CALENDAR_NONE;
    }
    memcpy(bytes, text.bytes, text.length);
    memcpy(bytes + text.length, FIRST_DAY, sizeof FIRST_DAY);
    Text date = {bytes, text.length + sizeof FIRST_DAY};
    return calendar_year(day_of(date));
}

/* How many bytes of a part stand before the two dots of years such as 2024..2026; all if there are none. */
static size_t dots_of(Text part)
{
    for (size_t at = 0; at + 1 < part.length; at++) {
        if (part.bytes[at] == '.' && part.bytes[at + 1] == '.') {
            return at;
        }
    }
    return part.length;
}

/* Takes the years of a part with two dots after some bytes. They stand in a list once, with the earlier one first. */
static bool take_years(Text part, size_t dots, OpenDays *calendar)
{
    Text first = {part.bytes, dots}, last = {part.bytes + dots + 2, part.length - dots - 2};
    int32_t from = year_of(first), to = year_of(last);
    bool is_right = calendar->first_year == FIRST_OF_ALL && from != CALENDAR_NONE && from <= to;
    if (is_right) {
        calendar->first_year = from;
        calendar->last_year = to;
    }
    return is_right;
}

/* Takes a part of a list of holidays: a date, years, or the name of a known calendar, which goes into a set of their numbers. */
static bool take_part(Text part, OpenDays *calendar, uint32_t *known)
{
    int32_t day = day_of(part);
    size_t dots = dots_of(part);
    uint32_t number;
    if (day != CALENDAR_NONE) {
        calendar->holidays[calendar->count++] = day;
        return true;
    }
    if (dots < part.length) {
        return take_years(part, dots, calendar);
    }
    bool is_known = is_word(part, KNOWN_CALENDARS, &number);
    *known |= is_known ? 1U << number : 0;
    return is_known;
}

/* The message that a part of a list of holidays, between two places, is wrong. */
static char *refusal_of_holidays(const char *function, Text text, size_t from, size_t end)
{
    Text part = {text.bytes + from, end - from};
    return dots_of(part) < part.length ? refusal_at(function, text, LIST, from, "years are wanted once, as in 2024..2026")
                                       : refusal_of_part(function, text, LIST, from, end);
}

/* Reads the parts of a list of holidays, with commas or blanks between them. There is room for all dates. */
static bool read_holidays(const char *function, Text text, OpenDays *calendar, uint32_t *known, char **message)
{
    size_t from = 0;
    while (from < text.length) {
        size_t end = from;
        while (end < text.length && !is_between(text.bytes[end])) {
            end++;
        }
        Text part = {text.bytes + from, end - from};
        if (end > from && !take_part(part, calendar, known)) {
            *message = refusal_of_holidays(function, text, from, end);
            return false;
        }
        from = end + 1;
    }
    return true;
}

/* The message that a calendar has too many holidays. */
static char *refusal_of_many(const char *function)
{
    return sqlite3_mprintf("%s: a calendar has at most %d holidays", function, CALENDAR_MOST_HOLIDAYS);
}

/* Begins the years of a list with those of a known calendar, if these are later. Fails if there are no such years. */
static bool take_first_year(const char *function, uint32_t number, OpenDays *calendar, char **message)
{
    const char *name = KNOWN_CALENDARS[number];
    int32_t begin = calendar_holidays_first_year(number);
    if (calendar->first_year == FIRST_OF_ALL) {
        *message = sqlite3_mprintf("%s: the years of %s are wanted too, as in '%s 2024..2026'", function, name, name);
        return false;
    }
    if (begin > calendar->last_year) {
        *message = sqlite3_mprintf("%s: the holidays of %s are known from %d on", function, name, begin);
        return false;
    }
    calendar->first_year = begin > calendar->first_year ? begin : calendar->first_year;
    return true;
}

/* Adds the holidays of a known calendar in the years of a list. There is room for the most that a calendar has. */
static bool add_known(const char *function, uint32_t number, OpenDays *calendar, char **message)
{
    int32_t *added = calendar->holidays + calendar->count, last = calendar->last_year;
    if (!take_first_year(function, number, calendar, message)) {
        return false;
    }
    /* (those of the year after it too, since a day on a weekend can be kept before) */
    int32_t count = calendar_holidays_of(number, calendar->first_year, last < LAST_YEAR ? last + 1 : last, calendar->weekend, added,
                                         CALENDAR_MOST_HOLIDAYS);
    if (count == CALENDAR_NONE) {
        *message = refusal_of_many(function);
        return false;
    }
    while (count > 0 && calendar_year(added[count - 1]) > last) {
        count--;
    }
    calendar->count += (size_t)count;
    return true;
}

/* Adds the holidays of a set of known calendars, for which it makes room; the calendar or, if it fails, null. */
static OpenDays *with_known(const char *function, OpenDays *calendar, uint32_t known, char **message)
{
    for (uint32_t number = 0; KNOWN_CALENDARS[number]; number++) {
        if (known >> number & 1) {
            size_t room = calendar->count + CALENDAR_MOST_HOLIDAYS;
            OpenDays *larger = sqlite3_realloc64(calendar, sizeof *calendar + room * sizeof *calendar->holidays);
            calendar = larger ? larger : calendar;
            if (!larger || !add_known(function, number, calendar, message)) {
                sqlite3_free(calendar);
                return NULL;
            }
        }
    }
    return calendar;
}

static int compare_days(const void *one, const void *other)
{
    int32_t a = *(const int32_t *)one, b = *(const int32_t *)other;
    return (a > b) - (a < b);
}

/* Sorts holidays, and drops those that come twice or lie on the weekend. */
static void tidy(OpenDays *calendar)
{
    size_t kept = 0;
    qsort(calendar->holidays, calendar->count, sizeof *calendar->holidays, compare_days);
    for (size_t i = 0; i < calendar->count; i++) {
        int32_t day = calendar->holidays[i];
        bool is_weekend = calendar->weekend >> (calendar_weekday(day) - 1) & 1;
        if (!is_weekend && (kept == 0 || calendar->holidays[kept - 1] != day)) {
            calendar->holidays[kept++] = day;
        }
    }
    calendar->count = kept;
}

OpenDays *read_calendar(const char *function, sqlite3_value *holidays, sqlite3_value *weekend, char **message)
{
    Text text;
    uint32_t known = 0;
    if (!read_text(function, holidays, LIST, &text, message)) {
        return NULL;
    }
    /* (a date has at least ten bytes) */
    OpenDays *calendar = sqlite3_malloc64(sizeof *calendar + (text.length / 10 + 1) * sizeof *calendar->holidays);
    if (!calendar) {
        return NULL;
    }
    *calendar = (OpenDays){.weekend = PLAIN_WEEKEND, .first_year = FIRST_OF_ALL, .last_year = LAST_OF_ALL};
    bool is_read = (!weekend || read_weekend(function, weekend, &calendar->weekend, message))
        && read_holidays(function, text, calendar, &known, message);
    if (!is_read) {
        sqlite3_free(calendar);
        return NULL;
    }
    calendar = with_known(function, calendar, known, message);
    if (calendar) {
        tidy(calendar);
    }
    if (calendar && calendar->count > CALENDAR_MOST_HOLIDAYS) {
        *message = refusal_of_many(function);
        sqlite3_free(calendar);
        return NULL;
    }
    return calendar;
}
