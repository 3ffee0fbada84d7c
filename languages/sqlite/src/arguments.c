/* arguments.c: arguments that are read, and what is wrong with a text and where. */
#include "extension.h"

#include <string.h>

SQLITE_EXTENSION_INIT3

/* A message names at most so many characters of a text. */
#define MOST_NAMED "80"

/* What is wrong, and at which byte. The words have a place for the number. */
typedef struct {
    const char *words;
    int number;
    size_t byte;
} Fault;

static bool is_digit(Text text, size_t at)
{
    return at < text.length && text.bytes[at] >= '0' && text.bytes[at] <= '9';
}

/* The number that the digits between two places write. There are at most six. */
static int number_at(Text text, size_t from, size_t end)
{
    int number = 0;
    for (size_t at = from; at < end; at++) {
        number = 10 * number + (text.bytes[at] - '0');
    }
    return number;
}

/* The place behind what fits a form, in which a d is any digit. */
static size_t fitting(Text text, size_t from, const char *form)
{
    size_t at = from;
    while (*form && (*form == 'd' ? is_digit(text, at) : at < text.length && text.bytes[at] == *form)) {
        form++;
        at++;
    }
    return at;
}

/* The place behind the year that begins a text: four digits, or with a sign up to six. */
static size_t year_end(Text text)
{
    size_t sign = text.length > 0 && (text.bytes[0] == '-' || text.bytes[0] == '+');
    size_t at = sign, most = sign ? 7 : 4;
    while (at < most && is_digit(text, at)) {
        at++;
    }
    return at;
}

static Fault fault_at(const char *words, int number, size_t byte)
{
    Fault fault = {words, number, byte};
    return fault;
}

/* What is wrong with the numbers of a text that has the form of a date, whose year ends at a place. */
static Fault fault_of_numbers(Text text, size_t end)
{
    int sign = text.bytes[0] == '-' ? -1 : 1;
    int year = sign * number_at(text, is_digit(text, 0) ? 0 : 1, end);
    int month = number_at(text, end + 1, end + 3), day = number_at(text, end + 4, end + 6);
    if (calendar_days_in_month(year, 1) == CALENDAR_NONE) {
        return fault_at("the year is not from -262143 to 262142", 0, 0);
    }
    if (month == 0 || month > 12) {
        return fault_at(month ? "the month is above 12" : "the month is 0", 0, end + 1);
    }
    if (day == 0) {
        return fault_at("the day is 0", 0, end + 4);
    }
    int length = calendar_days_in_month(year, (uint32_t)month);
    return day > length ? fault_at("the month has %d days", length, end + 4) : fault_at("the year is not of this form", 0, 0);
}

/* What is wrong with a text that is no date. */
static Fault fault_of_day(Text text)
{
    size_t end = year_end(text), least = text.length > 0 && text.bytes[0] == '+' ? 6 : text.length > 0 && text.bytes[0] == '-' ? 5 : 4;
    if (end < least) {
        return fault_at("not of this form", 0, end);
    }
    size_t at = fitting(text, end, "-dd-dd");
    return at < end + 6 || at < text.length ? fault_at("not of this form", 0, at) : fault_of_numbers(text, end);
}

/* What is wrong with a time of day, which begins at a place and ends the text. */
static Fault fault_of_time(Text text, size_t from)
{
    size_t at = fitting(text, from, "dd:dd:dd");
    if (at < from + 8) {
        return fault_at("not of this form", 0, at);
    }
    if (number_at(text, from, from + 2) > 23) {
        return fault_at("the hour is above 23", 0, from);
    }
    if (number_at(text, from + 3, from + 5) > 59) {
        return fault_at("the minute is above 59", 0, from + 3);
    }
    if (number_at(text, from + 6, from + 8) > 60) {
        return fault_at("the second is above 60", 0, from + 6);
    }
    size_t digits = at + (at < text.length && text.bytes[at] == '.');
    size_t end = fitting(text, digits, "ddddddddd");
    return fault_at("not of this form", 0, digits == at ? at : end);
}

/* The message that a text is not what it should be. */
static char *refusal(const char *function, Text text, const char *what, Fault fault)
{
    char *words = sqlite3_mprintf(fault.words, fault.number);
    char *message = words ? sqlite3_mprintf("%s: %!." MOST_NAMED "Q is no %s: byte %lld: %s", function, text.bytes, what,
                                            (sqlite3_int64)fault.byte, words) : NULL;
    sqlite3_free(words);
    return message;
}

char *refusal_at(const char *function, Text text, const char *what, size_t byte, const char *words)
{
    return refusal(function, text, what, fault_at(words, 0, byte));
}

char *refusal_of_part(const char *function, Text text, const char *what, size_t from, size_t end)
{
    Text part = {text.bytes + from, end - from};
    Fault fault = fault_of_day(part);
    fault.byte += from;
    return refusal(function, text, what, fault);
}

bool read_text(const char *function, sqlite3_value *value, const char *what, Text *text, char **message)
{
    if (sqlite3_value_type(value) != SQLITE_TEXT) {
        const char *kind = sqlite3_value_type(value) == SQLITE_BLOB ? "blob" : "number";
        *message = sqlite3_mprintf("%s: a %s is a text, and not a %s", function, what, kind);
        return false;
    }
    text->bytes = (const char *)sqlite3_value_text(value);
    text->length = (size_t)sqlite3_value_bytes(value);
    *message = NULL;
    return text->bytes != NULL;
}

int32_t day_of(Text text)
{
    return calendar_read_date((const uint8_t *)text.bytes, text.length);
}

bool is_day(sqlite3_value *value)
{
    Text text = {NULL, 0};
    if (sqlite3_value_type(value) == SQLITE_TEXT) {
        text.bytes = (const char *)sqlite3_value_text(value);
        text.length = (size_t)sqlite3_value_bytes(value);
    }
    return text.bytes && day_of(text) != CALENDAR_NONE;
}

bool read_day(const char *function, sqlite3_value *value, int32_t *day, char **message)
{
    Text text;
    if (!read_text(function, value, "date", &text, message)) {
        return false;
    }
    *day = day_of(text);
    if (*day == CALENDAR_NONE) {
        *message = refusal(function, text, "date", fault_of_day(text));
    }
    return *day != CALENDAR_NONE;
}

bool read_moment(const char *function, sqlite3_value *value, calendar_date_time *moment, char **message)
{
    Text text;
    if (!read_text(function, value, "date-time", &text, message)) {
        return false;
    }
    Text date = {text.bytes, 0};
    while (date.length < text.length && text.bytes[date.length] != 'T' && text.bytes[date.length] != ' ') {
        date.length++;
    }
    bool is_date = date.length == text.length;
    *moment = is_date ? calendar_date_time_new(day_of(date), 0, 0) : calendar_read_date_time((const uint8_t *)text.bytes, text.length);
    if (moment->nanos == CALENDAR_NO_NANOS) {
        bool is_wrong_date = day_of(date) == CALENDAR_NONE;
        *message = refusal(function, text, "date-time", is_wrong_date ? fault_of_day(date) : fault_of_time(text, date.length + 1));
    }
    return moment->nanos != CALENDAR_NO_NANOS;
}

bool read_schedule(const char *function, sqlite3_value *value, calendar_schedule *schedule, char **message)
{
    Text text;
    calendar_fault fault;
    uint8_t words[99];
    if (!read_text(function, value, "schedule", &text, message)) {
        return false;
    }
    bool is_read = calendar_schedule_read((const uint8_t *)text.bytes, text.length, schedule, &fault);
    if (!is_read) {
        int32_t length = calendar_schedule_fault_text(&fault, words, sizeof words);
        *message = sqlite3_mprintf("%s: %!." MOST_NAMED "Q is no schedule: %.*s", function, text.bytes, (int)length, (char *)words);
    }
    return is_read;
}

bool is_word(Text text, const char *const *words, uint32_t *number)
{
    for (*number = 0; words[*number]; ++*number) {
        if (strlen(words[*number]) == text.length && sqlite3_strnicmp(words[*number], text.bytes, (int)text.length) == 0) {
            return true;
        }
    }
    return false;
}

bool read_word(const char *function, sqlite3_value *value, const char *what, const char *const *words, uint32_t *number, char **message)
{
    Text text;
    if (!read_text(function, value, what, &text, message)) {
        return false;
    }
    bool is_read = is_word(text, words, number);
    if (!is_read) {
        *message = sqlite3_mprintf("%s: %!." MOST_NAMED "Q is no %s, such as %s", function, text.bytes, what, words[1]);
    }
    return is_read;
}

bool read_number(const char *function, sqlite3_value *value, sqlite3_int64 *number, char **message)
{
    bool is_number = sqlite3_value_type(value) == SQLITE_INTEGER;
    *number = sqlite3_value_int64(value);
    *message = is_number ? NULL : sqlite3_mprintf("%s: a whole number is wanted, and not %!." MOST_NAMED "Q", function, sqlite3_value_text(value));
    return is_number;
}
