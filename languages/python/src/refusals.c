/* refusals.c: why a name has no date, in words that name the part. */
#include "package.h"

#include <stdio.h>
#include <string.h>

enum { FIRST_YEAR = -262143, LAST_YEAR = 262142, MONTHS = 12, WEEKDAYS = 7, THURSDAY = 4 };

/* Room for the text of any whole number, or for what stands in its place. */
typedef char Shown[32];

/* A number as it is said: one that Python gave may have more digits than fit. */
static const char *show(Shown room, int64_t number)
{
    if (number == INT64_MIN || number == INT64_MAX) {
        return strcpy(room, number < 0 ? "-2^63 or less" : "2^63 - 1 or more");
    }
    snprintf(room, sizeof(Shown), "%lld", (long long)number);
    return room;
}

/* A year as texts of dates have it. */
static const char *show_year(Shown room, int64_t year)
{
    snprintf(room, sizeof(Shown), year < 0 ? "%05lld" : year > 9999 ? "+%lld" : "%04lld", (long long)year);
    return room;
}

void refuse_part(const char *part, int64_t number, const char *reason)
{
    Shown room;
    PyErr_Format(PyExc_ValueError, "%s %s: %s", part, show(room, number), reason);
}

/* Whether a year is one of the calendar; else it is refused. */
static bool has_year(const char *part, int64_t year, int64_t last)
{
    Shown room;
    if (FIRST_YEAR <= year && year <= last) {
        return true;
    }
    PyErr_Format(PyExc_ValueError, "%s %s: the calendar has those from %d to %d", part, show(room, year), FIRST_YEAR, (int)last);
    return false;
}

void refuse_month(int64_t year, int64_t month)
{
    Shown shown, of_year;
    if (has_year("year", year, LAST_YEAR)) {
        PyErr_Format(PyExc_ValueError, "month %s of %s: months are 1 to 12", show(shown, month), show_year(of_year, year));
    }
}

static bool is_month(int64_t year, int64_t month)
{
    return FIRST_YEAR <= year && year <= LAST_YEAR && 1 <= month && month <= MONTHS;
}

void refuse_name(int64_t year, int64_t month, int64_t day)
{
    Shown shown, of_year;
    if (!is_month(year, month)) {
        refuse_month(year, month);
        return;
    }
    PyErr_Format(PyExc_ValueError, "day %s of %s-%02d: the month has %d days", show(shown, day), show_year(of_year, year),
                 (int)month, (int)calendar_days_in_month((int32_t)year, (uint32_t)month));
}

void refuse_ordinal(int64_t year, int64_t ordinal)
{
    Shown shown, of_year;
    if (has_year("year", year, LAST_YEAR)) {
        PyErr_Format(PyExc_ValueError, "day %s of %s: the year has %d days", show(shown, ordinal), show_year(of_year, year),
                     calendar_is_leap_year((int32_t)year) ? 366 : 365);
    }
}

void refuse_iso_week(int64_t year, int64_t week, int64_t weekday)
{
    Shown shown, of_year;
    /* (the last day of the calendar is in the first week of the year after it) */
    if (!has_year("ISO year", year, LAST_YEAR + 1)) {
        return;
    }
    int weeks = calendar_from_isoywd((int32_t)year, 53, THURSDAY) != CALENDAR_NONE ? 53 : 52;
    show_year(of_year, year);
    if (week < 1 || week > weeks) {
        PyErr_Format(PyExc_ValueError, "week %s of ISO year %s: the year has %d weeks", show(shown, week), of_year, weeks);
    } else if (weekday < 1 || weekday > WEEKDAYS) {
        refuse_part("weekday", weekday, "weekdays are 1 for Monday to 7 for Sunday");
    } else {
        PyErr_Format(PyExc_ValueError, "weekday %d of %s-W%02d: the day lies beyond the calendar", (int)weekday, of_year, (int)week);
    }
}

void refuse_weekday_of_month(int64_t year, int64_t month, int64_t weekday, int64_t n)
{
    Shown shown, of_year;
    if (!is_month(year, month)) {
        refuse_month(year, month);
    } else if (weekday < 1 || weekday > WEEKDAYS) {
        refuse_part("weekday", weekday, "weekdays are 1 for Monday to 7 for Sunday");
    } else {
        bool has_fifth = calendar_from_weekday_of_month((int32_t)year, (uint32_t)month, (uint32_t)weekday, 5) != CALENDAR_NONE;
        PyErr_Format(PyExc_ValueError, "weekday %d number %s of %s-%02d: the month has %d", (int)weekday, show(shown, n),
                     show_year(of_year, year), (int)month, has_fifth ? 5 : 4);
    }
}

int read_digits(const char *bytes, size_t length)
{
    int number = 0;
    for (size_t i = 0; i < length; i++) {
        if (bytes[i] < '0' || bytes[i] > '9') {
            return -1;
        }
        number = 10 * number + (bytes[i] - '0');
    }
    return number;
}

/* Whether the bytes have the form of a date's text; then its parts are written. */
static bool has_form(const char *bytes, size_t length, int name[3])
{
    bool has_sign = length > 0 && (bytes[0] == '-' || bytes[0] == '+');
    size_t places = has_sign + strlen("-02-29");
    if (length < places + 4 || length > places + 6 || bytes[length - 6] != '-' || bytes[length - 3] != '-') {
        return false;
    }
    int year = read_digits(bytes + has_sign, length - places);
    name[0] = has_sign && bytes[0] == '-' ? -year : year;
    name[1] = read_digits(bytes + length - 5, 2);
    name[2] = read_digits(bytes + length - 2, 2);
    return year >= 0 && name[1] >= 0 && name[2] >= 0;
}

void refuse_text(PyObject *text, const char *bytes, size_t length, const char *kind)
{
    int name[3];
    if (has_form(bytes, length, name) && calendar_from_ymd(name[0], (uint32_t)name[1], (uint32_t)name[2]) == CALENDAR_NONE) {
        refuse_name(name[0], name[1], name[2]);
    } else {
        PyErr_Format(PyExc_ValueError, "%R is no text of a %s", text, kind);
    }
}

PyObject *refuse_bytes(PyObject *text, const uint8_t *said, int32_t length, size_t start, size_t end)
{
    return by_python(TEXTS, "refuse", "(Os#nn)", text, (const char *)said, (Py_ssize_t)(length < 0 ? 0 : length), (Py_ssize_t)start,
                     (Py_ssize_t)end);
}
