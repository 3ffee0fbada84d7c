/* calendars.c: what the classes CalendarText and TimedSchedule, which are written in Python, ask of the library. */
#include "package.h"

#include <string.h>

enum { ROOM = 64, NAME = 1000 };

/* A text and the bytes of a Zone, which stay as long as the arguments. */
typedef struct {
    const uint8_t *text, *zone;
    size_t length, zone_length;
} Calendar;

/* Reads the bytes of a text. */
static bool read_text(PyObject *it, const uint8_t **text, size_t *length)
{
    char *bytes;
    Py_ssize_t size;
    if (PyBytes_AsStringAndSize(it, &bytes, &size) < 0) {
        return false;
    }
    *text = (const uint8_t *)bytes;
    *length = (size_t)size;
    return true;
}

static bool read_calendar(PyObject *text, PyObject *zone, Calendar *read)
{
    if (!read_text(text, &read->text, &read->length)) {
        return false;
    }
    if (!is_zone(zone)) {
        return refuse_type("a Zone", zone);
    }
    read->zone = bytes_of_zone(zone, &read->zone_length);
    return true;
}

/* An instant by the clock of a Zone, or None where there is none. */
static PyObject *instant_or_none(PyObject *zone, calendar_date_time utc)
{
    if (utc.nanos == CALENDAR_NO_NANOS) {
        Py_RETURN_NONE;
    }
    return date_time_by_zone(date_time_type, zone, utc);
}

PyObject *calendar_fault_of_text(PyObject *module, PyObject *const *arguments, Py_ssize_t count)
{
    Calendar of;
    calendar_fault fault;
    uint8_t said[ROOM];
    (void)module;
    if (!has_arguments("_fault_of_calendar", 2, count) || !read_calendar(arguments[0], arguments[1], &of)) {
        return NULL;
    }
    if (calendar_text_check(of.text, of.length, of.zone, of.zone_length, &fault)) {
        Py_RETURN_NONE;
    }
    int32_t length = calendar_text_fault_text(&fault, said, ROOM);
    return Py_BuildValue("(s#nn)", (const char *)said, (Py_ssize_t)length, (Py_ssize_t)fault.byte, (Py_ssize_t)fault.end);
}

PyObject *calendar_zone_of_text(PyObject *module, PyObject *it)
{
    const uint8_t *text;
    size_t length;
    uint8_t name[NAME];
    (void)module;
    if (!read_text(it, &text, &length)) {
        return NULL;
    }
    int32_t size = calendar_text_zone(text, length, name, NAME);
    if (size == CALENDAR_NONE) {
        Py_RETURN_NONE;
    }
    return PyBytes_FromStringAndSize((const char *)name, size);
}

/* The next instant of a text after a moment, or the last before it. */
PyObject *calendar_instant_of_text(PyObject *module, PyObject *const *arguments, Py_ssize_t count)
{
    Calendar of;
    calendar_date_time start, found;
    (void)module;
    if (!has_arguments("_instant_of_calendar", 4, count) || !read_calendar(arguments[0], arguments[1], &of) || !take_instant(arguments[2], &start)) {
        return NULL;
    }
    bool back = arguments[3] == Py_True;
    Py_BEGIN_ALLOW_THREADS
    found = back ? calendar_text_prev(of.text, of.length, of.zone, of.zone_length, start)
                 : calendar_text_next(of.text, of.length, of.zone, of.zone_length, start);
    Py_END_ALLOW_THREADS
    return instant_or_none(arguments[1], found);
}

PyObject *calendar_text_has(PyObject *module, PyObject *const *arguments, Py_ssize_t count)
{
    Calendar of;
    calendar_date_time moment;
    (void)module;
    if (!has_arguments("_is_instant_of_calendar", 3, count) || !read_calendar(arguments[0], arguments[1], &of) || !take_instant(arguments[2], &moment)) {
        return NULL;
    }
    return PyBool_FromLong(calendar_text_is_instance(of.text, of.length, of.zone, of.zone_length, moment));
}

/* The first instants of a text after a moment and up to another, as a list of at most so many. */
PyObject *calendar_instants_of_text(PyObject *module, PyObject *const *arguments, Py_ssize_t count)
{
    enum { MOST = 64 };
    Calendar of;
    calendar_date_time start, until, out[MOST];
    size_t written;
    (void)module;
    if (!has_arguments("_instants_of_calendar", 4, count) || !read_calendar(arguments[0], arguments[1], &of) || !take_instant(arguments[2], &start)
        || !take_instant(arguments[3], &until)) {
        return NULL;
    }
    Py_BEGIN_ALLOW_THREADS
    written = calendar_text_instances(of.text, of.length, of.zone, of.zone_length, start, until, out, MOST);
    Py_END_ALLOW_THREADS
    PyObject *list = PyList_New((Py_ssize_t)written);
    for (size_t i = 0; list && i < written; i++) {
        PyObject *instant = date_time_by_zone(date_time_type, arguments[1], out[i]);
        if (!instant) {
            Py_CLEAR(list);
        } else {
            PyList_SetItem(list, (Py_ssize_t)i, instant);
        }
    }
    return list;
}

/* Reads the text of a schedule and the number of its dialect. */
static bool read_schedule(PyObject *const *arguments, const uint8_t **text, size_t *length, uint32_t *dialect)
{
    int64_t number;
    if (!read_text(arguments[0], text, length) || !read_whole(arguments[1], &number)) {
        return false;
    }
    *dialect = is_u32(number) ? (uint32_t)number : UINT32_MAX;
    return true;
}

PyObject *fault_of_timed_schedule(PyObject *module, PyObject *const *arguments, Py_ssize_t count)
{
    enum { SAID = 99 };
    const uint8_t *text;
    size_t length;
    uint32_t dialect;
    calendar_fault fault = {0, 0, 0, 0};
    uint8_t said[SAID];
    (void)module;
    if (!has_arguments("_fault_of_timed_schedule", 2, count) || !read_schedule(arguments, &text, &length, &dialect)) {
        return NULL;
    }
    if (calendar_timed_schedule_check(text, length, dialect, &fault)) {
        Py_RETURN_NONE;
    }
    int32_t size = calendar_schedule_fault_text(&fault, said, SAID);
    return Py_BuildValue("(is#nn)", (int)fault.field, (const char *)said, (Py_ssize_t)(size < 0 ? 0 : size), (Py_ssize_t)fault.byte, (Py_ssize_t)fault.end);
}

/* The next moment of a schedule after a moment, or the last before it. */
PyObject *moment_of_timed_schedule(PyObject *module, PyObject *const *arguments, Py_ssize_t count)
{
    const uint8_t *text;
    size_t length;
    uint32_t dialect;
    calendar_date_time start;
    (void)module;
    if (!has_arguments("_moment_of_timed_schedule", 4, count) || !read_schedule(arguments, &text, &length, &dialect) || !take_moment(arguments[2], &start)) {
        return NULL;
    }
    calendar_date_time found = arguments[3] == Py_True ? calendar_timed_schedule_prev(text, length, dialect, start)
                                                       : calendar_timed_schedule_next(text, length, dialect, start);
    if (found.nanos == CALENDAR_NO_NANOS) {
        Py_RETURN_NONE;
    }
    return date_time_of(date_time_type, found);
}

PyObject *is_moment_of_timed_schedule(PyObject *module, PyObject *const *arguments, Py_ssize_t count)
{
    const uint8_t *text;
    size_t length;
    uint32_t dialect;
    calendar_date_time moment;
    (void)module;
    if (!has_arguments("_is_moment_of_timed_schedule", 3, count) || !read_schedule(arguments, &text, &length, &dialect) || !take_moment(arguments[2], &moment)) {
        return NULL;
    }
    return PyBool_FromLong(calendar_timed_schedule_is_due(text, length, dialect, moment));
}
