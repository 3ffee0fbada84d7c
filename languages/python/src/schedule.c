/* schedule.c: the type Schedule, which is a cron schedule, and the iterator over the moments at which one is due. */
#include "package.h"

#include <string.h>

static PyTypeObject *schedule_type, *iterator_type;

/* A schedule, with the text that it was read from. */
typedef struct {
    PyObject_HEAD
    PyObject *text;
    calendar_schedule fields;
} Schedule;

enum { FIRST_FILL = 2, FILLED = 64 };

/* The moments of a schedule that are still to come: those that are found already, and the last one, after which to search. With a Zone
 * they are those of UTC; else it is null. */
typedef struct {
    PyObject_HEAD
    PyObject *zone;
    calendar_schedule fields;
    calendar_date_time last, until;
    size_t place, count, room;
    bool is_filling;
    calendar_date_time found[FILLED];
} Moments;

static Signature of_text = {.call = "Schedule", .count = 1, .needed = 1, .places = 1, .names = {"text"}};
static Signature of_iterate = {.call = "iterate", .count = 2, .needed = 1, .places = 2, .names = {"start", "until"}};

static inline const calendar_schedule *fields_of(PyObject *self)
{
    return &((Schedule *)self)->fields;
}

/* ---- making */

/* What is wrong with a text, where there is no schedule. */
static PyObject *refuse_schedule(PyObject *text, const calendar_fault *fault)
{
    enum { ROOM = 99 };
    uint8_t said[ROOM];
    return refuse_bytes(text, said, calendar_schedule_fault_text(fault, said, ROOM), fault->byte, fault->end);
}

static PyObject *schedule_new(PyTypeObject *kind, PyObject *arguments, PyObject *keywords)
{
    PyObject *parts[PARTS];
    Py_ssize_t length;
    calendar_schedule fields;
    calendar_fault fault;
    (void)kind;
    if (!take_tuple(&of_text, arguments, keywords, parts)) {
        return NULL;
    }
    const char *bytes = PyUnicode_AsUTF8AndSize(parts[0], &length);
    if (!bytes) {
        return PyUnicode_Check(parts[0]) ? NULL : refuse_type("a str", parts[0]);
    }
    if (!calendar_schedule_read((const uint8_t *)bytes, (size_t)length, &fields, &fault)) {
        return refuse_schedule(parts[0], &fault);
    }
    Schedule *self = PyObject_New(Schedule, schedule_type);
    if (self) {
        self->text = Py_NewRef(parts[0]);
        self->fields = fields;
    }
    return (PyObject *)self;
}

static void schedule_free(PyObject *self)
{
    PyTypeObject *kind = Py_TYPE(self);
    Py_DECREF(((Schedule *)self)->text);
    PyObject_Free(self);
    Py_DECREF(kind);
}

/* ---- when it is due */

/* A moment, or None where there is none. */
static PyObject *moment_or_none(calendar_date_time moment)
{
    if (moment.nanos == CALENDAR_NO_NANOS) {
        Py_RETURN_NONE;
    }
    return date_time_of(date_time_type, moment);
}

/* The same by the clock of a Zone where UTC shows the moment. */
static PyObject *zoned_or_none(PyObject *zone, calendar_date_time utc)
{
    if (utc.nanos == CALENDAR_NO_NANOS) {
        Py_RETURN_NONE;
    }
    return date_time_by_zone(date_time_type, zone, utc);
}

/* Reads a date-time without a time zone, one in a Zone as that of UTC, or one in another zone as its clock shows it; the zone, of which
 * there is a new reference, or null. */
static bool take_start(PyObject *it, calendar_date_time *start, PyObject **zone)
{
    Zoning zoning;
    bool is_one;
    *zone = NULL;
    if (!read_moment(it, start, &zoning, &is_one)) {
        return false;
    }
    if (!is_one) {
        refuse_type("a DateTime or a datetime.datetime", it);
        return false;
    }
    *zone = zoning.zone;
    if (zoning.zone && is_zone(zoning.zone)) {
        *start = utc_by_zone(zoning.zone, *start, zoning.fold);
    }
    return true;
}

/* What a method answers for a date-time in a zone that is no Zone. Takes the reference to the zone. */
static PyObject *by_other_zone(PyObject *self, const char *method, PyObject *it, PyObject *until, PyObject *zone)
{
    PyObject *found = by_python(ZONED, "schedule_by_other_zone", "(OsOOO)", self, method, it, until, zone);
    Py_DECREF(zone);
    return found;
}

/* A moment of a schedule, that which a function finds from a start on; in a Zone another function finds it. */
static PyObject *found_from(PyObject *self, PyObject *it, const char *method,
                            calendar_date_time (*find)(const calendar_schedule *, calendar_date_time),
                            calendar_date_time (*find_in_zone)(const calendar_schedule *, const uint8_t *, size_t, calendar_date_time))
{
    calendar_date_time start;
    PyObject *zone;
    size_t length;
    if (!take_start(it, &start, &zone)) {
        return NULL;
    }
    if (!zone) {
        return moment_or_none(find(fields_of(self), start));
    }
    if (!is_zone(zone)) {
        return by_other_zone(self, method, it, Py_None, zone);
    }
    const uint8_t *bytes = bytes_of_zone(zone, &length);
    PyObject *found = zoned_or_none(zone, find_in_zone(fields_of(self), bytes, length, start));
    Py_DECREF(zone);
    return found;
}

static PyObject *next_after(PyObject *self, PyObject *it)
{
    return found_from(self, it, "next_after", calendar_schedule_next, calendar_zone_schedule_next);
}

static PyObject *prev_before(PyObject *self, PyObject *it)
{
    return found_from(self, it, "prev_before", calendar_schedule_prev, calendar_zone_schedule_prev);
}

/* Whether a schedule fires in a zone at a moment of UTC: it does so at whole seconds alone. */
static bool is_due_in_zone(PyObject *self, PyObject *zone, calendar_date_time utc)
{
    size_t length;
    const uint8_t *bytes = bytes_of_zone(zone, &length);
    if (utc.nanos != 0) {
        return false;
    }
    calendar_date_time before = {.seconds = utc.seconds - 1, .nanos = 0};
    calendar_date_time next = calendar_zone_schedule_next(fields_of(self), bytes, length, before);
    return next.nanos == 0 && next.seconds == utc.seconds;
}

static PyObject *is_due(PyObject *self, PyObject *it)
{
    calendar_date_time moment;
    PyObject *zone;
    if (!take_start(it, &moment, &zone)) {
        return NULL;
    }
    if (!zone) {
        return PyBool_FromLong(calendar_schedule_is_due(fields_of(self), moment));
    }
    if (!is_zone(zone)) {
        return by_other_zone(self, "is_due", it, Py_None, zone);
    }
    bool is_one = is_due_in_zone(self, zone, moment);
    Py_DECREF(zone);
    return PyBool_FromLong(is_one);
}

/* ---- all moments, one after another */

static PyObject *iterate(PyObject *self, PyObject *const *arguments, Py_ssize_t count, PyObject *keywords)
{
    PyObject *parts[PARTS], *zone;
    calendar_date_time start, until = last_moment();
    if (!take_array(&of_iterate, arguments, count, keywords, parts) || !take_start(parts[0], &start, &zone)) {
        return NULL;
    }
    bool has_end = parts[1] && parts[1] != Py_None;
    if (zone && !is_zone(zone)) {
        return by_other_zone(self, "iterate", parts[0], has_end ? parts[1] : Py_None, zone);
    }
    bool is_read = !has_end || (zone ? take_instant(parts[1], &until) : take_moment(parts[1], &until));
    Moments *moments = is_read ? PyObject_New(Moments, iterator_type) : NULL;
    if (moments) {
        moments->zone = Py_XNewRef(zone);
        moments->fields = *fields_of(self);
        moments->last = start;
        moments->until = until;
        moments->place = moments->count = 0;
        moments->room = FIRST_FILL;
        moments->is_filling = false;
    }
    Py_XDECREF(zone);
    return (PyObject *)moments;
}

/* Writes the moments of UTC at which a schedule fires in a zone, and returns how many there are. */
static size_t due_in_zone(const Moments *of, const uint8_t *zone, size_t length, calendar_date_time *found)
{
    calendar_date_time last = of->last;
    for (size_t i = 0; i < of->room; i++) {
        last = calendar_zone_schedule_next(&of->fields, zone, length, last);
        if (last.nanos == CALENDAR_NO_NANOS || last.seconds > of->until.seconds) {
            return i;
        }
        found[i] = last;
    }
    return of->room;
}

/* Whether no signal, such as that of Ctrl-C, ends the list. Its handler cannot use the iterator. */
static bool goes_on(Moments *of)
{
    of->is_filling = true;
    bool is_stopped = PyErr_CheckSignals() < 0;
    of->is_filling = false;
    return !is_stopped;
}

/* Finds the moments that come next: few at first, since the caller may want no more. Other threads run meanwhile. */
static bool fill(Moments *of)
{
    calendar_date_time found[FILLED];
    size_t count, length = 0;
    if (of->is_filling) {
        PyErr_SetString(PyExc_ValueError, "another thread is using the iterator");
        return false;
    }
    if (!goes_on(of)) {
        return false;
    }
    of->is_filling = true;
    const uint8_t *zone = of->zone ? bytes_of_zone(of->zone, &length) : NULL;
    Py_BEGIN_ALLOW_THREADS
    count = zone ? due_in_zone(of, zone, length, found) : calendar_schedule_due(&of->fields, of->last, of->until, found, of->room);
    Py_END_ALLOW_THREADS
    of->is_filling = false;
    memcpy(of->found, found, count * sizeof found[0]);
    of->place = 0;
    of->count = count;
    if (count > 0) {
        of->last = found[count - 1];
    }
    /* (fewer than asked for are the last ones) */
    of->room = count < of->room ? 0 : of->room < FILLED ? 2 * of->room : FILLED;
    return count > 0;
}

static PyObject *moments_next(PyObject *self)
{
    Moments *of = (Moments *)self;
    if (of->place == of->count && (of->room == 0 || !fill(of))) {
        return NULL;
    }
    calendar_date_time found = of->found[of->place++];
    return of->zone ? date_time_by_zone(date_time_type, of->zone, found) : date_time_of(date_time_type, found);
}

static PyObject *moments_iter(PyObject *self)
{
    return Py_NewRef(self);
}

static void moments_free(PyObject *self)
{
    PyTypeObject *kind = Py_TYPE(self);
    Py_XDECREF(((Moments *)self)->zone);
    PyObject_Free(self);
    Py_DECREF(kind);
}

/* ---- as Python's objects do */

static PyObject *schedule_text(PyObject *self)
{
    return Py_NewRef(((Schedule *)self)->text);
}

static PyObject *schedule_repr(PyObject *self)
{
    return PyUnicode_FromFormat("Schedule(%R)", ((Schedule *)self)->text);
}

static PyObject *schedule_compare(PyObject *left, PyObject *right, int order)
{
    if (!Py_IS_TYPE(right, schedule_type) || (order != Py_EQ && order != Py_NE)) {
        Py_RETURN_NOTIMPLEMENTED;
    }
    bool are_same = memcmp(fields_of(left), fields_of(right), sizeof(calendar_schedule)) == 0;
    return PyBool_FromLong(are_same == (order == Py_EQ));
}

static Py_hash_t schedule_hash(PyObject *self)
{
    const uint64_t *sets = (const uint64_t *)fields_of(self);
    uint64_t hash = 0;
    for (size_t i = 0; i < sizeof(calendar_schedule) / sizeof sets[0]; i++) {
        hash = (hash ^ sets[i]) * UINT64_C(0x9e3779b97f4a7c15);
        hash ^= hash >> 32;
    }
    return (Py_hash_t)hash == -1 ? -2 : (Py_hash_t)hash;
}

static PyObject *schedule_reduce(PyObject *self, PyObject *unused)
{
    (void)unused;
    return Py_BuildValue("(O(O))", (PyObject *)schedule_type, ((Schedule *)self)->text);
}

/* ---- the types */

static PyMethodDef methods[] = {
    {"next_after", next_after, METH_O,
     "next_after($self, moment, /)\n--\n\n"
     "Returns the first DateTime after a moment at which the schedule is due, or None if there is none.\n"
     "In a Zone it is the first at which cron fires.\n\n"
     ">>> print(Schedule('30 4 1,15 * fri').next_after(DateTime(2024, 2, 9, 4, 30)))\n2024-02-15T04:30:00"},
    {"prev_before", prev_before, METH_O,
     "prev_before($self, moment, /)\n--\n\n"
     "Returns the last DateTime before a moment at which the schedule is due, or None if there is none.\n"
     "In a Zone it is the last at which cron fires."},
    {"is_due", is_due, METH_O,
     "is_due($self, moment, /)\n--\n\n"
     "Returns whether the schedule is due at a moment. It is due at the beginning of a minute, and never within one.\n"
     "In a Zone it says whether cron fires then."},
    {"iterate", METHOD(iterate), METH_FASTCALL | METH_KEYWORDS,
     "iterate($self, /, start, until=None)\n--\n\n"
     "Returns an iterator over the DateTimes after start at which the schedule is due, in order, and none after until.\n"
     "In a Zone they are those at which cron fires.\n\n"
     ">>> [it.day for it in Schedule('@daily').iterate(DateTime(2024, 2, 27), DateTime(2024, 3, 1))]\n[28, 29, 1]"},
    {"__reduce__", schedule_reduce, METH_NOARGS, "__reduce__($self, /)\n--\n\nWhat pickle and copy keep."},
    {NULL, NULL, 0, NULL},
};

PyDoc_STRVAR(documentation,
"Schedule(text)\n--\n\n"
"A cron schedule of five fields: minute, hour, day of the month, month and weekday.\n\n"
">>> schedule = Schedule('30 4 1,15 * fri')\n"
">>> schedule.is_due(DateTime(2024, 2, 16, 4, 30))\nTrue\n\n"
"A field is '*', a number, a range, a list or a step. Months and weekdays have their English names too. Days can be L, 15W,\n"
"5L and 5#2, and the whole text a nickname such as '@daily'. If days of the month and weekdays are both given, one of them is\n"
"enough, unless one field begins with '*'.\n\n"
"From a start without a time zone it goes by a clock that is never set. From one in a Zone it fires as cron does: a time that the\n"
"clock skips fires as the gap ends, and one that it shows twice fires once. But a schedule of every minute or hour goes by what\n"
"the clock shows. A ZoneInfo serves as the Zone of its key, and a datetime.timezone as a zone of its offset.\n\n"
">>> nightly = Schedule('30 2 * * *').iterate(DateTime(2024, 3, 30, tzinfo=Zone('Europe/Berlin')))\n"
">>> print(next(nightly), next(nightly))\n2024-03-30T02:30:00+01:00 2024-03-31T03:00:00+02:00\n\n"
"A text that is no schedule raises TextError, a ValueError with start and end.\n\n"
">>> Schedule('0 25 * * *')\n"
"Traceback (most recent call last):\n"
"proved_calendar.TextError: hour, byte 2: a number that is out of range\n\n"
"Schedules with the same fields are equal: Schedule('@daily') == Schedule('0 0 * * *').");

static PyType_Slot slots[] = {
    {Py_tp_doc, (void *)documentation},
    {Py_tp_methods, methods},
    SLOT(Py_tp_new, schedule_new),
    SLOT(Py_tp_dealloc, schedule_free),
    SLOT(Py_tp_richcompare, schedule_compare),
    SLOT(Py_tp_hash, schedule_hash),
    SLOT(Py_tp_str, schedule_text),
    SLOT(Py_tp_repr, schedule_repr),
    {0, NULL},
};

static PyType_Slot iterator_slots[] = {
    {Py_tp_doc, (void *)"The moments at which a schedule is due, in order."},
    SLOT(Py_tp_iter, moments_iter),
    SLOT(Py_tp_iternext, moments_next),
    SLOT(Py_tp_dealloc, moments_free),
    {0, NULL},
};

static PyType_Spec spec = {
    .name = "proved_calendar.Schedule",
    .basicsize = sizeof(Schedule),
    .flags = Py_TPFLAGS_DEFAULT | Py_TPFLAGS_IMMUTABLETYPE,
    .slots = slots,
};

static PyType_Spec iterator_spec = {
    .name = "proved_calendar.ScheduleIterator",
    .basicsize = sizeof(Moments),
    .flags = Py_TPFLAGS_DEFAULT | Py_TPFLAGS_IMMUTABLETYPE | Py_TPFLAGS_DISALLOW_INSTANTIATION,
    .slots = iterator_slots,
};

bool make_schedule_types(PyObject *module)
{
    schedule_type = add_type(module, &spec, "Schedule", NULL);
    iterator_type = schedule_type ? (PyTypeObject *)PyType_FromSpec(&iterator_spec) : NULL;
    return iterator_type;
}
