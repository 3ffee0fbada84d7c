/* rule.c: the type Rule, which is a recurrence rule with a start, and the iterator over its instances. */
#include "package.h"

static PyTypeObject *rule_type, *iterator_type;

/* A recurrence rule by its text, which stays as long as the object for it, and the day of its start. If `is_timed` is set, each
 * instance is a date-time with the time of day of the start. */
typedef struct {
    PyObject_HEAD
    PyObject *text;
    const uint8_t *bytes;
    size_t length;
    int32_t start;
    bool is_timed;
    uint32_t second, nanos;
} Rule;

/* How many instances are found at once: few at first, since the caller may want no more, then twice as many each time, up to a bound. Each call
 * counts a rule with COUNT from its start, and one by one no more than the days of twice 400 years. The bound is near to those of 400 years.
 * So all calls together count few instances for each one that they find. */
enum { FIRST_FILL = 2, FILLED = 1024, FIRST_FILL_OF_COUNT = 64, FILLED_OF_COUNT = 1 << 17 };

/* The instances that are still to come: those that are found already, of which there are `count` in memory of its own, the day on which to
 * go on, and how many may follow, or -1. */
typedef struct {
    PyObject_HEAD
    PyObject *rule;
    int32_t from, until;
    int64_t most;
    size_t place, count, room, bound;
    bool is_filling;
    int32_t *found;
} Instances;

static Signature of_rule = {.call = "Rule", .count = 2, .needed = 2, .places = 2, .names = {"text", "start"}};
static Signature of_after = {.call = "after", .count = 2, .needed = 1, .places = 2, .names = {"dt", "inc"}};
static Signature of_before = {.call = "before", .count = 2, .needed = 1, .places = 2, .names = {"dt", "inc"}};
static Signature of_between = {.call = "between", .count = 3, .needed = 2, .places = 3, .names = {"after", "before", "inc"}};
static Signature of_xafter = {.call = "xafter", .count = 3, .needed = 1, .places = 3, .names = {"dt", "count", "inc"}};

/* ---- making */

/* What is wrong with a text, where there is no rule. */
static PyObject *refuse_rule(PyObject *text, const calendar_fault *fault)
{
    enum { ROOM = 128 };
    uint8_t said[ROOM];
    return refuse_bytes(text, said, calendar_rule_fault_text(fault, said, ROOM), fault->byte, fault->end);
}

/* Reads a date-time without a time zone. Of one with a zone it says what to do. */
static bool take_local(PyObject *it, calendar_date_time *moment)
{
    Zoning zoning;
    bool is_one;
    if (!read_moment(it, moment, &zoning, &is_one)) {
        return false;
    }
    bool has_zone = is_one && zoning.zone;
    Py_XDECREF(zoning.zone);
    if (has_zone) {
        PyErr_SetString(PyExc_ValueError, "a rule goes by a clock without a time zone: give it dt.replace(tzinfo=None), and each instance its zone");
        return false;
    }
    return is_one || refuse_type("a DateTime or a datetime.datetime", it);
}

/* Reads the start: a date, or a date-time without a time zone. */
static bool read_start(PyObject *it, Rule *rule)
{
    calendar_date_time moment;
    rule->is_timed = is_date_time(it) || is_python_datetime(it);
    rule->second = rule->nanos = 0;
    if (!rule->is_timed) {
        return take_date(it, &rule->start);
    }
    if (!take_local(it, &moment)) {
        return false;
    }
    rule->start = calendar_date_time_date(moment);
    rule->second = (uint32_t)calendar_date_time_second_of_day(moment);
    rule->nanos = moment.nanos;
    return true;
}

static PyObject *rule_new(PyTypeObject *kind, PyObject *arguments, PyObject *keywords)
{
    PyObject *parts[PARTS];
    Py_ssize_t length;
    calendar_fault fault;
    Rule read;
    (void)kind;
    if (!take_tuple(&of_rule, arguments, keywords, parts)) {
        return NULL;
    }
    const char *bytes = PyUnicode_AsUTF8AndSize(parts[0], &length);
    if (!bytes) {
        return PyUnicode_Check(parts[0]) ? NULL : refuse_type("a str", parts[0]);
    }
    if (!calendar_rule_check((const uint8_t *)bytes, (size_t)length, &fault)) {
        return refuse_rule(parts[0], &fault);
    }
    if (!read_start(parts[1], &read)) {
        return NULL;
    }
    Rule *self = PyObject_New(Rule, rule_type);
    if (self) {
        self->text = Py_NewRef(parts[0]);
        self->bytes = (const uint8_t *)bytes;
        self->length = (size_t)length;
        self->start = read.start;
        self->is_timed = read.is_timed;
        self->second = read.second;
        self->nanos = read.nanos;
    }
    return (PyObject *)self;
}

static void rule_free(PyObject *self)
{
    PyTypeObject *kind = Py_TYPE(self);
    Py_DECREF(((Rule *)self)->text);
    PyObject_Free(self);
    Py_DECREF(kind);
}

/* ---- instances as objects */

/* The instance on a day. */
static PyObject *instance_on(const Rule *of, int32_t day)
{
    return of->is_timed ? date_time_of(date_time_type, calendar_date_time_new(day, of->second, of->nanos)) : date_of(date_type, day);
}

/* What a day is for an instance: the day, and how the time of day compares with that of the instances, as -1, 0 or 1. */
typedef struct {
    int32_t day;
    int side;
} Place;

/* Reads a place beside the instances: a date for a rule over days, and a date-time for one with a time of day. */
static bool read_place(const Rule *of, PyObject *it, Place *place)
{
    calendar_date_time moment;
    place->side = 0;
    if (!of->is_timed) {
        return take_date(it, &place->day);
    }
    if (!take_local(it, &moment)) {
        return false;
    }
    uint32_t second = (uint32_t)calendar_date_time_second_of_day(moment);
    place->day = calendar_date_time_date(moment);
    place->side = second != of->second ? (second > of->second ? 1 : -1) : (moment.nanos > of->nanos) - (moment.nanos < of->nanos);
    return true;
}

/* The first and the last day that may have an instance after a place, or before it; with `inc` also at it. */
static int32_t first_after(Place place, bool inc)
{
    return place.day + !(place.side < 0 || (inc && place.side == 0));
}

static int32_t last_before(Place place, bool inc)
{
    return place.day - !(place.side > 0 || (inc && place.side == 0));
}

/* Reads whether the place itself counts. */
static bool read_inc(PyObject *it, bool *inc)
{
    int found = it ? PyObject_IsTrue(it) : 0;
    *inc = found > 0;
    return found >= 0;
}

/* ---- the next and the last instance */

/* Writes the instances of some days, in order; how many there are. Other threads run meanwhile. */
static size_t instances_of(const Rule *of, int32_t from, int32_t until, int32_t *out, size_t room)
{
    size_t count;
    Py_BEGIN_ALLOW_THREADS
    count = calendar_rule_instances(of->bytes, of->length, of->start, from, until, out, room);
    Py_END_ALLOW_THREADS
    return count;
}

static PyObject *rule_after(PyObject *self, PyObject *const *arguments, Py_ssize_t count, PyObject *keywords)
{
    const Rule *of = (Rule *)self;
    PyObject *parts[PARTS];
    Place place;
    bool inc;
    int32_t day;
    if (!take_array(&of_after, arguments, count, keywords, parts) || !read_place(of, parts[0], &place) || !read_inc(parts[1], &inc)) {
        return NULL;
    }
    if (instances_of(of, first_after(place, inc), CALENDAR_MAX, &day, 1) == 0) {
        Py_RETURN_NONE;
    }
    return instance_on(of, day);
}

/* The last instance on a day or before it; CALENDAR_NONE if there is none. Other threads run meanwhile. */
static int32_t last_on(const Rule *of, int32_t day)
{
    int32_t found;
    if (day < CALENDAR_MIN) {
        return CALENDAR_NONE;
    }
    Py_BEGIN_ALLOW_THREADS
    bool is_one = calendar_rule_is_instance(of->bytes, of->length, of->start, day);
    found = is_one ? day : calendar_rule_prev(of->bytes, of->length, of->start, day);
    Py_END_ALLOW_THREADS
    return found;
}

static PyObject *rule_before(PyObject *self, PyObject *const *arguments, Py_ssize_t count, PyObject *keywords)
{
    const Rule *of = (Rule *)self;
    PyObject *parts[PARTS];
    Place place;
    bool inc;
    if (!take_array(&of_before, arguments, count, keywords, parts) || !read_place(of, parts[0], &place) || !read_inc(parts[1], &inc)) {
        return NULL;
    }
    int32_t day = last_on(of, last_before(place, inc));
    if (day == CALENDAR_NONE) {
        Py_RETURN_NONE;
    }
    return instance_on(of, day);
}

static int rule_contains(PyObject *self, PyObject *it)
{
    const Rule *of = (Rule *)self;
    Place place;
    bool is_time = is_date_time(it) || is_python_datetime(it), is_day = !is_time && (is_date(it) || is_python_date(it));
    if (of->is_timed ? !is_time : !is_day) {
        return 0;
    }
    if (!read_place(of, it, &place)) {
        return -1;
    }
    return place.side == 0 && calendar_rule_is_instance(of->bytes, of->length, of->start, place.day);
}

/* ---- all instances, one after another */

/* Whether a rule has COUNT. */
static bool has_count(const Rule *of)
{
    static const char name[] = "COUNT=";
    for (size_t at = 0, same = 0; at < of->length; at++) {
        int byte = of->bytes[at], letter = 'a' <= byte && byte <= 'z' ? byte - 'a' + 'A' : byte;
        same = letter == name[same] ? same + 1 : letter == name[0];
        if (!name[same]) {
            return true;
        }
    }
    return false;
}

static PyObject *instances_from(PyObject *rule, int32_t from, int32_t until, int64_t most)
{
    Instances *self = PyObject_New(Instances, iterator_type);
    bool is_counted = has_count((Rule *)rule);
    if (self) {
        self->rule = Py_NewRef(rule);
        self->from = from;
        self->until = until;
        self->most = most;
        self->place = self->count = 0;
        self->room = is_counted ? FIRST_FILL_OF_COUNT : FIRST_FILL;
        self->bound = is_counted ? FILLED_OF_COUNT : FILLED;
        self->is_filling = false;
        self->found = NULL;
    }
    return (PyObject *)self;
}

/* Makes room for the instances that come next, and hears signals, such as that of Ctrl-C. */
static bool is_ready(Instances *of)
{
    int32_t *found = PyErr_CheckSignals() < 0 ? NULL : PyMem_Realloc(of->found, of->room * sizeof found[0]);
    if (!found && !PyErr_Occurred()) {
        PyErr_NoMemory();
    }
    of->found = found ? found : of->found;
    return found;
}

/* Finds the instances that come next. The last ones are found where they are fewer than there is room for. */
static bool fill(Instances *of)
{
    if (of->is_filling) {
        PyErr_SetString(PyExc_ValueError, "another thread is using the iterator");
        return false;
    }
    of->is_filling = true;
    bool is_one = is_ready(of);
    of->place = of->count = 0;
    if (is_one && of->from <= of->until) {
        of->count = instances_of((Rule *)of->rule, of->from, of->until, of->found, of->room);
    }
    if (of->count > 0) {
        of->from = of->found[of->count - 1] + 1;
    }
    if (is_one) {
        of->room = of->count < of->room ? 0 : 2 * of->room < of->bound ? 2 * of->room : of->bound;
    }
    of->is_filling = false;
    return of->count > 0;
}

static PyObject *instances_next(PyObject *self)
{
    Instances *of = (Instances *)self;
    if (of->most == 0 || (of->place == of->count && (of->room == 0 || !fill(of)))) {
        return NULL;
    }
    of->most -= of->most > 0;
    return instance_on((Rule *)of->rule, of->found[of->place++]);
}

static PyObject *instances_iter(PyObject *self)
{
    return Py_NewRef(self);
}

static void instances_free(PyObject *self)
{
    PyTypeObject *kind = Py_TYPE(self);
    Py_DECREF(((Instances *)self)->rule);
    PyMem_Free(((Instances *)self)->found);
    PyObject_Free(self);
    Py_DECREF(kind);
}

static PyObject *rule_iter(PyObject *self)
{
    return instances_from(self, ((Rule *)self)->start, CALENDAR_MAX, -1);
}

static PyObject *rule_xafter(PyObject *self, PyObject *const *arguments, Py_ssize_t count, PyObject *keywords)
{
    PyObject *parts[PARTS];
    Place place;
    bool inc;
    int64_t most = -1;
    if (!take_array(&of_xafter, arguments, count, keywords, parts) || !read_place((Rule *)self, parts[0], &place)
        || (parts[1] && parts[1] != Py_None && !read_whole(parts[1], &most)) || !read_inc(parts[2], &inc)) {
        return NULL;
    }
    if (parts[1] && parts[1] != Py_None && most < 0) {
        most = 0;
    }
    return instances_from(self, first_after(place, inc), CALENDAR_MAX, most);
}

static PyObject *rule_between(PyObject *self, PyObject *const *arguments, Py_ssize_t count, PyObject *keywords)
{
    PyObject *parts[PARTS];
    Place after, before;
    bool inc;
    if (!take_array(&of_between, arguments, count, keywords, parts) || !read_place((Rule *)self, parts[0], &after)
        || !read_place((Rule *)self, parts[1], &before) || !read_inc(parts[2], &inc)) {
        return NULL;
    }
    PyObject *instances = instances_from(self, first_after(after, inc), last_before(before, inc), -1);
    PyObject *list = instances ? PySequence_List(instances) : NULL;
    Py_XDECREF(instances);
    return list;
}

/* ---- as a sequence */

/* The day of an instance by its place, from 0, and how many there are up to there; CALENDAR_NONE if there are fewer, or after an error. */
static int32_t day_at(PyObject *self, int64_t place, int64_t *passed)
{
    Instances *walk = (Instances *)instances_from(self, ((Rule *)self)->start, CALENDAR_MAX, -1);
    int32_t day = CALENDAR_NONE;
    *passed = 0;
    while (walk && day == CALENDAR_NONE && walk->room > 0 && fill(walk)) {
        if (place - *passed < (int64_t)walk->count) {
            day = walk->found[place - *passed];
        }
        *passed += (int64_t)walk->count;
    }
    Py_XDECREF(walk);
    return day;
}

static PyObject *rule_count(PyObject *self, PyObject *unused)
{
    int64_t count;
    (void)unused;
    day_at(self, INT64_MAX, &count);
    return PyErr_Occurred() ? NULL : PyLong_FromLongLong(count);
}

/* The day of an instance by its place from the end, from 0. A rule with COUNT is listed from its start, as each step back would count it. */
static int32_t day_from_end(PyObject *self, int64_t place)
{
    int64_t count;
    if (has_count((Rule *)self)) {
        day_at(self, INT64_MAX, &count);
        return place < count && !PyErr_Occurred() ? day_at(self, count - 1 - place, &count) : CALENDAR_NONE;
    }
    int32_t day = last_on((Rule *)self, CALENDAR_MAX);
    while (place > 0 && day != CALENDAR_NONE && PyErr_CheckSignals() == 0) {
        day = last_on((Rule *)self, day - 1);
        place--;
    }
    return day;
}

static PyObject *rule_item(PyObject *self, PyObject *key)
{
    int64_t place, passed;
    if (PySlice_Check(key)) {
        return by_python(TEXTS, "slice_of", "(OO)", self, key);
    }
    if (!PyIndex_Check(key)) {
        return refuse_type("a whole number or a slice", key);
    }
    if (!read_whole(key, &place)) {
        return NULL;
    }
    int32_t day = place < 0 ? day_from_end(self, -(place + 1)) : day_at(self, place, &passed);
    if (PyErr_Occurred()) {
        return NULL;
    }
    if (day == CALENDAR_NONE) {
        PyErr_SetString(PyExc_IndexError, "the rule has fewer instances");
        return NULL;
    }
    return instance_on((Rule *)self, day);
}

/* ---- as Python's objects do */

static PyObject *rule_start(PyObject *self, void *unused)
{
    (void)unused;
    return instance_on((Rule *)self, ((Rule *)self)->start);
}

static PyObject *rule_text(PyObject *self)
{
    return Py_NewRef(((Rule *)self)->text);
}

static PyObject *rule_text_field(PyObject *self, void *unused)
{
    (void)unused;
    return rule_text(self);
}

static PyObject *rule_repr(PyObject *self)
{
    PyObject *start = rule_start(self, NULL);
    PyObject *text = start ? PyUnicode_FromFormat("Rule(%R, %R)", ((Rule *)self)->text, start) : NULL;
    Py_XDECREF(start);
    return text;
}

static PyObject *rule_compare(PyObject *left, PyObject *right, int order)
{
    if (!Py_IS_TYPE(right, rule_type) || (order != Py_EQ && order != Py_NE)) {
        Py_RETURN_NOTIMPLEMENTED;
    }
    const Rule *one = (Rule *)left, *other = (Rule *)right;
    bool are_same = one->start == other->start && one->is_timed == other->is_timed && one->second == other->second
        && one->nanos == other->nanos && PyUnicode_Compare(one->text, other->text) == 0;
    return PyErr_Occurred() ? NULL : PyBool_FromLong(are_same == (order == Py_EQ));
}

static Py_hash_t rule_hash(PyObject *self)
{
    const Rule *of = (Rule *)self;
    Py_hash_t text = PyObject_Hash(of->text);
    return text == -1 ? -1 : hash_of((int64_t)((uint64_t)text ^ (uint64_t)of->start << 20), of->second + of->nanos + of->is_timed);
}

static PyObject *rule_reduce(PyObject *self, PyObject *unused)
{
    (void)unused;
    return Py_BuildValue("(O(ON))", (PyObject *)rule_type, ((Rule *)self)->text, rule_start(self, NULL));
}

/* ---- the types */

static PyGetSetDef fields[] = {
    {"text", rule_text_field, NULL, "The text of the rule.", NULL},
    {"start", rule_start, NULL, "The start: a Date, or a DateTime. It is an instance only if it fits the rule.", NULL},
    {NULL, NULL, NULL, NULL, NULL},
};

static PyMethodDef methods[] = {
    {"after", METHOD(rule_after), METH_FASTCALL | METH_KEYWORDS,
     "after($self, /, dt, inc=False)\n--\n\nReturns the first instance after dt, with inc also at it, or None if there is none."},
    {"before", METHOD(rule_before), METH_FASTCALL | METH_KEYWORDS,
     "before($self, /, dt, inc=False)\n--\n\nReturns the last instance before dt, with inc also at it, or None if there is none."},
    {"between", METHOD(rule_between), METH_FASTCALL | METH_KEYWORDS,
     "between($self, /, after, before, inc=False)\n--\n\n"
     "Returns a list of the instances after one day or time and before another, with inc also at them.\n\n"
     ">>> Rule('FREQ=MONTHLY;BYDAY=-1FR', Date(2024, 1, 1)).between(Date(2024, 2, 1), Date(2024, 4, 1))\n"
     "[Date(2024, 2, 23), Date(2024, 3, 29)]"},
    {"xafter", METHOD(rule_xafter), METH_FASTCALL | METH_KEYWORDS,
     "xafter($self, /, dt, count=None, inc=False)\n--\n\n"
     "Returns an iterator over the instances after dt, with inc also at it, and at most count of them."},
    {"count", rule_count, METH_NOARGS,
     "count($self, /)\n--\n\nReturns how many instances there are, up to the end of the calendar if the rule has no end."},
    {"__class_getitem__", Py_GenericAlias, METH_O | METH_CLASS,
     "__class_getitem__($type, item, /)\n--\n\nRule[Date] and Rule[DateTime] are types for a type checker."},
    {"__reduce__", rule_reduce, METH_NOARGS, "__reduce__($self, /)\n--\n\nWhat pickle and copy keep."},
    {NULL, NULL, 0, NULL},
};

PyDoc_STRVAR(documentation,
"Rule(text, start)\n--\n\n"
"A recurrence rule of RFC 5545, section 3.3.10, from a start on: a sequence of its instances.\n\n"
">>> fridays = Rule('FREQ=MONTHLY;BYDAY=-1FR', Date(2024, 1, 1))\n"
">>> fridays[0], fridays[1:3], Date(2024, 2, 23) in fridays\n"
"(Date(2024, 1, 26), [Date(2024, 2, 23), Date(2024, 3, 29)], True)\n\n"
"From a Date on, the instances are Dates. From a DateTime on, which has no time zone, they are DateTimes with its time of day. The\n"
"start is an instance only if it fits the rule. A rule without COUNT and UNTIL goes on to the end of the calendar.\n\n"
"FREQ is DAILY, WEEKLY, MONTHLY or YEARLY. BYHOUR, BYMINUTE, BYSECOND and an UNTIL with a time of day are not read. A text that is no\n"
"rule raises TextError, a ValueError with start and end. Rules of one text and one start are equal.");

static PyType_Slot slots[] = {
    {Py_tp_doc, (void *)documentation},
    {Py_tp_getset, fields},
    {Py_tp_methods, methods},
    SLOT(Py_tp_new, rule_new),
    SLOT(Py_tp_dealloc, rule_free),
    SLOT(Py_tp_richcompare, rule_compare),
    SLOT(Py_tp_hash, rule_hash),
    SLOT(Py_tp_iter, rule_iter),
    SLOT(Py_tp_str, rule_text),
    SLOT(Py_tp_repr, rule_repr),
    SLOT(Py_mp_subscript, rule_item),
    SLOT(Py_sq_contains, rule_contains),
    {0, NULL},
};

static PyType_Slot iterator_slots[] = {
    {Py_tp_doc, (void *)"The instances of a rule, in order."},
    SLOT(Py_tp_iter, instances_iter),
    SLOT(Py_tp_iternext, instances_next),
    SLOT(Py_tp_dealloc, instances_free),
    {0, NULL},
};

static PyType_Spec spec = {
    .name = "proved_calendar.Rule",
    .basicsize = sizeof(Rule),
    .flags = Py_TPFLAGS_DEFAULT | Py_TPFLAGS_IMMUTABLETYPE,
    .slots = slots,
};

static PyType_Spec iterator_spec = {
    .name = "proved_calendar.RuleIterator",
    .basicsize = sizeof(Instances),
    .flags = Py_TPFLAGS_DEFAULT | Py_TPFLAGS_IMMUTABLETYPE | Py_TPFLAGS_DISALLOW_INSTANTIATION,
    .slots = iterator_slots,
};

bool make_rule_types(PyObject *module)
{
    rule_type = add_type(module, &spec, "Rule", NULL);
    iterator_type = rule_type ? (PyTypeObject *)PyType_FromSpec(&iterator_spec) : NULL;
    return iterator_type;
}
