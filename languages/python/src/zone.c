/* zone.c: the type Zone, a tzinfo by the proved library, and date-times by its clock. */
#include "package.h"

#include <string.h>

static PyTypeObject *zone_type;

/* The zones that were asked for by name, each of which is one object. */
static PyObject *named_zones;

enum { SECOND = 1000000000, DAY = 86400, HOUR = 3600, MINUTE = 60 };

/* A time of one offset: from a second on, and up to another. */
typedef struct {
    int64_t from, until;
    int32_t offset;
} Stretch;

/* So many seconds that are not known wait for the table; it has the times before 2100, and at most so many. */
enum { PATIENCE = 8, MOST_STRETCHES = 1024 };
static const int64_t TABLE_END = INT64_C(4102444800);

/* A zone: the bytes of a TZif file or of a rule, their name or null, and what was asked of it before. The last stretch stands apart; the
 * table has all up to its end, in order, once that many were asked for. */
typedef struct {
    PyObject_HEAD
    PyObject *bytes, *key;
    Stretch last;
    Stretch *table;
    size_t count;
    int unknown;
} Zone;

static Signature of_key = {.call = "Zone", .count = 1, .needed = 1, .places = 1, .names = {"key"}};
static Signature of_file = {.call = "from_tzif", .count = 2, .needed = 1, .places = 1, .names = {"data", "key"}};

bool is_zone(PyObject *it)
{
    return Py_IS_TYPE(it, zone_type);
}

const uint8_t *bytes_of_zone(PyObject *zone, size_t *length)
{
    PyObject *bytes = ((Zone *)zone)->bytes;
    *length = (size_t)PyBytes_Size(bytes);
    return (const uint8_t *)PyBytes_AsString(bytes);
}

/* ---- the offset at an instant */

static Stretch stretch_from(PyObject *zone, int64_t second)
{
    size_t length;
    const uint8_t *bytes = bytes_of_zone(zone, &length);
    return (Stretch){
        .from = second,
        .until = calendar_zone_holds_until(bytes, length, second),
        .offset = calendar_zone_offset_at(bytes, length, second),
    };
}

/* Makes the table of all stretches that begin before its end. Without memory there is none. */
static void make_table(Zone *of)
{
    Stretch *table = PyMem_Malloc(MOST_STRETCHES * sizeof *table);
    int64_t from = INT64_MIN;
    for (of->count = 0; table && of->count < MOST_STRETCHES && from < TABLE_END; of->count++) {
        table[of->count] = stretch_from((PyObject *)of, from);
        from = table[of->count].until;
    }
    of->table = table;
}

/* The stretch of the table in which a second lies, which is before its end. */
static const Stretch *found_in_table(const Zone *of, int64_t second)
{
    size_t low = 0, high = of->count;
    while (high - low > 1) {
        size_t middle = low + (high - low) / 2;
        if (of->table[middle].from <= second) {
            low = middle;
        } else {
            high = middle;
        }
    }
    return &of->table[low];
}

/* The stretch in which a second lies, as far as it is known. */
static const Stretch *stretch_at(PyObject *zone, int64_t second)
{
    Zone *of = (Zone *)zone;
    if (of->last.from <= second && second < of->last.until) {
        return &of->last;
    }
    if (!of->table && ++of->unknown > PATIENCE) {
        make_table(of);
    }
    if (of->table && second < of->table[of->count - 1].until) {
        of->last = *found_in_table(of, second);
    } else {
        of->last = stretch_from(zone, second);
    }
    return &of->last;
}

/* ---- the offset of a local time */

/* The offset at which the clock of a zone skips a local second: that from before the gap, or by a fold that from behind it. */
static int32_t offset_in_gap(PyObject *zone, int64_t local, bool fold)
{
    Stretch before = *stretch_at(zone, local - DAY), behind = before;
    while (local - behind.offset >= behind.until) {
        before = behind;
        behind = *stretch_at(zone, before.until);
    }
    return fold ? behind.offset : before.offset;
}

/* The offset of a local second by the clock of a zone; of the second one of two by a fold. */
static int32_t offset_of_local(PyObject *zone, int64_t local, bool fold)
{
    const Stretch *near = stretch_at(zone, local - DAY);
    size_t length;
    /* (an offset is less than a day, so no other one can show the time) */
    if (local + DAY <= near->until) {
        return near->offset;
    }
    const uint8_t *bytes = bytes_of_zone(zone, &length);
    calendar_offsets found = calendar_zone_offsets_of_local(bytes, length, local);
    if (found.count == 0) {
        return offset_in_gap(zone, local, fold);
    }
    return fold ? found.later : found.earlier;
}

/* Whether the clock of a zone showed a time before, which it shows at a second with an offset. */
static bool is_second_of_two(PyObject *zone, int64_t second, Stretch at)
{
    size_t length;
    if (at.from <= second - 2 * DAY) {
        return false;
    }
    const uint8_t *bytes = bytes_of_zone(zone, &length);
    calendar_offsets found = calendar_zone_offsets_of_local(bytes, length, second + at.offset);
    return found.count == 2 && found.later == at.offset;
}

/* ---- date-times by the clock of a zone */

/* A moment so many seconds later, and without a leap second where the clock's minute does not end there; no nanos if it lies beyond
 * the calendar. */
static calendar_date_time shifted(calendar_date_time moment, int32_t seconds)
{
    moment.seconds += seconds;
    if (seconds % MINUTE != 0 && moment.nanos >= SECOND) {
        moment.nanos -= SECOND;
    }
    if (calendar_date_time_date(moment) == CALENDAR_NONE) {
        moment.nanos = CALENDAR_NO_NANOS;
    }
    return moment;
}

int32_t offset_by_zone(PyObject *zone, calendar_date_time moment, bool fold)
{
    return offset_of_local(zone, moment.seconds, fold);
}

calendar_date_time utc_by_zone(PyObject *zone, calendar_date_time moment, bool fold)
{
    return shifted(moment, -offset_of_local(zone, moment.seconds, fold));
}

calendar_date_time shown_by_zone(PyObject *zone, calendar_date_time utc, Zoning *zoning)
{
    Stretch at = *stretch_at(zone, utc.seconds);
    *zoning = (Zoning){.zone = zone, .fold = is_second_of_two(zone, utc.seconds, at)};
    return shifted(utc, at.offset);
}

/* ---- making */

/* What is wrong with the bytes of a zone. */
static PyObject *refuse_zone(const calendar_fault *fault, PyObject *text, PyObject *shown)
{
    enum { ROOM = 64 };
    uint8_t said[ROOM];
    int32_t length = calendar_zone_fault_text(fault, said, ROOM);
    if (text) {
        return refuse_bytes(text, said, length, fault->byte, fault->end);
    }
    PyObject *reason = PyUnicode_FromStringAndSize((const char *)said, length);
    if (reason) {
        PyErr_Format(PyExc_ValueError, "%S: %U", shown, reason);
        Py_DECREF(reason);
    }
    return NULL;
}

/* The zone of bytes, with the text of a rule, or with a name, if it has one. */
static PyObject *zone_of_bytes(PyObject *bytes, PyObject *text, PyObject *key)
{
    calendar_fault fault;
    size_t length = (size_t)PyBytes_Size(bytes);
    if (!calendar_zone_check((const uint8_t *)PyBytes_AsString(bytes), length, &fault)) {
        PyObject *shown = key ? Py_NewRef(key) : PyUnicode_FromString("the data");
        PyObject *nothing = shown ? refuse_zone(&fault, text, shown) : NULL;
        Py_XDECREF(shown);
        return nothing;
    }
    Zone *self = PyObject_New(Zone, zone_type);
    if (self) {
        self->bytes = Py_NewRef(bytes);
        self->key = Py_XNewRef(key);
        self->last = stretch_from((PyObject *)self, 0);
        self->table = NULL;
        self->count = 0;
        self->unknown = 0;
    }
    return (PyObject *)self;
}

/* The zone of a name, which is read once. */
static PyObject *zone_new(PyTypeObject *kind, PyObject *arguments, PyObject *keywords)
{
    PyObject *parts[PARTS];
    (void)kind;
    if (!take_tuple(&of_key, arguments, keywords, parts)) {
        return NULL;
    }
    if (!PyUnicode_Check(parts[0])) {
        return refuse_type("the name of a time zone", parts[0]);
    }
    PyObject *known = PyDict_GetItemWithError(named_zones, parts[0]);
    if (known || PyErr_Occurred()) {
        return Py_XNewRef(known);
    }
    PyObject *bytes = by_python(ZONED, "bytes_of_zone", "(O)", parts[0]);
    PyObject *zone = bytes ? zone_of_bytes(bytes, NULL, parts[0]) : NULL;
    if (zone && PyDict_SetItem(named_zones, parts[0], zone) < 0) {
        Py_CLEAR(zone);
    }
    Py_XDECREF(bytes);
    return zone;
}

static PyObject *from_rule(PyObject *kind, PyObject *text)
{
    Py_ssize_t length;
    (void)kind;
    const char *written = PyUnicode_AsUTF8AndSize(text, &length);
    if (!written) {
        return PyUnicode_Check(text) ? NULL : refuse_type("the text of a rule", text);
    }
    if (length >= 4 && memcmp(written, "TZif", 4) == 0) {
        PyErr_SetString(PyExc_ValueError, "a file is no rule: give its bytes to Zone.from_tzif");
        return NULL;
    }
    PyObject *bytes = PyBytes_FromStringAndSize(written, length);
    PyObject *zone = bytes ? zone_of_bytes(bytes, text, NULL) : NULL;
    Py_XDECREF(bytes);
    return zone;
}

static PyObject *from_tzif(PyObject *kind, PyObject *const *arguments, Py_ssize_t count, PyObject *keywords)
{
    PyObject *parts[PARTS];
    (void)kind;
    if (!take_array(&of_file, arguments, count, keywords, parts)) {
        return NULL;
    }
    PyObject *key = parts[1] && parts[1] != Py_None ? parts[1] : NULL;
    if (key && !PyUnicode_Check(key)) {
        return refuse_type("the name of a time zone", key);
    }
    PyObject *bytes = PyBytes_FromObject(parts[0]);
    if (!bytes) {
        return refuse_type("the bytes of a TZif file", parts[0]);
    }
    bool is_file = PyBytes_Size(bytes) >= 4 && memcmp(PyBytes_AsString(bytes), "TZif", 4) == 0;
    if (!is_file) {
        PyErr_SetString(PyExc_ValueError, "a TZif file begins with TZif; the text of a rule goes to Zone.from_rule");
    }
    PyObject *zone = is_file ? zone_of_bytes(bytes, NULL, key) : NULL;
    Py_DECREF(bytes);
    return zone;
}

static void zone_free(PyObject *self)
{
    PyTypeObject *kind = Py_TYPE(self);
    Zone *of = (Zone *)self;
    Py_XDECREF(of->bytes);
    Py_XDECREF(of->key);
    PyMem_Free(of->table);
    PyObject_Free(self);
    Py_DECREF(kind);
}

/* ---- as a tzinfo */

/* Reads what the clock shows, which has no other zone; the zone of a datetime is let go. */
static bool take_shown(PyObject *self, PyObject *it, calendar_date_time *moment, Zoning *zoning, bool has_to_be_own)
{
    bool is_one;
    if (!read_moment(it, moment, zoning, &is_one)) {
        return false;
    }
    Py_XDECREF(zoning->zone);
    if (!is_one) {
        refuse_type("a DateTime or a datetime.datetime", it);
    } else if (has_to_be_own && zoning->zone != self) {
        is_one = false;
        PyErr_SetString(PyExc_ValueError, "fromutc: the zone of the date-time is not this one");
    }
    return is_one;
}

static PyObject *utc_offset(PyObject *self, PyObject *it)
{
    calendar_date_time moment;
    Zoning zoning;
    if (it == Py_None) {
        Py_RETURN_NONE;
    }
    return take_shown(self, it, &moment, &zoning, false) ? python_timedelta(0, offset_by_zone(self, moment, zoning.fold), 0) : NULL;
}

static PyObject *tz_name(PyObject *self, PyObject *it)
{
    calendar_date_time moment;
    Zoning zoning;
    if (it == Py_None) {
        Py_RETURN_NONE;
    }
    if (!take_shown(self, it, &moment, &zoning, false)) {
        return NULL;
    }
    int32_t offset = offset_by_zone(self, moment, zoning.fold), ahead = offset < 0 ? -offset : offset;
    if (offset == 0) {
        return PyUnicode_FromString("UTC");
    }
    PyObject *name = PyUnicode_FromFormat("UTC%c%02d:%02d", offset < 0 ? '-' : '+', (int)(ahead / HOUR), (int)(ahead / MINUTE % MINUTE));
    PyObject *whole = name && ahead % MINUTE != 0 ? PyUnicode_FromFormat("%U:%02d", name, (int)(ahead % MINUTE)) : Py_XNewRef(name);
    Py_XDECREF(name);
    return whole;
}

static PyObject *no_saving(PyObject *self, PyObject *it)
{
    (void)self;
    (void)it;
    Py_RETURN_NONE;
}

/* The datetime that the clock shows where UTC shows another one of this zone. */
static PyObject *python_from_utc(PyObject *it, int32_t offset, bool fold)
{
    PyObject *by = python_timedelta(0, offset, 0);
    PyObject *shown = by ? PyNumber_Add(it, by) : NULL;
    PyObject *replace = shown && fold ? PyObject_GetAttrString(shown, "replace") : NULL;
    if (shown && fold) {
        PyObject *nothing = PyTuple_New(0), *named = Py_BuildValue("{si}", "fold", 1);
        Py_DECREF(shown);
        shown = replace && nothing && named ? PyObject_Call(replace, nothing, named) : NULL;
        Py_XDECREF(nothing);
        Py_XDECREF(named);
    }
    Py_XDECREF(replace);
    Py_XDECREF(by);
    return shown;
}

static PyObject *from_utc(PyObject *self, PyObject *it)
{
    calendar_date_time utc;
    Zoning zoning;
    if (!take_shown(self, it, &utc, &zoning, true)) {
        return NULL;
    }
    if (is_date_time(it)) {
        return date_time_by_zone(Py_TYPE(it), self, utc);
    }
    Stretch at = *stretch_at(self, utc.seconds);
    return python_from_utc(it, at.offset, is_second_of_two(self, utc.seconds, at));
}

/* The offsets of a local time as durations. */
static PyObject *offsets(PyObject *self, PyObject *it)
{
    calendar_date_time moment;
    Zoning zoning;
    size_t length;
    if (!take_shown(self, it, &moment, &zoning, false)) {
        return NULL;
    }
    const uint8_t *bytes = bytes_of_zone(self, &length);
    calendar_offsets found = calendar_zone_offsets_of_local(bytes, length, moment.seconds);
    PyObject *all = PyTuple_New(found.count);
    for (uint32_t i = 0; all && i < found.count; i++) {
        PyObject *one = duration_of(duration_type, (calendar_duration){.seconds = i == 0 ? found.earlier : found.later});
        if (!one || PyTuple_SetItem(all, (Py_ssize_t)i, one) < 0) {
            Py_CLEAR(all);
        }
    }
    return all;
}

/* ---- as Python's objects do */

static PyObject *zone_key(PyObject *self, void *unused)
{
    PyObject *key = ((Zone *)self)->key;
    (void)unused;
    return Py_NewRef(key ? key : Py_None);
}

static bool is_of_file(PyObject *self)
{
    size_t length;
    const uint8_t *bytes = bytes_of_zone(self, &length);
    return length >= 4 && memcmp(bytes, "TZif", 4) == 0;
}

/* The text of the rule that the zone is. */
static PyObject *rule_of(PyObject *self)
{
    size_t length;
    const uint8_t *bytes = bytes_of_zone(self, &length);
    return PyUnicode_DecodeUTF8((const char *)bytes, (Py_ssize_t)length, "strict");
}

/* Whether the zone is the one that its name gives. */
static bool is_named(PyObject *self)
{
    PyObject *key = ((Zone *)self)->key;
    return key && PyDict_GetItemWithError(named_zones, key) == self;
}

static PyObject *zone_repr(PyObject *self)
{
    Zone *of = (Zone *)self;
    if (is_named(self)) {
        return PyUnicode_FromFormat("Zone(%R)", of->key);
    }
    if (is_of_file(self)) {
        return of->key ? PyUnicode_FromFormat("Zone.from_tzif(%R, key=%R)", of->bytes, of->key)
                       : PyUnicode_FromFormat("Zone.from_tzif(%R)", of->bytes);
    }
    PyObject *rule = rule_of(self);
    PyObject *text = rule ? PyUnicode_FromFormat("Zone.from_rule(%R)", rule) : NULL;
    Py_XDECREF(rule);
    return text;
}

static PyObject *zone_text(PyObject *self)
{
    Zone *of = (Zone *)self;
    if (of->key) {
        return Py_NewRef(of->key);
    }
    return is_of_file(self) ? PyUnicode_FromString("a TZif file") : rule_of(self);
}

static PyObject *zone_compare(PyObject *left, PyObject *right, int order)
{
    if (!is_zone(right) || (order != Py_EQ && order != Py_NE)) {
        Py_RETURN_NOTIMPLEMENTED;
    }
    const Zone *one = (Zone *)left, *other = (Zone *)right;
    int are_same = PyObject_RichCompareBool(one->bytes, other->bytes, Py_EQ);
    if (are_same == 1) {
        are_same = PyObject_RichCompareBool(one->key ? one->key : Py_None, other->key ? other->key : Py_None, Py_EQ);
    }
    return are_same < 0 ? NULL : PyBool_FromLong(are_same == (order == Py_EQ));
}

static Py_hash_t zone_hash(PyObject *self)
{
    return PyObject_Hash(((Zone *)self)->bytes);
}

static PyObject *zone_reduce(PyObject *self, PyObject *unused)
{
    Zone *of = (Zone *)self;
    (void)unused;
    if (is_named(self)) {
        return Py_BuildValue("(O(O))", (PyObject *)zone_type, of->key);
    }
    return Py_BuildValue("(N(OO))", PyObject_GetAttrString((PyObject *)zone_type, "_again"), of->bytes, of->key ? of->key : Py_None);
}

/* The zone that was pickled. */
static PyObject *again(PyObject *kind, PyObject *const *arguments, Py_ssize_t count)
{
    (void)kind;
    if (!has_arguments("_again", 2, count)) {
        return NULL;
    }
    return PyBytes_Check(arguments[0]) ? zone_of_bytes(arguments[0], NULL, arguments[1] == Py_None ? NULL : arguments[1])
                                       : refuse_type("the bytes of a zone", arguments[0]);
}

/* ---- the type */

static PyGetSetDef fields[] = {
    {"key", zone_key, NULL, "The name of the zone, or None.", NULL},
    {NULL, NULL, NULL, NULL, NULL},
};

static PyMethodDef methods[] = {
    {"from_rule", from_rule, METH_O | METH_CLASS,
     "from_rule($type, text, /)\n--\n\nReturns the zone of a POSIX rule. Raises TextError for a text that is none.\n\n"
     ">>> Zone.from_rule('JST-9').utcoffset(DateTime(2024, 2, 29))\ndatetime.timedelta(seconds=32400)"},
    {"from_tzif", METHOD(from_tzif), METH_FASTCALL | METH_KEYWORDS | METH_CLASS,
     "from_tzif($type, data, /, *, key=None)\n--\n\nReturns the zone of the bytes of a TZif file, under a name if one is given; ValueError if they are\n"
     "no such file."},
    {"utcoffset", utc_offset, METH_O,
     "utcoffset($self, moment, /)\n--\n\n"
     "Returns how far the clock is ahead of UTC where it shows a date-time, as a timedelta. Of two such instants, fold\n"
     "chooses. In a gap the offset is that from before it, or by fold=1 that from behind it."},
    {"dst", no_saving, METH_O, "dst($self, moment, /)\n--\n\nReturns None: the library does not tell summer time from other offsets."},
    {"tzname", tz_name, METH_O,
     "tzname($self, moment, /)\n--\n\nReturns the offset as a name, as datetime.timezone has it.\n\n"
     ">>> DateTime(2024, 7, 1, tzinfo=Zone('Europe/Berlin')).tzname()\n'UTC+02:00'"},
    {"fromutc", from_utc, METH_O,
     "fromutc($self, moment, /)\n--\n\nReturns what the clock shows where UTC shows a date-time, which has this zone."},
    {"offsets", offsets, METH_O,
     "offsets($self, moment, /)\n--\n\n"
     "Returns the offsets at all instants at which the clock shows a date-time, the earlier instant first, as a tuple.\n\n"
     ">>> berlin = Zone('Europe/Berlin')\n"
     ">>> [len(berlin.offsets(DateTime(2024, *day, 2, 30))) for day in ((3, 30), (3, 31), (10, 27))]\n[1, 0, 2]"},
    {"_again", METHOD(again), METH_FASTCALL | METH_CLASS, "_again($type, data, key, /)\n--\n\nThe zone that was pickled."},
    {"__reduce__", zone_reduce, METH_NOARGS, "__reduce__($self, /)\n--\n\nWhat pickle and copy keep."},
    {NULL, NULL, 0, NULL},
};

PyDoc_STRVAR(documentation,
"Zone(key)\n--\n\n"
"A time zone by its name, as a tzinfo whose offsets are those of the proved library.\n\n"
">>> berlin = Zone('Europe/Berlin')\n"
">>> print(DateTime.fromisoformat('2024-07-01T10:00:00Z').astimezone(berlin))\n2024-07-01T12:00:00+02:00\n\n"
"It serves DateTime, Schedule and datetime.datetime. It is read from where zoneinfo looks: PYTHONTZPATH, the system's files, and\n"
"the package tzdata. One name gives one object. There is a ValueError if no zone has the name.\n\n"
">>> Schedule('30 2 * * *').next_after(DateTime(2024, 3, 30, 12, tzinfo=berlin)).isoformat()\n'2024-03-31T03:00:00+02:00'");

static PyType_Slot slots[] = {
    {Py_tp_doc, (void *)documentation},
    {Py_tp_getset, fields},
    {Py_tp_methods, methods},
    SLOT(Py_tp_new, zone_new),
    SLOT(Py_tp_dealloc, zone_free),
    SLOT(Py_tp_richcompare, zone_compare),
    SLOT(Py_tp_hash, zone_hash),
    SLOT(Py_tp_str, zone_text),
    SLOT(Py_tp_repr, zone_repr),
    {0, NULL},
};

static PyType_Spec spec = {
    .name = "proved_calendar.Zone",
    .basicsize = sizeof(Zone),
    .flags = Py_TPFLAGS_DEFAULT | Py_TPFLAGS_IMMUTABLETYPE,
    .slots = slots,
};

bool make_zone_type(PyObject *module)
{
    named_zones = PyDict_New();
    zone_type = named_zones ? add_type_of(module, &spec, "Zone", tzinfo_type()) : NULL;
    return zone_type;
}
