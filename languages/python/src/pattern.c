/* pattern.c: the type Pattern, which writes and reads dates and date-times by the specifiers of chrono's format. */
#include "package.h"

#include <string.h>

static PyTypeObject *pattern_type;

/* A pattern by its text, which stays as long as the object for it. */
typedef struct {
    PyObject_HEAD
    PyObject *text;
    const uint8_t *bytes;
    size_t length;
    /* Whether its texts have an offset from UTC. */
    bool has_offset;
} Pattern;

/* The longest text that the library writes. */
enum { LONGEST = 1000 };

static Signature of_pattern = {.call = "Pattern", .count = 1, .needed = 1, .places = 1, .names = {"text"}};

/* ---- making */

/* What is wrong, by the codes of calendar_layers.h from 1 on. */
static const char *const faults[] = {
    "no such specifier",
    "the pattern ends within a specifier",
    "the text ends before its pattern",
    "the text goes on behind its pattern",
    "not of the pattern",
    "a number that is out of range",
    "no such day or time",
    "too few fields for a day or a time",
};

static PyObject *refuse_by_pattern(PyObject *text, const calendar_fault *fault)
{
    const char *said = faults[fault->code - 1];
    return refuse_bytes(text, (const uint8_t *)said, (int32_t)strlen(said), fault->byte, fault->end);
}

/* The bytes of a text; null with an error if it is none. */
static const uint8_t *bytes_of(PyObject *text, size_t *length)
{
    Py_ssize_t count;
    const char *bytes = PyUnicode_AsUTF8AndSize(text, &count);
    if (!bytes && !PyUnicode_Check(text)) {
        refuse_type("a str", text);
    }
    *length = bytes ? (size_t)count : 0;
    return (const uint8_t *)bytes;
}

static PyObject *pattern_new(PyTypeObject *kind, PyObject *arguments, PyObject *keywords)
{
    PyObject *parts[PARTS];
    size_t length;
    calendar_fault fault;
    (void)kind;
    if (!take_tuple(&of_pattern, arguments, keywords, parts)) {
        return NULL;
    }
    const uint8_t *bytes = bytes_of(parts[0], &length);
    if (!bytes) {
        return NULL;
    }
    if (!calendar_pattern_check(bytes, length, &fault)) {
        return refuse_by_pattern(parts[0], &fault);
    }
    Pattern *self = PyObject_New(Pattern, pattern_type);
    if (self) {
        self->text = Py_NewRef(parts[0]);
        self->bytes = bytes;
        self->length = length;
        self->has_offset = calendar_pattern_names_offset(bytes, length);
    }
    return (PyObject *)self;
}

static void pattern_free(PyObject *self)
{
    PyTypeObject *kind = Py_TYPE(self);
    Py_DECREF(((Pattern *)self)->text);
    PyObject_Free(self);
    Py_DECREF(kind);
}

/* ---- writing */

static PyObject *format(PyObject *self, PyObject *value)
{
    const Pattern *of = (Pattern *)self;
    uint8_t text[LONGEST];
    calendar_date_time moment;
    int32_t number, length;
    if (is_date_time(value) || is_python_datetime(value)) {
        if (!take_moment(value, &moment)) {
            return NULL;
        }
        length = calendar_format_date_time(of->bytes, of->length, moment, text, LONGEST);
    } else {
        if (!take_date(value, &number)) {
            return NULL;
        }
        length = calendar_format_date(of->bytes, of->length, number, text, LONGEST);
    }
    if (length == CALENDAR_NONE) {
        PyErr_Format(PyExc_ValueError, "%R asks for what %S lacks, or writes more than 1,000 bytes", of->text, value);
        return NULL;
    }
    return PyUnicode_DecodeUTF8((const char *)text, length, "strict");
}

/* ---- reading */

/* Reads the bytes of a text by a pattern; null without an error if fault says what is wrong. */
typedef PyObject *Reader(const Pattern *of, const uint8_t *bytes, size_t length, calendar_fault *fault);

static PyObject *read_date(const Pattern *of, const uint8_t *bytes, size_t length, calendar_fault *fault)
{
    int32_t number = calendar_parse_date(of->bytes, of->length, bytes, length, fault);
    return number == CALENDAR_NONE ? NULL : date_of(date_type, number);
}

/* The date-time in the zone of the text's offset. */
static PyObject *read_zoned(const Pattern *of, const uint8_t *bytes, size_t length, calendar_fault *fault)
{
    calendar_zoned zoned = calendar_parse_zoned(of->bytes, of->length, bytes, length, fault);
    calendar_date_time local = {.seconds = zoned.seconds, .nanos = zoned.nanos};
    if (zoned.nanos == CALENDAR_NO_NANOS) {
        return NULL;
    }
    return by_python(ZONED, "at_offset", "(Ni)", date_time_of(date_time_type, local), (int)zoned.offset);
}

static PyObject *read_date_time(const Pattern *of, const uint8_t *bytes, size_t length, calendar_fault *fault)
{
    if (of->has_offset) {
        return read_zoned(of, bytes, length, fault);
    }
    calendar_date_time moment = calendar_parse_date_time(of->bytes, of->length, bytes, length, fault);
    return moment.nanos == CALENDAR_NO_NANOS ? NULL : date_time_of(date_time_type, moment);
}

static PyObject *parsed(PyObject *self, PyObject *text, Reader *read)
{
    calendar_fault fault;
    size_t length;
    const uint8_t *bytes = bytes_of(text, &length);
    PyObject *value = bytes ? read((Pattern *)self, bytes, length, &fault) : NULL;
    return value || PyErr_Occurred() ? value : refuse_by_pattern(text, &fault);
}

static PyObject *parse_date(PyObject *self, PyObject *text)
{
    return parsed(self, text, read_date);
}

static PyObject *parse_date_time(PyObject *self, PyObject *text)
{
    return parsed(self, text, read_date_time);
}

/* ---- as Python's objects do */

static PyObject *pattern_text(PyObject *self)
{
    return Py_NewRef(((Pattern *)self)->text);
}

static PyObject *pattern_text_field(PyObject *self, void *unused)
{
    (void)unused;
    return pattern_text(self);
}

static PyObject *pattern_repr(PyObject *self)
{
    return PyUnicode_FromFormat("Pattern(%R)", ((Pattern *)self)->text);
}

static PyObject *pattern_compare(PyObject *left, PyObject *right, int order)
{
    if (!Py_IS_TYPE(right, pattern_type) || (order != Py_EQ && order != Py_NE)) {
        Py_RETURN_NOTIMPLEMENTED;
    }
    return PyObject_RichCompare(((Pattern *)left)->text, ((Pattern *)right)->text, order);
}

static Py_hash_t pattern_hash(PyObject *self)
{
    return PyObject_Hash(((Pattern *)self)->text);
}

static PyObject *pattern_reduce(PyObject *self, PyObject *unused)
{
    (void)unused;
    return Py_BuildValue("(O(O))", (PyObject *)pattern_type, ((Pattern *)self)->text);
}

/* ---- the type */

static PyGetSetDef fields[] = {
    {"text", pattern_text_field, NULL, "The text of the pattern.", NULL},
    {NULL, NULL, NULL, NULL, NULL},
};

static PyMethodDef methods[] = {
    {"format", format, METH_O,
     "format($self, value, /)\n--\n\nReturns the text of a date or a date-time. Raises ValueError if the pattern asks for what the value\n"
     "lacks: a date lacks a time, and both lack an offset.\n\n"
     ">>> Pattern('%-d %b %Y').format(Date(2024, 2, 29))\n'29 Feb 2024'"},
    {"parse_date", parse_date, METH_O,
     "parse_date($self, text, /)\n--\n\nReturns the date of a text, which beside an offset is the local one. Raises TextError if there is none.\n\n"
     ">>> Pattern('%d.%m.%y').parse_date('29.2.24')\nDate(2024, 2, 29)"},
    {"parse_date_time", parse_date_time, METH_O,
     "parse_date_time($self, text, /)\n--\n\nReturns the date-time of a text. An offset gives a datetime.timezone. Raises TextError if there is none.\n\n"
     ">>> print(Pattern('%F %R').parse_date_time('2024-02-29 12:30'))\n2024-02-29T12:30:00\n\n"
     ">>> print(Pattern('%F %R %z').parse_date_time('2024-02-29 12:30 +0100'))\n2024-02-29T12:30:00+01:00"},
    {"__reduce__", pattern_reduce, METH_NOARGS, "__reduce__($self, /)\n--\n\nWhat pickle and copy keep."},
    {NULL, NULL, 0, NULL},
};

PyDoc_STRVAR(documentation,
"Pattern(text)\n--\n\n"
"A pattern that writes and reads dates and date-times, by the proved library and in English.\n\n"
">>> pattern = Pattern('%d.%m.%Y')\n"
">>> pattern.format(Date(2024, 2, 29)), pattern.parse_date('29.02.2024')\n"
"('29.02.2024', Date(2024, 2, 29))\n\n"
"The specifiers are those of chrono's format. What is no specifier is written as it is. A wrong pattern or text raises TextError,\n"
"a ValueError with start and end.\n\n"
">>> pattern.parse_date('29.13.2024')\n"
"Traceback (most recent call last):\n"
"proved_calendar.TextError: a number that is out of range");

static PyType_Slot slots[] = {
    {Py_tp_doc, (void *)documentation},
    {Py_tp_methods, methods},
    {Py_tp_getset, fields},
    SLOT(Py_tp_new, pattern_new),
    SLOT(Py_tp_dealloc, pattern_free),
    SLOT(Py_tp_richcompare, pattern_compare),
    SLOT(Py_tp_hash, pattern_hash),
    SLOT(Py_tp_str, pattern_text),
    SLOT(Py_tp_repr, pattern_repr),
    {0, NULL},
};

static PyType_Spec spec = {
    .name = "proved_calendar.Pattern",
    .basicsize = sizeof(Pattern),
    .flags = Py_TPFLAGS_DEFAULT | Py_TPFLAGS_IMMUTABLETYPE,
    .slots = slots,
};

bool make_pattern_type(PyObject *module)
{
    pattern_type = add_type(module, &spec, "Pattern", NULL);
    return pattern_type;
}
