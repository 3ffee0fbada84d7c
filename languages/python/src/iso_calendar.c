/* iso_calendar.c: the type IsoCalendarDate, a tuple of ISO year, week and weekday whose parts have names. */
#include "package.h"

static PyTypeObject *iso_calendar_type;

enum { YEAR, WEEK, WEEKDAY, FIELDS };

/* Whether a tuple of the class may be filled in place: from 3.14 on a tuple keeps its hash, which only its own maker prepares. */
static bool fills_in_place = true;

/* A tuple of the class of these parts, which it takes; each may be missing after an error. */
static PyObject *tuple_of(PyObject *parts[FIELDS])
{
    bool are_there = parts[YEAR] && parts[WEEK] && parts[WEEKDAY];
    PyObject *filled = NULL;
    if (are_there) {
        filled = fills_in_place ? PyType_GenericAlloc(iso_calendar_type, FIELDS) : PyTuple_New(FIELDS);
    }
    for (int i = 0; i < FIELDS; i++) {
        if (filled) {
            PyTuple_SetItem(filled, i, parts[i]);
        } else {
            Py_XDECREF(parts[i]);
        }
    }
    if (!filled || fills_in_place) {
        return filled;
    }
    PyObject *arguments = PyTuple_Pack(1, filled);
    PyObject *result = arguments ? FROM_SLOT(newfunc, iso_calendar_type, Py_tp_new)(iso_calendar_type, arguments, NULL) : NULL;
    Py_XDECREF(arguments);
    Py_DECREF(filled);
    return result;
}

PyObject *iso_calendar(int32_t number)
{
    PyObject *parts[FIELDS] = {
        PyLong_FromLong(calendar_iso_year(number)),
        PyLong_FromLong(calendar_iso_week(number)),
        weekday_member(calendar_weekday(number)),
    };
    return tuple_of(parts);
}

/* Finds out whether a tuple that is filled in place has the hash of a plain one; false after an error. */
static bool look_at_hashes(void)
{
    PyObject *parts[FIELDS] = {PyLong_FromLong(2024), PyLong_FromLong(9), PyLong_FromLong(4)};
    PyObject *filled = tuple_of(parts);
    PyObject *plain = Py_BuildValue("(iii)", 2024, 9, 4);
    bool are_made = filled && plain;
    fills_in_place = are_made && PyObject_Hash(filled) == PyObject_Hash(plain);
    Py_XDECREF(filled);
    Py_XDECREF(plain);
    return are_made;
}

/* A part of a tuple, which a user may have made of fewer. */
static PyObject *part(PyObject *self, Py_ssize_t place)
{
    PyObject *it = PyTuple_GetItem(self, place);
    Py_XINCREF(it);
    return it;
}

static PyObject *iso_year(PyObject *self, void *unused)
{
    (void)unused;
    return part(self, YEAR);
}

static PyObject *iso_week(PyObject *self, void *unused)
{
    (void)unused;
    return part(self, WEEK);
}

static PyObject *iso_weekday(PyObject *self, void *unused)
{
    (void)unused;
    return part(self, WEEKDAY);
}

static PyObject *iso_repr(PyObject *self)
{
    PyObject *parts[FIELDS];
    for (int i = 0; i < FIELDS; i++) {
        parts[i] = PyTuple_GetItem(self, i);
        if (!parts[i]) {
            return NULL;
        }
    }
    return PyUnicode_FromFormat("IsoCalendarDate(year=%S, week=%S, weekday=%S)", parts[YEAR], parts[WEEK], parts[WEEKDAY]);
}

/* It is pickled as a plain tuple, as that of datetime is. */
static PyObject *iso_reduce(PyObject *self, PyObject *unused)
{
    (void)unused;
    return Py_BuildValue("(O(N))", (PyObject *)&PyTuple_Type, PySequence_List(self));
}

static PyMethodDef methods[] = {
    {"__reduce__", iso_reduce, METH_NOARGS, "__reduce__($self, /)\n--\n\nWhat pickle and copy keep: a plain tuple."},
    {NULL, NULL, 0, NULL},
};

static PyGetSetDef fields[] = {
    {"year", iso_year, NULL, "The ISO year, which is that of the week's Thursday.", NULL},
    {"week", iso_week, NULL, "The week, from 1 to 53.", NULL},
    {"weekday", iso_weekday, NULL, "The Weekday.", NULL},
    {NULL, NULL, NULL, NULL, NULL},
};

static PyType_Slot slots[] = {
    {Py_tp_doc, (void *)"ISO year, week and weekday of a date, as a named tuple."},
    {Py_tp_getset, fields},
    {Py_tp_methods, methods},
    SLOT(Py_tp_repr, iso_repr),
    {0, NULL},
};

static PyType_Spec spec = {
    .name = "proved_calendar.IsoCalendarDate",
    .flags = Py_TPFLAGS_DEFAULT,
    .slots = slots,
};

bool make_iso_calendar_type(PyObject *module)
{
    PyObject *bases = PyTuple_Pack(1, (PyObject *)&PyTuple_Type);
    iso_calendar_type = bases ? (PyTypeObject *)PyType_FromSpecWithBases(&spec, bases) : NULL;
    Py_XDECREF(bases);
    return iso_calendar_type && look_at_hashes() && PyModule_AddObjectRef(module, "IsoCalendarDate", (PyObject *)iso_calendar_type) == 0;
}
