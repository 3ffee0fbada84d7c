/* arguments.c: which argument goes to which parameter. */
#include "package.h"

/* Makes the names of the parameters texts of Python, once. */
static bool has_keys(Signature *to)
{
    for (Py_ssize_t i = 0; i < to->count && !to->keys[to->count - 1]; i++) {
        to->keys[i] = PyUnicode_InternFromString(to->names[i]);
        if (!to->keys[i]) {
            return false;
        }
    }
    return true;
}

/* The place of a parameter; -1 and a TypeError if there is none of this name. */
static Py_ssize_t place_of(Signature *to, PyObject *key)
{
    for (Py_ssize_t i = 0; i < to->count; i++) {
        if (to->keys[i] == key) {
            return i;
        }
    }
    for (Py_ssize_t i = 0; i < to->count; i++) {
        if (PyUnicode_Compare(to->keys[i], key) == 0) {
            return i;
        }
    }
    if (!PyErr_Occurred()) {
        PyErr_Format(PyExc_TypeError, "%s has no parameter %R", to->call, key);
    }
    return -1;
}

static bool take_keyword(Signature *to, PyObject *key, PyObject *argument, PyObject **parts)
{
    Py_ssize_t place = place_of(to, key);
    if (place < 0) {
        return false;
    }
    if (parts[place]) {
        PyErr_Format(PyExc_TypeError, "%s is given %s twice", to->call, to->names[place]);
        return false;
    }
    parts[place] = argument;
    return true;
}

/* Whether there is an argument for each parameter that needs one. */
static bool is_complete(const Signature *to, PyObject *const *parts)
{
    for (Py_ssize_t i = 0; i < to->needed; i++) {
        if (!parts[i]) {
            PyErr_Format(PyExc_TypeError, "%s needs %s", to->call, to->names[i]);
            return false;
        }
    }
    return true;
}

static bool fits(const Signature *to, Py_ssize_t count)
{
    if (count > to->places) {
        PyErr_Format(PyExc_TypeError, "%s takes at most %zd arguments by place, not %zd", to->call, to->places, count);
    }
    return count <= to->places;
}

bool take_tuple(Signature *to, PyObject *arguments, PyObject *keywords, PyObject **parts)
{
    Py_ssize_t count = PyTuple_Size(arguments), position = 0;
    PyObject *key, *argument;
    if (!fits(to, count)) {
        return false;
    }
    for (Py_ssize_t i = 0; i < to->count; i++) {
        parts[i] = i < count ? PyTuple_GetItem(arguments, i) : NULL;
    }
    if (keywords) {
        if (!has_keys(to)) {
            return false;
        }
        while (PyDict_Next(keywords, &position, &key, &argument)) {
            if (!take_keyword(to, key, argument, parts)) {
                return false;
            }
        }
    }
    return count == to->count || is_complete(to, parts);
}

bool take_array(Signature *to, PyObject *const *arguments, Py_ssize_t count, PyObject *keywords, PyObject **parts)
{
    if (!fits(to, count)) {
        return false;
    }
    for (Py_ssize_t i = 0; i < to->count; i++) {
        parts[i] = i < count ? arguments[i] : NULL;
    }
    if (keywords) {
        if (!has_keys(to)) {
            return false;
        }
        for (Py_ssize_t i = 0; i < PyTuple_Size(keywords); i++) {
            if (!take_keyword(to, PyTuple_GetItem(keywords, i), arguments[count + i], parts)) {
                return false;
            }
        }
    }
    return is_complete(to, parts);
}

bool has_arguments(const char *call, Py_ssize_t wanted, Py_ssize_t count)
{
    if (count != wanted) {
        PyErr_Format(PyExc_TypeError, "%s takes %zd arguments, not %zd", call, wanted, count);
    }
    return count == wanted;
}

PyObject *refuse_type(const char *wanted, PyObject *it)
{
    PyErr_Clear();
    PyObject *name = PyObject_GetAttrString((PyObject *)Py_TYPE(it), "__name__");
    if (name) {
        PyErr_Format(PyExc_TypeError, "%s is wanted, not %U", wanted, name);
        Py_DECREF(name);
    }
    return NULL;
}
