/* objects.c: how types are added, and objects pickled and formatted, whatever their type. */
#include "package.h"

#include <stdarg.h>
#include <string.h>

/* The names of a pattern, which are given with a space between, as a tuple. */
static PyObject *names_of_pattern(const char *names)
{
    PyObject *text = PyUnicode_FromString(names);
    PyObject *list = text ? PyUnicode_Split(text, NULL, -1) : NULL;
    PyObject *tuple = list ? PyList_AsTuple(list) : NULL;
    Py_XDECREF(text);
    Py_XDECREF(list);
    return tuple;
}

bool set_on_type(PyObject *type, const char *name, PyObject *value)
{
    PyObject *key = PyUnicode_InternFromString(name);
    bool is_set = key && PyObject_GenericSetAttr(type, key, value) == 0;
    Py_XDECREF(key);
    PyType_Modified((PyTypeObject *)type);
    return is_set;
}

PyObject *extend(PyObject *module, PyObject *const *arguments, Py_ssize_t count)
{
    (void)module;
    if (!has_arguments("extend", 3, count)) {
        return NULL;
    }
    PyTypeObject *type = (PyTypeObject *)arguments[0];
    if (type != date_type && type != date_time_type && type != duration_type) {
        return refuse_type("a type of this module", arguments[0]);
    }
    const char *name = PyUnicode_AsUTF8AndSize(arguments[1], NULL);
    if (!name || !set_on_type(arguments[0], name, arguments[2])) {
        return NULL;
    }
    Py_RETURN_NONE;
}

PyObject *by_python(const char *module_name, const char *name, const char *format, ...)
{
    va_list values;
    va_start(values, format);
    PyObject *arguments = Py_VaBuildValue(format, values);
    va_end(values);
    PyObject *module = arguments ? PyImport_ImportModule(module_name) : NULL;
    PyObject *function = module ? PyObject_GetAttrString(module, name) : NULL;
    PyObject *result = function ? PyObject_Call(function, arguments, NULL) : NULL;
    Py_XDECREF(function);
    Py_XDECREF(module);
    Py_XDECREF(arguments);
    return result;
}

/* A type that was just made as a member of the module; null if that fails. */
static PyTypeObject *added(PyObject *module, PyObject *type, const char *name)
{
    if (type && PyModule_AddObjectRef(module, name, type) < 0) {
        Py_CLEAR(type);
    }
    return (PyTypeObject *)type;
}

PyTypeObject *add_type(PyObject *module, PyType_Spec *spec, const char *name, const char *match_args)
{
    PyObject *type = PyType_FromSpec(spec);
    if (type && match_args) {
        PyObject *names = names_of_pattern(match_args);
        if (!names || !set_on_type(type, "__match_args__", names)) {
            Py_CLEAR(type);
        }
        Py_XDECREF(names);
    }
    return added(module, type, name);
}

PyTypeObject *add_type_of(PyObject *module, PyType_Spec *spec, const char *name, PyObject *base)
{
    PyObject *bases = PyTuple_Pack(1, base);
    PyObject *type = bases ? PyType_FromSpecWithBases(spec, bases) : NULL;
    Py_XDECREF(bases);
    return added(module, type, name);
}

/* What a user's class gave an object, as `__getstate__` has it, or before Python 3.11 its attributes; null and no error if nothing. */
static PyObject *attributes_of(PyObject *self)
{
    PyObject *own = PyObject_GetAttrString(self, "__getstate__"), *state;
    if (own) {
        state = PyObject_CallNoArgs(own);
        Py_DECREF(own);
    } else if (PyErr_ExceptionMatches(PyExc_AttributeError)) {
        PyErr_Clear();
        state = PyObject_GetAttrString(self, "__dict__");
        if (!state && PyErr_ExceptionMatches(PyExc_AttributeError)) {
            PyErr_Clear();
        }
        if (state && PyObject_Size(state) <= 0) {
            Py_CLEAR(state);
        }
    } else {
        return NULL;
    }
    if (state == Py_None) {
        Py_CLEAR(state);
    }
    return state;
}

PyObject *reduced(PyObject *self, PyObject *maker, PyObject *arguments)
{
    PyObject *attributes = maker && arguments ? attributes_of(self) : NULL;
    PyObject *result = NULL;
    if (attributes) {
        result = PyTuple_Pack(3, maker, arguments, attributes);
    } else if (!PyErr_Occurred()) {
        result = PyTuple_Pack(2, maker, arguments);
    }
    Py_XDECREF(attributes);
    Py_XDECREF(maker);
    Py_XDECREF(arguments);
    return result;
}

bool is_made_of_state(PyTypeObject *kind, PyObject *arguments, PyObject *keywords, const char *name, PyObject **made)
{
    bool has_keywords = keywords && PyDict_Size(keywords) > 0;
    PyObject *first = PyTuple_Size(arguments) > 0 && !has_keywords ? PyTuple_GetItem(arguments, 0) : NULL;
    if (!first || !(PyBytes_Check(first) || PyUnicode_Check(first))) {
        return false;
    }
    *made = by_python(TEXTS, name, "(OO)", (PyObject *)kind, arguments);
    if (*made == Py_None) {
        Py_CLEAR(*made);
        return false;
    }
    return true;
}

/* Whether a format has a percent sign; -1 with an error if it is no text. */
static int has_percent(PyObject *format)
{
    if (!PyUnicode_Check(format)) {
        PyObject *name = PyObject_GetAttrString((PyObject *)Py_TYPE(format), "__name__");
        if (name) {
            PyErr_Format(PyExc_TypeError, "a format must be str, not %U", name);
            Py_DECREF(name);
        }
        return -1;
    }
    return PyUnicode_FindChar(format, '%', 0, PyUnicode_GetLength(format), 1) >= 0;
}

PyObject *formatted(PyObject *self, PyObject *format)
{
    int is_pattern = has_percent(format);
    if (is_pattern < 0) {
        return NULL;
    }
    if (is_pattern && is_duration(self)) {
        PyErr_SetString(PyExc_ValueError, "a duration has no strftime: its format is that of a text, such as '>12'");
        return NULL;
    }
    if (is_pattern) {
        return PyObject_CallMethod(self, "strftime", "(O)", format);
    }
    PyObject *shown = PyObject_Str(self);
    PyObject *result = shown ? PyObject_Format(shown, format) : NULL;
    Py_XDECREF(shown);
    return result;
}
