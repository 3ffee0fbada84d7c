/* weekday.c: the members of the class Weekday, which Python's enum makes, and sets of them. */
#include "package.h"

enum { MONDAY = 1, SUNDAY = 7 };

static PyObject *members[SUNDAY + 1];

bool take_weekdays(void)
{
    PyObject *module = PyImport_ImportModule("proved_calendar.weekday");
    PyObject *kind = module ? PyObject_GetAttrString(module, "Weekday") : NULL;
    bool is_taken = kind;
    for (int i = MONDAY; is_taken && i <= SUNDAY; i++) {
        members[i] = PyObject_CallFunction(kind, "i", i);
        is_taken = members[i];
    }
    Py_XDECREF(module);
    Py_XDECREF(kind);
    return is_taken;
}

PyObject *weekday_member(int32_t weekday)
{
    Py_INCREF(members[weekday]);
    return members[weekday];
}

bool read_weekday(PyObject *it, uint32_t *weekday)
{
    int64_t number;
    if (!read_whole(it, &number)) {
        return false;
    }
    if (number < MONDAY || number > SUNDAY) {
        refuse_part("weekday", number, "weekdays are 1 for Monday to 7 for Sunday");
        return false;
    }
    *weekday = (uint32_t)number;
    return true;
}

bool read_weekday_set(PyObject *it, uint8_t *weekdays)
{
    PyObject *iterator = PyObject_GetIter(it), *item;
    *weekdays = 0;
    while (iterator && (item = PyIter_Next(iterator))) {
        uint32_t weekday;
        bool is_read = read_weekday(item, &weekday);
        Py_DECREF(item);
        if (!is_read) {
            break;
        }
        *weekdays |= (uint8_t)(1 << (weekday - 1));
    }
    Py_XDECREF(iterator);
    return !PyErr_Occurred();
}

bool read_weekdays(PyObject *it, uint8_t *weekdays)
{
    if (!read_weekday_set(it, weekdays)) {
        return false;
    }
    if (*weekdays == 0) {
        PyErr_SetString(PyExc_ValueError, "no weekday is given");
    }
    return *weekdays != 0;
}

PyObject *list_of_weekdays(uint8_t weekdays)
{
    PyObject *list = PyList_New(0);
    for (int i = MONDAY; list && i <= SUNDAY; i++) {
        PyObject *number = weekdays >> (i - 1) & 1 ? PyLong_FromLong(i) : NULL;
        if (PyErr_Occurred() || (number && PyList_Append(list, number) < 0)) {
            Py_CLEAR(list);
        }
        Py_XDECREF(number);
    }
    return list;
}
