/* module.c: the module proved_calendar._calendar, and what is asked of years, months and weekdays alone. */
#include "package.h"

static PyObject *is_leap_year(PyObject *module, PyObject *it)
{
    int64_t year;
    (void)module;
    if (!read_whole(it, &year)) {
        return NULL;
    }
    if (!is_i32(year)) {
        refuse_part("year", year, "it is a number of at most 32 bits");
        return NULL;
    }
    return PyBool_FromLong(calendar_is_leap_year((int32_t)year));
}

static PyObject *days_in_month(PyObject *module, PyObject *const *arguments, Py_ssize_t count)
{
    int64_t year, month;
    (void)module;
    if (!has_arguments("days_in_month", 2, count) || !read_whole(arguments[0], &year) || !read_whole(arguments[1], &month)) {
        return NULL;
    }
    int32_t days = is_i32(year) && is_u32(month) ? calendar_days_in_month((int32_t)year, (uint32_t)month) : CALENDAR_NONE;
    if (days == CALENDAR_NONE) {
        refuse_month(year, month);
        return NULL;
    }
    return PyLong_FromLong(days);
}

static PyObject *days_until(PyObject *module, PyObject *const *arguments, Py_ssize_t count)
{
    uint8_t weekdays;
    uint32_t start;
    (void)module;
    if (!has_arguments("days_until", 2, count) || !read_weekdays(arguments[0], &weekdays) || !read_weekday(arguments[1], &start)) {
        return NULL;
    }
    return PyLong_FromLong(calendar_days_until(weekdays, start));
}

static PyMethodDef functions[] = {
    {"is_leap_year", is_leap_year, METH_O,
     "is_leap_year(year, /)\n--\n\nReturns whether a year has 366 days. The year can lie outside the calendar."},
    {"days_in_month", METHOD(days_in_month), METH_FASTCALL,
     "days_in_month(year, month, /)\n--\n\n"
     "Returns the days of a month from 1 to 12; ValueError if the month or year is out of range."},
    {"days_until", METHOD(days_until), METH_FASTCALL,
     "days_until(weekdays, start, /)\n--\n\n"
     "Returns the days from start to the next of the weekdays, 0 to 6; ValueError if weekdays is empty."},
    {"day_count", METHOD(day_count), METH_FASTCALL,
     "day_count(start, end, kind, /)\n--\n\n"
     "Returns the part of a year from one date to another, as an exact fraction; negative if end is the earlier.\n\n"
     "kind is 'actual_actual_isda', 'actual_360', 'actual_365_fixed', 'thirty_360' or 'thirty_e_360' (ISDA 2006, 4.16).\n\n"
     ">>> day_count(Date(2024, 1, 31), Date(2024, 2, 29), 'thirty_360')\nFraction(29, 360)"},
    {"easter", easter, METH_O,
     "easter(year, /)\n--\n\nReturns Easter Sunday of a year, as the Gregorian churches have it.\n\n"
     ">>> easter(2024)\nDate(2024, 3, 31)"},
    {"_fault_of_calendar", METHOD(calendar_fault_of_text), METH_FASTCALL, NULL},
    {"_zone_of_calendar", calendar_zone_of_text, METH_O, NULL},
    {"_instant_of_calendar", METHOD(calendar_instant_of_text), METH_FASTCALL, NULL},
    {"_is_instant_of_calendar", METHOD(calendar_text_has), METH_FASTCALL, NULL},
    {"_instants_of_calendar", METHOD(calendar_instants_of_text), METH_FASTCALL, NULL},
    {"_fault_of_timed_schedule", METHOD(fault_of_timed_schedule), METH_FASTCALL, NULL},
    {"_moment_of_timed_schedule", METHOD(moment_of_timed_schedule), METH_FASTCALL, NULL},
    {"_is_moment_of_timed_schedule", METHOD(is_moment_of_timed_schedule), METH_FASTCALL, NULL},
    {"extend", METHOD(extend), METH_FASTCALL,
     "extend(kind, name, member, /)\n--\n\nGives a type of this module a member that is written in Python."},
    {NULL, NULL, 0, NULL},
};

static struct PyModuleDef definition = {
    .m_base = PyModuleDef_HEAD_INIT,
    .m_name = "proved_calendar._calendar",
    .m_doc = "Dates, date-times, durations, schedules, rules and open days, by functions that are proved to return what counting gives.",
    /* (the types stand in variables of these files, so there is one of each in a process) */
    .m_size = -1,
    .m_methods = functions,
};

PyMODINIT_FUNC PyInit__calendar(void);

PyMODINIT_FUNC PyInit__calendar(void)
{
    PyObject *module = PyModule_Create(&definition);
    bool is_made = module && take_weekdays() && take_datetime() && make_iso_calendar_type(module)
        && make_date_type(module) && make_duration_type(module) && make_date_time_type(module)
        && make_zone_type(module) && make_pattern_type(module) && make_schedule_types(module) && make_rule_types(module) && make_business_type(module)
        && PyModule_AddStringConstant(module, "__version__", CALENDAR_VERSION) == 0;
    if (!is_made) {
        Py_CLEAR(module);
    }
    return module;
}
