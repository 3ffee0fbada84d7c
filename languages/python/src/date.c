/* date.c: the type Date. */
#include "package.h"

PyTypeObject *date_type;
static Blocks kept;

static Signature of_name = {
    .call = "Date", .count = 3, .needed = 3, .places = 3, .names = {"year", "month", "day"},
};
static Signature of_replace = {
    .call = "replace", .count = 3, .needed = 0, .places = 3, .names = {"year", "month", "day"},
};
static Signature of_iso_week = {
    .call = "fromisocalendar", .count = 3, .needed = 3, .places = 3, .names = {"year", "week", "day"},
};

/* ---- dates by their numbers */

/* The number of a move's end; CALENDAR_NONE is beyond the calendar. */
static PyObject *reached(PyTypeObject *kind, int32_t number)
{
    if (number == CALENDAR_NONE) {
        PyErr_SetString(PyExc_OverflowError, "the date lies beyond the calendar");
        return NULL;
    }
    return date_of(kind, number);
}

/* An object for a date, with those of its fields that are known. */
static PyObject *new_date(PyTypeObject *kind, int32_t number, int32_t year, uint8_t month, uint8_t day)
{
    Date *self = (Date *)new_object(kind, date_type, &kept);
    if (self) {
        self->hash = -1;
        self->number = number;
        self->year = year;
        self->month = month;
        self->day = day;
    }
    return (PyObject *)self;
}

PyObject *date_of(PyTypeObject *kind, int32_t number)
{
    if (kind != date_type) {
        /* (a user's class makes its objects as it likes) */
        return PyObject_CallFunction((PyObject *)kind, "iii", (int)calendar_year(number), (int)calendar_month(number),
                                     (int)calendar_day(number));
    }
    return new_date(kind, number, CALENDAR_NONE, 0, 0);
}

/* ---- dates by their names */

int32_t number_of_name(int64_t year, int64_t month, int64_t day)
{
    int32_t number = CALENDAR_NONE;
    if (is_i32(year) && is_u32(month) && is_u32(day)) {
        number = calendar_from_ymd((int32_t)year, (uint32_t)month, (uint32_t)day);
    }
    if (number == CALENDAR_NONE) {
        refuse_name(year, month, day);
    }
    return number;
}

static PyObject *date_new(PyTypeObject *kind, PyObject *arguments, PyObject *keywords)
{
    PyObject *parts[PARTS], *made;
    int64_t year, month, day;
    if (is_made_of_state(kind, arguments, keywords, "date_of_state", &made)) {
        return made;
    }
    if (!take_tuple(&of_name, arguments, keywords, parts) || !read_whole(parts[0], &year) || !read_whole(parts[1], &month)
        || !read_whole(parts[2], &day)) {
        return NULL;
    }
    int32_t number = number_of_name(year, month, day);
    return number == CALENDAR_NONE ? NULL : new_date(kind, number, (int32_t)year, (uint8_t)month, (uint8_t)day);
}

static void date_free(PyObject *self)
{
    free_object(self, date_type, &kept);
}

static PyObject *from_number(PyObject *kind, PyObject *it)
{
    int64_t number;
    if (!read_whole(it, &number)) {
        return NULL;
    }
    if (number < CALENDAR_MIN || number > CALENDAR_MAX) {
        refuse_part("number", number, "dates are -95746129 to 95745399");
        return NULL;
    }
    return date_of((PyTypeObject *)kind, (int32_t)number);
}

static PyObject *from_day_of_year(PyObject *kind, PyObject *const *arguments, Py_ssize_t count)
{
    int64_t year, ordinal;
    if (!has_arguments("from_day_of_year", 2, count) || !read_whole(arguments[0], &year) || !read_whole(arguments[1], &ordinal)) {
        return NULL;
    }
    int32_t number = is_i32(year) && is_u32(ordinal) ? calendar_from_yo((int32_t)year, (uint32_t)ordinal) : CALENDAR_NONE;
    if (number == CALENDAR_NONE) {
        refuse_ordinal(year, ordinal);
        return NULL;
    }
    return date_of((PyTypeObject *)kind, number);
}

/* The date of an ISO year, a week and a weekday. */
static PyObject *date_of_iso_week(PyObject *kind, PyObject *const parts[3])
{
    int64_t year, week, weekday;
    int32_t number = CALENDAR_NONE;
    if (!read_whole(parts[0], &year) || !read_whole(parts[1], &week) || !read_whole(parts[2], &weekday)) {
        return NULL;
    }
    if (is_i32(year) && is_u32(week) && is_u32(weekday)) {
        number = calendar_from_isoywd((int32_t)year, (uint32_t)week, (uint32_t)weekday);
    }
    if (number == CALENDAR_NONE) {
        refuse_iso_week(year, week, weekday);
        return NULL;
    }
    return date_of((PyTypeObject *)kind, number);
}

static PyObject *from_iso_week(PyObject *kind, PyObject *const *arguments, Py_ssize_t count)
{
    return has_arguments("from_iso_week", 3, count) ? date_of_iso_week(kind, arguments) : NULL;
}

static PyObject *from_iso_calendar(PyObject *kind, PyObject *const *arguments, Py_ssize_t count, PyObject *keywords)
{
    PyObject *parts[PARTS];
    return take_array(&of_iso_week, arguments, count, keywords, parts) ? date_of_iso_week(kind, parts) : NULL;
}

static PyObject *from_weekday_of_month(PyObject *kind, PyObject *const *arguments, Py_ssize_t count)
{
    int64_t year, month, weekday, n;
    int32_t number = CALENDAR_NONE;
    if (!has_arguments("from_weekday_of_month", 4, count) || !read_whole(arguments[0], &year) || !read_whole(arguments[1], &month)
        || !read_whole(arguments[2], &weekday) || !read_whole(arguments[3], &n)) {
        return NULL;
    }
    if (is_i32(year) && is_u32(month) && is_u32(weekday) && is_u32(n)) {
        number = calendar_from_weekday_of_month((int32_t)year, (uint32_t)month, (uint32_t)weekday, (uint32_t)n);
    }
    if (number == CALENDAR_NONE) {
        refuse_weekday_of_month(year, month, weekday, n);
        return NULL;
    }
    return date_of((PyTypeObject *)kind, number);
}

static PyObject *from_date(PyObject *kind, PyObject *it)
{
    int32_t number;
    if (!is_python_date(it)) {
        return refuse_type("a datetime.date", it);
    }
    if (is_python_datetime(it)) {
        PyErr_SetString(PyExc_TypeError, "a datetime has a time of day: take its date(), or DateTime.from_datetime");
        return NULL;
    }
    return read_python_date(it, &number) ? date_of((PyTypeObject *)kind, number) : NULL;
}

bool take_date(PyObject *it, int32_t *number)
{
    if (is_date(it)) {
        *number = number_of(it);
        return true;
    }
    if (!is_python_date(it) || is_python_datetime(it)) {
        refuse_type("a Date or a datetime.date", it);
        return false;
    }
    return read_python_date(it, number);
}

bool read_name(int32_t number, PyObject *const parts[3], int64_t name[3])
{
    name[0] = calendar_year(number);
    name[1] = calendar_month(number);
    name[2] = calendar_day(number);
    for (int i = 0; i < 3; i++) {
        if (parts[i] && !read_whole(parts[i], &name[i])) {
            return false;
        }
    }
    return true;
}

static PyObject *date_replace(PyObject *self, PyObject *const *arguments, Py_ssize_t count, PyObject *keywords)
{
    PyObject *parts[PARTS];
    int64_t name[3];
    if (!take_array(&of_replace, arguments, count, keywords, parts) || !read_name(number_of(self), parts, name)) {
        return NULL;
    }
    int32_t number = number_of_name(name[0], name[1], name[2]);
    return number == CALENDAR_NONE ? NULL : date_of(Py_TYPE(self), number);
}

/* ---- what a date is called */

static PyObject *date_number(PyObject *self, void *unused)
{
    (void)unused;
    return PyLong_FromLong(number_of(self));
}

static PyObject *date_year(PyObject *self, void *unused)
{
    Date *date = (Date *)self;
    (void)unused;
    if (date->year == CALENDAR_NONE) {
        date->year = calendar_year(date->number);
    }
    return PyLong_FromLong(date->year);
}

static PyObject *date_month(PyObject *self, void *unused)
{
    Date *date = (Date *)self;
    (void)unused;
    if (date->month == 0) {
        date->month = (uint8_t)calendar_month(date->number);
    }
    return PyLong_FromLong(date->month);
}

static PyObject *date_day(PyObject *self, void *unused)
{
    Date *date = (Date *)self;
    (void)unused;
    if (date->day == 0) {
        date->day = (uint8_t)calendar_day(date->number);
    }
    return PyLong_FromLong(date->day);
}

static PyObject *date_ordinal(PyObject *self, void *unused)
{
    (void)unused;
    return PyLong_FromLong(calendar_ordinal(number_of(self)));
}

static PyObject *date_iso_year(PyObject *self, void *unused)
{
    (void)unused;
    return PyLong_FromLong(calendar_iso_year(number_of(self)));
}

static PyObject *date_iso_week(PyObject *self, void *unused)
{
    (void)unused;
    return PyLong_FromLong(calendar_iso_week(number_of(self)));
}

static PyObject *date_to_ordinal(PyObject *self, PyObject *unused)
{
    (void)unused;
    return PyLong_FromLong(number_of(self));
}

static PyObject *date_weekday(PyObject *self, PyObject *unused)
{
    (void)unused;
    return PyLong_FromLong(calendar_weekday(number_of(self)) - 1);
}

static PyObject *date_iso_weekday(PyObject *self, PyObject *unused)
{
    (void)unused;
    return weekday_member(calendar_weekday(number_of(self)));
}

static PyObject *date_iso_calendar(PyObject *self, PyObject *unused)
{
    (void)unused;
    return iso_calendar(number_of(self));
}

/* ---- moves and distances */

static PyObject *moved(PyObject *self, int64_t days)
{
    return reached(Py_TYPE(self), calendar_add_days(number_of(self), days));
}

/* The whole days of a duration or a timedelta, rounded down, as datetime moves a date by one. *is_one says whether it is either. */
static bool read_days(PyObject *it, int64_t *days, bool *is_one)
{
    enum { DAY = 86400 };
    calendar_duration length;
    if (!read_length(it, &length, is_one) || !*is_one) {
        return false;
    }
    *days = length.seconds / DAY - (length.seconds % DAY < 0);
    return true;
}

/* The date so many days on, or back if `forward` is -1; the days are a whole number, a Duration or a timedelta. */
static PyObject *moved_by(PyObject *self, PyObject *by, int forward)
{
    int64_t days;
    bool is_one;
    if (PyIndex_Check(by)) {
        if (!read_whole(by, &days)) {
            return NULL;
        }
    } else if (!read_days(by, &days, &is_one)) {
        if (is_one || PyErr_Occurred()) {
            return NULL;
        }
        Py_RETURN_NOTIMPLEMENTED;
    }
    /* (INT64_MIN days lead beyond the calendar either way) */
    return moved(self, forward < 0 && days != INT64_MIN ? -days : days);
}

static PyObject *date_add(PyObject *left, PyObject *right)
{
    return is_date(left) ? moved_by(left, right, 1) : moved_by(right, left, 1);
}

/* Whether it is a Date or a datetime.date, and no datetime.datetime. */
static bool is_day(PyObject *it)
{
    return is_date(it) || (is_python_date(it) && !is_python_datetime(it));
}

static PyObject *date_subtract(PyObject *left, PyObject *right)
{
    int32_t day, base;
    if (is_day(left) && is_day(right)) {
        return take_date(left, &day) && take_date(right, &base) ? PyLong_FromLong((long)day - base) : NULL;
    }
    if (!is_date(left)) {
        Py_RETURN_NOTIMPLEMENTED;
    }
    return moved_by(left, right, -1);
}

static PyObject *add_months(PyObject *self, PyObject *it)
{
    int64_t months;
    return read_whole(it, &months) ? reached(Py_TYPE(self), calendar_add_months(number_of(self), months)) : NULL;
}

static PyObject *every_months(PyObject *self, PyObject *const *arguments, Py_ssize_t count)
{
    int64_t months, index;
    if (!has_arguments("every_months", 2, count) || !read_whole(arguments[0], &months) || !read_whole(arguments[1], &index)) {
        return NULL;
    }
    if (index < 0) {
        PyErr_SetString(PyExc_ValueError, "the index is negative");
        return NULL;
    }
    if (months == 0 || index == 0) {
        return date_of(Py_TYPE(self), number_of(self));
    }
    bool fit = is_i32(months) && is_u32(index);
    int32_t number = fit ? calendar_every_months(number_of(self), (int32_t)months, (uint32_t)index) : CALENDAR_NONE;
    return reached(Py_TYPE(self), number);
}

static PyObject *years_since(PyObject *self, PyObject *base)
{
    if (!is_date(base)) {
        return refuse_type("a Date", base);
    }
    int32_t years = calendar_years_since(number_of(self), number_of(base));
    if (years == CALENDAR_NONE) {
        return PyErr_Format(PyExc_ValueError, "%S is later than %S", base, self);
    }
    return PyLong_FromLong(years);
}

static Signature of_week = {.call = "week_first_day", .count = 1, .needed = 0, .places = 1, .names = {"start"}};

static PyObject *week_first_day(PyObject *self, PyObject *const *arguments, Py_ssize_t count, PyObject *keywords)
{
    PyObject *parts[PARTS];
    uint32_t start = 1;
    if (!take_array(&of_week, arguments, count, keywords, parts) || (parts[0] && !read_weekday(parts[0], &start))) {
        return NULL;
    }
    return reached(Py_TYPE(self), calendar_week_first_day(number_of(self), start));
}

static PyObject *first_on(PyObject *self, PyObject *it)
{
    uint8_t weekdays;
    return read_weekdays(it, &weekdays) ? reached(Py_TYPE(self), calendar_first_on(number_of(self), weekdays)) : NULL;
}

/* ---- texts */

/* Room for the longest text of a date, such as -262143-01-01. */
enum { ROOM = 13 };

static PyObject *date_text(PyObject *self)
{
    uint8_t text[ROOM];
    int32_t length = calendar_write_date(number_of(self), text, ROOM);
    return PyUnicode_FromStringAndSize((const char *)text, length);
}

static PyObject *iso_format(PyObject *self, PyObject *unused)
{
    (void)unused;
    return date_text(self);
}

static PyObject *from_iso_format(PyObject *kind, PyObject *text)
{
    Py_ssize_t length;
    const char *bytes = PyUnicode_AsUTF8AndSize(text, &length);
    if (!bytes) {
        return PyUnicode_Check(text) ? NULL : refuse_type("a str", text);
    }
    int32_t number = calendar_read_date((const uint8_t *)bytes, (size_t)length);
    if (number != CALENDAR_NONE) {
        return date_of((PyTypeObject *)kind, number);
    }
    /* (a compact text or a week; None says that it is neither) */
    PyObject *date = by_python(TEXTS, "date_of_text", "(OO)", kind, text);
    if (date == Py_None) {
        Py_CLEAR(date);
        refuse_text(text, bytes, (size_t)length, "date");
    }
    return date;
}

static PyObject *date_repr(PyObject *self)
{
    PyObject *name = PyObject_GetAttrString((PyObject *)Py_TYPE(self), "__name__");
    int32_t number = number_of(self);
    if (!name) {
        return NULL;
    }
    PyObject *text = PyUnicode_FromFormat("%U(%d, %d, %d)", name, (int)calendar_year(number), (int)calendar_month(number),
                                          (int)calendar_day(number));
    Py_DECREF(name);
    return text;
}

/* ---- as Python's objects do */

static PyObject *date_compare(PyObject *left, PyObject *right, int order)
{
    int32_t number;
    if (is_date(right)) {
        Py_RETURN_RICHCOMPARE(number_of(left), number_of(right), order);
    }
    if (!is_python_date(right) || is_python_datetime(right)) {
        Py_RETURN_NOTIMPLEMENTED;
    }
    if (!read_python_date(right, &number)) {
        return NULL;
    }
    Py_RETURN_RICHCOMPARE(number_of(left), number, order);
}

static Py_hash_t date_hash(PyObject *self)
{
    Date *date = (Date *)self;
    if (date->hash == -1) {
        date->hash = has_python_date(date->number) ? hash_of_python_date(date->number) : hash_of(date->number, 0);
    }
    return date->hash;
}

static PyObject *to_date(PyObject *self, PyObject *unused)
{
    (void)unused;
    return python_date(number_of(self));
}

static PyObject *date_reduce(PyObject *self, PyObject *unused)
{
    int32_t number = number_of(self);
    (void)unused;
    PyObject *name = Py_BuildValue("(iii)", (int)calendar_year(number), (int)calendar_month(number), (int)calendar_day(number));
    return reduced(self, Py_NewRef((PyObject *)Py_TYPE(self)), name);
}

/* ---- the type */

static PyGetSetDef fields[] = {
    {"number", date_number, NULL, "The day number: 1 for 1 January of year 1, as toordinal returns.", NULL},
    {"year", date_year, NULL, "The year; 0 is the year before year 1.", NULL},
    {"month", date_month, NULL, "The month, from 1 for January to 12.", NULL},
    {"day", date_day, NULL, "The day of the month, from 1.", NULL},
    {"ordinal", date_ordinal, NULL, "The day of the year, from 1 to 366.", NULL},
    {"iso_year", date_iso_year, NULL, "The year of the ISO week, which is that of its Thursday.", NULL},
    {"iso_week", date_iso_week, NULL, "The ISO week, from 1 to 53.", NULL},
    {NULL, NULL, NULL, NULL, NULL},
};

static PyMethodDef methods[] = {
    {"from_number", from_number, METH_O | METH_CLASS,
     "from_number($type, number, /)\n--\n\nReturns the date with this day number; ValueError if there is none."},
    {"fromordinal", from_number, METH_O | METH_CLASS,
     "fromordinal($type, number, /)\n--\n\nThe same as from_number, by datetime's name."},
    {"from_day_of_year", METHOD(from_day_of_year), METH_FASTCALL | METH_CLASS,
     "from_day_of_year($type, year, ordinal, /)\n--\n\n"
     "Returns the date of a year and a day of it, from 1 to 366 (ISO 8601 ordinal date).\n\n"
     ">>> Date.from_day_of_year(2024, 60)\nDate(2024, 2, 29)"},
    {"from_iso_week", METHOD(from_iso_week), METH_FASTCALL | METH_CLASS,
     "from_iso_week($type, year, week, weekday, /)\n--\n\n"
     "Returns the date of an ISO year, a week from 1 to 53 and a weekday from 1 for Monday (ISO 8601 week date)."},
    {"fromisocalendar", METHOD(from_iso_calendar), METH_FASTCALL | METH_KEYWORDS | METH_CLASS,
     "fromisocalendar($type, /, year, week, day)\n--\n\nThe same as from_iso_week, by datetime's name."},
    {"from_weekday_of_month", METHOD(from_weekday_of_month), METH_FASTCALL | METH_CLASS,
     "from_weekday_of_month($type, year, month, weekday, n, /)\n--\n\n"
     "Returns the n-th such weekday of the month. For example, weekday 5 and n 3 is the third Friday."},
    {"from_date", from_date, METH_O | METH_CLASS, "from_date($type, date, /)\n--\n\nReturns the date equal to a datetime.date."},
    {"fromisoformat", from_iso_format, METH_O | METH_CLASS,
     "fromisoformat($type, text, /)\n--\n\n"
     "Returns the date with this text, as isoformat writes it. It also reads the compact text and ISO weeks.\n\n"
     ">>> Date.fromisoformat('20240229') == Date.fromisoformat('2024-W09-4') == Date(2024, 2, 29)\nTrue"},
    {"isoformat", iso_format, METH_NOARGS,
     "isoformat($self, /)\n--\n\n"
     "Returns the date as YYYY-MM-DD. A year below 0 or above 9999 has a sign and at least four digits."},
    {"isocalendar", date_iso_calendar, METH_NOARGS,
     "isocalendar($self, /)\n--\n\nReturns ISO year, week and weekday, as a named tuple."},
    {"weekday", date_weekday, METH_NOARGS,
     "weekday($self, /)\n--\n\nReturns the weekday as datetime counts it, from 0 for Monday to 6. isoweekday returns a Weekday."},
    {"isoweekday", date_iso_weekday, METH_NOARGS,
     "isoweekday($self, /)\n--\n\nReturns the Weekday, a number from 1 for Monday to 7."},
    {"toordinal", date_to_ordinal, METH_NOARGS, "toordinal($self, /)\n--\n\nReturns the day number: 1 for 1 January of year 1."},
    {"replace", METHOD(date_replace), METH_FASTCALL | METH_KEYWORDS,
     "replace($self, /, year=..., month=..., day=...)\n--\n\n"
     "Returns the date with these parts in place of its own; ValueError if it does not exist."},
    {"add_months", add_months, METH_O,
     "add_months($self, months, /)\n--\n\n"
     "Returns the date that many months later, or earlier if negative. If that month is too short, returns its last day.\n\n"
     ">>> Date(2024, 1, 31).add_months(1)\nDate(2024, 2, 29)"},
    {"every_months", METHOD(every_months), METH_FASTCALL,
     "every_months($self, months, index, /)\n--\n\n"
     "Returns the date index * months months later, in one move. So a 31st comes back after a shorter month.\n\n"
     ">>> Date(2024, 1, 31).every_months(1, 2)\nDate(2024, 3, 31)\n\n"
     "Raises ValueError if index is negative. If either number is 0, returns the same date."},
    {"years_since", years_since, METH_O,
     "years_since($self, base, /)\n--\n\n"
     "Returns the whole years since base, as for an age; ValueError if base is later."},
    {"week_first_day", METHOD(week_first_day), METH_FASTCALL | METH_KEYWORDS,
     "week_first_day($self, /, start=1)\n--\n\nReturns the first day of the date's week, for weeks that begin on start."},
    {"first_on", first_on, METH_O,
     "first_on($self, weekdays, /)\n--\n\n"
     "Returns the first date, from this one on, that has one of the weekdays; ValueError if weekdays is empty."},
    {"to_date", to_date, METH_NOARGS,
     "to_date($self, /)\n--\n\nReturns the same date as a datetime.date; OverflowError outside the years 1 to 9999."},
    {"__format__", formatted, METH_O,
     "__format__($self, format, /)\n--\n\n"
     "Formats the text: format(str(self), format). A format with a percent sign is one of strftime.\n\n"
     ">>> f'{Date(2024, 2, 29):>12} {Date(2024, 2, 29):%d/%m/%Y}'\n'  2024-02-29 29/02/2024'"},
    {"__reduce__", date_reduce, METH_NOARGS, "__reduce__($self, /)\n--\n\nWhat pickle and copy keep."},
    {NULL, NULL, 0, NULL},
};

PyDoc_STRVAR(documentation,
"Date(year, month, day)\n--\n\n"
"A date of the proleptic Gregorian calendar, from 1 January of year -262143 to 31 December of year 262142.\n\n"
">>> Date(2024, 2, 29) + 1\nDate(2024, 3, 1)\n\n"
"The year before year 1 is year 0 (ISO 8601). A date is one number, by which it is compared and hashed. Its text is\n"
"YYYY-MM-DD. In the years 1 to 9999 number, names and text are those of datetime.date. A Date is equal to the\n"
"datetime.date of the same day, with the same hash. A difference is a whole number of days, also from or to a datetime.date.\n\n"
"An invalid date raises ValueError, which names the part. A move outside the calendar raises OverflowError.\n"
"Patterns work: case Date(2024, month, day).");

static PyType_Slot slots[] = {
    {Py_tp_doc, (void *)documentation},
    {Py_tp_getset, fields},
    {Py_tp_methods, methods},
    SLOT(Py_tp_new, date_new),
    SLOT(Py_tp_dealloc, date_free),
    SLOT(Py_tp_richcompare, date_compare),
    SLOT(Py_tp_hash, date_hash),
    SLOT(Py_tp_str, date_text),
    SLOT(Py_tp_repr, date_repr),
    SLOT(Py_nb_add, date_add),
    SLOT(Py_nb_subtract, date_subtract),
    {0, NULL},
};

static PyType_Spec spec = {
    .name = "proved_calendar.Date",
    .basicsize = sizeof(Date),
    .flags = Py_TPFLAGS_DEFAULT | Py_TPFLAGS_BASETYPE | Py_TPFLAGS_IMMUTABLETYPE,
    .slots = slots,
};

/* Adds the first or the last date to the type. */
static bool add_end(const char *name, int32_t number)
{
    PyObject *date = date_of(date_type, number);
    bool is_added = date && set_on_type((PyObject *)date_type, name, date);
    Py_XDECREF(date);
    return is_added;
}

bool make_date_type(PyObject *module)
{
    date_type = add_type(module, &spec, "Date", "year month day");
    return date_type && add_end("MIN", CALENDAR_MIN) && add_end("MAX", CALENDAR_MAX);
}
