/* business.c: the type BusinessCalendar, which has open days, and day counts. */
#include "package.h"

#include <stdlib.h>
#include <string.h>

static PyTypeObject *business_type;

/* The years of which the holidays of a calendar are known. */
typedef struct {
    int32_t first, last;
} Years;

/* A weekend, a set of weekdays, the day numbers of holidays, which rise, and none of which lies on the weekend, and the years. */
typedef struct {
    PyObject_HEAD
    uint8_t weekend;
    size_t count;
    int32_t *holidays;
    Years years;
} BusinessCalendar;

enum { WEEKEND = 32 + 64 };

/* A list of holidays is that of all years, unless others are said. */
static const Years all_years = {INT32_MIN, INT32_MAX};

static Signature of_parts = {
    .call = "BusinessCalendar", .count = 4, .needed = 0, .places = 4, .names = {"holidays", "weekend", "first_year", "last_year"},
};
static Signature of_known = {
    .call = "known", .count = 4, .needed = 3, .places = 4, .names = {"name", "first_year", "last_year", "weekend"},
};
static Signature of_add = {.call = "add", .count = 2, .needed = 2, .places = 2, .names = {"date", "days"}};
static Signature of_between = {.call = "between", .count = 2, .needed = 2, .places = 2, .names = {"start", "end"}};
static Signature of_roll = {.call = "roll", .count = 2, .needed = 2, .places = 2, .names = {"date", "how"}};

static const char *const known_calendars[] = {
    [CALENDAR_US_FEDERAL] = "us_federal",
    [CALENDAR_TARGET] = "target",
    [CALENDAR_ENGLAND_AND_WALES] = "england_and_wales",
    [CALENDAR_FEDWIRE] = "fedwire",
    [CALENDAR_NYSE] = "nyse",
    [CALENDAR_GERMANY] = "germany",
    [CALENDAR_FRANCE] = "france",
    [CALENDAR_JAPAN] = "japan",
};
static const char *const rolls[] = {
    [CALENDAR_ROLL_UNADJUSTED] = "unadjusted",
    [CALENDAR_ROLL_FOLLOWING] = "following",
    [CALENDAR_ROLL_PRECEDING] = "preceding",
    [CALENDAR_ROLL_MODIFIED_FOLLOWING] = "modified_following",
    [CALENDAR_ROLL_MODIFIED_PRECEDING] = "modified_preceding",
    [CALENDAR_ROLL_NEAREST_ISDA] = "nearest_isda",
    [CALENDAR_ROLL_NEAREST_QUANTLIB] = "nearest_quantlib",
};
static const char *const day_counts[] = {
    [CALENDAR_ACTUAL_ACTUAL_ISDA] = "actual_actual_isda",
    [CALENDAR_ACTUAL_360] = "actual_360",
    [CALENDAR_ACTUAL_365_FIXED] = "actual_365_fixed",
    [CALENDAR_THIRTY_360] = "thirty_360",
    [CALENDAR_THIRTY_E_360] = "thirty_e_360",
};

/* Reads one of some words as its number; a ValueError if it is none of them. */
static bool read_word(PyObject *it, const char *what, const char *const *words, size_t count, uint32_t *number)
{
    if (!PyUnicode_Check(it)) {
        refuse_type("a str", it);
        return false;
    }
    for (size_t i = 0; i < count; i++) {
        if (PyUnicode_CompareWithASCIIString(it, words[i]) == 0) {
            *number = (uint32_t)i;
            return true;
        }
    }
    PyErr_Format(PyExc_ValueError, "there is no %s %R", what, it);
    return false;
}

#define READ_WORD(it, what, words, number) read_word(it, what, words, sizeof words / sizeof words[0], number)

/* ---- making */

static int by_number(const void *left, const void *right)
{
    int32_t one = *(const int32_t *)left, other = *(const int32_t *)right;
    return (one > other) - (one < other);
}

/* Sorts day numbers, and leaves out those that come twice or lie on the weekend; how many are left. */
static size_t tidied(int32_t *numbers, size_t count, uint8_t weekend)
{
    size_t left = 0;
    qsort(numbers, count, sizeof numbers[0], by_number);
    for (size_t i = 0; i < count; i++) {
        bool is_open = !(weekend >> (calendar_weekday(numbers[i]) - 1) & 1);
        if (is_open && (left == 0 || numbers[left - 1] != numbers[i])) {
            numbers[left++] = numbers[i];
        }
    }
    return left;
}

/* The day numbers of a list of dates, in memory that the caller frees; null if one is no date. */
static int32_t *numbers_of(PyObject *dates, size_t count)
{
    int32_t *numbers = PyMem_Malloc((count ? count : 1) * sizeof numbers[0]);
    if (!numbers) {
        PyErr_NoMemory();
        return NULL;
    }
    for (size_t i = 0; i < count; i++) {
        if (!take_date(PyList_GetItem(dates, (Py_ssize_t)i), &numbers[i])) {
            PyMem_Free(numbers);
            return NULL;
        }
    }
    return numbers;
}

/* The calendar of a weekend, of holidays, whose memory it takes, and of the years of which they are known. */
static PyObject *new_business(uint8_t weekend, int32_t *numbers, size_t count, Years years)
{
    BusinessCalendar *self = PyObject_New(BusinessCalendar, business_type);
    if (!self) {
        PyMem_Free(numbers);
        return NULL;
    }
    self->weekend = weekend;
    self->count = count;
    self->holidays = numbers;
    self->years = years;
    return (PyObject *)self;
}

/* The calendar of a weekend, of a list of dates and of the years of which they are all. */
static PyObject *business_of(uint8_t weekend, PyObject *dates, Years years)
{
    size_t count = (size_t)PyList_Size(dates);
    int32_t *numbers = numbers_of(dates, count);
    if (!numbers) {
        return NULL;
    }
    count = tidied(numbers, count, weekend);
    if (count > CALENDAR_MOST_HOLIDAYS) {
        PyMem_Free(numbers);
        return PyErr_Format(PyExc_ValueError, "%zu holidays: a calendar has at most %d", count, CALENDAR_MOST_HOLIDAYS);
    }
    return new_business(weekend, numbers, count, years);
}

/* Writes the holidays of a known calendar on the days of some years; how many there are, or CALENDAR_NONE. A day of the first days
 * of a year can be kept in the year before, so one year more is asked for. */
static int32_t known_holidays(uint32_t which, int32_t first, int32_t last, uint8_t weekend, int32_t *numbers)
{
    int32_t end = calendar_from_ymd(last, 12, 31), more = end == CALENDAR_MAX ? last : last + 1;
    int32_t count = end == CALENDAR_NONE || last < first
        ? CALENDAR_NONE : calendar_holidays_of(which, first, more, weekend, numbers, CALENDAR_MOST_HOLIDAYS);
    while (count > 0 && numbers[count - 1] > end) {
        count--;
    }
    return count;
}

static PyObject *business_known(PyObject *kind, PyObject *const *arguments, Py_ssize_t count, PyObject *keywords)
{
    PyObject *parts[PARTS];
    uint32_t which;
    int64_t first, last;
    uint8_t weekend = WEEKEND;
    (void)kind;
    if (!take_array(&of_known, arguments, count, keywords, parts) || !READ_WORD(parts[0], "known calendar", known_calendars, &which)
        || !read_whole(parts[1], &first) || !read_whole(parts[2], &last) || (parts[3] && !read_weekday_set(parts[3], &weekend))) {
        return NULL;
    }
    int32_t *numbers = PyMem_Malloc(CALENDAR_MOST_HOLIDAYS * sizeof numbers[0]);
    if (!numbers) {
        return PyErr_NoMemory();
    }
    bool are_years = is_i32(first) && is_i32(last);
    int32_t found = are_years ? known_holidays(which, (int32_t)first, (int32_t)last, weekend, numbers) : CALENDAR_NONE;
    if (found == CALENDAR_NONE) {
        PyMem_Free(numbers);
        return PyErr_Format(PyExc_ValueError, "years %S to %S: they have no holidays, or more than %d", parts[1], parts[2],
                            CALENDAR_MOST_HOLIDAYS);
    }
    int32_t begin = calendar_holidays_first_year(which);
    Years years = {first < begin ? begin : (int32_t)first, (int32_t)last};
    return new_business(weekend, numbers, (size_t)found, years);
}

PyObject *easter(PyObject *module, PyObject *it)
{
    int64_t year;
    (void)module;
    if (!read_whole(it, &year)) {
        return NULL;
    }
    int32_t number = is_i32(year) ? calendar_easter((int32_t)year) : CALENDAR_NONE;
    if (number == CALENDAR_NONE) {
        refuse_part("year", year, "the calendar has those from -262143 to 262142");
        return NULL;
    }
    return date_of(date_type, number);
}

/* Reads a year, if one is given. */
static bool read_year(PyObject *it, int32_t *year)
{
    int64_t number;
    if (!it || it == Py_None) {
        return true;
    }
    if (!read_whole(it, &number)) {
        return false;
    }
    if (calendar_days_in_month(is_i32(number) ? (int32_t)number : INT32_MAX, 1) == CALENDAR_NONE) {
        refuse_part("year", number, "the calendar has those from -262143 to 262142");
        return false;
    }
    *year = (int32_t)number;
    return true;
}

static PyObject *business_new(PyTypeObject *kind, PyObject *arguments, PyObject *keywords)
{
    PyObject *parts[PARTS];
    uint8_t weekend = WEEKEND;
    Years years = all_years;
    (void)kind;
    if (!take_tuple(&of_parts, arguments, keywords, parts) || (parts[1] && !read_weekday_set(parts[1], &weekend))
        || !read_year(parts[2], &years.first) || !read_year(parts[3], &years.last)) {
        return NULL;
    }
    PyObject *dates = parts[0] ? PySequence_List(parts[0]) : PyList_New(0);
    PyObject *self = dates ? business_of(weekend, dates, years) : NULL;
    Py_XDECREF(dates);
    return self;
}

static void business_free(PyObject *self)
{
    PyTypeObject *kind = Py_TYPE(self);
    PyMem_Free(((BusinessCalendar *)self)->holidays);
    PyObject_Free(self);
    Py_DECREF(kind);
}

/* ---- open days */

static bool has_years(const BusinessCalendar *of)
{
    return of->years.first != all_years.first || of->years.last != all_years.last;
}

/* A ValueError: an answer looks at a year of which the holidays are not known. */
static PyObject *refuse_years(const BusinessCalendar *of)
{
    Years years = of->years;
    if (years.first == all_years.first) {
        return PyErr_Format(PyExc_ValueError, "the holidays are known to %d alone, and another year is looked at", years.last);
    }
    if (years.last == all_years.last) {
        return PyErr_Format(PyExc_ValueError, "the holidays are known from %d alone, and another year is looked at", years.first);
    }
    return PyErr_Format(PyExc_ValueError, "the holidays are known from %d to %d alone, and another year is looked at", years.first, years.last);
}

static PyObject *is_open(PyObject *self, PyObject *it)
{
    BusinessCalendar *of = (BusinessCalendar *)self;
    int32_t date;
    if (!take_date(it, &date)) {
        return NULL;
    }
    int32_t open = calendar_is_open_day_within(of->weekend, of->holidays, of->count, of->years.first, of->years.last, date);
    return open == CALENDAR_NONE ? refuse_years(of) : PyBool_FromLong(open);
}

/* An open day; without one a ValueError if the calendar has years, or else an OverflowError. */
static PyObject *open_day(const BusinessCalendar *of, int32_t number)
{
    if (number != CALENDAR_NONE) {
        return date_of(date_type, number);
    }
    if (has_years(of)) {
        return refuse_years(of);
    }
    PyErr_SetString(PyExc_OverflowError, "there is no such open day in the calendar");
    return NULL;
}

static PyObject *add_open_days(PyObject *self, PyObject *const *arguments, Py_ssize_t count, PyObject *keywords)
{
    BusinessCalendar *of = (BusinessCalendar *)self;
    PyObject *parts[PARTS];
    int32_t date;
    int64_t days;
    if (!take_array(&of_add, arguments, count, keywords, parts) || !take_date(parts[0], &date) || !read_whole(parts[1], &days)) {
        return NULL;
    }
    Years years = of->years;
    return open_day(of, calendar_add_open_days_within(of->weekend, of->holidays, of->count, years.first, years.last, date, days));
}

static PyObject *between(PyObject *self, PyObject *const *arguments, Py_ssize_t count, PyObject *keywords)
{
    BusinessCalendar *of = (BusinessCalendar *)self;
    PyObject *parts[PARTS];
    int32_t start, end;
    if (!take_array(&of_between, arguments, count, keywords, parts) || !take_date(parts[0], &start) || !take_date(parts[1], &end)) {
        return NULL;
    }
    Years years = of->years;
    int64_t days = calendar_open_days_between_within(of->weekend, of->holidays, of->count, years.first, years.last, start, end);
    return days == INT64_MIN ? refuse_years(of) : PyLong_FromLongLong(days);
}

static PyObject *roll(PyObject *self, PyObject *const *arguments, Py_ssize_t count, PyObject *keywords)
{
    BusinessCalendar *of = (BusinessCalendar *)self;
    PyObject *parts[PARTS];
    int32_t date;
    uint32_t how;
    if (!take_array(&of_roll, arguments, count, keywords, parts) || !take_date(parts[0], &date)
        || !READ_WORD(parts[1], "roll", rolls, &how)) {
        return NULL;
    }
    Years years = of->years;
    /* (the nearest day of all is asked for without years, since these end with the calendar) */
    return open_day(of, has_years(of) ? calendar_roll_within(of->weekend, of->holidays, of->count, years.first, years.last, date, how)
                                      : calendar_roll(of->weekend, of->holidays, of->count, date, how));
}

/* ---- day counts */

static PyObject *fraction_of(calendar_fraction part)
{
    PyObject *module = PyImport_ImportModule("fractions");
    PyObject *result = module ? PyObject_CallMethod(module, "Fraction", "LL", (long long)part.numerator, (long long)part.denominator) : NULL;
    Py_XDECREF(module);
    return result;
}

PyObject *day_count(PyObject *module, PyObject *const *arguments, Py_ssize_t count)
{
    int32_t start, end;
    uint32_t kind;
    (void)module;
    if (!has_arguments("day_count", 3, count) || !take_date(arguments[0], &start) || !take_date(arguments[1], &end)
        || !READ_WORD(arguments[2], "day count", day_counts, &kind)) {
        return NULL;
    }
    return fraction_of(calendar_day_count(kind, start, end));
}

/* ---- as Python's objects do */

static PyObject *holidays(PyObject *self, void *unused)
{
    BusinessCalendar *of = (BusinessCalendar *)self;
    PyObject *dates = PyTuple_New((Py_ssize_t)of->count);
    (void)unused;
    for (size_t i = 0; dates && i < of->count; i++) {
        PyObject *date = date_of(date_type, of->holidays[i]);
        if (!date || PyTuple_SetItem(dates, (Py_ssize_t)i, date) < 0) {
            Py_CLEAR(dates);
        }
    }
    return dates;
}

static PyObject *weekend(PyObject *self, void *unused)
{
    PyObject *list = list_of_weekdays(((BusinessCalendar *)self)->weekend), *tuple = list ? PyList_AsTuple(list) : NULL;
    (void)unused;
    Py_XDECREF(list);
    return tuple;
}

/* A year that bounds what is known; None if it is the one that bounds nothing. */
static PyObject *year_or_none(int32_t year, int32_t none)
{
    return year == none ? Py_NewRef(Py_None) : PyLong_FromLong(year);
}

static PyObject *first_year(PyObject *self, void *unused)
{
    (void)unused;
    return year_or_none(((BusinessCalendar *)self)->years.first, all_years.first);
}

static PyObject *last_year(PyObject *self, void *unused)
{
    (void)unused;
    return year_or_none(((BusinessCalendar *)self)->years.last, all_years.last);
}

/* Appends an argument with its name to a text, and lets go of both; null if one is. */
static PyObject *with_argument(PyObject *text, const char *name, PyObject *value)
{
    PyObject *more = text && value ? PyUnicode_FromFormat("%U, %s=%R", text, name, value) : NULL;
    Py_XDECREF(text);
    Py_XDECREF(value);
    return more;
}

static PyObject *business_repr(PyObject *self)
{
    const BusinessCalendar *of = (BusinessCalendar *)self;
    PyObject *dates = holidays(self, NULL), *list = dates ? PySequence_List(dates) : NULL;
    PyObject *text = list ? PyUnicode_FromFormat("BusinessCalendar(%R", list) : NULL;
    if (of->weekend != WEEKEND) {
        text = with_argument(text, "weekend", list_of_weekdays(of->weekend));
    }
    if (of->years.first != all_years.first) {
        text = with_argument(text, "first_year", first_year(self, NULL));
    }
    if (of->years.last != all_years.last) {
        text = with_argument(text, "last_year", last_year(self, NULL));
    }
    PyObject *whole = text ? PyUnicode_FromFormat("%U)", text) : NULL;
    Py_XDECREF(dates);
    Py_XDECREF(list);
    Py_XDECREF(text);
    return whole;
}

static PyObject *business_compare(PyObject *left, PyObject *right, int order)
{
    if (!Py_IS_TYPE(right, business_type) || (order != Py_EQ && order != Py_NE)) {
        Py_RETURN_NOTIMPLEMENTED;
    }
    const BusinessCalendar *one = (BusinessCalendar *)left, *other = (BusinessCalendar *)right;
    bool are_same = one->weekend == other->weekend && one->count == other->count
        && one->years.first == other->years.first && one->years.last == other->years.last
        && memcmp(one->holidays, other->holidays, one->count * sizeof one->holidays[0]) == 0;
    return PyBool_FromLong(are_same == (order == Py_EQ));
}

static Py_hash_t business_hash(PyObject *self)
{
    const BusinessCalendar *of = (BusinessCalendar *)self;
    uint64_t hash = of->weekend;
    for (size_t i = 0; i < of->count; i++) {
        hash = (hash ^ (uint32_t)of->holidays[i]) * UINT64_C(0x9e3779b97f4a7c15);
        hash ^= hash >> 32;
    }
    return (Py_hash_t)hash == -1 ? -2 : (Py_hash_t)hash;
}

static PyObject *business_reduce(PyObject *self, PyObject *unused)
{
    (void)unused;
    return Py_BuildValue("(O(NNNN))", (PyObject *)business_type, holidays(self, NULL), weekend(self, NULL), first_year(self, NULL),
                         last_year(self, NULL));
}

/* ---- the type */

static PyGetSetDef fields[] = {
    {"holidays", holidays, NULL, "The holidays as a tuple of Dates, in order, without those on the weekend.", NULL},
    {"weekend", weekend, NULL, "The weekdays of the weekend as a tuple of numbers, from 1 for Monday to 7.", NULL},
    {"first_year", first_year, NULL, "The first year of which the holidays are known, or None.", NULL},
    {"last_year", last_year, NULL, "The last year of which the holidays are known, or None.", NULL},
    {NULL, NULL, NULL, NULL, NULL},
};

static PyMethodDef methods[] = {
    {"known", METHOD(business_known), METH_FASTCALL | METH_KEYWORDS | METH_CLASS,
     "known($type, /, name, first_year, last_year, weekend=(6, 7))\n--\n\n"
     "Returns the calendar with the holidays of some years by known rules. They begin in 1971 (us_federal, fedwire), 1978\n"
     "(england_and_wales), 1982 (france), 1995 (germany), 1998 (nyse), 1999 (target) and 2007 (japan). An answer that looks at\n"
     "a year before that, or at one that was not asked for, is a ValueError.\n\n"
     ">>> BusinessCalendar.known('target', 2024, 2024).add(Date(2024, 3, 28), 2)\nDate(2024, 4, 3)\n\n"
     "name is 'us_federal', 'target' (the euro's payment system), 'england_and_wales', 'fedwire', 'nyse' (the New York Stock\n"
     "Exchange), 'germany' (holidays of all its states), 'france' or 'japan' (its banks; with equinoxes up to 2099). Raises\n"
     "ValueError for more than 1,000 holidays."},
    {"is_open", is_open, METH_O,
     "is_open($self, date, /)\n--\n\nReturns whether a date is open: neither on the weekend nor a holiday."},
    {"add", METHOD(add_open_days), METH_FASTCALL | METH_KEYWORDS,
     "add($self, /, date, days)\n--\n\n"
     "Returns the open day that many open days after a date, or before it if negative.\n\n"
     ">>> BusinessCalendar([Date(2024, 3, 29), Date(2024, 4, 1)]).add(Date(2024, 3, 28), 2)\nDate(2024, 4, 3)\n\n"
     "From a closed day the next open day counts as the first. If days is 0, returns the first open day from the date on. Raises\n"
     "OverflowError if the calendar has no such day."},
    {"between", METHOD(between), METH_FASTCALL | METH_KEYWORDS,
     "between($self, /, start, end)\n--\n\n"
     "Returns how many days are open from start on and before end; negative if end is the earlier.\n\n"
     ">>> BusinessCalendar().between(Date(2024, 2, 1), Date(2024, 3, 1))\n21"},
    {"roll", METHOD(roll), METH_FASTCALL | METH_KEYWORDS,
     "roll($self, /, date, how)\n--\n\n"
     "Returns a date that is open, and for a closed one the open day that a rule leads to (ISDA 2006, 4.12).\n\n"
     ">>> BusinessCalendar([Date(2024, 3, 29)]).roll(Date(2024, 3, 31), 'modified_following')\nDate(2024, 3, 28)\n\n"
     "how is 'following', 'preceding', 'modified_following' or 'modified_preceding', which stay in the month, 'nearest_isda',\n"
     "'nearest_quantlib' or 'unadjusted'. Raises OverflowError if the calendar has no such day."},
    {"__reduce__", business_reduce, METH_NOARGS, "__reduce__($self, /)\n--\n\nWhat pickle and copy keep."},
    {NULL, NULL, 0, NULL},
};

PyDoc_STRVAR(documentation,
"BusinessCalendar(holidays=(), weekend=(6, 7), first_year=None, last_year=None)\n--\n\n"
"Open days: those that are neither on the weekend nor a holiday.\n\n"
">>> BusinessCalendar([Date(2024, 3, 29)]).is_open(Date(2024, 3, 29))\nFalse\n\n"
"holidays are at most 1,000 dates in any order. Those on the weekend and those that come twice are left out. weekend are weekdays,\n"
"from 1 for Monday. Each date can be a datetime.date too. If the holidays are those of some years alone, first_year and last_year say\n"
"so, and an answer that looks at another year is a ValueError.");

static PyType_Slot slots[] = {
    {Py_tp_doc, (void *)documentation},
    {Py_tp_getset, fields},
    {Py_tp_methods, methods},
    SLOT(Py_tp_new, business_new),
    SLOT(Py_tp_dealloc, business_free),
    SLOT(Py_tp_richcompare, business_compare),
    SLOT(Py_tp_hash, business_hash),
    SLOT(Py_tp_repr, business_repr),
    {0, NULL},
};

static PyType_Spec spec = {
    .name = "proved_calendar.BusinessCalendar",
    .basicsize = sizeof(BusinessCalendar),
    .flags = Py_TPFLAGS_DEFAULT | Py_TPFLAGS_IMMUTABLETYPE,
    .slots = slots,
};

bool make_business_type(PyObject *module)
{
    business_type = add_type(module, &spec, "BusinessCalendar", NULL);
    return business_type;
}
