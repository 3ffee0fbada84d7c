/* duration.c: the type Duration. */
#include "package.h"

PyTypeObject *duration_type;
static Blocks kept;

enum { SECOND = 1000000000, MICROSECOND = 1000, DAY = 86400 };

/* The parts: by place they stand as those of timedelta. */
enum { LENGTHS = 8 };

static Signature of_parts = {
    .call = "Duration", .count = LENGTHS, .needed = 0, .places = 7,
    .names = {"days", "seconds", "microseconds", "milliseconds", "minutes", "hours", "weeks", "nanoseconds"},
};

/* Each part in seconds, or 0 and in nanoseconds. */
static const struct {
    int64_t seconds, nanoseconds;
} units[LENGTHS] = {{DAY, 0}, {1, 0}, {0, MICROSECOND}, {0, 1000000}, {60, 0}, {3600, 0}, {7 * DAY, 0}, {0, 1}};

/* ---- lengths */

/* Fields from seconds and nanoseconds of any sign. */
static calendar_duration length_from(int64_t seconds, int64_t nanoseconds)
{
    int64_t rest = nanoseconds % SECOND;
    return (calendar_duration){
        .seconds = seconds + nanoseconds / SECOND - (rest < 0),
        .nanos = (uint32_t)(rest < 0 ? rest + SECOND : rest),
    };
}

/* Whether fields are those of a duration, which has at most INT64_MAX milliseconds either way; an OverflowError if not. */
static bool is_length(calendar_duration length)
{
    const int64_t whole = INT64_MAX / 1000;
    const uint32_t part = INT64_MAX % 1000 * 1000000;
    bool is_long = length.seconds > whole || (length.seconds == whole && length.nanos > part);
    bool is_long_back = length.seconds < -whole - 1 || (length.seconds == -whole - 1 && length.nanos < SECOND - part);
    if (is_long || is_long_back) {
        PyErr_SetString(PyExc_OverflowError, "a duration has at most 2^63 - 1 milliseconds");
    }
    return !is_long && !is_long_back;
}

/* The sum of two lengths; whether it is one. */
static bool add_lengths(calendar_duration left, calendar_duration right, calendar_duration *sum)
{
    uint32_t nanos = left.nanos + right.nanos;
    bool is_carried = nanos >= SECOND;
    sum->seconds = left.seconds + right.seconds + is_carried;
    sum->nanos = is_carried ? nanos - SECOND : nanos;
    return is_length(*sum);
}

calendar_duration back(calendar_duration length)
{
    bool is_whole = length.nanos == 0;
    return (calendar_duration){.seconds = -length.seconds - !is_whole, .nanos = is_whole ? 0 : SECOND - length.nanos};
}

PyObject *duration_of(PyTypeObject *kind, calendar_duration length)
{
    PyObject *self = new_object(kind, duration_type, &kept);
    if (self) {
        ((Duration *)self)->hash = -1;
        ((Duration *)self)->length = length;
    }
    return self;
}

bool read_length(PyObject *it, calendar_duration *length, bool *is_one)
{
    int64_t days, seconds, nanoseconds;
    *is_one = true;
    if (is_duration(it)) {
        *length = length_of(it);
        return true;
    }
    *is_one = is_timedelta(it);
    if (!*is_one) {
        return true;
    }
    if (!read_timedelta(it, &days, &seconds, &nanoseconds)) {
        return false;
    }
    *length = length_from(days * DAY + seconds, nanoseconds);
    return true;
}

/* ---- the sum of its parts */

/* The sum where no part is large; *is_small says whether that is so. */
static bool sum_of_small(PyObject *const *parts, calendar_duration *length, bool *is_small)
{
    const int64_t large = INT64_C(1) << 40;
    int64_t seconds = 0, nanoseconds = 0;
    *is_small = true;
    for (int i = 0; i < LENGTHS && *is_small; i++) {
        int64_t count = 0;
        *is_small = !parts[i] || !PyFloat_Check(parts[i]);
        if (*is_small && parts[i] && !read_whole(parts[i], &count)) {
            return false;
        }
        /* (nanoseconds alone are often many) */
        int64_t most = units[i].nanoseconds == 1 ? INT64_C(1) << 62 : large;
        *is_small = *is_small && -most < count && count < most;
        seconds += *is_small ? count * units[i].seconds : 0;
        nanoseconds += *is_small ? count * units[i].nanoseconds : 0;
    }
    *length = length_from(seconds, nanoseconds);
    return !*is_small || is_length(*length);
}

/* The sum of a number, which is let go, and a product; null if either was not made. */
static PyObject *plus_product(PyObject *sum, PyObject *count, int64_t unit)
{
    PyObject *whole = count ? PyNumber_Index(count) : NULL;
    PyObject *factor = PyLong_FromLongLong(unit);
    PyObject *product = whole && factor ? PyNumber_Multiply(whole, factor) : NULL;
    PyObject *result = sum && product ? PyNumber_Add(sum, product) : NULL;
    Py_XDECREF(whole);
    Py_XDECREF(factor);
    Py_XDECREF(product);
    Py_XDECREF(sum);
    return result;
}

/* Reads nanoseconds that may be more than 64 bits hold; they are let go. */
static bool split_nanoseconds(PyObject *nanoseconds, calendar_duration *length)
{
    int64_t seconds, nanos;
    PyObject *second = PyLong_FromLong(SECOND);
    PyObject *split = nanoseconds && second ? PyNumber_FloorDivide(nanoseconds, second) : NULL;
    PyObject *rest = split ? PyNumber_Remainder(nanoseconds, second) : NULL;
    bool is_read = rest && read_whole(split, &seconds) && read_whole(rest, &nanos);
    if (is_read) {
        *length = (calendar_duration){.seconds = seconds, .nanos = (uint32_t)nanos};
    }
    Py_XDECREF(nanoseconds);
    Py_XDECREF(second);
    Py_XDECREF(split);
    Py_XDECREF(rest);
    return is_read && is_length(*length);
}

/* The sum of parts of any size or with a fraction, by Python's own numbers. */
static bool sum_of_large(PyObject *const *parts, calendar_duration *length)
{
    PyObject *sum = PyLong_FromLong(0), *fractions = PyList_New(0);
    bool is_read = sum && fractions;
    for (int i = 0; i < LENGTHS && is_read; i++) {
        int64_t unit = units[i].seconds * SECOND + units[i].nanoseconds;
        if (parts[i] && PyFloat_Check(parts[i])) {
            PyObject *pair = Py_BuildValue("(OL)", parts[i], (long long)unit);
            is_read = pair && PyList_Append(fractions, pair) == 0;
            Py_XDECREF(pair);
        } else if (parts[i]) {
            sum = plus_product(sum, parts[i], unit);
            is_read = sum;
        }
    }
    if (is_read && PyList_Size(fractions) > 0) {
        sum = by_python(TEXTS, "sum_of_fractions", "(NO)", sum, fractions);
    }
    Py_XDECREF(fractions);
    return is_read ? split_nanoseconds(sum, length) : (Py_XDECREF(sum), false);
}

static PyObject *duration_new(PyTypeObject *kind, PyObject *arguments, PyObject *keywords)
{
    PyObject *parts[PARTS];
    calendar_duration length;
    bool is_small;
    if (!take_tuple(&of_parts, arguments, keywords, parts) || !sum_of_small(parts, &length, &is_small)
        || (!is_small && !sum_of_large(parts, &length))) {
        return NULL;
    }
    return duration_of(kind, length);
}

static void duration_free(PyObject *self)
{
    free_object(self, duration_type, &kept);
}

/* ---- whole nanoseconds */

/* The nanoseconds of a length, which may be more than 64 bits hold. */
static PyObject *nanoseconds_of(calendar_duration length)
{
    if (-SECOND < length.seconds && length.seconds < SECOND) {
        return PyLong_FromLongLong(length.seconds * SECOND + length.nanos);
    }
    PyObject *seconds = PyLong_FromLongLong(length.seconds);
    PyObject *result = plus_product(PyLong_FromLong(length.nanos), seconds, SECOND);
    Py_XDECREF(seconds);
    return result;
}

static PyObject *duration_nanoseconds(PyObject *self, void *unused)
{
    (void)unused;
    return nanoseconds_of(length_of(self));
}

/* Nanoseconds as a Duration; they are let go, and may be missing after an error. */
static PyObject *of_nanoseconds(PyObject *nanoseconds)
{
    calendar_duration length;
    return nanoseconds && split_nanoseconds(nanoseconds, &length) ? duration_of(duration_type, length) : NULL;
}

/* ---- the parts of timedelta */

/* The second of its day in which a length ends. */
static int64_t second_of_day(calendar_duration length)
{
    return (length.seconds % DAY + DAY) % DAY;
}

static int64_t days_of(calendar_duration length)
{
    return (length.seconds - second_of_day(length)) / DAY;
}

static PyObject *duration_days(PyObject *self, void *unused)
{
    (void)unused;
    return PyLong_FromLongLong(days_of(length_of(self)));
}

static PyObject *duration_seconds(PyObject *self, void *unused)
{
    (void)unused;
    return PyLong_FromLongLong(second_of_day(length_of(self)));
}

static PyObject *duration_microseconds(PyObject *self, void *unused)
{
    (void)unused;
    return PyLong_FromLong(length_of(self).nanos / MICROSECOND);
}

/* ---- texts */

static PyObject *duration_repr(PyObject *self)
{
    return by_python(TEXTS, "repr_of_duration", "(O)", self);
}

static PyObject *duration_text(PyObject *self)
{
    return by_python(TEXTS, "text_of_duration", "(O)", self);
}

/* ---- timedelta */

static PyObject *from_nanoseconds(PyObject *kind, PyObject *count);

static PyObject *from_timedelta(PyObject *kind, PyObject *it)
{
    calendar_duration length;
    bool is_one;
    if (!is_timedelta(it)) {
        return refuse_type("a datetime.timedelta", it);
    }
    if (!read_length(it, &length, &is_one)) {
        return NULL;
    }
    if ((PyTypeObject *)kind == duration_type) {
        return duration_of(duration_type, length);
    }
    /* (a user's class makes its objects as it likes) */
    PyObject *count = nanoseconds_of(length), *self = count ? from_nanoseconds(kind, count) : NULL;
    Py_XDECREF(count);
    return self;
}

static PyObject *to_timedelta(PyObject *self, PyObject *unused)
{
    calendar_duration length = length_of(self);
    (void)unused;
    if (length.nanos % MICROSECOND != 0) {
        return PyErr_Format(PyExc_ValueError, "%R: timedelta has whole microseconds", self);
    }
    return python_timedelta(days_of(length), (int32_t)second_of_day(length), (int32_t)(length.nanos / MICROSECOND));
}

/* ---- arithmetic, of which one side may be a timedelta */

static PyObject *sum_of(PyObject *left, PyObject *right, bool is_difference)
{
    calendar_duration lengths[2], sum;
    bool are_both[2] = {is_duration(left), is_duration(right)};
    if (are_both[0] && are_both[1]) {
        lengths[0] = length_of(left);
        lengths[1] = length_of(right);
    } else if (!read_length(left, &lengths[0], &are_both[0]) || !read_length(right, &lengths[1], &are_both[1])) {
        return NULL;
    }
    if (!are_both[0] || !are_both[1]) {
        Py_RETURN_NOTIMPLEMENTED;
    }
    if (is_difference) {
        lengths[1] = back(lengths[1]);
    }
    return add_lengths(lengths[0], lengths[1], &sum) ? duration_of(duration_type, sum) : NULL;
}

static PyObject *duration_add(PyObject *left, PyObject *right)
{
    return sum_of(left, right, false);
}

static PyObject *duration_subtract(PyObject *left, PyObject *right)
{
    return sum_of(left, right, true);
}

/* A duration times a number, or divided by one as `how` says: whole numbers by Python's own, others rounded to a nanosecond. */
static PyObject *scaled(PyObject *length, PyObject *number, const char *how)
{
    PyObject *nanoseconds = nanoseconds_of(length_of(length));
    return of_nanoseconds(nanoseconds ? by_python(TEXTS, how, "(NO)", nanoseconds, number) : NULL);
}

static PyObject *duration_multiply(PyObject *left, PyObject *right)
{
    PyObject *length = is_duration(left) ? left : right, *factor = length == left ? right : left;
    if (PyFloat_Check(factor)) {
        return scaled(length, factor, "product");
    }
    if (!PyIndex_Check(factor)) {
        Py_RETURN_NOTIMPLEMENTED;
    }
    PyObject *whole = PyNumber_Index(factor), *nanoseconds = whole ? nanoseconds_of(length_of(length)) : NULL;
    PyObject *product = nanoseconds ? PyNumber_Multiply(nanoseconds, whole) : NULL;
    Py_XDECREF(whole);
    Py_XDECREF(nanoseconds);
    return of_nanoseconds(product);
}

/* What a division of whole nanoseconds answers, where both sides are lengths; *is_one says whether they are. */
static PyObject *ratio(PyObject *left, PyObject *right, binaryfunc divide, bool *is_one)
{
    calendar_duration lengths[2];
    bool are_both[2];
    if (!read_length(left, &lengths[0], &are_both[0]) || !read_length(right, &lengths[1], &are_both[1])) {
        *is_one = true;
        return NULL;
    }
    *is_one = are_both[0] && are_both[1];
    PyObject *one = *is_one ? nanoseconds_of(lengths[0]) : NULL, *other = one ? nanoseconds_of(lengths[1]) : NULL;
    PyObject *result = other ? divide(one, other) : NULL;
    Py_XDECREF(one);
    Py_XDECREF(other);
    return result;
}

static PyObject *duration_divide(PyObject *left, PyObject *right)
{
    bool is_one;
    PyObject *result = ratio(left, right, PyNumber_TrueDivide, &is_one);
    if (is_one) {
        return result;
    }
    if (is_duration(left) && (PyIndex_Check(right) || PyFloat_Check(right))) {
        return scaled(left, right, "quotient");
    }
    Py_RETURN_NOTIMPLEMENTED;
}

static PyObject *duration_floor_divide(PyObject *left, PyObject *right)
{
    bool is_one;
    PyObject *result = ratio(left, right, PyNumber_FloorDivide, &is_one);
    if (is_one) {
        return result;
    }
    if (!is_duration(left) || !PyIndex_Check(right)) {
        Py_RETURN_NOTIMPLEMENTED;
    }
    PyObject *whole = PyNumber_Index(right), *nanoseconds = whole ? nanoseconds_of(length_of(left)) : NULL;
    PyObject *quotient = nanoseconds ? PyNumber_FloorDivide(nanoseconds, whole) : NULL;
    Py_XDECREF(whole);
    Py_XDECREF(nanoseconds);
    return of_nanoseconds(quotient);
}

static PyObject *duration_remainder(PyObject *left, PyObject *right)
{
    bool is_one;
    PyObject *result = ratio(left, right, PyNumber_Remainder, &is_one);
    if (is_one) {
        return of_nanoseconds(result);
    }
    Py_RETURN_NOTIMPLEMENTED;
}

static PyObject *duration_divmod(PyObject *left, PyObject *right)
{
    bool is_one;
    PyObject *quotient = ratio(left, right, PyNumber_FloorDivide, &is_one);
    if (!is_one) {
        Py_RETURN_NOTIMPLEMENTED;
    }
    PyObject *rest = quotient ? duration_remainder(left, right) : NULL;
    PyObject *result = rest ? PyTuple_Pack(2, quotient, rest) : NULL;
    Py_XDECREF(quotient);
    Py_XDECREF(rest);
    return result;
}

static PyObject *duration_negative(PyObject *self)
{
    return duration_of(duration_type, back(length_of(self)));
}

static PyObject *duration_positive(PyObject *self)
{
    return duration_of(duration_type, length_of(self));
}

static PyObject *duration_absolute(PyObject *self)
{
    return length_of(self).seconds < 0 ? duration_negative(self) : duration_positive(self);
}

static int duration_bool(PyObject *self)
{
    return length_of(self).seconds != 0 || length_of(self).nanos != 0;
}

static PyObject *duration_compare(PyObject *left, PyObject *right, int order)
{
    calendar_duration one = length_of(left), other;
    bool is_one = is_duration(right);
    if (is_one) {
        other = length_of(right);
    } else if (!read_length(right, &other, &is_one)) {
        return NULL;
    }
    if (!is_one) {
        Py_RETURN_NOTIMPLEMENTED;
    }
    if (one.seconds != other.seconds) {
        Py_RETURN_RICHCOMPARE(one.seconds, other.seconds, order);
    }
    Py_RETURN_RICHCOMPARE(one.nanos, other.nanos, order);
}

static Py_hash_t hash_of_length(calendar_duration length)
{
    if (length.nanos % MICROSECOND != 0) {
        return hash_of_nanoseconds(length.seconds, length.nanos);
    }
    if (!has_timedelta(days_of(length))) {
        return hash_of(length.seconds, length.nanos);
    }
    return hash_of_timedelta(days_of(length), (int32_t)second_of_day(length), (int32_t)(length.nanos / MICROSECOND));
}

static Py_hash_t duration_hash(PyObject *self)
{
    Duration *of = (Duration *)self;
    if (of->hash == -1) {
        of->hash = hash_of_length(of->length);
    }
    return of->hash;
}

static PyObject *duration_reduce(PyObject *self, PyObject *unused)
{
    (void)unused;
    PyObject *maker = PyObject_GetAttrString((PyObject *)Py_TYPE(self), "from_nanoseconds");
    return reduced(self, maker, Py_BuildValue("(N)", nanoseconds_of(length_of(self))));
}

static PyObject *from_nanoseconds(PyObject *kind, PyObject *count)
{
    PyObject *nothing = PyTuple_New(0), *keywords = Py_BuildValue("{sO}", "nanoseconds", count);
    PyObject *self = nothing && keywords ? PyObject_Call(kind, nothing, keywords) : NULL;
    Py_XDECREF(nothing);
    Py_XDECREF(keywords);
    return self;
}

/* ---- the type */

static PyGetSetDef fields[] = {
    {"nanoseconds", duration_nanoseconds, NULL, "The whole length in nanoseconds.", NULL},
    {"days", duration_days, NULL, "The whole days, rounded down, as timedelta has them.", NULL},
    {"seconds", duration_seconds, NULL, "The whole seconds after the days, from 0 to 86,399, as timedelta has them.", NULL},
    {"microseconds", duration_microseconds, NULL,
     "The whole microseconds after the seconds, from 0 to 999,999, as timedelta has them.", NULL},
    {NULL, NULL, NULL, NULL, NULL},
};

static PyMethodDef methods[] = {
    {"from_nanoseconds", from_nanoseconds, METH_O | METH_CLASS,
     "from_nanoseconds($type, nanoseconds, /)\n--\n\n"
     "Returns the duration of this many nanoseconds; OverflowError if that is too long."},
    {"from_timedelta", from_timedelta, METH_O | METH_CLASS,
     "from_timedelta($type, length, /)\n--\n\nReturns the duration equal to a datetime.timedelta."},
    {"to_timedelta", to_timedelta, METH_NOARGS,
     "to_timedelta($self, /)\n--\n\n"
     "Returns the same duration as a datetime.timedelta. Raises OverflowError beyond 999,999,999 days, and ValueError for a\n"
     "fraction of a microsecond."},
    {"__format__", formatted, METH_O,
     "__format__($self, format, /)\n--\n\nFormats the text: format(str(self), format)."},
    {"__reduce__", duration_reduce, METH_NOARGS, "__reduce__($self, /)\n--\n\nWhat pickle and copy keep."},
    {NULL, NULL, 0, NULL},
};

PyDoc_STRVAR(documentation,
"Duration(days=0, seconds=0, microseconds=0, milliseconds=0, minutes=0, hours=0, weeks=0, *, nanoseconds=0)\n--\n\n"
"A length of time in whole nanoseconds, forward or back, of at most 2^63 - 1 milliseconds.\n\n"
">>> Duration(days=1) + Duration(hours=1) == Duration(hours=25)\nTrue\n\n"
"It is the sum of its parts. A day is 24 hours. A part that is a float counts as the exact number that it is, and the sum is\n"
"rounded to a nanosecond, half to even. Raises OverflowError if the sum is too long. The duration 0 is false.\n\n"
">>> Duration(hours=1) * 1.5, Duration(hours=1) / Duration(minutes=8), divmod(Duration(hours=1), Duration(minutes=25))\n"
"(Duration(seconds=5400), 7.5, (2, Duration(seconds=600)))\n\n"
"A Duration is equal to the datetime.timedelta of the same length, with the same hash.");

static PyType_Slot slots[] = {
    {Py_tp_doc, (void *)documentation},
    {Py_tp_getset, fields},
    {Py_tp_methods, methods},
    SLOT(Py_tp_new, duration_new),
    SLOT(Py_tp_dealloc, duration_free),
    SLOT(Py_tp_richcompare, duration_compare),
    SLOT(Py_tp_hash, duration_hash),
    SLOT(Py_tp_repr, duration_repr),
    SLOT(Py_tp_str, duration_text),
    SLOT(Py_nb_multiply, duration_multiply),
    SLOT(Py_nb_true_divide, duration_divide),
    SLOT(Py_nb_floor_divide, duration_floor_divide),
    SLOT(Py_nb_remainder, duration_remainder),
    SLOT(Py_nb_divmod, duration_divmod),
    SLOT(Py_nb_add, duration_add),
    SLOT(Py_nb_subtract, duration_subtract),
    SLOT(Py_nb_negative, duration_negative),
    SLOT(Py_nb_positive, duration_positive),
    SLOT(Py_nb_absolute, duration_absolute),
    SLOT(Py_nb_bool, duration_bool),
    {0, NULL},
};

static PyType_Spec spec = {
    .name = "proved_calendar.Duration",
    .basicsize = sizeof(Duration),
    .flags = Py_TPFLAGS_DEFAULT | Py_TPFLAGS_BASETYPE | Py_TPFLAGS_IMMUTABLETYPE,
    .slots = slots,
};

bool make_duration_type(PyObject *module)
{
    duration_type = add_type(module, &spec, "Duration", NULL);
    return duration_type;
}
