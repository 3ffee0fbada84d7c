/* date_time.c: the type DateTime. */
#include "package.h"

#include <string.h>

PyTypeObject *date_time_type;
static Blocks kept;

enum { SECOND = 1000000000, MICROSECOND = 1000, LAST_SECOND = 59, LAST_SECOND_OF_DAY = 86399 };

/* The parts of a clock, in the order of parameters: hour, minute, second and nanosecond. */
enum { HOUR, MINUTE, CLOCK_SECOND, NANOSECOND, CLOCK };

static Signature of_date_and_clock = {
    .call = "DateTime", .count = 8, .needed = 1, .places = 5,
    .names = {"date", "hour", "minute", "second", "nanosecond", "microsecond", "tzinfo", "fold"},
};
static Signature of_name_and_clock = {
    .call = "DateTime", .count = 10, .needed = 3, .places = 8,
    .names = {"year", "month", "day", "hour", "minute", "second", "microsecond", "tzinfo", "fold", "nanosecond"},
};
static Signature of_replace = {
    .call = "replace", .count = 10, .needed = 0, .places = 6,
    .names = {"year", "month", "day", "hour", "minute", "second", "microsecond", "nanosecond", "tzinfo", "fold"},
};
static Signature of_iso_format = {
    .call = "isoformat", .count = 2, .needed = 0, .places = 2, .names = {"sep", "timespec"},
};
static Signature of_as_time_zone = {
    .call = "astimezone", .count = 1, .needed = 0, .places = 1, .names = {"tz"},
};
static Signature of_fields = {
    .call = "from_seconds", .count = 2, .needed = 1, .places = 2, .names = {"seconds", "nanos"},
};

/* ---- the clock */

/* What a clock shows; the second is 60 in a leap second. */
static void read_clock(calendar_date_time moment, int64_t clock[CLOCK])
{
    int32_t second = calendar_date_time_second_of_day(moment);
    bool is_leap = moment.nanos >= SECOND;
    clock[HOUR] = second / 3600;
    clock[MINUTE] = second / 60 % 60;
    clock[CLOCK_SECOND] = second % 60 + is_leap;
    clock[NANOSECOND] = is_leap ? moment.nanos - SECOND : moment.nanos;
}

/* Reads the parts that are given of a clock: hour, minute and second, and the fraction in one of its two units. */
static bool read_parts(PyObject *const whole[3], PyObject *microsecond, PyObject *nanosecond, int64_t clock[CLOCK])
{
    int64_t count;
    for (int i = 0; i < NANOSECOND; i++) {
        if (whole[i] && !read_whole(whole[i], &clock[i])) {
            return false;
        }
    }
    if (microsecond && nanosecond) {
        PyErr_SetString(PyExc_TypeError, "the fraction is given twice: nanosecond is the whole fraction, and microsecond too");
        return false;
    }
    if (nanosecond && !read_whole(nanosecond, &clock[NANOSECOND])) {
        return false;
    }
    if (!microsecond) {
        return true;
    }
    if (!read_whole(microsecond, &count)) {
        return false;
    }
    bool is_part = 0 <= count && count < SECOND / MICROSECOND;
    if (!is_part) {
        refuse_part("microsecond", count, "microseconds are 0 to 999999");
    }
    clock[NANOSECOND] = is_part ? MICROSECOND * count : 0;
    return is_part;
}

/* Whether a part of a clock is one of its numbers, from 0; else it is refused. */
static bool shows(const int64_t clock[CLOCK], int part)
{
    static const struct {
        const char *name, *range;
        int64_t last;
    } parts[CLOCK] = {
        {"hour", "hours are 0 to 23", 23},
        {"minute", "minutes are 0 to 59", 59},
        {"second", "seconds are 0 to 59, and 60 in a leap second", 60},
        {"nanosecond", "nanoseconds are 0 to 999999999", SECOND - 1},
    };
    bool is_shown = 0 <= clock[part] && clock[part] <= parts[part].last;
    if (!is_shown) {
        refuse_part(parts[part].name, clock[part], parts[part].range);
    }
    return is_shown;
}

/* The date-time of a date at the time that a clock shows; whether there is one. */
static bool moment_at(int32_t number, const int64_t clock[CLOCK], calendar_date_time *moment)
{
    for (int part = 0; part < CLOCK; part++) {
        if (!shows(clock, part)) {
            return false;
        }
    }
    bool is_leap = clock[CLOCK_SECOND] > LAST_SECOND;
    uint32_t second = (uint32_t)(3600 * clock[HOUR] + 60 * clock[MINUTE] + clock[CLOCK_SECOND] - is_leap);
    *moment = calendar_date_time_new(number, second, (uint32_t)(clock[NANOSECOND] + (is_leap ? SECOND : 0)));
    return true;
}

/* Reads the time zone and the fold that are given, each in place of what is there. */
static bool read_zoning(PyObject *zone, PyObject *fold, Zoning *zoning)
{
    int64_t number = zoning->fold;
    if (zone && zone != Py_None && !is_tzinfo(zone)) {
        refuse_type("None or a tzinfo", zone);
        return false;
    }
    if (zone) {
        zoning->zone = zone == Py_None ? NULL : zone;
    }
    if (fold && !read_whole(fold, &number)) {
        return false;
    }
    bool is_fold = number == 0 || number == 1;
    if (!is_fold) {
        refuse_part("fold", number, "it is 0, or 1 for the second one of two equal local times");
    }
    zoning->fold = number == 1;
    return is_fold;
}

/* ---- what is kept of a date-time */

/* The number of its date. */
static int32_t day_of(PyObject *self)
{
    DateTime *of = (DateTime *)self;
    if (of->number == CALENDAR_NONE) {
        of->number = calendar_date_time_date(of->moment);
    }
    return of->number;
}

/* Its second of the day. */
static int32_t second_of(PyObject *self)
{
    DateTime *of = (DateTime *)self;
    if (of->second == CALENDAR_NONE) {
        of->second = calendar_date_time_second_of_day(of->moment);
    }
    return of->second;
}

/* ---- making */

/* An object for a date-time, with the number of its date if that is known. */
static PyObject *new_date_time(PyTypeObject *kind, calendar_date_time moment, int32_t number)
{
    DateTime *self = (DateTime *)new_object(kind, date_time_type, &kept);
    if (self) {
        self->hash = -1;
        self->moment = moment;
        self->number = number;
        self->second = CALENDAR_NONE;
        self->zoning = (Zoning){0};
    }
    return (PyObject *)self;
}

/* Gives an object that was just made its time zone; it may be missing after an error. */
static PyObject *with_zoning(PyObject *self, Zoning zoning)
{
    if (self) {
        Py_XINCREF(zoning.zone);
        ((DateTime *)self)->zoning = zoning;
    }
    return self;
}

PyObject *date_time_of(PyTypeObject *kind, calendar_date_time moment)
{
    if (kind != date_time_type) {
        /* (a user's class makes its objects as it likes) */
        int64_t clock[CLOCK];
        read_clock(moment, clock);
        return PyObject_CallFunction((PyObject *)kind, "NLLLL", date_of(date_type, calendar_date_time_date(moment)),
                                     (long long)clock[HOUR], (long long)clock[MINUTE], (long long)clock[CLOCK_SECOND],
                                     (long long)clock[NANOSECOND]);
    }
    return new_date_time(kind, moment, CALENDAR_NONE);
}

/* The same in a time zone. */
static PyObject *date_time_in(PyTypeObject *kind, calendar_date_time moment, Zoning zoning)
{
    if (!zoning.zone && !zoning.fold) {
        return date_time_of(kind, moment);
    }
    if (kind == date_time_type) {
        return with_zoning(new_date_time(kind, moment, CALENDAR_NONE), zoning);
    }
    int64_t clock[CLOCK];
    read_clock(moment, clock);
    PyObject *parts = Py_BuildValue("(NLLLL)", date_of(date_type, calendar_date_time_date(moment)), (long long)clock[HOUR],
                                    (long long)clock[MINUTE], (long long)clock[CLOCK_SECOND], (long long)clock[NANOSECOND]);
    PyObject *named = Py_BuildValue("{sOsi}", "tzinfo", zoning.zone ? zoning.zone : Py_None, "fold", (int)zoning.fold);
    PyObject *result = parts && named ? PyObject_Call((PyObject *)kind, parts, named) : NULL;
    Py_XDECREF(parts);
    Py_XDECREF(named);
    return result;
}

/* Reads the arguments of datetime: year, month and day, and a clock whose fraction by place is in microseconds. */
static bool read_named(PyObject *arguments, PyObject *keywords, int32_t *number, int64_t clock[CLOCK], Zoning *zoning)
{
    PyObject *parts[PARTS];
    int64_t name[3];
    if (!take_tuple(&of_name_and_clock, arguments, keywords, parts)) {
        return false;
    }
    for (int i = 0; i < 3; i++) {
        if (!read_whole(parts[i], &name[i])) {
            return false;
        }
    }
    if (!read_parts(parts + 3, parts[6], parts[9], clock) || !read_zoning(parts[7], parts[8], zoning)) {
        return false;
    }
    *number = number_of_name(name[0], name[1], name[2]);
    return *number != CALENDAR_NONE;
}

/* Reads a Date, and a clock whose fraction by place is in nanoseconds. */
static bool read_dated(PyObject *arguments, PyObject *keywords, int32_t *number, int64_t clock[CLOCK], Zoning *zoning)
{
    PyObject *parts[PARTS];
    if (!take_tuple(&of_date_and_clock, arguments, keywords, parts)) {
        return false;
    }
    if (!is_date(parts[0])) {
        refuse_type("a Date, as in DateTime(Date(2024, 2, 29), 12), or a year", parts[0]);
        return false;
    }
    *number = number_of(parts[0]);
    return read_parts(parts + 1, parts[5], parts[4], clock) && read_zoning(parts[6], parts[7], zoning);
}

/* Whether the first argument is a year, by place or by name. */
static bool begins_with_year(PyObject *arguments, PyObject *keywords)
{
    if (PyTuple_Size(arguments) > 0) {
        PyObject *first = PyTuple_GetItem(arguments, 0);
        return !is_date(first) && PyIndex_Check(first);
    }
    return keywords && PyDict_GetItemString(keywords, "year");
}

static PyObject *date_time_new(PyTypeObject *kind, PyObject *arguments, PyObject *keywords)
{
    PyObject *made;
    int32_t number;
    int64_t clock[CLOCK] = {0};
    calendar_date_time moment;
    Zoning zoning = {0};
    if (is_made_of_state(kind, arguments, keywords, "date_time_of_state", &made)) {
        return made;
    }
    bool is_read = begins_with_year(arguments, keywords) ? read_named(arguments, keywords, &number, clock, &zoning)
                                                         : read_dated(arguments, keywords, &number, clock, &zoning);
    return is_read && moment_at(number, clock, &moment) ? with_zoning(new_date_time(kind, moment, number), zoning) : NULL;
}

static void date_time_free(PyObject *self)
{
    Py_XDECREF(zoning_of(self).zone);
    free_object(self, date_time_type, &kept);
}

static PyObject *from_seconds(PyObject *kind, PyObject *const *arguments, Py_ssize_t count, PyObject *keywords)
{
    PyObject *parts[PARTS];
    int64_t seconds, nanos = 0;
    if (!take_array(&of_fields, arguments, count, keywords, parts) || !read_whole(parts[0], &seconds)
        || (parts[1] && !read_whole(parts[1], &nanos))) {
        return NULL;
    }
    calendar_date_time moment = {.seconds = seconds, .nanos = is_u32(nanos) ? (uint32_t)nanos : CALENDAR_NO_NANOS};
    if (calendar_date_time_date(moment) == CALENDAR_NONE) {
        PyErr_SetString(PyExc_ValueError, "no date-time has these seconds and nanos");
        return NULL;
    }
    return date_time_of((PyTypeObject *)kind, moment);
}

static PyObject *from_datetime(PyObject *kind, PyObject *it)
{
    int32_t number;
    int64_t clock[CLOCK];
    calendar_date_time moment;
    if (!is_python_datetime(it)) {
        return refuse_type("a datetime.datetime", it);
    }
    Zoning zoning;
    if (!read_python_datetime(it, &number, clock) || !moment_at(number, clock, &moment) || !read_python_zoning(it, &zoning)) {
        return NULL;
    }
    PyObject *self = date_time_in((PyTypeObject *)kind, moment, zoning);
    Py_XDECREF(zoning.zone);
    return self;
}

static PyObject *date_time_replace(PyObject *self, PyObject *const *arguments, Py_ssize_t count, PyObject *keywords)
{
    PyObject *parts[PARTS];
    int64_t name[3], clock[CLOCK];
    calendar_date_time moment = moment_of(self);
    Zoning zoning = zoning_of(self);
    if (!take_array(&of_replace, arguments, count, keywords, parts)
        || !read_name(day_of(self), parts, name)) {
        return NULL;
    }
    read_clock(moment, clock);
    if (!read_parts(parts + 3, parts[6], parts[7], clock) || !read_zoning(parts[8], parts[9], &zoning)) {
        return NULL;
    }
    int32_t number = number_of_name(name[0], name[1], name[2]);
    if (number == CALENDAR_NONE || !moment_at(number, clock, &moment)) {
        return NULL;
    }
    return date_time_in(Py_TYPE(self), moment, zoning);
}

/* ---- what a date-time is called */

static PyObject *date_time_seconds(PyObject *self, void *unused)
{
    (void)unused;
    return PyLong_FromLongLong(moment_of(self).seconds);
}

static PyObject *date_time_nanos(PyObject *self, void *unused)
{
    (void)unused;
    return PyLong_FromLong(moment_of(self).nanos);
}

static PyObject *date_time_date(PyObject *self, void *unused)
{
    (void)unused;
    return date_of(date_type, day_of(self));
}

static PyObject *date_time_year(PyObject *self, void *unused)
{
    (void)unused;
    return PyLong_FromLong(calendar_year(day_of(self)));
}

static PyObject *date_time_month(PyObject *self, void *unused)
{
    (void)unused;
    return PyLong_FromLong(calendar_month(day_of(self)));
}

static PyObject *date_time_day(PyObject *self, void *unused)
{
    (void)unused;
    return PyLong_FromLong(calendar_day(day_of(self)));
}

static PyObject *second_of_day(PyObject *self, void *unused)
{
    (void)unused;
    return PyLong_FromLong(second_of(self));
}

static PyObject *date_time_hour(PyObject *self, void *unused)
{
    (void)unused;
    return PyLong_FromLong(second_of(self) / 3600);
}

static PyObject *date_time_minute(PyObject *self, void *unused)
{
    (void)unused;
    return PyLong_FromLong(second_of(self) / 60 % 60);
}

static PyObject *date_time_second(PyObject *self, void *unused)
{
    (void)unused;
    return PyLong_FromLong(second_of(self) % 60 + (moment_of(self).nanos >= SECOND));
}

static PyObject *date_time_nanosecond(PyObject *self, void *unused)
{
    (void)unused;
    return PyLong_FromLong(moment_of(self).nanos % SECOND);
}

static PyObject *date_time_microsecond(PyObject *self, void *unused)
{
    (void)unused;
    return PyLong_FromLong(moment_of(self).nanos % SECOND / MICROSECOND);
}

static PyObject *date_time_zone(PyObject *self, void *unused)
{
    PyObject *zone = zoning_of(self).zone;
    (void)unused;
    return Py_NewRef(zone ? zone : Py_None);
}

static PyObject *date_time_fold(PyObject *self, void *unused)
{
    (void)unused;
    return PyLong_FromLong(zoning_of(self).fold);
}

static PyObject *date_time_weekday(PyObject *self, PyObject *unused)
{
    (void)unused;
    return PyLong_FromLong(calendar_weekday(day_of(self)) - 1);
}

static PyObject *date_time_iso_weekday(PyObject *self, PyObject *unused)
{
    (void)unused;
    return weekday_member(calendar_weekday(day_of(self)));
}

static PyObject *date_time_iso_calendar(PyObject *self, PyObject *unused)
{
    (void)unused;
    return iso_calendar(day_of(self));
}

static PyObject *date_time_to_ordinal(PyObject *self, PyObject *unused)
{
    (void)unused;
    return PyLong_FromLong(day_of(self));
}

/* ---- moves and distances */

/* The end of a move, on the clock of the same time zone; no date-time is beyond the calendar. */
static PyObject *reached(PyObject *self, calendar_date_time moment)
{
    Zoning zoning = {.zone = zoning_of(self).zone};
    if (moment.nanos == CALENDAR_NO_NANOS) {
        PyErr_SetString(PyExc_OverflowError, "the date-time lies beyond the calendar");
        return NULL;
    }
    return date_time_in(Py_TYPE(self), moment, zoning);
}

static PyObject *moved(PyObject *self, calendar_duration by)
{
    return reached(self, calendar_date_time_add(moment_of(self), by));
}

static PyObject *add_months(PyObject *self, PyObject *it)
{
    int64_t months;
    if (!read_whole(it, &months)) {
        return NULL;
    }
    if (months == 0) {
        /* (a move by nothing keeps the fold, and so the instant) */
        return date_time_in(Py_TYPE(self), moment_of(self), zoning_of(self));
    }
    int32_t number = calendar_add_months(day_of(self), months);
    return reached(self, calendar_date_time_new(number, (uint32_t)second_of(self), moment_of(self).nanos));
}

static PyObject *moved_by(PyObject *self, PyObject *by, bool is_back)
{
    calendar_duration length;
    bool is_one;
    if (!read_length(by, &length, &is_one)) {
        return NULL;
    }
    if (!is_one) {
        Py_RETURN_NOTIMPLEMENTED;
    }
    return moved(self, is_back ? back(length) : length);
}

static PyObject *date_time_add(PyObject *left, PyObject *right)
{
    return is_date_time(left) ? moved_by(left, right, false) : moved_by(right, left, false);
}

/* Whether it is a date-time in a Zone. */
static bool is_by_zone(PyObject *it)
{
    return is_date_time(it) && zoning_of(it).zone && is_zone(zoning_of(it).zone);
}

/* The offset that the clock of its Zone has. */
static calendar_duration own_offset(PyObject *self)
{
    Zoning zoning = zoning_of(self);
    return (calendar_duration){.seconds = offset_by_zone(zoning.zone, moment_of(self), zoning.fold)};
}

/* The offset from UTC that the time zone of a date-time gives; *has_one says whether there is one. */
static bool read_offset(PyObject *it, calendar_duration *offset, bool *has_one)
{
    *has_one = !is_date_time(it) || zoning_of(it).zone;
    if (!*has_one) {
        return true;
    }
    if (Py_IS_TYPE(it, date_time_type) && is_by_zone(it)) {
        *offset = own_offset(it);
        return true;
    }
    PyObject *given = PyObject_CallMethod(it, "utcoffset", NULL);
    *has_one = given && given != Py_None;
    bool is_length, is_read = given && (!*has_one || (read_length(given, offset, &is_length) && is_length));
    Py_XDECREF(given);
    return is_read;
}

/* The time between two date-times of different zones: that between what their clocks show, less that between their offsets. */
static PyObject *since_in_zones(PyObject *left, PyObject *right)
{
    calendar_duration offsets[2];
    bool have[2];
    if (!read_offset(left, &offsets[0], &have[0]) || !read_offset(right, &offsets[1], &have[1])) {
        return NULL;
    }
    if (have[0] != have[1]) {
        PyErr_SetString(PyExc_TypeError, "one of the date-times has a time zone, and the other has none");
        return NULL;
    }
    PyObject *shown = duration_of(duration_type, calendar_date_time_since(moment_of(left), moment_of(right)));
    if (!have[0]) {
        return shown;
    }
    PyObject *one = duration_of(duration_type, offsets[0]), *other = duration_of(duration_type, offsets[1]);
    PyObject *between = one && other ? PyNumber_Subtract(one, other) : NULL;
    PyObject *result = shown && between ? PyNumber_Subtract(shown, between) : NULL;
    Py_XDECREF(shown);
    Py_XDECREF(one);
    Py_XDECREF(other);
    Py_XDECREF(between);
    return result;
}

/* The time between two date-times. */
static PyObject *since(PyObject *left, PyObject *right)
{
    if (zoning_of(left).zone == zoning_of(right).zone) {
        return duration_of(duration_type, calendar_date_time_since(moment_of(left), moment_of(right)));
    }
    return since_in_zones(left, right);
}

/* The same, if one of them is a datetime.datetime. */
static PyObject *since_of_python(PyObject *left, PyObject *right)
{
    PyObject *one = is_date_time(left) ? Py_NewRef(left) : from_datetime((PyObject *)date_time_type, left);
    PyObject *other = is_date_time(right) ? Py_NewRef(right) : from_datetime((PyObject *)date_time_type, right);
    PyObject *found = one && other ? since(one, other) : NULL;
    Py_XDECREF(one);
    Py_XDECREF(other);
    return found;
}

static PyObject *date_time_subtract(PyObject *left, PyObject *right)
{
    if (is_date_time(left) && is_date_time(right)) {
        return since(left, right);
    }
    if (is_python_datetime(left) || is_python_datetime(right)) {
        return since_of_python(left, right);
    }
    return is_date_time(left) ? moved_by(left, right, true) : Py_NewRef(Py_NotImplemented);
}

/* ---- texts */

/* Room for the longest text of a date-time, such as -262143-01-01T00:00:00.000000001. */
enum { ROOM = 32 };

/* The bytes of a time of day up to the point of its fraction. */
enum { CLOCK_LENGTH = 8 };

/* The text of what the clock shows. */
static PyObject *local_text(PyObject *self)
{
    uint8_t text[ROOM];
    int32_t length = calendar_write_date_time(moment_of(self), text, ROOM);
    return PyUnicode_FromStringAndSize((const char *)text, length);
}

/* A text, which it takes, with that of the offset from UTC behind it, if there is one; it may be missing after an error. */
static PyObject *with_offset(PyObject *text, PyObject *self)
{
    if (!text || !zoning_of(self).zone) {
        return text;
    }
    PyObject *offset = PyObject_CallMethod(self, "utcoffset", NULL);
    PyObject *shown = offset ? by_python(TEXTS, "text_of_offset", "(O)", offset) : NULL;
    PyObject *result = shown ? PyUnicode_Concat(text, shown) : NULL;
    Py_XDECREF(offset);
    Py_XDECREF(shown);
    Py_DECREF(text);
    return result;
}

static PyObject *date_time_text(PyObject *self)
{
    return with_offset(local_text(self), self);
}

/* How many bytes stand before the time of day. */
static size_t length_of_date(const char *bytes, size_t length)
{
    size_t i = 0;
    while (i < length && bytes[i] != 'T' && bytes[i] != ' ') {
        i++;
    }
    return i;
}

/* Cuts the text of a clock to a precision, or fills its fraction up with zeros; whether there is such a precision. */
static bool cut_clock(PyObject *timespec, char *clock)
{
    static const struct {
        const char *name;
        size_t length;
    } precisions[] = {{"hours", 2}, {"minutes", 5}, {"seconds", 8}, {"milliseconds", 12}, {"microseconds", 15}, {"nanoseconds", 18}};
    if (PyUnicode_CompareWithASCIIString(timespec, "auto") == 0) {
        return true;
    }
    for (size_t i = 0; i < sizeof precisions / sizeof precisions[0]; i++) {
        if (PyUnicode_CompareWithASCIIString(timespec, precisions[i].name) == 0) {
            for (size_t at = strlen(clock); at < precisions[i].length; at++) {
                clock[at] = at == CLOCK_LENGTH ? '.' : '0';
            }
            clock[precisions[i].length] = 0;
            return true;
        }
    }
    PyErr_Format(PyExc_ValueError, "timespec %R: it is auto, hours, minutes, seconds, milliseconds, microseconds or nanoseconds", timespec);
    return false;
}

/* The text with another separator, or to a precision; each may be left out. */
static PyObject *text_in(PyObject *self, PyObject *separator, PyObject *timespec)
{
    char text[ROOM + 1];
    size_t length = (size_t)calendar_write_date_time(moment_of(self), (uint8_t *)text, ROOM), date = length_of_date(text, length);
    text[length] = 0;
    text[date] = 0;
    if (separator && (!PyUnicode_Check(separator) || PyUnicode_GetLength(separator) != 1)) {
        PyErr_SetString(PyExc_TypeError, "the separator is one character");
        return NULL;
    }
    if (timespec && !PyUnicode_Check(timespec)) {
        return refuse_type("a str", timespec);
    }
    if (timespec && !cut_clock(timespec, text + date + 1)) {
        return NULL;
    }
    return with_offset(separator ? PyUnicode_FromFormat("%s%U%s", text, separator, text + date + 1)
                                 : PyUnicode_FromFormat("%sT%s", text, text + date + 1), self);
}

static PyObject *iso_format(PyObject *self, PyObject *const *arguments, Py_ssize_t count, PyObject *keywords)
{
    PyObject *parts[PARTS];
    if (count == 0 && !keywords) {
        return date_time_text(self);
    }
    return take_array(&of_iso_format, arguments, count, keywords, parts) ? text_in(self, parts[0], parts[1]) : NULL;
}

/* Whether the bytes have the form of a time of day, a separator in front of it; then its parts are written. */
static bool has_clock_form(const char *bytes, size_t length, int64_t clock[CLOCK])
{
    enum { HOURS_AT = 1, MINUTES_AT = 4, SECONDS_AT = 7, POINT_AT = 9, PLACES = 9 };
    if (length < POINT_AT || bytes[MINUTES_AT - 1] != ':' || bytes[SECONDS_AT - 1] != ':') {
        return false;
    }
    clock[HOUR] = read_digits(bytes + HOURS_AT, 2);
    clock[MINUTE] = read_digits(bytes + MINUTES_AT, 2);
    clock[CLOCK_SECOND] = read_digits(bytes + SECONDS_AT, 2);
    clock[NANOSECOND] = 0;
    size_t places = length > POINT_AT ? length - POINT_AT - 1 : 0;
    bool has_fraction = length == POINT_AT
        || (bytes[POINT_AT] == '.' && 0 < places && places <= PLACES && read_digits(bytes + POINT_AT + 1, places) >= 0);
    return has_fraction && clock[HOUR] >= 0 && clock[MINUTE] >= 0 && clock[CLOCK_SECOND] >= 0;
}

/* Refuses a text of no date-time; where its date is right and its time has the form of one, by the first wrong part. */
static void refuse_date_time_text(PyObject *text, const char *bytes, size_t length)
{
    int64_t clock[CLOCK];
    size_t date = length_of_date(bytes, length);
    if (calendar_read_date((const uint8_t *)bytes, date) != CALENDAR_NONE && has_clock_form(bytes + date, length - date, clock)) {
        for (int part = 0; part < CLOCK; part++) {
            if (!shows(clock, part)) {
                return;
            }
        }
    }
    refuse_text(text, bytes, date, "date-time");
}

static PyObject *from_iso_format(PyObject *kind, PyObject *text)
{
    Py_ssize_t length;
    const char *bytes = PyUnicode_AsUTF8AndSize(text, &length);
    if (!bytes && !PyUnicode_Check(text)) {
        return refuse_type("a str", text);
    }
    calendar_date_time moment = {.nanos = CALENDAR_NO_NANOS};
    if (bytes) {
        moment = calendar_read_date_time((const uint8_t *)bytes, (size_t)length);
    }
    if (moment.nanos != CALENDAR_NO_NANOS) {
        return date_time_of((PyTypeObject *)kind, moment);
    }
    /* (another form; None says that it is none that is known. Half of a surrogate pair has no UTF-8, but may be a separator) */
    PyErr_Clear();
    PyObject *result = by_python(TEXTS, "date_time_of_text", "(OO)", kind, text);
    if (result == Py_None) {
        Py_CLEAR(result);
        if (bytes) {
            refuse_date_time_text(text, bytes, (size_t)length);
        } else {
            PyErr_Format(PyExc_ValueError, "%R is no text of a date-time", text);
        }
    }
    return result;
}

static PyObject *date_time_repr(PyObject *self)
{
    PyObject *name = PyObject_GetAttrString((PyObject *)Py_TYPE(self), "__name__");
    PyObject *shown = local_text(self);
    PyObject *text = name && shown ? PyUnicode_FromFormat("%U.fromisoformat(%R)", name, shown) : NULL;
    Zoning zoning = zoning_of(self);
    if (text && (zoning.zone || zoning.fold)) {
        PyObject *zone = zoning.zone ? PyUnicode_FromFormat("tzinfo=%R%s", zoning.zone, zoning.fold ? ", " : "") : PyUnicode_FromString("");
        PyObject *whole = zone ? PyUnicode_FromFormat("%U.replace(%U%s)", text, zone, zoning.fold ? "fold=1" : "") : NULL;
        Py_XDECREF(zone);
        Py_DECREF(text);
        text = whole;
    }
    Py_XDECREF(name);
    Py_XDECREF(shown);
    return text;
}

/* ---- as Python's objects do */

bool read_moment(PyObject *it, calendar_date_time *moment, Zoning *zoning, bool *is_one)
{
    int32_t number;
    int64_t clock[CLOCK];
    bool is_ours = is_date_time(it);
    *is_one = is_ours || is_python_datetime(it);
    if (is_ours) {
        *moment = moment_of(it);
        *zoning = zoning_of(it);
        Py_XINCREF(zoning->zone);
        return true;
    }
    *zoning = (Zoning){0};
    return !*is_one || (read_python_datetime(it, &number, clock) && moment_at(number, clock, moment) && read_python_zoning(it, zoning));
}

/* Whether the other fold of a local time has another offset; -1 after an error. Such a time is equal to none of another zone, so
 * that equal ones have one hash. */
static int depends_on_fold(PyObject *it, bool fold, calendar_duration offset)
{
    PyObject *replace = PyObject_GetAttrString(it, "replace"), *nothing = PyTuple_New(0), *named = Py_BuildValue("{si}", "fold", !fold);
    PyObject *other = replace && nothing && named ? PyObject_Call(replace, nothing, named) : NULL;
    calendar_duration found = offset;
    bool has_one, is_read = other && read_offset(other, &found, &has_one);
    Py_XDECREF(replace);
    Py_XDECREF(nothing);
    Py_XDECREF(named);
    Py_XDECREF(other);
    return is_read ? found.seconds != offset.seconds || found.nanos != offset.nanos : -1;
}

/* What UTC shows where a clock with an offset shows a moment, also beyond the calendar. */
static calendar_date_time in_utc(calendar_date_time moment, calendar_duration offset)
{
    calendar_duration by = back(offset);
    moment.seconds += by.seconds;
    if (by.nanos > 0) {
        moment.nanos += by.nanos;
        moment.seconds += moment.nanos / SECOND;
        moment.nanos %= SECOND;
    }
    return moment;
}

static PyObject *compare_moments(calendar_date_time one, calendar_date_time other, int order)
{
    if (one.seconds != other.seconds) {
        Py_RETURN_RICHCOMPARE(one.seconds, other.seconds, order);
    }
    Py_RETURN_RICHCOMPARE(one.nanos, other.nanos, order);
}

/* Compares date-times of different zones: by the instants that they stand for. One with a zone is not equal to one without. */
static PyObject *compare_in_zones(PyObject *left, PyObject *right, calendar_date_time other, bool fold, int order)
{
    calendar_duration offsets[2];
    bool have[2], is_equality = order == Py_EQ || order == Py_NE;
    if (!read_offset(left, &offsets[0], &have[0]) || !read_offset(right, &offsets[1], &have[1])) {
        return NULL;
    }
    if (!have[0] && !have[1]) {
        return compare_moments(moment_of(left), other, order);
    }
    if (have[0] != have[1]) {
        return is_equality ? PyBool_FromLong(order == Py_NE)
                           : PyErr_Format(PyExc_TypeError, "one of the date-times has a time zone, and the other has none");
    }
    int depend = is_equality ? depends_on_fold(left, zoning_of(left).fold, offsets[0]) : 0;
    depend = depend == 0 && is_equality ? depends_on_fold(right, fold, offsets[1]) : depend;
    if (depend) {
        return depend < 0 ? NULL : PyBool_FromLong(order == Py_NE);
    }
    return compare_moments(in_utc(moment_of(left), offsets[0]), in_utc(other, offsets[1]), order);
}

/* Whether there is no time zone; a ValueError if there is one. */
static bool has_no_zone(Zoning zoning)
{
    if (zoning.zone) {
        PyErr_SetString(PyExc_ValueError, "the date-time has a time zone, and one without is wanted");
    }
    return !zoning.zone;
}

bool take_moment(PyObject *it, calendar_date_time *moment)
{
    int32_t number;
    int64_t clock[CLOCK];
    if (is_date_time(it)) {
        *moment = moment_of(it);
        return has_no_zone(zoning_of(it));
    }
    if (!is_python_datetime(it)) {
        refuse_type("a DateTime or a datetime.datetime", it);
        return false;
    }
    Zoning zoning = {0};
    bool is_read = read_python_datetime(it, &number, clock) && moment_at(number, clock, moment) && read_python_zoning(it, &zoning);
    Py_XDECREF(zoning.zone);
    return is_read && has_no_zone(zoning);
}

bool take_instant(PyObject *it, calendar_date_time *utc)
{
    Zoning zoning;
    calendar_duration offset;
    bool is_one, has_one = false;
    if (!read_moment(it, utc, &zoning, &is_one)) {
        return false;
    }
    bool has_zone = zoning.zone;
    Py_XDECREF(zoning.zone);
    if (!is_one || !has_zone) {
        refuse_type("a date-time with a time zone", it);
        return false;
    }
    if (!read_offset(it, &offset, &has_one)) {
        return false;
    }
    if (has_one) {
        *utc = in_utc(*utc, offset);
    } else {
        PyErr_SetString(PyExc_ValueError, "the time zone has no offset");
    }
    return has_one;
}

/* ---- by the clocks of zones */

PyObject *date_time_by_zone(PyTypeObject *kind, PyObject *zone, calendar_date_time utc)
{
    Zoning zoning;
    calendar_date_time shown = shown_by_zone(zone, utc, &zoning);
    if (shown.nanos == CALENDAR_NO_NANOS) {
        PyErr_SetString(PyExc_OverflowError, "the date-time lies beyond the calendar");
        return NULL;
    }
    return date_time_in(kind, shown, zoning);
}

/* What UTC shows, where a date-time is one of UTC or of a Zone; whether it is. */
static bool has_utc(PyObject *self, calendar_date_time *utc)
{
    Zoning zoning = zoning_of(self);
    *utc = moment_of(self);
    if (zoning.zone && is_utc(zoning.zone)) {
        return true;
    }
    bool is_one = is_by_zone(self);
    if (is_one) {
        *utc = utc_by_zone(zoning.zone, *utc, zoning.fold);
    }
    return is_one && utc->nanos != CALENDAR_NO_NANOS;
}

static PyObject *as_time_zone(PyObject *self, PyObject *const *arguments, Py_ssize_t count, PyObject *keywords)
{
    PyObject *parts[PARTS];
    calendar_date_time utc;
    if (!take_array(&of_as_time_zone, arguments, count, keywords, parts)) {
        return NULL;
    }
    PyObject *zone = parts[0] ? parts[0] : Py_None;
    if (zone == zoning_of(self).zone) {
        return Py_NewRef(self);
    }
    if ((is_zone(zone) || is_utc(zone)) && has_utc(self, &utc)) {
        return is_utc(zone) ? date_time_in(Py_TYPE(self), utc, (Zoning){.zone = zone}) : date_time_by_zone(Py_TYPE(self), zone, utc);
    }
    return by_python(ZONED, "as_time_zone", "(OO)", self, zone);
}

static PyObject *utc_offset(PyObject *self, PyObject *unused)
{
    (void)unused;
    return is_by_zone(self) ? duration_of(duration_type, own_offset(self)) : by_python(ZONED, "utc_offset", "(O)", self);
}

calendar_date_time last_moment(void)
{
    return calendar_date_time_new(CALENDAR_MAX, LAST_SECOND_OF_DAY, SECOND - 1);
}

static PyObject *date_time_compare(PyObject *left, PyObject *right, int order)
{
    calendar_date_time other;
    Zoning zoning;
    bool is_one;
    if (!read_moment(right, &other, &zoning, &is_one)) {
        return NULL;
    }
    Py_XDECREF(zoning.zone);
    if (!is_one) {
        Py_RETURN_NOTIMPLEMENTED;
    }
    /* (the other date-time keeps its zone) */
    return zoning.zone == zoning_of(left).zone ? compare_moments(moment_of(left), other, order)
                                               : compare_in_zones(left, right, other, zoning.fold, order);
}

static Py_hash_t hash_of_moment(PyObject *self)
{
    int64_t clock[CLOCK];
    calendar_date_time moment = moment_of(self);
    if (moment.nanos >= SECOND || !has_python_date(day_of(self))) {
        return hash_of(moment.seconds, moment.nanos);
    }
    if (moment.nanos % MICROSECOND != 0) {
        return hash_of_nanoseconds(moment.seconds, moment.nanos);
    }
    read_clock(moment, clock);
    return hash_of_python_datetime(day_of(self), clock);
}

/* The hash of a date-time with an offset, as datetime has it: that of the length of time up to what UTC shows. */
static Py_hash_t hash_in_utc(calendar_date_time moment)
{
    enum { DAY = 86400 };
    if (moment.nanos % MICROSECOND != 0 || moment.nanos >= SECOND) {
        return hash_of_nanoseconds(moment.seconds, moment.nanos);
    }
    int64_t second = (moment.seconds % DAY + DAY) % DAY;
    return hash_of_timedelta((moment.seconds - second) / DAY + CALENDAR_UNIX_EPOCH, (int32_t)second, (int32_t)(moment.nanos / MICROSECOND));
}

/* The hash of a date-time with a time zone; of two equal local times, that of the first. */
static Py_hash_t hash_in_zone(PyObject *self)
{
    calendar_duration offset;
    bool has_one;
    PyObject *first = Py_NewRef(self);
    if (zoning_of(self).fold) {
        Py_DECREF(first);
        first = date_time_in(date_time_type, moment_of(self), (Zoning){.zone = zoning_of(self).zone});
    }
    bool is_read = first && read_offset(first, &offset, &has_one);
    Py_XDECREF(first);
    if (!is_read) {
        return -1;
    }
    return has_one ? hash_in_utc(in_utc(moment_of(self), offset)) : hash_of_moment(self);
}

static Py_hash_t date_time_hash(PyObject *self)
{
    DateTime *of = (DateTime *)self;
    if (of->hash == -1) {
        of->hash = of->zoning.zone ? hash_in_zone(self) : hash_of_moment(self);
    }
    return of->hash;
}

static PyObject *to_datetime(PyObject *self, PyObject *unused)
{
    int64_t clock[CLOCK];
    (void)unused;
    read_clock(moment_of(self), clock);
    return python_datetime(day_of(self), clock, zoning_of(self));
}

static PyObject *date_time_reduce(PyObject *self, PyObject *unused)
{
    int64_t clock[CLOCK];
    Zoning zoning = zoning_of(self);
    (void)unused;
    read_clock(moment_of(self), clock);
    if (zoning.zone || zoning.fold) {
        PyObject *module = PyImport_ImportModule("proved_calendar._texts");
        PyObject *maker = module ? PyObject_GetAttrString(module, "zoned_again") : NULL;
        Py_XDECREF(module);
        PyObject *all = Py_BuildValue("(ON(LLLL)Oi)", (PyObject *)Py_TYPE(self), date_of(date_type, day_of(self)), (long long)clock[HOUR],
                                      (long long)clock[MINUTE], (long long)clock[CLOCK_SECOND], (long long)clock[NANOSECOND],
                                      zoning.zone ? zoning.zone : Py_None, (int)zoning.fold);
        return reduced(self, maker, all);
    }
    PyObject *parts = Py_BuildValue("(NLLLL)", date_of(date_type, day_of(self)), (long long)clock[HOUR], (long long)clock[MINUTE],
                                    (long long)clock[CLOCK_SECOND], (long long)clock[NANOSECOND]);
    return reduced(self, Py_NewRef((PyObject *)Py_TYPE(self)), parts);
}

/* ---- the type */

static PyGetSetDef fields[] = {
    {"seconds", date_time_seconds, NULL, "The seconds since 1970-01-01T00:00:00, without leap seconds.", NULL},
    {"nanos", date_time_nanos, NULL,
     "The nanoseconds after them. 1,000,000,000 or more lie in the leap second that follows.", NULL},
    {"date", date_time_date, NULL, "The date.", NULL},
    {"year", date_time_year, NULL, "The year; 0 is the year before year 1.", NULL},
    {"month", date_time_month, NULL, "The month, from 1 for January to 12.", NULL},
    {"day", date_time_day, NULL, "The day of the month, from 1.", NULL},
    {"second_of_day", second_of_day, NULL,
     "The second of the day, from 0 to 86,399. A leap second has the number of the second before it.", NULL},
    {"hour", date_time_hour, NULL, "The hour, from 0 to 23.", NULL},
    {"minute", date_time_minute, NULL, "The minute of the hour, from 0 to 59.", NULL},
    {"second", date_time_second, NULL, "The second of the minute, from 0 to 59, or 60 in a leap second.", NULL},
    {"nanosecond", date_time_nanosecond, NULL,
     "The nanoseconds after the second, from 0 to 999,999,999.", NULL},
    {"microsecond", date_time_microsecond, NULL,
     "The whole microseconds after the second, from 0 to 999,999. numpy reads them. The text keeps all nanoseconds.", NULL},
    {"tzinfo", date_time_zone, NULL, "The time zone, which is a datetime.tzinfo, or None.", NULL},
    {"fold", date_time_fold, NULL, "1 for the second one of two equal local times, else 0.", NULL},
    {NULL, NULL, NULL, NULL, NULL},
};

static PyMethodDef methods[] = {
    {"from_seconds", METHOD(from_seconds), METH_FASTCALL | METH_KEYWORDS | METH_CLASS,
     "from_seconds($type, /, seconds, nanos=0)\n--\n\nReturns the date-time with these fields; ValueError if there is none."},
    {"from_datetime", from_datetime, METH_O | METH_CLASS,
     "from_datetime($type, moment, /)\n--\n\nReturns the date-time equal to a datetime.datetime, in its time zone."},
    {"fromisoformat", from_iso_format, METH_O | METH_CLASS,
     "fromisoformat($type, text, /)\n--\n\n"
     "Returns the date-time with this text: a date, T or a space, and HH:MM:SS. A point and up to nine digits may follow.\n"
     "It also reads the other forms of datetime: compact texts, ISO weeks, a date alone, hours and minutes alone, any\n"
     "separator, and an offset, which gives a datetime.timezone.\n\n"
     ">>> DateTime.fromisoformat('20240229T1230') == DateTime.fromisoformat('2024-W09-4 12:30')\nTrue"},
    {"isoformat", METHOD(iso_format), METH_FASTCALL | METH_KEYWORDS,
     "isoformat($self, /, sep='T', timespec='auto')\n--\n\n"
     "Returns the date-time as YYYY-MM-DDTHH:MM:SS. A fraction that is not 0 has three, six or nine digits.\n\n"
     ">>> DateTime(2024, 2, 29, 12, 30, 15, 250_000).isoformat(' ', 'minutes')\n'2024-02-29 12:30'\n\n"
     "timespec is hours, minutes, seconds, milliseconds, microseconds or nanoseconds; what it leaves out is cut off."},
    {"add_months", add_months, METH_O,
     "add_months($self, months, /)\n--\n\n"
     "Returns the same time of day that many months later, or earlier if negative. If that month is too short, on its last\n"
     "day.\n\n"
     ">>> print(DateTime(2024, 1, 31, 12).add_months(1))\n2024-02-29T12:00:00"},
    {"isocalendar", date_time_iso_calendar, METH_NOARGS,
     "isocalendar($self, /)\n--\n\nReturns ISO year, week and weekday, as a named tuple."},
    {"weekday", date_time_weekday, METH_NOARGS,
     "weekday($self, /)\n--\n\nReturns the weekday as datetime counts it, from 0 for Monday to 6. isoweekday returns a Weekday."},
    {"isoweekday", date_time_iso_weekday, METH_NOARGS,
     "isoweekday($self, /)\n--\n\nReturns the Weekday, a number from 1 for Monday to 7."},
    {"toordinal", date_time_to_ordinal, METH_NOARGS,
     "toordinal($self, /)\n--\n\nReturns the day number of the date: 1 for 1 January of year 1."},
    {"replace", METHOD(date_time_replace), METH_FASTCALL | METH_KEYWORDS,
     "replace($self, /, year=..., month=..., day=..., hour=..., minute=..., second=..., *, microsecond=..., nanosecond=...,\n"
     "        tzinfo=..., fold=...)\n--\n\n"
     "Returns the date-time with these parts in place of its own; ValueError if it does not exist. microsecond and\n"
     "nanosecond each replace the whole fraction, so one of them can be given."},
    {"utcoffset", utc_offset, METH_NOARGS,
     "utcoffset($self, /)\n--\n\n"
     "Returns the offset from UTC that the time zone has, east of it above 0, or None without a time zone."},
    {"astimezone", METHOD(as_time_zone), METH_FASTCALL | METH_KEYWORDS,
     "astimezone($self, /, tz=None)\n--\n\n"
     "Returns the same instant by the clock of a time zone, or of this machine. Without a zone it is taken as local time.\n\n"
     ">>> print(DateTime.fromisoformat('2024-07-01T10:00:00Z').astimezone(Zone('Europe/Berlin')))\n2024-07-01T12:00:00+02:00"},
    {"to_datetime", to_datetime, METH_NOARGS,
     "to_datetime($self, /)\n--\n\n"
     "Returns the same date-time as a datetime.datetime. Raises OverflowError outside the years 1 to 9999. Raises ValueError in\n"
     "a leap second or for a fraction of a microsecond."},
    {"__format__", formatted, METH_O,
     "__format__($self, format, /)\n--\n\n"
     "Formats the text: format(str(self), format). A format with a percent sign is one of strftime."},
    {"__reduce__", date_time_reduce, METH_NOARGS, "__reduce__($self, /)\n--\n\nWhat pickle and copy keep."},
    {NULL, NULL, 0, NULL},
};

PyDoc_STRVAR(documentation,
"A date with a time of day, to the nanosecond, with or without a time zone.\n\n"
"DateTime(date, hour=0, minute=0, second=0, nanosecond=0)\n"
"DateTime(year, month, day, hour=0, minute=0, second=0, microsecond=0, tzinfo=None)\n\n"
">>> DateTime(Date(2024, 2, 29), 12) == DateTime(2024, 2, 29, 12)\nTrue\n\n"
"Both take microsecond and nanosecond by name; each is the whole fraction, so one of them can be given. Both take tzinfo, any\n"
"datetime.tzinfo, and fold, which is 1 for the second one of two equal local times. A DateTime is equal to the datetime.datetime\n"
"of the same time, or with time zones of the same instant, with the same hash. A move goes by the clock of the zone.\n\n"
">>> print(DateTime(Date(2016, 12, 31), 23, 59, 60) + Duration(seconds=1))\n2017-01-01T00:00:00\n\n"
"The time can be in a leap second, the second 60 of a minute. A move from there counts this leap second and no other.\n"
"Date-times are compared by date, then by time of day.\n\n"
"A difference is a Duration, also from or to a datetime.datetime. With different time zones it is that of the instants.\n"
"In a difference a leap second counts if one of the two is in it and has the smaller second of the day. So the sign of the\n"
"difference is the order on one date, but not always across two. For example, 2017-01-01T00:00:00 is -0.5 seconds from\n"
"2016-12-31T23:59:60.5, which is earlier.");

static PyType_Slot slots[] = {
    {Py_tp_doc, (void *)documentation},
    {Py_tp_getset, fields},
    {Py_tp_methods, methods},
    SLOT(Py_tp_new, date_time_new),
    SLOT(Py_tp_dealloc, date_time_free),
    SLOT(Py_tp_richcompare, date_time_compare),
    SLOT(Py_tp_hash, date_time_hash),
    SLOT(Py_tp_str, date_time_text),
    SLOT(Py_tp_repr, date_time_repr),
    SLOT(Py_nb_add, date_time_add),
    SLOT(Py_nb_subtract, date_time_subtract),
    {0, NULL},
};

static PyType_Spec spec = {
    .name = "proved_calendar.DateTime",
    .basicsize = sizeof(DateTime),
    .flags = Py_TPFLAGS_DEFAULT | Py_TPFLAGS_BASETYPE | Py_TPFLAGS_IMMUTABLETYPE,
    .slots = slots,
};

bool make_date_time_type(PyObject *module)
{
    date_time_type = add_type(module, &spec, "DateTime", "date hour minute second nanosecond");
    return date_time_type;
}
