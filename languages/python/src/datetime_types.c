/* datetime_types.c: values of Python's own module datetime, whose C functions are not in the limited API. */
#include "package.h"

#include <string.h>

/* The days of datetime: 1 January of year 1 is the first. */
enum { FIRST_DAY = 1, LAST_DAY = 3652059, LONGEST_DAYS = 999999999 };

/* The nanoseconds of a microsecond. */
enum { MICROSECOND = 1000 };

static PyTypeObject *date_class, *datetime_class, *timedelta_class, *tzinfo_class;
static PyObject *from_ordinal, *utc;

/* A field of timedelta, as its class reads it, and where an object has it. */
typedef struct {
    const char *name;
    PyObject *member;
    descrgetfunc get;
    Py_ssize_t place;
} Field;

enum { FIELDS = 3 };

static Field fields[FIELDS] = {{.name = "days"}, {.name = "seconds"}, {.name = "microseconds"}};

/* Whether the places of the fields are known. */
static bool has_places;

static bool take_class(PyObject *module, const char *name, PyTypeObject **class)
{
    *class = (PyTypeObject *)PyObject_GetAttrString(module, name);
    return *class;
}

static bool take_field(Field *field)
{
    field->member = PyObject_GetAttrString((PyObject *)timedelta_class, field->name);
    field->get = field->member ? FROM_SLOT(descrgetfunc, Py_TYPE(field->member), Py_tp_descr_get) : NULL;
    if (field->member && !field->get) {
        PyErr_Format(PyExc_ImportError, "timedelta.%s is no field of a class in C", field->name);
    }
    return field->get;
}

/* The only place, of those for an int behind the head of an object, where a timedelta holds a number; 0 if there is none. */
static Py_ssize_t place_of(const PyObject *it, Py_ssize_t size, int number)
{
    Py_ssize_t place = 0;
    int found = 0;
    for (Py_ssize_t i = sizeof(PyObject); i + (Py_ssize_t)sizeof number <= size; i += sizeof number) {
        if (memcmp((const char *)it + i, &number, sizeof number) == 0) {
            place = i;
            found++;
        }
    }
    return found == 1 ? place : 0;
}

/* Looks where timedeltas hold their fields: to read them there takes a third of the time that their class takes. The places
 * have to be the same in two timedeltas of numbers that stand nowhere by chance; else they are read by the class. */
static bool find_places(void)
{
    static const int samples[2][FIELDS] = {{123456789, 76543, 987654}, {-87654321, 23456, 345678}};
    PyObject *size = PyObject_GetAttrString((PyObject *)timedelta_class, "__basicsize__");
    Py_ssize_t bytes = size ? PyLong_AsSsize_t(size) : -1;
    Py_XDECREF(size);
    has_places = bytes > 0;
    for (int sample = 0; bytes > 0 && sample < 2; sample++) {
        const int *numbers = samples[sample];
        PyObject *it = PyObject_CallFunction((PyObject *)timedelta_class, "iii", numbers[0], numbers[1], numbers[2]);
        for (int i = 0; it && i < FIELDS; i++) {
            Py_ssize_t place = place_of(it, bytes, numbers[i]);
            has_places = has_places && place && (sample == 0 || place == fields[i].place);
            fields[i].place = place;
        }
        Py_XDECREF(it);
    }
    return !PyErr_Occurred();
}

/* What values of datetime are asked for, first the parts of a clock. */
enum { TZINFO = 4, FOLD, TO_ORDINAL, NAMES };
static PyObject *names[NAMES];

/* Whether datetime's hashes are those of the bytes that its values are made of, as they are in C. */
static bool hashes_bytes;

/* Lets an object go that was just made; its hash, or -1 if it was not made. */
static Py_hash_t take_hash(PyObject *it)
{
    Py_hash_t hash = it ? PyObject_Hash(it) : -1;
    Py_XDECREF(it);
    return hash;
}

static Py_hash_t hash_of_bytes(const uint8_t *bytes, Py_ssize_t count)
{
    return take_hash(PyBytes_FromStringAndSize((const char *)bytes, count));
}

/* The bytes of a date: its year, the high byte first, month and day. */
static void write_name(int32_t number, uint8_t bytes[4])
{
    calendar_ymd name = calendar_split(number);
    bytes[0] = (uint8_t)(name.year >> 8);
    bytes[1] = (uint8_t)name.year;
    bytes[2] = name.month;
    bytes[3] = name.day;
}

Py_hash_t hash_of_python_date(int32_t number)
{
    uint8_t bytes[4];
    if (!hashes_bytes) {
        return take_hash(python_date(number));
    }
    write_name(number, bytes);
    return hash_of_bytes(bytes, sizeof bytes);
}

Py_hash_t hash_of_python_datetime(int32_t number, const int64_t clock[4])
{
    int64_t microsecond = clock[3] / MICROSECOND;
    uint8_t bytes[10] = {[4] = (uint8_t)clock[0], (uint8_t)clock[1], (uint8_t)clock[2],
                         (uint8_t)(microsecond >> 16), (uint8_t)(microsecond >> 8), (uint8_t)microsecond};
    if (!hashes_bytes) {
        return take_hash(python_datetime(number, clock, (Zoning){0}));
    }
    write_name(number, bytes);
    return hash_of_bytes(bytes, sizeof bytes);
}

Py_hash_t hash_of_timedelta(int64_t days, int32_t seconds, int32_t microseconds)
{
    return take_hash(python_timedelta(days, seconds, microseconds));
}

Py_hash_t hash_of_nanoseconds(int64_t seconds, uint32_t nanos)
{
    const int64_t second = 1000000000, whole = INT64_MAX / second;
    bool has_64_bits = -whole <= seconds && seconds < whole;
    return has_64_bits ? take_hash(PyLong_FromLongLong(second * seconds + nanos)) : hash_of(seconds, nanos);
}

/* Finds out whether datetime hashes the bytes; false after an error. */
static bool look_at_hashes(void)
{
    enum { LEAP_DAY = 738945 };
    const int64_t clock[4] = {23, 58, 57, 987654000};
    hashes_bytes = true;
    Py_hash_t hashes[2] = {hash_of_python_date(LEAP_DAY), hash_of_python_datetime(LEAP_DAY, clock)};
    hashes_bytes = hashes[0] == take_hash(python_date(LEAP_DAY)) && hashes[1] == take_hash(python_datetime(LEAP_DAY, clock, (Zoning){0}));
    return !PyErr_Occurred();
}

/* Makes the names once; false after an error. */
static bool take_names(void)
{
    static const char *const texts[NAMES] = {"hour", "minute", "second", "microsecond", "tzinfo", "fold", "toordinal"};
    for (int i = 0; i < NAMES; i++) {
        names[i] = PyUnicode_InternFromString(texts[i]);
        if (!names[i]) {
            return false;
        }
    }
    return true;
}

bool take_datetime(void)
{
    PyObject *module = PyImport_ImportModule("datetime");
    bool is_taken = module && take_class(module, "date", &date_class) && take_class(module, "datetime", &datetime_class)
        && take_class(module, "timedelta", &timedelta_class) && take_class(module, "tzinfo", &tzinfo_class);
    PyObject *fixed = is_taken ? PyObject_GetAttrString(module, "timezone") : NULL;
    utc = fixed ? PyObject_GetAttrString(fixed, "utc") : NULL;
    Py_XDECREF(fixed);
    Py_XDECREF(module);
    from_ordinal = is_taken ? PyObject_GetAttrString((PyObject *)date_class, "fromordinal") : NULL;
    return from_ordinal && utc && take_names() && take_field(&fields[0]) && take_field(&fields[1]) && take_field(&fields[2])
        && find_places() && look_at_hashes();
}

bool is_python_date(PyObject *it)
{
    return PyObject_TypeCheck(it, date_class);
}

bool is_python_datetime(PyObject *it)
{
    return PyObject_TypeCheck(it, datetime_class);
}

bool is_tzinfo(PyObject *it)
{
    return PyObject_TypeCheck(it, tzinfo_class);
}

PyObject *tzinfo_type(void)
{
    return (PyObject *)tzinfo_class;
}

bool is_utc(PyObject *it)
{
    return it == utc;
}

PyObject *utc_zone(void)
{
    return utc;
}

bool is_timedelta(PyObject *it)
{
    return PyObject_TypeCheck(it, timedelta_class);
}

/* Reads a whole number that was just made, and lets it go; false if it was not made. */
static bool take_whole(PyObject *it, int64_t *number)
{
    bool is_read = it && read_whole(it, number);
    Py_XDECREF(it);
    return is_read;
}

static bool read_field(const Field *field, PyObject *it, int64_t *number)
{
    return take_whole(field->get(field->member, it, (PyObject *)timedelta_class), number);
}

/* The number that an object has at a place. */
static int64_t number_at(const PyObject *it, Py_ssize_t place)
{
    int number;
    memcpy(&number, (const char *)it + place, sizeof number);
    return number;
}

/* Reads the nanoseconds past the microseconds that an object of a class derived from datetime's keeps, as pandas' do; 0 where
 * it has none. */
static bool read_nanoseconds(PyObject *it, const PyTypeObject *class, const char *name, int64_t *nanoseconds)
{
    *nanoseconds = 0;
    if (Py_TYPE(it) == class || !PyObject_HasAttrString(it, name)) {
        return true;
    }
    if (!take_whole(PyObject_GetAttrString(it, name), nanoseconds)) {
        return false;
    }
    bool is_part = 0 <= *nanoseconds && *nanoseconds < MICROSECOND;
    if (!is_part) {
        refuse_part(name, *nanoseconds, "past the microseconds they are 0 to 999");
    }
    return is_part;
}

bool read_timedelta(PyObject *it, int64_t *days, int64_t *seconds, int64_t *nanoseconds)
{
    int64_t microseconds, past;
    if (has_places) {
        *days = number_at(it, fields[0].place);
        *seconds = number_at(it, fields[1].place);
        microseconds = number_at(it, fields[2].place);
    } else if (!read_field(&fields[0], it, days) || !read_field(&fields[1], it, seconds)
               || !read_field(&fields[2], it, &microseconds)) {
        return false;
    }
    if (!read_nanoseconds(it, timedelta_class, "nanoseconds", &past)) {
        return false;
    }
    *nanoseconds = MICROSECOND * microseconds + past;
    return true;
}

bool read_python_date(PyObject *it, int32_t *number)
{
    int64_t ordinal;
    if (!take_whole(PyObject_CallMethodObjArgs(it, names[TO_ORDINAL], NULL), &ordinal)) {
        return false;
    }
    if (ordinal < FIRST_DAY || ordinal > LAST_DAY) {
        refuse_part("ordinal", ordinal, "datetime has 1 to 3652059");
        return false;
    }
    *number = (int32_t)ordinal;
    return true;
}

bool read_python_datetime(PyObject *it, int32_t *number, int64_t clock[4])
{
    for (int i = 0; i < 4; i++) {
        if (!take_whole(PyObject_GetAttr(it, names[i]), &clock[i])) {
            return false;
        }
    }
    int64_t past;
    if (!read_nanoseconds(it, datetime_class, "nanosecond", &past)) {
        return false;
    }
    clock[3] = MICROSECOND * clock[3] + past;
    return read_python_date(it, number);
}

bool read_python_zoning(PyObject *it, Zoning *zoning)
{
    int64_t fold;
    zoning->zone = PyObject_GetAttr(it, names[TZINFO]);
    if (!zoning->zone || !take_whole(PyObject_GetAttr(it, names[FOLD]), &fold)) {
        Py_CLEAR(zoning->zone);
        return false;
    }
    if (zoning->zone == Py_None) {
        Py_CLEAR(zoning->zone);
    }
    zoning->fold = fold != 0;
    return true;
}

bool has_python_date(int32_t number)
{
    return FIRST_DAY <= number && number <= LAST_DAY;
}

bool has_timedelta(int64_t days)
{
    return -LONGEST_DAYS <= days && days <= LONGEST_DAYS;
}

/* Whether datetime has a day; an OverflowError if not. */
static bool is_day(int32_t number)
{
    if (!has_python_date(number)) {
        PyErr_Format(PyExc_OverflowError, "year %d: datetime has the years 1 to 9999", (int)calendar_year(number));
        return false;
    }
    return true;
}

PyObject *python_date(int32_t number)
{
    return is_day(number) ? PyObject_CallFunction(from_ordinal, "i", (int)number) : NULL;
}

PyObject *python_datetime(int32_t number, const int64_t clock[4], Zoning zoning)
{
    if (clock[2] == 60) {
        PyErr_SetString(PyExc_ValueError, "second 60: datetime has no leap seconds");
        return NULL;
    }
    if (clock[3] % 1000 != 0) {
        PyErr_Format(PyExc_ValueError, "nanosecond %d: datetime has whole microseconds", (int)clock[3]);
        return NULL;
    }
    if (!is_day(number)) {
        return NULL;
    }
    calendar_ymd name = calendar_split(number);
    PyObject *parts = Py_BuildValue("(iiiiiiiO)", (int)name.year, (int)name.month, (int)name.day, (int)clock[0], (int)clock[1],
                                    (int)clock[2], (int)(clock[3] / 1000), zoning.zone ? zoning.zone : Py_None);
    /* (a keyword takes a dictionary, and most have no fold) */
    PyObject *named = zoning.fold ? Py_BuildValue("{Oi}", names[FOLD], 1) : NULL;
    PyObject *result = parts && !PyErr_Occurred() ? PyObject_Call((PyObject *)datetime_class, parts, named) : NULL;
    Py_XDECREF(parts);
    Py_XDECREF(named);
    return result;
}

PyObject *python_timedelta(int64_t days, int32_t seconds, int32_t microseconds)
{
    if (!has_timedelta(days)) {
        PyErr_SetString(PyExc_OverflowError, "timedelta has at most 999,999,999 days");
        return NULL;
    }
    return PyObject_CallFunction((PyObject *)timedelta_class, "iii", (int)days, (int)seconds, (int)microseconds);
}
