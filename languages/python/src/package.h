/* package.h: what the files of this extension share.
 *
 * The extension stands on the functions of calendar.h and calendar_layers.h, which are proved, and keeps to Python's limited API, so that one build
 * serves every Python from 3.10 on. Each type has a file; what is written here by hand is how values of Python become numbers
 * and come back, and what is said where there is no date. */
#ifndef PROVED_CALENDAR_PACKAGE_H
#define PROVED_CALENDAR_PACKAGE_H

#define Py_LIMITED_API 0x030A0000
#define PY_SSIZE_T_CLEAN
#include <Python.h>

#include "calendar.h"
#include "calendar_layers.h"

/* A function in the slot of a type, that of a slot, and a method that takes more than its object: C has no type for any. */
#define SLOT(slot, function) {slot, __extension__(void *)(function)}
#define FROM_SLOT(kind, type, slot) (__extension__(kind)PyType_GetSlot(type, slot))
#define METHOD(function) ((PyCFunction)(void (*)(void))(function))

/* A date: its day number, from CALENDAR_MIN to CALENDAR_MAX, and what was asked of it before: its hash, or -1, its year, or
 * CALENDAR_NONE, its month and its day, or 0. */
typedef struct {
    PyObject_HEAD
    Py_hash_t hash;
    int32_t number, year;
    uint8_t month, day;
} Date;

/* The time zone of a date-time, as datetime has them: a tzinfo, or null for none, and which one of two equal local times is meant. */
typedef struct {
    PyObject *zone;
    bool fold;
} Zoning;

/* A date-time: the fields of one, which a clock of its zone shows, the zone, and what was asked of it before: its hash, or -1, and
 * the number of its date and its second of the day, or CALENDAR_NONE. */
typedef struct {
    PyObject_HEAD
    Py_hash_t hash;
    calendar_date_time moment;
    int32_t number, second;
    Zoning zoning;
} DateTime;

/* A duration: the fields of one, and its hash, or -1 if it was not asked for. */
typedef struct {
    PyObject_HEAD
    Py_hash_t hash;
    calendar_duration length;
} Duration;

/* The types; each is made once, when the module is. */
extern PyTypeObject *date_type;
extern PyTypeObject *date_time_type;
extern PyTypeObject *duration_type;
bool make_date_type(PyObject *module);
bool make_date_time_type(PyObject *module);
bool make_duration_type(PyObject *module);

static inline bool is_date(PyObject *it)
{
    return PyObject_TypeCheck(it, date_type);
}

static inline bool is_date_time(PyObject *it)
{
    return PyObject_TypeCheck(it, date_time_type);
}

static inline bool is_duration(PyObject *it)
{
    return PyObject_TypeCheck(it, duration_type);
}

static inline int32_t number_of(PyObject *date)
{
    return ((Date *)date)->number;
}

static inline calendar_date_time moment_of(PyObject *date_time)
{
    return ((DateTime *)date_time)->moment;
}

static inline Zoning zoning_of(PyObject *date_time)
{
    return ((DateTime *)date_time)->zoning;
}

static inline calendar_duration length_of(PyObject *duration)
{
    return ((Duration *)duration)->length;
}

/* ---- objects (objects.c) */

enum { KEPT = 64 };

/* Memory of objects of a type that are gone, for its next ones: to ask Python for memory takes a third of making an object. */
typedef struct {
    int count;
    void *blocks[KEPT];
} Blocks;

/* An object of this type or of one that a user made from it; what lies behind its head is to be written. */
static inline PyObject *new_object(PyTypeObject *kind, PyTypeObject *base, Blocks *kept)
{
    if (kind != base) {
        return FROM_SLOT(allocfunc, kind, Py_tp_alloc)(kind, 0);
    }
    return kept->count ? PyObject_Init(kept->blocks[--kept->count], kind) : (PyObject *)PyObject_New(PyObject, kind);
}

/* Frees such an object. */
static inline void free_object(PyObject *self, PyTypeObject *base, Blocks *kept)
{
    PyTypeObject *kind = Py_TYPE(self);
    if (kind != base) {
        FROM_SLOT(freefunc, kind, Py_tp_free)(self);
    } else if (kept->count < KEPT) {
        kept->blocks[kept->count++] = self;
    } else {
        PyObject_Free(self);
    }
    Py_DECREF(kind);
}

/* Adds a type to the module, with the names that a pattern takes in order, if it takes any; null if that fails. */
PyTypeObject *add_type(PyObject *module, PyType_Spec *spec, const char *name, const char *match_args);

/* The same of a type that stands on another. */
PyTypeObject *add_type_of(PyObject *module, PyType_Spec *spec, const char *name, PyObject *base);

bool set_on_type(PyObject *type, const char *name, PyObject *value);

/* Gives a type of this module a member that is written in Python. */
PyObject *extend(PyObject *module, PyObject *const *arguments, Py_ssize_t count);

/* Modules of the package that are written in Python. */
#define TEXTS "proved_calendar._texts"
#define ZONED "proved_calendar._zoned"

/* What a function of a module of the package returns, which is written in Python; the arguments as Py_BuildValue has them. */
PyObject *by_python(const char *module, const char *name, const char *format, ...);

/* The hash of an object that has two fields. */
static inline Py_hash_t hash_of(int64_t seconds, uint32_t nanos)
{
    /* (an odd factor, so that no two fields near to each other share a hash) */
    Py_hash_t hash = (Py_hash_t)((uint64_t)seconds * UINT64_C(0x9e3779b97f4a7c15) + nanos);
    return hash == -1 ? -2 : hash;
}

/* What pickle keeps of an object: how it is made again, and the attributes that a user's class gave it. Takes both references. */
PyObject *reduced(PyObject *self, PyObject *maker, PyObject *arguments);

/* Whether the arguments of a type are the bytes that datetime pickles for its values, or a text of them. A function of the package makes
 * the value: None if they are no such bytes, and null with an error if they are those of no value. */
bool is_made_of_state(PyTypeObject *kind, PyObject *arguments, PyObject *keywords, const char *name, PyObject **made);

/* The text of an object in a width, as `format` has it for texts; or by its strftime, if the format has a percent sign. */
PyObject *formatted(PyObject *self, PyObject *format);

/* ---- numbers and arguments (arguments.c) */

enum { PARTS = 10 };

/* The parameters of a call, by name: of those that are given by place there are `places` at most. */
typedef struct {
    const char *call;
    Py_ssize_t count, needed, places;
    const char *names[PARTS];
    PyObject *keys[PARTS];
} Signature;

/* Reads a whole number, as `operator.index` has it; beyond 64 bits it is INT64_MIN or INT64_MAX, and no error. */
static inline bool read_whole(PyObject *it, int64_t *number)
{
    int beyond;
    *number = PyLong_AsLongLongAndOverflow(it, &beyond);
    if (beyond) {
        *number = beyond < 0 ? INT64_MIN : INT64_MAX;
    }
    return *number != -1 || !PyErr_Occurred();
}

static inline bool is_i32(int64_t number)
{
    return INT32_MIN <= number && number <= INT32_MAX;
}

static inline bool is_u32(int64_t number)
{
    return 0 <= number && number <= UINT32_MAX;
}

/* Gives each parameter its argument, and null to each that is left out; false with a TypeError if they do not fit. */
bool take_tuple(Signature *to, PyObject *arguments, PyObject *keywords, PyObject **parts);
bool take_array(Signature *to, PyObject *const *arguments, Py_ssize_t count, PyObject *keywords, PyObject **parts);

/* Whether so many arguments are given; a TypeError if not. */
bool has_arguments(const char *call, Py_ssize_t wanted, Py_ssize_t count);

/* A TypeError, in place of any other error: another type was wanted. */
PyObject *refuse_type(const char *wanted, PyObject *it);

/* ---- weekdays (weekday.c) */

/* Takes the members of the class Weekday. */
bool take_weekdays(void);

/* A member, by its number from 1 to 7. */
PyObject *weekday_member(int32_t weekday);

/* Reads a weekday's number from 1 to 7; a ValueError if it is none. */
bool read_weekday(PyObject *it, uint32_t *weekday);

/* Reads some weekdays as a set of calendar.h, or none of them. */
bool read_weekday_set(PyObject *it, uint8_t *weekdays);

/* The same; a ValueError if there are none of them. */
bool read_weekdays(PyObject *it, uint8_t *weekdays);

/* The numbers of a set of weekdays, as a list. */
PyObject *list_of_weekdays(uint8_t weekdays);

/* ---- dates (date.c) */

/* The date of a type with a number, which is one of a date. */
PyObject *date_of(PyTypeObject *kind, int32_t number);

/* The number of the date with a name; CALENDAR_NONE and a ValueError that names the part if there is none. */
int32_t number_of_name(int64_t year, int64_t month, int64_t day);

/* Reads a Date or a datetime.date; a TypeError if it is neither. */
bool take_date(PyObject *it, int32_t *number);

/* Year, month and day of a date, each in place of a part that is left out. */
bool read_name(int32_t number, PyObject *const parts[3], int64_t name[3]);

/* ---- date-times (date_time.c) */

/* A date-time of a type, from fields that are one. */
PyObject *date_time_of(PyTypeObject *kind, calendar_date_time moment);

/* Reads a DateTime or a datetime.datetime; a TypeError if it is neither, and a ValueError if it has a time zone. */
bool take_moment(PyObject *it, calendar_date_time *moment);

/* Reads a DateTime or a datetime.datetime and its zoning, of which the zone is a new reference; *is_one says whether it is either. */
bool read_moment(PyObject *it, calendar_date_time *moment, Zoning *zoning, bool *is_one);

/* Reads a date-time with a time zone as what UTC shows there; a TypeError if it is none. */
bool take_instant(PyObject *it, calendar_date_time *utc);

/* The date-time of a type that the clock of a Zone shows where UTC shows a moment; an OverflowError beyond the calendar. */
PyObject *date_time_by_zone(PyTypeObject *kind, PyObject *zone, calendar_date_time utc);

/* The last date-time of the calendar. */
calendar_date_time last_moment(void);

/* ---- time zones (zone.c) */

bool make_zone_type(PyObject *module);
bool is_zone(PyObject *it);
const uint8_t *bytes_of_zone(PyObject *zone, size_t *length);

/* The offset of what the clock of a Zone shows, and what UTC shows there; by a fold the second one of two. No nanos beyond the calendar. */
int32_t offset_by_zone(PyObject *zone, calendar_date_time moment, bool fold);
calendar_date_time utc_by_zone(PyObject *zone, calendar_date_time moment, bool fold);

/* What the clock of a Zone shows where UTC shows a moment, in whose zoning the zone is no new reference. No nanos beyond the calendar. */
calendar_date_time shown_by_zone(PyObject *zone, calendar_date_time utc, Zoning *zoning);

/* ---- patterns, schedules, rules and open days (pattern.c, schedule.c, rule.c, business.c) */

bool make_pattern_type(PyObject *module);
bool make_schedule_types(PyObject *module);
bool make_rule_types(PyObject *module);
bool make_business_type(PyObject *module);
PyObject *day_count(PyObject *module, PyObject *const *arguments, Py_ssize_t count);
PyObject *easter(PyObject *module, PyObject *it);

/* ---- what the classes CalendarText and TimedSchedule ask of the library (calendars.c) */

PyObject *calendar_fault_of_text(PyObject *module, PyObject *const *arguments, Py_ssize_t count);
PyObject *calendar_zone_of_text(PyObject *module, PyObject *it);
PyObject *calendar_instant_of_text(PyObject *module, PyObject *const *arguments, Py_ssize_t count);
PyObject *calendar_text_has(PyObject *module, PyObject *const *arguments, Py_ssize_t count);
PyObject *calendar_instants_of_text(PyObject *module, PyObject *const *arguments, Py_ssize_t count);
PyObject *fault_of_timed_schedule(PyObject *module, PyObject *const *arguments, Py_ssize_t count);
PyObject *moment_of_timed_schedule(PyObject *module, PyObject *const *arguments, Py_ssize_t count);
PyObject *is_moment_of_timed_schedule(PyObject *module, PyObject *const *arguments, Py_ssize_t count);

/* ---- ISO year, week and weekday as a tuple (iso_calendar.c) */

bool make_iso_calendar_type(PyObject *module);

/* Those of the date with a number. */
PyObject *iso_calendar(int32_t number);

/* ---- durations (duration.c) */

/* The duration of a type, from fields that are one. */
PyObject *duration_of(PyTypeObject *kind, calendar_duration length);

/* Reads a Duration or a timedelta; *is_one says whether it is either. False with an error if it cannot be read. */
bool read_length(PyObject *it, calendar_duration *length, bool *is_one);

/* The length the other way. */
calendar_duration back(calendar_duration length);

/* ---- the types of datetime (datetime_types.c) */

/* Takes what is needed of the module datetime. */
bool take_datetime(void);

bool is_python_date(PyObject *it);
bool is_python_datetime(PyObject *it);
bool is_timedelta(PyObject *it);

/* The parts of a timedelta, with the nanoseconds past its microseconds that a class derived from it keeps, as pandas' does. */
bool read_timedelta(PyObject *it, int64_t *days, int64_t *seconds, int64_t *nanoseconds);

bool is_tzinfo(PyObject *it);
PyObject *tzinfo_type(void);

/* Whether it is datetime.timezone.utc, and that itself. */
bool is_utc(PyObject *it);
PyObject *utc_zone(void);

/* The day number of a `datetime.date`, and the parts of a `datetime.datetime`, with the nanoseconds past its microseconds that a
 * class derived from it keeps, as pandas' does. */
bool read_python_date(PyObject *it, int32_t *number);
bool read_python_datetime(PyObject *it, int32_t *number, int64_t clock[4]);

/* Its time zone and its fold; the zone is a new reference, or null. */
bool read_python_zoning(PyObject *it, Zoning *zoning);

/* The hashes of datetime's values with these parts, which stand for each other as keys. */
Py_hash_t hash_of_python_date(int32_t number);
Py_hash_t hash_of_python_datetime(int32_t number, const int64_t clock[4]);
Py_hash_t hash_of_timedelta(int64_t days, int32_t seconds, int32_t microseconds);

/* The hash of a value with a fraction of a microsecond, as pandas has it where its whole nanoseconds have 64 bits. */
Py_hash_t hash_of_nanoseconds(int64_t seconds, uint32_t nanos);

/* Whether datetime has a date of this number, or a timedelta of these days. */
bool has_python_date(int32_t number);
bool has_timedelta(int64_t days);

/* The types of datetime from what they are made of. */
PyObject *python_date(int32_t number);
PyObject *python_datetime(int32_t number, const int64_t clock[4], Zoning zoning);
PyObject *python_timedelta(int64_t days, int32_t seconds, int32_t microseconds);

/* ---- why there is no such date (refusals.c): a ValueError that names the part */

void refuse_name(int64_t year, int64_t month, int64_t day);
void refuse_ordinal(int64_t year, int64_t ordinal);
void refuse_iso_week(int64_t year, int64_t week, int64_t weekday);
void refuse_weekday_of_month(int64_t year, int64_t month, int64_t weekday, int64_t n);
void refuse_month(int64_t year, int64_t month);
/* The number that some digits write; -1 if they are other bytes. */
int read_digits(const char *bytes, size_t length);
/* Of a text, the first bytes are where its date stands. */
void refuse_text(PyObject *text, const char *bytes, size_t length, const char *kind);

/* A TextError: what is wrong with a text, of which the bytes from `start` to `end` are wrong. */
PyObject *refuse_bytes(PyObject *text, const uint8_t *said, int32_t length, size_t start, size_t end);

/* A ValueError: a part cannot be this number. */
void refuse_part(const char *part, int64_t number, const char *reason);

#endif
