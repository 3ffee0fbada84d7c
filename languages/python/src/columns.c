/* columns.c: loops over columns, for what the library has no function for columns of. ctypes calls them, with no lock of Python's.
 *
 * Open days, texts and the times at which a schedule is due come from the library. Written here by hand is how times of numpy become
 * date-times and come back. A time is a number of units since 1970, of which `day` make a day, and INT64_MIN is none. Columns of
 * one call have `count` elements each, and do not overlap. */
#include "package.h"

/* What ctypes sees; all else is hidden. */
#define LOOP __attribute__((visibility("default"))) void

#define DAY_OF_SECONDS INT64_C(86400)
#define NONE INT64_MIN

enum { NANOSECOND = 1000000000, TEXT = 32 };

/* A number of 128 bits, which ISO C has not. */
__extension__ typedef __int128 wide;

/* ---- times */

/* The number of times that a length goes into another, rounded down. */
static inline int64_t floored(int64_t of, int64_t length)
{
    int64_t whole = of / length;
    return whole - (whole * length > of);
}

/* ---- times as dates and what is left of them */

#define INLINE static inline __attribute__((always_inline))

/* Calls a loop, which stands in it for each number of units that is frequent: compilers divide by a known number faster. */
#define BY_DAY(loop, day, ...) \
    switch (day) { \
    case DAY_OF_SECONDS * NANOSECOND: loop(DAY_OF_SECONDS * NANOSECOND, __VA_ARGS__); break; \
    case DAY_OF_SECONDS * 1000000: loop(DAY_OF_SECONDS * 1000000, __VA_ARGS__); break; \
    case DAY_OF_SECONDS * 1000: loop(DAY_OF_SECONDS * 1000, __VA_ARGS__); break; \
    case DAY_OF_SECONDS: loop(DAY_OF_SECONDS, __VA_ARGS__); break; \
    default: loop(day, __VA_ARGS__); \
    }

INLINE void dates_of(int64_t day, const int64_t *times, size_t count, int32_t *dates)
{
    for (size_t i = 0; i < count; i++) {
        int64_t days = floored(times[i], day);
        bool is_date = CALENDAR_MIN - CALENDAR_UNIX_EPOCH <= days && days <= CALENDAR_MAX - CALENDAR_UNIX_EPOCH;
        dates[i] = is_date && times[i] != NONE ? (int32_t)days + CALENDAR_UNIX_EPOCH : CALENDAR_NONE;
    }
}

/* A time of a date; none if there is no date, or 64 bits cannot hold it. */
static int64_t held(wide time, int32_t date)
{
    bool is_held = date != CALENDAR_NONE && NONE <= time && time <= INT64_MAX;
    return is_held ? (int64_t)time : NONE;
}

INLINE void moved_by(int64_t day, const int64_t *times, const int32_t *starts, const int32_t *ends, size_t count, int64_t *moved)
{
    for (size_t i = 0; i < count; i++) {
        int64_t days = (int64_t)ends[i] - starts[i], end = (int64_t)ends[i] - CALENDAR_UNIX_EPOCH;
        moved[i] = (int64_t)((uint64_t)times[i] + (uint64_t)days * (uint64_t)day);
        /* (64 bits hold every time of the days between) */
        if (ends[i] == CALENDAR_NONE || end <= NONE / day || INT64_MAX / day <= end) {
            moved[i] = held(times[i] + (wide)days * day, ends[i]);
        }
    }
}

/* The day numbers of times. */
LOOP proved_dates_of_times(int64_t day, const int64_t *times, size_t count, int32_t *dates)
{
    BY_DAY(dates_of, day, times, count, dates)
}

/* Times after a move of their day numbers, at the same times of day; none where 64 bits cannot hold one. */
LOOP proved_times_moved(int64_t day, const int64_t *times, const int32_t *starts, const int32_t *ends, size_t count, int64_t *moved)
{
    BY_DAY(moved_by, day, times, starts, ends, count, moved)
}

/* ---- times as date-times */

/* The date-time of a time; with CALENDAR_NO_NANOS if there is none. */
static calendar_date_time moment_of_time(int64_t time, int64_t day)
{
    calendar_date_time moment = {0, CALENDAR_NO_NANOS};
    if (day < DAY_OF_SECONDS) {
        /* (none is the least number, which is far too) */
        bool is_far = __builtin_mul_overflow(time, DAY_OF_SECONDS / day, &moment.seconds);
        moment.nanos = is_far ? CALENDAR_NO_NANOS : 0;
    } else if (time != NONE) {
        int64_t units = day / DAY_OF_SECONDS;
        moment.seconds = floored(time, units);
        moment.nanos = (uint32_t)((time - moment.seconds * units) * (NANOSECOND / units));
    }
    return moment;
}

/* The time of a date-time; none if its unit or 64 bits cannot hold it, as none holds a leap second. */
static int64_t time_of_moment(calendar_date_time moment, int64_t day)
{
    int64_t units = day / DAY_OF_SECONDS, seconds = moment.seconds, time;
    if (moment.nanos >= NANOSECOND) {
        return NONE;
    }
    if (day < DAY_OF_SECONDS) {
        time = seconds / (DAY_OF_SECONDS / day);
        return moment.nanos == 0 && time * (DAY_OF_SECONDS / day) == seconds ? time : NONE;
    }
    int64_t rest = moment.nanos / (NANOSECOND / units);
    bool is_whole = moment.nanos % (NANOSECOND / units) == 0;
    /* (before 1970 it is counted back from the next second, since the beginning of its own may not fit) */
    if (seconds < 0 && rest > 0) {
        seconds += 1;
        rest -= units;
    }
    bool is_far = __builtin_mul_overflow(seconds, units, &time) || __builtin_add_overflow(time, rest, &time);
    return is_whole && !is_far ? time : NONE;
}

LOOP proved_next_due(const uint8_t *text, size_t length, const int64_t *times, size_t count, int64_t day, int64_t due_day,
                     int64_t *due)
{
    calendar_schedule schedule;
    calendar_fault fault;
    bool is_read = calendar_schedule_read(text, length, &schedule, &fault);
    for (size_t i = 0; i < count; i++) {
        due[i] = is_read ? time_of_moment(calendar_schedule_next(&schedule, moment_of_time(times[i], day)), due_day) : NONE;
    }
}

LOOP proved_write_times(const int64_t *times, size_t count, int64_t day, uint8_t *texts)
{
    for (size_t i = 0; i < count; i++) {
        uint8_t *text = &texts[TEXT * i];
        int32_t length = calendar_write_date_time(moment_of_time(times[i], day), text, TEXT);
        for (size_t place = length < 0 ? 0 : (size_t)length; place < TEXT; place++) {
            text[place] = 0;
        }
    }
}

/* Reads texts of `width` bytes each, behind whose end are zero bytes. */
LOOP proved_read_times(const uint8_t *texts, size_t width, size_t count, int64_t day, int64_t *times)
{
    for (size_t i = 0; i < count; i++) {
        const uint8_t *text = &texts[width * i];
        size_t length = width;
        while (length > 0 && text[length - 1] == 0) {
            length--;
        }
        calendar_date_time moment = calendar_read_date_time(text, length);
        times[i] = time_of_moment(moment, day);
    }
}

/* ---- open days and day counts: a calendar is a weekend and holidays, of which there are `closed` */

/* The open day that is so many open days later, with its own number for each date. Both lie in the years. */
LOOP proved_add_open(int64_t weekend, const int32_t *holidays, size_t closed, int64_t first_year, int64_t last_year, const int32_t *dates,
                     const int64_t *steps, size_t count, int32_t *moved)
{
    int32_t first = (int32_t)first_year, last = (int32_t)last_year;
    for (size_t i = 0; i < count; i++) {
        moved[i] = calendar_add_open_days_within((uint8_t)weekend, holidays, closed, first, last, dates[i], steps[i]);
    }
}

LOOP proved_day_counts(int64_t kind, const int32_t *dates, const int32_t *ends, size_t count, int64_t *numerators,
                       int64_t *denominators)
{
    for (size_t i = 0; i < count; i++) {
        calendar_fraction part = calendar_day_count((uint32_t)kind, dates[i], ends[i]);
        numerators[i] = part.numerator;
        denominators[i] = part.denominator;
    }
}
