/* instants.c: when a schedule fires by the clock of the session's zone. */
#include "extension.h"

#include "miscadmin.h"
#include "pgtime.h"

/* So many changes of the clock are asked for at a time: those of eight years, where it is set twice a year. */
#define CHANGES 16
/* Whether a schedule fires at an instant is told by the clock of the three days before and behind. */
#define REACH (3 * SECS_PER_DAY)
/* The bytes of a TZif file with so many changes: two headers, each with a kind of local time or one for each stretch, and a footer. */
#define HEADER 44
#define NAME 4
#define KIND 6
#define ROOM (HEADER + KIND + NAME + HEADER + CHANGES * (8 + 1) + (CHANGES + 1) * KIND + NAME + 2)

/* The session's zone as the library reads zones: bytes as of a TZif file. They tell its clock from one instant on and up to another. PostgreSQL
 * keeps its zones until the session ends, so the pointer says which it is. */
typedef struct {
    const pg_tz *zone;
    pg_time_t from, end;
    bool has_end;
    size_t length;
    uint8_t bytes[ROOM];
} Clock;

/* The clock that a call asked for last. */
static Clock kept;

/* A stretch of time in which a zone keeps its offset: from an instant on, in seconds since 1970. */
typedef struct {
    int64 offset;
    bool has_end;
    pg_time_t end;
} Stretch;

static Stretch stretch_from(pg_time_t second)
{
    long before, after;
    int is_summer;
    Stretch stretch;
    int found = pg_next_dst_boundary(&second, &before, &is_summer, &stretch.end, &after, &is_summer, session_timezone);
    if (found < 0) {
        ereport(ERROR, (errcode(ERRCODE_DATETIME_VALUE_OUT_OF_RANGE), errmsg("the session's time zone has no such time")));
    }
    stretch.offset = before;
    stretch.has_end = found > 0;
    return stretch;
}

/* Puts the last so many bytes of a number, the greatest first, and returns where they end. */
static uint8_t *put(uint8_t *to, int64 number, int count)
{
    for (int i = count - 1; i >= 0; i--) {
        *to++ = (uint8_t)((uint64)number >> (8 * i));
    }
    return to;
}

/* Puts a header of version 2, for so many changes, and one kind of local time more. */
static uint8_t *put_header(uint8_t *to, int changes)
{
    memcpy(to, "TZif2\0\0\0\0\0\0\0\0\0\0\0\0\0\0\0", 20);
    to = put(to + 20, 0, 4);
    to = put(to, 0, 4);
    to = put(to, 0, 4);
    to = put(to, changes, 4);
    to = put(to, changes + 1, 4);
    return put(to, NAME, 4);
}

/* Puts a kind of local time, which is no summer time, and has the first name. */
static uint8_t *put_kind(uint8_t *to, int64 offset)
{
    return put(put(to, offset, 4), 0, 2);
}

static uint8_t *put_name(uint8_t *to)
{
    memcpy(to, "LMT", NAME);
    return to + NAME;
}

/* Keeps the clock of the session's zone from an instant on. */
static void keep_clock(pg_time_t from)
{
    Stretch stretches[CHANGES + 1];
    int changes = 0;
    kept.zone = NULL;
    stretches[0] = stretch_from(from);
    while (changes < CHANGES && stretches[changes].has_end) {
        stretches[changes + 1] = stretch_from(stretches[changes].end);
        changes++;
    }
    uint8_t *to = put_name(put_kind(put_header(kept.bytes, 0), 0));
    to = put_header(to, changes);
    for (int i = 0; i < changes; i++) {
        to = put(to, stretches[i].end, 8);
    }
    for (int i = 0; i < changes; i++) {
        to = put(to, i + 1, 1);
    }
    for (int i = 0; i <= changes; i++) {
        to = put_kind(to, stretches[i].offset);
    }
    to = put_name(to);
    memcpy(to, "\n\n", 2);
    kept.length = (size_t)(to + 2 - kept.bytes);
    kept.has_end = stretches[changes].has_end;
    kept.end = stretches[changes].end;
    kept.from = from;
    calendar_fault fault;
    if (!calendar_zone_check(kept.bytes, kept.length, &fault)) {
        ereport(ERROR, (errcode(ERRCODE_FEATURE_NOT_SUPPORTED), errmsg("the session's time zone is none of the library's")));
    }
    kept.zone = session_timezone;
}

/* Whether the clock that is kept tells what fires behind an instant of a second, at least in the second that follows. */
static bool is_kept(pg_time_t second)
{
    return kept.zone == session_timezone && kept.from <= second - REACH && (!kept.has_end || second + 1 < kept.end - REACH);
}

/* The last moment before a second. */
static calendar_date_time just_before(pg_time_t second)
{
    calendar_date_time moment = {second - 1, 999999999};
    return moment;
}

/* The library tells when the schedule fires by the clock that is kept. Behind the end of that, the search goes on by the next one. */
bool next_instant(const calendar_schedule *schedule, TimestampTz after, TimestampTz *due)
{
    calendar_date_time start = moment_of(after);
    for (;;) {
        CHECK_FOR_INTERRUPTS();
        /* (no clock is ahead of UTC by a day, so what is planned later by UTC's date-times does not fire before a day less) */
        calendar_date_time planned = start;
        planned.seconds -= SECS_PER_DAY;
        planned = calendar_schedule_next(schedule, planned);
        if (planned.nanos == CALENDAR_NO_NANOS) {
            return false;
        }
        if (start.seconds < planned.seconds - SECS_PER_DAY) {
            start = just_before(planned.seconds - SECS_PER_DAY);
        }
        if (!is_kept(start.seconds)) {
            keep_clock(start.seconds - REACH);
        }
        calendar_date_time found = calendar_zone_schedule_next(schedule, kept.bytes, kept.length, start);
        if (!kept.has_end || (found.nanos != CALENDAR_NO_NANOS && found.seconds < kept.end - REACH)) {
            return has_timestamp(found, due);
        }
        start = just_before(kept.end - REACH);
    }
}
