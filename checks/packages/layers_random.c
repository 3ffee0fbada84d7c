/* Calls each function of calendar_layers.h with random arguments, and holds the answers to one another. The seed is the first
 * word of the command line, the number of rounds the second. The last line is `N passed, M failed`. */
#include "calendar_layers.h"

#include <stdio.h>
#include <stdlib.h>
#include <string.h>

static int passed, failed;
static uint64_t state;

static void count(bool is_right, int line)
{
    if (is_right) {
        passed++;
    } else {
        failed++;
        printf("line %d\n", line);
    }
}

#define HOLDS(claim) count(claim, __LINE__)

/* A number of all 64-bit numbers (xorshift). Where C leaves the order of two calls open, these stand in two statements, so that each compiler
 * makes the same program. */
static uint64_t any(void)
{
    state ^= state << 13;
    state ^= state >> 7;
    state ^= state << 17;
    return state;
}

/* Bytes of their own, so that a tool sees each one read or written beyond them. */
static uint8_t *bytes(size_t length)
{
    uint8_t *made = (uint8_t *)malloc(length ? length : 1);
    for (size_t i = 0; i < length; i++) {
        made[i] = (uint8_t)any();
    }
    return made;
}

/* A text of letters that stand in texts of schedules and rules. */
static uint8_t *text(size_t length)
{
    static const char letters[] = "0123456789***,,--//  @LW#monjanfri;=FREQDAILYBYTX.%:YmdHMS";
    uint8_t *made = bytes(length);
    for (size_t i = 0; i < length; i++) {
        made[i] = (uint8_t)letters[any() % (sizeof letters - 1)];
    }
    return made;
}

static void fill(void *place, size_t length)
{
    uint8_t *made = bytes(length);
    memcpy(place, made, length);
    free(made);
}

/* Turns one bit of so many bytes. */
static void turn_bit(uint8_t *place, size_t length)
{
    size_t at = any() % length;
    place[at] ^= (uint8_t)(1 << any() % 8);
}

/* Whether a function tells a fault of a reader, in so many bytes. */
typedef int32_t Teller(const calendar_fault *fault, uint8_t *text, size_t room);

static bool is_told(Teller *tell, const calendar_fault *fault, size_t room)
{
    uint8_t *said = bytes(room);
    int32_t written = tell(fault, said, room);
    free(said);
    return written > 0 && (size_t)written <= room;
}

/* Tells of a fault with one of the first codes, of any field and byte, in any room. */
static void any_fault(Teller *tell, uint32_t codes)
{
    calendar_fault fault;
    fill(&fault, sizeof fault);
    fault.code = (uint32_t)(any() % codes);
    fault.field = any() % 4 ? (uint32_t)(any() % 16) : fault.field;
    size_t room = any() % 110;
    uint8_t *said = bytes(room);
    int32_t written = tell(&fault, said, room);
    HOLDS(written == CALENDAR_NONE || (written > 0 && (size_t)written <= room));
    free(said);
}

/* A date-time of the calendar, or now and then any two numbers. */
static calendar_date_time moment(void)
{
    calendar_date_time made;
    made.seconds = (int64_t)any();
    made.nanos = (uint32_t)any();
    if (any() % 8) {
        made.seconds = (int64_t)(any() % 16544868105599u) - 8334601228800;
        made.nanos = any() % 2 ? 0 : (uint32_t)(any() % 1000000000);
    }
    return made;
}

static bool is_before(calendar_date_time a, calendar_date_time b)
{
    return a.seconds < b.seconds || (a.seconds == b.seconds && a.nanos < b.nanos);
}

static bool is_moment(calendar_date_time a)
{
    bool has_seconds = -8334601228800 <= a.seconds && a.seconds <= 8210266876799;
    int64_t second = ((a.seconds % 60) + 60) % 60;
    return has_seconds && (a.nanos < 1000000000 || (a.nanos < 2000000000 && second == 59));
}

static void schedule_texts(void)
{
    size_t length = any() % 24;
    uint8_t *given = text(length);
    calendar_schedule schedule, before;
    calendar_fault fault = {0, 0, 0, 0};
    fill(&schedule, sizeof schedule);
    before = schedule;
    if (calendar_schedule_read(given, length, &schedule, &fault)) {
        HOLDS(fault.code == 0);
    } else {
        HOLDS(memcmp(&schedule, &before, sizeof schedule) == 0);
        HOLDS(fault.byte <= fault.end && fault.end <= length);
        HOLDS(is_told(calendar_schedule_fault_text, &fault, 99));
    }
    free(given);
    any_fault(calendar_schedule_fault_text, 20);
}

static void schedules(void)
{
    calendar_schedule schedule;
    fill(&schedule, sizeof schedule);
    if (any() % 2) {
        /* (a seldom one) */
        schedule.minutes &= any() & any() & any();
        schedule.hours &= any() & any() & any();
        schedule.days &= any() & any() & any();
        schedule.months &= any() & any();
    }
    calendar_date_time start = moment(), until = moment();
    calendar_date_time next = calendar_schedule_next(&schedule, start), last = calendar_schedule_prev(&schedule, start);
    HOLDS(!is_moment(next) || (is_before(start, next) && calendar_schedule_is_due(&schedule, next)));
    HOLDS(!is_moment(last) || (is_before(last, start) && calendar_schedule_is_due(&schedule, last)));
    HOLDS(is_moment(start) || (!is_moment(next) && !is_moment(last)));
    size_t room = any() % 9;
    calendar_date_time *out = (calendar_date_time *)bytes(room * sizeof *out);
    size_t written = calendar_schedule_due(&schedule, start, until, out, room);
    HOLDS(written <= room);
    calendar_date_time at = start;
    size_t found = 0;
    while (is_moment(start) && is_moment(until) && found < room) {
        at = calendar_schedule_next(&schedule, at);
        if (!is_moment(at) || is_before(until, at) || found >= written || out[found].seconds != at.seconds || out[found].nanos != at.nanos) {
            break;
        }
        found++;
    }
    HOLDS(found == written);
    free(out);
}

/* A date of the calendar, or now and then any number. */
static int32_t date(void)
{
    return any() % 8 ? (int32_t)(any() % 191491529) - 95746129 : (int32_t)any();
}

/* Holidays as they should be: some of the workdays from a date on, and now and then a wrong one. */
static size_t holidays(uint8_t weekend, int32_t *days, size_t room)
{
    int64_t day = date();
    size_t count = 0;
    while (count < room && any() % 16) {
        day += 1 + (int64_t)(any() % 40);
        /* (day 1 is a Monday) */
        int64_t place = (((day - 1) % 7) + 7) % 7;
        if (!(weekend >> place & 1) || any() % 64 == 0) {
            days[count++] = (int32_t)day;
        }
    }
    return count;
}

/* A date near one of some days. */
static int32_t near_one(const int32_t *days, size_t length)
{
    uint32_t day = (uint32_t)days[any() % length];
    return (int32_t)(day + (uint32_t)(any() % 9) - 4);
}

static void open_days(void)
{
    uint8_t weekend = any() % 2 ? 96 : (uint8_t)any();
    size_t room = any() % 40;
    int32_t *days = (int32_t *)malloc((room ? room : 1) * sizeof *days);
    size_t length = holidays(weekend, days, room);
    int32_t near = length ? near_one(days, length) : date();
    int64_t n = any() % 8 ? (int64_t)(any() % 400) - 200 : (int64_t)any();
    int32_t moved = calendar_add_open_days(weekend, days, length, near, n);
    HOLDS(moved == CALENDAR_NONE || calendar_is_open_day(weekend, days, length, moved));
    if (moved != CALENDAR_NONE && calendar_is_open_day(weekend, days, length, near)) {
        HOLDS(calendar_open_days_between(weekend, days, length, near, moved) == n);
    }
    for (uint32_t roll = 0; roll < 9; roll++) {
        int32_t rolled = calendar_roll(weekend, days, length, near, roll);
        HOLDS(rolled == CALENDAR_NONE || roll == CALENDAR_ROLL_UNADJUSTED || calendar_is_open_day(weekend, days, length, rolled));
    }
    free(days);
}

/* The same in some years: each answer is that of all years, or none. */
static void open_days_within(void)
{
    uint8_t weekend = any() % 2 ? 96 : (uint8_t)any();
    int32_t days[40];
    size_t length = holidays(weekend, days, 40);
    int32_t near = length ? near_one(days, length) : date(), end = date();
    int64_t n = any() % 8 ? (int64_t)(any() % 400) - 200 : (int64_t)any();
    /* (a year has 365.2425 days) */
    int32_t year = (int32_t)((int64_t)near * 400 / 146097 + 1), first = any() % 8 ? year - (int32_t)(any() % 3) : (int32_t)any();
    int32_t last = any() % 8 ? year + (int32_t)(any() % 3) : (int32_t)any();
    int32_t here = calendar_is_open_day_within(weekend, days, length, first, last, near);
    HOLDS(here == CALENDAR_NONE || here == calendar_is_open_day(weekend, days, length, near));
    int32_t moved = calendar_add_open_days(weekend, days, length, near, n);
    bool is_known = here != CALENDAR_NONE && calendar_is_open_day_within(weekend, days, length, first, last, moved) != CALENDAR_NONE;
    HOLDS(calendar_add_open_days_within(weekend, days, length, first, last, near, n) == (is_known ? moved : CALENDAR_NONE));
    int64_t counted = calendar_open_days_between_within(weekend, days, length, first, last, near, end);
    HOLDS(counted == INT64_MIN || counted == calendar_open_days_between(weekend, days, length, near, end));
    HOLDS(here == CALENDAR_NONE || calendar_open_days_between_within(weekend, days, length, first, last, near, near) == 0);
    for (uint32_t roll = 0; roll < 9; roll++) {
        int32_t rolled = calendar_roll_within(weekend, days, length, first, last, near, roll);
        HOLDS(rolled == CALENDAR_NONE || (here != CALENDAR_NONE && rolled == calendar_roll(weekend, days, length, near, roll)));
    }
    uint32_t which = (uint32_t)(any() % 16);
    HOLDS((calendar_holidays_first_year(which) == CALENDAR_NONE) == (which > CALENDAR_JAPAN));
}

/* A text near to a rule's: parts of rules, and now and then any letters. */
static uint8_t *rule(size_t *length)
{
    static const char *const parts[] = {
        "FREQ=DAILY", "FREQ=WEEKLY", "FREQ=MONTHLY", "FREQ=YEARLY", "INTERVAL=2", "INTERVAL=0", "COUNT=5", "UNTIL=20300101", "BYMONTH=2,12",
        "BYMONTHDAY=31,-1", "BYDAY=MO,-1FR", "BYDAY=SA,SU", "BYYEARDAY=366", "BYWEEKNO=53", "BYSETPOS=-1", "WKST=SU", "RRULE:", "X=1",
    };
    if (any() % 8 == 0) {
        *length = any() % 40;
        return text(*length);
    }
    char made[256] = "";
    for (uint64_t k = any() % 5 + 1; k > 0; k--) {
        strcat(made, parts[any() % (sizeof parts / sizeof *parts)]);
        strcat(made, k > 1 ? ";" : "");
    }
    *length = strlen(made);
    uint8_t *copy = bytes(*length);
    memcpy(copy, made, *length);
    return copy;
}

/* A day of the years around 2024, or now and then any number. */
static int32_t near_day(void)
{
    return any() % 16 ? 738000 + (int32_t)(any() % 2000) : date();
}

static void rules(void)
{
    size_t length;
    uint8_t *given = rule(&length);
    calendar_fault fault = {0, 0, 0, 0};
    bool is_rule = calendar_rule_check(given, length, &fault);
    HOLDS(is_rule ? fault.code == 0 : fault.byte <= fault.end && fault.end <= length && is_told(calendar_rule_fault_text, &fault, 64));
    int32_t start = near_day(), day = near_day(), until = near_day();
    int32_t next = calendar_rule_next(given, length, start, day), last = calendar_rule_prev(given, length, start, day);
    HOLDS(next == CALENDAR_NONE || (is_rule && next > day && calendar_rule_is_instance(given, length, start, next)));
    HOLDS(last == CALENDAR_NONE || (is_rule && last < day && calendar_rule_is_instance(given, length, start, last)));
    size_t room = any() % 9;
    int32_t *out = (int32_t *)bytes(room * sizeof *out);
    size_t written = calendar_rule_instances(given, length, start, day, until, out, room);
    HOLDS(written <= room && (is_rule || written == 0));
    for (size_t i = 0; i < written; i++) {
        int32_t before = i ? out[i - 1] : day - 1;
        HOLDS(before < out[i] && out[i] <= until && calendar_rule_next(given, length, start, before) == out[i]);
    }
    free(out);
    free(given);
    any_fault(calendar_rule_fault_text, 40);
}

static void known_holidays(void)
{
    size_t room = any() % 200;
    int32_t *days = (int32_t *)bytes(room * sizeof *days);
    int32_t first = any() % 8 ? 1960 + (int32_t)(any() % 100) : (int32_t)any() / 4, last = first + (int32_t)(any() % 20) - 1;
    uint8_t weekend = any() % 2 ? 96 : (uint8_t)any();
    calendar_fault fault = {0, 0, 0, 0};
    int32_t found = calendar_holidays_of((uint32_t)(any() % 9), first, last, weekend, days, room);
    HOLDS(found == CALENDAR_NONE || (found >= 0 && (size_t)found <= room && calendar_holidays_check(weekend, days, (size_t)found, &fault)));
    HOLDS(fault.code == 0);
    int32_t year = any() % 2 ? first : (int32_t)any(), easter = calendar_easter(year);
    HOLDS(easter == CALENDAR_NONE || (((int64_t)easter % 7) + 7) % 7 == 0);
    for (size_t i = 0; i < room; i++) {
        days[i] = date();
    }
    HOLDS(calendar_holidays_check(weekend, days, room, &fault) || is_told(calendar_holidays_fault_text, &fault, 63));
    any_fault(calendar_holidays_fault_text, 6);
    free(days);
}

static void columns(void)
{
    uint8_t weekend = any() % 2 ? 96 : (uint8_t)any();
    int32_t days[30];
    size_t length = holidays(weekend, days, 30), room = any() % 20, other = any() % 4 ? room : any() % 20;
    int32_t *dates = (int32_t *)bytes(room * sizeof *dates), *out = (int32_t *)bytes(other * sizeof *out);
    int64_t *counted = (int64_t *)bytes(other * sizeof *counted);
    uint8_t *marks = bytes(other);
    for (size_t i = 0; i < room; i++) {
        dates[i] = length && any() % 4 ? near_one(days, length) : date();
    }
    calendar_fault fault = {0, 0, 0, 0};
    bool is_right = room == other && calendar_holidays_check(weekend, days, length, &fault);
    int64_t n = any() % 8 ? (int64_t)(any() % 400) - 200 : (int64_t)any();
    uint32_t roll = (uint32_t)(any() % 8);
    HOLDS(calendar_column_is_open_day(weekend, days, length, dates, room, marks, other) == is_right);
    HOLDS(calendar_column_open_days_between(weekend, days, length, dates, room, dates, room, counted, other) == is_right);
    HOLDS(calendar_column_add_open_days(weekend, days, length, dates, room, n, out, other) == is_right);
    for (size_t i = 0; is_right && i < room; i++) {
        HOLDS(marks[i] == calendar_is_open_day(weekend, days, length, dates[i]));
        HOLDS(counted[i] == calendar_open_days_between(weekend, days, length, dates[i], dates[i]));
        HOLDS(out[i] == calendar_add_open_days(weekend, days, length, dates[i], n));
    }
    HOLDS(calendar_column_roll(weekend, days, length, dates, room, roll, out, other) == (is_right && roll < 7));
    for (size_t i = 0; is_right && roll < 7 && i < room; i++) {
        HOLDS(out[i] == calendar_roll(weekend, days, length, dates[i], roll));
    }
    int32_t year = room ? (int32_t)((int64_t)dates[0] * 400 / 146097 + 1) : 0, first = year - (int32_t)(any() % 3), last = year + (int32_t)(any() % 3);
    HOLDS(calendar_column_is_open_day_within(weekend, days, length, first, last, dates, room, marks, other) == is_right);
    HOLDS(calendar_column_open_days_between_within(weekend, days, length, first, last, dates, room, dates, room, counted, other) == is_right);
    HOLDS(calendar_column_add_open_days_within(weekend, days, length, first, last, dates, room, n, out, other) == is_right);
    for (size_t i = 0; is_right && i < room; i++) {
        int32_t mark = calendar_is_open_day_within(weekend, days, length, first, last, dates[i]);
        HOLDS(mark == CALENDAR_NONE ? marks[i] == (dates[i] >= CALENDAR_MIN && dates[i] <= CALENDAR_MAX ? 2 : 0) : marks[i] == mark);
        HOLDS(counted[i] == calendar_open_days_between_within(weekend, days, length, first, last, dates[i], dates[i]));
        HOLDS(out[i] == calendar_add_open_days_within(weekend, days, length, first, last, dates[i], n));
    }
    HOLDS(calendar_column_roll_within(weekend, days, length, first, last, dates, room, roll, out, other) == (is_right && roll < 7));
    for (size_t i = 0; is_right && roll < 7 && i < room; i++) {
        HOLDS(out[i] == calendar_roll_within(weekend, days, length, first, last, dates[i], roll));
    }
    HOLDS(calendar_column_to_date32(dates, room, out, other) == (room == other));
    for (size_t i = 0; room == other && i < room; i++) {
        int32_t back;
        HOLDS(calendar_column_from_date32(&out[i], 1, &back, 1) && (out[i] == CALENDAR_NONE || back == dates[i]));
    }
    free(marks);
    free(counted);
    free(out);
    free(dates);
}

static void day_counts(void)
{
    int32_t from = date(), to = date();
    uint32_t kind = (uint32_t)(any() % 6);
    calendar_fraction on = calendar_day_count(kind, from, to), back = calendar_day_count(kind, to, from);
    HOLDS(on.denominator == back.denominator);
    HOLDS(kind > CALENDAR_ACTUAL_365_FIXED || on.numerator == -back.numerator);
}

/* A text near to a pattern. */
static uint8_t *pattern(size_t *length)
{
    static const char *const parts[] = {"%Y", "%m", "%d", "%-d", "%H:%M", "%S%.f", "%b ", "%a, ", "%j", "%F", "%T", "%z", "%s", "%", "-", "%Q", "%%"};
    char made[64] = "";
    for (uint64_t k = any() % 7; k > 0; k--) {
        strcat(made, parts[any() % (sizeof parts / sizeof *parts)]);
    }
    *length = strlen(made);
    uint8_t *copy = bytes(*length);
    memcpy(copy, made, *length);
    return copy;
}

static void patterns(void)
{
    size_t length, text_length = any() % 30, room = any() % 60;
    uint8_t *given = pattern(&length), *random = text(text_length), *out = bytes(room);
    calendar_fault fault = {0, 0, 0, 0}, other = {0, 0, 0, 0};
    bool is_pattern = calendar_pattern_check(given, length, &fault);
    HOLDS(is_pattern ? fault.code == 0 : (fault.code == 1 || fault.code == 2) && fault.byte <= fault.end && fault.end == length);
    int32_t day = date(), parsed = calendar_parse_date(given, length, random, text_length, &other);
    HOLDS(is_pattern || (parsed == CALENDAR_NONE && other.code == fault.code && other.byte == fault.byte));
    HOLDS((parsed == CALENDAR_NONE) == (other.code != 0));
    HOLDS(parsed != CALENDAR_NONE || is_told(calendar_pattern_fault_text, &other, 73));
    any_fault(calendar_pattern_fault_text, 12);
    int32_t written = calendar_format_date(given, length, day, out, room);
    HOLDS(written == CALENDAR_NONE || (is_pattern && written >= 0 && (size_t)written <= room));
    if (written != CALENDAR_NONE) {
        int32_t back = calendar_parse_date(given, length, out, (size_t)written, &other);
        uint8_t *again = bytes(room);
        HOLDS(back == CALENDAR_NONE || calendar_format_date(given, length, back, again, room) == CALENDAR_NONE || back != day
              || memcmp(out, again, (size_t)written) == 0);
        free(again);
    }
    calendar_date_time at = moment();
    written = calendar_format_date_time(given, length, at, out, room);
    HOLDS(written == CALENDAR_NONE || (is_pattern && is_moment(at) && written >= 0 && (size_t)written <= room));
    calendar_date_time read = calendar_parse_date_time(given, length, random, text_length, &other);
    HOLDS(is_pattern || (read.seconds == 0 && read.nanos == CALENDAR_NO_NANOS));
    bool names_offset = calendar_pattern_names_offset(given, length);
    HOLDS(is_pattern || !names_offset);
    calendar_fault zoned_fault = {0, 0, 0, 0};
    calendar_zoned zoned = calendar_parse_zoned(given, length, random, text_length, &zoned_fault);
    HOLDS((zoned.nanos == CALENDAR_NO_NANOS) == (zoned_fault.code != 0));
    HOLDS(zoned.nanos == CALENDAR_NO_NANOS ? zoned.seconds == 0 && zoned.offset == 0 : zoned.offset > -86400 && zoned.offset < 86400);
    calendar_date_time local;
    local.seconds = zoned.seconds;
    local.nanos = zoned.nanos;
    HOLDS(zoned.nanos == CALENDAR_NO_NANOS || is_moment(local));
    HOLDS(names_offset || zoned.offset == 0);
    free(out);
    free(random);
    free(given);
}

/* Rules of zones, and texts that are none. */
static const char *const zone_rules[] = {
    "CET-1CEST,M3.5.0,M10.5.0/3", "EST5EDT,M3.2.0,M11.1.0", "IST-1GMT0,M10.5.0,M3.5.0/1", "<-03>3<-02>,M3.5.0/-2,M10.5.0/-1", "HST10", "UTC0",
    "XXX3EDT4,0/0,J365/23", "AAA-24", "A5", "AAA5BBB,J0,1", "AAA5BBB,J1/99:00:59,364/-167", "EST5EDT", "",
};

static const char *zone_rule(void)
{
    return zone_rules[any() % (sizeof zone_rules / sizeof *zone_rules)];
}

static uint8_t *copy_of(const char *given, size_t *length)
{
    *length = strlen(given);
    uint8_t *made = bytes(*length);
    memcpy(made, given, *length);
    return made;
}

/* Writes the lowest bytes of a number, the highest of them first. */
static void number(uint8_t *place, int64_t value, size_t size)
{
    for (size_t i = 0; i < size; i++) {
        place[i] = (uint8_t)((uint64_t)value >> 8 * (size - 1 - i));
    }
}

/* Writes a header of TZif and its data, with some rows from a time on. Offsets are zero or some hours, and now and then a time does not
 * rise. The bytes that it took. */
static size_t block(uint8_t *place, char version, size_t size, size_t rows, size_t kinds, int64_t from)
{
    uint8_t *at = place + 44;
    memset(place, 0, 44);
    memcpy(place, "TZif", 4);
    place[4] = (uint8_t)version;
    number(place + 32, (int64_t)rows, 4);
    number(place + 36, (int64_t)kinds, 4);
    number(place + 40, 4, 4);
    for (size_t i = 0; i < rows; i++, at += size) {
        from += any() % 16 ? (int64_t)(any() % 20000000) + 200000 : -(int64_t)(any() % 1000);
        number(at, from, size);
    }
    for (size_t i = 0; i < rows; i++) {
        size_t ends = any() % 64 ? kinds : kinds + 1;
        *at++ = (uint8_t)(any() % ends);
    }
    for (size_t i = 0; i < kinds; i++, at += 6) {
        int64_t hours = any() % 2 ? (int64_t)(any() % 3) - 1 : (int64_t)(any() % 53) - 26;
        number(at, any() % 64 ? hours * 3600 : (int64_t)any(), 4);
        at[4] = (uint8_t)(any() % 2);
        at[5] = 0;
    }
    memcpy(at, "ABC", 4);
    return (size_t)(at + 4 - place);
}

/* A file of TZif: of version 1, or of a later one, whose second block has times of eight bytes and a footer between newlines. */
static uint8_t *zone_file(size_t *length)
{
    static const char versions[] = {0, '2', '3', '4', '5'};
    uint8_t made[2048];
    size_t rows = any() % 64 ? any() % 6 : any() % 60, kinds = any() % 3 + 1;
    char version = versions[any() % 16 ? any() % 4 : 4];
    int64_t from = any() % 2 ? 0 : (int64_t)(any() % 4000000000u) - 2000000000;
    size_t end = block(made, version, 4, version ? any() % 2 : rows, kinds, from / 4);
    if (version) {
        end += block(made + end, version, 8, rows, kinds, any() % 8 ? from : (int64_t)any() / 4);
        const char *footer = zone_rule();
        end += (size_t)snprintf((char *)made + end, 64, "\n%s%s", footer, any() % 16 ? "\n" : "");
    }
    /* (now and then it ends too early, or goes on) */
    *length = any() % 16 ? end : any() % (end + 9);
    uint8_t *copy = bytes(*length);
    memcpy(copy, made, *length < end ? *length : end);
    return copy;
}

/* Bytes near to those of a zone: a file, a rule, or any letters. */
static uint8_t *zone(size_t *length)
{
    uint8_t *made;
    if (any() % 8 == 0) {
        *length = any() % 60;
        made = text(*length);
    } else if (any() % 4 == 0) {
        made = copy_of(zone_rule(), length);
    } else {
        made = zone_file(length);
    }
    if (*length && any() % 8 == 0) {
        turn_bit(made, *length);
    }
    return made;
}

static void zones(void)
{
    size_t length;
    uint8_t *given = zone(&length);
    calendar_fault fault = {0, 0, 0, 0};
    bool is_zone = calendar_zone_check(given, length, &fault);
    HOLDS(is_zone ? fault.code == 0 : fault.code && fault.byte <= fault.end && fault.end <= length && is_told(calendar_zone_fault_text, &fault, 64));
    int64_t at = any() % 8 ? (int64_t)(any() % 5000000000u) - 1000000000 : (int64_t)any();
    int32_t offset = calendar_zone_offset_at(given, length, at);
    HOLDS((offset != CALENDAR_NONE) == is_zone);
    int64_t until = calendar_zone_holds_until(given, length, at);
    HOLDS(is_zone ? at < until || at == INT64_MAX : until == INT64_MIN);
    HOLDS(!is_zone || at == INT64_MAX || calendar_zone_offset_at(given, length, until - 1) == offset);
    if (is_zone && INT64_MIN + 86400 < at && at < INT64_MAX - 86400) {
        calendar_offsets back = calendar_zone_offsets_of_local(given, length, at + offset), here = calendar_zone_offsets_of_local(given, length, at);
        HOLDS(back.earlier == offset || back.later == offset);
        HOLDS(back.count == 1 || back.count == 2);
        HOLDS(back.count == 1 ? back.earlier == back.later : back.later < back.earlier);
        HOLDS(here.count == 0 || calendar_zone_offset_at(given, length, at - here.earlier) == here.earlier);
        HOLDS(here.count == 0 || calendar_zone_offset_at(given, length, at - here.later) == here.later);
    }
    HOLDS(is_zone || calendar_zone_offsets_of_local(given, length, at).count == CALENDAR_NO_ZONE);
    calendar_schedule schedule;
    fill(&schedule, sizeof schedule);
    calendar_date_time start = moment(), next = calendar_zone_schedule_next(&schedule, given, length, start);
    HOLDS(!is_moment(next) || (is_zone && is_before(start, next)));
    calendar_date_time last = calendar_zone_schedule_prev(&schedule, given, length, start);
    HOLDS(!is_moment(last) || (is_zone && is_before(last, start)));
    if (is_moment(next) && is_moment(last)) {
        calendar_date_time back = calendar_zone_schedule_prev(&schedule, given, length, next);
        HOLDS(is_moment(back) && !is_before(back, last) && !is_before(start, back));
    }
    free(given);
    any_fault(calendar_zone_fault_text, 20);
}

/* Lines of calendars, and what is none of them. */
static const char *const calendar_lines[] = {
    "DTSTART;TZID=Europe/Berlin:20240330T023000", "DTSTART:19700101T000000", "DTSTART:99991231T235959", "DTSTART:20240131T090000Z",
    "RRULE:FREQ=DAILY;BYHOUR=2,17", "RRULE:FREQ=MONTHLY;BYDAY=-1FR", "RRULE:FREQ=SECONDLY;INTERVAL=45", "RRULE:FREQ=YEARLY;COUNT=3",
    "RRULE:FREQ=WEEKLY;UNTIL=20241231T230000Z", "RRULE:FREQ=DAILY;BYHOUR=24", "RDATE;TZID=Europe/Berlin:20240201T090000,20240301T090000",
    "RDATE:20240201T090000Z", "RDATE;VALUE=DATE:20240201", "EXDATE;TZID=Europe/Berlin:20240331T023000", "EXDATE:20240402T003000Z", "X:1", "",
};

/* A text of some of them, folded now and then, and with a wrong byte now and then. */
static uint8_t *calendar(size_t *length)
{
    char made[1024];
    size_t end = 0, count = sizeof calendar_lines / sizeof *calendar_lines;
    for (size_t i = 0, lines = 1 + any() % 4; i < lines; i++) {
        const char *line = calendar_lines[i == 0 ? any() % 3 : any() % 8 ? 4 + any() % (count - 4) : any() % count];
        size_t half = strlen(line) / 2;
        end += (size_t)snprintf(made + end, sizeof made - end, any() % 4 ? "%.*s%s\r\n" : "%.*s\r\n %s\n", (int)half, line, line + half);
    }
    *length = any() % 16 ? end : any() % (end + 1);
    uint8_t *copy = bytes(*length);
    memcpy(copy, made, *length);
    if (*length && any() % 8 == 0) {
        turn_bit(copy, *length);
    }
    return copy;
}

static void calendars(void)
{
    size_t length, zone_length;
    uint8_t *given = calendar(&length), *place = zone(&zone_length);
    calendar_fault fault = {0, 0, 0, 0};
    bool is_meant = calendar_text_check(given, length, place, zone_length, &fault);
    HOLDS(is_meant ? fault.code == 0 : fault.code && fault.byte <= fault.end && fault.end == length && is_told(calendar_text_fault_text, &fault, 64));
    calendar_date_time start = moment(), until = moment();
    if (any() % 4) {
        start.seconds = 1700000000 + (int64_t)(any() % 40000000);
        until.seconds = start.seconds + (int64_t)(any() % 10000000);
    }
    calendar_date_time next = calendar_text_next(given, length, place, zone_length, start);
    calendar_date_time last = calendar_text_prev(given, length, place, zone_length, start);
    HOLDS(!is_moment(next) || (is_meant && is_before(start, next) && calendar_text_is_instance(given, length, place, zone_length, next)));
    HOLDS(!is_moment(last) || (is_meant && is_before(last, start) && calendar_text_is_instance(given, length, place, zone_length, last)));
    HOLDS(is_meant || !calendar_text_is_instance(given, length, place, zone_length, start));
    size_t room = any() % 6;
    calendar_date_time *out = (calendar_date_time *)bytes(room * sizeof *out), at = start;
    size_t written = calendar_text_instances(given, length, place, zone_length, start, until, out, room), found = 0;
    HOLDS(written <= room);
    while (is_moment(start) && is_moment(until) && found < room) {
        at = calendar_text_next(given, length, place, zone_length, at);
        if (!is_moment(at) || is_before(until, at) || found >= written || out[found].seconds != at.seconds || out[found].nanos != at.nanos) {
            break;
        }
        found++;
    }
    HOLDS(found == written);
    free(out);
    uint8_t *said = bytes(room);
    int32_t named = calendar_text_zone(given, length, said, room);
    HOLDS(named == CALENDAR_NONE || (named > 0 && (size_t)named <= room));
    any_fault(calendar_text_fault_text, 30);
    free(said);
    free(place);
    free(given);
}

/* Schedules with seconds and years, and texts that are none. */
static void timed_schedules(void)
{
    static const char *const schedules[] = {"*/15 30 4 * * *", "0 30 4 ? * MON-FRI 2024-2026", "0 0 0 L * ?", "59 59 23 29 2 *", "@daily", "*/5 * * * *", "0/5 ? */2 * MON"};
    size_t length = any() % 24;
    uint8_t *given = any() % 4 ? copy_of(schedules[any() % (sizeof schedules / sizeof *schedules)], &length) : text(length);
    if (length && any() % 8 == 0) {
        turn_bit(given, length);
    }
    uint32_t dialect = any() % 16 ? (uint32_t)(any() % 4) : (uint32_t)any();
    calendar_fault fault = {0, 0, 0, 0};
    bool is_schedule = calendar_timed_schedule_check(given, length, dialect, &fault);
    HOLDS(is_schedule ? fault.code == 0 : (fault.code || dialect > 3) && fault.byte <= fault.end && fault.end <= length);
    HOLDS(fault.code == 0 || is_told(calendar_timed_schedule_fault_text, &fault, 99));
    any_fault(calendar_timed_schedule_fault_text, 20);
    calendar_date_time start = moment();
    calendar_date_time next = calendar_timed_schedule_next(given, length, dialect, start);
    calendar_date_time last = calendar_timed_schedule_prev(given, length, dialect, start);
    HOLDS(!is_moment(next) || (is_schedule && is_before(start, next) && calendar_timed_schedule_is_due(given, length, dialect, next)));
    HOLDS(!is_moment(last) || (is_schedule && is_before(last, start) && calendar_timed_schedule_is_due(given, length, dialect, last)));
    HOLDS(is_schedule || !calendar_timed_schedule_is_due(given, length, dialect, start));
    free(given);
}

static void versions(void)
{
    size_t room = any() % 9;
    uint8_t *said = bytes(room);
    HOLDS((calendar_layers_version(said, room) == CALENDAR_NONE) == (room < strlen(CALENDAR_VERSION)));
    free(said);
}

int main(int count_of_words, char **words)
{
    state = count_of_words > 1 ? strtoull(words[1], NULL, 10) : 1;
    long rounds = count_of_words > 2 ? strtol(words[2], NULL, 10) : 1000;
    for (long i = 0; i < rounds; i++) {
        versions();
        schedule_texts();
        schedules();
        rules();
        open_days();
        open_days_within();
        known_holidays();
        columns();
        patterns();
        zones();
        calendars();
        timed_schedules();
        day_counts();
    }
    printf("%d passed, %d failed\n", passed, failed);
    return failed != 0;
}
