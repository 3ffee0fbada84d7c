/* Calls every function of calendar.h, with answers that are known from outside. The last line is `N passed, M failed`. */
#include "calendar.h"

#include <stdio.h>
#include <string.h>

#define NONE CALENDAR_NONE

static int passed, failed;

/* Counts an answer, and tells of a wrong one. */
static void count(bool is_right, int line, const char *call)
{
    if (is_right) {
        passed++;
    } else {
        failed++;
        printf("line %d: %s\n", line, call);
    }
}

#define IS(call, answer) count((call) == (answer), __LINE__, #call)

static bool same_moment(calendar_date_time moment, int64_t seconds, uint32_t nanos)
{
    return moment.seconds == seconds && moment.nanos == nanos;
}

static bool same_length(calendar_duration length, int64_t seconds, uint32_t nanos)
{
    return length.seconds == seconds && length.nanos == nanos;
}

static bool same_time(calendar_time time, uint32_t second, uint32_t nanos)
{
    return time.second == second && time.nanos == nanos;
}

#define IS_MOMENT(call, seconds, nanos) count(same_moment(call, seconds, nanos), __LINE__, #call)
#define IS_LENGTH(call, seconds, nanos) count(same_length(call, seconds, nanos), __LINE__, #call)
#define IS_TIME(call, second, nanos) count(same_time(call, second, nanos), __LINE__, #call)
#define NO_MOMENT(call) IS_MOMENT(call, 0, CALENDAR_NO_NANOS)
#define NO_LENGTH(call) IS_LENGTH(call, 0, CALENDAR_NO_NANOS)
#define NO_TIME(call) IS_TIME(call, 0, CALENDAR_NO_NANOS)

static calendar_date_time moment(int64_t seconds, uint32_t nanos)
{
    calendar_date_time made = {seconds, nanos};
    return made;
}

static calendar_duration length(int64_t seconds, uint32_t nanos)
{
    calendar_duration made = {seconds, nanos};
    return made;
}

static calendar_time time_of_day(uint32_t second, uint32_t nanos)
{
    calendar_time made = {second, nanos};
    return made;
}

static int32_t read_date(const char *text)
{
    return calendar_read_date((const uint8_t *)text, strlen(text));
}

static calendar_date_time read_date_time(const char *text)
{
    return calendar_read_date_time((const uint8_t *)text, strlen(text));
}

static calendar_time read_time(const char *text)
{
    return calendar_read_time((const uint8_t *)text, strlen(text));
}

static calendar_duration read_duration(const char *text)
{
    return calendar_read_duration((const uint8_t *)text, strlen(text));
}

static void calendar_names(void)
{
    IS(calendar_from_ymd(1, 1, 1), 1);
    IS(calendar_from_ymd(0, 12, 31), 0);
    IS(calendar_from_ymd(0, 2, 29), -306);
    IS(calendar_from_ymd(-4, 2, 29), -1767);
    IS(calendar_from_ymd(1970, 1, 1), CALENDAR_UNIX_EPOCH);
    IS(calendar_from_ymd(2024, 2, 29), 738945);
    IS(calendar_from_ymd(2000, 2, 29), 730179);
    IS(calendar_from_ymd(9999, 12, 31), 3652059);
    IS(calendar_from_ymd(10000, 1, 1), 3652060);
    IS(calendar_from_ymd(-262143, 1, 1), CALENDAR_MIN);
    IS(calendar_from_ymd(262142, 12, 31), CALENDAR_MAX);
    IS(calendar_from_ymd(2023, 2, 29), NONE);
    IS(calendar_from_ymd(1900, 2, 29), NONE);
    IS(calendar_from_ymd(-100, 2, 29), NONE);
    IS(calendar_from_ymd(2024, 4, 31), NONE);
    IS(calendar_from_ymd(2024, 0, 1), NONE);
    IS(calendar_from_ymd(2024, 13, 1), NONE);
    IS(calendar_from_ymd(2024, 1, 0), NONE);
    IS(calendar_from_ymd(-262144, 12, 31), NONE);
    IS(calendar_from_ymd(262143, 1, 1), NONE);
    IS(calendar_from_ymd(INT32_MIN, 1, 1), NONE);
    IS(calendar_from_ymd(INT32_MAX, 12, 31), NONE);
    IS(calendar_from_ymd(2024, UINT32_MAX, UINT32_MAX), NONE);
}

static void ordinal_names(void)
{
    IS(calendar_from_yo(2024, 60), 738945);
    IS(calendar_from_yo(2024, 366), 739251);
    IS(calendar_from_yo(2023, 365), 738885);
    IS(calendar_from_yo(-262143, 1), CALENDAR_MIN);
    IS(calendar_from_yo(262142, 365), CALENDAR_MAX);
    IS(calendar_from_yo(2023, 366), NONE);
    IS(calendar_from_yo(2024, 367), NONE);
    IS(calendar_from_yo(2024, 0), NONE);
    IS(calendar_from_yo(262143, 1), NONE);
    IS(calendar_from_yo(INT32_MIN, 1), NONE);
    IS(calendar_from_yo(2024, UINT32_MAX), NONE);
}

static void week_names(void)
{
    IS(calendar_from_isoywd(2024, 9, 4), 738945);
    IS(calendar_from_isoywd(2009, 1, 1), 733405);
    IS(calendar_from_isoywd(2009, 53, 7), 733775);
    IS(calendar_from_isoywd(2026, 53, 4), 739981);
    IS(calendar_from_isoywd(-1, 52, 6), -365);
    IS(calendar_from_isoywd(-262143, 1, 4), CALENDAR_MIN);
    IS(calendar_from_isoywd(262143, 1, 1), CALENDAR_MAX);
    IS(calendar_from_isoywd(-262143, 1, 3), NONE);
    IS(calendar_from_isoywd(262143, 1, 2), NONE);
    IS(calendar_from_isoywd(2024, 53, 1), NONE);
    IS(calendar_from_isoywd(2024, 0, 1), NONE);
    IS(calendar_from_isoywd(2024, 9, 0), NONE);
    IS(calendar_from_isoywd(2024, 9, 8), NONE);
    IS(calendar_from_isoywd(INT32_MAX, UINT32_MAX, UINT32_MAX), NONE);

    IS(calendar_from_weekday_of_month(2024, 2, 4, 5), 738945);
    IS(calendar_from_weekday_of_month(2024, 2, 4, 1), 738917);
    IS(calendar_from_weekday_of_month(2024, 2, 5, 5), NONE);
    IS(calendar_from_weekday_of_month(2024, 2, 4, 0), NONE);
    IS(calendar_from_weekday_of_month(2024, 2, 4, 6), NONE);
    IS(calendar_from_weekday_of_month(2024, 2, 0, 1), NONE);
    IS(calendar_from_weekday_of_month(2024, 2, 8, 1), NONE);
    IS(calendar_from_weekday_of_month(2024, 13, 1, 1), NONE);
    IS(calendar_from_weekday_of_month(262142, 12, 1, 5), CALENDAR_MAX);
    IS(calendar_from_weekday_of_month(INT32_MIN, 2, 4, UINT32_MAX), NONE);
}

/* Reads back the seven fields of a date. */
static void has_fields(int line, int32_t date, const int32_t fields[7])
{
    count(calendar_year(date) == fields[0], line, "calendar_year");
    count(calendar_month(date) == fields[1], line, "calendar_month");
    count(calendar_day(date) == fields[2], line, "calendar_day");
    count(calendar_ordinal(date) == fields[3], line, "calendar_ordinal");
    count(calendar_weekday(date) == fields[4], line, "calendar_weekday");
    count(calendar_iso_year(date) == fields[5], line, "calendar_iso_year");
    count(calendar_iso_week(date) == fields[6], line, "calendar_iso_week");
}

#define FIELDS(date, ...)                             \
    do {                                              \
        static const int32_t named[] = {__VA_ARGS__}; \
        has_fields(__LINE__, date, named);            \
    } while (0)

static void fields(void)
{
    FIELDS(CALENDAR_MIN, -262143, 1, 1, 1, 4, -262143, 1);
    FIELDS(-95745765, -262143, 12, 31, 365, 4, -262143, 53);
    FIELDS(-1767, -4, 2, 29, 60, 4, -4, 9);
    FIELDS(-730, -1, 1, 1, 1, 5, -2, 53);
    FIELDS(-365, 0, 1, 1, 1, 6, -1, 52);
    FIELDS(0, 0, 12, 31, 366, 7, 0, 52);
    FIELDS(1, 1, 1, 1, 1, 1, 1, 1);
    FIELDS(CALENDAR_UNIX_EPOCH, 1970, 1, 1, 1, 4, 1970, 1);
    FIELDS(733405, 2008, 12, 29, 364, 1, 2009, 1);
    FIELDS(733775, 2010, 1, 3, 3, 7, 2009, 53);
    FIELDS(738945, 2024, 2, 29, 60, 4, 2024, 9);
    FIELDS(3652060, 10000, 1, 1, 1, 6, 9999, 52);
    FIELDS(CALENDAR_MAX, 262142, 12, 31, 365, 1, 262143, 1);
    FIELDS(CALENDAR_MIN - 1, NONE, NONE, NONE, NONE, NONE, NONE, NONE);
    FIELDS(CALENDAR_MAX + 1, NONE, NONE, NONE, NONE, NONE, NONE, NONE);
    FIELDS(INT32_MAX, NONE, NONE, NONE, NONE, NONE, NONE, NONE);
    FIELDS(NONE, NONE, NONE, NONE, NONE, NONE, NONE, NONE);
}

static void years_and_months(void)
{
    IS(calendar_is_leap_year(2024), true);
    IS(calendar_is_leap_year(2023), false);
    IS(calendar_is_leap_year(2000), true);
    IS(calendar_is_leap_year(1900), false);
    IS(calendar_is_leap_year(0), true);
    IS(calendar_is_leap_year(-4), true);
    IS(calendar_is_leap_year(-100), false);
    IS(calendar_is_leap_year(-400), true);
    IS(calendar_is_leap_year(INT32_MIN), true);
    IS(calendar_is_leap_year(INT32_MAX), false);
    IS(calendar_days_in_month(2024, 2), 29);
    IS(calendar_days_in_month(2023, 2), 28);
    IS(calendar_days_in_month(0, 2), 29);
    IS(calendar_days_in_month(-262143, 1), 31);
    IS(calendar_days_in_month(262142, 11), 30);
    IS(calendar_days_in_month(2024, 0), NONE);
    IS(calendar_days_in_month(2024, 13), NONE);
    IS(calendar_days_in_month(2024, UINT32_MAX), NONE);
    IS(calendar_days_in_month(262143, 1), NONE);
    IS(calendar_days_in_month(INT32_MIN, 2), NONE);
}

static void moves_by_days(void)
{
    IS(calendar_add_days(738945, 1), 738946);
    IS(calendar_add_days(738945, -738945), 0);
    IS(calendar_add_days(CALENDAR_MIN, 191491528), CALENDAR_MAX);
    IS(calendar_add_days(CALENDAR_MAX, -191491528), CALENDAR_MIN);
    IS(calendar_add_days(CALENDAR_MAX, 1), NONE);
    IS(calendar_add_days(CALENDAR_MIN, -1), NONE);
    IS(calendar_add_days(1, INT64_MAX), NONE);
    IS(calendar_add_days(-1, INT64_MIN), NONE);
    IS(calendar_add_days(1, INT64_C(1) << 32), NONE);
    IS(calendar_add_days(NONE, 0), NONE);
    IS(calendar_add_days(CALENDAR_MAX + 1, -1), NONE);
}

static void moves_by_months(void)
{
    IS(calendar_add_months(738945, 12), calendar_from_ymd(2025, 2, 28));
    IS(calendar_add_months(calendar_from_ymd(2024, 1, 31), 1), 738945);
    IS(calendar_add_months(calendar_from_ymd(2024, 3, 31), -1), 738945);
    IS(calendar_add_months(calendar_from_ymd(1, 1, 31), -11), calendar_from_ymd(0, 2, 29));
    IS(calendar_add_months(CALENDAR_MIN, 12 * 524285 + 11), calendar_from_ymd(262142, 12, 1));
    IS(calendar_add_months(CALENDAR_MAX, 1), NONE);
    IS(calendar_add_months(CALENDAR_MIN, -1), NONE);
    IS(calendar_add_months(738945, INT64_MAX), NONE);
    IS(calendar_add_months(738945, INT64_MIN), NONE);
    IS(calendar_add_months(738945, INT64_C(1) << 32), NONE);
    IS(calendar_add_months(NONE, 1), NONE);

    IS(calendar_every_months(738945, 12, 4), calendar_from_ymd(2028, 2, 29));
    IS(calendar_every_months(738945, -12, 1), calendar_from_ymd(2023, 2, 28));
    IS(calendar_every_months(738945, 1, 0), 738945);
    IS(calendar_every_months(738945, INT32_MAX, UINT32_MAX), NONE);
    IS(calendar_every_months(738945, INT32_MIN, UINT32_MAX), NONE);
    IS(calendar_every_months(NONE, 1, 0), NONE);
}

static void whole_years(void)
{
    IS(calendar_years_since(738945, calendar_from_ymd(2000, 2, 29)), 24);
    IS(calendar_years_since(calendar_from_ymd(2023, 2, 28), calendar_from_ymd(2000, 2, 29)), 22);
    IS(calendar_years_since(calendar_from_ymd(2023, 3, 1), calendar_from_ymd(2000, 2, 29)), 23);
    IS(calendar_years_since(738945, 738945), 0);
    IS(calendar_years_since(CALENDAR_MAX, CALENDAR_MIN), 524285);
    IS(calendar_years_since(738944, 738945), NONE);
    IS(calendar_years_since(NONE, 738945), NONE);
    IS(calendar_years_since(738945, CALENDAR_MIN - 1), NONE);
}

static void weeks_and_sets(void)
{
    IS(calendar_week_first_day(738945, 1), 738942);
    IS(calendar_week_first_day(738945, 4), 738945);
    IS(calendar_week_first_day(738945, 5), 738939);
    IS(calendar_week_first_day(CALENDAR_MIN, 4), CALENDAR_MIN);
    IS(calendar_week_first_day(CALENDAR_MIN, 3), NONE);
    IS(calendar_week_first_day(738945, 0), NONE);
    IS(calendar_week_first_day(738945, 8), NONE);
    IS(calendar_week_first_day(738945, UINT32_MAX), NONE);
    IS(calendar_week_first_day(NONE, 1), NONE);

    IS(calendar_first_on(738945, 8), 738945);
    IS(calendar_first_on(738945, 4), 738951);
    IS(calendar_first_on(738945, 1 | 64), 738948);
    IS(calendar_first_on(738945, 255), 738945);
    IS(calendar_first_on(738945, 0), NONE);
    IS(calendar_first_on(738945, 128), NONE);
    IS(calendar_first_on(CALENDAR_MAX, 1), CALENDAR_MAX);
    IS(calendar_first_on(CALENDAR_MAX, 2), NONE);
    IS(calendar_first_on(NONE, 127), NONE);

    IS(calendar_days_until(8, 4), 0);
    IS(calendar_days_until(4, 4), 6);
    IS(calendar_days_until(1 | 64, 4), 3);
    IS(calendar_days_until(128 | 1, 7), 1);
    IS(calendar_days_until(0, 1), NONE);
    IS(calendar_days_until(128, 1), NONE);
    IS(calendar_days_until(127, 0), NONE);
    IS(calendar_days_until(127, 8), NONE);
    IS(calendar_days_until(127, UINT32_MAX), NONE);
}

/* How far it is from each weekday to each, as the only one of a set, and the first date that has it. */
static void sets_of_one(void)
{
    for (int32_t from = 1; from <= 7; from++) {
        for (int32_t to = 1; to <= 7; to++) {
            int32_t days = (to + 7 - from) % 7;
            uint8_t weekdays = (uint8_t)(1 << (to - 1));
            IS(calendar_days_until(weekdays, (uint32_t)from), days);
            IS(calendar_days_until(128 | weekdays, (uint32_t)from), days);
            /* day 1 is a Monday */
            IS(calendar_first_on(from, weekdays), from + days);
        }
    }
}

/* Bytes that a text is written into, before that and wherever it is not written. */
#define ROOM 40
#define UNWRITTEN '#'

/* Whether the bytes hold a text, perhaps an empty one, and behind it none was written. */
static bool holds(const uint8_t room[ROOM], const char *text)
{
    size_t size = strlen(text);
    for (size_t i = size; i < ROOM; i++) {
        if (room[i] != UNWRITTEN) {
            return false;
        }
    }
    return memcmp(room, text, size) == 0;
}

/* The library says the version of its header, and writes no byte more. */
static void version_of_library(void)
{
    uint8_t room[ROOM];
    int32_t size = (int32_t)strlen(CALENDAR_VERSION);
    memset(room, UNWRITTEN, ROOM);
    IS(calendar_version(room, 0), NONE);
    IS(calendar_version(room, (size_t)size - 1), NONE);
    IS(holds(room, ""), true);
    IS(calendar_version(room, (size_t)size), size);
    IS(holds(room, CALENDAR_VERSION), true);
    memset(room, UNWRITTEN, ROOM);
    IS(calendar_version(room, ROOM), size);
    IS(holds(room, CALENDAR_VERSION), true);
}

/* A date is written in so much room as this text, or in more, with the bytes behind it left as they were; in less not at all. */
static void writes_date(int line, int32_t date, const char *text)
{
    uint8_t room[ROOM];
    int32_t size = (int32_t)strlen(text);
    memset(room, UNWRITTEN, ROOM);
    count(calendar_write_date(date, room, (size_t)size - 1) == NONE && holds(room, ""), line, "calendar_write_date: no room");
    count(calendar_write_date(date, room, (size_t)size) == size && holds(room, text), line, text);
    memset(room, UNWRITTEN, ROOM);
    count(calendar_write_date(date, room, ROOM) == size && holds(room, text), line, text);
    count(read_date(text) == date, line, "calendar_read_date");
}

static void texts_of_dates(void)
{
    uint8_t room[ROOM];
    memset(room, UNWRITTEN, ROOM);
    writes_date(__LINE__, 738945, "2024-02-29");
    writes_date(__LINE__, 1, "0001-01-01");
    writes_date(__LINE__, 0, "0000-12-31");
    writes_date(__LINE__, -366, "-0001-12-31");
    writes_date(__LINE__, 3652059, "9999-12-31");
    writes_date(__LINE__, 3652060, "+10000-01-01");
    writes_date(__LINE__, CALENDAR_MIN, "-262143-01-01");
    writes_date(__LINE__, CALENDAR_MAX, "+262142-12-31");
    IS(calendar_write_date(738945, room, 0), NONE);
    IS(calendar_write_date(NONE, room, ROOM), NONE);
    IS(calendar_write_date(CALENDAR_MAX + 1, room, ROOM), NONE);
    IS(holds(room, ""), true);
    IS(calendar_read_date((const uint8_t *)"2024-02-29x", 10), 738945);
    IS(calendar_read_date((const uint8_t *)"2024-02-29\0", 11), NONE);
}

static void near_misses_of_dates(void)
{
    static const char *const texts[] = {
        "", "2024", "2024-02-2", "2024-02-290", " 2024-02-29", "2024-02-29 ", "2024-2-29", "2024-02-30", "2023-02-29",
        "2024/02/29", "2024-02-2:", "2024-02-2/", "24-02-29", "+2024-02-29", "-2024-2-29", "-0000-01-01", "02024-02-29",
        "+02024-02-29", "10000-01-01", "+262143-01-01", "-262144-12-31", "-4294965272-02-29", "2024-00-29", "2024-13-29",
        "2024-02-00", "20240229", "2024-060", "2024-W09-4", "2024-02-2\xb2",
    };
    for (size_t i = 0; i < sizeof texts / sizeof *texts; i++) {
        count(read_date(texts[i]) == NONE, __LINE__, texts[i]);
    }
}

static void new_date_times(void)
{
    IS_MOMENT(calendar_date_time_new(CALENDAR_UNIX_EPOCH, 0, 0), 0, 0);
    IS_MOMENT(calendar_date_time_new(CALENDAR_UNIX_EPOCH - 1, 86399, 999999999), -1, 999999999);
    IS_MOMENT(calendar_date_time_new(736329, 86399, 1999999999), 1483228799, 1999999999);
    IS_MOMENT(calendar_date_time_new(CALENDAR_MIN, 0, 0), -8334601228800, 0);
    IS_MOMENT(calendar_date_time_new(CALENDAR_MAX, 86399, 1000000000), 8210266876799, 1000000000);
    NO_MOMENT(calendar_date_time_new(CALENDAR_UNIX_EPOCH, 86400, 0));
    NO_MOMENT(calendar_date_time_new(CALENDAR_UNIX_EPOCH, 0, 1000000000));
    NO_MOMENT(calendar_date_time_new(CALENDAR_UNIX_EPOCH, 58, 1999999999));
    NO_MOMENT(calendar_date_time_new(CALENDAR_UNIX_EPOCH, 59, 2000000000));
    NO_MOMENT(calendar_date_time_new(CALENDAR_UNIX_EPOCH, UINT32_MAX, UINT32_MAX));
    NO_MOMENT(calendar_date_time_new(CALENDAR_MAX + 1, 0, 0));
    NO_MOMENT(calendar_date_time_new(NONE, 0, 0));
}

static void parts_of_date_times(void)
{
    IS(calendar_date_time_date(moment(0, 0)), CALENDAR_UNIX_EPOCH);
    IS(calendar_date_time_date(moment(-1, 999999999)), CALENDAR_UNIX_EPOCH - 1);
    IS(calendar_date_time_date(moment(1483228799, 1500000000)), 736329);
    IS(calendar_date_time_date(moment(-8334601228800, 0)), CALENDAR_MIN);
    IS(calendar_date_time_date(moment(8210266876799, 1999999999)), CALENDAR_MAX);
    IS(calendar_date_time_date(moment(-8334601228801, 0)), NONE);
    IS(calendar_date_time_date(moment(8210266876800, 0)), NONE);
    IS(calendar_date_time_date(moment(0, 1000000000)), NONE);
    IS(calendar_date_time_date(moment(59, 2000000000)), NONE);
    IS(calendar_date_time_date(moment(0, CALENDAR_NO_NANOS)), NONE);
    IS(calendar_date_time_date(moment(INT64_MIN, 0)), NONE);
    IS(calendar_date_time_date(moment(INT64_MAX, 0)), NONE);

    IS(calendar_date_time_second_of_day(moment(0, 0)), 0);
    IS(calendar_date_time_second_of_day(moment(-1, 0)), 86399);
    IS(calendar_date_time_second_of_day(moment(1483228799, 1000000000)), 86399);
    IS(calendar_date_time_second_of_day(moment(1483228799, 1500000000)), 86399);
    IS(calendar_date_time_second_of_day(moment(1483228799, 1999999999)), 86399);
    IS(calendar_date_time_second_of_day(moment(3661, 1)), 3661);
    IS(calendar_date_time_second_of_day(moment(60, 1000000000)), NONE);
    IS(calendar_date_time_second_of_day(moment(8210266876800, 0)), NONE);
    IS(calendar_date_time_second_of_day(moment(INT64_MIN, UINT32_MAX)), NONE);
}

static void times_of_date_times(void)
{
    IS_TIME(calendar_date_time_time(moment(0, 0)), 0, 0);
    IS_TIME(calendar_date_time_time(moment(-1, 999999999)), 86399, 999999999);
    IS_TIME(calendar_date_time_time(moment(3661, 1)), 3661, 1);
    IS_TIME(calendar_date_time_time(moment(1483228799, 1000000000)), 86399, 1000000000);
    IS_TIME(calendar_date_time_time(moment(1483228799, 1999999999)), 86399, 1999999999);
    IS_TIME(calendar_date_time_time(moment(-8334601228800, 0)), 0, 0);
    IS_TIME(calendar_date_time_time(moment(8210266876799, 1999999999)), 86399, 1999999999);
    NO_TIME(calendar_date_time_time(moment(-8334601228801, 0)));
    NO_TIME(calendar_date_time_time(moment(8210266876800, 0)));
    NO_TIME(calendar_date_time_time(moment(60, 1000000000)));
    NO_TIME(calendar_date_time_time(moment(59, 2000000000)));
    NO_TIME(calendar_date_time_time(moment(0, CALENDAR_NO_NANOS)));
    NO_TIME(calendar_date_time_time(moment(INT64_MIN, 0)));
    NO_TIME(calendar_date_time_time(moment(INT64_MAX, UINT32_MAX)));
}

static void moves_of_date_times(void)
{
    const int64_t last = 1483228799; /* 2016-12-31T23:59:59, which a leap second followed */
    IS_MOMENT(calendar_date_time_add(moment(last, 1500000000), length(0, 300000000)), last, 1800000000);
    IS_MOMENT(calendar_date_time_add(moment(last, 1500000000), length(0, 500000000)), last + 1, 0);
    IS_MOMENT(calendar_date_time_add(moment(last, 1500000000), length(-1, 0)), last, 500000000);
    IS_MOMENT(calendar_date_time_add(moment(last, 1500000000), length(-1, 500000000)), last, 1000000000);
    IS_MOMENT(calendar_date_time_add(moment(last, 500000000), length(1, 0)), last + 1, 500000000);
    IS_MOMENT(calendar_date_time_add(moment(0, 0), length(-2, 500000000)), -2, 500000000);
    IS_MOMENT(calendar_date_time_add(moment(-8334601228800, 0), length(16544868105599, 999999999)), 8210266876799, 999999999);
    NO_MOMENT(calendar_date_time_add(moment(8210266876799, 999999999), length(0, 1)));
    NO_MOMENT(calendar_date_time_add(moment(-8334601228800, 0), length(-1, 999999999)));
    NO_MOMENT(calendar_date_time_add(moment(0, 0), length(9223372036854775, 807000000)));
    NO_MOMENT(calendar_date_time_add(moment(0, 0), length(INT64_MAX, 0)));
    NO_MOMENT(calendar_date_time_add(moment(0, 0), length(INT64_MIN, 0)));
    NO_MOMENT(calendar_date_time_add(moment(0, 0), length(0, 1000000000)));
    NO_MOMENT(calendar_date_time_add(moment(0, 0), length(0, CALENDAR_NO_NANOS)));
    NO_MOMENT(calendar_date_time_add(moment(0, CALENDAR_NO_NANOS), length(0, 0)));
    NO_MOMENT(calendar_date_time_add(moment(INT64_MIN, 0), length(INT64_MAX, 0)));
}

static void distances_of_date_times(void)
{
    const int64_t last = 1483228799; /* the 59th second of a minute, as is the one 60 before */
    IS_LENGTH(calendar_date_time_since(moment(1, 0), moment(0, 1)), 0, 999999999);
    IS_LENGTH(calendar_date_time_since(moment(0, 0), moment(1, 500000000)), -2, 500000000);
    IS_LENGTH(calendar_date_time_since(moment(last, 1500000000), moment(last, 0)), 1, 500000000);
    IS_LENGTH(calendar_date_time_since(moment(last, 0), moment(last, 1500000000)), -2, 500000000);
    IS_LENGTH(calendar_date_time_since(moment(last - 60, 1500000000), moment(last - 59, 0)), -1, 500000000);
    IS_LENGTH(calendar_date_time_since(moment(last - 58, 0), moment(last - 60, 1500000000)), 1, 500000000);
    IS_LENGTH(calendar_date_time_since(moment(last + 1, 0), moment(last, 1500000000)), -1, 500000000);
    IS_LENGTH(calendar_date_time_since(moment(8210266876799, 0), moment(-8334601228800, 0)), 16544868105599, 0);
    NO_LENGTH(calendar_date_time_since(moment(0, CALENDAR_NO_NANOS), moment(0, 0)));
    NO_LENGTH(calendar_date_time_since(moment(0, 0), moment(0, 1000000000)));
    NO_LENGTH(calendar_date_time_since(moment(INT64_MAX, 0), moment(INT64_MIN, 0)));
}

/* A date-time is written in so much room as this text, or in more, and not in less. */
static void writes_date_time(int line, calendar_date_time written, const char *text)
{
    uint8_t room[ROOM];
    int32_t size = (int32_t)strlen(text);
    memset(room, UNWRITTEN, ROOM);
    count(calendar_write_date_time(written, room, (size_t)size - 1) == NONE && holds(room, ""), line,
          "calendar_write_date_time: no room");
    count(calendar_write_date_time(written, room, (size_t)size) == size && holds(room, text), line, text);
    memset(room, UNWRITTEN, ROOM);
    count(calendar_write_date_time(written, room, ROOM) == size && holds(room, text), line, text);
    count(same_moment(read_date_time(text), written.seconds, written.nanos), line, "calendar_read_date_time");
}

static void texts_of_date_times(void)
{
    uint8_t room[ROOM];
    memset(room, UNWRITTEN, ROOM);
    writes_date_time(__LINE__, moment(0, 0), "1970-01-01T00:00:00");
    writes_date_time(__LINE__, moment(-1, 500000000), "1969-12-31T23:59:59.500");
    writes_date_time(__LINE__, moment(0, 1000), "1970-01-01T00:00:00.000001");
    writes_date_time(__LINE__, moment(0, 1), "1970-01-01T00:00:00.000000001");
    writes_date_time(__LINE__, moment(1483228799, 1000000000), "2016-12-31T23:59:60");
    writes_date_time(__LINE__, moment(1483228799, 1999999999), "2016-12-31T23:59:60.999999999");
    writes_date_time(__LINE__, moment(-8334601228800, 0), "-262143-01-01T00:00:00");
    writes_date_time(__LINE__, moment(8210266876799, 999999999), "+262142-12-31T23:59:59.999999999");
    IS_MOMENT(read_date_time("2024-02-29 12:00:00.25"), 1709208000, 250000000);
    IS(calendar_write_date_time(moment(0, 0), room, 0), NONE);
    IS(calendar_write_date_time(moment(0, CALENDAR_NO_NANOS), room, ROOM), NONE);
    IS(calendar_write_date_time(moment(INT64_MAX, 0), room, ROOM), NONE);
    IS(holds(room, ""), true);
    NO_MOMENT(calendar_read_date_time((const uint8_t *)"1970-01-01T00:00:00\0", 20));
}

static void near_misses_of_date_times(void)
{
    static const char *const texts[] = {
        "", "2024-02-29", "2024-02-29T", "2024-02-29T12:00", "2024-02-29T12:00:0", "2024-02-29t12:00:00", "2024-02-29_12:00:00",
        "2024-02-29T24:00:00", "2024-02-29T12:60:00", "2024-02-29T12:00:61", "2024-02-29T12:00:00.", "2024-02-29T12:00:00,5",
        "2024-02-29T12:00:00.1234567890", "2024-02-29T12:00:00Z", "2024-02-29T12:00:00 ", " 2024-02-29T12:00:00",
        "2024-02-30T12:00:00", "2024-02-29T1:00:00", "2024-02-29T-1:00:00", "2024-02-29  12:00:00", "12:00:00",
        "+262143-01-01T00:00:00", "-262144-12-31T23:59:59",
    };
    for (size_t i = 0; i < sizeof texts / sizeof *texts; i++) {
        count(same_moment(read_date_time(texts[i]), 0, CALENDAR_NO_NANOS), __LINE__, texts[i]);
    }
}

/* A time of day is written in so much room as this text, or in more, and not in less. */
static void writes_time(int line, calendar_time written, const char *text)
{
    uint8_t room[ROOM];
    int32_t size = (int32_t)strlen(text);
    memset(room, UNWRITTEN, ROOM);
    count(calendar_write_time(written, room, (size_t)size - 1) == NONE && holds(room, ""), line, "calendar_write_time: no room");
    count(calendar_write_time(written, room, (size_t)size) == size && holds(room, text), line, text);
    memset(room, UNWRITTEN, ROOM);
    count(calendar_write_time(written, room, ROOM) == size && holds(room, text), line, text);
    count(same_time(read_time(text), written.second, written.nanos), line, "calendar_read_time");
}

static void texts_of_times(void)
{
    uint8_t room[ROOM];
    memset(room, UNWRITTEN, ROOM);
    writes_time(__LINE__, time_of_day(0, 0), "00:00:00");
    writes_time(__LINE__, time_of_day(86164, 500000000), "23:56:04.500");
    writes_time(__LINE__, time_of_day(86399, 999999999), "23:59:59.999999999");
    writes_time(__LINE__, time_of_day(86399, 1000000000), "23:59:60");
    writes_time(__LINE__, time_of_day(86399, 1999999999), "23:59:60.999999999");
    writes_time(__LINE__, time_of_day(59, 1500000000), "00:00:60.500");
    writes_time(__LINE__, time_of_day(3661, 1000), "01:01:01.000001");
    IS_TIME(read_time("12:00:00.25"), 43200, 250000000);
    IS_TIME(read_time("12:00:00.000000000"), 43200, 0);
    IS(calendar_write_time(time_of_day(0, 0), room, 0), NONE);
    IS(calendar_write_time(time_of_day(86400, 0), room, ROOM), NONE);
    IS(calendar_write_time(time_of_day(60, 1000000000), room, ROOM), NONE);
    IS(calendar_write_time(time_of_day(59, 2000000000), room, ROOM), NONE);
    IS(calendar_write_time(time_of_day(0, CALENDAR_NO_NANOS), room, ROOM), NONE);
    IS(calendar_write_time(time_of_day(UINT32_MAX, UINT32_MAX), room, ROOM), NONE);
    IS(holds(room, ""), true);
    NO_TIME(calendar_read_time((const uint8_t *)"00:00:00\0", 9));
}

static void near_misses_of_times(void)
{
    static const char *const texts[] = {
        "", "12", "12:00", "12:00:0", "1:00:00", "24:00:00", "12:60:00", "12:00:61", "12:00:00.", "12:00:00,5", " 12:00:00",
        "12:00:00 ", "12:00:00Z", "12:00:00.1234567890", "12-00-00", "-1:00:00", "T12:00:00", "120000", "12:00:00.5x", "1\xb2:00:00",
    };
    for (size_t i = 0; i < sizeof texts / sizeof *texts; i++) {
        count(same_time(read_time(texts[i]), 0, CALENDAR_NO_NANOS), __LINE__, texts[i]);
    }
}

/* The longest duration, and the least: 9,223,372,036,854,775,807 milliseconds, and as many before zero. */
#define LONGEST length(9223372036854775, 807000000)
#define LEAST length(-9223372036854776, 193000000)

static void sums_of_durations(void)
{
    IS_LENGTH(calendar_duration_add(length(0, 0), length(0, 0)), 0, 0);
    IS_LENGTH(calendar_duration_add(length(1, 600000000), length(2, 500000000)), 4, 100000000);
    IS_LENGTH(calendar_duration_add(length(1, 0), length(-1, 999999999)), 0, 999999999);
    IS_LENGTH(calendar_duration_add(length(-2, 500000000), length(-2, 500000000)), -3, 0);
    IS_LENGTH(calendar_duration_add(length(-2, 500000000), length(1, 500000000)), 0, 0);
    IS_LENGTH(calendar_duration_add(LONGEST, LEAST), 0, 0);
    IS_LENGTH(calendar_duration_add(LONGEST, length(-1, 999999999)), 9223372036854775, 806999999);
    NO_LENGTH(calendar_duration_add(LONGEST, length(0, 1)));
    NO_LENGTH(calendar_duration_add(LEAST, length(-1, 999999999)));
    NO_LENGTH(calendar_duration_add(LONGEST, LONGEST));
    NO_LENGTH(calendar_duration_add(length(9223372036854775, 807000001), length(-1, 0)));
    NO_LENGTH(calendar_duration_add(length(0, 1000000000), length(0, 0)));
    NO_LENGTH(calendar_duration_add(length(0, 0), length(0, CALENDAR_NO_NANOS)));
    NO_LENGTH(calendar_duration_add(length(INT64_MIN, 0), length(INT64_MAX, 0)));
}

static void multiples_of_durations(void)
{
    IS_LENGTH(calendar_duration_multiply(length(1, 500000000), 3), 4, 500000000);
    IS_LENGTH(calendar_duration_multiply(length(1, 500000000), -3), -5, 500000000);
    IS_LENGTH(calendar_duration_multiply(length(-2, 500000000), -1), 1, 500000000);
    IS_LENGTH(calendar_duration_multiply(length(1, 500000000), 0), 0, 0);
    IS_LENGTH(calendar_duration_multiply(LONGEST, 0), 0, 0);
    IS_LENGTH(calendar_duration_multiply(LONGEST, -1), -9223372036854776, 193000000);
    IS_LENGTH(calendar_duration_multiply(length(0, 1), INT32_MIN), -3, 852516352);
    IS_LENGTH(calendar_duration_multiply(length(0, 999999999), INT32_MAX), 2147483644, 852516353);
    NO_LENGTH(calendar_duration_multiply(LONGEST, 2));
    NO_LENGTH(calendar_duration_multiply(LEAST, INT32_MIN));
    NO_LENGTH(calendar_duration_multiply(length(0, CALENDAR_NO_NANOS), 0));
    NO_LENGTH(calendar_duration_multiply(length(INT64_MAX, 0), 0));
}

static void parts_of_durations(void)
{
    IS_LENGTH(calendar_duration_divide(length(5400, 0), 3), 1800, 0);
    IS_LENGTH(calendar_duration_divide(length(1, 0), 3), 0, 333333333);
    IS_LENGTH(calendar_duration_divide(length(1, 0), -3), -1, 666666667);
    IS_LENGTH(calendar_duration_divide(length(-4, 0), 3), -2, 666666667);
    IS_LENGTH(calendar_duration_divide(length(-1, 999999999), 2), -1, 999999999);
    IS_LENGTH(calendar_duration_divide(length(0, 1), 2), 0, 0);
    IS_LENGTH(calendar_duration_divide(LONGEST, 1), 9223372036854775, 807000000);
    IS_LENGTH(calendar_duration_divide(LONGEST, -1), -9223372036854776, 193000000);
    IS_LENGTH(calendar_duration_divide(LEAST, -1), 9223372036854775, 807000000);
    IS_LENGTH(calendar_duration_divide(length(0, 1), INT32_MIN), 0, 0);
    NO_LENGTH(calendar_duration_divide(length(1, 0), 0));
    NO_LENGTH(calendar_duration_divide(length(0, 0), 0));
    NO_LENGTH(calendar_duration_divide(length(0, CALENDAR_NO_NANOS), 1));
    NO_LENGTH(calendar_duration_divide(length(INT64_MIN, 0), -1));
}

/* A duration is written in so much room as this text, or in more, and not in less. */
static void writes_duration(int line, calendar_duration written, const char *text)
{
    uint8_t room[ROOM];
    int32_t size = (int32_t)strlen(text);
    memset(room, UNWRITTEN, ROOM);
    count(calendar_write_duration(written, room, (size_t)size - 1) == NONE && holds(room, ""), line,
          "calendar_write_duration: no room");
    count(calendar_write_duration(written, room, (size_t)size) == size && holds(room, text), line, text);
    memset(room, UNWRITTEN, ROOM);
    count(calendar_write_duration(written, room, ROOM) == size && holds(room, text), line, text);
    count(same_length(read_duration(text), written.seconds, written.nanos), line, "calendar_read_duration");
}

static void texts_of_durations(void)
{
    uint8_t room[ROOM];
    memset(room, UNWRITTEN, ROOM);
    writes_duration(__LINE__, length(0, 0), "P0D");
    writes_duration(__LINE__, length(5400, 0), "PT5400S");
    writes_duration(__LINE__, length(-86400, 0), "-PT86400S");
    writes_duration(__LINE__, length(0, 42000000), "PT0.042S");
    writes_duration(__LINE__, length(-1, 500000000), "-PT0.5S");
    writes_duration(__LINE__, length(-2, 500000000), "-PT1.5S");
    writes_duration(__LINE__, length(0, 1), "PT0.000000001S");
    writes_duration(__LINE__, length(-1, 999999999), "-PT0.000000001S");
    writes_duration(__LINE__, LONGEST, "PT9223372036854775.807S");
    writes_duration(__LINE__, LEAST, "-PT9223372036854775.807S");
    writes_duration(__LINE__, length(-9223372036854776, 193000001), "-PT9223372036854775.806999999S");
    IS_LENGTH(read_duration("PT1.50S"), 1, 500000000);
    IS(calendar_write_duration(length(0, 0), room, 0), NONE);
    IS(calendar_write_duration(length(0, 1000000000), room, ROOM), NONE);
    IS(calendar_write_duration(length(0, CALENDAR_NO_NANOS), room, ROOM), NONE);
    IS(calendar_write_duration(length(9223372036854775, 807000001), room, ROOM), NONE);
    IS(calendar_write_duration(length(-9223372036854776, 192999999), room, ROOM), NONE);
    IS(calendar_write_duration(length(INT64_MIN, UINT32_MAX), room, ROOM), NONE);
    IS(holds(room, ""), true);
    NO_LENGTH(calendar_read_duration((const uint8_t *)"PT1S\0", 5));
}

static void near_misses_of_durations(void)
{
    static const char *const texts[] = {
        "", "P", "PT", "PTS", "PT0S", "-P0D", "-PT0S", "PT0.0S", "P1D", "PT1H", "PT1M", "PT1", "1S", "T1S", "pt1s", "PT01S", "PT1.S",
        "PT.5S", "PT1,5S", "PT1.1234567890S", "+PT1S", "--PT1S", " PT1S", "PT1S ", "PT-1S", "PT9223372036854775.807000001S",
        "-PT9223372036854775.808S", "PT99999999999999999999S",
    };
    for (size_t i = 0; i < sizeof texts / sizeof *texts; i++) {
        count(same_length(read_duration(texts[i]), 0, CALENDAR_NO_NANOS), __LINE__, texts[i]);
    }
}

/* Each column call once, over dates of known names: 29 February 2024 was a Thursday, in the week 2024-W09. */
static void columns(void)
{
    const int32_t dates[] = {738945, CALENDAR_MAX + 1, 719163};
    int32_t years[3], numbers[3];
    uint8_t months[3], days[3], weekdays[3];
    uint16_t ordinals[3];
    int64_t unix_days[3];
    calendar_ymd leap_day = calendar_split(738945), none = calendar_split(NONE);
    count(leap_day.year == 2024 && leap_day.month == 2 && leap_day.day == 29, __LINE__, "calendar_split");
    count(none.year == NONE && none.month == 0 && none.day == 0, __LINE__, "calendar_split of none");
    IS(calendar_column_weekdays(dates, 3, weekdays, 3), true);
    count(weekdays[0] == 4 && weekdays[1] == 0 && weekdays[2] == 4, __LINE__, "calendar_column_weekdays");
    IS(calendar_column_years(dates, 3, years, 3), true);
    count(years[0] == 2024 && years[1] == NONE && years[2] == 1970, __LINE__, "calendar_column_years");
    IS(calendar_column_ordinals(dates, 3, ordinals, 3), true);
    count(ordinals[0] == 60 && ordinals[1] == 0 && ordinals[2] == 1, __LINE__, "calendar_column_ordinals");
    IS(calendar_column_iso_weeks(dates, 3, years, 3, weekdays, 3), true);
    count(years[0] == 2024 && weekdays[0] == 9 && years[1] == NONE && weekdays[1] == 0, __LINE__, "calendar_column_iso_weeks");
    IS(calendar_column_split(dates, 3, years, 3, months, 3, days, 3), true);
    count(years[0] == 2024 && months[0] == 2 && days[0] == 29, __LINE__, "calendar_column_split");
    count(years[1] == NONE && months[1] == 0 && days[1] == 0, __LINE__, "calendar_column_split of none");
    IS(calendar_column_join(years, 3, months, 3, days, 3, numbers, 3), true);
    count(numbers[0] == 738945 && numbers[1] == NONE && numbers[2] == 719163, __LINE__, "calendar_column_join");
    IS(calendar_column_add_days(dates, 3, 1, numbers, 3), true);
    count(numbers[0] == 738946 && numbers[1] == NONE && numbers[2] == 719164, __LINE__, "calendar_column_add_days");
    IS(calendar_column_add_days_each(dates, 3, dates, 3, numbers, 3), true);
    count(numbers[0] == 1477890 && numbers[1] == NONE && numbers[2] == 1438326, __LINE__, "calendar_column_add_days_each");
    IS(calendar_column_add_months(dates, 3, 12, numbers, 3), true);
    count(numbers[0] == 739310 && numbers[1] == NONE && numbers[2] == 719528, __LINE__, "calendar_column_add_months");
    IS(calendar_column_days_between(dates, 3, numbers, 3, years, 3), true);
    count(years[0] == -365 && years[1] == NONE && years[2] == -365, __LINE__, "calendar_column_days_between");
    IS(calendar_column_to_unix_days(dates, 3, unix_days, 3), true);
    count(unix_days[0] == 19782 && unix_days[1] == INT64_MIN && unix_days[2] == 0, __LINE__, "calendar_column_to_unix_days");
    IS(calendar_column_from_unix_days(unix_days, 3, numbers, 3), true);
    count(numbers[0] == 738945 && numbers[1] == NONE && numbers[2] == 719163, __LINE__, "calendar_column_from_unix_days");
    IS(calendar_column_first_on(dates, 3, 1, numbers, 3), true);
    count(numbers[0] == 738949 && numbers[1] == NONE && numbers[2] == 719167, __LINE__, "calendar_column_first_on");
    IS(calendar_column_years(dates, 3, years, 2), false);
}

/* Columns of texts of ten bytes: what is no date, or has no such text, has ten zero bytes, and these are no text of a date. */
static void columns_of_texts(void)
{
    const int32_t dates[] = {738945, NONE, 366, 3652060, 3652059, 0, -365, -366};
    const char *wanted = "2024-02-29\0\0\0\0\0\0\0\0\0\0" "0002-01-01\0\0\0\0\0\0\0\0\0\0" "9999-12-31" "0000-12-31" "0000-01-01\0\0\0\0\0\0\0\0\0\0";
    const char *hostile = "2023-02-29" "2024-13-01" "2024-00-01" "2024-01-00" "2024/02/29" "2024-2-029" "-024-02-29" "+024-02-29";
    uint8_t texts[80];
    int32_t read[8];
    IS(calendar_column_write_dates(dates, 8, texts, 8), true);
    count(!memcmp(texts, wanted, 80), __LINE__, "calendar_column_write_dates");
    IS(calendar_column_read_dates(texts, 8, read, 8), true);
    count(read[0] == 738945 && read[1] == NONE && read[2] == 366 && read[3] == NONE, __LINE__, "calendar_column_read_dates");
    count(read[4] == 3652059 && read[5] == 0 && read[6] == -365 && read[7] == NONE, __LINE__, "calendar_column_read_dates");
    IS(calendar_column_read_dates((const uint8_t *)hostile, 8, read, 8), true);
    for (int i = 0; i < 8; i++) IS(read[i], NONE);
    IS(calendar_column_write_dates(dates, 8, texts, 7), false);
    IS(calendar_column_read_dates(texts, 7, read, 8), false);
}

/* Each column call that writes over what it reads, and the count of dates. */
static void columns_in_place(void)
{
    int32_t dates[] = {738945, CALENDAR_MAX + 1, 719163};
    const int32_t days[] = {1, 1, NONE};
    IS(calendar_column_count_dates(dates, 3), 2);
    calendar_column_add_months_in_place(dates, 3, 12);
    count(dates[0] == 739310 && dates[1] == NONE && dates[2] == 719528, __LINE__, "calendar_column_add_months_in_place");
    calendar_column_add_days_in_place(dates, 3, -365);
    count(dates[0] == 738945 && dates[1] == NONE && dates[2] == 719163, __LINE__, "calendar_column_add_days_in_place");
    IS(calendar_column_add_days_each_in_place(dates, 3, days, 3), true);
    count(dates[0] == 738946 && dates[1] == NONE && dates[2] == NONE, __LINE__, "calendar_column_add_days_each_in_place");
    IS(calendar_column_add_days_each_in_place(dates, 3, days, 2), false);
    IS(calendar_column_count_dates(dates, 3), 1);
}

int main(void)
{
    calendar_names();
    ordinal_names();
    week_names();
    fields();
    years_and_months();
    moves_by_days();
    moves_by_months();
    whole_years();
    weeks_and_sets();
    sets_of_one();
    version_of_library();
    texts_of_dates();
    near_misses_of_dates();
    new_date_times();
    parts_of_date_times();
    times_of_date_times();
    moves_of_date_times();
    distances_of_date_times();
    texts_of_date_times();
    near_misses_of_date_times();
    texts_of_times();
    near_misses_of_times();
    sums_of_durations();
    multiples_of_durations();
    parts_of_durations();
    texts_of_durations();
    near_misses_of_durations();
    columns();
    columns_in_place();
    columns_of_texts();
    printf("%d passed, %d failed\n", passed, failed);
    return failed != 0;
}
