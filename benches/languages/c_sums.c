/* Sums of the answers of calendar.h and of the C library to the same calls: `c_sums CALL COUNT` makes a call so many times on
 * pseudo-random arguments and prints the sum of its answers. */
#define _GNU_SOURCE
#include "calendar.h"

#include <stdio.h>
#include <stdlib.h>
#include <string.h>
#include <time.h>

enum { SIZE = 1024, TEXT = 10, DAY = 86400 };

/* Arguments from the 400 years from 1800 on: day numbers, names, and texts with a zero byte behind each. */
static int32_t days[SIZE];
static struct { int32_t year; uint32_t month, day; } names[SIZE];
static char texts[SIZE][TEXT + 1];

/* A linear congruential generator modulo 2^64, with the numbers of Knuth's MMIX. */
static uint64_t draw(uint64_t *state)
{
    return *state = *state * UINT64_C(6364136223846793005) + UINT64_C(1442695040888963407);
}

static uint32_t below(uint64_t *state, uint32_t bound)
{
    return (uint32_t)((draw(state) >> 32) % bound);
}

static void fill(uint64_t *state)
{
    for (int i = 0; i < SIZE; i++) {
        days[i] = 657072 + (int32_t)below(state, 146097);
        names[i].year = 1800 + (int32_t)below(state, 400);
        names[i].month = 1 + below(state, 12);
        names[i].day = 1 + below(state, 28);
        calendar_write_date(days[i], (uint8_t *)texts[i], TEXT);
    }
}

/* The same number for the same year, month and day, whoever names them. */
static uint64_t of_name(int32_t year, int32_t month, int32_t day)
{
    return (uint64_t)(512 * year + 32 * month + day);
}

static uint64_t of_text(const char *text)
{
    uint64_t bytes;
    memcpy(&bytes, text, sizeof bytes);
    return bytes + (uint64_t)text[8] + (uint64_t)text[9];
}

static time_t seconds_of(int32_t day)
{
    return ((time_t)day - CALENDAR_UNIX_EPOCH) * DAY;
}

static struct tm fields_of(int32_t day)
{
    time_t seconds = seconds_of(day);
    struct tm fields;
    gmtime_r(&seconds, &fields);
    return fields;
}

static uint64_t number_of(struct tm *fields)
{
    return (uint64_t)(timegm(fields) / DAY + CALENDAR_UNIX_EPOCH);
}

static uint64_t none(int i)
{
    return (uint64_t)days[i];
}

static uint64_t our_number(int i)
{
    return (uint64_t)calendar_from_ymd(names[i].year, names[i].month, names[i].day);
}

static uint64_t their_number(int i)
{
    struct tm fields = {.tm_year = names[i].year - 1900, .tm_mon = (int)names[i].month - 1, .tm_mday = (int)names[i].day};
    return number_of(&fields);
}

static uint64_t our_name(int i)
{
    return of_name(calendar_year(days[i]), calendar_month(days[i]), calendar_day(days[i]));
}

static uint64_t their_name(int i)
{
    struct tm fields = fields_of(days[i]);
    return of_name(fields.tm_year + 1900, fields.tm_mon + 1, fields.tm_mday);
}

static uint64_t our_written(int i)
{
    char text[TEXT];
    calendar_write_date(days[i], (uint8_t *)text, TEXT);
    return of_text(text);
}

static uint64_t their_written(int i)
{
    char text[TEXT + 1];
    struct tm fields = fields_of(days[i]);
    strftime(text, sizeof text, "%Y-%m-%d", &fields);
    return of_text(text);
}

static uint64_t our_read(int i)
{
    return (uint64_t)calendar_read_date((const uint8_t *)texts[i], TEXT);
}

static uint64_t their_read(int i)
{
    struct tm fields = {0};
    return strptime(texts[i], "%Y-%m-%d", &fields) ? number_of(&fields) : 0;
}

static const struct {
    const char *name;
    uint64_t (*answer)(int);
} calls[] = {
    {"none", none},
    {"ours.name_to_number", our_number}, {"theirs.name_to_number", their_number},
    {"ours.number_to_name", our_name},   {"theirs.number_to_name", their_name},
    {"ours.write_date", our_written},    {"theirs.write_date", their_written},
    {"ours.read_date", our_read},        {"theirs.read_date", their_read},
};

static uint64_t sum(uint64_t (*answer)(int), unsigned long count, uint64_t state)
{
    uint64_t total = 0;
    while (count-- > 0) {
        total += answer((int)(draw(&state) >> 54));
    }
    return total;
}

int main(int argc, char **argv)
{
    uint64_t state = 1;
    fill(&state);
    for (size_t i = 0; argc == 3 && i < sizeof calls / sizeof *calls; i++) {
        if (strcmp(argv[1], calls[i].name) == 0) {
            printf("%llu\n", (unsigned long long)sum(calls[i].answer, strtoul(argv[2], NULL, 10), state));
            return 0;
        }
    }
    fprintf(stderr, "usage: c_sums CALL COUNT\n");
    return 2;
}
