/* The columns of the calendar as loops of C, by the same formulas: what a compiler makes of them is the limit.
 *
 * It is built twice: with the flags by which the kit compiles Rattle, and with PLAIN by -O3 alone. It has no headers, so that the
 * kit's compiler, which has none, can build it. */
#ifdef PLAIN
#define LOOP(call) plain_##call
#else
#define LOOP(call) limit_##call
#endif

typedef __INT32_TYPE__ int32_t;
typedef __UINT32_TYPE__ uint32_t;
typedef __UINT64_TYPE__ uint64_t;
typedef __UINT8_TYPE__ uint8_t;
typedef __UINT16_TYPE__ uint16_t;
typedef __SIZE_TYPE__ size_t;

#define NONE (-2147483647 - 1)

enum { FIRST = -95746129, LAST = 95745399, DAYS_TO_ONE = 95839632, YEARS_TO_ONE = 262400, FROM_MARCH = 306 };

static inline int32_t within(int32_t number, int32_t low, int32_t high)
{
    return number < low ? low : number > high ? high : number;
}

/* The whole years in so many days, and the days past them. */
static inline uint32_t years_in(uint32_t days, uint32_t *place)
{
    uint32_t centuries = (4 * days + 3) / 146097, quarters = 4 * (days + (3 * centuries + 3) / 4) + 3;
    uint32_t years = (uint32_t)(376287347ull * quarters >> 39);
    *place = (quarters - 1461 * years) / 4;
    return years;
}

static inline uint32_t days_to(uint32_t years)
{
    uint32_t centuries = years / 100;
    return 1461 * years / 4 - centuries + centuries / 4;
}

void LOOP(weekdays)(const int32_t *restrict dates, uint8_t *restrict out, size_t n)
{
    for (size_t i = 0; i < n; i++) {
        int32_t date = within(dates[i], FIRST, LAST);
        uint8_t day = (uint8_t)((uint32_t)(date - 1 + DAYS_TO_ONE) % 7 + 1);
        out[i] = date == dates[i] ? day : 0;
    }
}

void LOOP(split)(const int32_t *restrict dates, int32_t *restrict years, uint8_t *restrict months, uint8_t *restrict days, size_t n)
{
    for (size_t i = 0; i < n; i++) {
        int32_t date = within(dates[i], FIRST, LAST);
        uint32_t place, year = years_in((uint32_t)(date - 1 + DAYS_TO_ONE) + FROM_MARCH, &place);
        uint32_t scaled = 2141 * place + 197913, late = place >= FROM_MARCH;
        years[i] = date == dates[i] ? (int32_t)(year + late) - YEARS_TO_ONE : NONE;
        months[i] = date == dates[i] ? (uint8_t)((scaled >> 16) - (late ? 12 : 0)) : 0;
        days[i] = date == dates[i] ? (uint8_t)((scaled & 65535) / 2141 + 1) : 0;
    }
}

void LOOP(join)(const int32_t *restrict years, const uint8_t *restrict months, const uint8_t *restrict days, int32_t *restrict out, size_t n)
{
    for (size_t i = 0; i < n; i++) {
        int32_t year = within(years[i], -262143, 262142), month = within(months[i], 1, 12);
        uint32_t counted = (uint32_t)(year + YEARS_TO_ONE), hundreds = counted / 100, m = (uint32_t)month, day = days[i];
        uint32_t leap = ((hundreds * 100 == counted ? hundreds : counted) & 3) == 0;
        uint32_t length = m == 2 ? 28 + leap : 30 + ((m + (m >> 3)) & 1);
        uint32_t before = days_to(counted - (m < 3)) + (979 * (m < 3 ? m + 12 : m) - 2919) / 32;
        int32_t date = (int32_t)(before + day) - (DAYS_TO_ONE + FROM_MARCH);
        out[i] = ((year == years[i]) & (month == months[i]) & (day >= 1) & (day <= length)) ? date : NONE;
    }
}

void LOOP(add_months)(const int32_t *restrict dates, int32_t months, int32_t *restrict out, size_t n)
{
    int32_t count = within(months, -7000000, 7000000);
    for (size_t i = 0; i < n; i++) {
        int32_t date = within(dates[i], FIRST, LAST);
        uint32_t place, years = years_in((uint32_t)(date - 1 + DAYS_TO_ONE) + FROM_MARCH, &place);
        uint32_t scaled = 2141 * place + 197913, day = (scaled & 65535) / 2141 + 1;
        int32_t wanted = (int32_t)(years * 12 + (scaled >> 16) - 3) + count, near = within(wanted, 3082, 6294513);
        uint32_t year = (uint32_t)near / 12, month = (uint32_t)near % 12 + 3, start = days_to(year), length = days_to(year + 1) - start;
        uint32_t next = (979 * month - 1940) / 32, end = next < length ? next : length, at = (979 * month - 2919) / 32 + day;
        int32_t moved = (int32_t)(start + (at < end ? at : end)) - (DAYS_TO_ONE + FROM_MARCH);
        out[i] = ((date == dates[i]) & (near == wanted)) ? moved : NONE;
    }
}

/* Texts in blocks: the names of each date side by side, then its digits as one number of 64 bits. */
enum { BLOCK = 256 };

void LOOP(write_dates)(const int32_t *restrict dates, uint8_t *restrict texts, size_t n)
{
    int32_t years[BLOCK];
    uint8_t months[BLOCK], days[BLOCK];
    for (size_t i = 0; i < n; i += BLOCK) {
        size_t left = n - i < BLOCK ? n - i : BLOCK;
        LOOP(split)(dates + i, years, months, days, left);
        for (size_t j = 0; j < left; j++) {
            uint32_t year = (uint32_t)years[j], hundreds = year / 100;
            uint64_t pairs = (uint64_t)hundreds | (uint64_t)(year - 100 * hundreds) << 16 | (uint64_t)months[j] << 32 | (uint64_t)days[j] << 48;
            uint64_t tens = (pairs * 103 >> 10) & 0x000f000f000f000full, digits = tens + ((pairs - 10 * tens) << 8) + 0x3030303030303030ull;
            uint64_t front = (digits & 0xffffffff) | 0x2dull << 32 | (digits >> 32 & 0xffff) << 40 | 0x2dull << 56;
            uint16_t end = (uint16_t)(digits >> 48);
            if (year > 9999) front = 0, end = 0;
            __builtin_memcpy(texts + 10 * (i + j), &front, 8);
            __builtin_memcpy(texts + 10 * (i + j) + 8, &end, 2);
        }
    }
}

void LOOP(read_dates)(const uint8_t *restrict texts, int32_t *restrict dates, size_t n)
{
    int32_t years[BLOCK];
    uint8_t months[BLOCK], days[BLOCK];
    for (size_t i = 0; i < n; i += BLOCK) {
        size_t left = n - i < BLOCK ? n - i : BLOCK;
        for (size_t j = 0; j < left; j++) {
            uint64_t front;
            uint16_t end;
            __builtin_memcpy(&front, texts + 10 * (i + j), 8);
            __builtin_memcpy(&end, texts + 10 * (i + j) + 8, 2);
            uint64_t codes = (front & 0xffffffff) | (front >> 40 & 0xffff) << 32 | (uint64_t)end << 48, digits = codes - 0x3030303030303030ull;
            uint32_t right = (front & 0xff0000ff00000000ull) == 0x2d00002d00000000ull;
            right &= ((codes | (codes + 0x0606060606060606ull)) & 0xf0f0f0f0f0f0f0f0ull) == 0x3030303030303030ull;
            uint64_t pairs = digits * 10 + (digits >> 8);
            years[j] = (int32_t)((uint32_t)(pairs & 0xff) * 100 + (uint32_t)(pairs >> 16 & 0xff));
            months[j] = right ? (uint8_t)(pairs >> 32) : 0;
            days[j] = (uint8_t)(pairs >> 48);
        }
        LOOP(join)(years, months, days, dates + i, left);
    }
}

#ifndef PLAIN
/* What memory allows: as many bytes read and written as in each column, and nothing computed. */
void copy_1(const int32_t *restrict dates, uint8_t *restrict out, size_t n)
{
    for (size_t i = 0; i < n; i++) out[i] = (uint8_t)dates[i];
}

void copy_4(const int32_t *restrict dates, int32_t *restrict out, size_t n)
{
    for (size_t i = 0; i < n; i++) out[i] = dates[i] ^ 1;
}

void copy_split(const int32_t *restrict dates, int32_t *restrict years, uint8_t *restrict months, uint8_t *restrict days, size_t n)
{
    for (size_t i = 0; i < n; i++) years[i] = dates[i], months[i] = (uint8_t)dates[i], days[i] = (uint8_t)(dates[i] >> 8);
}

void copy_join(const int32_t *restrict years, const uint8_t *restrict months, const uint8_t *restrict days, int32_t *restrict out, size_t n)
{
    for (size_t i = 0; i < n; i++) out[i] = years[i] + months[i] + days[i];
}

void copy_text(const int32_t *restrict dates, uint8_t *restrict texts, size_t n)
{
    for (size_t i = 0; i < n; i++) {
        uint64_t front = (uint32_t)dates[i] * 0x100000001ull;
        __builtin_memcpy(texts + 10 * i, &front, 8);
        __builtin_memcpy(texts + 10 * i + 8, &dates[i], 2);
    }
}
#endif
