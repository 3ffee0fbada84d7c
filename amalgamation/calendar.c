/*
 * calendar.c: the functions of calendar.h 0.2.0-dev, for any compiler of C99 on a little-endian machine of 64 bits.
 *
 * tools/dist made this file from the module of the crate calendar_c, whose functions are proved to meet their contracts. Nothing proves
 * the translation: it is tested, as docs/trust.md says. Do not edit it. The sources have this sum by SHA-256:
 * e081e8ed58e8532f5a7d6a7bd720bb7ae41b656a4b6e4c5c5996d46e271a58b8
 *
 * SPDX-License-Identifier: MIT OR Apache-2.0
 */
#include <stddef.h>
#include <stdint.h>

#if defined(__BYTE_ORDER__) && __BYTE_ORDER__ != __ORDER_LITTLE_ENDIAN__
#error "this file is for little-endian machines: on others it would give wrong answers"
#endif
#if UINTPTR_MAX != UINT64_MAX
#error "this file is for machines with pointers of 64 bits"
#endif
#include <string.h>

typedef unsigned char *bytes;

/* Memory is read and written by memcpy, so no address has to be aligned. */
#define LOAD(type, place, from) memcpy(&(place), (from), sizeof(type))
#define STORE(type, to, value) do { type stored_ = (value); memcpy((to), &stored_, sizeof stored_); } while (0)

#if defined(__GNUC__)
#define MAYBE_UNUSED __attribute__((unused))
#define UNREACHABLE() __builtin_unreachable()
#define TRAP() __builtin_trap()
#define LEADING(x) ((unsigned)__builtin_clzll(x))
#define TRAILING(x) ((unsigned)__builtin_ctzll(x))
#define ONES(x) ((unsigned)__builtin_popcountll(x))
#else
#include <stdlib.h>
#define MAYBE_UNUSED
#define UNREACHABLE() abort()
#define TRAP() abort()
static unsigned LEADING(uint64_t x) { unsigned n = 0; while (!(x >> 63)) { x <<= 1; n++; } return n; }
static unsigned TRAILING(uint64_t x) { unsigned n = 0; while (!(x & 1)) { x >>= 1; n++; } return n; }
static unsigned ONES(uint64_t x) { unsigned n = 0; for (; x; x &= x - 1) n++; return n; }
#endif

/* The lesser and the greater of two numbers with their sign. In columns, gcc finds the vector instructions of this form alone. */
#define ENDS(bits) \
    MAYBE_UNUSED static inline int##bits##_t LESSER##bits(int##bits##_t a, int##bits##_t b) { return a < b ? a : b; } \
    MAYBE_UNUSED static inline int##bits##_t GREATER##bits(int##bits##_t a, int##bits##_t b) { return a > b ? a : b; }
ENDS(32)
ENDS(64)
#undef ENDS

/* Numbers of 128 bits: by the compiler's own, or by two words. */
#if defined(__SIZEOF_INT128__) && !defined(CALENDAR_TWO_WORDS)
__extension__ typedef unsigned __int128 wide;
__extension__ typedef __int128 wide_signed;
#define WIDE(name, result, expression) MAYBE_UNUSED static inline result wide_##name { return expression; }
WIDE(of(uint64_t high, uint64_t low), wide, (wide)high << 64 | low)
WIDE(low(wide a), uint64_t, (uint64_t)a)
WIDE(high(wide a), uint64_t, (uint64_t)(a >> 64))
WIDE(add(wide a, wide b), wide, a + b)
WIDE(sub(wide a, wide b), wide, a - b)
WIDE(mul(wide a, wide b), wide, a * b)
WIDE(udiv(wide a, wide b), wide, a / b)
WIDE(urem(wide a, wide b), wide, a % b)
WIDE(sdiv(wide a, wide b), wide, (wide)((wide_signed)a / (wide_signed)b))
WIDE(srem(wide a, wide b), wide, (wide)((wide_signed)a % (wide_signed)b))
WIDE(and(wide a, wide b), wide, a & b)
WIDE(or(wide a, wide b), wide, a | b)
WIDE(xor(wide a, wide b), wide, a ^ b)
WIDE(shl(wide a, unsigned n), wide, a << n)
WIDE(lshr(wide a, unsigned n), wide, a >> n)
WIDE(ashr(wide a, unsigned n), wide, (wide)((wide_signed)a >> n))
WIDE(eq(wide a, wide b), int, a == b)
WIDE(ult(wide a, wide b), int, a < b)
WIDE(slt(wide a, wide b), int, (wide_signed)a < (wide_signed)b)
#undef WIDE
#else
typedef struct { uint64_t low, high; } wide;
#define WIDE MAYBE_UNUSED static wide
WIDE wide_of(uint64_t high, uint64_t low) { wide r; r.low = low; r.high = high; return r; }
MAYBE_UNUSED static uint64_t wide_low(wide a) { return a.low; }
MAYBE_UNUSED static uint64_t wide_high(wide a) { return a.high; }
WIDE wide_add(wide a, wide b) { uint64_t low = a.low + b.low; return wide_of(a.high + b.high + (low < a.low), low); }
WIDE wide_sub(wide a, wide b) { return wide_of(a.high - b.high - (a.low < b.low), a.low - b.low); }
WIDE wide_mul(wide a, wide b)
{
    uint64_t half = UINT32_MAX, al = a.low & half, ah = a.low >> 32, bl = b.low & half, bh = b.low >> 32;
    uint64_t ll = al * bl, lh = al * bh, hl = ah * bl, mid = (ll >> 32) + (lh & half) + (hl & half);
    uint64_t high = ah * bh + (lh >> 32) + (hl >> 32) + (mid >> 32);
    return wide_of(high + a.low * b.high + a.high * b.low, (mid << 32) | (ll & half));
}
WIDE wide_and(wide a, wide b) { return wide_of(a.high & b.high, a.low & b.low); }
WIDE wide_or(wide a, wide b) { return wide_of(a.high | b.high, a.low | b.low); }
WIDE wide_xor(wide a, wide b) { return wide_of(a.high ^ b.high, a.low ^ b.low); }
WIDE wide_shl(wide a, unsigned n)
{
    return n == 0 ? a : n < 64 ? wide_of(a.high << n | a.low >> (64 - n), a.low << n) : wide_of(a.low << (n - 64), 0);
}
WIDE wide_lshr(wide a, unsigned n)
{
    return n == 0 ? a : n < 64 ? wide_of(a.high >> n, a.low >> n | a.high << (64 - n)) : wide_of(0, a.high >> (n - 64));
}
WIDE wide_ashr(wide a, unsigned n)
{
    uint64_t ones = a.high >> 63 ? UINT64_MAX : 0;
    wide r = wide_lshr(a, n);
    return n == 0 ? r : n < 64 ? wide_of(r.high | ones << (64 - n), r.low) : n == 64 ? wide_of(ones, r.low) : wide_of(ones, r.low | ones << (128 - n));
}
MAYBE_UNUSED static int wide_eq(wide a, wide b) { return a.low == b.low && a.high == b.high; }
MAYBE_UNUSED static int wide_ult(wide a, wide b) { return a.high < b.high || (a.high == b.high && a.low < b.low); }
MAYBE_UNUSED static int wide_slt(wide a, wide b)
{
    uint64_t sign = UINT64_C(1) << 63;
    return wide_ult(wide_of(a.high ^ sign, a.low), wide_of(b.high ^ sign, b.low));
}
/* A long division, bit by bit: the quotient, and the remainder behind the pointer. */
WIDE wide_divided(wide a, wide b, wide *rest)
{
    wide quotient = wide_of(0, 0), left = wide_of(0, 0);
    for (unsigned n = 128; n-- > 0;) {
        left = wide_or(wide_shl(left, 1), wide_and(wide_lshr(a, n), wide_of(0, 1)));
        if (!wide_ult(left, b)) {
            left = wide_sub(left, b);
            quotient = wide_or(quotient, wide_shl(wide_of(0, 1), n));
        }
    }
    *rest = left;
    return quotient;
}
WIDE wide_udiv(wide a, wide b) { wide rest; return wide_divided(a, b, &rest); }
WIDE wide_urem(wide a, wide b) { wide rest; wide_divided(a, b, &rest); return rest; }
WIDE wide_size(wide a) { return a.high >> 63 ? wide_sub(wide_of(0, 0), a) : a; }
WIDE wide_sdiv(wide a, wide b)
{
    wide r = wide_udiv(wide_size(a), wide_size(b));
    return (a.high ^ b.high) >> 63 ? wide_sub(wide_of(0, 0), r) : r;
}
WIDE wide_srem(wide a, wide b)
{
    wide r = wide_urem(wide_size(a), wide_size(b));
    return a.high >> 63 ? wide_sub(wide_of(0, 0), r) : r;
}
#undef WIDE
#endif

/* The number of 64 or 128 bits that the lowest bits of a number are, with their sign. */
#define SIGNED(value, bits) ((int64_t)((uint64_t)(value) << (64 - (bits))) >> (64 - (bits)))
#define WIDE_OF_SIGNED(value) wide_of((int64_t)(value) < 0 ? UINT64_MAX : 0, (uint64_t)(int64_t)(value))

typedef struct { uint64_t f0; uint32_t f1; } t_struct_i64_i32_end;
typedef struct { uint32_t f0; uint32_t f1; } t_struct_i32_i32_end;
typedef struct { uint8_t f0; uint32_t f1; } t_struct_i8_i32_end;
typedef struct { uint8_t f[200]; } t_array200_i8_end;
typedef struct { uint8_t f[6]; } t_array6_i8_end;
typedef struct { uint8_t f[1]; } t_array0_i8_end;
typedef struct { uint8_t f[4]; } t_array4_i8_end;
typedef struct { uint8_t f[5]; } t_array5_i8_end;
typedef struct { uint8_t f[2]; } t_array2_i8_end;
typedef struct { uint8_t f[8]; } t_array8_i8_end;
typedef struct { uint8_t f[9]; } t_array9_i8_end;
typedef struct { uint8_t f[3]; } t_array3_i8_end;

static const t_array200_i8_end static_0 = { { 48, 48, 48, 49, 48, 50, 48, 51, 48, 52, 48, 53, 48, 54, 48, 55, 48, 56, 48, 57, 49, 48, 49, 49, 49, 50, 49, 51, 49, 52, 49, 53, 49, 54, 49, 55, 49, 56, 49, 57, 50, 48, 50, 49, 50, 50, 50, 51, 50, 52, 50, 53, 50, 54, 50, 55, 50, 56, 50, 57, 51, 48, 51, 49, 51, 50, 51, 51, 51, 52, 51, 53, 51, 54, 51, 55, 51, 56, 51, 57, 52, 48, 52, 49, 52, 50, 52, 51, 52, 52, 52, 53, 52, 54, 52, 55, 52, 56, 52, 57, 53, 48, 53, 49, 53, 50, 53, 51, 53, 52, 53, 53, 53, 54, 53, 55, 53, 56, 53, 57, 54, 48, 54, 49, 54, 50, 54, 51, 54, 52, 54, 53, 54, 54, 54, 55, 54, 56, 54, 57, 55, 48, 55, 49, 55, 50, 55, 51, 55, 52, 55, 53, 55, 54, 55, 55, 55, 56, 55, 57, 56, 48, 56, 49, 56, 50, 56, 51, 56, 52, 56, 53, 56, 54, 56, 55, 56, 56, 56, 57, 57, 48, 57, 49, 57, 50, 57, 51, 57, 52, 57, 53, 57, 54, 57, 55, 57, 56, 57, 57 } };
static const t_array6_i8_end static_1 = { { 45, 100, 100, 45, 100, 100 } };
static const t_array0_i8_end static_2 = { 0 };
static const t_array4_i8_end static_3 = { { 45, 48, 48, 48 } };
static const t_array5_i8_end static_4 = { { 45, 48, 48, 48, 110 } };
static const t_array2_i8_end static_5 = { { 45, 48 } };
static const t_array5_i8_end static_6 = { { 45, 48, 100, 100, 100 } };
static const t_array5_i8_end static_8 = { { 45, 110, 100, 100, 100 } };
static const t_array6_i8_end static_10 = { { 43, 110, 100, 100, 100, 100 } };
static const t_array4_i8_end static_11 = { { 100, 100, 100, 100 } };
static const t_array8_i8_end static_12 = { { 100, 100, 58, 100, 100, 58, 100, 100 } };
static const t_array9_i8_end static_13 = { { 100, 100, 58, 100, 100, 58, 100, 100, 46 } };
static const t_array2_i8_end static_14 = { { 80, 48 } };
static const t_array3_i8_end static_15 = { { 80, 48, 68 } };
static const t_array3_i8_end static_20 = { { 45, 80, 84 } };
static const t_array2_i8_end static_21 = { { 80, 84 } };
static const t_array9_i8_end static_22 = { { 48, 46, 50, 46, 48, 45, 100, 101, 118 } };

static uint32_t in_calendar_add_days(uint32_t a0, uint64_t a1);
static uint32_t in_calendar_add_months(uint32_t a0, uint64_t a1);
static uint8_t in_calendar_column_add_days(bytes a0, uint64_t a1, uint32_t a2, bytes a3, uint64_t a4);
static uint8_t in_calendar_column_add_days_each(bytes a0, uint64_t a1, bytes a2, uint64_t a3, bytes a4, uint64_t a5);
static uint8_t in_calendar_column_add_days_each_in_place(bytes a0, uint64_t a1, bytes a2, uint64_t a3);
static void in_calendar_column_add_days_in_place(bytes a0, uint64_t a1, uint32_t a2);
static uint8_t in_calendar_column_add_months(bytes a0, uint64_t a1, uint32_t a2, bytes a3, uint64_t a4);
static void in_calendar_column_add_months_in_place(bytes a0, uint64_t a1, uint32_t a2);
static uint64_t in_calendar_column_count_dates(bytes a0, uint64_t a1);
static uint8_t in_calendar_column_days_between(bytes a0, uint64_t a1, bytes a2, uint64_t a3, bytes a4, uint64_t a5);
static uint8_t in_calendar_column_first_on(bytes a0, uint64_t a1, uint8_t a2, bytes a3, uint64_t a4);
static uint8_t in_calendar_column_from_unix_days(bytes a0, uint64_t a1, bytes a2, uint64_t a3);
static uint8_t in_calendar_column_iso_weeks(bytes a0, uint64_t a1, bytes a2, uint64_t a3, bytes a4, uint64_t a5);
static uint8_t in_calendar_column_join(bytes a0, uint64_t a1, bytes a2, uint64_t a3, bytes a4, uint64_t a5, bytes a6, uint64_t a7);
static uint8_t in_calendar_column_ordinals(bytes a0, uint64_t a1, bytes a2, uint64_t a3);
static uint8_t in_calendar_column_read_dates(bytes a0, uint64_t a1, bytes a2, uint64_t a3);
static uint8_t in_calendar_column_split(bytes a0, uint64_t a1, bytes a2, uint64_t a3, bytes a4, uint64_t a5, bytes a6, uint64_t a7);
static uint8_t in_calendar_column_to_unix_days(bytes a0, uint64_t a1, bytes a2, uint64_t a3);
static uint8_t in_calendar_column_weekdays(bytes a0, uint64_t a1, bytes a2, uint64_t a3);
static uint8_t in_calendar_column_write_dates(bytes a0, uint64_t a1, bytes a2, uint64_t a3);
static uint8_t in_calendar_column_years(bytes a0, uint64_t a1, bytes a2, uint64_t a3);
static uint32_t in_calendar_date_time_date(uint64_t a0, uint32_t a1);
static t_struct_i64_i32_end in_calendar_date_time_new(uint32_t a0, uint32_t a1, uint32_t a2);
static uint32_t in_calendar_date_time_second_of_day(uint64_t a0, uint32_t a1);
static t_struct_i32_i32_end in_calendar_date_time_time(uint64_t a0, uint32_t a1);
static uint32_t in_calendar_day(uint32_t a0);
static uint32_t in_calendar_days_in_month(uint32_t a0, uint32_t a1);
static uint32_t in_calendar_days_until(uint8_t a0, uint32_t a1);
static uint32_t in_calendar_every_months(uint32_t a0, uint32_t a1, uint32_t a2);
static uint32_t in_calendar_first_on(uint32_t a0, uint8_t a1);
static uint32_t in_calendar_from_isoywd(uint32_t a0, uint32_t a1, uint32_t a2);
static uint32_t in_calendar_from_weekday_of_month(uint32_t a0, uint32_t a1, uint32_t a2, uint32_t a3);
static uint32_t in_calendar_from_ymd(uint32_t a0, uint32_t a1, uint32_t a2);
static uint8_t chrono_naive_naive_date_NaiveDate_from_ymd_opt(uint32_t a0, uint32_t a1, uint32_t a2);
static uint32_t in_calendar_from_yo(uint32_t a0, uint32_t a1);
static uint8_t in_calendar_is_leap_year(uint32_t a0);
static uint32_t in_calendar_iso_week(uint32_t a0);
static uint32_t in_calendar_iso_year(uint32_t a0);
static uint32_t in_calendar_month(uint32_t a0);
static uint32_t in_calendar_ordinal(uint32_t a0);
static uint32_t in_calendar_read_date(bytes a0, uint64_t a1);
static t_struct_i8_i32_end chrono_text_read_places_read_four(uint32_t a0_0_val);
static t_struct_i8_i32_end chrono_text_read_year_year_size(bytes a0, uint64_t a1);
static void chrono_reading_date_date_error(bytes a0, bytes a1, uint64_t a2);
static uint64_t chrono_reading_fitting_fitting_year(bytes a0, uint64_t a1, bytes a2, uint64_t a3);
static t_struct_i64_i32_end in_calendar_read_date_time(bytes a0, uint64_t a1);
static void chrono_reading_time_time_of(bytes a0, bytes a1, uint64_t a2);
static void chrono_reading_date_time_date_time_error(bytes a0, bytes a1, uint64_t a2);
static void chrono_reading_time_time_error(bytes a0, bytes a1, uint64_t a2);
static t_struct_i64_i32_end in_calendar_read_duration(bytes a0, uint64_t a1);
static void chrono_reading_duration_read_size(bytes a0, bytes a1, uint64_t a2);
static void chrono_reading_duration_error_duration_error(bytes a0, bytes a1, uint64_t a2);
static t_struct_i32_i32_end in_calendar_read_time(bytes a0, uint64_t a1);
static void in_calendar_split(bytes a0, uint32_t a1);
static uint32_t in_calendar_version(bytes a0, uint64_t a1);
static uint32_t in_calendar_week_first_day(uint32_t a0, uint32_t a1);
static uint32_t in_calendar_weekday(uint32_t a0);
static uint32_t in_calendar_write_date(uint32_t a0, bytes a1, uint64_t a2);
static uint32_t in_calendar_write_date_time(uint64_t a0, uint32_t a1, bytes a2, uint64_t a3);
static uint32_t in_calendar_write_duration(uint64_t a0, uint32_t a1, bytes a2, uint64_t a3);
static void chrono_text_text_Text_push_natural_33(bytes a0, uint64_t a1);
static uint32_t in_calendar_write_time(uint32_t a0, uint32_t a1, bytes a2, uint64_t a3);
static uint32_t in_calendar_year(uint32_t a0);
static uint32_t in_calendar_years_since(uint32_t a0, uint32_t a1);
static t_struct_i64_i32_end in_calendar_date_time_since(uint64_t a0, uint32_t a1, uint64_t a2, uint32_t a3);
static t_struct_i64_i32_end in_calendar_date_time_add(uint64_t a0, uint32_t a1, uint64_t a2, uint32_t a3);
static t_struct_i64_i32_end in_calendar_duration_multiply(uint64_t a0, uint32_t a1, uint32_t a2);
static t_struct_i64_i32_end in_calendar_duration_divide(uint64_t a0, uint32_t a1, uint32_t a2);
static t_struct_i64_i32_end in_calendar_duration_add(uint64_t a0, uint32_t a1, uint64_t a2, uint32_t a3);

static uint32_t in_calendar_add_days(uint32_t a0, uint64_t a1)
{
    uint32_t r3_0, v0, r5_sroa_4_0, v4, spec_select;
    uint8_t or_cond, v1, v2, r16_i_i_not_not, r11, or_cond_i_not3_not4, or_cond1, not_not;
    uint64_t r1, r6, v3;
    v0 = (uint32_t)(a0 + 95746129u);
    or_cond = v0 < 191491529u;
    if (or_cond) { goto at__arm_1; }
    { r3_0 = 2147483648u; goto at__join_4; }
    at__arm_1:;
    r1 = (uint64_t)((uint64_t)(int32_t)a0);
    r6 = (uint64_t)(a1 + r1);
    v1 = (int64_t)a1 > (int64_t)UINT64_C(18446744073709551615);
    v2 = (int64_t)r6 < (int64_t)r1;
    r16_i_i_not_not = (uint8_t)(((uint32_t)v1 ^ (uint32_t)v2) & 1);
    v3 = (uint64_t)(r6 + UINT64_C(2147483648));
    r11 = v3 < UINT64_C(4294967296);
    or_cond_i_not3_not4 = (uint8_t)(((uint32_t)r16_i_i_not_not & (uint32_t)r11) & 1);
    r5_sroa_4_0 = (uint32_t)(r6);
    v4 = (uint32_t)(r5_sroa_4_0 + 95746129u);
    or_cond1 = v4 < 191491529u;
    not_not = or_cond_i_not3_not4 ? or_cond1 : 0;
    spec_select = not_not ? r5_sroa_4_0 : 2147483648u;
    {
    r3_0 = spec_select;
    goto at__join_4;
    }
    at__join_4:;
    return r3_0;
}

static uint32_t in_calendar_add_months(uint32_t a0, uint64_t a1)
{
    uint32_t r3_0_in_in, r10_0, r3_0, v0, r5, r11, r13, r3, r71_i2, r10, r12, r29, r6_i_i_i_i4, r8_i_i_i_i5, r103, r30, r33, r35, r50, r16, r15, r6_i_i5, r18, v4, r5_2, r71, r24, r5_i10, r71_i11, a1_a0, r6_i_i_i7, r12_i_i_i9, v5, x, r14, r16_2, r183, r23, reass_sub, r26, r48, r54;
    uint8_t or_cond, v1, v2, r16_i_i4_not_not, or_cond1, not_not, r33_i6, r8_i_i_i8, r3_0_in;
    uint64_t r6, r8, r10_i4, r17, r25, r27, r1, r6_i_i2, v3;
    uint16_t r14_lhs_trunc, r144, narrow;
    v0 = (uint32_t)(a0 + 95746129u);
    or_cond = v0 < 191491529u;
    if (or_cond) { goto at__arm_1; }
    { r3_0 = 2147483648u; goto at__join_4; }
    at__arm_1:;
    r5 = (uint32_t)(a0 << 2);
    r11 = (uint32_t)(r5 + 383359751u);
    r13 = (uint32_t)(r11 / 146097u);
    r3 = (uint32_t)(r13 * 3);
    r71_i2 = (uint32_t)(r3 + r11);
    r10 = (uint32_t)(r71_i2 | 3);
    r6 = (uint64_t)r10;
    r8 = (uint64_t)(r6 * UINT64_C(376287347));
    r10_i4 = (uint64_t)(r8 >> (UINT64_C(39) & 63u));
    r12 = (uint32_t)(r10_i4);
    r17 = (uint64_t)(r8 & UINT64_C(549755813885));
    r25 = (uint64_t)(r17 * UINT64_C(1461));
    r27 = (uint64_t)(r25 >> (UINT64_C(41) & 63u));
    r29 = (uint32_t)(r27);
    r6_i_i_i_i4 = (uint32_t)(r29 * 2141u);
    r8_i_i_i_i5 = (uint32_t)(r6_i_i_i_i4 + 197913u);
    r103 = (uint32_t)(r8_i_i_i_i5 >> 16u);
    r30 = (uint32_t)(r12 * 12u);
    r33 = (uint32_t)(r30 + 4294967293u);
    r35 = (uint32_t)(r33 + r103);
    r1 = (uint64_t)r35;
    r6_i_i2 = (uint64_t)(a1 + r1);
    v1 = (int64_t)a1 > (int64_t)UINT64_C(18446744073709551615);
    v2 = (int64_t)r6_i_i2 < (int64_t)r1;
    r16_i_i4_not_not = (uint8_t)(((uint32_t)v1 ^ (uint32_t)v2) & 1);
    v3 = (uint64_t)(r6_i_i2 + UINT64_C(18446744073709548534));
    or_cond1 = v3 < UINT64_C(6291432);
    r50 = (uint32_t)(r6_i_i2);
    not_not = (uint8_t)(((uint32_t)r16_i_i4_not_not & (uint32_t)or_cond1) & 1);
    if (not_not) { goto at__arm_1_2; }
    { r3_0 = 2147483648u; goto at__join_4; }
    at__arm_1_2:;
    r14_lhs_trunc = (uint16_t)(r8_i_i_i_i5);
    r144 = (uint16_t)((uint32_t)r14_lhs_trunc / (uint32_t)2141u);
    narrow = (uint16_t)((uint32_t)r144 + (uint32_t)1);
    r16 = (uint32_t)narrow;
    r15 = (uint32_t)(r50 / 12u);
    r6_i_i5 = (uint32_t)(r15 + 4294704897u);
    r18 = (uint32_t)(r50 % 12u);
    v4 = (uint32_t)(r18 * 979u);
    r5_2 = (uint32_t)(v4 + 18u);
    r71 = (uint32_t)(r5_2 >> 5);
    r24 = (uint32_t)(r71 + r16);
    r5_i10 = (uint32_t)(v4 + 997u);
    r71_i11 = (uint32_t)(r5_i10 >> 5);
    a1_a0 = r71_i11 < r24 ? r71_i11 : r24;
    r33_i6 = a1_a0 > 365u;
    if (r33_i6) { goto at__then_1; }
    { r10_0 = a1_a0; goto at__chrono_stored_march_day_number_within_exit_i_i_i; }
    at__then_1:;
    r6_i_i_i7 = (uint32_t)((int32_t)r6_i_i5 % (int32_t)100u);
    r8_i_i_i8 = r6_i_i_i7 == 0;
    if (r8_i_i_i8) { goto at__then_1_2; }
    goto at__else_2;
    at__then_1_2:;
    r12_i_i_i9 = (uint32_t)((int32_t)r6_i_i5 % (int32_t)400u);
    {
    r3_0_in_in = r12_i_i_i9;
    goto at__chrono_units_year_year_length_exit_i_i_i_i;
    }
    at__else_2:;
    v5 = (uint32_t)(r6_i_i5 & 3);
    {
    r3_0_in_in = v5;
    goto at__chrono_units_year_year_length_exit_i_i_i_i;
    }
    at__chrono_units_year_year_length_exit_i_i_i_i:;
    r3_0_in = r3_0_in_in == 0;
    x = r3_0_in ? 366u : 365u;
    {
    r10_0 = x;
    goto at__chrono_stored_march_day_number_within_exit_i_i_i;
    }
    at__chrono_stored_march_day_number_within_exit_i_i_i:;
    r14 = (uint32_t)(r50 / 1200u);
    r16_2 = (uint32_t)(r15 * 1461u);
    r183 = (uint32_t)(r16_2 >> 2);
    r23 = (uint32_t)(r50 / 4800u);
    reass_sub = (uint32_t)(r23 - r14);
    r26 = (uint32_t)(reass_sub + 4199127358u);
    r48 = (uint32_t)(r26 + r183);
    r54 = (uint32_t)(r48 + r10_0);
    {
    r3_0 = r54;
    goto at__join_4;
    }
    at__join_4:;
    return r3_0;
}

static uint8_t in_calendar_column_add_days(bytes a0, uint64_t a1, uint32_t a2, bytes a3, uint64_t a4)
{
    uint64_t r4_05, r22, r38;
    uint8_t r16_not, r174_not, or_cond_not, r4, r4_i2, r22_2, exitcond_not;
    uint32_t v0, common_ret_op, r27, a0_a1, a1_a0, r12, v1, v2, r12_2;
    bytes r25, r34;
    r16_not = a4 == a1;
    r174_not = a1 != UINT64_C(0);
    or_cond_not = (uint8_t)(((uint32_t)r174_not & (uint32_t)r16_not) & 1);
    if (or_cond_not) { goto at__join_5_lr_ph; }
    goto at__common_ret;
    at__common_ret:;
    return r16_not;
    at__join_5_lr_ph:;
    v0 = (uint32_t)GREATER32((int32_t)a2, (int32_t)4103475767u);
    common_ret_op = (uint32_t)LESSER32((int32_t)v0, (int32_t)191491529u);
    {
    r4_05 = UINT64_C(0);
    goto at__join_5;
    }
    at__join_5:;
    r22 = (uint64_t)(r4_05 << (UINT64_C(2) & 63u));
    r25 = (a0 + (int64_t)r22);
    LOAD(uint32_t, r27, r25);
    a0_a1 = (uint32_t)GREATER32((int32_t)r27, (int32_t)4199221167u);
    a1_a0 = (uint32_t)LESSER32((int32_t)a0_a1, (int32_t)95745399u);
    r12 = (uint32_t)(a1_a0 + common_ret_op);
    v1 = (uint32_t)(r27 + 95746129u);
    r4 = v1 < 191491529u;
    v2 = (uint32_t)(r12 + 95746129u);
    r4_i2 = v2 < 191491529u;
    r22_2 = (uint8_t)(((uint32_t)r4 & (uint32_t)r4_i2) & 1);
    r12_2 = r22_2 ? r12 : 2147483648u;
    r34 = (a3 + (int64_t)r22);
    STORE(uint32_t, r34, r12_2);
    r38 = (uint64_t)(r4_05 + UINT64_C(1));
    exitcond_not = r38 == a4;
    if (exitcond_not) { goto at__common_ret; }
    { r4_05 = r38; goto at__join_5; }
}

static uint8_t in_calendar_column_add_days_each(bytes a0, uint64_t a1, bytes a2, uint64_t a3, bytes a4, uint64_t a5)
{
    uint64_t r6_06, r27, r51;
    uint8_t r18_not, r31_not, or_cond, r225_not, or_cond10_not, r4, r4_i2, r22, exitcond_not;
    bytes r30, r37, r47;
    uint32_t r32, r39, a0_a1, a1_a0, v0, common_ret_op, r12, v1, v2, r12_2;
    r18_not = a3 == a1;
    r31_not = a5 == a1;
    or_cond = (uint8_t)(((uint32_t)r18_not & (uint32_t)r31_not) & 1);
    r225_not = a1 != UINT64_C(0);
    or_cond10_not = (uint8_t)(((uint32_t)r225_not & (uint32_t)or_cond) & 1);
    if (or_cond10_not) { { r6_06 = UINT64_C(0); goto at__join_5; } }
    goto at__common_ret;
    at__common_ret:;
    return or_cond;
    at__join_5:;
    r27 = (uint64_t)(r6_06 << (UINT64_C(2) & 63u));
    r30 = (a0 + (int64_t)r27);
    LOAD(uint32_t, r32, r30);
    r37 = (a2 + (int64_t)r27);
    LOAD(uint32_t, r39, r37);
    a0_a1 = (uint32_t)GREATER32((int32_t)r32, (int32_t)4199221167u);
    a1_a0 = (uint32_t)LESSER32((int32_t)a0_a1, (int32_t)95745399u);
    v0 = (uint32_t)GREATER32((int32_t)r39, (int32_t)4103475767u);
    common_ret_op = (uint32_t)LESSER32((int32_t)v0, (int32_t)191491529u);
    r12 = (uint32_t)(common_ret_op + a1_a0);
    v1 = (uint32_t)(r32 + 95746129u);
    r4 = v1 < 191491529u;
    v2 = (uint32_t)(r12 + 95746129u);
    r4_i2 = v2 < 191491529u;
    r22 = (uint8_t)(((uint32_t)r4 & (uint32_t)r4_i2) & 1);
    r12_2 = r22 ? r12 : 2147483648u;
    r47 = (a4 + (int64_t)r27);
    STORE(uint32_t, r47, r12_2);
    r51 = (uint64_t)(r6_06 + UINT64_C(1));
    exitcond_not = r51 == a3;
    if (exitcond_not) { goto at__common_ret; }
    { r6_06 = r51; goto at__join_5; }
}

static uint8_t in_calendar_column_add_days_each_in_place(bytes a0, uint64_t a1, bytes a2, uint64_t a3)
{
    uint64_t r4_06, r25, r49;
    uint8_t r16_not, r205_not, or_cond_not, r4, r4_i2, r22, exitcond_not;
    bytes r28, r35;
    uint32_t r30, r37, a0_a1, a1_a0, v0, common_ret_op, r12, v1, v2, r12_2;
    r16_not = a3 == a1;
    r205_not = a1 != UINT64_C(0);
    or_cond_not = (uint8_t)(((uint32_t)r205_not & (uint32_t)r16_not) & 1);
    if (or_cond_not) { { r4_06 = UINT64_C(0); goto at__join_5; } }
    goto at__common_ret;
    at__common_ret:;
    return r16_not;
    at__join_5:;
    r25 = (uint64_t)(r4_06 << (UINT64_C(2) & 63u));
    r28 = (a0 + (int64_t)r25);
    LOAD(uint32_t, r30, r28);
    r35 = (a2 + (int64_t)r25);
    LOAD(uint32_t, r37, r35);
    a0_a1 = (uint32_t)GREATER32((int32_t)r30, (int32_t)4199221167u);
    a1_a0 = (uint32_t)LESSER32((int32_t)a0_a1, (int32_t)95745399u);
    v0 = (uint32_t)GREATER32((int32_t)r37, (int32_t)4103475767u);
    common_ret_op = (uint32_t)LESSER32((int32_t)v0, (int32_t)191491529u);
    r12 = (uint32_t)(common_ret_op + a1_a0);
    v1 = (uint32_t)(r30 + 95746129u);
    r4 = v1 < 191491529u;
    v2 = (uint32_t)(r12 + 95746129u);
    r4_i2 = v2 < 191491529u;
    r22 = (uint8_t)(((uint32_t)r4 & (uint32_t)r4_i2) & 1);
    r12_2 = r22 ? r12 : 2147483648u;
    STORE(uint32_t, r28, r12_2);
    r49 = (uint64_t)(r4_06 + UINT64_C(1));
    exitcond_not = r49 == a3;
    if (exitcond_not) { goto at__common_ret; }
    { r4_06 = r49; goto at__join_5; }
}

static void in_calendar_column_add_days_in_place(bytes a0, uint64_t a1, uint32_t a2)
{
    uint64_t r2_05, r20, r36;
    uint8_t r154_not, r4, r4_i2, r22, exitcond_not;
    uint32_t v0, common_ret_op, r25, a0_a1, a1_a0, r12, v1, v2, r12_2;
    bytes r23;
    r154_not = a1 == UINT64_C(0);
    if (r154_not) { goto at__chrono_columns_moves_add_days_in_place_exit; }
    goto at__join_5_lr_ph;
    at__join_5_lr_ph:;
    v0 = (uint32_t)GREATER32((int32_t)a2, (int32_t)4103475767u);
    common_ret_op = (uint32_t)LESSER32((int32_t)v0, (int32_t)191491529u);
    {
    r2_05 = UINT64_C(0);
    goto at__join_5;
    }
    at__join_5:;
    r20 = (uint64_t)(r2_05 << (UINT64_C(2) & 63u));
    r23 = (a0 + (int64_t)r20);
    LOAD(uint32_t, r25, r23);
    a0_a1 = (uint32_t)GREATER32((int32_t)r25, (int32_t)4199221167u);
    a1_a0 = (uint32_t)LESSER32((int32_t)a0_a1, (int32_t)95745399u);
    r12 = (uint32_t)(a1_a0 + common_ret_op);
    v1 = (uint32_t)(r25 + 95746129u);
    r4 = v1 < 191491529u;
    v2 = (uint32_t)(r12 + 95746129u);
    r4_i2 = v2 < 191491529u;
    r22 = (uint8_t)(((uint32_t)r4 & (uint32_t)r4_i2) & 1);
    r12_2 = r22 ? r12 : 2147483648u;
    STORE(uint32_t, r23, r12_2);
    r36 = (uint64_t)(r2_05 + UINT64_C(1));
    exitcond_not = r36 == a1;
    if (exitcond_not) { goto at__chrono_columns_moves_add_days_in_place_exit; }
    { r2_05 = r36; goto at__join_5; }
    at__chrono_columns_moves_add_days_in_place_exit:;
    return;
}

static uint8_t in_calendar_column_add_months(bytes a0, uint64_t a1, uint32_t a2, bytes a3, uint64_t a4)
{
    uint64_t r4_05, r22, r4, r6, r8_2, r38;
    uint8_t r16_not, r174_not, or_cond_not, r4_2, r6_2, r39_2, exitcond_not;
    uint32_t v0, common_ret_op, r34, r27, a0_a1, a1_a0, r13, r8, r10, r3, r71_i2, r10_2, r10_i7, r16_neg, r19, r216, r6_i3, r8_i4, r103, r16, r31, r36, r24, v1, common_ret_op_i3, r14, r14_2, r16_2, r183, r23, r21, r26, r11, r14_i_i9, r16_i_i10, r183_i_i11, r23_i_i12, r23_2, v2, r5, r71, r5_i16, r71_i17, r33, a1_a0_i_i4, v3, v4, r39, a1_a0_i18, r45, r51, v5, r29;
    bytes r25, r34_2;
    uint16_t r14_lhs_trunc, r144, narrow;
    r16_not = a4 == a1;
    r174_not = a1 != UINT64_C(0);
    or_cond_not = (uint8_t)(((uint32_t)r174_not & (uint32_t)r16_not) & 1);
    if (or_cond_not) { goto at__join_5_lr_ph; }
    goto at__common_ret;
    at__common_ret:;
    return r16_not;
    at__join_5_lr_ph:;
    v0 = (uint32_t)GREATER32((int32_t)a2, (int32_t)4287967296u);
    common_ret_op = (uint32_t)LESSER32((int32_t)v0, (int32_t)7000000u);
    r34 = (uint32_t)(common_ret_op + 4294967293u);
    {
    r4_05 = UINT64_C(0);
    goto at__join_5;
    }
    at__join_5:;
    r22 = (uint64_t)(r4_05 << (UINT64_C(2) & 63u));
    r25 = (a0 + (int64_t)r22);
    LOAD(uint32_t, r27, r25);
    a0_a1 = (uint32_t)GREATER32((int32_t)r27, (int32_t)4199221167u);
    a1_a0 = (uint32_t)LESSER32((int32_t)a0_a1, (int32_t)95745399u);
    r13 = (uint32_t)(a1_a0 << 2);
    r8 = (uint32_t)(r13 + 383359751u);
    r10 = (uint32_t)(r8 / 146097u);
    r3 = (uint32_t)(r10 * 3);
    r71_i2 = (uint32_t)(r3 + r8);
    r10_2 = (uint32_t)(r71_i2 | 3);
    r4 = (uint64_t)r10_2;
    r6 = (uint64_t)(r4 * UINT64_C(376287347));
    r8_2 = (uint64_t)(r6 >> (UINT64_C(39) & 63u));
    r10_i7 = (uint32_t)(r8_2);
    r16_neg = (uint32_t)(r10_i7 * 4294965835u);
    r19 = (uint32_t)(r16_neg + r10_2);
    r216 = (uint32_t)(r19 >> 2);
    r6_i3 = (uint32_t)(r216 * 2141u);
    r8_i4 = (uint32_t)(r6_i3 + 197913u);
    r103 = (uint32_t)(r8_i4 >> 16u);
    r14_lhs_trunc = (uint16_t)(r8_i4);
    r144 = (uint16_t)((uint32_t)r14_lhs_trunc / (uint32_t)2141u);
    narrow = (uint16_t)((uint32_t)r144 + (uint32_t)1);
    r16 = (uint32_t)narrow;
    r31 = (uint32_t)(r10_i7 * 12u);
    r36 = (uint32_t)(r34 + r31);
    r24 = (uint32_t)(r36 + r103);
    v1 = (uint32_t)GREATER32((int32_t)r24, (int32_t)3082u);
    common_ret_op_i3 = v1 < 6294513u ? v1 : 6294513u;
    r14 = (uint32_t)(common_ret_op_i3 / 12u);
    r14_2 = (uint32_t)(common_ret_op_i3 / 1200u);
    r16_2 = (uint32_t)(r14 * 1461u);
    r183 = (uint32_t)(r16_2 >> 2);
    r23 = (uint32_t)(common_ret_op_i3 / 4800u);
    r21 = (uint32_t)(r23 - r14_2);
    r26 = (uint32_t)(r183 + r21);
    r11 = (uint32_t)(r14 + 1);
    r14_i_i9 = (uint32_t)(r11 / 100u);
    r16_i_i10 = (uint32_t)(r11 * 1461u);
    r183_i_i11 = (uint32_t)(r16_i_i10 >> 2);
    r23_i_i12 = (uint32_t)(r11 / 400u);
    r23_2 = (uint32_t)(common_ret_op_i3 % 12u);
    v2 = (uint32_t)(r23_2 * 979u);
    r5 = (uint32_t)(v2 + 997u);
    r71 = (uint32_t)(r5 >> 5);
    r5_i16 = (uint32_t)(v2 + 18u);
    r71_i17 = (uint32_t)(r5_i16 >> 5);
    r33 = (uint32_t)(r71_i17 + r16);
    a1_a0_i_i4 = r71 < r33 ? r71 : r33;
    v3 = (uint32_t)(r23_i_i12 + r183_i_i11);
    v4 = (uint32_t)(r14_i_i9 + r26);
    r39 = (uint32_t)(v3 - v4);
    a1_a0_i18 = r39 < a1_a0_i_i4 ? r39 : a1_a0_i_i4;
    r45 = (uint32_t)(r26 + 4199127358u);
    r51 = (uint32_t)(r45 + a1_a0_i18);
    v5 = (uint32_t)(r27 + 95746129u);
    r4_2 = v5 < 191491529u;
    r6_2 = common_ret_op_i3 == r24;
    r39_2 = (uint8_t)(((uint32_t)r4_2 & (uint32_t)r6_2) & 1);
    r29 = r39_2 ? r51 : 2147483648u;
    r34_2 = (a3 + (int64_t)r22);
    STORE(uint32_t, r34_2, r29);
    r38 = (uint64_t)(r4_05 + UINT64_C(1));
    exitcond_not = r38 == a4;
    if (exitcond_not) { goto at__common_ret; }
    { r4_05 = r38; goto at__join_5; }
}

static void in_calendar_column_add_months_in_place(bytes a0, uint64_t a1, uint32_t a2)
{
    uint64_t r2_05, r20, r4, r6, r8_2, r36;
    uint8_t r154_not, r4_2, r6_2, r39_2, exitcond_not;
    uint32_t v0, common_ret_op, r34, r25, a0_a1, a1_a0, r13, r8, r10, r3, r71_i2, r10_2, r10_i7, r16_neg, r19, r216, r6_i3, r8_i4, r103, r16, r31, r36_2, r24, v1, common_ret_op_i3, r14, r14_2, r16_2, r183, r23_2, r21, r26, r11, r14_i_i9, r16_i_i10, r183_i_i11, r23_i_i12, r23_3, v2, r5, r71, r5_i16, r71_i17, r33, a1_a0_i_i4, v3, v4, r39, a1_a0_i18, r45, r51, v5, r29;
    bytes r23;
    uint16_t r14_lhs_trunc, r144, narrow;
    r154_not = a1 == UINT64_C(0);
    if (r154_not) { goto at__chrono_columns_moves_add_months_in_place_exit; }
    goto at__join_5_lr_ph;
    at__join_5_lr_ph:;
    v0 = (uint32_t)GREATER32((int32_t)a2, (int32_t)4287967296u);
    common_ret_op = (uint32_t)LESSER32((int32_t)v0, (int32_t)7000000u);
    r34 = (uint32_t)(common_ret_op + 4294967293u);
    {
    r2_05 = UINT64_C(0);
    goto at__join_5;
    }
    at__join_5:;
    r20 = (uint64_t)(r2_05 << (UINT64_C(2) & 63u));
    r23 = (a0 + (int64_t)r20);
    LOAD(uint32_t, r25, r23);
    a0_a1 = (uint32_t)GREATER32((int32_t)r25, (int32_t)4199221167u);
    a1_a0 = (uint32_t)LESSER32((int32_t)a0_a1, (int32_t)95745399u);
    r13 = (uint32_t)(a1_a0 << 2);
    r8 = (uint32_t)(r13 + 383359751u);
    r10 = (uint32_t)(r8 / 146097u);
    r3 = (uint32_t)(r10 * 3);
    r71_i2 = (uint32_t)(r3 + r8);
    r10_2 = (uint32_t)(r71_i2 | 3);
    r4 = (uint64_t)r10_2;
    r6 = (uint64_t)(r4 * UINT64_C(376287347));
    r8_2 = (uint64_t)(r6 >> (UINT64_C(39) & 63u));
    r10_i7 = (uint32_t)(r8_2);
    r16_neg = (uint32_t)(r10_i7 * 4294965835u);
    r19 = (uint32_t)(r16_neg + r10_2);
    r216 = (uint32_t)(r19 >> 2);
    r6_i3 = (uint32_t)(r216 * 2141u);
    r8_i4 = (uint32_t)(r6_i3 + 197913u);
    r103 = (uint32_t)(r8_i4 >> 16u);
    r14_lhs_trunc = (uint16_t)(r8_i4);
    r144 = (uint16_t)((uint32_t)r14_lhs_trunc / (uint32_t)2141u);
    narrow = (uint16_t)((uint32_t)r144 + (uint32_t)1);
    r16 = (uint32_t)narrow;
    r31 = (uint32_t)(r10_i7 * 12u);
    r36_2 = (uint32_t)(r34 + r31);
    r24 = (uint32_t)(r36_2 + r103);
    v1 = (uint32_t)GREATER32((int32_t)r24, (int32_t)3082u);
    common_ret_op_i3 = v1 < 6294513u ? v1 : 6294513u;
    r14 = (uint32_t)(common_ret_op_i3 / 12u);
    r14_2 = (uint32_t)(common_ret_op_i3 / 1200u);
    r16_2 = (uint32_t)(r14 * 1461u);
    r183 = (uint32_t)(r16_2 >> 2);
    r23_2 = (uint32_t)(common_ret_op_i3 / 4800u);
    r21 = (uint32_t)(r23_2 - r14_2);
    r26 = (uint32_t)(r183 + r21);
    r11 = (uint32_t)(r14 + 1);
    r14_i_i9 = (uint32_t)(r11 / 100u);
    r16_i_i10 = (uint32_t)(r11 * 1461u);
    r183_i_i11 = (uint32_t)(r16_i_i10 >> 2);
    r23_i_i12 = (uint32_t)(r11 / 400u);
    r23_3 = (uint32_t)(common_ret_op_i3 % 12u);
    v2 = (uint32_t)(r23_3 * 979u);
    r5 = (uint32_t)(v2 + 997u);
    r71 = (uint32_t)(r5 >> 5);
    r5_i16 = (uint32_t)(v2 + 18u);
    r71_i17 = (uint32_t)(r5_i16 >> 5);
    r33 = (uint32_t)(r71_i17 + r16);
    a1_a0_i_i4 = r71 < r33 ? r71 : r33;
    v3 = (uint32_t)(r23_i_i12 + r183_i_i11);
    v4 = (uint32_t)(r14_i_i9 + r26);
    r39 = (uint32_t)(v3 - v4);
    a1_a0_i18 = r39 < a1_a0_i_i4 ? r39 : a1_a0_i_i4;
    r45 = (uint32_t)(r26 + 4199127358u);
    r51 = (uint32_t)(r45 + a1_a0_i18);
    v5 = (uint32_t)(r25 + 95746129u);
    r4_2 = v5 < 191491529u;
    r6_2 = common_ret_op_i3 == r24;
    r39_2 = (uint8_t)(((uint32_t)r4_2 & (uint32_t)r6_2) & 1);
    r29 = r39_2 ? r51 : 2147483648u;
    STORE(uint32_t, r23, r29);
    r36 = (uint64_t)(r2_05 + UINT64_C(1));
    exitcond_not = r36 == a1;
    if (exitcond_not) { goto at__chrono_columns_moves_add_months_in_place_exit; }
    { r2_05 = r36; goto at__join_5; }
    at__chrono_columns_moves_add_months_in_place_exit:;
    return;
}

static uint64_t in_calendar_column_count_dates(bytes a0, uint64_t a1)
{
    uint64_t r3_06, r4_05, r3_0_lcssa, r20, r32, spec_select, r34;
    uint8_t r154_not, r4, exitcond_not;
    bytes r23;
    uint32_t r25, v0;
    r154_not = a1 == UINT64_C(0);
    if (r154_not) { { r3_0_lcssa = UINT64_C(0); goto at__chrono_columns_counts_count_dates_exit; } }
    { r3_06 = UINT64_C(0); r4_05 = UINT64_C(0); goto at__join_5; }
    at__join_5:;
    r20 = (uint64_t)(r4_05 << (UINT64_C(2) & 63u));
    r23 = (a0 + (int64_t)r20);
    LOAD(uint32_t, r25, r23);
    v0 = (uint32_t)(r25 + 95746129u);
    r4 = v0 < 191491529u;
    r32 = (uint64_t)r4;
    spec_select = (uint64_t)(r3_06 + r32);
    r34 = (uint64_t)(r4_05 + UINT64_C(1));
    exitcond_not = r34 == a1;
    if (exitcond_not) { { r3_0_lcssa = spec_select; goto at__chrono_columns_counts_count_dates_exit; } }
    { r3_06 = spec_select; r4_05 = r34; goto at__join_5; }
    at__chrono_columns_counts_count_dates_exit:;
    return r3_0_lcssa;
}

static uint8_t in_calendar_column_days_between(bytes a0, uint64_t a1, bytes a2, uint64_t a3, bytes a4, uint64_t a5)
{
    uint64_t r6_06, r27, r51;
    uint8_t r18_not, r31_not, or_cond, r225_not, or_cond10_not, r4, r4_i3, r21, exitcond_not;
    bytes r30, r37, r47;
    uint32_t r32, r39, a0_a1, a1_a0, a0_a1_i_i1, a1_a0_i_i2, v0, v1, r12, r7_0;
    r18_not = a3 == a1;
    r31_not = a5 == a1;
    or_cond = (uint8_t)(((uint32_t)r18_not & (uint32_t)r31_not) & 1);
    r225_not = a1 != UINT64_C(0);
    or_cond10_not = (uint8_t)(((uint32_t)r225_not & (uint32_t)or_cond) & 1);
    if (or_cond10_not) { { r6_06 = UINT64_C(0); goto at__join_5; } }
    goto at__common_ret;
    at__common_ret:;
    return or_cond;
    at__join_5:;
    r27 = (uint64_t)(r6_06 << (UINT64_C(2) & 63u));
    r30 = (a0 + (int64_t)r27);
    LOAD(uint32_t, r32, r30);
    r37 = (a2 + (int64_t)r27);
    LOAD(uint32_t, r39, r37);
    a0_a1 = (uint32_t)GREATER32((int32_t)r32, (int32_t)4199221167u);
    a1_a0 = (uint32_t)LESSER32((int32_t)a0_a1, (int32_t)95745399u);
    a0_a1_i_i1 = (uint32_t)GREATER32((int32_t)r39, (int32_t)4199221167u);
    a1_a0_i_i2 = (uint32_t)LESSER32((int32_t)a0_a1_i_i1, (int32_t)95745399u);
    v0 = (uint32_t)(r32 + 95746129u);
    r4 = v0 < 191491529u;
    v1 = (uint32_t)(r39 + 95746129u);
    r4_i3 = v1 < 191491529u;
    r21 = (uint8_t)(((uint32_t)r4 & (uint32_t)r4_i3) & 1);
    r12 = (uint32_t)(a1_a0 - a1_a0_i_i2);
    r7_0 = r21 ? r12 : 2147483648u;
    r47 = (a4 + (int64_t)r27);
    STORE(uint32_t, r47, r7_0);
    r51 = (uint64_t)(r6_06 + UINT64_C(1));
    exitcond_not = r51 == a3;
    if (exitcond_not) { goto at__common_ret; }
    { r6_06 = r51; goto at__join_5; }
}

static uint8_t in_calendar_column_first_on(bytes a0, uint64_t a1, uint8_t a2, bytes a3, uint64_t a4)
{
    uint64_t r5_05_us, r5_05, r23_us, r40_us, r23, r40;
    uint32_t r4_0, r1, r18, r28, v0, r5, r3, r23_2, r23_i_i_fr, r25, r48, v1;
    uint8_t r17_not, r184_not, or_cond_not, spec_select_i23, r3_i_i6_not_not, exitcond7_not, or_cond, or_cond_2, exitcond_not;
    bytes r36_us, r26, r36;
    r17_not = a4 == a1;
    r184_not = a1 != UINT64_C(0);
    or_cond_not = (uint8_t)(((uint32_t)r184_not & (uint32_t)r17_not) & 1);
    if (or_cond_not) { goto at__join_5_lr_ph; }
    goto at__common_ret;
    at__common_ret:;
    return r17_not;
    at__join_5_lr_ph:;
    spec_select_i23 = (uint8_t)((uint32_t)a2 & (uint32_t)127u);
    r3_i_i6_not_not = spec_select_i23 == 0;
    r1 = (uint32_t)spec_select_i23;
    r18 = (uint32_t)(r1 * 129u);
    if (r3_i_i6_not_not) { { r5_05_us = UINT64_C(0); goto at__join_5_us; } }
    { r5_05 = UINT64_C(0); goto at__join_5; }
    at__join_5_us:;
    r23_us = (uint64_t)(r5_05_us << (UINT64_C(2) & 63u));
    r36_us = (a3 + (int64_t)r23_us);
    STORE(uint32_t, r36_us, 2147483648u);
    r40_us = (uint64_t)(r5_05_us + UINT64_C(1));
    exitcond7_not = r40_us == a4;
    if (exitcond7_not) { goto at__common_ret; }
    { r5_05_us = r40_us; goto at__join_5_us; }
    at__join_5:;
    r23 = (uint64_t)(r5_05 << (UINT64_C(2) & 63u));
    r26 = (a0 + (int64_t)r23);
    LOAD(uint32_t, r28, r26);
    v0 = (uint32_t)(r28 + 4199221896u);
    or_cond = v0 < 4103475767u;
    if (or_cond) { { r4_0 = 2147483648u; goto at__chrono_columns_occasions_first_of_number_exit_i; } }
    goto at__chrono_calendar_forms_first_on_19d94ee6b5cf2102_exit_i_i_i;
    at__chrono_calendar_forms_first_on_19d94ee6b5cf2102_exit_i_i_i:;
    r5 = (uint32_t)(r28 + 95839631u);
    r3 = (uint32_t)(r5 % 7);
    r23_2 = (uint32_t)(r18 >> (r3 & 31u));
    r23_i_i_fr = r23_2;
    r25 = (uint32_t)(r23_i_i_fr ? TRAILING(r23_i_i_fr) : 32u);
    r48 = (uint32_t)(r25 + r28);
    or_cond_2 = (int32_t)r48 < (int32_t)95745400u;
    v1 = or_cond_2 ? r48 : 2147483648u;
    {
    r4_0 = v1;
    goto at__chrono_columns_occasions_first_of_number_exit_i;
    }
    at__chrono_columns_occasions_first_of_number_exit_i:;
    r36 = (a3 + (int64_t)r23);
    STORE(uint32_t, r36, r4_0);
    r40 = (uint64_t)(r5_05 + UINT64_C(1));
    exitcond_not = r40 == a4;
    if (exitcond_not) { goto at__common_ret; }
    { r5_05 = r40; goto at__join_5; }
}

static uint8_t in_calendar_column_from_unix_days(bytes a0, uint64_t a1, bytes a2, uint64_t a3)
{
    uint64_t r4_05, r22, r27, v0, r31, r38;
    uint8_t r16_not, r174_not, or_cond_not, r10, r19, r23_i1, exitcond_not;
    bytes r25, r34;
    uint32_t r23, r25_2, r4_0, common_ret_op, r4;
    r16_not = a3 == a1;
    r174_not = a1 != UINT64_C(0);
    or_cond_not = (uint8_t)(((uint32_t)r174_not & (uint32_t)r16_not) & 1);
    if (or_cond_not) { { r4_05 = UINT64_C(0); goto at__join_5; } }
    goto at__common_ret;
    at__common_ret:;
    return r16_not;
    at__join_5:;
    r22 = (uint64_t)(r4_05 << (UINT64_C(3) & 63u));
    r25 = (a0 + (int64_t)r22);
    LOAD(uint64_t, r27, r25);
    r10 = (int64_t)r27 < (int64_t)UINT64_C(18446744073613086324);
    r19 = (int64_t)r27 > (int64_t)UINT64_C(95026236);
    r23 = (uint32_t)(r27);
    r25_2 = (uint32_t)(r23 + 719163u);
    r4_0 = r19 ? 95745399u : r25_2;
    common_ret_op = r10 ? 4199221167u : r4_0;
    v0 = (uint64_t)(r27 + UINT64_C(96465292));
    r23_i1 = v0 < UINT64_C(191491529);
    r4 = r23_i1 ? common_ret_op : 2147483648u;
    r31 = (uint64_t)(r4_05 << (UINT64_C(2) & 63u));
    r34 = (a2 + (int64_t)r31);
    STORE(uint32_t, r34, r4);
    r38 = (uint64_t)(r4_05 + UINT64_C(1));
    exitcond_not = r38 == a3;
    if (exitcond_not) { goto at__common_ret; }
    { r4_05 = r38; goto at__join_5; }
}

static uint8_t in_calendar_column_iso_weeks(bytes a0, uint64_t a1, bytes a2, uint64_t a3, bytes a4, uint64_t a5)
{
    uint64_t r6_028, r25, r4, r6, r8, r4_2, r6_2, r8_2, r4_i8, r6_i9, r8_i10, r49;
    uint8_t r20_not, r33_not, or_cond, r2027_not, or_cond10_not, r4_3, r10_i11, r28_2, r5_0_i26, exitcond_not;
    bytes r28, r38, r45;
    uint32_t r30, a0_a1, a1_a0, r5, r10, r14, r8_i5, r10_i6, r3, r71_i2, r10_2, r10_i7, r6_i7, v0, r5_0, r16_neg, r19, r216;
    r20_not = a3 == a1;
    r33_not = a5 == a1;
    or_cond = (uint8_t)(((uint32_t)r20_not & (uint32_t)r33_not) & 1);
    r2027_not = a1 != UINT64_C(0);
    or_cond10_not = (uint8_t)(((uint32_t)r2027_not & (uint32_t)or_cond) & 1);
    if (or_cond10_not) { { r6_028 = UINT64_C(0); goto at__join_5; } }
    goto at__common_ret;
    at__common_ret:;
    return or_cond;
    at__join_5:;
    r25 = (uint64_t)(r6_028 << (UINT64_C(2) & 63u));
    r28 = (a0 + (int64_t)r25);
    LOAD(uint32_t, r30, r28);
    a0_a1 = (uint32_t)GREATER32((int32_t)r30, (int32_t)4199221167u);
    a1_a0 = (uint32_t)LESSER32((int32_t)a0_a1, (int32_t)95745399u);
    r5 = (uint32_t)(a1_a0 + 95839631u);
    r4 = (uint64_t)r5;
    r6 = (uint64_t)(r4 * UINT64_C(613566757));
    r8 = (uint64_t)(r6 >> (UINT64_C(32) & 63u));
    r10 = (uint32_t)(r8);
    r14 = (uint32_t)(r10 * 28u);
    r8_i5 = (uint32_t)(r14 + 15u);
    r10_i6 = (uint32_t)(r8_i5 / 146097u);
    r3 = (uint32_t)(r10_i6 * 3);
    r71_i2 = (uint32_t)(r3 + r8_i5);
    r10_2 = (uint32_t)(r71_i2 | 3);
    r4_2 = (uint64_t)r10_2;
    r6_2 = (uint64_t)(r4_2 * UINT64_C(376287347));
    r8_2 = (uint64_t)(r6_2 >> (UINT64_C(39) & 63u));
    r10_i7 = (uint32_t)(r8_2);
    r6_i7 = (uint32_t)(r10_i7 + 4294704897u);
    v0 = (uint32_t)(r30 + 95746129u);
    r4_3 = v0 < 191491529u;
    r5_0 = r4_3 ? r6_i7 : 2147483648u;
    r38 = (a2 + (int64_t)r25);
    STORE(uint32_t, r38, r5_0);
    r16_neg = (uint32_t)(r10_i7 * 4294965835u);
    r19 = (uint32_t)(r16_neg + r10_2);
    r216 = (uint32_t)(r19 >> 2);
    r4_i8 = (uint64_t)r216;
    r6_i9 = (uint64_t)(r4_i8 * UINT64_C(613566757));
    r8_i10 = (uint64_t)(r6_i9 >> (UINT64_C(32) & 63u));
    r10_i11 = (uint8_t)(r8_i10);
    r28_2 = (uint8_t)((uint32_t)r10_i11 + (uint32_t)1);
    r5_0_i26 = r4_3 ? r28_2 : 0;
    r45 = (a4 + (int64_t)r6_028);
    STORE(uint8_t, r45, r5_0_i26);
    r49 = (uint64_t)(r6_028 + UINT64_C(1));
    exitcond_not = r49 == a3;
    if (exitcond_not) { goto at__common_ret; }
    { r6_028 = r49; goto at__join_5; }
}

static uint8_t in_calendar_column_join(bytes a0, uint64_t a1, bytes a2, uint64_t a3, bytes a4, uint64_t a5, bytes a6, uint64_t a7)
{
    uint64_t r8_07, r30, r58;
    uint8_t r7_0, r20_not, r33_not, or_cond, r46_not, or_cond16, r256_not, or_cond17_not, r40, r45, v0, v1, r18, r16, r26, r1, r24_i9, r91, r11_i6, r17_i8, r8, r4, v3, r7, r34, r10, r43_2, exitcond_not;
    bytes r33, r38, r43, r54;
    uint32_t r35, a0_a1, a1_a0, r8_i5, r11, r13, r11_r8, r24, a1_a0_i_i4, r1_2, r21, r3_0, r13_2, r11_2, r14, r21_2, r23, r26_2, r12, r3_0_2, r15, r17, r191, r16_2, r183, r18_2, r24_2, v2, r6, r1_i1, r18_3;
    r20_not = a3 == a1;
    r33_not = a5 == a1;
    or_cond = (uint8_t)(((uint32_t)r20_not & (uint32_t)r33_not) & 1);
    r46_not = a7 == a1;
    or_cond16 = (uint8_t)(((uint32_t)or_cond & (uint32_t)r46_not) & 1);
    r256_not = a1 != UINT64_C(0);
    or_cond17_not = (uint8_t)(((uint32_t)r256_not & (uint32_t)or_cond16) & 1);
    if (or_cond17_not) { { r8_07 = UINT64_C(0); goto at__join_5; } }
    goto at__common_ret;
    at__common_ret:;
    return or_cond16;
    at__join_5:;
    r30 = (uint64_t)(r8_07 << (UINT64_C(2) & 63u));
    r33 = (a0 + (int64_t)r30);
    LOAD(uint32_t, r35, r33);
    r38 = (a2 + (int64_t)r8_07);
    LOAD(uint8_t, r40, r38);
    r43 = (a4 + (int64_t)r8_07);
    LOAD(uint8_t, r45, r43);
    a0_a1 = (uint32_t)GREATER32((int32_t)r35, (int32_t)4294705153u);
    a1_a0 = (uint32_t)LESSER32((int32_t)a0_a1, (int32_t)262142u);
    v0 = r40 > 1 ? r40 : 1;
    v1 = v0 < 12u ? v0 : 12u;
    r18 = r40 == 2;
    if (r18) { goto at__then_1; }
    goto at__else_2;
    at__then_1:;
    r8_i5 = (uint32_t)(a1_a0 + 262400u);
    r11 = (uint32_t)(r8_i5 / 100u);
    r13 = (uint32_t)(r11 * 100u);
    r16 = r13 == r8_i5;
    r11_r8 = r16 ? r11 : a1_a0;
    r24 = (uint32_t)(r11_r8 & 3);
    r26 = r24 == 0;
    r1 = (uint8_t)r26;
    r24_i9 = (uint8_t)((uint32_t)r1 | (uint32_t)28u);
    {
    r7_0 = r24_i9;
    goto at__chrono_columns_named_date_of_name_exit_i;
    }
    at__else_2:;
    r91 = (uint8_t)((uint32_t)v1 >> 3);
    r11_i6 = (uint8_t)((uint32_t)r91 + (uint32_t)v1);
    r17_i8 = (uint8_t)((uint32_t)r11_i6 | (uint32_t)30u);
    {
    r7_0 = r17_i8;
    goto at__chrono_columns_named_date_of_name_exit_i;
    }
    at__chrono_columns_named_date_of_name_exit_i:;
    a1_a0_i_i4 = (uint32_t)v1;
    r1_2 = (uint32_t)r45;
    r21 = (uint32_t)(r1_2 + 4199127358u);
    r3_0 = (uint32_t)(a1_a0 + 262399u);
    r8 = r40 > 2;
    r13_2 = (uint32_t)r8;
    r11_2 = (uint32_t)(r3_0 + r13_2);
    r14 = (uint32_t)(r11_2 / 100u);
    r21_2 = (uint32_t)(r21 - r14);
    r23 = (uint32_t)(r11_2 / 400u);
    r26_2 = (uint32_t)(r21_2 + r23);
    r12 = (uint32_t)(a1_a0_i_i4 | 12u);
    r3_0_2 = r8 ? a1_a0_i_i4 : r12;
    r15 = (uint32_t)(r3_0_2 * 979u);
    r17 = (uint32_t)(r15 + 4294964377u);
    r191 = (uint32_t)(r17 >> 5);
    r16_2 = (uint32_t)(r11_2 * 1461u);
    r183 = (uint32_t)(r16_2 >> 2);
    r18_2 = (uint32_t)(r26_2 + r183);
    r24_2 = (uint32_t)(r18_2 + r191);
    v2 = (uint32_t)(r35 + 262143u);
    r4 = v2 < 524286u;
    v3 = (uint8_t)((uint32_t)r40 + (uint32_t)255u);
    r7 = v3 < 12u;
    r34 = (uint8_t)(((uint32_t)r4 & (uint32_t)r7) & 1);
    r6 = (uint32_t)(r1_2 + 4294967295u);
    r1_i1 = (uint32_t)r7_0;
    r10 = r6 < r1_i1;
    r43_2 = (uint8_t)(((uint32_t)r34 & (uint32_t)r10) & 1);
    r18_3 = r43_2 ? r24_2 : 2147483648u;
    r54 = (a6 + (int64_t)r30);
    STORE(uint32_t, r54, r18_3);
    r58 = (uint64_t)(r8_07 + UINT64_C(1));
    exitcond_not = r58 == a3;
    if (exitcond_not) { goto at__common_ret; }
    { r8_07 = r58; goto at__join_5; }
}

static uint8_t in_calendar_column_ordinals(bytes a0, uint64_t a1, bytes a2, uint64_t a3)
{
    uint64_t r4_05, r22, r4, r6, r8_2, r31, r38;
    uint8_t r16_not, r174_not, or_cond_not, r4_2, exitcond_not;
    bytes r25, r34;
    uint32_t r27, a0_a1, a1_a0, r5, r8, r10, r3, r71_i2, r10_2, r10_i7, r16_neg, r19, r216, v0;
    uint16_t v1, r19_2, r5_0;
    r16_not = a3 == a1;
    r174_not = a1 != UINT64_C(0);
    or_cond_not = (uint8_t)(((uint32_t)r174_not & (uint32_t)r16_not) & 1);
    if (or_cond_not) { { r4_05 = UINT64_C(0); goto at__join_5; } }
    goto at__common_ret;
    at__common_ret:;
    return r16_not;
    at__join_5:;
    r22 = (uint64_t)(r4_05 << (UINT64_C(2) & 63u));
    r25 = (a0 + (int64_t)r22);
    LOAD(uint32_t, r27, r25);
    a0_a1 = (uint32_t)GREATER32((int32_t)r27, (int32_t)4199221167u);
    a1_a0 = (uint32_t)LESSER32((int32_t)a0_a1, (int32_t)95745399u);
    r5 = (uint32_t)(a1_a0 << 2);
    r8 = (uint32_t)(r5 + 383358527u);
    r10 = (uint32_t)(r8 / 146097u);
    r3 = (uint32_t)(r10 * 3);
    r71_i2 = (uint32_t)(r3 + r8);
    r10_2 = (uint32_t)(r71_i2 | 3);
    r4 = (uint64_t)r10_2;
    r6 = (uint64_t)(r4 * UINT64_C(376287347));
    r8_2 = (uint64_t)(r6 >> (UINT64_C(39) & 63u));
    r10_i7 = (uint32_t)(r8_2);
    r16_neg = (uint32_t)(r10_i7 * 260683u);
    r19 = (uint32_t)(r16_neg + r10_2);
    r216 = (uint32_t)(r19 >> 2);
    v0 = (uint32_t)(r27 + 95746129u);
    r4_2 = v0 < 191491529u;
    v1 = (uint16_t)(r216);
    r19_2 = (uint16_t)((uint32_t)v1 + (uint32_t)1);
    r5_0 = r4_2 ? r19_2 : 0;
    r31 = (uint64_t)(r4_05 << (UINT64_C(1) & 63u));
    r34 = (a2 + (int64_t)r31);
    STORE(uint16_t, r34, r5_0);
    r38 = (uint64_t)(r4_05 + UINT64_C(1));
    exitcond_not = r38 == a3;
    if (exitcond_not) { goto at__common_ret; }
    { r4_05 = r38; goto at__join_5; }
}

static uint8_t in_calendar_column_read_dates(bytes a0, uint64_t a1, bytes a2, uint64_t a3)
{
    uint64_t r4_05, r22, r29, r36;
    uint8_t r7_0, r16_not, r174_not, or_cond_not, r10_sroa_0_0_copyload, r10_sroa_3_0_copyload, r10_sroa_4_0_copyload, r10_sroa_5_0_copyload, r10_sroa_6_0_copyload, r10_sroa_7_0_copyload, r10_sroa_8_0_copyload, r10_sroa_9_0_copyload, r10_sroa_10_0_copyload, r10_sroa_11_0_copyload, r1, r1_i3, r11, r14, r1_i_i11, r1_i3_i12, r11_i13, r14_i14, r1_i_i21, r1_i3_i22, r11_i23, r14_i24, v0, v1, r18, r16, r26, r1_3, r24_i9, r91, r11_i6, r17_i8, r1_i_i31, r16_i35, r1_i3_i32, r19_i36, r25_i37, r11_i33, r14_i34, r16_i25, r19_i26, r25_i27, r16_i15, r19_i16, r25_i17, r16_2, r19, r25_2, r8, v2, r7, r10, r43, v3, v4, v5, r160, r166, r173, r179, v6, exitcond_not;
    bytes r25, r10_sroa_3_0_r25_sroa_idx, r10_sroa_4_0_r25_sroa_idx, r10_sroa_5_0_r25_sroa_idx, r10_sroa_6_0_r25_sroa_idx, r10_sroa_7_0_r25_sroa_idx, r10_sroa_8_0_r25_sroa_idx, r10_sroa_9_0_r25_sroa_idx, r10_sroa_10_0_r25_sroa_idx, r10_sroa_11_0_r25_sroa_idx, r32;
    uint32_t r1_2, r127, r1_i41, r132, r8_i5, r11_2, r13, r11_r8, r24, a1_a0_i_i4, r1_i_i42, r21, r3_0, r13_2, r11_3, r14_2, r21_2, r23, r26_2, r12, r3_0_2, r15, r17, r191, r16_3, r183, r18_2, r24_2, r6, r1_i1, r136;
    r16_not = a3 == a1;
    r174_not = a1 != UINT64_C(0);
    or_cond_not = (uint8_t)(((uint32_t)r174_not & (uint32_t)r16_not) & 1);
    if (or_cond_not) { { r4_05 = UINT64_C(0); goto at__join_5; } }
    goto at__common_ret;
    at__common_ret:;
    return r16_not;
    at__join_5:;
    r22 = (uint64_t)(r4_05 * UINT64_C(10));
    r25 = (a0 + (int64_t)r22);
    LOAD(uint8_t, r10_sroa_0_0_copyload, r25);
    r10_sroa_3_0_r25_sroa_idx = (r25 + 1);
    LOAD(uint8_t, r10_sroa_3_0_copyload, r10_sroa_3_0_r25_sroa_idx);
    r10_sroa_4_0_r25_sroa_idx = (r25 + 2);
    LOAD(uint8_t, r10_sroa_4_0_copyload, r10_sroa_4_0_r25_sroa_idx);
    r10_sroa_5_0_r25_sroa_idx = (r25 + 3);
    LOAD(uint8_t, r10_sroa_5_0_copyload, r10_sroa_5_0_r25_sroa_idx);
    r10_sroa_6_0_r25_sroa_idx = (r25 + 4);
    LOAD(uint8_t, r10_sroa_6_0_copyload, r10_sroa_6_0_r25_sroa_idx);
    r10_sroa_7_0_r25_sroa_idx = (r25 + 5);
    LOAD(uint8_t, r10_sroa_7_0_copyload, r10_sroa_7_0_r25_sroa_idx);
    r10_sroa_8_0_r25_sroa_idx = (r25 + 6);
    LOAD(uint8_t, r10_sroa_8_0_copyload, r10_sroa_8_0_r25_sroa_idx);
    r10_sroa_9_0_r25_sroa_idx = (r25 + 7);
    LOAD(uint8_t, r10_sroa_9_0_copyload, r10_sroa_9_0_r25_sroa_idx);
    r10_sroa_10_0_r25_sroa_idx = (r25 + 8);
    LOAD(uint8_t, r10_sroa_10_0_copyload, r10_sroa_10_0_r25_sroa_idx);
    r10_sroa_11_0_r25_sroa_idx = (r25 + 9);
    LOAD(uint8_t, r10_sroa_11_0_copyload, r10_sroa_11_0_r25_sroa_idx);
    r1 = (uint8_t)((uint32_t)r10_sroa_0_0_copyload + (uint32_t)208u);
    r1_i3 = (uint8_t)((uint32_t)r10_sroa_3_0_copyload + (uint32_t)208u);
    r11 = (uint8_t)((uint32_t)r1 * (uint32_t)10u);
    r14 = (uint8_t)((uint32_t)r11 + (uint32_t)r1_i3);
    r1_i_i11 = (uint8_t)((uint32_t)r10_sroa_4_0_copyload + (uint32_t)208u);
    r1_i3_i12 = (uint8_t)((uint32_t)r10_sroa_5_0_copyload + (uint32_t)208u);
    r11_i13 = (uint8_t)((uint32_t)r1_i_i11 * (uint32_t)10u);
    r14_i14 = (uint8_t)((uint32_t)r11_i13 + (uint32_t)r1_i3_i12);
    r1_i_i21 = (uint8_t)((uint32_t)r10_sroa_7_0_copyload + (uint32_t)208u);
    r1_i3_i22 = (uint8_t)((uint32_t)r10_sroa_8_0_copyload + (uint32_t)208u);
    r11_i23 = (uint8_t)((uint32_t)r1_i_i21 * (uint32_t)10u);
    r14_i24 = (uint8_t)((uint32_t)r11_i23 + (uint32_t)r1_i3_i22);
    r1_2 = (uint32_t)r14;
    r127 = (uint32_t)(r1_2 * 100u);
    r1_i41 = (uint32_t)r14_i14;
    r132 = (uint32_t)(r127 + r1_i41);
    v0 = r14_i24 > 1 ? r14_i24 : 1;
    v1 = v0 < 12u ? v0 : 12u;
    r18 = r14_i24 == 2;
    if (r18) { goto at__then_1; }
    goto at__else_2;
    at__then_1:;
    r8_i5 = (uint32_t)(r132 + 262400u);
    r11_2 = (uint32_t)(r8_i5 / 100u);
    r13 = (uint32_t)(r11_2 * 100u);
    r16 = r13 == r8_i5;
    r11_r8 = r16 ? r11_2 : r1_i41;
    r24 = (uint32_t)(r11_r8 & 3);
    r26 = r24 == 0;
    r1_3 = (uint8_t)r26;
    r24_i9 = (uint8_t)((uint32_t)r1_3 | (uint32_t)28u);
    {
    r7_0 = r24_i9;
    goto at__chrono_columns_read_date_of_text_entry_exit_i;
    }
    at__else_2:;
    r91 = (uint8_t)((uint32_t)v1 >> 3);
    r11_i6 = (uint8_t)((uint32_t)r91 + (uint32_t)v1);
    r17_i8 = (uint8_t)((uint32_t)r11_i6 | (uint32_t)30u);
    {
    r7_0 = r17_i8;
    goto at__chrono_columns_read_date_of_text_entry_exit_i;
    }
    at__chrono_columns_read_date_of_text_entry_exit_i:;
    r1_i_i31 = (uint8_t)((uint32_t)r10_sroa_10_0_copyload + (uint32_t)208u);
    r16_i35 = r1_i_i31 < 10u;
    r1_i3_i32 = (uint8_t)((uint32_t)r10_sroa_11_0_copyload + (uint32_t)208u);
    r19_i36 = r1_i3_i32 < 10u;
    r25_i37 = (uint8_t)(((uint32_t)r16_i35 & (uint32_t)r19_i36) & 1);
    r11_i33 = (uint8_t)((uint32_t)r1_i_i31 * (uint32_t)10u);
    r14_i34 = (uint8_t)((uint32_t)r11_i33 + (uint32_t)r1_i3_i32);
    r16_i25 = r1_i_i21 < 10u;
    r19_i26 = r1_i3_i22 < 10u;
    r25_i27 = (uint8_t)(((uint32_t)r16_i25 & (uint32_t)r19_i26) & 1);
    r16_i15 = r1_i_i11 < 10u;
    r19_i16 = r1_i3_i12 < 10u;
    r25_i17 = (uint8_t)(((uint32_t)r16_i15 & (uint32_t)r19_i16) & 1);
    r16_2 = r1 < 10u;
    r19 = r1_i3 < 10u;
    r25_2 = (uint8_t)(((uint32_t)r16_2 & (uint32_t)r19) & 1);
    a1_a0_i_i4 = (uint32_t)v1;
    r1_i_i42 = (uint32_t)r14_i34;
    r21 = (uint32_t)(r1_i_i42 + 4199127358u);
    r3_0 = (uint32_t)(r132 + 262399u);
    r8 = r14_i24 > 2;
    r13_2 = (uint32_t)r8;
    r11_3 = (uint32_t)(r3_0 + r13_2);
    r14_2 = (uint32_t)(r11_3 / 100u);
    r21_2 = (uint32_t)(r21 - r14_2);
    r23 = (uint32_t)(r11_3 / 400u);
    r26_2 = (uint32_t)(r21_2 + r23);
    r12 = (uint32_t)(a1_a0_i_i4 | 12u);
    r3_0_2 = r8 ? a1_a0_i_i4 : r12;
    r15 = (uint32_t)(r3_0_2 * 979u);
    r17 = (uint32_t)(r15 + 4294964377u);
    r191 = (uint32_t)(r17 >> 5);
    r16_3 = (uint32_t)(r11_3 * 1461u);
    r183 = (uint32_t)(r16_3 >> 2);
    r18_2 = (uint32_t)(r26_2 + r183);
    r24_2 = (uint32_t)(r18_2 + r191);
    v2 = (uint8_t)((uint32_t)r14_i24 + (uint32_t)255u);
    r7 = v2 < 12u;
    r6 = (uint32_t)(r1_i_i42 + 4294967295u);
    r1_i1 = (uint32_t)r7_0;
    r10 = r6 < r1_i1;
    r43 = (uint8_t)(((uint32_t)r7 & (uint32_t)r10) & 1);
    v3 = (uint8_t)(((uint32_t)r25_2 & (uint32_t)r25_i17) & 1);
    v4 = (uint8_t)(((uint32_t)v3 & (uint32_t)r25_i27) & 1);
    v5 = (uint8_t)(((uint32_t)v4 & (uint32_t)r25_i37) & 1);
    r160 = r10_sroa_6_0_copyload == 45u;
    r166 = (uint8_t)(((uint32_t)r160 & (uint32_t)v5) & 1);
    r173 = r10_sroa_9_0_copyload == 45u;
    r179 = (uint8_t)(((uint32_t)r173 & (uint32_t)r166) & 1);
    v6 = r179 ? r43 : 0;
    r136 = v6 ? r24_2 : 2147483648u;
    r29 = (uint64_t)(r4_05 << (UINT64_C(2) & 63u));
    r32 = (a2 + (int64_t)r29);
    STORE(uint32_t, r32, r136);
    r36 = (uint64_t)(r4_05 + UINT64_C(1));
    exitcond_not = r36 == a3;
    if (exitcond_not) { goto at__common_ret; }
    { r4_05 = r36; goto at__join_5; }
}

static uint8_t in_calendar_column_split(bytes a0, uint64_t a1, bytes a2, uint64_t a3, bytes a4, uint64_t a5, bytes a6, uint64_t a7)
{
    uint64_t r8_08, r30, r4, r6, r8_2, r60;
    uint8_t r24_not, r37_not, or_cond, r50_not, or_cond16, r257_not, or_cond17_not, r35_2, r4_2, r22, v1, r24, r7_sroa_4_0, r7_sroa_6_0, exitcond_not;
    bytes r33, r46, r51_2, r56;
    uint32_t r35, a0_a1, a1_a0, r17, r8, r10, r3, r71_i2, r10_2, r10_i7, r16_neg, r19, r216, r6_i5, r8_i6, r103, r51, r10_sroa_0_0_v, r10_sroa_0_0, r10_sroa_4_0, v0, r7_sroa_0_0;
    uint16_t r14_lhs_trunc, r144;
    r24_not = a3 == a1;
    r37_not = a5 == a1;
    or_cond = (uint8_t)(((uint32_t)r24_not & (uint32_t)r37_not) & 1);
    r50_not = a7 == a1;
    or_cond16 = (uint8_t)(((uint32_t)or_cond & (uint32_t)r50_not) & 1);
    r257_not = a1 != UINT64_C(0);
    or_cond17_not = (uint8_t)(((uint32_t)r257_not & (uint32_t)or_cond16) & 1);
    if (or_cond17_not) { { r8_08 = UINT64_C(0); goto at__join_5; } }
    goto at__common_ret;
    at__common_ret:;
    return or_cond16;
    at__join_5:;
    r30 = (uint64_t)(r8_08 << (UINT64_C(2) & 63u));
    r33 = (a0 + (int64_t)r30);
    LOAD(uint32_t, r35, r33);
    a0_a1 = (uint32_t)GREATER32((int32_t)r35, (int32_t)4199221167u);
    a1_a0 = (uint32_t)LESSER32((int32_t)a0_a1, (int32_t)95745399u);
    r17 = (uint32_t)(a1_a0 << 2);
    r8 = (uint32_t)(r17 + 383359751u);
    r10 = (uint32_t)(r8 / 146097u);
    r3 = (uint32_t)(r10 * 3);
    r71_i2 = (uint32_t)(r3 + r8);
    r10_2 = (uint32_t)(r71_i2 | 3);
    r4 = (uint64_t)r10_2;
    r6 = (uint64_t)(r4 * UINT64_C(376287347));
    r8_2 = (uint64_t)(r6 >> (UINT64_C(39) & 63u));
    r10_i7 = (uint32_t)(r8_2);
    r16_neg = (uint32_t)(r10_i7 * 4294965835u);
    r19 = (uint32_t)(r16_neg + r10_2);
    r216 = (uint32_t)(r19 >> 2);
    r6_i5 = (uint32_t)(r216 * 2141u);
    r8_i6 = (uint32_t)(r6_i5 + 197913u);
    r103 = (uint32_t)(r8_i6 >> 16u);
    r14_lhs_trunc = (uint16_t)(r8_i6);
    r144 = (uint16_t)((uint32_t)r14_lhs_trunc / (uint32_t)2141u);
    r35_2 = r19 < 1224u;
    r51 = (uint32_t)(r103 + 244u);
    r10_sroa_0_0_v = r35_2 ? 4294704896u : 4294704897u;
    r10_sroa_0_0 = (uint32_t)(r10_sroa_0_0_v + r10_i7);
    r10_sroa_4_0 = r35_2 ? r103 : r51;
    v0 = (uint32_t)(r35 + 95746129u);
    r4_2 = v0 < 191491529u;
    r22 = (uint8_t)(r10_sroa_4_0);
    v1 = (uint8_t)(r144);
    r24 = (uint8_t)((uint32_t)v1 + (uint32_t)1);
    r7_sroa_0_0 = r4_2 ? r10_sroa_0_0 : 2147483648u;
    r7_sroa_4_0 = r4_2 ? r22 : 0;
    r7_sroa_6_0 = r4_2 ? r24 : 0;
    r46 = (a2 + (int64_t)r30);
    STORE(uint32_t, r46, r7_sroa_0_0);
    r51_2 = (a4 + (int64_t)r8_08);
    STORE(uint8_t, r51_2, r7_sroa_4_0);
    r56 = (a6 + (int64_t)r8_08);
    STORE(uint8_t, r56, r7_sroa_6_0);
    r60 = (uint64_t)(r8_08 + UINT64_C(1));
    exitcond_not = r60 == a3;
    if (exitcond_not) { goto at__common_ret; }
    { r8_08 = r60; goto at__join_5; }
}

static uint8_t in_calendar_column_to_unix_days(bytes a0, uint64_t a1, bytes a2, uint64_t a3)
{
    uint64_t r4_05, r22, r1, r10, r31, r38;
    uint8_t r16_not, r174_not, or_cond_not, r4, exitcond_not;
    bytes r25, r34;
    uint32_t r27, a0_a1, a1_a0, r8, v0;
    r16_not = a3 == a1;
    r174_not = a1 != UINT64_C(0);
    or_cond_not = (uint8_t)(((uint32_t)r174_not & (uint32_t)r16_not) & 1);
    if (or_cond_not) { { r4_05 = UINT64_C(0); goto at__join_5; } }
    goto at__common_ret;
    at__common_ret:;
    return r16_not;
    at__join_5:;
    r22 = (uint64_t)(r4_05 << (UINT64_C(2) & 63u));
    r25 = (a0 + (int64_t)r22);
    LOAD(uint32_t, r27, r25);
    a0_a1 = (uint32_t)GREATER32((int32_t)r27, (int32_t)4199221167u);
    a1_a0 = (uint32_t)LESSER32((int32_t)a0_a1, (int32_t)95745399u);
    r8 = (uint32_t)(a1_a0 + 4294248133u);
    r1 = (uint64_t)((uint64_t)(int32_t)r8);
    v0 = (uint32_t)(r27 + 95746129u);
    r4 = v0 < 191491529u;
    r10 = r4 ? r1 : UINT64_C(9223372036854775808);
    r31 = (uint64_t)(r4_05 << (UINT64_C(3) & 63u));
    r34 = (a2 + (int64_t)r31);
    STORE(uint64_t, r34, r10);
    r38 = (uint64_t)(r4_05 + UINT64_C(1));
    exitcond_not = r38 == a3;
    if (exitcond_not) { goto at__common_ret; }
    { r4_05 = r38; goto at__join_5; }
}

static uint8_t in_calendar_column_weekdays(bytes a0, uint64_t a1, bytes a2, uint64_t a3)
{
    uint64_t r4_05, r21, r4, r6, r8, r35;
    uint8_t r16_not, r164_not, or_cond_not, r4_2, r13, r4_0, exitcond_not;
    bytes r24, r31;
    uint32_t r26, a0_a1, a1_a0, r5, r10, r9_neg, r12, r14, v0;
    r16_not = a3 == a1;
    r164_not = a1 != UINT64_C(0);
    or_cond_not = (uint8_t)(((uint32_t)r164_not & (uint32_t)r16_not) & 1);
    if (or_cond_not) { { r4_05 = UINT64_C(0); goto at__join_5; } }
    goto at__common_ret;
    at__common_ret:;
    return r16_not;
    at__join_5:;
    r21 = (uint64_t)(r4_05 << (UINT64_C(2) & 63u));
    r24 = (a0 + (int64_t)r21);
    LOAD(uint32_t, r26, r24);
    a0_a1 = (uint32_t)GREATER32((int32_t)r26, (int32_t)4199221167u);
    a1_a0 = (uint32_t)LESSER32((int32_t)a0_a1, (int32_t)95745399u);
    r5 = (uint32_t)(a1_a0 + 95839631u);
    r4 = (uint64_t)r5;
    r6 = (uint64_t)(r4 * UINT64_C(613566757));
    r8 = (uint64_t)(r6 >> (UINT64_C(32) & 63u));
    r10 = (uint32_t)(r8);
    r9_neg = (uint32_t)(r10 * 249u);
    r12 = (uint32_t)(a1_a0 + 144u);
    r14 = (uint32_t)(r12 + r9_neg);
    v0 = (uint32_t)(r26 + 95746129u);
    r4_2 = v0 < 191491529u;
    r13 = (uint8_t)(r14);
    r4_0 = r4_2 ? r13 : 0;
    r31 = (a2 + (int64_t)r4_05);
    STORE(uint8_t, r31, r4_0);
    r35 = (uint64_t)(r4_05 + UINT64_C(1));
    exitcond_not = r35 == a3;
    if (exitcond_not) { goto at__common_ret; }
    { r4_05 = r35; goto at__join_5; }
}

static uint8_t in_calendar_column_write_dates(bytes a0, uint64_t a1, bytes a2, uint64_t a3)
{
    uint64_t r4_015, r8_08, r8_07, r29, a1_a0, r36, r30, r4, r6_2, r8_2, r60, r48, r30_i8, r1, r1_i1, r13, r13_i3, r13_i11, r13_i19, r50, r56_i13, r34;
    uint8_t r6_sroa_0_0, r6_sroa_4_0, r6_sroa_5_0, r6_sroa_6_0, r6_sroa_7_0, r6_sroa_8_0, r6_sroa_9_0, r6_sroa_11_0, r6_sroa_12_0, r16_not, r2114_not, or_cond_not, r35_2, r4_2, r22, v1, r24, r7_sroa_4_0, r7_sroa_6_0, exitcond_not, r40, r45, r19_i_i_i_i12, r27, r19_i5, r27_i7, r19_i13, r27_i15, r19_i21, r27_i23, r11, exitcond_not_i14, r21;
    bytes r5, r6, r7, r39, r33, r46, r51_2, r56, r51_3, r33_i9, r38, r43, r17_2, r25, r17_i4, r25_i6, r17_i12, r25_i14, r17_i20, r25_i22, r53, r11_sroa_3_0_r53_sroa_idx, r11_sroa_4_0_r53_sroa_idx, r11_sroa_5_0_r53_sroa_idx, r11_sroa_6_0_r53_sroa_idx, r11_sroa_7_0_r53_sroa_idx, r11_sroa_8_0_r53_sroa_idx, r11_sroa_9_0_r53_sroa_idx, r11_sroa_10_0_r53_sroa_idx, r11_sroa_11_0_r53_sroa_idx;
    uint32_t r35, a0_a1, a1_a0_2, r17, r8, r10, r3, r71_i2, r10_2, r10_i7, r16_neg, r19, r216, r6_i5, r8_i6, r103, r51, r10_sroa_0_0_v, r10_sroa_0_0, r10_sroa_4_0, v0, r7_sroa_0_0, r35_i10, a0_a1_i_i_i_i11, v2;
    uint16_t r14_lhs_trunc, r144, r14_i_lhs_trunc, r14_i12, v3, r23_i13, v4;
    uint64_t room_r5[128];
    uint64_t room_r6[32];
    uint64_t room_r7[32];
    r5 = (bytes)room_r5;
    r6 = (bytes)room_r6;
    r7 = (bytes)room_r7;
    r16_not = a3 == a1;
    r2114_not = a1 != UINT64_C(0);
    or_cond_not = (uint8_t)(((uint32_t)r2114_not & (uint32_t)r16_not) & 1);
    if (or_cond_not) { { r4_015 = UINT64_C(0); goto at__join_5; } }
    goto at__common_ret;
    at__common_ret:;
    return r16_not;
    at__join_5:;
    r29 = (uint64_t)(a3 - r4_015);
    a1_a0 = r29 < UINT64_C(256) ? r29 : UINT64_C(256);
    r36 = (uint64_t)(r4_015 << (UINT64_C(2) & 63u));
    r39 = (a0 + (int64_t)r36);
    memset(r5, 0, UINT64_C(1024));
    memset(r6, 0, UINT64_C(256));
    memset(r7, 0, UINT64_C(256));
    {
    r8_08 = UINT64_C(0);
    goto at__join_5_2;
    }
    at__join_5_2:;
    r30 = (uint64_t)(r8_08 << (UINT64_C(2) & 63u));
    r33 = (r39 + (int64_t)r30);
    LOAD(uint32_t, r35, r33);
    a0_a1 = (uint32_t)GREATER32((int32_t)r35, (int32_t)4199221167u);
    a1_a0_2 = (uint32_t)LESSER32((int32_t)a0_a1, (int32_t)95745399u);
    r17 = (uint32_t)(a1_a0_2 << 2);
    r8 = (uint32_t)(r17 + 383359751u);
    r10 = (uint32_t)(r8 / 146097u);
    r3 = (uint32_t)(r10 * 3);
    r71_i2 = (uint32_t)(r3 + r8);
    r10_2 = (uint32_t)(r71_i2 | 3);
    r4 = (uint64_t)r10_2;
    r6_2 = (uint64_t)(r4 * UINT64_C(376287347));
    r8_2 = (uint64_t)(r6_2 >> (UINT64_C(39) & 63u));
    r10_i7 = (uint32_t)(r8_2);
    r16_neg = (uint32_t)(r10_i7 * 4294965835u);
    r19 = (uint32_t)(r16_neg + r10_2);
    r216 = (uint32_t)(r19 >> 2);
    r6_i5 = (uint32_t)(r216 * 2141u);
    r8_i6 = (uint32_t)(r6_i5 + 197913u);
    r103 = (uint32_t)(r8_i6 >> 16u);
    r14_lhs_trunc = (uint16_t)(r8_i6);
    r144 = (uint16_t)((uint32_t)r14_lhs_trunc / (uint32_t)2141u);
    r35_2 = r19 < 1224u;
    r51 = (uint32_t)(r103 + 244u);
    r10_sroa_0_0_v = r35_2 ? 4294704896u : 4294704897u;
    r10_sroa_0_0 = (uint32_t)(r10_sroa_0_0_v + r10_i7);
    r10_sroa_4_0 = r35_2 ? r103 : r51;
    v0 = (uint32_t)(r35 + 95746129u);
    r4_2 = v0 < 191491529u;
    r22 = (uint8_t)(r10_sroa_4_0);
    v1 = (uint8_t)(r144);
    r24 = (uint8_t)((uint32_t)v1 + (uint32_t)1);
    r7_sroa_0_0 = r4_2 ? r10_sroa_0_0 : 2147483648u;
    r7_sroa_4_0 = r4_2 ? r22 : 0;
    r7_sroa_6_0 = r4_2 ? r24 : 0;
    r46 = (r5 + (int64_t)r30);
    STORE(uint32_t, r46, r7_sroa_0_0);
    r51_2 = (r6 + (int64_t)r8_08);
    STORE(uint8_t, r51_2, r7_sroa_4_0);
    r56 = (r7 + (int64_t)r8_08);
    STORE(uint8_t, r56, r7_sroa_6_0);
    r60 = (uint64_t)(r8_08 + UINT64_C(1));
    exitcond_not = r60 == a1_a0;
    if (exitcond_not) { goto at__join_5_i7_i_preheader; }
    { r8_08 = r60; goto at__join_5_2; }
    at__join_5_i7_i_preheader:;
    r48 = (uint64_t)(r4_015 * UINT64_C(10));
    r51_3 = (a2 + (int64_t)r48);
    {
    r8_07 = UINT64_C(0);
    goto at__join_5_i7;
    }
    at__join_5_i7:;
    r30_i8 = (uint64_t)(r8_07 << (UINT64_C(2) & 63u));
    r33_i9 = (r5 + (int64_t)r30_i8);
    LOAD(uint32_t, r35_i10, r33_i9);
    r38 = (r6 + (int64_t)r8_07);
    LOAD(uint8_t, r40, r38);
    r43 = (r7 + (int64_t)r8_07);
    LOAD(uint8_t, r45, r43);
    a0_a1_i_i_i_i11 = (uint32_t)GREATER32((int32_t)r35_i10, (int32_t)0);
    v2 = a0_a1_i_i_i_i11 < 9999u ? a0_a1_i_i_i_i11 : 9999u;
    r1 = (uint64_t)r40;
    r1_i1 = (uint64_t)r45;
    r14_i_lhs_trunc = (uint16_t)(v2);
    r14_i12 = (uint16_t)((uint32_t)r14_i_lhs_trunc / (uint32_t)100u);
    v3 = (uint16_t)((uint32_t)r14_i12 << 1);
    r13 = (uint64_t)v3;
    r17_2 = ((bytes)&static_0 + (int64_t)r13);
    LOAD(uint8_t, r19_i_i_i_i12, r17_2);
    r25 = (r17_2 + 1);
    LOAD(uint8_t, r27, r25);
    r23_i13 = (uint16_t)((uint32_t)r14_i_lhs_trunc % (uint32_t)100u);
    v4 = (uint16_t)((uint32_t)r23_i13 << 1);
    r13_i3 = (uint64_t)v4;
    r17_i4 = ((bytes)&static_0 + (int64_t)r13_i3);
    LOAD(uint8_t, r19_i5, r17_i4);
    r25_i6 = (r17_i4 + 1);
    LOAD(uint8_t, r27_i7, r25_i6);
    r13_i11 = (uint64_t)(r1 << (UINT64_C(1) & 63u));
    r17_i12 = ((bytes)&static_0 + (int64_t)r13_i11);
    LOAD(uint8_t, r19_i13, r17_i12);
    r25_i14 = (r17_i12 + 1);
    LOAD(uint8_t, r27_i15, r25_i14);
    r13_i19 = (uint64_t)(r1_i1 << (UINT64_C(1) & 63u));
    r17_i20 = ((bytes)&static_0 + (int64_t)r13_i19);
    LOAD(uint8_t, r19_i21, r17_i20);
    r25_i22 = (r17_i20 + 1);
    LOAD(uint8_t, r27_i23, r25_i22);
    r11 = r35_i10 < 10000u;
    if (r11) { { r6_sroa_0_0 = r19_i_i_i_i12; r6_sroa_4_0 = r27; r6_sroa_5_0 = r19_i5; r6_sroa_6_0 = r27_i7; r6_sroa_7_0 = 45u; r6_sroa_8_0 = r19_i13; r6_sroa_9_0 = r27_i15; r6_sroa_11_0 = r19_i21; r6_sroa_12_0 = r27_i23; goto at__chrono_columns_written_text_of_name_entry_exit_i_i_i; } }
    goto at__else_2;
    at__else_2:;
    {
    r6_sroa_0_0 = 0;
    r6_sroa_4_0 = 0;
    r6_sroa_5_0 = 0;
    r6_sroa_6_0 = 0;
    r6_sroa_7_0 = 0;
    r6_sroa_8_0 = 0;
    r6_sroa_9_0 = 0;
    r6_sroa_11_0 = 0;
    r6_sroa_12_0 = 0;
    goto at__chrono_columns_written_text_of_name_entry_exit_i_i_i;
    }
    at__chrono_columns_written_text_of_name_entry_exit_i_i_i:;
    r50 = (uint64_t)(r8_07 * UINT64_C(10));
    r53 = (r51_3 + (int64_t)r50);
    STORE(uint8_t, r53, r6_sroa_0_0);
    r11_sroa_3_0_r53_sroa_idx = (r53 + 1);
    STORE(uint8_t, r11_sroa_3_0_r53_sroa_idx, r6_sroa_4_0);
    r11_sroa_4_0_r53_sroa_idx = (r53 + 2);
    STORE(uint8_t, r11_sroa_4_0_r53_sroa_idx, r6_sroa_5_0);
    r11_sroa_5_0_r53_sroa_idx = (r53 + 3);
    STORE(uint8_t, r11_sroa_5_0_r53_sroa_idx, r6_sroa_6_0);
    r11_sroa_6_0_r53_sroa_idx = (r53 + 4);
    STORE(uint8_t, r11_sroa_6_0_r53_sroa_idx, r6_sroa_7_0);
    r11_sroa_7_0_r53_sroa_idx = (r53 + 5);
    STORE(uint8_t, r11_sroa_7_0_r53_sroa_idx, r6_sroa_8_0);
    r11_sroa_8_0_r53_sroa_idx = (r53 + 6);
    STORE(uint8_t, r11_sroa_8_0_r53_sroa_idx, r6_sroa_9_0);
    r11_sroa_9_0_r53_sroa_idx = (r53 + 7);
    STORE(uint8_t, r11_sroa_9_0_r53_sroa_idx, r6_sroa_7_0);
    r11_sroa_10_0_r53_sroa_idx = (r53 + 8);
    STORE(uint8_t, r11_sroa_10_0_r53_sroa_idx, r6_sroa_11_0);
    r11_sroa_11_0_r53_sroa_idx = (r53 + 9);
    STORE(uint8_t, r11_sroa_11_0_r53_sroa_idx, r6_sroa_12_0);
    r56_i13 = (uint64_t)(r8_07 + UINT64_C(1));
    exitcond_not_i14 = r56_i13 == a1_a0;
    if (exitcond_not_i14) { goto at__chrono_columns_texts_write_block_exit_i; }
    { r8_07 = r56_i13; goto at__join_5_i7; }
    at__chrono_columns_texts_write_block_exit_i:;
    r34 = (uint64_t)(a1_a0 + r4_015);
    r21 = r34 < a3;
    if (r21) { { r4_015 = r34; goto at__join_5; } }
    goto at__common_ret;
}

static uint8_t in_calendar_column_years(bytes a0, uint64_t a1, bytes a2, uint64_t a3)
{
    uint64_t r4_05, r22, r4, r6, r8_2, r38;
    uint8_t r16_not, r174_not, or_cond_not, r4_2, exitcond_not;
    bytes r25, r34;
    uint32_t r27, a0_a1, a1_a0, r5, r8, r10, r3, r71_i2, r10_2, r10_i7, r6_i2, v0, r5_0;
    r16_not = a3 == a1;
    r174_not = a1 != UINT64_C(0);
    or_cond_not = (uint8_t)(((uint32_t)r174_not & (uint32_t)r16_not) & 1);
    if (or_cond_not) { { r4_05 = UINT64_C(0); goto at__join_5; } }
    goto at__common_ret;
    at__common_ret:;
    return r16_not;
    at__join_5:;
    r22 = (uint64_t)(r4_05 << (UINT64_C(2) & 63u));
    r25 = (a0 + (int64_t)r22);
    LOAD(uint32_t, r27, r25);
    a0_a1 = (uint32_t)GREATER32((int32_t)r27, (int32_t)4199221167u);
    a1_a0 = (uint32_t)LESSER32((int32_t)a0_a1, (int32_t)95745399u);
    r5 = (uint32_t)(a1_a0 << 2);
    r8 = (uint32_t)(r5 + 383358527u);
    r10 = (uint32_t)(r8 / 146097u);
    r3 = (uint32_t)(r10 * 3);
    r71_i2 = (uint32_t)(r3 + r8);
    r10_2 = (uint32_t)(r71_i2 | 3);
    r4 = (uint64_t)r10_2;
    r6 = (uint64_t)(r4 * UINT64_C(376287347));
    r8_2 = (uint64_t)(r6 >> (UINT64_C(39) & 63u));
    r10_i7 = (uint32_t)(r8_2);
    r6_i2 = (uint32_t)(r10_i7 + 4294704897u);
    v0 = (uint32_t)(r27 + 95746129u);
    r4_2 = v0 < 191491529u;
    r5_0 = r4_2 ? r6_i2 : 2147483648u;
    r34 = (a2 + (int64_t)r22);
    STORE(uint32_t, r34, r5_0);
    r38 = (uint64_t)(r4_05 + UINT64_C(1));
    exitcond_not = r38 == a3;
    if (exitcond_not) { goto at__common_ret; }
    { r4_05 = r38; goto at__join_5; }
}

static uint32_t in_calendar_date_time_date(uint64_t a0, uint32_t a1)
{
    uint32_t r5_0, r38, r40, r47, r29, spec_select;
    uint64_t v0, r30, r36, r45;
    uint8_t or_cond, r14, or_cond_2, r25, r31_not, or_cond11_i_not;
    v0 = (uint64_t)(a0 + UINT64_C(18446735863442674816));
    or_cond = v0 < UINT64_C(18446727528841446016);
    r14 = a1 > 1999999999u;
    or_cond_2 = (uint8_t)(((uint32_t)or_cond | (uint32_t)r14) & 1);
    if (or_cond_2) { { r5_0 = 2147483648u; goto at__join_4; } }
    goto at__after_1;
    at__after_1:;
    r30 = (uint64_t)(a0 + UINT64_C(8334601228800));
    r36 = (uint64_t)(r30 / UINT64_C(86400));
    r38 = (uint32_t)(r36);
    r40 = (uint32_t)(r38 + 4199221167u);
    r45 = (uint64_t)(r30 % UINT64_C(86400));
    r47 = (uint32_t)(r45);
    r25 = a1 > 999999999u;
    r29 = (uint32_t)(r47 % 60u);
    r31_not = r29 != 59u;
    or_cond11_i_not = (uint8_t)(((uint32_t)r25 & (uint32_t)r31_not) & 1);
    spec_select = or_cond11_i_not ? 2147483648u : r40;
    {
    r5_0 = spec_select;
    goto at__join_4;
    }
    at__join_4:;
    return r5_0;
}

static t_struct_i64_i32_end in_calendar_date_time_new(uint32_t a0, uint32_t a1, uint32_t a2)
{
    uint64_t r7_sroa_0_0, r1, r1_i9, r39, r42;
    uint32_t r7_sroa_4_0, r29, v0, r4;
    uint8_t r8, r14, or_cond, r25, r31_not, or_cond11_i_not_i_not13, or_cond_2, or_cond_3;
    t_struct_i64_i32_end r15_fca_0_insert, r15_fca_1_insert;
    r8 = a1 > 86399u;
    r14 = a2 > 1999999999u;
    or_cond = (uint8_t)(((uint32_t)r8 | (uint32_t)r14) & 1);
    if (or_cond) { { r7_sroa_0_0 = UINT64_C(0); r7_sroa_4_0 = 4294967295u; goto at__numbers_c_date_time_numbers_numbers_or_none_exit; } }
    goto at__after_1;
    at__after_1:;
    r25 = a2 < 1000000000u;
    r29 = (uint32_t)(a1 % 60u);
    r31_not = r29 == 59u;
    or_cond11_i_not_i_not13 = (uint8_t)(((uint32_t)r25 | (uint32_t)r31_not) & 1);
    v0 = (uint32_t)(a0 + 95746129u);
    or_cond_2 = v0 < 191491529u;
    or_cond_3 = (uint8_t)(((uint32_t)or_cond_2 & (uint32_t)or_cond11_i_not_i_not13) & 1);
    if (or_cond_3) { goto at__arm_11; }
    { r7_sroa_0_0 = UINT64_C(0); r7_sroa_4_0 = 4294967295u; goto at__numbers_c_date_time_numbers_numbers_or_none_exit; }
    at__arm_11:;
    r4 = (uint32_t)(a0 + 4294248133u);
    r1 = (uint64_t)((uint64_t)(int32_t)r4);
    r1_i9 = (uint64_t)a1;
    r39 = (uint64_t)(r1 * UINT64_C(86400));
    r42 = (uint64_t)(r39 + r1_i9);
    {
    r7_sroa_0_0 = r42;
    r7_sroa_4_0 = a2;
    goto at__numbers_c_date_time_numbers_numbers_or_none_exit;
    }
    at__numbers_c_date_time_numbers_numbers_or_none_exit:;
    r15_fca_0_insert = (t_struct_i64_i32_end){0};
    r15_fca_0_insert.f0 = r7_sroa_0_0;
    r15_fca_1_insert = r15_fca_0_insert;
    r15_fca_1_insert.f1 = r7_sroa_4_0;
    return r15_fca_1_insert;
}

static uint32_t in_calendar_date_time_second_of_day(uint64_t a0, uint32_t a1)
{
    uint32_t r5_0, r47, r29, spec_select;
    uint64_t v0, r30, r45;
    uint8_t or_cond, r14, or_cond_2, r25, r31_not, or_cond11_i_not;
    v0 = (uint64_t)(a0 + UINT64_C(18446735863442674816));
    or_cond = v0 < UINT64_C(18446727528841446016);
    r14 = a1 > 1999999999u;
    or_cond_2 = (uint8_t)(((uint32_t)or_cond | (uint32_t)r14) & 1);
    if (or_cond_2) { { r5_0 = 2147483648u; goto at__join_4; } }
    goto at__after_1;
    at__after_1:;
    r30 = (uint64_t)(a0 + UINT64_C(8334601228800));
    r45 = (uint64_t)(r30 % UINT64_C(86400));
    r47 = (uint32_t)(r45);
    r25 = a1 > 999999999u;
    r29 = (uint32_t)(r47 % 60u);
    r31_not = r29 != 59u;
    or_cond11_i_not = (uint8_t)(((uint32_t)r25 & (uint32_t)r31_not) & 1);
    spec_select = or_cond11_i_not ? 2147483648u : r47;
    {
    r5_0 = spec_select;
    goto at__join_4;
    }
    at__join_4:;
    return r5_0;
}

static t_struct_i32_i32_end in_calendar_date_time_time(uint64_t a0, uint32_t a1)
{
    t_struct_i32_i32_end r21_pn, r22_fca_0_insert, r22_fca_1_insert;
    uint64_t v0, r30, r45;
    uint8_t or_cond, r14, or_cond_2, r25, r31_not, or_cond11_i_not;
    uint32_t r47, r29;
    v0 = (uint64_t)(a0 + UINT64_C(18446735863442674816));
    or_cond = v0 < UINT64_C(18446727528841446016);
    r14 = a1 > 1999999999u;
    or_cond_2 = (uint8_t)(((uint32_t)or_cond | (uint32_t)r14) & 1);
    if (or_cond_2) { { r21_pn = (t_struct_i32_i32_end){0, 4294967295u}; goto at__join_4; } }
    goto at__after_1;
    at__after_1:;
    r30 = (uint64_t)(a0 + UINT64_C(8334601228800));
    r45 = (uint64_t)(r30 % UINT64_C(86400));
    r47 = (uint32_t)(r45);
    r25 = a1 > 999999999u;
    r29 = (uint32_t)(r47 % 60u);
    r31_not = r29 != 59u;
    or_cond11_i_not = (uint8_t)(((uint32_t)r25 & (uint32_t)r31_not) & 1);
    if (or_cond11_i_not) { { r21_pn = (t_struct_i32_i32_end){0, 4294967295u}; goto at__join_4; } }
    goto at__arm_1;
    at__arm_1:;
    r22_fca_0_insert = (t_struct_i32_i32_end){0};
    r22_fca_0_insert.f0 = r47;
    r22_fca_1_insert = r22_fca_0_insert;
    r22_fca_1_insert.f1 = a1;
    {
    r21_pn = r22_fca_1_insert;
    goto at__join_4;
    }
    at__join_4:;
    return r21_pn;
}

static uint32_t in_calendar_day(uint32_t a0)
{
    uint32_t r3_0, v0, r17, r11, r13, r3, r71_i2, r10, r16;
    uint8_t or_cond;
    uint64_t r6, r8, r17_2, r25, r27;
    uint16_t r29, r6_2, r8_2, r144, narrow;
    v0 = (uint32_t)(a0 + 95746129u);
    or_cond = v0 < 191491529u;
    if (or_cond) { goto at__arm_1; }
    { r3_0 = 2147483648u; goto at__join_4; }
    at__arm_1:;
    r17 = (uint32_t)(a0 << 2);
    r11 = (uint32_t)(r17 + 383359751u);
    r13 = (uint32_t)(r11 / 146097u);
    r3 = (uint32_t)(r13 * 3);
    r71_i2 = (uint32_t)(r3 + r11);
    r10 = (uint32_t)(r71_i2 | 3);
    r6 = (uint64_t)r10;
    r8 = (uint64_t)(r6 * UINT64_C(376287347));
    r17_2 = (uint64_t)(r8 & UINT64_C(549755813885));
    r25 = (uint64_t)(r17_2 * UINT64_C(1461));
    r27 = (uint64_t)(r25 >> (UINT64_C(41) & 63u));
    r29 = (uint16_t)(r27);
    r6_2 = (uint16_t)((uint32_t)r29 * (uint32_t)2141u);
    r8_2 = (uint16_t)((uint32_t)r6_2 + (uint32_t)1305u);
    r144 = (uint16_t)((uint32_t)r8_2 / (uint32_t)2141u);
    narrow = (uint16_t)((uint32_t)r144 + (uint32_t)1);
    r16 = (uint32_t)narrow;
    {
    r3_0 = r16;
    goto at__join_4;
    }
    at__join_4:;
    return r3_0;
}

static uint32_t in_calendar_days_in_month(uint32_t a0, uint32_t a1)
{
    uint32_t r3_0_in_in, common_ret_op, switch_tableidx, v1, r6, r12, v2, r1, r24, r91, r11, r17;
    uint8_t v0, spec_select, or_cond, r8, r18, r3_0_in;
    switch_tableidx = (uint32_t)(a1 + 4294967295u);
    v0 = switch_tableidx < 12u;
    v1 = (uint32_t)(a0 + 262143u);
    spec_select = v1 < 524286u;
    or_cond = (uint8_t)(((uint32_t)spec_select & (uint32_t)v0) & 1);
    if (or_cond) { goto at__then_1; }
    { common_ret_op = 2147483648u; goto at__common_ret; }
    at__then_1:;
    r6 = (uint32_t)((int32_t)a0 % (int32_t)100u);
    r8 = r6 == 0;
    if (r8) { goto at__then_1_2; }
    goto at__else_2;
    at__then_1_2:;
    r12 = (uint32_t)((int32_t)a0 % (int32_t)400u);
    {
    r3_0_in_in = r12;
    goto at__chrono_units_year_is_leap_year_exit_i;
    }
    at__else_2:;
    v2 = (uint32_t)(a0 & 3);
    {
    r3_0_in_in = v2;
    goto at__chrono_units_year_is_leap_year_exit_i;
    }
    at__chrono_units_year_is_leap_year_exit_i:;
    r18 = a1 == 2;
    if (r18) { goto at__then_1_i3; }
    goto at__else_2_i2;
    at__then_1_i3:;
    r3_0_in = r3_0_in_in == 0;
    r1 = (uint32_t)r3_0_in;
    r24 = (uint32_t)(r1 | 28u);
    {
    common_ret_op = r24;
    goto at__common_ret;
    }
    at__else_2_i2:;
    r91 = (uint32_t)(a1 >> 3);
    r11 = (uint32_t)(r91 + a1);
    r17 = (uint32_t)(r11 | 30u);
    {
    common_ret_op = r17;
    goto at__common_ret;
    }
    at__common_ret:;
    return common_ret_op;
}

static uint32_t in_calendar_days_until(uint8_t a0, uint32_t a1)
{
    uint32_t common_ret_op, r2, r1, r18, r23, r25;
    uint8_t v0, spec_select_i23, r3;
    r2 = (uint32_t)(a1 + 4294967295u);
    v0 = r2 < 7;
    if (v0) { goto at__arm_1; }
    { common_ret_op = 2147483648u; goto at__common_ret; }
    at__arm_1:;
    spec_select_i23 = (uint8_t)((uint32_t)a0 & (uint32_t)127u);
    r3 = spec_select_i23 == 0;
    if (r3) { { common_ret_op = 2147483648u; goto at__common_ret; } }
    goto at__1;
    at__1:;
    r1 = (uint32_t)spec_select_i23;
    r18 = (uint32_t)(r1 * 129u);
    r23 = (uint32_t)(r18 >> (r2 & 31u));
    r25 = (uint32_t)(r23 ? TRAILING(r23) : 32u);
    {
    common_ret_op = r25;
    goto at__common_ret;
    }
    at__common_ret:;
    return common_ret_op;
}

static uint32_t in_calendar_every_months(uint32_t a0, uint32_t a1, uint32_t a2)
{
    uint32_t r3_0_in_in, r10_0, r3_0, v0, r5, r11, r13, r3, r71_i2, r10, r12, r29, r6_i_i_i_i4, r8_i_i_i_i5, r103, r30, r33, r35, r50, r16, r15, r6_i_i5, r18, v2, r5_2, r71, r24, r5_i10, r71_i11, a1_a0, r6_i_i_i7, r12_i_i_i9, v3, x, r14, r16_2, r183, r23, reass_sub, r26, r48, r54;
    uint8_t or_cond, or_cond_2, r33_i6, r8_i_i_i8, r3_0_in;
    uint64_t r1, r1_i1, r9, r6, r8, r10_i4, r17, r25, r27, r1_2, r6_i_i2, v1;
    uint16_t r14_lhs_trunc, r144, narrow;
    v0 = (uint32_t)(a0 + 95746129u);
    or_cond = v0 < 191491529u;
    if (or_cond) { goto at__arm_1; }
    { r3_0 = 2147483648u; goto at__join_4; }
    at__arm_1:;
    r1 = (uint64_t)((uint64_t)(int32_t)a1);
    r1_i1 = (uint64_t)a2;
    r9 = (uint64_t)(r1_i1 * r1);
    r5 = (uint32_t)(a0 << 2);
    r11 = (uint32_t)(r5 + 383359751u);
    r13 = (uint32_t)(r11 / 146097u);
    r3 = (uint32_t)(r13 * 3);
    r71_i2 = (uint32_t)(r3 + r11);
    r10 = (uint32_t)(r71_i2 | 3);
    r6 = (uint64_t)r10;
    r8 = (uint64_t)(r6 * UINT64_C(376287347));
    r10_i4 = (uint64_t)(r8 >> (UINT64_C(39) & 63u));
    r12 = (uint32_t)(r10_i4);
    r17 = (uint64_t)(r8 & UINT64_C(549755813885));
    r25 = (uint64_t)(r17 * UINT64_C(1461));
    r27 = (uint64_t)(r25 >> (UINT64_C(41) & 63u));
    r29 = (uint32_t)(r27);
    r6_i_i_i_i4 = (uint32_t)(r29 * 2141u);
    r8_i_i_i_i5 = (uint32_t)(r6_i_i_i_i4 + 197913u);
    r103 = (uint32_t)(r8_i_i_i_i5 >> 16u);
    r30 = (uint32_t)(r12 * 12u);
    r33 = (uint32_t)(r30 + 4294967293u);
    r35 = (uint32_t)(r33 + r103);
    r1_2 = (uint64_t)r35;
    r6_i_i2 = (uint64_t)(r9 + r1_2);
    v1 = (uint64_t)(r6_i_i2 + UINT64_C(18446744073709548534));
    or_cond_2 = v1 < UINT64_C(6291432);
    r50 = (uint32_t)(r6_i_i2);
    if (or_cond_2) { goto at__arm_1_2; }
    { r3_0 = 2147483648u; goto at__join_4; }
    at__arm_1_2:;
    r14_lhs_trunc = (uint16_t)(r8_i_i_i_i5);
    r144 = (uint16_t)((uint32_t)r14_lhs_trunc / (uint32_t)2141u);
    narrow = (uint16_t)((uint32_t)r144 + (uint32_t)1);
    r16 = (uint32_t)narrow;
    r15 = (uint32_t)(r50 / 12u);
    r6_i_i5 = (uint32_t)(r15 + 4294704897u);
    r18 = (uint32_t)(r50 % 12u);
    v2 = (uint32_t)(r18 * 979u);
    r5_2 = (uint32_t)(v2 + 18u);
    r71 = (uint32_t)(r5_2 >> 5);
    r24 = (uint32_t)(r71 + r16);
    r5_i10 = (uint32_t)(v2 + 997u);
    r71_i11 = (uint32_t)(r5_i10 >> 5);
    a1_a0 = r71_i11 < r24 ? r71_i11 : r24;
    r33_i6 = a1_a0 > 365u;
    if (r33_i6) { goto at__then_1; }
    { r10_0 = a1_a0; goto at__chrono_stored_march_day_number_within_exit_i_i_i_i; }
    at__then_1:;
    r6_i_i_i7 = (uint32_t)((int32_t)r6_i_i5 % (int32_t)100u);
    r8_i_i_i8 = r6_i_i_i7 == 0;
    if (r8_i_i_i8) { goto at__then_1_2; }
    goto at__else_2;
    at__then_1_2:;
    r12_i_i_i9 = (uint32_t)((int32_t)r6_i_i5 % (int32_t)400u);
    {
    r3_0_in_in = r12_i_i_i9;
    goto at__chrono_units_year_year_length_exit_i_i_i_i_i;
    }
    at__else_2:;
    v3 = (uint32_t)(r6_i_i5 & 3);
    {
    r3_0_in_in = v3;
    goto at__chrono_units_year_year_length_exit_i_i_i_i_i;
    }
    at__chrono_units_year_year_length_exit_i_i_i_i_i:;
    r3_0_in = r3_0_in_in == 0;
    x = r3_0_in ? 366u : 365u;
    {
    r10_0 = x;
    goto at__chrono_stored_march_day_number_within_exit_i_i_i_i;
    }
    at__chrono_stored_march_day_number_within_exit_i_i_i_i:;
    r14 = (uint32_t)(r50 / 1200u);
    r16_2 = (uint32_t)(r15 * 1461u);
    r183 = (uint32_t)(r16_2 >> 2);
    r23 = (uint32_t)(r50 / 4800u);
    reass_sub = (uint32_t)(r23 - r14);
    r26 = (uint32_t)(reass_sub + 4199127358u);
    r48 = (uint32_t)(r26 + r183);
    r54 = (uint32_t)(r48 + r10_0);
    {
    r3_0 = r54;
    goto at__join_4;
    }
    at__join_4:;
    return r3_0;
}

static uint32_t in_calendar_first_on(uint32_t a0, uint8_t a1)
{
    uint32_t r3_0, v0, r5, r3, r1, r18, r23, r23_i_i_fr, r25, r48, v1;
    uint8_t or_cond, spec_select_i23, r3_i_i6_not_not, or_cond1;
    v0 = (uint32_t)(a0 + 95746129u);
    or_cond = v0 < 191491529u;
    if (or_cond) { goto at__arm_1; }
    { r3_0 = 2147483648u; goto at__join_4; }
    at__arm_1:;
    spec_select_i23 = (uint8_t)((uint32_t)a1 & (uint32_t)127u);
    r3_i_i6_not_not = spec_select_i23 == 0;
    if (r3_i_i6_not_not) { { r3_0 = 2147483648u; goto at__join_4; } }
    goto at__chrono_calendar_forms_first_on_19d94ee6b5cf2102_exit_i;
    at__chrono_calendar_forms_first_on_19d94ee6b5cf2102_exit_i:;
    r5 = (uint32_t)(a0 + 95839631u);
    r3 = (uint32_t)(r5 % 7);
    r1 = (uint32_t)spec_select_i23;
    r18 = (uint32_t)(r1 * 129u);
    r23 = (uint32_t)(r18 >> (r3 & 31u));
    r23_i_i_fr = r23;
    r25 = (uint32_t)(r23_i_i_fr ? TRAILING(r23_i_i_fr) : 32u);
    r48 = (uint32_t)(r25 + a0);
    or_cond1 = (int32_t)r48 < (int32_t)95745400u;
    v1 = or_cond1 ? r48 : 2147483648u;
    {
    r3_0 = v1;
    goto at__join_4;
    }
    at__join_4:;
    return r3_0;
}

static uint32_t in_calendar_from_isoywd(uint32_t a0, uint32_t a1, uint32_t a2)
{
    uint32_t r3_0_in_in, r3_0_in_in_i_i30, r3_0_in_in_2, r3_0_in_in_i_i_i_i93, common_ret_op, r2, v1, v2, r11, r14, r16, r183, r23, r21, r26, r26_i_i_fr, r4, r52_v, r52, r6, r12, v3, x, r54, r57, r69, r71, r78, r6_i_i27, r12_i_i34, v4, i32, r84, r87, r89, r12_2, v5, x_2, r11_2, r14_2, r16_2, r183_2, r23_2, reass_sub, r26_2, r6_i_i3, r7, r99, r101, r111, v6, r11_i_i_i_i_i_i44, r14_i_i_i_i_i_i45, r16_i_i_i_i_i_i46, r183_i_i_i_i_i_i47, r23_i_i_i_i_i_i48, reass_sub2, r26_i_i_i_i_i_i50, r6_i_i3_i_i51, r7_i_i_i52, v7, r12_i_i_i_i98, v8, i_i_i95, r6_i_i3_i_i82, r7_i_i_i83;
    uint8_t v0, or_cond, or_cond26, or_cond100, r52_cmp_inv, r8, r3_0_in, r60, r74_not, r8_i_i28, r3_0_in_i_i31, spec_select, r10, r3_0_in_2, r16_i_i37, r104, spec_select_i_i38, r10_i_i42, or_cond101, spec_select_i_i69, r6_i_i70, or_cond_i71, r10_i_i73, r3_0_in_i_i_i_i94, r16_i_i96;
    r2 = (uint32_t)(a2 + 4294967295u);
    v0 = r2 < 7;
    if (v0) { goto at__arm_1; }
    { common_ret_op = 2147483648u; goto at__common_ret; }
    at__arm_1:;
    v1 = (uint32_t)(a0 + 4294705152u);
    or_cond = v1 < 4294443009u;
    v2 = (uint32_t)(a1 + 4294967242u);
    or_cond26 = v2 < 4294967243u;
    or_cond100 = (uint8_t)(((uint32_t)or_cond | (uint32_t)or_cond26) & 1);
    if (or_cond100) { { common_ret_op = 2147483648u; goto at__common_ret; } }
    goto at__after_12;
    at__after_12:;
    r11 = (uint32_t)(a0 + 262399u);
    r14 = (uint32_t)(r11 / 100u);
    r16 = (uint32_t)(r11 * 1461u);
    r183 = (uint32_t)(r16 >> 2);
    r23 = (uint32_t)(r11 / 400u);
    r21 = (uint32_t)(r23 - r14);
    r26 = (uint32_t)(r21 + r183);
    r26_i_i_fr = r26;
    r4 = (uint32_t)(r26_i_i_fr % 7);
    r52_cmp_inv = r4 > 3;
    r52_v = r52_cmp_inv ? 4294967292u : 3;
    r52 = (uint32_t)(r52_v + r4);
    r6 = (uint32_t)((int32_t)a0 % (int32_t)100u);
    r8 = r6 == 0;
    if (r8) { goto at__then_1; }
    goto at__else_2;
    at__then_1:;
    r12 = (uint32_t)((int32_t)a0 % (int32_t)400u);
    {
    r3_0_in_in = r12;
    goto at__chrono_units_year_year_length_exit_i_i;
    }
    at__else_2:;
    v3 = (uint32_t)(a0 & 3);
    {
    r3_0_in_in = v3;
    goto at__chrono_units_year_year_length_exit_i_i;
    }
    at__chrono_units_year_year_length_exit_i_i:;
    r3_0_in = r3_0_in_in == 0;
    x = r3_0_in ? 366u : 365u;
    r54 = (uint32_t)(a1 * 7);
    r57 = (uint32_t)(x + r52);
    r60 = r57 < r54;
    if (r60) { { common_ret_op = 2147483648u; goto at__common_ret; } }
    goto at__join_24;
    at__join_24:;
    r69 = (uint32_t)(r2 + r54);
    r71 = (uint32_t)(r52 + 3);
    r74_not = r69 > r71;
    if (r74_not) { goto at__join_27; }
    goto at__then_25;
    at__then_25:;
    r78 = (uint32_t)(a0 + 4294967295u);
    r6_i_i27 = (uint32_t)((int32_t)r78 % (int32_t)100u);
    r8_i_i28 = r6_i_i27 == 0;
    if (r8_i_i28) { goto at__then_1_i_i33; }
    goto at__else_2_i_i29;
    at__then_1_i_i33:;
    r12_i_i34 = (uint32_t)((int32_t)r78 % (int32_t)400u);
    {
    r3_0_in_in_i_i30 = r12_i_i34;
    goto at__chrono_units_year_year_length_exit35_i_i;
    }
    at__else_2_i_i29:;
    v4 = (uint32_t)(r78 & 3);
    {
    r3_0_in_in_i_i30 = v4;
    goto at__chrono_units_year_year_length_exit35_i_i;
    }
    at__chrono_units_year_year_length_exit35_i_i:;
    r3_0_in_i_i31 = r3_0_in_in_i_i30 == 0;
    i32 = r3_0_in_i_i31 ? 366u : 365u;
    r84 = (uint32_t)(r69 - r52);
    r87 = (uint32_t)(i32 + r84);
    r89 = (uint32_t)(r87 + 4294967293u);
    spec_select = (int32_t)a0 < (int32_t)4294705154u;
    if (spec_select) { { common_ret_op = 2147483648u; goto at__common_ret; } }
    goto at__else_4;
    at__else_4:;
    r10 = r87 > 368u;
    if (r10) { goto at__then_6; }
    goto at__after_1;
    at__then_6:;
    if (r8_i_i28) { goto at__then_1_2; }
    goto at__else_2_2;
    at__then_1_2:;
    r12_2 = (uint32_t)((int32_t)r78 % (int32_t)400u);
    {
    r3_0_in_in_2 = r12_2;
    goto at__join_8;
    }
    at__else_2_2:;
    v5 = (uint32_t)(r78 & 3);
    {
    r3_0_in_in_2 = v5;
    goto at__join_8;
    }
    at__join_8:;
    r3_0_in_2 = r3_0_in_in_2 == 0;
    x_2 = r3_0_in_2 ? 366u : 365u;
    r16_i_i37 = x_2 < r89;
    if (r16_i_i37) { { common_ret_op = 2147483648u; goto at__common_ret; } }
    goto at__after_1;
    at__after_1:;
    r11_2 = (uint32_t)(a0 + 262398u);
    r14_2 = (uint32_t)(r11_2 / 100u);
    r16_2 = (uint32_t)(r11_2 * 1461u);
    r183_2 = (uint32_t)(r16_2 >> 2);
    r23_2 = (uint32_t)(r11_2 / 400u);
    reass_sub = (uint32_t)(r23_2 - r14_2);
    r26_2 = (uint32_t)(reass_sub + 4199127661u);
    r6_i_i3 = (uint32_t)(r26_2 + r183_2);
    r7 = (uint32_t)(r6_i_i3 + r87);
    {
    common_ret_op = r7;
    goto at__common_ret;
    }
    at__join_27:;
    r99 = (uint32_t)(r69 - r52);
    r101 = (uint32_t)(r99 + 4294967293u);
    r104 = x < r101;
    if (r104) { goto at__then_28; }
    goto at__join_30;
    at__then_28:;
    r111 = (uint32_t)(r101 - x);
    v6 = (uint32_t)(a0 + 4294705154u);
    spec_select_i_i38 = v6 < 4294443010u;
    r10_i_i42 = r111 > 365u;
    or_cond101 = spec_select_i_i38 ? 1 : r10_i_i42;
    if (or_cond101) { { common_ret_op = 2147483648u; goto at__common_ret; } }
    goto at__after_1_i_i43;
    at__after_1_i_i43:;
    r11_i_i_i_i_i_i44 = (uint32_t)(a0 + 262400u);
    r14_i_i_i_i_i_i45 = (uint32_t)(r11_i_i_i_i_i_i44 / 100u);
    r16_i_i_i_i_i_i46 = (uint32_t)(r11_i_i_i_i_i_i44 * 1461u);
    r183_i_i_i_i_i_i47 = (uint32_t)(r16_i_i_i_i_i_i46 >> 2);
    r23_i_i_i_i_i_i48 = (uint32_t)(r11_i_i_i_i_i_i44 / 400u);
    reass_sub2 = (uint32_t)(r23_i_i_i_i_i_i48 - r14_i_i_i_i_i_i45);
    r26_i_i_i_i_i_i50 = (uint32_t)(reass_sub2 + 4199127664u);
    r6_i_i3_i_i51 = (uint32_t)(r26_i_i_i_i_i_i50 + r183_i_i_i_i_i_i47);
    r7_i_i_i52 = (uint32_t)(r6_i_i3_i_i51 + r111);
    {
    common_ret_op = r7_i_i_i52;
    goto at__common_ret;
    }
    at__join_30:;
    v7 = (uint32_t)(a0 + 4294705153u);
    spec_select_i_i69 = v7 < 4294443010u;
    r6_i_i70 = r101 == 0;
    or_cond_i71 = (uint8_t)(((uint32_t)spec_select_i_i69 | (uint32_t)r6_i_i70) & 1);
    if (or_cond_i71) { { common_ret_op = 2147483648u; goto at__common_ret; } }
    goto at__else_4_i_i72;
    at__else_4_i_i72:;
    r10_i_i73 = r99 > 368u;
    if (r10_i_i73) { goto at__then_6_i_i88; }
    goto at__after_1_i_i74;
    at__then_6_i_i88:;
    if (r8) { goto at__then_1_i_i_i_i97; }
    goto at__else_2_i_i_i_i91;
    at__then_1_i_i_i_i97:;
    r12_i_i_i_i98 = (uint32_t)((int32_t)a0 % (int32_t)400u);
    {
    r3_0_in_in_i_i_i_i93 = r12_i_i_i_i98;
    goto at__join_8_i_i92;
    }
    at__else_2_i_i_i_i91:;
    v8 = (uint32_t)(a0 & 3);
    {
    r3_0_in_in_i_i_i_i93 = v8;
    goto at__join_8_i_i92;
    }
    at__join_8_i_i92:;
    r3_0_in_i_i_i_i94 = r3_0_in_in_i_i_i_i93 == 0;
    i_i_i95 = r3_0_in_i_i_i_i94 ? 366u : 365u;
    r16_i_i96 = i_i_i95 < r101;
    if (r16_i_i96) { { common_ret_op = 2147483648u; goto at__common_ret; } }
    goto at__after_1_i_i74;
    at__after_1_i_i74:;
    r6_i_i3_i_i82 = (uint32_t)(r26_i_i_fr + 4199127661u);
    r7_i_i_i83 = (uint32_t)(r6_i_i3_i_i82 + r99);
    {
    common_ret_op = r7_i_i_i83;
    goto at__common_ret;
    }
    at__common_ret:;
    return common_ret_op;
}

static uint32_t in_calendar_from_weekday_of_month(uint32_t a0, uint32_t a1, uint32_t a2, uint32_t a3)
{
    uint32_t common_ret_op, r3_0_in_in_i_i_i_i46, r2, r7_sroa_4_03, v1, r36, r6_0, r3, r5, r71, r5_i12, r71_i13, old, r3_0, r13, r11, r23, r14, reass_sub, narrow, r24, r16, r183, v2, v3, v4, r19_2, r19_pn, r52, r55, r57, r6_i_i_i_i42, r12_i_i_i_i53, v5, r91_i_i29, r26_i_i_i_i_i38, r18_i_i_i39, r24_i_i_i40;
    uint8_t v0, r12, r19, or_cond, or_cond56, r32, r58, spec_select_i_old, or_cond_2, r14_2, r46, r58_i_i20, or_cond57, r66_i_i22, r8_i_i_i_i43, r3_0_in_i_i_i_i47, r75_i_i49_not;
    uint64_t r1_i_i_i15, r1_i10, r45_i_i16, r1_i14_i_i19, i_i_i48;
    r2 = (uint32_t)(a2 + 4294967295u);
    v0 = r2 < 7;
    if (v0) { goto at__arm_1; }
    { common_ret_op = 2147483648u; goto at__common_ret; }
    at__arm_1:;
    r12 = a3 < 256u;
    r7_sroa_4_03 = a3 < 256u ? a3 : 256u;
    if (r12) { goto at__arm_5; }
    { common_ret_op = 2147483648u; goto at__common_ret; }
    at__common_ret:;
    return common_ret_op;
    at__arm_5:;
    r19 = a3 == 0;
    v1 = (uint32_t)(a1 + 4294967283u);
    or_cond = v1 < 4294967284u;
    or_cond56 = (uint8_t)(((uint32_t)or_cond | (uint32_t)r19) & 1);
    if (or_cond56) { { common_ret_op = 2147483648u; goto at__common_ret; } }
    goto at__after_1;
    at__after_1:;
    r32 = a1 > 2;
    r36 = (uint32_t)(a1 | 12u);
    r6_0 = r32 ? a1 : r36;
    r3 = (uint32_t)(r6_0 * 979u);
    r5 = (uint32_t)(r3 + 4294964377u);
    r71 = (uint32_t)(r5 >> 5);
    r5_i12 = (uint32_t)(r3 + 4294965356u);
    r71_i13 = (uint32_t)(r5_i12 >> 5);
    r58 = r71 < r71_i13;
    old = (uint32_t)(a0 + 262143u);
    spec_select_i_old = old < 524286u;
    or_cond_2 = (uint8_t)(((uint32_t)spec_select_i_old & (uint32_t)r58) & 1);
    if (or_cond_2) { goto at__after_1_i_i8; }
    { common_ret_op = 2147483648u; goto at__common_ret; }
    at__after_1_i_i8:;
    r3_0 = (uint32_t)(a0 + 262399u);
    r13 = (uint32_t)r32;
    r11 = (uint32_t)(r3_0 + r13);
    r23 = (uint32_t)(r11 / 400u);
    r14 = (uint32_t)(r11 / 100u);
    reass_sub = (uint32_t)(r23 - r14);
    narrow = (uint32_t)(reass_sub + 4294966990u);
    r24 = (uint32_t)(narrow + r71);
    r16 = (uint32_t)(r11 * 1461u);
    r183 = (uint32_t)(r16 >> 2);
    v2 = (uint32_t)(r24 + r183);
    v3 = (uint32_t)(v2 % 7);
    v4 = (uint32_t)(r7_sroa_4_03 * 7);
    r14_2 = r2 < v3;
    r19_2 = (uint32_t)(a2 + 6);
    r19_pn = r14_2 ? r19_2 : r2;
    r52 = (uint32_t)(v4 + 4294967290u);
    r55 = (uint32_t)(r52 - v3);
    r57 = (uint32_t)(r55 + r19_pn);
    r1_i_i_i15 = (uint64_t)r71;
    r1_i10 = (uint64_t)r57;
    r45_i_i16 = (uint64_t)(r1_i10 + r1_i_i_i15);
    r46 = r57 == 0;
    r1_i14_i_i19 = (uint64_t)r71_i13;
    r58_i_i20 = r45_i_i16 > r1_i14_i_i19;
    or_cond57 = r46 ? 1 : r58_i_i20;
    if (or_cond57) { { common_ret_op = 2147483648u; goto at__common_ret; } }
    goto at__after_15_i_i21;
    at__after_15_i_i21:;
    r66_i_i22 = r45_i_i16 > UINT64_C(365);
    if (r66_i_i22) { goto at__then_26_i_i41; }
    goto at__6;
    at__then_26_i_i41:;
    r6_i_i_i_i42 = (uint32_t)((int32_t)a0 % (int32_t)100u);
    r8_i_i_i_i43 = r6_i_i_i_i42 == 0;
    if (r8_i_i_i_i43) { goto at__then_1_i_i_i_i52; }
    goto at__else_2_i_i_i_i44;
    at__then_1_i_i_i_i52:;
    r12_i_i_i_i53 = (uint32_t)((int32_t)a0 % (int32_t)400u);
    {
    r3_0_in_in_i_i_i_i46 = r12_i_i_i_i53;
    goto at__chrono_units_year_year_length_exit_i_i45_i_i;
    }
    at__else_2_i_i_i_i44:;
    v5 = (uint32_t)(a0 & 3);
    {
    r3_0_in_in_i_i_i_i46 = v5;
    goto at__chrono_units_year_year_length_exit_i_i45_i_i;
    }
    at__chrono_units_year_year_length_exit_i_i45_i_i:;
    r3_0_in_i_i_i_i47 = r3_0_in_in_i_i_i_i46 == 0;
    i_i_i48 = r3_0_in_i_i_i_i47 ? UINT64_C(366) : UINT64_C(365);
    r75_i_i49_not = i_i_i48 < r45_i_i16;
    if (r75_i_i49_not) { { common_ret_op = 2147483648u; goto at__common_ret; } }
    goto at__6;
    at__6:;
    r91_i_i29 = (uint32_t)(r45_i_i16);
    r26_i_i_i_i_i38 = (uint32_t)(r183 + reass_sub);
    r18_i_i_i39 = (uint32_t)(r26_i_i_i_i_i38 + 4199127358u);
    r24_i_i_i40 = (uint32_t)(r18_i_i_i39 + r91_i_i29);
    {
    common_ret_op = r24_i_i_i40;
    goto at__common_ret;
    }
}

static uint32_t in_calendar_from_ymd(uint32_t a0, uint32_t a1, uint32_t a2)
{
    uint32_t r3_0_in_in, spec_select4, v0, r36, r6_0, r3, r5, r71, r5_i12, r71_i13, r6, r12, v1, v2, old, r91, r13, r3_0, r11, r14, r16, r183, r23, reass_sub, r26, r18, r24;
    uint8_t or_cond, r32, r46, r58, r66, r8, r3_0_in, r75, spec_select, or_cond16, spec_select_i_old;
    uint64_t r1, r1_i10, r45, r1_i14, x;
    v0 = (uint32_t)(a1 + 4294967283u);
    or_cond = v0 < 4294967284u;
    if (or_cond) { { spec_select4 = 2147483648u; goto at__chrono_naive_naive_date_NaiveDate_from_ymd_opt_exit; } }
    goto at__after_1;
    at__after_1:;
    r32 = a1 > 2;
    r36 = (uint32_t)(a1 | 12u);
    r6_0 = r32 ? a1 : r36;
    r3 = (uint32_t)(r6_0 * 979u);
    r5 = (uint32_t)(r3 + 4294964377u);
    r71 = (uint32_t)(r5 >> 5);
    r1 = (uint64_t)r71;
    r1_i10 = (uint64_t)a2;
    r45 = (uint64_t)(r1 + r1_i10);
    r46 = a2 == 0;
    if (r46) { { spec_select4 = 2147483648u; goto at__chrono_naive_naive_date_NaiveDate_from_ymd_opt_exit; } }
    goto at__else_18;
    at__else_18:;
    r5_i12 = (uint32_t)(r3 + 4294965356u);
    r71_i13 = (uint32_t)(r5_i12 >> 5);
    r1_i14 = (uint64_t)r71_i13;
    r58 = r45 > r1_i14;
    if (r58) { { spec_select4 = 2147483648u; goto at__chrono_naive_naive_date_NaiveDate_from_ymd_opt_exit; } }
    goto at__after_15;
    at__after_15:;
    r66 = r45 > UINT64_C(365);
    if (r66) { goto at__then_26; }
    goto at__after_25;
    at__then_26:;
    r6 = (uint32_t)((int32_t)a0 % (int32_t)100u);
    r8 = r6 == 0;
    if (r8) { goto at__then_1; }
    goto at__else_2;
    at__then_1:;
    r12 = (uint32_t)((int32_t)a0 % (int32_t)400u);
    {
    r3_0_in_in = r12;
    goto at__chrono_units_year_year_length_exit_i_i_i;
    }
    at__else_2:;
    v1 = (uint32_t)(a0 & 3);
    {
    r3_0_in_in = v1;
    goto at__chrono_units_year_year_length_exit_i_i_i;
    }
    at__chrono_units_year_year_length_exit_i_i_i:;
    r3_0_in = r3_0_in_in == 0;
    x = r3_0_in ? UINT64_C(366) : UINT64_C(365);
    r75 = x >= r45;
    v2 = (uint32_t)(a0 + 262143u);
    spec_select = v2 < 524286u;
    or_cond16 = (uint8_t)(((uint32_t)spec_select & (uint32_t)r75) & 1);
    if (or_cond16) { goto at__3; }
    { spec_select4 = 2147483648u; goto at__chrono_naive_naive_date_NaiveDate_from_ymd_opt_exit; }
    at__after_25:;
    old = (uint32_t)(a0 + 262143u);
    spec_select_i_old = old < 524286u;
    if (spec_select_i_old) { goto at__3; }
    { spec_select4 = 2147483648u; goto at__chrono_naive_naive_date_NaiveDate_from_ymd_opt_exit; }
    at__3:;
    r91 = (uint32_t)(r45);
    r13 = (uint32_t)r32;
    r3_0 = (uint32_t)(a0 + 262399u);
    r11 = (uint32_t)(r3_0 + r13);
    r14 = (uint32_t)(r11 / 100u);
    r16 = (uint32_t)(r11 * 1461u);
    r183 = (uint32_t)(r16 >> 2);
    r23 = (uint32_t)(r11 / 400u);
    reass_sub = (uint32_t)(r23 - r14);
    r26 = (uint32_t)(reass_sub + 4199127358u);
    r18 = (uint32_t)(r26 + r183);
    r24 = (uint32_t)(r18 + r91);
    {
    spec_select4 = r24;
    goto at__chrono_naive_naive_date_NaiveDate_from_ymd_opt_exit;
    }
    at__chrono_naive_naive_date_NaiveDate_from_ymd_opt_exit:;
    return spec_select4;
}

static uint8_t chrono_naive_naive_date_NaiveDate_from_ymd_opt(uint32_t a0, uint32_t a1, uint32_t a2)
{
    uint32_t r3_0_in_in, v0, r36, r6_0, r3, r5, r71, r5_i12, r71_i13, r6, r12, v1, v2, old;
    uint8_t spec_select4, or_cond, r32, r46, r58, r66, r8, r3_0_in, r75, spec_select, or_cond16, spec_select_i_old;
    uint64_t r1, r1_i10, r45, r1_i14, x;
    v0 = (uint32_t)(a1 + 4294967283u);
    or_cond = v0 < 4294967284u;
    if (or_cond) { { spec_select4 = 0; goto at__chrono_stored_counted_CountedFormDayForm_from_ymd_exit_thread; } }
    goto at__after_1;
    at__after_1:;
    r32 = a1 > 2;
    r36 = (uint32_t)(a1 | 12u);
    r6_0 = r32 ? a1 : r36;
    r3 = (uint32_t)(r6_0 * 979u);
    r5 = (uint32_t)(r3 + 4294964377u);
    r71 = (uint32_t)(r5 >> 5);
    r1 = (uint64_t)r71;
    r1_i10 = (uint64_t)a2;
    r45 = (uint64_t)(r1 + r1_i10);
    r46 = a2 == 0;
    if (r46) { { spec_select4 = 0; goto at__chrono_stored_counted_CountedFormDayForm_from_ymd_exit_thread; } }
    goto at__else_18;
    at__else_18:;
    r5_i12 = (uint32_t)(r3 + 4294965356u);
    r71_i13 = (uint32_t)(r5_i12 >> 5);
    r1_i14 = (uint64_t)r71_i13;
    r58 = r45 > r1_i14;
    if (r58) { { spec_select4 = 0; goto at__chrono_stored_counted_CountedFormDayForm_from_ymd_exit_thread; } }
    goto at__after_15;
    at__after_15:;
    r66 = r45 > UINT64_C(365);
    if (r66) { goto at__then_26; }
    goto at__after_25;
    at__then_26:;
    r6 = (uint32_t)((int32_t)a0 % (int32_t)100u);
    r8 = r6 == 0;
    if (r8) { goto at__then_1; }
    goto at__else_2;
    at__then_1:;
    r12 = (uint32_t)((int32_t)a0 % (int32_t)400u);
    {
    r3_0_in_in = r12;
    goto at__chrono_units_year_year_length_exit_i_i;
    }
    at__else_2:;
    v1 = (uint32_t)(a0 & 3);
    {
    r3_0_in_in = v1;
    goto at__chrono_units_year_year_length_exit_i_i;
    }
    at__chrono_units_year_year_length_exit_i_i:;
    r3_0_in = r3_0_in_in == 0;
    x = r3_0_in ? UINT64_C(366) : UINT64_C(365);
    r75 = x >= r45;
    v2 = (uint32_t)(a0 + 262143u);
    spec_select = v2 < 524286u;
    or_cond16 = (uint8_t)(((uint32_t)spec_select & (uint32_t)r75) & 1);
    if (or_cond16) { goto at__3; }
    { spec_select4 = 0; goto at__chrono_stored_counted_CountedFormDayForm_from_ymd_exit_thread; }
    at__after_25:;
    old = (uint32_t)(a0 + 262143u);
    spec_select_i_old = old < 524286u;
    if (spec_select_i_old) { goto at__3; }
    { spec_select4 = 0; goto at__chrono_stored_counted_CountedFormDayForm_from_ymd_exit_thread; }
    at__3:;
    {
    spec_select4 = 1;
    goto at__chrono_stored_counted_CountedFormDayForm_from_ymd_exit_thread;
    }
    at__chrono_stored_counted_CountedFormDayForm_from_ymd_exit_thread:;
    return spec_select4;
}

static uint32_t in_calendar_from_yo(uint32_t a0, uint32_t a1)
{
    uint32_t r3_0_in_in, spec_select4, v0, r6_2, r12, v1, x, r11, r14, r16_2, r183, r23, reass_sub, r26, r6_i_i3, r7;
    uint8_t spec_select, r6, or_cond, r10, r8, r3_0_in, r16;
    v0 = (uint32_t)(a0 + 4294705153u);
    spec_select = v0 < 4294443010u;
    r6 = a1 == 0;
    or_cond = (uint8_t)(((uint32_t)spec_select | (uint32_t)r6) & 1);
    if (or_cond) { { spec_select4 = 2147483648u; goto at__chrono_naive_naive_date_NaiveDate_from_yo_opt_exit; } }
    goto at__else_4;
    at__else_4:;
    r10 = a1 > 365u;
    if (r10) { goto at__then_6; }
    goto at__2;
    at__then_6:;
    r6_2 = (uint32_t)((int32_t)a0 % (int32_t)100u);
    r8 = r6_2 == 0;
    if (r8) { goto at__then_1; }
    goto at__else_2;
    at__then_1:;
    r12 = (uint32_t)((int32_t)a0 % (int32_t)400u);
    {
    r3_0_in_in = r12;
    goto at__join_8;
    }
    at__else_2:;
    v1 = (uint32_t)(a0 & 3);
    {
    r3_0_in_in = v1;
    goto at__join_8;
    }
    at__join_8:;
    r3_0_in = r3_0_in_in == 0;
    x = r3_0_in ? 366u : 365u;
    r16 = x < a1;
    if (r16) { { spec_select4 = 2147483648u; goto at__chrono_naive_naive_date_NaiveDate_from_yo_opt_exit; } }
    goto at__2;
    at__2:;
    r11 = (uint32_t)(a0 + 262399u);
    r14 = (uint32_t)(r11 / 100u);
    r16_2 = (uint32_t)(r11 * 1461u);
    r183 = (uint32_t)(r16_2 >> 2);
    r23 = (uint32_t)(r11 / 400u);
    reass_sub = (uint32_t)(a1 + 4199127664u);
    r26 = (uint32_t)(reass_sub - r14);
    r6_i_i3 = (uint32_t)(r26 + r23);
    r7 = (uint32_t)(r6_i_i3 + r183);
    {
    spec_select4 = r7;
    goto at__chrono_naive_naive_date_NaiveDate_from_yo_opt_exit;
    }
    at__chrono_naive_naive_date_NaiveDate_from_yo_opt_exit:;
    return spec_select4;
}

static uint8_t in_calendar_is_leap_year(uint32_t a0)
{
    uint32_t r3_0_in_in, r6, r12, v0;
    uint8_t r8, r3_0_in;
    r6 = (uint32_t)((int32_t)a0 % (int32_t)100u);
    r8 = r6 == 0;
    if (r8) { goto at__then_1; }
    goto at__else_2;
    at__then_1:;
    r12 = (uint32_t)((int32_t)a0 % (int32_t)400u);
    {
    r3_0_in_in = r12;
    goto at__chrono_units_year_is_leap_year_exit;
    }
    at__else_2:;
    v0 = (uint32_t)(a0 & 3);
    {
    r3_0_in_in = v0;
    goto at__chrono_units_year_is_leap_year_exit;
    }
    at__chrono_units_year_is_leap_year_exit:;
    r3_0_in = r3_0_in_in == 0;
    return r3_0_in;
}

static uint32_t in_calendar_iso_week(uint32_t a0)
{
    uint32_t r3_0, v0, r5, r10, r10_i2, r12, r14, r3, r17, r5_2, r71_i2, r10_2, r34, r21;
    uint8_t or_cond;
    uint64_t r4, r6, r8, r6_2, r8_2, r17_2, r30, r32;
    v0 = (uint32_t)(a0 + 95746129u);
    or_cond = v0 < 191491529u;
    if (or_cond) { goto at__arm_1; }
    { r3_0 = 2147483648u; goto at__join_4; }
    at__arm_1:;
    r5 = (uint32_t)(a0 + 95839631u);
    r4 = (uint64_t)r5;
    r6 = (uint64_t)(r4 * UINT64_C(613566757));
    r8 = (uint64_t)(r6 >> (UINT64_C(32) & 63u));
    r10 = (uint32_t)(r8);
    r10_i2 = (uint32_t)(r10 << 2);
    r12 = (uint32_t)(r10_i2 | 2);
    r14 = (uint32_t)(r12 / 20871u);
    r3 = (uint32_t)(r14 * 3);
    r17 = (uint32_t)(r10 * 28u);
    r5_2 = (uint32_t)(r17 + 15u);
    r71_i2 = (uint32_t)(r5_2 + r3);
    r10_2 = (uint32_t)(r71_i2 | 3);
    r6_2 = (uint64_t)r10_2;
    r8_2 = (uint64_t)(r6_2 * UINT64_C(376287347));
    r17_2 = (uint64_t)(r8_2 & UINT64_C(549755813885));
    r30 = (uint64_t)(r17_2 * UINT64_C(27356599));
    r32 = (uint64_t)(r30 >> (UINT64_C(58) & 63u));
    r34 = (uint32_t)(r32);
    r21 = (uint32_t)(r34 + 1);
    {
    r3_0 = r21;
    goto at__join_4;
    }
    at__join_4:;
    return r3_0;
}

static uint32_t in_calendar_iso_year(uint32_t a0)
{
    uint32_t r3_0, v0, r5, r10, r10_i2, r12, r14, r3, r17, r5_2, r71_i2, r10_2, r12_2, r6_i3;
    uint8_t or_cond;
    uint64_t r4, r6, r8, r6_2, r8_2, r10_i5;
    v0 = (uint32_t)(a0 + 95746129u);
    or_cond = v0 < 191491529u;
    if (or_cond) { goto at__arm_1; }
    { r3_0 = 2147483648u; goto at__join_4; }
    at__arm_1:;
    r5 = (uint32_t)(a0 + 95839631u);
    r4 = (uint64_t)r5;
    r6 = (uint64_t)(r4 * UINT64_C(613566757));
    r8 = (uint64_t)(r6 >> (UINT64_C(32) & 63u));
    r10 = (uint32_t)(r8);
    r10_i2 = (uint32_t)(r10 << 2);
    r12 = (uint32_t)(r10_i2 | 2);
    r14 = (uint32_t)(r12 / 20871u);
    r3 = (uint32_t)(r14 * 3);
    r17 = (uint32_t)(r10 * 28u);
    r5_2 = (uint32_t)(r17 + 15u);
    r71_i2 = (uint32_t)(r5_2 + r3);
    r10_2 = (uint32_t)(r71_i2 | 3);
    r6_2 = (uint64_t)r10_2;
    r8_2 = (uint64_t)(r6_2 * UINT64_C(376287347));
    r10_i5 = (uint64_t)(r8_2 >> (UINT64_C(39) & 63u));
    r12_2 = (uint32_t)(r10_i5);
    r6_i3 = (uint32_t)(r12_2 + 4294704897u);
    {
    r3_0 = r6_i3;
    goto at__join_4;
    }
    at__join_4:;
    return r3_0;
}

static uint32_t in_calendar_month(uint32_t a0)
{
    uint32_t r3_0, v0, r17, r11, r13, r3, r71_i2, r10, r29, r6_2, r8_2, r103, r51, r10_sroa_4_0;
    uint8_t or_cond, r35;
    uint64_t r6, r8, r17_2, r25, r27;
    v0 = (uint32_t)(a0 + 95746129u);
    or_cond = v0 < 191491529u;
    if (or_cond) { goto at__arm_1; }
    { r3_0 = 2147483648u; goto at__join_4; }
    at__arm_1:;
    r17 = (uint32_t)(a0 << 2);
    r11 = (uint32_t)(r17 + 383359751u);
    r13 = (uint32_t)(r11 / 146097u);
    r3 = (uint32_t)(r13 * 3);
    r71_i2 = (uint32_t)(r3 + r11);
    r10 = (uint32_t)(r71_i2 | 3);
    r6 = (uint64_t)r10;
    r8 = (uint64_t)(r6 * UINT64_C(376287347));
    r17_2 = (uint64_t)(r8 & UINT64_C(549755813885));
    r25 = (uint64_t)(r17_2 * UINT64_C(1461));
    r27 = (uint64_t)(r25 >> (UINT64_C(41) & 63u));
    r29 = (uint32_t)(r27);
    r6_2 = (uint32_t)(r29 * 2141u);
    r8_2 = (uint32_t)(r6_2 + 197913u);
    r103 = (uint32_t)(r8_2 >> 16u);
    r35 = r17_2 < UINT64_C(460575712662);
    r51 = (uint32_t)(r103 + 4294967284u);
    r10_sroa_4_0 = r35 ? r103 : r51;
    {
    r3_0 = r10_sroa_4_0;
    goto at__join_4;
    }
    at__join_4:;
    return r3_0;
}

static uint32_t in_calendar_ordinal(uint32_t a0)
{
    uint32_t r3_0, v0, r5, r11, r13, r3, r71_i2, r10, r29, r18;
    uint8_t or_cond;
    uint64_t r6, r8, r17, r25, r27;
    v0 = (uint32_t)(a0 + 95746129u);
    or_cond = v0 < 191491529u;
    if (or_cond) { goto at__arm_1; }
    { r3_0 = 2147483648u; goto at__join_4; }
    at__arm_1:;
    r5 = (uint32_t)(a0 << 2);
    r11 = (uint32_t)(r5 + 383358527u);
    r13 = (uint32_t)(r11 / 146097u);
    r3 = (uint32_t)(r13 * 3);
    r71_i2 = (uint32_t)(r3 + r11);
    r10 = (uint32_t)(r71_i2 | 3);
    r6 = (uint64_t)r10;
    r8 = (uint64_t)(r6 * UINT64_C(376287347));
    r17 = (uint64_t)(r8 & UINT64_C(549755813885));
    r25 = (uint64_t)(r17 * UINT64_C(1461));
    r27 = (uint64_t)(r25 >> (UINT64_C(41) & 63u));
    r29 = (uint32_t)(r27);
    r18 = (uint32_t)(r29 + 1);
    {
    r3_0 = r18;
    goto at__join_4;
    }
    at__join_4:;
    return r3_0;
}

static uint32_t in_calendar_read_date(bytes a0, uint64_t a1)
{
    uint64_t r141140, r141139, r4_017, r5_016, r4_0_pn_i_i_i19, r182146, r182145, r4_01728, r5_01629, r4_0_pn_i_i_i1941, r141, r39, r1_i10, r44, r46, v5, r182, r3935, r1_i1036, r4437, r4638, v7, r45, x;
    bytes r138138, r138137, r179144, r179143, r6, v0, r37, r21_i_sroa_7_0_r5_sroa_3_0_copyload_i_sroa_idx, r21_i_sroa_8_0_r5_sroa_3_0_copyload_i_sroa_idx, r21_i_sroa_9_0_r5_sroa_3_0_copyload_i_sroa_idx, r21_i_sroa_6_0_r5_sroa_3_0_copyload_i_sroa_idx, r21_i_sroa_5_0_r5_sroa_3_0_copyload_i_sroa_idx, r817, r83, r138, r4216, r46_2, r4417, r25, r179, r4253, r4666, r4468, r2530;
    uint32_t r0_sroa_5_0175, r0_sroa_5_046181, r0_sroa_6_05, r3_0_in_in, spec_select102, r32_i17, v1, v2, r30_i3_sroa_5_0_insert_ext, r30_i3_sroa_5_0_insert_shift, r30_i3_sroa_0_0_insert_ext, r30_i3_sroa_5_0_insert_insert, r30_i3_sroa_0_0_insert_insert, r107, spec_select, r1_i5, r27, r1_i6, r32, r32_i20, v4, r98, r111, r10, r1_i561, r2762, r1_i663, r3264, r32_i2078, v6, r9879, r11143, a0_2, a1_94, r18_sroa_0_0_extract_trunc, r36, r6_0, r3, r5, r71, narrow160, r5_i12, r71_i13, r6_2, r12, v9, v10, old, r3_0, r11, r14, r16, r183, r23, reass_sub, r26, r18, r24;
    uint8_t r0_sroa_0_sroa_0_0_i6_shrunk, r17, r21_i_sroa_0_0_copyload, r21_i_sroa_7_0_copyload, r21_i_sroa_8_0_copyload, r21_i_sroa_9_0_copyload, cond, cond1, or_cond, r21_i_sroa_6_0_copyload, r21_i_sroa_5_0_copyload, r1_i4, r1, r12_2, r17_2, or_cond_not_i_not_not, r1_i4_i9, r1_i_i10, r12_i11, r17_i12, or_cond_not_i13_not_not, narrow, narrow169, narrow_2, narrow32, r76, r93, r106, v3, r135, r52, r54, r1_i4_2, r1_2, r12_3, r17_3, or_cond_not_i_not_not_2, r58, r5618, r1_i4_i12, r1_i_i13, r12_i14, r17_i15, or_cond_not_i16_not_not, narrow_3, narrow1, r28, r30, r37_2, spec_select_2, r27_2, r1_3, r31, exitcond_not, r22_i_i_not, or_cond14, r5_not, r5254, r5455, r1_i456, r157, r1258, r1759, or_cond_not_i_not_not60, r5867, r5669, r1_i4_i1270, r1_i_i1371, r12_i1472, r17_i1573, or_cond_not_i16_not_not74, narrow76, narrow177, r2881, r3082, r3783, spec_select84, r2731, r132, r3133, exitcond_not39, r22_i_i_not51, or_cond1442, r4, v8, or_cond_2, or_cond_not, r3297, r46_3, r58_2, r66, r8, r3_0_in, r75, spec_select_3, or_cond16, spec_select_i_old;
    uint16_t r95;
    t_struct_i8_i32_end r105;
    uint64_t room_r6[2];
    r6 = (bytes)room_r6;
    memset(r6, 0, UINT64_C(16));
    r17 = a1 < UINT64_C(6);
    if (r17) { goto at__arm_2; }
    goto at__arm_12;
    at__arm_12:;
    v0 = (a0 + (int64_t)a1);
    r37 = (v0 - 6);
    LOAD(uint8_t, r21_i_sroa_0_0_copyload, r37);
    r21_i_sroa_7_0_r5_sroa_3_0_copyload_i_sroa_idx = (v0 - 3);
    LOAD(uint8_t, r21_i_sroa_7_0_copyload, r21_i_sroa_7_0_r5_sroa_3_0_copyload_i_sroa_idx);
    r21_i_sroa_8_0_r5_sroa_3_0_copyload_i_sroa_idx = (v0 - 2);
    LOAD(uint8_t, r21_i_sroa_8_0_copyload, r21_i_sroa_8_0_r5_sroa_3_0_copyload_i_sroa_idx);
    r21_i_sroa_9_0_r5_sroa_3_0_copyload_i_sroa_idx = (v0 - 1);
    LOAD(uint8_t, r21_i_sroa_9_0_copyload, r21_i_sroa_9_0_r5_sroa_3_0_copyload_i_sroa_idx);
    cond = r21_i_sroa_0_0_copyload == 45u;
    cond1 = r21_i_sroa_7_0_copyload == 45u;
    or_cond = cond ? cond1 : 0;
    if (or_cond) { goto at__arm_611; }
    goto at__arm_2;
    at__arm_611:;
    r21_i_sroa_6_0_r5_sroa_3_0_copyload_i_sroa_idx = (v0 - 4);
    LOAD(uint8_t, r21_i_sroa_6_0_copyload, r21_i_sroa_6_0_r5_sroa_3_0_copyload_i_sroa_idx);
    r21_i_sroa_5_0_r5_sroa_3_0_copyload_i_sroa_idx = (v0 - 5);
    LOAD(uint8_t, r21_i_sroa_5_0_copyload, r21_i_sroa_5_0_r5_sroa_3_0_copyload_i_sroa_idx);
    r1_i4 = (uint8_t)((uint32_t)r21_i_sroa_5_0_copyload + (uint32_t)208u);
    r1 = (uint8_t)((uint32_t)r21_i_sroa_6_0_copyload + (uint32_t)208u);
    r12_2 = r1_i4 < 10u;
    r17_2 = r1 < 10u;
    or_cond_not_i_not_not = (uint8_t)(((uint32_t)r17_2 & (uint32_t)r12_2) & 1);
    if (or_cond_not_i_not_not) { goto at__arm_912; }
    goto at__arm_2;
    at__arm_912:;
    r1_i4_i9 = (uint8_t)((uint32_t)r21_i_sroa_8_0_copyload + (uint32_t)208u);
    r1_i_i10 = (uint8_t)((uint32_t)r21_i_sroa_9_0_copyload + (uint32_t)208u);
    r12_i11 = r1_i4_i9 < 10u;
    r17_i12 = r1_i_i10 < 10u;
    or_cond_not_i13_not_not = (uint8_t)(((uint32_t)r12_i11 & (uint32_t)r17_i12) & 1);
    if (or_cond_not_i13_not_not) { goto at__arm_6; }
    goto at__arm_2;
    at__arm_6:;
    narrow = (uint8_t)((uint32_t)r1_i4_i9 * (uint32_t)10u);
    narrow169 = (uint8_t)((uint32_t)narrow + (uint32_t)r1_i_i10);
    r32_i17 = (uint32_t)narrow169;
    narrow_2 = (uint8_t)((uint32_t)r1_i4 * (uint32_t)10u);
    narrow32 = (uint8_t)((uint32_t)narrow_2 + (uint32_t)r1);
    switch (a1) {
    case UINT64_C(6): goto at__arm_2;
    case UINT64_C(10): goto at__then_12;
    default: goto at__after_5;
    }
    at__then_12:;
    LOAD(uint8_t, r76, a0);
    r817 = (a0 + 1);
    switch (r76) {
    case 45u: { r141140 = UINT64_C(3); r138138 = r817; goto at__chrono_text_read_decimal_has_decimal_form_exit_i_i; }
    case 43u: { r182146 = UINT64_C(3); r179144 = r817; goto at__chrono_text_read_decimal_has_decimal_form_exit_i_i80; }
    default: goto at__default_17;
    }
    at__default_17:;
    r83 = (a0 + 2);
    LOAD(uint8_t, r93, r817);
    LOAD(uint16_t, r95, r83);
    v1 = (uint32_t)r95;
    v2 = (uint32_t)(v1 << 16u);
    r30_i3_sroa_5_0_insert_ext = (uint32_t)r93;
    r30_i3_sroa_5_0_insert_shift = (uint32_t)(r30_i3_sroa_5_0_insert_ext << 8);
    r30_i3_sroa_0_0_insert_ext = (uint32_t)r76;
    r30_i3_sroa_5_0_insert_insert = (uint32_t)(r30_i3_sroa_5_0_insert_shift | r30_i3_sroa_0_0_insert_ext);
    r30_i3_sroa_0_0_insert_insert = (uint32_t)(r30_i3_sroa_5_0_insert_insert | v2);
    r105 = chrono_text_read_places_read_four(r30_i3_sroa_0_0_insert_insert);
    r106 = r105.f0;
    r107 = r105.f1;
    v3 = r106 == 1;
    spec_select = v3 ? r107 : 0;
    {
    r0_sroa_6_05 = spec_select;
    r0_sroa_0_sroa_0_0_i6_shrunk = v3;
    goto at__chrono_text_read_year_read_year_exit;
    }
    at__after_5:;
    LOAD(uint8_t, r135, a0);
    switch (r135) {
    case 45u: goto at__after_4;
    case 43u: goto at__after_3;
    default: goto at__arm_2;
    }
    at__after_4:;
    r138 = (a0 + 1);
    r141 = (uint64_t)(a1 + UINT64_C(18446744073709551609));
    switch (a1) {
    case UINT64_C(11): goto at__then_6;
    case UINT64_C(7): goto at__arm_2;
    case UINT64_C(8): { r141139 = UINT64_C(1); r138137 = r138; goto at__join_3; }
    default: { r141140 = r141; r138138 = r138; goto at__chrono_text_read_decimal_has_decimal_form_exit_i_i; }
    }
    at__then_6:;
    r4216 = (a0 + 2);
    LOAD(uint8_t, r52, r138);
    LOAD(uint8_t, r54, r4216);
    r1_i4_2 = (uint8_t)((uint32_t)r52 + (uint32_t)208u);
    r1_2 = (uint8_t)((uint32_t)r54 + (uint32_t)208u);
    r12_3 = r1_i4_2 < 10u;
    r17_3 = r1_2 < 10u;
    or_cond_not_i_not_not_2 = (uint8_t)(((uint32_t)r12_3 & (uint32_t)r17_3) & 1);
    r1_i5 = (uint32_t)r1_i4_2;
    r27 = (uint32_t)(r1_i5 * 10u);
    r1_i6 = (uint32_t)r1_2;
    r32 = (uint32_t)(r27 + r1_i6);
    if (or_cond_not_i_not_not_2) { goto at__arm_1; }
    goto at__arm_2;
    at__arm_1:;
    r46_2 = (a0 + 4);
    LOAD(uint8_t, r58, r46_2);
    r4417 = (a0 + 3);
    LOAD(uint8_t, r5618, r4417);
    r1_i4_i12 = (uint8_t)((uint32_t)r5618 + (uint32_t)208u);
    r1_i_i13 = (uint8_t)((uint32_t)r58 + (uint32_t)208u);
    r12_i14 = r1_i4_i12 < 10u;
    r17_i15 = r1_i_i13 < 10u;
    or_cond_not_i16_not_not = (uint8_t)(((uint32_t)r17_i15 & (uint32_t)r12_i14) & 1);
    if (or_cond_not_i16_not_not) { goto at__chrono_text_read_year_year_size_exit_thread172; }
    goto at__arm_2;
    at__chrono_text_read_year_year_size_exit_thread172:;
    narrow_3 = (uint8_t)((uint32_t)r1_i4_i12 * (uint32_t)10u);
    narrow1 = (uint8_t)((uint32_t)narrow_3 + (uint32_t)r1_i_i13);
    r32_i20 = (uint32_t)narrow1;
    v4 = (uint32_t)(r32 * 100u);
    r98 = (uint32_t)(v4 + r32_i20);
    {
    r0_sroa_5_0175 = r98;
    goto at__arm_28;
    }
    at__chrono_text_read_decimal_has_decimal_form_exit_i_i:;
    LOAD(uint8_t, r28, r138138);
    r30 = r28 != 48u;
    r37_2 = r141140 < UINT64_C(19);
    spec_select_2 = (uint8_t)(((uint32_t)r37_2 & (uint32_t)r30) & 1);
    if (spec_select_2) { { r141139 = r141140; r138137 = r138138; goto at__join_3; } }
    goto at__arm_2;
    at__join_3:;
    {
    r4_017 = UINT64_C(0);
    r5_016 = UINT64_C(0);
    goto at__join_5;
    }
    at__join_5:;
    r25 = (r138137 + (int64_t)r5_016);
    LOAD(uint8_t, r27_2, r25);
    r1_3 = (uint8_t)((uint32_t)r27_2 + (uint32_t)208u);
    r31 = r1_3 > 9;
    if (r31) { goto at__chrono_text_read_places_value_of_all_exit_i_i; }
    goto at__join_8;
    at__join_8:;
    r39 = (uint64_t)(r4_017 * UINT64_C(10));
    r1_i10 = (uint64_t)r1_3;
    r44 = (uint64_t)(r39 + r1_i10);
    r46 = (uint64_t)(r5_016 + UINT64_C(1));
    exitcond_not = r46 == r141139;
    if (exitcond_not) { { r4_0_pn_i_i_i19 = r44; goto at__chrono_text_read_year_year_size_exit; } }
    { r4_017 = r44; r5_016 = r46; goto at__join_5; }
    at__chrono_text_read_places_value_of_all_exit_i_i:;
    r22_i_i_not = r5_016 < r141139;
    if (r22_i_i_not) { goto at__arm_2; }
    { r4_0_pn_i_i_i19 = r4_017; goto at__chrono_text_read_year_year_size_exit; }
    at__chrono_text_read_year_year_size_exit:;
    v5 = (uint64_t)(r4_0_pn_i_i_i19 + UINT64_C(18446744073708551616));
    or_cond14 = v5 < UINT64_C(18446744073708561616);
    r111 = (uint32_t)(r4_0_pn_i_i_i19);
    if (or_cond14) { goto at__arm_2; }
    { r0_sroa_5_0175 = r111; goto at__arm_28; }
    at__arm_28:;
    r5_not = r0_sroa_5_0175 != 0;
    r10 = (uint32_t)(0 - r0_sroa_5_0175);
    {
    r0_sroa_6_05 = r10;
    r0_sroa_0_sroa_0_0_i6_shrunk = r5_not;
    goto at__chrono_text_read_year_read_year_exit;
    }
    at__after_3:;
    r179 = (a0 + 1);
    r182 = (uint64_t)(a1 + UINT64_C(18446744073709551609));
    switch (a1) {
    case UINT64_C(11): goto at__then_652;
    case UINT64_C(7): goto at__arm_2;
    case UINT64_C(8): { r182145 = UINT64_C(1); r179143 = r179; goto at__join_326; }
    default: { r182146 = r182; r179144 = r179; goto at__chrono_text_read_decimal_has_decimal_form_exit_i_i80; }
    }
    at__then_652:;
    r4253 = (a0 + 2);
    LOAD(uint8_t, r5254, r179);
    LOAD(uint8_t, r5455, r4253);
    r1_i456 = (uint8_t)((uint32_t)r5254 + (uint32_t)208u);
    r157 = (uint8_t)((uint32_t)r5455 + (uint32_t)208u);
    r1258 = r1_i456 < 10u;
    r1759 = r157 < 10u;
    or_cond_not_i_not_not60 = (uint8_t)(((uint32_t)r1258 & (uint32_t)r1759) & 1);
    r1_i561 = (uint32_t)r1_i456;
    r2762 = (uint32_t)(r1_i561 * 10u);
    r1_i663 = (uint32_t)r157;
    r3264 = (uint32_t)(r2762 + r1_i663);
    if (or_cond_not_i_not_not60) { goto at__arm_165; }
    goto at__arm_2;
    at__arm_165:;
    r4666 = (a0 + 4);
    LOAD(uint8_t, r5867, r4666);
    r4468 = (a0 + 3);
    LOAD(uint8_t, r5669, r4468);
    r1_i4_i1270 = (uint8_t)((uint32_t)r5669 + (uint32_t)208u);
    r1_i_i1371 = (uint8_t)((uint32_t)r5867 + (uint32_t)208u);
    r12_i1472 = r1_i4_i1270 < 10u;
    r17_i1573 = r1_i_i1371 < 10u;
    or_cond_not_i16_not_not74 = (uint8_t)(((uint32_t)r17_i1573 & (uint32_t)r12_i1472) & 1);
    if (or_cond_not_i16_not_not74) { goto at__chrono_text_read_year_year_size_exit85_thread178; }
    goto at__arm_2;
    at__chrono_text_read_year_year_size_exit85_thread178:;
    narrow76 = (uint8_t)((uint32_t)r1_i4_i1270 * (uint32_t)10u);
    narrow177 = (uint8_t)((uint32_t)narrow76 + (uint32_t)r1_i_i1371);
    r32_i2078 = (uint32_t)narrow177;
    v6 = (uint32_t)(r3264 * 100u);
    r9879 = (uint32_t)(v6 + r32_i2078);
    {
    r0_sroa_5_046181 = r9879;
    goto at__arm_31;
    }
    at__chrono_text_read_decimal_has_decimal_form_exit_i_i80:;
    LOAD(uint8_t, r2881, r179144);
    r3082 = r2881 != 48u;
    r3783 = r182146 < UINT64_C(19);
    spec_select84 = (uint8_t)(((uint32_t)r3783 & (uint32_t)r3082) & 1);
    if (spec_select84) { { r182145 = r182146; r179143 = r179144; goto at__join_326; } }
    goto at__arm_2;
    at__join_326:;
    {
    r4_01728 = UINT64_C(0);
    r5_01629 = UINT64_C(0);
    goto at__join_527;
    }
    at__join_527:;
    r2530 = (r179143 + (int64_t)r5_01629);
    LOAD(uint8_t, r2731, r2530);
    r132 = (uint8_t)((uint32_t)r2731 + (uint32_t)208u);
    r3133 = r132 > 9;
    if (r3133) { goto at__chrono_text_read_places_value_of_all_exit_i_i50; }
    goto at__join_834;
    at__join_834:;
    r3935 = (uint64_t)(r4_01728 * UINT64_C(10));
    r1_i1036 = (uint64_t)r132;
    r4437 = (uint64_t)(r3935 + r1_i1036);
    r4638 = (uint64_t)(r5_01629 + UINT64_C(1));
    exitcond_not39 = r4638 == r182145;
    if (exitcond_not39) { { r4_0_pn_i_i_i1941 = r4437; goto at__chrono_text_read_year_year_size_exit85; } }
    { r4_01728 = r4437; r5_01629 = r4638; goto at__join_527; }
    at__chrono_text_read_places_value_of_all_exit_i_i50:;
    r22_i_i_not51 = r5_01629 < r182145;
    if (r22_i_i_not51) { goto at__arm_2; }
    { r4_0_pn_i_i_i1941 = r4_01728; goto at__chrono_text_read_year_year_size_exit85; }
    at__chrono_text_read_year_year_size_exit85:;
    v7 = (uint64_t)(r4_0_pn_i_i_i1941 + UINT64_C(18446744073708551616));
    or_cond1442 = v7 < UINT64_C(18446744073708561616);
    r11143 = (uint32_t)(r4_0_pn_i_i_i1941);
    if (or_cond1442) { goto at__arm_2; }
    { r0_sroa_5_046181 = r11143; goto at__arm_31; }
    at__arm_31:;
    r4 = r0_sroa_5_046181 > 9999u;
    a0_2 = r4 ? r0_sroa_5_046181 : 0;
    {
    r0_sroa_6_05 = a0_2;
    r0_sroa_0_sroa_0_0_i6_shrunk = r4;
    goto at__chrono_text_read_year_read_year_exit;
    }
    at__chrono_text_read_year_read_year_exit:;
    a1_94 = r0_sroa_0_sroa_0_0_i6_shrunk ? r0_sroa_6_05 : 0;
    v8 = (uint8_t)((uint32_t)narrow32 + (uint32_t)255u);
    or_cond_2 = v8 < 12u;
    or_cond_not = r0_sroa_0_sroa_0_0_i6_shrunk ? or_cond_2 : 0;
    if (or_cond_not) { goto at__after_1; }
    goto at__arm_2;
    at__after_1:;
    r18_sroa_0_0_extract_trunc = (uint32_t)narrow32;
    r3297 = narrow32 > 2;
    r36 = (uint32_t)(r18_sroa_0_0_extract_trunc | 12u);
    r6_0 = r3297 ? r18_sroa_0_0_extract_trunc : r36;
    r3 = (uint32_t)(r6_0 * 979u);
    r5 = (uint32_t)(r3 + 4294964377u);
    r71 = (uint32_t)(r5 >> 5);
    narrow160 = (uint32_t)(r71 + r32_i17);
    r45 = (uint64_t)narrow160;
    r46_3 = narrow169 == 0;
    if (r46_3) { goto at__arm_2; }
    goto at__else_18;
    at__else_18:;
    r5_i12 = (uint32_t)(r3 + 4294965356u);
    r71_i13 = (uint32_t)(r5_i12 >> 5);
    r58_2 = narrow160 > r71_i13;
    if (r58_2) { goto at__arm_2; }
    goto at__after_15;
    at__after_15:;
    r66 = narrow160 > 365u;
    if (r66) { goto at__then_26; }
    goto at__after_25;
    at__then_26:;
    r6_2 = (uint32_t)((int32_t)a1_94 % (int32_t)100u);
    r8 = r6_2 == 0;
    if (r8) { goto at__then_1; }
    goto at__else_2;
    at__then_1:;
    r12 = (uint32_t)((int32_t)a1_94 % (int32_t)400u);
    {
    r3_0_in_in = r12;
    goto at__chrono_units_year_year_length_exit_i_i_i;
    }
    at__else_2:;
    v9 = (uint32_t)(a1_94 & 3);
    {
    r3_0_in_in = v9;
    goto at__chrono_units_year_year_length_exit_i_i_i;
    }
    at__chrono_units_year_year_length_exit_i_i_i:;
    r3_0_in = r3_0_in_in == 0;
    x = r3_0_in ? UINT64_C(366) : UINT64_C(365);
    r75 = x >= r45;
    v10 = (uint32_t)(a1_94 + 262143u);
    spec_select_3 = v10 < 524286u;
    or_cond16 = (uint8_t)(((uint32_t)spec_select_3 & (uint32_t)r75) & 1);
    if (or_cond16) { goto at__arm_1_2; }
    goto at__arm_2;
    at__after_25:;
    old = (uint32_t)(a1_94 + 262143u);
    spec_select_i_old = old < 524286u;
    if (spec_select_i_old) { goto at__arm_1_2; }
    goto at__arm_2;
    at__arm_1_2:;
    r3_0 = r3297 ? 262400u : 262399u;
    r11 = (uint32_t)(r3_0 + a1_94);
    r14 = (uint32_t)(r11 / 100u);
    r16 = (uint32_t)(r11 * 1461u);
    r183 = (uint32_t)(r16 >> 2);
    r23 = (uint32_t)(r11 / 400u);
    reass_sub = (uint32_t)(narrow160 + 4199127358u);
    r26 = (uint32_t)(reass_sub - r14);
    r18 = (uint32_t)(r26 + r23);
    r24 = (uint32_t)(r18 + r183);
    {
    spec_select102 = r24;
    goto at__chrono_reading_date_read_date_exit;
    }
    at__arm_2:;
    chrono_reading_date_date_error(r6, a0, a1);
    {
    spec_select102 = 2147483648u;
    goto at__chrono_reading_date_read_date_exit;
    }
    at__chrono_reading_date_read_date_exit:;
    return spec_select102;
}

static t_struct_i8_i32_end chrono_text_read_places_read_four(uint32_t a0_0_val)
{
    uint32_t r0_sroa_5_0, r2_sroa_3_0_extract_shift, r1_i5, r27, r1_i6, r32, r2_sroa_5_0_extract_shift, r2_sroa_4_0_extract_shift, r3220, v0, r98;
    uint8_t r0_sroa_0_sroa_0_0, r2_sroa_0_0_extract_trunc, r2_sroa_3_0_extract_trunc, r1_i4, r1, r12, r17, or_cond_not_i_not_not, r2_sroa_5_0_extract_trunc, r2_sroa_4_0_extract_trunc, r1_i412, r113, r1214, r1715, or_cond_not_i16_not_not, narrow, narrow1;
    t_struct_i8_i32_end r101_fca_0_insert, r101_fca_1_insert;
    r2_sroa_0_0_extract_trunc = (uint8_t)(a0_0_val);
    r2_sroa_3_0_extract_shift = (uint32_t)(a0_0_val >> 8);
    r2_sroa_3_0_extract_trunc = (uint8_t)(r2_sroa_3_0_extract_shift);
    r1_i4 = (uint8_t)((uint32_t)r2_sroa_0_0_extract_trunc + (uint32_t)208u);
    r1 = (uint8_t)((uint32_t)r2_sroa_3_0_extract_trunc + (uint32_t)208u);
    r12 = r1_i4 < 10u;
    r17 = r1 < 10u;
    or_cond_not_i_not_not = (uint8_t)(((uint32_t)r12 & (uint32_t)r17) & 1);
    r1_i5 = (uint32_t)r1_i4;
    r27 = (uint32_t)(r1_i5 * 10u);
    r1_i6 = (uint32_t)r1;
    r32 = (uint32_t)(r27 + r1_i6);
    if (or_cond_not_i_not_not) { goto at__arm_1; }
    { r0_sroa_5_0 = 0; r0_sroa_0_sroa_0_0 = 0; goto at__return_5; }
    at__arm_1:;
    r2_sroa_5_0_extract_shift = (uint32_t)(a0_0_val >> 24u);
    r2_sroa_5_0_extract_trunc = (uint8_t)(r2_sroa_5_0_extract_shift);
    r2_sroa_4_0_extract_shift = (uint32_t)(a0_0_val >> 16u);
    r2_sroa_4_0_extract_trunc = (uint8_t)(r2_sroa_4_0_extract_shift);
    r1_i412 = (uint8_t)((uint32_t)r2_sroa_4_0_extract_trunc + (uint32_t)208u);
    r113 = (uint8_t)((uint32_t)r2_sroa_5_0_extract_trunc + (uint32_t)208u);
    r1214 = r1_i412 < 10u;
    r1715 = r113 < 10u;
    or_cond_not_i16_not_not = (uint8_t)(((uint32_t)r1214 & (uint32_t)r1715) & 1);
    if (or_cond_not_i16_not_not) { goto at__arm_6; }
    { r0_sroa_5_0 = 0; r0_sroa_0_sroa_0_0 = 0; goto at__return_5; }
    at__arm_6:;
    narrow = (uint8_t)((uint32_t)r1_i412 * (uint32_t)10u);
    narrow1 = (uint8_t)((uint32_t)narrow + (uint32_t)r113);
    r3220 = (uint32_t)narrow1;
    v0 = (uint32_t)(r32 * 100u);
    r98 = (uint32_t)(v0 + r3220);
    {
    r0_sroa_5_0 = r98;
    r0_sroa_0_sroa_0_0 = 1;
    goto at__return_5;
    }
    at__return_5:;
    r101_fca_0_insert = (t_struct_i8_i32_end){0};
    r101_fca_0_insert.f0 = r0_sroa_0_sroa_0_0;
    r101_fca_1_insert = r101_fca_0_insert;
    r101_fca_1_insert.f1 = r0_sroa_5_0;
    return r101_fca_1_insert;
}

static t_struct_i8_i32_end chrono_text_read_year_year_size(bytes a0, uint64_t a1)
{
    uint64_t r4_017, r5_016, r4_0_pn19, r39, r1_i10, r44, r46, v1;
    uint32_t r0_sroa_5_0, r1_i5, r27, r1_i6, r32, r32_i20, v0, r98, r111, r23_sroa_4_0;
    uint8_t r0_sroa_0_sroa_0_0, r52, r54, r1_i4, r1, r12, r17, or_cond_not_i_not_not, r58, r56, r1_i4_i12, r1_i_i13, r12_i14, r17_i15, or_cond_not_i16_not_not, narrow, narrow1, r28, r30, r37, spec_select, r27_2, r1_2, r31, exitcond_not, r22_i_i_not, or_cond14, r23_sroa_0_sroa_0_0;
    bytes r42, r46_2, r44_2, r25;
    t_struct_i8_i32_end r118_fca_0_insert, r118_fca_1_insert;
    switch (a1) {
    case UINT64_C(4): goto at__then_6;
    case UINT64_C(0): { r0_sroa_5_0 = 0; r0_sroa_0_sroa_0_0 = 0; goto at__return_9; }
    case UINT64_C(1): goto at__join_5_i_i_i_preheader;
    default: goto at__chrono_text_read_decimal_has_decimal_form_exit_i;
    }
    at__then_6:;
    r42 = (a0 + 1);
    LOAD(uint8_t, r52, a0);
    LOAD(uint8_t, r54, r42);
    r1_i4 = (uint8_t)((uint32_t)r52 + (uint32_t)208u);
    r1 = (uint8_t)((uint32_t)r54 + (uint32_t)208u);
    r12 = r1_i4 < 10u;
    r17 = r1 < 10u;
    or_cond_not_i_not_not = (uint8_t)(((uint32_t)r12 & (uint32_t)r17) & 1);
    r1_i5 = (uint32_t)r1_i4;
    r27 = (uint32_t)(r1_i5 * 10u);
    r1_i6 = (uint32_t)r1;
    r32 = (uint32_t)(r27 + r1_i6);
    if (or_cond_not_i_not_not) { goto at__arm_1; }
    { r0_sroa_5_0 = 0; r0_sroa_0_sroa_0_0 = 0; goto at__return_9; }
    at__arm_1:;
    r46_2 = (a0 + 3);
    LOAD(uint8_t, r58, r46_2);
    r44_2 = (a0 + 2);
    LOAD(uint8_t, r56, r44_2);
    r1_i4_i12 = (uint8_t)((uint32_t)r56 + (uint32_t)208u);
    r1_i_i13 = (uint8_t)((uint32_t)r58 + (uint32_t)208u);
    r12_i14 = r1_i4_i12 < 10u;
    r17_i15 = r1_i_i13 < 10u;
    or_cond_not_i16_not_not = (uint8_t)(((uint32_t)r17_i15 & (uint32_t)r12_i14) & 1);
    if (or_cond_not_i16_not_not) { goto at__arm_6; }
    { r0_sroa_5_0 = 0; r0_sroa_0_sroa_0_0 = 0; goto at__return_9; }
    at__arm_6:;
    narrow = (uint8_t)((uint32_t)r1_i4_i12 * (uint32_t)10u);
    narrow1 = (uint8_t)((uint32_t)narrow + (uint32_t)r1_i_i13);
    r32_i20 = (uint32_t)narrow1;
    v0 = (uint32_t)(r32 * 100u);
    r98 = (uint32_t)(v0 + r32_i20);
    {
    r0_sroa_5_0 = r98;
    r0_sroa_0_sroa_0_0 = 1;
    goto at__return_9;
    }
    at__chrono_text_read_decimal_has_decimal_form_exit_i:;
    LOAD(uint8_t, r28, a0);
    r30 = r28 != 48u;
    r37 = a1 < UINT64_C(19);
    spec_select = (uint8_t)(((uint32_t)r37 & (uint32_t)r30) & 1);
    if (spec_select) { goto at__join_5_i_i_i_preheader; }
    { r0_sroa_5_0 = 0; r0_sroa_0_sroa_0_0 = 0; goto at__return_9; }
    at__join_5_i_i_i_preheader:;
    {
    r4_017 = UINT64_C(0);
    r5_016 = UINT64_C(0);
    goto at__join_5;
    }
    at__join_5:;
    r25 = (a0 + (int64_t)r5_016);
    LOAD(uint8_t, r27_2, r25);
    r1_2 = (uint8_t)((uint32_t)r27_2 + (uint32_t)208u);
    r31 = r1_2 > 9;
    if (r31) { goto at__chrono_text_read_places_value_of_all_exit_i; }
    goto at__join_8;
    at__join_8:;
    r39 = (uint64_t)(r4_017 * UINT64_C(10));
    r1_i10 = (uint64_t)r1_2;
    r44 = (uint64_t)(r39 + r1_i10);
    r46 = (uint64_t)(r5_016 + UINT64_C(1));
    exitcond_not = r46 == a1;
    if (exitcond_not) { { r4_0_pn19 = r44; goto at__arm_10; } }
    { r4_017 = r44; r5_016 = r46; goto at__join_5; }
    at__chrono_text_read_places_value_of_all_exit_i:;
    r22_i_i_not = r5_016 < a1;
    if (r22_i_i_not) { { r0_sroa_5_0 = 0; r0_sroa_0_sroa_0_0 = 0; goto at__return_9; } }
    { r4_0_pn19 = r4_017; goto at__arm_10; }
    at__arm_10:;
    v1 = (uint64_t)(r4_0_pn19 + UINT64_C(18446744073709541616));
    or_cond14 = v1 < UINT64_C(990000);
    r111 = (uint32_t)(r4_0_pn19);
    r23_sroa_0_sroa_0_0 = (uint8_t)or_cond14;
    r23_sroa_4_0 = or_cond14 ? r111 : 0;
    {
    r0_sroa_5_0 = r23_sroa_4_0;
    r0_sroa_0_sroa_0_0 = r23_sroa_0_sroa_0_0;
    goto at__return_9;
    }
    at__return_9:;
    r118_fca_0_insert = (t_struct_i8_i32_end){0};
    r118_fca_0_insert.f0 = r0_sroa_0_sroa_0_0;
    r118_fca_1_insert = r118_fca_0_insert;
    r118_fca_1_insert.f1 = r0_sroa_5_0;
    return r118_fca_1_insert;
}

static void chrono_reading_date_date_error(bytes a0, bytes a1, uint64_t a2)
{
    uint64_t r5_010, r5_0_lcssa_i_ph, r5_010_i_i7, r5_0_lcssa_i_ph_i15, r7_sroa_4_0, r5_010_i_i_i5, r5_0_lcssa_i_ph_i_i13, r3_08, r3_0_lcssa_i_ph, r3_08_i49, r3_0_lcssa_i53_ph, r7_sroa_4_0_i26, r7_0, r141_i91, r141_i90, r4_017, r5_016, r4_0_pn_i_i_i19, r182_i97, r182_i96, r4_017_i_i_i_i18, r5_016_i_i_i_i19, r4_0_pn_i_i_i19_i31, r14_sroa_7_0_sink, sink21, r28, r19, invariant_umin, r58, pre, r58_i_i18, switch_select, switch_select28, r58_i_i_i15, r58_2, r33, v10, r86, r33_i55, v12, r21, r141, r39_2, r1_i10, r44, r46, v14, r182, r39_i_i_i_i25, r1_i10_i_i_i_i26, r44_i_i_i_i27, r46_i_i_i_i28, v15, r37, r6, r8, r1718, r25_3, r27_4, r6_i_i_i_i_i7, r8_i_i_i_i_i8, r10_i4, r59;
    bytes r138_i89, r138_i88, r179_i95, r179_i94, r37_2, r18_sroa_5_0_r5_sroa_3_0_copyload_sroa_idx, r18_sroa_6_0_r5_sroa_3_0_copyload_sroa_idx, r18_sroa_7_0_r5_sroa_3_0_copyload_sroa_idx, r18_sroa_4_0_r5_sroa_3_0_copyload_sroa_idx, r18_sroa_3_0_r5_sroa_3_0_copyload_sroa_idx, r37_3, r42, r37_i_i8, r42_i_i10, r37_i_i_i6, r42_i_i_i8, r55, r19_2, r83, r19_i50, r81, r85, r83_2, r138, r42_2, r46_2, r44_3, r25_2, r179, r25_i_i_i_i20_2, r76_2, r78;
    uint32_t r0_sroa_6_0_i124, r14_sroa_0_sroa_0_0_sink, r14_sroa_4_0_sink, r3_0_in_in, sink, r3_0_i_sink, r15_sroa_0_0_extract_trunc, r1_i5, r27, r1_i6, r32, r32_i20, v13, r98, r1_i5_2, r27_2, r1_i6_2, r32_2, r111, r1052, r111_i33, r32_i20_2, v16, r98_2, r10, v17, r36, r6_0, r3, r5, r71, r5_i12, r71_i13, r13, v19, r11, r14, r16, r23, reass_sub, r18_2, narrow16, r24_i_i_i_i8, r183_i_i_i_i_i_i9, r1717, r11_i_i_i_i_i_i1, r13_2, r3_2, r71_i2, r10_2, r29, r6_2, r8_2, r103, r51, r10_sroa_4_0, switch_tableidx, r11_i_i_i_i2, r13_i_i_i_i3, r3_i_i_i_i_i_i4, r71_i2_i_i_i_i_i5, r10_i_i_i_i_i6, r12_4, r6_i_i_i_i9, v21, r6_3, r12, v22, r1_4, r24_i_i_i_i4, r91, r11_2, r17;
    uint8_t r17_2, r18_sroa_0_0_copyload, r18_sroa_5_0_copyload, r18_sroa_6_0_copyload, r18_sroa_7_0_copyload, cond, cond1, or_cond, r18_sroa_4_0_copyload, r18_sroa_3_0_copyload, r1_i4, r1, r12_2, r17_3, or_cond_not_i_not_not, r1_i4_i9, r1_i_i10, r12_i11, r17_i12, or_cond_not_i13_not_not, narrow, narrow_2, narrow32, r24, or_cond9_not, r39, r44_2, v0, r4_0_in, r25, v1, r17_4, exitcond_not, v2, r39_i_i9, r44_i_i11, v3, r4_0_in_i_i_i13, r25_i_i_i23, v4, r17_i_i_i_i_i21, exitcond_not_i_i19, v5, r44_i_i32, switch_selectcmp, switch_selectcmp27, r39_i_i_i7, r44_i_i_i9, v6, r4_0_in_i_i_i_i11, r25_i_i_i_i20, v7, r17_i_i_i_i_i_i18, exitcond_not_i_i_i16, v8, r44_i_i12, r137_not, r19_val, v9, r17_5, exitcond_not_2, r137_not_i47, r19_val_i51, v11, r17_i_i_i52, exitcond_not_i56, r34, r76, r93, r1_i47, r18, r129, r1710, or_cond_not_i_not_not11, r97, r95, r1_i4_i12, r1_i_i13, r12_i14, r17_i15, or_cond_not_i16_not_not, narrow12, narrow1, r135, r52, r54, r1_i4_2, r1_2, r12_3, r17_6, or_cond_not_i_not_not_2, r58_3, r56, r1_i4_i12_2, r1_i_i13_2, r12_i14_2, r17_i15_2, or_cond_not_i16_not_not_2, r28_2, r30, r37_4, spec_select, r27_3, r1_3, r31, exitcond_not6, r22_i_i_not, or_cond14, r28_i_i_i71, r30_i_i_i72, r37_i_i_i73, spec_select_i_i_i74, r27_i_i_i_i21, r1_i_i_i_i_i22, r31_i_i_i_i23, exitcond_not_i_i_i_i29, r22_i_i_not_i41, or_cond14_i32, narrow_3, narrow1_2, r5_not_i_not, or_cond_2, r1113, r26, v18, r41, r32_3, r58_i_i_i_not, r35, v20, spec_select_i_i_i_i2, r8_3, r18_i_i_i_i3, r3_0_in;
    r17_2 = a2 < UINT64_C(6);
    if (r17_2) { goto at__arm_2; }
    goto at__arm_1;
    at__arm_1:;
    r28 = (uint64_t)(a2 + UINT64_C(18446744073709551610));
    r37_2 = (a1 + (int64_t)r28);
    LOAD(uint8_t, r18_sroa_0_0_copyload, r37_2);
    r18_sroa_5_0_r5_sroa_3_0_copyload_sroa_idx = (r37_2 + 3);
    LOAD(uint8_t, r18_sroa_5_0_copyload, r18_sroa_5_0_r5_sroa_3_0_copyload_sroa_idx);
    r18_sroa_6_0_r5_sroa_3_0_copyload_sroa_idx = (r37_2 + 4);
    LOAD(uint8_t, r18_sroa_6_0_copyload, r18_sroa_6_0_r5_sroa_3_0_copyload_sroa_idx);
    r18_sroa_7_0_r5_sroa_3_0_copyload_sroa_idx = (r37_2 + 5);
    LOAD(uint8_t, r18_sroa_7_0_copyload, r18_sroa_7_0_r5_sroa_3_0_copyload_sroa_idx);
    cond = r18_sroa_0_0_copyload == 45u;
    cond1 = r18_sroa_5_0_copyload == 45u;
    or_cond = cond ? cond1 : 0;
    if (or_cond) { goto at__arm_6; }
    goto at__arm_2;
    at__arm_6:;
    r18_sroa_4_0_r5_sroa_3_0_copyload_sroa_idx = (r37_2 + 2);
    LOAD(uint8_t, r18_sroa_4_0_copyload, r18_sroa_4_0_r5_sroa_3_0_copyload_sroa_idx);
    r18_sroa_3_0_r5_sroa_3_0_copyload_sroa_idx = (r37_2 + 1);
    LOAD(uint8_t, r18_sroa_3_0_copyload, r18_sroa_3_0_r5_sroa_3_0_copyload_sroa_idx);
    r1_i4 = (uint8_t)((uint32_t)r18_sroa_3_0_copyload + (uint32_t)208u);
    r1 = (uint8_t)((uint32_t)r18_sroa_4_0_copyload + (uint32_t)208u);
    r12_2 = r1_i4 < 10u;
    r17_3 = r1 < 10u;
    or_cond_not_i_not_not = (uint8_t)(((uint32_t)r17_3 & (uint32_t)r12_2) & 1);
    if (or_cond_not_i_not_not) { goto at__arm_9; }
    goto at__arm_2;
    at__arm_9:;
    r1_i4_i9 = (uint8_t)((uint32_t)r18_sroa_6_0_copyload + (uint32_t)208u);
    r1_i_i10 = (uint8_t)((uint32_t)r18_sroa_7_0_copyload + (uint32_t)208u);
    r12_i11 = r1_i4_i9 < 10u;
    r17_i12 = r1_i_i10 < 10u;
    or_cond_not_i13_not_not = (uint8_t)(((uint32_t)r12_i11 & (uint32_t)r17_i12) & 1);
    if (or_cond_not_i13_not_not) { goto at__arm_5; }
    goto at__arm_2;
    at__arm_5:;
    narrow = (uint8_t)((uint32_t)r1_i4_i9 * (uint32_t)10u);
    narrow_2 = (uint8_t)((uint32_t)r1_i4 * (uint32_t)10u);
    narrow32 = (uint8_t)((uint32_t)narrow_2 + (uint32_t)r1);
    r19 = chrono_reading_fitting_fitting_year(a1, r28, (bytes)&static_2, UINT64_C(0));
    r24 = r19 == r28;
    if (r24) { goto at__then_1; }
    goto at__arm_2;
    at__then_1:;
    invariant_umin = r28 < UINT64_C(4) ? r28 : UINT64_C(4);
    or_cond9_not = r28 == UINT64_C(0);
    if (or_cond9_not) { { r7_sroa_4_0_i26 = UINT64_C(4); r7_0 = UINT64_C(0); goto at__chrono_reading_fitting_is_of_year_form_exit_i; } }
    { r5_010 = UINT64_C(0); goto at__join_5; }
    at__join_5:;
    r37_3 = ((bytes)&static_3 + (int64_t)r5_010);
    LOAD(uint8_t, r39, r37_3);
    r42 = (a1 + (int64_t)r5_010);
    LOAD(uint8_t, r44_2, r42);
    switch (r39) {
    case 100u: goto at__chrono_reading_fitting_stands_for_exit_i_i_i_i_i_i;
    case 110u: goto at__arm_2_2;
    default: goto at__default_3;
    }
    at__arm_2_2:;
    v0 = (uint8_t)((uint32_t)r44_2 + (uint32_t)207u);
    r4_0_in = v0 < 9;
    if (r4_0_in) { goto at__join_11; }
    { r5_0_lcssa_i_ph = r5_010; goto at__chrono_reading_fitting_fits_front_exit_i_i_i_i; }
    at__default_3:;
    r25 = r44_2 == r39;
    if (r25) { goto at__join_11; }
    { r5_0_lcssa_i_ph = r5_010; goto at__chrono_reading_fitting_fits_front_exit_i_i_i_i; }
    at__chrono_reading_fitting_stands_for_exit_i_i_i_i_i_i:;
    v1 = (uint8_t)((uint32_t)r44_2 + (uint32_t)208u);
    r17_4 = v1 < 10u;
    if (r17_4) { goto at__join_11; }
    { r5_0_lcssa_i_ph = r5_010; goto at__chrono_reading_fitting_fits_front_exit_i_i_i_i; }
    at__join_11:;
    r58 = (uint64_t)(r5_010 + UINT64_C(1));
    exitcond_not = r58 == invariant_umin;
    if (exitcond_not) { { r5_0_lcssa_i_ph = invariant_umin; goto at__chrono_reading_fitting_fits_front_exit_i_i_i_i; } }
    { r5_010 = r58; goto at__join_5; }
    at__chrono_reading_fitting_fits_front_exit_i_i_i_i:;
    v2 = r5_0_lcssa_i_ph == UINT64_C(4);
    pre = r28 < UINT64_C(2) ? r28 : UINT64_C(2);
    if (v2) { { r7_sroa_4_0 = UINT64_C(5); goto at__chrono_reading_fitting_year_front_exit_i_i_i; } }
    { r5_010_i_i7 = UINT64_C(0); goto at__join_5_i_i6; }
    at__join_5_i_i6:;
    r37_i_i8 = ((bytes)&static_5 + (int64_t)r5_010_i_i7);
    LOAD(uint8_t, r39_i_i9, r37_i_i8);
    r42_i_i10 = (a1 + (int64_t)r5_010_i_i7);
    LOAD(uint8_t, r44_i_i11, r42_i_i10);
    switch (r39_i_i9) {
    case 100u: goto at__chrono_reading_fitting_stands_for_exit_i_i20_i_i_i_i;
    case 110u: goto at__arm_2_i_i_i12;
    default: goto at__default_3_i_i_i22;
    }
    at__arm_2_i_i_i12:;
    v3 = (uint8_t)((uint32_t)r44_i_i11 + (uint32_t)207u);
    r4_0_in_i_i_i13 = v3 < 9;
    if (r4_0_in_i_i_i13) { goto at__join_11_i_i17; }
    { r5_0_lcssa_i_ph_i15 = r5_010_i_i7; goto at__chrono_reading_fitting_fits_front_exit24_i_i_i_i; }
    at__default_3_i_i_i22:;
    r25_i_i_i23 = r44_i_i11 == r39_i_i9;
    if (r25_i_i_i23) { goto at__join_11_i_i17; }
    { r5_0_lcssa_i_ph_i15 = r5_010_i_i7; goto at__chrono_reading_fitting_fits_front_exit24_i_i_i_i; }
    at__chrono_reading_fitting_stands_for_exit_i_i20_i_i_i_i:;
    v4 = (uint8_t)((uint32_t)r44_i_i11 + (uint32_t)208u);
    r17_i_i_i_i_i21 = v4 < 10u;
    if (r17_i_i_i_i_i21) { goto at__join_11_i_i17; }
    { r5_0_lcssa_i_ph_i15 = r5_010_i_i7; goto at__chrono_reading_fitting_fits_front_exit24_i_i_i_i; }
    at__join_11_i_i17:;
    r58_i_i18 = (uint64_t)(r5_010_i_i7 + UINT64_C(1));
    exitcond_not_i_i19 = r58_i_i18 == pre;
    if (exitcond_not_i_i19) { { r5_0_lcssa_i_ph_i15 = pre; goto at__chrono_reading_fitting_fits_front_exit24_i_i_i_i; } }
    { r5_010_i_i7 = r58_i_i18; goto at__join_5_i_i6; }
    at__chrono_reading_fitting_fits_front_exit24_i_i_i_i:;
    v5 = r5_0_lcssa_i_ph_i15 == UINT64_C(2);
    if (v5) { { r7_sroa_4_0 = UINT64_C(5); goto at__chrono_reading_fitting_year_front_exit_i_i_i; } }
    goto at__join_5_i_i27_preheader;
    at__join_5_i_i27_preheader:;
    LOAD(uint8_t, r44_i_i32, a1);
    switch_selectcmp = r44_i_i32 == 43u;
    switch_select = switch_selectcmp ? UINT64_C(6) : UINT64_C(4);
    switch_selectcmp27 = r44_i_i32 == 45u;
    switch_select28 = switch_selectcmp27 ? UINT64_C(5) : switch_select;
    {
    r7_sroa_4_0 = switch_select28;
    goto at__chrono_reading_fitting_year_front_exit_i_i_i;
    }
    at__chrono_reading_fitting_year_front_exit_i_i_i:;
    {
    r5_010_i_i_i5 = UINT64_C(0);
    goto at__join_5_i_i_i4;
    }
    at__join_5_i_i_i4:;
    r37_i_i_i6 = ((bytes)&static_5 + (int64_t)r5_010_i_i_i5);
    LOAD(uint8_t, r39_i_i_i7, r37_i_i_i6);
    r42_i_i_i8 = (a1 + (int64_t)r5_010_i_i_i5);
    LOAD(uint8_t, r44_i_i_i9, r42_i_i_i8);
    switch (r39_i_i_i7) {
    case 100u: goto at__chrono_reading_fitting_stands_for_exit_i_i_i17_i_i_i;
    case 110u: goto at__arm_2_i_i_i_i10;
    default: goto at__default_3_i_i_i_i19;
    }
    at__arm_2_i_i_i_i10:;
    v6 = (uint8_t)((uint32_t)r44_i_i_i9 + (uint32_t)207u);
    r4_0_in_i_i_i_i11 = v6 < 9;
    if (r4_0_in_i_i_i_i11) { goto at__join_11_i_i_i14; }
    { r5_0_lcssa_i_ph_i_i13 = r5_010_i_i_i5; goto at__chrono_reading_fitting_fits_front_exit_i12_i_i_i; }
    at__default_3_i_i_i_i19:;
    r25_i_i_i_i20 = r44_i_i_i9 == r39_i_i_i7;
    if (r25_i_i_i_i20) { goto at__join_11_i_i_i14; }
    { r5_0_lcssa_i_ph_i_i13 = r5_010_i_i_i5; goto at__chrono_reading_fitting_fits_front_exit_i12_i_i_i; }
    at__chrono_reading_fitting_stands_for_exit_i_i_i17_i_i_i:;
    v7 = (uint8_t)((uint32_t)r44_i_i_i9 + (uint32_t)208u);
    r17_i_i_i_i_i_i18 = v7 < 10u;
    if (r17_i_i_i_i_i_i18) { goto at__join_11_i_i_i14; }
    { r5_0_lcssa_i_ph_i_i13 = r5_010_i_i_i5; goto at__chrono_reading_fitting_fits_front_exit_i12_i_i_i; }
    at__join_11_i_i_i14:;
    r58_i_i_i15 = (uint64_t)(r5_010_i_i_i5 + UINT64_C(1));
    exitcond_not_i_i_i16 = r58_i_i_i15 == pre;
    if (exitcond_not_i_i_i16) { { r5_0_lcssa_i_ph_i_i13 = pre; goto at__chrono_reading_fitting_fits_front_exit_i12_i_i_i; } }
    { r5_010_i_i_i5 = r58_i_i_i15; goto at__join_5_i_i_i4; }
    at__chrono_reading_fitting_fits_front_exit_i12_i_i_i:;
    v8 = r5_0_lcssa_i_ph_i_i13 == UINT64_C(2);
    if (v8) { { r7_sroa_4_0_i26 = r7_sroa_4_0; r7_0 = UINT64_C(0); goto at__chrono_reading_fitting_is_of_year_form_exit_i; } }
    goto at__join_5_i_i7_preheader;
    at__join_5_i_i7_preheader:;
    LOAD(uint8_t, r44_i_i12, a1);
    switch (r44_i_i12) {
    case 45u: goto at__then_4;
    case 43u: goto at__then_7;
    default: { r7_sroa_4_0_i26 = r7_sroa_4_0; r7_0 = UINT64_C(0); goto at__chrono_reading_fitting_is_of_year_form_exit_i; }
    }
    at__then_4:;
    r55 = (a1 + 1);
    r58_2 = (uint64_t)(a2 + UINT64_C(18446744073709551609));
    r137_not = r58_2 == UINT64_C(0);
    if (r137_not) { { r7_sroa_4_0_i26 = r7_sroa_4_0; r7_0 = UINT64_C(0); goto at__chrono_reading_fitting_is_of_year_form_exit_i; } }
    { r3_08 = UINT64_C(0); goto at__join_5_2; }
    at__join_5_2:;
    r19_2 = (r55 + (int64_t)r3_08);
    LOAD(uint8_t, r19_val, r19_2);
    v9 = (uint8_t)((uint32_t)r19_val + (uint32_t)208u);
    r17_5 = v9 < 10u;
    if (r17_5) { goto at__join_8; }
    { r3_0_lcssa_i_ph = r3_08; goto at__chrono_reading_fitting_leading_digits_exit_loopexit_i_i_i_i; }
    at__join_8:;
    r33 = (uint64_t)(r3_08 + UINT64_C(1));
    exitcond_not_2 = r33 == r58_2;
    if (exitcond_not_2) { { r3_0_lcssa_i_ph = r58_2; goto at__chrono_reading_fitting_leading_digits_exit_loopexit_i_i_i_i; } }
    { r3_08 = r33; goto at__join_5_2; }
    at__chrono_reading_fitting_leading_digits_exit_loopexit_i_i_i_i:;
    v10 = r3_0_lcssa_i_ph > UINT64_C(4) ? (uint64_t)(r3_0_lcssa_i_ph - UINT64_C(4)) : UINT64_C(0);
    {
    r7_sroa_4_0_i26 = r7_sroa_4_0;
    r7_0 = v10;
    goto at__chrono_reading_fitting_is_of_year_form_exit_i;
    }
    at__then_7:;
    r83 = (a1 + 1);
    r86 = (uint64_t)(a2 + UINT64_C(18446744073709551609));
    r137_not_i47 = r86 == UINT64_C(0);
    if (r137_not_i47) { { r7_sroa_4_0_i26 = r7_sroa_4_0; r7_0 = UINT64_C(0); goto at__chrono_reading_fitting_is_of_year_form_exit_i; } }
    { r3_08_i49 = UINT64_C(0); goto at__join_5_i48; }
    at__join_5_i48:;
    r19_i50 = (r83 + (int64_t)r3_08_i49);
    LOAD(uint8_t, r19_val_i51, r19_i50);
    v11 = (uint8_t)((uint32_t)r19_val_i51 + (uint32_t)208u);
    r17_i_i_i52 = v11 < 10u;
    if (r17_i_i_i52) { goto at__join_8_i54; }
    { r3_0_lcssa_i53_ph = r3_08_i49; goto at__chrono_reading_fitting_leading_digits_exit57_loopexit_i_i_i_i; }
    at__join_8_i54:;
    r33_i55 = (uint64_t)(r3_08_i49 + UINT64_C(1));
    exitcond_not_i56 = r33_i55 == r86;
    if (exitcond_not_i56) { { r3_0_lcssa_i53_ph = r86; goto at__chrono_reading_fitting_leading_digits_exit57_loopexit_i_i_i_i; } }
    { r3_08_i49 = r33_i55; goto at__join_5_i48; }
    at__chrono_reading_fitting_leading_digits_exit57_loopexit_i_i_i_i:;
    v12 = r3_0_lcssa_i53_ph > UINT64_C(5) ? (uint64_t)(r3_0_lcssa_i53_ph - UINT64_C(5)) : UINT64_C(0);
    {
    r7_sroa_4_0_i26 = r7_sroa_4_0;
    r7_0 = v12;
    goto at__chrono_reading_fitting_is_of_year_form_exit_i;
    }
    at__chrono_reading_fitting_is_of_year_form_exit_i:;
    r21 = (uint64_t)(r7_0 + r7_sroa_4_0_i26);
    r34 = r21 == r28;
    if (r34) { goto at__arm_1_2; }
    goto at__arm_2;
    at__arm_1_2:;
    r15_sroa_0_0_extract_trunc = (uint32_t)narrow32;
    switch (a2) {
    case UINT64_C(6): { r14_sroa_0_sroa_0_0_sink = 1; r14_sroa_4_0_sink = 0; r14_sroa_7_0_sink = UINT64_C(0); goto at__common_ret; }
    case UINT64_C(10): goto at__then_12;
    default: goto at__after_5;
    }
    at__then_12:;
    LOAD(uint8_t, r76, a1);
    r81 = (a1 + 1);
    switch (r76) {
    case 45u: { r141_i91 = UINT64_C(3); r138_i89 = r81; goto at__chrono_text_read_decimal_has_decimal_form_exit_i_i_i; }
    case 43u: { r182_i97 = UINT64_C(3); r179_i95 = r81; goto at__chrono_text_read_decimal_has_decimal_form_exit_i_i70_i; }
    default: goto at__default_17;
    }
    at__default_17:;
    LOAD(uint8_t, r93, r81);
    r1_i47 = (uint8_t)((uint32_t)r76 + (uint32_t)208u);
    r18 = (uint8_t)((uint32_t)r93 + (uint32_t)208u);
    r129 = r1_i47 < 10u;
    r1710 = r18 < 10u;
    or_cond_not_i_not_not11 = (uint8_t)(((uint32_t)r129 & (uint32_t)r1710) & 1);
    r1_i5 = (uint32_t)r1_i47;
    r27 = (uint32_t)(r1_i5 * 10u);
    r1_i6 = (uint32_t)r18;
    r32 = (uint32_t)(r27 + r1_i6);
    if (or_cond_not_i_not_not11) { goto at__arm_1_3; }
    { r14_sroa_0_sroa_0_0_sink = 1; r14_sroa_4_0_sink = 0; r14_sroa_7_0_sink = UINT64_C(0); goto at__common_ret; }
    at__arm_1_3:;
    r85 = (a1 + 3);
    LOAD(uint8_t, r97, r85);
    r83_2 = (a1 + 2);
    LOAD(uint8_t, r95, r83_2);
    r1_i4_i12 = (uint8_t)((uint32_t)r95 + (uint32_t)208u);
    r1_i_i13 = (uint8_t)((uint32_t)r97 + (uint32_t)208u);
    r12_i14 = r1_i4_i12 < 10u;
    r17_i15 = r1_i_i13 < 10u;
    or_cond_not_i16_not_not = (uint8_t)(((uint32_t)r17_i15 & (uint32_t)r12_i14) & 1);
    if (or_cond_not_i16_not_not) { goto at__chrono_text_read_year_read_year_exit_thread_i; }
    { r14_sroa_0_sroa_0_0_sink = 1; r14_sroa_4_0_sink = 0; r14_sroa_7_0_sink = UINT64_C(0); goto at__common_ret; }
    at__chrono_text_read_year_read_year_exit_thread_i:;
    narrow12 = (uint8_t)((uint32_t)r1_i4_i12 * (uint32_t)10u);
    narrow1 = (uint8_t)((uint32_t)narrow12 + (uint32_t)r1_i_i13);
    r32_i20 = (uint32_t)narrow1;
    v13 = (uint32_t)(r32 * 100u);
    r98 = (uint32_t)(v13 + r32_i20);
    {
    r0_sroa_6_0_i124 = r98;
    goto at__chrono_reading_date_calendar_year_exit;
    }
    at__after_5:;
    LOAD(uint8_t, r135, a1);
    switch (r135) {
    case 45u: goto at__after_4;
    case 43u: goto at__after_3;
    default: { r14_sroa_0_sroa_0_0_sink = 1; r14_sroa_4_0_sink = 0; r14_sroa_7_0_sink = UINT64_C(0); goto at__common_ret; }
    }
    at__after_4:;
    r138 = (a1 + 1);
    r141 = (uint64_t)(a2 + UINT64_C(18446744073709551609));
    switch (a2) {
    case UINT64_C(11): goto at__then_6;
    case UINT64_C(7): { r14_sroa_0_sroa_0_0_sink = 1; r14_sroa_4_0_sink = 0; r14_sroa_7_0_sink = UINT64_C(0); goto at__common_ret; }
    case UINT64_C(8): { r141_i90 = UINT64_C(1); r138_i88 = r138; goto at__join_3; }
    default: { r141_i91 = r141; r138_i89 = r138; goto at__chrono_text_read_decimal_has_decimal_form_exit_i_i_i; }
    }
    at__then_6:;
    r42_2 = (a1 + 2);
    LOAD(uint8_t, r52, r138);
    LOAD(uint8_t, r54, r42_2);
    r1_i4_2 = (uint8_t)((uint32_t)r52 + (uint32_t)208u);
    r1_2 = (uint8_t)((uint32_t)r54 + (uint32_t)208u);
    r12_3 = r1_i4_2 < 10u;
    r17_6 = r1_2 < 10u;
    or_cond_not_i_not_not_2 = (uint8_t)(((uint32_t)r12_3 & (uint32_t)r17_6) & 1);
    r1_i5_2 = (uint32_t)r1_i4_2;
    r27_2 = (uint32_t)(r1_i5_2 * 10u);
    r1_i6_2 = (uint32_t)r1_2;
    r32_2 = (uint32_t)(r27_2 + r1_i6_2);
    if (or_cond_not_i_not_not_2) { goto at__arm_1_4; }
    { r14_sroa_0_sroa_0_0_sink = 1; r14_sroa_4_0_sink = 0; r14_sroa_7_0_sink = UINT64_C(0); goto at__common_ret; }
    at__arm_1_4:;
    r46_2 = (a1 + 4);
    LOAD(uint8_t, r58_3, r46_2);
    r44_3 = (a1 + 3);
    LOAD(uint8_t, r56, r44_3);
    r1_i4_i12_2 = (uint8_t)((uint32_t)r56 + (uint32_t)208u);
    r1_i_i13_2 = (uint8_t)((uint32_t)r58_3 + (uint32_t)208u);
    r12_i14_2 = r1_i4_i12_2 < 10u;
    r17_i15_2 = r1_i_i13_2 < 10u;
    or_cond_not_i16_not_not_2 = (uint8_t)(((uint32_t)r17_i15_2 & (uint32_t)r12_i14_2) & 1);
    if (or_cond_not_i16_not_not_2) { goto at__chrono_text_read_year_read_year_exit_i; }
    { r14_sroa_0_sroa_0_0_sink = 1; r14_sroa_4_0_sink = 0; r14_sroa_7_0_sink = UINT64_C(0); goto at__common_ret; }
    at__chrono_text_read_decimal_has_decimal_form_exit_i_i_i:;
    LOAD(uint8_t, r28_2, r138_i89);
    r30 = r28_2 != 48u;
    r37_4 = r141_i91 < UINT64_C(19);
    spec_select = (uint8_t)(((uint32_t)r37_4 & (uint32_t)r30) & 1);
    if (spec_select) { { r141_i90 = r141_i91; r138_i88 = r138_i89; goto at__join_3; } }
    { r14_sroa_0_sroa_0_0_sink = 1; r14_sroa_4_0_sink = 0; r14_sroa_7_0_sink = UINT64_C(0); goto at__common_ret; }
    at__join_3:;
    {
    r4_017 = UINT64_C(0);
    r5_016 = UINT64_C(0);
    goto at__join_54;
    }
    at__join_54:;
    r25_2 = (r138_i88 + (int64_t)r5_016);
    LOAD(uint8_t, r27_3, r25_2);
    r1_3 = (uint8_t)((uint32_t)r27_3 + (uint32_t)208u);
    r31 = r1_3 > 9;
    if (r31) { goto at__chrono_text_read_places_value_of_all_exit_i_i_i; }
    goto at__join_85;
    at__join_85:;
    r39_2 = (uint64_t)(r4_017 * UINT64_C(10));
    r1_i10 = (uint64_t)r1_3;
    r44 = (uint64_t)(r39_2 + r1_i10);
    r46 = (uint64_t)(r5_016 + UINT64_C(1));
    exitcond_not6 = r46 == r141_i90;
    if (exitcond_not6) { { r4_0_pn_i_i_i19 = r44; goto at__chrono_text_read_year_year_size_exit_i; } }
    { r4_017 = r44; r5_016 = r46; goto at__join_54; }
    at__chrono_text_read_places_value_of_all_exit_i_i_i:;
    r22_i_i_not = r5_016 < r141_i90;
    if (r22_i_i_not) { { r14_sroa_0_sroa_0_0_sink = 1; r14_sroa_4_0_sink = 0; r14_sroa_7_0_sink = UINT64_C(0); goto at__common_ret; } }
    { r4_0_pn_i_i_i19 = r4_017; goto at__chrono_text_read_year_year_size_exit_i; }
    at__chrono_text_read_year_year_size_exit_i:;
    v14 = (uint64_t)(r4_0_pn_i_i_i19 + UINT64_C(18446744073708551616));
    or_cond14 = v14 < UINT64_C(18446744073708561616);
    if (or_cond14) { { r14_sroa_0_sroa_0_0_sink = 1; r14_sroa_4_0_sink = 0; r14_sroa_7_0_sink = UINT64_C(0); goto at__common_ret; } }
    goto at__chrono_text_read_year_read_year_exit_i_thread;
    at__chrono_text_read_year_read_year_exit_i_thread:;
    r111 = (uint32_t)(r4_0_pn_i_i_i19);
    r1052 = (uint32_t)(0 - r111);
    {
    r0_sroa_6_0_i124 = r1052;
    goto at__chrono_reading_date_calendar_year_exit;
    }
    at__after_3:;
    r179 = (a1 + 1);
    r182 = (uint64_t)(a2 + UINT64_C(18446744073709551609));
    switch (a2) {
    case UINT64_C(11): { r14_sroa_0_sroa_0_0_sink = 1; r14_sroa_4_0_sink = 0; r14_sroa_7_0_sink = UINT64_C(0); goto at__common_ret; }
    case UINT64_C(7): { r14_sroa_0_sroa_0_0_sink = 1; r14_sroa_4_0_sink = 0; r14_sroa_7_0_sink = UINT64_C(0); goto at__common_ret; }
    case UINT64_C(8): { r182_i96 = UINT64_C(1); r179_i94 = r179; goto at__join_3_i_i16; }
    default: { r182_i97 = r182; r179_i95 = r179; goto at__chrono_text_read_decimal_has_decimal_form_exit_i_i70_i; }
    }
    at__chrono_text_read_decimal_has_decimal_form_exit_i_i70_i:;
    LOAD(uint8_t, r28_i_i_i71, r179_i95);
    r30_i_i_i72 = r28_i_i_i71 != 48u;
    r37_i_i_i73 = r182_i97 < UINT64_C(19);
    spec_select_i_i_i74 = (uint8_t)(((uint32_t)r37_i_i_i73 & (uint32_t)r30_i_i_i72) & 1);
    if (spec_select_i_i_i74) { { r182_i96 = r182_i97; r179_i94 = r179_i95; goto at__join_3_i_i16; } }
    { r14_sroa_0_sroa_0_0_sink = 1; r14_sroa_4_0_sink = 0; r14_sroa_7_0_sink = UINT64_C(0); goto at__common_ret; }
    at__join_3_i_i16:;
    {
    r4_017_i_i_i_i18 = UINT64_C(0);
    r5_016_i_i_i_i19 = UINT64_C(0);
    goto at__join_5_i_i_i_i17;
    }
    at__join_5_i_i_i_i17:;
    r25_i_i_i_i20_2 = (r179_i94 + (int64_t)r5_016_i_i_i_i19);
    LOAD(uint8_t, r27_i_i_i_i21, r25_i_i_i_i20_2);
    r1_i_i_i_i_i22 = (uint8_t)((uint32_t)r27_i_i_i_i21 + (uint32_t)208u);
    r31_i_i_i_i23 = r1_i_i_i_i_i22 > 9;
    if (r31_i_i_i_i23) { goto at__chrono_text_read_places_value_of_all_exit_i_i40_i; }
    goto at__join_8_i_i_i_i24;
    at__join_8_i_i_i_i24:;
    r39_i_i_i_i25 = (uint64_t)(r4_017_i_i_i_i18 * UINT64_C(10));
    r1_i10_i_i_i_i26 = (uint64_t)r1_i_i_i_i_i22;
    r44_i_i_i_i27 = (uint64_t)(r39_i_i_i_i25 + r1_i10_i_i_i_i26);
    r46_i_i_i_i28 = (uint64_t)(r5_016_i_i_i_i19 + UINT64_C(1));
    exitcond_not_i_i_i_i29 = r46_i_i_i_i28 == r182_i96;
    if (exitcond_not_i_i_i_i29) { { r4_0_pn_i_i_i19_i31 = r44_i_i_i_i27; goto at__chrono_text_read_year_year_size_exit75_i; } }
    { r4_017_i_i_i_i18 = r44_i_i_i_i27; r5_016_i_i_i_i19 = r46_i_i_i_i28; goto at__join_5_i_i_i_i17; }
    at__chrono_text_read_places_value_of_all_exit_i_i40_i:;
    r22_i_i_not_i41 = r5_016_i_i_i_i19 < r182_i96;
    if (r22_i_i_not_i41) { { r14_sroa_0_sroa_0_0_sink = 1; r14_sroa_4_0_sink = 0; r14_sroa_7_0_sink = UINT64_C(0); goto at__common_ret; } }
    { r4_0_pn_i_i_i19_i31 = r4_017_i_i_i_i18; goto at__chrono_text_read_year_year_size_exit75_i; }
    at__chrono_text_read_year_year_size_exit75_i:;
    v15 = (uint64_t)(r4_0_pn_i_i_i19_i31 + UINT64_C(18446744073708551616));
    or_cond14_i32 = v15 < UINT64_C(18446744073708561616);
    r111_i33 = (uint32_t)(r4_0_pn_i_i_i19_i31);
    if (or_cond14_i32) { { r14_sroa_0_sroa_0_0_sink = 1; r14_sroa_4_0_sink = 0; r14_sroa_7_0_sink = UINT64_C(0); goto at__common_ret; } }
    { r0_sroa_6_0_i124 = r111_i33; goto at__chrono_reading_date_calendar_year_exit; }
    at__chrono_text_read_year_read_year_exit_i:;
    narrow_3 = (uint8_t)((uint32_t)r1_i4_i12_2 * (uint32_t)10u);
    narrow1_2 = (uint8_t)((uint32_t)narrow_3 + (uint32_t)r1_i_i13_2);
    r32_i20_2 = (uint32_t)narrow1_2;
    v16 = (uint32_t)(r32_2 * 100u);
    r98_2 = (uint32_t)(v16 + r32_i20_2);
    r5_not_i_not = r98_2 == 0;
    r10 = (uint32_t)(0 - r98_2);
    if (r5_not_i_not) { { r14_sroa_0_sroa_0_0_sink = 1; r14_sroa_4_0_sink = 0; r14_sroa_7_0_sink = UINT64_C(0); goto at__common_ret; } }
    { r0_sroa_6_0_i124 = r10; goto at__chrono_reading_date_calendar_year_exit; }
    at__chrono_reading_date_calendar_year_exit:;
    v17 = (uint32_t)(r0_sroa_6_0_i124 + 262143u);
    or_cond_2 = v17 < 524286u;
    if (or_cond_2) { goto at__arm_5_2; }
    { r14_sroa_0_sroa_0_0_sink = 1; r14_sroa_4_0_sink = 0; r14_sroa_7_0_sink = UINT64_C(0); goto at__common_ret; }
    at__common_ret:;
    STORE(uint32_t, a0, r14_sroa_0_sroa_0_0_sink);
    r76_2 = (a0 + 4);
    STORE(uint32_t, r76_2, r14_sroa_4_0_sink);
    r78 = (a0 + 8);
    STORE(uint64_t, r78, r14_sroa_7_0_sink);
    return;
    at__arm_2:;
    r37 = chrono_reading_fitting_fitting_year(a1, a2, (bytes)&static_1, UINT64_C(6));
    {
    r14_sroa_0_sroa_0_0_sink = 0;
    r14_sroa_4_0_sink = 0;
    r14_sroa_7_0_sink = r37;
    goto at__common_ret;
    }
    at__arm_5_2:;
    r1113 = narrow32 == 0;
    if (r1113) { { sink21 = UINT64_C(1); sink = 2; r3_0_i_sink = 0; goto at__chrono_reading_date_calendar_error_exit; } }
    goto at__join_3_2;
    at__join_3_2:;
    r26 = narrow32 > 12u;
    if (r26) { { sink21 = UINT64_C(1); sink = 3; r3_0_i_sink = 0; goto at__chrono_reading_date_calendar_error_exit; } }
    goto at__join_6;
    at__join_6:;
    v18 = (uint8_t)((uint32_t)narrow | (uint32_t)r1_i_i10);
    r41 = v18 == 0;
    if (r41) { { sink21 = UINT64_C(4); sink = 4; r3_0_i_sink = 0; goto at__chrono_reading_date_calendar_error_exit; } }
    goto at__join_9;
    at__join_9:;
    r32_3 = narrow32 > 2;
    r36 = (uint32_t)(r15_sroa_0_0_extract_trunc | 12u);
    r6_0 = r32_3 ? r15_sroa_0_0_extract_trunc : r36;
    r3 = (uint32_t)(r6_0 * 979u);
    r5 = (uint32_t)(r3 + 4294964377u);
    r71 = (uint32_t)(r5 >> 5);
    r5_i12 = (uint32_t)(r3 + 4294965356u);
    r71_i13 = (uint32_t)(r5_i12 >> 5);
    r58_i_i_i_not = r71 < r71_i13;
    if (r58_i_i_i_not) { goto at__arm_115; }
    { sink21 = UINT64_C(4); sink = 5; r3_0_i_sink = 0; goto at__chrono_reading_date_calendar_error_exit; }
    at__arm_115:;
    r13 = (uint32_t)r32_3;
    v19 = (uint32_t)(r0_sroa_6_0_i124 + 262399u);
    r11 = (uint32_t)(v19 + r13);
    r14 = (uint32_t)(r11 / 100u);
    r16 = (uint32_t)(r11 * 1461u);
    r23 = (uint32_t)(r11 / 400u);
    reass_sub = (uint32_t)(r71 + 977901887u);
    r18_2 = (uint32_t)(reass_sub - r14);
    narrow16 = (uint32_t)(r18_2 + r23);
    r24_i_i_i_i8 = (uint32_t)(narrow16 << 2);
    r183_i_i_i_i_i_i9 = (uint32_t)(r24_i_i_i_i8 + r16);
    r1717 = (uint32_t)(r183_i_i_i_i_i_i9 & 4294967292u);
    r11_i_i_i_i_i_i1 = (uint32_t)(r1717 + 383359751u);
    r13_2 = (uint32_t)(r11_i_i_i_i_i_i1 / 146097u);
    r3_2 = (uint32_t)(r13_2 * 3);
    r71_i2 = (uint32_t)(r3_2 + r11_i_i_i_i_i_i1);
    r10_2 = (uint32_t)(r71_i2 | 3);
    r6 = (uint64_t)r10_2;
    r8 = (uint64_t)(r6 * UINT64_C(376287347));
    r1718 = (uint64_t)(r8 & UINT64_C(549755813885));
    r25_3 = (uint64_t)(r1718 * UINT64_C(1461));
    r27_4 = (uint64_t)(r25_3 >> (UINT64_C(41) & 63u));
    r29 = (uint32_t)(r27_4);
    r6_2 = (uint32_t)(r29 * 2141u);
    r8_2 = (uint32_t)(r6_2 + 197913u);
    r103 = (uint32_t)(r8_2 >> 16u);
    r35 = r1718 < UINT64_C(460575712662);
    r51 = (uint32_t)(r103 + 4294967284u);
    r10_sroa_4_0 = r35 ? r103 : r51;
    switch_tableidx = (uint32_t)(r10_sroa_4_0 + 4294967295u);
    v20 = switch_tableidx < 12u;
    if (v20) { goto at__core_option_Option_unwrap_26_chrono_units_month_Month_exit_i_i_i_i; }
    goto at__arm_2_3;
    at__arm_2_3:;
    TRAP();
    UNREACHABLE();
    at__core_option_Option_unwrap_26_chrono_units_month_Month_exit_i_i_i_i:;
    r11_i_i_i_i2 = (uint32_t)(r1717 + 383358527u);
    r13_i_i_i_i3 = (uint32_t)(r11_i_i_i_i2 / 146097u);
    r3_i_i_i_i_i_i4 = (uint32_t)(r13_i_i_i_i3 * 3);
    r71_i2_i_i_i_i_i5 = (uint32_t)(r3_i_i_i_i_i_i4 + r11_i_i_i_i2);
    r10_i_i_i_i_i6 = (uint32_t)(r71_i2_i_i_i_i_i5 | 3);
    r6_i_i_i_i_i7 = (uint64_t)r10_i_i_i_i_i6;
    r8_i_i_i_i_i8 = (uint64_t)(r6_i_i_i_i_i7 * UINT64_C(376287347));
    r10_i4 = (uint64_t)(r8_i_i_i_i_i8 >> (UINT64_C(39) & 63u));
    r12_4 = (uint32_t)(r10_i4);
    r6_i_i_i_i9 = (uint32_t)(r12_4 + 4294704897u);
    v21 = (uint32_t)(r12_4 + 4294967040u);
    spec_select_i_i_i_i2 = v21 < 524286u;
    if (spec_select_i_i_i_i2) { goto at__then_1_2; }
    goto at__arm_2_i11;
    at__then_1_2:;
    r6_3 = (uint32_t)((int32_t)r6_i_i_i_i9 % (int32_t)100u);
    r8_3 = r6_3 == 0;
    if (r8_3) { goto at__then_1_3; }
    goto at__else_2;
    at__then_1_3:;
    r12 = (uint32_t)((int32_t)r6_i_i_i_i9 % (int32_t)400u);
    {
    r3_0_in_in = r12;
    goto at__chrono_units_year_is_leap_year_exit_i_i_i_i_i;
    }
    at__else_2:;
    v22 = (uint32_t)(r6_i_i_i_i9 & 3);
    {
    r3_0_in_in = v22;
    goto at__chrono_units_year_is_leap_year_exit_i_i_i_i_i;
    }
    at__chrono_units_year_is_leap_year_exit_i_i_i_i_i:;
    r18_i_i_i_i3 = r10_sroa_4_0 == 2;
    if (r18_i_i_i_i3) { goto at__then_1_i3; }
    goto at__else_2_i2;
    at__then_1_i3:;
    r3_0_in = r3_0_in_in == 0;
    r1_4 = (uint32_t)r3_0_in;
    r24_i_i_i_i4 = (uint32_t)(r1_4 | 28u);
    {
    sink21 = UINT64_C(4);
    sink = 5;
    r3_0_i_sink = r24_i_i_i_i4;
    goto at__chrono_reading_date_calendar_error_exit;
    }
    at__else_2_i2:;
    r91 = (uint32_t)(r10_sroa_4_0 >> 3);
    r11_2 = (uint32_t)(r91 + r10_sroa_4_0);
    r17 = (uint32_t)(r11_2 | 30u);
    {
    sink21 = UINT64_C(4);
    sink = 5;
    r3_0_i_sink = r17;
    goto at__chrono_reading_date_calendar_error_exit;
    }
    at__arm_2_i11:;
    TRAP();
    UNREACHABLE();
    at__chrono_reading_date_calendar_error_exit:;
    r59 = (uint64_t)(sink21 + r28);
    {
    r14_sroa_0_sroa_0_0_sink = sink;
    r14_sroa_4_0_sink = r3_0_i_sink;
    r14_sroa_7_0_sink = r59;
    goto at__common_ret;
    }
}

static uint64_t chrono_reading_fitting_fitting_year(bytes a0, uint64_t a1, bytes a2, uint64_t a3)
{
    uint64_t r5_010, r5_0_lcssa_i_ph, r5_010_i_i7, r5_0_lcssa_i_ph_i15, r7_sroa_4_0, r5_0106, r5_0_lcssa_i_ph14, r3_08, r3_0_lcssa_i_ph, r3_08_i49, r3_0_lcssa_i53_ph, r7_048, r5_010_2, r5_0_lcssa, r3_0824, r3_0_lcssa, r5_010_i23, r5_0_lcssa_i30, common_ret_op, invariant_umin, r58, pre, r58_i_i18, r5816, r58_2, r33, v10, r86, r33_i55, v12, invariant_umin_2, r58_3, r42, r3331, r5829, r61, r68, invariant_umin_i20, r58_i32, r84;
    bytes r7_sroa_0_0, r37, r42_2, r37_i_i8, r42_i_i10, r377, r429, r55, r19, r83, r19_i50, r37_2, r42_3, r38, r1925, r64, r37_i24, r42_i26;
    uint8_t or_cond9_not, r39, r44, v0, r4_0_in, r25, v1, r17, exitcond_not, v2, r39_i_i9, r44_i_i11, v3, r4_0_in_i_i_i13, r25_i_i_i23, v4, r17_i_i_i_i_i21, exitcond_not_i_i19, v5, r44_i_i32, r398, r4410, v6, r4_0_in12, r2521, v7, r1719, exitcond_not17, v8, r44_i_i12, r137_not, r19_val, v9, r17_2, exitcond_not_2, r137_not_i47, r19_val_i51, v11, r17_i_i_i52, exitcond_not_i56, r39_2, r44_2, v13, r4_0_in_2, r25_2, v14, r17_3, exitcond_not32, r30, r137_not23, r19_val26, v15, r1727, exitcond_not_i19, r52, or_cond9_not_i21, r39_i25, r44_i27, v16, r4_0_in_i_i29, r25_i_i37, v17, r17_i_i_i_i35, exitcond_not_i33;
    invariant_umin = a1 < UINT64_C(4) ? a1 : UINT64_C(4);
    or_cond9_not = a1 == UINT64_C(0);
    if (or_cond9_not) { { common_ret_op = UINT64_C(0); goto at__chrono_reading_fitting_fitting_pieces_exit; } }
    { r5_010 = UINT64_C(0); goto at__join_5; }
    at__join_5:;
    r37 = ((bytes)&static_3 + (int64_t)r5_010);
    LOAD(uint8_t, r39, r37);
    r42_2 = (a0 + (int64_t)r5_010);
    LOAD(uint8_t, r44, r42_2);
    switch (r39) {
    case 100u: goto at__chrono_reading_fitting_stands_for_exit_i_i_i;
    case 110u: goto at__arm_2;
    default: goto at__default_3;
    }
    at__arm_2:;
    v0 = (uint8_t)((uint32_t)r44 + (uint32_t)207u);
    r4_0_in = v0 < 9;
    if (r4_0_in) { goto at__join_11; }
    { r5_0_lcssa_i_ph = r5_010; goto at__chrono_reading_fitting_fits_front_exit_i; }
    at__default_3:;
    r25 = r44 == r39;
    if (r25) { goto at__join_11; }
    { r5_0_lcssa_i_ph = r5_010; goto at__chrono_reading_fitting_fits_front_exit_i; }
    at__chrono_reading_fitting_stands_for_exit_i_i_i:;
    v1 = (uint8_t)((uint32_t)r44 + (uint32_t)208u);
    r17 = v1 < 10u;
    if (r17) { goto at__join_11; }
    { r5_0_lcssa_i_ph = r5_010; goto at__chrono_reading_fitting_fits_front_exit_i; }
    at__join_11:;
    r58 = (uint64_t)(r5_010 + UINT64_C(1));
    exitcond_not = r58 == invariant_umin;
    if (exitcond_not) { { r5_0_lcssa_i_ph = invariant_umin; goto at__chrono_reading_fitting_fits_front_exit_i; } }
    { r5_010 = r58; goto at__join_5; }
    at__chrono_reading_fitting_fits_front_exit_i:;
    v2 = r5_0_lcssa_i_ph == UINT64_C(4);
    pre = a1 < UINT64_C(2) ? a1 : UINT64_C(2);
    if (v2) { { r7_sroa_4_0 = UINT64_C(5); r7_sroa_0_0 = (bytes)&static_4; goto at__chrono_reading_fitting_year_front_exit; } }
    { r5_010_i_i7 = UINT64_C(0); goto at__join_5_i_i6; }
    at__join_5_i_i6:;
    r37_i_i8 = ((bytes)&static_5 + (int64_t)r5_010_i_i7);
    LOAD(uint8_t, r39_i_i9, r37_i_i8);
    r42_i_i10 = (a0 + (int64_t)r5_010_i_i7);
    LOAD(uint8_t, r44_i_i11, r42_i_i10);
    switch (r39_i_i9) {
    case 100u: goto at__chrono_reading_fitting_stands_for_exit_i_i20_i;
    case 110u: goto at__arm_2_i_i_i12;
    default: goto at__default_3_i_i_i22;
    }
    at__arm_2_i_i_i12:;
    v3 = (uint8_t)((uint32_t)r44_i_i11 + (uint32_t)207u);
    r4_0_in_i_i_i13 = v3 < 9;
    if (r4_0_in_i_i_i13) { goto at__join_11_i_i17; }
    { r5_0_lcssa_i_ph_i15 = r5_010_i_i7; goto at__chrono_reading_fitting_fits_front_exit24_i; }
    at__default_3_i_i_i22:;
    r25_i_i_i23 = r44_i_i11 == r39_i_i9;
    if (r25_i_i_i23) { goto at__join_11_i_i17; }
    { r5_0_lcssa_i_ph_i15 = r5_010_i_i7; goto at__chrono_reading_fitting_fits_front_exit24_i; }
    at__chrono_reading_fitting_stands_for_exit_i_i20_i:;
    v4 = (uint8_t)((uint32_t)r44_i_i11 + (uint32_t)208u);
    r17_i_i_i_i_i21 = v4 < 10u;
    if (r17_i_i_i_i_i21) { goto at__join_11_i_i17; }
    { r5_0_lcssa_i_ph_i15 = r5_010_i_i7; goto at__chrono_reading_fitting_fits_front_exit24_i; }
    at__join_11_i_i17:;
    r58_i_i18 = (uint64_t)(r5_010_i_i7 + UINT64_C(1));
    exitcond_not_i_i19 = r58_i_i18 == pre;
    if (exitcond_not_i_i19) { { r5_0_lcssa_i_ph_i15 = pre; goto at__chrono_reading_fitting_fits_front_exit24_i; } }
    { r5_010_i_i7 = r58_i_i18; goto at__join_5_i_i6; }
    at__chrono_reading_fitting_fits_front_exit24_i:;
    v5 = r5_0_lcssa_i_ph_i15 == UINT64_C(2);
    if (v5) { { r7_sroa_4_0 = UINT64_C(5); r7_sroa_0_0 = (bytes)&static_6; goto at__chrono_reading_fitting_year_front_exit; } }
    goto at__join_5_i_i27_preheader;
    at__join_5_i_i27_preheader:;
    LOAD(uint8_t, r44_i_i32, a0);
    switch (r44_i_i32) {
    case 45u: { r7_sroa_4_0 = UINT64_C(5); r7_sroa_0_0 = (bytes)&static_8; goto at__chrono_reading_fitting_year_front_exit; }
    case 43u: goto at__join_11_i_i59;
    default: goto at__join_3_fold_split;
    }
    at__join_11_i_i59:;
    {
    r7_sroa_4_0 = UINT64_C(6);
    r7_sroa_0_0 = (bytes)&static_10;
    goto at__chrono_reading_fitting_year_front_exit;
    }
    at__join_3_fold_split:;
    {
    r7_sroa_4_0 = UINT64_C(4);
    r7_sroa_0_0 = (bytes)&static_11;
    goto at__chrono_reading_fitting_year_front_exit;
    }
    at__chrono_reading_fitting_year_front_exit:;
    {
    r5_0106 = UINT64_C(0);
    goto at__join_55;
    }
    at__join_55:;
    r377 = ((bytes)&static_5 + (int64_t)r5_0106);
    LOAD(uint8_t, r398, r377);
    r429 = (a0 + (int64_t)r5_0106);
    LOAD(uint8_t, r4410, r429);
    switch (r398) {
    case 100u: goto at__chrono_reading_fitting_stands_for_exit_i_i_i18;
    case 110u: goto at__arm_211;
    default: goto at__default_320;
    }
    at__arm_211:;
    v6 = (uint8_t)((uint32_t)r4410 + (uint32_t)207u);
    r4_0_in12 = v6 < 9;
    if (r4_0_in12) { goto at__join_1115; }
    { r5_0_lcssa_i_ph14 = r5_0106; goto at__chrono_reading_fitting_fits_front_exit_i13; }
    at__default_320:;
    r2521 = r4410 == r398;
    if (r2521) { goto at__join_1115; }
    { r5_0_lcssa_i_ph14 = r5_0106; goto at__chrono_reading_fitting_fits_front_exit_i13; }
    at__chrono_reading_fitting_stands_for_exit_i_i_i18:;
    v7 = (uint8_t)((uint32_t)r4410 + (uint32_t)208u);
    r1719 = v7 < 10u;
    if (r1719) { goto at__join_1115; }
    { r5_0_lcssa_i_ph14 = r5_0106; goto at__chrono_reading_fitting_fits_front_exit_i13; }
    at__join_1115:;
    r5816 = (uint64_t)(r5_0106 + UINT64_C(1));
    exitcond_not17 = r5816 == pre;
    if (exitcond_not17) { { r5_0_lcssa_i_ph14 = pre; goto at__chrono_reading_fitting_fits_front_exit_i13; } }
    { r5_0106 = r5816; goto at__join_55; }
    at__chrono_reading_fitting_fits_front_exit_i13:;
    v8 = r5_0_lcssa_i_ph14 == UINT64_C(2);
    if (v8) { { r7_048 = UINT64_C(0); goto at__join_5_i_i22_preheader; } }
    goto at__join_5_i_i7_preheader;
    at__join_5_i_i7_preheader:;
    LOAD(uint8_t, r44_i_i12, a0);
    switch (r44_i_i12) {
    case 45u: goto at__then_4;
    case 43u: goto at__then_7;
    default: { r7_048 = UINT64_C(0); goto at__join_5_i_i22_preheader; }
    }
    at__then_4:;
    r55 = (a0 + 1);
    r58_2 = (uint64_t)(a1 + UINT64_C(18446744073709551615));
    r137_not = r58_2 == UINT64_C(0);
    if (r137_not) { { r7_048 = UINT64_C(0); goto at__join_5_i_i22_preheader; } }
    { r3_08 = UINT64_C(0); goto at__join_5_2; }
    at__join_5_2:;
    r19 = (r55 + (int64_t)r3_08);
    LOAD(uint8_t, r19_val, r19);
    v9 = (uint8_t)((uint32_t)r19_val + (uint32_t)208u);
    r17_2 = v9 < 10u;
    if (r17_2) { goto at__join_8; }
    { r3_0_lcssa_i_ph = r3_08; goto at__chrono_reading_fitting_leading_digits_exit_loopexit_i; }
    at__join_8:;
    r33 = (uint64_t)(r3_08 + UINT64_C(1));
    exitcond_not_2 = r33 == r58_2;
    if (exitcond_not_2) { { r3_0_lcssa_i_ph = r58_2; goto at__chrono_reading_fitting_leading_digits_exit_loopexit_i; } }
    { r3_08 = r33; goto at__join_5_2; }
    at__chrono_reading_fitting_leading_digits_exit_loopexit_i:;
    v10 = r3_0_lcssa_i_ph > UINT64_C(4) ? (uint64_t)(r3_0_lcssa_i_ph - UINT64_C(4)) : UINT64_C(0);
    {
    r7_048 = v10;
    goto at__join_5_i_i22_preheader;
    }
    at__then_7:;
    r83 = (a0 + 1);
    r86 = (uint64_t)(a1 + UINT64_C(18446744073709551615));
    r137_not_i47 = r86 == UINT64_C(0);
    if (r137_not_i47) { { r7_048 = UINT64_C(0); goto at__join_5_i_i22_preheader; } }
    { r3_08_i49 = UINT64_C(0); goto at__join_5_i48; }
    at__join_5_i48:;
    r19_i50 = (r83 + (int64_t)r3_08_i49);
    LOAD(uint8_t, r19_val_i51, r19_i50);
    v11 = (uint8_t)((uint32_t)r19_val_i51 + (uint32_t)208u);
    r17_i_i_i52 = v11 < 10u;
    if (r17_i_i_i52) { goto at__join_8_i54; }
    { r3_0_lcssa_i53_ph = r3_08_i49; goto at__chrono_reading_fitting_leading_digits_exit57_loopexit_i; }
    at__join_8_i54:;
    r33_i55 = (uint64_t)(r3_08_i49 + UINT64_C(1));
    exitcond_not_i56 = r33_i55 == r86;
    if (exitcond_not_i56) { { r3_0_lcssa_i53_ph = r86; goto at__chrono_reading_fitting_leading_digits_exit57_loopexit_i; } }
    { r3_08_i49 = r33_i55; goto at__join_5_i48; }
    at__chrono_reading_fitting_leading_digits_exit57_loopexit_i:;
    v12 = r3_0_lcssa_i53_ph > UINT64_C(5) ? (uint64_t)(r3_0_lcssa_i53_ph - UINT64_C(5)) : UINT64_C(0);
    {
    r7_048 = v12;
    goto at__join_5_i_i22_preheader;
    }
    at__join_5_i_i22_preheader:;
    invariant_umin_2 = r7_sroa_4_0 < a1 ? r7_sroa_4_0 : a1;
    {
    r5_010_2 = UINT64_C(0);
    goto at__join_522;
    }
    at__join_522:;
    r37_2 = (r7_sroa_0_0 + (int64_t)r5_010_2);
    LOAD(uint8_t, r39_2, r37_2);
    r42_3 = (a0 + (int64_t)r5_010_2);
    LOAD(uint8_t, r44_2, r42_3);
    switch (r39_2) {
    case 100u: goto at__chrono_reading_fitting_stands_for_exit_i_i;
    case 110u: goto at__arm_2_2;
    default: goto at__default_3_2;
    }
    at__arm_2_2:;
    v13 = (uint8_t)((uint32_t)r44_2 + (uint32_t)207u);
    r4_0_in_2 = v13 < 9;
    if (r4_0_in_2) { goto at__join_11_2; }
    { r5_0_lcssa = r5_010_2; goto at__chrono_reading_fitting_fitting_len_exit_i; }
    at__default_3_2:;
    r25_2 = r44_2 == r39_2;
    if (r25_2) { goto at__join_11_2; }
    { r5_0_lcssa = r5_010_2; goto at__chrono_reading_fitting_fitting_len_exit_i; }
    at__chrono_reading_fitting_stands_for_exit_i_i:;
    v14 = (uint8_t)((uint32_t)r44_2 + (uint32_t)208u);
    r17_3 = v14 < 10u;
    if (r17_3) { goto at__join_11_2; }
    { r5_0_lcssa = r5_010_2; goto at__chrono_reading_fitting_fitting_len_exit_i; }
    at__join_11_2:;
    r58_3 = (uint64_t)(r5_010_2 + UINT64_C(1));
    exitcond_not32 = r58_3 == invariant_umin_2;
    if (exitcond_not32) { { r5_0_lcssa = invariant_umin_2; goto at__chrono_reading_fitting_fitting_len_exit_i; } }
    { r5_010_2 = r58_3; goto at__join_522; }
    at__chrono_reading_fitting_fitting_len_exit_i:;
    r30 = r5_0_lcssa < r7_sroa_4_0;
    if (r30) { { common_ret_op = r5_0_lcssa; goto at__chrono_reading_fitting_fitting_pieces_exit; } }
    goto at__join_3;
    at__join_3:;
    r38 = (a0 + (int64_t)r5_0_lcssa);
    r42 = (uint64_t)(a1 - r5_0_lcssa);
    r137_not23 = r42 == UINT64_C(0);
    if (r137_not23) { { r3_0_lcssa = UINT64_C(0); goto at__chrono_reading_fitting_leading_digits_exit_i; } }
    { r3_0824 = UINT64_C(0); goto at__join_5_i18; }
    at__join_5_i18:;
    r1925 = (r38 + (int64_t)r3_0824);
    LOAD(uint8_t, r19_val26, r1925);
    v15 = (uint8_t)((uint32_t)r19_val26 + (uint32_t)208u);
    r1727 = v15 < 10u;
    if (r1727) { goto at__join_830; }
    { r3_0_lcssa = r3_0824; goto at__chrono_reading_fitting_leading_digits_exit_i; }
    at__join_830:;
    r3331 = (uint64_t)(r3_0824 + UINT64_C(1));
    exitcond_not_i19 = r3331 == r42;
    if (exitcond_not_i19) { { r3_0_lcssa = r42; goto at__chrono_reading_fitting_leading_digits_exit_i; } }
    { r3_0824 = r3331; goto at__join_5_i18; }
    at__chrono_reading_fitting_leading_digits_exit_i:;
    r52 = r3_0_lcssa < r7_048;
    if (r52) { goto at__then_428; }
    goto at__join_6;
    at__then_428:;
    r5829 = (uint64_t)(r3_0_lcssa + r5_0_lcssa);
    {
    common_ret_op = r5829;
    goto at__chrono_reading_fitting_fitting_pieces_exit;
    }
    at__join_6:;
    r61 = (uint64_t)(r5_0_lcssa + r7_048);
    r64 = (a0 + (int64_t)r61);
    r68 = (uint64_t)(a1 - r61);
    invariant_umin_i20 = a3 < r68 ? a3 : r68;
    or_cond9_not_i21 = invariant_umin_i20 == UINT64_C(0);
    if (or_cond9_not_i21) { { r5_0_lcssa_i30 = UINT64_C(0); goto at__chrono_reading_fitting_fitting_len_exit38_i; } }
    { r5_010_i23 = UINT64_C(0); goto at__join_5_i22; }
    at__join_5_i22:;
    r37_i24 = (a2 + (int64_t)r5_010_i23);
    LOAD(uint8_t, r39_i25, r37_i24);
    r42_i26 = (r64 + (int64_t)r5_010_i23);
    LOAD(uint8_t, r44_i27, r42_i26);
    switch (r39_i25) {
    case 100u: goto at__chrono_reading_fitting_stands_for_exit_i34_i;
    case 110u: goto at__arm_2_i_i28;
    default: goto at__default_3_i_i36;
    }
    at__arm_2_i_i28:;
    v16 = (uint8_t)((uint32_t)r44_i27 + (uint32_t)207u);
    r4_0_in_i_i29 = v16 < 9;
    if (r4_0_in_i_i29) { goto at__join_11_i31; }
    { r5_0_lcssa_i30 = r5_010_i23; goto at__chrono_reading_fitting_fitting_len_exit38_i; }
    at__default_3_i_i36:;
    r25_i_i37 = r44_i27 == r39_i25;
    if (r25_i_i37) { goto at__join_11_i31; }
    { r5_0_lcssa_i30 = r5_010_i23; goto at__chrono_reading_fitting_fitting_len_exit38_i; }
    at__chrono_reading_fitting_stands_for_exit_i34_i:;
    v17 = (uint8_t)((uint32_t)r44_i27 + (uint32_t)208u);
    r17_i_i_i_i35 = v17 < 10u;
    if (r17_i_i_i_i35) { goto at__join_11_i31; }
    { r5_0_lcssa_i30 = r5_010_i23; goto at__chrono_reading_fitting_fitting_len_exit38_i; }
    at__join_11_i31:;
    r58_i32 = (uint64_t)(r5_010_i23 + UINT64_C(1));
    exitcond_not_i33 = r58_i32 == invariant_umin_i20;
    if (exitcond_not_i33) { { r5_0_lcssa_i30 = invariant_umin_i20; goto at__chrono_reading_fitting_fitting_len_exit38_i; } }
    { r5_010_i23 = r58_i32; goto at__join_5_i22; }
    at__chrono_reading_fitting_fitting_len_exit38_i:;
    r84 = (uint64_t)(r5_0_lcssa_i30 + r61);
    {
    common_ret_op = r84;
    goto at__chrono_reading_fitting_fitting_pieces_exit;
    }
    at__chrono_reading_fitting_fitting_pieces_exit:;
    return common_ret_op;
}

static t_struct_i64_i32_end in_calendar_read_date_time(bytes a0, uint64_t a1)
{
    uint64_t r3_06, r14185, r14184, r4_01720, r5_01621, r4_0_pn_i_i_i1933, r18298, r18297, r4_017, r5_016, r4_0_pn_i_i_i19, r7_sroa_0_0, r44, r141, r3927, r1_i1028, r4429, r4630, v1, r182, r39, r1_i10, r44_2, r46, v3, r1_2, r1_i10_2, r45, r1_i14, x, r81, r88, r21_val13, r4_sroa_8_12_extract_shift, r3_sroa_5_sroa_0_0_insert_insert, r1_3, r39_2, r42;
    bytes r13883, r13882, r17996, r17995, r21, r6, r22, r22_i_i_i_le, r37, r21_i_sroa_7_0_r5_sroa_3_0_copyload_i_sroa_idx, r21_i_sroa_8_0_r5_sroa_3_0_copyload_i_sroa_idx, r21_i_sroa_9_0_r5_sroa_3_0_copyload_i_sroa_idx, r21_i_sroa_6_0_r5_sroa_3_0_copyload_i_sroa_idx, r21_i_sroa_5_0_r5_sroa_3_0_copyload_i_sroa_idx, r81_i12, r138, r4245, r4658, r4460, r2522, r179, r42_2, r46_2, r44_3, r25_2, r83, r84, v8;
    uint32_t r0_sroa_5_038, r0_sroa_5_011, r0_sroa_6_0_i10121, r3_0_in_in, r7_sroa_4_0, r1_i553, r2754, r1_i655, r3256, r32_i2070, v0, r9871, r11135, r23_sroa_4_037, r10, r1_i5, r27, r1_i6, r3215, r32_i20, v2, r98, r111, r23_sroa_4_0, r1_i5_2, r27_3, r1_i6_2, r32, r32_i20_2, v4, r98_2, r18_sroa_0_0_extract_trunc, r36, r6_0, r3, r5, r71, r5_i12, r71_i13, r6_2, r12, v6, v7, old, r3_0, r11, r23, r14, r16, r183, r91, r4_sroa_8_12_extract_trunc, r26, r18_2, r24, r46_4;
    uint8_t r0_sroa_0_sroa_0_039, r0_sroa_0_sroa_0_012, r165_not, r25, exitcond_not, r17, r21_i_sroa_0_0_copyload, r21_i_sroa_7_0_copyload, r21_i_sroa_8_0_copyload, r21_i_sroa_9_0_copyload, cond, cond1, or_cond, r21_i_sroa_6_0_copyload, r21_i_sroa_5_0_copyload, r1_i4, r1, r12_2, r17_2, or_cond_not_i_not_not, r1_i4_i9, r1_i_i10, r12_i11, r17_i12, or_cond_not_i13_not_not, narrow, narrow120, narrow_2, narrow32, r76, r135, r5246, r5447, r1_i448, r149, r1250, r1751, or_cond_not_i_not_not52, r5859, r5661, r1_i4_i1262, r1_i_i1363, r12_i1464, r17_i1565, or_cond_not_i16_not_not66, narrow68, narrow169, r2873, r3074, r3775, spec_select76, r2723, r124, r3125, exitcond_not31, r22_i_i_not43, or_cond1434, r5_not, or_cond_2, r52, r54, r1_i4_2, r113, r12_3, r1714, or_cond_not_i_not_not_2, r58, r56, r1_i4_i12, r1_i_i13, r12_i14, r17_i15, or_cond_not_i16_not_not, narrow16, narrow1, r28, r30, r3717, spec_select, r27_2, r110, r31, exitcond_not_2, r22_i_i_not, or_cond14, r4, or_cond129, r93, r1_i4_3, r18, r12_4, r17_3, or_cond_not_i_not_not_3, r2_sroa_5_0_extract_trunc, r2_sroa_4_0_extract_trunc, r1_i4_i12_2, r1_i_i13_2, r12_i14_2, r17_i15_2, or_cond_not_i16_not_not_2, narrow_3, narrow1_2, v5, or_cond7, r32_2, r46_3, r58_2, r66, r8, r3_0_in, r75, spec_select_2, or_cond16, spec_select_i_old, r21_val, not;
    uint16_t r95, r2_sroa_5_0_extract_shift;
    t_struct_i64_i32_end r15_fca_0_insert, r15_fca_1_insert;
    uint64_t room_r21[2];
    uint64_t room_r6[2];
    r21 = (bytes)room_r21;
    r6 = (bytes)room_r6;
    memset(r6, 0, UINT64_C(16));
    memset(r21, 0, UINT64_C(12));
    r165_not = a1 == UINT64_C(0);
    if (r165_not) { goto at__core_result_Result_ok_62de35dfb3c59ee2_exit; }
    { r3_06 = UINT64_C(0); goto at__join_6; }
    at__join_6:;
    r22 = (a0 + (int64_t)r3_06);
    LOAD(uint8_t, r25, r22);
    switch (r25) {
    case 84u: goto at__chrono_reading_date_time_separator_at_exit_i_i;
    case 32u: goto at__chrono_reading_date_time_separator_at_exit_i_i;
    default: goto at__after_7;
    }
    at__after_7:;
    r44 = (uint64_t)(r3_06 + UINT64_C(1));
    exitcond_not = r44 == a1;
    if (exitcond_not) { goto at__core_result_Result_ok_62de35dfb3c59ee2_exit; }
    { r3_06 = r44; goto at__join_6; }
    at__chrono_reading_date_time_separator_at_exit_i_i:;
    r22_i_i_i_le = (a0 + (int64_t)r3_06);
    r17 = r3_06 < UINT64_C(6);
    if (r17) { goto at__core_result_Result_ok_62de35dfb3c59ee2_exit; }
    goto at__arm_1;
    at__arm_1:;
    r37 = (r22_i_i_i_le - 6);
    LOAD(uint8_t, r21_i_sroa_0_0_copyload, r37);
    r21_i_sroa_7_0_r5_sroa_3_0_copyload_i_sroa_idx = (r22_i_i_i_le - 3);
    LOAD(uint8_t, r21_i_sroa_7_0_copyload, r21_i_sroa_7_0_r5_sroa_3_0_copyload_i_sroa_idx);
    r21_i_sroa_8_0_r5_sroa_3_0_copyload_i_sroa_idx = (r22_i_i_i_le - 2);
    LOAD(uint8_t, r21_i_sroa_8_0_copyload, r21_i_sroa_8_0_r5_sroa_3_0_copyload_i_sroa_idx);
    r21_i_sroa_9_0_r5_sroa_3_0_copyload_i_sroa_idx = (r22_i_i_i_le - 1);
    LOAD(uint8_t, r21_i_sroa_9_0_copyload, r21_i_sroa_9_0_r5_sroa_3_0_copyload_i_sroa_idx);
    cond = r21_i_sroa_0_0_copyload == 45u;
    cond1 = r21_i_sroa_7_0_copyload == 45u;
    or_cond = cond ? cond1 : 0;
    if (or_cond) { goto at__arm_6_i18; }
    goto at__core_result_Result_ok_62de35dfb3c59ee2_exit;
    at__arm_6_i18:;
    r21_i_sroa_6_0_r5_sroa_3_0_copyload_i_sroa_idx = (r22_i_i_i_le - 4);
    LOAD(uint8_t, r21_i_sroa_6_0_copyload, r21_i_sroa_6_0_r5_sroa_3_0_copyload_i_sroa_idx);
    r21_i_sroa_5_0_r5_sroa_3_0_copyload_i_sroa_idx = (r22_i_i_i_le - 5);
    LOAD(uint8_t, r21_i_sroa_5_0_copyload, r21_i_sroa_5_0_r5_sroa_3_0_copyload_i_sroa_idx);
    r1_i4 = (uint8_t)((uint32_t)r21_i_sroa_5_0_copyload + (uint32_t)208u);
    r1 = (uint8_t)((uint32_t)r21_i_sroa_6_0_copyload + (uint32_t)208u);
    r12_2 = r1_i4 < 10u;
    r17_2 = r1 < 10u;
    or_cond_not_i_not_not = (uint8_t)(((uint32_t)r17_2 & (uint32_t)r12_2) & 1);
    if (or_cond_not_i_not_not) { goto at__arm_9_i19; }
    goto at__core_result_Result_ok_62de35dfb3c59ee2_exit;
    at__arm_9_i19:;
    r1_i4_i9 = (uint8_t)((uint32_t)r21_i_sroa_8_0_copyload + (uint32_t)208u);
    r1_i_i10 = (uint8_t)((uint32_t)r21_i_sroa_9_0_copyload + (uint32_t)208u);
    r12_i11 = r1_i4_i9 < 10u;
    r17_i12 = r1_i_i10 < 10u;
    or_cond_not_i13_not_not = (uint8_t)(((uint32_t)r12_i11 & (uint32_t)r17_i12) & 1);
    if (or_cond_not_i13_not_not) { goto at__arm_6; }
    goto at__core_result_Result_ok_62de35dfb3c59ee2_exit;
    at__arm_6:;
    narrow = (uint8_t)((uint32_t)r1_i4_i9 * (uint32_t)10u);
    narrow120 = (uint8_t)((uint32_t)narrow + (uint32_t)r1_i_i10);
    narrow_2 = (uint8_t)((uint32_t)r1_i4 * (uint32_t)10u);
    narrow32 = (uint8_t)((uint32_t)narrow_2 + (uint32_t)r1);
    switch (r3_06) {
    case UINT64_C(6): goto at__core_result_Result_ok_62de35dfb3c59ee2_exit;
    case UINT64_C(10): goto at__then_12;
    default: goto at__after_5;
    }
    at__then_12:;
    LOAD(uint8_t, r76, a0);
    r81_i12 = (a0 + 1);
    switch (r76) {
    case 45u: { r14185 = UINT64_C(3); r13883 = r81_i12; goto at__chrono_text_read_decimal_has_decimal_form_exit_i_i72; }
    case 43u: { r18298 = UINT64_C(3); r17996 = r81_i12; goto at__chrono_text_read_decimal_has_decimal_form_exit_i_i; }
    default: goto at__chrono_text_read_year_read_year_exit_i_i;
    }
    at__after_5:;
    LOAD(uint8_t, r135, a0);
    switch (r135) {
    case 45u: goto at__after_4;
    case 43u: goto at__after_3;
    default: goto at__core_result_Result_ok_62de35dfb3c59ee2_exit;
    }
    at__after_4:;
    r138 = (a0 + 1);
    r141 = (uint64_t)(r3_06 + UINT64_C(18446744073709551609));
    switch (r3_06) {
    case UINT64_C(11): goto at__then_644;
    case UINT64_C(7): goto at__core_result_Result_ok_62de35dfb3c59ee2_exit;
    case UINT64_C(8): { r14184 = UINT64_C(1); r13882 = r138; goto at__join_318; }
    default: { r14185 = r141; r13883 = r138; goto at__chrono_text_read_decimal_has_decimal_form_exit_i_i72; }
    }
    at__then_644:;
    r4245 = (a0 + 2);
    LOAD(uint8_t, r5246, r138);
    LOAD(uint8_t, r5447, r4245);
    r1_i448 = (uint8_t)((uint32_t)r5246 + (uint32_t)208u);
    r149 = (uint8_t)((uint32_t)r5447 + (uint32_t)208u);
    r1250 = r1_i448 < 10u;
    r1751 = r149 < 10u;
    or_cond_not_i_not_not52 = (uint8_t)(((uint32_t)r1250 & (uint32_t)r1751) & 1);
    r1_i553 = (uint32_t)r1_i448;
    r2754 = (uint32_t)(r1_i553 * 10u);
    r1_i655 = (uint32_t)r149;
    r3256 = (uint32_t)(r2754 + r1_i655);
    if (or_cond_not_i_not_not52) { goto at__arm_157; }
    goto at__core_result_Result_ok_62de35dfb3c59ee2_exit;
    at__arm_157:;
    r4658 = (a0 + 4);
    LOAD(uint8_t, r5859, r4658);
    r4460 = (a0 + 3);
    LOAD(uint8_t, r5661, r4460);
    r1_i4_i1262 = (uint8_t)((uint32_t)r5661 + (uint32_t)208u);
    r1_i_i1363 = (uint8_t)((uint32_t)r5859 + (uint32_t)208u);
    r12_i1464 = r1_i4_i1262 < 10u;
    r17_i1565 = r1_i_i1363 < 10u;
    or_cond_not_i16_not_not66 = (uint8_t)(((uint32_t)r17_i1565 & (uint32_t)r12_i1464) & 1);
    if (or_cond_not_i16_not_not66) { goto at__arm_667; }
    goto at__core_result_Result_ok_62de35dfb3c59ee2_exit;
    at__arm_667:;
    narrow68 = (uint8_t)((uint32_t)r1_i4_i1262 * (uint32_t)10u);
    narrow169 = (uint8_t)((uint32_t)narrow68 + (uint32_t)r1_i_i1363);
    r32_i2070 = (uint32_t)narrow169;
    v0 = (uint32_t)(r3256 * 100u);
    r9871 = (uint32_t)(v0 + r32_i2070);
    {
    r0_sroa_5_038 = r9871;
    r0_sroa_0_sroa_0_039 = 1;
    goto at__chrono_text_read_year_year_size_exit77;
    }
    at__chrono_text_read_decimal_has_decimal_form_exit_i_i72:;
    LOAD(uint8_t, r2873, r13883);
    r3074 = r2873 != 48u;
    r3775 = r14185 < UINT64_C(19);
    spec_select76 = (uint8_t)(((uint32_t)r3775 & (uint32_t)r3074) & 1);
    if (spec_select76) { { r14184 = r14185; r13882 = r13883; goto at__join_318; } }
    goto at__core_result_Result_ok_62de35dfb3c59ee2_exit;
    at__join_318:;
    {
    r4_01720 = UINT64_C(0);
    r5_01621 = UINT64_C(0);
    goto at__join_519;
    }
    at__join_519:;
    r2522 = (r13882 + (int64_t)r5_01621);
    LOAD(uint8_t, r2723, r2522);
    r124 = (uint8_t)((uint32_t)r2723 + (uint32_t)208u);
    r3125 = r124 > 9;
    if (r3125) { goto at__chrono_text_read_places_value_of_all_exit_i_i42; }
    goto at__join_826;
    at__join_826:;
    r3927 = (uint64_t)(r4_01720 * UINT64_C(10));
    r1_i1028 = (uint64_t)r124;
    r4429 = (uint64_t)(r3927 + r1_i1028);
    r4630 = (uint64_t)(r5_01621 + UINT64_C(1));
    exitcond_not31 = r4630 == r14184;
    if (exitcond_not31) { { r4_0_pn_i_i_i1933 = r4429; goto at__arm_1032; } }
    { r4_01720 = r4429; r5_01621 = r4630; goto at__join_519; }
    at__chrono_text_read_places_value_of_all_exit_i_i42:;
    r22_i_i_not43 = r5_01621 < r14184;
    if (r22_i_i_not43) { goto at__core_result_Result_ok_62de35dfb3c59ee2_exit; }
    { r4_0_pn_i_i_i1933 = r4_01720; goto at__arm_1032; }
    at__arm_1032:;
    v1 = (uint64_t)(r4_0_pn_i_i_i1933 + UINT64_C(18446744073709541616));
    or_cond1434 = v1 < UINT64_C(990000);
    r11135 = (uint32_t)(r4_0_pn_i_i_i1933);
    r23_sroa_4_037 = or_cond1434 ? r11135 : 0;
    {
    r0_sroa_5_038 = r23_sroa_4_037;
    r0_sroa_0_sroa_0_039 = or_cond1434;
    goto at__chrono_text_read_year_year_size_exit77;
    }
    at__chrono_text_read_year_year_size_exit77:;
    r5_not = r0_sroa_5_038 != 0;
    r10 = (uint32_t)(0 - r0_sroa_5_038);
    or_cond_2 = r0_sroa_0_sroa_0_039 ? r5_not : 0;
    if (or_cond_2) { { r0_sroa_6_0_i10121 = r10; goto at__chrono_reading_date_date_of_exit_i_i; } }
    goto at__core_result_Result_ok_62de35dfb3c59ee2_exit;
    at__after_3:;
    r179 = (a0 + 1);
    r182 = (uint64_t)(r3_06 + UINT64_C(18446744073709551609));
    switch (r3_06) {
    case UINT64_C(11): goto at__then_6;
    case UINT64_C(7): goto at__core_result_Result_ok_62de35dfb3c59ee2_exit;
    case UINT64_C(8): { r18297 = UINT64_C(1); r17995 = r179; goto at__join_3; }
    default: { r18298 = r182; r17996 = r179; goto at__chrono_text_read_decimal_has_decimal_form_exit_i_i; }
    }
    at__then_6:;
    r42_2 = (a0 + 2);
    LOAD(uint8_t, r52, r179);
    LOAD(uint8_t, r54, r42_2);
    r1_i4_2 = (uint8_t)((uint32_t)r52 + (uint32_t)208u);
    r113 = (uint8_t)((uint32_t)r54 + (uint32_t)208u);
    r12_3 = r1_i4_2 < 10u;
    r1714 = r113 < 10u;
    or_cond_not_i_not_not_2 = (uint8_t)(((uint32_t)r12_3 & (uint32_t)r1714) & 1);
    r1_i5 = (uint32_t)r1_i4_2;
    r27 = (uint32_t)(r1_i5 * 10u);
    r1_i6 = (uint32_t)r113;
    r3215 = (uint32_t)(r27 + r1_i6);
    if (or_cond_not_i_not_not_2) { goto at__arm_1_2; }
    goto at__core_result_Result_ok_62de35dfb3c59ee2_exit;
    at__arm_1_2:;
    r46_2 = (a0 + 4);
    LOAD(uint8_t, r58, r46_2);
    r44_3 = (a0 + 3);
    LOAD(uint8_t, r56, r44_3);
    r1_i4_i12 = (uint8_t)((uint32_t)r56 + (uint32_t)208u);
    r1_i_i13 = (uint8_t)((uint32_t)r58 + (uint32_t)208u);
    r12_i14 = r1_i4_i12 < 10u;
    r17_i15 = r1_i_i13 < 10u;
    or_cond_not_i16_not_not = (uint8_t)(((uint32_t)r17_i15 & (uint32_t)r12_i14) & 1);
    if (or_cond_not_i16_not_not) { goto at__arm_6_2; }
    goto at__core_result_Result_ok_62de35dfb3c59ee2_exit;
    at__arm_6_2:;
    narrow16 = (uint8_t)((uint32_t)r1_i4_i12 * (uint32_t)10u);
    narrow1 = (uint8_t)((uint32_t)narrow16 + (uint32_t)r1_i_i13);
    r32_i20 = (uint32_t)narrow1;
    v2 = (uint32_t)(r3215 * 100u);
    r98 = (uint32_t)(v2 + r32_i20);
    {
    r0_sroa_5_011 = r98;
    r0_sroa_0_sroa_0_012 = 1;
    goto at__chrono_text_read_year_year_size_exit;
    }
    at__chrono_text_read_decimal_has_decimal_form_exit_i_i:;
    LOAD(uint8_t, r28, r17996);
    r30 = r28 != 48u;
    r3717 = r18298 < UINT64_C(19);
    spec_select = (uint8_t)(((uint32_t)r3717 & (uint32_t)r30) & 1);
    if (spec_select) { { r18297 = r18298; r17995 = r17996; goto at__join_3; } }
    goto at__core_result_Result_ok_62de35dfb3c59ee2_exit;
    at__join_3:;
    {
    r4_017 = UINT64_C(0);
    r5_016 = UINT64_C(0);
    goto at__join_5;
    }
    at__join_5:;
    r25_2 = (r17995 + (int64_t)r5_016);
    LOAD(uint8_t, r27_2, r25_2);
    r110 = (uint8_t)((uint32_t)r27_2 + (uint32_t)208u);
    r31 = r110 > 9;
    if (r31) { goto at__chrono_text_read_places_value_of_all_exit_i_i; }
    goto at__join_8;
    at__join_8:;
    r39 = (uint64_t)(r4_017 * UINT64_C(10));
    r1_i10 = (uint64_t)r110;
    r44_2 = (uint64_t)(r39 + r1_i10);
    r46 = (uint64_t)(r5_016 + UINT64_C(1));
    exitcond_not_2 = r46 == r18297;
    if (exitcond_not_2) { { r4_0_pn_i_i_i19 = r44_2; goto at__arm_10; } }
    { r4_017 = r44_2; r5_016 = r46; goto at__join_5; }
    at__chrono_text_read_places_value_of_all_exit_i_i:;
    r22_i_i_not = r5_016 < r18297;
    if (r22_i_i_not) { goto at__core_result_Result_ok_62de35dfb3c59ee2_exit; }
    { r4_0_pn_i_i_i19 = r4_017; goto at__arm_10; }
    at__arm_10:;
    v3 = (uint64_t)(r4_0_pn_i_i_i19 + UINT64_C(18446744073709541616));
    or_cond14 = v3 < UINT64_C(990000);
    r111 = (uint32_t)(r4_0_pn_i_i_i19);
    r23_sroa_4_0 = or_cond14 ? r111 : 0;
    {
    r0_sroa_5_011 = r23_sroa_4_0;
    r0_sroa_0_sroa_0_012 = or_cond14;
    goto at__chrono_text_read_year_year_size_exit;
    }
    at__chrono_text_read_year_year_size_exit:;
    r4 = r0_sroa_5_011 > 9999u;
    or_cond129 = r0_sroa_0_sroa_0_012 ? r4 : 0;
    if (or_cond129) { { r0_sroa_6_0_i10121 = r0_sroa_5_011; goto at__chrono_reading_date_date_of_exit_i_i; } }
    goto at__core_result_Result_ok_62de35dfb3c59ee2_exit;
    at__chrono_text_read_year_read_year_exit_i_i:;
    LOAD(uint8_t, r93, r81_i12);
    r1_i4_3 = (uint8_t)((uint32_t)r76 + (uint32_t)208u);
    r18 = (uint8_t)((uint32_t)r93 + (uint32_t)208u);
    r12_4 = r1_i4_3 < 10u;
    r17_3 = r18 < 10u;
    or_cond_not_i_not_not_3 = (uint8_t)(((uint32_t)r12_4 & (uint32_t)r17_3) & 1);
    r1_i5_2 = (uint32_t)r1_i4_3;
    r27_3 = (uint32_t)(r1_i5_2 * 10u);
    r1_i6_2 = (uint32_t)r18;
    r32 = (uint32_t)(r27_3 + r1_i6_2);
    if (or_cond_not_i_not_not_3) { goto at__arm_19; }
    goto at__core_result_Result_ok_62de35dfb3c59ee2_exit;
    at__arm_19:;
    r83 = (a0 + 2);
    LOAD(uint16_t, r95, r83);
    r2_sroa_5_0_extract_shift = (uint16_t)((uint32_t)r95 >> 8);
    r2_sroa_5_0_extract_trunc = (uint8_t)(r2_sroa_5_0_extract_shift);
    r2_sroa_4_0_extract_trunc = (uint8_t)(r95);
    r1_i4_i12_2 = (uint8_t)((uint32_t)r2_sroa_4_0_extract_trunc + (uint32_t)208u);
    r1_i_i13_2 = (uint8_t)((uint32_t)r2_sroa_5_0_extract_trunc + (uint32_t)208u);
    r12_i14_2 = r1_i4_i12_2 < 10u;
    r17_i15_2 = r1_i_i13_2 < 10u;
    or_cond_not_i16_not_not_2 = (uint8_t)(((uint32_t)r12_i14_2 & (uint32_t)r17_i15_2) & 1);
    if (or_cond_not_i16_not_not_2) { goto at__chrono_text_read_places_read_four_exit; }
    goto at__core_result_Result_ok_62de35dfb3c59ee2_exit;
    at__chrono_text_read_places_read_four_exit:;
    narrow_3 = (uint8_t)((uint32_t)r1_i4_i12_2 * (uint32_t)10u);
    narrow1_2 = (uint8_t)((uint32_t)narrow_3 + (uint32_t)r1_i_i13_2);
    r32_i20_2 = (uint32_t)narrow1_2;
    v4 = (uint32_t)(r32 * 100u);
    r98_2 = (uint32_t)(v4 + r32_i20_2);
    {
    r0_sroa_6_0_i10121 = r98_2;
    goto at__chrono_reading_date_date_of_exit_i_i;
    }
    at__chrono_reading_date_date_of_exit_i_i:;
    v5 = (uint8_t)((uint32_t)narrow32 + (uint32_t)243u);
    or_cond7 = v5 < 244u;
    if (or_cond7) { goto at__core_result_Result_ok_62de35dfb3c59ee2_exit; }
    goto at__after_1;
    at__after_1:;
    r18_sroa_0_0_extract_trunc = (uint32_t)narrow32;
    r32_2 = narrow32 > 2;
    r36 = (uint32_t)(r18_sroa_0_0_extract_trunc | 12u);
    r6_0 = r32_2 ? r18_sroa_0_0_extract_trunc : r36;
    r3 = (uint32_t)(r6_0 * 979u);
    r5 = (uint32_t)(r3 + 4294964377u);
    r71 = (uint32_t)(r5 >> 5);
    r1_2 = (uint64_t)r71;
    r1_i10_2 = (uint64_t)narrow120;
    r45 = (uint64_t)(r1_2 + r1_i10_2);
    r46_3 = narrow120 == 0;
    if (r46_3) { goto at__core_result_Result_ok_62de35dfb3c59ee2_exit; }
    goto at__else_18;
    at__else_18:;
    r5_i12 = (uint32_t)(r3 + 4294965356u);
    r71_i13 = (uint32_t)(r5_i12 >> 5);
    r1_i14 = (uint64_t)r71_i13;
    r58_2 = r45 > r1_i14;
    if (r58_2) { goto at__core_result_Result_ok_62de35dfb3c59ee2_exit; }
    goto at__after_15;
    at__after_15:;
    r66 = r45 > UINT64_C(365);
    if (r66) { goto at__then_26; }
    goto at__after_25;
    at__then_26:;
    r6_2 = (uint32_t)((int32_t)r0_sroa_6_0_i10121 % (int32_t)100u);
    r8 = r6_2 == 0;
    if (r8) { goto at__then_1; }
    goto at__else_2;
    at__then_1:;
    r12 = (uint32_t)((int32_t)r0_sroa_6_0_i10121 % (int32_t)400u);
    {
    r3_0_in_in = r12;
    goto at__chrono_units_year_year_length_exit_i_i_i;
    }
    at__else_2:;
    v6 = (uint32_t)(r0_sroa_6_0_i10121 & 3);
    {
    r3_0_in_in = v6;
    goto at__chrono_units_year_year_length_exit_i_i_i;
    }
    at__chrono_units_year_year_length_exit_i_i_i:;
    r3_0_in = r3_0_in_in == 0;
    x = r3_0_in ? UINT64_C(366) : UINT64_C(365);
    r75 = x >= r45;
    v7 = (uint32_t)(r0_sroa_6_0_i10121 + 262143u);
    spec_select_2 = v7 < 524286u;
    or_cond16 = (uint8_t)(((uint32_t)spec_select_2 & (uint32_t)r75) & 1);
    if (or_cond16) { goto at__arm_5; }
    goto at__core_result_Result_ok_62de35dfb3c59ee2_exit;
    at__after_25:;
    old = (uint32_t)(r0_sroa_6_0_i10121 + 262143u);
    spec_select_i_old = old < 524286u;
    if (spec_select_i_old) { goto at__arm_5; }
    goto at__core_result_Result_ok_62de35dfb3c59ee2_exit;
    at__arm_5:;
    r81 = (uint64_t)(r3_06 + UINT64_C(1));
    r84 = (a0 + (int64_t)r81);
    r88 = (uint64_t)(a1 - r81);
    chrono_reading_time_time_of(r21, r84, r88);
    LOAD(uint8_t, r21_val, r21);
    not = r21_val == 1;
    if (not) { goto at__arm_14; }
    goto at__core_result_Result_ok_62de35dfb3c59ee2_exit;
    at__core_result_Result_ok_62de35dfb3c59ee2_exit:;
    chrono_reading_date_time_date_time_error(r6, a0, a1);
    {
    r7_sroa_0_0 = UINT64_C(0);
    r7_sroa_4_0 = 4294967295u;
    goto at__numbers_c_date_time_numbers_numbers_or_none_exit;
    }
    at__arm_14:;
    r3_0 = r32_2 ? 262400u : 262399u;
    r11 = (uint32_t)(r3_0 + r0_sroa_6_0_i10121);
    r23 = (uint32_t)(r11 / 400u);
    r14 = (uint32_t)(r11 / 100u);
    r16 = (uint32_t)(r11 * 1461u);
    r183 = (uint32_t)(r16 >> 2);
    r91 = (uint32_t)(r45);
    v8 = (r21 + 4);
    LOAD(uint64_t, r21_val13, v8);
    r4_sroa_8_12_extract_shift = (uint64_t)(r21_val13 >> (UINT64_C(32) & 63u));
    r4_sroa_8_12_extract_trunc = (uint32_t)(r4_sroa_8_12_extract_shift);
    r3_sroa_5_sroa_0_0_insert_insert = (uint64_t)(r21_val13 & UINT64_C(4294967295));
    r26 = (uint32_t)(r91 + 4198408195u);
    r18_2 = (uint32_t)(r26 - r14);
    r24 = (uint32_t)(r18_2 + r23);
    r46_4 = (uint32_t)(r24 + r183);
    r1_3 = (uint64_t)((uint64_t)(int32_t)r46_4);
    r39_2 = (uint64_t)(r1_3 * UINT64_C(86400));
    r42 = (uint64_t)(r3_sroa_5_sroa_0_0_insert_insert + r39_2);
    {
    r7_sroa_0_0 = r42;
    r7_sroa_4_0 = r4_sroa_8_12_extract_trunc;
    goto at__numbers_c_date_time_numbers_numbers_or_none_exit;
    }
    at__numbers_c_date_time_numbers_numbers_or_none_exit:;
    r15_fca_0_insert = (t_struct_i64_i32_end){0};
    r15_fca_0_insert.f0 = r7_sroa_0_0;
    r15_fca_1_insert = r15_fca_0_insert;
    r15_fca_1_insert.f1 = r7_sroa_4_0;
    return r15_fca_1_insert;
}

static void chrono_reading_time_time_of(bytes a0, bytes a1, uint64_t a2)
{
    uint32_t r93_sink, r4_017, v6, r1_013, r3_012, r2_011, common_ret_op, r7_sroa_6_0, r1_i5, r27, r1_i6, r32, r32_i24, r1_i5_i39, r27_i40, r1_i6_i41, r32_i42, r1_i5_2, r27_2, r1_i6_2, r32_2, v3, r1_i3, r47_2, v4, r39, r1_i10, r44, v7, r68, r18, r26, spec_select_i6, r29, r319, v8, r73, r9, r30, r31_2, r34, r36, r2915, r30_i7, r31_i8, r34_i9, r36_i10, r29_i_i12, r93;
    uint64_t r0_sroa_4_8_insert_insert_sink_i16_sink_i_sink, r5_016, r0_sroa_4_8_insert_insert_sink_i16_sink, v0, r2_sroa_5_0_extract_shift, r2_sroa_6_0_extract_shift, r2_sroa_8_0_extract_shift, r2_sroa_9_0_extract_shift, v1, r2_sroa_3_0_extract_shift, r78, v5, r46, v9, v10, v11, v12, v13, v14, v15, v16, v17, v18;
    uint8_t sink_i_sink_i15_sink_shrunk, r17, r2_sroa_5_0_extract_trunc, r2_sroa_6_0_extract_trunc, r2_sroa_8_0_extract_trunc, r2_sroa_9_0_extract_trunc, or_cond, r2_sroa_3_0_extract_trunc, r2_sroa_0_0_extract_trunc, r1_i4, r1, r12, r17_2, or_cond_not_i_not_not, r1_i4_i16, r1_i_i17, r12_i18, r17_i19, or_cond_not_i20_not_not, narrow, narrow34, r1_i4_i34, r1_i_i35, r12_i36, r17_i37, or_cond_not_i38_not_not, r44_2, cond1, r56, r58, r1_i4_2, r1_2, r12_2, r17_3, or_cond_not_i_not_not_2, r60, r1_3, r37_2, r72, cond, or_cond_2, r27_3, r1_4, r31, exitcond_not, not, r20_not, r13, r411, r8, r1213, or_cond14, r14, or_cond5, r25_2, r31_not, or_cond11, r8_i1, r12_i2, or_cond_i3, r19, or_cond3, r14_i_i4, or_cond5_i5, r25_i_i11, r31_not_i_i13, or_cond11_i_i14;
    bytes r37, r94, r47, r49, r51, r75, r25;
    r17 = a2 < UINT64_C(8);
    if (r17) { { r93_sink = 0; r0_sroa_4_8_insert_insert_sink_i16_sink_i_sink = UINT64_C(0); goto at__common_ret; } }
    goto at__arm_1;
    at__arm_1:;
    r37 = (a1 + 8);
    LOAD(uint64_t, v0, a1);
    r2_sroa_5_0_extract_shift = (uint64_t)(v0 >> (UINT64_C(24) & 63u));
    r2_sroa_5_0_extract_trunc = (uint8_t)(r2_sroa_5_0_extract_shift);
    r2_sroa_6_0_extract_shift = (uint64_t)(v0 >> (UINT64_C(32) & 63u));
    r2_sroa_6_0_extract_trunc = (uint8_t)(r2_sroa_6_0_extract_shift);
    r2_sroa_8_0_extract_shift = (uint64_t)(v0 >> (UINT64_C(48) & 63u));
    r2_sroa_8_0_extract_trunc = (uint8_t)(r2_sroa_8_0_extract_shift);
    r2_sroa_9_0_extract_shift = (uint64_t)(v0 >> (UINT64_C(56) & 63u));
    r2_sroa_9_0_extract_trunc = (uint8_t)(r2_sroa_9_0_extract_shift);
    v1 = (uint64_t)(v0 & UINT64_C(280375481794560));
    or_cond = v1 == UINT64_C(63771678212096);
    if (or_cond) { goto at__arm_6; }
    { r93_sink = 0; r0_sroa_4_8_insert_insert_sink_i16_sink_i_sink = UINT64_C(0); goto at__common_ret; }
    at__arm_6:;
    r2_sroa_3_0_extract_shift = (uint64_t)(v0 >> (UINT64_C(8) & 63u));
    r2_sroa_3_0_extract_trunc = (uint8_t)(r2_sroa_3_0_extract_shift);
    r2_sroa_0_0_extract_trunc = (uint8_t)(v0);
    r1_i4 = (uint8_t)((uint32_t)r2_sroa_0_0_extract_trunc + (uint32_t)208u);
    r1 = (uint8_t)((uint32_t)r2_sroa_3_0_extract_trunc + (uint32_t)208u);
    r12 = r1_i4 < 10u;
    r17_2 = r1 < 10u;
    or_cond_not_i_not_not = (uint8_t)(((uint32_t)r12 & (uint32_t)r17_2) & 1);
    r1_i5 = (uint32_t)r1_i4;
    r27 = (uint32_t)(r1_i5 * 10u);
    r1_i6 = (uint32_t)r1;
    r32 = (uint32_t)(r27 + r1_i6);
    if (or_cond_not_i_not_not) { goto at__arm_9; }
    { r93_sink = 0; r0_sroa_4_8_insert_insert_sink_i16_sink_i_sink = UINT64_C(0); goto at__common_ret; }
    at__arm_9:;
    r1_i4_i16 = (uint8_t)((uint32_t)r2_sroa_5_0_extract_trunc + (uint32_t)208u);
    r1_i_i17 = (uint8_t)((uint32_t)r2_sroa_6_0_extract_trunc + (uint32_t)208u);
    r12_i18 = r1_i4_i16 < 10u;
    r17_i19 = r1_i_i17 < 10u;
    or_cond_not_i20_not_not = (uint8_t)(((uint32_t)r12_i18 & (uint32_t)r17_i19) & 1);
    if (or_cond_not_i20_not_not) { goto at__arm_13; }
    { r93_sink = 0; r0_sroa_4_8_insert_insert_sink_i16_sink_i_sink = UINT64_C(0); goto at__common_ret; }
    at__arm_13:;
    narrow = (uint8_t)((uint32_t)r1_i4_i16 * (uint32_t)10u);
    narrow34 = (uint8_t)((uint32_t)narrow + (uint32_t)r1_i_i17);
    r32_i24 = (uint32_t)narrow34;
    r1_i4_i34 = (uint8_t)((uint32_t)r2_sroa_8_0_extract_trunc + (uint32_t)208u);
    r1_i_i35 = (uint8_t)((uint32_t)r2_sroa_9_0_extract_trunc + (uint32_t)208u);
    r12_i36 = r1_i4_i34 < 10u;
    r17_i37 = r1_i_i35 < 10u;
    or_cond_not_i38_not_not = (uint8_t)(((uint32_t)r12_i36 & (uint32_t)r17_i37) & 1);
    r1_i5_i39 = (uint32_t)r1_i4_i34;
    r27_i40 = (uint32_t)(r1_i5_i39 * 10u);
    r1_i6_i41 = (uint32_t)r1_i_i35;
    r32_i42 = (uint32_t)(r27_i40 + r1_i6_i41);
    if (or_cond_not_i38_not_not) { goto at__arm_5; }
    { r93_sink = 0; r0_sroa_4_8_insert_insert_sink_i16_sink_i_sink = UINT64_C(0); goto at__common_ret; }
    at__common_ret:;
    STORE(uint32_t, a0, r93_sink);
    r94 = (a0 + 4);
    STORE(uint64_t, r94, r0_sroa_4_8_insert_insert_sink_i16_sink_i_sink);
    return;
    at__arm_5:;
    switch (a2) {
    case UINT64_C(8): { r7_sroa_6_0 = 0; goto at__chrono_text_read_fraction_read_fraction_exit; }
    case UINT64_C(12): goto at__then_10;
    default: goto at__after_3;
    }
    at__then_10:;
    LOAD(uint8_t, r44_2, r37);
    cond1 = r44_2 == 46u;
    if (cond1) { goto at__arm_139; }
    { r93_sink = 0; r0_sroa_4_8_insert_insert_sink_i16_sink_i_sink = UINT64_C(0); goto at__common_ret; }
    at__arm_139:;
    r47 = (a1 + 9);
    r49 = (a1 + 10);
    LOAD(uint8_t, r56, r47);
    LOAD(uint8_t, r58, r49);
    r1_i4_2 = (uint8_t)((uint32_t)r56 + (uint32_t)208u);
    r1_2 = (uint8_t)((uint32_t)r58 + (uint32_t)208u);
    r12_2 = r1_i4_2 < 10u;
    r17_3 = r1_2 < 10u;
    or_cond_not_i_not_not_2 = (uint8_t)(((uint32_t)r12_2 & (uint32_t)r17_3) & 1);
    r1_i5_2 = (uint32_t)r1_i4_2;
    r27_2 = (uint32_t)(r1_i5_2 * 10u);
    r1_i6_2 = (uint32_t)r1_2;
    r32_2 = (uint32_t)(r27_2 + r1_i6_2);
    if (or_cond_not_i_not_not_2) { goto at__arm_1_2; }
    { r93_sink = 0; r0_sroa_4_8_insert_insert_sink_i16_sink_i_sink = UINT64_C(0); goto at__common_ret; }
    at__arm_1_2:;
    r51 = (a1 + 11);
    LOAD(uint8_t, r60, r51);
    r1_3 = (uint8_t)((uint32_t)r60 + (uint32_t)208u);
    r37_2 = r1_3 > 9;
    if (r37_2) { { r93_sink = 0; r0_sroa_4_8_insert_insert_sink_i16_sink_i_sink = UINT64_C(0); goto at__common_ret; } }
    goto at__2;
    at__2:;
    v3 = (uint32_t)(r32_2 * 10u);
    r1_i3 = (uint32_t)r1_3;
    r47_2 = (uint32_t)(v3 + r1_i3);
    v4 = (uint32_t)(r47_2 * 1000000u);
    {
    r7_sroa_6_0 = v4;
    goto at__chrono_text_read_fraction_read_fraction_exit;
    }
    at__after_3:;
    LOAD(uint8_t, r72, r37);
    cond = r72 == 46u;
    if (cond) { goto at__arm_16; }
    { r93_sink = 0; r0_sroa_4_8_insert_insert_sink_i16_sink_i_sink = UINT64_C(0); goto at__common_ret; }
    at__arm_16:;
    r75 = (a1 + 9);
    r78 = (uint64_t)(a2 + UINT64_C(18446744073709551607));
    v5 = (uint64_t)(a2 + UINT64_C(18446744073709551597));
    or_cond_2 = v5 < UINT64_C(18446744073709551607);
    if (or_cond_2) { { r93_sink = 0; r0_sroa_4_8_insert_insert_sink_i16_sink_i_sink = UINT64_C(0); goto at__common_ret; } }
    { r4_017 = 0; r5_016 = UINT64_C(0); goto at__join_5; }
    at__join_5:;
    r25 = (r75 + (int64_t)r5_016);
    LOAD(uint8_t, r27_3, r25);
    r1_4 = (uint8_t)((uint32_t)r27_3 + (uint32_t)208u);
    r31 = r1_4 > 9;
    if (r31) { goto at__chrono_text_read_places_read_all_exit_i_i; }
    goto at__join_8;
    at__join_8:;
    r39 = (uint32_t)(r4_017 * 10u);
    r1_i10 = (uint32_t)r1_4;
    r44 = (uint32_t)(r39 + r1_i10);
    r46 = (uint64_t)(r5_016 + UINT64_C(1));
    exitcond_not = r46 == r78;
    if (exitcond_not) { { v6 = r44; goto at__arm_12; } }
    { r4_017 = r44; r5_016 = r46; goto at__join_5; }
    at__chrono_text_read_places_read_all_exit_i_i:;
    not = r5_016 < r78;
    if (not) { { r93_sink = 0; r0_sroa_4_8_insert_insert_sink_i16_sink_i_sink = UINT64_C(0); goto at__common_ret; } }
    { v6 = r4_017; goto at__arm_12; }
    at__arm_12:;
    v7 = (uint32_t)(r78);
    switch (v7) {
    case 9: { common_ret_op = 1; goto at__core_int_u32_pow_exit_i_i; }
    case 8: goto at__common_ret_fold_split;
    default: goto at__join_8_i_preheader;
    }
    at__join_8_i_preheader:;
    r68 = (uint32_t)(9 - v7);
    {
    r1_013 = 1;
    r3_012 = r68;
    r2_011 = 10u;
    goto at__join_8_2;
    }
    at__common_ret_fold_split:;
    {
    common_ret_op = 10u;
    goto at__core_int_u32_pow_exit_i_i;
    }
    at__join_8_2:;
    r18 = (uint32_t)(r3_012 & 1);
    r20_not = r18 == 0;
    r26 = r20_not ? 1 : r2_011;
    spec_select_i6 = (uint32_t)(r26 * r1_013);
    r29 = (uint32_t)(r2_011 * r2_011);
    r319 = (uint32_t)(r3_012 >> 1);
    r13 = r3_012 > 3;
    if (r13) { { r1_013 = spec_select_i6; r3_012 = r319; r2_011 = r29; goto at__join_8_2; } }
    goto at__after_4_loopexit;
    at__after_4_loopexit:;
    v8 = (uint32_t)(spec_select_i6 * r29);
    {
    common_ret_op = v8;
    goto at__core_int_u32_pow_exit_i_i;
    }
    at__core_int_u32_pow_exit_i_i:;
    r73 = (uint32_t)(common_ret_op * v6);
    {
    r7_sroa_6_0 = r73;
    goto at__chrono_text_read_fraction_read_fraction_exit;
    }
    at__chrono_text_read_fraction_read_fraction_exit:;
    r411 = r32_i42 == 60u;
    if (r411) { goto at__then_1; }
    goto at__join_312;
    at__then_1:;
    r9 = (uint32_t)(r7_sroa_6_0 + 1000000000u);
    r8 = r32 > 23u;
    r1213 = narrow34 > 59u;
    or_cond14 = (uint8_t)(((uint32_t)r8 | (uint32_t)r1213) & 1);
    r14 = r9 > 1999999999u;
    or_cond5 = (uint8_t)(((uint32_t)or_cond14 | (uint32_t)r14) & 1);
    if (or_cond5) { { sink_i_sink_i15_sink_shrunk = 0; r0_sroa_4_8_insert_insert_sink_i16_sink = UINT64_C(0); goto at__chrono_reading_time_time_shown_exit; } }
    goto at__after_1;
    at__after_1:;
    r30 = (uint32_t)(r32 * 3600u);
    r31_2 = (uint32_t)(r32_i24 * 60u);
    r34 = (uint32_t)(r30 + 59u);
    r36 = (uint32_t)(r34 + r31_2);
    r25_2 = r7_sroa_6_0 > 3294967295u;
    r2915 = (uint32_t)(r36 % 60u);
    r31_not = r2915 == 59u;
    or_cond11 = (uint8_t)(((uint32_t)r31_not | (uint32_t)r25_2) & 1);
    v9 = (uint64_t)r36;
    v10 = (uint64_t)r9;
    v11 = (uint64_t)(v10 << (UINT64_C(32) & 63u));
    v12 = (uint64_t)(v11 | v9);
    v13 = or_cond11 ? v12 : UINT64_C(0);
    {
    sink_i_sink_i15_sink_shrunk = or_cond11;
    r0_sroa_4_8_insert_insert_sink_i16_sink = v13;
    goto at__chrono_reading_time_time_shown_exit;
    }
    at__join_312:;
    r8_i1 = r32 > 23u;
    r12_i2 = narrow34 > 59u;
    or_cond_i3 = (uint8_t)(((uint32_t)r8_i1 | (uint32_t)r12_i2) & 1);
    r19 = r32_i42 > 59u;
    or_cond3 = (uint8_t)(((uint32_t)or_cond_i3 | (uint32_t)r19) & 1);
    r14_i_i4 = r7_sroa_6_0 > 1999999999u;
    or_cond5_i5 = (uint8_t)(((uint32_t)or_cond3 | (uint32_t)r14_i_i4) & 1);
    if (or_cond5_i5) { { sink_i_sink_i15_sink_shrunk = 0; r0_sroa_4_8_insert_insert_sink_i16_sink = UINT64_C(0); goto at__chrono_reading_time_time_shown_exit; } }
    goto at__after_1_i_i6;
    at__after_1_i_i6:;
    r30_i7 = (uint32_t)(r32 * 3600u);
    r31_i8 = (uint32_t)(r32_i24 * 60u);
    r34_i9 = (uint32_t)(r32_i42 + r30_i7);
    r36_i10 = (uint32_t)(r34_i9 + r31_i8);
    r25_i_i11 = r7_sroa_6_0 < 1000000000u;
    r29_i_i12 = (uint32_t)(r36_i10 % 60u);
    r31_not_i_i13 = r29_i_i12 == 59u;
    or_cond11_i_i14 = (uint8_t)(((uint32_t)r31_not_i_i13 | (uint32_t)r25_i_i11) & 1);
    v14 = (uint64_t)r36_i10;
    v15 = (uint64_t)r7_sroa_6_0;
    v16 = (uint64_t)(v15 << (UINT64_C(32) & 63u));
    v17 = (uint64_t)(v16 | v14);
    v18 = or_cond11_i_i14 ? v17 : UINT64_C(0);
    {
    sink_i_sink_i15_sink_shrunk = or_cond11_i_i14;
    r0_sroa_4_8_insert_insert_sink_i16_sink = v18;
    goto at__chrono_reading_time_time_shown_exit;
    }
    at__chrono_reading_time_time_shown_exit:;
    r93 = (uint32_t)sink_i_sink_i15_sink_shrunk;
    {
    r93_sink = r93;
    r0_sroa_4_8_insert_insert_sink_i16_sink_i_sink = r0_sroa_4_8_insert_insert_sink_i16_sink;
    goto at__common_ret;
    }
}

static void chrono_reading_date_time_date_time_error(bytes a0, bytes a1, uint64_t a2)
{
    uint64_t r3_06, r141396, r141395, r4_017, r5_016, r4_0_pn_i_i_i19, r182402, r182401, r4_017243, r5_016244, r4_0_pn_i_i_i19256, r0_sroa_9_8_copyload15_sink, r0_sroa_9_8_copyload15, r44, r14197, r18278, r141, r39, r1_i10, r44_2, r46, v11, r182, r39250, r1_i10251, r44252, r46253, v13, r45, x, r0_sroa_9_8_copyload_pre, r75_2, r82, r98_2, r99, r0_sroa_9_8_copyload15_pre;
    uint32_t r0_sroa_6_086439, r0_sroa_5_0445, r0_sroa_5_0261451, r0_sroa_6_066, r3_0_in_in, r0_sroa_5_4_copyload12_sink, r0_sroa_5_4_copyload12, r32_i17, r151100, r10, r19281, v2, v3, r30_i69_sroa_5_0_insert_ext, r30_i69_sroa_5_0_insert_shift, r30_i69_sroa_0_0_insert_ext, r30_i69_sroa_5_0_insert_insert, r30_i69_sroa_0_0_insert_insert, r107124, r18_sroa_0_0_extract_trunc, r32_i17217, v7, v8, r30_i64_sroa_5_0_insert_ext, r30_i64_sroa_5_0_insert_shift, r30_i64_sroa_0_0_insert_ext, r30_i64_sroa_5_0_insert_insert, r30_i64_sroa_0_0_insert_insert, r107, spec_select415, r1_i5, r27, r1_i6, r32, r32_i20, v10, r98, r111, r10237, r1_i5276, r27277, r1_i6278, r32279, r32_i20293, v12, r98294, r111258, a0_308, a1_313, r18_sroa_0_0_extract_trunc59, r36, r6_0, r3, r5_2, r71, narrow419, r5_i12, r71_i13, r6, r12, v15, v16, old, r0_sroa_5_4_copyload_pre, r108_pre_phi_sink, r19_sroa_3_4_copyload, r0_sroa_5_4_copyload12_pre;
    bytes r138394, r138393, r179400, r179399, r107_pre_sink_in, r5, r8, r13, r22, r22_i_le, r37, r21_i_sroa_7_0_r5_sroa_3_0_copyload_i_sroa_idx, r21_i_sroa_8_0_r5_sroa_3_0_copyload_i_sroa_idx, r21_i_sroa_9_0_r5_sroa_3_0_copyload_i_sroa_idx, r21_i_sroa_6_0_r5_sroa_3_0_copyload_i_sroa_idx, r21_i_sroa_5_0_r5_sroa_3_0_copyload_i_sroa_idx, r13896, r17977, r81113, r83114, v6, r37161, r21_i27_sroa_7_0_r5_sroa_3_0_copyload_i41_sroa_idx, r21_i27_sroa_8_0_r5_sroa_3_0_copyload_i41_sroa_idx, r21_i27_sroa_9_0_r5_sroa_3_0_copyload_i41_sroa_idx, r21_i27_sroa_6_0_r5_sroa_3_0_copyload_i41_sroa_idx, r21_i27_sroa_5_0_r5_sroa_3_0_copyload_i41_sroa_idx, r8168, r83, r138, r42, r46_2, r44229, r25_2, r179, r42268, r46281, r44283, r25245, r52_phi_trans_insert, r54_phi_trans_insert, r115, r117, r78, r93_2, r97, r110_phi_trans_insert, r112_phi_trans_insert;
    uint8_t r0_sroa_0_sroa_0_0_i67_shrunk, r108_pre_phi_sink_shrunk, r165_not, r25, exitcond_not, r17, r21_i_sroa_0_0_copyload, r21_i_sroa_7_0_copyload, r21_i_sroa_8_0_copyload, r21_i_sroa_9_0_copyload, cond, cond1, or_cond, r21_i_sroa_6_0_copyload, r21_i_sroa_5_0_copyload, r1_i4, r1, r12_2, r17_2, or_cond_not_i_not_not, r1_i4_i9, r1_i_i10, r12_i11, r17_i12, or_cond_not_i13_not_not, narrow, narrow437, narrow_2, narrow32, r76111, r13575, r15099, v0, r5_not, or_cond_2, r19180, v1, r4, or_cond461, r93116, r106123, v4, r80, v5, r17158, r21_i27_sroa_0_0_copyload, r21_i27_sroa_7_0_copyload, r21_i27_sroa_8_0_copyload, r21_i27_sroa_9_0_copyload, cond183, cond1184, or_cond185, r21_i27_sroa_6_0_copyload, r21_i27_sroa_5_0_copyload, r1_i4200, r1201, r12202, r17203, or_cond_not_i_not_not204, r1_i4_i9209, r1_i_i10210, r12_i11211, r17_i12212, or_cond_not_i13_not_not213, narrow418, narrow438, narrow206, narrow32207, r76, r93, r106, v9, r135, r52, r54, r1_i4_2, r1_2, r12_3, r17_3, or_cond_not_i_not_not_2, r58, r56230, r1_i4_i12, r1_i_i13, r12_i14, r17_i15, or_cond_not_i16_not_not, narrow_3, narrow1, r28, r30, r37_2, spec_select, r27_2, r1_3, r31, exitcond_not_2, r22_i_i_not, or_cond14, r5_not236, r52269, r54270, r1_i4271, r1272, r12273, r17274, or_cond_not_i_not_not275, r58282, r56284, r1_i4_i12285, r1_i_i13286, r12_i14287, r17_i15288, or_cond_not_i16_not_not289, narrow291, narrow1292, r28296, r30297, r37298, spec_select299, r27246, r1247, r31248, exitcond_not254, r22_i_i_not266, or_cond14257, r4306, v14, or_cond_3, or_cond_not, r32316, r46_3, r58_2, r66, r8_2, r3_0_in, r75, spec_select_2, or_cond16, spec_select_i_old, r49_pre, r107_pre_sink;
    t_struct_i8_i32_end r14998, r19079, r105122, r105;
    uint16_t r95117, r95;
    uint64_t room_r5[2];
    uint64_t room_r8[2];
    uint64_t room_r13[2];
    r5 = (bytes)room_r5;
    r8 = (bytes)room_r8;
    r13 = (bytes)room_r13;
    memset(r5, 0, UINT64_C(16));
    memset(r8, 0, UINT64_C(16));
    memset(r13, 0, UINT64_C(16));
    r165_not = a2 == UINT64_C(0);
    if (r165_not) { goto at__arm_6; }
    { r3_06 = UINT64_C(0); goto at__join_6; }
    at__join_6:;
    r22 = (a1 + (int64_t)r3_06);
    LOAD(uint8_t, r25, r22);
    switch (r25) {
    case 84u: goto at__arm_1;
    case 32u: goto at__arm_1;
    default: goto at__after_7;
    }
    at__after_7:;
    r44 = (uint64_t)(r3_06 + UINT64_C(1));
    exitcond_not = r44 == a2;
    if (exitcond_not) { goto at__arm_2; }
    { r3_06 = r44; goto at__join_6; }
    at__arm_1:;
    r22_i_le = (a1 + (int64_t)r3_06);
    r17 = r3_06 < UINT64_C(6);
    if (r17) { goto at__arm_9; }
    goto at__arm_1_2;
    at__arm_1_2:;
    r37 = (r22_i_le - 6);
    LOAD(uint8_t, r21_i_sroa_0_0_copyload, r37);
    r21_i_sroa_7_0_r5_sroa_3_0_copyload_i_sroa_idx = (r22_i_le - 3);
    LOAD(uint8_t, r21_i_sroa_7_0_copyload, r21_i_sroa_7_0_r5_sroa_3_0_copyload_i_sroa_idx);
    r21_i_sroa_8_0_r5_sroa_3_0_copyload_i_sroa_idx = (r22_i_le - 2);
    LOAD(uint8_t, r21_i_sroa_8_0_copyload, r21_i_sroa_8_0_r5_sroa_3_0_copyload_i_sroa_idx);
    r21_i_sroa_9_0_r5_sroa_3_0_copyload_i_sroa_idx = (r22_i_le - 1);
    LOAD(uint8_t, r21_i_sroa_9_0_copyload, r21_i_sroa_9_0_r5_sroa_3_0_copyload_i_sroa_idx);
    cond = r21_i_sroa_0_0_copyload == 45u;
    cond1 = r21_i_sroa_7_0_copyload == 45u;
    or_cond = cond ? cond1 : 0;
    if (or_cond) { goto at__arm_6137; }
    goto at__arm_9;
    at__arm_6137:;
    r21_i_sroa_6_0_r5_sroa_3_0_copyload_i_sroa_idx = (r22_i_le - 4);
    LOAD(uint8_t, r21_i_sroa_6_0_copyload, r21_i_sroa_6_0_r5_sroa_3_0_copyload_i_sroa_idx);
    r21_i_sroa_5_0_r5_sroa_3_0_copyload_i_sroa_idx = (r22_i_le - 5);
    LOAD(uint8_t, r21_i_sroa_5_0_copyload, r21_i_sroa_5_0_r5_sroa_3_0_copyload_i_sroa_idx);
    r1_i4 = (uint8_t)((uint32_t)r21_i_sroa_5_0_copyload + (uint32_t)208u);
    r1 = (uint8_t)((uint32_t)r21_i_sroa_6_0_copyload + (uint32_t)208u);
    r12_2 = r1_i4 < 10u;
    r17_2 = r1 < 10u;
    or_cond_not_i_not_not = (uint8_t)(((uint32_t)r17_2 & (uint32_t)r12_2) & 1);
    if (or_cond_not_i_not_not) { goto at__arm_9138; }
    goto at__arm_9;
    at__arm_9138:;
    r1_i4_i9 = (uint8_t)((uint32_t)r21_i_sroa_8_0_copyload + (uint32_t)208u);
    r1_i_i10 = (uint8_t)((uint32_t)r21_i_sroa_9_0_copyload + (uint32_t)208u);
    r12_i11 = r1_i4_i9 < 10u;
    r17_i12 = r1_i_i10 < 10u;
    or_cond_not_i13_not_not = (uint8_t)(((uint32_t)r12_i11 & (uint32_t)r17_i12) & 1);
    if (or_cond_not_i13_not_not) { goto at__arm_6_2; }
    goto at__arm_9;
    at__arm_6_2:;
    narrow = (uint8_t)((uint32_t)r1_i4_i9 * (uint32_t)10u);
    narrow437 = (uint8_t)((uint32_t)narrow + (uint32_t)r1_i_i10);
    r32_i17 = (uint32_t)narrow437;
    narrow_2 = (uint8_t)((uint32_t)r1_i4 * (uint32_t)10u);
    narrow32 = (uint8_t)((uint32_t)narrow_2 + (uint32_t)r1);
    switch (r3_06) {
    case UINT64_C(6): goto at__arm_9;
    case UINT64_C(10): goto at__then_12110;
    default: goto at__after_574;
    }
    at__then_12110:;
    LOAD(uint8_t, r76111, a1);
    switch (r76111) {
    case 45u: goto at__after_495;
    case 43u: goto at__after_376;
    default: goto at__chrono_text_read_year_read_year_exit131;
    }
    at__after_574:;
    LOAD(uint8_t, r13575, a1);
    switch (r13575) {
    case 45u: goto at__after_495;
    case 43u: goto at__after_376;
    default: goto at__arm_9;
    }
    at__after_495:;
    r13896 = (a1 + 1);
    r14197 = (uint64_t)(r3_06 + UINT64_C(18446744073709551609));
    r14998 = chrono_text_read_year_year_size(r13896, r14197);
    r15099 = r14998.f0;
    v0 = r15099 == 1;
    r151100 = r14998.f1;
    r5_not = r151100 != 0;
    r10 = (uint32_t)(0 - r151100);
    or_cond_2 = v0 ? r5_not : 0;
    if (or_cond_2) { { r0_sroa_6_086439 = r10; goto at__chrono_reading_date_date_of_exit; } }
    goto at__arm_9;
    at__after_376:;
    r17977 = (a1 + 1);
    r18278 = (uint64_t)(r3_06 + UINT64_C(18446744073709551609));
    r19079 = chrono_text_read_year_year_size(r17977, r18278);
    r19180 = r19079.f0;
    v1 = r19180 == 1;
    r19281 = r19079.f1;
    r4 = r19281 > 9999u;
    or_cond461 = v1 ? r4 : 0;
    if (or_cond461) { { r0_sroa_6_086439 = r19281; goto at__chrono_reading_date_date_of_exit; } }
    goto at__arm_9;
    at__chrono_text_read_year_read_year_exit131:;
    r81113 = (a1 + 1);
    r83114 = (a1 + 2);
    LOAD(uint8_t, r93116, r81113);
    LOAD(uint16_t, r95117, r83114);
    v2 = (uint32_t)r95117;
    v3 = (uint32_t)(v2 << 16u);
    r30_i69_sroa_5_0_insert_ext = (uint32_t)r93116;
    r30_i69_sroa_5_0_insert_shift = (uint32_t)(r30_i69_sroa_5_0_insert_ext << 8);
    r30_i69_sroa_0_0_insert_ext = (uint32_t)r76111;
    r30_i69_sroa_5_0_insert_insert = (uint32_t)(r30_i69_sroa_5_0_insert_shift | r30_i69_sroa_0_0_insert_ext);
    r30_i69_sroa_0_0_insert_insert = (uint32_t)(r30_i69_sroa_5_0_insert_insert | v3);
    r105122 = chrono_text_read_places_read_four(r30_i69_sroa_0_0_insert_insert);
    r106123 = r105122.f0;
    r107124 = r105122.f1;
    v4 = r106123 == 1;
    if (v4) { { r0_sroa_6_086439 = r107124; goto at__chrono_reading_date_date_of_exit; } }
    goto at__arm_9;
    at__chrono_reading_date_date_of_exit:;
    r18_sroa_0_0_extract_trunc = (uint32_t)narrow32;
    r80 = chrono_naive_naive_date_NaiveDate_from_ymd_opt(r0_sroa_6_086439, r18_sroa_0_0_extract_trunc, r32_i17);
    v5 = r80 == 1;
    if (v5) { goto at__arm_8; }
    goto at__arm_9;
    at__arm_2:;
    r17158 = a2 < UINT64_C(6);
    if (r17158) { goto at__arm_6; }
    goto at__arm_135;
    at__arm_135:;
    v6 = (a1 + (int64_t)a2);
    r37161 = (v6 - 6);
    LOAD(uint8_t, r21_i27_sroa_0_0_copyload, r37161);
    r21_i27_sroa_7_0_r5_sroa_3_0_copyload_i41_sroa_idx = (v6 - 3);
    LOAD(uint8_t, r21_i27_sroa_7_0_copyload, r21_i27_sroa_7_0_r5_sroa_3_0_copyload_i41_sroa_idx);
    r21_i27_sroa_8_0_r5_sroa_3_0_copyload_i41_sroa_idx = (v6 - 2);
    LOAD(uint8_t, r21_i27_sroa_8_0_copyload, r21_i27_sroa_8_0_r5_sroa_3_0_copyload_i41_sroa_idx);
    r21_i27_sroa_9_0_r5_sroa_3_0_copyload_i41_sroa_idx = (v6 - 1);
    LOAD(uint8_t, r21_i27_sroa_9_0_copyload, r21_i27_sroa_9_0_r5_sroa_3_0_copyload_i41_sroa_idx);
    cond183 = r21_i27_sroa_0_0_copyload == 45u;
    cond1184 = r21_i27_sroa_7_0_copyload == 45u;
    or_cond185 = cond183 ? cond1184 : 0;
    if (or_cond185) { goto at__arm_6195; }
    goto at__arm_6;
    at__arm_6195:;
    r21_i27_sroa_6_0_r5_sroa_3_0_copyload_i41_sroa_idx = (v6 - 4);
    LOAD(uint8_t, r21_i27_sroa_6_0_copyload, r21_i27_sroa_6_0_r5_sroa_3_0_copyload_i41_sroa_idx);
    r21_i27_sroa_5_0_r5_sroa_3_0_copyload_i41_sroa_idx = (v6 - 5);
    LOAD(uint8_t, r21_i27_sroa_5_0_copyload, r21_i27_sroa_5_0_r5_sroa_3_0_copyload_i41_sroa_idx);
    r1_i4200 = (uint8_t)((uint32_t)r21_i27_sroa_5_0_copyload + (uint32_t)208u);
    r1201 = (uint8_t)((uint32_t)r21_i27_sroa_6_0_copyload + (uint32_t)208u);
    r12202 = r1_i4200 < 10u;
    r17203 = r1201 < 10u;
    or_cond_not_i_not_not204 = (uint8_t)(((uint32_t)r17203 & (uint32_t)r12202) & 1);
    if (or_cond_not_i_not_not204) { goto at__arm_9205; }
    goto at__arm_6;
    at__arm_9205:;
    r1_i4_i9209 = (uint8_t)((uint32_t)r21_i27_sroa_8_0_copyload + (uint32_t)208u);
    r1_i_i10210 = (uint8_t)((uint32_t)r21_i27_sroa_9_0_copyload + (uint32_t)208u);
    r12_i11211 = r1_i4_i9209 < 10u;
    r17_i12212 = r1_i_i10210 < 10u;
    or_cond_not_i13_not_not213 = (uint8_t)(((uint32_t)r12_i11211 & (uint32_t)r17_i12212) & 1);
    if (or_cond_not_i13_not_not213) { goto at__arm_645; }
    goto at__arm_6;
    at__arm_645:;
    narrow418 = (uint8_t)((uint32_t)r1_i4_i9209 * (uint32_t)10u);
    narrow438 = (uint8_t)((uint32_t)narrow418 + (uint32_t)r1_i_i10210);
    r32_i17217 = (uint32_t)narrow438;
    narrow206 = (uint8_t)((uint32_t)r1_i4200 * (uint32_t)10u);
    narrow32207 = (uint8_t)((uint32_t)narrow206 + (uint32_t)r1201);
    switch (a2) {
    case UINT64_C(6): goto at__arm_6;
    case UINT64_C(10): goto at__then_12;
    default: goto at__after_5;
    }
    at__then_12:;
    LOAD(uint8_t, r76, a1);
    r8168 = (a1 + 1);
    switch (r76) {
    case 45u: { r141396 = UINT64_C(3); r138394 = r8168; goto at__chrono_text_read_decimal_has_decimal_form_exit_i_i; }
    case 43u: { r182402 = UINT64_C(3); r179400 = r8168; goto at__chrono_text_read_decimal_has_decimal_form_exit_i_i295; }
    default: goto at__default_17;
    }
    at__default_17:;
    r83 = (a1 + 2);
    LOAD(uint8_t, r93, r8168);
    LOAD(uint16_t, r95, r83);
    v7 = (uint32_t)r95;
    v8 = (uint32_t)(v7 << 16u);
    r30_i64_sroa_5_0_insert_ext = (uint32_t)r93;
    r30_i64_sroa_5_0_insert_shift = (uint32_t)(r30_i64_sroa_5_0_insert_ext << 8);
    r30_i64_sroa_0_0_insert_ext = (uint32_t)r76;
    r30_i64_sroa_5_0_insert_insert = (uint32_t)(r30_i64_sroa_5_0_insert_shift | r30_i64_sroa_0_0_insert_ext);
    r30_i64_sroa_0_0_insert_insert = (uint32_t)(r30_i64_sroa_5_0_insert_insert | v8);
    r105 = chrono_text_read_places_read_four(r30_i64_sroa_0_0_insert_insert);
    r106 = r105.f0;
    r107 = r105.f1;
    v9 = r106 == 1;
    spec_select415 = v9 ? r107 : 0;
    {
    r0_sroa_6_066 = spec_select415;
    r0_sroa_0_sroa_0_0_i67_shrunk = v9;
    goto at__chrono_text_read_year_read_year_exit;
    }
    at__after_5:;
    LOAD(uint8_t, r135, a1);
    switch (r135) {
    case 45u: goto at__after_4;
    case 43u: goto at__after_3;
    default: goto at__arm_6;
    }
    at__after_4:;
    r138 = (a1 + 1);
    r141 = (uint64_t)(a2 + UINT64_C(18446744073709551609));
    switch (a2) {
    case UINT64_C(11): goto at__then_6;
    case UINT64_C(7): goto at__arm_6;
    case UINT64_C(8): { r141395 = UINT64_C(1); r138393 = r138; goto at__join_3; }
    default: { r141396 = r141; r138394 = r138; goto at__chrono_text_read_decimal_has_decimal_form_exit_i_i; }
    }
    at__then_6:;
    r42 = (a1 + 2);
    LOAD(uint8_t, r52, r138);
    LOAD(uint8_t, r54, r42);
    r1_i4_2 = (uint8_t)((uint32_t)r52 + (uint32_t)208u);
    r1_2 = (uint8_t)((uint32_t)r54 + (uint32_t)208u);
    r12_3 = r1_i4_2 < 10u;
    r17_3 = r1_2 < 10u;
    or_cond_not_i_not_not_2 = (uint8_t)(((uint32_t)r12_3 & (uint32_t)r17_3) & 1);
    r1_i5 = (uint32_t)r1_i4_2;
    r27 = (uint32_t)(r1_i5 * 10u);
    r1_i6 = (uint32_t)r1_2;
    r32 = (uint32_t)(r27 + r1_i6);
    if (or_cond_not_i_not_not_2) { goto at__arm_1_3; }
    goto at__arm_6;
    at__arm_1_3:;
    r46_2 = (a1 + 4);
    LOAD(uint8_t, r58, r46_2);
    r44229 = (a1 + 3);
    LOAD(uint8_t, r56230, r44229);
    r1_i4_i12 = (uint8_t)((uint32_t)r56230 + (uint32_t)208u);
    r1_i_i13 = (uint8_t)((uint32_t)r58 + (uint32_t)208u);
    r12_i14 = r1_i4_i12 < 10u;
    r17_i15 = r1_i_i13 < 10u;
    or_cond_not_i16_not_not = (uint8_t)(((uint32_t)r17_i15 & (uint32_t)r12_i14) & 1);
    if (or_cond_not_i16_not_not) { goto at__chrono_text_read_year_year_size_exit_thread442; }
    goto at__arm_6;
    at__chrono_text_read_year_year_size_exit_thread442:;
    narrow_3 = (uint8_t)((uint32_t)r1_i4_i12 * (uint32_t)10u);
    narrow1 = (uint8_t)((uint32_t)narrow_3 + (uint32_t)r1_i_i13);
    r32_i20 = (uint32_t)narrow1;
    v10 = (uint32_t)(r32 * 100u);
    r98 = (uint32_t)(v10 + r32_i20);
    {
    r0_sroa_5_0445 = r98;
    goto at__arm_28;
    }
    at__chrono_text_read_decimal_has_decimal_form_exit_i_i:;
    LOAD(uint8_t, r28, r138394);
    r30 = r28 != 48u;
    r37_2 = r141396 < UINT64_C(19);
    spec_select = (uint8_t)(((uint32_t)r37_2 & (uint32_t)r30) & 1);
    if (spec_select) { { r141395 = r141396; r138393 = r138394; goto at__join_3; } }
    goto at__arm_6;
    at__join_3:;
    {
    r4_017 = UINT64_C(0);
    r5_016 = UINT64_C(0);
    goto at__join_5;
    }
    at__join_5:;
    r25_2 = (r138393 + (int64_t)r5_016);
    LOAD(uint8_t, r27_2, r25_2);
    r1_3 = (uint8_t)((uint32_t)r27_2 + (uint32_t)208u);
    r31 = r1_3 > 9;
    if (r31) { goto at__chrono_text_read_places_value_of_all_exit_i_i; }
    goto at__join_8;
    at__join_8:;
    r39 = (uint64_t)(r4_017 * UINT64_C(10));
    r1_i10 = (uint64_t)r1_3;
    r44_2 = (uint64_t)(r39 + r1_i10);
    r46 = (uint64_t)(r5_016 + UINT64_C(1));
    exitcond_not_2 = r46 == r141395;
    if (exitcond_not_2) { { r4_0_pn_i_i_i19 = r44_2; goto at__chrono_text_read_year_year_size_exit; } }
    { r4_017 = r44_2; r5_016 = r46; goto at__join_5; }
    at__chrono_text_read_places_value_of_all_exit_i_i:;
    r22_i_i_not = r5_016 < r141395;
    if (r22_i_i_not) { goto at__arm_6; }
    { r4_0_pn_i_i_i19 = r4_017; goto at__chrono_text_read_year_year_size_exit; }
    at__chrono_text_read_year_year_size_exit:;
    v11 = (uint64_t)(r4_0_pn_i_i_i19 + UINT64_C(18446744073708551616));
    or_cond14 = v11 < UINT64_C(18446744073708561616);
    r111 = (uint32_t)(r4_0_pn_i_i_i19);
    if (or_cond14) { goto at__arm_6; }
    { r0_sroa_5_0445 = r111; goto at__arm_28; }
    at__arm_28:;
    r5_not236 = r0_sroa_5_0445 != 0;
    r10237 = (uint32_t)(0 - r0_sroa_5_0445);
    {
    r0_sroa_6_066 = r10237;
    r0_sroa_0_sroa_0_0_i67_shrunk = r5_not236;
    goto at__chrono_text_read_year_read_year_exit;
    }
    at__after_3:;
    r179 = (a1 + 1);
    r182 = (uint64_t)(a2 + UINT64_C(18446744073709551609));
    switch (a2) {
    case UINT64_C(11): goto at__then_6267;
    case UINT64_C(7): goto at__arm_6;
    case UINT64_C(8): { r182401 = UINT64_C(1); r179399 = r179; goto at__join_3241; }
    default: { r182402 = r182; r179400 = r179; goto at__chrono_text_read_decimal_has_decimal_form_exit_i_i295; }
    }
    at__then_6267:;
    r42268 = (a1 + 2);
    LOAD(uint8_t, r52269, r179);
    LOAD(uint8_t, r54270, r42268);
    r1_i4271 = (uint8_t)((uint32_t)r52269 + (uint32_t)208u);
    r1272 = (uint8_t)((uint32_t)r54270 + (uint32_t)208u);
    r12273 = r1_i4271 < 10u;
    r17274 = r1272 < 10u;
    or_cond_not_i_not_not275 = (uint8_t)(((uint32_t)r12273 & (uint32_t)r17274) & 1);
    r1_i5276 = (uint32_t)r1_i4271;
    r27277 = (uint32_t)(r1_i5276 * 10u);
    r1_i6278 = (uint32_t)r1272;
    r32279 = (uint32_t)(r27277 + r1_i6278);
    if (or_cond_not_i_not_not275) { goto at__arm_1280; }
    goto at__arm_6;
    at__arm_1280:;
    r46281 = (a1 + 4);
    LOAD(uint8_t, r58282, r46281);
    r44283 = (a1 + 3);
    LOAD(uint8_t, r56284, r44283);
    r1_i4_i12285 = (uint8_t)((uint32_t)r56284 + (uint32_t)208u);
    r1_i_i13286 = (uint8_t)((uint32_t)r58282 + (uint32_t)208u);
    r12_i14287 = r1_i4_i12285 < 10u;
    r17_i15288 = r1_i_i13286 < 10u;
    or_cond_not_i16_not_not289 = (uint8_t)(((uint32_t)r17_i15288 & (uint32_t)r12_i14287) & 1);
    if (or_cond_not_i16_not_not289) { goto at__chrono_text_read_year_year_size_exit300_thread448; }
    goto at__arm_6;
    at__chrono_text_read_year_year_size_exit300_thread448:;
    narrow291 = (uint8_t)((uint32_t)r1_i4_i12285 * (uint32_t)10u);
    narrow1292 = (uint8_t)((uint32_t)narrow291 + (uint32_t)r1_i_i13286);
    r32_i20293 = (uint32_t)narrow1292;
    v12 = (uint32_t)(r32279 * 100u);
    r98294 = (uint32_t)(v12 + r32_i20293);
    {
    r0_sroa_5_0261451 = r98294;
    goto at__arm_31;
    }
    at__chrono_text_read_decimal_has_decimal_form_exit_i_i295:;
    LOAD(uint8_t, r28296, r179400);
    r30297 = r28296 != 48u;
    r37298 = r182402 < UINT64_C(19);
    spec_select299 = (uint8_t)(((uint32_t)r37298 & (uint32_t)r30297) & 1);
    if (spec_select299) { { r182401 = r182402; r179399 = r179400; goto at__join_3241; } }
    goto at__arm_6;
    at__join_3241:;
    {
    r4_017243 = UINT64_C(0);
    r5_016244 = UINT64_C(0);
    goto at__join_5242;
    }
    at__join_5242:;
    r25245 = (r179399 + (int64_t)r5_016244);
    LOAD(uint8_t, r27246, r25245);
    r1247 = (uint8_t)((uint32_t)r27246 + (uint32_t)208u);
    r31248 = r1247 > 9;
    if (r31248) { goto at__chrono_text_read_places_value_of_all_exit_i_i265; }
    goto at__join_8249;
    at__join_8249:;
    r39250 = (uint64_t)(r4_017243 * UINT64_C(10));
    r1_i10251 = (uint64_t)r1247;
    r44252 = (uint64_t)(r39250 + r1_i10251);
    r46253 = (uint64_t)(r5_016244 + UINT64_C(1));
    exitcond_not254 = r46253 == r182401;
    if (exitcond_not254) { { r4_0_pn_i_i_i19256 = r44252; goto at__chrono_text_read_year_year_size_exit300; } }
    { r4_017243 = r44252; r5_016244 = r46253; goto at__join_5242; }
    at__chrono_text_read_places_value_of_all_exit_i_i265:;
    r22_i_i_not266 = r5_016244 < r182401;
    if (r22_i_i_not266) { goto at__arm_6; }
    { r4_0_pn_i_i_i19256 = r4_017243; goto at__chrono_text_read_year_year_size_exit300; }
    at__chrono_text_read_year_year_size_exit300:;
    v13 = (uint64_t)(r4_0_pn_i_i_i19256 + UINT64_C(18446744073708551616));
    or_cond14257 = v13 < UINT64_C(18446744073708561616);
    r111258 = (uint32_t)(r4_0_pn_i_i_i19256);
    if (or_cond14257) { goto at__arm_6; }
    { r0_sroa_5_0261451 = r111258; goto at__arm_31; }
    at__arm_31:;
    r4306 = r0_sroa_5_0261451 > 9999u;
    a0_308 = r4306 ? r0_sroa_5_0261451 : 0;
    {
    r0_sroa_6_066 = a0_308;
    r0_sroa_0_sroa_0_0_i67_shrunk = r4306;
    goto at__chrono_text_read_year_read_year_exit;
    }
    at__chrono_text_read_year_read_year_exit:;
    a1_313 = r0_sroa_0_sroa_0_0_i67_shrunk ? r0_sroa_6_066 : 0;
    v14 = (uint8_t)((uint32_t)narrow32207 + (uint32_t)255u);
    or_cond_3 = v14 < 12u;
    or_cond_not = r0_sroa_0_sroa_0_0_i67_shrunk ? or_cond_3 : 0;
    if (or_cond_not) { goto at__after_1; }
    goto at__arm_6;
    at__after_1:;
    r18_sroa_0_0_extract_trunc59 = (uint32_t)narrow32207;
    r32316 = narrow32207 > 2;
    r36 = (uint32_t)(r18_sroa_0_0_extract_trunc59 | 12u);
    r6_0 = r32316 ? r18_sroa_0_0_extract_trunc59 : r36;
    r3 = (uint32_t)(r6_0 * 979u);
    r5_2 = (uint32_t)(r3 + 4294964377u);
    r71 = (uint32_t)(r5_2 >> 5);
    narrow419 = (uint32_t)(r71 + r32_i17217);
    r45 = (uint64_t)narrow419;
    r46_3 = narrow438 == 0;
    if (r46_3) { goto at__arm_6; }
    goto at__else_18;
    at__else_18:;
    r5_i12 = (uint32_t)(r3 + 4294965356u);
    r71_i13 = (uint32_t)(r5_i12 >> 5);
    r58_2 = narrow419 > r71_i13;
    if (r58_2) { goto at__arm_6; }
    goto at__after_15;
    at__after_15:;
    r66 = narrow419 > 365u;
    if (r66) { goto at__then_26; }
    goto at__after_25;
    at__then_26:;
    r6 = (uint32_t)((int32_t)a1_313 % (int32_t)100u);
    r8_2 = r6 == 0;
    if (r8_2) { goto at__then_1; }
    goto at__else_2;
    at__then_1:;
    r12 = (uint32_t)((int32_t)a1_313 % (int32_t)400u);
    {
    r3_0_in_in = r12;
    goto at__chrono_units_year_year_length_exit_i_i_i;
    }
    at__else_2:;
    v15 = (uint32_t)(a1_313 & 3);
    {
    r3_0_in_in = v15;
    goto at__chrono_units_year_year_length_exit_i_i_i;
    }
    at__chrono_units_year_year_length_exit_i_i_i:;
    r3_0_in = r3_0_in_in == 0;
    x = r3_0_in ? UINT64_C(366) : UINT64_C(365);
    r75 = x >= r45;
    v16 = (uint32_t)(a1_313 + 262143u);
    spec_select_2 = v16 < 524286u;
    or_cond16 = (uint8_t)(((uint32_t)spec_select_2 & (uint32_t)r75) & 1);
    if (or_cond16) { { r108_pre_phi_sink_shrunk = 0; r0_sroa_5_4_copyload12_sink = 0; r0_sroa_9_8_copyload15_sink = a2; goto at__common_ret; } }
    goto at__arm_6;
    at__after_25:;
    old = (uint32_t)(a1_313 + 262143u);
    spec_select_i_old = old < 524286u;
    if (spec_select_i_old) { { r108_pre_phi_sink_shrunk = 0; r0_sroa_5_4_copyload12_sink = 0; r0_sroa_9_8_copyload15_sink = a2; goto at__common_ret; } }
    goto at__arm_6;
    at__arm_6:;
    chrono_reading_date_date_error(r8, a1, a2);
    LOAD(uint8_t, r49_pre, r8);
    r52_phi_trans_insert = (r8 + 4);
    LOAD(uint32_t, r0_sroa_5_4_copyload_pre, r52_phi_trans_insert);
    r54_phi_trans_insert = (r8 + 8);
    LOAD(uint64_t, r0_sroa_9_8_copyload_pre, r54_phi_trans_insert);
    {
    r108_pre_phi_sink_shrunk = r49_pre;
    r0_sroa_5_4_copyload12_sink = r0_sroa_5_4_copyload_pre;
    r0_sroa_9_8_copyload15_sink = r0_sroa_9_8_copyload_pre;
    goto at__common_ret;
    }
    at__common_ret:;
    r108_pre_phi_sink = (uint32_t)r108_pre_phi_sink_shrunk;
    STORE(uint32_t, a0, r108_pre_phi_sink);
    r115 = (a0 + 4);
    STORE(uint32_t, r115, r0_sroa_5_4_copyload12_sink);
    r117 = (a0 + 8);
    STORE(uint64_t, r117, r0_sroa_9_8_copyload15_sink);
    return;
    at__arm_8:;
    r75_2 = (uint64_t)(r3_06 + UINT64_C(1));
    r78 = (a1 + (int64_t)r75_2);
    r82 = (uint64_t)(a2 - r75_2);
    chrono_reading_time_time_error(r5, r78, r82);
    r93_2 = (r5 + 4);
    LOAD(uint32_t, r19_sroa_3_4_copyload, r93_2);
    r97 = (r5 + 8);
    LOAD(uint64_t, r98_2, r97);
    r99 = (uint64_t)(r98_2 + r75_2);
    {
    r107_pre_sink_in = r5;
    r0_sroa_9_8_copyload15 = r99;
    r0_sroa_5_4_copyload12 = r19_sroa_3_4_copyload;
    goto at__join_10;
    }
    at__arm_9:;
    chrono_reading_date_date_error(r13, a1, r3_06);
    r110_phi_trans_insert = (r13 + 4);
    LOAD(uint32_t, r0_sroa_5_4_copyload12_pre, r110_phi_trans_insert);
    r112_phi_trans_insert = (r13 + 8);
    LOAD(uint64_t, r0_sroa_9_8_copyload15_pre, r112_phi_trans_insert);
    {
    r107_pre_sink_in = r13;
    r0_sroa_9_8_copyload15 = r0_sroa_9_8_copyload15_pre;
    r0_sroa_5_4_copyload12 = r0_sroa_5_4_copyload12_pre;
    goto at__join_10;
    }
    at__join_10:;
    LOAD(uint8_t, r107_pre_sink, r107_pre_sink_in);
    {
    r108_pre_phi_sink_shrunk = r107_pre_sink;
    r0_sroa_5_4_copyload12_sink = r0_sroa_5_4_copyload12;
    r0_sroa_9_8_copyload15_sink = r0_sroa_9_8_copyload15;
    goto at__common_ret;
    }
}

static void chrono_reading_time_time_error(bytes a0, bytes a1, uint64_t a2)
{
    uint64_t r5_016, r5_010, r4143, r3_08, r4144, v11, r5_010_2, r3_08_2, r3_0_lcssa, r6_sroa_7_0, v0, r2_sroa_5_0_extract_shift, r2_sroa_6_0_extract_shift, r2_sroa_8_0_extract_shift, r2_sroa_9_0_extract_shift, v1, r2_sroa_3_0_extract_shift, r78, v3, r46, v15, sink, r587, r41, r33, a0_i18, a0_2, spec_select, r58, r33_2, r58_i10, r61;
    bytes r38440, r38441, r37, r47, r49, r51, r75, r25, r375, r42, r38437, r384, v9, r19, r37_3, r42_2, r19_2, r36, r38;
    uint8_t r137_not46, r17, r2_sroa_5_0_extract_trunc, r2_sroa_6_0_extract_trunc, r2_sroa_8_0_extract_trunc, r2_sroa_9_0_extract_trunc, or_cond, r2_sroa_3_0_extract_trunc, r2_sroa_0_0_extract_trunc, r1_i4, r1, r12, r17_2, or_cond_not_i_not_not, r1_i4_i16, r1_i_i17, r12_i18, r17_i19, or_cond_not_i20_not_not, narrow, narrow34, r1_i4_i34, r1_i_i35, r12_i36, r17_i37, or_cond_not_i38_not_not, r44, cond1, r56, r58_2, r1_i4_2, r1_2, r12_2, r17_3, or_cond_not_i_not_not_2, r60, v2, r37_2, r72, cond, or_cond_2, r27_2, v4, r31, exitcond_not, not, r5, r18, cond_2, or_cond9_not, r39, r446, v7, r4_0_in, r25_2, v8, r178, exitcond_not_2, r137_not, r19_val, v10, r17_4, exitcond_not_i7, r5_2, r39_2, r44_2, v12, r4_0_in_2, r25_3, v13, r17_5, exitcond_not_3, r19_val_2, v14, r17_i_i_i_i9, exitcond_not_i19, r52;
    uint32_t r6_sroa_0_sroa_0_0, r1_i5, r27, r1_i6, r32, v5, v6;
    r17 = a2 < UINT64_C(8);
    if (r17) { goto at__then_1; }
    goto at__arm_1;
    at__arm_1:;
    r37 = (a1 + 8);
    LOAD(uint64_t, v0, a1);
    r2_sroa_5_0_extract_shift = (uint64_t)(v0 >> (UINT64_C(24) & 63u));
    r2_sroa_5_0_extract_trunc = (uint8_t)(r2_sroa_5_0_extract_shift);
    r2_sroa_6_0_extract_shift = (uint64_t)(v0 >> (UINT64_C(32) & 63u));
    r2_sroa_6_0_extract_trunc = (uint8_t)(r2_sroa_6_0_extract_shift);
    r2_sroa_8_0_extract_shift = (uint64_t)(v0 >> (UINT64_C(48) & 63u));
    r2_sroa_8_0_extract_trunc = (uint8_t)(r2_sroa_8_0_extract_shift);
    r2_sroa_9_0_extract_shift = (uint64_t)(v0 >> (UINT64_C(56) & 63u));
    r2_sroa_9_0_extract_trunc = (uint8_t)(r2_sroa_9_0_extract_shift);
    v1 = (uint64_t)(v0 & UINT64_C(280375481794560));
    or_cond = v1 == UINT64_C(63771678212096);
    if (or_cond) { goto at__arm_6; }
    goto at__arm_2;
    at__arm_6:;
    r2_sroa_3_0_extract_shift = (uint64_t)(v0 >> (UINT64_C(8) & 63u));
    r2_sroa_3_0_extract_trunc = (uint8_t)(r2_sroa_3_0_extract_shift);
    r2_sroa_0_0_extract_trunc = (uint8_t)(v0);
    r1_i4 = (uint8_t)((uint32_t)r2_sroa_0_0_extract_trunc + (uint32_t)208u);
    r1 = (uint8_t)((uint32_t)r2_sroa_3_0_extract_trunc + (uint32_t)208u);
    r12 = r1_i4 < 10u;
    r17_2 = r1 < 10u;
    or_cond_not_i_not_not = (uint8_t)(((uint32_t)r12 & (uint32_t)r17_2) & 1);
    r1_i5 = (uint32_t)r1_i4;
    r27 = (uint32_t)(r1_i5 * 10u);
    r1_i6 = (uint32_t)r1;
    r32 = (uint32_t)(r27 + r1_i6);
    if (or_cond_not_i_not_not) { goto at__arm_9; }
    goto at__arm_2;
    at__arm_9:;
    r1_i4_i16 = (uint8_t)((uint32_t)r2_sroa_5_0_extract_trunc + (uint32_t)208u);
    r1_i_i17 = (uint8_t)((uint32_t)r2_sroa_6_0_extract_trunc + (uint32_t)208u);
    r12_i18 = r1_i4_i16 < 10u;
    r17_i19 = r1_i_i17 < 10u;
    or_cond_not_i20_not_not = (uint8_t)(((uint32_t)r12_i18 & (uint32_t)r17_i19) & 1);
    if (or_cond_not_i20_not_not) { goto at__arm_13; }
    goto at__arm_2;
    at__arm_13:;
    narrow = (uint8_t)((uint32_t)r1_i4_i16 * (uint32_t)10u);
    narrow34 = (uint8_t)((uint32_t)narrow + (uint32_t)r1_i_i17);
    r1_i4_i34 = (uint8_t)((uint32_t)r2_sroa_8_0_extract_trunc + (uint32_t)208u);
    r1_i_i35 = (uint8_t)((uint32_t)r2_sroa_9_0_extract_trunc + (uint32_t)208u);
    r12_i36 = r1_i4_i34 < 10u;
    r17_i37 = r1_i_i35 < 10u;
    or_cond_not_i38_not_not = (uint8_t)(((uint32_t)r12_i36 & (uint32_t)r17_i37) & 1);
    if (or_cond_not_i38_not_not) { goto at__arm_5; }
    goto at__arm_2;
    at__arm_5:;
    switch (a2) {
    case UINT64_C(8): goto at__arm_1_2;
    case UINT64_C(12): goto at__then_10;
    default: goto at__after_3;
    }
    at__then_10:;
    LOAD(uint8_t, r44, r37);
    cond1 = r44 == 46u;
    if (cond1) { goto at__arm_13_i8; }
    goto at__join_3_i_thread;
    at__arm_13_i8:;
    r47 = (a1 + 9);
    r49 = (a1 + 10);
    LOAD(uint8_t, r56, r47);
    LOAD(uint8_t, r58_2, r49);
    r1_i4_2 = (uint8_t)((uint32_t)r56 + (uint32_t)208u);
    r1_2 = (uint8_t)((uint32_t)r58_2 + (uint32_t)208u);
    r12_2 = r1_i4_2 < 10u;
    r17_3 = r1_2 < 10u;
    or_cond_not_i_not_not_2 = (uint8_t)(((uint32_t)r12_2 & (uint32_t)r17_3) & 1);
    if (or_cond_not_i_not_not_2) { goto at__arm_1_3; }
    goto at__join_3_i_thread;
    at__arm_1_3:;
    r51 = (a1 + 11);
    LOAD(uint8_t, r60, r51);
    v2 = (uint8_t)((uint32_t)r60 + (uint32_t)198u);
    r37_2 = v2 < 246u;
    if (r37_2) { goto at__join_3_i_thread; }
    goto at__arm_1_2;
    at__after_3:;
    LOAD(uint8_t, r72, r37);
    cond = r72 == 46u;
    if (cond) { goto at__arm_16; }
    goto at__arm_2;
    at__arm_16:;
    r75 = (a1 + 9);
    r78 = (uint64_t)(a2 + UINT64_C(18446744073709551607));
    v3 = (uint64_t)(a2 + UINT64_C(18446744073709551597));
    or_cond_2 = v3 < UINT64_C(18446744073709551607);
    if (or_cond_2) { goto at__arm_2; }
    { r5_016 = UINT64_C(0); goto at__join_5; }
    at__join_5:;
    r25 = (r75 + (int64_t)r5_016);
    LOAD(uint8_t, r27_2, r25);
    v4 = (uint8_t)((uint32_t)r27_2 + (uint32_t)198u);
    r31 = v4 < 246u;
    if (r31) { goto at__chrono_text_read_places_read_all_exit_i_i_i; }
    goto at__join_8;
    at__join_8:;
    r46 = (uint64_t)(r5_016 + UINT64_C(1));
    exitcond_not = r46 == r78;
    if (exitcond_not) { goto at__arm_1_2; }
    { r5_016 = r46; goto at__join_5; }
    at__chrono_text_read_places_read_all_exit_i_i_i:;
    not = r5_016 < r78;
    if (not) { goto at__arm_2; }
    goto at__arm_1_2;
    at__arm_1_2:;
    r5 = r32 > 23u;
    r18 = narrow34 > 59u;
    v15 = r18 ? UINT64_C(3) : UINT64_C(6);
    sink = r5 ? UINT64_C(0) : v15;
    v5 = r18 ? 13u : 14u;
    v6 = r5 ? 12u : v5;
    {
    r6_sroa_0_sroa_0_0 = v6;
    r6_sroa_7_0 = sink;
    goto at__join_4;
    }
    at__arm_2:;
    cond_2 = a2 == UINT64_C(8);
    if (cond_2) { goto at__join_5_i_i_preheader; }
    goto at__join_3;
    at__then_1:;
    or_cond9_not = a2 == UINT64_C(0);
    if (or_cond9_not) { { r6_sroa_0_sroa_0_0 = 0; r6_sroa_7_0 = UINT64_C(0); goto at__join_4; } }
    goto at__join_5_i_i_preheader;
    at__join_5_i_i_preheader:;
    {
    r5_010 = UINT64_C(0);
    goto at__join_5_2;
    }
    at__join_5_2:;
    r375 = ((bytes)&static_12 + (int64_t)r5_010);
    LOAD(uint8_t, r39, r375);
    r42 = (a1 + (int64_t)r5_010);
    LOAD(uint8_t, r446, r42);
    switch (r39) {
    case 100u: goto at__chrono_reading_fitting_stands_for_exit_i_i;
    case 110u: goto at__arm_2_2;
    default: goto at__default_3;
    }
    at__arm_2_2:;
    v7 = (uint8_t)((uint32_t)r446 + (uint32_t)207u);
    r4_0_in = v7 < 9;
    if (r4_0_in) { goto at__join_11; }
    { r6_sroa_0_sroa_0_0 = 0; r6_sroa_7_0 = r5_010; goto at__join_4; }
    at__default_3:;
    r25_2 = r446 == r39;
    if (r25_2) { goto at__join_11; }
    { r6_sroa_0_sroa_0_0 = 0; r6_sroa_7_0 = r5_010; goto at__join_4; }
    at__chrono_reading_fitting_stands_for_exit_i_i:;
    v8 = (uint8_t)((uint32_t)r446 + (uint32_t)208u);
    r178 = v8 < 10u;
    if (r178) { goto at__join_11; }
    { r6_sroa_0_sroa_0_0 = 0; r6_sroa_7_0 = r5_010; goto at__join_4; }
    at__join_11:;
    r587 = (uint64_t)(r5_010 + UINT64_C(1));
    exitcond_not_2 = r587 == a2;
    if (exitcond_not_2) { { r6_sroa_0_sroa_0_0 = 0; r6_sroa_7_0 = a2; goto at__join_4; } }
    { r5_010 = r587; goto at__join_5_2; }
    at__join_3_i_thread:;
    r38437 = (a1 + 9);
    {
    r4143 = UINT64_C(3);
    r38440 = r38437;
    goto at__join_5_i6_i_preheader;
    }
    at__join_3:;
    r384 = (a1 + 9);
    r41 = (uint64_t)(a2 + UINT64_C(18446744073709551607));
    r137_not = r41 == UINT64_C(0);
    if (r137_not) { { r137_not46 = 1; r4144 = UINT64_C(0); r38441 = r384; v11 = UINT64_C(1); goto at__chrono_reading_fitting_leading_digits_exit_thread_i; } }
    { r4143 = r41; r38440 = r384; goto at__join_5_i6_i_preheader; }
    at__join_5_i6_i_preheader:;
    v9 = (a1 + 9);
    {
    r3_08 = UINT64_C(0);
    goto at__join_5_i6;
    }
    at__join_5_i6:;
    r19 = (v9 + (int64_t)r3_08);
    LOAD(uint8_t, r19_val, r19);
    v10 = (uint8_t)((uint32_t)r19_val + (uint32_t)208u);
    r17_4 = v10 < 10u;
    if (r17_4) { goto at__join_8_2; }
    goto at__chrono_reading_fitting_leading_digits_exit_i;
    at__join_8_2:;
    r33 = (uint64_t)(r3_08 + UINT64_C(1));
    exitcond_not_i7 = r33 == r4143;
    if (exitcond_not_i7) { goto at__chrono_reading_fitting_leading_digits_exit_thread15_i; }
    { r3_08 = r33; goto at__join_5_i6; }
    at__chrono_reading_fitting_leading_digits_exit_thread15_i:;
    a0_i18 = r4143 < UINT64_C(9) ? r4143 : UINT64_C(9);
    {
    r137_not46 = 0;
    r4144 = r4143;
    r38441 = r38440;
    v11 = a0_i18;
    goto at__chrono_reading_fitting_leading_digits_exit_thread_i;
    }
    at__chrono_reading_fitting_leading_digits_exit_i:;
    r5_2 = r3_08 == UINT64_C(0);
    a0_2 = r3_08 < UINT64_C(9) ? r3_08 : UINT64_C(9);
    spec_select = r5_2 ? UINT64_C(1) : a0_2;
    {
    r137_not46 = 0;
    r4144 = r4143;
    r38441 = r38440;
    v11 = spec_select;
    goto at__chrono_reading_fitting_leading_digits_exit_thread_i;
    }
    at__chrono_reading_fitting_leading_digits_exit_thread_i:;
    {
    r5_010_2 = UINT64_C(0);
    goto at__join_5_3;
    }
    at__join_5_3:;
    r37_3 = ((bytes)&static_13 + (int64_t)r5_010_2);
    LOAD(uint8_t, r39_2, r37_3);
    r42_2 = (a1 + (int64_t)r5_010_2);
    LOAD(uint8_t, r44_2, r42_2);
    switch (r39_2) {
    case 100u: goto at__chrono_reading_fitting_stands_for_exit_i_i_i;
    case 110u: goto at__arm_2_3;
    default: goto at__default_3_2;
    }
    at__arm_2_3:;
    v12 = (uint8_t)((uint32_t)r44_2 + (uint32_t)207u);
    r4_0_in_2 = v12 < 9;
    if (r4_0_in_2) { goto at__join_11_2; }
    { r6_sroa_0_sroa_0_0 = 0; r6_sroa_7_0 = r5_010_2; goto at__join_4; }
    at__default_3_2:;
    r25_3 = r44_2 == r39_2;
    if (r25_3) { goto at__join_11_2; }
    { r6_sroa_0_sroa_0_0 = 0; r6_sroa_7_0 = r5_010_2; goto at__join_4; }
    at__chrono_reading_fitting_stands_for_exit_i_i_i:;
    v13 = (uint8_t)((uint32_t)r44_2 + (uint32_t)208u);
    r17_5 = v13 < 10u;
    if (r17_5) { goto at__join_11_2; }
    { r6_sroa_0_sroa_0_0 = 0; r6_sroa_7_0 = r5_010_2; goto at__join_4; }
    at__join_11_2:;
    r58 = (uint64_t)(r5_010_2 + UINT64_C(1));
    exitcond_not_3 = r58 == UINT64_C(9);
    if (exitcond_not_3) { goto at__join_3_2; }
    { r5_010_2 = r58; goto at__join_5_3; }
    at__join_3_2:;
    if (r137_not46) { { r3_0_lcssa = UINT64_C(0); goto at__chrono_reading_fitting_leading_digits_exit_i_i; } }
    { r3_08_2 = UINT64_C(0); goto at__join_5_i18; }
    at__join_5_i18:;
    r19_2 = (r38441 + (int64_t)r3_08_2);
    LOAD(uint8_t, r19_val_2, r19_2);
    v14 = (uint8_t)((uint32_t)r19_val_2 + (uint32_t)208u);
    r17_i_i_i_i9 = v14 < 10u;
    if (r17_i_i_i_i9) { goto at__join_8_3; }
    { r3_0_lcssa = r3_08_2; goto at__chrono_reading_fitting_leading_digits_exit_i_i; }
    at__join_8_3:;
    r33_2 = (uint64_t)(r3_08_2 + UINT64_C(1));
    exitcond_not_i19 = r33_2 == r4144;
    if (exitcond_not_i19) { { r3_0_lcssa = r4144; goto at__chrono_reading_fitting_leading_digits_exit_i_i; } }
    { r3_08_2 = r33_2; goto at__join_5_i18; }
    at__chrono_reading_fitting_leading_digits_exit_i_i:;
    r52 = r3_0_lcssa < v11;
    if (r52) { goto at__then_4; }
    goto at__join_6;
    at__then_4:;
    r58_i10 = (uint64_t)(r3_0_lcssa + UINT64_C(9));
    {
    r6_sroa_0_sroa_0_0 = 0;
    r6_sroa_7_0 = r58_i10;
    goto at__join_4;
    }
    at__join_6:;
    r61 = (uint64_t)(v11 + UINT64_C(9));
    {
    r6_sroa_0_sroa_0_0 = 0;
    r6_sroa_7_0 = r61;
    goto at__join_4;
    }
    at__join_4:;
    STORE(uint32_t, a0, r6_sroa_0_sroa_0_0);
    r36 = (a0 + 4);
    STORE(uint32_t, r36, 0);
    r38 = (a0 + 8);
    STORE(uint64_t, r38, r6_sroa_7_0);
    return;
}

static t_struct_i64_i32_end in_calendar_read_duration(bytes a0, uint64_t a1)
{
    uint8_t r20, r20_i_pr_pre, r26, cond, r31, cond1, r36, cond2, cond_i3, r2, v0, r10, r62_pre, v1, r7, r12, r18, r20_2;
    uint64_t r5_sroa_4_0_i_ph_ph, r5_sroa_7_0_i_ph_ph, r5_sroa_8_0_i_ph_ph, r5_sroa_4_0_i_ph, r5_sroa_7_0_i_ph, r5_sroa_8_0_i_ph, r7_sroa_0_0, r26_i4, r7_sroa_4_i_sroa_3_7_copyload, r15_2, r21, r0_sroa_0_0, r4_sroa_5_sroa_5_0_extract_shift32, r4_sroa_9_16_insert_ext34, r0_sroa_7_8_copyload7_pre, r0_sroa_12_8_copyload10_pre, r4_sroa_5_sroa_5_0_extract_shift, v2, r3_sroa_3_sroa_0_0_insert_insert, r9, r12_2, r25, r9_sroa_0_0;
    uint32_t r7_sroa_4_0, r7_sroa_4_i_sroa_5_7_copyload, r24, r0_sroa_4_0, r3_sroa_8_16_extract_trunc, r17_neg, r205, r28, r9_sroa_4_0, r20_i_lobit;
    bytes r11, r15, r6, r29, r34, r23, r5, r7_sroa_4_i_sroa_5_7_r5_i_sroa_idx, r65_phi_trans_insert, r0_sroa_12_8_r65_sroa_idx_phi_trans_insert;
    t_struct_i64_i32_end r18_fca_0_insert, r18_fca_1_insert;
    uint64_t room_r11[3];
    uint64_t room_r15[3];
    uint64_t room_r6[2];
    r11 = (bytes)room_r11;
    r15 = (bytes)room_r15;
    r6 = (bytes)room_r6;
    memset(r11, 0, UINT64_C(24));
    memset(r15, 0, UINT64_C(24));
    switch (a1) {
    case UINT64_C(3): goto at__then_6;
    case UINT64_C(0): goto at__chrono_reading_duration_duration_named_exit_i;
    default: goto at__start_join_5_ithread_pre_split_crit_edge;
    }
    at__start_join_5_ithread_pre_split_crit_edge:;
    LOAD(uint8_t, r20_i_pr_pre, a0);
    {
    r20 = r20_i_pr_pre;
    goto at__join_5;
    }
    at__then_6:;
    LOAD(uint8_t, r26, a0);
    cond = r26 == 80u;
    if (cond) { goto at__arm_9; }
    { r20 = r26; goto at__join_5; }
    at__arm_9:;
    r29 = (a0 + 1);
    LOAD(uint8_t, r31, r29);
    cond1 = r31 == 48u;
    if (cond1) { goto at__arm_12; }
    goto at__chrono_reading_duration_duration_named_exit_i;
    at__arm_12:;
    r34 = (a0 + 2);
    LOAD(uint8_t, r36, r34);
    cond2 = r36 == 68u;
    if (cond2) { { r5_sroa_4_0_i_ph_ph = UINT64_C(0); r5_sroa_7_0_i_ph_ph = UINT64_C(0); r5_sroa_8_0_i_ph_ph = UINT64_C(0); goto at__arm_1_i3_sink_split; } }
    goto at__chrono_reading_duration_duration_named_exit_i;
    at__join_5:;
    cond_i3 = r20 == 45u;
    if (cond_i3) { goto at__arm_4; }
    goto at__chrono_reading_duration_duration_named_exit_i;
    at__arm_4:;
    r23 = (a0 + 1);
    r26_i4 = (uint64_t)(a1 + UINT64_C(18446744073709551615));
    chrono_reading_duration_read_size(r15, r23, r26_i4);
    LOAD(uint8_t, r2, r15);
    v0 = r2 == 1;
    if (v0) { goto at__chrono_reading_duration_duration_named_exit_thread24_i; }
    goto at__chrono_reading_duration_duration_named_exit_thread19_i;
    at__chrono_reading_duration_duration_named_exit_thread19_i:;
    goto at__core_result_Result_ok_f7a15ef5d6587233_exit;
    at__chrono_reading_duration_duration_named_exit_thread24_i:;
    r5 = (r15 + 8);
    LOAD(uint64_t, r7_sroa_4_i_sroa_3_7_copyload, r5);
    r7_sroa_4_i_sroa_5_7_r5_i_sroa_idx = (r15 + 16);
    LOAD(uint32_t, r7_sroa_4_i_sroa_5_7_copyload, r7_sroa_4_i_sroa_5_7_r5_i_sroa_idx);
    r10 = r7_sroa_4_i_sroa_5_7_copyload == 0;
    r15_2 = (uint64_t)(UINT64_C(0) - r7_sroa_4_i_sroa_3_7_copyload);
    r21 = (uint64_t)(r7_sroa_4_i_sroa_3_7_copyload ^ UINT64_C(18446744073709551615));
    r24 = (uint32_t)(1000000000u - r7_sroa_4_i_sroa_5_7_copyload);
    r0_sroa_4_0 = r10 ? 0 : r24;
    r0_sroa_0_0 = r10 ? r15_2 : r21;
    r4_sroa_5_sroa_5_0_extract_shift32 = (uint64_t)(r0_sroa_0_0 & UINT64_C(18446744069414584320));
    r4_sroa_9_16_insert_ext34 = (uint64_t)r0_sroa_4_0;
    {
    r5_sroa_4_0_i_ph_ph = r0_sroa_0_0;
    r5_sroa_7_0_i_ph_ph = r4_sroa_5_sroa_5_0_extract_shift32;
    r5_sroa_8_0_i_ph_ph = r4_sroa_9_16_insert_ext34;
    goto at__arm_1_i3_sink_split;
    }
    at__chrono_reading_duration_duration_named_exit_i:;
    chrono_reading_duration_read_size(r11, a0, a1);
    LOAD(uint8_t, r62_pre, r11);
    r65_phi_trans_insert = (r11 + 8);
    LOAD(uint64_t, r0_sroa_7_8_copyload7_pre, r65_phi_trans_insert);
    r0_sroa_12_8_r65_sroa_idx_phi_trans_insert = (r11 + 16);
    LOAD(uint64_t, r0_sroa_12_8_copyload10_pre, r0_sroa_12_8_r65_sroa_idx_phi_trans_insert);
    r4_sroa_5_sroa_5_0_extract_shift = (uint64_t)(r0_sroa_7_8_copyload7_pre & UINT64_C(18446744069414584320));
    v1 = r62_pre == 1;
    if (v1) { { r5_sroa_4_0_i_ph = r0_sroa_7_8_copyload7_pre; r5_sroa_7_0_i_ph = r4_sroa_5_sroa_5_0_extract_shift; r5_sroa_8_0_i_ph = r0_sroa_12_8_copyload10_pre; goto at__arm_13; } }
    goto at__core_result_Result_ok_f7a15ef5d6587233_exit;
    at__core_result_Result_ok_f7a15ef5d6587233_exit:;
    chrono_reading_duration_error_duration_error(r6, a0, a1);
    {
    r7_sroa_0_0 = UINT64_C(0);
    r7_sroa_4_0 = 4294967295u;
    goto at__numbers_c_date_time_numbers_duration_or_none_exit;
    }
    at__arm_1_i3_sink_split:;
    {
    r5_sroa_4_0_i_ph = r5_sroa_4_0_i_ph_ph;
    r5_sroa_7_0_i_ph = r5_sroa_7_0_i_ph_ph;
    r5_sroa_8_0_i_ph = r5_sroa_8_0_i_ph_ph;
    goto at__arm_13;
    }
    at__arm_13:;
    r3_sroa_8_16_extract_trunc = (uint32_t)(r5_sroa_8_0_i_ph);
    v2 = (uint64_t)(r5_sroa_4_0_i_ph & UINT64_C(4294967295));
    r3_sroa_3_sroa_0_0_insert_insert = (uint64_t)(v2 | r5_sroa_7_0_i_ph);
    r7 = (int64_t)r5_sroa_7_0_i_ph < (int64_t)UINT64_C(0);
    r12 = r3_sroa_8_16_extract_trunc != 0;
    r18 = (uint8_t)(((uint32_t)r7 & (uint32_t)r12) & 1);
    r9 = (uint64_t)r18;
    r12_2 = (uint64_t)(r3_sroa_3_sroa_0_0_insert_insert + r9);
    r17_neg = r18 ? 3294967296u : 0;
    r205 = (uint32_t)(r17_neg + r3_sroa_8_16_extract_trunc);
    r20_2 = (int32_t)r205 < (int32_t)0;
    r28 = (uint32_t)(r205 + 1000000000u);
    r9_sroa_4_0 = r20_2 ? r28 : r205;
    r20_i_lobit = (uint32_t)((int32_t)r205 >> 31u);
    r25 = (uint64_t)((uint64_t)(int32_t)r20_i_lobit);
    r9_sroa_0_0 = (uint64_t)(r12_2 + r25);
    {
    r7_sroa_0_0 = r9_sroa_0_0;
    r7_sroa_4_0 = r9_sroa_4_0;
    goto at__numbers_c_date_time_numbers_duration_or_none_exit;
    }
    at__numbers_c_date_time_numbers_duration_or_none_exit:;
    r18_fca_0_insert = (t_struct_i64_i32_end){0};
    r18_fca_0_insert.f0 = r7_sroa_0_0;
    r18_fca_1_insert = r18_fca_0_insert;
    r18_fca_1_insert.f1 = r7_sroa_4_0;
    return r18_fca_1_insert;
}

static void chrono_reading_duration_read_size(bytes a0, bytes a1, uint64_t a2)
{
    uint64_t r3_07, common_ret_op, r4_017, r5_016, a1_i86, r5_016_2, r0_sroa_7_0, r0_sroa_0_sroa_0_0, r0_sroa_6_0, r75, r32, r19, r39, r1_i10, r44, r46, r78, v4, r46_2, v8, a1_2, v9;
    uint32_t r4_017_2, v5, r1_013, r3_012, r2_011, common_ret_op_2, r9_sroa_8_0, r9_sroa_8_04953, r0_sroa_11_0, r0_sroa_9_0, r1_i5, r27_2, r1_i6, r32_2, v2, r1_i3, r47_2, v3, r39_2, r1_i10_2, r44_2, v6, r68, r18, r26, spec_select_i6, r29, r319, v7, r73, a2_2, spec_select30;
    uint8_t common_ret_op3, r0_sroa_0_sroa_0_0_shrunk, r23, r30, r32_not, r42, r44_not, r57, r59_not, r146_not, r23_i4, r25, exitcond_not, r28, r30_2, r37, spec_select_2, r27, r1, r31, exitcond_not_2, r22_i_i_not, r44_3, cond1, r56, r58, r1_i4, r1_2, r12, r17, or_cond_not_i_not_not, r60, r1_i_i_i_i7, r37_2, r72, cond, or_cond, r27_3, r1_3, r31_2, exitcond_not_3, not, r20_not, r13, r4, r447, r2, r7, r15, spec_select, r8, r2_i2;
    bytes r40, v0, r55, r73_2, r20, r16_i5, r25_2, r47, r49, r51, r75_i8, r25_3, r28_2, r0_sroa_9_8_r28_sroa_idx, r0_sroa_10_8_r28_sroa_idx;
    r23 = a2 < UINT64_C(3);
    if (r23) { goto at__arm_2; }
    goto at__else_4;
    at__else_4:;
    LOAD(uint8_t, r30, a1);
    r32_not = r30 == 80u;
    if (r32_not) { goto at__else_7; }
    goto at__arm_2;
    at__else_7:;
    r40 = (a1 + 1);
    LOAD(uint8_t, r42, r40);
    r44_not = r42 == 84u;
    if (r44_not) { goto at__else_10; }
    goto at__arm_2;
    at__else_10:;
    v0 = (a1 + (int64_t)a2);
    r55 = (v0 - 1);
    LOAD(uint8_t, r57, r55);
    r59_not = r57 == 83u;
    if (r59_not) { goto at__arm_1; }
    goto at__arm_2;
    at__arm_1:;
    r73_2 = (a1 + 2);
    r75 = (uint64_t)(a2 + UINT64_C(18446744073709551613));
    r146_not = r75 == UINT64_C(0);
    if (r146_not) { goto at__arm_2; }
    { r3_07 = UINT64_C(0); goto at__join_6; }
    at__join_6:;
    r20 = (r73_2 + (int64_t)r3_07);
    LOAD(uint8_t, r23_i4, r20);
    r25 = r23_i4 == 46u;
    if (r25) { { common_ret_op = r3_07; goto at__chrono_reading_duration_point_at_exit_i; } }
    goto at__after_7;
    at__after_7:;
    r32 = (uint64_t)(r3_07 + UINT64_C(1));
    exitcond_not = r32 == r75;
    if (exitcond_not) { { common_ret_op = r75; goto at__chrono_reading_duration_point_at_exit_i; } }
    { r3_07 = r32; goto at__join_6; }
    at__chrono_reading_duration_point_at_exit_i:;
    r16_i5 = (r73_2 + (int64_t)common_ret_op);
    r19 = (uint64_t)(r75 - common_ret_op);
    switch (common_ret_op) {
    case UINT64_C(0): goto at__arm_2;
    case UINT64_C(1): goto at__join_5_i_i_i_i_preheader;
    default: goto at__chrono_text_read_decimal_has_decimal_form_exit_i_i;
    }
    at__chrono_text_read_decimal_has_decimal_form_exit_i_i:;
    LOAD(uint8_t, r28, r73_2);
    r30_2 = r28 != 48u;
    r37 = common_ret_op < UINT64_C(19);
    spec_select_2 = (uint8_t)(((uint32_t)r37 & (uint32_t)r30_2) & 1);
    if (spec_select_2) { goto at__join_5_i_i_i_i_preheader; }
    goto at__arm_2;
    at__join_5_i_i_i_i_preheader:;
    {
    r4_017 = UINT64_C(0);
    r5_016 = UINT64_C(0);
    goto at__join_5;
    }
    at__join_5:;
    r25_2 = (r73_2 + (int64_t)r5_016);
    LOAD(uint8_t, r27, r25_2);
    r1 = (uint8_t)((uint32_t)r27 + (uint32_t)208u);
    r31 = r1 > 9;
    if (r31) { goto at__chrono_text_read_decimal_read_decimal_exit_i; }
    goto at__join_8;
    at__join_8:;
    r39 = (uint64_t)(r4_017 * UINT64_C(10));
    r1_i10 = (uint64_t)r1;
    r44 = (uint64_t)(r39 + r1_i10);
    r46 = (uint64_t)(r5_016 + UINT64_C(1));
    exitcond_not_2 = r46 == common_ret_op;
    if (exitcond_not_2) { { a1_i86 = r44; goto at__arm_5; } }
    { r4_017 = r44; r5_016 = r46; goto at__join_5; }
    at__chrono_text_read_decimal_read_decimal_exit_i:;
    r22_i_i_not = r5_016 < common_ret_op;
    if (r22_i_i_not) { goto at__arm_2; }
    { a1_i86 = r4_017; goto at__arm_5; }
    at__arm_5:;
    switch (r19) {
    case UINT64_C(0): goto at__arm_1_thread;
    case UINT64_C(4): goto at__then_10;
    default: goto at__after_3;
    }
    at__then_10:;
    LOAD(uint8_t, r44_3, r16_i5);
    cond1 = r44_3 == 46u;
    if (cond1) { goto at__arm_13; }
    goto at__arm_2;
    at__arm_13:;
    r47 = (r16_i5 + 1);
    r49 = (r16_i5 + 2);
    LOAD(uint8_t, r56, r47);
    LOAD(uint8_t, r58, r49);
    r1_i4 = (uint8_t)((uint32_t)r56 + (uint32_t)208u);
    r1_2 = (uint8_t)((uint32_t)r58 + (uint32_t)208u);
    r12 = r1_i4 < 10u;
    r17 = r1_2 < 10u;
    or_cond_not_i_not_not = (uint8_t)(((uint32_t)r12 & (uint32_t)r17) & 1);
    r1_i5 = (uint32_t)r1_i4;
    r27_2 = (uint32_t)(r1_i5 * 10u);
    r1_i6 = (uint32_t)r1_2;
    r32_2 = (uint32_t)(r27_2 + r1_i6);
    if (or_cond_not_i_not_not) { goto at__arm_1_2; }
    goto at__arm_2;
    at__arm_1_2:;
    r51 = (r16_i5 + 3);
    LOAD(uint8_t, r60, r51);
    r1_i_i_i_i7 = (uint8_t)((uint32_t)r60 + (uint32_t)208u);
    r37_2 = r1_i_i_i_i7 > 9;
    if (r37_2) { goto at__arm_2; }
    goto at__1;
    at__1:;
    v2 = (uint32_t)(r32_2 * 10u);
    r1_i3 = (uint32_t)r1_i_i_i_i7;
    r47_2 = (uint32_t)(v2 + r1_i3);
    v3 = (uint32_t)(r47_2 * 1000000u);
    {
    r9_sroa_8_0 = v3;
    goto at__arm_1_3;
    }
    at__after_3:;
    LOAD(uint8_t, r72, r16_i5);
    cond = r72 == 46u;
    if (cond) { goto at__arm_16; }
    goto at__arm_2;
    at__arm_16:;
    r75_i8 = (r16_i5 + 1);
    r78 = (uint64_t)(r19 + UINT64_C(18446744073709551615));
    v4 = (uint64_t)(r19 + UINT64_C(18446744073709551605));
    or_cond = v4 < UINT64_C(18446744073709551607);
    if (or_cond) { goto at__arm_2; }
    { r4_017_2 = 0; r5_016_2 = UINT64_C(0); goto at__join_5_2; }
    at__join_5_2:;
    r25_3 = (r75_i8 + (int64_t)r5_016_2);
    LOAD(uint8_t, r27_3, r25_3);
    r1_3 = (uint8_t)((uint32_t)r27_3 + (uint32_t)208u);
    r31_2 = r1_3 > 9;
    if (r31_2) { goto at__chrono_text_read_places_read_all_exit_i_i_i; }
    goto at__join_8_2;
    at__join_8_2:;
    r39_2 = (uint32_t)(r4_017_2 * 10u);
    r1_i10_2 = (uint32_t)r1_3;
    r44_2 = (uint32_t)(r39_2 + r1_i10_2);
    r46_2 = (uint64_t)(r5_016_2 + UINT64_C(1));
    exitcond_not_3 = r46_2 == r78;
    if (exitcond_not_3) { { v5 = r44_2; goto at__arm_12; } }
    { r4_017_2 = r44_2; r5_016_2 = r46_2; goto at__join_5_2; }
    at__chrono_text_read_places_read_all_exit_i_i_i:;
    not = r5_016_2 < r78;
    if (not) { goto at__arm_2; }
    { v5 = r4_017_2; goto at__arm_12; }
    at__arm_12:;
    v6 = (uint32_t)(r78);
    switch (v6) {
    case 9: { common_ret_op_2 = 1; goto at__core_int_u32_pow_exit_i_i_i; }
    case 8: goto at__common_ret_fold_split;
    default: goto at__join_8_i_preheader;
    }
    at__join_8_i_preheader:;
    r68 = (uint32_t)(9 - v6);
    {
    r1_013 = 1;
    r3_012 = r68;
    r2_011 = 10u;
    goto at__join_8_i_i_i9;
    }
    at__common_ret_fold_split:;
    {
    common_ret_op_2 = 10u;
    goto at__core_int_u32_pow_exit_i_i_i;
    }
    at__join_8_i_i_i9:;
    r18 = (uint32_t)(r3_012 & 1);
    r20_not = r18 == 0;
    r26 = r20_not ? 1 : r2_011;
    spec_select_i6 = (uint32_t)(r26 * r1_013);
    r29 = (uint32_t)(r2_011 * r2_011);
    r319 = (uint32_t)(r3_012 >> 1);
    r13 = r3_012 > 3;
    if (r13) { { r1_013 = spec_select_i6; r3_012 = r319; r2_011 = r29; goto at__join_8_i_i_i9; } }
    goto at__after_4_loopexit;
    at__after_4_loopexit:;
    v7 = (uint32_t)(spec_select_i6 * r29);
    {
    common_ret_op_2 = v7;
    goto at__core_int_u32_pow_exit_i_i_i;
    }
    at__core_int_u32_pow_exit_i_i_i:;
    r73 = (uint32_t)(common_ret_op_2 * v5);
    {
    r9_sroa_8_0 = r73;
    goto at__arm_1_3;
    }
    at__arm_1_3:;
    r4 = a1_i86 == UINT64_C(0);
    if (r4) { goto at__then_2; }
    goto at__start_split;
    at__arm_1_thread:;
    r447 = a1_i86 == UINT64_C(0);
    if (r447) { { r0_sroa_0_sroa_0_0 = UINT64_C(0); r0_sroa_6_0 = UINT64_C(0); r0_sroa_9_0 = 0; goto at__chrono_reading_duration_duration_of_exit; } }
    { r9_sroa_8_04953 = 0; goto at__join_32; }
    at__start_split:;
    r2 = r9_sroa_8_0 > 999999999u;
    if (r2) { { r0_sroa_0_sroa_0_0_shrunk = 0; r0_sroa_7_0 = UINT64_C(0); r0_sroa_11_0 = 0; goto at__after_1; } }
    { r9_sroa_8_04953 = r9_sroa_8_0; goto at__join_32; }
    at__join_32:;
    switch (a1_i86) {
    case UINT64_C(18437520701672696840): goto at__then_1;
    case UINT64_C(9223372036854775): goto at__then_4;
    default: goto at__join_6_2;
    }
    at__then_1:;
    r7 = r9_sroa_8_04953 > 192999999u;
    {
    common_ret_op3 = r7;
    goto at__chrono_clock_time_delta_TimeDelta_from_stored_exit_i_i;
    }
    at__then_4:;
    r15 = r9_sroa_8_04953 < 807000001u;
    {
    common_ret_op3 = r15;
    goto at__chrono_clock_time_delta_TimeDelta_from_stored_exit_i_i;
    }
    at__join_6_2:;
    v8 = (uint64_t)(a1_i86 + UINT64_C(9223372036854775));
    spec_select = v8 < UINT64_C(18446744073709550);
    {
    common_ret_op3 = spec_select;
    goto at__chrono_clock_time_delta_TimeDelta_from_stored_exit_i_i;
    }
    at__chrono_clock_time_delta_TimeDelta_from_stored_exit_i_i:;
    a1_2 = common_ret_op3 ? a1_i86 : UINT64_C(0);
    a2_2 = common_ret_op3 ? r9_sroa_8_04953 : 0;
    {
    r0_sroa_0_sroa_0_0_shrunk = common_ret_op3;
    r0_sroa_7_0 = a1_2;
    r0_sroa_11_0 = a2_2;
    goto at__after_1;
    }
    at__then_2:;
    r8 = r9_sroa_8_0 == 0;
    if (r8) { { r0_sroa_0_sroa_0_0 = UINT64_C(0); r0_sroa_6_0 = UINT64_C(0); r0_sroa_9_0 = 0; goto at__chrono_reading_duration_duration_of_exit; } }
    goto at__then_2_split;
    at__then_2_split:;
    r2_i2 = r9_sroa_8_0 < 1000000000u;
    spec_select30 = r2_i2 ? r9_sroa_8_0 : 0;
    {
    r0_sroa_0_sroa_0_0_shrunk = r2_i2;
    r0_sroa_7_0 = UINT64_C(0);
    r0_sroa_11_0 = spec_select30;
    goto at__after_1;
    }
    at__after_1:;
    v9 = (uint64_t)r0_sroa_0_sroa_0_0_shrunk;
    {
    r0_sroa_0_sroa_0_0 = v9;
    r0_sroa_6_0 = r0_sroa_7_0;
    r0_sroa_9_0 = r0_sroa_11_0;
    goto at__chrono_reading_duration_duration_of_exit;
    }
    at__chrono_reading_duration_duration_of_exit:;
    STORE(uint64_t, a0, r0_sroa_0_sroa_0_0);
    r28_2 = (a0 + 8);
    STORE(uint64_t, r28_2, r0_sroa_6_0);
    r0_sroa_9_8_r28_sroa_idx = (a0 + 16);
    STORE(uint32_t, r0_sroa_9_8_r28_sroa_idx, r0_sroa_9_0);
    r0_sroa_10_8_r28_sroa_idx = (a0 + 20);
    STORE(uint32_t, r0_sroa_10_8_r28_sroa_idx, 0);
    goto at__common_ret;
    at__common_ret:;
    return;
    at__arm_2:;
    memset(a0, 0, UINT64_C(24));
    goto at__common_ret;
}

static void chrono_reading_duration_error_duration_error(bytes a0, bytes a1, uint64_t a2)
{
    uint64_t r5_010, r5_0_lcssa_i_ph, r5_010_2, r5_010_i16, r5_0_lcssa_i23, r5_010_3, r5_0_lcssa_i_ph_2, r5_010_i_i_i6, r3_08, r3_0_lcssa_i_ph, r7_0, r5_010_i_i_i_us, r5_010_4, us_phi, r5_0_lcssa_i_i29, r3_08_i_i15, r3_0_lcssa, common_ret_op, r5_010_i_i_i5, r3_08_i_i_i12, r3_0_lcssa_i_ph_i_i17, r7_0_i_i19, r5_010_i_i_i_i26, r5_0_lcssa_i_ph_i_i_i30, r5_010_i_i_i6_i33, r3_08_i_i_i63, r7_0_i_i38, r7_0_i_i38108, r5_0_lcssa_i_i33_i_shrunk, r3_08_i_i17, r3_0_lcssa_i_i_i48, r5_010_i23, r5_0_lcssa_i30, common_ret_op_i_i52, common_ret_op_2, common_ret_op_3, spec_select8_i_sink, r3_08_2, r3_0_lcssa_i_ph_2, invariant_umin, r58, spec_select_2, pre, invariant_umin_2, r58_2, r58_i25, r72, invariant_umin_3, r58_3, r5_0_lcssa_i_ph_i_fr, r58_i_i_i12, r33, v11, r58_i_i_i_us, r58_4, r42_i_i_i32, r33_i_i20, r58_i_i_i33, r61, r58_i_i_i11, r33_i_i_i21, v16, r32, invariant_umin_i_i_i_i23, r58_i_i_i_i75, r5_0_lcssa_i_ph_i_fr_i_i31, r58_i_i_i12_i72, r30_i_i60, r33_i_i_i69, a0_i10, a0_2, r42_i_i46, r33_i_i23, r58_i_i54, r61_i_i51, invariant_umin_i20, r58_i32, r84, r43, r83, r34, spec_select;
    uint32_t r2_i_sink, r2;
    uint8_t or_cond9_not, r39, r44, v0, r4_0_in, r25, v1, r17, exitcond_not, v2, r44_2, r25_2, r39_2, r44_3, v3, r4_0_in_2, r25_3, v4, r17_2, exitcond_not_2, r39_i18, r44_i20, v5, r4_0_in_i_i22, r25_i_i30, v6, r17_i_i_i_i28, exitcond_not_i26, r60, v7, or_cond9_not_2, r44_4, r25_4, exitcond_not_3, v8, r44_i_i_i8, r25_i_i_i_i9, exitcond_not_i_i_i13, v9, r19_val, v10, r17_3, exitcond_not_4, r39_i_i_pre, r44_i_i_i_us, r25_i_i_i_i_us, exitcond_not_i_i21_i_us, r44_5, v12, r4_0_in_3, exitcond_not_i_i21, r30, r137_not, r19_val_i_i17, v13, r17_i_i_i_i18, exitcond_not_i19, r52, r44_i_i_i7, r25_i_i_i_i8, exitcond_not_i_i_i12, v14, r19_val_i_i_i14, v15, r17_i_i_i_i_i15, exitcond_not_i_i_i22, r20, v17, or_cond9_not_i_i_i_i24, r44_i_i_i_i28, r25_i_i_i_i_i29, exitcond_not_i_i_i_i76, v18, r44_i_i_i8_i35, r25_i_i_i_i9_i36, exitcond_not_i_i_i13_i73, v19, r137_not_i_i_i61, r19_val_i_i_i65, v20, r17_i_i_i_i_i66, exitcond_not_i_i_i70, r5, r44_i_i_i40, r25_i_i_i_i59_not, r137_not_i_i16, r19_val_i_i19, v21, r17_i_i_i_i20, exitcond_not_i19_i_i55, r52_i_i49, v22, r44_i27, r25_i_i37, exitcond_not_i33, r24, r26, r31_not, or_cond, r21, v24, spec_select_3, exitcond_not9, v25, r4415, r2516;
    bytes r37, r42, spec_select63, r37_2, r42_2, r37_i17, r42_i19, r68, r42_3, r42_i_i_i7, r19, r42_i_i_i_us, r42_4, r38, r19_i_i16, r42_i_i_i6, r19_i_i_i13, r28, r42_i_i_i_i27, r42_i_i_i7_i34, r27, r19_i_i_i64, r38_i_i45, r19_i_i18, r64, r42_i26, v23, r22, r71, r73, r19_2;
    invariant_umin = a2 < UINT64_C(2) ? a2 : UINT64_C(2);
    or_cond9_not = a2 == UINT64_C(0);
    if (or_cond9_not) { { r2_i_sink = 0; spec_select8_i_sink = UINT64_C(0); goto at__common_ret; } }
    { r5_010 = UINT64_C(0); goto at__join_5; }
    at__join_5:;
    r37 = ((bytes)&static_14 + (int64_t)r5_010);
    LOAD(uint8_t, r39, r37);
    r42 = (a1 + (int64_t)r5_010);
    LOAD(uint8_t, r44, r42);
    switch (r39) {
    case 100u: goto at__chrono_reading_fitting_stands_for_exit_i_i_i;
    case 110u: goto at__arm_2;
    default: goto at__default_3;
    }
    at__arm_2:;
    v0 = (uint8_t)((uint32_t)r44 + (uint32_t)207u);
    r4_0_in = v0 < 9;
    if (r4_0_in) { goto at__join_11; }
    { r5_0_lcssa_i_ph = r5_010; goto at__chrono_reading_fitting_fits_front_exit_i; }
    at__default_3:;
    r25 = r44 == r39;
    if (r25) { goto at__join_11; }
    { r5_0_lcssa_i_ph = r5_010; goto at__chrono_reading_fitting_fits_front_exit_i; }
    at__chrono_reading_fitting_stands_for_exit_i_i_i:;
    v1 = (uint8_t)((uint32_t)r44 + (uint32_t)208u);
    r17 = v1 < 10u;
    if (r17) { goto at__join_11; }
    { r5_0_lcssa_i_ph = r5_010; goto at__chrono_reading_fitting_fits_front_exit_i; }
    at__join_11:;
    r58 = (uint64_t)(r5_010 + UINT64_C(1));
    exitcond_not = r58 == invariant_umin;
    if (exitcond_not) { { r5_0_lcssa_i_ph = invariant_umin; goto at__chrono_reading_fitting_fits_front_exit_i; } }
    { r5_010 = r58; goto at__join_5; }
    at__chrono_reading_fitting_fits_front_exit_i:;
    v2 = r5_0_lcssa_i_ph == UINT64_C(2);
    if (v2) { goto at__then_1; }
    goto at__join_5_i_i_i_preheader;
    at__join_5_i_i_i_preheader:;
    LOAD(uint8_t, r44_2, a1);
    r25_2 = r44_2 == 45u;
    spec_select_2 = r25_2 ? UINT64_C(3) : UINT64_C(2);
    spec_select63 = r25_2 ? (bytes)&static_20 : (bytes)&static_21;
    pre = spec_select_2 < a2 ? spec_select_2 : a2;
    {
    r5_010_i16 = UINT64_C(0);
    goto at__join_5_i15;
    }
    at__then_1:;
    invariant_umin_2 = a2 < UINT64_C(3) ? a2 : UINT64_C(3);
    {
    r5_010_2 = UINT64_C(0);
    goto at__join_5_2;
    }
    at__join_5_2:;
    r37_2 = ((bytes)&static_15 + (int64_t)r5_010_2);
    LOAD(uint8_t, r39_2, r37_2);
    r42_2 = (a1 + (int64_t)r5_010_2);
    LOAD(uint8_t, r44_3, r42_2);
    switch (r39_2) {
    case 100u: goto at__chrono_reading_fitting_stands_for_exit_i_i;
    case 110u: goto at__arm_2_2;
    default: goto at__default_3_2;
    }
    at__arm_2_2:;
    v3 = (uint8_t)((uint32_t)r44_3 + (uint32_t)207u);
    r4_0_in_2 = v3 < 9;
    if (r4_0_in_2) { goto at__join_11_2; }
    { common_ret_op_3 = r5_010_2; goto at__chrono_reading_duration_error_ends_with_s_exit; }
    at__default_3_2:;
    r25_3 = r44_3 == r39_2;
    if (r25_3) { goto at__join_11_2; }
    { common_ret_op_3 = r5_010_2; goto at__chrono_reading_duration_error_ends_with_s_exit; }
    at__chrono_reading_fitting_stands_for_exit_i_i:;
    v4 = (uint8_t)((uint32_t)r44_3 + (uint32_t)208u);
    r17_2 = v4 < 10u;
    if (r17_2) { goto at__join_11_2; }
    { common_ret_op_3 = r5_010_2; goto at__chrono_reading_duration_error_ends_with_s_exit; }
    at__join_11_2:;
    r58_2 = (uint64_t)(r5_010_2 + UINT64_C(1));
    exitcond_not_2 = r58_2 == invariant_umin_2;
    if (exitcond_not_2) { { common_ret_op_3 = invariant_umin_2; goto at__chrono_reading_duration_error_ends_with_s_exit; } }
    { r5_010_2 = r58_2; goto at__join_5_2; }
    at__join_5_i15:;
    r37_i17 = (spec_select63 + (int64_t)r5_010_i16);
    LOAD(uint8_t, r39_i18, r37_i17);
    r42_i19 = (a1 + (int64_t)r5_010_i16);
    LOAD(uint8_t, r44_i20, r42_i19);
    switch (r39_i18) {
    case 100u: goto at__chrono_reading_fitting_stands_for_exit_i27_i;
    case 110u: goto at__arm_2_i_i21;
    default: goto at__default_3_i_i29;
    }
    at__arm_2_i_i21:;
    v5 = (uint8_t)((uint32_t)r44_i20 + (uint32_t)207u);
    r4_0_in_i_i22 = v5 < 9;
    if (r4_0_in_i_i22) { goto at__join_11_i24; }
    { r5_0_lcssa_i23 = r5_010_i16; goto at__chrono_reading_fitting_fitting_len_exit31_i; }
    at__default_3_i_i29:;
    r25_i_i30 = r44_i20 == r39_i18;
    if (r25_i_i30) { goto at__join_11_i24; }
    { r5_0_lcssa_i23 = r5_010_i16; goto at__chrono_reading_fitting_fitting_len_exit31_i; }
    at__chrono_reading_fitting_stands_for_exit_i27_i:;
    v6 = (uint8_t)((uint32_t)r44_i20 + (uint32_t)208u);
    r17_i_i_i_i28 = v6 < 10u;
    if (r17_i_i_i_i28) { goto at__join_11_i24; }
    { r5_0_lcssa_i23 = r5_010_i16; goto at__chrono_reading_fitting_fitting_len_exit31_i; }
    at__join_11_i24:;
    r58_i25 = (uint64_t)(r5_010_i16 + UINT64_C(1));
    exitcond_not_i26 = r58_i25 == pre;
    if (exitcond_not_i26) { { r5_0_lcssa_i23 = pre; goto at__chrono_reading_fitting_fitting_len_exit31_i; } }
    { r5_010_i16 = r58_i25; goto at__join_5_i15; }
    at__chrono_reading_fitting_fitting_len_exit31_i:;
    r60 = r5_0_lcssa_i23 < spec_select_2;
    if (r60) { { common_ret_op_3 = r5_0_lcssa_i23; goto at__chrono_reading_duration_error_ends_with_s_exit; } }
    goto at__join_6;
    at__join_6:;
    r68 = (a1 + (int64_t)r5_0_lcssa_i23);
    r72 = (uint64_t)(a2 - r5_0_lcssa_i23);
    v7 = r72 != UINT64_C(0);
    invariant_umin_3 = (uint64_t)v7;
    or_cond9_not_2 = r72 == UINT64_C(0);
    if (or_cond9_not_2) { { common_ret_op_2 = UINT64_C(0); goto at__chrono_reading_duration_error_fitting_seconds_exit_i; } }
    { r5_010_3 = UINT64_C(0); goto at__join_5_3; }
    at__join_5_3:;
    r42_3 = (r68 + (int64_t)r5_010_3);
    LOAD(uint8_t, r44_4, r42_3);
    r25_4 = r44_4 == 48u;
    if (r25_4) { goto at__join_11_3; }
    { r5_0_lcssa_i_ph_2 = r5_010_3; goto at__chrono_reading_duration_error_whole_front_exit_i_i_i; }
    at__join_11_3:;
    r58_3 = (uint64_t)(r5_010_3 + UINT64_C(1));
    exitcond_not_3 = r58_3 == invariant_umin_3;
    if (exitcond_not_3) { { r5_0_lcssa_i_ph_2 = UINT64_C(1); goto at__chrono_reading_duration_error_whole_front_exit_i_i_i; } }
    { r5_010_3 = r58_3; goto at__join_5_3; }
    at__chrono_reading_duration_error_whole_front_exit_i_i_i:;
    r5_0_lcssa_i_ph_i_fr = r5_0_lcssa_i_ph_2;
    v8 = r5_0_lcssa_i_ph_i_fr == UINT64_C(1);
    {
    r5_010_i_i_i6 = UINT64_C(0);
    goto at__join_5_i_i_i5;
    }
    at__join_5_i_i_i5:;
    r42_i_i_i7 = (r68 + (int64_t)r5_010_i_i_i6);
    LOAD(uint8_t, r44_i_i_i8, r42_i_i_i7);
    r25_i_i_i_i9 = r44_i_i_i8 == 48u;
    if (r25_i_i_i_i9) { goto at__join_11_i_i_i11; }
    goto at__chrono_reading_fitting_fits_front_exit_i10_i_i_i;
    at__join_11_i_i_i11:;
    r58_i_i_i12 = (uint64_t)(r5_010_i_i_i6 + UINT64_C(1));
    exitcond_not_i_i_i13 = r58_i_i_i12 == invariant_umin_3;
    if (exitcond_not_i_i_i13) { { r7_0 = UINT64_C(0); goto at__join_5_i_i14_preheader; } }
    { r5_010_i_i_i6 = r58_i_i_i12; goto at__join_5_i_i_i5; }
    at__chrono_reading_fitting_fits_front_exit_i10_i_i_i:;
    v9 = r5_010_i_i_i6 == UINT64_C(1);
    if (v9) { { r7_0 = UINT64_C(0); goto at__join_5_i_i14_preheader; } }
    { r3_08 = UINT64_C(0); goto at__join_5_4; }
    at__join_5_4:;
    r19 = (r68 + (int64_t)r3_08);
    LOAD(uint8_t, r19_val, r19);
    v10 = (uint8_t)((uint32_t)r19_val + (uint32_t)208u);
    r17_3 = v10 < 10u;
    if (r17_3) { goto at__join_8; }
    { r3_0_lcssa_i_ph = r3_08; goto at__chrono_reading_fitting_leading_digits_exit_loopexit_i_i_i_i; }
    at__join_8:;
    r33 = (uint64_t)(r3_08 + UINT64_C(1));
    exitcond_not_4 = r33 == r72;
    if (exitcond_not_4) { { r3_0_lcssa_i_ph = r72; goto at__chrono_reading_fitting_leading_digits_exit_loopexit_i_i_i_i; } }
    { r3_08 = r33; goto at__join_5_4; }
    at__chrono_reading_fitting_leading_digits_exit_loopexit_i_i_i_i:;
    v11 = r3_0_lcssa_i_ph > UINT64_C(1) ? (uint64_t)(r3_0_lcssa_i_ph - UINT64_C(1)) : UINT64_C(0);
    {
    r7_0 = v11;
    goto at__join_5_i_i14_preheader;
    }
    at__join_5_i_i14_preheader:;
    r39_i_i_pre = v8 ? 48u : 110u;
    if (v8) { { r5_010_i_i_i_us = UINT64_C(0); goto at__join_5_i_i14_i_us; } }
    { r5_010_4 = UINT64_C(0); goto at__join_5_i_i14; }
    at__join_5_i_i14_i_us:;
    r42_i_i_i_us = (r68 + (int64_t)r5_010_i_i_i_us);
    LOAD(uint8_t, r44_i_i_i_us, r42_i_i_i_us);
    r25_i_i_i_i_us = r44_i_i_i_us == r39_i_i_pre;
    if (r25_i_i_i_i_us) { goto at__join_11_i_i_i_us; }
    { us_phi = r5_010_i_i_i_us; goto at__chrono_reading_fitting_fitting_len_exit_i_i_i_i; }
    at__join_11_i_i_i_us:;
    r58_i_i_i_us = (uint64_t)(r5_010_i_i_i_us + UINT64_C(1));
    exitcond_not_i_i21_i_us = r58_i_i_i_us == invariant_umin_3;
    if (exitcond_not_i_i21_i_us) { { r5_0_lcssa_i_i29 = UINT64_C(1); goto at__join_3; } }
    { r5_010_i_i_i_us = r58_i_i_i_us; goto at__join_5_i_i14_i_us; }
    at__join_5_i_i14:;
    r42_4 = (r68 + (int64_t)r5_010_4);
    LOAD(uint8_t, r44_5, r42_4);
    v12 = (uint8_t)((uint32_t)r44_5 + (uint32_t)207u);
    r4_0_in_3 = v12 < 9;
    if (r4_0_in_3) { goto at__join_11_4; }
    { us_phi = r5_010_4; goto at__chrono_reading_fitting_fitting_len_exit_i_i_i_i; }
    at__join_11_4:;
    r58_4 = (uint64_t)(r5_010_4 + UINT64_C(1));
    exitcond_not_i_i21 = r58_4 == invariant_umin_3;
    if (exitcond_not_i_i21) { { r5_0_lcssa_i_i29 = UINT64_C(1); goto at__join_3; } }
    { r5_010_4 = r58_4; goto at__join_5_i_i14; }
    at__chrono_reading_fitting_fitting_len_exit_i_i_i_i:;
    r30 = us_phi == UINT64_C(0);
    if (r30) { { common_ret_op = UINT64_C(0); goto at__chrono_reading_duration_error_fitting_whole_exit_i_i; } }
    { r5_0_lcssa_i_i29 = us_phi; goto at__join_3; }
    at__join_3:;
    r38 = (r68 + (int64_t)r5_0_lcssa_i_i29);
    r42_i_i_i32 = (uint64_t)(r72 - r5_0_lcssa_i_i29);
    r137_not = r42_i_i_i32 == UINT64_C(0);
    if (r137_not) { { r3_0_lcssa = UINT64_C(0); goto at__chrono_reading_fitting_leading_digits_exit_i_i_i_i; } }
    { r3_08_i_i15 = UINT64_C(0); goto at__join_5_i18; }
    at__join_5_i18:;
    r19_i_i16 = (r38 + (int64_t)r3_08_i_i15);
    LOAD(uint8_t, r19_val_i_i17, r19_i_i16);
    v13 = (uint8_t)((uint32_t)r19_val_i_i17 + (uint32_t)208u);
    r17_i_i_i_i18 = v13 < 10u;
    if (r17_i_i_i_i18) { goto at__join_8_i_i19; }
    { r3_0_lcssa = r3_08_i_i15; goto at__chrono_reading_fitting_leading_digits_exit_i_i_i_i; }
    at__join_8_i_i19:;
    r33_i_i20 = (uint64_t)(r3_08_i_i15 + UINT64_C(1));
    exitcond_not_i19 = r33_i_i20 == r42_i_i_i32;
    if (exitcond_not_i19) { { r3_0_lcssa = r42_i_i_i32; goto at__chrono_reading_fitting_leading_digits_exit_i_i_i_i; } }
    { r3_08_i_i15 = r33_i_i20; goto at__join_5_i18; }
    at__chrono_reading_fitting_leading_digits_exit_i_i_i_i:;
    r52 = r3_0_lcssa < r7_0;
    if (r52) { goto at__then_4; }
    goto at__join_6_2;
    at__then_4:;
    r58_i_i_i33 = (uint64_t)(r3_0_lcssa + r5_0_lcssa_i_i29);
    {
    common_ret_op = r58_i_i_i33;
    goto at__chrono_reading_duration_error_fitting_whole_exit_i_i;
    }
    at__join_6_2:;
    r61 = (uint64_t)(r5_0_lcssa_i_i29 + r7_0);
    {
    common_ret_op = r61;
    goto at__chrono_reading_duration_error_fitting_whole_exit_i_i;
    }
    at__chrono_reading_duration_error_fitting_whole_exit_i_i:;
    {
    r5_010_i_i_i5 = UINT64_C(0);
    goto at__join_5_i_i_i4;
    }
    at__join_5_i_i_i4:;
    r42_i_i_i6 = (r68 + (int64_t)r5_010_i_i_i5);
    LOAD(uint8_t, r44_i_i_i7, r42_i_i_i6);
    r25_i_i_i_i8 = r44_i_i_i7 == 48u;
    if (r25_i_i_i_i8) { goto at__join_11_i_i_i10; }
    goto at__chrono_reading_fitting_fits_front_exit_i9_i_i_i;
    at__join_11_i_i_i10:;
    r58_i_i_i11 = (uint64_t)(r5_010_i_i_i5 + UINT64_C(1));
    exitcond_not_i_i_i12 = r58_i_i_i11 == invariant_umin_3;
    if (exitcond_not_i_i_i12) { { r7_0_i_i19 = UINT64_C(1); goto at__chrono_reading_duration_error_whole_len_exit_i_i; } }
    { r5_010_i_i_i5 = r58_i_i_i11; goto at__join_5_i_i_i4; }
    at__chrono_reading_fitting_fits_front_exit_i9_i_i_i:;
    v14 = r5_010_i_i_i5 == UINT64_C(1);
    if (v14) { { r7_0_i_i19 = UINT64_C(1); goto at__chrono_reading_duration_error_whole_len_exit_i_i; } }
    { r3_08_i_i_i12 = UINT64_C(0); goto at__join_5_i_i_i11; }
    at__join_5_i_i_i11:;
    r19_i_i_i13 = (r68 + (int64_t)r3_08_i_i_i12);
    LOAD(uint8_t, r19_val_i_i_i14, r19_i_i_i13);
    v15 = (uint8_t)((uint32_t)r19_val_i_i_i14 + (uint32_t)208u);
    r17_i_i_i_i_i15 = v15 < 10u;
    if (r17_i_i_i_i_i15) { goto at__join_8_i_i_i20; }
    { r3_0_lcssa_i_ph_i_i17 = r3_08_i_i_i12; goto at__chrono_reading_fitting_leading_digits_exit_loopexit_i_i16_i_i; }
    at__join_8_i_i_i20:;
    r33_i_i_i21 = (uint64_t)(r3_08_i_i_i12 + UINT64_C(1));
    exitcond_not_i_i_i22 = r33_i_i_i21 == r72;
    if (exitcond_not_i_i_i22) { { r3_0_lcssa_i_ph_i_i17 = r72; goto at__chrono_reading_fitting_leading_digits_exit_loopexit_i_i16_i_i; } }
    { r3_08_i_i_i12 = r33_i_i_i21; goto at__join_5_i_i_i11; }
    at__chrono_reading_fitting_leading_digits_exit_loopexit_i_i16_i_i:;
    v16 = r3_0_lcssa_i_ph_i_i17 > UINT64_C(1) ? r3_0_lcssa_i_ph_i_i17 : UINT64_C(1);
    {
    r7_0_i_i19 = v16;
    goto at__chrono_reading_duration_error_whole_len_exit_i_i;
    }
    at__chrono_reading_duration_error_whole_len_exit_i_i:;
    r20 = common_ret_op < r7_0_i_i19;
    if (r20) { { common_ret_op_2 = common_ret_op; goto at__chrono_reading_duration_error_fitting_seconds_exit_i; } }
    goto at__join_3_2;
    at__join_3_2:;
    r28 = (r68 + (int64_t)common_ret_op);
    r32 = (uint64_t)(r72 - common_ret_op);
    v17 = r72 != common_ret_op;
    invariant_umin_i_i_i_i23 = (uint64_t)v17;
    or_cond9_not_i_i_i_i24 = r72 == common_ret_op;
    if (or_cond9_not_i_i_i_i24) { { r7_0_i_i38108 = UINT64_C(0); r5_0_lcssa_i_i33_i_shrunk = UINT64_C(0); goto at__join_3_i_i44; } }
    { r5_010_i_i_i_i26 = UINT64_C(0); goto at__join_5_i_i_i_i25; }
    at__join_5_i_i_i_i25:;
    r42_i_i_i_i27 = (r28 + (int64_t)r5_010_i_i_i_i26);
    LOAD(uint8_t, r44_i_i_i_i28, r42_i_i_i_i27);
    r25_i_i_i_i_i29 = r44_i_i_i_i28 == 46u;
    if (r25_i_i_i_i_i29) { goto at__join_11_i_i_i_i74; }
    { r5_0_lcssa_i_ph_i_i_i30 = r5_010_i_i_i_i26; goto at__chrono_reading_duration_error_point_front_exit_i_i_i; }
    at__join_11_i_i_i_i74:;
    r58_i_i_i_i75 = (uint64_t)(r5_010_i_i_i_i26 + UINT64_C(1));
    exitcond_not_i_i_i_i76 = r58_i_i_i_i75 == invariant_umin_i_i_i_i23;
    if (exitcond_not_i_i_i_i76) { { r5_0_lcssa_i_ph_i_i_i30 = UINT64_C(1); goto at__chrono_reading_duration_error_point_front_exit_i_i_i; } }
    { r5_010_i_i_i_i26 = r58_i_i_i_i75; goto at__join_5_i_i_i_i25; }
    at__chrono_reading_duration_error_point_front_exit_i_i_i:;
    r5_0_lcssa_i_ph_i_fr_i_i31 = r5_0_lcssa_i_ph_i_i_i30;
    v18 = r5_0_lcssa_i_ph_i_fr_i_i31 == UINT64_C(1);
    {
    r5_010_i_i_i6_i33 = UINT64_C(0);
    goto at__join_5_i_i_i5_i32;
    }
    at__join_5_i_i_i5_i32:;
    r42_i_i_i7_i34 = (r28 + (int64_t)r5_010_i_i_i6_i33);
    LOAD(uint8_t, r44_i_i_i8_i35, r42_i_i_i7_i34);
    r25_i_i_i_i9_i36 = r44_i_i_i8_i35 == 46u;
    if (r25_i_i_i_i9_i36) { goto at__join_11_i_i_i11_i71; }
    goto at__chrono_reading_fitting_fits_front_exit_i10_i37_i_i;
    at__join_11_i_i_i11_i71:;
    r58_i_i_i12_i72 = (uint64_t)(r5_010_i_i_i6_i33 + UINT64_C(1));
    exitcond_not_i_i_i13_i73 = r58_i_i_i12_i72 == invariant_umin_i_i_i_i23;
    if (exitcond_not_i_i_i13_i73) { goto at__then_1_2; }
    { r5_010_i_i_i6_i33 = r58_i_i_i12_i72; goto at__join_5_i_i_i5_i32; }
    at__chrono_reading_fitting_fits_front_exit_i10_i37_i_i:;
    v19 = r5_010_i_i_i6_i33 == UINT64_C(1);
    if (v19) { goto at__then_1_2; }
    { r7_0_i_i38 = UINT64_C(0); goto at__chrono_reading_duration_error_point_more_exit_i_i_i; }
    at__then_1_2:;
    r27 = (r28 + 1);
    r30_i_i60 = (uint64_t)(r32 + UINT64_C(18446744073709551615));
    r137_not_i_i_i61 = r30_i_i60 == UINT64_C(0);
    if (r137_not_i_i_i61) { goto at__chrono_reading_fitting_leading_digits_exit_thread_i_i_i_i; }
    { r3_08_i_i_i63 = UINT64_C(0); goto at__join_5_i_i_i62; }
    at__join_5_i_i_i62:;
    r19_i_i_i64 = (r27 + (int64_t)r3_08_i_i_i63);
    LOAD(uint8_t, r19_val_i_i_i65, r19_i_i_i64);
    v20 = (uint8_t)((uint32_t)r19_val_i_i_i65 + (uint32_t)208u);
    r17_i_i_i_i_i66 = v20 < 10u;
    if (r17_i_i_i_i_i66) { goto at__join_8_i_i_i68; }
    goto at__chrono_reading_fitting_leading_digits_exit_i_i67_i_i;
    at__join_8_i_i_i68:;
    r33_i_i_i69 = (uint64_t)(r3_08_i_i_i63 + UINT64_C(1));
    exitcond_not_i_i_i70 = r33_i_i_i69 == r30_i_i60;
    if (exitcond_not_i_i_i70) { goto at__chrono_reading_fitting_leading_digits_exit_thread7_i_i_i_i; }
    { r3_08_i_i_i63 = r33_i_i_i69; goto at__join_5_i_i_i62; }
    at__chrono_reading_fitting_leading_digits_exit_thread7_i_i_i_i:;
    a0_i10 = r30_i_i60 < UINT64_C(9) ? r30_i_i60 : UINT64_C(9);
    {
    r7_0_i_i38 = a0_i10;
    goto at__chrono_reading_duration_error_point_more_exit_i_i_i;
    }
    at__chrono_reading_fitting_leading_digits_exit_i_i67_i_i:;
    r5 = r3_08_i_i_i63 == UINT64_C(0);
    a0_2 = r3_08_i_i_i63 < UINT64_C(9) ? r3_08_i_i_i63 : UINT64_C(9);
    if (r5) { goto at__chrono_reading_fitting_leading_digits_exit_thread_i_i_i_i; }
    { r7_0_i_i38 = a0_2; goto at__chrono_reading_duration_error_point_more_exit_i_i_i; }
    at__chrono_reading_fitting_leading_digits_exit_thread_i_i_i_i:;
    {
    r7_0_i_i38 = UINT64_C(1);
    goto at__chrono_reading_duration_error_point_more_exit_i_i_i;
    }
    at__chrono_reading_duration_error_point_more_exit_i_i_i:;
    if (v18) { goto at__default_3_i_i_i_i58; }
    { r7_0_i_i38108 = r7_0_i_i38; r5_0_lcssa_i_i33_i_shrunk = UINT64_C(0); goto at__join_3_i_i44; }
    at__default_3_i_i_i_i58:;
    LOAD(uint8_t, r44_i_i_i40, r28);
    r25_i_i_i_i59_not = r44_i_i_i40 == 46u;
    if (r25_i_i_i_i59_not) { { r7_0_i_i38108 = r7_0_i_i38; r5_0_lcssa_i_i33_i_shrunk = UINT64_C(1); goto at__join_3_i_i44; } }
    { common_ret_op_i_i52 = UINT64_C(0); goto at__chrono_reading_duration_error_fitting_end_exit_i_i; }
    at__join_3_i_i44:;
    r38_i_i45 = (r28 + (int64_t)r5_0_lcssa_i_i33_i_shrunk);
    r42_i_i46 = (uint64_t)(r32 - r5_0_lcssa_i_i33_i_shrunk);
    r137_not_i_i16 = r42_i_i46 == UINT64_C(0);
    if (r137_not_i_i16) { { r3_0_lcssa_i_i_i48 = UINT64_C(0); goto at__chrono_reading_fitting_leading_digits_exit_i21_i_i_i; } }
    { r3_08_i_i17 = UINT64_C(0); goto at__join_5_i18_i_i47; }
    at__join_5_i18_i_i47:;
    r19_i_i18 = (r38_i_i45 + (int64_t)r3_08_i_i17);
    LOAD(uint8_t, r19_val_i_i19, r19_i_i18);
    v21 = (uint8_t)((uint32_t)r19_val_i_i19 + (uint32_t)208u);
    r17_i_i_i_i20 = v21 < 10u;
    if (r17_i_i_i_i20) { goto at__join_8_i_i22; }
    { r3_0_lcssa_i_i_i48 = r3_08_i_i17; goto at__chrono_reading_fitting_leading_digits_exit_i21_i_i_i; }
    at__join_8_i_i22:;
    r33_i_i23 = (uint64_t)(r3_08_i_i17 + UINT64_C(1));
    exitcond_not_i19_i_i55 = r33_i_i23 == r42_i_i46;
    if (exitcond_not_i19_i_i55) { { r3_0_lcssa_i_i_i48 = r42_i_i46; goto at__chrono_reading_fitting_leading_digits_exit_i21_i_i_i; } }
    { r3_08_i_i17 = r33_i_i23; goto at__join_5_i18_i_i47; }
    at__chrono_reading_fitting_leading_digits_exit_i21_i_i_i:;
    r52_i_i49 = r3_0_lcssa_i_i_i48 < r7_0_i_i38108;
    if (r52_i_i49) { goto at__then_4_i_i53; }
    goto at__join_6_i_i50;
    at__then_4_i_i53:;
    r58_i_i54 = (uint64_t)(r3_0_lcssa_i_i_i48 + r5_0_lcssa_i_i33_i_shrunk);
    {
    common_ret_op_i_i52 = r58_i_i54;
    goto at__chrono_reading_duration_error_fitting_end_exit_i_i;
    }
    at__join_6_i_i50:;
    r61_i_i51 = (uint64_t)(r5_0_lcssa_i_i33_i_shrunk + r7_0_i_i38108);
    r64 = (r28 + (int64_t)r61_i_i51);
    v22 = r32 != r61_i_i51;
    invariant_umin_i20 = (uint64_t)v22;
    if (v22) { { r5_010_i23 = UINT64_C(0); goto at__join_5_i22; } }
    { r5_0_lcssa_i30 = UINT64_C(0); goto at__chrono_reading_fitting_fitting_len_exit38_i_i_i_i; }
    at__join_5_i22:;
    r42_i26 = (r64 + (int64_t)r5_010_i23);
    LOAD(uint8_t, r44_i27, r42_i26);
    r25_i_i37 = r44_i27 == 83u;
    if (r25_i_i37) { goto at__join_11_i31; }
    { r5_0_lcssa_i30 = r5_010_i23; goto at__chrono_reading_fitting_fitting_len_exit38_i_i_i_i; }
    at__join_11_i31:;
    r58_i32 = (uint64_t)(r5_010_i23 + UINT64_C(1));
    exitcond_not_i33 = r58_i32 == invariant_umin_i20;
    if (exitcond_not_i33) { { r5_0_lcssa_i30 = UINT64_C(1); goto at__chrono_reading_fitting_fitting_len_exit38_i_i_i_i; } }
    { r5_010_i23 = r58_i32; goto at__join_5_i22; }
    at__chrono_reading_fitting_fitting_len_exit38_i_i_i_i:;
    r84 = (uint64_t)(r5_0_lcssa_i30 + r61_i_i51);
    {
    common_ret_op_i_i52 = r84;
    goto at__chrono_reading_duration_error_fitting_end_exit_i_i;
    }
    at__chrono_reading_duration_error_fitting_end_exit_i_i:;
    r43 = (uint64_t)(common_ret_op_i_i52 + common_ret_op);
    {
    common_ret_op_2 = r43;
    goto at__chrono_reading_duration_error_fitting_seconds_exit_i;
    }
    at__chrono_reading_duration_error_fitting_seconds_exit_i:;
    r83 = (uint64_t)(common_ret_op_2 + r5_0_lcssa_i23);
    {
    common_ret_op_3 = r83;
    goto at__chrono_reading_duration_error_ends_with_s_exit;
    }
    at__chrono_reading_duration_error_ends_with_s_exit:;
    v23 = (a1 + (int64_t)a2);
    r22 = (v23 - 1);
    LOAD(uint8_t, r24, r22);
    r26 = r24 == 83u;
    r31_not = common_ret_op_3 == a2;
    or_cond = (uint8_t)(((uint32_t)r31_not & (uint32_t)r26) & 1);
    if (or_cond) { { r3_08_2 = UINT64_C(0); goto at__join_58; } }
    { r2_i_sink = 0; spec_select8_i_sink = common_ret_op_3; goto at__common_ret; }
    at__common_ret:;
    STORE(uint32_t, a0, r2_i_sink);
    r71 = (a0 + 4);
    STORE(uint32_t, r71, 0);
    r73 = (a0 + 8);
    STORE(uint64_t, r73, spec_select8_i_sink);
    return;
    at__join_58:;
    r19_2 = (a1 + (int64_t)r3_08_2);
    LOAD(uint8_t, r21, r19_2);
    v24 = (uint8_t)((uint32_t)r21 + (uint32_t)198u);
    spec_select_3 = v24 < 247u;
    if (spec_select_3) { goto at__join_8_2; }
    { r3_0_lcssa_i_ph_2 = r3_08_2; goto at__chrono_reading_duration_error_cause_of_exit; }
    at__join_8_2:;
    r34 = (uint64_t)(r3_08_2 + UINT64_C(1));
    exitcond_not9 = r34 == a2;
    if (exitcond_not9) { { r3_0_lcssa_i_ph_2 = a2; goto at__chrono_reading_duration_error_cause_of_exit; } }
    { r3_08_2 = r34; goto at__join_58; }
    at__chrono_reading_duration_error_cause_of_exit:;
    v25 = r3_0_lcssa_i_ph_2 == a2;
    LOAD(uint8_t, r4415, a1);
    r2516 = r4415 == 45u;
    spec_select = r2516 ? UINT64_C(3) : UINT64_C(2);
    r2 = v25 ? 15u : 16u;
    {
    r2_i_sink = r2;
    spec_select8_i_sink = spec_select;
    goto at__common_ret;
    }
}

static t_struct_i32_i32_end in_calendar_read_time(bytes a0, uint64_t a1)
{
    uint64_t sink, r3_sroa_0_0_copyload, r6_sroa_3_0_extract_shift;
    bytes r4, r6, r11;
    uint8_t r10, v0;
    uint32_t r6_sroa_0_0_extract_trunc, r6_sroa_3_0_extract_trunc, r7_sroa_0_0, r7_sroa_4_0;
    t_struct_i32_i32_end r22_fca_0_insert, r22_fca_1_insert;
    uint64_t room_r4[2];
    uint64_t room_r6[2];
    r4 = (bytes)room_r4;
    r6 = (bytes)room_r6;
    memset(r4, 0, UINT64_C(12));
    chrono_reading_time_time_of(r4, a0, a1);
    LOAD(uint8_t, r10, r4);
    v0 = r10 == 1;
    if (v0) { goto at__arm_12; }
    goto at__chrono_reading_time_read_time_exit;
    at__chrono_reading_time_read_time_exit:;
    chrono_reading_time_time_error(r6, a0, a1);
    {
    sink = UINT64_C(0);
    goto at__core_result_Result_ok_8f7bffe3378cf1d3_exit;
    }
    at__arm_12:;
    r11 = (r4 + 4);
    LOAD(uint64_t, r3_sroa_0_0_copyload, r11);
    {
    sink = r3_sroa_0_0_copyload;
    goto at__core_result_Result_ok_8f7bffe3378cf1d3_exit;
    }
    at__core_result_Result_ok_8f7bffe3378cf1d3_exit:;
    r6_sroa_0_0_extract_trunc = (uint32_t)(sink);
    r6_sroa_3_0_extract_shift = (uint64_t)(sink >> (UINT64_C(32) & 63u));
    r6_sroa_3_0_extract_trunc = (uint32_t)(r6_sroa_3_0_extract_shift);
    r7_sroa_0_0 = v0 ? r6_sroa_0_0_extract_trunc : 0;
    r7_sroa_4_0 = v0 ? r6_sroa_3_0_extract_trunc : 4294967295u;
    r22_fca_0_insert = (t_struct_i32_i32_end){0};
    r22_fca_0_insert.f0 = r7_sroa_0_0;
    r22_fca_1_insert = r22_fca_0_insert;
    r22_fca_1_insert.f1 = r7_sroa_4_0;
    return r22_fca_1_insert;
}

static void in_calendar_split(bytes a0, uint32_t a1)
{
    uint8_t r3_sroa_6_0, r3_sroa_4_0, or_cond, r35_2, r24, v1, r28;
    uint32_t r3_sroa_0_0, v0, r5, r11, r13, r3, r71_i2, r10, r12, r6, r113, r134, r35, r71_i26, r107, r29, r610, r8_2, r103, r51, r10_sroa_4_0;
    uint64_t r6_2, r8, r10_i4, r68, r89, r17, r25, r27;
    uint16_t r2922, r623, r824, r144;
    bytes r0_sroa_3_0_a0_sroa_idx, r0_sroa_4_0_a0_sroa_idx, r0_sroa_5_0_a0_sroa_idx;
    v0 = (uint32_t)(a1 + 95746129u);
    or_cond = v0 < 191491529u;
    if (or_cond) { goto at__arm_1; }
    { r3_sroa_6_0 = 0; r3_sroa_4_0 = 0; r3_sroa_0_0 = 2147483648u; goto at__join_4; }
    at__arm_1:;
    r5 = (uint32_t)(a1 << 2);
    r11 = (uint32_t)(r5 + 383358527u);
    r13 = (uint32_t)(r11 / 146097u);
    r3 = (uint32_t)(r13 * 3);
    r71_i2 = (uint32_t)(r3 + r11);
    r10 = (uint32_t)(r71_i2 | 3);
    r6_2 = (uint64_t)r10;
    r8 = (uint64_t)(r6_2 * UINT64_C(376287347));
    r10_i4 = (uint64_t)(r8 >> (UINT64_C(39) & 63u));
    r12 = (uint32_t)(r10_i4);
    r6 = (uint32_t)(r12 + 4294704897u);
    r113 = (uint32_t)(r5 + 383359751u);
    r134 = (uint32_t)(r113 / 146097u);
    r35 = (uint32_t)(r134 * 3);
    r71_i26 = (uint32_t)(r35 + r113);
    r107 = (uint32_t)(r71_i26 | 3);
    r68 = (uint64_t)r107;
    r89 = (uint64_t)(r68 * UINT64_C(376287347));
    r17 = (uint64_t)(r89 & UINT64_C(549755813885));
    r25 = (uint64_t)(r17 * UINT64_C(1461));
    r27 = (uint64_t)(r25 >> (UINT64_C(41) & 63u));
    r29 = (uint32_t)(r27);
    r610 = (uint32_t)(r29 * 2141u);
    r8_2 = (uint32_t)(r610 + 197913u);
    r103 = (uint32_t)(r8_2 >> 16u);
    r35_2 = r17 < UINT64_C(460575712662);
    r51 = (uint32_t)(r103 + 244u);
    r10_sroa_4_0 = r35_2 ? r103 : r51;
    r24 = (uint8_t)(r10_sroa_4_0);
    r2922 = (uint16_t)(r27);
    r623 = (uint16_t)((uint32_t)r2922 * (uint32_t)2141u);
    r824 = (uint16_t)((uint32_t)r623 + (uint32_t)1305u);
    r144 = (uint16_t)((uint32_t)r824 / (uint32_t)2141u);
    v1 = (uint8_t)(r144);
    r28 = (uint8_t)((uint32_t)v1 + (uint32_t)1);
    {
    r3_sroa_6_0 = r28;
    r3_sroa_4_0 = r24;
    r3_sroa_0_0 = r6;
    goto at__join_4;
    }
    at__join_4:;
    STORE(uint32_t, a0, r3_sroa_0_0);
    r0_sroa_3_0_a0_sroa_idx = (a0 + 4);
    STORE(uint8_t, r0_sroa_3_0_a0_sroa_idx, r3_sroa_4_0);
    r0_sroa_4_0_a0_sroa_idx = (a0 + 5);
    STORE(uint8_t, r0_sroa_4_0_a0_sroa_idx, r3_sroa_6_0);
    r0_sroa_5_0_a0_sroa_idx = (a0 + 6);
    STORE(uint16_t, r0_sroa_5_0_a0_sroa_idx, 0);
    return;
}

static uint32_t in_calendar_version(bytes a0, uint64_t a1)
{
    uint64_t r0_04, r8, r10, r30;
    uint32_t common_ret_op;
    uint8_t r16, r11, r26, exitcond_not;
    bytes r20, r24;
    r16 = a1 < UINT64_C(9);
    if (r16) { { common_ret_op = 2147483648u; goto at__numbers_c_version_write_version_exit; } }
    goto at__join_3;
    at__join_3:;
    r8 = (uint64_t)((uintptr_t)a0);
    r10 = (uint64_t)(r8 - (uint64_t)(uintptr_t)((bytes)&static_22));
    r11 = r10 < UINT64_C(9);
    if (r11) { { r0_04 = UINT64_C(0); goto at__join_7; } }
    goto at__apart_2;
    at__apart_2:;
    memcpy(a0, (bytes)&static_22, UINT64_C(9));
    {
    common_ret_op = 9;
    goto at__numbers_c_version_write_version_exit;
    }
    at__join_7:;
    r20 = (a0 + (int64_t)r0_04);
    r24 = ((bytes)&static_22 + (int64_t)r0_04);
    LOAD(uint8_t, r26, r24);
    STORE(uint8_t, r20, r26);
    r30 = (uint64_t)(r0_04 + UINT64_C(1));
    exitcond_not = r30 == UINT64_C(9);
    if (exitcond_not) { { common_ret_op = 9; goto at__numbers_c_version_write_version_exit; } }
    { r0_04 = r30; goto at__join_7; }
    at__numbers_c_version_write_version_exit:;
    return common_ret_op;
}

static uint32_t in_calendar_week_first_day(uint32_t a0, uint32_t a1)
{
    uint32_t common_ret_op, v0, r2, r5, r3, r19, r19_pn, r7_0_i_neg, r16, v2, spec_select;
    uint8_t or_cond, v1, r14, or_cond2;
    v0 = (uint32_t)(a0 + 95746129u);
    or_cond = v0 < 191491529u;
    if (or_cond) { goto at__arm_1; }
    { common_ret_op = 2147483648u; goto at__common_ret; }
    at__arm_1:;
    r2 = (uint32_t)(a1 + 4294967295u);
    v1 = r2 < 7;
    if (v1) { goto at__arm_5; }
    { common_ret_op = 2147483648u; goto at__common_ret; }
    at__common_ret:;
    return common_ret_op;
    at__arm_5:;
    r5 = (uint32_t)(a0 + 95839631u);
    r3 = (uint32_t)(r5 % 7);
    r14 = r2 > r3;
    r19 = (uint32_t)(r3 + 7);
    r19_pn = r14 ? r19 : r3;
    r7_0_i_neg = (uint32_t)(r2 + a0);
    r16 = (uint32_t)(r7_0_i_neg - r19_pn);
    v2 = (uint32_t)(r16 + 95746129u);
    or_cond2 = v2 < 191491529u;
    spec_select = or_cond2 ? r16 : 2147483648u;
    {
    common_ret_op = spec_select;
    goto at__common_ret;
    }
}

static uint32_t in_calendar_weekday(uint32_t a0)
{
    uint32_t r3_0, v0, r5, r3, r4;
    uint8_t or_cond;
    v0 = (uint32_t)(a0 + 95746129u);
    or_cond = v0 < 191491529u;
    if (or_cond) { goto at__arm_1; }
    { r3_0 = 2147483648u; goto at__join_4; }
    at__arm_1:;
    r5 = (uint32_t)(a0 + 95839631u);
    r3 = (uint32_t)(r5 % 7);
    r4 = (uint32_t)(r3 + 1);
    {
    r3_0 = r4;
    goto at__join_4;
    }
    at__join_4:;
    return r3_0;
}

static uint32_t in_calendar_write_date(uint32_t a0, bytes a1, uint64_t a2)
{
    uint32_t common_ret_op, v0, r17, r11, r13, r3, r71_i2, r10, r12, r29, r6_2, r8_2, r103, r51, r10_sroa_0_0_v, r10_sroa_0_0, r10_sroa_4_0, r2_0, r9, v1, r32_2, r32;
    bytes r4, r5, r9_i1, r17_3, r25_2, r9_i7, r9_i12, r17_4, r25_i_i_i_i2, r8_i_i_i_i4, r8_i4, r17_i_i4, r25_i_i6, r8_i_i10, r8_i4_i11, r8_i16, r17_i_i_i5, r25_3, r8_4, r8_i4_2, r8_i19, v5, r17_i_i23, r25_i_i25, r8_i_i29, r8_i4_i30;
    uint8_t or_cond, r35, r8_3, x, r21, r19_i4, r27_2, r19, r26, r19_2, r27_i_i_i_i3, r19_i_i5, r27_i_i7, r19_3, r27_3, r19_i_i24, r27_i_i26, r16;
    uint64_t r6, r8, r10_i4, r17_2, r25, r27, r6_3, r1, r14, r13_i3, r1_i_i8, r14_i9, r1_i_i13, r14_i14, r13_i_i_i_i1, r13_i_i3, r11_2, r13_2, v4, r11_i5_i31;
    uint16_t r14_lhs_trunc, r144, r3_lhs_trunc, r313, v2, r614, v3, narrow;
    uint64_t room_r4[3];
    r4 = (bytes)room_r4;
    v0 = (uint32_t)(a0 + 95746129u);
    or_cond = v0 < 191491529u;
    if (or_cond) { goto at__arm_1; }
    { common_ret_op = 2147483648u; goto at__common_ret; }
    at__arm_1:;
    memset(r4, 0, UINT64_C(24));
    r17 = (uint32_t)(a0 << 2);
    r11 = (uint32_t)(r17 + 383359751u);
    r13 = (uint32_t)(r11 / 146097u);
    r3 = (uint32_t)(r13 * 3);
    r71_i2 = (uint32_t)(r3 + r11);
    r10 = (uint32_t)(r71_i2 | 3);
    r6 = (uint64_t)r10;
    r8 = (uint64_t)(r6 * UINT64_C(376287347));
    r10_i4 = (uint64_t)(r8 >> (UINT64_C(39) & 63u));
    r12 = (uint32_t)(r10_i4);
    r17_2 = (uint64_t)(r8 & UINT64_C(549755813885));
    r25 = (uint64_t)(r17_2 * UINT64_C(1461));
    r27 = (uint64_t)(r25 >> (UINT64_C(41) & 63u));
    r29 = (uint32_t)(r27);
    r6_2 = (uint32_t)(r29 * 2141u);
    r8_2 = (uint32_t)(r6_2 + 197913u);
    r103 = (uint32_t)(r8_2 >> 16u);
    r14_lhs_trunc = (uint16_t)(r8_2);
    r144 = (uint16_t)((uint32_t)r14_lhs_trunc / (uint32_t)2141u);
    r35 = r17_2 < UINT64_C(460575712662);
    r51 = (uint32_t)(r103 + 4294967284u);
    r10_sroa_0_0_v = r35 ? 4294704896u : 4294704897u;
    r10_sroa_0_0 = (uint32_t)(r10_sroa_0_0_v + r12);
    r10_sroa_4_0 = r35 ? r103 : r51;
    r8_3 = (int32_t)r10_sroa_0_0 < (int32_t)0;
    x = r8_3 ? 45u : 43u;
    r21 = r10_sroa_0_0 > 9999u;
    r5 = (r4 + 16);
    LOAD(uint64_t, r6_3, r5);
    r9_i1 = (r4 + (int64_t)r6_3);
    STORE(uint8_t, r9_i1, x);
    r1 = (uint64_t)r21;
    r14 = (uint64_t)(r6_3 + r1);
    r2_0 = (int32_t)r10_sroa_0_0 < 0 ? (uint32_t)(0u - r10_sroa_0_0) : r10_sroa_0_0;
    r9 = (uint32_t)(r2_0 / 10000u);
    v1 = (uint32_t)(r9 << 1);
    r13_i3 = (uint64_t)v1;
    r17_3 = ((bytes)&static_0 + (int64_t)r13_i3);
    LOAD(uint8_t, r19_i4, r17_3);
    r25_2 = (r17_3 + 1);
    LOAD(uint8_t, r27_2, r25_2);
    r19 = r2_0 > 99999u;
    r9_i7 = (r4 + (int64_t)r14);
    STORE(uint8_t, r9_i7, r19_i4);
    r1_i_i8 = (uint64_t)r19;
    r14_i9 = (uint64_t)(r14 + r1_i_i8);
    r26 = r2_0 > 9999u;
    r9_i12 = (r4 + (int64_t)r14_i9);
    STORE(uint8_t, r9_i12, r27_2);
    r1_i_i13 = (uint64_t)r26;
    r14_i14 = (uint64_t)(r14_i9 + r1_i_i13);
    r32_2 = (uint32_t)(r2_0 % 10000u);
    r3_lhs_trunc = (uint16_t)(r32_2);
    r313 = (uint16_t)((uint32_t)r3_lhs_trunc / (uint32_t)100u);
    v2 = (uint16_t)((uint32_t)r313 << 1);
    r13_i_i_i_i1 = (uint64_t)v2;
    r17_4 = ((bytes)&static_0 + (int64_t)r13_i_i_i_i1);
    LOAD(uint8_t, r19_2, r17_4);
    r25_i_i_i_i2 = (r17_4 + 1);
    LOAD(uint8_t, r27_i_i_i_i3, r25_i_i_i_i2);
    r8_i_i_i_i4 = (r4 + (int64_t)r14_i14);
    STORE(uint8_t, r8_i_i_i_i4, r19_2);
    r8_i4 = (r8_i_i_i_i4 + 1);
    STORE(uint8_t, r8_i4, r27_i_i_i_i3);
    r614 = (uint16_t)((uint32_t)r3_lhs_trunc % (uint32_t)100u);
    v3 = (uint16_t)((uint32_t)r614 << 1);
    r13_i_i3 = (uint64_t)v3;
    r17_i_i4 = ((bytes)&static_0 + (int64_t)r13_i_i3);
    LOAD(uint8_t, r19_i_i5, r17_i_i4);
    r25_i_i6 = (r17_i_i4 + 1);
    LOAD(uint8_t, r27_i_i7, r25_i_i6);
    r8_i_i10 = (r8_i_i_i_i4 + 2);
    STORE(uint8_t, r8_i_i10, r19_i_i5);
    r8_i4_i11 = (r8_i_i_i_i4 + 3);
    STORE(uint8_t, r8_i4_i11, r27_i_i7);
    r8_i16 = (r8_i_i_i_i4 + 4);
    STORE(uint8_t, r8_i16, 45u);
    r11_2 = (uint64_t)r10_sroa_4_0;
    r13_2 = (uint64_t)(r11_2 << (UINT64_C(1) & 63u));
    r17_i_i_i5 = ((bytes)&static_0 + (int64_t)r13_2);
    LOAD(uint8_t, r19_3, r17_i_i_i5);
    r25_3 = (r17_i_i_i5 + 1);
    LOAD(uint8_t, r27_3, r25_3);
    r8_4 = (r8_i_i_i_i4 + 5);
    STORE(uint8_t, r8_4, r19_3);
    r8_i4_2 = (r8_i_i_i_i4 + 6);
    STORE(uint8_t, r8_i4_2, r27_3);
    r8_i19 = (r8_i_i_i_i4 + 7);
    STORE(uint8_t, r8_i19, 45u);
    narrow = (uint16_t)((uint32_t)r144 << 1);
    v4 = (uint64_t)narrow;
    v5 = ((bytes)&static_0 + (int64_t)v4);
    r17_i_i23 = (v5 + 2);
    LOAD(uint8_t, r19_i_i24, r17_i_i23);
    r25_i_i25 = (v5 + 3);
    LOAD(uint8_t, r27_i_i26, r25_i_i25);
    r8_i_i29 = (r8_i_i_i_i4 + 8);
    STORE(uint8_t, r8_i_i29, r19_i_i24);
    r8_i4_i30 = (r8_i_i_i_i4 + 9);
    STORE(uint8_t, r8_i4_i30, r27_i_i26);
    r11_i5_i31 = (uint64_t)(r14_i14 + UINT64_C(10));
    STORE(uint64_t, r5, r11_i5_i31);
    r16 = a2 < r11_i5_i31;
    if (r16) { { common_ret_op = 2147483648u; goto at__common_ret; } }
    goto at__join_3;
    at__join_3:;
    memcpy(a1, r4, r11_i5_i31);
    r32 = (uint32_t)(r11_i5_i31);
    {
    common_ret_op = r32;
    goto at__common_ret;
    }
    at__common_ret:;
    return common_ret_op;
}

static uint32_t in_calendar_write_date_time(uint64_t a0, uint32_t a1, bytes a2, uint64_t a3)
{
    uint32_t r26_i81_sink, common_ret_op, r38, r47, r29, r5, r40, r11, r13, r3, r71_i2, r10, r12, r29_2, r6_3, r8_2, r103, r51, r10_sroa_0_0_v, r10_sroa_0_0, r10_sroa_4_0, r2_0, r9, v1, r32_2, r4_2, v6, r18, r21_2, r12_2, r15, r21_i_i_i16, r23, r26_i_i_i17, r12_i47, r15_i62, r21_i65, r23_i66, r26_i81, r32;
    uint64_t r11_i5_i_i22_i80_sink, r4, v0, r30, r36, r45, r6_2, r8, r10_i4, r17, r25_2, r27, r6_4, r1, r14_2, r13_i3, r1_i_i8, r14_i9, r1_i_i13, r14_i14, r13_i_i_i_i1, r13_i_i3, r11_2, r13_2, v4, r13_i_i_i_i4, r13_i_i3_2, r11_i16, v9, r13_i_i_i31_i90, r11_i5_i_i38_i97, r11_i5_i27, r13_3, r11_i5, r13_i_i_i15, r11_i5_i_i22, r11_i5_i41, r13_i_i_i_i54, r11_i5_i_i_i61, r13_i_i_i15_i73, r11_i5_i_i22_i80;
    bytes r6, r5_2, r9_i1, r17_2, r25_3, r9_i7, r9_i12, r17_3, r25_i_i_i_i2, r8_i_i_i_i4, r8_i4, r17_i_i4, r25_i_i6, r8_i_i10, r8_i4_i11, r8_i16, r17_i_i_i5, r25_4, r8_4, r8_i4_2, r8_i19, v5, r17_i_i23, r25_i_i25, r8_i_i29, r8_i4_i30, r8_5, r17_i_i_i_i5, r25_i_i_i_i7, v7, r8_i_i_i_i9, r8_i4_i_i_i10, r8_i_i_i11, r17_i_i4_2, r25_i_i6_2, r8_i_i10_2, r8_i4_i11_2, r8_i15, v10, r8_i_i29_i88, r17_i_i_i32_i91, r25_i_i_i34_i93, r8_i_i_i36_i95, r8_i4_i_i37_i96, r17_i_i19, r25_i_i21, r8_i_i25, r8_i4_i26, r8_i_i30, r8_i_i_i_i_i12, r17_i_i_i_i_i_i13, r25_5, r8_i_i_i_i_i_i14, r8_i4_3, r8_i_i13, r17_i_i_i16, r25_i_i_i18, r8_i_i_i20, r8_i4_i_i21, r25_i_i35, r8_i_i39, r8_i4_i40, r8_i_i46, r8_i_i_i52, r17_i_i_i_i55, r25_i_i_i_i57, r8_i_i_i_i59, r8_i4_i_i_i60, r8_i_i13_i71, r17_i_i_i16_i74, r25_i_i_i18_i76, r8_i_i_i20_i78, r8_i4_i_i21_i79;
    uint8_t or_cond, r14, r25, r31_not, or_cond11_i_not, r35, r8_3, x, r21, r19_i4, r27_2, r19, r26, r19_2, r27_i_i_i_i3, r19_i_i5, r27_i_i7, r19_3, r27_3, r19_i_i24, r27_i_i26, r19_i_i_i_i6, r27_i_i_i_i8, r19_i_i5_2, r27_i_i7_2, r7_i25_i86, r9_i26_i87, r19_i_i_i33_i92, r27_i_i_i35_i94, r19_i_i20, r27_i_i22, r7, r7_2, r9_2, r19_4, r27_4, r17_i_i_i15, r7_i9, r9_i10, r19_i_i_i17, r27_i_i_i19, r28, r19_i_i34, r27_i_i36, r7_i42, r7_i_i50, r9_i_i51, r19_i_i_i_i56, r27_i_i_i_i58, r17_i63, r7_i9_i69, r9_i10_i70, r19_i_i_i17_i75, r27_i_i_i19_i77, r28_i82, r16;
    uint16_t r14_lhs_trunc, r144, r3_lhs_trunc, r313, v2, r614, v3, narrow, r7_i_i_i_lhs_trunc, r718, v8, r5_lhs_trunc_i23_i84, r52_i24_i85, r123_i30_i89, v11, r5_lhs_trunc, r52, r123, v12, r5_lhs_trunc_i7, r52_i8, r123_i14, v13, r5_lhs_trunc_i_i48, r52_i_i49, r123_i_i53, v14, r5_lhs_trunc_i7_i67, r52_i8_i68, r123_i14_i72, v15;
    uint64_t room_r6[5];
    r6 = (bytes)room_r6;
    v0 = (uint64_t)(a0 + UINT64_C(18446735863442674816));
    or_cond = v0 < UINT64_C(18446727528841446016);
    if (or_cond) { { common_ret_op = 2147483648u; goto at__common_ret; } }
    goto at__after_1;
    at__after_1:;
    r30 = (uint64_t)(a0 + UINT64_C(8334601228800));
    r36 = (uint64_t)(r30 / UINT64_C(86400));
    r45 = (uint64_t)(r30 % UINT64_C(86400));
    r38 = (uint32_t)(r36);
    r14 = a1 > 1999999999u;
    if (r14) { { common_ret_op = 2147483648u; goto at__common_ret; } }
    goto at__after_1_2;
    at__after_1_2:;
    r47 = (uint32_t)(r45);
    r25 = a1 > 999999999u;
    r29 = (uint32_t)(r47 % 60u);
    r5 = (uint32_t)(r47 / 60u);
    r31_not = r29 != 59u;
    or_cond11_i_not = (uint8_t)(((uint32_t)r25 & (uint32_t)r31_not) & 1);
    if (or_cond11_i_not) { { common_ret_op = 2147483648u; goto at__common_ret; } }
    goto at__arm_1;
    at__arm_1:;
    memset(r6, 0, UINT64_C(40));
    r40 = (uint32_t)(r38 << 2);
    r11 = (uint32_t)(r40 + 375235u);
    r13 = (uint32_t)(r11 / 146097u);
    r3 = (uint32_t)(r13 * 3);
    r71_i2 = (uint32_t)(r3 + r11);
    r10 = (uint32_t)(r71_i2 | 3);
    r6_2 = (uint64_t)r10;
    r8 = (uint64_t)(r6_2 * UINT64_C(376287347));
    r10_i4 = (uint64_t)(r8 >> (UINT64_C(39) & 63u));
    r12 = (uint32_t)(r10_i4);
    r17 = (uint64_t)(r8 & UINT64_C(549755813885));
    r25_2 = (uint64_t)(r17 * UINT64_C(1461));
    r27 = (uint64_t)(r25_2 >> (UINT64_C(41) & 63u));
    r29_2 = (uint32_t)(r27);
    r6_3 = (uint32_t)(r29_2 * 2141u);
    r8_2 = (uint32_t)(r6_3 + 197913u);
    r103 = (uint32_t)(r8_2 >> 16u);
    r14_lhs_trunc = (uint16_t)(r8_2);
    r144 = (uint16_t)((uint32_t)r14_lhs_trunc / (uint32_t)2141u);
    r35 = r17 < UINT64_C(460575712662);
    r51 = (uint32_t)(r103 + 4294967284u);
    r10_sroa_0_0_v = r35 ? 4294704896u : 4294704897u;
    r10_sroa_0_0 = (uint32_t)(r10_sroa_0_0_v + r12);
    r10_sroa_4_0 = r35 ? r103 : r51;
    r8_3 = (int32_t)r10_sroa_0_0 < (int32_t)0;
    x = r8_3 ? 45u : 43u;
    r21 = r10_sroa_0_0 > 9999u;
    r5_2 = (r6 + 32);
    LOAD(uint64_t, r6_4, r5_2);
    r9_i1 = (r6 + (int64_t)r6_4);
    STORE(uint8_t, r9_i1, x);
    r1 = (uint64_t)r21;
    r14_2 = (uint64_t)(r6_4 + r1);
    r2_0 = (int32_t)r10_sroa_0_0 < 0 ? (uint32_t)(0u - r10_sroa_0_0) : r10_sroa_0_0;
    r9 = (uint32_t)(r2_0 / 10000u);
    v1 = (uint32_t)(r9 << 1);
    r13_i3 = (uint64_t)v1;
    r17_2 = ((bytes)&static_0 + (int64_t)r13_i3);
    LOAD(uint8_t, r19_i4, r17_2);
    r25_3 = (r17_2 + 1);
    LOAD(uint8_t, r27_2, r25_3);
    r19 = r2_0 > 99999u;
    r9_i7 = (r6 + (int64_t)r14_2);
    STORE(uint8_t, r9_i7, r19_i4);
    r1_i_i8 = (uint64_t)r19;
    r14_i9 = (uint64_t)(r14_2 + r1_i_i8);
    r26 = r2_0 > 9999u;
    r9_i12 = (r6 + (int64_t)r14_i9);
    STORE(uint8_t, r9_i12, r27_2);
    r1_i_i13 = (uint64_t)r26;
    r14_i14 = (uint64_t)(r14_i9 + r1_i_i13);
    r32_2 = (uint32_t)(r2_0 % 10000u);
    r3_lhs_trunc = (uint16_t)(r32_2);
    r313 = (uint16_t)((uint32_t)r3_lhs_trunc / (uint32_t)100u);
    v2 = (uint16_t)((uint32_t)r313 << 1);
    r13_i_i_i_i1 = (uint64_t)v2;
    r17_3 = ((bytes)&static_0 + (int64_t)r13_i_i_i_i1);
    LOAD(uint8_t, r19_2, r17_3);
    r25_i_i_i_i2 = (r17_3 + 1);
    LOAD(uint8_t, r27_i_i_i_i3, r25_i_i_i_i2);
    r8_i_i_i_i4 = (r6 + (int64_t)r14_i14);
    STORE(uint8_t, r8_i_i_i_i4, r19_2);
    r8_i4 = (r8_i_i_i_i4 + 1);
    STORE(uint8_t, r8_i4, r27_i_i_i_i3);
    r614 = (uint16_t)((uint32_t)r3_lhs_trunc % (uint32_t)100u);
    v3 = (uint16_t)((uint32_t)r614 << 1);
    r13_i_i3 = (uint64_t)v3;
    r17_i_i4 = ((bytes)&static_0 + (int64_t)r13_i_i3);
    LOAD(uint8_t, r19_i_i5, r17_i_i4);
    r25_i_i6 = (r17_i_i4 + 1);
    LOAD(uint8_t, r27_i_i7, r25_i_i6);
    r8_i_i10 = (r8_i_i_i_i4 + 2);
    STORE(uint8_t, r8_i_i10, r19_i_i5);
    r8_i4_i11 = (r8_i_i_i_i4 + 3);
    STORE(uint8_t, r8_i4_i11, r27_i_i7);
    r8_i16 = (r8_i_i_i_i4 + 4);
    STORE(uint8_t, r8_i16, 45u);
    r11_2 = (uint64_t)r10_sroa_4_0;
    r13_2 = (uint64_t)(r11_2 << (UINT64_C(1) & 63u));
    r17_i_i_i5 = ((bytes)&static_0 + (int64_t)r13_2);
    LOAD(uint8_t, r19_3, r17_i_i_i5);
    r25_4 = (r17_i_i_i5 + 1);
    LOAD(uint8_t, r27_3, r25_4);
    r8_4 = (r8_i_i_i_i4 + 5);
    STORE(uint8_t, r8_4, r19_3);
    r8_i4_2 = (r8_i_i_i_i4 + 6);
    STORE(uint8_t, r8_i4_2, r27_3);
    r8_i19 = (r8_i_i_i_i4 + 7);
    STORE(uint8_t, r8_i19, 45u);
    narrow = (uint16_t)((uint32_t)r144 << 1);
    v4 = (uint64_t)narrow;
    v5 = ((bytes)&static_0 + (int64_t)v4);
    r17_i_i23 = (v5 + 2);
    LOAD(uint8_t, r19_i_i24, r17_i_i23);
    r25_i_i25 = (v5 + 3);
    LOAD(uint8_t, r27_i_i26, r25_i_i25);
    r8_i_i29 = (r8_i_i_i_i4 + 8);
    STORE(uint8_t, r8_i_i29, r19_i_i24);
    r8_i4_i30 = (r8_i_i_i_i4 + 9);
    STORE(uint8_t, r8_i4_i30, r27_i_i26);
    r8_5 = (r8_i_i_i_i4 + 10);
    STORE(uint8_t, r8_5, 84u);
    r4_2 = (uint32_t)(r47 / 3600u);
    r7_i_i_i_lhs_trunc = (uint16_t)(r5);
    r718 = (uint16_t)((uint32_t)r7_i_i_i_lhs_trunc % (uint32_t)60u);
    v6 = (uint32_t)(r4_2 << 1);
    r13_i_i_i_i4 = (uint64_t)v6;
    r17_i_i_i_i5 = ((bytes)&static_0 + (int64_t)r13_i_i_i_i4);
    LOAD(uint8_t, r19_i_i_i_i6, r17_i_i_i_i5);
    r25_i_i_i_i7 = (r17_i_i_i_i5 + 1);
    LOAD(uint8_t, r27_i_i_i_i8, r25_i_i_i_i7);
    v7 = (r6 + (int64_t)r14_i14);
    r8_i_i_i_i9 = (v7 + 11);
    STORE(uint8_t, r8_i_i_i_i9, r19_i_i_i_i6);
    r8_i4_i_i_i10 = (v7 + 12);
    STORE(uint8_t, r8_i4_i_i_i10, r27_i_i_i_i8);
    r8_i_i_i11 = (v7 + 13);
    STORE(uint8_t, r8_i_i_i11, 58u);
    v8 = (uint16_t)((uint32_t)r718 << 1);
    r13_i_i3_2 = (uint64_t)v8;
    r17_i_i4_2 = ((bytes)&static_0 + (int64_t)r13_i_i3_2);
    LOAD(uint8_t, r19_i_i5_2, r17_i_i4_2);
    r25_i_i6_2 = (r17_i_i4_2 + 1);
    LOAD(uint8_t, r27_i_i7_2, r25_i_i6_2);
    r8_i_i10_2 = (v7 + 14);
    STORE(uint8_t, r8_i_i10_2, r19_i_i5_2);
    r8_i4_i11_2 = (v7 + 15);
    STORE(uint8_t, r8_i4_i11_2, r27_i_i7_2);
    r8_i15 = (v7 + 16);
    STORE(uint8_t, r8_i15, 58u);
    r11_i16 = (uint64_t)(r14_i14 + UINT64_C(17));
    r18 = (uint32_t)(r29 << 1);
    v9 = (uint64_t)r18;
    v10 = ((bytes)&static_0 + (int64_t)v9);
    if (r25) { goto at__then_1; }
    goto at__join_3;
    at__common_ret_sink_split:;
    r5_lhs_trunc_i23_i84 = (uint16_t)(r26_i81_sink);
    r52_i24_i85 = (uint16_t)((uint32_t)r5_lhs_trunc_i23_i84 / (uint32_t)100u);
    r7_i25_i86 = (uint8_t)(r52_i24_i85);
    r9_i26_i87 = (uint8_t)((uint32_t)r7_i25_i86 | (uint32_t)48u);
    r8_i_i29_i88 = (r6 + (int64_t)r11_i5_i_i22_i80_sink);
    STORE(uint8_t, r8_i_i29_i88, r9_i26_i87);
    r123_i30_i89 = (uint16_t)((uint32_t)r5_lhs_trunc_i23_i84 % (uint32_t)100u);
    v11 = (uint16_t)((uint32_t)r123_i30_i89 << 1);
    r13_i_i_i31_i90 = (uint64_t)v11;
    r17_i_i_i32_i91 = ((bytes)&static_0 + (int64_t)r13_i_i_i31_i90);
    LOAD(uint8_t, r19_i_i_i33_i92, r17_i_i_i32_i91);
    r25_i_i_i34_i93 = (r17_i_i_i32_i91 + 1);
    LOAD(uint8_t, r27_i_i_i35_i94, r25_i_i_i34_i93);
    r8_i_i_i36_i95 = (r8_i_i29_i88 + 1);
    STORE(uint8_t, r8_i_i_i36_i95, r19_i_i_i33_i92);
    r8_i4_i_i37_i96 = (r8_i_i29_i88 + 2);
    STORE(uint8_t, r8_i4_i_i37_i96, r27_i_i_i35_i94);
    r11_i5_i_i38_i97 = (uint64_t)(r14_i14 + UINT64_C(29));
    STORE(uint64_t, r5_2, r11_i5_i_i38_i97);
    {
    r4 = r11_i5_i_i38_i97;
    goto at__chrono_datetime_naive_date_time_NaiveDateTime_put_into_32_exit;
    }
    at__then_1:;
    r17_i_i19 = (v10 + 2);
    LOAD(uint8_t, r19_i_i20, r17_i_i19);
    r25_i_i21 = (v10 + 3);
    LOAD(uint8_t, r27_i_i22, r25_i_i21);
    r8_i_i25 = (r6 + (int64_t)r11_i16);
    STORE(uint8_t, r8_i_i25, r19_i_i20);
    r8_i4_i26 = (r8_i_i25 + 1);
    STORE(uint8_t, r8_i4_i26, r27_i_i22);
    r11_i5_i27 = (uint64_t)(r14_i14 + UINT64_C(19));
    STORE(uint64_t, r5_2, r11_i5_i27);
    r21_2 = (uint32_t)(a1 + 3294967296u);
    r7 = r21_2 == 0;
    if (r7) { { r4 = r11_i5_i27; goto at__chrono_datetime_naive_date_time_NaiveDateTime_put_into_32_exit; } }
    goto at__join_3_2;
    at__join_3_2:;
    r8_i_i30 = (r6 + (int64_t)r11_i5_i27);
    STORE(uint8_t, r8_i_i30, 46u);
    r12_2 = (uint32_t)(r21_2 / 1000000u);
    r5_lhs_trunc = (uint16_t)(r12_2);
    r52 = (uint16_t)((uint32_t)r5_lhs_trunc / (uint32_t)100u);
    r7_2 = (uint8_t)(r52);
    r9_2 = (uint8_t)((uint32_t)r7_2 + (uint32_t)48u);
    r8_i_i_i_i_i12 = (r8_i_i30 + 1);
    STORE(uint8_t, r8_i_i_i_i_i12, r9_2);
    r123 = (uint16_t)((uint32_t)r5_lhs_trunc % (uint32_t)100u);
    v12 = (uint16_t)((uint32_t)r123 << 1);
    r13_3 = (uint64_t)v12;
    r17_i_i_i_i_i_i13 = ((bytes)&static_0 + (int64_t)r13_3);
    LOAD(uint8_t, r19_4, r17_i_i_i_i_i_i13);
    r25_5 = (r17_i_i_i_i_i_i13 + 1);
    LOAD(uint8_t, r27_4, r25_5);
    r8_i_i_i_i_i_i14 = (r8_i_i30 + 2);
    STORE(uint8_t, r8_i_i_i_i_i_i14, r19_4);
    r8_i4_3 = (r8_i_i30 + 3);
    STORE(uint8_t, r8_i4_3, r27_4);
    r11_i5 = (uint64_t)(r14_i14 + UINT64_C(23));
    STORE(uint64_t, r5_2, r11_i5);
    r15 = (uint32_t)(r21_2 % 1000000u);
    r17_i_i_i15 = r15 == 0;
    if (r17_i_i_i15) { { r4 = r11_i5; goto at__chrono_datetime_naive_date_time_NaiveDateTime_put_into_32_exit; } }
    goto at__join_6;
    at__join_6:;
    r21_i_i_i16 = (uint32_t)(r21_2 / 1000u);
    r23 = (uint32_t)(r21_i_i_i16 % 1000u);
    r5_lhs_trunc_i7 = (uint16_t)(r23);
    r52_i8 = (uint16_t)((uint32_t)r5_lhs_trunc_i7 / (uint32_t)100u);
    r7_i9 = (uint8_t)(r52_i8);
    r9_i10 = (uint8_t)((uint32_t)r7_i9 | (uint32_t)48u);
    r8_i_i13 = (r6 + (int64_t)r11_i5);
    STORE(uint8_t, r8_i_i13, r9_i10);
    r123_i14 = (uint16_t)((uint32_t)r5_lhs_trunc_i7 % (uint32_t)100u);
    v13 = (uint16_t)((uint32_t)r123_i14 << 1);
    r13_i_i_i15 = (uint64_t)v13;
    r17_i_i_i16 = ((bytes)&static_0 + (int64_t)r13_i_i_i15);
    LOAD(uint8_t, r19_i_i_i17, r17_i_i_i16);
    r25_i_i_i18 = (r17_i_i_i16 + 1);
    LOAD(uint8_t, r27_i_i_i19, r25_i_i_i18);
    r8_i_i_i20 = (r8_i_i13 + 1);
    STORE(uint8_t, r8_i_i_i20, r19_i_i_i17);
    r8_i4_i_i21 = (r8_i_i13 + 2);
    STORE(uint8_t, r8_i4_i_i21, r27_i_i_i19);
    r11_i5_i_i22 = (uint64_t)(r14_i14 + UINT64_C(26));
    STORE(uint64_t, r5_2, r11_i5_i_i22);
    r26_i_i_i17 = (uint32_t)(r21_2 % 1000u);
    r28 = r26_i_i_i17 == 0;
    if (r28) { { r4 = r11_i5_i_i22; goto at__chrono_datetime_naive_date_time_NaiveDateTime_put_into_32_exit; } }
    { r26_i81_sink = r26_i_i_i17; r11_i5_i_i22_i80_sink = r11_i5_i_i22; goto at__common_ret_sink_split; }
    at__join_3:;
    LOAD(uint8_t, r19_i_i34, v10);
    r25_i_i35 = (v10 + 1);
    LOAD(uint8_t, r27_i_i36, r25_i_i35);
    r8_i_i39 = (r6 + (int64_t)r11_i16);
    STORE(uint8_t, r8_i_i39, r19_i_i34);
    r8_i4_i40 = (r8_i_i39 + 1);
    STORE(uint8_t, r8_i4_i40, r27_i_i36);
    r11_i5_i41 = (uint64_t)(r14_i14 + UINT64_C(19));
    STORE(uint64_t, r5_2, r11_i5_i41);
    r7_i42 = a1 == 0;
    if (r7_i42) { { r4 = r11_i5_i41; goto at__chrono_datetime_naive_date_time_NaiveDateTime_put_into_32_exit; } }
    goto at__join_3_i43;
    at__join_3_i43:;
    r8_i_i46 = (r6 + (int64_t)r11_i5_i41);
    STORE(uint8_t, r8_i_i46, 46u);
    r12_i47 = (uint32_t)(a1 / 1000000u);
    r5_lhs_trunc_i_i48 = (uint16_t)(r12_i47);
    r52_i_i49 = (uint16_t)((uint32_t)r5_lhs_trunc_i_i48 / (uint32_t)100u);
    r7_i_i50 = (uint8_t)(r52_i_i49);
    r9_i_i51 = (uint8_t)((uint32_t)r7_i_i50 + (uint32_t)48u);
    r8_i_i_i52 = (r8_i_i46 + 1);
    STORE(uint8_t, r8_i_i_i52, r9_i_i51);
    r123_i_i53 = (uint16_t)((uint32_t)r5_lhs_trunc_i_i48 % (uint32_t)100u);
    v14 = (uint16_t)((uint32_t)r123_i_i53 << 1);
    r13_i_i_i_i54 = (uint64_t)v14;
    r17_i_i_i_i55 = ((bytes)&static_0 + (int64_t)r13_i_i_i_i54);
    LOAD(uint8_t, r19_i_i_i_i56, r17_i_i_i_i55);
    r25_i_i_i_i57 = (r17_i_i_i_i55 + 1);
    LOAD(uint8_t, r27_i_i_i_i58, r25_i_i_i_i57);
    r8_i_i_i_i59 = (r8_i_i46 + 2);
    STORE(uint8_t, r8_i_i_i_i59, r19_i_i_i_i56);
    r8_i4_i_i_i60 = (r8_i_i46 + 3);
    STORE(uint8_t, r8_i4_i_i_i60, r27_i_i_i_i58);
    r11_i5_i_i_i61 = (uint64_t)(r14_i14 + UINT64_C(23));
    STORE(uint64_t, r5_2, r11_i5_i_i_i61);
    r15_i62 = (uint32_t)(a1 % 1000000u);
    r17_i63 = r15_i62 == 0;
    if (r17_i63) { { r4 = r11_i5_i_i_i61; goto at__chrono_datetime_naive_date_time_NaiveDateTime_put_into_32_exit; } }
    goto at__join_6_i64;
    at__join_6_i64:;
    r21_i65 = (uint32_t)(a1 / 1000u);
    r23_i66 = (uint32_t)(r21_i65 % 1000u);
    r5_lhs_trunc_i7_i67 = (uint16_t)(r23_i66);
    r52_i8_i68 = (uint16_t)((uint32_t)r5_lhs_trunc_i7_i67 / (uint32_t)100u);
    r7_i9_i69 = (uint8_t)(r52_i8_i68);
    r9_i10_i70 = (uint8_t)((uint32_t)r7_i9_i69 | (uint32_t)48u);
    r8_i_i13_i71 = (r6 + (int64_t)r11_i5_i_i_i61);
    STORE(uint8_t, r8_i_i13_i71, r9_i10_i70);
    r123_i14_i72 = (uint16_t)((uint32_t)r5_lhs_trunc_i7_i67 % (uint32_t)100u);
    v15 = (uint16_t)((uint32_t)r123_i14_i72 << 1);
    r13_i_i_i15_i73 = (uint64_t)v15;
    r17_i_i_i16_i74 = ((bytes)&static_0 + (int64_t)r13_i_i_i15_i73);
    LOAD(uint8_t, r19_i_i_i17_i75, r17_i_i_i16_i74);
    r25_i_i_i18_i76 = (r17_i_i_i16_i74 + 1);
    LOAD(uint8_t, r27_i_i_i19_i77, r25_i_i_i18_i76);
    r8_i_i_i20_i78 = (r8_i_i13_i71 + 1);
    STORE(uint8_t, r8_i_i_i20_i78, r19_i_i_i17_i75);
    r8_i4_i_i21_i79 = (r8_i_i13_i71 + 2);
    STORE(uint8_t, r8_i4_i_i21_i79, r27_i_i_i19_i77);
    r11_i5_i_i22_i80 = (uint64_t)(r14_i14 + UINT64_C(26));
    STORE(uint64_t, r5_2, r11_i5_i_i22_i80);
    r26_i81 = (uint32_t)(a1 % 1000u);
    r28_i82 = r26_i81 == 0;
    if (r28_i82) { { r4 = r11_i5_i_i22_i80; goto at__chrono_datetime_naive_date_time_NaiveDateTime_put_into_32_exit; } }
    { r26_i81_sink = r26_i81; r11_i5_i_i22_i80_sink = r11_i5_i_i22_i80; goto at__common_ret_sink_split; }
    at__chrono_datetime_naive_date_time_NaiveDateTime_put_into_32_exit:;
    r16 = a3 < r4;
    if (r16) { { common_ret_op = 2147483648u; goto at__common_ret; } }
    goto at__join_3_3;
    at__join_3_3:;
    memcpy(a2, r6, r4);
    r32 = (uint32_t)(r4);
    {
    common_ret_op = r32;
    goto at__common_ret;
    }
    at__common_ret:;
    return common_ret_op;
}

static uint32_t in_calendar_write_duration(uint64_t a0, uint32_t a1, bytes a2, uint64_t a3)
{
    uint64_t r0_sroa_0_0_i_pn, accumulator_tr5, accumulator_tr_lcssa_i_i_neg5, r5_i3, r4, v0, r11_i3, r16, r154, r21_2, r0_sroa_0_0, r6_3, a0_0_val_lobit, r14, r16_2, r5_i3_pre, r13_2, r13_i_i_i11, r13_i_i_i27, r11_i5_i_i34, r15_i_i_i4, r15_i_i_neg, r5_i37, r11_i4;
    uint32_t r0_sroa_4_0_i_pn, a0_tr6, common_ret_op, r24, r0_sroa_4_0, r14_i2, r17_2, r19_2, r22, r43, r11_i35, r4_i36, r32;
    bytes r6, r10_i2, r21, r5, r9, r21_3, r8, r8_2, r17, r25, r8_3, r8_i4, r8_i_i9, r17_i_i_i12, r25_i_i_i14, r8_i_i_i16, r8_i4_i_i17, r8_i_i25, r17_i_i_i28, r25_i_i_i30, r8_i_i_i32, r8_i4_i_i33, r8_4;
    uint8_t r2, r7, spec_select, r15, r6_2, r13, r7_2, r10, r9_i1, r73, r9_2, r19, r27, r7_i5, r9_i6, r19_i_i_i13, r27_i_i_i15, r7_i21, r9_i22, r19_i_i_i29, r27_i_i_i31, r6_not4, r6_not, r16_3;
    uint16_t r5_lhs_trunc, r52, r123, v1, r5_lhs_trunc_i3, r52_i4, r123_i10, v2, r5_lhs_trunc_i19, r52_i20, r123_i26, v3;
    uint64_t room_r6[6];
    r6 = (bytes)room_r6;
    r2 = a1 > 999999999u;
    if (r2) { { common_ret_op = 2147483648u; goto at__common_ret; } }
    goto at__join_3;
    at__join_3:;
    switch (a0) {
    case UINT64_C(18437520701672696840): goto at__then_1;
    case UINT64_C(9223372036854775): goto at__numbers_c_date_time_numbers_duration_of_exit;
    default: goto at__join_6;
    }
    at__then_1:;
    r7 = a1 > 192999999u;
    if (r7) { goto at__arm_1; }
    { common_ret_op = 2147483648u; goto at__common_ret; }
    at__join_6:;
    v0 = (uint64_t)(a0 + UINT64_C(9223372036854775));
    spec_select = v0 < UINT64_C(18446744073709550);
    if (spec_select) { goto at__arm_1; }
    { common_ret_op = 2147483648u; goto at__common_ret; }
    at__numbers_c_date_time_numbers_duration_of_exit:;
    r15 = a1 < 807000001u;
    if (r15) { goto at__arm_1; }
    { common_ret_op = 2147483648u; goto at__common_ret; }
    at__arm_1:;
    memset(r6, 0, UINT64_C(48));
    r6_2 = a0 == UINT64_C(0);
    if (r6_2) { goto at__chrono_clock_time_delta_TimeDelta_is_zero_exit_i; }
    goto at__join_3_2;
    at__chrono_clock_time_delta_TimeDelta_is_zero_exit_i:;
    r13 = a1 == 0;
    if (r13) { goto at__then_1_2; }
    { r0_sroa_0_0_i_pn = UINT64_C(0); r0_sroa_4_0_i_pn = a1; goto at__chrono_clock_time_delta_TimeDelta_sign_and_size_exit_i; }
    at__then_1_2:;
    r10_i2 = (r6 + 40);
    LOAD(uint64_t, r11_i3, r10_i2);
    r21 = (r6 + (int64_t)r11_i3);
    memcpy(r21, (bytes)&static_15, UINT64_C(3));
    r16 = (uint64_t)(r11_i3 + UINT64_C(3));
    STORE(uint64_t, r10_i2, r16);
    {
    r4 = r16;
    goto at__chrono_clock_time_delta_TimeDelta_put_into_33_exit;
    }
    at__join_3_2:;
    r7_2 = (int64_t)a0 < (int64_t)UINT64_C(0);
    if (r7_2) { goto at__then_1_3; }
    { r0_sroa_0_0_i_pn = a0; r0_sroa_4_0_i_pn = a1; goto at__chrono_clock_time_delta_TimeDelta_sign_and_size_exit_i; }
    at__then_1_3:;
    r10 = a1 == 0;
    r154 = (uint64_t)(UINT64_C(0) - a0);
    r21_2 = (uint64_t)(a0 ^ UINT64_C(18446744073709551615));
    r24 = (uint32_t)(1000000000u - a1);
    r0_sroa_4_0 = r10 ? 0 : r24;
    r0_sroa_0_0 = r10 ? r154 : r21_2;
    {
    r0_sroa_0_0_i_pn = r0_sroa_0_0;
    r0_sroa_4_0_i_pn = r0_sroa_4_0;
    goto at__chrono_clock_time_delta_TimeDelta_sign_and_size_exit_i;
    }
    at__chrono_clock_time_delta_TimeDelta_sign_and_size_exit_i:;
    r5 = (r6 + 40);
    LOAD(uint64_t, r6_3, r5);
    r9 = (r6 + (int64_t)r6_3);
    STORE(uint8_t, r9, 45u);
    a0_0_val_lobit = (uint64_t)(a0 >> (UINT64_C(63) & 63u));
    r14 = (uint64_t)(r6_3 + a0_0_val_lobit);
    r21_3 = (r6 + (int64_t)r14);
    STORE(uint16_t, r21_3, 21584u);
    r16_2 = (uint64_t)(r14 + UINT64_C(2));
    STORE(uint64_t, r5, r16_2);
    chrono_text_text_Text_push_natural_33(r6, r0_sroa_0_0_i_pn);
    r9_i1 = r0_sroa_4_0_i_pn == 0;
    LOAD(uint64_t, r5_i3_pre, r5);
    if (r9_i1) { { r5_i3 = r5_i3_pre; goto at__chrono_text_text_Text_push_seconds_33_exit_i; } }
    goto at__join_3_3;
    at__join_3_3:;
    r8 = (r6 + (int64_t)r5_i3_pre);
    STORE(uint8_t, r8, 46u);
    r14_i2 = (uint32_t)(r0_sroa_4_0_i_pn / 1000000u);
    r5_lhs_trunc = (uint16_t)(r14_i2);
    r52 = (uint16_t)((uint32_t)r5_lhs_trunc / (uint32_t)100u);
    r73 = (uint8_t)(r52);
    r9_2 = (uint8_t)((uint32_t)r73 + (uint32_t)48u);
    r8_2 = (r8 + 1);
    STORE(uint8_t, r8_2, r9_2);
    r123 = (uint16_t)((uint32_t)r5_lhs_trunc % (uint32_t)100u);
    v1 = (uint16_t)((uint32_t)r123 << 1);
    r13_2 = (uint64_t)v1;
    r17 = ((bytes)&static_0 + (int64_t)r13_2);
    LOAD(uint8_t, r19, r17);
    r25 = (r17 + 1);
    LOAD(uint8_t, r27, r25);
    r8_3 = (r8 + 2);
    STORE(uint8_t, r8_3, r19);
    r8_i4 = (r8 + 3);
    STORE(uint8_t, r8_i4, r27);
    r17_2 = (uint32_t)(r0_sroa_4_0_i_pn / 1000u);
    r19_2 = (uint32_t)(r17_2 % 1000u);
    r5_lhs_trunc_i3 = (uint16_t)(r19_2);
    r52_i4 = (uint16_t)((uint32_t)r5_lhs_trunc_i3 / (uint32_t)100u);
    r7_i5 = (uint8_t)(r52_i4);
    r9_i6 = (uint8_t)((uint32_t)r7_i5 | (uint32_t)48u);
    r8_i_i9 = (r8 + 4);
    STORE(uint8_t, r8_i_i9, r9_i6);
    r123_i10 = (uint16_t)((uint32_t)r5_lhs_trunc_i3 % (uint32_t)100u);
    v2 = (uint16_t)((uint32_t)r123_i10 << 1);
    r13_i_i_i11 = (uint64_t)v2;
    r17_i_i_i12 = ((bytes)&static_0 + (int64_t)r13_i_i_i11);
    LOAD(uint8_t, r19_i_i_i13, r17_i_i_i12);
    r25_i_i_i14 = (r17_i_i_i12 + 1);
    LOAD(uint8_t, r27_i_i_i15, r25_i_i_i14);
    r8_i_i_i16 = (r8 + 5);
    STORE(uint8_t, r8_i_i_i16, r19_i_i_i13);
    r8_i4_i_i17 = (r8 + 6);
    STORE(uint8_t, r8_i4_i_i17, r27_i_i_i15);
    r22 = (uint32_t)(r0_sroa_4_0_i_pn % 1000u);
    r5_lhs_trunc_i19 = (uint16_t)(r22);
    r52_i20 = (uint16_t)((uint32_t)r5_lhs_trunc_i19 / (uint32_t)100u);
    r7_i21 = (uint8_t)(r52_i20);
    r9_i22 = (uint8_t)((uint32_t)r7_i21 | (uint32_t)48u);
    r8_i_i25 = (r8 + 7);
    STORE(uint8_t, r8_i_i25, r9_i22);
    r123_i26 = (uint16_t)((uint32_t)r5_lhs_trunc_i19 % (uint32_t)100u);
    v3 = (uint16_t)((uint32_t)r123_i26 << 1);
    r13_i_i_i27 = (uint64_t)v3;
    r17_i_i_i28 = ((bytes)&static_0 + (int64_t)r13_i_i_i27);
    LOAD(uint8_t, r19_i_i_i29, r17_i_i_i28);
    r25_i_i_i30 = (r17_i_i_i28 + 1);
    LOAD(uint8_t, r27_i_i_i31, r25_i_i_i30);
    r8_i_i_i32 = (r8 + 8);
    STORE(uint8_t, r8_i_i_i32, r19_i_i_i29);
    r8_i4_i_i33 = (r8 + 9);
    STORE(uint8_t, r8_i4_i_i33, r27_i_i_i31);
    r11_i5_i_i34 = (uint64_t)(r5_i3_pre + UINT64_C(10));
    r43 = (uint32_t)(r0_sroa_4_0_i_pn % 10u);
    r6_not4 = r43 == 0;
    if (r6_not4) { { a0_tr6 = r0_sroa_4_0_i_pn; accumulator_tr5 = UINT64_C(0); goto at__join_3_4; } }
    { accumulator_tr_lcssa_i_i_neg5 = UINT64_C(0); goto at__chrono_text_duration_text_zeros_behind_exit_i_i_i; }
    at__join_3_4:;
    r11_i35 = (uint32_t)(a0_tr6 / 10u);
    r15_i_i_i4 = (uint64_t)(accumulator_tr5 + UINT64_C(1));
    r4_i36 = (uint32_t)(r11_i35 % 10u);
    r6_not = r4_i36 == 0;
    if (r6_not) { { a0_tr6 = r11_i35; accumulator_tr5 = r15_i_i_i4; goto at__join_3_4; } }
    goto at__chrono_text_duration_text_zeros_behind_exit_i_loopexit_i_i;
    at__chrono_text_duration_text_zeros_behind_exit_i_loopexit_i_i:;
    r15_i_i_neg = (uint64_t)(accumulator_tr5 ^ UINT64_C(18446744073709551615));
    {
    accumulator_tr_lcssa_i_i_neg5 = r15_i_i_neg;
    goto at__chrono_text_duration_text_zeros_behind_exit_i_i_i;
    }
    at__chrono_text_duration_text_zeros_behind_exit_i_i_i:;
    r5_i37 = (uint64_t)(r11_i5_i_i34 + accumulator_tr_lcssa_i_i_neg5);
    {
    r5_i3 = r5_i37;
    goto at__chrono_text_text_Text_push_seconds_33_exit_i;
    }
    at__chrono_text_text_Text_push_seconds_33_exit_i:;
    r8_4 = (r6 + (int64_t)r5_i3);
    STORE(uint8_t, r8_4, 83u);
    r11_i4 = (uint64_t)(r5_i3 + UINT64_C(1));
    STORE(uint64_t, r5, r11_i4);
    {
    r4 = r11_i4;
    goto at__chrono_clock_time_delta_TimeDelta_put_into_33_exit;
    }
    at__chrono_clock_time_delta_TimeDelta_put_into_33_exit:;
    r16_3 = a3 < r4;
    if (r16_3) { { common_ret_op = 2147483648u; goto at__common_ret; } }
    goto at__join_35;
    at__join_35:;
    memcpy(a2, r6, r4);
    r32 = (uint32_t)(r4);
    {
    common_ret_op = r32;
    goto at__common_ret;
    }
    at__common_ret:;
    return common_ret_op;
}

static void chrono_text_text_Text_push_natural_33(bytes a0, uint64_t a1)
{
    uint8_t r9, r198, r2710, r1914, r2716, r30, r36, r42, r48, r1937, r2739, r1944, r2746, r34, r40, r46, r19_2, r27, r19_i_i4, r27_i_i6, r1970, r2772, r19_i_i480, r27_i_i682;
    uint32_t r13, r3, r13_2, r21, r23, r27_2;
    uint16_t r12_i_lhs_trunc, r1286, v0, r2187, v1, r15_i4_lhs_trunc, r15488, v2, r25589, v3, r3_lhs_trunc, r312, v4, r613, v5, r3_lhs_trunc66, r31267, v6, r61377, v8;
    uint64_t r136, r1312, r6, r1, r14, r122, r1423, r127, r1428, r132, r1433, r1335, r1343, r152, r1453, r157, r1458, r162, r1463, r1165, r16, r19, r13_3, r5_2, r13_i_i2, r1368, r13_i_i278, r11_i5_i1185;
    bytes r177, r259, r1713, r2515, r5, r9_2, r921, r926, r931, r1736, r2538, r17, r2545, r951, r956, r961, r8, r17_2, r25, r4, r8_2, r8_i4, r17_i_i3, r25_i_i5, r8_i_i9, r8_i4_i10, r1769, r2571, v7, r875, r8_i476, r17_i_i379, r25_i_i581, r8_i_i983, r8_i4_i1084;
    r9 = a1 < UINT64_C(100000000);
    if (r9) { goto at__then_1; }
    goto at__join_3;
    at__common_ret:;
    return;
    at__then_1:;
    r13 = (uint32_t)(a1);
    r3 = (uint32_t)(r13 / 10000u);
    r12_i_lhs_trunc = (uint16_t)(r3);
    r1286 = (uint16_t)((uint32_t)r12_i_lhs_trunc / (uint32_t)100u);
    v0 = (uint16_t)((uint32_t)r1286 << 1);
    r136 = (uint64_t)v0;
    r177 = ((bytes)&static_0 + (int64_t)r136);
    LOAD(uint8_t, r198, r177);
    r259 = (r177 + 1);
    LOAD(uint8_t, r2710, r259);
    r2187 = (uint16_t)((uint32_t)r12_i_lhs_trunc % (uint32_t)100u);
    v1 = (uint16_t)((uint32_t)r2187 << 1);
    r1312 = (uint64_t)v1;
    r1713 = ((bytes)&static_0 + (int64_t)r1312);
    LOAD(uint8_t, r1914, r1713);
    r2515 = (r1713 + 1);
    LOAD(uint8_t, r2716, r2515);
    r30 = a1 > UINT64_C(9999999);
    r5 = (a0 + 40);
    LOAD(uint64_t, r6, r5);
    r9_2 = (a0 + (int64_t)r6);
    STORE(uint8_t, r9_2, r198);
    r1 = (uint64_t)r30;
    r14 = (uint64_t)(r6 + r1);
    r36 = a1 > UINT64_C(999999);
    r921 = (a0 + (int64_t)r14);
    STORE(uint8_t, r921, r2710);
    r122 = (uint64_t)r36;
    r1423 = (uint64_t)(r14 + r122);
    r42 = a1 > UINT64_C(99999);
    r926 = (a0 + (int64_t)r1423);
    STORE(uint8_t, r926, r1914);
    r127 = (uint64_t)r42;
    r1428 = (uint64_t)(r1423 + r127);
    r48 = a1 > UINT64_C(9999);
    r931 = (a0 + (int64_t)r1428);
    STORE(uint8_t, r931, r2716);
    r132 = (uint64_t)r48;
    r1433 = (uint64_t)(r1428 + r132);
    r13_2 = (uint32_t)(r13 % 10000u);
    r15_i4_lhs_trunc = (uint16_t)(r13_2);
    r15488 = (uint16_t)((uint32_t)r15_i4_lhs_trunc / (uint32_t)100u);
    v2 = (uint16_t)((uint32_t)r15488 << 1);
    r1335 = (uint64_t)v2;
    r1736 = ((bytes)&static_0 + (int64_t)r1335);
    LOAD(uint8_t, r1937, r1736);
    r2538 = (r1736 + 1);
    LOAD(uint8_t, r2739, r2538);
    r25589 = (uint16_t)((uint32_t)r15_i4_lhs_trunc % (uint32_t)100u);
    v3 = (uint16_t)((uint32_t)r25589 << 1);
    r1343 = (uint64_t)v3;
    r17 = ((bytes)&static_0 + (int64_t)r1343);
    LOAD(uint8_t, r1944, r17);
    r2545 = (r17 + 1);
    LOAD(uint8_t, r2746, r2545);
    r34 = a1 > UINT64_C(999);
    r951 = (a0 + (int64_t)r1433);
    STORE(uint8_t, r951, r1937);
    r152 = (uint64_t)r34;
    r1453 = (uint64_t)(r1433 + r152);
    r40 = a1 > UINT64_C(99);
    r956 = (a0 + (int64_t)r1453);
    STORE(uint8_t, r956, r2739);
    r157 = (uint64_t)r40;
    r1458 = (uint64_t)(r1453 + r157);
    r46 = a1 > UINT64_C(9);
    r961 = (a0 + (int64_t)r1458);
    STORE(uint8_t, r961, r1944);
    r162 = (uint64_t)r46;
    r1463 = (uint64_t)(r1458 + r162);
    r8 = (a0 + (int64_t)r1463);
    STORE(uint8_t, r8, r2746);
    r1165 = (uint64_t)(r1463 + UINT64_C(1));
    STORE(uint64_t, r5, r1165);
    goto at__common_ret;
    at__join_3:;
    r16 = (uint64_t)(a1 / UINT64_C(100000000));
    chrono_text_text_Text_push_natural_33(a0, r16);
    r19 = (uint64_t)(a1 % UINT64_C(100000000));
    r21 = (uint32_t)(r19);
    r23 = (uint32_t)(r21 / 10000u);
    r3_lhs_trunc = (uint16_t)(r23);
    r312 = (uint16_t)((uint32_t)r3_lhs_trunc / (uint32_t)100u);
    v4 = (uint16_t)((uint32_t)r312 << 1);
    r13_3 = (uint64_t)v4;
    r17_2 = ((bytes)&static_0 + (int64_t)r13_3);
    LOAD(uint8_t, r19_2, r17_2);
    r25 = (r17_2 + 1);
    LOAD(uint8_t, r27, r25);
    r4 = (a0 + 40);
    LOAD(uint64_t, r5_2, r4);
    r8_2 = (a0 + (int64_t)r5_2);
    STORE(uint8_t, r8_2, r19_2);
    r8_i4 = (r8_2 + 1);
    STORE(uint8_t, r8_i4, r27);
    r613 = (uint16_t)((uint32_t)r3_lhs_trunc % (uint32_t)100u);
    v5 = (uint16_t)((uint32_t)r613 << 1);
    r13_i_i2 = (uint64_t)v5;
    r17_i_i3 = ((bytes)&static_0 + (int64_t)r13_i_i2);
    LOAD(uint8_t, r19_i_i4, r17_i_i3);
    r25_i_i5 = (r17_i_i3 + 1);
    LOAD(uint8_t, r27_i_i6, r25_i_i5);
    r8_i_i9 = (r8_2 + 2);
    STORE(uint8_t, r8_i_i9, r19_i_i4);
    r8_i4_i10 = (r8_2 + 3);
    STORE(uint8_t, r8_i4_i10, r27_i_i6);
    r27_2 = (uint32_t)(r21 % 10000u);
    r3_lhs_trunc66 = (uint16_t)(r27_2);
    r31267 = (uint16_t)((uint32_t)r3_lhs_trunc66 / (uint32_t)100u);
    v6 = (uint16_t)((uint32_t)r31267 << 1);
    r1368 = (uint64_t)v6;
    r1769 = ((bytes)&static_0 + (int64_t)r1368);
    LOAD(uint8_t, r1970, r1769);
    r2571 = (r1769 + 1);
    LOAD(uint8_t, r2772, r2571);
    v7 = (a0 + (int64_t)r5_2);
    r875 = (v7 + 4);
    STORE(uint8_t, r875, r1970);
    r8_i476 = (v7 + 5);
    STORE(uint8_t, r8_i476, r2772);
    r61377 = (uint16_t)((uint32_t)r3_lhs_trunc66 % (uint32_t)100u);
    v8 = (uint16_t)((uint32_t)r61377 << 1);
    r13_i_i278 = (uint64_t)v8;
    r17_i_i379 = ((bytes)&static_0 + (int64_t)r13_i_i278);
    LOAD(uint8_t, r19_i_i480, r17_i_i379);
    r25_i_i581 = (r17_i_i379 + 1);
    LOAD(uint8_t, r27_i_i682, r25_i_i581);
    r8_i_i983 = (v7 + 6);
    STORE(uint8_t, r8_i_i983, r19_i_i480);
    r8_i4_i1084 = (v7 + 7);
    STORE(uint8_t, r8_i4_i1084, r27_i_i682);
    r11_i5_i1185 = (uint64_t)(r5_2 + UINT64_C(8));
    STORE(uint64_t, r4, r11_i5_i1185);
    goto at__common_ret;
}

static uint32_t in_calendar_write_time(uint32_t a0, uint32_t a1, bytes a2, uint64_t a3)
{
    uint32_t r26_i78_sink, common_ret_op, r29, r5, r4_2, v0, r18, r21, r12, r15, r21_2, r23, r26, r12_i44, r15_i59, r21_i62, r23_i63, r26_i78, r32;
    uint64_t r11_i5_i_i22_i77_sink, r4, r13, r5_2, r13_i_i2, r11_i15, v2, r13_i_i_i31_i87, r11_i5_i_i38_i94, r11_i5_i25, r13_2, r11_i5, r13_i_i_i15, r11_i5_i_i22, r11_i5_i38, r13_i_i_i_i51, r11_i5_i_i_i58, r13_i_i_i15_i70, r11_i5_i_i22_i77;
    bytes r6, r17, r25_2, r4_3, r8_2, r8_i4, r8_3, r17_i_i3, r25_i_i5, r8_i_i9, r8_i4_i10, r8_i14, v3, r8_i_i29_i85, r17_i_i_i32_i88, r25_i_i_i34_i90, r8_i_i_i36_i92, r8_i4_i_i37_i93, r17_i_i17, r25_i_i19, r8_i_i23, r8_i4_i24, r8_i_i28, r8_4, r17_2, r25_3, r8_5, r8_i4_2, r8_i_i13, r17_i_i_i16, r25_i_i_i18, r8_i_i_i20, r8_i4_i_i21, r25_i_i32, r8_i_i36, r8_i4_i37, r8_i_i43, r8_i_i_i49, r17_i_i_i_i52, r25_i_i_i_i54, r8_i_i_i_i56, r8_i4_i_i_i57, r8_i_i13_i68, r17_i_i_i16_i71, r25_i_i_i18_i73, r8_i_i_i20_i75, r8_i4_i_i21_i76;
    uint8_t r8, r14, or_cond, r25, r31_not, or_cond11, r19, r27, r19_i_i4, r27_i_i6, r143, r7_i25_i83, r9_i26_i84, r19_i_i_i33_i89, r27_i_i_i35_i91, r19_i_i18, r27_i_i20, r7, r7_2, r9, r19_2, r27_2, r17_3, r7_i9, r9_i10, r19_i_i_i17, r27_i_i_i19, r28, r19_i_i31, r27_i_i33, r7_i39, r7_i_i47, r9_i_i48, r19_i_i_i_i53, r27_i_i_i_i55, r17_i60, r7_i9_i66, r9_i10_i67, r19_i_i_i17_i72, r27_i_i_i19_i74, r28_i79, r16;
    uint16_t r7_i_i_lhs_trunc, r79, v1, r5_lhs_trunc_i23_i81, r52_i24_i82, r123_i30_i86, v4, r5_lhs_trunc, r52, r123, v5, r5_lhs_trunc_i7, r52_i8, r123_i14, v6, r5_lhs_trunc_i_i45, r52_i_i46, r123_i_i50, v7, r5_lhs_trunc_i7_i64, r52_i8_i65, r123_i14_i69, v8;
    uint64_t room_r6[4];
    r6 = (bytes)room_r6;
    r8 = a0 > 86399u;
    r14 = a1 > 1999999999u;
    or_cond = (uint8_t)(((uint32_t)r8 | (uint32_t)r14) & 1);
    if (or_cond) { { common_ret_op = 2147483648u; goto at__common_ret; } }
    goto at__numbers_c_time_numbers_time_of_exit;
    at__numbers_c_time_numbers_time_of_exit:;
    r25 = a1 < 1000000000u;
    r29 = (uint32_t)(a0 % 60u);
    r5 = (uint32_t)(a0 / 60u);
    r31_not = r29 == 59u;
    or_cond11 = (uint8_t)(((uint32_t)r25 | (uint32_t)r31_not) & 1);
    if (or_cond11) { goto at__arm_1; }
    { common_ret_op = 2147483648u; goto at__common_ret; }
    at__arm_1:;
    memset(r6, 0, UINT64_C(32));
    r4_2 = (uint32_t)(a0 / 3600u);
    r7_i_i_lhs_trunc = (uint16_t)(r5);
    r79 = (uint16_t)((uint32_t)r7_i_i_lhs_trunc % (uint32_t)60u);
    v0 = (uint32_t)(r4_2 << 1);
    r13 = (uint64_t)v0;
    r17 = ((bytes)&static_0 + (int64_t)r13);
    LOAD(uint8_t, r19, r17);
    r25_2 = (r17 + 1);
    LOAD(uint8_t, r27, r25_2);
    r4_3 = (r6 + 24);
    LOAD(uint64_t, r5_2, r4_3);
    r8_2 = (r6 + (int64_t)r5_2);
    STORE(uint8_t, r8_2, r19);
    r8_i4 = (r8_2 + 1);
    STORE(uint8_t, r8_i4, r27);
    r8_3 = (r8_2 + 2);
    STORE(uint8_t, r8_3, 58u);
    v1 = (uint16_t)((uint32_t)r79 << 1);
    r13_i_i2 = (uint64_t)v1;
    r17_i_i3 = ((bytes)&static_0 + (int64_t)r13_i_i2);
    LOAD(uint8_t, r19_i_i4, r17_i_i3);
    r25_i_i5 = (r17_i_i3 + 1);
    LOAD(uint8_t, r27_i_i6, r25_i_i5);
    r8_i_i9 = (r8_2 + 3);
    STORE(uint8_t, r8_i_i9, r19_i_i4);
    r8_i4_i10 = (r8_2 + 4);
    STORE(uint8_t, r8_i4_i10, r27_i_i6);
    r8_i14 = (r8_2 + 5);
    STORE(uint8_t, r8_i14, 58u);
    r11_i15 = (uint64_t)(r5_2 + UINT64_C(6));
    r143 = a1 > 999999999u;
    r18 = (uint32_t)(r29 << 1);
    v2 = (uint64_t)r18;
    v3 = ((bytes)&static_0 + (int64_t)v2);
    if (r143) { goto at__then_1; }
    goto at__join_3;
    at__common_ret_sink_split:;
    r5_lhs_trunc_i23_i81 = (uint16_t)(r26_i78_sink);
    r52_i24_i82 = (uint16_t)((uint32_t)r5_lhs_trunc_i23_i81 / (uint32_t)100u);
    r7_i25_i83 = (uint8_t)(r52_i24_i82);
    r9_i26_i84 = (uint8_t)((uint32_t)r7_i25_i83 | (uint32_t)48u);
    r8_i_i29_i85 = (r6 + (int64_t)r11_i5_i_i22_i77_sink);
    STORE(uint8_t, r8_i_i29_i85, r9_i26_i84);
    r123_i30_i86 = (uint16_t)((uint32_t)r5_lhs_trunc_i23_i81 % (uint32_t)100u);
    v4 = (uint16_t)((uint32_t)r123_i30_i86 << 1);
    r13_i_i_i31_i87 = (uint64_t)v4;
    r17_i_i_i32_i88 = ((bytes)&static_0 + (int64_t)r13_i_i_i31_i87);
    LOAD(uint8_t, r19_i_i_i33_i89, r17_i_i_i32_i88);
    r25_i_i_i34_i90 = (r17_i_i_i32_i88 + 1);
    LOAD(uint8_t, r27_i_i_i35_i91, r25_i_i_i34_i90);
    r8_i_i_i36_i92 = (r8_i_i29_i85 + 1);
    STORE(uint8_t, r8_i_i_i36_i92, r19_i_i_i33_i89);
    r8_i4_i_i37_i93 = (r8_i_i29_i85 + 2);
    STORE(uint8_t, r8_i4_i_i37_i93, r27_i_i_i35_i91);
    r11_i5_i_i38_i94 = (uint64_t)(r5_2 + UINT64_C(18));
    STORE(uint64_t, r4_3, r11_i5_i_i38_i94);
    {
    r4 = r11_i5_i_i38_i94;
    goto at__chrono_clock_naive_time_NaiveTime_put_into_18_exit;
    }
    at__then_1:;
    r17_i_i17 = (v3 + 2);
    LOAD(uint8_t, r19_i_i18, r17_i_i17);
    r25_i_i19 = (v3 + 3);
    LOAD(uint8_t, r27_i_i20, r25_i_i19);
    r8_i_i23 = (r6 + (int64_t)r11_i15);
    STORE(uint8_t, r8_i_i23, r19_i_i18);
    r8_i4_i24 = (r8_i_i23 + 1);
    STORE(uint8_t, r8_i4_i24, r27_i_i20);
    r11_i5_i25 = (uint64_t)(r5_2 + UINT64_C(8));
    STORE(uint64_t, r4_3, r11_i5_i25);
    r21 = (uint32_t)(a1 + 3294967296u);
    r7 = r21 == 0;
    if (r7) { { r4 = r11_i5_i25; goto at__chrono_clock_naive_time_NaiveTime_put_into_18_exit; } }
    goto at__join_3_2;
    at__join_3_2:;
    r8_i_i28 = (r6 + (int64_t)r11_i5_i25);
    STORE(uint8_t, r8_i_i28, 46u);
    r12 = (uint32_t)(r21 / 1000000u);
    r5_lhs_trunc = (uint16_t)(r12);
    r52 = (uint16_t)((uint32_t)r5_lhs_trunc / (uint32_t)100u);
    r7_2 = (uint8_t)(r52);
    r9 = (uint8_t)((uint32_t)r7_2 + (uint32_t)48u);
    r8_4 = (r8_i_i28 + 1);
    STORE(uint8_t, r8_4, r9);
    r123 = (uint16_t)((uint32_t)r5_lhs_trunc % (uint32_t)100u);
    v5 = (uint16_t)((uint32_t)r123 << 1);
    r13_2 = (uint64_t)v5;
    r17_2 = ((bytes)&static_0 + (int64_t)r13_2);
    LOAD(uint8_t, r19_2, r17_2);
    r25_3 = (r17_2 + 1);
    LOAD(uint8_t, r27_2, r25_3);
    r8_5 = (r8_i_i28 + 2);
    STORE(uint8_t, r8_5, r19_2);
    r8_i4_2 = (r8_i_i28 + 3);
    STORE(uint8_t, r8_i4_2, r27_2);
    r11_i5 = (uint64_t)(r5_2 + UINT64_C(12));
    STORE(uint64_t, r4_3, r11_i5);
    r15 = (uint32_t)(r21 % 1000000u);
    r17_3 = r15 == 0;
    if (r17_3) { { r4 = r11_i5; goto at__chrono_clock_naive_time_NaiveTime_put_into_18_exit; } }
    goto at__join_6;
    at__join_6:;
    r21_2 = (uint32_t)(r21 / 1000u);
    r23 = (uint32_t)(r21_2 % 1000u);
    r5_lhs_trunc_i7 = (uint16_t)(r23);
    r52_i8 = (uint16_t)((uint32_t)r5_lhs_trunc_i7 / (uint32_t)100u);
    r7_i9 = (uint8_t)(r52_i8);
    r9_i10 = (uint8_t)((uint32_t)r7_i9 | (uint32_t)48u);
    r8_i_i13 = (r6 + (int64_t)r11_i5);
    STORE(uint8_t, r8_i_i13, r9_i10);
    r123_i14 = (uint16_t)((uint32_t)r5_lhs_trunc_i7 % (uint32_t)100u);
    v6 = (uint16_t)((uint32_t)r123_i14 << 1);
    r13_i_i_i15 = (uint64_t)v6;
    r17_i_i_i16 = ((bytes)&static_0 + (int64_t)r13_i_i_i15);
    LOAD(uint8_t, r19_i_i_i17, r17_i_i_i16);
    r25_i_i_i18 = (r17_i_i_i16 + 1);
    LOAD(uint8_t, r27_i_i_i19, r25_i_i_i18);
    r8_i_i_i20 = (r8_i_i13 + 1);
    STORE(uint8_t, r8_i_i_i20, r19_i_i_i17);
    r8_i4_i_i21 = (r8_i_i13 + 2);
    STORE(uint8_t, r8_i4_i_i21, r27_i_i_i19);
    r11_i5_i_i22 = (uint64_t)(r5_2 + UINT64_C(15));
    STORE(uint64_t, r4_3, r11_i5_i_i22);
    r26 = (uint32_t)(r21 % 1000u);
    r28 = r26 == 0;
    if (r28) { { r4 = r11_i5_i_i22; goto at__chrono_clock_naive_time_NaiveTime_put_into_18_exit; } }
    { r26_i78_sink = r26; r11_i5_i_i22_i77_sink = r11_i5_i_i22; goto at__common_ret_sink_split; }
    at__join_3:;
    LOAD(uint8_t, r19_i_i31, v3);
    r25_i_i32 = (v3 + 1);
    LOAD(uint8_t, r27_i_i33, r25_i_i32);
    r8_i_i36 = (r6 + (int64_t)r11_i15);
    STORE(uint8_t, r8_i_i36, r19_i_i31);
    r8_i4_i37 = (r8_i_i36 + 1);
    STORE(uint8_t, r8_i4_i37, r27_i_i33);
    r11_i5_i38 = (uint64_t)(r5_2 + UINT64_C(8));
    STORE(uint64_t, r4_3, r11_i5_i38);
    r7_i39 = a1 == 0;
    if (r7_i39) { { r4 = r11_i5_i38; goto at__chrono_clock_naive_time_NaiveTime_put_into_18_exit; } }
    goto at__join_3_i40;
    at__join_3_i40:;
    r8_i_i43 = (r6 + (int64_t)r11_i5_i38);
    STORE(uint8_t, r8_i_i43, 46u);
    r12_i44 = (uint32_t)(a1 / 1000000u);
    r5_lhs_trunc_i_i45 = (uint16_t)(r12_i44);
    r52_i_i46 = (uint16_t)((uint32_t)r5_lhs_trunc_i_i45 / (uint32_t)100u);
    r7_i_i47 = (uint8_t)(r52_i_i46);
    r9_i_i48 = (uint8_t)((uint32_t)r7_i_i47 + (uint32_t)48u);
    r8_i_i_i49 = (r8_i_i43 + 1);
    STORE(uint8_t, r8_i_i_i49, r9_i_i48);
    r123_i_i50 = (uint16_t)((uint32_t)r5_lhs_trunc_i_i45 % (uint32_t)100u);
    v7 = (uint16_t)((uint32_t)r123_i_i50 << 1);
    r13_i_i_i_i51 = (uint64_t)v7;
    r17_i_i_i_i52 = ((bytes)&static_0 + (int64_t)r13_i_i_i_i51);
    LOAD(uint8_t, r19_i_i_i_i53, r17_i_i_i_i52);
    r25_i_i_i_i54 = (r17_i_i_i_i52 + 1);
    LOAD(uint8_t, r27_i_i_i_i55, r25_i_i_i_i54);
    r8_i_i_i_i56 = (r8_i_i43 + 2);
    STORE(uint8_t, r8_i_i_i_i56, r19_i_i_i_i53);
    r8_i4_i_i_i57 = (r8_i_i43 + 3);
    STORE(uint8_t, r8_i4_i_i_i57, r27_i_i_i_i55);
    r11_i5_i_i_i58 = (uint64_t)(r5_2 + UINT64_C(12));
    STORE(uint64_t, r4_3, r11_i5_i_i_i58);
    r15_i59 = (uint32_t)(a1 % 1000000u);
    r17_i60 = r15_i59 == 0;
    if (r17_i60) { { r4 = r11_i5_i_i_i58; goto at__chrono_clock_naive_time_NaiveTime_put_into_18_exit; } }
    goto at__join_6_i61;
    at__join_6_i61:;
    r21_i62 = (uint32_t)(a1 / 1000u);
    r23_i63 = (uint32_t)(r21_i62 % 1000u);
    r5_lhs_trunc_i7_i64 = (uint16_t)(r23_i63);
    r52_i8_i65 = (uint16_t)((uint32_t)r5_lhs_trunc_i7_i64 / (uint32_t)100u);
    r7_i9_i66 = (uint8_t)(r52_i8_i65);
    r9_i10_i67 = (uint8_t)((uint32_t)r7_i9_i66 | (uint32_t)48u);
    r8_i_i13_i68 = (r6 + (int64_t)r11_i5_i_i_i58);
    STORE(uint8_t, r8_i_i13_i68, r9_i10_i67);
    r123_i14_i69 = (uint16_t)((uint32_t)r5_lhs_trunc_i7_i64 % (uint32_t)100u);
    v8 = (uint16_t)((uint32_t)r123_i14_i69 << 1);
    r13_i_i_i15_i70 = (uint64_t)v8;
    r17_i_i_i16_i71 = ((bytes)&static_0 + (int64_t)r13_i_i_i15_i70);
    LOAD(uint8_t, r19_i_i_i17_i72, r17_i_i_i16_i71);
    r25_i_i_i18_i73 = (r17_i_i_i16_i71 + 1);
    LOAD(uint8_t, r27_i_i_i19_i74, r25_i_i_i18_i73);
    r8_i_i_i20_i75 = (r8_i_i13_i68 + 1);
    STORE(uint8_t, r8_i_i_i20_i75, r19_i_i_i17_i72);
    r8_i4_i_i21_i76 = (r8_i_i13_i68 + 2);
    STORE(uint8_t, r8_i4_i_i21_i76, r27_i_i_i19_i74);
    r11_i5_i_i22_i77 = (uint64_t)(r5_2 + UINT64_C(15));
    STORE(uint64_t, r4_3, r11_i5_i_i22_i77);
    r26_i78 = (uint32_t)(a1 % 1000u);
    r28_i79 = r26_i78 == 0;
    if (r28_i79) { { r4 = r11_i5_i_i22_i77; goto at__chrono_clock_naive_time_NaiveTime_put_into_18_exit; } }
    { r26_i78_sink = r26_i78; r11_i5_i_i22_i77_sink = r11_i5_i_i22_i77; goto at__common_ret_sink_split; }
    at__chrono_clock_naive_time_NaiveTime_put_into_18_exit:;
    r16 = a3 < r4;
    if (r16) { { common_ret_op = 2147483648u; goto at__common_ret; } }
    goto at__join_3_3;
    at__join_3_3:;
    memcpy(a2, r6, r4);
    r32 = (uint32_t)(r4);
    {
    common_ret_op = r32;
    goto at__common_ret;
    }
    at__common_ret:;
    return common_ret_op;
}

static uint32_t in_calendar_year(uint32_t a0)
{
    uint32_t r3_0, v0, r5, r11, r13, r3, r71_i2, r10, r12, r6;
    uint8_t or_cond;
    uint64_t r6_2, r8, r10_i4;
    v0 = (uint32_t)(a0 + 95746129u);
    or_cond = v0 < 191491529u;
    if (or_cond) { goto at__arm_1; }
    { r3_0 = 2147483648u; goto at__join_4; }
    at__arm_1:;
    r5 = (uint32_t)(a0 << 2);
    r11 = (uint32_t)(r5 + 383358527u);
    r13 = (uint32_t)(r11 / 146097u);
    r3 = (uint32_t)(r13 * 3);
    r71_i2 = (uint32_t)(r3 + r11);
    r10 = (uint32_t)(r71_i2 | 3);
    r6_2 = (uint64_t)r10;
    r8 = (uint64_t)(r6_2 * UINT64_C(376287347));
    r10_i4 = (uint64_t)(r8 >> (UINT64_C(39) & 63u));
    r12 = (uint32_t)(r10_i4);
    r6 = (uint32_t)(r12 + 4294704897u);
    {
    r3_0 = r6;
    goto at__join_4;
    }
    at__join_4:;
    return r3_0;
}

static uint32_t in_calendar_years_since(uint32_t a0, uint32_t a1)
{
    uint32_t common_ret_op, v0, v1, r17, r11, r13, r3, r71_i2, r10, r12, r29, r6_2, r8_2, r16, r10_sroa_0_0_v, r17_i_i1, r11_i_i_i2, r13_i_i_i3, r3_i_i_i_i_i4, r71_i2_i_i_i_i5, r10_i_i_i_i6, r12_i_i_i_i10, r29_i_i_i14, r6_i_i_i15, r8_i_i_i16, r16_i_i_i21, r10_sroa_0_0_v_i_i24_neg1, v2, v3, v4, r29_2, r32, v5, v6, v7, r34, r37, r1_i_neg3, r10_sroa_0_0_i_i25_neg, r10_sroa_0_0, neg, r50, r50_2, r8_0;
    uint8_t or_cond, or_cond3, or_cond_2, r35, r35_i_i22, r40, r52;
    uint64_t r6, r8, r10_i4, r17_2, r25, r27, r6_i_i_i_i7, r8_i_i_i_i8, r10_i4_i_i_i9, r17_i_i_i_i11, r25_i_i_i12, r27_i_i_i13;
    uint16_t r14_lhs_trunc, r144, narrow, r14_lhs_trunc_i_i_i18, r144_i_i_i19, narrow_i_i_i20;
    v0 = (uint32_t)(a0 + 95746129u);
    or_cond = v0 < 191491529u;
    v1 = (uint32_t)(a1 + 95746129u);
    or_cond3 = v1 < 191491529u;
    or_cond_2 = (uint8_t)(((uint32_t)or_cond & (uint32_t)or_cond3) & 1);
    if (or_cond_2) { goto at__arm_5; }
    { common_ret_op = 2147483648u; goto at__common_ret; }
    at__common_ret:;
    return common_ret_op;
    at__arm_5:;
    r17 = (uint32_t)(a0 << 2);
    r11 = (uint32_t)(r17 + 383359751u);
    r13 = (uint32_t)(r11 / 146097u);
    r3 = (uint32_t)(r13 * 3);
    r71_i2 = (uint32_t)(r3 + r11);
    r10 = (uint32_t)(r71_i2 | 3);
    r6 = (uint64_t)r10;
    r8 = (uint64_t)(r6 * UINT64_C(376287347));
    r10_i4 = (uint64_t)(r8 >> (UINT64_C(39) & 63u));
    r12 = (uint32_t)(r10_i4);
    r17_2 = (uint64_t)(r8 & UINT64_C(549755813885));
    r25 = (uint64_t)(r17_2 * UINT64_C(1461));
    r27 = (uint64_t)(r25 >> (UINT64_C(41) & 63u));
    r29 = (uint32_t)(r27);
    r6_2 = (uint32_t)(r29 * 2141u);
    r8_2 = (uint32_t)(r6_2 + 197913u);
    r14_lhs_trunc = (uint16_t)(r8_2);
    r144 = (uint16_t)((uint32_t)r14_lhs_trunc / (uint32_t)2141u);
    narrow = (uint16_t)((uint32_t)r144 + (uint32_t)1);
    r16 = (uint32_t)narrow;
    r35 = r17_2 < UINT64_C(460575712662);
    r10_sroa_0_0_v = r35 ? 4294704896u : 4294704897u;
    r17_i_i1 = (uint32_t)(a1 << 2);
    r11_i_i_i2 = (uint32_t)(r17_i_i1 + 383359751u);
    r13_i_i_i3 = (uint32_t)(r11_i_i_i2 / 146097u);
    r3_i_i_i_i_i4 = (uint32_t)(r13_i_i_i3 * 3);
    r71_i2_i_i_i_i5 = (uint32_t)(r3_i_i_i_i_i4 + r11_i_i_i2);
    r10_i_i_i_i6 = (uint32_t)(r71_i2_i_i_i_i5 | 3);
    r6_i_i_i_i7 = (uint64_t)r10_i_i_i_i6;
    r8_i_i_i_i8 = (uint64_t)(r6_i_i_i_i7 * UINT64_C(376287347));
    r10_i4_i_i_i9 = (uint64_t)(r8_i_i_i_i8 >> (UINT64_C(39) & 63u));
    r12_i_i_i_i10 = (uint32_t)(r10_i4_i_i_i9);
    r17_i_i_i_i11 = (uint64_t)(r8_i_i_i_i8 & UINT64_C(549755813885));
    r25_i_i_i12 = (uint64_t)(r17_i_i_i_i11 * UINT64_C(1461));
    r27_i_i_i13 = (uint64_t)(r25_i_i_i12 >> (UINT64_C(41) & 63u));
    r29_i_i_i14 = (uint32_t)(r27_i_i_i13);
    r6_i_i_i15 = (uint32_t)(r29_i_i_i14 * 2141u);
    r8_i_i_i16 = (uint32_t)(r6_i_i_i15 + 197913u);
    r14_lhs_trunc_i_i_i18 = (uint16_t)(r8_i_i_i16);
    r144_i_i_i19 = (uint16_t)((uint32_t)r14_lhs_trunc_i_i_i18 / (uint32_t)2141u);
    narrow_i_i_i20 = (uint16_t)((uint32_t)r144_i_i_i19 + (uint32_t)1);
    r16_i_i_i21 = (uint32_t)narrow_i_i_i20;
    r35_i_i22 = r17_i_i_i_i11 < UINT64_C(460575712662);
    r10_sroa_0_0_v_i_i24_neg1 = r35_i_i22 ? 262400u : 262399u;
    v2 = (uint32_t)(r8_2 >> 11u);
    v3 = (uint32_t)(v2 & 1048544u);
    v4 = (uint32_t)(v3 + 4294966912u);
    r29_2 = r35 ? v3 : v4;
    r32 = (uint32_t)(r29_2 + r16);
    v5 = (uint32_t)(r8_i_i_i16 >> 11u);
    v6 = (uint32_t)(v5 & 1048544u);
    v7 = (uint32_t)(v6 + 4294966912u);
    r34 = r35_i_i22 ? v6 : v7;
    r37 = (uint32_t)(r34 + r16_i_i_i21);
    r40 = r32 < r37;
    r1_i_neg3 = (uint32_t)((uint32_t)SIGNED(r40, 1));
    r10_sroa_0_0_i_i25_neg = (uint32_t)(r10_sroa_0_0_v + r12);
    r10_sroa_0_0 = (uint32_t)(r10_sroa_0_0_i_i25_neg - r12_i_i_i_i10);
    neg = (uint32_t)(r10_sroa_0_0 + r10_sroa_0_0_v_i_i24_neg1);
    r50 = (uint32_t)(neg + r1_i_neg3);
    r52 = (int32_t)r50 > (int32_t)4294967295u;
    r50_2 = (uint32_t)GREATER32((int32_t)r50, (int32_t)0);
    r8_0 = r52 ? r50_2 : 2147483648u;
    {
    common_ret_op = r8_0;
    goto at__common_ret;
    }
}

static t_struct_i64_i32_end in_calendar_date_time_since(uint64_t a0, uint32_t a1, uint64_t a2, uint32_t a3)
{
    uint64_t r7_sroa_0_0, v0, r30, r36, r45, v1, r30_i3, r36_i4, r45_i9, r17, r8, r27, r27_i8_i_i_neg92, r7, r30_i9_i_i_neg, r31_i_i_neg, r36_2, r9, r30_2, r14_i_i_i33, r9_2, r12_2, r25_2, r9_sroa_0_0;
    uint32_t r7_sroa_4_0, r47, r29, r47_i10, r29_i_i_i12, r42, r47_2, r5, r10, r17_neg, r20_2, r28, r9_sroa_4_0, r20_i_lobit;
    uint8_t or_cond, r14, r25, r31_not, or_cond11_i_not, or_cond_i1, or_cond_2, r14_i_i_i7, r25_i_i_i11, r31_not_i_i_i13, or_cond11_i_not_i_i14, r20, spec_select, r20_i6, spec_select_i7, r72, r12, r18, r20_3;
    t_struct_i64_i32_end r18_fca_0_insert, r18_fca_1_insert;
    v0 = (uint64_t)(a0 + UINT64_C(18446735863442674816));
    or_cond = v0 < UINT64_C(18446727528841446016);
    if (or_cond) { { r7_sroa_0_0 = UINT64_C(0); r7_sroa_4_0 = 4294967295u; goto at__numbers_c_date_time_numbers_duration_or_none_exit; } }
    goto at__after_1;
    at__after_1:;
    r30 = (uint64_t)(a0 + UINT64_C(8334601228800));
    r36 = (uint64_t)(r30 / UINT64_C(86400));
    r45 = (uint64_t)(r30 % UINT64_C(86400));
    r14 = a1 > 1999999999u;
    if (r14) { { r7_sroa_0_0 = UINT64_C(0); r7_sroa_4_0 = 4294967295u; goto at__numbers_c_date_time_numbers_duration_or_none_exit; } }
    goto at__after_1_2;
    at__after_1_2:;
    r47 = (uint32_t)(r45);
    r25 = a1 > 999999999u;
    r29 = (uint32_t)(r47 % 60u);
    r31_not = r29 != 59u;
    or_cond11_i_not = (uint8_t)(((uint32_t)r25 & (uint32_t)r31_not) & 1);
    v1 = (uint64_t)(a2 + UINT64_C(18446735863442674816));
    or_cond_i1 = v1 < UINT64_C(18446727528841446016);
    or_cond_2 = (uint8_t)(((uint32_t)or_cond_i1 | (uint32_t)or_cond11_i_not) & 1);
    if (or_cond_2) { { r7_sroa_0_0 = UINT64_C(0); r7_sroa_4_0 = 4294967295u; goto at__numbers_c_date_time_numbers_duration_or_none_exit; } }
    goto at__after_1_i2;
    at__after_1_i2:;
    r30_i3 = (uint64_t)(a2 + UINT64_C(8334601228800));
    r36_i4 = (uint64_t)(r30_i3 / UINT64_C(86400));
    r45_i9 = (uint64_t)(r30_i3 % UINT64_C(86400));
    r14_i_i_i7 = a3 > 1999999999u;
    if (r14_i_i_i7) { { r7_sroa_0_0 = UINT64_C(0); r7_sroa_4_0 = 4294967295u; goto at__numbers_c_date_time_numbers_duration_or_none_exit; } }
    goto at__after_1_i_i_i8;
    at__after_1_i_i_i8:;
    r47_i10 = (uint32_t)(r45_i9);
    r25_i_i_i11 = a3 > 999999999u;
    r29_i_i_i12 = (uint32_t)(r47_i10 % 60u);
    r31_not_i_i_i13 = r29_i_i_i12 != 59u;
    or_cond11_i_not_i_i14 = (uint8_t)(((uint32_t)r25_i_i_i11 & (uint32_t)r31_not_i_i_i13) & 1);
    if (or_cond11_i_not_i_i14) { { r7_sroa_0_0 = UINT64_C(0); r7_sroa_4_0 = 4294967295u; goto at__numbers_c_date_time_numbers_duration_or_none_exit; } }
    goto at__arm_11;
    at__arm_11:;
    r17 = (uint64_t)(r36 - r36_i4);
    r8 = (uint64_t)(r17 * UINT64_C(86400));
    r20 = r45_i9 < r45;
    spec_select = (uint8_t)(((uint32_t)r25_i_i_i11 & (uint32_t)r20) & 1);
    r27 = (uint64_t)spec_select;
    r20_i6 = r45 < r45_i9;
    spec_select_i7 = (uint8_t)(((uint32_t)r25 & (uint32_t)r20_i6) & 1);
    r27_i8_i_i_neg92 = (uint64_t)((uint64_t)SIGNED(spec_select_i7, 1));
    r42 = (uint32_t)(a1 + 2000000000u);
    r47_2 = (uint32_t)(r42 - a3);
    r5 = (uint32_t)(r47_2 / 1000000000u);
    r7 = (uint64_t)r5;
    r10 = (uint32_t)(r47_2 % 1000000000u);
    r30_i9_i_i_neg = (uint64_t)(r45 + UINT64_C(18446744073709551614));
    r31_i_i_neg = (uint64_t)(r30_i9_i_i_neg - r45_i9);
    r36_2 = (uint64_t)(r31_i_i_neg + r7);
    r9 = (uint64_t)(r36_2 + r8);
    r30_2 = (uint64_t)(r9 + r27);
    r14_i_i_i33 = (uint64_t)(r30_2 + r27_i8_i_i_neg92);
    r72 = (int64_t)r14_i_i_i33 < (int64_t)UINT64_C(0);
    r12 = r10 != 0;
    r18 = (uint8_t)(((uint32_t)r12 & (uint32_t)r72) & 1);
    r9_2 = (uint64_t)r18;
    r12_2 = (uint64_t)(r14_i_i_i33 + r9_2);
    r17_neg = r18 ? 3294967296u : 0;
    r20_2 = (uint32_t)(r17_neg + r10);
    r20_3 = (int32_t)r20_2 < (int32_t)0;
    r28 = (uint32_t)(r20_2 + 1000000000u);
    r9_sroa_4_0 = r20_3 ? r28 : r20_2;
    r20_i_lobit = (uint32_t)((int32_t)r20_2 >> 31u);
    r25_2 = (uint64_t)((uint64_t)(int32_t)r20_i_lobit);
    r9_sroa_0_0 = (uint64_t)(r12_2 + r25_2);
    {
    r7_sroa_0_0 = r9_sroa_0_0;
    r7_sroa_4_0 = r9_sroa_4_0;
    goto at__numbers_c_date_time_numbers_duration_or_none_exit;
    }
    at__numbers_c_date_time_numbers_duration_or_none_exit:;
    r18_fca_0_insert = (t_struct_i64_i32_end){0};
    r18_fca_0_insert.f0 = r7_sroa_0_0;
    r18_fca_1_insert = r18_fca_0_insert;
    r18_fca_1_insert.f1 = r7_sroa_4_0;
    return r18_fca_1_insert;
}

static t_struct_i64_i32_end in_calendar_date_time_add(uint64_t a0, uint32_t a1, uint64_t a2, uint32_t a3)
{
    uint64_t r4_sroa_0_0_i_i_in, r4_sroa_6_0, r7_sroa_0_0, v0, r30_3, r36, r45, v1, r22, r27, r13, r15_i_i_i_i10, r14_2, r19, r27_2, r30_2, r14_i3, r19_i4, r27_i6, r30_i7, r13_i_i8, r23_2, r15_i_i11, r14_3, r19_i2, r27_3, r30, r40, sext, r1, r6, v2, r4, sext_2, r1_2, r39, r42;
    uint32_t r4_sroa_4_0, r7_sroa_4_0, r47, r29, r31, r36_2, r17_neg, r19_2, r23, r30_4, r17_neg_i_i9, r19_i_i10, r5_sroa_4_0, v3;
    uint8_t or_cond, r14, r25, r31_not, or_cond11_i_not, r2, or_cond_2, r7, spec_select, r15, r7_i_i_i_i9, r9_not, r17, r7_i_i7, r11, or_cond_3, not_not_i_i_not_not;
    t_struct_i64_i32_end r15_fca_0_insert, r15_fca_1_insert;
    v0 = (uint64_t)(a0 + UINT64_C(18446735863442674816));
    or_cond = v0 < UINT64_C(18446727528841446016);
    if (or_cond) { { r7_sroa_0_0 = UINT64_C(0); r7_sroa_4_0 = 4294967295u; goto at__numbers_c_date_time_numbers_numbers_or_none_exit; } }
    goto at__after_1;
    at__after_1:;
    r30_3 = (uint64_t)(a0 + UINT64_C(8334601228800));
    r36 = (uint64_t)(r30_3 / UINT64_C(86400));
    r45 = (uint64_t)(r30_3 % UINT64_C(86400));
    r14 = a1 > 1999999999u;
    if (r14) { { r7_sroa_0_0 = UINT64_C(0); r7_sroa_4_0 = 4294967295u; goto at__numbers_c_date_time_numbers_numbers_or_none_exit; } }
    goto at__after_1_2;
    at__after_1_2:;
    r47 = (uint32_t)(r45);
    r25 = a1 > 999999999u;
    r29 = (uint32_t)(r47 % 60u);
    r31_not = r29 != 59u;
    or_cond11_i_not = (uint8_t)(((uint32_t)r25 & (uint32_t)r31_not) & 1);
    r2 = a3 > 999999999u;
    or_cond_2 = (uint8_t)(((uint32_t)r2 | (uint32_t)or_cond11_i_not) & 1);
    if (or_cond_2) { { r7_sroa_0_0 = UINT64_C(0); r7_sroa_4_0 = 4294967295u; goto at__numbers_c_date_time_numbers_numbers_or_none_exit; } }
    goto at__join_3;
    at__join_3:;
    switch (a2) {
    case UINT64_C(18437520701672696840): goto at__then_1;
    case UINT64_C(9223372036854775): goto at__numbers_c_date_time_numbers_duration_of_exit_i;
    default: goto at__join_6;
    }
    at__then_1:;
    r7 = a3 > 192999999u;
    if (r7) { goto at__arm_5; }
    { r7_sroa_0_0 = UINT64_C(0); r7_sroa_4_0 = 4294967295u; goto at__numbers_c_date_time_numbers_numbers_or_none_exit; }
    at__join_6:;
    v1 = (uint64_t)(a2 + UINT64_C(9223372036854775));
    spec_select = v1 < UINT64_C(18446744073709550);
    if (spec_select) { goto at__arm_5; }
    { r7_sroa_0_0 = UINT64_C(0); r7_sroa_4_0 = 4294967295u; goto at__numbers_c_date_time_numbers_numbers_or_none_exit; }
    at__numbers_c_date_time_numbers_duration_of_exit_i:;
    r15 = a3 < 807000001u;
    if (r15) { goto at__arm_5; }
    { r7_sroa_0_0 = UINT64_C(0); r7_sroa_4_0 = 4294967295u; goto at__numbers_c_date_time_numbers_numbers_or_none_exit; }
    at__arm_5:;
    if (r25) { goto at__then_1_2; }
    goto at__else_2;
    at__then_1_2:;
    r22 = (uint64_t)(r45 + UINT64_C(1));
    r27 = (uint64_t)(r22 + a2);
    r31 = (uint32_t)(a3 + a1);
    r36_2 = (uint32_t)(r31 + 3294967296u);
    r7_i_i_i_i9 = r36_2 > 999999999u;
    r13 = (uint64_t)r7_i_i_i_i9;
    r15_i_i_i_i10 = (uint64_t)(r27 + r13);
    r17_neg = r7_i_i_i_i9 ? 3294967296u : 0;
    r19_2 = (uint32_t)(r17_neg + r36_2);
    r9_not = (int64_t)r15_i_i_i_i10 > (int64_t)r45;
    if (r9_not) { goto at__join_3_2; }
    goto at__then_1_i_i_i_i11;
    at__then_1_i_i_i_i11:;
    r14_2 = (uint64_t)(r15_i_i_i_i10 + UINT64_C(43200000000000000));
    r19 = (uint64_t)(r14_2 % UINT64_C(86400));
    r27_2 = (uint64_t)(r14_2 / UINT64_C(86400));
    r30_2 = (uint64_t)(r27_2 + UINT64_C(18446743573709551616));
    {
    r4_sroa_0_0_i_i_in = r19;
    r4_sroa_4_0 = r19_2;
    r4_sroa_6_0 = r30_2;
    goto at__calendar_c_date_times_moved_exit;
    }
    at__join_3_2:;
    r17 = r22 < r15_i_i_i_i10;
    if (r17) { goto at__then_4_i_i_i_i13; }
    goto at__join_6_i_i_i_i12;
    at__then_4_i_i_i_i13:;
    r14_i3 = (uint64_t)(r15_i_i_i_i10 + UINT64_C(43199999999999999));
    r19_i4 = (uint64_t)(r14_i3 % UINT64_C(86400));
    r27_i6 = (uint64_t)(r14_i3 / UINT64_C(86400));
    r30_i7 = (uint64_t)(r27_i6 + UINT64_C(18446743573709551616));
    {
    r4_sroa_0_0_i_i_in = r19_i4;
    r4_sroa_4_0 = r19_2;
    r4_sroa_6_0 = r30_i7;
    goto at__calendar_c_date_times_moved_exit;
    }
    at__join_6_i_i_i_i12:;
    r23 = (uint32_t)(r17_neg + r31);
    {
    r4_sroa_0_0_i_i_in = r45;
    r4_sroa_4_0 = r23;
    r4_sroa_6_0 = UINT64_C(0);
    goto at__calendar_c_date_times_moved_exit;
    }
    at__else_2:;
    r30_4 = (uint32_t)(a3 + a1);
    r7_i_i7 = r30_4 > 999999999u;
    r13_i_i8 = (uint64_t)r7_i_i7;
    r17_neg_i_i9 = r7_i_i7 ? 3294967296u : 0;
    r19_i_i10 = (uint32_t)(r17_neg_i_i9 + r30_4);
    r23_2 = (uint64_t)(r45 | UINT64_C(43200000000000000));
    r15_i_i11 = (uint64_t)(r23_2 + a2);
    r14_3 = (uint64_t)(r15_i_i11 + r13_i_i8);
    r19_i2 = (uint64_t)(r14_3 % UINT64_C(86400));
    r27_3 = (uint64_t)(r14_3 / UINT64_C(86400));
    r30 = (uint64_t)(r27_3 + UINT64_C(18446743573709551616));
    {
    r4_sroa_0_0_i_i_in = r19_i2;
    r4_sroa_4_0 = r19_i_i10;
    r4_sroa_6_0 = r30;
    goto at__calendar_c_date_times_moved_exit;
    }
    at__calendar_c_date_times_moved_exit:;
    r40 = (uint64_t)(r36 << (UINT64_C(32) & 63u));
    sext = (uint64_t)(r40 + UINT64_C(18035517580935954432));
    r1 = (uint64_t)((int64_t)sext >> (UINT64_C(32) & 63u));
    r6 = (uint64_t)(r4_sroa_6_0 + r1);
    v2 = (uint64_t)(r6 + UINT64_C(2147483648));
    r11 = v2 < UINT64_C(4294967296);
    r5_sroa_4_0 = (uint32_t)(r6);
    v3 = (uint32_t)(r5_sroa_4_0 + 95746129u);
    or_cond_3 = v3 < 191491529u;
    not_not_i_i_not_not = r11 ? or_cond_3 : 0;
    if (not_not_i_i_not_not) { goto at__arm_11; }
    { r7_sroa_0_0 = UINT64_C(0); r7_sroa_4_0 = 4294967295u; goto at__numbers_c_date_time_numbers_numbers_or_none_exit; }
    at__arm_11:;
    r4 = (uint64_t)(r6 << (UINT64_C(32) & 63u));
    sext_2 = (uint64_t)(r4 + UINT64_C(18443655292144058368));
    r1_2 = (uint64_t)((int64_t)sext_2 >> (UINT64_C(32) & 63u));
    r39 = (uint64_t)(r1_2 * UINT64_C(86400));
    r42 = (uint64_t)(r39 + r4_sroa_0_0_i_i_in);
    {
    r7_sroa_0_0 = r42;
    r7_sroa_4_0 = r4_sroa_4_0;
    goto at__numbers_c_date_time_numbers_numbers_or_none_exit;
    }
    at__numbers_c_date_time_numbers_numbers_or_none_exit:;
    r15_fca_0_insert = (t_struct_i64_i32_end){0};
    r15_fca_0_insert.f0 = r7_sroa_0_0;
    r15_fca_1_insert = r15_fca_0_insert;
    r15_fca_1_insert.f1 = r7_sroa_4_0;
    return r15_fca_1_insert;
}

static t_struct_i64_i32_end in_calendar_duration_multiply(uint64_t a0, uint32_t a1, uint32_t a2)
{
    wide r119_pn, r11_2, r12, r15_2, r119, r11, r1312, v1;
    uint64_t r3_0, r7_sroa_0_0, v0, r19, r20, r23, r19_2, r22, r24, r23_2, r26, r14, r31, r25, v2, r9_2, r12_3, r25_2, r9_sroa_0_0;
    uint32_t r7_sroa_4_0, r17, r17_neg, r20_2, r28, r9_sroa_4_0, r20_i_lobit;
    uint8_t r2, r7, spec_select, r15, r9, or_cond, r7_2, spec_select_2, r15_3, r7_3, r12_2, r18, r202;
    t_struct_i64_i32_end r18_fca_0_insert, r18_fca_1_insert;
    r2 = a1 > 999999999u;
    if (r2) { { r7_sroa_0_0 = UINT64_C(0); r7_sroa_4_0 = 4294967295u; goto at__numbers_c_date_time_numbers_duration_or_none_exit; } }
    goto at__join_3;
    at__join_3:;
    switch (a0) {
    case UINT64_C(18437520701672696840): goto at__then_1;
    case UINT64_C(9223372036854775): goto at__numbers_c_date_time_numbers_duration_of_exit_i;
    default: goto at__join_6;
    }
    at__then_1:;
    r7 = a1 > 192999999u;
    if (r7) { goto at__arm_1; }
    { r7_sroa_0_0 = UINT64_C(0); r7_sroa_4_0 = 4294967295u; goto at__numbers_c_date_time_numbers_duration_or_none_exit; }
    at__join_6:;
    v0 = (uint64_t)(a0 + UINT64_C(9223372036854775));
    spec_select = v0 < UINT64_C(18446744073709550);
    if (spec_select) { goto at__arm_1; }
    { r7_sroa_0_0 = UINT64_C(0); r7_sroa_4_0 = 4294967295u; goto at__numbers_c_date_time_numbers_duration_or_none_exit; }
    at__numbers_c_date_time_numbers_duration_of_exit_i:;
    r15 = a1 < 807000001u;
    if (r15) { goto at__arm_1; }
    { r7_sroa_0_0 = UINT64_C(0); r7_sroa_4_0 = 4294967295u; goto at__numbers_c_date_time_numbers_duration_or_none_exit; }
    at__arm_1:;
    r11_2 = WIDE_OF_SIGNED((int64_t)a0);
    r12 = WIDE_OF_SIGNED((int32_t)a2);
    r15_2 = wide_mul(r12, r11_2);
    r19 = (uint64_t)a1;
    r20 = (uint64_t)((uint64_t)(int32_t)a2);
    r23 = (uint64_t)(r20 * r19);
    r9 = (int64_t)r23 > (int64_t)UINT64_C(18446744073709551615);
    if (r9) { goto at__ok_6; }
    goto at__ok_5_i2;
    at__ok_5_i2:;
    r19_2 = (uint64_t)(r23 ^ UINT64_C(18446744073709551615));
    r22 = (uint64_t)(r19_2 / UINT64_C(1000000000));
    r24 = (uint64_t)(r22 ^ UINT64_C(18446744073709551615));
    r119 = WIDE_OF_SIGNED((int64_t)r24);
    r23_2 = (uint64_t)(r19_2 % UINT64_C(1000000000));
    r26 = (uint64_t)(UINT64_C(999999999) - r23_2);
    {
    r119_pn = r119;
    r3_0 = r26;
    goto at__core_int_i64_rem_euclid_exit_i_i_i;
    }
    at__ok_6:;
    r14 = (uint64_t)(r23 / UINT64_C(1000000000));
    r11 = wide_of(0, r14);
    r31 = (uint64_t)(r23 % UINT64_C(1000000000));
    {
    r119_pn = r11;
    r3_0 = r31;
    goto at__core_int_i64_rem_euclid_exit_i_i_i;
    }
    at__core_int_i64_rem_euclid_exit_i_i_i:;
    r1312 = wide_add(r119_pn, r15_2);
    r17 = (uint32_t)(r3_0);
    v1 = wide_add(r1312, wide_of(UINT64_C(18446744073709551615), UINT64_C(18437520701672696840)));
    or_cond = wide_ult(v1, wide_of(UINT64_C(18446744073709551615), UINT64_C(18428297329635842064)));
    if (or_cond) { { r7_sroa_0_0 = UINT64_C(0); r7_sroa_4_0 = 4294967295u; goto at__numbers_c_date_time_numbers_duration_or_none_exit; } }
    goto at__after_1;
    at__after_1:;
    r25 = (uint64_t)(wide_low(r1312));
    switch (r25) {
    case UINT64_C(18437520701672696840): goto at__then_1_2;
    case UINT64_C(9223372036854775): goto at__calendar_c_durations_multiple_exit;
    default: goto at__join_6_2;
    }
    at__then_1_2:;
    r7_2 = r3_0 > UINT64_C(192999999);
    if (r7_2) { goto at__arm_11; }
    { r7_sroa_0_0 = UINT64_C(0); r7_sroa_4_0 = 4294967295u; goto at__numbers_c_date_time_numbers_duration_or_none_exit; }
    at__join_6_2:;
    v2 = (uint64_t)(r25 + UINT64_C(9223372036854775));
    spec_select_2 = v2 < UINT64_C(18446744073709550);
    if (spec_select_2) { goto at__arm_11; }
    { r7_sroa_0_0 = UINT64_C(0); r7_sroa_4_0 = 4294967295u; goto at__numbers_c_date_time_numbers_duration_or_none_exit; }
    at__calendar_c_durations_multiple_exit:;
    r15_3 = r3_0 < UINT64_C(807000001);
    if (r15_3) { goto at__arm_11; }
    { r7_sroa_0_0 = UINT64_C(0); r7_sroa_4_0 = 4294967295u; goto at__numbers_c_date_time_numbers_duration_or_none_exit; }
    at__arm_11:;
    r7_3 = (int64_t)r25 < (int64_t)UINT64_C(0);
    r12_2 = r3_0 != UINT64_C(0);
    r18 = (uint8_t)(((uint32_t)r12_2 & (uint32_t)r7_3) & 1);
    r9_2 = (uint64_t)r18;
    r12_3 = (uint64_t)(r9_2 + r25);
    r17_neg = r18 ? 3294967296u : 0;
    r20_2 = (uint32_t)(r17_neg + r17);
    r202 = (int32_t)r20_2 < (int32_t)0;
    r28 = (uint32_t)(r20_2 + 1000000000u);
    r9_sroa_4_0 = r202 ? r28 : r20_2;
    r20_i_lobit = (uint32_t)((int32_t)r20_2 >> 31u);
    r25_2 = (uint64_t)((uint64_t)(int32_t)r20_i_lobit);
    r9_sroa_0_0 = (uint64_t)(r12_3 + r25_2);
    {
    r7_sroa_0_0 = r9_sroa_0_0;
    r7_sroa_4_0 = r9_sroa_4_0;
    goto at__numbers_c_date_time_numbers_duration_or_none_exit;
    }
    at__numbers_c_date_time_numbers_duration_or_none_exit:;
    r18_fca_0_insert = (t_struct_i64_i32_end){0};
    r18_fca_0_insert.f0 = r7_sroa_0_0;
    r18_fca_1_insert = r18_fca_0_insert;
    r18_fca_1_insert.f1 = r7_sroa_4_0;
    return r18_fca_1_insert;
}

static t_struct_i64_i32_end in_calendar_duration_divide(uint64_t a0, uint32_t a1, uint32_t a2)
{
    wide r119_pn, r38, r119, r11, r1312, v1;
    uint64_t r3_0, r7_sroa_0_0, v0, r2_i_i2, r5, r5_i5, r28, r5_i7, r5_i9_i_sext, r41, r19, r22, r24, r23, r26, r14, r31, r25, v2, r9_2, r12_2, r25_2, r9_sroa_0_0;
    uint32_t r7_sroa_4_0, r5_i9_i27, r17, r17_neg, r20, r282, r9_sroa_4_0, r20_i_lobit;
    uint8_t r2, r7, r11_i_i_old_old, or_cond19, spec_select, r11_i_i_old, or_cond18, r15, r11_2, or_cond, r9, or_cond_2, r7_2, spec_select_2, r15_2, r7_3, r12, r18, r20_2;
    t_struct_i64_i32_end r18_fca_0_insert, r18_fca_1_insert;
    r2 = a1 > 999999999u;
    if (r2) { { r7_sroa_0_0 = UINT64_C(0); r7_sroa_4_0 = 4294967295u; goto at__numbers_c_date_time_numbers_duration_or_none_exit; } }
    goto at__join_3;
    at__join_3:;
    switch (a0) {
    case UINT64_C(18437520701672696840): goto at__then_1;
    case UINT64_C(9223372036854775): goto at__numbers_c_date_time_numbers_duration_of_exit_i;
    default: goto at__join_6;
    }
    at__then_1:;
    r7 = a1 < 193000000u;
    r11_i_i_old_old = a2 == 0;
    or_cond19 = (uint8_t)(((uint32_t)r7 | (uint32_t)r11_i_i_old_old) & 1);
    if (or_cond19) { { r7_sroa_0_0 = UINT64_C(0); r7_sroa_4_0 = 4294967295u; goto at__numbers_c_date_time_numbers_duration_or_none_exit; } }
    goto at__join_3_2;
    at__join_6:;
    v0 = (uint64_t)(a0 + UINT64_C(18437520701672696841));
    spec_select = v0 < UINT64_C(18428297329635842066);
    r11_i_i_old = a2 == 0;
    or_cond18 = (uint8_t)(((uint32_t)spec_select | (uint32_t)r11_i_i_old) & 1);
    if (or_cond18) { { r7_sroa_0_0 = UINT64_C(0); r7_sroa_4_0 = 4294967295u; goto at__numbers_c_date_time_numbers_duration_or_none_exit; } }
    goto at__join_3_2;
    at__numbers_c_date_time_numbers_duration_of_exit_i:;
    r15 = a1 > 807000000u;
    r11_2 = a2 == 0;
    or_cond = (uint8_t)(((uint32_t)r15 | (uint32_t)r11_2) & 1);
    if (or_cond) { { r7_sroa_0_0 = UINT64_C(0); r7_sroa_4_0 = 4294967295u; goto at__numbers_c_date_time_numbers_duration_or_none_exit; } }
    goto at__join_3_2;
    at__join_3_2:;
    r2_i_i2 = (uint64_t)((uint64_t)(int32_t)a2);
    r5 = (uint64_t)((int64_t)a0 / (int64_t)r2_i_i2);
    r5_i5 = (uint64_t)((int64_t)a0 % (int64_t)r2_i_i2);
    r28 = (uint64_t)(r5_i5 * UINT64_C(1000000000));
    r5_i7 = (uint64_t)((int64_t)r28 / (int64_t)r2_i_i2);
    r5_i9_i27 = (uint32_t)((int32_t)a1 / (int32_t)a2);
    r5_i9_i_sext = (uint64_t)((uint64_t)(int32_t)r5_i9_i27);
    r38 = WIDE_OF_SIGNED((int64_t)r5);
    r41 = (uint64_t)(r5_i7 + r5_i9_i_sext);
    r9 = (int64_t)r41 > (int64_t)UINT64_C(18446744073709551615);
    if (r9) { goto at__ok_6; }
    goto at__ok_5_i2;
    at__ok_5_i2:;
    r19 = (uint64_t)(r41 ^ UINT64_C(18446744073709551615));
    r22 = (uint64_t)(r19 / UINT64_C(1000000000));
    r24 = (uint64_t)(r22 ^ UINT64_C(18446744073709551615));
    r119 = WIDE_OF_SIGNED((int64_t)r24);
    r23 = (uint64_t)(r19 % UINT64_C(1000000000));
    r26 = (uint64_t)(UINT64_C(999999999) - r23);
    {
    r119_pn = r119;
    r3_0 = r26;
    goto at__core_int_i64_rem_euclid_exit_i_i_i;
    }
    at__ok_6:;
    r14 = (uint64_t)(r41 / UINT64_C(1000000000));
    r11 = wide_of(0, r14);
    r31 = (uint64_t)(r41 % UINT64_C(1000000000));
    {
    r119_pn = r11;
    r3_0 = r31;
    goto at__core_int_i64_rem_euclid_exit_i_i_i;
    }
    at__core_int_i64_rem_euclid_exit_i_i_i:;
    r1312 = wide_add(r119_pn, r38);
    r17 = (uint32_t)(r3_0);
    v1 = wide_add(r1312, wide_of(UINT64_C(18446744073709551615), UINT64_C(18437520701672696840)));
    or_cond_2 = wide_ult(v1, wide_of(UINT64_C(18446744073709551615), UINT64_C(18428297329635842064)));
    if (or_cond_2) { { r7_sroa_0_0 = UINT64_C(0); r7_sroa_4_0 = 4294967295u; goto at__numbers_c_date_time_numbers_duration_or_none_exit; } }
    goto at__after_1;
    at__after_1:;
    r25 = (uint64_t)(wide_low(r1312));
    switch (r25) {
    case UINT64_C(18437520701672696840): goto at__then_1_2;
    case UINT64_C(9223372036854775): goto at__calendar_c_durations_part_exit;
    default: goto at__join_6_2;
    }
    at__then_1_2:;
    r7_2 = r3_0 > UINT64_C(192999999);
    if (r7_2) { goto at__arm_11; }
    { r7_sroa_0_0 = UINT64_C(0); r7_sroa_4_0 = 4294967295u; goto at__numbers_c_date_time_numbers_duration_or_none_exit; }
    at__join_6_2:;
    v2 = (uint64_t)(r25 + UINT64_C(9223372036854775));
    spec_select_2 = v2 < UINT64_C(18446744073709550);
    if (spec_select_2) { goto at__arm_11; }
    { r7_sroa_0_0 = UINT64_C(0); r7_sroa_4_0 = 4294967295u; goto at__numbers_c_date_time_numbers_duration_or_none_exit; }
    at__calendar_c_durations_part_exit:;
    r15_2 = r3_0 < UINT64_C(807000001);
    if (r15_2) { goto at__arm_11; }
    { r7_sroa_0_0 = UINT64_C(0); r7_sroa_4_0 = 4294967295u; goto at__numbers_c_date_time_numbers_duration_or_none_exit; }
    at__arm_11:;
    r7_3 = (int64_t)r25 < (int64_t)UINT64_C(0);
    r12 = r3_0 != UINT64_C(0);
    r18 = (uint8_t)(((uint32_t)r12 & (uint32_t)r7_3) & 1);
    r9_2 = (uint64_t)r18;
    r12_2 = (uint64_t)(r9_2 + r25);
    r17_neg = r18 ? 3294967296u : 0;
    r20 = (uint32_t)(r17_neg + r17);
    r20_2 = (int32_t)r20 < (int32_t)0;
    r282 = (uint32_t)(r20 + 1000000000u);
    r9_sroa_4_0 = r20_2 ? r282 : r20;
    r20_i_lobit = (uint32_t)((int32_t)r20 >> 31u);
    r25_2 = (uint64_t)((uint64_t)(int32_t)r20_i_lobit);
    r9_sroa_0_0 = (uint64_t)(r12_2 + r25_2);
    {
    r7_sroa_0_0 = r9_sroa_0_0;
    r7_sroa_4_0 = r9_sroa_4_0;
    goto at__numbers_c_date_time_numbers_duration_or_none_exit;
    }
    at__numbers_c_date_time_numbers_duration_or_none_exit:;
    r18_fca_0_insert = (t_struct_i64_i32_end){0};
    r18_fca_0_insert.f0 = r7_sroa_0_0;
    r18_fca_1_insert = r18_fca_0_insert;
    r18_fca_1_insert.f1 = r7_sroa_4_0;
    return r18_fca_1_insert;
}

static t_struct_i64_i32_end in_calendar_duration_add(uint64_t a0, uint32_t a1, uint64_t a2, uint32_t a3)
{
    uint64_t r7_sroa_0_0, v0, v1, r14, r13, r15_2, v2, r9, r12_2, r25, r9_sroa_0_0;
    uint32_t r7_sroa_4_0, r21, r17_neg, r19, r17_neg3, r20, r28, r9_sroa_4_0, r20_i_lobit;
    uint8_t r2, r7, r2_i_i3_i_old_old, or_cond18, spec_select, r2_i_i3_i_old, or_cond17, r15, r2_i_i3, or_cond, r7_i_i_i_i18, spec_select_i_i_i_i20, r15_i_i_i_i6, r7_2, r7_3, spec_select_2, r15_3, r72, r12, r18, r20_2;
    t_struct_i64_i32_end r18_fca_0_insert, r18_fca_1_insert;
    r2 = a1 > 999999999u;
    if (r2) { { r7_sroa_0_0 = UINT64_C(0); r7_sroa_4_0 = 4294967295u; goto at__numbers_c_date_time_numbers_duration_or_none_exit; } }
    goto at__join_3;
    at__join_3:;
    switch (a0) {
    case UINT64_C(18437520701672696840): goto at__then_1;
    case UINT64_C(9223372036854775): goto at__numbers_c_date_time_numbers_duration_of_exit_i;
    default: goto at__join_6;
    }
    at__then_1:;
    r7 = a1 < 193000000u;
    r2_i_i3_i_old_old = a3 > 999999999u;
    or_cond18 = (uint8_t)(((uint32_t)r7 | (uint32_t)r2_i_i3_i_old_old) & 1);
    if (or_cond18) { { r7_sroa_0_0 = UINT64_C(0); r7_sroa_4_0 = 4294967295u; goto at__numbers_c_date_time_numbers_duration_or_none_exit; } }
    goto at__join_3_i_i4;
    at__join_6:;
    v0 = (uint64_t)(a0 + UINT64_C(18437520701672696841));
    spec_select = v0 < UINT64_C(18428297329635842066);
    r2_i_i3_i_old = a3 > 999999999u;
    or_cond17 = (uint8_t)(((uint32_t)spec_select | (uint32_t)r2_i_i3_i_old) & 1);
    if (or_cond17) { { r7_sroa_0_0 = UINT64_C(0); r7_sroa_4_0 = 4294967295u; goto at__numbers_c_date_time_numbers_duration_or_none_exit; } }
    goto at__join_3_i_i4;
    at__numbers_c_date_time_numbers_duration_of_exit_i:;
    r15 = a1 > 807000000u;
    r2_i_i3 = a3 > 999999999u;
    or_cond = (uint8_t)(((uint32_t)r15 | (uint32_t)r2_i_i3) & 1);
    if (or_cond) { { r7_sroa_0_0 = UINT64_C(0); r7_sroa_4_0 = 4294967295u; goto at__numbers_c_date_time_numbers_duration_or_none_exit; } }
    goto at__join_3_i_i4;
    at__join_3_i_i4:;
    switch (a2) {
    case UINT64_C(18437520701672696840): goto at__then_1_i_i_i_i17;
    case UINT64_C(9223372036854775): goto at__numbers_c_date_time_numbers_duration_of_exit21_i;
    default: goto at__join_6_i_i_i_i19;
    }
    at__then_1_i_i_i_i17:;
    r7_i_i_i_i18 = a3 > 192999999u;
    if (r7_i_i_i_i18) { goto at__arm_5; }
    { r7_sroa_0_0 = UINT64_C(0); r7_sroa_4_0 = 4294967295u; goto at__numbers_c_date_time_numbers_duration_or_none_exit; }
    at__join_6_i_i_i_i19:;
    v1 = (uint64_t)(a2 + UINT64_C(9223372036854775));
    spec_select_i_i_i_i20 = v1 < UINT64_C(18446744073709550);
    if (spec_select_i_i_i_i20) { goto at__arm_5; }
    { r7_sroa_0_0 = UINT64_C(0); r7_sroa_4_0 = 4294967295u; goto at__numbers_c_date_time_numbers_duration_or_none_exit; }
    at__numbers_c_date_time_numbers_duration_of_exit21_i:;
    r15_i_i_i_i6 = a3 < 807000001u;
    if (r15_i_i_i_i6) { goto at__arm_5; }
    { r7_sroa_0_0 = UINT64_C(0); r7_sroa_4_0 = 4294967295u; goto at__numbers_c_date_time_numbers_duration_or_none_exit; }
    at__arm_5:;
    r14 = (uint64_t)(a2 + a0);
    r21 = (uint32_t)(a3 + a1);
    r7_2 = r21 > 999999999u;
    r13 = (uint64_t)r7_2;
    r15_2 = (uint64_t)(r14 + r13);
    r17_neg = r7_2 ? 3294967296u : 0;
    r19 = (uint32_t)(r17_neg + r21);
    switch (r15_2) {
    case UINT64_C(18437520701672696840): goto at__then_1_2;
    case UINT64_C(9223372036854775): goto at__calendar_c_durations_sum_exit;
    default: goto at__join_6_2;
    }
    at__then_1_2:;
    r7_3 = r19 > 192999999u;
    if (r7_3) { goto at__arm_11; }
    { r7_sroa_0_0 = UINT64_C(0); r7_sroa_4_0 = 4294967295u; goto at__numbers_c_date_time_numbers_duration_or_none_exit; }
    at__join_6_2:;
    v2 = (uint64_t)(r15_2 + UINT64_C(9223372036854775));
    spec_select_2 = v2 < UINT64_C(18446744073709550);
    if (spec_select_2) { goto at__arm_11; }
    { r7_sroa_0_0 = UINT64_C(0); r7_sroa_4_0 = 4294967295u; goto at__numbers_c_date_time_numbers_duration_or_none_exit; }
    at__calendar_c_durations_sum_exit:;
    r15_3 = r19 < 807000001u;
    if (r15_3) { goto at__arm_11; }
    { r7_sroa_0_0 = UINT64_C(0); r7_sroa_4_0 = 4294967295u; goto at__numbers_c_date_time_numbers_duration_or_none_exit; }
    at__arm_11:;
    r72 = (int64_t)r15_2 < (int64_t)UINT64_C(0);
    r12 = r19 != 0;
    r18 = (uint8_t)(((uint32_t)r12 & (uint32_t)r72) & 1);
    r9 = (uint64_t)r18;
    r12_2 = (uint64_t)(r15_2 + r9);
    r17_neg3 = r18 ? 3294967296u : 0;
    r20 = (uint32_t)(r17_neg3 + r19);
    r20_2 = (int32_t)r20 < (int32_t)0;
    r28 = (uint32_t)(r20 + 1000000000u);
    r9_sroa_4_0 = r20_2 ? r28 : r20;
    r20_i_lobit = (uint32_t)((int32_t)r20 >> 31u);
    r25 = (uint64_t)((uint64_t)(int32_t)r20_i_lobit);
    r9_sroa_0_0 = (uint64_t)(r12_2 + r25);
    {
    r7_sroa_0_0 = r9_sroa_0_0;
    r7_sroa_4_0 = r9_sroa_4_0;
    goto at__numbers_c_date_time_numbers_duration_or_none_exit;
    }
    at__numbers_c_date_time_numbers_duration_or_none_exit:;
    r18_fca_0_insert = (t_struct_i64_i32_end){0};
    r18_fca_0_insert.f0 = r7_sroa_0_0;
    r18_fca_1_insert = r18_fca_0_insert;
    r18_fca_1_insert.f1 = r7_sroa_4_0;
    return r18_fca_1_insert;
}

#include "calendar.h"

int32_t calendar_version(uint8_t *text, size_t room)
{
    return (int32_t)in_calendar_version((bytes)text, (uint64_t)room);
}

int32_t calendar_from_ymd(int32_t year, uint32_t month, uint32_t day)
{
    return (int32_t)in_calendar_from_ymd((uint32_t)year, (uint32_t)month, (uint32_t)day);
}

int32_t calendar_from_yo(int32_t year, uint32_t ordinal)
{
    return (int32_t)in_calendar_from_yo((uint32_t)year, (uint32_t)ordinal);
}

int32_t calendar_from_isoywd(int32_t year, uint32_t week, uint32_t weekday)
{
    return (int32_t)in_calendar_from_isoywd((uint32_t)year, (uint32_t)week, (uint32_t)weekday);
}

int32_t calendar_from_weekday_of_month(int32_t year, uint32_t month, uint32_t weekday, uint32_t n)
{
    return (int32_t)in_calendar_from_weekday_of_month((uint32_t)year, (uint32_t)month, (uint32_t)weekday, (uint32_t)n);
}

int32_t calendar_year(int32_t date)
{
    return (int32_t)in_calendar_year((uint32_t)date);
}

int32_t calendar_month(int32_t date)
{
    return (int32_t)in_calendar_month((uint32_t)date);
}

int32_t calendar_day(int32_t date)
{
    return (int32_t)in_calendar_day((uint32_t)date);
}

int32_t calendar_ordinal(int32_t date)
{
    return (int32_t)in_calendar_ordinal((uint32_t)date);
}

int32_t calendar_weekday(int32_t date)
{
    return (int32_t)in_calendar_weekday((uint32_t)date);
}

int32_t calendar_iso_year(int32_t date)
{
    return (int32_t)in_calendar_iso_year((uint32_t)date);
}

int32_t calendar_iso_week(int32_t date)
{
    return (int32_t)in_calendar_iso_week((uint32_t)date);
}

bool calendar_is_leap_year(int32_t year)
{
    return (bool)in_calendar_is_leap_year((uint32_t)year);
}

int32_t calendar_days_in_month(int32_t year, uint32_t month)
{
    return (int32_t)in_calendar_days_in_month((uint32_t)year, (uint32_t)month);
}

int32_t calendar_add_days(int32_t date, int64_t days)
{
    return (int32_t)in_calendar_add_days((uint32_t)date, (uint64_t)days);
}

int32_t calendar_add_months(int32_t date, int64_t months)
{
    return (int32_t)in_calendar_add_months((uint32_t)date, (uint64_t)months);
}

int32_t calendar_every_months(int32_t start, int32_t months, uint32_t index)
{
    return (int32_t)in_calendar_every_months((uint32_t)start, (uint32_t)months, (uint32_t)index);
}

int32_t calendar_years_since(int32_t date, int32_t base)
{
    return (int32_t)in_calendar_years_since((uint32_t)date, (uint32_t)base);
}

int32_t calendar_week_first_day(int32_t date, uint32_t start)
{
    return (int32_t)in_calendar_week_first_day((uint32_t)date, (uint32_t)start);
}

int32_t calendar_first_on(int32_t date, uint8_t weekdays)
{
    return (int32_t)in_calendar_first_on((uint32_t)date, (uint8_t)weekdays);
}

int32_t calendar_days_until(uint8_t weekdays, uint32_t from)
{
    return (int32_t)in_calendar_days_until((uint8_t)weekdays, (uint32_t)from);
}

int32_t calendar_write_date(int32_t date, uint8_t *text, size_t room)
{
    return (int32_t)in_calendar_write_date((uint32_t)date, (bytes)text, (uint64_t)room);
}

int32_t calendar_read_date(const uint8_t *text, size_t length)
{
    return (int32_t)in_calendar_read_date((bytes)text, (uint64_t)length);
}

calendar_date_time calendar_date_time_new(int32_t date, uint32_t second_of_day, uint32_t nanos)
{
    t_struct_i64_i32_end made = in_calendar_date_time_new((uint32_t)date, (uint32_t)second_of_day, (uint32_t)nanos);
    calendar_date_time result;
    result.seconds = (int64_t)made.f0;
    result.nanos = (uint32_t)made.f1;
    return result;
}

int32_t calendar_date_time_date(calendar_date_time moment)
{
    return (int32_t)in_calendar_date_time_date((uint64_t)moment.seconds, (uint32_t)moment.nanos);
}

int32_t calendar_date_time_second_of_day(calendar_date_time moment)
{
    return (int32_t)in_calendar_date_time_second_of_day((uint64_t)moment.seconds, (uint32_t)moment.nanos);
}

calendar_time calendar_date_time_time(calendar_date_time moment)
{
    t_struct_i32_i32_end made = in_calendar_date_time_time((uint64_t)moment.seconds, (uint32_t)moment.nanos);
    calendar_time result;
    result.second = (uint32_t)made.f0;
    result.nanos = (uint32_t)made.f1;
    return result;
}

calendar_date_time calendar_date_time_add(calendar_date_time moment, calendar_duration by)
{
    t_struct_i64_i32_end made = in_calendar_date_time_add((uint64_t)moment.seconds, (uint32_t)moment.nanos, (uint64_t)by.seconds, (uint32_t)by.nanos);
    calendar_date_time result;
    result.seconds = (int64_t)made.f0;
    result.nanos = (uint32_t)made.f1;
    return result;
}

calendar_duration calendar_date_time_since(calendar_date_time moment, calendar_date_time base)
{
    t_struct_i64_i32_end made = in_calendar_date_time_since((uint64_t)moment.seconds, (uint32_t)moment.nanos, (uint64_t)base.seconds, (uint32_t)base.nanos);
    calendar_duration result;
    result.seconds = (int64_t)made.f0;
    result.nanos = (uint32_t)made.f1;
    return result;
}

int32_t calendar_write_date_time(calendar_date_time moment, uint8_t *text, size_t room)
{
    return (int32_t)in_calendar_write_date_time((uint64_t)moment.seconds, (uint32_t)moment.nanos, (bytes)text, (uint64_t)room);
}

calendar_date_time calendar_read_date_time(const uint8_t *text, size_t length)
{
    t_struct_i64_i32_end made = in_calendar_read_date_time((bytes)text, (uint64_t)length);
    calendar_date_time result;
    result.seconds = (int64_t)made.f0;
    result.nanos = (uint32_t)made.f1;
    return result;
}

int32_t calendar_write_time(calendar_time time, uint8_t *text, size_t room)
{
    return (int32_t)in_calendar_write_time((uint32_t)time.second, (uint32_t)time.nanos, (bytes)text, (uint64_t)room);
}

calendar_time calendar_read_time(const uint8_t *text, size_t length)
{
    t_struct_i32_i32_end made = in_calendar_read_time((bytes)text, (uint64_t)length);
    calendar_time result;
    result.second = (uint32_t)made.f0;
    result.nanos = (uint32_t)made.f1;
    return result;
}

calendar_duration calendar_duration_add(calendar_duration duration, calendar_duration by)
{
    t_struct_i64_i32_end made = in_calendar_duration_add((uint64_t)duration.seconds, (uint32_t)duration.nanos, (uint64_t)by.seconds, (uint32_t)by.nanos);
    calendar_duration result;
    result.seconds = (int64_t)made.f0;
    result.nanos = (uint32_t)made.f1;
    return result;
}

calendar_duration calendar_duration_multiply(calendar_duration duration, int32_t times)
{
    t_struct_i64_i32_end made = in_calendar_duration_multiply((uint64_t)duration.seconds, (uint32_t)duration.nanos, (uint32_t)times);
    calendar_duration result;
    result.seconds = (int64_t)made.f0;
    result.nanos = (uint32_t)made.f1;
    return result;
}

calendar_duration calendar_duration_divide(calendar_duration duration, int32_t parts)
{
    t_struct_i64_i32_end made = in_calendar_duration_divide((uint64_t)duration.seconds, (uint32_t)duration.nanos, (uint32_t)parts);
    calendar_duration result;
    result.seconds = (int64_t)made.f0;
    result.nanos = (uint32_t)made.f1;
    return result;
}

int32_t calendar_write_duration(calendar_duration duration, uint8_t *text, size_t room)
{
    return (int32_t)in_calendar_write_duration((uint64_t)duration.seconds, (uint32_t)duration.nanos, (bytes)text, (uint64_t)room);
}

calendar_duration calendar_read_duration(const uint8_t *text, size_t length)
{
    t_struct_i64_i32_end made = in_calendar_read_duration((bytes)text, (uint64_t)length);
    calendar_duration result;
    result.seconds = (int64_t)made.f0;
    result.nanos = (uint32_t)made.f1;
    return result;
}

calendar_ymd calendar_split(int32_t date)
{
    calendar_ymd result;
    in_calendar_split((bytes)&result, (uint32_t)date);
    return result;
}

bool calendar_column_weekdays(const int32_t *dates, size_t dates_length, uint8_t *weekdays, size_t weekdays_length)
{
    return (bool)in_calendar_column_weekdays((bytes)dates, (uint64_t)dates_length, (bytes)weekdays, (uint64_t)weekdays_length);
}

bool calendar_column_years(const int32_t *dates, size_t dates_length, int32_t *years, size_t years_length)
{
    return (bool)in_calendar_column_years((bytes)dates, (uint64_t)dates_length, (bytes)years, (uint64_t)years_length);
}

bool calendar_column_ordinals(const int32_t *dates, size_t dates_length, uint16_t *ordinals, size_t ordinals_length)
{
    return (bool)in_calendar_column_ordinals((bytes)dates, (uint64_t)dates_length, (bytes)ordinals, (uint64_t)ordinals_length);
}

bool calendar_column_split(const int32_t *dates, size_t dates_length, int32_t *years, size_t years_length, uint8_t *months, size_t months_length, uint8_t *days, size_t days_length)
{
    return (bool)in_calendar_column_split((bytes)dates, (uint64_t)dates_length, (bytes)years, (uint64_t)years_length, (bytes)months, (uint64_t)months_length, (bytes)days, (uint64_t)days_length);
}

bool calendar_column_iso_weeks(const int32_t *dates, size_t dates_length, int32_t *years, size_t years_length, uint8_t *weeks, size_t weeks_length)
{
    return (bool)in_calendar_column_iso_weeks((bytes)dates, (uint64_t)dates_length, (bytes)years, (uint64_t)years_length, (bytes)weeks, (uint64_t)weeks_length);
}

bool calendar_column_join(const int32_t *years, size_t years_length, const uint8_t *months, size_t months_length, const uint8_t *days, size_t days_length, int32_t *dates, size_t dates_length)
{
    return (bool)in_calendar_column_join((bytes)years, (uint64_t)years_length, (bytes)months, (uint64_t)months_length, (bytes)days, (uint64_t)days_length, (bytes)dates, (uint64_t)dates_length);
}

bool calendar_column_add_days(const int32_t *dates, size_t dates_length, int32_t days, int32_t *moved, size_t moved_length)
{
    return (bool)in_calendar_column_add_days((bytes)dates, (uint64_t)dates_length, (uint32_t)days, (bytes)moved, (uint64_t)moved_length);
}

void calendar_column_add_days_in_place(int32_t *dates, size_t dates_length, int32_t days)
{
    in_calendar_column_add_days_in_place((bytes)dates, (uint64_t)dates_length, (uint32_t)days);
}

bool calendar_column_add_days_each(const int32_t *dates, size_t dates_length, const int32_t *days, size_t days_length, int32_t *moved, size_t moved_length)
{
    return (bool)in_calendar_column_add_days_each((bytes)dates, (uint64_t)dates_length, (bytes)days, (uint64_t)days_length, (bytes)moved, (uint64_t)moved_length);
}

bool calendar_column_add_days_each_in_place(int32_t *dates, size_t dates_length, const int32_t *days, size_t days_length)
{
    return (bool)in_calendar_column_add_days_each_in_place((bytes)dates, (uint64_t)dates_length, (bytes)days, (uint64_t)days_length);
}

bool calendar_column_add_months(const int32_t *dates, size_t dates_length, int32_t months, int32_t *moved, size_t moved_length)
{
    return (bool)in_calendar_column_add_months((bytes)dates, (uint64_t)dates_length, (uint32_t)months, (bytes)moved, (uint64_t)moved_length);
}

void calendar_column_add_months_in_place(int32_t *dates, size_t dates_length, int32_t months)
{
    in_calendar_column_add_months_in_place((bytes)dates, (uint64_t)dates_length, (uint32_t)months);
}

bool calendar_column_days_between(const int32_t *dates, size_t dates_length, const int32_t *bases, size_t bases_length, int32_t *days, size_t days_length)
{
    return (bool)in_calendar_column_days_between((bytes)dates, (uint64_t)dates_length, (bytes)bases, (uint64_t)bases_length, (bytes)days, (uint64_t)days_length);
}

bool calendar_column_first_on(const int32_t *dates, size_t dates_length, uint8_t weekdays, int32_t *found, size_t found_length)
{
    return (bool)in_calendar_column_first_on((bytes)dates, (uint64_t)dates_length, (uint8_t)weekdays, (bytes)found, (uint64_t)found_length);
}

bool calendar_column_from_unix_days(const int64_t *days, size_t days_length, int32_t *dates, size_t dates_length)
{
    return (bool)in_calendar_column_from_unix_days((bytes)days, (uint64_t)days_length, (bytes)dates, (uint64_t)dates_length);
}

bool calendar_column_to_unix_days(const int32_t *dates, size_t dates_length, int64_t *days, size_t days_length)
{
    return (bool)in_calendar_column_to_unix_days((bytes)dates, (uint64_t)dates_length, (bytes)days, (uint64_t)days_length);
}

bool calendar_column_write_dates(const int32_t *dates, size_t dates_length, uint8_t *texts, size_t texts_length)
{
    return (bool)in_calendar_column_write_dates((bytes)dates, (uint64_t)dates_length, (bytes)texts, (uint64_t)texts_length);
}

bool calendar_column_read_dates(const uint8_t *texts, size_t texts_length, int32_t *dates, size_t dates_length)
{
    return (bool)in_calendar_column_read_dates((bytes)texts, (uint64_t)texts_length, (bytes)dates, (uint64_t)dates_length);
}

size_t calendar_column_count_dates(const int32_t *dates, size_t dates_length)
{
    return (size_t)in_calendar_column_count_dates((bytes)dates, (uint64_t)dates_length);
}
