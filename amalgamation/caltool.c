/*
 * caltool.c: the program caltool 0.2.0-dev, for any compiler of C99 on a little-endian machine of 64 bits.
 *
 * tools/dist made this file from the module of the crate caltool, whose functions are proved to meet their contracts. Nothing proves
 * the translation: it is tested, as docs/trust.md says. Do not edit it. The sources have this sum by SHA-256:
 * b782c551f260728abb5cd2e737836aefe4cbe33a95cb2576ec5fc18dd2926f22
 *
 * SPDX-License-Identifier: MIT OR Apache-2.0
 */
#include <stddef.h>
#include <stdint.h>

#if defined(__BYTE_ORDER__) && __BYTE_ORDER__ != __ORDER_LITTLE_ENDIAN__
#error "this file is for little-endian machines: on others it would give wrong answers"
#endif
#if UINTPTR_MAX != UINT64_MAX
#error "this file is for machines with pointers of 64 bits"
#endif
#include <string.h>

typedef unsigned char *bytes;

/* Memory is read and written by memcpy, so no address has to be aligned. */
#define LOAD(type, place, from) memcpy(&(place), (from), sizeof(type))
#define STORE(type, to, value) do { type stored_ = (value); memcpy((to), &stored_, sizeof stored_); } while (0)

#if defined(__GNUC__)
#define MAYBE_UNUSED __attribute__((unused))
#define UNREACHABLE() __builtin_unreachable()
#define TRAP() __builtin_trap()
#define LEADING(x) ((unsigned)__builtin_clzll(x))
#define TRAILING(x) ((unsigned)__builtin_ctzll(x))
#define ONES(x) ((unsigned)__builtin_popcountll(x))
#else
#include <stdlib.h>
#define MAYBE_UNUSED
#define UNREACHABLE() abort()
#define TRAP() abort()
static unsigned LEADING(uint64_t x) { unsigned n = 0; while (!(x >> 63)) { x <<= 1; n++; } return n; }
static unsigned TRAILING(uint64_t x) { unsigned n = 0; while (!(x & 1)) { x >>= 1; n++; } return n; }
static unsigned ONES(uint64_t x) { unsigned n = 0; for (; x; x &= x - 1) n++; return n; }
#endif

/* The lesser and the greater of two numbers with their sign. In columns, gcc finds the vector instructions of this form alone. */
#define ENDS(bits) \
    MAYBE_UNUSED static inline int##bits##_t LESSER##bits(int##bits##_t a, int##bits##_t b) { return a < b ? a : b; } \
    MAYBE_UNUSED static inline int##bits##_t GREATER##bits(int##bits##_t a, int##bits##_t b) { return a > b ? a : b; }
ENDS(32)
ENDS(64)
#undef ENDS

/* Numbers of 128 bits: by the compiler's own, or by two words. */
#if defined(__SIZEOF_INT128__) && !defined(CALENDAR_TWO_WORDS)
__extension__ typedef unsigned __int128 wide;
__extension__ typedef __int128 wide_signed;
#define WIDE(name, result, expression) MAYBE_UNUSED static inline result wide_##name { return expression; }
WIDE(of(uint64_t high, uint64_t low), wide, (wide)high << 64 | low)
WIDE(low(wide a), uint64_t, (uint64_t)a)
WIDE(high(wide a), uint64_t, (uint64_t)(a >> 64))
WIDE(add(wide a, wide b), wide, a + b)
WIDE(sub(wide a, wide b), wide, a - b)
WIDE(mul(wide a, wide b), wide, a * b)
WIDE(udiv(wide a, wide b), wide, a / b)
WIDE(urem(wide a, wide b), wide, a % b)
WIDE(sdiv(wide a, wide b), wide, (wide)((wide_signed)a / (wide_signed)b))
WIDE(srem(wide a, wide b), wide, (wide)((wide_signed)a % (wide_signed)b))
WIDE(and(wide a, wide b), wide, a & b)
WIDE(or(wide a, wide b), wide, a | b)
WIDE(xor(wide a, wide b), wide, a ^ b)
WIDE(shl(wide a, unsigned n), wide, a << n)
WIDE(lshr(wide a, unsigned n), wide, a >> n)
WIDE(ashr(wide a, unsigned n), wide, (wide)((wide_signed)a >> n))
WIDE(eq(wide a, wide b), int, a == b)
WIDE(ult(wide a, wide b), int, a < b)
WIDE(slt(wide a, wide b), int, (wide_signed)a < (wide_signed)b)
#undef WIDE
#else
typedef struct { uint64_t low, high; } wide;
#define WIDE MAYBE_UNUSED static wide
WIDE wide_of(uint64_t high, uint64_t low) { wide r; r.low = low; r.high = high; return r; }
MAYBE_UNUSED static uint64_t wide_low(wide a) { return a.low; }
MAYBE_UNUSED static uint64_t wide_high(wide a) { return a.high; }
WIDE wide_add(wide a, wide b) { uint64_t low = a.low + b.low; return wide_of(a.high + b.high + (low < a.low), low); }
WIDE wide_sub(wide a, wide b) { return wide_of(a.high - b.high - (a.low < b.low), a.low - b.low); }
WIDE wide_mul(wide a, wide b)
{
    uint64_t half = UINT32_MAX, al = a.low & half, ah = a.low >> 32, bl = b.low & half, bh = b.low >> 32;
    uint64_t ll = al * bl, lh = al * bh, hl = ah * bl, mid = (ll >> 32) + (lh & half) + (hl & half);
    uint64_t high = ah * bh + (lh >> 32) + (hl >> 32) + (mid >> 32);
    return wide_of(high + a.low * b.high + a.high * b.low, (mid << 32) | (ll & half));
}
WIDE wide_and(wide a, wide b) { return wide_of(a.high & b.high, a.low & b.low); }
WIDE wide_or(wide a, wide b) { return wide_of(a.high | b.high, a.low | b.low); }
WIDE wide_xor(wide a, wide b) { return wide_of(a.high ^ b.high, a.low ^ b.low); }
WIDE wide_shl(wide a, unsigned n)
{
    return n == 0 ? a : n < 64 ? wide_of(a.high << n | a.low >> (64 - n), a.low << n) : wide_of(a.low << (n - 64), 0);
}
WIDE wide_lshr(wide a, unsigned n)
{
    return n == 0 ? a : n < 64 ? wide_of(a.high >> n, a.low >> n | a.high << (64 - n)) : wide_of(0, a.high >> (n - 64));
}
WIDE wide_ashr(wide a, unsigned n)
{
    uint64_t ones = a.high >> 63 ? UINT64_MAX : 0;
    wide r = wide_lshr(a, n);
    return n == 0 ? r : n < 64 ? wide_of(r.high | ones << (64 - n), r.low) : n == 64 ? wide_of(ones, r.low) : wide_of(ones, r.low | ones << (128 - n));
}
MAYBE_UNUSED static int wide_eq(wide a, wide b) { return a.low == b.low && a.high == b.high; }
MAYBE_UNUSED static int wide_ult(wide a, wide b) { return a.high < b.high || (a.high == b.high && a.low < b.low); }
MAYBE_UNUSED static int wide_slt(wide a, wide b)
{
    uint64_t sign = UINT64_C(1) << 63;
    return wide_ult(wide_of(a.high ^ sign, a.low), wide_of(b.high ^ sign, b.low));
}
/* A long division, bit by bit: the quotient, and the remainder behind the pointer. */
WIDE wide_divided(wide a, wide b, wide *rest)
{
    wide quotient = wide_of(0, 0), left = wide_of(0, 0);
    for (unsigned n = 128; n-- > 0;) {
        left = wide_or(wide_shl(left, 1), wide_and(wide_lshr(a, n), wide_of(0, 1)));
        if (!wide_ult(left, b)) {
            left = wide_sub(left, b);
            quotient = wide_or(quotient, wide_shl(wide_of(0, 1), n));
        }
    }
    *rest = left;
    return quotient;
}
WIDE wide_udiv(wide a, wide b) { wide rest; return wide_divided(a, b, &rest); }
WIDE wide_urem(wide a, wide b) { wide rest; wide_divided(a, b, &rest); return rest; }
WIDE wide_size(wide a) { return a.high >> 63 ? wide_sub(wide_of(0, 0), a) : a; }
WIDE wide_sdiv(wide a, wide b)
{
    wide r = wide_udiv(wide_size(a), wide_size(b));
    return (a.high ^ b.high) >> 63 ? wide_sub(wide_of(0, 0), r) : r;
}
WIDE wide_srem(wide a, wide b)
{
    wide r = wide_urem(wide_size(a), wide_size(b));
    return a.high >> 63 ? wide_sub(wide_of(0, 0), r) : r;
}
#undef WIDE
#endif

/* The number of 64 or 128 bits that the lowest bits of a number are, with their sign. */
#define SIGNED(value, bits) ((int64_t)((uint64_t)(value) << (64 - (bits))) >> (64 - (bits)))
#define WIDE_OF_SIGNED(value) wide_of((int64_t)(value) < 0 ? UINT64_MAX : 0, (uint64_t)(int64_t)(value))

/* What the program asks of the machine, and where it starts. A failed call is not repeated here: the program decides. */
#include <errno.h>
#if defined(_WIN32)
#include <fcntl.h>
#include <io.h>
#else
#include <signal.h>
#include <unistd.h>
#endif

/* The most bytes of one call. A program that is told of fewer bytes than it asked for calls again. */
#define MOST_BYTES 0x40000000u
#define AT_MOST(count) ((count) < MOST_BYTES ? (unsigned)(count) : MOST_BYTES)

/* The number of bytes that were read or written, or -1. */
static uint64_t host_read(uint32_t file, bytes to, uint64_t count)
{
#if defined(_WIN32)
    return (uint64_t)(int64_t)_read((int)file, to, AT_MOST(count));
#else
    return (uint64_t)(int64_t)read((int)file, to, AT_MOST(count));
#endif
}

static uint64_t host_write(uint32_t file, bytes from, uint64_t count)
{
#if defined(_WIN32)
    return (uint64_t)(int64_t)_write((int)file, from, AT_MOST(count));
#else
    return (uint64_t)(int64_t)write((int)file, from, AT_MOST(count));
#endif
}

/* Why the last call failed. */
static uint32_t host_error(void)
{
    return (uint32_t)errno;
}

/* The program itself, which stands below; its result is the exit status. */
static uint32_t program(void);

int main(void)
{
#if defined(_WIN32)
    /* Windows would change the bytes of line ends. */
    for (int file = 0; file < 3; file++)
        _setmode(file, _O_BINARY);
#else
    /* A write to a pipe without a reader has to fail, and not to end the program. */
    signal(SIGPIPE, SIG_IGN);
#endif
    return (int)program();
}

typedef struct { uint8_t f[16]; } t_vector16_i8_end;
typedef struct { uint8_t f[16]; } t_vector16_i1_end;
typedef struct { uint8_t f0; uint32_t f1; } t_struct_i8_i32_end;
typedef struct { uint8_t f[5]; } t_array5_i8_end;
typedef struct { uint8_t f[64]; } t_array64_i8_end;
typedef struct { uint8_t f[4]; } t_array4_i8_end;
typedef struct { uint8_t f[200]; } t_array200_i8_end;
typedef struct { uint8_t f[3]; } t_array3_i8_end;
typedef struct { uint8_t f[2]; } t_array2_i8_end;
typedef struct { uint8_t f[1]; } t_array1_i8_end;
typedef struct { uint8_t f[10]; } t_array10_i8_end;
typedef struct { uint8_t f[11]; } t_array11_i8_end;
typedef struct { uint32_t f[7]; } t_array7_i32_end;

static const t_array5_i8_end static_1 = { { 101, 114, 114, 111, 114 } };
static const t_array64_i8_end static_9 = { { 128, 150, 152, 0, 64, 66, 15, 0, 160, 134, 1, 0, 16, 39, 0, 0, 232, 3, 0, 0, 100, 0, 0, 0, 10, 0, 0, 0, 1, 0, 0, 0, 0, 0, 0, 0, 0, 0, 0, 0, 0, 0, 0, 0, 0, 0, 0, 0, 0, 0, 0, 0, 0, 0, 0, 0, 0, 0, 0, 0, 0, 0, 0, 0 } };
static const t_array4_i8_end static_10 = { { 110, 111, 110, 101 } };
static const t_array200_i8_end static_12 = { { 48, 48, 48, 49, 48, 50, 48, 51, 48, 52, 48, 53, 48, 54, 48, 55, 48, 56, 48, 57, 49, 48, 49, 49, 49, 50, 49, 51, 49, 52, 49, 53, 49, 54, 49, 55, 49, 56, 49, 57, 50, 48, 50, 49, 50, 50, 50, 51, 50, 52, 50, 53, 50, 54, 50, 55, 50, 56, 50, 57, 51, 48, 51, 49, 51, 50, 51, 51, 51, 52, 51, 53, 51, 54, 51, 55, 51, 56, 51, 57, 52, 48, 52, 49, 52, 50, 52, 51, 52, 52, 52, 53, 52, 54, 52, 55, 52, 56, 52, 57, 53, 48, 53, 49, 53, 50, 53, 51, 53, 52, 53, 53, 53, 54, 53, 55, 53, 56, 53, 57, 54, 48, 54, 49, 54, 50, 54, 51, 54, 52, 54, 53, 54, 54, 54, 55, 54, 56, 54, 57, 55, 48, 55, 49, 55, 50, 55, 51, 55, 52, 55, 53, 55, 54, 55, 55, 55, 56, 55, 57, 56, 48, 56, 49, 56, 50, 56, 51, 56, 52, 56, 53, 56, 54, 56, 55, 56, 56, 56, 57, 57, 48, 57, 49, 57, 50, 57, 51, 57, 52, 57, 53, 57, 54, 57, 55, 57, 56, 57, 57 } };
static const t_array3_i8_end static_14 = { { 80, 48, 68 } };
static const t_array2_i8_end static_15 = { { 80, 84 } };
static const t_array1_i8_end static_23 = { { 10 } };
static const t_array10_i8_end static_24 = { { 114, 101, 97, 100, 32, 102, 97, 117, 108, 116 } };
static const t_array11_i8_end static_25 = { { 119, 114, 105, 116, 101, 32, 102, 97, 117, 108, 116 } };
static const t_array4_i8_end static_27 = { { 32, 32, 32, 32 } };
static const t_array7_i32_end switch_table_caltool_form_texts_push_date_line_1f478b2d7b47a44d = { { 1852788000u, 1702188064u, 1684363040u, 1969771552u, 1769096736u, 1952535328u, 1853182752u } };

static uint32_t program(void);
static void caltool_form_output_Output_answer_e48cce946a840f3d(bytes a0, bytes a1);
static t_struct_i8_i32_end caltool_dates_answers_DateAnswersCommandAnswers_from_yo(uint32_t a0, uint32_t a1);
static t_struct_i8_i32_end caltool_dates_answers_DateAnswersCommandAnswers_from_iso(uint32_t a0, uint32_t a1, uint8_t a2);
static t_struct_i8_i32_end caltool_dates_answers_DateAnswersCommandAnswers_nth_weekday(uint32_t a0, uint32_t a1, uint8_t a2, uint8_t a3);
static t_struct_i8_i32_end caltool_form_asked_moved_by_days_e48cce946a840f3d(bytes a0, uint64_t a1);
static t_struct_i8_i32_end caltool_form_asked_moved_by_months_e48cce946a840f3d(bytes a0, uint8_t a1, uint32_t a2);
static t_struct_i8_i32_end caltool_dates_answers_DateAnswersCommandAnswers_from_ymd(uint32_t a0, uint32_t a1, uint32_t a2);
static void caltool_form_texts_push_week_line_1f478b2d7b47a44d(bytes a0, uint8_t a1, uint32_t a2, uint8_t a3);
static void caltool_form_texts_push_date_or_none_1f478b2d7b47a44d(bytes a0, uint8_t a1, uint32_t a2);
static void caltool_form_asked_moved_e48cce946a840f3d(bytes a0, bytes a1, uint64_t a2, uint32_t a3);
static void caltool_form_texts_push_moment_1f478b2d7b47a44d(bytes a0, bytes a1);
static void caltool_form_asked_difference_e48cce946a840f3d(bytes a0, bytes a1, bytes a2);
static void caltool_form_texts_push_distance_65536(bytes a0, bytes a1);
static void chrono_text_text_Text_push_natural_65536(bytes a0, uint64_t a1);
static t_struct_i8_i32_end caltool_form_asked_years_since_e48cce946a840f3d(bytes a0, bytes a1);
static void caltool_form_texts_push_years_65536(bytes a0, uint8_t a1, uint32_t a2);
static void caltool_form_texts_push_set_and_walk_65536(bytes a0, uint8_t a1, uint8_t a2);
static t_struct_i8_i32_end caltool_form_asked_first_of_days_e48cce946a840f3d(bytes a0, uint8_t a1);
static t_struct_i8_i32_end caltool_form_asked_moved_every_e48cce946a840f3d(bytes a0, uint32_t a1, uint32_t a2);
static void caltool_form_texts_push_date_line_1f478b2d7b47a44d(bytes a0, uint8_t a1, uint32_t a2);
static uint8_t std_io_io_buffer_Buffer_flush(bytes a0);
static uint8_t core_fmt_formatter_Formatter_write_indented_bf264aed5fa78656(bytes a0, bytes a1, uint64_t a2);
static uint8_t core_fmt_formatter_Formatter_write_raw_bf264aed5fa78656(bytes a0, bytes a1, uint64_t a2);

static uint32_t program(void)
{
    uint64_t a0_val57, r3_013, r3_sroa_5_0, r4_0, r3_0, r4_1, r3_08, r0_sroa_4_0, r0_sroa_0_0, r3_013_i_i_i_i5, r0_04, r3_013_2, r11, r5_sroa_4_019, r339, r11_i_i17, r5_sroa_4_019_i18, r339_i_i25, r11_i_pre, r339_2, r17, r3_2, a0_val, r4_2, r52, r30_2, r3_3, a0_a1_2, a0_a1, r15, r34, r37, r40, r35, r53, r29_i20, a4, r42, r49, a0_val_i_i4, notsub, r52_i_i_i_i14, r30_i_i_i_i7, r3_i_i_i_i_i_i_i_i8, a0_a1_i_i_i_i_i_i_i_i_i_i11, a1_val, r5_3, a1_a0, r16_2, a0_val_i10, r5_i_i11, a1_a0_2, r8, r9_3, r10_2, r30, r16_i_i12, r4_3, r52_2, r30_3, r3_4, a0_a1_3, r23, r33_pr, r48, r23_i_i21, r33_pr_i_i33, r48_i_i27, r10_5, r33_pr_2, r48_2;
    bytes r3_sroa_0_0, r5_sroa_0_018, r5_sroa_0_018_i19, r2_i31, r2_i22, r2_i7, r5, r9_i6, r4, r9, r1, r2, r3, r7_sroa_6_8_r4_sroa_idx, r7_sroa_7_8_r4_sroa_idx, r7_sroa_8_8_r4_sroa_idx, r7_sroa_9_8_r4_sroa_idx, v0, v1, r6_sroa_3_0_r9_sroa_idx, r6_sroa_4_0_r9_sroa_idx, r6_sroa_5_0_r9_sroa_idx, r6_sroa_6_0_r9_sroa_idx, r6_sroa_3_0_r9_sroa_idx_2, r6_sroa_4_0_r9_sroa_idx_2, r6_sroa_5_0_r9_sroa_idx_2, r6_sroa_6_0_r9_sroa_idx_2, r26, r13, r18, r45, r26_i_i_i_i6, r21, r21_2, r20_2, r24_2, r26_3, r8_sroa_0_sroa_5_0_r5_sroa_idx, r8_sroa_0_sroa_6_0_r5_sroa_idx, r8_sroa_0_sroa_7_0_r5_sroa_idx, r8_sroa_0_sroa_12_0_r5_sroa_idx, r8_sroa_5_0_r5_sroa_idx, r10_4, r20_i_i_i_i_i_i_i4, r45_2, r20_i_i20, r45_i_i26, r45_i_i_i_i_i3, r9_sroa_5_0_r2_i31_sroa_idx;
    uint8_t v3, r7, cond, r5_2, r2012_not, r20, r10, cond_2, r20_not, r25, r47, r127, r20_i18, r22_i19, exitcond_not, r28, r16, r9_2, r20_i_i_i5, r10_i_i_i_i_i_i_i9, cond_i_i_i_i_i12, r5_i_i_i16, r11_2, r26_2, exitcond_not_2, r2012_not_2, r20_3, r10_3, cond_3, r5_i_not, r52_i_i_i_i_i_i5, r13_i_i_i_i_i_i_i6, r18_i_i_i_i_i_i_i8, r35_i_i_i_i_i_i_i9, or_cond_not, r7_i_i_i_i_i_i_i_i7, r52_i22, r13_i_i23, r18_i_i31, r35_i_i34, or_cond54_not, r7_i_i_i28, r12, r13_2, r18_2, r35_2, or_cond56_not;
    uint32_t r13_sroa_0_0, r8_sroa_0_sroa_0_0_copyload21, v4;
    t_vector16_i8_end r15_2, r22;
    t_vector16_i1_end r29, r20_i_i_i_i3;
    uint16_t r33, r24, v2;
    uint64_t room_r2_i31[142];
    uint64_t room_r2_i22[3];
    uint64_t room_r2_i7[3];
    uint64_t room_r5[147];
    uint64_t room_r9_i6[5];
    uint64_t room_r4[5];
    uint64_t room_r9[5];
    uint64_t room_r1[8192];
    uint64_t room_r2[17];
    uint64_t room_r3[8254];
    r2_i31 = (bytes)room_r2_i31;
    r2_i22 = (bytes)room_r2_i22;
    r2_i7 = (bytes)room_r2_i7;
    r5 = (bytes)room_r5;
    r9_i6 = (bytes)room_r9_i6;
    r4 = (bytes)room_r4;
    r9 = (bytes)room_r9;
    r1 = (bytes)room_r1;
    r2 = (bytes)room_r2;
    r3 = (bytes)room_r3;
    memset(r1, 0, UINT64_C(65536));
    memset(r2, 0, UINT64_C(136));
    memset(r3, 0, UINT64_C(66032));
    r7_sroa_6_8_r4_sroa_idx = (r4 + 8);
    r7_sroa_7_8_r4_sroa_idx = (r4 + 16);
    r7_sroa_8_8_r4_sroa_idx = (r4 + 24);
    r7_sroa_9_8_r4_sroa_idx = (r4 + 32);
    v0 = (r3 + 65536);
    v1 = (r2 + 128);
    r6_sroa_3_0_r9_sroa_idx = (r9_i6 + 8);
    r6_sroa_4_0_r9_sroa_idx = (r9_i6 + 16);
    r6_sroa_5_0_r9_sroa_idx = (r9_i6 + 24);
    r6_sroa_6_0_r9_sroa_idx = (r9_i6 + 32);
    {
    a0_val57 = UINT64_C(0);
    goto at__join_5;
    }
    at__join_5:;
    r17 = (uint64_t)(a0_val57 + UINT64_C(1));
    r3_2 = host_read(0, r1, UINT64_C(65536));
    r7 = (int64_t)r3_2 < (int64_t)UINT64_C(0);
    if (r7) { goto at__arm_7; }
    goto at__arm_1;
    at__arm_1:;
    cond = r3_2 == UINT64_C(0);
    if (cond) { goto at__arm_6_thread; }
    goto at__join_13;
    at__arm_6_thread:;
    LOAD(uint64_t, a0_val, v1);
    r5_2 = a0_val == UINT64_C(0);
    if (r5_2) { goto at__caltool_dates_run_14d7f773bcc31a57_exit_i_i; }
    goto at__caltool_form_output_Output_answer_carried_e48cce946a840f3d_exit_i_i_i_i_i_i_i;
    at__arm_7:;
    (void)host_error();
    {
    v3 = 1;
    goto at__arm_2;
    }
    at__caltool_form_output_Output_answer_carried_e48cce946a840f3d_exit_i_i_i_i_i_i_i:;
    STORE(bytes, r9, r2);
    r6_sroa_3_0_r9_sroa_idx_2 = (r9 + 8);
    STORE(uint64_t, r6_sroa_3_0_r9_sroa_idx_2, a0_val);
    r6_sroa_4_0_r9_sroa_idx_2 = (r9 + 16);
    STORE(uint64_t, r6_sroa_4_0_r9_sroa_idx_2, UINT64_C(0));
    r6_sroa_5_0_r9_sroa_idx_2 = (r9 + 24);
    STORE(uint64_t, r6_sroa_5_0_r9_sroa_idx_2, a0_val);
    r6_sroa_6_0_r9_sroa_idx_2 = (r9 + 32);
    STORE(uint64_t, r6_sroa_6_0_r9_sroa_idx_2, UINT64_C(0));
    caltool_form_output_Output_answer_e48cce946a840f3d(r3, r9);
    STORE(uint64_t, v1, UINT64_C(0));
    LOAD(uint64_t, r4_2, v0);
    r2012_not = r4_2 == UINT64_C(0);
    if (r2012_not) { goto at__caltool_dates_run_14d7f773bcc31a57_exit_i_i; }
    { r3_013 = UINT64_C(0); goto at__join_5_2; }
    at__loop_2:;
    r52 = (uint64_t)(a0_a1_2 + r3_013);
    r20 = r52 < r4_2;
    if (r20) { { r3_013 = r52; goto at__join_5_2; } }
    goto at__caltool_dates_run_14d7f773bcc31a57_exit_i_i;
    at__join_5_2:;
    r26 = (r3 + (int64_t)r3_013);
    r30_2 = (uint64_t)(r4_2 - r3_013);
    r3_3 = host_write(1, r26, r30_2);
    r10 = (int64_t)r3_3 < (int64_t)UINT64_C(0);
    if (r10) { goto at__std_io_stdio_StdoutWrite_write_exit_thread_i_i_i_i_i_i_i_i_i_i; }
    goto at__std_io_stdio_StdoutWrite_write_exit_i_i_i_i_i_i_i_i_i_i;
    at__std_io_stdio_StdoutWrite_write_exit_thread_i_i_i_i_i_i_i_i_i_i:;
    (void)host_error();
    {
    v3 = 0;
    goto at__arm_2;
    }
    at__std_io_stdio_StdoutWrite_write_exit_i_i_i_i_i_i_i_i_i_i:;
    a0_a1_2 = r3_3 < r30_2 ? r3_3 : r30_2;
    cond_2 = a0_a1_2 == UINT64_C(0);
    if (cond_2) { { v3 = 0; goto at__arm_2; } }
    goto at__loop_2;
    at__join_13:;
    a0_a1 = r3_2 < UINT64_C(65536) ? r3_2 : UINT64_C(65536);
    {
    r3_sroa_5_0 = a0_a1;
    r3_sroa_0_0 = r1;
    goto at__loop_2_2;
    }
    at__loop_2_2:;
    {
    r4_0 = UINT64_C(0);
    r3_0 = UINT64_C(0);
    goto at__loop_2_3;
    }
    at__loop_2_3:;
    r15 = (uint64_t)(r3_0 + UINT64_C(16));
    r20_not = r15 > r3_sroa_5_0;
    if (r20_not) { goto at__after_1; }
    goto at__join_5_3;
    at__join_5_3:;
    r25 = r3_0 < UINT64_C(64);
    r13 = (r3_sroa_0_0 + (int64_t)r3_0);
    LOAD(uint8_t, r15_2.f[0], r13 + 0);
    LOAD(uint8_t, r15_2.f[1], r13 + 1);
    LOAD(uint8_t, r15_2.f[2], r13 + 2);
    LOAD(uint8_t, r15_2.f[3], r13 + 3);
    LOAD(uint8_t, r15_2.f[4], r13 + 4);
    LOAD(uint8_t, r15_2.f[5], r13 + 5);
    LOAD(uint8_t, r15_2.f[6], r13 + 6);
    LOAD(uint8_t, r15_2.f[7], r13 + 7);
    LOAD(uint8_t, r15_2.f[8], r13 + 8);
    LOAD(uint8_t, r15_2.f[9], r13 + 9);
    LOAD(uint8_t, r15_2.f[10], r13 + 10);
    LOAD(uint8_t, r15_2.f[11], r13 + 11);
    LOAD(uint8_t, r15_2.f[12], r13 + 12);
    LOAD(uint8_t, r15_2.f[13], r13 + 13);
    LOAD(uint8_t, r15_2.f[14], r13 + 14);
    LOAD(uint8_t, r15_2.f[15], r13 + 15);
    if (r25) { goto at__then_6; }
    { r4_1 = r4_0; goto at__join_8; }
    at__then_6:;
    r22.f[0] = (uint8_t)((uint32_t)r15_2.f[0] + (uint32_t)198u);
    r22.f[1] = (uint8_t)((uint32_t)r15_2.f[1] + (uint32_t)198u);
    r22.f[2] = (uint8_t)((uint32_t)r15_2.f[2] + (uint32_t)198u);
    r22.f[3] = (uint8_t)((uint32_t)r15_2.f[3] + (uint32_t)198u);
    r22.f[4] = (uint8_t)((uint32_t)r15_2.f[4] + (uint32_t)198u);
    r22.f[5] = (uint8_t)((uint32_t)r15_2.f[5] + (uint32_t)198u);
    r22.f[6] = (uint8_t)((uint32_t)r15_2.f[6] + (uint32_t)198u);
    r22.f[7] = (uint8_t)((uint32_t)r15_2.f[7] + (uint32_t)198u);
    r22.f[8] = (uint8_t)((uint32_t)r15_2.f[8] + (uint32_t)198u);
    r22.f[9] = (uint8_t)((uint32_t)r15_2.f[9] + (uint32_t)198u);
    r22.f[10] = (uint8_t)((uint32_t)r15_2.f[10] + (uint32_t)198u);
    r22.f[11] = (uint8_t)((uint32_t)r15_2.f[11] + (uint32_t)198u);
    r22.f[12] = (uint8_t)((uint32_t)r15_2.f[12] + (uint32_t)198u);
    r22.f[13] = (uint8_t)((uint32_t)r15_2.f[13] + (uint32_t)198u);
    r22.f[14] = (uint8_t)((uint32_t)r15_2.f[14] + (uint32_t)198u);
    r22.f[15] = (uint8_t)((uint32_t)r15_2.f[15] + (uint32_t)198u);
    r29.f[0] = r22.f[0] < 246u;
    r29.f[1] = r22.f[1] < 246u;
    r29.f[2] = r22.f[2] < 246u;
    r29.f[3] = r22.f[3] < 246u;
    r29.f[4] = r22.f[4] < 246u;
    r29.f[5] = r22.f[5] < 246u;
    r29.f[6] = r22.f[6] < 246u;
    r29.f[7] = r22.f[7] < 246u;
    r29.f[8] = r22.f[8] < 246u;
    r29.f[9] = r22.f[9] < 246u;
    r29.f[10] = r22.f[10] < 246u;
    r29.f[11] = r22.f[11] < 246u;
    r29.f[12] = r22.f[12] < 246u;
    r29.f[13] = r22.f[13] < 246u;
    r29.f[14] = r22.f[14] < 246u;
    r29.f[15] = r22.f[15] < 246u;
    r33 = (uint16_t)((uint16_t)r29.f[0] << 0 | (uint16_t)r29.f[1] << 1 | (uint16_t)r29.f[2] << 2 | (uint16_t)r29.f[3] << 3 | (uint16_t)r29.f[4] << 4 | (uint16_t)r29.f[5] << 5 | (uint16_t)r29.f[6] << 6 | (uint16_t)r29.f[7] << 7 | (uint16_t)r29.f[8] << 8 | (uint16_t)r29.f[9] << 9 | (uint16_t)r29.f[10] << 10 | (uint16_t)r29.f[11] << 11 | (uint16_t)r29.f[12] << 12 | (uint16_t)r29.f[13] << 13 | (uint16_t)r29.f[14] << 14 | (uint16_t)r29.f[15] << 15);
    r34 = (uint64_t)r33;
    r37 = (uint64_t)(r34 << (r3_0 & 63u));
    r40 = (uint64_t)(r37 + r4_0);
    {
    r4_1 = r40;
    goto at__join_8;
    }
    at__join_8:;
    r20_i_i_i_i3.f[0] = r15_2.f[0] == 10u;
    r20_i_i_i_i3.f[1] = r15_2.f[1] == 10u;
    r20_i_i_i_i3.f[2] = r15_2.f[2] == 10u;
    r20_i_i_i_i3.f[3] = r15_2.f[3] == 10u;
    r20_i_i_i_i3.f[4] = r15_2.f[4] == 10u;
    r20_i_i_i_i3.f[5] = r15_2.f[5] == 10u;
    r20_i_i_i_i3.f[6] = r15_2.f[6] == 10u;
    r20_i_i_i_i3.f[7] = r15_2.f[7] == 10u;
    r20_i_i_i_i3.f[8] = r15_2.f[8] == 10u;
    r20_i_i_i_i3.f[9] = r15_2.f[9] == 10u;
    r20_i_i_i_i3.f[10] = r15_2.f[10] == 10u;
    r20_i_i_i_i3.f[11] = r15_2.f[11] == 10u;
    r20_i_i_i_i3.f[12] = r15_2.f[12] == 10u;
    r20_i_i_i_i3.f[13] = r15_2.f[13] == 10u;
    r20_i_i_i_i3.f[14] = r15_2.f[14] == 10u;
    r20_i_i_i_i3.f[15] = r15_2.f[15] == 10u;
    r24 = (uint16_t)((uint16_t)r20_i_i_i_i3.f[0] << 0 | (uint16_t)r20_i_i_i_i3.f[1] << 1 | (uint16_t)r20_i_i_i_i3.f[2] << 2 | (uint16_t)r20_i_i_i_i3.f[3] << 3 | (uint16_t)r20_i_i_i_i3.f[4] << 4 | (uint16_t)r20_i_i_i_i3.f[5] << 5 | (uint16_t)r20_i_i_i_i3.f[6] << 6 | (uint16_t)r20_i_i_i_i3.f[7] << 7 | (uint16_t)r20_i_i_i_i3.f[8] << 8 | (uint16_t)r20_i_i_i_i3.f[9] << 9 | (uint16_t)r20_i_i_i_i3.f[10] << 10 | (uint16_t)r20_i_i_i_i3.f[11] << 11 | (uint16_t)r20_i_i_i_i3.f[12] << 12 | (uint16_t)r20_i_i_i_i3.f[13] << 13 | (uint16_t)r20_i_i_i_i3.f[14] << 14 | (uint16_t)r20_i_i_i_i3.f[15] << 15);
    v2 = (uint16_t)(r24 ? TRAILING(r24) : 16u);
    r47 = v2 < 16u;
    if (r47) { goto at__then_9; }
    { r4_0 = r4_1; r3_0 = r15; goto at__loop_2_3; }
    at__then_9:;
    r35 = (uint64_t)v2;
    r53 = (uint64_t)(r3_0 | r35);
    {
    r0_sroa_4_0 = r4_1;
    r0_sroa_0_0 = r53;
    goto at__chrono_text_search_first_at_exit_i_i_i_i_i_i_i;
    }
    at__after_1:;
    r127 = r3_0 < r3_sroa_5_0;
    if (r127) { { r3_08 = r3_0; goto at__join_5_i_i_i_i21; } }
    { r0_sroa_4_0 = r4_0; r0_sroa_0_0 = r3_0; goto at__chrono_text_search_first_at_exit_i_i_i_i_i_i_i; }
    at__join_5_i_i_i_i21:;
    r18 = (r3_sroa_0_0 + (int64_t)r3_08);
    LOAD(uint8_t, r20_i18, r18);
    r22_i19 = r20_i18 == 10u;
    if (r22_i19) { { r0_sroa_4_0 = r4_0; r0_sroa_0_0 = r3_08; goto at__chrono_text_search_first_at_exit_i_i_i_i_i_i_i; } }
    goto at__join_8_2;
    at__join_8_2:;
    r29_i20 = (uint64_t)(r3_08 + UINT64_C(1));
    exitcond_not = r29_i20 == r3_sroa_5_0;
    if (exitcond_not) { goto at__after_1_2; }
    { r3_08 = r29_i20; goto at__join_5_i_i_i_i21; }
    at__chrono_text_search_first_at_exit_i_i_i_i_i_i_i:;
    r28 = r0_sroa_0_0 == r3_sroa_5_0;
    if (r28) { goto at__after_1_2; }
    goto at__arm_3;
    at__arm_3:;
    r16 = r3_sroa_5_0 > UINT64_C(79);
    a4 = r16 ? r0_sroa_4_0 : UINT64_C(0);
    r42 = (uint64_t)(r0_sroa_0_0 + UINT64_C(1));
    r45 = (r3_sroa_0_0 + (int64_t)r42);
    r49 = (uint64_t)(r3_sroa_5_0 - r42);
    STORE(bytes, r4, r3_sroa_0_0);
    STORE(uint64_t, r7_sroa_6_8_r4_sroa_idx, r3_sroa_5_0);
    STORE(uint64_t, r7_sroa_7_8_r4_sroa_idx, UINT64_C(0));
    STORE(uint64_t, r7_sroa_8_8_r4_sroa_idx, r0_sroa_0_0);
    STORE(uint64_t, r7_sroa_9_8_r4_sroa_idx, a4);
    LOAD(uint64_t, a0_val_i_i4, v0);
    notsub = (uint64_t)(a0_val_i_i4 + UINT64_C(18446744073709486079));
    r9_2 = notsub < UINT64_C(18446744073709551552);
    if (r9_2) { goto at__arm_7_2; }
    { r3_013_i_i_i_i5 = UINT64_C(0); goto at__join_5_i_i_i4; }
    at__loop_2_i_i_i_i13:;
    r52_i_i_i_i14 = (uint64_t)(a0_a1_i_i_i_i_i_i_i_i_i_i11 + r3_013_i_i_i_i5);
    r20_i_i_i5 = r52_i_i_i_i14 < a0_val_i_i4;
    if (r20_i_i_i5) { { r3_013_i_i_i_i5 = r52_i_i_i_i14; goto at__join_5_i_i_i4; } }
    goto at__arm_1_i_i_i15;
    at__join_5_i_i_i4:;
    r26_i_i_i_i6 = (r3 + (int64_t)r3_013_i_i_i_i5);
    r30_i_i_i_i7 = (uint64_t)(a0_val_i_i4 - r3_013_i_i_i_i5);
    r3_i_i_i_i_i_i_i_i8 = host_write(1, r26_i_i_i_i6, r30_i_i_i_i7);
    r10_i_i_i_i_i_i_i9 = (int64_t)r3_i_i_i_i_i_i_i_i8 < (int64_t)UINT64_C(0);
    if (r10_i_i_i_i_i_i_i9) { goto at__arm_15_sink_split; }
    goto at__std_io_stdio_StdoutWrite_write_exit_i_i_i_i_i10_i_i_i_i_i;
    at__std_io_stdio_StdoutWrite_write_exit_i_i_i_i_i10_i_i_i_i_i:;
    a0_a1_i_i_i_i_i_i_i_i_i_i11 = r3_i_i_i_i_i_i_i_i8 < r30_i_i_i_i7 ? r3_i_i_i_i_i_i_i_i8 : r30_i_i_i_i7;
    cond_i_i_i_i_i12 = a0_a1_i_i_i_i_i_i_i_i_i_i11 == UINT64_C(0);
    if (cond_i_i_i_i_i12) { goto at__arm_15; }
    goto at__loop_2_i_i_i_i13;
    at__arm_1_i_i_i15:;
    STORE(uint64_t, v0, UINT64_C(0));
    goto at__arm_7_2;
    at__arm_7_2:;
    LOAD(uint64_t, a1_val, v1);
    r5_i_i_i16 = a1_val == UINT64_C(0);
    if (r5_i_i_i16) { goto at__then_1_i9; }
    goto at__join_3_i7;
    at__then_1_i9:;
    caltool_form_output_Output_answer_e48cce946a840f3d(r3, r4);
    goto at__caltool_form_output_Output_answer_carried_e48cce946a840f3d_exit_i_i_i_i_i_i;
    at__join_3_i7:;
    r5_3 = (uint64_t)(UINT64_C(121) - a1_val);
    a1_a0 = r5_3 < r0_sroa_0_0 ? r5_3 : r0_sroa_0_0;
    r21 = (r2 + (int64_t)a1_val);
    memcpy(r21, r3_sroa_0_0, a1_a0);
    r16_2 = (uint64_t)(a1_a0 + a1_val);
    STORE(uint64_t, v1, r16_2);
    STORE(bytes, r9_i6, r2);
    STORE(uint64_t, r6_sroa_3_0_r9_sroa_idx, r16_2);
    STORE(uint64_t, r6_sroa_4_0_r9_sroa_idx, UINT64_C(0));
    STORE(uint64_t, r6_sroa_5_0_r9_sroa_idx, r16_2);
    STORE(uint64_t, r6_sroa_6_0_r9_sroa_idx, UINT64_C(0));
    caltool_form_output_Output_answer_e48cce946a840f3d(r3, r9_i6);
    STORE(uint64_t, v1, UINT64_C(0));
    goto at__caltool_form_output_Output_answer_carried_e48cce946a840f3d_exit_i_i_i_i_i_i;
    at__caltool_form_output_Output_answer_carried_e48cce946a840f3d_exit_i_i_i_i_i_i:;
    {
    r3_sroa_5_0 = r49;
    r3_sroa_0_0 = r45;
    goto at__loop_2_2;
    }
    at__after_1_2:;
    LOAD(uint64_t, a0_val_i10, v1);
    r5_i_i11 = (uint64_t)(UINT64_C(121) - a0_val_i10);
    a1_a0_2 = r5_i_i11 < r3_sroa_5_0 ? r5_i_i11 : r3_sroa_5_0;
    r21_2 = (r2 + (int64_t)a0_val_i10);
    r8 = (uint64_t)((uintptr_t)r21_2);
    r9_3 = (uint64_t)((uintptr_t)r3_sroa_0_0);
    r10_2 = (uint64_t)(r8 - r9_3);
    r11_2 = r10_2 < a1_a0_2;
    if (r11_2) { { r0_04 = UINT64_C(0); goto at__join_7; } }
    goto at__apart_2;
    at__apart_2:;
    memcpy(r21_2, r3_sroa_0_0, a1_a0_2);
    goto at__chrono_text_text_Text_push_clipped_121_exit_i_i_i_i_i_i;
    at__join_7:;
    r20_2 = (r21_2 + (int64_t)r0_04);
    r24_2 = (r3_sroa_0_0 + (int64_t)r0_04);
    LOAD(uint8_t, r26_2, r24_2);
    STORE(uint8_t, r20_2, r26_2);
    r30 = (uint64_t)(r0_04 + UINT64_C(1));
    exitcond_not_2 = r30 == a1_a0_2;
    if (exitcond_not_2) { goto at__chrono_text_text_Text_push_clipped_121_exit_i_i_i_i_i_i; }
    { r0_04 = r30; goto at__join_7; }
    at__chrono_text_text_Text_push_clipped_121_exit_i_i_i_i_i_i:;
    r16_i_i12 = (uint64_t)(a1_a0_2 + a0_val_i10);
    STORE(uint64_t, v1, r16_i_i12);
    LOAD(uint64_t, r4_3, v0);
    r2012_not_2 = r4_3 == UINT64_C(0);
    if (r2012_not_2) { goto at__caltool_form_run_answer_piece_8fb65d2c90303ce1_exit_i_i_i_i_i; }
    { r3_013_2 = UINT64_C(0); goto at__join_5_i_i13; }
    at__loop_2_i_i14:;
    r52_2 = (uint64_t)(a0_a1_3 + r3_013_2);
    r20_3 = r52_2 < r4_3;
    if (r20_3) { { r3_013_2 = r52_2; goto at__join_5_i_i13; } }
    goto at__caltool_form_run_answer_piece_8fb65d2c90303ce1_exit_i_i_i_i_i;
    at__join_5_i_i13:;
    r26_3 = (r3 + (int64_t)r3_013_2);
    r30_3 = (uint64_t)(r4_3 - r3_013_2);
    r3_4 = host_write(1, r26_3, r30_3);
    r10_3 = (int64_t)r3_4 < (int64_t)UINT64_C(0);
    if (r10_3) { goto at__arm_15_sink_split; }
    goto at__std_io_stdio_StdoutWrite_write_exit_i_i_i_i_i_i_i_i_i;
    at__std_io_stdio_StdoutWrite_write_exit_i_i_i_i_i_i_i_i_i:;
    a0_a1_3 = r3_4 < r30_3 ? r3_4 : r30_3;
    cond_3 = a0_a1_3 == UINT64_C(0);
    if (cond_3) { goto at__arm_15; }
    goto at__loop_2_i_i14;
    at__caltool_form_run_answer_piece_8fb65d2c90303ce1_exit_i_i_i_i_i:;
    STORE(uint64_t, v0, UINT64_C(0));
    r5_i_not = r17 == UINT64_C(18446744073709551615);
    if (r5_i_not) { { v3 = 1; goto at__arm_2; } }
    { a0_val57 = r17; goto at__join_5; }
    at__arm_15_sink_split:;
    (void)host_error();
    goto at__arm_15;
    at__arm_15:;
    {
    v3 = 0;
    goto at__arm_2;
    }
    at__caltool_dates_run_14d7f773bcc31a57_exit_i_i:;
    {
    r13_sroa_0_0 = 0;
    goto at__caltool_main_run_exit;
    }
    at__arm_2:;
    STORE(uint32_t, r5, 2);
    r8_sroa_0_sroa_5_0_r5_sroa_idx = (r5 + 4);
    memset(r8_sroa_0_sroa_5_0_r5_sroa_idx, 0, UINT64_C(1132));
    r8_sroa_0_sroa_6_0_r5_sroa_idx = (r5 + 1136);
    STORE(uint32_t, r8_sroa_0_sroa_6_0_r5_sroa_idx, 32u);
    r8_sroa_0_sroa_7_0_r5_sroa_idx = (r5 + 1140);
    r8_sroa_0_sroa_12_0_r5_sroa_idx = (r5 + 1152);
    memset(r8_sroa_0_sroa_7_0_r5_sroa_idx, 0, UINT64_C(12));
    STORE(uint64_t, r8_sroa_0_sroa_12_0_r5_sroa_idx, UINT64_C(18446744073709551615));
    r8_sroa_5_0_r5_sroa_idx = (r5 + 1160);
    memset(r8_sroa_5_0_r5_sroa_idx, 0, UINT64_C(16));
    memcpy(r2_i7, r8_sroa_0_sroa_6_0_r5_sroa_idx, UINT64_C(24));
    STORE(uint32_t, r8_sroa_0_sroa_6_0_r5_sroa_idx, 32u);
    memset(r8_sroa_0_sroa_7_0_r5_sroa_idx, 0, UINT64_C(12));
    STORE(uint64_t, r8_sroa_0_sroa_12_0_r5_sroa_idx, UINT64_C(18446744073709551615));
    r10_4 = (r5 + 1032);
    if (v3) { { r11 = UINT64_C(0); r5_sroa_4_019 = UINT64_C(10); r5_sroa_0_018 = (bytes)&static_24; goto at__arm_3_2; } }
    { r11_i_i17 = UINT64_C(0); r5_sroa_4_019_i18 = UINT64_C(11); r5_sroa_0_018_i19 = (bytes)&static_25; goto at__arm_3_i16; }
    at__arm_3_2:;
    r20_i_i_i_i_i_i_i4 = (r5_sroa_0_018 + 1);
    r23 = (uint64_t)(r5_sroa_4_019 + UINT64_C(18446744073709551615));
    LOAD(uint8_t, r52_i_i_i_i_i_i5, r5_sroa_0_018);
    r13_i_i_i_i_i_i_i6 = r11 > UINT64_C(1023);
    if (r13_i_i_i_i_i_i_i6) { goto at__then_2; }
    { r339 = r11; goto at__std_io_io_buffer_Buffer_push_exit_i_i_i_i_i_i_i_i; }
    at__then_2:;
    r18_i_i_i_i_i_i_i8 = std_io_io_buffer_Buffer_flush(r5);
    LOAD(uint64_t, r33_pr, r10_4);
    r35_i_i_i_i_i_i_i9 = r33_pr < UINT64_C(1024);
    or_cond_not = r18_i_i_i_i_i_i_i8 ? r35_i_i_i_i_i_i_i9 : 0;
    if (or_cond_not) { { r339 = r33_pr; goto at__std_io_io_buffer_Buffer_push_exit_i_i_i_i_i_i_i_i; } }
    goto at__core_fmt_formatter_Formatter_write_piece_8dd0f09a67f2e872_exit_thread_i_i_i_i_i;
    at__std_io_io_buffer_Buffer_push_exit_i_i_i_i_i_i_i_i:;
    r45_2 = (r8_sroa_0_sroa_5_0_r5_sroa_idx + (int64_t)r339);
    STORE(uint8_t, r45_2, r52_i_i_i_i_i_i5);
    r48 = (uint64_t)(r339 + UINT64_C(1));
    STORE(uint64_t, r10_4, r48);
    r7_i_i_i_i_i_i_i_i7 = r23 == UINT64_C(0);
    if (r7_i_i_i_i_i_i_i_i7) { { r11_i_pre = r48; goto at__arm_1_2; } }
    { r11 = r48; r5_sroa_4_019 = r23; r5_sroa_0_018 = r20_i_i_i_i_i_i_i4; goto at__arm_3_2; }
    at__arm_3_i16:;
    r20_i_i20 = (r5_sroa_0_018_i19 + 1);
    r23_i_i21 = (uint64_t)(r5_sroa_4_019_i18 + UINT64_C(18446744073709551615));
    LOAD(uint8_t, r52_i22, r5_sroa_0_018_i19);
    r13_i_i23 = r11_i_i17 > UINT64_C(1023);
    if (r13_i_i23) { goto at__then_2_i_i30; }
    { r339_i_i25 = r11_i_i17; goto at__std_io_io_buffer_Buffer_push_exit_i24_i_i_i_i_i_i_i; }
    at__then_2_i_i30:;
    r18_i_i31 = std_io_io_buffer_Buffer_flush(r5);
    LOAD(uint64_t, r33_pr_i_i33, r10_4);
    r35_i_i34 = r33_pr_i_i33 < UINT64_C(1024);
    or_cond54_not = r18_i_i31 ? r35_i_i34 : 0;
    if (or_cond54_not) { { r339_i_i25 = r33_pr_i_i33; goto at__std_io_io_buffer_Buffer_push_exit_i24_i_i_i_i_i_i_i; } }
    goto at__core_fmt_formatter_Formatter_write_piece_8dd0f09a67f2e872_exit_thread_i_i_i_i_i;
    at__std_io_io_buffer_Buffer_push_exit_i24_i_i_i_i_i_i_i:;
    r45_i_i26 = (r8_sroa_0_sroa_5_0_r5_sroa_idx + (int64_t)r339_i_i25);
    STORE(uint8_t, r45_i_i26, r52_i22);
    r48_i_i27 = (uint64_t)(r339_i_i25 + UINT64_C(1));
    STORE(uint64_t, r10_4, r48_i_i27);
    r7_i_i_i28 = r23_i_i21 == UINT64_C(0);
    if (r7_i_i_i28) { { r11_i_pre = r48_i_i27; goto at__arm_1_2; } }
    { r11_i_i17 = r48_i_i27; r5_sroa_4_019_i18 = r23_i_i21; r5_sroa_0_018_i19 = r20_i_i20; goto at__arm_3_i16; }
    at__core_fmt_formatter_Formatter_write_piece_8dd0f09a67f2e872_exit_thread_i_i_i_i_i:;
    memcpy(r8_sroa_0_sroa_6_0_r5_sroa_idx, r2_i7, UINT64_C(24));
    goto at__join_4;
    at__arm_1_2:;
    memcpy(r8_sroa_0_sroa_6_0_r5_sroa_idx, r2_i7, UINT64_C(24));
    memcpy(r2_i22, r8_sroa_0_sroa_6_0_r5_sroa_idx, UINT64_C(24));
    STORE(uint32_t, r8_sroa_0_sroa_6_0_r5_sroa_idx, 32u);
    memset(r8_sroa_0_sroa_7_0_r5_sroa_idx, 0, UINT64_C(12));
    STORE(uint64_t, r8_sroa_0_sroa_12_0_r5_sroa_idx, UINT64_C(18446744073709551615));
    LOAD(uint64_t, r10_5, r8_sroa_5_0_r5_sroa_idx);
    r12 = r10_5 == UINT64_C(0);
    if (r12) { goto at__arm_3_lr_ph; }
    goto at__else_2;
    at__arm_3_lr_ph:;
    r13_2 = r11_i_pre > UINT64_C(1023);
    if (r13_2) { goto at__then_2_2; }
    { r339_2 = r11_i_pre; goto at__std_io_io_buffer_Buffer_push_exit_i_i_i_i_i_i; }
    at__then_2_2:;
    r18_2 = std_io_io_buffer_Buffer_flush(r5);
    LOAD(uint64_t, r33_pr_2, r10_4);
    r35_2 = r33_pr_2 < UINT64_C(1024);
    or_cond56_not = r18_2 ? r35_2 : 0;
    if (or_cond56_not) { { r339_2 = r33_pr_2; goto at__std_io_io_buffer_Buffer_push_exit_i_i_i_i_i_i; } }
    goto at__core_fmt_formatter_Formatter_pad_bf264aed5fa78656_exit_i_i_i_i_i;
    at__std_io_io_buffer_Buffer_push_exit_i_i_i_i_i_i:;
    r45_i_i_i_i_i3 = (r8_sroa_0_sroa_5_0_r5_sroa_idx + (int64_t)r339_2);
    STORE(uint8_t, r45_i_i_i_i_i3, 10u);
    r48_2 = (uint64_t)(r339_2 + UINT64_C(1));
    STORE(uint64_t, r10_4, r48_2);
    goto at__core_fmt_formatter_Formatter_pad_bf264aed5fa78656_exit_i_i_i_i_i;
    at__else_2:;
    (void)core_fmt_formatter_Formatter_write_indented_bf264aed5fa78656(r5, (bytes)&static_23, UINT64_C(1));
    goto at__core_fmt_formatter_Formatter_pad_bf264aed5fa78656_exit_i_i_i_i_i;
    at__core_fmt_formatter_Formatter_pad_bf264aed5fa78656_exit_i_i_i_i_i:;
    memcpy(r8_sroa_0_sroa_6_0_r5_sroa_idx, r2_i22, UINT64_C(24));
    goto at__join_4;
    at__join_4:;
    LOAD(uint32_t, r8_sroa_0_sroa_0_0_copyload21, r5);
    STORE(uint32_t, r2_i31, r8_sroa_0_sroa_0_0_copyload21);
    r9_sroa_5_0_r2_i31_sroa_idx = (r2_i31 + 4);
    memcpy(r9_sroa_5_0_r2_i31_sroa_idx, r8_sroa_0_sroa_5_0_r5_sroa_idx, UINT64_C(1132));
    (void)std_io_io_buffer_Buffer_flush(r2_i31);
    v4 = v3 ? 1 : 2;
    {
    r13_sroa_0_0 = v4;
    goto at__caltool_main_run_exit;
    }
    at__caltool_main_run_exit:;
    return r13_sroa_0_0;
}

static void caltool_form_output_Output_answer_e48cce946a840f3d(bytes a0, bytes a1)
{
    uint64_t r3_08, common_ret_op, r2_sroa_0_0_i_ph, r2_0_i1331, r3_i_sroa_9_01330, r2_sroa_0_0_i26, r3_i_sroa_9_0_lcssa, r2_0_i_lcssa, r4_01349, r6_sroa_0_01348, r5_sroa_5_01347, common_ret_op_2, r4_017, r5_016, r5_0_lcssa, r4_0_lcssa, r3_012, r4_011, r4_0_pn, r5_0_pn, r5_sroa_4_0_i44, r7_sroa_4_i185_sroa_3_1_ph, r7_sroa_4_i185_sroa_5_1_ph, r0_sroa_4_0_i_i_i_ph, r0_sroa_4_0, r0_04, r0_04_i_i_i_i_i_i_i2526, r0_04_i_i_i_i_i_i_i2560, r0_04_i_i_i_i_i_i_i2590, r0_04_i_i_i_i_i_i_i2632, r0_04_i_i_i_i_i_i_i2671, r0_04_i_i_i_i_i_i_i2714, r0_04_i_i_i_i_i_i_i2762, r0_04_i_i_i_i_i_i_i2809, r0_04_i_i_i_i_i_i_i2867, r0_04_i_i_i_i_i_i_i2912, r4_i24, r4_08, r0_04_i_i_i_i_i_i_i2947, r4_08_i_i2973, r0_04_i_i_i_i_i_i_i3008, r0_04_i_i_i_i_i_i_i3060, r0_04_2, a0_val, a0_val2, r9, r14, r16_2, r35, a1_a0, r29, r9_i5, r13_i9, r9_i61, r9_i_i_i4, r1_i72, r9_i75, r47, r54, r9_i85, r8, r11_i11, r32_i_i95, r43_i_i98, r9_2, v6, old, r1_i34, r1_i36, v9, r60, r67_i106, r70, r1_i108, r1_i115, r9_i118, r32, r43_2, r9_i131, v11, old1323, neg, v13, r12_i2, r12_i9, r12_i16, r12_i23, r12_i30, r12_i37, r12_i44, r1_i_i160, r25, neg_i8, v22, r12_i2_i16, r12_i9_i25, r12_i16_i34, r12_i23_i43, r12_i30_i52, r12_i37_i61, r12_i44_i70, r1_i77, r1_i_i80, r26_i_i81, r1_i50_i85, r26_i7_i86, r47_i87, r1_i51_i91, r26_i14_i92, r1_i52_i97, r26_i21_i98, r1_i53_i103, r26_i28_i104, r1_i54_i109, r26_i35_i110, r1_i55_i115, r26_i42_i116, r1_i56_i121, r52, r56_i93, r65_i99, r74_i105, r83_i111, r92_i117, r101_i123, r55, r29_i_i_i5, r9_0_2, r90, r1_i_i172, r9_i_i173, r16, a1_a0_2, r39, r1_i10, r44_i_i176, r46, r17, r1_i9_3, v31, r3_0, r43, r29_2, r9_0, r92, r9_i195, r67_2, r74, r54_2, r58_2, v32, r56_2, v34, r11_3, r8_2, r10_2, r30, r16_3, r53_i2502, v35, r86_i2506, r11_i2518, r8_i_i_i_i_i_i_i2520, r10_i_i_i_i_i_i_i2521, r30_i_i_i_i_i_i_i2530, r16_i2524, r64_i2536, v37, r97, r130, v39, r11_i2552, r8_i_i_i_i_i_i_i2554, r10_i_i_i_i_i_i_i2555, r30_i_i_i_i_i_i_i2564, r16_i2558, r42_2, v40, r11_i2582, r8_i_i_i_i_i_i_i2584, r10_i_i_i_i_i_i_i2585, r30_i_i_i_i_i_i_i2594, r16_i2588, r75, v43, r108, r141, v45, r170, r11_i2624, r8_i_i_i_i_i_i_i2626, r10_i_i_i_i_i_i_i2627, r30_i_i_i_i_i_i_i2636, r16_i2630, r60_3, r64_i2643, v46, r62_i2648, v48, r84_i2654, r11_i2663, r8_i_i_i_i_i_i_i2665, r10_i_i_i_i_i_i_i2666, r30_i_i_i_i_i_i_i2675, r16_i2669, r65, r69_i2682, v49, r67_3, v51, r89_i2691, v52, a1_lobit, r8_sroa_7_0, r11_i2706, r8_i_i_i_i_i_i_i2708, r10_i_i_i_i_i_i_i2709, r30_i_i_i_i_i_i_i2718, r16_i2712, r65_i2726, r69_i2727, v53, r67_i2733, v55, r89_i2738, v56, r11_i2754, r8_i_i_i_i_i_i_i2756, r10_i_i_i_i_i_i_i2757, r30_i_i_i_i_i_i_i2766, r16_i2760, r99_i2774, r103_i2775, v57, r101_i2780, v59, r123, r127_i_i5, r129, r125_i_i6, v60, v61, r153_i_i7, r151, v62, v63, v64, v65, r11_i2801, r8_i_i_i_i_i_i_i2803, r10_i_i_i_i_i_i_i2804, r30_i_i_i_i_i_i_i2813, r16_i2807, r128, r132_i2821, v66, r130_i2827, v68, r152, r156, r158_i_i4, r154_i2837, v69, v70, r179, r183, v71, r181, v73, r203_i2846, r207_i2847, r209_i2848, r205_i2851, v74, v75, v76, v77, v78, v79, v80, v81, v82, r11_i2859, r8_i_i_i_i_i_i_i2861, r10_i_i_i_i_i_i_i2862, r30_i_i_i_i_i_i_i2871, r16_i2865, r74_i2878, r78_i2879, v83, r76_i2885, v85, r98_i2891, r102_i2892, v86, r100_i2894, v88, v89, v90, v91, r11_i2904, r8_i_i_i_i_i_i_i2906, r10_i_i_i_i_i_i_i2907, r30_i_i_i_i_i_i_i2916, r16_i2910, r55_i2920, v92, r48_i2926, r33_2, r39_3, v93, r64, r11_i2939, r8_i_i_i_i_i_i_i2941, r10_i_i_i_i_i_i_i2942, r30_i_i_i_i_i_i_i2951, r16_i2945, r67_i2957, r71_i2958, v94, r69_i2964, v96, r58_i2969, r33_i_i2975, r39_i_i2977, v97, r64_i_i2985, r11_i3000, r8_i_i_i_i_i_i_i3002, r10_i_i_i_i_i_i_i3003, r30_i_i_i_i_i_i_i3012, r16_i3006, r76_i3021, r80_i3022, v98, r78_i3028, v100, r100_i3034, v101, r133_i3039, r11_i3052, r8_i_i_i_i_i_i_i3054, r10_i_i_i_i_i_i_i3055, r30_i_i_i_i_i_i_i3064, r16_i3058, r11_5, r8_3, r10_4, r30_2, r16_4, r5, r11_7;
    uint8_t r3_sroa_17_0_i_ph59, r3_sroa_17_0_i_ph58, r1_0_in_i114, r1_0_in, r3_sroa_0_07, r4_i206_sroa_10_0, r4_i206_sroa_12_0, r3_sroa_0_07_i_i2974, r4_i225_sroa_21_0, r20, r19_not, r31, r127_i_not, r20_i6, r22, exitcond_not, r103, r109, r116, r121, cond35, r127, cond34, r132, r139, r144, cond32, r149, cond33, r155, cond30, r160, cond31, r166, cond28, r171, cond29, r177, cond26, r182, cond27, r188, cond24, r193, cond25, r198, r205, r210, r215, cond22, r220, cond23, r226, cond20, r231, cond21, r237, cond17, r242, cond18, r247, cond19, r253, cond14, r258, cond15, r263, cond16, r268, r275, r280, cond10, r285, cond11, r290, cond12, r295, cond13, r301, cond6, r306, cond7, r311, cond8, r316, cond9, r321, r328, cond, r333, cond1, r338, cond2, r343, cond3, r348, cond4, r353, cond5, r9_i581328, r9_i67, r6_i6, r13_i69, r12_i7, r13_i71, r1_i9, r33, r9_i58, r9_i821346, r14_not, r17_i12, or_cond1321, r34_i_i96, r26_i_i99, r6_i23, r13_3, r12, or_cond_i103, or_cond1322, or_cond_i103_old, r13_4, r1_i9_2, r13_i35, r1, r9_i_i109, r13_i_i111, r14_i112, r17_i10, r34, r26, r6_i135, r13_i_i139, r12_i140, or_cond, or_cond1324, or_cond_i_old, r14_i153, r36, r1_2, r42, r1_i_i5, r51_i_i158, r1_i_i12, r60_2, r1_i_i19, r69, r1_i_i26, r78, r1_i_i33, r87, r1_i_i40, r96, r1_i_i47, r36_i7, r1_i_i_i11, r42_i15, r1_i_i5_i19, r51_i24, r1_i_i12_i28, r60_i33, r1_i_i19_i37, r69_i42, r1_i_i26_i46, r78_i51, r1_i_i33_i55, r87_i60, r1_i_i40_i64, r96_i69, r1_i_i47_i73, r36_i78, r1_i_i_i79, r42_i83, r1_i_i5_i84, r51_i89, r1_i_i12_i90, r60_i95, r1_i_i19_i96, r69_i101, r1_i_i26_i102, r78_i107, r1_i_i33_i108, r87_i113, r1_i_i40_i114, r96_i119, r1_i_i47_i120, r13_i_i_i170, r14_i_i171, r1915_not, r27, r1_i_i_i175, r31_2, exitcond_not_2, r1610, r24_2, r1_i_i_i_i183, r28, r13_5, exitcond_not_3, r44, r6_i14, r13_i_i16, r12_i17, r19_i_i181, r40_i_i182, or_cond_2, r9_i82, r28_2, v33, or_cond_3, r70_i2325, r11_4, r26_3, exitcond_not_4, r30_i2498, v36, r12_not, r85_i2179, r11_i_i_i_i_i_i_i2522, r26_i_i_i_i_i_i_i2529, exitcond_not_i_i_i_i_i_i_i2531, r38, v38, r12_not_i_i2541, or_cond_4, r17_2, r19, r102_i2037, r11_i_i_i_i_i_i_i2556, r26_i_i_i_i_i_i_i2563, exitcond_not_i_i_i_i_i_i_i2565, cond_i_i8, v41, or_cond_i_i_i_i2576, spec_select1_i_i_i2578, r11_i_i_i_i_i_i_i2586, r26_i_i_i_i_i_i_i2593, exitcond_not_i_i_i_i_i_i_i2595, r46_2, v44, r12_not_i_i2607, or_cond_i_i2612, r17_i_i2613, r19_i_i2614, r12_not_i23, spec_select, r134_i1753, r11_i_i_i_i_i_i_i2628, r26_i_i_i_i_i_i_i2635, exitcond_not_i_i_i_i_i_i_i2637, r31_i2639, v47, or_cond_i2649, r147_i1611, r11_i_i_i_i_i_i_i2667, r26_i_i_i_i_i_i_i2674, exitcond_not_i_i_i_i_i_i_i2676, r36_2, v50, or_cond_i2688, or_cond_i_i2692, r0_sroa_2747_sroa_0_sroa_0_0_extract_trunc_i1381, r165_i1465, r11_i_i_i_i_i_i_i2710, r26_i_i_i_i_i_i_i2717, exitcond_not_i_i_i_i_i_i_i2719, r36_i2721, v54, or_cond_i2735, or_cond_i_i2739, r17_i_i2743, r19_i_i2744, r176_i1319, r11_i_i_i_i_i_i_i2758, r26_i_i_i_i_i_i_i2765, exitcond_not_i_i_i_i_i_i_i2767, r55_i2769, v58, or_cond_i2782, r12_not_i_i9, or_cond_5, r12_not_i_i2790, r11_i_i_i_i_i_i_i2805, r26_i_i_i_i_i_i_i2812, exitcond_not_i_i_i_i_i_i_i2814, r69_i2816, v67, or_cond_i2829, r12_not_i_i14, or_cond3774, v72, or_cond470, r12_not_i_i55, or_cond472, r11_i_i_i_i_i_i_i2863, r26_i_i_i_i_i_i_i2870, exitcond_not_i_i_i_i_i_i_i2872, r39_2, v84, or_cond_i2887, v87, or_cond173, r199_i881, r11_i_i_i_i_i_i_i2908, r26_i_i_i_i_i_i_i2915, exitcond_not_i_i_i_i_i_i_i2917, r26_i2919, or_cond_i_i2921, r17_i_i2922, r19_i_i2923, a1_2, r276_not, or_cond_i_i_i_i2, r17_3, r19_2, r11_i_i_i_i_i_i3, r6, exitcond_not_5, r11_i_i_i_i_i_i_i2943, r26_i_i_i_i_i_i_i2950, exitcond_not_i_i_i_i_i_i_i2952, r32_i2954, v95, or_cond_i2966, r276_not_i_i2971, or_cond_i_i_i2978, r17_i_i_i2981, r19_i_i_i2982, r11_i_i_i_i_i2983, r6_i_i_i_i2984, exitcond_not_i_i2986, r216_i594, r11_i_i_i_i_i_i_i3004, r26_i_i_i_i_i_i_i3011, exitcond_not_i_i_i_i_i_i_i3013, r44_i3015, v99, or_cond_i3030, v102, r12_not_i_i3040, r232, r11_i_i_i_i_i_i_i3056, r26_i_i_i_i_i_i_i3063, exitcond_not_i_i_i_i_i_i_i3065, r11_6, r26_4, exitcond_not_6;
    bytes r10_i28, r20_i1530, r22_i1393, r26_i1119, r57_i1126, r29_i982, r30_i983, r59_i989, r31_i846, r32_i847, r35_i572, r37, r3, v0, v1, r15, r1_sroa_0_0_copyload_i_pre, r13, r13_i5, r18, r13_2, r12_i8, r119, r125, r142, r147, r153, r158, r164, r169, r175, r180, r186, r191, r208, r213, r218, r224, r229, r235, r240, r245, r251, r256, r261, r278, r283, r288, r293, r299, r304, r309, r314, r331, r336, r341, r346, r351, r10_i22, r10, v3, r11_i68, v4, r50, v5, r11, v7, v8, r11_2, v10, r51_i12, r11_i_i138, v12, r18_2, r40_i_i157, v14, r18_i3, r49, v15, r18_i10, r58, v16, r18_i17, r67, v17, r18_i24, r76, v18, r18_i31, r85, v19, r18_i38, r94, v20, r18_i45, v21, r18_i_i9, r40_i14, v23, r18_i3_i17, r49_i23, v24, r18_i10_i26, r58_i32, v25, r18_i17_i35, r67_i41, v26, r18_i24_i44, r76_i50, v27, r18_i31_i53, r85_i59, v28, r18_i38_i62, r94_i68, v29, r18_i45_i71, r36_i155, r40_i82, r49_i88, r58_i94, r67_i100, r76_i106, r85_i112, r94_i118, v30, r13_i10, r25_i_i174, r22_2, r11_i_i_i178, r70_2, r37_i2492, r35_i2494, r10_i2496, r21_i2497, r20_4, r24_3, r37_i2505, r10_i2517, r21_i2519, r20_i_i_i_i_i_i_i2527, r24_i_i_i_i_i_i_i2528, r47_3, r45, r10_i2551, r21_i2553, r20_i_i_i_i_i_i_i2561, r24_i_i_i_i_i_i_i2562, r10_i2581, r21_i2583, r20_i_i_i_i_i_i_i2591, r24_i_i_i_i_i_i_i2592, r55_i2600, r57_i2601, r53_i2606, r10_i2623, r21_i2625, r20_i_i_i_i_i_i_i2633, r24_i_i_i_i_i_i_i2634, r40, r38_i2647, r42_i2653, r0_sroa_21_4_r20_sroa_idx_i1606, r0_sroa_24_4_r20_sroa_idx_i1607, r10_i2662, r21_i2664, r20_i_i_i_i_i_i_i2672, r24_i_i_i_i_i_i_i2673, r45_i2681, r43_3, r47_i2690, r0_sroa_21_4_r22_sroa_idx_i1460, r0_sroa_24_4_r22_sroa_idx_i1461, r10_i2705, r21_i2707, r20_i_i_i_i_i_i_i2715, r24_i_i_i_i_i_i_i2716, r45_i2725, r43_i2732, r47_i2737, r10_i2753, r21_i2755, r20_i_i_i_i_i_i_i2763, r24_i_i_i_i_i_i_i2764, r64_i2773, r74_3, r76_2, r62_i2779, r72, r70_i2785, r66_i2786, r68_i2788, r0_sroa_21_4_r26_sroa_idx_i1169, r0_sroa_24_4_r26_sroa_idx_i1170, r0_sroa_2747_4_r26_sroa_idx_i1173, r0_sroa_35_4_r26_sroa_idx_i1174, r10_i2800, r21_i2802, r20_i_i_i_i_i_i_i2810, r24_i_i_i_i_i_i_i2811, r78_2, r88, r90_2, r92_3, r94_i2820, r96_2, r98, r100, r76_i2826, r86_i2832, r84_i2833, r80_i2834, r82, r0_sroa_21_4_r29_sroa_idx_i1022, r0_sroa_24_4_r29_sroa_idx_i1023, r0_sroa_2747_4_r29_sroa_idx_i1026, r0_sroa_35_4_r29_sroa_idx_i1027, r0_sroa_38_32_r30_sroa_idx_i1028, r0_sroa_39_32_r30_sroa_idx_i1029, r0_sroa_39_i949_sroa_5_0_r0_sroa_39_32_r30_sroa_idx_i1029_sroa_idx, r0_sroa_39_i949_sroa_6_0_r0_sroa_39_32_r30_sroa_idx_i1029_sroa_idx, r0_sroa_39_i949_sroa_7_0_r0_sroa_39_32_r30_sroa_idx_i1029_sroa_idx, r10_i2858, r21_i2860, r20_i_i_i_i_i_i_i2868, r24_i_i_i_i_i_i_i2869, r48_i2877, r46_i2884, r54_i2890, r50_2, r52_2, r0_sroa_21_4_r31_sroa_idx_i874, r0_sroa_24_4_r31_sroa_idx_i875, r0_sroa_35_16_r32_sroa_idx_i878, r10_i2903, r21_i2905, r20_i_i_i_i_i_i_i2913, r24_i_i_i_i_i_i_i2914, r45_i2927, r36_3, r10_i2938, r21_i2940, r20_i_i_i_i_i_i_i2948, r24_i_i_i_i_i_i_i2949, r53_i2956, r51_i2963, r55_i2970, r36_i_i2976, r0_sroa_21_4_r35_sroa_idx_i589, r0_sroa_24_4_r35_sroa_idx_i590, r10_i2999, r21_i3001, r20_i_i_i_i_i_i_i3009, r24_i_i_i_i_i_i_i3010, r53_i3019, r57_i3020, r51_i3027, r55_i3033, r0_sroa_21_4_r37_sroa_idx, r0_sroa_24_4_r37_sroa_idx, r10_i3051, r21_i3053, r20_i_i_i_i_i_i_i3061, r24_i_i_i_i_i_i_i3062, r10_3, r21, r20_5, r24_4, r4, r8_4;
    t_vector16_i8_end r15_2;
    t_vector16_i1_end r20_2;
    uint16_t r24, v2;
    uint32_t r20_3, r1_3, r26_2, r20_i4, r1_i50, r26_i7, r47_2, r20_i11, r1_i51, r26_i14, r56, r20_i18, r1_i52, r26_i21, r65_i_i159, r20_i25, r1_i53, r26_i28, r74_2, r20_i32, r1_i54, r26_i35, r83, r20_i39, r1_i55, r26_i42, r92_2, r20_i46, r1_i56, r26_i49, r101, r20_i_i10, r1_i_i12_2, r26_i_i13, r20_i4_i18, r1_i50_i20, r26_i7_i21, r47_i22, r20_i11_i27, r1_i51_i29, r26_i14_i30, r56_i31, r20_i18_i36, r1_i52_i38, r26_i21_i39, r65_i40, r20_i25_i45, r1_i53_i47, r26_i28_i48, r74_i49, r20_i32_i54, r1_i54_i56, r26_i35_i57, r83_i58, r20_i39_i63, r1_i55_i65, r26_i42_i66, r92_i67, r20_i46_i72, r1_i56_i74, r26_i49_i75, r101_i76, r22_i_i_i_i10, spec_select2, spec_select2_i19, r71_i2326, r22_3, spec_select2_2, r86_i2180, r22_i_i2537, spec_select2_i_i2542, r103_i2038, r22_i_i2572, v42, spec_select_i_i_i2577, r22_i_i2602, spec_select2_i_i2608, r135_i1754, r22_i_i_i2644, spec_select2_i_i_i2651, spec_select2_i19_i_i2652, r148_i1612, r22_i_i_i2683, spec_select2_i_i_i2687, spec_select2_i19_i_i2695, r0_sroa_2747_sroa_10_0_extract_trunc_i1383, r166_i1466, r22_i_i_i2728, spec_select2_i_i_i2734, spec_select2_i19_i_i2745, r177_i1320, r22_i_i_i2776, spec_select2_i_i_i2781, spec_select2_i19_i_i2784, spec_select2_i_i2794, r22_i_i_i2822, spec_select2_i_i_i2828, spec_select2_i19_i_i2831, spec_select2_i19_i40, spec_select2_i_i56, spec_select2_i23_i60, spec_select2_i36_i64, spec_select2_i49_i70, r22_i_i_i2880, spec_select2_i_i_i2886, spec_select2_i19_i_i2889, spec_select2_i19_i17, r200_i882, r22_i_i_i2959, spec_select2_i_i_i2965, spec_select2_i19_i_i2968, r217_i595, r22_i_i_i3023, spec_select2_i_i_i3029, spec_select2_i19_i_i3032, r0_sroa_2747_sroa_10_0_extract_trunc, r0_sroa_2747_sroa_0_0_extract_trunc, r233;
    t_struct_i8_i32_end r7, r84_i2178, r101_i2036, r133_i1752, r146_i1610, r164_i1464, r7_i2418, r198_i880, r215_i593, r231_i_i1;
    uint64_t room_r20_i1530[2];
    uint64_t room_r22_i1393[2];
    uint64_t room_r26_i1119[4];
    uint64_t room_r57_i1126[2];
    uint64_t room_r29_i982[4];
    uint64_t room_r30_i983[4];
    uint64_t room_r59_i989[3];
    uint64_t room_r31_i846[2];
    uint64_t room_r32_i847[2];
    uint64_t room_r35_i572[2];
    uint64_t room_r37[2];
    r20_i1530 = (bytes)room_r20_i1530;
    r22_i1393 = (bytes)room_r22_i1393;
    r26_i1119 = (bytes)room_r26_i1119;
    r57_i1126 = (bytes)room_r57_i1126;
    r29_i982 = (bytes)room_r29_i982;
    r30_i983 = (bytes)room_r30_i983;
    r59_i989 = (bytes)room_r59_i989;
    r31_i846 = (bytes)room_r31_i846;
    r32_i847 = (bytes)room_r32_i847;
    r35_i572 = (bytes)room_r35_i572;
    r37 = (bytes)room_r37;
    r3 = (a0 + 65544);
    v0 = (a1 + 16);
    LOAD(uint64_t, a0_val, v0);
    v1 = (a1 + 24);
    LOAD(uint64_t, a0_val2, v1);
    r9 = (uint64_t)(a0_val2 - a0_val);
    r20 = r9 > UINT64_C(120);
    if (r20) { goto at__arm_2; }
    goto at__join_3;
    at__join_3:;
    r14 = (uint64_t)(a0_val + UINT64_C(16));
    r15 = (a1 + 8);
    LOAD(uint64_t, r16_2, r15);
    r19_not = r14 > r16_2;
    LOAD(bytes, r1_sroa_0_0_copyload_i_pre, a1);
    if (r19_not) { goto at__join_3_2; }
    goto at__then_1;
    at__then_1:;
    r13 = (r1_sroa_0_0_copyload_i_pre + (int64_t)a0_val);
    LOAD(uint8_t, r15_2.f[0], r13 + 0);
    LOAD(uint8_t, r15_2.f[1], r13 + 1);
    LOAD(uint8_t, r15_2.f[2], r13 + 2);
    LOAD(uint8_t, r15_2.f[3], r13 + 3);
    LOAD(uint8_t, r15_2.f[4], r13 + 4);
    LOAD(uint8_t, r15_2.f[5], r13 + 5);
    LOAD(uint8_t, r15_2.f[6], r13 + 6);
    LOAD(uint8_t, r15_2.f[7], r13 + 7);
    LOAD(uint8_t, r15_2.f[8], r13 + 8);
    LOAD(uint8_t, r15_2.f[9], r13 + 9);
    LOAD(uint8_t, r15_2.f[10], r13 + 10);
    LOAD(uint8_t, r15_2.f[11], r13 + 11);
    LOAD(uint8_t, r15_2.f[12], r13 + 12);
    LOAD(uint8_t, r15_2.f[13], r13 + 13);
    LOAD(uint8_t, r15_2.f[14], r13 + 14);
    LOAD(uint8_t, r15_2.f[15], r13 + 15);
    r20_2.f[0] = r15_2.f[0] == 32u;
    r20_2.f[1] = r15_2.f[1] == 32u;
    r20_2.f[2] = r15_2.f[2] == 32u;
    r20_2.f[3] = r15_2.f[3] == 32u;
    r20_2.f[4] = r15_2.f[4] == 32u;
    r20_2.f[5] = r15_2.f[5] == 32u;
    r20_2.f[6] = r15_2.f[6] == 32u;
    r20_2.f[7] = r15_2.f[7] == 32u;
    r20_2.f[8] = r15_2.f[8] == 32u;
    r20_2.f[9] = r15_2.f[9] == 32u;
    r20_2.f[10] = r15_2.f[10] == 32u;
    r20_2.f[11] = r15_2.f[11] == 32u;
    r20_2.f[12] = r15_2.f[12] == 32u;
    r20_2.f[13] = r15_2.f[13] == 32u;
    r20_2.f[14] = r15_2.f[14] == 32u;
    r20_2.f[15] = r15_2.f[15] == 32u;
    r24 = (uint16_t)((uint16_t)r20_2.f[0] << 0 | (uint16_t)r20_2.f[1] << 1 | (uint16_t)r20_2.f[2] << 2 | (uint16_t)r20_2.f[3] << 3 | (uint16_t)r20_2.f[4] << 4 | (uint16_t)r20_2.f[5] << 5 | (uint16_t)r20_2.f[6] << 6 | (uint16_t)r20_2.f[7] << 7 | (uint16_t)r20_2.f[8] << 8 | (uint16_t)r20_2.f[9] << 9 | (uint16_t)r20_2.f[10] << 10 | (uint16_t)r20_2.f[11] << 11 | (uint16_t)r20_2.f[12] << 12 | (uint16_t)r20_2.f[13] << 13 | (uint16_t)r20_2.f[14] << 14 | (uint16_t)r20_2.f[15] << 15);
    v2 = (uint16_t)(r24 ? TRAILING(r24) : 16u);
    r31 = v2 < 16u;
    if (r31) { goto at__then_4; }
    goto at__join_3_2;
    at__then_4:;
    r35 = (uint64_t)v2;
    a1_a0 = r9 < r35 ? r9 : r35;
    {
    common_ret_op = a1_a0;
    goto at__caltool_command_words_split_name_exit_i_i;
    }
    at__join_3_2:;
    r13_i5 = (r1_sroa_0_0_copyload_i_pre + (int64_t)a0_val);
    r127_i_not = r9 == UINT64_C(0);
    if (r127_i_not) { goto at__arm_2; }
    { r3_08 = UINT64_C(0); goto at__join_5; }
    at__join_5:;
    r18 = (r13_i5 + (int64_t)r3_08);
    LOAD(uint8_t, r20_i6, r18);
    r22 = r20_i6 == 32u;
    if (r22) { { common_ret_op = r3_08; goto at__caltool_command_words_split_name_exit_i_i; } }
    goto at__join_8;
    at__join_8:;
    r29 = (uint64_t)(r3_08 + UINT64_C(1));
    exitcond_not = r29 == r9;
    if (exitcond_not) { { common_ret_op = r9; goto at__caltool_command_words_split_name_exit_i_i; } }
    { r3_08 = r29; goto at__join_5; }
    at__caltool_command_words_split_name_exit_i_i:;
    r13_2 = (r1_sroa_0_0_copyload_i_pre + (int64_t)a0_val);
    r9_i5 = (uint64_t)(common_ret_op + a0_val);
    r12_i8 = (a1 + 32);
    LOAD(uint64_t, r13_i9, r12_i8);
    r103 = common_ret_op < UINT64_C(2);
    if (r103) { goto at__arm_2; }
    goto at__join_5_2;
    at__join_5_2:;
    r109 = common_ret_op == UINT64_C(2);
    if (r109) { goto at__then_6; }
    goto at__join_8_2;
    at__then_6:;
    LOAD(uint8_t, r116, r13_2);
    switch (r116) {
    case 121u: goto at__arm_9;
    case 111u: goto at__arm_10;
    default: goto at__arm_2;
    }
    at__arm_9:;
    r119 = (r13_2 + 1);
    LOAD(uint8_t, r121, r119);
    cond35 = r121 == 111u;
    if (cond35) { { r3_sroa_17_0_i_ph59 = 1; r2_sroa_0_0_i_ph = UINT64_C(0); goto at__caltool_command_name_Name_ways_exit_thread_i_i; } }
    goto at__arm_2;
    at__arm_10:;
    r125 = (r13_2 + 1);
    LOAD(uint8_t, r127, r125);
    cond34 = r127 == 110u;
    if (cond34) { { r3_sroa_17_0_i_ph59 = 12u; r2_sroa_0_0_i_ph = UINT64_C(18446744073709551614); goto at__caltool_command_name_Name_ways_exit_thread_i_i; } }
    goto at__arm_2;
    at__join_8_2:;
    r132 = common_ret_op < UINT64_C(4);
    if (r132) { goto at__then_19; }
    goto at__join_21;
    at__then_19:;
    LOAD(uint8_t, r139, r13_2);
    switch (r139) {
    case 121u: goto at__arm_22;
    case 105u: goto at__arm_23;
    case 100u: goto at__arm_24;
    case 119u: goto at__arm_25;
    case 115u: goto at__arm_26;
    default: goto at__arm_2;
    }
    at__arm_22:;
    r142 = (r13_2 + 1);
    LOAD(uint8_t, r144, r142);
    cond32 = r144 == 109u;
    if (cond32) { goto at__arm_29; }
    goto at__arm_2;
    at__arm_29:;
    r147 = (r13_2 + 2);
    LOAD(uint8_t, r149, r147);
    cond33 = r149 == 100u;
    if (cond33) { { r3_sroa_17_0_i_ph59 = 0; r2_sroa_0_0_i_ph = UINT64_C(18446744073709551614); goto at__caltool_command_name_Name_ways_exit_thread_i_i; } }
    goto at__arm_2;
    at__arm_23:;
    r153 = (r13_2 + 1);
    LOAD(uint8_t, r155, r153);
    cond30 = r155 == 119u;
    if (cond30) { goto at__arm_35; }
    goto at__arm_2;
    at__arm_35:;
    r158 = (r13_2 + 2);
    LOAD(uint8_t, r160, r158);
    cond31 = r160 == 100u;
    if (cond31) { { r3_sroa_17_0_i_ph59 = 2; r2_sroa_0_0_i_ph = UINT64_C(18446744073709551614); goto at__caltool_command_name_Name_ways_exit_thread_i_i; } }
    goto at__arm_2;
    at__arm_24:;
    r164 = (r13_2 + 1);
    LOAD(uint8_t, r166, r164);
    cond28 = r166 == 97u;
    if (cond28) { goto at__arm_41; }
    goto at__arm_2;
    at__arm_41:;
    r169 = (r13_2 + 2);
    LOAD(uint8_t, r171, r169);
    cond29 = r171 == 121u;
    if (cond29) { { r3_sroa_17_0_i_ph59 = 3; r2_sroa_0_0_i_ph = UINT64_C(0); goto at__caltool_command_name_Name_ways_exit_thread_i_i; } }
    goto at__arm_2;
    at__arm_25:;
    r175 = (r13_2 + 1);
    LOAD(uint8_t, r177, r175);
    cond26 = r177 == 111u;
    if (cond26) { goto at__arm_47; }
    goto at__arm_2;
    at__arm_47:;
    r180 = (r13_2 + 2);
    LOAD(uint8_t, r182, r180);
    cond27 = r182 == 109u;
    if (cond27) { { r3_sroa_17_0_i_ph59 = 4; r2_sroa_0_0_i_ph = UINT64_C(18446744073709551614); goto at__caltool_command_name_Name_ways_exit_thread_i_i; } }
    goto at__arm_2;
    at__arm_26:;
    r186 = (r13_2 + 1);
    LOAD(uint8_t, r188, r186);
    cond24 = r188 == 101u;
    if (cond24) { goto at__arm_53; }
    goto at__arm_2;
    at__arm_53:;
    r191 = (r13_2 + 2);
    LOAD(uint8_t, r193, r191);
    cond25 = r193 == 116u;
    if (cond25) { goto at__caltool_command_name_Name_ways_exit_i_i; }
    goto at__arm_2;
    at__join_21:;
    r198 = common_ret_op == UINT64_C(4);
    if (r198) { goto at__then_59; }
    goto at__join_61;
    at__then_59:;
    LOAD(uint8_t, r205, r13_2);
    switch (r205) {
    case 100u: goto at__arm_62;
    case 119u: goto at__arm_63;
    case 109u: goto at__arm_64;
    default: goto at__arm_2;
    }
    at__arm_62:;
    r208 = (r13_2 + 1);
    LOAD(uint8_t, r210, r208);
    switch (r210) {
    case 97u: goto at__arm_67;
    case 105u: goto at__arm_68;
    default: goto at__arm_2;
    }
    at__arm_67:;
    r213 = (r13_2 + 2);
    LOAD(uint8_t, r215, r213);
    cond22 = r215 == 121u;
    if (cond22) { goto at__arm_71; }
    goto at__arm_2;
    at__arm_71:;
    r218 = (r13_2 + 3);
    LOAD(uint8_t, r220, r218);
    cond23 = r220 == 115u;
    if (cond23) { { r3_sroa_17_0_i_ph59 = 5; r2_sroa_0_0_i_ph = UINT64_C(6); goto at__caltool_command_name_Name_ways_exit_thread_i_i; } }
    goto at__arm_2;
    at__arm_68:;
    r224 = (r13_2 + 2);
    LOAD(uint8_t, r226, r224);
    cond20 = r226 == 102u;
    if (cond20) { goto at__arm_77; }
    goto at__arm_2;
    at__arm_77:;
    r229 = (r13_2 + 3);
    LOAD(uint8_t, r231, r229);
    cond21 = r231 == 102u;
    if (cond21) { { r3_sroa_17_0_i_ph59 = 9; r2_sroa_0_0_i_ph = UINT64_C(7998); goto at__caltool_command_name_Name_ways_exit_thread_i_i; } }
    goto at__arm_2;
    at__arm_63:;
    r235 = (r13_2 + 1);
    LOAD(uint8_t, r237, r235);
    cond17 = r237 == 101u;
    if (cond17) { goto at__arm_83; }
    goto at__arm_2;
    at__arm_83:;
    r240 = (r13_2 + 2);
    LOAD(uint8_t, r242, r240);
    cond18 = r242 == 101u;
    if (cond18) { goto at__arm_86; }
    goto at__arm_2;
    at__arm_86:;
    r245 = (r13_2 + 3);
    LOAD(uint8_t, r247, r245);
    cond19 = r247 == 107u;
    if (cond19) { { r3_sroa_17_0_i_ph59 = 7; r2_sroa_0_0_i_ph = UINT64_C(18446744073709551614); goto at__caltool_command_name_Name_ways_exit_thread_i_i; } }
    goto at__arm_2;
    at__arm_64:;
    r251 = (r13_2 + 1);
    LOAD(uint8_t, r253, r251);
    cond14 = r253 == 111u;
    if (cond14) { goto at__arm_92; }
    goto at__arm_2;
    at__arm_92:;
    r256 = (r13_2 + 2);
    LOAD(uint8_t, r258, r256);
    cond15 = r258 == 118u;
    if (cond15) { goto at__arm_95; }
    goto at__arm_2;
    at__arm_95:;
    r261 = (r13_2 + 3);
    LOAD(uint8_t, r263, r261);
    cond16 = r263 == 101u;
    if (cond16) { { r3_sroa_17_0_i_ph59 = 8; r2_sroa_0_0_i_ph = UINT64_C(62); goto at__caltool_command_name_Name_ways_exit_thread_i_i; } }
    goto at__arm_2;
    at__join_61:;
    r268 = common_ret_op < UINT64_C(6);
    if (r268) { goto at__then_101; }
    goto at__join_103;
    at__then_101:;
    LOAD(uint8_t, r275, r13_2);
    switch (r275) {
    case 115u: goto at__arm_104;
    case 101u: goto at__arm_105;
    default: goto at__arm_2;
    }
    at__arm_104:;
    r278 = (r13_2 + 1);
    LOAD(uint8_t, r280, r278);
    cond10 = r280 == 105u;
    if (cond10) { goto at__arm_108; }
    goto at__arm_2;
    at__arm_108:;
    r283 = (r13_2 + 2);
    LOAD(uint8_t, r285, r283);
    cond11 = r285 == 110u;
    if (cond11) { goto at__arm_111; }
    goto at__arm_2;
    at__arm_111:;
    r288 = (r13_2 + 3);
    LOAD(uint8_t, r290, r288);
    cond12 = r290 == 99u;
    if (cond12) { goto at__arm_114; }
    goto at__arm_2;
    at__arm_114:;
    r293 = (r13_2 + 4);
    LOAD(uint8_t, r295, r293);
    cond13 = r295 == 101u;
    if (cond13) { { r3_sroa_17_0_i_ph59 = 10u; r2_sroa_0_0_i_ph = UINT64_C(18446744073709551606); goto at__caltool_command_name_Name_ways_exit_thread_i_i; } }
    goto at__arm_2;
    at__arm_105:;
    r299 = (r13_2 + 1);
    LOAD(uint8_t, r301, r299);
    cond6 = r301 == 118u;
    if (cond6) { goto at__arm_120; }
    goto at__arm_2;
    at__arm_120:;
    r304 = (r13_2 + 2);
    LOAD(uint8_t, r306, r304);
    cond7 = r306 == 101u;
    if (cond7) { goto at__arm_123; }
    goto at__arm_2;
    at__arm_123:;
    r309 = (r13_2 + 3);
    LOAD(uint8_t, r311, r309);
    cond8 = r311 == 114u;
    if (cond8) { goto at__arm_126; }
    goto at__arm_2;
    at__arm_126:;
    r314 = (r13_2 + 4);
    LOAD(uint8_t, r316, r314);
    cond9 = r316 == 121u;
    if (cond9) { { r3_sroa_17_0_i_ph59 = 13u; r2_sroa_0_0_i_ph = UINT64_C(18446744073709551614); goto at__caltool_command_name_Name_ways_exit_thread_i_i; } }
    goto at__arm_2;
    at__join_103:;
    r321 = common_ret_op == UINT64_C(6);
    if (r321) { goto at__then_132; }
    goto at__arm_2;
    at__then_132:;
    LOAD(uint8_t, r328, r13_2);
    cond = r328 == 109u;
    if (cond) { goto at__arm_135; }
    goto at__arm_2;
    at__arm_135:;
    r331 = (r13_2 + 1);
    LOAD(uint8_t, r333, r331);
    cond1 = r333 == 111u;
    if (cond1) { goto at__arm_138; }
    goto at__arm_2;
    at__arm_138:;
    r336 = (r13_2 + 2);
    LOAD(uint8_t, r338, r336);
    cond2 = r338 == 110u;
    if (cond2) { goto at__arm_141; }
    goto at__arm_2;
    at__arm_141:;
    r341 = (r13_2 + 3);
    LOAD(uint8_t, r343, r341);
    cond3 = r343 == 116u;
    if (cond3) { goto at__arm_144; }
    goto at__arm_2;
    at__arm_144:;
    r346 = (r13_2 + 4);
    LOAD(uint8_t, r348, r346);
    cond4 = r348 == 104u;
    if (cond4) { goto at__arm_147; }
    goto at__arm_2;
    at__arm_147:;
    r351 = (r13_2 + 5);
    LOAD(uint8_t, r353, r351);
    cond5 = r353 == 115u;
    if (cond5) { { r3_sroa_17_0_i_ph59 = 6; r2_sroa_0_0_i_ph = UINT64_C(6); goto at__caltool_command_name_Name_ways_exit_thread_i_i; } }
    goto at__arm_2;
    at__caltool_command_name_Name_ways_exit_thread_i_i:;
    r10_i22 = (a0 + 66024);
    STORE(uint64_t, r10_i22, UINT64_C(0));
    {
    r3_sroa_17_0_i_ph58 = r3_sroa_17_0_i_ph59;
    r10_i28 = r10_i22;
    r2_sroa_0_0_i26 = r2_sroa_0_0_i_ph;
    r3_i_sroa_9_0_lcssa = r9_i5;
    r2_0_i_lcssa = UINT64_C(0);
    goto at__caltool_command_numbers_read_digits_exit_i_i_i_i;
    }
    at__caltool_command_name_Name_ways_exit_i_i:;
    r10 = (a0 + 66024);
    STORE(uint64_t, r10, UINT64_C(0));
    r9_i581328 = r9_i5 == a0_val2;
    if (r9_i581328) { { r0_sroa_4_0_i_i_i_ph = UINT64_C(0); goto at__arm_1_thread; } }
    { r2_0_i1331 = UINT64_C(0); r3_i_sroa_9_01330 = r9_i5; goto at__join_5_i_i_i3; }
    at__join_5_i_i_i3:;
    r9_i61 = (uint64_t)(r3_i_sroa_9_01330 + UINT64_C(1));
    r9_i67 = r9_i61 == a0_val2;
    if (r9_i67) { { r3_sroa_17_0_i_ph58 = 11u; r10_i28 = r10; r2_sroa_0_0_i26 = UINT64_C(18446744073709551615); r3_i_sroa_9_0_lcssa = r3_i_sroa_9_01330; r2_0_i_lcssa = r2_0_i1331; goto at__caltool_command_numbers_read_digits_exit_i_i_i_i; } }
    goto at__join_3_3;
    at__join_3_3:;
    r9_i_i_i4 = (uint64_t)(a0_val2 - r9_i61);
    r6_i6 = r9_i_i_i4 == UINT64_C(1);
    if (r6_i6) { goto at__join_6; }
    goto at__caltool_command_words_stands_alone_exit_i_i_i_i;
    at__caltool_command_words_stands_alone_exit_i_i_i_i:;
    v3 = (r1_sroa_0_0_copyload_i_pre + (int64_t)r9_i61);
    r11_i68 = (v3 + 1);
    LOAD(uint8_t, r13_i69, r11_i68);
    r12_i7 = r13_i69 == 32u;
    if (r12_i7) { goto at__join_6; }
    { r3_sroa_17_0_i_ph58 = 11u; r10_i28 = r10; r2_sroa_0_0_i26 = UINT64_C(18446744073709551615); r3_i_sroa_9_0_lcssa = r3_i_sroa_9_01330; r2_0_i_lcssa = r2_0_i1331; goto at__caltool_command_numbers_read_digits_exit_i_i_i_i; }
    at__join_6:;
    v4 = (r1_sroa_0_0_copyload_i_pre + (int64_t)r9_i61);
    LOAD(uint8_t, r13_i71, v4);
    r1_i9 = (uint8_t)((uint32_t)r13_i71 + (uint32_t)208u);
    r33 = r1_i9 > 9;
    if (r33) { { r3_sroa_17_0_i_ph58 = 11u; r10_i28 = r10; r2_sroa_0_0_i26 = UINT64_C(18446744073709551615); r3_i_sroa_9_0_lcssa = r3_i_sroa_9_01330; r2_0_i_lcssa = r2_0_i1331; goto at__caltool_command_numbers_read_digits_exit_i_i_i_i; } }
    goto at__arm_9_2;
    at__arm_9_2:;
    r1_i72 = (uint64_t)r1_i9;
    r9_i75 = (uint64_t)(r3_i_sroa_9_01330 + UINT64_C(2));
    r47 = (uint64_t)(r2_0_i1331 << (UINT64_C(3) & 63u));
    r50 = (r3 + (int64_t)r47);
    STORE(uint64_t, r50, r1_i72);
    r54 = (uint64_t)(r2_0_i1331 + UINT64_C(1));
    r9_i58 = r9_i75 == a0_val2;
    if (r9_i58) { { r0_sroa_4_0_i_i_i_ph = r54; goto at__arm_1_thread; } }
    { r2_0_i1331 = r54; r3_i_sroa_9_01330 = r9_i75; goto at__join_5_i_i_i3; }
    at__caltool_command_numbers_read_digits_exit_i_i_i_i:;
    r9_i821346 = r3_i_sroa_9_0_lcssa == a0_val2;
    if (r9_i821346) { { r0_sroa_4_0 = r2_0_i_lcssa; goto at__arm_1; } }
    { r4_01349 = r2_0_i_lcssa; r6_sroa_0_01348 = r2_sroa_0_0_i26; r5_sroa_5_01347 = r3_i_sroa_9_0_lcssa; goto at__join_5_3; }
    at__join_5_3:;
    r9_i85 = (uint64_t)(r5_sroa_5_01347 + UINT64_C(1));
    r8 = (uint64_t)(r6_sroa_0_01348 & UINT64_C(1));
    r11_i11 = (uint64_t)(r6_sroa_0_01348 >> (UINT64_C(1) & 63u));
    r14_not = r8 == UINT64_C(0);
    r17_i12 = r9_i85 > UINT64_C(63);
    or_cond1321 = (uint8_t)(((uint32_t)r14_not | (uint32_t)r17_i12) & 1);
    if (or_cond1321) { goto at__join_4; }
    goto at__join_3_i_i93;
    at__join_3_i_i93:;
    r32_i_i95 = (uint64_t)(r13_i9 >> (r9_i85 & 63u));
    r34_i_i96 = r32_i_i95 == UINT64_C(0);
    if (r34_i_i96) { goto at__join_4; }
    goto at__arm_1_i_i97;
    at__arm_1_i_i97:;
    r43_i_i98 = (uint64_t)(r32_i_i95 ? TRAILING(r32_i_i95) : 64u);
    r9_2 = (uint64_t)(a0_val2 - r9_i85);
    r26_i_i99 = r9_2 < r43_i_i98;
    if (r26_i_i99) { goto at__join_4; }
    goto at__else_8_i_i100;
    at__else_8_i_i100:;
    r6_i23 = r43_i_i98 == r9_2;
    if (r6_i23) { goto at__arm_1_i102; }
    goto at__chrono_text_read_number_stands_before_exit_i_i_i_i_i;
    at__chrono_text_read_number_stands_before_exit_i_i_i_i_i:;
    v5 = (r1_sroa_0_0_copyload_i_pre + (int64_t)r9_i85);
    r11 = (v5 + (int64_t)r43_i_i98);
    LOAD(uint8_t, r13_3, r11);
    r12 = r13_3 != 32u;
    v6 = (uint64_t)(r43_i_i98 + UINT64_C(18446744073709551613));
    or_cond_i103 = v6 < UINT64_C(18446744073709551614);
    or_cond1322 = r12 ? 1 : or_cond_i103;
    if (or_cond1322) { goto at__join_4; }
    goto at__arm_5;
    at__arm_1_i102:;
    old = (uint64_t)(r43_i_i98 + UINT64_C(18446744073709551613));
    or_cond_i103_old = old < UINT64_C(18446744073709551614);
    if (or_cond_i103_old) { goto at__join_4; }
    goto at__arm_5;
    at__arm_5:;
    v7 = (r1_sroa_0_0_copyload_i_pre + (int64_t)r9_i85);
    LOAD(uint8_t, r13_4, v7);
    r1_i9_2 = (uint8_t)((uint32_t)r13_4 + (uint32_t)208u);
    r1_i34 = (uint64_t)r1_i9_2;
    v8 = (v7 + (int64_t)r43_i_i98);
    r11_2 = (v8 - 1);
    LOAD(uint8_t, r13_i35, r11_2);
    r1 = (uint8_t)((uint32_t)r13_i35 + (uint32_t)208u);
    r1_i36 = (uint64_t)r1;
    v9 = (uint64_t)(r43_i_i98 * UINT64_C(10));
    r60 = (uint64_t)(v9 + UINT64_C(4294967286));
    r67_i106 = (uint64_t)(r60 * r1_i34);
    r70 = (uint64_t)(r67_i106 + r1_i36);
    r1_i108 = (uint64_t)(r70 & UINT64_C(4294967295));
    {
    r7_sroa_4_i185_sroa_3_1_ph = r1_i108;
    r7_sroa_4_i185_sroa_5_1_ph = r43_i_i98;
    goto at__arm_6;
    }
    at__join_4:;
    r9_i_i109 = r9_i85 == a0_val2;
    if (r9_i_i109) { { r1_0_in_i114 = 0; goto at__chrono_text_read_number_has_minus_exit_i_i_i_i; } }
    goto at__then_1_i110;
    at__then_1_i110:;
    v10 = (r1_sroa_0_0_copyload_i_pre + (int64_t)r9_i85);
    LOAD(uint8_t, r13_i_i111, v10);
    r14_i112 = r13_i_i111 == 45u;
    {
    r1_0_in_i114 = r14_i112;
    goto at__chrono_text_read_number_has_minus_exit_i_i_i_i;
    }
    at__chrono_text_read_number_has_minus_exit_i_i_i_i:;
    r1_i115 = (uint64_t)r1_0_in_i114;
    r9_i118 = (uint64_t)(r9_i85 + r1_i115);
    r17_i10 = r9_i118 > UINT64_C(63);
    if (r17_i10) { goto at__join_10; }
    goto at__join_3_4;
    at__join_3_4:;
    r32 = (uint64_t)(r13_i9 >> (r9_i118 & 63u));
    r34 = r32 == UINT64_C(0);
    if (r34) { goto at__join_10; }
    goto at__arm_1_2;
    at__arm_1_2:;
    r43_2 = (uint64_t)(r32 ? TRAILING(r32) : 64u);
    r51_i12 = (r1_sroa_0_0_copyload_i_pre + (int64_t)r9_i118);
    r9_i131 = (uint64_t)(a0_val2 - r9_i118);
    r26 = r9_i131 < r43_2;
    if (r26) { goto at__join_10; }
    goto at__else_8;
    at__else_8:;
    r6_i135 = r43_2 == r9_i131;
    if (r6_i135) { goto at__arm_1_i43; }
    goto at__chrono_text_read_number_stands_before_exit_i_i_i_i;
    at__chrono_text_read_number_stands_before_exit_i_i_i_i:;
    r11_i_i138 = (r51_i12 + (int64_t)r43_2);
    LOAD(uint8_t, r13_i_i139, r11_i_i138);
    r12_i140 = r13_i_i139 != 32u;
    v11 = (uint64_t)(r43_2 + UINT64_C(18446744073709551599));
    or_cond = v11 < UINT64_C(18446744073709551600);
    or_cond1324 = r12_i140 ? 1 : or_cond;
    if (or_cond1324) { goto at__join_10; }
    goto at__after_5;
    at__arm_1_i43:;
    old1323 = (uint64_t)(r43_2 + UINT64_C(18446744073709551599));
    or_cond_i_old = old1323 < UINT64_C(18446744073709551600);
    if (or_cond_i_old) { goto at__join_10; }
    goto at__after_5;
    at__after_5:;
    r14_i153 = r43_2 < UINT64_C(9);
    if (r14_i153) { goto at__then_1_i156; }
    goto at__join_3_i154;
    at__then_1_i156:;
    LOAD(uint8_t, r36, r51_i12);
    neg = (uint64_t)(r43_2 * UINT64_C(18446744073709551612));
    v12 = ((bytes)&static_9 + (int64_t)neg);
    r18_2 = (v12 + 32);
    LOAD(uint32_t, r20_3, r18_2);
    r1_2 = (uint8_t)((uint32_t)r36 + (uint32_t)208u);
    r1_3 = (uint32_t)r1_2;
    r26_2 = (uint32_t)(r20_3 * r1_3);
    r40_i_i157 = (r51_i12 + 1);
    LOAD(uint8_t, r42, r40_i_i157);
    v13 = (uint64_t)(r43_2 << (UINT64_C(2) & 63u));
    r12_i2 = (uint64_t)(UINT64_C(4) - v13);
    v14 = ((bytes)&static_9 + (int64_t)r12_i2);
    r18_i3 = (v14 + 32);
    LOAD(uint32_t, r20_i4, r18_i3);
    r1_i_i5 = (uint8_t)((uint32_t)r42 + (uint32_t)208u);
    r1_i50 = (uint32_t)r1_i_i5;
    r26_i7 = (uint32_t)(r20_i4 * r1_i50);
    r47_2 = (uint32_t)(r26_i7 + r26_2);
    r49 = (r51_i12 + 2);
    LOAD(uint8_t, r51_i_i158, r49);
    r12_i9 = (uint64_t)(UINT64_C(8) - v13);
    v15 = ((bytes)&static_9 + (int64_t)r12_i9);
    r18_i10 = (v15 + 32);
    LOAD(uint32_t, r20_i11, r18_i10);
    r1_i_i12 = (uint8_t)((uint32_t)r51_i_i158 + (uint32_t)208u);
    r1_i51 = (uint32_t)r1_i_i12;
    r26_i14 = (uint32_t)(r20_i11 * r1_i51);
    r56 = (uint32_t)(r47_2 + r26_i14);
    r58 = (r51_i12 + 3);
    LOAD(uint8_t, r60_2, r58);
    r12_i16 = (uint64_t)(UINT64_C(12) - v13);
    v16 = ((bytes)&static_9 + (int64_t)r12_i16);
    r18_i17 = (v16 + 32);
    LOAD(uint32_t, r20_i18, r18_i17);
    r1_i_i19 = (uint8_t)((uint32_t)r60_2 + (uint32_t)208u);
    r1_i52 = (uint32_t)r1_i_i19;
    r26_i21 = (uint32_t)(r20_i18 * r1_i52);
    r65_i_i159 = (uint32_t)(r56 + r26_i21);
    r67 = (r51_i12 + 4);
    LOAD(uint8_t, r69, r67);
    r12_i23 = (uint64_t)(UINT64_C(16) - v13);
    v17 = ((bytes)&static_9 + (int64_t)r12_i23);
    r18_i24 = (v17 + 32);
    LOAD(uint32_t, r20_i25, r18_i24);
    r1_i_i26 = (uint8_t)((uint32_t)r69 + (uint32_t)208u);
    r1_i53 = (uint32_t)r1_i_i26;
    r26_i28 = (uint32_t)(r20_i25 * r1_i53);
    r74_2 = (uint32_t)(r65_i_i159 + r26_i28);
    r76 = (r51_i12 + 5);
    LOAD(uint8_t, r78, r76);
    r12_i30 = (uint64_t)(UINT64_C(20) - v13);
    v18 = ((bytes)&static_9 + (int64_t)r12_i30);
    r18_i31 = (v18 + 32);
    LOAD(uint32_t, r20_i32, r18_i31);
    r1_i_i33 = (uint8_t)((uint32_t)r78 + (uint32_t)208u);
    r1_i54 = (uint32_t)r1_i_i33;
    r26_i35 = (uint32_t)(r20_i32 * r1_i54);
    r83 = (uint32_t)(r74_2 + r26_i35);
    r85 = (r51_i12 + 6);
    LOAD(uint8_t, r87, r85);
    r12_i37 = (uint64_t)(UINT64_C(24) - v13);
    v19 = ((bytes)&static_9 + (int64_t)r12_i37);
    r18_i38 = (v19 + 32);
    LOAD(uint32_t, r20_i39, r18_i38);
    r1_i_i40 = (uint8_t)((uint32_t)r87 + (uint32_t)208u);
    r1_i55 = (uint32_t)r1_i_i40;
    r26_i42 = (uint32_t)(r20_i39 * r1_i55);
    r92_2 = (uint32_t)(r83 + r26_i42);
    r94 = (r51_i12 + 7);
    LOAD(uint8_t, r96, r94);
    r12_i44 = (uint64_t)(UINT64_C(28) - v13);
    v20 = ((bytes)&static_9 + (int64_t)r12_i44);
    r18_i45 = (v20 + 32);
    LOAD(uint32_t, r20_i46, r18_i45);
    r1_i_i47 = (uint8_t)((uint32_t)r96 + (uint32_t)208u);
    r1_i56 = (uint32_t)r1_i_i47;
    r26_i49 = (uint32_t)(r20_i46 * r1_i56);
    r101 = (uint32_t)(r92_2 + r26_i49);
    r1_i_i160 = (uint64_t)r101;
    {
    common_ret_op_2 = r1_i_i160;
    goto at__arm_8;
    }
    at__join_3_i154:;
    r25 = (uint64_t)(r43_2 + UINT64_C(18446744073709551608));
    LOAD(uint8_t, r36_i7, r51_i12);
    neg_i8 = (uint64_t)(r25 * UINT64_C(18446744073709551612));
    v21 = ((bytes)&static_9 + (int64_t)neg_i8);
    r18_i_i9 = (v21 + 32);
    LOAD(uint32_t, r20_i_i10, r18_i_i9);
    r1_i_i_i11 = (uint8_t)((uint32_t)r36_i7 + (uint32_t)208u);
    r1_i_i12_2 = (uint32_t)r1_i_i_i11;
    r26_i_i13 = (uint32_t)(r20_i_i10 * r1_i_i12_2);
    r40_i14 = (r51_i12 + 1);
    LOAD(uint8_t, r42_i15, r40_i14);
    v22 = (uint64_t)(r25 << (UINT64_C(2) & 63u));
    r12_i2_i16 = (uint64_t)(UINT64_C(4) - v22);
    v23 = ((bytes)&static_9 + (int64_t)r12_i2_i16);
    r18_i3_i17 = (v23 + 32);
    LOAD(uint32_t, r20_i4_i18, r18_i3_i17);
    r1_i_i5_i19 = (uint8_t)((uint32_t)r42_i15 + (uint32_t)208u);
    r1_i50_i20 = (uint32_t)r1_i_i5_i19;
    r26_i7_i21 = (uint32_t)(r20_i4_i18 * r1_i50_i20);
    r47_i22 = (uint32_t)(r26_i7_i21 + r26_i_i13);
    r49_i23 = (r51_i12 + 2);
    LOAD(uint8_t, r51_i24, r49_i23);
    r12_i9_i25 = (uint64_t)(UINT64_C(8) - v22);
    v24 = ((bytes)&static_9 + (int64_t)r12_i9_i25);
    r18_i10_i26 = (v24 + 32);
    LOAD(uint32_t, r20_i11_i27, r18_i10_i26);
    r1_i_i12_i28 = (uint8_t)((uint32_t)r51_i24 + (uint32_t)208u);
    r1_i51_i29 = (uint32_t)r1_i_i12_i28;
    r26_i14_i30 = (uint32_t)(r20_i11_i27 * r1_i51_i29);
    r56_i31 = (uint32_t)(r47_i22 + r26_i14_i30);
    r58_i32 = (r51_i12 + 3);
    LOAD(uint8_t, r60_i33, r58_i32);
    r12_i16_i34 = (uint64_t)(UINT64_C(12) - v22);
    v25 = ((bytes)&static_9 + (int64_t)r12_i16_i34);
    r18_i17_i35 = (v25 + 32);
    LOAD(uint32_t, r20_i18_i36, r18_i17_i35);
    r1_i_i19_i37 = (uint8_t)((uint32_t)r60_i33 + (uint32_t)208u);
    r1_i52_i38 = (uint32_t)r1_i_i19_i37;
    r26_i21_i39 = (uint32_t)(r20_i18_i36 * r1_i52_i38);
    r65_i40 = (uint32_t)(r56_i31 + r26_i21_i39);
    r67_i41 = (r51_i12 + 4);
    LOAD(uint8_t, r69_i42, r67_i41);
    r12_i23_i43 = (uint64_t)(UINT64_C(16) - v22);
    v26 = ((bytes)&static_9 + (int64_t)r12_i23_i43);
    r18_i24_i44 = (v26 + 32);
    LOAD(uint32_t, r20_i25_i45, r18_i24_i44);
    r1_i_i26_i46 = (uint8_t)((uint32_t)r69_i42 + (uint32_t)208u);
    r1_i53_i47 = (uint32_t)r1_i_i26_i46;
    r26_i28_i48 = (uint32_t)(r20_i25_i45 * r1_i53_i47);
    r74_i49 = (uint32_t)(r65_i40 + r26_i28_i48);
    r76_i50 = (r51_i12 + 5);
    LOAD(uint8_t, r78_i51, r76_i50);
    r12_i30_i52 = (uint64_t)(UINT64_C(20) - v22);
    v27 = ((bytes)&static_9 + (int64_t)r12_i30_i52);
    r18_i31_i53 = (v27 + 32);
    LOAD(uint32_t, r20_i32_i54, r18_i31_i53);
    r1_i_i33_i55 = (uint8_t)((uint32_t)r78_i51 + (uint32_t)208u);
    r1_i54_i56 = (uint32_t)r1_i_i33_i55;
    r26_i35_i57 = (uint32_t)(r20_i32_i54 * r1_i54_i56);
    r83_i58 = (uint32_t)(r74_i49 + r26_i35_i57);
    r85_i59 = (r51_i12 + 6);
    LOAD(uint8_t, r87_i60, r85_i59);
    r12_i37_i61 = (uint64_t)(UINT64_C(24) - v22);
    v28 = ((bytes)&static_9 + (int64_t)r12_i37_i61);
    r18_i38_i62 = (v28 + 32);
    LOAD(uint32_t, r20_i39_i63, r18_i38_i62);
    r1_i_i40_i64 = (uint8_t)((uint32_t)r87_i60 + (uint32_t)208u);
    r1_i55_i65 = (uint32_t)r1_i_i40_i64;
    r26_i42_i66 = (uint32_t)(r20_i39_i63 * r1_i55_i65);
    r92_i67 = (uint32_t)(r83_i58 + r26_i42_i66);
    r94_i68 = (r51_i12 + 7);
    LOAD(uint8_t, r96_i69, r94_i68);
    r12_i44_i70 = (uint64_t)(UINT64_C(28) - v22);
    v29 = ((bytes)&static_9 + (int64_t)r12_i44_i70);
    r18_i45_i71 = (v29 + 32);
    LOAD(uint32_t, r20_i46_i72, r18_i45_i71);
    r1_i_i47_i73 = (uint8_t)((uint32_t)r96_i69 + (uint32_t)208u);
    r1_i56_i74 = (uint32_t)r1_i_i47_i73;
    r26_i49_i75 = (uint32_t)(r20_i46_i72 * r1_i56_i74);
    r101_i76 = (uint32_t)(r92_i67 + r26_i49_i75);
    r1_i77 = (uint64_t)r101_i76;
    r36_i155 = (r51_i12 + (int64_t)r25);
    LOAD(uint8_t, r36_i78, r36_i155);
    r1_i_i_i79 = (uint8_t)((uint32_t)r36_i78 + (uint32_t)208u);
    r1_i_i80 = (uint64_t)r1_i_i_i79;
    r26_i_i81 = (uint64_t)(r1_i_i80 * UINT64_C(10000000));
    r40_i82 = (r36_i155 + 1);
    LOAD(uint8_t, r42_i83, r40_i82);
    r1_i_i5_i84 = (uint8_t)((uint32_t)r42_i83 + (uint32_t)208u);
    r1_i50_i85 = (uint64_t)r1_i_i5_i84;
    r26_i7_i86 = (uint64_t)(r1_i50_i85 * UINT64_C(1000000));
    r47_i87 = (uint64_t)(r26_i7_i86 + r26_i_i81);
    r49_i88 = (r36_i155 + 2);
    LOAD(uint8_t, r51_i89, r49_i88);
    r1_i_i12_i90 = (uint8_t)((uint32_t)r51_i89 + (uint32_t)208u);
    r1_i51_i91 = (uint64_t)r1_i_i12_i90;
    r26_i14_i92 = (uint64_t)(r1_i51_i91 * UINT64_C(100000));
    r58_i94 = (r36_i155 + 3);
    LOAD(uint8_t, r60_i95, r58_i94);
    r1_i_i19_i96 = (uint8_t)((uint32_t)r60_i95 + (uint32_t)208u);
    r1_i52_i97 = (uint64_t)r1_i_i19_i96;
    r26_i21_i98 = (uint64_t)(r1_i52_i97 * UINT64_C(10000));
    r67_i100 = (r36_i155 + 4);
    LOAD(uint8_t, r69_i101, r67_i100);
    r1_i_i26_i102 = (uint8_t)((uint32_t)r69_i101 + (uint32_t)208u);
    r1_i53_i103 = (uint64_t)r1_i_i26_i102;
    r26_i28_i104 = (uint64_t)(r1_i53_i103 * UINT64_C(1000));
    r76_i106 = (r36_i155 + 5);
    LOAD(uint8_t, r78_i107, r76_i106);
    r1_i_i33_i108 = (uint8_t)((uint32_t)r78_i107 + (uint32_t)208u);
    r1_i54_i109 = (uint64_t)r1_i_i33_i108;
    r26_i35_i110 = (uint64_t)(r1_i54_i109 * UINT64_C(100));
    r85_i112 = (r36_i155 + 6);
    LOAD(uint8_t, r87_i113, r85_i112);
    r1_i_i40_i114 = (uint8_t)((uint32_t)r87_i113 + (uint32_t)208u);
    r1_i55_i115 = (uint64_t)r1_i_i40_i114;
    r26_i42_i116 = (uint64_t)(r1_i55_i115 * UINT64_C(10));
    r94_i118 = (r36_i155 + 7);
    LOAD(uint8_t, r96_i119, r94_i118);
    r1_i_i47_i120 = (uint8_t)((uint32_t)r96_i119 + (uint32_t)208u);
    r1_i56_i121 = (uint64_t)r1_i_i47_i120;
    r52 = (uint64_t)(r1_i77 * UINT64_C(100000000));
    r56_i93 = (uint64_t)(r47_i87 + r52);
    r65_i99 = (uint64_t)(r56_i93 + r26_i14_i92);
    r74_i105 = (uint64_t)(r65_i99 + r26_i21_i98);
    r83_i111 = (uint64_t)(r74_i105 + r26_i28_i104);
    r92_i117 = (uint64_t)(r83_i111 + r26_i35_i110);
    r101_i123 = (uint64_t)(r92_i117 + r26_i42_i116);
    r55 = (uint64_t)(r101_i123 + r1_i56_i121);
    {
    common_ret_op_2 = r55;
    goto at__arm_8;
    }
    at__arm_8:;
    r29_i_i_i5 = (uint64_t)(UINT64_C(0) - common_ret_op_2);
    r9_0_2 = r1_0_in_i114 ? r29_i_i_i5 : common_ret_op_2;
    r90 = (uint64_t)(r43_2 + r1_i115);
    {
    r7_sroa_4_i185_sroa_3_1_ph = r9_0_2;
    r7_sroa_4_i185_sroa_5_1_ph = r90;
    goto at__arm_6;
    }
    at__join_10:;
    if (r9_i_i109) { { r1_0_in = 0; goto at__chrono_text_read_number_has_minus_exit_i_i_i_i_i; } }
    goto at__then_1_i_i168;
    at__then_1_i_i168:;
    v30 = (r1_sroa_0_0_copyload_i_pre + (int64_t)r9_i85);
    LOAD(uint8_t, r13_i_i_i170, v30);
    r14_i_i171 = r13_i_i_i170 == 45u;
    {
    r1_0_in = r14_i_i171;
    goto at__chrono_text_read_number_has_minus_exit_i_i_i_i_i;
    }
    at__chrono_text_read_number_has_minus_exit_i_i_i_i_i:;
    r1_i_i172 = (uint64_t)r1_0_in;
    r9_i_i173 = (uint64_t)(r9_i85 + r1_i_i172);
    r13_i10 = (r1_sroa_0_0_copyload_i_pre + (int64_t)r9_i_i173);
    r16 = (uint64_t)(a0_val2 - r9_i_i173);
    a1_a0_2 = r16 < UINT64_C(18) ? r16 : UINT64_C(18);
    r1915_not = r16 == UINT64_C(0);
    if (r1915_not) { { r5_0_lcssa = UINT64_C(0); r4_0_lcssa = UINT64_C(0); goto at__after_1; } }
    { r4_017 = UINT64_C(0); r5_016 = UINT64_C(0); goto at__join_5_4; }
    at__join_5_4:;
    r25_i_i174 = (r13_i10 + (int64_t)r5_016);
    LOAD(uint8_t, r27, r25_i_i174);
    r1_i_i_i175 = (uint8_t)((uint32_t)r27 + (uint32_t)208u);
    r31_2 = r1_i_i_i175 > 9;
    if (r31_2) { { r4_0_pn = r4_017; r5_0_pn = r5_016; goto at__chrono_text_read_front_leading_digits_exit_i_i_i_i_i; } }
    goto at__join_8_3;
    at__join_8_3:;
    r39 = (uint64_t)(r4_017 * UINT64_C(10));
    r1_i10 = (uint64_t)r1_i_i_i175;
    r44_i_i176 = (uint64_t)(r39 + r1_i10);
    r46 = (uint64_t)(r5_016 + UINT64_C(1));
    exitcond_not_2 = r46 == a1_a0_2;
    if (exitcond_not_2) { { r5_0_lcssa = a1_a0_2; r4_0_lcssa = r44_i_i176; goto at__after_1; } }
    { r4_017 = r44_i_i176; r5_016 = r46; goto at__join_5_4; }
    at__after_1:;
    r1610 = r5_0_lcssa < r16;
    if (r1610) { { r3_012 = r4_0_lcssa; r4_011 = r5_0_lcssa; goto at__join_5_5; } }
    { r4_0_pn = r4_0_lcssa; r5_0_pn = r5_0_lcssa; goto at__chrono_text_read_front_leading_digits_exit_i_i_i_i_i; }
    at__join_5_5:;
    r22_2 = (r13_i10 + (int64_t)r4_011);
    LOAD(uint8_t, r24_2, r22_2);
    r1_i_i_i_i183 = (uint8_t)((uint32_t)r24_2 + (uint32_t)208u);
    r28 = r1_i_i_i_i183 > 9;
    if (r28) { { r4_0_pn = r3_012; r5_0_pn = r4_011; goto at__chrono_text_read_front_leading_digits_exit_i_i_i_i_i; } }
    goto at__join_8_4;
    at__join_8_4:;
    r13_5 = r3_012 < UINT64_C(1844674407370955162);
    r17 = (uint64_t)(r3_012 * UINT64_C(10));
    r1_i9_3 = (uint64_t)r1_i_i_i_i183;
    v31 = (uint64_t)(r1_i9_3 + r17);
    if (v31 < r1_i9_3) v31 = UINT64_C(18446744073709551615);
    r3_0 = r13_5 ? v31 : UINT64_C(18446744073709551615);
    r43 = (uint64_t)(r4_011 + UINT64_C(1));
    exitcond_not_3 = r43 == r16;
    if (exitcond_not_3) { { r4_0_pn = r3_0; r5_0_pn = r16; goto at__chrono_text_read_front_leading_digits_exit_i_i_i_i_i; } }
    { r3_012 = r3_0; r4_011 = r43; goto at__join_5_5; }
    at__chrono_text_read_front_leading_digits_exit_i_i_i_i_i:;
    r44 = r5_0_pn == UINT64_C(0);
    if (r44) { goto at__arm_2; }
    goto at__else_4;
    at__else_4:;
    r6_i14 = r5_0_pn == r16;
    if (r6_i14) { goto at__after_1_i180; }
    goto at__chrono_text_read_number_stands_before_exit_i177_i_i_i_i;
    at__chrono_text_read_number_stands_before_exit_i177_i_i_i_i:;
    r11_i_i_i178 = (r13_i10 + (int64_t)r5_0_pn);
    LOAD(uint8_t, r13_i_i16, r11_i_i_i178);
    r12_i17 = r13_i_i16 == 32u;
    if (r12_i17) { goto at__after_1_i180; }
    goto at__arm_2;
    at__after_1_i180:;
    r19_i_i181 = (int64_t)r4_0_pn > (int64_t)UINT64_C(18446744073709551615);
    if (r19_i_i181) { goto at__chrono_text_read_number_signed_exit_thread_i_i_i_i_i; }
    goto at__chrono_text_read_number_signed_exit_i_i_i_i_i;
    at__chrono_text_read_number_signed_exit_thread_i_i_i_i_i:;
    r29_2 = (uint64_t)(UINT64_C(0) - r4_0_pn);
    r9_0 = r1_0_in ? r29_2 : r4_0_pn;
    {
    r5_sroa_4_0_i44 = r9_0;
    goto at__chrono_text_read_number_read_number_exit_i_i_i_i;
    }
    at__chrono_text_read_number_signed_exit_i_i_i_i_i:;
    r40_i_i182 = r4_0_pn == UINT64_C(9223372036854775808);
    or_cond_2 = (uint8_t)(((uint32_t)r1_0_in & (uint32_t)r40_i_i182) & 1);
    if (or_cond_2) { { r5_sroa_4_0_i44 = UINT64_C(9223372036854775808); goto at__chrono_text_read_number_read_number_exit_i_i_i_i; } }
    goto at__arm_2;
    at__chrono_text_read_number_read_number_exit_i_i_i_i:;
    r92 = (uint64_t)(r5_0_pn + r1_i_i172);
    {
    r7_sroa_4_i185_sroa_3_1_ph = r5_sroa_4_0_i44;
    r7_sroa_4_i185_sroa_5_1_ph = r92;
    goto at__arm_6;
    }
    at__arm_6:;
    r9_i195 = (uint64_t)(r7_sroa_4_i185_sroa_5_1_ph + r9_i85);
    r67_2 = (uint64_t)(r4_01349 << (UINT64_C(3) & 63u));
    r70_2 = (r3 + (int64_t)r67_2);
    STORE(uint64_t, r70_2, r7_sroa_4_i185_sroa_3_1_ph);
    r74 = (uint64_t)(r4_01349 + UINT64_C(1));
    r9_i82 = r9_i195 == a0_val2;
    if (r9_i82) { { r0_sroa_4_0 = r74; goto at__arm_1; } }
    { r4_01349 = r74; r6_sroa_0_01348 = r11_i11; r5_sroa_5_01347 = r9_i195; goto at__join_5_3; }
    at__arm_1_thread:;
    STORE(uint64_t, r10, r0_sroa_4_0_i_i_i_ph);
    {
    r4_i24 = r0_sroa_4_0_i_i_i_ph;
    goto at__arm_12;
    }
    at__arm_1:;
    STORE(uint64_t, r10_i28, r0_sroa_4_0);
    switch (r3_sroa_17_0_i_ph58) {
    case 0: goto at__arm_1_3;
    case 1: goto at__arm_2_2;
    case 2: goto at__arm_3;
    case 3: goto at__arm_4;
    case 4: goto at__arm_5_2;
    case 5: goto at__arm_6_2;
    case 6: goto at__arm_7;
    case 7: goto at__arm_8_2;
    case 8: goto at__arm_9_3;
    case 9: goto at__arm_10_2;
    case 10u: goto at__arm_11;
    case 11u: { r4_i24 = r0_sroa_4_0; goto at__arm_12; }
    case 12u: goto at__arm_13;
    case 13u: goto at__arm_14;
    default: goto at__default_unreachable;
    }
    at__arm_1_3:;
    r28_2 = r0_sroa_4_0 == UINT64_C(3);
    if (r28_2) { goto at__then_6_i_i9; }
    goto at__arm_2_3;
    at__then_6_i_i9:;
    r37_i2492 = (a0 + 65560);
    LOAD(uint64_t, r54_2, r3);
    LOAD(uint64_t, r58_2, r37_i2492);
    r22_i_i_i_i10 = (uint32_t)(r54_2);
    v32 = (uint64_t)(r54_2 + UINT64_C(2147483648));
    v33 = v32 < UINT64_C(4294967296);
    if (v33) { goto at__arm_1_4; }
    goto at__arm_2_3;
    at__arm_1_4:;
    r35_i2494 = (a0 + 65552);
    LOAD(uint64_t, r56_2, r35_i2494);
    v34 = (uint64_t)(r56_2 | r58_2);
    or_cond_3 = v34 < UINT64_C(4294967296);
    if (or_cond_3) { goto at__arm_9_i2495; }
    goto at__arm_2_3;
    at__arm_9_i2495:;
    spec_select2 = (uint32_t)(r56_2);
    spec_select2_i19 = (uint32_t)(r58_2);
    r7 = caltool_dates_answers_DateAnswersCommandAnswers_from_ymd(r22_i_i_i_i10, spec_select2, spec_select2_i19);
    r70_i2325 = r7.f0;
    r71_i2326 = r7.f1;
    caltool_form_texts_push_date_line_1f478b2d7b47a44d(a0, r70_i2325, r71_i2326);
    goto at__caltool_form_answer_read_and_answer_1f478b2d7b47a44d_exit;
    at__arm_2_3:;
    r10_i2496 = (a0 + 65536);
    LOAD(uint64_t, r11_3, r10_i2496);
    r21_i2497 = (a0 + (int64_t)r11_3);
    r8_2 = (uint64_t)((uintptr_t)r21_i2497);
    r10_2 = (uint64_t)(r8_2 - (uint64_t)(uintptr_t)((bytes)&static_1));
    r11_4 = r10_2 < UINT64_C(5);
    if (r11_4) { { r0_04 = UINT64_C(0); goto at__join_7; } }
    goto at__apart_2;
    at__apart_2:;
    memcpy(r21_i2497, (bytes)&static_1, UINT64_C(5));
    goto at__chrono_text_text_Text_push_text_65536_exit_i_i;
    at__join_7:;
    r20_4 = (r21_i2497 + (int64_t)r0_04);
    r24_3 = ((bytes)&static_1 + (int64_t)r0_04);
    LOAD(uint8_t, r26_3, r24_3);
    STORE(uint8_t, r20_4, r26_3);
    r30 = (uint64_t)(r0_04 + UINT64_C(1));
    exitcond_not_4 = r30 == UINT64_C(5);
    if (exitcond_not_4) { goto at__chrono_text_text_Text_push_text_65536_exit_i_i; }
    { r0_04 = r30; goto at__join_7; }
    at__chrono_text_text_Text_push_text_65536_exit_i_i:;
    r16_3 = (uint64_t)(r11_3 + UINT64_C(5));
    STORE(uint64_t, r10_i2496, r16_3);
    goto at__caltool_form_answer_read_and_answer_1f478b2d7b47a44d_exit;
    at__arm_2_2:;
    r30_i2498 = r0_sroa_4_0 == UINT64_C(2);
    if (r30_i2498) { goto at__then_6_i2501; }
    goto at__arm_2_i280;
    at__then_6_i2501:;
    LOAD(uint64_t, r53_i2502, r3);
    r22_3 = (uint32_t)(r53_i2502);
    v35 = (uint64_t)(r53_i2502 + UINT64_C(2147483648));
    v36 = v35 < UINT64_C(4294967296);
    if (v36) { goto at__arm_9_i2504; }
    goto at__arm_2_i280;
    at__arm_9_i2504:;
    r37_i2505 = (a0 + 65552);
    LOAD(uint64_t, r86_i2506, r37_i2505);
    r12_not = r86_i2506 < UINT64_C(4294967296);
    if (r12_not) { goto at__arm_13_i2509; }
    goto at__arm_2_i280;
    at__arm_13_i2509:;
    spec_select2_2 = (uint32_t)(r86_i2506);
    r84_i2178 = caltool_dates_answers_DateAnswersCommandAnswers_from_yo(r22_3, spec_select2_2);
    r85_i2179 = r84_i2178.f0;
    r86_i2180 = r84_i2178.f1;
    caltool_form_texts_push_date_line_1f478b2d7b47a44d(a0, r85_i2179, r86_i2180);
    goto at__caltool_form_answer_read_and_answer_1f478b2d7b47a44d_exit;
    at__arm_2_i280:;
    r10_i2517 = (a0 + 65536);
    LOAD(uint64_t, r11_i2518, r10_i2517);
    r21_i2519 = (a0 + (int64_t)r11_i2518);
    r8_i_i_i_i_i_i_i2520 = (uint64_t)((uintptr_t)r21_i2519);
    r10_i_i_i_i_i_i_i2521 = (uint64_t)(r8_i_i_i_i_i_i_i2520 - (uint64_t)(uintptr_t)((bytes)&static_1));
    r11_i_i_i_i_i_i_i2522 = r10_i_i_i_i_i_i_i2521 < UINT64_C(5);
    if (r11_i_i_i_i_i_i_i2522) { { r0_04_i_i_i_i_i_i_i2526 = UINT64_C(0); goto at__join_7_i_i_i_i_i_i_i2525; } }
    goto at__apart_2_i_i_i_i_i_i_i2523;
    at__apart_2_i_i_i_i_i_i_i2523:;
    memcpy(r21_i2519, (bytes)&static_1, UINT64_C(5));
    goto at__chrono_text_text_Text_push_text_65536_exit2532_i_i;
    at__join_7_i_i_i_i_i_i_i2525:;
    r20_i_i_i_i_i_i_i2527 = (r21_i2519 + (int64_t)r0_04_i_i_i_i_i_i_i2526);
    r24_i_i_i_i_i_i_i2528 = ((bytes)&static_1 + (int64_t)r0_04_i_i_i_i_i_i_i2526);
    LOAD(uint8_t, r26_i_i_i_i_i_i_i2529, r24_i_i_i_i_i_i_i2528);
    STORE(uint8_t, r20_i_i_i_i_i_i_i2527, r26_i_i_i_i_i_i_i2529);
    r30_i_i_i_i_i_i_i2530 = (uint64_t)(r0_04_i_i_i_i_i_i_i2526 + UINT64_C(1));
    exitcond_not_i_i_i_i_i_i_i2531 = r30_i_i_i_i_i_i_i2530 == UINT64_C(5);
    if (exitcond_not_i_i_i_i_i_i_i2531) { goto at__chrono_text_text_Text_push_text_65536_exit2532_i_i; }
    { r0_04_i_i_i_i_i_i_i2526 = r30_i_i_i_i_i_i_i2530; goto at__join_7_i_i_i_i_i_i_i2525; }
    at__chrono_text_text_Text_push_text_65536_exit2532_i_i:;
    r16_i2524 = (uint64_t)(r11_i2518 + UINT64_C(5));
    STORE(uint64_t, r10_i2517, r16_i2524);
    goto at__caltool_form_answer_read_and_answer_1f478b2d7b47a44d_exit;
    at__arm_3:;
    r38 = r0_sroa_4_0 == UINT64_C(3);
    if (r38) { goto at__then_6_i2535; }
    goto at__arm_2_i300;
    at__then_6_i2535:;
    r47_3 = (a0 + 65560);
    LOAD(uint64_t, r64_i2536, r3);
    r22_i_i2537 = (uint32_t)(r64_i2536);
    v37 = (uint64_t)(r64_i2536 + UINT64_C(2147483648));
    v38 = v37 < UINT64_C(4294967296);
    if (v38) { goto at__arm_9_i2540; }
    goto at__arm_2_i300;
    at__arm_9_i2540:;
    r45 = (a0 + 65552);
    LOAD(uint64_t, r97, r45);
    r12_not_i_i2541 = r97 < UINT64_C(4294967296);
    spec_select2_i_i2542 = (uint32_t)(r97);
    if (r12_not_i_i2541) { goto at__arm_13_i2544; }
    goto at__arm_2_i300;
    at__arm_13_i2544:;
    LOAD(uint64_t, r130, r47_3);
    v39 = (uint64_t)(r130 + UINT64_C(18446744073709551615));
    or_cond_4 = v39 < UINT64_C(7);
    if (or_cond_4) { goto at__arm_16; }
    goto at__arm_2_i300;
    at__arm_16:;
    r17_2 = (uint8_t)(r130);
    r19 = (uint8_t)((uint32_t)r17_2 + (uint32_t)255u);
    r101_i2036 = caltool_dates_answers_DateAnswersCommandAnswers_from_iso(r22_i_i2537, spec_select2_i_i2542, r19);
    r102_i2037 = r101_i2036.f0;
    r103_i2038 = r101_i2036.f1;
    caltool_form_texts_push_date_line_1f478b2d7b47a44d(a0, r102_i2037, r103_i2038);
    goto at__caltool_form_answer_read_and_answer_1f478b2d7b47a44d_exit;
    at__arm_2_i300:;
    r10_i2551 = (a0 + 65536);
    LOAD(uint64_t, r11_i2552, r10_i2551);
    r21_i2553 = (a0 + (int64_t)r11_i2552);
    r8_i_i_i_i_i_i_i2554 = (uint64_t)((uintptr_t)r21_i2553);
    r10_i_i_i_i_i_i_i2555 = (uint64_t)(r8_i_i_i_i_i_i_i2554 - (uint64_t)(uintptr_t)((bytes)&static_1));
    r11_i_i_i_i_i_i_i2556 = r10_i_i_i_i_i_i_i2555 < UINT64_C(5);
    if (r11_i_i_i_i_i_i_i2556) { { r0_04_i_i_i_i_i_i_i2560 = UINT64_C(0); goto at__join_7_i_i_i_i_i_i_i2559; } }
    goto at__apart_2_i_i_i_i_i_i_i2557;
    at__apart_2_i_i_i_i_i_i_i2557:;
    memcpy(r21_i2553, (bytes)&static_1, UINT64_C(5));
    goto at__chrono_text_text_Text_push_text_65536_exit2566_i_i;
    at__join_7_i_i_i_i_i_i_i2559:;
    r20_i_i_i_i_i_i_i2561 = (r21_i2553 + (int64_t)r0_04_i_i_i_i_i_i_i2560);
    r24_i_i_i_i_i_i_i2562 = ((bytes)&static_1 + (int64_t)r0_04_i_i_i_i_i_i_i2560);
    LOAD(uint8_t, r26_i_i_i_i_i_i_i2563, r24_i_i_i_i_i_i_i2562);
    STORE(uint8_t, r20_i_i_i_i_i_i_i2561, r26_i_i_i_i_i_i_i2563);
    r30_i_i_i_i_i_i_i2564 = (uint64_t)(r0_04_i_i_i_i_i_i_i2560 + UINT64_C(1));
    exitcond_not_i_i_i_i_i_i_i2565 = r30_i_i_i_i_i_i_i2564 == UINT64_C(5);
    if (exitcond_not_i_i_i_i_i_i_i2565) { goto at__chrono_text_text_Text_push_text_65536_exit2566_i_i; }
    { r0_04_i_i_i_i_i_i_i2560 = r30_i_i_i_i_i_i_i2564; goto at__join_7_i_i_i_i_i_i_i2559; }
    at__chrono_text_text_Text_push_text_65536_exit2566_i_i:;
    r16_i2558 = (uint64_t)(r11_i2552 + UINT64_C(5));
    STORE(uint64_t, r10_i2551, r16_i2558);
    goto at__caltool_form_answer_read_and_answer_1f478b2d7b47a44d_exit;
    at__arm_4:;
    cond_i_i8 = r0_sroa_4_0 == UINT64_C(1);
    if (cond_i_i8) { goto at__then_6_i2569; }
    goto at__arm_2_i320;
    at__then_6_i2569:;
    LOAD(uint64_t, r42_2, r3);
    v40 = (uint64_t)(r42_2 + UINT64_C(2147483648));
    v41 = v40 < UINT64_C(4294967296);
    if (v41) { goto at__arm_9_i2571; }
    goto at__arm_2_i320;
    at__arm_9_i2571:;
    r22_i_i2572 = (uint32_t)(r42_2);
    v42 = (uint32_t)(r22_i_i2572 + 95746129u);
    or_cond_i_i_i_i2576 = v42 < 191491529u;
    spec_select_i_i_i2577 = or_cond_i_i_i_i2576 ? r22_i_i2572 : 0;
    spec_select1_i_i_i2578 = (uint8_t)or_cond_i_i_i_i2576;
    caltool_form_texts_push_date_line_1f478b2d7b47a44d(a0, spec_select1_i_i_i2578, spec_select_i_i_i2577);
    goto at__caltool_form_answer_read_and_answer_1f478b2d7b47a44d_exit;
    at__arm_2_i320:;
    r10_i2581 = (a0 + 65536);
    LOAD(uint64_t, r11_i2582, r10_i2581);
    r21_i2583 = (a0 + (int64_t)r11_i2582);
    r8_i_i_i_i_i_i_i2584 = (uint64_t)((uintptr_t)r21_i2583);
    r10_i_i_i_i_i_i_i2585 = (uint64_t)(r8_i_i_i_i_i_i_i2584 - (uint64_t)(uintptr_t)((bytes)&static_1));
    r11_i_i_i_i_i_i_i2586 = r10_i_i_i_i_i_i_i2585 < UINT64_C(5);
    if (r11_i_i_i_i_i_i_i2586) { { r0_04_i_i_i_i_i_i_i2590 = UINT64_C(0); goto at__join_7_i_i_i_i_i_i_i2589; } }
    goto at__apart_2_i_i_i_i_i_i_i2587;
    at__apart_2_i_i_i_i_i_i_i2587:;
    memcpy(r21_i2583, (bytes)&static_1, UINT64_C(5));
    goto at__chrono_text_text_Text_push_text_65536_exit2596_i_i;
    at__join_7_i_i_i_i_i_i_i2589:;
    r20_i_i_i_i_i_i_i2591 = (r21_i2583 + (int64_t)r0_04_i_i_i_i_i_i_i2590);
    r24_i_i_i_i_i_i_i2592 = ((bytes)&static_1 + (int64_t)r0_04_i_i_i_i_i_i_i2590);
    LOAD(uint8_t, r26_i_i_i_i_i_i_i2593, r24_i_i_i_i_i_i_i2592);
    STORE(uint8_t, r20_i_i_i_i_i_i_i2591, r26_i_i_i_i_i_i_i2593);
    r30_i_i_i_i_i_i_i2594 = (uint64_t)(r0_04_i_i_i_i_i_i_i2590 + UINT64_C(1));
    exitcond_not_i_i_i_i_i_i_i2595 = r30_i_i_i_i_i_i_i2594 == UINT64_C(5);
    if (exitcond_not_i_i_i_i_i_i_i2595) { goto at__chrono_text_text_Text_push_text_65536_exit2596_i_i; }
    { r0_04_i_i_i_i_i_i_i2590 = r30_i_i_i_i_i_i_i2594; goto at__join_7_i_i_i_i_i_i_i2589; }
    at__chrono_text_text_Text_push_text_65536_exit2596_i_i:;
    r16_i2588 = (uint64_t)(r11_i2582 + UINT64_C(5));
    STORE(uint64_t, r10_i2581, r16_i2588);
    goto at__caltool_form_answer_read_and_answer_1f478b2d7b47a44d_exit;
    at__arm_5_2:;
    r46_2 = r0_sroa_4_0 == UINT64_C(4);
    if (r46_2) { goto at__then_6_i2599; }
    goto at__arm_2_i340;
    at__then_6_i2599:;
    r55_i2600 = (a0 + 65560);
    r57_i2601 = (a0 + 65568);
    LOAD(uint64_t, r75, r3);
    r22_i_i2602 = (uint32_t)(r75);
    v43 = (uint64_t)(r75 + UINT64_C(2147483648));
    v44 = v43 < UINT64_C(4294967296);
    if (v44) { goto at__arm_9_i2605; }
    goto at__arm_2_i340;
    at__arm_9_i2605:;
    r53_i2606 = (a0 + 65552);
    LOAD(uint64_t, r108, r53_i2606);
    r12_not_i_i2607 = r108 < UINT64_C(4294967296);
    spec_select2_i_i2608 = (uint32_t)(r108);
    if (r12_not_i_i2607) { goto at__arm_13_i2611; }
    goto at__arm_2_i340;
    at__arm_13_i2611:;
    LOAD(uint64_t, r141, r55_i2600);
    v45 = (uint64_t)(r141 + UINT64_C(18446744073709551615));
    or_cond_i_i2612 = v45 < UINT64_C(7);
    r17_i_i2613 = (uint8_t)(r141);
    r19_i_i2614 = (uint8_t)((uint32_t)r17_i_i2613 + (uint32_t)255u);
    if (or_cond_i_i2612) { goto at__arm_16_i2617; }
    goto at__arm_2_i340;
    at__arm_16_i2617:;
    LOAD(uint64_t, r170, r57_i2601);
    r12_not_i23 = r170 < UINT64_C(256);
    if (r12_not_i23) { goto at__arm_19; }
    goto at__arm_2_i340;
    at__arm_19:;
    spec_select = (uint8_t)(r170);
    r133_i1752 = caltool_dates_answers_DateAnswersCommandAnswers_nth_weekday(r22_i_i2602, spec_select2_i_i2608, r19_i_i2614, spec_select);
    r134_i1753 = r133_i1752.f0;
    r135_i1754 = r133_i1752.f1;
    caltool_form_texts_push_date_line_1f478b2d7b47a44d(a0, r134_i1753, r135_i1754);
    goto at__caltool_form_answer_read_and_answer_1f478b2d7b47a44d_exit;
    at__arm_2_i340:;
    r10_i2623 = (a0 + 65536);
    LOAD(uint64_t, r11_i2624, r10_i2623);
    r21_i2625 = (a0 + (int64_t)r11_i2624);
    r8_i_i_i_i_i_i_i2626 = (uint64_t)((uintptr_t)r21_i2625);
    r10_i_i_i_i_i_i_i2627 = (uint64_t)(r8_i_i_i_i_i_i_i2626 - (uint64_t)(uintptr_t)((bytes)&static_1));
    r11_i_i_i_i_i_i_i2628 = r10_i_i_i_i_i_i_i2627 < UINT64_C(5);
    if (r11_i_i_i_i_i_i_i2628) { { r0_04_i_i_i_i_i_i_i2632 = UINT64_C(0); goto at__join_7_i_i_i_i_i_i_i2631; } }
    goto at__apart_2_i_i_i_i_i_i_i2629;
    at__apart_2_i_i_i_i_i_i_i2629:;
    memcpy(r21_i2625, (bytes)&static_1, UINT64_C(5));
    goto at__chrono_text_text_Text_push_text_65536_exit2638_i_i;
    at__join_7_i_i_i_i_i_i_i2631:;
    r20_i_i_i_i_i_i_i2633 = (r21_i2625 + (int64_t)r0_04_i_i_i_i_i_i_i2632);
    r24_i_i_i_i_i_i_i2634 = ((bytes)&static_1 + (int64_t)r0_04_i_i_i_i_i_i_i2632);
    LOAD(uint8_t, r26_i_i_i_i_i_i_i2635, r24_i_i_i_i_i_i_i2634);
    STORE(uint8_t, r20_i_i_i_i_i_i_i2633, r26_i_i_i_i_i_i_i2635);
    r30_i_i_i_i_i_i_i2636 = (uint64_t)(r0_04_i_i_i_i_i_i_i2632 + UINT64_C(1));
    exitcond_not_i_i_i_i_i_i_i2637 = r30_i_i_i_i_i_i_i2636 == UINT64_C(5);
    if (exitcond_not_i_i_i_i_i_i_i2637) { goto at__chrono_text_text_Text_push_text_65536_exit2638_i_i; }
    { r0_04_i_i_i_i_i_i_i2632 = r30_i_i_i_i_i_i_i2636; goto at__join_7_i_i_i_i_i_i_i2631; }
    at__chrono_text_text_Text_push_text_65536_exit2638_i_i:;
    r16_i2630 = (uint64_t)(r11_i2624 + UINT64_C(5));
    STORE(uint64_t, r10_i2623, r16_i2630);
    goto at__caltool_form_answer_read_and_answer_1f478b2d7b47a44d_exit;
    at__arm_6_2:;
    r31_i2639 = r0_sroa_4_0 == UINT64_C(4);
    if (r31_i2639) { goto at__then_6_i2642; }
    goto at__arm_2_i360;
    at__then_6_i2642:;
    r40 = (a0 + 65560);
    LOAD(uint64_t, r60_3, r3);
    LOAD(uint64_t, r64_i2643, r40);
    r22_i_i_i2644 = (uint32_t)(r60_3);
    v46 = (uint64_t)(r60_3 + UINT64_C(2147483648));
    v47 = v46 < UINT64_C(4294967296);
    if (v47) { goto at__arm_1_i_i2646; }
    goto at__arm_2_i360;
    at__arm_1_i_i2646:;
    r38_i2647 = (a0 + 65552);
    LOAD(uint64_t, r62_i2648, r38_i2647);
    v48 = (uint64_t)(r62_i2648 | r64_i2643);
    or_cond_i2649 = v48 < UINT64_C(4294967296);
    if (or_cond_i2649) { goto at__arm_9_i2650; }
    goto at__arm_2_i360;
    at__arm_9_i2650:;
    spec_select2_i_i_i2651 = (uint32_t)(r62_i2648);
    spec_select2_i19_i_i2652 = (uint32_t)(r64_i2643);
    r42_i2653 = (a0 + 65568);
    LOAD(uint64_t, r84_i2654, r42_i2653);
    STORE(uint32_t, r20_i1530, r22_i_i_i2644);
    r0_sroa_21_4_r20_sroa_idx_i1606 = (r20_i1530 + 4);
    STORE(uint32_t, r0_sroa_21_4_r20_sroa_idx_i1606, spec_select2_i_i_i2651);
    r0_sroa_24_4_r20_sroa_idx_i1607 = (r20_i1530 + 8);
    STORE(uint32_t, r0_sroa_24_4_r20_sroa_idx_i1607, spec_select2_i19_i_i2652);
    r146_i1610 = caltool_form_asked_moved_by_days_e48cce946a840f3d(r20_i1530, r84_i2654);
    r147_i1611 = r146_i1610.f0;
    r148_i1612 = r146_i1610.f1;
    caltool_form_texts_push_date_line_1f478b2d7b47a44d(a0, r147_i1611, r148_i1612);
    goto at__caltool_form_answer_read_and_answer_1f478b2d7b47a44d_exit;
    at__arm_2_i360:;
    r10_i2662 = (a0 + 65536);
    LOAD(uint64_t, r11_i2663, r10_i2662);
    r21_i2664 = (a0 + (int64_t)r11_i2663);
    r8_i_i_i_i_i_i_i2665 = (uint64_t)((uintptr_t)r21_i2664);
    r10_i_i_i_i_i_i_i2666 = (uint64_t)(r8_i_i_i_i_i_i_i2665 - (uint64_t)(uintptr_t)((bytes)&static_1));
    r11_i_i_i_i_i_i_i2667 = r10_i_i_i_i_i_i_i2666 < UINT64_C(5);
    if (r11_i_i_i_i_i_i_i2667) { { r0_04_i_i_i_i_i_i_i2671 = UINT64_C(0); goto at__join_7_i_i_i_i_i_i_i2670; } }
    goto at__apart_2_i_i_i_i_i_i_i2668;
    at__apart_2_i_i_i_i_i_i_i2668:;
    memcpy(r21_i2664, (bytes)&static_1, UINT64_C(5));
    goto at__chrono_text_text_Text_push_text_65536_exit2677_i_i;
    at__join_7_i_i_i_i_i_i_i2670:;
    r20_i_i_i_i_i_i_i2672 = (r21_i2664 + (int64_t)r0_04_i_i_i_i_i_i_i2671);
    r24_i_i_i_i_i_i_i2673 = ((bytes)&static_1 + (int64_t)r0_04_i_i_i_i_i_i_i2671);
    LOAD(uint8_t, r26_i_i_i_i_i_i_i2674, r24_i_i_i_i_i_i_i2673);
    STORE(uint8_t, r20_i_i_i_i_i_i_i2672, r26_i_i_i_i_i_i_i2674);
    r30_i_i_i_i_i_i_i2675 = (uint64_t)(r0_04_i_i_i_i_i_i_i2671 + UINT64_C(1));
    exitcond_not_i_i_i_i_i_i_i2676 = r30_i_i_i_i_i_i_i2675 == UINT64_C(5);
    if (exitcond_not_i_i_i_i_i_i_i2676) { goto at__chrono_text_text_Text_push_text_65536_exit2677_i_i; }
    { r0_04_i_i_i_i_i_i_i2671 = r30_i_i_i_i_i_i_i2675; goto at__join_7_i_i_i_i_i_i_i2670; }
    at__chrono_text_text_Text_push_text_65536_exit2677_i_i:;
    r16_i2669 = (uint64_t)(r11_i2663 + UINT64_C(5));
    STORE(uint64_t, r10_i2662, r16_i2669);
    goto at__caltool_form_answer_read_and_answer_1f478b2d7b47a44d_exit;
    at__arm_7:;
    r36_2 = r0_sroa_4_0 == UINT64_C(4);
    if (r36_2) { goto at__then_6_i2680; }
    goto at__arm_2_i380;
    at__then_6_i2680:;
    r45_i2681 = (a0 + 65560);
    LOAD(uint64_t, r65, r3);
    LOAD(uint64_t, r69_i2682, r45_i2681);
    r22_i_i_i2683 = (uint32_t)(r65);
    v49 = (uint64_t)(r65 + UINT64_C(2147483648));
    v50 = v49 < UINT64_C(4294967296);
    if (v50) { goto at__arm_1_i_i2686; }
    goto at__arm_2_i380;
    at__arm_1_i_i2686:;
    r43_3 = (a0 + 65552);
    LOAD(uint64_t, r67_3, r43_3);
    spec_select2_i_i_i2687 = (uint32_t)(r67_3);
    v51 = (uint64_t)(r67_3 | r69_i2682);
    or_cond_i2688 = v51 < UINT64_C(4294967296);
    if (or_cond_i2688) { goto at__arm_9_i2689; }
    goto at__arm_2_i380;
    at__arm_9_i2689:;
    r47_i2690 = (a0 + 65568);
    LOAD(uint64_t, r89_i2691, r47_i2690);
    v52 = (uint64_t)(r89_i2691 + UINT64_C(4294967295));
    or_cond_i_i2692 = v52 < UINT64_C(8589934591);
    if (or_cond_i_i2692) { goto at__arm_13_i2694; }
    goto at__arm_2_i380;
    at__arm_13_i2694:;
    a1_lobit = (uint64_t)(r89_i2691 >> (UINT64_C(63) & 63u));
    r8_sroa_7_0 = (int64_t)r89_i2691 < 0 ? (uint64_t)(0u - r89_i2691) : r89_i2691;
    spec_select2_i19_i_i2695 = (uint32_t)(r69_i2682);
    r0_sroa_2747_sroa_10_0_extract_trunc_i1383 = (uint32_t)(r8_sroa_7_0);
    r0_sroa_2747_sroa_0_sroa_0_0_extract_trunc_i1381 = (uint8_t)(a1_lobit);
    STORE(uint32_t, r22_i1393, r22_i_i_i2683);
    r0_sroa_21_4_r22_sroa_idx_i1460 = (r22_i1393 + 4);
    STORE(uint32_t, r0_sroa_21_4_r22_sroa_idx_i1460, spec_select2_i_i_i2687);
    r0_sroa_24_4_r22_sroa_idx_i1461 = (r22_i1393 + 8);
    STORE(uint32_t, r0_sroa_24_4_r22_sroa_idx_i1461, spec_select2_i19_i_i2695);
    r164_i1464 = caltool_form_asked_moved_by_months_e48cce946a840f3d(r22_i1393, r0_sroa_2747_sroa_0_sroa_0_0_extract_trunc_i1381, r0_sroa_2747_sroa_10_0_extract_trunc_i1383);
    r165_i1465 = r164_i1464.f0;
    r166_i1466 = r164_i1464.f1;
    caltool_form_texts_push_date_line_1f478b2d7b47a44d(a0, r165_i1465, r166_i1466);
    goto at__caltool_form_answer_read_and_answer_1f478b2d7b47a44d_exit;
    at__arm_2_i380:;
    r10_i2705 = (a0 + 65536);
    LOAD(uint64_t, r11_i2706, r10_i2705);
    r21_i2707 = (a0 + (int64_t)r11_i2706);
    r8_i_i_i_i_i_i_i2708 = (uint64_t)((uintptr_t)r21_i2707);
    r10_i_i_i_i_i_i_i2709 = (uint64_t)(r8_i_i_i_i_i_i_i2708 - (uint64_t)(uintptr_t)((bytes)&static_1));
    r11_i_i_i_i_i_i_i2710 = r10_i_i_i_i_i_i_i2709 < UINT64_C(5);
    if (r11_i_i_i_i_i_i_i2710) { { r0_04_i_i_i_i_i_i_i2714 = UINT64_C(0); goto at__join_7_i_i_i_i_i_i_i2713; } }
    goto at__apart_2_i_i_i_i_i_i_i2711;
    at__apart_2_i_i_i_i_i_i_i2711:;
    memcpy(r21_i2707, (bytes)&static_1, UINT64_C(5));
    goto at__chrono_text_text_Text_push_text_65536_exit2720_i_i;
    at__join_7_i_i_i_i_i_i_i2713:;
    r20_i_i_i_i_i_i_i2715 = (r21_i2707 + (int64_t)r0_04_i_i_i_i_i_i_i2714);
    r24_i_i_i_i_i_i_i2716 = ((bytes)&static_1 + (int64_t)r0_04_i_i_i_i_i_i_i2714);
    LOAD(uint8_t, r26_i_i_i_i_i_i_i2717, r24_i_i_i_i_i_i_i2716);
    STORE(uint8_t, r20_i_i_i_i_i_i_i2715, r26_i_i_i_i_i_i_i2717);
    r30_i_i_i_i_i_i_i2718 = (uint64_t)(r0_04_i_i_i_i_i_i_i2714 + UINT64_C(1));
    exitcond_not_i_i_i_i_i_i_i2719 = r30_i_i_i_i_i_i_i2718 == UINT64_C(5);
    if (exitcond_not_i_i_i_i_i_i_i2719) { goto at__chrono_text_text_Text_push_text_65536_exit2720_i_i; }
    { r0_04_i_i_i_i_i_i_i2714 = r30_i_i_i_i_i_i_i2718; goto at__join_7_i_i_i_i_i_i_i2713; }
    at__chrono_text_text_Text_push_text_65536_exit2720_i_i:;
    r16_i2712 = (uint64_t)(r11_i2706 + UINT64_C(5));
    STORE(uint64_t, r10_i2705, r16_i2712);
    goto at__caltool_form_answer_read_and_answer_1f478b2d7b47a44d_exit;
    at__arm_8_2:;
    r36_i2721 = r0_sroa_4_0 == UINT64_C(4);
    if (r36_i2721) { goto at__then_6_i2724; }
    goto at__arm_2_i400;
    at__then_6_i2724:;
    r45_i2725 = (a0 + 65560);
    LOAD(uint64_t, r65_i2726, r3);
    LOAD(uint64_t, r69_i2727, r45_i2725);
    r22_i_i_i2728 = (uint32_t)(r65_i2726);
    v53 = (uint64_t)(r65_i2726 + UINT64_C(2147483648));
    v54 = v53 < UINT64_C(4294967296);
    if (v54) { goto at__arm_1_i_i2731; }
    goto at__arm_2_i400;
    at__arm_1_i_i2731:;
    r43_i2732 = (a0 + 65552);
    LOAD(uint64_t, r67_i2733, r43_i2732);
    spec_select2_i_i_i2734 = (uint32_t)(r67_i2733);
    v55 = (uint64_t)(r67_i2733 | r69_i2727);
    or_cond_i2735 = v55 < UINT64_C(4294967296);
    if (or_cond_i2735) { goto at__arm_9_i2736; }
    goto at__arm_2_i400;
    at__arm_9_i2736:;
    r47_i2737 = (a0 + 65568);
    LOAD(uint64_t, r89_i2738, r47_i2737);
    v56 = (uint64_t)(r89_i2738 + UINT64_C(18446744073709551615));
    or_cond_i_i2739 = v56 < UINT64_C(7);
    if (or_cond_i_i2739) { goto at__arm_13_i2742; }
    goto at__arm_2_i400;
    at__arm_13_i2742:;
    r17_i_i2743 = (uint8_t)(r89_i2738);
    r19_i_i2744 = (uint8_t)((uint32_t)r17_i_i2743 + (uint32_t)255u);
    spec_select2_i19_i_i2745 = (uint32_t)(r69_i2727);
    r7_i2418 = caltool_dates_answers_DateAnswersCommandAnswers_from_ymd(r22_i_i_i2728, spec_select2_i_i_i2734, spec_select2_i19_i_i2745);
    r176_i1319 = r7_i2418.f0;
    r177_i1320 = r7_i2418.f1;
    caltool_form_texts_push_week_line_1f478b2d7b47a44d(a0, r176_i1319, r177_i1320, r19_i_i2744);
    goto at__caltool_form_answer_read_and_answer_1f478b2d7b47a44d_exit;
    at__arm_2_i400:;
    r10_i2753 = (a0 + 65536);
    LOAD(uint64_t, r11_i2754, r10_i2753);
    r21_i2755 = (a0 + (int64_t)r11_i2754);
    r8_i_i_i_i_i_i_i2756 = (uint64_t)((uintptr_t)r21_i2755);
    r10_i_i_i_i_i_i_i2757 = (uint64_t)(r8_i_i_i_i_i_i_i2756 - (uint64_t)(uintptr_t)((bytes)&static_1));
    r11_i_i_i_i_i_i_i2758 = r10_i_i_i_i_i_i_i2757 < UINT64_C(5);
    if (r11_i_i_i_i_i_i_i2758) { { r0_04_i_i_i_i_i_i_i2762 = UINT64_C(0); goto at__join_7_i_i_i_i_i_i_i2761; } }
    goto at__apart_2_i_i_i_i_i_i_i2759;
    at__apart_2_i_i_i_i_i_i_i2759:;
    memcpy(r21_i2755, (bytes)&static_1, UINT64_C(5));
    goto at__chrono_text_text_Text_push_text_65536_exit2768_i_i;
    at__join_7_i_i_i_i_i_i_i2761:;
    r20_i_i_i_i_i_i_i2763 = (r21_i2755 + (int64_t)r0_04_i_i_i_i_i_i_i2762);
    r24_i_i_i_i_i_i_i2764 = ((bytes)&static_1 + (int64_t)r0_04_i_i_i_i_i_i_i2762);
    LOAD(uint8_t, r26_i_i_i_i_i_i_i2765, r24_i_i_i_i_i_i_i2764);
    STORE(uint8_t, r20_i_i_i_i_i_i_i2763, r26_i_i_i_i_i_i_i2765);
    r30_i_i_i_i_i_i_i2766 = (uint64_t)(r0_04_i_i_i_i_i_i_i2762 + UINT64_C(1));
    exitcond_not_i_i_i_i_i_i_i2767 = r30_i_i_i_i_i_i_i2766 == UINT64_C(5);
    if (exitcond_not_i_i_i_i_i_i_i2767) { goto at__chrono_text_text_Text_push_text_65536_exit2768_i_i; }
    { r0_04_i_i_i_i_i_i_i2762 = r30_i_i_i_i_i_i_i2766; goto at__join_7_i_i_i_i_i_i_i2761; }
    at__chrono_text_text_Text_push_text_65536_exit2768_i_i:;
    r16_i2760 = (uint64_t)(r11_i2754 + UINT64_C(5));
    STORE(uint64_t, r10_i2753, r16_i2760);
    goto at__caltool_form_answer_read_and_answer_1f478b2d7b47a44d_exit;
    at__arm_9_3:;
    r55_i2769 = r0_sroa_4_0 == UINT64_C(9);
    if (r55_i2769) { goto at__then_6_i2772; }
    goto at__arm_2_i420;
    at__then_6_i2772:;
    r64_i2773 = (a0 + 65560);
    r74_3 = (a0 + 65600);
    r76_2 = (a0 + 65608);
    LOAD(uint64_t, r99_i2774, r3);
    LOAD(uint64_t, r103_i2775, r64_i2773);
    r22_i_i_i2776 = (uint32_t)(r99_i2774);
    v57 = (uint64_t)(r99_i2774 + UINT64_C(2147483648));
    v58 = v57 < UINT64_C(4294967296);
    if (v58) { goto at__arm_1_i_i2778; }
    goto at__arm_2_i420;
    at__arm_1_i_i2778:;
    r62_i2779 = (a0 + 65552);
    LOAD(uint64_t, r101_i2780, r62_i2779);
    spec_select2_i_i_i2781 = (uint32_t)(r101_i2780);
    v59 = (uint64_t)(r101_i2780 | r103_i2775);
    or_cond_i2782 = v59 < UINT64_C(4294967296);
    if (or_cond_i2782) { goto at__arm_9_i2783; }
    goto at__arm_2_i420;
    at__arm_9_i2783:;
    spec_select2_i19_i_i2784 = (uint32_t)(r103_i2775);
    r72 = (a0 + 65592);
    r70_i2785 = (a0 + 65584);
    r66_i2786 = (a0 + 65568);
    LOAD(uint64_t, r123, r66_i2786);
    LOAD(uint64_t, r127_i_i5, r70_i2785);
    LOAD(uint64_t, r129, r72);
    r12_not_i_i9 = r123 < UINT64_C(4294967296);
    if (r12_not_i_i9) { goto at__arm_1_i12; }
    goto at__arm_2_i420;
    at__arm_1_i12:;
    r68_i2788 = (a0 + 65576);
    LOAD(uint64_t, r125_i_i6, r68_i2788);
    v60 = (uint64_t)(r129 | r127_i_i5);
    v61 = (uint64_t)(v60 | r125_i_i6);
    or_cond_5 = v61 < UINT64_C(4294967296);
    if (or_cond_5) { goto at__arm_13_i2789; }
    goto at__arm_2_i420;
    at__arm_13_i2789:;
    LOAD(uint64_t, r153_i_i7, r76_2);
    r12_not_i_i2790 = r153_i_i7 < UINT64_C(4294967296);
    if (r12_not_i_i2790) { goto at__arm_16_i2793; }
    goto at__arm_2_i420;
    at__arm_16_i2793:;
    spec_select2_i_i2794 = (uint32_t)(r153_i_i7);
    LOAD(uint64_t, r151, r74_3);
    v62 = (uint64_t)(r129 << (UINT64_C(32) & 63u));
    v63 = (uint64_t)(v62 | r127_i_i5);
    v64 = (uint64_t)(r125_i_i6 << (UINT64_C(32) & 63u));
    v65 = (uint64_t)(v64 | r123);
    STORE(uint32_t, r26_i1119, r22_i_i_i2776);
    r0_sroa_21_4_r26_sroa_idx_i1169 = (r26_i1119 + 4);
    STORE(uint32_t, r0_sroa_21_4_r26_sroa_idx_i1169, spec_select2_i_i_i2781);
    r0_sroa_24_4_r26_sroa_idx_i1170 = (r26_i1119 + 8);
    STORE(uint32_t, r0_sroa_24_4_r26_sroa_idx_i1170, spec_select2_i19_i_i2784);
    r0_sroa_2747_4_r26_sroa_idx_i1173 = (r26_i1119 + 12);
    STORE(uint64_t, r0_sroa_2747_4_r26_sroa_idx_i1173, v65);
    r0_sroa_35_4_r26_sroa_idx_i1174 = (r26_i1119 + 20);
    STORE(uint64_t, r0_sroa_35_4_r26_sroa_idx_i1174, v63);
    caltool_form_asked_moved_e48cce946a840f3d(r57_i1126, r26_i1119, r151, spec_select2_i_i2794);
    caltool_form_texts_push_moment_1f478b2d7b47a44d(a0, r57_i1126);
    goto at__caltool_form_answer_read_and_answer_1f478b2d7b47a44d_exit;
    at__arm_2_i420:;
    r10_i2800 = (a0 + 65536);
    LOAD(uint64_t, r11_i2801, r10_i2800);
    r21_i2802 = (a0 + (int64_t)r11_i2801);
    r8_i_i_i_i_i_i_i2803 = (uint64_t)((uintptr_t)r21_i2802);
    r10_i_i_i_i_i_i_i2804 = (uint64_t)(r8_i_i_i_i_i_i_i2803 - (uint64_t)(uintptr_t)((bytes)&static_1));
    r11_i_i_i_i_i_i_i2805 = r10_i_i_i_i_i_i_i2804 < UINT64_C(5);
    if (r11_i_i_i_i_i_i_i2805) { { r0_04_i_i_i_i_i_i_i2809 = UINT64_C(0); goto at__join_7_i_i_i_i_i_i_i2808; } }
    goto at__apart_2_i_i_i_i_i_i_i2806;
    at__apart_2_i_i_i_i_i_i_i2806:;
    memcpy(r21_i2802, (bytes)&static_1, UINT64_C(5));
    goto at__chrono_text_text_Text_push_text_65536_exit2815_i_i;
    at__join_7_i_i_i_i_i_i_i2808:;
    r20_i_i_i_i_i_i_i2810 = (r21_i2802 + (int64_t)r0_04_i_i_i_i_i_i_i2809);
    r24_i_i_i_i_i_i_i2811 = ((bytes)&static_1 + (int64_t)r0_04_i_i_i_i_i_i_i2809);
    LOAD(uint8_t, r26_i_i_i_i_i_i_i2812, r24_i_i_i_i_i_i_i2811);
    STORE(uint8_t, r20_i_i_i_i_i_i_i2810, r26_i_i_i_i_i_i_i2812);
    r30_i_i_i_i_i_i_i2813 = (uint64_t)(r0_04_i_i_i_i_i_i_i2809 + UINT64_C(1));
    exitcond_not_i_i_i_i_i_i_i2814 = r30_i_i_i_i_i_i_i2813 == UINT64_C(5);
    if (exitcond_not_i_i_i_i_i_i_i2814) { goto at__chrono_text_text_Text_push_text_65536_exit2815_i_i; }
    { r0_04_i_i_i_i_i_i_i2809 = r30_i_i_i_i_i_i_i2813; goto at__join_7_i_i_i_i_i_i_i2808; }
    at__chrono_text_text_Text_push_text_65536_exit2815_i_i:;
    r16_i2807 = (uint64_t)(r11_i2801 + UINT64_C(5));
    STORE(uint64_t, r10_i2800, r16_i2807);
    goto at__caltool_form_answer_read_and_answer_1f478b2d7b47a44d_exit;
    at__arm_10_2:;
    r69_i2816 = r0_sroa_4_0 == UINT64_C(14);
    if (r69_i2816) { goto at__then_6_i2819; }
    goto at__arm_2_i440;
    at__then_6_i2819:;
    r78_2 = (a0 + 65560);
    r88 = (a0 + 65600);
    r90_2 = (a0 + 65608);
    r92_3 = (a0 + 65616);
    r94_i2820 = (a0 + 65624);
    r96_2 = (a0 + 65632);
    r98 = (a0 + 65640);
    r100 = (a0 + 65648);
    LOAD(uint64_t, r128, r3);
    LOAD(uint64_t, r132_i2821, r78_2);
    r22_i_i_i2822 = (uint32_t)(r128);
    v66 = (uint64_t)(r128 + UINT64_C(2147483648));
    v67 = v66 < UINT64_C(4294967296);
    if (v67) { goto at__arm_1_i_i2825; }
    goto at__arm_2_i440;
    at__arm_1_i_i2825:;
    r76_i2826 = (a0 + 65552);
    LOAD(uint64_t, r130_i2827, r76_i2826);
    spec_select2_i_i_i2828 = (uint32_t)(r130_i2827);
    v68 = (uint64_t)(r130_i2827 | r132_i2821);
    or_cond_i2829 = v68 < UINT64_C(4294967296);
    if (or_cond_i2829) { goto at__arm_9_i2830; }
    goto at__arm_2_i440;
    at__arm_9_i2830:;
    spec_select2_i19_i_i2831 = (uint32_t)(r132_i2821);
    r86_i2832 = (a0 + 65592);
    r84_i2833 = (a0 + 65584);
    r80_i2834 = (a0 + 65568);
    LOAD(uint64_t, r152, r80_i2834);
    LOAD(uint64_t, r156, r84_i2833);
    LOAD(uint64_t, r158_i_i4, r86_i2832);
    r12_not_i_i14 = r152 < UINT64_C(4294967296);
    if (r12_not_i_i14) { goto at__arm_1_i17; }
    goto at__arm_2_i440;
    at__arm_1_i17:;
    r82 = (a0 + 65576);
    LOAD(uint64_t, r154_i2837, r82);
    v69 = (uint64_t)(r158_i_i4 | r156);
    v70 = (uint64_t)(v69 | r154_i2837);
    or_cond3774 = v70 < UINT64_C(4294967296);
    if (or_cond3774) { goto at__arm_13_i2841; }
    goto at__arm_2_i440;
    at__arm_13_i2841:;
    LOAD(uint64_t, r179, r88);
    LOAD(uint64_t, r183, r92_3);
    v71 = (uint64_t)(r179 + UINT64_C(2147483648));
    v72 = v71 < UINT64_C(4294967296);
    if (v72) { goto at__arm_1_i32; }
    goto at__arm_2_i440;
    at__arm_1_i32:;
    LOAD(uint64_t, r181, r90_2);
    v73 = (uint64_t)(r181 | r183);
    or_cond470 = v73 < UINT64_C(4294967296);
    if (or_cond470) { goto at__arm_16_i2845; }
    goto at__arm_2_i440;
    at__arm_16_i2845:;
    spec_select2_i19_i40 = (uint32_t)(r183);
    LOAD(uint64_t, r203_i2846, r94_i2820);
    LOAD(uint64_t, r207_i2847, r98);
    LOAD(uint64_t, r209_i2848, r100);
    r12_not_i_i55 = r203_i2846 < UINT64_C(4294967296);
    spec_select2_i_i56 = (uint32_t)(r203_i2846);
    if (r12_not_i_i55) { goto at__arm_1_i58; }
    goto at__arm_2_i440;
    at__arm_1_i58:;
    LOAD(uint64_t, r205_i2851, r96_2);
    v74 = (uint64_t)(r209_i2848 | r207_i2847);
    v75 = (uint64_t)(v74 | r205_i2851);
    or_cond472 = v75 < UINT64_C(4294967296);
    if (or_cond472) { goto at__arm_19_i2852; }
    goto at__arm_2_i440;
    at__arm_19_i2852:;
    spec_select2_i23_i60 = (uint32_t)(r205_i2851);
    spec_select2_i36_i64 = (uint32_t)(r207_i2847);
    spec_select2_i49_i70 = (uint32_t)(r209_i2848);
    v76 = (uint64_t)(r158_i_i4 << (UINT64_C(32) & 63u));
    v77 = (uint64_t)(v76 | r156);
    v78 = (uint64_t)(r154_i2837 << (UINT64_C(32) & 63u));
    v79 = (uint64_t)(v78 | r152);
    v80 = (uint64_t)(r181 << (UINT64_C(32) & 63u));
    v81 = (uint64_t)(r179 & UINT64_C(4294967295));
    v82 = (uint64_t)(v80 | v81);
    STORE(uint32_t, r29_i982, r22_i_i_i2822);
    r0_sroa_21_4_r29_sroa_idx_i1022 = (r29_i982 + 4);
    STORE(uint32_t, r0_sroa_21_4_r29_sroa_idx_i1022, spec_select2_i_i_i2828);
    r0_sroa_24_4_r29_sroa_idx_i1023 = (r29_i982 + 8);
    STORE(uint32_t, r0_sroa_24_4_r29_sroa_idx_i1023, spec_select2_i19_i_i2831);
    r0_sroa_2747_4_r29_sroa_idx_i1026 = (r29_i982 + 12);
    STORE(uint64_t, r0_sroa_2747_4_r29_sroa_idx_i1026, v79);
    r0_sroa_35_4_r29_sroa_idx_i1027 = (r29_i982 + 20);
    STORE(uint64_t, r0_sroa_35_4_r29_sroa_idx_i1027, v77);
    STORE(uint64_t, r30_i983, v82);
    r0_sroa_38_32_r30_sroa_idx_i1028 = (r30_i983 + 8);
    STORE(uint32_t, r0_sroa_38_32_r30_sroa_idx_i1028, spec_select2_i19_i40);
    r0_sroa_39_32_r30_sroa_idx_i1029 = (r30_i983 + 12);
    STORE(uint32_t, r0_sroa_39_32_r30_sroa_idx_i1029, spec_select2_i_i56);
    r0_sroa_39_i949_sroa_5_0_r0_sroa_39_32_r30_sroa_idx_i1029_sroa_idx = (r30_i983 + 16);
    STORE(uint32_t, r0_sroa_39_i949_sroa_5_0_r0_sroa_39_32_r30_sroa_idx_i1029_sroa_idx, spec_select2_i23_i60);
    r0_sroa_39_i949_sroa_6_0_r0_sroa_39_32_r30_sroa_idx_i1029_sroa_idx = (r30_i983 + 20);
    STORE(uint32_t, r0_sroa_39_i949_sroa_6_0_r0_sroa_39_32_r30_sroa_idx_i1029_sroa_idx, spec_select2_i36_i64);
    r0_sroa_39_i949_sroa_7_0_r0_sroa_39_32_r30_sroa_idx_i1029_sroa_idx = (r30_i983 + 24);
    STORE(uint32_t, r0_sroa_39_i949_sroa_7_0_r0_sroa_39_32_r30_sroa_idx_i1029_sroa_idx, spec_select2_i49_i70);
    caltool_form_asked_difference_e48cce946a840f3d(r59_i989, r29_i982, r30_i983);
    caltool_form_texts_push_distance_65536(a0, r59_i989);
    goto at__caltool_form_answer_read_and_answer_1f478b2d7b47a44d_exit;
    at__arm_2_i440:;
    r10_i2858 = (a0 + 65536);
    LOAD(uint64_t, r11_i2859, r10_i2858);
    r21_i2860 = (a0 + (int64_t)r11_i2859);
    r8_i_i_i_i_i_i_i2861 = (uint64_t)((uintptr_t)r21_i2860);
    r10_i_i_i_i_i_i_i2862 = (uint64_t)(r8_i_i_i_i_i_i_i2861 - (uint64_t)(uintptr_t)((bytes)&static_1));
    r11_i_i_i_i_i_i_i2863 = r10_i_i_i_i_i_i_i2862 < UINT64_C(5);
    if (r11_i_i_i_i_i_i_i2863) { { r0_04_i_i_i_i_i_i_i2867 = UINT64_C(0); goto at__join_7_i_i_i_i_i_i_i2866; } }
    goto at__apart_2_i_i_i_i_i_i_i2864;
    at__apart_2_i_i_i_i_i_i_i2864:;
    memcpy(r21_i2860, (bytes)&static_1, UINT64_C(5));
    goto at__chrono_text_text_Text_push_text_65536_exit2873_i_i;
    at__join_7_i_i_i_i_i_i_i2866:;
    r20_i_i_i_i_i_i_i2868 = (r21_i2860 + (int64_t)r0_04_i_i_i_i_i_i_i2867);
    r24_i_i_i_i_i_i_i2869 = ((bytes)&static_1 + (int64_t)r0_04_i_i_i_i_i_i_i2867);
    LOAD(uint8_t, r26_i_i_i_i_i_i_i2870, r24_i_i_i_i_i_i_i2869);
    STORE(uint8_t, r20_i_i_i_i_i_i_i2868, r26_i_i_i_i_i_i_i2870);
    r30_i_i_i_i_i_i_i2871 = (uint64_t)(r0_04_i_i_i_i_i_i_i2867 + UINT64_C(1));
    exitcond_not_i_i_i_i_i_i_i2872 = r30_i_i_i_i_i_i_i2871 == UINT64_C(5);
    if (exitcond_not_i_i_i_i_i_i_i2872) { goto at__chrono_text_text_Text_push_text_65536_exit2873_i_i; }
    { r0_04_i_i_i_i_i_i_i2867 = r30_i_i_i_i_i_i_i2871; goto at__join_7_i_i_i_i_i_i_i2866; }
    at__chrono_text_text_Text_push_text_65536_exit2873_i_i:;
    r16_i2865 = (uint64_t)(r11_i2859 + UINT64_C(5));
    STORE(uint64_t, r10_i2858, r16_i2865);
    goto at__caltool_form_answer_read_and_answer_1f478b2d7b47a44d_exit;
    at__arm_11:;
    r39_2 = r0_sroa_4_0 == UINT64_C(6);
    if (r39_2) { goto at__then_6_i2876; }
    goto at__arm_2_i460;
    at__then_6_i2876:;
    r48_i2877 = (a0 + 65560);
    LOAD(uint64_t, r74_i2878, r3);
    LOAD(uint64_t, r78_i2879, r48_i2877);
    r22_i_i_i2880 = (uint32_t)(r74_i2878);
    v83 = (uint64_t)(r74_i2878 + UINT64_C(2147483648));
    v84 = v83 < UINT64_C(4294967296);
    if (v84) { goto at__arm_1_i_i2883; }
    goto at__arm_2_i460;
    at__arm_1_i_i2883:;
    r46_i2884 = (a0 + 65552);
    LOAD(uint64_t, r76_i2885, r46_i2884);
    spec_select2_i_i_i2886 = (uint32_t)(r76_i2885);
    v85 = (uint64_t)(r76_i2885 | r78_i2879);
    or_cond_i2887 = v85 < UINT64_C(4294967296);
    if (or_cond_i2887) { goto at__arm_9_i2888; }
    goto at__arm_2_i460;
    at__arm_9_i2888:;
    spec_select2_i19_i_i2889 = (uint32_t)(r78_i2879);
    r54_i2890 = (a0 + 65584);
    r50_2 = (a0 + 65568);
    LOAD(uint64_t, r98_i2891, r50_2);
    LOAD(uint64_t, r102_i2892, r54_i2890);
    v86 = (uint64_t)(r98_i2891 + UINT64_C(2147483648));
    v87 = v86 < UINT64_C(4294967296);
    if (v87) { goto at__arm_1_i9; }
    goto at__arm_2_i460;
    at__arm_1_i9:;
    r52_2 = (a0 + 65576);
    LOAD(uint64_t, r100_i2894, r52_2);
    v88 = (uint64_t)(r100_i2894 | r102_i2892);
    or_cond173 = v88 < UINT64_C(4294967296);
    if (or_cond173) { goto at__arm_13_i2895; }
    goto at__arm_2_i460;
    at__arm_13_i2895:;
    spec_select2_i19_i17 = (uint32_t)(r102_i2892);
    v89 = (uint64_t)(r100_i2894 << (UINT64_C(32) & 63u));
    v90 = (uint64_t)(r98_i2891 & UINT64_C(4294967295));
    v91 = (uint64_t)(v89 | v90);
    STORE(uint32_t, r31_i846, r22_i_i_i2880);
    r0_sroa_21_4_r31_sroa_idx_i874 = (r31_i846 + 4);
    STORE(uint32_t, r0_sroa_21_4_r31_sroa_idx_i874, spec_select2_i_i_i2886);
    r0_sroa_24_4_r31_sroa_idx_i875 = (r31_i846 + 8);
    STORE(uint32_t, r0_sroa_24_4_r31_sroa_idx_i875, spec_select2_i19_i_i2889);
    STORE(uint64_t, r32_i847, v91);
    r0_sroa_35_16_r32_sroa_idx_i878 = (r32_i847 + 8);
    STORE(uint32_t, r0_sroa_35_16_r32_sroa_idx_i878, spec_select2_i19_i17);
    r198_i880 = caltool_form_asked_years_since_e48cce946a840f3d(r31_i846, r32_i847);
    r199_i881 = r198_i880.f0;
    r200_i882 = r198_i880.f1;
    caltool_form_texts_push_years_65536(a0, r199_i881, r200_i882);
    goto at__caltool_form_answer_read_and_answer_1f478b2d7b47a44d_exit;
    at__arm_2_i460:;
    r10_i2903 = (a0 + 65536);
    LOAD(uint64_t, r11_i2904, r10_i2903);
    r21_i2905 = (a0 + (int64_t)r11_i2904);
    r8_i_i_i_i_i_i_i2906 = (uint64_t)((uintptr_t)r21_i2905);
    r10_i_i_i_i_i_i_i2907 = (uint64_t)(r8_i_i_i_i_i_i_i2906 - (uint64_t)(uintptr_t)((bytes)&static_1));
    r11_i_i_i_i_i_i_i2908 = r10_i_i_i_i_i_i_i2907 < UINT64_C(5);
    if (r11_i_i_i_i_i_i_i2908) { { r0_04_i_i_i_i_i_i_i2912 = UINT64_C(0); goto at__join_7_i_i_i_i_i_i_i2911; } }
    goto at__apart_2_i_i_i_i_i_i_i2909;
    at__apart_2_i_i_i_i_i_i_i2909:;
    memcpy(r21_i2905, (bytes)&static_1, UINT64_C(5));
    goto at__chrono_text_text_Text_push_text_65536_exit2918_i_i;
    at__join_7_i_i_i_i_i_i_i2911:;
    r20_i_i_i_i_i_i_i2913 = (r21_i2905 + (int64_t)r0_04_i_i_i_i_i_i_i2912);
    r24_i_i_i_i_i_i_i2914 = ((bytes)&static_1 + (int64_t)r0_04_i_i_i_i_i_i_i2912);
    LOAD(uint8_t, r26_i_i_i_i_i_i_i2915, r24_i_i_i_i_i_i_i2914);
    STORE(uint8_t, r20_i_i_i_i_i_i_i2913, r26_i_i_i_i_i_i_i2915);
    r30_i_i_i_i_i_i_i2916 = (uint64_t)(r0_04_i_i_i_i_i_i_i2912 + UINT64_C(1));
    exitcond_not_i_i_i_i_i_i_i2917 = r30_i_i_i_i_i_i_i2916 == UINT64_C(5);
    if (exitcond_not_i_i_i_i_i_i_i2917) { goto at__chrono_text_text_Text_push_text_65536_exit2918_i_i; }
    { r0_04_i_i_i_i_i_i_i2912 = r30_i_i_i_i_i_i_i2916; goto at__join_7_i_i_i_i_i_i_i2911; }
    at__chrono_text_text_Text_push_text_65536_exit2918_i_i:;
    r16_i2910 = (uint64_t)(r11_i2904 + UINT64_C(5));
    STORE(uint64_t, r10_i2903, r16_i2910);
    goto at__caltool_form_answer_read_and_answer_1f478b2d7b47a44d_exit;
    at__arm_12:;
    r26_i2919 = r4_i24 == UINT64_C(0);
    if (r26_i2919) { goto at__arm_2_i480; }
    goto at__join_4_2;
    at__join_4_2:;
    LOAD(uint64_t, r55_i2920, r3);
    v92 = (uint64_t)(r55_i2920 + UINT64_C(18446744073709551615));
    or_cond_i_i2921 = v92 < UINT64_C(7);
    r17_i_i2922 = (uint8_t)(r55_i2920);
    r19_i_i2923 = (uint8_t)((uint32_t)r17_i_i2922 + (uint32_t)255u);
    a1_2 = or_cond_i_i2921 ? r19_i_i2923 : 0;
    if (or_cond_i_i2921) { goto at__arm_5_i2925; }
    goto at__arm_2_i480;
    at__arm_5_i2925:;
    r48_i2926 = (uint64_t)(r4_i24 + UINT64_C(18446744073709551615));
    r45_i2927 = (a0 + 65552);
    r276_not = r48_i2926 == UINT64_C(0);
    if (r276_not) { { r4_i206_sroa_10_0 = r19_i_i2923; r4_i206_sroa_12_0 = 0; goto at__arm_12_i734; } }
    { r4_08 = UINT64_C(0); r3_sroa_0_07 = 0; goto at__join_6_2; }
    at__join_6_2:;
    r33_2 = (uint64_t)(r4_08 << (UINT64_C(3) & 63u));
    r36_3 = (r45_i2927 + (int64_t)r33_2);
    LOAD(uint64_t, r39_3, r36_3);
    v93 = (uint64_t)(r39_3 + UINT64_C(18446744073709551615));
    or_cond_i_i_i_i2 = v93 < UINT64_C(7);
    if (or_cond_i_i_i_i2) { goto at__arm_8_3; }
    goto at__arm_2_i480;
    at__arm_8_3:;
    r17_3 = (uint8_t)(r39_3);
    r19_2 = (uint8_t)((uint32_t)r17_3 + (uint32_t)255u);
    r11_i_i_i_i_i_i3 = (uint8_t)((uint32_t)1 << (r19_2 & 7u));
    r6 = (uint8_t)((uint32_t)r11_i_i_i_i_i_i3 | (uint32_t)r3_sroa_0_07);
    r64 = (uint64_t)(r4_08 + UINT64_C(1));
    exitcond_not_5 = r64 == r48_i2926;
    if (exitcond_not_5) { { r4_i206_sroa_10_0 = a1_2; r4_i206_sroa_12_0 = r6; goto at__arm_12_i734; } }
    { r4_08 = r64; r3_sroa_0_07 = r6; goto at__join_6_2; }
    at__arm_12_i734:;
    caltool_form_texts_push_set_and_walk_65536(a0, r4_i206_sroa_12_0, r4_i206_sroa_10_0);
    goto at__caltool_form_answer_read_and_answer_1f478b2d7b47a44d_exit;
    at__arm_2_i480:;
    r10_i2938 = (a0 + 65536);
    LOAD(uint64_t, r11_i2939, r10_i2938);
    r21_i2940 = (a0 + (int64_t)r11_i2939);
    r8_i_i_i_i_i_i_i2941 = (uint64_t)((uintptr_t)r21_i2940);
    r10_i_i_i_i_i_i_i2942 = (uint64_t)(r8_i_i_i_i_i_i_i2941 - (uint64_t)(uintptr_t)((bytes)&static_1));
    r11_i_i_i_i_i_i_i2943 = r10_i_i_i_i_i_i_i2942 < UINT64_C(5);
    if (r11_i_i_i_i_i_i_i2943) { { r0_04_i_i_i_i_i_i_i2947 = UINT64_C(0); goto at__join_7_i_i_i_i_i_i_i2946; } }
    goto at__apart_2_i_i_i_i_i_i_i2944;
    at__apart_2_i_i_i_i_i_i_i2944:;
    memcpy(r21_i2940, (bytes)&static_1, UINT64_C(5));
    goto at__chrono_text_text_Text_push_text_65536_exit2953_i_i;
    at__join_7_i_i_i_i_i_i_i2946:;
    r20_i_i_i_i_i_i_i2948 = (r21_i2940 + (int64_t)r0_04_i_i_i_i_i_i_i2947);
    r24_i_i_i_i_i_i_i2949 = ((bytes)&static_1 + (int64_t)r0_04_i_i_i_i_i_i_i2947);
    LOAD(uint8_t, r26_i_i_i_i_i_i_i2950, r24_i_i_i_i_i_i_i2949);
    STORE(uint8_t, r20_i_i_i_i_i_i_i2948, r26_i_i_i_i_i_i_i2950);
    r30_i_i_i_i_i_i_i2951 = (uint64_t)(r0_04_i_i_i_i_i_i_i2947 + UINT64_C(1));
    exitcond_not_i_i_i_i_i_i_i2952 = r30_i_i_i_i_i_i_i2951 == UINT64_C(5);
    if (exitcond_not_i_i_i_i_i_i_i2952) { goto at__chrono_text_text_Text_push_text_65536_exit2953_i_i; }
    { r0_04_i_i_i_i_i_i_i2947 = r30_i_i_i_i_i_i_i2951; goto at__join_7_i_i_i_i_i_i_i2946; }
    at__chrono_text_text_Text_push_text_65536_exit2953_i_i:;
    r16_i2945 = (uint64_t)(r11_i2939 + UINT64_C(5));
    STORE(uint64_t, r10_i2938, r16_i2945);
    goto at__caltool_form_answer_read_and_answer_1f478b2d7b47a44d_exit;
    at__arm_13:;
    r32_i2954 = r0_sroa_4_0 < UINT64_C(3);
    if (r32_i2954) { goto at__arm_2_i500; }
    goto at__join_4_i2955;
    at__join_4_i2955:;
    r53_i2956 = (a0 + 65560);
    LOAD(uint64_t, r67_i2957, r3);
    LOAD(uint64_t, r71_i2958, r53_i2956);
    r22_i_i_i2959 = (uint32_t)(r67_i2957);
    v94 = (uint64_t)(r67_i2957 + UINT64_C(2147483648));
    v95 = v94 < UINT64_C(4294967296);
    if (v95) { goto at__arm_1_i_i2962; }
    goto at__arm_2_i500;
    at__arm_1_i_i2962:;
    r51_i2963 = (a0 + 65552);
    LOAD(uint64_t, r69_i2964, r51_i2963);
    spec_select2_i_i_i2965 = (uint32_t)(r69_i2964);
    v96 = (uint64_t)(r69_i2964 | r71_i2958);
    or_cond_i2966 = v96 < UINT64_C(4294967296);
    if (or_cond_i2966) { goto at__arm_5_i2967; }
    goto at__arm_2_i500;
    at__arm_5_i2967:;
    spec_select2_i19_i_i2968 = (uint32_t)(r71_i2958);
    r58_i2969 = (uint64_t)(r0_sroa_4_0 + UINT64_C(18446744073709551613));
    r55_i2970 = (a0 + 65568);
    r276_not_i_i2971 = r58_i2969 == UINT64_C(0);
    if (r276_not_i_i2971) { { r4_i225_sroa_21_0 = 0; goto at__arm_1_i501; } }
    { r4_08_i_i2973 = UINT64_C(0); r3_sroa_0_07_i_i2974 = 0; goto at__join_6_i_i2972; }
    at__join_6_i_i2972:;
    r33_i_i2975 = (uint64_t)(r4_08_i_i2973 << (UINT64_C(3) & 63u));
    r36_i_i2976 = (r55_i2970 + (int64_t)r33_i_i2975);
    LOAD(uint64_t, r39_i_i2977, r36_i_i2976);
    v97 = (uint64_t)(r39_i_i2977 + UINT64_C(18446744073709551615));
    or_cond_i_i_i2978 = v97 < UINT64_C(7);
    if (or_cond_i_i_i2978) { goto at__arm_8_i4; }
    goto at__arm_2_i500;
    at__arm_8_i4:;
    r17_i_i_i2981 = (uint8_t)(r39_i_i2977);
    r19_i_i_i2982 = (uint8_t)((uint32_t)r17_i_i_i2981 + (uint32_t)255u);
    r11_i_i_i_i_i2983 = (uint8_t)((uint32_t)1 << (r19_i_i_i2982 & 7u));
    r6_i_i_i_i2984 = (uint8_t)((uint32_t)r11_i_i_i_i_i2983 | (uint32_t)r3_sroa_0_07_i_i2974);
    r64_i_i2985 = (uint64_t)(r4_08_i_i2973 + UINT64_C(1));
    exitcond_not_i_i2986 = r64_i_i2985 == r58_i2969;
    if (exitcond_not_i_i2986) { { r4_i225_sroa_21_0 = r6_i_i_i_i2984; goto at__arm_1_i501; } }
    { r4_08_i_i2973 = r64_i_i2985; r3_sroa_0_07_i_i2974 = r6_i_i_i_i2984; goto at__join_6_i_i2972; }
    at__arm_1_i501:;
    STORE(uint32_t, r35_i572, r22_i_i_i2959);
    r0_sroa_21_4_r35_sroa_idx_i589 = (r35_i572 + 4);
    STORE(uint32_t, r0_sroa_21_4_r35_sroa_idx_i589, spec_select2_i_i_i2965);
    r0_sroa_24_4_r35_sroa_idx_i590 = (r35_i572 + 8);
    STORE(uint32_t, r0_sroa_24_4_r35_sroa_idx_i590, spec_select2_i19_i_i2968);
    r215_i593 = caltool_form_asked_first_of_days_e48cce946a840f3d(r35_i572, r4_i225_sroa_21_0);
    r216_i594 = r215_i593.f0;
    r217_i595 = r215_i593.f1;
    caltool_form_texts_push_date_line_1f478b2d7b47a44d(a0, r216_i594, r217_i595);
    goto at__caltool_form_answer_read_and_answer_1f478b2d7b47a44d_exit;
    at__arm_2_i500:;
    r10_i2999 = (a0 + 65536);
    LOAD(uint64_t, r11_i3000, r10_i2999);
    r21_i3001 = (a0 + (int64_t)r11_i3000);
    r8_i_i_i_i_i_i_i3002 = (uint64_t)((uintptr_t)r21_i3001);
    r10_i_i_i_i_i_i_i3003 = (uint64_t)(r8_i_i_i_i_i_i_i3002 - (uint64_t)(uintptr_t)((bytes)&static_1));
    r11_i_i_i_i_i_i_i3004 = r10_i_i_i_i_i_i_i3003 < UINT64_C(5);
    if (r11_i_i_i_i_i_i_i3004) { { r0_04_i_i_i_i_i_i_i3008 = UINT64_C(0); goto at__join_7_i_i_i_i_i_i_i3007; } }
    goto at__apart_2_i_i_i_i_i_i_i3005;
    at__apart_2_i_i_i_i_i_i_i3005:;
    memcpy(r21_i3001, (bytes)&static_1, UINT64_C(5));
    goto at__chrono_text_text_Text_push_text_65536_exit3014_i_i;
    at__join_7_i_i_i_i_i_i_i3007:;
    r20_i_i_i_i_i_i_i3009 = (r21_i3001 + (int64_t)r0_04_i_i_i_i_i_i_i3008);
    r24_i_i_i_i_i_i_i3010 = ((bytes)&static_1 + (int64_t)r0_04_i_i_i_i_i_i_i3008);
    LOAD(uint8_t, r26_i_i_i_i_i_i_i3011, r24_i_i_i_i_i_i_i3010);
    STORE(uint8_t, r20_i_i_i_i_i_i_i3009, r26_i_i_i_i_i_i_i3011);
    r30_i_i_i_i_i_i_i3012 = (uint64_t)(r0_04_i_i_i_i_i_i_i3008 + UINT64_C(1));
    exitcond_not_i_i_i_i_i_i_i3013 = r30_i_i_i_i_i_i_i3012 == UINT64_C(5);
    if (exitcond_not_i_i_i_i_i_i_i3013) { goto at__chrono_text_text_Text_push_text_65536_exit3014_i_i; }
    { r0_04_i_i_i_i_i_i_i3008 = r30_i_i_i_i_i_i_i3012; goto at__join_7_i_i_i_i_i_i_i3007; }
    at__chrono_text_text_Text_push_text_65536_exit3014_i_i:;
    r16_i3006 = (uint64_t)(r11_i3000 + UINT64_C(5));
    STORE(uint64_t, r10_i2999, r16_i3006);
    goto at__caltool_form_answer_read_and_answer_1f478b2d7b47a44d_exit;
    at__arm_14:;
    r44_i3015 = r0_sroa_4_0 == UINT64_C(5);
    if (r44_i3015) { goto at__then_6_i3018; }
    goto at__arm_2_i520;
    at__then_6_i3018:;
    r53_i3019 = (a0 + 65560);
    r57_i3020 = (a0 + 65576);
    LOAD(uint64_t, r76_i3021, r3);
    LOAD(uint64_t, r80_i3022, r53_i3019);
    r22_i_i_i3023 = (uint32_t)(r76_i3021);
    v98 = (uint64_t)(r76_i3021 + UINT64_C(2147483648));
    v99 = v98 < UINT64_C(4294967296);
    if (v99) { goto at__arm_1_i_i3026; }
    goto at__arm_2_i520;
    at__arm_1_i_i3026:;
    r51_i3027 = (a0 + 65552);
    LOAD(uint64_t, r78_i3028, r51_i3027);
    spec_select2_i_i_i3029 = (uint32_t)(r78_i3028);
    v100 = (uint64_t)(r78_i3028 | r80_i3022);
    or_cond_i3030 = v100 < UINT64_C(4294967296);
    if (or_cond_i3030) { goto at__arm_9_i3031; }
    goto at__arm_2_i520;
    at__arm_9_i3031:;
    spec_select2_i19_i_i3032 = (uint32_t)(r80_i3022);
    r55_i3033 = (a0 + 65568);
    LOAD(uint64_t, r100_i3034, r55_i3033);
    v101 = (uint64_t)(r100_i3034 + UINT64_C(2147483648));
    v102 = v101 < UINT64_C(4294967296);
    if (v102) { goto at__arm_13_i3038; }
    goto at__arm_2_i520;
    at__arm_13_i3038:;
    LOAD(uint64_t, r133_i3039, r57_i3020);
    r12_not_i_i3040 = r133_i3039 < UINT64_C(4294967296);
    if (r12_not_i_i3040) { goto at__arm_16_i3042; }
    goto at__arm_2_i520;
    at__arm_16_i3042:;
    r0_sroa_2747_sroa_10_0_extract_trunc = (uint32_t)(r133_i3039);
    r0_sroa_2747_sroa_0_0_extract_trunc = (uint32_t)(r100_i3034);
    STORE(uint32_t, r37, r22_i_i_i3023);
    r0_sroa_21_4_r37_sroa_idx = (r37 + 4);
    STORE(uint32_t, r0_sroa_21_4_r37_sroa_idx, spec_select2_i_i_i3029);
    r0_sroa_24_4_r37_sroa_idx = (r37 + 8);
    STORE(uint32_t, r0_sroa_24_4_r37_sroa_idx, spec_select2_i19_i_i3032);
    r231_i_i1 = caltool_form_asked_moved_every_e48cce946a840f3d(r37, r0_sroa_2747_sroa_0_0_extract_trunc, r0_sroa_2747_sroa_10_0_extract_trunc);
    r232 = r231_i_i1.f0;
    r233 = r231_i_i1.f1;
    caltool_form_texts_push_date_line_1f478b2d7b47a44d(a0, r232, r233);
    goto at__caltool_form_answer_read_and_answer_1f478b2d7b47a44d_exit;
    at__arm_2_i520:;
    r10_i3051 = (a0 + 65536);
    LOAD(uint64_t, r11_i3052, r10_i3051);
    r21_i3053 = (a0 + (int64_t)r11_i3052);
    r8_i_i_i_i_i_i_i3054 = (uint64_t)((uintptr_t)r21_i3053);
    r10_i_i_i_i_i_i_i3055 = (uint64_t)(r8_i_i_i_i_i_i_i3054 - (uint64_t)(uintptr_t)((bytes)&static_1));
    r11_i_i_i_i_i_i_i3056 = r10_i_i_i_i_i_i_i3055 < UINT64_C(5);
    if (r11_i_i_i_i_i_i_i3056) { { r0_04_i_i_i_i_i_i_i3060 = UINT64_C(0); goto at__join_7_i_i_i_i_i_i_i3059; } }
    goto at__apart_2_i_i_i_i_i_i_i3057;
    at__apart_2_i_i_i_i_i_i_i3057:;
    memcpy(r21_i3053, (bytes)&static_1, UINT64_C(5));
    goto at__chrono_text_text_Text_push_text_65536_exit3066_i_i;
    at__join_7_i_i_i_i_i_i_i3059:;
    r20_i_i_i_i_i_i_i3061 = (r21_i3053 + (int64_t)r0_04_i_i_i_i_i_i_i3060);
    r24_i_i_i_i_i_i_i3062 = ((bytes)&static_1 + (int64_t)r0_04_i_i_i_i_i_i_i3060);
    LOAD(uint8_t, r26_i_i_i_i_i_i_i3063, r24_i_i_i_i_i_i_i3062);
    STORE(uint8_t, r20_i_i_i_i_i_i_i3061, r26_i_i_i_i_i_i_i3063);
    r30_i_i_i_i_i_i_i3064 = (uint64_t)(r0_04_i_i_i_i_i_i_i3060 + UINT64_C(1));
    exitcond_not_i_i_i_i_i_i_i3065 = r30_i_i_i_i_i_i_i3064 == UINT64_C(5);
    if (exitcond_not_i_i_i_i_i_i_i3065) { goto at__chrono_text_text_Text_push_text_65536_exit3066_i_i; }
    { r0_04_i_i_i_i_i_i_i3060 = r30_i_i_i_i_i_i_i3064; goto at__join_7_i_i_i_i_i_i_i3059; }
    at__chrono_text_text_Text_push_text_65536_exit3066_i_i:;
    r16_i3058 = (uint64_t)(r11_i3052 + UINT64_C(5));
    STORE(uint64_t, r10_i3051, r16_i3058);
    goto at__caltool_form_answer_read_and_answer_1f478b2d7b47a44d_exit;
    at__default_unreachable:;
    UNREACHABLE();
    at__arm_2:;
    r10_3 = (a0 + 65536);
    LOAD(uint64_t, r11_5, r10_3);
    r21 = (a0 + (int64_t)r11_5);
    r8_3 = (uint64_t)((uintptr_t)r21);
    r10_4 = (uint64_t)(r8_3 - (uint64_t)(uintptr_t)((bytes)&static_1));
    r11_6 = r10_4 < UINT64_C(5);
    if (r11_6) { { r0_04_2 = UINT64_C(0); goto at__join_7_2; } }
    goto at__apart_2_2;
    at__apart_2_2:;
    memcpy(r21, (bytes)&static_1, UINT64_C(5));
    goto at__chrono_text_text_Text_push_text_65536_exit_i;
    at__join_7_2:;
    r20_5 = (r21 + (int64_t)r0_04_2);
    r24_4 = ((bytes)&static_1 + (int64_t)r0_04_2);
    LOAD(uint8_t, r26_4, r24_4);
    STORE(uint8_t, r20_5, r26_4);
    r30_2 = (uint64_t)(r0_04_2 + UINT64_C(1));
    exitcond_not_6 = r30_2 == UINT64_C(5);
    if (exitcond_not_6) { goto at__chrono_text_text_Text_push_text_65536_exit_i; }
    { r0_04_2 = r30_2; goto at__join_7_2; }
    at__chrono_text_text_Text_push_text_65536_exit_i:;
    r16_4 = (uint64_t)(r11_5 + UINT64_C(5));
    STORE(uint64_t, r10_3, r16_4);
    goto at__caltool_form_answer_read_and_answer_1f478b2d7b47a44d_exit;
    at__caltool_form_answer_read_and_answer_1f478b2d7b47a44d_exit:;
    r4 = (a0 + 65536);
    LOAD(uint64_t, r5, r4);
    r8_4 = (a0 + (int64_t)r5);
    STORE(uint8_t, r8_4, 10u);
    r11_7 = (uint64_t)(r5 + UINT64_C(1));
    STORE(uint64_t, r4, r11_7);
    return;
}

static t_struct_i8_i32_end caltool_dates_answers_DateAnswersCommandAnswers_from_yo(uint32_t a0, uint32_t a1)
{
    uint32_t r3_0_in_in, v3, v0, r6_2, r12, v1, x, r11, r14, r16_2, r183, r23, reass_sub, r26, r6_i_i3, r7;
    uint8_t spec_select4, spec_select, r6, or_cond, r10, r8, r3_0_in, r16;
    t_struct_i8_i32_end r34_fca_0_insert, r34_fca_1_insert;
    v0 = (uint32_t)(a0 + 4294705153u);
    spec_select = v0 < 4294443010u;
    r6 = a1 == 0;
    or_cond = (uint8_t)(((uint32_t)spec_select | (uint32_t)r6) & 1);
    if (or_cond) { { spec_select4 = 0; v3 = 0; goto at__chrono_naive_naive_date_NaiveDate_from_yo_opt_exit; } }
    goto at__else_4;
    at__else_4:;
    r10 = a1 > 365u;
    if (r10) { goto at__then_6; }
    goto at__2;
    at__then_6:;
    r6_2 = (uint32_t)((int32_t)a0 % (int32_t)100u);
    r8 = r6_2 == 0;
    if (r8) { goto at__then_1; }
    goto at__else_2;
    at__then_1:;
    r12 = (uint32_t)((int32_t)a0 % (int32_t)400u);
    {
    r3_0_in_in = r12;
    goto at__join_8;
    }
    at__else_2:;
    v1 = (uint32_t)(a0 & 3);
    {
    r3_0_in_in = v1;
    goto at__join_8;
    }
    at__join_8:;
    r3_0_in = r3_0_in_in == 0;
    x = r3_0_in ? 366u : 365u;
    r16 = x < a1;
    if (r16) { { spec_select4 = 0; v3 = 0; goto at__chrono_naive_naive_date_NaiveDate_from_yo_opt_exit; } }
    goto at__2;
    at__2:;
    r11 = (uint32_t)(a0 + 262399u);
    r14 = (uint32_t)(r11 / 100u);
    r16_2 = (uint32_t)(r11 * 1461u);
    r183 = (uint32_t)(r16_2 >> 2);
    r23 = (uint32_t)(r11 / 400u);
    reass_sub = (uint32_t)(a1 + 4199127664u);
    r26 = (uint32_t)(reass_sub - r14);
    r6_i_i3 = (uint32_t)(r26 + r23);
    r7 = (uint32_t)(r6_i_i3 + r183);
    {
    spec_select4 = 1;
    v3 = r7;
    goto at__chrono_naive_naive_date_NaiveDate_from_yo_opt_exit;
    }
    at__chrono_naive_naive_date_NaiveDate_from_yo_opt_exit:;
    r34_fca_0_insert = (t_struct_i8_i32_end){0};
    r34_fca_0_insert.f0 = spec_select4;
    r34_fca_1_insert = r34_fca_0_insert;
    r34_fca_1_insert.f1 = v3;
    return r34_fca_1_insert;
}

static t_struct_i8_i32_end caltool_dates_answers_DateAnswersCommandAnswers_from_iso(uint32_t a0, uint32_t a1, uint8_t a2)
{
    uint32_t r3_0_in_in, r3_0_in_in_i_i30, r3_0_in_in_2, r3_0_in_in_i_i_i_i93, v8, v0, v1, r11, r14, r16, r183, r23, r21, r26, r26_i_i_fr, r4, r52_v, r52, r6, r12, v2, x, r54, r57, r3, r69, r71, r78, r6_i_i27, r12_i_i34, v3, i32, r84, r87, r89, r12_2, v4, x_2, r11_2, r14_2, r16_2, r183_2, r23_2, reass_sub, r26_2, r6_i_i3, r7, r99, r101, r111, v5, r11_i_i_i_i_i_i44, r14_i_i_i_i_i_i45, r16_i_i_i_i_i_i46, r183_i_i_i_i_i_i47, r23_i_i_i_i_i_i48, reass_sub1, r26_i_i_i_i_i_i50, r6_i_i3_i_i51, r7_i_i_i52, v6, r12_i_i_i_i98, v7, i_i_i95, r6_i_i3_i_i82, r7_i_i_i83;
    uint8_t spec_select4, or_cond, or_cond26, or_cond100, r52_cmp_inv, r8, r3_0_in, r60, r74_not, r8_i_i28, r3_0_in_i_i31, spec_select, r10, r3_0_in_2, r16_i_i37, r104, spec_select_i_i38, r10_i_i42, or_cond101, spec_select_i_i69, r6_i_i70, or_cond_i71, r10_i_i73, r3_0_in_i_i_i_i94, r16_i_i96;
    t_struct_i8_i32_end r37_fca_0_insert, r37_fca_1_insert;
    v0 = (uint32_t)(a0 + 4294705152u);
    or_cond = v0 < 4294443009u;
    v1 = (uint32_t)(a1 + 4294967242u);
    or_cond26 = v1 < 4294967243u;
    or_cond100 = (uint8_t)(((uint32_t)or_cond | (uint32_t)or_cond26) & 1);
    if (or_cond100) { { spec_select4 = 0; v8 = 0; goto at__chrono_naive_naive_date_NaiveDate_from_isoywd_opt_exit; } }
    goto at__after_12;
    at__after_12:;
    r11 = (uint32_t)(a0 + 262399u);
    r14 = (uint32_t)(r11 / 100u);
    r16 = (uint32_t)(r11 * 1461u);
    r183 = (uint32_t)(r16 >> 2);
    r23 = (uint32_t)(r11 / 400u);
    r21 = (uint32_t)(r23 - r14);
    r26 = (uint32_t)(r21 + r183);
    r26_i_i_fr = r26;
    r4 = (uint32_t)(r26_i_i_fr % 7);
    r52_cmp_inv = r4 > 3;
    r52_v = r52_cmp_inv ? 4294967292u : 3;
    r52 = (uint32_t)(r52_v + r4);
    r6 = (uint32_t)((int32_t)a0 % (int32_t)100u);
    r8 = r6 == 0;
    if (r8) { goto at__then_1; }
    goto at__else_2;
    at__then_1:;
    r12 = (uint32_t)((int32_t)a0 % (int32_t)400u);
    {
    r3_0_in_in = r12;
    goto at__chrono_units_year_year_length_exit_i_i;
    }
    at__else_2:;
    v2 = (uint32_t)(a0 & 3);
    {
    r3_0_in_in = v2;
    goto at__chrono_units_year_year_length_exit_i_i;
    }
    at__chrono_units_year_year_length_exit_i_i:;
    r3_0_in = r3_0_in_in == 0;
    x = r3_0_in ? 366u : 365u;
    r54 = (uint32_t)(a1 * 7);
    r57 = (uint32_t)(x + r52);
    r60 = r57 < r54;
    if (r60) { { spec_select4 = 0; v8 = 0; goto at__chrono_naive_naive_date_NaiveDate_from_isoywd_opt_exit; } }
    goto at__join_24;
    at__join_24:;
    r3 = (uint32_t)a2;
    r69 = (uint32_t)(r54 + r3);
    r71 = (uint32_t)(r52 + 3);
    r74_not = r69 > r71;
    if (r74_not) { goto at__join_27; }
    goto at__then_25;
    at__then_25:;
    r78 = (uint32_t)(a0 + 4294967295u);
    r6_i_i27 = (uint32_t)((int32_t)r78 % (int32_t)100u);
    r8_i_i28 = r6_i_i27 == 0;
    if (r8_i_i28) { goto at__then_1_i_i33; }
    goto at__else_2_i_i29;
    at__then_1_i_i33:;
    r12_i_i34 = (uint32_t)((int32_t)r78 % (int32_t)400u);
    {
    r3_0_in_in_i_i30 = r12_i_i34;
    goto at__chrono_units_year_year_length_exit35_i_i;
    }
    at__else_2_i_i29:;
    v3 = (uint32_t)(r78 & 3);
    {
    r3_0_in_in_i_i30 = v3;
    goto at__chrono_units_year_year_length_exit35_i_i;
    }
    at__chrono_units_year_year_length_exit35_i_i:;
    r3_0_in_i_i31 = r3_0_in_in_i_i30 == 0;
    i32 = r3_0_in_i_i31 ? 366u : 365u;
    r84 = (uint32_t)(r69 - r52);
    r87 = (uint32_t)(i32 + r84);
    r89 = (uint32_t)(r87 + 4294967293u);
    spec_select = (int32_t)a0 < (int32_t)4294705154u;
    if (spec_select) { { spec_select4 = 0; v8 = 0; goto at__chrono_naive_naive_date_NaiveDate_from_isoywd_opt_exit; } }
    goto at__else_4;
    at__else_4:;
    r10 = r87 > 368u;
    if (r10) { goto at__then_6; }
    goto at__after_1;
    at__then_6:;
    if (r8_i_i28) { goto at__then_1_2; }
    goto at__else_2_2;
    at__then_1_2:;
    r12_2 = (uint32_t)((int32_t)r78 % (int32_t)400u);
    {
    r3_0_in_in_2 = r12_2;
    goto at__join_8;
    }
    at__else_2_2:;
    v4 = (uint32_t)(r78 & 3);
    {
    r3_0_in_in_2 = v4;
    goto at__join_8;
    }
    at__join_8:;
    r3_0_in_2 = r3_0_in_in_2 == 0;
    x_2 = r3_0_in_2 ? 366u : 365u;
    r16_i_i37 = x_2 < r89;
    if (r16_i_i37) { { spec_select4 = 0; v8 = 0; goto at__chrono_naive_naive_date_NaiveDate_from_isoywd_opt_exit; } }
    goto at__after_1;
    at__after_1:;
    r11_2 = (uint32_t)(a0 + 262398u);
    r14_2 = (uint32_t)(r11_2 / 100u);
    r16_2 = (uint32_t)(r11_2 * 1461u);
    r183_2 = (uint32_t)(r16_2 >> 2);
    r23_2 = (uint32_t)(r11_2 / 400u);
    reass_sub = (uint32_t)(r23_2 - r14_2);
    r26_2 = (uint32_t)(reass_sub + 4199127661u);
    r6_i_i3 = (uint32_t)(r26_2 + r183_2);
    r7 = (uint32_t)(r6_i_i3 + r87);
    {
    spec_select4 = 1;
    v8 = r7;
    goto at__chrono_naive_naive_date_NaiveDate_from_isoywd_opt_exit;
    }
    at__join_27:;
    r99 = (uint32_t)(r69 - r52);
    r101 = (uint32_t)(r99 + 4294967293u);
    r104 = x < r101;
    if (r104) { goto at__then_28; }
    goto at__join_30;
    at__then_28:;
    r111 = (uint32_t)(r101 - x);
    v5 = (uint32_t)(a0 + 4294705154u);
    spec_select_i_i38 = v5 < 4294443010u;
    r10_i_i42 = r111 > 365u;
    or_cond101 = spec_select_i_i38 ? 1 : r10_i_i42;
    if (or_cond101) { { spec_select4 = 0; v8 = 0; goto at__chrono_naive_naive_date_NaiveDate_from_isoywd_opt_exit; } }
    goto at__after_1_i_i43;
    at__after_1_i_i43:;
    r11_i_i_i_i_i_i44 = (uint32_t)(a0 + 262400u);
    r14_i_i_i_i_i_i45 = (uint32_t)(r11_i_i_i_i_i_i44 / 100u);
    r16_i_i_i_i_i_i46 = (uint32_t)(r11_i_i_i_i_i_i44 * 1461u);
    r183_i_i_i_i_i_i47 = (uint32_t)(r16_i_i_i_i_i_i46 >> 2);
    r23_i_i_i_i_i_i48 = (uint32_t)(r11_i_i_i_i_i_i44 / 400u);
    reass_sub1 = (uint32_t)(r23_i_i_i_i_i_i48 - r14_i_i_i_i_i_i45);
    r26_i_i_i_i_i_i50 = (uint32_t)(reass_sub1 + 4199127664u);
    r6_i_i3_i_i51 = (uint32_t)(r26_i_i_i_i_i_i50 + r183_i_i_i_i_i_i47);
    r7_i_i_i52 = (uint32_t)(r6_i_i3_i_i51 + r111);
    {
    spec_select4 = 1;
    v8 = r7_i_i_i52;
    goto at__chrono_naive_naive_date_NaiveDate_from_isoywd_opt_exit;
    }
    at__join_30:;
    v6 = (uint32_t)(a0 + 4294705153u);
    spec_select_i_i69 = v6 < 4294443010u;
    r6_i_i70 = r101 == 0;
    or_cond_i71 = (uint8_t)(((uint32_t)spec_select_i_i69 | (uint32_t)r6_i_i70) & 1);
    if (or_cond_i71) { { spec_select4 = 0; v8 = 0; goto at__chrono_naive_naive_date_NaiveDate_from_isoywd_opt_exit; } }
    goto at__else_4_i_i72;
    at__else_4_i_i72:;
    r10_i_i73 = r99 > 368u;
    if (r10_i_i73) { goto at__then_6_i_i88; }
    goto at__after_1_i_i74;
    at__then_6_i_i88:;
    if (r8) { goto at__then_1_i_i_i_i97; }
    goto at__else_2_i_i_i_i91;
    at__then_1_i_i_i_i97:;
    r12_i_i_i_i98 = (uint32_t)((int32_t)a0 % (int32_t)400u);
    {
    r3_0_in_in_i_i_i_i93 = r12_i_i_i_i98;
    goto at__join_8_i_i92;
    }
    at__else_2_i_i_i_i91:;
    v7 = (uint32_t)(a0 & 3);
    {
    r3_0_in_in_i_i_i_i93 = v7;
    goto at__join_8_i_i92;
    }
    at__join_8_i_i92:;
    r3_0_in_i_i_i_i94 = r3_0_in_in_i_i_i_i93 == 0;
    i_i_i95 = r3_0_in_i_i_i_i94 ? 366u : 365u;
    r16_i_i96 = i_i_i95 < r101;
    if (r16_i_i96) { { spec_select4 = 0; v8 = 0; goto at__chrono_naive_naive_date_NaiveDate_from_isoywd_opt_exit; } }
    goto at__after_1_i_i74;
    at__after_1_i_i74:;
    r6_i_i3_i_i82 = (uint32_t)(r26_i_i_fr + 4199127661u);
    r7_i_i_i83 = (uint32_t)(r6_i_i3_i_i82 + r99);
    {
    spec_select4 = 1;
    v8 = r7_i_i_i83;
    goto at__chrono_naive_naive_date_NaiveDate_from_isoywd_opt_exit;
    }
    at__chrono_naive_naive_date_NaiveDate_from_isoywd_opt_exit:;
    r37_fca_0_insert = (t_struct_i8_i32_end){0};
    r37_fca_0_insert.f0 = spec_select4;
    r37_fca_1_insert = r37_fca_0_insert;
    r37_fca_1_insert.f1 = v8;
    return r37_fca_1_insert;
}

static t_struct_i8_i32_end caltool_dates_answers_DateAnswersCommandAnswers_nth_weekday(uint32_t a0, uint32_t a1, uint8_t a2, uint8_t a3)
{
    uint32_t r3_0_in_in_i_i_i_i46, v7, v0, r36, r6_0, r3, r5, r71, r5_i12, r71_i13, old, r3_0, r13, r11, r23, r14, reass_sub, narrow, r24, r16, r183, v1, v2, r1, v4, r3_i5, r19_2, r19_pn, r52, r55, r57, r6_i_i_i_i42, r12_i_i_i_i53, v5, r91_i_i29, r26_i_i_i_i_i38, r18_i_i_i39, r24_i_i_i40;
    uint8_t spec_select4, r19, or_cond, or_cond56, r32, r58, spec_select_i_old, or_cond_2, v3, r14_2, r46, r58_i_i20, or_cond57, r66_i_i22, r8_i_i_i_i43, r3_0_in_i_i_i_i47, r75_i_i49_not;
    uint64_t r1_i_i_i15, r1_i10, r45_i_i16, r1_i14_i_i19, i_i_i48;
    t_struct_i8_i32_end r39_fca_0_insert, r39_fca_1_insert;
    r19 = a3 == 0;
    v0 = (uint32_t)(a1 + 4294967283u);
    or_cond = v0 < 4294967284u;
    or_cond56 = (uint8_t)(((uint32_t)or_cond | (uint32_t)r19) & 1);
    if (or_cond56) { { spec_select4 = 0; v7 = 0; goto at__chrono_naive_naive_date_NaiveDate_from_weekday_of_month_opt_exit; } }
    goto at__after_1;
    at__after_1:;
    r32 = a1 > 2;
    r36 = (uint32_t)(a1 | 12u);
    r6_0 = r32 ? a1 : r36;
    r3 = (uint32_t)(r6_0 * 979u);
    r5 = (uint32_t)(r3 + 4294964377u);
    r71 = (uint32_t)(r5 >> 5);
    r5_i12 = (uint32_t)(r3 + 4294965356u);
    r71_i13 = (uint32_t)(r5_i12 >> 5);
    r58 = r71 < r71_i13;
    old = (uint32_t)(a0 + 262143u);
    spec_select_i_old = old < 524286u;
    or_cond_2 = (uint8_t)(((uint32_t)spec_select_i_old & (uint32_t)r58) & 1);
    if (or_cond_2) { goto at__after_1_i_i8; }
    { spec_select4 = 0; v7 = 0; goto at__chrono_naive_naive_date_NaiveDate_from_weekday_of_month_opt_exit; }
    at__after_1_i_i8:;
    r3_0 = (uint32_t)(a0 + 262399u);
    r13 = (uint32_t)r32;
    r11 = (uint32_t)(r3_0 + r13);
    r23 = (uint32_t)(r11 / 400u);
    r14 = (uint32_t)(r11 / 100u);
    reass_sub = (uint32_t)(r23 - r14);
    narrow = (uint32_t)(reass_sub + 4294966990u);
    r24 = (uint32_t)(narrow + r71);
    r16 = (uint32_t)(r11 * 1461u);
    r183 = (uint32_t)(r16 >> 2);
    v1 = (uint32_t)(r24 + r183);
    v2 = (uint32_t)(v1 % 7);
    v3 = (uint8_t)(v2);
    r1 = (uint32_t)a3;
    v4 = (uint32_t)(r1 * 7);
    r14_2 = a2 < v3;
    r3_i5 = (uint32_t)a2;
    r19_2 = (uint32_t)(r3_i5 + 7);
    r19_pn = r14_2 ? r19_2 : r3_i5;
    r52 = (uint32_t)(v4 + 4294967290u);
    r55 = (uint32_t)(r52 - v2);
    r57 = (uint32_t)(r55 + r19_pn);
    r1_i_i_i15 = (uint64_t)r71;
    r1_i10 = (uint64_t)r57;
    r45_i_i16 = (uint64_t)(r1_i10 + r1_i_i_i15);
    r46 = r57 == 0;
    r1_i14_i_i19 = (uint64_t)r71_i13;
    r58_i_i20 = r45_i_i16 > r1_i14_i_i19;
    or_cond57 = r46 ? 1 : r58_i_i20;
    if (or_cond57) { { spec_select4 = 0; v7 = 0; goto at__chrono_naive_naive_date_NaiveDate_from_weekday_of_month_opt_exit; } }
    goto at__after_15_i_i21;
    at__after_15_i_i21:;
    r66_i_i22 = r45_i_i16 > UINT64_C(365);
    if (r66_i_i22) { goto at__then_26_i_i41; }
    goto at__6;
    at__then_26_i_i41:;
    r6_i_i_i_i42 = (uint32_t)((int32_t)a0 % (int32_t)100u);
    r8_i_i_i_i43 = r6_i_i_i_i42 == 0;
    if (r8_i_i_i_i43) { goto at__then_1_i_i_i_i52; }
    goto at__else_2_i_i_i_i44;
    at__then_1_i_i_i_i52:;
    r12_i_i_i_i53 = (uint32_t)((int32_t)a0 % (int32_t)400u);
    {
    r3_0_in_in_i_i_i_i46 = r12_i_i_i_i53;
    goto at__chrono_units_year_year_length_exit_i_i45_i_i;
    }
    at__else_2_i_i_i_i44:;
    v5 = (uint32_t)(a0 & 3);
    {
    r3_0_in_in_i_i_i_i46 = v5;
    goto at__chrono_units_year_year_length_exit_i_i45_i_i;
    }
    at__chrono_units_year_year_length_exit_i_i45_i_i:;
    r3_0_in_i_i_i_i47 = r3_0_in_in_i_i_i_i46 == 0;
    i_i_i48 = r3_0_in_i_i_i_i47 ? UINT64_C(366) : UINT64_C(365);
    r75_i_i49_not = i_i_i48 < r45_i_i16;
    if (r75_i_i49_not) { { spec_select4 = 0; v7 = 0; goto at__chrono_naive_naive_date_NaiveDate_from_weekday_of_month_opt_exit; } }
    goto at__6;
    at__6:;
    r91_i_i29 = (uint32_t)(r45_i_i16);
    r26_i_i_i_i_i38 = (uint32_t)(r183 + reass_sub);
    r18_i_i_i39 = (uint32_t)(r26_i_i_i_i_i38 + 4199127358u);
    r24_i_i_i40 = (uint32_t)(r18_i_i_i39 + r91_i_i29);
    {
    spec_select4 = 1;
    v7 = r24_i_i_i40;
    goto at__chrono_naive_naive_date_NaiveDate_from_weekday_of_month_opt_exit;
    }
    at__chrono_naive_naive_date_NaiveDate_from_weekday_of_month_opt_exit:;
    r39_fca_0_insert = (t_struct_i8_i32_end){0};
    r39_fca_0_insert.f0 = spec_select4;
    r39_fca_1_insert = r39_fca_0_insert;
    r39_fca_1_insert.f1 = v7;
    return r39_fca_1_insert;
}

static t_struct_i8_i32_end caltool_form_asked_moved_by_days_e48cce946a840f3d(bytes a0, uint64_t a1)
{
    uint32_t r3_0_in_in, r0_sroa_4_0, r1_sroa_0_0_copyload, r1_sroa_3_0_copyload, v0, r1_sroa_4_0_copyload, r36, r6_0, r3, r5, r71, r5_i12, r71_i13, r6, r12, v1, v2, old, r91, r13, r3_0, r11, r14, r16, r183, r23, reass_sub, r26, r18, r24, r5_sroa_4_0, v7, spec_select;
    uint8_t r0_sroa_0_sroa_0_0, or_cond, r32, r46, r58, r66, r8, r3_0_in, r75, spec_select_2, or_cond16, spec_select_i_old, v4, v5, r16_i_i_not_not, r11_2, or_cond_i_not3_not4, or_cond_2, not_not, spec_select2;
    bytes r1_sroa_3_0_a0_sroa_idx, r1_sroa_4_0_a0_sroa_idx;
    uint64_t r1, r1_i10, r45, r1_i14, x, v3, r6_2, v6;
    t_struct_i8_i32_end r38_fca_0_insert, r38_fca_1_insert;
    LOAD(uint32_t, r1_sroa_0_0_copyload, a0);
    r1_sroa_3_0_a0_sroa_idx = (a0 + 4);
    LOAD(uint32_t, r1_sroa_3_0_copyload, r1_sroa_3_0_a0_sroa_idx);
    v0 = (uint32_t)(r1_sroa_3_0_copyload + 4294967283u);
    or_cond = v0 < 4294967284u;
    if (or_cond) { { r0_sroa_4_0 = 0; r0_sroa_0_sroa_0_0 = 0; goto at__return_5; } }
    goto at__after_1;
    at__after_1:;
    r1_sroa_4_0_a0_sroa_idx = (a0 + 8);
    LOAD(uint32_t, r1_sroa_4_0_copyload, r1_sroa_4_0_a0_sroa_idx);
    r32 = r1_sroa_3_0_copyload > 2;
    r36 = (uint32_t)(r1_sroa_3_0_copyload | 12u);
    r6_0 = r32 ? r1_sroa_3_0_copyload : r36;
    r3 = (uint32_t)(r6_0 * 979u);
    r5 = (uint32_t)(r3 + 4294964377u);
    r71 = (uint32_t)(r5 >> 5);
    r1 = (uint64_t)r71;
    r1_i10 = (uint64_t)r1_sroa_4_0_copyload;
    r45 = (uint64_t)(r1_i10 + r1);
    r46 = r1_sroa_4_0_copyload == 0;
    if (r46) { { r0_sroa_4_0 = 0; r0_sroa_0_sroa_0_0 = 0; goto at__return_5; } }
    goto at__else_18;
    at__else_18:;
    r5_i12 = (uint32_t)(r3 + 4294965356u);
    r71_i13 = (uint32_t)(r5_i12 >> 5);
    r1_i14 = (uint64_t)r71_i13;
    r58 = r45 > r1_i14;
    if (r58) { { r0_sroa_4_0 = 0; r0_sroa_0_sroa_0_0 = 0; goto at__return_5; } }
    goto at__after_15;
    at__after_15:;
    r66 = r45 > UINT64_C(365);
    if (r66) { goto at__then_26; }
    goto at__after_25;
    at__then_26:;
    r6 = (uint32_t)((int32_t)r1_sroa_0_0_copyload % (int32_t)100u);
    r8 = r6 == 0;
    if (r8) { goto at__then_1; }
    goto at__else_2;
    at__then_1:;
    r12 = (uint32_t)((int32_t)r1_sroa_0_0_copyload % (int32_t)400u);
    {
    r3_0_in_in = r12;
    goto at__chrono_units_year_year_length_exit_i_i_i_i;
    }
    at__else_2:;
    v1 = (uint32_t)(r1_sroa_0_0_copyload & 3);
    {
    r3_0_in_in = v1;
    goto at__chrono_units_year_year_length_exit_i_i_i_i;
    }
    at__chrono_units_year_year_length_exit_i_i_i_i:;
    r3_0_in = r3_0_in_in == 0;
    x = r3_0_in ? UINT64_C(366) : UINT64_C(365);
    r75 = x >= r45;
    v2 = (uint32_t)(r1_sroa_0_0_copyload + 262143u);
    spec_select_2 = v2 < 524286u;
    or_cond16 = (uint8_t)(((uint32_t)spec_select_2 & (uint32_t)r75) & 1);
    if (or_cond16) { goto at__caltool_dates_answers_DateAnswersCommandAnswers_from_ymd_exit; }
    { r0_sroa_4_0 = 0; r0_sroa_0_sroa_0_0 = 0; goto at__return_5; }
    at__after_25:;
    old = (uint32_t)(r1_sroa_0_0_copyload + 262143u);
    spec_select_i_old = old < 524286u;
    if (spec_select_i_old) { goto at__caltool_dates_answers_DateAnswersCommandAnswers_from_ymd_exit; }
    { r0_sroa_4_0 = 0; r0_sroa_0_sroa_0_0 = 0; goto at__return_5; }
    at__caltool_dates_answers_DateAnswersCommandAnswers_from_ymd_exit:;
    r91 = (uint32_t)(r45);
    r13 = (uint32_t)r32;
    r3_0 = (uint32_t)(r1_sroa_0_0_copyload + 262399u);
    r11 = (uint32_t)(r3_0 + r13);
    r14 = (uint32_t)(r11 / 100u);
    r16 = (uint32_t)(r11 * 1461u);
    r183 = (uint32_t)(r16 >> 2);
    r23 = (uint32_t)(r11 / 400u);
    reass_sub = (uint32_t)(r23 - r14);
    r26 = (uint32_t)(reass_sub + 4199127358u);
    r18 = (uint32_t)(r26 + r183);
    r24 = (uint32_t)(r18 + r91);
    v3 = (uint64_t)((uint64_t)(int32_t)r24);
    r6_2 = (uint64_t)(a1 + v3);
    v4 = (int64_t)a1 > (int64_t)UINT64_C(18446744073709551615);
    v5 = (int64_t)r6_2 < (int64_t)v3;
    r16_i_i_not_not = (uint8_t)(((uint32_t)v4 ^ (uint32_t)v5) & 1);
    v6 = (uint64_t)(r6_2 + UINT64_C(2147483648));
    r11_2 = v6 < UINT64_C(4294967296);
    or_cond_i_not3_not4 = (uint8_t)(((uint32_t)r16_i_i_not_not & (uint32_t)r11_2) & 1);
    r5_sroa_4_0 = (uint32_t)(r6_2);
    v7 = (uint32_t)(r5_sroa_4_0 + 95746129u);
    or_cond_2 = v7 < 191491529u;
    not_not = or_cond_i_not3_not4 ? or_cond_2 : 0;
    spec_select = not_not ? r5_sroa_4_0 : 0;
    spec_select2 = (uint8_t)not_not;
    {
    r0_sroa_4_0 = spec_select;
    r0_sroa_0_sroa_0_0 = spec_select2;
    goto at__return_5;
    }
    at__return_5:;
    r38_fca_0_insert = (t_struct_i8_i32_end){0};
    r38_fca_0_insert.f0 = r0_sroa_0_sroa_0_0;
    r38_fca_1_insert = r38_fca_0_insert;
    r38_fca_1_insert.f1 = r0_sroa_4_0;
    return r38_fca_1_insert;
}

static t_struct_i8_i32_end caltool_form_asked_moved_by_months_e48cce946a840f3d(bytes a0, uint8_t a1, uint32_t a2)
{
    uint32_t r3_0_in_in, r3_0_in_in_2, r10_0, spec_select, r0_sroa_4_0, r1_sroa_0_0_copyload, r1_sroa_3_0_copyload, v0, r1_sroa_4_0_copyload, r36, r6_0, r3, r5, r71, r5_i12, r71_i13, r6, r12, v1, v2, old, r91, r13, r3_0, r11, r14, r16, r183, r23, reass_sub, r26, r18, r24, v3, v4, r13_2, r3_2, r71_i2, r10, r12_2, r29, r6_i_i_i_i4, r8_i_i_i_i5, r103, r30, r33, r35, r50, r16_2, r15, r6_i_i3, r187, v7, r5_2, r71_2, r248, r5_i10, r71_i11, a1_a0, r6_i_i_i5, r12_i_i_i7, v8, x, r149, r1610, r18311, r2312, reass_sub15, r2614, r48, r54;
    uint8_t r0_sroa_0_sroa_0_0, or_cond, r32, r46, r58, r66, r8, r3_0_in, r75, spec_select_2, or_cond16, spec_select_i_old, v5, or_cond_2, r33_i4, r8_i_i_i6, r3_0_in_2, spec_select7;
    bytes r1_sroa_3_0_a0_sroa_idx, r1_sroa_4_0_a0_sroa_idx;
    uint64_t r1, r1_i10, r45, r1_i14, x_2, r1_2, r25, r9_0, r6_2, r8_2, r10_i4, r17, r25_2, r27, r1_3, r6_i_i2, v6;
    uint16_t r14_lhs_trunc, r144, narrow;
    t_struct_i8_i32_end r47_fca_0_insert, r47_fca_1_insert;
    LOAD(uint32_t, r1_sroa_0_0_copyload, a0);
    r1_sroa_3_0_a0_sroa_idx = (a0 + 4);
    LOAD(uint32_t, r1_sroa_3_0_copyload, r1_sroa_3_0_a0_sroa_idx);
    v0 = (uint32_t)(r1_sroa_3_0_copyload + 4294967283u);
    or_cond = v0 < 4294967284u;
    if (or_cond) { { r0_sroa_0_sroa_0_0 = 0; r0_sroa_4_0 = 0; goto at__return_5; } }
    goto at__after_1;
    at__after_1:;
    r1_sroa_4_0_a0_sroa_idx = (a0 + 8);
    LOAD(uint32_t, r1_sroa_4_0_copyload, r1_sroa_4_0_a0_sroa_idx);
    r32 = r1_sroa_3_0_copyload > 2;
    r36 = (uint32_t)(r1_sroa_3_0_copyload | 12u);
    r6_0 = r32 ? r1_sroa_3_0_copyload : r36;
    r3 = (uint32_t)(r6_0 * 979u);
    r5 = (uint32_t)(r3 + 4294964377u);
    r71 = (uint32_t)(r5 >> 5);
    r1 = (uint64_t)r71;
    r1_i10 = (uint64_t)r1_sroa_4_0_copyload;
    r45 = (uint64_t)(r1_i10 + r1);
    r46 = r1_sroa_4_0_copyload == 0;
    if (r46) { { r0_sroa_0_sroa_0_0 = 0; r0_sroa_4_0 = 0; goto at__return_5; } }
    goto at__else_18;
    at__else_18:;
    r5_i12 = (uint32_t)(r3 + 4294965356u);
    r71_i13 = (uint32_t)(r5_i12 >> 5);
    r1_i14 = (uint64_t)r71_i13;
    r58 = r45 > r1_i14;
    if (r58) { { r0_sroa_0_sroa_0_0 = 0; r0_sroa_4_0 = 0; goto at__return_5; } }
    goto at__after_15;
    at__after_15:;
    r66 = r45 > UINT64_C(365);
    if (r66) { goto at__then_26; }
    goto at__after_25;
    at__then_26:;
    r6 = (uint32_t)((int32_t)r1_sroa_0_0_copyload % (int32_t)100u);
    r8 = r6 == 0;
    if (r8) { goto at__then_1; }
    goto at__else_2;
    at__then_1:;
    r12 = (uint32_t)((int32_t)r1_sroa_0_0_copyload % (int32_t)400u);
    {
    r3_0_in_in = r12;
    goto at__chrono_units_year_year_length_exit_i_i_i_i;
    }
    at__else_2:;
    v1 = (uint32_t)(r1_sroa_0_0_copyload & 3);
    {
    r3_0_in_in = v1;
    goto at__chrono_units_year_year_length_exit_i_i_i_i;
    }
    at__chrono_units_year_year_length_exit_i_i_i_i:;
    r3_0_in = r3_0_in_in == 0;
    x_2 = r3_0_in ? UINT64_C(366) : UINT64_C(365);
    r75 = x_2 >= r45;
    v2 = (uint32_t)(r1_sroa_0_0_copyload + 262143u);
    spec_select_2 = v2 < 524286u;
    or_cond16 = (uint8_t)(((uint32_t)spec_select_2 & (uint32_t)r75) & 1);
    if (or_cond16) { goto at__caltool_dates_answers_DateAnswersCommandAnswers_from_ymd_exit; }
    { r0_sroa_0_sroa_0_0 = 0; r0_sroa_4_0 = 0; goto at__return_5; }
    at__after_25:;
    old = (uint32_t)(r1_sroa_0_0_copyload + 262143u);
    spec_select_i_old = old < 524286u;
    if (spec_select_i_old) { goto at__caltool_dates_answers_DateAnswersCommandAnswers_from_ymd_exit; }
    { r0_sroa_0_sroa_0_0 = 0; r0_sroa_4_0 = 0; goto at__return_5; }
    at__caltool_dates_answers_DateAnswersCommandAnswers_from_ymd_exit:;
    r91 = (uint32_t)(r45);
    r13 = (uint32_t)r32;
    r3_0 = (uint32_t)(r1_sroa_0_0_copyload + 262399u);
    r11 = (uint32_t)(r3_0 + r13);
    r14 = (uint32_t)(r11 / 100u);
    r16 = (uint32_t)(r11 * 1461u);
    r183 = (uint32_t)(r16 >> 2);
    r23 = (uint32_t)(r11 / 400u);
    reass_sub = (uint32_t)(r23 - r14);
    r26 = (uint32_t)(reass_sub + 4199127358u);
    r18 = (uint32_t)(r26 + r183);
    r24 = (uint32_t)(r18 + r91);
    v3 = (uint32_t)(r24 << 2);
    v4 = (uint32_t)(v3 + 383359751u);
    v5 = a1 == 0;
    r1_2 = (uint64_t)a2;
    r25 = (uint64_t)(UINT64_C(0) - r1_2);
    r9_0 = v5 ? r1_2 : r25;
    r13_2 = (uint32_t)(v4 / 146097u);
    r3_2 = (uint32_t)(r13_2 * 3);
    r71_i2 = (uint32_t)(r3_2 + v4);
    r10 = (uint32_t)(r71_i2 | 3);
    r6_2 = (uint64_t)r10;
    r8_2 = (uint64_t)(r6_2 * UINT64_C(376287347));
    r10_i4 = (uint64_t)(r8_2 >> (UINT64_C(39) & 63u));
    r12_2 = (uint32_t)(r10_i4);
    r17 = (uint64_t)(r8_2 & UINT64_C(549755813885));
    r25_2 = (uint64_t)(r17 * UINT64_C(1461));
    r27 = (uint64_t)(r25_2 >> (UINT64_C(41) & 63u));
    r29 = (uint32_t)(r27);
    r6_i_i_i_i4 = (uint32_t)(r29 * 2141u);
    r8_i_i_i_i5 = (uint32_t)(r6_i_i_i_i4 + 197913u);
    r103 = (uint32_t)(r8_i_i_i_i5 >> 16u);
    r30 = (uint32_t)(r12_2 * 12u);
    r33 = (uint32_t)(r30 + 4294967293u);
    r35 = (uint32_t)(r33 + r103);
    r1_3 = (uint64_t)r35;
    r6_i_i2 = (uint64_t)(r9_0 + r1_3);
    v6 = (uint64_t)(r6_i_i2 + UINT64_C(18446744073709548534));
    or_cond_2 = v6 < UINT64_C(6291432);
    r50 = (uint32_t)(r6_i_i2);
    if (or_cond_2) { goto at__arm_1; }
    { spec_select = 0; goto at__caltool_dates_answers_DateAnswersCommandAnswers_move_months_exit; }
    at__arm_1:;
    r14_lhs_trunc = (uint16_t)(r8_i_i_i_i5);
    r144 = (uint16_t)((uint32_t)r14_lhs_trunc / (uint32_t)2141u);
    narrow = (uint16_t)((uint32_t)r144 + (uint32_t)1);
    r16_2 = (uint32_t)narrow;
    r15 = (uint32_t)(r50 / 12u);
    r6_i_i3 = (uint32_t)(r15 + 4294704897u);
    r187 = (uint32_t)(r50 % 12u);
    v7 = (uint32_t)(r187 * 979u);
    r5_2 = (uint32_t)(v7 + 18u);
    r71_2 = (uint32_t)(r5_2 >> 5);
    r248 = (uint32_t)(r71_2 + r16_2);
    r5_i10 = (uint32_t)(v7 + 997u);
    r71_i11 = (uint32_t)(r5_i10 >> 5);
    a1_a0 = r71_i11 < r248 ? r71_i11 : r248;
    r33_i4 = a1_a0 > 365u;
    if (r33_i4) { goto at__then_1_2; }
    { r10_0 = a1_a0; goto at__chrono_stored_march_day_number_within_exit_i_i_i_i; }
    at__then_1_2:;
    r6_i_i_i5 = (uint32_t)((int32_t)r6_i_i3 % (int32_t)100u);
    r8_i_i_i6 = r6_i_i_i5 == 0;
    if (r8_i_i_i6) { goto at__then_1_3; }
    goto at__else_2_2;
    at__then_1_3:;
    r12_i_i_i7 = (uint32_t)((int32_t)r6_i_i3 % (int32_t)400u);
    {
    r3_0_in_in_2 = r12_i_i_i7;
    goto at__chrono_units_year_year_length_exit_i_i_i_i_i;
    }
    at__else_2_2:;
    v8 = (uint32_t)(r6_i_i3 & 3);
    {
    r3_0_in_in_2 = v8;
    goto at__chrono_units_year_year_length_exit_i_i_i_i_i;
    }
    at__chrono_units_year_year_length_exit_i_i_i_i_i:;
    r3_0_in_2 = r3_0_in_in_2 == 0;
    x = r3_0_in_2 ? 366u : 365u;
    {
    r10_0 = x;
    goto at__chrono_stored_march_day_number_within_exit_i_i_i_i;
    }
    at__chrono_stored_march_day_number_within_exit_i_i_i_i:;
    r149 = (uint32_t)(r50 / 1200u);
    r1610 = (uint32_t)(r15 * 1461u);
    r18311 = (uint32_t)(r1610 >> 2);
    r2312 = (uint32_t)(r50 / 4800u);
    reass_sub15 = (uint32_t)(r2312 - r149);
    r2614 = (uint32_t)(reass_sub15 + 4199127358u);
    r48 = (uint32_t)(r2614 + r18311);
    r54 = (uint32_t)(r48 + r10_0);
    {
    spec_select = r54;
    goto at__caltool_dates_answers_DateAnswersCommandAnswers_move_months_exit;
    }
    at__caltool_dates_answers_DateAnswersCommandAnswers_move_months_exit:;
    spec_select7 = (uint8_t)or_cond_2;
    {
    r0_sroa_0_sroa_0_0 = spec_select7;
    r0_sroa_4_0 = spec_select;
    goto at__return_5;
    }
    at__return_5:;
    r47_fca_0_insert = (t_struct_i8_i32_end){0};
    r47_fca_0_insert.f0 = r0_sroa_0_sroa_0_0;
    r47_fca_1_insert = r47_fca_0_insert;
    r47_fca_1_insert.f1 = r0_sroa_4_0;
    return r47_fca_1_insert;
}

static t_struct_i8_i32_end caltool_dates_answers_DateAnswersCommandAnswers_from_ymd(uint32_t a0, uint32_t a1, uint32_t a2)
{
    uint32_t r3_0_in_in, v4, v0, r36, r6_0, r3, r5, r71, r5_i12, r71_i13, r6, r12, v1, v2, old, r91, r13, r3_0, r11, r14, r16, r183, r23, reass_sub, r26, r18, r24;
    uint8_t spec_select4, or_cond, r32, r46, r58, r66, r8, r3_0_in, r75, spec_select, or_cond16, spec_select_i_old;
    uint64_t r1, r1_i10, r45, r1_i14, x;
    t_struct_i8_i32_end r36_fca_0_insert, r36_fca_1_insert;
    v0 = (uint32_t)(a1 + 4294967283u);
    or_cond = v0 < 4294967284u;
    if (or_cond) { { spec_select4 = 0; v4 = 0; goto at__chrono_naive_naive_date_NaiveDate_from_ymd_opt_exit; } }
    goto at__after_1;
    at__after_1:;
    r32 = a1 > 2;
    r36 = (uint32_t)(a1 | 12u);
    r6_0 = r32 ? a1 : r36;
    r3 = (uint32_t)(r6_0 * 979u);
    r5 = (uint32_t)(r3 + 4294964377u);
    r71 = (uint32_t)(r5 >> 5);
    r1 = (uint64_t)r71;
    r1_i10 = (uint64_t)a2;
    r45 = (uint64_t)(r1 + r1_i10);
    r46 = a2 == 0;
    if (r46) { { spec_select4 = 0; v4 = 0; goto at__chrono_naive_naive_date_NaiveDate_from_ymd_opt_exit; } }
    goto at__else_18;
    at__else_18:;
    r5_i12 = (uint32_t)(r3 + 4294965356u);
    r71_i13 = (uint32_t)(r5_i12 >> 5);
    r1_i14 = (uint64_t)r71_i13;
    r58 = r45 > r1_i14;
    if (r58) { { spec_select4 = 0; v4 = 0; goto at__chrono_naive_naive_date_NaiveDate_from_ymd_opt_exit; } }
    goto at__after_15;
    at__after_15:;
    r66 = r45 > UINT64_C(365);
    if (r66) { goto at__then_26; }
    goto at__after_25;
    at__then_26:;
    r6 = (uint32_t)((int32_t)a0 % (int32_t)100u);
    r8 = r6 == 0;
    if (r8) { goto at__then_1; }
    goto at__else_2;
    at__then_1:;
    r12 = (uint32_t)((int32_t)a0 % (int32_t)400u);
    {
    r3_0_in_in = r12;
    goto at__chrono_units_year_year_length_exit_i_i_i;
    }
    at__else_2:;
    v1 = (uint32_t)(a0 & 3);
    {
    r3_0_in_in = v1;
    goto at__chrono_units_year_year_length_exit_i_i_i;
    }
    at__chrono_units_year_year_length_exit_i_i_i:;
    r3_0_in = r3_0_in_in == 0;
    x = r3_0_in ? UINT64_C(366) : UINT64_C(365);
    r75 = x >= r45;
    v2 = (uint32_t)(a0 + 262143u);
    spec_select = v2 < 524286u;
    or_cond16 = (uint8_t)(((uint32_t)spec_select & (uint32_t)r75) & 1);
    if (or_cond16) { goto at__3; }
    { spec_select4 = 0; v4 = 0; goto at__chrono_naive_naive_date_NaiveDate_from_ymd_opt_exit; }
    at__after_25:;
    old = (uint32_t)(a0 + 262143u);
    spec_select_i_old = old < 524286u;
    if (spec_select_i_old) { goto at__3; }
    { spec_select4 = 0; v4 = 0; goto at__chrono_naive_naive_date_NaiveDate_from_ymd_opt_exit; }
    at__3:;
    r91 = (uint32_t)(r45);
    r13 = (uint32_t)r32;
    r3_0 = (uint32_t)(a0 + 262399u);
    r11 = (uint32_t)(r3_0 + r13);
    r14 = (uint32_t)(r11 / 100u);
    r16 = (uint32_t)(r11 * 1461u);
    r183 = (uint32_t)(r16 >> 2);
    r23 = (uint32_t)(r11 / 400u);
    reass_sub = (uint32_t)(r23 - r14);
    r26 = (uint32_t)(reass_sub + 4199127358u);
    r18 = (uint32_t)(r26 + r183);
    r24 = (uint32_t)(r18 + r91);
    {
    spec_select4 = 1;
    v4 = r24;
    goto at__chrono_naive_naive_date_NaiveDate_from_ymd_opt_exit;
    }
    at__chrono_naive_naive_date_NaiveDate_from_ymd_opt_exit:;
    r36_fca_0_insert = (t_struct_i8_i32_end){0};
    r36_fca_0_insert.f0 = spec_select4;
    r36_fca_1_insert = r36_fca_0_insert;
    r36_fca_1_insert.f1 = v4;
    return r36_fca_1_insert;
}

static void caltool_form_texts_push_week_line_1f478b2d7b47a44d(bytes a0, uint8_t a1, uint32_t a2, uint8_t a3)
{
    uint64_t r0_04, r11, r8, r10_2, r30, r16, r112, r164;
    uint8_t trunc, r11_2, r26, exitcond_not, switch_idx_cast, r14, or_cond, r4_sroa_0_sroa_0_0_extract_trunc, or_cond_i_i_i_i2, r4_sroa_5_sroa_0_0_extract_trunc;
    bytes r10, r21, r20, r24, r101, r213;
    uint32_t r5, r3, r3_i_i2, r19, r19_pn, r7_0_i_neg, r16_2, v0, spec_select, v1, r5_2, spec_select_i_i_i3;
    trunc = (uint8_t)((a1) & 1);
    if (trunc) { goto at__arm_2; }
    goto at__arm_1;
    at__arm_1:;
    r10 = (a0 + 65536);
    LOAD(uint64_t, r11, r10);
    r21 = (a0 + (int64_t)r11);
    r8 = (uint64_t)((uintptr_t)r21);
    r10_2 = (uint64_t)(r8 - (uint64_t)(uintptr_t)((bytes)&static_10));
    r11_2 = r10_2 < UINT64_C(4);
    if (r11_2) { { r0_04 = UINT64_C(0); goto at__join_7; } }
    goto at__apart_2;
    at__apart_2:;
    STORE(uint32_t, r21, 1701736302u);
    goto at__caltool_form_texts_push_none_65536_exit;
    at__join_7:;
    r20 = (r21 + (int64_t)r0_04);
    r24 = ((bytes)&static_10 + (int64_t)r0_04);
    LOAD(uint8_t, r26, r24);
    STORE(uint8_t, r20, r26);
    r30 = (uint64_t)(r0_04 + UINT64_C(1));
    exitcond_not = r30 == UINT64_C(4);
    if (exitcond_not) { goto at__caltool_form_texts_push_none_65536_exit; }
    { r0_04 = r30; goto at__join_7; }
    at__caltool_form_texts_push_none_65536_exit:;
    r16 = (uint64_t)(r11 + UINT64_C(4));
    STORE(uint64_t, r10, r16);
    goto at__join_4;
    at__arm_2:;
    r5 = (uint32_t)(a2 + 95839631u);
    r3 = (uint32_t)(r5 % 7);
    switch_idx_cast = (uint8_t)(r3);
    r3_i_i2 = (uint32_t)a3;
    r14 = a3 > switch_idx_cast;
    r19 = (uint32_t)(r3 + 7);
    r19_pn = r14 ? r19 : r3;
    r7_0_i_neg = (uint32_t)(a2 + r3_i_i2);
    r16_2 = (uint32_t)(r7_0_i_neg - r19_pn);
    v0 = (uint32_t)(r16_2 + 95746129u);
    or_cond = v0 < 191491529u;
    spec_select = or_cond ? r16_2 : 0;
    r4_sroa_0_sroa_0_0_extract_trunc = (uint8_t)or_cond;
    caltool_form_texts_push_date_or_none_1f478b2d7b47a44d(a0, r4_sroa_0_sroa_0_0_extract_trunc, spec_select);
    r101 = (a0 + 65536);
    LOAD(uint64_t, r112, r101);
    r213 = (a0 + (int64_t)r112);
    STORE(uint8_t, r213, 32u);
    v1 = (uint32_t)(r16_2 + 95746135u);
    or_cond_i_i_i_i2 = v1 < 191491529u;
    r4_sroa_5_sroa_0_0_extract_trunc = (uint8_t)or_cond_i_i_i_i2;
    r5_2 = (uint32_t)(r16_2 + 6);
    spec_select_i_i_i3 = or_cond_i_i_i_i2 ? r5_2 : 0;
    r164 = (uint64_t)(r112 + UINT64_C(1));
    STORE(uint64_t, r101, r164);
    caltool_form_texts_push_date_or_none_1f478b2d7b47a44d(a0, r4_sroa_5_sroa_0_0_extract_trunc, spec_select_i_i_i3);
    goto at__join_4;
    at__join_4:;
    return;
}

static void caltool_form_texts_push_date_or_none_1f478b2d7b47a44d(bytes a0, uint8_t a1, uint32_t a2)
{
    uint64_t r0_04, r11, r8, r10_2, r30, r16, r6, r8_2, r10_i4, r17_2, r25, r27, r6_3, r1, r14, r13_i3, r1_i_i8, r14_i9, r1_i_i13, r14_i14, r13_2, r13_i_i3, r11_4, r13_3, v4, r11_i5_i31;
    uint8_t v0, r11_2, r26, exitcond_not, r35, r8_4, x, r21_2, r19_i4, r27_2, r19, r26_2, r19_2, r27_3, r19_i_i5, r27_i_i7, r19_3, r27_4, r19_i_i24, r27_i_i26;
    bytes r10, r21, r20, r24, r5, r9_i1, r17_3, r25_2, r9_i7, r9_i12, r17_i_i_i_i1, r25_3, r8_5, r8_i4, r17_i_i4, r25_i_i6, r8_i_i10, r8_i4_i11, r8_i16, r17_4, r25_4, r8_6, r8_i4_2, r8_i19, v5, r17_i_i23, r25_i_i25, r8_i_i29, r8_i4_i30;
    uint32_t r17, r11_3, r13, r3, r71_i2, r10_3, r12, r29, r6_2, r8_3, r103, r51, r10_sroa_0_0_v, r10_sroa_0_0, r10_sroa_4_0, r2_0, r9, v1, r32;
    uint16_t r14_lhs_trunc, r144, r3_lhs_trunc, r313, v2, r614, v3, narrow;
    v0 = a1 == 0;
    if (v0) { goto at__arm_1; }
    goto at__arm_2;
    at__arm_1:;
    r10 = (a0 + 65536);
    LOAD(uint64_t, r11, r10);
    r21 = (a0 + (int64_t)r11);
    r8 = (uint64_t)((uintptr_t)r21);
    r10_2 = (uint64_t)(r8 - (uint64_t)(uintptr_t)((bytes)&static_10));
    r11_2 = r10_2 < UINT64_C(4);
    if (r11_2) { { r0_04 = UINT64_C(0); goto at__join_7; } }
    goto at__apart_2;
    at__apart_2:;
    STORE(uint32_t, r21, 1701736302u);
    goto at__caltool_form_texts_push_none_65536_exit;
    at__join_7:;
    r20 = (r21 + (int64_t)r0_04);
    r24 = ((bytes)&static_10 + (int64_t)r0_04);
    LOAD(uint8_t, r26, r24);
    STORE(uint8_t, r20, r26);
    r30 = (uint64_t)(r0_04 + UINT64_C(1));
    exitcond_not = r30 == UINT64_C(4);
    if (exitcond_not) { goto at__caltool_form_texts_push_none_65536_exit; }
    { r0_04 = r30; goto at__join_7; }
    at__caltool_form_texts_push_none_65536_exit:;
    r16 = (uint64_t)(r11 + UINT64_C(4));
    STORE(uint64_t, r10, r16);
    goto at__join_4;
    at__arm_2:;
    r17 = (uint32_t)(a2 << 2);
    r11_3 = (uint32_t)(r17 + 383359751u);
    r13 = (uint32_t)(r11_3 / 146097u);
    r3 = (uint32_t)(r13 * 3);
    r71_i2 = (uint32_t)(r3 + r11_3);
    r10_3 = (uint32_t)(r71_i2 | 3);
    r6 = (uint64_t)r10_3;
    r8_2 = (uint64_t)(r6 * UINT64_C(376287347));
    r10_i4 = (uint64_t)(r8_2 >> (UINT64_C(39) & 63u));
    r12 = (uint32_t)(r10_i4);
    r17_2 = (uint64_t)(r8_2 & UINT64_C(549755813885));
    r25 = (uint64_t)(r17_2 * UINT64_C(1461));
    r27 = (uint64_t)(r25 >> (UINT64_C(41) & 63u));
    r29 = (uint32_t)(r27);
    r6_2 = (uint32_t)(r29 * 2141u);
    r8_3 = (uint32_t)(r6_2 + 197913u);
    r103 = (uint32_t)(r8_3 >> 16u);
    r14_lhs_trunc = (uint16_t)(r8_3);
    r144 = (uint16_t)((uint32_t)r14_lhs_trunc / (uint32_t)2141u);
    r35 = r17_2 < UINT64_C(460575712662);
    r51 = (uint32_t)(r103 + 4294967284u);
    r10_sroa_0_0_v = r35 ? 4294704896u : 4294704897u;
    r10_sroa_0_0 = (uint32_t)(r10_sroa_0_0_v + r12);
    r10_sroa_4_0 = r35 ? r103 : r51;
    r8_4 = (int32_t)r10_sroa_0_0 < (int32_t)0;
    x = r8_4 ? 45u : 43u;
    r21_2 = r10_sroa_0_0 > 9999u;
    r5 = (a0 + 65536);
    LOAD(uint64_t, r6_3, r5);
    r9_i1 = (a0 + (int64_t)r6_3);
    STORE(uint8_t, r9_i1, x);
    r1 = (uint64_t)r21_2;
    r14 = (uint64_t)(r6_3 + r1);
    r2_0 = (int32_t)r10_sroa_0_0 < 0 ? (uint32_t)(0u - r10_sroa_0_0) : r10_sroa_0_0;
    r9 = (uint32_t)(r2_0 / 10000u);
    v1 = (uint32_t)(r9 << 1);
    r13_i3 = (uint64_t)v1;
    r17_3 = ((bytes)&static_12 + (int64_t)r13_i3);
    LOAD(uint8_t, r19_i4, r17_3);
    r25_2 = (r17_3 + 1);
    LOAD(uint8_t, r27_2, r25_2);
    r19 = r2_0 > 99999u;
    r9_i7 = (a0 + (int64_t)r14);
    STORE(uint8_t, r9_i7, r19_i4);
    r1_i_i8 = (uint64_t)r19;
    r14_i9 = (uint64_t)(r14 + r1_i_i8);
    r26_2 = r2_0 > 9999u;
    r9_i12 = (a0 + (int64_t)r14_i9);
    STORE(uint8_t, r9_i12, r27_2);
    r1_i_i13 = (uint64_t)r26_2;
    r14_i14 = (uint64_t)(r14_i9 + r1_i_i13);
    r32 = (uint32_t)(r2_0 % 10000u);
    r3_lhs_trunc = (uint16_t)(r32);
    r313 = (uint16_t)((uint32_t)r3_lhs_trunc / (uint32_t)100u);
    v2 = (uint16_t)((uint32_t)r313 << 1);
    r13_2 = (uint64_t)v2;
    r17_i_i_i_i1 = ((bytes)&static_12 + (int64_t)r13_2);
    LOAD(uint8_t, r19_2, r17_i_i_i_i1);
    r25_3 = (r17_i_i_i_i1 + 1);
    LOAD(uint8_t, r27_3, r25_3);
    r8_5 = (a0 + (int64_t)r14_i14);
    STORE(uint8_t, r8_5, r19_2);
    r8_i4 = (r8_5 + 1);
    STORE(uint8_t, r8_i4, r27_3);
    r614 = (uint16_t)((uint32_t)r3_lhs_trunc % (uint32_t)100u);
    v3 = (uint16_t)((uint32_t)r614 << 1);
    r13_i_i3 = (uint64_t)v3;
    r17_i_i4 = ((bytes)&static_12 + (int64_t)r13_i_i3);
    LOAD(uint8_t, r19_i_i5, r17_i_i4);
    r25_i_i6 = (r17_i_i4 + 1);
    LOAD(uint8_t, r27_i_i7, r25_i_i6);
    r8_i_i10 = (r8_5 + 2);
    STORE(uint8_t, r8_i_i10, r19_i_i5);
    r8_i4_i11 = (r8_5 + 3);
    STORE(uint8_t, r8_i4_i11, r27_i_i7);
    r8_i16 = (r8_5 + 4);
    STORE(uint8_t, r8_i16, 45u);
    r11_4 = (uint64_t)r10_sroa_4_0;
    r13_3 = (uint64_t)(r11_4 << (UINT64_C(1) & 63u));
    r17_4 = ((bytes)&static_12 + (int64_t)r13_3);
    LOAD(uint8_t, r19_3, r17_4);
    r25_4 = (r17_4 + 1);
    LOAD(uint8_t, r27_4, r25_4);
    r8_6 = (r8_5 + 5);
    STORE(uint8_t, r8_6, r19_3);
    r8_i4_2 = (r8_5 + 6);
    STORE(uint8_t, r8_i4_2, r27_4);
    r8_i19 = (r8_5 + 7);
    STORE(uint8_t, r8_i19, 45u);
    narrow = (uint16_t)((uint32_t)r144 << 1);
    v4 = (uint64_t)narrow;
    v5 = ((bytes)&static_12 + (int64_t)v4);
    r17_i_i23 = (v5 + 2);
    LOAD(uint8_t, r19_i_i24, r17_i_i23);
    r25_i_i25 = (v5 + 3);
    LOAD(uint8_t, r27_i_i26, r25_i_i25);
    r8_i_i29 = (r8_5 + 8);
    STORE(uint8_t, r8_i_i29, r19_i_i24);
    r8_i4_i30 = (r8_5 + 9);
    STORE(uint8_t, r8_i4_i30, r27_i_i26);
    r11_i5_i31 = (uint64_t)(r14_i14 + UINT64_C(10));
    STORE(uint64_t, r5, r11_i5_i31);
    goto at__join_4;
    at__join_4:;
    return;
}

static void caltool_form_asked_moved_e48cce946a840f3d(bytes a0, bytes a1, uint64_t a2, uint32_t a3)
{
    uint32_t r3_0_in_in, r4_sroa_0_0, r4_sroa_4_0, sink25, sink24, sink23, sink, r1_sroa_0_0_copyload, r1_sroa_3_0_copyload, r1_sroa_5_0_copyload, r1_sroa_6_0_copyload, r1_sroa_7_0_copyload, r1_sroa_8_0_copyload, v0, r1_sroa_4_0_copyload, r36_2, r6_0, r3, r5, r71, r5_i12, r71_i13, r6, r12, v1, v2, old, r91, r13, r3_0, r11, r14, r16, r183, r23_2, reass_sub, r26, r18, r24, r30_3, r31, r34, r36, r29, r31_2, r36_3, r17_neg, r19, r21_2, r21_i5, r23, r30_4, r17_neg_i_i9, r19_i_i10, r21, r5_sroa_4_0, v5;
    uint64_t r4_sroa_6_0, r1, r1_i10, r45, r1_i14, x, v3, r20, r22, r27, r13_2, r15_2, r14_3, r19_3, r27_2, r30_2, r14_i3, r19_i4, r27_i6, r30_i7, r13_i_i8, r23_3, r15_i_i11, r14_4, r19_i2, r27_3, r30, r17_2, r6_2, v4;
    bytes r1_sroa_3_0_a1_sroa_idx, r1_sroa_5_0_a1_sroa_idx, r1_sroa_6_0_a1_sroa_idx, r1_sroa_7_0_a1_sroa_idx, r1_sroa_8_0_a1_sroa_idx, r1_sroa_4_0_a1_sroa_idx, r49, r0_sroa_11_4_r49_sroa_idx, r0_sroa_12_4_r49_sroa_idx;
    uint8_t or_cond, r32, r46, r58, r66, r8, r3_0_in, r75, spec_select, or_cond16, spec_select_i_old, r8_2, r12_2, or_cond_2, r19_2, or_cond3, r14_2, or_cond5, r25, r31_not, or_cond_i_i_i_not_not, r2, r7, spec_select_2, r15, r5_2, r7_2, r9_not, r17, r7_i_i7, r11_2, or_cond_3, not_not_i_i_not_not;
    LOAD(uint32_t, r1_sroa_0_0_copyload, a1);
    r1_sroa_3_0_a1_sroa_idx = (a1 + 4);
    LOAD(uint32_t, r1_sroa_3_0_copyload, r1_sroa_3_0_a1_sroa_idx);
    r1_sroa_5_0_a1_sroa_idx = (a1 + 12);
    LOAD(uint32_t, r1_sroa_5_0_copyload, r1_sroa_5_0_a1_sroa_idx);
    r1_sroa_6_0_a1_sroa_idx = (a1 + 16);
    LOAD(uint32_t, r1_sroa_6_0_copyload, r1_sroa_6_0_a1_sroa_idx);
    r1_sroa_7_0_a1_sroa_idx = (a1 + 20);
    LOAD(uint32_t, r1_sroa_7_0_copyload, r1_sroa_7_0_a1_sroa_idx);
    r1_sroa_8_0_a1_sroa_idx = (a1 + 24);
    LOAD(uint32_t, r1_sroa_8_0_copyload, r1_sroa_8_0_a1_sroa_idx);
    v0 = (uint32_t)(r1_sroa_3_0_copyload + 4294967283u);
    or_cond = v0 < 4294967284u;
    if (or_cond) { goto at__arm_2; }
    goto at__after_1;
    at__after_1:;
    r1_sroa_4_0_a1_sroa_idx = (a1 + 8);
    LOAD(uint32_t, r1_sroa_4_0_copyload, r1_sroa_4_0_a1_sroa_idx);
    r32 = r1_sroa_3_0_copyload > 2;
    r36_2 = (uint32_t)(r1_sroa_3_0_copyload | 12u);
    r6_0 = r32 ? r1_sroa_3_0_copyload : r36_2;
    r3 = (uint32_t)(r6_0 * 979u);
    r5 = (uint32_t)(r3 + 4294964377u);
    r71 = (uint32_t)(r5 >> 5);
    r1 = (uint64_t)r71;
    r1_i10 = (uint64_t)r1_sroa_4_0_copyload;
    r45 = (uint64_t)(r1 + r1_i10);
    r46 = r1_sroa_4_0_copyload == 0;
    if (r46) { goto at__arm_2; }
    goto at__else_18;
    at__else_18:;
    r5_i12 = (uint32_t)(r3 + 4294965356u);
    r71_i13 = (uint32_t)(r5_i12 >> 5);
    r1_i14 = (uint64_t)r71_i13;
    r58 = r45 > r1_i14;
    if (r58) { goto at__arm_2; }
    goto at__after_15;
    at__after_15:;
    r66 = r45 > UINT64_C(365);
    if (r66) { goto at__then_26; }
    goto at__after_25;
    at__then_26:;
    r6 = (uint32_t)((int32_t)r1_sroa_0_0_copyload % (int32_t)100u);
    r8 = r6 == 0;
    if (r8) { goto at__then_1; }
    goto at__else_2;
    at__then_1:;
    r12 = (uint32_t)((int32_t)r1_sroa_0_0_copyload % (int32_t)400u);
    {
    r3_0_in_in = r12;
    goto at__chrono_units_year_year_length_exit_i_i_i_i_i;
    }
    at__else_2:;
    v1 = (uint32_t)(r1_sroa_0_0_copyload & 3);
    {
    r3_0_in_in = v1;
    goto at__chrono_units_year_year_length_exit_i_i_i_i_i;
    }
    at__chrono_units_year_year_length_exit_i_i_i_i_i:;
    r3_0_in = r3_0_in_in == 0;
    x = r3_0_in ? UINT64_C(366) : UINT64_C(365);
    r75 = x >= r45;
    v2 = (uint32_t)(r1_sroa_0_0_copyload + 262143u);
    spec_select = v2 < 524286u;
    or_cond16 = (uint8_t)(((uint32_t)spec_select & (uint32_t)r75) & 1);
    if (or_cond16) { goto at__caltool_dates_answers_DateAnswersCommandAnswers_from_ymd_exit_i; }
    goto at__arm_2;
    at__after_25:;
    old = (uint32_t)(r1_sroa_0_0_copyload + 262143u);
    spec_select_i_old = old < 524286u;
    if (spec_select_i_old) { goto at__caltool_dates_answers_DateAnswersCommandAnswers_from_ymd_exit_i; }
    goto at__arm_2;
    at__caltool_dates_answers_DateAnswersCommandAnswers_from_ymd_exit_i:;
    r91 = (uint32_t)(r45);
    r13 = (uint32_t)r32;
    r3_0 = (uint32_t)(r1_sroa_0_0_copyload + 262399u);
    r11 = (uint32_t)(r3_0 + r13);
    r14 = (uint32_t)(r11 / 100u);
    r16 = (uint32_t)(r11 * 1461u);
    r183 = (uint32_t)(r16 >> 2);
    r23_2 = (uint32_t)(r11 / 400u);
    reass_sub = (uint32_t)(r23_2 - r14);
    r26 = (uint32_t)(reass_sub + 4199127358u);
    r18 = (uint32_t)(r26 + r183);
    r24 = (uint32_t)(r18 + r91);
    r8_2 = r1_sroa_5_0_copyload > 23u;
    r12_2 = r1_sroa_6_0_copyload > 59u;
    or_cond_2 = (uint8_t)(((uint32_t)r8_2 | (uint32_t)r12_2) & 1);
    r19_2 = r1_sroa_7_0_copyload > 59u;
    or_cond3 = (uint8_t)(((uint32_t)or_cond_2 | (uint32_t)r19_2) & 1);
    r14_2 = r1_sroa_8_0_copyload > 1999999999u;
    or_cond5 = (uint8_t)(((uint32_t)or_cond3 | (uint32_t)r14_2) & 1);
    if (or_cond5) { goto at__arm_2; }
    goto at__caltool_form_named_time_named_exit_i;
    at__caltool_form_named_time_named_exit_i:;
    r30_3 = (uint32_t)(r1_sroa_5_0_copyload * 3600u);
    r31 = (uint32_t)(r1_sroa_6_0_copyload * 60u);
    r34 = (uint32_t)(r31 + r30_3);
    r36 = (uint32_t)(r34 + r1_sroa_7_0_copyload);
    r25 = r1_sroa_8_0_copyload < 1000000000u;
    r29 = (uint32_t)(r36 % 60u);
    r31_not = r29 == 59u;
    or_cond_i_i_i_not_not = (uint8_t)(((uint32_t)r25 | (uint32_t)r31_not) & 1);
    if (or_cond_i_i_i_not_not) { goto at__arm_1; }
    goto at__arm_2;
    at__arm_1:;
    r2 = a3 > 999999999u;
    if (r2) { goto at__arm_6; }
    goto at__join_3;
    at__join_3:;
    switch (a2) {
    case UINT64_C(18437520701672696840): goto at__then_1_2;
    case UINT64_C(9223372036854775): goto at__caltool_form_named_duration_named_exit;
    default: goto at__join_6;
    }
    at__then_1_2:;
    r7 = a3 > 192999999u;
    if (r7) { goto at__arm_5; }
    goto at__arm_6;
    at__join_6:;
    v3 = (uint64_t)(a2 + UINT64_C(9223372036854775));
    spec_select_2 = v3 < UINT64_C(18446744073709550);
    if (spec_select_2) { goto at__arm_5; }
    goto at__arm_6;
    at__caltool_form_named_duration_named_exit:;
    r15 = a3 < 807000001u;
    if (r15) { goto at__arm_5; }
    goto at__arm_6;
    at__common_ret:;
    return;
    at__arm_2:;
    memset(a0, 0, UINT64_C(16));
    goto at__common_ret;
    at__arm_5:;
    r5_2 = r1_sroa_8_0_copyload > 999999999u;
    r20 = (uint64_t)r36;
    if (r5_2) { goto at__then_1_3; }
    goto at__else_2_2;
    at__then_1_3:;
    r22 = (uint64_t)(r20 + UINT64_C(1));
    r27 = (uint64_t)(a2 + r22);
    r31_2 = (uint32_t)(a3 + r1_sroa_8_0_copyload);
    r36_3 = (uint32_t)(r31_2 + 3294967296u);
    r7_2 = r36_3 > 999999999u;
    r13_2 = (uint64_t)r7_2;
    r15_2 = (uint64_t)(r27 + r13_2);
    r17_neg = r7_2 ? 3294967296u : 0;
    r19 = (uint32_t)(r17_neg + r36_3);
    r9_not = (int64_t)r15_2 > (int64_t)r20;
    if (r9_not) { goto at__join_3_2; }
    goto at__then_1_4;
    at__then_1_4:;
    r14_3 = (uint64_t)(r15_2 + UINT64_C(43200000000000000));
    r19_3 = (uint64_t)(r14_3 % UINT64_C(86400));
    r21_2 = (uint32_t)(r19_3);
    r27_2 = (uint64_t)(r14_3 / UINT64_C(86400));
    r30_2 = (uint64_t)(r27_2 + UINT64_C(18446743573709551616));
    {
    r4_sroa_0_0 = r21_2;
    r4_sroa_4_0 = r19;
    r4_sroa_6_0 = r30_2;
    goto at__chrono_datetime_naive_date_time_NaiveDateTime_checked_add_signed_exit_i;
    }
    at__join_3_2:;
    r17 = r22 < r15_2;
    if (r17) { goto at__then_4; }
    goto at__join_6_2;
    at__then_4:;
    r14_i3 = (uint64_t)(r15_2 + UINT64_C(43199999999999999));
    r19_i4 = (uint64_t)(r14_i3 % UINT64_C(86400));
    r21_i5 = (uint32_t)(r19_i4);
    r27_i6 = (uint64_t)(r14_i3 / UINT64_C(86400));
    r30_i7 = (uint64_t)(r27_i6 + UINT64_C(18446743573709551616));
    {
    r4_sroa_0_0 = r21_i5;
    r4_sroa_4_0 = r19;
    r4_sroa_6_0 = r30_i7;
    goto at__chrono_datetime_naive_date_time_NaiveDateTime_checked_add_signed_exit_i;
    }
    at__join_6_2:;
    r23 = (uint32_t)(r17_neg + r31_2);
    {
    r4_sroa_0_0 = r36;
    r4_sroa_4_0 = r23;
    r4_sroa_6_0 = UINT64_C(0);
    goto at__chrono_datetime_naive_date_time_NaiveDateTime_checked_add_signed_exit_i;
    }
    at__else_2_2:;
    r30_4 = (uint32_t)(a3 + r1_sroa_8_0_copyload);
    r7_i_i7 = r30_4 > 999999999u;
    r13_i_i8 = (uint64_t)r7_i_i7;
    r17_neg_i_i9 = r7_i_i7 ? 3294967296u : 0;
    r19_i_i10 = (uint32_t)(r17_neg_i_i9 + r30_4);
    r23_3 = (uint64_t)(r20 + UINT64_C(43200000000000000));
    r15_i_i11 = (uint64_t)(r23_3 + a2);
    r14_4 = (uint64_t)(r15_i_i11 + r13_i_i8);
    r19_i2 = (uint64_t)(r14_4 % UINT64_C(86400));
    r21 = (uint32_t)(r19_i2);
    r27_3 = (uint64_t)(r14_4 / UINT64_C(86400));
    r30 = (uint64_t)(r27_3 + UINT64_C(18446743573709551616));
    {
    r4_sroa_0_0 = r21;
    r4_sroa_4_0 = r19_i_i10;
    r4_sroa_6_0 = r30;
    goto at__chrono_datetime_naive_date_time_NaiveDateTime_checked_add_signed_exit_i;
    }
    at__chrono_datetime_naive_date_time_NaiveDateTime_checked_add_signed_exit_i:;
    r17_2 = (uint64_t)((uint64_t)(int32_t)r24);
    r6_2 = (uint64_t)(r4_sroa_6_0 + r17_2);
    v4 = (uint64_t)(r6_2 + UINT64_C(2147483648));
    r11_2 = v4 < UINT64_C(4294967296);
    r5_sroa_4_0 = (uint32_t)(r6_2);
    v5 = (uint32_t)(r5_sroa_4_0 + 95746129u);
    or_cond_3 = v5 < 191491529u;
    not_not_i_i_not_not = r11_2 ? or_cond_3 : 0;
    if (not_not_i_i_not_not) { { sink25 = 1; sink24 = r5_sroa_4_0; sink23 = r4_sroa_0_0; sink = r4_sroa_4_0; goto at__caltool_dates_answers_DateAnswersCommandAnswers_move_moment_exit; } }
    goto at__arm_28;
    at__arm_28:;
    {
    sink25 = 0;
    sink24 = 0;
    sink23 = 0;
    sink = 0;
    goto at__caltool_dates_answers_DateAnswersCommandAnswers_move_moment_exit;
    }
    at__caltool_dates_answers_DateAnswersCommandAnswers_move_moment_exit:;
    STORE(uint32_t, a0, sink25);
    r49 = (a0 + 4);
    STORE(uint32_t, r49, sink24);
    r0_sroa_11_4_r49_sroa_idx = (a0 + 8);
    STORE(uint32_t, r0_sroa_11_4_r49_sroa_idx, sink23);
    r0_sroa_12_4_r49_sroa_idx = (a0 + 12);
    STORE(uint32_t, r0_sroa_12_4_r49_sroa_idx, sink);
    goto at__common_ret;
    at__arm_6:;
    memset(a0, 0, UINT64_C(16));
    goto at__common_ret;
}

static void caltool_form_texts_push_moment_1f478b2d7b47a44d(bytes a0, bytes a1)
{
    uint64_t r0_04, r11_i5_i_i22_i80_sink, r11, r8, r10_2, r30, r16, r6, r82, r10_i4, r17_2, r25, r27, r6_3, r1_2, r14, r13_i3, r1_i_i8, r14_i9, r1_i_i13, r14_i14, r13_2, r13_i_i3, r11_4, r13_3, v4, r13_i_i_i_i3, r13_i_i3_2, r11_i16, v8, r13_i_i_i31_i90, r11_i5_i_i38_i97, r11_i5_i27, r13_i_i_i_i_i_i12, r11_i5, r13_i_i_i15, r11_i5_i_i22, r11_i5_i41, r13_i_i_i_i54, r11_i5_i_i_i61, r13_i_i_i15_i73, r11_i5_i_i22_i80;
    uint32_t r26_i81_sink, r0_sroa_6_4_copyload, r0_sroa_5_4_copyload, r0_sroa_3_4_copyload, r17, r11_3, r13, r3, r71_i2, r101, r12, r29, r6_2, r8_2, r103, r51, r10_sroa_0_0_v, r10_sroa_0_0, r10_sroa_4_0, r2_0, r9, v1, r32, r4_2, r5_2, r7, r4_i4, v6, v7, r18, r21_3, r12_2, r15, r21_i_i_i17, r23, r26_i_i_i18, r12_i47, r15_i62, r21_i65, r23_i66, r26_i81;
    uint8_t r1, v0, r11_2, r26, exitcond_not, r35, r8_3, x, r21_2, r19_i4, r27_2, r19, r26_2, r19_2, r27_3, r19_i_i5, r27_i_i7, r19_3, r27_4, r19_i_i24, r27_i_i26, r19_i_i_i_i5, r27_i_i_i_i7, r19_i_i5_2, r27_i_i7_2, r14_2, r7_i25_i86, r9_i26_i87, r19_i_i_i33_i92, r27_i_i_i35_i94, r19_i_i20, r27_i_i22, r7_2, r7_3, r9_2, r19_4, r27_i_i_i_i_i_i14, r17_i_i_i16, r7_i9, r9_i10, r19_i_i_i17, r27_i_i_i19, r28, r19_i_i34, r27_i_i36, r7_i42, r7_i_i50, r9_i_i51, r19_i_i_i_i56, r27_i_i_i_i58, r17_i63, r7_i9_i69, r9_i10_i70, r19_i_i_i17_i75, r27_i_i_i19_i77, r28_i82;
    bytes r10, r21, r20, r24, r0_sroa_6_4_r4_sroa_idx, r4, r0_sroa_5_4_r4_sroa_idx, r5, r9_i1, r17_3, r25_2, r9_i7, r9_i12, r17_i_i_i_i1, r25_3, r8_4, r8_i4, r17_i_i4, r25_i_i6, r8_i_i10, r8_i4_i11, r8_i16, r17_4, r25_4, r8_5, r8_i4_2, r8_i19, v5, r17_i_i23, r25_i_i25, r8_i_i29, r8_i4_i30, r213, r17_i_i_i_i4, r25_i_i_i_i6, r8_i_i_i_i8, r8_i4_i_i_i9, r8_i_i_i10, r17_i_i4_2, r25_i_i6_2, r8_i_i10_2, r8_i4_i11_2, r8_i15, v9, r8_i_i29_i88, r17_i_i_i32_i91, r25_i_i_i34_i93, r8_i_i_i36_i95, r8_i4_i_i37_i96, r17_i_i19, r25_i_i21, r8_i_i25, r8_i4_i26, r8_i_i30, r8_i_i_i_i_i11, r17_5, r25_i_i_i_i_i_i13, r8_i_i_i_i_i_i15, r8_i4_3, r8_i_i13, r17_i_i_i16_2, r25_i_i_i18, r8_i_i_i20, r8_i4_i_i21, r25_i_i35, r8_i_i39, r8_i4_i40, r8_i_i46, r8_i_i_i52, r17_i_i_i_i55, r25_i_i_i_i57, r8_i_i_i_i59, r8_i4_i_i_i60, r8_i_i13_i71, r17_i_i_i16_i74, r25_i_i_i18_i76, r8_i_i_i20_i78, r8_i4_i_i21_i79;
    uint16_t r14_lhs_trunc, r144, r3_lhs_trunc, r313, v2, r614, v3, narrow, r5_lhs_trunc_i23_i84, r52_i24_i85, r123_i30_i89, v10, r5_lhs_trunc, r52, r123, v11, r5_lhs_trunc_i7, r52_i8, r123_i14, v12, r5_lhs_trunc_i_i48, r52_i_i49, r123_i_i53, v13, r5_lhs_trunc_i7_i67, r52_i8_i68, r123_i14_i72, v14;
    LOAD(uint8_t, r1, a1);
    v0 = r1 == 0;
    if (v0) { goto at__arm_1; }
    goto at__arm_2;
    at__arm_1:;
    r10 = (a0 + 65536);
    LOAD(uint64_t, r11, r10);
    r21 = (a0 + (int64_t)r11);
    r8 = (uint64_t)((uintptr_t)r21);
    r10_2 = (uint64_t)(r8 - (uint64_t)(uintptr_t)((bytes)&static_10));
    r11_2 = r10_2 < UINT64_C(4);
    if (r11_2) { { r0_04 = UINT64_C(0); goto at__join_7; } }
    goto at__apart_2;
    at__apart_2:;
    STORE(uint32_t, r21, 1701736302u);
    goto at__caltool_form_texts_push_none_65536_exit;
    at__join_7:;
    r20 = (r21 + (int64_t)r0_04);
    r24 = ((bytes)&static_10 + (int64_t)r0_04);
    LOAD(uint8_t, r26, r24);
    STORE(uint8_t, r20, r26);
    r30 = (uint64_t)(r0_04 + UINT64_C(1));
    exitcond_not = r30 == UINT64_C(4);
    if (exitcond_not) { goto at__caltool_form_texts_push_none_65536_exit; }
    { r0_04 = r30; goto at__join_7; }
    at__caltool_form_texts_push_none_65536_exit:;
    r16 = (uint64_t)(r11 + UINT64_C(4));
    STORE(uint64_t, r10, r16);
    goto at__join_4;
    at__arm_2:;
    r0_sroa_6_4_r4_sroa_idx = (a1 + 12);
    LOAD(uint32_t, r0_sroa_6_4_copyload, r0_sroa_6_4_r4_sroa_idx);
    r4 = (a1 + 4);
    r0_sroa_5_4_r4_sroa_idx = (a1 + 8);
    LOAD(uint32_t, r0_sroa_5_4_copyload, r0_sroa_5_4_r4_sroa_idx);
    LOAD(uint32_t, r0_sroa_3_4_copyload, r4);
    r17 = (uint32_t)(r0_sroa_3_4_copyload << 2);
    r11_3 = (uint32_t)(r17 + 383359751u);
    r13 = (uint32_t)(r11_3 / 146097u);
    r3 = (uint32_t)(r13 * 3);
    r71_i2 = (uint32_t)(r3 + r11_3);
    r101 = (uint32_t)(r71_i2 | 3);
    r6 = (uint64_t)r101;
    r82 = (uint64_t)(r6 * UINT64_C(376287347));
    r10_i4 = (uint64_t)(r82 >> (UINT64_C(39) & 63u));
    r12 = (uint32_t)(r10_i4);
    r17_2 = (uint64_t)(r82 & UINT64_C(549755813885));
    r25 = (uint64_t)(r17_2 * UINT64_C(1461));
    r27 = (uint64_t)(r25 >> (UINT64_C(41) & 63u));
    r29 = (uint32_t)(r27);
    r6_2 = (uint32_t)(r29 * 2141u);
    r8_2 = (uint32_t)(r6_2 + 197913u);
    r103 = (uint32_t)(r8_2 >> 16u);
    r14_lhs_trunc = (uint16_t)(r8_2);
    r144 = (uint16_t)((uint32_t)r14_lhs_trunc / (uint32_t)2141u);
    r35 = r17_2 < UINT64_C(460575712662);
    r51 = (uint32_t)(r103 + 4294967284u);
    r10_sroa_0_0_v = r35 ? 4294704896u : 4294704897u;
    r10_sroa_0_0 = (uint32_t)(r10_sroa_0_0_v + r12);
    r10_sroa_4_0 = r35 ? r103 : r51;
    r8_3 = (int32_t)r10_sroa_0_0 < (int32_t)0;
    x = r8_3 ? 45u : 43u;
    r21_2 = r10_sroa_0_0 > 9999u;
    r5 = (a0 + 65536);
    LOAD(uint64_t, r6_3, r5);
    r9_i1 = (a0 + (int64_t)r6_3);
    STORE(uint8_t, r9_i1, x);
    r1_2 = (uint64_t)r21_2;
    r14 = (uint64_t)(r6_3 + r1_2);
    r2_0 = (int32_t)r10_sroa_0_0 < 0 ? (uint32_t)(0u - r10_sroa_0_0) : r10_sroa_0_0;
    r9 = (uint32_t)(r2_0 / 10000u);
    v1 = (uint32_t)(r9 << 1);
    r13_i3 = (uint64_t)v1;
    r17_3 = ((bytes)&static_12 + (int64_t)r13_i3);
    LOAD(uint8_t, r19_i4, r17_3);
    r25_2 = (r17_3 + 1);
    LOAD(uint8_t, r27_2, r25_2);
    r19 = r2_0 > 99999u;
    r9_i7 = (a0 + (int64_t)r14);
    STORE(uint8_t, r9_i7, r19_i4);
    r1_i_i8 = (uint64_t)r19;
    r14_i9 = (uint64_t)(r14 + r1_i_i8);
    r26_2 = r2_0 > 9999u;
    r9_i12 = (a0 + (int64_t)r14_i9);
    STORE(uint8_t, r9_i12, r27_2);
    r1_i_i13 = (uint64_t)r26_2;
    r14_i14 = (uint64_t)(r14_i9 + r1_i_i13);
    r32 = (uint32_t)(r2_0 % 10000u);
    r3_lhs_trunc = (uint16_t)(r32);
    r313 = (uint16_t)((uint32_t)r3_lhs_trunc / (uint32_t)100u);
    v2 = (uint16_t)((uint32_t)r313 << 1);
    r13_2 = (uint64_t)v2;
    r17_i_i_i_i1 = ((bytes)&static_12 + (int64_t)r13_2);
    LOAD(uint8_t, r19_2, r17_i_i_i_i1);
    r25_3 = (r17_i_i_i_i1 + 1);
    LOAD(uint8_t, r27_3, r25_3);
    r8_4 = (a0 + (int64_t)r14_i14);
    STORE(uint8_t, r8_4, r19_2);
    r8_i4 = (r8_4 + 1);
    STORE(uint8_t, r8_i4, r27_3);
    r614 = (uint16_t)((uint32_t)r3_lhs_trunc % (uint32_t)100u);
    v3 = (uint16_t)((uint32_t)r614 << 1);
    r13_i_i3 = (uint64_t)v3;
    r17_i_i4 = ((bytes)&static_12 + (int64_t)r13_i_i3);
    LOAD(uint8_t, r19_i_i5, r17_i_i4);
    r25_i_i6 = (r17_i_i4 + 1);
    LOAD(uint8_t, r27_i_i7, r25_i_i6);
    r8_i_i10 = (r8_4 + 2);
    STORE(uint8_t, r8_i_i10, r19_i_i5);
    r8_i4_i11 = (r8_4 + 3);
    STORE(uint8_t, r8_i4_i11, r27_i_i7);
    r8_i16 = (r8_4 + 4);
    STORE(uint8_t, r8_i16, 45u);
    r11_4 = (uint64_t)r10_sroa_4_0;
    r13_3 = (uint64_t)(r11_4 << (UINT64_C(1) & 63u));
    r17_4 = ((bytes)&static_12 + (int64_t)r13_3);
    LOAD(uint8_t, r19_3, r17_4);
    r25_4 = (r17_4 + 1);
    LOAD(uint8_t, r27_4, r25_4);
    r8_5 = (r8_4 + 5);
    STORE(uint8_t, r8_5, r19_3);
    r8_i4_2 = (r8_4 + 6);
    STORE(uint8_t, r8_i4_2, r27_4);
    r8_i19 = (r8_4 + 7);
    STORE(uint8_t, r8_i19, 45u);
    narrow = (uint16_t)((uint32_t)r144 << 1);
    v4 = (uint64_t)narrow;
    v5 = ((bytes)&static_12 + (int64_t)v4);
    r17_i_i23 = (v5 + 2);
    LOAD(uint8_t, r19_i_i24, r17_i_i23);
    r25_i_i25 = (v5 + 3);
    LOAD(uint8_t, r27_i_i26, r25_i_i25);
    r8_i_i29 = (r8_4 + 8);
    STORE(uint8_t, r8_i_i29, r19_i_i24);
    r8_i4_i30 = (r8_4 + 9);
    STORE(uint8_t, r8_i4_i30, r27_i_i26);
    r213 = (r8_4 + 10);
    STORE(uint8_t, r213, 84u);
    r4_2 = (uint32_t)(r0_sroa_5_4_copyload / 3600u);
    r5_2 = (uint32_t)(r0_sroa_5_4_copyload / 60u);
    r7 = (uint32_t)(r5_2 % 60u);
    r4_i4 = (uint32_t)(r0_sroa_5_4_copyload % 60u);
    v6 = (uint32_t)(r4_2 << 1);
    r13_i_i_i_i3 = (uint64_t)v6;
    r17_i_i_i_i4 = ((bytes)&static_12 + (int64_t)r13_i_i_i_i3);
    LOAD(uint8_t, r19_i_i_i_i5, r17_i_i_i_i4);
    r25_i_i_i_i6 = (r17_i_i_i_i4 + 1);
    LOAD(uint8_t, r27_i_i_i_i7, r25_i_i_i_i6);
    r8_i_i_i_i8 = (r8_4 + 11);
    STORE(uint8_t, r8_i_i_i_i8, r19_i_i_i_i5);
    r8_i4_i_i_i9 = (r8_4 + 12);
    STORE(uint8_t, r8_i4_i_i_i9, r27_i_i_i_i7);
    r8_i_i_i10 = (r8_4 + 13);
    STORE(uint8_t, r8_i_i_i10, 58u);
    v7 = (uint32_t)(r7 << 1);
    r13_i_i3_2 = (uint64_t)v7;
    r17_i_i4_2 = ((bytes)&static_12 + (int64_t)r13_i_i3_2);
    LOAD(uint8_t, r19_i_i5_2, r17_i_i4_2);
    r25_i_i6_2 = (r17_i_i4_2 + 1);
    LOAD(uint8_t, r27_i_i7_2, r25_i_i6_2);
    r8_i_i10_2 = (r8_4 + 14);
    STORE(uint8_t, r8_i_i10_2, r19_i_i5_2);
    r8_i4_i11_2 = (r8_4 + 15);
    STORE(uint8_t, r8_i4_i11_2, r27_i_i7_2);
    r8_i15 = (r8_4 + 16);
    STORE(uint8_t, r8_i15, 58u);
    r11_i16 = (uint64_t)(r14_i14 + UINT64_C(17));
    r14_2 = r0_sroa_6_4_copyload > 999999999u;
    r18 = (uint32_t)(r4_i4 << 1);
    v8 = (uint64_t)r18;
    v9 = ((bytes)&static_12 + (int64_t)v8);
    if (r14_2) { goto at__then_1; }
    goto at__join_3;
    at__common_ret_sink_split:;
    r5_lhs_trunc_i23_i84 = (uint16_t)(r26_i81_sink);
    r52_i24_i85 = (uint16_t)((uint32_t)r5_lhs_trunc_i23_i84 / (uint32_t)100u);
    r7_i25_i86 = (uint8_t)(r52_i24_i85);
    r9_i26_i87 = (uint8_t)((uint32_t)r7_i25_i86 | (uint32_t)48u);
    r8_i_i29_i88 = (a0 + (int64_t)r11_i5_i_i22_i80_sink);
    STORE(uint8_t, r8_i_i29_i88, r9_i26_i87);
    r123_i30_i89 = (uint16_t)((uint32_t)r5_lhs_trunc_i23_i84 % (uint32_t)100u);
    v10 = (uint16_t)((uint32_t)r123_i30_i89 << 1);
    r13_i_i_i31_i90 = (uint64_t)v10;
    r17_i_i_i32_i91 = ((bytes)&static_12 + (int64_t)r13_i_i_i31_i90);
    LOAD(uint8_t, r19_i_i_i33_i92, r17_i_i_i32_i91);
    r25_i_i_i34_i93 = (r17_i_i_i32_i91 + 1);
    LOAD(uint8_t, r27_i_i_i35_i94, r25_i_i_i34_i93);
    r8_i_i_i36_i95 = (r8_i_i29_i88 + 1);
    STORE(uint8_t, r8_i_i_i36_i95, r19_i_i_i33_i92);
    r8_i4_i_i37_i96 = (r8_i_i29_i88 + 2);
    STORE(uint8_t, r8_i4_i_i37_i96, r27_i_i_i35_i94);
    r11_i5_i_i38_i97 = (uint64_t)(r14_i14 + UINT64_C(29));
    STORE(uint64_t, r5, r11_i5_i_i38_i97);
    goto at__join_4;
    at__then_1:;
    r17_i_i19 = (v9 + 2);
    LOAD(uint8_t, r19_i_i20, r17_i_i19);
    r25_i_i21 = (v9 + 3);
    LOAD(uint8_t, r27_i_i22, r25_i_i21);
    r8_i_i25 = (a0 + (int64_t)r11_i16);
    STORE(uint8_t, r8_i_i25, r19_i_i20);
    r8_i4_i26 = (r8_i_i25 + 1);
    STORE(uint8_t, r8_i4_i26, r27_i_i22);
    r11_i5_i27 = (uint64_t)(r14_i14 + UINT64_C(19));
    STORE(uint64_t, r5, r11_i5_i27);
    r21_3 = (uint32_t)(r0_sroa_6_4_copyload + 3294967296u);
    r7_2 = r21_3 == 0;
    if (r7_2) { goto at__join_4; }
    goto at__join_3_2;
    at__join_3_2:;
    r8_i_i30 = (a0 + (int64_t)r11_i5_i27);
    STORE(uint8_t, r8_i_i30, 46u);
    r12_2 = (uint32_t)(r21_3 / 1000000u);
    r5_lhs_trunc = (uint16_t)(r12_2);
    r52 = (uint16_t)((uint32_t)r5_lhs_trunc / (uint32_t)100u);
    r7_3 = (uint8_t)(r52);
    r9_2 = (uint8_t)((uint32_t)r7_3 + (uint32_t)48u);
    r8_i_i_i_i_i11 = (r8_i_i30 + 1);
    STORE(uint8_t, r8_i_i_i_i_i11, r9_2);
    r123 = (uint16_t)((uint32_t)r5_lhs_trunc % (uint32_t)100u);
    v11 = (uint16_t)((uint32_t)r123 << 1);
    r13_i_i_i_i_i_i12 = (uint64_t)v11;
    r17_5 = ((bytes)&static_12 + (int64_t)r13_i_i_i_i_i_i12);
    LOAD(uint8_t, r19_4, r17_5);
    r25_i_i_i_i_i_i13 = (r17_5 + 1);
    LOAD(uint8_t, r27_i_i_i_i_i_i14, r25_i_i_i_i_i_i13);
    r8_i_i_i_i_i_i15 = (r8_i_i30 + 2);
    STORE(uint8_t, r8_i_i_i_i_i_i15, r19_4);
    r8_i4_3 = (r8_i_i30 + 3);
    STORE(uint8_t, r8_i4_3, r27_i_i_i_i_i_i14);
    r11_i5 = (uint64_t)(r14_i14 + UINT64_C(23));
    STORE(uint64_t, r5, r11_i5);
    r15 = (uint32_t)(r21_3 % 1000000u);
    r17_i_i_i16 = r15 == 0;
    if (r17_i_i_i16) { goto at__join_4; }
    goto at__join_6;
    at__join_6:;
    r21_i_i_i17 = (uint32_t)(r21_3 / 1000u);
    r23 = (uint32_t)(r21_i_i_i17 % 1000u);
    r5_lhs_trunc_i7 = (uint16_t)(r23);
    r52_i8 = (uint16_t)((uint32_t)r5_lhs_trunc_i7 / (uint32_t)100u);
    r7_i9 = (uint8_t)(r52_i8);
    r9_i10 = (uint8_t)((uint32_t)r7_i9 | (uint32_t)48u);
    r8_i_i13 = (a0 + (int64_t)r11_i5);
    STORE(uint8_t, r8_i_i13, r9_i10);
    r123_i14 = (uint16_t)((uint32_t)r5_lhs_trunc_i7 % (uint32_t)100u);
    v12 = (uint16_t)((uint32_t)r123_i14 << 1);
    r13_i_i_i15 = (uint64_t)v12;
    r17_i_i_i16_2 = ((bytes)&static_12 + (int64_t)r13_i_i_i15);
    LOAD(uint8_t, r19_i_i_i17, r17_i_i_i16_2);
    r25_i_i_i18 = (r17_i_i_i16_2 + 1);
    LOAD(uint8_t, r27_i_i_i19, r25_i_i_i18);
    r8_i_i_i20 = (r8_i_i13 + 1);
    STORE(uint8_t, r8_i_i_i20, r19_i_i_i17);
    r8_i4_i_i21 = (r8_i_i13 + 2);
    STORE(uint8_t, r8_i4_i_i21, r27_i_i_i19);
    r11_i5_i_i22 = (uint64_t)(r14_i14 + UINT64_C(26));
    STORE(uint64_t, r5, r11_i5_i_i22);
    r26_i_i_i18 = (uint32_t)(r21_3 % 1000u);
    r28 = r26_i_i_i18 == 0;
    if (r28) { goto at__join_4; }
    { r26_i81_sink = r26_i_i_i18; r11_i5_i_i22_i80_sink = r11_i5_i_i22; goto at__common_ret_sink_split; }
    at__join_3:;
    LOAD(uint8_t, r19_i_i34, v9);
    r25_i_i35 = (v9 + 1);
    LOAD(uint8_t, r27_i_i36, r25_i_i35);
    r8_i_i39 = (a0 + (int64_t)r11_i16);
    STORE(uint8_t, r8_i_i39, r19_i_i34);
    r8_i4_i40 = (r8_i_i39 + 1);
    STORE(uint8_t, r8_i4_i40, r27_i_i36);
    r11_i5_i41 = (uint64_t)(r14_i14 + UINT64_C(19));
    STORE(uint64_t, r5, r11_i5_i41);
    r7_i42 = r0_sroa_6_4_copyload == 0;
    if (r7_i42) { goto at__join_4; }
    goto at__join_3_i43;
    at__join_3_i43:;
    r8_i_i46 = (a0 + (int64_t)r11_i5_i41);
    STORE(uint8_t, r8_i_i46, 46u);
    r12_i47 = (uint32_t)(r0_sroa_6_4_copyload / 1000000u);
    r5_lhs_trunc_i_i48 = (uint16_t)(r12_i47);
    r52_i_i49 = (uint16_t)((uint32_t)r5_lhs_trunc_i_i48 / (uint32_t)100u);
    r7_i_i50 = (uint8_t)(r52_i_i49);
    r9_i_i51 = (uint8_t)((uint32_t)r7_i_i50 + (uint32_t)48u);
    r8_i_i_i52 = (r8_i_i46 + 1);
    STORE(uint8_t, r8_i_i_i52, r9_i_i51);
    r123_i_i53 = (uint16_t)((uint32_t)r5_lhs_trunc_i_i48 % (uint32_t)100u);
    v13 = (uint16_t)((uint32_t)r123_i_i53 << 1);
    r13_i_i_i_i54 = (uint64_t)v13;
    r17_i_i_i_i55 = ((bytes)&static_12 + (int64_t)r13_i_i_i_i54);
    LOAD(uint8_t, r19_i_i_i_i56, r17_i_i_i_i55);
    r25_i_i_i_i57 = (r17_i_i_i_i55 + 1);
    LOAD(uint8_t, r27_i_i_i_i58, r25_i_i_i_i57);
    r8_i_i_i_i59 = (r8_i_i46 + 2);
    STORE(uint8_t, r8_i_i_i_i59, r19_i_i_i_i56);
    r8_i4_i_i_i60 = (r8_i_i46 + 3);
    STORE(uint8_t, r8_i4_i_i_i60, r27_i_i_i_i58);
    r11_i5_i_i_i61 = (uint64_t)(r14_i14 + UINT64_C(23));
    STORE(uint64_t, r5, r11_i5_i_i_i61);
    r15_i62 = (uint32_t)(r0_sroa_6_4_copyload % 1000000u);
    r17_i63 = r15_i62 == 0;
    if (r17_i63) { goto at__join_4; }
    goto at__join_6_i64;
    at__join_6_i64:;
    r21_i65 = (uint32_t)(r0_sroa_6_4_copyload / 1000u);
    r23_i66 = (uint32_t)(r21_i65 % 1000u);
    r5_lhs_trunc_i7_i67 = (uint16_t)(r23_i66);
    r52_i8_i68 = (uint16_t)((uint32_t)r5_lhs_trunc_i7_i67 / (uint32_t)100u);
    r7_i9_i69 = (uint8_t)(r52_i8_i68);
    r9_i10_i70 = (uint8_t)((uint32_t)r7_i9_i69 | (uint32_t)48u);
    r8_i_i13_i71 = (a0 + (int64_t)r11_i5_i_i_i61);
    STORE(uint8_t, r8_i_i13_i71, r9_i10_i70);
    r123_i14_i72 = (uint16_t)((uint32_t)r5_lhs_trunc_i7_i67 % (uint32_t)100u);
    v14 = (uint16_t)((uint32_t)r123_i14_i72 << 1);
    r13_i_i_i15_i73 = (uint64_t)v14;
    r17_i_i_i16_i74 = ((bytes)&static_12 + (int64_t)r13_i_i_i15_i73);
    LOAD(uint8_t, r19_i_i_i17_i75, r17_i_i_i16_i74);
    r25_i_i_i18_i76 = (r17_i_i_i16_i74 + 1);
    LOAD(uint8_t, r27_i_i_i19_i77, r25_i_i_i18_i76);
    r8_i_i_i20_i78 = (r8_i_i13_i71 + 1);
    STORE(uint8_t, r8_i_i_i20_i78, r19_i_i_i17_i75);
    r8_i4_i_i21_i79 = (r8_i_i13_i71 + 2);
    STORE(uint8_t, r8_i4_i_i21_i79, r27_i_i_i19_i77);
    r11_i5_i_i22_i80 = (uint64_t)(r14_i14 + UINT64_C(26));
    STORE(uint64_t, r5, r11_i5_i_i22_i80);
    r26_i81 = (uint32_t)(r0_sroa_6_4_copyload % 1000u);
    r28_i82 = r26_i81 == 0;
    if (r28_i82) { goto at__join_4; }
    { r26_i81_sink = r26_i81; r11_i5_i_i22_i80_sink = r11_i5_i_i22_i80; goto at__common_ret_sink_split; }
    at__join_4:;
    return;
}

static void caltool_form_asked_difference_e48cce946a840f3d(bytes a0, bytes a1, bytes a2)
{
    uint32_t r3_0_in_in, r3_0_in_in75, r1_sroa_0_0_copyload, r1_sroa_3_0_copyload, r1_sroa_5_0_copyload, r1_sroa_6_0_copyload, r1_sroa_7_0_copyload, r1_sroa_8_0_copyload, r2_sroa_0_0_copyload, r2_sroa_3_0_copyload, r2_sroa_4_0_copyload, r2_sroa_5_0_copyload, r2_sroa_6_0_copyload, r2_sroa_7_0_copyload, r2_sroa_8_0_copyload, v0, r1_sroa_4_0_copyload, r36, r6_0, r3, r5, r71, r5_i12, r71_i13, r6, r12, v1, v2, old, r91, r13, r3_0, r11, r14, r16, r183, r23, r30, r31, r34, r36_2, r29, v3, r3617, r6_018, r319, r520, r7121, r5_i1227, r71_i1328, r671, r1282, v4, v5, old34, r9138, r1339, r3_040, r1141, r1442, r1643, r18344, r2345, r3058, r3159, r3460, r3661, r2963, r18_i_i_i_i_i_i48_neg, r24_i_i_i_i_i_i49_neg, reass_sub, r26, v6, v7, r17, r27, r30_2, r27_i8, r30_i9, r3194, r42, r47, r5_2, r10;
    bytes r1_sroa_3_0_a1_sroa_idx, r1_sroa_5_0_a1_sroa_idx, r1_sroa_6_0_a1_sroa_idx, r1_sroa_7_0_a1_sroa_idx, r1_sroa_8_0_a1_sroa_idx, r2_sroa_3_0_a2_sroa_idx, r2_sroa_4_0_a2_sroa_idx, r2_sroa_5_0_a2_sroa_idx, r2_sroa_6_0_a2_sroa_idx, r2_sroa_7_0_a2_sroa_idx, r2_sroa_8_0_a2_sroa_idx, r1_sroa_4_0_a1_sroa_idx, r50, r0_sroa_11_8_r50_sroa_idx, r0_sroa_12_8_r50_sroa_idx;
    uint8_t or_cond, r32, r46, r58, r66, r8, r3_0_in, r75, spec_select, or_cond16, spec_select_i_old, r8_2, r12_2, or_cond_2, r19, or_cond3, r14_2, or_cond5, r25, r31_not, or_cond_i_i_i_not_not, or_cond12, r3216, r4625, r5830, r6632, r872, r3_0_in76, r7578, spec_select79, or_cond1680, spec_select_i_old35, r850, r1251, or_cond52, r1953, or_cond354, r1455, or_cond556, r2562, r31_not64, or_cond_i_i_i_not_not65, r12_3, r20, spec_select_2, r12_i5, r20_i6, spec_select_i7;
    uint64_t r1, r1_i10, r45, r1_i14, x, r122, r1_i1023, r4524, r1_i1429, v77, r1_2, r893, r29_2, r33, r7, r3695, r9, r1496;
    LOAD(uint32_t, r1_sroa_0_0_copyload, a1);
    r1_sroa_3_0_a1_sroa_idx = (a1 + 4);
    LOAD(uint32_t, r1_sroa_3_0_copyload, r1_sroa_3_0_a1_sroa_idx);
    r1_sroa_5_0_a1_sroa_idx = (a1 + 12);
    LOAD(uint32_t, r1_sroa_5_0_copyload, r1_sroa_5_0_a1_sroa_idx);
    r1_sroa_6_0_a1_sroa_idx = (a1 + 16);
    LOAD(uint32_t, r1_sroa_6_0_copyload, r1_sroa_6_0_a1_sroa_idx);
    r1_sroa_7_0_a1_sroa_idx = (a1 + 20);
    LOAD(uint32_t, r1_sroa_7_0_copyload, r1_sroa_7_0_a1_sroa_idx);
    r1_sroa_8_0_a1_sroa_idx = (a1 + 24);
    LOAD(uint32_t, r1_sroa_8_0_copyload, r1_sroa_8_0_a1_sroa_idx);
    LOAD(uint32_t, r2_sroa_0_0_copyload, a2);
    r2_sroa_3_0_a2_sroa_idx = (a2 + 4);
    LOAD(uint32_t, r2_sroa_3_0_copyload, r2_sroa_3_0_a2_sroa_idx);
    r2_sroa_4_0_a2_sroa_idx = (a2 + 8);
    LOAD(uint32_t, r2_sroa_4_0_copyload, r2_sroa_4_0_a2_sroa_idx);
    r2_sroa_5_0_a2_sroa_idx = (a2 + 12);
    LOAD(uint32_t, r2_sroa_5_0_copyload, r2_sroa_5_0_a2_sroa_idx);
    r2_sroa_6_0_a2_sroa_idx = (a2 + 16);
    LOAD(uint32_t, r2_sroa_6_0_copyload, r2_sroa_6_0_a2_sroa_idx);
    r2_sroa_7_0_a2_sroa_idx = (a2 + 20);
    LOAD(uint32_t, r2_sroa_7_0_copyload, r2_sroa_7_0_a2_sroa_idx);
    r2_sroa_8_0_a2_sroa_idx = (a2 + 24);
    LOAD(uint32_t, r2_sroa_8_0_copyload, r2_sroa_8_0_a2_sroa_idx);
    v0 = (uint32_t)(r1_sroa_3_0_copyload + 4294967283u);
    or_cond = v0 < 4294967284u;
    if (or_cond) { goto at__arm_2; }
    goto at__after_1;
    at__after_1:;
    r1_sroa_4_0_a1_sroa_idx = (a1 + 8);
    LOAD(uint32_t, r1_sroa_4_0_copyload, r1_sroa_4_0_a1_sroa_idx);
    r32 = r1_sroa_3_0_copyload > 2;
    r36 = (uint32_t)(r1_sroa_3_0_copyload | 12u);
    r6_0 = r32 ? r1_sroa_3_0_copyload : r36;
    r3 = (uint32_t)(r6_0 * 979u);
    r5 = (uint32_t)(r3 + 4294964377u);
    r71 = (uint32_t)(r5 >> 5);
    r1 = (uint64_t)r71;
    r1_i10 = (uint64_t)r1_sroa_4_0_copyload;
    r45 = (uint64_t)(r1 + r1_i10);
    r46 = r1_sroa_4_0_copyload == 0;
    if (r46) { goto at__arm_2; }
    goto at__else_18;
    at__else_18:;
    r5_i12 = (uint32_t)(r3 + 4294965356u);
    r71_i13 = (uint32_t)(r5_i12 >> 5);
    r1_i14 = (uint64_t)r71_i13;
    r58 = r45 > r1_i14;
    if (r58) { goto at__arm_2; }
    goto at__after_15;
    at__after_15:;
    r66 = r45 > UINT64_C(365);
    if (r66) { goto at__then_26; }
    goto at__after_25;
    at__then_26:;
    r6 = (uint32_t)((int32_t)r1_sroa_0_0_copyload % (int32_t)100u);
    r8 = r6 == 0;
    if (r8) { goto at__then_1; }
    goto at__else_2;
    at__then_1:;
    r12 = (uint32_t)((int32_t)r1_sroa_0_0_copyload % (int32_t)400u);
    {
    r3_0_in_in = r12;
    goto at__chrono_units_year_year_length_exit_i_i_i_i_i;
    }
    at__else_2:;
    v1 = (uint32_t)(r1_sroa_0_0_copyload & 3);
    {
    r3_0_in_in = v1;
    goto at__chrono_units_year_year_length_exit_i_i_i_i_i;
    }
    at__chrono_units_year_year_length_exit_i_i_i_i_i:;
    r3_0_in = r3_0_in_in == 0;
    x = r3_0_in ? UINT64_C(366) : UINT64_C(365);
    r75 = x >= r45;
    v2 = (uint32_t)(r1_sroa_0_0_copyload + 262143u);
    spec_select = v2 < 524286u;
    or_cond16 = (uint8_t)(((uint32_t)spec_select & (uint32_t)r75) & 1);
    if (or_cond16) { goto at__caltool_dates_answers_DateAnswersCommandAnswers_from_ymd_exit_i; }
    goto at__arm_2;
    at__after_25:;
    old = (uint32_t)(r1_sroa_0_0_copyload + 262143u);
    spec_select_i_old = old < 524286u;
    if (spec_select_i_old) { goto at__caltool_dates_answers_DateAnswersCommandAnswers_from_ymd_exit_i; }
    goto at__arm_2;
    at__caltool_dates_answers_DateAnswersCommandAnswers_from_ymd_exit_i:;
    r91 = (uint32_t)(r45);
    r13 = (uint32_t)r32;
    r3_0 = (uint32_t)(r1_sroa_0_0_copyload + 262399u);
    r11 = (uint32_t)(r3_0 + r13);
    r14 = (uint32_t)(r11 / 100u);
    r16 = (uint32_t)(r11 * 1461u);
    r183 = (uint32_t)(r16 >> 2);
    r23 = (uint32_t)(r11 / 400u);
    r8_2 = r1_sroa_5_0_copyload > 23u;
    r12_2 = r1_sroa_6_0_copyload > 59u;
    or_cond_2 = (uint8_t)(((uint32_t)r8_2 | (uint32_t)r12_2) & 1);
    r19 = r1_sroa_7_0_copyload > 59u;
    or_cond3 = (uint8_t)(((uint32_t)or_cond_2 | (uint32_t)r19) & 1);
    r14_2 = r1_sroa_8_0_copyload > 1999999999u;
    or_cond5 = (uint8_t)(((uint32_t)or_cond3 | (uint32_t)r14_2) & 1);
    if (or_cond5) { goto at__arm_2; }
    goto at__caltool_form_named_time_named_exit_i;
    at__caltool_form_named_time_named_exit_i:;
    r30 = (uint32_t)(r1_sroa_5_0_copyload * 3600u);
    r31 = (uint32_t)(r1_sroa_6_0_copyload * 60u);
    r34 = (uint32_t)(r31 + r30);
    r36_2 = (uint32_t)(r34 + r1_sroa_7_0_copyload);
    r25 = r1_sroa_8_0_copyload < 1000000000u;
    r29 = (uint32_t)(r36_2 % 60u);
    r31_not = r29 == 59u;
    or_cond_i_i_i_not_not = (uint8_t)(((uint32_t)r25 | (uint32_t)r31_not) & 1);
    if (or_cond_i_i_i_not_not) { goto at__arm_1; }
    goto at__arm_2;
    at__arm_1:;
    v3 = (uint32_t)(r2_sroa_3_0_copyload + 4294967283u);
    or_cond12 = v3 < 4294967284u;
    if (or_cond12) { goto at__arm_6; }
    goto at__after_113;
    at__after_113:;
    r3216 = r2_sroa_3_0_copyload > 2;
    r3617 = (uint32_t)(r2_sroa_3_0_copyload | 12u);
    r6_018 = r3216 ? r2_sroa_3_0_copyload : r3617;
    r319 = (uint32_t)(r6_018 * 979u);
    r520 = (uint32_t)(r319 + 4294964377u);
    r7121 = (uint32_t)(r520 >> 5);
    r122 = (uint64_t)r7121;
    r1_i1023 = (uint64_t)r2_sroa_4_0_copyload;
    r4524 = (uint64_t)(r122 + r1_i1023);
    r4625 = r2_sroa_4_0_copyload == 0;
    if (r4625) { goto at__arm_6; }
    goto at__else_1826;
    at__else_1826:;
    r5_i1227 = (uint32_t)(r319 + 4294965356u);
    r71_i1328 = (uint32_t)(r5_i1227 >> 5);
    r1_i1429 = (uint64_t)r71_i1328;
    r5830 = r4524 > r1_i1429;
    if (r5830) { goto at__arm_6; }
    goto at__after_1531;
    at__after_1531:;
    r6632 = r4524 > UINT64_C(365);
    if (r6632) { goto at__then_2670; }
    goto at__after_2533;
    at__then_2670:;
    r671 = (uint32_t)((int32_t)r2_sroa_0_0_copyload % (int32_t)100u);
    r872 = r671 == 0;
    if (r872) { goto at__then_181; }
    goto at__else_273;
    at__then_181:;
    r1282 = (uint32_t)((int32_t)r2_sroa_0_0_copyload % (int32_t)400u);
    {
    r3_0_in_in75 = r1282;
    goto at__chrono_units_year_year_length_exit_i_i_i_i_i74;
    }
    at__else_273:;
    v4 = (uint32_t)(r2_sroa_0_0_copyload & 3);
    {
    r3_0_in_in75 = v4;
    goto at__chrono_units_year_year_length_exit_i_i_i_i_i74;
    }
    at__chrono_units_year_year_length_exit_i_i_i_i_i74:;
    r3_0_in76 = r3_0_in_in75 == 0;
    v77 = r3_0_in76 ? UINT64_C(366) : UINT64_C(365);
    r7578 = v77 >= r4524;
    v5 = (uint32_t)(r2_sroa_0_0_copyload + 262143u);
    spec_select79 = v5 < 524286u;
    or_cond1680 = (uint8_t)(((uint32_t)spec_select79 & (uint32_t)r7578) & 1);
    if (or_cond1680) { goto at__caltool_dates_answers_DateAnswersCommandAnswers_from_ymd_exit_i37; }
    goto at__arm_6;
    at__after_2533:;
    old34 = (uint32_t)(r2_sroa_0_0_copyload + 262143u);
    spec_select_i_old35 = old34 < 524286u;
    if (spec_select_i_old35) { goto at__caltool_dates_answers_DateAnswersCommandAnswers_from_ymd_exit_i37; }
    goto at__arm_6;
    at__caltool_dates_answers_DateAnswersCommandAnswers_from_ymd_exit_i37:;
    r9138 = (uint32_t)(r4524);
    r1339 = (uint32_t)r3216;
    r3_040 = (uint32_t)(r2_sroa_0_0_copyload + 262399u);
    r1141 = (uint32_t)(r3_040 + r1339);
    r1442 = (uint32_t)(r1141 / 100u);
    r1643 = (uint32_t)(r1141 * 1461u);
    r18344 = (uint32_t)(r1643 >> 2);
    r2345 = (uint32_t)(r1141 / 400u);
    r850 = r2_sroa_5_0_copyload > 23u;
    r1251 = r2_sroa_6_0_copyload > 59u;
    or_cond52 = (uint8_t)(((uint32_t)r850 | (uint32_t)r1251) & 1);
    r1953 = r2_sroa_7_0_copyload > 59u;
    or_cond354 = (uint8_t)(((uint32_t)or_cond52 | (uint32_t)r1953) & 1);
    r1455 = r2_sroa_8_0_copyload > 1999999999u;
    or_cond556 = (uint8_t)(((uint32_t)or_cond354 | (uint32_t)r1455) & 1);
    if (or_cond556) { goto at__arm_6; }
    goto at__caltool_form_named_time_named_exit_i57;
    at__caltool_form_named_time_named_exit_i57:;
    r3058 = (uint32_t)(r2_sroa_5_0_copyload * 3600u);
    r3159 = (uint32_t)(r2_sroa_6_0_copyload * 60u);
    r3460 = (uint32_t)(r3159 + r3058);
    r3661 = (uint32_t)(r3460 + r2_sroa_7_0_copyload);
    r2562 = r2_sroa_8_0_copyload < 1000000000u;
    r2963 = (uint32_t)(r3661 % 60u);
    r31_not64 = r2963 == 59u;
    or_cond_i_i_i_not_not65 = (uint8_t)(((uint32_t)r2562 | (uint32_t)r31_not64) & 1);
    if (or_cond_i_i_i_not_not65) { goto at__arm_5; }
    goto at__arm_6;
    at__common_ret:;
    return;
    at__arm_2:;
    memset(a0, 0, UINT64_C(24));
    goto at__common_ret;
    at__arm_5:;
    r18_i_i_i_i_i_i48_neg = (uint32_t)(r23 - r14);
    r24_i_i_i_i_i_i49_neg = (uint32_t)(r18_i_i_i_i_i_i48_neg + r183);
    reass_sub = (uint32_t)(r24_i_i_i_i_i_i49_neg + r91);
    r26 = (uint32_t)(reass_sub + r1442);
    v6 = (uint32_t)(r2345 + r18344);
    v7 = (uint32_t)(v6 + r9138);
    r17 = (uint32_t)(r26 - v7);
    r1_2 = (uint64_t)((uint64_t)(int32_t)r17);
    r893 = (uint64_t)(r1_2 * UINT64_C(86400));
    r12_3 = r2_sroa_8_0_copyload > 999999999u;
    r20 = r3661 < r36_2;
    spec_select_2 = (uint8_t)(((uint32_t)r12_3 & (uint32_t)r20) & 1);
    r27 = (uint32_t)spec_select_2;
    r30_2 = (uint32_t)(r36_2 + r27);
    r12_i5 = r1_sroa_8_0_copyload > 999999999u;
    r20_i6 = r36_2 < r3661;
    spec_select_i7 = (uint8_t)(((uint32_t)r12_i5 & (uint32_t)r20_i6) & 1);
    r27_i8 = (uint32_t)spec_select_i7;
    r29_2 = (uint64_t)r30_2;
    r30_i9 = (uint32_t)(r3661 + 2);
    r3194 = (uint32_t)(r30_i9 + r27_i8);
    r33 = (uint64_t)r3194;
    r42 = (uint32_t)(r1_sroa_8_0_copyload + 2000000000u);
    r47 = (uint32_t)(r42 - r2_sroa_8_0_copyload);
    r5_2 = (uint32_t)(r47 / 1000000000u);
    r7 = (uint64_t)r5_2;
    r10 = (uint32_t)(r47 % 1000000000u);
    r3695 = (uint64_t)(r893 | r7);
    r9 = (uint64_t)(r3695 - r33);
    r1496 = (uint64_t)(r9 + r29_2);
    STORE(uint64_t, a0, UINT64_C(1));
    r50 = (a0 + 8);
    STORE(uint64_t, r50, r1496);
    r0_sroa_11_8_r50_sroa_idx = (a0 + 16);
    STORE(uint32_t, r0_sroa_11_8_r50_sroa_idx, r10);
    r0_sroa_12_8_r50_sroa_idx = (a0 + 20);
    STORE(uint32_t, r0_sroa_12_8_r50_sroa_idx, 0);
    goto at__common_ret;
    at__arm_6:;
    memset(a0, 0, UINT64_C(24));
    goto at__common_ret;
}

static void caltool_form_texts_push_distance_65536(bytes a0, bytes a1)
{
    uint64_t r0_04, r0_049, r0_sroa_0_0_i_pn, r0_04_2, accumulator_tr5, accumulator_tr_lcssa_i_i_neg5, r5_i3, r0_sroa_3_sroa_0_0_copyload, r11, r8, r10_2, r30, r16, r11_i3, r83, r104, r3013, r167, r15, r21_2, r0_sroa_0_0, r6_2, a0_0_val_lobit, r14, r8_2, r10_4, r30_2, r16_2, r5_i3_pre, r13_2, r13_i_i_i11, r13_i_i_i27, r11_i5_i_i34, r15_i_i_i4, r15_i_i_neg, r5_i37, r11_i4;
    uint32_t r0_sroa_4_0_i_pn, a0_tr6, r0_sroa_3_sroa_3_0_copyload, r24_2, r0_sroa_4_0, r14_i2, r17_2, r19_2, r22, r43, r11_i35, r4_i36;
    uint8_t r1, v0, r11_2, r26, exitcond_not, r6, r13, r115, r2612, exitcond_not14, r7, r10_3, r11_3, r26_2, exitcond_not_2, r9_i1, r7_2, r9_2, r19, r27, r7_i5, r9_i6, r19_i_i_i13, r27_i_i_i15, r7_i21, r9_i22, r19_i_i_i29, r27_i_i_i31, r6_not4, r6_not;
    bytes r4, r0_sroa_3_sroa_3_0_r4_sroa_idx, r10, r21, r20, r24, r10_i2, r212, r2010, r2411, r5, r9, r21_3, r20_2, r24_3, r8_3, r8_4, r17, r25, r8_5, r8_i4, r8_i_i9, r17_i_i_i12, r25_i_i_i14, r8_i_i_i16, r8_i4_i_i17, r8_i_i25, r17_i_i_i28, r25_i_i_i30, r8_i_i_i32, r8_i4_i_i33, r8_6;
    uint16_t r5_lhs_trunc, r52, r123, v1, r5_lhs_trunc_i3, r52_i4, r123_i10, v2, r5_lhs_trunc_i19, r52_i20, r123_i26, v3;
    LOAD(uint8_t, r1, a1);
    r4 = (a1 + 8);
    LOAD(uint64_t, r0_sroa_3_sroa_0_0_copyload, r4);
    r0_sroa_3_sroa_3_0_r4_sroa_idx = (a1 + 16);
    LOAD(uint32_t, r0_sroa_3_sroa_3_0_copyload, r0_sroa_3_sroa_3_0_r4_sroa_idx);
    v0 = r1 == 0;
    if (v0) { goto at__arm_1; }
    goto at__arm_2;
    at__arm_1:;
    r10 = (a0 + 65536);
    LOAD(uint64_t, r11, r10);
    r21 = (a0 + (int64_t)r11);
    r8 = (uint64_t)((uintptr_t)r21);
    r10_2 = (uint64_t)(r8 - (uint64_t)(uintptr_t)((bytes)&static_10));
    r11_2 = r10_2 < UINT64_C(4);
    if (r11_2) { { r0_04 = UINT64_C(0); goto at__join_7; } }
    goto at__apart_2;
    at__apart_2:;
    STORE(uint32_t, r21, 1701736302u);
    goto at__caltool_form_texts_push_none_65536_exit;
    at__join_7:;
    r20 = (r21 + (int64_t)r0_04);
    r24 = ((bytes)&static_10 + (int64_t)r0_04);
    LOAD(uint8_t, r26, r24);
    STORE(uint8_t, r20, r26);
    r30 = (uint64_t)(r0_04 + UINT64_C(1));
    exitcond_not = r30 == UINT64_C(4);
    if (exitcond_not) { goto at__caltool_form_texts_push_none_65536_exit; }
    { r0_04 = r30; goto at__join_7; }
    at__caltool_form_texts_push_none_65536_exit:;
    r16 = (uint64_t)(r11 + UINT64_C(4));
    STORE(uint64_t, r10, r16);
    goto at__join_4;
    at__arm_2:;
    r6 = r0_sroa_3_sroa_0_0_copyload == UINT64_C(0);
    if (r6) { goto at__chrono_clock_time_delta_TimeDelta_is_zero_exit_i; }
    goto at__join_3;
    at__chrono_clock_time_delta_TimeDelta_is_zero_exit_i:;
    r13 = r0_sroa_3_sroa_3_0_copyload == 0;
    if (r13) { goto at__then_1; }
    { r0_sroa_0_0_i_pn = UINT64_C(0); r0_sroa_4_0_i_pn = r0_sroa_3_sroa_3_0_copyload; goto at__chrono_clock_time_delta_TimeDelta_sign_and_size_exit_i; }
    at__then_1:;
    r10_i2 = (a0 + 65536);
    LOAD(uint64_t, r11_i3, r10_i2);
    r212 = (a0 + (int64_t)r11_i3);
    r83 = (uint64_t)((uintptr_t)r212);
    r104 = (uint64_t)(r83 - (uint64_t)(uintptr_t)((bytes)&static_14));
    r115 = r104 < UINT64_C(3);
    if (r115) { { r0_049 = UINT64_C(0); goto at__join_78; } }
    goto at__apart_26;
    at__apart_26:;
    memcpy(r212, (bytes)&static_14, UINT64_C(3));
    goto at__chrono_text_text_Text_push_text_65536_exit_i;
    at__join_78:;
    r2010 = (r212 + (int64_t)r0_049);
    r2411 = ((bytes)&static_14 + (int64_t)r0_049);
    LOAD(uint8_t, r2612, r2411);
    STORE(uint8_t, r2010, r2612);
    r3013 = (uint64_t)(r0_049 + UINT64_C(1));
    exitcond_not14 = r3013 == UINT64_C(3);
    if (exitcond_not14) { goto at__chrono_text_text_Text_push_text_65536_exit_i; }
    { r0_049 = r3013; goto at__join_78; }
    at__chrono_text_text_Text_push_text_65536_exit_i:;
    r167 = (uint64_t)(r11_i3 + UINT64_C(3));
    STORE(uint64_t, r10_i2, r167);
    goto at__join_4;
    at__join_3:;
    r7 = (int64_t)r0_sroa_3_sroa_0_0_copyload < (int64_t)UINT64_C(0);
    if (r7) { goto at__then_1_2; }
    { r0_sroa_0_0_i_pn = r0_sroa_3_sroa_0_0_copyload; r0_sroa_4_0_i_pn = r0_sroa_3_sroa_3_0_copyload; goto at__chrono_clock_time_delta_TimeDelta_sign_and_size_exit_i; }
    at__then_1_2:;
    r10_3 = r0_sroa_3_sroa_3_0_copyload == 0;
    r15 = (uint64_t)(UINT64_C(0) - r0_sroa_3_sroa_0_0_copyload);
    r21_2 = (uint64_t)(r0_sroa_3_sroa_0_0_copyload ^ UINT64_C(18446744073709551615));
    r24_2 = (uint32_t)(1000000000u - r0_sroa_3_sroa_3_0_copyload);
    r0_sroa_4_0 = r10_3 ? 0 : r24_2;
    r0_sroa_0_0 = r10_3 ? r15 : r21_2;
    {
    r0_sroa_0_0_i_pn = r0_sroa_0_0;
    r0_sroa_4_0_i_pn = r0_sroa_4_0;
    goto at__chrono_clock_time_delta_TimeDelta_sign_and_size_exit_i;
    }
    at__chrono_clock_time_delta_TimeDelta_sign_and_size_exit_i:;
    r5 = (a0 + 65536);
    LOAD(uint64_t, r6_2, r5);
    r9 = (a0 + (int64_t)r6_2);
    STORE(uint8_t, r9, 45u);
    a0_0_val_lobit = (uint64_t)(r0_sroa_3_sroa_0_0_copyload >> (UINT64_C(63) & 63u));
    r14 = (uint64_t)(r6_2 + a0_0_val_lobit);
    r21_3 = (a0 + (int64_t)r14);
    r8_2 = (uint64_t)((uintptr_t)r21_3);
    r10_4 = (uint64_t)(r8_2 - (uint64_t)(uintptr_t)((bytes)&static_15));
    r11_3 = r10_4 < UINT64_C(2);
    if (r11_3) { { r0_04_2 = UINT64_C(0); goto at__join_7_2; } }
    goto at__apart_2_2;
    at__apart_2_2:;
    STORE(uint16_t, r21_3, 21584u);
    goto at__chrono_text_text_Text_push_text_65536_exit_i_i;
    at__join_7_2:;
    r20_2 = (r21_3 + (int64_t)r0_04_2);
    r24_3 = ((bytes)&static_15 + (int64_t)r0_04_2);
    LOAD(uint8_t, r26_2, r24_3);
    STORE(uint8_t, r20_2, r26_2);
    r30_2 = (uint64_t)(r0_04_2 + UINT64_C(1));
    exitcond_not_2 = r30_2 == UINT64_C(2);
    if (exitcond_not_2) { goto at__chrono_text_text_Text_push_text_65536_exit_i_i; }
    { r0_04_2 = r30_2; goto at__join_7_2; }
    at__chrono_text_text_Text_push_text_65536_exit_i_i:;
    r16_2 = (uint64_t)(r14 + UINT64_C(2));
    STORE(uint64_t, r5, r16_2);
    chrono_text_text_Text_push_natural_65536(a0, r0_sroa_0_0_i_pn);
    r9_i1 = r0_sroa_4_0_i_pn == 0;
    LOAD(uint64_t, r5_i3_pre, r5);
    if (r9_i1) { { r5_i3 = r5_i3_pre; goto at__chrono_text_text_Text_push_seconds_65536_exit_i; } }
    goto at__join_3_2;
    at__join_3_2:;
    r8_3 = (a0 + (int64_t)r5_i3_pre);
    STORE(uint8_t, r8_3, 46u);
    r14_i2 = (uint32_t)(r0_sroa_4_0_i_pn / 1000000u);
    r5_lhs_trunc = (uint16_t)(r14_i2);
    r52 = (uint16_t)((uint32_t)r5_lhs_trunc / (uint32_t)100u);
    r7_2 = (uint8_t)(r52);
    r9_2 = (uint8_t)((uint32_t)r7_2 + (uint32_t)48u);
    r8_4 = (r8_3 + 1);
    STORE(uint8_t, r8_4, r9_2);
    r123 = (uint16_t)((uint32_t)r5_lhs_trunc % (uint32_t)100u);
    v1 = (uint16_t)((uint32_t)r123 << 1);
    r13_2 = (uint64_t)v1;
    r17 = ((bytes)&static_12 + (int64_t)r13_2);
    LOAD(uint8_t, r19, r17);
    r25 = (r17 + 1);
    LOAD(uint8_t, r27, r25);
    r8_5 = (r8_3 + 2);
    STORE(uint8_t, r8_5, r19);
    r8_i4 = (r8_3 + 3);
    STORE(uint8_t, r8_i4, r27);
    r17_2 = (uint32_t)(r0_sroa_4_0_i_pn / 1000u);
    r19_2 = (uint32_t)(r17_2 % 1000u);
    r5_lhs_trunc_i3 = (uint16_t)(r19_2);
    r52_i4 = (uint16_t)((uint32_t)r5_lhs_trunc_i3 / (uint32_t)100u);
    r7_i5 = (uint8_t)(r52_i4);
    r9_i6 = (uint8_t)((uint32_t)r7_i5 | (uint32_t)48u);
    r8_i_i9 = (r8_3 + 4);
    STORE(uint8_t, r8_i_i9, r9_i6);
    r123_i10 = (uint16_t)((uint32_t)r5_lhs_trunc_i3 % (uint32_t)100u);
    v2 = (uint16_t)((uint32_t)r123_i10 << 1);
    r13_i_i_i11 = (uint64_t)v2;
    r17_i_i_i12 = ((bytes)&static_12 + (int64_t)r13_i_i_i11);
    LOAD(uint8_t, r19_i_i_i13, r17_i_i_i12);
    r25_i_i_i14 = (r17_i_i_i12 + 1);
    LOAD(uint8_t, r27_i_i_i15, r25_i_i_i14);
    r8_i_i_i16 = (r8_3 + 5);
    STORE(uint8_t, r8_i_i_i16, r19_i_i_i13);
    r8_i4_i_i17 = (r8_3 + 6);
    STORE(uint8_t, r8_i4_i_i17, r27_i_i_i15);
    r22 = (uint32_t)(r0_sroa_4_0_i_pn % 1000u);
    r5_lhs_trunc_i19 = (uint16_t)(r22);
    r52_i20 = (uint16_t)((uint32_t)r5_lhs_trunc_i19 / (uint32_t)100u);
    r7_i21 = (uint8_t)(r52_i20);
    r9_i22 = (uint8_t)((uint32_t)r7_i21 | (uint32_t)48u);
    r8_i_i25 = (r8_3 + 7);
    STORE(uint8_t, r8_i_i25, r9_i22);
    r123_i26 = (uint16_t)((uint32_t)r5_lhs_trunc_i19 % (uint32_t)100u);
    v3 = (uint16_t)((uint32_t)r123_i26 << 1);
    r13_i_i_i27 = (uint64_t)v3;
    r17_i_i_i28 = ((bytes)&static_12 + (int64_t)r13_i_i_i27);
    LOAD(uint8_t, r19_i_i_i29, r17_i_i_i28);
    r25_i_i_i30 = (r17_i_i_i28 + 1);
    LOAD(uint8_t, r27_i_i_i31, r25_i_i_i30);
    r8_i_i_i32 = (r8_3 + 8);
    STORE(uint8_t, r8_i_i_i32, r19_i_i_i29);
    r8_i4_i_i33 = (r8_3 + 9);
    STORE(uint8_t, r8_i4_i_i33, r27_i_i_i31);
    r11_i5_i_i34 = (uint64_t)(r5_i3_pre + UINT64_C(10));
    r43 = (uint32_t)(r0_sroa_4_0_i_pn % 10u);
    r6_not4 = r43 == 0;
    if (r6_not4) { { a0_tr6 = r0_sroa_4_0_i_pn; accumulator_tr5 = UINT64_C(0); goto at__join_3_3; } }
    { accumulator_tr_lcssa_i_i_neg5 = UINT64_C(0); goto at__chrono_text_duration_text_zeros_behind_exit_i_i_i; }
    at__join_3_3:;
    r11_i35 = (uint32_t)(a0_tr6 / 10u);
    r15_i_i_i4 = (uint64_t)(accumulator_tr5 + UINT64_C(1));
    r4_i36 = (uint32_t)(r11_i35 % 10u);
    r6_not = r4_i36 == 0;
    if (r6_not) { { a0_tr6 = r11_i35; accumulator_tr5 = r15_i_i_i4; goto at__join_3_3; } }
    goto at__chrono_text_duration_text_zeros_behind_exit_i_loopexit_i_i;
    at__chrono_text_duration_text_zeros_behind_exit_i_loopexit_i_i:;
    r15_i_i_neg = (uint64_t)(accumulator_tr5 ^ UINT64_C(18446744073709551615));
    {
    accumulator_tr_lcssa_i_i_neg5 = r15_i_i_neg;
    goto at__chrono_text_duration_text_zeros_behind_exit_i_i_i;
    }
    at__chrono_text_duration_text_zeros_behind_exit_i_i_i:;
    r5_i37 = (uint64_t)(r11_i5_i_i34 + accumulator_tr_lcssa_i_i_neg5);
    {
    r5_i3 = r5_i37;
    goto at__chrono_text_text_Text_push_seconds_65536_exit_i;
    }
    at__chrono_text_text_Text_push_seconds_65536_exit_i:;
    r8_6 = (a0 + (int64_t)r5_i3);
    STORE(uint8_t, r8_6, 83u);
    r11_i4 = (uint64_t)(r5_i3 + UINT64_C(1));
    STORE(uint64_t, r5, r11_i4);
    goto at__join_4;
    at__join_4:;
    return;
}

static void chrono_text_text_Text_push_natural_65536(bytes a0, uint64_t a1)
{
    uint8_t r9, r198, r2710, r1914, r2716, r30, r36, r42, r48, r1937, r2739, r1944, r2746, r34, r40, r46, r19_2, r27, r19_i_i5, r27_i_i7, r1970, r2772, r19_i_i580, r27_i_i782;
    uint32_t r13, r3, r13_2, r21, r23, r27_2;
    uint16_t r12_i_lhs_trunc, r1286, v0, r2187, v1, r15_i4_lhs_trunc, r15488, v2, r25589, v3, r3_lhs_trunc, r313, v4, r614, v5, r3_lhs_trunc66, r31367, v6, r61477, v8;
    uint64_t r136, r1312, r6, r1, r14, r122, r1423, r127, r1428, r132, r1433, r1335, r1343, r152, r1453, r157, r1458, r162, r1463, r1165, r16, r19, r13_3, r5_2, r13_i_i3, r1368, r13_i_i378, r11_i5_i1285;
    bytes r177, r259, r1713, r2515, r5, r9_2, r921, r926, r931, r1736, r2538, r17, r2545, r951, r956, r961, r8, r17_2, r25, r4, r8_2, r8_i4, r17_i_i4, r25_i_i6, r8_i_i10, r8_i4_i11, r1769, r2571, v7, r875, r8_i476, r17_i_i479, r25_i_i681, r8_i_i1083, r8_i4_i1184;
    r9 = a1 < UINT64_C(100000000);
    if (r9) { goto at__then_1; }
    goto at__join_3;
    at__common_ret:;
    return;
    at__then_1:;
    r13 = (uint32_t)(a1);
    r3 = (uint32_t)(r13 / 10000u);
    r12_i_lhs_trunc = (uint16_t)(r3);
    r1286 = (uint16_t)((uint32_t)r12_i_lhs_trunc / (uint32_t)100u);
    v0 = (uint16_t)((uint32_t)r1286 << 1);
    r136 = (uint64_t)v0;
    r177 = ((bytes)&static_12 + (int64_t)r136);
    LOAD(uint8_t, r198, r177);
    r259 = (r177 + 1);
    LOAD(uint8_t, r2710, r259);
    r2187 = (uint16_t)((uint32_t)r12_i_lhs_trunc % (uint32_t)100u);
    v1 = (uint16_t)((uint32_t)r2187 << 1);
    r1312 = (uint64_t)v1;
    r1713 = ((bytes)&static_12 + (int64_t)r1312);
    LOAD(uint8_t, r1914, r1713);
    r2515 = (r1713 + 1);
    LOAD(uint8_t, r2716, r2515);
    r30 = a1 > UINT64_C(9999999);
    r5 = (a0 + 65536);
    LOAD(uint64_t, r6, r5);
    r9_2 = (a0 + (int64_t)r6);
    STORE(uint8_t, r9_2, r198);
    r1 = (uint64_t)r30;
    r14 = (uint64_t)(r6 + r1);
    r36 = a1 > UINT64_C(999999);
    r921 = (a0 + (int64_t)r14);
    STORE(uint8_t, r921, r2710);
    r122 = (uint64_t)r36;
    r1423 = (uint64_t)(r14 + r122);
    r42 = a1 > UINT64_C(99999);
    r926 = (a0 + (int64_t)r1423);
    STORE(uint8_t, r926, r1914);
    r127 = (uint64_t)r42;
    r1428 = (uint64_t)(r1423 + r127);
    r48 = a1 > UINT64_C(9999);
    r931 = (a0 + (int64_t)r1428);
    STORE(uint8_t, r931, r2716);
    r132 = (uint64_t)r48;
    r1433 = (uint64_t)(r1428 + r132);
    r13_2 = (uint32_t)(r13 % 10000u);
    r15_i4_lhs_trunc = (uint16_t)(r13_2);
    r15488 = (uint16_t)((uint32_t)r15_i4_lhs_trunc / (uint32_t)100u);
    v2 = (uint16_t)((uint32_t)r15488 << 1);
    r1335 = (uint64_t)v2;
    r1736 = ((bytes)&static_12 + (int64_t)r1335);
    LOAD(uint8_t, r1937, r1736);
    r2538 = (r1736 + 1);
    LOAD(uint8_t, r2739, r2538);
    r25589 = (uint16_t)((uint32_t)r15_i4_lhs_trunc % (uint32_t)100u);
    v3 = (uint16_t)((uint32_t)r25589 << 1);
    r1343 = (uint64_t)v3;
    r17 = ((bytes)&static_12 + (int64_t)r1343);
    LOAD(uint8_t, r1944, r17);
    r2545 = (r17 + 1);
    LOAD(uint8_t, r2746, r2545);
    r34 = a1 > UINT64_C(999);
    r951 = (a0 + (int64_t)r1433);
    STORE(uint8_t, r951, r1937);
    r152 = (uint64_t)r34;
    r1453 = (uint64_t)(r1433 + r152);
    r40 = a1 > UINT64_C(99);
    r956 = (a0 + (int64_t)r1453);
    STORE(uint8_t, r956, r2739);
    r157 = (uint64_t)r40;
    r1458 = (uint64_t)(r1453 + r157);
    r46 = a1 > UINT64_C(9);
    r961 = (a0 + (int64_t)r1458);
    STORE(uint8_t, r961, r1944);
    r162 = (uint64_t)r46;
    r1463 = (uint64_t)(r1458 + r162);
    r8 = (a0 + (int64_t)r1463);
    STORE(uint8_t, r8, r2746);
    r1165 = (uint64_t)(r1463 + UINT64_C(1));
    STORE(uint64_t, r5, r1165);
    goto at__common_ret;
    at__join_3:;
    r16 = (uint64_t)(a1 / UINT64_C(100000000));
    chrono_text_text_Text_push_natural_65536(a0, r16);
    r19 = (uint64_t)(a1 % UINT64_C(100000000));
    r21 = (uint32_t)(r19);
    r23 = (uint32_t)(r21 / 10000u);
    r3_lhs_trunc = (uint16_t)(r23);
    r313 = (uint16_t)((uint32_t)r3_lhs_trunc / (uint32_t)100u);
    v4 = (uint16_t)((uint32_t)r313 << 1);
    r13_3 = (uint64_t)v4;
    r17_2 = ((bytes)&static_12 + (int64_t)r13_3);
    LOAD(uint8_t, r19_2, r17_2);
    r25 = (r17_2 + 1);
    LOAD(uint8_t, r27, r25);
    r4 = (a0 + 65536);
    LOAD(uint64_t, r5_2, r4);
    r8_2 = (a0 + (int64_t)r5_2);
    STORE(uint8_t, r8_2, r19_2);
    r8_i4 = (r8_2 + 1);
    STORE(uint8_t, r8_i4, r27);
    r614 = (uint16_t)((uint32_t)r3_lhs_trunc % (uint32_t)100u);
    v5 = (uint16_t)((uint32_t)r614 << 1);
    r13_i_i3 = (uint64_t)v5;
    r17_i_i4 = ((bytes)&static_12 + (int64_t)r13_i_i3);
    LOAD(uint8_t, r19_i_i5, r17_i_i4);
    r25_i_i6 = (r17_i_i4 + 1);
    LOAD(uint8_t, r27_i_i7, r25_i_i6);
    r8_i_i10 = (r8_2 + 2);
    STORE(uint8_t, r8_i_i10, r19_i_i5);
    r8_i4_i11 = (r8_2 + 3);
    STORE(uint8_t, r8_i4_i11, r27_i_i7);
    r27_2 = (uint32_t)(r21 % 10000u);
    r3_lhs_trunc66 = (uint16_t)(r27_2);
    r31367 = (uint16_t)((uint32_t)r3_lhs_trunc66 / (uint32_t)100u);
    v6 = (uint16_t)((uint32_t)r31367 << 1);
    r1368 = (uint64_t)v6;
    r1769 = ((bytes)&static_12 + (int64_t)r1368);
    LOAD(uint8_t, r1970, r1769);
    r2571 = (r1769 + 1);
    LOAD(uint8_t, r2772, r2571);
    v7 = (a0 + (int64_t)r5_2);
    r875 = (v7 + 4);
    STORE(uint8_t, r875, r1970);
    r8_i476 = (v7 + 5);
    STORE(uint8_t, r8_i476, r2772);
    r61477 = (uint16_t)((uint32_t)r3_lhs_trunc66 % (uint32_t)100u);
    v8 = (uint16_t)((uint32_t)r61477 << 1);
    r13_i_i378 = (uint64_t)v8;
    r17_i_i479 = ((bytes)&static_12 + (int64_t)r13_i_i378);
    LOAD(uint8_t, r19_i_i580, r17_i_i479);
    r25_i_i681 = (r17_i_i479 + 1);
    LOAD(uint8_t, r27_i_i782, r25_i_i681);
    r8_i_i1083 = (v7 + 6);
    STORE(uint8_t, r8_i_i1083, r19_i_i580);
    r8_i4_i1184 = (v7 + 7);
    STORE(uint8_t, r8_i4_i1184, r27_i_i782);
    r11_i5_i1285 = (uint64_t)(r5_2 + UINT64_C(8));
    STORE(uint64_t, r4, r11_i5_i1285);
    goto at__common_ret;
}

static t_struct_i8_i32_end caltool_form_asked_years_since_e48cce946a840f3d(bytes a0, bytes a1)
{
    uint32_t r3_0_in_in, r3_0_in_in62, r0_sroa_5_0, r1_sroa_0_0_copyload, r1_sroa_4_0_copyload, r1_sroa_6_0_copyload, r2_sroa_0_0_copyload, r2_sroa_4_0_copyload, r2_sroa_6_0_copyload, v0, r36, r6_0, r3, r5, r71, r5_i12, r71_i13, r6, r12, v1, v2, old, v3, r3623, r6_024, r325, r526, r7127, r5_i1233, r71_i1334, r658, r1269, v4, v5, old40, r29, r32_2, r34, r37, r1_i_neg3, neg, r50_2, r50;
    uint8_t r0_sroa_0_sroa_0_0, or_cond, r32, r46, r58, r66, r8, r3_0_in, r75, spec_select, or_cond16, spec_select_i_old, or_cond20, r3222, r4631, r5836, r6638, r859, r3_0_in63, r7565, spec_select66, or_cond1667, spec_select_i_old41, r40, r52, x;
    bytes r1_sroa_4_0_a0_sroa_idx, r1_sroa_6_0_a0_sroa_idx, r2_sroa_4_0_a1_sroa_idx, r2_sroa_6_0_a1_sroa_idx;
    uint64_t r1, r1_i10, r45, r1_i14, x_2, r128, r1_i1029, r4530, r1_i1435, v64;
    t_struct_i8_i32_end r73_fca_0_insert, r73_fca_1_insert;
    LOAD(uint32_t, r1_sroa_0_0_copyload, a0);
    r1_sroa_4_0_a0_sroa_idx = (a0 + 4);
    LOAD(uint32_t, r1_sroa_4_0_copyload, r1_sroa_4_0_a0_sroa_idx);
    r1_sroa_6_0_a0_sroa_idx = (a0 + 8);
    LOAD(uint32_t, r1_sroa_6_0_copyload, r1_sroa_6_0_a0_sroa_idx);
    LOAD(uint32_t, r2_sroa_0_0_copyload, a1);
    r2_sroa_4_0_a1_sroa_idx = (a1 + 4);
    LOAD(uint32_t, r2_sroa_4_0_copyload, r2_sroa_4_0_a1_sroa_idx);
    r2_sroa_6_0_a1_sroa_idx = (a1 + 8);
    LOAD(uint32_t, r2_sroa_6_0_copyload, r2_sroa_6_0_a1_sroa_idx);
    v0 = (uint32_t)(r1_sroa_4_0_copyload + 4294967283u);
    or_cond = v0 < 4294967284u;
    if (or_cond) { { r0_sroa_0_sroa_0_0 = 0; r0_sroa_5_0 = 0; goto at__return_5; } }
    goto at__after_1;
    at__after_1:;
    r32 = r1_sroa_4_0_copyload > 2;
    r36 = (uint32_t)(r1_sroa_4_0_copyload | 12u);
    r6_0 = r32 ? r1_sroa_4_0_copyload : r36;
    r3 = (uint32_t)(r6_0 * 979u);
    r5 = (uint32_t)(r3 + 4294964377u);
    r71 = (uint32_t)(r5 >> 5);
    r1 = (uint64_t)r71;
    r1_i10 = (uint64_t)r1_sroa_6_0_copyload;
    r45 = (uint64_t)(r1 + r1_i10);
    r46 = r1_sroa_6_0_copyload == 0;
    if (r46) { { r0_sroa_0_sroa_0_0 = 0; r0_sroa_5_0 = 0; goto at__return_5; } }
    goto at__else_18;
    at__else_18:;
    r5_i12 = (uint32_t)(r3 + 4294965356u);
    r71_i13 = (uint32_t)(r5_i12 >> 5);
    r1_i14 = (uint64_t)r71_i13;
    r58 = r45 > r1_i14;
    if (r58) { { r0_sroa_0_sroa_0_0 = 0; r0_sroa_5_0 = 0; goto at__return_5; } }
    goto at__after_15;
    at__after_15:;
    r66 = r45 > UINT64_C(365);
    if (r66) { goto at__then_26; }
    goto at__after_25;
    at__then_26:;
    r6 = (uint32_t)((int32_t)r1_sroa_0_0_copyload % (int32_t)100u);
    r8 = r6 == 0;
    if (r8) { goto at__then_1; }
    goto at__else_2;
    at__then_1:;
    r12 = (uint32_t)((int32_t)r1_sroa_0_0_copyload % (int32_t)400u);
    {
    r3_0_in_in = r12;
    goto at__chrono_units_year_year_length_exit_i_i_i_i;
    }
    at__else_2:;
    v1 = (uint32_t)(r1_sroa_0_0_copyload & 3);
    {
    r3_0_in_in = v1;
    goto at__chrono_units_year_year_length_exit_i_i_i_i;
    }
    at__chrono_units_year_year_length_exit_i_i_i_i:;
    r3_0_in = r3_0_in_in == 0;
    x_2 = r3_0_in ? UINT64_C(366) : UINT64_C(365);
    r75 = x_2 >= r45;
    v2 = (uint32_t)(r1_sroa_0_0_copyload + 262143u);
    spec_select = v2 < 524286u;
    or_cond16 = (uint8_t)(((uint32_t)spec_select & (uint32_t)r75) & 1);
    if (or_cond16) { goto at__arm_1_critedge; }
    { r0_sroa_0_sroa_0_0 = 0; r0_sroa_5_0 = 0; goto at__return_5; }
    at__after_25:;
    old = (uint32_t)(r1_sroa_0_0_copyload + 262143u);
    spec_select_i_old = old < 524286u;
    if (spec_select_i_old) { goto at__arm_1_critedge; }
    { r0_sroa_0_sroa_0_0 = 0; r0_sroa_5_0 = 0; goto at__return_5; }
    at__arm_1_critedge:;
    v3 = (uint32_t)(r2_sroa_4_0_copyload + 4294967283u);
    or_cond20 = v3 < 4294967284u;
    if (or_cond20) { { r0_sroa_0_sroa_0_0 = 0; r0_sroa_5_0 = 0; goto at__return_5; } }
    goto at__after_121;
    at__after_121:;
    r3222 = r2_sroa_4_0_copyload > 2;
    r3623 = (uint32_t)(r2_sroa_4_0_copyload | 12u);
    r6_024 = r3222 ? r2_sroa_4_0_copyload : r3623;
    r325 = (uint32_t)(r6_024 * 979u);
    r526 = (uint32_t)(r325 + 4294964377u);
    r7127 = (uint32_t)(r526 >> 5);
    r128 = (uint64_t)r7127;
    r1_i1029 = (uint64_t)r2_sroa_6_0_copyload;
    r4530 = (uint64_t)(r128 + r1_i1029);
    r4631 = r2_sroa_6_0_copyload == 0;
    if (r4631) { { r0_sroa_0_sroa_0_0 = 0; r0_sroa_5_0 = 0; goto at__return_5; } }
    goto at__else_1832;
    at__else_1832:;
    r5_i1233 = (uint32_t)(r325 + 4294965356u);
    r71_i1334 = (uint32_t)(r5_i1233 >> 5);
    r1_i1435 = (uint64_t)r71_i1334;
    r5836 = r4530 > r1_i1435;
    if (r5836) { { r0_sroa_0_sroa_0_0 = 0; r0_sroa_5_0 = 0; goto at__return_5; } }
    goto at__after_1537;
    at__after_1537:;
    r6638 = r4530 > UINT64_C(365);
    if (r6638) { goto at__then_2657; }
    goto at__after_2539;
    at__then_2657:;
    r658 = (uint32_t)((int32_t)r2_sroa_0_0_copyload % (int32_t)100u);
    r859 = r658 == 0;
    if (r859) { goto at__then_168; }
    goto at__else_260;
    at__then_168:;
    r1269 = (uint32_t)((int32_t)r2_sroa_0_0_copyload % (int32_t)400u);
    {
    r3_0_in_in62 = r1269;
    goto at__chrono_units_year_year_length_exit_i_i_i_i61;
    }
    at__else_260:;
    v4 = (uint32_t)(r2_sroa_0_0_copyload & 3);
    {
    r3_0_in_in62 = v4;
    goto at__chrono_units_year_year_length_exit_i_i_i_i61;
    }
    at__chrono_units_year_year_length_exit_i_i_i_i61:;
    r3_0_in63 = r3_0_in_in62 == 0;
    v64 = r3_0_in63 ? UINT64_C(366) : UINT64_C(365);
    r7565 = v64 >= r4530;
    v5 = (uint32_t)(r2_sroa_0_0_copyload + 262143u);
    spec_select66 = v5 < 524286u;
    or_cond1667 = (uint8_t)(((uint32_t)spec_select66 & (uint32_t)r7565) & 1);
    if (or_cond1667) { goto at__arm_6_critedge; }
    { r0_sroa_0_sroa_0_0 = 0; r0_sroa_5_0 = 0; goto at__return_5; }
    at__after_2539:;
    old40 = (uint32_t)(r2_sroa_0_0_copyload + 262143u);
    spec_select_i_old41 = old40 < 524286u;
    if (spec_select_i_old41) { goto at__arm_6_critedge; }
    { r0_sroa_0_sroa_0_0 = 0; r0_sroa_5_0 = 0; goto at__return_5; }
    at__arm_6_critedge:;
    r29 = (uint32_t)(r1_sroa_4_0_copyload << 5);
    r32_2 = (uint32_t)(r29 + r1_sroa_6_0_copyload);
    r34 = (uint32_t)(r2_sroa_4_0_copyload << 5);
    r37 = (uint32_t)(r34 + r2_sroa_6_0_copyload);
    r40 = r32_2 < r37;
    r1_i_neg3 = (uint32_t)((uint32_t)SIGNED(r40, 1));
    neg = (uint32_t)(r1_sroa_0_0_copyload - r2_sroa_0_0_copyload);
    r50_2 = (uint32_t)(neg + r1_i_neg3);
    r52 = (int32_t)r50_2 > (int32_t)4294967295u;
    r50 = (uint32_t)GREATER32((int32_t)r50_2, (int32_t)0);
    x = (uint8_t)r52;
    {
    r0_sroa_0_sroa_0_0 = x;
    r0_sroa_5_0 = r50;
    goto at__return_5;
    }
    at__return_5:;
    r73_fca_0_insert = (t_struct_i8_i32_end){0};
    r73_fca_0_insert.f0 = r0_sroa_0_sroa_0_0;
    r73_fca_1_insert = r73_fca_0_insert;
    r73_fca_1_insert.f1 = r0_sroa_5_0;
    return r73_fca_1_insert;
}

static void caltool_form_texts_push_years_65536(bytes a0, uint8_t a1, uint32_t a2)
{
    uint64_t r0_04, r11, r8, r10_2, r30, r16, r1;
    uint8_t trunc, r11_2, r26, exitcond_not;
    bytes r10, r21, r20, r24;
    trunc = (uint8_t)((a1) & 1);
    if (trunc) { goto at__arm_2; }
    goto at__arm_1;
    at__arm_1:;
    r10 = (a0 + 65536);
    LOAD(uint64_t, r11, r10);
    r21 = (a0 + (int64_t)r11);
    r8 = (uint64_t)((uintptr_t)r21);
    r10_2 = (uint64_t)(r8 - (uint64_t)(uintptr_t)((bytes)&static_10));
    r11_2 = r10_2 < UINT64_C(4);
    if (r11_2) { { r0_04 = UINT64_C(0); goto at__join_7; } }
    goto at__apart_2;
    at__apart_2:;
    STORE(uint32_t, r21, 1701736302u);
    goto at__caltool_form_texts_push_none_65536_exit;
    at__join_7:;
    r20 = (r21 + (int64_t)r0_04);
    r24 = ((bytes)&static_10 + (int64_t)r0_04);
    LOAD(uint8_t, r26, r24);
    STORE(uint8_t, r20, r26);
    r30 = (uint64_t)(r0_04 + UINT64_C(1));
    exitcond_not = r30 == UINT64_C(4);
    if (exitcond_not) { goto at__caltool_form_texts_push_none_65536_exit; }
    { r0_04 = r30; goto at__join_7; }
    at__caltool_form_texts_push_none_65536_exit:;
    r16 = (uint64_t)(r11 + UINT64_C(4));
    STORE(uint64_t, r10, r16);
    goto at__join_4;
    at__arm_2:;
    r1 = (uint64_t)a2;
    chrono_text_text_Text_push_natural_65536(a0, r1);
    goto at__join_4;
    at__join_4:;
    return;
}

static void caltool_form_texts_push_set_and_walk_65536(bytes a0, uint8_t a1, uint8_t a2)
{
    uint64_t r5_i_pre_i17, r5_i_pre_i18, r5, r11, v0, r5_i3_i23, switch_cast, switch_shiftamt, switch_downshift, switch_cast7, switch_shiftamt8, switch_downshift9, switch_cast11, switch_shiftamt12, switch_downshift13, switch_cast15, switch_shiftamt16, switch_downshift17, r19_neg, r5_i3, r11_i7, v1, r5_i4_i20, v2, switch_cast19, switch_shiftamt20, switch_downshift21;
    uint32_t r2_08, r3_015, r25, switch_load, r26;
    uint8_t r1_sroa_0_07, r2_sroa_0_014, r11_2, r9, r11_i_not, switch_masked, switch_masked10, switch_masked14, switch_masked18, r10_not, not, r11_3, r9_2, r11_i_not_2, switch_masked22, r11_not;
    bytes r4, r8, scevgep18, r1_i_sroa_4_0_scevgep_sroa_idx19, r1_i_sroa_5_0_scevgep_sroa_idx20, r1_i_sroa_6_0_scevgep_sroa_idx21, r1_i_sroa_7_0_scevgep_sroa_idx22, r8_i6, scevgep19, switch_gep;
    r4 = (a0 + 65536);
    LOAD(uint64_t, r5, r4);
    r8 = (a0 + (int64_t)r5);
    STORE(uint8_t, r8, 91u);
    r11 = (uint64_t)(r5 + UINT64_C(1));
    {
    r5_i_pre_i17 = r11;
    r2_08 = 7;
    r1_sroa_0_07 = 0;
    goto at__join_5;
    }
    at__join_5:;
    r11_2 = (uint8_t)((uint32_t)1 << (r1_sroa_0_07 & 7u));
    r9 = (uint8_t)((uint32_t)r11_2 & (uint32_t)a1);
    r11_i_not = r9 == 0;
    scevgep18 = (a0 + (int64_t)r5_i_pre_i17);
    r1_i_sroa_4_0_scevgep_sroa_idx19 = (scevgep18 + 1);
    r1_i_sroa_5_0_scevgep_sroa_idx20 = (scevgep18 + 2);
    r1_i_sroa_6_0_scevgep_sroa_idx21 = (scevgep18 + 3);
    r1_i_sroa_7_0_scevgep_sroa_idx22 = (scevgep18 + 4);
    v0 = (uint64_t)(r5_i_pre_i17 + UINT64_C(5));
    r5_i3_i23 = r11_i_not ? r5_i_pre_i17 : v0;
    switch_cast = (uint64_t)r1_sroa_0_07;
    switch_shiftamt = (uint64_t)((switch_cast << (UINT64_C(3) & 63u)) & UINT64_C(72057594037927935));
    switch_downshift = (uint64_t)((UINT64_C(23453984594809933) >> (switch_shiftamt & 63u)) & UINT64_C(72057594037927935));
    switch_masked = (uint8_t)(switch_downshift);
    switch_cast7 = (uint64_t)r1_sroa_0_07;
    switch_shiftamt8 = (uint64_t)((switch_cast7 << (UINT64_C(3) & 63u)) & UINT64_C(72057594037927935));
    switch_downshift9 = (uint64_t)((UINT64_C(33039716280792431) >> (switch_shiftamt8 & 63u)) & UINT64_C(72057594037927935));
    switch_masked10 = (uint8_t)(switch_downshift9);
    switch_cast11 = (uint64_t)r1_sroa_0_07;
    switch_shiftamt12 = (uint64_t)((switch_cast11 << (UINT64_C(3) & 63u)) & UINT64_C(72057594037927935));
    switch_downshift13 = (uint64_t)((UINT64_C(31090243728074094) >> (switch_shiftamt12 & 63u)) & UINT64_C(72057594037927935));
    switch_masked14 = (uint8_t)(switch_downshift13);
    switch_cast15 = (uint64_t)r1_sroa_0_07;
    switch_shiftamt16 = (uint64_t)((switch_cast15 << (UINT64_C(3) & 63u)) & UINT64_C(72057594037927935));
    switch_downshift17 = (uint64_t)((UINT64_C(6618611909121) >> (switch_shiftamt16 & 63u)) & UINT64_C(72057594037927935));
    switch_masked18 = (uint8_t)(switch_downshift17);
    STORE(uint8_t, scevgep18, switch_masked);
    STORE(uint8_t, r1_i_sroa_4_0_scevgep_sroa_idx19, switch_masked10);
    STORE(uint8_t, r1_i_sroa_5_0_scevgep_sroa_idx20, switch_masked14);
    STORE(uint8_t, r1_i_sroa_6_0_scevgep_sroa_idx21, 44u);
    STORE(uint8_t, r1_i_sroa_7_0_scevgep_sroa_idx22, 32u);
    r25 = (uint32_t)(r2_08 + 4294967295u);
    r10_not = r25 == 0;
    if (r10_not) { goto at__caltool_form_texts_push_set_65536_exit; }
    { r5_i_pre_i17 = r5_i3_i23; r2_08 = r25; r1_sroa_0_07 = switch_masked18; goto at__join_5; }
    at__caltool_form_texts_push_set_65536_exit:;
    not = a1 == 0;
    r19_neg = not ? UINT64_C(0) : UINT64_C(18446744073709551614);
    r5_i3 = (uint64_t)(r5_i3_i23 + r19_neg);
    r8_i6 = (a0 + (int64_t)r5_i3);
    STORE(uint8_t, r8_i6, 93u);
    r11_i7 = (uint64_t)(r5_i3 + UINT64_C(1));
    {
    r5_i_pre_i18 = r11_i7;
    r3_015 = 7;
    r2_sroa_0_014 = a2;
    goto at__join_5_2;
    }
    at__join_5_2:;
    r11_3 = (uint8_t)((uint32_t)1 << (r2_sroa_0_014 & 7u));
    r9_2 = (uint8_t)((uint32_t)r11_3 & (uint32_t)a1);
    r11_i_not_2 = r9_2 == 0;
    scevgep19 = (a0 + (int64_t)r5_i_pre_i18);
    v1 = (uint64_t)(r5_i_pre_i18 + UINT64_C(4));
    r5_i4_i20 = r11_i_not_2 ? r5_i_pre_i18 : v1;
    v2 = (uint64_t)r2_sroa_0_014;
    switch_gep = ((bytes)&switch_table_caltool_form_texts_push_date_line_1f478b2d7b47a44d + (int64_t)v2 * 4);
    LOAD(uint32_t, switch_load, switch_gep);
    switch_cast19 = (uint64_t)r2_sroa_0_014;
    switch_shiftamt20 = (uint64_t)((switch_cast19 << (UINT64_C(3) & 63u)) & UINT64_C(72057594037927935));
    switch_downshift21 = (uint64_t)((UINT64_C(6618611909121) >> (switch_shiftamt20 & 63u)) & UINT64_C(72057594037927935));
    switch_masked22 = (uint8_t)(switch_downshift21);
    STORE(uint32_t, scevgep19, switch_load);
    STORE(uint64_t, r4, r5_i4_i20);
    r26 = (uint32_t)(r3_015 + 4294967295u);
    r11_not = r26 == 0;
    if (r11_not) { goto at__caltool_form_texts_push_spaced_days_65536_exit; }
    { r5_i_pre_i18 = r5_i4_i20; r3_015 = r26; r2_sroa_0_014 = switch_masked22; goto at__join_5_2; }
    at__caltool_form_texts_push_spaced_days_65536_exit:;
    return;
}

static t_struct_i8_i32_end caltool_form_asked_first_of_days_e48cce946a840f3d(bytes a0, uint8_t a1)
{
    uint32_t r3_0_in_in, r0_sroa_4_0, r1_sroa_0_0_copyload, r1_sroa_3_0_copyload, v0, r1_sroa_4_0_copyload, r36, r6_0, r3, r5, r71, r5_i12, r71_i13, r6, r12, v1, v2, v3, r3_0, r13, r11, r23, r14, reass_sub, r26, r16, r183, r18, r91, r24, r56, r37, r18_2, r18_3, r23_2, r23_i_i_fr, r25, r48, v4, spec_select;
    uint8_t r0_sroa_0_sroa_0_0, or_cond, r32, r46, r58, r66, r8, r3_0_in, r75, spec_select_2, or_cond16_i_i_i_i_not10, r3_i_i6_not_not_i_i_i_old, or_cond9, spec_select_i_old, r3_i_i6_not_not, or_cond_2, or_cond_3, v5;
    bytes r1_sroa_3_0_a0_sroa_idx, r1_sroa_4_0_a0_sroa_idx;
    uint64_t r1, r1_i10, r45, r1_i14, x;
    t_struct_i8_i32_end r39_fca_0_insert, r39_fca_1_insert;
    LOAD(uint32_t, r1_sroa_0_0_copyload, a0);
    r1_sroa_3_0_a0_sroa_idx = (a0 + 4);
    LOAD(uint32_t, r1_sroa_3_0_copyload, r1_sroa_3_0_a0_sroa_idx);
    v0 = (uint32_t)(r1_sroa_3_0_copyload + 4294967283u);
    or_cond = v0 < 4294967284u;
    if (or_cond) { { r0_sroa_0_sroa_0_0 = 0; r0_sroa_4_0 = 0; goto at__return_5; } }
    goto at__after_1;
    at__after_1:;
    r1_sroa_4_0_a0_sroa_idx = (a0 + 8);
    LOAD(uint32_t, r1_sroa_4_0_copyload, r1_sroa_4_0_a0_sroa_idx);
    r32 = r1_sroa_3_0_copyload > 2;
    r36 = (uint32_t)(r1_sroa_3_0_copyload | 12u);
    r6_0 = r32 ? r1_sroa_3_0_copyload : r36;
    r3 = (uint32_t)(r6_0 * 979u);
    r5 = (uint32_t)(r3 + 4294964377u);
    r71 = (uint32_t)(r5 >> 5);
    r1 = (uint64_t)r71;
    r1_i10 = (uint64_t)r1_sroa_4_0_copyload;
    r45 = (uint64_t)(r1_i10 + r1);
    r46 = r1_sroa_4_0_copyload == 0;
    if (r46) { { r0_sroa_0_sroa_0_0 = 0; r0_sroa_4_0 = 0; goto at__return_5; } }
    goto at__else_18;
    at__else_18:;
    r5_i12 = (uint32_t)(r3 + 4294965356u);
    r71_i13 = (uint32_t)(r5_i12 >> 5);
    r1_i14 = (uint64_t)r71_i13;
    r58 = r45 > r1_i14;
    if (r58) { { r0_sroa_0_sroa_0_0 = 0; r0_sroa_4_0 = 0; goto at__return_5; } }
    goto at__after_15;
    at__after_15:;
    r66 = r45 > UINT64_C(365);
    if (r66) { goto at__then_26; }
    goto at__after_25;
    at__then_26:;
    r6 = (uint32_t)((int32_t)r1_sroa_0_0_copyload % (int32_t)100u);
    r8 = r6 == 0;
    if (r8) { goto at__then_1; }
    goto at__else_2;
    at__then_1:;
    r12 = (uint32_t)((int32_t)r1_sroa_0_0_copyload % (int32_t)400u);
    {
    r3_0_in_in = r12;
    goto at__chrono_units_year_year_length_exit_i_i_i_i;
    }
    at__else_2:;
    v1 = (uint32_t)(r1_sroa_0_0_copyload & 3);
    {
    r3_0_in_in = v1;
    goto at__chrono_units_year_year_length_exit_i_i_i_i;
    }
    at__chrono_units_year_year_length_exit_i_i_i_i:;
    r3_0_in = r3_0_in_in == 0;
    x = r3_0_in ? UINT64_C(366) : UINT64_C(365);
    r75 = x < r45;
    v2 = (uint32_t)(r1_sroa_0_0_copyload + 4294705153u);
    spec_select_2 = v2 < 4294443010u;
    or_cond16_i_i_i_i_not10 = (uint8_t)(((uint32_t)spec_select_2 | (uint32_t)r75) & 1);
    r3_i_i6_not_not_i_i_i_old = a1 == 0;
    or_cond9 = (uint8_t)(((uint32_t)or_cond16_i_i_i_i_not10 | (uint32_t)r3_i_i6_not_not_i_i_i_old) & 1);
    if (or_cond9) { { r0_sroa_0_sroa_0_0 = 0; r0_sroa_4_0 = 0; goto at__return_5; } }
    goto at__chrono_calendar_forms_first_on_19d94ee6b5cf2102_exit_i_i;
    at__after_25:;
    v3 = (uint32_t)(r1_sroa_0_0_copyload + 4294705153u);
    spec_select_i_old = v3 < 4294443010u;
    r3_i_i6_not_not = a1 == 0;
    or_cond_2 = (uint8_t)(((uint32_t)spec_select_i_old | (uint32_t)r3_i_i6_not_not) & 1);
    if (or_cond_2) { { r0_sroa_0_sroa_0_0 = 0; r0_sroa_4_0 = 0; goto at__return_5; } }
    goto at__chrono_calendar_forms_first_on_19d94ee6b5cf2102_exit_i_i;
    at__chrono_calendar_forms_first_on_19d94ee6b5cf2102_exit_i_i:;
    r3_0 = (uint32_t)(r1_sroa_0_0_copyload + 262399u);
    r13 = (uint32_t)r32;
    r11 = (uint32_t)(r3_0 + r13);
    r23 = (uint32_t)(r11 / 400u);
    r14 = (uint32_t)(r11 / 100u);
    reass_sub = (uint32_t)(r23 - r14);
    r26 = (uint32_t)(reass_sub + 4199127358u);
    r16 = (uint32_t)(r11 * 1461u);
    r183 = (uint32_t)(r16 >> 2);
    r18 = (uint32_t)(r26 + r183);
    r91 = (uint32_t)(r45);
    r24 = (uint32_t)(r18 + r91);
    r56 = (uint32_t)(r24 + 95839631u);
    r37 = (uint32_t)(r56 % 7);
    r18_2 = (uint32_t)a1;
    r18_3 = (uint32_t)(r18_2 * 129u);
    r23_2 = (uint32_t)(r18_3 >> (r37 & 31u));
    r23_i_i_fr = r23_2;
    r25 = (uint32_t)(r23_i_i_fr ? TRAILING(r23_i_i_fr) : 32u);
    r48 = (uint32_t)(r25 + r24);
    v4 = (uint32_t)(r48 + 95746129u);
    or_cond_3 = v4 < 191491529u;
    spec_select = or_cond_3 ? r48 : 0;
    v5 = (uint8_t)or_cond_3;
    {
    r0_sroa_0_sroa_0_0 = v5;
    r0_sroa_4_0 = spec_select;
    goto at__return_5;
    }
    at__return_5:;
    r39_fca_0_insert = (t_struct_i8_i32_end){0};
    r39_fca_0_insert.f0 = r0_sroa_0_sroa_0_0;
    r39_fca_1_insert = r39_fca_0_insert;
    r39_fca_1_insert.f1 = r0_sroa_4_0;
    return r39_fca_1_insert;
}

static t_struct_i8_i32_end caltool_form_asked_moved_every_e48cce946a840f3d(bytes a0, uint32_t a1, uint32_t a2)
{
    uint32_t r3_0_in_in, r3_0_in_in_2, r10_0, spec_select, r0_sroa_4_0, r1_sroa_0_0_copyload, r1_sroa_3_0_copyload, v0, r1_sroa_4_0_copyload, r36, r6_0, r3, r5, r71, r5_i12, r71_i13, r6, r12, v1, v2, old, r91, r13, r3_0, r11, r14, r16, r183, r23, reass_sub, r26, r18, r24, v3, v4, r13_2, r3_2, r71_i2, r10, r12_2, r29, r6_i_i_i_i4, r8_i_i_i_i5, r103, r30, r33, r35, r50, r167, r15, r6_i_i3, r18_2, v6, r5_2, r71_2, r24_2, r5_i10, r71_i11, a1_a0, r6_i_i_i5, r12_i_i_i7, v7, x, r14_2, r16_2, r183_2, r23_2, reass_sub10, r26_2, r48, r54;
    uint8_t r0_sroa_0_sroa_0_0, or_cond, r32, r46, r58, r66, r8, r3_0_in, r75, spec_select_2, or_cond16, spec_select_i_old, or_cond_2, r33_i4, r8_i_i_i6, r3_0_in_2, spec_select7;
    bytes r1_sroa_3_0_a0_sroa_idx, r1_sroa_4_0_a0_sroa_idx;
    uint64_t r1, r1_i10, r45, r1_i14, x_2, r1_2, r1_i1, r9, r6_2, r8_2, r10_i4, r17, r25, r27, r1_3, r6_i_i2, v5;
    uint16_t r14_lhs_trunc, r144, narrow;
    t_struct_i8_i32_end r40_fca_0_insert, r40_fca_1_insert;
    LOAD(uint32_t, r1_sroa_0_0_copyload, a0);
    r1_sroa_3_0_a0_sroa_idx = (a0 + 4);
    LOAD(uint32_t, r1_sroa_3_0_copyload, r1_sroa_3_0_a0_sroa_idx);
    v0 = (uint32_t)(r1_sroa_3_0_copyload + 4294967283u);
    or_cond = v0 < 4294967284u;
    if (or_cond) { { r0_sroa_4_0 = 0; r0_sroa_0_sroa_0_0 = 0; goto at__return_5; } }
    goto at__after_1;
    at__after_1:;
    r1_sroa_4_0_a0_sroa_idx = (a0 + 8);
    LOAD(uint32_t, r1_sroa_4_0_copyload, r1_sroa_4_0_a0_sroa_idx);
    r32 = r1_sroa_3_0_copyload > 2;
    r36 = (uint32_t)(r1_sroa_3_0_copyload | 12u);
    r6_0 = r32 ? r1_sroa_3_0_copyload : r36;
    r3 = (uint32_t)(r6_0 * 979u);
    r5 = (uint32_t)(r3 + 4294964377u);
    r71 = (uint32_t)(r5 >> 5);
    r1 = (uint64_t)r71;
    r1_i10 = (uint64_t)r1_sroa_4_0_copyload;
    r45 = (uint64_t)(r1_i10 + r1);
    r46 = r1_sroa_4_0_copyload == 0;
    if (r46) { { r0_sroa_4_0 = 0; r0_sroa_0_sroa_0_0 = 0; goto at__return_5; } }
    goto at__else_18;
    at__else_18:;
    r5_i12 = (uint32_t)(r3 + 4294965356u);
    r71_i13 = (uint32_t)(r5_i12 >> 5);
    r1_i14 = (uint64_t)r71_i13;
    r58 = r45 > r1_i14;
    if (r58) { { r0_sroa_4_0 = 0; r0_sroa_0_sroa_0_0 = 0; goto at__return_5; } }
    goto at__after_15;
    at__after_15:;
    r66 = r45 > UINT64_C(365);
    if (r66) { goto at__then_26; }
    goto at__after_25;
    at__then_26:;
    r6 = (uint32_t)((int32_t)r1_sroa_0_0_copyload % (int32_t)100u);
    r8 = r6 == 0;
    if (r8) { goto at__then_1; }
    goto at__else_2;
    at__then_1:;
    r12 = (uint32_t)((int32_t)r1_sroa_0_0_copyload % (int32_t)400u);
    {
    r3_0_in_in = r12;
    goto at__chrono_units_year_year_length_exit_i_i_i_i;
    }
    at__else_2:;
    v1 = (uint32_t)(r1_sroa_0_0_copyload & 3);
    {
    r3_0_in_in = v1;
    goto at__chrono_units_year_year_length_exit_i_i_i_i;
    }
    at__chrono_units_year_year_length_exit_i_i_i_i:;
    r3_0_in = r3_0_in_in == 0;
    x_2 = r3_0_in ? UINT64_C(366) : UINT64_C(365);
    r75 = x_2 >= r45;
    v2 = (uint32_t)(r1_sroa_0_0_copyload + 262143u);
    spec_select_2 = v2 < 524286u;
    or_cond16 = (uint8_t)(((uint32_t)spec_select_2 & (uint32_t)r75) & 1);
    if (or_cond16) { goto at__caltool_dates_answers_DateAnswersCommandAnswers_from_ymd_exit; }
    { r0_sroa_4_0 = 0; r0_sroa_0_sroa_0_0 = 0; goto at__return_5; }
    at__after_25:;
    old = (uint32_t)(r1_sroa_0_0_copyload + 262143u);
    spec_select_i_old = old < 524286u;
    if (spec_select_i_old) { goto at__caltool_dates_answers_DateAnswersCommandAnswers_from_ymd_exit; }
    { r0_sroa_4_0 = 0; r0_sroa_0_sroa_0_0 = 0; goto at__return_5; }
    at__caltool_dates_answers_DateAnswersCommandAnswers_from_ymd_exit:;
    r91 = (uint32_t)(r45);
    r13 = (uint32_t)r32;
    r3_0 = (uint32_t)(r1_sroa_0_0_copyload + 262399u);
    r11 = (uint32_t)(r3_0 + r13);
    r14 = (uint32_t)(r11 / 100u);
    r16 = (uint32_t)(r11 * 1461u);
    r183 = (uint32_t)(r16 >> 2);
    r23 = (uint32_t)(r11 / 400u);
    reass_sub = (uint32_t)(r23 - r14);
    r26 = (uint32_t)(reass_sub + 4199127358u);
    r18 = (uint32_t)(r26 + r183);
    r24 = (uint32_t)(r18 + r91);
    v3 = (uint32_t)(r24 << 2);
    v4 = (uint32_t)(v3 + 383359751u);
    r1_2 = (uint64_t)((uint64_t)(int32_t)a1);
    r1_i1 = (uint64_t)a2;
    r9 = (uint64_t)(r1_i1 * r1_2);
    r13_2 = (uint32_t)(v4 / 146097u);
    r3_2 = (uint32_t)(r13_2 * 3);
    r71_i2 = (uint32_t)(r3_2 + v4);
    r10 = (uint32_t)(r71_i2 | 3);
    r6_2 = (uint64_t)r10;
    r8_2 = (uint64_t)(r6_2 * UINT64_C(376287347));
    r10_i4 = (uint64_t)(r8_2 >> (UINT64_C(39) & 63u));
    r12_2 = (uint32_t)(r10_i4);
    r17 = (uint64_t)(r8_2 & UINT64_C(549755813885));
    r25 = (uint64_t)(r17 * UINT64_C(1461));
    r27 = (uint64_t)(r25 >> (UINT64_C(41) & 63u));
    r29 = (uint32_t)(r27);
    r6_i_i_i_i4 = (uint32_t)(r29 * 2141u);
    r8_i_i_i_i5 = (uint32_t)(r6_i_i_i_i4 + 197913u);
    r103 = (uint32_t)(r8_i_i_i_i5 >> 16u);
    r30 = (uint32_t)(r12_2 * 12u);
    r33 = (uint32_t)(r30 + 4294967293u);
    r35 = (uint32_t)(r33 + r103);
    r1_3 = (uint64_t)r35;
    r6_i_i2 = (uint64_t)(r9 + r1_3);
    v5 = (uint64_t)(r6_i_i2 + UINT64_C(18446744073709548534));
    or_cond_2 = v5 < UINT64_C(6291432);
    r50 = (uint32_t)(r6_i_i2);
    if (or_cond_2) { goto at__arm_1; }
    { spec_select = 0; goto at__caltool_dates_answers_DateAnswersCommandAnswers_every_months_exit; }
    at__arm_1:;
    r14_lhs_trunc = (uint16_t)(r8_i_i_i_i5);
    r144 = (uint16_t)((uint32_t)r14_lhs_trunc / (uint32_t)2141u);
    narrow = (uint16_t)((uint32_t)r144 + (uint32_t)1);
    r167 = (uint32_t)narrow;
    r15 = (uint32_t)(r50 / 12u);
    r6_i_i3 = (uint32_t)(r15 + 4294704897u);
    r18_2 = (uint32_t)(r50 % 12u);
    v6 = (uint32_t)(r18_2 * 979u);
    r5_2 = (uint32_t)(v6 + 18u);
    r71_2 = (uint32_t)(r5_2 >> 5);
    r24_2 = (uint32_t)(r71_2 + r167);
    r5_i10 = (uint32_t)(v6 + 997u);
    r71_i11 = (uint32_t)(r5_i10 >> 5);
    a1_a0 = r71_i11 < r24_2 ? r71_i11 : r24_2;
    r33_i4 = a1_a0 > 365u;
    if (r33_i4) { goto at__then_19; }
    { r10_0 = a1_a0; goto at__chrono_stored_march_day_number_within_exit_i_i_i_i_i; }
    at__then_19:;
    r6_i_i_i5 = (uint32_t)((int32_t)r6_i_i3 % (int32_t)100u);
    r8_i_i_i6 = r6_i_i_i5 == 0;
    if (r8_i_i_i6) { goto at__then_1_2; }
    goto at__else_2_2;
    at__then_1_2:;
    r12_i_i_i7 = (uint32_t)((int32_t)r6_i_i3 % (int32_t)400u);
    {
    r3_0_in_in_2 = r12_i_i_i7;
    goto at__chrono_units_year_year_length_exit_i_i_i_i_i_i;
    }
    at__else_2_2:;
    v7 = (uint32_t)(r6_i_i3 & 3);
    {
    r3_0_in_in_2 = v7;
    goto at__chrono_units_year_year_length_exit_i_i_i_i_i_i;
    }
    at__chrono_units_year_year_length_exit_i_i_i_i_i_i:;
    r3_0_in_2 = r3_0_in_in_2 == 0;
    x = r3_0_in_2 ? 366u : 365u;
    {
    r10_0 = x;
    goto at__chrono_stored_march_day_number_within_exit_i_i_i_i_i;
    }
    at__chrono_stored_march_day_number_within_exit_i_i_i_i_i:;
    r14_2 = (uint32_t)(r50 / 1200u);
    r16_2 = (uint32_t)(r15 * 1461u);
    r183_2 = (uint32_t)(r16_2 >> 2);
    r23_2 = (uint32_t)(r50 / 4800u);
    reass_sub10 = (uint32_t)(r23_2 - r14_2);
    r26_2 = (uint32_t)(reass_sub10 + 4199127358u);
    r48 = (uint32_t)(r26_2 + r183_2);
    r54 = (uint32_t)(r48 + r10_0);
    {
    spec_select = r54;
    goto at__caltool_dates_answers_DateAnswersCommandAnswers_every_months_exit;
    }
    at__caltool_dates_answers_DateAnswersCommandAnswers_every_months_exit:;
    spec_select7 = (uint8_t)or_cond_2;
    {
    r0_sroa_4_0 = spec_select;
    r0_sroa_0_sroa_0_0 = spec_select7;
    goto at__return_5;
    }
    at__return_5:;
    r40_fca_0_insert = (t_struct_i8_i32_end){0};
    r40_fca_0_insert.f0 = r0_sroa_0_sroa_0_0;
    r40_fca_1_insert = r40_fca_0_insert;
    r40_fca_1_insert.f1 = r0_sroa_4_0;
    return r40_fca_1_insert;
}

static void caltool_form_texts_push_date_line_1f478b2d7b47a44d(bytes a0, uint8_t a1, uint32_t a2)
{
    uint64_t r0_04, storemerge, r11_i21_i_i_i_sink, r4, r8, r10, r30, r16, r6, r82, r10_i4, r17_2, r25, r27, r1, r14, r13_i3, r1_i_i8, r14_i9, r1_i_i13, r14_i14, r13_2, r13_i_i3, r11_3, r13_3, v3, r16_2, r1_i_i_i_i11, r14_i_i_i12, r1_2, switch_idx_cast, r5_i_pre, v5, r6249, r11_i_i18, r6_i_i_i_i_i_i_i24, r8_i_i_i_i_i_i_i25, r17_i_i_i_i_i_i_i26, r25_i_i_i_i_i_i27, r27_i_i_i_i_i_i28, reass_sub, r40, r5_i_i_i_i_i39, r13_i_i_i_i_i41, r11_i5, r4_2, r6_3, r8_7, r6_4, r8_8, r10_i5, r17_6, r30_2, r1_3, r14_3, r13_i3_2, r1_i_i8_2, r14_i9_2, r1_i_i13_2, r14_i14_2, r13_4, r13_i_i3_2, v11, r21_5, r11_i5_2, r11_i11, r13_5, r13_i6, r1_i_i_i_i36, r14_i_i_i37, r1_i_i18, r14_i19, r11_i21;
    uint8_t trunc, r11, r26, exitcond_not, r35, r8_3, x, r21_2, r19_i4, r27_2, r19, r26_2, r19_2, r27_3, r19_i_i5, r27_i_i7, r19_3, r27_4, r19_i_i24, r27_i_i26, r16_not, r24_2, r19_i_i5_i_i_i43, r27_i_i_i_i_i45, r8_i_i_i3, x_2, r21_4, r19_i4_2, r27_i_i_i6, r19_i_i_i_i_i32, r26_3, r19_4, r27_5, r19_i_i5_2, r27_i_i7_2, r19_5, r27_i_i_i_i_i7, r27_i4, r19_i7, r27_i9, r40_2, r46;
    bytes r3, r21, r20, r24, r9_i1, r17_3, r25_2, r9_i7, r9_i12, r17_i_i_i_i1, r25_3, r8_4, r8_i4, r17_i_i4, r25_i_i6, r8_i_i10, r8_i4_i11, r8_i16, r17_4, r25_4, r8_5, r8_i4_2, r8_i19, v4, r17_i_i23, r25_i_i25, r8_i_i29, r8_i4_i30, r21_3, r9_i_i_i10, switch_gep, scevgep, r8_6, scevgep_2, r8_i_i_i_i40, r8_i3, r17_i_i_i_i_i42, r25_i_i6_i_i_i44, r8_i_i_i_i_i46, r8_i4_i_i_i_i47, r9_i1_2, r17_i_i_i5, r25_i_i_i_i_i31, r9_i7_2, r9_i12_2, r17_i_i_i_i_i_i4, r25_5, r8_i_i_i_i_i_i5, r8_i4_3, r17_i_i4_2, r25_i_i6_2, r8_i_i10_2, r8_i4_i11_2, r8_i16_2, r8_i19_2, v12, r17_7, r25_i_i_i_i_i6, r8_i_i_i_i_i_i33, r8_i4_4, r8_i10, r17_i1, r25_i3, r17_i_i_i34, r25_i8, r9_i_i_i35, r9_i17, r8_i_i_i38;
    uint32_t r17, r11_2, r13, r3_2, r71_i2, r101, r12, r29, r6_2, r8_2, r103, r51, r10_sroa_0_0_v, r10_sroa_0_0, r10_sroa_4_0, r2_0, r9, v0, r32, a1_lobit, r2_0_i_i_i13, r5, r3_3, switch_load, r11_i_i_i_i_i_i19, r13_i_i_i_i_i_i20, r3_i_i_i_i_i_i_i_i21, r71_i2_i_i_i_i_i_i_i22, r10_i_i_i_i_i_i_i23, r29_i_i_i_i_i_i29, r11_4, r22, r10_2, r10_i2, r12_2, r14_2, r3_4, r17_5, r5_2, r71_i2_2, r10_3, r12_3, r6_i3, r2_0_2, r9_2, v8, r32_2;
    uint16_t r14_lhs_trunc, r144, r3_lhs_trunc, r313, v1, r614, v2, narrow, v6, r31_lhs_trunc, r315, v7, r3_lhs_trunc_2, r313_2, v9, r614_2, v10, v13, r15_i_lhs_trunc, r15_i22, v14, r25_i23, v15;
    trunc = (uint8_t)((a1) & 1);
    r3 = (a0 + 65536);
    LOAD(uint64_t, r4, r3);
    if (trunc) { goto at__arm_2; }
    goto at__arm_1;
    at__arm_1:;
    r21 = (a0 + (int64_t)r4);
    r8 = (uint64_t)((uintptr_t)r21);
    r10 = (uint64_t)(r8 - (uint64_t)(uintptr_t)((bytes)&static_10));
    r11 = r10 < UINT64_C(4);
    if (r11) { { r0_04 = UINT64_C(0); goto at__join_7; } }
    goto at__apart_2;
    at__apart_2:;
    STORE(uint32_t, r21, 1701736302u);
    goto at__caltool_form_texts_push_none_65536_exit;
    at__join_7:;
    r20 = (r21 + (int64_t)r0_04);
    r24 = ((bytes)&static_10 + (int64_t)r0_04);
    LOAD(uint8_t, r26, r24);
    STORE(uint8_t, r20, r26);
    r30 = (uint64_t)(r0_04 + UINT64_C(1));
    exitcond_not = r30 == UINT64_C(4);
    if (exitcond_not) { goto at__caltool_form_texts_push_none_65536_exit; }
    { r0_04 = r30; goto at__join_7; }
    at__caltool_form_texts_push_none_65536_exit:;
    r16 = (uint64_t)(r4 + UINT64_C(4));
    {
    r11_i21_i_i_i_sink = r16;
    goto at__join_4;
    }
    at__arm_2:;
    r17 = (uint32_t)(a2 << 2);
    r11_2 = (uint32_t)(r17 + 383359751u);
    r13 = (uint32_t)(r11_2 / 146097u);
    r3_2 = (uint32_t)(r13 * 3);
    r71_i2 = (uint32_t)(r3_2 + r11_2);
    r101 = (uint32_t)(r71_i2 | 3);
    r6 = (uint64_t)r101;
    r82 = (uint64_t)(r6 * UINT64_C(376287347));
    r10_i4 = (uint64_t)(r82 >> (UINT64_C(39) & 63u));
    r12 = (uint32_t)(r10_i4);
    r17_2 = (uint64_t)(r82 & UINT64_C(549755813885));
    r25 = (uint64_t)(r17_2 * UINT64_C(1461));
    r27 = (uint64_t)(r25 >> (UINT64_C(41) & 63u));
    r29 = (uint32_t)(r27);
    r6_2 = (uint32_t)(r29 * 2141u);
    r8_2 = (uint32_t)(r6_2 + 197913u);
    r103 = (uint32_t)(r8_2 >> 16u);
    r14_lhs_trunc = (uint16_t)(r8_2);
    r144 = (uint16_t)((uint32_t)r14_lhs_trunc / (uint32_t)2141u);
    r35 = r17_2 < UINT64_C(460575712662);
    r51 = (uint32_t)(r103 + 4294967284u);
    r10_sroa_0_0_v = r35 ? 4294704896u : 4294704897u;
    r10_sroa_0_0 = (uint32_t)(r10_sroa_0_0_v + r12);
    r10_sroa_4_0 = r35 ? r103 : r51;
    r8_3 = (int32_t)r10_sroa_0_0 < (int32_t)0;
    x = r8_3 ? 45u : 43u;
    r21_2 = r10_sroa_0_0 > 9999u;
    r9_i1 = (a0 + (int64_t)r4);
    STORE(uint8_t, r9_i1, x);
    r1 = (uint64_t)r21_2;
    r14 = (uint64_t)(r4 + r1);
    r2_0 = (int32_t)r10_sroa_0_0 < 0 ? (uint32_t)(0u - r10_sroa_0_0) : r10_sroa_0_0;
    r9 = (uint32_t)(r2_0 / 10000u);
    v0 = (uint32_t)(r9 << 1);
    r13_i3 = (uint64_t)v0;
    r17_3 = ((bytes)&static_12 + (int64_t)r13_i3);
    LOAD(uint8_t, r19_i4, r17_3);
    r25_2 = (r17_3 + 1);
    LOAD(uint8_t, r27_2, r25_2);
    r19 = r2_0 > 99999u;
    r9_i7 = (a0 + (int64_t)r14);
    STORE(uint8_t, r9_i7, r19_i4);
    r1_i_i8 = (uint64_t)r19;
    r14_i9 = (uint64_t)(r14 + r1_i_i8);
    r26_2 = r2_0 > 9999u;
    r9_i12 = (a0 + (int64_t)r14_i9);
    STORE(uint8_t, r9_i12, r27_2);
    r1_i_i13 = (uint64_t)r26_2;
    r14_i14 = (uint64_t)(r14_i9 + r1_i_i13);
    r32 = (uint32_t)(r2_0 % 10000u);
    r3_lhs_trunc = (uint16_t)(r32);
    r313 = (uint16_t)((uint32_t)r3_lhs_trunc / (uint32_t)100u);
    v1 = (uint16_t)((uint32_t)r313 << 1);
    r13_2 = (uint64_t)v1;
    r17_i_i_i_i1 = ((bytes)&static_12 + (int64_t)r13_2);
    LOAD(uint8_t, r19_2, r17_i_i_i_i1);
    r25_3 = (r17_i_i_i_i1 + 1);
    LOAD(uint8_t, r27_3, r25_3);
    r8_4 = (a0 + (int64_t)r14_i14);
    STORE(uint8_t, r8_4, r19_2);
    r8_i4 = (r8_4 + 1);
    STORE(uint8_t, r8_i4, r27_3);
    r614 = (uint16_t)((uint32_t)r3_lhs_trunc % (uint32_t)100u);
    v2 = (uint16_t)((uint32_t)r614 << 1);
    r13_i_i3 = (uint64_t)v2;
    r17_i_i4 = ((bytes)&static_12 + (int64_t)r13_i_i3);
    LOAD(uint8_t, r19_i_i5, r17_i_i4);
    r25_i_i6 = (r17_i_i4 + 1);
    LOAD(uint8_t, r27_i_i7, r25_i_i6);
    r8_i_i10 = (r8_4 + 2);
    STORE(uint8_t, r8_i_i10, r19_i_i5);
    r8_i4_i11 = (r8_4 + 3);
    STORE(uint8_t, r8_i4_i11, r27_i_i7);
    r8_i16 = (r8_4 + 4);
    STORE(uint8_t, r8_i16, 45u);
    r11_3 = (uint64_t)r10_sroa_4_0;
    r13_3 = (uint64_t)(r11_3 << (UINT64_C(1) & 63u));
    r17_4 = ((bytes)&static_12 + (int64_t)r13_3);
    LOAD(uint8_t, r19_3, r17_4);
    r25_4 = (r17_4 + 1);
    LOAD(uint8_t, r27_4, r25_4);
    r8_5 = (r8_4 + 5);
    STORE(uint8_t, r8_5, r19_3);
    r8_i4_2 = (r8_4 + 6);
    STORE(uint8_t, r8_i4_2, r27_4);
    r8_i19 = (r8_4 + 7);
    STORE(uint8_t, r8_i19, 45u);
    narrow = (uint16_t)((uint32_t)r144 << 1);
    v3 = (uint64_t)narrow;
    v4 = ((bytes)&static_12 + (int64_t)v3);
    r17_i_i23 = (v4 + 2);
    LOAD(uint8_t, r19_i_i24, r17_i_i23);
    r25_i_i25 = (v4 + 3);
    LOAD(uint8_t, r27_i_i26, r25_i_i25);
    r8_i_i29 = (r8_4 + 8);
    STORE(uint8_t, r8_i_i29, r19_i_i24);
    r8_i4_i30 = (r8_4 + 9);
    STORE(uint8_t, r8_i4_i30, r27_i_i26);
    r21_3 = (r8_4 + 10);
    STORE(uint8_t, r21_3, 32u);
    r16_2 = (uint64_t)(r14_i14 + UINT64_C(11));
    r9_i_i_i10 = (a0 + (int64_t)r16_2);
    STORE(uint8_t, r9_i_i_i10, 45u);
    a1_lobit = (uint32_t)(a2 >> 31u);
    r1_i_i_i_i11 = (uint64_t)a1_lobit;
    r14_i_i_i12 = (uint64_t)(r16_2 + r1_i_i_i_i11);
    STORE(uint64_t, r3, r14_i_i_i12);
    r2_0_i_i_i13 = (int32_t)a2 < 0 ? (uint32_t)(0u - a2) : a2;
    r1_2 = (uint64_t)r2_0_i_i_i13;
    chrono_text_text_Text_push_natural_65536(a0, r1_2);
    r5 = (uint32_t)(a2 + 95839631u);
    r3_3 = (uint32_t)(r5 % 7);
    switch_idx_cast = (uint64_t)r3_3;
    switch_gep = ((bytes)&switch_table_caltool_form_texts_push_date_line_1f478b2d7b47a44d + (int64_t)switch_idx_cast * 4);
    LOAD(uint32_t, switch_load, switch_gep);
    LOAD(uint64_t, r5_i_pre, r3);
    scevgep = (a0 + (int64_t)r5_i_pre);
    STORE(uint32_t, scevgep, switch_load);
    v5 = (uint64_t)(r5_i_pre + UINT64_C(4));
    STORE(uint64_t, r3, v5);
    LOAD(uint64_t, r6249, r9_i1);
    r8_6 = (a0 + (int64_t)v5);
    STORE(uint8_t, r8_6, 32u);
    r11_i_i18 = (uint64_t)(r5_i_pre + UINT64_C(5));
    r11_i_i_i_i_i_i19 = (uint32_t)(r17 + 383358527u);
    r13_i_i_i_i_i_i20 = (uint32_t)(r11_i_i_i_i_i_i19 / 146097u);
    r3_i_i_i_i_i_i_i_i21 = (uint32_t)(r13_i_i_i_i_i_i20 * 3);
    r71_i2_i_i_i_i_i_i_i22 = (uint32_t)(r3_i_i_i_i_i_i_i_i21 + r11_i_i_i_i_i_i19);
    r10_i_i_i_i_i_i_i23 = (uint32_t)(r71_i2_i_i_i_i_i_i_i22 | 3);
    r6_i_i_i_i_i_i_i24 = (uint64_t)r10_i_i_i_i_i_i_i23;
    r8_i_i_i_i_i_i_i25 = (uint64_t)(r6_i_i_i_i_i_i_i24 * UINT64_C(376287347));
    r17_i_i_i_i_i_i_i26 = (uint64_t)(r8_i_i_i_i_i_i_i25 & UINT64_C(549755813885));
    r25_i_i_i_i_i_i27 = (uint64_t)(r17_i_i_i_i_i_i_i26 * UINT64_C(1461));
    r27_i_i_i_i_i_i28 = (uint64_t)(r25_i_i_i_i_i_i27 >> (UINT64_C(41) & 63u));
    r29_i_i_i_i_i_i29 = (uint32_t)(r27_i_i_i_i_i_i28);
    r11_4 = (uint32_t)(r29_i_i_i_i_i_i29 + 4);
    r16_not = r11_4 > r3_3;
    if (r16_not) { goto at__join_3; }
    goto at__arm_2_i_i30;
    at__join_3:;
    r22 = (uint32_t)(r11_4 - r3_3);
    r24_2 = r22 > 364u;
    if (r24_2) { goto at__arm_2_i_i30; }
    goto at__arm_1_2;
    at__arm_1_2:;
    v6 = (uint16_t)(r22);
    r31_lhs_trunc = (uint16_t)((uint32_t)v6 + (uint32_t)6);
    r315 = (uint16_t)((uint32_t)r31_lhs_trunc / (uint32_t)7);
    scevgep_2 = (a0 + (int64_t)r11_i_i18);
    STORE(uint64_t, scevgep_2, r6249);
    reass_sub = (uint64_t)(r14_i14 - r4);
    r40 = (uint64_t)(reass_sub + UINT64_C(4));
    r5_i_i_i_i_i39 = (uint64_t)(r40 + r11_i_i18);
    r8_i_i_i_i40 = (a0 + (int64_t)r5_i_i_i_i_i39);
    STORE(uint8_t, r8_i_i_i_i40, 45u);
    r8_i3 = (r8_i_i_i_i40 + 1);
    STORE(uint8_t, r8_i3, 87u);
    v7 = (uint16_t)((uint32_t)r315 << 1);
    r13_i_i_i_i_i41 = (uint64_t)v7;
    r17_i_i_i_i_i42 = ((bytes)&static_12 + (int64_t)r13_i_i_i_i_i41);
    LOAD(uint8_t, r19_i_i5_i_i_i43, r17_i_i_i_i_i42);
    r25_i_i6_i_i_i44 = (r17_i_i_i_i_i42 + 1);
    LOAD(uint8_t, r27_i_i_i_i_i45, r25_i_i6_i_i_i44);
    r8_i_i_i_i_i46 = (r8_i_i_i_i40 + 2);
    STORE(uint8_t, r8_i_i_i_i_i46, r19_i_i5_i_i_i43);
    r8_i4_i_i_i_i47 = (r8_i_i_i_i40 + 3);
    STORE(uint8_t, r8_i4_i_i_i_i47, r27_i_i_i_i_i45);
    r11_i5 = (uint64_t)(r5_i_i_i_i_i39 + UINT64_C(4));
    {
    storemerge = r11_i5;
    goto at__caltool_form_texts_push_names_1f478b2d7b47a44d_exit;
    }
    at__arm_2_i_i30:;
    r4_2 = (uint64_t)r5;
    r6_3 = (uint64_t)(r4_2 * UINT64_C(613566757));
    r8_7 = (uint64_t)(r6_3 >> (UINT64_C(32) & 63u));
    r10_2 = (uint32_t)(r8_7);
    r10_i2 = (uint32_t)(r10_2 << 2);
    r12_2 = (uint32_t)(r10_i2 | 2);
    r14_2 = (uint32_t)(r12_2 / 20871u);
    r3_4 = (uint32_t)(r14_2 * 3);
    r17_5 = (uint32_t)(r10_2 * 28u);
    r5_2 = (uint32_t)(r17_5 + 15u);
    r71_i2_2 = (uint32_t)(r5_2 + r3_4);
    r10_3 = (uint32_t)(r71_i2_2 | 3);
    r6_4 = (uint64_t)r10_3;
    r8_8 = (uint64_t)(r6_4 * UINT64_C(376287347));
    r10_i5 = (uint64_t)(r8_8 >> (UINT64_C(39) & 63u));
    r12_3 = (uint32_t)(r10_i5);
    r17_6 = (uint64_t)(r8_8 & UINT64_C(549755813885));
    r30_2 = (uint64_t)(r17_6 * UINT64_C(27356599));
    r6_i3 = (uint32_t)(r12_3 + 4294704897u);
    r8_i_i_i3 = r10_3 < 383364939u;
    x_2 = r8_i_i_i3 ? 45u : 43u;
    r21_4 = r6_i3 > 9999u;
    r9_i1_2 = (a0 + (int64_t)r11_i_i18);
    STORE(uint8_t, r9_i1_2, x_2);
    r1_3 = (uint64_t)r21_4;
    r14_3 = (uint64_t)(r11_i_i18 + r1_3);
    r2_0_2 = (int32_t)r6_i3 < 0 ? (uint32_t)(0u - r6_i3) : r6_i3;
    r9_2 = (uint32_t)(r2_0_2 / 10000u);
    v8 = (uint32_t)(r9_2 << 1);
    r13_i3_2 = (uint64_t)v8;
    r17_i_i_i5 = ((bytes)&static_12 + (int64_t)r13_i3_2);
    LOAD(uint8_t, r19_i4_2, r17_i_i_i5);
    r25_i_i_i_i_i31 = (r17_i_i_i5 + 1);
    LOAD(uint8_t, r27_i_i_i6, r25_i_i_i_i_i31);
    r19_i_i_i_i_i32 = r2_0_2 > 99999u;
    r9_i7_2 = (a0 + (int64_t)r14_3);
    STORE(uint8_t, r9_i7_2, r19_i4_2);
    r1_i_i8_2 = (uint64_t)r19_i_i_i_i_i32;
    r14_i9_2 = (uint64_t)(r14_3 + r1_i_i8_2);
    r26_3 = r2_0_2 > 9999u;
    r9_i12_2 = (a0 + (int64_t)r14_i9_2);
    STORE(uint8_t, r9_i12_2, r27_i_i_i6);
    r1_i_i13_2 = (uint64_t)r26_3;
    r14_i14_2 = (uint64_t)(r14_i9_2 + r1_i_i13_2);
    r32_2 = (uint32_t)(r2_0_2 % 10000u);
    r3_lhs_trunc_2 = (uint16_t)(r32_2);
    r313_2 = (uint16_t)((uint32_t)r3_lhs_trunc_2 / (uint32_t)100u);
    v9 = (uint16_t)((uint32_t)r313_2 << 1);
    r13_4 = (uint64_t)v9;
    r17_i_i_i_i_i_i4 = ((bytes)&static_12 + (int64_t)r13_4);
    LOAD(uint8_t, r19_4, r17_i_i_i_i_i_i4);
    r25_5 = (r17_i_i_i_i_i_i4 + 1);
    LOAD(uint8_t, r27_5, r25_5);
    r8_i_i_i_i_i_i5 = (a0 + (int64_t)r14_i14_2);
    STORE(uint8_t, r8_i_i_i_i_i_i5, r19_4);
    r8_i4_3 = (r8_i_i_i_i_i_i5 + 1);
    STORE(uint8_t, r8_i4_3, r27_5);
    r614_2 = (uint16_t)((uint32_t)r3_lhs_trunc_2 % (uint32_t)100u);
    v10 = (uint16_t)((uint32_t)r614_2 << 1);
    r13_i_i3_2 = (uint64_t)v10;
    r17_i_i4_2 = ((bytes)&static_12 + (int64_t)r13_i_i3_2);
    LOAD(uint8_t, r19_i_i5_2, r17_i_i4_2);
    r25_i_i6_2 = (r17_i_i4_2 + 1);
    LOAD(uint8_t, r27_i_i7_2, r25_i_i6_2);
    r8_i_i10_2 = (r8_i_i_i_i_i_i5 + 2);
    STORE(uint8_t, r8_i_i10_2, r19_i_i5_2);
    r8_i4_i11_2 = (r8_i_i_i_i_i_i5 + 3);
    STORE(uint8_t, r8_i4_i11_2, r27_i_i7_2);
    r8_i16_2 = (r8_i_i_i_i_i_i5 + 4);
    STORE(uint8_t, r8_i16_2, 45u);
    r8_i19_2 = (r8_i_i_i_i_i_i5 + 5);
    STORE(uint8_t, r8_i19_2, 87u);
    v11 = (uint64_t)(r30_2 >> (UINT64_C(57) & 63u));
    r21_5 = (uint64_t)(v11 & UINT64_C(126));
    v12 = ((bytes)&static_12 + (int64_t)r21_5);
    r17_7 = (v12 + 2);
    LOAD(uint8_t, r19_5, r17_7);
    r25_i_i_i_i_i6 = (v12 + 3);
    LOAD(uint8_t, r27_i_i_i_i_i7, r25_i_i_i_i_i6);
    r8_i_i_i_i_i_i33 = (r8_i_i_i_i_i_i5 + 6);
    STORE(uint8_t, r8_i_i_i_i_i_i33, r19_5);
    r8_i4_4 = (r8_i_i_i_i_i_i5 + 7);
    STORE(uint8_t, r8_i4_4, r27_i_i_i_i_i7);
    r11_i5_2 = (uint64_t)(r14_i14_2 + UINT64_C(8));
    {
    storemerge = r11_i5_2;
    goto at__caltool_form_texts_push_names_1f478b2d7b47a44d_exit;
    }
    at__caltool_form_texts_push_names_1f478b2d7b47a44d_exit:;
    r8_i10 = (a0 + (int64_t)storemerge);
    STORE(uint8_t, r8_i10, 32u);
    r11_i11 = (uint64_t)(storemerge + UINT64_C(1));
    v13 = (uint16_t)(r27_i_i_i_i_i_i28);
    r15_i_lhs_trunc = (uint16_t)((uint32_t)v13 + (uint32_t)1);
    r15_i22 = (uint16_t)((uint32_t)r15_i_lhs_trunc / (uint32_t)100u);
    v14 = (uint16_t)((uint32_t)r15_i22 << 1);
    r13_5 = (uint64_t)v14;
    r17_i1 = ((bytes)&static_12 + (int64_t)r13_5);
    r25_i3 = (r17_i1 + 1);
    LOAD(uint8_t, r27_i4, r25_i3);
    r25_i23 = (uint16_t)((uint32_t)r15_i_lhs_trunc % (uint32_t)100u);
    v15 = (uint16_t)((uint32_t)r25_i23 << 1);
    r13_i6 = (uint64_t)v15;
    r17_i_i_i34 = ((bytes)&static_12 + (int64_t)r13_i6);
    LOAD(uint8_t, r19_i7, r17_i_i_i34);
    r25_i8 = (r17_i_i_i34 + 1);
    LOAD(uint8_t, r27_i9, r25_i8);
    r9_i_i_i35 = (a0 + (int64_t)r11_i11);
    r40_2 = r17_i_i_i_i_i_i_i26 > UINT64_C(149009789390);
    STORE(uint8_t, r9_i_i_i35, r27_i4);
    r1_i_i_i_i36 = (uint64_t)r40_2;
    r14_i_i_i37 = (uint64_t)(r11_i11 + r1_i_i_i_i36);
    r46 = r17_i_i_i_i_i_i_i26 > UINT64_C(13546344490);
    r9_i17 = (a0 + (int64_t)r14_i_i_i37);
    STORE(uint8_t, r9_i17, r19_i7);
    r1_i_i18 = (uint64_t)r46;
    r14_i19 = (uint64_t)(r14_i_i_i37 + r1_i_i18);
    r8_i_i_i38 = (a0 + (int64_t)r14_i19);
    STORE(uint8_t, r8_i_i_i38, r27_i9);
    r11_i21 = (uint64_t)(r14_i19 + UINT64_C(1));
    {
    r11_i21_i_i_i_sink = r11_i21;
    goto at__join_4;
    }
    at__join_4:;
    STORE(uint64_t, r3, r11_i21_i_i_i_sink);
    return;
}

static uint8_t std_io_io_buffer_Buffer_flush(bytes a0)
{
    uint8_t common_ret_op, r2_sroa_0_0, r6_sroa_14_028, r6_sroa_11_027, r6_sroa_63_026, r16, r62_not, r82, r88_not, r4, r97, exitcond_not, r123_not;
    uint64_t r3_0104, r6_sroa_0_0103, r3_1, r6_sroa_30_033, r6_sroa_28_032, r6_sroa_26_031, r6_sroa_23_030, r13, v0, r1_i2, r75, r3, a0_a1, r118;
    uint32_t r6_sroa_20_029, r26, r0;
    bytes r6_sroa_32, r12, r23, r71, r39, r42, r11_sroa_3_sroa_3_0_r42_sroa_idx, r11_sroa_3_sroa_4_0_r42_sroa_idx, r11_sroa_3_sroa_5_0_r42_sroa_idx, r11_sroa_3_sroa_6_0_r42_sroa_idx, r11_sroa_3_sroa_7_0_r42_sroa_idx, r11_sroa_3_sroa_8_0_r42_sroa_idx, r11_sroa_3_sroa_9_0_r42_sroa_idx, r11_sroa_3_sroa_10_0_r42_sroa_idx, r11_sroa_3_sroa_11_0_r42_sroa_idx;
    uint64_t room_r6_sroa_32[6];
    r6_sroa_32 = (bytes)room_r6_sroa_32;
    r12 = (a0 + 1032);
    LOAD(uint64_t, r13, r12);
    STORE(uint64_t, r12, UINT64_C(0));
    r16 = r13 > UINT64_C(1024);
    if (r16) { { common_ret_op = 0; goto at__common_ret; } }
    goto at__join_3;
    at__common_ret:;
    return common_ret_op;
    at__join_3:;
    r23 = (a0 + 4);
    LOAD(uint32_t, r26, a0);
    v0 = (uint64_t)(r13 + UINT64_C(63));
    {
    r3_0104 = UINT64_C(0);
    r6_sroa_0_0103 = UINT64_C(0);
    goto at__arm_3;
    }
    at__arm_3:;
    r1_i2 = (uint64_t)(r6_sroa_0_0103 + UINT64_C(1));
    r62_not = r13 > r3_0104;
    if (r62_not) { goto at__join_9; }
    { common_ret_op = 1; goto at__common_ret; }
    at__join_9:;
    r71 = (r23 + (int64_t)r3_0104);
    r75 = (uint64_t)(r13 - r3_0104);
    r3 = host_write(r26, r71, r75);
    r82 = (int64_t)r3 < (int64_t)UINT64_C(0);
    if (r82) { goto at__then_10; }
    goto at__else_11;
    at__then_10:;
    r0 = host_error();
    r88_not = r0 == 4;
    if (r88_not) { { r3_1 = r3_0104; goto at__join_12; } }
    goto at__then_13;
    at__then_13:;
    r4 = (int32_t)r0 < (int32_t)0;
    if (r4) { { r2_sroa_0_0 = 41u; goto at__std_io_io_error_Error_from_raw_os_error_exit; } }
    goto at__else_2;
    at__else_2:;
    switch (r0) {
    case 1: { r2_sroa_0_0 = 1; goto at__std_io_io_error_Error_from_raw_os_error_exit; }
    case 2: goto at__arm_2;
    case 122u: goto at__arm_39;
    case 7: goto at__arm_4;
    case 11u: goto at__arm_5;
    case 12u: goto at__arm_6;
    case 13u: { r2_sroa_0_0 = 1; goto at__std_io_io_error_Error_from_raw_os_error_exit; }
    case 16u: goto at__arm_8;
    case 17u: goto at__arm_9;
    case 18u: goto at__arm_10;
    case 20u: goto at__arm_11;
    case 21u: goto at__arm_12;
    case 22u: goto at__arm_13;
    case 26u: goto at__arm_14;
    case 27u: goto at__arm_15;
    case 28u: goto at__arm_16;
    case 29u: goto at__arm_17;
    case 30u: goto at__arm_18;
    case 31u: goto at__arm_19;
    case 32u: goto at__arm_20;
    case 35u: goto at__arm_21;
    case 36u: goto at__arm_22;
    case 38u: goto at__arm_23;
    case 39u: goto at__arm_24;
    case 40u: goto at__arm_25;
    case 95u: goto at__arm_23;
    case 98u: goto at__arm_27;
    case 99u: goto at__arm_28;
    case 100u: goto at__arm_29;
    case 101u: goto at__arm_30;
    case 103u: goto at__arm_31;
    case 104u: goto at__arm_32;
    case 107u: goto at__arm_33;
    case 110u: goto at__arm_34;
    case 111u: goto at__arm_35;
    case 113u: goto at__arm_36;
    case 115u: goto at__arm_37;
    case 116u: goto at__arm_38;
    default: goto at__default_40;
    }
    at__arm_2:;
    {
    r2_sroa_0_0 = 0;
    goto at__std_io_io_error_Error_from_raw_os_error_exit;
    }
    at__arm_4:;
    {
    r2_sroa_0_0 = 34u;
    goto at__std_io_io_error_Error_from_raw_os_error_exit;
    }
    at__arm_5:;
    {
    r2_sroa_0_0 = 13u;
    goto at__std_io_io_error_Error_from_raw_os_error_exit;
    }
    at__arm_6:;
    {
    r2_sroa_0_0 = 38u;
    goto at__std_io_io_error_Error_from_raw_os_error_exit;
    }
    at__arm_8:;
    {
    r2_sroa_0_0 = 28u;
    goto at__std_io_io_error_Error_from_raw_os_error_exit;
    }
    at__arm_9:;
    {
    r2_sroa_0_0 = 12u;
    goto at__std_io_io_error_Error_from_raw_os_error_exit;
    }
    at__arm_10:;
    {
    r2_sroa_0_0 = 31u;
    goto at__std_io_io_error_Error_from_raw_os_error_exit;
    }
    at__arm_11:;
    {
    r2_sroa_0_0 = 14u;
    goto at__std_io_io_error_Error_from_raw_os_error_exit;
    }
    at__arm_12:;
    {
    r2_sroa_0_0 = 15u;
    goto at__std_io_io_error_Error_from_raw_os_error_exit;
    }
    at__arm_13:;
    {
    r2_sroa_0_0 = 20u;
    goto at__std_io_io_error_Error_from_raw_os_error_exit;
    }
    at__arm_14:;
    {
    r2_sroa_0_0 = 29u;
    goto at__std_io_io_error_Error_from_raw_os_error_exit;
    }
    at__arm_15:;
    {
    r2_sroa_0_0 = 27u;
    goto at__std_io_io_error_Error_from_raw_os_error_exit;
    }
    at__arm_16:;
    {
    r2_sroa_0_0 = 24u;
    goto at__std_io_io_error_Error_from_raw_os_error_exit;
    }
    at__arm_17:;
    {
    r2_sroa_0_0 = 25u;
    goto at__std_io_io_error_Error_from_raw_os_error_exit;
    }
    at__arm_18:;
    {
    r2_sroa_0_0 = 17u;
    goto at__std_io_io_error_Error_from_raw_os_error_exit;
    }
    at__arm_19:;
    {
    r2_sroa_0_0 = 32u;
    goto at__std_io_io_error_Error_from_raw_os_error_exit;
    }
    at__arm_20:;
    {
    r2_sroa_0_0 = 11u;
    goto at__std_io_io_error_Error_from_raw_os_error_exit;
    }
    at__arm_21:;
    {
    r2_sroa_0_0 = 30u;
    goto at__std_io_io_error_Error_from_raw_os_error_exit;
    }
    at__arm_22:;
    {
    r2_sroa_0_0 = 33u;
    goto at__std_io_io_error_Error_from_raw_os_error_exit;
    }
    at__arm_23:;
    {
    r2_sroa_0_0 = 36u;
    goto at__std_io_io_error_Error_from_raw_os_error_exit;
    }
    at__arm_24:;
    {
    r2_sroa_0_0 = 16u;
    goto at__std_io_io_error_Error_from_raw_os_error_exit;
    }
    at__arm_25:;
    {
    r2_sroa_0_0 = 18u;
    goto at__std_io_io_error_Error_from_raw_os_error_exit;
    }
    at__arm_27:;
    {
    r2_sroa_0_0 = 8;
    goto at__std_io_io_error_Error_from_raw_os_error_exit;
    }
    at__arm_28:;
    {
    r2_sroa_0_0 = 9;
    goto at__std_io_io_error_Error_from_raw_os_error_exit;
    }
    at__arm_29:;
    {
    r2_sroa_0_0 = 10u;
    goto at__std_io_io_error_Error_from_raw_os_error_exit;
    }
    at__arm_30:;
    {
    r2_sroa_0_0 = 5;
    goto at__std_io_io_error_Error_from_raw_os_error_exit;
    }
    at__arm_31:;
    {
    r2_sroa_0_0 = 6;
    goto at__std_io_io_error_Error_from_raw_os_error_exit;
    }
    at__arm_32:;
    {
    r2_sroa_0_0 = 3;
    goto at__std_io_io_error_Error_from_raw_os_error_exit;
    }
    at__arm_33:;
    {
    r2_sroa_0_0 = 7;
    goto at__std_io_io_error_Error_from_raw_os_error_exit;
    }
    at__arm_34:;
    {
    r2_sroa_0_0 = 22u;
    goto at__std_io_io_error_Error_from_raw_os_error_exit;
    }
    at__arm_35:;
    {
    r2_sroa_0_0 = 2;
    goto at__std_io_io_error_Error_from_raw_os_error_exit;
    }
    at__arm_36:;
    {
    r2_sroa_0_0 = 4;
    goto at__std_io_io_error_Error_from_raw_os_error_exit;
    }
    at__arm_37:;
    {
    r2_sroa_0_0 = 39u;
    goto at__std_io_io_error_Error_from_raw_os_error_exit;
    }
    at__arm_38:;
    {
    r2_sroa_0_0 = 19u;
    goto at__std_io_io_error_Error_from_raw_os_error_exit;
    }
    at__arm_39:;
    {
    r2_sroa_0_0 = 26u;
    goto at__std_io_io_error_Error_from_raw_os_error_exit;
    }
    at__default_40:;
    {
    r2_sroa_0_0 = 41u;
    goto at__std_io_io_error_Error_from_raw_os_error_exit;
    }
    at__std_io_io_error_Error_from_raw_os_error_exit:;
    memset(r6_sroa_32, 0, UINT64_C(48));
    {
    r6_sroa_30_033 = UINT64_C(0);
    r6_sroa_28_032 = UINT64_C(0);
    r6_sroa_26_031 = UINT64_C(0);
    r6_sroa_23_030 = UINT64_C(0);
    r6_sroa_20_029 = r0;
    r6_sroa_14_028 = 0;
    r6_sroa_11_027 = r2_sroa_0_0;
    r6_sroa_63_026 = 0;
    goto at__arm_5_2;
    }
    at__else_11:;
    r97 = r3 == UINT64_C(0);
    if (r97) { goto at__then_16; }
    goto at__else_17;
    at__then_16:;
    memset(r6_sroa_32, 46u, UINT64_C(48));
    {
    r6_sroa_30_033 = UINT64_C(3327647951695996518);
    r6_sroa_28_032 = UINT64_C(8458358670138239095);
    r6_sroa_26_031 = UINT64_C(2334399978102268015);
    r6_sroa_23_030 = UINT64_C(8367798494427701606);
    r6_sroa_20_029 = 0;
    r6_sroa_14_028 = 28u;
    r6_sroa_11_027 = 23u;
    r6_sroa_63_026 = 2;
    goto at__arm_5_2;
    }
    at__else_17:;
    a0_a1 = r3 < r75 ? r3 : r75;
    r118 = (uint64_t)(a0_a1 + r3_0104);
    {
    r3_1 = r118;
    goto at__join_12;
    }
    at__join_12:;
    exitcond_not = r6_sroa_0_0103 == v0;
    if (exitcond_not) { goto at__after_1; }
    { r3_0104 = r3_1; r6_sroa_0_0103 = r1_i2; goto at__arm_3; }
    at__after_1:;
    r123_not = r13 > r3_1;
    if (r123_not) { goto at__std_io_io_write_to_exit; }
    { common_ret_op = 1; goto at__common_ret; }
    at__std_io_io_write_to_exit:;
    memset(r6_sroa_32, 0, UINT64_C(48));
    {
    r6_sroa_30_033 = UINT64_C(0);
    r6_sroa_28_032 = UINT64_C(0);
    r6_sroa_26_031 = UINT64_C(0);
    r6_sroa_23_030 = UINT64_C(0);
    r6_sroa_20_029 = 4;
    r6_sroa_14_028 = 0;
    r6_sroa_11_027 = 35u;
    r6_sroa_63_026 = 0;
    goto at__arm_5_2;
    }
    at__arm_5_2:;
    r39 = (a0 + 1040);
    STORE(uint64_t, r39, UINT64_C(1));
    r42 = (a0 + 1048);
    STORE(uint8_t, r42, r6_sroa_63_026);
    r11_sroa_3_sroa_3_0_r42_sroa_idx = (a0 + 1049);
    STORE(uint8_t, r11_sroa_3_sroa_3_0_r42_sroa_idx, r6_sroa_11_027);
    r11_sroa_3_sroa_4_0_r42_sroa_idx = (a0 + 1050);
    STORE(uint8_t, r11_sroa_3_sroa_4_0_r42_sroa_idx, r6_sroa_14_028);
    r11_sroa_3_sroa_5_0_r42_sroa_idx = (a0 + 1051);
    STORE(uint8_t, r11_sroa_3_sroa_5_0_r42_sroa_idx, 0);
    r11_sroa_3_sroa_6_0_r42_sroa_idx = (a0 + 1052);
    STORE(uint32_t, r11_sroa_3_sroa_6_0_r42_sroa_idx, r6_sroa_20_029);
    r11_sroa_3_sroa_7_0_r42_sroa_idx = (a0 + 1056);
    STORE(uint64_t, r11_sroa_3_sroa_7_0_r42_sroa_idx, r6_sroa_23_030);
    r11_sroa_3_sroa_8_0_r42_sroa_idx = (a0 + 1064);
    STORE(uint64_t, r11_sroa_3_sroa_8_0_r42_sroa_idx, r6_sroa_26_031);
    r11_sroa_3_sroa_9_0_r42_sroa_idx = (a0 + 1072);
    STORE(uint64_t, r11_sroa_3_sroa_9_0_r42_sroa_idx, r6_sroa_28_032);
    r11_sroa_3_sroa_10_0_r42_sroa_idx = (a0 + 1080);
    STORE(uint64_t, r11_sroa_3_sroa_10_0_r42_sroa_idx, r6_sroa_30_033);
    r11_sroa_3_sroa_11_0_r42_sroa_idx = (a0 + 1088);
    memcpy(r11_sroa_3_sroa_11_0_r42_sroa_idx, r6_sroa_32, UINT64_C(48));
    {
    common_ret_op = 0;
    goto at__common_ret;
    }
}

static uint8_t core_fmt_formatter_Formatter_write_indented_bf264aed5fa78656(bytes a0, bytes a1, uint64_t a2)
{
    uint64_t r3_053, r4_052, r3_03, r3_1, r3_0333, r3_045, r25, r0_sroa_0_0_idx, r19_2, r41, r0_sroa_4_015, r0_sroa_0_0_idx16, r1930, r4137;
    uint8_t r0_sroa_0_0, r2151_not, r17, r19, r12_not, r7_i_i_not_not, r13, r14, r222_not, exitcond_not, r33, trunc, r31, trunc_2, exitcond_not_2, r12_not11, r7_i_i20_not, r1323, r1424, r222_not31, exitcond_not38, r3334, trunc35, r3126;
    bytes r12, r18, r15, r0_sroa_0_0_2, r0_sroa_0_017, r1222, r1829;
    r2151_not = a2 == UINT64_C(0);
    if (r2151_not) { { r0_sroa_0_0 = 0; goto at__return_13; } }
    goto at__core_fmt_utf8_is_newline_at_exit_lr_ph;
    at__core_fmt_utf8_is_newline_at_exit_lr_ph:;
    r12 = (a0 + 1168);
    r18 = (a0 + 1160);
    {
    r3_053 = UINT64_C(0);
    r4_052 = UINT64_C(0);
    goto at__core_fmt_utf8_is_newline_at_exit;
    }
    at__core_fmt_utf8_is_newline_at_exit:;
    r15 = (a1 + (int64_t)r4_052);
    LOAD(uint8_t, r17, r15);
    r19 = r17 == 10u;
    r3_045 = (uint64_t)(r4_052 + UINT64_C(1));
    if (r19) { goto at__then_6; }
    { r3_1 = r3_053; goto at__join_8; }
    at__then_6:;
    r12_not = r3_053 > r3_045;
    r25 = (uint64_t)(r3_045 - r3_053);
    r0_sroa_0_0_idx = r12_not ? UINT64_C(0) : r3_053;
    r0_sroa_0_0_2 = (a1 + (int64_t)r0_sroa_0_0_idx);
    r7_i_i_not_not = r3_053 > r4_052;
    if (r7_i_i_not_not) { { r3_1 = r3_045; goto at__join_8; } }
    goto at__join_3;
    at__join_3:;
    LOAD(uint8_t, r13, r12);
    r14 = (uint8_t)((r13) & 1);
    if (r14) { goto at__then_1; }
    goto at__core_fmt_formatter_Formatter_write_indented_line_bf264aed5fa78656_exit;
    at__then_1:;
    LOAD(uint64_t, r19_2, r18);
    r222_not = r19_2 == UINT64_C(0);
    if (r222_not) { goto at__core_fmt_formatter_Formatter_write_indented_line_bf264aed5fa78656_exit; }
    { r3_03 = UINT64_C(0); goto at__join_8_2; }
    at__loop_5:;
    r41 = (uint64_t)(r3_03 + UINT64_C(1));
    exitcond_not = r41 == r19_2;
    if (exitcond_not) { goto at__core_fmt_formatter_Formatter_write_indented_line_bf264aed5fa78656_exit; }
    { r3_03 = r41; goto at__join_8_2; }
    at__join_8_2:;
    r33 = core_fmt_formatter_Formatter_write_raw_bf264aed5fa78656(a0, (bytes)&static_27, UINT64_C(4));
    trunc = (uint8_t)((r33) & 1);
    if (trunc) { { r0_sroa_0_0 = 1; goto at__return_13; } }
    goto at__loop_5;
    at__core_fmt_formatter_Formatter_write_indented_line_bf264aed5fa78656_exit:;
    STORE(uint8_t, r12, 1);
    r31 = core_fmt_formatter_Formatter_write_raw_bf264aed5fa78656(a0, r0_sroa_0_0_2, r25);
    trunc_2 = (uint8_t)((r31) & 1);
    if (trunc_2) { { r0_sroa_0_0 = 1; goto at__return_13; } }
    { r3_1 = r3_045; goto at__join_8; }
    at__join_8:;
    exitcond_not_2 = r3_045 == a2;
    if (exitcond_not_2) { goto at__after_1; }
    { r3_053 = r3_1; r4_052 = r3_045; goto at__core_fmt_utf8_is_newline_at_exit; }
    at__after_1:;
    r12_not11 = r3_1 > a2;
    r0_sroa_4_015 = a2 > r3_1 ? (uint64_t)(a2 - r3_1) : UINT64_C(0);
    r0_sroa_0_0_idx16 = r12_not11 ? UINT64_C(0) : r3_1;
    r0_sroa_0_017 = (a1 + (int64_t)r0_sroa_0_0_idx16);
    r7_i_i20_not = a2 > r3_1;
    if (r7_i_i20_not) { goto at__join_321; }
    { r0_sroa_0_0 = 0; goto at__return_13; }
    at__join_321:;
    r1222 = (a0 + 1168);
    LOAD(uint8_t, r1323, r1222);
    r1424 = (uint8_t)((r1323) & 1);
    if (r1424) { goto at__then_128; }
    goto at__arm_525;
    at__then_128:;
    r1829 = (a0 + 1160);
    LOAD(uint64_t, r1930, r1829);
    r222_not31 = r1930 == UINT64_C(0);
    if (r222_not31) { goto at__arm_525; }
    { r3_0333 = UINT64_C(0); goto at__join_832; }
    at__loop_536:;
    r4137 = (uint64_t)(r3_0333 + UINT64_C(1));
    exitcond_not38 = r4137 == r1930;
    if (exitcond_not38) { goto at__arm_525; }
    { r3_0333 = r4137; goto at__join_832; }
    at__join_832:;
    r3334 = core_fmt_formatter_Formatter_write_raw_bf264aed5fa78656(a0, (bytes)&static_27, UINT64_C(4));
    trunc35 = (uint8_t)((r3334) & 1);
    if (trunc35) { { r0_sroa_0_0 = 1; goto at__return_13; } }
    goto at__loop_536;
    at__arm_525:;
    STORE(uint8_t, r1222, 0);
    r3126 = core_fmt_formatter_Formatter_write_raw_bf264aed5fa78656(a0, r0_sroa_0_017, r0_sroa_4_015);
    {
    r0_sroa_0_0 = r3126;
    goto at__return_13;
    }
    at__return_13:;
    return r0_sroa_0_0;
}

static uint8_t core_fmt_formatter_Formatter_write_raw_bf264aed5fa78656(bytes a0, bytes a1, uint64_t a2)
{
    uint64_t r3_012, common_ret_op, r11, r5_sroa_4_019, r339, r37, r61, r109, r30, r11_i_pre, r23, r33_pr, r48;
    bytes r5_sroa_0_018, r26, r19, r19_i43, r19_i53, r10, r42, r20, r45;
    uint8_t r5_sroa_0_0, r1111, r28, r32, r13_not, r21, r24, v0, narrow, r44, r50, or_cond, r56, r13_not_i40, r21_i44, or_cond68, r74, r91, r97, r103, or_cond_2, r13_not_i50, r21_i54, or_cond69, or_cond10, r11_not, r52, r13, r18, r35, r7;
    uint32_t r30_2, r8_0, r79, r81, r83, r86, r122, r126, r129, v1;
    r1111 = a2 == UINT64_C(0);
    if (r1111) { { r5_sroa_0_0 = 0; goto at__join_3; } }
    { r3_012 = UINT64_C(0); goto at__join_5; }
    at__join_5:;
    r26 = (a1 + (int64_t)r3_012);
    LOAD(uint8_t, r28, r26);
    r30_2 = (uint32_t)r28;
    r32 = (int8_t)r28 > (int8_t)255u;
    if (r32) { { common_ret_op = UINT64_C(1); goto at__join_8; } }
    goto at__join_3_2;
    at__join_3_2:;
    r37 = (uint64_t)(r3_012 + UINT64_C(1));
    r13_not = a2 > r37;
    if (r13_not) { goto at__join_3_3; }
    { r5_sroa_0_0 = 1; goto at__join_3; }
    at__join_3_3:;
    r19 = (a1 + (int64_t)r37);
    LOAD(uint8_t, r21, r19);
    r24 = (int8_t)r21 > (int8_t)255u;
    if (r24) { { r5_sroa_0_0 = 1; goto at__join_3; } }
    goto at__core_fmt_utf8_continuation_bits_at_exit_i_i;
    at__core_fmt_utf8_continuation_bits_at_exit_i_i:;
    v0 = r21 < 192u ? r21 : 192u;
    narrow = (uint8_t)((uint32_t)v0 & (uint32_t)127u);
    r8_0 = (uint32_t)narrow;
    r44 = r28 < 194u;
    r50 = narrow > 63u;
    or_cond = r44 ? 1 : r50;
    if (or_cond) { { r5_sroa_0_0 = 1; goto at__join_3; } }
    goto at__join_9;
    at__join_9:;
    r56 = r28 < 224u;
    if (r56) { { common_ret_op = UINT64_C(2); goto at__join_8; } }
    goto at__join_12;
    at__join_12:;
    r61 = (uint64_t)(r3_012 + UINT64_C(2));
    r13_not_i40 = a2 > r61;
    if (r13_not_i40) { goto at__join_3_i42; }
    { r5_sroa_0_0 = 1; goto at__join_3; }
    at__join_3_i42:;
    r19_i43 = (a1 + (int64_t)r61);
    LOAD(uint8_t, r21_i44, r19_i43);
    or_cond68 = (int8_t)r21_i44 < (int8_t)192u;
    if (or_cond68) { goto at__join_15; }
    { r5_sroa_0_0 = 1; goto at__join_3; }
    at__join_15:;
    r74 = r28 < 240u;
    if (r74) { goto at__then_16; }
    goto at__join_18;
    at__then_16:;
    r79 = (uint32_t)(r30_2 << 12u);
    r81 = (uint32_t)(r79 + 4294049792u);
    r83 = (uint32_t)(r8_0 << 6);
    r86 = (uint32_t)(r83 | r81);
    r91 = r86 < 2048u;
    if (r91) { { r5_sroa_0_0 = 1; goto at__join_3; } }
    goto at__join_21;
    at__join_21:;
    r97 = r86 > 55295u;
    r103 = r28 < 238u;
    or_cond_2 = r97 ? r103 : 0;
    if (or_cond_2) { { r5_sroa_0_0 = 1; goto at__join_3; } }
    { common_ret_op = UINT64_C(3); goto at__join_8; }
    at__join_18:;
    r109 = (uint64_t)(r3_012 + UINT64_C(3));
    r13_not_i50 = a2 > r109;
    if (r13_not_i50) { goto at__join_3_i52; }
    { r5_sroa_0_0 = 1; goto at__join_3; }
    at__join_3_i52:;
    r19_i53 = (a1 + (int64_t)r109);
    LOAD(uint8_t, r21_i54, r19_i53);
    or_cond69 = (int8_t)r21_i54 < (int8_t)192u;
    if (or_cond69) { goto at__join_30; }
    { r5_sroa_0_0 = 1; goto at__join_3; }
    at__join_30:;
    r122 = (uint32_t)(r30_2 << 18u);
    r126 = (uint32_t)(r8_0 << 12u);
    r129 = (uint32_t)(r122 + 4231987200u);
    v1 = (uint32_t)(r129 + r126);
    or_cond10 = v1 < 1048576u;
    if (or_cond10) { { common_ret_op = UINT64_C(4); goto at__join_8; } }
    { r5_sroa_0_0 = 1; goto at__join_3; }
    at__join_8:;
    r30 = (uint64_t)(common_ret_op + r3_012);
    r11_not = r30 < a2;
    if (r11_not) { { r3_012 = r30; goto at__join_5; } }
    goto at__arm_3_lr_ph;
    at__arm_3_lr_ph:;
    r10 = (a0 + 1032);
    r42 = (a0 + 4);
    LOAD(uint64_t, r11_i_pre, r10);
    {
    r11 = r11_i_pre;
    r5_sroa_4_019 = a2;
    r5_sroa_0_018 = a1;
    goto at__arm_3;
    }
    at__arm_3:;
    r20 = (r5_sroa_0_018 + 1);
    r23 = (uint64_t)(r5_sroa_4_019 + UINT64_C(18446744073709551615));
    LOAD(uint8_t, r52, r5_sroa_0_018);
    r13 = r11 > UINT64_C(1023);
    if (r13) { goto at__then_2; }
    { r339 = r11; goto at__std_io_io_buffer_Buffer_push_exit_i; }
    at__then_2:;
    r18 = std_io_io_buffer_Buffer_flush(a0);
    if (r18) { goto at__after_1; }
    { r5_sroa_0_0 = 1; goto at__join_3; }
    at__after_1:;
    LOAD(uint64_t, r33_pr, r10);
    r35 = r33_pr > UINT64_C(1023);
    if (r35) { { r5_sroa_0_0 = 1; goto at__join_3; } }
    { r339 = r33_pr; goto at__std_io_io_buffer_Buffer_push_exit_i; }
    at__std_io_io_buffer_Buffer_push_exit_i:;
    r45 = (r42 + (int64_t)r339);
    STORE(uint8_t, r45, r52);
    r48 = (uint64_t)(r339 + UINT64_C(1));
    STORE(uint64_t, r10, r48);
    r7 = r23 == UINT64_C(0);
    if (r7) { { r5_sroa_0_0 = 0; goto at__join_3; } }
    { r11 = r48; r5_sroa_4_019 = r23; r5_sroa_0_018 = r20; goto at__arm_3; }
    at__join_3:;
    return r5_sroa_0_0;
}
