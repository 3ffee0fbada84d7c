#include <stddef.h>
#include <stdint.h>

#if defined(__BYTE_ORDER__) && __BYTE_ORDER__ != __ORDER_LITTLE_ENDIAN__
#error "this file is for little-endian machines: on others it would give wrong answers"
#endif
#if UINTPTR_MAX != UINT64_MAX
#error "this file is for machines with pointers of 64 bits"
#endif
#include <string.h>

typedef unsigned char *bytes;

/* Memory is read and written by memcpy, so no address has to be aligned. */
#define LOAD(type, place, from) memcpy(&(place), (from), sizeof(type))
#define STORE(type, to, value) do { type stored_ = (value); memcpy((to), &stored_, sizeof stored_); } while (0)

#if defined(__GNUC__)
#define MAYBE_UNUSED __attribute__((unused))
#define UNREACHABLE() __builtin_unreachable()
#define TRAP() __builtin_trap()
#define LEADING(x) ((unsigned)__builtin_clzll(x))
#define TRAILING(x) ((unsigned)__builtin_ctzll(x))
#define ONES(x) ((unsigned)__builtin_popcountll(x))
#else
#include <stdlib.h>
#define MAYBE_UNUSED
#define UNREACHABLE() abort()
#define TRAP() abort()
static unsigned LEADING(uint64_t x) { unsigned n = 0; while (!(x >> 63)) { x <<= 1; n++; } return n; }
static unsigned TRAILING(uint64_t x) { unsigned n = 0; while (!(x & 1)) { x >>= 1; n++; } return n; }
static unsigned ONES(uint64_t x) { unsigned n = 0; for (; x; x &= x - 1) n++; return n; }
#endif

/* The lesser and the greater of two numbers with their sign. In columns, gcc finds the vector instructions of this form alone. */
#define ENDS(bits) \
    MAYBE_UNUSED static inline int##bits##_t LESSER##bits(int##bits##_t a, int##bits##_t b) { return a < b ? a : b; } \
    MAYBE_UNUSED static inline int##bits##_t GREATER##bits(int##bits##_t a, int##bits##_t b) { return a > b ? a : b; }
ENDS(32)
ENDS(64)
#undef ENDS

/* Numbers of 128 bits: by the compiler's own, or by two words. */
#if defined(__SIZEOF_INT128__) && !defined(CALENDAR_TWO_WORDS)
__extension__ typedef unsigned __int128 wide;
__extension__ typedef __int128 wide_signed;
#define WIDE(name, result, expression) MAYBE_UNUSED static inline result wide_##name { return expression; }
WIDE(of(uint64_t high, uint64_t low), wide, (wide)high << 64 | low)
WIDE(low(wide a), uint64_t, (uint64_t)a)
WIDE(high(wide a), uint64_t, (uint64_t)(a >> 64))
WIDE(add(wide a, wide b), wide, a + b)
WIDE(sub(wide a, wide b), wide, a - b)
WIDE(mul(wide a, wide b), wide, a * b)
WIDE(udiv(wide a, wide b), wide, a / b)
WIDE(urem(wide a, wide b), wide, a % b)
WIDE(sdiv(wide a, wide b), wide, (wide)((wide_signed)a / (wide_signed)b))
WIDE(srem(wide a, wide b), wide, (wide)((wide_signed)a % (wide_signed)b))
WIDE(and(wide a, wide b), wide, a & b)
WIDE(or(wide a, wide b), wide, a | b)
WIDE(xor(wide a, wide b), wide, a ^ b)
WIDE(shl(wide a, unsigned n), wide, a << n)
WIDE(lshr(wide a, unsigned n), wide, a >> n)
WIDE(ashr(wide a, unsigned n), wide, (wide)((wide_signed)a >> n))
WIDE(eq(wide a, wide b), int, a == b)
WIDE(ult(wide a, wide b), int, a < b)
WIDE(slt(wide a, wide b), int, (wide_signed)a < (wide_signed)b)
#undef WIDE
#else
typedef struct { uint64_t low, high; } wide;
#define WIDE MAYBE_UNUSED static wide
WIDE wide_of(uint64_t high, uint64_t low) { wide r; r.low = low; r.high = high; return r; }
MAYBE_UNUSED static uint64_t wide_low(wide a) { return a.low; }
MAYBE_UNUSED static uint64_t wide_high(wide a) { return a.high; }
WIDE wide_add(wide a, wide b) { uint64_t low = a.low + b.low; return wide_of(a.high + b.high + (low < a.low), low); }
WIDE wide_sub(wide a, wide b) { return wide_of(a.high - b.high - (a.low < b.low), a.low - b.low); }
WIDE wide_mul(wide a, wide b)
{
    uint64_t half = UINT32_MAX, al = a.low & half, ah = a.low >> 32, bl = b.low & half, bh = b.low >> 32;
    uint64_t ll = al * bl, lh = al * bh, hl = ah * bl, mid = (ll >> 32) + (lh & half) + (hl & half);
    uint64_t high = ah * bh + (lh >> 32) + (hl >> 32) + (mid >> 32);
    return wide_of(high + a.low * b.high + a.high * b.low, (mid << 32) | (ll & half));
}
WIDE wide_and(wide a, wide b) { return wide_of(a.high & b.high, a.low & b.low); }
WIDE wide_or(wide a, wide b) { return wide_of(a.high | b.high, a.low | b.low); }
WIDE wide_xor(wide a, wide b) { return wide_of(a.high ^ b.high, a.low ^ b.low); }
WIDE wide_shl(wide a, unsigned n)
{
    return n == 0 ? a : n < 64 ? wide_of(a.high << n | a.low >> (64 - n), a.low << n) : wide_of(a.low << (n - 64), 0);
}
WIDE wide_lshr(wide a, unsigned n)
{
    return n == 0 ? a : n < 64 ? wide_of(a.high >> n, a.low >> n | a.high << (64 - n)) : wide_of(0, a.high >> (n - 64));
}
WIDE wide_ashr(wide a, unsigned n)
{
    uint64_t ones = a.high >> 63 ? UINT64_MAX : 0;
    wide r = wide_lshr(a, n);
    return n == 0 ? r : n < 64 ? wide_of(r.high | ones << (64 - n), r.low) : n == 64 ? wide_of(ones, r.low) : wide_of(ones, r.low | ones << (128 - n));
}
MAYBE_UNUSED static int wide_eq(wide a, wide b) { return a.low == b.low && a.high == b.high; }
MAYBE_UNUSED static int wide_ult(wide a, wide b) { return a.high < b.high || (a.high == b.high && a.low < b.low); }
MAYBE_UNUSED static int wide_slt(wide a, wide b)
{
    uint64_t sign = UINT64_C(1) << 63;
    return wide_ult(wide_of(a.high ^ sign, a.low), wide_of(b.high ^ sign, b.low));
}
/* A long division, bit by bit: the quotient, and the remainder behind the pointer. */
WIDE wide_divided(wide a, wide b, wide *rest)
{
    wide quotient = wide_of(0, 0), left = wide_of(0, 0);
    for (unsigned n = 128; n-- > 0;) {
        left = wide_or(wide_shl(left, 1), wide_and(wide_lshr(a, n), wide_of(0, 1)));
        if (!wide_ult(left, b)) {
            left = wide_sub(left, b);
            quotient = wide_or(quotient, wide_shl(wide_of(0, 1), n));
        }
    }
    *rest = left;
    return quotient;
}
WIDE wide_udiv(wide a, wide b) { wide rest; return wide_divided(a, b, &rest); }
WIDE wide_urem(wide a, wide b) { wide rest; wide_divided(a, b, &rest); return rest; }
WIDE wide_size(wide a) { return a.high >> 63 ? wide_sub(wide_of(0, 0), a) : a; }
WIDE wide_sdiv(wide a, wide b)
{
    wide r = wide_udiv(wide_size(a), wide_size(b));
    return (a.high ^ b.high) >> 63 ? wide_sub(wide_of(0, 0), r) : r;
}
WIDE wide_srem(wide a, wide b)
{
    wide r = wide_urem(wide_size(a), wide_size(b));
    return a.high >> 63 ? wide_sub(wide_of(0, 0), r) : r;
}
#undef WIDE
#endif

/* The number of 64 or 128 bits that the lowest bits of a number are, with their sign. */
#define SIGNED(value, bits) ((int64_t)((uint64_t)(value) << (64 - (bits))) >> (64 - (bits)))
#define WIDE_OF_SIGNED(value) wide_of((int64_t)(value) < 0 ? UINT64_MAX : 0, (uint64_t)(int64_t)(value))
