/*
 * A correctly rounded square root by multiplications alone, to be timed beside the proved one.
 *
 * The method is the one that musl's sqrt has had since 1.2.2: a first approximation of the
 * reciprocal root from 128 entries of 16 bits, two Goldschmidt iterations in 32-bit fixed point
 * and one in 64-bit, each on upper halves of products, and an exact remainder that decides the
 * rounding. It is written anew from that description, not copied. What musl adds for the inexact
 * flag and for other rounding modes is left out, as the proved root has neither: musl's own takes
 * a little longer.
 *
 * The build writes first_reciprocal[128] to reciprocals.h, from the formula in build.rs.
 */
#include <math.h>
#include <stdint.h>
#include <string.h>

#include "reciprocals.h"

#define LEADING_BIT ((uint64_t)1 << 52)
#define INFINITE ((uint64_t)0x7ff << 52)

/* 3 with 30 digits behind the point */
#define THREE ((uint32_t)3 << 30)

static inline uint64_t pattern_of(double x)
{
    uint64_t pattern;
    memcpy(&pattern, &x, sizeof pattern);
    return pattern;
}

static inline double from_pattern(uint64_t pattern)
{
    double x;
    memcpy(&x, &pattern, sizeof x);
    return x;
}

static inline uint32_t upper_half(uint32_t a, uint32_t b)
{
    return (uint32_t)((uint64_t)a * b >> 32);
}

/* The upper half of a product, at most 2 too small: the lower halves are not multiplied. */
static inline uint64_t nearly_upper_half(uint64_t a, uint64_t b)
{
    uint64_t a_high = a >> 32, a_low = (uint32_t)a;
    uint64_t b_high = b >> 32, b_low = (uint32_t)b;
    return a_high * b_high + (a_high * b_low >> 32) + (a_low * b_high >> 32);
}

/*
 * The root, as 53 digits, of a mantissa from 1 up to 4 with 62 digits behind the point.
 *
 * With r near 1 / sqrt(m) and s = m * r, an iteration multiplies both by half of u = 3 - s * r: a
 * relative error e becomes 3/2 e^2. Digits behind the point: 32 and then 64 for r, 30 and then 62
 * for s and u.
 */
static inline uint64_t mantissa_of_root(uint64_t mantissa, uint32_t reciprocal)
{
    uint32_t root = upper_half((uint32_t)(mantissa >> 32), reciprocal);
    for (int iteration = 0; iteration < 2; iteration++) {
        uint32_t factor = THREE - upper_half(root, reciprocal);
        root = upper_half(root, factor) << 1;
        reciprocal = upper_half(reciprocal, factor) << 1;
    }

    /* The third iteration needs the root alone; it has 61 digits behind the point after it. */
    uint64_t wide_reciprocal = (uint64_t)reciprocal << 32;
    uint64_t wide_root = nearly_upper_half(mantissa, wide_reciprocal);
    uint64_t factor = ((uint64_t)THREE << 32) - nearly_upper_half(wide_root, wide_reciprocal);
    wide_root = nearly_upper_half(wide_root, factor);

    /* What is kept is below the exact root, by less than 1.1 of its last place. The exact root lies
     * beyond half of that place if the remainder is larger than what is kept. */
    uint64_t kept = (wide_root - 2) >> 9;
    uint64_t remainder = (mantissa << 42) - kept * kept;
    return kept + ((kept - remainder) >> 63);
}

/* The root of a normal number, from its pattern and `excess` too large an exponent */
static inline double root_of_normal(uint64_t pattern, uint64_t excess)
{
    uint64_t exponent = (pattern >> 52) - excess;
    uint64_t mantissa = (pattern | LEADING_BIT) << 11;
    if (exponent % 2 == 1)
        mantissa >>= 1;
    uint32_t reciprocal = (uint32_t)first_reciprocal[(pattern >> 46) % 128] << 16;
    uint64_t root = mantissa_of_root(mantissa, reciprocal);
    return from_pattern(((exponent + 1023) >> 1) << 52 | root % LEADING_BIT);
}

double root_by_products(double x)
{
    uint64_t pattern = pattern_of(x);
    if (pattern - LEADING_BIT < INFINITE - LEADING_BIT)
        return root_of_normal(pattern, 0);
    if (pattern - 1 >= INFINITE - 1)
        return x == 0 || pattern == INFINITE ? x : NAN;
    return root_of_normal(pattern_of(x * 0x1p52), 52);
}
