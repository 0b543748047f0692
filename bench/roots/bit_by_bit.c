/*
 * A correctly rounded square root that finds one binary digit a turn, to be timed beside the
 * proved one.
 *
 * The method is the one of fdlibm's e_sqrt.c, which newlib has: on the two words of 32 bits of the
 * number, 22 turns for the digits in the upper word, 32 for those in the lower, and the last of
 * these 54 digits rounds. It is written anew from that description, not copied. It rounds to
 * nearest, where fdlibm tries out by an addition which rounding mode is set.
 */
#include <math.h>
#include <stdint.h>
#include <string.h>

#define INFINITE ((uint64_t)0x7ff << 52)

/* The leading binary digit of a normal number's mantissa, in the upper word */
#define LEADING_BIT ((uint32_t)1 << 20)

#define TOP_BIT ((uint32_t)1 << 31)

/* A number of 64 binary digits as two words */
struct words {
    uint32_t high, low;
};

static inline struct words doubled(struct words w)
{
    struct words twice = {w.high << 1 | w.low >> 31, w.low << 1};
    return twice;
}

/* The mantissa with its leading digit in place; `exponent` goes down with each place moved. */
static inline struct words scaled(struct words mantissa, int32_t *exponent)
{
    while (mantissa.high == 0) {
        mantissa.high = mantissa.low >> 11;
        mantissa.low <<= 21;
        *exponent -= 21;
    }
    while (mantissa.high < LEADING_BIT) {
        mantissa = doubled(mantissa);
        *exponent -= 1;
    }
    return mantissa;
}

/*
 * The 54 digits of the root of a mantissa from 1 up to 4, the first 22 in the upper word.
 *
 * A digit is taken if what the digits so far leave of the number is at least `candidate`: twice these
 * digits, and the new one. What is left moves up by a place each turn.
 */
static inline struct words digits_of_root(struct words mantissa)
{
    struct words left = doubled(mantissa), twice = {0, 0}, root = {0, 0};

    for (uint32_t digit = LEADING_BIT << 1; digit != 0; digit >>= 1) {
        uint32_t candidate = twice.high + digit;
        if (candidate <= left.high) {
            left.high -= candidate;
            twice.high = candidate + digit;
            root.high += digit;
        }
        left = doubled(left);
    }

    for (uint32_t digit = TOP_BIT; digit != 0; digit >>= 1) {
        struct words candidate = {twice.high, twice.low + digit};
        if (candidate.high < left.high || (candidate.high == left.high && candidate.low <= left.low)) {
            left.high -= candidate.high + (left.low < candidate.low);
            left.low -= candidate.low;
            twice.low = candidate.low + digit;
            twice.high += twice.low < digit;
            root.low += digit;
        }
        left = doubled(left);
    }
    return root;
}

double root_bit_by_bit(double x)
{
    uint64_t pattern;
    memcpy(&pattern, &x, sizeof pattern);
    if (pattern - 1 >= INFINITE - 1)
        return x == 0 || pattern == INFINITE ? x : NAN;

    struct words mantissa = {(uint32_t)(pattern >> 32), (uint32_t)pattern};
    int32_t exponent = (int32_t)(mantissa.high >> 20);
    mantissa.high %= LEADING_BIT;
    if (exponent == 0)
        exponent = 1;
    else
        mantissa.high += LEADING_BIT;
    mantissa = scaled(mantissa, &exponent);
    exponent -= 1023;
    if (exponent % 2 != 0) {
        mantissa = doubled(mantissa);
        exponent -= 1;
    }

    /* No exact root has a 54th digit: if there is one, the root lies beyond it. */
    struct words root = digits_of_root(mantissa);
    uint32_t rounded = root.low + root.low % 2;
    root.high += rounded < root.low;
    uint32_t high = (root.high >> 1) - LEADING_BIT + ((uint32_t)(exponent / 2 + 1023) << 20);
    pattern = (uint64_t)high << 32 | root.high << 31 | rounded >> 1;
    memcpy(&x, &pattern, sizeof x);
    return x;
}
