/*
 * Sum, difference, product and quotient of numbers with 64-bit significands, each rounded once, and
 * where the result lies against the exact one.
 *
 * The functions stand in libexport.a, which `rt lib` in crates/export writes to out/ there; it is
 * for x86-64.
 *
 * A number is sixteen bytes, whole numbers in them lowest byte first:
 *
 *     bytes 0 to 7    significand, an unsigned 64-bit whole number S
 *     bytes 8 to 11   exponent, a signed 32-bit whole number e (two's complement)
 *     byte  12        kind: 0 zero, 1 positive, 2 negative
 *     bytes 13 to 15  zero
 *
 * Zero is sixteen zero bytes. Kind 1 or 2: ±S * 2^(e - 63). It is fit if the top bit of S is set and e
 * is in the operation's range; an unfit one is refused 3 or 4, and is not "no number" (64). A
 * result is always fit. Sixteen bytes with another kind, with a byte 13 to 15 that is not zero, or of
 * kind zero with any byte that is not zero, are no number.
 */
#ifndef NAVEHURO_H
#define NAVEHURO_H

#include <stddef.h>
#include <stdint.h>

#ifdef __cplusplus
extern "C" {
#endif

/* The length of a number, and so of every buffer. */
#define NAVEHURO_NUMBER_BYTES 16

/* The most bits that a result can be rounded to; the fewest are 1. */
#define NAVEHURO_MAX_PRECISION 64

/* Byte 12 of a number. */
enum {
    NAVEHURO_ZERO = 0,
    NAVEHURO_POSITIVE = 1,
    NAVEHURO_NEGATIVE = 2
};

/* Exponents: the working ones are those of results, and of the operands of add, subtract and multiply. */
enum {
    NAVEHURO_WORKING_MIN = -65535,
    NAVEHURO_WORKING_MAX = 65536,
    NAVEHURO_ADMISSIBLE_MIN = -16446, /* operands of division */
    NAVEHURO_ADMISSIBLE_MAX = 16384
};

/* Modes: how the value, scaled so that the last of `precision` bits counts 1, becomes a whole number. */
enum {
    NAVEHURO_TRUNC = 0,  /* toward zero */
    NAVEHURO_AWAY = 1,   /* away from zero */
    NAVEHURO_NEAR = 2,   /* to the nearest, a half to the even one */
    NAVEHURO_STICKY = 3, /* toward zero, and made odd if there was a fraction */
    NAVEHURO_UP = 4,     /* toward plus infinity */
    NAVEHURO_DOWN = 5,   /* toward minus infinity */
    NAVEHURO_EXACT = 6   /* no rounding: the value must have no more than `precision` bits;
                            not for division */
};

/*
 * Where a result lies: below the exact one, at it or above it. Signs count: -1/4 lies above -1/3. Zero is
 * exact, and so is every result of NAVEHURO_EXACT.
 */
enum {
    NAVEHURO_RESULT_BELOW = -1,
    NAVEHURO_RESULT_EXACT = 0,
    NAVEHURO_RESULT_ABOVE = 1
};

/*
 * What a call answers. Wrong lengths are looked for first, then operands that are no number, then the
 * other refusals from 1 on: the first that applies is the answer.
 */
enum {
    NAVEHURO_WRITTEN = 0,          /* result and accuracy are written */
    NAVEHURO_UNKNOWN_MODE = 1,     /* mode above 6, for division above 5 */
    NAVEHURO_BAD_PRECISION = 2,    /* precision not 1 to 64 */
    NAVEHURO_FIRST_UNFIT = 3,      /* a is unfit */
    NAVEHURO_SECOND_UNFIT = 4,     /* b is unfit */
    NAVEHURO_ZERO_DIVISOR = 5,     /* b is zero; division only */
    NAVEHURO_EXPONENT_OUTSIDE = 7, /* exponent of the result not working; never from division */
    NAVEHURO_TOO_MANY_BITS = 8,    /* mode exact, and the value has more bits than the precision */
    NAVEHURO_WRONG_LENGTH = 9,     /* a buffer has not sixteen bytes */
    NAVEHURO_NO_NUMBER = 64        /* the bytes of an operand are no number */
};

/*
 * For each function:
 *
 * - a and b are read, result is written, each of the length behind it; accuracy is written. No pointer
 *   may be null, also where the length is 0, and each must point at as many bytes as its length says,
 *   accuracy at one, at any address.
 * - result and accuracy must not overlap, and neither may overlap a or b. a and b may overlap, or be the
 *   same. Until the call returns nothing else may write to the three buffers or to accuracy, or read
 *   result or accuracy.
 * - The answer is NAVEHURO_WRITTEN, the sixteen bytes of result hold the number, and accuracy says where
 *   that lies against the exact sum, difference, product or quotient; or the answer is a refusal, and
 *   result and accuracy are as they were. No other byte is written.
 * - Nothing is kept between calls, so threads may call at the same time on buffers of their own.
 *
 * In an earlier version the functions had no accuracy. An object that was compiled for that version still
 * links with this archive, and is wrong: its calls have to pass accuracy, and it has to be compiled anew.
 */

/* a + b, rounded once to precision bits. */
uint32_t navehuro_add(const uint8_t *a, size_t a_length, const uint8_t *b, size_t b_length,
                      uint32_t mode, uint32_t precision, uint8_t *result, size_t result_length,
                      int8_t *accuracy);

/* a - b, rounded once to precision bits. */
uint32_t navehuro_subtract(const uint8_t *a, size_t a_length, const uint8_t *b, size_t b_length,
                           uint32_t mode, uint32_t precision, uint8_t *result,
                           size_t result_length, int8_t *accuracy);

/* a * b, rounded once to precision bits. */
uint32_t navehuro_multiply(const uint8_t *a, size_t a_length, const uint8_t *b, size_t b_length,
                           uint32_t mode, uint32_t precision, uint8_t *result,
                           size_t result_length, int8_t *accuracy);

/* a / b, rounded once to precision bits. The exponents of a and b must be admissible. */
uint32_t navehuro_divide(const uint8_t *a, size_t a_length, const uint8_t *b, size_t b_length,
                         uint32_t mode, uint32_t precision, uint8_t *result,
                         size_t result_length, int8_t *accuracy);

#ifdef __cplusplus
}
#endif

#endif
