/*
 * What a call must answer. The refusals are looked for in their order; then MPFR rounds in the five
 * modes that it has, and its ternary value says where the result lies; for sticky and the exact claim
 * the exact value is worked out in integers.
 */
#include "compare.h"

#include <gmp.h>
#include <mpfr.h>
#include <string.h>

enum { WORD_BITS = 64, QUOTIENT_BITS = 2 * WORD_BITS + 2 };

static mpfr_t first, second, rounded;
static mpz_t value, term, rest;

int32_t least_exponent(operation op) {
    return op == DIVIDE ? NAVEHURO_ADMISSIBLE_MIN : NAVEHURO_WORKING_MIN;
}

int32_t greatest_exponent(operation op) {
    return op == DIVIDE ? NAVEHURO_ADMISSIBLE_MAX : NAVEHURO_WORKING_MAX;
}

uint32_t last_mode(operation op) { return op == DIVIDE ? NAVEHURO_DOWN : NAVEHURO_EXACT; }

void encode(const number *x, uint8_t *bytes) {
    memset(bytes, 0, NAVEHURO_NUMBER_BYTES);
    for (int i = 0; i < 8; i++) bytes[i] = (uint8_t)(x->significand >> 8 * i);
    for (int i = 0; i < 4; i++) bytes[8 + i] = (uint8_t)((uint32_t)x->exponent >> 8 * i);
    bytes[12] = x->kind;
}

/* Whether the sixteen bytes are a number, and which. */
static int decode(const uint8_t *bytes, number *x) {
    uint32_t exponent = 0;
    uint8_t again[NAVEHURO_NUMBER_BYTES];
    x->significand = 0;
    for (int i = 7; i >= 0; i--) x->significand = x->significand << 8 | bytes[i];
    for (int i = 11; i >= 8; i--) exponent = exponent << 8 | bytes[i];
    x->exponent = (int32_t)exponent;
    x->kind = bytes[12];
    encode(x, again);
    return x->kind <= NAVEHURO_NEGATIVE && memcmp(bytes, again, sizeof again) == 0 &&
           (x->kind != NAVEHURO_ZERO || (x->significand == 0 && exponent == 0));
}

static int is_fit(const number *x, operation op) {
    return x->kind == NAVEHURO_ZERO ||
           (x->significand >> (WORD_BITS - 1) == 1 && x->exponent >= least_exponent(op) &&
            x->exponent <= greatest_exponent(op));
}

/* A refusal; or, with NAVEHURO_WRITTEN, the result zero, which is exact. */
static answer bare(uint32_t code) {
    answer given = {code, {0}, NAVEHURO_RESULT_EXACT};
    return given;
}

static int is_working(long exponent) {
    return exponent >= NAVEHURO_WORKING_MIN && exponent <= NAVEHURO_WORKING_MAX;
}

/* The answer with the integer of `precision` bits whose first bit counts 2^exponent, and where it lies. */
static answer written(int negative, const mpz_t whole, uint32_t precision, long exponent,
                      int accuracy) {
    answer given = {NAVEHURO_WRITTEN, {0}, (int8_t)((accuracy > 0) - (accuracy < 0))};
    number x = {negative ? NAVEHURO_NEGATIVE : NAVEHURO_POSITIVE, (int32_t)exponent,
                (uint64_t)mpz_get_ui(whole) << (WORD_BITS - precision)};
    encode(&x, given.result);
    return given;
}

static void put(mpfr_t to, const number *x) {
    mpfr_set_ui_2exp(to, x->significand, x->exponent - (WORD_BITS - 1), MPFR_RNDN);
    mpfr_setsign(to, to, x->kind == NAVEHURO_NEGATIVE, MPFR_RNDN);
}

static answer by_mpfr(const input *in, const number *a, const number *b) {
    static const mpfr_rnd_t modes[] = {
        [NAVEHURO_TRUNC] = MPFR_RNDZ, [NAVEHURO_AWAY] = MPFR_RNDA, [NAVEHURO_NEAR] = MPFR_RNDN,
        [NAVEHURO_UP] = MPFR_RNDU,    [NAVEHURO_DOWN] = MPFR_RNDD,
    };
    mpfr_rnd_t mode = modes[in->mode];
    mpfr_exp_t exponent;
    int ternary;
    put(first, a);
    put(second, b);
    mpfr_set_prec(rounded, in->precision);
    switch (in->operation) {
    case ADD: ternary = mpfr_add(rounded, first, second, mode); break;
    case SUBTRACT: ternary = mpfr_sub(rounded, first, second, mode); break;
    case MULTIPLY: ternary = mpfr_mul(rounded, first, second, mode); break;
    default: ternary = mpfr_div(rounded, first, second, mode); break;
    }
    if (mpfr_zero_p(rounded)) return bare(NAVEHURO_WRITTEN);
    exponent = mpfr_get_exp(rounded) - 1; /* MPFR's significands lie below 1 */
    if (!is_working(exponent)) return bare(NAVEHURO_EXPONENT_OUTSIDE);
    mpfr_get_z_2exp(value, rounded);
    return written(mpfr_signbit(rounded), value, in->precision, exponent, ternary);
}

/* Adds the number, or takes it away, in units of 2^unit. */
static void accumulate(const number *x, int minus, long unit) {
    if (x->kind == NAVEHURO_ZERO) return;
    mpz_set_ui(term, x->significand);
    mpz_mul_2exp(term, term, (mp_bitcnt_t)(x->exponent - unit));
    if ((x->kind == NAVEHURO_NEGATIVE) != minus) mpz_neg(term, term);
    mpz_add(value, value, term);
}

/* Sets `value`, and `rest` to a remainder below it, to the exact value; gives its unit's exponent. */
static long exact_value(operation op, const number *a, const number *b) {
    long unit = a->exponent < b->exponent ? a->exponent : b->exponent;
    mpz_set_ui(value, 0);
    mpz_set_ui(rest, 0);
    if (op == ADD || op == SUBTRACT) {
        accumulate(a, 0, unit);
        accumulate(b, op == SUBTRACT, unit);
        return unit - (WORD_BITS - 1);
    }
    mpz_set_ui(value, a->significand);
    mpz_set_ui(term, b->significand);
    if (op == MULTIPLY) {
        mpz_mul(value, value, term);
        unit = (long)a->exponent + b->exponent - 2 * (WORD_BITS - 1);
    } else {
        mpz_mul_2exp(value, value, QUOTIENT_BITS);
        mpz_fdiv_qr(value, rest, value, term);
        unit = (long)a->exponent - b->exponent - QUOTIENT_BITS;
    }
    if (a->kind != b->kind) mpz_neg(value, value);
    return unit;
}

static answer by_integers(const input *in, const number *a, const number *b) {
    long unit = exact_value(in->operation, a, b);
    long bits = (long)mpz_sizeinbase(value, 2), extra = bits - (long)in->precision;
    long exponent = unit + bits - 1;
    int negative = mpz_sgn(value) < 0, fraction = mpz_sgn(rest) != 0, accuracy = 0;
    if (mpz_sgn(value) == 0) return bare(NAVEHURO_WRITTEN);
    mpz_abs(value, value);
    if (extra > 0) {
        fraction |= mpz_scan1(value, 0) < (mp_bitcnt_t)extra;
        mpz_fdiv_q_2exp(value, value, (mp_bitcnt_t)extra);
    } else {
        mpz_mul_2exp(value, value, (mp_bitcnt_t)-extra);
    }
    if (!is_working(exponent)) return bare(NAVEHURO_EXPONENT_OUTSIDE);
    if (in->mode == NAVEHURO_EXACT && fraction) return bare(NAVEHURO_TOO_MANY_BITS);
    if (fraction) {
        accuracy = mpz_odd_p(value) == negative ? 1 : -1; /* odd: the magnitude stays below */
        mpz_setbit(value, 0);
    }
    return written(negative, value, in->precision, exponent, accuracy);
}

answer judge(const input *in) {
    number a, b;
    if (in->a_length != NAVEHURO_NUMBER_BYTES || in->b_length != NAVEHURO_NUMBER_BYTES ||
        in->result_length != NAVEHURO_NUMBER_BYTES)
        return bare(NAVEHURO_WRONG_LENGTH);
    if (!decode(in->a, &a) || !decode(in->b, &b)) return bare(NAVEHURO_NO_NUMBER);
    if (in->mode > last_mode(in->operation)) return bare(NAVEHURO_UNKNOWN_MODE);
    if (in->precision < 1 || in->precision > NAVEHURO_MAX_PRECISION)
        return bare(NAVEHURO_BAD_PRECISION);
    if (!is_fit(&a, in->operation)) return bare(NAVEHURO_FIRST_UNFIT);
    if (!is_fit(&b, in->operation)) return bare(NAVEHURO_SECOND_UNFIT);
    if (in->operation == DIVIDE && b.kind == NAVEHURO_ZERO) return bare(NAVEHURO_ZERO_DIVISOR);
    if (in->mode == NAVEHURO_STICKY || in->mode == NAVEHURO_EXACT) return by_integers(in, &a, &b);
    return by_mpfr(in, &a, &b);
}

void start_judge(void) {
    mpfr_set_emin(mpfr_get_emin_min());
    mpfr_set_emax(mpfr_get_emax_max());
    mpfr_inits2(WORD_BITS, first, second, rounded, (mpfr_ptr)0);
    mpz_inits(value, term, rest, (mpz_ptr)0);
}

void end_judge(void) {
    mpfr_clears(first, second, rounded, (mpfr_ptr)0);
    mpz_clears(value, term, rest, (mpz_ptr)0);
    mpfr_free_cache();
}
