/*
 * Inputs for the comparison: operands of all kinds, among them the edges of significands and exponents,
 * sums that cancel, and results on, next to and as close as can be to a number or to a tie.
 */
#include "compare.h"

#include <gmp.h>
#include <string.h>

enum {
    WORD_BITS = 64,
    FAR = 130,       /* exponents further apart than this add nothing new */
    NEXT = 3,        /* how far from an edge a neighbour of it may lie */
    TRIES = 8,       /* for a quotient of the wanted length */
    ZEROS = 50,      /* one operand in so many is zero */
    MOST_SHORT = 40, /* wrong lengths up to this are drawn from all */
    MOST_FAULTS = 3
};

static const uint64_t TOP_BIT = (uint64_t)1 << (WORD_BITS - 1);

static uint64_t state;
static mpz_t divisor, modulus, quotient;

void start_random(uint64_t seed) { state = seed; }

/* The generator splitmix64. */
uint64_t random_word(void) {
    uint64_t z = state += 0x9E3779B97F4A7C15;
    z = (z ^ z >> 30) * 0xBF58476D1CE4E5B9;
    z = (z ^ z >> 27) * 0x94D049BB133111EB;
    return z ^ z >> 31;
}

uint64_t below(uint64_t limit) { return random_word() % limit; }

/* A whole number from least to greatest. */
static int32_t between(int32_t least, int32_t greatest) {
    return (int32_t)(least + (int64_t)below((uint64_t)((int64_t)greatest - least) + 1));
}

/* -1, 0 or 1. */
static int one_off(void) { return between(-1, 1); }

/* A significand that has at most so many bits. */
static uint64_t first_bits(uint32_t bits) {
    return (TOP_BIT | random_word()) & UINT64_MAX << (WORD_BITS - bits);
}

/* The positive whole number with its top bit moved to the top. */
static uint64_t normalized(uint64_t word) {
    while (word < TOP_BIT) word <<= 1;
    return word;
}

static uint64_t any_significand(uint32_t precision) {
    uint64_t half = precision < WORD_BITS ? TOP_BIT >> precision : 0;
    uint64_t off = (uint64_t)one_off();
    switch (below(8)) {
    case 0: return TOP_BIT;
    case 1: return UINT64_MAX;
    case 2: return TOP_BIT + below(NEXT);
    case 3: return UINT64_MAX - below(NEXT);
    case 4: return first_bits(1 + (uint32_t)below(WORD_BITS));
    case 5: return TOP_BIT | ((first_bits(precision) | half) + off);
    default: return first_bits(WORD_BITS);
    }
}

static int32_t into_range(operation op, int32_t exponent) {
    if (exponent < least_exponent(op)) return least_exponent(op);
    if (exponent > greatest_exponent(op)) return greatest_exponent(op);
    return exponent;
}

/* An exponent at an end of the range, or next to it. */
static int32_t end_exponent(operation op) {
    int32_t from_end = (int32_t)below(NEXT);
    return below(2) ? least_exponent(op) + from_end : greatest_exponent(op) - from_end;
}

static void any_exponents(operation op, number *a, number *b) {
    int32_t least = least_exponent(op), greatest = greatest_exponent(op);
    int32_t end = below(2) ? least : greatest;
    switch (below(8)) {
    case 0:
        a->exponent = between(least, greatest);
        b->exponent = between(least, greatest);
        break;
    case 1:
        a->exponent = end_exponent(op);
        b->exponent = end_exponent(op);
        break;
    case 2: /* the exponent of a product comes close to an end */
        a->exponent = end < 0 ? between(end, 0) : between(0, end);
        b->exponent = into_range(op, end - a->exponent + between(-NEXT, NEXT));
        break;
    default:
        a->exponent = op == MULTIPLY || below(4) ? between(-FAR, FAR) : end_exponent(op);
        b->exponent = into_range(op, a->exponent + between(-FAR, FAR));
        break;
    }
}

static void any_pair(const input *in, number *a, number *b) {
    any_exponents(in->operation, a, b);
    a->significand = any_significand(in->precision);
    b->significand = any_significand(in->precision);
}

/* Operands that are the same or neighbours, so that a sum cancels and a quotient is next to 1. */
static void alike_pair(const input *in, number *a, number *b) {
    uint64_t off = (uint64_t)one_off();
    any_pair(in, a, b);
    b->significand = TOP_BIT | (a->significand + off * below(NEXT));
    b->exponent = a->exponent;
    if (below(4) == 0) {
        a->significand = TOP_BIT;
        b->significand = UINT64_MAX - below(NEXT);
        b->exponent = into_range(in->operation, a->exponent - 1);
    }
}

/* Operands whose exact result has few bits: about as many as the precision, or fewer. */
static void short_pair(const input *in, number *a, number *b) {
    uint32_t bits = 1 + (uint32_t)below(in->precision);
    any_exponents(in->operation, a, b);
    a->significand = first_bits(bits);
    b->significand = first_bits(1 + in->precision - bits);
    if (in->operation == DIVIDE) { /* a becomes a multiple of b, often by precision + 1 bits */
        bits = WORD_BITS - 1 - in->precision;
        if (in->precision >= WORD_BITS - 1 || below(2)) bits = 1 + (uint32_t)below(WORD_BITS - 1);
        b->significand = first_bits(bits);
        a->significand = normalized((b->significand >> (WORD_BITS - bits)) *
                                    (first_bits(WORD_BITS - bits) >> bits));
    } else if (in->operation != MULTIPLY) {
        b->exponent = into_range(in->operation, a->exponent - (int32_t)below(in->precision + 1));
    }
}

/* The inverse of an odd number modulo 2^64, each step doubling the bits that are right. */
static uint64_t inverse(uint64_t odd) {
    uint64_t x = odd;
    for (int bits = 3; bits < WORD_BITS; bits *= 2) x *= 2 - odd * x;
    return x;
}

/* A sum of a number of `precision` bits and half its last bit, or next to that. */
static void close_sum(const input *in, number *a, number *b) {
    int off = one_off();
    a->significand = first_bits(in->precision);
    b->significand = off < 0 ? UINT64_MAX : TOP_BIT + (uint64_t)off;
    b->exponent =
        into_range(in->operation, a->exponent - (int32_t)in->precision - (off < 0 ? 1 : 0));
}

/*
 * A product of two whole numbers of at most `precision` bits. Its lower `precision` bits are a half, a
 * quarter or an eighth of 2^precision, or next to it, so that many are ties or as close to one as can be.
 */
static void close_product(const input *in, number *a, number *b) {
    uint64_t mask = UINT64_MAX >> (WORD_BITS - in->precision);
    uint64_t odd = first_bits(in->precision) >> (WORD_BITS - in->precision) | 1;
    uint64_t factor = 0;
    while (factor == 0) {
        uint64_t off = (uint64_t)one_off();
        uint64_t lower = ((mask / 2 + 1) >> below(NEXT)) + off;
        factor = lower * inverse(odd) & mask;
    }
    a->significand = normalized(odd);
    b->significand = normalized(factor);
}

/* A quotient that differs from one of `bits` bits by 1 / b of the last of these. */
static void close_quotient(number *a, number *b, uint32_t bits) {
    int below_it = (int)below(2);
    mpz_set_ui(modulus, 1);
    mpz_mul_2exp(modulus, modulus, bits);
    for (int i = 0; i < TRIES; i++) {
        b->significand = first_bits(WORD_BITS) | 1;
        mpz_set_ui(divisor, b->significand);
        mpz_invert(quotient, divisor, modulus);
        if (!below_it) mpz_sub(quotient, modulus, quotient);
        if (mpz_tstbit(quotient, bits - 1)) break;
    }
    mpz_mul(quotient, quotient, divisor);
    mpz_fdiv_q_2exp(quotient, quotient, bits);
    if (!below_it) mpz_add_ui(quotient, quotient, 1);
    a->significand = mpz_sgn(quotient) ? normalized(mpz_get_ui(quotient)) : TOP_BIT;
}

/* Operands whose result is as close as can be to a number of the precision, or to a tie. */
static void close_pair(const input *in, number *a, number *b) {
    any_exponents(in->operation, a, b);
    switch (in->operation) {
    case MULTIPLY: close_product(in, a, b); break;
    case DIVIDE: close_quotient(a, b, in->precision + (uint32_t)below(2)); break;
    default: close_sum(in, a, b); break;
    }
}

static void sign(number *x) {
    x->kind = below(2) ? NAVEHURO_POSITIVE : NAVEHURO_NEGATIVE;
    if (below(ZEROS) == 0) memset(x, 0, sizeof *x);
}

input fit_input(operation op, uint32_t mode, uint32_t precision) {
    input in = {.operation = op,
                .mode = mode,
                .precision = precision,
                .a_length = NAVEHURO_NUMBER_BYTES,
                .b_length = NAVEHURO_NUMBER_BYTES,
                .result_length = NAVEHURO_NUMBER_BYTES};
    number a = {0}, b = {0};
    switch (below(4)) {
    case 0: any_pair(&in, &a, &b); break;
    case 1: alike_pair(&in, &a, &b); break;
    case 2: short_pair(&in, &a, &b); break;
    default: close_pair(&in, &a, &b); break;
    }
    sign(&a);
    sign(&b);
    encode(&a, in.a);
    encode(&b, in.b);
    return in;
}

/* An exponent outside the range of the operation, often next to it. */
static int32_t outside(operation op) {
    switch (below(6)) {
    case 0: return INT32_MIN;
    case 1: return INT32_MAX;
    case 2: return least_exponent(op) - 1;
    case 3: return greatest_exponent(op) + 1;
    case 4: return between(INT32_MIN, least_exponent(op) - 1);
    default: return between(greatest_exponent(op) + 1, INT32_MAX);
    }
}

static void make_unfit(operation op, uint8_t *bytes) {
    number x = {NAVEHURO_POSITIVE, 0, first_bits(WORD_BITS)};
    if (below(2)) x.kind = NAVEHURO_NEGATIVE;
    if (below(2)) {
        x.exponent = outside(op);
    } else {
        x.significand = below(4) ? x.significand >> (1 + below(WORD_BITS - 1)) : 0;
    }
    encode(&x, bytes);
}

static void make_no_number(uint8_t *bytes) {
    uint64_t at;
    switch (below(3)) {
    case 0: bytes[12] = (uint8_t)(NAVEHURO_NEGATIVE + 1 + below(UINT8_MAX - NAVEHURO_NEGATIVE)); break;
    case 1:
        at = 13 + below(3);
        bytes[at] = (uint8_t)(1 + below(UINT8_MAX));
        break;
    default:
        at = below(12);
        memset(bytes, 0, NAVEHURO_NUMBER_BYTES);
        bytes[at] = (uint8_t)(1 << below(8));
        break;
    }
}

/* One bit above the lowest byte of a code. */
static uint32_t high_bit(void) { return (uint32_t)1 << (8 + below(24)); }

static uint32_t bad_mode(operation op) {
    uint32_t high = high_bit();
    switch (below(3)) {
    case 0: return last_mode(op) + 1;
    case 1: return last_mode(op) + 1 + (uint32_t)below(UINT32_MAX - last_mode(op));
    default: return high | (uint32_t)below(last_mode(op) + 1);
    }
}

static uint32_t bad_precision(void) {
    uint32_t high = high_bit();
    switch (below(4)) {
    case 0: return 0;
    case 1: return NAVEHURO_MAX_PRECISION + 1;
    case 2: return NAVEHURO_MAX_PRECISION + 1 +
                   (uint32_t)below(UINT32_MAX - NAVEHURO_MAX_PRECISION);
    default: return high | (uint32_t)(1 + below(NAVEHURO_MAX_PRECISION));
    }
}

static size_t wrong_length(void) {
    size_t length;
    switch (below(4)) {
    case 0: return NAVEHURO_NUMBER_BYTES - 1;
    case 1: return NAVEHURO_NUMBER_BYTES + 1;
    case 2: /* right but for one bit above the lower 8, 16 or 32 */
        return NAVEHURO_NUMBER_BYTES + ((size_t)1 << (8 << below(3)));
    default:
        length = (size_t)below(MOST_SHORT);
        return length < NAVEHURO_NUMBER_BYTES ? length : length + 1;
    }
}

input faulty_input(operation op) {
    uint32_t mode = (uint32_t)below(last_mode(op) + 1);
    uint32_t precision = 1 + (uint32_t)below(NAVEHURO_MAX_PRECISION);
    input in = fit_input(op, mode, precision);
    int faults = between(1, MOST_FAULTS);
    for (int i = 0; i < faults; i++) {
        switch (below(10)) {
        case 0: in.mode = bad_mode(op); break;
        case 1: in.precision = bad_precision(); break;
        case 2: make_unfit(op, in.a); break;
        case 3: make_unfit(op, in.b); break;
        case 4: memset(in.b, 0, NAVEHURO_NUMBER_BYTES); break;
        case 5: in.a_length = wrong_length(); break;
        case 6: in.b_length = wrong_length(); break;
        case 7: in.result_length = wrong_length(); break;
        case 8: make_no_number(in.a); break;
        default: make_no_number(in.b); break;
        }
    }
    return in;
}

void start_inputs(void) { mpz_inits(divisor, modulus, quotient, (mpz_ptr)0); }

void end_inputs(void) { mpz_clears(divisor, modulus, quotient, (mpz_ptr)0); }
