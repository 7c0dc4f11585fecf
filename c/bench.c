/*
 * CPU time of a call of the library, beside libgcc's binary128 and MPFR at 64 bits, on the same
 * operands. The first line printed names these two; then comes a line for each call: its name, and the
 * three times in nanoseconds with tabs before them. The results of the library and of MPFR, and where
 * they lie against the exact ones, must be the same.
 */
#include "bench.h"
#include "navehuro.h"

#include <math.h>
#include <mpfr.h>
#include <stdio.h>
#include <string.h>

enum {
    PAIRS = 1024,
    PASSES = 200, /* over all pairs, while the clock runs */
    PRECISION = 64,
    MOST_EXPONENT = 35, /* so a sum seldom drops an operand */
    SEED = 5861996
};

typedef uint8_t bytes[NAVEHURO_NUMBER_BYTES];
typedef uint32_t entry(const uint8_t *, size_t, const uint8_t *, size_t, uint32_t, uint32_t,
                       uint8_t *, size_t, int8_t *);
typedef int mpfr_entry(mpfr_t, const mpfr_t, const mpfr_t, mpfr_rnd_t);

static bytes first[PAIRS], second[PAIRS], result[PAIRS];
static int8_t accuracy[PAIRS];
static int mpfr_accuracy[PAIRS];
static __float128 first_quad[PAIRS], second_quad[PAIRS], quad_result[PAIRS];
static mpfr_t first_mpfr[PAIRS], second_mpfr[PAIRS], mpfr_result[PAIRS];

static void library(entry *call, uint32_t mode) {
    for (int i = 0; i < PAIRS; i++) {
        call(first[i], sizeof(bytes), second[i], sizeof(bytes), mode, PRECISION, result[i],
             sizeof(bytes), &accuracy[i]);
        USED(result[i]);
    }
}

static void by_mpfr(mpfr_entry *call, mpfr_rnd_t mode) {
    for (int i = 0; i < PAIRS; i++) {
        mpfr_accuracy[i] = call(mpfr_result[i], first_mpfr[i], second_mpfr[i], mode);
        USED(mpfr_result[i]);
    }
}

static void divide_library(void) { library(navehuro_divide, NAVEHURO_NEAR); }
static void divide_library_up(void) { library(navehuro_divide, NAVEHURO_UP); }
static void add_library(void) { library(navehuro_add, NAVEHURO_NEAR); }
static void subtract_library(void) { library(navehuro_subtract, NAVEHURO_NEAR); }
static void multiply_library(void) { library(navehuro_multiply, NAVEHURO_NEAR); }

static void divide_mpfr(void) { by_mpfr(mpfr_div, MPFR_RNDN); }
static void divide_mpfr_up(void) { by_mpfr(mpfr_div, MPFR_RNDU); }
static void add_mpfr(void) { by_mpfr(mpfr_add, MPFR_RNDN); }
static void subtract_mpfr(void) { by_mpfr(mpfr_sub, MPFR_RNDN); }
static void multiply_mpfr(void) { by_mpfr(mpfr_mul, MPFR_RNDN); }

/* The operators on binary128 are calls of __divtf3, __addtf3, __subtf3 and __multf3. */
static void divide_quad(void) {
    for (int i = 0; i < PAIRS; i++) {
        quad_result[i] = first_quad[i] / second_quad[i];
        USED(&quad_result[i]);
    }
}

static void add_quad(void) {
    for (int i = 0; i < PAIRS; i++) {
        quad_result[i] = first_quad[i] + second_quad[i];
        USED(&quad_result[i]);
    }
}

static void subtract_quad(void) {
    for (int i = 0; i < PAIRS; i++) {
        quad_result[i] = first_quad[i] - second_quad[i];
        USED(&quad_result[i]);
    }
}

static void multiply_quad(void) {
    for (int i = 0; i < PAIRS; i++) {
        quad_result[i] = first_quad[i] * second_quad[i];
        USED(&quad_result[i]);
    }
}

enum { LIBRARY, QUAD, MPFR, PARTIES };

/* The calls; binary128 has no rounding up without changing the machine's mode. */
static const struct {
    const char *name;
    void (*pass[PARTIES])(void);
} lines[] = {
    {"divide, near", {divide_library, divide_quad, divide_mpfr}},
    {"divide, up", {divide_library_up, NULL, divide_mpfr_up}},
    {"add, near", {add_library, add_quad, add_mpfr}},
    {"subtract, near", {subtract_library, subtract_quad, subtract_mpfr}},
    {"multiply, near", {multiply_library, multiply_quad, multiply_mpfr}},
};
enum { LINES = sizeof lines / sizeof lines[0] };

static uint64_t random_word(void) {
    static uint64_t state = SEED;
    uint64_t z = state += 0x9E3779B97F4A7C15;
    z = (z ^ z >> 30) * 0xBF58476D1CE4E5B9;
    z = (z ^ z >> 27) * 0x94D049BB133111EB;
    return z ^ z >> 31;
}

static void encode(bytes to, int negative, uint64_t significand, int32_t exponent) {
    memset(to, 0, sizeof(bytes));
    memcpy(to, &significand, sizeof significand);
    memcpy(to + 8, &exponent, sizeof exponent);
    to[12] = negative ? NAVEHURO_NEGATIVE : NAVEHURO_POSITIVE;
}

/* One random number in the three forms. */
static void make_operand(bytes to, __float128 *quad, mpfr_t multiple) {
    uint64_t significand = random_word() | (uint64_t)1 << 63;
    int negative = random_word() >> 63;
    int32_t exponent = (int32_t)(random_word() % (2 * MOST_EXPONENT + 1)) - MOST_EXPONENT;
    long double value = ldexpl((long double)significand, exponent - 63);
    encode(to, negative, significand, exponent);
    *quad = negative ? -value : value;
    mpfr_init2(multiple, PRECISION);
    mpfr_set_ld(multiple, negative ? -value : value, MPFR_RNDN);
}

/* Whether the last results of the library are those of MPFR, none of which is zero, and lie alike. */
static int is_same(void) {
    for (int i = 0; i < PAIRS; i++) {
        bytes wanted;
        long exponent;
        long double part = fabsl(mpfr_get_ld_2exp(&exponent, mpfr_result[i], MPFR_RNDN));
        encode(wanted, mpfr_signbit(mpfr_result[i]), (uint64_t)ldexpl(part, 64), exponent - 1);
        if (memcmp(result[i], wanted, sizeof wanted) != 0) return 0;
        if (accuracy[i] != (mpfr_accuracy[i] > 0) - (mpfr_accuracy[i] < 0)) return 0;
    }
    return 1;
}

/* CPU time of a call in nanoseconds. */
static double time_of(void (*pass)(void)) {
    double start = cpu_time();
    for (int i = 0; i < PASSES; i++) pass();
    return (cpu_time() - start) / PASSES / PAIRS;
}

int main(void) {
    for (int i = 0; i < PAIRS; i++) {
        make_operand(first[i], &first_quad[i], first_mpfr[i]);
        make_operand(second[i], &second_quad[i], second_mpfr[i]);
        mpfr_init2(mpfr_result[i], PRECISION);
    }
    printf("libgcc of gcc %s, MPFR %s\n", __VERSION__, mpfr_get_version());
    for (int line = 0; line < LINES; line++) {
        lines[line].pass[LIBRARY]();
        lines[line].pass[MPFR]();
        if (!is_same()) {
            fprintf(stderr, "%s: the library and MPFR differ\n", lines[line].name);
            return 1;
        }
        printf("%s", lines[line].name);
        for (int party = 0; party < PARTIES; party++) {
            printf("\t");
            if (lines[line].pass[party]) printf("%.3f", time_of(lines[line].pass[party]));
        }
        printf("\n");
    }
    return 0;
}
