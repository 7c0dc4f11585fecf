/*
 * Holds the four functions of navehuro.h to MPFR and to exact integers of GMP, on random inputs and on
 * edges: the answer, the sixteen bytes of the result, the accuracy, and every byte around the three
 * buffers and the accuracy, of the operands and, after a refusal, of the result and the accuracy. Many
 * buffers lie at a page that cannot be read, every one of a wrong length right before it; some operands
 * are the same or overlap. Prints how many inputs each operation had by mode, by answer and by accuracy,
 * each of the first differences, how the operands lay, and last how many inputs and differences there
 * were.
 */
#include "compare.h"

#include <inttypes.h>
#include <stdio.h>
#include <string.h>

enum {
    FIT_INPUTS = 2500,     /* for each operation, mode and precision */
    FAULTY_INPUTS = 50000, /* for each operation */
    LEAST_INPUTS = 2000000,
    SHARED = 16, /* one pair of operands in so many is the same or overlaps */
    SHOWN = 20,  /* differences printed in full */
    OTHER_MODE = NAVEHURO_EXACT + 1,
    MODES
};

static const uint64_t SEED = 5861996;

typedef uint32_t entry(const uint8_t *a, size_t a_length, const uint8_t *b, size_t b_length,
                       uint32_t mode, uint32_t precision, uint8_t *result, size_t result_length,
                       int8_t *accuracy);

static entry *const entries[OPERATIONS] = {
    [ADD] = navehuro_add,
    [SUBTRACT] = navehuro_subtract,
    [MULTIPLY] = navehuro_multiply,
    [DIVIDE] = navehuro_divide,
};
static const char *const operation_names[OPERATIONS] = {
    [ADD] = "add",
    [SUBTRACT] = "subtract",
    [MULTIPLY] = "multiply",
    [DIVIDE] = "divide",
};
static const char *const mode_names[MODES] = {"trunc", "away", "near",  "sticky",
                                              "up",    "down", "exact", "other"};
static const uint32_t codes[] = {0, 1, 2, 3, 4, 5, 7, 8, 9, 64};
enum { CODES = sizeof codes / sizeof codes[0] };
static const char *const accuracy_names[] = {"below", "exact", "above"};
enum { ACCURACIES = sizeof accuracy_names / sizeof accuracy_names[0] };

static unsigned long mode_counts[OPERATIONS][MODES], code_counts[OPERATIONS][CODES];
static unsigned long accuracy_counts[OPERATIONS][ACCURACIES];
static unsigned long place_counts[PLACES], same, overlapping;
static unsigned long inputs, differences;

static void print_bytes(const char *name, const uint8_t *bytes, size_t length) {
    printf("  %s ", name);
    for (size_t i = 0; i < length; i++) printf("%02x", bytes[i]);
    printf("\n");
}

static void print_operand(const char *name, const uint8_t *bytes, size_t length) {
    printf("  length of %s: %zu\n", name, length);
    print_bytes(name, bytes, length < NAVEHURO_NUMBER_BYTES ? length : NAVEHURO_NUMBER_BYTES);
}

static void print_difference(const input *in, const answer *wanted, uint32_t found, const lent *a,
                             const lent *b, lent *result, lent *accuracy) {
    printf("difference: %s, mode %" PRIu32 ", precision %" PRIu32 "\n",
           operation_names[in->operation], in->mode, in->precision);
    print_operand("a", in->a, in->a_length);
    print_operand("b", in->b, in->b_length);
    printf("  length of the result: %zu\n", in->result_length);
    if (a->seen == b->seen) printf("  b begins %td bytes behind a\n", b->start - a->start);
    printf("  answer wanted %" PRIu32 ", found %" PRIu32 "\n", wanted->code, found);
    print_bytes("result wanted", wanted_at(result), result->length);
    print_bytes("result found ", result->start, result->length);
    print_bytes("accuracy wanted", wanted_at(accuracy), accuracy->length);
    print_bytes("accuracy found ", accuracy->start, accuracy->length);
    if (!is_as_wanted(a)) printf("  a or bytes around it changed\n");
    if (!is_as_wanted(b)) printf("  b or bytes around it changed\n");
    if (!is_as_wanted(result)) printf("  the result or bytes around it are not as wanted\n");
    if (!is_as_wanted(accuracy)) printf("  the accuracy or bytes around it are not as wanted\n");
}

static void count(const input *in, const answer *wanted) {
    inputs++;
    mode_counts[in->operation][in->mode < MODES ? in->mode : OTHER_MODE]++;
    for (size_t i = 0; i < CODES; i++) code_counts[in->operation][i] += codes[i] == wanted->code;
    if (wanted->code == NAVEHURO_WRITTEN)
        accuracy_counts[in->operation][wanted->accuracy - NAVEHURO_RESULT_BELOW]++;
}

/* Where a buffer of this length lies: before a wall, if the length is wrong. */
static place place_for(size_t length) {
    return length == NAVEHURO_NUMBER_BYTES ? (place)below(PLACES) : BEFORE_WALL;
}

static void lend_operand(lent *to, room in, const uint8_t *bytes, size_t length) {
    place at = place_for(length);
    lend(to, in, at, length);
    lay(to, bytes, NAVEHURO_NUMBER_BYTES);
    place_counts[at]++;
}

/* Lends a and b the same bytes, or some of the same; the input then has what lies there. */
static void lend_shared(input *in, lent *a, lent *b) {
    size_t distance = below(2) ? 0 : 1 + (size_t)below(NAVEHURO_NUMBER_BYTES - 1);
    int a_leads = (int)below(2);
    lent *leading = a_leads ? a : b, *other = a_leads ? b : a;
    uint8_t *leading_bytes = a_leads ? in->a : in->b, *other_bytes = a_leads ? in->b : in->a;
    uint8_t both[2 * NAVEHURO_NUMBER_BYTES];
    memcpy(both + distance, other_bytes, NAVEHURO_NUMBER_BYTES);
    memcpy(both, leading_bytes, NAVEHURO_NUMBER_BYTES);
    memcpy(other_bytes, both + distance, NAVEHURO_NUMBER_BYTES);
    lend(leading, FIRST_ROOM, (place)below(PLACES), distance + NAVEHURO_NUMBER_BYTES);
    lay(leading, both, distance + NAVEHURO_NUMBER_BYTES);
    *other = *leading;
    other->start += distance;
    *(distance ? &overlapping : &same) += 1;
}

static void lend_operands(input *in, lent *a, lent *b) {
    if (in->a_length == NAVEHURO_NUMBER_BYTES && in->b_length == NAVEHURO_NUMBER_BYTES &&
        below(SHARED) == 0) {
        lend_shared(in, a, b);
    } else {
        lend_operand(a, FIRST_ROOM, in->a, in->a_length);
        lend_operand(b, SECOND_ROOM, in->b, in->b_length);
    }
}

static void compare(input *in) {
    lent a, b, result, accuracy;
    answer wanted;
    uint32_t found;
    lend_operands(in, &a, &b);
    lend(&result, RESULT_ROOM, place_for(in->result_length), in->result_length);
    lend(&accuracy, ACCURACY_ROOM, (place)below(PLACES), sizeof wanted.accuracy);
    wanted = judge(in);
    if (wanted.code == NAVEHURO_WRITTEN) {
        memcpy(wanted_at(&result), wanted.result, sizeof wanted.result);
        memcpy(wanted_at(&accuracy), &wanted.accuracy, sizeof wanted.accuracy);
    }
    found = entries[in->operation](a.start, in->a_length, b.start, in->b_length, in->mode,
                                   in->precision, result.start, in->result_length,
                                   (int8_t *)accuracy.start);
    count(in, &wanted);
    if (found == wanted.code && is_as_wanted(&a) && is_as_wanted(&b) && is_as_wanted(&result) &&
        is_as_wanted(&accuracy))
        return;
    if (differences++ < SHOWN) print_difference(in, &wanted, found, &a, &b, &result, &accuracy);
}

static void compare_operation(operation op) {
    for (uint32_t mode = 0; mode <= last_mode(op); mode++) {
        for (uint32_t precision = 1; precision <= NAVEHURO_MAX_PRECISION; precision++) {
            for (int i = 0; i < FIT_INPUTS; i++) {
                input in = fit_input(op, mode, precision);
                compare(&in);
            }
        }
    }
    for (int i = 0; i < FAULTY_INPUTS; i++) {
        input in = faulty_input(op);
        compare(&in);
    }
}

static void print_counts(void) {
    printf("%-10s", "mode");
    for (int mode = 0; mode < MODES; mode++) printf("%8s", mode_names[mode]);
    for (int op = 0; op < OPERATIONS; op++) {
        printf("\n%-10s", operation_names[op]);
        for (int mode = 0; mode < MODES; mode++) printf("%8lu", mode_counts[op][mode]);
    }
    printf("\n\n%-10s", "answer");
    for (size_t i = 0; i < CODES; i++) printf("%8" PRIu32, codes[i]);
    for (int op = 0; op < OPERATIONS; op++) {
        printf("\n%-10s", operation_names[op]);
        for (size_t i = 0; i < CODES; i++) printf("%8lu", code_counts[op][i]);
    }
    printf("\n\n%-10s", "result");
    for (size_t i = 0; i < ACCURACIES; i++) printf("%8s", accuracy_names[i]);
    for (int op = 0; op < OPERATIONS; op++) {
        printf("\n%-10s", operation_names[op]);
        for (size_t i = 0; i < ACCURACIES; i++) printf("%8lu", accuracy_counts[op][i]);
    }
    printf("\n\noperands before a wall %lu, behind one %lu, amid %lu; pairs that are the same %lu, "
           "overlap %lu\n\n",
           place_counts[BEFORE_WALL], place_counts[BEHIND_WALL], place_counts[AMID], same,
           overlapping);
}

static int is_possible(operation op, uint32_t code) {
    if (op == DIVIDE) return code != NAVEHURO_EXPONENT_OUTSIDE && code != NAVEHURO_TOO_MANY_BITS;
    return code != NAVEHURO_ZERO_DIVISOR;
}

/* Whether there were enough inputs, and some for each answer and accuracy that an operation can give. */
static int is_enough(void) {
    int enough = inputs >= LEAST_INPUTS;
    if (!enough) printf("fewer than %d inputs\n", LEAST_INPUTS);
    for (operation op = ADD; op < OPERATIONS; op++) {
        for (size_t i = 0; i < CODES; i++) {
            if (code_counts[op][i] > 0 || !is_possible(op, codes[i])) continue;
            printf("no input of %s has the answer %" PRIu32 "\n", operation_names[op], codes[i]);
            enough = 0;
        }
        for (size_t i = 0; i < ACCURACIES; i++) {
            if (accuracy_counts[op][i] > 0) continue;
            printf("no result of %s is marked %s\n", operation_names[op], accuracy_names[i]);
            enough = 0;
        }
    }
    return enough;
}

int main(void) {
    int enough;
    setvbuf(stdout, NULL, _IOLBF, BUFSIZ);
    printf("seed %" PRIu64 "\n\n", SEED);
    start_random(SEED);
    start_buffers();
    start_judge();
    start_inputs();
    for (operation op = ADD; op < OPERATIONS; op++) compare_operation(op);
    end_inputs();
    end_judge();
    print_counts();
    enough = is_enough();
    printf("%lu inputs, %lu differences\n", inputs, differences);
    return differences > 0 || !enough;
}
