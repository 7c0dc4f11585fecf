/* What the parts of the comparison share: an input, and the answer that it must get. */
#ifndef COMPARE_H
#define COMPARE_H

#include "navehuro.h"

typedef enum { ADD, SUBTRACT, MULTIPLY, DIVIDE, OPERATIONS } operation;

/* A number as its fields; zero has exponent and significand 0. */
typedef struct {
    uint8_t kind;
    int32_t exponent;
    uint64_t significand;
} number;

/* Exit status where the comparison could not be made. */
enum { NOT_COMPARED = 2 };

/* The longest buffer: the lower 32 bits of its length are those of a right one. */
#define MOST_LENGTH (NAVEHURO_NUMBER_BYTES + ((size_t)1 << 32))

/* A call: the operation and all that it is given. Any bytes may follow those of a and b. */
typedef struct {
    operation operation;
    uint32_t mode, precision;
    uint8_t a[NAVEHURO_NUMBER_BYTES], b[NAVEHURO_NUMBER_BYTES];
    size_t a_length, b_length, result_length;
} input;

/* The code of an answer, and what is written if that is NAVEHURO_WRITTEN: the bytes and the accuracy. */
typedef struct {
    uint32_t code;
    uint8_t result[NAVEHURO_NUMBER_BYTES];
    int8_t accuracy;
} answer;

/* The exponents and the last mode that an operation takes. */
int32_t least_exponent(operation op);
int32_t greatest_exponent(operation op);
uint32_t last_mode(operation op);

/* A number as its sixteen bytes. */
void encode(const number *x, uint8_t *bytes);

/* What the call must answer, by MPFR and by exact integers of GMP. */
void start_judge(void);
answer judge(const input *in);
void end_judge(void);

/* Random words, the same in every run. */
void start_random(uint64_t seed);
uint64_t random_word(void);
uint64_t below(uint64_t limit);

/* Inputs: fit operands for a mode and a precision, and inputs with faults to be refused. */
void start_inputs(void);
input fit_input(operation op, uint32_t mode, uint32_t precision);
input faulty_input(operation op);
void end_inputs(void);

enum {
    GUARD_BYTES = 32, /* looked at before and behind a buffer, as far as there is no wall */
    SEEN_BYTES = 272, /* looked at of a longer buffer */
    ALIGNMENTS = 16
};

/* A buffer, and what its bytes and those around it must be after the call. */
typedef struct {
    uint8_t *start, *seen;
    size_t length, before, seen_length; /* `before`: bytes seen before the buffer */
    uint8_t wanted[GUARD_BYTES + SEEN_BYTES + GUARD_BYTES];
} lent;

/* The rooms for buffers, and where in its room a buffer lies. */
typedef enum { FIRST_ROOM, SECOND_ROOM, RESULT_ROOM, ACCURACY_ROOM, ROOMS } room;
typedef enum { BEFORE_WALL, BEHIND_WALL, AMID, PLACES } place;

/*
 * `lend` fills with random bytes; `lay` puts bytes at the start, as many as there is length for;
 * `wanted_at` is where what is wanted of the buffer begins.
 */
void start_buffers(void);
void lend(lent *to, room in, place at, size_t length);
void lay(lent *to, const uint8_t *bytes, size_t count);
uint8_t *wanted_at(lent *x);
int is_as_wanted(const lent *x);

#endif
