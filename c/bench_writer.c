/*
 * CPU time of a call of the library's writer of blocks, beside a plain one (writer.c). Standard input has
 * the numbers of a full month's vans, then the month's blocks in edition 0 and in edition 1. Before the
 * clock starts the two write from these numbers into outputs that hold a pattern, with and without room,
 * also in editions and from lists that are refused: answers and outputs must be the same, a refused
 * output must hold its pattern, and the month's must be the blocks read. The first line printed says how
 * often; then comes a line for each list that is measured: its name, and the two times in nanoseconds
 * with tabs before them.
 */
#include "bench.h"
#include "navehuro_blocks.h"
#include "writer.h"

#include <stdio.h>
#include <string.h>

enum {
    MONTH_NUMBERS = NAVEHURO_MAX_VANS * NAVEHURO_VAN_FIELDS,
    MONTH_BYTES = NAVEHURO_BLOCKS_BYTES(NAVEHURO_MAX_VANS),
    MORE_NUMBERS = 2 * NAVEHURO_VAN_FIELDS, /* than a month may have */
    BYTES = MONTH_BYTES + 1,                 /* of an output: never too short, nor filled */
    FEW_NUMBERS = 3 * NAVEHURO_BLOCK_VANS * NAVEHURO_VAN_FIELDS,
    LAST_VAN = MONTH_NUMBERS - NAVEHURO_VAN_FIELDS,
    EDITIONS = NAVEHURO_EDITION_DISTANCE + 1,
    ANSWERS = NAVEHURO_OUTPUT_TOO_SHORT + 1
};

enum { DIFFERENT = 1, FAILED = 2 }; /* exit statuses */

typedef uint32_t entry(uint32_t, const uint32_t *, size_t, uint8_t *, size_t);

static uint32_t fields[MONTH_NUMBERS + MORE_NUMBERS];
static uint8_t months[EDITIONS][MONTH_BYTES], pattern[BYTES], output[BYTES], plain_output[BYTES];
static unsigned answered[ANSWERS];

/* A number of the list, and what is put in its place for some of the comparisons. */
static const struct {
    size_t at;
    uint32_t value;
} damages[] = {
    {0, 1}, /* none: the first van is 1 */
    {0, 0},
    {NAVEHURO_BLOCK_VANS * NAVEHURO_VAN_FIELDS, NAVEHURO_BLOCK_VANS}, /* a van twice */
    {LAST_VAN, 1},
    {LAST_VAN + 1, UINT32_MAX}, /* end below start */
};
enum { DAMAGES = sizeof damages / sizeof damages[0] };

static const uint32_t editions[] = {0, 1, 2, 256, 65536, UINT32_MAX};
enum { ALL_EDITIONS = sizeof editions / sizeof editions[0] };

static const struct {
    const char *name;
    uint32_t edition;
    size_t vans;
    int passes; /* while the clock runs */
} lines[] = {{"20 vans", 0, 20, 400000},
             {"4,096 vans", 0, 4096, 2000},
             {"20 vans, edition 1", 1, 20, 400000},
             {"4,096 vans, edition 1", 1, 4096, 2000}};
enum { LINES = sizeof lines / sizeof lines[0] };

/* Whether the two answer and leave the same for the first numbers of the list, in an output so long. */
static int is_same(uint32_t edition, size_t numbers, size_t length) {
    memcpy(output, pattern, BYTES);
    memcpy(plain_output, pattern, BYTES);
    uint32_t answer = navehuro_write_blocks(edition, fields, numbers, output, length);
    if (plain_write_blocks(edition, fields, numbers, plain_output, length) != answer) return 0;
    if (memcmp(output, plain_output, BYTES) != 0 || answer >= ANSWERS) return 0;
    answered[answer]++;
    return answer == NAVEHURO_BLOCKS_WRITTEN || memcmp(output, pattern, BYTES) == 0;
}

/* The same for lists of each length in a range, in outputs with just room, with too little and more. */
static int are_same(uint32_t edition, size_t fewest, size_t most) {
    for (size_t numbers = fewest; numbers <= most; numbers++) {
        size_t room = NAVEHURO_BLOCKS_BYTES(numbers / NAVEHURO_VAN_FIELDS);
        if (room > 0 && !is_same(edition, numbers, room - 1)) return 0;
        if (!is_same(edition, numbers, room) || !is_same(edition, numbers, BYTES)) return 0;
    }
    return 1;
}

static int is_right_in(uint32_t edition) {
    for (int i = 0; i < DAMAGES; i++) {
        uint32_t old = fields[damages[i].at];
        fields[damages[i].at] = damages[i].value;
        if (!are_same(edition, 0, FEW_NUMBERS)) return 0;
        if (!are_same(edition, LAST_VAN, MONTH_NUMBERS + MORE_NUMBERS)) return 0;
        fields[damages[i].at] = old;
    }
    return is_same(edition, MONTH_NUMBERS, MONTH_BYTES) &&
           (edition >= EDITIONS || memcmp(output, months[edition], MONTH_BYTES) == 0);
}

static int is_right(void) {
    for (int i = 0; i < ALL_EDITIONS; i++)
        if (!is_right_in(editions[i])) return 0;
    return 1;
}

/* CPU time of a call in nanoseconds. */
static double time_of(entry *write, uint32_t edition, size_t vans, int passes) {
    double start = cpu_time();
    for (int i = 0; i < passes; i++) {
        write(edition, fields, vans * NAVEHURO_VAN_FIELDS, output, BYTES);
        USED(output);
    }
    return (cpu_time() - start) / passes;
}

int main(void) {
    if (fread(fields, sizeof fields[0], MONTH_NUMBERS, stdin) != MONTH_NUMBERS ||
        fread(months, sizeof months, 1, stdin) != 1) {
        fputs("the input is too short\n", stderr);
        return FAILED;
    }
    for (int i = 0; i < BYTES; i++) pattern[i] = (uint8_t)(i % 251 + 1);
    if (!is_right()) return DIFFERENT;
    printf("Library and plain writer do the same: written %u, refused 15: %u, 18: %u, 19: %u, 16: %u, "
           "20: %u\n",
           answered[NAVEHURO_BLOCKS_WRITTEN], answered[NAVEHURO_UNKNOWN_EDITION],
           answered[NAVEHURO_PARTIAL_VAN], answered[NAVEHURO_TOO_MANY_VANS],
           answered[NAVEHURO_WRONG_RECORD], answered[NAVEHURO_OUTPUT_TOO_SHORT]);
    for (int i = 0; i < LINES; i++) {
        uint32_t edition = lines[i].edition;
        printf("%s", lines[i].name);
        printf("\t%.3f", time_of(navehuro_write_blocks, edition, lines[i].vans, lines[i].passes));
        printf("\t%.3f\n", time_of(plain_write_blocks, edition, lines[i].vans, lines[i].passes));
    }
    return 0;
}
