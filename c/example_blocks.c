/* Writes the block of three vans in edition 1 to standard output, where the report reads it. From the
 * repository's root, with the report built (`rt run < stdin` in crates/report):
 *
 *     mkdir -p target && (cd crates/export_blocks && rt lib)
 *     gcc -std=c99 -Wall -Wextra -Werror -o target/example_blocks c/example_blocks.c \
 *         crates/export_blocks/out/libexport_blocks.a
 *     target/example_blocks | crates/report/out/report
 */
#include <inttypes.h>
#include <stdio.h>

#include "navehuro_blocks.h"

/* Of each van: its number, start and end in metres, fuel in millilitres, speed in metres per hour. */
static const uint32_t fields[] = {
    1, 0, 1000, 500, 90000, /* moved */
    2, 7, 7,    40,  0,     /* parked */
    3, 0, 2000, 500, 90001  /* moved, and over */
};

enum { NUMBERS = sizeof fields / sizeof fields[0], VANS = NUMBERS / NAVEHURO_VAN_FIELDS };

int main(void) {
    uint8_t blocks[NAVEHURO_BLOCKS_BYTES(VANS)];
    uint32_t answer = navehuro_write_blocks(NAVEHURO_EDITION_DISTANCE, fields, NUMBERS, blocks,
                                            sizeof blocks);
    if (answer != NAVEHURO_BLOCKS_WRITTEN) {
        fprintf(stderr, "refused %" PRIu32 "\n", answer);
        return 1;
    }
    if (fwrite(blocks, sizeof blocks, 1, stdout) != 1 || fflush(stdout) != 0) {
        perror("standard output");
        return 1;
    }
    return 0;
}
