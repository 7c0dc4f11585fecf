/*
 * Buffers to lend to a call. Around each lie random bytes, and before and behind each room two walls:
 * pages that can be neither read nor written. A call that goes beyond a buffer at a wall ends the
 * program.
 */
#define _DEFAULT_SOURCE /* for MAP_ANONYMOUS and MAP_NORESERVE */
#include "compare.h"

#include <stdio.h>
#include <stdlib.h>
#include <string.h>
#include <sys/mman.h>
#include <unistd.h>

static struct {
    uint8_t *first, *end;
} rooms[ROOMS];

void start_buffers(void) {
    size_t page = (size_t)sysconf(_SC_PAGESIZE);
    size_t length = (MOST_LENGTH / page + 1) * page;
    for (int i = 0; i < ROOMS; i++) {
        uint8_t *wall = mmap(NULL, page + length + page, PROT_NONE,
                             MAP_PRIVATE | MAP_ANONYMOUS | MAP_NORESERVE, -1, 0);
        if (wall == MAP_FAILED || mprotect(wall + page, length, PROT_READ | PROT_WRITE) != 0) {
            fprintf(stderr, "no memory for the buffers\n");
            exit(NOT_COMPARED);
        }
        rooms[i].first = wall + page;
        rooms[i].end = rooms[i].first + length;
    }
}

static void fill(uint8_t *bytes, size_t length) {
    uint64_t word = 0;
    for (size_t i = 0; i < length; i++, word >>= 8) {
        if (i % sizeof word == 0) word = random_word();
        bytes[i] = (uint8_t)word;
    }
}

void lend(lent *to, room in, place at, size_t length) {
    uint8_t *first = rooms[in].first, *end = rooms[in].end;
    size_t behind;
    to->length = length < SEEN_BYTES ? length : SEEN_BYTES;
    switch (at) {
    case BEFORE_WALL: to->start = end - length; break;
    case BEHIND_WALL: to->start = first; break;
    default: to->start = first + GUARD_BYTES + below(ALIGNMENTS); break;
    }
    to->before = (size_t)(to->start - first);
    behind = (size_t)(end - (to->start + to->length));
    if (to->before > GUARD_BYTES) to->before = GUARD_BYTES;
    if (behind > GUARD_BYTES) behind = GUARD_BYTES;
    to->seen = to->start - to->before;
    to->seen_length = to->before + to->length + behind;
    fill(to->seen, to->seen_length);
    memcpy(to->wanted, to->seen, to->seen_length);
}

void lay(lent *to, const uint8_t *bytes, size_t count) {
    if (count > to->length) count = to->length;
    memcpy(to->start, bytes, count);
    memcpy(wanted_at(to), bytes, count);
}

uint8_t *wanted_at(lent *x) { return x->wanted + x->before; }

int is_as_wanted(const lent *x) { return memcmp(x->seen, x->wanted, x->seen_length) == 0; }
