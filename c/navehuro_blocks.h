/*
 * The blocks of a depot's vans, written from a list of numbers.
 *
 * The function stands in libexport_blocks.a, which `rt lib` in crates/export_blocks writes to
 * out/ there; it is for x86-64, and needs `memset` of the C library.
 *
 * The list has five numbers for each van, one van after the other:
 *
 *     van     not 0, and above those of all vans before it
 *     start   of the odometer, in metres
 *     end     of the odometer, in metres, start or more
 *     fuel    in millilitres
 *     speed   the fastest, in metres per hour
 *
 * The blocks are those that the report program reads, and the only ones of their edition that it takes
 * for these vans: 512 bytes each, one after the other, numbered from 0, with 20 vans in each but the last.
 * No vans have no block. A list holds all vans of a depot: another call numbers its blocks from 0 again.
 *
 * The edition says what stands behind the five numbers of a van in its block: 0 in edition 0, its
 * distance, end less start, in edition 1. All blocks of a depot have one edition; the report's figures do
 * not depend on it.
 */
#ifndef NAVEHURO_BLOCKS_H
#define NAVEHURO_BLOCKS_H

#include <stddef.h>
#include <stdint.h>

#ifdef __cplusplus
extern "C" {
#endif

/* The editions, by what stands behind the five numbers of a van: 0, or its distance. */
#define NAVEHURO_EDITION_ZERO 0
#define NAVEHURO_EDITION_DISTANCE 1

/* The numbers of a van in the list. */
#define NAVEHURO_VAN_FIELDS 5

/* The most vans of a list; there may be none. */
#define NAVEHURO_MAX_VANS 4096

/* The most vans of a block, and its bytes. */
#define NAVEHURO_BLOCK_VANS 20
#define NAVEHURO_BLOCK_BYTES 512

/*
 * The bytes of the blocks of so many vans, at most NAVEHURO_MAX_VANS: 512 for each 20 vans begun,
 * 104,960 for the most. An output must have as many, and may have more.
 */
#define NAVEHURO_BLOCKS_BYTES(vans) \
    (((size_t)(vans) + NAVEHURO_BLOCK_VANS - 1) / NAVEHURO_BLOCK_VANS * NAVEHURO_BLOCK_BYTES)

/*
 * What a call answers. The refusals are looked for in the order in which they stand here, which is not
 * that of their numbers: the first that applies is the answer.
 */
enum {
    NAVEHURO_BLOCKS_WRITTEN = 0,   /* the output begins with the blocks */
    NAVEHURO_UNKNOWN_EDITION = 15, /* an edition other than 0 and 1 */
    NAVEHURO_PARTIAL_VAN = 18,     /* the list's length is not a multiple of five */
    NAVEHURO_TOO_MANY_VANS = 19,   /* more than 4,096 vans */
    NAVEHURO_WRONG_RECORD = 16,    /* a van that is 0 or not above the one before it, or end below start */
    NAVEHURO_OUTPUT_TOO_SHORT = 20 /* fewer bytes in the output than the blocks have */
};

/*
 * Writes the blocks of the vans in `fields`, in this edition, to the front of `output`.
 *
 * - fields is read, output is written, each of the length behind it: that of fields in numbers, that of
 *   output in bytes. No pointer may be null, also where the length is 0, and each must point at as many
 *   numbers or bytes as its length says: fields at a place for a uint32_t, output at any address.
 * - output must not overlap fields. Until the call returns nothing else may write to either, or read
 *   output.
 * - The answer is NAVEHURO_BLOCKS_WRITTEN, output begins with the blocks, and its bytes behind them are
 *   as they were; or the answer is a refusal, and all of output is as it was, never written in part. No
 *   other byte is written.
 * - Nothing is kept between calls, so threads may call at the same time on outputs of their own.
 *
 * A program that was written for the version without editions has to pass the edition as well and to be
 * compiled anew. An old object that is only linked anew passes the address of its list for the edition:
 * it is answered NAVEHURO_UNKNOWN_EDITION, but for an address whose lowest 32 bits are 0.
 */
uint32_t navehuro_write_blocks(uint32_t edition, const uint32_t *fields, size_t fields_length,
                               uint8_t *output, size_t output_length);

#ifdef __cplusplus
}
#endif

#endif
