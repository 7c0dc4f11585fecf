/* The writer of blocks by plain means: editions, lists, outputs and answers are those of
 * navehuro_blocks.h. */
#ifndef WRITER_H
#define WRITER_H

#include <stddef.h>
#include <stdint.h>

uint32_t plain_write_blocks(uint32_t edition, const uint32_t *fields, size_t fields_length,
                            uint8_t *output, size_t output_length);

#endif
