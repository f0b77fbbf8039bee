/* Blocks to read. */
#ifndef BLOCKS_H
#define BLOCKS_H

#include <stddef.h>
#include <stdint.h>

struct block {
    uint8_t bytes[2048];
    size_t length;
};

/* Stores a word at a place. */
void put(uint8_t *bytes, size_t place, uint32_t word);

/* The word at a place. */
uint32_t word_at(const uint8_t *bytes, size_t place);

/* Z: CRIM, size 16, no provider. */
struct block block_z(void);

/* T: one provider with one table, a TTBL, with one template. */
struct block block_t(void);

/* U: T with an item, whose name is A, and 8 bytes behind the table. */
struct block block_u(void);

/* One provider with one table, a LEVL, with so many definitions: its bytes, to be freed, and their number. */
uint8_t *block_of_levels(uint32_t levels, size_t *length);

#endif
