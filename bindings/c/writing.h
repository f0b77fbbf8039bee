/* Writing a block from its start on. */
#ifndef WRITING_H
#define WRITING_H

#include "blocks.h"

/* A word, words that go up from one, zero bytes. */
void add_word(struct block *b, uint32_t value);
void add_rising(struct block *b, uint32_t first, uint32_t count);
void add_zeros(struct block *b, size_t count);

/* Four letters, whose place is given. */
uint32_t add_letters(struct block *b, const char *four);

#endif
