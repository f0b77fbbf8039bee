#include "writing.h"

#include <string.h>

void add_word(struct block *b, uint32_t value) {
    put(b->bytes, b->length, value);
    b->length += 4;
}

void add_rising(struct block *b, uint32_t first, uint32_t count) {
    for (uint32_t i = 0; i < count; i++)
        add_word(b, first + i);
}

void add_zeros(struct block *b, size_t count) {
    memset(b->bytes + b->length, 0, count);
    b->length += count;
}

uint32_t add_letters(struct block *b, const char *four) {
    uint32_t place = (uint32_t)b->length;
    memcpy(b->bytes + place, four, 4);
    b->length += 4;
    return place;
}
