#include "blocks.h"

#include <stdlib.h>
#include <string.h>

void put(uint8_t *bytes, size_t place, uint32_t word) {
    for (int i = 0; i < 4; i++)
        bytes[place + i] = (uint8_t)(word >> 8 * i);
}

uint32_t word_at(const uint8_t *bytes, size_t place) {
    uint32_t word = 0;
    for (int i = 0; i < 4; i++)
        word |= (uint32_t)bytes[place + i] << 8 * i;
    return word;
}

struct block block_z(void) {
    struct block z;
    memset(&z, 0, sizeof z);
    z.length = 16;
    memcpy(z.bytes, "CRIM", 4);
    put(z.bytes, 4, 16);
    return z;
}

struct block block_t(void) {
    struct block t;
    memset(&t, 0, sizeof t);
    t.length = 116;
    memcpy(t.bytes, "CRIM", 4);
    put(t.bytes, 4, 116);
    put(t.bytes, 12, 1);
    put(t.bytes, 32, 36);
    memcpy(t.bytes + 36, "WEVT", 4);
    put(t.bytes, 40, 80);
    put(t.bytes, 48, 1);
    put(t.bytes, 56, 64);
    memcpy(t.bytes + 64, "TTBL", 4);
    put(t.bytes, 68, 52);
    put(t.bytes, 72, 1);
    memcpy(t.bytes + 76, "TEMP", 4);
    put(t.bytes, 80, 40);
    return t;
}

struct block block_u(void) {
    struct block u = block_t();
    u.length = 152;
    put(u.bytes, 4, 152);
    put(u.bytes, 68, 80);
    put(u.bytes, 80, 68);
    put(u.bytes, 84, 1);
    put(u.bytes, 88, 1);
    put(u.bytes, 92, 116);
    put(u.bytes, 132, 136);
    put(u.bytes, 136, 8);
    put(u.bytes, 140, 'A');
    return u;
}

uint8_t *block_of_levels(uint32_t levels, size_t *length) {
    *length = 76 + 12 * (size_t)levels;
    uint8_t *bytes = (uint8_t *)calloc(1, *length);
    if (bytes == NULL)
        exit(2);
    memcpy(bytes, "CRIM", 4);
    put(bytes, 4, (uint32_t)*length);
    put(bytes, 12, 1);
    put(bytes, 32, 36);
    memcpy(bytes + 36, "WEVT", 4);
    put(bytes, 48, 1);
    put(bytes, 56, 64);
    memcpy(bytes + 64, "LEVL", 4);
    put(bytes, 68, 12 + 12 * levels);
    put(bytes, 72, levels);
    for (uint32_t i = 0; i < levels; i++)
        put(bytes, 76 + 12 * (size_t)i, i);
    return bytes;
}
