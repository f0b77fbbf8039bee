/* Words lent for a reading, its answer, and what became of them. */
#ifndef LENDING_H
#define LENDING_H

#include "blocks.h"
#include "ducatfeather.h"

/* What the words hold before, and how many stand behind those that are lent. */
enum { KEPT = 0x5a5a5a5a, BEHIND = 5 };

struct lending {
    uint32_t capacities[DUCAT_AREAS];
    uint32_t *words;
    size_t length; /* exactly what the areas need */
    uint64_t answer[DUCAT_NUMBERS];
};

struct lending lend(const uint32_t *capacities);
struct lending lend_each(uint32_t capacity);
void take_back(struct lending *l);

/* Reads, and gives the code. */
uint32_t ask(struct lending *l, const uint8_t *bytes, size_t length);
uint32_t ask_block(struct lending *l, const struct block *b);

/* Whether no word was touched, and whether none but those of the entries that the answer counts. */
int all_kept(const struct lending *l);
int others_kept(const struct lending *l);

/* Whether these are an answer's numbers, and no list has entries. */
int answered(const uint64_t *answer, uint64_t code, uint64_t field, uint64_t place, uint64_t first, uint64_t second);

#endif
