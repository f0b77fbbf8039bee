#include "lending.h"

#include <stdlib.h>
#include <string.h>

struct lending lend(const uint32_t *capacities) {
    struct lending l;
    memcpy(l.capacities, capacities, sizeof l.capacities);
    memset(l.answer, 0xff, sizeof l.answer);
    l.length = ducat_words(capacities);
    l.words = (uint32_t *)malloc((l.length + BEHIND) * sizeof *l.words);
    if (l.words == NULL)
        exit(2);
    for (size_t i = 0; i < l.length + BEHIND; i++)
        l.words[i] = KEPT;
    return l;
}

struct lending lend_each(uint32_t capacity) {
    uint32_t capacities[DUCAT_AREAS];
    for (size_t area = 0; area < DUCAT_AREAS; area++)
        capacities[area] = capacity;
    return lend(capacities);
}

void take_back(struct lending *l) {
    free(l->words);
    l->words = NULL;
}

uint32_t ask(struct lending *l, const uint8_t *bytes, size_t length) {
    memset(l->answer, 0xff, sizeof l->answer);
    return ducat_read(bytes, length, l->words, l->length, l->capacities, DUCAT_AREAS, l->answer, DUCAT_NUMBERS);
}

uint32_t ask_block(struct lending *l, const struct block *b) {
    return ask(l, b->bytes, b->length);
}

static int kept(const struct lending *l, size_t from, size_t to) {
    for (size_t i = from; i < to; i++)
        if (l->words[i] != KEPT)
            return 0;
    return 1;
}

int all_kept(const struct lending *l) {
    return kept(l, 0, l->length + BEHIND);
}

int others_kept(const struct lending *l) {
    for (size_t area = 0; area < DUCAT_AREAS; area++) {
        const struct ducat_area *a = ducat_areas() + area;
        size_t start = ducat_start(l->capacities, a->list);
        size_t end = start + (size_t)l->capacities[area] * a->words;
        if (!kept(l, start + (size_t)ducat_count(l->answer, a->list) * a->words, end))
            return 0;
    }
    return kept(l, l->length, l->length + BEHIND);
}

int answered(const uint64_t *answer, uint64_t code, uint64_t field, uint64_t place, uint64_t first, uint64_t second) {
    for (size_t area = 0; area < DUCAT_AREAS; area++)
        if (answer[DUCAT_COUNTS + area] != 0)
            return 0;
    return answer[DUCAT_CODE] == code && answer[DUCAT_FIELD] == field && answer[DUCAT_PLACE] == place &&
           answer[DUCAT_FIRST] == first && answer[DUCAT_SECOND] == second;
}
