#include "full.h"

#include "ducatfeather.h"
#include "writing.h"

uint32_t full_count(uint32_t list) {
    switch (list) {
    case DUCAT_LIST_PROVIDERS: return 1;
    case DUCAT_LIST_MAPS: return 3;
    case DUCAT_LIST_UNKNOWN_ELEMENTS: return 4;
    case DUCAT_LIST_DEFINITIONS: return 5;
    case DUCAT_LIST_EVENTS: return 6;
    case DUCAT_LIST_UNKNOWN2: return 7;
    case DUCAT_LIST_TABLES: return 8;
    case DUCAT_LIST_MAP_ENTRIES: return 9;
    case DUCAT_LIST_TEMPLATES: return 10;
    case DUCAT_LIST_ITEMS: return 11;
    case DUCAT_LIST_DESCRIPTORS: return 12;
    default: return 0;
    }
}

uint32_t mark(uint32_t list, uint32_t number) {
    return 100 * list + number;
}

/* A table of one definition, the one of this number, whose record is that long and goes on as given. */
static uint32_t definition(struct block *b, const char *four, uint32_t number, uint32_t record, uint32_t second, uint32_t third) {
    uint32_t place = add_letters(b, four);
    add_word(b, 12 + record);
    add_word(b, 1);
    add_word(b, mark(DUCAT_LIST_DEFINITIONS, number));
    add_word(b, second);
    add_word(b, third);
    return place;
}

static uint32_t channels(struct block *b) {
    uint32_t place = definition(b, "CHAN", 0, 16, FULL_NAME, 21);
    add_word(b, 22);
    return place;
}

static uint32_t keywords(struct block *b) {
    uint32_t place = definition(b, "KEYW", 1, 16, 23, 24);
    add_word(b, 0);
    return place;
}

static uint32_t tasks(struct block *b) {
    uint32_t place = definition(b, "TASK", 4, 28, 25, 26);
    add_rising(b, 27, 3);
    add_word(b, 0);
    return place;
}

/* Each event's fields are 1 to 15 and its mark. A word more stands behind the events. */
static uint32_t events(struct block *b) {
    uint32_t count = full_count(DUCAT_LIST_EVENTS);
    uint32_t place = add_letters(b, "EVNT");
    add_word(b, 16 + 48 * count + 4);
    add_word(b, count);
    add_word(b, 31);
    for (uint32_t i = 0; i < count; i++) {
        add_word(b, 1 + (2u << 16) + (3u << 24));
        add_word(b, 4 + (5u << 8) + (6u << 16));
        add_rising(b, 7, 9);
        add_word(b, mark(DUCAT_LIST_EVENTS, i));
    }
    add_zeros(b, 4);
    return place;
}

/* A VMAP, which has all the entries and a word more behind them, then a BMAP and another map. */
static uint32_t maps(struct block *b) {
    uint32_t count = full_count(DUCAT_LIST_MAP_ENTRIES);
    uint32_t size = 16 + 8 * count + 4;
    uint32_t place = add_letters(b, "MAPS");
    uint32_t behind = place + 16 + 8 + size;
    add_word(b, behind + 8 - place);
    add_word(b, full_count(DUCAT_LIST_MAPS));
    add_zeros(b, 4);
    add_word(b, behind);
    add_word(b, behind + 4);
    add_letters(b, "VMAP");
    add_word(b, size);
    add_word(b, FULL_NAME);
    add_word(b, count);
    for (uint32_t i = 0; i < count; i++) {
        add_word(b, 32);
        add_word(b, mark(DUCAT_LIST_MAP_ENTRIES, i));
    }
    add_zeros(b, 4);
    add_letters(b, "BMAP");
    add_letters(b, "WHAT");
    return place;
}

/* The last template has all the items, which have no names. */
static uint32_t templates(struct block *b) {
    uint32_t count = full_count(DUCAT_LIST_TEMPLATES), all = full_count(DUCAT_LIST_ITEMS);
    uint32_t place = add_letters(b, "TTBL");
    add_word(b, 12 + 40 * count + 20 * all);
    add_word(b, count);
    for (uint32_t i = 0; i < count; i++) {
        uint32_t items = i + 1 == count ? all : 0;
        uint32_t temp = add_letters(b, "TEMP");
        add_word(b, 40 + 20 * items);
        add_word(b, items);
        add_zeros(b, 4);
        add_word(b, temp + 40);
        add_word(b, mark(DUCAT_LIST_TEMPLATES, i));
        add_zeros(b, 16);
    }
    for (uint32_t i = 0; i < all; i++) {
        add_word(b, mark(DUCAT_LIST_ITEMS, i));
        add_zeros(b, 16);
    }
    return place;
}

static void start(struct block *b) {
    b->length = 0;
    add_letters(b, "CRIM");
    add_zeros(b, 4);
    add_word(b, 3 + (1u << 16));
    add_word(b, full_count(DUCAT_LIST_PROVIDERS));
    add_rising(b, 41, 4);
    add_word(b, 36);

    add_letters(b, "WEVT");
    add_word(b, 45);
    add_word(b, mark(DUCAT_LIST_PROVIDERS, 0));
    add_word(b, full_count(DUCAT_LIST_DESCRIPTORS));
    add_word(b, full_count(DUCAT_LIST_UNKNOWN2));
    for (uint32_t i = 0; i < full_count(DUCAT_LIST_DESCRIPTORS); i++) {
        add_zeros(b, 4);
        add_word(b, mark(DUCAT_LIST_DESCRIPTORS, i));
    }
    add_rising(b, mark(DUCAT_LIST_UNKNOWN2, 0), full_count(DUCAT_LIST_UNKNOWN2));
    add_word(b, 8);
    add_word(b, 'N');
}

/* The next descriptor's element is at that place. */
static void element(struct block *b, size_t *descriptor, uint32_t place) {
    put(b->bytes, *descriptor, place);
    *descriptor += 8;
}

struct block block_full(void) {
    struct block b;
    size_t descriptor = 56;
    start(&b);
    element(&b, &descriptor, channels(&b));
    element(&b, &descriptor, events(&b));
    element(&b, &descriptor, keywords(&b));
    element(&b, &descriptor, definition(&b, "LEVL", 2, 12, 0, 0));
    element(&b, &descriptor, maps(&b));
    element(&b, &descriptor, definition(&b, "OPCO", 3, 12, 0, 0));
    element(&b, &descriptor, tasks(&b));
    element(&b, &descriptor, templates(&b));
    for (uint32_t i = 0; i < full_count(DUCAT_LIST_UNKNOWN_ELEMENTS); i++) {
        element(&b, &descriptor, (uint32_t)b.length);
        add_word(&b, mark(DUCAT_LIST_UNKNOWN_ELEMENTS, i));
        add_word(&b, 8);
    }
    put(b.bytes, 4, (uint32_t)b.length);
    return b;
}
