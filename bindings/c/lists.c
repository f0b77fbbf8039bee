#include "lists.h"

#include <stdlib.h>
#include <string.h>

static void put_entry(struct lists *l, uint32_t list, uint32_t number, const void *entry, size_t size) {
    memcpy(l->words + ducat_start(l->capacities, list) + number * (size / sizeof(uint32_t)), entry, size);
}

struct ducat_guid guid_of(uint32_t number) {
    struct ducat_guid guid = {{number, 0, 0, number}};
    return guid;
}

void put_provider(struct lists *l, uint32_t number, struct ducat_guid guid) {
    struct ducat_provider entry;
    memset(&entry, 0, sizeof entry);
    entry.guid = guid;
    put_entry(l, DUCAT_LIST_PROVIDERS, number, &entry, sizeof entry);
}

void put_table(struct lists *l, uint32_t number, uint32_t provider, uint32_t kind, uint32_t first, uint32_t count) {
    struct ducat_table entry;
    memset(&entry, 0, sizeof entry);
    entry.provider_number = provider;
    entry.kind = kind;
    entry.first_entry = first;
    entry.entry_count = count;
    put_entry(l, DUCAT_LIST_TABLES, number, &entry, sizeof entry);
}

void put_event(struct lists *l, uint32_t number, uint32_t identifier, uint32_t template_offset) {
    struct ducat_event entry;
    memset(&entry, 0, sizeof entry);
    entry.identifier = identifier;
    entry.version = 2;
    entry.channel = 3;
    entry.level = 4;
    entry.opcode = 5;
    entry.task = 6;
    entry.keywords_low = 7;
    entry.keywords_high = 8;
    entry.template_offset = template_offset;
    put_entry(l, DUCAT_LIST_EVENTS, number, &entry, sizeof entry);
}

void put_template(struct lists *l, uint32_t number, uint32_t provider, uint32_t offset, uint32_t guid) {
    struct ducat_template entry;
    memset(&entry, 0, sizeof entry);
    entry.provider_number = provider;
    entry.offset = offset;
    entry.size = 40;
    entry.guid = guid_of(guid);
    put_entry(l, DUCAT_LIST_TEMPLATES, number, &entry, sizeof entry);
}

void set_count(struct lists *l, uint32_t list, uint32_t count) {
    l->counts[ducat_area_of(list)] = count;
}

struct lists new_lists(void) {
    struct lists l;
    for (size_t area = 0; area <= DUCAT_AREAS; area++)
        l.capacities[area] = ROOM;
    l.words = (uint32_t *)malloc(ducat_words(l.capacities) * sizeof *l.words);
    if (l.words == NULL)
        exit(2);
    fill_lists(&l);
    return l;
}

void free_lists(struct lists *l) {
    free(l->words);
    l->words = NULL;
}

void fill_lists(struct lists *l) {
    l->words_len = ducat_words(l->capacities);
    l->capacities_len = l->counts_len = DUCAT_AREAS;
    memset(l->words, 0, l->words_len * sizeof *l->words);
    memset(l->counts, 0, sizeof l->counts);
    put_provider(l, 0, guid_of(5));
    put_provider(l, 1, guid_of(6));
    put_table(l, 0, 0, DUCAT_TTBL, 0, 3);
    put_table(l, 1, 0, DUCAT_EVNT, 0, 3);
    put_table(l, 2, 0, DUCAT_EVNT, 3, 1);
    put_table(l, 3, 0, DUCAT_TTBL, 3, 1);
    put_event(l, 0, 1001, 200);
    put_event(l, 1, 1001, 100);
    put_event(l, 2, 1001, 200);
    put_event(l, 3, 1001, 400);
    put_template(l, 0, 0, 100, 71);
    put_template(l, 1, 0, 200, 72);
    put_template(l, 2, 0, 200, 73);
    put_template(l, 3, 0, 400, 74);
    set_count(l, DUCAT_LIST_PROVIDERS, 2);
    set_count(l, DUCAT_LIST_TABLES, ROOM);
    set_count(l, DUCAT_LIST_EVENTS, ROOM);
    set_count(l, DUCAT_LIST_TEMPLATES, ROOM);
}
