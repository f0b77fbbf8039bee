/* What a reading lays into the lists, reached by the header's structs and functions: how many entries, each in its place, and each
 * of their fields. */
#include "check.h"
#include "full.h"
#include "lending.h"
#include "tests.h"

#include <string.h>

/* Copies an entry of a lending's words, and says whether there is one. */
#define ENTRY(l, list, number, entry) (ducat_entry((l)->words, (l)->capacities, list, number, &(entry), sizeof(entry)) == 1)

static int rising(const struct ducat_guid *guid, uint32_t first) {
    const uint32_t expected[] = {first, first + 1, first + 2, first + 3};
    return memcmp(guid, expected, sizeof expected) == 0;
}

static void marked(const struct lending *l) {
    struct ducat_descriptor descriptor;
    struct ducat_unknown2 unknown2;
    struct ducat_definition definition;
    struct ducat_event event;
    struct ducat_map_entry map_entry;
    struct ducat_template temp;
    struct ducat_unknown_element element;
    struct ducat_item item;
    for (uint32_t i = 0; i < full_count(DUCAT_LIST_DESCRIPTORS); i++)
        check(ENTRY(l, DUCAT_LIST_DESCRIPTORS, i, descriptor) && descriptor.unknown == mark(DUCAT_LIST_DESCRIPTORS, i), "each descriptor");
    for (uint32_t i = 0; i < full_count(DUCAT_LIST_UNKNOWN2); i++)
        check(ENTRY(l, DUCAT_LIST_UNKNOWN2, i, unknown2) && unknown2.word == mark(DUCAT_LIST_UNKNOWN2, i), "each unknown2 word");
    for (uint32_t i = 0; i < full_count(DUCAT_LIST_DEFINITIONS); i++)
        check(ENTRY(l, DUCAT_LIST_DEFINITIONS, i, definition) && definition.identifier_low == mark(DUCAT_LIST_DEFINITIONS, i),
              "each definition");
    for (uint32_t i = 0; i < full_count(DUCAT_LIST_EVENTS); i++)
        check(ENTRY(l, DUCAT_LIST_EVENTS, i, event) && event.flags == mark(DUCAT_LIST_EVENTS, i), "each event");
    for (uint32_t i = 0; i < full_count(DUCAT_LIST_MAP_ENTRIES); i++)
        check(ENTRY(l, DUCAT_LIST_MAP_ENTRIES, i, map_entry) && map_entry.identifier == 32 &&
              map_entry.message == mark(DUCAT_LIST_MAP_ENTRIES, i), "each map entry");
    for (uint32_t i = 0; i < full_count(DUCAT_LIST_TEMPLATES); i++)
        check(ENTRY(l, DUCAT_LIST_TEMPLATES, i, temp) && temp.event_type == mark(DUCAT_LIST_TEMPLATES, i), "each template");
    for (uint32_t i = 0; i < full_count(DUCAT_LIST_UNKNOWN_ELEMENTS); i++)
        check(ENTRY(l, DUCAT_LIST_UNKNOWN_ELEMENTS, i, element) && element.signature == mark(DUCAT_LIST_UNKNOWN_ELEMENTS, i),
              "each unknown element");
    for (uint32_t i = 0; i < full_count(DUCAT_LIST_ITEMS); i++)
        check(ENTRY(l, DUCAT_LIST_ITEMS, i, item) && item.unknown1 == mark(DUCAT_LIST_ITEMS, i) &&
              item.template_number == full_count(DUCAT_LIST_TEMPLATES) - 1, "each item");
}

static void provider(const struct lending *l, const struct block *b) {
    struct ducat_provider p;
    check(ENTRY(l, DUCAT_LIST_PROVIDERS, 0, p) && rising(&p.guid, 41) && p.wevt_offset == 36 && p.size == 45 &&
          p.message == mark(DUCAT_LIST_PROVIDERS, 0) && p.descriptor_count == full_count(DUCAT_LIST_DESCRIPTORS) &&
          p.unknown2_count == full_count(DUCAT_LIST_UNKNOWN2), "a provider's fields");
    struct ducat_descriptor d;
    check(ENTRY(l, DUCAT_LIST_DESCRIPTORS, 1, d) && d.offset == word_at(b->bytes, 64) && d.signature == 0x544e5645,
          "a descriptor's fields");
    struct ducat_unknown_element e;
    check(ENTRY(l, DUCAT_LIST_UNKNOWN_ELEMENTS, 3, e) && e.provider_number == 0 && e.offset == b->length - 8 && e.size == 8,
          "an unknown element's fields");
}

static void tables(const struct lending *l) {
    const struct {
        uint32_t kind, first_entry, entry_count;
    } expected[] = {
        {DUCAT_CHAN, 0, 1},
        {DUCAT_EVNT, 0, full_count(DUCAT_LIST_EVENTS)},
        {DUCAT_KEYW, 1, 1},
        {DUCAT_LEVL, 2, 1},
        {DUCAT_MAPS, 0, full_count(DUCAT_LIST_MAPS)},
        {DUCAT_OPCO, 3, 1},
        {DUCAT_TASK, 4, 1},
        {DUCAT_TTBL, 0, full_count(DUCAT_LIST_TEMPLATES)},
    };
    struct ducat_table t;
    struct ducat_descriptor d;
    for (uint32_t i = 0; i < full_count(DUCAT_LIST_TABLES); i++)
        check(ENTRY(l, DUCAT_LIST_TABLES, i, t) && ENTRY(l, DUCAT_LIST_DESCRIPTORS, i, d) && t.provider_number == 0 && t.offset == d.offset &&
              t.kind == expected[i].kind && t.first_entry == expected[i].first_entry && t.entry_count == expected[i].entry_count,
              "each table");
    check(ENTRY(l, DUCAT_LIST_TABLES, 1, t) && t.size == 16 + 48 * t.entry_count + 4 && t.extra == 31 &&
          t.trailing_start == t.offset + t.size - 4 && t.trailing_length == 4, "a table's fields");
}

static void definitions(const struct lending *l) {
    struct ducat_definition d;
    check(ENTRY(l, DUCAT_LIST_DEFINITIONS, 0, d) && d.kind == DUCAT_CHAN && d.identifier_high == 0 && d.message == 22 &&
          d.name_offset == FULL_NAME && d.name_start == FULL_NAME + 4 && d.name_units == 1 && d.unknown == 21 && d.name_ended == 1,
          "a CHAN's fields");
    check(ENTRY(l, DUCAT_LIST_DEFINITIONS, 1, d) && d.kind == DUCAT_KEYW && d.identifier_high == 23 && d.message == 24,
          "a KEYW's fields");
    check(ENTRY(l, DUCAT_LIST_DEFINITIONS, 2, d) && d.kind == DUCAT_LEVL, "a LEVL's fields");
    check(ENTRY(l, DUCAT_LIST_DEFINITIONS, 3, d) && d.kind == DUCAT_OPCO, "an OPCO's fields");
    check(ENTRY(l, DUCAT_LIST_DEFINITIONS, 4, d) && d.kind == DUCAT_TASK && d.message == 25 && rising(&d.mui, 26) &&
          d.name_ended == 0, "a TASK's fields");
}

static void event(const struct lending *l) {
    struct ducat_event e;
    check(ENTRY(l, DUCAT_LIST_EVENTS, 5, e) && e.identifier == 1 && e.version == 2 && e.channel == 3 && e.level == 4 && e.opcode == 5 &&
          e.task == 6 && e.keywords_low == 7 && e.keywords_high == 8 && e.message == 9 && e.template_offset == 10 &&
          e.opcode_offset == 11 && e.level_offset == 12 && e.task_offset == 13 && e.unknown_count == 14 && e.unknown_offset == 15,
          "an event's fields");
}

static void maps(const struct lending *l) {
    struct ducat_map m;
    check(ENTRY(l, DUCAT_LIST_MAPS, 0, m) && m.kind == DUCAT_VMAP && m.signature == 0x50414d56 &&
          m.size == 16 + 8 * full_count(DUCAT_LIST_MAP_ENTRIES) + 4 && m.string_offset == FULL_NAME && m.name_start == FULL_NAME + 4 &&
          m.name_units == 1 && m.first_entry == 0 && m.entry_count == full_count(DUCAT_LIST_MAP_ENTRIES) &&
          m.data_start == m.offset + m.size - 4 && m.data_length == 4 && m.name_ended == 1, "a VMAP's fields");
    uint32_t behind = m.offset + m.size;
    check(ENTRY(l, DUCAT_LIST_MAPS, 1, m) && m.kind == DUCAT_BMAP && m.offset == behind && m.data_start == behind && m.data_length == 4 &&
          m.name_ended == 0, "a BMAP's fields");
    check(ENTRY(l, DUCAT_LIST_MAPS, 2, m) && m.kind == DUCAT_OTHER_MAP && m.offset == behind + 4 && m.name_ended == 0,
          "another map's fields");
}

/* The sorts of names that the one at FULL_NAME can be: its size, and its units as one word; then how many are the text, and whether
 * a zero unit ended it. Size 0 stands for none at all. */
static const struct sort {
    uint32_t size, letters, units, ended;
    const char *what;
} sorts[] = {
    {8, 'N', 1, 1, "a name that a zero unit ends"},
    {8, 'N' + ('O' << 16), 2, 0, "a name that runs out"},
    {6, 'N', 1, 0, "a name that runs out before a zero unit"},
    {4, 'N', 0, 0, "a name of no units"},
    {6, 'O' << 16, 0, 1, "a name of a zero unit alone"},
    {8, 'O' << 16, 0, 1, "a name that starts with a zero unit"},
    {0, 0, 0, 0, "no name"},
};

/* The place of an element of the full block, by its descriptor's number. */
static uint32_t element_at(const struct block *b, uint32_t number) {
    return word_at(b->bytes, 56 + 8 * number);
}

/* Each definition of the full block, and its VMAP, with a name of that sort. */
static void named(const struct sort *s) {
    /* The descriptor of each definition's table, in list 5's order, and where its record has the name's offset. */
    static const uint32_t records[][2] = {{0, 4}, {2, 12}, {3, 8}, {5, 8}, {6, 24}};
    enum { DEFINITIONS = sizeof records / sizeof records[0], MAPS_DESCRIPTOR = 4 };
    struct block b = block_full();
    struct lending l = lend_each(full_count(DUCAT_LIST_DESCRIPTORS));
    uint32_t offset = s->size == 0 ? 0 : FULL_NAME, start = s->size == 0 ? 0 : FULL_NAME + 4;
    put(b.bytes, FULL_NAME, s->size);
    put(b.bytes, FULL_NAME + 4, s->letters);
    for (uint32_t i = 0; i < DEFINITIONS; i++)
        put(b.bytes, element_at(&b, records[i][0]) + 12 + records[i][1], offset);
    /* The VMAP stands behind the places of the two other maps. */
    put(b.bytes, element_at(&b, MAPS_DESCRIPTOR) + 16 + 8 + 8, offset);
    check(DEFINITIONS == full_count(DUCAT_LIST_DEFINITIONS) && ask_block(&l, &b) == DUCAT_ACCEPTED && others_kept(&l), s->what);

    struct ducat_definition d;
    for (uint32_t i = 0; i < DEFINITIONS; i++)
        check(ENTRY(&l, DUCAT_LIST_DEFINITIONS, i, d) && d.name_offset == offset && d.name_start == start &&
              d.name_units == s->units && d.name_ended == s->ended, s->what);
    struct ducat_map m;
    check(ENTRY(&l, DUCAT_LIST_MAPS, 0, m) && m.string_offset == offset && m.name_start == start && m.name_units == s->units &&
          m.name_ended == s->ended, s->what);
    for (uint32_t i = 1; i < full_count(DUCAT_LIST_MAPS); i++)
        check(ENTRY(&l, DUCAT_LIST_MAPS, i, m) && m.name_start == 0 && m.name_units == 0 && m.name_ended == 0, "a map that has no name");
    take_back(&l);
}

/* U, with something in each field of its template; the item starts four bytes later and has no name. */
static void template_of_u(void) {
    struct block u = block_u();
    struct lending l = lend_each(1);
    struct ducat_template e;
    put(u.bytes, 88, 3);
    put(u.bytes, 92, 120);
    for (uint32_t i = 0; i < 5; i++)
        put(u.bytes, 96 + 4 * i, 4 + i);
    put(u.bytes, 136, 0);
    check(ask_block(&l, &u) == DUCAT_ACCEPTED, "U with a fuller template");
    check(ENTRY(&l, DUCAT_LIST_TEMPLATES, 0, e) && e.provider_number == 0 && e.offset == 76 && e.size == 68 &&
          e.item_descriptor_count == 1 && e.item_name_count == 3 && e.items_offset == 120 && e.event_type == 4 &&
          rising(&e.guid, 5) && e.binxml_start == 116 && e.binxml_length == 4, "a template's fields");
    take_back(&l);
}

/* Each list has more room than it needs, and no two lists equally much more. */
void test_entries(void) {
    struct block b = block_full();
    uint32_t capacities[DUCAT_AREAS];
    for (uint32_t area = 0; area < DUCAT_AREAS; area++)
        capacities[area] = full_count(ducat_areas()[area].list) + 1 + area;
    struct lending l = lend(capacities);
    check(ask_block(&l, &b) == DUCAT_ACCEPTED, "a block with entries in every list");
    for (size_t area = 0; area < DUCAT_AREAS; area++) {
        uint32_t list = ducat_areas()[area].list;
        check(full_count(list) != 0 && ducat_count(l.answer, list) == full_count(list), "how many entries a list has");
    }
    check(others_kept(&l), "words that no entry needs");
    marked(&l);
    provider(&l, &b);
    tables(&l);
    definitions(&l);
    event(&l);
    maps(&l);
    take_back(&l);
    template_of_u();
    for (size_t i = 0; i < sizeof sorts / sizeof sorts[0]; i++)
        named(&sorts[i]);
}
