/* The header's table of areas, and the functions that go by it. */
#include "check.h"
#include "lending.h"
#include "tests.h"

#include <string.h>

/* What the table has to say: the lists in the order of their areas, and the bytes of an entry. */
static const struct {
    uint32_t list;
    size_t size;
} expected[] = {
    {DUCAT_LIST_PROVIDERS, sizeof(struct ducat_provider)},
    {DUCAT_LIST_DESCRIPTORS, sizeof(struct ducat_descriptor)},
    {DUCAT_LIST_UNKNOWN2, sizeof(struct ducat_unknown2)},
    {DUCAT_LIST_TABLES, sizeof(struct ducat_table)},
    {DUCAT_LIST_DEFINITIONS, sizeof(struct ducat_definition)},
    {DUCAT_LIST_EVENTS, sizeof(struct ducat_event)},
    {DUCAT_LIST_MAPS, sizeof(struct ducat_map)},
    {DUCAT_LIST_MAP_ENTRIES, sizeof(struct ducat_map_entry)},
    {DUCAT_LIST_TEMPLATES, sizeof(struct ducat_template)},
    {DUCAT_LIST_UNKNOWN_ELEMENTS, sizeof(struct ducat_unknown_element)},
    {DUCAT_LIST_ITEMS, sizeof(struct ducat_item)},
};

/* Lists that have no area. */
static const uint32_t without_area[] = {0, DUCAT_GUIDS, DUCAT_AREAS + 100, UINT32_MAX};
enum { WITHOUT_AREA = sizeof without_area / sizeof without_area[0] };

static void table(void) {
    check(sizeof expected / sizeof expected[0] == DUCAT_AREAS, "the number of areas");
    for (size_t area = 0; area < DUCAT_AREAS; area++) {
        check(ducat_areas()[area].list == expected[area].list, "an area's list");
        check(ducat_areas()[area].words * sizeof(uint32_t) == expected[area].size, "the words of a list's entry");
        check(ducat_area_of(expected[area].list) == area, "a list's area");
    }
    for (size_t i = 0; i < WITHOUT_AREA; i++)
        check(ducat_area_of(without_area[i]) == DUCAT_AREAS, "a list that has no area");
}

static void starts_are_right(const uint32_t *capacities) {
    size_t start = 0;
    for (size_t area = 0; area < DUCAT_AREAS; area++) {
        check(ducat_start(capacities, expected[area].list) == start, "where a list's area starts");
        start += capacities[area] * (expected[area].size / sizeof(uint32_t));
    }
    check(ducat_words(capacities) == start, "what all areas need");
    for (size_t i = 0; i < WITHOUT_AREA; i++)
        check(ducat_start(capacities, without_area[i]) == start, "the start of a list that has no area");
}

static void starts(void) {
    uint32_t none[DUCAT_AREAS] = {0}, various[DUCAT_AREAS], most[DUCAT_AREAS], over[DUCAT_AREAS];
    for (uint32_t area = 0; area < DUCAT_AREAS; area++) {
        various[area] = 1 + area * area;
        most[area] = DUCAT_MOST;
        over[area] = DUCAT_MOST + 1;
    }
    starts_are_right(none);
    starts_are_right(various);
    starts_are_right(most);
    starts_are_right(over);
    check(ducat_words(none) == 0, "no room needs no words");

    struct block z = block_z();
    struct lending l = lend(various);
    check(ask_block(&l, &z) == DUCAT_ACCEPTED, "as many words as the areas need");
    l.length--;
    check(ask_block(&l, &z) == DUCAT_BAD_LENDING, "one word less than the areas need");
    take_back(&l);
}

static void counts(void) {
    uint64_t answer[DUCAT_NUMBERS];
    uint32_t given[DUCAT_AREAS + 1];
    memset(answer, 0xff, sizeof answer);
    for (size_t area = 0; area < DUCAT_AREAS; area++)
        answer[DUCAT_COUNTS + area] = area == 4 ? DUCAT_MOST + 1 : 7 * area;
    given[DUCAT_AREAS] = KEPT;
    ducat_counts(answer, given);
    for (size_t area = 0; area < DUCAT_AREAS; area++) {
        check(given[area] == answer[DUCAT_COUNTS + area], "an area's count");
        check(ducat_count(answer, expected[area].list) == given[area], "a list's count");
    }
    check(given[4] == DUCAT_MOST + 1, "a count over the limit stays");
    check(given[DUCAT_AREAS] == KEPT, "no more counts than areas");
    for (size_t i = 0; i < WITHOUT_AREA; i++)
        check(ducat_count(answer, without_area[i]) == 0, "the count of a list that has no area");
}

/* An entry that can't be had is zeros. */
static int nothing(const struct ducat_event *entry) {
    struct ducat_event zeros;
    memset(&zeros, 0, sizeof zeros);
    return memcmp(entry, &zeros, sizeof zeros) == 0;
}

static void entries(void) {
    uint32_t capacities[DUCAT_AREAS];
    for (size_t area = 0; area < DUCAT_AREAS; area++)
        capacities[area] = 3;
    struct lending l = lend(capacities);
    struct ducat_event event;
    uint32_t wide[DUCAT_EVENT_WORDS + 1];
    uint32_t *last = l.words + ducat_start(capacities, DUCAT_LIST_EVENTS) + 2 * DUCAT_EVENT_WORDS;
    for (uint32_t i = 0; i < DUCAT_EVENT_WORDS; i++)
        last[i] = i;
    check(ducat_entry(l.words, capacities, DUCAT_LIST_EVENTS, 2, &event, sizeof event) == 1, "an entry");
    check(memcmp(&event, last, sizeof event) == 0, "an entry's words");
    check(event.identifier == 0 && event.message == 8 && event.flags == DUCAT_EVENT_WORDS - 1, "an entry's fields");
    check(ducat_entry(l.words, capacities, DUCAT_LIST_EVENTS, 3, &event, sizeof event) == 0 && nothing(&event),
          "an entry past the capacity");
    event.flags = KEPT;
    check(ducat_entry(l.words, capacities, DUCAT_LIST_EVENTS, UINT32_MAX, &event, sizeof event) == 0 && nothing(&event),
          "an entry far past the capacity");
    event.flags = KEPT;
    check(ducat_entry(l.words, capacities, DUCAT_LIST_TABLES, 0, &event, sizeof event) == 0 && nothing(&event),
          "an entry of another list's size");
    check(ducat_entry(l.words, capacities, DUCAT_LIST_EVENTS, 0, wide, sizeof wide) == 0, "an entry of too many words");
    for (size_t i = 0; i < WITHOUT_AREA; i++) {
        event.flags = KEPT;
        check(ducat_entry(l.words, capacities, without_area[i], 0, &event, sizeof event) == 0 && nothing(&event),
              "an entry of a list that has no area");
        check(ducat_entry(l.words, capacities, without_area[i], 0, &event, 0) == 0, "the same, of no words");
    }
    take_back(&l);
}

void test_areas(void) {
    table();
    starts();
    counts();
    entries();
}
