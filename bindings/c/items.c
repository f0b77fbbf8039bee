/* The items of templates: which there are, whose they are, and how a template's are found. */
#include "check.h"
#include "lending.h"
#include "tests.h"
#include "writing.h"

#include <string.h>

/* A block with two providers. The first has two TTBLs, of which the second is kept; SEVERAL are the templates that are kept, and
 * how many items each has. */
static const uint32_t items_of[] = {2, 0, 1, 1, 3};
enum { TEMPLATES_OF_FIRST = 3, SEVERAL = sizeof items_of / sizeof items_of[0], SEVERAL_ITEMS = 7 };

/* What the words of an item are made of, so that no two are equal. */
static struct ducat_item item_of(uint32_t number) {
    struct ducat_item item;
    memset(&item, 0, sizeof item);
    item.unknown1 = 100 + number;
    item.types = 10 + number + 256 * (20 + number);
    item.unknown3 = 30 + number;
    item.unknown4 = 40 + number;
    item.count_and_length = 50 + number + 65536 * (60 + number);
    return item;
}

/* A TEMP with so many items, from a number on. All but the last of them have one name, of as many letters as there are items. */
static void add_temp(struct block *b, uint32_t items, uint32_t number) {
    uint32_t temp = add_letters(b, "TEMP");
    uint32_t name = temp + 40 + 20 * items;
    uint32_t size = 4 + 4 * items;
    add_word(b, 40 + 20 * items + size);
    add_word(b, items);
    add_zeros(b, 4);
    add_word(b, temp + 40);
    add_zeros(b, 20);
    for (uint32_t i = 0; i < items; i++) {
        struct ducat_item item = item_of(number + i);
        add_word(b, item.unknown1);
        add_word(b, item.types + (item.unknown3 << 16));
        add_word(b, item.unknown4);
        add_word(b, item.count_and_length);
        add_word(b, i + 1 < items ? name : 0);
    }
    add_word(b, size);
    for (uint32_t i = 0; i < items; i++)
        add_word(b, i + 1 < items ? 'A' + ((uint32_t)'B' << 16) : 'C');
}

/* A TTBL with the templates from one on; gives its place. */
static uint32_t add_ttbl(struct block *b, uint32_t first, uint32_t count) {
    uint32_t place = add_letters(b, "TTBL"), number = 0;
    for (uint32_t i = 0; i < first; i++)
        number += items_of[i];
    add_zeros(b, 4);
    add_word(b, count);
    for (uint32_t i = first; i < first + count; i++) {
        add_temp(b, items_of[i], number);
        number += items_of[i];
    }
    put(b->bytes, place + 4, (uint32_t)b->length - place);
    return place;
}

static struct block several(void) {
    struct block b;
    b.length = 0;
    add_letters(&b, "CRIM");
    add_zeros(&b, 8);
    add_word(&b, 2);
    add_zeros(&b, 40);
    uint32_t replaced = add_ttbl(&b, 4, 1), kept = add_ttbl(&b, 0, TEMPLATES_OF_FIRST);
    uint32_t second = add_ttbl(&b, TEMPLATES_OF_FIRST, SEVERAL - TEMPLATES_OF_FIRST);
    put(b.bytes, 32, add_letters(&b, "WEVT"));
    add_zeros(&b, 8);
    add_word(&b, 2);
    add_zeros(&b, 4);
    add_word(&b, replaced);
    add_zeros(&b, 4);
    add_word(&b, kept);
    add_zeros(&b, 4);
    put(b.bytes, 52, add_letters(&b, "WEVT"));
    add_zeros(&b, 8);
    add_word(&b, 1);
    add_zeros(&b, 4);
    add_word(&b, second);
    add_zeros(&b, 4);
    put(b.bytes, 4, (uint32_t)b.length);
    return b;
}

static int same(const struct ducat_item *a, const struct ducat_item *b) {
    return memcmp(a, b, sizeof *a) == 0;
}

/* The items of each template, found from its number: all their words, and no others. */
static void found(const struct lending *l) {
    uint32_t number = 0;
    for (uint32_t i = 0; i < SEVERAL; i++) {
        struct ducat_template t;
        check(ducat_entry(l->words, l->capacities, DUCAT_LIST_TEMPLATES, i, &t, sizeof t) == 1 &&
              t.item_descriptor_count == items_of[i] && t.provider_number == (i < TEMPLATES_OF_FIRST ? 0 : 1),
              "a template with items, and its provider");
        check(ducat_first_item(l->words, l->capacities, l->answer, i) == number, "a template's first item");
        for (uint32_t n = 0; n < items_of[i]; n++, number++) {
            struct ducat_item item, expected = item_of(number);
            expected.template_number = i;
            if (n + 1 < items_of[i]) {
                expected.name_offset = t.items_offset + 20 * items_of[i];
                expected.name_start = expected.name_offset + 4;
                expected.name_units = 2 * items_of[i] - 1;
                expected.name_ended = 1;
            }
            check(ducat_entry(l->words, l->capacities, DUCAT_LIST_ITEMS, number, &item, sizeof item) == 1 && same(&item, &expected),
                  "an item's words");
        }
    }
    check(number == SEVERAL_ITEMS && ducat_first_item(l->words, l->capacities, l->answer, SEVERAL) == SEVERAL_ITEMS,
          "no items behind the last template's");
}

static void of_several(void) {
    struct block b = several();
    struct lending l = lend_each(SEVERAL_ITEMS + 2);
    check(ask_block(&l, &b) == DUCAT_ACCEPTED && others_kept(&l), "a block with several templates and their items");
    check(ducat_count(l.answer, DUCAT_LIST_TEMPLATES) == SEVERAL && ducat_count(l.answer, DUCAT_LIST_ITEMS) == SEVERAL_ITEMS,
          "how many items: none of a table that was replaced");
    found(&l);
    take_back(&l);

    /* Items of a table that was replaced are checked all the same: the first item's name, one before the TEMP. */
    put(b.bytes, 56 + 12 + 40 + 16, 67);
    l = lend_each(SEVERAL_ITEMS);
    check(ask_block(&l, &b) == DUCAT_BAD_OFFSET && answered(l.answer, DUCAT_BAD_OFFSET, 146, 67, b.length, 0) && all_kept(&l),
          "a fault in a table that was replaced");
    take_back(&l);
}

/* U, with the words given at places in it: its one item's name. */
static int named(const uint32_t puts[][2], size_t count, uint32_t offset, uint32_t start, uint32_t units, uint32_t ended) {
    struct block u = block_u();
    struct lending l = lend_each(1);
    struct ducat_item item;
    const struct ducat_item expected = {0, 0, 0, 0, 0, 0, offset, start, units, ended};
    for (size_t i = 0; i < count; i++)
        put(u.bytes, puts[i][0], puts[i][1]);
    int right = ask_block(&l, &u) == DUCAT_ACCEPTED && others_kept(&l) && ducat_count(l.answer, DUCAT_LIST_ITEMS) == 1 &&
                ducat_entry(l.words, l.capacities, DUCAT_LIST_ITEMS, 0, &item, sizeof item) == 1 && same(&item, &expected);
    take_back(&l);
    return right;
}

static void of_u(void) {
    const uint32_t none[][2] = {{132, 0}};
    const uint32_t empty[][2] = {{136, 4}};
    const uint32_t lone[][2] = {{136, 6}, {140, 'A' << 16}};
    const uint32_t endless[][2] = {{136, 6}};
    const uint32_t full[][2] = {{140, 'A' + ('B' << 16)}};
    const uint32_t in_header[][2] = {{132, 100}, {100, 6}, {104, 'B'}};
    const uint32_t over_all[][2] = {{132, 96}, {96, 48}, {100, 'B'}};
    const uint32_t names[][2] = {{88, UINT32_MAX}};
    check(named(NULL, 0, 136, 140, 1, 1), "U's item");
    check(named(none, 1, 0, 0, 0, 0), "an item without a name");
    check(named(empty, 1, 136, 140, 0, 0), "a name of no units");
    check(named(lone, 2, 136, 140, 0, 1), "a name of a zero unit alone");
    check(named(endless, 1, 136, 140, 1, 0), "a name that runs out before a zero unit");
    check(named(full, 1, 136, 140, 2, 0), "a name that runs out");
    check(named(in_header, 3, 100, 104, 1, 0), "a name in the TEMP's header");
    check(named(over_all, 3, 96, 100, 1, 1), "a name that runs over the item");
    check(named(names, 1, 136, 140, 1, 1), "another number of names");

    struct block u = block_u();
    struct lending l = lend_each(1);
    put(u.bytes, 84, 0);
    put(u.bytes, 88, 0);
    check(ask_block(&l, &u) == DUCAT_ACCEPTED && ducat_count(l.answer, DUCAT_LIST_ITEMS) == 0 && others_kept(&l), "no items");
    take_back(&l);
}

/* Room for fewer items than there are, and for fewer templates too: the lowest list is named. */
static void too_little_room(void) {
    struct block b = several();
    uint32_t capacities[DUCAT_AREAS];
    for (size_t area = 0; area < DUCAT_AREAS; area++)
        capacities[area] = SEVERAL_ITEMS;
    for (uint32_t room = 0; room < SEVERAL_ITEMS; room++) {
        capacities[ducat_area_of(DUCAT_LIST_ITEMS)] = room;
        capacities[ducat_area_of(DUCAT_LIST_TEMPLATES)] = SEVERAL;
        struct lending l = lend(capacities);
        check(ask_block(&l, &b) == DUCAT_LIST_TOO_SMALL && answered(l.answer, DUCAT_LIST_TOO_SMALL, 0, 0, 12, room) && all_kept(&l),
              "too little room for items");
        take_back(&l);
        capacities[ducat_area_of(DUCAT_LIST_TEMPLATES)] = SEVERAL - 1;
        l = lend(capacities);
        check(ask_block(&l, &b) == DUCAT_LIST_TOO_SMALL && answered(l.answer, DUCAT_LIST_TOO_SMALL, 0, 0, 9, SEVERAL - 1) &&
              all_kept(&l), "too little room for templates and items");
        take_back(&l);
    }
}

void test_items(void) {
    of_u();
    of_several();
    too_little_room();
}
