/* ducat_read: the blocks Z and T, refusals, lent words that are kept. */
#include "check.h"
#include "full.h"
#include "lending.h"
#include "tests.h"

#include <stdlib.h>
#include <string.h>

static void empty(void) {
    struct lending none = lend_each(0), one = lend_each(1);
    struct block z = block_z();
    check(ask_block(&none, &z) == DUCAT_ACCEPTED, "Z is accepted");
    check(answered(none.answer, DUCAT_ACCEPTED, 0, 0, 16, 0) && all_kept(&none), "the answer to Z");
    put(z.bytes, 4, 17);
    check(ask_block(&one, &z) == DUCAT_BAD_SIZE, "Z with size 17");
    check(answered(one.answer, DUCAT_BAD_SIZE, 2, 0, 17, 0) && all_kept(&one), "the answer to Z with size 17");
    check(ask(&one, z.bytes, 0) == DUCAT_CUT_SHORT, "no bytes");
    check(answered(one.answer, DUCAT_CUT_SHORT, 1, 0, 4, 0) && all_kept(&one), "the answer to no bytes");
    take_back(&none);
    take_back(&one);
}

static void one_template(void) {
    struct lending l = lend_each(1);
    struct block t = block_t();
    check(ask_block(&l, &t) == DUCAT_ACCEPTED, "T is accepted");
    check(l.answer[DUCAT_CODE] == DUCAT_ACCEPTED && l.answer[DUCAT_FIELD] == 0 && l.answer[DUCAT_PLACE] == 0 &&
          l.answer[DUCAT_FIRST] == 116 && l.answer[DUCAT_SECOND] == 0, "the answer to T");
    for (size_t area = 0; area < DUCAT_AREAS; area++) {
        uint32_t list = ducat_areas()[area].list;
        int there = list == DUCAT_LIST_PROVIDERS || list == DUCAT_LIST_DESCRIPTORS || list == DUCAT_LIST_TABLES || list == DUCAT_LIST_TEMPLATES;
        check(ducat_count(l.answer, list) == (there ? 1u : 0u), "how many entries T has");
    }

    const struct ducat_provider provider = {{{0, 0, 0, 0}}, 36, 80, 0, 1, 0};
    const struct ducat_descriptor descriptor = {64, 0, 0x4c425454};
    const struct ducat_table ttbl = {0, DUCAT_TTBL, 64, 52, 0, 0, 1, 0, 0};
    const struct ducat_template temp = {0, 76, 40, 0, 0, 0, 0, {{0, 0, 0, 0}}, 116, 0};
    const uint32_t *c = l.capacities;
    check(memcmp(l.words + ducat_start(c, DUCAT_LIST_PROVIDERS), &provider, sizeof provider) == 0, "T's provider");
    check(memcmp(l.words + ducat_start(c, DUCAT_LIST_DESCRIPTORS), &descriptor, sizeof descriptor) == 0, "T's descriptor");
    check(memcmp(l.words + ducat_start(c, DUCAT_LIST_TABLES), &ttbl, sizeof ttbl) == 0, "T's table");
    check(memcmp(l.words + ducat_start(c, DUCAT_LIST_TEMPLATES), &temp, sizeof temp) == 0, "T's template");
    check(others_kept(&l), "words that no entry of T needs");
    take_back(&l);
}

/* A block with one word made another: the word's place, the word, the code and the numbers of the answer. */
static void refused_with(struct block b, const uint32_t fault[7]) {
    struct lending l = lend_each(12);
    put(b.bytes, fault[0], fault[1]);
    check(ask_block(&l, &b) == fault[2] && answered(l.answer, fault[2], fault[3], fault[4], fault[5], fault[6]) && all_kept(&l),
          "a block that is refused");
    take_back(&l);
}

static void refused(void) {
    const uint32_t in_t[][7] = {
        {76, 0, DUCAT_WRONG_SIGNATURE, 0, 76, 0x504d4554, 0},
        {68, 51, DUCAT_CUT_SHORT, 80, 76, 40, 39},
        {80, 39, DUCAT_BAD_SIZE, 82, 76, 39, 0},
        {88, 1, DUCAT_BAD_COUNT, 88, 88, 1, 0},
        {92, 75, DUCAT_BAD_OFFSET, 85, 75, 116, 0},
        {92, 117, DUCAT_BAD_OFFSET, 89, 41, 40, 0},
    };
    const uint32_t in_name[7] = {FULL_NAME, 7, DUCAT_NOT_UTF16, 75, FULL_NAME, 0, 0};
    for (size_t i = 0; i < sizeof in_t / sizeof in_t[0]; i++)
        refused_with(block_t(), in_t[i]);
    refused_with(block_full(), in_name);

    struct lending none = lend_each(0);
    struct block t = block_t();
    check(ask_block(&none, &t) == DUCAT_LIST_TOO_SMALL, "T without room");
    check(answered(none.answer, DUCAT_LIST_TOO_SMALL, 0, 0, DUCAT_LIST_PROVIDERS, 0) && all_kept(&none), "the answer to T without room");
    take_back(&none);
}

static void bad_lending(void) {
    struct block t = block_t();
    uint32_t much[DUCAT_AREAS + 1] = {0};
    much[DUCAT_AREAS - 1] = DUCAT_MOST + 1;
    struct lending over = lend(much), l = lend_each(1);
    check(ask_block(&over, &t) == DUCAT_BAD_LENDING, "a capacity over the limit");
    check(answered(over.answer, DUCAT_BAD_LENDING, 0, 0, 0, 0) && all_kept(&over), "the answer to a capacity over the limit");

    l.length--;
    check(ask_block(&l, &t) == DUCAT_BAD_LENDING, "too few words");
    check(answered(l.answer, DUCAT_BAD_LENDING, 0, 0, 0, 0) && all_kept(&l), "the answer to too few words");
    l.length++;
    check(ducat_read(t.bytes, t.length, l.words, l.length, much, DUCAT_AREAS - 1, l.answer, DUCAT_NUMBERS) == DUCAT_BAD_LENDING &&
          answered(l.answer, DUCAT_BAD_LENDING, 0, 0, 0, 0), "a capacity too few");
    check(ducat_read(t.bytes, t.length, l.words, l.length, much, DUCAT_AREAS + 1, l.answer, DUCAT_NUMBERS) == DUCAT_BAD_LENDING &&
          answered(l.answer, DUCAT_BAD_LENDING, 0, 0, 0, 0), "a capacity too many");

    uint64_t answer[DUCAT_NUMBERS + 1];
    memset(answer, 0xff, sizeof answer);
    for (size_t n = 0; n <= DUCAT_NUMBERS + 1; n++) {
        if (n == DUCAT_NUMBERS)
            continue;
        check(ducat_read(t.bytes, t.length, l.words, l.length, l.capacities, DUCAT_AREAS, answer, n) == DUCAT_BAD_LENDING,
              "another number of numbers");
        for (size_t i = 0; i <= DUCAT_NUMBERS; i++)
            check(answer[i] == UINT64_MAX, "numbers that are kept");
    }
    check(all_kept(&l), "words that are kept where a length is wrong");

    uint8_t *long_bytes = (uint8_t *)calloc(1, DUCAT_LONGEST + 1);
    if (long_bytes == NULL)
        exit(2);
    check(ask(&over, long_bytes, DUCAT_LONGEST + 1) == DUCAT_TOO_LONG, "too many bytes, before a capacity over the limit");
    check(answered(over.answer, DUCAT_TOO_LONG, 0, 0, 0, 0) && all_kept(&over), "the answer to too many bytes");
    free(long_bytes);
    take_back(&over);
    take_back(&l);
}

void test_reading(void) {
    empty();
    one_template();
    refused();
    bad_lending();
}
