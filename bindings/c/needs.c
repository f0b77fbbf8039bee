/* ducat_needs: what it says, and that so much is enough and no less. */
#include "check.h"
#include "full.h"
#include "lending.h"
#include "tests.h"

#include <stdlib.h>
#include <string.h>

/* More than there are codes that bytes are answered with. */
enum { CODES = 32 };

/* Says what is needed, and gives the code. */
static uint32_t needs(const struct block *b, uint64_t *answer) {
    memset(answer, 0xff, DUCAT_NUMBERS * sizeof *answer);
    return ducat_needs(b->bytes, b->length, answer, DUCAT_NUMBERS);
}

static void said(void) {
    uint64_t answer[DUCAT_NUMBERS];
    struct block z = block_z(), t = block_t(), full = block_full();
    check(needs(&z, answer) == DUCAT_ACCEPTED && answered(answer, DUCAT_ACCEPTED, 0, 0, 16, 0), "what Z needs");
    put(z.bytes, 8, 7 + 65536 * 9);
    check(needs(&z, answer) == DUCAT_ACCEPTED && answered(answer, DUCAT_ACCEPTED, 0, 0, 16, 7 + 65536 * 9), "Z with versions");

    check(needs(&t, answer) == DUCAT_ACCEPTED && answer[DUCAT_CODE] == 0 && answer[DUCAT_FIELD] == 0 && answer[DUCAT_PLACE] == 0 &&
          answer[DUCAT_FIRST] == 116 && answer[DUCAT_SECOND] == 0, "the answer to what T needs");
    for (size_t area = 0; area < DUCAT_AREAS; area++) {
        uint32_t list = ducat_areas()[area].list;
        int there = list == DUCAT_LIST_PROVIDERS || list == DUCAT_LIST_DESCRIPTORS || list == DUCAT_LIST_TABLES || list == DUCAT_LIST_TEMPLATES;
        check(ducat_count(answer, list) == (there ? 1u : 0u), "what T needs");
    }

    check(needs(&full, answer) == DUCAT_ACCEPTED, "a block with entries in every list, its needs");
    for (size_t area = 0; area < DUCAT_AREAS; area++)
        check(ducat_count(answer, ducat_areas()[area].list) == full_count(ducat_areas()[area].list), "what a list needs");
}

/* What is needed, lent exactly; then one entry less in each list that needs any. */
static void exactly(const struct block *b) {
    uint64_t answer[DUCAT_NUMBERS];
    uint32_t capacities[DUCAT_AREAS];
    check(needs(b, answer) == DUCAT_ACCEPTED, "what is needed");
    ducat_counts(answer, capacities);
    struct lending l = lend(capacities);
    check(ask_block(&l, b) == DUCAT_ACCEPTED, "what is needed is enough");
    check(memcmp(l.answer, answer, sizeof answer) == 0, "the reading's answer is that of the needs");
    check(others_kept(&l), "words behind what is needed");
    take_back(&l);
    for (size_t area = 0; area < DUCAT_AREAS; area++) {
        if (capacities[area] == 0)
            continue;
        capacities[area]--;
        l = lend(capacities);
        check(ask_block(&l, b) == DUCAT_LIST_TOO_SMALL, "one entry less is too little");
        check(answered(l.answer, DUCAT_LIST_TOO_SMALL, 0, 0, ducat_areas()[area].list, capacities[area]) && all_kept(&l),
              "which list has too little room");
        take_back(&l);
        capacities[area]++;
    }
}

/* Holds both answers to one block against each other, and counts the code. */
static void compare(struct lending *most, const struct block *b, int seen[CODES]) {
    uint64_t answer[DUCAT_NUMBERS];
    uint32_t code = needs(b, answer);
    uint32_t read = ask_block(most, b);
    if (read == DUCAT_LIST_TOO_SMALL)
        check(code == DUCAT_ACCEPTED && ducat_count(answer, (uint32_t)most->answer[DUCAT_FIRST]) > DUCAT_MOST,
              "a list that no room is enough for");
    else
        check(code == read && memcmp(answer, most->answer, sizeof answer) == 0, "the needs' answer is that of the reading");
    check(code < CODES, "a code that there is");
    if (code < CODES)
        seen[code]++;
}

/* Each word of a block made another, and the block cut at each length. */
static void as_the_reading(const struct block *b, int seen[CODES]) {
    struct lending most = lend_each(DUCAT_MOST);
    for (size_t place = 0; place < b->length; place += 4) {
        uint32_t word = word_at(b->bytes, place);
        const uint32_t others[] = {0, 1, word + 1, word - 1, word + 4, UINT32_MAX};
        for (size_t i = 0; i < sizeof others / sizeof others[0]; i++) {
            struct block damaged = *b;
            put(damaged.bytes, place, others[i]);
            compare(&most, &damaged, seen);
        }
    }
    for (size_t length = 0; length < b->length; length++) {
        struct block cut = *b;
        cut.length = length;
        if (length >= 16)
            put(cut.bytes, 4, (uint32_t)length);
        compare(&most, &cut, seen);
    }
    take_back(&most);
}

static void refused(void) {
    int seen[CODES] = {0};
    struct block t = block_t(), u = block_u(), full = block_full();
    as_the_reading(&t, seen);
    as_the_reading(&u, seen);
    as_the_reading(&full, seen);
    for (int code = DUCAT_ACCEPTED; code <= DUCAT_NOT_UTF16; code++)
        check(seen[code] > 0, "each code comes up in some damaged block");
}

/* The most definitions that can be lent for, and more. */
static void many(void) {
    for (uint32_t levels = DUCAT_MOST - 1; levels <= DUCAT_MOST + 2; levels++) {
        uint64_t answer[DUCAT_NUMBERS];
        uint32_t capacities[DUCAT_AREAS];
        size_t length;
        uint8_t *bytes = block_of_levels(levels, &length);
        check(ducat_needs(bytes, length, answer, DUCAT_NUMBERS) == DUCAT_ACCEPTED, "many definitions");
        check(answer[DUCAT_CODE] == DUCAT_ACCEPTED && answer[DUCAT_FIELD] == 0 && answer[DUCAT_PLACE] == 0 &&
              answer[DUCAT_FIRST] == length && answer[DUCAT_SECOND] == 0, "the answer to many definitions");
        check(ducat_count(answer, DUCAT_LIST_DEFINITIONS) == (levels > DUCAT_MOST ? DUCAT_MOST + 1 : levels), "how many definitions");
        ducat_counts(answer, capacities);
        struct lending l = lend(capacities);
        if (levels <= DUCAT_MOST) {
            check(ask(&l, bytes, length) == DUCAT_ACCEPTED && memcmp(l.answer, answer, sizeof answer) == 0,
                  "the most definitions that can be lent for");
            check(others_kept(&l), "words behind the most definitions");
        } else {
            check(ask(&l, bytes, length) == DUCAT_BAD_LENDING && all_kept(&l), "more than can be lent");
            take_back(&l);
            l = lend_each(DUCAT_MOST);
            check(ask(&l, bytes, length) == DUCAT_LIST_TOO_SMALL && all_kept(&l), "the most that can be lent is too little");
            check(answered(l.answer, DUCAT_LIST_TOO_SMALL, 0, 0, DUCAT_LIST_DEFINITIONS, DUCAT_MOST), "for which list");
        }
        take_back(&l);
        free(bytes);
    }
}

static int numbers_kept(const uint64_t *answer, size_t count) {
    for (size_t i = 0; i < count; i++)
        if (answer[i] != UINT64_MAX)
            return 0;
    return 1;
}

static void bad_lending(void) {
    uint64_t answer[DUCAT_NUMBERS + 1];
    struct block t = block_t(), cut = block_t();
    cut.length = 3;
    uint8_t *long_bytes = (uint8_t *)calloc(1, DUCAT_LONGEST + 1);
    if (long_bytes == NULL)
        exit(2);
    memset(answer, 0xff, sizeof answer);
    for (size_t n = 0; n <= DUCAT_NUMBERS + 1; n++) {
        if (n == DUCAT_NUMBERS)
            continue;
        check(ducat_needs(t.bytes, t.length, answer, n) == DUCAT_BAD_LENDING, "another number of numbers for the needs");
        check(ducat_needs(cut.bytes, cut.length, answer, n) == DUCAT_BAD_LENDING, "the same, before bytes that are cut short");
        check(ducat_needs(long_bytes, DUCAT_LONGEST + 1, answer, n) == DUCAT_TOO_LONG, "too many bytes come first");
        check(numbers_kept(answer, DUCAT_NUMBERS + 1), "numbers that are kept by the needs");
    }
    check(ducat_needs(long_bytes, DUCAT_LONGEST + 1, answer, DUCAT_NUMBERS) == DUCAT_TOO_LONG &&
          answered(answer, DUCAT_TOO_LONG, 0, 0, 0, 0) && numbers_kept(answer + DUCAT_NUMBERS, 1), "too many bytes for the needs");
    check(ducat_needs(long_bytes, DUCAT_LONGEST, answer, DUCAT_NUMBERS) == DUCAT_WRONG_SIGNATURE &&
          answered(answer, DUCAT_WRONG_SIGNATURE, 0, 0, 0x4d495243, 0), "as many bytes as there may be");
    free(long_bytes);
}

void test_needs(void) {
    struct block z = block_z(), t = block_t(), u = block_u(), full = block_full();
    said();
    exactly(&z);
    exactly(&t);
    exactly(&u);
    exactly(&full);
    refused();
    many();
    bad_lending();
}
