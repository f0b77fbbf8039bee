/* ducat_templates_for. */
#include "check.h"
#include "lists.h"
#include "tests.h"

#include <stdlib.h>
#include <string.h>

/* What the lent GUIDs hold before, and how many words of them there are. */
enum { KEPT_GUID = 0x5a5a5a5a, GUIDS_LENT = 3 * DUCAT_GUID_WORDS + 2 };

static uint64_t answer[DUCAT_GUIDS_NUMBERS + 1];
static uint32_t guids[GUIDS_LENT];

/* Looks templates up by the key of events 1001 of provider 5, and gives the code. */
static uint32_t look(const struct lists *l, size_t key_len, uint32_t *lent, size_t lent_len, size_t answer_len) {
    struct ducat_key key;
    uint32_t words[DUCAT_KEY_WORDS + 1] = {0};
    key.guid = guid_of(5);
    key.identifier = 1001;
    key.version = 2;
    key.channel = 3;
    key.level = 4;
    key.opcode = 5;
    key.task = 6;
    key.keywords_low = 7;
    key.keywords_high = 8;
    memcpy(words, &key, sizeof key);
    memset(answer, 0xff, sizeof answer);
    return ducat_templates_for(l->words, l->words_len, l->capacities, l->capacities_len, l->counts, l->counts_len, words, key_len,
                               lent, lent_len, answer, answer_len);
}

static uint32_t look_for(const struct lists *l, size_t guids_len) {
    for (int i = 0; i < GUIDS_LENT; i++)
        guids[i] = KEPT_GUID;
    return look(l, DUCAT_KEY_WORDS, guids, guids_len, DUCAT_GUIDS_NUMBERS);
}

static int answered_for(uint64_t code, uint64_t first, uint64_t second, uint64_t given) {
    return answer[DUCAT_LOOKUP_CODE] == code && answer[DUCAT_LOOKUP_PLACE] == 0 && answer[DUCAT_LOOKUP_FIRST] == first &&
           answer[DUCAT_LOOKUP_SECOND] == second && answer[DUCAT_GIVEN] == given && answer[DUCAT_GUIDS_NUMBERS] == UINT64_MAX;
}

/* Whether the lent GUIDs start with those of so many numbers, and all behind them is kept. */
static int given(int count, uint32_t first, uint32_t second, uint32_t third) {
    const struct ducat_guid expected[] = {guid_of(first), guid_of(second), guid_of(third)};
    if (memcmp(guids, expected, count * sizeof expected[0]) != 0)
        return 0;
    for (int i = count * DUCAT_GUID_WORDS; i < GUIDS_LENT; i++)
        if (guids[i] != KEPT_GUID)
            return 0;
    return 1;
}

/* Whether a lookup with so much room is refused with a code, and writes no GUID. */
static int refused(const struct lists *l, size_t guids_len, uint32_t code) {
    return look_for(l, guids_len) == code && answered_for(code, 0, 0, 0) && given(0, 0, 0, 0);
}

/* Whether it is refused because the list has room for so many GUIDs only, and writes none. */
static int too_small(const struct lists *l, size_t guids_len, uint64_t room) {
    return look_for(l, guids_len) == DUCAT_LIST_TOO_SMALL && answered_for(DUCAT_LIST_TOO_SMALL, DUCAT_GUIDS, room, 0) &&
           given(0, 0, 0, 0);
}

/* Whether it gives the GUIDs of so many numbers. */
static int found(const struct lists *l, size_t guids_len, int count, uint32_t first, uint32_t second, uint32_t third) {
    return look_for(l, guids_len) == DUCAT_ACCEPTED && answered_for(DUCAT_ACCEPTED, 0, 0, (uint64_t)count) &&
           given(count, first, second, third);
}

static void by_events(struct lists *l) {
    fill_lists(l);
    check(found(l, GUIDS_LENT, 2, 72, 71, 0), "each GUID once, in first-seen order, from the first tables of a kind");
    check(too_small(l, 7, 1), "room for one GUID");
    put_template(l, 1, 0, 200, 71);
    check(found(l, 4, 1, 71, 0, 0), "two templates of one GUID");
    put_event(l, 0, 1001, 0);
    put_event(l, 1, 1001, 400);
    put_event(l, 2, 1002, 100);
    check(found(l, 4, 0, 0, 0, 0), "no offset, no template, another key");
}

static void by_provider(struct lists *l) {
    fill_lists(l);
    for (int i = 0; i < DUCAT_GUID_WORDS; i++) {
        struct ducat_guid other = guid_of(5);
        other.words[i]++;
        put_provider(l, 0, other);
        check(found(l, 8, 0, 0, 0, 0), "a GUID that is not there");
    }
    put_provider(l, 1, guid_of(5));
    put_table(l, 2, 1, DUCAT_EVNT, 3, 1);
    put_table(l, 3, 1, DUCAT_TTBL, 3, 1);
    put_template(l, 3, 1, 400, 74);
    check(found(l, 8, 1, 74, 0, 0), "the second provider");
}

static void by_providers(struct lists *l) {
    fill_lists(l);
    put_provider(l, 1, guid_of(5));
    put_table(l, 2, 1, DUCAT_EVNT, 3, 1);
    put_table(l, 3, 1, DUCAT_TTBL, 3, 1);
    put_template(l, 3, 1, 400, 74);
    check(found(l, GUIDS_LENT, 3, 72, 71, 74), "two providers of one GUID, in their order");
    check(too_small(l, 11, 2), "room for the GUIDs of the first provider alone");
    put_template(l, 3, 1, 400, 71);
    check(found(l, 8, 2, 72, 71, 0), "a GUID of both once");
    put_template(l, 3, 1, 400, 74);
    put_template(l, 2, 0, 300, 73);
    put_event(l, 3, 1001, 300);
    check(found(l, 8, 2, 72, 71, 0), "an event that names the other provider's template");
    put_table(l, 2, 1, DUCAT_EVNT, 0, 3);
    put_template(l, 3, 1, 100, 74);
    check(found(l, GUIDS_LENT, 3, 72, 71, 74), "events that both have, in the templates of each");
    put_table(l, 3, 1, DUCAT_TTBL, 0, 3);
    check(refused(l, 8, DUCAT_LISTS_APART), "templates that both have");
}

/* A TTBL with another provider's template: the one that is used, and one that is not. */
static void templates_apart(struct lists *l) {
    for (uint32_t number = 0; number < ROOM; number++) {
        fill_lists(l);
        put_template(l, number, 1, 400, 74);
        check(refused(l, 8, DUCAT_LISTS_APART), "another provider's template in a range");
        check(refused(l, 0, DUCAT_LISTS_APART), "10 for it before 9");
        l->words_len--;
        check(refused(l, 8, DUCAT_BAD_LENDING), "8 before 10 for it");
    }
    fill_lists(l);
    put_template(l, 3, 1, 400, 74);
    put_table(l, 3, 0, DUCAT_TTBL, 3, 0);
    check(found(l, 8, 2, 72, 71, 0), "another provider's template in no range");
    put_table(l, 3, 1, DUCAT_TTBL, 3, 1);
    check(found(l, 8, 2, 72, 71, 0), "another provider's template in that one's range");
    put_table(l, 3, 0, DUCAT_TTBL, 1, 2);
    check(found(l, 8, 2, 72, 71, 0), "templates that two tables of their provider have");
}

static void apart(struct lists *l) {
    /* The last table is none of those that are used. */
    const uint32_t faults[][4] = {
        {2, DUCAT_TTBL, 3, 1}, {0, DUCAT_TTBL, 3, 2}, {0, DUCAT_TTBL, 5, 0}, {0, 0, 0, 0}, {0, 9, 0, 0}};
    for (size_t i = 0; i < sizeof faults / sizeof faults[0]; i++) {
        fill_lists(l);
        put_table(l, 3, faults[i][0], faults[i][1], faults[i][2], faults[i][3]);
        check(refused(l, 8, DUCAT_LISTS_APART), "a table that doesn't fit");
        check(refused(l, 0, DUCAT_LISTS_APART), "10 before 9");
    }
    for (size_t area = 0; area < DUCAT_AREAS; area++) {
        fill_lists(l);
        set_count(l, ducat_areas()[area].list, ROOM + 1);
        check(refused(l, 8, DUCAT_LISTS_APART), "a count over its capacity, by key");
        l->words_len--;
        check(refused(l, 8, DUCAT_BAD_LENDING), "too few words, by key, before a count over its capacity");
    }
}

static void lengths(struct lists *l) {
    fill_lists(l);
    l->capacities_len = DUCAT_AREAS - 1;
    check(refused(l, 8, DUCAT_BAD_LENDING), "a capacity too few, by key");
    fill_lists(l);
    l->counts_len = DUCAT_AREAS + 1;
    check(refused(l, 8, DUCAT_BAD_LENDING), "a count too many, by key");
    fill_lists(l);
    check(look(l, DUCAT_KEY_WORDS + 1, guids, 8, DUCAT_GUIDS_NUMBERS) == DUCAT_BAD_LENDING &&
          answered_for(DUCAT_BAD_LENDING, 0, 0, 0) && given(0, 0, 0, 0), "a key of a word too many");
    check(look(l, DUCAT_KEY_WORDS, guids, 8, DUCAT_GUIDS_NUMBERS + 1) == DUCAT_BAD_LENDING && answer[0] == UINT64_MAX &&
          given(0, 0, 0, 0), "a number too many, and all are kept");
}

static void most(struct lists *l) {
    size_t words = (size_t)DUCAT_MOST * DUCAT_GUID_WORDS;
    uint32_t *many = (uint32_t *)calloc(words + DUCAT_GUID_WORDS, sizeof *many);
    if (many == NULL)
        exit(2);
    fill_lists(l);
    check(look(l, DUCAT_KEY_WORDS, many, words + DUCAT_GUID_WORDS - 1, DUCAT_GUIDS_NUMBERS) == DUCAT_ACCEPTED,
          "the most room for GUIDs");
    check(look(l, DUCAT_KEY_WORDS, many, words + DUCAT_GUID_WORDS, DUCAT_GUIDS_NUMBERS) == DUCAT_BAD_LENDING,
          "more room for GUIDs than there may be");
    free(many);
}

void test_by_key(void) {
    struct lists l = new_lists();
    by_events(&l);
    by_provider(&l);
    by_providers(&l);
    apart(&l);
    templates_apart(&l);
    lengths(&l);
    most(&l);
    free_lists(&l);
}
