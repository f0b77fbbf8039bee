/* ducat_template_at. */
#include "check.h"
#include "lists.h"
#include "tests.h"

#include <string.h>

static uint64_t answer[DUCAT_TEMPLATE_NUMBERS + 1];

/* Looks a provider's template up, and gives the code. */
static uint32_t look_of(const struct lists *l, uint32_t provider, uint32_t first, uint32_t count, uint32_t offset,
                        size_t answer_len) {
    memset(answer, 0xff, sizeof answer);
    return ducat_template_at(l->words, l->words_len, l->capacities, l->capacities_len, l->counts, l->counts_len, provider, first,
                             count, offset, answer, answer_len);
}

/* The first provider's. */
static uint32_t look(const struct lists *l, uint32_t first, uint32_t count, uint32_t offset, size_t answer_len) {
    return look_of(l, 0, first, count, offset, answer_len);
}

static int answered_at(uint64_t code, uint64_t is_there, uint64_t number) {
    return answer[DUCAT_LOOKUP_CODE] == code && answer[DUCAT_LOOKUP_PLACE] == 0 && answer[DUCAT_LOOKUP_FIRST] == 0 &&
           answer[DUCAT_LOOKUP_SECOND] == 0 && answer[DUCAT_FOUND] == is_there && answer[DUCAT_FOUND_NUMBER] == number &&
           answer[DUCAT_TEMPLATE_NUMBERS] == UINT64_MAX;
}

/* Looks one up in lists that are right, and says whether its number is this one, or there is none. */
static int found(const struct lists *l, uint32_t first, uint32_t count, uint32_t offset, uint64_t is_there, uint64_t number) {
    return look(l, first, count, offset, DUCAT_TEMPLATE_NUMBERS) == DUCAT_ACCEPTED &&
           answered_at(DUCAT_ACCEPTED, is_there, number);
}

/* Looks one up, and says whether this is refused with a code. */
static int refused(const struct lists *l, uint32_t first, uint32_t count, uint32_t offset, uint32_t code) {
    return look(l, first, count, offset, DUCAT_TEMPLATE_NUMBERS) == code && answered_at(code, 0, 0);
}

static void ranges(const struct lists *l) {
    check(found(l, 0, 4, 400, 1, 3), "a template at an offset");
    check(found(l, 0, 4, 200, 1, 1), "the lowest of two at an offset");
    check(found(l, 2, 2, 200, 1, 2), "the lowest in a range");
    check(found(l, 1, 3, 100, 0, 0), "a template before a range");
    check(found(l, 0, 3, 400, 0, 0), "a template behind a range");
    check(found(l, 4, 0, 0, 0, 0), "no range");
    check(refused(l, 5, 0, 100, DUCAT_LISTS_APART), "a range that starts past the list");
    check(refused(l, 1, 4, 100, DUCAT_LISTS_APART), "a range past the list");
    check(refused(l, UINT32_MAX, 1, 100, DUCAT_LISTS_APART), "a range that would wrap");
}

/* Looks one of a provider's up, and says whether its number is this one, or there is none. */
static int found_of(const struct lists *l, uint32_t provider, uint32_t offset, uint64_t is_there, uint64_t number) {
    return look_of(l, provider, 0, 4, offset, DUCAT_TEMPLATE_NUMBERS) == DUCAT_ACCEPTED &&
           answered_at(DUCAT_ACCEPTED, is_there, number);
}

static void providers(struct lists *l) {
    check(found_of(l, 1, 200, 0, 0), "a template of another provider");
    check(found_of(l, 2, 200, 0, 0) && found_of(l, UINT32_MAX, 200, 0, 0), "a provider that isn't there is no fault");
    put_template(l, 1, 1, 200, 72);
    check(found_of(l, 0, 200, 1, 2), "the search goes on behind another provider's template");
    check(found_of(l, 1, 200, 1, 1), "the other provider's");
    put_template(l, 3, UINT32_MAX, 400, 74);
    check(found_of(l, UINT32_MAX, 400, 1, 3), "a template of a provider that isn't there");
    fill_lists(l);
}

void test_by_offset(void) {
    struct lists l = new_lists();
    ranges(&l);
    providers(&l);
    for (size_t area = 0; area < DUCAT_AREAS; area++) {
        set_count(&l, ducat_areas()[area].list, ROOM + 1);
        check(refused(&l, 0, 4, 400, DUCAT_LISTS_APART), "a count over its capacity");
        l.words_len--;
        check(refused(&l, 0, 4, 400, DUCAT_BAD_LENDING), "too few words, before a count over its capacity");
        fill_lists(&l);
    }
    l.capacities_len = DUCAT_AREAS + 1;
    check(refused(&l, 0, 4, 400, DUCAT_BAD_LENDING), "a capacity too many");
    fill_lists(&l);
    l.counts_len = DUCAT_AREAS - 1;
    check(refused(&l, 0, 4, 400, DUCAT_BAD_LENDING), "a count too few");
    fill_lists(&l);
    check(look(&l, 0, 4, 400, DUCAT_TEMPLATE_NUMBERS - 1) == DUCAT_BAD_LENDING && answer[0] == UINT64_MAX,
          "a number too few, and those that are there are kept");
    free_lists(&l);
}
