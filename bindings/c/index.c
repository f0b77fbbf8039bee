/* ducat_index_read and ducat_index_write. */
#include "check.h"
#include "lists.h"
#include "tests.h"

#include <string.h>

/* What the lent bytes and numbers hold before, and how many of either there are. */
enum { KEPT_BYTE = 0x5a, KEPT_NUMBER = 0x5a5a5a5a, LENT = 100 };

static uint64_t answer[DUCAT_INDEX_NUMBERS + 1];
static uint8_t bytes[LENT];
static uint32_t numbers[LENT];

/* Two providers and one entry, of the second. Each number by itself. */
static const uint8_t index_bytes[] = {
    1,                                  /* edition */
    2, 0xac, 0x02, 5,                   /* providers, their unknown2 counts */
    1,                                  /* entries */
    1,                                  /* provider number */
    0xe9, 0x07,                         /* identifier 1001 */
    0xff, 0x01, 3, 4, 5,                /* version 255, channel, level, opcode */
    6,                                  /* task */
    0x87, 0x80, 0x80, 0x80, 0x80, 0x01, /* keywords: 7 and, in the high word, 8 */
    0xc8, 0x01                          /* template offset 200 */
};
enum { INDEX_WORDS = 2 + 2 + DUCAT_INDEX_ENTRY_WORDS };

static int answered(uint64_t code, uint64_t place, uint64_t first, uint64_t second, uint64_t given) {
    return answer[DUCAT_LOOKUP_CODE] == code && answer[DUCAT_LOOKUP_PLACE] == place && answer[DUCAT_LOOKUP_FIRST] == first &&
           answer[DUCAT_LOOKUP_SECOND] == second && answer[DUCAT_GIVEN] == given && answer[DUCAT_INDEX_NUMBERS] == UINT64_MAX;
}

/* Reads an index, and gives the code. */
static uint32_t read_index(const uint8_t *from, size_t length, size_t lent, size_t answer_len) {
    for (int i = 0; i < LENT; i++)
        numbers[i] = KEPT_NUMBER;
    memset(answer, 0xff, sizeof answer);
    return ducat_index_read(from, length, numbers, lent, answer, answer_len);
}

static int numbers_kept(size_t from) {
    for (size_t i = from; i < LENT; i++)
        if (numbers[i] != KEPT_NUMBER)
            return 0;
    return 1;
}

/* Whether reading is refused so, and no number is written. */
static int unread(const uint8_t *from, size_t length, size_t lent, uint32_t code, uint64_t place, uint64_t first, uint64_t second) {
    return read_index(from, length, lent, DUCAT_INDEX_NUMBERS) == code && answered(code, place, first, second, 0) && numbers_kept(0);
}

static void words_of_an_index(void) {
    const struct ducat_index_entry expected = {1, 1001, 255, 3, 4, 5, 6, 7, 8, 200};
    struct ducat_index_entry entry;
    check(read_index(index_bytes, sizeof index_bytes, LENT, DUCAT_INDEX_NUMBERS) == DUCAT_ACCEPTED &&
          answered(DUCAT_ACCEPTED, 0, 0, 0, INDEX_WORDS), "an index is read");
    check(numbers[0] == 2 && numbers[1] == 300 && numbers[2] == 5 && numbers[3] == 1, "providers, unknown2 counts, entries");
    memcpy(&entry, numbers + 2 + numbers[0], sizeof entry);
    check(memcmp(&entry, &expected, sizeof entry) == 0, "an entry's words");
    check(numbers_kept(INDEX_WORDS), "numbers behind an index");
    check(read_index(index_bytes, sizeof index_bytes, INDEX_WORDS, DUCAT_INDEX_NUMBERS) == DUCAT_ACCEPTED, "exactly the room");
}

void test_index_reading(void) {
    const uint8_t other[] = {2}, longer[] = {1, 0x80, 0}, over[] = {1, 0, 0, 7};
    words_of_an_index();
    check(unread(index_bytes, 0, LENT, DUCAT_NUMBER_CUT, 0, 0, 0), "no bytes");
    check(unread(index_bytes, sizeof index_bytes - 1, LENT, DUCAT_NUMBER_CUT, sizeof index_bytes - 2, 0, 0), "a number that is cut");
    check(unread(longer, sizeof longer, 0, DUCAT_BAD_NUMBER, 1, 0, 0), "a longer form");
    check(unread(other, sizeof other, 0, DUCAT_OTHER_EDITION, 0, 0, 0), "another edition");
    check(unread(over, sizeof over, 0, DUCAT_LEFT_OVER, 3, 0, 0), "a byte left over");
    for (size_t lent = 0; lent < INDEX_WORDS; lent++)
        check(unread(index_bytes, sizeof index_bytes, lent, DUCAT_LIST_TOO_SMALL, 0, DUCAT_INDEX, lent), "too few numbers");
    for (size_t n = 0; n <= DUCAT_INDEX_NUMBERS + 1; n++)
        if (n != DUCAT_INDEX_NUMBERS)
            check(read_index(other, sizeof other, LENT, n) == DUCAT_BAD_LENDING && answer[0] == UINT64_MAX && numbers_kept(0),
                  "another number of numbers, before any fault of an index");
}

/* Writes an index, and gives the code. */
static uint32_t write_index(const struct lists *l, size_t lent, size_t answer_len) {
    memset(bytes, KEPT_BYTE, sizeof bytes);
    memset(answer, 0xff, sizeof answer);
    return ducat_index_write(l->words, l->words_len, l->capacities, l->capacities_len, l->counts, l->counts_len, bytes, lent, answer,
                             answer_len);
}

static int bytes_kept(size_t from) {
    for (size_t i = from; i < LENT; i++)
        if (bytes[i] != KEPT_BYTE)
            return 0;
    return 1;
}

/* Whether writing is refused so, and no byte is written. */
static int unwritten(const struct lists *l, size_t lent, uint32_t code, uint64_t first, uint64_t second) {
    return write_index(l, lent, DUCAT_INDEX_NUMBERS) == code && answered(code, 0, first, second, 0) && bytes_kept(0);
}

/* Lists whose index is the one above: the second provider has the one event with a template, the first the others. */
static void fill(struct lists *l) {
    fill_lists(l);
    l->words[ducat_start(l->capacities, DUCAT_LIST_PROVIDERS) + 8] = 300;
    l->words[ducat_start(l->capacities, DUCAT_LIST_PROVIDERS) + DUCAT_PROVIDER_WORDS + 8] = 5;
    put_table(l, 2, 1, DUCAT_EVNT, 3, 1);
    put_table(l, 3, 1, DUCAT_TTBL, 3, 1);
    put_event(l, 0, 1001, 0);
    put_event(l, 1, 1001, 300);
    put_event(l, 2, 1001, 400);
    put_event(l, 3, 1001, 200);
    l->words[ducat_start(l->capacities, DUCAT_LIST_EVENTS) + 3 * DUCAT_EVENT_WORDS + 1] = 255;
    put_template(l, 3, 1, 200, 74);
}

static void nothing(void) {
    const uint32_t none[DUCAT_AREAS] = {0};
    const uint8_t expected[] = {1, 0, 0};
    memset(bytes, KEPT_BYTE, sizeof bytes);
    memset(answer, 0xff, sizeof answer);
    check(ducat_index_write(none, 0, none, DUCAT_AREAS, none, DUCAT_AREAS, bytes, sizeof expected, answer, DUCAT_INDEX_NUMBERS) ==
              DUCAT_ACCEPTED &&
          answered(DUCAT_ACCEPTED, 0, 0, 0, sizeof expected) && memcmp(bytes, expected, sizeof expected) == 0 &&
          bytes_kept(sizeof expected), "an index of no lists");
    check(read_index(expected, sizeof expected, 2, DUCAT_INDEX_NUMBERS) == DUCAT_ACCEPTED &&
          answered(DUCAT_ACCEPTED, 0, 0, 0, 2) && numbers[0] == 0 && numbers[1] == 0 && numbers_kept(2), "the same read back");
}

static void lengths(struct lists *l) {
    for (size_t n = 0; n <= DUCAT_AREAS + 1; n++) {
        if (n == DUCAT_AREAS)
            continue;
        fill(l);
        l->capacities_len = n;
        check(unwritten(l, LENT, DUCAT_BAD_LENDING, 0, 0), "another number of capacities, for an index");
        fill(l);
        l->counts_len = n;
        check(unwritten(l, LENT, DUCAT_BAD_LENDING, 0, 0), "another number of counts, for an index");
    }
    fill(l);
    for (size_t n = 0; n <= DUCAT_INDEX_NUMBERS + 1; n++)
        if (n != DUCAT_INDEX_NUMBERS)
            check(write_index(l, LENT, n) == DUCAT_BAD_LENDING && answer[0] == UINT64_MAX && bytes_kept(0),
                  "another number of numbers, for an index");
}

static void apart(struct lists *l) {
    fill(l);
    put_template(l, 0, 1, 100, 71);
    check(unwritten(l, 0, DUCAT_LISTS_APART, 0, 0), "another provider's template in a range, for an index");
    fill(l);
    put_table(l, 2, 1, DUCAT_EVNT, 3, 0);
    check(unwritten(l, 0, DUCAT_LISTS_APART, 0, 0), "an event of no provider");
    put_table(l, 2, 1, DUCAT_EVNT, 2, 2);
    check(unwritten(l, 0, DUCAT_LISTS_APART, 0, 0), "an event of two providers");
    fill(l);
    put_event(l, 0, 65536, 0);
    check(unwritten(l, 0, DUCAT_LISTS_APART, 0, 0), "a field past its width");
    l->words_len--;
    check(unwritten(l, 0, DUCAT_BAD_LENDING, 0, 0), "too few words, before a field past its width");
}

void test_index_writing(void) {
    struct lists l = new_lists();
    fill(&l);
    check(write_index(&l, LENT, DUCAT_INDEX_NUMBERS) == DUCAT_ACCEPTED && answered(DUCAT_ACCEPTED, 0, 0, 0, sizeof index_bytes),
          "an index is written");
    check(memcmp(bytes, index_bytes, sizeof index_bytes) == 0 && bytes_kept(sizeof index_bytes), "the bytes of an index");
    check(write_index(&l, sizeof index_bytes, DUCAT_INDEX_NUMBERS) == DUCAT_ACCEPTED, "exactly the bytes");
    for (size_t lent = 0; lent < sizeof index_bytes; lent++)
        check(unwritten(&l, lent, DUCAT_LIST_TOO_SMALL, DUCAT_INDEX, lent), "too few bytes");
    nothing();
    lengths(&l);
    apart(&l);
    free_lists(&l);
}
