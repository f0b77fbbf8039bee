/* What is refused of a template's items, in U: what its words are made, and the answer. */
#include "check.h"
#include "lending.h"
#include "tests.h"

/* Field codes. */
enum { ITEMS_OFFSET = 85, NO_NAMES = 88, DESCRIPTORS = 137, NAME_OFFSET = 146, NAME = 149 };

/* Up to two words, told by their places; no word stands at 0. */
struct fault {
    uint32_t puts[2][2];
    uint64_t code, field, place, first, second;
    const char *what;
};

static const struct fault faults[] = {
    /* The array, against the TEMP's end. */
    {{{84, 2}}, DUCAT_CUT_SHORT, DESCRIPTORS, 116, 40, 28, "two items, and room for one"},
    {{{92, 0}}, DUCAT_CUT_SHORT, DESCRIPTORS, 144, 20, 0, "items at the TEMP's end"},
    {{{92, 144}}, DUCAT_CUT_SHORT, DESCRIPTORS, 144, 20, 0, "the same, told by their offset"},
    {{{92, 128}}, DUCAT_CUT_SHORT, DESCRIPTORS, 128, 20, 16, "items past the TEMP, in the blob"},
    {{{84, UINT32_MAX}}, DUCAT_CUT_SHORT, DESCRIPTORS, 116, 20 * (uint64_t)UINT32_MAX, 28, "as many items as can be said"},
    {{{84, 214748365}}, DUCAT_CUT_SHORT, DESCRIPTORS, 116, 4294967300u, 28, "so many that 32 bits would wrap to 4 bytes"},

    /* A name. */
    {{{132, 75}}, DUCAT_BAD_OFFSET, NAME_OFFSET, 75, 152, 0, "a name before the TEMP"},
    {{{132, 1}}, DUCAT_BAD_OFFSET, NAME_OFFSET, 1, 152, 0, "a name far before the TEMP"},
    {{{132, 76}}, DUCAT_CUT_SHORT, NAME, 76, 0x504d4554, 68, "a name where the TEMP starts, whose signature is no size"},
    {{{132, 145}}, DUCAT_BAD_OFFSET, NAME, 145, 144, 0, "a name past the TEMP"},
    {{{132, UINT32_MAX}}, DUCAT_BAD_OFFSET, NAME, UINT32_MAX, 144, 0, "a name far past the TEMP"},
    {{{132, 144}}, DUCAT_CUT_SHORT, NAME, 144, 4, 0, "a name at the TEMP's end"},
    {{{132, 141}}, DUCAT_CUT_SHORT, NAME, 141, 4, 3, "a name's size that is cut short"},
    {{{136, 3}}, DUCAT_BAD_SIZE, NAME, 136, 3, 0, "a name's size under 4"},
    {{{136, 10}}, DUCAT_CUT_SHORT, NAME, 136, 10, 8, "a name that runs past the TEMP, in the blob"},
    {{{136, 9}}, DUCAT_CUT_SHORT, NAME, 136, 9, 8, "the same, of an odd size"},
    {{{136, 7}}, DUCAT_NOT_UTF16, NAME, 136, 0, 0, "a name of an odd size"},
    {{{140, 0xdc00}}, DUCAT_NOT_UTF16, NAME, 136, 0, 0, "a name with a low surrogate alone"},
    {{{140, 0xd800}}, DUCAT_NOT_UTF16, NAME, 136, 0, 0, "a name with a high surrogate before the zero unit"},

    /* What comes first. */
    {{{84, 2}, {132, 75}}, DUCAT_CUT_SHORT, DESCRIPTORS, 116, 40, 28, "the array before a name"},
    {{{92, 75}, {84, 2}}, DUCAT_BAD_OFFSET, ITEMS_OFFSET, 75, 152, 0, "the BinXML's bounds before the array"},
    {{{84, 0}, {132, 75}}, DUCAT_BAD_COUNT, NO_NAMES, 88, 1, 0, "names of no items before anything else of items"},
    {{{72, 2}, {132, 75}}, DUCAT_BAD_OFFSET, NAME_OFFSET, 75, 152, 0, "a name before the next TEMP, which is not there"},
};

static void refused(const struct fault *f) {
    struct block u = block_u();
    struct lending l = lend_each(1);
    uint64_t needs[DUCAT_NUMBERS];
    for (int i = 0; i < 2; i++)
        if (f->puts[i][0] != 0)
            put(u.bytes, f->puts[i][0], f->puts[i][1]);
    check(ask_block(&l, &u) == f->code && answered(l.answer, f->code, f->field, f->place, f->first, f->second) && all_kept(&l), f->what);
    check(ducat_needs(u.bytes, u.length, needs, DUCAT_NUMBERS) == f->code &&
          answered(needs, f->code, f->field, f->place, f->first, f->second), f->what);
    take_back(&l);
}

/* Two items, at 116 and 136, and the names that they have; U's TEMP ends 24 bytes later, at 168, and so does the block. */
static void in_turn(uint32_t first_name, uint32_t second_name, uint64_t code, uint64_t field, uint64_t place, uint64_t first) {
    struct block u = block_u();
    struct lending l = lend_each(2);
    u.length = 168;
    put(u.bytes, 4, 168);
    put(u.bytes, 68, 104);
    put(u.bytes, 80, 92);
    put(u.bytes, 84, 2);
    put(u.bytes, 132, first_name);
    put(u.bytes, 136, 0);
    put(u.bytes, 140, 0);
    put(u.bytes, 152, second_name);
    put(u.bytes, 156, 3); /* a size that no name has */
    check(ask_block(&l, &u) == code && answered(l.answer, code, field, place, first, 0) && all_kept(&l), "each item with its whole name");
    take_back(&l);
}

void test_item_refusals(void) {
    for (size_t i = 0; i < sizeof faults / sizeof faults[0]; i++)
        refused(&faults[i]);
    in_turn(156, 75, DUCAT_BAD_SIZE, NAME, 156, 3);
    in_turn(75, 156, DUCAT_BAD_OFFSET, NAME_OFFSET, 75, 168);
    in_turn(0, 156, DUCAT_BAD_SIZE, NAME, 156, 3);
}
