/* Ducatfeather: reads a CRIM block into lent memory, finds templates in what was read, and writes and reads an index of its events.
 * docs/FORMAT.md says what each number means. In short, in C (one word more than is needed is asked of malloc, so that the words
 * aren't null where none is needed):
 *
 *     uint64_t answer[DUCAT_NUMBERS];
 *     uint32_t capacities[DUCAT_AREAS];
 *     uint32_t code = ducat_needs(bytes, bytes_len, answer, DUCAT_NUMBERS);
 *     if (code == DUCAT_ACCEPTED) {
 *         ducat_counts(answer, capacities);
 *         size_t words_len = ducat_words(capacities);
 *         uint32_t *words = malloc((words_len + 1) * sizeof *words);
 *         if (words == NULL)
 *             abort();
 *         code = ducat_read(bytes, bytes_len, words, words_len, capacities, DUCAT_AREAS, answer, DUCAT_NUMBERS);
 *         for (uint32_t i = 0; i < ducat_count(answer, DUCAT_LIST_TEMPLATES); i++) {
 *             struct ducat_template entry;
 *             ducat_entry(words, capacities, DUCAT_LIST_TEMPLATES, i, &entry, sizeof entry);
 *             printf("template %u provider %u\n", (unsigned)entry.offset, (unsigned)entry.provider_number);
 *         }
 *         free(words);
 *     }
 *     if (code != DUCAT_ACCEPTED)
 *         printf("refused %u %llu\n", (unsigned)code, (unsigned long long)answer[DUCAT_PLACE]);
 *
 * A refusal has no entries, so the loop does nothing then. */
#ifndef DUCATFEATHER_H
#define DUCATFEATHER_H

#include <stddef.h>
#include <stdint.h>
#include <string.h>

#ifdef __cplusplus
extern "C" {
#define DUCAT_STATIC_ASSERT static_assert
#define DUCAT_INLINE inline
#else
#define DUCAT_STATIC_ASSERT _Static_assert
#ifdef __GNUC__
#define DUCAT_INLINE static inline __attribute__((unused))
#else
#define DUCAT_INLINE static inline
#endif
#endif

/* The most bytes that are read, and the most entries that a list may have room for. */
#define DUCAT_LONGEST 16777216u
#define DUCAT_MOST 65536u

/* How many areas the lent words have, and so how many capacities and how many counts there are. */
#define DUCAT_AREAS 11

/* How many numbers an answer has: of ducat_read and ducat_needs, of ducat_template_at, of ducat_templates_for, of ducat_index_write
 * and ducat_index_read. */
#define DUCAT_NUMBERS (DUCAT_COUNTS + DUCAT_AREAS)
#define DUCAT_TEMPLATE_NUMBERS 6
#define DUCAT_GUIDS_NUMBERS 5
#define DUCAT_INDEX_NUMBERS 5

/* What the numbers of an answer of ducat_read or ducat_needs are, by their places. The counts follow one another from
 * DUCAT_COUNTS on, in the order of the areas; ducat_count gives a list's. */
enum {
    DUCAT_CODE = 0,
    DUCAT_FIELD = 1,
    DUCAT_PLACE = 2,
    DUCAT_FIRST = 3,
    DUCAT_SECOND = 4,
    DUCAT_COUNTS = 5
};

/* The same of a lookup's answer and of an index's, which have no field. The first four are those of all of them. */
enum {
    DUCAT_LOOKUP_CODE = 0,
    DUCAT_LOOKUP_PLACE = 1,
    DUCAT_LOOKUP_FIRST = 2,
    DUCAT_LOOKUP_SECOND = 3,
    DUCAT_FOUND = 4,          /* ducat_template_at: 1 if there is such a template, else 0 */
    DUCAT_FOUND_NUMBER = 5,   /* ducat_template_at: its number in DUCAT_LIST_TEMPLATES; 0 if there is none */
    DUCAT_GIVEN = 4           /* how many GUIDs (ducat_templates_for), bytes (ducat_index_write) or words (ducat_index_read) were
                               * written */
};

/* Codes. Beside each: what place, first and second are; where nothing is said they are 0. Codes 1 and 3 to 6 have a field
 * code (docs/FIELDS.md), all others field 0. A refusal's counts are 0. */
enum {
    DUCAT_ACCEPTED = 0,       /* first: CRIM.size; second: major version + 65,536 times minor version (a lookup, an index: 0, 0) */
    DUCAT_CUT_SHORT = 1,      /* bytes are missing: from place on, first are needed and second are there */
    DUCAT_WRONG_SIGNATURE = 2,/* at place: first is expected, second is found, as little-endian numbers */
    DUCAT_BAD_SIZE = 3,       /* of what stands at place: the size is first */
    DUCAT_BAD_COUNT = 4,      /* at place: the count is first */
    DUCAT_BAD_OFFSET = 5,     /* the offset is place, the length that it is held against is first */
    DUCAT_NOT_UTF16 = 6,      /* the name at place */
    DUCAT_TOO_LONG = 7,       /* more than DUCAT_LONGEST bytes are lent */
    DUCAT_BAD_LENDING = 8,    /* a capacity is over DUCAT_MOST, or too few words are lent, or a length isn't the expected one */
    DUCAT_LIST_TOO_SMALL = 9, /* what was read is right; first: the lowest list with too little room, DUCAT_GUIDS for the list lent
                               * to ducat_templates_for, DUCAT_INDEX for what an index is written or read to; second: its capacity,
                               * of an index how many bytes or words are lent */
    DUCAT_LISTS_APART = 10,   /* a lookup over lists that don't fit together, or an index of them */
    DUCAT_NUMBER_CUT = 15,    /* the bytes run out in the number at place; place is their length where not even its first is there */
    DUCAT_BAD_NUMBER = 16,    /* the number at place has ten bytes of which none is the last, isn't in its shortest form, or is past
                               * its width */
    DUCAT_OTHER_EDITION = 17, /* the edition at place is not one that is read */
    DUCAT_LEFT_OVER = 18      /* bytes are left over, from place on */
};

/* The lists, by their numbers. A number is a name: it doesn't say which area is the list's (ducat_area_of does). */
enum {
    DUCAT_LIST_PROVIDERS = 1,
    DUCAT_LIST_DESCRIPTORS = 2,
    DUCAT_LIST_UNKNOWN2 = 3,
    DUCAT_LIST_TABLES = 4,
    DUCAT_LIST_DEFINITIONS = 5,
    DUCAT_LIST_EVENTS = 6,
    DUCAT_LIST_MAPS = 7,
    DUCAT_LIST_MAP_ENTRIES = 8,
    DUCAT_LIST_TEMPLATES = 9,
    DUCAT_LIST_UNKNOWN_ELEMENTS = 10,
    DUCAT_GUIDS = 11,         /* the list lent to ducat_templates_for, which has no area */
    DUCAT_LIST_ITEMS = 12,
    DUCAT_INDEX = 15          /* the bytes lent to ducat_index_write, the words lent to ducat_index_read: they have no area */
};

/* The kinds of tables. */
enum {
    DUCAT_CHAN = 1,
    DUCAT_EVNT = 2,
    DUCAT_KEYW = 3,
    DUCAT_LEVL = 4,
    DUCAT_MAPS = 5,
    DUCAT_OPCO = 6,
    DUCAT_TASK = 7,
    DUCAT_TTBL = 8
};

/* The kinds of maps. */
enum {
    DUCAT_VMAP = 1,
    DUCAT_BMAP = 2,
    DUCAT_OTHER_MAP = 3
};

/* An entry of each list: 32-bit words and nothing between them. docs/FORMAT.md (The lists) says what they mean. Numbers of entries
 * count from 0.
 *
 * A name's units end before its first zero unit. Where there is none they run out with the name's size, and the text may not be
 * complete: name_ended tells which.
 *
 * An entry is reached by copying it from the lent words into its struct, with ducat_entry or with memcpy; that is right in C and
 * in C++. A pointer to the words that is cast to one to the struct is not: in C++ there is no such object to point to. */

/* A GUID's 16 bytes as four little-endian words. Also an entry of DUCAT_GUIDS. */
struct ducat_guid {
    uint32_t words[4];
};

struct ducat_provider {
    struct ducat_guid guid;
    uint32_t wevt_offset;
    uint32_t size;
    uint32_t message;
    uint32_t descriptor_count;
    uint32_t unknown2_count;
};

struct ducat_descriptor {
    uint32_t offset;
    uint32_t unknown;
    uint32_t signature;       /* its element's */
};

struct ducat_unknown2 {
    uint32_t word;
};

struct ducat_table {
    uint32_t provider_number;
    uint32_t kind;
    uint32_t offset;
    uint32_t size;
    uint32_t extra;           /* of an EVNT only, as the two last */
    uint32_t first_entry;     /* its number in the list that the kind's entries stand in */
    uint32_t entry_count;
    uint32_t trailing_start;
    uint32_t trailing_length;
};

struct ducat_definition {
    uint32_t kind;            /* of the table that it stands in */
    uint32_t identifier_low;
    uint32_t identifier_high;
    uint32_t message;
    uint32_t name_offset;
    uint32_t name_start;
    uint32_t name_units;
    uint32_t unknown;
    struct ducat_guid mui;
    uint32_t name_ended;      /* 1 if a zero unit ended the name; 0 if it ran out, and if there is none */
};

struct ducat_event {
    uint32_t identifier;
    uint32_t version;
    uint32_t channel;
    uint32_t level;
    uint32_t opcode;
    uint32_t task;
    uint32_t keywords_low;
    uint32_t keywords_high;
    uint32_t message;
    uint32_t template_offset;
    uint32_t opcode_offset;
    uint32_t level_offset;
    uint32_t task_offset;
    uint32_t unknown_count;
    uint32_t unknown_offset;
    uint32_t flags;
};

struct ducat_map {
    uint32_t kind;
    uint32_t signature;
    uint32_t offset;
    uint32_t size;
    uint32_t string_offset;
    uint32_t name_start;
    uint32_t name_units;
    uint32_t first_entry;     /* its number in DUCAT_LIST_MAP_ENTRIES */
    uint32_t entry_count;
    uint32_t data_start;
    uint32_t data_length;
    uint32_t name_ended;      /* as a definition's; only a VMAP has a name */
};

struct ducat_map_entry {
    uint32_t identifier;
    uint32_t message;
};

struct ducat_template {
    uint32_t provider_number; /* in DUCAT_LIST_PROVIDERS */
    uint32_t offset;
    uint32_t size;
    uint32_t item_descriptor_count;
    uint32_t item_name_count;
    uint32_t items_offset;
    uint32_t event_type;
    struct ducat_guid guid;
    uint32_t binxml_start;
    uint32_t binxml_length;
};

struct ducat_unknown_element {
    uint32_t provider_number;
    uint32_t signature;
    uint32_t offset;
    uint32_t size;
};

struct ducat_item {
    uint32_t template_number; /* in DUCAT_LIST_TEMPLATES */
    uint32_t unknown1;
    uint32_t types;           /* input type + 256 times output type */
    uint32_t unknown3;
    uint32_t unknown4;
    uint32_t count_and_length;/* count + 65,536 times length */
    uint32_t name_offset;
    uint32_t name_start;
    uint32_t name_units;
    uint32_t name_ended;      /* as a definition's */
};

/* What an event is looked up by: a provider's GUID and the first fields of an event. Copied with memcpy into DUCAT_KEY_WORDS
 * words, it is what ducat_templates_for takes. */
struct ducat_key {
    struct ducat_guid guid;
    uint32_t identifier;
    uint32_t version;
    uint32_t channel;
    uint32_t level;
    uint32_t opcode;
    uint32_t task;
    uint32_t keywords_low;
    uint32_t keywords_high;
};

/* An entry of an index: an event, and where its template is. */
struct ducat_index_entry {
    uint32_t provider_number;
    uint32_t identifier;
    uint32_t version;
    uint32_t channel;
    uint32_t level;
    uint32_t opcode;
    uint32_t task;
    uint32_t keywords_low;
    uint32_t keywords_high;
    uint32_t template_offset;
};

/* The words of one entry of each list, of a key, and of one entry of an index. */
enum {
    DUCAT_PROVIDER_WORDS = 9,
    DUCAT_DESCRIPTOR_WORDS = 3,
    DUCAT_UNKNOWN2_WORDS = 1,
    DUCAT_TABLE_WORDS = 9,
    DUCAT_DEFINITION_WORDS = 13,
    DUCAT_EVENT_WORDS = 16,
    DUCAT_MAP_WORDS = 12,
    DUCAT_MAP_ENTRY_WORDS = 2,
    DUCAT_TEMPLATE_WORDS = 13,
    DUCAT_UNKNOWN_ELEMENT_WORDS = 4,
    DUCAT_ITEM_WORDS = 10,
    DUCAT_GUID_WORDS = 4,
    DUCAT_KEY_WORDS = 12,
    DUCAT_INDEX_ENTRY_WORDS = 10
};

DUCAT_STATIC_ASSERT(sizeof(struct ducat_provider) == 4 * DUCAT_PROVIDER_WORDS, "words of a provider");
DUCAT_STATIC_ASSERT(sizeof(struct ducat_descriptor) == 4 * DUCAT_DESCRIPTOR_WORDS, "words of a descriptor");
DUCAT_STATIC_ASSERT(sizeof(struct ducat_unknown2) == 4 * DUCAT_UNKNOWN2_WORDS, "words of an unknown2 word");
DUCAT_STATIC_ASSERT(sizeof(struct ducat_table) == 4 * DUCAT_TABLE_WORDS, "words of a table");
DUCAT_STATIC_ASSERT(sizeof(struct ducat_definition) == 4 * DUCAT_DEFINITION_WORDS, "words of a definition");
DUCAT_STATIC_ASSERT(sizeof(struct ducat_event) == 4 * DUCAT_EVENT_WORDS, "words of an event");
DUCAT_STATIC_ASSERT(sizeof(struct ducat_map) == 4 * DUCAT_MAP_WORDS, "words of a map");
DUCAT_STATIC_ASSERT(sizeof(struct ducat_map_entry) == 4 * DUCAT_MAP_ENTRY_WORDS, "words of a map entry");
DUCAT_STATIC_ASSERT(sizeof(struct ducat_template) == 4 * DUCAT_TEMPLATE_WORDS, "words of a template");
DUCAT_STATIC_ASSERT(sizeof(struct ducat_unknown_element) == 4 * DUCAT_UNKNOWN_ELEMENT_WORDS, "words of an unknown element");
DUCAT_STATIC_ASSERT(sizeof(struct ducat_item) == 4 * DUCAT_ITEM_WORDS, "words of an item");
DUCAT_STATIC_ASSERT(sizeof(struct ducat_guid) == 4 * DUCAT_GUID_WORDS, "words of a GUID");
DUCAT_STATIC_ASSERT(sizeof(struct ducat_key) == 4 * DUCAT_KEY_WORDS, "words of a key");
DUCAT_STATIC_ASSERT(sizeof(struct ducat_index_entry) == 4 * DUCAT_INDEX_ENTRY_WORDS, "words of an index entry");

/* An area: the number of its list, and the words of one of its list's entries. */
struct ducat_area {
    uint32_t list;
    uint32_t words;
};

/* The DUCAT_AREAS areas, in the order in which they stand in the lent words; capacities and counts are in the same order. All
 * functions up to ducat_first_item go by this table. */
DUCAT_INLINE const struct ducat_area *ducat_areas(void) {
    static const struct ducat_area areas[] = {
        {DUCAT_LIST_PROVIDERS, DUCAT_PROVIDER_WORDS},
        {DUCAT_LIST_DESCRIPTORS, DUCAT_DESCRIPTOR_WORDS},
        {DUCAT_LIST_UNKNOWN2, DUCAT_UNKNOWN2_WORDS},
        {DUCAT_LIST_TABLES, DUCAT_TABLE_WORDS},
        {DUCAT_LIST_DEFINITIONS, DUCAT_DEFINITION_WORDS},
        {DUCAT_LIST_EVENTS, DUCAT_EVENT_WORDS},
        {DUCAT_LIST_MAPS, DUCAT_MAP_WORDS},
        {DUCAT_LIST_MAP_ENTRIES, DUCAT_MAP_ENTRY_WORDS},
        {DUCAT_LIST_TEMPLATES, DUCAT_TEMPLATE_WORDS},
        {DUCAT_LIST_UNKNOWN_ELEMENTS, DUCAT_UNKNOWN_ELEMENT_WORDS},
        {DUCAT_LIST_ITEMS, DUCAT_ITEM_WORDS},
    };
    DUCAT_STATIC_ASSERT(sizeof areas / sizeof areas[0] == DUCAT_AREAS, "the number of areas");
    return areas;
}

/* Which area is a list's, counted from 0: that is also the place of its capacity and of its count. DUCAT_AREAS, which is no area,
 * if the list has none. */
DUCAT_INLINE size_t ducat_area_of(uint32_t list) {
    size_t area = 0;
    while (area < DUCAT_AREAS && ducat_areas()[area].list != list)
        area++;
    return area;
}

/* The word at which a list's area starts, given the capacities. A list that has no area is taken for an empty one behind all
 * areas: its start is where they end. */
DUCAT_INLINE size_t ducat_start(const uint32_t *capacities, uint32_t list) {
    size_t end = ducat_area_of(list);
    size_t start = 0;
    for (size_t area = 0; area < end; area++)
        start += (size_t)capacities[area] * ducat_areas()[area].words;
    return start;
}

/* How many words all areas need together, given the capacities: so many are lent to ducat_read, or more. */
DUCAT_INLINE size_t ducat_words(const uint32_t *capacities) {
    return ducat_start(capacities, 0); /* where they end: no list has number 0 */
}

/* How many entries a list has, given ducat_read's answer, or needs, given that of ducat_needs. 0 if the list has no area. */
DUCAT_INLINE uint32_t ducat_count(const uint64_t *answer, uint32_t list) {
    size_t area = ducat_area_of(list);
    return area < DUCAT_AREAS ? (uint32_t)answer[DUCAT_COUNTS + area] : 0;
}

/* The same of all areas, into DUCAT_AREAS numbers: the counts that the lookups take, or the capacities for a reading that lends
 * exactly what ducat_needs said. */
DUCAT_INLINE void ducat_counts(const uint64_t *answer, uint32_t *counts) {
    for (size_t area = 0; area < DUCAT_AREAS; area++)
        counts[area] = (uint32_t)answer[DUCAT_COUNTS + area];
}

/* Copies an entry of a list into its struct, given the words and the capacities of a reading, and gives 1. The entry's number is
 * to be less than the list's count: what stands behind the entries was not written by the reading.
 *
 * Gives 0, and makes the struct all zeros, if the list has no area, if the number isn't less than the list's capacity, or if
 * entry_size isn't the size of the list's struct. */
DUCAT_INLINE int ducat_entry(const uint32_t *words, const uint32_t *capacities, uint32_t list, uint32_t number,
                             void *entry, size_t entry_size) {
    size_t area = ducat_area_of(list);
    memset(entry, 0, entry_size);
    if (area == DUCAT_AREAS || number >= capacities[area] || entry_size != 4 * (size_t)ducat_areas()[area].words)
        return 0;
    memcpy(entry, words + ducat_start(capacities, list) + (size_t)number * ducat_areas()[area].words, entry_size);
    return 1;
}

/* The number in DUCAT_LIST_ITEMS of a template's first item, given the words, the capacities and the answer of an accepted reading,
 * and the template's number. Its other items follow, as many in all as its item_descriptor_count; the number says nothing if that
 * is 0. */
DUCAT_INLINE uint32_t ducat_first_item(const uint32_t *words, const uint32_t *capacities, const uint64_t *answer,
                                       uint32_t template_number) {
    uint32_t low = 0, high = ducat_count(answer, DUCAT_LIST_ITEMS);
    while (low < high) { /* the items stand by their templates' numbers */
        uint32_t middle = low + (high - low) / 2;
        struct ducat_item item;
        ducat_entry(words, capacities, DUCAT_LIST_ITEMS, middle, &item, sizeof item);
        if (item.template_number < template_number)
            low = middle + 1;
        else
            high = middle;
    }
    return low;
}

/* Says what each list needs to take what the CRIM block at the start of the lent bytes holds. Gives the code, which is
 * answer[DUCAT_CODE] too.
 *
 * bytes, bytes_len    the lent bytes, as ducat_read takes them.
 * answer, answer_len  the DUCAT_NUMBERS numbers of the answer. They are ducat_read's, but for the counts on code 0: these are how
 *                     many entries each list needs, and stop rising at DUCAT_MOST + 1.
 *
 * Codes 7 and 1 to 6 are given as ducat_read gives them, and 0 for all other bytes. An answer_len that isn't DUCAT_NUMBERS is
 * code 8; code 7 still comes first. The answer is written, unless answer_len isn't DUCAT_NUMBERS, and nothing else is touched.
 *
 * If no count is over DUCAT_MOST, a reading that lends exactly these is accepted: ducat_counts gives them as capacities. A count
 * over DUCAT_MOST can't be lent: ducat_read answers such a capacity with 8, and DUCAT_MOST in its stead with 9. A caller who
 * finds one need lend nothing, since this block can't be read into lists.
 *
 * No pointer may be null, not even where its length is 0, and the answer may overlap with nothing else that is lent. Nothing is
 * allocated, kept or freed. Calls over memory of their own may run side by side. */
uint32_t ducat_needs(const uint8_t *bytes, size_t bytes_len,
                     uint64_t *answer, size_t answer_len);

/* Reads the CRIM block at the start of the lent bytes. Gives the code, which is answer[DUCAT_CODE] too.
 *
 * blob, blob_len              the lent bytes. What stands behind CRIM.size is not looked at.
 * words, words_len            the lent words: DUCAT_AREAS areas, in the order of ducat_areas, each starting where the one before
 *                             ends. An area is its list's capacity times the words of its entry: ducat_start says where each
 *                             starts, ducat_words how many words they need together. There may be more.
 * capacities, capacities_len  DUCAT_AREAS numbers: how many entries each list has room for, at most DUCAT_MOST.
 * answer, answer_len          the DUCAT_NUMBERS numbers of the answer.
 *
 * What is touched: on code 0 the entries that are needed, from each area's start on, and nothing else of the words. On any
 * other code no word. The answer is written, unless answer_len isn't DUCAT_NUMBERS. Nothing is allocated, kept or freed.
 *
 * A capacities_len that isn't DUCAT_AREAS, or an answer_len that isn't DUCAT_NUMBERS, is code 8; code 7 still comes first.
 *
 * No pointer may be null, not even where its length is 0, and the words and the answer may overlap with nothing else that is
 * lent. Calls over memory of their own may run side by side. */
uint32_t ducat_read(const uint8_t *blob, size_t blob_len,
                    uint32_t *words, size_t words_len,
                    const uint32_t *capacities, size_t capacities_len,
                    uint64_t *answer, size_t answer_len);

/* Both lookups take what a reading was given and gave:
 *
 * words, words_len            the lent words, as the reading left them.
 * capacities, capacities_len  the DUCAT_AREAS capacities of the reading.
 * counts, counts_len          its DUCAT_AREAS counts, as ducat_counts gives them.
 * answer, answer_len          the numbers of the lookup's answer, which is written unless answer_len isn't the expected one.
 *
 * They give the code, which is answer[DUCAT_LOOKUP_CODE] too. In this order: a capacity over DUCAT_MOST, too few words, or a
 * length that isn't the expected one is code 8; a count over its capacity is 10, and so is what each lookup says below. They
 * make no use of the blob.
 *
 * No pointer may be null, not even where its length is 0, and what is written to, the answer and the list of GUIDs, may overlap
 * with nothing else that is lent. Calls that write to memory of their own may run side by side, over the same words too. */

/* By offset: the lowest template, among the entries of DUCAT_LIST_TEMPLATES from number first on, count of them, whose provider and
 * whose offset are these. To find an event's template, give its provider's number, first entry and count of that provider's TTBL,
 * and the event's template offset.
 *
 * The provider's number is compared with that of each entry, and no more: one that is no provider's is no fault. A range past the
 * list's count is code 10, also where count is 0. answer_len is DUCAT_TEMPLATE_NUMBERS. */
uint32_t ducat_template_at(const uint32_t *words, size_t words_len,
                           const uint32_t *capacities, size_t capacities_len,
                           const uint32_t *counts, size_t counts_len,
                           uint32_t provider, uint32_t first, uint32_t count, uint32_t offset,
                           uint64_t *answer, size_t answer_len);

/* By key: the GUIDs of the templates of the events with this key, each once, in first-seen order. All providers with the key's GUID
 * are gone through, in their order: of each, the events of its first EVNT, whose templates are looked for in its first TTBL alone.
 * No such provider, event or template is code 0 and no GUIDs.
 *
 * key, key_len      DUCAT_KEY_WORDS words.
 * guids, guids_len  the list that the GUIDs are written to. Its capacity is guids_len / DUCAT_GUID_WORDS, rounded down; over
 *                   DUCAT_MOST it is code 8. There are at most as many GUIDs as DUCAT_LIST_TEMPLATES has entries.
 *
 * An entry of DUCAT_LIST_TABLES whose provider is not there, whose kind isn't 1 to 8, or whose range is past its list's count is
 * code 10, whether it is used or not, and so is a TTBL's whose range has a template of another provider; then a list that is too
 * short is 9. answer_len is DUCAT_GUIDS_NUMBERS. Of guids nothing is touched but the GUIDs that are given, and nothing on any other
 * code than 0.
 *
 * It keeps a mark for each template, and uses about 70 KB of stack. */
uint32_t ducat_templates_for(const uint32_t *words, size_t words_len,
                             const uint32_t *capacities, size_t capacities_len,
                             const uint32_t *counts, size_t counts_len,
                             const uint32_t *key, size_t key_len,
                             uint32_t *guids, size_t guids_len,
                             uint64_t *answer, size_t answer_len);

/* An index is kept beside a log: it says which of a block's events have a template, and where, so that this need not be worked out
 * again. It knows its providers by their numbers in the block, and has no GUID; nothing in it says which block it was written from. All
 * its numbers are unsigned, in groups of seven bits: low group first, the high bit set on all bytes but the last, in the shortest form,
 * at most ten bytes. In this order:
 *
 *     the edition, which is 1
 *     how many providers there are
 *     the unknown2 count of each provider
 *     how many entries there are
 *     of each entry its provider number, identifier, version, channel, level, opcode, task, keywords, template offset
 *
 * Identifier and task have 16 bits, version, channel, level and opcode 8, keywords 64, all other numbers 32. No two byte strings are
 * read as the same index.
 *
 * For both calls: no pointer may be null, not even where its length is 0, and what is written to may overlap with nothing else that
 * is lent. The answer is written, unless answer_len isn't DUCAT_INDEX_NUMBERS; on any other code than 0 nothing else is touched.
 * DUCAT_LONGEST and DUCAT_MOST are no limits to the bytes and the words of an index. Nothing is allocated, kept or freed. Calls that
 * write to memory of their own may run side by side. */

/* Writes the index of what a reading gave. Gives the code, which is answer[DUCAT_LOOKUP_CODE] too.
 *
 * words to counts_len  what the reading was given and gave, as the lookups take it.
 * bytes, bytes_len     what the index is written to. 7 + 5 times the providers + 32 times the events are always enough. What stands
 *                      behind the index is kept.
 * answer, answer_len   the DUCAT_INDEX_NUMBERS numbers of the answer. answer[DUCAT_GIVEN] is how many bytes were written, 0 on a
 *                      refusal.
 *
 * The provider of an event is the one whose first EVNT has the event in its range. The event has an entry if its template offset
 * isn't 0 and the first TTBL of its provider has a template at that offset. Entries stand in the order of DUCAT_LIST_EVENTS. Where
 * the provider changes from event to event the tables are gone over for each, and for each event its provider's templates, up to the
 * one that it names: seconds at worst (docs/BENCHMARKS.md).
 *
 * In this order: 8 and 10 are given as ducat_templates_for gives them; then 10 for an event, with a template or without, that is in
 * the first EVNT of no provider, or of two, or that has a field past its width; then 9 if bytes_len is too small, with DUCAT_INDEX
 * and bytes_len.
 *
 * It keeps a number for each event and a mark for each provider, and uses about 330 KB of stack. */
uint32_t ducat_index_write(const uint32_t *words, size_t words_len,
                           const uint32_t *capacities, size_t capacities_len,
                           const uint32_t *counts, size_t counts_len,
                           uint8_t *bytes, size_t bytes_len,
                           uint64_t *answer, size_t answer_len);

/* Reads an index: gives every number behind its edition. Gives the code, which is answer[DUCAT_LOOKUP_CODE] too.
 *
 * bytes, bytes_len      the index, and nothing behind it.
 * numbers, numbers_len  what the words are written to: how many providers, the unknown2 count of each, how many entries, and a
 *                       struct ducat_index_entry for each of them. That needs 2 + the providers + 10 times the entries;
 *                       bytes_len + bytes_len / 9 are always enough. What stands behind the words is kept.
 * answer, answer_len    the DUCAT_INDEX_NUMBERS numbers of the answer. answer[DUCAT_GIVEN] is how many words were written, 0 on a
 *                       refusal.
 *
 * numbers[0] is how many providers there are, numbers[1 + numbers[0]] how many entries, and entry i is reached by memcpy, from
 * numbers + 2 + numbers[0] + DUCAT_INDEX_ENTRY_WORDS * i on. Its provider number isn't held against how many providers there are.
 *
 * In this order: 8 if answer_len isn't DUCAT_INDEX_NUMBERS; then the first fault in the order of the bytes: 15 and 16 at the first
 * byte of a number, 17 at 0, 18 at the first byte behind the last entry; then 9 if numbers_len is too small, with DUCAT_INDEX and
 * numbers_len. However high a count is, no more time is spent on it than on the bytes behind it. */
uint32_t ducat_index_read(const uint8_t *bytes, size_t bytes_len,
                          uint32_t *numbers, size_t numbers_len,
                          uint64_t *answer, size_t answer_len);

#undef DUCAT_STATIC_ASSERT
#undef DUCAT_INLINE
#ifdef __cplusplus
}
#endif

#endif
