/* Lists to look templates up in, filled by hand. */
#ifndef LISTS_H
#define LISTS_H

#include "ducatfeather.h"

/* How many entries each list has room for. */
enum { ROOM = 4 };

/* What a lookup takes. A test may change the lengths; there is one capacity and one count more than there should be. */
struct lists {
    uint32_t *words;
    size_t words_len;
    uint32_t capacities[DUCAT_AREAS + 1];
    size_t capacities_len;
    uint32_t counts[DUCAT_AREAS + 1];
    size_t counts_len;
};

struct lists new_lists(void);
void free_lists(struct lists *l);

/* Two providers, of GUIDs 5 and 6; the first has both a second EVNT and a second TTBL. The lengths are right. */
void fill_lists(struct lists *l);

void put_provider(struct lists *l, uint32_t number, struct ducat_guid guid);
void put_table(struct lists *l, uint32_t number, uint32_t provider, uint32_t kind, uint32_t first, uint32_t count);
void put_event(struct lists *l, uint32_t number, uint32_t identifier, uint32_t template_offset);
void put_template(struct lists *l, uint32_t number, uint32_t provider, uint32_t offset, uint32_t guid);
void set_count(struct lists *l, uint32_t list, uint32_t count);

/* The GUID that stands for a number. */
struct ducat_guid guid_of(uint32_t number);

#endif
