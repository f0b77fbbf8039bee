/* A block with entries in every list. */
#ifndef FULL_H
#define FULL_H

#include "blocks.h"

/* One provider with a table of every kind. Each list has as many entries as full_count says, no two lists equally many. */
struct block block_full(void);
uint32_t full_count(uint32_t list);

/* Most entries have a word that tells them from all others: in list 6 the entries' marks are 600, 601 and so on. */
uint32_t mark(uint32_t list, uint32_t number);

/* The place of the one name, which has one unit; a CHAN and a VMAP have it. */
enum { FULL_NAME = 180 };

#endif
