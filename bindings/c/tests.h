/* The parts of the test. */
#ifndef TESTS_H
#define TESTS_H

void test_areas(void);
void test_entries(void);
void test_reading(void);
void test_items(void);
void test_item_refusals(void);
void test_needs(void);
void test_by_offset(void);
void test_by_key(void);
void test_index_reading(void);
void test_index_writing(void);

#endif
