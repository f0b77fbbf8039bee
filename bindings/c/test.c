/* Calls the library, from C or from C++. Its argument, if there is one, is how that is told. */
#include "check.h"
#include "tests.h"

#include <stdio.h>

int main(int count, char **arguments) {
    test_areas();
    test_entries();
    test_reading();
    test_items();
    test_item_refusals();
    test_needs();
    test_by_offset();
    test_by_key();
    test_index_reading();
    test_index_writing();
    if (wrong() == 0)
        printf("from %s: all is right\n", count > 1 ? arguments[1] : "C");
    return wrong() != 0;
}
