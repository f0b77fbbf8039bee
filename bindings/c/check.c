#include "check.h"

#include <stdio.h>

static int failed;

void check(int right, const char *what) {
    if (!right) {
        failed++;
        printf("wrong: %s\n", what);
    }
}

int wrong(void) {
    return failed;
}
