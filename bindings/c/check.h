/* What was tested, and whether all of it was right. */
#ifndef CHECK_H
#define CHECK_H

void check(int right, const char *what);

/* How many checks were wrong. */
int wrong(void);

#endif
