/* What the tests of the exports count and say. */

#ifndef TESTS_H
#define TESTS_H

#include "../reference/reference.h"

extern u64 passed, failed;

/* The function that is being called, for a fault. */
extern const char *doing;

/* Says why where it is not good. Answers what it is given. */
int told(int good, const char *what, const char *why);

/* One test more. */
void count(int good);

/* The count of a log, on so many small worlds and at its limits. */
void counts(int times);

#endif
