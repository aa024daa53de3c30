/* What the parts of this test share. */

#ifndef RECEIVER_TEST_H
#define RECEIVER_TEST_H

#include "../reference/reference.h"

/* Counts one thing that must hold, and says what does not. */
void held(int good, const char *what, u64 call);

/* The watch, the log's reader and its index, beside the reference: a run of each from a seed. */
void watch_run(u64 seed);
void log_run(u64 seed);
void index_run(u64 seed);

/* How often a log's head, and a log that was indexed, was answered by each number; how often a key was found, and was not. */
extern u64 heads_met[64], indexes_met[64], keys_found, keys_missed;

#endif
