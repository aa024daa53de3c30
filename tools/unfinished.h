/* Messages that never completed: those that were given up for another, and those that are open at the end. */

#ifndef QM_UNFINISHED_H
#define QM_UNFINISHED_H

#include "receiver.h"

/* So many are told one by one, and so many stretches of missing fragments of each. */
enum { UNFINISHED_ROWS = 100, UNFINISHED_STRETCHES = 8 };

/* A message of which not all fragments came yet. */
struct open_message {
    qm_u64 sender, first, last;   /* ticks of its first and its last fragment */
    qm_u32 sequence, fragments, kept;
    qm_u64 held[QM_MAX_FRAGMENTS / 64];
};

/* Zeros are a beginning. */
struct unfinished {
    struct open_message open[QM_SLOTS];   /* as many as the receiver has slots for */
    unsigned many;
    struct open_message lost[UNFINISHED_ROWS];
    qm_u64 lost_many, given_up;
};

/* The fragment of the entry at hand was kept, or has completed its message. */
void unfinished_note(struct unfinished *u, const struct walk *w, const struct received *r, const qm_u32 *fields);
/* The log has ended: a line for each of the first. */
void unfinished_print(struct unfinished *u);

#endif
