/* How often something was of each sender, and at which entry first: any number of senders. */

#ifndef QM_TALLY_H
#define QM_TALLY_H

#include "qm.h"

struct tally_row {
    qm_u64 sender, first, times;
};

struct tally {
    struct tally_row *rows;
    qm_size room, used;
};

/* Zeros are a tally of nothing; tally_close makes it that again. */
void tally_close(struct tally *t);
/* Once more, at this entry. Answers whether there was memory. */
int tally_add(struct tally *t, qm_u64 sender, qm_u64 entry);
/* A row a sender, by rising sender. */
void tally_sort(struct tally *t);

#endif
