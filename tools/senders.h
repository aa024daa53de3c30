/* The senders of a log, or of all lists: a row each, and how often each came. */

#ifndef QM_SENDERS_H
#define QM_SENDERS_H

#include "qm.h"

struct sender_row {
    qm_u64 sender, times;
};

/* Zeros are nobody; senders_close makes it that again. */
struct senders {
    struct sender_row *rows;   /* in the order of their first coming, until they are sorted */
    qm_u32 *slots;             /* by hash: the number of a row, from 1, or 0 */
    qm_size used, room;        /* rows, and slots, a power of two */
};

/* Once more. Answers the number of the sender's row, from 1, or 0 where there is no memory. */
qm_size senders_add(struct senders *s, qm_u64 sender);
/* The number of a sender's row, from 1, or 0 where it did not come. */
qm_size senders_number(const struct senders *s, qm_u64 sender);
/* By rising sender; after this none is added. */
void senders_sort(struct senders *s);
/* The number of a sender's row, from 0, among those that are sorted. It is one of them. */
qm_size senders_find(const struct senders *s, qm_u64 sender);
void senders_close(struct senders *s);

#endif
