/* How often each key, a sender and a sequence, was met: a hash table, any number of keys. */

#ifndef QM_KEYS_H
#define QM_KEYS_H

#include "qm.h"

struct keys_row {
    qm_u64 sender;
    qm_u32 sequence, times;   /* of a free row 0 times */
};

struct keys {
    struct keys_row *rows;
    qm_size room, used;       /* room is a power of two */
};

/* Zeros are a table of no keys; keys_close makes it that again. */
void keys_close(struct keys *k);
/* Once more. Answers how often it was met by now, or 0 where there is no memory. */
qm_u32 keys_add(struct keys *k, qm_u64 sender, qm_u32 sequence);

#endif
