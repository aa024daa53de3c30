/* What was met in a log, a row each: senders by their number, channels by their name. A hash table whose key is another in each run, so that nobody can choose
   names that make it slow. */

#ifndef QM_MET_H
#define QM_MET_H

#include "qm.h"

struct met_row {
    const qm_byte *name;              /* of a channel, in the log; null of a sender */
    qm_u64 number;                    /* the sender, or the name's length */
    qm_u64 times, bytes, first, last; /* how often it was counted, with how many bytes, and the ticks of the first and the last time */
    int used;
};

struct met {
    struct met_row *rows;
    qm_size room, used;   /* room is a power of two */
};

/* The row of a sender, or of a channel; a new one where it was not met yet. Null where there is no memory. Valid until the next call. */
struct met_row *met_sender(struct met *m, qm_u64 sender);
struct met_row *met_channel(struct met *m, const qm_byte *name, qm_size length);
/* Once more, at that tick. */
void met_again(struct met_row *row, qm_u64 bytes, qm_u64 tick);
/* The rows at the start of the table, by rising sender or name; after this none is looked up. */
void met_sort(struct met *m);
void met_close(struct met *m);

#endif
