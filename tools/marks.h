/* The marks of a flight, one list after another, as they are read. marks.c alone calls the functions that read messages and their marks. */

#ifndef QM_MARKS_H
#define QM_MARKS_H

#include "receiver.h"

struct mark {
    qm_u64 tile, pit;
    int sure, placed, measured;         /* whether it says so, whether it has a place, and whether it has a depth */
    qm_i64 lat, lon, height, depth;
    qm_u64 sender, sequence, tick;      /* of its list's message, and of the entry that completed it */
    unsigned log;                       /* which of the logs that were named, from 0 */
};

/* A list of marks, and whose it is. */
struct listed {
    qm_u64 tile, sequence;
    qm_size many;
};

/* A flight begins: a fresh receiver. */
void marks_begin(void);
/* It takes the entry at hand. Answers whether that brought a list. */
int marks_take(const struct walk *w, struct listed *l);
/* The same of what the receiver has said of it. */
int marks_read(const struct walk *w, const struct received *r, struct listed *l);
/* The mark number i of the list that the entry at hand brought. */
struct mark mark_of(const struct walk *w, const struct listed *l, qm_size i);

#endif
