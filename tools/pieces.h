/* Pieces of IP datagrams, put together in memory that does not grow: so many datagrams at once, the oldest given up for one more. */

#ifndef QM_PIECES_H
#define QM_PIECES_H

#include "qm.h"

/* Whose piece it is: addresses, the number that its sender gave the datagram, and the edition of IP. */
struct piece_key {
    qm_byte from[16], to[16];
    qm_u64 number;
    unsigned edition;
};

struct piece {
    struct piece_key key;
    qm_u64 tick;
    const qm_byte *bytes;
    qm_size offset, length;
    int is_last;
};

/* Takes a piece. Where it completes its datagram, answers its length and where it lies, until the next call; else 0. Pieces that overlap otherwise than as copies
   give the datagram up. */
qm_size pieces_take(const struct piece *p, const qm_byte **whole);
/* How many pieces were given up, and how many wait. */
qm_u64 pieces_left(void);

#endif
