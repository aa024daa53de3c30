/* Datagrams of a log that are looked for among the entries before them, so that a repeat is told apart from a copy: a hash table over sender and bytes. Equal hashes
   are compared byte by byte in the log, so that what is answered does not depend on the hash; its key is another in each run, so that nobody can choose datagrams
   that make it slow. */

#ifndef QM_SEEN_H
#define QM_SEEN_H

#include "qm.h"

struct seen_row {
    qm_u64 hash;
    qm_size place;   /* of the entry in the log; no entry is at 0, which says that the row is free */
};

/* Powers of the key that the hash goes by. */
enum { POWERS = 4 };

struct seen {
    struct seen_row *rows;
    qm_size room, used;   /* room is a power of two */
    qm_size open;         /* rows of which it is not known yet whether they were seen before */
    qm_u64 power[POWERS]; /* of the key, the first being the key itself */
};

/* The hash of a message's key, by the key of the run. */
qm_u64 hash_of_message(qm_u64 sender, qm_u32 sequence);
/* The hash of a number, by the same. */
qm_u64 hash_of_number(qm_u64 n);

/* Zeros are a table without rows; seen_close makes it that again. */
void seen_close(struct seen *s);
/* The datagram of the entry at hand is to be looked for; where one of its sender with its bytes is so already, that one alone. Answers whether there was memory. */
int seen_note(struct seen *s, const struct walk *w);
/* Looks at the entry at hand, from the first entry on. Answers whether its datagram was to be looked for, and no entry before it has its sender and bytes. */
int seen_look(struct seen *s, const struct walk *w);

/* Whether the entry at a place has sender and bytes of the one at hand. */
int is_copy(const struct walk *w, qm_size place);

/* A hash of a few bytes, by the key of the run. */
qm_u64 hash_of_bytes(const qm_byte *bytes, qm_size length);

#endif
