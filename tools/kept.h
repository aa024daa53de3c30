/* A log on disk that entries are put to: held alone, mended where its writing was cut off, and written at its end only. */

#ifndef QM_KEPT_H
#define QM_KEPT_H

#include "qm.h"

struct kept {
    const char *command, *path;
    int file;
    int synced;        /* the disk is asked too, and the folder of a log that is begun */
    int repaired;      /* whatever is refused in it is put aside, and it goes on before that */
    qm_size place;     /* after the last whole entry */
    qm_u64 entries;    /* how many stand before it */
    qm_u64 limit;      /* the largest payload of its fragmented messages */
};

/* The most bytes that one entry can have. */
enum { KEPT_ENTRY = 65535 + 30 };

/* How a log is opened: the one that is there or a new one, or a new one alone. */
enum { KEPT_ANY, KEPT_NEW };

/* What kept_open answers, with nothing said, where a new one is asked for and a file of that name is there. */
enum { KEPT_TAKEN = -1 };

/* Opens the log of k's path, begins it where it has no byte, and finds where it goes on. DONE, or the status with the reason said; kept_close takes it in
   any case. A new log that could not be begun is not left behind. */
int kept_open(struct kept *k, int how);
void kept_close(struct kept *k);

/* Writes an entry to `entry`, of KEPT_ENTRY bytes, as it will stand. Answers its length, or 0 with the refusal said. */
qm_size kept_entry(const struct kept *k, qm_byte *entry, qm_u64 sender, qm_u64 tick, const qm_byte *datagram, qm_size length);
/* Puts it at the log's end. Where its bytes do not all go out, the disk being full, none stays: FAILED, and `why` is the system's reason. */
int kept_put(struct kept *k, const qm_byte *entry, qm_size length, const char **why);
/* Asks the disk for all that was put. DONE, or FAILED with the reason said. */
int kept_sync(struct kept *k);

#endif
