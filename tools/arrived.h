/* What arrived of a flight, from whom and when: of each of the first senders how its entries were answered; of the busiest a lane of bars over time; and what the
   sequence watch found. */

#ifndef QM_ARRIVED_H
#define QM_ARRIVED_H

#include "clock.h"
#include "receiver.h"
#include "senders.h"

/* So many senders have a row, and so many a lane of their own; the others share the last lane. */
enum { ARRIVED_ROWS = 100, LANES = 16 };

/* How an entry was answered, and what the watch says of its number: so many numbers are missing before it, it came late, its sender restarted. */
enum { WAS_DELIVERED, WAS_KEPT, WAS_REPEATED, WAS_REFUSED, ANSWERS, PASSED = ANSWERS, CAME_LATE, RESTARTED, NOTES };

struct watched {
    qm_u64 sender, notes[NOTES];
};

struct arrived {
    struct senders senders;                    /* of the whole log, rising */
    struct clock clock;
    qm_u64 first, last;                        /* ticks */
    qm_size lane[LANES];                       /* the rows of the busiest, rising */
    unsigned lanes;
    qm_u64 rows[ARRIVED_ROWS][ANSWERS];
    qm_u64 bars[LANES + 1][BARS][NOTES];
    struct watched watched[QM_WATCH_SENDERS];  /* of those of whom there is something to say */
    unsigned watched_many;
    int unwatched;                             /* whether somebody came for whom the watch had no room */
    qm_u64 watch_senders[QM_WATCH];            /* the watch's own */
    qm_u32 watch_lasts[QM_WATCH_SENDERS];
    qm_u64 at_sender;                          /* the sender of the entry before, and its row and lane */
    qm_size at_row;
    unsigned at_lane;
};

/* Goes over the heads of a log's entries, to learn who is in it and what its clock does. Answers whether there was memory; arrived_close takes it in either case. */
int arrived_begin(struct arrived *a, const char *path, struct mapped log);
/* The entry at hand: how it was answered, and what its datagram says, null where it is none. */
void arrived_note(struct arrived *a, const struct walk *w, const struct received *r, const qm_u32 *fields);
void arrived_print(struct arrived *a);
void arrived_close(struct arrived *a);

#endif
