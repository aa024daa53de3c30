/* The time of a flight as it is drawn, in bars: from entry to entry, so that a clock that steps squeezes nothing. A step on that is longer than all but the
   longest together is drawn short, a step back not at all; both are told. The ticks are gone through twice: first they are learnt, then each has its bar. */

#ifndef QM_CLOCK_H
#define QM_CLOCK_H

#include "qm.h"

/* Bars of a flight, and steps of its clock that are told one by one. */
enum { BARS = 120, STEPS = 5 };

/* At an entry, the first being 1, the clock goes on or back. */
struct step {
    qm_u64 entry, by, tick;
    int on;
};

struct clock {
    qm_u64 entries, at, tick;            /* of the log, as far as it is known; how many were met, and the tick of the last */
    qm_u64 *longest;                     /* the longest steps on */
    qm_size many, room;                  /* how many they are now, and how many there is room for */
    qm_u64 least;                        /* one that is not longer is none of them */
    unsigned __int128 sum;               /* of all steps on */
    unsigned __int128 whole, now;        /* all that is drawn, and one more; and how far it is */
    unsigned __int128 usual, wide;       /* all steps on but the longest; and the longest that is drawn as it is */
    struct step steps[STEPS];
    qm_u64 stepped;                      /* of how many the first are told */
};

/* Of a log that has no more than so many entries. Answers whether there was memory. */
int clock_begin(struct clock *c, qm_u64 most);
/* The next entry's tick; behind it there are no more than so many entries. */
void clock_learn(struct clock *c, qm_u64 tick, qm_u64 most);
void clock_learnt(struct clock *c);
/* The bar of the next entry, from 0. */
unsigned clock_bar(struct clock *c, qm_u64 tick);
void clock_close(struct clock *c);

#endif
