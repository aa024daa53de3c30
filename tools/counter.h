/* The count of all flights beside another walk over them: in a process of its own where the system gives one, so that on two processors both are done at once;
   else in this one, flight by flight. */

#ifndef QM_COUNTER_H
#define QM_COUNTER_H

#include "logs.h"
#include "season.h"

/* How the count of a flight ended: by which refusal of what is lent, or 0, and after how many entries. */
struct count_ended {
    qm_u32 refusal;
    qm_u64 entries;
};

struct counter {
    const struct logs *logs;
    struct totals totals;   /* of all flights, once the count has ended */
    int process;            /* the one that counts, or 0 */
    FILE *told;             /* what it tells, or null */
};

/* From here on all logs are counted; counter_close takes it in any case. */
void counter_begin(struct counter *c, const struct logs *logs);
/* The count of the next flight, from the first on; after a refusal there is none. Answers DONE, or FAILED with the reason said. */
int counter_flight(struct counter *c, unsigned log, struct count_ended *ended);
/* After the last flight: totals and season are those of all. Answers DONE, or FAILED with the reason said. */
int counter_end(struct counter *c);
void counter_close(struct counter *c);

#endif
