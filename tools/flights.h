/* The flights of a season counted one after another, as `qm count` and `qm pits` do, and what is said of them on standard error. */

#ifndef QM_FLIGHTS_H
#define QM_FLIGHTS_H

#include "season.h"
#include "tally.h"
#include "logs.h"
#include "from.h"

/* A sender is forgotten right before an entry. */
struct forget {
    const char *given;
    qm_u64 sender, entry;
};

/* How they are counted. */
struct counting {
    const char *command;
    struct from from;
    struct forget *forgets;
    unsigned forget_many;
};

/* What was counted so far. Zeros are a beginning; counted_close makes it that again. */
struct counted {
    struct totals totals;
    struct tally lists;    /* how many each sender brought */
    qm_u32 refusal;        /* 13, 60 or 61 where the count ended early */
    int status;            /* DONE, or REFUSED where a log is not whole or the count ended early */
};

/* Says on standard error that what is lent is full: the count ends at this entry. Answers REFUSED. */
int tell_full(const struct walk *w, qm_u32 refusal, qm_u64 entry);

/* All flights, up to a refusal of what is lent. Answers DONE, or FAILED with the reason said. */
int count_flights(const struct counting *how, const struct logs *logs, struct counted *c);
/* The lines of a count: its first ones, and all; with `senders` also how many lists each brought. */
void totals_print(const struct totals *t);
void counted_print(struct counted *c, int senders);
void counted_close(struct counted *c);

#endif
