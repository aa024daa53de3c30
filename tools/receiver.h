/* One receiver over slots of the largest payload, for the commands that take entries of a log one by one, within its limits. */

#ifndef QM_RECEIVER_H
#define QM_RECEIVER_H

#include "qm.h"

/* What it said of an entry: the refusal or 0, and then the answer and the name of what was delivered. */
struct received {
    qm_u32 refusal;
    qm_u64 told[QM_OUTCOME];
    qm_byte name[QM_MAX_NAME];
};

/* A fresh one. */
void receiver_open(void);
/* It takes the entry at hand. */
void receiver_take(const struct walk *w, struct received *r);

int is_kept(const struct received *r);
int is_delivered(const struct received *r);

/* Of what was delivered: the payload, until the next call that takes an entry, its length, and its name's. */
const qm_byte *delivered_payload(const struct walk *w, const struct received *r);
qm_size delivered_length(const struct received *r);
qm_size delivered_name_length(const struct received *r);

#endif
