/* --from SENDER: the senders whose entries are taken; those of all others are passed over as if they were not in the log. */

#ifndef QM_FROM_H
#define QM_FROM_H

#include "qm.h"

/* Without a sender it is everybody. The caller lends room for as many as it takes. */
struct from {
    qm_u64 *sender;
    unsigned many;
};

/* Takes the word behind --from. Answers DONE, or USAGE with the reason said. */
int from_take(struct from *f, const char *command, const char *word);
int from_has(const struct from *f, qm_u64 sender);

#endif
