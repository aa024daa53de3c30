/* Which numbers of each sender never came, and which came. */

#ifndef QM_MISSING_H
#define QM_MISSING_H

#include "qm.h"

/* qm gaps --missing LOG, qm gaps --acks SENDER LOG. */
int missing_command(const char *path);
int acks_command(const char *path, qm_u64 sender);

#endif
