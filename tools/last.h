/* Of each pit of a counted season its last mark, and how many it has: a row for each, in the season's order. */

#ifndef QM_LAST_H
#define QM_LAST_H

#include "marks.h"

struct last_row {
    struct mark mark;
    qm_u64 marks;
};

struct last {
    struct last_row *rows;
    qm_size many;
};

/* DONE, or FAILED with the reason said; last_close takes it in either case. */
int last_open(struct last *t, const char *command);
void last_close(struct last *t);
/* One mark more. Answers whether the season has its pit. */
int last_note(struct last *t, const struct mark *m);

#endif
