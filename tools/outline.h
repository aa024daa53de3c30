/* The outermost of some places: two of them lie furthest apart. */

#ifndef QM_OUTLINE_H
#define QM_OUTLINE_H

#include "qm.h"

/* In ten-millionths of a degree: 32 bits each, as a mark has them. */
struct place {
    int lat, lon;
};

enum { AROUND = 8 };

/* The outermost, and some that lie within. Zeros are none; outline_close makes it that again. */
struct outline {
    struct place *places;
    qm_size many, room;
    struct place around[AROUND];   /* some of them, all where there are no more: most places are known by these */
};

/* One place more. Answers whether there was memory. */
int outline_add(struct outline *o, struct place p);
/* Whether two of them may lie over 50 metres apart: 0 where they do not, wherever on the ground they are. */
int outline_is_wide(const struct outline *o);
/* Now it is the outermost alone. */
void outline_trim(struct outline *o);
void outline_close(struct outline *o);

#endif
