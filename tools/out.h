/* A file that is written whole or not at all: until all of it is there it is PATH.part, and then it takes its name. Whoever kills qm leaves the file as it
   was, or whole, and at most a PATH.part, which the next one writes over. */

#ifndef QM_OUT_H
#define QM_OUT_H

#include "qm.h"

struct out {
    const char *command, *path;
    char *part;           /* its name until it is whole */
    int file;
    qm_byte *waiting;     /* bytes that are not written yet, and how many */
    qm_size many;
};

/* Whether there is something of this name. */
int out_exists(const char *path);

/* DONE, or FAILED with the reason said, and then nothing is left to end or to drop. A file that is there is left alone, unless it is to be replaced. */
int out_begin(struct out *o, const char *command, const char *path, int replace);
/* The next bytes. DONE, or FAILED with the reason said: out_drop is still to be called. */
int out_put(struct out *o, const void *bytes, qm_size length);
/* All is there: it takes its name, with `synced` once the disk has it. DONE, or FAILED with the reason said, and then nothing of it stays. */
int out_end(struct out *o, int synced);
/* Nothing of it stays. */
void out_drop(struct out *o);

#endif
