/* The index of a log, in memory, and the file LOG.index that keeps it beside the log. */

#ifndef QM_INDEX_TOOL_H
#define QM_INDEX_TOOL_H

#include "qm.h"

/* Zeros are the index of no bytes; index_close makes it that again. */
struct index {
    qm_u64 *rows;         /* QM_ROW numbers each */
    qm_size many, room;   /* rows, and those that there is memory for */
    qm_size covered;      /* how many bytes of the log they are of: whole entries */
};
void index_close(struct index *ix);

/* The name of the index of a log; whoever asks frees it. 0 with the reason said where there is no memory. */
char *index_name(const char *command, const char *path);

/* Maps the index file of a log, and reads its head to `head`. Answers whether there is one that can be believed so far; of one that cannot the reason is said. */
int index_map(const char *command, const char *name, struct mapped *file, qm_u64 *head);
/* Says that an index file is refused, and is not believed. */
void index_doubted(const char *command, const char *name, qm_u32 refusal);

/* Adds the rows of all whole entries behind those that are covered. The walk tells how far the log is whole. DONE, REFUSED by 44, or FAILED, with the reason said. */
int index_extend(struct index *ix, struct walk *w, const char *command, const char *path, struct mapped log);

/* Of a walk that began anywhere: says what was refused, and where. Answers REFUSED; or DONE where it came to the log's end. */
int index_ended(const struct walk *w, const char *done);

/* Writes or extends the index file of a log, and says `indexed N`. */
int index_log(const char *command, const char *path);

#endif
