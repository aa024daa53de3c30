/* Strays: repeats that are no copies. A camera that reboots begins under old numbers, and its new tiles are then taken for late copies of old ones. */

#ifndef QM_STRAYS_H
#define QM_STRAYS_H

#include "seen.h"
#include "tally.h"

/* Datagrams that begin alike have the same likeness, one of so many. */
enum { LIKENESSES = 1 << 14 };

/* Those of one log, which is gone over twice: the first walk notes the repeats, the second one looks for each among the entries before it. Most copies come soon after
   what they are copies of, and are known at once. Zeros are a beginning; strays_close makes it that again. */
struct strays {
    qm_size last[LIKENESSES];         /* the place of the last entry of a likeness, or 0 */
    unsigned char noted[LIKENESSES];  /* whether a repeat of this likeness is looked for */
    struct seen seen;                 /* the repeats that are */
    struct tally of;                  /* of each sender, how many, and at which entry the first */
};

/* So many senders of a log are told of one by one. */
enum { STRAYS_TOLD = 16 };

/* Notes the entry at hand, and whether it was answered Repeat. Answers whether there was memory. */
int strays_note(struct strays *s, const struct walk *w, int repeated);
/* By a second walk from the log's begin: whether there is one more stray, a repeat whose bytes no earlier entry of its sender has; it is then the entry at hand. */
int strays_next(struct strays *s, struct walk *w);
/* Adds up those of each sender, once the first walk has ended. Answers whether there was memory. */
int strays_add(struct strays *s, const struct walk *first);
/* Says on standard error how many there are of which sender, and the ways on. */
void strays_tell(struct strays *s, const struct walk *w);
void strays_close(struct strays *s);

#endif
