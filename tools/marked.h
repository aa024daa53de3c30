/* The pits of a season by their marks, added up as these come: of each its last mark, the places of its marks that lie outermost, and its first marks; and of each
   sender how many pits it marked. */

#ifndef QM_MARKED_H
#define QM_MARKED_H

#include "marks.h"
#include "outline.h"
#include "senders.h"

/* So many marks of a pit are told one by one, and so many senders. */
enum { MARKED_FIRST = 20, MARKED_SENDERS = 100 };

struct marked_pit {
    struct mark last;
    qm_u64 marks;
    qm_u64 senders;           /* how many have marked it */
    qm_size sender;           /* the number of the last of them */
    int sure;                 /* by any mark: known when it was printed */
    qm_size first, latest;    /* of its marks that are kept, the number of the first and of the last among all, from 1 */
    struct outline places;
};

/* One of the first marks of a pit. */
struct first_mark {
    struct place place;
    qm_u64 sender, tick;
    unsigned log;
    int sure, placed;
    qm_size next;             /* the number of the pit's next one, or 0 */
};

/* Zeros are a beginning; marked_close makes it that again. */
struct marked {
    struct marked_pit *pits;
    qm_u32 *slots;            /* by hash: the number of a pit, from 1, or 0 */
    qm_size many, room;
    struct first_mark *marks;
    qm_size kept, marks_room;
    struct senders senders;   /* that have brought marks */
    qm_size sender;           /* the number of the last of them */
    qm_u64 *pairs;            /* by hash: the numbers of a pit and of a sender that has marked it, or 0 */
    qm_size pairs_many, pairs_room;
};

/* One mark more. Answers whether there was memory. */
int marked_note(struct marked *t, const struct mark *m);
/* A line a pit of the counted season, and of each sender that brought lists what it marked. Answers DONE, or FAILED with the reason said. */
int marked_print(struct marked *t, struct senders *lists, char *const *log);
void marked_close(struct marked *t);

#endif
