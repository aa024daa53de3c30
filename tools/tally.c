/* How often something was of each sender. */

#include "tally.h"

enum { FIRST_ROOM = 64 };

static int by_sender(const void *a, const void *b) {
    const struct tally_row *x = a, *y = b;
    if (x->sender != y->sender) return x->sender < y->sender ? -1 : 1;
    return (x->first > y->first) - (x->first < y->first);
}

void tally_sort(struct tally *t) {
    qm_size rows = 0;
    if (t->used > 0) qsort(t->rows, t->used, sizeof *t->rows, by_sender);
    for (qm_size i = 0; i < t->used; i++) {
        if (rows > 0 && t->rows[rows - 1].sender == t->rows[i].sender) t->rows[rows - 1].times += t->rows[i].times;
        else t->rows[rows++] = t->rows[i];
    }
    t->used = rows;
}

/* One row a sender makes room, or there are many senders. */
static int make_room(struct tally *t) {
    tally_sort(t);
    if (2 * t->used < t->room) return 1;
    qm_size room = t->room ? 2 * t->room : FIRST_ROOM;
    struct tally_row *rows = realloc(t->rows, room * sizeof *rows);
    if (!rows) return 0;
    t->rows = rows;
    t->room = room;
    return 1;
}

int tally_add(struct tally *t, qm_u64 sender, qm_u64 entry) {
    if (t->used > 0 && t->rows[t->used - 1].sender == sender) {
        t->rows[t->used - 1].times++;
        return 1;
    }
    if (t->used == t->room && !make_room(t)) return 0;
    t->rows[t->used++] = (struct tally_row) {sender, entry, 1};
    return 1;
}

void tally_close(struct tally *t) {
    free(t->rows);
    *t = (struct tally) {0};
}
