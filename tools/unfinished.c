/* Messages that never completed. */

#include "unfinished.h"

static void lose(struct unfinished *u, const struct open_message *m) {
    if (u->lost_many < UNFINISHED_ROWS) u->lost[u->lost_many] = *m;
    u->lost_many++;
}

/* The number of an open message; how many there are where it is none of them. */
static unsigned find(const struct unfinished *u, qm_u64 sender, qm_u64 sequence) {
    unsigned i = 0;
    while (i < u->many && (u->open[i].sender != sender || u->open[i].sequence != sequence)) i++;
    return i;
}

static void take_out(struct unfinished *u, unsigned i) {
    if (i < u->many) u->open[i] = u->open[--u->many];
}

void unfinished_note(struct unfinished *u, const struct walk *w, const struct received *r, const qm_u32 *fields) {
    qm_u64 sender = w->entry[QM_SENDER], tick = w->entry[QM_TICK];
    if (r->told[QM_EMPTIED]) {
        unsigned was = find(u, r->told[QM_EMPTIED_SENDER], r->told[QM_EMPTIED_SEQUENCE]);
        if (was < u->many) lose(u, &u->open[was]);
        take_out(u, was);
        u->given_up++;
    }
    unsigned i = find(u, sender, fields[QM_SEQUENCE]);
    if (is_delivered(r)) {
        take_out(u, i);
        return;
    }
    /* the receiver has no more slots than there is room for here */
    if (i == u->many && u->many < QM_SLOTS)
        u->open[u->many++] = (struct open_message) {.sender = sender, .first = tick, .sequence = fields[QM_SEQUENCE], .fragments = fields[QM_COUNT]};
    if (i == u->many || fields[QM_NUMBER] >= QM_MAX_FRAGMENTS) return;
    u->open[i].held[fields[QM_NUMBER] / 64] |= 1ull << fields[QM_NUMBER] % 64;
    u->open[i].kept++;
    u->open[i].last = tick;
}

/* ---- the lines */

static int is_missing(const struct open_message *m, qm_u32 k) {
    return k < m->fragments && !(m->held[k / 64] >> k % 64 & 1);
}

/* `1, 3 to 5 and 2 more` */
static void print_missing(const struct open_message *m) {
    unsigned told = 0;
    qm_u32 more = 0;
    for (qm_u32 k = 0, last; k < m->fragments; k = last + 1) {
        last = k;
        if (!is_missing(m, k)) continue;
        while (is_missing(m, last + 1)) last++;
        if (told == UNFINISHED_STRETCHES) {
            more += last - k + 1;
            continue;
        }
        printf("%s%u", told++ > 0 ? ", " : " ", k);
        if (last > k) printf(" to %u", last);
    }
    if (more > 0) printf(" and %u more", more);
}

static int by_begin(const void *a, const void *b) {
    const struct open_message *x = a, *y = b;
    if (x->first != y->first) return x->first < y->first ? -1 : 1;
    if (x->sender != y->sender) return x->sender < y->sender ? -1 : 1;
    return (x->sequence > y->sequence) - (x->sequence < y->sequence);
}

void unfinished_print(struct unfinished *u) {
    qsort(u->open, u->many, sizeof *u->open, by_begin);
    for (unsigned i = 0; i < u->many; i++) lose(u, &u->open[i]);
    u->many = 0;
    printf("incomplete %llu given-up %llu\n", u->lost_many, u->given_up);
    for (qm_u64 i = 0; i < u->lost_many && i < UNFINISHED_ROWS; i++) {
        const struct open_message *m = &u->lost[i];
        printf("incomplete sender %llu sequence %u kept %u of %u first %llu last %llu missing", m->sender, m->sequence, m->kept, m->fragments, m->first, m->last);
        print_missing(m);
        printf("\n");
    }
}
