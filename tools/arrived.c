/* What arrived of a flight, from whom and when. */

#include "arrived.h"

/* ---- who is in it, and what its clock does */

/* No entry has fewer bytes: sender, tick and length. */
enum { SHORTEST = 3 };

static int is_busier(const struct senders *s, qm_size a, qm_size b) {
    return s->rows[a].times > s->rows[b].times || (s->rows[a].times == s->rows[b].times && a < b);
}

static int by_row(const void *a, const void *b) {
    qm_size x = *(const qm_size *) a, y = *(const qm_size *) b;
    return (x > y) - (x < y);
}

/* The busiest senders have a lane each, by rising number. */
static void choose_lanes(struct arrived *a) {
    for (qm_size row = 0; row < a->senders.used; row++) {
        unsigned at = a->lanes;
        if (at == LANES && !is_busier(&a->senders, row, a->lane[LANES - 1])) continue;
        if (at == LANES) at--;
        else a->lanes++;
        for (; at > 0 && is_busier(&a->senders, row, a->lane[at - 1]); at--) a->lane[at] = a->lane[at - 1];
        a->lane[at] = row;
    }
    qsort(a->lane, a->lanes, sizeof *a->lane, by_row);
}

int arrived_begin(struct arrived *a, const char *path, struct mapped log) {
    struct walk w;
    int good = 1;
    *a = (struct arrived) {0};
    if (!clock_begin(&a->clock, log.length / SHORTEST)) return 0;
    walk_over(&w, "sums", path, log);
    while (good && walk_on(&w)) {
        clock_learn(&a->clock, w.entry[QM_TICK], (log.length - w.next) / SHORTEST);
        good = senders_add(&a->senders, w.entry[QM_SENDER]) != 0;
    }
    if (!good) return 0;
    clock_learnt(&a->clock);
    senders_sort(&a->senders);
    choose_lanes(a);
    return 1;
}

void arrived_close(struct arrived *a) {
    senders_close(&a->senders);
    clock_close(&a->clock);
}

/* ---- one entry */

static unsigned answer_of(const struct received *r) {
    if (r->refusal != 0) return WAS_REFUSED;
    return is_delivered(r) ? WAS_DELIVERED : is_kept(r) ? WAS_KEPT : WAS_REPEATED;
}

/* The row and the lane of the entry's sender, which is often that of the entry before. */
static void find_sender(struct arrived *a, qm_u64 sender) {
    if (a->clock.at > 0 && sender == a->at_sender) return;
    a->at_sender = sender;
    a->at_row = senders_find(&a->senders, sender);
    a->at_lane = 0;
    while (a->at_lane < a->lanes && a->lane[a->at_lane] != a->at_row) a->at_lane++;
}

static struct watched *watched_of(struct arrived *a, qm_u64 sender) {
    unsigned i = 0;
    while (i < a->watched_many && a->watched[i].sender != sender) i++;
    /* the watch has no more senders than there is room for here */
    if (i == a->watched_many && i < QM_WATCH_SENDERS) a->watched[a->watched_many++].sender = sender;
    return &a->watched[i < QM_WATCH_SENDERS ? i : QM_WATCH_SENDERS - 1];
}

static void note_watched(struct arrived *a, qm_u64 sender, unsigned bar, qm_u32 sequence) {
    qm_u64 answer = qm_watch_see(a->watch_senders, QM_WATCH, a->watch_lasts, QM_WATCH_SENDERS, sender, sequence);
    qm_u32 kind = QM_WATCH_KIND(answer);
    qm_u64 times = kind == QM_WATCH_FORWARD ? QM_WATCH_NUMBER(answer) : 1;
    unsigned note = kind == QM_WATCH_FORWARD ? PASSED : kind == QM_WATCH_LATE ? CAME_LATE : RESTARTED;
    if (kind == 0) a->unwatched = 1;
    if (times == 0 || (kind != QM_WATCH_FORWARD && kind != QM_WATCH_LATE && kind != QM_WATCH_RESTARTED)) return;
    watched_of(a, sender)->notes[note] += times;
    a->bars[a->at_lane][bar][note] += times;
}

void arrived_note(struct arrived *a, const struct walk *w, const struct received *r, const qm_u32 *fields) {
    qm_u64 sender = w->entry[QM_SENDER], tick = w->entry[QM_TICK];
    unsigned answer = answer_of(r);
    find_sender(a, sender);
    if (a->clock.at == 0) a->first = tick;
    a->last = tick;
    unsigned bar = clock_bar(&a->clock, tick);
    if (a->at_row < ARRIVED_ROWS) a->rows[a->at_row][answer]++;
    a->bars[a->at_lane][bar][answer]++;
    if (fields) note_watched(a, sender, bar, fields[QM_SEQUENCE]);
}

/* ---- the lines */

static void print_answers(const qm_u64 *times) {
    printf(" delivered %llu kept %llu repeated %llu refused %llu", times[WAS_DELIVERED], times[WAS_KEPT], times[WAS_REPEATED], times[WAS_REFUSED]);
}

static void print_notes(const qm_u64 *times) {
    printf(" passed %llu late %llu restarts %llu\n", times[PASSED], times[CAME_LATE], times[RESTARTED]);
}

static int by_sender(const void *a, const void *b) {
    const struct watched *x = a, *y = b;
    return (x->sender > y->sender) - (x->sender < y->sender);
}

static void print_steps(const struct clock *c) {
    printf("steps %llu\n", c->stepped);
    for (unsigned i = 0; i < STEPS && i < c->stepped; i++)
        printf("step %s %llu entry %llu tick %llu\n", c->steps[i].on ? "on" : "back", c->steps[i].by, c->steps[i].entry, c->steps[i].tick);
}

static void print_bars(const struct arrived *a, unsigned lane) {
    for (unsigned bar = 0; bar < BARS; bar++) {
        const qm_u64 *times = a->bars[lane][bar];
        qm_u64 any = 0;
        for (unsigned i = 0; i < NOTES; i++) any |= times[i];
        if (any == 0) continue;
        printf("bar %u", bar);
        print_answers(times);
        print_notes(times);
    }
}

static void print_lanes(const struct arrived *a) {
    qm_u64 left = a->clock.at;
    for (unsigned i = 0; i < a->lanes; i++) {
        const struct sender_row *row = &a->senders.rows[a->lane[i]];
        printf("lane sender %llu datagrams %llu\n", row->sender, row->times);
        left -= row->times;
        print_bars(a, i);
    }
    if (a->senders.used == a->lanes) return;
    printf("lane others %llu datagrams %llu\n", a->senders.used - a->lanes, left);
    print_bars(a, a->lanes);
}

void arrived_print(struct arrived *a) {
    if (a->clock.at > 0) printf("first %llu last %llu\n", a->first, a->last);
    printf("senders %llu\n", a->senders.used);
    for (qm_size i = 0; i < a->senders.used && i < ARRIVED_ROWS; i++) {
        printf("sender %llu datagrams %llu", a->senders.rows[i].sender, a->senders.rows[i].times);
        print_answers(a->rows[i]);
        printf("\n");
    }
    qsort(a->watched, a->watched_many, sizeof *a->watched, by_sender);
    for (unsigned i = 0; i < a->watched_many; i++) {
        printf("watch sender %llu", a->watched[i].sender);
        print_notes(a->watched[i].notes);
    }
    if (a->unwatched) printf("unwatched\n");
    print_steps(&a->clock);
    print_lanes(a);
}
