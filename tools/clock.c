/* The time of a flight as it is drawn. */

#include "clock.h"

/* The longest steps on are not taken for the usual: one, one more in a thousand entries, and in a short flight one in eight, up to seven. A step that is drawn short is a
   twentieth of the usual ones together. */
enum { UNUSUAL = 1000, OF_A_SHORT_FLIGHT = 8, MOST_OF_THESE = 7, SHORT = 20, FEW = 3 };

/* How many steps are the longest, of so many entries. */
static qm_size unusual(qm_u64 entries) {
    qm_u64 more = entries / OF_A_SHORT_FLIGHT;
    return 1 + entries / UNUSUAL + (more < MOST_OF_THESE ? more : MOST_OF_THESE);
}

int clock_begin(struct clock *c, qm_u64 most) {
    /* twice as many as may be the longest, so that they are sorted seldom */
    *c = (struct clock) {.entries = most, .room = 2 * unusual(most)};
    c->longest = malloc(c->room * sizeof *c->longest);
    return c->longest != 0;
}

void clock_close(struct clock *c) {
    free(c->longest);
    c->longest = 0;
}

static int by_length(const void *a, const void *b) {
    qm_u64 x = *(const qm_u64 *) a, y = *(const qm_u64 *) b;
    return (x < y) - (x > y);
}

static void keep_longest(struct clock *c) {
    qm_size kept = unusual(c->entries);
    qsort(c->longest, c->many, sizeof *c->longest, by_length);
    if (c->many < kept) return;
    c->many = kept;
    c->least = c->longest[kept - 1];
}

void clock_learn(struct clock *c, qm_u64 tick, qm_u64 most) {
    qm_u64 on = c->at++ > 0 && tick > c->tick ? tick - c->tick : 0;
    c->tick = tick;
    c->sum += on;
    if (c->at + most < c->entries) c->entries = c->at + most;
    if (on <= c->least) return;
    c->longest[c->many++] = on;
    if (c->many == c->room || c->many >= 2 * unusual(c->entries)) keep_longest(c);
}

static unsigned __int128 shortened(const struct clock *c) {
    return c->usual < SHORT ? 1 : c->usual / SHORT;
}

void clock_learnt(struct clock *c) {
    c->entries = c->at;
    keep_longest(c);
    c->usual = c->whole = c->sum;
    for (qm_size i = 0; i < c->many; i++) c->usual -= c->longest[i];
    if (c->usual == 0) c->usual = 1;
    c->wide = c->entries > FEW ? c->usual : ~(unsigned __int128) 0;
    /* a step that is longer than the usual ones together is none of them */
    for (qm_size i = 0; i < c->many; i++)
        if (c->longest[i] > c->wide) c->whole += shortened(c) - c->longest[i];
    c->whole++;
    c->at = 0;
}

static void note_step(struct clock *c, struct step step) {
    if (c->stepped < STEPS) c->steps[c->stepped] = step;
    c->stepped++;
}

unsigned clock_bar(struct clock *c, qm_u64 tick) {
    qm_u64 before = c->at++ > 0 ? c->tick : tick;
    c->tick = tick;
    if (tick > before) {
        c->now += tick - before > c->wide ? shortened(c) : tick - before;
        if (tick - before > c->wide) note_step(c, (struct step) {c->at, tick - before, tick, 1});
    } else if (before - tick > shortened(c)) {
        note_step(c, (struct step) {c->at, before - tick, tick, 0});
    }
    return (unsigned) (c->now * BARS / c->whole);
}
