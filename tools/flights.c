/* The flights of a season counted one after another. */

#include "flights.h"
#include "strays.h"

static void forget_before(const struct counting *how, qm_u64 entry) {
    for (unsigned i = 0; i < how->forget_many; i++)
        if (how->forgets[i].entry == entry) flight_forget(how->forgets[i].sender);
}

static void tell_forgets(const struct counting *how, const struct walk *w) {
    for (unsigned i = 0; i < how->forget_many; i++)
        if (how->forgets[i].entry > w->entries)
            fprintf(stderr, "qm %s: %s: --forget-at %s: nothing was forgotten, since %llu entries were read\n", w->command, w->path, how->forgets[i].given, w->entries);
}

/* The entry at hand, and whether it was answered Repeat. Answers whether there was memory; a refusal of what is lent ends the count. */
static int count_entry(struct counted *c, const struct walk *w, int *repeated) {
    struct totals told;
    c->refusal = flight_take(w, &told);
    totals_add(&c->totals, &told);
    *repeated = told.repeated > 0;
    return told.lists == 0 || tally_add(&c->lists, w->entry[QM_SENDER], w->entries);
}

int tell_full(const struct walk *w, qm_u32 refusal, qm_u64 entry) {
    worked(w->shown > 0);
    fprintf(stderr, "qm %s: %s: refused %u at entry %llu: a season has room for %d tiles and %d pits\n", w->command, w->path, refusal, entry, SEASON_TILES, SEASON_PITS);
    return REFUSED;
}

/* One flight. Answers DONE, or FAILED with the reason said. */
static int count_flight(const struct counting *how, struct counted *c, const char *path, struct mapped log) {
    static struct strays strays;
    struct walk w;
    int good = 1, repeated;
    walk_over(&w, how->command, path, log);
    flight_begin();
    while (good && c->refusal == 0 && walk_on(&w)) {
        forget_before(how, w.entries);
        if (from_has(&how->from, w.entry[QM_SENDER])) good = count_entry(c, &w, &repeated) && strays_note(&strays, &w, repeated);
    }
    good = good && strays_add(&strays, &w);
    if (good) {
        if (c->refusal != 0) c->status = tell_full(&w, c->refusal, w.entries);
        else if (logs_ended(&w, "counted") != DONE) c->status = REFUSED;
        tell_forgets(how, &w);
        strays_tell(&strays, &w);
    }
    strays_close(&strays);
    return good ? DONE : failed(how->command, path);
}

int count_flights(const struct counting *how, const struct logs *logs, struct counted *c) {
    for (unsigned i = 0; c->refusal == 0 && i < logs->many; i++)
        if (count_flight(how, c, logs->path[i], logs->mapped[i]) != DONE) return FAILED;
    return DONE;
}

void totals_print(const struct totals *t) {
    printf("entries %llu\nkept %llu\nrepeated %llu\ndelivered %llu\n", t->entries, t->kept, t->repeated, t->delivered);
    for (unsigned n = 0; n < QM_REFUSALS; n++)
        if (t->refused[n] > 0) printf("refused %u %llu\n", n, t->refused[n]);
    printf("lists %llu\n", t->lists);
}

void counted_print(struct counted *c, int senders) {
    totals_print(&c->totals);
    tally_sort(&c->lists);
    for (qm_size i = 0; senders && i < c->lists.used; i++) printf("sender %llu lists %llu\n", c->lists.rows[i].sender, c->lists.rows[i].times);
    season_print();
}

void counted_close(struct counted *c) {
    tally_close(&c->lists);
    *c = (struct counted) {0};
}
