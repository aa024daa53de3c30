/* qm sums LOG..: what a page shows of a flight or of a season: what arrived from whom and when, what never completed, what was refused, and the pits by their
   marks, added up in one walk over each log, with the count beside it. tools/flight-page draws it. */

#include "arrived.h"
#include "counter.h"
#include "flights.h"
#include "marked.h"
#include "marks.h"
#include "strays.h"
#include "unfinished.h"

/* Of one flight. */
struct flight {
    struct arrived arrived;
    struct unfinished unfinished;
    struct strays strays;
    qm_u64 refused[QM_REFUSALS];
};

/* Of all. */
struct summed {
    struct counter counter;
    qm_u32 refusal;          /* 60 or 61 where the count ended early: no pit is told then */
    int status;              /* DONE, or REFUSED where a log is not whole or the count ended early */
    struct senders lists;    /* how many each sender brought */
    struct marked marked;
};

/* ---- one entry */

/* The marks of its list. They are the pits that are counted: with more of them than a season has room for, no pit is told. Answers whether there was memory. */
static int note_marks(struct summed *s, const struct walk *w, const struct received *r, unsigned log) {
    struct listed l;
    if (s->refusal != 0 || s->marked.many > SEASON_PITS || !marks_read(w, r, &l)) return 1;
    int good = senders_add(&s->lists, w->entry[QM_SENDER]) != 0;
    for (qm_size i = 0; good && i < l.many; i++) {
        struct mark m = mark_of(w, &l, i);
        m.log = log;
        good = marked_note(&s->marked, &m);
    }
    return good;
}

/* Answers whether there was memory. */
static int note(struct summed *s, struct flight *f, const struct walk *w, unsigned log) {
    struct received r;
    qm_u32 fields[QM_FIELDS];
    receiver_take(w, &r);
    int said = qm_read_datagram(walk_datagram(w), w->entry[QM_ENTRY_LENGTH], fields, QM_FIELDS) == 0;
    arrived_note(&f->arrived, w, &r, said ? fields : 0);
    if (r.refusal != 0) f->refused[r.refusal < QM_REFUSALS ? r.refusal : 0]++;
    else if (fields[QM_KIND] != 1 && (is_kept(&r) || is_delivered(&r))) unfinished_note(&f->unfinished, w, &r, fields);
    return strays_note(&f->strays, w, r.refusal == 0 && !is_kept(&r) && !is_delivered(&r)) && note_marks(s, w, &r, log);
}

/* ---- the lines of a flight */

static void print_strays(struct strays *s) {
    tally_sort(&s->of);
    printf("strays %llu\n", s->of.used);
    for (qm_size i = 0; i < s->of.used && i < STRAYS_TOLD; i++)
        printf("stray sender %llu times %llu entry %llu\n", s->of.rows[i].sender, s->of.rows[i].times, s->of.rows[i].first);
}

static void print_flight(struct flight *f, const struct walk *w) {
    printf("log %s\n", w->path);
    if (w->refusal == 0) printf("end %llu\n", w->entries);
    else printf("refused %u after %llu\n", w->refusal, w->entries);
    arrived_print(&f->arrived);
    unfinished_print(&f->unfinished);
    print_strays(&f->strays);
    for (qm_u32 n = 0; n < QM_REFUSALS; n++)
        if (f->refused[n] > 0) printf("refused %u datagrams %llu\n", n, f->refused[n]);
}

/* ---- flight by flight */

/* All that is said of a flight, once it was gone over. Answers DONE, or FAILED with the reason said. */
static int tell_flight(struct summed *s, struct flight *f, const struct walk *w, unsigned log) {
    struct count_ended count = {0};
    if (s->refusal == 0 && counter_flight(&s->counter, log, &count) != DONE) return FAILED;
    if (count.refusal != 0) {
        s->refusal = count.refusal;
        s->status = tell_full(w, count.refusal, count.entries);
    }
    if (logs_ended(w, "shown") != DONE) s->status = REFUSED;
    print_flight(f, w);
    /* how far the next one is read may go to the same terminal */
    fflush(stdout);
    return DONE;
}

static int sum_flight(struct summed *s, struct flight *f, const struct logs *logs, unsigned i) {
    struct walk w;
    *f = (struct flight) {0};
    int good = arrived_begin(&f->arrived, logs->path[i], logs->mapped[i]);
    walk_over(&w, "sums", logs->path[i], logs->mapped[i]);
    marks_begin();
    while (good && walk_on(&w)) good = note(s, f, &w, i);
    good = good && strays_add(&f->strays, &w);
    int status = good ? tell_flight(s, f, &w, i) : failed("sums", logs->path[i]);
    arrived_close(&f->arrived);
    strays_close(&f->strays);
    return status;
}

static int sum_all(struct summed *s, const struct logs *logs) {
    static struct flight flight;
    counter_begin(&s->counter, logs);
    for (unsigned i = 0; i < logs->many; i++)
        if (sum_flight(s, &flight, logs, i) != DONE) return FAILED;
    if (s->refusal == 0 && counter_end(&s->counter) != DONE) return FAILED;
    printf("season\n");
    int status = DONE;
    if (s->refusal != 0) {
        printf("refused %u\n", s->refusal);
    } else {
        totals_print(&s->counter.totals);
        season_print();
        status = marked_print(&s->marked, &s->lists, logs->path);
    }
    return status == DONE && printed("sums") == DONE ? s->status : FAILED;
}

int sums_command(int words, char **word) {
    static struct summed s;
    struct logs logs;
    if (words == 0) return called_wrong("sums", "LOG", "no log is named");
    for (int i = 0; i < words; i++)
        if (is_option(word[i])) return called_wrong("sums", word[i], "there is no such option");
    int status = logs_open(&logs, "sums", word, (unsigned) words);
    if (status == DONE) status = sum_all(&s, &logs);
    counter_close(&s.counter);
    senders_close(&s.lists);
    marked_close(&s.marked);
    logs_close(&logs);
    return status;
}
