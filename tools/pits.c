/* qm pits LOG..: the pits of a season one by one, with the place that their last mark gives. The pits are those that `qm count` counts: it is counted first, by
   the same functions, and then the lists are read once more for their marks. So a season that is refused prints nothing but that. */

#include "flights.h"
#include "forms.h"
#include "last.h"

struct asked {
    int marks;                 /* every mark, and not every pit */
    const struct form *form;
    const char *chosen;        /* the option that chose it */
    struct counting how;
    char **log;
    unsigned logs;
};

/* ---- the command line */

static int choose(struct asked *a, const char *option, const struct form *form) {
    if (a->chosen && strcmp(a->chosen, option) != 0) return called_wrong("pits", option, "only one of --marks, --csv and --geojson");
    a->chosen = option;
    a->form = form;
    return DONE;
}

/* One option, and the word that it takes. Answers DONE or USAGE, and the words that are taken are counted in `at`. */
static int read_option(struct asked *a, int words, char **word, int *at) {
    const char *option = word[(*at)++];
    if (strcmp(option, "--from") == 0) {
        if (*at == words) return called_wrong("pits", option, "the sender is missing");
        return from_take(&a->how.from, "pits", word[(*at)++]);
    }
    if (strcmp(option, "--csv") == 0) return choose(a, option, &as_table);
    if (strcmp(option, "--geojson") == 0) return choose(a, option, &as_map);
    if (strcmp(option, "--marks") != 0) return called_wrong("pits", option, "there is no such option");
    a->marks = 1;
    return choose(a, option, &as_lines);
}

static int read_words(struct asked *a, int words, char **word) {
    int at = 0;
    while (at < words && is_option(word[at]))
        if (read_option(a, words, word, &at) != DONE) return USAGE;
    if (logs_named("pits", words - at, word + at) != DONE) return USAGE;
    a->log = word + at;
    a->logs = (unsigned) (words - at);
    return DONE;
}

/* ---- the marks */

/* The list that the entry at hand brought: its marks are printed, or noted for their pits. Answers whether these were counted. */
static int take_list(const struct asked *a, struct last *last, const struct walk *w, const struct listed *l, unsigned log) {
    for (qm_size i = 0; i < l->many; i++) {
        struct mark m = mark_of(w, l, i);
        m.log = log;
        if (a->marks) a->form->pit(&m, 0, w->path);
        else if (!last_note(last, &m)) return 0;
    }
    return 1;
}

/* The marks of one flight, as far as its log was counted. */
static int take_flight(const struct asked *a, struct last *last, const struct logs *logs, unsigned i) {
    struct walk w;
    struct listed l;
    int good = 1;
    walk_over(&w, "pits", logs->path[i], logs->mapped[i]);
    if (a->marks) walk_prints(&w);
    marks_begin();
    while (good && walk_on(&w))
        if (from_has(&a->how.from, w.entry[QM_SENDER]) && marks_take(&w, &l)) good = take_list(a, last, &w, &l, i);
    return good;
}

/* ---- the pits */

/* What was counted and what is read are of the same lists, so that this does not come. */
static int differs(void) {
    fprintf(stderr, "qm pits: the logs were changed while they were read\n");
    return FAILED;
}

/* A pit by its last mark; sure where any mark says so. Answers whether the mark is of this pit. */
static int print_pit(const struct asked *a, const struct last_row *row, const struct season_tile *t, qm_size i) {
    struct mark m = row->mark;
    m.sure = t->sure[i] != 0;
    a->form->pit(&m, row->marks, a->log[m.log]);
    return m.tile == t->tile && m.pit == t->pit[i] && row->marks > 0;
}

static int print_pits(const struct asked *a, const struct last *last) {
    struct season_tile t = {0};
    int good = 1;
    a->form->begin();
    while (good && season_next(&t))
        for (qm_size i = 0; good && i < t.many; i++) good = print_pit(a, &last->rows[t.first + i], &t, i);
    a->form->end();
    return good ? DONE : differs();
}

static int print_marks(const struct asked *a, const struct logs *logs, struct last *last) {
    for (unsigned i = 0; i < logs->many; i++)
        if (!take_flight(a, last, logs, i)) return differs();
    return a->marks ? DONE : print_pits(a, last);
}

static int pits_of(const struct asked *a, const struct logs *logs, struct counted *c) {
    struct last last;
    if (count_flights(&a->how, logs, c) != DONE) return FAILED;
    int status = last_open(&last, "pits");
    if (status == DONE && c->refusal != 0) printf("refused %u\n", c->refusal);
    else if (status == DONE) status = print_marks(a, logs, &last);
    last_close(&last);
    if (status != DONE || printed("pits") != DONE) return FAILED;
    return c->status;
}

static int pits_of_logs(const struct asked *a) {
    struct counted c = {0};
    struct logs logs;
    int status = logs_open(&logs, "pits", a->log, a->logs);
    if (status == DONE) status = pits_of(a, &logs, &c);
    counted_close(&c);
    logs_close(&logs);
    return status;
}

int pits_command(int words, char **word) {
    struct asked a = {.form = &as_lines, .how = {.command = "pits"}};
    /* no more senders than there are words */
    a.how.from.sender = calloc((unsigned) words + 1, sizeof *a.how.from.sender);
    int status = a.how.from.sender ? read_words(&a, words, word) : failed("pits", "the command line");
    if (status == DONE) status = pits_of_logs(&a);
    free(a.how.from.sender);
    return status;
}
