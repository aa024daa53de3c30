/* qm count LOG..: a season's count, over any number of logs of any length. Of one whole log within L9's limits it prints what the program count_pits prints. */

#include "flights.h"

/* What the command line asks for. */
struct asked {
    int whole, senders;
    struct counting how;
    char **log;
    unsigned logs;
};

/* ---- the command line */

static int take_forget(struct counting *how, char *word) {
    static const char why[] = "--forget-at takes SENDER:ENTRY, two numbers of 64 bits in decimal, the first entry being 1";
    struct forget *f = &how->forgets[how->forget_many];
    char *colon = strchr(word, ':');
    if (!colon) return called_wrong("count", word, why);
    *colon = 0;
    int good = is_number(word, ~0ull, &f->sender) && is_number(colon + 1, ~0ull, &f->entry) && f->entry > 0;
    *colon = ':';
    if (!good) return called_wrong("count", word, why);
    f->given = word;
    how->forget_many++;
    return DONE;
}

/* One option, and the word that it takes. Answers DONE or USAGE, and the words that are taken are counted in `at`. */
static int read_option(struct asked *a, int words, char **word, int *at) {
    char *option = word[(*at)++];
    int from = strcmp(option, "--from") == 0, forget = strcmp(option, "--forget-at") == 0;
    if (from || forget) {
        if (*at == words) return called_wrong("count", option, from ? "the sender is missing" : "SENDER:ENTRY is missing");
        char *value = word[(*at)++];
        return from ? from_take(&a->how.from, "count", value) : take_forget(&a->how, value);
    }
    if (strcmp(option, "--whole") == 0) a->whole = 1;
    else if (strcmp(option, "--senders") == 0) a->senders = 1;
    else return called_wrong("count", option, "there is no such option");
    return DONE;
}

static int read_words(struct asked *a, int words, char **word) {
    int at = 0;
    while (at < words && is_option(word[at]))
        if (read_option(a, words, word, &at) != DONE) return USAGE;
    if (logs_named("count", words - at, word + at) != DONE) return USAGE;
    a->log = word + at;
    a->logs = (unsigned) (words - at);
    if (a->how.forget_many > 0 && a->logs > 1) return called_wrong("count", "--forget-at", "it is for one log, and more are named");
    return DONE;
}

/* ---- counting */

/* The refusal of the first log that is not whole, or 0. */
static qm_u32 first_broken(const struct logs *logs) {
    struct walk w;
    for (unsigned i = 0; i < logs->many; i++) {
        walk_over(&w, "count", logs->path[i], logs->mapped[i]);
        while (walk_on(&w)) continue;
        if (logs_ended(&w, "good") != DONE) return w.refusal;
    }
    return 0;
}

static int count_all(const struct asked *a, const struct logs *logs, struct counted *c) {
    if (a->whole) c->refusal = first_broken(logs);
    if (c->refusal != 0) c->status = REFUSED;
    if (count_flights(&a->how, logs, c) != DONE) return FAILED;
    if (c->refusal != 0) printf("refused %u\n", c->refusal);
    else counted_print(c, a->senders);
    return printed("count") == DONE ? c->status : FAILED;
}

static int count_logs(const struct asked *a) {
    struct counted c = {0};
    struct logs logs;
    int status = logs_open(&logs, "count", a->log, a->logs);
    if (status == DONE) status = count_all(a, &logs, &c);
    counted_close(&c);
    logs_close(&logs);
    return status;
}

int count_command(int words, char **word) {
    struct asked a = {.how = {.command = "count"}};
    struct counting *how = &a.how;
    /* no more of either than there are words */
    how->from.sender = calloc((unsigned) words + 1, sizeof *how->from.sender);
    how->forgets = calloc((unsigned) words + 1, sizeof *how->forgets);
    int status = FAILED;
    if (!how->from.sender || !how->forgets) failed("count", "the command line");
    else status = read_words(&a, words, word);
    if (status == DONE) status = count_logs(&a);
    free(how->from.sender);
    free(how->forgets);
    return status;
}
