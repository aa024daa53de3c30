/* qm cut -o OUT LOG, qm join -o OUT LOG..: logs out of logs. Entries go over as they lie: a number has one form only, so that they are what the writer would
   have written. */

#include "logs.h"
#include "out.h"

/* A log's head has at most so many bytes. */
enum { MOST_HEAD = 16 };

struct asked {
    const char *command, *out;
    int replace;
    qm_u64 from_tick, to_tick, from_entry, to_entry;
    qm_u64 *senders;          /* only these, where there are any */
    unsigned sender_many;
    char **log;
    unsigned logs;
};

/* ---- the command line */

static int take_value(struct asked *a, const char *option, char *value) {
    qm_u64 *number = strcmp(option, "--from-tick") == 0 ? &a->from_tick : strcmp(option, "--to-tick") == 0 ? &a->to_tick
                   : strcmp(option, "--from-entry") == 0 ? &a->from_entry : strcmp(option, "--to-entry") == 0 ? &a->to_entry : &a->senders[a->sender_many++];
    if (!is_number(value, ~0ull, number)) return called_wrong(a->command, value, "a number of 64 bits in decimal is wanted here");
    return DONE;
}

static int is_of_cut(const char *option) {
    static const char *const options[] = {"--from-tick", "--to-tick", "--from-entry", "--to-entry", "--sender"};
    for (unsigned i = 0; i < sizeof options / sizeof *options; i++)
        if (strcmp(option, options[i]) == 0) return 1;
    return 0;
}

static int read_option(struct asked *a, int cutting, int words, char **word, int *at) {
    char *option = word[(*at)++];
    int named = strcmp(option, "-o") == 0;
    if (strcmp(option, "--replace") == 0) {
        a->replace = 1;
        return DONE;
    }
    if (!named && !(cutting && is_of_cut(option))) return called_wrong(a->command, option, "there is no such option");
    if (*at == words) return called_wrong(a->command, option, "what it takes is missing");
    char *value = word[(*at)++];
    if (!named) return take_value(a, option, value);
    if (a->out) return called_wrong(a->command, value, "-o stands twice");
    a->out = value;
    return DONE;
}

static int read_words(struct asked *a, int cutting, int words, char **word) {
    int at = 0;
    while (at < words && is_option(word[at]))
        if (read_option(a, cutting, words, word, &at) != DONE) return USAGE;
    if (at == words) return called_wrong(a->command, "LOG", "no log is named");
    if (!a->out) return called_wrong(a->command, "-o OUT", "the log to write is not named");
    for (int i = at; i < words; i++)
        if (is_option(word[i])) return called_wrong(a->command, word[i], "options stand before the logs");
    if (cutting && words - at > 1) return called_wrong(a->command, word[at + 1], "one log is cut at a time");
    a->log = word + at;
    a->logs = (unsigned) (words - at);
    return DONE;
}

/* ---- heads */

/* A log begins with its edition. */
static int is_first_edition(const struct walk *w) {
    return w->log.bytes[0] == 1;
}

/* The head of the log to write: that of the logs where all are of edition 1; otherwise of edition 2 with the largest limit. Answers its length, or 0 where the
   heads of all of them are refused. */
static qm_size head_of(const struct asked *a, const struct logs *logs, qm_byte *head) {
    qm_u64 limit = 0, first = 0, second = 0;
    struct walk w;
    for (unsigned i = 0; i < logs->many; i++) {
        walk_over(&w, a->command, logs->path[i], logs->mapped[i]);
        if (w.refusal != 0) continue;
        if (is_first_edition(&w)) first++;
        else second++;
        if (w.head[QM_LOG_PAYLOAD] > limit) limit = w.head[QM_LOG_PAYLOAD];
    }
    head[0] = 1;
    if (second == 0) return first > 0;
    return QM_LOG_LENGTH(qm_log_begin(head, MOST_HEAD, limit));
}

/* ---- entries */

static int is_wanted(const struct asked *a, const struct walk *w) {
    int of_sender = a->sender_many == 0;
    for (unsigned i = 0; i < a->sender_many; i++)
        if (a->senders[i] == w->entry[QM_SENDER]) of_sender = 1;
    return of_sender && a->from_tick <= w->entry[QM_TICK] && w->entry[QM_TICK] <= a->to_tick && a->from_entry <= w->entries && w->entries <= a->to_entry;
}

/* The wanted entries of one log. Answers DONE, REFUSED where it is not whole, or FAILED. */
static int put_entries(const struct asked *a, const char *path, struct mapped log, struct out *o, qm_u64 *put) {
    struct walk w;
    walk_over(&w, a->command, path, log);
    while (walk_on(&w)) {
        if (!is_wanted(a, &w)) continue;
        if (out_put(o, log.bytes + w.at, w.next - w.at) != DONE) return FAILED;
        ++*put;
    }
    return logs_ended(&w, "taken over");
}

/* A log of edition 1 has other limits in the log that it goes into. */
static void tell_editions(const struct asked *a, const struct logs *logs, const qm_byte *head) {
    struct walk w;
    for (unsigned i = 0; head[0] != 1 && i < logs->many; i++) {
        walk_over(&w, a->command, logs->path[i], logs->mapped[i]);
        if (w.refusal == 0 && is_first_edition(&w))
            fprintf(stderr, "qm %s: %s: of edition 1, whose messages have at most %llu bytes in %llu fragments; %s is of edition 2, and takes more of its entries where they say so\n",
                    a->command, logs->path[i], w.head[QM_LOG_PAYLOAD], w.head[QM_LOG_FRAGMENTS], a->out);
    }
}

static int put_all(const struct asked *a, const struct logs *logs, struct out *o, qm_u64 *put) {
    int status = DONE;
    for (unsigned i = 0; i < logs->many; i++) {
        int one = put_entries(a, logs->path[i], logs->mapped[i], o, put);
        if (one == FAILED) return FAILED;
        if (one != DONE) status = one;
    }
    return status;
}

static int write_log(const struct asked *a, const struct logs *logs) {
    struct out o;
    qm_byte head[MOST_HEAD];
    qm_u64 put = 0;
    qm_size length = head_of(a, logs, head);
    if (length == 0) {
        put_all(a, logs, 0, &put);
        fprintf(stderr, "qm %s: %s: not written, since no head is good\n", a->command, a->out);
        return REFUSED;
    }
    if (out_begin(&o, a->command, a->out, a->replace) != DONE) return FAILED;
    int status = out_put(&o, head, length);
    if (status == DONE) status = put_all(a, logs, &o, &put);
    if (status == FAILED) {
        out_drop(&o);
        return FAILED;
    }
    if (out_end(&o, 1) != DONE) return FAILED;
    tell_editions(a, logs, head);
    printf("entries %llu\n", put);
    return printed(a->command) == DONE ? status : FAILED;
}

static int make_log(const char *command, int cutting, int words, char **word) {
    struct asked a = {.command = command, .to_tick = ~0ull, .to_entry = ~0ull};
    struct logs logs;
    /* no more of them than there are words */
    a.senders = calloc((unsigned) words + 1, sizeof *a.senders);
    int status = a.senders ? read_words(&a, cutting, words, word) : failed(command, "the command line");
    if (status == DONE) {
        status = logs_open(&logs, command, a.log, a.logs);
        if (status == DONE) status = write_log(&a, &logs);
        logs_close(&logs);
    }
    free(a.senders);
    return status;
}

int cut_command(int words, char **word) {
    return make_log("cut", 1, words, word);
}

int join_command(int words, char **word) {
    return make_log("join", 0, words, word);
}
