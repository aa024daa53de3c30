/* qm take LOG SENDER SEQUENCE > FILE: the payload of one message of a log. qm take --all DIR LOG: every payload that a replay of it delivers, a file each. */

#include "receiver.h"
#include "logs.h"
#include "keys.h"
#include "out.h"

/* What the command line asks for: of one message the payload or the name, or all payloads into a folder. */
struct asked {
    int named;
    char *folder, *log;
    qm_u64 sender, sequence;
};

/* ---- the command line */

static int read_option(struct asked *a, int words, char **word, int *at) {
    char *option = word[(*at)++];
    if (strcmp(option, "--name") == 0) {
        a->named = 1;
        return DONE;
    }
    if (strcmp(option, "--all") != 0) return called_wrong("take", option, "there is no such option");
    if (*at == words) return called_wrong("take", option, "the folder is missing");
    a->folder = word[(*at)++];
    return DONE;
}

static int read_words(struct asked *a, int words, char **word) {
    int at = 0;
    while (at < words && is_option(word[at]))
        if (read_option(a, words, word, &at) != DONE) return USAGE;
    if (at == words) return called_wrong("take", "LOG", "no log is named");
    if (a->named && a->folder) return called_wrong("take", "--name", "it is of one message, and --all is of all");
    a->log = word[at++];
    if (words - at != (a->folder ? 0 : 2)) return called_wrong("take", a->log, a->folder ? "--all takes one log and no key" : "SENDER and SEQUENCE stand behind the log");
    if (a->folder) return DONE;
    if (!is_number(word[at], ~0ull, &a->sender)) return called_wrong("take", word[at], "SENDER is a number of 64 bits in decimal");
    if (!is_number(word[at + 1], 4294967295, &a->sequence)) return called_wrong("take", word[at + 1], "SEQUENCE is a number of 32 bits in decimal");
    return DONE;
}

/* ---- one message */

/* Whether the entry at hand is of the key, by the reader's own limits; then which fragment of how many it is stands in `fields`. */
static int is_of_key(const struct asked *a, const struct walk *w, qm_u32 *fields) {
    return w->entry[QM_SENDER] == a->sender && qm_read_datagram(walk_datagram(w), w->entry[QM_ENTRY_LENGTH], fields, QM_FIELDS) == 0 && fields[QM_SEQUENCE] == a->sequence;
}

/* Whether the receiver delivered the key's message. */
static int is_answer(const struct asked *a, const struct walk *w, const struct received *r) {
    return is_delivered(r) && w->entry[QM_SENDER] == a->sender && r->told[QM_TOLD_SEQUENCE] == a->sequence;
}

static void print_delivered(const struct asked *a, const struct walk *w, const struct received *r) {
    if (a->named) {
        print_name(stdout, r->name, delivered_name_length(r));
        printf("\n");
    } else {
        fwrite(delivered_payload(w, r), 1, delivered_length(r), stdout);
    }
}

/* What the key's entries alone come to, where they complete no message. */
struct partial {
    qm_u64 entries, refused;
    qm_u32 count;                        /* fragments of the message; 0 where none was accepted */
    qm_byte held[QM_MAX_FRAGMENTS];
};

static void note(struct partial *p, const struct received *r, const qm_u32 *fields) {
    p->entries++;
    if (r->refusal != 0) p->refused++;
    if (!is_kept(r)) return;
    p->count = fields[QM_COUNT];
    p->held[fields[QM_NUMBER]] = 1;
}

/* A replay of the whole log; with `alone` of the key's entries only. Prints the first message of the key that is delivered, and answers whether there is one;
   the walk goes on to the log's end. */
static int replay(const struct asked *a, struct walk *w, struct mapped log, struct partial *alone) {
    struct received r;
    struct walk at;
    qm_u32 fields[QM_FIELDS];
    int found = 0;
    walk_over(w, "take", a->log, log);
    receiver_open();
    while (walk_on(w)) {
        if (found || (alone && !is_of_key(a, w, fields))) continue;
        receiver_take(w, &r);
        if (alone) note(alone, &r, fields);
        found = is_answer(a, w, &r);
        if (found) at = *w;
    }
    if (found) print_delivered(a, &at, &r);
    return found;
}

/* `3, 5 to 7`: the fragments that never came. */
static void tell_missing(const struct partial *p) {
    const char *between = "";
    for (qm_u32 k = 0; k < p->count; k++) {
        qm_u32 first = k;
        if (p->held[k]) continue;
        while (k + 1 < p->count && !p->held[k + 1]) k++;
        fprintf(stderr, first == k ? "%s%u" : "%s%u to %u", between, first, k);
        between = ", ";
    }
}

static void tell_partial(const struct asked *a, const struct partial *p) {
    fprintf(stderr, "qm take: %s: sender %llu sequence %llu: ", a->log, a->sender, a->sequence);
    if (p->entries == 0) fprintf(stderr, "no entry has this key\n");
    else if (p->count == 0) fprintf(stderr, "all of its %llu entries are refused: `qm replay` says by what\n", p->entries);
    else {
        fprintf(stderr, "not complete: of fragments 0 to %u missing are ", p->count - 1);
        tell_missing(p);
        if (p->refused > 0) fprintf(stderr, "; %llu entries of it are refused, since they do not fit the others or the log's limits", p->refused);
        fprintf(stderr, "\n");
    }
}

static int take_one(const struct asked *a, struct mapped log) {
    struct walk w;
    struct partial alone = {0};
    int found = replay(a, &w, log, 0);
    if (!found) {
        found = replay(a, &w, log, &alone);
        if (found)
            fprintf(stderr, "qm take: %s: sender %llu sequence %llu: a replay of the log delivers no such message, since others took its slot: it is put together of its own entries alone\n",
                    a->log, a->sender, a->sequence);
        else tell_partial(a, &alone);
    }
    if (printed("take") != DONE) return FAILED;
    int status = logs_ended(&w, "looked through");
    return found ? status : REFUSED;
}

/* ---- all of them */

/* The delivered payload as a file of the folder, SENDER-SEQUENCE; where the key was delivered before, with how often behind it. Its line says which. */
static int put_payload(const struct asked *a, const struct walk *w, const struct received *r, qm_u32 times) {
    struct out o;
    char again[16] = "";
    qm_u64 sequence = r->told[QM_TOLD_SEQUENCE];
    char *path = malloc(strlen(a->folder) + 64);
    if (!path) return failed("take", a->folder);
    if (times > 1) sprintf(again, "-%u", times);
    int folder = sprintf(path, "%s/", a->folder);
    sprintf(path + folder, "%llu-%llu%s", w->entry[QM_SENDER], sequence, again);
    int status = out_begin(&o, "take", path, 0);
    if (status == DONE) {
        status = out_put(&o, delivered_payload(w, r), delivered_length(r));
        if (status == DONE) status = out_end(&o, 0);
        else out_drop(&o);
    }
    if (status == DONE) {
        printf("sender %llu sequence %llu tick %llu payload %llu file %s name ", w->entry[QM_SENDER], sequence, w->entry[QM_TICK], delivered_length(r), path + folder);
        print_name(stdout, r->name, delivered_name_length(r));
        printf("\n");
    }
    free(path);
    return status;
}

/* The entry at hand through the receiver, and what it delivers into the folder. */
static int take_entry(const struct asked *a, const struct walk *w, struct keys *keys, qm_u64 *taken) {
    struct received r;
    receiver_take(w, &r);
    if (!is_delivered(&r)) return DONE;
    qm_u32 times = keys_add(keys, w->entry[QM_SENDER], (qm_u32) r.told[QM_TOLD_SEQUENCE]);
    if (times == 0) return failed("take", a->log);
    ++*taken;
    return put_payload(a, w, &r, times);
}

static int take_all(const struct asked *a, struct mapped log) {
    struct walk w;
    struct keys keys = {0};
    qm_u64 taken = 0;
    int status = DONE;
    if (mkdir(a->folder, FOR_ALL_TO_ENTER) != 0 && *__errno_location() != IS_THERE) return failed("take", a->folder);
    walk_over(&w, "take", a->log, log);
    walk_prints(&w);
    receiver_open();
    while (status == DONE && walk_on(&w)) status = take_entry(a, &w, &keys, &taken);
    keys_close(&keys);
    if (status == DONE) printf("end %llu\n", taken);
    if (printed("take") != DONE || status != DONE) return FAILED;
    return logs_ended(&w, "replayed");
}

int take_command(int words, char **word) {
    struct asked a = {0};
    struct mapped log;
    int status = read_words(&a, words, word);
    if (status == DONE) status = map_file("take", a.log, &log);
    if (status != DONE) return status;
    return a.folder ? take_all(&a, log) : take_one(&a, log);
}
