/* qm strays LOG..: repeats that are no copies. */

#include "strays.h"
#include "logs.h"

/* By its sender and first bytes, which are a message's number, and a fragment's. */
static qm_size likeness_of(const struct walk *w) {
    qm_u64 begin[3] = {0};
    qm_size length = w->entry[QM_ENTRY_LENGTH];
    if (length >= sizeof begin) __builtin_memcpy(begin, walk_datagram(w), sizeof begin);
    else memcpy(begin, walk_datagram(w), length);
    return hash_of_number(w->entry[QM_SENDER] ^ begin[0] ^ begin[1] ^ begin[2]) & (LIKENESSES - 1);
}

int strays_note(struct strays *s, const struct walk *w, int repeated) {
    qm_size likeness = likeness_of(w), last = s->last[likeness];
    s->last[likeness] = w->at;
    if (!repeated || (last != 0 && is_copy(w, last))) return 1;
    s->noted[likeness] = 1;
    return seen_note(&s->seen, w);
}

int strays_next(struct strays *s, struct walk *w) {
    while (s->seen.open > 0 && walk_on(w))
        if (s->noted[likeness_of(w)] && seen_look(&s->seen, w)) return 1;
    /* it may have ended before the log */
    worked(w->shown > 0);
    return 0;
}

int strays_add(struct strays *s, const struct walk *first) {
    struct walk w;
    int good = 1;
    walk_over(&w, first->command, first->path, first->log);
    while (good && strays_next(s, &w)) good = tally_add(&s->of, w.entry[QM_SENDER], w.entries);
    return good;
}

void strays_tell(struct strays *s, const struct walk *w) {
    tally_sort(&s->of);
    for (qm_size i = 0; i < s->of.used && i < STRAYS_TOLD; i++) {
        const struct tally_row *row = &s->of.rows[i];
        fprintf(stderr, "qm %s: %s: repeats that are no copies: %llu of sender %llu, from entry %llu on; what they bring is not counted. `qm strays %s` lists them; where "
                "the sender began anew, `qm count --forget-at %llu:%llu %s` counts them; where it is a stranger, `qm count --from SENDER %s` counts only the senders that it "
                "names\n", w->command, w->path, row->times, row->sender, row->first, w->path, row->sender, row->first, w->path, w->path);
    }
    if (s->of.used > STRAYS_TOLD) fprintf(stderr, "qm %s: %s: repeats that are no copies: of %llu senders more\n", w->command, w->path, s->of.used - STRAYS_TOLD);
}

void strays_close(struct strays *s) {
    seen_close(&s->seen);
    tally_close(&s->of);
    *s = (struct strays) {0};
}

/* ---- the command */

static qm_u64 state[QM_STATE];
static qm_byte names[QM_NAMES];
static qm_byte store[QM_STORE];
static qm_u32 ledger[QM_LEDGER];

/* Whether the datagram at hand is answered Repeat, within the log's limits. */
static int is_repeat(const struct walk *w) {
    qm_byte name[QM_MAX_NAME];
    qm_u64 told[QM_TOLD];
    qm_u32 refusal = qm_receive_within(state, QM_STATE, names, QM_NAMES, store, QM_STORE, ledger, QM_LEDGER, w->head[QM_LOG_PAYLOAD],
                                       (qm_u32) w->head[QM_LOG_FRAGMENTS], w->entry[QM_SENDER], walk_datagram(w), w->entry[QM_ENTRY_LENGTH], told, QM_OUTCOME, name,
                                       QM_MAX_NAME);
    return refusal == 0 && told[QM_ANSWER] == QM_ANSWER_REPEAT;
}

/* A line a stray, by the second walk. Answers how many there are. */
static qm_u64 print_strays(struct strays *s, const struct walk *first) {
    struct walk w;
    qm_u32 fields[QM_FIELDS] = {0};
    qm_u64 found = 0;
    walk_over(&w, first->command, first->path, first->log);
    for (; strays_next(s, &w); found++) {
        /* a datagram that was answered Repeat is read */
        qm_read_datagram(walk_datagram(&w), w.entry[QM_ENTRY_LENGTH], fields, QM_FIELDS);
        printf("log %s sender %llu entry %llu tick %llu sequence %u\n", w.path, w.entry[QM_SENDER], w.entries, w.entry[QM_TICK], fields[QM_SEQUENCE]);
        walk_printed(&w);
    }
    return found;
}

/* The strays of one log. Answers its status, and adds how many there are. */
static int list_strays(const char *path, struct mapped log, qm_u64 *found) {
    static struct strays strays;
    struct walk w;
    int good = 1;
    walk_over(&w, "strays", path, log);
    /* memory of the header's lengths: 9 does not come */
    qm_open(state, QM_STATE, names, QM_NAMES, QM_STORE);
    while (good && walk_on(&w)) good = strays_note(&strays, &w, is_repeat(&w));
    if (good) *found += print_strays(&strays, &w);
    strays_close(&strays);
    return good ? logs_ended(&w, "looked through") : failed("strays", path);
}

static int list_all(const struct logs *logs) {
    qm_u64 found = 0;
    int status = DONE;
    for (unsigned i = 0; i < logs->many; i++) {
        int one = list_strays(logs->path[i], logs->mapped[i], &found);
        if (one == FAILED) return FAILED;
        if (one != DONE) status = one;
    }
    printf("end %llu\n", found);
    return printed("strays") == DONE ? status : FAILED;
}

int strays_command(int words, char **word) {
    struct logs logs;
    if (words == 0) return called_wrong("strays", "LOG", "no log is named");
    for (int i = 0; i < words; i++)
        if (is_option(word[i])) return called_wrong("strays", word[i], "there is no such option");
    int status = logs_open(&logs, "strays", word, (unsigned) words);
    if (status == DONE) status = list_all(&logs);
    logs_close(&logs);
    return status;
}
