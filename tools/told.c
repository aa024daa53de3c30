/* qm list --told LOG: all that is told of each entry, in one line: what a receiver with slots of the largest payload answers to it, what its datagram says, and
   what the sequence watch notes of it. */

#include "receiver.h"

/* zeros: a watch that has seen nobody */
static qm_u64 senders[QM_WATCH];
static qm_u32 lasts[QM_WATCH_SENDERS];

static void print_said(const qm_u32 *fields) {
    if (fields[QM_KIND] == 1) printf(" small");
    else printf(" fragment %u of %u", fields[QM_NUMBER], fields[QM_COUNT]);
    printf(" sequence %u", fields[QM_SEQUENCE]);
}

static void print_watched(qm_u64 answer) {
    static const char *const words[] = {[QM_WATCH_FIRST] = "first", [QM_WATCH_FORWARD] = "forward", [QM_WATCH_SAME] = "same", [QM_WATCH_LATE] = "late",
                                        [QM_WATCH_RESTARTED] = "restarted"};
    qm_u32 kind = QM_WATCH_KIND(answer);
    printf(" %s", kind == 0 ? "unwatched" : words[kind]);
    if (kind == QM_WATCH_FORWARD || kind == QM_WATCH_LATE || kind == QM_WATCH_RESTARTED) printf(" %u", QM_WATCH_NUMBER(answer));
}

static void print_told(const struct walk *w) {
    struct received r;
    qm_u32 fields[QM_FIELDS];
    receiver_take(w, &r);
    printf("%llu sender %llu tick %llu length %llu ", w->entries, w->entry[QM_SENDER], w->entry[QM_TICK], w->entry[QM_ENTRY_LENGTH]);
    print_answer(r.refusal, r.told);
    if (qm_read_datagram(walk_datagram(w), w->entry[QM_ENTRY_LENGTH], fields, QM_FIELDS) == 0) {
        print_said(fields);
        print_watched(qm_watch_see(senders, QM_WATCH, lasts, QM_WATCH_SENDERS, w->entry[QM_SENDER], fields[QM_SEQUENCE]));
    }
    print_emptied(r.refusal, r.told);
    printf("\n");
}

int told_command(const char *path) {
    struct walk w;
    if (walk_begin(&w, "list", path) != DONE) return FAILED;
    walk_prints(&w);
    receiver_open();
    while (walk_on(&w)) print_told(&w);
    return walk_end(&w);
}
