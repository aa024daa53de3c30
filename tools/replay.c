/* qm replay LOG: what a fresh receiver answers to each datagram of a log of any size, within the log's limits. With the store of the program replay_log, which holds
   4,194,304 bytes of a log, it prints what that prints. */

#include "logs.h"

static qm_u64 state[QM_STATE];
static qm_byte names[QM_NAMES];
static qm_byte store[QM_STORE];
static qm_u32 ledger[QM_LEDGER];

void print_answer(qm_u32 refusal, const qm_u64 *told) {
    if (refusal != 0) printf("refused %u", refusal);
    else if (told[QM_ANSWER] == QM_ANSWER_KEPT) printf("kept");
    else if (told[QM_ANSWER] == QM_ANSWER_REPEAT) printf("repeat");
    else printf("delivered %llu", told[QM_PAYLOAD_LENGTH]);
}

void print_emptied(qm_u32 refusal, const qm_u64 *told) {
    if (refusal == 0 && told[QM_EMPTIED]) printf(" emptied %llu %llu", told[QM_EMPTIED_SENDER], told[QM_EMPTIED_SEQUENCE]);
}

static int replay(const char *path, qm_size room) {
    qm_u64 told[QM_OUTCOME];
    qm_byte name[QM_MAX_NAME];
    struct walk w;
    if (walk_begin(&w, "replay", path) != DONE) return FAILED;
    walk_prints(&w);
    /* memory of the header's lengths: 9 does not come */
    qm_open(state, QM_STATE, names, QM_NAMES, room);
    while (walk_on(&w)) {
        qm_u32 refusal = qm_receive_within(state, QM_STATE, names, QM_NAMES, store, room, ledger, QM_LEDGER, w.head[QM_LOG_PAYLOAD],
                                           (qm_u32) w.head[QM_LOG_FRAGMENTS], w.entry[QM_SENDER], walk_datagram(&w), w.entry[QM_ENTRY_LENGTH], told, QM_OUTCOME,
                                           name, QM_MAX_NAME);
        printf("%llu ", w.entries);
        print_answer(refusal, told);
        print_emptied(refusal, told);
        printf("\n");
    }
    return walk_end(&w);
}

int replay_command(int words, char **word) {
    qm_u64 room = QM_STORE;
    int at = 0;
    while (at < words && is_option(word[at])) {
        const char *option = word[at++];
        /* what once asked for the slots that are lent now anyway */
        if (strcmp(option, "--large") == 0) continue;
        if (strcmp(option, "--store") != 0) return called_wrong("replay", option, "there is no such option");
        if (at == words) return called_wrong("replay", option, "how many bytes is missing");
        if (!is_number(word[at++], QM_STORE, &room)) return called_wrong("replay", word[at - 1], "--store takes a number of bytes, 8388608 at most");
    }
    if (at == words) return called_wrong("replay", "LOG", "no log is named");
    if (words - at > 1) return called_wrong("replay", word[at + 1], is_option(word[at + 1]) ? "options stand before the log" : "one log is named already");
    return replay(word[at], room);
}
