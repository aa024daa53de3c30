/* qm gaps LOG: what the sequence watch notes of each datagram of a log, by its entry's sender. The lines are those of the program gaps, which takes
   the datagrams of one sender from a stream. */

#include "missing.h"
#include "logs.h"

static void print_noted(qm_u64 n, qm_u64 answer) {
    qm_u32 number = QM_WATCH_NUMBER(answer);
    switch (QM_WATCH_KIND(answer)) {
    case QM_WATCH_FIRST: printf("%llu first\n", n); break;
    case QM_WATCH_FORWARD: printf("%llu forward %u\n", n, number); break;
    case QM_WATCH_SAME: printf("%llu same\n", n); break;
    case QM_WATCH_LATE: printf("%llu late %u\n", n, number); break;
    case QM_WATCH_RESTARTED: printf("%llu restarted %u\n", n, number); break;
    default: printf("%llu refused %u\n", n, number);
    }
}

static int list_gaps(const char *path) {
    /* zeros: a watch that has seen nobody */
    static qm_u64 senders[QM_WATCH];
    static qm_u32 lasts[QM_WATCH_SENDERS];
    qm_u32 fields[QM_FIELDS];
    struct walk w;
    if (walk_begin(&w, "gaps", path) != DONE) return FAILED;
    walk_prints(&w);
    while (walk_on(&w)) {
        qm_u64 answer = qm_read_datagram(walk_datagram(&w), w.entry[QM_ENTRY_LENGTH], fields, QM_FIELDS);
        if (answer == 0) answer = qm_watch_see(senders, QM_WATCH, lasts, QM_WATCH_SENDERS, w.entry[QM_SENDER], fields[QM_SEQUENCE]);
        print_noted(w.entries, answer);
    }
    return walk_end(&w);
}

int gaps_command(int words, char **word) {
    int at = 0, missing = 0, acks = 0;
    qm_u64 sender = 0;
    while (at < words && is_option(word[at])) {
        char *option = word[at++];
        if (strcmp(option, "--missing") == 0) {
            missing = 1;
        } else if (strcmp(option, "--acks") == 0) {
            acks = 1;
            if (at == words) return called_wrong("gaps", option, "the sender is missing");
            if (!is_number(word[at++], ~0ull, &sender)) return called_wrong("gaps", word[at - 1], "--acks takes a sender, a number of 64 bits in decimal");
        } else {
            return called_wrong("gaps", option, "there is no such option");
        }
    }
    if (at == words) return called_wrong("gaps", "LOG", "no log is named");
    if (words - at > 1) return called_wrong("gaps", word[at + 1], is_option(word[at + 1]) ? "options stand before the log" : "one log is looked through at a time");
    if (missing && acks) return called_wrong("gaps", "--acks", "it prints numbers, and --missing prints lines: one of the two");
    return missing ? missing_command(word[at]) : acks ? acks_command(word[at], sender) : list_gaps(word[at]);
}
