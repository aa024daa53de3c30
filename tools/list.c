/* qm list LOG: what is in a log of any size. It prints what the program log_list prints, which holds 4,194,304 bytes. */

#include "logs.h"

static int list_entries(const char *path) {
    struct walk w;
    if (walk_begin(&w, "list", path) != DONE) return FAILED;
    walk_prints(&w);
    while (walk_on(&w))
        printf("%llu sender %llu tick %llu length %llu\n", w.entries, w.entry[QM_SENDER], w.entry[QM_TICK], w.entry[QM_ENTRY_LENGTH]);
    return walk_end(&w);
}

int list_command(int words, char **word) {
    int at = 0;
    for (; at < words && is_option(word[at]); at++)
        if (strcmp(word[at], "--told") != 0) return called_wrong("list", word[at], "there is no such option");
    if (at == words) return called_wrong("list", "LOG", "no log is named");
    if (words - at > 1) return called_wrong("list", word[at + 1], is_option(word[at + 1]) ? "options stand before the log" : "one log is named already");
    return at > 0 ? told_command(word[at]) : list_entries(word[at]);
}
