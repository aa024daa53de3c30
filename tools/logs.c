/* The logs that a command line names. */

#include "logs.h"

int logs_open(struct logs *logs, const char *command, char **path, unsigned many) {
    *logs = (struct logs) {.path = path};
    logs->mapped = calloc(many, sizeof *logs->mapped);
    if (!logs->mapped) return failed(command, path[0]);
    for (; logs->many < many; logs->many++)
        if (map_file(command, path[logs->many], &logs->mapped[logs->many]) != DONE) return FAILED;
    return DONE;
}

void logs_close(struct logs *logs) {
    for (unsigned i = 0; i < logs->many; i++)
        if (logs->mapped[i].length > 0) munmap((void *) logs->mapped[i].bytes, logs->mapped[i].length);
    free(logs->mapped);
}

int logs_ended(const struct walk *w, const char *done) {
    if (w->refusal == 0) return DONE;
    refused(w->command, w->path, w->refusal);
    if (w->next == 0) fprintf(stderr, "qm %s: %s: this is said of its head: nothing of it is %s\n", w->command, w->path, done);
    else fprintf(stderr, "qm %s: %s: this is said of entry %llu: the %llu before it are %s\n", w->command, w->path, w->entries + 1, w->entries, done);
    return REFUSED;
}

int called_wrong(const char *command, const char *word, const char *why) {
    fprintf(stderr, "qm %s: %s: %s\n", command, word, why);
    return USAGE;
}

int is_option(const char *word) {
    return word[0] == '-';
}

int logs_named(const char *command, int words, char **word) {
    if (words == 0) return called_wrong(command, "LOG", "no log is named");
    for (int i = 0; i < words; i++)
        if (is_option(word[i])) return called_wrong(command, word[i], "options stand before the logs");
    return DONE;
}
