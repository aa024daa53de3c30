/* The logs that a command line names, all mapped before the first line is printed: where one is not there, nothing is printed. */

#ifndef QM_LOGS_H
#define QM_LOGS_H

#include "qm.h"

struct logs {
    char **path;             /* as they were given */
    struct mapped *mapped;
    unsigned many;
};

/* DONE, or FAILED with the reason said; logs_close takes them in either case. */
int logs_open(struct logs *logs, const char *command, char **path, unsigned many);
void logs_close(struct logs *logs);

/* Says on standard error how far a log goes that is not whole: the entry that is refused, and by what. Answers REFUSED; or DONE of a walk that came to the end. */
int logs_ended(const struct walk *w, const char *done);

/* Says on standard error which word of the command line is wrong, and why. Answers USAGE. */
int called_wrong(const char *command, const char *word, const char *why);

/* The words behind the options: logs, one at least. Answers DONE, or USAGE with the reason said. */
int logs_named(const char *command, int words, char **word);

/* Whether a word is meant as an option: it begins with a dash. A log of such a name is given as ./-NAME. */
int is_option(const char *word);

#endif
