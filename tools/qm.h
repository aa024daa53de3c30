/* What the parts of qm share: its commands, files in memory, what is said, and a walk over a log's entries. */

#ifndef QM_TOOL_H
#define QM_TOOL_H

#include "../include/quartzmitten.h"
#include "system.h"

/* The status of the program. */
enum {
    DONE = 0,
    FAILED = 1,    /* the system refused: a file, the output */
    USAGE = 2,     /* called otherwise than --help says */
    REFUSED = 3    /* a log was refused: it is not whole, or what was asked for does not fit */
};

/* ---- how it is called */

enum { LIST, REPLAY, GAPS, COUNT, PITS, STRAYS, INDEX, FIND, SHOW, TAKE, CUT, JOIN, KEEP, CHECK, IMPORT, SUMS, COMMANDS };

/* Options of its own and any number of logs: the command reads its words itself. */
enum { ANY = -1 };

struct command {
    const char *name, *takes, *does, *says;
    int operands;
};
extern const struct command commands[COMMANDS];

/* Writes how qm, or that command of it, is called; with DONE also what it does. Answers the status given. */
int usage(FILE *to, int status);
int command_usage(FILE *to, unsigned i, int status);
/* Which qm this is. Answers the status. */
int version(void);
/* Whether a text is a decimal number of at most `most`, and which. */
int is_number(const char *text, qm_u64 most, qm_u64 *number);

/* ---- files */

/* A file as it lies on disk, of any size. */
struct mapped {
    const qm_byte *bytes;
    qm_size length;
};

/* DONE and the file, or FAILED with the reason said. The second takes a file that is open. */
int map_file(const char *command, const char *path, struct mapped *m);
int map_open_file(const char *command, const char *path, int file, struct mapped *m);
/* Says that a mapped file became shorter while it was read, and ends the program. It is called by a signal. */
_Noreturn void became_shorter(int number);

/* ---- what is said */

/* DONE where all that was printed went out, or FAILED with the reason said. */
int printed(const char *command);

/* Says on standard error what the system did not do, by its own last error. Answers FAILED. */
int failed(const char *command, const char *path);

/* What a refusal means, in a line. */
const char *meaning(qm_u32 number);
/* Says on standard error what a refusal means. Answers REFUSED. */
int refused(const char *command, const char *path, qm_u32 number);

/* What a receiver answered, as the words of a line; and the key that was given up for it, where there is one. */
void print_answer(qm_u32 refusal, const qm_u64 *told);
void print_emptied(qm_u32 refusal, const qm_u64 *told);

/* A channel's name, bytes outside 32 to 126 as \x and two hexadecimal digits, a backslash as two: what a stranger sends reaches no terminal as it is. */
void print_name(FILE *to, const qm_byte *name, qm_size length);

/* ---- a log, entry by entry */

struct walk {
    const char *command, *path;
    struct mapped log;
    qm_u64 head[QM_HEAD];     /* what the head says; zeros where it is refused */
    qm_u64 entry[QM_ENTRY];   /* the entry at hand */
    qm_u64 entries;           /* how many were met, with this one */
    qm_size at;               /* its first byte */
    qm_size next;             /* where the walk goes on: after the whole entries, where it has ended */
    qm_u32 refusal;           /* the number that ended the walk, or 0 */
    int shown;                /* the hundredth that standard error was told last; -1 where it is told nothing */
    qm_size given;            /* so many bytes of a mapped log were given back to the system */
};

/* Maps a log and judges its head. DONE, or FAILED with the reason said; a refusal ends the walk at its first step. */
int walk_begin(struct walk *w, const char *command, const char *path);
/* The same over a log that is mapped already. */
void walk_over(struct walk *w, const char *command, const char *path, struct mapped log);
/* A line an entry is printed meanwhile: where the lines go to a terminal they tell how far it is. */
void walk_prints(struct walk *w);
/* A line was printed, which seldom comes: where both go to one terminal, how far it is makes way for it. */
void walk_printed(struct walk *w);
/* Whether there is one more entry; it is then the one at hand. */
int walk_on(struct walk *w);
/* The system may have back what was walked over; walk_on does it too. */
void walk_give_back(struct walk *w);
/* The datagram of the entry at hand. */
const qm_byte *walk_datagram(const struct walk *w);
/* The last line, `end N` or `refused R after N`, and the status: all that was printed went out, or why not, or what the refusal means. */
int walk_end(struct walk *w);

/* Around one call that goes over a whole log: standard error is told each second how long it takes, where anybody waits. */
int working(const char *command, const char *path, qm_size length);
void worked(int shown);

/* ---- the commands: each prints what it has to say and answers the status */

int told_command(const char *path);
int check_command(const char *path);
int find_command(const char *path, qm_u64 sender, qm_u64 sequence);
int show_command(const char *path, qm_u64 place);
/* these read the words of the command line themselves, and say which is wrong */
int replay_command(int words, char **word);
int list_command(int words, char **word);
int gaps_command(int words, char **word);
int count_command(int words, char **word);
int pits_command(int words, char **word);
int strays_command(int words, char **word);
int index_command(int words, char **word);
int take_command(int words, char **word);
int cut_command(int words, char **word);
int join_command(int words, char **word);
int keep_command(int words, char **word);
int import_command(int words, char **word);
int sums_command(int words, char **word);

#endif
