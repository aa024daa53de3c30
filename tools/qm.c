/* qm: one program over a flight's log, for files of any size. `./run qm --help` says what it does; each command stands in its own file. */

#include "logs.h"

/* Says which word is wrong, and how the command is called. */
static int wrong(unsigned i, const char *word, const char *why) {
    called_wrong(commands[i].name, word, why);
    return command_usage(stderr, i, USAGE);
}

static int run_find(char **word) {
    qm_u64 sender, sequence;
    if (!is_number(word[1], ~0ull, &sender)) return wrong(FIND, word[1], "SENDER is a number of 64 bits, in decimal");
    if (!is_number(word[2], 4294967295, &sequence)) return wrong(FIND, word[2], "SEQUENCE is a number of 32 bits, in decimal");
    return find_command(word[0], sender, sequence);
}

static int run(unsigned i, char **word) {
    qm_u64 place;
    switch (i) {
    case SHOW: return is_number(word[1], ~0ull, &place) ? show_command(word[0], place) : wrong(i, word[1], "PLACE is a number of 64 bits, in decimal");
    case CHECK: return check_command(word[0]);
    default: return run_find(word);
    }
}

/* A command that takes so many words and no option. */
static int run_fixed(unsigned i, int words, char **word) {
    static char missing[32];
    const char *name = commands[i].takes;
    if (words > 0 && is_option(word[0])) return wrong(i, word[0], "there is no such option");
    if (words > commands[i].operands) return wrong(i, word[commands[i].operands], "one word too many");
    if (words == commands[i].operands) return run(i, word);
    /* the name of the first that is missing, out of how it is called */
    for (; words > 0; words--) name = strchr(name, ' ') + 1;
    for (unsigned at = 0; at < sizeof missing - 1 && name[at] && name[at] != ' '; at++) missing[at] = name[at];
    return wrong(i, missing, "it is missing");
}

/* A command that reads its words itself has said which is wrong. */
static int run_any(unsigned i, int words, char **word) {
    int status;
    switch (i) {
    case LIST: status = list_command(words, word); break;
    case GAPS: status = gaps_command(words, word); break;
    case COUNT: status = count_command(words, word); break;
    case INDEX: status = index_command(words, word); break;
    case PITS: status = pits_command(words, word); break;
    case TAKE: status = take_command(words, word); break;
    case CUT: status = cut_command(words, word); break;
    case JOIN: status = join_command(words, word); break;
    case REPLAY: status = replay_command(words, word); break;
    case KEEP: status = keep_command(words, word); break;
    case IMPORT: status = import_command(words, word); break;
    case SUMS: status = sums_command(words, word); break;
    default: status = strays_command(words, word);
    }
    return status == USAGE ? command_usage(stderr, i, USAGE) : status;
}

static int is_help(const char *word) {
    return strcmp(word, "--help") == 0 || strcmp(word, "-h") == 0;
}

static unsigned command_of(const char *word) {
    unsigned i = 0;
    while (i < COMMANDS && strcmp(word, commands[i].name) != 0) i++;
    return i;
}

int main(int words, char **word) {
    static char buffer[1 << 18];
    if (words == 1) return usage(stderr, USAGE);
    int help = strcmp(word[1], "help") == 0;
    if (words == 2 && (help || is_help(word[1]))) return usage(stdout, DONE);
    if (words == 2 && strcmp(word[1], "--version") == 0) return version();
    unsigned i = command_of(word[1 + help]);
    if (i == COMMANDS) {
        fprintf(stderr, "qm: %s: there is no such command; `qm --help` has them all\n", word[1 + help]);
        return USAGE;
    }
    if (words == 3 && (help || is_help(word[2]))) return command_usage(stdout, i, DONE);
    setvbuf(stdout, buffer, WHOLE_BUFFERS, sizeof buffer);
    return commands[i].operands == ANY ? run_any(i, words - 2, word + 2) : run_fixed(i, words - 2, word + 2);
}
