/* qm keep LOG < RECORDS: appends datagrams to a log as they come. Each goes to the file as one whole entry before it is acknowledged, so that whoever kills
   this program at any moment leaves whole entries and at most one that is cut; the next start puts that one aside. */

#include "index.h"
#include "kept.h"
#include "logs.h"
#include "numbered.h"

/* A record: sender, tick, length, and the bytes. */
enum { HEAD = 8 + 8 + 2 };
/* So many bytes wait for one sync at most, where more input is there already; and so long is waited for the rest of a record when the program is to end. */
enum { MOST_UNSYNCED = 1 << 23, LAST_SECONDS = 1 };

static qm_byte input[1 << 20], entry[KEPT_ENTRY];

struct keeper {
    const char *given;                  /* LOG, as it was named */
    int quiet, synced, repaired, begun_anew, indexed;
    qm_u64 every_seconds, every_bytes;  /* how long a log is kept, and how large; 0 without end */
    struct kept log;                    /* the one that is kept now */
    qm_u64 number;                      /* and its number; 0 where it is LOG itself */
    qm_u64 first;                       /* the number of the first that this run has kept */
    long begun;                         /* the second when it was opened */
    qm_u64 acknowledged;                /* how many entries of it were, or were there before */
    qm_size unsynced;                   /* bytes since */
    qm_u64 records;                     /* that this run has kept */
    int output;                         /* FAILED once nobody could be told */
};

/* ---- signals */

static volatile int ending;

static void end_soon(int number) {
    ending = number;
}

/* They come only between one reading and the next, and while nobody takes the lines: what was read is kept first. */
static struct signals while_waiting;
static const struct timespec at_once;

static void hold_signals(void) {
    struct signals held;
    sigemptyset(&held);
    sigaddset(&held, INTERRUPT);
    sigaddset(&held, TERMINATE);
    sigprocmask(HELD_BACK_TOO, &held, &while_waiting);
    signal(INTERRUPT, end_soon);
    signal(TERMINATE, end_soon);
    /* a listener that goes away, and a file over the system's limit, are failures to write like others */
    signal(NO_LISTENER, PASSED_OVER);
    signal(FILE_TOO_LARGE, PASSED_OVER);
}

/* Whether input is there, or its end. A signal is an answer too: no. */
static int waits(const struct timespec *most) {
    struct waited in = {.file = 0, .for_what = INPUT};
    return ppoll(&in, 1, most, &while_waiting) > 0;
}

/* Whether what is printed can go out; it is waited for, and a listener that does not read holds up the keeping. A signal is an answer too: no. */
static int is_heard(void) {
    struct waited out = {.file = 1, .for_what = OUTPUT};
    return ppoll(&out, 1, ending ? &at_once : 0, &while_waiting) > 0;
}

/* Where input is there a wait ends at once, and no signal comes: so after what was read it is looked whether one did. */
static void look_for_signals(void) {
    ppoll(0, 0, &at_once, &while_waiting);
}

static long second(void) {
    struct timespec t;
    clock_gettime(STEADY_CLOCK, &t);
    return t.seconds;
}

/* ---- what is said */

/* A pipe that has room at all has it for 4,096 bytes; and the longest line. */
enum { SURE_ROOM = 4096, LONGEST_LINE = 40 };

/* A line that nobody takes ends the lines, and not the keeping. */
static void tell(struct keeper *k) {
    if (k->output != DONE) return;
    if (!is_heard()) {
        k->output = FAILED;
        fprintf(stderr, "qm keep: standard output: nobody reads the lines, and the last of them are dropped\n");
        __fpurge(stdout);
    } else if (fflush(stdout) != 0 || ferror(stdout)) {
        k->output = failed("keep", "standard output");
        fprintf(stderr, "qm keep: %s: records are kept on, and no line says so\n", k->log.path);
    }
}

/* What was written is on its way: say so. */
static int acknowledge(struct keeper *k) {
    if (k->acknowledged == k->log.entries) return DONE;
    if (k->synced && kept_sync(&k->log) != DONE) return FAILED;
    k->unsynced = 0;
    for (int bytes = 0; !k->quiet && k->output == DONE && k->acknowledged < k->log.entries;) {
        bytes += printf("kept %llu%s\n", ++k->acknowledged, k->synced ? " synced" : "");
        if (bytes + LONGEST_LINE <= SURE_ROOM && k->acknowledged < k->log.entries) continue;
        tell(k);
        bytes = 0;
    }
    k->acknowledged = k->log.entries;
    return DONE;
}

/* A log of smaller limits than those that tiles may have now. */
static void tell_limits(const struct keeper *k) {
    if (k->log.limit >= QM_MAX_PAYLOAD) return;
    fprintf(stderr, "qm keep: %s: a log for payloads of at most %llu bytes: larger tiles are kept in it, and refused by 6 when it is counted. --new begins another log\n", k->log.path,
            k->log.limit);
}

/* ---- one log after another */

/* Opens the log of a number, of 0 LOG itself. */
static int open_log(const struct keeper *k, qm_u64 number, int how, struct kept *log) {
    *log = (struct kept) {.command = "keep", .path = numbered_path(k->given, number), .synced = k->synced, .repaired = k->repaired, .file = -1};
    return log->path ? kept_open(log, how) : failed("keep", k->given);
}

static void close_log(struct kept *log) {
    kept_close(log);
    free((void *) log->path);
    log->path = 0;
}

/* Begins a log under the next number that is free. */
static int begin_next(const struct keeper *k, struct kept *log, qm_u64 *number) {
    int status = numbered_last("keep", k->given, number);
    if (status != DONE) return status;
    while ((status = open_log(k, ++*number, KEPT_NEW, log)) == KEPT_TAKEN) close_log(log);
    return status;
}

/* It is the one that is kept from now on. */
static void take_log(struct keeper *k, struct kept log, qm_u64 number) {
    close_log(&k->log);
    k->log = log;
    k->number = number;
    k->begun = second();
    k->acknowledged = log.entries;
    if (k->quiet || number == 0 || k->output != DONE) return;
    printf("log %s\n", log.path);
    tell(k);
}

/* LOG itself; or, of those named by number, the next, or the last that there is. */
static int open_first(struct keeper *k) {
    int numbered = k->begun_anew || k->every_seconds > 0 || k->every_bytes > 0;
    struct kept log = {.file = -1};
    qm_u64 number = 0;
    int status = numbered ? numbered_last("keep", k->given, &number) : DONE;
    if (status == DONE && numbered && (k->begun_anew || number == 0)) status = begin_next(k, &log, &number);
    else if (status == DONE) status = open_log(k, number, KEPT_ANY, &log);
    k->first = number;
    if (status == DONE) take_log(k, log, number);
    else close_log(&log);
    if (status == DONE) tell_limits(k);
    return status;
}

/* Whether the log has been kept long enough, or would become too large with so many bytes more. Every log has an entry. */
static int is_due(const struct keeper *k, qm_size more) {
    if (k->log.entries == 0) return 0;
    if (k->every_bytes > 0 && k->log.place + more > k->every_bytes) return 1;
    return k->every_seconds > 0 && (qm_u64) (second() - k->begun) >= k->every_seconds;
}

/* The next log. Where none can be begun the keeping goes on in this one. */
static int next_log(struct keeper *k) {
    struct kept log;
    qm_u64 number;
    if (acknowledge(k) != DONE || kept_sync(&k->log) != DONE) return FAILED;
    if (begin_next(k, &log, &number) == DONE) {
        take_log(k, log, number);
        return DONE;
    }
    close_log(&log);
    fprintf(stderr, "qm keep: %s: records are kept on in this one\n", k->log.path);
    k->every_seconds = k->every_bytes = 0;
    return DONE;
}

/* ---- records */

static qm_u64 number_at(const qm_byte *from, int bytes) {
    qm_u64 n = 0;
    while (bytes-- > 0) n = n << 8 | *from++;
    return n;
}

static int put_record(struct keeper *k, const qm_byte *record, qm_size length) {
    const char *why;
    qm_size bytes = kept_entry(&k->log, entry, number_at(record, 8), number_at(record + 8, 8), record + HEAD, length);
    if (bytes == 0) return FAILED;
    if (is_due(k, bytes) && next_log(k) != DONE) return FAILED;
    if (kept_put(&k->log, entry, bytes, &why) == DONE) {
        k->unsynced += bytes;
        k->records++;
        return DONE;
    }
    acknowledge(k);
    fprintf(stderr, "qm keep: %s: %s; %llu whole entries are kept\n", k->log.path, why, k->log.entries);
    return FAILED;
}

/* The bytes that the record at the start of `length` bytes has in all; as far as they tell. */
static qm_size record_length(const qm_byte *at, qm_size length) {
    return length < HEAD ? HEAD : HEAD + number_at(at + 16, 2);
}

/* The whole records among `length` bytes of input. Answers how many bytes they are, and in `status` whether all were kept. */
static qm_size put_records(struct keeper *k, qm_size length, int *status) {
    qm_size at = 0;
    *status = DONE;
    while (*status == DONE && length - at >= record_length(input + at, length - at)) {
        qm_size bytes = record_length(input + at, length - at);
        *status = put_record(k, input + at, bytes - HEAD);
        if (*status == DONE) at += bytes;
    }
    return at;
}

/* Reads at most so many bytes behind those that are there. Answers what read does, and says why it failed. */
static long read_more(qm_size length, qm_size most) {
    long came;
    do came = read(0, input + length, most);
    while (came < 0 && *__errno_location() == INTERRUPTED);
    if (came < 0) failed("keep", "standard input");
    return came;
}

/* ---- the end */

/* The rest of a record that has begun to come, where it comes at once. Answers how many bytes of it are here. */
static qm_size last_record(qm_size length) {
    struct timespec most = {.seconds = LAST_SECONDS};
    long until = second() + 2 * LAST_SECONDS;
    while (length > 0 && length < record_length(input, length) && second() < until && waits(&most)) {
        long came = read_more(length, record_length(input, length) - length);
        if (came <= 0) break;
        length += (qm_size) came;
    }
    return length;
}

static int ended(struct keeper *k, qm_size length, int status) {
    if (status != DONE || acknowledge(k) != DONE || kept_sync(&k->log) != DONE) return FAILED;
    if (ending) fprintf(stderr, "qm keep: %s: ended by a signal: %llu entries are kept, synced, %llu records by this run\n", k->log.path, k->log.entries, k->records);
    if (length == 0) return k->output;
    fprintf(stderr, "qm keep: standard input ends inside a record: %llu bytes of it are not kept\n", length);
    return FAILED;
}

static int keep_all(struct keeper *k) {
    qm_size length = 0;
    for (int status;;) {
        qm_size taken = put_records(k, length, &status);
        length -= taken;
        /* a record that comes a byte at a time is not moved at each byte */
        if (taken > 0) memmove(input, input + taken, length);
        if (status != DONE) return FAILED;
        /* one sync is for all records that wait */
        if (!k->synced || k->unsynced >= MOST_UNSYNCED || !waits(&at_once)) status = acknowledge(k);
        if (status != DONE) return FAILED;
        look_for_signals();
        if (!ending && !waits(0) && !ending) continue;
        if (ending) {
            length = last_record(length);
            length -= put_records(k, length, &status);
            return ended(k, length, status);
        }
        long came = read_more(length, sizeof input - length);
        if (came <= 0) return ended(k, length, came < 0 ? FAILED : DONE);
        length += (qm_size) came;
    }
}

/* A pipe then holds as much as one turn reads. Where so much is not allowed it is half of it, and so on; where standard input is no pipe, nothing happens. */
static void widen_pipe(void) {
    for (int size = (int) sizeof input; size > 1 << 16 && fcntl(0, PIPE_SIZE, size) < 0; size /= 2) continue;
}

/* Each log that this run has kept gets its index, or has it extended. */
static int index_kept(const struct keeper *k) {
    int status = DONE;
    for (qm_u64 number = k->first; number <= k->number; number++) {
        char *path = numbered_path(k->given, number);
        int one = path ? index_log("keep", path) : failed("keep", k->given);
        if (one != DONE) status = one;
        free(path);
    }
    return status;
}

/* ---- the command line */

/* How long, 3600s, or how large, 500MB. */
static int take_every(struct keeper *k, char *word) {
    static const char why[] = "--every takes how long or how large a log becomes: 3600s or 500MB";
    qm_size length = strlen(word);
    int seconds = length > 1 && word[length - 1] == 's', bytes = length > 2 && strcmp(word + length - 2, "MB") == 0;
    char unit = seconds ? 's' : 'M', *end = word + length - (seconds ? 1 : 2);
    qm_u64 n = 0;
    if (!seconds && !bytes) return called_wrong("keep", word, why);
    *end = 0;
    int good = is_number(word, 1000000000, &n) && n > 0;
    *end = unit;
    if (!good) return called_wrong("keep", word, why);
    if (seconds) k->every_seconds = n;
    else k->every_bytes = 1000000 * n;
    return DONE;
}

static int read_option(struct keeper *k, int words, char **word, int *at) {
    char *option = word[(*at)++];
    if (strcmp(option, "--every") == 0) {
        if (*at == words) return called_wrong("keep", option, "how long or how large is missing: 3600s or 500MB");
        return take_every(k, word[(*at)++]);
    }
    if (strcmp(option, "--sync") == 0) k->synced = 1;
    else if (strcmp(option, "--quiet") == 0) k->quiet = 1;
    else if (strcmp(option, "--repair") == 0) k->repaired = 1;
    else if (strcmp(option, "--new") == 0) k->begun_anew = 1;
    else if (strcmp(option, "--index") == 0) k->indexed = 1;
    else return called_wrong("keep", option, "there is no such option");
    return DONE;
}

int keep_command(int words, char **word) {
    struct keeper k = {.log.file = -1, .output = DONE};
    int at = 0;
    while (at < words && is_option(word[at]))
        if (read_option(&k, words, word, &at) != DONE) return USAGE;
    if (at == words) return called_wrong("keep", "LOG", "no log is named");
    if (words - at > 1) return called_wrong("keep", word[at + 1], is_option(word[at + 1]) ? "options stand before the log" : "one log is named already");
    k.given = word[at];
    hold_signals();
    widen_pipe();
    int status = open_first(&k);
    if (status != DONE) {
        close_log(&k.log);
        return status;
    }
    status = keep_all(&k);
    close_log(&k.log);
    int indexed = k.indexed ? index_kept(&k) : DONE;
    return status == DONE ? indexed : status;
}
