/* A log, entry by entry: the reading that list, replay, gaps and keep share. For a long log standard error tells how far it is. */

#include "qm.h"

/* A log of fewer bytes is read before anybody waits. */
enum { LONG = 1 << 24 };

/* Told where standard error is a terminal. */
static int is_told(qm_size length) {
    return length >= LONG && isatty(2);
}

static void wipe(void) {
    fprintf(stderr, "\r\33[K");
}

/* What was walked over is given back in such pieces, so that a long log does not fill the memory. Who looks back has it from the disk again, until the next piece. */
enum { PIECE = 1 << 24 };

void walk_give_back(struct walk *w) {
    qm_size whole = w->at / PIECE * PIECE;
    if (whole == w->given) return;
    madvise((void *) w->log.bytes, whole, NOT_NEEDED);
    w->given = whole;
}

/* Once for each hundredth. */
static void show(struct walk *w) {
    int hundredth = (int) (w->next / (w->log.length / 100));
    if (hundredth == w->shown) return;
    w->shown = hundredth;
    fprintf(stderr, "\rqm %s: %s: %d%%", w->command, w->path, hundredth);
}

void walk_over(struct walk *w, const char *command, const char *path, struct mapped log) {
    *w = (struct walk) {.command = command, .path = path, .log = log, .shown = -1};
    if (is_told(log.length)) w->shown = 0;
    w->refusal = qm_log_first(log.bytes, log.length, w->head, QM_HEAD);
    if (w->refusal == 0) w->next = w->head[QM_FIRST_PLACE];
}

int walk_begin(struct walk *w, const char *command, const char *path) {
    struct mapped log;
    if (map_file(command, path, &log) != DONE) return FAILED;
    walk_over(w, command, path, log);
    return DONE;
}

void walk_prints(struct walk *w) {
    if (isatty(1)) w->shown = -1;
}

void walk_printed(struct walk *w) {
    if (w->shown < 0 || !isatty(1)) return;
    if (w->shown > 0) wipe();
    fflush(stdout);
    w->shown = 0;
}

int walk_on(struct walk *w) {
    if (w->refusal == 0) w->refusal = qm_log_next(w->log.bytes, w->log.length, w->next, w->entry, QM_ENTRY);
    if (w->refusal != 0 || !w->entry[QM_FOUND]) {
        if (w->shown > 0) wipe();
        return 0;
    }
    w->entries++;
    w->at = w->next;
    w->next = w->entry[QM_NEXT_PLACE];
    walk_give_back(w);
    if (w->shown >= 0) show(w);
    return 1;
}

const qm_byte *walk_datagram(const struct walk *w) {
    return w->log.bytes + w->entry[QM_ENTRY_PLACE];
}

int walk_end(struct walk *w) {
    if (w->refusal == 0) printf("end %llu\n", w->entries);
    else printf("refused %u after %llu\n", w->refusal, w->entries);
    if (printed(w->command) != DONE) return FAILED;
    return w->refusal == 0 ? DONE : refused(w->command, w->path, w->refusal);
}

/* ---- one call over a whole log: how far it is nobody knows, but how long it has taken */

static const char *doing, *whose;
static qm_size bytes;
static unsigned seconds;

/* The call asks the C library for nothing, so nothing of it is under way when this comes. */
static void tell_seconds(int number) {
    (void) number;
    fprintf(stderr, "\rqm %s: %s: %llu MB, %u s", doing, whose, bytes >> 20, seconds++);
    alarm(1);
}

int working(const char *command, const char *path, qm_size length) {
    if (!is_told(length)) return 0;
    doing = command;
    whose = path;
    bytes = length;
    signal(ALARM, tell_seconds);
    tell_seconds(ALARM);
    return 1;
}

void worked(int shown) {
    if (!shown) return;
    alarm(0);
    wipe();
}
