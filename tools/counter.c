/* The count of all flights beside another walk over them. */

#include "counter.h"

/* So many entries are counted by one call. They have 16 MB at most, which is what a walk holds of a log. */
enum { STRETCH = 256 };

static struct count_ended count_flight(struct counter *c, unsigned log) {
    struct count_ended ended = {0};
    struct totals told;
    struct walk w = {.log = c->logs->mapped[log]};
    flight_begin();
    do {
        ended.refusal = flight_stretch(&w, STRETCH, &told);
        ended.entries += told.entries;
        totals_add(&c->totals, &told);
    } while (ended.refusal == 0 && told.entries == STRETCH);
    return ended;
}

/* ---- the process that counts */

/* A log became shorter: the other process tells of it. */
static void end_quietly(int number) {
    (void) number;
    _exit(FAILED);
}

/* All flights: how each ended, and then the totals and the map. Where it is not heard it ends: the other one says so. */
static void count_to(struct counter *c, FILE *to) {
    struct count_ended ended = {0};
    for (unsigned log = 0; ended.refusal == 0 && log < c->logs->many; log++) {
        ended = count_flight(c, log);
        if (fwrite(&ended, sizeof ended, 1, to) != 1 || fflush(to) != 0) return;
    }
    if (ended.refusal != 0) return;
    fwrite(&c->totals, sizeof c->totals, 1, to);
    season_write(to);
    fflush(to);
}

static _Noreturn void count_apart(struct counter *c, int file) {
    FILE *to = fdopen(file, "w");
    prctl(ENDS_WITH_PARENT, KILLED);
    signal(BUS_ERROR, end_quietly);
    if (to) count_to(c, to);
    _exit(DONE);
}

/* ---- the one that asks */

void counter_begin(struct counter *c, const struct logs *logs) {
    int ends[2];
    *c = (struct counter) {.logs = logs};
    if (pipe(ends) != 0) return;
    FILE *told = fdopen(ends[0], "r");
    int process = told ? fork() : -1;
    if (process == 0) {
        fclose(told);
        count_apart(c, ends[1]);
    }
    close(ends[1]);
    if (process > 0) {
        c->process = process;
        c->told = told;
    } else if (told) {
        fclose(told);
    } else {
        close(ends[0]);
    }
}

/* It has told less than all. */
static int ended_early(struct counter *c, const char *path) {
    int status = 0;
    waitpid(c->process, &status, 0);
    c->process = 0;
    if (status == FAILED << 8) became_shorter(BUS_ERROR);
    fprintf(stderr, "qm sums: %s: the process that counts was ended\n", path);
    return FAILED;
}

int counter_flight(struct counter *c, unsigned log, struct count_ended *ended) {
    if (c->process == 0) *ended = count_flight(c, log);
    else if (fread(ended, sizeof *ended, 1, c->told) != 1) return ended_early(c, c->logs->path[log]);
    return DONE;
}

int counter_end(struct counter *c) {
    if (c->process == 0) return DONE;
    int good = fread(&c->totals, sizeof c->totals, 1, c->told) == 1 && season_read(c->told);
    return good ? DONE : ended_early(c, c->logs->path[c->logs->many - 1]);
}

void counter_close(struct counter *c) {
    if (c->told) fclose(c->told);
    if (c->process > 0) {
        kill(c->process, KILLED);
        waitpid(c->process, 0, 0);
    }
    *c = (struct counter) {0};
}
