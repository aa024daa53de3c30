/* Faults that no test can bring about otherwise, planted before the calls of qm sums: the linker puts __wrap_NAME in NAME's place. The environment's FAULT names the one that
   comes. */

#include "../../tools/season.h"

char *getenv(const char *name);
int getpid(void);
int usleep(unsigned microseconds);

int __real_pipe(int ends[2]);
FILE *__real_fdopen(int file, const char *how);
int __real_fork(void);
void __real_flight_begin(void);
void __real_season_write(FILE *to);

/* Whether this is the process that counts. */
static int counts;

static int comes(const char *name) {
    const char *planted = getenv("FAULT");
    return planted && strcmp(planted, name) == 0;
}

int __wrap_pipe(int ends[2]) {
    return comes("no pipe") ? -1 : __real_pipe(ends);
}

FILE *__wrap_fdopen(int file, const char *how) {
    return comes(how[0] == 'r' ? "nothing is read" : "nothing is written") ? 0 : __real_fdopen(file, how);
}

int __wrap_fork(void) {
    int process = comes("no process") ? -1 : __real_fork();
    counts = process == 0;
    return process;
}

/* It is killed in its first flight, or its second; a log became shorter; it takes as long as nobody waits. */
void __wrap_flight_begin(void) {
    static int begun;
    begun++;
    if (counts && comes(begun == 1 ? "killed" : "killed in the second")) kill(getpid(), KILLED);
    if (counts && comes("shorter")) kill(getpid(), BUS_ERROR);
    if (counts && comes("slow")) {
        fprintf(stderr, "begun\n");
        usleep(600000000);
    }
    __real_flight_begin();
}

void __wrap_season_write(FILE *to) {
    if (comes("killed at the end")) kill(getpid(), KILLED);
    __real_season_write(to);
}
