/* qm-asked: qm without anything proved, which knows how it is called. Before qm works it opens a file or a folder, makes one or asks for one: here it ends there. */

#include "../system.h"

enum { WELL_CALLED = 100 };

int open(const char *path, int how, ...) {
    (void) path, (void) how;
    _exit(WELL_CALLED);
}

struct folder *opendir(const char *path) {
    (void) path;
    _exit(WELL_CALLED);
}

int mkdir(const char *path, unsigned mode) {
    (void) path, (void) mode;
    _exit(WELL_CALLED);
}

int statx(int folder, const char *path, int how, unsigned wanted, struct facts *facts) {
    (void) folder, (void) path, (void) how, (void) wanted, (void) facts;
    _exit(WELL_CALLED);
}
