/* Faults that no test can bring about otherwise, planted before the calls of qm keep: the linker puts __wrap_NAME in NAME's place. The environment's FAULT names
   the one that fails. */

#include "../../include/quartzmitten.h"
#include "../../tools/system.h"

char *getenv(const char *name);
int usleep(unsigned microseconds);
enum { NO_LOCKS = 37, INPUT_OUTPUT = 5, NO_SPACE = 28 };

int __real_flock(int file, int how);
int __real_fdatasync(int file);
int __real_fsync(int file);
int __real_open(const char *path, int how, int allowed);
int __real_ftruncate(int file, long length);
qm_u64 __real_qm_log_append(qm_byte *out, qm_size room, qm_size at, qm_u64 sender, qm_u64 tick, const qm_byte *datagram, qm_size length);

/* Whether it fails now, and by which error. */
static int fails(const char *name, int error) {
    const char *planted = getenv("FAULT");
    if (!planted || strcmp(planted, name) != 0) return 0;
    *__errno_location() = error;
    return 1;
}

int __wrap_flock(int file, int how) {
    return fails("flock", NO_LOCKS) ? -1 : __real_flock(file, how);
}

/* `told` is no fault: each sync is told, and takes as long as on a busy disk. */
int __wrap_fdatasync(int file) {
    if (fails("told", 0)) {
        fprintf(stderr, "a sync\n");
        usleep(20000);
    }
    return fails("fdatasync", INPUT_OUTPUT) ? -1 : __real_fdatasync(file);
}

int __wrap_fsync(int file) {
    return fails("fsync", INPUT_OUTPUT) ? -1 : __real_fsync(file);
}

int __wrap_ftruncate(int file, long length) {
    return fails("ftruncate", INPUT_OUTPUT) ? -1 : __real_ftruncate(file, length);
}

/* Of a log, or of what is put aside, the second that is begun. */
int __wrap_open(const char *path, int how, int allowed) {
    static int begun;
    if ((how & NOT_THERE_YET) && begun++ > 0 && fails("second", NO_SPACE)) return -1;
    return __real_open(path, how, allowed);
}

qm_u64 __wrap_qm_log_append(qm_byte *out, qm_size room, qm_size at, qm_u64 sender, qm_u64 tick, const qm_byte *datagram, qm_size length) {
    if (tick == 99 && fails("append", 0)) return QM_TOO_SHORT;
    return __real_qm_log_append(out, room, at, sender, tick, datagram, length);
}
