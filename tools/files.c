/* Files as they lie on disk, of any size, in memory. */

#include "qm.h"

/* A mapped file that another program makes shorter has no bytes any more where we read. */
_Noreturn void became_shorter(int number) {
    static const char why[] = "qm: the file became shorter while it was read\n";
    (void) number;
    write(2, why, sizeof why - 1);
    _exit(FAILED);
}

int map_open_file(const char *command, const char *path, int file, struct mapped *m) {
    static qm_byte nothing;
    /* a directory opens, and cannot be read */
    if (read(file, &nothing, 0) < 0) return failed(command, path);
    long length = lseek(file, 0, FROM_END);
    if (length < 0) {
        fprintf(stderr, "qm %s: %s: not a file on disk, which alone can be mapped\n", command, path);
        return FAILED;
    }
    m->length = (qm_size) length;
    m->bytes = &nothing;
    /* no pages can be asked for where there are no bytes */
    if (length == 0) return DONE;
    void *at = mmap(0, m->length, MAY_READ, OF_A_FILE, file, 0);
    if (at == (void *) -1) return failed(command, path);
    madvise(at, m->length, IN_ORDER);
    signal(BUS_ERROR, became_shorter);
    m->bytes = at;
    return DONE;
}

int map_file(const char *command, const char *path, struct mapped *m) {
    int file = open(path, TO_READ);
    if (file < 0) return failed(command, path);
    int status = map_open_file(command, path, file, m);
    close(file);
    return status;
}
