/* A file that is written whole or not at all. */

#include "out.h"

enum { WAITING = 1 << 18 };

/* Whether there are facts of a path; of an open file the path is empty. */
static int facts_of(int file, const char *path, struct facts *facts) {
    return statx(file, path, *path ? 0 : THE_FILE_ITSELF, BASIC_FACTS, facts) == 0;
}

int out_exists(const char *path) {
    struct facts facts;
    return facts_of(THIS_FOLDER, path, &facts);
}

/* DONE where a file of this name may be written. A device or a folder is never replaced. */
static int is_free(const char *command, const char *path, int replace) {
    struct facts facts;
    if (!facts_of(THIS_FOLDER, path, &facts)) return DONE;
    if ((facts.mode & MODE_KIND) != PLAIN_FILE) fprintf(stderr, "qm %s: %s: it is there already, and is no plain file\n", command, path);
    else if (!replace) fprintf(stderr, "qm %s: %s: it is there already, and nothing is written over it\n", command, path);
    else return DONE;
    return FAILED;
}

/* Whether the open file is still the one of that name: another program may have given it its name since. */
static int is_still(int file, const char *path) {
    struct facts ours, theirs;
    if (!facts_of(file, "", &ours) || !facts_of(THIS_FOLDER, path, &theirs)) return 0;
    return ours.number == theirs.number && ours.device[0] == theirs.device[0] && ours.device[1] == theirs.device[1];
}

/* Opens PATH.part, alone: what another program left there when it was killed is written over. Answers the file, or -1 with the reason said. */
static int open_part(const struct out *o) {
    for (;;) {
        int file = open(o->part, TO_READ_AND_WRITE | CREATED, FOR_ALL_TO_READ);
        if (file < 0) {
            failed(o->command, o->part);
            return -1;
        }
        if (flock(file, ALONE | AT_ONCE) != 0) {
            fprintf(stderr, "qm %s: %s: another program writes it now\n", o->command, o->part);
            close(file);
            return -1;
        }
        if (is_still(file, o->part)) return file;
        close(file);
    }
}

/* What it holds goes back; the name of the part may be another program's by now. */
static void let_go(struct out *o) {
    close(o->file);
    free(o->part);
    free(o->waiting);
}

int out_begin(struct out *o, const char *command, const char *path, int replace) {
    if (is_free(command, path, replace) != DONE) return FAILED;
    *o = (struct out) {.command = command, .path = path, .file = -1};
    o->part = malloc(strlen(path) + sizeof ".part");
    o->waiting = malloc(WAITING);
    if (!o->part || !o->waiting) {
        failed(command, path);
    } else {
        sprintf(o->part, "%s.part", path);
        o->file = open_part(o);
    }
    /* a file over the system's limit is a failure to write like others */
    signal(FILE_TOO_LARGE, PASSED_OVER);
    if (o->file >= 0) {
        if (ftruncate(o->file, 0) == 0) return DONE;
        failed(command, o->part);
        out_drop(o);
        return FAILED;
    }
    free(o->part);
    free(o->waiting);
    return FAILED;
}

static int write_all(const struct out *o, const qm_byte *bytes, qm_size length) {
    while (length > 0) {
        long wrote = write(o->file, bytes, length);
        if (wrote > 0) {
            bytes += wrote;
            length -= (qm_size) wrote;
        } else if (wrote == 0 || *__errno_location() != INTERRUPTED) {
            return failed(o->command, o->part);
        }
    }
    return DONE;
}

static int write_waiting(struct out *o) {
    qm_size many = o->many;
    o->many = 0;
    return write_all(o, o->waiting, many);
}

int out_put(struct out *o, const void *bytes, qm_size length) {
    if (o->many + length > WAITING && write_waiting(o) != DONE) return FAILED;
    if (length > WAITING) return write_all(o, bytes, length);
    memcpy(o->waiting + o->many, bytes, length);
    o->many += length;
    return DONE;
}

int out_end(struct out *o, int synced) {
    int status = write_waiting(o);
    if (status == DONE && synced && fdatasync(o->file) != 0) status = failed(o->command, o->part);
    if (status == DONE && rename(o->part, o->path) != 0) status = failed(o->command, o->path);
    if (status == DONE) let_go(o);
    else out_drop(o);
    return status;
}

void out_drop(struct out *o) {
    unlink(o->part);
    let_go(o);
}
