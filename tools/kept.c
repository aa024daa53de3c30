/* A log on disk that entries are put to. */

#include "kept.h"
#include "numbered.h"

/* ---- writing */

/* All the bytes at a place of a file. Answers how many went out: fewer where the system has refused. */
static qm_size put_at(int file, const qm_byte *bytes, qm_size length, qm_size at) {
    qm_size done = 0;
    while (done < length) {
        long wrote = pwrite(file, bytes + done, length - done, (long) (at + done));
        if (wrote > 0) done += (qm_size) wrote;
        else if (wrote == 0 || *__errno_location() != INTERRUPTED) break;
    }
    return done;
}

static int put(struct kept *k, const qm_byte *bytes, qm_size length, const char **why) {
    if (put_at(k->file, bytes, length, k->place) == length) {
        k->place += length;
        return DONE;
    }
    *why = strerror(*__errno_location());
    if (ftruncate(k->file, (long) k->place) != 0) fprintf(stderr, "qm %s: %s: what was written of a last entry could not be taken off: %s\n", k->command, k->path, strerror(*__errno_location()));
    return FAILED;
}

qm_size kept_entry(const struct kept *k, qm_byte *entry, qm_u64 sender, qm_u64 tick, const qm_byte *datagram, qm_size length) {
    qm_u64 answer = qm_log_append(entry, KEPT_ENTRY, 0, sender, tick, datagram, length);
    if (answer >> 32) return QM_LOG_LENGTH(answer);
    refused(k->command, k->path, (qm_u32) answer);
    return 0;
}

int kept_put(struct kept *k, const qm_byte *entry, qm_size length, const char **why) {
    if (put(k, entry, length, why) != DONE) return FAILED;
    k->entries++;
    return DONE;
}

int kept_sync(struct kept *k) {
    return fdatasync(k->file) == 0 ? DONE : failed(k->command, k->path);
}

/* ---- the head */

enum { MOST_HEAD = 16 };

static qm_size head_of(qm_byte *head) {
    return QM_LOG_LENGTH(qm_log_begin(head, MOST_HEAD, QM_MAX_PAYLOAD));
}

static int begin(struct kept *k) {
    qm_byte head[MOST_HEAD];
    const char *why;
    if (put(k, head, head_of(head), &why) != DONE) {
        fprintf(stderr, "qm %s: %s: %s; 0 whole entries are kept\n", k->command, k->path, why);
        return FAILED;
    }
    k->limit = QM_MAX_PAYLOAD;
    if (!k->synced) return DONE;
    return kept_sync(k) == DONE ? sync_folder(k->command, k->path) : FAILED;
}

/* ---- mending */

/* Whether a file that is refused was a log at all: it begins as the logs that are written here, or an entry of it is a datagram. */
static int was_log(const struct walk *w) {
    qm_byte head[MOST_HEAD];
    qm_size length = head_of(head);
    qm_u32 fields[QM_FIELDS];
    struct walk again;
    if (memcmp(w->log.bytes, head, w->log.length < length ? w->log.length : length) == 0) return 1;
    walk_over(&again, w->command, w->path, w->log);
    while (walk_on(&again))
        if (qm_read_datagram(walk_datagram(&again), again.entry[QM_ENTRY_LENGTH], fields, QM_FIELDS) == 0) return 1;
    return 0;
}

/* The bytes that the log loses, in a file of their own, LOG.cut-1 or the next that is free; on disk before the log is touched. */
static int put_aside(const struct kept *k, const qm_byte *bytes, qm_size length, char **aside) {
    int file = -1;
    *aside = malloc(strlen(k->path) + 32);
    if (!*aside) return failed(k->command, k->path);
    for (qm_u64 n = 1; file < 0; n++) {
        sprintf(*aside, "%s.cut-%llu", k->path, n);
        file = open(*aside, TO_READ_AND_WRITE | CREATED | NOT_THERE_YET, FOR_ALL_TO_READ);
        if (file < 0 && *__errno_location() != IS_THERE) return failed(k->command, *aside);
    }
    int status = put_at(file, bytes, length, 0) == length && fsync(file) == 0 ? DONE : failed(k->command, *aside);
    close(file);
    if (status == DONE) status = sync_folder(k->command, *aside);
    else unlink(*aside);
    return status;
}

/* Takes off what is refused, from the walk's end on. */
static int mend(struct kept *k, const struct walk *w) {
    qm_size over = w->log.length - w->next;
    char *aside;
    int status = put_aside(k, w->log.bytes + w->next, over, &aside);
    if (status == DONE && ftruncate(k->file, (long) w->next) != 0) status = failed(k->command, k->path);
    if (status == DONE) {
        fprintf(stderr, w->refusal == QM_LOG_CUT ? "qm %s: %s: was cut off inside %s: " : "qm %s: %s: is refused inside %s: ", k->command, k->path, w->next == 0 ? "its head" : "an entry");
        fprintf(stderr, "%llu bytes of it are put into %s, and the log ", over, aside);
        if (w->next == 0) fprintf(stderr, "is begun\n");
        else fprintf(stderr, "goes on after its %llu whole entries\n", w->entries);
    }
    free(aside);
    return status;
}

/* Says why it is left as it is, and the ways on. */
static int left_alone(const struct walk *w) {
    refused(w->command, w->path, w->refusal);
    qm_size over = w->log.length - w->next;
    const char *why = w->refusal != QM_LOG_CUT ? "" : over > KEPT_ENTRY ? ", more than one entry can have" : ", and no datagram stands before them: it may never have been a log";
    fprintf(stderr, "qm %s: %s: nothing was changed. %llu bytes are refused, from byte %llu on%s. With --repair they go into a file of their own, and the log goes on "
            "after its %llu whole entries; with --new another log is begun\n", w->command, w->path, over, w->next, why, w->entries);
    return REFUSED;
}

/* ---- opening */

/* Where the log goes on. */
static int resume(struct kept *k) {
    struct mapped log;
    struct walk w;
    int status = map_open_file(k->command, k->path, k->file, &log);
    if (status != DONE) return status;
    walk_over(&w, k->command, k->path, log);
    while (walk_on(&w)) continue;
    if (w.refusal != 0 && log.length > 0) {
        int mended = k->repaired || (w.refusal == QM_LOG_CUT && log.length - w.next <= KEPT_ENTRY && was_log(&w));
        status = mended ? mend(k, &w) : left_alone(&w);
    }
    if (log.length > 0) munmap((void *) log.bytes, log.length);
    k->place = w.next;
    k->entries = w.entries;
    k->limit = w.head[QM_LOG_PAYLOAD];
    if (status != DONE) return status;
    return k->place == 0 ? begin(k) : DONE;
}

static int open_alone(struct kept *k) {
    if (flock(k->file, ALONE | AT_ONCE) == 0) return resume(k);
    if (*__errno_location() != WOULD_WAIT) return failed(k->command, k->path);
    fprintf(stderr, "qm %s: %s: another program keeps it now\n", k->command, k->path);
    return FAILED;
}

int kept_open(struct kept *k, int how) {
    k->file = open(k->path, TO_READ_AND_WRITE | CREATED | (how == KEPT_NEW ? NOT_THERE_YET : 0), FOR_ALL_TO_READ);
    if (k->file < 0) return how == KEPT_NEW && *__errno_location() == IS_THERE ? KEPT_TAKEN : failed(k->command, k->path);
    int status = open_alone(k);
    if (status != DONE && how == KEPT_NEW) unlink(k->path);
    return status;
}

void kept_close(struct kept *k) {
    if (k->file >= 0) close(k->file);
    k->file = -1;
}
