/* The index of a log: worked out, read from its file, extended by what was added to the log, and written. */

#include "index.h"
#include "out.h"

/* An index counts its rows in 32 bits. */
static const qm_u64 most_rows = 4294967295;

void index_close(struct index *ix) {
    free(ix->rows);
    *ix = (struct index) {0};
}

char *index_name(const char *command, const char *path) {
    char *name = malloc(strlen(path) + sizeof ".index");
    if (!name) failed(command, path);
    else sprintf(name, "%s.index", path);
    return name;
}

void index_doubted(const char *command, const char *name, qm_u32 refusal) {
    refused(command, name, refusal);
    fprintf(stderr, "qm %s: %s: it is not believed: the log itself is looked through\n", command, name);
}

int index_map(const char *command, const char *name, struct mapped *file, qm_u64 *head) {
    int opened = open(name, TO_READ);
    if (opened < 0) {
        if (*__errno_location() != NOT_THERE) failed(command, name);
        return 0;
    }
    int status = map_open_file(command, name, opened, file);
    close(opened);
    if (status != DONE) return 0;
    qm_u32 refusal = qm_index_file_head(file->bytes, file->length, head, QM_FILE_NUMBERS);
    if (refusal != 0) index_doubted(command, name, refusal);
    return refusal == 0;
}

/* Room for so many rows. */
static int widen(struct index *ix, qm_size rows) {
    if (rows <= ix->room && ix->rows) return 1;
    qm_u64 *wider = realloc(ix->rows, (rows + 1) * QM_ROW * sizeof *wider);
    if (!wider) return 0;
    ix->rows = wider;
    ix->room = rows;
    return 1;
}

int index_extend(struct index *ix, struct walk *w, const char *command, const char *path, struct mapped log) {
    walk_over(w, command, path, log);
    if (w->refusal == 0 && ix->covered > w->next) w->next = ix->covered;
    while (walk_on(w)) continue;
    /* a head that is refused covers nothing */
    if (w->next <= ix->covered) return DONE;
    if (!widen(ix, ix->many + w->entries)) return failed(command, path);
    qm_u64 most = ix->room < most_rows ? ix->room : most_rows;
    int shown = working(command, path, log.length);
    qm_u64 answer = qm_index_on(log.bytes, w->next, ix->covered, ix->rows, ix->room * QM_ROW, ix->many, (qm_u32) most);
    worked(shown);
    if (answer >> 32 == 0) return refused(command, path, (qm_u32) answer);
    ix->many = QM_INDEX_ROWS(answer);
    ix->covered = w->next;
    return DONE;
}

int index_ended(const struct walk *w, const char *done) {
    if (w->refusal == 0) return DONE;
    refused(w->command, w->path, w->refusal);
    if (w->next == 0) fprintf(stderr, "qm %s: %s: this is said of its head: nothing of it is %s\n", w->command, w->path, done);
    else fprintf(stderr, "qm %s: %s: this is said of the entry at place %llu: those before it are %s\n", w->command, w->path, w->next, done);
    return REFUSED;
}

/* ---- the file */

/* Its rows, where it can be believed: they are sorted, and the first and the last lead to entries of their keys. Answers whether they were taken; FAILED has no
   memory. */
static int load(struct index *ix, const char *command, const char *name, struct mapped log) {
    struct mapped file;
    qm_u64 head[QM_FILE_NUMBERS], place[QM_FIND];
    if (!index_map(command, name, &file, head)) return 0;
    if (!widen(ix, head[QM_FILE_ROWS])) {
        failed(command, name);
        return 0;
    }
    qm_u32 refusal = qm_index_file_rows(file.bytes, file.length, ix->rows, head[QM_FILE_ROWS] * QM_ROW);
    const qm_u64 *first = ix->rows;
    int some = refusal == 0 && head[QM_FILE_ROWS] > 0;
    if (refusal == 0)
        refusal = qm_index_file_find(log.bytes, log.length, file.bytes, file.length, some ? first[QM_ROW_SENDER] : 0, some ? (qm_u32) first[QM_ROW_SEQUENCE] : 0, place, QM_FIND);
    munmap((void *) file.bytes, file.length);
    if (refusal != 0) {
        index_doubted(command, name, refusal);
        return 0;
    }
    ix->many = head[QM_FILE_ROWS];
    ix->covered = head[QM_FILE_COVERED];
    return 1;
}

static int write_file(const struct index *ix, const char *command, const char *name) {
    struct out o;
    qm_byte *file = malloc(QM_INDEX_FILE(ix->many));
    int status = file ? DONE : failed(command, name);
    if (status == DONE) status = out_begin(&o, command, name, 1);
    if (status == DONE) {
        /* as many rows and bytes as are asked for: 13 does not come */
        qm_index_file_write(ix->rows, ix->many * QM_ROW, ix->many, ix->covered, file, QM_INDEX_FILE(ix->many));
        status = out_put(&o, file, QM_INDEX_FILE(ix->many));
        if (status == DONE) status = out_end(&o, 1);
        else out_drop(&o);
    }
    free(file);
    return status;
}

/* Reads what was added to the log since its index was written, if there is one, and writes it where it is another. */
static int renew(struct index *ix, struct walk *w, const char *command, const char *path, const char *name) {
    struct mapped log;
    if (map_file(command, path, &log) != DONE) return FAILED;
    int there = load(ix, command, name, log);
    qm_size covered = ix->covered;
    int status = index_extend(ix, w, command, path, log);
    if (status == DONE && !(there && ix->covered == covered)) status = write_file(ix, command, name);
    if (log.length > 0) munmap((void *) log.bytes, log.length);
    return status;
}

int index_log(const char *command, const char *path) {
    struct index ix = {0};
    struct walk w;
    char *name = index_name(command, path);
    if (!name) return FAILED;
    int status = renew(&ix, &w, command, path, name);
    if (status == DONE) {
        printf("indexed %llu\n", ix.many);
        status = printed(command) == DONE ? index_ended(&w, "indexed") : FAILED;
    }
    index_close(&ix);
    free(name);
    return status;
}
