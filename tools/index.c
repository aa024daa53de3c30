/* qm index LOG: the index of a log in a file beside it, LOG.index, written or extended. qm find LOG SENDER SEQUENCE: where the first entry of a key begins, by
   that file where there is one. */

#include "index.h"
#include "logs.h"

/* ---- qm index --print: the lines of the program index_list, of a log of any length, from the log itself */

static int print_index(const char *path) {
    struct index ix = {0};
    struct walk w;
    struct mapped log;
    if (map_file("index", path, &log) != DONE) return FAILED;
    int status = index_extend(&ix, &w, "index", path, log);
    for (qm_size i = 0; status == DONE && i < ix.many; i++) {
        const qm_u64 *row = ix.rows + i * QM_ROW;
        printf("sender %llu sequence %llu place %llu\n", row[QM_ROW_SENDER], row[QM_ROW_SEQUENCE], row[QM_ROW_PLACE]);
    }
    if (status == DONE) {
        printf("end %llu\n", ix.many);
        status = printed("index") == DONE ? index_ended(&w, "indexed") : FAILED;
    }
    index_close(&ix);
    return status;
}

/* ---- qm index --check: the file beside the index worked out afresh of the bytes that it covers */

/* Goes over the whole log. Answers whether so many bytes of it are its head and whole entries; none are too. */
static int are_whole(struct walk *w, const char *path, struct mapped log, qm_u64 covered) {
    walk_over(w, "index", path, log);
    int whole = covered == 0 || (w->refusal == 0 && covered == w->next);
    while (walk_on(w))
        if (covered == w->next) whole = 1;
    return whole;
}

/* Whether the bytes are the index file of the log's first bytes. DONE, or FAILED with the reason said. */
static int compare(struct mapped file, struct mapped log, const char *path, qm_u64 covered, int *same) {
    struct index ix = {0};
    struct walk w;
    log.length = covered;
    int status = index_extend(&ix, &w, "index", path, log);
    qm_size length = QM_INDEX_FILE(ix.many);
    *same = status == DONE && ix.covered == covered && length == file.length;
    qm_byte *afresh = *same ? malloc(length) : 0;
    if (*same && !afresh) status = failed("index", path);
    if (afresh) {
        qm_index_file_write(ix.rows, ix.many * QM_ROW, ix.many, covered, afresh, length);
        *same = memcmp(afresh, file.bytes, length) == 0;
    }
    free(afresh);
    index_close(&ix);
    return status;
}

static int check_file(const char *path, const char *name) {
    struct mapped log, file;
    struct walk w;
    qm_u64 head[QM_FILE_NUMBERS] = {0};
    int same = 0;
    if (map_file("index", path, &log) != DONE || map_file("index", name, &file) != DONE) return FAILED;
    int form = qm_index_file_head(file.bytes, file.length, head, QM_FILE_NUMBERS) == 0;
    int whole = are_whole(&w, path, log, head[QM_FILE_COVERED]);
    if (form && whole && compare(file, log, path, head[QM_FILE_COVERED], &same) != DONE) return FAILED;
    if (same) printf("same %llu\n", head[QM_FILE_ROWS]);
    else printf("other\n");
    if (printed("index") != DONE) return FAILED;
    if (!same) fprintf(stderr, "qm index: %s: not the index of %s: where it is taken away, `qm index %s` writes it anew\n", name, path, path);
    else if (head[QM_FILE_COVERED] < w.next) fprintf(stderr, "qm index: %s: it covers %llu of %llu bytes: `qm index %s` extends it\n", name, head[QM_FILE_COVERED], w.next, path);
    int status = index_ended(&w, "looked through");
    return same ? status : REFUSED;
}

static int check_index(const char *path) {
    char *name = index_name("index", path);
    int status = name ? check_file(path, name) : FAILED;
    free(name);
    return status;
}

int index_command(int words, char **word) {
    int at = 0, print = 0, check = 0;
    for (; at < words && is_option(word[at]); at++) {
        if (strcmp(word[at], "--print") == 0) print = 1;
        else if (strcmp(word[at], "--check") == 0) check = 1;
        else return called_wrong("index", word[at], "there is no such option");
    }
    if (at == words) return called_wrong("index", "LOG", "no log is named");
    if (words - at > 1) return called_wrong("index", word[at + 1], is_option(word[at + 1]) ? "options stand before the log" : "one log is indexed at a time");
    if (print && check) return called_wrong("index", "--check", "it compares, and --print prints: one of the two");
    return print ? print_index(word[at]) : check ? check_index(word[at]) : index_log("index", word[at]);
}

/* ---- qm find */

/* Looks a key up in the index file, for the bytes that this covers, and answers how many these are; 0 where there is no file to believe. */
static qm_size find_in_file(const char *name, struct mapped log, qm_u64 sender, qm_u32 sequence, qm_u64 *place) {
    struct mapped file;
    qm_u64 head[QM_FILE_NUMBERS];
    if (!index_map("find", name, &file, head)) return 0;
    /* some twenty places of the file and three of the log: what stands behind each is not wanted */
    madvise((void *) file.bytes, file.length, ANYWHERE);
    if (log.length > 0) madvise((void *) log.bytes, log.length, ANYWHERE);
    qm_u32 refusal = qm_index_file_find(log.bytes, log.length, file.bytes, file.length, sender, sequence, place, QM_FIND);
    munmap((void *) file.bytes, file.length);
    if (log.length > 0) madvise((void *) log.bytes, log.length, IN_ORDER);
    if (refusal == 0) return head[QM_FILE_COVERED];
    index_doubted("find", name, refusal);
    return 0;
}

int find_command(const char *path, qm_u64 sender, qm_u64 sequence) {
    struct index rest = {0};
    struct mapped log;
    struct walk w;
    qm_u64 place[QM_FIND] = {0};
    char *name = index_name("find", path);
    if (!name) return FAILED;
    int status = map_file("find", path, &log);
    if (status == DONE) {
        rest.covered = find_in_file(name, log, sender, (qm_u32) sequence, place);
        status = index_extend(&rest, &w, "find", path, log);
    }
    free(name);
    if (status != DONE) return status;
    if (!place[QM_KNOWN] && rest.many > 0) qm_find(rest.rows, rest.many * QM_ROW, rest.many, sender, (qm_u32) sequence, place, QM_FIND);
    index_close(&rest);
    if (place[QM_KNOWN]) printf("place %llu\n", place[QM_PLACE]);
    else printf("none\n");
    return printed("find") == DONE ? index_ended(&w, "looked through") : FAILED;
}
