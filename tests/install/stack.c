/* How much of a thread's stack the calls need: each runs in a thread whose stack was filled with a pattern before. Prints the limits of the header, and of a thread that
   does nothing and of each call, or of some that go together, the bytes that were touched. */

#include <quartzmitten.h>
#include "../../tools/system.h"

int pthread_attr_init(void *attributes);
int pthread_attr_setstack(void *attributes, void *stack, unsigned long length);
int pthread_create(unsigned long *thread, const void *attributes, void *(*run)(void *), void *given);
int pthread_join(unsigned long thread, void **answer);

enum { STACK = 1 << 20, PATTERN = 0xa5, MOST_LOG = 1 << 20, ROOM = 4096, DEEPEST = 16, ACKED = 7281 };

static qm_byte log_bytes[MOST_LOG], out[2 * QM_MAX_BLOCKS], file[QM_INDEX_FILE(QM_MAX_INDEX)];
static qm_size log_length;
static struct qm_host host;
static qm_i64 numbers[QM_NUMBERS], marked[ROOM * QM_MARK];
static qm_u64 report[QM_REPORT], told[QM_STRETCH], tiles[ROOM], pits[ROOM], sure[ROOM], tile[ROOM], pit[ROOM], certain[ROOM], rows[QM_INDEX], acked[ACKED], gauge[QM_GAUGE];
static _Alignas(4096) qm_byte stack[STACK];

static void *nothing(void *given) { return given; }

static void *count(void *given) {
    struct qm_receiver *r = &host.receiver;
    if (qm_count(log_bytes, log_length, r->store, QM_STORE, r->ledger, QM_LEDGER, numbers, QM_NUMBERS, report, QM_REPORT) != 0) return 0;
    return given;
}

static void *acks_write(void *given) {
    /* as many lone numbers as 65,535 bytes hold */
    for (qm_size i = 0; i < ACKED; i++) acked[i] = 2 * i;
    return qm_acks_write(acked, ACKED, out, sizeof out, told, 1) == 0 ? given : 0;
}

static void *acks_ask(void *given) {
    return qm_acks_ask(out, told[0], 2, told, 1) == 0 && told[0] == 1 ? given : 0;
}

static void *count_on(void *given) {
    struct qm_map map = {tiles, pits, sure, ROOM, ROOM, ROOM, 0, 0, 0};
    qm_receiver_open(&host.receiver);
    if (qm_map_count(&map, &host.receiver, log_bytes, log_length, 0, ~0ull, numbers, told) != 0 || told[QM_ON_STOP] != QM_STOP_END) return 0;
    if (qm_map_lines(&map, tile, pit, certain) != 0) return 0;
    return qm_pits(tile[0], pits, ROOM, sure, ROOM, map.had_pits, map.had_sure, pit, ROOM, certain, ROOM, told, 1) == 0 ? given : 0;
}

static void *receive(void *given) {
    struct qm_outcome o;
    qm_u64 head[QM_HEAD], entry[QM_ENTRY], seen;
    qm_receiver_open(&host.receiver);
    if (qm_log_first(log_bytes, log_length, head, QM_HEAD) != 0) return 0;
    for (qm_size at = head[QM_HEAD_FIRST_PLACE]; at < log_length; at = entry[QM_ENTRY_NEXT_PLACE]) {
        if (qm_log_next(log_bytes, log_length, at, entry, QM_ENTRY) != 0) return 0;
        qm_host_take(&host, entry[QM_ENTRY_SENDER], log_bytes + entry[QM_ENTRY_PLACE], entry[QM_ENTRY_LENGTH], &o, &seen);
    }
    qm_receiver_forget(&host.receiver, 9);
    return given;
}

/* The call itself, with the parts of its memory. */
static void *receive_plain(void *given) {
    struct qm_receiver *r = &host.receiver;
    qm_u64 head[QM_HEAD], entry[QM_ENTRY], delivered = 0;
    qm_byte name[QM_MAX_NAME];
    if (qm_open(r->state, QM_STATE, r->names, QM_NAMES, QM_STORE) != 0 || qm_log_first(log_bytes, log_length, head, QM_HEAD) != 0) return 0;
    for (qm_size at = head[QM_HEAD_FIRST_PLACE]; at < log_length; at = entry[QM_ENTRY_NEXT_PLACE]) {
        if (qm_log_next(log_bytes, log_length, at, entry, QM_ENTRY) != 0) return 0;
        if (qm_receive(r->state, QM_STATE, r->names, QM_NAMES, r->store, QM_STORE, r->ledger, QM_LEDGER, entry[QM_ENTRY_SENDER], log_bytes + entry[QM_ENTRY_PLACE],
                       entry[QM_ENTRY_LENGTH], told, QM_TOLD, name, QM_MAX_NAME) == 0)
            delivered += told[QM_TOLD_ANSWER] == QM_ANSWER_DELIVERED;
    }
    return delivered > 0 ? given : 0;
}

static void *cut(void *given) {
    qm_u32 sum = qm_checksum(log_bytes, log_length);
    if (qm_log_begin(out, sizeof out, QM_MAX_PAYLOAD) >> 32 == 0 || qm_log_append(out, sizeof out, 0, sum, 1, log_bytes, 1000) >> 32 == 0) return 0;
    return qm_cut((const qm_byte *) "TILE", 4, log_bytes, log_length, 1, 1400, 0, out, sizeof out) >> 32 != 0 && qm_version() == QM_VERSION && qm_lengths(report, QM_REPORT) == 0 ? given : 0;
}

static void *index_log(void *given) {
    return qm_index(log_bytes, log_length, rows, QM_INDEX) >> 32 ? given : 0;
}

static void *index_on(void *given) {
    return qm_extend(log_bytes, log_length, 0, rows, QM_INDEX, 0) >> 32 ? given : 0;
}

static void *index_file(void *given) {
    qm_u32 many = QM_INDEX_ROWS(qm_index(log_bytes, log_length, rows, QM_INDEX));
    if (qm_index_file_write(rows, QM_INDEX, many, log_length, file, sizeof file) != 0 || qm_index_file_head(file, QM_INDEX_FILE(many), told, QM_FILE_NUMBERS) != 0) return 0;
    if (qm_index_file_rows(file, QM_INDEX_FILE(many), rows, QM_INDEX) != 0 || qm_find(rows, QM_INDEX, many, 9, 9, told, QM_FIND) != 0 || !told[QM_FIND_KNOWN]) return 0;
    return qm_index_file_find(log_bytes, log_length, file, QM_INDEX_FILE(many), 9, 9, told, QM_FIND) == 0 && told[QM_FIND_KNOWN] ? given : 0;
}

/* The deepest message: a Note in a Note, and so on. */
static void *messages(void *given) {
    qm_size many = 0;
    numbers[many++] = 1;
    for (int i = 0; i < DEEPEST; i++) {
        numbers[many++] = 6;
        numbers[many++] = 0;
    }
    numbers[many++] = 0;
    if (qm_write_message(numbers, many, 1, out, sizeof out, told, 1) != 0 || qm_read_message(out, told[0], numbers, QM_NUMBERS, told, 1) != 0 || told[0] != many) return 0;
    return qm_marks(numbers, many, marked, ROOM * QM_MARK, told, QM_MARKS) == 0 ? given : 0;
}

static void *packets(void *given) {
    static const qm_byte blocks[] = {0, 2, 'h', 'i', 0, 0};
    if (qm_moss_write((const qm_byte *) "session one", QM_SESSION, 7, 'U', blocks, sizeof blocks, out, sizeof out, told, 1) != 0) return 0;
    qm_size length = told[0];
    if (qm_moss_read(out, length, told, QM_MOSS) != 0 || told[QM_MOSS_COUNT] != 2 || qm_moss_message(out, length, 1, told, 2) != 0) return 0;
    return QM_WATCH_KIND(qm_gauge_see(gauge, QM_GAUGE, out, length)) == QM_WATCH_FIRST ? given : 0;
}

/* The bytes of the stack that a thread touches. */
static long touched(void *(*run)(void *)) {
    _Alignas(16) char attributes[64];
    unsigned long thread;
    void *answer = 0;
    long low = 0;
    memset(stack, PATTERN, STACK);
    if (pthread_attr_init(attributes) != 0 || pthread_attr_setstack(attributes, stack, STACK) != 0) return -1;
    if (pthread_create(&thread, attributes, run, stack) != 0 || pthread_join(thread, &answer) != 0 || !answer) return -1;
    while (low < STACK && stack[low] == PATTERN) low++;
    return STACK - low;
}

int main(void) {
    static const struct {
        const char *name;
        void *(*run)(void *);
    } calls[] = {{"nothing", nothing}, {"qm_count", count}, {"qm_acks_write", acks_write}, {"qm_acks_ask", acks_ask}, {"qm_count_on", count_on}, {"qm_host_take", receive}, {"qm_receive", receive_plain}, {"qm_cut", cut},
                 {"qm_index", index_log}, {"qm_index_on", index_on}, {"qm_index_file_find", index_file}, {"qm_write_message", messages}, {"qm_moss_write", packets}};
    log_length = fread(log_bytes, 1, MOST_LOG, stdin);
    printf("QM_COUNT_STACK %d\nQM_ACKS_STACK %d\nQM_STACK %d\n", QM_COUNT_STACK, QM_ACKS_STACK, QM_STACK);
    for (unsigned i = 0; i < sizeof calls / sizeof *calls; i++) printf("%s %ld\n", calls[i].name, touched(calls[i].run));
    return 0;
}
