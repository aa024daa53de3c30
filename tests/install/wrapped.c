/* The header's version and its wrappers beside the plain calls, over the datagrams of a log: the same answers, the same memory afterwards, and names with their zero byte. */

#include <quartzmitten.h>
#include "../../tools/system.h"

enum { MOST_LOG = 1 << 20 };

static qm_byte log_bytes[MOST_LOG];
static struct qm_receiver ours, plain;
static struct qm_host host;
static qm_u64 lengths[QM_LENGTHS], afresh[QM_INDEX], extended[QM_INDEX];
static int passed, failed_;

static void held(int good, const char *what) {
    passed += good;
    failed_ += !good;
    if (!good) printf("%s\n", what);
}

static void compare(qm_u64 sender, const qm_byte *d, qm_size length) {
    struct qm_outcome o;
    qm_u64 told[QM_TOLD] = {0};
    qm_u32 fields[QM_FIELDS];
    qm_byte name[QM_MAX_NAME] = {0};
    memset(&o, 0x5a, sizeof o);
    qm_u32 a = qm_receiver_take(&ours, sender, d, length, &o);
    qm_u32 b = qm_receive(plain.state, QM_STATE, plain.names, QM_NAMES, plain.store, QM_STORE, plain.ledger, QM_LEDGER, sender, d, length, told, QM_TOLD, name, QM_MAX_NAME);
    int delivered = b == 0 && told[QM_TOLD_ANSWER] == QM_ANSWER_DELIVERED;
    const qm_byte *payload = !delivered ? 0 : told[QM_TOLD_WHERE] == QM_IN_STORE ? ours.store + told[QM_TOLD_PAYLOAD_PLACE] : d + told[QM_TOLD_PAYLOAD_PLACE];
    held(a == b && memcmp(o.told, told, sizeof told) == 0 && memcmp(o.name, name, QM_MAX_NAME) == 0 && o.name[QM_MAX_NAME] == 0, "an answer is another");
    held(o.payload == payload && o.length == (delivered ? told[QM_TOLD_PAYLOAD_LENGTH] : 0), "a payload is another");
    held(b != 0 || (qm_read_datagram(d, length, fields, QM_FIELDS) == 0 && o.told[QM_TOLD_SEQUENCE] == fields[QM_FIELD_SEQUENCE]), "a sequence is another");
    held(memcmp(ours.state, plain.state, sizeof ours.state) == 0 && memcmp(ours.names, plain.names, sizeof ours.names) == 0, "the memory is another");
}

/* A camera that begins anew under old numbers: its tiles are delivered, and without being forgotten they would be repeats. */
static void restart(void) {
    static const char name[] = "TILE";
    struct qm_outcome o;
    qm_byte d[96];
    qm_u64 seen, answer;
    qm_receiver_open(&host.receiver);
    for (qm_u32 round = 0; round < 2; round++)
        for (qm_u32 q = 0; q < 20; q++) {
            answer = qm_cut((const qm_byte *) name, 4, d, 10, 5000 * (q >= 10) + q, sizeof d, 0, d + 20, 76);
            held(answer >> 32 == 1, "cut");
            qm_u32 refusal = qm_host_take(&host, 7, d + 20, QM_CUT_LENGTH(answer), &o, &seen);
            held(refusal == 0 && o.payload && o.length == 10 && strcmp(o.name, name) == 0, "a tile after a restart is not delivered");
            held((QM_WATCH_KIND(seen) == QM_WATCH_RESTARTED) == (round == 1 && q == 0), "a restart");
        }
    held(qm_host_take(&host, 7, d + 20, QM_CUT_LENGTH(answer), &o, &seen) == 0 && !o.payload && o.told[QM_TOLD_ANSWER] == QM_ANSWER_REPEAT && o.name[0] == 0, "a late copy");
    held(qm_host_take(&host, 7, d, 3, &o, &seen) == QM_TOO_FEW_BYTES && seen == 0 && !o.payload, "a refusal");
}

/* The index of the first entries of a log, up to some place, and what comes behind it: what qm_index has of the whole. */
static void extend(qm_size length, qm_size place) {
    qm_u64 whole = qm_index(log_bytes, length, afresh, QM_INDEX), before = qm_index(log_bytes, place, extended, QM_INDEX);
    held(whole >> 32 == 1 && before >> 32 == 1 && QM_INDEX_ROWS(before) < QM_INDEX_ROWS(whole), "an index");
    held(qm_extend(log_bytes, length, place, extended, QM_INDEX, QM_INDEX_ROWS(before)) == whole, "an extended index is told otherwise");
    held(memcmp(afresh, extended, sizeof (qm_u64) * QM_ROW * QM_INDEX_ROWS(whole)) == 0, "an extended index is another");
    held(qm_extend(log_bytes, length, 0, extended, QM_ROW * QM_INDEX_ROWS(whole) - 1, 0) == QM_INDEX_FULL, "an index without room");
}

int main(void) {
    qm_u64 head[QM_HEAD], entry[QM_ENTRY];
    qm_size length = fread(log_bytes, 1, MOST_LOG, stdin);
    static const char longest[] = "a name of sixty-three bytes, the most that there may be: ......";
    qm_byte d[200];
    /* the archive has the version and the lengths of the header */
    held(qm_version() == QM_VERSION, "version");
    held(qm_lengths(lengths, QM_LENGTHS) == 0 && lengths[QM_LENGTH_STATE] == QM_STATE && lengths[QM_LENGTH_NAMES] == QM_NAMES && lengths[QM_LENGTH_LEDGER] == QM_LEDGER &&
         lengths[QM_LENGTH_OUTCOME] == QM_TOLD && lengths[QM_LENGTH_NAME] == QM_MAX_NAME && lengths[QM_LENGTH_PAYLOAD] == QM_MAX_PAYLOAD, "lengths");
    held(qm_receiver_open(&ours) == 0 && qm_open(plain.state, QM_STATE, plain.names, QM_NAMES, QM_STORE) == 0, "open");
    held(qm_log_first(log_bytes, length, head, QM_HEAD) == 0, "a log");
    qm_size half = 0;
    for (qm_size at = head[QM_HEAD_FIRST_PLACE]; at < length; at = entry[QM_ENTRY_NEXT_PLACE]) {
        held(qm_log_next(log_bytes, length, at, entry, QM_ENTRY) == 0, "an entry");
        if (at <= length / 2) half = at;
        compare(entry[QM_ENTRY_SENDER], log_bytes + entry[QM_ENTRY_PLACE], entry[QM_ENTRY_LENGTH]);
    }
    held(sizeof longest == QM_MAX_NAME + 1, "the longest name");
    qm_u64 answer = qm_cut((const qm_byte *) longest, QM_MAX_NAME, log_bytes, 3, 99, sizeof d, 0, d, sizeof d);
    compare(1, d, QM_CUT_LENGTH(answer));
    qm_receiver_forget(&ours, 7);
    qm_forget(plain.state, QM_STATE, plain.names, QM_NAMES, 7);
    compare(7, d, QM_CUT_LENGTH(answer));
    restart();
    extend(length, half);
    printf("%d passed, %d failed\n", passed, failed_);
    return failed_ != 0;
}
