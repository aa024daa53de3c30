/* The index of a log and its lookup as a C host calls them, beside the reference, over memory between canaries. */

#include "../../include/quartzmitten.h"
#include "../host/lent.h"
#include "../reference/random.h"
#include "receiver.h"

static struct region lent_log, lent_index, lent_place;
static struct ref_row rows[INDEXED];
u64 indexes_met[64], keys_found, keys_missed;

/* A log of that many entries with a key, of few or many senders and sequences, and some without. */
static void log_of_rows(u64 n) {
    u64 senders = ONE_OF(1, 2, 40), window = ONE_OF(1, 5, 3000, 1ULL << 32), written = 0;
    u8 d[10] = "LC02\0\0\0\0P";
    ref_log_begin(flight_log, FLIGHT_ROOM, MAX_PAYLOAD, &flight_length);
    for (u64 i = 0; i < n;) {
        int keyed = chance(95);
        ref_put(d + 4, 4, below(window));
        ref_log_append(flight_log, FLIGHT_ROOM, flight_length, below(senders) * 0x100000001ULL, i, d, keyed ? 10 : below(10), &written);
        flight_length += written;
        i += (u64) keyed;
    }
}

/* The first row of the key among so many, or that many: plain and slow. */
static u64 first_of(u64 n, u64 sender, u32 sequence) {
    u64 i = 0;
    while (i < n && (rows[i].sender != sender || rows[i].sequence != sequence)) i++;
    return i;
}

static void find(const u64 *index, u64 index_length, u64 n, u64 sender, u32 sequence, u64 call) {
    u64 room = chance(5) ? below(QM_FIND) : QM_FIND + (u64) chance(20), *place = (u64 *) region_lend(&lent_place, room * 8, chance(50));
    for (u64 i = 0; i < room; i++) place[i] = ~i;
    u64 first = first_of(n, sender, sequence);
    u64 expected[QM_FIND] = {first < n, first < n ? rows[first].place : 0};
    u32 got = qm_find(index, index_length, n, sender, sequence, place, room);
    int good = got == (room < QM_FIND ? QM_TOO_SHORT : 0);
    for (u64 i = 0; i < room; i++) good &= place[i] == (room >= QM_FIND && i < QM_FIND ? expected[i] : ~i);
    held(good, "place of a key", call);
    held(region_whole(&lent_place) && region_whole(&lent_index), "canary of the index", call);
    keys_found += first < n;
    keys_missed += first == n;
}

/* Keys of the index and their neighbours, of all its rows and of its first ones, which are an index too. */
static void find_some(const u64 *index, u64 index_length, u64 count, u64 call) {
    for (u64 i = 0; i < 100; i++) {
        u64 sender = random_64(), n = chance(80) ? count : below(count + 1);
        u32 sequence = (u32) random_64();
        if (count > 0 && chance(90)) {
            const struct ref_row *row = &rows[below(count)];
            sender = row->sender + (chance(10) ? ONE_OF(1, -1ULL) : 0);
            sequence = row->sequence + (chance(20) ? (u32) ONE_OF(1, -1ULL) : 0);
        }
        find(index, index_length, n, sender, sequence, call);
    }
    /* more rows than there are, of numbers that are none: it ends, and within what is lent */
    u64 *place = (u64 *) region_lend(&lent_place, QM_FIND * 8, 1);
    held(qm_find(index, index_length, chance(50) ? -1ULL : index_length, random_64(), 7, place, QM_FIND) == 0 && place[QM_KNOWN] < 2, "answer of a lookup", call);
    held(region_whole(&lent_place) && region_whole(&lent_index), "canary of the index", call);
}

/* The log at hand, with room for so many numbers. */
static void index_one(u64 room, u64 call) {
    u8 *log = region_lend(&lent_log, flight_length, chance(50));
    u64 *index = (u64 *) region_lend(&lent_index, room * 8, chance(50)), count = 0;
    memcpy(log, flight_log, flight_length);
    for (u64 i = 0; i < room; i++) index[i] = ~i;
    u32 refusal = ref_index(flight_log, flight_length, rows, &count);
    if (refusal == 0 && room < count * QM_ROW) refusal = QM_INDEX_FULL;
    u64 got = qm_index(log, flight_length, index, room);
    held(got == (refusal ? refusal : (1ULL << 32) + count) && (refusal || QM_INDEX_ROWS(got) == count), "answer of an index", call);
    if (refusal) count = 0;
    int good = 1;
    for (u64 i = 0; i < count; i++) {
        const u64 *row = index + i * QM_ROW;
        good &= row[QM_ROW_SENDER] == rows[i].sender && row[QM_ROW_SEQUENCE] == rows[i].sequence && row[QM_ROW_PLACE] == rows[i].place;
    }
    for (u64 i = count * QM_ROW; i < room; i++) good &= index[i] == ~i;
    held(good, "index", call);
    held(memcmp(log, flight_log, flight_length) == 0, "byte in the log", call);
    held(region_whole(&lent_log) && region_whole(&lent_index), "canary of the index", call);
    indexes_met[refusal]++;
    find_some(index, room, count, call);
}

void index_run(u64 seed) {
    random_state = seed;
    if (lent_log.room == 0) {
        region_take(&lent_log, FLIGHT_ROOM);
        region_take(&lent_index, (QM_INDEX + 8) * 8);
        region_take(&lent_place, (QM_FIND + 1) * 8);
    }
    region_lend(&lent_place, 0, 0);
    flight_seed(seed);
    flight_world(between(1, 40));
    if (chance(60)) flight_damage();
    index_one(chance(80) ? QM_INDEX + below(9) : below(60), seed);
    u64 n = below(300);
    log_of_rows(n);
    index_one(n * QM_ROW + ONE_OF(0, 0, 1, 2, -1ULL, -3ULL) * (n > 0), seed);
    /* both sides of the most rows, and of the header's length; the reference sorts slowly */
    if (seed % 10 != 0) return;
    log_of_rows(ONE_OF(QM_MAX_INDEX - 1, QM_MAX_INDEX));
    index_one(QM_INDEX, seed);
    log_of_rows(QM_MAX_INDEX + (u64) chance(70));
    index_one(QM_INDEX - (u64) chance(50), seed);
}
