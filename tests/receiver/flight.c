/* The sequence watch and the log's reader as a C host calls them, beside the reference, over memory between canaries. */

#include "../../include/quartzmitten.h"
#include "../host/lent.h"
#include "../reference/random.h"
#include "receiver.h"

/* ---- the watch */

static struct region lent_senders, lent_lasts;

/* One number to both. `lacking`: a list with no room for a watch. */
static void see(struct ref_watch *w, u64 *senders, u32 *lasts, u64 more, u64 sender, u32 number, int lacking, u64 call) {
    static const u64 kinds[6] = {QM_WATCH_FIRST, QM_WATCH_FORWARD, QM_WATCH_SAME, QM_WATCH_LATE, QM_WATCH_RESTARTED, 0};
    u64 by = QM_TOO_SHORT, kind = 5;
    if (!lacking) kind = ref_watch(w, sender, number, &by);
    u64 got = qm_watch_see(senders, QM_WATCH + more - (u64) (lacking == 1) * (more + 1 + below(QM_WATCH)), lasts,
                           QM_WATCH_SENDERS + more - (u64) (lacking == 2) * (more + 1 + below(QM_WATCH_SENDERS)), sender, number);
    held(QM_WATCH_KIND(got) == kinds[kind] && QM_WATCH_NUMBER(got) == by, "word of the watch", call);
    held(senders[0] == w->used, "number of senders", call);
    held(memcmp(senders + 1, w->sender, sizeof w->sender) == 0 && memcmp(lasts, w->last, sizeof w->last) == 0, "watch", call);
    held(!more || (senders[QM_WATCH] == 77 && lasts[QM_WATCH_SENDERS] == 77), "number after the watch", call);
    held(region_whole(&lent_senders) && region_whole(&lent_lasts), "canary of the watch", call);
}

/* Numbers of up to 18 senders: the wrap, the edges of 2^31, a 17th sender; and a watch that claims more than 16. */
void watch_run(u64 seed) {
    enum { N = 3000 };
    random_state = seed;
    if (lent_senders.room == 0) {
        region_take(&lent_senders, (QM_WATCH + 1) * 8);
        region_take(&lent_lasts, (QM_WATCH_SENDERS + 1) * 4);
    }
    struct ref_watch w = {0};
    u64 more = chance(50), known = ONE_OF(1, 3, 16, 17, 18);
    u64 *senders = (u64 *) region_lend(&lent_senders, (QM_WATCH + more) * 8, chance(50));
    u32 *lasts = (u32 *) region_lend(&lent_lasts, (QM_WATCH_SENDERS + more) * 4, chance(50)), number = 0;
    memset(senders, 0, QM_WATCH * 8);
    memset(lasts, 0, QM_WATCH_SENDERS * 4);
    if (more) senders[QM_WATCH] = lasts[QM_WATCH_SENDERS] = 77;
    for (u64 i = 0; i < N; i++) {
        number = i > 0 && chance(70) ? number + (u32) ONE_OF(0, 1, 2, -1ULL, 1024, -1024ULL, -1025ULL, 0x7fffffff, 0x80000000, 0x80000001) : (u32) random_64();
        see(&w, senders, lasts, more, below(known) * 0x100000001ULL, number, chance(2) ? (int) between(1, 2) : 0, i);
    }
    senders[0] = w.used = ONE_OF(17, 18, -1ULL, 1ULL << 63);
    for (u64 i = 0; i < 20; i++) see(&w, senders, lasts, more, below(known) * 0x100000001ULL, (u32) i, 0, i);
}

/* ---- the log's reader */

static struct region lent_log, lent_head, lent_entry;

/* A list of so many numbers, each of which says where it stands. */
static u64 *list_of(struct region *r, u64 numbers) {
    u64 *list = (u64 *) region_lend(r, numbers * 8, chance(50));
    for (u64 i = 0; i < numbers; i++) list[i] = ~i;
    return list;
}

/* That the list has these numbers, and after them what it had. */
static void hold_list(const u64 *list, u64 length, const u64 *expected, u64 numbers, const char *what, u64 call) {
    int good = 1;
    for (u64 i = 0; i < length; i++) good &= list[i] == (i < numbers ? expected[i] : ~i);
    held(good, what, call);
    held(region_whole(&lent_log) && region_whole(&lent_head) && region_whole(&lent_entry), "canary of the log", call);
}

u64 heads_met[64];

static u64 read_head(const u8 *log, u64 length, u64 room, u64 call) {
    u64 *head = list_of(&lent_head, room), at = 0;
    struct ref_limits limits = {0, 0};
    u32 refusal = room < QM_HEAD ? QM_TOO_SHORT : ref_log_open(log, length, &at, &limits);
    u64 expected[QM_HEAD] = {at, limits.payload, limits.fragments};
    heads_met[refusal]++;
    held(qm_log_first(log, length, head, room) == refusal, "answer to a log's head", call);
    hold_list(head, room, expected, refusal == 0 ? QM_HEAD : 0, "head", call);
    return at;
}

static u64 read_entry(const u8 *log, u64 length, u64 at, u64 room, u64 call) {
    u64 *entry = list_of(&lent_entry, room), next = at;
    struct ref_entry e = {.place = at};
    u32 refusal = room < QM_ENTRY ? QM_TOO_SHORT : at >= length ? 0 : ref_log_next(log, length, &next, &e);
    u64 expected[QM_ENTRY] = {at < length, e.sender, e.tick, e.place, e.length, next};
    held(qm_log_next(log, length, at, entry, room) == refusal, "answer to an entry", call);
    hold_list(entry, room, expected, refusal == 0 ? QM_ENTRY : 0, "entry", call);
    return refusal == 0 ? next : length;
}

/* A flight's log, whole or damaged: its head, each of its entries, and what stands at any place of it. */
void log_run(u64 seed) {
    random_state = seed;
    if (lent_log.room == 0) {
        region_take(&lent_log, FLIGHT_ROOM);
        region_take(&lent_head, (QM_HEAD + 2) * 8);
        region_take(&lent_entry, (QM_ENTRY + 2) * 8);
    }
    list_of(&lent_head, 0);
    list_of(&lent_entry, 0);
    flight_seed(seed);
    flight_world(between(1, 40));
    if (chance(70)) flight_damage();
    if (chance(10)) flight_length = below(3);
    if (chance(20)) {
        /* a limit at an edge, or not in its shortest form */
        static const char *const heads[6] = {"\2\200\200\100", "\2\201\200\100", "\2\0", "\2\200\0", "\2\377\377\377\377\377\377\377\377\377\1", "\2\200\200\200\200\200\200\200\200\200\2"};
        static const u64 lengths[6] = {4, 4, 2, 3, 11, 11};
        u64 i = below(6);
        flight_length = lengths[i] - (u64) chance(20);
        memcpy(flight_log, heads[i], flight_length);
    }
    u8 *log = region_lend(&lent_log, flight_length, chance(50));
    memcpy(log, flight_log, flight_length);
    u64 at = read_head(log, flight_length, chance(20) ? below(QM_HEAD + 3) : QM_HEAD, seed);
    while (at < flight_length) at = read_entry(log, flight_length, at, QM_ENTRY, at);
    for (u64 i = 0; i < 2000; i++) {
        at = chance(95) ? below(flight_length + 2) : random_64();
        read_entry(log, flight_length, at, chance(10) ? below(QM_ENTRY + 3) : QM_ENTRY, at);
    }
    held(memcmp(log, flight_log, flight_length) == 0, "byte in the log", seed);
}
