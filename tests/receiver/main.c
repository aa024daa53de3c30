/* The proved receiver as a C host calls it, beside the reference: the same calls to both, and after each the same answer, name, bytes, store and ledger. */

#include "../../include/quartzmitten.h"
#include "../host/lent.h"
#include "../reference/random.h"
#include "receiver.h"

enum { STORE = 8 * 700 + 5, ROOM = 2048, KEEP = 4096, RUNS = 60, INDEX_RUNS = 30, CALLS = 4000 };

static struct region lent_state, lent_names, lent_store, lent_ledger, lent_told, lent_name;
static u64 *state, old_state[QM_STATE];
static u8 *names, old_names[QM_NAMES], *store, ref_store[STORE];
static u32 *ledger;
static struct ref_receiver ref;
static u64 passed, failed, met[4], refused_by[16], forgotten, emptied_keys, names_seen, too_short, within[16], large_sequences;

void held(int good, const char *what, u64 call) {
    if (good) passed++;
    else if (failed++ < 10) printf("receiver: call %llu: another %s\n", call, what);
}

static void hold_delivered(const struct ref_answer *a, const u64 *told, const u8 *name, const u8 *d, u64 call) {
    static const u64 kinds[4] = {0, QM_ANSWER_KEPT, QM_ANSWER_REPEAT, QM_ANSWER_DELIVERED};
    u8 ref_name[MAX_NAME] = {0};
    held(told[QM_ANSWER] == kinds[a->kind], "answer", call);
    held(told[QM_EMPTIED] == (u64) a->emptied, "emptied", call);
    emptied_keys += (u64) a->emptied;
    held(told[QM_EMPTIED_SENDER] == (a->emptied ? a->emptied_key.sender : 0), "emptied sender", call);
    held(told[QM_EMPTIED_SEQUENCE] == (a->emptied ? a->emptied_key.sequence : 0), "emptied sequence", call);
    if (a->kind == REF_DELIVERED) {
        const u8 *given = a->in_store ? store : d, *ref_given = a->in_store ? ref_store : d;
        /* the payload is looked at where the place is the right one */
        int there = told[QM_WHERE] == (a->in_store ? QM_IN_STORE : QM_IN_DATAGRAM) && told[QM_PAYLOAD_PLACE] == a->place && told[QM_PAYLOAD_LENGTH] == a->length;
        held(there, "place", call);
        held(there && memcmp(given + a->place, ref_given + a->place, a->length) == 0, "payload", call);
        memcpy(ref_name, a->name, a->name_length);
        names_seen++;
    } else {
        held(told[QM_WHERE] == 0 && told[QM_PAYLOAD_PLACE] == 0 && told[QM_PAYLOAD_LENGTH] == 0, "place", call);
    }
    held(memcmp(name, ref_name, MAX_NAME) == 0, "name", call);
}

/* The sequence that is told is the one that the reference reads. */
static void hold_sequence(const u64 *told, const u8 *d, u64 length, u64 call) {
    struct ref_header h = {0};
    held(ref_read(d, length, MAX_PAYLOAD, &h) == 0 && told[QM_TOLD_SEQUENCE] == h.sequence, "sequence", call);
    large_sequences += h.sequence >> 24 != 0;
}

/* The receiver's call, or that within a log's limits. */
static u32 receive(const struct ref_limits *limits, int odd, u64 store_length, u64 ledger_length, u64 sender, const u8 *d, u64 length, u64 *told, u64 told_length,
                   u8 *name, u64 name_length) {
    u64 words = QM_STATE - (u64) (odd == 3), bytes = QM_NAMES - (u64) (odd == 4);
    if (!limits) return qm_receive(state, words, names, bytes, store, store_length, ledger, ledger_length, sender, d, length, told, told_length, name, name_length);
    return qm_receive_within(state, words, names, bytes, store, store_length, ledger, ledger_length, limits->payload, (u32) limits->fragments, sender, d, length, told,
                             told_length, name, name_length);
}

/* Limits at the edges of the payloads and fragments that are sent, and some that bind nothing. */
static struct ref_limits some_limits(void) {
    return (struct ref_limits) {ONE_OF(0, 199, 200, 499, 500, 700, 262144, QM_MAX_PAYLOAD, 1ULL << 32, -1ULL), ONE_OF(0, 1, 2, 3, 7, 256, QM_MAX_FRAGMENTS, 0xffffffff)};
}

/* One call to both, with memory of the lengths of opening or, where `odd`, of others; 5 and 6: no room for the outcome. */
static void give(u64 sender, const u8 *d, u64 length, int odd, u64 call) {
    u64 more = chance(10), told_length = QM_OUTCOME + more - (u64) (odd == 5) * (more + below(QM_OUTCOME) + 1);
    u64 name_length = MAX_NAME + more - (u64) (odd == 6) * (more + below(MAX_NAME) + 1);
    u64 *told = (u64 *) region_lend(&lent_told, told_length * 8, chance(50)), old_told[QM_OUTCOME + 1];
    u8 *name = region_lend(&lent_name, name_length, chance(50)), old_name[MAX_NAME + 1];
    u64 store_length = STORE - (u64) (odd == 1), ledger_length = LEDGER + (u64) (odd == 2);
    for (u64 i = 0; i < told_length; i++) told[i] = old_told[i] = 0x5a5a0000 + i;
    for (u64 i = 0; i < name_length; i++) name[i] = old_name[i] = (u8) (0x80 + i);
    memcpy(old_state, state, sizeof old_state);
    memcpy(old_names, names, sizeof old_names);
    struct ref_limits some = some_limits(), *limits = chance(30) ? &some : 0;
    u32 refusal = receive(limits, odd, store_length, ledger_length, sender, d, length, told, told_length, name, name_length);
    struct ref_answer a = odd > 4   ? (struct ref_answer) {.kind = REF_REFUSED, .refusal = QM_TOO_SHORT}
                          : odd > 2 ? (struct ref_answer) {.kind = REF_REFUSED, .refusal = QM_NOT_READY}
                          : limits  ? ref_receive_within(&ref, limits, store_length, ledger_length, sender, d, length)
                                    : ref_receive_lent(&ref, store_length, ledger_length, sender, d, length);
    if (limits && odd == 0) within[a.kind == REF_REFUSED ? a.refusal : 0]++;
    met[a.kind]++;
    held(refusal == a.refusal, "refusal", call);
    if (a.kind == REF_REFUSED) {
        if (odd > 4) too_short++;
        else refused_by[a.refusal]++;
        held(memcmp(state, old_state, sizeof old_state) == 0 && memcmp(names, old_names, sizeof old_names) == 0, "state after a refusal", call);
        held(memcmp(told, old_told, told_length * 8) == 0 && memcmp(name, old_name, name_length) == 0, "outcome after a refusal", call);
    } else {
        hold_delivered(&a, told, name, d, call);
        hold_sequence(told, d, length, call);
        held(!more || (told[QM_OUTCOME] == old_told[QM_OUTCOME] && name[MAX_NAME] == old_name[MAX_NAME]), "number after the outcome", call);
    }
    held(memcmp(store, ref_store, STORE) == 0, "store", call);
    held(memcmp(ledger, ref.ledger, sizeof ref.ledger) == 0, "ledger", call);
    held(region_whole(&lent_state) && region_whole(&lent_names) && region_whole(&lent_store) && region_whole(&lent_ledger) && region_whole(&lent_told)
             && region_whole(&lent_name), "canary", call);
}

static u8 kept[KEEP][ROOM];
static u64 kept_length[KEEP], kept_sender[KEEP], keeping;

/* The datagrams of one message of a sender, in the history in any order with the others. */
static void send_message(u64 sender, u32 sequence) {
    static u8 payload[800], d[ROOM];
    static const char *const channels[4] = {"TILE", "MAST", "PITS", "N"};
    const char *channel = channels[below(4)];
    u64 p = ONE_OF(0, 1, 60, 84, 200, 500, 700, 701), c = 0;
    u32 count = 1, length = 0;
    int even = chance(20);   /* the same byte throughout, so that a copy from elsewhere has the same data */
    while (channel[c]) c++;
    for (u64 i = 0; i < p; i++) payload[i] = even ? 7 : (u8) random_64();
    for (u32 k = 0; k < count; k++) {
        if (ref_cut((const u8 *) channel, c, payload, p, sequence, ONE_OF(96, 120, 300), k, d, ROOM, &count, &length) != 0) return;
        memcpy(kept[keeping % KEEP], d, length);
        kept_length[keeping % KEEP] = length;
        kept_sender[keeping++ % KEEP] = sender;
    }
}

/* Fresh places for all memory that stays between calls, each between canaries or against forbidden pages. */
static void lend_all(void) {
    state = (u64 *) region_lend(&lent_state, QM_STATE * 8, chance(50));
    names = region_lend(&lent_names, QM_NAMES, chance(50));
    store = region_lend(&lent_store, STORE, chance(50));
    ledger = (u32 *) region_lend(&lent_ledger, (LEDGER + 1) * 4, chance(50));
}

static void open_both(void) {
    held(qm_open(state, QM_STATE, names, QM_NAMES, STORE) == 0, "opening", 0);
    memset(ledger, 0, (LEDGER + 1) * 4);
    memset(store, 0, STORE);
    memset(ref_store, 0, sizeof ref_store);
    ref_open(&ref, ref_store, STORE);
}

static void run(u64 senders, u64 window) {
    lend_all();
    for (u64 i = 0; i < QM_STATE; i++) old_state[i] = state[i] = random_64();
    held(qm_open(state, QM_STATE - 1, names, QM_NAMES, STORE) == QM_NOT_READY && qm_open(state, QM_STATE, names, QM_NAMES - 1, STORE) == QM_NOT_READY, "opening of other lengths", 0);
    held(memcmp(state, old_state, sizeof old_state) == 0, "state after a refused opening", 0);
    open_both();
    keeping = 0;
    u32 first = chance(50) ? (u32) random_64() : 0;
    for (u64 call = 1; call <= CALLS; call++) {
        if (keeping == 0 || chance(30)) send_message(below(senders), first + (u32) below(window));
        u64 back = keeping < KEEP ? keeping : KEEP;
        if (back > 40 && !chance(10)) back = 40;
        u64 i = (keeping - 1 - below(back)) % KEEP;
        u8 d[ROOM];
        memcpy(d, kept[i], kept_length[i]);
        u64 length = kept_length[i];
        if (chance(5)) d[below(length)] ^= (u8) (1 << below(8));
        if (chance(5) && length > 20 && d[3] == '3') d[15] ^= 1; /* another offset */
        if (chance(2)) length = below(length);
        give(kept_sender[i], d, length, chance(3) ? (int) between(1, 6) : 0, call);
        if (!chance(1)) continue;
        u64 gone = below(senders);
        forgotten++;
        held(qm_forget(state, QM_STATE - 1, names, QM_NAMES, gone) == QM_NOT_READY && qm_forget(state, QM_STATE, names, QM_NAMES - 1, gone) == QM_NOT_READY, "forget of other lengths", call);
        held(qm_forget(state, QM_STATE, names, QM_NAMES, gone) == 0, "forget", call);
        ref_forget(&ref, gone);
    }
}

/* A small message to both, and which kind of answer it must be. */
static void small_message(u64 sender, u32 sequence, enum ref_kind kind, u64 call) {
    static u8 d[ROOM];
    u32 count, length;
    u64 before = met[kind];
    if (ref_cut((const u8 *) "MAST", 4, (const u8 *) "wind 4", 6, sequence, 96, 0, d, ROOM, &count, &length) != 0) held(0, "small message", call);
    give(sender, d, length, 0, call);
    held(met[kind] == before + 1, "kind of answer", call);
}

/* The mast of the request: 200 small messages of one sender push no key of another out. Then 16 senders and a 17th, which drops the one
   whose latest delivery lies furthest back, and not the one that spoke first; and forget, which leaves a place free. */
static void mast_run(void) {
    lend_all();
    open_both();
    small_message(9, 7, REF_DELIVERED, 1);
    for (u32 q = 0; q < 200; q++) small_message(1, q, REF_DELIVERED, q);
    small_message(9, 7, REF_REPEAT, 201);
    small_message(1, 168, REF_REPEAT, 202);
    small_message(1, 167, REF_DELIVERED, 203);
    open_both();
    for (u64 s = 0; s < 16; s++) small_message(s, 7, REF_DELIVERED, s);
    small_message(0, 8, REF_DELIVERED, 16);
    small_message(16, 7, REF_DELIVERED, 17);
    small_message(0, 7, REF_REPEAT, 18);
    small_message(1, 7, REF_DELIVERED, 19); /* dropped for the 17th, and now the second goes in its turn */
    small_message(2, 7, REF_DELIVERED, 20);
    held(qm_forget(state, QM_STATE, names, QM_NAMES, 16) == 0, "forget", 21);
    ref_forget(&ref, 16);
    small_message(17, 7, REF_DELIVERED, 22);
    small_message(4, 7, REF_REPEAT, 23); /* nobody is dropped for one that takes the place left free */
    small_message(16, 7, REF_DELIVERED, 24);
    small_message(4, 7, REF_DELIVERED, 25);
}

/* The longest datagram and longer ones, which are refused by 3 whatever they hold; where the memory is of other lengths 9 comes first. */
static void long_run(void) {
    static u8 d[MAX_DATAGRAM + 16];
    lend_all();
    open_both();
    for (u64 call = 0; call < 120; call++) {
        memcpy(d, call % 4 == 3 ? "LC0x\0\0\0\0P\0" : "LC02\0\0\0\0P\0", 10);
        d[7] = (u8) (call / 2);
        give(3, d, MAX_DATAGRAM - 3 + call % 9, chance(10) ? (int) between(1, 6) : 0, call);
    }
}

/* The header's lengths and its version are the archive's. */
static void lengths_run(void) {
    static const u64 header[QM_LENGTHS] = {QM_SLOTS, QM_MAX_PAYLOAD, QM_MAX_FRAGMENTS, QM_MAX_NAME, QM_STATE, QM_NAMES, QM_LEDGER, QM_OUTCOME, QM_WATCH_SENDERS, QM_MAX_INDEX};
    u64 lengths[QM_LENGTHS + 1];
    for (u64 i = 0; i <= QM_LENGTHS; i++) lengths[i] = ~i;
    held(qm_lengths(lengths, QM_LENGTHS - 1) == QM_TOO_SHORT && lengths[0] == ~0ULL, "answer of lengths", 0);
    held(qm_lengths(lengths, QM_LENGTHS + 1) == 0 && lengths[QM_LENGTHS] == ~(u64) QM_LENGTHS, "answer of lengths", 0);
    for (u64 i = 0; i < QM_LENGTHS; i++) held(lengths[i] == header[i], "length in the header", i);
    held(qm_version() == QM_VERSION, "version in the header", qm_version());
    held(QM_STORE == QM_SLOTS * lengths[QM_LENGTH_PAYLOAD] && QM_SLOTS == SLOTS && QM_LEDGER == LEDGER && QM_MAX_NAME == MAX_NAME && QM_MAX_INDEX == INDEXED, "length in the header", 9);
}

int main(void) {
    region_take(&lent_state, QM_STATE * 8);
    region_take(&lent_names, QM_NAMES);
    region_take(&lent_store, STORE);
    region_take(&lent_ledger, (LEDGER + 1) * 4);
    region_take(&lent_told, (QM_OUTCOME + 1) * 8);
    region_take(&lent_name, MAX_NAME + 1);
    lengths_run();
    mast_run();
    long_run();
    for (u64 r = 0; r < RUNS; r++) {
        random_state = 1037 + r;
        run(ONE_OF(1, 2, 5, 16, 17, 20), ONE_OF(6, 40, 1000));
        watch_run(1037 + r);
        log_run(1037 + r);
    }
    for (u64 r = 0; r < INDEX_RUNS; r++) index_run(1037 + r);
    printf("receiver: kept %llu, repeat %llu, delivered %llu, refused %llu, emptied %llu, forgotten %llu; refused", met[REF_KEPT], met[REF_REPEAT],
           met[REF_DELIVERED], met[REF_REFUSED], emptied_keys, forgotten);
    for (int n = 1; n < 10; n++) {
        printf(" %d: %llu", n, refused_by[n]);
        if (refused_by[n] < 20) held(0, "mixture is needed: a refusal comes too seldom", (u64) n);
    }
    if (too_short < 20) held(0, "mixture is needed: no room comes too seldom", too_short);
    printf(" 13: %llu", too_short);
    printf("; sequences above 2^24 %llu", large_sequences);
    if (large_sequences < 1000) held(0, "mixture is needed: a large sequence comes too seldom", large_sequences);
    printf("; within a log's limits received %llu, refused 5: %llu 6: %llu", within[0], within[5], within[6]);
    if (within[0] < 1000 || within[5] < 1000 || within[6] < 1000) held(0, "mixture is needed: limits bind too seldom", within[5]);
    static const int heads[] = {0, 13, 40, 41, 43, 45}, indexes[] = {0, 40, 41, 42, 43, 44};
    for (u64 i = 0; i < sizeof heads / sizeof *heads; i++)
        if (heads_met[heads[i]] == 0) held(0, "mixture is needed: an answer to a head never comes", (u64) heads[i]);
    for (u64 i = 0; i < sizeof indexes / sizeof *indexes; i++)
        if (indexes_met[indexes[i]] == 0) held(0, "mixture is needed: an answer to an index never comes", (u64) indexes[i]);
    printf("; indexed %llu, keys found %llu, missed %llu", indexes_met[0], keys_found, keys_missed);
    if (keys_found < 1000 || keys_missed < 1000) held(0, "mixture is needed: a key is found or missed too seldom", keys_found);
    printf("\n%llu passed, %llu failed\n", passed, failed);
    return failed != 0;
}
