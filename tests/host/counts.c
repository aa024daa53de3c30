/* Holds qm_count to the second implementation, on logs of small worlds in which everything comes often, whole and damaged, at both sides of each limit, and
   over memory of any length. Each call is one test: the answer, the report, store, ledger and numbers afterwards, and the canaries. */

#include "../../include/quartzmitten.h"
#include "../reference/random.h"
#include "lent.h"
#include "tests.h"

enum { STORE_ROOM = QM_STORE, REPORT_ROOM = QM_REPORT + 8 };

static struct region lent_log, lent_store, lent_ledger, lent_numbers, lent_report;
static u64 gave[64];

/* ---- one call */

static u8 expected_store[STORE_ROOM];
static u32 expected_ledger[QM_LEDGER + 8];
static i64 expected_numbers[QM_NUMBERS];
static u64 expected_report[REPORT_ROOM];

/* The report's numbers, in the order of the header. */
static void lay_report(const struct ref_report *r, u64 *to) {
    to[QM_ENTRIES] = r->entries;
    to[QM_KEPT] = r->kept;
    to[QM_REPEATED] = r->repeated;
    to[QM_DELIVERED] = r->delivered;
    memcpy(to + QM_REFUSED, r->refused, sizeof r->refused);
    to[QM_LISTS] = r->lists;
    to[QM_TILES] = r->tiles;
    memcpy(to + QM_TILE, r->tile, sizeof r->tile);
    memcpy(to + QM_PITS, r->pits, sizeof r->pits);
    memcpy(to + QM_SURE, r->sure, sizeof r->sure);
}

static void try_count(u64 store_length, u64 ledger_length, u64 room, u64 report_room) {
    static struct ref_report r;
    u8 *log = region_lend(&lent_log, flight_length, chance(50)), *store = region_lend(&lent_store, store_length, chance(50));
    u32 *ledger = (u32 *) region_lend(&lent_ledger, ledger_length * 4, chance(50));
    i64 *lent = (i64 *) region_lend(&lent_numbers, room * 8, chance(50));
    u64 *report = (u64 *) region_lend(&lent_report, report_room * 8, chance(50));
    memcpy(log, flight_log, flight_length);
    memset(store, 0x5a, store_length);
    memset(expected_store, 0x5a, store_length);
    for (u64 i = 0; i < ledger_length; i++) ledger[i] = expected_ledger[i] = 0xdeadbe00 + (u32) i;
    for (u64 i = 0; i < room; i++) lent[i] = expected_numbers[i] = -1 - (i64) i;
    for (u64 i = 0; i < report_room; i++) report[i] = expected_report[i] = ~i;
    u32 refusal = QM_TOO_SHORT;
    if (report_room >= QM_REPORT) {
        refusal = ref_count(flight_log, flight_length, expected_store, store_length, expected_ledger, ledger_length, expected_numbers, room, &r);
        if (refusal == 0) lay_report(&r, expected_report);
    }
    doing = "qm_count";
    u32 got = qm_count(log, flight_length, store, store_length, ledger, ledger_length, lent, room, report, report_room);
    int good = told(got == refusal, doing, "another answer");
    good &= told(memcmp(report, expected_report, report_room * 8) == 0, doing, "another report");
    good &= told(memcmp(store, expected_store, store_length) == 0, doing, "another store");
    good &= told(memcmp(ledger, expected_ledger, ledger_length * 4) == 0, doing, "another ledger");
    good &= told(memcmp(lent, expected_numbers, room * 8) == 0, doing, "other numbers");
    good &= told(memcmp(log, flight_log, flight_length) == 0, doing, "wrote to the log");
    good &= told(region_whole(&lent_log) && region_whole(&lent_store) && region_whole(&lent_ledger) && region_whole(&lent_numbers) && region_whole(&lent_report), doing, "a canary is gone");
    if (!good && failed < 20) printf("  answered %u, expected %u: a log of %llu bytes, store %llu, ledger %llu, numbers %llu, report %llu\n", got, refusal, flight_length, store_length, ledger_length, room, report_room);
    gave[refusal]++;
    count(good);
}

static void try_any(void) {
    u64 store_length = chance(60) ? 8 * below(3000) + below(8) : ONE_OF(0, 1, 7, 8, 1600, 16000);
    u64 ledger_length = chance(90) ? QM_LEDGER : ONE_OF(0, 1, QM_LEDGER - 1, QM_LEDGER + 1);
    u64 room = chance(75) ? 1000 : below(200);
    try_count(store_length, ledger_length, room, chance(90) ? QM_REPORT + below(9) : ONE_OF(0, 1, QM_REPORT - 1));
}

/* Of two refusals the first: the log's own, then 62, before 13, 60 and 61, wherever those come. 13 of a message that is no list, at both sides of its room, and of
   the list that has too many numbers before its tile. What is lent is as the calls left it. */
static void orders(void) {
    for (u64 room = 0; room < 4; room++) {
        flight_ping();
        try_count(1600, QM_LEDGER, room, QM_REPORT);
    }
    for (u64 i = 0; i < 24; i++) {
        u64 entries = i % 3 == 0 ? 1 : i % 3 == 1 ? 257 : 5;
        if (i % 3 == 0) flight_ping();
        else if (i % 3 == 1) flight_tiles(257);
        else flight_pits(8193);
        flight_more(i / 3 % 2 ? 4097 - entries : 4096 - entries);
        if (i >= 12) flight_damage();
        try_count(800, QM_LEDGER, i / 6 % 2 ? 20000 : 1, QM_REPORT);
    }
}

/* 13 comes before 60: the lists before the last have 4 numbers, that one 8 or 9, and its tile is the 257th, or one that was named. */
static void long_lists(void) {
    for (u64 i = 0; i < 24; i++) {
        flight_tiles(256);
        flight_marked(i % 2 ? 1000 : 1001);
        try_count(800, QM_LEDGER, 4 + i / 2 % 6, QM_REPORT);
    }
}

void counts(int times) {
    region_take(&lent_log, FLIGHT_ROOM);
    region_take(&lent_store, STORE_ROOM);
    region_take(&lent_ledger, (QM_LEDGER + 8) * 4);
    region_take(&lent_numbers, QM_NUMBERS * 8);
    region_take(&lent_report, REPORT_ROOM * 8);
    count(told(QM_STORE == SLOTS * MAX_PAYLOAD && QM_LEDGER == LEDGER && QM_NUMBERS == MAX_MESSAGE && QM_REPORT == 784, "qm_count", "the header has other lengths"));
    for (int i = 0; i < times; i++) {
        flight_world(below(40));
        if (chance(15)) flight_damage();
        try_any();
    }
    for (int i = 0; i < 60; i++) {
        flight_tiles(ONE_OF(255, 256, 257, 257, 300));
        try_any();
        flight_entries(ONE_OF(4095, 4096, 4097, 5000));
        if (chance(20)) flight_damage();
        try_any();
    }
    for (int i = 0; i < 20; i++) {
        flight_pits(ONE_OF(8191, 8192, 8193, 8193, 9000));
        try_count(800, QM_LEDGER, 20000, QM_REPORT);
    }
    orders();
    long_lists();
    flight_world(below(40));
    try_count(QM_STORE, QM_LEDGER, QM_NUMBERS, QM_REPORT);
    static const int owed[] = {0, 13, 40, 41, 42, 43, 60, 61, 62};
    printf("qm_count answered");
    for (u64 i = 0; i < sizeof owed / sizeof *owed; i++) {
        printf(i == 0 ? " good %llu times" : ", %llu times %d", gave[owed[i]], owed[i]);
        count(told(gave[owed[i]] >= 8, "qm_count", "an answer was met fewer than 8 times"));
    }
    printf("\n");
}
