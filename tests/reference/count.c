/* The count of a log, in plain C, written from document 02, L9, L10 and L14: over the log reader, the receiver and the LMCP reader beside it. */

#include "reference.h"

enum { PLACE = 2, PIT_LIST = 5 };

/* Every pit of every tile, in the order in which they came; a plain search finds them. */
struct counting {
    u32 tile[MOST_TILES];
    u64 tiles;
    struct {
        u32 tile, pit;
        int sure;
    } pit[MOST_PITS];
    u64 pits;
};

static u32 name_tile(struct counting *c, u32 tile) {
    for (u64 i = 0; i < c->tiles; i++)
        if (c->tile[i] == tile) return 0;
    if (c->tiles == MOST_TILES) return 60;
    c->tile[c->tiles++] = tile;
    return 0;
}

static u32 mark_pit(struct counting *c, u32 tile, u32 pit, int sure) {
    u64 i = 0;
    while (i < c->pits && (c->pit[i].tile != tile || c->pit[i].pit != pit)) i++;
    if (i == MOST_PITS) return 61;
    if (i == c->pits) {
        c->pit[i].tile = tile;
        c->pit[i].pit = pit;
        c->pit[i].sure = 0;
        c->pits++;
    }
    if (sure) c->pit[i].sure = 1;
    return 0;
}

/* A PitList as numbers: version, type, tile, how many marks, the marks. A mark is 0 where it is null; else its type, pit, sure, a place
   (0, or its type and three numbers) and in version 2 a depth. */
static u32 count_list(struct counting *c, const i64 *list) {
    i64 version = list[0], marks = list[3];
    u32 tile = (u32) list[2];
    u32 refusal = name_tile(c, tile);
    const i64 *at = list + 4;
    for (i64 i = 0; i < marks && refusal == 0; i++) {
        if (*at++ == 0) continue;
        u32 pit = (u32) *at++;
        int sure = *at++ == 1;
        at += *at == PLACE ? 4 : 1;
        at += version == 2 ? 1 : 0;
        refusal = mark_pit(c, tile, pit, sure);
    }
    return refusal;
}

/* The numbers of any message; each takes a byte of it at least, and the version is one more. */
static i64 list[MAX_MESSAGE + 1];

static u32 count_payload(struct counting *c, const u8 *payload, u64 length, i64 *numbers, u64 room, struct ref_report *report) {
    u64 told = 0;
    if (ref_read_message(payload, length, list, &told) != 0) return 0;
    if (told > room) return 13;
    memcpy(numbers, list, told * sizeof *list);
    if (list[1] != PIT_LIST) return 0;
    report->lists++;
    return count_list(c, list);
}

static u32 count_entry(struct counting *c, struct ref_receiver *r, u64 ledger_length, const struct ref_limits *limits, const u8 *log,
                       const struct ref_entry *e, i64 *numbers, u64 room, struct ref_report *report) {
    const u8 *d = log + e->place;
    report->entries++;
    struct ref_answer a = ref_receive_within(r, limits, r->store_length, ledger_length, e->sender, d, e->length);
    switch (a.kind) {
    case REF_REFUSED: report->refused[a.refusal]++; return 0;
    case REF_KEPT: report->kept++; return 0;
    case REF_REPEAT: report->repeated++; return 0;
    case REF_DELIVERED: report->delivered++; break;
    }
    return count_payload(c, a.in_store ? r->store + a.place : d + a.place, a.length, numbers, room, report);
}

/* A line for each tile: the lowest number first, then the lowest above it. */
static void report_tiles(const struct counting *c, struct ref_report *report) {
    u64 from = 0;
    for (report->tiles = 0; report->tiles < c->tiles; report->tiles++) {
        u64 lowest = 1ULL << 32, pits = 0, sure = 0;
        for (u64 i = 0; i < c->tiles; i++)
            if (c->tile[i] >= from && c->tile[i] < lowest) lowest = c->tile[i];
        for (u64 i = 0; i < c->pits; i++) {
            if (c->pit[i].tile != lowest) continue;
            pits++;
            if (c->pit[i].sure) sure++;
        }
        report->tile[report->tiles] = lowest;
        report->pits[report->tiles] = pits;
        report->sure[report->tiles] = sure;
        from = lowest + 1;
    }
}

/* How many entries there are, or the log's own refusal. */
static u32 whole_log(const u8 *log, u64 length, u64 *entries) {
    struct ref_limits limits;
    struct ref_entry e;
    u64 at = 0;
    *entries = 0;
    u32 refusal = ref_log_open(log, length, &at, &limits);
    for (; refusal == 0 && at < length; ++*entries) refusal = ref_log_next(log, length, &at, &e);
    return refusal;
}

u32 ref_count(const u8 *log, u64 length, u8 *store, u64 store_length, u32 *ledger, u64 ledger_length, i64 *numbers, u64 room,
              struct ref_report *report) {
    static struct ref_receiver r;
    static struct counting c;
    struct ref_limits limits;
    struct ref_entry e;
    u64 entries = 0, at = 0;
    memset(report, 0, sizeof *report);
    u32 refusal = whole_log(log, length, &entries);
    if (refusal == 0 && entries > MOST_ENTRIES) refusal = 62;
    if (refusal != 0) return refusal;
    memset(&c, 0, sizeof c);
    ref_open(&r, store, store_length);
    if (ledger_length == LEDGER) memcpy(r.ledger, ledger, sizeof r.ledger);
    ref_log_open(log, length, &at, &limits);
    for (u64 i = 0; i < entries && refusal == 0; i++) {
        ref_log_next(log, length, &at, &e);
        refusal = count_entry(&c, &r, ledger_length, &limits, log, &e, numbers, room, report);
    }
    if (ledger_length == LEDGER) memcpy(ledger, r.ledger, sizeof r.ledger);
    if (refusal != 0) memset(report, 0, sizeof *report);
    else report_tiles(&c, report);
    return refusal;
}
