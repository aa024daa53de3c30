// The plain count: document 02's L9 in straightforward C over the plain receiver of plain.c. It reads a PitList where it lies, without a list of
// numbers, and keeps the pits in sorted order. It is what the proved count is measured against.
#include "counting.h"

enum { HEADER = 14, PLACE_BYTES = 10, DEPTH_BYTES = 2 };
enum { PLACE = 2, PIT_MARK = 4, PIT_LIST = 5 };

static u32 be16(const u8 *p) { return (u32)p[0] << 8 | p[1]; }
static u32 be32(const u8 *p) { return (u32)p[0] << 24 | (u32)p[1] << 16 | (u32)p[2] << 8 | p[3]; }

// ---- the log

// 0, or the number of the refusal.
static u32 take(const u8 *log, u64 length, u64 *at, u64 *value) {
    u64 v = 0;
    for (u32 n = 0;; n++) {
        if (*at == length) return 43;
        u8 group = log[(*at)++];
        if (n == 9 && group > 1) return 41;
        v |= (u64)(group & 127) << (7 * n);
        if (group > 127) continue;
        if (n > 0 && group == 0) return 41;
        *value = v;
        return 0;
    }
}

struct entry {
    u64 sender, place, length;
};

static u32 next(const u8 *log, u64 length, u64 *at, struct entry *e) {
    u64 tick;
    u32 refusal = take(log, length, at, &e->sender);
    if (refusal == 0) refusal = take(log, length, at, &tick);
    if (refusal == 0) refusal = take(log, length, at, &e->length);
    if (refusal != 0) return refusal;
    if (e->length > MAX_DATAGRAM) return 42;
    if (length - *at < e->length) return 43;
    e->place = *at;
    *at += e->length;
    return 0;
}

// ---- a rising list of distinct numbers

struct set {
    u64 size;
    u64 member[MAX_PITS];
};

// 1, or 0 where it is full.
static int enter(struct set *s, u64 room, u64 x) {
    u64 low = 0, high = s->size;
    while (low < high) {
        u64 middle = (low + high) / 2;
        if (s->member[middle] < x) low = middle + 1;
        else high = middle;
    }
    if (low < s->size && s->member[low] == x) return 1;
    if (s->size == room) return 0;
    memmove(s->member + low + 1, s->member + low, (s->size - low) * 8);
    s->member[low] = x;
    s->size++;
    return 1;
}

static struct set tiles, pits, sure;

// ---- survey messages

struct walk {
    const u8 *at, *end;
    u32 version;
};

// An object's head, of that type: 1, 0 where it is null, or -1 where the message is refused.
static int object(struct walk *w, u32 type) {
    if (w->at == w->end || *w->at > 1) return -1;
    if (*w->at++ == 0) return 0;
    if (w->end - w->at < HEADER || memcmp(w->at, "PITSURV\0", 8) != 0) return -1;
    if (be32(w->at + 8) != type || be16(w->at + 12) != w->version) return -1;
    w->at += HEADER;
    return 1;
}

// A mark: as object says, and its pit and whether it is sure.
static int mark(struct walk *w, u32 *pit, u32 *certain) {
    int there = object(w, PIT_MARK);
    if (there < 1) return there;
    if (w->end - w->at < 5 || w->at[4] > 1) return -1;
    *pit = be32(w->at);
    *certain = w->at[4];
    w->at += 5;
    int place = object(w, PLACE);
    if (place < 0) return -1;
    u64 more = (place ? PLACE_BYTES : 0) + (w->version == 2 ? DEPTH_BYTES : 0);
    if ((u64)(w->end - w->at) < more) return -1;
    w->at += more;
    return 1;
}

static u32 sum(const u8 *p, u64 n) {
    u32 s = 0;
    for (u64 i = 0; i < n; i++) s += p[i];
    return s;
}

// The marks of a list that is accepted; each takes a byte at least.
static u32 seen_pit[MAX_MESSAGE];
static u8 seen_sure[MAX_MESSAGE];

// 1 where the payload is an accepted PitList.
static int read_list(const u8 *p, u64 n, u32 *tile, u64 *marks) {
    if (n < 12 + 1 + HEADER || n > MAX_MESSAGE || memcmp(p, "LMCP", 4) != 0 || be32(p + 4) != n - 12) return 0;
    if (be32(p + n - 4) != 0 && be32(p + n - 4) != sum(p, n - 4)) return 0;
    struct walk w = {p + 8, p + n - 4, be16(p + 8 + 1 + 12)};
    if (w.version < 1 || w.version > 2 || object(&w, PIT_LIST) != 1) return 0;
    u64 head = w.version == 1 ? 6 : 8;
    if ((u64)(w.end - w.at) < head) return 0;
    *tile = be32(w.at);
    u32 count = w.version == 1 ? be16(w.at + 4) : be32(w.at + 4);
    w.at += head;
    *marks = 0;
    for (u32 i = 0; i < count; i++) {
        u32 pit, certain;
        int there = mark(&w, &pit, &certain);
        if (there < 0) return 0;
        if (there == 0) continue;
        seen_pit[*marks] = pit;
        seen_sure[(*marks)++] = (u8)certain;
    }
    return w.at == w.end;
}

static u32 count_list(u32 tile, u64 marks) {
    if (!enter(&tiles, MAX_TILES, tile)) return 60;
    for (u64 i = 0; i < marks; i++) {
        u64 key = (u64)tile << 32 | seen_pit[i];
        if (!enter(&pits, MAX_PITS, key)) return 61;
        if (seen_sure[i]) enter(&sure, MAX_PITS, key);
    }
    return 0;
}

// ---- the count

static void report_tiles(u64 *report) {
    u64 p = 0, s = 0;
    report[QM_TILES] = tiles.size;
    for (u64 i = 0; i < MAX_TILES; i++) {
        report[QM_TILE + i] = report[QM_PITS + i] = report[QM_SURE + i] = 0;
        if (i >= tiles.size) continue;
        report[QM_TILE + i] = tiles.member[i];
        for (; p < pits.size && pits.member[p] >> 32 == tiles.member[i]; p++) report[QM_PITS + i]++;
        for (; s < sure.size && sure.member[s] >> 32 == tiles.member[i]; s++) report[QM_SURE + i]++;
    }
}

u32 plain_count(const u8 *log, u64 length, u8 *store, u64 store_length, u32 *ledger, u64 ledger_length, u64 *report) {
    static struct plain receiver;
    struct outcome out;
    struct entry e;
    u64 entries = 0;
    if (length == 0) return 43;
    if (log[0] != 1) return 40;
    for (u64 at = 1; at < length; entries++) {
        u32 refusal = next(log, length, &at, &e);
        if (refusal != 0) return refusal;
    }
    if (entries > MAX_ENTRIES) return 62;
    plain_open(&receiver, store_length);
    tiles.size = pits.size = sure.size = 0;
    memset(report, 0, QM_REPORT * 8);
    report[QM_ENTRIES] = entries;
    for (u64 at = 1; at < length;) {
        u32 tile, refusal;
        u64 marks;
        next(log, length, &at, &e);
        plain_receive(&receiver, store, store_length, ledger, ledger_length, e.sender, log + e.place, e.length, &out);
        if (out.answer == REFUSED) report[QM_REFUSED + out.number]++;
        else report[out.answer == KEPT ? QM_KEPT : out.answer == REPEAT ? QM_REPEATED : QM_DELIVERED]++;
        if (out.answer != DELIVERED) continue;
        if (!read_list(out.place == IN_STORE ? store + out.at : log + e.place + out.at, out.length, &tile, &marks)) continue;
        report[QM_LISTS]++;
        refusal = count_list(tile, marks);
        if (refusal != 0) return refusal;
    }
    report_tiles(report);
    return 0;
}
