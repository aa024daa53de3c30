// The plain receiver: document 01's step list in straightforward C, with its state behind a pointer. The plain count
// stands on it: one pass over the memory, one over the slots, one over the held fragments, one copy of the data.
#include "receiver.h"

struct datagram {
    u32 small;
    u32 sequence, size, offset, number, count;
    const u8 *name;
    u64 name_length;
    const u8 *bytes;
    u64 length;
};

static u32 be16(const u8 *p) { return (u32)p[0] << 8 | p[1]; }
static u32 be32(const u8 *p) { return (u32)p[0] << 24 | (u32)p[1] << 16 | (u32)p[2] << 8 | p[3]; }

// The length of the good name at the front of p, before a zero byte; 0 where there is none.
static u64 name_length(const u8 *p, u64 n) {
    for (u64 i = 0; i < n && i <= MAX_NAME; i++) {
        if (p[i] == 0) return i;
        if (p[i] < 32 || p[i] > 126) return 0;
    }
    return 0;
}

// 0, or the number of the refusal.
static u32 read_datagram(const u8 *p, u64 n, u64 room, struct datagram *d) {
    if (n > MAX_DATAGRAM) return 3;
    if (n < 8) return 1;
    u32 magic = be32(p);
    d->sequence = be32(p + 4);
    if (magic == 0x4c433032) {
        u64 c = name_length(p + 8, n - 8);
        if (c == 0) return 4;
        d->small = 1;
        d->name = p + 8;
        d->name_length = c;
        d->bytes = p + 9 + c;
        d->length = n - 9 - c;
        d->size = (u32)d->length;
        d->offset = d->number = 0;
        d->count = 1;
        return 0;
    }
    if (magic != 0x4c433033) return 2;
    if (n < 20) return 1;
    d->small = 0;
    d->size = be32(p + 8);
    d->offset = be32(p + 12);
    d->number = be16(p + 16);
    d->count = be16(p + 18);
    if (d->count == 0 || d->count > MAX_COUNT || d->number >= d->count) return 5;
    if (d->size > room) return 6;
    u64 at = 20;
    d->name = p + 20;
    d->name_length = 0;
    if (d->number == 0) {
        u64 c = name_length(p + 20, n - 20);
        if (c == 0) return 4;
        d->name_length = c;
        at = 21 + c;
    }
    d->bytes = p + at;
    d->length = n - at;
    if (d->number == 0 ? d->offset != 0 : d->length == 0) return 7;
    u64 end = (u64)d->offset + d->length;
    if (end > d->size) return 7;
    if (d->number + 1 == d->count && end != d->size) return 7;
    return 0;
}

// None of refusal 9.
static int ready(const struct plain *r, u64 store_length, u64 ledger_length) {
    if (store_length != r->store_length || ledger_length != LEDGER) return 0;
    u64 room = store_length / SLOTS;
    if (room > MAX_SIZE) room = MAX_SIZE;
    if (r->room != room) return 0;
    for (u32 s = 0; s < SLOTS; s++) {
        const struct slot *slot = &r->slots[s];
        if (slot->count != 0 && (slot->size > room || slot->count > MAX_COUNT)) return 0;
    }
    for (u32 i = 0; i < SENDERS; i++)
        if (r->memory[i].used > KEYS) return 0;
    return 1;
}

static struct known *find_sender(struct plain *r, u64 sender) {
    for (u32 i = 0; i < SENDERS; i++)
        if (r->memory[i].used != 0 && r->memory[i].sender == sender) return &r->memory[i];
    return 0;
}

static int is_remembered(struct plain *r, u64 sender, u32 sequence) {
    const struct known *k = find_sender(r, sender);
    if (k == 0) return 0;
    for (u64 i = 0; i < k->used; i++)
        if (k->sequences[i] == sequence) return 1;
    return 0;
}

// A place for a sender that has none: a free one, else that of the sender whose latest delivery lies furthest back.
static struct known *new_sender(struct plain *r, u64 sender) {
    struct known *k = &r->memory[0];
    for (u32 i = 0; i < SENDERS; i++) {
        if (r->memory[i].used == 0) {
            k = &r->memory[i];
            break;
        }
        if (r->memory[i].latest < k->latest) k = &r->memory[i];
    }
    k->sender = sender;
    k->used = 0;
    return k;
}

static void remember(struct plain *r, u64 sender, u32 sequence) {
    struct known *k = find_sender(r, sender);
    if (k == 0) k = new_sender(r, sender);
    if (k->used == KEYS) {
        memmove(k->sequences, k->sequences + 1, sizeof k->sequences - sizeof k->sequences[0]);
        k->used--;
    }
    k->sequences[k->used++] = sequence;
    k->latest = ++r->deliveries;
}

static u32 find_open(const struct plain *r, u64 sender, u32 sequence) {
    for (u32 s = 0; s < SLOTS; s++) {
        const struct slot *slot = &r->slots[s];
        if (slot->count != 0 && slot->sender == sender && slot->sequence == sequence) return s;
    }
    return SLOTS;
}

static int is_held(const struct slot *slot, u32 k) { return slot->held[k / 64] >> (k % 64) & 1; }

static int all_held(const struct slot *slot) {
    for (u32 k = 0; k < slot->count; k++)
        if (!is_held(slot, k)) return 0;
    return 1;
}

static void release(struct plain *r, u32 s) {
    u32 turn = r->slots[s].turn;
    memset(&r->slots[s], 0, sizeof r->slots[s]);
    for (u32 i = 0; i < SLOTS; i++)
        if (r->slots[i].count != 0 && r->slots[i].turn > turn) r->slots[i].turn--;
}

// The fragment agrees with every held one: of two the lower number ends at or before the higher begins, and exactly there
// when they are neighbours.
static int fits(const struct slot *slot, const u32 *ledger, const struct datagram *d) {
    u64 from = d->offset, to = from + d->length;
    for (u32 j = 0; j < slot->count; j++) {
        if (!is_held(slot, j)) continue;
        u64 start = ledger[2 * j], end = start + ledger[2 * j + 1];
        if (j < d->number) {
            if (j + 1 == d->number ? end != from : end > from) return 0;
        } else {
            if (d->number + 1 == j ? to != start : to > start) return 0;
        }
    }
    return 1;
}

static int same(const struct slot *slot, const u8 *place, const u32 *entry, const struct datagram *d) {
    if (entry[0] != d->offset || entry[1] != d->length) return 0;
    if (memcmp(place, d->bytes, d->length) != 0) return 0;
    if (d->number != 0) return 1;
    return memcmp(slot->name, d->name, d->name_length) == 0 && (d->name_length == MAX_NAME || slot->name[d->name_length] == 0);
}

// Step 4: the lowest free slot, or the one that was opened longest ago, emptied.
static u32 take(struct plain *r, struct outcome *out) {
    u32 busy = 0, oldest = 0, free = SLOTS;
    for (u32 s = 0; s < SLOTS; s++) {
        if (r->slots[s].count != 0) {
            busy++;
            if (r->slots[s].turn < r->slots[oldest].turn) oldest = s;
        } else if (free == SLOTS) {
            free = s;
        }
    }
    if (free == SLOTS) {
        free = oldest;
        out->emptied = 1;
        out->sender = r->slots[oldest].sender;
        out->sequence = r->slots[oldest].sequence;
        release(r, oldest);
        busy--;
    }
    r->slots[free].turn = busy;
    return free;
}

// Step 5.
static void put(struct plain *r, u8 *store, u32 *ledger, u32 s, const struct datagram *d, struct outcome *out) {
    struct slot *slot = &r->slots[s];
    memcpy(store + s * r->room + d->offset, d->bytes, d->length);
    ledger[2 * (MAX_COUNT * s + d->number)] = d->offset;
    ledger[2 * (MAX_COUNT * s + d->number) + 1] = (u32)d->length;
    slot->held[d->number / 64] |= 1ul << (d->number % 64);
    if (d->number == 0) memcpy(slot->name, d->name, d->name_length);
    if (!all_held(slot)) {
        out->answer = KEPT;
        return;
    }
    out->answer = DELIVERED;
    out->place = IN_STORE;
    out->at = s * r->room;
    out->length = slot->size;
    memcpy(out->name, slot->name, MAX_NAME);
    remember(r, slot->sender, slot->sequence);
    release(r, s);
}

static void refuse(struct outcome *out, u32 number) {
    out->answer = REFUSED;
    out->number = number;
}

void plain_open(struct plain *r, u64 store_length) {
    memset(r, 0, sizeof *r);
    r->store_length = store_length;
    r->room = store_length / SLOTS < MAX_SIZE ? store_length / SLOTS : MAX_SIZE;
}

void plain_receive(struct plain *r, u8 *store, u64 store_length, u32 *ledger, u64 ledger_length, u64 sender, const u8 *p, u64 length,
                   struct outcome *out) {
    struct datagram d;
    memset(out, 0, sizeof *out);
    if (!ready(r, store_length, ledger_length)) {
        refuse(out, 9);
        return;
    }
    u32 number = read_datagram(p, length, r->room, &d);
    if (number != 0) {
        refuse(out, number);
        return;
    }
    if (is_remembered(r, sender, d.sequence)) {
        out->answer = REPEAT;
        return;
    }
    u32 s = find_open(r, sender, d.sequence);
    if (d.small) {
        if (s < SLOTS) {
            refuse(out, 8);
            return;
        }
        out->answer = DELIVERED;
        out->place = IN_DATAGRAM;
        out->at = (u64)(d.bytes - p);
        out->length = d.length;
        memcpy(out->name, d.name, d.name_length);
        remember(r, sender, d.sequence);
        return;
    }
    if (s < SLOTS) {
        const struct slot *slot = &r->slots[s];
        u32 *row = ledger + 2 * MAX_COUNT * s;
        if (slot->size != d.size || slot->count != d.count) {
            refuse(out, 8);
        } else if (is_held(slot, d.number)) {
            if (same(slot, store + s * r->room + d.offset, row + 2 * d.number, &d))
                out->answer = REPEAT;
            else
                refuse(out, 8);
        } else if (fits(slot, row, &d)) {
            put(r, store, ledger, s, &d, out);
        } else {
            refuse(out, 8);
        }
        return;
    }
    s = take(r, out);
    struct slot *slot = &r->slots[s];
    slot->sender = sender;
    slot->sequence = d.sequence;
    slot->size = d.size;
    slot->count = d.count;
    put(r, store, ledger, s, &d, out);
}
