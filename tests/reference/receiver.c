/* The receiver by the paper's step list, and the watch. */

#include "reference.h"

static int same_key(struct ref_key a, struct ref_key b) { return a.sender == b.sender && a.sequence == b.sequence; }

void ref_open(struct ref_receiver *r, u8 *store, u64 store_length) {
    memset(r, 0, sizeof *r);
    r->store = store;
    r->store_length = store_length;
    r->slot_size = store_length / SLOTS;
    if (r->slot_size > MAX_PAYLOAD) r->slot_size = MAX_PAYLOAD;
}

/* ---- the memory of delivered keys */

static int place_of(const struct ref_receiver *r, u64 sender) {
    for (int i = 0; i < r->senders; i++)
        if (r->memory[i].sender == sender) return i;
    return -1;
}

static void drop_place(struct ref_receiver *r, int place) {
    for (int i = place + 1; i < r->senders; i++) r->memory[i - 1] = r->memory[i];
    r->senders--;
}

static int is_remembered(const struct ref_receiver *r, struct ref_key key) {
    int place = place_of(r, key.sender);
    if (place < 0) return 0;
    for (int i = 0; i < r->memory[place].keys; i++)
        if (r->memory[place].sequences[i] == key.sequence) return 1;
    return 0;
}

/* The sender goes to the end of the order; where there is no room for it, the first in the order goes, with its keys. */
static void remember(struct ref_receiver *r, struct ref_key key) {
    struct ref_sender known = {.sender = key.sender};
    int place = place_of(r, key.sender);
    if (place >= 0) {
        known = r->memory[place];
        drop_place(r, place);
    } else if (r->senders == SENDERS_KNOWN) {
        drop_place(r, 0);
    }
    if (known.keys == KEYS_EACH) {
        for (int i = 1; i < KEYS_EACH; i++) known.sequences[i - 1] = known.sequences[i];
        known.keys--;
    }
    known.sequences[known.keys++] = key.sequence;
    r->memory[r->senders++] = known;
}

/* ---- the slots */

static int slot_of(const struct ref_receiver *r, struct ref_key key) {
    for (int s = 0; s < SLOTS; s++)
        if (r->slots[s].busy && same_key(r->slots[s].key, key)) return s;
    return -1;
}

static u32 *ledger_of(struct ref_receiver *r, int s, u32 k) { return r->ledger + 2 * (MAX_FRAGMENTS * s + (int) k); }

/* The same fragment as the held one: offset, length, data and, of fragment 0, the name. */
static int same_fragment(struct ref_receiver *r, int s, const u8 *d, const struct ref_header *h) {
    const u32 *held = ledger_of(r, s, h->number);
    const struct ref_slot *slot = &r->slots[s];
    if (held[0] != h->offset || held[1] != h->data_length) return 0;
    if (memcmp(r->store + (u64) s * r->slot_size + h->offset, d + h->data_at, h->data_length) != 0) return 0;
    if (h->number > 0) return 1;
    return slot->name_length == h->name_length && memcmp(slot->name, d + h->name_at, h->name_length) == 0;
}

/* The fragment fits beside every held one. */
static int fits(struct ref_receiver *r, int s, const struct ref_header *h) {
    for (u32 j = 0; j < MAX_FRAGMENTS; j++) {
        if (!r->slots[s].held[j]) continue;
        const u32 *held = ledger_of(r, s, j);
        u64 held_begins = held[0], held_ends = (u64) held[0] + held[1];
        u64 begins = h->offset, ends = (u64) h->offset + h->data_length;
        int neighbours = j + 1 == h->number || h->number + 1 == j;
        u64 lower_ends = j < h->number ? held_ends : ends;
        u64 higher_begins = j < h->number ? begins : held_begins;
        if (lower_ends > higher_begins) return 0;
        if (neighbours && lower_ends != higher_begins) return 0;
    }
    return 1;
}

/* The lowest free slot, or else the one opened longest ago, which is then emptied. */
static int take_slot(struct ref_receiver *r, struct ref_answer *answer) {
    int oldest = 0;
    for (int s = 0; s < SLOTS; s++)
        if (!r->slots[s].busy) return s;
    for (int s = 1; s < SLOTS; s++)
        if (r->slots[s].opened < r->slots[oldest].opened) oldest = s;
    answer->emptied = 1;
    answer->emptied_key = r->slots[oldest].key;
    return oldest;
}

static void open_slot(struct ref_receiver *r, int s, struct ref_key key, const struct ref_header *h) {
    struct ref_slot *slot = &r->slots[s];
    memset(slot, 0, sizeof *slot);
    slot->busy = 1;
    slot->key = key;
    slot->size = h->size;
    slot->count = h->count;
    slot->opened = r->openings++;
}

static void store_fragment(struct ref_receiver *r, int s, const u8 *d, const struct ref_header *h) {
    struct ref_slot *slot = &r->slots[s];
    u32 *numbers = ledger_of(r, s, h->number);
    numbers[0] = h->offset;
    numbers[1] = h->data_length;
    memcpy(r->store + (u64) s * r->slot_size + h->offset, d + h->data_at, h->data_length);
    slot->held[h->number] = 1;
    if (h->number == 0) {
        slot->name_length = h->name_length;
        memcpy(slot->name, d + h->name_at, h->name_length);
    }
}

static int all_held(const struct ref_slot *slot) {
    for (u32 k = 0; k < slot->count; k++)
        if (!slot->held[k]) return 0;
    return 1;
}

/* ---- the steps */

static struct ref_answer refused(u32 number) {
    struct ref_answer answer = {.kind = REF_REFUSED, .refusal = number};
    return answer;
}

static struct ref_answer deliver_small(struct ref_receiver *r, struct ref_key key, const u8 *d, const struct ref_header *h) {
    struct ref_answer answer = {.kind = REF_DELIVERED, .place = h->data_at, .length = h->data_length};
    answer.name_length = h->name_length;
    memcpy(answer.name, d + h->name_at, h->name_length);
    remember(r, key);
    return answer;
}

/* Step 5. */
static struct ref_answer keep_or_deliver(struct ref_receiver *r, int s, const u8 *d, const struct ref_header *h,
                                         struct ref_answer answer) {
    struct ref_slot *slot = &r->slots[s];
    store_fragment(r, s, d, h);
    answer.kind = REF_KEPT;
    if (!all_held(slot)) return answer;
    answer.kind = REF_DELIVERED;
    answer.in_store = 1;
    answer.place = (u64) s * r->slot_size;
    answer.length = slot->size;
    answer.name_length = slot->name_length;
    memcpy(answer.name, slot->name, slot->name_length);
    slot->busy = 0;
    remember(r, slot->key);
    return answer;
}

struct ref_answer ref_receive(struct ref_receiver *r, u64 sender, const u8 *d, u64 length) {
    struct ref_header h;
    u32 refusal = ref_read(d, length, r->slot_size, &h);
    if (refusal != 0) return refused(refusal);
    struct ref_key key = {sender, h.sequence};
    struct ref_answer answer = {.kind = REF_REPEAT};
    if (is_remembered(r, key)) return answer;
    int s = slot_of(r, key);
    if (h.small) return s >= 0 ? refused(8) : deliver_small(r, key, d, &h);
    if (s >= 0) {
        const struct ref_slot *slot = &r->slots[s];
        if (slot->size != h.size || slot->count != h.count) return refused(8);
        if (slot->held[h.number]) return same_fragment(r, s, d, &h) ? answer : refused(8);
        if (!fits(r, s, &h)) return refused(8);
    } else {
        s = take_slot(r, &answer);
        open_slot(r, s, key, &h);
    }
    return keep_or_deliver(r, s, d, &h, answer);
}

struct ref_answer ref_receive_lent(struct ref_receiver *r, u64 store_length, u64 ledger_length, u64 sender, const u8 *d, u64 length) {
    if (store_length != r->store_length || ledger_length != LEDGER) return refused(9);
    return ref_receive(r, sender, d, length);
}

/* By a log's limits: 5, 6, or 0 where a fragment is within them, or its own form comes first. A small message has no such limit. */
static u32 over_limits(const struct ref_limits *limits, const u8 *d, u64 length) {
    if (length > MAX_DATAGRAM || length < 20 || ref_number(d, 4) != FRAGMENT_MAGIC) return 0;
    u64 k = ref_number(d + 16, 2), n = ref_number(d + 18, 2);
    if (n > MAX_FRAGMENTS || n > limits->fragments || k >= n) return 5;
    return ref_number(d + 8, 4) > limits->payload ? 6 : 0;
}

struct ref_answer ref_receive_within(struct ref_receiver *r, const struct ref_limits *limits, u64 store_length, u64 ledger_length, u64 sender, const u8 *d,
                                     u64 length) {
    int ready = store_length == r->store_length && ledger_length == LEDGER;
    u32 over = ready ? over_limits(limits, d, length) : 0;
    return over != 0 ? refused(over) : ref_receive_lent(r, store_length, ledger_length, sender, d, length);
}

/* Frees the sender's slots and drops its remembered keys; the rest keep their order. */
void ref_forget(struct ref_receiver *r, u64 sender) {
    int place = place_of(r, sender);
    for (int s = 0; s < SLOTS; s++)
        if (r->slots[s].busy && r->slots[s].key.sender == sender) r->slots[s].busy = 0;
    if (place >= 0) drop_place(r, place);
}

/* ---- the watch */

enum ref_seen ref_watch(struct ref_watch *w, u64 sender, u32 sequence, u64 *by) {
    u64 i = 0;
    *by = 14;
    if (w->used > WATCHED) return REF_FULL;
    while (i < w->used && w->sender[i] != sender) i++;
    if (i == WATCHED) return REF_FULL;
    *by = 0;
    if (i == w->used) {
        w->sender[i] = sender;
        w->last[i] = sequence;
        w->used++;
        return REF_FIRST;
    }
    u64 ahead = ((u64) sequence + 4294967296ULL - w->last[i]) % 4294967296ULL;
    if (ahead == 0) return REF_SAME;
    if (ahead < 2147483648ULL) {
        *by = ahead - 1;
        w->last[i] = sequence;
        return REF_FORWARD;
    }
    *by = 4294967296ULL - ahead;
    if (*by <= MOST_LATE) return REF_LATE;
    *by = sequence;
    w->last[i] = sequence;
    return REF_RESTARTED;
}
