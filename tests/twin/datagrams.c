/* Streams of datagrams, for replay and gaps. */

#include "twin.h"

enum { STORE = 65536, C = STORE / SLOTS, ROOM = 9000 };

/* ---- what the programs must write */

static struct ref_receiver receiver;
static u8 store[STORE];
static struct ref_watch watch;
static int watching;   /* the stream is for gaps */

enum { KEPT = FIRST_KIND, DELIVERED, DELIVERED_SMALL, REPEAT, KEPT_EMPTIED, DELIVERED_EMPTIED, FIRST = FIRST_KIND, FORWARD, SAME, LATE, RESTARTED };

static void expect_receiver(struct stream *s, const u8 *d, u64 length) {
    struct ref_answer a = ref_receive(&receiver, 0, d, length);
    fprintf(s->expected, "%llu ", s->number);
    switch (a.kind) {
    case REF_REFUSED: fprintf(s->expected, "refused %u", a.refusal); met[a.refusal]++; break;
    case REF_KEPT: fprintf(s->expected, "kept"); met[a.emptied ? KEPT_EMPTIED : KEPT]++; break;
    case REF_REPEAT: fprintf(s->expected, "repeat"); met[REPEAT]++; break;
    case REF_DELIVERED:
        fprintf(s->expected, "delivered %llu", a.length);
        met[a.emptied ? DELIVERED_EMPTIED : a.in_store ? DELIVERED : DELIVERED_SMALL]++;
        break;
    }
    if (a.emptied) fprintf(s->expected, " emptied %llu %u", a.emptied_key.sender, a.emptied_key.sequence);
    fprintf(s->expected, "\n");
}

static void expect_watch(struct stream *s, const u8 *d, u64 length) {
    struct ref_header h;
    u32 refusal = ref_read(d, length, MAX_PAYLOAD, &h);
    if (refusal != 0) {
        fprintf(s->expected, "%llu refused %u\n", s->number, refusal);
        met[refusal]++;
        return;
    }
    u64 by;
    enum ref_seen seen = ref_watch(&watch, 0, h.sequence, &by);
    met[FIRST + (int) seen]++;
    switch (seen) {
    case REF_FIRST: fprintf(s->expected, "%llu first\n", s->number); break;
    case REF_FORWARD: fprintf(s->expected, "%llu forward %llu\n", s->number, by); break;
    case REF_SAME: fprintf(s->expected, "%llu same\n", s->number); break;
    case REF_LATE: fprintf(s->expected, "%llu late %llu\n", s->number, by); break;
    case REF_RESTARTED: fprintf(s->expected, "%llu restarted %llu\n", s->number, by); break;
    case REF_FULL: break; /* one sender never fills it */
    }
}

/* ---- the datagrams sent before, to be sent again */

enum { HISTORY = 1500 };
static u8 history[HISTORY][ROOM];
static u64 history_length[HISTORY];
static u64 sent;

void give_datagram(struct stream *s, const u8 *d, u64 length) {
    u8 prefix[2];
    ref_put(prefix, 2, length);
    fwrite(prefix, 1, 2, s->in);
    fwrite(d, 1, length, s->in);
    s->number++;
    if (watching) expect_watch(s, d, length);
    else expect_receiver(s, d, length);
    if (length > ROOM) return;
    memcpy(history[sent % HISTORY], d, length);
    history_length[sent % HISTORY] = length;
    sent++;
}

/* ---- messages lawfully cut */

struct message {
    u32 sequence, size, count;
    u32 begins[MAX_FRAGMENTS + 2];   /* where each fragment begins; after the last, the size */
    u8 name[MAX_NAME];
    u64 name_length;
    u8 payload[C + 64];
    u32 unsent;
};

static void fill(u8 *at, u64 length) {
    for (u64 i = 0; i < length; i++) at[i] = (u8) random_64();
}

static u32 next_sequence;

static u64 some_size(void) {
    if (chance(60)) return below(40);
    if (chance(80)) return below(600);
    return chance(60) ? below(C) : ONE_OF(C - 1, C, C + 1, C + 30);
}

/* Cuts as our cutter does, or at places taken at random: what the paper calls lawful. */
static void cut_message(struct message *m) {
    u64 most = m->size < MAX_FRAGMENTS ? m->size + 1 : MAX_FRAGMENTS;
    if (chance(40)) {
        u64 size = between(96, chance(70) ? 200 : 3000), room = size - 21 - m->name_length;
        m->count = 1;
        m->begins[0] = 0;
        for (u64 at = room; at < m->size && m->count < MAX_FRAGMENTS; at += size - 20) m->begins[m->count++] = (u32) at;
    } else {
        m->count = (u32) (chance(3) ? most : chance(70) ? between(1, most < 6 ? most : 6) : between(1, most));
        m->begins[0] = 0;
        /* the first may be empty, each later one has a byte at least */
        for (u32 k = 1; k < m->count; k++) {
            u64 low = m->begins[k - 1] + (k > 1), high = m->size - (m->count - k);
            m->begins[k] = (u32) between(low, chance(50) && low + 20 < high ? low + 20 : high);
        }
    }
    m->begins[m->count] = m->size;
}

static void new_message(struct message *m) {
    m->sequence = chance(92) ? next_sequence++ : next_sequence - (u32) below(200);
    m->size = (u32) some_size();
    m->name_length = chance(90) ? between(1, 8) : between(1, 63);
    ref_fill_name(m->name, m->name_length, random_64);
    fill(m->payload, m->size);
    cut_message(m);
    m->unsent = 0;
}

static u64 fragment(const struct message *m, u32 k, u8 *d) {
    u64 at = 20, length = m->begins[k + 1] - m->begins[k];
    ref_put(d, 4, FRAGMENT_MAGIC);
    ref_put(d + 4, 4, m->sequence);
    ref_put(d + 8, 4, m->size);
    ref_put(d + 12, 4, m->begins[k]);
    ref_put(d + 16, 2, k);
    ref_put(d + 18, 2, m->count);
    if (k == 0) {
        memcpy(d + 20, m->name, m->name_length);
        d[20 + m->name_length] = 0;
        at += m->name_length + 1;
    }
    memcpy(d + at, m->payload + m->begins[k], length);
    return at + length;
}

static u64 small(u32 sequence, u64 data, u8 *d) {
    u64 c = between(1, chance(80) ? 6 : 63);
    ref_put(d, 4, SMALL_MAGIC);
    ref_put(d + 4, 4, sequence);
    ref_fill_name(d + 8, c, random_64);
    d[8 + c] = 0;
    fill(d + 9 + c, data);
    return 9 + c + data;
}

/* ---- damage */

/* Moves one field of a fragment's header by a little, or to an edge. */
static void move_field(u8 *d, u64 length) {
    static const struct { int at, width; } fields[] = {{4, 4}, {8, 4}, {12, 4}, {16, 2}, {18, 2}};
    u64 f = below(5);
    if (length < 20) return;
    u64 was = ref_number(d + fields[f].at, fields[f].width);
    u64 to = chance(80) ? was + below(5) - 2 : ONE_OF(0, 1, 256, 257, 1023, 1024, 1025, C, C + 1, 65535, 1048576, 1048577, 0x80000000, 0xffffffff, 0 - was);
    ref_put(d + fields[f].at, fields[f].width, to);
}

/* Takes a byte from the name of a fragment 0, or doubles one, so that one name begins with the other. */
static u64 other_name(u8 *d, u64 length) {
    if (length < 22 || ref_number(d + 16, 2) != 0) return length;
    if (chance(50)) {
        for (u64 i = 20; i + 1 < length; i++) d[i] = d[i + 1];
        return length - 1;
    }
    for (u64 i = length; i > 20; i--) d[i] = d[i - 1];
    return length + 1;
}

/* Another datagram made from a lawful one. */
static u64 damage(u8 *d, u64 length) {
    switch (below(11)) {
    case 10: return other_name(d, length);
    case 0: return below(length + 1);
    case 1: return length == 0 ? 0 : length - 1;
    case 2: d[length] = (u8) random_64(); return length + 1;
    case 3: if (length > 0) d[below(length)] ^= (u8) (1 << below(8)); return length;
    case 4: if (length > 0) d[length - 1] ^= 1; return length;
    case 5: if (length > 20) d[20] = (u8) ONE_OF(0, 31, 32, 126, 127, 'x', 0x80, 0xbf, 0xc0, 0xc2, 0xe0, 0xed, 0xf0, 0xf4, 0xf5, 255); return length;
    case 6: if (length > 0) d[below(length < 24 ? length : 24)] = (u8) random_64(); return length;
    default:
        for (u64 moves = between(1, 2); moves > 0; moves--) move_field(d, length);
        return length;
    }
}

static u64 again(u64 back, u8 *d) {
    u64 most = sent < HISTORY ? sent : HISTORY;
    if (most == 0) return small(next_sequence, 3, d);
    u64 i = (sent - 1 - below(back < most ? back : most)) % HISTORY;
    memcpy(d, history[i], history_length[i]);
    return history_length[i];
}

static u64 noise(u8 *d) {
    u64 length = chance(80) ? below(40) : below(3000);
    fill(d, length);
    if (chance(60) && length >= 4) ref_put(d, 4, chance(50) ? SMALL_MAGIC : FRAGMENT_MAGIC);
    return length;
}

/* ---- a stream as a bad day makes it: messages in parts, out of order, again, late, cut short and made up */

enum { OPEN = 14 };
static struct message messages[OPEN];

/* The next fragment of some message, mostly one not sent yet. */
static u64 next_fragment(u64 active, u8 *d) {
    struct message *m = &messages[below(active)];
    u32 k = (u32) below(m->count);
    if (chance(70)) k = m->unsent % m->count;
    u64 length = fragment(m, k, d);
    m->unsent++;
    if (m->unsent > m->count + 2 || chance(2)) new_message(m);
    return length;
}

/* Small messages that push the keys out of the memory, or nearly. */
static void flood(struct stream *s) {
    static u8 d[ROOM];
    static u32 flooding = 0x40000000;
    for (u64 n = between(28, 34); n > 0; n--) {
        u64 length = small(flooding++, below(3), d);
        give_datagram(s, d, length);
    }
}

static void bad_day(struct stream *s, int datagrams) {
    static u8 d[70000];
    u64 active = between(3, OPEN);
    next_sequence = (u32) (chance(50) ? 0 - below(3000) : random_64());
    for (int i = 0; i < OPEN; i++) new_message(&messages[i]);
    for (int i = 0; i < datagrams; i++) {
        u64 length, roll = below(100);
        if (chance(1)) active = between(1, OPEN);
        if (below(400) == 0) flood(s);
        if (roll < 62) length = next_fragment(active, d);
        else if (roll < 72) length = again(20, d);
        else if (roll < 77) length = again(HISTORY, d);
        else if (roll < 88) length = damage(d, chance(70) ? next_fragment(active, d) : again(60, d));
        else if (roll < 92) length = small(chance(60) ? next_sequence++ : messages[below(active)].sequence, below(30), d);
        else if (roll < 94) length = small(next_sequence - (u32) below(90), below(30), d);
        else if (roll < 96) length = noise(d);
        else if (roll < 97) length = 0;
        else length = damage(d, again(20, d));
        give_datagram(s, d, length);
    }
    u64 longest = small(next_sequence++, 65535 - 73, d);
    give_datagram(s, d, longest);
}

/* ---- a stream from a small world, so that each kind of clash comes often: the message of a sequence number is computed from
   it, a few bytes long, in one to four fragments */

static u64 mix(u64 a, u64 b) {
    u64 kept = random_state;
    random_state = a * 1000003 + b;
    u64 value = random_64();
    random_state = kept;
    return value;
}

static void small_message(u32 sequence, struct message *m) {
    m->sequence = sequence;
    m->count = (u32) (1 + mix(sequence, 1) % 4);
    m->begins[0] = 0;
    u64 at = mix(sequence, 2) % 3;
    for (u32 k = 1; k <= m->count; k++) {
        m->begins[k] = (u32) at;
        at += 1 + mix(sequence, 2 + k) % 2;
    }
    m->size = m->begins[m->count];
    m->name_length = 1 + mix(sequence, 9) % 2;
    for (u64 i = 0; i < 2; i++) m->name[i] = 'A';
    for (u64 i = 0; i < m->size; i++) m->payload[i] = (u8) (mix(sequence, 10 + i) % 2);
}

static void small_world(struct stream *s, int datagrams) {
    static u8 d[ROOM];
    static struct message m;
    u64 window = between(6, 16), foul = between(1, 30);
    u32 base = (u32) (chance(50) ? 0 - below(2000) : random_64());
    for (int i = 0; i < datagrams; i++) {
        u32 sequence = base + (u32) below(window);
        if (chance(6)) sequence = base - (u32) below(120);
        if (chance(12)) base++;
        if (below(400) == 0) {
            flood(s);
            window = between(1, 16);
        }
        small_message(sequence, &m);
        u64 length = fragment(&m, (u32) below(m.count), d);
        if (chance(6)) length = small(sequence, below(4), d);
        else if (below(100) < foul) length = damage(d, length);
        give_datagram(s, d, length);
    }
}

/* A stream of messages in 1,024 fragments, each in its own order, with the damage at any of them. */
static void wide_world(struct stream *s, int datagrams) {
    static u8 d[ROOM];
    static struct message m;
    static u32 order[MAX_FRAGMENTS];
    for (u32 sequence = (u32) random_64(); datagrams > 0; sequence++) {
        new_message(&m);
        m.sequence = sequence;
        m.count = MAX_FRAGMENTS;
        for (u32 k = 0; k <= m.count; k++) m.begins[k] = 2 * k;
        m.size = 2 * m.count;
        for (u32 k = 0; k < m.count; k++) order[k] = k;
        for (u32 k = m.count; k > 1; k--) {
            u32 other = (u32) below(k), was = order[k - 1];
            order[k - 1] = order[other];
            order[other] = was;
        }
        for (u32 k = 0; k < m.count; k++, datagrams--) {
            u64 length = fragment(&m, order[k], d);
            if (chance(30)) {
                u64 damaged = damage(d, length);
                give_datagram(s, d, damaged);
                length = fragment(&m, order[k], d);
            }
            give_datagram(s, d, length);
        }
    }
}

/* A stream of sequence numbers that leap to the edges of what the watch tells apart. */
static void leaps(struct stream *s, int datagrams) {
    static u8 d[ROOM];
    u32 last = (u32) random_64();
    for (int i = 0; i < datagrams; i++) {
        u32 leap = (u32) ONE_OF(0, 1, 1, 1, 2, 3, 1000, 0xfffffc00, 0xfffffbff, 0x7ffffffe, 0x7fffffff, 0x80000000, 0x80000001, 0xfffffffe, 0xffffffff);
        u32 sequence = last + (chance(90) ? leap : (u32) random_64());
        u64 length = small(sequence, below(6), d);
        if (chance(10)) length = damage(d, length);
        else if (chance(70)) last = sequence;
        give_datagram(s, d, length);
    }
}

/* Short streams first, for their ends; then the long ones. */
static void datagram_stream(struct stream *s, int which) {
    if (which < 16) {
        small_world(s, which / 4);
        end_stream(s, 2, which % 4);
        return;
    }
    if (watching && which % 2 == 0) leaps(s, 20000);
    else if (which % 3 == 0) bad_day(s, 20000);
    else if (which % 8 == 1) wide_world(s, 15000);
    else small_world(s, 30000);
    end_stream(s, 2, which % 4);
}

static void begin(int for_gaps) {
    watching = for_gaps;
    memset(&watch, 0, sizeof watch);
    sent = 0;
    memset(store, 0, sizeof store);
    ref_open(&receiver, store, STORE);
}

void begin_replay(void) { begin(0); }
void begin_gaps(void) { begin(1); }

void replay_stream(struct stream *s, int which) {
    begin(0);
    datagram_stream(s, which);
}

void gaps_stream(struct stream *s, int which) {
    begin(1);
    datagram_stream(s, which);
}
