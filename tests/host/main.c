/* Holds the exported functions to the second implementation in tests/reference, on seeded inputs, long and short, valid
   and damaged. Each call is one test: the answer, every lent byte or number afterwards, and the canaries around them. */

#include "../../include/quartzmitten.h"
#include "../reference/random.h"
#include "lent.h"
#include "tests.h"

u64 passed, failed;
const char *doing = "nothing";

static void on_fault(int number) {
    (void) number;
    printf("host: %s touched memory that was not lent, after %llu tests\n%llu passed, %llu failed\n", doing, passed + failed,
           passed, failed + 1);
    fflush(0);
    _exit(1);
}

int told(int good, const char *what, const char *why) {
    if (good) return 1;
    if (failed < 20) printf("host: %s: %s\n", what, why);
    return 0;
}

void count(int good) {
    if (good) passed++;
    else failed++;
}

/* How often each refusal was given, 0 for none. A test that never meets a refusal says nothing of it. */
static u64 reader_gave[16], cutter_gave[16];

static void all_met(const char *what, const u64 *gave, const int *owed) {
    printf("%s answered", what);
    for (; *owed >= 0; owed++) {
        if (*owed == 0) printf(" good %llu times", gave[0]);
        else printf(", %d %llu times", *owed, gave[*owed]);
        count(told(gave[*owed] >= 100, what, "an answer was met fewer than 100 times"));
    }
    printf("\n");
}

static void show(const u8 *bytes, u64 length) {
    for (u64 i = 0; i < length && i < 100; i++) printf("%02x", bytes[i]);
    printf(length > 100 ? ".. (%llu bytes)\n" : " (%llu bytes)\n", length);
}

/* ---- the checksum */

static struct region summed;

static void try_checksum(u64 length, int full) {
    u8 *d = region_lend(&summed, length, chance(50));
    for (u64 i = 0; i < length; i++) d[i] = full ? 255 : (u8) random_64();
    u32 expected = ref_checksum(d, length);
    doing = "qm_checksum";
    u32 got = qm_checksum(d, length);
    int good = told(got == expected, "qm_checksum", "another sum");
    good &= told(region_whole(&summed) && ref_checksum(d, length) == expected, "qm_checksum", "wrote to lent memory");
    count(good);
}

static void checksums(void) {
    for (u64 length = 0; length < 2000; length++) try_checksum(length, length % 3 == 0);
    for (int i = 0; i < 5000; i++) try_checksum(below(300), chance(20));
    for (int i = 0; i < 60; i++) try_checksum(between(60000, 70000), 0);
    /* 16,843,009 bytes of 255 make 2^32 - 1; one more passes 2^32 */
    try_checksum(16843008, 1);
    try_checksum(16843009, 1);
    try_checksum(16843010, 1);
}

/* ---- the datagram reader */

static struct region lent_datagram, lent_fields;
static u8 datagram[MAX_DATAGRAM + 64];   /* the one being made; a copy is lent */
enum { FIELDS_ROOM = 32 };
static const u32 PATTERN = 0xdeadbe00;

static void header_fields(const struct ref_header *h, u32 *f) {
    f[QM_KIND] = h->small ? 1 : 2;
    f[QM_SEQUENCE] = h->sequence;
    f[QM_SIZE] = h->size;
    f[QM_OFFSET] = h->offset;
    f[QM_NUMBER] = h->number;
    f[QM_COUNT] = h->count;
    f[QM_NAME_PLACE] = h->name_at;
    f[QM_NAME_LENGTH] = h->name_length;
    f[QM_DATA_PLACE] = h->data_at;
    f[QM_DATA_LENGTH] = h->data_length;
}

/* Reads `datagram` with room for some fields, through the export and the reference. Answers what the export answered. */
static u32 try_read_room(u64 length, u64 room) {
    u8 *d = region_lend(&lent_datagram, length, chance(50));
    memcpy(d, datagram, length);
    u32 *fields = (u32 *) region_lend(&lent_fields, room * 4, chance(50));
    u32 expected[FIELDS_ROOM];
    for (u64 i = 0; i < room; i++) expected[i] = fields[i] = PATTERN + (u32) i;
    struct ref_header h;
    u32 refusal = ref_read(datagram, length, MAX_PAYLOAD, &h);
    if (refusal == 0 && room < QM_FIELDS) refusal = 13;
    if (refusal == 0) header_fields(&h, expected);
    doing = "qm_read_datagram";
    u32 got = qm_read_datagram(d, length, fields, room);
    int good = told(got == refusal, "qm_read_datagram", "another answer");
    good &= told(memcmp(fields, expected, room * 4) == 0, "qm_read_datagram", "other fields");
    good &= told(region_whole(&lent_fields), "qm_read_datagram", "wrote outside the fields");
    good &= told(region_whole(&lent_datagram) && memcmp(d, datagram, length) == 0, "qm_read_datagram", "wrote to the datagram");
    if (!good && failed < 20) {
        printf("  answered %u, expected %u, room %llu: ", got, refusal, room);
        show(datagram, length);
    }
    reader_gave[refusal]++;
    count(good);
    return got;
}

static u32 try_read(u64 length) { return try_read_room(length, chance(80) ? between(10, 12) : below(14)); }

static void fill_random(u8 *at, u64 length) {
    u64 i = 0;
    for (; i + 8 <= length; i += 8) {
        u64 v = random_64();
        memcpy(at + i, &v, 8);
    }
    for (; i < length; i++) at[i] = (u8) random_64();
}

static void fill_name(u8 *at, u64 length) { ref_fill_name(at, length, random_64); }

/* What a datagram is made from. */
struct plan {
    u32 magic, sequence, size, offset, number, count;
    u64 name_length, data_length;
    int zero;   /* a zero byte stands after the name */
};

/* Writes the datagram of a plan; a name stands in small ones and in fragment 0. Answers its length. */
static u64 make(const struct plan *p) {
    u64 at = 8;
    ref_put(datagram, 4, p->magic);
    ref_put(datagram + 4, 4, p->sequence);
    if (p->magic == FRAGMENT_MAGIC) {
        ref_put(datagram + 8, 4, p->size);
        ref_put(datagram + 12, 4, p->offset);
        ref_put(datagram + 16, 2, p->number);
        ref_put(datagram + 18, 2, p->count);
        at = 20;
    }
    if (p->magic != FRAGMENT_MAGIC || p->number == 0) {
        fill_name(datagram + at, p->name_length);
        at += p->name_length;
        if (p->zero) datagram[at++] = 0;
    }
    fill_random(datagram + at, p->data_length);
    return at + p->data_length;
}

/* A plan of good form. */
static struct plan good_plan(int small, u64 max_data) {
    struct plan p = {small ? SMALL_MAGIC : FRAGMENT_MAGIC, (u32) random_64(), 0, 0, 0, 1, between(1, 63), below(max_data + 1), 1};
    if (small) return p;
    p.count = (u32) (chance(30) ? ONE_OF(1, 2, 3, 256, 257, 1023, 1024) : between(1, 1024));
    p.number = (u32) (chance(50) ? ONE_OF(0, p.count - 1, p.count / 2) : below(p.count));
    if (p.number > 0 && p.data_length == 0) p.data_length = 1;
    if (p.number > 0) p.offset = (u32) (chance(20) ? ONE_OF(0, MAX_PAYLOAD - p.data_length) : below(MAX_PAYLOAD - p.data_length + 1));
    u64 end = p.offset + p.data_length;
    p.size = (u32) (p.number == p.count - 1 ? end : chance(30) ? ONE_OF(end, MAX_PAYLOAD) : between(end, MAX_PAYLOAD));
    return p;
}

/* Puts one field of a plan at the edge of its range, or beyond it. */
static void bend(struct plan *p) {
    u64 d = p->data_length;
    switch (below(9)) {
    case 0: p->magic = (u32) ONE_OF(0, 0x4c433031, 0x4c433034, 0x32304c43, random_64(), SMALL_MAGIC, FRAGMENT_MAGIC); break;
    case 1: p->sequence = (u32) ONE_OF(0, 1, 0x7fffffff, 0x80000000, 0xffffffff); break;
    case 2:
        p->size = (u32) ONE_OF(0, 1, d, p->offset + d - 1, p->offset + d, p->offset + d + 1, 262145, 1048575, 1048576, 1048577, 0x7fffffff,
                               0x80000000, 0xffffffff);
        break;
    case 3:
        p->offset = (u32) ONE_OF(0, 1, p->size - d - 1, p->size - d, p->size - d + 1, p->size, 0 - d, 0 - d - 1, 0 - d + 1,
                                 0 - d + p->size, 0x7fffffff, 0x80000000, 0xfffffffe, 0xffffffff);
        break;
    case 4: p->number = (u32) ONE_OF(0, 1, p->count - 1, p->count, p->count + 1, 256, 1023, 1024, 1025, 65535) & 0xffff; break;
    case 5: p->count = (u32) ONE_OF(0, 1, 2, p->number, p->number + 1, 256, 257, 1023, 1024, 1025, 1026, 4096, 65535) & 0xffff; break;
    case 6: p->name_length = ONE_OF(0, 1, 2, 4, 62, 63, 64, 65, 100); break;
    case 7: p->data_length = ONE_OF(0, 1, 2, d + 1, d == 0 ? 0 : d - 1); break;
    default: p->zero = !p->zero; break;
    }
}

/* Damages some bytes of a made datagram. Answers its length now. */
static u64 damage(u64 length) {
    switch (below(6)) {
    case 0: return below(length + 1);
    case 1: return length > 0 ? length - 1 : 0;
    case 2: datagram[length] = (u8) random_64(); return length + 1;
    case 3: if (length > 0) datagram[below(length)] ^= (u8) (1 << below(8)); return length;
    case 4: if (length > 0) datagram[below(length < 100 ? length : 100)] = (u8) ONE_OF(0, 31, 32, 126, 127, 128, 255); return length;
    default: fill_random(datagram, length < 30 ? length : below(30)); return length;
    }
}

/* Every length from 0 up, near the limit too, of each kind of datagram. */
static void read_lengths(void) {
    for (int kind = 0; kind < 4; kind++) {
        struct plan p = good_plan(kind == 0, 0);
        p.number = kind == 2 ? 3 : 0;
        p.count = kind == 2 ? 9 : 2;
        p.size = MAX_PAYLOAD;
        p.offset = 0;
        p.data_length = MAX_DATAGRAM + 4 - 100;
        make(&p);
        if (kind == 3) fill_random(datagram, 200);
        for (u64 length = 0; length < 400; length++) try_read(length);
        for (u64 length = MAX_DATAGRAM - 40; length <= MAX_DATAGRAM + 40; length++) try_read(length);
        for (u64 room = 0; room < 14; room++) try_read_room(200, room);
        for (u64 room = 0; room < 14; room++) try_read_room(MAX_DATAGRAM, room);
    }
}

/* Every length of a name with each edge byte at every place, and every byte at one place. */
static void read_names(void) {
    static const u8 edges[] = {0, 31, 32, 126, 127, 0x80, 0x8f, 0x90, 0x9f, 0xa0, 0xbf, 0xc0, 0xc1, 0xc2, 0xdf, 0xe0, 0xed, 0xef, 0xf0, 0xf4, 0xf5, 255};
    for (int small = 0; small < 2; small++)
        for (u64 c = 0; c <= 66; c++) {
            struct plan p = good_plan(small, 0);
            p.number = p.offset = 0;
            p.count = 2;
            p.size = 1000;
            p.name_length = c;
            u64 length = make(&p), at = small ? 8 : 20;
            try_read(length);
            for (u64 i = 0; i < c; i++) {
                u8 was = datagram[at + i];
                for (u64 e = 0; e < sizeof edges; e++) {
                    datagram[at + i] = edges[e];
                    try_read(length);
                }
                datagram[at + i] = was;
            }
            for (int b = 0; c > 0 && b < 256; b++) {
                datagram[at + c / 2] = (u8) b;
                try_read(length);
            }
        }
}

/* Both sides of every edge of a code point, in each form of 1 to 4 bytes that holds its bits, so overlong too, whole and cut, after every number of
   letters up to the 63rd byte and past it. */
static void read_points(void) {
    static const u32 points[] = {0x1f, 0x20, 0x7e, 0x7f, 0x80, 0x9f, 0xa0, 0x7ff, 0x800, 0xfff, 0x1000, 0xcfff, 0xd000, 0xd7ff, 0xd800, 0xdbff, 0xdc00, 0xdfff,
                                 0xe000, 0xfeff, 0xfffe, 0xffff, 0x10000, 0x3ffff, 0x40000, 0xfffff, 0x100000, 0x10ffff, 0x110000, 0x13ffff, 0x1fffff};
    static const u32 holds[] = {0, 0xff, 0x7ff, 0xffff, 0x1fffff};
    for (int small = 0; small < 2; small++)
        for (u64 i = 0; i < sizeof points / sizeof *points; i++)
            for (u64 n = 1; n <= 4; n++)
                for (u64 cut = 0; points[i] <= holds[n] && cut < n; cut++)
                    for (u64 letters = 0; letters <= 64; letters++) {
                        struct plan p = good_plan(small, 0);
                        p.number = p.offset = 0;
                        p.count = 2;
                        p.size = 1000;
                        p.name_length = letters + n - cut;
                        u64 length = make(&p), at = small ? 8 : 20;
                        u8 form[4];
                        ref_put_form(form, points[i], n);
                        memset(datagram + at, 'n', letters);
                        memcpy(datagram + at + letters, form, n - cut);
                        try_read(length);
                    }
}

/* Every pair of edges of number and count, of size and offset. */
static void read_numbers(void) {
    static const u32 shorts[] = {0, 1, 2, 3, 255, 256, 257, 1022, 1023, 1024, 1025, 1026, 4095, 4096, 65534, 65535};
    enum { SHORTS = sizeof shorts / sizeof *shorts };
    for (int k = 0; k < SHORTS; k++)
        for (int n = 0; n < SHORTS; n++)
            for (u64 d = 0; d < 3; d++)
                for (int last = 0; last < 3; last++) {
                    struct plan p = {FRAGMENT_MAGIC, 7, (u32) (d + (u64) last), 0, shorts[k], shorts[n], 4, d, 1};
                    try_read(make(&p));
                }
    static const u64 sizes[] = {0, 1, 2, 10, 262144, 262145, 1048575, 1048576, 1048577, 0x7fffffff, 0xfffffff0, 0xffffffff};
    for (u64 s = 0; s < sizeof sizes / sizeof *sizes; s++)
        for (u64 d = 0; d < 20; d++)
            for (int shift = -2; shift <= 2; shift++)
                for (u32 k = 0; k < 3; k++) {
                    /* up to the end of the payload, and up to 2^32, where a sum of 32 bits would begin again */
                    struct plan p = {FRAGMENT_MAGIC, 7, (u32) sizes[s], (u32) (sizes[s] - d + (u64) shift), k, 3, 1, d, 1};
                    try_read(make(&p));
                    p.offset = (u32) (0 - d + (u64) shift);
                    try_read(make(&p));
                    p.offset = (u32) (0 - d + sizes[s] + (u64) shift);
                    try_read(make(&p));
                }
}

static void read_random(int times) {
    for (int i = 0; i < times; i++) {
        struct plan p = good_plan(chance(40), chance(1) ? 65440 : chance(50) ? 8 : 120);
        for (int bends = (int) ONE_OF(0, 0, 1, 1, 2, 3); bends > 0; bends--) bend(&p);
        u64 length = make(&p);
        if (chance(25)) length = damage(length);
        try_read(length);
    }
}

/* ---- the cutter */

static struct region lent_name, lent_payload, lent_out;
static u8 payload_copy[MAX_PAYLOAD + 64];
static u8 expected_out[70000];

struct cut_call {
    const u8 *name;
    u64 c, p, m, index, room;
    u32 sequence;
};

/* One call, held to the reference. Answers what the export answered; the datagram is then in lent_out. */
static u64 try_cut(const struct cut_call *call) {
    u8 *name = region_lend(&lent_name, call->c, chance(50));
    memcpy(name, call->name, call->c);
    u8 *payload = region_lend(&lent_payload, call->p, chance(50));
    memcpy(payload, payload_copy, call->p);
    u8 *out = region_lend(&lent_out, call->room, chance(50));
    memset(out, 0x5a, call->room);
    memset(expected_out, 0x5a, call->room);
    u32 datagrams = 0, length = 0;
    u32 refusal = ref_cut(call->name, call->c, payload_copy, call->p, call->sequence, call->m, call->index, expected_out, call->room,
                          &datagrams, &length);
    u64 expected = refusal != 0 ? refusal : ((u64) datagrams << 32) + length;
    doing = "qm_cut";
    u64 got = qm_cut(name, call->c, payload, call->p, call->sequence, call->m, call->index, out, call->room);
    int good = told(got == expected, "qm_cut", "another answer");
    good &= told(memcmp(out, expected_out, call->room) == 0, "qm_cut", "another output");
    good &= told(region_whole(&lent_out), "qm_cut", "wrote outside the output");
    good &= told(region_whole(&lent_name) && memcmp(name, call->name, call->c) == 0, "qm_cut", "wrote to the name");
    good &= told(region_whole(&lent_payload) && memcmp(payload, payload_copy, call->p) == 0, "qm_cut", "wrote to the payload");
    if (!good && failed < 20)
        printf("  answered %llx, expected %llx: name %llu bytes, payload %llu, M %llu, index %llu, room %llu\n", got, expected,
               call->c, call->p, call->m, call->index, call->room);
    cutter_gave[refusal]++;
    count(good);
    return got;
}

static u8 name_bytes[70000];

/* Cuts a whole message with the export, reads each datagram with the export, and joins the data back to the payload. */
static void try_join(u64 c, u64 p, u64 m) {
    fill_name(name_bytes, c);
    struct cut_call call = {name_bytes, c, p, m, 0, m, (u32) random_64()};
    u64 datagrams = 1, joined = 0;
    int good = 1;
    for (u64 k = 0; k < datagrams && good; k++) {
        call.index = k;
        u64 answer = try_cut(&call);
        u64 length = QM_CUT_LENGTH(answer);
        datagrams = QM_CUT_COUNT(answer);
        u32 f[QM_FIELDS];
        good &= told(datagrams > 0 && qm_read_datagram(lent_out.at, length, f, QM_FIELDS) == 0, "join", "a cut datagram is refused");
        if (!good) break;
        good &= told(length <= m && (k + 1 == datagrams || datagrams == 1 || length == m), "join", "another datagram length");
        good &= told(f[QM_KIND] == (datagrams == 1 ? 1u : 2u) && f[QM_SEQUENCE] == call.sequence && f[QM_SIZE] == p &&
                         f[QM_NUMBER] == k && f[QM_COUNT] == datagrams && f[QM_OFFSET] == joined,
                     "join", "another header");
        good &= told(f[QM_NAME_LENGTH] == (k == 0 ? c : 0) && memcmp(lent_out.at + f[QM_NAME_PLACE], name_bytes, f[QM_NAME_LENGTH]) == 0,
                     "join", "another name");
        good &= told(joined + f[QM_DATA_LENGTH] <= p && memcmp(lent_out.at + f[QM_DATA_PLACE],
                                                              payload_copy + joined, f[QM_DATA_LENGTH]) == 0,
                     "join", "other data");
        joined += f[QM_DATA_LENGTH];
    }
    good &= told(joined == p, "join", "another payload length");
    count(good);
}

/* Payloads at, before and after each exact multiple. */
static void cut_multiples(void) {
    static const u64 lengths[] = {1, 4, 62, 63};
    for (int l = 0; l < 4; l++)
        for (u64 j = 0; j <= 1026; j += j > 40 && j < 1008 ? 16 : 1)
            for (int shift = -1; shift <= 1; shift++) {
                u64 c = lengths[l], m = chance(70) ? 96 : between(96, 300);
                u64 p = m - 21 - c + j * (m - 20) + (u64) shift;
                fill_name(name_bytes, c);
                struct cut_call call = {name_bytes, c, p, m, 0, m, (u32) random_64()};
                try_cut(&call);
                u64 asked[] = {j, j + 1, j + 2, 1023, 1024};
                for (int i = 0; i < 5; i++) {
                    call.index = asked[i];
                    try_cut(&call);
                }
            }
    for (u64 p = 0; p < 400; p++) {
        fill_name(name_bytes, 4);
        struct cut_call call = {name_bytes, 4, p, 96, below(4), below(100), 7};
        try_cut(&call);
        call.room = 96;
        try_cut(&call);
    }
}

static u64 edge_m(void) {
    u64 m = ONE_OF(0, 1, 20, 21, 84, 95, 96, 97, 1400, 65506, 65507, 65508, 65535, 65536, 1ULL << 32, (1ULL << 32) + 96, ~0ULL);
    return chance(50) ? m : between(96, chance(50) ? 200 : 65507);
}

/* Edges of every argument at once. */
static void cut_random(int times) {
    for (int i = 0; i < times; i++) {
        u64 c = chance(70) ? between(1, 63) : ONE_OF(0, 1, 62, 63, 64, 65, 66, 300, 66000);
        fill_name(name_bytes, c);
        if (chance(15) && c > 0) name_bytes[below(c)] = (u8) ONE_OF(0, 31, 32, 126, 127, 0x80, 0xbf, 0xc0, 0xc2, 0xe0, 0xed, 0xf0, 0xf4, 0xf5, 255);
        u64 m = edge_m();
        u64 p = below(chance(60) ? 300 : 20000);
        if (chance(3)) p = ONE_OF(262145, 1048575, 1048576, 1048577, 65536, 65507, MAX_PAYLOAD - below(100));
        u64 sane = m >= 96 && m <= 65507 ? m : 96;
        if (chance(30)) p = sane - 9 - (c < 64 ? c : 63) + below(3) - 1;
        u32 datagrams = 1, length = 0;
        static u8 scratch[70000];
        u32 refusal = ref_cut(name_bytes, c, payload_copy, p, 0, m, 0, scratch, sizeof scratch, &datagrams, &length);
        if (refusal != 0) datagrams = 1;
        u64 index = chance(80) ? below(datagrams) : ONE_OF(0, datagrams - 1, datagrams, datagrams + 1, 1023, 1024, 1ULL << 32, ~0ULL);
        struct cut_call call = {name_bytes, c, p, m, index, sane, (u32) (chance(20) ? ONE_OF(0, 0xffffffff) : random_64())};
        length = (u32) sane;
        ref_cut(name_bytes, c, payload_copy, p, 0, m, index, scratch, sizeof scratch, &datagrams, &length);
        call.room = chance(60) ? length + below(20) : ONE_OF(0, 1, 8, 20, length - 1, length, length + 1);
        try_cut(&call);
    }
}

static void cut_limits(void) {
    fill_name(name_bytes, 63);
    static const u64 payloads[] = {0, 1, 1048575, 1048576, 1048577};
    static const u64 ms[] = {0, 95, 96, 1043, 1044, 1045, 1046, 1047, 1048, 65506, 65507, 65508, 65535, 1ULL << 32};
    static const u64 indexes[] = {0, 1, 4, 1018, 1023, 1024, 1025, 1ULL << 32, ~0ULL};
    for (int i = 0; i < 5; i++)
        for (int j = 0; j < 14; j++)
            for (int x = 0; x < 9; x++)
                for (u64 c = 62; c <= 64; c++) {
                    struct cut_call call = {name_bytes, c, payloads[i], ms[j], indexes[x], chance(90) ? 65510 : 0, 7};
                    try_cut(&call);
                }
}

static void joins(void) {
    for (u64 p = 0; p < 500; p++) try_join(4, p, 96);
    for (int i = 0; i < 300; i++) try_join(between(1, 63), below(3000), between(96, 400));
    for (int i = 0; i < 30; i++) try_join(between(1, 63), between(65000, 66000), between(1400, 65507));
    try_join(4, 77819, 96);
    try_join(63, 1048576, 1100);
    try_join(1, 1048576, 65507);
    try_join(63, 0, 96);
}

/* ---- what the paper says in so many numbers */

static void paper_read(const char *bytes, u64 length, u32 expected) {
    memcpy(datagram, bytes, length);
    count(told(try_read_room(length, QM_FIELDS) == expected, "paper", "a marked datagram is read otherwise"));
}

static void paper_cut(u64 p, u64 index, u64 expected) {
    struct cut_call call = {(const u8 *) "TILE", 4, p, 96, index, 96, 7};
    count(told(try_cut(&call) == expected, "paper", "TILE at M 96 is cut otherwise"));
}

#define PAIR(datagrams, length) (((u64) (datagrams) << 32) + (length))

static void paper(void) {
    paper_read("LC02\0\0\0\7P\0A", 11, 0);
    paper_read("LC02\0\0\0\7P\0A", 7, 1);
    paper_read("LC02\0\0\0\7PA", 10, 4);
    paper_read("LC03\0\0\0\7\0\0\0\3\0\0\0\0\0\0\0\2P\0A", 23, 0);
    paper_read("LC03\0\0\0\7\0\0\0\3\0\0\0\1\0\1\0\2BC", 22, 0);
    paper_read("LC03\0\0\0\7\0\0\0\3\0\0\0\0\0\1\0\2BC", 22, 7);
    paper_cut(83, 0, PAIR(1, 8 + 5 + 83));
    paper_cut(84, 0, PAIR(2, 20 + 5 + 71));
    paper_cut(84, 1, PAIR(2, 20 + 13));
    paper_cut(147, 1, PAIR(2, 96));
    paper_cut(148, 2, PAIR(3, 20 + 1));
    paper_cut(77819, 1023, PAIR(1024, 96));
    paper_cut(77820, 0, 11);
    paper_cut(83, 1, 12);
}

/* ---- a flight is kept */

static u64 flight_gave[64];

static int kept(const char *what, u64 answer, u32 refusal, u64 written, const u8 *out, u64 room) {
    int good = told(answer == (refusal ? refusal : written << 32), what, "another answer");
    good &= told(refusal != 0 || (answer >= 1ULL << 32 && QM_LOG_LENGTH(answer) == written), what, "another length");
    good &= told(memcmp(out, expected_out, room) == 0, what, "another output");
    good &= told(region_whole(&lent_out) && region_whole(&lent_datagram), what, "a canary is gone");
    flight_gave[refusal]++;
    return good;
}

static u64 edge_limit(void) { return chance(40) ? below(MAX_PAYLOAD + 1) : ONE_OF(0, 1, 127, 128, 16384, 1048575, 1048576, 1048577, 1ULL << 32, ~0ULL); }

static void try_begin(u64 room) {
    u8 *out = region_lend(&lent_out, room, chance(50));
    region_lend(&lent_datagram, 0, 0);
    memset(out, 0x5a, room);
    memset(expected_out, 0x5a, room);
    u64 written = 0, limit = edge_limit();
    u32 refusal = ref_log_begin(expected_out, room, limit, &written);
    doing = "qm_log_begin";
    count(kept(doing, qm_log_begin(out, room, limit), refusal, written, out, room));
}

static u64 edge_number(void) {
    u64 v = random_64() >> below(64);
    return chance(50) ? v : ONE_OF(0, 1, 127, 128, 16383, 16384, (1ULL << 63) - 1, 1ULL << 63, ~0ULL);
}

/* One entry at a place of an output that holds other bytes. */
static void try_append(u64 room, u64 at, u64 length) {
    u8 *out = region_lend(&lent_out, room, chance(50)), *d = region_lend(&lent_datagram, length, chance(50));
    u64 sender = edge_number(), tick = edge_number(), written = 0;
    for (u64 i = 0; i < room; i++) out[i] = expected_out[i] = (u8) (i * 7);
    for (u64 i = 0; i < length; i++) d[i] = (u8) random_64();
    u32 refusal = ref_log_append(expected_out, room, at, sender, tick, d, length, &written);
    doing = "qm_log_append";
    count(kept(doing, qm_log_append(out, room, at, sender, tick, d, length), refusal, written, out, room));
}

static void appends(int times) {
    for (u64 room = 0; room < 600; room++) try_begin(room % 12);
    for (int i = 0; i < times; i++) {
        u64 length = chance(90) ? below(200) : ONE_OF(0, 127, 128, 16383, 16384, 65534, 65535, 65536, 65540);
        u64 at = chance(80) ? below(60) : ONE_OF(0, 1, 69999, 70000, 70001, 1ULL << 32, ~0ULL - 20, ~0ULL);
        u64 room = chance(60) ? 70000 : length + below(90);
        try_append(room > 70000 ? 70000 : room, at, length);
    }
}

/* A flight from its first byte on, each entry where the one before ended, until there is no room. */
static void flights(int times) {
    for (int i = 0; i < times; i++) {
        u64 room = between(1, 60000), at = 0, there = 0, written = 0, limit = edge_limit();
        u8 *out = region_lend(&lent_out, room, chance(50));
        memset(out, 0x5a, room);
        memset(expected_out, 0x5a, room);
        doing = "qm_log_begin";
        u64 answer = qm_log_begin(out, room, limit);
        u32 refusal = ref_log_begin(expected_out, room, limit, &written);
        while (refusal == 0) {
            at += QM_LOG_LENGTH(answer);
            there += written;
            u64 length = below(chance(90) ? 400 : 9000), sender = edge_number(), tick = edge_number();
            u8 *d = region_lend(&lent_datagram, length, chance(50));
            for (u64 k = 0; k < length; k++) d[k] = (u8) random_64();
            doing = "qm_log_append";
            answer = qm_log_append(out, room, at, sender, tick, d, length);
            refusal = ref_log_append(expected_out, room, there, sender, tick, d, length, &written);
            count(kept(doing, answer, refusal, written, out, room) && told(at == there, doing, "another place"));
        }
    }
}

int main(void) {
    random_state = 20260101;
    signal(NO_SUCH_MEMORY, on_fault);
    signal(BUS_ERROR, on_fault);
    region_take(&summed, 16843200);
    region_take(&lent_datagram, sizeof datagram);
    region_take(&lent_fields, FIELDS_ROOM * 4);
    region_take(&lent_name, sizeof name_bytes);
    region_take(&lent_payload, sizeof payload_copy);
    region_take(&lent_out, sizeof expected_out);
    fill_random(payload_copy, sizeof payload_copy);
    paper();
    checksums();
    read_lengths();
    read_names();
    read_points();
    read_numbers();
    read_random(150000);
    cut_multiples();
    cut_limits();
    cut_random(60000);
    joins();
    appends(20000);
    flights(200);
    counts(1500);
    all_met("qm_read_datagram", reader_gave, (const int[]) {0, 1, 2, 3, 4, 5, 6, 7, 13, -1});
    all_met("qm_cut", cutter_gave, (const int[]) {0, 4, 6, 10, 11, 12, 13, -1});
    all_met("qm_log_begin and qm_log_append", flight_gave, (const int[]) {0, 13, 42, 45, -1});
    printf("%llu passed, %llu failed\n", passed, failed);
    return failed != 0;
}
