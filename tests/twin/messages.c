/* Streams of LMCP messages and of number lists, for lmcp_list and lmcp_bytes. */

#include "twin.h"

/* HELD: how many numbers each program holds; docs/PROGRAMS.md says what lmcp_bytes answers to a longer list. */
enum { GOOD = FIRST_KIND, LIST_ROOM = 500000, MESSAGE_ROOM = 15 * LIST_ROOM + 64, HELD = 262144 };

static i64 list[LIST_ROOM];
static u64 numbers;
static u8 message[MESSAGE_ROOM];

/* ---- lists of good messages */

static void tell(i64 number) { list[numbers++] = number; }

/* A list begins with its version, and is made by its table. */
static int version;

static void begin(void) {
    version = (int) between(1, VERSIONS);
    numbers = 0;
    tell(version);
}

static i64 some_plain(char letter) {
    u64 r = random_64();
    int edge = chance(30);
    switch (letter) {
    case 'b': return (i64) (r % 2);
    case 'B': return edge ? (i64) ONE_OF(0, 127, 128, 255) : (i64) (r % 256);
    case 'c': return edge ? (i64) ONE_OF(0, 127, 31, 32) : (i64) (r % 128);
    case 'u': return edge ? (i64) ONE_OF(0, 1, 32767, 32768, 65535) : (i64) (r % 65536);
    case 'h': return edge ? (i64) ONE_OF(0, 1, 32767, -1ULL, -32767ULL, -32768ULL) : (i64) (r % 65536) - 32768;
    case 'U': return edge ? (i64) ONE_OF(0, 1, 0x7fffffff, 0x80000000, 0xffffffff) : (i64) (r % 4294967296ULL);
    case 'i': return edge ? (i64) ONE_OF(0, 0x7fffffff, -1ULL, -2147483647ULL, -2147483648ULL) : (i64) (r % 4294967296ULL) - 2147483648LL;
    /* one, minus zero, the infinities, quiet and signalling not-a-numbers, the least positive */
    case 'f': return edge ? (i64) ONE_OF(0x3f800000, 0x80000000, 0x7f800000, 0xff800000, 0x7fc00000, 0x7f800001, 0xffffffff, 1) : (i64) (r % 4294967296ULL);
    case 'd':
        return edge ? (i64) ONE_OF(0x3ff0000000000000, 0x8000000000000000, 0x7ff0000000000000, 0xfff0000000000000, 0x7ff8000000000000,
                                   0x7ff0000000000001, 0xffffffffffffffff, 1)
                    : (i64) r;
    default: return edge ? (i64) ONE_OF(0, 1, -1ULL, 0x7fffffffffffffff, 0x8000000000000000) : (i64) r;
    }
}

static u64 some_count(char letter) {
    if (letter == 'c') return chance(1) ? between(250, 70 * 256) : ONE_OF(0, 1, 2, below(12), below(40));
    return chance(1) ? below(300) : ONE_OF(0, 0, 1, 2, below(6));
}

static void some_object(int type, int depth);

static void some_item(char letter, int depth) {
    int is_object = letter == 'o' || (letter >= '0' && letter <= '9');
    if (!is_object) tell(some_plain(letter));
    else if (chance(20) || depth > 40) tell(0);
    else some_object(letter == 'o' ? (int) between(1, TYPES) : letter - '0', depth + 1);
}

static void some_object(int type, int depth) {
    tell(type);
    for (const char *f = ref_fields[version][type]; *f != 0; f++) {
        u64 items = 1;
        if (*f == '[' || *f == '{') {
            f++;
            items = some_count(*f);
            tell((i64) items);
        }
        for (u64 i = 0; i < items; i++) some_item(*f, depth);
    }
}

static void text(u64 length) {
    tell((i64) length);
    for (u64 i = 0; i < length; i++) tell((i64) ('a' + i % 26));
}

/* A chain of Notes, the last about some object or none. */
static void chain(int notes) {
    for (int i = 0; i < notes; i++) {
        tell(6);
        text(chance(80) ? 0 : below(4));
    }
    if (chance(60)) tell(0);
    else some_object((int) between(1, TYPES), notes + 1);
}

/* A PitList with so many marks, each with its place, and so many nulls that the whole message has this length, 1,048,576 or near it. */
static void sized(u64 whole) {
    u64 mark = version == 2 ? 47 : 45, left = whole - 12 - 15 - 4 - (version == 2 ? 4 : 2);
    u64 full = left / mark - below(20), nulls = left - full * mark;
    tell(5);
    tell((i64) below(4294967296ULL));
    tell((i64) (full + nulls));
    for (u64 i = 0; i < full; i++) {
        tell(4);
        tell((i64) i);
        tell((i64) (i % 2));
        tell(2);
        tell(some_plain('i'));
        tell(some_plain('i'));
        tell(some_plain('h'));
        if (version == 2) tell(some_plain('h'));
    }
    while (nulls-- > 0) tell(0);
}

/* A PitList of many marks, none of them or some null. */
static void marks(u64 count) {
    int null = chance(40);
    tell(5);
    tell((i64) below(4294967296ULL));
    tell((i64) count);
    for (u64 i = 0; i < count; i++) {
        if (null) {
            tell(0);
            continue;
        }
        tell(4);
        tell((i64) i);
        tell((i64) (i % 2));
        if (i % 3 == 0) some_object(2, 3);
        else tell(0);
        if (version == 2) tell(some_plain('h'));
    }
}

static void some_list(void) {
    begin();
    if (chance(8)) chain((int) between(1, 18));
    else if (chance(6)) chain((int) between(15, 17));
    else if (chance(5)) marks(below(40));
    else some_object((int) between(1, TYPES), 1);
}

/* The few large ones, in turn. */
static void large_list(int turn) {
    static const u64 wholes[] = {1048570, 1048575, 1048576, 1048577, 1048578, 1048700};
    begin();
    if (turn < 6) sized(wholes[turn]);
    else if (turn < 9) marks(between(5000, 14000));
    else if (turn < 11) marks(65535);
    else if (turn == 12) {
        /* more than lmcp_bytes holds, whole within what it holds */
        sized(1048700);
        while (numbers < HELD + 20) tell(0);
    } else if (turn > 12) {
        /* and not whole within it; in the last with a fault */
        for (int i = 0; i < 5; i++) {
            tell(6);
            text(65535);
        }
        tell(0);
        if (turn == 14) list[below(HELD)] = 128;
    } else {
        tell(6);
        text(65535);
        chain((int) between(1, 14));
    }
}

enum { LARGE = 15 };

/* ---- messages, good and damaged */

static u64 built;   /* the length of the message */

/* Puts frame and checksum around a root of this length: L, then the sum, right or zero. */
static void frame(u64 root, int calculate) {
    memcpy(message, "LMCP", 4);
    ref_put(message + 4, 4, root);
    ref_put(message + 8 + root, 4, calculate ? ref_checksum(message, 8 + root) : 0);
    built = 12 + root;
}

/* The message of the list, whatever its length. A list that is too deep to be written gives a null root. */
static void build(void) {
    u64 root = 0;
    if (ref_write_root(list, numbers, message + 8, &root) != 0) {
        root = 1;
        message[8] = 0;
    }
    frame(root, chance(50));
}

/* A chain of Notes made of bytes, since no writer makes one deeper than 16. */
static void build_chain(int notes, int last) {
    u8 *at = message + 8;
    for (int i = 0; i < notes; i++) {
        memcpy(at, "\1PITSURV\0\0\0\0\6\0\1\0\0", 17);
        at += 17;
    }
    if (last == 0) *at++ = 0;
    if (last == 1) {
        memcpy(at, "\1PITSURV\0\0\0\0\1\0\1", 15);
        at += 15;
    }
    if (last == 2) *at++ = 1;   /* an object of which only the existence byte is there */
    if (last == 3) *at++ = 2;
    frame((u64) (at - message - 8), chance(50));
}

/* Some object's header inside the root: the place of its existence byte. */
static u64 some_header(u64 root) {
    u64 found = 8, seen = 0;
    for (u64 i = 8; i + 15 <= 8 + root; i++)
        if (message[i + 1] == 'P' && memcmp(message + i + 1, "PITSURV", 7) == 0 && below(++seen) == 0) found = i;
    return found;
}

static void damage_header(u64 root) {
    u64 at = some_header(root);
    if (at + 15 > 8 + root) return;
    switch (below(6)) {
    case 0: message[at] = (u8) ONE_OF(0, 2, 3, 128, 255); break;
    case 1: message[at + 1 + below(8)] ^= (u8) (1 << below(8)); break;
    case 2: message[at + 12] = (u8) below(10); break;
    case 3: message[at + 9 + below(4)] = (u8) below(9); break;
    case 4: message[at + 13 + below(2)] = (u8) below(4); break;
    default: message[at + 12] ^= 1; break;
    }
}

/* Damages the root and mends L and the checksum, so that the walk meets the damage. */
static void damage_root(u64 root) {
    u64 at = 8 + below(root);
    switch (below(7)) {
    case 0: root = below(root + 1); break;
    case 1: if (root > 0) root--; break;
    case 2: for (u64 more = between(1, 3); more > 0; more--) message[8 + root++] = (u8) ONE_OF(0, 1, 255); break;
    case 3: if (root > 0) message[at] = (u8) ONE_OF(0, 1, 2, 127, 128, 255); break;
    case 4: if (root > 0) message[at] = (u8) random_64(); break;
    default: damage_header(root); break;
    }
    if (chance(15)) root = root - below(root < 20 ? root + 1 : 20);
    frame(root, chance(60));
}

/* Damages the frame. */
static void damage_frame(u64 root) {
    switch (below(8)) {
    case 0: built = below(built + 1); break;
    case 1: built = below(13); break;
    case 2: ref_put(message + 4, 4, root + below(5) - 2); break;
    case 3: ref_put(message + 8 + root, 4, ref_number(message + 8 + root, 4) + below(3) - 1); break;
    case 4: message[below(4)] ^= (u8) (1 << below(8)); break;
    case 5: message[built++] = 0; break;
    case 6: message[below(built)] ^= (u8) (1 << below(8)); break;
    default: ref_put(message + 4, 4, ONE_OF(0, 1, 0xffffffff, 0xfffffff4, root + 12, 1048576)); break;
    }
}

/* What is read and written again, with the same choice of checksum, is the same bytes; else the twin itself is wrong. */
static void check_trip(const u8 *bytes, u64 length, const i64 *read, u64 count) {
    static u8 again[MESSAGE_ROOM];
    u64 again_length = 0;
    int calculate = ref_number(bytes + length - 4, 4) != 0;
    if (ref_write_message(read, count, calculate, again, &again_length) != 0 || again_length != length || memcmp(again, bytes, length) != 0) {
        printf("twin: a message read and written again is another\n");
        exit(1);
    }
}

void give_message(struct stream *s, const u8 *bytes, u64 length) {
    static i64 read[MAX_MESSAGE];
    u64 count = 0;
    u8 prefix[4];
    ref_put(prefix, 4, length);
    fwrite(prefix, 1, 4, s->in);
    fwrite(bytes, 1, length, s->in);
    s->number++;
    u32 refusal = ref_read_message(bytes, length, read, &count);
    if (refusal == 0 && count > HELD) refusal = 13;   /* the last: the program's list is too short */
    if (refusal != 0) {
        fprintf(s->expected, "%llu refused %u\n", s->number, refusal);
        met[refusal]++;
        return;
    }
    met[GOOD]++;
    fprintf(s->expected, "%llu list", s->number);
    for (u64 i = 0; i < count; i++) fprintf(s->expected, " %lld", read[i]);
    fprintf(s->expected, "\n");
    check_trip(bytes, length, read, count);
}

static void expect_list(struct stream *s) { give_message(s, message, built); }

static void one_message(struct stream *s) {
    if (chance(8)) build_chain((int) between(14, 18), (int) below(5));
    else {
        some_list();
        build();
    }
    u64 root = built - 12;
    if (chance(45)) damage_root(root);
    root = built - 12;
    if (chance(20)) damage_frame(root);
    expect_list(s);
}

/* As many numbers as lmcp_list holds, or up to three more: a PitList of nulls, of version 2, whose count has 4 bytes. */
static void many_numbers(struct stream *s, u64 more) {
    begin();
    version = 2;
    list[0] = 2;
    tell(5);
    tell((i64) below(4294967296ULL));
    tell((i64) (HELD - 4 + more));
    while (numbers < HELD + more) tell(0);
    build();
    expect_list(s);
}

static void large_messages(struct stream *s) {
    for (u64 i = 0; i < 28; i++) many_numbers(s, i % 8 == 0 ? 0 : between(1, 3));
    for (int turn = 0; turn < LARGE; turn++) {
        large_list(turn);
        build();
        expect_list(s);
        if (chance(70)) message[8 + below(built - 12)] = (u8) ONE_OF(0, 2, 128, 255);
        frame(built - 12, chance(50));
        if (chance(20)) damage_frame(built - 12);
        expect_list(s);
        message[below(4)] ^= (u8) (1 << below(8));
        expect_list(s);
    }
}

/* Every message that differs from a small one in its end or in one byte, and some with a bad byte right before the end. */
static void every_place(struct stream *s) {
    static u8 kept[4096];
    u64 root = built - 12;
    memcpy(kept, message, built);
    for (u64 i = 0; i <= root; i++) {
        memcpy(message, kept, 8 + root);
        frame(i, 1);
        expect_list(s);
        if (i == 0) continue;
        u64 was = message[8 + i - 1];
        static const u8 edges[] = {0, 1, 2, 7, 8, 127, 128, 255};
        for (u64 e = 0; e < sizeof edges; e++) {
            message[8 + i - 1] = edges[e];
            frame(i, 0);
            expect_list(s);
            memcpy(message, kept, 8 + root);
            message[8 + i - 1] = edges[e];
            frame(root, e % 2 == 0);
            expect_list(s);
        }
        message[8 + i - 1] = (u8) was;
    }
}

/* A list of at most 60 numbers with a root of this type. */
static void short_list(int type) {
    do {
        begin();
        some_object(type, 1);
    } while (numbers > 60);
}

static void sweep_messages(struct stream *s) {
    for (int type = 1; type <= TYPES; type++)
        for (int i = 0; i < 5; i++) {
            short_list(type);
            build();
            every_place(s);
        }
    for (int notes = 15; notes <= 17; notes++) {
        build_chain(notes, 1);
        every_place(s);
    }
}

void list_stream(struct stream *s, int which) {
    if (which < 16) {
        for (int i = 0; i < which / 4; i++) one_message(s);
        end_stream(s, 4, which % 4);
        return;
    }
    if (which == 16) large_messages(s);
    if (which == 17) sweep_messages(s);
    for (int i = 0; i < 15000; i++) one_message(s);
    end_stream(s, 4, which % 4);
}

/* ---- lists, good and damaged */

static const i64 edges[] = {0, 1, 2, 3, 4, 5, 6, 7, 8, 127, 128, 255, 256, 32767, 32768, 65535, 65536, 2147483647, 2147483648,
                            4294967295, 4294967296, 9223372036854775807, -1, -2, -128, -32768, -32769, -2147483648LL, -2147483649LL,
                            -9223372036854775807 - 1};
enum { EDGES = sizeof edges / sizeof *edges };

static i64 edge_number(void) { return edges[below(EDGES)]; }

static void damage_list(void) {
    u64 at = below(numbers);
    switch (below(8)) {
    case 0: numbers = at; break;
    case 1: if (numbers > 0) numbers--; break;
    case 2: tell(edge_number()); break;
    case 3:
        if (numbers == 0) break;
        for (u64 i = at; i + 1 < numbers; i++) list[i] = list[i + 1];
        numbers--;
        break;
    case 4: if (numbers > 0) list[at] = (i64) ((u64) list[at] + below(5) - 2); break; /* past the edge it wraps */
    default: if (numbers > 0) list[at] = edge_number(); break;
    }
}

/* The list in `list`, as a program's input and what it must write. A checksum byte other than 0 calculates. */
static void expect_bytes_of(struct stream *s, int calculate) {
    u8 bytes[8];
    u64 length = 0;
    bytes[0] = (u8) calculate;
    ref_put(bytes + 1, 4, numbers);
    fwrite(bytes, 1, 5, s->in);
    for (u64 i = 0; i < numbers; i++) {
        ref_put(bytes, 8, (u64) list[i]);
        fwrite(bytes, 1, 8, s->in);
    }
    s->number++;
    if (numbers > HELD) {
        fprintf(s->expected, "%llu longer than %d numbers\n", s->number, HELD);
        return;
    }
    u32 refusal = ref_write_message(list, numbers, calculate, message, &length);
    if (refusal != 0) {
        fprintf(s->expected, "%llu refused %u\n", s->number, refusal);
        met[refusal]++;
        return;
    }
    met[GOOD]++;
    fprintf(s->expected, "%llu bytes ", s->number);
    for (u64 i = 0; i < length; i++) fprintf(s->expected, "%02x", message[i]);
    fprintf(s->expected, "\n");
}

static void expect_bytes(struct stream *s) { expect_bytes_of(s, (int) ONE_OF(0, 0, 1, 1, 1, 2, 255)); }

void give_list(struct stream *s, const u8 *bytes, u64 length) {
    numbers = 0;
    for (u64 i = 1; i + 8 <= length; i += 8) tell((i64) ref_number(bytes + i, 8));
    expect_bytes_of(s, bytes[0]);
}

static void one_list(struct stream *s) {
    some_list();
    if (chance(45)) damage_list();
    if (chance(10)) damage_list();
    expect_bytes(s);
}

/* Every list that differs from a short one in its end or in one number. */
static void sweep_lists(struct stream *s) {
    for (int type = 1; type <= TYPES; type++)
        for (int i = 0; i < 6; i++) {
            short_list(type);
            u64 whole = numbers;
            for (numbers = 0; numbers < whole; numbers++) expect_bytes(s);
            for (u64 at = 0; at < whole; at++) {
                i64 was = list[at];
                for (u64 e = 0; e < EDGES; e++) {
                    list[at] = edges[e];
                    expect_bytes(s);
                }
                list[at] = was;
            }
        }
}

void bytes_stream(struct stream *s, int which) {
    if (which < 16) {
        for (int i = 0; i < which / 4; i++) one_list(s);
        end_stream(s, 5, which % 4);
        return;
    }
    for (int turn = 0; turn < LARGE && which == 16; turn++) {
        large_list(turn);
        expect_bytes(s);
        damage_list();
        expect_bytes(s);
    }
    if (which == 17) sweep_lists(s);
    for (int turn = 0; turn < 3; turn++) {
        begin();
        marks(between(9000, 13000));
        expect_bytes(s);
    }
    /* one over the longest message in each, or a few bytes around it */
    for (int turn = 0; turn < 2; turn++) {
        begin();
        sized(turn == 0 ? MAX_MESSAGE + 1 : between(MAX_MESSAGE - 1, MAX_MESSAGE + 60));
        expect_bytes(s);
    }
    for (int i = 0; i < 15000; i++) one_list(s);
    end_stream(s, 5, which % 4);
}
