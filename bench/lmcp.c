// Messages of a kind and a length, read into numbers and written again by the proved functions, by plain ones that walk the table (plain_lmcp.c) and by
// plain ones written out type by type (hand_lmcp.c). `lmcp` beside it builds it and says what it prints.
//   longest                    the longest message
//   check N                    N messages, most of them damaged, and lists: all give the same answers and leave the same numbers and bytes
//   once WHO WHAT KIND LENGTH  read or written once (WHAT: read or write) by WHO, proved, plain or hand, to be counted by a tool; by none, all but that
//   time KIND LENGTH           how many numbers, and nanoseconds a byte, read and written by each: of 40 rounds the best counts, since the machine may be shared
// KIND: marks (PitMarks with their places, and nulls for the rest), nulls, or note (one long text).
#include "../tools/system.h"

typedef unsigned char u8;
typedef unsigned long long u64;
typedef long long i64;

u64 longest_message(void);
u64 proved_read(const u8 *message, u64 length, i64 *list, u64 room);
u64 proved_write(const i64 *list, u64 n, u8 *out, u64 room);
u64 plain_read(const u8 *message, u64 length, i64 *list, u64 room);
u64 plain_write(const i64 *list, u64 n, u8 *out, u64 room);
u64 hand_read(const u8 *message, u64 length, i64 *list, u64 room);
u64 hand_write(const i64 *list, u64 n, u8 *out, u64 room);

typedef u64 reader(const u8 *message, u64 length, i64 *list, u64 room);
typedef u64 writer(const i64 *list, u64 n, u8 *out, u64 room);
enum { WHO = 3 };
static const char *const names[WHO] = {"proved", "plain", "hand"};
static reader *const read_by[WHO] = {proved_read, plain_read, hand_read};
static writer *const write_by[WHO] = {proved_write, plain_write, hand_write};

enum { LONGEST = 1048576, FRAME = 12, HEAD = 15, MARK = 45 };
static u8 message[LONGEST], written[LONGEST], other[LONGEST];
static i64 list[LONGEST], again[LONGEST];

static u64 at;

static void put(int width, u64 value) {
    for (int i = width - 1; i >= 0; i--) message[at++] = (u8)(value >> 8 * i);
}

static void head(u64 type) {
    put(1, 1);
    for (int i = 0; i < 8; i++) message[at++] = (u8) "PITSURV"[i];
    put(4, type);
    put(2, 1);
}

static void finish(void) {
    u64 sum = 0;
    for (u64 i = 0; i < at; i++) sum += message[i];
    put(4, sum);
}

static void make(const char *kind, u64 length) {
    u64 rest = length - FRAME - HEAD - 6;
    u64 marks = strcmp(kind, "marks") == 0 ? rest / MARK : 0;
    u64 nulls = rest - marks * MARK;
    at = 0;
    for (int i = 0; i < 4; i++) message[at++] = (u8) "LMCP"[i];
    put(4, length - FRAME);
    if (strcmp(kind, "note") == 0) {
        u64 text = length - FRAME - HEAD - 3;
        head(6);
        put(2, text);
        for (u64 i = 0; i < text; i++) put(1, 32 + i % 95);
        put(1, 0);
        finish();
        return;
    }
    head(5);
    put(4, 9);
    put(2, marks + nulls);
    for (u64 i = 0; i < marks; i++) {
        head(4);
        put(4, i);
        put(1, i % 2);
        head(2);
        put(4, 0xfff00000 + i);
        put(4, i);
        put(2, 0xfff0);
    }
    for (u64 i = 0; i < nulls; i++) put(1, 0);
    finish();
}

static double now(void) {
    struct timespec t;
    clock_gettime(1, &t);
    return (double)t.seconds * 1e9 + (double)t.nanoseconds;
}

static u64 seed = 1;

static u64 any(u64 below) {
    seed = seed * 6364136223846793005ull + 1442695040888963407ull;
    return (seed >> 33) % below;
}

// All read the message, and all write its list, into as much room as there is; then with a number changed.
static int same(u64 length) {
    u64 room = any(4) ? LONGEST / 2 : any(200), n = 0;
    for (int who = 0; who < WHO; who++) {
        i64 *to = who == 0 ? list : again;
        for (u64 i = 0; i < 300; i++) to[i] = -7;
        u64 found = read_by[who](message, length, to, room);
        if (who == 0) n = found;
        if (found != n || memcmp(list, to, 300 * sizeof *list) != 0) return 0;
    }
    if (n > LONGEST) return 1;
    if (any(2)) list[any(n)] = (i64)any(300) - 20;
    u64 numbers = n - (any(4) ? 0 : any(n)), bytes = any(4) ? LONGEST : any(2000), m = 0;
    for (int who = 0; who < WHO; who++) {
        u8 *to = who == 0 ? written : other;
        for (u64 i = 0; i < 2000; i++) to[i] = 9;
        u64 made = write_by[who](list, numbers, to, bytes);
        if (who == 0) m = made;
        if (made != m || memcmp(written, to, 2000) != 0) return 0;
    }
    return 1;
}

static int check(u64 count) {
    static const char *const kinds[] = {"marks", "nulls", "note"};
    for (u64 i = 0; i < count; i++) {
        u64 length = 100 + any(900);
        make(kinds[any(3)], length);
        for (u64 k = any(3); k > 0; k--) message[8 + any(length - 12)] = (u8)any(any(2) ? 256 : 8);
        if (any(3)) {
            at = length - 4;
            finish();
        }
        if (!same(any(8) ? length : any(length))) {
            printf("bench: proved and plain differ at message %llu\n", i);
            return 1;
        }
    }
    return 0;
}

int main(int argc, char **argv) {
    if (argc == 2 && strcmp(argv[1], "longest") == 0) return printf("%llu\n", longest_message()) < 0;
    if (argc == 3 && strcmp(argv[1], "check") == 0) return check((u64)atol(argv[2]));
    if (argc == 6 && strcmp(argv[1], "once") == 0) {
        u64 length = (u64)atol(argv[5]);
        int who = 0;
        while (who < WHO && strcmp(argv[2], names[who]) != 0) who++;
        make(argv[4], length);
        if (strcmp(argv[3], "read") == 0) return who < WHO && read_by[who](message, length, list, LONGEST) > LONGEST;
        u64 n = plain_read(message, length, list, LONGEST);
        return who < WHO && write_by[who](list, n, written, LONGEST) != length;
    }
    if (argc != 4 || strcmp(argv[1], "time") != 0) return 2;
    u64 length = (u64)atol(argv[3]), numbers = 0;
    double best[2 * WHO];
    for (int i = 0; i < 2 * WHO; i++) best[i] = 1e18;
    make(argv[2], length);
    for (int round = 0; round < 40; round++)
        for (int who = 0; who < WHO; who++) {
            double t[3];
            t[0] = now();
            numbers = read_by[who](message, length, list, LONGEST);
            t[1] = now();
            write_by[who](list, numbers, written, LONGEST);
            t[2] = now();
            for (int i = 0; i < 2; i++)
                if (t[i + 1] - t[i] < best[2 * who + i]) best[2 * who + i] = t[i + 1] - t[i];
        }
    printf("%llu", numbers);
    for (int i = 0; i < 2 * WHO; i++) printf(" %.2f", best[i] / (double)length);
    return printf("\n") < 0;
}
