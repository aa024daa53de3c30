// Makes a log and counts it by the plain count and by the proved one. `count` beside it builds it and says what it prints.
//   check                          both give the same report, on every log
//   time LOG N REPEATS             microseconds of each: the log is counted so many times by the one and the other by turns, the best time counts
//   plain LOG N, proved LOG N      one count of the log, to be counted by a tool; prints how many bytes the log has. none LOG N: all but the count
// LOG is flight (tiles in 16 datagrams of 1,400 bytes), marks (datagrams of 65,535 bytes, full of the shortest marks) or nulls (the same, of
// null marks); N is the number of its datagrams, at most 4,096.
#include "counting.h"

static void stop(const char *why) {
    printf("bench: %s\n", why);
    exit(1);
}

static u64 now(void) {
    struct timespec t;
    clock_gettime(STEADY_CLOCK, &t);
    return (u64)t.seconds * 1000000000 + (u64)t.nanoseconds;
}

static u64 seed;

static u32 any(u32 below) {
    seed = seed * 6364136223846793005ul + 1442695040888963407ul;
    return (u32)((seed >> 33) % below);
}

// ---- the logs

enum { LOG_ROOM = 4096 * (65535 + 12) + 1, M = 1400, PIECES = 16, PITS_A_TILE = 32 };

static u8 *log_;
static u64 length;

static void put(u8 *p, u32 width, u64 x) {
    for (u32 i = width; i > 0; i--, x >>= 8) p[i - 1] = (u8)x;
}

static u8 *head(u8 *p, u32 type) {
    memcpy(p, "\1PITSURV", 9);
    put(p + 9, 4, type);
    put(p + 13, 2, 1);
    return p + 15;
}

// A PitList of just `size` bytes: as many marks as there is room for, with a place or without, then null ones.
static void lay_list(u8 *p, u32 size, u32 tile, u32 most, int places) {
    u32 each = places ? 45 : 21, marks = (size - 33) / each;
    if (marks > most) marks = most;
    u32 nulls = size - 33 - marks * each;
    if (marks + nulls > 65535) stop("too many marks for a list");
    memcpy(p, "LMCP", 4);
    put(p + 4, 4, size - 12);
    u8 *at = head(p + 8, 5);
    put(at, 4, tile);
    put(at + 4, 2, marks + nulls);
    at += 6;
    for (u32 i = 0; i < marks; i++) {
        at = head(at, 4);
        put(at, 4, any(PITS_A_TILE));
        at[4] = (u8)any(2);
        at += 5;
        if (!places) *at++ = 0;
        else {
            at = head(at, 2);
            for (u32 k = 0; k < 10; k++) *at++ = (u8)any(256);
        }
    }
    memset(at, 0, nulls);
    u32 sum = 0;
    for (u32 i = 0; i < size - 4; i++) sum += p[i];
    put(p + size - 4, 4, sum);
}

static void entry(const u8 *d, u32 n) {
    u8 *p = log_ + length;
    *p++ = 7;
    *p++ = 9;
    for (u32 v = n; ; v >>= 7) {
        *p++ = (u8)(v > 127 ? 128 | (v & 127) : v);
        if (v <= 127) break;
    }
    memcpy(p, d, n);
    length = (u64)(p - log_) + n;
}

// The tiles from the highest down, so that what is new goes before all that is there.
static u32 tile_of(u32 list) { return 100000 - list % 256; }

static void flight(u32 n) {
    static u8 message[PIECES * M], d[M];
    u32 size = PIECES * (M - 20) - 5;
    for (u32 i = 0; i < n / PIECES; i++) {
        lay_list(message, size, tile_of(i), 65535, 1);
        for (u32 k = 0; k < PIECES; k++) {
            u32 offset = k == 0 ? 0 : k * (M - 20) - 5, at = 20;
            memcpy(d, "LC03", 4);
            put(d + 4, 4, i);
            put(d + 8, 4, size);
            put(d + 12, 4, offset);
            put(d + 16, 2, k);
            put(d + 18, 2, PIECES);
            if (k == 0) {
                memcpy(d + 20, "TILE", 5);
                at = 25;
            }
            memcpy(d + at, message + offset, M - at);
            entry(d, M);
        }
    }
}

static void longest(u32 n, u32 marks) {
    static u8 d[MAX_DATAGRAM];
    memcpy(d, "LC02", 4);
    memcpy(d + 8, "TILE", 5);
    for (u32 i = 0; i < n; i++) {
        put(d + 4, 4, i);
        lay_list(d + 13, MAX_DATAGRAM - 13, tile_of(i), marks, 0);
        entry(d, MAX_DATAGRAM);
    }
}

static void make(const char *log, u32 n) {
    if (n > 4096) stop("a log has at most 4,096 entries");
    if (log_ == 0) log_ = mmap(0, LOG_ROOM, MAY_READ_AND_WRITE, OF_NO_FILE, -1, 0);
    if (log_ == (u8 *)-1) stop("no memory for the log");
    seed = 1;
    length = 1;
    log_[0] = 1;
    if (strcmp(log, "flight") == 0) flight(n);
    else if (strcmp(log, "marks") == 0) longest(n, 65535);
    else if (strcmp(log, "nulls") == 0) longest(n, 0);
    else stop("no such log");
}

// ---- the two counts

static u8 store[QM_STORE];
static qm_u32 ledger[QM_LEDGER];
static qm_i64 numbers[QM_NUMBERS];
static qm_u64 proved_report[QM_REPORT];
static u64 plain_report[QM_REPORT];

static void by_plain(void) {
    if (plain_count(log_, length, store, QM_STORE, ledger, QM_LEDGER, plain_report) != 0) stop("the plain count refuses");
}

static void by_proved(void) {
    if (qm_count(log_, length, store, QM_STORE, ledger, QM_LEDGER, numbers, QM_NUMBERS, proved_report, QM_REPORT) != 0) stop("the proved count refuses");
}

static void check(void) {
    static const char *const logs[] = {"flight", "marks", "nulls"};
    for (u32 i = 0; i < 3; i++) {
        make(logs[i], 512);
        by_plain();
        by_proved();
        if (memcmp(plain_report, proved_report, sizeof plain_report) != 0) stop("two reports differ");
    }
}

static void measure(u32 repeats) {
    u64 best[2] = {-1ul, -1ul};
    for (u32 i = 0; i < 2 * repeats; i++) {
        u64 began = now();
        if (i % 2 == 0) by_plain();
        else by_proved();
        u64 spent = now() - began;
        if (spent < best[i % 2]) best[i % 2] = spent;
    }
    printf("%.0f %.0f\n", (double)best[0] / 1000, (double)best[1] / 1000);
}

int main(int words, char **word) {
    if (words == 2 && strcmp(word[1], "check") == 0) {
        check();
        return 0;
    }
    if (words < 4) stop("called otherwise than its first lines say");
    make(word[2], (u32)atol(word[3]));
    if (strcmp(word[1], "time") == 0 && words == 5) measure((u32)atol(word[4]));
    else if (strcmp(word[1], "plain") == 0) by_plain();
    else if (strcmp(word[1], "proved") == 0) by_proved();
    else if (strcmp(word[1], "none") == 0) return 0;
    else stop("called otherwise than its first lines say");
    if (strcmp(word[1], "time") != 0) printf("%lu\n", length);
    return 0;
}
