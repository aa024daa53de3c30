// A hostile season: lists of one sure mark each, tile after tile from the highest down, so that each goes before all that is there in all three sets of the map.
//   N              fills the sets with N numbers each and prints the milliseconds of the processor's time that the proved count took
#include "../include/quartzmitten.h"
#include "receiver.h"

enum { HEAD = 15, LIST = 12 + HEAD + 6 + HEAD + 6, DATAGRAM = 13 + LIST, SEQUENCE_AT = 4, TILE_AT = 13 + 8 + HEAD };

// The processor's time of this program, since the machine may be shared.
enum { OWN_CLOCK = 2 };

static void stop(const char *why) {
    printf("bench: %s\n", why);
    exit(1);
}

static void *memory(u64 bytes) {
    void *p = mmap(0, bytes, MAY_READ_AND_WRITE, OF_NO_FILE, -1, 0);
    if (p == (void *)-1) stop("no memory");
    return p;
}

static void put(u8 *p, u32 width, u64 x) {
    for (u32 i = width; i > 0; i--, x >>= 8) p[i - 1] = (u8)x;
}

static u8 *head(u8 *p, u32 type) {
    memcpy(p, "\1PITSURV", 9);
    put(p + 9, 4, type);
    put(p + 13, 2, 1);
    return p + HEAD;
}

// A message of one datagram: a PitList with one mark, which is sure and has no place, and no checksum.
static void lay(u8 *d) {
    memcpy(d, "LC02", 4);
    memcpy(d + 8, "TILE", 5);
    memcpy(d + 13, "LMCP", 4);
    put(d + 17, 4, LIST - 12);
    u8 *at = head(d + 21, 5);
    put(at + 4, 2, 1);
    at = head(at + 6, 4);
    put(at, 4, 1);
    put(at + 4, 1, 1);
}

static u64 now(void) {
    struct timespec t;
    clock_gettime(OWN_CLOCK, &t);
    return (u64)t.seconds * 1000000000 + (u64)t.nanoseconds;
}

static u8 store[QM_STORE], names[QM_NAMES];
static qm_u32 ledger[QM_LEDGER];
static qm_i64 numbers[QM_NUMBERS];
static qm_u64 state[QM_STATE], told[QM_STRETCH];

int main(int words, char **word) {
    u64 n = words == 2 ? (u64)atol(word[1]) : 0, length = 1;
    if (n == 0) stop("called otherwise than its first lines say");
    u8 *log = memory(1 + n * (3 + DATAGRAM));
    qm_u64 *sets[3];
    for (u32 k = 0; k < 3; k++) sets[k] = memory(n * sizeof *sets[k]);
    log[0] = 1;
    for (u64 i = 0; i < n; i++, length += 3 + DATAGRAM) {
        u8 *p = log + length;
        p[0] = p[1] = 7;
        p[2] = DATAGRAM;
        lay(p + 3);
        put(p + 3 + SEQUENCE_AT, 4, i);
        put(p + 3 + TILE_AT, 4, n - i);
    }
    if (qm_open(state, QM_STATE, names, QM_NAMES, QM_STORE) != 0) stop("the receiver does not open");
    u64 began = now();
    if (qm_count_on(log, length, 0, n, state, QM_STATE, names, QM_NAMES, store, QM_STORE, ledger, QM_LEDGER, numbers, QM_NUMBERS, sets[0], n, sets[1], n, sets[2], n, 0, 0,
                    0, told, QM_STRETCH) != 0) stop("the count refuses");
    u64 spent = now() - began;
    if (told[QM_ON_TILES] != n || told[QM_ON_PITS] != n || told[QM_ON_SURE] != n) stop("the sets are not full");
    printf("%lu\n", spent / 1000000);
    return 0;
}
