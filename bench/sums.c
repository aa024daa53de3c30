// The checksum in plain C and the proved one, over the same bytes. `checksum` beside it builds it and says what it prints.
//   check          all give the same sum, for every length from 0 to 4,096 and each of 64 places in memory
//   time LENGTH    nanoseconds a call of each: by turns, and of 200 rounds the best counts, since the machine may be shared
//   NAME LENGTH    one call of that one, to be counted by a tool
#include "../tools/system.h"

typedef unsigned char u8;
typedef unsigned int u32;
typedef unsigned long long u64;

u32 plain(const u8 *bytes, u64 length);
u32 proved(const u8 *bytes, u64 length);
#ifdef BEFORE
u32 before(const u8 *bytes, u64 length);
#endif

__attribute__((noinline)) u32 plain(const u8 *bytes, u64 length) {
    u32 sum = 0;
    for (u64 i = 0; i < length; i++) sum += bytes[i];
    return sum;
}

static const struct {
    const char *name;
    u32 (*sum)(const u8 *, u64);
} all[] = {
    {"plain", plain},
#ifdef BEFORE
    {"before", before},
#endif
    {"proved", proved},
};
enum { ALL = sizeof all / sizeof *all };

static u8 bytes[1048576 + 64];

static double now(void) {
    struct timespec t;
    clock_gettime(STEADY_CLOCK, &t);
    return (double)t.seconds * 1e9 + (double)t.nanoseconds;
}

static int check(void) {
    for (u64 n = 0; n <= 4096; n++)
        for (u64 at = 0; at < 64; at++)
            for (int k = 1; k < ALL; k++)
                if (all[k].sum(bytes + at, n) != plain(bytes + at, n)) {
                    printf("bench: %s differs at length %llu, place %llu\n", all[k].name, n, at);
                    return 1;
                }
    return 0;
}

int main(int argc, char **argv) {
    u64 state = 1;
    for (u64 i = 0; i < sizeof bytes; i++) {
        state = state * 6364136223846793005u + 1442695040888963407u;
        bytes[i] = (u8)(state >> 56);
    }
    if (argc == 2) return check();
    if (argc != 3) return 2;
    u64 n = (u64)atol(argv[2]);
    volatile u32 sink = 0;
    for (int k = 0; k < ALL; k++)
        if (!strcmp(argv[1], all[k].name)) {
            sink = all[k].sum(bytes + 1, n);
            return 0;
        }
    double best[ALL];
    u64 turns = 1 + 200000 / (n + 20);
    for (int k = 0; k < ALL; k++) best[k] = 1e18;
    for (int round = 0; round < 200; round++)
        for (int k = 0; k < ALL; k++) {
            u32 (*volatile sum)(const u8 *, u64) = all[k].sum; // so that each turn calls it
            double start = now();
            for (u64 j = 0; j < turns; j++) sink += sum(bytes + 1, n);
            double each = (now() - start) / (double)turns;
            if (each < best[k]) best[k] = each;
        }
    for (int k = 0; k < ALL; k++) printf("%.1f ", best[k]);
    printf("\n");
    return 0;
}
