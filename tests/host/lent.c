#include "lent.h"

/* 64 KiB is a whole number of pages on every machine that the toolchain runs on, emulated or not. */
enum { GUARD = 65536 };

void region_take(struct region *r, u64 room) {
    u64 inner = (room + 2 * CANARIES + 64 + GUARD - 1) / GUARD * GUARD;
    u8 *base = mmap(0, inner + 2 * GUARD, MAY_READ_AND_WRITE, OF_NO_FILE, -1, 0);
    if (base == (u8 *) -1 || mprotect(base, GUARD, MAY_NOTHING) != 0 || mprotect(base + GUARD + inner, GUARD, MAY_NOTHING) != 0) {
        printf("host: no memory for the test\n");
        exit(2);
    }
    r->end = base + GUARD + inner;
    r->room = room;
    r->at = r->end;
    r->length = 0;
    r->after = 0;
}

static u8 canary(u64 i) { return (u8) (0xa5 ^ (i * 29)); }

u8 *region_lend(struct region *r, u64 length, int flush) {
    if (length > r->room) {
        printf("host: the test lends more than it has\n");
        exit(2);
    }
    r->after = flush ? 0 : CANARIES;
    r->length = length;
    r->at = r->end - r->after - length;
    for (u64 i = 0; i < CANARIES; i++) {
        r->at[-1 - (long) i] = canary(i);
        if (!flush) r->at[length + i] = canary(i);
    }
    return r->at;
}

int region_whole(const struct region *r) {
    for (u64 i = 0; i < CANARIES; i++)
        if (r->at[-1 - (long) i] != canary(i)) return 0;
    for (u64 i = 0; i < r->after; i++)
        if (r->at[r->length + i] != canary(i)) return 0;
    return 1;
}
