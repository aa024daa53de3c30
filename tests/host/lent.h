/* Lent memory under watch: each region ends at pages that nobody may touch, and canary bytes stand around what is lent. */

#ifndef LENT_H
#define LENT_H

#include "../reference/reference.h"

enum { CANARIES = 64 };

/* A region that can lend up to `room` bytes at a time. */
struct region {
    u8 *end;    /* the first byte of the forbidden pages */
    u64 room;
    u8 *at;     /* what is lent now, and its length */
    u64 length;
    u64 after;  /* canary bytes behind it; 0 where it ends at the forbidden pages */
};

/* Takes a region from the system. */
void region_take(struct region *r, u64 room);

/* Lends `length` bytes, or, with flush, the last bytes of the region, so that one byte too far is a fault. Writes the canaries
   and leaves the lent bytes for the caller to fill. */
u8 *region_lend(struct region *r, u64 length, int flush);

/* 1 where every canary still stands. */
int region_whole(const struct region *r);

#endif
