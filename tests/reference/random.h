/* A small seeded generator (splitmix64), so that every run makes the same inputs. */

#ifndef RANDOM_H
#define RANDOM_H

#include "reference.h"

static u64 random_state = 1;

static inline u64 random_64(void) {
    u64 z = (random_state += 0x9e3779b97f4a7c15ULL);
    z = (z ^ (z >> 30)) * 0xbf58476d1ce4e5b9ULL;
    z = (z ^ (z >> 27)) * 0x94d049bb133111ebULL;
    return z ^ (z >> 31);
}

/* A number below n; 0 where n is 0. */
static inline u64 below(u64 n) { return n == 0 ? 0 : random_64() % n; }

/* From lo up to and with hi. */
static inline u64 between(u64 lo, u64 hi) { return lo + below(hi - lo + 1); }

/* True p times in 100. */
static inline int chance(u64 p) { return below(100) < p; }

/* One of a list of numbers. */
#define ONE_OF(...) (((const u64[]) {__VA_ARGS__})[below(sizeof((const u64[]) {__VA_ARGS__}) / sizeof(u64))])

#endif
