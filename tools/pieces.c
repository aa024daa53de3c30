/* Pieces of IP datagrams, put together. */

#include "pieces.h"

/* A datagram's pieces begin at multiples of eight bytes. One waits for its pieces as long as Linux does, 30 s. */
enum { OPEN = 64, MOST = 65535, UNIT = 8, UNITS = (MOST + UNIT) / UNIT, LONGEST = 30000 };

struct joined {
    struct piece_key key;
    qm_u64 tick;               /* of its first piece */
    qm_u64 age;                /* the number of openings before it */
    qm_u64 pieces;             /* how many it has; 0 where it is free */
    qm_size units, length;     /* how many units it has, and the whole length, 0 until its last piece came */
    qm_byte has[UNITS];
    qm_byte bytes[UNITS * UNIT];
};

static struct joined joined[OPEN];
static qm_u64 opened, lost;

static void give_up(struct joined *j) {
    lost += j->pieces;
    j->pieces = 0;
}

static struct joined *find(const struct piece *p) {
    struct joined *free_one = 0, *oldest = joined;
    for (struct joined *j = joined; j < joined + OPEN; j++) {
        /* a number comes again after a time */
        if (j->pieces > 0 && p->tick > j->tick && p->tick - j->tick > LONGEST) give_up(j);
        if (j->pieces > 0 && memcmp(&j->key, &p->key, sizeof p->key) == 0) return j;
        if (j->pieces == 0 && !free_one) free_one = j;
        if (j->age < oldest->age) oldest = j;
    }
    if (!free_one) give_up(free_one = oldest);
    free_one->key = p->key;
    free_one->tick = p->tick;
    free_one->age = opened++;
    free_one->units = free_one->length = 0;
    memset(free_one->has, 0, sizeof free_one->has);
    return free_one;
}

/* How many units of a piece are there already. */
static qm_size units_there(const struct joined *j, qm_size first, qm_size many) {
    qm_size there = 0;
    for (qm_size i = first; i < first + many; i++) there += j->has[i];
    return there;
}

/* Whether the piece goes with those that are there: within the whole length, where that is known, and no second end. */
static int goes_with(const struct joined *j, const struct piece *p) {
    qm_size end = p->offset + p->length;
    if (j->length > 0 && (end > j->length || (p->is_last && end != j->length))) return 0;
    if (!p->is_last) return p->length % UNIT == 0;
    return units_there(j, (end + UNIT - 1) / UNIT, UNITS - (end + UNIT - 1) / UNIT) == 0;
}

qm_size pieces_take(const struct piece *p, const qm_byte **whole) {
    struct joined *j = find(p);
    qm_size first = p->offset / UNIT, many = (p->length + UNIT - 1) / UNIT;
    j->pieces++;
    if (p->length == 0 || p->offset + p->length > MOST || !goes_with(j, p)) {
        give_up(j);
        return 0;
    }
    qm_size there = units_there(j, first, many);
    /* a copy of a piece that is there is passed over */
    if (there > 0 && !(there == many && memcmp(j->bytes + p->offset, p->bytes, p->length) == 0)) {
        give_up(j);
        return 0;
    }
    memcpy(j->bytes + p->offset, p->bytes, p->length);
    memset(j->has + first, 1, many);
    j->units += many - there;
    if (p->is_last) j->length = p->offset + p->length;
    if (j->length == 0 || j->units < (j->length + UNIT - 1) / UNIT) return 0;
    j->pieces = 0;
    *whole = j->bytes;
    return j->length;
}

qm_u64 pieces_left(void) {
    qm_u64 left = lost;
    for (struct joined *j = joined; j < joined + OPEN; j++) left += j->pieces;
    return left;
}
