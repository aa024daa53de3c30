/* The outermost of some places. */

#include "outline.h"

/* A degree is 111,195 metres to the north, and no more than that to the east: so many ten-millionths are under 50 metres. */
enum { NEAR = 4496 };

enum { FIRST_ROOM = 4 };

static int by_place(const void *a, const void *b) {
    const struct place *x = a, *y = b;
    if (x->lat != y->lat) return x->lat < y->lat ? -1 : 1;
    return (x->lon > y->lon) - (x->lon < y->lon);
}

/* Whether the way from a by b to c turns to the other side, or not at all: b is none of the outermost. */
static int is_within(const struct place *a, const struct place *b, const struct place *c) {
    qm_i64 north = (qm_i64) b->lat - a->lat, east = (qm_i64) b->lon - a->lon;
    return (__int128) north * ((qm_i64) c->lon - a->lon) <= (__int128) east * ((qm_i64) c->lat - a->lat);
}

/* One side of the outline, from the first place to the last, by `step` through sorted places; the last is left out. Answers how many it has. */
static qm_size one_side(const struct place *from, qm_size many, long step, struct place *to) {
    qm_size made = 0;
    for (; many > 0; many--, from += step) {
        while (made > 1 && is_within(&to[made - 2], &to[made - 1], from)) made--;
        to[made++] = *from;
    }
    return made - 1;
}

static qm_size without_copies(struct place *places, qm_size many) {
    qm_size left = 0;
    for (qm_size i = 0; i < many; i++)
        if (left == 0 || by_place(&places[left - 1], &places[i]) != 0) places[left++] = places[i];
    return left;
}

/* Whether a place is one of those around, or lies among them: where one of them is on each side of it, to north-east, north-west, south-east and south-west,
   no line parts it from all of them, and it is none of the outermost. */
static int is_known(const struct outline *o, struct place p) {
    unsigned sides = 0, same = 0;
    for (unsigned i = 0; i < AROUND; i++) {
        struct place a = o->around[i];
        sides |= 1u << (2 * (a.lat > p.lat) + (a.lon > p.lon));
        same |= a.lat == p.lat && a.lon == p.lon;
    }
    return same || sides == 15;
}

void outline_trim(struct outline *o) {
    qsort(o->places, o->many, sizeof *o->places, by_place);
    o->many = without_copies(o->places, o->many);
    if (o->many <= 2) return;
    /* where there is no memory they stay as they are */
    struct place *sides = malloc((2 * o->many + 2) * sizeof *sides);
    if (!sides) return;
    qm_size made = one_side(o->places, o->many, 1, sides);
    made += one_side(o->places + o->many - 1, o->many, -1, sides + made);
    memcpy(o->places, sides, made * sizeof *sides);
    o->many = made;
    free(sides);
    for (unsigned i = 0; i < AROUND; i++) o->around[i] = o->places[i * o->many / AROUND];
}

int outline_add(struct outline *o, struct place p) {
    if (o->many > 0 && is_known(o, p)) return 1;
    if (o->many == o->room) {
        outline_trim(o);
        /* it is trimmed again once half of it is new */
        qm_size room = 2 * o->many > FIRST_ROOM ? 2 * o->many : FIRST_ROOM;
        struct place *places = realloc(o->places, room * sizeof *places);
        if (!places) return 0;
        o->places = places;
        o->room = room;
    }
    for (qm_size i = o->many; i < AROUND; i++) o->around[i] = p;
    o->places[o->many++] = p;
    return 1;
}

int outline_is_wide(const struct outline *o) {
    struct place low = {0}, high = {0};
    for (qm_size i = 0; i < o->many; i++) {
        struct place p = o->places[i];
        if (i == 0) low = high = p;
        if (p.lat < low.lat) low.lat = p.lat;
        if (p.lat > high.lat) high.lat = p.lat;
        if (p.lon < low.lon) low.lon = p.lon;
        if (p.lon > high.lon) high.lon = p.lon;
    }
    __int128 north = (qm_i64) high.lat - low.lat, east = (qm_i64) high.lon - low.lon;
    return north * north + east * east > NEAR * NEAR;
}

void outline_close(struct outline *o) {
    free(o->places);
    *o = (struct outline) {0};
}
