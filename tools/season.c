/* A season over the functions that count: the memory that they are lent, one entry at a time, and the tile lines. */

#include "season.h"

/* Slots of the largest payload, and room for the numbers of the longest message: 6 and 13 come of no lack of memory here. */
static qm_u64 state[QM_STATE];
static qm_byte names[QM_NAMES];
static qm_byte store[QM_STORE];
static qm_u32 ledger[QM_LEDGER];
static qm_i64 numbers[QM_NUMBERS];
/* The sets over all flights, and how many numbers each has. */
static qm_u64 tiles[SEASON_TILES], pits[SEASON_PITS], sure[SEASON_PITS];
static qm_size has_tiles, has_pits, has_sure;

void flight_begin(void) {
    /* memory of the header's lengths: 9 does not come */
    qm_open(state, QM_STATE, names, QM_NAMES, QM_STORE);
}

void flight_forget(qm_u64 sender) {
    qm_forget(state, QM_STATE, names, QM_NAMES, sender);
}

/* From a place on at most so many entries. Answers as flight_take, and where to go on. */
static qm_u32 count_on(struct mapped log, qm_size *place, qm_u64 most, struct totals *told) {
    qm_u64 said[QM_STRETCH];
    /* the list of numbers is of the header's length: 13 does not come */
    qm_count_on(log.bytes, log.length, *place, most, state, QM_STATE, names, QM_NAMES, store, QM_STORE, ledger, QM_LEDGER, numbers, QM_NUMBERS, tiles,
                SEASON_TILES, pits, SEASON_PITS, sure, SEASON_PITS, has_tiles, has_pits, has_sure, said, QM_STRETCH);
    has_tiles = said[QM_ON_TILES];
    has_pits = said[QM_ON_PITS];
    has_sure = said[QM_ON_SURE];
    *told = (struct totals) {.entries = said[QM_ON_ENTRIES], .kept = said[QM_ON_KEPT], .repeated = said[QM_ON_REPEATED],
                             .delivered = said[QM_ON_DELIVERED], .lists = said[QM_ON_LISTS]};
    for (unsigned n = 0; n < QM_REFUSALS; n++) told->refused[n] = said[QM_ON_REFUSED + n];
    *place = said[QM_ON_PLACE];
    return said[QM_ON_STOP] == QM_STOP_REFUSED ? (qm_u32) said[QM_ON_NUMBER] : 0;
}

qm_u32 flight_take(const struct walk *w, struct totals *told) {
    qm_size place = w->at;
    return count_on(w->log, &place, 1, told);
}

qm_u32 flight_stretch(struct walk *w, qm_u64 most, struct totals *told) {
    qm_u32 refusal = count_on(w->log, &w->at, most, told);
    walk_give_back(w);
    return refusal;
}

void totals_add(struct totals *sum, const struct totals *more) {
    sum->entries += more->entries;
    sum->kept += more->kept;
    sum->repeated += more->repeated;
    sum->delivered += more->delivered;
    sum->lists += more->lists;
    for (unsigned n = 0; n < QM_REFUSALS; n++) sum->refused[n] += more->refused[n];
}

/* The tiles of all flights, and of each how many pits it has, and how many of them are sure. */
static qm_u64 tile[SEASON_TILES], tile_pits[SEASON_TILES], tile_sure[SEASON_TILES];

static void tell_tiles(void) {
    qm_count_lines(tile, SEASON_TILES, tile_pits, SEASON_TILES, tile_sure, SEASON_TILES, tiles, SEASON_TILES, pits, SEASON_PITS, sure, SEASON_PITS, has_tiles, has_pits, has_sure);
}

void season_print(void) {
    tell_tiles();
    for (qm_size i = 0; i < has_tiles; i++) printf("tile %llu pits %llu sure %llu\n", tile[i], tile_pits[i], tile_sure[i]);
}

void season_write(FILE *to) {
    const qm_size has[] = {has_tiles, has_pits, has_sure};
    fwrite(has, sizeof has, 1, to);
    fwrite(tiles, sizeof *tiles, has_tiles, to);
    fwrite(pits, sizeof *pits, has_pits, to);
    fwrite(sure, sizeof *sure, has_sure, to);
}

int season_read(FILE *from) {
    qm_size has[3];
    if (fread(has, sizeof has, 1, from) != 1) return 0;
    has_tiles = has[0];
    has_pits = has[1];
    has_sure = has[2];
    return fread(tiles, sizeof *tiles, has_tiles, from) == has_tiles && fread(pits, sizeof *pits, has_pits, from) == has_pits &&
           fread(sure, sizeof *sure, has_sure, from) == has_sure;
}

qm_size season_pits(void) {
    return has_pits;
}

/* The sets rise, and a pit is kept in them under its tile: by halving. */
qm_size season_find(qm_u64 tile, qm_u64 pit) {
    qm_u64 number = tile << 32 | pit;
    qm_size low = 0, high = has_pits;
    while (low < high) {
        qm_size middle = low + (high - low) / 2;
        if (pits[middle] < number) low = middle + 1;
        else high = middle;
    }
    return low < has_pits && pits[low] == number ? low : has_pits;
}

int season_next(struct season_tile *t) {
    static qm_u64 number[SEASON_PITS], certain[SEASON_PITS];
    if (t->told == 0) tell_tiles();
    if (t->told == has_tiles) return 0;
    qm_size i = t->told++;
    t->first += t->many;
    t->first_sure += t->many_sure;
    t->tile = tile[i];
    t->pit = number;
    t->sure = certain;
    t->many_sure = tile_sure[i];
    /* a tile's pits stand together, so that its own part of the sets is all that has to be looked at */
    qm_pits(tile[i], pits + t->first, tile_pits[i], sure + t->first_sure, tile_sure[i], tile_pits[i], tile_sure[i], number, SEASON_PITS, certain, SEASON_PITS, &t->many, 1);
    return 1;
}
