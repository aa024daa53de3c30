/* A season: flights one after another, each through a fresh receiver, into the same sets of tiles and pits. season.c alone calls the functions that count. */

#ifndef QM_SEASON_H
#define QM_SEASON_H

#include "qm.h"

/* What qm lends for a season: one tile more is 60, one pit more 61. */
enum { SEASON_TILES = 65536, SEASON_PITS = 65536 };

/* How entries were answered, and how many lists they brought. */
struct totals {
    qm_u64 entries, kept, repeated, delivered, refused[QM_REFUSALS], lists;
};

/* A flight begins: a fresh receiver. */
void flight_begin(void);
/* Its receiver forgets a sender. */
void flight_forget(qm_u64 sender);
/* It takes the entry at hand. Answers 0, or 13, 60 or 61; `told` is of this entry. */
qm_u32 flight_take(const struct walk *w, struct totals *told);

/* It takes at most so many entries from w->at on, at first from 0, and moves it behind them. Answers as flight_take; `told` is of all of them. */
qm_u32 flight_stretch(struct walk *w, qm_u64 most, struct totals *told);

void totals_add(struct totals *sum, const struct totals *more);
/* A line a tile of all flights, rising. */
void season_print(void);

/* The sets of all flights, from the process that has counted them to another. The second answers whether they came. */
void season_write(FILE *to);
int season_read(FILE *from);

/* How many pits all flights have. They stand in one order, by rising tile, then pit. */
qm_size season_pits(void);
/* The place of a pit in that order, from 0, or their number where it is none of them. */
qm_size season_find(qm_u64 tile, qm_u64 pit);

/* A tile: its pits, rising, and of each whether it is sure. */
struct season_tile {
    qm_u64 tile;
    const qm_u64 *pit, *sure;
    qm_size many, many_sure;
    qm_size told, first, first_sure;   /* how many tiles were told, with this one, and where its pits and its sure pits begin among all */
};

/* Whether there is one more tile, rising; it is then the one told. Zeros are a beginning. */
int season_next(struct season_tile *t);

#endif
