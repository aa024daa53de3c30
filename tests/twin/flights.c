/* Logs for count_pits, and the lines that it must write of each. */

#include "twin.h"

enum { KEPT = FIRST_KIND, REPEATED, DELIVERED, LISTS, TILES };

static u8 store[SLOTS * MAX_PAYLOAD];
static u32 ledger[LEDGER];
static i64 numbers[MAX_MESSAGE];

static void make_log(int which) {
    flight_seed(9000 + (u64) which);
    switch (which) {
    case 0: flight_world(0); break;
    case 1: flight_tiles(MOST_TILES); break;
    case 2: flight_tiles(MOST_TILES + 1); break;
    case 3: flight_pits(MOST_PITS); break;
    case 4: flight_pits(MOST_PITS + 1); break;
    case 5: flight_entries(MOST_ENTRIES); break;
    case 6: flight_entries(MOST_ENTRIES + 1); break;
    default: flight_world(which < 24 ? 150 : 20); break;
    }
    if (which >= 28) flight_damage();
}

/* One log is a stream. */
void count_stream(struct stream *s, int which) {
    static struct ref_report r;
    make_log(which);
    fwrite(flight_log, 1, flight_length, s->in);
    u32 refusal = ref_count(flight_log, flight_length, store, sizeof store, ledger, LEDGER, numbers, MAX_MESSAGE, &r);
    s->number += r.entries;
    if (refusal != 0) {
        fprintf(s->expected, "refused %u\n", refusal);
        return;
    }
    fprintf(s->expected, "entries %llu\nkept %llu\nrepeated %llu\ndelivered %llu\n", r.entries, r.kept, r.repeated, r.delivered);
    for (int n = 0; n < REFUSAL_NUMBERS; n++) {
        if (r.refused[n] > 0) fprintf(s->expected, "refused %d %llu\n", n, r.refused[n]);
        met[n] += r.refused[n];
    }
    fprintf(s->expected, "lists %llu\n", r.lists);
    for (u64 i = 0; i < r.tiles; i++) fprintf(s->expected, "tile %llu pits %llu sure %llu\n", r.tile[i], r.pits[i], r.sure[i]);
    met[KEPT] += r.kept;
    met[REPEATED] += r.repeated;
    met[DELIVERED] += r.delivered;
    met[LISTS] += r.lists;
    met[TILES] += r.tiles;
}
