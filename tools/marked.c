/* The pits of a season by their marks. */

#include "marked.h"
#include "forms.h"
#include "season.h"
#include "seen.h"

/* The slots of so many pits with numbers in a row stand together, since a list often has them all: they come into the processor's cache at once. */
enum { FIRST_ROOM = 1 << 10, TOGETHER = 16 };

/* ---- tables that grow; at most half of a table by hash is in use */

static qm_u32 *slot_of(const struct marked *t, qm_u64 tile, qm_u64 pit) {
    qm_u64 number = tile << 32 ^ pit;
    qm_size i = (hash_of_number(number / TOGETHER) * TOGETHER + number % TOGETHER) & (t->room - 1);
    while (t->slots[i] != 0 && (t->pits[t->slots[i] - 1].last.tile != tile || t->pits[t->slots[i] - 1].last.pit != pit)) i = (i + 1) & (t->room - 1);
    return &t->slots[i];
}

static int grow_pits(struct marked *t) {
    qm_size room = t->room ? 2 * t->room : FIRST_ROOM;
    struct marked_pit *pits = realloc(t->pits, room / 2 * sizeof *pits);
    if (pits) t->pits = pits;
    qm_u32 *slots = pits ? calloc(room, sizeof *slots) : 0;
    if (!slots) return 0;
    free(t->slots);
    t->slots = slots;
    t->room = room;
    for (qm_size i = 0; i < t->many; i++) *slot_of(t, pits[i].last.tile, pits[i].last.pit) = (qm_u32) (i + 1);
    return 1;
}

static int grow_marks(struct marked *t) {
    qm_size room = t->marks_room ? 2 * t->marks_room : FIRST_ROOM;
    struct first_mark *marks = realloc(t->marks, room * sizeof *marks);
    if (!marks) return 0;
    t->marks = marks;
    t->marks_room = room;
    return 1;
}

static qm_u64 *pair_of(qm_u64 *pairs, qm_size room, qm_u64 pair) {
    qm_size i = hash_of_number(pair) & (room - 1);
    while (pairs[i] != 0 && pairs[i] != pair) i = (i + 1) & (room - 1);
    return &pairs[i];
}

static int grow_pairs(struct marked *t) {
    qm_size room = t->pairs_room ? 2 * t->pairs_room : FIRST_ROOM;
    qm_u64 *pairs = calloc(room, sizeof *pairs);
    if (!pairs) return 0;
    for (qm_size i = 0; i < t->pairs_room; i++)
        if (t->pairs[i] != 0) *pair_of(pairs, room, t->pairs[i]) = t->pairs[i];
    free(t->pairs);
    t->pairs = pairs;
    t->pairs_room = room;
    return 1;
}

/* ---- one mark */

/* The number of a pit, from 1, or 0 where there is no memory. */
static qm_u32 number_of(struct marked *t, const struct mark *m) {
    if (2 * t->many >= t->room && !grow_pits(t)) return 0;
    qm_u32 *slot = slot_of(t, m->tile, m->pit);
    if (*slot == 0) {
        t->pits[t->many] = (struct marked_pit) {.last = *m};
        *slot = (qm_u32) ++t->many;
    }
    return *slot;
}

/* The number of a sender, from 1, or 0 where there is no memory. The marks of a list are of one. */
static qm_size number_of_sender(struct marked *t, qm_u64 sender) {
    if (t->sender == 0 || t->senders.rows[t->sender - 1].sender != sender) t->sender = senders_add(&t->senders, sender);
    return t->sender;
}

/* Who has marked which pit. Often it is who has marked it last. */
static int note_sender(struct marked *t, qm_u32 pit, qm_u64 sender) {
    qm_size number = number_of_sender(t, sender);
    if (number != 0 && t->pits[pit - 1].sender == number) return 1;
    t->pits[pit - 1].sender = number;
    if (number == 0 || (2 * t->pairs_many >= t->pairs_room && !grow_pairs(t))) return 0;
    qm_u64 *pair = pair_of(t->pairs, t->pairs_room, (qm_u64) pit << 32 | number);
    if (*pair != 0) return 1;
    *pair = (qm_u64) pit << 32 | number;
    t->pairs_many++;
    t->pits[pit - 1].senders++;
    return 1;
}

static int keep_mark(struct marked *t, struct marked_pit *p, const struct mark *m) {
    if (t->kept == t->marks_room && !grow_marks(t)) return 0;
    t->marks[t->kept++] = (struct first_mark) {.place = {(int) m->lat, (int) m->lon}, .sender = m->sender, .tick = m->tick, .log = m->log, .sure = m->sure, .placed = m->placed};
    if (p->first == 0) p->first = t->kept;
    else t->marks[p->latest - 1].next = t->kept;
    p->latest = t->kept;
    return 1;
}

int marked_note(struct marked *t, const struct mark *m) {
    qm_u32 number = number_of(t, m);
    if (number == 0 || !note_sender(t, number, m->sender)) return 0;
    struct marked_pit *p = &t->pits[number - 1];
    p->last = *m;
    if (p->marks++ < MARKED_FIRST && !keep_mark(t, p, m)) return 0;
    return !m->placed || outline_add(&p->places, (struct place) {(int) m->lat, (int) m->lon});
}

void marked_close(struct marked *t) {
    for (qm_size i = 0; i < t->many; i++) outline_close(&t->pits[i].places);
    free(t->pits);
    free(t->slots);
    free(t->marks);
    free(t->pairs);
    senders_close(&t->senders);
    *t = (struct marked) {0};
}

/* ---- the lines */

/* Marks that may lie far apart: their outermost places, and the first of them. */
static void print_wide(const struct marked *t, struct marked_pit *p, char *const *log) {
    outline_trim(&p->places);
    printf("corners");
    for (qm_size i = 0; i < p->places.many; i++) printf(" %d %d", p->places.places[i].lat, p->places.places[i].lon);
    printf("\n");
    for (qm_size i = p->first; i != 0; i = t->marks[i - 1].next) {
        const struct first_mark *m = &t->marks[i - 1];
        printf("mark sure %d", m->sure);
        if (m->placed) printf(" lat %d lon %d", m->place.lat, m->place.lon);
        printf(" sender %llu tick %llu log %s\n", m->sender, m->tick, log[m->log]);
    }
}

/* What was counted and what was noted are of the same lists, so that this does not come. */
static int differs(void) {
    fprintf(stderr, "qm sums: the logs were changed while they were read\n");
    return FAILED;
}

static int print_pit(const struct marked *t, const struct season_tile *tile, qm_size i, char *const *log) {
    qm_u32 number = t->many > 0 ? *slot_of(t, tile->tile, tile->pit[i]) : 0;
    if (number == 0) return differs();
    struct marked_pit *p = &t->pits[number - 1];
    p->sure = p->last.sure = tile->sure[i] != 0;
    as_lines.pit(&p->last, p->marks, log[p->last.log]);
    if (outline_is_wide(&p->places)) print_wide(t, p, log);
    return DONE;
}

/* Of a sender the pits that it has marked, those of them that are sure, and those that nobody else has marked. */
struct bringer {
    qm_u64 pits, sure, alone;
};

static void add_pairs(const struct marked *t, struct bringer *bringers) {
    for (qm_size i = 0; i < t->pairs_room; i++) {
        if (t->pairs[i] == 0) continue;
        const struct marked_pit *p = &t->pits[(t->pairs[i] >> 32) - 1];
        struct bringer *b = &bringers[(qm_u32) t->pairs[i]];
        b->pits++;
        b->sure += p->sure != 0;
        b->alone += p->senders == 1;
    }
}

/* The lists' senders rise. One that is not among those of marks brought lists without any. */
static void print_bringers(const struct marked *t, const struct senders *lists, const struct bringer *bringers) {
    printf("brought %llu\n", lists->used);
    for (qm_size i = 0; i < lists->used && i < MARKED_SENDERS; i++) {
        const struct sender_row *row = &lists->rows[i];
        const struct bringer *b = &bringers[senders_number(&t->senders, row->sender)];
        printf("brought sender %llu lists %llu pits %llu sure %llu alone %llu\n", row->sender, row->times, b->pits, b->sure, b->alone);
    }
}

int marked_print(struct marked *t, struct senders *lists, char *const *log) {
    struct season_tile tile = {0};
    int status = DONE;
    while (status == DONE && season_next(&tile))
        for (qm_size i = 0; status == DONE && i < tile.many; i++) status = print_pit(t, &tile, i, log);
    /* the first is of nobody, and stays 0 */
    struct bringer *bringers = status == DONE ? calloc(t->senders.used + 1, sizeof *bringers) : 0;
    if (!bringers) return status == DONE ? failed("sums", "the senders") : status;
    add_pairs(t, bringers);
    senders_sort(lists);
    print_bringers(t, lists, bringers);
    free(bringers);
    return DONE;
}
