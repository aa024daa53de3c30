/* What was met in a log, a row each. */

#include "met.h"
#include "seen.h"

enum { FIRST_ROOM = 64 };

static int is_same(const struct met_row *a, const struct met_row *b) {
    return a->number == b->number && (!a->name || memcmp(a->name, b->name, a->number) == 0);
}

static qm_u64 hash_of_row(const struct met_row *row) {
    return row->name ? hash_of_bytes(row->name, row->number) : hash_of_bytes((const qm_byte *) &row->number, sizeof row->number);
}

/* The row of what is asked for, or the free one where it would stand. */
static struct met_row *row_of(const struct met *m, const struct met_row *asked) {
    qm_size i = hash_of_row(asked) & (m->room - 1);
    while (m->rows[i].used && !is_same(&m->rows[i], asked)) i = (i + 1) & (m->room - 1);
    return &m->rows[i];
}

/* At most half of the rows are in use. */
static int grow(struct met *m) {
    struct met wider = {.room = m->room ? 2 * m->room : FIRST_ROOM, .used = m->used};
    wider.rows = calloc(wider.room, sizeof *wider.rows);
    if (!wider.rows) return 0;
    for (qm_size i = 0; i < m->room; i++)
        if (m->rows[i].used) *row_of(&wider, &m->rows[i]) = m->rows[i];
    free(m->rows);
    *m = wider;
    return 1;
}

static struct met_row *met(struct met *m, struct met_row asked) {
    if (2 * m->used >= m->room && !grow(m)) return 0;
    struct met_row *row = row_of(m, &asked);
    if (row->used) return row;
    *row = asked;
    row->used = 1;
    m->used++;
    return row;
}

struct met_row *met_sender(struct met *m, qm_u64 sender) {
    return met(m, (struct met_row) {.number = sender});
}

struct met_row *met_channel(struct met *m, const qm_byte *name, qm_size length) {
    return met(m, (struct met_row) {.name = name, .number = length});
}

void met_again(struct met_row *row, qm_u64 bytes, qm_u64 tick) {
    if (row->times == 0) row->first = tick;
    row->times++;
    row->bytes += bytes;
    row->last = tick;
}

static int by_key(const void *a, const void *b) {
    const struct met_row *x = a, *y = b;
    if (!x->name) return (x->number > y->number) - (x->number < y->number);
    int order = memcmp(x->name, y->name, x->number < y->number ? x->number : y->number);
    return order ? order : (x->number > y->number) - (x->number < y->number);
}

void met_sort(struct met *m) {
    qm_size to = 0;
    for (qm_size i = 0; i < m->room; i++) {
        if (!m->rows[i].used) continue;
        struct met_row row = m->rows[i];
        m->rows[i].used = 0;
        m->rows[to++] = row;
    }
    if (to > 0) qsort(m->rows, to, sizeof *m->rows, by_key);
}

void met_close(struct met *m) {
    free(m->rows);
    *m = (struct met) {0};
}
