/* How often each key was met. */

#include "keys.h"
#include "seen.h"

enum { FIRST_ROOM = 1 << 10 };

/* The row of a key, or the free one where it would stand. */
static struct keys_row *row_of(const struct keys *k, qm_u64 sender, qm_u32 sequence) {
    qm_size i = hash_of_message(sender, sequence) & (k->room - 1);
    while (k->rows[i].times > 0 && (k->rows[i].sender != sender || k->rows[i].sequence != sequence)) i = (i + 1) & (k->room - 1);
    return &k->rows[i];
}

/* At most half of the rows are in use. */
static int grow(struct keys *k) {
    struct keys wider = {.room = k->room ? 2 * k->room : FIRST_ROOM, .used = k->used};
    wider.rows = calloc(wider.room, sizeof *wider.rows);
    if (!wider.rows) return 0;
    for (qm_size i = 0; i < k->room; i++)
        if (k->rows[i].times > 0) *row_of(&wider, k->rows[i].sender, k->rows[i].sequence) = k->rows[i];
    free(k->rows);
    *k = wider;
    return 1;
}

qm_u32 keys_add(struct keys *k, qm_u64 sender, qm_u32 sequence) {
    if (2 * k->used >= k->room && !grow(k)) return 0;
    struct keys_row *row = row_of(k, sender, sequence);
    if (row->times == 0) {
        *row = (struct keys_row) {sender, sequence, 0};
        k->used++;
    }
    return ++row->times;
}

void keys_close(struct keys *k) {
    free(k->rows);
    *k = (struct keys) {0};
}
