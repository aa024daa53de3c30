/* The senders of a log, or of all lists. */

#include "senders.h"
#include "seen.h"

enum { FIRST_ROOM = 64 };
static const qm_size most = 0xffffffff;

static qm_u32 *slot_of(const struct senders *s, qm_u64 sender) {
    qm_size i = hash_of_number(sender) & (s->room - 1);
    while (s->slots[i] != 0 && s->rows[s->slots[i] - 1].sender != sender) i = (i + 1) & (s->room - 1);
    return &s->slots[i];
}

/* At most half of the slots are in use. */
static int grow(struct senders *s) {
    qm_size room = s->room ? 2 * s->room : FIRST_ROOM;
    struct sender_row *rows = realloc(s->rows, room / 2 * sizeof *rows);
    if (rows) s->rows = rows;
    qm_u32 *slots = rows ? calloc(room, sizeof *slots) : 0;
    if (!slots) return 0;
    free(s->slots);
    s->slots = slots;
    s->room = room;
    for (qm_size i = 0; i < s->used; i++) *slot_of(s, s->rows[i].sender) = (qm_u32) (i + 1);
    return 1;
}

qm_size senders_add(struct senders *s, qm_u64 sender) {
    if (2 * s->used >= s->room && (s->used == most || !grow(s))) return 0;
    qm_u32 *slot = slot_of(s, sender);
    if (*slot == 0) {
        s->rows[s->used] = (struct sender_row) {.sender = sender};
        *slot = (qm_u32) ++s->used;
    }
    s->rows[*slot - 1].times++;
    return *slot;
}

qm_size senders_number(const struct senders *s, qm_u64 sender) {
    return s->used > 0 ? *slot_of(s, sender) : 0;
}

static int by_sender(const void *a, const void *b) {
    const struct sender_row *x = a, *y = b;
    return (x->sender > y->sender) - (x->sender < y->sender);
}

void senders_sort(struct senders *s) {
    free(s->slots);
    s->slots = 0;
    s->room = 0;
    if (s->used > 0) qsort(s->rows, s->used, sizeof *s->rows, by_sender);
}

qm_size senders_find(const struct senders *s, qm_u64 sender) {
    qm_size low = 0, high = s->used - 1;
    while (low < high) {
        qm_size middle = low + (high - low) / 2;
        if (s->rows[middle].sender < sender) low = middle + 1;
        else high = middle;
    }
    return low;
}

void senders_close(struct senders *s) {
    free(s->rows);
    free(s->slots);
    *s = (struct senders) {0};
}
