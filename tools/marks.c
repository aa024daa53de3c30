/* The marks of a flight. The count reads the same lists, through a receiver that is lent as much; here each of their marks is looked at. */

#include "marks.h"

/* Rows for as many marks as the longest list has: a mark is four numbers at least, so that 13 does not come. */
enum { ROWS = QM_NUMBERS / 4 * QM_MARK };

static qm_i64 numbers[QM_NUMBERS];
static qm_i64 rows[ROWS];

void marks_begin(void) {
    receiver_open();
}

int marks_take(const struct walk *w, struct listed *l) {
    struct received r;
    receiver_take(w, &r);
    return marks_read(w, &r, l);
}

int marks_read(const struct walk *w, const struct received *r, struct listed *l) {
    qm_u64 read, told[QM_MARKS];
    if (!is_delivered(r) || qm_read_message(delivered_payload(w, r), delivered_length(r), numbers, QM_NUMBERS, &read, 1) != 0) return 0;
    if (qm_marks(numbers, read, rows, ROWS, told, QM_MARKS) != 0 || !told[QM_MARKS_LIST]) return 0;
    *l = (struct listed) {.tile = told[QM_MARKS_TILE], .sequence = r->told[QM_TOLD_SEQUENCE], .many = told[QM_MARKS_COUNT]};
    return 1;
}

struct mark mark_of(const struct walk *w, const struct listed *l, qm_size i) {
    const qm_i64 *row = rows + i * QM_MARK;
    return (struct mark) {.tile = l->tile, .pit = (qm_u64) row[QM_MARK_PIT], .sure = row[QM_MARK_SURE] != 0, .placed = row[QM_MARK_PLACED] != 0,
                          .measured = row[QM_MARK_MEASURED] != 0, .lat = row[QM_MARK_LAT], .lon = row[QM_MARK_LON], .height = row[QM_MARK_HEIGHT],
                          .depth = row[QM_MARK_DEPTH], .sender = w->entry[QM_SENDER], .sequence = l->sequence, .tick = w->entry[QM_TICK]};
}
