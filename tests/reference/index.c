/* The index of a log and the first entry of a key, in plain C, written from document 02, L11, with L1 and L10 for the log. */

#include "reference.h"

/* The number at *at, which moves on. 43 where it is cut, 41 where it is not shortest or a tenth byte is above 1. */
static u32 seven_at(const u8 *log, u64 length, u64 *at, u64 *value) {
    u64 n = 0;
    while (*at + n < length && log[*at + n] > 127 && n < 9) n++;
    if (*at + n >= length) return 43;
    if (n == 9 && log[*at + n] > 1) return 41;
    if (n > 0 && log[*at + n] == 0) return 41;
    *value = 0;
    for (u64 i = 0; i <= n; i++) *value |= (u64) (log[*at + i] & 127) << (7 * i);
    *at += n + 1;
    return 0;
}

static int before(const struct ref_row *a, const struct ref_row *b) {
    if (a->sender != b->sender) return a->sender < b->sender;
    if (a->sequence != b->sequence) return a->sequence < b->sequence;
    return a->place < b->place;
}

/* Plain and slow: one after another from the front. */
static void sort(struct ref_row *rows, u64 n) {
    for (u64 i = 0; i < n; i++)
        for (u64 j = i; j > 0 && before(&rows[j], &rows[j - 1]); j--) {
            struct ref_row kept = rows[j];
            rows[j] = rows[j - 1];
            rows[j - 1] = kept;
        }
}

u32 ref_index(const u8 *log, u64 length, struct ref_row *rows, u64 *count) {
    u64 at = 1, limit = 262144, most = 256, n = 0;
    u32 refusal;
    if (length < 1) return 43;
    if (log[0] != 1 && log[0] != 2) return 40;
    if (log[0] == 2) {
        if ((refusal = seven_at(log, length, &at, &limit))) return refusal;
        if (limit > MAX_PAYLOAD) return 45;
        most = MAX_FRAGMENTS;
    }
    while (at < length) {
        u64 place = at, sender, tick, size;
        struct ref_header h;
        if ((refusal = seven_at(log, length, &at, &sender))) return refusal;
        if ((refusal = seven_at(log, length, &at, &tick))) return refusal;
        if ((refusal = seven_at(log, length, &at, &size))) return refusal;
        if (size > MAX_DATAGRAM) return 42;
        if (length - at < size) return 43;
        if (!ref_read(log + at, size, limit, &h) && (h.small || h.count <= most)) {
            if (n < INDEXED) rows[n] = (struct ref_row) {sender, h.sequence, place};
            n++;
        }
        at += size;
    }
    if (n > INDEXED) return 44;
    sort(rows, n);
    *count = n;
    return 0;
}
