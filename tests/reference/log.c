/* The log's writer and reader, in plain C, written from document 02, L1 and L10. */

#include "reference.h"

/* Groups of seven bits, the lowest first, the top bit set on all but the last. Answers how many bytes. */
static u64 put_seven(u8 *at, u64 v) {
    u64 n = 0;
    for (; v > 127; v >>= 7) at[n++] = (u8) (128 | (v & 127));
    at[n++] = (u8) v;
    return n;
}

/* Edition 2, and its payload limit. */
u32 ref_log_begin(u8 *out, u64 room, u64 limit, u64 *written) {
    u8 head[11] = {2};
    if (limit > MAX_PAYLOAD) return 45;
    u64 n = 1 + put_seven(head + 1, limit);
    if (room < n) return 13;
    memcpy(out, head, n);
    *written = n;
    return 0;
}

u32 ref_log_append(u8 *out, u64 room, u64 at, u64 sender, u64 tick, const u8 *d, u64 length, u64 *written) {
    u8 head[30];
    if (length > MAX_DATAGRAM) return 42;
    u64 n = put_seven(head, sender);
    n += put_seven(head + n, tick);
    n += put_seven(head + n, length);
    if (at > room || room - at < n + length) return 13;
    memcpy(out + at, head, n);
    memcpy(out + at + n, d, length);
    *written = n + length;
    return 0;
}

/* The number at a place of the log: 0, the number and the place after it. 43 where the log ends inside it, 41 where a tenth byte is
   above 1 or a last group of zero makes it longer than it must be. */
static u32 take_seven(const u8 *log, u64 length, u64 *at, u64 *value) {
    u64 v = 0;
    for (u64 n = 0; n < 10; n++) {
        if (*at + n >= length) return 43;
        u8 group = log[*at + n];
        if (n == 9 && group > 1) return 41;
        v |= (u64) (group & 127) << (7 * n);
        if (group > 127) continue;
        if (n > 0 && group == 0) return 41;
        *at += n + 1;
        *value = v;
        return 0;
    }
    return 41;
}

u32 ref_log_open(const u8 *log, u64 length, u64 *at, struct ref_limits *limits) {
    u64 place = 1, limit = 0;
    if (length == 0) return 43;
    if (log[0] != 1 && log[0] != 2) return 40;
    *limits = (struct ref_limits) {262144, 256};
    if (log[0] == 2) {
        u32 refusal = take_seven(log, length, &place, &limit);
        if (refusal != 0) return refusal;
        if (limit > MAX_PAYLOAD) return 45;
        *limits = (struct ref_limits) {limit, MAX_FRAGMENTS};
    }
    *at = place;
    return 0;
}

u32 ref_log_next(const u8 *log, u64 length, u64 *at, struct ref_entry *e) {
    struct ref_entry found = {0, 0, *at, 0};
    u32 refusal = take_seven(log, length, &found.place, &found.sender);
    if (refusal == 0) refusal = take_seven(log, length, &found.place, &found.tick);
    if (refusal == 0) refusal = take_seven(log, length, &found.place, &found.length);
    if (refusal != 0) return refusal;
    if (found.length > MAX_DATAGRAM) return 42;
    if (length - found.place < found.length) return 43;
    *e = found;
    *at = found.place + found.length;
    return 0;
}
