/* The datagram reader, the cutter and the checksum, from the paper's words. */

#include "reference.h"

u64 ref_number(const u8 *at, int width) {
    u64 value = 0;
    for (int i = 0; i < width; i++) value = value * 256 + at[i];
    return value;
}

void ref_put(u8 *at, int width, u64 value) {
    for (int i = width - 1; i >= 0; i--) {
        at[i] = (u8) (value % 256);
        value /= 256;
    }
}

u32 ref_checksum(const u8 *bytes, u64 length) {
    u64 sum = 0;
    for (u64 i = 0; i < length; i++) sum = (sum + bytes[i]) % 4294967296ULL;
    return (u32) sum;
}

/* How many bytes RFC 3629 has for a code point; 0 for a surrogate and above 10FFFF. */
static u64 bytes_of(u32 point) {
    if (point >= 0xd800 && point <= 0xdfff) return 0;
    if (point > 0x10ffff) return 0;
    return point < 0x80 ? 1 : point < 0x800 ? 2 : point < 0x10000 ? 3 : 4;
}

u64 ref_put_form(u8 *at, u32 bits, u64 n) {
    for (u64 i = n; i-- > 1; bits >>= 6) at[i] = (u8) (0x80 | (bits & 0x3f));
    static const u8 marks[] = {0, 0, 0xc0, 0xe0, 0xf0};
    at[0] = (u8) (marks[n] | bits);
    return n;
}

void ref_fill_name(u8 *at, u64 length, u64 (*random)(void)) {
    static const u32 edges[] = {0x20, 0x7e, 0x80, 0x9f, 0xe9, 0x7ff, 0x800, 0xd7ff, 0xe000, 0xfeff, 0xffff, 0x10000, 0x10ffff};
    for (u64 i = 0; i < length;) {
        u32 point = (u32) (32 + random() % 95);
        if (random() % 4 == 0) point = edges[random() % (sizeof edges / sizeof *edges)];
        if (random() % 8 == 0) point = (u32) (random() % 0x110000);
        u64 n = bytes_of(point);
        if (n == 0 || i + n > length || point < 32 || point == 127) continue;
        i += ref_put_form(at + i, point, n);
    }
}

int ref_good_name(const u8 *name, u64 length) {
    if (length < 1 || length > MAX_NAME) return 0;
    for (u64 i = 0; i < length;) {
        u8 b = name[i];
        u64 n = b < 0x80 ? 1 : b >> 5 == 6 ? 2 : b >> 4 == 14 ? 3 : b >> 3 == 30 ? 4 : 0;
        if (n == 0 || i + n > length) return 0;
        u32 point = n == 1 ? b : b & (0x7fu >> n);
        for (u64 k = 1; k < n; k++) {
            if (name[i + k] >> 6 != 2) return 0;
            point = point << 6 | (name[i + k] & 0x3f);
        }
        if (bytes_of(point) != n || point < 32 || point == 127) return 0;
        i += n;
    }
    return 1;
}

/* The length of the name that begins at `at` and ends before a zero byte; 0 where there is no good one. */
static u64 name_length_at(const u8 *d, u64 length, u64 at) {
    u64 c = 0;
    while (c <= MAX_NAME) {
        if (at + c >= length) return 0;
        if (d[at + c] == 0) return ref_good_name(d + at, c) ? c : 0;
        c++;
    }
    return 0;
}

static u32 read_small(const u8 *d, u64 length, struct ref_header *h) {
    u64 c = name_length_at(d, length, 8);
    if (c == 0) return 4;
    h->small = 1;
    h->sequence = (u32) ref_number(d + 4, 4);
    h->offset = 0;
    h->number = 0;
    h->count = 1;
    h->name_at = 8;
    h->name_length = (u32) c;
    h->data_at = (u32) (8 + c + 1);
    h->data_length = (u32) (length - h->data_at);
    h->size = h->data_length;
    return 0;
}

static u32 read_fragment(const u8 *d, u64 length, u64 max_size, struct ref_header *h) {
    u64 size = ref_number(d + 8, 4);
    u64 offset = ref_number(d + 12, 4);
    u64 k = ref_number(d + 16, 2);
    u64 n = ref_number(d + 18, 2);
    if (n == 0 || n > MAX_FRAGMENTS || k >= n) return 5;
    if (size > max_size) return 6;
    u64 c = 0;
    u64 data_at = 20;
    if (k == 0) {
        c = name_length_at(d, length, 20);
        if (c == 0) return 4;
        data_at = 20 + c + 1;
    }
    u64 data = length - data_at;
    if (k == 0 && offset != 0) return 7;
    if (k > 0 && data < 1) return 7;
    if (offset + data > size) return 7;
    if (k == n - 1 && offset + data != size) return 7;
    h->small = 0;
    h->sequence = (u32) ref_number(d + 4, 4);
    h->size = (u32) size;
    h->offset = (u32) offset;
    h->number = (u32) k;
    h->count = (u32) n;
    h->name_at = 20;
    h->name_length = (u32) c;
    h->data_at = (u32) data_at;
    h->data_length = (u32) data;
    return 0;
}

u32 ref_read(const u8 *d, u64 length, u64 max_size, struct ref_header *h) {
    if (length > MAX_DATAGRAM) return 3;
    if (length < 8) return 1;
    u64 magic = ref_number(d, 4);
    if (magic == FRAGMENT_MAGIC && length < 20) return 1;
    if (magic == SMALL_MAGIC) return read_small(d, length, h);
    if (magic == FRAGMENT_MAGIC) return read_fragment(d, length, max_size, h);
    return 2;
}

u32 ref_cut(const u8 *name, u64 c, const u8 *payload, u64 p, u32 sequence, u64 m, u64 index, u8 *out, u64 room, u32 *count,
            u32 *length) {
    if (m < MIN_M || m > MAX_M) return 10;
    if (!ref_good_name(name, c)) return 4;
    if (p > MAX_PAYLOAD) return 6;
    int small = 8 + c + 1 + p <= m;
    u64 datagrams = 1;
    u64 from = 0;   /* where the data of the one asked for begins in the payload */
    u64 data = p;   /* and how long it is */
    if (!small) {
        /* Lay the fragments out one after the other, as the paper tells it. */
        u64 at = 0;
        datagrams = 0;
        while (at < p) {
            u64 carries = datagrams == 0 ? m - 21 - c : m - 20;
            if (carries > p - at) carries = p - at;
            if (datagrams == index) {
                from = at;
                data = carries;
            }
            at += carries;
            datagrams++;
        }
    }
    if (datagrams > MAX_FRAGMENTS) return 11;
    if (index >= datagrams) return 12;
    u64 header = small ? 8 : 20;
    u64 named = index == 0 ? c + 1 : 0;
    if (header + named + data > room) return 13;
    ref_put(out, 4, small ? SMALL_MAGIC : FRAGMENT_MAGIC);
    ref_put(out + 4, 4, sequence);
    if (!small) {
        ref_put(out + 8, 4, p);
        ref_put(out + 12, 4, from);
        ref_put(out + 16, 2, index);
        ref_put(out + 18, 2, datagrams);
    }
    if (named > 0) {
        for (u64 i = 0; i < c; i++) out[header + i] = name[i];
        out[header + c] = 0;
    }
    for (u64 i = 0; i < data; i++) out[header + named + i] = payload[from + i];
    *count = (u32) datagrams;
    *length = (u32) (header + named + data);
    return 0;
}
