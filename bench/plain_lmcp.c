// Survey messages in plain C, by the same message table and with the same answers as the proved reader and writer. A refusal writes nothing, so each
// walks twice: over no list or output, which checks and counts, and then over the lent one. `lmcp` beside it compares the two.
#include "../tools/system.h"

typedef unsigned char u8;
typedef unsigned int u32;
typedef unsigned long long u64;
typedef long long i64;

enum { LONGEST = 1048576, DEEPEST = 16, FRAME = 12, HEAD = 15 };
enum { UNSIGNED, SIGNED, BOOL, CHAR, OBJECT };
static const u64 SERIES = 0x5049545355525600ull;
static const u64 REFUSED = 4294967296ull; // and the number of the refusal

// A field: the bytes of its count (0: `fixed` elements), the kind of an element, and its bytes or declared type (0: any).
struct row {
    u8 count, fixed, kind, arg;
};
#define PLACE {0, 1, SIGNED, 4}, {0, 1, SIGNED, 4}, {0, 1, SIGNED, 2}
#define TILE_HEAD {0, 1, UNSIGNED, 4}, {0, 1, UNSIGNED, 2}, {0, 1, UNSIGNED, 2}, {0, 1, OBJECT, 2}
#define PIT_MARK {0, 1, UNSIGNED, 4}, {0, 1, BOOL, 1}, {0, 1, OBJECT, 2}
#define NOTE {2, 0, CHAR, 1}, {0, 1, OBJECT, 0}
#define CAMERA_FRAME {0, 4, UNSIGNED, 1}, {0, 1, SIGNED, 8}, {0, 1, UNSIGNED, 4}, {0, 1, SIGNED, 8}, {0, 1, OBJECT, 3}
static const struct row ROWS[2][20] = {
    {PLACE, TILE_HEAD, PIT_MARK, {0, 1, UNSIGNED, 4}, {2, 0, OBJECT, 4}, NOTE, CAMERA_FRAME},
    {PLACE, TILE_HEAD, PIT_MARK, {0, 1, SIGNED, 2}, {0, 1, UNSIGNED, 4}, {4, 0, OBJECT, 4}, NOTE, CAMERA_FRAME},
};
static const u8 STARTS[2][9] = {{0, 0, 0, 3, 7, 10, 12, 14, 19}, {0, 0, 0, 3, 7, 11, 13, 15, 20}};

static u64 number(const u8 *p, u32 width) {
    u64 v = 0;
    for (u32 i = 0; i < width; i++) v = v << 8 | p[i];
    return v;
}

static u32 be16(const u8 *p) { return (u32)p[0] << 8 | p[1]; }

static u32 be32(const u8 *p) { return be16(p) << 16 | be16(p + 2); }

static u64 be64(const u8 *p) { return (u64)be32(p) << 32 | be32(p + 4); }

static void put(u8 *p, u32 width, u64 v) {
    for (u32 i = width; i > 0; i--, v >>= 8) p[i - 1] = (u8)v;
}

static u32 sum(const u8 *p, u64 n) {
    u32 s = 0;
    for (u64 i = 0; i < n; i++) s += p[i];
    return s;
}

static u32 typed(i64 type, u32 declared) { return type >= 1 && type <= 7 && (declared == 0 || type == declared); }

// ---- reading

struct reader {
    const u8 *p, *end;
    i64 *list; // 0: it only checks and counts
    u64 n;
    u32 version;
};

static void add(struct reader *r, i64 z) {
    if (r->list) r->list[r->n] = z;
    r->n++;
}

static u32 read_value(struct reader *r, struct row f) {
    if (r->end - r->p < f.arg) return 25;
    u64 v = number(r->p, f.arg);
    if (f.kind == BOOL && v > 1) return 23;
    if (f.kind == CHAR && v > 127) return 27;
    r->p += f.arg;
    u32 unused = 64 - 8 * f.arg;
    add(r, f.kind == SIGNED ? (i64)(v << unused) >> unused : (i64)v);
    return 0;
}

static u32 read_object(struct reader *r, u32 deep, u32 declared) {
    if (r->p == r->end) return 25;
    if (*r->p > 1) return 23;
    if (*r->p == 0) {
        r->p++;
        add(r, 0);
        return 0;
    }
    if (deep == 0) return 26;
    if (r->end - r->p < HEAD) return 25;
    u32 type = be32(r->p + 9);
    if (be64(r->p + 1) != SERIES || be16(r->p + 13) != r->version || !typed(type, declared)) return 24;
    r->p += HEAD;
    add(r, type);
    const u8 *start = STARTS[r->version - 1];
    for (u32 i = start[type]; i < start[type + 1]; i++) {
        struct row f = ROWS[r->version - 1][i];
        u64 n = f.fixed;
        if (f.count) {
            if (r->end - r->p < f.count) return 25;
            n = number(r->p, f.count);
            r->p += f.count;
            add(r, (i64)n);
        }
        for (u64 k = 0; k < n; k++) {
            if (f.kind == OBJECT) {
                u32 wrong = read_object(r, deep - 1, f.arg);
                if (wrong) return wrong;
                continue;
            }
            u32 wrong = read_value(r, f);
            if (wrong) return wrong;
        }
    }
    return 0;
}

static u32 framed(const u8 *m, u64 n) {
    if (n < FRAME || memcmp(m, "LMCP", 4) != 0) return 20;
    if (n > LONGEST || n != FRAME + (u64)be32(m + 4)) return 21;
    u32 stored = be32(m + n - 4);
    return stored == 0 || stored == sum(m, n - 4) ? 0 : 22;
}

u64 plain_read(const u8 *m, u64 n, i64 *list, u64 room) {
    u32 wrong = framed(m, n);
    if (wrong) return REFUSED + wrong;
    const u8 *root = m + 8, *end = m + n - 4;
    if (root == end) return REFUSED + 25;
    if (*root == 0) return REFUSED + 23;
    u32 version = end - root >= HEAD && be16(root + 13) == 2 ? 2 : 1;
    struct reader r = {root, end, 0, 0, version};
    wrong = read_object(&r, DEEPEST, 0);
    if (wrong) return REFUSED + wrong;
    if (r.p != end) return REFUSED + 28;
    if (room <= r.n) return REFUSED + 13;
    list[0] = version;
    r = (struct reader){root, end, list + 1, 0, version};
    read_object(&r, DEEPEST, 0);
    return 1 + r.n;
}

// ---- writing

struct writer {
    const i64 *z, *end;
    u8 *out; // 0: it only checks and counts
    u64 n;
    u32 version;
};

static void lay(struct writer *w, u32 width, u64 v) {
    if (w->out) put(w->out + w->n, width, v);
    w->n += width;
}

static u32 write_value(struct writer *w, struct row f) {
    if (w->z == w->end) return 25;
    i64 z = *w->z;
    if (f.kind == BOOL && (z < 0 || z > 1)) return 29;
    if (f.kind == CHAR && (z < 0 || z > 127)) return 27;
    if (f.kind == SIGNED && f.arg < 8 && z >> (8 * f.arg - 1) != z >> 63) return 29;
    if (f.kind == UNSIGNED && (z < 0 || z >> 8 * f.arg)) return 29;
    w->z++;
    lay(w, f.arg, (u64)z);
    return 0;
}

static u32 write_object(struct writer *w, u32 deep, u32 declared) {
    if (w->z == w->end) return 25;
    i64 type = *w->z;
    if (type == 0) {
        w->z++;
        lay(w, 1, 0);
        return 0;
    }
    if (deep == 0) return 26;
    if (!typed(type, declared)) return 24;
    w->z++;
    lay(w, 1, 1);
    lay(w, 8, SERIES);
    lay(w, 4, (u64)type);
    lay(w, 2, w->version);
    const u8 *start = STARTS[w->version - 1];
    for (u32 i = start[type]; i < start[type + 1]; i++) {
        struct row f = ROWS[w->version - 1][i];
        u64 n = f.fixed;
        if (f.count) {
            if (w->z == w->end) return 25;
            if (*w->z < 0 || *w->z >> 8 * f.count) return 29;
            n = (u64)*w->z++;
            lay(w, f.count, n);
        }
        for (u64 k = 0; k < n; k++) {
            if (f.kind == OBJECT) {
                u32 wrong = write_object(w, deep - 1, f.arg);
                if (wrong) return wrong;
                continue;
            }
            u32 wrong = write_value(w, f);
            if (wrong) return wrong;
        }
    }
    return 0;
}

u64 plain_write(const i64 *list, u64 n, u8 *out, u64 room) {
    if (n == 0) return REFUSED + 25;
    if (list[0] != 1 && list[0] != 2) return REFUSED + 29;
    if (n == 1) return REFUSED + 25;
    if (list[1] == 0) return REFUSED + 23;
    struct writer w = {list + 1, list + n, 0, 0, (u32)list[0]};
    u32 wrong = write_object(&w, DEEPEST, 0);
    if (wrong) return REFUSED + wrong;
    u64 size = w.n + FRAME;
    if (w.z != w.end) return REFUSED + 28;
    if (size > LONGEST) return REFUSED + 21;
    if (size > room) return REFUSED + 13;
    put(out, 4, 0x4c4d4350); // "LMCP"
    put(out + 4, 4, w.n);
    w = (struct writer){list + 1, list + n, out + 8, 0, (u32)list[0]};
    write_object(&w, DEEPEST, 0);
    put(out + size - 4, 4, sum(out, size - 4));
    return size;
}
