// Survey messages in plain C, written out type by type instead of by the table, with the same answers: what one gives up for a table that reads as the
// paper's. A refusal writes nothing, so each walks twice, to check and to write. `lmcp` beside it compares it with the proved and the table-driven ones.
#include "../tools/system.h"

typedef unsigned char u8;
typedef unsigned int u32;
typedef unsigned long long u64;
typedef long long i64;

enum { LONGEST = 1048576, DEEPEST = 16 };
static const u64 SERIES = 0x5049545355525600ull;
static const u64 REFUSED = 4294967296ull; // and the number of the refusal

static u32 be16(const u8 *p) { return (u32)p[0] << 8 | p[1]; }

static u32 be32(const u8 *p) { return be16(p) << 16 | be16(p + 2); }

static u64 be64(const u8 *p) { return (u64)be32(p) << 32 | be32(p + 4); }

static u8 *put16(u8 *p, u32 v) {
    p[0] = (u8)(v >> 8);
    p[1] = (u8)v;
    return p + 2;
}

static u8 *put32(u8 *p, u32 v) { return put16(put16(p, v >> 16), v); }

static u8 *put64(u8 *p, u64 v) { return put32(put32(p, (u32)(v >> 32)), (u32)v); }

static u32 sum(const u8 *p, u64 n) {
    u32 s = 0;
    for (u64 i = 0; i < n; i++) s += p[i];
    return s;
}

// ---- reading: the bytes are checked and their numbers counted, then taken

static u32 frame(const u8 *m, u64 n) {
    if (n < 12 || memcmp(m, "LMCP", 4) != 0) return 20;
    if (n > LONGEST || n != 12 + (u64)be32(m + 4)) return 21;
    u32 s = be32(m + n - 4);
    return s == 0 || s == sum(m, n - 4) ? 0 : 22;
}

struct unread {
    const u8 *p, *end;
    u64 n; // numbers
    u32 version;
};

static u32 head(struct unread *w, u32 deep, u32 declared, u32 *type) {
    *type = 0;
    if (w->p == w->end) return 25;
    w->n++;
    if (*w->p == 0) {
        w->p++;
        return 0;
    }
    if (*w->p > 1) return 23;
    if (deep == 0) return 26;
    if (w->end - w->p < 15) return 25;
    u32 t = be32(w->p + 9);
    if (be64(w->p + 1) != SERIES || be16(w->p + 13) != w->version || t < 1 || t > 7 || (declared != 0 && t != declared)) return 24;
    w->p += 15;
    *type = t;
    return 0;
}

static inline u32 need(struct unread *w, u64 bytes, u64 numbers) {
    if ((u64)(w->end - w->p) < bytes) return 25;
    w->p += bytes;
    w->n += numbers;
    return 0;
}

static u32 check_object(struct unread *w, u32 deep, u32 declared);

static u32 check_place(struct unread *w, u32 deep) {
    u32 type, e = head(w, deep, 2, &type);
    if (e || type == 0) return e;
    return need(w, 10, 3);
}

static u32 check_tile(struct unread *w, u32 deep) { // its fields
    if (need(w, 8, 3)) return 25;
    return check_place(w, deep);
}

static u32 check_mark(struct unread *w, u32 deep) { // its fields
    if (w->end - w->p < 5) return 25;
    if (w->p[4] > 1) return 23;
    need(w, 5, 2);
    u32 e = check_place(w, deep);
    if (e || w->version == 1) return e;
    return need(w, 2, 1);
}

static u32 check_object(struct unread *w, u32 deep, u32 declared) {
    u32 type, e = head(w, deep, declared, &type);
    if (e) return e;
    switch (type) {
    case 2: return need(w, 10, 3);
    case 3: return check_tile(w, deep - 1);
    case 4: return check_mark(w, deep - 1);
    case 5: {
        u64 width = w->version == 2 ? 4 : 2;
        if (need(w, 4, 1)) return 25;
        if (need(w, width, 1)) return 25;
        u32 n = width == 4 ? be32(w->p - 4) : be16(w->p - 2);
        for (u32 i = 0; i < n; i++) {
            e = head(w, deep - 1, 4, &type);
            if (e) return e;
            if (type && (e = check_mark(w, deep - 2))) return e;
        }
        return 0;
    }
    case 6: {
        if (need(w, 2, 1)) return 25;
        u32 n = be16(w->p - 2);
        for (u32 i = 0; i < n; i++) {
            if (w->p == w->end) return 25;
            if (*w->p > 127) return 27;
            w->p++;
        }
        w->n += n;
        return check_object(w, deep - 1, 0);
    }
    case 7:
        if (need(w, 24, 7)) return 25;
        e = head(w, deep - 1, 3, &type);
        if (e || type == 0) return e;
        return check_tile(w, deep - 2);
    }
    return 0;
}

struct read {
    const u8 *p;
    i64 *z;
    u32 version;
};

static u32 take_head(struct read *w) {
    if (*w->p == 0) {
        w->p++;
        *w->z++ = 0;
        return 0;
    }
    u32 type = be32(w->p + 9);
    *w->z++ = type;
    w->p += 15;
    return type;
}

static void take_place(struct read *w) {
    if (take_head(w) == 0) return;
    w->z[0] = (int)be32(w->p);
    w->z[1] = (int)be32(w->p + 4);
    w->z[2] = (short)be16(w->p + 8);
    w->z += 3;
    w->p += 10;
}

static void take_tile(struct read *w) {
    w->z[0] = be32(w->p);
    w->z[1] = be16(w->p + 4);
    w->z[2] = be16(w->p + 6);
    w->z += 3;
    w->p += 8;
    take_place(w);
}

static void take_mark(struct read *w) {
    w->z[0] = be32(w->p);
    w->z[1] = w->p[4];
    w->z += 2;
    w->p += 5;
    take_place(w);
    if (w->version == 2) {
        *w->z++ = (short)be16(w->p);
        w->p += 2;
    }
}

static void take_object(struct read *w) {
    switch (take_head(w)) {
    case 2:
        w->p -= 15;
        w->z--;
        take_place(w);
        return;
    case 3: take_tile(w); return;
    case 4: take_mark(w); return;
    case 5: {
        *w->z++ = be32(w->p);
        u32 n = w->version == 2 ? be32(w->p + 4) : be16(w->p + 4);
        *w->z++ = n;
        w->p += w->version == 2 ? 8 : 6;
        for (u32 i = 0; i < n; i++)
            if (take_head(w)) take_mark(w);
        return;
    }
    case 6: {
        u32 n = be16(w->p);
        *w->z++ = n;
        w->p += 2;
        for (u32 i = 0; i < n; i++) w->z[i] = w->p[i];
        w->z += n;
        w->p += n;
        take_object(w);
        return;
    }
    case 7:
        for (u32 i = 0; i < 4; i++) w->z[i] = w->p[i];
        w->z[4] = (i64)be64(w->p + 4);
        w->z[5] = be32(w->p + 12);
        w->z[6] = (i64)be64(w->p + 16);
        w->z += 7;
        w->p += 24;
        if (take_head(w)) take_tile(w);
    }
}

u64 hand_read(const u8 *m, u64 n, i64 *list, u64 room) {
    u32 e = frame(m, n);
    if (e) return REFUSED + e;
    const u8 *p = m + 8, *end = m + n - 4;
    u32 version = end - p >= 15 && be16(p + 13) == 2 ? 2 : 1;
    struct unread w = {p, end, 0, version};
    if (p == end) return REFUSED + 25;
    if (*p == 0) return REFUSED + 23;
    e = check_object(&w, DEEPEST, 0);
    if (e) return REFUSED + e;
    if (w.p != end) return REFUSED + 28;
    if (room <= w.n) return REFUSED + 13;
    list[0] = version;
    struct read o = {p, list + 1, version};
    take_object(&o);
    return 1 + w.n;
}

// ---- writing: the numbers are checked and their bytes counted, then put

struct checked {
    const i64 *z, *end;
    u64 n; // bytes
    u32 version;
};

static u32 weigh_head(struct checked *w, u32 deep, u32 declared, u32 *type) {
    *type = 0;
    if (w->z == w->end) return 25;
    i64 t = *w->z;
    if (t == 0) {
        w->z++;
        w->n++;
        return 0;
    }
    if (deep == 0) return 26;
    if (t < 1 || t > 7 || (declared != 0 && t != declared)) return 24;
    w->z++;
    w->n += 15;
    *type = (u32)t;
    return 0;
}

static inline u32 weigh_signed(struct checked *w, u32 bytes) { // signed
    if (w->z == w->end) return 25;
    i64 z = *w->z;
    if (bytes < 8 && z >> (8 * bytes - 1) != z >> 63) return 29;
    w->z++;
    w->n += bytes;
    return 0;
}

static inline u32 weigh_plain(struct checked *w, u32 bytes, u64 most) {
    if (w->z == w->end) return 25;
    if ((u64)*w->z > most) return 29;
    w->z++;
    w->n += bytes;
    return 0;
}

static u32 weigh_place_fields(struct checked *w) {
    u32 e;
    if ((e = weigh_signed(w, 4)) || (e = weigh_signed(w, 4)) || (e = weigh_signed(w, 2))) return e;
    return 0;
}

static u32 weigh_place(struct checked *w, u32 deep) {
    u32 type, e = weigh_head(w, deep, 2, &type);
    if (e || type == 0) return e;
    return weigh_place_fields(w);
}

static u32 weigh_tile(struct checked *w, u32 deep) {
    u32 e;
    if ((e = weigh_plain(w, 4, 0xffffffff)) || (e = weigh_plain(w, 2, 0xffff)) || (e = weigh_plain(w, 2, 0xffff))) return e;
    return weigh_place(w, deep);
}

static u32 weigh_mark(struct checked *w, u32 deep) {
    u32 e;
    if ((e = weigh_plain(w, 4, 0xffffffff)) || (e = weigh_plain(w, 1, 1)) || (e = weigh_place(w, deep))) return e;
    return w->version == 2 ? weigh_signed(w, 2) : 0;
}

static u32 weigh_object(struct checked *w, u32 deep, u32 declared) {
    u32 type, e = weigh_head(w, deep, declared, &type);
    if (e) return e;
    switch (type) {
    case 2: return weigh_place_fields(w);
    case 3: return weigh_tile(w, deep - 1);
    case 4: return weigh_mark(w, deep - 1);
    case 5: {
        if ((e = weigh_plain(w, 4, 0xffffffff))) return e;
        if ((e = w->version == 2 ? weigh_plain(w, 4, 0xffffffff) : weigh_plain(w, 2, 0xffff))) return e;
        u64 n = (u64)w->z[-1];
        for (u64 i = 0; i < n; i++) {
            e = weigh_head(w, deep - 1, 4, &type);
            if (e) return e;
            if (type && (e = weigh_mark(w, deep - 2))) return e;
        }
        return 0;
    }
    case 6: {
        if ((e = weigh_plain(w, 2, 0xffff))) return e;
        u64 n = (u64)w->z[-1];
        for (u64 i = 0; i < n; i++) {
            if (w->z == w->end) return 25;
            if ((u64)*w->z > 127) return 27;
            w->z++;
        }
        w->n += n;
        return weigh_object(w, deep - 1, 0);
    }
    case 7:
        for (u32 i = 0; i < 4; i++)
            if ((e = weigh_plain(w, 1, 255))) return e;
        if ((e = weigh_signed(w, 8)) || (e = weigh_plain(w, 4, 0xffffffff)) || (e = weigh_signed(w, 8))) return e;
        e = weigh_head(w, deep - 1, 3, &type);
        if (e || type == 0) return e;
        return weigh_tile(w, deep - 2);
    }
    return 0;
}

struct written {
    const i64 *z;
    u8 *p;
    u32 version;
};

static u32 put_head(struct written *w) {
    u32 type = (u32)*w->z++;
    if (type == 0) {
        *w->p++ = 0;
        return 0;
    }
    *w->p = 1;
    put64(w->p + 1, SERIES);
    put32(w->p + 9, type);
    put16(w->p + 13, w->version);
    w->p += 15;
    return type;
}

static void put_place_fields(struct written *w) {
    put32(w->p, (u32)w->z[0]);
    put32(w->p + 4, (u32)w->z[1]);
    put16(w->p + 8, (u32)w->z[2]);
    w->z += 3;
    w->p += 10;
}

static void put_place(struct written *w) {
    if (put_head(w)) put_place_fields(w);
}

static void put_tile(struct written *w) {
    put32(w->p, (u32)w->z[0]);
    put16(w->p + 4, (u32)w->z[1]);
    put16(w->p + 6, (u32)w->z[2]);
    w->z += 3;
    w->p += 8;
    put_place(w);
}

static void put_mark(struct written *w) {
    put32(w->p, (u32)w->z[0]);
    w->p[4] = (u8)w->z[1];
    w->z += 2;
    w->p += 5;
    put_place(w);
    if (w->version == 2) w->p = put16(w->p, (u32)*w->z++);
}

static void put_object(struct written *w) {
    switch (put_head(w)) {
    case 2: put_place_fields(w); return;
    case 3: put_tile(w); return;
    case 4: put_mark(w); return;
    case 5: {
        u32 n = (u32)w->z[1];
        put32(w->p, (u32)w->z[0]);
        if (w->version == 2) put32(w->p + 4, n);
        else put16(w->p + 4, n);
        w->p += w->version == 2 ? 8 : 6;
        w->z += 2;
        for (u32 i = 0; i < n; i++)
            if (put_head(w)) put_mark(w);
        return;
    }
    case 6: {
        u32 n = (u32)*w->z++;
        w->p = put16(w->p, n);
        for (u32 i = 0; i < n; i++) w->p[i] = (u8)w->z[i];
        w->z += n;
        w->p += n;
        put_object(w);
        return;
    }
    case 7:
        for (u32 i = 0; i < 4; i++) w->p[i] = (u8)w->z[i];
        put64(w->p + 4, (u64)w->z[4]);
        put32(w->p + 12, (u32)w->z[5]);
        put64(w->p + 16, (u64)w->z[6]);
        w->z += 7;
        w->p += 24;
        if (put_head(w)) put_tile(w);
    }
}

u64 hand_write(const i64 *list, u64 n, u8 *out, u64 room) {
    if (n == 0) return REFUSED + 25;
    if (list[0] != 1 && list[0] != 2) return REFUSED + 29;
    struct checked w = {list + 1, list + n, 0, (u32)list[0]};
    if (w.z == w.end) return REFUSED + 25;
    if (*w.z == 0) return REFUSED + 23;
    u32 e = weigh_object(&w, DEEPEST, 0);
    if (e) return REFUSED + e;
    u64 size = w.n + 12;
    if (w.z != list + n) return REFUSED + 28;
    if (size > LONGEST) return REFUSED + 21;
    if (size > room) return REFUSED + 13;
    memcpy(out, "LMCP", 4);
    put32(out + 4, (u32)(size - 12));
    struct written o = {list + 1, out + 8, (u32)list[0]};
    put_object(&o);
    put32(out + size - 4, sum(out, size - 4));
    return size;
}
