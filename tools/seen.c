/* Datagrams of a log that are looked for among the entries before them. */

#include "seen.h"

enum { FIRST_ROOM = 1 << 12, RANDOM_BYTES = 25, CHUNK = 7 };

/* The numbers of the hash are those modulo this prime; it takes seven bytes of a datagram at a time. */
static const qm_u64 prime = (1ull << 61) - 1, first_bytes = (1ull << 8 * CHUNK) - 1;

/* No datagram has this hash: the row of one that an earlier entry has too. */
static const qm_u64 struck_out = ~0ull;

/* The system gives each run of a program random bytes. */
static qm_u64 key_of_run(void) {
    static qm_u64 key;
    if (key != 0) return key;
    const void *random = (const void *) getauxval(RANDOM_BYTES);
    if (random) __builtin_memcpy(&key, random, sizeof key);
    key &= prime;
    if (key < 2) key = prime - 2;
    return key;
}

/* Of a number below 2^124. */
static qm_u64 remainder_of(unsigned __int128 n) {
    qm_u64 sum = (qm_u64) (n & prime) + (qm_u64) (n >> 61);
    sum = (sum & prime) + (sum >> 61);
    return sum >= prime ? sum - prime : sum;
}

static qm_u64 times(qm_u64 a, qm_u64 b) {
    return remainder_of((unsigned __int128) a * b);
}

static qm_u64 chunk_at(const qm_byte *at) {
    qm_u64 chunk;
    __builtin_memcpy(&chunk, at, sizeof chunk);
    return chunk & first_bytes;
}

/* A polynomial in the key, whose coefficients are sender, length and bytes: two datagrams of one hash are one chance in 2^47. Four steps at a time, by powers of the
   key, so that three of four products wait for nothing. */
static qm_u64 hash_of(const struct walk *w, const qm_u64 *power) {
    const qm_byte *at = walk_datagram(w);
    qm_size left = w->entry[QM_ENTRY_LENGTH];
    qm_u64 key = power[0], hash = times(times(times(left + 1, key) + (w->entry[QM_SENDER] >> 32), key) + (qm_u32) w->entry[QM_SENDER], key);
    for (; left > POWERS * CHUNK; at += POWERS * CHUNK, left -= POWERS * CHUNK)
        hash = remainder_of((unsigned __int128) (hash + chunk_at(at)) * power[3] + (unsigned __int128) chunk_at(at + CHUNK) * power[2] +
                            (unsigned __int128) chunk_at(at + 2 * CHUNK) * power[1] + (unsigned __int128) chunk_at(at + 3 * CHUNK) * key);
    for (; left > CHUNK; at += CHUNK, left -= CHUNK) hash = times(hash + chunk_at(at), key);
    for (; left > 0; at++, left--) hash = times(hash + *at, key);
    return hash;
}

qm_u64 hash_of_message(qm_u64 sender, qm_u32 sequence) {
    qm_u64 key = key_of_run();
    return times(times(times((sender >> 32) + 1, key) + (qm_u32) sender, key) + sequence, key);
}

qm_u64 hash_of_number(qm_u64 n) {
    qm_u64 key = key_of_run();
    return times(times((n >> 32) + 1, key) + (qm_u32) n, key);
}

int is_copy(const struct walk *w, qm_size place) {
    qm_u64 other[QM_ENTRY];
    if (qm_log_next(w->log.bytes, w->log.length, place, other, QM_ENTRY) != 0) return 0;
    if (other[QM_SENDER] != w->entry[QM_SENDER] || other[QM_ENTRY_LENGTH] != w->entry[QM_ENTRY_LENGTH]) return 0;
    return memcmp(w->log.bytes + other[QM_ENTRY_PLACE], walk_datagram(w), w->entry[QM_ENTRY_LENGTH]) == 0;
}

/* The row of a hash, or the free one where it would stand, from the row `from` on. */
static qm_size row_of(const struct seen *s, qm_u64 hash, qm_size from) {
    qm_size i = from & (s->room - 1);
    while (s->rows[i].place != 0 && s->rows[i].hash != hash) i = (i + 1) & (s->room - 1);
    return i;
}

/* At most three of four rows are in use. */
static int grow(struct seen *s) {
    struct seen wider = {.room = s->room ? 2 * s->room : FIRST_ROOM, .used = s->used, .open = s->open, .power = {key_of_run()}};
    wider.rows = calloc(wider.room, sizeof *wider.rows);
    if (!wider.rows) return 0;
    for (unsigned i = 1; i < POWERS; i++) wider.power[i] = times(wider.power[i - 1], wider.power[0]);
    for (qm_size i = 0; i < s->room; i++) {
        if (s->rows[i].place == 0) continue;
        qm_size to = s->rows[i].hash & (wider.room - 1);
        while (wider.rows[to].place != 0) to = (to + 1) & (wider.room - 1);
        wider.rows[to] = s->rows[i];
    }
    free(s->rows);
    *s = wider;
    return 1;
}

/* The row of the datagram at hand, or the free one where it would stand. */
static struct seen_row *find(struct seen *s, const struct walk *w, qm_u64 hash) {
    qm_size i = row_of(s, hash, hash);
    while (s->rows[i].place != 0 && !is_copy(w, s->rows[i].place)) i = row_of(s, hash, i + 1);
    return &s->rows[i];
}

int seen_note(struct seen *s, const struct walk *w) {
    if (4 * s->used >= 3 * s->room && !grow(s)) return 0;
    qm_u64 hash = hash_of(w, s->power);
    struct seen_row *row = find(s, w, hash);
    if (row->place != 0) return 1;
    *row = (struct seen_row) {hash, w->at};
    s->used++;
    s->open++;
    return 1;
}

/* A row is known once an entry with its bytes is met: at its own place it is the first of them. */
int seen_look(struct seen *s, const struct walk *w) {
    if (s->open == 0) return 0;
    struct seen_row *row = find(s, w, hash_of(w, s->power));
    if (row->place < w->at) return 0;
    int first = row->place == w->at;
    if (!first) row->hash = struck_out;
    s->open--;
    return first;
}

void seen_close(struct seen *s) {
    free(s->rows);
    *s = (struct seen) {0};
}

qm_u64 hash_of_bytes(const qm_byte *bytes, qm_size length) {
    qm_u64 key = key_of_run(), hash = length + 1;
    for (qm_size i = 0; i < length; i++) hash = times(hash + bytes[i], key);
    return hash;
}
