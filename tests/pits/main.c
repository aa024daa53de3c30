/* Holds qm_read_message, qm_marks and qm_pits to plain models, on random lists of either version with null marks, null places and any numbers, whole and
   damaged. A list is drawn as marks first; its message is made by the second implementation from the paper's table, so that what is drawn is what has to come
   out. The pits of a tile are held to a table of which list marks which pit. Whatever is lent has words behind it that must stay. */

#include "../../include/quartzmitten.h"

#include "../reference/random.h"

enum { MARKS = 40, SPARE = 3, ROOM = 4096, TILE_KINDS = 5, PIT_KINDS = 12 };

/* a mark as it is drawn */
struct mark {
    int null, sure, placed;
    u64 pit;
    i64 lat, lon, height, depth;
};

static u64 version, tile, many;
static struct mark marks[MARKS];
static i64 list[ROOM], expected[ROOM];
static u64 listed;
static u8 message[15 * ROOM + 12];
static u64 length;
static qm_i64 numbers[ROOM + SPARE], rows[MARKS * QM_MARK + SPARE];
static qm_u64 told[QM_MARKS + SPARE];
static int passed, failed;
static u64 answered[64];

static void hold(int good, const char *what) {
    if (good) passed++;
    else if (failed++ < 20) printf("pits: %s (version %llu, tile %llu, %llu marks)\n", what, version, tile, many);
}

/* All to one value, so that what was not written is seen. */
static void blank(void) {
    memset(numbers, 0x55, sizeof numbers);
    memset(rows, 0x55, sizeof rows);
    memset(told, 0x55, sizeof told);
}

static int untouched(const void *at, u64 bytes) {
    const u8 *b = at;
    for (u64 i = 0; i < bytes; i++)
        if (b[i] != 0x55) return 0;
    return 1;
}

static i64 signed_of(int bits) { return (i64) random_64() >> (64 - bits); }

static void draw(void) {
    version = between(1, 2);
    tile = chance(80) ? below(TILE_KINDS) : random_64() >> 32;
    many = chance(10) ? 0 : below(MARKS);
    listed = 0;
    list[listed++] = (i64) version;
    list[listed++] = 5;
    list[listed++] = (i64) tile;
    list[listed++] = (i64) many;
    for (u64 i = 0; i < many; i++) {
        struct mark *m = &marks[i];
        *m = (struct mark) {chance(15), chance(50), chance(70), chance(80) ? below(PIT_KINDS) : random_64() >> 32, signed_of(32), signed_of(32), signed_of(16), signed_of(16)};
        list[listed++] = m->null ? 0 : 4;
        if (m->null) continue;
        list[listed++] = (i64) m->pit;
        list[listed++] = m->sure;
        list[listed++] = m->placed ? 2 : 0;
        if (m->placed) {
            list[listed++] = m->lat;
            list[listed++] = m->lon;
            list[listed++] = m->height;
        }
        if (version == 2) list[listed++] = m->depth;
    }
    hold(ref_write_message(list, listed, chance(50), message, &length) == 0, "the message is not made");
}

/* ---- qm_read_message */

static void try_read(void) {
    u64 count = 0;
    u32 owed = ref_read_message(message, length, expected, &count);
    u64 room = chance(70) ? ROOM : chance(50) ? count : below(count + 1);
    u64 place = chance(90) ? 1 + below(SPARE) : 0;
    if (owed == 0 && room < count) owed = QM_TOO_SHORT;
    if (place == 0) owed = QM_TOO_SHORT;
    blank();
    u32 got = qm_read_message(message, length, numbers, room, told, place);
    answered[got < 64 ? got : 63]++;
    hold(got == owed, "qm_read_message answers otherwise");
    if (owed == 0) {
        hold(told[0] == count && memcmp(numbers, expected, count * 8) == 0, "other numbers");
        hold(untouched(numbers + count, (ROOM + SPARE - count) * 8) && untouched(told + 1, sizeof told - 8), "written behind the numbers");
    } else hold(untouched(numbers, sizeof numbers) && untouched(told, sizeof told), "a refusal wrote");
}

/* ---- qm_marks */

static void row_of(const struct mark *m, qm_i64 *to) {
    to[QM_MARK_PIT] = (qm_i64) m->pit;
    to[QM_MARK_SURE] = m->sure;
    to[QM_MARK_PLACED] = m->placed;
    to[QM_MARK_LAT] = m->placed ? m->lat : 0;
    to[QM_MARK_LON] = m->placed ? m->lon : 0;
    to[QM_MARK_HEIGHT] = m->placed ? m->height : 0;
    to[QM_MARK_MEASURED] = version == 2;
    to[QM_MARK_DEPTH] = version == 2 ? m->depth : 0;
}

static void try_marks(void) {
    static qm_i64 owed[MARKS * QM_MARK];
    u64 some = 0;
    for (u64 i = 0; i < many; i++)
        if (!marks[i].null) row_of(&marks[i], owed + QM_MARK * some++);
    u64 n = some * QM_MARK;
    u64 room = chance(70) ? n + below(SPARE + 1) : chance(50) ? n : below(n + 1);
    u64 place = chance(90) ? QM_MARKS + below(SPARE + 1) : below(QM_MARKS);
    blank();
    u32 got = qm_marks(list, listed, rows, room, told, place);
    if (room < n || place < QM_MARKS) {
        hold(got == QM_TOO_SHORT && untouched(rows, sizeof rows) && untouched(told, sizeof told), "marks without room");
        return;
    }
    hold(got == 0 && told[QM_MARKS_LIST] == 1 && told[QM_MARKS_TILE] == tile && told[QM_MARKS_COUNT] == some, "qm_marks tells otherwise");
    hold(memcmp(rows, owed, n * 8) == 0, "other rows");
    hold(untouched(rows + n, sizeof rows - n * 8) && untouched(told + QM_MARKS, sizeof told - QM_MARKS * 8), "written behind the rows");
}

/* Another message has no marks; and any numbers at all end. */
static void try_others(void) {
    list[1] = ONE_OF(0, 1, 2, 3, 4, 6, 7, 8);
    blank();
    hold(qm_marks(list, listed, rows, MARKS * QM_MARK, told, QM_MARKS) == 0 && told[QM_MARKS_LIST] == 0 && told[QM_MARKS_TILE] == 0 && told[QM_MARKS_COUNT] == 0 && untouched(rows, sizeof rows),
         "another message has marks");
    for (u64 i = 0; i < listed; i++)
        if (chance(30)) list[i] = chance(50) ? signed_of(64) : (i64) below(6);
    list[1] = 5;
    blank();
    u32 got = qm_marks(list, listed, rows, MARKS * QM_MARK, told, QM_MARKS);
    /* what is told here no model says: before it is a place, it must be one of what was lent */
    u64 some = got == 0 ? told[QM_MARKS_COUNT] : 0;
    hold(some <= MARKS, "qm_marks tells more marks than there is room for, of numbers that are no message");
    hold(got == 0 ? told[QM_MARKS_LIST] == 1 : got == QM_TOO_SHORT && untouched(told, sizeof told), "qm_marks tells otherwise, of numbers that are no message");
    if (some <= MARKS) hold(untouched(rows + some * QM_MARK, sizeof rows - some * QM_MARK * 8), "written behind the rows, of numbers that are no message");
}

/* ---- qm_pits */

enum { WORDS = TILE_KINDS * PIT_KINDS };
static const u64 tiles_of[TILE_KINDS] = {0, 1, 7, 4294967294, 4294967295}, pits_of[PIT_KINDS] = {0, 1, 2, 3, 9, 10, 500, 65536, 4294967292, 4294967293, 4294967294, 4294967295};
static qm_u64 pits[WORDS + SPARE], sure[WORDS + SPARE], number[WORDS + SPARE], certain[WORDS + SPARE];

static void try_pits(void) {
    static int marked[TILE_KINDS][PIT_KINDS];
    u64 share = ONE_OF(0, 5, 50, 95), had = 0, had_sure = 0;
    for (int t = 0; t < TILE_KINDS; t++)
        for (int p = 0; p < PIT_KINDS; p++) {
            marked[t][p] = chance(share) ? 1 + chance(50) : 0;
            u64 key = tiles_of[t] * 4294967296 + pits_of[p];
            if (marked[t][p] > 0) pits[had++] = key;
            if (marked[t][p] > 1) sure[had_sure++] = key;
        }
    /* behind the sets stands what a host may have left there */
    for (u64 i = had; i < WORDS + SPARE; i++) pits[i] = random_64();
    for (u64 i = had_sure; i < WORDS + SPARE; i++) sure[i] = random_64();
    /* sizes above what is lent count as what is lent */
    int above = chance(20);
    for (int t = 0; t <= TILE_KINDS; t++) {
        u64 of = t < TILE_KINDS ? tiles_of[t] : 3, n = 0;
        u64 owed[PIT_KINDS], owed_sure[PIT_KINDS];
        for (int p = 0; t < TILE_KINDS && p < PIT_KINDS; p++)
            if (marked[t][p] > 0) {
                owed[n] = pits_of[p];
                owed_sure[n++] = marked[t][p] > 1;
            }
        u64 room = chance(80) ? n + below(SPARE + 1) : below(n + 1), room_sure = chance(80) ? n + below(SPARE + 1) : below(n + 1), place = chance(90) ? 1 + below(SPARE) : 0;
        memset(number, 0x55, sizeof number);
        memset(certain, 0x55, sizeof certain);
        memset(told, 0x55, sizeof told);
        u32 got = qm_pits(of, pits, above ? had : WORDS + SPARE, sure, above ? had_sure : WORDS + SPARE, above ? had + below(9) : had, above ? ~0ull : had_sure, number, room, certain, room_sure, told, place);
        if (room < n || room_sure < n || place == 0) {
            hold(got == QM_TOO_SHORT && untouched(number, sizeof number) && untouched(certain, sizeof certain) && untouched(told, sizeof told), "pits without room");
            continue;
        }
        hold(got == 0 && told[0] == n && memcmp(number, owed, n * 8) == 0 && memcmp(certain, owed_sure, n * 8) == 0, "other pits");
        hold(untouched(number + n, sizeof number - n * 8) && untouched(certain + n, sizeof certain - n * 8) && untouched(told + 1, sizeof told - 8), "written behind the pits");
    }
}

int main(void) {
    for (int i = 0; i < 5000; i++) {
        draw();
        try_read();
        try_marks();
        /* damaged: a byte or two changed, mostly with the checksum left zero, cut, or with bytes behind it */
        if (chance(70)) memset(message + length - 4, 0, 4);
        for (u64 k = below(3); k > 0; k--) message[between(8, length - 5)] = (u8) ONE_OF(0, 1, 2, 4, 5, 127, 128, 255);
        if (chance(20)) length = below(length);
        try_read();
        try_others();
        try_pits();
    }
    printf("qm_read_message answered");
    for (int i = 0; i < 64; i++)
        if (answered[i]) printf(" %d (%llu times)", i, answered[i]);
    printf("\n");
    static const int owed[] = {0, 13, 21, 22, 23, 24, 25, 28};
    for (int i = 0; i < 8; i++) hold(answered[owed[i]] > 0, "an answer that was never met");
    printf("%d passed, %d failed\n", passed, failed);
    return failed != 0 || passed == 0;
}
