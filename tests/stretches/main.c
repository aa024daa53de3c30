/* Holds qm_count_on and qm_count_lines to qm_count, over the logs named: each log in pieces of 1, 2, 3, 7, 50 and all entries has the totals and the lines of
   qm_count; all logs one after another, each behind a qm_open of its own, have the lines of a season, in either order and with each given twice; in sets with
   one word too few 60 and 61 come, in a number list that is too short 13, and what stood there before stands there still. However it stopped, the place told is
   behind the entries taken. */

#include "../../include/quartzmitten.h"

#include "../../tools/system.h"

enum { ROOM = 4194304, LOGS = 8, WORDS = 8192 };

static qm_byte log_bytes[LOGS][ROOM];
static qm_size log_length[LOGS];
static qm_u64 state[QM_STATE];
static qm_byte names[QM_NAMES], store[QM_STORE];
static qm_u32 ledger[QM_LEDGER];
static qm_i64 numbers[QM_NUMBERS];
static qm_u64 report[QM_REPORT], told[QM_STRETCH + 1], sum[QM_STRETCH];

struct map {
    qm_u64 tiles[WORDS], pits[WORDS], sure[WORDS], had[3];
};
static struct map one, other, before;
static qm_u64 tile[WORDS], pit[WORDS], certain[WORDS], tile2[WORDS], pit2[WORDS], certain2[WORDS];
/* how many numbers the number list has */
static qm_size list_room = QM_NUMBERS;
static int passed, failed;

static void hold(int good, const char *what, int log, qm_u64 most) {
    if (good) passed++;
    else {
        failed++;
        printf("stretches: %s (log %d, %llu at a time)\n", what, log, most);
    }
}

static void empty(struct map *m) { memset(m, 0, sizeof *m); }

/* The place behind a number of seven-bit groups; the number. */
static qm_size behind_number(int log, qm_size place, qm_u64 *number) {
    int bits = 0;
    *number = 0;
    do {
        *number |= (qm_u64) (log_bytes[log][place] & 127) << bits;
        bits += 7;
    } while (log_bytes[log][place++] > 127);
    return place;
}

/* The place behind so many entries from a place on, at 0 behind the head too: each is sender, tick, length and as many bytes. The log's end where it has fewer. */
static qm_size behind(int log, qm_size place, qm_u64 entries) {
    qm_u64 number;
    if (place == 0) place = log_bytes[log][0] == 1 ? 1 : behind_number(log, 1, &number);
    for (; entries > 0 && place < log_length[log]; entries--) {
        for (int i = 0; i < 3; i++) place = behind_number(log, place, &number);
        place += number;
    }
    return place;
}

/* A flight in pieces, with so many words for tiles, pits and sure pits; the totals in `sum`. Answers why it stopped. */
static qm_u64 fly(int log, qm_u64 most, struct map *m, qm_size tiles, qm_size pits, qm_size sure) {
    qm_size place = 0;
    qm_open(state, QM_STATE, names, QM_NAMES, QM_STORE);
    memset(sum, 0, sizeof sum);
    do {
        told[QM_STRETCH] = 77;
        qm_u32 got = qm_count_on(log_bytes[log], log_length[log], place, most, state, QM_STATE, names, QM_NAMES, store, QM_STORE, ledger, QM_LEDGER, numbers, list_room,
                                 m->tiles, tiles, m->pits, pits, m->sure, sure, m->had[0], m->had[1], m->had[2], told, QM_STRETCH + 1);
        hold(got == 0 && told[QM_STRETCH] == 77, "told beyond its numbers, or refused", log, most);
        for (int i = QM_ON_ENTRIES; i < QM_ON_TILES; i++) sum[i] += told[i];
        /* what is told is read by below, and must be of what was lent */
        int sound = told[QM_ON_TILES] <= tiles && told[QM_ON_PITS] <= pits && told[QM_ON_SURE] <= sure;
        hold(sound, "told more tiles or pits than were lent", log, most);
        if (!sound) return ~0ull;
        memcpy(m->had, told + QM_ON_TILES, sizeof m->had);
        place = behind(log, place, told[QM_ON_ENTRIES]);
        hold(told[QM_ON_PLACE] == place, "another place", log, most);
    } while (told[QM_ON_STOP] == QM_STOP_TAKEN);
    return told[QM_ON_STOP];
}

static void one_log(int log) {
    static const qm_u64 mosts[] = {1, 2, 3, 7, 50, ~0ull};
    qm_u32 got = qm_count(log_bytes[log], log_length[log], store, QM_STORE, ledger, QM_LEDGER, numbers, QM_NUMBERS, report, QM_REPORT);
    hold(got == 0, "the log is not counted", log, 0);
    for (int k = 0; k < 6; k++) {
        empty(&one);
        hold(fly(log, mosts[k], &one, WORDS, WORDS, WORDS) == QM_STOP_END, "not to the end", log, mosts[k]);
        hold(sum[QM_ON_ENTRIES] == report[QM_ENTRIES] && sum[QM_ON_KEPT] == report[QM_KEPT] && sum[QM_ON_REPEATED] == report[QM_REPEATED] && sum[QM_ON_DELIVERED] == report[QM_DELIVERED]
                 && sum[QM_ON_LISTS] == report[QM_LISTS] && memcmp(sum + QM_ON_REFUSED, report + QM_REFUSED, QM_REFUSALS * 8) == 0,
             "other totals", log, mosts[k]);
        hold(one.had[0] == report[QM_TILES], "other tiles", log, mosts[k]);
        hold(qm_count_lines(tile, WORDS, pit, WORDS, certain, WORDS, one.tiles, WORDS, one.pits, WORDS, one.sure, WORDS, one.had[0], one.had[1], one.had[2]) == 0, "no lines", log, mosts[k]);
        qm_size n = one.had[0] * 8;
        hold(memcmp(tile, report + QM_TILE, n) == 0 && memcmp(pit, report + QM_PITS, n) == 0 && memcmp(certain, report + QM_SURE, n) == 0, "other lines", log, mosts[k]);
    }
    hold(one.had[0] == 0 || qm_count_lines(tile, one.had[0] - 1, pit, WORDS, certain, WORDS, one.tiles, WORDS, one.pits, WORDS, one.sure, WORDS, one.had[0], one.had[1], one.had[2]) == QM_TOO_SHORT,
         "lines without room", log, 0);
}

/* Numbers that one had, the other has too, rising. */
static int within(const qm_u64 *few, qm_u64 n, const qm_u64 *many, qm_u64 m) {
    qm_u64 j = 0;
    for (qm_u64 i = 1; i < m; i++)
        if (many[i - 1] >= many[i]) return 0;
    for (qm_u64 i = 0; i < n; i++) {
        while (j < m && many[j] < few[i]) j++;
        if (j == m || many[j] != few[i]) return 0;
    }
    return 1;
}

static void season(int logs) {
    empty(&one);
    for (int i = 0; i < logs; i++) fly(i, 5, &one, WORDS, WORDS, WORDS);
    empty(&other);
    for (int i = logs; i-- > 0;) {
        fly(i, ~0ull, &other, WORDS, WORDS, WORDS);
        fly(i, 3, &other, WORDS, WORDS, WORDS);
    }
    hold(memcmp(&one, &other, sizeof one) == 0, "another map in another order", -1, 0);
    qm_count_lines(tile, WORDS, pit, WORDS, certain, WORDS, one.tiles, WORDS, one.pits, WORDS, one.sure, WORDS, one.had[0], one.had[1], one.had[2]);
    qm_count_lines(tile2, WORDS, pit2, WORDS, certain2, WORDS, other.tiles, WORDS, other.pits, WORDS, other.sure, WORDS, other.had[0], other.had[1], other.had[2]);
    hold(memcmp(tile, tile2, sizeof tile) == 0 && memcmp(pit, pit2, sizeof pit) == 0 && memcmp(certain, certain2, sizeof certain) == 0, "other lines in another order", -1, 0);
    /* one word too few: of tiles, of pits, of sure pits */
    for (int k = 0; k < 3; k++) {
        qm_size room[3] = {WORDS, WORDS, WORDS};
        room[k] = one.had[k] > 0 ? one.had[k] - 1 : 0;
        empty(&other);
        qm_u64 why = QM_STOP_END;
        for (int i = 0; i < logs && why == QM_STOP_END; i++) {
            before = other;
            why = fly(i, ~0ull, &other, room[0], room[1], room[2]);
        }
        hold(why == QM_STOP_REFUSED && told[QM_ON_NUMBER] == (k == 0 ? QM_TOO_MANY_TILES : QM_TOO_MANY_PITS), "not refused", k, 0);
        hold(within(before.tiles, before.had[0], other.tiles, other.had[0]) && within(before.pits, before.had[1], other.pits, other.had[1]) && within(before.sure, before.had[2], other.sure, other.had[2]),
             "a flight counted before is damaged", k, 0);
        hold(within(other.tiles, other.had[0], one.tiles, one.had[0]) && within(other.pits, other.had[1], one.pits, one.had[1]) && within(other.sure, other.had[2], one.sure, one.had[2]), "a pit that nobody marked", k, 0);
    }
    /* a number list that is too short: of nothing, and of the head of a list alone */
    for (list_room = 0; list_room < 5; list_room += 4) {
        qm_u64 why = QM_STOP_END;
        empty(&other);
        for (int i = 0; i < logs && why == QM_STOP_END; i++) why = fly(i, ~0ull, &other, WORDS, WORDS, WORDS);
        hold(why == QM_STOP_REFUSED && told[QM_ON_NUMBER] == QM_TOO_SHORT, "not refused by 13", -1, list_room);
    }
    list_room = QM_NUMBERS;
    hold(qm_count_on(log_bytes[0], log_length[0], 0, 1, state, QM_STATE, names, QM_NAMES, store, QM_STORE, ledger, QM_LEDGER, numbers, QM_NUMBERS, one.tiles, WORDS, one.pits, WORDS, one.sure, WORDS,
                     one.had[0], one.had[1], one.had[2], told, QM_STRETCH - 1) == QM_TOO_SHORT,
         "told without room", -1, 0);
}

int main(int count, char **files) {
    for (int i = 1; i < count && i <= LOGS; i++) {
        int file = open(files[i], 0);
        long n;
        while (file >= 0 && (n = read(file, log_bytes[i - 1] + log_length[i - 1], ROOM - log_length[i - 1])) > 0) log_length[i - 1] += (qm_size) n;
        close(file);
        one_log(i - 1);
    }
    season(count - 1);
    printf("%d passed, %d failed\n", passed, failed);
    return failed != 0 || passed == 0;
}
