/* What the exported calls make of index files, for tests/index/run. Input, one case after another, all numbers of eight bytes, big-endian:

     log length, log, file length, file, number of places, places, number of keys, keys (sender, sequence)

   Prints what qm_index_file_head, qm_index_file_rows and, for each key, qm_index_file_find say of that file and log. Then the index file of the log as it was at the first
   place, extended at each place after it: every time the rows are read from the file and the file is written again. */

#include "../../include/quartzmitten.h"
#include "../reference/reference.h"

enum { ALL_INPUT = 1 << 26, MOST = 1 << 20 };

static u8 input[ALL_INPUT], file[QM_INDEX_FILE(MOST)];
static u64 rows[(u64) MOST * QM_ROW], at;

static u64 next(void) {
    u64 number = ref_number(input + at, 8);
    at += 8;
    return number;
}

static const u8 *bytes(u64 length) {
    at += length;
    return input + at - length;
}

/* The file of the log as it was at each place; what stands behind the rows and the file stays as it was. */
static u64 grown(const u8 *log, u64 places) {
    u64 length = 0;
    for (u64 i = 0; i < places; i++) {
        u64 covers = next(), count = 0, head[QM_FILE_NUMBERS] = {0, 0};
        if (i > 0) {
            if (qm_index_file_head(file, length, head, QM_FILE_NUMBERS) != 0) return 0;
            count = head[QM_FILE_ROWS];
            if (qm_index_file_rows(file, length, rows, count * QM_ROW) != 0) return 0;
        }
        u64 answer = qm_index_on(log, covers, head[QM_FILE_COVERED], rows, sizeof rows / 8, count, MOST);
        if (answer >> 32 == 0) {
            printf("refused %llu\n", answer);
            return 0;
        }
        count = QM_INDEX_ROWS(answer);
        if (count > 0 && qm_index_on(log, covers, 0, rows, count * QM_ROW - 1, 0, MOST) != QM_INDEX_FULL) return 0;
        length = QM_INDEX_FILE(count);
        file[length] = 0x5a;
        if (qm_index_file_write(rows, count * QM_ROW, count, covers, file, length - 1) != QM_TOO_SHORT) return 0;
        if (qm_index_file_write(rows, count * QM_ROW, count, covers, file, length) != 0 || file[length] != 0x5a) return 0;
    }
    return length;
}

static void one_case(void) {
    u64 head[QM_FILE_NUMBERS] = {7, 7}, place[QM_FIND] = {7, 7}, log_length = next();
    const u8 *log = bytes(log_length);
    u64 file_length = next();
    const u8 *given = bytes(file_length);
    u64 places = next(), first = at;
    at += 8 * places;
    u32 answer = qm_index_file_head(given, file_length, head, QM_FILE_NUMBERS);
    printf("head %u %llu %llu\n", answer, head[0], head[1]);
    rows[0] = 7;
    answer = qm_index_file_rows(given, file_length, rows, sizeof rows / 8);
    printf("rows %u %llu\n", answer, rows[0]);
    /* with too few words: one less than the rows take, and of what is no index file none at all */
    u64 few = answer == 0 && head[QM_FILE_ROWS] > 0 ? head[QM_FILE_ROWS] * QM_ROW - 1 : 0;
    printf("short %u\n", qm_index_file_rows(given, file_length, rows, few));
    for (u64 keys = next(); keys > 0; keys--) {
        u64 sender = next(), sequence = next();
        place[0] = place[1] = 7;
        answer = qm_index_file_find(log, log_length, given, file_length, sender, (u32) sequence, place, QM_FIND);
        printf("find %u %llu %llu\n", answer, place[0], place[1]);
    }
    u64 end = at;
    at = first;
    u64 length = grown(log, places);
    at = end;
    printf("file %llu ", length);
    for (u64 i = 0; i < length; i++) printf("%02x", file[i]);
    printf("\n");
}

int main(void) {
    u64 length = 0;
    long got;
    while ((got = read(0, input + length, sizeof input - length)) > 0) length += (u64) got;
    while (at < length) one_case();
    return 0;
}
