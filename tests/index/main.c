/* What index_list prints of the log on standard input, by the second implementation. */

#include "../reference/reference.h"

static u8 log_bytes[4194305];
static struct ref_row rows[INDEXED];

int main(void) {
    u64 length = 0, count;
    long got;
    while ((got = read(0, log_bytes + length, sizeof log_bytes - length)) > 0) length += (u64) got;
    if (length > 4194304) {
        printf("longer than 4194304 bytes\n");
        return 0;
    }
    u32 refusal = ref_index(log_bytes, length, rows, &count);
    if (refusal) {
        printf("refused %u\n", refusal);
        return 0;
    }
    for (u64 i = 0; i < count; i++) printf("sender %llu sequence %u place %llu\n", rows[i].sender, rows[i].sequence, rows[i].place);
    printf("end %llu\n", count);
    return 0;
}
