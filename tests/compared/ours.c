/* What the proved receiver answers to the cases of cases.txt (standard input), a line a case: its name and the answers in turn, each as
   cases.txt writes them. The slot size is 16. Sender a is number 0, b is 1, the others are 10 and up. */

#include "../../include/quartzmitten.h"
#include "../reference/reference.h"

enum { STORE = 8 * 16, LINE = 200000, FIRST_OTHER = 10 };

static u64 state[QM_STATE];
static u8 names[QM_NAMES], store[STORE], d[LINE];
static u32 ledger[LEDGER];
static char line[LINE];

static int digit(char c) { return c >= '0' && c <= '9' ? c - '0' : c >= 'a' && c <= 'f' ? c - 'a' + 10 : -1; }

static void answer(u64 sender, u64 length) {
    u64 told[QM_OUTCOME] = {0};
    u8 name[MAX_NAME];
    u32 refusal = qm_receive(state, QM_STATE, names, QM_NAMES, store, STORE, ledger, LEDGER, sender, d, length, told, QM_OUTCOME, name, MAX_NAME);
    const u8 *bytes = told[QM_WHERE] == QM_IN_DATAGRAM ? d : store;
    printf(", ");
    if (refusal != 0) printf("refused %u", refusal);
    if (told[QM_ANSWER] == QM_ANSWER_KEPT) printf("kept");
    if (told[QM_ANSWER] == QM_ANSWER_REPEAT) printf("repeat");
    if (told[QM_ANSWER] == QM_ANSWER_DELIVERED) printf("delivered");
    for (u64 i = 0; i < told[QM_PAYLOAD_LENGTH]; i++) printf(" %02x", bytes[told[QM_PAYLOAD_PLACE] + i]);
    if (told[QM_EMPTIED]) printf(" emptied %llu %llu", told[QM_EMPTIED_SENDER], told[QM_EMPTIED_SEQUENCE]);
}

int main(void) {
    while (fgets(line, LINE, stdin)) {
        u64 length = 0, times = 1, sender = line[0] == 'b';
        char *at = line;
        if (memcmp(line, "case ", 5) == 0) {
            for (at = line + 5; *at != ':'; at++) continue;
            *at = 0;
            qm_open(state, QM_STATE, names, QM_NAMES, STORE);
            printf("\n%s", line + 5);
        }
        if (line[0] == '#' || line[0] == '\n' || memcmp(line, "case ", 5) == 0) continue;
        while (*at != ' ' && *at != '\n') at++;
        if (line[0] == 'o') {
            sender = FIRST_OTHER;
            for (times = 0, at++; *at >= '0' && *at <= '9'; at++) times = 10 * times + (u64) (*at - '0');
        }
        for (; *at && *at != '\n'; at++) {
            if (digit(at[0]) < 0 || digit(at[1]) < 0) continue;
            d[length++] = (u8) (16 * digit(at[0]) + digit(at[1]));
            at++;
        }
        for (u64 i = 0; i < times; i++) answer(sender + i, length);
    }
    printf("\n");
    return 0;
}
