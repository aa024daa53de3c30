/* --from SENDER: the senders whose entries are taken. */

#include "from.h"
#include "logs.h"

int from_take(struct from *f, const char *command, const char *word) {
    if (!is_number(word, ~0ull, &f->sender[f->many])) return called_wrong(command, word, "--from takes a sender, a number of 64 bits in decimal");
    f->many++;
    return DONE;
}

int from_has(const struct from *f, qm_u64 sender) {
    for (unsigned i = 0; i < f->many; i++)
        if (f->sender[i] == sender) return 1;
    return f->many == 0;
}
