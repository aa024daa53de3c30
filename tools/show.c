/* qm show LOG PLACE: the entry that begins at a place of a log, and what its datagram says, in words. */

#include "receiver.h"
#include "logs.h"

void print_name(FILE *to, const qm_byte *name, qm_size length) {
    for (qm_size i = 0; i < length; i++) {
        if (name[i] < 32 || name[i] > 126) fprintf(to, "\\x%02x", name[i]);
        else if (name[i] == '\\') fprintf(to, "\\\\");
        else fprintf(to, "%c", name[i]);
    }
}

/* What the datagram reader says of the entry at hand within the log's limits. A fresh receiver has no other refusal than the reader's. */
static qm_u32 read_within(const struct walk *w, qm_u32 *fields) {
    struct received r;
    receiver_open();
    receiver_take(w, &r);
    /* what is accepted within a log's limits is within the reader's own */
    return r.refusal != 0 ? r.refusal : qm_read_datagram(walk_datagram(w), w->entry[QM_ENTRY_LENGTH], fields, QM_FIELDS);
}

static void print_said(const struct walk *w) {
    qm_u32 f[QM_FIELDS], refusal = read_within(w, f);
    if (refusal != 0) {
        printf("refused %u\n", refusal);
        return;
    }
    const qm_byte *name = walk_datagram(w) + f[QM_NAME_PLACE];
    if (f[QM_KIND] == 1) {
        printf("small sequence %u name ", f[QM_SEQUENCE]);
        print_name(stdout, name, f[QM_NAME_LENGTH]);
        printf(" payload %u\n", f[QM_DATA_LENGTH]);
        return;
    }
    printf("fragment %u of %u sequence %u offset %u data %u payload %u", f[QM_NUMBER], f[QM_COUNT], f[QM_SEQUENCE], f[QM_OFFSET], f[QM_DATA_LENGTH], f[QM_SIZE]);
    if (f[QM_NUMBER] == 0) {
        printf(" name ");
        print_name(stdout, name, f[QM_NAME_LENGTH]);
    }
    printf("\n");
}

/* Where a place lies that is no entry's first byte. */
static void tell_place(const char *path, const struct walk *w, qm_u64 place, const struct walk *inside) {
    fprintf(stderr, "qm show: %s: no entry begins at place %llu: ", path, place);
    if (place >= w->log.length) fprintf(stderr, "the log has %llu bytes\n", w->log.length);
    else if (inside->entries > 0) fprintf(stderr, "it is inside entry %llu, which begins at %llu\n", inside->entries, inside->at);
    else if (place >= w->next) fprintf(stderr, "the whole entries end at %llu\n", w->next);
    else fprintf(stderr, "it is inside the log's head\n");
}

int show_command(const char *path, qm_u64 place) {
    struct walk w, inside = {0};
    int found = 0;
    if (walk_begin(&w, "show", path) != DONE) return FAILED;
    while (walk_on(&w)) {
        if (w.at <= place && place < w.next) inside = w;
        if (w.at != place) continue;
        found = 1;
        printf("sender %llu tick %llu length %llu\n", w.entry[QM_SENDER], w.entry[QM_TICK], w.entry[QM_ENTRY_LENGTH]);
        print_said(&w);
    }
    if (printed("show") != DONE) return FAILED;
    if (!found) tell_place(path, &w, place, &inside);
    int status = logs_ended(&w, "looked through");
    return found ? status : REFUSED;
}
