/* One receiver over slots of the largest payload. */

#include "receiver.h"

static qm_u64 state[QM_STATE];
static qm_byte names[QM_NAMES];
static qm_byte store[QM_STORE];
static qm_u32 ledger[QM_LEDGER];

void receiver_open(void) {
    /* memory of the header's lengths: 9 does not come */
    qm_open(state, QM_STATE, names, QM_NAMES, QM_STORE);
}

void receiver_take(const struct walk *w, struct received *r) {
    r->refusal = qm_receive_within(state, QM_STATE, names, QM_NAMES, store, QM_STORE, ledger, QM_LEDGER, w->head[QM_LOG_PAYLOAD],
                                   (qm_u32) w->head[QM_LOG_FRAGMENTS], w->entry[QM_SENDER], walk_datagram(w), w->entry[QM_ENTRY_LENGTH], r->told, QM_OUTCOME,
                                   r->name, QM_MAX_NAME);
}

int is_kept(const struct received *r) {
    return r->refusal == 0 && r->told[QM_ANSWER] == QM_ANSWER_KEPT;
}

int is_delivered(const struct received *r) {
    return r->refusal == 0 && r->told[QM_ANSWER] == QM_ANSWER_DELIVERED;
}

const qm_byte *delivered_payload(const struct walk *w, const struct received *r) {
    return (r->told[QM_WHERE] == QM_IN_STORE ? store : walk_datagram(w)) + r->told[QM_PAYLOAD_PLACE];
}

qm_size delivered_length(const struct received *r) {
    return r->told[QM_PAYLOAD_LENGTH];
}

/* No name has a zero byte, and zeros stand behind it. */
qm_size delivered_name_length(const struct received *r) {
    qm_size length = 0;
    while (length < QM_MAX_NAME && r->name[length] != 0) length++;
    return length;
}
