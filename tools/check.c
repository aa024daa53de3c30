/* qm check LOG: is it whole, who is in it, on which channels, and what was refused. One walk, through a fresh receiver within the log's limits. */

#include "logs.h"
#include "met.h"
#include "receiver.h"

struct checked {
    struct met senders, channels;
    qm_u64 refused[QM_REFUSALS];
    struct met_row all;
};

/* A message was delivered: its channel was met with its fragment 0. */
static int note_message(struct checked *c, const struct walk *w, const struct received *r) {
    struct met_row *row = met_channel(&c->channels, r->name, delivered_name_length(r));
    if (row) met_again(row, delivered_length(r), w->entry[QM_TICK]);
    return row != 0;
}

/* The channel of a datagram that says one. Its name stays where it is, in the log. */
static int note_name(struct checked *c, const struct walk *w) {
    qm_u32 fields[QM_FIELDS];
    if (qm_read_datagram(walk_datagram(w), w->entry[QM_ENTRY_LENGTH], fields, QM_FIELDS) != 0 || fields[QM_NAME_LENGTH] == 0) return 1;
    return met_channel(&c->channels, walk_datagram(w) + fields[QM_NAME_PLACE], fields[QM_NAME_LENGTH]) != 0;
}

/* The entry at hand. Answers whether there was memory. */
static int note(struct checked *c, const struct walk *w) {
    struct received r;
    struct met_row *sender = met_sender(&c->senders, w->entry[QM_SENDER]);
    if (!sender) return 0;
    met_again(sender, w->entry[QM_ENTRY_LENGTH], w->entry[QM_TICK]);
    met_again(&c->all, w->entry[QM_ENTRY_LENGTH], w->entry[QM_TICK]);
    receiver_take(w, &r);
    if (r.refusal != 0) {
        c->refused[r.refusal < QM_REFUSALS ? r.refusal : 0]++;
        return 1;
    }
    return note_name(c, w) && (!is_delivered(&r) || note_message(c, w, &r));
}

/* ---- the lines */

static void print_channel(const struct met_row *row) {
    printf("channel messages %llu bytes %llu", row->times, row->bytes);
    if (row->times > 0) printf(" first %llu last %llu", row->first, row->last);
    if (row->times > 1 && row->last > row->first) {
        unsigned __int128 thousandths = (unsigned __int128) (row->times - 1) * 1000000 / (row->last - row->first);
        printf(" rate %llu.%03u", (qm_u64) (thousandths / 1000), (unsigned) (thousandths % 1000));
    }
    printf(" name ");
    print_name(stdout, row->name, row->number);
    printf("\n");
}

static void print_sender(const struct met_row *row) {
    printf("sender %llu datagrams %llu bytes %llu first %llu last %llu\n", row->number, row->times, row->bytes, row->first, row->last);
}

static void print_checked(struct checked *c, const struct walk *w) {
    if (w->refusal == 0) printf("whole\n");
    else printf("refused %u after %llu\n", w->refusal, w->entries);
    printf("entries %llu\nbytes %llu\n", c->all.times, c->all.bytes);
    if (w->next > 0) printf("limit %llu\n", w->head[QM_LOG_PAYLOAD]);
    if (c->all.times > 0) printf("first %llu last %llu\n", c->all.first, c->all.last);
    met_sort(&c->senders);
    for (qm_size i = 0; i < c->senders.used; i++) print_sender(&c->senders.rows[i]);
    met_sort(&c->channels);
    for (qm_size i = 0; i < c->channels.used; i++) print_channel(&c->channels.rows[i]);
    for (qm_u32 n = 0; n < QM_REFUSALS; n++)
        if (c->refused[n] > 0) printf("refused %u datagrams %llu, %s\n", n, c->refused[n], meaning(n));
}

static int check_log(struct checked *c, const char *path) {
    struct walk w;
    int good = 1;
    if (walk_begin(&w, "check", path) != DONE) return FAILED;
    receiver_open();
    while (good && walk_on(&w)) good = note(c, &w);
    if (!good) return failed("check", path);
    print_checked(c, &w);
    return printed("check") == DONE ? logs_ended(&w, "good") : FAILED;
}

int check_command(const char *path) {
    struct checked c = {0};
    int status = check_log(&c, path);
    met_close(&c.senders);
    met_close(&c.channels);
    return status;
}
