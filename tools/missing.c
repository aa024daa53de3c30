/* qm gaps --missing LOG: the numbers of each sender that never came, as ranges, by what the sequence watch says of each entry. A sender that began anew has a
   new run; what was missing before it stays. Numbers are kept as places in their run, counted from its first number, so that nothing turns at 2^32. */

#include "missing.h"
#include "logs.h"

enum { FIRST_ROOM = 16 };

/* The places `first` to `last` of a run, or, where it is a restart, the number that a new run begins with. */
struct item {
    int restart;
    qm_i64 first, last;
};

struct sender {
    qm_u64 sender;
    qm_u32 began;          /* its first number: that of a later run stands at its restart */
    qm_i64 at;             /* the place of its last number in its run */
    struct item *items;    /* ranges and restarts, in order */
    qm_size room, many;
    qm_size run;           /* the first item of the present run */
};

/* Senders in order of first number, as the watch has them. */
struct missing {
    qm_u64 watched[QM_WATCH];
    qm_u32 lasts[QM_WATCH_SENDERS];
    struct sender senders[QM_WATCH_SENDERS];
    unsigned many;
    qm_u64 unwatched;      /* entries of other senders */
};

static struct sender *sender_of(struct missing *m, qm_u64 sender) {
    for (unsigned i = 0; i < m->many; i++)
        if (m->senders[i].sender == sender) return &m->senders[i];
    return 0;
}

/* Room for one item more. */
static int widen(struct sender *s) {
    if (s->many < s->room) return 1;
    qm_size room = s->room ? 2 * s->room : FIRST_ROOM;
    struct item *items = realloc(s->items, room * sizeof *items);
    if (!items) return 0;
    s->items = items;
    s->room = room;
    return 1;
}

/* So many numbers are missing before the one that came. */
static int move_on(struct sender *s, qm_u32 missing) {
    if (missing > 0) {
        if (!widen(s)) return 0;
        s->items[s->many++] = (struct item) {0, s->at + 1, s->at + missing};
    }
    s->at += (qm_i64) missing + 1;
    return 1;
}

static int begin_anew(struct sender *s, qm_u32 number) {
    if (!widen(s)) return 0;
    s->items[s->many++] = (struct item) {1, number, number};
    s->run = s->many;
    s->at = 0;
    return 1;
}

/* The number at a place came late: it is taken out of the range that has it, which may fall apart in two. No late number is far behind the last one, so the
   range is found from the end. */
static int take_out(struct sender *s, qm_i64 place) {
    qm_size i = s->many;
    while (i > s->run && s->items[i - 1].first > place) i--;
    if (i == s->run || s->items[i - 1].last < place) return 1;
    struct item *it = &s->items[i - 1];
    if (it->first < place && place < it->last) {
        if (!widen(s)) return 0;
        it = &s->items[i - 1];
        memmove(it + 1, it, (s->many++ - (i - 1)) * sizeof *it);
        it->last = place - 1;
        it[1].first = place + 1;
    } else if (it->first < it->last) {
        if (it->first == place) it->first++;
        else it->last--;
    } else {
        memmove(it, it + 1, (s->many-- - i) * sizeof *it);
    }
    return 1;
}

/* What the watch says of a number. Answers whether there was memory. */
static int note(struct missing *m, qm_u64 from, qm_u32 number) {
    qm_u64 answer = qm_watch_see(m->watched, QM_WATCH, m->lasts, QM_WATCH_SENDERS, from, number);
    struct sender *s = sender_of(m, from);
    switch (QM_WATCH_KIND(answer)) {
    case QM_WATCH_FIRST: m->senders[m->many++] = (struct sender) {.sender = from, .began = number}; return 1;
    case QM_WATCH_FORWARD: return move_on(s, QM_WATCH_NUMBER(answer));
    case QM_WATCH_SAME: return 1;
    case QM_WATCH_LATE: return take_out(s, s->at - QM_WATCH_NUMBER(answer));
    case QM_WATCH_RESTARTED: return begin_anew(s, number);
    default: m->unwatched++; return 1;
    }
}

static void print_missing(const struct sender *s) {
    qm_u32 began = s->began;
    for (qm_size i = 0; i < s->many; i++) {
        const struct item *it = &s->items[i];
        if (it->restart) {
            began = (qm_u32) it->first;
            printf("sender %llu restarted %u\n", s->sender, began);
        } else {
            printf("sender %llu missing %u", s->sender, began + (qm_u32) it->first);
            if (it->first < it->last) printf(" to %u", began + (qm_u32) it->last);
            printf("\n");
        }
    }
}

/* The number of the datagram at hand, where the reader accepts it by its own limits. */
static int number_of(const struct walk *w, qm_u32 *number) {
    qm_u32 fields[QM_FIELDS];
    if (qm_read_datagram(walk_datagram(w), w->entry[QM_ENTRY_LENGTH], fields, QM_FIELDS) != 0) return 0;
    *number = fields[QM_SEQUENCE];
    return 1;
}

int missing_command(const char *path) {
    /* zeros: a watch that has seen nobody */
    static struct missing m;
    struct walk w;
    qm_u32 number;
    int good = 1;
    if (walk_begin(&w, "gaps", path) != DONE) return FAILED;
    while (good && walk_on(&w))
        if (number_of(&w, &number)) good = note(&m, w.entry[QM_SENDER], number);
    for (unsigned i = 0; i < m.many; i++) {
        if (good) print_missing(&m.senders[i]);
        free(m.senders[i].items);
    }
    if (!good) return failed("gaps", path);
    printf("end %u\n", m.many);
    if (printed("gaps") != DONE) return FAILED;
    if (m.unwatched > 0)
        fprintf(stderr, "qm gaps: %s: the watch has room for %d senders: %llu entries of others are passed over\n", path, QM_WATCH_SENDERS, m.unwatched);
    return logs_ended(&w, "looked through");
}

/* ---- qm gaps --acks SENDER LOG: the numbers that came, as what the program ack_bytes reads: a 4-byte length, and numbers of 8 bytes */

enum { ACK_NUMBERS = 65536, ACK_NUMBER = 8 };

struct came {
    qm_u32 *numbers;
    qm_size room, many;
};

static int came_add(struct came *c, qm_u32 number) {
    /* the fragments of a message have one number, and come together */
    if (c->many > 0 && c->numbers[c->many - 1] == number) return 1;
    if (c->many == c->room) {
        qm_size room = c->room ? 2 * c->room : 1024;
        qm_u32 *numbers = realloc(c->numbers, room * sizeof *numbers);
        if (!numbers) return 0;
        c->numbers = numbers;
        c->room = room;
    }
    c->numbers[c->many++] = number;
    return 1;
}

static int by_number(const void *a, const void *b) {
    qm_u32 x = *(const qm_u32 *) a, y = *(const qm_u32 *) b;
    return (x > y) - (x < y);
}

/* Each number once, rising. */
static void came_sort(struct came *c) {
    qm_size many = 0;
    if (c->many > 0) qsort(c->numbers, c->many, sizeof *c->numbers, by_number);
    for (qm_size i = 0; i < c->many; i++)
        if (many == 0 || c->numbers[many - 1] != c->numbers[i]) c->numbers[many++] = c->numbers[i];
    c->many = many;
}

static void write_number(qm_u64 number, int bytes) {
    qm_byte out[ACK_NUMBER];
    for (int i = 0; i < bytes; i++) out[i] = (qm_byte) (number >> 8 * (bytes - 1 - i));
    fwrite(out, 1, (unsigned long) bytes, stdout);
}

/* One record, or where ack_bytes does not hold so many numbers, one after another. */
static void write_records(const struct came *c) {
    qm_size at = 0;
    do {
        qm_size many = c->many - at < ACK_NUMBERS ? c->many - at : ACK_NUMBERS;
        write_number(many * ACK_NUMBER, 4);
        for (qm_size end = at + many; at < end; at++) write_number(c->numbers[at], ACK_NUMBER);
    } while (at < c->many);
}

int acks_command(const char *path, qm_u64 sender) {
    struct came c = {0};
    struct walk w;
    qm_u32 number;
    int good = 1;
    if (walk_begin(&w, "gaps", path) != DONE) return FAILED;
    while (good && walk_on(&w))
        if (w.entry[QM_SENDER] == sender && number_of(&w, &number)) good = came_add(&c, number);
    if (good) {
        came_sort(&c);
        write_records(&c);
    }
    free(c.numbers);
    if (!good) return failed("gaps", path);
    if (printed("gaps") != DONE) return FAILED;
    if (c.many > ACK_NUMBERS)
        fprintf(stderr, "qm gaps: %s: %llu numbers of sender %llu came: they are records of at most %d each, as ack_bytes takes them\n", path, c.many, sender, ACK_NUMBERS);
    return logs_ended(&w, "looked through");
}
