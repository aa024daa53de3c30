/* qm import -o LOG CAPTURE: the UDP datagrams to a port that tcpdump or its like has captured, as a log. */

#include "logs.h"
#include "met.h"
#include "out.h"
#include "udp.h"

enum { LCM_PORT = 7667, MOST_ENTRY = 65535 + 30, MOST_HEAD = 16, ADDRESS_AND_PORT = 18 };

struct import {
    const char *log, *path;
    qm_u64 port;
    int replace;
    struct out out;
    struct met sources;   /* by address and port */
    qm_u64 packets, imported, of[UDP_BROKEN + 1];
};

/* ---- senders: of IPv4 the address and the port, 48 bits; of IPv6 a hash of them with the top bit set, the same in every run */

static qm_u64 sender_of(const struct source *from) {
    qm_u64 hash = 0xcbf29ce484222325;
    if (from->length == 4) return big_number(from->address, 4) << 16 | from->port;
    for (unsigned i = 0; i < from->length + 2; i++) {
        qm_byte next = i < from->length ? from->address[i] : (qm_byte) (i == from->length ? from->port >> 8 : from->port);
        hash = (hash ^ next) * 0x100000001b3;
    }
    return hash | 1ull << 63;
}

/* The row of a source, whose key is kept beside it. */
static int note_source(struct import *m, const struct udp *u, qm_u64 tick) {
    qm_byte key[ADDRESS_AND_PORT];
    qm_size length = u->from.length + 2;
    memcpy(key, u->from.address, u->from.length);
    key[length - 2] = (qm_byte) (u->from.port >> 8);
    key[length - 1] = (qm_byte) u->from.port;
    struct met_row *row = met_channel(&m->sources, key, length);
    if (row && row->times == 0) {
        qm_byte *own = malloc(length);
        if (own) memcpy(own, key, length);
        row->name = own ? own : (const qm_byte *) "";
        if (!own) row->number = 0;
    }
    if (!row || row->number == 0) return failed("import", m->path);
    met_again(row, u->length, tick);
    return DONE;
}

static void print_source(const struct met_row *row) {
    struct source from = {.length = (unsigned) row->number - 2, .port = (unsigned) big_number(row->name + row->number - 2, 2)};
    memcpy(from.address, row->name, from.length);
    printf("sender %llu datagrams %llu bytes %llu first %llu last %llu port %u address ", sender_of(&from), row->times, row->bytes, row->first, row->last, from.port);
    if (from.length == 4) printf("%u.%u.%u.%u\n", from.address[0], from.address[1], from.address[2], from.address[3]);
    for (unsigned i = 0; from.length == 16 && i < 16; i += 2) printf("%llx%c", big_number(from.address + i, 2), i < 14 ? ':' : '\n');
}

/* ---- the log */

static int put_head(struct import *m) {
    qm_byte head[MOST_HEAD];
    qm_u64 answer = qm_log_begin(head, MOST_HEAD, QM_MAX_PAYLOAD);
    return answer >> 32 ? out_put(&m->out, head, QM_LOG_LENGTH(answer)) : refused("import", m->log, (qm_u32) answer);
}

static int put_datagram(struct import *m, const struct udp *u, qm_u64 tick) {
    static qm_byte entry[MOST_ENTRY];
    qm_u64 answer = qm_log_append(entry, MOST_ENTRY, 0, sender_of(&u->from), tick, u->bytes, u->length);
    if (answer >> 32 == 0) return refused("import", m->log, (qm_u32) answer);
    m->imported++;
    return note_source(m, u, tick) == DONE ? out_put(&m->out, entry, QM_LOG_LENGTH(answer)) : FAILED;
}

static int put_packets(struct import *m, struct capture *c) {
    struct packet p;
    int status = put_head(m);
    while (status == DONE && capture_next(c, &p)) {
        struct udp u;
        int kind = udp_of(&p, &u);
        if (kind == UDP_WHOLE && u.to != m->port) kind = UDP_OTHER;
        m->packets++;
        m->of[kind]++;
        if (kind == UDP_WHOLE) status = put_datagram(m, &u, p.tick);
    }
    return status;
}

/* ---- the lines */

static int print_imported(struct import *m) {
    printf("packets %llu\nimported %llu\nother %llu\npieces %llu\ncut %llu\nbroken %llu\n", m->packets, m->imported, m->of[UDP_OTHER], udp_pieces_left(), m->of[UDP_CUT], m->of[UDP_BROKEN]);
    met_sort(&m->sources);
    for (qm_size i = 0; i < m->sources.used; i++) print_source(&m->sources.rows[i]);
    return printed("import");
}

static void tell_imported(const struct import *m) {
    if (m->of[UDP_CUT] > 0) fprintf(stderr, "qm import: %s: %llu packets were captured in part, and are not imported: tcpdump -s 0 takes them whole\n", m->path, m->of[UDP_CUT]);
    if (udp_pieces_left() > 0) fprintf(stderr, "qm import: %s: %llu pieces of IP datagrams found no whole: the rest of each was not captured\n", m->path, udp_pieces_left());
    if (m->imported == 0) fprintf(stderr, "qm import: %s: no datagram in it is for port %llu: --port takes another\n", m->path, m->port);
}

/* ---- the command */

static int import_from(struct import *m, struct capture *c) {
    if (out_begin(&m->out, "import", m->log, m->replace) != DONE) return FAILED;
    int status = put_packets(m, c);
    if (status != DONE) {
        out_drop(&m->out);
        return status;
    }
    if (out_end(&m->out, 1) != DONE || print_imported(m) != DONE) return FAILED;
    tell_imported(m);
    if (!c->why) return DONE;
    fprintf(stderr, "qm import: %s: %s; the %llu packets before that are read\n", m->path, c->why, m->packets);
    return REFUSED;
}

static int import_file(struct import *m) {
    struct capture c;
    struct mapped file;
    if (map_file("import", m->path, &file) != DONE) return FAILED;
    int status = REFUSED;
    if (capture_open(&c, file)) status = import_from(m, &c);
    else fprintf(stderr, "qm import: %s: %s\n", m->path, c.why);
    capture_close(&c);
    return status;
}

static int read_option(struct import *m, int words, char **word, int *at) {
    char *option = word[(*at)++];
    int log = strcmp(option, "-o") == 0;
    if (log || strcmp(option, "--port") == 0) {
        if (*at == words) return called_wrong("import", option, log ? "the log is missing" : "the port is missing");
        char *value = word[(*at)++];
        if (log) m->log = value;
        else if (!is_number(value, 65535, &m->port)) return called_wrong("import", value, "--port takes a number of at most 65535");
        return DONE;
    }
    if (strcmp(option, "--replace") != 0) return called_wrong("import", option, "there is no such option");
    m->replace = 1;
    return DONE;
}

int import_command(int words, char **word) {
    struct import m = {.port = LCM_PORT};
    int at = 0;
    while (at < words && is_option(word[at]))
        if (read_option(&m, words, word, &at) != DONE) return USAGE;
    if (!m.log) return called_wrong("import", "-o LOG", "no log to write is named");
    if (at == words) return called_wrong("import", "CAPTURE", "no capture is named");
    if (words - at > 1) return called_wrong("import", word[at + 1], is_option(word[at + 1]) ? "options stand before the capture" : "one capture is named already");
    m.path = word[at];
    int status = import_file(&m);
    for (qm_size i = 0; i < m.sources.room; i++)
        if (m.sources.rows[i].used && m.sources.rows[i].number > 0) free((void *) m.sources.rows[i].name);
    met_close(&m.sources);
    return status;
}
