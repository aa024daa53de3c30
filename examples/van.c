/* The van's program in small: a whole host over the library. Where a host has its sockets, this one reads records from standard input, each an 8-byte sender, an
   8-byte tick and a 2-byte length, big-endian, and the datagram. It keeps each datagram in a log, tells of each tile that is complete, forgets a camera that began
   anew, and at the flight's end counts the pits of the season: of this log, and of the earlier ones that are named behind it.

       cc -o van van.c $(pkg-config --cflags --libs quartzmitten)
       ./van FLIGHT.log < samples/survey.bin
       ./van NEXT.log FLIGHT.log < samples/survey.bin */

#include <quartzmitten.h>
#include <stdio.h>
#include <stdlib.h>

enum { RECORD_HEAD = 18, LARGEST = 65535, MOST_ENTRY = LARGEST + 30, ROOM = 65536 };

/* Large, so not on a stack. Zeros are a watch that has seen nobody. */
static struct qm_host host;
static qm_byte record[RECORD_HEAD + LARGEST], entry[MOST_ENTRY];

static qm_u64 number(const qm_byte *at, int bytes) {
    qm_u64 n = 0;
    while (bytes-- > 0) n = n << 8 | *at++;
    return n;
}

static void stop(const char *why) {
    fprintf(stderr, "van: %s\n", why);
    exit(1);
}

/* ---- the log: what qm_log_begin and qm_log_append write goes to the file as it is */

static void put(FILE *log, qm_u64 answer) {
    /* a refusal is below 2^32 */
    if (answer >> 32 == 0) stop("the log refuses an entry");
    /* on its way before anything is made of it */
    if (fwrite(entry, 1, QM_LOG_LENGTH(answer), log) != QM_LOG_LENGTH(answer) || fflush(log) != 0) stop("the log cannot be written");
}

/* ---- a datagram */

static void take(qm_u64 sender, const qm_byte *datagram, qm_size length) {
    struct qm_outcome o;
    qm_u64 seen;
    /* where the datagram shows that its sender began anew, qm_host_take forgets the sender before it takes the datagram */
    qm_u32 refusal = qm_host_take(&host, sender, datagram, length, &o, &seen);
    if (QM_WATCH_KIND(seen) == QM_WATCH_FORWARD && QM_WATCH_NUMBER(seen) > 0) printf("sender %llu: %u numbers missing\n", sender, QM_WATCH_NUMBER(seen));
    if (QM_WATCH_KIND(seen) == QM_WATCH_RESTARTED) printf("sender %llu: began anew at %u\n", sender, QM_WATCH_NUMBER(seen));
    if (refusal != 0) printf("sender %llu: refused %u\n", sender, refusal);
    else if (o.payload) printf("sender %llu: %s, %llu bytes\n", sender, o.name, o.length);
    if (o.told[QM_TOLD_EMPTIED]) printf("sender %llu: message %llu given up\n", o.told[QM_TOLD_EMPTIED_SENDER], o.told[QM_TOLD_EMPTIED_SEQUENCE]);
}

/* ---- the count: each log through a fresh receiver, all of them on one map */

static qm_u64 tiles[ROOM], pits[ROOM], sure[ROOM];
static struct qm_map map = {tiles, pits, sure, ROOM, ROOM, ROOM, 0, 0, 0};

static qm_byte *read_whole(const char *path, qm_size *length) {
    FILE *log = fopen(path, "rb");
    qm_byte *bytes = 0;
    qm_size room = 0, more = 1;
    *length = 0;
    while (log && more > 0) {
        if (*length == room && !(bytes = realloc(bytes, room = room ? 2 * room : 1 << 16))) stop("no memory");
        more = fread(bytes + *length, 1, room - *length, log);
        *length += more;
    }
    if (!log || ferror(log)) stop("a log cannot be read");
    fclose(log);
    return bytes;
}

/* Answers how many lists the log brought. A log that is refused somewhere counts up to there. */
static qm_u64 count(const char *path) {
    static qm_i64 numbers[QM_NUMBERS];
    qm_u64 told[QM_STRETCH] = {0};
    qm_size length;
    qm_byte *log = read_whole(path, &length);
    qm_receiver_open(&host.receiver);
    if (qm_map_count(&map, &host.receiver, log, length, 0, ~0ull, numbers, told) != 0 || told[QM_ON_STOP] != QM_STOP_END)
        printf("%s: the count stopped: refused %llu\n", path, told[QM_ON_NUMBER]);
    free(log);
    return told[QM_ON_LISTS];
}

static void print_season(qm_u64 lists) {
    static qm_u64 tile[ROOM], pit[ROOM], certain[ROOM];
    qm_map_lines(&map, tile, pit, certain);
    printf("lists %llu\n", lists);
    for (qm_size i = 0; i < map.had_tiles; i++) printf("tile %llu pits %llu sure %llu\n", tile[i], pit[i], certain[i]);
}

int main(int words, char **word) {
    qm_u64 lists = 0;
    if (words < 2) stop("usage: van LOG [EARLIER..] < RECORDS");
    /* a van that goes on with a log of another day mends its end first: see qm keep */
    FILE *log = fopen(word[1], "wbx");
    if (!log) stop("the log cannot be begun: it may be there already");
    qm_receiver_open(&host.receiver);
    put(log, qm_log_begin(entry, sizeof entry, QM_MAX_PAYLOAD));
    while (fread(record, 1, RECORD_HEAD, stdin) == RECORD_HEAD) {
        qm_u64 sender = number(record, 8), tick = number(record + 8, 8);
        qm_size length = number(record + 16, 2);
        if (fread(record + RECORD_HEAD, 1, length, stdin) != length) stop("a record is cut");
        put(log, qm_log_append(entry, sizeof entry, 0, sender, tick, record + RECORD_HEAD, length));
        take(sender, record + RECORD_HEAD, length);
    }
    if (fclose(log) != 0) stop("the log cannot be written");
    for (int i = 1; i < words; i++) lists += count(word[i]);
    print_season(lists);
    return 0;
}
