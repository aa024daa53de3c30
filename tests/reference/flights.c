/* Logs to count, made from the second implementation's own writers: small worlds in which everything comes often, and logs at the limits. */

#include "random.h"

/* ---- a log in the making */

u8 flight_log[FLIGHT_ROOM];
u64 flight_length;

void flight_seed(u64 seed) { random_state = seed; }

static void append(u64 sender, const u8 *d, u64 length) {
    u64 written = 0;
    if (ref_log_append(flight_log, FLIGHT_ROOM, flight_length, sender, below(1000), d, length, &written) == 0) flight_length += written;
}

static void begin(void) { ref_log_begin(flight_log, FLIGHT_ROOM, MAX_PAYLOAD, &flight_length); }

/* ---- survey messages */

enum { LIST_ROOM = 100000 };

static i64 list[LIST_ROOM];
static u64 numbers;
static u8 message[15 * LIST_ROOM + 12];

static void say(i64 number) { list[numbers++] = number; }

static void say_mark(u64 version, u64 pit, int sure, int place) {
    say(4);
    say((i64) pit);
    say(sure);
    say(place ? 2 : 0);
    for (int i = 0; i < 3 && place; i++) say((i64) below(30000) - 15000);
    if (version == 2) say((i64) below(300));
}

/* A PitList of pits from `first` on, or of some from 1 to 12: never 0, so that a null mark taken for a pit shows. Answers the message's length. */
static u64 pit_list(u64 tile, u64 marks, int rising, u64 first) {
    u64 version = between(1, 2), length = 0;
    numbers = 0;
    say((i64) version);
    say(5);
    say((i64) tile);
    say((i64) marks);
    for (u64 i = 0; i < marks; i++) {
        if (!rising && chance(15)) say(0);
        else say_mark(version, rising ? first + i : 1 + below(12), chance(40), !rising && chance(60));
    }
    if (ref_write_message(list, numbers, chance(80), message, &length) != 0) return 0;
    return length;
}

/* Another type: a Ping, or a Note with a PitList in it. */
static u64 other_message(void) {
    u64 length = 0;
    numbers = 0;
    say((i64) between(1, 2));
    if (chance(50)) say(1);
    else {
        say(6);
        say(0);
        say(5);
        say(9);
        say(0);
    }
    ref_write_message(list, numbers, 1, message, &length);
    return length;
}

/* ---- logs */

/* Datagrams on their way, which come in any order. */
enum { WAITING = 64 };
static struct {
    u64 sender, length;
    u8 bytes[1500];
} waiting[WAITING];
static u64 on_the_way;

static void arrive(void) {
    u64 i = below(on_the_way), sender = waiting[i].sender;
    append(sender, waiting[i].bytes, waiting[i].length);
    if (chance(20)) return;   /* it comes again */
    if (chance(5)) append(sender, waiting[i].bytes, below(waiting[i].length + 1));
    waiting[i] = waiting[--on_the_way];
}

static void send(u64 length) {
    u64 sender = ONE_OF(7, 8, ~0ULL), m = ONE_OF(96, 300, 1400);
    u32 sequence = (u32) below(40), datagrams = 1, written = 0;
    for (u32 k = 0; k < datagrams; k++) {
        while (on_the_way == WAITING) arrive();
        if (ref_cut((const u8 *) "TILE", 4, message, length, sequence, m, k, waiting[on_the_way].bytes, 1500, &datagrams, &written) != 0) return;
        waiting[on_the_way].sender = sender;
        waiting[on_the_way++].length = written;
    }
}

/* Strangers' datagrams, by each refusal that can come in a log but 6 and 8. */
static void stranger(void) {
    u8 d[30] = "LC03\0\0\0\7\0\0\0\3\0\0\0\0\0\0\0\2P\0A";
    u64 length = 23;
    switch (below(6)) {
    case 0: length = below(20); break;
    case 1: d[3] = 'x'; break;
    case 2: d[20] = (u8) ONE_OF(0, 31, 127, 200); break;
    case 3: d[19] = 0; break;
    case 4: d[8] = 255; break;
    default: d[15] = 1; break;
    }
    append(below(3), d, length);
}

/* Of either edition, and of edition 2 also with a limit that refuses some fragments. */
static void begin_any(void) {
    begin();
    if (chance(30)) ref_log_begin(flight_log, FLIGHT_ROOM, below(2000), &flight_length);
    if (chance(30)) flight_log[0] = 1, flight_length = 1;
}

void flight_world(u64 messages) {
    begin_any();
    for (; messages > 0; messages--) {
        u64 length = chance(85) ? pit_list(ONE_OF(0, 1, 5, 5, 9, 4294967295), ONE_OF(0, 1, 4, 12, 40), 0, 0) : other_message();
        if (chance(10) && length > 0) message[below(length)] = (u8) random_64();
        if (chance(10)) stranger();
        send(length);
        while (on_the_way > 0 && chance(70)) arrive();
    }
    while (on_the_way > 0) arrive();
}

void flight_tiles(u64 tiles) {
    u8 d[200];
    u32 datagrams, written;
    begin();
    for (u64 i = 0; i < tiles; i++) {
        ref_cut((const u8 *) "TILE", 4, message, pit_list(1000 - i, 0, 0, 0), (u32) i, 200, 0, d, sizeof d, &datagrams, &written);
        append(7, d, written);
    }
}

void flight_marked(u64 tile) {
    u8 d[200];
    u32 datagrams, written;
    ref_cut((const u8 *) "TILE", 4, message, pit_list(tile, 1, 1, 1), 9999, 200, 0, d, sizeof d, &datagrams, &written);
    append(7, d, written);
}

void flight_pits(u64 pits) {
    static u8 d[65507];
    u32 datagrams, written;
    begin();
    for (u64 at = 0; at < pits; at += 2000) {
        u64 length = pit_list(at % 4000, pits - at < 2000 ? pits - at : 2000, 1, at);
        ref_cut((const u8 *) "TILE", 4, message, length, (u32) at, sizeof d, 0, d, sizeof d, &datagrams, &written);
        append(7, d, written);
    }
}

void flight_entries(u64 entries) {
    begin();
    for (u64 i = 0; i < entries; i++) append(i % 3, (const u8 *) "LC02\0\0\0\7P\0A", below(12));
}

void flight_ping(void) {
    static const i64 ping[2] = {1, 1};
    u8 d[64];
    u64 length = 0;
    u32 datagrams, written;
    begin();
    ref_write_message(ping, 2, 1, message, &length);
    ref_cut((const u8 *) "TILE", 4, message, length, 7, 96, 0, d, sizeof d, &datagrams, &written);
    append(7, d, written);
}

void flight_more(u64 entries) {
    for (u64 i = 0; i < entries; i++) append(9, (const u8 *) "LC02\0\0\0\7P\0A", 11);
}

void flight_damage(void) {
    switch (below(5)) {
    case 0: flight_length = below(flight_length + 1); break;
    case 1: flight_length -= flight_length > 0; break;
    case 2: flight_log[0] = (u8) ONE_OF(0, 3, 129, random_64()); break;
    case 3: memcpy(flight_log + flight_length, "\5\5\200\0", 4); flight_length += 4; break;
    default: memcpy(flight_log + flight_length, "\5\5\200\200\4", 5); flight_length += 5; break;
    }
}

