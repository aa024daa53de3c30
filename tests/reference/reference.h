/* A second implementation, in plain C, written from the paper (document 01) and the open points decided, not from the proved
   code, so that a misreading of the paper would have to be made twice. The tests hold the proved code to it. Plain and slow is right here. */

#ifndef REFERENCE_H
#define REFERENCE_H

#include "../../tools/system.h"

typedef unsigned char u8;
typedef unsigned int u32;
typedef unsigned long long u64;
typedef long long i64;

enum {
    MAX_DATAGRAM = 65535,
    MAX_NAME = 63,
    MAX_PAYLOAD = 1048576,
    MAX_FRAGMENTS = 1024,
    MIN_M = 96,
    MAX_M = 65507,
    SMALL_MAGIC = 0x4c433032,
    FRAGMENT_MAGIC = 0x4c433033
};

/* Big-endian numbers. */
u64 ref_number(const u8 *at, int width);
void ref_put(u8 *at, int width, u64 value);

/* The sum of all bytes modulo 2^32. */
u32 ref_checksum(const u8 *bytes, u64 length);

/* 1 where the bytes are a name: 1 to 63 of well-formed UTF-8 (RFC 3629), no code point below 32 and none 127. */
int ref_good_name(const u8 *name, u64 length);

/* A name of exactly that many bytes, of code points of every size, the edges of their ranges among them. */
void ref_fill_name(u8 *at, u64 length, u64 (*random)(void));

/* The bits in the form of n bytes, whether or not RFC 3629 allows it; answers n. */
u64 ref_put_form(u8 *at, u32 bits, u64 n);

/* What a datagram of good form says. A small one: size is its data length, offset 0, number 0, count 1. */
struct ref_header {
    int small;
    u32 sequence, size, offset, number, count;
    u32 name_at, name_length, data_at, data_length;
};

/* Answers 0 and fills h, or the refusal and leaves h. max_size is the limit of refusal 6. */
u32 ref_read(const u8 *d, u64 length, u64 max_size, struct ref_header *h);

/* Answers 0, the number of datagrams and the length written to out, or the refusal and writes nothing. */
u32 ref_cut(const u8 *name, u64 c, const u8 *payload, u64 p, u32 sequence, u64 m, u64 index, u8 *out, u64 room, u32 *count,
            u32 *length);

/* ---- the log's writer: 0 and how many bytes it wrote, or the refusal and nothing written */

u32 ref_log_begin(u8 *out, u64 room, u64 limit, u64 *written);
u32 ref_log_append(u8 *out, u64 room, u64 at, u64 sender, u64 tick, const u8 *d, u64 length, u64 *written);

/* ---- the log's reader: 0, or the refusal with the place as it was. There is an entry more where the place is not the log's end. */

struct ref_entry {
    u64 sender, tick, place, length;   /* of the datagram in the log */
};

/* The limits of a log's fragments: those of edition 1, or what edition 2 says. */
struct ref_limits {
    u64 payload, fragments;
};

u32 ref_log_open(const u8 *log, u64 length, u64 *at, struct ref_limits *limits);
u32 ref_log_next(const u8 *log, u64 length, u64 *at, struct ref_entry *e);

/* ---- the index of a log: 0, and its rows sorted, or the refusal */

enum { INDEXED = 4096 };

struct ref_row {
    u64 sender;
    u32 sequence;
    u64 place;   /* of the entry's first byte in the log */
};

u32 ref_index(const u8 *log, u64 length, struct ref_row *rows, u64 *count);

/* ---- the receiver */

enum { SLOTS = 8, SENDERS_KNOWN = 16, KEYS_EACH = 32, LEDGER = SLOTS * MAX_FRAGMENTS * 2 };

struct ref_key {
    u64 sender;
    u32 sequence;
};

struct ref_slot {
    int busy;
    struct ref_key key;
    u32 size, count;
    u64 opened;   /* the number of openings before this one */
    int held[MAX_FRAGMENTS];
    u8 name[MAX_NAME];
    u32 name_length;
};

/* A sender of which something was delivered, and the last of its sequences in order of delivery. */
struct ref_sender {
    u64 sender;
    u32 sequences[KEYS_EACH];
    int keys;
};

struct ref_receiver {
    u8 *store;
    u64 store_length;   /* at opening */
    u64 slot_size;
    u32 ledger[LEDGER];
    struct ref_slot slots[SLOTS];
    u64 openings;
    struct ref_sender memory[SENDERS_KNOWN];   /* in order of their latest delivery */
    int senders;
};

enum ref_kind { REF_REFUSED, REF_KEPT, REF_REPEAT, REF_DELIVERED };

struct ref_answer {
    enum ref_kind kind;
    u32 refusal;
    int in_store;      /* Delivered: the payload lies in the store, else in the datagram */
    u64 place, length;
    int emptied;       /* a slot was emptied, and this was its key */
    struct ref_key emptied_key;
    u8 name[MAX_NAME]; /* Delivered: a copy of the name */
    u32 name_length;
};

void ref_open(struct ref_receiver *r, u8 *store, u64 store_length);
struct ref_answer ref_receive(struct ref_receiver *r, u64 sender, const u8 *d, u64 length);
/* The same with the lengths of the store and the ledger that are lent: 9 where they are not those of opening. */
struct ref_answer ref_receive_lent(struct ref_receiver *r, u64 store_length, u64 ledger_length, u64 sender, const u8 *d, u64 length);
/* The same with a datagram out of a log, whose limits bind beside the slot size. */
struct ref_answer ref_receive_within(struct ref_receiver *r, const struct ref_limits *limits, u64 store_length, u64 ledger_length, u64 sender, const u8 *d,
                                     u64 length);
void ref_forget(struct ref_receiver *r, u64 sender);

/* ---- the watch, of at most 16 senders in order of first number */

enum { WATCHED = 16, MOST_LATE = 1024 };

enum ref_seen { REF_FIRST, REF_FORWARD, REF_SAME, REF_LATE, REF_RESTARTED, REF_FULL };

struct ref_watch {
    u64 used;   /* how many senders it claims */
    u64 sender[WATCHED];
    u32 last[WATCHED];
};

/* by: the missing numbers of Forward, how late of Late, the new number of Restarted, 14 of REF_FULL, else 0 */
enum ref_seen ref_watch(struct ref_watch *w, u64 sender, u32 sequence, u64 *by);

/* ---- LMCP */

enum { MAX_MESSAGE = 1048576, DEEPEST = 16, TYPES = 7, VERSIONS = 2 };

/* Answers 0 and the numbers written to the list, or the refusal. The list has room for any message within the limit. */
u32 ref_read_message(const u8 *message, u64 length, i64 *list, u64 *numbers);

/* The version and the walk of a list alone: writes the root object to `out` whatever its length, and answers 0 and that length, or the refusal
   of the walk or 28. Out has room for 15 bytes a number. */
u32 ref_write_root(const i64 *list, u64 numbers, u8 *out, u64 *length);

/* Answers 0 and the length of the message written, or the refusal. Out as above, and 12 more. */
u32 ref_write_message(const i64 *list, u64 numbers, int calculate, u8 *out, u64 *length);

/* The fields of a type of a version, a letter or two each; lmcp.c says which. */
extern const char *const ref_fields[VERSIONS + 1][TYPES + 1];

/* ---- the count of a log */

enum { MOST_ENTRIES = 4096, MOST_TILES = 256, MOST_PITS = 8192, REFUSAL_NUMBERS = 10 };

struct ref_report {
    u64 entries, kept, repeated, delivered;
    u64 refused[REFUSAL_NUMBERS];   /* under each number */
    u64 lists, tiles;
    u64 tile[MOST_TILES], pits[MOST_TILES], sure[MOST_TILES];   /* in rising tile number, the rest zero */
};

/* Answers 0 and the report, or the refusal with a report all of zeros. Store, ledger and numbers are left as the calls made by then
   left them. */
u32 ref_count(const u8 *log, u64 length, u8 *store, u64 store_length, u32 *ledger, u64 ledger_length, i64 *numbers, u64 room,
              struct ref_report *report);

/* ---- logs to count: each call makes one, in flight_log */

enum { FLIGHT_ROOM = 1 << 20 };
extern u8 flight_log[FLIGHT_ROOM];
extern u64 flight_length;

void flight_seed(u64 seed);
/* So many messages: lists of few tiles and pits in either version and others, cut, late, doubled, damaged, with strangers about. */
void flight_world(u64 messages);
/* That many lists without marks, each of another tile. */
void flight_tiles(u64 tiles);
/* One list more, of one mark: 8 numbers, or 9 in version 2. */
void flight_marked(u64 tile);
/* That many pits, in lists of at most 2,000, on two tiles. */
void flight_pits(u64 pits);
/* That many entries. */
void flight_entries(u64 entries);
/* Cuts or damages the log that was made. */
void flight_damage(void);
/* Of one message that is no list: a Ping, of two numbers. */
void flight_ping(void);
/* More entries behind those that there are. */
void flight_more(u64 entries);

#endif
