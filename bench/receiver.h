// What the plain receiver of plain.c and the plain count share.
#ifndef BENCH_RECEIVER_H
#define BENCH_RECEIVER_H

#include "../tools/system.h"

typedef unsigned char u8;
typedef unsigned int u32;
typedef unsigned long u64;

enum { SLOTS = 8, SENDERS = 16, KEYS = 32, MAX_NAME = 63, MAX_COUNT = 1024, MAX_SIZE = 1048576, MAX_DATAGRAM = 65535, LEDGER = 2 * SLOTS * MAX_COUNT };

enum { KEPT, REPEAT, DELIVERED, REFUSED };
enum { IN_DATAGRAM = 1, IN_STORE = 2 };

// The answer to a datagram. What does not belong to an answer is zero.
struct outcome {
    u64 answer;
    u64 number; // of the refusal
    u64 place;
    u64 at;
    u64 length;
    u64 emptied;
    u64 sender;
    u64 sequence;
    u8 name[MAX_NAME];
};

// ---- the plain receiver

struct slot {
    u64 sender;
    u32 sequence;
    u32 size;
    u32 count; // 0: free
    u32 turn;  // 0 is the one opened longest ago
    u64 held[MAX_COUNT / 64];
    u8 name[MAX_NAME];
};

// The last keys of a sender, the oldest first, and when the latest of them was delivered.
struct known {
    u64 sender;
    u64 used;
    u64 latest;
    u32 sequences[KEYS];
};

struct plain {
    u64 store_length;
    u64 room; // of a slot
    struct slot slots[SLOTS];
    u64 deliveries;
    struct known memory[SENDERS];
};

void plain_open(struct plain *r, u64 store_length);
void plain_receive(struct plain *r, u8 *store, u64 store_length, u32 *ledger, u64 ledger_length, u64 sender, const u8 *d,
                   u64 length, struct outcome *out);

#endif
