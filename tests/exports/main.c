/* Calls the exports for acknowledge blocks, survey messages and the gauge's packets, as standard input says, and prints what came of each call. Numbers are little-
   endian, of 64 bits. A call is its number below, then its arguments in the header's order: a number as it is, a list as how many elements it has and its
   bytes. What comes back is the answer, whether all canaries stand, and each list that may be written, as it is then. */

#include "../../include/quartzmitten.h"
#include "../host/lent.h"

enum { LISTS = 4, ROOM = 1 << 21 };

static struct region lent[LISTS];
static u64 many[LISTS];
static u8 *list[LISTS];
static int turn;

/* Whether there was as much to read. */
static int take(void *to, u64 length) { return fread(to, 1, length, stdin) == length; }

static u64 number(void) {
    u64 n = 0;
    if (!take(&n, sizeof n)) exit(2);
    return n;
}

/* The next list, of elements of so many bytes; every other one ends at pages that nobody may touch. */
static void lend(int i, u64 width) {
    many[i] = number();
    list[i] = region_lend(&lent[i], many[i] * width, turn++ % 2);
    if (!take(list[i], many[i] * width)) exit(2);
}

static void say(const void *from, u64 length) {
    if (fwrite(from, 1, length, stdout) != length) exit(2);
}

static void answered(u64 answer) {
    u64 whole = 1;
    for (int i = 0; i < LISTS; i++) whole &= (u64) region_whole(&lent[i]);
    say(&answer, sizeof answer);
    say(&whole, sizeof whole);
}

static void acks_ask(void) {
    lend(0, 1);
    u64 n = number();
    lend(1, 8);
    answered(qm_acks_ask(list[0], many[0], n, (qm_u64 *) list[1], many[1]));
    say(list[1], many[1] * 8);
}

static void acks_write(void) {
    lend(0, 8);
    lend(1, 1);
    lend(2, 8);
    answered(qm_acks_write((const qm_u64 *) list[0], many[0], list[1], many[1], (qm_u64 *) list[2], many[2]));
    say(list[1], many[1]);
    say(list[2], many[2] * 8);
}

static void write_message(void) {
    lend(0, 8);
    u64 sum = number();
    lend(1, 1);
    lend(2, 8);
    answered(qm_write_message((const qm_i64 *) list[0], many[0], (qm_u32) sum, list[1], many[1], (qm_u64 *) list[2], many[2]));
    say(list[1], many[1]);
    say(list[2], many[2] * 8);
}

static void moss_read(void) {
    lend(0, 1);
    lend(1, 8);
    answered(qm_moss_read(list[0], many[0], (qm_u64 *) list[1], many[1]));
    say(list[1], many[1] * 8);
}

static void moss_message(void) {
    lend(0, 1);
    u64 n = number();
    lend(1, 8);
    answered(qm_moss_message(list[0], many[0], n, (qm_u64 *) list[1], many[1]));
    say(list[1], many[1] * 8);
}

static void moss_write(void) {
    lend(0, 1);
    u64 sequence = number(), kind = number();
    lend(1, 1);
    lend(2, 1);
    lend(3, 8);
    answered(qm_moss_write(list[0], many[0], (qm_u32) sequence, (qm_byte) kind, list[1], many[1], list[2], many[2], (qm_u64 *) list[3], many[3]));
    say(list[2], many[2]);
    say(list[3], many[3] * 8);
}

static void gauge_see(void) {
    lend(0, 8);
    lend(1, 1);
    answered(qm_gauge_see((qm_u64 *) list[0], many[0], list[1], many[1]));
    say(list[0], many[0] * 8);
}

int main(void) {
    static void (*const calls[])(void) = {acks_ask, acks_write, write_message, moss_read, moss_message, moss_write, gauge_see};
    for (int i = 0; i < LISTS; i++) {
        region_take(&lent[i], ROOM);
        region_lend(&lent[i], 0, 0);
    }
    for (u64 call; take(&call, sizeof call);) {
        if (call >= sizeof calls / sizeof *calls) return 2;
        calls[call]();
    }
    return fflush(stdout) == 0 ? 0 : 2;
}
