/* Makes hostile input for the programs, seeded, and what each program must write for it. */

#ifndef TWIN_H
#define TWIN_H

#include "../reference/random.h"

/* Where a stream goes: the program's input, and what it must write. */
struct stream {
    void *in, *expected;
    u64 number;   /* of the datagram, message or list that came last */
};

/* How often each answer is expected over all streams of a program. An answer that is never met is not tested. */
enum { KINDS = 64, FIRST_KIND = 40 };
extern u64 met[KINDS];   /* below 40 the refusal of that number, from 40 the kinds of the program */

/* One stream of a program, by its place among that program's streams. */
void replay_stream(struct stream *s, int which);
void gaps_stream(struct stream *s, int which);
void list_stream(struct stream *s, int which);
void bytes_stream(struct stream *s, int which);
void count_stream(struct stream *s, int which);

/* A receiver and a watch as new, for replay or for gaps. */
void begin_replay(void);
void begin_gaps(void);

/* One input of a program: a datagram, a message, or a list as the checksum byte and its numbers. */
void give_datagram(struct stream *s, const u8 *d, u64 length);
void give_message(struct stream *s, const u8 *bytes, u64 length);
void give_list(struct stream *s, const u8 *bytes, u64 length);

/* The cases that the paper gives; the last has no program. */
struct paper_case {
    const char *program, *input, *output;   /* the input in hex, a semicolon after each item */
};
extern const struct paper_case paper_cases[];

/* Reads the item at a place of an input. Answers the place behind it, or null where there was none. */
const char *paper_item(const char *at, u8 *bytes, u64 *length);

/* Ends the stream: in some streams inside the next length or body, else whole. A length has `width` bytes. */
void end_stream(struct stream *s, int width, int cut);

#endif
