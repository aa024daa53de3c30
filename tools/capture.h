/* A capture as tcpdump and its like write them, classic pcap or pcapng, in either byte order: packet by packet. The file may be anybody's: no length in it is
   believed before it was compared with what is there. */

#ifndef QM_CAPTURE_H
#define QM_CAPTURE_H

#include "qm.h"

struct packet {
    unsigned link;           /* the kind of its first header, as the capture numbers them */
    qm_u64 tick;             /* when it came, in milliseconds since 1970 */
    const qm_byte *bytes;
    qm_size length;          /* how many bytes of it were captured */
};

/* Where packets of a pcapng capture come from: the kind of their first header, and what their times are counted in. */
struct interface {
    unsigned link, snap;
    int resolution;          /* the option's byte: 10^-n seconds, or with its top bit 2^-n */
    long long offset;        /* seconds that are added */
};

struct capture {
    struct mapped file;
    qm_size at;              /* where the next packet, or block, begins */
    int is_new;              /* pcapng */
    int big;                 /* numbers are big-endian */
    struct interface *interfaces;   /* of classic pcap one */
    qm_size many, room;
    const char *why;         /* why it ended before the file's end, or 0 */
    qm_u64 last;             /* the tick of the packet before, for one that has none */
};

/* Whether it is a capture that is known; else `why` says why not. capture_close takes it in either case. */
int capture_open(struct capture *c, struct mapped file);
/* Whether there is one more packet, and which. */
int capture_next(struct capture *c, struct packet *p);
void capture_close(struct capture *c);

/* A big-endian number of so many bytes. */
qm_u64 big_number(const qm_byte *at, int bytes);

#endif
