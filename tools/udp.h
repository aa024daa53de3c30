/* The UDP datagrams of captured packets: out of Ethernet, with its tags, Linux cooked captures or bare IP; IPv4 and IPv6; pieces of IP datagrams put together. */

#ifndef QM_UDP_H
#define QM_UDP_H

#include "capture.h"

/* Where a datagram is from. */
struct source {
    qm_byte address[16];
    unsigned length, port;   /* 4 or 16 bytes of the address */
};

struct udp {
    struct source from;
    unsigned to;             /* the port */
    const qm_byte *bytes;    /* in the capture, or where pieces were put together: until the next packet */
    qm_size length;
};

enum {
    UDP_WHOLE,     /* a datagram */
    UDP_OTHER,     /* a packet of something else */
    UDP_PIECE,     /* a piece of an IP datagram that is not whole yet */
    UDP_CUT,       /* of which not all bytes were captured */
    UDP_BROKEN     /* whose lengths do not fit */
};

/* What a packet is. A piece that completes its datagram is that datagram. */
int udp_of(const struct packet *p, struct udp *u);
/* How many pieces never became whole, up to now and with those that wait. */
qm_u64 udp_pieces_left(void);

#endif
