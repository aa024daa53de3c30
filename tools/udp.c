/* The UDP datagrams of captured packets. */

#include "udp.h"
#include "pieces.h"

/* Kinds of a first header, as captures number them. */
enum { ETHERNET = 1, RAW_OLD = 12, RAW_OPENBSD = 14, RAW = 101, COOKED = 113, IPV4 = 228, IPV6 = 229, COOKED_2 = 276 };
/* What stands after a link's header, and after an IP header. */
enum { TYPE_IPV4 = 0x0800, TYPE_IPV6 = 0x86dd, TYPE_TAG = 0x8100, TYPE_OUTER_TAG = 0x88a8, TYPE_OLD_TAG = 0x9100 };
enum { NEXT_HOP = 0, NEXT_UDP = 17, NEXT_ROUTING = 43, NEXT_FRAGMENT = 44, NEXT_AUTHENTICATION = 51, NEXT_DESTINATION = 60 };

/* What is left of a packet to be read. */
struct rest {
    const qm_byte *bytes;
    qm_size length;
};

static int skip(struct rest *r, qm_size bytes) {
    if (r->length < bytes) return 0;
    r->bytes += bytes;
    r->length -= bytes;
    return 1;
}

/* ---- the link's header: answers what stands after it, or 0 */

static unsigned type_after(struct rest *r, qm_size header, qm_size type_at) {
    if (r->length < header) return 0;
    unsigned type = (unsigned) big_number(r->bytes + type_at, 2);
    skip(r, header);
    while ((type == TYPE_TAG || type == TYPE_OUTER_TAG || type == TYPE_OLD_TAG) && r->length >= 4) {
        type = (unsigned) big_number(r->bytes + 2, 2);
        skip(r, 4);
    }
    return type;
}

static unsigned link_type(const struct packet *p, struct rest *r) {
    switch (p->link) {
    case ETHERNET: return type_after(r, 14, 12);
    case COOKED: return type_after(r, 16, 14);
    case COOKED_2: return type_after(r, 20, 0);
    case RAW: case RAW_OLD: case RAW_OPENBSD: return r->length == 0 ? 0 : r->bytes[0] >> 4 == 4 ? TYPE_IPV4 : r->bytes[0] >> 4 == 6 ? TYPE_IPV6 : 0;
    case IPV4: return TYPE_IPV4;
    case IPV6: return TYPE_IPV6;
    default: return 0;
    }
}

/* ---- UDP: the bytes are those of a whole IP datagram */

static int read_udp(struct rest r, struct udp *u) {
    if (r.length < 8) return UDP_BROKEN;
    qm_size length = big_number(r.bytes + 4, 2);
    if (length < 8 || length > r.length) return UDP_BROKEN;
    u->from.port = (unsigned) big_number(r.bytes, 2);
    u->to = (unsigned) big_number(r.bytes + 2, 2);
    u->bytes = r.bytes + 8;
    u->length = length - 8;
    return UDP_WHOLE;
}

static int take_piece(const struct piece *p, struct udp *u) {
    struct rest whole;
    whole.length = pieces_take(p, &whole.bytes);
    return whole.length == 0 ? UDP_PIECE : read_udp(whole, u);
}

/* ---- IP */

static int read_four(struct rest r, qm_u64 tick, struct udp *u) {
    if (r.length < 20) return UDP_CUT;
    qm_size header = 4u * (r.bytes[0] & 15), whole = big_number(r.bytes + 2, 2);
    if (r.bytes[0] >> 4 != 4 || header < 20 || whole < header) return UDP_BROKEN;
    if (r.bytes[9] != NEXT_UDP) return UDP_OTHER;
    if (r.length < whole) return UDP_CUT;
    const qm_byte *ip = r.bytes;
    struct rest inside = {ip + header, whole - header};
    unsigned place = (unsigned) big_number(ip + 6, 2);
    u->from.length = 4;
    memcpy(u->from.address, ip + 12, 4);
    if ((place & 0x3fff) == 0) return read_udp(inside, u);
    struct piece p = {.key = {.number = big_number(ip + 4, 2), .edition = 4}, .tick = tick, .bytes = inside.bytes, .offset = 8u * (place & 0x1fff),
                      .length = inside.length, .is_last = (place & 0x2000) == 0};
    memcpy(p.key.from, ip + 12, 4);
    memcpy(p.key.to, ip + 16, 4);
    return take_piece(&p, u);
}

/* The headers between those of IPv6 and of UDP. Answers the last one's number; `at` is what comes after, and where a fragment's header is met it stops there. */
static int read_extensions(struct rest *at, int next) {
    while (next == NEXT_HOP || next == NEXT_ROUTING || next == NEXT_DESTINATION || next == NEXT_AUTHENTICATION) {
        if (at->length < 8) return -1;
        qm_size length = next == NEXT_AUTHENTICATION ? 4u * (at->bytes[1] + 2u) : 8u * (at->bytes[1] + 1u);
        next = at->bytes[0];
        if (!skip(at, length)) return -1;
    }
    return next;
}

static int read_six(struct rest r, qm_u64 tick, struct udp *u) {
    if (r.length < 40) return UDP_CUT;
    const qm_byte *ip = r.bytes;
    if (ip[0] >> 4 != 6) return UDP_BROKEN;
    struct rest inside = {ip + 40, big_number(ip + 4, 2)};
    if (r.length - 40 < inside.length) return UDP_CUT;
    int next = read_extensions(&inside, ip[6]);
    if (next < 0) return UDP_BROKEN;
    u->from.length = 16;
    memcpy(u->from.address, ip + 8, 16);
    if (next == NEXT_UDP) return read_udp(inside, u);
    if (next != NEXT_FRAGMENT) return UDP_OTHER;
    if (inside.length < 8) return UDP_BROKEN;
    const qm_byte *head = inside.bytes;
    /* only of a piece that says so itself is it known that UDP is in it */
    if (head[0] != NEXT_UDP) return UDP_OTHER;
    unsigned place = (unsigned) big_number(head + 2, 2);
    struct piece p = {.key = {.number = big_number(head + 4, 4), .edition = 6}, .tick = tick, .bytes = head + 8, .offset = place & 0xfff8,
                      .length = inside.length - 8, .is_last = (place & 1) == 0};
    memcpy(p.key.from, ip + 8, 16);
    memcpy(p.key.to, ip + 24, 16);
    return take_piece(&p, u);
}

int udp_of(const struct packet *p, struct udp *u) {
    struct rest r = {p->bytes, p->length};
    switch (link_type(p, &r)) {
    case TYPE_IPV4: return read_four(r, p->tick, u);
    case TYPE_IPV6: return read_six(r, p->tick, u);
    default: return UDP_OTHER;
    }
}

qm_u64 udp_pieces_left(void) {
    return pieces_left();
}
