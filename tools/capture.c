/* A capture, packet by packet. */

#include "capture.h"

enum { CLASSIC_HEAD = 24, CLASSIC_PACKET = 16, LEAST_BLOCK = 12, SECTION = 0x0a0d0d0a, ORDER = 0x1a2b3c4d };
enum { BLOCK_INTERFACE = 1, BLOCK_OLD_PACKET = 2, BLOCK_SIMPLE = 3, BLOCK_PACKET = 6 };
enum { OPTION_END = 0, OPTION_RESOLUTION = 9, OPTION_OFFSET = 14, MICROSECONDS = 6, NANOSECONDS = 9 };

static const char ends_early[] = "it ends inside a packet: the capturing was cut off", broken[] = "a length in it does not fit: it is damaged";

qm_u64 big_number(const qm_byte *at, int bytes) {
    qm_u64 n = 0;
    while (bytes-- > 0) n = n << 8 | *at++;
    return n;
}

/* A number in the capture's own byte order. */
static qm_u64 number(const struct capture *c, qm_size at, int bytes) {
    const qm_byte *from = c->file.bytes + at;
    qm_u64 n = 0;
    if (c->big) return big_number(from, bytes);
    while (bytes-- > 0) n = n << 8 | from[bytes];
    return n;
}

static int ended(struct capture *c, const char *why) {
    c->why = why;
    return 0;
}

/* Milliseconds since 1970; what lies outside of 64 bits is their nearest. */
static qm_u64 tick_of(const struct interface *i, qm_u64 units) {
    int power = i->resolution & 127;
    unsigned __int128 most = ~0ull, in_second = 1;
    for (int k = 0; k < power && in_second <= most; k++) in_second *= i->resolution & 128 ? 2 : 10;
    __int128 tick = (__int128) ((unsigned __int128) units * 1000 / in_second) + (__int128) i->offset * 1000;
    return tick < 0 ? 0 : tick > (__int128) most ? ~0ull : (qm_u64) tick;
}

static int add_interface(struct capture *c, struct interface i) {
    if (c->many == c->room) {
        qm_size room = c->room ? 2 * c->room : 4;
        struct interface *wider = realloc(c->interfaces, room * sizeof *wider);
        if (!wider) return ended(c, "there is no memory for its interfaces");
        c->interfaces = wider;
        c->room = room;
    }
    c->interfaces[c->many++] = i;
    return 1;
}

static int packet_of(struct capture *c, struct packet *p, const struct interface *i, qm_u64 tick, qm_size at, qm_size length) {
    *p = (struct packet) {.link = i->link, .tick = tick, .bytes = c->file.bytes + at, .length = length};
    c->last = tick;
    return 1;
}

/* ---- classic pcap: a head, and packets after heads of 16 bytes */

static int open_classic(struct capture *c) {
    struct interface i = {.resolution = MICROSECONDS};
    if (c->file.length < CLASSIC_HEAD) return ended(c, "it ends inside its head");
    for (c->big = 0; c->big < 2; c->big++) {
        qm_u64 magic = number(c, 0, 4);
        if (magic == 0xa1b23c4d) i.resolution = NANOSECONDS;
        if (magic == 0xa1b2c3d4 || magic == 0xa1b23c4d) break;
    }
    if (c->big == 2) return ended(c, "not a capture of pcap or pcapng");
    /* the upper bits say other things than the kind */
    i.link = (unsigned) number(c, 20, 2 + 2 * !c->big) & 0xffff;
    if (c->big) i.link = (unsigned) number(c, 22, 2);
    c->at = CLASSIC_HEAD;
    return add_interface(c, i);
}

static int next_classic(struct capture *c, struct packet *p) {
    qm_size left = c->file.length - c->at, at = c->at;
    if (left == 0) return 0;
    if (left < CLASSIC_PACKET) return ended(c, ends_early);
    qm_size length = number(c, at + 8, 4);
    if (length > left - CLASSIC_PACKET) return ended(c, ends_early);
    c->at += CLASSIC_PACKET + length;
    qm_u64 parts = c->interfaces[0].resolution == NANOSECONDS ? 1000000 : 1000;
    return packet_of(c, p, &c->interfaces[0], number(c, at, 4) * 1000 + number(c, at + 4, 4) / parts, at + CLASSIC_PACKET, length);
}

/* ---- pcapng: blocks, each with its length in front and behind */

/* The options between two places. Answers whether they are whole. */
static int read_options(struct capture *c, struct interface *i, qm_size at, qm_size end) {
    while (end - at >= 4) {
        qm_u64 code = number(c, at, 2), length = number(c, at + 2, 2);
        at += 4;
        if (code == OPTION_END) return 1;
        if (length > end - at) return ended(c, broken);
        if (code == OPTION_RESOLUTION && length >= 1) i->resolution = c->file.bytes[at];
        if (code == OPTION_OFFSET && length >= 8) i->offset = (long long) number(c, at, 8);
        at += (length + 3) / 4 * 4;
        if (at > end) return ended(c, broken);
    }
    return 1;
}

static int read_section(struct capture *c, qm_size at, qm_size length) {
    c->many = 0;
    if (length < 28) return ended(c, broken);
    return number(c, at + 12, 2) == 1 ? 1 : ended(c, "a version of pcapng that is not known");
}

static int read_interface(struct capture *c, qm_size at, qm_size length) {
    struct interface i = {.resolution = MICROSECONDS};
    if (length < 20) return ended(c, broken);
    i.link = (unsigned) number(c, at + 8, 2);
    i.snap = (unsigned) number(c, at + 12, 4);
    return read_options(c, &i, at + 16, at + length - 4) && add_interface(c, i);
}

/* A packet with its time: the present form, and the old one, whose interface has two bytes. */
static int timed_packet(struct capture *c, struct packet *p, qm_size at, qm_size length, int old) {
    if (length < 32) return ended(c, broken);
    qm_u64 from = number(c, at + 8, old ? 2 : 4), bytes = number(c, at + 20, 4);
    if (from >= c->many || bytes > length - 32) return ended(c, broken);
    const struct interface *i = &c->interfaces[from];
    return packet_of(c, p, i, tick_of(i, number(c, at + 12, 4) << 32 | number(c, at + 16, 4)), at + 28, bytes);
}

/* One without a time has that of the packet before it. */
static int simple_packet(struct capture *c, struct packet *p, qm_size at, qm_size length) {
    if (length < 16 || c->many == 0) return ended(c, broken);
    const struct interface *i = &c->interfaces[0];
    qm_u64 bytes = number(c, at + 8, 4);
    if (i->snap > 0 && bytes > i->snap) bytes = i->snap;
    if (bytes > length - 16) return ended(c, broken);
    return packet_of(c, p, i, c->last, at + 12, bytes);
}

/* The length of the block at hand, or 0 where it is not whole. A section's head tells the byte order of all that follows. */
static qm_size block_length(struct capture *c, qm_size left) {
    qm_size at = c->at;
    if (left < LEAST_BLOCK) return (qm_size) ended(c, ends_early);
    if (number(c, at, 4) == SECTION) {
        c->big = big_number(c->file.bytes + at + 8, 4) == ORDER;
        if (number(c, at + 8, 4) != ORDER) return (qm_size) ended(c, broken);
    }
    qm_size length = number(c, at + 4, 4);
    if (length < LEAST_BLOCK || length % 4 != 0) return (qm_size) ended(c, broken);
    if (length > left) return (qm_size) ended(c, ends_early);
    return number(c, at + length - 4, 4) == length ? length : (qm_size) ended(c, broken);
}

static int next_block(struct capture *c, struct packet *p) {
    while (c->at < c->file.length) {
        qm_size at = c->at, length = block_length(c, c->file.length - c->at);
        if (length == 0) return 0;
        c->at += length;
        switch (number(c, at, 4)) {
        case BLOCK_PACKET: return timed_packet(c, p, at, length, 0);
        case BLOCK_OLD_PACKET: return timed_packet(c, p, at, length, 1);
        case BLOCK_SIMPLE: return simple_packet(c, p, at, length);
        case SECTION: if (!read_section(c, at, length)) return 0; break;
        case BLOCK_INTERFACE: if (!read_interface(c, at, length)) return 0; break;
        default: break;
        }
    }
    return 0;
}

int capture_open(struct capture *c, struct mapped file) {
    *c = (struct capture) {.file = file};
    c->is_new = file.length >= LEAST_BLOCK && number(c, 0, 4) == SECTION;
    if (!c->is_new) return open_classic(c);
    if (block_length(c, file.length) == 0 || !read_section(c, 0, number(c, 4, 4))) return 0;
    return 1;
}

int capture_next(struct capture *c, struct packet *p) {
    if (c->why) return 0;
    return c->is_new ? next_block(c, p) : next_classic(c, p);
}

void capture_close(struct capture *c) {
    free(c->interfaces);
    c->interfaces = 0;
}
