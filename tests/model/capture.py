"""A capture's UDP datagrams in plain Python, written from the formats' own papers: pcap and pcapng (draft-ietf-opsawg-pcap, -pcapng), RFC 791, 8200 and 768, Linux
cooked captures (LINKTYPE_LINUX_SLL, SLL2). What those leave open is decided in docs/DECISIONS.md."""
from struct import unpack_from

MOST_OPEN, LONGEST = 64, 30000  # IP datagrams that wait for pieces at once, and for how many milliseconds
CUT, BROKEN = "ends inside a packet", "does not fit"


class Ended(Exception):
    pass


# ---- packets of a file: (link, tick, bytes)

def packets(b):
    """The packets, and why they ended before the file's end, or None; of what is no capture (None, why)."""
    out = []
    try:
        if len(b) >= 12 and b[:4] == b"\n\r\r\n":
            section_head(b, 0)
            got = newer(b)
        else:
            got = classic(b)
        for one in got:
            out.append(one)
    except Ended as why:
        return (None if str(why).startswith("not ") else out), str(why)
    return out, None


def classic(b):
    if len(b) < 24:
        raise Ended("not whole: inside its head")
    kinds = {b"\xd4\xc3\xb2\xa1": ("<", 10**3), b"\xa1\xb2\xc3\xd4": (">", 10**3), b"\x4d\x3c\xb2\xa1": ("<", 10**6), b"\xa1\xb2\x3c\x4d": (">", 10**6)}
    if b[:4] not in kinds:
        raise Ended("not a capture")
    order, parts = kinds[b[:4]]
    link, = unpack_from(order + "I", b, 20)
    return classic_packets(b, order, parts, link & 0xffff)


def classic_packets(b, order, parts, link):
    at = 24
    while at < len(b):
        if len(b) - at < 16:
            raise Ended(CUT)
        seconds, rest, length, _ = unpack_from(order + "4I", b, at)
        if length > len(b) - at - 16:
            raise Ended(CUT)
        yield link, seconds * 1000 + rest // parts, b[at + 16:at + 16 + length]
        at += 16 + length


def block_at(b, at, order):
    if len(b) - at < 12:
        raise Ended(CUT)
    if b[at:at + 4] == b"\n\r\r\n":
        if b[at + 8:at + 12] not in (b"\x1a\x2b\x3c\x4d", b"\x4d\x3c\x2b\x1a"):
            raise Ended(BROKEN)
        order = ">" if b[at + 8] == 0x1a else "<"
    length, = unpack_from(order + "I", b, at + 4)
    if length < 12 or length % 4:
        raise Ended(BROKEN)
    if length > len(b) - at:
        raise Ended(CUT)
    if unpack_from(order + "I", b, at + length - 4)[0] != length:
        raise Ended(BROKEN)
    return order, length


def section_head(b, at):
    """A file that does not begin with a good section is no capture."""
    try:
        order, length = block_at(b, at, "<")
        good = length >= 28 and unpack_from(order + "H", b, at + 12)[0] == 1
    except Ended:
        good = False
    if not good:
        raise Ended("not a good section")


def interface(b, order, at, end):
    link, _, snap = unpack_from(order + "HHI", b, at + 8)
    resolution, offset, at = 6, 0, at + 16
    while end - at >= 4:
        code, length = unpack_from(order + "HH", b, at)
        at += 4
        if code == 0:
            break
        padded = (length + 3) // 4 * 4
        if padded > end - at:
            raise Ended(BROKEN)
        if code == 9 and length >= 1:
            resolution = b[at]
        if code == 14 and length >= 8:
            offset, = unpack_from(order + "q", b, at)
        at += padded
    in_second = 1
    for _ in range(resolution & 127):
        in_second *= 2 if resolution & 128 else 10
        if in_second > 2**64 - 1:
            break
    return link, snap, in_second, offset


def newer(b):
    at, order, interfaces, last = 0, "<", [], 0
    while at < len(b):
        order, length = block_at(b, at, order)
        kind, = unpack_from(order + "I", b, at)
        end = at + length
        if kind == 0x0a0d0d0a:
            interfaces = []
            if length < 28:
                raise Ended(BROKEN)
            if unpack_from(order + "H", b, at + 12)[0] != 1:
                raise Ended("a version")
        elif kind == 1:
            if length < 20:
                raise Ended(BROKEN)
            interfaces.append(interface(b, order, at, end - 4))
        elif kind in (2, 6):
            if length < 32:
                raise Ended(BROKEN)
            which, high, low, bytes_ = unpack_from(order + ("HxxIII" if kind == 2 else "4I"), b, at + 8)
            if which >= len(interfaces) or bytes_ > length - 32:
                raise Ended(BROKEN)
            link, _, in_second, offset = interfaces[which]
            last = min(max((high << 32 | low) * 1000 // in_second + offset * 1000, 0), 2**64 - 1)
            yield link, last, b[at + 28:at + 28 + bytes_]
        elif kind == 3:
            if length < 16 or not interfaces:
                raise Ended(BROKEN)
            bytes_, = unpack_from(order + "I", b, at + 8)
            link, snap, _, _ = interfaces[0]
            bytes_ = min(bytes_, snap) if snap else bytes_
            if bytes_ > length - 16:
                raise Ended(BROKEN)
            yield link, last, b[at + 12:at + 12 + bytes_]
        at = end


# ---- datagrams of packets

def inside(link, p):
    """The edition of IP and its bytes, or None."""
    heads = {1: (14, 12), 113: (16, 14), 276: (20, 0)}
    if link in heads:
        head, at = heads[link]
        if len(p) < head:
            return None
        kind, p = int.from_bytes(p[at:at + 2], "big"), p[head:]
        while kind in (0x8100, 0x88a8, 0x9100) and len(p) >= 4:
            kind, p = int.from_bytes(p[2:4], "big"), p[4:]
        return {0x0800: (4, p), 0x86dd: (6, p)}.get(kind)
    if link in (12, 14, 101):
        return (p[0] >> 4, p) if p and p[0] >> 4 in (4, 6) else None
    return {228: (4, p), 229: (6, p)}.get(link)


class Pieces:
    def __init__(self):
        self.open, self.lost = {}, 0  # in order of opening: {key: [tick, {offset: bytes}, length or None, pieces]}

    def give_up(self, key):
        self.lost += self.open.pop(key)[3]

    def left(self):
        return self.lost + sum(x[3] for x in self.open.values())

    def take(self, key, tick, offset, p, is_last):
        for old in [k for k, x in self.open.items() if tick - x[0] > LONGEST]:
            self.give_up(old)
        if key not in self.open:
            if len(self.open) == MOST_OPEN:
                self.give_up(next(iter(self.open)))
            self.open[key] = [tick, {}, None, 0]
        x = self.open[key]
        x[3] += 1
        end = offset + len(p)
        units = range(offset // 8, (end + 7) // 8)
        have = {u for o, q in x[1].items() for u in range(o // 8, (o + len(q) + 7) // 8)}
        good = p and end <= 65535 and (is_last or len(p) % 8 == 0) and (x[2] is None or end <= x[2]) and (not is_last or x[2] in (None, end))
        good = good and not (is_last and any(u >= (end + 7) // 8 for u in have))
        there = [u for u in units if u in have]
        if good and there:
            # all of it is there, with the same bytes: a copy
            flat = bytearray(65536 + 8)
            for o, q in x[1].items():
                flat[o:o + len(q)] = q
            good = len(there) == len(units) and flat[offset:end] == p
        if not good:
            self.give_up(key)
            return None
        if not there:
            x[1][offset] = p
        x[2] = end if is_last else x[2]
        if x[2] is None or sum((len(q) + 7) // 8 for q in x[1].values()) < (x[2] + 7) // 8:
            return None
        del self.open[key]
        return b"".join(q for _, q in sorted(x[1].items()))[:x[2]]


def udp(p):
    """Ports and bytes, or what it is instead."""
    if len(p) < 8:
        return "broken"
    source, to, length = unpack_from(">HHH", p)
    if not 8 <= length <= len(p):
        return "broken"
    return source, to, p[8:length]


def datagram(link, tick, p, pieces):
    """(address, source port, port, bytes), or what the packet is instead."""
    found = inside(link, p)
    if not found:
        return "other"
    edition, p = found
    return (four if edition == 4 else six)(p, tick, pieces)


def joined(address, whole):
    got = "pieces" if whole is None else udp(whole)
    return got if isinstance(got, str) else (address, *got)


def four(p, tick, pieces):
    if len(p) < 20:
        return "cut"
    head, whole = (p[0] & 15) * 4, int.from_bytes(p[2:4], "big")
    if p[0] >> 4 != 4 or head < 20 or whole < head:
        return "broken"
    if p[9] != 17:
        return "other"
    if len(p) < whole:
        return "cut"
    place, body = int.from_bytes(p[6:8], "big"), p[head:whole]
    if place & 0x3fff == 0:
        return joined(p[12:16], body)
    return joined(p[12:16], pieces.take((4, p[12:16], p[16:20], p[4:6]), tick, (place & 0x1fff) * 8, body, not place & 0x2000))


def six(p, tick, pieces):
    if len(p) < 40:
        return "cut"
    if p[0] >> 4 != 6:
        return "broken"
    length, kind = int.from_bytes(p[4:6], "big"), p[6]
    if len(p) - 40 < length:
        return "cut"
    body, source = p[40:40 + length], p[8:24]
    while kind in (0, 43, 51, 60):
        if len(body) < 8:
            return "broken"
        n = (body[1] + 2) * 4 if kind == 51 else (body[1] + 1) * 8
        if len(body) < n:
            return "broken"
        kind, body = body[0], body[n:]
    if kind == 17:
        return joined(source, body)
    if kind != 44:
        return "other"
    if len(body) < 8:
        return "broken"
    if body[0] != 17:
        return "other"
    place = int.from_bytes(body[2:4], "big")
    return joined(source, pieces.take((6, source, p[24:40], body[4:8]), tick, place & 0xfff8, body[8:], not place & 1))


# ---- what qm import makes of it

def sender(address, port):
    if len(address) == 4:
        return int.from_bytes(address, "big") << 16 | port
    h = 0xcbf29ce484222325
    for x in address + port.to_bytes(2, "big"):
        h = (h ^ x) * 0x100000001b3 % 2**64
    return h | 2**63


def import_of(b, port=7667):
    """The lines, the entries, and why the capture ended early; of what is no capture (None, None, why)."""
    got, why = packets(b)
    if got is None:
        return None, None, why
    pieces, entries, of, sources = Pieces(), [], {"other": 0, "cut": 0, "broken": 0, "pieces": 0}, {}
    for link, tick, p in got:
        d = datagram(link, tick, p, pieces)
        if not isinstance(d, str) and d[2] != port:
            d = "other"
        if isinstance(d, str):
            of[d] += 1
            continue
        entries.append((sender(d[0], d[1]), tick, d[3]))
        sources.setdefault(d[0] + d[1].to_bytes(2, "big"), []).append((tick, len(d[3])))
    out = [f"packets {len(got)}", f"imported {len(entries)}", f"other {of['other']}", f"pieces {pieces.left()}", f"cut {of['cut']}", f"broken {of['broken']}"]
    for key, rows in sorted(sources.items()):
        address, from_port = key[:-2], int.from_bytes(key[-2:], "big")
        words = ".".join(map(str, address)) if len(address) == 4 else ":".join(f"{int.from_bytes(address[i:i + 2], 'big'):x}" for i in range(0, 16, 2))
        out.append(f"sender {sender(address, from_port)} datagrams {len(rows)} bytes {sum(n for _, n in rows)} first {rows[0][0]} last {rows[-1][0]} port {from_port} address {words}")
    return out, entries, why
