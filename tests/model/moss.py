"""MossUDP packets of source document 002 and the gauge of document 02, written from the papers alone, in plain Python, and the lines of the
programs gauge and gauge_bytes."""


def packet(session, sequence, kind, body, length=None):
    size = 19 + len(body) if length is None else length
    return size.to_bytes(4, "big") + session + sequence.to_bytes(4, "big") + kind + body


def block(message):
    return len(message).to_bytes(2, "big") + message


def blocks_of(body):
    """The messages of blocks that fill the body exactly, or None."""
    messages, at = [], 0
    while at < len(body):
        size = int.from_bytes(body[at:at + 2], "big")
        if len(body) - at < 2 or len(body) - at - 2 < size:
            return None
        messages.append(body[at + 2:at + 2 + size])
        at += 2 + size
    return messages


def body_of(kind, body):
    if kind == b"U":
        return blocks_of(body)
    return [] if not body else None


def read(b):
    """Session, sequence, type and messages, or the number of refusal."""
    if len(b) < 19:
        return 50
    if int.from_bytes(b[:4], "big") != len(b) or len(b) > 65535:
        return 51
    if b[18:19] not in (b"U", b"H", b"E"):
        return 52
    messages = body_of(b[18:19], b[19:])
    return 53 if messages is None else (b[4:14], int.from_bytes(b[14:18], "big"), b[18:19], messages)


def write(session, sequence, kind, body):
    """A packet, or the number of refusal."""
    if 19 + len(body) > 65535:
        return 51
    if kind not in (b"U", b"H", b"E"):
        return 52
    return 53 if body_of(kind, body) is None else packet(session, sequence, kind, body)


class Gauge:
    """One session and the number of its last message."""

    def __init__(self):
        self.session = self.last = None

    def hear(self, session, sequence, count):
        d = None if session != self.session else (sequence - self.last) % 2**32
        if d is not None and d >= 2**31:
            if 2**32 - d <= MOST_LATE:
                return f"late {2**32 - d}"
            answer = f"restarted {sequence}"
        elif d == 0:
            return "same"
        else:
            answer = "first" if d is None else f"forward {d - 1}"
        self.session, self.last = session, (sequence + count - 1) % 2**32
        return answer


# Late by as much stays Late; by more it is a restart (L5)
MOST_LATE = 1024


def records(stream, head):
    """Whole records after lengths of so many bytes, and whether the stream ends inside one."""
    found, at = [], 0
    while at < len(stream):
        size = int.from_bytes(stream[at:at + head], "big")
        if len(stream) - at < head or len(stream) - at - head < size:
            return found, "cut"
        found.append(stream[at + head:at + head + size])
        at += head + size
    return found, "end"


def gauge(stream):
    """What the program gauge writes for these bytes."""
    g, lines = Gauge(), []
    packets, last = records(stream, 2)
    for i, b in enumerate(packets, 1):
        r = read(b)
        if isinstance(r, int):
            lines.append(f"{i} refused {r}")
            continue
        session, sequence, kind, messages = r
        line = f"{i} {kind.decode()} {g.hear(session, sequence, len(messages))}"
        if kind == b"U":
            line += " messages" + "".join(f" {len(m)}" for m in messages)
        lines.append(line)
    return "\n".join(lines + [f"{last} {len(packets)}"]) + "\n"


def gauge_bytes(stream):
    """What the program gauge_bytes writes for these bytes."""
    lines = []
    found, last = records(stream, 4)
    for i, b in enumerate(found, 1):
        r = 50 if len(b) < 15 else write(b[:10], int.from_bytes(b[10:14], "big"), b[14:15], b[15:])
        lines.append(f"{i} refused {r}" if isinstance(r, int) else f"{i} bytes {r.hex()}")
    return "\n".join(lines + [f"{last} {len(found)}"]) + "\n"


# ---- vectors

ONE, TWO = b"GAUGE00001", b"GAUGE00002"


def stream_of(items, head):
    return b"".join(len(b).to_bytes(head, "big") + b for b in items)


def sample():
    """A dropped packet, a heartbeat that tells of it, the end of the session, and a new session."""
    u = lambda s, q, *ms: packet(s, q, b"U", b"".join(map(block, ms)))  # noqa: E731
    tide = lambda i: b"tide %d cm" % (200 + 3 * i)  # noqa: E731
    sent = [u(ONE, 1, tide(0), b"", tide(1)), u(ONE, 4, tide(2)), packet(ONE, 5, b"H", b""), u(ONE, 5, tide(3), tide(4)), u(ONE, 7, tide(5))]
    sent += [packet(ONE, 8, b"H", b""), u(ONE, 8, tide(6)), packet(ONE, 9, b"E", b""), u(TWO, 1, tide(7), tide(8)), packet(TWO, 3, b"H", b"")]
    return sent[:4] + sent[5:]


def packets():
    """Refusals in order, blocks that run past the end, the wrap, late and restarted, long packets."""
    u = lambda q, *ms: packet(ONE, q, b"U", b"".join(map(block, ms)))  # noqa: E731
    d = sample()
    good = u(3, b"abc", b"")
    d += [b"", good[:18], packet(ONE, 3, b"H", b""), packet(ONE, 3, b"H", b"", 20), packet(ONE, 3, b"u", b"", 18), packet(ONE, 3, b"u", b"")]
    d += [packet(ONE, 3, b"U", b"\0"), packet(ONE, 3, b"U", b"\0\2x"), packet(ONE, 3, b"U", b"\0\0x"), packet(ONE, 3, b"U", b"\xff\xffx"), packet(ONE, 3, b"H", b"\0\0")]
    d += [packet(ONE, 3, b"E", b"\0\0"), packet(ONE, 3, b"h", b"\0\0"), good, good, u(4, b""), u(5), u(5, b"x"), u(0xFFFFFFFE, b"a", b"b", b"c"), u(1), u(2, b"d")]
    d += [u(3000, b"x"), u(1976, b"x"), u(1975, b"x"), u(1976, b"x"), packet(ONE, 951, b"H", b""), packet(ONE, 952, b"H", b"")]
    d += [u(2**31 + 1976, b""), u(2**31 + 1975, b""), u(10, bytes(65514)), u(11, *[b""] * 300), packet(TWO, 7, b"U", bytes(4000)), packet(ONE, 9, b"E", b"")]
    return d


def parts():
    """Records of gauge_bytes: short ones, each refusal, both sides of the longest."""
    r = lambda q, k, body=b"": ONE + q.to_bytes(4, "big") + k + body  # noqa: E731
    d = [b"", r(1, b"")[:14], r(1, b"U"), r(1, b"H"), r(2**32 - 1, b"E"), r(1, b"u"), r(1, b"H", b"\0\0"), r(1, b"E", b"x"), r(1, b"U", block(b"abc") + block(b""))]
    d += [r(1, b"U", b"\0"), r(1, b"U", b"\0\1"), r(1, b"U", b"\0\0\0"), r(1, b"u", b"\0"), r(7, b"U", block(bytes(65514))), r(7, b"u", bytes(65517)), r(7, b"U", bytes(200000)), r(8, b"U")]
    return d


def single_packets():
    """What one byte or one count alone tells: each byte of the length field and of the session, small letters, E and H between others of their session,
    a first number of 0, Same that does not move, 2^31 ahead and one less; and of two refusals that could be given the first."""
    u = lambda s, q, *ms: packet(s, q, b"U", b"".join(map(block, ms)))  # noqa: E731
    d = [packet(ONE, 3, b"H", b"", 19 ^ 1 << k) for k in (0, 8, 16, 24, 31)] + [packet(ONE, 3, b"U", b"\0", 19), packet(ONE, 3, b"H", b"\0\0", 19), packet(ONE, 3, b"x", b"", 20)[:18]]
    d += [packet(ONE, 3, k, b"") for k in (b"u", b"h", b"e", b"\0", b"V", b"\xd5")]
    # the session is all ten bytes, each by itself, and any bytes
    d += [u(ONE, 100, b"x")] + [u(bytes(c ^ (k <= i) for k, c in enumerate(ONE)), 101 + i, b"x") for i in range(10)] + [u(bytes(10), 112, b"x"), u(b"\xff" * 10, 113, b"x")]
    # E ends nothing and has no messages; a heartbeat of number 0 comes before message 0
    d += [u(ONE, 5, b"a", b"b"), packet(ONE, 7, b"E", b""), u(ONE, 7, b"c"), packet(ONE, 8, b"E", b""), packet(ONE, 8, b"H", b""), packet(ONE, 8, b"E", b""), u(ONE, 8, b"d")]
    d += [packet(TWO, 0, b"H", b""), u(TWO, 0, b"a"), packet(ONE, 0, b"E", b""), u(ONE, 0, b"a"), u(TWO, 0), u(TWO, 0, b"a")]
    # Same and Late do not move it, whatever they carry; Restarted does, by its own count
    d += [u(TWO, 0, b"x", b"y", b"z"), u(TWO, 1, b"x"), u(TWO, 0, b"x", b"y", b"z"), packet(TWO, 1, b"H", b""), u(TWO, 2, b"x"), u(TWO, 2 + 2**31, b"a", b"b", b"c"), u(TWO, 5 + 2**31, b"d")]
    d += [u(ONE, 1, b"x"), u(ONE, 2**31, b"x"), u(ONE, 2**31 + 1), u(ONE, 1, b"x"), u(ONE, 1 + 2**31), packet(ONE, 2**31 + 1, b"H", b""), packet(ONE, 2**31 - 1024, b"E", b""), packet(ONE, 2**31 - 1025, b"E", b""), u(ONE, 2**31 - 1025, b"x")]
    # a message of 256 bytes and one of 255; blocks that are short by one byte and over by one, the last of two
    d += [u(ONE, 9, bytes(256), bytes(255), b""), packet(ONE, 9, b"U", block(b"a") + block(bytes(256))[:-1]), packet(ONE, 9, b"U", block(b"a") + block(bytes(256)) + b"\0"), packet(ONE, 9, b"U", b"\1\0" + bytes(255))]
    return d


def single_parts():
    """Small letters with nothing else wrong, 51 before 53, every byte of a sequence, any session, both sides of a record's least."""
    r = lambda q, k, body=b"": ONE + q.to_bytes(4, "big") + k + body  # noqa: E731
    d = [r(1, k) for k in (b"u", b"h", b"e", b"\0", b"V", b"\xd5")] + [r(0x01020304, b"U", block(b"x")), r(0x81828384, b"H"), bytes(range(246, 256)) + bytes(4) + b"E", bytes(14), bytes(15), r(1, b"H")[:-1], r(1, b"U", b"\1\0" + bytes(255)), r(1, b"U", b"\1\0" + bytes(256))]
    return d + [r(7, b"H", bytes(65517)), r(7, b"H", bytes(65516)), r(7, b"U", b"\xff\xf0" + bytes(65515))]
