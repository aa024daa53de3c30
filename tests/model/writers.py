"""Cases for the program writer_cases, and what the papers say of each: writers over little room, and messages that a packet does not have."""
from . import acks, messages, moss
from .streams import case_lines, case_stream

LAID, PACKET, ACKED, MADE = range(1, 5)
ROOM = 65600  # the bytes of the output at most
SHOWN = 64  # the bytes of it that a line shows


def front_line(b):
    return f"bytes {len(b)}:{b[:SHOWN].hex()}"


def laid_line(length, place, room):
    """One message block at a place of an output: 51 over 65,535 bytes, then 55."""
    if length > 65535:
        return "refused 51"
    return "refused 55" if place + 2 + length > min(room, ROOM) else front_line(moss.block(b"A" * length))


def packet_line(kind, length, count, room, front, n):
    """A packet of so many messages of one length, 55 last of all; then the n-th message of its front, 54 last of all."""
    p = moss.write(b"G" * 10, 7, bytes([kind]), moss.block(b"A" * length) * count)
    if isinstance(p, int) or len(p) > min(room, ROOM):
        return f"refused {p if isinstance(p, int) else 55}"
    r = moss.read(p[:front])
    if isinstance(r, int) or n >= len(r[3]):
        return f"refused {r if isinstance(r, int) else 54}"
    return f"place {19 + 2 + n * (2 + length)} length {len(r[3][n])}"


def acked_line(first, step, count, room):
    """Blocks of numbers from the first on, each the step above the one before it: 75, 77, then 76."""
    try:
        b = acks.blocks_of([(first + step * i) % 2**64 for i in range(count)])
    except acks.Refused as r:
        return f"refused {r.args[0]}"
    return "refused 76" if len(b) > min(room, ROOM) else front_line(b)


def made_line(calculate, room, *numbers):
    """A survey message: the walk's refusals, 28, then 13. That 21 comes before 13 lmcp_bytes shows, whose output is just as long as a message may be."""
    try:
        b = messages.write([n - 2**64 if n >= 2**63 else n for n in numbers], calculate != 0)
    except messages.Refused as r:
        return f"refused {r}"
    return "refused 13" if len(b) > min(room, ROOM) else front_line(b)


LINES = {LAID: laid_line, PACKET: packet_line, ACKED: acked_line, MADE: made_line}


def cases():
    """55 and 51 of a block, 54 and 55 of a packet, 76 of acknowledge blocks, 13 of a survey message, each at both sides and after what comes before it."""
    u, h, e = b"UHE"
    d = [(LAID, m, at, room) for m, at, room in [(0, 0, 1), (0, 0, 2), (3, 0, 4), (3, 0, 5), (3, 7, 11), (3, 7, 12), (3, 12, 12), (3, 13, 12), (3, 2**64 - 1, 12), (256, 0, 300), (65534, 0, 65536)]]
    # the longest message and one byte more, each with room, without it, and just so; 51 before 55
    d += [(LAID, 65535, at, room) for at, room in [(0, 65536), (0, 65537), (63, 65600), (64, 65600)]] + [(LAID, 65536, at, room) for at, room in [(0, 65600), (0, 0), (9, 5)]]
    # packets: no room at all, one byte short, just room; 51, 52 and 53 before 55
    d += [(PACKET, kind, m, count, room, 65535, 0) for kind, m, count, room in [(u, 3, 2, 0), (u, 3, 2, 28), (u, 3, 2, 29), (u, 0, 0, 18), (u, 0, 0, 19), (h, 0, 0, 18), (h, 0, 0, 19), (e, 0, 0, 18), (e, 0, 0, 19)]]
    d += [(PACKET, kind, m, count, room, 65535, 0) for kind, m, count, room in [(ord("u"), 3, 2, 5), (h, 3, 2, 5), (e, 3, 1, 40), (u, 65514, 1, 65534), (u, 65514, 1, 65535), (u, 65515, 1, 65600), (u, 65515, 1, 0), (ord("u"), 65515, 1, 0)]]
    # each message: the first, the last and the one after it; 50 and 51 before 54; packets without messages
    d += [(PACKET, u, m, count, 65535, front, n) for m, count, front, n in [(3, 2, 65535, 0), (3, 2, 65535, 1), (3, 2, 65535, 2), (3, 2, 65535, 2**64 - 1), (0, 3, 65535, 2), (0, 3, 65535, 3), (0, 0, 65535, 0), (300, 2, 65535, 1), (65514, 1, 65535, 0), (65514, 1, 65535, 1)]]
    d += [(PACKET, u, 3, 2, 65535, front, n) for front, n in [(0, 0), (18, 5), (28, 5), (19, 0), (24, 0), (24, 1)]] + [(PACKET, kind, 0, 0, 65535, 65535, n) for kind in (h, e) for n in (0, 1)]
    # blocks: a lone number, a run, both, none; 75 and 77 before 76; 65,529 bytes are still written, 65,538 are too many
    blocks = [(7, 2, 1, 8), (7, 2, 1, 9), (7, 2, 2, 17), (7, 2, 2, 18), (7, 1, 2, 16), (7, 1, 2, 17), (7, 1, 0, 0), (7, 0, 2, 0), (7, 0, 2, 65535), (2**64 - 1, 1, 2, 65535), (2**64 - 2, 1, 2, 17), (2**64 - 2, 1, 2, 16)]
    blocks += [(7, 2, 7281, 65528), (7, 2, 7281, 65529), (7, 2, 7282, 65600), (7, 2, 7282, 0), (7, 1, 7282, 17), (7, 1, 7282, 16), (0, 2**63, 2, 17), (0, 2**63, 3, 65535)]
    d += [(ACKED,) + b for b in blocks]
    # messages: a Ping, with and without its sum, one byte short and just room; every other refusal before 13
    d += [(MADE, c, room, 1, 1) for c in (0, 1) for room in (0, 12, 26, 27, 28)] + [(MADE, 1, 0) + l for l in [(), (3,), (1,), (1, 0), (1, 8), (1, 1, 1), (1, 6, 1, 128, 0), (1, 4, 1, 2), (1, 6, 0) + (6, 0) * 16]]
    return d + [(MADE, 1, room, 2, 5, 9, 1, 4, 77, 1, 0, 40) for room in (57, 58, 59)] + [(MADE, 2**64 - 1, 64, 1, 2, 2**64 - 5, 2**64 - 2**31, 2**64 - 2**15)]


def stream():
    return case_stream(cases())


def lines():
    return case_lines(LINES, cases())
