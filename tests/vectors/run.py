"""Vectors and the sample flights, from the models in tests/model, written from the papers: receiver, watch, cutter, gauge, acknowledge blocks, count, season, pits and index.

tests/vectors/run           compares the committed files with what the script makes
tests/vectors/run --write   writes them"""
import random

from model import acks, count, index, limits, moss, pits, season, writers
from model.files import committed
from model.receiver import cut, fragment, replay, small, stream_of
from model.tally import close
from model.watch import gaps

A = bytes.fromhex("4c433033 00000007 00000003 00000000 0000 0002 50 00 41")
B = bytes.fromhex("4c433033 00000007 00000003 00000001 0001 0002 42 43")


def refusals():
    """Each of 1 to 8, at the first place where it can be given and with the one that comes first where two could."""
    d = [b"", A[:7], A[:19], b"LC04" + A[4:], A[:8], small(1, b"", b"x"), small(1, b"n" * 64, b"x"), small(1, b"n\x1f", b""), small(1, b"n\x7f", b"")]
    d += [small(1, b"name", b"")[:-1], fragment(1, 9, 0, 0, 0, b"x", b"P"), fragment(1, 9, 0, 0, 1025, b"x", b"P"), fragment(1, 9, 1, 2, 2, b"x")]
    d += [fragment(1, 8193, 0, 0, 2, b"x", b"P"), fragment(1, 8193, 0, 0, 0, b"x", b""), fragment(1, 9, 0, 0, 2, b"x", b"\x1f"), fragment(1, 9, 1, 0, 2, b"x", b"P")]
    d += [fragment(1, 9, 1, 1, 3, b""), fragment(1, 9, 9, 1, 3, b"x"), fragment(1, 9, 2**32 - 1, 1, 3, b"xy"), fragment(1, 9, 7, 1, 2, b"x"), fragment(1, 9, 8, 1, 2, b"x")]
    # 8: another P, another n, other data, another name, a small one of the open key, an overlap, a gap between neighbours
    d += [fragment(1, 8, 0, 0, 2, b"x", b"P"), fragment(1, 9, 0, 0, 3, b"x", b"P"), fragment(1, 9, 8, 1, 2, b"y"), fragment(1, 9, 8, 1, 2, b"x")]
    d += [small(1, b"P", b"x"), fragment(1, 9, 0, 0, 2, b"abcdefghi", b"P"), fragment(1, 9, 0, 0, 2, b"abcdefg", b"P"), fragment(1, 9, 0, 0, 2, b"abcdefgh", b"P"), fragment(1, 9, 0, 0, 2, b"abcdefgh", b"Q")]
    # what only one comparison tells: another P that else fits, another n, a copy's offset, a copy's length, a copy with another name
    d += [fragment(6, 9, 8, 1, 2, b"x"), fragment(6, 10, 0, 0, 2, b"abcdefgh", b"P"), fragment(6, 9, 0, 0, 3, b"abcdefgh", b"P"), fragment(6, 9, 0, 0, 2, b"abcdefgh", b"P")]
    d += [fragment(7, 9, 3, 1, 3, b"x"), fragment(7, 9, 4, 1, 3, b"x"), fragment(7, 9, 3, 1, 3, b"xy"), fragment(7, 9, 3, 1, 3, b"x"), fragment(7, 9, 0, 0, 3, b"abc", b"P"), fragment(7, 9, 0, 0, 3, b"abc", b"Q"), fragment(7, 9, 4, 2, 3, b"defgh")]
    # numbers that are no neighbours may meet, and may not overlap by a byte
    d += [fragment(8, 9, 0, 0, 4, b"abc", b"P"), fragment(8, 9, 2, 2, 4, b"d"), fragment(8, 9, 3, 2, 4, b"d")]
    # 8 bytes with the small magic are long enough, and lack a name; each end of a name's bytes and of its length
    d += [small(9, b"", b"")[:8], small(9, b"", b"")] + [small(10 + b, b"A" + bytes([b]), b"x") for b in (31, 32, 126, 127, 128)] + [small(9, b"n" * 63, b""), small(11, b"n" * 63, b"")[:-1]]
    # three fragments: 0 and 2 held, then a 1 that leaves a gap before 2 and one that fits
    d += [fragment(2, 9, 0, 0, 3, b"abc", b"P"), fragment(2, 9, 6, 2, 3, b"ghi"), fragment(2, 9, 0, 0, 3, b"abc", b"R"), fragment(2, 9, 3, 1, 3, b"de"), fragment(2, 9, 3, 1, 3, b"defg"), fragment(2, 9, 3, 1, 3, b"def")]
    # P at the slot size, an empty payload in one fragment
    d += [fragment(3, 8192, 0, 0, 2, b"x", b"P"), fragment(4, 0, 0, 0, 1, b"", b"P"), fragment(4, 0, 0, 0, 1, b"", b"P")]
    return d


def names():
    """Names in UTF-8 (L2): both sides of each edge of a code point, overlong forms, lone and missing continuation bytes, the 63rd byte."""
    good = [0x20, 0x7E, 0x80, 0x9F, 0xE9, 0x7FF, 0x800, 0xD7FF, 0xE000, 0xFEFF, 0xFFFE, 0xFFFF, 0x10000, 0x10FFFF]
    n = ["CAM\u00c9RA".encode()] + [chr(c).encode() for c in good] + [chr(c).encode() for c in (0x1F, 0x7F)]
    n += [bytes.fromhex(h) for h in ("eda080", "edbfbf", "f4908080", "f7bfbfbf", "f888808080", "c080", "c1bf", "e08080", "e09fbf", "f0808080", "f08fbfbf")]
    n += [bytes.fromhex(h) for h in ("80", "bf", "fe", "ff", "c3", "e2", "e282", "f0", "f09f", "f09f92", "c328", "e228a1", "e28228", "f0288cbc", "50c3a9", "50c3")]
    for c in (0xE9, 0x20AC, 0x1F4A7):
        last = chr(c).encode()
        n += [b"n" * (63 - len(last)) + last, b"n" * (64 - len(last)) + last, b"n" * (64 - len(last)) + last[:-1]]
    return [small(30000 + i, x, b"A") for i, x in enumerate(n)] + [fragment(31000 + i, 1, 0, 0, 1, b"A", x) for i, x in enumerate(n)]


def emptying():
    """Eight open, a ninth, n = 1 with eight open, and the emptied keys' own fragments again."""
    d = [fragment(100 + i, 4, 0, 0, 2, b"ab", b"TILE") for i in range(10)]
    d += [fragment(200, 2, 0, 0, 1, b"ab", b"ONE"), fragment(100, 4, 2, 1, 2, b"cd"), fragment(100, 4, 0, 0, 2, b"ab", b"TILE")]
    d += [fragment(100 + i, 4, 2, 1, 2, b"cd") for i in range(10)]
    return d


def memory():
    """A tile, 31 others of its sender, a late copy; one other more, a late copy past the memory."""
    tile = cut(300, b"TILE", bytes(range(200)), 96)
    return tile + [small(400 + i, b"MAST", bytes([i])) for i in range(31)] + tile[:1] + [small(431, b"MAST", b"")] + tile[1:] + tile


def mixture(seed):
    """Tiles cut for several sizes, shuffled within a window, with repeats, damage and strangers."""
    r = random.Random(seed)
    d = []
    for q in range(40):
        pay = bytes(r.randrange(256) for _ in range(r.choice([0, 1, 80, 300, 1000, 4000])))
        d += cut(1000 + q, r.choice([b"TILE", b"PITS", b"n" * 63]), pay, r.choice([96, 200, 1400]))
    for i in range(len(d)):
        j = min(len(d) - 1, i + r.randrange(12))
        d[i], d[j] = d[j], d[i]
    out = []
    for x in d:
        out.append(x)
        if r.random() < 0.2:
            out.append(r.choice(out[-40:]))
        if r.random() < 0.1:
            at = r.randrange(len(x))
            out.append(x[:at] + bytes([x[at] ^ (1 << r.randrange(8))]) + x[at + 1:])
        if r.random() < 0.05:
            out.append(x[:r.randrange(len(x))])
    return out


def seats():
    """A slot freed in the middle and taken again, 1,024 fragments in any order, a slot filled to its last byte, the longest datagram."""
    d = [fragment(500 + i, 6, 2, 1, 3, b"cd") for i in range(8)] + [fragment(508, 6, 2, 1, 3, b"")]
    d += [fragment(505, 6, 0, 0, 3, b"ab", b"P"), fragment(505, 6, 4, 2, 3, b"ef")]
    d += [fragment(510 + i // 2, 2, 1, 1, 2, b"b") for i in range(16)] + [fragment(506, 6, 0, 0, 3, b"ab", b"P")]
    d += reversed(cut(520, b"TILE", bytes(i % 251 for i in range(8192)), 96))
    many = [fragment(521, 1024, k, k, 1024, bytes([k % 251]), b"TILE") for k in range(1024)]
    random.Random(8).shuffle(many)
    return d + many + many[:3] + [small(522, b"TILE", bytes(65535 - 13))]


def numbers():
    """The watch: the wrap, the furthest forward, late by 1 and by 1,024, restarts by 1,025 and by 2,147,483,648, the same again, and refusals,
    which leave it as it is."""
    d = [0xFFFFFFFF, 1, 1, 0xFFFFFFFF, 0, 0x80000001, 0x80000000, 0x80000000, 0, 1, 5000, 3976, 3975, 3976, 2951, 2950]
    d = [small(q, b"P", b"A") for q in d] + refusals() + [small(0x80000001, b"P", b""), B, A]
    d += [fragment(0x80000010, 1048576, 1, 1, 3, b"BC"), fragment(0x80000011, 1048577, 1, 1, 3, b"BC"), fragment(0x80000012, 1048576, 1, 1, 3, bytes(65515))]
    d += [fragment(0x80000013, 9, 1, 1, 1024, b"BC"), fragment(0x80000014, 9, 1, 1, 1025, b"BC")]
    return d + [small((0x80000012 + 0x11111111 * i) % 2**32, b"P", b"") for i in range(300)] + mixture(77)


def flight():
    """The sample: eleven tiles of a flight, in fragments of at most 1,400 bytes, out of order, with late copies, a weather mast, a stranger and, last, a
    partner's camera on a channel with an accent."""
    r = random.Random(1037)
    d = []
    for q in range(11):
        pay = bytes((q * 37 + i * i // 97) % 256 for i in range(r.randrange(1500, 5200)))
        tile = cut(7000 + q, b"TILE", pay, 1400)
        r.shuffle(tile)
        d += tile + [r.choice(tile)] + ([small(9000 + q, b"MAST", b"wind 4")] if q % 3 == 0 else [])
    camera = cut(7100, "CAM\u00c9RA".encode(), bytes(i % 250 for i in range(3000)), 1400) + [small(7101, "CAM\u00c9RA".encode(), b"ready")]
    return d[:9] + [b"hello, is anybody there?"] + d[9:] + [d[0], d[20]] + camera


def orders():
    """Nine and more messages in turn, so that each key that is emptied tells which slot was opened longest ago: after a delivery in the
    middle, at the low end and at the high end, and after a key was emptied and opened again."""
    first = [fragment(600 + i, 4, 0, 0, 2, b"ab", b"P") for i in range(8)]
    ends = [fragment(600 + i, 4, 2, 1, 2, b"cd") for i in range(40)]
    more = [fragment(600 + i, 4, 0, 0, 2, b"ab", b"P") for i in range(8, 40)]
    d = first + [ends[3]] + more[:2] + [ends[1], ends[8]] + more[2:6] + [first[2]] + more[6:9] + [ends[15]] + more[9:20]
    return d + [ends[i] for i in range(40)]


def singles():
    """What one byte alone tells, and of two refusals that could be given the first: each byte of a magic and of a sequence, 1 before 2, 6 before 4, 4 before 7,
    code points that no rule names, and the slot opened longest ago, which is not the one used longest ago."""
    d = [small(41, b"P", b"x")[:7], b"hello!!", b"XXXX", b"LC0", b"LC04" + bytes(4), b"LC04" + bytes(15), b"LC02" + bytes(4), B[:8], B[:19], B[:20]]
    for x in (small(42, b"P", b"x"), B):
        d += [x[:i] + bytes([x[i] ^ f]) + x[i + 1:] for i in range(4) for f in (1, 4, 32, 128) if x[:i] + bytes([x[i] ^ f]) + x[i + 1:4] not in (b"LC02", b"LC03")]
    # 5 before 6, 6 before 4 and 7, 4 before 7
    over = 2**20 + 1
    d += [fragment(43, over, 0, 0, 0, b"x", b"P"), fragment(43, over, 0, 0, 2, b"x", b""), fragment(43, over, 1, 0, 2, b"x", b"P"), fragment(43, 9, 1, 0, 2, b"x", b""), fragment(43, 9, 1, 0, 2, b"x", b"\x7f"), fragment(43, 9, 1, 0, 0, b"x", b"")]
    # the sequence, the offset and P are all four bytes, number and count both
    d += [small(44, b"P", b"x")] + [small(44 ^ 1 << 8 * k, b"P", b"x") for k in range(4)] + [fragment(45, 9, 1 << 8 * k, 1, 3, b"x") for k in (1, 2, 3)] + [fragment(45, 9 + (1 << 8 * k), 1, 1, 2, b"x" * 8) for k in (1, 2, 3)]
    d += [fragment(45, 9, 1, 257, 3, b"x"), fragment(45, 9, 1, 1, 256 * 3, b"x"), fragment(45, 9, 1, 256, 3, b"x")]
    # names: control characters below 32, the last one and 0x80 on; code points that mean nothing; 63 code points are more than 63 bytes
    odd = [b"A\x01", b"A\x09", b"\x0aA", b"A\x7fB", b"A\xc2", b"A\xc2\x80B", b"\xf5\x80\x80\x80", b"\xf0\x8f\xbf\xbf", b"A\xef\xbf"]
    odd += [chr(c).encode() for c in (0x81, 0xA0, 0xFDD0, 0xFDEF, 0x1FFFE, 0x10FFFE, 0x10000, 0xFFFD, 0x40000, 0x100000)] + ["\u00e9".encode() * 31, "\u00e9".encode() * 31 + b"n", "\u00e9".encode() * 32, "\U0001f4a7".encode() * 15 + b"nnn", "\U0001f4a7".encode() * 16]
    d += [small(46 + i, x, b"A") for i, x in enumerate(odd)]
    # eight open, the first of them used again: it is the one that goes
    opened = [fragment(70 + i, 9, 0, 0, 3, b"abc", b"P") for i in range(8)]
    return d + opened + [fragment(70, 9, 3, 1, 3, b"def"), fragment(80, 9, 0, 0, 3, b"abc", b"P"), fragment(71, 9, 3, 1, 3, b"def"), fragment(70, 9, 6, 2, 3, b"ghi")]


LONG = refusals() + names() + emptying() + memory() + seats() + orders() + mixture(1184) + mixture(2026) + singles()
FILES = {
    "crates/replay/stdin": stream_of([B, A, B]),
    # one ends inside a datagram, the other inside a length
    "crates/replay_long/stdin": stream_of(LONG) + stream_of([B])[:-1],
    "crates/gaps/stdin": stream_of(numbers() + singles()) + b"\0",
    "samples/flight.bin": stream_of(flight()),
}
for name in list(FILES):
    if name.endswith("/stdin"):
        FILES[name[:-5] + "stdout"] = (gaps if name.startswith("crates/gaps") else replay)(FILES[name]).encode()
FILES["crates/limit_cases/stdin"] = limits.stream()
FILES["crates/limit_cases/stdout"] = limits.lines().encode()
FILES["crates/writer_cases/stdin"] = writers.stream()
FILES["crates/writer_cases/stdout"] = writers.lines().encode()
FILES["crates/gauge/stdin"] = moss.stream_of(moss.packets() + moss.single_packets(), 2) + b"\0\x13" + bytes(18)
FILES["crates/gauge_bytes/stdin"] = moss.stream_of(moss.parts() + moss.single_parts(), 4) + b"\0\0\0"
FILES["samples/gauge.bin"] = moss.stream_of(moss.sample(), 2)
for name in ("crates/gauge/stdin", "samples/gauge.bin"):
    FILES[name.replace("stdin", "stdout").replace(".bin", ".txt")] = moss.gauge(FILES[name]).encode()
FILES["crates/gauge_bytes/stdout"] = moss.gauge_bytes(FILES["crates/gauge_bytes/stdin"]).encode()
FILES |= acks.FILES | index.FILES | count.FILES | season.FILES | pits.FILES
FILES["samples/flight.txt"] = replay(FILES["samples/flight.bin"]).encode()
FILES["samples/gaps.txt"] = gaps(FILES["samples/flight.bin"]).encode()
assert FILES["crates/replay/stdout"] == b"1 kept\n2 delivered 3\n3 repeat\nend 3\n"

committed(FILES)
close()
