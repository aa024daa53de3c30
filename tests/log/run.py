"""Logs, and what the programs log_list, log_write and replay_log write of them, from a reader and a writer written from the paper (tests/model/log.py).

tests/log/run           compares the committed files with what the script makes, and runs the built programs on many more inputs
tests/log/run --write   writes the files"""
import random
import subprocess

from model import built
from model.files import committed
from model.log import FIRST, HOLDS, LIMIT, each_number, entries_in, entry_bytes, filled, first_log_of, limits_in, log_list, log_of, log_write, record, replay_log, seven
from model.receiver import cut, fragment, small
from model.tally import close, held

EDGES = [0, 1, 127, 128, 129, 16383, 16384, 2**32 - 1, 2**32, 2**63 - 1, 2**63, 2**64 - 1] + [128**k for k in range(3, 10)] + [128**k - 1 for k in range(3, 10)]


def flight():
    """Two cameras and a weather mast, interleaved, with late copies, a stranger, and a second camera that uses the first one's numbers."""
    r = random.Random(1201)
    entries, tick = [], 1_700_000_000_000
    for q in range(7):
        tiles = []
        for sender in (7, 2**40 + 3):
            pay = bytes((q * 41 + sender % 97 + i * i // 89) % 256 for i in range(r.randrange(1300, 4600)))
            tiles += [(sender, d) for d in cut(500 + q, b"TILE", pay, 1400)]
        r.shuffle(tiles)
        if q % 2:
            tiles.append((99, small(40 + q, b"MAST", b"wind %d" % q)))
        if q == 3:
            tiles.append((12345678901234567890, b"hello, is anybody there?"))
        for sender, d in tiles + [r.choice(tiles)]:
            tick += r.randrange(1, 40)
            entries.append((sender, tick, d))
    return entries


def edges():
    """Each number at each width, both ways round; datagrams empty, of one byte, at the ends of a length's widths and the longest."""
    entries = [(s, t, b"ab") for s in EDGES for t in EDGES[::5]]
    return entries + [(1, 2, bytes(i % 251 for i in range(n))) for n in (0, 1, 127, 128, 16383, 16384, 65535)]


def broken():
    """Logs that are refused, each at the first place where it can be, and the refusal that comes first where two could."""
    two = log_of([(7, 9, b"abc"), (300, 2**64 - 1, b"")])
    one = first_log_of([(7, 9, b"abc"), (300, 2**64 - 1, b"")])
    rest = [b"", b"\x00", b"\x03", b"\x81", b"\x03" + two[1:], b"\x01", b"\x02", b"\x82" + two[1:]]
    rest += [two[:n] for n in range(len(two))] + [one[:n] for n in range(len(one))]
    # the limit of edition 2: each end of it; over it is 45, but 41 comes first, and 43 of one that is cut; then the entries
    heads = [b"\x02" + seven(n) for n in (0, 1, 127, 128, LIMIT - 1, LIMIT, LIMIT + 1, 2**32, 2**63, 2**64 - 1)]
    heads += [b"\x02" + x for x in (b"\x80\x00", b"\x80\x80\xc0\x00", b"\x81\x80\xc0\x80\x00", b"\x81\x80\x40", b"\xff" * 9 + b"\x02", b"\xff" * 9 + b"\x01", b"\x80" * 9 + b"\x00", b"\xff" * 12)]
    rest += heads + [h[:n] for h in heads for n in range(1, len(h))] + [h + x for h in heads for x in (two[4:], two[4:-1], one[1:] + b"\x05\x80\x00")]
    # 41: longer than it must be, at each of the three numbers; nine groups and a tenth above 1; a tenth of 0; ten with the top bit set
    for bad in (b"\x80\x00", b"\xff\x00", b"\x80\x80\x00", b"\x80" * 9 + b"\x00", b"\x80" * 9 + b"\x02", b"\xff" * 9 + b"\x80", b"\xff" * 10, b"\xff" * 12):
        rest += [two + bad, two + b"\x05" + bad, two + b"\x05\x05" + bad, two + b"\x05\x05" + bad + b"rest" * 5]
    # cut before its last group: 43, whatever its value would be
    rest += [two + b"\x80" * n for n in range(1, 10)] + [two + b"\x05" + b"\xff" * n for n in range(1, 10)]
    rest += [two + b"\x05\x05" + x * n for x in (b"\x80", b"\xff") for n in range(1, 10)]
    # 42: over 65,535; not shortest comes first; 43 of its bytes comes after
    rest += [two + b"\x05\x05" + seven(n) for n in (65536, 2**20, 2**63, 2**64 - 1)] + [two + b"\x05\x05" + seven(65536) + bytes(65536)]
    rest += [two + b"\x05\x05\x80\x80\x84\x00", two + b"\x05\x05" + seven(65535), two + b"\x05\x05" + seven(65535) + bytes(65534), two + b"\x05\x05\x03ab"]
    # a good log with one entry more, cut at each place of it
    more = entry_bytes(2**63, 2**63, b"0123456789")
    return rest + [two + more[:n] for n in range(len(more) + 1)]


def damaged(seed, n):
    """Good logs with a byte changed, removed or put in."""
    r, out = random.Random(seed), []
    for _ in range(n):
        make = first_log_of if r.random() < 0.3 else lambda e: log_of(e, r.choice([0, 1, 128, LIMIT]))
        b = bytearray(make([(r.choice(EDGES), r.choice(EDGES), bytes(r.randrange(256) for _ in range(r.choice([0, 1, 5, 130])))) for _ in range(r.randrange(6))]))
        for _ in range(r.randrange(1, 4)):
            at = r.randrange(len(b) + 1)
            what = r.randrange(3)
            if what == 0 and at < len(b):
                b[at] = r.choice([0, 1, 2, 127, 128, 129, 255, r.randrange(256)])
            elif what == 1:
                del b[at:at + r.randrange(1, 3)]
            else:
                b[at:at] = bytes(r.choice([0, 1, 128, 255]) for _ in range(r.randrange(1, 4)))
        out.append(bytes(b))
    return out


def one_sender():
    """A sender's tile, 31 other messages, a late copy; one message more, and the copy is past its 32 keys."""
    tile = cut(300, b"TILE", bytes(range(200)), 96)
    return [(21, d) for d in tile + [small(400 + i, b"MAST", b"") for i in range(31)] + tile[:1] + [small(431, b"MAST", b"")] + tile]


def senders(n, first):
    """A message of each of n senders, all with one number, then a copy of each, the latest first: with 17 the first one's is past the 16 senders."""
    heard = [(first + i, small(5, b"MAST", bytes([i]))) for i in range(n)]
    return heard + heard[::-1]


def latest():
    """16 senders; the first is heard again, so that a 17th drops the second; and a copy of the third, which is no delivery, so that an 18th drops it."""
    heard = [(400 + i, small(5, b"MAST", bytes([i]))) for i in range(18)]
    return heard[:16] + [(400, small(6, b"MAST", b"")), heard[16], heard[0], heard[2], heard[17], heard[3], heard[2], heard[1]]


def mast():
    """A tile, with 200 small messages of a weather mast between its fragments, and late copies of it all the while: it comes once."""
    tile = [(7, d) for d in cut(600, b"TILE", bytes(i % 241 for i in range(4000)), 1000)]
    wind = [(99, small(1000 + i, b"MAST", b"wind %d" % i)) for i in range(200)]
    out = []
    for k, d in enumerate(tile):
        out += [d] + wind[50 * k:50 * k + 50] + tile[:k + 1]
    return out + tile + wind[-32:] + wind[:1]


def open_keys():
    """Nine senders with the same number and a tile each, so that the first one's slot is emptied; then the rest of each. A payload that fills a slot."""
    halves = [(2**64 - 1 - i, cut(8, b"TILE", bytes([i]) * 150, 120)) for i in range(9)]
    d = [(s, h[0]) for s, h in halves] + [(s, h[1]) for s, h in halves[::-1]]
    return d + [(3, fragment(2, 262144, 262143, 1, 2, b"x")), (3, fragment(4, 262145, 262144, 1, 2, b"x"))]


def limited():
    """Fragments on both sides of the limits of the logs below, fragments that two refusals fit, and small ones, which no limit of a log concerns."""
    d = [fragment(700 + i, p, 1, 1, n, b"x") for i, (p, n) in enumerate([(100, 3), (101, 3), (100, 256), (100, 257), (101, 257), (100, 1024), (100, 1025), (262144, 3), (262145, 3), (262145, 257), (0, 0)])]
    d += [fragment(720, 101, 0, 0, 3, b"x", b""), fragment(721, 100, 0, 0, 3, b"x", b""), fragment(722, 101, 101, 1, 3, b"x"), fragment(723, 100, 100, 1, 3, b"x"), fragment(724, 0, 0, 0, 1, b"", b"P"), fragment(725, 1, 0, 0, 1, b"a", b"P")]
    d += [small(730, b"MAST", bytes(60000)), small(731, b"MAST", b""), small(732, b"", b"x")]
    # a remembered key: a copy over the limits is refused by them, not a repeat
    d += [fragment(724, 0, 0, 0, 1, b"", b"P"), fragment(730, 101, 1, 1, 3, b"x"), fragment(730, 100, 1, 1, 3, b"x"), fragment(730, 100, 1, 1, 257, b"x")]
    return [(5, x) for x in d]


def fragments(n):
    """A message of n fragments of a byte each, the last first."""
    return [(6, fragment(800 + n, n, k, k, n, bytes([k % 256]), b"TILE")) for k in reversed(range(n))]


def kept(datagrams):
    """The entries of a log, by sender and datagram."""
    return [(sender, 1000 + 3 * i, d) for i, (sender, d) in enumerate(datagrams)]


def long_log(length):
    """A good log of just that length, with a message in it that fills a slot of the store."""
    entries = [(3, i, d) for i, d in enumerate(cut(9, b"TILE", bytes(i % 253 for i in range(262144)), 60000))]
    b = log_of(entries + [(3, 77, small(i, b"MAST", bytes(65000))) for i in range((length - 400000) // 65020)])
    return filled(b, length)


FLIGHT = flight()
REPLAYS = [one_sender(), senders(16, 200), senders(17, 300), mast(), open_keys(), limited(), fragments(1024), latest()]
HELD_TO = [(limited() + fragments(257)[-3:], make) for make in (first_log_of, lambda e: log_of(e, 100), lambda e: log_of(e, 0), lambda e: log_of(e, 262144), lambda e: log_of(e, 262145))]
RECORDS = b"".join(record(*e) for e in FLIGHT[:20] + edges())
FILES = {
    "crates/log_list/stdin": log_of(FLIGHT[:9] + edges()) + b"\x05\x05\x80\x80\x04",
    "crates/log_write/stdin": RECORDS + record(1, 2, b"abc")[:-1],
    # edition 1, whose limits bind beside the slot size; it is cut inside its last entry
    "crates/replay_log/stdin": first_log_of(kept([d for r in REPLAYS for d in r]) + FLIGHT)[:-1],
    "samples/flight.log": log_of(FLIGHT),
    "samples/flight-log.txt": log_list(log_of(FLIGHT)).encode(),
    "samples/flight-log-replay.txt": replay_log(log_of(FLIGHT)).encode(),
}
FILES["crates/log_list/stdout"] = log_list(FILES["crates/log_list/stdin"]).encode()
FILES["crates/log_write/stdout"] = log_write(FILES["crates/log_write/stdin"])
FILES["crates/replay_log/stdout"] = replay_log(FILES["crates/replay_log/stdin"]).encode()

# the model agrees with itself, both ways
for e in (FLIGHT, edges()):
    assert entries_in(log_of(e)) == entries_in(first_log_of(e)) == (e, None)
for b in broken() + damaged(3, 3000):
    found, refusal = entries_in(b)
    assert refusal is not None or (first_log_of(found) if b[0] == 1 else log_of(found, limits_in(b)[0])) == b

# what the requests say: of 16 senders each copy is known, of 17 all but the first one's; a tile with a mast between its fragments comes once
said = [replay_log(log_of(kept(r))).split("\n") for r in REPLAYS]
assert [x.split()[1] for x in said[1][16:32]] == ["repeat"] * 16
assert [x.split()[1] for x in said[2][17:34]] == ["repeat"] * 16 + ["delivered"]
assert sum(x.endswith(" delivered 4000") for x in said[3]) == 1
# 1,024 fragments come together in edition 2; edition 1 refuses the 257th count by 5 and P over 262,144 by 6
assert said[6][1023] == "1024 delivered 1024" and limits_in(first_log_of([])) == FIRST
assert all(x.endswith("refused 5") for x in replay_log(first_log_of(kept(fragments(257)))).split("\n")[:257])


def runs(program, model, inputs):
    words = built.program(program)
    for b in inputs:
        expected = model(b)
        expected = expected if isinstance(expected, bytes) else expected.encode()
        got = subprocess.run(words, input=b, capture_output=True).stdout
        held(got == expected, f"{program}: {b[:40].hex()} ({len(b)} bytes)", got, expected)


committed(FILES)
LOGS = broken() + damaged(5, 150) + each_number() + [long_log(HOLDS), long_log(HOLDS) + b"\x01", bytes(HOLDS + 70000)]
runs("log_list", log_list, LOGS)
runs("replay_log", replay_log, LOGS[:40] + LOGS[-60:] + each_number() + [log_of(kept(r)) for r in REPLAYS] + [make(kept(d)) for d, make in HELD_TO] + [first_log_of(FLIGHT), log_of(FLIGHT) + b"\x05\x80\x00"])
runs("log_write", log_write, [RECORDS[:n] for n in (0, 1, 17, 18, 19, 20, 40, 300)] + [RECORDS, RECORDS * 20, RECORDS[:-1]])
close()
