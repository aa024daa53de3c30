"""The count of document 02, L9, over both versions of L14's table, written from the paper alone, in plain Python: what the program count_pits
writes, its vector, and the flights of samples/."""
import random

from . import messages
from .log import STORE, each_number, entries_in, first_log_of, limits_in, log_of
from .receiver import MAX_PAYLOAD, Receiver, cut, fragment, small

HOLDS = 2097152
NUMBERS = 262144
PIT_LIST = 5


class Forgetful(Receiver):
    """The receiver of the year with 1,184 pits: it keeps no memory of what it delivered."""

    def remember(self, key):
        pass


def pit_list(numbers):
    """Tile and marks of a message's numbers, a mark being a pit and whether it is sure, null ones skipped; or None where it is no PitList."""
    version, kind = numbers[:2]
    if kind != PIT_LIST:
        return None
    tile, n = numbers[2:4]
    rest, marks = iter(numbers[4:]), []
    for _ in range(n):
        if next(rest) == 0:
            continue
        marks.append((next(rest), next(rest)))
        if next(rest):  # a place that is there: lat, lon and height
            next(rest), next(rest), next(rest)
        if version == 2:
            next(rest)  # the depth
    assert next(rest, None) is None
    return tile, marks


def read_payload(payload, room=NUMBERS):
    """The PitList that a payload is, or None. 13 where its numbers do not fit, whatever it is."""
    try:
        numbers = messages.read(payload)
    except messages.Refused:
        return None
    if len(numbers) > room:
        raise messages.Refused(13)
    return pit_list(numbers)


class Report:
    def __init__(self):
        self.said = []  # the first word of each answer, and the number of a refusal
        self.lists = []  # the PitLists read, in order
        self.tiles = {}  # of each tile its pits, and of each pit whether a list had it as sure

    def take(self, tile, marks):
        self.lists.append((tile, marks))
        if tile not in self.tiles and len(self.tiles) == 256:
            raise messages.Refused(60)
        pits = self.tiles.setdefault(tile, {})
        for pit, sure in marks:
            if pit not in pits and sum(map(len, self.tiles.values())) == 8192:
                raise messages.Refused(61)
            pits[pit] = pits.get(pit, False) or sure == 1

    def lines(self):
        said = self.said
        lines = [f"entries {len(said)}", f"kept {said.count('kept')}", f"repeated {said.count('repeat')}", f"delivered {said.count('delivered')}"]
        lines += [f"refused {n} {said.count(n)}" for n in range(1, 100) if n in said] + [f"lists {len(self.lists)}"]
        return lines + [f"tile {t} pits {len(p)} sure {sum(p.values())}" for t, p in sorted(self.tiles.items())]


def count(log, receiver=Receiver, store=STORE, room=NUMBERS):
    """The report, or the number of the refusal."""
    entries, refusal = entries_in(log)
    if refusal is not None:
        return refusal
    if len(entries) > 4096:
        return 62
    report, receiver = Report(), receiver(store, *limits_in(log))
    try:
        for sender, _, datagram in entries:
            words = receiver.receive(sender, datagram).split()
            report.said.append(int(words[1]) if words[0] == "refused" else words[0])
            found = read_payload(receiver.payload, room) if words[0] == "delivered" else None
            if found is not None:
                report.take(*found)
    except messages.Refused as e:
        return e.args[0]
    return report


def told(found):
    return f"refused {found}\n" if isinstance(found, int) else "\n".join(found.lines()) + "\n"


def count_pits(log):
    """What the program writes."""
    return told(count(log)) if len(log) <= HOLDS else f"longer than {HOLDS} bytes\n"


# ---- survey messages, as a camera or its partner makes them

def mark(pit, sure, version=1, place=True):
    """A PitMark's numbers; one without a pit is null. Its place is a latitude, a longitude and a height, or one of ours (True), or none."""
    if pit is None:
        return [0]
    if place is True:
        place = 519876543 + pit % 1000, -23456 - pit % 1000, 12
    return [4, pit, sure] + ([2, *place] if place else [0]) + ([40 + pit % 90] if version == 2 else [])


def pits_message(tile, marks, version=1, calculate=True, place=lambda pit: pit % 5 != 3):
    l = [version, PIT_LIST, tile, len(marks)]
    for pit, sure in marks:
        l += mark(pit, sure, version, pit is not None and place(pit))
    return messages.write(l, calculate)


def list_of(tile, marks, version=1):
    """A list whose marks are a pit, sure, and a place or none."""
    return messages.write([version, PIT_LIST, tile, len(marks)] + [n for pit, sure, at in marks for n in [4, pit, sure] + ([2, *at] if at else [0]) + [7] * (version == 2)], True)


NULL = (None, None)


def others():
    """Payloads that are no PitList: no LMCP, damaged, an object that is null or of mixed versions, each other type, and a list inside a note."""
    listed = pits_message(99, [(1, 1), (2, 1)])
    out = [b"", b"ready", b"LMCP", listed[:-1], listed[:-1] + bytes([listed[-1] ^ 1]), listed + b"\0", messages.framed(b"\0", True)]
    root = bytearray(messages.write([2, 5, 99, 1] + mark(1, 1, 2), True)[8:-4])
    assert root[13:15] == b"\0\2" and root[36:38] == b"\0\2"
    root[37] = 1
    out.append(messages.framed(bytes(root), True))
    inside = [5, 99, 1] + mark(1, 1)
    for l in ([1], [2, 1, 2, 3], [3, 99, 1, 2, 0], [4, 99, 1, 0], [6, 2, 104, 105, 0], [6, 0] + inside, [7, 0, 0, 0, 0, 0, 0, 0, 0]):
        out.append(messages.write([1] + l, True))
    return out + [messages.write([2, 1], True), messages.write([2, 4, 99, 1, 0, 7], False)]


def strangers():
    """Datagrams that are refused, by 1, 2, 4, 5, 6 and 7."""
    d = [b"", b"LC02", b"hello, is anybody there?", small(1, b"", b"x"), small(2, b"CAM\xc9RA", b"x"), fragment(3, 9, 0, 0, 0, b"x", b"P"), fragment(4, 9, 0, 0, 257, b"x", b"P")]
    return d + [fragment(5, 262145, 0, 0, 2, b"x", b"P"), fragment(6, 2**32 - 1, 0, 0, 2, b"x", b"P"), fragment(7, 9, 1, 0, 2, b"x", b"P"), fragment(8, 9, 2**32 - 1, 1, 3, b"xy")]


def ticked(datagrams, first=1_700_000_000_000):
    """Entries of a log from senders and their datagrams."""
    return [(sender, first + 7 * i, d) for i, (sender, d) in enumerate(datagrams)]


def cases():
    """One of everything, in the order of the request; each case as senders and datagrams."""
    r = random.Random(909)
    marks = [(i, i % 3 == 0) for i in range(40)]
    out, q = [], iter(range(100, 10_000))

    def one(sender, payload, m=1400, name=b"TILE"):
        tile = [(sender, d) for d in cut(next(q), name, payload, m)]
        r.shuffle(tile)
        out.extend(tile)
        return tile

    # small and fragmented, the highest tile number before the lowest; the first and the last pit number
    one(7, pits_message(2**32 - 1, [(2**32 - 1, 1), (0, 0)]))
    one(7, pits_message(0, marks), 300)
    # null marks, places that are null, a list of null marks alone, a list without marks, which come again in the other version
    one(7, pits_message(9, [NULL, (1, 1), NULL, (2, 0), NULL]))
    one(7, pits_message(10, [(1, 1), (2, 0), (3, 1)], place=lambda pit: False))
    one(7, pits_message(11, [NULL] * 5))
    one(7, pits_message(12, []))
    one(7, pits_message(13, [NULL, (1, 1), NULL, (2, 0), NULL], 2, place=lambda pit: False))
    one(7, pits_message(14, [NULL] * 5, 2))
    one(7, pits_message(15, [], 2))
    # lists of one tile: the same again, its checksum not calculated; sure in the first alone, in the last alone, in none; one pit more
    one(7, pits_message(20, [(5, 0), (6, 0), (7, 1), (8, 0)]))
    one(7, pits_message(20, [(5, 0), (6, 0), (7, 1), (8, 0)], calculate=False))
    one(7, pits_message(20, [(5, 0), (6, 1), (7, 0), (8, 0), (9, 0)]))
    one(7, pits_message(20, []))
    # a pit several times in one list, sure first, last and in between; the same pits under another tile
    one(7, pits_message(21, [(5, 1), (5, 0), (6, 0), (6, 1), (7, 0), (7, 1), (7, 0), (8, 0), (8, 0)]))
    one(7, pits_message(22, [(5, 1), (6, 0)]))
    # one tile of two cameras that use the same numbers, and of both versions: one map
    for version in (1, 2):
        for part in (marks[:30], marks[20:]):
            for d in cut(5000 + len(part), b"TILE", pits_message(30, part, version), 500):
                out.append((70 + version, d))
    # late copies: of a small message, of a whole tile, of a fragment while its tile is open; a datagram that disagrees with an open one, by 8
    late = one(8, pits_message(31, marks), 400) + one(8, pits_message(32, [(1, 1)]))
    out.extend(late + late[::-1])
    held = [(8, d) for d in cut(9000, b"TILE", pits_message(33, marks), 400)]
    out.extend(held[:2] + held[:2] + [(8, small(9000, b"TILE", b"x")), (8, fragment(9000, 9, 0, 0, 2, b"x", b"TILE"))] + held[2:] + held)
    # 33 messages later its copy is delivered again, read again, and no pit is counted twice
    again = one(9, pits_message(34, [(1, 0), (2, 1)]))
    for i in range(33):
        out.append((9, small(20_000 + i, b"MAST", b"wind %d" % i)))
    out.extend(again)
    # no PitLists, and strangers
    for payload in others():
        one(7, payload)
    out.extend((12345678901234567890, d) for d in strangers())
    # nine tiles begun at once: the one that was emptied comes no more, though its rest comes
    nine = [cut(30_000 + i, b"TILE", pits_message(40 + i, marks), 800) for i in range(9)]
    out.extend((50, tile[0]) for tile in nine)
    out.extend((50, d) for tile in nine[1:] + nine[:1] for d in tile[1:])
    # a tile as large as can be, in the longest datagrams; many of its marks come twice
    large = pits_message(2**31, [(i % 4096, i % 7 == 0) for i in range(5576)] + [NULL] * 37, 2, place=lambda pit: True)
    assert len(large) == 262144  # a slot of count_pits
    out.extend((60, d) for d in cut(60_000, b"TILE", large, 65507))
    return out


def late_copies():
    """The customer's flight: 1,037 pits on 40 tiles. The network sends eight of the tiles again when they are done, with 147 pits."""
    r = random.Random(1037)
    again = [8, 8, 11, 14, 20, 24, 29, 33]
    sizes = again + [28] * 26 + [27] * 6
    out, tiles = [], []
    for i, n in enumerate(sizes):
        marks = [(1000 * (i + 1) + k, r.random() < 0.7) for k in range(n)]
        tile = cut(7000 + i, b"TILE", pits_message(300 + i, marks), 600)
        r.shuffle(tile)
        tiles.append(tile)
        out += [(7, d) for d in tile]
        if i % 5 == 2:
            out.append((99, small(40 + i, b"MAST", b"wind %d" % i)))
        if i >= 5 and i - 5 < len(again):
            out += [(7, d) for d in tiles[i - 5]]
    return ticked(out)


def two_cameras():
    """One survey of eight tiles by two cameras, one with version 1 of the table and one with version 2; of one tile only the second one's list came."""
    r = random.Random(14)
    out = []
    for i in range(8):
        marks = [(100 * i + k, r.random() < 0.6) for k in range(r.randrange(6, 30))]
        # the partner's camera sees all but the first pit, and is sure of others
        seen = [(pit, r.random() < 0.6) for pit, _ in marks[1:]]
        both = [(7, d) for d in cut(500 + i, b"TILE", pits_message(60 + i, marks), 400)] + [(8, d) for d in cut(500 + i, "CAM\u00c9RA".encode(), pits_message(60 + i, seen, 2), 400)]
        r.shuffle(both)
        if i == 3:
            both = [(s, d) for s, d in both if s == 8]
        out += both + [r.choice(both)]
    return ticked(out)


def world(seed, make=None):
    """A small world in which everything comes often: few tiles and pits, both versions, lists lost, late, damaged and doubled. The lists are `make`'s, where it is
    given."""
    r = random.Random(seed)
    waiting, out = [], []
    for q in range(r.randrange(1, 60)):
        version, n = r.choice([1, 1, 2]), r.choice([0, 1, 3, 8, 30])
        marks = [NULL if r.random() < 0.15 else (r.randrange(14), r.randrange(2)) for _ in range(n)]
        payload = make(r) if make else pits_message(r.choice([0, 1, 2, 5, 5, 9, 2**32 - 1]), marks, version, r.random() < 0.8, lambda pit: r.random() < 0.7)
        if r.random() < 0.2:
            payload = r.choice(others())
        if r.random() < 0.1:
            at = r.randrange(len(payload) + 1)
            payload = payload[:at] + bytes([r.randrange(256)]) + payload[at + 1:]
        sender = r.choice([7, 8, 2**64 - 1])
        waiting += [(sender, d) for d in cut(r.randrange(40), b"TILE", payload, r.choice([96, 200, 1400]))]
        while waiting and (len(waiting) > 12 or r.random() < 0.3):
            out.append(waiting.pop(r.randrange(len(waiting))))
            if r.random() < 0.2:
                waiting.append(out[-1])
            if r.random() < 0.03:
                waiting.append((7, r.choice(strangers())))
    return log_of(ticked(out + waiting))


def edges():
    """Logs at both sides of each limit and of each refusal, and where one comes before the other."""
    def flight(payloads, m=65507, sender=7):
        return ticked([(sender, d) for i, p in enumerate(payloads) for d in cut(i, b"TILE", p, m)])

    def named(tiles):
        return [pits_message(t, []) for t in tiles]

    one = flight([pits_message(9, [(1, 1)])])
    logs = [b"", b"\0", b"\3", b"\2", b"\2\x80\0", b"\2\x81\x80\x40", b"\1", first_log_of(one), log_of(one), log_of(one)[:-1], log_of(one) + b"\x05", log_of(one) + b"\x05\x80\0", log_of(one) + b"\5\5\x80\x80\4"]
    # 4,096 entries and one more; the log's own refusal comes first, and 62 before what the entries say
    wind = [(99, i, small(i, b"MAST", b"wind")) for i in range(4096)]
    logs += [log_of(wind), log_of(wind + one), log_of(wind + one)[:-1], log_of(one + wind), log_of(wind[1:] + one)]
    # 256 tiles and one more; a list of a known tile; what comes after a refusal does not matter
    tiles = named(range(5000, 5512, 2))
    logs += [log_of(flight(t)) for t in (tiles, tiles + named([5001]), tiles[::-1] + named([5002]), tiles[:-1] + named([1, 2]), named([0]) + tiles)]
    # 8,192 pits and one more, on one tile and on many; a known pit after them; a 257th tile with one more pit
    many = [(i, i % 3 == 0) for i in range(8192)]
    parts = [many[:4096], many[4096:]]
    full = [pits_message(9, p) for p in parts]
    logs += [log_of(flight(full + more)) for more in ([], [pits_message(9, [(7, 1)])], [pits_message(9, [(8192, 1)])], [pits_message(8, [(7, 1)])], [pits_message(8, [NULL])], [pits_message(9, many[8000:] + [NULL, (9999, 0)], 2)])]
    spread = [pits_message(t, [(k, k == t % 32) for k in range(32)], 1 + t % 2) for t in range(256)]
    logs += [log_of(flight(spread + more)) for more in ([], [pits_message(300, [(1, 1)])], [pits_message(200, [(99, 1)])], [pits_message(300, []), pits_message(200, [(99, 1)])], [pits_message(200, [(99, 1)]), pits_message(300, [])])]
    # a refusal at an entry before the end
    logs += [log_of(flight(tiles + named([1]) + full)), log_of(flight(full + [pits_message(10, [(1, 1)])] + tiles))]
    # 17 senders and a copy of each: 16 are known
    heard = [(i, d) for i in range(17) for d in cut(5, b"TILE", pits_message(i % 3, [(i, 1)]), 1400)]
    return logs + [log_of(ticked(heard + heard[::-1]))]


def refused_first():
    """Logs of which two refusals could be given: the log's own before 62, 60 and 61, and 62 before 60 and 61, wherever they come. Marks over 8,192 that are
    fewer pits. Limits of a log of each edition, by 5 and 6, at both sides, with lists that they admit and small ones, which they do not concern."""
    def flight(payloads):
        return ticked([(7, d) for i, p in enumerate(payloads) for d in cut(i, b"TILE", p, 65507)])

    tiles = flight([pits_message(t, []) for t in range(257)])
    pits = flight([pits_message(9, [(i, 1) for i in range(k, k + 2731)], place=lambda pit: False) for k in (0, 2731, 5462)])
    wind = [(99, i, small(i, b"MAST", b"")) for i in range(4097)]
    logs = [log_of(bad) + x for bad in (tiles, pits) for x in (b"", b"\5", b"\5\x80\0", b"\5\5\x80\x80\4")]
    logs += [log_of(x) for bad in (tiles, pits) for x in (bad + wind, bad + wind[:4096 - len(bad)], bad + wind[:4097 - len(bad)])] + [log_of(wind) + b"\5", log_of(wind) + b"\5\x80\0", log_of(tiles + wind) + b"\5\5\x80\x80\4"]
    often = [pits_message(9, [(1, 0)] * 3000 + [(k, 1)], place=lambda pit: False) for k in range(3)]
    logs += [log_of(flight(often + [pits_message(9, [(77, 1)]), pits_message(10, [(1, 0)])]))]
    edge = [(262144, 3), (262145, 3), (100, 256), (100, 257), (100, 3), (101, 3), (101, 257), (100, 1024), (100, 1025)]
    some = [(5, fragment(700 + i, p, 1, 1, n, b"x")) for i, (p, n) in enumerate(edge)] + [(5, small(730, b"TILE", bytes(300)))]
    some += [(5, d) for i in (1, 20) for d in cut(740 + i, b"TILE", pits_message(40 + i, [(1, 1)] * i), 96)]
    return logs + [first_log_of(ticked(some))] + [log_of(ticked(some), limit) for limit in (0, 100, 101, 262143, 262144, MAX_PAYLOAD)]


def in_sum(found):
    """Pits as they are counted delivery by delivery: the marks of every list read."""
    return sum(len(marks) for _, marks in found.lists)


LATE, TWO = log_of(late_copies()), log_of(two_cameras())
FILES = {
    "crates/count_pits/stdin": log_of(ticked(cases())),
    "samples/late-copies.log": LATE,
    "samples/two-cameras.log": TWO,
}
for name in list(FILES):
    FILES[name.replace("stdin", "stdout").replace(".log", ".txt")] = count_pits(FILES[name]).encode()

# what the README says of the samples: without memory 147 pits come twice
assert (in_sum(count(LATE)), in_sum(count(LATE, Forgetful))) == (1037, 1184)
assert sum(len(p) for p in count(LATE).tiles.values()) == 1037
# one map of eight tiles from fifteen lists
assert sorted(count(TWO).tiles) == list(range(60, 68)) and len(count(TWO).lists) == 15
