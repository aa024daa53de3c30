"""A season: flights of any length counted on one map, in plain Python: what `qm count LOG..` and `qm strays LOG..` print, with every option, and the season
of samples/. It stands on the receiver, the log and the count beside it; a season's own rules are few: each flight has a fresh receiver, a log that is
refused counts up to there, and all lists go into the same sets."""
import random

from . import messages
from .count import pits_message, read_payload, strangers, ticked
from .log import entries_in, first_log_of, limits_in, log_of
from .receiver import MAX_PAYLOAD, Receiver, cut, fragment, read, small

TILES = PITS = 65536  # what qm lends
STORE = 8 * MAX_PAYLOAD


class Season:
    """The answers to all entries that were taken, the lists of each sender, and of each tile its pits and whether a list has them as sure."""

    def __init__(self):
        self.said, self.lists, self.tiles, self.pits = {}, {}, {}, 0

    def enter(self, tile, marks):
        if tile not in self.tiles and len(self.tiles) == TILES:
            raise messages.Refused(60)
        known = self.tiles.setdefault(tile, {})
        for pit, sure in marks:
            if pit not in known:
                if self.pits == PITS:
                    raise messages.Refused(61)
                self.pits += 1
            known[pit] = known.get(pit, False) or sure == 1

    def listed(self, payload, sender, tick, datagram):
        """A list was entered: of this payload, completed by this entry."""

    def fly(self, log, only=None, forgets=()):
        """One flight through a fresh receiver. Its strays, each as sender, entry, tick and sequence."""
        receiver, seen, strays = Receiver(STORE, *limits_in(log)), set(), []
        for i, (sender, tick, datagram) in enumerate(entries_in(log)[0], 1):
            for one, before in forgets:
                if before == i:
                    receiver.forget(one)
            if only is not None and sender not in only:
                continue
            words = receiver.receive(sender, datagram).split()
            answer = int(words[1]) if words[0] == "refused" else words[0]
            self.said[answer] = self.said.get(answer, 0) + 1
            found = read_payload(receiver.payload, messages.LIMIT) if answer == "delivered" else None
            if found is not None:
                self.enter(*found)
                self.lists[sender] = self.lists.get(sender, 0) + 1
                self.listed(receiver.payload, sender, tick, datagram)
            if answer == "repeat" and (sender, datagram) not in seen:
                strays.append((sender, i, tick, read(datagram, MAX_PAYLOAD)["sequence"]))
            seen.add((sender, datagram))
        return strays

    def tile_lines(self):
        return [f"tile {t} pits {len(p)} sure {sum(p.values())}" for t, p in sorted(self.tiles.items())]

    def lines(self, senders):
        said = self.said
        lines = [f"entries {sum(said.values())}"] + [f"{name} {said.get(word, 0)}" for name, word in (("kept", "kept"), ("repeated", "repeat"), ("delivered", "delivered"))]
        lines += [f"refused {n} {said[n]}" for n in range(100) if n in said] + [f"lists {sum(self.lists.values())}"]
        lines += [f"sender {s} lists {n}" for s, n in sorted(self.lists.items())] if senders else []
        return lines + self.tile_lines()


def text(lines):
    return "".join(line + "\n" for line in lines)


def broken(logs):
    """Of each log that is not whole its place among them, how many entries stand before what is refused, and the refusal."""
    found = [(i, entries_in(log)) for i, log in enumerate(logs)]
    return [(i, len(entries), refusal) for i, (entries, refusal) in found if refusal is not None]


def count(logs, whole=False, senders=False, only=None, forgets=()):
    """What `qm count` prints of these logs, its status, and the strays of each log that it tells of."""
    refused = broken(logs)
    if whole and refused:
        return f"refused {refused[0][2]}\n", 3, []
    season, strays = Season(), []
    try:
        for log in logs:
            strays.append(season.fly(log, only, forgets))
    except messages.Refused as r:
        return f"refused {r.args[0]}\n", 3, strays
    return text(season.lines(senders)), 3 if refused else 0, strays


def strays(logs, names):
    """What `qm strays` prints of these logs, under these names, and its status."""
    found = [(name, *stray) for log, name in zip(logs, names) for stray in Season().fly(log)]
    lines = [f"log {name} sender {s} entry {i} tick {t} sequence {q}" for name, s, i, t, q in found]
    return text(lines + [f"end {len(found)}"]), 3 if broken(logs) else 0


# ---- logs of repeats

BEGIN = b"all of them begin with these words"


def alike(r, most=200):
    """Two senders' datagrams that begin alike and come again and again in any order: their last bytes and their sender alone tell which is a copy. A small one of
    an open key is refused, and is a repeat later."""
    tails = [BEGIN + b"%d" % i for i in range(r.choice([1, 2, 5, 60]))]
    some = [d for q in (5, 6) for t in tails for d in (small(q, b"TILE", t), fragment(q, 2 * len(t), 0, 0, 2, t, b"TILE"), fragment(q, 2 * len(t), len(t), 1, 2, t))]
    return log_of(ticked([(r.choice([7, 7, 8]), r.choice(some)) for _ in range(r.randrange(1, most))]))


def repeats(n):
    """So many repeats that are no copies, and each of them once more; and before them, of the other sender, the same bytes."""
    some = [small(5, b"TILE", b"%09d" % i) for i in range(n)]
    return log_of(ticked([(8, some[-1]), (7, some[0])] + [(7, d) for d in some[:0:-1] + some]))


# ---- the sample: three flights by two cameras over eighteen tiles

CAMERA, PARTNER, STRANGER = 7, 8, 31337


def survey():
    """The pits of each tile, and whether they are plain to see."""
    r = random.Random(2026)
    return {tile: [(1000 * tile + k, r.random() < 0.6) for k in range(r.randrange(3, 14))] for tile in range(400, 418)}


TILE_EAST, TILE_NORTH, COLUMNS = 120, 90, 6  # metres of a tile, and how many lie in a row
CORNER = 519876543, -23456  # the south-west corner of the first row, in ten-millionths of a degree
METRE_NORTH, METRE_EAST = 89.932, 146.03  # ten-millionths of a degree, at this latitude
ASTRAY = 409001  # the partner's camera has this pit 70 metres off


def on_ground(sender, pit, row, column):
    """Where a camera sees a pit: on its tile, within a few metres. Every fifth one has no place."""
    if pit % 5 == 3:
        return None
    r, seen = random.Random(pit), random.Random(f"{sender} {pit}")
    east = TILE_EAST * (column + r.uniform(0.06, 0.94)) + seen.gauss(0, 1.5) + 70 * ((sender, pit) == (PARTNER, ASTRAY))
    north = TILE_NORTH * (2 - row + r.uniform(0.06, 0.94)) + seen.gauss(0, 1.5)
    return round(CORNER[0] + METRE_NORTH * north), round(CORNER[1] + METRE_EAST * east), 64 + round(north / 40) + seen.randrange(2)


def where(sender, pit):
    return on_ground(sender, pit, *divmod(pit // 1000 - 400, COLUMNS))


def flown(r, sender, tiles, first, version=1, seen=1.0):
    """The datagrams of one camera over some tiles, numbered from the first, each tile's in any order and some of them late once more."""
    out, pits = [], survey()
    for i, tile in enumerate(tiles):
        marks = [(pit, sure and r.random() < 0.8) for pit, sure in pits[tile] if r.random() < seen]
        sent = [(sender, d) for d in cut(first + i, b"TILE", pits_message(tile, marks, version, place=lambda pit: where(sender, pit)), 300)]
        r.shuffle(sent)
        out += sent + ([r.choice(sent)] if r.random() < 0.4 else [])
    return out


def mixed(r, *many):
    """Several senders at once, each in its own order."""
    waiting, out = [list(one) for one in many], []
    while any(waiting):
        one = r.choice([w for w in waiting if w])
        out.append(one.pop(0))
    return out


def stranger(first):
    """Lists of a stranger on the same net: pits that nobody dug, far away, one list of them on a tile of ours."""
    marks, far = [(1, 1), (2, 1), (3, 1)], lambda pit: (522345678 + 900 * pit, 3456789, 12) if pit < 3 else None
    return [(STRANGER, d) for i, tile in enumerate((402, 9000)) for d in cut(first + i, b"TILE", pits_message(tile, marks, place=far), 300)]


def paced(r, datagrams, first):
    """Entries as a flight of some minutes makes them."""
    out, tick = [], first
    for sender, d in datagrams:
        tick += r.choice([40, 60, 900, 9000, 21000])
        out.append((sender, tick, d))
    return out


def flights():
    """The first flight is one camera's. In the second both fly; the first camera reboots after six tiles and begins at 0 again, and the stranger is about.
    The third is the partner's alone, over tiles that were seen before, and the stranger again."""
    r = random.Random(3)
    first = flown(r, CAMERA, range(400, 408), 5000, seen=0.8)
    rebooted = flown(r, CAMERA, range(406, 412), 0) + flown(r, CAMERA, range(412, 416), 0)
    second = mixed(r, rebooted, flown(r, PARTNER, range(408, 414), 100, 2), stranger(70) + [(STRANGER, d) for d in strangers()[:3]])
    third = mixed(r, flown(r, PARTNER, [*range(400, 405), 416, 417], 0, 2), stranger(90))
    first, second, third = (paced(r, one, 1_700_040_000_000 + 86_400_000 * i) for i, one in enumerate((first, second, third)))
    return [log_of(first), log_of(second), first_log_of(third)]


NAMES = [f"samples/season-{i}.log" for i in (1, 2, 3)]
SEASON = flights()
FILES = dict(zip(NAMES, SEASON))
FILES["samples/season.txt"] = count(SEASON)[0].encode()
FILES["samples/season-cameras.txt"] = count(SEASON, senders=True, only=(CAMERA, PARTNER))[0].encode()
FILES["samples/season-strays.txt"] = strays(SEASON, NAMES)[0].encode()

# what docs/COUNT.md says of it: two tiles come from the camera that rebooted alone, and only with it forgotten; the stranger's tile goes with the stranger
LOST = (414, 415)
FORGOTTEN = count(SEASON[1:2], forgets=[(CAMERA, 25)])
assert [one[:2] for one in Season().fly(SEASON[1])][0] == (CAMERA, 25) and FILES["samples/season-strays.txt"].endswith(b"end 5\n")
assert not any(b"tile %d " % tile in FILES["samples/season.txt"] for tile in LOST)
assert all(f"tile {tile} " in FORGOTTEN[0] for tile in LOST) and FORGOTTEN[1:] == (0, [[]])
assert b"tile 9000 " in FILES["samples/season.txt"] and b"tile 9000 " not in FILES["samples/season-cameras.txt"]
