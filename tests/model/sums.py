"""What `qm sums LOG..` prints, in plain Python: everything is kept, and added up at the end. It stands on the receiver, the watch, the log and the season beside it;
its own rules are how a clock is drawn, and what is left out of a long list."""
from heapq import nlargest
from itertools import accumulate

from .entries import ranges
from .log import entries_in, last_line, limits_in
from .pits import line_of, season_of
from .receiver import MAX_PAYLOAD, Receiver, read
from .season import STORE, Season, broken
from .watch import Watch

ROWS, LANES, BARS, STEPS, STRAYS, MARKS, STRETCHES = 100, 16, 120, 5, 16, 20, 8
NEAR = 4496  # ten-millionths of a degree that are under 50 metres
ANSWERS = ("delivered", "kept", "repeat", "refused")
NOTES = ("forward", "late", "restarted")


def clock(ticks):
    """Of each entry the bar that it is in, and the steps that are not drawn as long as they are: entry, how far, tick."""
    steps = [b - a for a, b in zip(ticks, ticks[1:])]
    on = [step for step in steps if step > 0]
    usual = max(1, sum(on) - sum(nlargest(1 + len(ticks) // 1000 + min(len(ticks) // 8, 7), on)))
    short, wide = max(1, usual // 20), usual if len(ticks) > 3 else 2**64
    drawn = [short if step > wide else max(step, 0) for step in steps]
    bars = [now * BARS // (sum(drawn) + 1) for now in accumulate(drawn, initial=0)]
    return bars, [(i, step, ticks[i - 1]) for i, step in enumerate(steps, 2) if step > wide or -step > short]


def answers(log):
    """Of each entry its sender, its tick, its answer, what the watch notes, and what it says where it is a fragment that was taken; and the messages that never
    completed, those that were given up first."""
    receiver, watch, rows, lost, parts = Receiver(STORE, *limits_in(log)), Watch(), [], [], {}
    for sender, tick, d in entries_in(log)[0]:
        words = receiver.receive(sender, d).split()
        said = read(d, MAX_PAYLOAD)
        rows.append((sender, tick, words, [] if isinstance(said, int) else watch.see(sender, said["sequence"]).split()))
        if "emptied" in words:
            lost.append(parts.pop((int(words[-2]), int(words[-1]))))
        if words[0] in ("kept", "delivered") and not said["small"]:
            key = sender, said["sequence"]
            part = parts.setdefault(key, {"key": key, "n": said["count"], "held": set(), "first": tick})
            part["held"].add(said["number"])
            part["last"] = tick
            if words[0] == "delivered":
                del parts[key]
    return rows, lost, sorted(parts.values(), key=lambda part: (part["first"], part["key"]))


def missing_of(part):
    """Eight stretches, and how many fragments are in the others."""
    some = ranges([k for k in range(part["n"]) if k not in part["held"]]).split(", ")
    rest = sum(int(s.split(" to ")[-1]) - int(s.split(" to ")[0]) + 1 for s in some[STRETCHES:])
    return ", ".join(some[:STRETCHES]) + (f" and {rest} more" if rest else "")


def by_answer(words):
    return [sum(w[0] == one for w in words) for one in ANSWERS]


def by_note(notes):
    return [sum(int(n[1]) for n in notes if n[0] == "forward")] + [sum(n[0] == one for n in notes) for one in NOTES[1:]]


def answers_text(numbers):
    return "delivered {} kept {} repeated {} refused {}".format(*numbers)


def notes_text(numbers):
    return "passed {} late {} restarts {}".format(*numbers)


def lane_lines(rows, bars, senders):
    """The bars of some senders."""
    lines = []
    for bar in range(BARS):
        mine = [row for row, at in zip(rows, bars) if at == bar and row[0] in senders]
        if mine:
            lines.append(f"bar {bar} {answers_text(by_answer([row[2] for row in mine]))} {notes_text(by_note([row[3] for row in mine if row[3]]))}")
    return lines


def flight(log, name):
    """The lines of a log."""
    entries, refusal = entries_in(log)
    rows, given_up, left = answers(log)
    ticks, count = [row[1] for row in rows], {}
    for row in rows:
        count[row[0]] = count.get(row[0], 0) + 1
    lines = [f"log {name}", last_line(entries, refusal)] + ([f"first {ticks[0]} last {ticks[-1]}"] if ticks else []) + [f"senders {len(count)}"]
    lines += [f"sender {s} datagrams {count[s]} {answers_text(by_answer([row[2] for row in rows if row[0] == s]))}" for s in sorted(count)[:ROWS]]
    found = [(s, by_note([row[3] for row in rows if row[0] == s and row[3]])) for s in sorted(count)]
    lines += [f"watch sender {s} {notes_text(numbers)}" for s, numbers in found if any(numbers)]
    lines += ["unwatched"] * any(row[3] == ["refused", "14"] for row in rows)
    bars, stepped = clock(ticks) if ticks else ([], [])
    lines += [f"steps {len(stepped)}"] + [f"step {'on' if by > 0 else 'back'} {abs(by)} entry {entry} tick {tick}" for entry, by, tick in stepped[:STEPS]]
    busiest = sorted(count, key=lambda s: (-count[s], s))
    for s in sorted(busiest[:LANES]):
        lines += [f"lane sender {s} datagrams {count[s]}"] + lane_lines(rows, bars, {s})
    others = busiest[LANES:]
    if others:
        lines += [f"lane others {len(others)} datagrams {sum(count[s] for s in others)}"] + lane_lines(rows, bars, set(others))
    lines.append(f"incomplete {len(given_up) + len(left)} given-up {len(given_up)}")
    for part in (given_up + left)[:ROWS]:
        lines.append("incomplete sender {} sequence {}".format(*part["key"]) + f" kept {len(part['held'])} of {part['n']} first {part['first']} last {part['last']} missing {missing_of(part)}")
    strays = Strays().fly(log)
    of = sorted({s for s, *_ in strays})
    lines.append(f"strays {len(of)}")
    lines += [f"stray sender {s} times {sum(x[0] == s for x in strays)} entry {next(x[1] for x in strays if x[0] == s)}" for s in of[:STRAYS]]
    numbers = [int(row[2][1]) for row in rows if row[2][0] == "refused"]
    return lines + [f"refused {n} datagrams {numbers.count(n)}" for n in sorted(set(numbers))]


class Strays(Season):
    """For its strays, however many pits there are."""

    def enter(self, tile, marks):
        pass


def hull(places):
    """The outermost of some places, by rising latitude and then back."""
    def half(some):
        out = []
        for p in some:
            while len(out) > 1 and (out[-1][0] - out[-2][0]) * (p[1] - out[-2][1]) <= (out[-1][1] - out[-2][1]) * (p[0] - out[-2][0]):
                out.pop()
            out.append(p)
        return out[:-1]

    places = sorted(set(places))
    return half(places) + half(places[::-1]) if len(places) > 2 else places


def is_wide(places):
    lats, lons = [p[0] for p in places], [p[1] for p in places]
    return bool(places) and (max(lats) - min(lats)) ** 2 + (max(lons) - min(lons)) ** 2 > NEAR ** 2


def season(logs, names):
    """The lines of all logs, as bytes: the count, the pits with what may lie far apart, and who brought them."""
    pits = season_of(logs, names)
    if isinstance(pits, int):
        return [b"refused %d" % pits]
    lines, of = [line.encode() for line in pits.lines(False)], {}
    for m in pits.marks:
        of.setdefault((m["tile"], m["pit"]), []).append(m)
    for row in pits.rows():
        lines.append(line_of(row))
        marks = of[row["tile"], row["pit"]]
        places = [(m["lat"], m["lon"]) for m in marks if "lat" in m]
        if is_wide(places):
            lines.append(("corners " + " ".join(f"{lat} {lon}" for lat, lon in hull(places))).encode())
            for m in marks[:MARKS]:
                where = f" lat {m['lat']} lon {m['lon']}" if "lat" in m else ""
                lines.append(f"mark sure {m['sure']}{where} sender {m['sender']} tick {m['tick']} log ".encode() + m["log"])
    lines.append(b"brought %d" % len(pits.lists))
    for s, n in sorted(pits.lists.items())[:ROWS]:
        mine = [some for some in of.values() if any(m["sender"] == s for m in some)]
        sure, alone = sum(any(m["sure"] for m in some) for some in mine), sum(all(m["sender"] == s for m in some) for some in mine)
        lines.append(b"brought sender %d lists %d pits %d sure %d alone %d" % (s, n, len(mine), sure, alone))
    return lines


def sums(logs, names):
    """What is printed of these logs, under these names, and the status."""
    lines = [line.encode("latin1") for log, name in zip(logs, names) for line in flight(log, name.decode("latin1"))]
    found = season(logs, names)
    return b"".join(line + b"\n" for line in lines + [b"season"] + found), 3 if broken(logs) or found[0].startswith(b"refused") else 0
