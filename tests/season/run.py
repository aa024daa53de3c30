"""Holds `qm count LOG..` with all its options, and `qm strays LOG..`, to the season of tests/model/season.py: seasons of random logs of both editions, with
reboots, strangers' lists, copies and repeated flights, cut anywhere and damaged; repeats that begin alike, and many of them; flights in another order; flights
longer than L9's 4,096 entries; both sides of what qm lends; each way of calling it wrongly; and that a hostile log costs no more than its length."""
import os
import random
import tempfile

from model import count as flights, season
from model.called import MEANING, no_room, qm
from model.count import cut, pits_message, ticked
from model.files import put, put_logs
from model.log import as_found, entries_in, log_of
from model.receiver import fragment, small
from model.tally import close, held, side_by_side


def written(folder, logs):
    return [os.fsdecode(path) for path in put_logs(folder, logs)]


# ---- random seasons

def flight(r):
    """A flight of a small world, in which keys come again with other bytes, of either edition; sometimes its first half twice, as a copy or after a reboot;
    sometimes cut, sometimes damaged."""
    entries = entries_in(flights.world(r.randrange(10**6)))[0]
    entries = entries[:r.choice([len(entries), r.randrange(len(entries) + 1)])]
    half = entries[:len(entries) // 2]
    if r.random() < 0.3:
        entries += half
    if r.random() < 0.3:
        # other tiles under the same numbers
        entries += [(s, t, d[:-5] + bytes([d[-5] ^ 1]) + d[-4:]) for s, t, d in half if len(d) > 40]
    if r.random() < 0.2:
        # more senders than the receiver remembers
        entries = [(s if r.random() < 0.5 else r.randrange(20), t, d) for s, t, d in entries]
    return as_found(r, entries)


def asked(r, logs):
    """Some options, as the model takes them and as words."""
    how, words = {}, []
    if r.random() < 0.15:
        how["whole"] = True
        words.append(["--whole"])
    if r.random() < 0.5:
        how["senders"] = True
        words.append(["--senders"])
    if r.random() < 0.3:
        how["only"] = r.sample([7, 8, 2**64 - 1, 3], r.randrange(1, 4))
        words += [["--from", str(s)] for s in how["only"]]
    if len(logs) == 1 and r.random() < 0.6:
        # at a stray, one before or one behind it, or anywhere
        at = [(s, max(1, e + r.randrange(-1, 2))) for s, e, _, _ in season.Season().fly(logs[0])] + [(r.choice([7, 8, 2**64 - 1]), r.randrange(1, 120))]
        how["forgets"] = [r.choice(at) for _ in range(r.randrange(1, 4))]
        words += [["--forget-at", f"{s}:{e}"] for s, e in how["forgets"]]
    r.shuffle(words)
    return how, [word for some in words for word in some]


def told(said, command, paths, logs, strays, whole):
    """Standard error names each log that is not whole, by which refusal and at which entry, and how many strays there are of which sender; with --whole
    only the first such log."""
    refused = season.broken(logs)
    good = True
    for i, entries, refusal in refused[:1] if whole else refused:
        good = good and f"qm {command}: {paths[i]}: refused {refusal}, " in said and MEANING[refusal] in said
        good = good and (f"entry {entries + 1}: the {entries} before it" in said or entries == 0 and "of its head: nothing of it" in said)
    for path, some in zip(paths, strays):
        for sender in sorted({s[0] for s in some})[:16]:
            mine = [s[1] for s in some if s[0] == sender]
            line = f"qm {command}: {path}: repeats that are no copies: {len(mine)} of sender {sender}, from entry {mine[0]} on;"
            good = good and line in said and f"`qm strays {path}`" in said and f"`qm count --forget-at {sender}:{mine[0]} {path}`" in said and f"`qm count --from SENDER {path}`" in said
    return good and (said != "") == (bool(refused) or any(strays))


def counted(paths, logs, how, words):
    status, got, said = qm("count", *words, *paths)
    expected, wanted, strays = season.count(logs, **how)
    if "forgets" in how:
        said = "".join(line for line in said.splitlines(True) if "nothing was forgotten" not in line)
    held((got, status) == (expected, wanted), f"qm count {words}, {len(logs)} logs, status {status}, {said!r}", got, expected)
    if expected in ("refused 60\n", "refused 61\n"):
        held(f"qm count: {paths[len(strays)]}: {expected[:-1]} at entry " in said, "what is full, on standard error", said, expected)
    else:
        held(told(said, "count", paths, logs, strays, how.get("whole")), f"qm count {words}, {len(logs)} logs, on standard error", said, str((season.broken(logs), strays)))
    return got


def listed(paths, logs):
    status, got, said = qm("strays", *paths)
    expected, wanted = season.strays(logs, paths)
    held((got, status) == (expected, wanted), f"qm strays, {len(logs)} logs, status {status}, {said!r}", got, expected)
    held(told(said, "strays", paths, logs, [], False), "qm strays, on standard error", said)


def tile_lines(got):
    return [line for line in got.split("\n") if line.startswith("tile")]


def tried(folder, seed):
    """One season: counted with some options, its strays; as it is, in another order and with a flight given once more, which have the same tile lines."""
    r = random.Random(seed)
    logs = [flight(r) for _ in range(r.choice([1, 1, 2, 3, 4]))]
    paths = written(folder, logs)
    counted(paths, logs, *asked(r, logs))
    listed(paths, logs)
    if seed % 3 == 0:
        other = [*range(len(logs)), r.randrange(len(logs))]
        r.shuffle(other)
        both = [counted([paths[i] for i in order], [logs[i] for i in order], {}, []) for order in (range(len(logs)), other)]
        held(tile_lines(both[0]) == tile_lines(both[1]), f"season {seed}: the tile lines in another order", both[1], both[0])


def repeated(folder, seed):
    """Repeats that only their last bytes tell apart, over one log and over two."""
    r = random.Random(seed)
    logs = [season.alike(r) for _ in range(1 + seed % 2)]
    paths = written(folder, logs)
    counted(paths, logs, {"only": [7]}, ["--from", "7"])
    counted(paths, logs, {}, [])
    listed(paths, logs)


def cuts(folder):
    """The second flight of the sample, cut at any place: what stands before the cut is counted."""
    whole = season.SEASON[1]
    r = random.Random(43)
    def one(i, at):
        path = os.path.join(folder, f"cut-{i}.log")
        put(path, whole[:at])
        counted([path], [whole[:at]], {}, [])
        if i % 4 == 0:
            listed([path], [whole[:at]])
    side_by_side(one, [0, 1, 2, 3, 4, 5, len(whole) - 1] + r.sample(range(6, len(whole)), 25))


# ---- what is long, and what is full

def long_flight(n):
    """A mast, a camera and a stranger for so many entries: more than L9 takes."""
    out = []
    for q in range(n // 4):
        out += [(99, small(q, b"MAST", b"wind %d" % q)), (5, b"is anybody there?")]
        out += [(7, d) for d in cut(q, b"TILE", pits_message(q % 300, [(q % 50, q % 3 == 0), (q % 7, 0)]), 70)] if q % 5 == 0 else [(8, small(q, b"TILE", pits_message(q % 9, [(q, 1)])))]
    return log_of(ticked(out))


def full():
    """Both sides of what qm lends, over one log and over two."""
    def flight(payloads, first=0):
        return log_of(ticked([(7, d) for i, p in enumerate(payloads, first) for d in cut(i, b"TILE", p, 65507)]))

    tiles = [pits_message(t, []) for t in range(season.TILES)]
    marks = [pits_message(9, [(i, i % 3 == 0) for i in range(at, at + 4096)], place=lambda pit: False) for at in range(0, season.PITS, 4096)]
    more = [pits_message(2**32 - 1, []), pits_message(9, [(10**6, 1)]), pits_message(9, [(5, 1)])]
    tiles, marks, more = flight(tiles), flight(marks), [flight([m]) for m in more]
    return [[tiles], [tiles, more[0]], [marks], [marks, more[1]], [marks, more[2]], [tiles, more[2], marks], [marks, tiles, season.SEASON[0]]]


def measured(folder):
    """What a hostile log costs: repeats of one key that are no copies and begin alike, and copies of one datagram; four times as many take no more than some
    six times as long."""
    def hostile(n):
        out = [small(5, b"TILE", b"first")]
        return log_of(ticked([(7, d) for d in out + [small(5, b"TILE", b"%099d" % i) for i in range(n)] + [fragment(9, 90, 0, 0, 2, b"x" * 80, b"TILE")] * n]))

    def seconds(n, path):
        put(path, hostile(n))
        before = os.times()
        status, got, _ = qm("strays", path)
        held(status == 0 and got.split("\n")[-2] == f"end {n}", f"{n} strays", got)
        return os.times().children_user - before.children_user

    path = os.path.join(folder, "hostile.log")
    idle, short, long = seconds(0, path), seconds(5000, path), seconds(20000, path)
    held(long - idle < 8 * (short - idle) + 0.5, f"20,000 hostile repeats took {long:.2f} s, 5,000 {short:.2f} s, none {idle:.2f} s")


# ---- how it is called

def calls(folder):
    good, other, broken = written(folder, [season.SEASON[1], season.SEASON[0], season.SEASON[0][:-1]])
    none = os.path.join(folder, "none.log")
    wrong = [((), "LOG: no log"), (("--senders",), "LOG: no log"), (("--other", good), "--other: "), (("-w", good), "-w: "), ((good, "--senders"), "--senders: options stand before"),
             (("--from",), "--from: "), (("--forget-at",), "--forget-at: "), (("--forget-at", "7:5", good, other), "--forget-at: it is for one log")]
    wrong += [(("--from", word, good), f"{word}: ") for word in ("7x", "18446744073709551616", "-1", "", good)]
    wrong += [(("--forget-at", word, good), f"{word}: ") for word in ("7", "7:", "7:0", ":5", "7:5:6", "x:5", "7:18446744073709551616", good)]
    for words, says in wrong:
        got = qm("count", *words)
        held(got[0] == 2 and got[1] == "" and got[2].startswith(f"qm count: {says}") and "\nusage: qm count " in got[2], f"qm count {words}", str(got), says)
    for words, says in [((), "LOG: no log"), (("--senders", good), "--senders: "), ((good, "--from"), "--from: ")]:
        got = qm("strays", *words)
        held(got[0] == 2 and got[1] == "" and got[2].startswith(f"qm strays: {says}") and "\nusage: qm strays LOG.." in got[2], f"qm strays {words}", str(got), says)
    for command in ("count", "strays"):
        # a file that is not there: nothing is printed, though another has something to say
        for path, why in [(none, "No such file or directory"), (folder, "Is a directory"), ("/dev/stdin", "not a file on disk")]:
            got = qm(command, good, path, other)
            held(got[0] == 1 and got[1] == "" and got[2].startswith(f"qm {command}: {path}: {why}"), f"qm {command} {path}", str(got))
        no_room(command, good, broken)
    got = qm("count", "--forget-at", "7:1000", "--forget-at", "7:1", good)
    held(got[0] == 0 and "--forget-at 7:1000: nothing was forgotten" in got[2] and "7:1:" not in got[2], "an entry that is not there", str(got))


LONG = long_flight(6000)
assert len(entries_in(LONG)[0]) > 4096
with tempfile.TemporaryDirectory() as top:
    def folder(i):
        os.mkdir(os.path.join(top, f"season-{i}"))
        return os.path.join(top, f"season-{i}")

    side_by_side(lambda i, seed: tried(folder(i), seed), range(90))
    side_by_side(lambda i, seed: repeated(folder(f"alike-{i}"), seed), range(40))
    cuts(top)
    for logs in [[LONG], [season.SEASON[0], LONG, LONG], [season.repeats(1), season.repeats(2), season.repeats(7000)]]:
        paths = written(top, logs)
        counted(paths, logs, {"senders": True}, ["--senders"])
        listed(paths, logs)
    side_by_side(lambda i, logs: counted(written(folder(f"full-{i}"), logs), logs, {}, []), full())
    calls(top)
    measured(top)
close()
