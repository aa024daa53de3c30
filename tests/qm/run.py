"""Holds qm to the Rattle programs: `qm list` prints what log_list prints, `qm replay` what replay_log prints, `qm index --print` what index_list and `qm find` what find of a whole log,
`qm gaps` of one sender what gaps prints of the same datagrams, on samples, on logs of both editions and at the edges of their limits, on broken and damaged ones;
and to the models in Python, written from the paper, for many senders and for logs longer than a program holds. Of each command its --help, and each failure: what it says, and its status."""
import os
import pty
import random
import tempfile
import threading

from model import kept
from model.called import MEANING, no_room, program, qm
from model.files import bytes_of, put
from model.index import MOST, keys, limits
from model.log import HOLDS, STORE, entries_in, entry_bytes, first_log_of, last_line, limits_in, log_of, seven
from model.receiver import MAX_PAYLOAD, Receiver, cut, read, small
from model.tally import close, held, side_by_side
from model.watch import Watch

COMMANDS = ("list", "replay", "gaps", "count", "pits", "strays", "index", "find", "show", "take", "cut", "join", "keep", "check", "import", "sums")
MANY = ("count", "pits", "strays", "sums", "keep")  # these read their words themselves, and say which is wrong
ENTRIES = ("show", "take", "cut", "join", "import")  # how these are called tests/entries and tests/import hold


def world(seed, senders):
    """Tiles and small messages of some senders, shuffled, with copies, restarts and noise."""
    r, entries = random.Random(seed), []
    for _ in range(60):
        sender, q = r.randrange(senders), r.choice([r.randrange(40), r.randrange(3000), 2**32 - 1 - r.randrange(3)])
        d = cut(q, b"TILE", bytes(r.randrange(400)), r.choice([96, 120, 700]))
        d += [small(q, b"MAST", b"x")] if r.randrange(3) == 0 else []
        d += [bytes(r.randrange(256) for _ in range(r.randrange(30)))] if r.randrange(5) == 0 else []
        entries += [(sender, x) for x in d + d[:1]]
    r.shuffle(entries)
    return [(s, 50 + 3 * i, d) for i, (s, d) in enumerate(entries)]


def damaged(seed):
    r = random.Random(seed)
    b = bytearray(log_of(world(seed, 3)[:r.randrange(9)]))
    for _ in range(r.randrange(1, 3)):
        at = r.randrange(len(b) + 1)
        b[at:at + r.randrange(2)] = bytes(r.choice([0, 1, 128, 255, 255]) for _ in range(r.randrange(3)))
    return bytes(b)


# ---- the models: gaps of a log, and a replay of any length

def lines(rows):
    return "\n".join(rows) + "\n"


def gaps_of(b):
    entries, refusal = entries_in(b)
    watch, out = Watch(), []
    for i, (sender, _, d) in enumerate(entries):
        said = read(d, MAX_PAYLOAD)
        out.append(f"{i + 1} " + (f"refused {said}" if isinstance(said, int) else watch.see(sender, said["sequence"])))
    return lines(out + [last_line(entries, refusal)])


def told_of(b):
    """All that is told of each entry: the receiver's answer, what the datagram says, and what the watch notes of it."""
    entries, refusal = entries_in(b)
    receiver, watch, out = Receiver(8 * MAX_PAYLOAD, *limits_in(b)), Watch(), []
    for i, (sender, tick, d) in enumerate(entries):
        answer, emptied, key = receiver.receive(sender, d).partition(" emptied")
        words, said = [f"{i + 1} sender {sender} tick {tick} length {len(d)} {answer}"], read(d, MAX_PAYLOAD)
        if not isinstance(said, int):
            noted = watch.see(sender, said["sequence"])
            words += ["small" if said["small"] else f"fragment {said['number']} of {said['count']}", f"sequence {said['sequence']}", "unwatched" if noted == "refused 14" else noted]
        out.append(" ".join(words) + emptied + key)
    return lines(out + [last_line(entries, refusal)])


def replay_of(b, store=STORE):
    """As replay_log, of a log of any length."""
    entries, refusal = entries_in(b)
    receiver = Receiver(store, *limits_in(b))
    return lines([f"{i + 1} {receiver.receive(s, d)}" for i, (s, _, d) in enumerate(entries)] + [last_line(entries, refusal)])


# ---- one call

def tried(command, path, b, expected, *more, option=()):
    status, got, said = qm(command, *option, path, *more)
    refused = entries_in(b)[1]
    good = got == expected and status == (3 if refused else 0)
    good = good and (said.startswith(f"qm {command}: {path}: refused {refused}, ") and MEANING[refused] in said if refused else said == "")
    held(good, f"qm {command}, a log of {len(b)} bytes, status {status}, {said!r}", got, expected)


def looked_up(path, b, *keys):
    """The index and some keys; of a log that is refused up to there, which no program tells."""
    tried("index", path, b, kept.printed(b)[0], option=["--print"])
    for sender, sequence in keys:
        tried("find", path, b, kept.find(b, sender, sequence)[0], str(sender), str(sequence))


def all_of(path, b):
    """Each command on one log, beside the programs and the models."""
    put(path, b)
    tried("list", path, b, LIST(b))
    tried("replay", path, b, replay_of(b, 8 * MAX_PAYLOAD))
    for words, expected in ((("--store", str(STORE)), REPLAY(b)), (("--store", "1000"), replay_of(b, 1000))):
        got = qm("replay", *words, path)[1]
        held(got == expected, f"qm replay {words}", got, expected)
    tried("gaps", path, b, gaps_of(b))
    got, expected = qm("list", "--told", path)[1], told_of(b)
    held(got == expected, "qm list --told", got, expected)
    rows = kept.rows_of(b)
    some = [row[:2] for row in rows[:2] + rows[-1:]] + [(3, 2**32 - 1), (2**64 - 1, 0)]
    looked_up(path, b, *some)
    if entries_in(b)[1] is None and len(rows) <= MOST:
        held(INDEX(b) == kept.printed(b)[0], "the model of the index", kept.printed(b)[0], INDEX(b))
        for sender, sequence in some:
            expected = FIND(b, str(sender), str(sequence))
            held(expected == kept.find(b, sender, sequence)[0], f"the model of find {sender} {sequence}", kept.find(b, sender, sequence)[0], expected)


def one_sender(path, entries):
    """The lines of gaps are the program's, which takes all datagrams for one sender's."""
    put(path, log_of([(0, t, d) for _, t, d in entries]))
    got, expected = qm("gaps", path)[1], GAPS(b"".join(len(d).to_bytes(2, "big") + d for _, _, d in entries))
    held(got == expected, "qm gaps beside gaps", got, expected)


def long_ones(folder):
    """Logs that no program holds, and more keys than an index of L11 has."""
    path = os.path.join(folder, "flight.log")
    b = log_of([(3, i, small(i, b"MAST", bytes(65000))) for i in range(3 * HOLDS // 65000)])
    full = log_of([(i % 3, i, small(i, b"MAST", b"")) for i in range(4096)])
    over = full + entry_bytes(9, 9, small(9, b"MAST", b""))
    for log in (b, full + entry_bytes(9, 9, b"no key"), over, over + b"\5"):
        put(path, log)
        tried("replay", path, log, replay_of(log, 8 * MAX_PAYLOAD))
        tried("gaps", path, log, gaps_of(log))
        looked_up(path, log, (3, 7))


def on_terminal(*words, both=False):
    """Its status, what it printed, and what it said on a terminal; or all on one terminal. The terminal is read meanwhile: it holds little, and whoever writes more waits."""
    ours, theirs = pty.openpty()
    said = []

    def listen():
        try:
            while piece := os.read(ours, 65536):
                said.append(piece)
        except OSError:  # nobody has the other end any more
            pass

    listener = threading.Thread(target=listen)
    listener.start()
    status, got, _ = qm(*words, stderr=theirs, **({"stdout": theirs} if both else {}))
    os.close(theirs)
    listener.join()
    os.close(ours)
    return status, got, b"".join(said).decode()


def progress(folder):
    """How far a long log is read: on standard error where that is a terminal, and taken off at the end. Of one call over the
    whole log, that which sorts an index, it is how long it takes."""
    path, off = os.path.join(folder, "long.log"), "\r\x1b[K"
    for n, told in ((300, True), (200, False)):
        put(path, log_of([(3, i, bytes(65000)) for i in range(n)]))
        for words, after, last, alone in ((("list",), (), f"end {n}\n", False), (("count",), (), "lists 0\n", True), (("strays",), (), "end 0\n", True), (("pits",), (), "", True),
                                          (("pits", "--marks"), (), "", True), (("sums",), (), "brought 0\n", True), (("take",), ("3", "9"), "", True), (("gaps", "--missing"), (), "end 0\n", True)):
            command, first = words[0], f"\rqm {words[0]}: {path}: 1%\r"
            status, got, said = on_terminal(*words, path, *after)
            good = said.startswith(first) and f"100%{off}" in said if told else "%" not in said
            held(status == (3 if after else 0) and got.endswith(last) and good, f"qm {words}, {n} long entries, on a terminal", said, got)
            # where the lines go to the same terminal they are told from it, unless there is one for each entry
            said = on_terminal(*words, path, *after, both=True)[2]
            held(said.startswith(first) == (told and alone) and said.split(off)[-1].replace("\r\n", "\n").startswith(got), f"qm {words}, all on one terminal", said)
        status, got, said = on_terminal("index", "--print", path)
        good = said.startswith(f"\rqm index: {path}: 1%\r") and f"100%{off}\rqm index: {path}: 18 MB, 0 s" in said and said.endswith(f" s{off}") if told else said == ""
        held(status == 0 and good, f"qm index, {n} long entries, on a terminal", said)
    # a line that comes meanwhile stands alone, and it is told on below it; the log is gone over a second time up to the last one
    put(path, log_of([(3, i, bytes(65000)) if i not in (100, 150, 250) else (9, i, small(5, b"T", bytes([i]))) for i in range(300)]))
    said = on_terminal("strays", path, both=True)[2]
    line = f"{off}log {path} sender 9 entry {{0}} tick {{1}} sequence 5\r\n".format
    good = f"100%{off}\rqm strays: {path}: 1%\r" in said and line(151, 150) + f"\rqm strays: {path}: 50%\r" in said
    held(good and said.endswith(line(251, 250) + "end 2\r\n") and said.count(off) == 3, "qm strays, a line meanwhile", said)


def failures(folder):
    some = os.path.join(folder, "flight.log")
    put(some, bytes_of("samples/flight.log"))
    for command in COMMANDS:
        after = ("1", "2") if command == "find" else ()
        got = qm(command, "--help")
        held(got[0] == 0 and got[1].startswith(f"usage: qm {command} ") and len(got[1]) > 100 and got[2] == "", f"qm {command} --help", str(got))
        if command in ENTRIES:
            continue
        for words in [(), ("--other", some) + after] + ([] if command in MANY else [(some,) * 2 + after]):
            got = qm(command, *words)
            held(got[0] == 2 and got[1] == "" and (got[2].startswith(f"qm {command}: ") and f"\nusage: qm {command} " in got[2]), f"qm {command} {words}", str(got))
        if command == "keep":
            continue
        for path, why in [(os.path.join(folder, "none.log"), "No such file or directory"), (folder, "Is a directory"), ("/dev/stdin", "not a file on disk")]:
            got = qm(command, path, *after)
            held(got[0] == 1 and got[1] == "" and got[2].startswith(f"qm {command}: {path}: {why}"), f"qm {command} {path}", str(got))
        # the flight has no pit, but a table has heads
        no_room(command, *(("--csv",) if command == "pits" else ()), some, *after)
    for words, wrong in [(("1", "4294967296"), "4294967296: SEQUENCE"), (("18446744073709551616", "1"), "18446744073709551616: SENDER"), (("-1", "1"), "-1: SENDER"), (("", "1"), ": SENDER"), (("1", "2x"), "2x: SEQUENCE"), (("0x1", "1"), "0x1: SENDER"),
                         ((), "SENDER: it is missing"), (("1",), "SEQUENCE: it is missing"), (("1", "2", "3"), "3: one word too many")]:
        got = qm("find", some, *words)
        held(got[0] == 2 and got[1] == "" and got[2].startswith(f"qm find: {wrong}") and "\nusage: qm find" in got[2], f"qm find {words}", str(got))
    for words, wrong in [(("x",), "x: PLACE"), ((), "PLACE: it is missing")]:
        got = qm("show", some, *words)
        held(got[0] == 2 and got[1] == "" and got[2].startswith(f"qm show: {wrong}") and "\nusage: qm show" in got[2], f"qm show {words}", str(got))
    for words, wrong in [((some, "--told"), "--told: options stand"), (("--told",), "LOG: no log"), (("--told", some, some), f"{some}: one log is named")]:
        got = qm("list", *words)
        held(got[0] == 2 and got[1] == "" and got[2].startswith(f"qm list: {wrong}"), f"qm list {words}", str(got))
    for words, wrong in [(("--store",), "--store: how many"), (("--store", "8388609", some), "8388609: --store takes"), (("--store", "x", some), "x: --store takes"), ((some, "--large"), "--large: options stand")]:
        got = qm("replay", *words)
        held(got[0] == 2 and got[1] == "" and got[2].startswith(f"qm replay: {wrong}"), f"qm replay {words}", str(got))
    held(qm()[0] == 2 and qm()[2].startswith("usage: qm COMMAND"), "qm")
    for words in [("tell", some), ("--helpme",), ("help", "tell"), ("--version", "x")]:
        got = qm(*words)
        held(got[0] == 2 and got[1] == "" and got[2].startswith(f"qm: {words[-1] if words[0] == 'help' else words[0]}: there is no such command"), f"qm {words}", str(got))
    for same in (("-h",), ("help",)):
        held(qm(*same) == qm("--help"), f"qm {same}")
    for same in (("list", "-h"), ("help", "list")):
        held(qm(*same) == qm("list", "--help"), f"qm {same}")
    got = qm("--version")
    held(got[0] == 0 and got[1] == "qm 1.0\n" and got[2] == "", "qm --version", str(got))
    got = qm("--help")
    held(got[0] == 0 and all(f"qm {c} " in got[1] for c in COMMANDS) and got[2] == "", "qm --help", str(got))


LIST, REPLAY, GAPS, INDEX, FIND = program("log_list"), program("replay_log"), program("gaps"), program("index_list"), program("find", "0", "0")
SHORT = log_of(world(1, 2)[:4])
LOGS = [bytes_of(name) for name in ("samples/flight.log", "samples/late-copies.log", "samples/two-cameras.log", "crates/log_list/stdin", "crates/replay_log/stdin")]
LOGS += [SHORT[:n] for n in sorted({*range(9), 10, 15, 20, 21, 22, 23, *range(0, len(SHORT), 7), len(SHORT) - 1})] + [b"\3" + SHORT[1:], b"\1\5\5" + b"\x80\x80\x04", b"\1\x80\0"]
# both editions, and fragments on both sides of their limits; a payload that only slots of the largest one take
LARGE = [(4, 7, d) for d in cut(3, b"TILE", bytes(300000), 60000)]
LOGS += [first_log_of(world(2, 3)), log_of(world(2, 3), 200)] + [make(keys(7, 40) + limits() + LARGE) for make in (first_log_of, log_of)]
LOGS += [log_of(limits() + LARGE, limit) for limit in (0, 100, 262144, 262145, 299999, 300000)]
LOGS += [b"\2" + head + SHORT[4:] for head in (seven(1048576), seven(1048577), seven(2**64 - 1), b"\x80\0", b"\xff" * 9 + b"\2")] + [b"\2", b"\2\x80", b"\2\x80\x80"]
LOGS += [log_of(world(seed, senders)) for seed in range(4) for senders in (1, 5, 20)] + [damaged(seed) for seed in range(60)]
# what is never met is not tested
SAID = "".join(gaps_of(b) for b in LOGS) + "".join(replay_of(b) for b in LOGS)
for word in ("first", "forward", "same", "late", "restarted", "refused 14", "refused 7", "kept", "repeat", "delivered", "emptied", "refused 5", "refused 6", "refused 40 after", "refused 41 after", "refused 42 after", "refused 43 after", "refused 45 after"):
    assert f" {word}" in SAID or f"\n{word}" in SAID, word
assert any(replay_of(b, 8 * MAX_PAYLOAD) != replay_of(b) for b in LOGS)
with tempfile.TemporaryDirectory() as folder:
    side_by_side(lambda i, b: all_of(os.path.join(folder, f"{i}.log"), b), LOGS)
    side_by_side(lambda i, seed: one_sender(os.path.join(folder, f"one-{i}.log"), world(seed, 4)), range(10))
    long_ones(folder)
    progress(folder)
    failures(folder)
close()
