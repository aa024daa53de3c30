"""What comes out of a log: `qm show`, `qm take`, `qm take --all`, `qm gaps --missing`, `qm gaps --acks`, `qm cut` and `qm join`, on random logs of both editions,
cut and damaged ones among them, beside the model tests/model/entries.py, written from the papers. The numbers that came go through the proved program
ack_bytes. Then the files that are written: whole or not at all, and none over another; and each way of calling the commands wrongly."""
import fcntl
import os
import random
import resource
import tempfile

from model import acks, entries as model
from model.called import no_room, program, qm, raw
from model.files import bytes_of, put
from model.index import limits
from model.log import entries_in, first_log_of, hurt, log_of
from model.receiver import MAX_PAYLOAD, cut, fragment, small
from model.tally import close, held, side_by_side

NAMES = [b"TILE", b"TILE", b"PITS", "CAMÉRA".encode(), b"a\\b c", b"~" * 63, "\u0080\u009b2J".encode(), "\U0001f642".encode()]
SENDERS = [7, 8, 0, 99, 2**32, 2**64 - 1]


def file(folder, name, b=None):
    path = os.path.join(folder, name)
    if b is not None:
        put(path, b)
    return path


def printed(*words):
    """Its status, the bytes that it printed and what it said on standard error."""
    status, got, said = raw(*words)
    return status, got, said.decode()


# ---- random logs

def message(r, q):
    """The datagrams of a message: some lost, some twice, sometimes one that disagrees."""
    d = cut(q, r.choice(NAMES), r.randbytes(r.choice([0, 1, 60, 200, r.randrange(700)])), r.choice([96, 120, 700]))
    if r.random() < 0.3:
        d = r.sample(d, r.randrange(len(d) + 1))
    if d and r.random() < 0.3:
        d.append(r.choice(d))
    if d and r.random() < 0.1:
        d.append(d[0][:-1] + bytes([d[0][-1] ^ 1]))
    return d


def world(seed):
    """Some senders whose messages come mixed, so that slots are taken from each other; numbers that are lost, late, turn at 2^32 and begin anew; keys that come
    again when they are forgotten; noise and limits."""
    r, out = random.Random(seed), []
    senders = r.sample(SENDERS, r.randrange(1, len(SENDERS))) + (list(range(1000, 1014)) if r.random() < 0.2 else [])
    for sender in senders:
        q = r.choice([0, 500, 5000, 2**32 - 9, 2**31 - 5])
        for _ in range(r.choice([3, 8, 8, 14])):
            out.append([(sender, d) for d in message(r, q % 2**32)])
            q = r.choice([q + 1, q + 1, q + 2, q + r.randrange(9), q - r.randrange(6), q + 2**31 - 1, q - 1024, q - 1025, 0])
    r.shuffle(out)
    if r.random() < 0.4:
        # a key that comes again after 32 others of its sender
        again = (senders[0], small(77, b"TILE", b"again"))
        for i in range(2):
            out += [[again]] + [[(senders[0], small(9000 + 40 * i + k, b"MAST", b""))] for k in range(33)]
        out.append([again])
    flat = [e for some in out for e in some]
    for i in range(len(flat)):
        # near each other, or anywhere
        j = min(len(flat) - 1, i + r.randrange(4 if seed % 3 else len(flat)))
        flat[i], flat[j] = flat[j], flat[i]
    flat += [(r.choice(senders), r.choice([b"", b"hello?", small(5, b"", b"x"), fragment(5, 90, 1, 0, 2, b"x" * 9, b"T")])) for _ in range(3)]
    ticks = sorted(r.randrange(2000) for _ in flat) if seed % 2 else [r.choice([0, 5, 2**64 - 1, r.randrange(2000)]) for _ in flat]
    es = [(s, t, d) for t, (s, d) in zip(ticks, flat)]
    if r.random() < 0.3:
        es += limits()
    return hurt(r, r.choice([log_of(es), log_of(es), first_log_of(es), log_of(es, r.choice([0, 100, 300, 262144]))]), 0.2)


def ended(said, command, path, b):
    """What is said of a log that is not whole, and nothing else of one that is."""
    refusal = entries_in(b)[1]
    return (f"qm {command}: {path}: refused {refusal}, " if refusal is not None else "") in said and (refusal is not None or f"{path}: refused " not in said)


# ---- one log

def shown(path, b, r):
    places = [at for at, *_ in model.placed(b)[0]]
    some = r.sample(places, min(3, len(places))) + places[-1:]
    wrong = r.sample([0, 1, len(b) - 1, len(b), len(b) + 1, 2**64 - 1] + [p + 1 for p in some], 2)
    for place in some + wrong:
        status, got, said = qm("show", path, str(place))
        expected, wanted = model.show(b, place)
        good = ended(said, "show", path, b) and (f"qm show: {path}: no entry begins at place {place}: " in said) == (expected == "")
        held((got, status) == (expected, wanted) and good, f"qm show {place}, status {status} {said!r}", got, expected)


def keys_of(b, r):
    """Some that are delivered, some that are delivered alone, some that are not complete, and one that is not there."""
    kinds = {}
    for key in model.keyed(b):
        found = model.take(b, *key)
        kinds.setdefault("none" if found is None else "alone" if found[1] else "whole", set()).add(key)
    return [key for kind in sorted(kinds) for key in r.sample(sorted(kinds[kind]), min(2, len(kinds[kind])))] + [(7, 123456)], set(kinds)


def taken(path, b, r):
    keys, kinds = keys_of(b, r)
    for sender, sequence in keys:
        expected = model.take(b, sender, sequence)
        status, got, said = printed("take", path, str(sender), str(sequence))
        wanted = b"" if expected is None else expected[0][0]
        good = status == model.status_of(b, expected is not None) and ended(said, "take", path, b)
        good = good and (f"sequence {sequence}: a replay of the log delivers no such message" in said) == (expected is not None and expected[1])
        if expected is None:
            good = good and f"qm take: {path}: sender {sender} sequence {sequence}: {model.not_complete(b, sender, sequence)}" in said
        held(got == wanted and good, f"qm take {sender} {sequence}, status {status}, {said!r}", str(got), f"{wanted} {expected is None and model.not_complete(b, sender, sequence)}")
    status, got, said = qm("take", "--name", path, str(sender := keys[0][0]), str(sequence := keys[0][1]))
    expected = model.take(b, sender, sequence)
    wanted = "" if expected is None else model.name_text(expected[0][1]) + "\n"
    held((got, status) == (wanted, model.status_of(b, expected is not None)), f"qm take --name {sender} {sequence}", got, wanted)
    return kinds


def taken_all(folder, path, b, r):
    to = os.path.join(folder, "taken")
    if r.random() < 0.5:
        os.mkdir(to)
    status, got, said = qm("take", "--all", to, path)
    expected, files = model.take_all(b)
    held((got, status) == (expected, model.status_of(b)) and ended(said, "take", path, b), f"qm take --all, status {status}, {said!r}", got, expected)
    there = {name: bytes_of(os.path.join(to, name)) for name in os.listdir(to)}
    held(there == files, "qm take --all, the files", str(sorted(there)), str(sorted(files)))
    return any(name.count("-") == 2 for name in files)


def numbered(path, b, r):
    status, got, said = qm("gaps", "--missing", path)
    expected, others = model.missing(b)
    good = ended(said, "gaps", path, b) and (f"room for 16 senders: {others} entries of others" in said) == (others > 0)
    held((got, status) == (expected, model.status_of(b)) and good, f"qm gaps --missing, status {status}, {said!r}", got, expected)
    for sender in r.sample(SENDERS, 2):
        status, got, said = printed("gaps", "--acks", str(sender), path)
        expected = model.came(b, sender)
        held((got, status) == (expected, model.status_of(b)) and ended(said, "gaps", path, b), f"qm gaps --acks {sender}, status {status}", got.hex(), expected.hex())
    return got


def cut_asked(r, b):
    """Some options, as the model takes them and as words."""
    es, how, words = entries_in(b)[0], {}, []
    ticks = [t for _, t, _ in es] + [0, 2**64 - 1]
    for name, values in (("from-tick", ticks), ("to-tick", ticks), ("from-entry", range(len(es) + 3)), ("to-entry", range(len(es) + 3))):
        if r.random() < 0.4:
            how[name.replace("-", "_")] = value = r.choice(values)
            words.append([f"--{name}", str(value)])
    if r.random() < 0.5:
        how["senders"] = r.sample(SENDERS, r.randrange(1, 3))
        words += [["--sender", str(s)] for s in how["senders"]]
    words.append(["-o"])
    r.shuffle(words)
    return how, words


def cut_one(folder, path, b, r):
    for i in range(2):
        out, (how, words) = os.path.join(folder, f"cut-{i}.log"), cut_asked(r, b)
        words = [w for some in words for w in (some + [out] if some == ["-o"] else some)]
        status, got, said = qm("cut", *words, path)
        expected, many = model.cut_out(b, **how)
        written = bytes_of(out) if os.path.exists(out) else None
        good = written == expected and got == (f"entries {many}\n" if expected is not None else "") and status == model.status_of(b) and ended(said, "cut", path, b)
        held(good and not os.path.exists(out + ".part"), f"qm cut {words}, status {status}, {said!r}", str(written), str(expected))


def all_of(folder, seed):
    r, b = random.Random(seed), world(seed)
    os.mkdir(folder)
    path = file(folder, "flight.log", b)
    shown(path, b, r)
    kinds = taken(path, b, r)
    again = taken_all(folder, path, b, r)
    numbered(path, b, r)
    cut_one(folder, path, b, r)
    return kinds | ({"again"} if again else set())


# ---- several

def join(folder, seed):
    r = random.Random(seed)
    logs = [world(1000 * seed + i) for i in range(r.choice([1, 2, 3, 4]))]
    if seed % 4 == 0:
        logs = [first_log_of(entries_in(b)[0]) for b in logs]
    os.mkdir(folder)
    paths, out = [file(folder, f"{i}.log", b) for i, b in enumerate(logs)], os.path.join(folder, "out.log")
    status, got, said = qm("join", "-o", out, *paths)
    expected, many = model.joined(logs)
    written = bytes_of(out) if os.path.exists(out) else None
    good = written == expected and got == (f"entries {many}\n" if expected is not None else "") and status == max(map(model.status_of, logs))
    told = [i for i, path in enumerate(paths) if f"qm join: {path}: of edition 1, " in said]
    good = good and told == model.told_editions(logs) and all(ended(said, "join", p, b) for p, b in zip(paths, logs))
    held(good, f"qm join, {len(logs)} logs, status {status}, {said!r}", str(written), str(expected))
    return {"mixed"} if told else {"first"} if expected and expected[0] == 1 else {"second"}


def round_trip(folder):
    """A log that is cut in two anywhere, and joined, is the log again."""
    b = bytes_of("samples/two-cameras.log")
    path, first, second, both = file(folder, "whole.log", b), *(os.path.join(folder, f"{n}.log") for n in ("first", "second", "both"))
    for n in (0, 1, 17, len(entries_in(b)[0])):
        qm("cut", "--replace", "--to-entry", str(n), "-o", first, path)
        qm("cut", "--replace", "--from-entry", str(n + 1), "-o", second, path)
        qm("join", "--replace", "-o", both, first, second)
        held(bytes_of(both) == b, f"cut behind entry {n} and joined")


def acknowledged(folder):
    """The numbers that came, through the proved program: it acknowledges them. More than it holds are several records."""
    for name in ("flight", "late-copies", "season-2"):
        b = bytes_of(f"samples/{name}.log")
        path = file(folder, "acks.log", b)
        for sender in sorted({s for s, _, _ in entries_in(b)[0]}):
            expected = model.came(b, sender)
            status, got, said = printed("gaps", "--acks", str(sender), path)
            held((status, got, said) == (0, expected, ""), f"qm gaps --acks {sender}, {name}", got.hex(), expected.hex())
            held(ACK_BYTES(got) == acks.lines(expected, acks.bytes_line), "ack_bytes of it", ACK_BYTES(got))
    many = list(range(3, 3 + acks.HOLDS)) + [2**32 - 1]
    for numbers in (many[:-1], many):
        random.Random(1).shuffle(numbers)
        path = file(folder, "acks.log", log_of([(5, 0, small(n, b"M", b"")) for n in numbers]))
        status, got, said = printed("gaps", "--acks", "5", path)
        held(status == 0 and got == model.came(bytes_of(path), 5) and (said == "") == (len(numbers) == acks.HOLDS), f"{len(numbers)} numbers came", said)
        held(ACK_BYTES(got).count(" bytes ") == (1 if len(numbers) == acks.HOLDS else 2), "each is a record that ack_bytes takes", ACK_BYTES(got)[-90:])


def long_messages(folder):
    """The largest payload, in 1,024 fragments and in 17, in any order; and with two fragments lost."""
    r = random.Random(8)
    tile, other = r.randbytes(MAX_PAYLOAD), r.randbytes(900000)
    d = cut(1, b"TILE", tile, 1100) + cut(2, b"TILE", other, 65507)
    r.shuffle(d)
    path = file(folder, "long.log", log_of([(7, i, x) for i, x in enumerate(d)]))
    for q, payload in ((1, tile), (2, other)):
        status, got, said = printed("take", path, "7", str(q))
        held((status, got, said) == (0, payload, ""), f"a payload of {len(payload)} bytes", said)
    kept = [x for x in d if x[4:8] == b"\0\0\0\1" and int.from_bytes(x[16:18], "big") not in (3, 4, 700)]
    path = file(folder, "long.log", log_of([(7, i, x) for i, x in enumerate(kept)]))
    status, got, said = printed("take", path, "7", "1")
    count = len(cut(1, b"TILE", tile, 1100))
    held((status, got) == (3, b"") and said == f"qm take: {path}: sender 7 sequence 1: not complete: of fragments 0 to {count - 1} missing are 3 to 4, 700\n", "fragments that are missing", said)


def measured(folder):
    """What a hostile log costs: gaps that late numbers take apart, and keys that are delivered again and again; four times as many take no more than some six
    times as long."""
    def split(n):
        forward = [k for i in range(n) for k in [1000 * i] + list(range(1000 * i - 2, 1000 * (i - 1), -2))[:8]]
        return [(7, 0, small(q % 2**32, b"M", b"")) for q in forward]

    def again(n):
        return [(i % 17, 0, small(5, b"M", b"")) for i in range(n)]

    def seconds(entries, *words):
        path = file(folder, "hostile.log", log_of(entries))
        before = os.times()
        status, _, said = qm(*words, path)
        held(status == 0, f"{len(entries)} hostile entries", said)
        return os.times().children_user - before.children_user

    for make, n, words in ((split, 800, ["gaps", "--missing"]), (again, 1500, ["take", "--all"])):
        def timed(n):
            return seconds(make(n), *words, *([os.path.join(folder, f"all-{n}")] if "--all" in words else []))

        idle, short, long = timed(0), timed(n), timed(4 * n)
        held(long - idle < 8 * (short - idle) + 0.5, f"qm {words}: {4 * n} took {long:.2f} s, {n} {short:.2f} s, none {idle:.2f} s")


# ---- files that are written

def outs(folder):
    b = bytes_of("samples/flight.log")
    path, out, to = file(folder, "in.log", b), os.path.join(folder, "out.log"), os.path.join(folder, "tiles")
    commands = [("cut", ("-o", out), ()), ("join", ("-o", out), (path,))]
    for command, words, more in commands:
        # a log that is there is left alone, and so is a folder or a device, whatever is said
        file(folder, "out.log", b"mine")
        got = qm(command, *words, path, *more)
        held(got[:2] == (1, "") and f"qm {command}: {out}: it is there already" in got[2] and bytes_of(out) == b"mine", f"qm {command}, OUT is there", str(got))
        got = qm(command, "--replace", *words, path, *more)
        held(got[0] == 0 and got[2] == "" and bytes_of(out) == model.joined([b] * (1 + len(more)))[0], f"qm {command} --replace", str(got))
        for there in (folder, "/dev/null"):
            got = qm(command, "--replace", "-o", there, path, *more)
            held(got[:2] == (1, "") and f"qm {command}: {there}: it is there already, and is no plain file" in got[2], f"qm {command}, OUT is {there}", str(got))
        # the log itself, once it is to be replaced
        own = file(folder, "own.log", b)
        got = qm(command, "--replace", "-o", own, own, *more)
        held(got[0] == 0 and bytes_of(own) == model.joined([b] * (1 + len(more)))[0], f"qm {command}, OUT is LOG", str(got))
        os.remove(out)
        # what a killed one left, and one that another program writes
        part = file(folder, "out.log.part", bytes(10**6))
        with open(part, "rb") as f:
            fcntl.flock(f, fcntl.LOCK_EX)
            got = qm(command, *words, path, *more)
        held(got[:2] == (1, "") and f"qm {command}: {part}: another program writes it now" in got[2] and not os.path.exists(out), f"qm {command}, OUT.part is locked", str(got))
        got = qm(command, *words, path, *more)
        held(got[0] == 0 and bytes_of(out) == model.joined([b] * (1 + len(more)))[0] and not os.path.exists(part), f"qm {command}, OUT.part is there", str(got))
        os.remove(out)
        # the disk is full: nothing is left of it
        got = qm(command, *words, path, *more, preexec_fn=lambda: resource.setrlimit(resource.RLIMIT_FSIZE, (5000, 5000)))
        held(got[:2] == (1, "") and f"{part}: File too large" in got[2] and not os.path.exists(out) and not os.path.exists(part), f"qm {command}, no room", str(got))
        got = qm(command, "-o", os.path.join(folder, "none", "out.log"), path, *more)
        held(got[:2] == (1, "") and "No such file or directory" in got[2], f"qm {command}, no folder", str(got))
        # a log that is not there: no file is begun
        got = qm(command, *words, os.path.join(folder, "none.log"))
        held(got[:2] == (1, "") and not os.path.exists(out) and not os.path.exists(part), f"qm {command}, no log", str(got))
    # a payload's file is not written over another
    os.mkdir(to)
    mine = file(to, "7-501", b"mine")
    got = qm("take", "--all", to, path)
    held(got[0] == 1 and f"qm take: {mine}: it is there already" in got[2] and bytes_of(mine) == b"mine" and "\nend " not in got[1], "qm take --all, a file is there", str(got))
    got = qm("take", "--all", os.path.join(folder, "none", "tiles"), path)
    held(got[:2] == (1, "") and "No such file or directory" in got[2], "qm take --all, no folder above", str(got))
    got = qm("take", "--all", mine, path)
    held(got[:2] == (1, "") and "Not a directory" in got[2], "qm take --all, the folder is a file", str(got))
    got = qm("take", "--all", os.path.join(folder, "small"), path, preexec_fn=lambda: resource.setrlimit(resource.RLIMIT_FSIZE, (2500, 2500)))
    held(got[0] == 1 and "File too large" in got[2] and not [x for x in os.listdir(os.path.join(folder, "small")) if x.endswith(".part")], "qm take --all, no room", str(got))


# ---- how they are called

def calls(folder):
    b = bytes_of("samples/flight.log")
    good, out = file(folder, "called.log", b), os.path.join(folder, "called.out")
    wrong = [("gaps", (), "LOG: no log"), ("gaps", ("--missing",), "LOG: no log"), ("gaps", ("--acks",), "--acks: the sender"), ("gaps", ("--acks", "7x", good), "7x: "),
             ("gaps", ("--other", good), "--other: "), ("gaps", (good, good), f"{good}: one log"), ("gaps", (good, "--missing"), "--missing: options stand before"),
             ("gaps", ("--missing", "--acks", "7", good), "--acks: "), ("gaps", ("--acks", "18446744073709551616", good), "18446744073709551616: "),
             ("take", (), "LOG: no log"), ("take", ("--name",), "LOG: no log"), ("take", ("--all",), "--all: the folder"), ("take", ("--all", "d"), "LOG: no log"),
             ("take", (good,), f"{good}: SENDER and SEQUENCE"), ("take", (good, "7"), f"{good}: SENDER"), ("take", (good, "7", "1", "2"), f"{good}: SENDER"),
             ("take", ("--all", "d", good, "7", "1"), f"{good}: --all takes one log"), ("take", ("--all", "d", "--name", good), "--name: "), ("take", ("--other", good, "7", "1"), "--other: "),
             ("take", (good, "7x", "1"), "7x: SENDER"), ("take", (good, "7", "4294967296"), "4294967296: SEQUENCE"), ("take", (good, "-7", "1"), "-7: SENDER"), ("take", (good, "7", ""), ": SEQUENCE")]
    for command in ("cut", "join"):
        wrong += [(command, words, says) for words, says in
                  [((), "LOG: no log"), (("-o", out), "LOG: no log"), ((good,), "-o OUT: "), (("-o",), "-o: what it takes"), (("-o", out, "-o", out, good), f"{out}: -o stands twice"),
                   (("--other", "-o", out, good), "--other: "), (("-o", out, good, "--replace"), "--replace: options stand before")]]
    wrong += [("cut", ("-o", out, good, good), f"{good}: one log"), ("join", ("--sender", "7", "-o", out, good), "--sender: there is no")]
    wrong += [("cut", (option, "7x", "-o", out, good), "7x: a number") for option in ("--from-tick", "--to-tick", "--from-entry", "--to-entry", "--sender")]
    wrong += [("cut", ("-o", out, option), f"{option}: what it takes") for option in ("--from-tick", "--sender")]

    def one(_, case):
        command, words, says = case
        got = qm(command, *words)
        held(got[0] == 2 and got[1] == "" and got[2].startswith(f"qm {command}: {says}") and f"\nusage: qm {command} " in got[2], f"qm {command} {words}", str(got), says)

    side_by_side(one, wrong)
    held(not os.path.exists(out) and not os.path.exists(out + ".part"), "a wrong call begins no file")
    for words in ((good,), (good, "1", "2"), (good, "x"), (good, "-1"), (good, "18446744073709551616"), ("--other", good, "1")):
        got = qm("show", *words)
        held(got[0] == 2 and got[1] == "" and got[2].startswith("qm show: ") and "\nusage: qm show LOG PLACE" in got[2], f"qm show {words}", str(got))
    reading = {"show": ((), ("4",)), "take": ((), ("7", "500")), "gaps --missing": ((), ()), "gaps --acks 7": ((), ())}
    for command, (before, after) in reading.items():
        words = command.split()
        for path, why in [(os.path.join(folder, "none.log"), "No such file or directory"), (folder, "Is a directory"), ("/dev/stdin", "not a file on disk")]:
            got = qm(*words, path, *after)
            held(got[0] == 1 and got[1] == "" and got[2].startswith(f"qm {words[0]}: {path}: {why}"), f"qm {command} {path}", str(got))
        no_room(*words, good, *after)


if __name__ == "__main__":
    ACK_BYTES = program("ack_bytes")
    met = set()
    with tempfile.TemporaryDirectory() as folder:
        side_by_side(lambda i, seed: met.update(all_of(os.path.join(folder, f"one-{seed}"), seed)), range(14))
        side_by_side(lambda i, seed: met.update(join(os.path.join(folder, f"join-{seed}"), seed)), range(1, 13))
        for test in (round_trip, acknowledged, long_messages, measured, outs, calls):
            test(folder)
    # what is never met is not tested
    held(met >= {"whole", "alone", "none", "again", "mixed", "first", "second"}, "what was met", str(met))
    close()
