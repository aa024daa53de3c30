"""The index that is kept beside a log: `qm index` with its options and `qm find`, on random logs of both editions that grow, are cut, damaged, or exchanged for
another, and on damaged index files, beside the model tests/model/kept.py. Killed at random, `qm index` leaves an index of the log or none. `qm keep --index`."""
import fcntl
import os
import random
import resource
import signal
import subprocess
import tempfile
import time

from model import kept
from model.called import QM, no_room, qm
from model.files import bytes_of, put
from model.index import keys, limits
from model.log import entry_bytes, first_log_of, log_of, record
from model.receiver import small
from model.tally import close, held, side_by_side

KILLS = 30


def file_at(path):
    return bytes_of(path + ".index") if os.path.exists(path + ".index") else None


def told(said, command, path, doubted, status):
    """What is said of an index file that is doubted, and of a log that is not whole."""
    good = (f"qm {command}: {path}.index: refused {doubted}, " in said and "not believed" in said) if doubted else "not believed" not in said
    return good and (f"qm {command}: {path}: refused " in said) == (status == 3)


def indexed(path, b):
    expected, wanted, file, doubted = kept.indexed(b, file_at(path))
    status, got, said = qm("index", path)
    good = (got, status) == (expected, wanted) and file_at(path) == file and told(said, "index", path, doubted, wanted)
    held(good and not os.path.exists(path + ".index.part"), f"qm index, a log of {len(b)} bytes, status {status}, {said!r}", got, expected)


def checked(path, b):
    expected, wanted = kept.checked(b, file_at(path))
    status, got, said = qm("index", "--check", path)
    held((got, status) == (expected, wanted) and ("not the index of" in said) == (expected == "other\n"), f"qm index --check, status {status}, {said!r}", got, expected)


def printed(path, b):
    expected, wanted = kept.printed(b)
    before = file_at(path)
    status, got, said = qm("index", "--print", path)
    held((got, status) == (expected, wanted) and file_at(path) == before, f"qm index --print, status {status}, {said!r}", got, expected)


def found(path, b, r, many=2):
    rows = kept.rows_of(b)
    file = file_at(path)
    some = [x[:2] for x in r.sample(rows, min(many, len(rows))) + rows[-1:]] + [(7, 123)]
    for sender, sequence in some:
        expected, wanted, doubted = kept.find(b, sender, sequence, file)
        status, got, said = qm("find", path, str(sender), str(sequence))
        held((got, status) == (expected, wanted) and told(said, "find", path, doubted, wanted), f"qm find {sender} {sequence}, status {status}, {said!r}", got, expected)
    held(file_at(path) == file, "qm find writes nothing")


# ---- a log that grows, and what else may happen to it

def world(r):
    es = keys(r.randrange(10**6), r.choice([0, 1, 3, 30, 80])) + (limits() if r.random() < 0.3 else [])
    return r.choice([log_of, log_of, first_log_of, lambda some: log_of(some, r.choice([0, 89, 90, 262144]))])(es)


def grown(r, b):
    """A log with more entries; sometimes with one that is cut, or damage, behind them."""
    b = b[:kept.whole(b)] + b"".join(entry_bytes(*e) for e in keys(r.randrange(10**6), r.choice([0, 1, 5, 40])))
    if r.random() < 0.3:
        b += r.choice([b"\x05", entry_bytes(7, 9, small(5, b"TILE", b"cut"))[:-1], b"\x80\0\0", b"\5\5\xff\xff\xff\x7f"])
    return b


def lives(path, seed):
    """One log through some days: it grows and is indexed, or is not, or is exchanged for another, or cut."""
    r = random.Random(seed)
    b = world(r)
    if seed % 5 == 0:
        b = r.choice([b"", b"\2", b"\3" + b[1:], b"\2\x80\0"])
    for day in range(4):
        put(path, b)
        if day == 0:
            found(path, b, r, 1)
            printed(path, b)
        if r.random() < 0.8:
            indexed(path, b)
            if r.random() < 0.5:
                checked(path, b)
        if file_at(path) is not None:
            found(path, b, r, 1)
        b = grown(r, b) if kept.ends(b) and r.random() < 0.7 else r.choice([world(r), b[:r.randrange(len(b) + 1)]])


def files(path, seed):
    """Index files that are cut, damaged or of another log."""
    r = random.Random(seed)
    b = log_of(keys(seed, 40))
    rows, covered = sorted(kept.rows_of(b)), len(b)
    other = [(s, q, p + 1) for s, q, p in rows]
    good = kept.file_of(rows, covered)
    at = r.randrange(2, len(rows) - 2)
    swapped = rows[:at] + [rows[at + 1], rows[at]] + rows[at + 2:]
    bad = [b"", good[:16], good[:17], good[:-1], good + b"x", b"\2" + good[1:], good[:16] + b"\1" + good[17:], kept.file_of(rows, covered + 1), kept.file_of(rows, 2**64 - 1),
           kept.file_of(other, covered), kept.file_of(other[:1] + rows[1:], covered), kept.file_of(rows[:-1] + other[-1:], covered), kept.file_of(rows[:-1] + [(2**64 - 1, 0, 4)], covered),
           kept.file_of(rows[:-1], covered), kept.file_of([], covered), kept.file_of([], 0), kept.file_of([], 1), kept.file_of(rows[:at] + rows[at + 1:], covered),
           kept.file_of(rows, kept.ends(b)[-2])]
    put(path, b)
    for i, file in enumerate(bad):
        if i % 3 != seed % 3:
            continue
        put(path + ".index", file)
        checked(path, b)
        found(path, b, r, 1)
        indexed(path, b)
    # rows that do not rise, of which halving finds what it finds
    put(path + ".index", kept.file_of(swapped, covered))
    checked(path, b)
    indexed(path, b)
    # what it covers ends inside an entry: only --check sees that
    put(path + ".index", kept.file_of(rows, covered - 1))
    checked(path, b)


# ---- kills

def killed(folder):
    """Killed at random moments while it writes and extends: LOG.index is always of the log as it was or as it is, and never half."""
    r = random.Random(5)
    path = os.path.join(folder, "killed.log")
    days = [log_of([])]
    for day in range(3):
        days.append(days[-1] + b"".join(entry_bytes(q % 5, 0, small((q * 7919) % 2**32, b"M", b"")) for q in range(6000 * day, 6000 * day + 6000)))
    may = [kept.index_file(b) for b in days]
    day, left, kills, met = 1, 0, 0, set()
    put(path, days[1])
    begun = time.monotonic()
    qm("index", "--print", path)
    wait = time.monotonic() - begun
    while kills < KILLS:
        kills += 1
        running = subprocess.Popen(QM + ["index", path], stdin=subprocess.DEVNULL, stdout=subprocess.DEVNULL, stderr=subprocess.DEVNULL)
        time.sleep(r.uniform(0.2, 1.4) * wait)
        running.send_signal(signal.SIGKILL)
        done = running.wait() == 0
        file = file_at(path)
        held(file is None and day == 1 or file in may[:day + 1], f"killed: an index of {len(file or b'')} bytes is not of the log")
        met.add("new" if file == may[day] else "old")
        left += os.path.exists(path + ".index.part")
        wait = min(3, wait * (0.85 if done else 1.15 if file != may[day] else 1))
        if file == may[day]:
            # the log grows, and from time to time all begins again
            day = day % 3 + 1
            put(path, days[day])
            if day == 1:
                os.remove(path + ".index")
    put(path, days[day])
    got = qm("index", path)
    held(got[0] == 0 and file_at(path) == may[day] and not os.path.exists(path + ".index.part"), "killed: then it is written", str(got))
    print(f"killed {kills} times: {left} times a part was left")
    # else nothing was tried
    held(met == {"old", "new"}, "killed: before and after it was done", str(met))


# ---- kept at once

def kept_at_once(folder):
    """`qm keep --index` leaves the log's index, begun or extended, of each log that it kept to."""
    path, es = os.path.join(folder, "van.log"), keys(11, 90)
    for first, last in ((0, 50), (50, 50), (50, 90)):
        status, got, said = qm("keep", "--quiet", "--index", path, input=b"".join(record(*e) for e in es[first:last]))
        b = log_of(es[:last])
        held((status, got, said) == (0, kept.indexed(b)[0], "") and bytes_of(path) == b and file_at(path) == kept.index_file(b), f"qm keep --index, {last} entries", got, said)
    # what was cut in the input is not kept, and the rest is indexed all the same
    status, got, said = qm("keep", "--quiet", "--index", path, input=b"\0")
    held((status, got) == (1, kept.indexed(b)[0]) and file_at(path) == kept.index_file(b), "qm keep --index, a cut input", got, said)
    # a new log at each megabyte
    large = [(7, i, small(i, b"TILE", bytes(60000))) for i in range(40)]
    status, got, said = qm("keep", "--quiet", "--index", "--every", "1MB", os.path.join(folder, "many.log"), input=b"".join(record(*e) for e in large))
    paths = sorted(os.path.join(folder, x) for x in os.listdir(folder) if x.startswith("many-") and x.endswith(".log"))
    held(status == 0 and len(paths) == 3 and got == "".join(kept.indexed(bytes_of(p))[0] for p in paths), "qm keep --index --every", got, str(paths))
    held(all(file_at(p) == kept.index_file(bytes_of(p)) for p in paths), "the index of each")


# ---- how it is called, and what fails

def failures(folder):
    b = bytes_of("samples/flight.log")
    path = os.path.join(folder, "called.log")
    put(path, b)
    index, part = path + ".index", path + ".index.part"
    for words, says in [((), "LOG: no log"), (("--print",), "LOG: no log"), (("--other", path), "--other: "), ((path, path), f"{path}: one log"), ((path, "--check"), "--check: options stand before"), (("--print", "--check", path), "--check: ")]:
        got = qm("index", *words)
        held(got[0] == 2 and got[1] == "" and got[2].startswith(f"qm index: {says}") and "\nusage: qm index " in got[2], f"qm index {words}", str(got), says)
    got = qm("index", "--check", path)
    held(got[:2] == (1, "") and f"qm index: {index}: No such file or directory" in got[2], "no index to check", str(got))
    # no room: nothing is left of it, and an index that was there stays
    for before in (None, b"\2"):
        if before is not None:
            put(index, before)
        got = qm("index", path, preexec_fn=lambda: resource.setrlimit(resource.RLIMIT_FSIZE, (300, 300)))
        held(got[:2] == (1, "") and f"qm index: {part}: File too large" in got[2] and file_at(path) == before and not os.path.exists(part), "no room for an index", str(got))
    os.remove(index)
    with open(part, "wb") as f:
        fcntl.flock(f, fcntl.LOCK_EX)
        got = qm("index", path)
    held(got[:2] == (1, "") and f"qm index: {part}: another program writes it now" in got[2] and not os.path.exists(index), "another one writes it", str(got))
    # an index that cannot be read is no index; one that cannot be written is a failure
    os.mkdir(index)
    got = qm("find", path, "7", "502")
    held(got[0] == 0 and got[1] == kept.find(b, 7, 502)[0] and f"qm find: {index}: Is a directory" in got[2], "a folder in place of the index", str(got))
    got = qm("index", path)
    held(got[:2] == (1, "") and "no plain file" in got[2], "a folder in place of the index", str(got))
    os.rmdir(index)
    # a write that fails is said after the file was written
    if no_room("index", path):
        held(file_at(path) == kept.index_file(b), "qm index, the disk full: the file")
    # nothing is written anew where nothing was added
    before = os.stat(index).st_ino
    got = qm("index", path)
    held(got[0] == 0 and os.stat(index).st_ino == before, "an index that is as it should be stays", str(got))


with tempfile.TemporaryDirectory() as folder:
    side_by_side(lambda i, seed: lives(os.path.join(folder, f"life-{seed}.log"), seed), range(9))
    side_by_side(lambda i, seed: files(os.path.join(folder, f"file-{seed}.log"), seed), range(3))
    for test in (killed, kept_at_once, failures):
        test(folder)
close()
