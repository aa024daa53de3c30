"""qm keep: what it writes is the log of its records; a log that was cut anywhere goes on after its last whole entry, and what was cut is put aside; killed at
random, many times over, it loses no entry that it had acknowledged; it ends at a signal with the record in hand, also where there is always more to read, goes on where nobody listens, begins logs by
number, and syncs once for all records that wait; and a full disk, a cut input, a file that is no log, a second writer are each said. What the system or the proved writer refuses only by a fault that
is planted is tried with a qm of its own (faults.c)."""
import bisect
import fcntl
import os
import random
import resource
import signal
import subprocess
import tempfile
import threading
import time

from model import built
from model.called import QM, no_room, qm
from model.files import bytes_of as read, put
from model.log import entries_in, entry_bytes, first_log_of, log_of, record, seven
from model.tally import close, held, side_by_side

KILLS, ENOUGH = 80, 17
HEAD = len(log_of([]))


def stream(entries):
    return b"".join(record(*e) for e in entries)


def some(n, seed=1, most=200):
    r = random.Random(seed)
    numbers = [0, 1, 127, 128, 2**32, 2**63, 2**64 - 1]
    return [(r.choice(numbers), r.choice(numbers), bytes([r.randrange(256)]) * r.choice([0, 1, 127, 128, r.randrange(most)])) for _ in range(n)]


def lines(first, last, after=""):
    return "".join(f"kept {n}{after}\n" for n in range(first, last + 1))


def tried(what, path, given, status, printed, says, log, **how):
    got = qm("keep", path, input=given, **how)
    good = got[0] == status and got[1] == printed and (says in got[2] if says else got[2] == "") and read(path) == log
    held(good, f"qm keep, {what}: status {got[0]}, {got[2]!r}, {len(read(path))} bytes", got[1], printed)


def kept(folder):
    """A log is begun, goes on, and is what log_write would have written of all records."""
    path, es = os.path.join(folder, "begun.log"), some(60) + [(7, 9, bytes(65535))]
    tried("nothing", path, b"", 0, "", "", log_of([]))
    tried("a first part", path, stream(es[:20]), 0, lines(1, 20), "", log_of(es[:20]))
    tried("nothing more", path, b"", 0, "", "", log_of(es[:20]))
    tried("the rest", path, stream(es[20:]), 0, lines(21, 61), "", log_of(es))
    held(qm("keep", "--sync", path, input=stream(es[:3]))[1] == lines(62, 64, " synced") and read(path) == log_of(es + es[:3]), "qm keep --sync")
    # a file without a byte is a log that was never begun
    put(path, b"")
    tried("an empty file", path, stream(es), 0, lines(1, 61), "", log_of(es))


def aside(path):
    """The files beside a log that have what was taken off it, in order."""
    out = []
    while os.path.exists(f"{path}.cut-{len(out) + 1}"):
        out.append(read(f"{path}.cut-{len(out) + 1}"))
    return out


def gone_on(folder):
    """Cut at every place, a log goes on after its last whole entry, and the bytes of the cut one are put aside."""
    es, more = some(6, 3), some(2, 4)
    whole = log_of(es)

    def cut_at(_, n):
        path, left = os.path.join(folder, f"cut-{n}.log"), entries_in(whole[:n])[0]
        # of a head that was cut nothing is left
        over = n - (len(log_of(left)) if n >= HEAD else 0)
        put(path, whole[:n])
        said = f"{over} bytes of it are put into {path}.cut-1, and the log"
        says = f"{path}: was cut off inside an entry: {said} goes on after its {len(left)} whole entries\n" if over else ""
        if n < HEAD:
            says = f"{path}: was cut off inside its head: {said} is begun\n"
        tried(f"cut at {n}", path, stream(more), 0, lines(len(left) + 1, len(left) + 2), says, log_of(left + more))
        held(aside(path) == ([whole[n - over:n]] if over else []), f"cut at {n}: what was put aside")

    side_by_side(cut_at, range(1, len(whole)))
    path = os.path.join(folder, "cut.log")
    # a log keeps the head that it has
    for begun, limit in ((first_log_of(es), 262144), (log_of(es, 262144), 262144), (log_of(es, 0), 0), (log_of(es, 1048575), 1048575)):
        put(path, begun)
        says = f"qm keep: {path}: a log for payloads of at most {limit} bytes: larger tiles are kept in it, and refused by 6 when it is counted. --new begins another log\n"
        tried("another head", path, stream(more), 0, lines(7, 8), says, begun + log_of(more)[HEAD:])
    # a second cut is put beside the first
    put(path, whole[:-1])
    tried("cut once", path, b"", 0, "", ".cut-1, ", log_of(es[:-1]))
    put(path, whole[:-2])
    tried("cut again", path, b"", 0, "", ".cut-2, ", log_of(es[:-1]))
    rest = entry_bytes(*es[-1])
    held(aside(path) == [rest[:-1], rest[:-2]], "cut twice: what was put aside")


# a datagram, so that a file is seen to be a log whatever its head
DATAGRAM = (7, 9, b"LC02" + bytes(4) + b"TILE\0")


def repaired(folder):
    """What one entry cannot have, what may never have been a log, and what is refused otherwise stays as it is; with --repair it is put aside whole."""
    good, cut = log_of(some(3)), b"\5\5" + seven(65535)
    one_flipped = log_of(some(3)) + b"\5\5" + seven(60000) + log_of(some(5, 9))[HEAD:]
    cases = [  # what, the log, how many of its bytes and entries stay, is it mended without being asked, and what is said where it is not
        ("the longest entry, but for a byte", good + cut + bytes(65534), len(good), 3, True, ""),
        ("a flipped length", one_flipped, len(good), 3, True, ""),
        ("a datagram in a log of edition 1", first_log_of([DATAGRAM]) + b"\5", len(first_log_of([DATAGRAM])), 1, True, ""),
        ("a datagram in a log of another limit", log_of([DATAGRAM], 9) + b"\5", len(log_of([DATAGRAM], 9)), 1, True, ""),
        ("no datagram in a log of edition 1", first_log_of(some(3)) + b"\5", len(first_log_of(some(3))), 3, False, "may never have been a log"),
        ("no entry in a log of edition 1", b"\1" + cut + bytes(100), 1, 0, False, "may never have been a log"),
        ("another head, cut", b"\2\xff\xff", 0, 0, False, "may never have been a log"),
        ("another edition", b"a letter home", 0, 0, False, ""),
        ("damage in the midst", good + b"\x80\0" + good[HEAD:], len(good), 3, False, ""),
        ("a length over 65,535", good + b"\5\5" + seven(65536) + bytes(9), len(good), 3, False, ""),
    ]
    for what, b, stay, entries, alone, says in cases:
        path, number = os.path.join(folder, "repaired.log"), entries_in(b)[1]
        kept_ = b[:stay] if stay else log_of([])
        for words in ((), ("--repair",)):
            for old in aside(path):
                os.remove(f"{path}.cut-1")
            put(path, b)
            got = qm("keep", *words, path, input=stream(some(2)))
            if words or alone:
                good_ = got[0] == 0 and got[1] == lines(entries + 1, entries + 2) and read(path) == kept_ + stream_entries(some(2)) and aside(path) == [b[stay:]]
                good_ = good_ and f"{len(b) - stay} bytes of it are put into {path}.cut-1, " in got[2]
            else:
                good_ = got[0] == 3 and got[1] == "" and read(path) == b and aside(path) == [] and says in got[2]
                good_ = good_ and got[2].startswith(f"qm keep: {path}: refused {number}, ") and f"\nqm keep: {path}: nothing was changed. {len(b) - stay} bytes are refused, from byte {stay} on" in got[2]
            held(good_, f"qm keep {words}, {what}", str(got))


def stream_entries(entries):
    return b"".join(entry_bytes(*e) for e in entries)


def refusals(folder):
    """What is no log, or is damaged, stays as it is."""
    path, good = os.path.join(folder, "other.log"), log_of(some(3))
    for number, b in [(40, b"\0" + good[1:]), (40, b"a letter home"), (41, b"\2\x80\0" + good[HEAD:]), (45, b"\2" + seven(1048577) + good[HEAD:]), (41, good + b"\x80\0" + bytes(40)), (42, good + b"\5\5" + seven(65536) + bytes(9))]:
        put(path, b)
        tried(f"refused {number}", path, stream(some(2)), 3, "", f"qm keep: {path}: refused {number}, ", b)
    # files of any bytes that begin as a log stay as they are
    r = random.Random(5)

    def stays(i, b):
        other = os.path.join(folder, f"any-{i}.log")
        put(other, b)
        status = qm("keep", other)[0]
        held(status in (0, 3) and read(other) == b and aside(other) == [], f"a file of {len(b)} bytes that begins as a log", f"status {status}, {len(read(other))} bytes")
        os.remove(other)

    side_by_side(stays, [bytes([1 + i % 2]) + r.randbytes(r.choice([3, 10, 100, 1000, 60000, 100000])) for i in range(200)])


def cut_input(folder):
    """The whole records are kept, and what is left over is said."""
    path, es = os.path.join(folder, "input.log"), some(3, 5) + [(1, 2, b"abc")]
    for n in range(1, 21):
        put(path, log_of([]))
        tried(f"{n} bytes of a record left over", path, stream(es[:3]) + stream(es[3:])[:n], 1, lines(1, 3), f"ends inside a record: {n} bytes", log_of(es[:3]))


def disk_full(folder):
    """The disk is full at any byte: whole entries only, all of them acknowledged, the failure said; with room again the log goes on."""
    path, es = os.path.join(folder, "full.log"), some(12, 6)
    whole = log_of(es)
    for most in range(1, len(whole), 13):
        if os.path.exists(path):
            os.remove(path)
        fits = entries_in(whole[:most])[0]
        limit = {"preexec_fn": lambda: resource.setrlimit(resource.RLIMIT_FSIZE, (most, most))}
        tried(f"room for {most} bytes", path, stream(es), 1, lines(1, len(fits)), f"{path}: File too large; {len(fits)} whole entries are kept\n", log_of(fits) if most >= HEAD else b"", **limit)
        tried("room again", path, stream(es[len(fits):]), 0, lines(len(fits) + 1, len(es)), "", whole)


def failures(folder):
    path = os.path.join(folder, "two.log")
    first = subprocess.Popen(QM + ["keep", path], stdin=subprocess.PIPE, stdout=subprocess.PIPE)
    first.stdin.write(stream(some(1)))
    first.stdin.flush()
    held(first.stdout.readline() == b"kept 1\n", "a record is acknowledged when it came")
    tried("a second one", path, stream(some(5)), 1, "", f"qm keep: {path}: another program keeps it now\n", log_of(some(1)))
    first.stdin.close()
    held(first.wait() == 0, "the first one ends well")
    for where, why in [(os.path.join(folder, "none", "a.log"), "No such file or directory"), (folder, "Is a directory")]:
        got = qm("keep", where, input=stream(some(1)))
        held(got[0] == 1 and got[1] == "" and why in got[2], f"qm keep {where}", str(got))


def started(path, *words, **how):
    given = {"stdin": subprocess.PIPE, "stdout": subprocess.PIPE, "stderr": subprocess.PIPE}
    return subprocess.Popen(QM + ["keep", *words, path], **{**given, **how})


def give(running, b):
    running.stdin.write(b)
    running.stdin.flush()


def signals(folder):
    """SIGINT and SIGTERM end it after the record in hand, synced, and it says how many are kept."""
    es = some(5, 12) + [(7, 9, bytes(300))]
    for i, (number, part, rest) in enumerate([(signal.SIGINT, 0, 0), (signal.SIGTERM, 0, 0), (signal.SIGTERM, 5, 0), (signal.SIGINT, 18, 0), (signal.SIGTERM, 5, 1), (signal.SIGTERM, 100, 1)]):
        path = os.path.join(folder, f"signal-{i}.log")
        running = started(path)
        give(running, stream(es[:5]))
        held([running.stdout.readline() for _ in range(5)] == [x.encode() for x in lines(1, 5).splitlines(True)], "signal: five are kept")
        last = record(*es[5])
        if part:
            give(running, last[:part])
            time.sleep(0.3)
        running.send_signal(number)
        if rest:
            # what has begun to come comes to its end, and nothing after it
            time.sleep(0.2)
            give(running, last[part:] + stream(es))
        said = running.stderr.read().decode()
        out, status, n = running.stdout.read().decode(), running.wait(), 6 if rest else 5
        running.stdin.close()
        cut = part and not rest
        good = status == (1 if cut else 0) and out == (lines(6, 6) if rest else "") and read(path) == log_of(es[:n])
        good = good and said.startswith(f"qm keep: {path}: ended by a signal: {n} entries are kept, synced, {n} records by this run\n") and (f"inside a record: {part} bytes" in said) == bool(cut)
        held(good, f"signal {number}, {part} bytes of a record, {rest}: status {status}", said, out)


def ended_early(what, path, running, e, many):
    """A signal comes while there is always more to read: it ends before that is all kept, and says how many are. Answers how many."""
    while not os.path.exists(path) or os.path.getsize(path) <= HEAD:
        time.sleep(0.001)
    running.send_signal(signal.SIGTERM)
    had = os.path.getsize(path)
    try:
        said = running.communicate(timeout=60)[1].decode()
    except subprocess.TimeoutExpired:
        running.kill()
        said = "it does not end"
    status, n = running.wait(), (os.path.getsize(path) - HEAD) // len(entry_bytes(*e))
    good = status == 0 and 0 < n < many and said == f"qm keep: {path}: ended by a signal: {n} entries are kept, synced, {n} records by this run\n"
    held(good and read(path) == log_of([]) + n * entry_bytes(*e), f"signal, {what}: status {status}, {n} entries", said)
    # what is in hand when the signal comes, and what is read before it is looked for again: each a turn of 1 MiB
    after = (os.path.getsize(path) - had) // len(entry_bytes(*e))
    held(after <= 2 * (1 << 20) // len(record(*e)) + 2, f"signal, {what}: {after} entries are kept after it")
    return n


def hurried(folder):
    """The same where input is always there: of a file that is not at its end, and of a pipe that is kept full, of which everything that was taken out is kept."""
    e, many = (7, 9, b"datagram"), 2000000
    given = os.path.join(folder, "given")
    put(given, many * record(*e))
    for words in ((), ("--sync",)):
        path = os.path.join(folder, f"hurried{len(words)}.log")
        with open(given, "rb") as f:
            ended_early("a long file", path, started(path, *words, stdin=f, stdout=subprocess.DEVNULL), e, many)
    path, (out, into), written, done = os.path.join(folder, "hurried.log"), os.pipe(), [0], []

    def fill():
        while not done:
            written[0] += os.write(into, 1000 * record(*e))
        os.close(into)

    running = started(path, stdin=out, stdout=subprocess.DEVNULL)
    filling = threading.Thread(target=fill)
    filling.start()
    n = ended_early("a full pipe", path, running, e, 2 ** 64)
    done.append(True)
    left = sum(len(b) for b in iter(lambda: os.read(out, 1 << 20), b""))
    filling.join()
    os.close(out)
    held(written[0] - left == n * len(record(*e)), f"signal, a full pipe: {written[0] - left} bytes were read for {n} entries")


def unread(folder):
    """The same where its lines go to somebody who does not read: what was read is kept, and the lines that went out are whole."""
    e, path = (7, 9, b"datagram"), os.path.join(folder, "unread.log")
    for words, many in (((), 200000), (("--sync",), 200000), ((), 20)):
        lines_out, lines_in = os.pipe()
        if os.path.exists(path):
            os.remove(path)
        if many == 20:
            # the pipe of the lines is full already
            os.set_blocking(lines_in, False)
            try:
                while True:
                    os.write(lines_in, b"x\n" * 2048)
            except BlockingIOError:
                os.set_blocking(lines_in, True)
        given = os.path.join(folder, "given")
        put(given, many * record(*e))
        with open(given, "rb") as f:
            running = started(path, *words, stdin=f, stdout=lines_in)
            os.close(lines_in)
            time.sleep(1)
            held(running.poll() is None, f"nobody reads the lines: it has ended {many}")
            running.send_signal(signal.SIGTERM)
            try:
                said = running.communicate(timeout=60)[1].decode()
            except subprocess.TimeoutExpired:
                running.kill()
                said = "it does not end"
        status, n = running.wait(), (os.path.getsize(path) - HEAD) // len(entry_bytes(*e))
        told = b"".join(iter(lambda: os.read(lines_out, 1 << 20), b"")).decode().replace("x\n", "")
        os.close(lines_out)
        good = status == 1 and 0 < n <= many and read(path) == log_of([]) + n * entry_bytes(*e) and told == lines(1, told.count("\n"), " synced" if words else "") and told.count("\n") < n
        good = good and said == f"qm keep: standard output: nobody reads the lines, and the last of them are dropped\nqm keep: {path}: ended by a signal: {n} entries are kept, synced, {n} records by this run\n"
        held(good, f"nobody reads the lines {words}: status {status}, {n} entries", said, told[-100:])


def unheard(folder):
    """Where nobody takes its lines it keeps on: a listener that goes away, a full disk behind the lines, nothing there to write to. --quiet says nothing."""
    path, es = os.path.join(folder, "unheard.log"), some(40, 13)
    running = started(path)
    give(running, stream(es[:10]))
    held(running.stdout.readline() == b"kept 1\n", "unheard: the first line")
    running.stdout.close()
    for e in es[10:]:
        give(running, record(*e))
        time.sleep(0.01)
    running.stdin.close()
    said = running.stderr.read().decode()
    good = running.wait() == 1 and read(path) == log_of(es) and said == f"qm keep: standard output: Broken pipe\nqm keep: {path}: records are kept on, and no line says so\n"
    held(good, "a listener that goes away", said)
    if no_room("keep", path, input=stream(es)):
        held(read(path) == log_of(es + es), "what is acknowledged cannot be said")
    got = qm("keep", "--quiet", "--sync", path, input=stream(es[:3]))
    held(got == (0, "", "") and read(path) == log_of(es + es + es[:3]), "qm keep --quiet", str(got))
    with open("/dev/full" if os.path.exists("/dev/full") else os.devnull, "w") as disk:
        got = qm("keep", "--quiet", path, input=stream(es[:3]), stdout=disk)
    held(got[0] == 0 and got[2] == "" and read(path) == log_of(es + es + es[:3] + es[:3]), "qm keep --quiet, no room for lines", str(got))


def numbered(folder):
    """--new and --every begin logs by number; what one name cannot hold another does; nothing that is there is written over."""
    here = os.path.join(folder, "numbered")
    os.mkdir(here)
    path, es = os.path.join(here, "FLIGHT.log"), [(7, i, bytes([i]) * 60000) for i in range(60)]

    def name(n):
        return os.path.join(here, f"FLIGHT-{n:04}.log")

    got = qm("keep", "--new", path, input=stream(es[:2]))
    held(got == (0, f"log {name(1)}\n" + lines(1, 2), "") and read(name(1)) == log_of(es[:2]) and os.listdir(here) == ["FLIGHT-0001.log"], "--new, the first", str(got))
    # LOG itself, other names and other numbers are none of these
    for other in ("FLIGHT.log", "FLIGHT-7.log", "FLIGHT-00009.log", "FLIGHT-0008.txt", "FLIGHT-0008", "FLIGHT-00x8.log", "FLIGHTS-0009.log", "FLIGHT-99999999999999999999.log"):
        put(os.path.join(here, other), b"a letter home")
    got = qm("keep", "--new", "--quiet", path, input=stream(es[2:3]))
    held(got == (0, "", "") and read(name(2)) == log_of(es[2:3]), "--new, the second", str(got))
    # --every goes on in the last one, and a log has at most so many bytes
    got = qm("keep", "--every", "1MB", path, input=stream(es[3:]))
    logs, n = [[]], 2
    for e in es[2:]:
        if len(log_of(logs[-1] + [e])) > 1000000:
            logs.append([])
        logs[-1].append(e)
    expected = f"log {name(2)}\n" + lines(2, len(logs[0])) + "".join(f"log {name(2 + i)}\n" + lines(1, len(log)) for i, log in enumerate(logs) if i)
    held(len(logs) > 3 and got[0] == 0 and got[1] == expected and got[2] == "" and all(read(name(2 + i)) == log_of(log) for i, log in enumerate(logs)), "--every 1MB", got[1], expected)
    held(not os.path.exists(name(2 + len(logs))), "--every 1MB: one more log")
    # by seconds: the first record after them begins the next
    last = 1 + len(logs)
    running = started(path, "--every", "1s", "--every", "900MB", "--sync")
    give(running, stream(es[:1]))
    held(running.stdout.readline() == f"log {name(last)}\n".encode(), "--every 1s: the last one")
    running.stdout.readline()
    time.sleep(1.2)
    give(running, stream(es[1:3]))
    running.stdin.close()
    out = running.stdout.read().decode()
    held(running.wait() == 0 and out in [f"log {name(last + 1)}\n" + lines(1, 2, " synced")] and read(name(last + 1)) == log_of(es[1:3]), "--every 1s", out)
    # LOG without an ending, and in the folder at hand
    got = qm("keep", "--new", "FLIGHT", input=stream(es[:1]), cwd=here)
    held(got[:2] == (0, "log FLIGHT-0009\nkept 1\n") and read(os.path.join(here, "FLIGHT-0009")) == log_of(es[:1]), "a name without an ending", str(got))
    got = qm("keep", "--new", ".hidden", input=stream(es[:1]), cwd=here)
    held(got[:2] == (0, "log .hidden-0001\nkept 1\n"), "a name that begins with its dot", str(got))
    # a log that is cut is mended, as LOG is
    put(name(last + 1), read(name(last + 1))[:-1])
    got = qm("keep", "--every", "5s", path)
    held(got[0] == 0 and "was cut off inside an entry" in got[2] and read(name(last + 1)) == log_of(es[1:2]), "--every, the last one cut", str(got))
    got = qm("keep", "--new", os.path.join(here, "none", "a.log"))
    held(got[0] == 1 and "No such file or directory" in got[2], "--new where there is no folder", str(got))


def with_faults():
    return built.with_faults("keep", "flock", "fdatasync", "fsync", "ftruncate", "open", "qm_log_append")


def faulty(folder):
    """The system or the proved writer refuses: nothing is acknowledged that is not kept, and each reason is said."""
    if "QM" in os.environ:
        return print("no faults are planted in another qm")
    program, path, es = with_faults(), os.path.join(folder, "faulty.log"), some(3, 14)

    def tried_with(fault, words, given, status, printed, says, log):
        done = subprocess.run(program + ["keep", *words, path], input=given, stdout=subprocess.PIPE, stderr=subprocess.PIPE, env={**os.environ, "FAULT": fault})
        out, said = done.stdout.decode(), done.stderr.decode()
        held(done.returncode == status and out == printed and says in said and (read(path) if os.path.exists(path) else b"") == log, f"fault {fault} {words}: status {done.returncode}, {said!r}", out, printed)

    tried_with("none", (), stream(es), 0, lines(1, 3), "", log_of(es))
    tried_with("flock", (), stream(es), 1, "", f"qm keep: {path}: No locks available\n", log_of(es))
    tried_with("append", (), stream(es[:1] + [(7, 99, b"abc")] + es), 1, "", f"qm keep: {path}: refused 13, ", log_of(es + es[:1]))
    tried_with("fdatasync", ("--sync",), stream(es[:1]), 1, "", f"qm keep: {path}: Input/output error\n", log_of(es + es[:1] + es[:1]))
    # an end that is not synced is no good end, though the lines have gone out
    tried_with("fdatasync", (), stream(es[:1]), 1, lines(6, 6), f"qm keep: {path}: Input/output error\n", log_of(es + es[:1] * 3))
    # the folder of a log that is begun
    os.remove(path)
    tried_with("fsync", (), stream(es), 0, lines(1, 3), "", log_of(es))
    os.remove(path)
    tried_with("fsync", ("--sync",), stream(es), 1, "", f"qm keep: {folder}/: Input/output error\n", log_of([]))
    # a cut entry that cannot be put aside stays
    cut = log_of(es)[:-1]
    for fault in ("fsync", "ftruncate"):
        put(path, cut)
        tried_with(fault, (), stream(es), 1, "", "Input/output error\n", cut)
        held((aside(path) == []) == (fault == "fsync"), f"fault {fault}: what was put aside", str(aside(path)))
    # where no next log can be begun the keeping goes on in this one
    path, big = os.path.join(folder, "second.log"), [(7, i, bytes(60000)) for i in range(40)]
    done = subprocess.run(program + ["keep", "--every", "1MB", path], input=stream(big), stdout=subprocess.PIPE, stderr=subprocess.PIPE, env={**os.environ, "FAULT": "second"})
    said, first = done.stderr.decode(), os.path.join(folder, "second-0001.log")
    good = done.returncode == 0 and done.stdout.decode() == f"log {first}\n" + lines(1, 40) and read(first) == log_of(big)
    held(good and said == f"qm keep: {folder}/second-0002.log: No space left on device\nqm keep: {first}: records are kept on in this one\n", "fault second", said)


def piped(folder):
    """A pipe that records come by is as wide as the system lets it be, up to 1 MiB; and one sync is for all records that wait: those of a pipe by the pipeful, of a file
    up to 8 MiB."""
    path, es = os.path.join(folder, "piped.log"), some(2, 15)
    running = started(path)
    give(running, stream(es))
    running.stdout.readline()
    with open("/proc/sys/fs/pipe-max-size") as f:
        most = min(int(f.read()), 1 << 20)
    width = fcntl.fcntl(running.stdin, 1032)  # F_GETPIPE_SZ
    held(width == most or width > 1 << 16, f"a pipe of {width} bytes")
    running.stdin.close()
    running.stderr.read()
    held(running.wait() == 0, "a pipe that is widened")
    if "QM" in os.environ:
        return
    program, es = with_faults(), [(7, i, bytes([i % 256]) * 1400) for i in range(4000)]
    given = stream(es)
    for how, most in (("file", 1 + len(given) // (8 << 20)), ("pipe", 4 + 3 * len(given) // width)):
        put(path, log_of([]))
        with tempfile.TemporaryFile() as f:
            f.write(given)
            f.seek(0)
            words = {"stdin": f} if how == "file" else {"input": given}
            done = subprocess.run(program + ["keep", "--sync", path], **words, stdout=subprocess.PIPE, stderr=subprocess.PIPE, env={**os.environ, "FAULT": "told"})
        syncs = done.stderr.count(b"a sync\n")
        # the last is that of the end, which syncs once more
        good = done.returncode == 0 and done.stdout.decode() == lines(1, len(es), " synced") and read(path) == log_of(es)
        held(good and 1 <= syncs <= most + 1, f"{len(es)} records by a {how}: {syncs} syncs and not at most {most + 1}", done.stderr.decode()[-200:])


def called(folder):
    """Which word is wrong."""
    path = os.path.join(folder, "called.log")
    for words, says in [((), "LOG: no log is named"), (("--sync",), "LOG: no log is named"), (("--loud", path), "--loud: there is no such option"), (("--every",), "--every: how long"),
                        ((path, path), f"{path}: one log is named already"), ((path, "--sync"), "--sync: options stand before the log")] + [
                       (("--every", bad, path), f"{bad}: --every takes how long or how large") for bad in ("", "s", "MB", "1", "0s", "0MB", "1m", "-1s", "1 s", "1.5MB", "2000000000s", "x1s")]:
        got = qm("keep", *words)
        held(got[0] == 2 and got[1] == "" and got[2].startswith(f"qm keep: {says}") and "\nusage: qm keep " in got[2] and not os.path.exists(path), f"qm keep {words}", str(got))


def killed(folder):
    """Killed at random moments, started again with what it does not have: at each start all that was acknowledged is there, in order, and in the end all is
    there once. The log is at all times a beginning of the whole one."""
    r = random.Random(11)
    path, said, given = (os.path.join(folder, name) for name in ("killed.log", "said", "given"))
    es = [(s, t, d[:1] * r.choice([0, 1, 127, 128, r.randrange(3000), 65535, 65535])) for s, t, d in some(1200, 8)]
    whole, ends = log_of(es), [HEAD]
    for e in es:
        ends.append(ends[-1] + len(entry_bytes(*e)))
    have = finished = inside = kills = 0
    cuts = []
    begun = time.monotonic()
    qm("keep", path)
    # how long to start takes here; then it is found out how long to wait so that it is killed while it writes
    wait = time.monotonic() - begun
    # on a busy machine the moment is missed more often
    while kills < KILLS or (inside < ENOUGH and kills < 5 * KILLS):
        kills += 1
        put(given, stream(es[have:]))
        with open(given, "rb") as records, open(said, "wb") as out:
            running = subprocess.Popen(QM + ["keep"] + ["--sync"] * (kills % 8 == 0) + [path], stdin=records, stdout=out, stderr=subprocess.DEVNULL)
            time.sleep(r.uniform(0.5, 1.5) * wait)
            running.send_signal(signal.SIGKILL)
            running.wait()
        # it may have been killed before it began a new one
        there = read(path) if os.path.exists(path) else b""
        found = max(bisect.bisect_right(ends, len(there)) - 1, 0)
        # a line that was cut acknowledges nothing
        acknowledged = [int(x.split()[1]) for x in read(said).decode().split("\n")[:-1]]
        promised = acknowledged[-1] if acknowledged else have
        held(there == whole[:len(there)], f"killed: {len(there)} bytes are not the log's beginning")
        held(acknowledged == list(range(have + 1, promised + 1)), "killed: the lines", str(acknowledged[-3:]))
        held(promised <= found, f"killed: {promised} acknowledged, {found} there")
        inside += have < found < len(es)
        wait = min(2, wait * (0.8 if found == len(es) else 1.3 if found <= have else 1))
        cuts += [there[ends[found]:]] * (len(there) > ends[found])
        have = found
        if have == len(es):
            finished, have = finished + 1, 0
            os.remove(path)
    rest = qm("keep", path, input=stream(es[have:]))
    held(rest[0] == 0 and read(path) == whole, "killed: all is there once", rest[2])
    # a start that is killed while it puts a cut entry aside leaves that entry for the next
    found = aside(path)
    held(all(x in found for x in cuts), "killed: what was cut is aside")
    print(f"killed {kills} times, {inside} of them while it wrote: {len(cuts)} times a cut entry was left; {finished} times it was done before")
    # else nothing was tried
    held(inside >= ENOUGH, f"killed: only {inside} times while it wrote")


with tempfile.TemporaryDirectory() as folder:
    for test in (kept, gone_on, repaired, refusals, cut_input, disk_full, failures, signals, hurried, unread, unheard, numbered, called, piped, faulty, killed):
        test(folder)
close()
