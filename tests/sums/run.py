"""Holds `qm sums LOG..` to the model in tests/model/sums.py: seasons of random logs of both editions, with losses, copies, reboots, strangers and clocks that step,
cut anywhere and damaged; repeats that begin alike, and many of them; more of everything than is told one by one; both sides of what qm lends; names of logs with any bytes; each way of calling it wrongly; and a count whose
process is not given, is ended or goes on alone, by faults that are planted (faults.c)."""
import math
import os
import random
import resource
import subprocess
import tempfile

from model import built, count as flights, messages, pits, season, sums
from model.called import no_room, qm, raw
from model.count import list_of, pits_message
from model.files import ROOT, put, put_logs
from model.log import as_found, entries_in, log_of
from model.receiver import cut, fragment, small
from model.tally import close, held, side_by_side

DAY = 86_400_000
MEMORY = 150_000_000


def tried(what, folder, logs, names=None):
    paths = put_logs(folder, logs, names)
    status, got, said = raw("sums", *paths)
    expected, wanted = sums.sums(logs, paths)
    differ = next((f"{a!r} and not {b!r}" for a, b in zip(got.split(b"\n"), expected.split(b"\n")) if a != b), "")
    held((got, status) == (expected, wanted), f"qm sums, {what}, {len(logs)} logs, status {status}, {said[-300:]!r}: {differ}")
    refused = season.broken(logs)
    good = all(b"qm sums: %s: refused %d, " % (paths[i], refusal) in said for i, _, refusal in refused)
    held(good and (said != b"") == (bool(refused) or b"\nseason\nrefused 6" in got), f"qm sums, {what}: on standard error", said.decode("utf8", "replace"))
    return got


# ---- random seasons

def ticks(r, n):
    """Ticks of any kind: steady, stepping on and back, at the ends of 64 bits, all the same."""
    at, out = r.choice([0, 5, 1_700_000_000_000, 2**64 - 1 - DAY]), []
    jumps = r.choice([0, 0, 1, 3])
    for i in range(n):
        at += r.choice([0, 1, 40, 900])
        if jumps and r.random() < 2 / (n + 1):
            at += r.choice([-1, 1]) * r.choice([50_000, DAY, 365 * DAY])
        out.append(r.choice([0, 2**64 - 1]) if jumps == 3 and r.random() < 0.02 else min(max(at, 0), 2**64 - 1))
    return out


def flight(r):
    entries = entries_in(flights.world(r.randrange(10**6), r.choice([None, pits.random_list])))[0]
    entries = entries[:r.choice([len(entries), r.randrange(len(entries) + 1), r.randrange(5)])]
    # fragments are lost; other tiles come under the same numbers; somebody comes for whom nobody has room
    entries = [e for e in entries if r.random() > r.choice([0, 0.1, 0.4])]
    if r.random() < 0.3:
        entries += [(s, t, d[:-5] + bytes([d[-5] ^ 1]) + d[-4:]) for s, t, d in entries[:len(entries) // 2] if len(d) > 40]
    if r.random() < 0.3:
        entries = [(s if r.random() < 0.5 else r.randrange(40), t, d) for s, t, d in entries]
    if r.random() < 0.3:
        entries += [(7, 0, fragment(r.choice([900, 901, 2**32 - 20, 5]) + i // 2, 900 - r.randrange(2), k, k, 900, b"x", b"TILE" if k == 0 else b"")) for i in range(30) for k in r.sample(range(40), 2)]
    if r.random() < 0.7:
        entries = [(s, t, d) for (s, _, d), t in zip(entries, ticks(r, len(entries)))]
    return as_found(r, entries)


def random_season(folder, seed):
    r, here = random.Random(seed), os.path.join(folder, str(seed))
    os.mkdir(here)
    tried(f"season {seed}", here, [flight(r) for _ in range(r.choice([1, 1, 2, 3]))])


# ---- more than is told one by one

def repeats(folder):
    """Which of them are copies: over logs whose datagrams begin alike, and where there are many."""
    for seed in range(20):
        r = random.Random(seed)
        tried(f"alike {seed}", folder, [season.alike(r) for _ in range(1 + seed % 2)])
    tried("many repeats", folder, [season.repeats(n) for n in (1, 2, 7000)])


def many(folder):
    r = random.Random(9)
    # of a pit as many marks as are told, and one more; places on a circle, on a line, at one place; just near and just far
    out = []
    for n in (19, 20, 21, 60):
        around = [(round(10**6 * math.cos(i)), round(10**6 * math.sin(i)), 5) for i in range(n)]
        out += [list_of(n, [(1, i % 2, p), (2, 0, (7 * i, 7000 * i, 5)), (3, 1, (5, 5, 5)), (4, 0, None), (5, 0, (r.randrange(9000), r.randrange(9000), 1))], 1 + i % 2) for i, p in enumerate(around)]
    for far in (4495, 4496, 4497):
        out += [list_of(far, [(1, 0, (10, 10, 5)), (1, 0, (10 + far, 10, 5)), (2, 0, (10, -far, 5)), (2, 0, (10, 0, 5)), (3, 0, (2**31 - 1, -2**31, 5)), (3, 0, (-2**31, 2**31 - 1, 5))])]
    # of a pit many marks anywhere: on a grid, where they are often at one place and in a row; in a field; as far apart as there are numbers
    for tile, (low, high, step) in enumerate([(0, 5, 2500), (0, 40, 200), (-4000, 4000, 1), (-2**31, 2**31, 1), (0, 2, 9000)]):
        out += [list_of(tile, [(i % 7, 0, (step * r.randrange(low, high), step * r.randrange(low, high), 5)) for i in range(400)]) for _ in range(3)]
    sent = [(7 + i % 3, d) for i, p in enumerate(out) for d in cut(i, b"TILE", p, 60000)]
    tried("many marks", folder, [log_of([(s, i, d) for i, (s, d) in enumerate(sent)])])
    # senders: of lists, of entries, of strays; messages that never completed; 17 lanes
    one = list_of(9, [(1, 1, (1, 1, 1))])
    crowd = [(s, d) for s in range(103) for d in cut(s, b"TILE", one, 60000)] + [(s, small(5, b"MAST", b"x")) for s in range(2**64 - 120, 2**64)]
    crowd += [(s, small(q, b"MAST", b"%d" % i)) for s in range(16) for q in (1, 2) for i in range(s % 3 + 1)] + [(50, fragment(i, 9, 0, 0, 3, b"x", b"TILE")) for i in range(120)]
    r.shuffle(crowd)
    tried("many senders", folder, [log_of([(s, 3 * i, d) for i, (s, d) in enumerate(crowd)])])
    for most in (15, 16, 17, 18):
        tried(f"{most} senders", folder, [log_of([(s % most, 5 * s, small(s, b"MAST", b"x")) for s in range(200)])])
    # steps: two thousand, so that two are not usual; three entries; one; none
    for n, jumps in ((2500, (7, 900, 1900)), (1000, (5,)), (999, (5, 600)), (4, (2,)), (3, (1,)), (2, (1,)), (1, ()), (0, ())):
        at, clock = 1_700_000_000_000, []
        for i in range(n):
            at += 100 + (365 * DAY if i in jumps else 0)
            clock.append(at)
        tried(f"{n} entries, steps at {jumps}", folder, [log_of([(7, t, small(i, b"MAST", b"")) for i, t in enumerate(clock)])])
        tried(f"{n} entries, steps at {jumps}, back", folder, [log_of([(7, t, small(i, b"MAST", b"")) for i, t in enumerate(clock[::-1])])])


def steps(folder):
    """Both sides of what is drawn as it is: a step on as long as all others together, a step back of a twentieth of the usual ones."""
    for last in (999, 1000, 1001):
        on = [100 * i for i in range(11)]
        tried(f"a step on of {last} behind 1000", folder, [log_of([(7, t, small(i, b"MAST", b"")) for i, t in enumerate(on + [1000 + last])])])
    for back in (44, 45, 46):
        # ten steps of 100, of which one is the longest: 900 are usual
        tried(f"a step back of {back}", folder, [log_of([(7, t, small(i, b"MAST", b"")) for i, t in enumerate([100 * i for i in range(11)] + [1000 - back])])])


def full(folder):
    """More pits than a season has room for: no pit is told, and all of the flights."""
    lists = [pits_message(9, [(i, 0) for i in range(at, at + 4096)], place=lambda pit: False) for at in range(0, 65537, 4096)]
    sent = [(7, d) for i, p in enumerate(lists) for d in cut(i, b"TILE", p, 60000)]
    over = log_of([(s, i, d) for i, (s, d) in enumerate(sent)])
    got = tried("65,537 pits", folder, [log_of([(7, 1, small(1, b"MAST", b""))]), over, season.SEASON[1]])
    held(got.endswith(b"\nseason\nrefused 61\n") and got.count(b"\nlog ") == 2, "65,537 pits", got[-100:].decode())
    # marks of known pits come behind the last new one
    tried("65,536 pits", folder, [log_of([(s, i, d) for i, (s, d) in enumerate(sent[:-1] + [(8, d) for d in cut(5, b"TILE", list_of(9, [(3, 1, (1, 1, 1)), (65535, 0, None)]), 60000)])])])


def memory(folder):
    """What is long needs no more memory: half a million pits, of which none is told; a million datagrams, each another."""
    if "QM" in os.environ:
        return print("the memory of another qm is not looked at")
    lists = [messages.write([1, 5, 9, 4096] + [n for pit in range(at, at + 4096) for n in (4, pit, 1, 0)], True) for at in range(0, 500_000, 4096)]
    for what, wanted, sent in [("pits", 3, [d for i, p in enumerate(lists) for d in cut(i, b"TILE", p, 60000)]), ("datagrams", 0, [i.to_bytes(4, "big") for i in range(1_100_000)])]:
        path = os.path.join(folder, f"{what}.log")
        put(path, log_of([(7, i, d) for i, d in enumerate(sent)]))
        for command in ("sums", "count", "strays"):
            # half of this is lent to the proved functions
            status, _, said = qm(command, path, preexec_fn=lambda: resource.setrlimit(resource.RLIMIT_DATA, (MEMORY, MEMORY)))
            held(status == (wanted if command != "strays" else 0), f"qm {command}, many {what}, status {status}", said)


def called(folder):
    none = os.path.join(folder, "none.log")
    for words, says in [((), "LOG: no log is named"), (("--loud", none), "--loud: there is no such option")]:
        got = qm("sums", *words)
        held(got[0] == 2 and got[1] == "" and got[2].startswith(f"qm sums: {says}") and "\nusage: qm sums " in got[2], f"qm sums {words}", str(got))
    for where, why in [(none, "No such file or directory"), (folder, "Is a directory")]:
        got = qm("sums", os.path.join(ROOT, "samples", "survey.log"), where)
        held(got[0] == 1 and got[1] == "" and f"qm sums: {where}: {why}" in got[2], f"qm sums {where}", str(got))
    no_room("sums", os.path.join(ROOT, "samples", "survey.log"))


def faulty():
    """The count is a process of its own: where there is none, nothing is lost; where it ends early that is said, and so are the flights before."""
    if "QM" in os.environ:
        return print("no faults are planted in another qm")
    program = built.with_faults("sums", "pipe", "fdopen", "fork", "flight_begin", "season_write")
    paths = [os.path.join(ROOT, name) for name in season.NAMES[:2]]
    whole, _ = sums.sums(season.SEASON[:2], [os.fsencode(path) for path in paths])
    first = whole[:whole.index(b"log " + os.fsencode(paths[1]))]
    both = whole[:whole.index(b"season\n")]
    ended = "qm sums: {}: the process that counts was ended\n"
    for fault, printed, says in [("none", whole, ""), ("no pipe", whole, ""), ("nothing is read", whole, ""), ("no process", whole, ""), ("nothing is written", b"", ended.format(paths[0])),
                                 ("killed", b"", ended.format(paths[0])), ("killed in the second", first, ended.format(paths[1])), ("killed at the end", both, ended.format(paths[1])),
                                 ("shorter", b"", "qm: the file became shorter while it was read\n")]:
        done = subprocess.run([*program, "sums", *paths], stdin=subprocess.DEVNULL, stdout=subprocess.PIPE, stderr=subprocess.PIPE, env={**os.environ, "FAULT": fault})
        held((done.returncode, done.stdout, done.stderr.decode()) == (1 if says else 0, printed, says), f"fault {fault}, status {done.returncode}, {done.stderr!r}", done.stdout.decode(), printed.decode())
    # whoever kills the one that asks leaves none that counts: it would hold the output open
    running = subprocess.Popen([*program, "sums", *paths], stdin=subprocess.DEVNULL, stdout=subprocess.PIPE, stderr=subprocess.PIPE, env={**os.environ, "FAULT": "slow"})
    held(running.stderr.readline() == b"begun\n", "the process that counts")
    running.kill()
    try:
        running.communicate(timeout=60)
        held(True, "")
    except subprocess.TimeoutExpired:
        held(False, "the process that counts has not ended with the one that asks")


with tempfile.TemporaryDirectory() as folder:
    side_by_side(lambda _, seed: random_season(folder, seed), range(int(os.environ.get("SEASONS", 60))))
    for i, at in enumerate([0, 1, 4, 5, *random.Random(38).sample(range(6, len(season.SEASON[1])), 8)]):
        tried(f"cut at {at}", folder, [season.SEASON[1][:at]])
    tried("the sample season", folder, season.SEASON)
    tried("one flight twice, and names of any bytes", folder, [season.SEASON[1]] * 2, [b"a b\xe9.log", b"c log d"])
    repeats(folder)
    many(folder)
    steps(folder)
    full(folder)
    memory(folder)
    called(folder)
    faulty()
close()
