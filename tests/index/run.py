"""The built programs index_list and find, on many logs and keys, against an index written from the paper (tests/model/index.py), which is held
to a second one in C (tests/reference/index.c); and the exported calls over an index file against tests/model/index_file.py.

tests/index/run --file      the calls over an index file alone"""
import random
import subprocess
import sys

from model import built
from model.index import HOLDS, MOST, accepted, find, index_list, keys, limits
from model.index_file import HEAD, ROW, file_of, file_of_log, head_of, look_up, row, rows_of_file
from model.log import Refused, each_number, entry_bytes, first_log_of, head_in, log_of, number_at, seven
from model.receiver import small
from model.tally import close, held

USAGE = b"usage: find SENDER SEQUENCE < LOG\n"


def check(program, args, b, out, err=b""):
    got = subprocess.run((SECOND if program == "second" else built.program(program)) + args, input=b, capture_output=True)
    held((got.stdout, got.stderr, got.returncode) == (out, err, 0), f"{program} {args}: {b[:40].hex()} ({len(b)} bytes): {got.stderr[-60:]} and not {err}", got.stdout, out)


def rows_of(b):
    try:
        return accepted(b)
    except Refused:
        return []


def many(n, order):
    """A log with so many accepted entries, and others."""
    r = random.Random(n)
    q = list(range(n))
    if order == "falling":
        q.reverse()
    if order == "any":
        r.shuffle(q)
    return log_of([(q[i] % 3 if order == "any" else 9, i, small(q[i], b"M", b"")) for i in range(n)] + [(1, 1, b"")] * 5)


def damaged(seed, n):
    r, out = random.Random(seed), []
    for _ in range(n):
        b = bytearray(r.choice([log_of, first_log_of])(keys(r.randrange(10**6), r.randrange(8))))
        at = r.randrange(len(b) + 1)
        b[at:at + r.randrange(3)] = bytes(r.choice([0, 1, 2, 127, 128, 255]) for _ in range(r.randrange(3)))
        out.append(bytes(b))
    return out


good = [log_of(keys(s, n)) for s, n in ((1, 0), (2, 1), (3, 2), (4, 3), (5, 40), (6, 400))] + [first_log_of(keys(7, 60)), first_log_of(limits()), log_of(limits()), log_of(limits(), 100), log_of(limits(), 0)]
full = [many(n, order) for n in (MOST - 1, MOST, MOST + 1) for order in ("rising", "falling", "any")]
bad = [b"", b"\0", b"\1", b"\2", b"\3", b"\2" + seven(2**20 + 1), b"\2\x80\0", good[4][:-1], full[6] + b"\5", full[6] + b"\5\5" + seven(65536), full[6] + b"\x80\0", many(MOST + 1, "any") + entry_bytes(1, 1, b"")[:-1]]
long = log_of([(3, i, small(i, b"MAST", bytes(60000))) for i in range(69)])
long += entry_bytes(4, 1, bytes(HOLDS - len(long) - 5))
assert len(long) == HOLDS


def programs():
    """index_list and find, and the second index, on all these logs."""
    for b in good + full + bad + damaged(11, 150) + [long, long + b"\1", bytes(HOLDS + 70000)]:
        check("index_list", [], b, index_list(b).encode())
        check("second", [], b, index_list(b).encode())
        r = random.Random(len(b))
        held = [row[:2] for row in rows_of(b)]
        for s, q in r.sample(held, min(6, len(held))) + [(7, 500), (0, 0), (2**64 - 1, 2**32 - 1), (9, 4095), (9, 4096), (3, 1)][:6 if len(b) < 9000 else 2]:
            check("find", [str(s), str(q)], b, find(b, s, q).encode())

    # each number of a log refused for each reason
    for b in each_number():
        check("index_list", [], b, index_list(b).encode())
        check("find", ["7", "9"], b, find(b, 7, 9).encode())

    # arguments: two numbers within their ranges, and nothing else
    b = good[5]
    for args in ([], ["7"], ["7", "500", "1"], ["7", ""], ["", "7"], ["-1", "5"], ["+1", "5"], ["7 ", "5"], [" 7", "5"], ["7", "5a"], ["0x7", "5"], ["7.0", "5"], ["18446744073709551616", "5"], ["7", "4294967296"], ["99999999999999999999", "1"], ["7", "18446744073709551616"], ["7", "/"], ["7", ":"], ["1" * 100, "5"]):
        check("find", args, b, b"", USAGE)
    for args in (["18446744073709551615", "4294967295"], ["0", "0"], ["007", "0500"], ["7", "500"], ["0" * 63 + "7", "500"]):
        check("find", args, b, find(b, int(args[0]), int(args[1])).encode())


def exported():
    """The exported calls over an index file, linked with the archive."""
    return built.of_c("index_file", "host_index host_index_file", "tests/reference/datagram.c", "tests/index/file.c")


def ends_of(b):
    """Where the head of a whole log ends, and each entry."""
    at, _ = head_in(b)
    ends = [at]
    while at < len(b):
        for _ in range(3):
            length, at = number_at(b, at)
        at += length
        ends.append(at)
    return ends


def said_of_file(b, f, places, asked):
    """What tests/index/file.c prints."""
    try:
        out = "head 0 %d %d\n" % head_of(f)
    except Refused:
        out = "head 46 7 7\n"
    try:
        rows = rows_of_file(f)
        out += f"rows 0 {rows[0][0] if rows else 7}\n" + ("short 13\n" if rows else "short 0\n")
    except Refused:
        out += "rows 46 7\nshort 46\n"
    for s, q in asked:
        try:
            place = look_up(b, f, s, q)
            out += "find 0 0 0\n" if place is None else f"find 0 1 {place}\n"
        except Refused as r:
            out += f"find {r.number} 7 7\n"
    made = b""
    for place in places:
        try:
            made = file_of_log(b[:place])
        except Refused as r:
            return out + f"refused {r.number}\nfile 0 \n"
    return out + f"file {len(made)} {made.hex()}\n"


def check_file(b, f, places, asked):
    """One case more: all are asked in one run."""
    eight = lambda *numbers: b"".join(n.to_bytes(8, "big") for n in numbers)  # noqa: E731
    given = eight(len(b)) + b + eight(len(f)) + f + eight(len(places), *places) + eight(len(asked)) + b"".join(eight(*key) for key in asked)
    cases.append((given, said_of_file(b, f, places, asked)))


def check_cases():
    got = subprocess.run(calls, input=b"".join(given for given, _ in cases), capture_output=True)
    lines = got.stdout.decode().splitlines(keepends=True)
    for given, said in cases:
        n = said.count("\n")
        here, lines = "".join(lines[:n]), lines[n:]
        held(here == said, f"index file, {len(given)} bytes", here[:200], said[:200])
    held(not lines and got.stderr == b"" and got.returncode == 0, f"index files: status {got.returncode}, {got.stderr[-200:]}", "".join(lines))


def broken(f, r):
    """Files that are none, or of another log."""
    out = [b"", f[:1], f[:16], f[:-1], f + b"\0", f + bytes(ROW), b"\2" + f[1:], b"\0" + f[1:], f[:9] + bytes(8) + f[17:], f[:1] + b"\xff" * 8 + f[9:], f[:1] + bytes(8) + f[9:]]
    n = (len(f) - HEAD) // ROW
    for i in sorted({0, n - 1, r.randrange(n)}) if n else []:
        at = HEAD + ROW * i
        out += [f[:at + k] + bytes([f[at + k] ^ 1]) + f[at + k + 1:] for k in (0, 7, 8, 11, 12, 19)]
    if n > 1:
        rows = [row(f, i) for i in range(n)]
        out += [file_of(head_of(f)[0], rows[::-1]), file_of(head_of(f)[0], rows[:1] + rows), file_of(head_of(f)[0], [(s, q, 2**64 - 1) for s, q, _ in rows])]
    return out


# with --file the calls over an index file alone
if sys.argv[1:] != ["--file"]:
    SECOND = built.of_c("second_index", "", "tests/reference/datagram.c", "tests/reference/index.c", "tests/index/main.c")
    programs()
calls, cases = exported(), []
for b in [log_of([]), first_log_of(keys(7, 60)), log_of(limits(), 100)] + [log_of(keys(s, n)) for s, n in ((21, 1), (22, 2), (23, 40), (24, 300))] + [many(3000, order) for order in ("falling", "any")]:
    r, f, ends = random.Random(len(b)), file_of_log(b), ends_of(b)
    asked = [x[:2] for x in r.sample(accepted(b), min(8, len(accepted(b))))] + [(7, 500), (0, 0), (2**64 - 1, 2**32 - 1), (9, 4096)]
    check_file(b, f, sorted(r.choices(ends, k=5)) + [len(b)], asked)
    grown = b + entry_bytes(3, 1, small(77, b"MAST", b"x"))
    check_file(grown, f, [len(grown)], asked + [(3, 77)])
    check_file(b[:-1], f, [len(b) - 1], asked)
    check_file(bytes([7]) + b[1:], f, [len(b)], asked)
    if len(b) < 20000:
        for x in broken(f, r):
            check_file(b, x, [ends[0]], asked)
# rows of one key, as many as there are
same = log_of([(5, i, small(6, b"M", b"")) for i in range(50)])
check_file(same, file_of_log(same), ends_of(same)[::10], [(5, 6), (5, 5), (5, 7), (4, 6), (6, 6)])
check_cases()
met = {line for _, said in cases for line in said.splitlines()}
owed = {"head 46 7 7", "rows 46 7", "short 13", "short 46", "find 46 7 7", "find 47 7 7"}
held(owed <= met, f"index files: never met {sorted(owed - met)}")
close()
