"""Runs the program count_pits, and `qm count`, on many logs, and compares what they write with the count of tests/model/count.py, which is written
from the paper, and the season beside it: small worlds in which everything comes often, both sides of each limit, and logs as long as the program holds and
longer. Of one whole log within L9's limits both print the same; `qm` goes on where these end, and each failure is tried too: what it says, and its status."""
import os
import subprocess
import tempfile

from model import built, count, season
from model.called import no_room, qm
from model.files import put
from model.log import filled
from model.tally import close, held


def runs(logs):
    words = built.program("count_pits")
    for b, expected in logs:
        got = subprocess.run(words, input=b, capture_output=True).stdout.decode()
        held(got == expected, f"count_pits, a log of {len(b)} bytes", got, expected)


def maps(logs, folder):
    path = os.path.join(folder, "flight.log")
    for b in logs:
        put(path, b)
        status, got, said = qm("count", path)
        expected, wanted, strays = season.count([b])
        good = (got, status) == (expected, wanted) and (said == "") == (status == 0 and not any(strays))
        held(good, f"qm count, a log of {len(b)} bytes, status {status}, {said!r}", got, expected)
        # within L9's limits it is L9's count, over slots of the largest payload
        by_request = count.count(b, store=season.STORE, room=count.messages.LIMIT)
        held(isinstance(by_request, int) or got == count.told(by_request), "qm count beside L9's count", got, str(by_request))


def failures(folder):
    """Each failure has its status and a line that says what is wrong."""
    some = os.path.join(folder, "flight.log")
    tries = [
        (("count", os.path.join(folder, "none.log")), 1, "No such file or directory"),
        (("count", folder), 1, "Is a directory"),
        (("count", "/dev/stdin"), 1, "not a file on disk"),
        ((), 2, "usage: qm"),
        (("count",), 2, "usage: qm"),
        (("count", "--some", some), 2, "usage: qm"),
        (("tell", some), 2, "no such command"),
    ]
    for words, status, says in tries:
        got = qm(*words)
        held(got[0] == status and got[1] == "" and says in got[2], f"qm {words}", str(got), f"{status} {says}")
    put(some, count.LATE)
    no_room("count", some)
    got = qm("--help")
    held(got[0] == 0 and got[1].startswith("usage: qm") and got[2] == "", "qm --help", str(got), "0")


def long_log(length):
    """A good log of just that length, full of marks."""
    marks = [(i % 700, i % 2) for i in range(1400)]
    b = count.log_of(count.ticked([(7, d) for q in range(31) for d in count.cut(q, b"TILE", count.pits_message(q % 9, marks), 65507)]))
    return filled(b, length)


LONG, LONGER = long_log(count.HOLDS), long_log(3 * count.HOLDS)
logs = count.edges() + count.refused_first() + count.each_number() + [count.world(seed) for seed in range(200)] + [LONG, LONG + b"\1", bytes(count.HOLDS + 70000)]
LOGS = [(b, count.count_pits(b)) for b in logs]
# an answer that is never met is not tested
for line in ["refused 40\n", "refused 41\n", "refused 42\n", "refused 43\n", "refused 45\n", "refused 60\n", "refused 61\n", "refused 62\n", "entries 4096\n", "entries 0\n", f"longer than {count.HOLDS} bytes\n"]:
    assert any(said == line or said.startswith(line) and "lists" in said for _, said in LOGS), line
for line in [f"refused {n} " for n in (1, 2, 4, 5, 6, 7, 8)]:
    assert sum(line in said for _, said in LOGS) >= 5, line
assert any(said.count("tile ") == 256 for _, said in LOGS) and any(sum(int(x.split()[3]) for x in said.split("\n") if x[:4] == "tile") == 8192 for _, said in LOGS)
runs(LOGS)
with tempfile.TemporaryDirectory() as folder:
    # what is longer than the program holds is counted here
    maps([b for b, said in LOGS if not said.startswith("longer")] + [LONGER], folder)
    failures(folder)
close()
