"""Each program, and qm over the exports, on the bytes that cost it most: four times as many must not cost over eight times the processor's time. Linear work
costs four times, quadratic work sixteen. What a program takes to start is taken off; what is below half of that is too short to be told apart, and too short to hurt."""
import os
import resource
import subprocess
import sys
import tempfile

from model import acks, built, log, messages, moss, receiver
from model.called import QM
from model.files import put
from model.tally import close, held

TIMES, MOST = 4, 8
# How often the worst record comes, where the paper bounds its length.
MANY = 8
# How often what seems too slow is run again, since another program may have had the processor's cache; and the seconds after which nothing is waited for.
AGAIN, LIMIT = 3, 15


def seconds(words, given):
    """The processor's time of one run, this process's part in it left out."""
    before = resource.getrusage(resource.RUSAGE_CHILDREN)
    try:
        done = subprocess.run(words, input=given, stdout=subprocess.DEVNULL, stderr=subprocess.DEVNULL, timeout=LIMIT)
    except subprocess.TimeoutExpired:
        return float("inf")
    after = resource.getrusage(resource.RUSAGE_CHILDREN)
    if done.returncode not in (0, 3):
        sys.exit(f"{words[-1]} ended with status {done.returncode}")
    return after.ru_utime + after.ru_stime - before.ru_utime - before.ru_stime


def compare(what, start, small, large):
    """`start`, `small` and `large` each run something once and say its seconds: the least of several counts."""
    begun = min(start() for _ in range(2))
    a, b = small(), large()
    least = max(a - begun, begun / 2)
    for _ in range(AGAIN):
        if b - begun <= MOST * least or b > LIMIT:
            break
        begun, a, b = min(begun, start()), max(a, small()), min(b, large())
        least = max(a - begun, begun / 2)
    held(b - begun <= MOST * least, what, f"{b - begun:.3f} s", f"at most {MOST} times {least:.3f} s")


def program(name, make, n, *more):
    words = [*built.program(name), *more]
    runs = [lambda given=given: seconds(words, given) for given in (b"", make(n), make(TIMES * n))]
    compare(f"{name}, {make.__name__} {n} and {TIMES * n}", *runs)


def qm(command, make, n, *more):
    """Over a file."""
    with tempfile.TemporaryDirectory() as folder:
        paths = [os.path.join(folder, part) for part in ("none", "small", "large")]
        for path, b in zip(paths, (log.log_of([]), make(n), make(TIMES * n))):
            put(path, b)
        runs = [lambda path=path: seconds([*QM, *command.split(), path, *more], b"") for path in paths]
        compare(f"qm {command}, {make.__name__} {n} and {TIMES * n}", *runs)


# ---- the worst of each

def empty_messages(n):
    """Packets of so many empty messages."""
    return moss.stream_of([moss.packet(b"SESSION001", 1, b"U", moss.block(b"") * n)] * MANY, 2)


def empty_blocks(n):
    return moss.stream_of([b"SESSION001" + bytes(4) + b"U" + moss.block(b"") * n] * MANY, 4)


def bitmaps(n):
    """Lists of bitmaps of one bit each."""
    return acks.stream_of([bytes(8) + acks.bitmap(1, "1") * n] * MANY)


def lone_numbers(n):
    return acks.stream_of([b"".join((2 * i).to_bytes(8, "big") for i in range(n))] * MANY)


def empty_lists(n):
    return acks.stream_of([b""] * n)


def nulls(n):
    """The numbers of a list of so many marks, each of them null."""
    return [2, 5, 7, n] + [0] * n


def null_marks(n):
    return messages.message_stream([messages.write(nulls(n), True)])


def null_numbers(n):
    return messages.list_stream([(nulls(n), True)])


def empty_datagrams(n):
    return receiver.stream_of([b""] * n)


def short_datagrams(n):
    """From the largest number down, so that each is late."""
    return receiver.stream_of([receiver.small(n - i, b"M", b"") for i in range(n)])


def one_byte_fragments(n):
    """So many messages in as many fragments as there may be, of one byte each, the last first."""
    most = receiver.MAX_FRAGMENTS
    return [receiver.fragment(i, most, k, k, most, b"p", b"M" if k == 0 else b"") for i in range(n) for k in reversed(range(most))]


def fragments(n):
    return receiver.stream_of(one_byte_fragments(n))


def fragment_log(n):
    return log.log_of([(7, 0, d) for d in one_byte_fragments(n)])


def empty_entries(n):
    return log.log_of([(0, 0, b"")] * n)


def empty_records(n):
    return log.record(0, 0, b"") * n


def falling_keys(n):
    """Each goes before all that came."""
    return log.log_of([(n - i, 0, receiver.small(n - i, b"M", b"")) for i in range(n)])


def falling_pits(n):
    """Lists of marks, of which each goes before all that came."""
    lists = []
    for first in range(0, n, 512):
        numbers = [1, 5, 7, 512]
        for i in range(first, first + 512):
            numbers += [4, n - i, 1, 0]
        lists += receiver.cut(first, b"LIST", messages.write(numbers, True), 1400)
    return log.log_of([(7, 0, d) for d in lists])


def lone_pits(n):
    """As many tiles, each with one pit."""
    return log.log_of([(7, 0, receiver.small(i, b"LIST", messages.write([1, 5, n - i, 1, 4, i, 1, 0], True))) for i in range(n)])


def round_pits(n):
    """One pit, whose marks lie on a bow: each is outermost."""
    marks = [[4, 1, 1, 2, i - n // 2, (i - n // 2) ** 2, 0] for i in range(n)]
    lists = [d for at in range(0, n, 512) for d in receiver.cut(at, b"LIST", messages.write([1, 5, 7, len(marks[at:at + 512])] + [x for m in marks[at:at + 512] for x in m], True), 1400)]
    return log.log_of([(7, 0, d) for d in lists])


def main():
    program("gauge", empty_messages, 8000)
    program("gauge_bytes", empty_blocks, 8000)
    program("acks", bitmaps, 1300)
    program("ack_bytes", lone_numbers, 16000)
    program("ack_bytes", empty_lists, 1000)
    program("lmcp_list", null_marks, 60000)
    program("lmcp_bytes", null_numbers, 60000)
    program("gaps", short_datagrams, 8000)
    program("replay", fragments, 3)
    program("replay_long", fragments, 3)
    program("replay", empty_datagrams, 8000)
    program("log_write", empty_records, 20000)
    program("log_list", empty_entries, 20000)
    program("replay_log", fragment_log, 3)
    program("index_list", falling_keys, 1024)
    program("find", falling_keys, 1024, "1", "1")
    program("count_pits", falling_pits, 1024)
    qm("list", empty_entries, 20000)
    qm("gaps", empty_entries, 20000)
    qm("replay", fragment_log, 3)
    qm("index --print", falling_keys, 1024)
    qm("find", falling_keys, 1024, "1", "1")
    qm("count", falling_pits, 1024)
    qm("pits", falling_pits, 1024)
    qm("pits", lone_pits, 1024)
    qm("sums", empty_entries, 20000)
    qm("sums", fragment_log, 3)
    qm("sums", falling_keys, 1024)
    qm("sums", falling_pits, 1024)
    qm("sums", lone_pits, 1024)
    qm("sums", round_pits, 4096)
    close()


if __name__ == "__main__":
    main()
