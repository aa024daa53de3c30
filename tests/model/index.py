"""The index of document 02, L11, written from the paper alone, in plain Python, and what the programs over it write."""
import random

from .files import bytes_of
from .log import HOLDS, Refused, first_log_of, head_in, log_of, number_at
from .receiver import cut, fragment, read, small

MOST = 4096


def accepted(b):
    """Sender, sequence and place of each entry whose datagram the reader accepts within the log's limits, in the log's order."""
    at, (payload, fragments) = head_in(b)
    rows = []
    while at < len(b):
        place = at
        sender, at = number_at(b, at)
        _, at = number_at(b, at)
        length, at = number_at(b, at)
        if length > 65535:
            raise Refused(42)
        if len(b) - at < length:
            raise Refused(43)
        said = read(b[at:at + length], payload, fragments)
        at += length
        if isinstance(said, dict):
            rows.append((sender, said["sequence"], place))
    return rows


def index_of(b):
    """The rows, sorted; 44 after the log's own refusals."""
    rows = accepted(b)
    if len(rows) > MOST:
        raise Refused(44)
    return sorted(rows)


def first_of(b, sender, sequence):
    """The place of a key's first entry, as the log has them, or None."""
    index_of(b)
    return next((place for s, q, place in accepted(b) if (s, q) == (sender, sequence)), None)


def said_of(b, say):
    if len(b) > HOLDS:
        return f"longer than {HOLDS} bytes\n"
    try:
        return say()
    except Refused as r:
        return f"refused {r.number}\n"


def index_list(b):
    def say():
        rows = index_of(b)
        return "".join(f"sender {s} sequence {q} place {p}\n" for s, q, p in rows) + f"end {len(rows)}\n"

    return said_of(b, say)


def find(b, sender, sequence):
    def say():
        place = first_of(b, sender, sequence)
        return "none\n" if place is None else f"place {place}\n"

    return said_of(b, say)


def keys(seed, n):
    """Messages of a few senders and sequences, at both ends of each, so that most keys come more than once and in any order; strangers between."""
    r = random.Random(seed)
    senders = [0, 1, 7, 127, 128, 2**32, 2**63, 2**64 - 1]
    sequences = [0, 1, 2, 500, 2**16, 2**31, 2**32 - 2, 2**32 - 1]
    entries = []
    for i in range(n):
        q = r.choice(sequences)
        d = r.choice([small(q, b"MAST", b"wind"), fragment(q, 90, 0, 0, 2, b"x" * 40, b"TILE"), fragment(q, 90, 40, 1, 2, b"x" * 50), cut(q, b"TILE", bytes(200), 96)[-1]])
        if r.random() < 0.15:
            d = r.choice([b"", d[:7], d[:-1], b"hello, is anybody there?", fragment(q, 91, 0, 0, 2, b"x" * 40, b"\x1f"), fragment(q, 90, 0, 0, 0, b"x", b"T")])
        entries.append((r.choice(senders), r.randrange(2**40), d))
    return entries


def limits():
    """Fragments on both sides of the limits of a log, and small ones, which no limit concerns."""
    d = [fragment(700 + i, p, 1, 1, n, b"x") for i, (p, n) in enumerate([(100, 3), (101, 3), (100, 256), (100, 257), (262144, 3), (262145, 3), (1048576, 3), (1048577, 3), (100, 1024), (100, 1025)])]
    return [(5, i, x) for i, x in enumerate(d + [small(730, b"MAST", bytes(300)), small(731, b"", b"x")])]


LISTED = log_of(keys(2312, 300) + limits(), 262145)
FILES = {
    "crates/index_list/stdin": LISTED,
    "crates/index_list/stdout": index_list(LISTED).encode(),
    "crates/find/args": b"7\n500\n",
    "crates/find/stdin": LISTED,
    "crates/find/stdout": find(LISTED, 7, 500).encode(),
}
FILES["samples/flight-index.txt"] = index_list(bytes_of("samples", "flight.log")).encode()
assert FILES["crates/find/stdout"].startswith(b"place ")
assert any(a[:2] == b[:2] for a, b in zip(index_of(LISTED), index_of(LISTED)[1:]))
assert index_list(first_log_of([])) == "end 0\n"
