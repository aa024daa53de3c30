"""The index file, in plain Python, written from its description alone: the byte 1, the covered length (8 bytes), the number of rows (8), and the rows of 20 bytes, sender
(8), sequence (4), place (8), big-endian, sorted as L11 has it; 46 not an index file, 47 not of this log."""
from .index import accepted
from .log import Refused, head_in, number_at
from .receiver import read

HEAD, ROW = 17, 20


def file_of(covered, rows):
    return b"\1" + covered.to_bytes(8, "big") + len(rows).to_bytes(8, "big") + b"".join(s.to_bytes(8, "big") + q.to_bytes(4, "big") + p.to_bytes(8, "big") for s, q, p in rows)


def file_of_log(b):
    return file_of(len(b), sorted(accepted(b)))


def head_of(f):
    """Covered length and number of rows."""
    if len(f) < HEAD or f[0] != 1 or len(f) != HEAD + ROW * int.from_bytes(f[9:17], "big"):
        raise Refused(46)
    return int.from_bytes(f[1:9], "big"), int.from_bytes(f[9:17], "big")


def row(f, i):
    b = f[HEAD + ROW * i:HEAD + ROW * (i + 1)]
    return int.from_bytes(b[:8], "big"), int.from_bytes(b[8:12], "big"), int.from_bytes(b[12:], "big")


def rows_of_file(f):
    rows = [row(f, i) for i in range(head_of(f)[1])]
    if rows != sorted(rows):
        raise Refused(46)
    return rows


def key_at(b, place):
    """Sender and sequence of the entry at a place, or None."""
    try:
        _, (payload, fragments) = head_in(b)
        if place >= len(b):
            return None
        sender, at = number_at(b, place)
        _, at = number_at(b, at)
        length, at = number_at(b, at)
    except Refused:
        return None
    if length > 65535 or len(b) - at < length:
        return None
    said = read(b[at:at + length], payload, fragments)
    return (sender, said["sequence"]) if isinstance(said, dict) else None


def look_up(b, f, sender, sequence):
    """The place of a key's first entry by the file, or None."""
    covered, n = head_of(f)
    if covered > len(b):
        raise Refused(47)
    if n and any(key_at(b, row(f, i)[2]) != row(f, i)[:2] for i in (0, n - 1)):
        raise Refused(47)
    low, high = 0, n
    while low < high:
        middle = low + (high - low) // 2
        if row(f, middle) < (sender, sequence, 0):
            low = middle + 1
        else:
            high = middle
    if low == n or row(f, low)[:2] != (sender, sequence):
        return None
    if key_at(b, row(f, low)[2]) != (sender, sequence):
        raise Refused(47)
    return row(f, low)[2]
