"""The log of document 02, L1 and L10, written from the papers alone, in plain Python, and what the programs over a log write."""
from .receiver import Receiver

HOLDS = 4194304
STORE = 2097152
LIMIT = 1048576  # of a log's payload limit
FIRST = (262144, 256)  # what edition 1 is read as: payload limit, fragments
FRAGMENTS = 1024  # of edition 2


class Refused(Exception):
    def __init__(self, number):
        super().__init__(number)
        self.number = number


# ---- writing

def seven(v):
    """Groups of seven bits, the lowest first, the top bit set on all but the last."""
    out = bytearray()
    while v >= 128:
        out.append(128 | (v & 127))
        v >>= 7
    return bytes(out + bytearray([v]))


def entry_bytes(sender, tick, datagram):
    return seven(sender) + seven(tick) + seven(len(datagram)) + datagram


def log_of(entries, limit=LIMIT):
    """A log as it is written: edition 2, and its payload limit."""
    return b"\x02" + seven(limit) + b"".join(entry_bytes(*e) for e in entries)


def first_log_of(entries):
    """A log of edition 1."""
    return b"\x01" + b"".join(entry_bytes(*e) for e in entries)


# ---- reading

def number_at(b, at):
    """The number at a place and the place after it. 43 where it is cut comes before any look at its value."""
    end = at
    while end < len(b) and b[end] >= 128 and end - at < 9:
        end += 1
    if end >= len(b):
        raise Refused(43)
    groups = b[at:end + 1]
    if len(groups) == 10 and groups[9] > 1:
        raise Refused(41)
    if len(groups) > 1 and groups[-1] == 0:
        raise Refused(41)
    return sum((g & 127) << (7 * i) for i, g in enumerate(groups)), end + 1


def head_in(b):
    """Where the entries begin, and the limits of their fragments: the payload limit and the most fragments."""
    if not b:
        raise Refused(43)
    if b[0] == 1:
        return 1, FIRST
    if b[0] != 2:
        raise Refused(40)
    limit, at = number_at(b, 1)
    if limit > LIMIT:
        raise Refused(45)
    return at, (limit, FRAGMENTS)


def limits_in(b):
    """The limits, where the head is not refused."""
    try:
        return head_in(b)[1]
    except Refused:
        return 0, 0


def entries_in(b):
    """The entries, and the refusal that ended them or None."""
    entries = []
    try:
        at, _ = head_in(b)
        while at < len(b):
            sender, next_ = number_at(b, at)
            tick, next_ = number_at(b, next_)
            length, next_ = number_at(b, next_)
            if length > 65535:
                raise Refused(42)
            if len(b) - next_ < length:
                raise Refused(43)
            entries.append((sender, tick, b[next_:next_ + length]))
            at = next_ + length
    except Refused as r:
        return entries, r.number
    return entries, None


# ---- the programs

def last_line(entries, refusal):
    return f"end {len(entries)}" if refusal is None else f"refused {refusal} after {len(entries)}"


def log_list(b):
    if len(b) > HOLDS:
        return f"longer than {HOLDS} bytes\n"
    entries, refusal = entries_in(b)
    lines = [f"{i + 1} sender {s} tick {t} length {len(d)}" for i, (s, t, d) in enumerate(entries)]
    return "\n".join(lines + [last_line(entries, refusal)]) + "\n"


def replay_log(b):
    if len(b) > HOLDS:
        return f"longer than {HOLDS} bytes\n"
    entries, refusal = entries_in(b)
    receiver = Receiver(STORE, *limits_in(b))
    lines = [f"{i + 1} {receiver.receive(s, d)}" for i, (s, t, d) in enumerate(entries)]
    return "\n".join(lines + [last_line(entries, refusal)]) + "\n"


def record(sender, tick, datagram):
    return sender.to_bytes(8, "big") + tick.to_bytes(8, "big") + len(datagram).to_bytes(2, "big") + datagram


def log_write(stream):
    """The whole records of a stream, as a log."""
    entries, at = [], 0
    while len(stream) - at >= 18:
        length = int.from_bytes(stream[at + 16:at + 18], "big")
        if len(stream) - at - 18 < length:
            break
        entries.append((int.from_bytes(stream[at:at + 8], "big"), int.from_bytes(stream[at + 8:at + 16], "big"), stream[at + 18:at + 18 + length]))
        at += 18 + length
    return log_of(entries)


# ---- logs for every program over a log

def hurt(r, b, share):
    """A log as it is found, by random numbers: in a share of cases cut anywhere, and sometimes damaged."""
    if r.random() < share:
        b = b[:r.randrange(len(b) + 1)]
    if r.random() < 0.1:
        at = r.randrange(len(b) + 1)
        b = b[:at] + bytes(r.choice([0, 1, 128, 255]) for _ in range(r.randrange(3))) + b[at + r.randrange(2):]
    return b


def as_found(r, entries):
    """The same of these entries, of either edition."""
    return hurt(r, r.choice([first_log_of(entries), log_of(entries), log_of(entries, r.choice([0, 150, 262144]))]), 0.15)


def filled(b, length):
    """A good log with more entries, of just that length."""
    while length - len(b) > 20000:
        b += entry_bytes(4, 1, bytes(9000))
    return next(b + e for e in (entry_bytes(4, 1, bytes(n)) for n in range(length - len(b))) if len(b) + len(e) == length)


def each_number():
    """Logs in which each of the numbers, a log's limit and an entry's three, is refused for each reason, cut before that would be known, and just good: not in
    its shortest form by one group and by more, a tenth byte of 0, 2, 129; the limit one over the most, a length one over."""
    bad = [b"\x85\x00", b"\x80\x80\x00", b"\xff" * 9 + b"\x02", b"\x80" * 9 + b"\x00", b"\xff" * 9 + b"\x81", b"\x80" * 9 + b"\x03", b"\xff" * 9 + b"\x01"]
    out = [b"\x02" + x for x in bad] + [b"\x02" + x[:-1] for x in bad]
    out += [b"\x02" + seven(LIMIT + n) + entry_bytes(7, 9, b"abc") for n in (-1, 0, 1)] + [b"\x00" + entry_bytes(7, 9, b"abc"), b"\x03" + seven(LIMIT), b"\x81\x00"]
    for head in (b"\x01", b"\x02" + seven(LIMIT)):
        log = head + entry_bytes(7, 9, b"abc")
        for place in (b"", b"\x05", b"\x05\x05"):
            out += [log + place + x + b"\x05\x05\x05" for x in bad] + [log + place + x[:-1] for x in bad]
        out += [log + b"\x05\x05" + seven(65536), log + b"\x05\x05" + seven(65535), log + b"\x05\x05" + seven(65536)[:-1], log + b"\x05\x05\x80\x80\x84\x00", log + b"\x05\x05\x01", log]
    return out
