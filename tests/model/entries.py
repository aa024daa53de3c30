"""What comes out of a log, in plain Python: the entry at a place, a message's payload, the numbers that are missing and those that came, and logs out of
logs, as `qm show`, `qm take`, `qm gaps --missing`, `qm gaps --acks`, `qm cut` and `qm join` have them. It stands on the receiver, the watch and the log."""
from functools import lru_cache

from . import acks
from .log import Refused, entries_in, entry_bytes, first_log_of, head_in, limits_in, log_of
from .receiver import MAX_PAYLOAD, Receiver, read, small
from .season import text

STORE = 8 * MAX_PAYLOAD
WATCHED = 16


def placed(b):
    """Place, sender, tick and datagram of each whole entry, and the refusal or None."""
    entries, refusal = entries_in(b)
    at, out = (head_in(b)[0] if entries else 0), []
    for e in entries:
        out.append((at, *e))
        at += len(entry_bytes(*e))
    return out, refusal


def status_of(b, found=True):
    return 3 if entries_in(b)[1] is not None or not found else 0


# ---- one entry

def name_text(name):
    """Bytes outside 32 to 126 as \\x and two digits, a backslash as two."""
    return "".join("\\\\" if c == 92 else chr(c) if 32 <= c <= 126 else f"\\x{c:02x}" for c in name)


def said(datagram, limits):
    r = read(datagram, *limits)
    if isinstance(r, int):
        return f"refused {r}"
    if r["small"]:
        return f"small sequence {r['sequence']} name {name_text(r['name'])} payload {len(r['data'])}"
    line = f"fragment {r['number']} of {r['count']} sequence {r['sequence']} offset {r['offset']} data {len(r['data'])} payload {r['size']}"
    return line + (f" name {name_text(r['name'])}" if r["number"] == 0 else "")


def show(b, place):
    """What `qm show` prints, and its status."""
    here = [(s, t, d) for at, s, t, d in placed(b)[0] if at == place]
    lines = [x for s, t, d in here for x in (f"sender {s} tick {t} length {len(d)}", said(d, limits_in(b)))]
    return text(lines), status_of(b, here)


# ---- messages

def delivered(b, entries):
    """Sender, sequence, tick, payload and name of each message that a fresh receiver delivers of these entries, in order."""
    receiver, out = Receiver(STORE, *limits_in(b)), []
    for sender, tick, datagram in entries:
        if receiver.receive(sender, datagram).startswith("delivered"):
            out.append((sender, read(datagram, MAX_PAYLOAD)["sequence"], tick, receiver.payload, receiver.name))
    return out


@lru_cache(4)
def replayed(b):
    return delivered(b, entries_in(b)[0])


@lru_cache(4)
def keyed(b):
    """The entries that the reader accepts by its own limits, by their key."""
    out = {}
    for e in entries_in(b)[0]:
        r = read(e[2], MAX_PAYLOAD)
        if isinstance(r, dict):
            out.setdefault((e[0], r["sequence"]), []).append(e)
    return out


def take(b, sender, sequence):
    """Payload and name, and whether they are of the key's entries alone; or None."""
    whole = [m for m in replayed(b) if m[:2] == (sender, sequence)]
    alone = delivered(b, keyed(b).get((sender, sequence), []))
    if whole or alone:
        return (whole or alone)[0][3:], not whole
    return None


def ranges(numbers):
    """`3, 5 to 7`"""
    out = []
    for n in numbers:
        if out and out[-1][1] == n - 1:
            out[-1][1] = n
        else:
            out.append([n, n])
    return ", ".join(f"{a}" if a == z else f"{a} to {z}" for a, z in out)


def not_complete(b, sender, sequence):
    """What is said of a key whose entries complete no message: none has it, all are refused, or which fragments are missing."""
    some = keyed(b).get((sender, sequence), [])
    receiver, kept, refused = Receiver(STORE, *limits_in(b)), [], 0
    for _, _, d in some:
        answer = receiver.receive(sender, d)
        refused += answer.startswith("refused")
        kept += [read(d, MAX_PAYLOAD)] if answer.startswith("kept") else []
    if not some:
        return "no entry has this key\n"
    if not kept:
        return f"all of its {len(some)} entries are refused"
    missing = sorted(set(range(kept[0]["count"])) - {r["number"] for r in kept})
    return f"not complete: of fragments 0 to {kept[0]['count'] - 1} missing are {ranges(missing)}" + (f"; {refused} entries of it are refused, " if refused else "\n")


def take_all(b):
    """What `qm take --all` prints, and the files it makes."""
    lines, files, times = [], {}, {}
    for sender, sequence, tick, payload, name in replayed(b):
        times[sender, sequence] = n = times.get((sender, sequence), 0) + 1
        file = f"{sender}-{sequence}" + (f"-{n}" if n > 1 else "")
        files[file] = payload
        lines.append(f"sender {sender} sequence {sequence} tick {tick} payload {len(payload)} file {file} name {name_text(name)}")
    return text(lines + [f"end {len(lines)}"]), files


# ---- numbers

class Run:
    """The numbers of a sender since it began, or began anew, as they would be without the turn at 2^32."""

    def __init__(self, number):
        self.last = number
        self.began, self.came = number, {number}

    def missing(self):
        """The first and last of each stretch between two numbers that came, from the beginning on."""
        came = sorted(n for n in self.came if n >= self.began)
        return [(a + 1, z - 1) for a, z in zip(came, came[1:]) if z > a + 1]


def runs_in(b):
    """The runs of each sender that the watch has room for, in order of first number, and how many entries others have."""
    senders, others = {}, 0
    for sender, _, datagram in entries_in(b)[0]:
        r = read(datagram, MAX_PAYLOAD)
        if isinstance(r, int):
            continue
        number = r["sequence"]
        if sender not in senders:
            if len(senders) == WATCHED:
                others += 1
            else:
                senders[sender] = [Run(number)]
            continue
        run = senders[sender][-1]
        by = (number - run.last + 2**31) % 2**32 - 2**31
        if by < -1024:
            senders[sender].append(Run(number))
            continue
        run.came.add(run.last + by)
        run.last = max(run.last, run.last + by)
    return senders, others


def missing(b):
    """What `qm gaps --missing` prints, and how many entries are of senders past the 16th."""
    senders, others = runs_in(b)
    lines = []
    for sender, runs in senders.items():
        for i, run in enumerate(runs):
            lines += [f"sender {sender} restarted {run.began}"] if i > 0 else []
            lines += [f"sender {sender} missing {a % 2**32}" + (f" to {z % 2**32}" if z > a else "") for a, z in run.missing()]
    return text(lines + [f"end {len(senders)}"]), others


def came(b, sender):
    """The numbers of a sender that came, rising, as records of ack_bytes."""
    read_ = [read(d, MAX_PAYLOAD) for s, _, d in entries_in(b)[0] if s == sender]
    numbers = sorted({r["sequence"] for r in read_ if isinstance(r, dict)})
    parts = [numbers[i:i + acks.HOLDS] for i in range(0, len(numbers), acks.HOLDS)] or [[]]
    return acks.stream_of([acks.listed(part) for part in parts])


# ---- logs out of logs

def is_first(b):
    return b[:1] == b"\1"


def has_head(b):
    try:
        head_in(b)
        return True
    except Refused:
        return False


def cut_out(b, from_tick=0, to_tick=2**64 - 1, from_entry=0, to_entry=2**64 - 1, senders=()):
    """The log that `qm cut` writes, or None where the head is refused, and how many entries it has."""
    if not has_head(b):
        return None, 0
    some = [(s, t, d) for i, (s, t, d) in enumerate(entries_in(b)[0], 1) if from_tick <= t <= to_tick and from_entry <= i <= to_entry and (not senders or s in senders)]
    return first_log_of(some) if is_first(b) else log_of(some, limits_in(b)[0]), len(some)


def joined(logs):
    """The log that `qm join` writes, or None where no head is good, and how many entries it has."""
    good = [b for b in logs if has_head(b)]
    if not good:
        return None, 0
    some = [e for b in good for e in entries_in(b)[0]]
    return first_log_of(some) if all(map(is_first, good)) else log_of(some, max(limits_in(b)[0] for b in good)), len(some)


def told_editions(logs):
    """Which of them are told of: those of edition 1 where others are not."""
    good = [b for b in logs if has_head(b)]
    return [i for i, b in enumerate(logs) if is_first(b)] if not all(map(is_first, good)) else []


# the words of the request: a number alone, a stretch, one that came late, across the turn, and what a restart leaves
_NUMBERS = {7: [507, 509, 513, 511], 8: [2**32 - 2, 3], 9: [5000, 5003, 0, 2, 5001]}
_LINES = """sender 7 missing 508
sender 7 missing 510
sender 7 missing 512
sender 8 missing 4294967295 to 2
sender 9 missing 5001 to 5002
sender 9 restarted 0
sender 9 missing 1
sender 9 missing 3 to 5000
end 3
"""
assert missing(log_of([(s, 0, small(n, b"TILE", b"")) for s, numbers in _NUMBERS.items() for n in numbers])) == (_LINES, 0)
assert name_text("É\\~ ".encode()) == "\\xc3\\x89\\\\~ "
assert ranges([0, 2, 3, 4, 9]) == "0, 2 to 4, 9"
