"""qm check: what it says of a log, beside a plain model over the papers' receiver: logs of both editions and of small limits, cut and damaged, with many senders
and channels of any name; and each failure."""
import os
import random
import tempfile

from model.called import MEANING, no_room, qm
from model.files import bytes_of, put
from model.log import each_number, entries_in, first_log_of, head_in, limits_in, log_of
from model.receiver import MAX_PAYLOAD, Receiver, cut, fragment, read, small
from model.tally import close, held, side_by_side

NAMES = [b"TILE", b"TILE2", b"T", "CAMÉRA".encode(), b"a b", b"back\\slash", b"%s%n", b"n" * 63, "\U0001f4f7".encode(), b"\x01"]
MEANS = {**MEANING, 1: "too short to be LCM's", 2: "not LCM's", 4: "a channel's name", 5: "a fragment's number or count", 6: "a payload over the limit", 7: "a fragment whose offset", 8: "disagrees with"}


def shown(name):
    return "".join("\\\\" if b == 92 else chr(b) if 32 <= b <= 126 else f"\\x{b:02x}" for b in name)


def span(ticks):
    return f" first {ticks[0]} last {ticks[-1]}" if ticks else ""


def rate(ticks):
    if len(ticks) < 2 or ticks[-1] <= ticks[0]:
        return ""
    thousandths = (len(ticks) - 1) * 1000000 // (ticks[-1] - ticks[0])
    return f" rate {thousandths // 1000}.{thousandths % 1000:03}"


def check_of(b):
    """The lines, without the meanings."""
    entries, refusal = entries_in(b)
    receiver, senders, channels, refused = Receiver(8 * MAX_PAYLOAD, *limits_in(b)), {}, {}, {}
    for sender, tick, d in entries:
        senders.setdefault(sender, []).append((tick, len(d)))
        answer = receiver.receive(sender, d)
        if answer.startswith("refused"):
            number = int(answer.split()[1])
            refused[number] = refused.get(number, 0) + 1
            continue
        said = read(d, MAX_PAYLOAD)
        if said["name"]:
            channels.setdefault(said["name"], [])
        if answer.startswith("delivered"):
            channels[receiver.name].append((tick, len(receiver.payload)))
    out = ["whole" if refusal is None else f"refused {refusal} after {len(entries)}", f"entries {len(entries)}", f"bytes {sum(len(d) for _, _, d in entries)}"]
    try:
        out.append(f"limit {head_in(b)[1][0]}")
    except Exception:
        pass
    out += [span([t for _, t, _ in entries]).strip()] if entries else []
    for sender, rows in sorted(senders.items()):
        out.append(f"sender {sender} datagrams {len(rows)} bytes {sum(n for _, n in rows)}{span([t for t, _ in rows])}")
    for name, rows in sorted(channels.items()):
        ticks = [t for t, _ in rows]
        out.append(f"channel messages {len(rows)} bytes {sum(n for _, n in rows)}{span(ticks)}{rate(ticks)} name {shown(name)}")
    return out + [f"refused {number} datagrams {times}" for number, times in sorted(refused.items())], refusal


def tried(folder, i, b):
    path = os.path.join(folder, f"{i}.log")
    put(path, b)
    status, got, said = qm("check", path)
    expected, refusal = check_of(b)
    lines = got.split("\n")
    good = lines[-1] == "" and len(lines) == len(expected) + 1 and status == (3 if refusal else 0)
    for line, want in zip(lines, expected):
        if want.startswith("refused") and " datagrams " in want:
            good = good and line.startswith(f"{want}, {MEANS[int(want.split()[1])]}")
        else:
            good = good and line == want
    good = good and (said.startswith(f"qm check: {path}: refused {refusal}, ") and MEANS[refusal] in said if refusal else said == "")
    held(good, f"qm check, log {i} of {len(b)} bytes, status {status}, {said!r}", got, "\n".join(expected))
    os.remove(path)


def world(seed):
    """Messages of some senders on channels of any name, shuffled, with copies, clashes, noise and large fragments."""
    r, out = random.Random(seed), []
    for _ in range(50):
        sender, q, name = r.choice([0, 1, 7, 2**63, 2**64 - 1, r.randrange(40)]), r.randrange(30), r.choice(NAMES)
        d = cut(q, name, bytes(r.randrange(600)), r.choice([96, 120, 700])) + [small(q, name, b"x")] * r.randrange(2)
        d += [d[0][:r.randrange(len(d[0]))], r.randbytes(r.randrange(40)), d[0][:10] + r.randbytes(10) + d[0][20:]][:r.randrange(4)]
        # broken forms: offset of the first, number, size, one that disagrees
        d += r.sample([fragment(q, 10, 5, 0, 2, b"x", name), fragment(q, 10, 5, 3, 2, b"x"), fragment(q, 2000000, 0, 0, 2, b"x", name), fragment(q, 9999, 0, 0, 900, b"x", name)], r.randrange(3))
        out += [(sender, x) for x in d + d[:1]]
    r.shuffle(out)
    clock = r.choice([0, 1700000000000])
    step = r.choice([0, 1, 3, 1000])
    return [(s, clock + step * i - (r.randrange(50) if clock else 0), d) for i, (s, d) in enumerate(out)]


def damaged(seed):
    r = random.Random(seed)
    b = bytearray(log_of(world(seed)[:r.randrange(20)]))
    for _ in range(r.randrange(1, 4)):
        at = r.randrange(len(b) + 1)
        b[at:at + r.randrange(3)] = bytes(r.choice([0, 1, 128, 255]) for _ in range(r.randrange(3)))
    return bytes(b)


def failures(folder):
    path = os.path.join(folder, "some.log")
    put(path, log_of(world(1)))
    no_room("check", path)
    got = qm("check", os.path.join(folder, "none.log"))
    held(got[0] == 1 and got[1] == "" and "No such file or directory" in got[2], "no such log", str(got))


LOGS = [bytes_of("samples", x) for x in ("flight.log", "late-copies.log", "two-cameras.log", "survey.log", "season-1.log")] + [make(world(s)) for s in range(12) for make in (log_of, first_log_of)]
LOGS += [log_of(world(s), limit) for s in range(4) for limit in (0, 100, 300)] + each_number()[::3] + [damaged(s) for s in range(60)] + [b"", b"\1", log_of([])]
# many senders and many channels: the tables grow
LOGS += [log_of([(i * 977 % 5000, i, small(i, b"channel %d" % (i % 1500), b"")) for i in range(6000)]), log_of([(7, t, small(i, b"T", b"")) for i, t in enumerate((2**64 - 1, 0))]),
         log_of([(7, t, small(i, b"T", b"")) for i, t in enumerate((0, 2**64 - 1))])]
SAID = ["\n".join(check_of(b)[0]) for b in LOGS]
for word in ("whole", "refused 40 after 0", "refused 41", "refused 42", "refused 43", "refused 45", "messages 0", " rate ", "refused 1 d", "refused 2 d", "refused 4 d", "refused 5 d", "refused 6 d", "refused 7 d", "refused 8 d", "\\xc3\\x89"):
    assert any(word in said for said in SAID), word
with tempfile.TemporaryDirectory() as folder:
    side_by_side(lambda i, b: tried(folder, i, b), LOGS)
    failures(folder)
close()
