"""Holds the exports for acknowledge blocks, for the gauge's packets, and qm_write_message, to models: the answer, every byte and number that is lent afterwards, and the canaries around it, on the
model's own cases, on random ones, and with too little room. The C program beside this file makes the calls."""
import random
import struct
import subprocess

from model import acks, built, messages, moss
from model.tally import close, held

r = random.Random(38)
calls, seen = [], {}


def words(numbers):
    return struct.pack(f"<{len(numbers)}Q", *numbers)


def lent(elements, width=1):
    """A list as the program reads it."""
    b = bytes(elements) if width == 1 else words(elements)
    return words([len(b) // width]) + b


def junk(n):
    return [0x5A5A0000 + i for i in range(n)]


def call(name, number, arguments, answer, *after):
    """A call, what it must answer, and what each list that may be written must hold afterwards."""
    calls.append((name, words([number]) + arguments, words([answer, 1]) + b"".join(after)))
    seen.setdefault(name, set()).add(answer if answer < 2**32 else answer >> 32 << 32)


def over(before, bytes_):
    return bytes_ + before[len(bytes_):]


def told_of(room, least, answer, numbers):
    """13 where there is no room to tell; else the answer, and the list with the numbers of one that is no refusal."""
    before = junk(room)
    if room < least:
        return 13, before, before
    return answer, before, numbers + before[len(numbers):] if answer == 0 else before


# ---- acknowledge blocks

def ask(blocks, n, room=2):
    try:
        answer, numbers = 0, [int(acks.acknowledged(blocks, n))]
    except acks.Refused as e:
        answer, numbers = e.args[0], []
    answer, before, after = told_of(room, 1, answer, numbers)
    call("qm_acks_ask", 0, lent(blocks) + words([n]) + lent(before, 8), answer, words(after))


def write_blocks(numbers, space, room=2):
    out = bytes(0x5A for _ in range(space))
    try:
        b = acks.blocks_of(numbers)
        answer = 0 if len(b) <= space else 76
    except acks.Refused as e:
        answer, b = e.args[0], b""
    answer, before, after = told_of(room, 1, answer, [len(b)])
    call("qm_acks_write", 1, lent(numbers, 8) + lent(out) + lent(before, 8), answer, over(out, b) if answer == 0 else out, words(after))


def some_blocks():
    b, ends = b"", []
    for _ in range(r.randrange(5)):
        n = r.choice([r.randrange(60), acks.LARGEST - r.randrange(40)])
        k = r.randrange(3)
        if k == 0:
            b += acks.single(n)
        elif k == 1:
            b += acks.run(n, min(acks.LARGEST, max(0, n + r.randrange(-1, 9))))
        else:
            b += acks.bitmap(n, "".join(r.choice("01") for _ in range(r.randrange(20))))
        ends += [n]
    if b and r.random() < 0.2:
        at = r.randrange(len(b))
        b = r.choice([b[:at], b[:at] + bytes([b[at] ^ 1 << r.randrange(8)]) + b[at + 1:]])
    return b, ends


def acknowledged():
    for q in acks.questions():
        if len(q) >= 8:
            ask(q[8:], acks.number(q[:8]), r.choice([0, 1, 2]))
    for _ in range(1500):
        b, ends = some_blocks()
        n = r.choice(ends + [r.randrange(70)]) + r.randrange(-1, 12)
        ask(b, min(max(n, 0), acks.LARGEST), r.choice([0, 1, 2, 2, 2]))
    ask(acks.single(1) * 7281 + bytes(6), 1)
    ask(acks.single(1) * 7282, 1)
    for _ in range(600):
        numbers = sorted(set(r.choice([r.randrange(40), acks.LARGEST - r.randrange(20)]) for _ in range(r.randrange(25))))
        if numbers and r.random() < 0.15:
            numbers.insert(r.randrange(len(numbers)), r.choice(numbers))
        exact = sum(map(len, [acks.blocks_of(numbers)])) if numbers == sorted(set(numbers)) else 50
        write_blocks(numbers, r.choice([exact, exact, exact + 5, max(exact - 1, 0), 0]), r.choice([0, 1, 2, 2, 2]))
    for n in (7281, 7282):
        write_blocks(list(range(0, 2 * n, 2)), 70000)
        write_blocks(list(range(0, 2 * n, 2)), 100)


# ---- survey messages

def write_message(numbers, calculate, space, room=2):
    out = bytes(0x5A for _ in range(space))
    try:
        b = messages.write(numbers, calculate)
        answer = 0 if len(b) <= space else 13
    except messages.Refused as e:
        answer, b = e.args[0], b""
    answer, before, after = told_of(room, 1, answer, [len(b)])
    sum_ = r.choice([1, 2, 2**31, 2**32 - 1]) if calculate else 0
    after_out = over(out, b) if answer == 0 else out
    call("qm_write_message", 2, lent([n % 2**64 for n in numbers], 8) + words([sum_]) + lent(out) + lent(before, 8), answer, after_out, words(after))


def object_of(version, depth=0):
    """A survey message's numbers, now and then with one that does not fit, or a type that is not in the table."""
    place = lambda: r.choice([[0], [2, r.randrange(-9, 9), -(2**31), r.choice([7, 2**15])]])  # noqa: E731
    mark = lambda: r.choice([[0], [4, r.randrange(99), r.choice([0, 1, 1, 2])] + place() + [-5] * (version == 2)])  # noqa: E731
    kind = r.randrange(7)
    if kind == 0:
        return [1]
    if kind == 1:
        return place()
    if kind == 2:
        return mark()
    if kind == 3:
        marks = [mark() for _ in range(r.randrange(4))]
        return [5, r.randrange(9), len(marks)] + sum(marks, [])
    if kind == 4 and depth < 20:
        return [6, 2, 65, r.choice([66, 127, 128])] + object_of(version, depth + 1)
    if kind == 5:
        return [7, 0, 255, 7, 1, -1, 2**32 - 1, 5] + r.choice([[0], [3, 1, 2, 3] + place()])
    return r.choice([[0], [8], [-1], [3, 1, 2, 3, 0]])


def survey_messages():
    chain = lambda n: [6, 0] + chain(n - 1) if n else [0]  # noqa: E731
    lists = [[], [1], [0, 1], [3, 1], [1] + chain(16), [1] + chain(17), [2] + chain(16), [1, 5, 2**32 - 1, 65535] + [0] * 65535, [1, 1, 0]]
    for _ in range(1500):
        version = r.choice([1, 2])
        numbers = [version] + object_of(version)
        if r.random() < 0.1:
            numbers = r.choice([numbers[:-1], numbers + [0]])
        lists.append(numbers)
    for numbers in lists:
        try:
            exact = len(messages.write(numbers, False))
        except messages.Refused:
            exact = 40
        write_message(numbers, r.random() < 0.5, r.choice([exact, exact, exact + 3, exact - 1, 0]), r.choice([0, 1, 2, 2, 2]))


# ---- the gauge's packets

KINDS = {"first": 1, "forward": 2, "same": 3, "late": 4, "restarted": 5}


def read_packet(b, room):
    got = moss.read(b)
    answer, numbers = (got, []) if isinstance(got, int) else (0, [4, got[1], got[2][0], len(got[3])])
    answer, before, after = told_of(room, 4, answer, numbers)
    call("qm_moss_read", 3, lent(b) + lent(before, 8), answer, words(after))


def read_one(b, n, room):
    got = moss.read(b)
    if isinstance(got, int):
        answer, numbers = got, []
    elif n >= len(got[3]):
        answer, numbers = 54, []
    else:
        answer, numbers = 0, [19 + sum(2 + len(m) for m in got[3][:n]) + 2, len(got[3][n])]
    answer, before, after = told_of(room, 2, answer, numbers)
    call("qm_moss_message", 4, lent(b) + words([n]) + lent(before, 8), answer, words(after))


def write_packet(session, sequence, kind, body, space, room):
    out = bytes(0x5A for _ in range(space))
    got = moss.write(session[:10], sequence, kind, body)
    answer = got if isinstance(got, int) else 0 if len(got) <= space else 55
    answer, before, after = told_of(room if len(session) >= 10 else 0, 1, answer, [0 if isinstance(got, int) else len(got)])
    before, after = (junk(room), junk(room)) if len(session) < 10 else (before, after)
    call("qm_moss_write", 5, lent(session) + words([sequence, kind[0]]) + lent(body) + lent(out) + lent(before, 8), answer,
         over(out, got) if answer == 0 else out, words(after))


def gauge_words(g):
    if g.session is None:
        return [0, 0, 0, 0]
    return [1, g.last, int.from_bytes(g.session[:8], "big"), int.from_bytes(g.session[8:], "big")]


def see(g, b, room):
    """One packet more for a gauge, which the call has in words."""
    before = gauge_words(g) + junk(room)[4:] if room >= 4 else junk(room)
    got = moss.read(b)
    if room < 4:
        answer = 13
    elif isinstance(got, int):
        answer = got
    else:
        said = g.hear(got[0], got[1], len(got[3])).split()
        answer = KINDS[said[0]] * 2**32 + (int(said[1]) if len(said) > 1 else 0)
    after = gauge_words(g) + before[4:] if room >= 4 else before
    call("qm_gauge_see", 6, lent(before, 8) + lent(b), answer, words(after))


def packets():
    cases = moss.packets() + moss.single_packets()
    for b in list(cases):
        if b and len(b) < 3000 and r.random() < 0.7:
            at = r.randrange(len(b))
            cases.append(r.choice([b[:at], b[:at] + bytes([b[at] ^ 1 << r.randrange(8)]) + b[at + 1:]]))
    for b in cases + [moss.packet(moss.ONE, 1, b"U", bytes(65516)), moss.packet(moss.ONE, 1, b"U", bytes(65518))]:
        read_packet(b, r.choice([0, 3, 4, 4, 5, 5]))
        for n in range(3):
            read_one(b, r.choice([n, n, 299, 300, 2**64 - 1]), r.choice([0, 1, 2, 2, 3, 3]))
    for b in moss.parts() + moss.single_parts():
        if len(b) >= 15:
            exact = 4 + len(b)
            session = r.choice([b[:10], b[:10], b[:10] + b"x", b[:9], b""])
            for space in (exact, exact - 1, exact + 3):
                write_packet(session, int.from_bytes(b[10:14], "big"), b[14:15], b[15:], space, r.choice([0, 1, 2, 2]))
    for _ in range(4):
        g = moss.Gauge()
        for b in moss.packets() + moss.single_packets():
            see(g, b, r.choice([4, 4, 5, 6, 3, 0]))
    # words that no call made: only a 1 is a session, and a number is taken by its low 32 bits
    eight, two = (int.from_bytes(b, "big") for b in (moss.ONE[:8], moss.ONE[8:]))
    for first, last, kind in ((1, 7, 2), (1, 2**32 + 7, 2), (1, 8, 3), (0, 7, 1), (2, 7, 1), (2**64 - 1, 8, 1)):
        before = [first, last, eight, 5 * 2**16 + two]
        after = before if kind == 3 else [1, 8, eight, two]
        b = moss.packet(moss.ONE, 8, b"U", moss.block(b"x"))
        call("qm_gauge_see", 6, lent(before, 8) + lent(b), kind << 32, words(after))


acknowledged()
survey_messages()
packets()
program = built.of_c("exports", "host_acks host_gauge host_messages", "tests/host/lent.c", "tests/exports/main.c")
said = subprocess.run(program, input=b"".join(c for _, c, _ in calls), stdout=subprocess.PIPE, check=True).stdout
at = 0
for name, _, expected in calls:
    got = said[at:at + len(expected)]
    at += len(expected)
    held(got == expected, name, got[:60].hex(), expected[:60].hex())
held(at == len(said), "the program says more than it was asked")
OWED = {"qm_acks_ask": {0, 13, 70, 71, 72, 73, 74, 77}, "qm_acks_write": {0, 13, 75, 76, 77}, "qm_write_message": {0, 13, 23, 24, 25, 26, 27, 28, 29},
        "qm_moss_read": {0, 13, 50, 51, 52, 53}, "qm_moss_message": {0, 13, 50, 51, 52, 53, 54}, "qm_moss_write": {0, 13, 51, 52, 53, 55},
        "qm_gauge_see": {13, 50, 51, 52, 53} | {k << 32 for k in KINDS.values()}}
for name, owed in OWED.items():
    held(owed <= seen[name], f"{name}: never answered {sorted(owed - seen[name])}")
close()
