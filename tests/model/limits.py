"""Cases for the program limit_cases, and what document 01 says of each: the cutter, the parts of a datagram, the watch, what the receiver is lent, and states that no calls make."""
from .receiver import MAX_PAYLOAD, cut, name_in, read
from .streams import case_lines, case_stream

CUT, PARTS, WATCH, OPEN, RECEIVE, FORGET, TIED = range(1, 8)
LEDGER = 16384
MAX_FRAGMENTS = 1024
STORE = 64
FEW, RIGHT, MANY = range(3)  # words or bytes lent: one too few, as many as must be, one more
NONE, SLOT_SIZE, SIZE, COUNT, KEYS = range(5)  # what a word of a state holds
LAST_KEYS, LAST_SIZE, LAST_COUNT = range(5, 8)  # the same of the last sender and the last slot
LAST = {LAST_KEYS: KEYS, LAST_SIZE: SIZE, LAST_COUNT: COUNT}
SEQUENCE_WORD, SIZE_WORD, COUNT_WORD, TURN_WORD = range(1, 5)  # the words of a slot
MEMORY = 9  # in place of a slot: the memory, 16 senders, how many keys each has, 16 turns, and 32 sequences each
KEYS_WORD, SEQUENCES_WORD = 16, 48


def cutter(letter, c, p, m, k, room):
    """The datagrams of a message, or the refusal: 10, 4, 6, 11, 12, 13."""
    name = bytes([letter]) * c
    if not 96 <= m <= 65507:
        return 10
    if name_in(name + b"\0") is None:
        return 4
    if p > MAX_PAYLOAD:
        return 6
    made = cut(7, name, b"A" * p, m)
    if len(made) > MAX_FRAGMENTS:
        return 11
    if k >= len(made):
        return 12
    return made if len(made[k]) <= room else 13


def cut_line(letter, c, p, m, k, room):
    made = cutter(letter, c, p, m, k, room)
    return f"refused {made}" if isinstance(made, int) else f"datagrams {len(made)} length {len(made[k])}"


def parts_line(letter, c, p, m, k, front):
    r = read(cutter(letter, c, p, m, k, 65507)[k][:front], MAX_PAYLOAD)
    name, payload = (b"", b"") if isinstance(r, int) else (r["name"], r["data"])
    return f"name:{name.hex()} payload:{payload.hex()}"


def watch_line(claims, last, sender, number, step=0):
    """A watch that claims so many senders, of 1 to 16, each with its last number the step above that of the one before it."""
    if claims > 16:
        return "refused 14"
    if not 1 <= sender <= claims:
        return "first" if claims < 16 else "refused 14"
    d = (number - last - step * (sender - 1) + 2**31) % 2**32 - 2**31
    return f"forward {d - 1}" if d > 0 else "same" if d == 0 else f"late {-d}" if -d <= 1024 else f"restarted {number}"


def open_line(words, names, store):
    return f"slot size {min(store // 8, MAX_PAYLOAD)}" if words == names == RIGHT else "refused 9"


def unsound(words, names, a, x, b, y):
    """Refusal 9 of what is lent and of a state that is fresh but for two words."""
    held = {SLOT_SIZE: STORE // 8, SIZE: 0, COUNT: 0, KEYS: 0}
    held.update({LAST.get(a, a): x, LAST.get(b, b): y})
    return words != RIGHT or names != RIGHT, held[KEYS] > 32, held[SLOT_SIZE] != STORE // 8, held[COUNT] > MAX_FRAGMENTS or (held[COUNT] > 0 and held[SIZE] > STORE // 8)


def receive_line(words, names, store, ledger, a, x, b, y):
    return "refused 9" if store != STORE or ledger != LEDGER or any(unsound(words, names, a, x, b, y)) else "delivered 1"


def forget_line(words, names, a, x, b, y):
    """It refuses only a state with over 32 remembered keys for a sender (and what is no state)."""
    return "refused 9" if any(unsound(words, names, a, x, b, y)[:2]) else "done"


def tied_line(*c):
    """Eight messages are open, each of two fragments of a byte, the first one held. Of slots that are meant alike the lower counts, in any step, and so of the memory's
    places, which are all of their sender: it is asked first. A small message (n is 0) of an open key is refused, of another delivered."""
    slots = [{SEQUENCE_WORD: i, SIZE_WORD: 2, COUNT_WORD: 2, TURN_WORD: i} for i in range(8)]
    memory = {}
    for slot, word, value in (c[0:3], c[3:6], c[6:9], c[9:12]):
        if slot < 8:
            slots[slot][word] = value
        elif slot == MEMORY:
            memory[word] = value
    sequence, k, n = c[12:]
    keys = [memory.get(KEYS_WORD + i, 0) for i in range(16)]
    own = next((i for i in range(16) if keys[i] > 0), 0)
    if max(keys) > 32 or any(s[COUNT_WORD] > 0 and s[SIZE_WORD] > STORE // 8 for s in slots):
        return "refused 9"
    if sequence in [memory.get(SEQUENCES_WORD + 32 * own + j, 0) for j in range(keys[own])]:
        return "repeat"
    same = [i for i, s in enumerate(slots) if s[COUNT_WORD] > 0 and s[SEQUENCE_WORD] == sequence]
    if n == 0:
        return "refused 8" if same else "delivered 1 datagram 10"
    if same:
        s = slots[same[0]]
        if (s[SIZE_WORD], s[COUNT_WORD]) != (n, n):
            return "refused 8"
        return "repeat" if k == 0 else f"delivered 2 store {STORE // 8 * same[0]}" if n == 2 else "kept"
    free = [i for i, s in enumerate(slots) if s[COUNT_WORD] == 0]
    at = free[0] if free else min(range(8), key=lambda i: slots[i][TURN_WORD])
    told = f"delivered 1 store {STORE // 8 * at}" if n == 1 else "kept"
    return told if free else f"{told} emptied {slots[at][SEQUENCE_WORD]}"


LINES = {CUT: cut_line, PARTS: parts_line, WATCH: watch_line, OPEN: open_line, RECEIVE: receive_line, FORGET: forget_line, TIED: tied_line}


def cases():
    t = ord("T")
    # M 95, 96, 65,507 and 65,508; p 1,048,576 and one more; m8; 1,024 fragments and one byte more
    d = [(CUT, t, 4, p, m, k, 65507) for p, m, k in [(0, 95, 0), (0, 96, 0), (65494, 65507, 0), (65495, 65507, 0), (65495, 65507, 1), (0, 65508, 0), (1048576, 65507, 16), (1048576, 65507, 17), (1048577, 65507, 0)]]
    d += [(CUT, t, 4, p, 96, k, 65507) for p, k in [(83, 0), (83, 1), (84, 0), (84, 1), (84, 2), (147, 1), (147, 2), (148, 2), (148, 3), (19452, 256), (77819, 0), (77819, 1023), (77819, 1024), (77820, 0)]]
    # names of 0, 1, 63 and 64 bytes, each end of a name's bytes; an output one too short, of a small one and of a fragment
    d += [(CUT, t, c, 5, 96, 0, 65507) for c in (0, 1, 63, 64)] + [(CUT, b, 2, 5, 96, 0, 65507) for b in (0, 31, 32, 126, 127, 128)]
    d += [(CUT, t, 4, 9, 96, 0, o) for o in (21, 22)] + [(CUT, t, 4, 84, 96, 1, o) for o in (32, 33)]
    # of two that could be given the first: 10 before 4, 4 before 6, 6 before 11, 11 before 12, 12 before 13
    d += [(CUT, t, 64, 0, 95, 0, 65507), (CUT, t, 0, 1048577, 96, 0, 65507), (CUT, t, 4, 1048577, 96, 0, 65507), (CUT, t, 4, 77820, 96, 1100, 65507), (CUT, t, 4, 9, 96, 1, 0)]
    # the parts of small ones and of fragments, whole and with the end cut off, down to no datagram
    d += [(PARTS, t, 4, 3, 96, 0, f) for f in (65507, 15, 14, 13, 12, 8, 7, 0)] + [(PARTS, t, 1, 90, 96, k, 65507) for k in (0, 1)] + [(PARTS, t, 1, 90, 96, 1, f) for f in (36, 35, 19)]
    # of messages over edition 1's limits: 257 fragments, and P 262,145
    d += [(PARTS, t, 4, 19452, 96, k, 65507) for k in (0, 256)] + [(PARTS, t, 4, 262145, 65507, 4, 65507)]
    # the watch: 15, 16 and 17 claimed, senders in and out of it, the turn of the signed difference, late by 1,024 and 1,025
    d += [(WATCH, w, 5, s, 6) for w in (0, 1, 15, 16, 17, 2**32, 2**64 - 1) for s in (1, 15, 16, 17)]
    d += [(WATCH, 16, last, 16, n) for last, n in [(5, 5), (5, 4), (5, 3), (5, 2**31 + 4), (5, 2**31 + 5), (5, 2**31 + 6), (2**32 - 1, 1), (0, 2**31), (0, 2**32 - 1), (2**31, 0), (2000, 976), (2000, 975)]]
    # slot sizes of stores at which they turn; what is lent one too short and one too long, one by one
    d += [(OPEN, RIGHT, RIGHT, s) for s in (0, 7, 8, 15, 16, 65535, 65536, 2097152, 8388607, 8388608, 8388616, 2**63)]
    d += [(OPEN, w, n, 64) for w, n in [(FEW, RIGHT), (MANY, RIGHT), (RIGHT, FEW), (RIGHT, MANY)]]
    none = (NONE, 0, NONE, 0)
    d += [(RECEIVE, RIGHT, RIGHT, STORE, LEDGER) + none]
    d += [(RECEIVE, w, n, s, l) + none for w, n, s, l in [(FEW, RIGHT, 64, LEDGER), (MANY, RIGHT, 64, LEDGER), (RIGHT, FEW, 64, LEDGER), (RIGHT, MANY, 64, LEDGER), (RIGHT, RIGHT, 63, LEDGER), (RIGHT, RIGHT, 65, LEDGER), (RIGHT, RIGHT, 72, LEDGER), (RIGHT, RIGHT, 64, 4096), (RIGHT, RIGHT, 64, 16383), (RIGHT, RIGHT, 64, 16385)]]
    # states: another slot size, an open slot's P at the slot size and over, its n at 1,024 and over, a free slot's P, 32 and 33 keys of a sender
    words = [(SLOT_SIZE, 7, NONE, 0), (SLOT_SIZE, 9, NONE, 0), (SIZE, 8, COUNT, 1), (SIZE, 9, COUNT, 1), (SIZE, 8, COUNT, 1024), (SIZE, 8, COUNT, 1025), (SIZE, 9, COUNT, 0), (KEYS, 32, NONE, 0), (KEYS, 33, NONE, 0), (KEYS, 2**64 - 1, NONE, 0)]
    d += [(RECEIVE, RIGHT, RIGHT, STORE, LEDGER) + w for w in words] + [(FORGET, RIGHT, RIGHT) + w for w in [none] + words]
    return d + [(FORGET, w, n) + none for w, n in [(FEW, RIGHT), (MANY, RIGHT), (RIGHT, FEW), (RIGHT, MANY)]]


def unmade_cases():
    """States that no calls make: two slots with one key, two free, two of one turn, a free slot with an old key; an open key that is remembered; and each word of
    refusal 9 at its last place."""
    none = (8, 0, 0)
    d = []
    for words in [(none,) * 4, ((5, SEQUENCE_WORD, 2), none, none, none), ((2, SEQUENCE_WORD, 5), none, none, none), ((1, SEQUENCE_WORD, 6), (7, SEQUENCE_WORD, 6), none, none),
                  ((2, COUNT_WORD, 0), (5, COUNT_WORD, 0), none, none), ((5, COUNT_WORD, 0), (7, COUNT_WORD, 0), none, none), ((7, COUNT_WORD, 0), none, none, none),
                  ((0, TURN_WORD, 9), (5, TURN_WORD, 0), (2, TURN_WORD, 0), (6, TURN_WORD, 0)), ((0, TURN_WORD, 2**64 - 1), (1, TURN_WORD, 7), (2, TURN_WORD, 3), none),
                  ((2, COUNT_WORD, 0), (2, SEQUENCE_WORD, 5), none, none), ((0, COUNT_WORD, 0), (0, SIZE_WORD, 99), none, none), ((3, SIZE_WORD, 9), none, none, none), ((3, SIZE_WORD, 3), none, none, none)]:
        d += [(TIED,) + sum(words, ()) + last for last in [(2, 1, 2), (5, 1, 2), (6, 1, 2), (3, 1, 2), (50, 0, 1), (50, 0, 2), (50, 1, 2), (5, 0, 2), (2, 1, 3)]]
    last = [(LAST_KEYS, 32, NONE, 0), (LAST_KEYS, 33, NONE, 0), (LAST_SIZE, 8, LAST_COUNT, 1), (LAST_SIZE, 9, LAST_COUNT, 1), (LAST_SIZE, 8, LAST_COUNT, 1024), (LAST_SIZE, 8, LAST_COUNT, 1025), (LAST_SIZE, 9, LAST_COUNT, 0)]
    # a key that is open and remembered, open alone, remembered alone and neither, by a small message and by fragments that fit the open one or do not
    for words in [(none, none), ((MEMORY, KEYS_WORD, 1), none), ((MEMORY, KEYS_WORD, 32), none), ((MEMORY, KEYS_WORD, 33), none), ((MEMORY, KEYS_WORD, 1), (0, COUNT_WORD, 0)), ((MEMORY, KEYS_WORD, 1), (0, SEQUENCE_WORD, 50))]:
        d += [(TIED,) + sum(words, ()) + none + none + last for last in [(0, 0, 0), (1, 0, 0), (50, 0, 0), (0, 1, 2), (0, 0, 2), (0, 1, 3), (1, 1, 2), (50, 1, 2)]]
    # two places of one sender, each with a key, and the second alone
    second = ((MEMORY, KEYS_WORD + 1, 1), (MEMORY, SEQUENCES_WORD + 32, 50))
    for words in [((MEMORY, KEYS_WORD, 1),) + second + (none,), second + (none, none)]:
        d += [(TIED,) + sum(words, ()) + last for last in [(0, 0, 0), (50, 0, 0), (50, 0, 1), (51, 0, 0)]]
    # each sender is watched by its own last number
    d += [(WATCH, 16, 2**32 - 50, s, n, 100) for s in (1, 2, 15, 16, 17) for n in (2**32 - 49, 51, 50, 1351, 1450, 1451, 1200)]
    return d + [(RECEIVE, RIGHT, RIGHT, STORE, LEDGER) + w for w in last] + [(FORGET, RIGHT, RIGHT) + w for w in last]


def all_cases():
    return cases() + unmade_cases()


def stream():
    return case_stream(all_cases())


def lines():
    return case_lines(LINES, all_cases())
