"""Vectors and samples for lmcp_list and lmcp_bytes, from a reader and a writer written from the paper (tests/model/messages.py).

tests/lmcp/run           compares the committed files with what the script makes
tests/lmcp/run --write   writes them"""
import random
import struct

from model.files import committed
from model.messages import HOLDS, framed, list_lines, list_stream, message_lines, message_stream, read, write
from model.tally import close

PING = bytes.fromhex("01 5049545355525600 00000001 0001")
PLACE = [2, -1, 2**31 - 1, -(2**15)]
HEAD = [3, 2**32 - 1, 65535, 0] + PLACE
MARK = [4, 77, 1] + PLACE
TICKS = [-(2**63), 2**63 - 1]
# NaN, the infinities, negative zero, one: real64 as signed numbers, real32 as bits
REALS64 = [0x7FF8000000000001, 0x7FF0000000000000, -(2**63) + 0x7FF0000000000000, -(2**63), 0x3FF0000000000000]
REALS32 = [0x7FC00001, 0x7F800000, 0xFF800000, 0xFFFFFFFF, 0]


def note(text, about):
    return [6, len(text)] + list(text) + about


def chain(depth):
    """That many Notes, one in the other."""
    return note(b"n", chain(depth - 1)) if depth else [0]


def first():
    """Lists of version 1 that are written, without their version: every type, null objects at each place, empty and long arrays, odd reals, the deepest chain."""
    l = [[1], PLACE, [2, -(2**31), 0, 2**15 - 1], HEAD, [3, 0, 0, 0, 0], MARK, [4, 0, 0, 0]]
    l += [[2, 2**31 - 1, -(2**31), 0], [4, 2**32 - 1, 0, 0], [5, 2**32 - 1, 65535] + [0] * 65535]
    l += [[5, 9, 0], [5, 9, 1] + MARK, [5, 9, 3, 0] + MARK + [0], [5, 9, 300] + (MARK + [0]) * 150]
    l += [note(b"", [0]), note(b"pit \0\x7f", [1]), note(b"see", MARK), note(b"in", note(b"out", [0])), chain(16)]
    l += [note(bytes(i % 128 for i in range(65535)), [0])]
    l += [[7, 0, 255, 7, 1, a, b, t] + HEAD for a, b, t in zip(REALS64, REALS32, TICKS * 3)] + [[7, 0, 0, 0, 0, 0, 0, 0, 0]]
    return l


MARK2 = MARK + [-(2**15)]


def second():
    """Lists of version 2: as in version 1, but for the depth of each mark."""
    l = [x for x in first() if len(x) < 9999 and x[0] not in (4, 5) and x[:5] != note(b"see", [])]
    l += [MARK2, [4, 0, 0, 0, 2**15 - 1], note(b"see", MARK2), [5, 9, 0], [5, 9, 1] + MARK2, [5, 9, 3, 0] + MARK2 + [0], [5, 9, 300] + (MARK2 + [0]) * 150]
    return l + [[5, 9, 65537] + [0] * 65537]


def good():
    """Lists that are written, in either version."""
    return [[1] + l for l in first()] + [[2] + l for l in second()]


def bad_lists():
    """Each refusal of the writer, at the first place where it can be given, and the one that comes first where two could."""
    l = [[0], [0, 0], [8], [-1], [2**40], [2, 0, 0], [3, 1], [5, 1], [6, 2, 65], [6, 1, 65]]
    # 24: another type than the declared one, also past other faults
    l += [[3, 0, 0, 0, 4], [4, 0, 0, 3], [5, 0, 1, 2], [7, 0, 0, 0, 0, 0, 0, 0, 2], [6, 0, 8]]
    # 29: each field's and count's range, and a bool
    l += [[2, 2**31, 0, 0], [2, 0, -(2**31) - 1, 0], [2, 0, 0, 2**15], [2, 0, 0, -(2**15) - 1], [3, 2**32], [3, -1], [3, 0, 65536], [3, 0, 0, -1]]
    l += [[4, 1, 2], [4, 1, -1], [5, 0, 65536], [5, 0, -1], [6, 65536], [7, 256], [7, -1], [7, 0, 0, 0, 0, 0, 2**32], [7, 0, 0, 0, 0, 0, -1]]
    # 27: a char outside 0 to 127
    l += [[6, 1, 128, 0], [6, 1, -1, 0], [6, 3, 65, 300, 0]]
    # 26, before 24; null has no depth
    l += [chain(17), chain(16)[:-1] + [9], chain(16)[:-1] + [6]]
    # 28, and 21 after it; the longest and one more
    l += [[1, 1], PLACE + [0], chain(16) + [0]]
    long = [5, 9, 23343] + MARK * 23300 + [0] * 43
    assert len(write([1] + long, True)) == 1048576
    l += [long, [5, 9, 23344] + long[3:] + [0], [5, 9, 23344] + long[3:] + [0, 0]]
    # as many numbers as lmcp_bytes holds, and one more, which is not looked into
    l += [[1] + [0] * (HOLDS - 2), [1] + [0] * (HOLDS - 1), [8]]
    l = [[1] + x for x in l]
    # the version: 25 where there is none, 29 where it is not 1 or 2, before the walk
    l += [[], [0], [3], [-1], [3, 0], [0, 9], [2**16 + 1, 1], [2**63 - 1, 1], [1], [2], [2, 0], [1, 0]]
    # version 2: a depth that is missing, one too many in version 1, its range; a count's range, and one that the list cannot hold
    l += [[2] + MARK, [1] + MARK2, [2] + MARK + [2**15], [2] + MARK + [-(2**15) - 1], [2, 5, 9, 2**32], [2, 5, 9, -1], [2, 5, 9, 2**32 - 1], [2, 5, 9, 2**32 - 1, 0, 0], [1, 5, 9, 65536]]
    return l


def bad_messages():
    """Each refusal of the reader, at the first place where it can be given, and the one that comes first where two could."""
    m11 = framed(PING, True)
    d = [m11, m11[:-1] + b"\x7c", framed(PING, False), bytes.fromhex("4c4d4350 00000001 00 0000012d")]
    # 20, 21, 22 of the frame
    d += [b"", m11[:11], b"LMCQ" + m11[4:], b"LMCP" + bytes(8), m11[:-1], m11 + b"\0", b"LMCP\xff\xff\xff\xff" + m11[8:], m11[:11] + b"\1" + m11[12:]]
    d += [b"LMCP" + struct.pack(">I", n - 12) + PING + bytes(n - 8 - len(PING)) for n in (262145, 1048576, 1048577)] + [b"lmcp" + bytes(1048573)]
    # 23: existence bytes and a bool
    roots = [b"\2" + PING[1:], b"\0", b"\0\0"]
    place = bytes.fromhex("01 5049545355525600 00000002 0001") + bytes(10)
    head = bytes.fromhex("01 5049545355525600 00000003 0001") + bytes(8)
    mark = bytes.fromhex("01 5049545355525600 00000004 0001") + bytes(4)
    pits = bytes.fromhex("01 5049545355525600 00000005 0001") + bytes(4)
    text = bytes.fromhex("01 5049545355525600 00000006 0001")
    frame = bytes.fromhex("01 5049545355525600 00000007 0001") + bytes(24)
    roots += [head + b"\2", mark + b"\2\0", mark + b"\xff", mark + b"\1\2"]
    # 24: series, type, version, the declared type; not before its 14 bytes are there
    roots += [PING[:1] + b"P" + b"ITSURW\0" + PING[9:], PING[:9] + b"\0\0\0\0" + PING[13:], PING[:9] + b"\0\0\0\x08" + PING[13:], PING[:13] + b"\0\2", PING[:9] + b"\1\0\0\1" + PING[13:]]
    roots += [head + PING, mark + b"\0" + head, pits + b"\0\1" + place, frame + place, PING[:1] + b"X" * 13, PING[:1] + b"X" * 14]
    # 25: the input ends inside each kind of value
    roots += [b"", PING[:-1], place[:-1], place[:16], head[:-1], head, mark, mark + b"\1", pits, pits + b"\0", pits + b"\0\1", text, text + b"\0", text + b"\0\2A", text + b"\0\1A"]
    roots += [frame[:-1], frame[:17], frame, pits + b"\xff\xff" + b"\0" * 65534]
    # 27, before a cut after it; 26 before 25 and 24; 28
    roots += [text + b"\0\1\x80", text + b"\0\3A\xff", text + b"\0\1\x80\0"]
    deep = (text + b"\0\0") * 16
    roots += [deep + b"\0", deep + b"\1", deep + PING, deep + b"\2", deep, PING + b"\0", place + b"\0", deep + b"\0\0"]
    # versions: 0, 3 and 258; mixed, each way and deep; counts of version 2 that the bytes cannot hold
    def two(b):
        return b[:13] + b"\0\2" + b[15:]

    roots += [PING[:13] + v for v in (b"\0\0", b"\0\3", b"\1\2", b"\2\0")] + [two(PING), two(place), two(mark) + b"\1\0\xff\xfb", two(mark) + b"\1\0\xff", two(mark) + b"\1\0"]
    roots += [two(pits) + b"\0\0\0\1" + mark + b"\1\0", pits + b"\0\1" + two(mark) + b"\1\0\0\0", two(text) + b"\0\0" + PING, text + b"\0\0" + two(PING), two(head) + place, head + two(place)]
    roots += [two(pits), two(pits) + b"\0\0\0", two(pits) + b"\0\0\0\0", two(pits) + b"\0\1", two(pits) + b"\xff\xff\xff\xff", two(pits) + b"\0\1\0\1" + b"\0" * 65536, two(pits) + b"\xff\xff\xff\xff" + b"\0" * 900]
    # 13: as many numbers as lmcp_list holds, and one more, which 28 comes before
    roots += [two(pits) + struct.pack(">I", n - 4) + bytes(n - 4 + more) for n, more in ((HOLDS, 0), (HOLDS + 1, 0), (HOLDS + 1, 1))]
    return d + [framed(r, i % 2 == 0) for i, r in enumerate(roots)]


def again(l):
    """What is written reads back the same, by this script too."""
    for x in l:
        assert read(write(x, True)) == x and read(write(x, False)) == x
    return l


def mixture(seed):
    """Good messages, cut and damaged anywhere, the length and the checksum mended, so that the walk meets it."""
    r = random.Random(seed)
    out = []
    for x in [y for y in good() if len(y) < 200] * 12:
        m = bytearray(write(x, False)[8:-4])
        for _ in range(r.randrange(3)):
            at = r.randrange(len(m))
            m[at] = r.choice([0, 1, 2, 3, 4, 5, 6, 7, 127, 128, 255, m[at] ^ 1])
        if r.random() < 0.3:
            del m[r.randrange(len(m)):]
        out.append(framed(bytes(m), r.random() < 0.5))
    return out


def numbers_mixture(seed):
    r = random.Random(seed)
    out = []
    for x in [y for y in good() if len(y) < 200] * 12:
        l = list(x)
        for _ in range(r.randrange(3)):
            l[r.randrange(len(l))] = r.choice([0, 1, 2, 3, 4, 5, 6, 7, 8, -1, 127, 128, 255, 256, 65535, 65536, 2**31, -(2**31), 2**63 - 1, -(2**63)])
        if r.random() < 0.3:
            l = l[:r.randrange(len(l))] if r.random() < 0.5 else l + [r.randrange(8)]
        out.append((l, r.randrange(2)))
    return out


# ---- what a Note may be about, what an object may not be, each field and each byte of a header by itself

TOPS = [2, -0x7E7D7C7B, -0x7A797877, -0x7675]
HEADS = [3, 0x81828384, 0x8586, 0x8788] + TOPS
FRAMES = [7, 129, 130, 131, 132, -0x7A79787776757473, 0x8D8E8F90, -0x6E6D6C6B6A696867] + HEADS
# each type, its top bits set and no two of its bytes the same; then with nothing in it that is an object
FULL = {1: [1], 2: TOPS, 3: HEADS, 4: [4, 0x89909192, 1] + TOPS, 5: [5, 0x93949596, 0], 6: note(b"ab", [0]), 7: FRAMES}
LEAF = {**FULL, 3: HEADS[:4] + [0], 4: FULL[4][:3] + [0], 7: FRAMES[:8] + [0]}
# a list up to each place that has a declared type, that type, and the types that are not it
DECLARED = [([3, 1, 2, 3], 2), ([4, 1, 1], 2), ([5, 1, 1], 4), ([7, 1, 2, 3, 4, 5, 6, 7], 3)]


def of(version, l):
    """A type's list in a version: a mark that ends it has a depth in version 2."""
    return l + [-0x6564] if version == 2 and l[0] == 4 else l


def under(depth, about):
    """That object under so many Notes."""
    return note(b"", under(depth - 1, about)) if depth else about


def held_lists():
    """Lists that are written, in each version: each type alone, in a Note, and at depth 16, where what it may hold is null."""
    out = []
    for v in (1, 2):
        out += [[v] + of(v, FULL[t]) for t in FULL] + [[v] + note(b"on", of(v, FULL[t])) for t in FULL] + [[v] + under(15, of(v, LEAF[t])) for t in LEAF]
        out += [[v, 5, 1, 2] + of(v, FULL[4]) + of(v, LEAF[4])]
    return out


def refused_lists():
    """Lists that are refused: each other type at each declared place, 8 too, whole, so that nothing else is wrong; depth 17 under each type, and before 24; 21 last of all."""
    out = []
    for v in (1, 2):
        end = [7] if v == 2 else []
        for front, declared in DECLARED:
            tail = end if front[0] == 4 else []
            out += [[v] + front + of(v, LEAF[t]) + tail for t in LEAF if t != declared] + [[v] + front + [8] + tail, [v] + front + [-1] + tail, [v] + front + [2**32 + declared] + tail]
        out += [[v] + under(15, front + of(v, LEAF[t]) + (end if front[0] == 4 else [])) for front, t in DECLARED] + [[v] + under(15, front + [8]) for front, _ in DECLARED] + [[v] + under(14, of(v, FULL[7]))]
        out += [[v, 8], [v] + note(b"", [8]), [v, 2**32 + 1], [v, -(2**63)]]
    # the walk's 25 of a list that is over the longest by then
    return out + [[1, 5, 9, 23345] + MARK * 23300 + [0] * 43 + MARK]


def root_of(l):
    return write(l, False)[8:-4]


def other_version(root):
    return root[:13] + bytes([0, 3 - root[14]]) + root[15:]


def refused_messages():
    """Each letter, each byte of L, of the checksum and of an object's header by itself; each other type at each declared place; an object of each type of
    the other version, and that 24 comes where it stands; depth 17 under each type, its header cut or of no type."""
    m11 = framed(PING, True)
    out = [m11[:i] + bytes([m11[i] ^ 1]) + m11[i + 1:] for i in range(8)] + [m11[:i] + bytes([m11[i] ^ 128]) + m11[i + 1:] for i in range(4, 27)]
    roots = [PING[:i] + bytes([PING[i] ^ 1]) + PING[i + 1:] for i in range(len(PING))]
    for v in (1, 2):
        own, other = ({t: root_of([x] + of(x, LEAF[t])) for t in LEAF} for x in (v, 3 - v))
        text = root_of([v] + note(b"", [0]))[:-1]
        for front, declared in DECLARED:
            tail = b"\0\7" if v == 2 and front[0] == 4 else b""
            place = root_of([v] + front + [0] + [7] * (tail != b""))[:-1 - len(tail)]
            right = own[declared]
            roots += [place + own[t] + tail for t in LEAF if t != declared] + [place + right[:12] + b"\x08" + right[13:] + tail, place + b"\2" + right[1:] + tail, place + other[declared] + tail, place + b"\0" + tail]
            roots += [text * 15 + place + x for x in (right + tail, b"\1", b"\1" + b"X" * 14, b"\2", b"\0" + tail)]
        # mixed: before what stands after it, after what stands before it; in a list's second mark, after a null one
        roots += [text + other[t] for t in LEAF] + [text + other[1] + b"\0", text + other[1][:-1], text[:-2] + b"\0\1\x80" + other[1]]
        roots += [root_of([v, 5, 1, 2, 0, 0])[:-1] + other[4], PING[:12] + b"\x08" + bytes([0, v]), text + PING[:12] + b"\x08" + bytes([0, v])]
    return out + [framed(r, i % 2 == 0) for i, r in enumerate(roots)]


GOOD = again(good())
HELD = again(held_lists())
MESSAGES = [write(l, i % 2 == 0) for i, l in enumerate(GOOD)] + bad_messages() + mixture(1037)
MESSAGES += [write(l, i % 2 == 0) for i, l in enumerate(HELD)] + refused_messages()
LISTS = [(l, i % 2) for i, l in enumerate(GOOD)] + [(l, 1) for l in bad_lists()] + numbers_mixture(1184)
LISTS += [(l, i % 2) for i, l in enumerate(HELD)] + [(l, 1) for l in refused_lists()]
SAMPLE = [[1, 5, 9, 2] + MARK + [4, 78, 0, 2, 519876543, -23456, 12], [1] + note(b"camera 2 was late", [1]), [1, 7, 1, 2, 3, 4, REALS64[4], 0x3F800000, 77] + HEAD]
SAMPLE += [[2, 5, 9, 2] + MARK + [135, 4, 78, 0, 2, 519876543, -23456, 12, 40]]
FILES = {
    "crates/lmcp_list/stdin": message_stream(MESSAGES) + b"\0\0\0\x0fLMCP",
    "crates/lmcp_bytes/stdin": list_stream(LISTS) + b"\1\0\0\0\2" + bytes(15),
    "samples/messages.bin": message_stream([write(l, True) for l in SAMPLE] + [write(SAMPLE[0], True)[:-1] + b"\0"]),
    "samples/lists.bin": list_stream([(l, 1) for l in SAMPLE] + [([1, 4, 1, 2], 1)]),
}
FILES["crates/lmcp_list/stdout"] = message_lines(FILES["crates/lmcp_list/stdin"]).encode()
FILES["crates/lmcp_bytes/stdout"] = list_lines(FILES["crates/lmcp_bytes/stdin"]).encode()
FILES["samples/messages.txt"] = message_lines(FILES["samples/messages.bin"]).encode()
FILES["samples/lists.txt"] = list_lines(FILES["samples/lists.bin"]).encode()
for refusal in (13, 20, 21, 22, 23, 24, 25, 26, 27, 28):
    assert b"refused %d\n" % refusal in FILES["crates/lmcp_list/stdout"], refusal
for refusal in (21, 23, 24, 25, 26, 27, 28, 29):
    assert b"refused %d\n" % refusal in FILES["crates/lmcp_bytes/stdout"], refusal
committed(FILES)
close()
