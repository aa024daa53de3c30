"""Acknowledge blocks, written from document 02 (L13) and source document 001: what a block list acknowledges, and blocks for a list of numbers."""
import random

MOST, LARGEST = 65535, 2**64 - 1
SINGLE, RUN, MAP = 0, 1, 2


class Refused(Exception):
    pass


def number(b):
    return int.from_bytes(b, "big")


def single(n):
    return bytes([SINGLE]) + n.to_bytes(8, "big")


def run(first, last):
    return bytes([RUN]) + first.to_bytes(8, "big") + last.to_bytes(8, "big")


def bitmap(start, bits, map_=None):
    """The map's bits as a string of 0 and 1, or its bytes as they are."""
    count = len(bits) if isinstance(bits, str) else bits
    if map_ is None:
        map_ = int((bits + "0" * (-len(bits) % 8)) or "0", 2).to_bytes((len(bits) + 7) // 8, "big") if bits else b""
    return bytes([MAP]) + start.to_bytes(8, "big") + count.to_bytes(2, "big") + map_


def acknowledged(blocks, wanted):
    """Whether the number is acknowledged; the whole list is read, whatever an earlier block says."""
    if len(blocks) > MOST:
        raise Refused(77)
    found, at = False, 0
    while at < len(blocks):
        kind, rest = blocks[at], blocks[at + 1:]
        if kind not in (SINGLE, RUN, MAP):
            raise Refused(71)
        if kind == SINGLE:
            if len(rest) < 8:
                raise Refused(70)
            found |= number(rest[:8]) == wanted
            at += 9
        elif kind == RUN:
            if len(rest) < 16:
                raise Refused(70)
            first, last = number(rest[:8]), number(rest[8:16])
            if last < first:
                raise Refused(72)
            found |= first <= wanted <= last
            at += 17
        else:
            if len(rest) < 10 or len(rest) < 10 + (number(rest[8:10]) + 7) // 8:
                raise Refused(70)
            start, bits = number(rest[:8]), number(rest[8:10])
            map_ = rest[10:10 + (bits + 7) // 8]
            if bits == 0 or start + bits - 1 > LARGEST:
                raise Refused(73)
            told = "".join(f"{b:08b}" for b in map_)
            if "1" in told[bits:]:
                raise Refused(74)
            found |= start <= wanted < start + bits and told[wanted - start] == "1"
            at += 11 + len(map_)
    return found


def blocks_of(numbers):
    if any(b <= a for a, b in zip(numbers, numbers[1:])):
        raise Refused(75)
    out, i = b"", 0
    while i < len(numbers):
        j = i
        while j + 1 < len(numbers) and numbers[j + 1] == numbers[j] + 1:
            j += 1
        out += single(numbers[i]) if i == j else run(numbers[i], numbers[j])
        i = j + 1
    if len(out) > MOST:
        raise Refused(77)
    return out


# ---- what the programs read and print


def stream_of(records):
    return b"".join(len(r).to_bytes(4, "big") + r for r in records)


def lines(stream, line):
    at, n, out = 0, 0, ""
    while at < len(stream):
        if at + 4 > len(stream) or at + 4 + number(stream[at:at + 4]) > len(stream):
            return out + f"cut {n}\n"
        length = number(stream[at:at + 4])
        n += 1
        try:
            said = line(stream[at + 4:at + 4 + length])
        except Refused as r:
            said = f"refused {r.args[0]}"
        out += f"{n} {said}\n"
        at += 4 + length
    return out + f"end {n}\n"


def ask_line(record):
    if len(record) < 8:
        raise Refused(70)
    return "yes" if acknowledged(record[8:], number(record[:8])) else "no"


# the numbers that ack_bytes holds
HOLDS = 65536


def bytes_line(record):
    if len(record) // 8 > HOLDS:
        return f"longer than {HOLDS} numbers"
    if len(record) % 8:
        raise Refused(70)
    blocks = blocks_of([number(record[i:i + 8]) for i in range(0, len(record), 8)])
    return "bytes " + blocks.hex() if blocks else "bytes"


def ask(n, blocks):
    return n.to_bytes(8, "big") + blocks


def listed(numbers):
    return b"".join(n.to_bytes(8, "big") for n in numbers)


def questions():
    """Each kind of block, both ends of each, overlaps, every refusal and the one that comes first where two could."""
    s, r, m = single(7), run(10, 12), bitmap(20, "10000001" "1")
    d = [ask(n, s + r + m) for n in (0, 6, 7, 8, 9, 10, 11, 12, 13, 19, 20, 21, 26, 27, 28, 29, 36, LARGEST)]
    d += [b"", bytes(7), ask(7, b""), ask(0, single(0)), ask(LARGEST, single(LARGEST)), ask(LARGEST, run(0, LARGEST)), ask(LARGEST, run(LARGEST, LARGEST)), ask(0, run(LARGEST, LARGEST))]
    # a bitmap whose last number is the largest, and one more; no bits; one bit
    d += [ask(n, bitmap(LARGEST - 8, "100000001")) for n in (LARGEST - 8, LARGEST - 7, LARGEST, 0)] + [ask(0, bitmap(LARGEST - 8, "1000000011")), ask(5, bitmap(5, "")), ask(5, bitmap(5, "1")), ask(5, bitmap(5, "0")), ask(6, bitmap(5, "1"))]
    d += [ask(5, bitmap(LARGEST, "1")), ask(LARGEST, bitmap(LARGEST, "1")), ask(0, bitmap(LARGEST, "10")), ask(5 + 65534, bitmap(5, "0" * 65534 + "1")), ask(5 + 65533, bitmap(5, "0" * 65534 + "1")), ask(5 + 65535, bitmap(5, "0" * 65534 + "1"))]
    # padding, each of its bits; no padding at all
    d += [ask(5, bitmap(5, 1, bytes([128 + (1 << k)]))) for k in range(7)] + [ask(12, bitmap(5, 8, b"\xff")), ask(13, bitmap(5, 8, b"\xff")), ask(13, bitmap(5, 9, b"\xff\x80")), ask(13, bitmap(5, 9, b"\xff\x40"))]
    # cut at every place, and an unknown kind before and after it
    d += [ask(7, b[:k]) for b in (s, r, m) for k in range(len(b) + 1)] + [ask(7, bytes([k])) for k in (3, 4, 255)] + [ask(7, s + bytes([3]) + bytes(20)), ask(7, s + r[:16]), ask(7, s + run(5, 4)), ask(5, run(5, 4)), ask(4, run(5, 4))]
    # 70 before 72, 73 and 74; 72, 73 and 74 in a list with a good block before and a bad one after
    d += [ask(7, run(5, 4)[:16]), ask(7, bitmap(LARGEST, 16, b"\xff")), ask(7, bitmap(5, 12, b"\xff")), ask(7, s + bitmap(5, "") + bytes([9])), ask(7, s + bitmap(LARGEST, 9, b"\xff\xff")), ask(7, s + bitmap(5, 9, b"\xff\xff") + bytes([9])), ask(7, run(5, 4) + bytes([9]))]
    # overlapping blocks; 65,535 bytes and one more
    d += [ask(n, run(5, 9) + run(7, 12) + single(9) + bitmap(9, "0011")) for n in (4, 5, 9, 11, 12, 13)]
    full = single(1) * 7276 + run(2, 3) * 3
    assert len(full) == MOST
    d += [ask(1, full), ask(3, full), ask(4, full), ask(1, full + b"\0"), ask(1, full + b"\3"), ask(1, bytes(70000)), ask(1, single(2) * 9000)]
    r_ = random.Random(13)
    for _ in range(400):
        b = b""
        for _ in range(r_.randrange(6)):
            a = r_.randrange(40)
            b += r_.choice([single(a), run(a, a + r_.randrange(9)), bitmap(a, "".join(r_.choice("01") for _ in range(r_.randrange(1, 30))))])
        if b and r_.random() < 0.3:
            at = r_.randrange(len(b))
            b = b[:at] + bytes([b[at] ^ (1 << r_.randrange(8))]) + b[at + 1:]
        if r_.random() < 0.1:
            b = b[:r_.randrange(len(b) + 1)]
        d.append(ask(r_.randrange(60), b))
    return d


def lists():
    """Lone numbers, runs, both ends of the 64 bits, lists that do not rise, 65,535 bytes and more."""
    d = [[], [0], [LARGEST], [5, 6], [5, 7], [5, 6, 7], [5, 6, 8], [4, 6, 7], [0, 1], [LARGEST - 1, LARGEST], [0, LARGEST], [0, LARGEST - 1, LARGEST], [1, 2, 3, 5, 7, 8, 10], list(range(100, 400)), list(range(1, 200, 2))]
    d += [[5, 5], [6, 5], [5, 6, 6], [5, 7, 6], [LARGEST, 0], [LARGEST, LARGEST], [1, 2, 3, 2]]
    full = [2 * i for i in range(7276)] + [20000, 20001, 30000, 30001, 40000, 40001]
    d += [full, full + [50000], list(range(0, 2 * 7281, 2)), list(range(0, 2 * 7282, 2)), list(range(65536)), full + [50000, 50000]]
    r_ = random.Random(131)
    for _ in range(300):
        l = sorted(r_.sample(range(60), r_.randrange(30)))
        if l and r_.random() < 0.2:
            l[r_.randrange(len(l))] = r_.randrange(60)
        d.append(l)
    return [listed(l) for l in d] + [b"1234567", bytes(9), listed([5, 4]) + b"1"]


def single_bytes():
    """Numbers that differ in one byte alone, high kinds, and of two refusals that could be given the first."""
    far = [1 << (8 * k) for k in range(8)]
    d = [ask(7 ^ f, single(7)) for f in far] + [ask(7, single(7 ^ f)) for f in far]
    # both ends of a run and of a map, with numbers of the same low bytes beside them
    d += [ask(n, run(2**32 + 5, 2**40 + 6)) for n in (5, 6, 2**32 + 4, 2**32 + 5, 2**33, 2**40 + 6, 2**40 + 7)] + [ask(n, bitmap(2**32 + 5, "0101")) for n in (6, 2**32 + 6, 2**32 + 8, 2**32 + 7)]
    d += [ask(2**63, run(2**63 - 1, 2**63)), ask(7, run(2**32 + 1, 5)), ask(7, run(2**63, 2**63 - 1)), ask(7, run(LARGEST, 4)[:16]), ask(7, run(LARGEST, 4)[:10])]
    # a map of 256 bits and of 257, the first and the last byte of it
    for bits in (256, 257):
        d += [ask(9 + k, bitmap(9, "1" + "0" * (bits - 2) + "1")) for k in (0, 1, 7, 8, 15, 16, 255, 256, 257)]
    # 77 before what the first block is, and of a list that is good but for its length; the kind is the whole byte
    over = single(1) * 7278 + run(2, 3) * 2
    assert len(over) == MOST + 1
    d += [ask(1, over), ask(1, b"\x09" + bytes(MOST)), ask(1, run(5, 4) + bytes(MOST))]
    return d + [ask(7, bytes([kind]) + single(7)[1:]) for kind in (16, 128, 130)] + [ask(5, run(5, 6)[:9] + run(5, 6)[9:16])]


def single_byte_lists():
    """Numbers whose low bytes rise where they fall, and the other way; runs across each byte's end; a list of 65,536 bytes."""
    d = [[2**32, 5], [5, 2**32 + 6], [2**40 + 1, 2**32 + 2], [2**63 - 1, 2**63], [2**63, 1]] + [[256**k - 1, 256**k] for k in range(1, 8)] + [[256**k - 2, 256**k] for k in range(1, 8)]
    return [listed(l) for l in d] + [listed([2 * i for i in range(7278)] + [20000, 20001, 30000, 30001]), bytes(8 * HOLDS + 7), bytes(8 * HOLDS + 8)]


FILES = {
    "crates/acks/stdin": stream_of(questions() + single_bytes()) + b"\0\0\0\x09" + bytes(8),
    "crates/ack_bytes/stdin": stream_of(lists() + single_byte_lists()) + b"\0\0\0",
    "samples/acks.bin": stream_of([ask(n, single(7) + run(10, 12) + bitmap(20, "100000011")) for n in (7, 8, 11, 13, 20, 21, 28)] + [ask(7, run(5, 4))]),
    "samples/ack-numbers.bin": stream_of([listed([7, 10, 11, 12, 20, 27, 28]), listed([]), listed([3, 3])]),
}
FILES["crates/acks/stdout"] = lines(FILES["crates/acks/stdin"], ask_line).encode()
FILES["crates/ack_bytes/stdout"] = lines(FILES["crates/ack_bytes/stdin"], bytes_line).encode()
FILES["samples/acks.txt"] = lines(FILES["samples/acks.bin"], ask_line).encode()
FILES["samples/ack-bytes.txt"] = lines(FILES["samples/ack-numbers.bin"], bytes_line).encode()
for refusal in (70, 71, 72, 73, 74, 77):
    assert b"refused %d\n" % refusal in FILES["crates/acks/stdout"], refusal
for refusal in (70, 75, 77):
    assert b"refused %d\n" % refusal in FILES["crates/ack_bytes/stdout"], refusal
# every list that is written reads back as itself
for one in lists() + single_byte_lists():
    if len(one) % 8 == 0 and len(one) < 4000:
        l = [number(one[i:i + 8]) for i in range(0, len(one), 8)]
        try:
            b = blocks_of(l)
        except Refused:
            continue
        assert all(acknowledged(b, n) == (n in l) for n in list(range(70)) + l + [LARGEST, LARGEST - 1])
