"""An LMCP reader and writer over series PITSURV, versions 1 and 2, written from the paper: the second opinion for lmcp_list and lmcp_bytes."""
import struct

LIMIT = 1048576
HOLDS = 262144  # numbers that each program holds
SERIES = b"PITSURV\0"
ANY = "LmcpObject"

# field: (array, kind); array is None for one value, a number for a fixed array, "n" for one with a 2-byte count, "N" with a 4-byte one
FIRST = {
    1: [],
    2: [(None, "int32"), (None, "int32"), (None, "int16")],
    3: [(None, "uint32"), (None, "uint16"), (None, "uint16"), (None, 2)],
    4: [(None, "uint32"), (None, "bool"), (None, 2)],
    5: [(None, "uint32"), ("n", 4)],
    6: [("n", "char"), (None, ANY)],
    7: [(4, "byte"), (None, "real64"), (None, "real32"), (None, "int64"), (None, 3)],
}
# version 2 has PitList's count in 4 bytes and a depth at PitMark's end
TABLES = {1: FIRST, 2: {**FIRST, 4: FIRST[4] + [(None, "int16")], 5: [(None, "uint32"), ("N", 4)]}}
COUNTS = {"n": 2, "N": 4}
# kind: bytes, signed
SCALARS = {
    "bool": (1, False),
    "byte": (1, False),
    "char": (1, False),
    "int16": (2, True),
    "int32": (4, True),
    "int64": (8, True),
    "uint16": (2, False),
    "uint32": (4, False),
    "real32": (4, False),
    "real64": (8, True),
}


class Refused(Exception):
    pass


def refuse(n):
    raise Refused(n)


# ---- reading


class Bytes:
    def __init__(self, b):
        self.b, self.at = b, 0

    def take(self, n):
        if len(self.b) - self.at < n:
            refuse(25)
        self.at += n
        return self.b[self.at - n:self.at]


def read_value(src, kind):
    size, signed = SCALARS[kind]
    v = int.from_bytes(src.take(size), "big", signed=signed)
    if kind == "bool" and v > 1:
        refuse(23)
    if kind == "char" and v > 127:
        refuse(27)
    return v


def read_object(src, declared, depth, out, message):
    exists = src.take(1)[0]
    if exists > 1:
        refuse(23)
    if exists == 0:
        out.append(0)
        return
    if depth > 16:
        refuse(26)
    head = src.take(14)
    t, version = struct.unpack(">IH", head[8:])
    if head[:8] != SERIES or version not in TABLES or t not in TABLES[version] or (declared != ANY and t != declared):
        refuse(24)
    if depth == 1:
        message.append(version)
    if [version] != message:
        refuse(24)
    out.append(t)
    for array, kind in TABLES[version][t]:
        n = 1 if array is None else array
        if array in COUNTS:
            n = int.from_bytes(src.take(COUNTS[array]), "big")
            out.append(n)
        for _ in range(n):
            if kind in SCALARS:
                out.append(read_value(src, kind))
            else:
                read_object(src, kind, depth + 1, out, message)


def read(m):
    if len(m) < 12 or m[:4] != b"LMCP":
        refuse(20)
    if len(m) > LIMIT or len(m) != 12 + int.from_bytes(m[4:8], "big"):
        refuse(21)
    stored = int.from_bytes(m[-4:], "big")
    if stored != 0 and stored != sum(m[:-4]) % 2**32:
        refuse(22)
    src, out, message = Bytes(m[8:-4]), [], []
    if src.b[:1] == b"\0":
        refuse(23)
    read_object(src, ANY, 1, out, message)
    if src.at != len(src.b):
        refuse(28)
    return message + out


# ---- writing


class Numbers:
    def __init__(self, l):
        self.l, self.at = l, 0

    def take(self):
        if self.at == len(self.l):
            refuse(25)
        self.at += 1
        return self.l[self.at - 1]


def write_value(src, kind):
    z = src.take()
    size, signed = SCALARS[kind]
    if kind == "char" and not 0 <= z <= 127:
        refuse(27)
    if kind == "bool" and z not in (0, 1):
        refuse(29)
    low, high = (-(2 ** (8 * size - 1)), 2 ** (8 * size - 1)) if signed else (0, 2 ** (8 * size))
    if not low <= z < high:
        refuse(29)
    return z.to_bytes(size, "big", signed=signed)


def write_object(src, declared, depth, out, version):
    t = src.take()
    if t == 0:
        if depth == 1:
            refuse(23)
        out += b"\0"
        return
    if depth > 16:
        refuse(26)
    if t not in TABLES[version] or (declared != ANY and t != declared):
        refuse(24)
    out += b"\1" + SERIES + struct.pack(">IH", t, version)
    for array, kind in TABLES[version][t]:
        n = 1 if array is None else array
        if array in COUNTS:
            n = src.take()
            if not 0 <= n < 256 ** COUNTS[array]:
                refuse(29)
            out += n.to_bytes(COUNTS[array], "big")
        for _ in range(n):
            if kind in SCALARS:
                out += write_value(src, kind)
            else:
                write_object(src, kind, depth + 1, out, version)


def framed(root, calculate):
    m = b"LMCP" + struct.pack(">I", len(root)) + root
    return m + struct.pack(">I", sum(m) % 2**32 if calculate else 0)


def write(l, calculate):
    src, out = Numbers(l), bytearray()
    version = src.take()
    if version not in TABLES:
        refuse(29)
    write_object(src, ANY, 1, out, version)
    if src.at != len(l):
        refuse(28)
    if 12 + len(out) > LIMIT:
        refuse(21)
    return framed(bytes(out), calculate)


# ---- what the two filters print


def lines(answers, left):
    text = "".join(f"{i + 1} {a}\n" for i, a in enumerate(answers))
    return text + f"{'cut' if left else 'end'} {len(answers)}\n"


def answer(word, f, *args):
    try:
        return f"{word} {f(*args)}"
    except Refused as e:
        return f"refused {e}"


def held(numbers):
    """13, the last refusal, where the program cannot hold so many."""
    return numbers if len(numbers) <= HOLDS else refuse(13)


def message_lines(stream):
    at, answers = 0, []
    while len(stream) - at >= 4 and len(stream) - at - 4 >= int.from_bytes(stream[at:at + 4], "big"):
        n = int.from_bytes(stream[at:at + 4], "big")
        answers.append(answer("list", lambda m: " ".join(map(str, held(read(m)))), stream[at + 4:at + 4 + n]))
        at += 4 + n
    return lines(answers, at < len(stream))


def list_lines(stream):
    at, answers = 0, []
    while len(stream) - at >= 5 and len(stream) - at - 5 >= 8 * int.from_bytes(stream[at + 1:at + 5], "big"):
        n = int.from_bytes(stream[at + 1:at + 5], "big")
        l = list(struct.unpack(f">{n}q", stream[at + 5:at + 5 + 8 * n]))
        answers.append(f"longer than {HOLDS} numbers" if n > HOLDS else answer("bytes", lambda l, c: write(l, c).hex(), l, stream[at] != 0))
        at += 5 + 8 * n
    return lines(answers, at < len(stream))


def message_stream(messages):
    return b"".join(struct.pack(">I", len(m)) + m for m in messages)


def list_stream(lists):
    return b"".join(bytes([c]) + struct.pack(f">I{len(l)}q", len(l), *l) for l, c in lists)
