"""The receiver of document 01, written from the paper alone, in plain Python: the datagram reader, the step list, the replay program's lines."""

MAX_PAYLOAD = 1048576
MAX_FRAGMENTS = 1024
SMALL = bytes.fromhex("4c433032")
FRAGMENT = bytes.fromhex("4c433033")


def name_in(rest):
    """The name before the first zero byte, or None where the paper (L2) refuses it by 4."""
    end = rest[:64].find(0)
    if end < 1:
        return None
    try:
        text = rest[:end].decode("utf-8")  # strict: no overlong form, no surrogate, nothing above 10FFFF
    except UnicodeDecodeError:
        return None
    return rest[:end] if all(ord(c) >= 32 and ord(c) != 127 for c in text) else None


def read(d, limit, most=MAX_FRAGMENTS):
    """What a datagram says, of payloads of at most limit bytes in at most so many fragments: a refusal's number, or a dictionary."""
    if len(d) > 65535:
        return 3
    if len(d) < 8:
        return 1
    if d[:4] == SMALL:
        name = name_in(d[8:])
        if name is None:
            return 4
        return {"small": True, "sequence": int.from_bytes(d[4:8], "big"), "name": name, "data": d[9 + len(name):]}
    if d[:4] != FRAGMENT:
        return 2
    if len(d) < 20:
        return 1
    size, offset = int.from_bytes(d[8:12], "big"), int.from_bytes(d[12:16], "big")
    k, n = int.from_bytes(d[16:18], "big"), int.from_bytes(d[18:20], "big")
    if n == 0 or n > most or k >= n:
        return 5
    if size > limit:
        return 6
    name, data = b"", d[20:]
    if k == 0:
        name = name_in(d[20:])
        if name is None:
            return 4
        data = d[21 + len(name):]
    good = (offset == 0) if k == 0 else len(data) >= 1
    good = good and offset + len(data) <= size and (k != n - 1 or offset + len(data) == size)
    if not good:
        return 7
    return {"small": False, "sequence": int.from_bytes(d[4:8], "big"), "size": size, "offset": offset, "number": k, "count": n, "name": name, "data": data}


class Receiver:
    """Over a store of so many bytes; a log's limits, where there is one, bind beside the slot size (L10)."""

    def __init__(self, store, payload=MAX_PAYLOAD, fragments=MAX_FRAGMENTS):
        self.limit = min(store // 8, MAX_PAYLOAD, payload)
        self.most = min(MAX_FRAGMENTS, fragments)
        self.slots = [None] * 8
        self.opened = 0
        self.memory = {}  # the sequences of each sender, the sender of the latest delivery last
        self.payload = self.name = None  # of what was delivered last

    def find(self, key):
        for s, slot in enumerate(self.slots):
            if slot and slot["key"] == key:
                return s
        return None

    def remember(self, key):
        sender, sequence = key
        self.memory[sender] = (self.memory.pop(sender, []) + [sequence])[-32:]
        if len(self.memory) > 16:
            del self.memory[next(iter(self.memory))]

    def forget(self, sender):
        self.memory.pop(sender, None)
        self.slots = [None if slot and slot["key"][0] == sender else slot for slot in self.slots]

    def receive(self, sender, d):
        """The answer as the words of a line."""
        r = read(d, self.limit, self.most)
        if isinstance(r, int):
            return f"refused {r}"
        key = (sender, r["sequence"])
        if r["sequence"] in self.memory.get(sender, []):
            return "repeat"
        at = self.find(key)
        if r["small"]:
            if at is not None:
                return "refused 8"
            self.remember(key)
            self.payload, self.name = r["data"], r["name"]
            return f"delivered {len(r['data'])}"
        emptied = ""
        if at is not None:
            slot = self.slots[at]
            if (slot["size"], slot["count"]) != (r["size"], r["count"]):
                return "refused 8"
            if r["number"] in slot["held"]:
                return "repeat" if slot["held"][r["number"]] == (r["offset"], r["data"], r["name"]) else "refused 8"
            for k, (offset, data, _) in slot["held"].items():
                low, high = sorted([(k, offset, len(data)), (r["number"], r["offset"], len(r["data"]))])
                ends = low[1] + low[2]
                if ends > high[1] or (low[0] + 1 == high[0] and ends != high[1]):
                    return "refused 8"
        else:
            if None in self.slots:
                at = self.slots.index(None)
            else:
                at = min(range(8), key=lambda s: self.slots[s]["opened"])
                was = self.slots[at]["key"]
                emptied = f" emptied {was[0]} {was[1]}"
            self.opened += 1
            self.slots[at] = {"key": key, "size": r["size"], "count": r["count"], "held": {}, "opened": self.opened}
        slot = self.slots[at]
        slot["held"][r["number"]] = (r["offset"], r["data"], r["name"])
        if len(slot["held"]) == slot["count"]:
            self.slots[at] = None
            self.remember(key)
            self.payload, self.name = b"".join(slot["held"][k][1] for k in range(slot["count"])), slot["held"][0][2]
            return f"delivered {slot['size']}{emptied}"
        return f"kept{emptied}"


def replay(stream):
    """What the replay program writes for these bytes."""
    receiver, lines, at, n = Receiver(65536), [], 0, 0
    while True:
        if at == len(stream):
            return "\n".join(lines + [f"end {n}"]) + "\n"
        length = int.from_bytes(stream[at:at + 2], "big")
        if len(stream) - at < 2 or len(stream) - at - 2 < length:
            return "\n".join(lines + [f"cut {n}"]) + "\n"
        n += 1
        lines.append(f"{n} {receiver.receive(0, stream[at + 2:at + 2 + length])}")
        at += 2 + length


# ---- datagrams, as a camera or a stranger makes them

def small(sequence, name, payload):
    return SMALL + sequence.to_bytes(4, "big") + name + b"\0" + payload


def fragment(sequence, size, offset, k, n, data, name=b""):
    head = FRAGMENT + sequence.to_bytes(4, "big") + size.to_bytes(4, "big") + offset.to_bytes(4, "big") + k.to_bytes(2, "big") + n.to_bytes(2, "big")
    return head + (name + b"\0" if k == 0 else b"") + data


def cut(sequence, name, payload, m):
    """A message into datagrams of at most m bytes."""
    if 9 + len(name) + len(payload) <= m:
        return [small(sequence, name, payload)]
    pieces, at = [payload[:m - 21 - len(name)]], m - 21 - len(name)
    while at < len(payload):
        pieces.append(payload[at:at + m - 20])
        at += m - 20
    out, at = [], 0
    for k, piece in enumerate(pieces):
        out.append(fragment(sequence, len(payload), at, k, len(pieces), piece, name))
        at += len(piece)
    return out


def stream_of(datagrams):
    return b"".join(len(d).to_bytes(2, "big") + d for d in datagrams)
