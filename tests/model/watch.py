"""The sequence watch of document 01, written from the paper alone, in plain Python, and the lines of the program gaps."""
from .receiver import MAX_PAYLOAD, read


class Watch:
    """The last number of each of at most 16 senders, in order of first number."""

    def __init__(self):
        self.last = {}

    def see(self, sender, new):
        if sender not in self.last:
            if len(self.last) == 16:
                return "refused 14"
            self.last[sender] = new
            return "first"
        d = (new - self.last[sender]) % 2**32
        d -= 2**32 if d >= 2**31 else 0
        if d > 0:
            self.last[sender] = new
            return f"forward {d - 1}"
        if -d > 1024:
            self.last[sender] = new
            return f"restarted {new}"
        return "same" if d == 0 else f"late {-d}"


def gaps(stream):
    """What the program gaps writes for these bytes."""
    watch, lines, at = Watch(), [], 0
    while at < len(stream):
        length = int.from_bytes(stream[at:at + 2], "big")
        if len(stream) - at < 2 or len(stream) - at - 2 < length:
            return "\n".join(lines + [f"cut {len(lines)}"]) + "\n"
        r = read(stream[at + 2:at + 2 + length], MAX_PAYLOAD)
        lines.append(f"{len(lines) + 1} " + (f"refused {r}" if isinstance(r, int) else watch.see(0, r["sequence"])))
        at += 2 + length
    return "\n".join(lines + [f"end {len(lines)}"]) + "\n"
