"""qm import: the log that it makes of a capture, and its lines, beside a plain model in Python: captures of both forms and byte orders, of every kind of link, with
pieces of IP datagrams in any order, doubled, overlapping and lost; cut at many places and damaged at random; stored ones, of which tests/import/stock.pcapng is one of
stock LCM by dumpcap; and real ones, made in a network namespace where that is allowed: of the kernel's own packets, by tcpdump where it is installed, and of stock LCM
where liblcm1 and dumpcap or tcpdump are.

tests/import/run                    compares
tests/import/run --capture FILE     writes a capture of stock LCM, as tests/import/stock.pcapng was made"""
import os
import random
import shutil
import struct
import subprocess
import sys
import tempfile

from model.called import no_room, qm
from model.capture import import_of
from model.files import ROOT, bytes_of, put
from model.log import entries_in, log_of
from model.receiver import MAX_PAYLOAD, Receiver, cut, small
from model.stock import published
from model.tally import close, held, side_by_side

PORT = 7667
START = 1700000000  # seconds


# ---- packets, as a kernel makes them

def udp(source, to, d, length=None):
    return struct.pack(">HHHH", source, to, 8 + len(d) if length is None else length, 0) + d


def four(source, body, number=0, place=0, kind=17, options=b"", whole=None):
    head = 20 + len(options)
    return struct.pack(">BBHHHBBH4s4s", 0x40 | head // 4, 0, head + len(body) if whole is None else whole, number, place, 1, kind, 0, source, bytes([239, 255, 76, 67])) + options + body


def six(source, body, kind=17, length=None):
    return struct.pack(">IHBB16s16s", 6 << 28, len(body) if length is None else length, kind, 1, source, bytes([255, 2] + [0] * 13 + [1])) + body


def pieces_of_four(source, body, number, size):
    return [four(source, body[at:at + size], number, at // 8 | (0x2000 if at + size < len(body) else 0)) for at in range(0, len(body), size)]


def pieces_of_six(source, body, number, size, before=b"", kind=44):
    out = []
    for at in range(0, len(body), size):
        head = struct.pack(">BBHI", 17, 0, at | (at + size < len(body)), number)
        out.append(six(source, before + head + body[at:at + size], kind))
    return out


def linked(link, p):
    kind = 0x0800 if p[:1] and p[0] >> 4 == 4 else 0x86dd
    return {1: bytes(12) + struct.pack(">H", kind), 113: bytes(14) + struct.pack(">H", kind), 276: struct.pack(">H", kind) + bytes(18)}.get(link, b"") + p


def tagged(p):
    return bytes(12) + b"\x88\xa8\0\7\x81\0\0\5" + struct.pack(">H", 0x0800 if p[0] >> 4 == 4 else 0x86dd) + p


# ---- captures

def classic(ps, link=1, order="<", nano=False, snap=65535):
    out = struct.pack(order + "IHHiIII", 0xa1b23c4d if nano else 0xa1b2c3d4, 2, 4, 0, 0, snap, link)
    for i, p in enumerate(ps):
        kept = p[:snap]
        out += struct.pack(order + "4I", START + i // 100, i % 100 * (7000000 if nano else 7000), len(kept), len(p)) + kept
    return out


def block(order, kind, body):
    body += bytes(-len(body) % 4)
    return struct.pack(order + "II", kind, len(body) + 12) + body + struct.pack(order + "I", len(body) + 12)


def section(order, major=1):
    return block(order, 0x0a0d0d0a, struct.pack(order + "IHHq", 0x1a2b3c4d, major, 0, -1))


def option(order, code, value):
    return struct.pack(order + "HH", code, len(value)) + value + bytes(-len(value) % 4)


def interface(order, link, *options, snap=0):
    return block(order, 1, struct.pack(order + "HHI", link, 0, snap) + b"".join(options) + (struct.pack(order + "HH", 0, 0) if options else b""))


def timed(order, which, units, p, old=False):
    head = struct.pack(order + "HHIIII" if old else order + "5I", *((which, 0) if old else (which,)), units >> 32, units & 0xffffffff, len(p), len(p))
    return block(order, 2 if old else 6, head + p + bytes(-len(p) % 4) + option(order, 2, bytes(4)) + struct.pack(order + "HH", 0, 0))


def newer(ps, link=1, order="<", resolution=None, offset=None, old=False):
    options = [] if resolution is None else [option(order, 9, bytes([resolution]))]
    options += [] if offset is None else [option(order, 14, struct.pack(order + "q", offset))]
    second = 10**6 if resolution is None else (2 if resolution & 128 else 10) ** (resolution & 127)
    out = section(order) + interface(order, 0, option(order, 2, b"eth9")) + interface(order, link, *options) + block(order, 5, bytes(8))
    for i, p in enumerate(ps):
        out += timed(order, 1, (START * 1000 + i) * second // 1000 % 2**64, p, old)
    return out


def simple(order, p, length=None):
    return block(order, 3, struct.pack(order + "I", len(p) if length is None else length) + p)


# ---- a world: cameras, a mast, strangers, of both editions of IP

def world(seed, link=1):
    r, out = random.Random(seed), []
    fours = [bytes([10, 0, 0, n]) for n in (7, 8, 9)]
    sixes = [bytes([254, 128] + [0] * 13 + [n]) for n in (7, 8)]
    for q in range(r.randrange(6, 20)):
        for d in cut(q, r.choice([b"TILE", b"MAST"]), r.randbytes(r.choice([0, 50, 700, 5000])), r.choice([96, 700, 1400, 9000])):
            source, port, to = r.choice(fours), r.choice([40000, 40001]), r.choice([PORT] * 5 + [53, 7668])
            body = udp(port, to, d)
            choice = r.randrange(8)
            if choice < 3:
                out.append(four(source, body, options=r.choice([b"", bytes(4)])))
            elif choice == 3:
                out.append(six(r.choice(sixes), body))
            elif choice == 4:
                out.append(six(r.choice(sixes), bytes([60, 0]) + bytes(6) + bytes([17, 1]) + bytes(14) + body, 0))
            else:
                size = r.choice([8, 80, 1480]) if len(body) < 900 else 1480
                ps = pieces_of_four(source, body, r.randrange(4), size) if choice < 7 else pieces_of_six(r.choice(sixes), body, r.randrange(3), size, bytes([44, 0]) + bytes(6), 0)
                if r.randrange(2):
                    r.shuffle(ps)
                if r.randrange(4) == 0:
                    ps = ps + [r.choice(ps)]
                if r.randrange(5) == 0:
                    ps.remove(r.choice(ps))
                out += ps
        out += r.sample([four(fours[0], b"tcp" * 9, kind=6), six(sixes[0], b"icmp", 58), b"", b"\x45", four(fours[0], b"1234567"), four(fours[0], udp(1, PORT, b"abc", 99)), four(fours[0], udp(1, PORT, b"abc", 7)),
                         four(fours[0], udp(1, PORT, b"abcdef", 11)), four(fours[0], udp(1, PORT, b"abc"), whole=19), four(fours[0], udp(1, PORT, b"abc"))[:-1], six(sixes[0], udp(1, PORT, b"abc"))[:-1],
                         six(sixes[0], b"\x11\7" + bytes(6), 0), six(sixes[0], b"\x11", 60), six(sixes[0], bytes(4), 44), six(sixes[0], bytes(8) + udp(1, PORT, b"x"), 44), bytes([0x65]) + bytes(30),
                         four(fours[1], udp(1, PORT, small(q, b"MAST", b"x"))) + bytes(18), b"\x40" + bytes(30), six(sixes[1], bytes([17, 4]) + bytes(22) + udp(5, PORT, b"auth"), 51)], r.randrange(4))
    return [linked(link, p) for p in out]


def overlapping():
    """Pieces that overlap, that are copies, that end twice, that are too long, that have an odd length in the midst; one number over and over."""
    s, body = bytes([10, 0, 0, 7]), udp(1, PORT, bytes(range(200)))
    a, b, c = pieces_of_four(s, body, 5, 80)
    out = [a, b, c, b, a, c, a, a, b, b, c]
    out += [a, four(s, body[72:160], 5, 9 | 0x2000), b, c]
    out += [a, four(s, b"X" * 80, 5, 10 | 0x2000), b, c]
    out += [c, four(s, body[160:200], 5, 20), a, b]
    out += [a, four(s, body[80:163], 5, 10 | 0x2000), b, c]
    out += [four(s, body[160:], 6, 0x1fff), four(s, bytes(8), 7, 0x1fff | 0x2000), four(s, b"", 8, 0x2000), four(s, b"", 8, 1), c, c, b, b, a]
    out += [four(s, body[:160], 9, 0x2000), a, b, four(s, body[:80], 9, 0x2000), four(s, body[160:], 9, 20)]
    for i in range(100):
        out += [four(bytes([10, 1, 0, i]), body[:80], 77, 0x2000)]
    out += [four(bytes([10, 1, 0, i]), body[80:], 77, 10) for i in range(100)]
    return out


def whole_ones():
    """The longest datagram there is, in pieces of either edition, and one byte more."""
    s, t = bytes([10, 0, 0, 7]), bytes([254, 128] + [0] * 13 + [7])
    longest, over = udp(1, PORT, bytes(65507)), bytes(65544)
    return pieces_of_four(s, longest, 1, 1480) + pieces_of_six(t, longest, 1, 1448) + pieces_of_four(s, over, 2, 1480) + pieces_of_six(t, udp(1, PORT, bytes(65527)), 3, 1448)


def late():
    """Pieces 30 seconds apart are one datagram's, and a millisecond more they are not."""
    body, s = udp(1, PORT, bytes(200)), bytes([10, 0, 0, 7])
    a, b = pieces_of_four(s, body, 5, 160)
    out = section("<") + interface("<", 228)
    for tick, p in ((0, a), (30000000, b), (40000000, a), (70001000, b), (80000000, a), (1000000, b)):
        out += timed("<", 0, tick, p)
    return out


def captures():
    some = world(1)
    out = [classic(world(s, link), link, order, nano) for s, (link, order, nano) in enumerate((l, o, n) for l in (1, 12, 14, 101, 113, 228, 229, 276, 147) for o, n in (("<", False), (">", True)))]
    out += [newer(world(s + 50, link), link, order, resolution, offset, old) for s, (link, order, resolution, offset, old) in enumerate(
        [(1, "<", None, None, False), (1, ">", 9, 0, False), (113, ">", 3, -1000, True), (276, "<", 128 + 10, 5, False), (101, "<", 0, None, False), (1, "<", 6, 2**62, False), (1, "<", 6, -2**63, False),
         (1, ">", 127, None, False), (1, "<", 255, 7, False), (1, "<", 19, None, False), (1, "<", 20, None, False), (1, "<", 128 + 63, None, False), (1, "<", 128 + 64, None, False)])]
    out += [classic(map(tagged, [p[14:] for p in some if len(p) > 34])), classic([linked(1, p) for p in overlapping()]), classic([linked(101, p) for p in overlapping()], 101, ">"), classic(whole_ones(), 101), late()]
    # the upper bits of a classic capture's kind of link say other things; a snap length cuts packets
    out += [classic(some, 1 | 0x50000000), classic(some, 1, ">", snap=60), classic(some, snap=0), classic([]), newer([])]
    # two sections, of either byte order, and packets without a time
    out += [newer(some[:9]) + newer(some[9:20], order=">") + section("<") + interface("<", 1, snap=100) + b"".join(simple("<", p) for p in some[:5] if len(p) <= 100)]
    out += [section("<") + x for x in (simple("<", some[0]), interface("<", 1) + simple("<", some[0], 9999), interface("<", 1)[:-4] + bytes(4), timed("<", 0, 0, some[0]), interface("<", 1) + timed("<", 1, 0, some[0]),
                                       interface("<", 1, struct.pack("<HH", 9, 99)), interface("<", 1, option("<", 9, b"")), block("<", 1, bytes(4)), block("<", 6, bytes(16)), block("<", 3, b""), section(">", 2), struct.pack("<III", 7, 8, 8),
                                       struct.pack("<III", 7, 14, 14) + bytes(2), struct.pack("<III", 7, 2**32 - 4, 1), struct.pack("<II", 0x0a0d0d0a, 28) + bytes(20), interface("<", 1) + timed("<", 0, 5, b"")[:-8])]
    out += [section("<", 2), section("<")[:27], b"\n\r\r\n" + bytes(24), b"", b"\xa1\xb2", b"a letter home, and a long one at that", struct.pack("<I", 0xa1b2cd34) + bytes(40), b"\n\r\r\n" + bytes(4), classic(some)[:23]]
    out += [classic(some[:3])[:n] for n in range(24, len(classic(some[:3])), 37)] + [newer(some[:3])[:n] for n in range(28, len(newer(some[:3])), 41)]
    return out


def damaged(seed):
    r = random.Random(seed)
    make = r.choice([classic, newer])
    ps = world(seed)
    b = bytearray(make(ps[:r.randrange(1, 12)], order=r.choice("<>")))
    for _ in range(r.randrange(1, 6)):
        at = r.randrange(r.choice([60, len(b)]))
        if at < len(b):
            b[at] = r.choice([0, 1, 255, b[at] ^ 1 << r.randrange(8)])
    return bytes(b)


# ---- one call

def tried(folder, i, b, port=None):
    path, log = os.path.join(folder, f"{i}.pcap"), os.path.join(folder, f"{i}.log")
    put(path, b)
    status, got, said = qm("import", *(("--port", str(port)) if port is not None else ()), "-o", log, path)
    lines, entries, why = import_of(b, PORT if port is None else port)
    there = bytes_of(log) if os.path.exists(log) else None
    if lines is None:
        good = status == 3 and got == "" and there is None and said.startswith(f"qm import: {path}: ")
    else:
        good = got == "\n".join(lines) + "\n" and there == log_of(entries) and status == (3 if why else 0) and (why is None or why in said)
        good = good and ("captured in part" in said) == (lines[4] != "cut 0") and ("found no whole" in said) == (lines[3] != "pieces 0") and ("no datagram in it" in said) == (not entries)
    held(good, f"qm import, capture {i} of {len(b)} bytes, status {status}, {said!r}", got, "\n".join(lines or [why]))
    held(not os.path.exists(log + ".part"), f"capture {i}: a part is left")
    for one in (path, log):
        if os.path.exists(one):
            os.remove(one)


def failures(folder):
    path, log = os.path.join(folder, "some.pcap"), os.path.join(folder, "some.log")
    b = classic(world(3))
    put(path, b)
    for words, says in [((), "-o LOG: no log to write is named"), (("-o",), "-o: the log is missing"), (("-o", log), "CAPTURE: no capture is named"), (("-o", log, path, path), f"{path}: one capture is named already"),
                        (("-o", log, path, "--replace"), "--replace: options stand before"), (("--port",), "--port: the port is missing"), (("--port", "65536", "-o", log, path), "65536: --port takes"),
                        (("--port", "x", "-o", log, path), "x: --port takes"), (("--loud", "-o", log, path), "--loud: there is no such option"), ((path,), "-o LOG: no log to write is named")]:
        got = qm("import", *words)
        held(got[0] == 2 and got[1] == "" and got[2].startswith(f"qm import: {says}") and "\nusage: qm import " in got[2] and not os.path.exists(log), f"qm import {words}", str(got))
    for where, why in [(os.path.join(folder, "none.pcap"), "No such file or directory"), (folder, "Is a directory"), ("/dev/stdin", "not a file on disk")]:
        got = qm("import", "-o", log, where)
        held(got[0] == 1 and got[1] == "" and why in got[2] and not os.path.exists(log), f"qm import {where}", str(got))
    held(qm("import", "-o", log, path)[0] == 0, "a log that is not there")
    put(log, b"a letter home")
    got = qm("import", "-o", log, path)
    held(got[0] == 1 and got[1] == "" and "it is there already" in got[2] and bytes_of(log) == b"a letter home", "a log that is there", str(got))
    got = qm("import", "--replace", "-o", log, path)
    held(got[0] == 0 and bytes_of(log) == log_of(import_of(b)[1]), "--replace", str(got))
    no_room("import", "--replace", "-o", log, path)


def stored(folder):
    """samples/two-cameras.pcap is samples/two-cameras.log as a network carried it: the same datagrams, and the same count."""
    log = os.path.join(folder, "stored.log")
    lines, entries, why = import_of(bytes_of("samples", "two-cameras.pcap"))
    got = qm("import", "-o", log, os.path.join(ROOT, "samples", "two-cameras.pcap"))
    held(got == (0, "\n".join(lines) + "\n", "") and why is None and bytes_of(log) == log_of(entries), "a stored capture", str(got))
    flight = entries_in(bytes_of("samples", "two-cameras.log"))[0]
    held([(t, d) for _, t, d in entries] == [(t, d) for _, t, d in flight] and len({s for s, _, _ in entries}) == len({s for s, _, _ in flight}), "a stored capture: the datagrams of the flight")
    if "QM" not in os.environ:
        with open(os.path.join(ROOT, "samples", "two-cameras.txt"), encoding="utf8") as f:
            held(qm("count", log)[1] == f.read(), "a stored capture: the count of the flight")


# ---- stock LCM, captured

# packets of 1,500 bytes, so that a tile comes in pieces of IP; and a source address
STOCK = r"""
set -e
ip link set lo mtu 1500 up multicast on
ip addr add 10.0.0.7/32 dev lo
ip route add 239.255.76.67 dev lo src 10.0.0.7
if command -v dumpcap >/dev/null; then dumpcap -q -i lo -w "$1" >/dev/null 2>&1 & else tcpdump -Z root --immediate-mode -U -i lo -w "$1" >/dev/null 2>&1 & fi
capture=$!
sleep 2
"$2" -m model.stock
sleep 1
kill -INT $capture
wait $capture || true
"""


def captured(path):
    """Whether a capture of what stock LCM publishes could be made there, and why not."""
    why = "unshare, ip, or dumpcap and tcpdump are missing"
    if not (shutil.which("unshare") and shutil.which("ip") and (shutil.which("dumpcap") or shutil.which("tcpdump"))):
        return why
    for words in (["unshare", "-n"], ["unshare", "-rn"]):
        done = subprocess.run([*words, "sh", "-c", STOCK, "sh", path, sys.executable], stdout=subprocess.PIPE, stderr=subprocess.PIPE, cwd=os.path.join(ROOT, "tests"))
        if done.returncode == 0:
            return None
        why = (done.stderr.decode().strip().split("\n") or [""])[-1]
    return why


def of_stock(path, what):
    """The log of such a capture is the model's, and a receiver over it delivers what was published, each camera's in its order."""
    log = os.path.join(os.path.dirname(path), "stock.log")
    lines, entries, why = import_of(bytes_of(path))
    got = qm("import", "--replace", "-o", log, path)
    held(got == (0, "\n".join(lines) + "\n", "") and why is None and bytes_of(log) == log_of(entries), f"{what}: the log", str(got), str(lines))
    receiver, delivered = Receiver(8 * MAX_PAYLOAD), {}
    for sender, _, d in entries:
        if receiver.receive(sender, d).startswith("delivered"):
            delivered.setdefault(sender, []).append((receiver.name, receiver.payload))
    expected = [[(channel, payload) for camera, channel, payload in published() if camera == which] for which in range(2)]
    held(sorted(delivered.values()) == sorted(expected), f"{what}: what was published", str([[(n, len(p)) for n, p in some] for some in delivered.values()]))
    held(qm("count", log)[1].count("\ntile ") == 3, f"{what}: three tiles are counted")


def stock(folder):
    b = bytes_of("tests", "import", "stock.pcapng")
    path = os.path.join(folder, "stock.pcapng")
    put(path, b)
    held(b[:4] == b"\x0a\x0d\x0d\x0a" and b"Dumpcap (Wireshark)" in b, "tests/import/stock.pcapng is of dumpcap")
    of_stock(path, "a stored capture of stock LCM")
    path = os.path.join(folder, "now.pcapng")
    why = captured(path)
    if why:
        return print(f"no capture of stock LCM was made here: {why}")
    print("a capture of stock LCM was made")
    of_stock(path, "a capture of stock LCM")


# ---- a real network: datagrams through the kernel in a namespace of its own, captured

def real(folder):
    """What was sent is what the log has, in order, for each sender; twice where tcpdump saw it go out and come in."""
    path, log = os.path.join(folder, "real.pcap"), os.path.join(folder, "real.log")
    program = [sys.executable, os.path.join(ROOT, "tests", "start.py"), os.path.join(ROOT, "tests", "import", "network.py"), path]
    done = None
    for words in (["unshare", "-n"], ["unshare", "-rn"]):
        if shutil.which("unshare") and shutil.which("ip"):
            done = subprocess.run([*words, *program], stdout=subprocess.PIPE, stderr=subprocess.PIPE)
            if done.returncode == 0:
                break
    if not done or done.returncode != 0:
        why = done.stderr.decode().strip().split("\n")[-1] if done else "unshare or ip is missing"
        return print(f"no capture of a real network was made here: {why}")
    *sent, by = done.stdout.decode().split("\n")[:-1]
    print(f"a capture of a real network, by {by}: {len(sent)} datagrams")
    b = bytes_of(path)
    lines, entries, why = import_of(b)
    got = qm("import", "-o", log, path)
    held(got[0] == 0 and why is None and got[1] == "\n".join(lines) + "\n" and bytes_of(log) == log_of(entries), "a real capture", got[1], str(lines))
    # by the port that each was sent from
    expected, found = {}, {}
    for line in sent:
        port, d = line.split(" ")
        expected.setdefault(int(port), []).append(bytes.fromhex(d))
    ports = {int(x[1]): int(x[11]) for x in (line.split(" ") for line in lines if line.startswith("sender "))}
    for s, _, d in entries:
        found.setdefault(ports[s], []).append(d)
    times = len(entries) // len(sent)
    held(times >= 1 and len(entries) == times * len(sent), f"a real capture: {len(entries)} entries of {len(sent)} datagrams")
    held({p: sorted(ds) for p, ds in found.items()} == {p: sorted(ds * times) for p, ds in expected.items()}, "a real capture: the datagrams are those that were sent")


if len(sys.argv) == 3 and sys.argv[1] == "--capture":
    sys.exit(captured(os.path.abspath(sys.argv[2])))
CAPTURES = captures()
SAID = [import_of(b) for b in CAPTURES]
assert any(x[0] is None for x in SAID) and {None, "ends inside a packet", "does not fit", "a version"} <= {x[2] for x in SAID if x[0]}
for word in ("other ", "pieces ", "cut ", "broken ", "imported "):
    assert any(line.startswith(word) and line != word + "0" for x in SAID if x[0] for line in x[0]), word
with tempfile.TemporaryDirectory() as folder:
    side_by_side(lambda i, b: tried(folder, i, b), CAPTURES + [damaged(s) for s in range(int(os.environ.get("DAMAGED", 150)))])
    for port in (53, 0, 65535):
        tried(folder, f"port-{port}", classic(world(2)), port)
    failures(folder)
    stored(folder)
    stock(folder)
    real(folder)
close()
