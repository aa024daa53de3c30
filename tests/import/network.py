"""A real network: sends datagrams through the kernel, in a namespace of its own, and captures them into a file. tests/import runs it so, where that is allowed. It prints of each
datagram the port that it was sent from and its bytes, and last what captured them."""
import os
import re
import shutil
import socket
import struct
import subprocess
import sys
import time

from model.receiver import cut

out = sys.argv[1]
for words in (["link", "set", "lo", "mtu", "1500", "up"], ["link", "set", "lo", "multicast", "on"], ["route", "add", "239.255.76.67", "dev", "lo"]):
    subprocess.run(["ip", *words], check=True)
tcpdump = shutil.which("tcpdump")
raw = socket.socket(socket.AF_PACKET, socket.SOCK_RAW, socket.ntohs(3))
raw.bind(("lo", 0))
try:
    raw.setsockopt(socket.SOL_SOCKET, 33, 1 << 25)  # SO_RCVBUFFORCE: root's own
except PermissionError:
    pass
if tcpdump:
    running = subprocess.Popen([tcpdump, "-Z", "root", "--immediate-mode", "-U", "-B", "32768", "-i", "any", "-s", "4000", "-w", out], stderr=subprocess.PIPE)
    running.stderr.readline()
    time.sleep(1)
sent, socks = [], []
for family, address in ((socket.AF_INET, "127.0.0.1"), (socket.AF_INET, "127.0.0.1"), (socket.AF_INET6, "::1")):
    s = socket.socket(family, socket.SOCK_DGRAM)
    s.bind((address, 0))
    socks.append(s)
for q, size in enumerate([0, 10, 1400, 1472, 1473, 5000, 60000, 65507 - 40, 300]):
    for d in cut(q, b"TILE", os.urandom(size), 65507):
        for s in socks:
            s.sendto(d, ("239.255.76.67", 7667) if s.family == socket.AF_INET else ("::1", 7667))
            sent.append((s.getsockname()[1], d))
        socks[0].sendto(b"another port", ("127.0.0.1", 53))
    time.sleep(0.02)
time.sleep(0.5)
if tcpdump:
    running.terminate()
    said = running.stderr.read().decode()
    running.wait()
    dropped = re.search(r"(\d+) packets dropped by kernel", said)
    if not dropped or dropped[1] != "0":
        sys.exit(f"tcpdump has lost packets: {said.strip()}")
else:
    raw.settimeout(0.5)
    b = struct.pack("<IHHiIII", 0xa1b2c3d4, 2, 4, 0, 0, 262144, 1)
    try:
        while True:
            p, where = raw.recvfrom(1 << 18)
            # on loopback each packet is seen as it goes out and as it comes in
            if where[2] == socket.PACKET_OUTGOING:
                continue
            b += struct.pack("<4I", int(time.time()), 0, len(p), len(p)) + p
    except TimeoutError:
        pass
    open(out, "wb").write(b)
for port, d in sent:
    print(port, d.hex())
print("tcpdump" if tcpdump else "the kernel's packet socket")
