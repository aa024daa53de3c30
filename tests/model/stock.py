"""What two cameras publish by stock LCM where a capture of it is made: of each message which camera, its channel and its payload. `python3 -m model.stock` publishes it
by Debian's liblcm1, through the network of the namespace that it runs in; the calls are those of lcm.h."""
import ctypes
import random
import time

from .count import pits_message


def published():
    """The same each time: a word of the mast, lists of pits, a tile of more than one LCM datagram, and lengths around that of an Ethernet packet."""
    r = random.Random(38)
    lists = [pits_message(80 + i, [(100 * i + k, r.random() < 0.6) for k in range(12 + i)], 1 + i % 2) for i in range(3)]
    return [(0, b"MAST", b"wind 9"), (1, b"PITS", lists[0]), (0, b"TILE", r.randbytes(66_000)), (1, "CAM\u00c9RA".encode(), r.randbytes(1473)), (0, b"PITS", lists[1]), (1, b"PITS", lists[2]), (0, b"MAST", b"")]


def main():
    lcm = ctypes.CDLL("liblcm.so.1")
    lcm.lcm_create.restype = ctypes.c_void_p
    cameras = [lcm.lcm_create(b"udpm://239.255.76.67:7667?ttl=0") for _ in range(2)]
    assert all(cameras), "lcm_create has failed"
    for camera, channel, payload in published():
        assert lcm.lcm_publish(ctypes.c_void_p(cameras[camera]), channel, payload, ctypes.c_uint(len(payload))) == 0, "lcm_publish has failed"
        time.sleep(0.05)


if __name__ == "__main__":
    main()
