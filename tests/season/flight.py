"""tests/season/flight [DATAGRAMS] > FLIGHT.log: a flight of 100,000 datagrams, or as many as are asked for, as a long day makes it: a camera's tiles in fragments of
1,400 bytes with late copies, its pit lists, a weather mast and a stranger. Not kept; the same number gives the same bytes.

tests/season/flight --records [DATAGRAMS] > FLIGHT.records: the same flight as qm keep takes it."""
import random
import sys

from model.count import pits_message
from model.log import entry_bytes, log_of, record
from model.receiver import cut, small


def entries(r):
    """Without end: of each tile its picture, in fragments that come in any order, and its pits."""
    number = tile = 0
    while True:
        picture = [(7, d) for d in cut(number % 2**32, b"TILE", r.randbytes(r.randrange(20_000, 60_000)), 1400)]
        r.shuffle(picture)
        marks = [(k, r.random() < 0.7) for k in range(r.randrange(20))]
        yield from picture
        yield from [(7, d) for d in cut((number + 1) % 2**32, b"PITS", pits_message(tile % 3000, marks), 1400)]
        yield from r.sample(picture, 2)
        yield 99, small(tile, b"MAST", b"wind %d" % tile)
        if tile % 10 == 0:
            yield 31337, b"is anybody there?"
        number, tile = number + 2, tile + 1


def main(words):
    head, one = log_of([]), entry_bytes
    if words[:1] == ["--records"]:
        head, one, words = b"", record, words[1:]
    if len(words) > 1 or not all(word.isdecimal() for word in words):
        sys.exit("usage: tests/season/flight [--records] [DATAGRAMS] > FLIGHT.log")
    many = int(words[0]) if words else 100_000
    sys.stdout.buffer.write(head)
    for i, (sender, datagram) in zip(range(many), entries(random.Random(many))):
        sys.stdout.buffer.write(one(sender, 1_700_000_000_000 + 3 * i, datagram))


main(sys.argv[1:])
