"""The open reader of a log (`log_reader`), which no program of crates.txt uses: `program` lists logs through it, as the interpreter and the compiled code have it, and must
write what a reader written from the paper does (tests/model/log.py): limits, entries, datagrams, and what ended them, also when it is asked again."""
import os
import random
import shutil
import subprocess
import tempfile

from model.files import ROOT, bytes_of, put
from model.log import LIMIT, entries_in, first_log_of, limits_in, log_of, seven
from model.tally import close_with

# what the program stands on, as crates.txt has it
USED = ["wire", "refusals", "varint", "names", "forms", "datagram", "flight_log", "log_reader"]


def logs():
    """Both editions, every refusal of a log at its places, an empty datagram, the widest numbers; and good logs with a byte changed, removed or put in."""
    some = [(7, 9, b"abc"), (300, 2**64 - 1, b""), (2**64 - 1, 0, bytes(range(140)))]
    out = [log_of(some), first_log_of(some), log_of(some, 0), log_of(some, 128), first_log_of([]), log_of([]), b"", b"\x00", b"\x03abc", b"\x02", b"\x02\x80\x00"]
    out += [b"\x02" + seven(LIMIT + 1), log_of(some)[:-1], first_log_of(some)[:5], first_log_of(some) + b"\x80\x00", first_log_of(some) + b"\x05\x05" + seven(65536)]
    # a tenth byte above 1, at each of the three numbers, and one of 1, which is good
    out += [first_log_of(some) + b"\x05" * n + b"\xff" * 9 + last for n in range(3) for last in (b"\x02", b"\x7f", b"\x80", b"\x01")]
    r = random.Random(35)
    for _ in range(60):
        b = bytearray(r.choice([log_of, first_log_of])([(r.randrange(300), r.randrange(300), bytes(r.randrange(9))) for _ in range(r.randrange(4))]))
        b[r.randrange(len(b) + 1):r.randrange(len(b) + 1)] = bytes(r.choice([0, 1, 128, 255]) for _ in range(r.randrange(3)))
        out.append(bytes(b))
    return out


def lines(log):
    """What the paper's reader makes of it."""
    entries, number = entries_in(log)
    payload, fragments = limits_in(log)
    end = "end" if number is None else f"refused {number}"
    return [f"limits {payload} {fragments}"] + [f"sender {s} tick {t} datagram {d.hex()}" for s, t, d in entries] + [end, end]


def main():
    all_logs = logs()
    want = "".join(line + "\n" for log in all_logs for line in lines(log))
    with tempfile.TemporaryDirectory() as tmp:
        mine = os.path.join(tmp, "crates", "through_reader")
        os.makedirs(os.path.join(mine, "src"))
        for name in USED:
            shutil.copytree(os.path.join(ROOT, "crates", name), os.path.join(tmp, "crates", name), ignore=shutil.ignore_patterns("out"))
        with open(os.path.join(ROOT, "crates.txt"), encoding="utf-8") as f:
            edges = [line for line in f if line.split(":")[0] in USED]
        with open(os.path.join(tmp, "crates.txt"), "w", encoding="utf-8") as f:
            f.writelines(edges + ["through_reader: wire refusals flight_log log_reader\n"])
        put(os.path.join(mine, "src", "main.rt"), bytes_of("tests", "reader", "program"))
        stdin = b"".join(len(log).to_bytes(4, "big") + log for log in all_logs)
        done = subprocess.run(["rt", "try"], cwd=mine, input=stdin, stdout=subprocess.PIPE, stderr=subprocess.PIPE)
    good = done.returncode == 0 and done.stdout.decode() == want
    if not good:
        print(done.stdout.decode()[-3000:] + done.stderr.decode()[-3000:])
    close_with(*((len(all_logs), 0) if good else (0, len(all_logs))))


if __name__ == "__main__":
    main()
