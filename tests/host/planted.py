"""Plants each fault below in a copy of tests/reference, one at a time, and runs the host test over it: a wrong export would differ
from a right reference in the same calls. Prints a row for each: how many calls differ. A fault that none finds ends it with status 1.
Not a part of the gate, since it only shows that the test can fail; tests/host/README.md has its table."""
import os
import re
import shutil
import subprocess
import sys

from model.files import ROOT

FAULTS = [
    ("byte 127 in a name", "datagram.c", "point < 32 || point == 127) return 0;", "point < 32) return 0;"),
    ("a surrogate in a name", "datagram.c", "if (point >= 0xd800 && point <= 0xdfff) return 0;", ""),
    ("a name of 64 bytes", "reference.h", "MAX_NAME = 63", "MAX_NAME = 64"),
    ("a datagram of 65,535 bytes refused", "reference.h", "MAX_DATAGRAM = 65535", "MAX_DATAGRAM = 65534"),
    ("the payload limit one lower", "reference.h", "MAX_PAYLOAD = ", "MAX_PAYLOAD = -1 + "),
    ("the fragment limit one lower", "reference.h", "MAX_FRAGMENTS = ", "MAX_FRAGMENTS = -1 + "),
    ("another magic refused by 3", "datagram.c", "    return 2;\n}", "    return 3;\n}"),
    ("8 bytes too short", "datagram.c", "if (length < 8) return 1;", "if (length < 9) return 1;"),
    ("a fragment's head of 19 bytes", "datagram.c", "length < 20) return 1;", "length < 19) return 1;"),
    ("the last fragment's end not asked", "datagram.c", "if (k == n - 1 && offset + data != size) return 7;", ""),
    ("the first fragment's offset not asked", "datagram.c", "if (k == 0 && offset != 0) return 7;", ""),
    ("an empty fragment accepted", "datagram.c", "if (k > 0 && data < 1) return 7;", ""),
    ("6 before 5", "datagram.c", "if (n == 0 || n > MAX_FRAGMENTS || k >= n) return 5;\n    if (size > max_size) return 6;",
     "if (size > max_size) return 6;\n    if (n == 0 || n > MAX_FRAGMENTS || k >= n) return 5;"),
    ("M 95 taken", "reference.h", "MIN_M = 96", "MIN_M = 95"),
    ("M 65,507 refused", "reference.h", "MAX_M = 65507", "MAX_M = 65506"),
    ("4 before 10", "datagram.c", "if (m < MIN_M || m > MAX_M) return 10;\n    if (!ref_good_name(name, c)) return 4;",
     "if (!ref_good_name(name, c)) return 4;\n    if (m < MIN_M || m > MAX_M) return 10;"),
    ("11 and 12 swapped", "datagram.c", "if (datagrams > MAX_FRAGMENTS) return 11;\n    if (index >= datagrams) return 12;",
     "if (index >= datagrams) return 12;\n    if (datagrams > MAX_FRAGMENTS) return 11;"),
    ("a small message one byte shorter", "datagram.c", "int small = 8 + c + 1 + p <= m;", "int small = 8 + c + 1 + p < m;"),
    ("the first fragment one byte shorter", "datagram.c", "m - 21 - c : m - 20", "m - 22 - c : m - 20"),
    ("the checksum of all but the last byte", "datagram.c", "for (u64 i = 0; i < length; i++) sum =", "for (u64 i = 0; i + 1 < length; i++) sum ="),
    ("a log's number not in its shortest form", "log.c", "for (; v > 127; v >>= 7)", "for (; v > 126; v >>= 7)"),
    ("13 before 42", "log.c", "if (length > MAX_DATAGRAM) return 42;", "if (length > MAX_DATAGRAM) return at > room || room - at < length ? 13 : 42;"),
]


def differing(number, file, old, new):
    tree = os.path.join("target", "tests", "planted", str(number))
    where = os.path.join(tree, "tests", "reference")
    shutil.rmtree(tree, ignore_errors=True)
    shutil.copytree("tests/reference", where)
    os.mkdir(os.path.join(tree, "tools"))
    shutil.copy("tools/system.h", os.path.join(tree, "tools"))
    path = os.path.join(where, file)
    with open(path, encoding="utf8") as f:
        text = f.read()
    if text.count(old) != 1:
        sys.exit(f"planted: {file} does not have {old!r} once")
    with open(path, "w", encoding="utf8") as f:
        f.write(text.replace(old, new))
    ran = subprocess.run(["tests/host/run"], env=dict(os.environ, REFERENCE=where), stdout=subprocess.PIPE, stderr=subprocess.DEVNULL, text=True)
    closing = re.fullmatch(r"(\d+) passed, (\d+) failed", (ran.stdout.strip().split("\n") or [""])[-1])
    return int(closing.group(2)) if closing else None


def main():
    os.chdir(ROOT)
    missed = 0
    print("| planted | calls that differ |\n|---|---|")
    for number, (what, file, old, new) in enumerate(FAULTS):
        found = differing(number, file, old, new)
        print(f"| {what} | {'the test did not run' if found is None else format(found, ',')} |", flush=True)
        missed += not found
    sys.exit(1 if missed else 0)


main()
