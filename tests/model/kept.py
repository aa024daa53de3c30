"""The index that is kept beside a log, in plain Python: what `qm index`, `qm index --check` and `qm find` say of a log and of an index file. It stands on the index of
document 02, L11, without its 4,096, and on the index file beside it."""
from . import index_file as files
from .index import accepted
from .log import Refused, entries_in, entry_bytes, head_in


def ends(b):
    """The places at which the head, and then each whole entry, ends; none where the head is refused."""
    try:
        out = [head_in(b)[0]]
    except Refused:
        return []
    for e in entries_in(b)[0]:
        out.append(out[-1] + len(entry_bytes(*e)))
    return out


def whole(b):
    """How many bytes of a log are its head and whole entries."""
    return (ends(b) or [0])[-1]


def rows_of(b):
    """The rows of the whole entries, in the log's order."""
    return accepted(b[:whole(b)]) if whole(b) else []


# ---- the file

def file_of(rows, covered):
    return files.file_of(covered, rows)


def index_file(b):
    """The file that `qm index` leaves, of a log with no file before or with one of its own."""
    return file_of(sorted(rows_of(b)), whole(b))


def read_file(file):
    """Covered bytes and rows; None where it has not the form."""
    try:
        covered, many = files.head_of(file)
    except Refused:
        return None
    return covered, [files.row(file, i) for i in range(many)]


def leads(b, row):
    """Whether the entry at a row's place has its key."""
    return files.key_at(b, row[2]) == row[:2]


def doubt(file, b, looked=None):
    """The refusal of an index file, 46 or 47, or None; the rows that are looked at are the first, the last and one more."""
    told = read_file(file)
    if told is None:
        return 46
    covered, rows = told
    return None if covered <= len(b) and all(leads(b, r) for r in rows[:1] + rows[-1:] + ([looked] if looked else [])) else 47


def indexed(b, file=None):
    """What `qm index` prints, its status, the file that it leaves, and what it says of the one before."""
    covered, rows = (file and read_file(file)) or (0, [])
    doubted = None if file is None else 46 if rows != sorted(rows) else doubt(file, b)
    if file is not None and doubted is None:
        file = file_of(sorted(rows + [r for r in rows_of(b) if r[2] >= covered]), max(covered, whole(b)))
    else:
        file = index_file(b)
    return f"indexed {len(read_file(file)[1])}\n", 0 if entries_in(b)[1] is None else 3, file, doubted


def checked(b, file):
    """What `qm index --check` prints, and its status."""
    told = read_file(file)
    same = told is not None and told[0] in [0] + ends(b) and file == file_of(sorted(r for r in rows_of(b) if r[2] < told[0]), told[0])
    return f"same {len(told[1])}\n" if same else "other\n", 3 if not same or entries_in(b)[1] is not None else 0


def find(b, sender, sequence, file=None):
    """What `qm find` prints, its status, and what it says of the file."""
    status = 0 if entries_in(b)[1] is None else 3
    first = [r for r in sorted(rows_of(b)) if r[:2] == (sender, sequence)]
    doubted = None
    if file is not None:
        covered, rows = read_file(file) or (0, [])
        told = [r for r in rows if r[:2] == (sender, sequence)][:1]
        doubted = doubt(file, b, told[0] if told else None)
        if doubted is None:
            first = told or [r for r in first if r[2] >= covered]
    return f"place {first[0][2]}\n" if first else "none\n", status, doubted


def printed(b):
    """What `qm index --print` prints, and its status."""
    rows = sorted(rows_of(b))
    return "".join(f"sender {s} sequence {q} place {p}\n" for s, q, p in rows) + f"end {len(rows)}\n", 0 if entries_in(b)[1] is None else 3


assert file_of([(7, 12, 1)], 300).hex() == "01" "000000000000012c" "0000000000000001" "0000000000000007" "0000000c" "0000000000000001"
assert read_file(file_of([(7, 12, 1)], 300)) == (300, [(7, 12, 1)]) and read_file(b"\1" + bytes(16)) == (0, [])
