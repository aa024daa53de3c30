"""Holds `qm pits LOG..` in all its forms to the model in tests/model/pits.py: seasons of random logs of both editions and both versions of the table, with null
marks, marks without a place, losses, copies and strangers, cut anywhere and damaged, with and without --from; the pits are those that `qm count` counts; names of
logs with any bytes; both sides of what qm lends; each way of calling it wrongly; what GDAL reads of the map; and that a hostile season costs no more than its length."""
import os
import random
import re
import shutil
import subprocess
import tempfile
from decimal import Decimal

from model import count as flights, pits, season
from model.called import no_room, qm, raw
from model.count import pits_message, ticked
from model.files import put, put_logs
from model.log import as_found, entries_in, log_of
from model.receiver import cut
from model.tally import close, held, side_by_side

FORMS = ("", "--marks", "--csv", "--geojson")


def words_of(form, only):
    """The options, as words: in either order."""
    senders = [word for s in only or [] for word in ("--from", str(s))]
    return senders + [form] * bool(form) if sum(only or []) % 2 else [form] * bool(form) + senders


def told(said, paths, logs):
    """Standard error names each log that is not whole, by its refusal and the entry."""
    good = True
    for i, entries, refusal in season.broken(logs):
        where = b"entry %d: the %d before it are counted" % (entries + 1, entries)
        good = good and b"qm pits: %s: refused %d, " % (paths[i], refusal) in said and (where in said or entries == 0 and b"of its head: nothing of it is counted" in said)
    return good


def tried(paths, logs, form, only=None):
    """One call, beside the model."""
    status, got, said = raw("pits", *words_of(form, only), *paths)
    found = pits.season_of(logs, paths, only)
    expected = pits.printed(found, form)
    what = f"qm pits {words_of(form, only)}, {len(logs)} logs, status {status}, {said!r}"
    if isinstance(found, int):
        held(re.fullmatch(rb"(?s).*qm pits: .*: refused %d at entry \d+: a season has room for 65536 tiles and 65536 pits\n.*" % found, said), "what is full, on standard error", str(said))
    else:
        held(told(said, paths, logs), f"{what}: on standard error", str(said))
    if form == "--geojson" and not isinstance(found, int):
        try:
            # dictionaries are alike in any order; the text has one
            got = pits.features_in(got)
            held([list(f["properties"]) for f in got["features"]] == [list(pits.COLUMNS)] * len(got["features"]), f"{what}: the properties' order")
        except ValueError as why:
            held(False, f"{what}: no JSON: {why}")
        held((got, status) == (expected, pits.status(logs, found)), what, str(got), str(expected))
        return found
    held((got, status) == (expected, pits.status(logs, found)), what, str(got), str(expected))
    return found


def counted(paths, logs, found):
    """The pits are those of qm count: of each tile how many, and how many are sure."""
    lines = qm("count", *map(os.fsdecode, paths))[1].split("\n")[:-1]
    tiles = {int(w[1]): (int(w[3]), int(w[5])) for w in map(str.split, lines) if w[0] == "tile"}
    rows = [dict(zip(*[iter(line.split(b" log ")[0].split())] * 2)) for line in raw("pits", *paths)[1].split(b"\n")[:-1]]
    got = {}
    for row in rows:
        pits_, sure = got.get(int(row[b"tile"]), (0, 0))
        got[int(row[b"tile"])] = pits_ + 1, sure + int(row[b"sure"])
    held(got == {t: n for t, n in tiles.items() if n != (0, 0)} and not isinstance(found, int), "as many pits as qm count", str(got), str(tiles))


# ---- random seasons

def flight(r):
    """A flight of a small world whose marks lie anywhere, of either edition; sometimes cut, sometimes damaged."""
    entries = entries_in(flights.world(r.randrange(10**6), pits.random_list))[0]
    entries = entries[:r.choice([len(entries), r.randrange(len(entries) + 1)])]
    return as_found(r, entries)


def random_season(folder, seed):
    r = random.Random(seed)
    logs = [flight(r) for _ in range(r.choice([1, 1, 2, 3]))]
    paths = put_logs(folder, logs)
    for form in FORMS:
        found = tried(paths, logs, form, r.choice([None, None, [7], [8, 2**64 - 1], [3], [7, 7]]))
    if seed % 4 == 0:
        counted(paths, logs, pits.season_of(logs, paths))
        # in another order the pits are the same, though another mark may be the last
        other = raw("pits", "--csv", *paths[::-1])[1].split(b"\n")
        held([line.split(b",")[:4] for line in other] == [line.split(b",")[:4] for line in raw("pits", "--csv", *paths)[1].split(b"\n")], f"season {seed} in another order", str(other))
    return found


def cuts(folder):
    """The second flight of the sample, cut at any place."""
    whole = season.SEASON[1]
    def one(i, at):
        path = put_logs(folder, [whole[:at]], [b"cut-%d.log" % i])
        tried(path, [whole[:at]], FORMS[i % len(FORMS)])
    side_by_side(one, [0, 1, 2, 3, 4, 5, len(whole) - 1] + random.Random(34).sample(range(6, len(whole)), 15))


def strays(folder):
    """Repeats that are no copies are told as the count tells them: their pits are missing here too."""
    paths = put_logs(folder, season.SEASON)
    said = raw("pits", *paths)[2].decode()
    expected = qm("count", *map(os.fsdecode, paths))[2].replace("qm count: ", "qm pits: ")
    held(said == expected and "repeats that are no copies" in said, "strays, on standard error", said, expected)


# ---- names

NAMES = [b"plain.log", b"two words.log", b"a,b.log", b'a"b"".log', b"line\nend.log", b"return\r.log", b"back\\slash.log", b"tab\tbell\a del\x7f.log", "caf\u00e9 \u2603 \U0001f4a7.log".encode(),
         b"latin \xe9.log", b"\xc3\xa9\xc3.log", b"\xe2\x82.log", b"\xf0\x9f\x92\xa7\x9f", b"\xed\xa0\x80 \xc0\x80 \xf5\x80\x80\x80 \xf4\x90\x80\x80 \xe0\x9f\xbf \xf0\x8f\xbf\xbf", b" ", b"'; log x", b"log 7"]


def names(folder):
    """Every form of a season under such names, each of its flights over a tile of its own."""
    logs = [flight_of([pits_message(i, [(1, 1), (2, 0), (3, 0)], 1 + i % 2)]) for i in range(len(NAMES))]
    paths = put_logs(folder, logs, NAMES)
    side_by_side(lambda i, form: tried(paths, logs, form), FORMS)


# ---- what is full, and what is long

def flight_of(payloads, sender=7):
    return log_of(ticked([(sender, d) for i, p in enumerate(payloads) for d in cut(i, b"TILE", p, 65507)]))


def full():
    """Both sides of what qm lends."""
    tiles = flight_of([pits_message(t, []) for t in range(season.TILES)])
    marks = flight_of([pits_message(9, [(i, i % 3 == 0) for i in range(at, at + 4096)], place=lambda pit: False) for at in range(0, season.PITS, 4096)])
    tile, pit, known = flight_of([pits_message(2**32 - 1, [])]), flight_of([pits_message(9, [(10**6, 1)])]), flight_of([pits_message(9, [(5, 1)], 2)])
    return [([tiles], ""), ([tiles, tile], "--geojson"), ([marks, known], "--csv"), ([marks, known], "--geojson"), ([marks, pit], ""), ([marks, pit], "--marks")]


def hostile(n):
    """So many lists, each of its own tile, with one pit, whose numbers are alike in their low bits; then the first tile's marks again and again."""
    lists = [pits_message(i << 16, [(i << 16, 1)]) for i in range(n)]
    return flight_of(lists + [pits_message(0, [(j << 16, 0) for j in range(i % 50)]) for i in range(n // 4)])


def measured(folder):
    """Four times as much takes no more than some six times as long."""
    def seconds(n, form):
        path = put_logs(folder, [hostile(n)], [b"hostile.log"])
        before = os.times()
        status, got, _ = raw("pits", *[form] * bool(form), *path)
        held(status == 0 and len(got) > 0, f"{n} hostile lists", str(got))
        return os.times().children_user - before.children_user

    for form in ("", "--marks"):
        idle, short, long = seconds(4, form), seconds(2500, form), seconds(10000, form)
        held(long - idle < 8 * (short - idle) + 0.5, f"{form}: 10,000 hostile lists took {long:.2f} s, 2,500 {short:.2f} s, four {idle:.2f} s")


# ---- how it is called

def calls(folder):
    good, other, broken = map(os.fsdecode, put_logs(folder, [season.SEASON[1], season.SEASON[0], season.SEASON[0][:-1]]))
    wrong = [((), "LOG: no log"), (("--marks",), "LOG: no log"), (("--other", good), "--other: there is no such option"), (("-c", good), "-c: "), ((good, "--csv"), "--csv: options stand before"),
             (("--from",), "--from: the sender is missing"), (("--whole", good), "--whole: "), (("--csv", "--geojson", good), "--geojson: only one of"), (("--geojson", "--from", "7", "--marks", good), "--marks: only one of")]
    wrong += [(("--from", word, good), f"{word}: --from takes") for word in ("7x", "18446744073709551616", "-1", "", good)]
    for words, says in wrong:
        got = qm("pits", *words)
        held(got[0] == 2 and got[1] == "" and got[2].startswith(f"qm pits: {says}") and "\nusage: qm pits [--marks | --csv | --geojson] [--from SENDER].. LOG..\n" in got[2], f"qm pits {words}", str(got), says)
    for form in FORMS:
        words = [form] * bool(form)
        # a file that is not there: nothing is printed, though another has something to say
        for path, why in [(os.path.join(folder, "none.log"), "No such file or directory"), (folder, "Is a directory"), ("/dev/stdin", "not a file on disk")]:
            got = qm("pits", *words, good, path, other)
            held(got[0] == 1 and got[1] == "" and got[2].startswith(f"qm pits: {path}: {why}"), f"qm pits {words} {path}", str(got))
        no_room("pits", *words, good, broken)
    held(qm("pits", "--csv", "--csv", good)[0] == 0, "a form twice")


# ---- a map program

def read_by_gdal(folder):
    """What ogrinfo reads of the sample's map, of a season of edges and of one without a pit, where it is installed."""
    if not shutil.which("ogrinfo"):
        print("ogrinfo is not installed (Debian's gdal-bin): what GDAL reads of the map is not tested")
        return
    edges = log_of(ticked([(7, d) for i in range(40) for d in cut(i, b"TILE", pits.random_list(random.Random(i)), 65507)]))
    for i, logs in enumerate((season.SEASON, [edges], [log_of([])])):
        paths = put_logs(folder, logs)
        place = os.path.join(folder, f"map-{i}.geojson")
        put(place, raw("pits", "--geojson", *paths)[1])
        done = subprocess.run(["ogrinfo", "-al", "-q", place], capture_output=True, text=True)
        read = [dict(re.findall(r"^  (\w+) \(\w+\) = (.*)$", one, re.M)) | {"at": [Decimal(n) for at in re.findall(r"POINT.*\((.*)\)", one) for n in at.split()]} for one in done.stdout.split("OGRFeature(")[1:]]
        held(done.returncode == 0 and done.stderr == "", "ogrinfo", done.stderr)
        expected = [{name: os.fsdecode(pits.value_of(row[name])) if name in row else "(null)" for name in pits.COLUMNS} |
                    {"at": [Decimal(pits.degrees(row["lon"])), Decimal(pits.degrees(row["lat"])), row["height"]] if "lat" in row else []} for row in pits.season_of(logs, paths).rows()]
        held(read == expected, f"what ogrinfo reads of map {i}", str(read[:2]), str(expected[:2]))


with tempfile.TemporaryDirectory() as top:
    def folder(name):
        os.mkdir(os.path.join(top, name))
        return os.path.join(top, name)

    side_by_side(lambda i, seed: random_season(folder(f"season-{seed}"), seed), range(24))
    side_by_side(lambda i, form: tried(put_logs(folder(f"sample-{i}"), season.SEASON), season.SEASON, form), FORMS)
    cuts(top)
    strays(top)
    names(folder("names"))
    side_by_side(lambda i, one: tried(put_logs(folder(f"full-{i}"), one[0]), one[0], one[1]), full())
    calls(top)
    read_by_gdal(top)
    measured(top)
close()
