"""tools/flight-page: samples/flight.html and samples/flight.svg are what it makes of samples/survey.log, the log that qm keep makes of samples/survey.bin, and
samples/season.html and samples/season.svg of the season. Pages are well-formed, need no other file, are the same bytes each time, and their numbers are those that qm
prints; each pit is on the map where its last mark lies, or is listed; pages stay small, whatever a log has; a clock that steps squeezes nothing.

tests/page/run           compares
tests/page/run --write   writes the six samples"""
import itertools
import math
import os
import random
import re
import shlex
import shutil
import signal
import subprocess
import sys
import tempfile
import time
import xml.etree.ElementTree as tree

from model.called import qm
from model.count import list_of, pits_message
from model.files import ROOT
from model.log import entries_in, entry_bytes, limits_in, log_of, record
from model.receiver import MAX_PAYLOAD, Receiver, cut, fragment, read, small
from model.season import on_ground
from model.tally import close, held

PAGE = os.path.join(ROOT, "tools", "flight-page")


def survey():
    """Two cameras over sixteen tiles, a weather mast and a stranger. Fragments are lost and come late; one camera restarts; one sends a tile with a broken name."""
    r, out, tick = random.Random(1184), [], 1_700_000_000_000
    late = []
    for i in range(48):
        tick += r.randrange(300, 1500)
        camera = (7, 8)[i % 2]
        # of camera 7 three messages are lost after every eighth; camera 8 restarts after its fifteenth
        n = i // 2
        sequence = (500 + n + n // 8 * 3) if camera == 7 else (5000 + n if n < 15 else n - 15)
        tile = 60 + i // 3
        marks = [(100 * tile + k, r.random() < 0.6) for k in range(r.randrange(6, 12 + 5 * (tile % 7)))]
        datagrams = [(camera, d) for d in cut(sequence, b"TILE" if camera == 7 else "CAM\u00c9RA".encode(), pits_message(tile, marks, 1 + i % 2, place=lambda pit: on_ground(camera, pit, *divmod(tile - 60, 4))), 150)]
        r.shuffle(datagrams)
        if i in (10, 23, 37):
            datagrams = datagrams[1:]
        for sender, d in datagrams + [r.choice(datagrams)] * (i % 5 == 2):
            tick += r.randrange(1, 60)
            out.append((sender, tick, d))
        # after the restart no copy of an older tile comes from that camera
        late = [(s, d) for s, d in late if s == 7 or i != 31] + [datagrams[0]]
        if i % 7 == 6:
            tick += r.randrange(20, 90)
            out += [(s, tick + k, d) for k, (s, d) in enumerate(late[-12::3])]
        if i % 4 == 0:
            out.append((99, tick + 9, small(40 + i // 4 + (i > 25) * 2, b"MAST", b"wind %d" % i)))
        if i % 16 == 5:
            out.append((12345678901234567890, tick + 11, b"hello, is anybody there?"))
        if i % 16 == 9:
            out.append((8, tick + 12, cut(9000 + i, b"TILE", bytes(300), 200)[0].replace(b"TILE", b"TI\x01E")))
    return out


SURVEY = log_of(survey())
SEASON = [f"samples/season-{i}.log" for i in (1, 2, 3)]
SVG = "{http://www.w3.org/2000/svg}"
ROWS = 100  # of a table


def page(*words):
    done = subprocess.run([PAGE, *words], stdout=subprocess.PIPE, stderr=subprocess.PIPE, cwd=ROOT)
    return done.returncode, done.stdout, done.stderr.decode()


def words_of(made):
    """The page as a tree, and all its text."""
    top = tree.fromstring(made)
    return top, " ".join("".join(top.itertext()).split())


def rows_after(top, heading):
    """The rows of the table after a heading, their cells as text."""
    body = list(top.find("body"))
    at = next((i for i, e in enumerate(body) if (e.text or "").split(":")[0] == heading), len(body))
    for e in body[at + 1:]:
        if e.tag in ("h2", "h3") and e.tag <= body[at].tag:
            return []
        if e.get("class") == "wide":
            return [[(c.text or "").replace(",", "") for c in row] for row in e.find("table")][1:]
    return []


def whole(n):
    return int(n.replace(",", ""))


# ---- what qm prints, once more

def words_in(*command):
    return [line.split() for line in qm(*command)[1].split("\n")[:-1]]


def marks_in(paths):
    """The marks of `qm pits --marks`, each as a dictionary of text."""
    marks = []
    for line in qm("pits", "--marks", *paths)[1].split("\n")[:-1]:
        if not line.startswith("refused"):
            words, log = line.split(" log ", 1)
            marks.append(dict(zip(*[iter(words.split())] * 2)) | {"log": log})
    return marks


def great_circle(a, b):
    """Metres between two marks, on a sphere."""
    (p, q), (r, s) = ((math.radians(int(m["lat"]) / 1e7), math.radians(int(m["lon"]) / 1e7)) for m in (a, b))
    return 2 * 6371008.8 * math.asin(math.sqrt(math.sin((r - p) / 2) ** 2 + math.cos(p) * math.cos(r) * math.sin((s - q) / 2) ** 2))


# ---- the parts of a page

def sums(path, top, text, counted):
    tiles = [w for w in counted if w[0] == "tile"]
    if counted[0][0] != "entries":
        return held(f"refused by {counted[0][1]}: " in text, f"{path}: the refused count", text)
    totals = {w[0]: int(w[1]) for w in counted if len(w) == 2}
    shown = [whole(e.find("b").text) for e in top.iter("div") if e.get("class") is None]
    expected = [sum(int(w[3]) for w in tiles), sum(int(w[5]) for w in tiles), len(tiles), totals["lists"], totals["delivered"], totals["entries"]]
    held(shown == expected, f"{path}: the sums", str(shown), str(expected))
    bars = [["".join(c.itertext()) for c in e] for e in top.iter("div") if e.get("class") == "row"]
    found = [(b[0].split()[1], *re.fullmatch(r"([\d,]+), ([\d,]+) sure", b[2]).groups()) for b in bars]
    held([(t, whole(p), whole(s)) for t, p, s in found] == [(w[1], int(w[3]), int(w[5])) for w in tiles][:ROWS], f"{path}: the tiles", str(found))
    held(len(tiles) <= ROWS or f"And {len(tiles) - ROWS:,} tile" in text, f"{path}: how many tiles more")
    refused = {int(w[1]): int(w[2]) for w in counted if w[0] == "refused"}
    held({int(row[0]): int(row[1]) for row in rows_after(top, "Refusals")} == refused, f"{path}: the refusals")
    return None


def senders(path, top, counted, marks):
    """Who brought the pits."""
    lists = {w[1]: int(w[3]) for w in counted if w[0] == "sender"}
    by, sure = {}, {(m["tile"], m["pit"]) for m in marks if m["sure"] == "1"}
    for m in marks:
        by.setdefault((m["tile"], m["pit"]), set()).add(m["sender"])
    expected = [[s, n, sum(s in some for some in by.values()), sum(s in some and pit in sure for pit, some in by.items()), sum(some == {s} for some in by.values())] for s, n in lists.items()]
    found = [[row[0], *map(int, row[1:])] for row in rows_after(top, "Who brought them")]
    held(found == expected[:ROWS], f"{path}: who brought them", str(found), str(expected))


def drawn_on(path, chart):
    """The pits of a map: of each whether it is sure and how many marks it has, as its title says, and its place in hundredths."""
    drawn = {}
    for e in chart:
        if e.get("class") not in ("sure", "unsure"):
            continue
        tile, pit, how, many = re.match(r"tile (\d+), pit (\d+): (sure|not sure), ([\d,]+) marks?, ", e.find(SVG + "title").text).groups()
        # told apart by shape too
        held((e.get("class") == "sure") == (how == "sure") == (e.tag == SVG + "circle"), f"{path}: the shape of pit {pit}")
        drawn[tile, pit] = "1" if how == "sure" else "0", str(whole(many)), [float(e.get(n).rstrip("%")) for n in (("cx", "cy") if e.tag == SVG + "circle" else ("x", "y"))]
    return drawn


def on_map(path, top, text, paths, marks):
    """Each pit is on a map, where its last mark lies, or listed; as sure as `qm pits` says."""
    pits = {(w[1], w[3]): dict(zip(w[::2], w[1::2])) for w in words_in("pits", *paths) if w[0] == "tile"}
    drawn = {}
    for chart in [e for e in top.iter(SVG + "svg") if e.get("class") == "map"]:
        shown = drawn_on(path, chart)
        scaled(path, chart, [(pits[key], place) for key, (_, _, place) in shown.items()])
        drawn |= shown
    held(all(drawn[key][:2] == (pits[key]["sure"], pits[key]["marks"]) for key in drawn), f"{path}: what the map says of pits")
    placed, without = {key for key in pits if "lat" in pits[key]}, [key for key in pits if "lat" not in pits[key]]
    far, listed = {(row[0], row[1]) for row in rows_after(top, "Far from there")}, [(row[0], int(row[1])) for row in rows_after(top, "Without a place")]
    expected = [(t, sum(key[0] == t for key in without)) for t in dict.fromkeys(key[0] for key in without)]
    held(listed == expected[:ROWS], f"{path}: pits without a place", str(listed), str(expected))
    dots = sum(e.get("d").count("M") for e in top.iter(SVG + "path") if "dots" in (e.get("class") or ""))
    said = re.search(r"Far from there: ([\d,]+) pit", text)
    mapped = sum(map(whole, re.findall(r"([\d,]+) pits?\. The map is", text)))
    held(mapped + (whole(said.group(1)) if said else 0) == len(placed), f"{path}: how many pits have a place", str((mapped, said)), str(len(placed)))
    # of many pits that lie on one another there is one point
    places = {(pits[key]["lat"], pits[key]["lon"]) for key in placed - far}
    held(len(drawn) == mapped if not dots else 0.99 * len(places) <= dots + len(drawn) <= mapped, f"{path}: how many pits are drawn", str((dots, len(drawn), mapped)), str(len(places)))
    held(dots or len(far) == ROWS or set(drawn) | far == placed and not set(drawn) & far, f"{path}: each pit that has a place", str(sorted(placed - set(drawn) - far)[:3]))
    doubts(path, top, marks)


def scaled(path, chart, pits):
    """North is up, east is right, and the scale is true: of some pairs of pits."""
    wide, high = map(float, re.search(r"aspect-ratio: (\d+) / (\d+)", chart.get("style")).groups())
    bar = next(e for e in chart if e.get("class") == "scale")
    length = next(e.text for e in chart if e.tag == SVG + "text" and e.get("dy") == "-5")
    said = whole(length.split()[0]) * (1000 if length.endswith("km") else 1)
    drawn = (float(bar.get("x2").rstrip("%")) - float(bar.get("x1").rstrip("%"))) / 100
    for (a, (ax, ay)), (b, (bx, by)) in itertools.islice(itertools.combinations(pits, 2), 0, None, 97):
        held((int(a["lat"]) - int(b["lat"])) * (ay - by) <= 0 and (int(a["lon"]) - int(b["lon"])) * (ax - bx) >= 0, f"{path}: north is up", str((a, b)))
        # by the scale bar
        metres = math.hypot((ax - bx) / 100, (ay - by) / 100 * high / wide) * said / drawn
        held(abs(metres - great_circle(a, b)) <= 0.02 * metres + 0.002 * wide, f"{path}: the scale", f"{metres:.1f} m", f"{great_circle(a, b):.1f} m")


def doubts(path, top, marks):
    """Pits whose marks lie over 50 m apart are listed with their marks."""
    placed = {}
    for m in marks:
        if "lat" in m:
            placed.setdefault((m["tile"], m["pit"]), []).append(m)
    far = {key for key, some in placed.items() if len(some) < 200 and any(great_circle(a, b) > 50 for a, b in itertools.combinations(some, 2))}
    rows, found, now = rows_after(top, "Doubtful"), {}, None
    for row in rows:
        now = (row[0], row[1]) if row[0] else now
        found.setdefault(now, []).append(row[5])
    held(set(found) == far or len(rows) == ROWS, f"{path}: doubtful pits", str(sorted(found)), str(sorted(far)))
    held(all(found[key] == [m["sender"] for m in marks if (m["tile"], m["pit"]) == key][:20] for key in list(found)[:-1]), f"{path}: the marks of doubtful pits")


def arrived(path, top, paths):
    """By flight and sender, what was answered, and what the watch found."""
    several = len(paths) > 1
    answers, watched = [], []
    for one in paths:
        name = [os.path.basename(one)] * several
        told = list(zip((w[2] for w in words_in("list", one)[:-1]), (w[1] for w in words_in("replay", one)[:-1]), (w[1:] for w in words_in("gaps", one)[:-1])))
        for s in sorted({int(s) for s, _, _ in told}):
            mine = [(a, w) for t, a, w in told if int(t) == s]
            answers.append(name + [str(s), str(len(mine))] + [str(sum(a == kind for a, _ in mine)) for kind in ("delivered", "kept", "repeat", "refused")])
            row = [sum(int(w[1]) for _, w in mine if w[0] == "forward"), sum(w[0] == "late" for _, w in mine), sum(w[0] == "restarted" for _, w in mine)]
            if any(row):
                watched.append(name + [str(s), *map(str, row)])
    held(rows_after(top, "What arrived") == answers[:ROWS], f"{path}: what arrived", str(rows_after(top, "What arrived")[:2]), str(answers[:2]))
    held(rows_after(top, "What the watch found missing") == watched[:ROWS], f"{path}: what the watch found", str(rows_after(top, "What the watch found missing")[:2]), str(watched[:2]))


def incomplete(path, top, paths):
    """Messages that never completed, by a receiver of our own: those still open at the end, and those that were given up, though their key came again."""
    expected = []
    for one in paths:
        with open(one, "rb") as f:
            log = f.read()
        receiver, parts, lost = Receiver(8 * MAX_PAYLOAD, *limits_in(log)), {}, []
        for sender, _, d in entries_in(log)[0]:
            words = receiver.receive(sender, d).split()
            if "emptied" in words:
                lost.append(parts.pop((int(words[-2]), int(words[-1]))))
            if words[0] in ("kept", "delivered"):
                r = read(d, MAX_PAYLOAD)
                held_now = parts.setdefault((sender, r["sequence"]), [sender, r["sequence"], r.get("count", 1), set()])
                held_now[3].add(r.get("number", 0))
                if words[0] == "delivered":
                    del parts[sender, r["sequence"]]
        expected += [[os.path.basename(one)] * (len(paths) > 1) + [str(s), str(q), f"{len(k)} of {n}", sorted(set(range(n)) - k)] for s, q, n, k in lost + list(parts.values())]
    found = [row[:-2] + [numbers_in(row[-2])] for row in rows_after(top, "Messages that never completed")]
    key = lambda row: list(map(str, row))  # noqa: E731
    held(sorted(found, key=key) == sorted(expected, key=key) or len(found) == ROWS < len(expected), f"{path}: never completed", str(found), str(expected))


def numbers_in(ranges):
    """Of `3 5 to 7`, the commas gone."""
    return [k for a, b in re.findall(r"(\d+)(?: to (\d+))?", ranges) for k in range(int(a), int(b or a) + 1)]


def strays(path, top, paths):
    found = rows_after(top, "Repeats that are no copies")
    expected = []
    for one in paths:
        words = [line.rsplit(" sender ", 1)[1].split() for line in qm("strays", one)[1].split("\n")[:-2]]
        for s in sorted({int(w[0]) for w in words})[:16]:
            mine = [w[2] for w in words if int(w[0]) == s]
            command = shlex.join(["qm", "count", "--forget-at", f"{s}:{mine[0]}", one])
            expected.append([os.path.basename(one)] * (len(paths) > 1) + [str(s), str(len(mine)), mine[0], command])
    held(found == expected[:ROWS], f"{path}: strays", str(found), str(expected))


def good_page(*paths):
    path = paths[0]
    status, made, said = page(*paths)
    held(status == 0 and said == "", f"{path}: status {status}", said)
    # nothing is fetched: no script, and no address but the name of a language
    held(not re.search(rb"<script|<link|<img|@import|url\(|src=|href=", made) and set(re.findall(rb"https?://[^\"']*", made)) <= {b"http://www.w3.org/2000/svg"}, f"{path}: stands alone")
    held(len(made) < 1_000_000, f"{path}: {len(made)} bytes")
    top, text = words_of(made)
    counted, marks = words_in("count", "--senders", *paths), marks_in(paths)
    sums(path, top, text, counted)
    senders(path, top, counted, marks)
    if counted[0][0] == "entries":
        on_map(path, top, text, paths, marks)
    arrived(path, top, paths)
    incomplete(path, top, paths)
    strays(path, top, paths)
    return made


def good_picture(*paths):
    status, drawn, said = page("--picture", *paths)
    top = tree.fromstring(drawn)
    held(status == 0 and said == "" and top.tag == SVG + "svg", f"{paths[0]}: the picture", said)
    tiles = [words[1] for words in words_in("count", *paths) if words[0] == "tile"]
    texts = [e.text for e in top.iter(SVG + "text")]
    more = [f"and {len(tiles) - 25:,} tile{'s' * (len(tiles) > 26)} more"] * (len(tiles) > 25)
    held([x for x in texts if x and x.startswith("tile ")] == [f"tile {t}" for t in tiles[:25]] and [x for x in texts if x and x.startswith("and ")] == more, f"{paths[0]}: the picture's tiles", str(texts))
    return drawn


# ---- pages of their own

def flight_of(payloads, sender=7, tick=lambda i: 1_700_000_000_000 + 500 * i):
    sent = [(sender, d) for i, p in enumerate(payloads) for d in cut(i, b"TILE", p, 60000)]
    return log_of([(s, tick(i), d) for i, (s, d) in enumerate(sent)])


def places():
    """Marks 49 and 51 metres apart, to the north and to the east, near the pole and on the equator; two sites and one far pit; a line of change of date; one pit alone."""
    north, out = 111195, []
    for lat in (0, 519876543, -450000000, 890000000):
        east = north * math.cos(math.radians(lat / 1e7))
        for k, metres in enumerate((49, 51)):
            pit = abs(lat) // 10**6 * 10 + k
            out.append(list_of(9, [(pit, 1, (lat, 10, 5)), (pit, 0, (lat + round(metres / north * 1e7), 10, 5)), (pit + 2, 0, (lat, 10, 5)), (pit + 2, 0, None), (pit + 2, 0, (lat, 10 + round(metres / east * 1e7), 5))]))
    two = [list_of(1 + site, [(i, i % 2, (515000000 + 5000 * (i % 7), 9000000 * site + 8000 * (i // 7), 5)) for i in range(40)]) for site in (0, 1)] + [list_of(3, [(5, 1, (-2**31, 2**31 - 1, -9))])]
    edge = [list_of(1, [(1, 1, (0, 1799999000, 5)), (2, 0, (100, -1799999000, 5)), (1, 0, (0, -1799999990, 5))])]
    return [flight_of(out), flight_of(two), flight_of(edge), flight_of([list_of(1, [(1, 1, (515000000, 0, 5))], 2)]), flight_of([list_of(1, [(1, 1, None)])])]


def many():
    """Everything more often than a page can show: tiles, pits on the map, pits without a place, doubtful ones, senders, messages that never completed."""
    r = random.Random(7)
    lists = [list_of(t, [(p, r.randrange(2), (515000000 + r.randrange(90000), r.randrange(90000), 5) if p % 3 else None) for p in range(30)] + [(5, 0, (516000000, 5, 5))]) for t in range(300)]
    sent = [(7, d) for i, p in enumerate(lists) for d in cut(i, b"TILE", p, 60000)] + [(8, fragment(i, 9, 0, 0, 3, b"x", b"TILE")) for i in range(400)]
    return log_of([(s, 5 + i, d) for i, (s, d) in enumerate(sent + [(10_000 + i, small(1, b"MAST", b"")) for i in range(3000)])])


def stepping(folder):
    """A clock that steps by a year, forward and back, once and often: bars stay apart, and the page says so."""
    year, path, begun = 31_536_000_000, os.path.join(folder, "clock.log"), 1_700_000_000_000
    clocks = [  # how many entries, how many steps are told, and how far the clock is off at each entry
        (300, 1, lambda i: year * (i >= 150)), (300, 1, lambda i: -year * (i >= 150)), (300, 1, lambda i: (5 - begun) * (i < 3)),
        # twice; on, back and on again; and on and back four times
        (300, 2, lambda i: year * ((i >= 100) + (i >= 200))), (300, 3, lambda i: year * (100 <= i < 150 or i >= 200)), (300, 8, lambda i: year * (i // 30 % 2) * (i < 240)),
        (20, 2, lambda i: year * ((i >= 7) + (i >= 12))), (80, 3, lambda i: year * (i >= 30) - year * (i >= 40) + 3 * year * (i >= 50)),
        # drawn as it goes: no step is longer than the others together
        (300, 0, lambda i: year * (i % 2))]
    for many, told, off in clocks:
        with open(path, "wb") as f:
            f.write(log_of([(7, begun + 100 * i + off(i), small(i, b"MAST", b"x")) for i in range(many)]))
        top, text = words_of(good_page(path))
        bars = {e.get("x") for e in top.iter(SVG + "rect") if e.get("class") == "delivered" and e.get("x") != "1"}
        good = ("Drawn short: at entry" in text) == (told > 0) and text.count(" the clock goes ") == min(told, 5) and (f"; and {told - 5} more such steps." in text) == (told > 5)
        held(good and len(bars) > min(60, many // 2), f"a clock that steps {told} times in {many} entries", str(len(bars)))
    with open(path, "wb") as f:
        f.write(log_of([(7, 1_700_000_000_000 + 100 * i, small(i, b"MAST", b"x")) for i in range(300)]))
    text = words_of(good_page(path))[1]
    held("Drawn short" not in text and "2023-11-14 22:13:20 UTC to 2023-11-14 22:13:49 UTC: 29.9 s" in text, "a clock that does not step", text)


def names(folder):
    """A log's name is the title, whatever is in it."""
    path = os.path.join(folder, "a camera's.log")
    shutil.copy("samples/season-2.log", path)
    held(len(rows_after(words_of(good_page(path))[0], "Repeats that are no copies")) == 1, "a command with a name in quotes")
    for name, shown in ((b"a <b>&amp; \"c\".log", 'a <b>&amp; "c".log'), ("caf\u00e9.log".encode(), "caf\u00e9.log"), (b"x\xe9\x01.log", "x\ufffd\ufffd.log")):
        path = os.path.join(os.fsencode(folder), name)
        with open(path, "wb") as f:
            f.write(SURVEY)
        status, made, said = page(path)
        top = tree.fromstring(made)
        held(status == 0 and top.find("head/title").text == shown == top.find("body/h1").text, f"a log of the name {name}", said + top.find("body/h1").text)


def is_at_work(group):
    """Whether qm is running for a page."""
    for name in filter(str.isdecimal, os.listdir("/proc")):
        try:
            with open(f"/proc/{name}/cmdline", "rb") as f:
                if b"\0sums\0" in f.read() and os.getpgid(int(name)) == group:
                    return True
        except OSError:
            pass
    return False


def failures(folder):
    none = os.path.join(folder, "none.log")
    for words, status, says in [((), 2, "no log is named\nusage: "), (("--other",), 2, "--other: there is no such option\nusage: "), ((sample("survey.log"), "--picture"), 2, "--picture: "),
                                ((none,), 1, f"flight-page: qm sums: {none}: No such file or directory"), ((folder,), 1, "Is a directory"), (("a\nb.log",), 1, "a\ufffdb.log: a log's name with an end of line")]:
        got = page(*words)
        held(got[0] == status and got[1] == b"" and says in got[2] and "Traceback" not in got[2], f"flight-page {words}", str(got))
    got = page("--help")
    held(got[0] == 0 and b"tools/flight-page LOG.. >" in got[1], "flight-page --help", str(got))
    if os.path.exists("/dev/full"):
        with open("/dev/full", "w") as disk:
            done = subprocess.run([PAGE, sample("survey.log")], stdout=disk, stderr=subprocess.PIPE, text=True)
        held(done.returncode == 1 and "standard output: No space left on device" in done.stderr, "the disk full", done.stderr)
    # somebody does not wait for it
    path = os.path.join(folder, "long.log")
    with open(path, "wb") as f:
        f.write(log_of([]) + entry_bytes(7, 5, small(1, b"MAST", b"")) * 6_000_000)
    # a test that runs in the background has been told to ignore an interrupt, and would hand that on
    heard = lambda: signal.signal(signal.SIGINT, signal.SIG_DFL)  # noqa: E731
    begun = subprocess.Popen([PAGE, path], stdout=subprocess.DEVNULL, stderr=subprocess.PIPE, text=True, start_new_session=True, preexec_fn=heard)
    while begun.poll() is None and not is_at_work(begun.pid):
        time.sleep(0.01)
    os.killpg(begun.pid, signal.SIGINT)
    said = begun.communicate()[1]
    held(begun.returncode == 130 and said == "flight-page: stopped\n", "an interrupt", said + str(begun.returncode))


def sample(name):
    return os.path.join(ROOT, "samples", name)


MADE = [("flight.html", [sample("survey.log")]), ("season.html", SEASON), ("flight.svg", ["--picture", sample("survey.log")]), ("season.svg", ["--picture", *SEASON])]
FILES = {"survey.bin": b"".join(record(*e) for e in survey()), "survey.log": SURVEY}
os.chdir(ROOT)
if sys.argv[1:] == ["--write"]:
    for name, b in FILES.items():
        with open(sample(name), "wb") as f:
            f.write(b)
    for name, words in MADE:
        with open(sample(name), "wb") as f:
            f.write(page(*words)[1])
for name, b in FILES.items():
    with open(sample(name), "rb") as f:
        held(f.read() == b, f"samples/{name} is not what the script makes")
for name, words in MADE:
    with open(sample(name), "rb") as f:
        held(f.read() == page(*words)[1], f"samples/{name} is not what flight-page makes")
with tempfile.TemporaryDirectory() as folder:
    path = os.path.join(folder, "kept.log")
    qm("keep", path, input=FILES["survey.bin"])
    with open(path, "rb") as f:
        held(f.read() == SURVEY, "qm keep of samples/survey.bin is not samples/survey.log")
# the samples have something under every heading
top, text = words_of(good_page(sample("survey.log")))
for heading in ("What the watch found missing", "Messages that never completed", "Refusals"):
    held(len(rows_after(top, heading)) > 0, f"samples/flight.html: nothing under {heading}")
held("1 restarted" in text and "came late" in text and "numbers missing" in text, "samples/flight.html: the watch")
top, text = words_of(good_page(*SEASON))
for heading in ("Far from there", "Without a place", "Doubtful", "Repeats that are no copies"):
    held(len(rows_after(top, heading)) > 0, f"samples/season.html: nothing under {heading}")
for name in ("flight.log", "late-copies.log", "two-cameras.log"):
    good_page(sample(name))
with tempfile.TemporaryDirectory() as folder:
    path = os.path.join(folder, "a.log")
    # without entries; of strangers alone; cut; no log at all; more senders than lanes and than the watch has room for; more pits than a season has room for
    crowd = [(s, s, small(5, b"MAST", b"x")) for s in range(30)]
    over = flight_of([pits_message(9, [(i, 0) for i in range(at, at + 4096)], place=lambda pit: False) for at in range(0, 65537, 4096)])
    few = flight_of([list_of(t, [(1, 1, (515000000, 900 * t, 5))]) for t in range(26)])
    dots = flight_of([list_of(t, [(p, p % 2, (515000000 + 700 * p, 900 * t, 5)) for p in range(60)]) for t in range(50)])
    for b in [log_of([]), log_of([(1, 2**64 - 1, b"")]), SURVEY[:-3], b"\0", b"", log_of(crowd), over, few, dots, many(), *places()]:
        with open(path, "wb") as f:
            f.write(b)
        good_page(path)
        good_picture(path)
    good_page(path, sample("survey.log"), path, *SEASON)
    # more flights, and more of them refused, than are told one by one
    with open(path, "wb") as f:
        f.write(log_of([(7, 5, small(1, b"MAST", b""))]) + b"\5")
    text = words_of(page(*[path] * 130)[1])[1]
    held(text.count("a.log is refused by 43: ") == 100 and "And 30 logs more." in text and "And 118 flights more." in text and "And 30 more." in text, "130 flights that are refused", text)
    stepping(folder)
    names(folder)
    failures(folder)
close()
