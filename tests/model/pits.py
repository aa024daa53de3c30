"""Which pits, and where: what `qm pits LOG..` prints in each of its forms, in plain Python. It stands on the season, whose lists it reads once more for their
marks: of each its place and, in version 2, its depth."""
import json

from . import messages
from .count import pit_list
from .receiver import MAX_PAYLOAD, read
from .season import NAMES, SEASON, Season, broken

COLUMNS = ("tile", "pit", "sure", "marks", "lat", "lon", "height", "depth", "sender", "sequence", "tick", "log")


def marks_in(numbers):
    """The marks of a list's numbers, each as what its line says; what it does not have is left out."""
    version, _, tile, n = numbers[:4]
    rest, marks = iter(numbers[4:]), []
    for _ in range(n):
        if next(rest) == 0:
            continue
        one = {"tile": tile, "pit": next(rest), "sure": next(rest)}
        if next(rest):
            one |= {"lat": next(rest), "lon": next(rest), "height": next(rest)}
        if version == 2:
            one["depth"] = next(rest)
        marks.append(one)
    # the count reads the same
    assert next(rest, None) is None and (tile, [(m["pit"], m["sure"]) for m in marks]) == pit_list(numbers)
    return marks


class Pits(Season):
    """A season with all its marks, in the order of logs and deliveries."""

    def __init__(self):
        super().__init__()
        self.name, self.marks = None, []

    def listed(self, payload, sender, tick, datagram):
        of = {"sender": sender, "sequence": read(datagram, MAX_PAYLOAD)["sequence"], "tick": tick, "log": self.name}
        self.marks += [{**one, **of} for one in marks_in(messages.read(payload))]

    def rows(self):
        """A row a pit, by rising tile and pit: its last mark, sure where any mark is, and how many there are."""
        of = {}
        for one in self.marks:
            of.setdefault((one["tile"], one["pit"]), []).append(one)
        rows = [{**marks[-1], "sure": int(any(m["sure"] for m in marks)), "marks": len(marks)} for _, marks in sorted(of.items())]
        # the season has the same
        assert [(row["tile"], row["pit"], row["sure"]) for row in rows] == sorted((t, p, int(sure)) for t, known in self.tiles.items() for p, sure in known.items())
        return rows


def line_of(row):
    return b" ".join(b"%s %s" % (name.encode(), value_of(row[name])) for name in COLUMNS if name in row)


def value_of(value):
    return value if isinstance(value, bytes) else str(value).encode()


def quoted(value):
    """RFC 4180."""
    return b'"%s"' % value.replace(b'"', b'""') if any(c in value for c in (b",", b'"', b"\r", b"\n")) else value


def table_of(rows):
    return [",".join(COLUMNS).encode()] + [b",".join(quoted(value_of(row.get(name, b""))) for name in COLUMNS) for row in rows]


def degrees(n):
    """Ten-millionths of a degree, with seven decimals."""
    return f"{'-' * (n < 0)}{abs(n) // 10**7}.{abs(n) % 10**7:07}"


def named(log):
    """A log's name in a string of JSON: each byte that is no UTF-8 as the replacement character."""
    return "".join("\ufffd" if "\ud800" <= c <= "\udfff" else c for c in log.decode("utf8", "surrogateescape"))


def features_of(rows):
    """A FeatureCollection as Python has it, its decimals as text."""
    def point(row):
        return {"type": "Point", "coordinates": [degrees(row["lon"]), degrees(row["lat"]), row["height"]]} if "lat" in row else None

    def properties(row):
        return {name: row.get(name) for name in COLUMNS[:-1]} | {"log": named(row["log"])}

    return {"type": "FeatureCollection", "features": [{"type": "Feature", "geometry": point(row), "properties": properties(row)} for row in rows]}


def map_text(rows):
    """The same to the letter, for names that a string of JSON has as they are."""
    def line(row):
        point = f'{{"type":"Point","coordinates":[{degrees(row["lon"])},{degrees(row["lat"])},{row["height"]}]}}' if "lat" in row else "null"
        properties = json.dumps(features_of([row])["features"][0]["properties"], separators=(",", ":"))
        return f'\n{{"type":"Feature","geometry":{point},"properties":{properties}}}'

    return '{"type":"FeatureCollection","features":[' + ",".join(map(line, rows)) + "\n]}\n"


def features_in(printed):
    """The same from what was printed."""
    return json.loads(printed.decode("utf8"), parse_float=str, object_pairs_hook=once)


def once(pairs):
    """No name twice, and in the order in which they were printed."""
    assert len(dict(pairs)) == len(pairs)
    return dict(pairs)


def season_of(logs, names, only=None):
    """The season, or the number of its refusal."""
    pits = Pits()
    try:
        for log, pits.name in zip(logs, names):
            pits.fly(log, only)
    except messages.Refused as r:
        return r.args[0]
    return pits


def printed(found, form):
    """What `qm pits` prints of a season, in lines; of the form --geojson, what is in it."""
    if isinstance(found, int):
        return b"refused %d\n" % found
    if form == "--geojson":
        return features_of(found.rows())
    lines = [line_of(m) for m in found.marks] if form == "--marks" else table_of(found.rows()) if form == "--csv" else [line_of(p) for p in found.rows()]
    return b"".join(line + b"\n" for line in lines)


def status(logs, found):
    return 3 if isinstance(found, int) or broken(logs) else 0


# ---- lists whose marks lie anywhere

EDGES = {"lat": [0, 1, -1, 9999999, -9999999, 10**7, 2**31 - 1, -2**31], "height": [0, -1, 2**15 - 1, -2**15]}


def random_list(r):
    """A list of few tiles and pits, of either version: places at every edge of their numbers, marks that are null or have none."""
    version = r.choice([1, 2])
    numbers, marks = [version, 5, r.choice([0, 1, 5, 5, 9, 2**32 - 1])], []
    for _ in range(r.choice([0, 1, 2, 5, 12])):
        lat, lon = (r.choice([r.choice(EDGES["lat"]), r.randrange(-2**31, 2**31)]) for _ in range(2))
        place = [2, lat, lon, r.choice([r.choice(EDGES["height"]), r.randrange(-2**15, 2**15)])] if r.random() < 0.7 else [0]
        depth = [r.choice([0, 45, -1, 2**15 - 1, -2**15])] if version == 2 else []
        marks.append([0] if r.random() < 0.15 else [4, r.choice([0, 3, 7, 11, 2**32 - 1]), r.randrange(2)] + place + depth)
    return messages.write(numbers + [len(marks)] + [n for m in marks for n in m], r.random() < 0.8)


# what the paper says of a list of each version, by hand: a null mark is skipped, a null place left out
assert marks_in([1, 5, 9, 3, 4, 77, 1, 2, 5, -6, 7, 0, 4, 78, 0, 0]) == [{"tile": 9, "pit": 77, "sure": 1, "lat": 5, "lon": -6, "height": 7}, {"tile": 9, "pit": 78, "sure": 0}]
assert marks_in([2, 5, 9, 2, 4, 77, 0, 2, 5, -6, 7, 45, 4, 78, 1, 0, -3]) == [{"tile": 9, "pit": 77, "sure": 0, "lat": 5, "lon": -6, "height": 7, "depth": 45}, {"tile": 9, "pit": 78, "sure": 1, "depth": -3}]
assert [degrees(n) for n in (0, 1, -1, 519876543, -23456, -2**31)] == ["0.0000000", "0.0000001", "-0.0000001", "51.9876543", "-0.0023456", "-214.7483648"]

# the sample
SAMPLE = season_of(SEASON, [name.encode() for name in NAMES])
FILES = {"samples/season-pits.txt": printed(SAMPLE, ""), "samples/season.geojson": map_text(SAMPLE.rows()).encode()}
assert features_in(FILES["samples/season.geojson"]) == features_of(SAMPLE.rows())
