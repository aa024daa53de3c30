"""Every number of docs/REFUSALS.md is reached by a run, for each that gives it: the third column of its table is read, and for each giver the number must stand in
what a program must write (the crates' files `stdout`, and what tests/log must see), or in a test that cannot pass without meeting it, which is named here with its words.
A number that is nowhere, a giver that is not known here, and an exception that is no longer one are faults."""
import os
import re

from model import limits, writers
from model.files import ROOT, bytes_of
from model.log import each_number, log_list
from model.tally import close, held


def text_of(path):
    return bytes_of(path).decode()


def refused_in(text):
    """The numbers of lines such as `4 refused 7` and `refused 43 after 2`."""
    return {int(n) for n in re.findall(r"^(?:\d+ )?refused (\d+)(?: after \d+)?$", text, re.M)}


def written(*crates):
    return set().union(*(refused_in(text_of(f"crates/{c}/stdout")) for c in crates))


# the lines of limit_cases and of writer_cases, by the call that a case makes
ANSWERS = {limits: list(zip(limits.all_cases(), text_of("crates/limit_cases/stdout").split("\n"))), writers: list(zip(writers.cases(), text_of("crates/writer_cases/stdout").split("\n")))}


def answered(of, *calls):
    return set().union(*(refused_in(line) for case, line in ANSWERS[of] if case[0] in calls))


# where the refusals of each giver are seen
SEEN = {
    "datagram reader": written("gaps"),
    "receiver": written("replay_long", "replay_log") | answered(limits, limits.RECEIVE),
    "`open`": answered(limits, limits.OPEN),
    "`receive`": answered(limits, limits.RECEIVE),
    "`forget`": answered(limits, limits.FORGET),
    "cutter": answered(limits, limits.CUT),
    "watch": answered(limits, limits.WATCH),
    "LMCP reader": written("lmcp_list"),
    "LMCP writer": written("lmcp_bytes") | answered(writers, writers.MADE),
    "log's reader": written("log_list").union(*(refused_in(log_list(b)) for b in each_number())),
    "MossUDP reader": written("gauge") | answered(writers, writers.PACKET),
    "MossUDP writer": written("gauge_bytes") | answered(writers, writers.PACKET),
    "`message_place`": answered(writers, writers.PACKET),
    "`lay_block`": answered(writers, writers.LAID),
    "`gauge`": written("gauge"),
    "`gauge_bytes`": written("gauge_bytes"),
    "acknowledge blocks' reader": written("acks"),
    "acknowledge blocks' writer": written("ack_bytes") | answered(writers, writers.ACKED),
    "`acks`": written("acks"),
    "`ack_bytes`": written("ack_bytes"),
}
# what only a C call gives, or a log that is no file of a crate: the test that cannot pass without it, and its words there
HOST, COUNTS, RECEIVER = "tests/host/main.c", "tests/host/counts.c", "tests/receiver/main.c"
READ = 'all_met("qm_read_datagram", reader_gave, (const int[]) {0, 1, 2, 3, 4, 5, 6, 7, 13, -1})'
KEPT = 'all_met("qm_log_begin and qm_log_append", flight_gave, (const int[]) {0, 13, 42, 45, -1})'
COUNTED = "owed[] = {0, 13, 40, 41, 42, 43, 60, 61, 62}"
LINES = '"refused 60\\n", "refused 61\\n", "refused 62\\n"'
STRETCHED = "told[QM_ON_NUMBER] == (k == 0 ? QM_TOO_MANY_TILES : QM_TOO_MANY_PITS)"
FILES, OWED = "tests/index/file.c", 'owed = {"head 46 7 7", "rows 46 7", "short 13", "short 46", "find 46 7 7", "find 47 7 7"}'
ELSEWHERE = {
    (3, "datagram reader"): (HOST, READ),
    (3, "receiver"): (RECEIVER, "if (refused_by[n] < 20)"),
    (13, "exported reader"): (HOST, READ),
    (13, "log's writer"): (HOST, KEPT),
    (42, "log's writer"): (HOST, KEPT),
    (45, "log's writer"): (HOST, KEPT),
    (13, "count"): (COUNTS, COUNTED),
    (13, "exported count"): (COUNTS, COUNTED),
    (44, "log's index"): ("tests/index/run.py", "for n in (MOST - 1, MOST, MOST + 1)"),
    (44, "`qm_index`"): (RECEIVER, "indexes[] = {0, 40, 41, 42, 43, 44}"),
    (44, "`qm_index_on`"): (FILES, "count * QM_ROW - 1, 0, MOST) != QM_INDEX_FULL"),
    (13, "index file's writer"): (FILES, "file, length - 1) != QM_TOO_SHORT"),
    (13, "index file's reader"): ("tests/index/run.py", OWED),
    (46, "index file's reader"): ("tests/index/run.py", OWED),
    (46, "index file's lookup"): ("tests/index/run.py", OWED),
    (46, "`qm_index_file_head`"): ("tests/index/run.py", OWED),
    (46, "`qm_index_file_rows`"): ("tests/index/run.py", OWED),
    (46, "`qm_index_file_find`"): ("tests/index/run.py", OWED),
    (47, "index file's lookup"): ("tests/index/run.py", OWED),
    (47, "`qm_index_file_find`"): ("tests/index/run.py", OWED),
    (60, "count"): ("tests/count/run.py", LINES),
    (61, "count"): ("tests/count/run.py", LINES),
    (62, "count"): ("tests/count/run.py", LINES),
    (60, "`count_on`"): ("tests/stretches/main.c", STRETCHED),
    (61, "`count_on`"): ("tests/stretches/main.c", STRETCHED),
}


def givers(said):
    """The givers that a cell of the third column names, those in brackets too."""
    inside = [name for part in re.findall(r"\(([^)]*)\)", said) for name in re.findall(r"`[^`]+`", part)]
    inside += ["LMCP writer"] if "(the writer:" in said else []
    found = []
    for name in re.sub(r"\s*\([^)]*\)", "", said).split(","):
        name = name.strip()
        if " and " in name:
            first, last = name.split(" and ")
            found += [first, f"{first.rsplit(' ', 1)[0]} {last}"]
        else:
            found.append(name)
    return found + inside


table = re.findall(r"^\| (\d+) \| (?:[^|]*) \| ([^|]*) \|", text_of("docs/REFUSALS.md"), re.M)
held(len(table) > 40, "docs/REFUSALS.md: its table is not read")
pairs = {(int(number), giver) for number, said in table for giver in givers(said)}
for number, giver in sorted(pairs):
    seen = number in SEEN.get(giver, ())
    if (number, giver) in ELSEWHERE:
        path, words = ELSEWHERE[number, giver]
        held(not seen, f"{number} of {giver}: it is seen, and {path} is still cited for it")
        held(os.path.exists(os.path.join(ROOT, path)) and words in text_of(path), f"{number} of {giver}: {path} no longer has `{words}`")
    else:
        held(seen, f"{number} of {giver}: no run reaches it")
for number, giver in sorted(ELSEWHERE):
    held((number, giver) in pairs, f"{number} of {giver}: docs/REFUSALS.md does not say that it gives it")
# and the other way: what a program answers has a row, and the row names who gives it
for giver, numbers in SEEN.items():
    for number in sorted(numbers):
        held(number in {n for n, _ in pairs}, f"{number} of {giver}: it has no row in docs/REFUSALS.md")
close()
