"""The papers, misread. Each file of cases/ has misreadings of one part of them: an edit of a definition and the like edit of the code, and what holds it (cases.py has the form).
An edit of the code is compiled without proof, and a program's committed vectors, or a test, must differ; an edit of the definition is checked in the theory tree, the
crates without functions, where a theorem or a computed case must refuse it.

tests/misread/run                      a few, chosen by the commit, in less than a minute
tests/misread/run --all [WORD..]       all, or those whose file or title has one of the words; with the table of figures
tests/misread/run --all --keep FILE    the same, and what was tried is kept there: called again, it goes on behind it
tests/misread/run --all --code         runs of the code alone; --definitions what refuses the definitions alone
tests/misread/run --find WORD..        looks for what holds those that name nothing, and writes it into their files; with --code or --definitions one of the two
tests/misread/run --figures            the table of figures, as the files have it; nothing is tried

It needs the proved libraries (`rt ci`, or `tools/prove`). It writes to a folder of its own, which it removes."""
import hashlib
import os
import shutil
import subprocess
import sys
import tempfile
import time

import cases
import rows
from compiled import TESTS, Broken, Code, Kit
from model.files import ROOT
from model.tally import close_with
from tree import Theory

here = os.path.dirname(os.path.abspath(__file__))
# For the short run: no case is begun after so many seconds; programs whose run takes about a second, and crates that are checked in a few.
BEGUN = 25
QUICK = set("gaps gauge gauge_bytes acks ack_bytes log_list log_write index_list writer_cases replay replay_long lmcp_list".split())
SMALL = set("varint names forms watch moss ack_blocks gauge_watch".split())
# Where a definition's edit is tried when nothing is known of it: up to these crates, by the folder of cases.
NEAR = {
    "survey-messages": ["lmcp", "marked"],
    "acknowledge-blocks": ["ack_blocks", "ack_writer", "block_laws"],
    "gauge": ["moss", "moss_writer", "gauge_watch", "block_laws"],
    "log": ["varint", "flight_log", "log_append", "log_reader"],
    "names": ["names", "datagram"],
    "watch": ["differences", "watch", "watch_laws", "gauge_watch", "marked"],
    "datagrams": ["forms", "datagram", "parts", "cutter", "marked"],
    "receiver": ["steps", "within_limits", "arrival_cases"],
    "count": ["count_rules", "count_laws"],
    "index": ["log_index", "index_builder", "index_file", "index_look"],
    "season": ["stretch", "season", "tile_pits", "mark_rows"],
    "promises": ["arrival_cases"],
    "programs": ["replay_run"],
    "calls": [],
}


class Trial:
    """What is tried, over one temporary folder."""

    def __init__(self, work):
        self.work = work
        self.kit = Kit(work)
        self.code = Code(ROOT, work, self.kit)
        self._theory = None

    @property
    def theory(self):
        if self._theory is None:
            self._theory = Theory(ROOT, self.work, self.kit)
        return self._theory

    def tree(self, edits):
        """A tree with the crates of a code's edits; what is wrong with the edits, or nothing."""
        tree = os.path.join(self.work, "tree")
        shutil.rmtree(tree, ignore_errors=True)
        os.makedirs(tree)
        return tree, cases.applied(ROOT, tree, edits)

    def run(self, case, holder):
        """Whether a run differs, and how."""
        tree, fault = self.tree(case.sources)
        if fault:
            return False, fault
        word, name = holder
        try:
            said = self.code.differs(tree, name) if word == "run" else self.code.test_differs(tree, name)
        except Broken as e:
            return False, f"does not compile: {e}"
        return bool(said), said or "nothing differs"

    def refused(self, case, holder):
        """Whether the theory tree refuses the definition where it is said, and how."""
        word, rest = holder
        crate, module = rest.split()[:2]
        refusal = self.theory.tried(case.specs, cases.applied, [crate])
        if refusal is None:
            return False, f"up to {crate} nothing refuses it"
        return (refusal.kind, refusal.crate, refusal.module) == (word, crate, module), str(refusal)

    def tried(self, holders, case):
        """Each of some holders of a case: (holder, whether it holds, how)."""
        for holder in holders:
            good, said = (self.run if holder[0] in ("run", "test") else self.refused)(case, holder)
            yield holder, good, said

    # ---- what holds a case that names nothing

    def find_run(self, case):
        crates = set(cases.Case.crates(case.sources))
        programs = [c for c in self.code.crates if os.path.exists(os.path.join(ROOT, "crates", c, "stdin"))]
        for name in sorted(programs, key=lambda p: os.path.getsize(os.path.join(ROOT, "crates", p, "stdin"))):
            if crates & set(self.code.reached([name])):
                good, said = self.run(case, ("run", name))
                if good or said.startswith("does not compile"):
                    return ["run", name] if good else None, said
        for name, (used, archives) in TESTS.items():
            if name != "log" and crates & set(self.code.reached(used + archives)):
                good, said = self.run(case, ("test", name))
                if good:
                    return ["test", name], said
        return None, "no run differs"

    def near(self, case):
        """Where a definition's edit is tried: its own crates, which may be of functions alone and then have no theory, and those near it."""
        return cases.Case.crates(case.specs) + [c for c in NEAR[case.file] if c not in cases.Case.crates(case.specs)]

    def find_refusal(self, case):
        near = [c for c in self.near(case) if c in self.theory.tree.crates]
        code_alone = set(cases.Case.crates(case.specs)) - set(near)
        refusal = None if code_alone else self.theory.tried(case.specs, cases.applied, near)
        if refusal is None:
            return None, "nothing refuses it up to " + " ".join(sorted(code_alone) or near)
        return [refusal.kind, f"{refusal.crate} {refusal.module} `{refusal.places[0][2]}`"] if refusal.kind else None, str(refusal)


def figures(some):
    """The table of docs/CONTRACTS.md: what was tried, and by what it is held, by the files of cases/."""
    rows = ["| misread | tried | a program's vectors differ | another test differs | a computed case refuses the definition | a theorem does | no theorem or case near it does | not tried so yet | by nothing |", "|---|---|---|---|---|---|---|---|---|"]
    total = [0] * 8
    for file in sorted({c.file for c in some}):
        mine = [c for c in some if c.file == file]
        row = [len(mine)] + [sum(any(h[0] == word for h in c.held) for c in mine) for word in ("run", "test", "case", "theorem")]
        row += [sum(bool(c.passes) for c in mine), sum(c.untried for c in mine), sum(not c.held for c in mine)]
        total = [x + y for x, y in zip(total, row)]
        rows.append(f"| {file.replace('-', ' ')} | " + " | ".join(map(str, row)) + " |")
    return "\n".join(rows + ["| all | " + " | ".join(map(str, total)) + " |"])


def told(some):
    """Whether docs/CONTRACTS.md has these figures, and names what nothing holds."""
    with open(os.path.join(ROOT, "docs", "CONTRACTS.md"), encoding="utf-8") as f:
        page = f.read()
    wanted = [figures(some)] + [c.title for c in some if not c.held]
    for text in wanted:
        if text not in page:
            print(f"docs/CONTRACTS.md does not have this (tests/misread/run --figures):\n{text}")
    return all(text in page for text in wanted)


def key(case, holders):
    return hashlib.sha256(repr((case.title, case.edits, holders)).encode()).hexdigest()[:16]


def commit():
    """The commit, or nothing where there is no git: then the choice is always the same."""
    if not shutil.which("git"):
        return ""
    return subprocess.run(["git", "rev-parse", "HEAD"], cwd=ROOT, capture_output=True, text=True).stdout.strip()


def chosen(some):
    """The cases of the short run, and of each the one holder that is tried: in an order that the commit gives."""
    quick = []
    for case in some:
        for holder in case.held:
            crate = holder[1].split()[0]
            if (holder[0] == "run" and crate in QUICK) or (holder[0] in ("case", "theorem") and crate in SMALL and cases.Case.crates(case.specs) == [crate]):
                quick.append((case, holder))
    return sorted(quick, key=lambda x: hashlib.sha256(f"{commit()} {x[0]} {x[1]}".encode()).digest())


def short(trial, some):
    began, refusals, passed = time.time(), 0, told(some) + rows.held(some)
    failed = 2 - passed
    for case, holder in chosen(some):
        if time.time() - began > BEGUN:
            break
        if holder[0] not in ("run", "test"):
            # one is enough: the theory tree takes its time
            refusals += 1
            if refusals > 1:
                continue
        good, said = (trial.run if holder[0] == "run" else trial.refused)(case, holder)
        passed, failed = passed + good, failed + (not good)
        print(f"{'held' if good else 'NOT HELD'} by {' '.join(holder)}: {case}: {said}", flush=True)
    return passed, failed


def whole(trial, some, keep, kinds):
    """All cases, with their holders of some kinds; what is kept in a file is not tried again."""
    done = set()
    if keep and os.path.exists(keep):
        with open(keep, encoding="utf-8") as f:
            done = {line.split()[0] for line in f if line.split()[1:2] == ["held"]}
    passed = failed = 0
    for k, case in enumerate(some, 1):
        holders = [h for h in case.held if h[0] in kinds]
        if key(case, holders) in done or (case.held and not holders):
            passed += 1
            continue
        began, good = time.time(), bool(case.held)
        for holder, held, said in trial.tried(holders, case):
            good = good and held
            print(f"{k} of {len(some)}: {'held' if held else 'NOT HELD'} by {' '.join(holder)}: {case}: {said}", flush=True)
        if not case.held:
            print(f"{k} of {len(some)}: HELD BY NOTHING: {case}", flush=True)
        passed, failed = passed + good, failed + (not good)
        if keep:
            with open(keep, "a", encoding="utf-8") as f:
                f.write(f"{key(case, holders)} {'held' if good else 'failed'} {time.time() - began:.0f} s {case}\n")
    return passed, failed


def find(trial, some, kinds):
    passed = failed = 0
    for case in some:
        for word, ways, look in (("run", ("run", "test"), trial.find_run), ("definition", ("case", "theorem"), trial.find_refusal)):
            if ways[0] not in kinds or any(h[0] in ways for h in case.held) or not (case.sources if word == "run" else case.specs) or (word == "definition" and case.passes):
                continue
            holder, said = look(case)
            print(f"{' '.join(holder) if holder else 'NOTHING'}: {word}: {case}: {said}", flush=True)
            if holder:
                cases.write(here, case, "held: " + " ".join(holder))
                case.held.append(holder)
            elif word == "definition" and said.startswith("nothing refuses"):
                cases.write(here, case, "passes: " + said.split(" up to ")[1])
        passed, failed = passed + bool(case.held), failed + (not case.held)
    return passed, failed


def main():
    words = sys.argv[1:]
    keep = words.pop(words.index("--keep") + 1) if "--keep" in words else None
    asked = [w for w in words if not w.startswith("--")]
    some = cases.all_cases(os.path.join(here, "cases"))
    if asked:
        some = [c for c in some if any(w in c.file or w in c.title for w in asked)]
    if "--figures" in words:
        print("\n".join([figures(some)] + [f"by nothing: {c}" for c in some if not c.held]))
        rows.held(cases.all_cases(os.path.join(here, "cases")))
        return
    if not os.path.isdir(os.path.join(ROOT, "crates", "wire", "out", "rlib", "wire.rlib")):
        sys.exit("nothing is proved: rt ci")
    with tempfile.TemporaryDirectory() as work:
        trial = Trial(work)
        kinds = ("run", "test") if "--code" in words else ("case", "theorem") if "--definitions" in words else ("run", "test", "case", "theorem")
        if "--find" in words:
            passed, failed = find(trial, some, kinds)
        elif "--all" in words:
            passed, failed = whole(trial, some, keep, kinds)
        else:
            passed, failed = short(trial, some)
    if "--all" in words:
        print(figures(some))
    close_with(passed, failed)


main()
