"""The misreadings: the files of cases/, read.

    misread: the 54 of L4 taken for 55
    paper: L4, "54 no such message, 55 output short"
    file: moss/specs/Message.antt
    old: ..          a piece of one line, or of more by more `old:` lines; it stands in the file once
    new: ..
    file: moss/src/lib.rt
    ..
    held: run gauge                 a run of this program differs
    held: test exports              a run of this test differs
    held: case moss Works           a computed case of this module is refused
    held: theorem moss Looks `x`    the proof of this theorem, or of a lemma below it, is refused
    false: ..                       where a theorem alone holds it: why its statement is false, and not only its proof another
    passes: moss block_laws         nothing refuses the definition's edit up to these crates
    rule: located                   definitions whose rule the edit misreads at another place, where they are used (rows.py)

Edits of specs/ are the definition's, edits of src/ the code's; edits of proofs/ mend what is proved of a statement that was weakened, so that it stands, and a worked case is left to refuse it.
Each holder is tried and must hold."""
import glob
import os
import re
import shutil


class Case:
    def __init__(self, file, title):
        self.file, self.title = file, title
        self.paper, self.passes, self.false, self.note = "", "", "", ""
        self.edits, self.held, self.rules = [], [], []

    def __repr__(self):
        return f"{self.file}: {self.title}"

    @property
    def specs(self):
        return [e for e in self.edits if "/src/" not in e[0]]

    @property
    def sources(self):
        return [e for e in self.edits if "/src/" in e[0]]

    @property
    def untried(self):
        """Nobody looked yet what refuses its definition."""
        return bool(self.specs) and not self.passes and not any(h[0] in ("case", "theorem") for h in self.held)

    @staticmethod
    def crates(edits):
        return sorted({e[0].split("/")[0] for e in edits})


def read(path):
    """The cases of one file."""
    got, name, file, last = [], os.path.basename(path)[:-4], None, None
    for number, line in enumerate(open(path, encoding="utf-8"), 1):
        line = line.rstrip("\n")
        found = re.match(r"(misread|paper|rule|file|old|new|held|passes|false|note):(?: (.*))?$", line)
        if not line.strip() or line.startswith("#"):
            last = None
            continue
        if not found:
            raise SystemExit(f"{path}:{number}: {line!r} is no line of a case")
        word, rest = found[1], found[2] or ""
        case = got[-1] if got else None
        if word == "misread":
            got.append(Case(name, rest))
        elif word == "file":
            file = rest
        elif word in ("old", "new") and last == word:
            case.edits[-1][1 if word == "old" else 2] += "\n" + rest
        elif word == "old":
            case.edits.append([file, rest, ""])
        elif word == "new":
            case.edits[-1][2] = rest
        elif word == "held":
            case.held.append(rest.split(" ", 1))
        elif word == "rule":
            case.rules += rest.split()
        else:
            setattr(case, word, rest)
        last = word
    return got


def write(folder, case, line):
    """Puts a line at the end of a case."""
    path = os.path.join(folder, "cases", case.file + ".txt")
    with open(path, encoding="utf-8") as f:
        text = f.read()
    at = text.index(f"misread: {case.title}\n")
    end = text.find("\n\n", at)
    end = len(text.rstrip("\n")) if end < 0 else end
    with open(path, "w", encoding="utf-8") as f:
        f.write(text[:end] + "\n" + line + text[end:])


def all_cases(folder):
    return [c for path in sorted(glob.glob(os.path.join(folder, "*.txt"))) for c in read(path)]


# what an edit of a definition may name without an import of its own
KNOWN = {
    "Rattle.std.specs.Prelude": "◌+◌ ◌-◌ ◌*◌ ◌/◌ ◌%◌ ◌^◌ ◌≤◌ ◌<◌ zero suc pos eqb ltb leb length take drop get_or replicate Bool true false not ◌&&◌ ◌||◌ List [] ◌∷◌ ◌++◌",
    "Rattle.wire.specs.Choice": "pick ◌when◌else◌",
    "Rattle.wire.proofs.Basics": "arith",
}


def imported(text, new):
    """The text with imports of those known names that the new piece uses and the text does not have."""
    heads = " ".join(re.findall(r"(?m)^use [^\n]*", text))
    words = set(re.findall(r"[^\s(){};,]+", new))
    for module, names in KNOWN.items():
        more = [n for n in names.split() if words & {w for w in n.split("◌") if w} and not re.search(r"[{ ]" + re.escape(n) + r"[,}]", heads)]
        if more:
            at = re.search(r"(?m)^use ", text).start()
            text = text[:at] + f"use {module}.{{{', '.join(more)}}}\n" + text[at:]
    return text


def applied(root, tree, edits):
    """The crates of the edits, in the tree, with them: a piece that does not stand there once is a fault of the case."""
    for crate in Case.crates(edits):
        shutil.copytree(os.path.join(root, "crates", crate), os.path.join(tree, "crates", crate), ignore=shutil.ignore_patterns("stdin", "stdout", "must-fail"), dirs_exist_ok=True)
    for file, old, new in edits:
        path = os.path.join(tree, "crates", file)
        if not os.path.isfile(path):
            return f"there is no {file}"
        with open(path, encoding="utf-8") as f:
            text = f.read()
        if text.count(old) != 1:
            return f"{text.count(old)} times in {file}: {old!r}"
        with open(path, "w", encoding="utf-8") as f:
            f.write(imported(text.replace(old, new), new) if file.endswith(".antt") else text.replace(old, new))
    return ""
