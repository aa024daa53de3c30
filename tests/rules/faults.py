"""What was checked and what was found wrong; and a text without its comments."""
import re


class Faults:
    """Every rule is counted; one that does not hold leaves its sentence. What is no fault yet is noted."""

    def __init__(self):
        self.checked, self.found, self.notes = 0, [], []

    def rule(self, holds, fault):
        self.checked += 1
        if not holds:
            self.found.append(fault)

    def note(self, sentence):
        self.notes.append(f"{sentence} (no fault yet)")

    def table(self, exceptions, met, told):
        """A table of exceptions shrinks: each of it is still one. told says of what."""
        for one in sorted(set(exceptions) - set(met)):
            self.rule(False, f"tests/rules: {one} is in the table of {told}, and is none any more: take it out")


def read(path):
    with open(path, encoding="utf8") as f:
        return f.read()


def bare(path, text):
    """The text without its comments."""
    mark = "--" if path.endswith(".antt") else "//"
    return re.sub(rf"(^|\s){mark}.*", r"\1", text)
