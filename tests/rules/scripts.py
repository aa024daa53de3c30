"""How Python is started: where modules are found is said once, in tests/start.py, and each program of tests/ in Python is a shell script of two lines beside its text."""
import os
import re

from faults import read

START = "tests/start.py"
# the script NAME, which starts NAME.py
STARTS = '#!/bin/sh\nexec python3 "$(dirname "$0")/../start.py" "$0.py" "$@"\n'
FOLDERS = (".ci", "bench", "examples", "tests", "tools")


def files():
    for folder in FOLDERS:
        for where, inner, names in os.walk(folder):
            inner[:] = [x for x in inner if x != "__pycache__"]
            yield from (os.path.join(where, name) for name in sorted(names))


def text_of(path):
    """A file's text; of one that is no text, such as a capture, nothing."""
    try:
        return read(path)
    except UnicodeDecodeError:
        return ""


def one_place(faults):
    """No file but one says where modules are found."""
    for path in files():
        faults.rule(path == START or not re.search(r"\bsys\.path\b|\bPYTHON[P]ATH\b", text_of(path)), f"{path} says where modules are found: {START} does, for all")


def started(faults):
    """What is started by itself in tests/ has a text in Python beside it, or is none of Python."""
    for path in files():
        if path.startswith("tests/") and not path.endswith(".py") and os.access(path, os.X_OK):
            text = text_of(path)
            faults.rule(not re.match(r"#!.*python", text), f"{path} is Python: its text belongs into {path}.py, and {path} is two lines, those of tests/rules/run")
            faults.rule(not os.path.exists(path + ".py") or text == STARTS, f"{path} starts {path}.py in another way than tests/rules/run")


def check(faults, project):
    one_place(faults)
    started(faults)
