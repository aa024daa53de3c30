"""Files that a test reads and writes: by their name in the repository, or anywhere by their whole path."""
import os
import sys

from .tally import held

ROOT = os.path.dirname(os.path.dirname(os.path.dirname(os.path.abspath(__file__))))


def bytes_of(*name):
    with open(os.path.join(ROOT, *name), "rb") as f:
        return f.read()


def put(path, b):
    with open(os.path.join(ROOT, path), "wb") as f:
        f.write(b)


def put_logs(folder, logs, names=None):
    """The paths of logs that are put there, as bytes, since a name may have any."""
    paths = [os.path.join(os.fsencode(folder), name) for name in names or [b"%d.log" % i for i in range(len(logs))]]
    for path, b in zip(paths, logs):
        with open(path, "wb") as f:
            f.write(b)
    return paths


def committed(files):
    """Each file of the repository is what the test makes; with --write it is written so."""
    for name, b in files.items():
        if sys.argv[1:] == ["--write"]:
            put(name, b)
        held(os.path.exists(os.path.join(ROOT, name)) and bytes_of(name) == b, f"{name} is not what the script makes")
