"""python3 tests/start.py FILE.py [WORD..]: starts a Python program of tests/. It finds the modules of its own folder, the package model of tests/, and the modules of tools/.
Each `tests/NAME/run` that is two lines of shell starts the `run.py` beside it so, and `flight`, `planted` and `send` likewise."""
import os
import runpy
import sys

TESTS = os.path.dirname(os.path.abspath(__file__))
del sys.argv[0]
sys.path[:0] = [os.path.dirname(os.path.abspath(sys.argv[0])), TESTS, os.path.join(os.path.dirname(TESTS), "tools")]
import quiet  # noqa: E402

with quiet.ending():
    runpy.run_path(sys.argv[0], run_name="__main__")
