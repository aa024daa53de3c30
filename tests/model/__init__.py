"""The second opinion of the tests, in plain Python, written from the papers and not from the code: the receiver, the watch, the gauge, acknowledge blocks, survey
messages, the log, its index and its count, a season and its pits, each with what the programs over it print. `built` and `called` run what
is built; `files` reads and writes, and `tally` counts what held.

A test has it by `from model import ..`, since tests/start.py starts it; a module here names another by `from .other import ..`."""
