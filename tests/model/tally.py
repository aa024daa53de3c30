"""What a test counts: each thing that held, and each that did not, of which the first are told; and its closing line."""
import os
import sys
import threading
from concurrent.futures import ThreadPoolExecutor

TOLD = 40
passed = failed = 0
one_at_a_time = threading.Lock()


def held(good, what, got="", expected=""):
    global passed, failed
    with one_at_a_time:
        passed, failed = passed + bool(good), failed + (not good)
        if not good and failed <= TOLD:
            print(f"{what}: {got[-200:]!r} and not {expected[-200:]!r}" if got or expected else what)


def side_by_side(do, things):
    """Does something with each thing and its number, as many at a time as there are processors."""
    with ThreadPoolExecutor(os.cpu_count()) as pool:
        list(pool.map(do, range(len(things)), things))


def close():
    close_with(passed, failed)


def close_with(passed, failed):
    """For a test that counts by itself. One in which nothing was tried has failed."""
    print(f"{passed} passed, {failed} failed")
    sys.exit(1 if failed or not passed else 0)
