"""Faults of the disk at one call of a program's (tools/preload/refuse_call.c), and a file that another process has locked."""
import os
import signal
import subprocess
import sys
import tempfile
import time
from concurrent.futures import ThreadPoolExecutor
from contextlib import contextmanager
from dataclasses import dataclass

from host import EIO, ENOSPC, SHARED_MEMORY, read

# Runs at a time.
LANES = 4


@dataclass
class Fault:
    """What becomes of a call, and whether the program lives through it."""

    name: str
    does: str
    lives: bool
    error: int = EIO

    def ends(self):
        """How a server may end that can't open its file."""
        return [(1, b"fault\n"), (1, b"48 Unavailable\n")] if self.lives else [(-signal.SIGKILL, b"")]

    def env(self, library, number):
        return {"LD_PRELOAD": library, "CALL_DOES": self.does, "CALL_NUMBER": str(number), "CALL_ERROR": str(self.error), "CALL_SEED": str(number)}


FAULTS = [
    Fault("a call fails", "refuse", True),
    Fault("a call finds no room", "refuse", True, ENOSPC),
    Fault("a call and all after it fail", "refuse-on", True),
    Fault("a call and all after it find no room", "refuse-on", True, ENOSPC),
    Fault("a write is made by half", "half", True),
    Fault("killed before a call", "stop", False),
    Fault("the disk loses what wasn't synced", "lose", False),
    Fault("the disk keeps some of what wasn't synced", "tear", False),
]


def calls_of(library, act):
    """How many calls a program makes that `act` runs with some variables of its environment."""
    with tempfile.TemporaryDirectory(dir=SHARED_MEMORY) as folder:
        told = os.path.join(folder, "calls")
        act(LD_PRELOAD=library, TELL_CALLS=told)
        count = int(read(told))
    assert count > 10, f"only {count} calls"
    return count


class Budget:
    """Whether there is time for another run; without seconds there always is."""

    def __init__(self, seconds=None):
        self.until = None if seconds is None else time.monotonic() + seconds

    def is_left(self):
        return self.until is None or time.monotonic() < self.until


def series(expect, name, numbers, one, budget=Budget()):
    """One run for each number of a call, some at a time, as many as there is time for, and one at least. One that is as it should
    be gives None."""
    wrong, done = [], []

    def run(number):
        if (budget.is_left() or not done) and len(wrong) < 5:
            done.append(number)
            found = one(number)
            if found is not None:
                wrong.append(f"call {number}: {found}")

    with ThreadPoolExecutor(LANES) as lanes:
        list(lanes.map(run, numbers))
    expect(f"{name}, {len(done)} times", done and not wrong, "\n".join(wrong) or "none was run")


def is_begun_alone(folder, left, says):
    """Whether a fault as a copy's first file was opened left it and its log without a byte, over which the next one is written."""
    return all(os.path.getsize(os.path.join(folder, it)) == 0 for it in left) and "unable to open its .partial file" in says


HOLD = """import fcntl, sys
file = open(sys.argv[1], "r+b")
fcntl.lockf(file, fcntl.LOCK_EX, int(sys.argv[3]), int(sys.argv[2]))
print("held", flush=True)
sys.stdin.read()
"""
# The bytes of a database file that SQLite locks.
LOCKS = (0x40000000, 512)


@contextmanager
def holding(path):
    """Another process has the file's lock. It isn't this one, whose locks go with the first file that it closes."""
    with subprocess.Popen([sys.executable, "-c", HOLD, path, *map(str, LOCKS)], stdin=subprocess.PIPE, stdout=subprocess.PIPE) as other:
        other.stdout.readline()
        yield
        other.stdin.close()
