"""Proves libraries of crates into their out/, several at once: what the gate does one job a check, in less time and without its
verdict."""
import os
import shutil
import subprocess
import threading
import time

from .crates import crates_of, kit_folder
from .rooms import words_over

# Jobs of one check at most: more of them wait for one another.
MOST_JOBS = 3


class Proofs:
    """Crates whose libraries are to be proved, and how far that is."""

    def __init__(self, crates, jobs):
        self.left = {it.name: it for it in crates}
        self.free, self.going, self.failed = jobs, 0, []
        self.turn = threading.Condition()
        costs = {it.name: sum(map(len, it.files().values())) for it in crates}
        # The longest way that is left from each crate on.
        self.ways = {}
        for it in reversed(crates):
            above = [self.ways[other.name] for other in crates if it in other.uses]
            self.ways[it.name] = costs[it.name] + max(above, default=0)

    def ready(self):
        """Those whose lower libraries are there, the one with most above it first."""
        found = [it for it in self.left.values() if all(use.is_proved for use in it.uses)]
        return sorted(found, key=lambda it: -self.ways[it.name])

    def run(self):
        """Proves all that can be. Returns those that aren't proved."""
        with self.turn:
            while self.start_ready() or self.going:
                self.turn.wait()
        return [*self.failed, *self.left.values()]

    def start_ready(self):
        """Starts what is ready, and returns whether anything was."""
        ready = self.ready()
        for number, crate in enumerate(ready):
            if not self.free:
                break
            jobs = min(MOST_JOBS, max(1, self.free - (len(ready) - number - 1)))
            self.free, self.going = self.free - jobs, self.going + 1
            del self.left[crate.name]
            threading.Thread(target=self.prove, args=(crate, jobs)).start()
        return bool(ready)

    def prove(self, crate, jobs):
        began, is_well = time.monotonic(), False
        try:
            is_well = is_library_made(crate, jobs)
        finally:
            # Whatever happens, no other one waits for this one's end in vain.
            with self.turn:
                self.free, self.going = self.free + jobs, self.going - 1
                self.failed += [] if is_well else [crate]
                said = f"proved, in {time.monotonic() - began:.0f} s with {jobs} jobs" if is_well else f"NOT PROVED: {log_of(crate)}"
                print(f"{crate.name}: {said}", flush=True)
                self.turn.notify()


def log_of(crate):
    """The file of what the checker said."""
    return f"{crate.folder}/out/proof.log"


def is_library_made(crate, jobs):
    """Proves a crate and makes its library, and notes of which files it is, unless they change meanwhile."""
    made_of, new = crate.made_of, f"{crate.library}.new"
    shutil.rmtree(new, ignore_errors=True)
    os.makedirs(os.path.dirname(new), exist_ok=True)
    words = [f"{kit_folder()}/bin/rattle", "build", *words_over(crate), "--jobs", str(jobs), "--statements", "-o", new, "--empty-contracts"]
    with open(log_of(crate), "w", encoding="utf-8") as log:
        ran = subprocess.run(words, cwd=crate.folder, stdin=subprocess.DEVNULL, stdout=log, stderr=subprocess.STDOUT)
    if ran.returncode or crates_of(crate.root)[crate.name].made_of != made_of:
        return False
    shutil.rmtree(crate.library, ignore_errors=True)
    os.rename(new, crate.library)
    with open(crate.marker, "w", encoding="utf-8") as marker:
        marker.write(made_of)
    return True


def build_libraries(crates):
    """Makes the libraries of these crates, each after those that it uses, where they aren't proved. Those that aren't then are
    returned."""
    return Proofs([it for it in crates if not it.is_proved], os.cpu_count()).run()
