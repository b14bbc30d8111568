"""Runs trials: in as many copies at once as there are processors and memory, each batch stamped as it ends."""
import os
import re
import tempfile
import threading
import time
from concurrent.futures import ThreadPoolExecutor

from .crates import crates_of
from .edits import Edit
from .rooms import OutOfTime, Room
from .stamps import AGED, FRESH, NEVER
from .trials import AT_ONCE, batches, try_together

# Edits in a batch of a run that ends at a time: what such a batch has found is lost where it is ended.
AT_ONCE_TIMED = 6


def lanes():
    """A check for each processor, fewer if less than 4 GB each are free."""
    with open("/proc/meminfo", encoding="utf-8") as text:
        free = int(re.search(r"MemAvailable: +(\d+)", text.read())[1]) // 4_000_000
    return max(1, min(os.cpu_count(), free))


def end_in(minutes):
    """The time at which so many minutes from now are over, or never if it is 0."""
    return time.monotonic() + minutes * 60 if minutes else float("inf")


class Queue:
    """Wrong bodies to be tried, the first first, in batches of one crate, until a time."""

    def __init__(self, edits, stamps, until=float("inf")):
        self.edits, self.stamps, self.until = [*edits], stamps, until
        self.sums = {it: it.sums() for it in edits}
        self.at_once = AT_ONCE if until == float("inf") else AT_ONCE_TIMED
        self.lock = threading.Lock()
        self.outcomes, self.rooms, self.untried = {}, {}, []

    def next_batch(self):
        """The first edit that is left, with others of its crate that one check can try, or none."""
        with self.lock:
            if not self.edits or time.monotonic() >= self.until:
                return []
            crate = self.edits[0].crate
            found = batches([it for it in self.edits if it.crate is crate], self.at_once)[0]
            self.edits = [it for it in self.edits if it not in found]
            return found

    def room(self, crate, folder):
        """A copy of the crate that no other lane uses."""
        with self.lock:
            free = self.rooms.setdefault(crate.name, [])
            if free:
                return free.pop()
        return Room(crate, tempfile.mkdtemp(dir=folder), self.until)

    def work(self, folder):
        """Tries batches until none is left or the time is over."""
        while batch := self.next_batch():
            room = self.room(batch[0].crate, folder)
            began = time.monotonic()
            try:
                self.keep(try_together(room, batch), time.monotonic() - began)
            except OutOfTime:
                with self.lock:
                    self.untried += batch
            with self.lock:
                self.rooms[batch[0].crate.name].append(room)

    def keep(self, outcomes, seconds):
        """Prints what came of a batch, and stamps those that were refused."""
        with self.lock:
            crates = crates_of(next(iter(outcomes)).crate.root)
            changed = {it for it in outcomes if not os.path.isfile(it.path) or Edit(crates[it.crate.name], it.path).sums() != self.sums[it]}
            refused = [it for it, outcome in outcomes.items() if outcome.is_refused and it not in changed]
            stamped = {(it.crate.name, it.name): self.stamps.refusal(it, self.sums[it], outcomes[it].clauses) for it in refused}
            self.stamps.write(stamped)
            self.outcomes |= outcomes
        print("".join(f"{it}: {outcome}\n" for it, outcome in outcomes.items()), end="")
        print("".join(f"stamp: {stamp.line(name)}" for name, stamp in stamped.items()), end="")
        print("".join(f"{it}: NOT STAMPED: its files changed in the meantime\n" for it in changed), end="")
        left = f"; {(self.until - time.monotonic()) / 60:.0f} minutes are left" if self.until < float("inf") else ""
        print(f"{next(iter(outcomes)).crate.name}: {len(refused)} of {len(outcomes)} refused, in {seconds:.0f} s{left}", flush=True)

    def run(self, jobs):
        """Tries them all, and returns whether none was anything but refused. Those for which there was no time stand in
        `untried`."""
        with tempfile.TemporaryDirectory(prefix="wrong-bodies-") as folder, ThreadPoolExecutor(jobs) as pool:
            for done in [pool.submit(self.work, folder) for _ in range(jobs)]:
                done.result()
        self.untried += self.edits
        return all(it.is_refused for it in self.outcomes.values())


def table(crates, edits, standing):
    """A row a crate: its wrong bodies, how many are fresh, aged and never refused, and the age of the oldest in landings."""
    rows = [f"{'crate':<20} standing fresh aged never oldest"]
    for crate in [*crates, None]:
        of_it = [standing[it] for it in edits if crate in (it.crate, None)]
        counts = [sum(it.status == status for it in of_it) for status in (FRESH, AGED, NEVER)]
        oldest = max((it.landings for it in of_it if it.status != FRESH), default=0)
        if of_it:
            rows.append(f"{crate.name if crate else 'all':<20} {len(of_it):>8} {counts[0]:>5} {counts[1]:>4} {counts[2]:>5} {oldest:>6}")
    return "\n".join(rows)
