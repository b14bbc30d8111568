"""A long run of `bucketd serve` on one file: tenants that change and read all the time, and now and then go with all they have, an operator,
the server's own sweeps, above another number of bytes for each server, a clock that jumps, kills, syncs that fail, and restarts. Each
answer is that of a model in plain Python (model.py).

A request at a kill, or at a sync that fails, may have been done or not: the model has both until the next server shows which. So may the
removal of a tenant, which is then made anew. At the end each tenant has the model's keys, versions and bytes, a report counts them, the
server tells how many bytes nobody needs, SQLite finds no fault, and `check` says `sound`. A line each 10 seconds tells what was done so
far. It ends with the numbers.

SOAK_MINUTES: how long; else 1, with --full 60. SOAK_SEED: another number draws other requests.
"""
import os
import random
import re
import signal
import time

import pytest

from conftest import amount
from host import PATIENCE, command, copied, is_quick, on_disk, removed
from model import Refused
from soak import KEEPS, MUCH, OPEN, REFUSED, SPARE, Jumping, Life, Operator, Removal, Spare, Tally, Tenant, Wrong, measures_of, settle_removal
from test_crash import ENDS, SWEEP, faults, made, settle
from test_operators import figures

NAMES = ["green", "blue", "red", "grey", "pink", "teal"]
# Of a program without a proof, which takes seconds to open a file and tenths of a second for a request.
SLOW_NAMES = NAMES[:2]
LINE = 10
REQUESTS = ["put", "copy", "delete", "begin", "part", "complete", "abort", "get", "get of nothing", "range", "head", "list", "usage"]
EVENTS = ["kills", "stops", "failed syncs", "jumps of the clock", REFUSED, OPEN, "orders", "tenants that went", "sweeps that were ordered", "own sweeps that were seen",
          "backups"]
# How long servers live, in seconds.
LIVES, SLOW_LIVES = [2, 2, 5, 5, 10, 20, 90], [15, 25, 90]


def garbage_of(life):
    """How many bytes nobody needs by a server's first count."""
    ends = time.monotonic() + PATIENCE
    while (found := figures(life.order(op="metrics")).get("bucketd_server_garbage_bytes")) is None and life.is_up() and time.monotonic() < ends:
        time.sleep(0.1)
    return found


class Soak:
    """One file, its model, and the servers that live on it one after another."""

    def __init__(self, program, folder, place, library, expect, seed):
        self.program, self.expect, self.chance, self.tally = program, expect, random.Random(seed), Tally()
        self.file, self.door, self.library = os.path.join(folder, "soaked"), os.path.join(place, "door"), library
        self.clock, self.spare, self.waiting, self.wrong = Jumping(place, self.tally, random.Random(seed + 1)), Spare(), {}, []
        self.host = made(program, self.file, NAMES if is_quick(program) else SLOW_NAMES, [SPARE])
        self.lives = LIVES if is_quick(program) else SLOW_LIVES
        self.begun, self.told, self.most, self.largest, self.longest = time.monotonic(), 0, 0, 0, 0

    def passed(self):
        return time.monotonic() - self.begun

    def wait(self, seconds, life):
        """Waits for so long, or until a server has ended, and tells what was done when it is time."""
        ends = time.monotonic() + seconds
        while time.monotonic() < ends and life.is_up():
            self.tell()
            time.sleep(0.05)

    def tell(self):
        """A line each 10 seconds."""
        if self.passed() >= self.told + LINE:
            self.told = int(self.passed())
            done = {"requests": sum(self.tally.of(REQUESTS).values())} | self.tally.of(EVENTS)
            told = ", ".join(f"{count} {kind}" for kind, count in done.items() if count)
            self.expect(f"{self.told} s: {told}; file, log and packs have {sum(on_disk(self.file)) >> 10} KiB", not self.wrong, self.wrong)

    def live(self, seconds):
        """A server for so long, or until its sync fails. It is killed at the end, or stopped."""
        end = self.chance.choices(["kill", "stop", "fail"], [6, 1, 4])[0]
        failing = int(20 * 1.4 ** self.chance.uniform(0, 14 if is_quick(self.program) else 6)) if end == "fail" else None
        self.clock.rest()
        self.tell()
        removed(self.file + "-copy")
        with Life(self.program, self.file, self.door, self.clock, self.library, failing, self.chance.choice(KEEPS)) as life:
            try:
                if life.is_up() and self.settle(life):
                    self.load(life, seconds, signal.SIGTERM if end == "stop" else signal.SIGKILL)
            except Refused as error:
                # A server whose store is shut ends with the answer after the first one that says so.
                self.spare.settle(life)
                if not life.is_over():
                    raise Wrong(error) from error
            self.end(life, signal.SIGTERM if end == "stop" else signal.SIGKILL)

    def settle(self, life):
        """Reads all that there is, by which what was not answered is settled. Whether the server still lives then."""
        for name, tenant in [*self.host.tenants.items()]:
            if isinstance(self.waiting.get(name), Removal):
                settle_removal(life, tenant, self.waiting)
            settle(life, self.host, name, self.waiting)
            self.tell()
        self.spare = self.spare.settle(life)
        return not self.spare.other and life.is_up()

    def load(self, life, seconds, number):
        """All clients for so long, and then the server's end."""
        chance, measures = self.chance, measures_of(self.program)
        tenants = [Tenant(life, self.tally, it, random.Random(chance.random()), *measures) for it in self.host.tenants.values()]
        clients = [*tenants, Operator(life, self.tally, self.program, self.spare, random.Random(chance.random()))]
        for it in clients:
            it.start()
        self.clock.rest(may=True)
        self.wait(seconds, life)
        if life.is_up():
            life.ending.set()
            life.process.send_signal(number)
        for it in clients:
            it.join(PATIENCE)
        self.clock.rest()
        self.wrong += [it.wrong for it in clients if it.wrong] + ["a client still waits" for it in clients if it.is_alive()]
        self.waiting |= {it.tenant.name: it.waiting for it in tenants if it.waiting}

    def end(self, life, number):
        """Counts how a server ended."""
        is_ended = not life.is_up() and not life.ending.is_set()
        status, out, said = life.end(number)
        if is_ended and life.fails:
            is_well = (status, out) in ENDS
            self.wrong += [] if is_well else [f"after a failed sync the server ended with {status} {out} {said[-300:]}"]
            self.tally.add("failed syncs")
        elif is_ended:
            self.wrong.append(f"the server ended: {status} {out} {said[-300:]}")
        else:
            self.tally.add("stops" if number == signal.SIGTERM else "kills")
        (rows, log, packs), needed = on_disk(self.file), sum(self.host.needed().values())
        size = rows + packs
        self.most, self.largest, self.longest = max(self.most, size / max(needed, 1 << 20)), max(self.largest, size), max(self.longest, log)

    def has_all(self):
        """Whether tenants, one that went, the operator and the end of a server have been there."""
        return all(sum(self.tally.of(kinds).values()) for kinds in (REQUESTS, ["orders"], ["tenants that went"], ["kills", "stops", "failed syncs"]))

    def run(self, seconds):
        """Servers one after another for so long, or on a busy machine until each kind of thing was done. Whether all was well."""
        try:
            while (self.passed() < seconds or not self.has_all()) and not self.wrong:
                self.live(min(self.chance.choice(self.lives) * self.chance.uniform(0.5, 1.1), max(5, seconds - self.passed())))
        except (Wrong, ValueError, RuntimeError) as error:
            self.wrong.append(f"{type(error).__name__}: {error}")
        finally:
            self.clock.rest()
        return not self.wrong

    def compare(self, folder):
        """The file against the model, once all is over."""
        with Life(self.program, self.file, self.door, self.clock, self.library, keep=MUCH) as life:
            try:
                found = None if life.is_up() and self.settle(life) else f"the file isn't opened: {life.end()}"
            except (Wrong, ValueError, RuntimeError) as error:
                found = f"{type(error).__name__}: {error}"
            stored, garbage = life.order(op="report"), garbage_of(life)
        self.expect("at the end each tenant has the model's keys, versions and bytes", found is None, found)
        is_counted = garbage is not None and garbage == int(stored.split()[3]) - sum(self.host.needed().values())
        self.expect("the server tells how many bytes nobody needs", is_counted, f"{garbage}, where {stored!r}")
        swept = command(self.program, self.file, "sweep", *SWEEP, "--force")
        self.host.stored = self.host.needed()
        report = command(self.program, self.file, "report", "--force")
        is_counted = re.fullmatch(r"sweep uploads 0 blocks \d+ complete", swept[0]) and report == (self.host.report(), 0)
        self.expect("a sweep, and a report that counts what the model has", is_counted, f"{swept} {report}, not {self.host.report()}")
        found = faults(self.file, folder)
        self.expect("SQLite finds no fault", not found, found)
        told = command(self.program, self.file, "check")
        self.expect("check at the end", told == ("sound", 0), told)

    def numbers(self):
        """What was done in all."""
        tally = self.tally
        yield "requests: " + ", ".join(f"{count} {kind}" for kind, count in tally.of(REQUESTS).items())
        yield "events: " + ", ".join(f"{count} {kind}" for kind, count in tally.of(EVENTS).items())
        yield (f"at a server's end the file and its packs had at most {self.largest / 1e6:.1f} MB, and at most {self.most:.1f} times the bytes that were needed"
               f" (or 1 MiB, if those were fewer); its log had at most {self.longest / 1e6:.1f} MB")
        yield f"of {len(tally.gets)} gets half were answered within {1000 * tally.slowest(0.5):.1f} ms, 99 % within {1000 * tally.slowest(0.99):.1f} ms"


@pytest.fixture
def soak(program, disk_folder, folder, library, expect):
    it = Soak(program, disk_folder, folder, library("refuse_call"), expect, amount("SOAK_SEED", 1))
    yield it
    it.clock.end()


@pytest.mark.cost(120)
@pytest.mark.proved
def test_soak(expect, soak, folder, full):
    minutes = float(os.environ.get("SOAK_MINUTES") or (60 if full else 1))
    is_well = soak.run(60 * minutes)
    expect(f"each answer in {minutes:g} minutes is the model's", is_well, "\n".join(soak.wrong))
    if is_well:
        soak.compare(folder)
    for line in soak.numbers():
        expect.note(line)
    expect("tenants, one that went, an operator and ends of servers were there", soak.has_all(), "some were not")


@pytest.mark.cost(40)
@pytest.mark.proved
def test_loss_is_told(expect, soak, folder):
    """What the run is worth: of a file that has lost what came since its first server it says so."""
    copy = copied(soak.file, folder, "before")
    while not soak.wrong and not any(it.bodies() for it in soak.host.tenants.values()):
        soak.live(2)
    removed(soak.file)
    copied(copy, os.path.dirname(soak.file), os.path.basename(soak.file))
    told = soak.run(soak.passed() + 1)
    expect.note("; ".join(soak.wrong)[:400])
    expect("a loss is told", not told and "not answered" in soak.wrong[0], soak.wrong)
