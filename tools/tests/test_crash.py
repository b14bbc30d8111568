"""bucketd is stopped, and is refused what it asks of the disk: what was acknowledged is there once the file is opened anew.

Beside it a model is kept, plain dictionaries of Python (model.py). After each stop SQLite finds no fault in the file and no
block missing, `serve` opens it, and shows of each tenant what the model has, byte for byte: all that was answered, and what was
not answered whole or not at all; `report` and a complete `sweep` say what the model says.

  kills       `serve` under a load of two tenants, killed at random moments, 200 times; now and then `sweep` is killed, too
  calls       over a fixed list of requests, each call that writes, syncs or cuts a file in turn (tools/preload/refuse_call.c): it
              fails once, or it and all after it, for a fault (EIO) or for lack of room (ENOSPC), or writes half; or the program
              is killed before it, and the disk has lost what wasn't synced, or some of it. What can't be done is answered 503,
              and the server lives, unless a failure has shut its store: then it ends with status 1 after the first answer that
              finds it shut, and says why. Where it can't open its file it ends so, too. Where all calls fail from one on, the
              log has the store's code for each 503
  commands    the same of `sweep`, `tenant-add` and `tenant-remove` after a kill, and of `init`
  openings    the same of the first opening of a file that an earlier program made, which brings it over: afterwards all of it is
              of that program's version or of this one's, and opened again it is of this one's, and tells what it told
  full disk   a tmpfs of 2 MiB, where the user is root: a put is refused, which the log says, the rest is read, and once there
              is room all goes on

Without --full: 10 kills, and each 23rd call, as many as there is time for in some seconds; each kind of fault is tried.
"""
import os
import random
import re
import shutil
import signal
import sqlite3
import subprocess
import threading
import time

import pytest

from conftest import need
import model
from faults import FAULTS, Budget, calls_of, series
from host import EIO, PATIENCE, Clock, Server, command, copied, make_host, quick_folder, removed, request, small_disk
from host import fill as fill_disk
from kept_hosts import HOSTS, UNNEEDED, reads_of, told_by, versions_of
from model import Host

pytestmark = pytest.mark.proved
NAMES = ["green", "blue"]
KILLS, SHORT_KILLS = 200, 10
# Seconds of each kind of fault where the series is short.
SHORT = {"kills": 15, "calls": 3, "commands": 1.5, "openings": 1}
SWEEP = ["--limit", "1000000"]
# How a server ends that can't open its file.
ENDS = [(1, b"fault\n"), (1, b"48 Unavailable\n")]
# What a server says that ends since its store is shut.
SHUT = b"the host is shut until it is opened again"
# The bytes of the objects that fill a disk.
FILLING = (12_000_000, 100_000, 20_000, 4_000, 1_000, 10)


def budget(full, name):
    return Budget(None if full else SHORT[name])


def some(total, at, full):
    """The numbers of all calls, or of each 23rd, from another on for each kind."""
    return range(1, total + 1) if full else range(1 + 3 * at % total, total + 1, 23)


def faults(file, folder):
    """What SQLite finds wrong in a copy of the file and its log, or an empty text."""
    copy = copied(file, folder, os.path.basename(file) + "-seen")
    try:
        return "; ".join(model.faults_of(copy)[:5])
    except Exception as error:
        return f"SQLite: {error}"
    finally:
        removed(copy)


class Alternatives:
    """A tenant, and what it may have become by steps that were not answered. `None` where it is known."""

    def __init__(self, tenant):
        self.tenant, self.other, self.step = tenant, None, None

    def unanswered(self, step):
        self.other, self.step = self.tenant.copied(), step
        step.change(self.other)

    def settle(self, shown):
        """Takes the one that is shown; says what is otherwise."""
        if shown == self.tenant.shown():
            self.other = self.step = None
            return []
        if self.other and shown == self.other.shown():
            self.tenant = self.other
            step, self.other, self.step = self.step, None, None
            return [step]
        raise ValueError(difference(self.tenant, shown, self.step))


def difference(tenant, shown, step):
    wanted = tenant.shown()
    for bucket in model.BUCKETS:
        for kind, is_now, was in zip(("versions", "uploads"), shown[0][bucket], wanted[0][bucket]):
            if is_now != was:
                return f"{tenant.name}'s {kind} in {bucket} are {is_now}, not {was}; not answered: {step and step.told()}"
    return f"{tenant.name} uses {shown[1]}, not {wanted[1]}; not answered: {step and step.told()}"


def settle(server, host, name, waiting):
    """Settles what was not answered of a tenant, if anything waits for it, by what a server shows; an error where that is neither."""
    both = Alternatives(host.tenants[name])
    if name in waiting:
        both.unanswered(waiting[name])
    for step in both.settle(model.read(server, name)):
        host.store(step.brings)
    host.tenants[name] = both.tenant
    waiting.pop(name, None)


def settled(program, file, host, waiting):
    """Opens the file anew and settles what was not answered. What is found otherwise, or None."""
    server = Server(program, file)
    try:
        if not server.is_up():
            return f"the file isn't opened: {server.end()}"
        for name in [*host.tenants]:
            settle(server, host, name, dict(waiting))
    except (ValueError, RuntimeError) as error:
        return str(error)
    finally:
        server.end()
    return None


def counted(program, file, host):
    """A report, a complete sweep and a report, against the model. What is found otherwise, or None."""
    for words, wanted in ((["report"], host.report()), (["sweep", *SWEEP], host.swept()), (["report"], host.report())):
        told = command(program, file, *words)
        if told != (wanted, 0):
            return f"{words[0]} says {told}, not {wanted}"
    return None


def checked(program, file, folder, host, waiting):
    """All that is asked of a file after a stop. What is found otherwise, or None."""
    return faults(file, folder) or settled(program, file, host, waiting) or counted(program, file, host)


# ---- kills


class Load(threading.Thread):
    """A tenant's steps, one after another, until one isn't answered."""

    def __init__(self, server, tenant, drawn):
        super().__init__()
        self.server, self.tenant, self.drawn = server, tenant, drawn
        self.done, self.brought, self.waiting, self.wrong = 0, [], None, None

    def run(self):
        try:
            while self.waiting is None and self.wrong is None:
                self.take(self.drawn.step(self.tenant))
        except Exception as error:
            self.wrong = f"{type(error).__name__} {error}"

    def take(self, step):
        answer = step.ask(self.server)
        if answer.status is None:
            self.waiting = step
        elif answer.status in (200, 204):
            step.change(self.tenant)
            self.brought += step.brings
            self.done += 1
        else:
            self.wrong = f"{step.told()} is answered {answer.data[:200]}"


def swept_and_killed(program, file, host, chance):
    """Kills `sweep` at a random moment: it was done, or not. What is found otherwise, or None."""
    before, process = host.report(), subprocess.Popen([program, "sweep", "--file", file, *SWEEP], stdout=subprocess.PIPE, stderr=subprocess.DEVNULL, text=True)
    time.sleep(chance.uniform(0, 0.06))
    process.kill()
    told = process.communicate(timeout=PATIENCE)[0].strip()
    stored, said = host.stored, host.swept()
    now, _ = command(program, file, "report")
    if now == before and not told:
        host.stored = stored
        return None
    return None if now == host.report() and told in ("", said) else f"a killed sweep said {told}, and then report {now}; before it {before}"


def killed(program, file, folder, host, seed, number):
    """One kill under a load: how many steps were done, and what is found otherwise, or None."""
    chance = random.Random(f"{seed} {number}")
    sizes = [0, 10, 3000, 70_000, 200_000] + ([4_000_000] * 3 if number % 8 == 7 else [])
    server = Server(program, file)
    if not server.is_up():
        return 0, f"the file isn't opened: {server.end()}"
    loads = [Load(server, it, model.Drawn(random.Random(chance.random()), sizes)) for it in host.tenants.values()]
    for load in loads:
        load.start()
    time.sleep(chance.uniform(0, 2.0 if number % 8 == 7 else 0.8))
    server.end(signal.SIGKILL)
    for load in loads:
        load.join(PATIENCE)
        host.store(load.brought)
    wrong = [load.wrong for load in loads if load.wrong] + ["a client still waits" for load in loads if load.is_alive()]
    waiting = {load.tenant.name: load.waiting for load in loads if load.waiting}
    if not wrong and number % 4 == 3:
        found = faults(file, folder) or settled(program, file, host, waiting) or swept_and_killed(program, file, host, chance)
        wrong, waiting = [found] if found else [], {}
    found = "; ".join(wrong) or checked(program, file, folder, host, waiting)
    return sum(load.done for load in loads), found


@pytest.mark.cost(60)
def test_kills(expect, program, disk_folder, full, seed=1):
    file, left, steps = os.path.join(disk_folder, "killed"), budget(full, "kills"), 0
    host, number = made(program, file), 0
    while number < (KILLS if full else SHORT_KILLS) and (steps == 0 or left.is_left()):
        number += 1
        done, found = killed(program, file, disk_folder, host, seed, number)
        steps += done
        if not expect(f"kill {number}, after {done} steps", found is None, found):
            break
    expect("steps were answered before the kills", steps > 0, f"{number} kills; the file has {os.path.getsize(file)} bytes")


def made(program, file, names=NAMES, others=()):
    """A new file with a host of some tenants and their buckets, as a server that was killed leaves it, and its model; and of others."""
    make_host(program, file, [*names, *others], "--min-part", str(model.MIN_PART))
    server, host = Server(program, file), Host(names)
    for name in host.tenants:
        for bucket, is_enabled in model.BUCKETS.items():
            answers = [server.ask(name, "PUT", f"/{bucket}")]
            if is_enabled:
                answers.append(server.ask(name, "PUT", f"/{bucket}?versioning", b'{"Status":"Enabled"}'))
            if any(it.status != 200 for it in answers):
                raise RuntimeError(f"no bucket: {[it.data for it in answers]}")
    server.end()
    return host


# ---- each call refused, or the last one


def completed(tenant):
    number = min(tenant.uploads)
    if not tenant.uploads[number][2]:
        raise KeyError("no part is there")
    return model.complete(tenant, number)


def first(tenant):
    return model.put(tenant, "plans", "a", b"first" * 10)


# The requests, and whose each is.
REQUESTS = [
    ("green", first),
    ("blue", lambda it: model.put(it, "plans", "b", b"x" * model.BLOCK + bytes(range(256)) * 140)),
    ("green", lambda it: model.put(it, "kept", "a", b"x" * model.BLOCK + b"version")),
    ("green", lambda it: model.begin(it, "plans", "c/d")),
    ("green", lambda it: model.part(it, min(it.uploads), 1, b"part one" * 3000)),
    ("blue", first),
    ("green", lambda it: model.duplicate(it, "kept", "b", ("plans", "a", it.buckets["plans"]["a"][0]))),
    ("green", lambda it: model.part(it, min(it.uploads), 2, b"part two")),
    ("blue", lambda it: model.put(it, "plans", "b", b"another" * 1000)),
    ("green", completed),
    ("green", lambda it: model.delete(it, "kept", "a")),
    ("green", lambda it: model.delete(it, "plans", "a")),
]


class Asked:
    """The requests one after another on a server that may refuse: an answer of 503 leaves the tenant as it was, and once another
    is answered that is sure."""

    def __init__(self, server, host):
        self.server, self.host, self.waiting, self.refusals, self.wrong = server, host, {}, 0, None

    def all(self):
        for name, make in REQUESTS:
            try:
                step = make(self.host.tenants[name])
            except (KeyError, IndexError, ValueError):
                continue  # what it stands on was refused
            self.take(name, step)
            if self.wrong or not self.server.is_up():
                return

    def take(self, name, step):
        answer = step.ask(self.server)
        if answer.status in (200, 204):
            step.change(self.host.tenants[name])
            self.host.store(step.brings)
            self.waiting = {}
        elif answer.status == 503 and answer.refusal() == 31 and answer.is_whole:
            self.refusals += 1
            self.refused(name, step)
        elif answer.status is None and self.ended():
            self.waiting = self.waiting or {name: step}
        else:
            self.wrong = f"{step.told()} is answered {answer.data[:200]}"

    def ended(self):
        """Whether the server comes to its end."""
        try:
            self.server.process.wait(PATIENCE)
        except subprocess.TimeoutExpired:
            return False
        return True

    def refused(self, name, step):
        """Where the server still answers, it shows what it did before; where it doesn't, the first of those refused may be there."""
        try:
            for it, tenant in self.host.tenants.items():
                Alternatives(tenant).settle(model.read(self.server, it))
            self.waiting = {}
        except model.Refused:
            self.waiting = self.waiting or {name: step}
        except (ValueError, RuntimeError) as error:
            self.wrong = f"after {step.told()} was answered 503: {error}"


def one_run(program, folder, library, base, fault, number):
    """The requests where one call is refused. What is found otherwise, or None; and how many answers were 503."""
    file, host = copied(base, folder, f"called-{number}"), Host(NAMES)
    server = Server(program, file, **fault.env(library, number))
    asked = Asked(server, host)
    is_opened = server.is_up()
    if is_opened:
        asked.all()
    lived = server.is_up()
    status, out, said = server.end()
    end, told = (status, out), f"status {status}: {out} {said[-300:]}"
    is_shut = fault.lives and is_opened and end == (1, b"fault\n") and SHUT in said
    found = asked.wrong
    if not found and fault.lives and is_opened and not lived and not is_shut:
        found = f"the server ended, {told}"
    if not found and not is_opened and end not in (ENDS if fault.lives else [(-signal.SIGKILL, b"")]):
        found = f"the server that couldn't open its file ended, {told}"
    if not found and status != -signal.SIGKILL and is_opened and not is_shut:
        found = f"the server ended, {told}"
    found = found or checked(program, file, folder, host, asked.waiting)
    removed(file)
    return found, asked.refusals


def all_asked(program, file, **env):
    """The requests on a disk that refuses nothing, until the server ends."""
    host = Host(NAMES)
    server = Server(program, file, count=len(REQUESTS), **env)
    asked = Asked(server, host)
    asked.all()
    server.process.wait(PATIENCE)
    status, out, said = server.end()
    if asked.wrong or asked.refusals or status != 0:
        raise RuntimeError(f"the requests on a disk that refuses nothing: {asked.wrong} {asked.refusals} {status} {out} {said}")


def lacking(lines):
    """Of each line of the log its status, and what it says was lacking, if it says so."""
    told = [re.fullmatch(r"\S+ \S+ \S+ \S+ (\d+|-) \S+ \d+ \d+ \d+(?: (\S+))?", line) for line in lines]
    return [it.groups() if it else ("no line", None) for it in told]


def shut(program, folder, library, base, number):
    """A server on a disk that fails from some call on, and what 40 puts got. The call is the first from this number on that shuts the
    store: a sync, or the last write of a commit."""
    broken = next(it for it in FAULTS if (it.does, it.error) == ("refuse-on", EIO))
    for at in range(number, number + 16):
        file = copied(base, folder, f"failing-{at}")
        server = Server(program, file, "--log", **broken.env(library, at))
        asked = [server.ask("green", "PUT", f"/plans/{put}", b"failing" * 1000).status for put in range(40)]
        if None in asked:
            return file, server, asked
        server.end()
        removed(file)
    raise AssertionError("none of 16 calls shuts the store")


def failing(expect, program, folder, library, base, number):
    """What the log tells of puts on a disk that fails from some call on."""
    file, server, asked = shut(program, folder, library, base, number)
    ended = server.process.wait(PATIENCE)
    _, out, said = server.end()
    removed(file)
    statuses = [status for status in asked if status]
    expect("a disk that fails: the server ends, and answers nothing more", (ended, out) == (1, b"fault\n") and SHUT in said
           and asked[len(statuses):] == [None] * (40 - len(statuses)), f"{asked} {ended} {out} {said[-300:]}")
    told = lacking([line for line in said.decode().splitlines()[1:] if SHUT.decode() not in line])
    expect("a disk that fails: one answer finds the store shut, the last", [code for _, code in told].count("store=Closed") == 1
           and told[-1] == ("503", "store=Closed"), f"{told}")
    codes = {code for status, code in told if status == "503"}
    is_told = [status for status, _ in told] == [str(status) for status in statuses] and all(code is None for status, code in told if status != "503")
    expect("a disk that fails: the log says why at each 503, and at no other answer", is_told and codes and codes <= {"store=SystemIoFailure", "store=Closed"}, f"{statuses} {told}")


@pytest.fixture(scope="session")
def base(program):
    """A host of two tenants, as a server that was killed leaves it."""
    folder = quick_folder("crash-")
    file = os.path.join(folder, "base")
    made(program, file)
    yield file
    shutil.rmtree(folder)


@pytest.fixture
def calls(program, base, folder, library):
    """How many calls the requests make, from the program's start to its end."""
    return calls_of(library("refuse_call"), lambda **env: all_asked(program, copied(base, folder), **env))


@pytest.mark.cost(60)
@pytest.mark.parametrize("at", range(len(FAULTS)), ids=[it.name for it in FAULTS])
def test_calls(expect, program, folder, library, base, calls, full, at):
    refusals, fault = [], FAULTS[at]

    def one(number):
        found, refused = one_run(program, folder, library("refuse_call"), base, fault, number)
        refusals.append(refused)
        return found

    series(expect, f"of {calls} calls", some(calls, at, full), one, budget(full, "calls"))
    if fault.does in ("refuse", "refuse-on"):
        expect("some requests are answered 503", sum(refusals) > 0, "none was refused")


def test_log_of_a_disk_that_fails(expect, program, folder, library, base, calls):
    failing(expect, program, folder, library("refuse_call"), base, calls // 2)


# ---- commands


class Order:
    """A command in the middle of which the disk fails or the program is killed: what it says where it is done, and a question
    whose answers before and after it are known; `leaves`: a tenant who is gone after it."""

    def __init__(self, words, told, question, before, after, leaves=None):
        self.words, self.told, self.question, self.before, self.after, self.leaves = words, told, question, before, after, leaves


def one_order(program, folder, library, base, host, order, fault, number):
    """What is found otherwise of a command where one call is refused, or None."""
    file = copied(base, folder, f"ordered-{number}")
    done = command(program, file, *order.words, **fault.env(library, number))
    now = command(program, file, *order.question)[0]
    may_be = [(order.told, 0)] if now == order.after else []
    if now in (order.before, order.after):
        may_be += [("fault", 1), ("48 Unavailable", 1)] if fault.lives else [("", -signal.SIGKILL)]
    if done not in may_be:
        return f"it said {done}, and then {order.question[0]} says {now!r}"
    then = Host([])
    then.tenants = {name: it for name, it in host.tenants.items() if name != order.leaves or now == order.before}
    then.stored = then.needed()
    wrong = faults(file, folder) or settled(program, file, then, {})
    told = command(program, file, "sweep", *SWEEP)[1], command(program, file, "report")[0]
    removed(file)
    return wrong or (None if told == (0, then.report()) else f"a sweep and a report after it say {told}, not {then.report()}")


def one_init(program, folder, library, fault, number):
    """The same of `init`, which is done once more where it wasn't told."""
    file = os.path.join(folder, f"made-{number}")
    removed(file)
    done = command(program, file, "init", **fault.env(library, number))
    if done not in [("host", 0), *([("fault", 1), ("48 Unavailable", 1)] if fault.lives else [("", -signal.SIGKILL)])]:
        return f"it said {done}"
    again = command(program, file, "init")
    if again != ("47 NotAHostFile", 1) and (done[0] == "host" or again != ("host", 0)):
        return f"it said {done}, and once more {again}"
    told = [command(program, file, "tenant-add", "--tenant", "red", "--quota", "5"), command(program, file, "usage", "--tenant", "red")]
    removed(file)
    return None if told == [("tenant red", 0), ("usage red bytes 0 quota 5", 0)] else f"it said {done}, and then {told}"


def orders_of(program, base):
    """A sweep, a new tenant, and one that goes with all it has, on a file that a killed server left, with its log."""
    host = made(program, base)
    server = Server(program, base)
    asked = Asked(server, host)
    asked.all()
    server.end()
    if asked.wrong or asked.refusals:
        raise RuntimeError(f"{asked.wrong} {asked.refusals}")
    before, stored = host.report(), host.stored
    swept, after = host.swept(), host.report()
    host.stored = stored
    blue = host.tenants["blue"].usage()
    return host, {"sweep": Order(["sweep", *SWEEP], swept, ["report"], before, after),
                  "tenant-add": Order(["tenant-add", "--tenant", "red", "--quota", "5"], "tenant red", ["usage", "--tenant", "red"],
                                      "42 NoSuchTenant", "usage red bytes 0 quota 5"),
                  "tenant-remove": Order(["tenant-remove", "--tenant", "blue", "--with-objects"], "removed blue", ["usage", "--tenant", "blue"],
                                         f"usage blue bytes {blue['Bytes']} quota {blue['Quota']}", "42 NoSuchTenant", leaves="blue")}


@pytest.fixture(scope="session")
def ordered(program):
    """A host after requests, as a server that was killed leaves it, and what its model says of some commands."""
    folder = quick_folder("orders-")
    file = os.path.join(folder, "orders")
    yield file, *orders_of(program, file)
    shutil.rmtree(folder)


@pytest.mark.cost(50)
@pytest.mark.parametrize("at", range(len(FAULTS)), ids=[it.name for it in FAULTS])
@pytest.mark.parametrize("name", ["sweep", "tenant-add", "tenant-remove", "init"])
def test_commands(expect, program, folder, library, ordered, full, name, at):
    (file, host, orders), preload, fault = ordered, library("refuse_call"), FAULTS[at]
    if name == "init":
        words, one = [], lambda number: one_init(program, folder, preload, fault, number)
    else:
        words, one = orders[name].words[1:], lambda number: one_order(program, folder, preload, file, host, orders[name], fault, number)
    target = os.path.join(folder, "new") if name == "init" else copied(file, folder, "ordered")
    total = calls_of(preload, lambda **env: command(program, target, name, *words, **env))
    series(expect, f"of {total} calls", some(total, at, full), one, budget(full, "commands"))


# ---- the first opening of an earlier program's file

# What each kept file is as it stands, and once it is brought over, which is one commit.
STEPS = {
    "version-1": [(1, None, None, None, None, None), (5, 0, 0, 1, 0, UNNEEDED)],
    "version-2": [(2, 1, 1, None, None, None), (5, 1, 1, 1, 0, UNNEEDED)],
    "version-3": [(3, 1, 1, 1, None, None), (5, 1, 1, 1, 0, UNNEEDED)],
    "version-4": [(4, 1, 1, 1, 0, None), (5, 1, 1, 1, 0, UNNEEDED)],
}
USED = {"version-1": 41, "version-2": 50, "version-3": 50, "version-4": 50}
OPENING = ("usage", "--tenant", "green", "--force")


def one_opening(program, folder, library, name, fault, number):
    """What is found otherwise of a kept file whose first opening is stopped or refused one call, or None."""
    file, steps, reads = copied(os.path.join(HOSTS, name), folder, f"earlier-{number}"), STEPS[name], reads_of(name)
    done = command(program, file, *OPENING, **fault.env(library, number))
    is_done = done == (f"usage green bytes {USED[name]} quota 1000000", 0)
    if not is_done and done not in ([("fault", 1), ("48 Unavailable", 1)] if fault.lives else [("", -signal.SIGKILL)]):
        return f"it said {done}"
    left = seen_of(file, folder, number)
    if left not in steps or is_done and left != steps[-1]:
        return f"it said {done}, and left {left}"
    server = Server(program, file, "--force")
    answers = [server.exchange(request("green", method, target, body.encode())) for method, target, body in reads]
    server.end()
    wrong = [it for it in zip(reads, answers, told_by(name)) if it[1] != it[2]]
    now = seen_of(file, folder, number)
    removed(file)
    return f"it said {done}, left {left}, and opened again it is {now} and tells {wrong}" if wrong or now != steps[-1] else None


def seen_of(file, folder, number):
    """The version and the tables of a file, with its log, as SQLite reads a copy."""
    copy = copied(file, folder, f"seen-{number}")
    database = sqlite3.connect(copy)
    seen = versions_of(database)
    database.close()
    removed(copy)
    return seen


@pytest.mark.cost(50)
@pytest.mark.parametrize("at", range(len(FAULTS)), ids=[it.name for it in FAULTS])
@pytest.mark.parametrize("name", STEPS)
def test_openings(expect, program, folder, library, full, name, at):
    preload = library("refuse_call")
    total = calls_of(preload, lambda **env: command(program, copied(os.path.join(HOSTS, name), folder, "earlier"), *OPENING, **env))
    series(expect, f"of {total} calls", some(total, at, full), lambda number: one_opening(program, folder, preload, name, FAULTS[at], number), budget(full, "openings"))


# ---- a full disk


def fill(server, host, chance):
    """Puts smaller and smaller objects until each size is refused: the steps that were refused, with their answers. Of the first
    some blocks are written to the log while others are still to come."""
    refused, tenant = [], host.tenants["green"]
    for size in FILLING:
        for number in range(1000):
            step = model.put(tenant, "plans", f"{size}-{number}", chance.randbytes(size))
            answer = step.ask(server)
            if answer.status != 200:
                refused.append((step, answer))
                break
            step.change(tenant)
            host.store(step.brings)
    return refused


def shown_otherwise(server, host):
    """What a server shows otherwise than the model has it, or None."""
    try:
        for name, tenant in host.tenants.items():
            Alternatives(tenant).settle(model.read(server, name))
    except (ValueError, RuntimeError) as error:
        return str(error)
    return None


def codes_of(server):
    """Of each answer its status, and what the log says was lacking."""
    return lacking(server.lines()[1:])


@pytest.fixture
def full_host(program, folder, disk_folder):
    """A server on a disk of 3 MiB by a clock of its own, its model, and a file that gives some room once it is gone."""
    need("gcc")
    with small_disk(os.path.join(disk_folder, "small"), "3m") as place:
        if place is None:
            pytest.skip("no small file system can be mounted here: the user isn't root")
        file, clock = os.path.join(place, "host"), Clock(folder, time.time())
        host, ballast = made(program, file), os.path.join(place, "ballast")
        with open(ballast, "wb") as out:
            out.write(bytes(1_000_000))
        clock.set(clock.now + 60)
        with Server(program, file, "--log", **clock.env) as server:
            yield server, host, clock, file, ballast


def test_full_disk(expect, program, folder, full_host):
    """Puts until there is no room; reads, deletes, and reads in a later second, first without room and then with some."""
    server, host, clock, file, ballast = full_host
    refused = fill(server, host, random.Random(2))
    is_told = all(answer.status == 503 and answer.refusal() == 31 and answer.is_whole for _, answer in refused)
    expect("puts that find no room", len(refused) == len(FILLING) and is_told, [answer.data[:200] for _, answer in refused])
    found = shown_otherwise(server, host)
    expect("nothing of them is left, and the rest is read byte for byte", found is None, found)
    tenant = host.tenants["green"]
    keys = [key for key, entries in tenant.buckets["plans"].items() if entries]
    if not expect("smaller ones find room after the first was refused", len(keys) >= 3, f"{len(keys)} objects"):
        return
    statuses = [stepped(server, host, model.delete(tenant, "plans", keys[0]))]
    found = shown_otherwise(server, host)
    expect("a delete is done, or refused and nothing changed", statuses[0] in (204, 503) and found is None, f"{statuses} {found}")
    clock.set(clock.now + 1)
    later = server.ask("green", "GET", f"/plans/{keys[-1]}")
    body = b"".join(tenant.buckets["plans"][keys[-1]][0].pieces)
    expect("a get in a later second is answered as ever, or refused", later.status == 503 or (later.status, later.body) == (200, body), later)
    told = codes_of(server)
    codes = [code for status, code in told if status == "503"]
    # A body above 1 MiB has a file of its own while it comes. Where that has no room the store isn't asked.
    unasked = codes.count(None)
    is_told = len(codes) - unasked >= 5 and {*codes} - {None} == {"store=DiskFull"} and unasked <= sum(size > 1 << 20 for size in FILLING)
    expect("the log says so at each 503, and at no other answer", is_told and all(code is None for status, code in told if status != "503"), f"{told[-100:]}")
    expect.note(f"{len(keys)} objects: a delete is answered {statuses[0]}, a get in a later second {later.status}")
    os.remove(ballast)
    clock.set(clock.now + 1)
    later = server.ask("green", "GET", f"/plans/{keys[-1]}")
    expect("the same server answers a get in a later second once there is some room", (later.status, later.body) == (200, body), later)
    found = [stepped(server, host, it) for it in (model.delete(tenant, "plans", keys[1]), model.put(tenant, "plans", "new", b"0123456789"))]
    expect("and does a delete and a put", found == [204, 200], found)
    server.end()
    told = command(program, file, "report", "--at", str(clock.now))
    expect("a report counts what is there, or is refused", told in [(host.report(), 0), ("48 Unavailable", 1), ("fault", 1)], told)
    subprocess.run(["mount", "-o", "remount,size=8m", os.path.dirname(file)], check=True)
    found = checked(program, file, folder, host, {}) or emptied(program, file, host) or checked(program, file, folder, host, {})
    expect("given more room: all is there, deletes and puts are done", found is None, found)


def stepped(server, host, step):
    """The status of a step, which the model takes where it is done."""
    answer = step.ask(server)
    if answer.status in (200, 204):
        step.change(host.tenants[step.tenant])
        host.store(step.brings)
    return answer.status


def test_disk_that_others_fill(expect, full_host):
    """No byte is free, and soon the log has no room of its own: then each put and each delete is refused, in each second, until
    there is room."""
    server, host, clock, file, ballast = full_host
    tenant = host.tenants["green"]
    for number in range(20):
        assert stepped(server, host, model.put(tenant, "plans", f"small-{number}", b"small %d" % number)) == 200
    filler = os.path.join(os.path.dirname(file), "filler")
    fill_disk(filler)
    puts = (stepped(server, host, model.put(tenant, "plans", f"tiny-{number}", b"tiny")) for number in range(200))
    deletes = (stepped(server, host, model.delete(tenant, "plans", f"small-{number}")) for number in range(15))
    expect("a put is refused at last, and then a delete", 503 in puts and 503 in deletes, "all were done")
    for second in range(3):
        clock.set(clock.now + 1)
        steps = [model.put(tenant, "plans", f"more-{second}", b"x" * 5000), model.delete(tenant, "plans", f"small-{17 + second}")]
        statuses = [stepped(server, host, it) for it in steps]
        expect(f"a put and a delete in second {second + 1}", statuses == [503, 503], statuses)
    os.remove(filler)
    clock.set(clock.now + 1)
    statuses = [stepped(server, host, it) for it in steps]
    found = shown_otherwise(server, host)
    expect("and once there is room", statuses == [200, 204] and found is None, f"{statuses} {found}")


def emptied(program, file, host):
    """Deletes all objects of a bucket but one, and puts another. What is found otherwise, or None."""
    server, tenant = Server(program, file), host.tenants["green"]
    steps = [model.delete(tenant, "plans", key) for key, entries in tenant.buckets["plans"].items() if entries][1:]
    steps.append(model.put(tenant, "plans", "another", b"another" * 20_000))
    for step in steps:
        answer = step.ask(server)
        if answer.status not in (200, 204):
            server.end()
            return f"{step.told()} is answered {answer.data[:200]}"
        step.change(tenant)
        host.store(step.brings)
    server.end()
    return None
