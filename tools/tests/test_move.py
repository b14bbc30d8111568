"""A tenant moves from one host to another by `bucketd export` and `bucketd import`: requests that are drawn, the first half on the
one host and the second on the other, are answered byte for byte as all of them are on one host; the other tenants, who have
equal bytes, are answered as before; what is refused changes nothing; and whatever stops an export, or leaves it no room, there
is a whole file or none."""
import os
import random
import re
import shutil
import signal
import sqlite3
import stat
import tempfile

import pytest

from conftest import need
from faults import FAULTS, calls_of, is_begun_alone, series
from host import PACKS, Answer, Clock, Server, command, contents_of, copied, is_quick, make_host, names, on_disk, packs_of, read, request, run
from two_tenants import BUCKETS, DATED, KEYS, Drawn

START = 1_800_000_000
# The second at which 2096 begins.
LATE = 3_976_214_400
# What other tenants have, too: none, one block, some blocks.
SHARED = [b"", b"abc", bytes(range(256)) * 300, b"x" * 70_000, b"x" * 140_000]


class Requests(Drawn):
    """What a tenant asks; some of it is refused. `found`: each as method, target, body and fields."""

    def __init__(self, seed):
        super().__init__(random.Random(seed))
        self.found = []
        self.beginning("green")
        self.first = [*self.found]

    def body(self):
        return self.pick(*SHARED, self.chance.randbytes(self.pick(1, 100, 66_000)))

    def ask(self, tenant, method, target, body=b"", *fields, length=None, secret=None):
        if length is None and secret is None:
            self.found.append((method, target, body, fields))

    def order(self, *_, **members):
        """An operator's events are none of a tenant's."""


def drawn_requests(seed, count):
    it = Requests(seed)
    while len(it.found) < len(it.first) + count:
        it.step("green")
    return it.found


# Of another tenant, whose bodies are the same.
OTHERS = [*Requests(0).first, *(("PUT", f"/kept/{n}", body, ()) for n, body in enumerate(SHARED))]


def all_told(numbers):
    """What shows what a tenant has: of each key so many versions and uploads."""
    for bucket in BUCKETS:
        for query in ("?versions", "?list-type=2", "?uploads", "?versioning", "?lifecycle"):
            yield "GET", f"/{bucket}{query}", b"", ()
        for key in KEYS:
            path = f"/{bucket}/{key}"
            yield "GET", path, b"", ()
            yield "GET", path + "?retention", b"", ()
            for number in range(1, numbers):
                yield "GET", f"{path}?versionId={number:016x}", b"", ()
    for number in range(1, min(numbers, 12)):
        for bucket in BUCKETS:
            for key in KEYS:
                yield "GET", f"/{bucket}/{key}?uploadId={number:016x}", b"", ()
    yield "GET", "/?usage", b"", ()
    yield "GET", "/", b"", ()


def answers(program, clock, file, tenant, requests, at):
    """The bytes of the answers to a tenant's requests, one a second from a moment on."""
    server = Server(program, file, "--force", **clock.env)
    told = []
    for number, (method, target, body, fields) in enumerate(requests):
        clock.set(at + number)
        told.append(server.exchange(request(tenant, method, target, body, fields)))
    server.end(signal.SIGTERM)
    return told


def export(program, folder, file="a", tenant="green", to="t", **env):
    return run(program, folder, "export", "--file", file, "--tenant", tenant, "--to", to, **env)


def import_(program, folder, file="b", given="t", **env):
    return run(program, folder, "import", "--file", file, "--from", given, **env)


def held(folder, name):
    """A host's bytes, those of its packs, and how many its log has: its header is written anew at each open."""
    path = os.path.join(folder, name)
    return read(path), contents_of(packs_of(path)), on_disk(path)[1]


def make(program, clock, folder, name, tenants, *options):
    return make_host(program, os.path.join(folder, name), tenants, *options, **clock.env)


def differences(found, wanted, requests):
    return [(requests[n][:2], a[:200], b[:200]) for n, (a, b) in enumerate(zip(found, wanted)) if a != b][:3]


@pytest.fixture
def clock(folder):
    need("gcc")
    os.mkdir(os.path.join(folder, "clock-of-programs"))
    return Clock(os.path.join(folder, "clock-of-programs"), START)


@pytest.mark.cost(300)
@pytest.mark.proved
@pytest.mark.parametrize("seed, options_a, options_b", [(1, (), ()), (2, ("--digest", "fast"), ()), (3, (), ("--digest", "fast"))], ids=["alike", "from fast", "to fast"])
def test_moved(expect, program, clock, folder, seed, options_a, options_b):
    """One host all along, and one from which the tenant is moved in the midst."""
    count = 400 if is_quick(program) else 40
    requests, half = drawn_requests(seed, count), 12 + count // 2
    everything = [*all_told(40 if is_quick(program) else 5)]
    whole = make(program, clock, folder, "whole", ["blue", "green"])
    a = make(program, clock, folder, "a", ["green", "red"], *options_a)
    b = make(program, clock, folder, "b", ["blue", "grey"], *options_b)
    for file, tenant in ((whole, "blue"), (a, "red"), (b, "blue")):
        answers(program, clock, file, tenant, OTHERS, START)
    blue = answers(program, clock, b, "blue", everything, START + 100)
    red = answers(program, clock, a, "red", everything, START + 100)
    at = START + 10_000
    found = answers(program, clock, a, "green", requests[:half], at)
    wanted = answers(program, clock, whole, "green", requests, at)
    expect(f"seed {seed}: the first half", found == wanted[:half], differences(found, wanted, requests))
    some = {Answer(it, "GET").status for it in wanted}
    expect("some are done and some refused", {200, 404} <= some, some)
    before = held(folder, "a")
    told = export(program, folder)
    expect("an export", told[:2] == ("export", 0), told)
    expect("which leaves the first host's file", held(folder, "a") == before, "not")
    expect("its mode", stat.S_IMODE(os.stat(os.path.join(folder, "t")).st_mode) == 0o600, "another")
    expect("nothing lies beside it but its packs", not [it for it in os.listdir(folder) if it.startswith(("t.", "t-")) and it != "t" + PACKS], os.listdir(folder))
    expect("the exported host", command(program, os.path.join(folder, "t"), "check")[0] == "sound", command(program, os.path.join(folder, "t"), "check"))
    seen = answers(program, clock, copied(os.path.join(folder, "t"), folder, "seen"), "green", everything, at + half)
    same = answers(program, clock, copied(a, folder, "seen-a"), "green", everything, at + half)
    expect("it shows what the first host shows of the tenant", seen == same, differences(seen, same, everything))
    alone = command(program, os.path.join(folder, "seen"), "usage", "--tenant", "red", "--force")
    expect("and of no other", alone == ("42 NoSuchTenant", 1), alone)
    after = answers(program, clock, a, "red", everything, at + half)
    expect("the first host's other tenant", after == red, differences(after, red, everything))
    told = import_(program, folder)
    expect("an import", told[:2] == ("tenant green", 0), told)
    state = held(folder, "b")
    expect("a second one", import_(program, folder)[:2] == ("41 TenantExists", 1), import_(program, folder))
    expect("changes nothing", held(folder, "b") == state, "it does")
    expect("the second host", command(program, b, "check")[0] == "sound", command(program, b, "check"))
    found = answers(program, clock, b, "green", requests[half:], at + half)
    expect("the second half there", found == wanted[half:], differences(found, wanted[half:], requests[half:]))
    later = at + len(requests)
    found, wanted = (answers(program, clock, it, "green", everything, later) for it in (b, whole))
    expect("all that it has at the end", found == wanted, differences(found, wanted, everything))
    after = answers(program, clock, b, "blue", everything, later)
    expect("the second host's other tenant", after == blue, differences(after, blue, everything))
    expect("the second host, later", command(program, b, "check")[0] == "sound", command(program, b, "check"))


@pytest.fixture
def moved(program, clock, folder):
    """A host with two tenants, one of them exported to `t`, and another host to which it was imported."""
    make(program, clock, folder, "a", ["green", "red"])
    make(program, clock, folder, "b", ["blue", "grey"])
    drawn = drawn_requests(1, 200 if is_quick(program) else 20)
    for tenant, requests in (("green", drawn), ("red", OTHERS)):
        answers(program, clock, os.path.join(folder, "a"), tenant, requests, START)
    assert export(program, folder)[:2] == ("export", 0)
    return folder


@pytest.mark.cost(120)
@pytest.mark.proved
def test_refused(expect, program, clock, folder, moved):
    """What changes nothing."""
    assert import_(program, folder)[:2] == ("tenant green", 0)
    make(program, clock, folder, "few", ["blue"], "--max-body", "1000000")
    make(program, clock, folder, "none", [])
    open(os.path.join(folder, "empty"), "w").close()
    state = {it: held(folder, it) for it in ("a", "b", "few", "none", "t")}
    before = names(folder)
    for name, told, wanted in (
            ("a tenant that isn't there", export(program, folder, tenant="nobody", to="n"), ("42 NoSuchTenant", 1)),
            ("a text that is no name", export(program, folder, tenant="No Body", to="n"), ("42 NoSuchTenant", 1)),
            ("a name that is taken", export(program, folder, to="t"), ("fault", 1)),
            ("a host that isn't there", export(program, folder, file="missing", to="n"), ("47 NotAHostFile", 1)),
            ("an empty file", export(program, folder, file="empty", to="n"), ("47 NotAHostFile", 1)),
            ("an import of nothing", import_(program, folder, given="missing"), ("47 NotAHostFile", 1)),
            ("of an empty file", import_(program, folder, given="empty"), ("47 NotAHostFile", 1)),
            ("of a host without tenants", import_(program, folder, given="none"), ("47 NotAHostFile", 1)),
            ("of a host with two", import_(program, folder, given="a"), ("47 NotAHostFile", 1)),
            ("into nothing", import_(program, folder, file="missing"), ("47 NotAHostFile", 1)),
            ("into a host of other limits", import_(program, folder, file="few"), ("fault", 1)),
            ("into itself", import_(program, folder, file="t"), ("fault", 1))):
        expect(name, told[:2] == wanted, told)
    expect("nothing is changed by that", {it: held(folder, it) for it in state} == state and names(folder) == before, names(folder))


@pytest.mark.cost(100)
@pytest.mark.proved
def test_in_the_way(expect, program, folder):
    """What another program or person put under the name in which an export begins: it stays, and there is no export."""
    host = make_host(program, os.path.join(folder, "a"), ["green"])
    assert command(program, host, "usage", "--tenant", "green", "--force")[1] == 0  # (a host that was used has its log beside it)
    with sqlite3.connect(os.path.join(folder, "foreign")) as database:
        database.execute("CREATE TABLE mine (it TEXT)")
    database.close()
    for name, tail, source in (("a text", ".moving", __file__), ("another program's database", ".moving", os.path.join(folder, "foreign")),
                               ("a text as its log", ".moving-wal", __file__)):
        beside = os.path.join(folder, "n" + tail)
        shutil.copy(source, beside)
        before = names(folder)
        told = export(program, folder, to="n")
        expect(f"{name} in its way", told[:2] == ("fault", 1) and "unable to create n: " in told[2] and ".moving" in told[2], told)
        expect("which stays", read(beside) == read(source) and names(folder) == before, names(folder))
        os.remove(beside)
    shutil.copy(os.path.join(folder, "foreign"), os.path.join(folder, "n.partial"))
    before = names(folder)
    told = export(program, folder, to="n")
    expect("another program's database where the copy is written", told[:2] == ("fault", 1) and "its .partial file is another" in told[2], told)
    expect("stays too", read(os.path.join(folder, "n.partial")) == read(os.path.join(folder, "foreign")) and names(folder) == before, names(folder))
    os.remove(os.path.join(folder, "n.partial"))
    os.mkdir(os.path.join(folder, "n.moving"))
    told = export(program, folder, to="n")
    expect("a folder in its way", told[:2] == ("fault", 1) and os.path.isdir(os.path.join(folder, "n.moving")), told)
    os.rmdir(os.path.join(folder, "n.moving"))
    for tail in ("-wal", "-journal", ".partial", ".moving", ".packs"):
        told = export(program, folder, to="n" + tail)
        expect(f"a name that ends in {tail}", told[:2] == ("fault", 1) and "the name ends in " in told[2] and not os.path.exists(os.path.join(folder, "n" + tail)), told)


def statuses(program, clock, file, tenant, requests, at):
    return [Answer(it, "DELETE").status for it in answers(program, clock, file, tenant, requests, at)]


# A locked bucket, a version in it that is locked, and what would end that lock.
LOCK = [("PUT", "/vault", b"", ("x-amz-bucket-object-lock-enabled: true",)), ("PUT", "/vault/a", b"abc", DATED)]
END_IT = [("DELETE", "/vault/a?versionId=0000000000000001", b"", ())]


@pytest.mark.cost(200)
@pytest.mark.proved
def test_locked_and_dated(expect, program, clock, folder):
    """A tenant with a locked version: it is locked in the other host, too. One of a host whose clock was years ahead would end all locks
    there, so it comes only where that is asked for."""
    hosts = [make(program, clock, folder, *it) for it in (("lock-a", ["green"]), ("lock-b", ["blue"]))]
    put = [statuses(program, clock, file, tenant, LOCK, START) for file, tenant in zip(hosts, ("green", "blue"))]
    expect("versions are locked", put == [[200, 200]] * 2, put)
    told = export(program, folder, "lock-a", "green", "lock-t"), import_(program, folder, "lock-b", "lock-t", **clock.env)
    expect("one moves", [it[:2] for it in told] == [("export", 0), ("tenant green", 0)], told)
    expect("and is locked there", statuses(program, clock, hosts[1], "green", END_IT, START + 100) == [403], "not")
    clock.set(LATE)
    answers(program, clock, make(program, clock, folder, "late", ["grey"]), "grey", LOCK[:1], LATE)
    told = export(program, folder, "late", "grey", "late-t")
    expect("an export of a host whose clock was years ahead", told[:2] == ("export", 0), told)
    clock.set(START + 200)
    for name in ("lock-c", "lock-d"):
        copied(hosts[1], folder, name)
    state = held(folder, "lock-b")
    told = import_(program, folder, "lock-b", "late-t", **clock.env)
    expect("is not imported", told[:2] == ("fault", 1) and "timestamp is 2096-01-01T00:00:0" in told[2], told)
    days = (re.findall(r"--clock-leap (\d+)", told[2]) or ["0"])[0]
    less = run(program, folder, "import", "--file", "lock-b", "--from", "late-t", "--clock-leap", str(int(days) - 1), **clock.env)
    expect("nor where fewer days are given than it takes", less[:2] == ("fault", 1), less)
    expect("which changes nothing", held(folder, "lock-b") == state, "it does")
    expect("and ends no lock", statuses(program, clock, hosts[1], "blue", END_IT, START + 300) == [403], "it does")
    for name, words in (("lock-c", ("--force",)), ("lock-d", ("--clock-leap", days))):
        told = run(program, folder, "import", "--file", name, "--from", "late-t", *words, **clock.env)
        expect(f"it is where {words[0]} is given", told[:2] == ("tenant grey", 0), told)


def is_packed_alike(one, other):
    """Whether two exports of one tenant have the same packs."""
    return contents_of(packs_of(os.path.join(one, "t"))) == contents_of(packs_of(os.path.join(other, "t")))


def stopped_export(program, folder, library, fault, number):
    """An export that is killed before a call, or is refused it: what is found otherwise, or None. A file of its name is the whole
    one."""
    with tempfile.TemporaryDirectory(dir=folder) as it:
        copied(os.path.join(folder, "a"), it)
        told = export(program, it, **fault.env(library, number))
        there = os.path.exists(os.path.join(it, "t"))
        if there != (told[:2] == ("export", 0)) and fault.lives:
            return f"it ended with {told}, {os.listdir(it)}"
        if there:
            return None if read(it, "t") == read(folder, "t") and is_packed_alike(it, folder) else f"a file of other bytes, {told}"
        left = [name for name in os.listdir(it) if name.startswith("t.")]
        if fault.lives and left and not is_begun_alone(it, left, told[2]):
            return f"it left {left}"
        told = export(program, it)
        return None if told[:2] == ("export", 0) else f"the next one ended with {told}"


def stopped_import(program, folder, library, fault, number):
    """The same of an import: the tenant is there, all of it, or isn't."""
    with tempfile.TemporaryDirectory(dir=folder) as it:
        copied(os.path.join(folder, "b"), it)
        copied(os.path.join(folder, "t"), it)
        told = import_(program, it, **fault.env(library, number))
        again = import_(program, it)
        if again[:2] != ("41 TenantExists", 1) and (told[1] == 0 or again[:2] != ("tenant green", 0)):
            return f"after {told} the next one ended with {again}"
        found = command(program, os.path.join(it, "b"), "check")
        return None if found[0] == "sound" else f"after {told} the host isn't sound: {found}"


@pytest.mark.cost(300)
@pytest.mark.proved
@pytest.mark.parametrize("fault", [FAULTS[1], FAULTS[5]], ids=lambda it: it.name)
@pytest.mark.parametrize("act", [export, import_], ids=["export", "import"])
def test_each_call(expect, program, moved, library, act, fault):
    """Exports and imports that are stopped before a call, or find no room."""
    preload = library("refuse_call")
    with tempfile.TemporaryDirectory(dir=moved) as it:
        for name in "abt" if act is import_ else "a":
            copied(os.path.join(moved, name), it)
        count = calls_of(preload, lambda **env: act(program, it, **env))
    numbers = range(1, count + 1, 1 if is_quick(program) else max(1, count // 6))
    one = stopped_export if act is export else stopped_import
    series(expect, f"of {count} calls", numbers, lambda number: one(program, moved, preload, fault, number))
