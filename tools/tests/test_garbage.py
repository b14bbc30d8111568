"""What nobody needs: how many bytes of it a server tells (`metrics`), after each kind of request and order; and when it sweeps by itself
(`--keep-garbage`): as soon as there are more than that, also while nobody asks and what an earlier server left, and never before.

A server counts again after requests that may write, and after orders.
"""
import os
import random
import signal
import subprocess
import time

import pytest

import model
from conftest import amount, need
from host import PATIENCE, Clock, command, copied, is_fast, is_quick, killed_under, make_host, on_disk, opened, removed
from kept_hosts import HOSTS, UNNEEDED, kept_names
from s3_requests import Client, Gateway, build_gateway, write_keys
from test_crash import Load, made
from test_files import SMALL
from test_operators import Operated, figures
from test_removal import ENABLED, compact

NAMES = ["green", "blue"]
MIB, MUCH = 1 << 20, "1TiB"
# What is kept without the option, if a tenth of what is needed isn't more.
DEFAULT = 64 * MIB
# Of a tenant who overwrites one object.
QUOTA, LARGE = 17 * MIB, 8 * MIB
# Seconds within which a sweep of a few blocks is over, and what was changed is counted.
SOON, COUNTED = 10, 10
DAY = 86_400


class Kept(Operated):
    """A server that is asked how many bytes nobody needs."""

    def __init__(self, program, file, keep=None, *options, timeout=60, **more):
        super().__init__(program, file, *(["--keep-garbage", keep] if keep else []), *options, timeout=timeout, **more)

    def figure(self, name):
        return figures(self.order(op="metrics")).get(f"bucketd_server_{name}")

    def garbage(self):
        """The bytes that nobody needed at the last count; None before the first one."""
        return self.figure("garbage_bytes")

    def counts(self, wanted):
        """The same once it is so many, or else what it is after some time."""
        begun = time.monotonic()
        while (found := self.garbage()) != wanted and time.monotonic() - begun < COUNTED:
            time.sleep(0.05)
        return found

    def steps(self):
        """How many steps its own sweeps have had."""
        return self.figure("sweep_steps_total")

    def report(self):
        """How many bytes of blocks stand, and how many are referred to."""
        words = self.order(op="report").split()
        return int(words[3]), int(words[5])

    def falls(self, most, steps=1):
        """The bytes that nobody needs, once its own sweeps had so many steps and there are at most so many; and the seconds until then."""
        begun = time.monotonic()
        while (self.steps() < steps or (found := self.garbage()) is None or found > most) and time.monotonic() - begun < PATIENCE:
            time.sleep(0.05)
        return self.garbage(), time.monotonic() - begun

    def put(self, number, size, path="/plans/x"):
        """Puts bytes that no other put has."""
        assert self.get("PUT", path, number.to_bytes(4, "big") + os.urandom(size - 4))[0] == 200


@pytest.fixture
def file(program, folder):
    return make_host(program, os.path.join(folder, "host"), NAMES, "--min-part", "4")


def rest(program):
    """As long as a server needs to begin a sweep."""
    time.sleep(2 if is_fast(program) else 8)


def soon(program):
    return SOON if is_fast(program) else PATIENCE


def alone(program, it):
    """The bytes that nobody needs after some time in which nobody asked, or a few such times where there are some."""
    for _ in range(4):
        rest(program)
        if (found := it.garbage()) == 0:
            break
    return found


# ---- how many bytes nobody needs


def key(number):
    return f"?uploadId={number:016x}"


WRONG = "x-amz-checksum-sha256: " + model.text(model.digest(b"other"))
NAMED = compact({"Parts": [{"PartNumber": 1}]})
RULE = compact({"Rules": [{"AbortIncompleteMultipartUpload": {"DaysAfterInitiation": 1}, "Status": "Enabled"}]})
# Requests of two tenants whose blocks have four bytes, and how many bytes nobody needs after each.
REQUESTS = [
    ("a bucket", "green", ("PUT", "/plans", b""), 200, 0),
    ("an object of two blocks", "green", ("PUT", "/plans/x", b"aaaabbbb"), 200, 0),
    ("one of its blocks is replaced", "green", ("PUT", "/plans/x", b"aaaacccc"), 200, 4),
    ("that block comes again", "green", ("PUT", "/plans/y", b"bbbb"), 200, 0),
    ("another tenant's bucket", "blue", ("PUT", "/plans", b""), 200, 0),
    ("and the same block there", "blue", ("PUT", "/plans/z", b"bbbbdddd"), 200, 0),
    ("the first one's object goes", "green", ("DELETE", "/plans/y", b""), 204, 0),
    ("and the other's", "blue", ("DELETE", "/plans/z", b""), 204, 8),
    ("once more", "blue", ("DELETE", "/plans/z", b""), 204, 8),
    ("a copy", "green", ("PUT", "/plans/c", b"", "x-amz-copy-source: /plans/x"), 200, 8),
    ("what was copied goes", "green", ("DELETE", "/plans/x", b""), 204, 8),
    ("the copy is replaced by a short block", "green", ("PUT", "/plans/c", b"e"), 200, 16),
    ("a copy onto itself", "green", ("PUT", "/plans/c", b"", "x-amz-copy-source: /plans/c"), 200, 16),
    ("one block three times", "green", ("PUT", "/plans/m", b"mmmmmmmmmmmm"), 200, 16),
    ("it goes", "green", ("DELETE", "/plans/m", b""), 204, 20),
    ("an empty object", "green", ("PUT", "/plans/c", b""), 200, 21),
    ("a body with another checksum", "green", ("PUT", "/plans/w", b"wwww", WRONG), 400, 21),
    ("what isn't there is copied", "green", ("PUT", "/plans/w", b"", "x-amz-copy-source: /plans/none"), 404, 21),
    ("a bucket with versions", "green", ("PUT", "/kept", b""), 200, 21),
    ("which are kept", "green", ("PUT", "/kept?versioning", ENABLED), 200, 21),
    ("a version", "green", ("PUT", "/kept/a", b"ffff"), 200, 21),
    ("another one", "green", ("PUT", "/kept/a", b"gggg"), 200, 21),
    ("a delete marker", "green", ("DELETE", "/kept/a", b""), 204, 21),
    ("the first version goes", "green", ("DELETE", f"/kept/a?versionId={1:016x}", b""), 204, 25),
    ("the marker goes", "green", ("DELETE", f"/kept/a?versionId={3:016x}", b""), 204, 25),
    ("an upload", "green", ("POST", "/plans/u?uploads", b""), 200, 25),
    ("a part", "green", ("PUT", f"/plans/u{key(1)}&partNumber=1", b"hhhh"), 200, 25),
    ("another part", "green", ("PUT", f"/plans/u{key(1)}&partNumber=2", b"iiii"), 200, 25),
    ("that part once more", "green", ("PUT", f"/plans/u{key(1)}&partNumber=2", b"jjjj"), 200, 29),
    ("the upload is aborted", "green", ("DELETE", f"/plans/u{key(1)}", b""), 204, 37),
    ("a second upload", "green", ("POST", "/plans/u?uploads", b""), 200, 37),
    ("its part", "green", ("PUT", f"/plans/u{key(2)}&partNumber=1", b"kkkk"), 200, 37),
    ("and a part too many", "green", ("PUT", f"/plans/u{key(2)}&partNumber=2", b"llll"), 200, 37),
    ("it is completed with the first", "green", ("POST", f"/plans/u{key(2)}", NAMED), 200, 41),
    ("the object goes", "green", ("DELETE", "/plans/u", b""), 204, 45),
    ("the last version goes", "green", ("DELETE", f"/kept/a?versionId={2:016x}", b""), 204, 49),
    ("a block of the other tenant's comes again", "blue", ("PUT", "/plans/z", b"ppppdddd"), 200, 45),
    ("a third upload", "blue", ("POST", "/plans/v?uploads", b""), 200, 45),
    ("with a part", "blue", ("PUT", f"/plans/v{key(1)}&partNumber=1", b"ooooaaaa"), 200, 41),
    ("a rule for uploads", "green", ("PUT", "/plans?lifecycle", RULE), 200, 41),
    ("an upload under it", "green", ("POST", "/plans/t?uploads", b""), 200, 41),
    ("with a part of a known and a new block", "green", ("PUT", f"/plans/t{key(3)}&partNumber=1", b"aaaaqqqq"), 200, 41),
    ("an object that stays", "green", ("PUT", "/plans/k", b"rrrr"), 200, 41),
]


@pytest.mark.cost(60)
def test_each_request(expect, program, folder, file):
    need("gcc")
    clock = Clock(folder, time.time())
    with Kept(program, file, MUCH, *SMALL, "--clock-step", "4294967295", **clock.env) as it:
        expect("a new host", it.counts(0) == 0, it.order(op="metrics"))
        for name, tenant, (method, path, body, *fields), status, wanted in REQUESTS:
            answer, found = it.ask(tenant, method, path, body, fields), it.counts(wanted)
            expect(name, (answer.status, found) == (status, wanted), f"{answer} {found}, not {wanted}")
        for name, members, told, wanted in (
            ("a tenant that has a bucket stays", {"op": "tenant-remove", "tenant": "blue", "with_objects": False}, "49 TenantNotEmpty\n", 41),
            ("a quota below what is used", {"op": "quota", "tenant": "green", "quota": 1}, "quota green 1\n", 41),
            ("a tenant goes with all it has", {"op": "tenant-remove", "tenant": "blue", "with_objects": True}, "removed blue\n", 53),
            ("an upload that hasn't expired", {"op": "usage", "tenant": "green"}, "usage green bytes 12 quota 1\n", 53),
        ):
            found = it.order(**members), it.counts(wanted)
            expect(name, found == (told, wanted), f"{found}, not {wanted}")
        for name in ("n", "k"):
            answer, found = it.ask("green", "PUT", f"/plans/{name}", b"nnnnoooo"), it.counts(53)
            expect(f"a put of {name} above the quota", (answer.status, found) == (403, 53), f"{answer} {found}")
        clock.set(clock.now + 3 * DAY)
        answer, found = it.ask("green", "GET", "/plans/k"), (it.report(), it.counts(61))
        expect("the upload has expired, and goes with a get", (answer.body, found) == (b"rrrr", ((65, 4), 61)), f"{answer} {found}")
        found = it.order(op="usage", tenant="green"), it.counts(61)
        expect("and is gone", found == ("usage green bytes 4 quota 1\n", 61), found)
        found = it.order(op="sweep", limit=0), it.counts(61)
        expect("a sweep of nothing", found == ("sweep uploads 0 blocks 0 partial\n", 61), found)
        told, left = it.order(op="sweep", limit=1), it.report()[0]
        found = it.counts(left - 4)
        expect("a sweep of one block", told == "sweep uploads 0 blocks 1 partial\n" and found == left - 4 in (57, 60), (told, left, found))
        found = it.order(op="sweep", limit=1000), it.counts(0), it.report()
        expect("a sweep of all", found[0].endswith(" complete\n") and found[1:] == (0, (4, 4)), found)
        expect("the server itself swept nothing", it.steps() == 0, it.steps())
    told = command(program, file, "check")
    expect("check", told == ("sound", 0), told)


def counted(host):
    """How many bytes nobody needs, by the model."""
    return sum(host.stored.values()) - sum(host.needed().values())


@pytest.mark.cost(60)
@pytest.mark.proved
@pytest.mark.parametrize("seed", range(2))
def test_drawn_requests(expect, program, folder, seed):
    """Requests of two tenants that have blocks in common: after each the server tells what a model counts. So it does after a kill."""
    file, chance = os.path.join(folder, "host"), random.Random(seed)
    host, steps = made(program, file), 200 if is_fast(program) else 24
    drawn = model.Drawn(chance, [0, 10, 3000, 70_000, 200_000] if is_quick(program) else [0, 10, 3000, 70_000])
    with Kept(program, file, MUCH) as it:
        most = 0
        for number in range(steps):
            step = drawn.step(host.tenants[chance.choice(NAMES)])
            answer = step.ask(it)
            assert answer.status in (200, 204), f"{step.told()} is answered {answer}"
            step.change(host.tenants[step.tenant])
            host.store(step.brings)
            most = max(most, counted(host))
            if number % 4 == 3 and (found := it.counts(counted(host))) != counted(host):
                break
        expect(f"{number + 1} requests, after which there were up to {most} bytes", found == counted(host) and most > 0, f"{step.told()}: {found}, not {counted(host)}")
        told = it.order(op="report")
        expect("a report", told == host.report() + "\n", f"{told}, not {host.report()}")
    with Kept(program, file, MUCH) as it:
        found = it.counts(counted(host))
        expect("after a kill", found == counted(host), f"{found}, not {counted(host)}")
        name = chance.choice(NAMES)
        del host.tenants[name]
        told = it.order(op="tenant-remove", tenant=name, with_objects=True), it.counts(counted(host))
        expect("once a tenant is gone", told == (f"removed {name}\n", counted(host)), f"{told}, not {counted(host)}")
        wanted = host.swept() + "\n"
        told = it.order(op="sweep", limit=1_000_000), it.counts(0)
        expect("after a sweep", told == (wanted, 0), f"{told}, not {wanted}")
    told = command(program, file, "check")
    expect("check", told == ("sound", 0), told)


@pytest.mark.cost(60)
@pytest.mark.proved
def test_objects_deleted_at_once(expect, program, folder, file):
    """Objects that the gateway deletes at once, of which one has another's bytes, and one isn't there."""
    need("go")
    build = build_gateway(folder)
    write_keys(folder, ["green"])
    bodies = {"a": b"a" * 1000, "b": b"b" * 500, "c": b"b" * 500, "d": b"d" * 100}
    document = "<Delete>" + "".join(f"<Object><Key>{name}</Key></Object>" for name in ("a", "c", "d", "none")) + "</Delete>"
    with Kept(program, file, MUCH) as it, Gateway(build, None, folder, "--host", f"127.0.0.1:{it.port}") as gateway:
        client = Client(gateway.port)
        told = [client.ask("PUT", "/plans")[0], *(client.ask("PUT", f"/plans/{name}", body)[0] for name, body in bodies.items())]
        before, (stored, referred) = it.counts(0), it.report()
        answer = client.ask("POST", "/plans", document.encode(), query="delete=")
        found, wanted = it.counts(before + 1100), before + 1100
        expect("they are deleted", told == [200] * 5 and answer[0] == 200 and answer[2].count(b"<Deleted>") == 4, f"{told} {answer}")
        expect("what nobody needs then", found == wanted and it.report() == (stored, referred - 1600), f"{found}, not {wanted}; {it.report()}, before {(stored, referred)}")


@pytest.mark.cost(60)
@pytest.mark.proved
def test_moved_tenant(expect, program, folder):
    """A tenant comes to a host that has one of its blocks, which nobody needed there; a copy of that host counts as much."""
    hosts = {name: make_host(program, os.path.join(folder, name), [tenant], "--min-part", "4") for name, tenant in (("first", "green"), ("second", "blue"))}
    for file, tenant in zip(hosts.values(), NAMES):
        with Kept(program, file, MUCH) as it:
            told = [it.ask(tenant, "PUT", "/plans").status, *(it.ask(tenant, "PUT", f"/plans/{name}", name.encode() * 4).status for name in "abc")]
            told += [it.ask(tenant, "DELETE", f"/plans/{name}").status for name in ("a" if tenant == "green" else "ab")]
            wanted = 4 if tenant == "green" else 8
            expect(f"what {tenant} left", set(told) <= {200, 204} and it.counts(wanted) == wanted, f"{told} {it.garbage()}")
    moved, copy = (os.path.join(folder, name) for name in ("moved", "copy"))
    told = [command(program, hosts["first"], "export", "--tenant", "green", "--to", moved), command(program, hosts["second"], "import", "--from", moved),
            command(program, hosts["second"], "backup", "--to", copy)]
    expect("it is moved", told == [("export", 0), ("tenant green", 0), ("backup", 0)], told)
    for name, file, wanted in (("the exported tenant", moved, 0), ("the second host", hosts["second"], 4), ("its copy", copy, 4), ("the first host", hosts["first"], 4)):
        checked = command(program, file, "check")
        with Kept(program, file, MUCH) as it:
            found = it.counts(wanted)
        expect(f"{name} counts", (checked, found) == (("sound", 0), wanted), f"{checked} {found}, not {wanted}")


@pytest.mark.cost(20)
@pytest.mark.proved
@pytest.mark.parametrize("name", kept_names())
def test_earlier_version(expect, program, folder, name):
    """What nobody needs in a file of an earlier program is counted as it is opened, and swept where it is more than is kept."""
    file = copied(os.path.join(HOSTS, name), folder, "host")
    with Kept(program, file, str(UNNEEDED)) as it:
        found = it.counts(UNNEEDED), it.steps()
        expect("what it left is counted", found == (UNNEEDED, 0), found)
    with Kept(program, file, str(UNNEEDED - 1)) as it:
        found, took = it.falls(UNNEEDED - 1)
        expect("and swept", found == 0 and took < soon(program), f"{found} after {took:.1f} s")


# ---- when the server sweeps


def measures(program):
    """The bytes of an object, and how many times as many are kept."""
    return (MIB if is_fast(program) else 20_000), 4


@pytest.mark.cost(40)
def test_more_than_is_kept(expect, program, file):
    """As many bytes as are kept stay, and one more object's go."""
    size, times = measures(program)
    with Kept(program, file, str(times * size)) as it:
        it.get("PUT", "/plans", b"")
        expect("it tells what it keeps", it.counts(0) == 0 and it.figure("keep_garbage_bytes") == times * size, it.order(op="metrics"))
        for number in range(times + 1):
            it.put(number, size)
        rest(program)
        found = it.counts(times * size), it.report(), it.steps()
        expect("as much as is kept stays", found == (times * size, ((times + 1) * size, size), 0), found)
        kept = os.urandom(size)
        it.get("PUT", "/plans/x", kept)
        found, took = it.falls(times * size)
        expect("what is more goes", found <= times * size and took < soon(program), f"{found} after {took:.1f} s")
        rest(program)
        steps, left, report = it.steps(), it.garbage(), it.report()
        expect("in steps of its own", steps >= 1 and report == (size + left, size), f"{steps} steps, {left} {report}")
        expect("what is needed stays", it.get("GET", "/plans/x")[2] == kept)
        rest(program)
        now = it.steps(), it.garbage()
        expect("and then it rests", now == (steps, left), f"{now}, not {(steps, left)}")


@pytest.mark.cost(30)
def test_nothing_is_kept(expect, program, file):
    """All goes, while nobody asks."""
    size, times = measures(program)
    with Kept(program, file, "0") as it:
        it.get("PUT", "/plans", b"")
        expect("it tells that it keeps nothing", it.counts(0) == 0 and it.figure("keep_garbage_bytes") == 0, it.order(op="metrics"))
        for number in range(times):
            it.put(number, size, f"/plans/x{number}")
        for number in range(times - 1):
            assert it.get("DELETE", f"/plans/x{number}")[0] == 204
        found = alone(program, it)
        expect("what was deleted goes", found == 0, found)
        found = it.report()
        expect("and nothing else", found == (size, size), found)
        it.put(times, size, f"/plans/x{times - 1}")
        found = alone(program, it)
        expect("and what was replaced", (found, it.report()) == (0, (size, size)), f"{found}, {it.report()}")
        it.order(op="tenant-remove", tenant="green", with_objects=True)
        found = alone(program, it)
        expect("what a tenant had goes", (found, it.report()) == (0, (0, 0)), f"{found}, {it.report()}")


@pytest.mark.cost(30)
@pytest.mark.proved
def test_much_is_kept(expect, program, file, full):
    """Nothing goes, however much is written, and though nobody asks for more than a minute."""
    size, times = measures(program)
    count = times * (24 if is_fast(program) else 2)
    with Kept(program, file, "1GiB") as it:
        it.get("PUT", "/plans", b"")
        expect("it tells what it keeps", it.counts(0) == 0 and it.figure("keep_garbage_bytes") == 1 << 30, it.order(op="metrics"))
        for number in range(count):
            it.put(number, size)
        time.sleep(70) if full else rest(program)
        found = it.counts((count - 1) * size), it.report(), it.steps()
        expect(f"{count} objects stay", found == ((count - 1) * size, (count * size, size), 0), found)


@pytest.mark.cost(40)
@pytest.mark.proved
def test_default(expect, program, folder, file, full):
    """64 MiB are kept, or a tenth of the rest of the file."""
    with Kept(program, file) as it:
        it.get("PUT", "/plans", b"")
        expect("without the option 64 MiB are kept", it.counts(0) == 0 and it.figure("keep_garbage_bytes") == DEFAULT, it.order(op="metrics"))
        if not is_fast(program):
            return expect.skip("and more is swept", "the bytes that begin a sweep take a slow program too long")
        for number in range(8):
            it.put(number, LARGE)
        rest(program)
        found = it.counts(7 * LARGE), it.steps()
        expect("56 MiB stay", found == (7 * LARGE, 0), found)
        it.put(8, LARGE)
        it.put(9, LARGE)
        found, took = it.falls(DEFAULT)
        expect("72 MiB don't", found <= DEFAULT and took < SOON, f"{found} after {took:.1f} s")
        if not full:
            return expect.skip("a tenth of the rest of the file", "it needs some 800 MB")
        for number in range(98):
            it.put(100 + number, LARGE, f"/plans/y{number}")
        rest(program)
        it.report()  # (an order, after which it counts by the size that the file has now)
        keep, wanted = it.figure("keep_garbage_bytes"), (os.path.getsize(file) - it.garbage()) // 10
        expect("a tenth of the rest of the file", keep == wanted > DEFAULT, f"{keep}, not {wanted}")


@pytest.mark.cost(50)
@pytest.mark.proved
@pytest.mark.parametrize("number", [signal.SIGKILL, signal.SIGTERM], ids=["killed", "ended"])
def test_restart(expect, program, file, number):
    """A server knows what an earlier one left, and sweeps it where it is more than it keeps, though nobody asks for anything."""
    size, times = measures(program)
    with Kept(program, file, MUCH) as it:
        it.get("PUT", "/plans", b"")
        for at in range(times + 1):
            it.put(at, size)
        it.end(number)
    with Kept(program, file, str(times * size)) as it:
        rest(program)
        found = it.counts(times * size), it.report(), it.steps()
        expect("what it keeps stays", found == (times * size, ((times + 1) * size, size), 0), found)
        it.end(number)
    with Kept(program, file, str(times * size - 1)) as it:
        found, took = it.falls(times * size - 1)
        expect("what is more goes", found < times * size and took < soon(program), f"{found} after {took:.1f} s")
        expect("a report", it.report() == (size + found, size), f"{it.report()} {found}")
        it.end(number)
    with Kept(program, file, "0") as it:
        found, took = it.falls(0, steps=0)
        expect("all goes", found == 0 and took < soon(program), f"{found} after {took:.1f} s")
        expect("but what is needed", it.report() == (size, size), it.report())
    told = command(program, file, "check")
    expect("check", told == ("sound", 0), told)


@pytest.mark.cost(20)
@pytest.mark.proved
def test_cache(expect, program, file):
    """A count takes no block from the cache."""
    size = 100_000 if is_fast(program) else 5_000
    with Kept(program, file, MUCH, "--cache-bytes", "1MiB") as it:
        it.get("PUT", "/plans", b"")
        it.put(0, size)
        read = [it.get("GET", "/plans/x")[2] for _ in range(2)]
        before = it.figure("cache_hits_total"), it.figure("cache_misses_total")
        if None in before:
            return expect.skip("the cache beside counts", "this server doesn't tell what it finds there")
        for number in range(3):
            it.put(number, size, "/plans/y")
            read.append(it.get("GET", "/plans/x")[2])
        found = it.figure("cache_hits_total"), it.figure("cache_misses_total")
        blocks = -(-size // model.BLOCK)
        expect("what was read stays in the cache", found == (before[0] + 3 * blocks, before[1]), f"{found}, before {before}")
        expect("the same bytes are read", len(set(read)) == 1 and len(read[0]) == size)


# ---- words


@pytest.mark.parametrize("value", ["-1", "x", "10XB", str(1 << 64), "16777216TiB", "1.5", "", "1e3", "10 GB", "gb"])
def test_no_value(expect, program, folder, value):
    for words in (["--keep-garbage", value], [f"--keep-garbage={value}"]):
        done = subprocess.run([program, "serve", "--file", "none", "--port", "0", *words], cwd=folder, capture_output=True, text=True, timeout=PATIENCE)
        lines = done.stdout.splitlines()
        is_told = done.returncode == 2 and lines and lines[0].startswith("error: ") and ("keep-garbage" in lines[0] or repr(value) in lines[0]) and not os.listdir(folder)
        expect(f"{words}", is_told and not any("error" in it for it in lines[1:]), f"{done}")


def test_no_place(expect, program, folder):
    """No other command takes the option, nor twice."""
    for words in (["script"], ["sweep", "--file", "none", "--limit", "1"], ["init", "--file", "none"], ["serve", "--file", "none", "--port", "0", "--keep-garbage", "5"]):
        done = subprocess.run([program, *words, "--keep-garbage", "5"], cwd=folder, capture_output=True, text=True, input="", timeout=PATIENCE)
        expect(" ".join(words), done.returncode == 2 and done.stdout.startswith("error: ") and not os.listdir(folder), f"{done}")


# ---- one object, over and over


@pytest.mark.cost(60)
def test_disk(expect, program, disk_folder, full):
    """A tenant of 17 MiB overwrites an object of 8 MiB: file, log and packs have at most 1.3 times what is needed, 128 MiB, and a pack."""
    if not is_fast(program):
        return expect.skip("the disk that overwrites take", "the bytes that begin a sweep take a slow program too long")
    file, needed = make_host(program, os.path.join(disk_folder, "host"), ["green"], quota=QUOTA), LARGE
    with Kept(program, file) as it:
        it.get("PUT", "/plans", b"")
        count, most, ends = 0, 0, time.monotonic() + amount("OVERWRITE_SECONDS", 60 if full else 12)
        while count <= 20 or time.monotonic() < ends:
            it.put(count, LARGE)
            count, most = count + 1, max(most, sum(on_disk(file)))
        # (a pack of 64 MiB goes only once nothing in it is needed)
        allowed = 1.3 * needed + 192 * MIB
        expect(f"{count} puts: at most {most / MIB:.0f} MiB", most <= allowed, f"{allowed / MIB:.0f} are allowed")
        found, took = it.falls(DEFAULT)
        expect("afterwards", found <= DEFAULT and took < SOON, f"{found} after {took:.1f} s")


def read_back(file, folder):
    """The bytes that nobody needs, as SQLite finds them in a copy of a file and its log."""
    copy = copied(file, folder, "counted")
    database = opened(copy)
    found = model.unneeded_in(database)
    database.close()
    removed(copy)
    return found


@pytest.mark.cost(60)
@pytest.mark.proved
def test_kills(expect, program, disk_folder, folder, full):
    """A server that sweeps all the time is killed amid requests: its file is sound, and the next one knows how much nobody needs."""
    file, kills = os.path.join(disk_folder, "host"), amount("GARBAGE_KILLS", 100 if full else 8 if is_quick(program) else 2)
    host, chance = made(program, file), random.Random(1)
    sizes = [0, 10, 3000, 70_000, 200_000, 1_000_000] if is_quick(program) else [10, 3000, 70_000]
    done = 0
    for number in range(1, kills + 1):
        with Kept(program, file, chance.choice(["0", "100kB", "1MB"])) as it:
            loads = [Load(it, tenant, model.Drawn(random.Random(chance.random()), sizes)) for tenant in host.tenants.values()]
            killed_under(it, loads, chance.uniform(0.1, 1.5 if is_quick(program) else 6))
        wrong, done = [load.wrong for load in loads if load.wrong], done + sum(load.done for load in loads)
        told, counts = command(program, file, "check"), read_back(file, folder)
        with Kept(program, file, MUCH) as it:
            found = it.counts(counts)
            # What wasn't answered was done or not: each tenant begins anew.
            for load in loads:
                anew = model.Tenant(load.tenant.name)
                assert it.order(op="tenant-remove", tenant=anew.name, with_objects=True) == f"removed {anew.name}\n"
                host.tenants[anew.name] = anew
                again(it, anew)
            stored, referred = it.report()
            left = it.counts(stored), stored, referred
        is_well = not wrong and told == ("sound", 0) and found == counts and left == (stored, stored, 0)
        if not expect(f"kill {number}, after {done} requests", is_well, f"{wrong} {told} {found} {counts} {left}"):
            break
    expect("requests were answered", done > 0, done)


def again(server, tenant):
    """Makes a tenant that was removed anew, with its buckets."""
    name = tenant.name
    told = [server.order(op="tenant-add", tenant=name, quota=1 << 40), server.order(op="key-add", tenant=name, name="k1", secret=name + "secret")]
    told += [server.ask(name, "PUT", f"/{bucket}").status for bucket in model.BUCKETS]
    told += [server.ask(name, "PUT", f"/{bucket}?versioning", ENABLED).status for bucket, is_enabled in model.BUCKETS.items() if is_enabled]
    assert told == [f"tenant {name}\n", f"key {name}$k1\n", 200, 200, 200], told
