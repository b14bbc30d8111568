"""`bucketd tenant-remove`, on a file and told to a server: what it says and refuses, what goes with a tenant and what stays, blocks that
another tenant has too, dates that aren't over, a name that is added again or imported, requests of the tenant in whose midst it
goes, and other tenants' requests meanwhile."""
import os
import re
import time

import pytest

from host import Answer, all_of, copied, is_fast, make_host, request, run
from test_files import SMALL, Files, ask, key_add, keys, report, rows_of, sound, sweep, tenant_add, tenants, usage, words_of
from test_operators import Load, Operated
from two_tenants import DATED, compact

tenant_remove = words_of("tenant-remove", "--tenant")
WITH = "--with-objects"
# The second in which 2091-08-01 begins, the date of DATED.
DATE = 3_836_764_800
ENABLED = compact({"Status": "Enabled"})
# Status and refusal of a request by a key that isn't there.
UNKNOWN = (403, 6)
# What a tenant of every kind of row has. Of its blocks of four bytes aaaa and cccc are the other tenant's too.
FULL = [
    ("PUT", "/plans", b""),
    ("PUT", "/plans/x", b"aaaabbbb"),
    ("PUT", "/plans?lifecycle", compact({"Rules": [{"AbortIncompleteMultipartUpload": {"DaysAfterInitiation": 3}, "Status": "Enabled"}]})),
    ("PUT", "/kept", b""),
    ("PUT", "/kept?versioning", ENABLED),
    ("PUT", "/kept/y", b"ccccdddd"),
    ("PUT", "/kept/y", b"aaaa"),
    ("DELETE", "/kept/y", b""),
    ("PUT", "/vault", b"", "x-amz-bucket-object-lock-enabled: true"),
    ("PUT", "/vault/z", b"cccc"),
    ("POST", "/plans/v?uploads", b""),
    ("PUT", "/plans/v?uploadId=0000000000000001&partNumber=2", b"eeee"),
    ("POST", "/kept/w?uploads", b""),
]
OTHERS = [("PUT", "/plans", b""), ("PUT", "/plans/x", b"aaaacccc")]
READS = [("GET", "/plans/x", b""), ("GET", "/plans?versions", b""), ("GET", "/?usage", b""), ("GET", "/", b"")]


@pytest.fixture
def on(program, folder, expect):
    return Files(program, folder, expect)


def answers(on, file, tenant, requests, *options):
    """What a server of a file answers a tenant, a connection each."""
    sent = ask(on, file, *(request(tenant, *it[:3], fields=it[3:]).decode() for it in requests), options=(*SMALL, *options))
    return [Answer(data, it[0]) for data, it in zip(sent, requests)]


def done(on, name, file, tenant, requests):
    found = answers(on, file, tenant, requests)
    on.note(name, all(it.status in (200, 204) for it in found), found)


def told(found):
    return [(it.status, it.refusal()) for it in found]


def contents(on, file):
    """The rows of each table but the host's, which has the last stamp."""
    names = [name for name, in rows_of(on, file, "SELECT name FROM sqlite_master WHERE type = 'table' AND name <> 'host'")[0]]
    return {name: sorted(rows) for name, rows in zip(names, rows_of(on, file, *(f"SELECT * FROM {name}" for name in names)))}


def rows_of_tenant(on, file, tenant):
    """The tables that have a row of a tenant."""
    return sorted(name for name, rows in contents(on, file).items() if any(tenant in row for row in rows))


def test_refusals(on):
    """What a removal is refused for, and that a refused one leaves every row."""
    on.made("a")
    on.expect("a word that is no tenant's name", tenant_remove("a", "Green", WITH), 1, "45 InvalidName\n")
    on.expect("an empty name", tenant_remove("a", "", WITH), 1, "45 InvalidName\n")
    on.expect("a tenant who isn't there", tenant_remove("a", "blue", WITH), 1, "42 NoSuchTenant\n")
    on.expect("a reading past its range", tenant_remove("a", "green", "--at", "250000000001"), 1, "30 ClockOutOfRange\n", same="a")
    on.expect("a file that isn't there", tenant_remove("missing", "green"), 1, "47 NotAHostFile\n", alone="missing", says="bucketd: missing: there is no such file\n")
    on.expect("no tenant", ["tenant-remove", "--file", "a", WITH], 2, None, same="a")
    on.expect("a value of --with-objects", tenant_remove("a", "green", f"{WITH}=true"), 2, None, same="a")
    done(on, "an empty bucket", "a", "green", [("PUT", "/plans", b"")])
    before = contents(on, "a")
    on.expect("a tenant who has a bucket", tenant_remove("a", "green"), 1, "49 TenantNotEmpty\n")
    on.note("stays with every row", contents(on, "a") == before, contents(on, "a"))
    done(on, "the bucket is deleted", "a", "green", [("DELETE", "/plans", b"")])
    on.expect("then it goes", tenant_remove("a", "green"), 0, "removed green\n")
    on.expect("and once more", tenant_remove("a", "green", WITH), 1, "42 NoSuchTenant\n")
    on.expect("no tenant is left", tenants("a"), 0, "tenants 0\n")
    sound(on, "a")


@pytest.mark.cost(60)
def test_what_goes(on):
    """A tenant with rows in every table goes: the file then has what a host has in which it never was, once a sweep took its blocks."""
    make_host(on.program, on.path("base"), ["blue"])
    done(on, "another tenant", "base", "blue", OTHERS)
    was = told(answers(on, "base", "blue", READS))
    copied(on.path("base"), on.folder, "a")
    on.expect("a tenant", tenant_add("a"), 0, "tenant green\n")
    on.expect("its key", key_add("a", "k1", "greensecret"), 0, "key green$k1\n")
    done(on, "what it puts", "a", "green", FULL)
    has = rows_of_tenant(on, "a", "green")
    on.note("it has a row in each table", has == ["buckets", "keys", "locks", "parts", "refs", "tallies", "tenants", "uploads", "versions"], has)
    on.expect("two tenants' blocks", report("a"), 0, "blocks 5 stored 20 referred 36 clashes 0\n")
    on.expect("it has buckets", tenant_remove("a", "green"), 1, "49 TenantNotEmpty\n")
    on.expect("it goes with them", tenant_remove("a", "green", WITH), 0, "removed green\n")
    on.note("it has no row", rows_of_tenant(on, "a", "green") == [], rows_of_tenant(on, "a", "green"))
    on.expect("it uses nothing, for it isn't there", usage("a", "green"), 1, "42 NoSuchTenant\n")
    on.expect("it has no keys", keys("a", "green"), 1, "42 NoSuchTenant\n")
    found = told(answers(on, "a", "green", [*READS, ("PUT", "/plans", b"")]))
    on.note("its key is unknown", found == [UNKNOWN] * 5, found)
    on.expect("the blocks stay, and nobody refers to three", report("a"), 0, "blocks 5 stored 20 referred 8 clashes 0\n")
    sound(on, "a")
    on.expect("a sweep takes these", sweep("a", 100), 0, "sweep uploads 0 blocks 3 complete\n")
    on.note("then the file has the other tenant's rows alone", contents(on, "a") == contents(on, "base"), (contents(on, "a"), contents(on, "base")))
    on.note("who is answered as before", told(answers(on, "a", "blue", READS)) == was)
    sound(on, "a")


@pytest.mark.cost(40)
def test_shared_blocks(on):
    """A block that the removed tenant stored first stays for whoever refers to it."""
    make_host(on.program, on.path("a"), ["green", "blue"])
    done(on, "the first", "a", "green", [("PUT", "/plans", b""), ("PUT", "/plans/x", b"aaaabbbbaaaa")])
    done(on, "the second", "a", "blue", [("PUT", "/plans", b""), ("PUT", "/plans/x", b"aaaabbbb")])
    on.expect("the first goes", tenant_remove("a", "green", WITH), 0, "removed green\n")
    on.expect("a sweep finds nothing to take", sweep("a", 100), 0, "sweep uploads 0 blocks 0 complete\n")
    found = answers(on, "a", "blue", READS[:1])[0]
    on.note("the second has its bytes", (found.status, found.body) == (200, b"aaaabbbb"), found)
    on.expect("a report", report("a"), 0, "blocks 2 stored 8 referred 8 clashes 0\n")
    sound(on, "a")


@pytest.mark.cost(40)
def test_dates(on):
    """A tenant of whom a version has a date that isn't over stays, and goes from that second on."""
    on.made("a")
    done(on, "a version with a date", "a", "green", [("PUT", "/vault", b"", "x-amz-bucket-object-lock-enabled: true"), ("PUT", "/vault/x", b"aaaa", *DATED)])
    before = contents(on, "a")
    on.expect("it has a bucket", tenant_remove("a", "green"), 1, "49 TenantNotEmpty\n")
    on.expect("it has a date", tenant_remove("a", "green", WITH), 1, "50 TenantRetained\n")
    on.expect("by a clock that leaps", tenant_remove("a", "green", WITH, "--at", str(DATE)), 1, "fault\n", says="--clock-leap ")
    on.expect("a second before the date", tenant_remove("a", "green", WITH, "--at", str(DATE - 1), "--force"), 1, "50 TenantRetained\n")
    on.note("every row stays", contents(on, "a") == before, contents(on, "a"))
    on.expect("at the date", tenant_remove("a", "green", WITH, "--at", str(DATE)), 0, "removed green\n")
    on.note("no date is left", contents(on, "a")["retains"] == [])
    sound(on, "a")


@pytest.mark.cost(60)
def test_name_again(on):
    """A name that is added again is a new tenant's: no key, no bucket, its own quota; one that is imported is the exported one."""
    on.made("a")
    done(on, "what is exported", "a", "green", FULL)
    was = [(it.status, it.body) for it in answers(on, "a", "green", READS)]
    on.expect("export", ["export", "--file", "a", "--tenant", "green", "--to", "t"], 0, "export\n")
    on.expect("it goes", tenant_remove("a", "green", WITH), 0, "removed green\n")
    on.expect("its name again", ["tenant-add", "--file", "a", "--tenant", "green", "--quota", "7"], 0, "tenant green\n")
    on.expect("it has nothing", usage("a", "green"), 0, "usage green bytes 0 quota 7\n")
    on.expect("and no key", keys("a", "green"), 0, "keys green 0\n")
    found = told(answers(on, "a", "green", READS[:1]))
    on.note("the key of before is unknown", found == [UNKNOWN], found)
    on.expect("a key", key_add("a", "k1", "greensecret"), 0, "key green$k1\n")
    requests = [READS[0], ("PUT", "/kept", b""), ("PUT", "/kept/y", b"aaaabbbb"), ("PUT", "/kept?versioning", ENABLED), ("PUT", "/kept/y", b"a")]
    found = told(answers(on, "a", "green", requests))
    on.note("no bucket of before is there", found == [(404, 12), (200, 0), (403, 24), (200, 0), (200, 0)], found)
    on.expect("a sweep", sweep("a", 100), 0, None)
    on.expect("it goes again", tenant_remove("a", "green", WITH), 0, "removed green\n")
    on.expect("import", ["import", "--file", "a", "--from", "t"], 0, "tenant green\n")
    found = [(it.status, it.body) for it in answers(on, "a", "green", READS)]
    on.note("it is answered as before", found == was, (found, was))
    sound(on, "a")


# ---- told to a server


@pytest.fixture
def it(program, folder):
    """A server of two tenants, green and blue, whose connections have time on a busy machine, too."""
    with Operated(program, make_host(program, os.path.join(folder, "host"), ["green", "blue"]), timeout=60) as it:
        yield it


def removed(it, tenant, with_objects=True):
    return it.order(op="tenant-remove", tenant=tenant, with_objects=with_objects)


def test_lines(it, expect):
    """The line of a script, and others that are none."""
    for name, members in (
        ("no word of its objects", {"tenant": "blue"}),
        ("a word for them", {"tenant": "blue", "with_objects": "true"}),
        ("a number for them", {"tenant": "blue", "with_objects": 1}),
        ("null for them", {"tenant": "blue", "with_objects": None}),
        ("their name as an option has it", {"tenant": "blue", "with-objects": True}),
        ("no tenant", {"with_objects": True}),
        ("a member too many", {"tenant": "blue", "with_objects": True, "quota": 1}),
    ):
        found = it.order(op="tenant-remove", **members)
        expect(f"a bad line: {name}", found == "bad line\n", found)
    expect("which changed nothing", it.order(op="keys", tenant="blue") == "keys blue 1 k1\n")
    expect("a bucket", it.ask_as("blue", "bluesecret", "PUT", "/plans", b"") == 200)
    found = removed(it, "blue", False)
    expect("a tenant with a bucket", found == "49 TenantNotEmpty\n", found)
    found = it.tell({"op": "tenant-remove", "tenant": "blue", "with_objects": True})
    expect("bucketd tell", found == ("removed blue", 0), found)
    found = it.tell({"op": "tenant-remove", "tenant": "blue", "with_objects": True})
    expect("bucketd tell, once more", found == ("42 NoSuchTenant", 1), found)
    found = it.order(op="tenant-remove", tenant="green", with_objects=False, at=7)
    expect("one without a bucket, whatever `at` is", found == "removed green\n", found)


def test_commands_at_a_server(it, program, expect):
    """The command by a server's port, and the next request of the tenant, on a connection of its own."""
    port = ["--operator-port", str(it.door)]
    expect("a bucket and an object", [it.ask_as("blue", "bluesecret", "PUT", path, b"blue") for path in ("/plans", "/plans/x")] == [200, 200])
    for name, words, wanted in (
        ("no tenant's name", ["--tenant", "Blue"], ("45 InvalidName", 1)),
        ("a tenant who isn't there", ["--tenant", "none", WITH], ("42 NoSuchTenant", 1)),
        ("one with a bucket", ["--tenant", "blue"], ("49 TenantNotEmpty", 1)),
        ("it goes with it", ["--tenant", "blue", WITH], ("removed blue", 0)),
        ("it is gone", ["--tenant", "blue", WITH], ("42 NoSuchTenant", 1)),
    ):
        found = run(program, None, "tenant-remove", *words, *port)[:2]
        expect(name, found == wanted, found)
    found = run(program, None, "tenant-remove", "--tenant", "green", "--at", "7", *port)
    expect("no clock goes with a server", found[1] == 2 and found[0].startswith("error: "), found)
    expect("its key is unknown from the next request on", it.ask_as("blue", "bluesecret", "GET", "/plans/x") == 403)
    found = it.order(op="tenants")
    expect("the other one is there", found.startswith("tenants 1 green "), found)
    expect("and is answered", it.ask_as("green", "greensecret", "PUT", "/plans", b"") == 200)


@pytest.mark.cost(20)
def test_in_the_midst_of_a_request(it, program, expect):
    """A tenant goes while one of its bodies comes, and while an answer to it is on the way."""
    size = it.large
    data = os.urandom(size)
    status = [it.ask_as("blue", "bluesecret", "PUT", "/plans", b""), it.ask_as("blue", "bluesecret", "PUT", "/plans/x", data)]
    expect("an object", status == [200, 200], status)
    reader, writer = it.socket(room=4096), it.socket()
    reader.sendall(request("blue", "GET", "/plans/x"))
    first = reader.recv(1000)
    whole = request("blue", "PUT", "/plans/y", data)
    writer.sendall(whole[: len(whole) // 2])
    time.sleep(0.2)
    expect("it goes", removed(it, "blue") == "removed blue\n")
    found = it.order(op="sweep", limit=100_000)
    expect("a sweep", re.fullmatch(r"sweep uploads 0 blocks \d+ complete\n", found), found)
    writer.sendall(whole[len(whole) // 2 :])
    found = Answer(all_of(writer), "PUT")
    expect("the body's answer", (found.status, found.refusal()) == UNKNOWN, found)
    found = Answer(first + all_of(reader), "GET")
    expect("the answer on the way is whole", (found.status, found.body) == (200, data), f"{found.status}, {len(found.body)} bytes")
    found = it.order(op="report")
    expect("no block is left", found == "blocks 0 stored 0 referred 0 clashes 0\n", found)
    expect("the other tenant goes on", it.ask_as("green", "greensecret", "PUT", "/plans", b"") == 200)


@pytest.mark.cost(60)
def test_beside_others(it, program, expect):
    """A tenant is made, filled with another one's bytes, and goes, again and again while that one asks."""
    expect("a bucket", it.get("PUT", "/plans", b"")[0] == 200)
    expect("one that nobody changes", it.get("PUT", "/plans/fixed", b"load" * 100)[0] == 200)
    load, turns, wrong = Load(it, 2), 12 if is_fast(program) else 3, []
    for turn in range(turns):
        found = [
            removed(it, "blue"),
            it.order(op="tenant-add", tenant="blue", quota=100_000),
            it.order(op="key-add", tenant="blue", name="k1", secret="bluesecret"),
            *(it.ask_as("blue", "bluesecret", "PUT", path, body) for path, body in (("/plans", b""), ("/plans/x", b"load" * 100), ("/plans/y", b"%d" % turn * 900))),
            it.order(op="sweep", limit=10),
        ]
        if found[:6] != ["removed blue\n", "tenant blue\n", "key blue$k1\n", 200, 200, 200] or not found[6].startswith("sweep uploads 0 blocks "):
            wrong.append(found)
    asked = load.end()
    expect(f"{turns} removals beside {asked} requests", not wrong and asked > 0, wrong)
    expect("the last one", removed(it, "blue") == "removed blue\n")
    found = it.get("GET", "/plans/fixed")
    expect("the other one's bytes", (found[0], found[2]) == (200, b"load" * 100), found)
    it.order(op="sweep", limit=100_000)
    found = it.order(op="report")
    expect("and no others", found.startswith("blocks 1 stored 400 "), found)
