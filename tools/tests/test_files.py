"""bucketd's subcommands one after another on files in a new folder: what each prints, its status, what it tells on standard
error, and that a refusal leaves the file's bytes, and the names and modes in its folder, as they were.

    tools/tests/test_files.py --keep NAME [PROGRAM]   makes crates/examples/data/hosts/NAME, a file that later programs have to open
"""
import json
import os
import shutil
import sqlite3
import stat
import subprocess
import sys
import time

import pytest

import host
from broken_rows import BROKEN, BROKEN_LOCKS, LOCKED, WITHOUT_PARENT
from faults import holding
from host import PATIENCE, SCRIPTS, TOP, Server, copied, fill, is_quick, make_host, program_of, quick_folder, read, small_disk
from host import request as request_of
from kept_hosts import HOSTS, UNNEEDED, kept_names, reads_of, told_by, versions_of
from siphash import DIGESTS

NOBODY = 65534
# The number of a tenant's next entry once the last one is given.
COUNTER_END = 1 << 62
# The quota of the tenant green.
QUOTA = 1_000_000


def bytes_of(path):
    """A file's bytes; of one that this user may not read, when it was changed."""
    if not os.path.isfile(path):
        return None
    return read(path) if os.access(path, os.R_OK) else os.stat(path).st_mtime_ns


class Files:
    """Files with hosts in a folder, and commands on them, each of which is a case."""

    def __init__(self, program, folder, case):
        self.program, self.folder, self.note = program, folder, case

    def path(self, name):
        return os.path.join(self.folder, name)

    def made(self, name, *options):
        """A host with the tenant green and its key k1."""
        make_host(self.program, self.path(name), ["green"], *options, quota=QUOTA)
        return name

    def run(self, words, given="", user=None):
        return subprocess.run([self.program, *words], input=given, capture_output=True, text=True, cwd=self.folder, user=user, timeout=PATIENCE)

    def begin(self, words):
        return subprocess.Popen([self.program, *words], stdout=subprocess.PIPE, stderr=subprocess.DEVNULL, text=True, cwd=self.folder)

    def modes(self, name):
        """The names and modes in a file's folder."""
        folder = os.path.dirname(self.path(name))
        return {it: os.lstat(os.path.join(folder, it)).st_mode for it in sorted(os.listdir(folder))}

    def expect(self, name, words, status, text, given="", user=None, same=None, says="", alone=None):
        """One case; `text`: what is printed, or several of which one is; `same`: a file that has to stay as it is, or to
        stay away; `alone`: the same of a file, and nothing else appears or changes its mode in its folder."""
        same = alone or same
        state = lambda: (bytes_of(self.path(same)) if same else None, self.modes(alone) if alone else None)
        before, done = state(), self.run(words, given, user)
        is_same = before == state()
        is_text = text is None or done.stdout == text or (isinstance(text, tuple) and done.stdout in text)
        is_well = done.returncode == status and is_text and is_same and says in done.stderr
        self.note(name, is_well, f"status {done.returncode}, {done.stdout!r}, {done.stderr!r}" + ("" if is_same else ", and other bytes or files"))


@pytest.fixture
def on(program, folder, expect):
    return Files(program, folder, expect)


def words_of(name, *options):
    """A function that gives a subcommand's words: those of its name, its file, the values of some options, and further words."""
    return lambda file, *given: [*name.split(), "--file", file, *(word for it in zip(options, map(str, given)) for word in it), *given[len(options) :]]


keys, usage, sweep = words_of("keys", "--tenant"), words_of("usage", "--tenant"), words_of("sweep", "--limit")
tenants, report, check = words_of("tenants"), words_of("report"), words_of("check")
key_add, key_remove = words_of("key-add --tenant green", "--name", "--secret"), words_of("key-remove --tenant green", "--name")


def tenant_add(file, tenant="green", *more):
    return words_of("tenant-add --quota 1000000", "--tenant")(file, tenant, *more)


def mode_of(on, name):
    return stat.S_IMODE(os.stat(on.path(name)).st_mode)


def request(key, method, target, body="", length=None, fields=()):
    """A request of the tenant green or blue, whose secret is greensecret; its body may be shorter than the length that it has."""
    return request_of(key.split("$")[0], method, target, body.encode(), fields, "greensecret", length).decode().replace("$k1", "$" + key.split("$")[1], 1)


def ask(on, file, *requests, options=()):
    """Serves a file's host for one connection after another, each of which brings a request: what each is answered."""
    server = Server(on.program, file, "--force", *options, count=len(requests), cwd=on.folder)
    answers = [server.exchange(it.encode()) for it in requests]
    server.process.communicate(timeout=PATIENCE)
    return answers


def test_init(on):
    on.expect("init", ["init", "--file", "a"], 0, "host\n")
    on.note("its mode", mode_of(on, "a") == 0o600, oct(mode_of(on, "a")))
    on.expect("init again", ["init", "--file", "a"], 1, "47 NotAHostFile\n", same="a", says="bucketd: a: the file already has a host\n")


def test_tenants(on):
    on.expect("init before tenants", ["init", "--file", "a"], 0, "host\n")
    on.expect("tenant-add", tenant_add("a", "green", "--at", "7"), 0, "tenant green\n")
    on.expect("tenant-add again, by a clock that is years ahead", tenant_add("a"), 1, "fault\n", same="a", says="--clock-leap ")
    on.expect("tenant-add again", tenant_add("a", "green", "--force"), 1, "41 TenantExists\n")
    on.expect("no tenant's name", tenant_add("a", "Green"), 1, "45 InvalidName\n")
    on.expect("a reading past its range", tenant_add("a", "blue", "--at", "250000000001"), 1, "30 ClockOutOfRange\n", same="a")
    on.expect("key-add", key_add("a", "k2", "greensecret"), 0, "key green$k2\n")
    on.expect("tenants", tenants("a"), 0, "tenants 1 green bytes 0 quota 1000000 keys 1\n")
    on.expect("tenants at a reading past its range", tenants("a", "--at", "250000000001"), 1, "30 ClockOutOfRange\n", same="a")
    on.expect("tenants of no file", tenants("missing"), 1, "47 NotAHostFile\n", same="missing")


def test_keys(on):
    on.made("a")
    on.expect("key-add again", key_add("a", "k1", "greensecret"), 1, "43 KeyExists\n")
    on.expect("a secret from standard input", key_add("a", "k2", "-"), 0, "key green$k2\n", given="greensecret\nmore\n")
    on.expect("no secret on standard input", key_add("a", "k3", "-"), 1, "45 InvalidName\n")
    on.expect("keys", keys("a", "green"), 0, "keys green 2 k1 k2\n")
    on.expect("key-remove", key_remove("a", "k1"), 0, "removed green$k1\n")
    on.expect("key-remove again", key_remove("a", "k1"), 1, "44 NoSuchKeyName\n")
    on.expect("keys once one is gone", keys("a", "green"), 0, "keys green 1 k2\n")
    on.expect("keys of nobody", keys("a", "blue"), 1, "42 NoSuchTenant\n")
    on.expect("keys of no tenant's name", keys("a", "Green"), 1, "45 InvalidName\n")


def test_quota_and_usage(on):
    on.made("a")
    on.expect("no quota", ["tenant-add", "--file", "a", "--tenant", "blue", "--quota", str(2**60 + 1)], 1, "46 InvalidQuota\n")
    on.expect("quota", ["quota", "--file", "a", "--tenant", "green", "--quota", "8"], 0, "quota green 8\n")
    on.expect("usage", usage("a", "green"), 0, "usage green bytes 0 quota 8\n")
    on.expect("usage of nobody", usage("a", "blue"), 1, "42 NoSuchTenant\n")
    on.expect("usage of no tenant's name", usage("a", "Green"), 1, "45 InvalidName\n")
    sound(on, "a")


def test_report_and_sweep(on):
    on.made("a")
    on.expect("report", report("a"), 0, "blocks 0 stored 0 referred 0 clashes 0\n")
    on.expect("sweep", sweep("a", 1), 0, "sweep uploads 0 blocks 0 complete\n")
    on.expect("report at a reading past its range", report("a", "--at", "250000000001"), 1, "30 ClockOutOfRange\n", same="a")
    on.expect("sweep at a reading past its range", sweep("a", 1, "--at", str(2**64 - 1)), 1, "30 ClockOutOfRange\n", same="a")
    on.expect("report of no file", report("missing"), 1, "47 NotAHostFile\n", alone="missing", says="bucketd: missing: there is no such file\n")
    on.expect("sweep of no file", sweep("missing", 1), 1, "47 NotAHostFile\n", same="missing")
    on.expect("sweep without a limit", ["sweep", "--file", "a"], 2, None, same="a")
    on.expect("sweep of a limit past its range", sweep("a", 2**32), 2, None, same="a")


def test_sweeps(on):
    """Blocks of two objects that go, on a file of their own: a sweep that was told stands for the next command."""
    on.made("swept")
    puts = (request("green$k1", "PUT", f"/plans/{key}", key * 3) for key in "xyz")
    ask(on, "swept", request("green$k1", "PUT", "/plans"), *puts)
    on.expect("report of three blocks", report("swept"), 0, "blocks 3 stored 9 referred 9 clashes 0\n")
    ask(on, "swept", *(request("green$k1", "DELETE", f"/plans/{key}") for key in "xy"))
    on.expect("report of two that nothing refers to", report("swept"), 0, "blocks 3 stored 9 referred 3 clashes 0\n")
    on.expect("sweep of limit 0", sweep("swept", 0), 0, "sweep uploads 0 blocks 0 partial\n")
    on.expect("a first sweep of limit 1", sweep("swept", 1), 0, "sweep uploads 0 blocks 1 partial\n")
    on.expect("a second sweep of limit 1", sweep("swept", 1), 0, "sweep uploads 0 blocks 1 complete\n")
    on.expect("a third sweep of limit 1", sweep("swept", 1), 0, "sweep uploads 0 blocks 0 complete\n")
    on.expect("report of the one that is left", report("swept"), 0, "blocks 1 stored 3 referred 3 clashes 0\n")
    sound(on, "swept")


def opened(on, file):
    """A host's file as SQLite itself reads it: a copy, with what its log and its packs have."""
    return host.opened(copied(on.path(file), on.folder, "copy"))


def rows_of(on, file, *queries):
    it = opened(on, file)
    rows = [it.execute(query).fetchall() for query in queries]
    it.close()
    return rows


# Bodies of a few bytes have several blocks.
SMALL = ("--block-size", "4")


@pytest.mark.cost(60)
@pytest.mark.proved
@pytest.mark.parametrize("word", DIGESTS)
def test_names_of_blocks(on, word):
    """Blocks have their names by the function that the host was made with, each time that it is opened: a body of one block, and
    one of several."""
    number, digest = DIGESTS[word]
    file = on.made(f"by {word}", "--digest", word)
    bodies = ("abc", "abcd", "abcdefghij", "", "0123456789abcdefghij" * 5)
    ask(on, file, request("green$k1", "PUT", "/plans"), *(request("green$k1", "PUT", f"/plans/{n}", it) for n, it in enumerate(bodies)), options=SMALL)
    ask(on, file, *(request("green$k1", "PUT", f"/plans/whole{n}", it) for n, it in enumerate(bodies)))
    rows, blocks = rows_of(on, file, "SELECT digest FROM host", "SELECT digest, ord, bytes FROM blocks")
    wanted = {it[at : at + size].encode() for it in bodies for size in (4, 1000) for at in range(0, len(it), size)}
    found = rows, {data for _, _, data in blocks}, [name == digest(data) and ordinal == 0 for name, ordinal, data in blocks]
    on.note(f"names by {word}", found == ([(number,)], wanted, [True] * len(wanted)), found)
    on.expect(f"report by {word}", report(file), 0, f"blocks {len(wanted)} stored {sum(map(len, wanted))} referred {2 * len(''.join(bodies))} clashes 0\n")
    sound(on, file)


DAY = 86_400


class Totals:
    """A host and a tenant of it, whose totals are looked at after each request."""

    def __init__(self, on, file):
        self.on, self.file = on, on.made(file, "--min-part", "4")

    def ask(self, name, requests, status, wanted):
        """A case: the last of some requests is answered with a status, and then the tenant's `used`, the `bytes_kept` of its
        uploads and the counts of uses, greatest first, are these."""
        answers = ask(self.on, self.file, *(request("green$k1", *it[:3], fields=it[3:]) for it in requests), options=SMALL)
        used, kept, uses = rows_of(
            self.on, self.file, "SELECT used FROM tenants", "SELECT bytes_kept FROM uploads ORDER BY upload", "SELECT uses FROM uses ORDER BY uses DESC"
        )
        found = answers[-1].split(b" ")[1:2], [n for (n,) in used], [n for (n,) in kept], [n for (n,) in uses]
        self.on.note(name, found == ([str(status).encode()], *wanted), found)


@pytest.mark.proved
@pytest.mark.cost(70)
def test_totals_of_copies(on):
    """What a host keeps counted: the bytes of each tenant and of each upload, and the references to each block."""
    it = Totals(on, "copied")
    it.ask("totals of a body of two equal blocks", [("PUT", "/plans", ""), ("PUT", "/plans/x", "aaaaaaaa")], 200, ([8], [], [2]))
    it.ask("totals after a copy of it", [("PUT", "/plans/y", "", "x-amz-copy-source: /plans/x")], 200, ([16], [], [4]))
    it.ask("totals after the first is deleted", [("DELETE", "/plans/x", "")], 204, ([8], [], [2]))
    it.ask("totals after it is put again and replaced", [("PUT", "/plans/y", "aaaa"), ("PUT", "/plans/y", "aaaabbbb")], 200, ([8], [], [1, 1]))
    it.ask("totals after the last is deleted", [("DELETE", "/plans/y", "")], 204, ([0], [], [0, 0]))
    on.expect("a sweep of what nothing refers to", sweep("copied", 100), 0, "sweep uploads 0 blocks 2 complete\n")
    it.ask("totals after a sweep", [("PUT", "/plans/x", "")], 200, ([0], [], []))
    sound(on, "copied")


@pytest.mark.proved
@pytest.mark.cost(60)
def test_totals_of_uploads(on):
    """The same of parts, and once they are joined or go."""
    it = Totals(on, "joined")
    parts = [(10000, "l"), (5, "hijk"), (2, "defg"), (1, "abc")]
    part = "/plans/v?uploadId=0000000000000001&partNumber={}".format
    begun = [("PUT", "/plans", ""), ("POST", "/plans/v?uploads", "")]
    it.ask("totals of an upload's parts", [*begun, *(("PUT", part(n), body) for n, body in parts)], 200, ([12], [12], [1, 1, 1, 1]))
    it.ask("totals after a part is replaced", [("PUT", part(2), "defghi"), ("PUT", part(2), "defg")], 200, ([12], [12], [1, 1, 1, 1, 0]))
    named = '{"Parts":[{"PartNumber":5},{"PartNumber":10000}]}'
    it.ask("totals after the upload is completed by two of them", [("POST", "/plans/v?uploadId=0000000000000001", named)], 200, ([5], [], [1, 1, 0, 0, 0]))
    aborted = [("POST", "/plans/w?uploads", ""), ("PUT", "/plans/w?uploadId=0000000000000002&partNumber=1", "hijkl"), ("DELETE", "/plans/w?uploadId=0000000000000002", "")]
    it.ask("totals after an upload is aborted", aborted, 204, ([5], [], [1, 1, 0, 0, 0]))
    on.expect("usage of what is kept", usage("joined", "green"), 0, "usage green bytes 5 quota 1000000\n")
    sound(on, "joined")
    rebuilt(on, "miscounted", "joined", "UPDATE tenants SET used = 7")
    on.expect("a total that isn't the sum, which opening trusts", usage("miscounted", "green"), 0, None)


# What a kept file was filled with.
FILL = [
    ("PUT", "/plans", ""),
    ("PUT", "/plans/a", "aaaaaaaa"),
    ("PUT", "/plans/b%2Fc", "aaaabbbbc"),
    ("PUT", "/kept", ""),
    ("PUT", "/kept?versioning", '{"Status":"Enabled"}'),
    ("PUT", "/kept/a", "first"),
    ("PUT", "/kept/a", "second"),
    ("DELETE", "/kept/a", ""),
    ("PUT", "/kept/b", "", "x-amz-copy-source: /plans/a"),
    ("PUT", "/plans?lifecycle", '{"Rules":[{"AbortIncompleteMultipartUpload":{"DaysAfterInitiation":3},"Status":"Enabled"}]}'),
    ("POST", "/kept/v?uploads", ""),
    ("PUT", "/kept/v?uploadId=0000000000000001&partNumber=2", "defg"),
    ("PUT", "/kept/v?uploadId=0000000000000001&partNumber=7", "h"),
    ("PUT", "/plans/d", "dropped"),
    ("DELETE", "/plans/d", ""),
]
# And one of version 2 or later.
FILL_DATED = [
    ("PUT", "/vault", "", "x-amz-bucket-object-lock-enabled: true"),
    ("PUT", "/vault/x", "aaaabbbbc", "x-amz-object-lock-mode: COMPLIANCE", "x-amz-object-lock-retain-until-date: 2091-08-01T00:00:00Z"),
]


def make_kept(on, name):
    """Fills a new host and keeps it, with what it answers: once for each version of a host's tables."""
    Totals(on, name)
    filling = FILL + FILL_DATED
    answers = ask(on, name, *(request("green$k1", *it[:3], fields=it[3:]) for it in [*filling, *reads_of(name)]), options=SMALL)
    opened(on, name).execute("PRAGMA wal_checkpoint")
    os.makedirs(HOSTS, exist_ok=True)
    shutil.copy(on.path(name), os.path.join(HOSTS, name))
    with open(os.path.join(HOSTS, name + ".answers"), "w") as told:
        json.dump([it.decode() for it in answers[len(filling) :]], told, indent=1)


@pytest.mark.cost(50)
@pytest.mark.parametrize("name", kept_names())
def test_files_of_earlier_programs(on, name):
    """Files that earlier programs made: all that is read of them is what those programs told, and the first opening makes them of
    this program's version."""
    on.expect("init beside kept files", ["init", "--file", "new"], 0, "host\n")
    wanted_tables = texts_of(on, "new")
    shutil.copy(os.path.join(HOSTS, name), on.path(name))
    for turn in ("opened", "opened again"):
        reads = reads_of(name)
        answers = ask(on, name, *(request("green$k1", *it) for it in reads))
        on.note(f"{name} {turn}", answers == told_by(name), [it for it in zip(reads, answers, told_by(name)) if it[1] != it[2]])
        found = versions_of(opened(on, name)), texts_of(on, name)
        dated = 0 if name == "version-1" else 1
        on.note(f"{name} {turn}: its version and its tables", found == ((5, dated, dated, 1, 0, UNNEEDED), wanted_tables), found)
    dates = ask(on, name, *(request("green$k1", "GET", f"/kept/a?retention&versionId={n:016x}") for n in (1, 2)))
    on.note(f"{name}: no version of an open bucket has a date", [it.split(b"\r\n\r\n")[1] for it in dates] == [b"{}"] * 2, dates)
    on.expect(f"a sweep of {name}", sweep(name, 100, "--force"), 0, "sweep uploads 0 blocks 2 complete\n")
    sound(on, name)


def test_file_of_an_earlier_program_opened_by_a_command(on):
    shutil.copy(os.path.join(HOSTS, "version-1"), on.path("by-command"))
    on.expect("version-1 opened by a command that asks", usage("by-command", "green") + ["--force"], 0, "usage green bytes 41 quota 1000000\n")
    found = versions_of(opened(on, "by-command"))
    on.note("which makes it of this version", found == (5, 0, 0, 1, 0, UNNEEDED), found)


def copy_kept(on):
    for name in kept_names():
        shutil.copy(os.path.join(HOSTS, name), on.path(f"{name}-kept"))


def texts_of(on, file):
    """The tables and indexes of a host's file, in the order in which they were made."""
    return rows_of(on, file, "SELECT type, name, tbl_name, sql FROM sqlite_master ORDER BY rowid")


@pytest.mark.cost(40)
@pytest.mark.proved
def test_files_of_no_earlier_program(on):
    """Files of earlier versions with another number, or other tables, are no hosts, and stay as they are."""
    copy_kept(on)
    for name, change in (
        ("version 1 told as 0", "UPDATE host SET version = 0"),
        ("version 1 told as 2", "UPDATE host SET version = 2"),
        ("version 1 told as 3", "UPDATE host SET version = 3"),
        ("version 1 told as 4", "UPDATE host SET version = 4"),
        ("version 1 without its row", "DELETE FROM host"),
        ("version 1 with locks", "CREATE TABLE locks (tenant TEXT NOT NULL, bucket TEXT NOT NULL, PRIMARY KEY (tenant, bucket)) STRICT"),
        ("version 1 with an index more", "CREATE INDEX more ON host (latest)"),
        ("version 2 told as 1", "UPDATE host SET version = 1"),
        ("version 2 told as 3", "UPDATE host SET version = 3"),
        ("version 2 without its row", "DELETE FROM host"),
        ("version 2 with tallies", "CREATE TABLE tallies (tenant TEXT NOT NULL PRIMARY KEY) STRICT"),
        ("version 2 without dates", "DROP TABLE retains"),
        ("version 3 told as 2", "UPDATE host SET version = 2"),
        ("version 3 told as 4", "UPDATE host SET version = 4"),
        ("version 3 told as 5", "UPDATE host SET version = 5"),
        ("version 3 without its row", "DELETE FROM host"),
        ("version 3 with packs", "CREATE TABLE packs (pack INT NOT NULL PRIMARY KEY) STRICT"),
        ("version 3 without tallies", "DROP TABLE tallies"),
        ("version 4 told as 3", "UPDATE host SET version = 3"),
        ("version 4 told as 5", "UPDATE host SET version = 5"),
        ("version 4 without its row", "DELETE FROM host"),
        ("version 4 with another count", "CREATE TABLE unneeded (bytes INT NOT NULL) STRICT"),
        ("version 4 without rights", "DROP TABLE rights"),
    ):
        rebuilt(on, name, name[: len("version 1")].replace(" ", "-") + "-kept", change)
        on.expect(name, tenant_add(name, "blue", "--force"), 1, "47 NotAHostFile\n", same=name, says=f"bucketd: {name}: ")
    for name, change in (
        ("version 1 without parts", lambda texts: [it for it in texts if "parts" not in it]),
        ("version 1 without an index", lambda texts: [it for it in texts if "newest" not in it]),
        ("version 1 with another CHECK", lambda texts: [it.replace("CHECK (quota >= 0)", "CHECK (quota >= -1)") for it in texts]),
    ):
        rebuilt(on, name, "version-1-kept", texts=change)
        on.expect(name, tenant_add(name, "blue", "--force"), 1, "47 NotAHostFile\n", same=name, says=f"bucketd: {name}: ")
    for name in ("version 1", "version 2", "version 3", "version 4"):
        rebuilt(on, f"{name} written by SQLite", name.replace(" ", "-") + "-kept")
        on.expect(f"the tables of {name}, written by SQLite", tenant_add(f"{name} written by SQLite", "blue", "--force"), 0, "tenant blue\n")


def sound(on, file):
    on.expect(f"check of {file}", check(file), 0, "sound\n", alone=file, says=f"bucketd: {file}: checking ")


@pytest.fixture
def checked(on):
    """A host with a version of three blocks, and an upload of two parts."""
    it = Totals(on, "checked")
    requests = [("PUT", "/plans", ""), ("PUT", "/plans/x", "aaaabbbbc"), ("POST", "/plans/v?uploads", "")]
    part = "/plans/v?uploadId=0000000000000001&partNumber={}".format
    it.ask("a host to break", [*requests, ("PUT", part(2), "defg"), ("PUT", part(7), "h")], 200, ([14], [5], [1, 1, 1, 1, 1]))


@pytest.fixture
def locked(on):
    """One with a locked bucket, in which a version has a date."""
    Totals(on, "locked").ask("a host with a date to break", LOCKED, 200, ([10], [], [1, 1, 1, 1]))


def some(on, every, rows):
    """All rows, or of a program without a proof each seventh."""
    return rows if every or is_quick(on.program) else rows[:: 7]


def test_check_of_no_file(on):
    on.expect("check of no file", check("missing"), 1, "47 NotAHostFile\n", alone="missing", says="bucketd: missing: there is no such file\n")
    on.expect("check without a file", ["check"], 2, None)


def test_names_of_broken_rows():
    """They differ, since each names a file. A slow program is asked each seventh row only, and may not meet two of one name."""
    names = [name for name, *_ in [*BROKEN, *BROKEN_LOCKS]]
    assert not [it for it in names if names.count(it) > 1]


@pytest.mark.cost(60)
def test_check_of_rows(on, every, checked):
    """A check of a file in which something isn't so."""
    on.expect("check of a host to break", check("checked"), 0, "sound\n", alone="checked", says="bucketd: checked: reading 20 tables\n")
    check_broken(on, "checked", some(on, every, BROKEN))


@pytest.mark.cost(60)
@pytest.mark.proved
@pytest.mark.parametrize("word", DIGESTS)
def test_eight_blocks(on, word):
    """A put hashes eight blocks side by side, or the four to seven that are left, and a check does if most of eight have one size. Their
    names are those of blocks hashed alone. Wrong bytes are found in each of the eight, in one of another size, and after the last eight."""
    file, digest, numbers = on.made(f"eights by {word}", "--digest", word), DIGESTS[word][1], [f"{n:064d}" for n in range(23)]
    bodies = [("/plans",), ("/plans/x", "abc"), ("/plans/y", "".join(numbers[:17]) + "rest"), ("/plans/z", "".join(numbers[17:]))]
    ask(on, file, *(request("green$k1", "PUT", *it) for it in bodies), options=("--block-size", "64"))
    wanted = [(row, digest(it.encode()), it.encode()) for row, it in enumerate(["abc", *numbers[:17], "rest", *numbers[17:]], 1)]
    found = rows_of(on, file, "SELECT rowid, digest, bytes FROM blocks ORDER BY rowid")[0]
    on.note(f"25 blocks by {word}", found == wanted, found)
    sound(on, file)
    check_broken(on, file, [(f"block {row} by {word}", f"UPDATE blocks SET bytes = zeroblob(length(bytes)) WHERE rowid = {row}",
                             f"blocks: another digest than that of its bytes, row {row}\nversion green plans {key} null: bytes of it are wrong or missing")
                            for key, rows in (("x", (1,)), ("y", (2, 5, 8, 9, 12, 16, 17, 18, 19)), ("z", (20, 24, 25))) for row in rows])


@pytest.mark.cost(40)
@pytest.mark.proved
def test_check_of_locks(on, every, locked):
    on.expect("check of a host with a date", check("locked"), 0, "sound\n", alone="locked")
    check_broken(on, "locked", some(on, every, BROKEN_LOCKS))
    broken(on, "the last moment", "locked", "UPDATE retains SET until = 251000000000")
    on.expect("check of a date that is the last moment", check("broken: the last moment"), 0, "sound\n", same="broken: the last moment")


@pytest.mark.cost(40)
@pytest.mark.proved
def test_check_of_rows_without_a_parent(on, checked, locked):
    for name, file, change in WITHOUT_PARENT:
        new = broken(on, name, file, change)
        on.expect(f"check of {new}", check(new), 1, "fault\n", same=new, says="file is not a database that obeys its schema")


@pytest.mark.cost(30)
@pytest.mark.proved
def test_check_of_earlier_files(on):
    copy_kept(on)
    for version, tables, stays in ((1, 10, (1, None, None, None, None, None)), (2, 12, (2, 1, 1, None, None, None)), (3, 13, (3, 1, 1, 1, None, None)),
                                   (4, 19, (4, 1, 1, 1, 0, None))):
        kept = f"version-{version}-kept"
        on.expect(f"check of a host of version {version}", check(kept), 0, "sound\n", same=kept, says=f"bucketd: {kept}: reading {tables} tables\n")
        found = versions_of(opened(on, kept))
        on.note("which stays one", found == stays, found)
        name, change, told = BROKEN[0]
        check_broken(on, kept, [(f"{name}, in version {version}", change, told)])
        new = broken(on, f"another number, in version {version}", kept, "UPDATE host SET version = 5")
        on.expect(f"check of {new}", check(new), 1, "47 NotAHostFile\n", same=new)


def broken(on, name, file, change):
    return rebuilt(on, f"broken: {name}", file, change)


def check_broken(on, file, changes):
    """What a check says of a host's file after each of some changes."""
    for name, change, told in changes:
        new = broken(on, name, file, change)
        if "INTO packs" in change:
            # The pack that it names, as long as its row says: a host that lacks one isn't checked.
            os.mkdir(on.path(new + host.PACKS), 0o700)
            with open(on.path(os.path.join(new + host.PACKS, "00000002")), "wb") as out:
                out.write(bytes(8))
        on.expect(f"check of {new}", check(new), 1, told + "\n", same=new)


@pytest.mark.cost(100)
@pytest.mark.proved
def test_clock_that_leaps(on):
    """A clock that is more than a day, or `--clock-leap` days, after the last stamp is refused, and changes nothing."""
    on.expect("init before leaps", ["init", "--file", "leap"], 0, "host\n")
    on.expect("a report of no stamp", report("leap", "--at", "0"), 0, "blocks 0 stored 0 referred 0 clashes 0\n", says="bucketd: leap: the host has no timestamp yet\n")
    first = 1_700_000_000
    on.expect("a first stamp may be any", tenant_add("leap", "a", "--at", str(first)), 0, "tenant a\n")
    on.expect("a day later", tenant_add("leap", "b", "--at", str(first + DAY)), 0, "tenant b\n")
    late = first + DAY + DAY + 1
    told = ("bucketd: leap: the clock reads 2023-11-16T22:13:21Z, but the host's last timestamp is 2023-11-15T22:13:20Z: "
            "set the clock, or if it is right use --clock-leap 2 or --force\n")
    for words in (tenant_add("leap", "c"), key_add("leap", "k1", "greensecret"), key_remove("leap", "k1"), usage("leap", "a"), report("leap"),
                  sweep("leap", 1), ["quota", "--file", "leap", "--tenant", "a", "--quota", "5"]):
        on.expect(f"{words[0]} a second later than a day", [*words, "--at", str(late)], 1, "fault\n", alone="leap", says=told)
    on.expect("not even a second", tenant_add("leap", "c", "--at", str(first + DAY + 1), "--clock-leap", "0"), 1, "fault\n", alone="leap", says="--clock-leap 1 ")
    on.expect("the clock's last reading", tenant_add("leap", "c", "--at", "250000000000"), 1, "fault\n", alone="leap", says="9892-03-08T12:26:40Z")
    on.expect("a reading past it", tenant_add("leap", "c", "--at", "250000000001"), 1, "30 ClockOutOfRange\n", same="leap")
    stamp = rows_of(on, "leap", "SELECT latest FROM host")[0][0][0]
    on.note("the stamp after leaps", stamp == first + DAY, stamp)
    on.expect("what the refusal says to give", tenant_add("leap", "c", "--at", str(late), "--clock-leap", "2"), 0, "tenant c\n")
    on.expect("a report of a stamp", report("leap", "--at", "0"), 0, "blocks 0 stored 0 referred 0 clashes 0\n", says="bucketd: leap: the host's last timestamp is 2023-11-16T22:13:21Z\n")
    serving = ["serve", "--file", "leap", "--port", "0", "--count", "1"]
    on.expect("serve by the machine's clock", serving, 1, "fault\n", alone="leap", says="bucketd: leap: the clock reads 20")
    on.expect("the machine's clock", report("leap"), 1, "fault\n", alone="leap", says="2023-11-16T22:13:21Z")
    server = Server(on.program, "leap", "--force", cwd=on.folder)
    on.note("serve by force", server.is_up(), server.lines())
    server.end()
    on.expect("the machine's clock by force", report("leap", "--force"), 0, "blocks 0 stored 0 referred 0 clashes 0\n")
    on.expect("and then without", report("leap"), 0, "blocks 0 stored 0 referred 0 clashes 0\n", says="last timestamp is 20")


# What a tenant may change.
TABLES = [f"SELECT * FROM {table} ORDER BY 1, 2" for table in ("tenants", "keys", "buckets", "versions", "blocks", "refs")]


@pytest.mark.cost(45)
@pytest.mark.proved
def test_readings_of_the_clock(on):
    """The stamp of a command is the greater of its reading of the clock and the last stamp; readings go up to 250,000,000,000."""
    on.expect("init before readings", ["init", "--file", "clock"], 0, "host\n")
    refused = "30 ClockOutOfRange\n"
    for reading, tenant, told, latest in (
        (0, "a", "tenant a\n", 0), (7, "b", "tenant b\n", 7), (3, "c", "tenant c\n", 7), (9, "b", "41 TenantExists\n", 9),
        (250_000_000_001, "e", refused, 9), (8, "f", "tenant f\n", 9), (250_000_000_000, "g", "tenant g\n", 250_000_000_000),
        (2**64 - 1, "h", refused, 250_000_000_000), (0, "i", "tenant i\n", 250_000_000_000),
    ):
        force = ["--force"] if tenant == "g" else []
        on.expect(f"tenant-add at {reading}", tenant_add("clock", tenant, "--at", str(reading), *force), int(told[0].isdigit()), told)
        stamp = rows_of(on, "clock", "SELECT latest FROM host")[0][0][0]
        on.note(f"the stamp after {reading}", stamp == latest, stamp)


@pytest.mark.cost(50)
def test_refused_requests(on):
    """What refused requests are answered, and that they leave all rows but the last stamp; and that a host has its own limits."""
    on.expect("init with limits", ["init", "--file", "rows", "--min-part", "4", "--max-body", "1000"], 0, "host\n")
    for tenant in ("green", "blue"):
        on.expect(f"tenant-add {tenant}", tenant_add("rows", tenant), 0, f"tenant {tenant}\n")
        key = ["key-add", "--file", "rows", "--tenant", tenant, "--name", "k1", "--secret", "greensecret"]
        on.expect(f"key-add {tenant}", key, 0, f"key {tenant}$k1\n")
    denied = b'HTTP/1.1 403 Forbidden\r\ncontent-type: application/json\r\ncontent-length: 48\r\nx-refusal: 5 AccessDenied\r\nconnection: close\r\n\r\n{"Code":"AccessDenied","Resource":"/blue:plans"}'
    short = b"HTTP/1.1 400 Bad Request\r\ncontent-length: 0\r\nx-refusal: 27 IncompleteBody\r\nconnection: close\r\n\r\n"
    foreign = request("green$k1", "GET", "/blue:plans?list-type=2")
    before = rows_of(on, "rows", *TABLES)
    asked = ask(on, "rows", foreign, foreign.replace("greensecret", "greensecreT"), foreign.replace("green$k1", "green$k2"))
    on.note("a bucket of another tenant that isn't there", asked[0] == denied, asked[0])
    on.note("another secret, and another key", all(it.startswith(b"HTTP/1.1 403 ") for it in asked[1:]), asked[1:])
    on.expect("a tenant once more", tenant_add("rows"), 1, "41 TenantExists\n")
    after = rows_of(on, "rows", *TABLES)
    on.note("their rows", before == after and after[1] == [(it, "k1", "greensecret") for it in ("blue", "green")], after)
    asked = ask(on, "rows", request("blue$k1", "PUT", "/plans"), request("blue$k1", "PUT", "/plans/x", "abc"), request("blue$k1", "PUT", "/plans/y", "a" * 1000))
    on.note("a bucket and two objects", all(it.startswith(b"HTTP/1.1 200 ") for it in asked), asked)
    before, (stamp,) = rows_of(on, "rows", *TABLES), rows_of(on, "rows", "SELECT latest FROM host")
    asked = ask(on, "rows", foreign, *(request("blue$k1", "PUT", target, "abcde", 8) for target in ("/plans/x", "/other/x")), request("blue$k1", "PUT", "/plans/z", "a" * 1001))
    on.note("a bucket of another tenant that is there", asked[0] == denied, asked[0])
    on.note("a body that ends early, in a bucket that is there and in one that isn't", asked[1:3] == [short, short], asked[1:3])
    on.note("a body above the host's own limit", b"x-refusal: 4 EntityTooLarge\r\n" in asked[3], asked[3])
    on.note("their rows, and the stamp", rows_of(on, "rows", *TABLES) == before and rows_of(on, "rows", "SELECT latest FROM host")[0] >= stamp, before)


@pytest.mark.cost(30)
@pytest.mark.proved
def test_last_number_of_a_counter(on):
    """A tenant whose counter of entries has given its last number: no script comes to it, so SQLite itself sets it."""
    first, last = ([json.loads(line) for line in open(f"{SCRIPTS}/{name}.in")] for name in ("counter-exhausted-first", "counter-exhausted"))
    on.made("spent")
    ask(on, "spent", *(event["http"] for event in first if "http" in event))
    rebuilt(on, "spent-then", "spent", f"UPDATE tenants SET next_entry = {COUNTER_END}")
    told = b"".join(it + b"\n" for it in ask(on, "spent-then", *(event["http"] for event in last)))
    wanted = open(f"{SCRIPTS}/counter-exhausted.out", "rb").read()
    on.note("counter-exhausted", told == wanted, told)


@pytest.mark.proved
@pytest.mark.cost(20)
def test_marker_of_an_unversioned_bucket(on):
    """A delete marker in an Unversioned bucket, which no operation leaves: SQLite itself sets the bucket's state back."""
    Totals(on, "marked")
    made = [("PUT", "/plans", ""), ("PUT", "/plans?versioning", '{"Status":"Suspended"}'), ("PUT", "/plans/x", "aaaa"), ("DELETE", "/plans/x", "")]
    ask(on, "marked", *(request("green$k1", *it) for it in made))
    rebuilt(on, "plain", "marked", "UPDATE buckets SET state = 0")
    deleted, got = ask(on, "plain", *(request("green$k1", method, "/plans/x") for method in ("DELETE", "GET")))
    rows = rows_of(on, "plain", "SELECT id, marker FROM versions")
    told = deleted.split(b" ")[1], got.split(b" ")[1], b"x-amz-delete-marker: true\r\n" in got
    on.note("a delete without id leaves a marker of an Unversioned bucket", (told, rows) == ((b"204", b"404", True), [[(0, 1)]]), (told, rows))


def test_wrong_words(on):
    on.expect("no words", [], 2, None)
    on.expect("an unknown option", ["init", "--file", "z", "--wrong", "1"], 2, None, same="z")
    on.expect("a required option left out", ["init"], 2, None)


def write(on, name, data):
    with open(on.path(name), "wb") as out:
        out.write(data)


@pytest.mark.cost(20)
def test_files_without_a_host(on):
    on.made("a")
    on.expect("no file", tenant_add("missing"), 1, "47 NotAHostFile\n", alone="missing", says="bucketd: missing: there is no such file\n")
    on.expect("serve of no file", ["serve", "--file", "missing", "--port", "0", "--count", "1"], 1, "47 NotAHostFile\n", alone="missing", says="no such file")
    write(on, "empty", b"")
    on.expect("an empty file", tenant_add("empty"), 1, "47 NotAHostFile\n", alone="empty", says="bucketd: empty: not a host: the file is empty\n")
    none = "not an SQLite database\n"
    for name, data in (("random", os.urandom(20000)), ("text", open(os.path.join(TOP, "LICENSE"), "rb").read()), ("short", b"SQLite format 3\0"), ("one", b"S")):
        write(on, name, data)
        on.expect(f"{name} bytes", tenant_add(name), 1, "fault\n", alone=name, says=f"bucketd: unable to open {name}: {none}")
        on.expect(f"init over {name} bytes", ["init", "--file", name], 1, "fault\n", alone=name, says=none)
        on.expect(f"serve of {name} bytes", ["serve", "--file", name, "--port", "0", "--count", "1"], 1, "fault\n", alone=name, says=none)
    host = bytes_of(on.path("a"))
    write(on, "cut", host[: len(host) // 2])
    on.expect("a cut file", tenant_add("cut"), 1, "fault\n", same="cut", says="bucketd: unable to open cut: ")
    write(on, "damaged", host[:5000] + bytes([host[5000] ^ 1]) + host[5001:])
    on.expect("a byte changed", tenant_add("damaged"), 1, "fault\n", same="damaged", says="bucketd: unable to open damaged: ")
    os.mkdir(on.path("folder"))
    folder = "bucketd: unable to open folder: not a regular file\n"
    on.expect("a folder", tenant_add("folder"), 1, "fault\n", alone="folder", says=folder)
    on.expect("init of a folder", ["init", "--file", "folder"], 1, "fault\n", alone="folder", says=folder)
    os.symlink("nowhere", on.path("dangling"))
    on.expect("a link to nothing", tenant_add("dangling"), 1, "47 NotAHostFile\n", alone="dangling", says="no such file")
    on.expect("init of a folder that isn't there", ["init", "--file", "gone/a"], 1, "fault\n", says="bucketd: unable to open gone/a: No such file or directory")


def test_modes(on):
    """A new file and its log are their owner's alone, a file that is there keeps its mode, and its log gets it."""
    umask = os.umask(0)
    on.expect("init with no umask", ["init", "--file", "own"], 0, "host\n")
    write(on, "open", b"")
    os.chmod(on.path("open"), 0o640)
    on.expect("init of an empty file", ["init", "--file", "open"], 0, "host\n")
    os.umask(umask)
    for name, mode in (("own", 0o600), ("open", 0o640)):
        on.run(tenant_add(name))
        on.note(f"the mode of {name}", mode_of(on, name) == mode, oct(mode_of(on, name)))
        log = os.path.exists(on.path(name + "-wal"))
        on.note(f"the mode of the log of {name}", not log or mode_of(on, name + "-wal") == mode, log and oct(mode_of(on, name + "-wal")))


def rebuilt(on, name, file="a", change="", texts=lambda it: it):
    """The name of a file that SQLite itself wrote: a host's tables and rows after a change of the tables' texts, and then one of SQL. All
    bytes of its blocks are in rows."""
    old = opened(on, file)
    made = [t for (t,) in old.execute("SELECT sql FROM sqlite_master WHERE sql IS NOT NULL ORDER BY rowid")]
    tables = [t for (t,) in old.execute("SELECT name FROM sqlite_master WHERE type = 'table'")]
    rows = [(t, r) for t in tables if t not in ("packs", "placed") for r in old.execute(f"SELECT * FROM {t}").fetchall()]
    old.close()
    new = sqlite3.connect(on.path(name))
    new.executescript(";".join(texts(made)))
    for table, row in rows:
        try:
            new.execute(f"INSERT INTO {table} VALUES ({', '.join('?' * len(row))})", row)
        except sqlite3.OperationalError:
            pass  # a change took the table, or a column of it
    new.executescript(change)
    new.commit()
    new.close()
    return name


@pytest.mark.cost(60)
def test_other_databases(on, every):
    on.made("a")
    rebuilt(on, "same")
    on.expect("the same tables, written by SQLite", tenant_add("same"), 1, "41 TenantExists\n")
    other = "not a host: the database belongs to another program, or to another version of bucketd\n"
    earlier = "the host has version 0, made by an earlier bucketd: download its objects with that program, and upload them to a new host\n"
    changes = (
        ("version 0", "UPDATE host SET version = 0", earlier),
        ("version 7", "UPDATE host SET version = 7", "the host has version 7, made by a later bucketd\n"),
        ("no row of the host", "DELETE FROM host", "not a host: its table host isn't valid\n"),
        ("blocks named by function 2", "UPDATE host SET digest = 2", "the host uses block digest 2, which only a later bucketd has\n"),
        ("limits out of range", "UPDATE host SET max_body = 0", "not a host: its table host isn't valid\n"),
        ("a table more", "CREATE TABLE more (a)", other),
        ("an index more", "CREATE INDEX more ON host (latest)", other),
    )
    for name, change, says in some(on, every, changes):
        rebuilt(on, name, "a", change)
        on.expect(name, tenant_add(name), 1, "47 NotAHostFile\n", same=name, says=f"bucketd: {name}: {says}")
    for name, text, why in (("no table", "PRAGMA user_version = 3", "not a host: the database has no tables\n"),
                            ("another program", "CREATE TABLE notes (id INTEGER PRIMARY KEY, text)", other)):
        with sqlite3.connect(on.path(name)) as new:
            new.execute(text)
        new.close()
        on.expect(name, tenant_add(name), 1, "47 NotAHostFile\n", same=name, says=f"bucketd: {name}: {why}")
    on.expect("init over another program's database", ["init", "--file", "another program"], 1, "47 NotAHostFile\n", same="another program", says="the file is another database\n")
    for name, texts, says in (
        ("an earlier version's table", lambda it: [it[0].replace(", digest INTEGER NOT NULL CHECK (digest >= 0)", ""), *it[1:]], earlier),
        ("a table less", lambda it: it[:-1], ""),
        ("another CHECK", lambda it: [it[0], it[1].replace("CHECK (quota >= 0)", "CHECK (quota >= -1)"), *it[2:]], ""),
    ):
        rebuilt(on, name, texts=texts)
        on.expect(name, tenant_add(name), 1, "47 NotAHostFile\n", same=name, says=f"bucketd: {name}: {says}")


def test_locked_file(on):
    """Another process has the file's lock."""
    on.made("a")
    with holding(on.path("a")):
        on.expect("another process has the file", tenant_add("a"), 1, "fault\n", same="a", says="bucketd: unable to open a: it is locked")
        on.expect("and init", ["init", "--file", "a"], 1, "fault\n", same="a", says="locked")
    on.expect("and has let it go", tenant_add("a"), 1, "41 TenantExists\n")


def everybodys(on):
    """The folder and the program are for everybody."""
    os.chmod(on.folder, 0o777)
    on.program = shutil.copy(on.program, on.path("bucketd"))
    os.chmod(on.program, 0o755)


def test_files_without_rights(on):
    on.made("a")
    everybodys(on)
    shutil.copy(on.path("a"), on.path("shut"))
    os.chmod(on.path("shut"), 0)
    user = NOBODY if os.geteuid() == 0 else None
    denied = "bucketd: unable to open shut: Permission denied"
    on.expect("a file without rights", tenant_add("shut"), 1, "fault\n", user=user, alone="shut", says=denied)
    os.chmod(on.path("shut"), 0o444)
    on.expect("a file that is only read", tenant_add("shut"), 1, "fault\n", user=user, alone="shut", says=denied)
    os.mkdir(on.path("closed"), 0o555)
    on.expect("init in a folder without rights", ["init", "--file", "closed/a"], 1, "fault\n", user=user, alone="closed/a", says="bucketd: unable to open closed/a: Permission denied")


def test_full_disk(on):
    with small_disk(on.path("full"), "768k") as place:
        if place is None:
            pytest.skip("no small file system can be mounted here: the user isn't root")
        on.expect("init on a small disk", ["init", "--file", "full/a"], 0, "host\n")
        fill(on.path("full/rest"))
        on.expect("tenant-add on a full disk", tenant_add("full/a"), 1, ("fault\n", "48 Unavailable\n"), same="full/a")
        on.expect("init on a full disk", ["init", "--file", "full/b"], 1, ("fault\n", "48 Unavailable\n"))
        os.remove(on.path("full/rest"))
        on.expect("and once there is room", tenant_add("full/a"), 0, "tenant green\n")


@pytest.mark.cost(80)
@pytest.mark.proved
def test_commands_at_once(on):
    """Commands on one file at once: each is done or told `fault`, and what was told stands."""
    on.expect("init of a busy file", ["init", "--file", "busy"], 0, "host\n")
    names = [f"t{n}" for n in range(8)]
    running = [(n, on.begin(tenant_add("busy", n))) for n in names]
    told = {n: process.communicate()[0] for n, process in running}
    on.note("commands at once", all(told[n] in (f"tenant {n}\n", "fault\n") for n in names), told)
    for n in names:
        there = told[n] != "fault\n"
        on.expect(f"{n} of them", tenant_add("busy", n), 1 if there else 0, "41 TenantExists\n" if there else f"tenant {n}\n")


@pytest.mark.cost(120)
@pytest.mark.proved
def test_commands_killed(on):
    """Commands that are killed: the file opens, and what was told stands."""
    on.expect("init before kills", ["init", "--file", "dead"], 0, "host\n")
    begun = time.monotonic()
    on.run(tenant_add("dead", "first"))
    whole = time.monotonic() - begun
    is_well, told = True, []
    for n in range(12):
        process = on.begin(tenant_add("dead", f"t{n}"))
        time.sleep(whole * n / 10)
        process.kill()
        told.append(process.communicate()[0])
        again = on.run(tenant_add("dead", f"t{n}")).stdout
        is_well &= again == "41 TenantExists\n" if told[n] else again in ("41 TenantExists\n", f"tenant t{n}\n")
    on.note("commands killed", is_well, told)


def main():
    """Makes a kept file."""
    folder = quick_folder()
    make_kept(Files(program_of(sys.argv[3:]), folder, lambda name, is_well, found: is_well or sys.exit(f"{name}: {found}")), sys.argv[2])
    shutil.rmtree(folder)


if __name__ == "__main__":
    main()
