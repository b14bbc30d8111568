"""bucketd-salvage: hosts of drawn contents whose files and logs are damaged in drawn places. The new host is sound, what it has is what
the old one had, byte for byte, and its list names what is missing and nothing that is there.

A draw damages pages of one kind: the first, a table's or an index's inside or leaves, of a block's further bytes, or free ones; or it
cuts the file, or damages the log. Rows are read by SQLite itself, and by walks of this file's own.
"""
import hashlib
import json
import os
import random
import re
import shutil
import sqlite3
import struct
import subprocess
import sys
from collections import Counter, defaultdict

import pytest

from faults import holding
from host import PACKS, TOP, Server, contents_of, copied, fill, is_quick, make_host, names, opened, pack_of, packs_of, read, removed, small_disk
from host_pages import PAGE, Pages, cells_of, is_sealed, mended_page, varint

TOOL = os.path.join(TOP, "tools/salvage")
TENANTS = ("green", "blue")
LOCKED = "x-amz-bucket-object-lock-enabled: true"
DATED = "x-amz-object-lock-mode: COMPLIANCE", "x-amz-object-lock-retain-until-date: 20{}-08-01T00:00:00Z"


# ---- hosts


def fill_host(program, file, draw, puts):
    """A host with two tenants, four buckets each, and so many puts, deletes and uploads of each; the last of them are in its log."""
    make_host(program, file, TENANTS, "--min-part", "4")
    for size, count in (("65536", puts // 2), ("100", puts)):
        with Server(program, file, "--force", "--block-size", size) as server:
            for tenant in TENANTS:
                if size != "100":
                    for name in ("plans", "kept", "held", "vault"):
                        server.ask(tenant, "PUT", f"/{name}", b"", [LOCKED] * (name == "vault"))
                    server.ask(tenant, "PUT", "/kept?versioning", b'{"Status":"Enabled"}')
                    server.ask(tenant, "PUT", "/held?versioning", b'{"Status":"Suspended"}')
                for _ in range(count):
                    act(server, draw, tenant, (10, 250, 900) if size == "100" else (3, 4500, 14000))
        if size != "100":
            subprocess.run([program, "sweep", "--file", file, "--limit", "1000", "--force"], check=True, stdout=subprocess.DEVNULL)


def act(server, draw, tenant, sizes):
    """One request, or those of an upload. Objects of few bytes and equal bytes share blocks."""
    name, key = draw.choice(("plans", "kept", "held", "vault")), draw.choice("abc") * draw.choice((1, 40, 700)) + str(draw.randrange(3))
    body = bytes([draw.randrange(3)]) * draw.choice((0, *sizes)) if draw.random() < 0.5 else draw.randbytes(draw.choice(sizes))
    heads = [it.format(draw.randrange(40, 90)) for it in DATED] if name == "vault" and draw.random() < 0.6 else []
    what = draw.random()
    if what < 0.7:
        return server.ask(tenant, "PUT", f"/{name}/{key}", body, heads)
    if what < 0.85:
        return server.ask(tenant, "DELETE", f"/{name}/{key}")
    upload = json.loads(server.ask(tenant, "POST", f"/{name}/{key}?uploads").body)["UploadId"]
    numbers = sorted(draw.sample(range(1, 50), draw.randrange(1, 4)))
    for it in numbers:
        server.ask(tenant, "PUT", f"/{name}/{key}?uploadId={upload}&partNumber={it}", draw.randbytes(draw.choice((5, 250, 900))))
    if what < 0.93:
        server.ask(tenant, "POST", f"/{name}/{key}?uploadId={upload}", json.dumps({"Parts": [{"PartNumber": it} for it in numbers]}).encode())


class State:
    """All that a host's file and log have, as SQLite reads it: versions and parts with the digests of their bytes."""

    def __init__(self, file, folder):
        database = opened(copied(file, folder, "read"))
        self.read = lambda table: database.execute(f"SELECT * FROM {table}").fetchall()
        blocks, bodies = {it[:2]: it[2] for it in self.read("blocks")}, defaultdict(bytes)
        for tenant, body, _, *name, _ in self.read("refs ORDER BY tenant, body, place"):
            bodies[tenant, body] += blocks[tuple(name)]
        names = {it[:2]: (it[0], it[2], it[3].decode(), f"{it[4]:016x}" if it[4] else "null") for it in self.read("versions")}
        self.versions = {names[it[:2]]: (*it[5:], hashlib.sha256(bodies[it[:2]]).digest()) for it in self.read("versions")}
        self.dates = {names[it[:2]]: it[2] for it in self.read("retains")}
        self.uploads = {(it[0], f"{it[1]:016x}"): it[2:5] for it in self.read("uploads")}
        self.parts = {(it[0], f"{it[1]:016x}", it[2]): (*it[3:6], bodies[it[0], it[6]]) for it in self.read("parts")}
        self.keys, self.buckets = {it[:2]: it[2] for it in self.read("keys")}, {it[:2]: it[2:] for it in self.read("buckets")}
        self.locks, self.tenants = set(self.read("locks")), {it[0]: it[1:5] for it in self.read("tenants")}
        self.placed = {it[:2]: it[2:5] for it in self.read("placed")}
        self.roots = dict(database.execute("SELECT name, rootpage FROM sqlite_master"))
        self.bodies = {names[it[:2]]: it for it in self.read("versions")}
        named = {"versions": "tenant, seq", "buckets": "tenant, bucket", "refs": "tenant, body, place", "blocks": "digest, ord", "placed": "digest, ord"}
        self.rowids = {table: {tuple(name): row for *name, row in database.execute(f"SELECT {columns}, rowid FROM main.{table}")} for table, columns in named.items()}
        self.refs = defaultdict(list)
        for it in self.read("refs"):
            self.refs[it[:2]].append((it[:3], it[3:5]))
        database.close()


# ---- where rows lie


def walk(pages, root, above=frozenset()):
    """The pages of a tree: each with those above it, its kind and its cells' places."""
    page, _ = pages.get(root)
    kind, places, last = cells_of(page, root, pages.usable)
    above = above | {root}
    yield root, above, kind, places
    for child in [struct.unpack(">I", page[it : it + 4])[0] for it in places] + [last] if kind in (2, 5) else []:
        yield from walk(pages, child, above)


def chain(pages, number, at):
    """The further pages of a row, and its number."""
    page, _ = pages.get(number)
    size, at = varint(page, at)
    row, at = varint(page, at)
    most, least = pages.usable - 35, (pages.usable - 12) * 32 // 255 - 23
    here = least + (size - least) % (pages.usable - 4)
    found, at = set(), at + (here if here <= most else least)
    after = struct.unpack(">I", page[at : at + 4])[0] if size > most else 0
    while after:
        found.add(after)
        after = struct.unpack(">I", pages.get(after)[0][:4])[0]
    return row, found


def pages_in_pack(pack, place, size):
    """The pages of a pack on which a block lies, of as many bytes as those of the file: their numbers are below 0."""
    assert pack == 0
    return {-1 - it for it in range(place // PAGE, (place + size - 1) // PAGE + 1)}


class Places:
    """Which pages are of which kind, and on which pages each version lies with all that it needs. Those of the pack have numbers below 0."""

    def __init__(self, file, state):
        pages = Pages(file)
        self.kinds, homes = defaultdict(list, {"the first": [1]}), {table: {} for table in state.rowids}
        for name, root in [("schema", 1), *state.roots.items()]:
            for number, above, kind, places in walk(pages, root):
                self.kinds[f"{name} {'leaf' if kind > 5 else 'inside'}"].append(number)
                for at in places if name in homes and kind == 13 else []:
                    row, more = chain(pages, number, at)
                    homes[name][row] = above | more
        known = {it for numbers in self.kinds.values() for it in numbers}
        self.kinds["free"] = sorted(pages.free())
        self.kinds["further"] = sorted(set(range(1, pages.count + 1)) - known - set(self.kinds["free"]))
        self.kinds["pack"] = [-1 - it for it in range(os.path.getsize(pack_of(file, 0)) // PAGE)] if state.placed else []
        at = {table: {name: homes[table][row] for name, row in rows.items()} for table, rows in state.rowids.items()}
        self.versions = {}
        for name, it in state.bodies.items():
            needed = [at["versions"][it[:2]], at["buckets"][name[:2]], *(at["refs"][ref] | at["blocks"][block] for ref, block in state.refs[it[:2]])]
            needed += [pages_in_pack(*state.placed[block]) | at["placed"][block] for _, block in state.refs[it[:2]] if block in state.placed]
            self.versions[name] = frozenset().union(*needed)


# ---- damage


WAYS = ("flip", "flips", "run", "zeros", "another page")


def hurt(draw, data, number):
    """Damages a page of a file's or a pack's bytes."""
    at, way = (number - 1) * PAGE, draw.choice(WAYS)
    if way in ("flip", "flips"):
        for _ in range(1 if way == "flip" else draw.randrange(8, 40)):
            data[at + draw.randrange(PAGE)] ^= 1 << draw.randrange(8)
    elif way == "run":
        low = draw.randrange(PAGE - 8)
        data[at + low : at + PAGE] = draw.randbytes(high := draw.randrange(8, PAGE - low + 1)) + data[at + low + high : at + PAGE]
    elif way == "zeros":
        data[at : at + PAGE] = bytes(PAGE)
    else:
        other = draw.randrange(len(data) // PAGE) * PAGE
        data[at : at + PAGE] = data[other : other + PAGE]
    return f"{way} at page {number}"


def hurt_log(draw, log):
    """Damages a log's bytes, cuts it, or takes it away."""
    way, at = draw.choice(("flip", "run", "cut", "gone", "head", "salt")), 32 + draw.randrange((len(log) - 32) // (24 + PAGE)) * (24 + PAGE)
    if way == "cut":
        del log[draw.randrange(len(log)) :]
    elif way == "gone":
        log.clear()
    elif way == "run":
        length = draw.randrange(8, 6000)
        log[at : at + length] = draw.randbytes(min(length, len(log) - at))
    else:
        log[{"flip": at + draw.randrange(24 + PAGE), "head": draw.randrange(32), "salt": at + 8 + draw.randrange(8)}[way]] ^= 1 << draw.randrange(8)
    return f"{way} of the log, change {(at - 32) // (24 + PAGE) + 1}"


# ---- what the new host has, and what is listed


class Listed:
    """What a list names, by kinds."""

    def __init__(self, lines):
        self.lines = [json.loads(it) for it in lines]
        self.kinds = {it["kind"] for it in self.lines}
        self.entries = {self.name(it) for it in self.lines if it["kind"] in ("version", "marker")}
        self.dates = {self.name(it) for it in self.lines if it["kind"] == "date"}
        self.buckets = {(it["kind"], it["tenant"], it["bucket"]) for it in self.lines}
        self.uploads = {(it["tenant"], it["id"]) for it in self.lines if it["kind"] == "upload"}
        self.parts = {(it["tenant"], it["id"], int(found[1])) for it in self.lines if it["kind"] == "part" and (found := re.match(r"part (\d+)", it["reason"]))}
        # Kinds of which a line doesn't say whose something is.
        self.vague = {it["kind"] for it in self.lines if not it["tenant"] or not it["key"] and it["kind"] in ("version", "marker")
                      or it["kind"] == "part" and not (it["id"] and re.match(r"part \d", it["reason"]))}
        self.vague |= {"version"} & {it.replace("marker", "version") for it in self.vague}

    def has_entry(self, name):
        """Whether a version is listed, by its id or as one of its key whose id isn't known."""
        return name in self.entries or (*name[:3], "") in self.entries

    def name(self, line):
        return line["tenant"], line["bucket"], line["key"], line["id"]


def flaws(old, new, listed, spared, moments=()):
    """What isn't as it should be; `spared`: versions none of whose pages was damaged; `moments`: of a log that was damaged, what the host
    had after each of its changes."""
    found = []

    def note(name, items):
        found.extend((name, it) for it in list(items)[:2])

    def differs(name, of, is_told=lambda it: False):
        has, had = getattr(new, of), [getattr(it, of) for it in (old, *moments)]
        note(f"{name} differs", (it for it in has if not is_told(it) and all(has[it] != one.get(it) for one in had)))

    differs("a version", "versions")
    differs("a part", "parts")
    differs("an upload", "uploads")
    differs("a key", "keys")
    differs("a date", "dates", lambda it: it in listed.dates)
    differs("a bucket", "buckets", lambda it: ("bucket", *it) in listed.buckets)
    differs("a tenant", "tenants", lambda it: ("tenant", it, "") in listed.buckets or "log" in listed.kinds)
    note("a lock that wasn't there", (it for it in new.locks - old.locks if ("lock", *it) not in listed.buckets))
    note("it is there, and is listed", (it for it in listed.entries if it in new.versions and new.versions[it] == old.versions.get(it)))
    note("it lay on no damaged page", (it for it in spared if it not in new.versions))
    if moments:
        is_one = "log" in listed.kinds or any(new.versions == it.versions and new.parts == it.parts for it in moments)
        return found + ["what it has is of no one moment, and the log isn't listed"] * (not is_one)
    note("a version is missing, and isn't listed", (it for it in old.versions if it not in new.versions and not listed.has_entry(it) and "version" not in listed.vague))
    note("an upload is missing, and isn't listed", (it for it in old.uploads if it not in new.uploads and it not in listed.uploads and "upload" not in listed.vague))
    is_told = lambda it: it in listed.parts or it[:2] in listed.uploads or {"part", "upload"} & listed.vague
    note("a part is missing, and isn't listed", (it for it in old.parts if it not in new.parts and not is_told(it)))
    note("a bucket is missing, and isn't listed", (it for it in old.buckets if it not in new.buckets and "bucket" not in listed.vague))
    note("a key is missing, and isn't listed", (it for it in old.keys if it not in new.keys and "access-key" not in listed.kinds))
    note("a lock is missing", (it for it in old.locks if it in new.buckets and it not in new.locks))
    note("a date is missing or earlier", (it for it in old.dates if it in new.versions and new.dates.get(it, 0) < old.dates[it]))
    return found


class Salvages:
    """A host with all in its file, and one with a log; and salvages of copies that are damaged."""

    def __init__(self, program, folder, puts):
        self.program, self.folder = program, folder
        draw = random.Random("what a host has")
        for it in ("old", "work"):
            os.mkdir(os.path.join(folder, it))
        self.logged, self.flat = (os.path.join(folder, "old", it) for it in ("logged", "flat"))
        fill_host(program, self.logged, draw, puts)
        copied(self.logged, os.path.dirname(self.flat), "flat")
        with sqlite3.connect(self.flat) as database:
            database.execute("PRAGMA wal_checkpoint(TRUNCATE)")
        database.close()
        removed(self.flat + "-wal")
        self.packs, self.old = os.path.isdir(packs_of(self.flat)), State(self.flat, folder)
        self.moments = [*self.states(folder)]
        self.places = Places(self.flat, self.old)

    def states(self, folder):
        """What the host had before its log, and after each of the log's changes."""
        log = read(self.logged + "-wal")
        ends = [at + 24 + PAGE for at in range(32, len(log) - 24 - PAGE, 24 + PAGE) if log[at + 8 : at + 16] == log[16:24] and log[at + 4 : at + 8] != bytes(4)]
        for end in (0, *ends):
            place = copied(self.logged, folder, "moment")
            with open(place + "-wal", "wb") as out:
                out.write(log[:end])
            yield State(place, folder)

    def salvaged(self, data, log, *options, pack=None):
        """Its status, what it says, the new host's state, and its list, of a file and log with these bytes, and a pack where it isn't as it
        was."""
        file, new, listed = (os.path.join(self.folder, "work", it) for it in ("file", "new", "list"))
        for it in (file, new, listed):
            removed(it)
        for name, it in ((file, data), (file + "-wal", log)):
            if it is not None:
                with open(name, "wb") as out:
                    out.write(it)
        if self.packs:
            shutil.copytree(packs_of(self.flat), packs_of(file))
        if pack is not None:
            with open(pack_of(file, 0), "wb") as out:
                out.write(pack)
        packs = contents_of(packs_of(file))
        done = salvage(self.program, file, new, "--lost", listed, *options)
        is_same = read(file) == data and (log is None or read(file + "-wal") == log)
        is_same &= contents_of(packs_of(file)) == packs
        left = set(names(os.path.join(self.folder, "work"))) - {"file", "file-wal", "file" + PACKS, "new", "new" + PACKS, "list"}
        said = f"status {done.returncode}: {done.stderr[-500:]}" + ("" if is_same else ", and the file was changed") + f" left {left}" * bool(left)
        if done.returncode not in (0, 1) or not is_same or left:
            return None, said, None, None
        lines = read(listed).decode().splitlines()
        is_told = len(lines) == len(done.stdout.splitlines()) and done.returncode == int(bool(lines))
        self.told = done.returncode, done.stdout
        return done.returncode if is_told else None, said, State(new, self.folder), Listed(lines)

    def lists_alike(self):
        """Whether a run that makes no new host has the status and the lines of the last one, and leaves nothing."""
        folder = os.path.join(self.folder, "work")
        before = names(folder)
        done = subprocess.run([sys.executable, TOOL, "--file", os.path.join(folder, "file"), "--program", "/bin/false"], capture_output=True, text=True)
        return (done.returncode, done.stdout) == self.told and names(folder) == before

    def draw(self, number):
        """Salvages a host that is damaged by this draw: what was done to it, what is wrong with the new one, and how much it has. Of each
        tenth the list is made alone, too."""
        done, wrong, new, listed = self.damaged(number)
        if number % 10 == 0 and not wrong and not self.lists_alike():
            wrong = ["it lists otherwise where it makes no new host"]
        return done, wrong, new, listed

    def damaged(self, number):
        """Of a draw what was done to the host, what is wrong with the new one, and that and its list."""
        draw = random.Random(f"damage {number}")
        if draw.random() < 0.15:
            data, log = read(self.logged), bytearray(read(self.logged + "-wal"))
            done = hurt_log(draw, log)
            status, said, new, listed = self.salvaged(data, bytes(log))
            wrong = [said] if status is None else flaws(self.old, new, listed, (), self.moments)
            return done, wrong, new, listed
        data, kinds = bytearray(read(self.flat)), sorted(self.places.kinds)
        pack, kind = bytearray(read(pack_of(self.flat, 0))) if self.old.placed else None, kinds[number % len(kinds)]
        numbers = [draw.choice(self.places.kinds[kind] or [1])] + [draw.randrange(len(data) // PAGE) + 1 for _ in range(draw.choice((0, 0, 0, 1, 4)))]
        done = ", ".join(hurt(draw, data, it) if it > 0 else hurt(draw, pack, -it) for it in numbers)
        if draw.random() < 0.1:
            del data[draw.randrange(len(data) // 2, len(data)) :]
            numbers += range(len(data) // PAGE + 1, max(map(max, filter(None, self.places.kinds.values()))) + 1)
            done += f", cut to {len(data)} bytes"
        status, said, new, listed = self.salvaged(bytes(data), None, pack=pack)
        spared = [name for name, pages in self.places.versions.items() if not pages & set(numbers)]
        wrong = [said] if status is None else flaws(self.old, new, listed, spared)
        return f"{kind}: {done}", wrong, new, listed


def salvage(program, file, new, *options, **more):
    return subprocess.run([sys.executable, TOOL, "--file", file, "--to", new, "--program", program, *options], capture_output=True, text=True, **more)


@pytest.mark.cost(200)
@pytest.mark.proved
def test_draws(expect, program, folder, full):
    """The number of draws is 1,000 with --full, 60 of a program that opens a file at once, and else 5."""
    it = Salvages(program, folder, 60 if is_quick(program) or full else 8)
    expect.note(f"{len(it.old.versions)} versions and delete markers, pages: {dict(sorted((kind, len(numbers)) for kind, numbers in it.places.kinds.items()))}")
    for name, file, log in (("a sound file", it.flat, None), ("a sound file with its log", it.logged, read(it.logged + "-wal"))):
        status, said, new, listed = it.salvaged(read(file), log)
        expect(f"{name}: all is there and nothing is lost", status == 0 and not flaws(it.old, new, listed, it.places.versions), said)
    answers_alike(expect, it)
    draws, kept, listed_lines, ends, reasons = 1000 if full else 60 if is_quick(program) else 5, 0, 0, Counter(), []
    for number in range(draws):
        done, wrong, new, listed = it.draw(number)
        reasons += [f"draw {number}, {done}: {wrong[:3]}"] * bool(wrong)
        if new:
            kept += sum(new.versions.get(name) == was for name, was in it.old.versions.items())
            listed_lines += len(listed.lines)
            ends["something lost" if listed.lines else "nothing lost"] += 1
    expect.note(f"{draws} draws: {dict(ends)}, {100 * kept / max(1, draws * len(it.old.versions)):.1f} % of versions kept, {listed_lines} lines listed")
    expect(f"{draws} damaged hosts", not reasons, "\n".join(reasons[:10]))


def answers_alike(expect, it):
    """The last new host answers what the old one does."""
    asked = [(name[0], f"/{name[1]}/{name[2]}?versionId={name[3]}") for name in sorted(it.old.versions)[:: max(1, len(it.old.versions) // 6)]]
    asked += [(name[0], f"/{name[1]}/{name[2]}?retention&versionId={name[3]}") for name in sorted(it.old.dates)[:3]]
    asked += [(tenant, target) for tenant in TENANTS for target in ("/kept?versions", "/held?uploads", "/plans?lifecycle", "/?usage", "/")]
    told = []
    for file in (it.logged, os.path.join(it.folder, "work/new")):
        with Server(it.program, copied(file, it.folder, "served"), "--force") as server:
            told.append([server.ask(tenant, "GET", target).data for tenant, target in asked])
    expect(f"{len(asked)} answers are the old host's", told[0] == told[1] and all(b" 200 OK" in it for it in told[0][-2:]), [one for one in zip(*told) if one[0] != one[1]][:2])


# ---- what it refuses


@pytest.mark.cost(40)
@pytest.mark.proved
def test_refusals(expect, program, folder):
    path = lambda name: os.path.join(folder, name)
    make_host(program, path("host"), ["green"])
    data = read(path("host"))
    other = sqlite3.connect(path("other"))
    other.execute("CREATE TABLE notes (text)")
    other.close()
    later = sqlite3.connect(path("later"))
    # Closed by its name: one that nothing names any more goes with its log and its index when Python collects what refers to itself.
    copy = sqlite3.connect(copied(path("host"), folder, "copy"))
    for (text,) in copy.execute("SELECT sql FROM sqlite_master WHERE sql IS NOT NULL ORDER BY rowid"):
        later.execute(text)
    copy.close()
    later.execute("INSERT INTO host VALUES (1, 6, 0, 5, 5, 0)")
    later.commit()
    later.close()
    for name, it in (("empty", b""), ("random", os.urandom(20000)), ("text", b"a text " * 3000), ("taken", b"t")):
        with open(path(name), "wb") as out:
            out.write(it)
    before = names(folder)
    for name, file, new, options, says in (
        ("no file", "missing", "new", (), "missing: there is no such file"),
        ("an empty file", "empty", "new", (), "empty: no host's file"),
        ("random bytes", "random", "new", (), "random: no host's file"),
        ("a text", "text", "new", (), "text: no host's file"),
        ("another program's database", "other", "new", (), "no host's file: it is a database of another program"),
        ("a later version", "later", "new", (), "the host has version 6"),
        ("a name that is taken", "host", "taken", (), "taken: it is there already"),
        ("the file's own name", "host", "host", (), "host: it is there already"),
        ("a name of a log", "host", "a-wal", (), "a-wal: no name for a host"),
        ("a list that is there", "host", "new", ("--lost", path("taken")), "taken"),
        ("another program", "host", "new", ("--program", "/bin/false"), "/bin/false init"),
        ("no program", "host", "new", ("--program", path("none")), "No such file"),
    ):
        done = salvage(program, path(file), path(new), *options)
        expect(name, done.returncode == 2 and not done.stdout and says in done.stderr and names(folder) == before, f"{done} {set(names(folder)) ^ set(before)}")
    expect("wrong words", subprocess.run([sys.executable, TOOL, "--file", "x"], capture_output=True).returncode == 2)
    with holding(path("host")):
        done = salvage(program, path("host"), path("new"))
        expect("a file that another process has", done.returncode == 2 and "another process has it" in done.stderr, done)
    is_same = names(folder) == before and read(path("host")) == data and read(path("taken")) == b"t"
    expect("all is as it was", is_same, f"{set(names(folder)) ^ set(before)} or other bytes")


def test_full_disk(expect, program, folder):
    make_host(program, os.path.join(folder, "host"), ["green"])
    with small_disk(os.path.join(folder, "full"), "256k") as place:
        if place is None:
            pytest.skip("no small file system can be mounted here: the user isn't root")
        fill(os.path.join(place, "rest"))
        done = salvage(program, os.path.join(folder, "host"), os.path.join(place, "new"))
        expect("a full disk", done.returncode == 2 and names(place) == ["rest"], f"{done} {names(place)}")


def test_interrupted(expect, program, folder):
    """A run that is ended while the new host is checked leaves nothing of it, as does one whose check fails; one that is killed leaves
    its partial file, which the next one keeps."""
    path = lambda name: os.path.join(folder, name)
    make_host(program, path("host"), ["green"])
    with open(path("slow"), "w") as out:
        out.write('#!/bin/sh\nif [ "$1" = check ]; then echo >"$3.begun"; exec sleep 9; fi\nexec "%s" "$@"\n' % program)
    os.chmod(path("slow"), 0o755)
    for way, left in (("terminate", []), ("kill", ["new.partial"])):
        process = subprocess.Popen([sys.executable, TOOL, "--file", path("host"), "--to", path("new"), "--program", path("slow")], stderr=subprocess.PIPE)
        while process.poll() is None and not os.path.exists(path("new.partial.begun")):
            pass
        getattr(process, way)()
        process.communicate()
        os.remove(path("new.partial.begun"))
        found = [it for it in names(folder) if it.startswith("new")]
        expect(f"a run that {way}s", found == left, found)
    with open(path("unsound"), "w") as out:
        out.write('#!/bin/sh\nif [ "$1" = check ]; then echo "uses: not how many references there are to the block, the block of digest 17"; exit 1; fi\nexec "%s" "$@"\n' % program)
    os.chmod(path("unsound"), 0o755)
    done = salvage(path("unsound"), path("host"), path("other"))
    expect("a new host that isn't sound", done.returncode == 2 and "the block of digest 17" in done.stderr and not os.path.exists(path("other")), done)
    done = salvage(program, path("host"), path("new"))
    expect("and the next one", done.returncode == 2 and "new.partial: it is there already" in done.stderr, done)


@pytest.mark.cost(30)
def test_example_of_the_manual(expect, program, folder):
    """The commands of docs/OPERATING.md give what stands below them."""
    text = read(TOP, "docs/OPERATING.md").decode()
    lines = re.search(r"## A damaged file\n.*?```sh\n(.*?)```", text, re.S)[1].splitlines()
    os.mkdir(os.path.join(folder, "bin"))
    for name, target in (("bucketd", program), ("bucketd-salvage", TOOL)):
        os.symlink(target, os.path.join(folder, "bin", name))
    wanted, typed = [it[2:] for it in lines if it.startswith("# ")], "\n".join(it for it in lines if not it.startswith("# "))
    done = subprocess.run(["bash", "-c", typed], cwd=folder, capture_output=True, text=True, env=os.environ | {"PATH": f"{folder}/bin:{os.environ['PATH']}"})
    found = [it for it in done.stdout.splitlines() if it not in ("host", "tenant green", "key green$k1")]
    expect("the example of docs/OPERATING.md", found == wanted, f"{found} {done.stderr}")


def test_sums_of_pages(expect):
    """A page with one wrong byte is set right or left, and never made another; with several it is left."""
    draw, counts = random.Random("pages"), Counter()
    for number in range(300):
        page = bytearray(draw.randbytes(draw.randrange(4088)).ljust(PAGE - 8, b"\0") + bytes(8))
        first = second = 0
        for one, other in struct.iter_unpack("<2I", page[:-8]):
            first = first + one + second & 0xFFFFFFFF
            second = second + other + first & 0xFFFFFFFF
        page[-8:] = struct.pack("<2I", first, second)
        counts["whole"] += is_sealed(bytes(page))
        hurt_page = bytearray(page)
        for at in draw.sample(range(PAGE), 1 if number % 2 else 9):
            hurt_page[at] ^= 1 << draw.randrange(8)
        found = mended_page(bytes(hurt_page))
        counts["right" if found == page else "left" if found is None else "wrong"] += 1
        counts["many"] += number % 2 == 0 and found is not None
    expect("pages set right", counts["whole"] == 300 and counts["right"] > 30 and not counts["wrong"] and not counts["many"], counts)
