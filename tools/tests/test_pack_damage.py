"""Packs of a host in files that are damaged, missing, of another host or of other users: what opens no host, and what a wrong byte does.

Each test begins with a copy of one host (pack_hosts.py).
"""
import json
import os
import random
import shutil
import signal
import subprocess
from dataclasses import dataclass
from typing import Callable
from urllib.parse import quote

import pytest

import host
from conftest import amount
from host import PACKS, PATIENCE, Server, command, contents_of, is_quick, make_host, names, pack_of, packs_of, read, run
from pack_hosts import BLOCK, MOST_IN_ROW, bodies, file, first, flipped, is_sound, lacks, rows, statuses  # noqa: F401 (the fixtures)

NOBODY = 65534


# ---- what opens no host


@dataclass
class Harm:
    """What is done to a host's folder of packs, how it is undone, what is said, and whether only root can do it or only others feel it."""

    name: str
    does: Callable
    undoes: Callable
    says: str
    user: str = ""


def replaced(make):
    """Puts something else in the place of a file or folder, which is kept beside it."""

    def does(path):
        os.rename(path, path + "-kept")
        make(path)

    return does


def put_back(path):
    if os.path.isdir(path) and not os.path.islink(path):
        os.rmdir(path)
    elif os.path.lexists(path):
        os.remove(path)
    os.rename(path + "-kept", path)


def cut(path):
    shutil.copy(path, path + "-kept")
    os.truncate(path, os.path.getsize(path) - 1)


def text_at(path):
    with open(path, "w") as out:
        out.write("text")


def modes(mode, usual):
    return (lambda path: os.chmod(path, mode)), (lambda path: os.chmod(path, usual))


PACK_HARMS = [
    Harm("a pack that is missing", replaced(lambda path: None), put_back, "this pack's file isn't there"),
    Harm("a pack that is cut", cut, put_back, "this pack's file was cut: it has "),
    Harm("a pack without a byte", replaced(lambda path: open(path, "w").close()), put_back, "this pack's file was cut: it has 0 of "),
    Harm("a folder in its place", replaced(os.mkdir), put_back, "no regular file"),
    Harm("a link in its place, to itself", replaced(lambda path: os.symlink(path + "-kept", path)), put_back, "no regular file"),
    Harm("a pipe in its place", replaced(os.mkfifo), put_back, "no regular file"),
    Harm("a pack that isn't readable", *modes(0, 0o600), "Permission denied", user="other"),
    Harm("a pack that can't be written", *modes(0o400, 0o600), "Permission denied", user="other"),
]
FOLDER_HARMS = [
    Harm("a folder that is missing", replaced(lambda path: None), put_back, "this pack's file isn't there"),
    Harm("an empty folder", replaced(lambda path: os.mkdir(path, 0o700)), put_back, "this pack's file isn't there"),
    Harm("a link to the folder", replaced(lambda path: os.symlink(path + "-kept", path)), put_back, "a symbolic link, and no folder"),
    Harm("a link to nothing", replaced(lambda path: os.symlink("nowhere", path)), put_back, "a symbolic link, and no folder"),
    Harm("a file in the folder's place", replaced(text_at), put_back, "no folder"),
    Harm("a folder that a group may write to", *modes(0o770, 0o700), "other users may write to this folder"),
    Harm("a folder that others may write to", *modes(0o707, 0o700), "other users may write to this folder"),
    Harm("another user's folder", lambda path: os.chown(path, NOBODY, -1), lambda path: os.chown(path, 0, -1), "another user's folder", user="root"),
    Harm("a folder without rights", *modes(0, 0o700), "Permission denied", user="other"),
]
# What a harmed host is asked, and what of it isn't there afterwards.
ASKED = [
    ("usage", ["usage", "--file", "a", "--tenant", "green"]),
    ("check", ["check", "--file", "a"]),
    ("tenant-add", ["tenant-add", "--file", "a", "--tenant", "red", "--quota", "5"]),
    ("sweep", ["sweep", "--file", "a", "--limit", "1000"]),
    ("backup", ["backup", "--file", "a", "--to", "copy"]),
    ("export", ["export", "--file", "a", "--tenant", "green", "--to", "copy"]),
    ("serve", ["serve", "--file", "a", "--port", "0", "--count", "1"]),
]


def held(folder, file):
    """The bytes of a host's file and of its packs, wherever these are kept, and the names beside it. Its log is made anew at each open."""
    packs = packs_of(file)
    places = [it for it in (packs, packs + "-kept") if os.path.isdir(it) and not os.path.islink(it) and os.access(it, os.R_OK | os.X_OK)]
    inside = {name: read(place, name) for place in places for name in names(place) if os.path.isfile(os.path.join(place, name)) and os.access(os.path.join(place, name), os.R_OK)}
    return read(file), inside, set(names(folder)) - {"a-wal"}


def given_to(user, folder):
    for at, inside, files in os.walk(folder):
        for it in [at, *(os.path.join(at, name) for name in inside + files)]:
            os.lchown(it, user, user)


@pytest.mark.cost(120)
@pytest.mark.parametrize("harm", [*PACK_HARMS, *FOLDER_HARMS], ids=lambda it: it.name)
def test_refused(expect, program, folder, file, bodies, every, harm):
    """The host isn't opened, standard error names the folder or the file, and nothing changes; once all is as it was it is served."""
    user = None
    if harm.user and os.geteuid() != 0:
        return expect.skip(harm.name, "the user isn't root")
    if harm.user == "other":
        user, program = NOBODY, shutil.copy(program, os.path.join(folder, "bucketd"))
        os.chmod(program, 0o755)
        given_to(user, folder)
    path = pack_of(file, 0) if harm in PACK_HARMS else packs_of(file)
    harm.does(path)
    before = held(folder, file)
    for name, words in ASKED if every or is_quick(program) else ASKED[1::5]:
        done = subprocess.run([program, *words], cwd=folder, user=user, capture_output=True, text=True, timeout=PATIENCE)
        told = done.stdout, done.returncode
        expect(f"{name}: {harm.name}", told == ("fault\n", 1) and f"a{PACKS}" in done.stderr and harm.says in done.stderr, f"{told} {done.stderr}")
        now = held(folder, file)
        expect(f"{name}: {harm.name}, which changes nothing", now == before, f"{now[2]} {now[1].keys()}, before {before[2]} {before[1].keys()}")
    harm.undoes(path)
    with Server(program, file, "--force") as server:
        found = lacks(server, bodies)
    expect(f"{harm.name}: once it is undone all is served", not found, found)


@pytest.mark.cost(30)
def test_files_of_no_row(expect, program, folder, file, bodies):
    """A pack's file that no row names goes at the opening, unless that fails; what has another name stays."""
    kept = ["00000001.bak", "000000002", "0000002", "a text", "00000000", "0000001x"]
    for name in ["00000002", "00000009", "00001234", "99999999", *kept]:
        with open(os.path.join(packs_of(file), name), "wb") as out:
            out.write(b"left")
    before = contents_of(packs_of(file))
    os.rename(pack_of(file, 0), os.path.join(folder, "away"))
    told = command(program, file, "usage", "--tenant", "green", "--force")
    left = contents_of(packs_of(file))
    expect("a host of which a pack is missing keeps them all", told == ("fault", 1) and left == {it: data for it, data in before.items() if it != "00000001"}, f"{told} {left.keys()}")
    os.rename(os.path.join(folder, "away"), pack_of(file, 0))
    told = command(program, file, "usage", "--tenant", "green", "--force")
    left = contents_of(packs_of(file))
    expect("one that is opened removes those of no row", told[1] == 0 and left == {it: before[it] for it in ["00000001", *kept]}, f"{told} {left.keys()}")
    with Server(program, file, "--force") as server:
        found = lacks(server, bodies)
    expect("and has all its objects", not found, found)


@pytest.mark.cost(20)
def test_packs_of_a_host_that_is_gone(expect, program, folder, file, bodies):
    """A host's file and log are moved away, and its folder isn't: `init`, `backup` and `export` under its name lose none of its packs."""
    before, tails = contents_of(packs_of(file)), [tail for tail in host.TAILS if os.path.exists(file + tail)]
    for tail in tails:
        os.rename(file + tail, os.path.join(folder, "away" + tail))
    make_host(program, os.path.join(folder, "other"), ["red"])
    for name, words in (("init", ["init", "--file", "a"]), ("backup", ["backup", "--file", "other", "--to", "a"]), ("export", ["export", "--file", "other", "--tenant", "red", "--to", "a"])):
        told = run(program, folder, *words)
        more = command(program, file, "check") if os.path.exists(file) else None
        expect(f"{name} beside them", contents_of(packs_of(file)) == before, f"{told} {more} {contents_of(packs_of(file)).keys()}")
        expect(f"{name} is refused, and says why", told[1] == 1 and not os.path.exists(file) and "packs" in told[2], f"{told} {names(folder)}")
        for tail in host.TAILS:
            if os.path.exists(file + tail):
                os.remove(file + tail)
    for tail in tails:
        os.rename(os.path.join(folder, "away" + tail), file + tail)
    with Server(program, file, "--force") as server:
        found = lacks(server, bodies)
    expect("once the file is back all is served", not found, found)


# ---- wrong bytes


# What `check` says of bytes, without the row's number, and behind the name of what has them.
FLAWS_OF_BYTES = {"placed: a pack hasn't got these bytes", "blocks: another digest than that of its bytes"}
LOST = "bytes of it are wrong or missing"


def first_line(told):
    return told[0].split("\n")[0].rpartition(", row ")[0]


def places_of(file):
    """Of each key the places of its blocks in packs: pack, place and size."""
    text = ("SELECT okey, pack, placed.place, placed.size FROM versions JOIN refs ON refs.tenant = versions.tenant AND body = seq"
            " JOIN placed ON placed.digest = refs.digest AND placed.ord = refs.ord WHERE versions.tenant = 'green' ORDER BY okey, refs.place")
    found = {}
    for key, *place in rows(file, text):
        found.setdefault(key.decode(), []).append(place)
    return found


def is_refused(answer, body):
    """Whether an answer has no wrong byte, and not all of them: 503, or the beginning of the body."""
    return (answer.status == 503 and answer.is_whole) or (answer.status in (200, 206) and not answer.is_whole and body.startswith(answer.body))


@pytest.mark.cost(120)
def test_flips(expect, program, folder, file, bodies, full):
    """One flipped bit in a pack: `check` tells it, the object that has the byte isn't answered, or ends before it, and each other is served."""
    places, draw = places_of(file), random.Random(7)
    several = [(key, pack, place, draw.randrange(place, place + size)) for key, found in places.items() for pack, place, size in (found[:1] + found[-1:])]
    several += [(key, pack, place, at) for key, found in places.items() for pack, place, size in found[:1] for at in (place, place + size - 1)]
    for key, pack, place, at in several if full or is_quick(program) else several[:2]:
        name = f"byte {at} of pack {pack + 1}, in {key}"
        flipped(pack_of(file, pack), at)
        told = command(program, file, "check")
        lines = told[0].split("\n")
        expect(f"check: {name}", told[1] == 1 and lines[1:] == [f"version green plans {key} null: {LOST}"] and first_line(told) in FLAWS_OF_BYTES, told)
        with Server(program, file, "--force", "--log") as server:
            wholes = [server.ask("green", "GET", f"/plans/{key}") for _ in range(2)]
            expect(f"the object isn't answered: {name}", all(is_refused(it, bodies[key]) for it in wholes), wholes)
            first = sum(size for _, it, size in places[key] if it < place)
            part = server.ask("green", "GET", f"/plans/{key}", None, [f"range: bytes={first}-{first + 10}"])
            expect(f"nor a part of that block: {name}", part.status == 503 or part.body == b"", part)
            found = lacks(server, {it: body for it, body in bodies.items() if it != key})
            expect(f"others are served: {name}", not found, found)
            told = server.ask("green", "PUT", "/plans/new", at.to_bytes(8, "big") * 1000).status, server.ask("green", "GET", "/plans?list-type=2").status
            expect(f"and puts and lists are done: {name}", told == (200, 200) and server.is_up(), f"{told} {server.lines()[-3:]}")
            flipped(pack_of(file, pack), at)
            found = lacks(server, bodies)
            expect(f"once it is right again all is served: {name}", not found, found)
    found = is_sound(program, file, folder)
    expect("it is sound in the end", not found, found)


def users_of(file, key):
    """The lines of all that has the only block of this key, as SQLite reads the rows, and where that block is."""
    [(digest, ord, pack, place)] = rows(file, "SELECT refs.digest, refs.ord, pack, placed.place FROM versions, refs, placed WHERE versions.tenant = 'green' AND okey = x'%s'"
                                        " AND refs.tenant = versions.tenant AND body = seq AND placed.digest = refs.digest AND placed.ord = refs.ord" % key.encode().hex())
    here = f" WHERE refs.digest = x'{digest.hex()}' AND refs.ord = {ord} AND "
    versions = rows(file, "SELECT versions.tenant, bucket, okey, id FROM refs, versions" + here + "refs.tenant = versions.tenant AND body = seq")
    uploads = rows(file, "SELECT uploads.tenant, bucket, okey, uploads.upload FROM refs, parts, uploads" + here + "refs.tenant = parts.tenant"
                   " AND refs.body = parts.body AND uploads.tenant = parts.tenant AND uploads.upload = parts.upload")
    found = [("version", *it) for it in versions] + [("upload", *it) for it in uploads]
    return sorted(f"{kind} {tenant} {bucket} {quote(name, safe='/~')} {f'{id:016x}' if id else 'null'}: {LOST}" for kind, tenant, bucket, name, id in found), (pack, place)


@pytest.mark.cost(20)
def test_what_a_check_lists(expect, program, folder, file, bodies):
    """A block that several versions, an upload and another tenant have: where a bit of it is wrong, `check` lists them all."""
    shared, other = (random.Random(it).randbytes(BLOCK) for it in ("shared", "other"))
    with Server(program, file, "--force") as server:
        told = [server.ask("blue", "PUT", "/toys").status, server.ask("green", "PUT", "/plans?versioning", b'{"Status":"Enabled"}').status]
        told += [server.ask("green", "PUT", f"/plans/{key}", body).status for key, body in (("a%20b", shared), ("a%20b", other), ("a%20b", shared + other), ("c", other))]
        told += [server.ask("blue", "PUT", "/toys/d/%C3%A4", other + shared).status]
        upload = json.loads(server.ask("green", "POST", "/plans/up?uploads", b"").body)["UploadId"]
        told += [server.ask("green", "PUT", f"/plans/up?uploadId={upload}&partNumber={number}", body).status for number, body in ((1, other), (2, shared))]
        told += [server.ask("green", "PUT", "/plans/only", shared).status]
    lines, (pack, place) = users_of(file, "only")
    expect("several have the block", set(told) == {200} and len(lines) == 5, f"{told} {lines}")
    flipped(pack_of(file, pack), place + 1000)
    said, status = command(program, file, "check")
    expect("a check lists them all", status == 1 and sorted(said.split("\n")[1:]) == lines and first_line((said, 1)) in FLAWS_OF_BYTES, f"{said} {lines}")
    flipped(pack_of(file, pack), place + 1000)
    found = is_sound(program, file, folder)
    expect("and nothing once it is right", not found, found)


@pytest.mark.cost(60)
def test_drawn_damage(expect, program, folder, file, bodies, full):
    """Runs of wrong bytes, zeros and parts of another place: never a wrong byte is answered."""
    draw, places, wrong, refusals = random.Random(11), places_of(file), [], 0
    data = read(pack_of(file, 0))
    length = max(place + size for found in places.values() for _, place, size in found)
    for number in range(amount("PACK_DRAWS", 200 if full else 10 if is_quick(program) else 2)):
        low, count = draw.randrange(length), draw.randrange(1, 100_000)
        high, other = min(length, low + count), draw.randrange(length)
        new = draw.choice([draw.randbytes(high - low), bytes(high - low), data[other : other + high - low].ljust(high - low, b"\0")])
        with open(pack_of(file, 0), "wb") as out:
            out.write(data[:low] + new + data[high:])
        is_told = command(program, file, "check")[0] != "sound"
        with Server(program, file, "--force") as server:
            for key, body in bodies.items():
                answer = server.ask("green", "GET", f"/plans/{key}")
                is_hit = any(place < high and low < place + size and data[max(low, place) : min(high, place + size)] != new[max(low, place) - low : min(high, place + size) - low]
                             for _, place, size in places.get(key, []))
                is_well = is_refused(answer, body) and is_told if is_hit else (answer.status, answer.body) == (200, body)
                refusals += is_hit
                wrong += [] if is_well else [f"draw {number}, bytes {low} to {high}, {key}: {answer.status}, {len(answer.body)} bytes, told {is_told}"]
    with open(pack_of(file, 0), "wb") as out:
        out.write(data)
    expect(f"no wrong byte is answered; {refusals} objects were refused", not wrong and refusals > 0, wrong[:5])


@pytest.mark.cost(40)
def test_pack_of_another_host(expect, program, folder, file, bodies):
    """Another host's pack, which has as many bytes, and two packs of one host that are exchanged: no byte of it is answered."""
    other = make_host(program, os.path.join(folder, "other"), ["green"])
    theirs = {key: random.Random(f"their {key}").randbytes(len(body)) for key, body in bodies.items()}
    with Server(program, other, "--force") as server:
        told = {server.ask("green", "PUT", "/plans").status} | statuses(server, "PUT", theirs)
        server.end(signal.SIGTERM)
    assert told == {200}, told
    mine = read(pack_of(file, 0))
    shutil.copyfile(pack_of(other, 0), pack_of(file, 0))
    told = command(program, file, "check")
    expect("check of a host with another's pack", told[1] == 1 and told[0] != "sound", told)
    with Server(program, file, "--force") as server:
        answers = {key: server.ask("green", "GET", f"/plans/{key}") for key, body in bodies.items()}
        wrong = {key: it for key, it in answers.items() if not (is_refused(it, bodies[key]) if len(bodies[key]) > MOST_IN_ROW else it.body == bodies[key])}
    expect("it answers what is in rows, and nothing else", not wrong, wrong)
    expect("and removes nothing", read(pack_of(file, 0)) == read(pack_of(other, 0)))
    with open(pack_of(file, 0), "wb") as out:
        out.write(mine)
    with Server(program, file, "--force") as server:
        found = lacks(server, bodies)
    expect("with its own pack all is served", not found, found)
