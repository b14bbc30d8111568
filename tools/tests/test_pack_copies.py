"""Copies of hosts with packs: backups, exports and copies by hand. On the file system of its host a backup's packs are links to the
host's files, and on another one they are files of its own. Whatever both are asked then, neither writes to what the other one has.
"""
import os
import shutil
import signal
import time

import pytest

import host
from host import PACKS, PATIENCE, Server, command, contents_of, copied, is_quick, make_host, names, pack_of, packs_of, read, removed, run
from pack_hosts import Putter, bodies, file, first, flipped, is_sound, lacks, mode_of, rows, statuses  # noqa: F401 (the fixtures)


def is_whole_copy(expect, program, name, copy, bodies, folder):
    """A copy, and the packs that it has, if any, are their owner's alone; it is sound, and is served."""
    found = is_sound(program, copy, folder)
    modes = {mode_of(copy)} | {mode_of(os.path.join(packs_of(copy), it)) for it in contents_of(packs_of(copy))}
    expect(f"{name}: it is its owner's alone", modes == {0o600}, modes)
    expect(f"{name}: and so are its packs", not os.path.exists(packs_of(copy)) or mode_of(packs_of(copy)) == 0o700, names(folder))
    expect(f"{name}: it is sound", not found, found)
    with Server(program, copy, "--force") as server:
        found = lacks(server, bodies)
        told = server.ask("green", "PUT", "/plans/of the copy".replace(" ", "-"), bodies["blocks"][::-1]).status
    expect(f"{name}: it is served, and takes puts", told == 200 and not found, f"{told} {found}")


@pytest.mark.cost(60)
def test_backup(expect, program, folder, file, bodies):
    """A backup has packs, which are its own."""
    copy, before = os.path.join(folder, "b"), contents_of(packs_of(file))
    told = run(program, folder, "backup", "--file", "a", "--to", "b")
    expect("a backup", told[:2] == ("backup", 0), told)
    expect("which leaves the packs", contents_of(packs_of(file)) == before and set(host.files(folder)) <= {"a", "a-wal", "b"}, names(folder))
    os.rename(packs_of(file), os.path.join(folder, "away"))
    os.rename(file, os.path.join(folder, "away-file"))
    is_whole_copy(expect, program, "the backup", copy, bodies, folder)


@pytest.mark.cost(60)
def test_backup_beside_packs(expect, program, folder, file, bodies):
    """A folder of packs that has the copy's name, as a host that was removed without its packs leaves it: nothing in it is lost, or the copy
    is a whole one."""
    copy = os.path.join(folder, "b")
    os.mkdir(packs_of(copy), 0o700)
    for name in ("00000001", "00000007", "a text"):
        with open(os.path.join(packs_of(copy), name), "wb") as out:
            out.write(b"mine")
    before = contents_of(packs_of(copy))
    told = run(program, folder, "backup", "--file", "a", "--to", "b")
    if told[1] == 0:
        return is_whole_copy(expect, program, "a backup beside packs of its name", copy, bodies, folder)
    expect("a backup beside packs of its name is refused, and they stay", not os.path.exists(copy) and contents_of(packs_of(copy)) == before, f"{told} {names(folder)}")
    expect("and standard error tells why", "packs of that name exist already" in told[2], told)
    shutil.rmtree(packs_of(copy))
    told = run(program, folder, "backup", "--file", "a", "--to", "b")
    expect("once they are gone there is one", told[:2] == ("backup", 0), told)
    is_whole_copy(expect, program, "the backup", copy, bodies, folder)


def stopped_copy(folder, *names_in_it):
    """What a stopped backup to `b` leaves of packs, with files of these names."""
    left = os.path.join(folder, "b.partial" + PACKS)
    os.mkdir(left, 0o700)
    for name in names_in_it:
        with open(os.path.join(left, name), "wb") as out:
            out.write(b"left")
    return left


@pytest.mark.cost(60)
def test_backup_over_a_stopped_one(expect, program, folder, file, bodies):
    """Packs that a stopped backup left are written over, also by an export, which has none; a folder with other files is refused and stays."""
    left = stopped_copy(folder, "00000001", "00000009", "mine")
    before = contents_of(left)
    told = run(program, folder, "backup", "--file", "a", "--to", "b")
    expect("a folder with other files is refused", told[:2] == ("fault", 1) and "its .partial.packs is no folder of packs that a backup left" in told[2], told)
    expect("which stays, and no backup is made", contents_of(left) == before and not os.path.exists(os.path.join(folder, "b")), names(left))
    shutil.rmtree(left)
    for name, words in (("backup", ["backup", "--file", "a", "--to", "b"]), ("export", ["export", "--file", "a", "--tenant", "green", "--to", "b"])):
        left = stopped_copy(folder, "00000001", "00000009")
        told = run(program, folder, *words)
        expect(f"over what was left: {name}", told[:2] == (name, 0) and not os.path.exists(left), f"{told} {names(folder)}")
        expect(f"nothing of it is in the copy: {name}", set(contents_of(packs_of(os.path.join(folder, "b")))) <= {"00000001"} and b"left" not in contents_of(packs_of(os.path.join(folder, "b"))).values(), names(folder))
        is_whole_copy(expect, program, f"over what was left: {name}", os.path.join(folder, "b"), bodies, folder)
        removed(os.path.join(folder, "b"))


@pytest.mark.cost(80)
def test_backup_of_a_server(expect, program, folder, file, bodies):
    """A backup of a server that takes puts has all that was acknowledged before, and the server goes on."""
    copy, sizes = os.path.join(folder, "b"), [100, 4097, 70_000] if is_quick(program) else [100, 5000]
    with Server(program, file, "--force", "--operator-port", "0") as server:
        putters = [Putter(server, it, sizes) for it in range(3 if is_quick(program) else 1)]
        for it in putters:
            it.start()
        begun = time.monotonic()
        while not all(it.done for it in putters) and time.monotonic() - begun < PATIENCE:
            time.sleep(0.05)
        before = {key: body for it in putters for key, body in dict(it.done).items()}
        told = run(program, folder, "tell", "--port", str(server.operators()), '{"op":"backup","to":"%s"}' % copy)
        expect("a backup of a server", told[:2] == ("backup", 0), told)
        more = sum(len(it.done) for it in putters)
        begun = time.monotonic()
        while sum(len(it.done) for it in putters) <= more and time.monotonic() - begun < PATIENCE:
            time.sleep(0.05)
        expect("which goes on", server.is_up() and sum(len(it.done) for it in putters) > more, server.lines())
        server.end()
        for it in putters:
            it.join(PATIENCE)
    is_whole_copy(expect, program, "the backup", copy, {**bodies, **before}, folder)
    with Server(program, file, "--force") as server:
        found = lacks(server, {**bodies, **{key: body for it in putters for key, body in it.done.items()}})
    expect("and the host has all that came later", not found, found)


@pytest.mark.cost(80)
def test_export_and_import(expect, program, folder, file, bodies):
    """A tenant moves with what it has in packs: to a host of its own, and from there to another one, which has some of its blocks."""
    before = contents_of(packs_of(file))
    told = run(program, folder, "export", "--file", "a", "--tenant", "green", "--to", "t")
    expect("an export", told[:2] == ("export", 0), told)
    expect.note(f"the exported host's file, log and packs have {host.on_disk(os.path.join(folder, 't'))} bytes")
    expect("which leaves the packs, and nothing else", contents_of(packs_of(file)) == before and set(host.files(folder)) <= {"a", "a-wal", "t"}, names(folder))
    second = make_host(program, os.path.join(folder, "second"), ["red"])
    some = {key: body for key, body in bodies.items() if key in ("pack", "blocks")}
    with Server(program, second, "--force") as server:
        told = {server.ask("red", "PUT", "/plans").status} | statuses(server, "PUT", some, "red")
        server.end(signal.SIGTERM)
    expect("another host has some of its blocks", told == {200}, told)
    before = contents_of(packs_of(os.path.join(folder, "t")))
    told = run(program, folder, "import", "--file", "second", "--from", "t", "--force")
    expect("an import", told[:2] == ("tenant green", 0), told)
    expect("which leaves the exported host", contents_of(packs_of(os.path.join(folder, "t"))) == before, names(folder))
    with Server(program, second, "--force") as server:
        found = lacks(server, bodies) | lacks(server, some, "red")
    expect("both tenants are served", not found, found)
    found = is_sound(program, second, folder)
    expect("it is sound", not found, found)
    for name in ("t", "second"):
        is_whole_copy(expect, program, name, os.path.join(folder, name), bodies, folder)


@pytest.mark.cost(40)
def test_copies_by_hand(expect, program, folder, file, bodies):
    """A copy by hand of the file, its log and its folder is a host; one without the folder isn't opened, and says what it lacks."""
    copy = copied(file, folder, "copy")
    is_whole_copy(expect, program, "a copy by hand", copy, bodies, folder)
    for tail in host.TAILS:
        if os.path.exists(file + tail):
            shutil.copy(file + tail, os.path.join(folder, "alone" + tail))
    told = run(program, folder, "check", "--file", "alone")
    expect("a copy without packs", told[:2] == ("fault", 1) and f"alone{PACKS}" in told[2], told)
    expect("the first host is as it was", command(program, file, "check") == ("sound", 0))


# ---- links


def links_of(*files):
    """How many names the files of packs have, by the names of the packs."""
    return {it: os.stat(os.path.join(packs_of(file), it)).st_nlink for file in files for it in names(packs_of(file))}


@pytest.fixture
def links(folder):
    """Skips a test where the file system has no links."""
    one = os.path.join(folder, "one")
    with open(one, "wb"):
        pass
    try:
        os.link(one, one + "-more")
        os.remove(one + "-more")
    except OSError as error:
        pytest.skip(f"no links: {error}")
    finally:
        os.remove(one)


def backed_up(program, folder, to="b", file="a"):
    told = run(program, folder, "backup", "--file", file, "--to", to)
    assert told[:2] == ("backup", 0), told
    return to if os.path.isabs(to) else os.path.join(folder, to)


def put_one(server, key, body):
    return server.ask("green", "PUT", f"/plans/{key}", body).status


@pytest.mark.cost(40)
def test_links(expect, program, folder, file, bodies, links):
    """A backup on the host's file system has the host's files of packs, which is told by their links; each is whole without the other."""
    copy = backed_up(program, folder)
    same = {it: os.path.samefile(os.path.join(packs_of(file), it), os.path.join(packs_of(copy), it)) for it in names(packs_of(copy))}
    expect("the copy's packs are the host's files", same and all(same.values()) and set(links_of(file).values()) == {2}, f"{same} {links_of(file)}")
    second = backed_up(program, folder, "c")
    expect("and so are those of a second one", set(links_of(file).values()) == {3}, links_of(file))
    removed(second)
    removed(file)
    expect("without the host they are the copy's alone", set(links_of(copy).values()) == {1}, links_of(copy))
    is_whole_copy(expect, program, "a copy without its host", copy, bodies, folder)


@pytest.mark.cost(60)
def test_both_are_served(expect, program, folder, file, bodies, links):
    """A host and its backup are served side by side, and opened again: each has its own objects, and no file that both have changes."""
    copy = backed_up(program, folder)
    before, sizes = contents_of(packs_of(copy)), (5000, 70_000)
    wanted = {it: dict(bodies) for it in (file, copy)}
    for turn in range(2):
        with Server(program, file, "--force") as one, Server(program, copy, "--force") as other:
            for number, size in enumerate(sizes):
                for server, it in ((one, file), (other, copy)):
                    body = os.urandom(size)
                    wanted[it][f"{turn}-{number}"] = body
                    told = put_one(server, f"{turn}-{number}", body)
                    expect(f"turn {turn}: a put of {size} bytes", told == 200, told)
            found = lacks(one, wanted[file]) | lacks(other, wanted[copy])
            expect(f"turn {turn}: each has its own", not found, found)
    after = {it: contents_of(packs_of(it)) for it in (file, copy)}
    expect("what both have is as it was", all(it[name] == data for it in after.values() for name, data in before.items()), names(packs_of(copy)))
    expect("and each has packs of its own", len(after[file]) > len(before) and len(after[copy]) > len(before), [names(packs_of(it)) for it in after])
    for it in (file, copy):
        found = is_sound(program, it, folder)
        expect(f"{os.path.basename(it)} is sound", not found, found)


@pytest.mark.cost(60)
def test_backup_while_it_appends(expect, program, folder, file, bodies, links):
    """A server goes on with the pack that a backup of it shares, past what the backup has of it: the backup stays what it was."""
    copy, late = os.path.join(folder, "b"), os.urandom(20_000)
    with Server(program, file, "--force", "--operator-port", "0") as server:
        assert put_one(server, "early", bodies["blocks"][::-1]) == 200
        told = run(program, folder, "tell", "--port", str(server.operators()), '{"op":"backup","to":"%s"}' % copy)
        size = os.path.getsize(pack_of(copy, 0))
        expect("a backup", told[:2] == ("backup", 0) and size == rows(copy, "SELECT length FROM packs")[0][0], f"{told} {size}")
        assert put_one(server, "late", late) == 200
        found = lacks(server, {**bodies, "late": late})
        server.end(signal.SIGTERM)
    expect("the server goes on in the pack that both have", not found and os.path.getsize(pack_of(file, 0)) == os.path.getsize(pack_of(copy, 0)) > size, found)
    told = run(program, folder, "backup", "--file", "b", "--to", "c")
    expect("a backup of the backup has a file of its own, since that is longer than the backup's", told[1] == 0 and os.path.getsize(pack_of(os.path.join(folder, "c"), 0)) == size, told)
    removed(os.path.join(folder, "c"))
    is_whole_copy(expect, program, "the backup", copy, {**bodies, "early": bodies["blocks"][::-1]}, folder)
    with Server(program, file, "--force") as server:
        found = lacks(server, {**bodies, "late": late})
    expect("the host has what came later", not found and is_sound(program, file, folder) == [], found)


@pytest.mark.cost(40)
def test_copy_outlives_packs(expect, program, folder, file, bodies):
    """A sweep removes the host's packs, once nothing in them is needed: the backup has them."""
    copy = backed_up(program, folder)
    with Server(program, file, "--force") as server:
        told = statuses(server, "DELETE", {key: None for key in bodies})
        server.end()
    told_of_sweep = command(program, file, "sweep", "--limit", "10000", "--force")
    expect("the host's pack is gone", told == {204} and told_of_sweep[1] == 0 and names(packs_of(file)) == [], f"{told} {told_of_sweep} {names(packs_of(file))}")
    is_whole_copy(expect, program, "the backup", copy, bodies, folder)


@pytest.mark.cost(30)
def test_another_file_system(expect, program, folder, disk_folder, file, bodies):
    """A backup on another file system has packs of its own, which are as the host's."""
    if os.stat(disk_folder).st_dev == os.stat(folder).st_dev:
        return expect.skip("another file system", "this machine has one alone")
    copy = backed_up(program, folder, os.path.join(disk_folder, "b"))
    expect("its packs are files of its own", set(links_of(file, copy).values()) == {1} and contents_of(packs_of(copy)) == contents_of(packs_of(file)), links_of(file, copy))
    is_whole_copy(expect, program, "the backup", copy, bodies, disk_folder)


@pytest.mark.cost(30)
def test_links_are_refused(expect, program, folder, library, file, bodies):
    """Where the file system has no links, packs are copied."""
    told = run(program, folder, "backup", "--file", "a", "--to", "b", LD_PRELOAD=library("refuse_call"), NO_LINKS="1")
    copy = os.path.join(folder, "b")
    expect("its packs are files of its own", told[:2] == ("backup", 0) and set(links_of(file, copy).values()) == {1}, f"{told} {links_of(file, copy)}")
    expect("with the host's bytes", contents_of(packs_of(copy)) == contents_of(packs_of(file)))
    is_whole_copy(expect, program, "the backup", copy, bodies, folder)


@pytest.mark.cost(30)
def test_files_that_are_not_linked(expect, program, folder, file, bodies):
    """A pack whose file is longer than its row, as an append that failed leaves it, is copied, and so is one that ends otherwise: the
    copy has what a reading returns."""
    with open(pack_of(file, 0), "ab") as out:
        out.write(b"past its row")
    copy = backed_up(program, folder)
    size = rows(file, "SELECT length FROM packs")[0][0]
    expect("a longer file is copied up to its row", links_of(copy) == {"00000001": 1} and read(pack_of(copy, 0)) == read(pack_of(file, 0))[:size], links_of(copy))
    is_whole_copy(expect, program, "the backup", copy, bodies, folder)


@pytest.mark.cost(30)
def test_another_file_of_that_name(expect, program, folder, file, bodies):
    """A pack's file was moved away under a server, and another one that ends otherwise has its name: the backup has the pack's bytes."""
    away, copy = os.path.join(folder, "away"), os.path.join(folder, "b")
    with Server(program, file, "--force", "--operator-port", "0") as server:
        os.rename(packs_of(file), away)
        shutil.copytree(away, packs_of(file))
        flipped(pack_of(file, 0), os.path.getsize(pack_of(file, 0)) - 1)
        told = run(program, folder, "tell", "--port", str(server.operators()), '{"op":"backup","to":"%s"}' % copy)
        server.end(signal.SIGTERM)
    expect("a backup", told[:2] == ("backup", 0) and set(links_of(copy).values()) == {1}, f"{told} {links_of(copy)}")
    is_whole_copy(expect, program, "the backup", copy, bodies, folder)


@pytest.mark.cost(30)
def test_what_rsync_goes_by(expect, program, folder, file, bodies):
    """The packs of two backups have the sizes and times of the host's, by which rsync passes over what it copied before."""
    first_copy = backed_up(program, folder)
    with Server(program, file, "--force") as server:
        assert put_one(server, "more", os.urandom(70_000)) == 200
        server.end(signal.SIGTERM)
    time.sleep(1.1)  # (rsync compares times by seconds)
    second = backed_up(program, folder, "c")
    told = {it: [(os.stat(os.path.join(packs_of(copy), it)).st_size, os.stat(os.path.join(packs_of(copy), it)).st_mtime_ns) for copy in (first_copy, second)] for it in names(packs_of(first_copy))}
    expect("what was copied before is the same for rsync", told and all(one == other for one, other in told.values()), told)
    expect("and what came is another file", len(names(packs_of(second))) == len(told) + 1, names(packs_of(second)))
    if shutil.which("rsync") is None:
        return expect.skip("rsync itself", "it isn't installed")
    away = os.path.join(folder, "away")
    os.mkdir(away)
    for number, copy in enumerate((first_copy, second)):
        # As OPERATING has it: the packs, and then all.
        place = os.path.join(folder, f"backup-{number}")
        os.mkdir(place)
        os.rename(packs_of(copy), os.path.join(place, "host" + PACKS))
        os.rename(copy, os.path.join(place, "host"))
        sent = rsynced(os.path.join(place, "host" + PACKS), away + "/")
        expect(f"rsync {number}: files of packs that are sent", sent == (len(told) if number == 0 else 1), sent)
        expect(f"rsync {number}: and then the host's file alone", rsynced("--delete-after", place + "/", away + "/") == 1)
    there = os.path.join(away, "host")
    expect("what is there is the second backup", contents_of(packs_of(there)) == contents_of(packs_of(os.path.join(place, "host"))) and is_sound(program, there, folder) == [])


def rsynced(*words):
    """How many files rsync sends."""
    told = host.subprocess.run(["rsync", "-a", "--stats", *words], capture_output=True, text=True, timeout=PATIENCE).stdout
    return next(int(line.split(":")[1].replace(",", "")) for line in told.splitlines() if "regular files transferred" in line)
