"""`bucketd backup` on hosts in new folders: the copy is a host that answers as the first one does, a name that is taken stays, and
whatever stops the command, refuses it a call or leaves it no room, there is a whole copy or none. So it is where a server makes
it by an operator's line, and so is what `cp` takes of both files while a server's process stands still."""
import json
import os
import shutil
import signal
import sqlite3
import stat
import subprocess
import sys
import tempfile
import threading
import time

import pytest

import host
from faults import FAULTS, calls_of, holding, is_begun_alone, series
from host import PACKS, PATIENCE, Server, command, contents_of, copied, fill, free_port, is_quick, make_host, names, on_disk, packs_of, read, removed, run, small_disk

PAGE = 4096
TENANTS = ["green", "blue"]
# Bodies by key: none, one block, and more bytes than are copied at a time, 1 MiB.
BODIES = {"none": b"", "small": b"abc", "blocks": bytes(range(256)) * 300, "large": os.urandom(1_300_000), "long": os.urandom(1_200_000)}
# Put after the last command, so that they are in the log alone.
LATE = {"late": b"late", "later": b"x" * 70_000}
DONE = ("backup", 0)


def backup(program, folder, file="a", to="b", **env):
    return run(program, folder, "backup", "--file", file, "--to", to, **env)


def put(program, file, bodies):
    """Puts bodies of each tenant, and kills the server, so that they stand in the log."""
    server = Server(program, file, "--clock-leap", "1000")
    told = []
    for tenant in TENANTS:
        told.append(server.ask(tenant, "PUT", "/plans").status)
        told += [server.ask(tenant, "PUT", f"/plans/{key}", body).status for key, body in bodies.items()]
    server.end()
    if not set(told) <= {200, 409}:
        sys.exit(f"the bodies weren't put: {told}")


@pytest.fixture(scope="session")
def first(program):
    """A host, with some of what it has in its file and some in its log, and what it answers."""
    folder = host.quick_folder("backup-")
    file = make_host(program, os.path.join(folder, "a"), TENANTS)
    put(program, file, BODIES)
    command(program, file, "usage", "--tenant", "green")
    put(program, file, LATE)
    yield file, answers(program, file)
    shutil.rmtree(folder)


@pytest.fixture
def file(first, folder):
    """A copy of that host, as `a` in a folder of its own."""
    return copied(first[0], folder)


@pytest.fixture
def top(folder, file):
    return folder


@pytest.fixture
def wanted(first):
    return first[1]


def is_copy(copy, file):
    """Whether a backup has the bytes of a file, and its packs those that the rows name."""
    had, has = (contents_of(packs_of(it)) for it in (file, copy))
    database = sqlite3.connect(f"file:{file}?immutable=1", uri=True)  # (its log was copied into it)
    lengths = database.execute("SELECT pack + 1, length FROM packs").fetchall()
    database.close()
    return read(copy) == read(file) and set(has) <= set(had) and all(has[f"{pack:08d}"][:length] == had[f"{pack:08d}"][:length] for pack, length in lengths)


def answers(program, file):
    """All that a host tells of its tenants, on a copy, so that its own file stays as it is."""
    with tempfile.TemporaryDirectory(dir=os.path.dirname(file)) as folder:
        it = copied(file, folder, "seen")
        told = [command(program, it, "report", "--force")] + [command(program, it, "usage", "--tenant", name, "--force") for name in TENANTS]
        server = Server(program, it, "--force")
        for tenant in TENANTS:
            told += [server.ask(tenant, "GET", f"/plans/{key}").body for key in [*BODIES, *LATE]]
            told.append(server.ask(tenant, "GET", "/plans?list-type=2").body)
        server.end()
        return told


@pytest.mark.cost(70)
@pytest.mark.proved
def test_backup(expect, program, top, file, wanted):
    """A backup, and what its host answers."""
    expect("what is put is told", [body in wanted for body in (*BODIES.values(), *LATE.values())] == [True] * len([*BODIES, *LATE]), len(wanted))
    before = set(names(top))
    told = backup(program, top)
    expect("a backup", told == (*DONE, ""), told)
    expect("it and its packs are all that is new", {"b"} <= set(names(top)) - before <= {"b", "b" + PACKS}, names(top))
    mode = stat.S_IMODE(os.stat(os.path.join(top, "b")).st_mode)
    expect("its mode", mode == 0o600, oct(mode))
    expect("its bytes are those of the file", is_copy(os.path.join(top, "b"), file), "others")
    found = answers(program, os.path.join(top, "b"))
    expect("its host answers as the first", found == wanted, [it for it in zip(found, wanted) if it[0] != it[1]])
    expect("and the first as before", answers(program, file) == wanted, "otherwise")
    put(program, file, {"after": b"after"})
    expect("what comes later isn't in it", answers(program, os.path.join(top, "b")) == wanted, "otherwise")
    expect("a backup of the backup", backup(program, top, "b", "c") == (*DONE, ""), names(top))
    expect("has its bytes", is_copy(os.path.join(top, "c"), os.path.join(top, "b")), "others")
    removed(os.path.join(top, "c"))


def foreign(file):
    """Another program's database."""
    database = sqlite3.connect(file)
    with database:
        database.execute("CREATE TABLE mine (it TEXT)")
    database.close()


def stays(expect, program, top, name, says, file="a", to="b", text="fault"):
    """A backup that is refused, and changes nothing."""
    bytes_of = lambda it: read(it) if os.path.isfile(it) else contents_of(it) if it.endswith(PACKS) else None
    state = lambda: {it: (os.lstat(os.path.join(top, it)).st_mode, bytes_of(os.path.join(top, it))) for it in names(top) if not it.endswith("-wal")}
    before = state()
    told = backup(program, top, file, to)
    expect(name, told[:2] == (text, 1) and says in told[2] and state() == before, f"{told}, {names(top)}")


@pytest.mark.cost(60)
@pytest.mark.proved
def test_refused(expect, program, top, file):
    """Names that are taken, files that are no hosts, and a host that is served."""
    shutil.copy(file, os.path.join(top, "b"))
    taken = "bucketd: unable to create b: the file exists already\n"
    stays(expect, program, top, "a backup that is there already", taken)
    stays(expect, program, top, "the host's own file", "unable to create a: the file exists already", to="a")
    os.symlink("nowhere", os.path.join(top, "link"))
    stays(expect, program, top, "a link to nothing", "unable to create link: the file exists already", to="link")
    os.mkdir(os.path.join(top, "folder"))
    stays(expect, program, top, "a folder", "unable to create folder: the file exists already", to="folder")
    stays(expect, program, top, "a folder that isn't there", "No such file or directory", to="gone/b")
    for tail in ("-wal", "-journal", ".partial", ".moving", ".packs"):
        stays(expect, program, top, f"a name that ends in {tail}", f"unable to create n{tail}: the name ends in -wal, -journal, .partial, .moving or .packs", to="n" + tail)
    for tail in ("-wal", "-journal"):
        beside = os.path.join(top, "n" + tail)
        shutil.copy(file, beside)
        stays(expect, program, top, f"a file with {tail} behind the name", "unable to create n: a log, a journal or packs of that name exist already", to="n")
        expect("which stays", read(beside) == read(file), "not")
        os.remove(beside)
    os.mkdir(os.path.join(top, "n.packs"))
    stays(expect, program, top, "a folder of packs behind the name", "unable to create n: a log, a journal or packs of that name exist already", to="n")
    os.rmdir(os.path.join(top, "n.packs"))
    stays(expect, program, top, "a host that isn't there", "bucketd: missing: there is no such file\n", "missing", "n", "47 NotAHostFile")
    open(os.path.join(top, "empty"), "w").close()
    stays(expect, program, top, "an empty file", "bucketd: empty: not a host: the file is empty", "empty", "n", "47 NotAHostFile")
    shutil.copy(__file__, os.path.join(top, "text"))
    stays(expect, program, top, "no database", "bucketd: unable to open text: not an SQLite database\n", "text", "n")
    shutil.copy(__file__, os.path.join(top, "n.partial"))
    stays(expect, program, top, "a file of the copy's first name that is no database", "unable to create n: unable to open its .partial file: not an SQLite", to="n")
    os.remove(os.path.join(top, "n.partial"))
    foreign(os.path.join(top, "n.partial"))
    stays(expect, program, top, "another program's database of the copy's first name", "unable to create n: its .partial file is another program's database", to="n")
    expect("and no log is left beside it", not os.path.exists(os.path.join(top, "n.partial-wal")), names(top))
    os.remove(os.path.join(top, "n.partial"))
    server = Server(program, file, "--force")
    stays(expect, program, top, "a host that is served", "bucketd: unable to open a: it is locked", to="n")
    server.end()


@pytest.mark.proved
def test_at_once(expect, program, top, file):
    """Another process writes a backup of that name: it is left to it. What a kill left of one is written over."""
    left = os.path.join(top, "n.partial")
    with open(left, "wb") as out:
        out.write(read(file)[:5000] + bytes(10_000_000))
    with holding(left):
        stays(expect, program, top, "another backup to that name", "unable to create n: unable to open its .partial file: it is locked", to="n")
    told = backup(program, top, to="n")
    expect("one that was killed is written over", told == (*DONE, "") and is_copy(os.path.join(top, "n"), file), told)
    expect("and nothing of it is left", not [it for it in names(top) if it.startswith("n.") and it != "n" + PACKS], names(top))
    removed(os.path.join(top, "n"))


def stopped(program, first, wanted, library, fault, number, **env):
    """A backup that is killed before a call: what is found otherwise, or None."""
    with tempfile.TemporaryDirectory(dir=os.path.dirname(first)) as folder:
        copied(first, folder)
        said = backup(program, folder, **fault.env(library, number), **env)
        if said[1] != -signal.SIGKILL:
            return f"it ended with {said}"
        if os.path.exists(os.path.join(folder, "b")):
            return f"there is a backup, {names(folder)}"
        told = backup(program, folder)
        # Stopped between the names of its packs and of its file it left packs of that name, which may be a host's: they are told, and
        # removed by hand.
        if "packs of that name exist already" in told[2] and {"b.partial", "b" + PACKS} <= set(names(folder)):
            shutil.rmtree(os.path.join(folder, "b" + PACKS))
            told = backup(program, folder)
        # What a lost sync left of a file may be no database's first bytes: then it is told, and removed by hand.
        if fault.does != "stop" and "not an SQLite database" in told[2]:
            os.remove(os.path.join(folder, "b.partial"))
            told = backup(program, folder)
        if told != (*DONE, "") or set(names(folder)) - {"a-wal", "a" + PACKS, "b" + PACKS} != {"a", "b"}:
            return f"the next one ended with {told}, {names(folder)}"
        if not is_copy(os.path.join(folder, "b"), os.path.join(folder, "a")):
            return "the next one has other bytes"
        return None if number % 16 or answers(program, os.path.join(folder, "b")) == wanted else "the next one's host answers otherwise"


def failed(program, first, wanted, library, fault, number, **env):
    """A backup one call of which fails, or is made by half: what is found otherwise, or None."""
    with tempfile.TemporaryDirectory(dir=os.path.dirname(first)) as folder:
        copied(first, folder)
        told = backup(program, folder, **fault.env(library, number), **env)
        there = os.path.exists(os.path.join(folder, "b"))
        if told[:2] == DONE:
            return None if there and is_copy(os.path.join(folder, "b"), os.path.join(folder, "a")) else f"it is told, {names(folder)}"
        if fault.does == "half" or told[1] != 1 or told[0] not in ("fault", "48 Unavailable") or there:
            return f"it ended with {told}, {names(folder)}"
        # Where each later call fails, too, what was written can't be removed.
        left = [it for it in names(folder) if it.startswith("b")] if fault.does == "refuse" else []
        if left and not (is_begun_alone(folder, left, told[2]) and backup(program, folder) == (*DONE, "")):
            return f"it left {names(folder)}"
        return None if number % 16 or answers(program, os.path.join(folder, "a")) == wanted else "the host answers otherwise"


# A backup whose packs are links, and one whose packs are copied, as on another file system.
MANNERS = {"links": {}, "copies": {"NO_LINKS": "1"}}


@pytest.mark.cost(300)
@pytest.mark.proved
@pytest.mark.parametrize("manner", MANNERS)
@pytest.mark.parametrize("fault", FAULTS, ids=lambda it: it.name)
def test_each_call(expect, program, first, library, fault, manner):
    """A backup that is stopped before each of its calls, or is refused it."""
    (file, wanted), preload, manner = first, library("refuse_call"), MANNERS[manner]
    with tempfile.TemporaryDirectory(dir=os.path.dirname(file)) as folder:
        copied(file, folder)
        count = calls_of(preload, lambda **env: backup(program, folder, **env, **manner))
    numbers, one = range(1, count + 1, (2 if manner else 1) if is_quick(program) else 12), failed if fault.lives else stopped
    series(expect, f"of {count} calls", numbers, lambda number: one(program, file, wanted, preload, fault, number, **manner))


@pytest.mark.cost(100)
@pytest.mark.proved
def test_killed(expect, program, top, file):
    """Backups that are killed after some time."""
    begun = time.monotonic()
    backup(program, top, to="k")
    whole_time = time.monotonic() - begun
    wrong = []
    for n in range(20 if is_quick(program) else 3):
        removed(os.path.join(top, "k"))
        it = subprocess.Popen([program, "backup", "--file", "a", "--to", "k"], stdout=subprocess.PIPE, stderr=subprocess.DEVNULL, text=True, cwd=top)
        time.sleep(whole_time * n / 20)
        it.kill()
        told = it.communicate()[0]
        there = os.path.exists(os.path.join(top, "k"))
        if told and not there or there and not is_copy(os.path.join(top, "k"), file):
            wrong.append((n, told, names(top)))
    expect("killed after a time", not wrong, wrong)


def stands_still(server):
    """Stops a server's process where it is."""
    server.process.send_signal(signal.SIGSTOP)
    begun = time.monotonic()
    while read(f"/proc/{server.process.pid}/stat").rpartition(b") ")[2][:1] != b"T":
        if time.monotonic() - begun > PATIENCE:
            sys.exit("the server doesn't stop")
        time.sleep(0.001)


def body_of(number):
    return str(number).encode() * (1 + 97 * number % 5000)


def puts_on(server, answered, is_over):
    """Puts one object after another, and notes each that was answered."""
    while not is_over.wait(0.005):
        number = len(answered)
        if server.ask("green", "PUT", f"/plans/n{number}", body_of(number)).status != 200:
            return
        answered.append(number)


def lacks(program, file, count):
    """What a copy lacks of so many objects that were answered, the last 200 of them looked at, or None."""
    # A check leaves the file as it is, but for an empty log beside one that had none.
    told = command(program, file, "check")
    if told != ("sound", 0):
        return f"a check says {told}"
    server = Server(program, file, "--force")
    wrong = [it for it in range(count)[-200:] if server.ask("green", "GET", f"/plans/n{it}").body != body_of(it)]
    server.end()
    return f"it hasn't {wrong[:5]} of {count}" if wrong else None


@pytest.mark.cost(100)
@pytest.mark.proved
def test_copies_by_cp(expect, program, top, file):
    """Copies of both files by `cp`, while the process that serves them and takes puts stands still."""
    server, answered, is_over, wrong = Server(program, file, "--force"), [], threading.Event(), []
    client = threading.Thread(target=puts_on, args=(server, answered, is_over))
    client.start()
    for turn in range(20 if is_quick(program) else 2):
        time.sleep(0.005 * (turn % 7))
        stands_still(server)
        count, copy = len(answered), copied(file, top, "still")
        server.process.send_signal(signal.SIGCONT)
        wrong += [(turn, it) for it in [lacks(program, copy, count)] if it]
    is_over.set()
    client.join(PATIENCE)
    expect("a copy by cp of a server that stands still has all that was answered", not wrong, wrong[:5])
    expect("and the server goes on", server.is_up() and answered != [] and server.ask("green", "GET", "/plans/n0").status == 200, len(answered))
    server.end()


def tell(program, top, port, order):
    """What `tell` prints of an order, and its status."""
    return run(program, top, "tell", "--port", str(port), order)[:2]


def backup_told(*to):
    """The line that orders a backup. Its name is a whole path, since a relative one is of the server's folder."""
    return json.dumps({"op": "backup", "to": os.path.join(*to)})


@pytest.mark.cost(100)
@pytest.mark.proved
def test_of_a_server(expect, program, top, file):
    """Backups by a line to the operator's port, of a server to which requests come all the time."""
    port, folder = free_port(), os.path.join(top, "serving")
    os.mkdir(folder)
    it = copied(file, folder, "host")
    server = Server(program, it, "--force", "--operator-port", str(port))
    answered, is_over, wrong = [], threading.Event(), []
    client = threading.Thread(target=puts_on, args=(server, answered, is_over))
    client.start()
    for turn in range(4):
        while len(answered) < 5 * (turn + 1) and client.is_alive():
            time.sleep(0.005)
        before = len(answered)
        told = tell(program, folder, port, backup_told(folder, f"copy{turn}"))
        lacking = lacks(program, os.path.join(folder, f"copy{turn}"), before) if told == DONE else told
        wrong += [(turn, lacking)] if lacking else []
    expect("a backup of a host that serves has all that was answered before", not wrong, wrong[:5])
    expect("it is a sound host", command(program, os.path.join(folder, "copy0"), "check") == ("sound", 0), "not sound")
    expect("requests go on", client.is_alive() and server.is_up(), len(answered))
    is_over.set()
    client.join(PATIENCE)
    kept = read(os.path.join(folder, "copy1"))
    expect("a name that is taken", tell(program, folder, port, backup_told(folder, "copy1")) == ("fault", 1) and read(os.path.join(folder, "copy1")) == kept, names(folder))
    expect("the host's own name", tell(program, folder, port, backup_told(folder, "host")) == ("fault", 1), names(folder))
    expect("a folder that isn't there", tell(program, folder, port, backup_told(folder, "gone/copy")) == ("fault", 1), names(folder))
    foreign(os.path.join(folder, "mine.partial"))
    theirs = read(os.path.join(folder, "mine.partial"))
    expect("another program's database of the copy's first name", tell(program, folder, port, backup_told(folder, "mine")) == ("fault", 1), names(folder))
    expect("which stays", read(os.path.join(folder, "mine.partial")) == theirs and not os.path.exists(os.path.join(folder, "mine.partial-wal")), names(folder))
    os.remove(os.path.join(folder, "mine.partial"))
    expect("no name", tell(program, folder, port, '{"op":"backup"}') == ("bad line", 1), names(folder))
    expect("from a client's port", server.exchange(backup_told(folder, "other").encode() + b"\n").startswith(b"HTTP/1.1 400"), names(folder))
    there = {"host", *(f"copy{turn}" for turn in range(4))}
    expect("none of these is there", {it.removesuffix("-wal").removesuffix(PACKS) for it in names(folder)} == there, names(folder))
    expect("and it answers still", server.ask("green", "GET", "/plans/n0").status == 200, server.is_up())
    for name, reason in (("copy1", "the file exists already"), ("mine", "its .partial file is another program's database: remove it")):
        expect(f"it says why on standard error, of {name}", f"bucketd: unable to create {folder}/{name}: {reason}" in server.lines(), server.lines())
    server.end()


@pytest.mark.cost(200)
@pytest.mark.proved
def test_of_a_server_that_is_killed(expect, program, top, file, wanted):
    """A server that is killed while it makes a backup: there is a whole copy, or none of that name, and the host is what it was."""
    folder = os.path.join(top, "killed-serving")
    wrong = []
    for turn in range(8):
        os.mkdir(folder)
        it, port = copied(file, folder, "host"), free_port()
        server = Server(program, it, "--force", "--operator-port", str(port))
        teller = threading.Thread(target=tell, args=(program, folder, port, backup_told(folder, "copy")))
        teller.start()
        time.sleep(0.004 * (turn + 1))
        server.end()
        teller.join(PATIENCE)
        copy = os.path.join(folder, "copy")
        if os.path.exists(copy) and command(program, copy, "check") != ("sound", 0):
            wrong.append((turn, "half a copy"))
        if answers(program, it) != wanted:
            wrong.append((turn, "another host"))
        shutil.rmtree(folder)
    expect("a server that is killed in a backup leaves a whole copy or none", not wrong, wrong[:5])


@pytest.mark.proved
def test_over_which_the_host_is_lost(expect, program, top, file):
    """A host whose file is damaged while it is served, so that it isn't opened again after a backup."""
    port, folder = free_port(), os.path.join(top, "lost")
    os.mkdir(folder)
    it = copied(file, folder, "host")
    # A command copies the log into the file: what stood there would be copied over the damage as the file is closed.
    command(program, it, "usage", "--tenant", "green", "--force")
    server = Server(program, it, "--force", "--operator-port", str(port))
    # At the head of each page but the first, since in its midst a block's bytes may stand.
    with open(it, "r+b") as damaged:
        for page in range(1, os.path.getsize(it) // PAGE):
            damaged.seek(page * PAGE)
            damaged.write(b"damage" * 10)
    told = tell(program, folder, port, backup_told(folder, "copy"))
    expect("a backup over which a host is lost", told == ("fault", 1), told)
    server.process.wait(PATIENCE)
    status, _, said = server.end()
    says = said.decode()
    expect("ends the server", status == 1 and "bucketd: the host is no longer open" in says, (status, says))
    expect("which says why", f"bucketd: unable to reopen the host after the backup to {folder}/copy: " in says, says)


@pytest.mark.proved
def test_small_disk(expect, program, top, file):
    with small_disk(os.path.join(top, "small"), 1 << 20) as place:
        if place is None:
            pytest.skip("no small file system can be mounted here: the user isn't root")
        told = backup(program, top, to="small/b")
        expect("a disk that has no room for it", told[:2] == ("fault", 1) and "unable to create small/b: " in told[2] and "No space left on device" in told[2], told)
        expect("has nothing of it", names(place) == [], names(place))
        port = free_port()
        server = Server(program, file, "--force", "--operator-port", str(port))
        told = tell(program, top, port, backup_told(place, "b"))
        expect("nor where a server is told to", told == ("fault", 1) and names(place) == [], (told, names(place)))
        expect("which goes on", server.ask("green", "GET", "/plans/small").body == BODIES["small"], server.is_up())
        server.end()


@pytest.mark.proved
def test_full_disk(expect, program, top, file):
    """A host that serves on a full disk: its log isn't copied into its file, and it goes on."""
    with small_disk(os.path.join(top, "full"), sum(on_disk(file)) + (4 << 20)) as place:
        if place is None:
            pytest.skip("no small file system can be mounted here: the user isn't root")
        port, body = free_port(), os.urandom(1 << 20)
        server = Server(program, copied(file, place, "host"), "--force", "--operator-port", str(port))
        put = server.ask("green", "PUT", "/plans/last", body).status
        fill(os.path.join(place, "filler"))
        told = tell(program, top, port, backup_told(top, "full-copy"))
        expect("a backup of a host whose disk is full", put == 200 and told == ("fault", 1) and not os.path.exists(os.path.join(top, "full-copy")), (put, told))
        os.remove(os.path.join(place, "filler"))
        expect("whose server goes on", server.is_up() and server.ask("green", "GET", "/plans/last").body == body, server.lines())
        told = tell(program, top, port, backup_told(top, "full-copy"))
        expect("and makes one once there is room", told == DONE, (told, server.is_up()))
        server.end()
