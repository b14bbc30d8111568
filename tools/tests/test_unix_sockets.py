"""`bucketd serve` on Unix sockets: who may connect, whose file is replaced, and what is left when it ends."""
import grp
import os
import signal
import socket
import stat
import subprocess
import time

import pytest

from host import PATIENCE, Answer, Program, all_of, make_host, names, read, request

pytestmark = pytest.mark.cost(20)


class OnSocket(Program):
    """A server on Unix sockets, from when it listens on; `is_up()` is false if it ended before that."""

    def __init__(self, program, file, path, *options, count=10_000, operators=None, timeout=6, **env):
        self.path, self.operator_path = path, operators
        words = [program, "serve", "--file", file, "--socket", path, "--count", str(count), "--timeout", str(timeout), "--force", *options]
        super().__init__([*words, *(["--operator-socket", operators] if operators else [])], **env)
        begun, wanted = time.monotonic(), 2 if operators else 1
        while self.is_up() and len(self.lines()) < wanted and time.monotonic() - begun < PATIENCE:
            time.sleep(0.005)

    def socket(self, path=None):
        it = socket.socket(socket.AF_UNIX)
        it.settimeout(PATIENCE)
        it.connect(path or self.path)
        return it

    def ask(self, method, target, body=b""):
        with self.socket() as it:
            it.sendall(request("green", method, target, body))
            return Answer(all_of(it), method)

    def order(self, line):
        with self.socket(self.operator_path) as it:
            it.sendall(line)
            return all_of(it)

    def failed(self):
        """Its status and its last line, if it ended."""
        status = self.process.wait(PATIENCE)
        return status, self.lines()[-1]


def mode(path):
    return stat.S_IMODE(os.lstat(path).st_mode)


def beside(folder):
    """The files beside the host's."""
    return [it for it in names(folder) if not it.startswith("host")]


def text_file(path):
    with open(path, "w") as out:
        out.write("text")


@pytest.fixture
def file(program, folder):
    return make_host(program, os.path.join(folder, "host"), ["green"])


def test_both_doors(expect, program, folder, file):
    """Requests and lines come on sockets of mode 0600, whatever the umask, and their files go when it ends."""
    path, operators = os.path.join(folder, "clients"), os.path.join(folder, "operators")
    before = os.umask(0)
    try:
        it = OnSocket(program, file, path, count=4, operators=operators)
    finally:
        os.umask(before)
    with it:
        expect("it tells both paths", it.lines() == [f"listening on {path}", f"operators on {operators}"], it.lines())
        expect("both are of mode 0600", (mode(path), mode(operators)) == (0o600, 0o600), f"{mode(path):o} {mode(operators):o}")
        put = it.ask("PUT", "/plans").status, it.ask("PUT", "/plans/x", b"abc").status
        told, got = it.order(b'{"op":"report"}\n'), it.ask("GET", "/plans/x")
        expect("requests and lines are answered", put == (200, 200) and told.startswith(b"blocks ") and got.body == b"abc", f"{put} {told} {got}")
        expect("it ends", it.process.wait(PATIENCE) == 0)
    expect("no socket's file is left", beside(folder) == [], names(folder))


def test_group(expect, program, folder, file):
    """A group may connect too, by its name or its number; operators' socket stays its owner's."""
    path, operators = os.path.join(folder, "clients"), os.path.join(folder, "operators")
    own = grp.getgrgid(os.getgid())
    for group in [own.gr_name, str(own.gr_gid)]:
        with OnSocket(program, file, path, "--socket-group", group, operators=operators) as it:
            found = mode(path), os.lstat(path).st_gid, mode(operators)
            expect(f"the group {group}", found == (0o660, own.gr_gid, 0o600) and it.ask("HEAD", "/").status < 500, f"{found}")
    with OnSocket(program, file, path, "--socket-group", "no-such-group-here") as it:
        status, line = it.failed()
        expect("a group that isn't there", status != 0 and "unable to listen on --socket: no such group" in line, f"{status} {line}")


def test_left_behind(expect, program, folder, file):
    """A socket's file of a server that was killed is replaced; that of one that listens, and any other file, stays."""
    path = os.path.join(folder, "clients")
    with OnSocket(program, file, path) as it:
        it.end(signal.SIGKILL)
    expect("a server that is killed leaves its file", stat.S_ISSOCK(os.lstat(path).st_mode))
    with OnSocket(program, file, path) as it:
        expect("the next one replaces it", it.ask("PUT", "/plans").status == 200, it.lines())
        other = make_host(program, os.path.join(folder, "other"), ["green"])
        with OnSocket(program, other, path) as second:
            status, line = second.failed()
            expect("two servers on one socket", status != 0 and "unable to listen on --socket: a server listens there" in line, f"{status} {line}")
        expect("the first one goes on", it.ask("HEAD", "/plans").status == 200)


def test_other_files(expect, program, folder, file):
    place = os.path.join(folder, "place")
    os.mkdir(place)
    kinds = {
        "a file": text_file,
        "a folder": os.mkdir,
        "a link": lambda path: os.symlink(os.path.join(folder, "nowhere"), path),
        "a pipe": os.mkfifo,
    }
    for kind, make in kinds.items():
        path = os.path.join(place, kind.replace(" ", "-"))
        make(path)
        before = os.lstat(path)
        with OnSocket(program, file, path) as it:
            status, line = it.failed()
            after = os.lstat(path)
            stays = (before.st_ino, before.st_mode) == (after.st_ino, after.st_mode)
            expect(f"{kind} at the path", status != 0 and "unable to listen on --socket: a file is there" in line and stays, f"{status} {line}")
    long = os.path.join(folder, "x" * 120)
    with OnSocket(program, file, long) as it:
        status, line = it.failed()
        expect("a path that is too long", status != 0 and "unable to listen on --socket: " in line, f"{status} {line}")
    path = os.path.join(place, "nowhere", "clients")
    with OnSocket(program, file, path) as it:
        status, line = it.failed()
        expect("a folder that isn't there", status != 0 and "unable to listen on --socket: " in line, f"{status} {line}")


def test_second_fails(expect, program, folder, file):
    """If the operators' socket can't be had, that of the clients goes."""
    path, operators = os.path.join(folder, "clients"), os.path.join(folder, "operators")
    os.mkdir(operators)
    with OnSocket(program, file, path, operators=operators) as it:
        status, line = it.failed()
        expect("an operators' socket on a folder", status != 0 and "unable to listen on --operator-socket: " in line, f"{status} {line}")
    expect("no socket's file is left", beside(folder) == ["operators"], names(folder))


def test_another_file_stays(expect, program, folder, file):
    """Where another file came to stand at its path, that isn't removed at the end."""
    path = os.path.join(folder, "clients")
    with OnSocket(program, file, path, count=1) as it:
        client = it.socket()
        os.remove(path)
        text_file(path)
        client.sendall(request("green", "HEAD", "/plans"))
        expect("it answers", Answer(all_of(client), "HEAD").status == 404)
        expect("it ends", it.process.wait(PATIENCE) == 0)
    expect("the file stays", read(path) == b"text")


def test_others_may_not(expect, program, folder, file):
    """Another user can't connect."""
    if os.getuid() != 0:
        return expect.skip("another user", "only root becomes one")
    os.chmod(folder, 0o755)
    path = os.path.join(folder, "clients")
    with OnSocket(program, file, path) as it:
        code = f"import socket; socket.socket(socket.AF_UNIX).connect({path!r})"
        told = subprocess.run(["python3", "-c", code], user=65534, group=65534, capture_output=True, timeout=PATIENCE, check=False)
        refused = b"PermissionError" in told.stderr
        expect("a connection of another user is refused", told.returncode != 0 and refused and it.is_up(), told.stderr[-200:])
