"""bucketd and what stands around it, for tests and benches: programs, files with hosts, requests, answers and servers."""
import fcntl
import hashlib
import json
import os
import re
import resource
import shutil
import signal
import socket
import sqlite3
import struct
import subprocess
import sys
import tempfile
import time
from collections import deque
from contextlib import contextmanager

TOP = os.path.dirname(os.path.dirname(os.path.abspath(__file__)))
CRATES = os.path.join(TOP, "crates")
SCRIPTS = os.path.join(CRATES, "examples/data/scripts")
PROVED = os.path.join(CRATES, "bucketd/out/bucketd")
COUNT = 1_000_000_000
# Seconds that a busy machine may take for anything that is waited for.
PATIENCE = 300
# Where files need no disk. A whole run has a folder of its own there, which goes with it.
SHARED_MEMORY = os.environ.get("QUICK_FOLDER") or ("/dev/shm" if os.path.isdir("/dev/shm") else None)
EIO, ENOSPC = 5, 28
# Ends of the names of a host's files: its rows, and its log. Beside them is the folder of its packs, if it has one.
TAILS, PACKS = ("", "-wal"), ".packs"


# ---- programs


def program_of(words):
    """The path of a bucketd: the one that is named, or that of tools/bucketd, which makes one without proof if need be."""
    if words:
        return os.path.abspath(words[0])
    made = subprocess.run([os.path.join(TOP, "tools/bucketd"), "--path"], stdout=subprocess.PIPE, text=True)
    return made.stdout.strip() or sys.exit("no bucketd was made\n0 passed, 1 failed")


def proved_program(words=()):
    """The path of a bucketd for a bench: the one that is named, or the proved one."""
    path = os.path.abspath(words[0]) if words else PROVED
    return path if os.path.exists(path) else sys.exit(f"{path} isn't there: 'make build' makes it")


def is_quick(program):
    """Whether a bucketd opens a file in milliseconds. One that was made without proof checks itself as it runs, for seconds."""
    name = f"QUICK {program}"
    if name not in os.environ:
        # (that of tools/bucketd would pass for one on a machine twice as fast)
        os.environ[name] = "yes" if "/out/tried/" not in program and inits_within_a_second(program) else ""
    return bool(os.environ[name])


def inits_within_a_second(program):
    """Whether one `init` takes less than a second of a processor."""
    with tempfile.TemporaryDirectory(dir=SHARED_MEMORY) as folder:
        words, limit = [program, "init", "--file", os.path.join(folder, "host")], lambda: resource.setrlimit(resource.RLIMIT_CPU, (1, 1))
        try:
            return subprocess.run(words, stdout=subprocess.DEVNULL, preexec_fn=limit, timeout=60).returncode == 0
        except subprocess.TimeoutExpired:
            return False


def is_fast(program):
    """Whether it is also one that the C compiler built: that of Rattle's own compiler is slower."""
    return is_quick(program) and not program.endswith(".by-rattle")


def built(folder, name):
    """A library to preload, of a C file of tools/preload."""
    library = os.path.join(folder, name + ".so")
    subprocess.run(["gcc", "-O2", "-shared", "-fPIC", "-o", library, os.path.join(TOP, "tools/preload", name + ".c"), "-ldl"], check=True)
    return library


class Clock:
    """A clock that programs read in place of the machine's (preload/set_clock.c), in seconds since 1970."""

    def __init__(self, folder, seconds):
        self.file = os.path.join(folder, "clock")
        self.env = {"LD_PRELOAD": built(folder, "set_clock"), "CLOCK_FILE": self.file}
        self.set(seconds)

    def set(self, seconds):
        self.now = int(seconds)
        with open(self.file + ".new", "w") as out:
            out.write(f"{self.now}\n")
        os.replace(self.file + ".new", self.file)


# ---- files and folders


def quick_folder(name=""):
    """A new folder, in memory where the machine has such a file system."""
    return tempfile.mkdtemp(prefix=f"bucketd-{name}", dir=SHARED_MEMORY)


def read(*names):
    with open(os.path.join(*names), "rb") as it:
        return it.read()


def names(folder):
    return sorted(os.listdir(folder))


def copied(file, folder, name=None):
    """A host's file, its log and its packs at another place, where no other host is left."""
    copy = os.path.join(folder, name or os.path.basename(file))
    removed(copy)
    for tail in TAILS:
        if os.path.exists(file + tail):
            shutil.copy(file + tail, copy + tail)
    if os.path.isdir(packs_of(file)):
        shutil.copytree(packs_of(file), packs_of(copy))
    return copy


def removed(file):
    for tail in (*TAILS, "-shm"):
        if os.path.exists(file + tail):
            os.remove(file + tail)
    shutil.rmtree(packs_of(file), ignore_errors=True)


def moved(file, to):
    """Gives a host's file, whose log is empty, and its packs another name."""
    if os.path.isdir(packs_of(file)):
        os.rename(packs_of(file), to + PACKS)
    os.rename(file, to)


def packs_of(file):
    """The folder of a host's packs, which lies where links to its file lead."""
    return os.path.realpath(file) + PACKS


def pack_of(file, number):
    """The file of a pack by the number that its row has."""
    return os.path.join(packs_of(file), f"{number + 1:08d}")


def files(folder):
    """The names in a folder but those of folders with packs."""
    return [it for it in names(folder) if not it.endswith(PACKS)]


def contents_of(folder):
    """The bytes of each file in a folder; of one that isn't there none."""
    return {it: read(folder, it) for it in names(folder)} if os.path.isdir(folder) else {}


def on_disk(file):
    """The bytes of a host's file, of its log and of its packs."""
    rows, log = (os.path.getsize(file + tail) if os.path.exists(file + tail) else 0 for tail in TAILS)
    packs = packs_of(file)
    return rows, log, sum(os.path.getsize(os.path.join(packs, it)) for it in names(packs)) if os.path.isdir(packs) else 0


def opened(file):
    """A host's file as SQLite itself reads it. If some of its blocks are in packs, a view in place of their table has their bytes."""
    database = sqlite3.connect(file)
    if "placed" in {name for (name,) in database.execute("SELECT name FROM sqlite_master")} and database.execute("SELECT 1 FROM placed").fetchone():
        database.create_function("in_pack", 3, lambda pack, place, size: bytes_in(pack_of(file, pack), place, size))
        database.execute("CREATE TEMP VIEW blocks AS SELECT digest, ord, CASE WHEN pack IS NULL THEN bytes ELSE in_pack(pack, place, size) END AS bytes"
                         " FROM main.blocks LEFT JOIN main.placed USING (digest, ord)")
    return database


def bytes_in(file, place, size):
    with open(file, "rb") as it:
        it.seek(place)
        return it.read(size)


def killed_under(server, loads, seconds):
    """Begins these threads, which ask a server, and kills it after so many seconds, once one of them has done something."""
    for it in loads:
        it.start()
    time.sleep(seconds)
    begun = time.monotonic()
    while not any(it.done for it in loads) and time.monotonic() - begun < PATIENCE:
        time.sleep(0.05)
    server.end(signal.SIGKILL)
    for it in loads:
        it.join(PATIENCE)


@contextmanager
def small_disk(place, size):
    """A file system of so many bytes, mounted at a new folder; None where this user can mount none."""
    os.mkdir(place)
    words = ["mount", "-t", "tmpfs", "-o", f"size={size}", "none", place]
    is_there = os.geteuid() == 0 and subprocess.run(words, capture_output=True).returncode == 0
    try:
        yield place if is_there else None
    finally:
        if is_there:
            subprocess.run(["umount", place], check=True)


def fill(path):
    """Writes a file until its disk is full."""
    with open(path, "wb", buffering=0) as out:
        try:
            while out.write(bytes(4096)):
                pass
        except OSError:
            pass


# ---- commands


def run(program, folder, *words, given=None, **env):
    """What a command writes on standard output and on standard error, and its status."""
    done = subprocess.run([program, *words], cwd=folder, input=given, capture_output=True, text=True, env=os.environ | env, timeout=PATIENCE)
    return done.stdout.removesuffix("\n"), done.returncode, done.stderr


def command(program, file, name, *options, given=None, **env):
    """What a subcommand on a file prints, and its status."""
    return run(program, None, name, "--file", file, *options, given=given, **env)[:2]


def make_host(program, file, tenants, *options, quota=1 << 40, **env):
    """A new host with tenants (names, or quotas by name), each with the key k1, whose secret is its name and `secret`. Where the
    environment names a folder for them, hosts that are made alike are made once and copied: of a program without a proof each
    command takes seconds."""
    folder = os.environ.get("BASES_OF_HOSTS")
    if not folder or env:
        return new_host(program, file, tenants, options, quota, env)
    name = os.path.join(folder, hashlib.sha256(repr((program, tenants, options, quota)).encode()).hexdigest())
    with open(name + ".lock", "w") as lock:
        fcntl.flock(lock, fcntl.LOCK_EX)
        if not os.path.exists(name):
            # Its log is empty, since commands copy it into the file.
            moved(new_host(program, name + ".new", tenants, options, quota, env), name)
        copied(name, os.path.dirname(file), os.path.basename(file))
    return file


def new_host(program, file, tenants, options, quota, env):
    told = [command(program, file, "init", *options, **env)]
    for tenant in tenants:
        room = tenants[tenant] if isinstance(tenants, dict) else quota
        told.append(command(program, file, "tenant-add", "--tenant", tenant, "--quota", str(room), **env))
        told.append(command(program, file, "key-add", "--tenant", tenant, "--name", "k1", "--secret", tenant + "secret", **env))
    if any(status for _, status in told):
        sys.exit(f"no host was made: {told}")
    return file


def event_words(event):
    """The words of the subcommand that does what a script's event does."""
    words = [event["op"]]
    for name, value in event.items():
        option = f"--{name.replace('_', '-')}"
        if isinstance(value, bool):
            words += [option] if value else []
        elif name != "op":
            words += [option, str(value)]
    return words


# ---- requests and answers


def request(tenant, method, target, body=b"", fields=(), secret=None, length=None):
    """The bytes of a request by a tenant's key. A body of None has no length; `length` is that which another body is told to have."""
    head = [f"{method} {target} HTTP/1.1", "host: h", f"x-access-key: {tenant}$k1", f"x-secret-key: {secret or tenant + 'secret'}", *fields]
    head += [] if body is None else [f"content-length: {len(body) if length is None else length}"]
    return "\r\n".join(head).encode() + b"\r\n\r\n" + (body or b"")


def event(text, at=0):
    """The line of a script that has the bytes of a request."""
    return json.dumps({"at": at, "hex": text.hex()}) + "\n"


def script(program, lines, *options, timeout=600):
    """What `bucketd script` writes for some lines, once it ended well."""
    done = subprocess.run([program, "script", *options], input="".join(lines).encode(), capture_output=True, timeout=timeout)
    if done.returncode != 0:
        raise RuntimeError(f"status {done.returncode}: {done.stdout[-200:]} {done.stderr[-2000:]}")
    return done.stdout


class Answer:
    """Bytes of a response. Its status is None where they end before the status line does."""

    def __init__(self, data, method):
        self.data = data
        head, found, self.body = data.partition(b"\r\n\r\n")
        lines = head.decode("latin-1").split("\r\n")
        self.status = int(lines[0].split()[1]) if len(lines) > 1 and lines[0].startswith("HTTP/1.1 ") else None
        self.fields = dict(line.split(": ", 1) for line in lines[1:] if ": " in line) if found else {}
        length = 0 if method == "HEAD" else int(self.fields.get("content-length", 0))
        self.is_whole = bool(found) and len(self.body) == length

    def refusal(self):
        return int(self.fields.get("x-refusal", "0").split()[0])

    def __repr__(self):
        return repr(self.data[:300])


MOMENT = re.compile(rb"[0-9]{4}-[0-9]{2}-[0-9]{2}T[0-9]{2}:[0-9]{2}:[0-9]{2}Z")


def without_moments(text):
    return MOMENT.sub(b"0000-00-00T00:00:00Z", text)


def differing(wanted, found):
    """The first place where bytes differ, with what stands around it."""
    at = next((n for n, (one, other) in enumerate(zip(wanted, found)) if one != other), min(len(wanted), len(found)))
    return f"at byte {at}: {wanted[max(at - 200, 0):at + 200]} and not {found[max(at - 200, 0):at + 200]}"


# ---- servers


# Sockets that keep the last ports that were given.
KEPT_PORTS = deque(maxlen=200)


def free_port():
    """A port that is given to nobody else while this process keeps it: a socket is bound to it, beside which a server may listen
    that allows such a one (SO_REUSEADDR), as bucketd and nginx do."""
    it = socket.socket()
    it.setsockopt(socket.SOL_SOCKET, socket.SO_REUSEADDR, 1)
    it.bind(("127.0.0.1", 0))
    KEPT_PORTS.append(it)
    return it.getsockname()[1]


def connected(port, patience=PATIENCE, room=None):
    """A connection whose answers may take so many seconds, with few bytes of room for what comes where that is given."""
    it = socket.socket()
    if room:
        it.setsockopt(socket.SOL_SOCKET, socket.SO_RCVBUF, room)
    it.setsockopt(socket.IPPROTO_TCP, socket.TCP_NODELAY, 1)
    it.settimeout(patience)
    it.connect(("127.0.0.1", port))
    return it


def listens(port, table="/proc/net/tcp"):
    address = f"0100007F:{port:04X}"
    with open(table) as lines:
        return any(line.split()[1] == address and line.split()[3] == "0A" for line in lines)


def await_listener(process, port):
    """Waits until a process listens on a port, without a connection; whether it does."""
    begun = time.monotonic()
    while process.poll() is None and not listens(port):
        if time.monotonic() - begun > PATIENCE:
            process.kill()
            sys.exit(f"{process.args[0]} neither listens nor ends")
        time.sleep(0.002)
    return process.poll() is None


def resets(it):
    """Closes a connection so that the other side's next read or write fails."""
    it.setsockopt(socket.SOL_SOCKET, socket.SO_LINGER, struct.pack("ii", 1, 0))
    it.close()


def all_of(it):
    """What still comes, as much as there is where the connection breaks."""
    got = b""
    try:
        while piece := it.recv(1 << 20):
            got += piece
    except TimeoutError:
        raise
    except OSError:
        pass
    return got


class Program:
    """A program that serves at a port, with what it says on standard error. `env`: further variables of its environment.
    `patience`: the seconds that an answer may take."""

    patience = PATIENCE

    def __init__(self, words, port=None, cwd=None, **env):
        self.port, self.said = port, tempfile.TemporaryFile()
        self.process = subprocess.Popen(words, cwd=cwd, stdout=subprocess.PIPE, stderr=self.said, env=os.environ | env)

    def __enter__(self):
        return self

    def __exit__(self, *_):
        self.end()

    def is_up(self):
        return self.process.poll() is None

    def lines(self):
        """What it has said on standard error."""
        return os.pread(self.said.fileno(), 1 << 26, 0).decode(errors="replace").split("\n")[:-1]

    def announced(self, pattern, last=False):
        """The number in the first line, or the last, that has a form, once one has come."""
        begun = time.monotonic()
        while self.is_up() and time.monotonic() - begun < PATIENCE:
            for line in self.lines()[:: -1 if last else 1]:
                if found := re.fullmatch(pattern, line):
                    return int(found[1])
            time.sleep(0.01)
        self.process.kill()
        sys.exit(f"{self.process.args[0]} says no line {pattern}: {self.lines()}")

    def spent(self):
        """The seconds that its threads have been on a processor: what else the machine does is none of them."""
        tasks = f"/proc/{self.process.pid}/task"
        return sum(int(read(tasks, it, "schedstat").split()[0]) for it in os.listdir(tasks)) / 1e9

    def memory(self, name):
        """Its memory in MiB, by a line of /proc's `status`: VmRSS, or VmHWM for the most so far."""
        with open(f"/proc/{self.process.pid}/status") as file:
            return int(re.search(name + r":\s+(\d+)", file.read())[1]) / 1024

    def socket(self, room=None):
        return connected(self.port, self.patience, room)

    def end(self, number=signal.SIGKILL):
        """Its status and what it printed on both."""
        if self.is_up():
            self.process.send_signal(number)
        out, _ = self.process.communicate(timeout=PATIENCE)
        said = os.pread(self.said.fileno(), 1 << 26, 0) if not self.said.closed else b""
        return self.process.returncode, out, said


class Server(Program):
    """`bucketd serve` on a file, from when it listens on."""

    def __init__(self, program, file, *options, count=COUNT, cwd=None, port=None, **env):
        port = port or free_port()
        super().__init__([program, "serve", "--file", file, "--port", str(port), "--count", str(count), *options], port, cwd, **env)
        await_listener(self.process, port)

    def operators(self):
        """Its port for operators."""
        return self.announced(r"operators on 127\.0\.0\.1:(\d+)")

    def exchange(self, data, piece=None):
        """The bytes that come for a request's bytes, sent so many at a time, after which the client closes its side."""
        try:
            with self.socket() as it:
                try:
                    for start in range(0, len(data), piece or len(data) or 1):
                        it.sendall(data[start : start + (piece or len(data))])
                    it.shutdown(socket.SHUT_WR)
                except OSError:
                    pass
                return all_of(it)
        except ConnectionError:
            return b""

    def reset(self, data):
        """The bytes of a request come, and then the client resets the connection."""
        it = self.socket()
        try:
            it.sendall(data)
        except OSError:
            pass
        resets(it)

    def ask(self, tenant, method, target, body=b"", fields=(), secret=None):
        return Answer(self.exchange(request(tenant, method, target, body, fields, secret)), method)
