"""`bucketd serve` is killed under many clients at once, over and over on one file: nothing that was acknowledged is lost.

Clients of four tenants put, overwrite, delete and get objects, small ones and some of 1 to 3 MiB, each request on a connection of its
own; the server sweeps by itself. After a drawn time it gets SIGKILL, and is started anew on its file. A key then has what the last
acknowledged write gave it, or one that wasn't answered, or one of some that overlapped: nobody knows their order. Gets beside the writes
are judged so, too. At the end, and after each tenth kill, `check` says `sound`.

KILL_ROUNDS: so many kills; else 10, of a program without a proof 3, with --full 200. KILL_CLIENTS: so many clients; else 64.
"""
import math
import os
import random
import signal
import threading
import time
from dataclasses import dataclass

import pytest

from conftest import amount
from host import PATIENCE, Server, command, copied, is_quick, make_host, removed
from model import BLOCK, digest, document

TENANTS = ["green", "blue", "red", "grey"]
KEYS = [f"k{number}" for number in range(12)]
SLOW_KEYS = KEYS[:5]
ROUNDS, QUICK_ROUNDS, FULL_ROUNDS = 3, 10, 200
# After so many kills the file is checked, beside at the end.
CHECKED = 10
KINDS = {"put": 6, "delete": 1, "get": 3}
BUCKET = "/plans"


# ---- what a key may have


@dataclass(eq=False)
class Write:
    """What a request made of a key: its bytes' digest, or None where it was deleted; and when it was sent, and answered at the latest."""

    content: bytes = None
    begun: float = -math.inf
    ended: float = math.inf


class Key:
    """The writes of a key that may have made it what it is."""

    def __init__(self):
        self.writes = [Write(ended=-math.inf)]

    def write(self, content):
        """A write that is sent now."""
        self.writes.append(Write(content, time.monotonic()))
        return self.writes[-1]

    def possible(self, begun, ended):
        """What a get may find that was sent and answered then: no write that ended before another one began, which ended before the
        get began."""
        writes = list(self.writes)
        last = max(it.begun for it in writes if it.ended < begun)
        return {it.content for it in writes if it.begun < ended and it.ended >= last}

    def settle(self, content):
        """What it has, once nobody writes any more."""
        self.writes = [Write(content, ended=-math.inf)]

    def unanswered(self):
        return sum(it.ended == math.inf for it in self.writes)


def all_keys(program):
    return {(tenant, name): Key() for tenant in TENANTS for name in (KEYS if is_quick(program) else SLOW_KEYS)}


def shown(content):
    return "nothing" if content is None else content.hex()[:8]


def got(server, tenant, name):
    """The digest of what a key has, or None for nothing; and whether an answer came whole."""
    answer = server.ask(tenant, "GET", f"{BUCKET}/{name}")
    if answer.refusal() == 13 and answer.is_whole:
        return None, answer
    return digest(answer.body), answer


def read_wrong(key, content, begun, where):
    """What is wrong with what a get found that was sent then, or None."""
    may_be = key.possible(begun, time.monotonic())
    return None if content in may_be else f"{where} has {shown(content)}, and not {' or '.join(sorted(map(shown, may_be)))}"


# ---- the clients


class Bodies:
    """Draws bodies, small ones and some of 1 to 3 MiB, most of whose blocks others have as well."""

    pieces = [bytes([65 + n]) * BLOCK for n in range(4)]

    def __init__(self, program):
        self.small = [0, 1, 300, 5_000, 70_000] if is_quick(program) else [0, 1, 300, 5_000]
        self.great = (1 << 20, 3 << 20) if is_quick(program) else (70_000, 200_000)

    def drawn(self, chance):
        size = chance.randrange(*self.great) if chance.random() < 0.03 else chance.choice(self.small)
        whole, rest = divmod(size, BLOCK)
        return b"".join(chance.choices(self.pieces, k=whole)) + chance.randbytes(rest)


class Client(threading.Thread):
    """One request of a tenant after another, until the server is killed."""

    def __init__(self, server, keys, bodies, chance, killed):
        super().__init__(daemon=True)
        self.server, self.keys, self.bodies, self.chance, self.killed = server, keys, bodies, chance, killed
        self.answered, self.wrong = 0, None

    def run(self):
        try:
            while self.wrong is None and self.take():
                self.answered += 1
        except Exception as error:
            self.wrong = f"{type(error).__name__} {error}"

    def take(self):
        """Whether one more request was answered whole."""
        at, (kind,) = self.chance.choice([*self.keys]), self.chance.choices([*KINDS], KINDS.values())
        answer = self.get(*at) if kind == "get" else self.write(*at, kind)
        if not answer.is_whole and not self.killed.is_set():
            self.wrong = f"a {kind} of {'/'.join(at)} is answered {answer} while the server lives"
        return answer.is_whole

    def write(self, tenant, name, kind):
        body = self.bodies.drawn(self.chance) if kind == "put" else b""
        write = self.keys[tenant, name].write(digest(body) if kind == "put" else None)
        answer = self.server.ask(tenant, kind.upper(), f"{BUCKET}/{name}", body)
        if answer.is_whole and answer.status in (200, 204):
            write.ended = time.monotonic()
        elif answer.is_whole:
            self.wrong = f"a {kind} of {tenant}/{name} is answered {answer}"
        return answer

    def get(self, tenant, name):
        begun = time.monotonic()
        content, answer = got(self.server, tenant, name)
        if answer.is_whole and answer.status in (200, 404):
            self.wrong = read_wrong(self.keys[tenant, name], content, begun, f"{tenant}/{name}, beside others,")
        elif answer.is_whole:
            self.wrong = f"a get of {tenant}/{name} is answered {answer}"
        return answer


# ---- a round


def settled(server, keys):
    """Reads all keys of a server that nobody else asks, and takes what they have. What is otherwise than it may be, or None."""
    wrong = []
    for (tenant, name), key in keys.items():
        begun, (content, answer) = time.monotonic(), got(server, tenant, name)
        if answer.status not in (200, 404) or not answer.is_whole:
            return f"a get of {tenant}/{name} is answered {answer}"
        wrong.append(read_wrong(key, content, begun, f"{tenant}/{name}"))
        key.settle(content)
    for tenant in TENANTS:
        told, has = document(server, tenant, "/?usage")["Objects"], sum(key.writes[0].content is not None for (of, _), key in keys.items() if of == tenant)
        wrong.append(None if told == has else f"{tenant} has {told} objects, and not {has}")
    return "; ".join([it for it in wrong if it][:5]) or None


def load(server, keys, bodies, chance, count, seconds):
    """So many clients for some seconds, and then a kill. How many requests were answered, how many writes weren't, and what is wrong."""
    killed = threading.Event()
    clients = [Client(server, keys, bodies, random.Random(chance.random()), killed) for _ in range(count)]
    for it in clients:
        it.start()
    time.sleep(seconds)
    killed.set()
    server.end(signal.SIGKILL)
    for it in clients:
        it.join(PATIENCE)
    wrong = [it.wrong for it in clients if it.wrong] + ["a client still waits" for it in clients if it.is_alive()]
    return sum(it.answered for it in clients), sum(map(Key.unanswered, keys.values())), "; ".join(wrong[:5]) or None


def is_sound(expect, program, file, when):
    """Whether a file is found to be sound, and once more after a sweep, unless each opening takes seconds."""
    words = [["check"], ["sweep", "--limit", "1000000"], ["check"]] if is_quick(program) else [["check"]]
    told = [command(program, file, *it) for it in words]
    return expect(f"{', '.join(it[0] for it in words)} {when}", told[0] == told[-1] == ("sound", 0) and all(it[1] == 0 for it in told), told)


class Rounds:
    """A host that is killed over and over, and what its keys may have. `lost` is what happens to its file after a kill."""

    def __init__(self, program, file, lost=lambda: None):
        self.program, self.file, self.lost, self.keys, self.bodies = program, make_host(program, file, TENANTS), lost, all_keys(program), Bodies(program)
        self.number = self.answered = self.unanswered = 0
        self.longest = 2.0 if is_quick(program) else 5.0

    def server(self):
        """One that sweeps by itself, and soon."""
        return Server(self.program, self.file, "--operator-port", "0", "--keep-garbage", "1MB")

    def begin(self):
        with self.server() as server:
            assert [server.ask(it, "PUT", BUCKET).status for it in TENANTS] == [200] * len(TENANTS)

    def kill(self, count, seed=1):
        """One load and a kill, after which all is read. What is found otherwise, or None."""
        self.number += 1
        chance = random.Random(f"{seed} {self.number}")
        with self.server() as server:
            if not server.is_up():
                return f"the file isn't opened: {server.end()}"
            found = settled(server, self.keys)
            if found:
                return f"after the kill before: {found}"
            answered, self.unanswered, found = load(server, self.keys, self.bodies, chance, count, chance.uniform(0.1, self.longest))
        self.answered += answered
        self.lost()
        return found

    def read(self):
        """What is found otherwise in the file as the last kill left it, or None."""
        with self.server() as server:
            return settled(server, self.keys) if server.is_up() else f"the file isn't opened: {server.end()}"


@pytest.mark.cost(60)
def test_many_clients(expect, program, disk_folder, full):
    it = Rounds(program, os.path.join(disk_folder, "killed"))
    count, clients = amount("KILL_ROUNDS", FULL_ROUNDS if full else QUICK_ROUNDS if is_quick(program) else ROUNDS), amount("KILL_CLIENTS", 64)
    it.begin()
    for number in range(1, count + 1):
        before, found = it.answered, it.kill(clients)
        name = f"kill {number} under {clients} clients, after {it.answered - before} answers, {it.unanswered} writes not answered"
        if not expect(name, found is None, found) or number % CHECKED == 0 and not is_sound(expect, program, it.file, f"after kill {number}"):
            return
    found = it.read()
    expect.note(f"{it.answered} requests were answered; the file has {os.path.getsize(it.file)} bytes")
    expect("all that was acknowledged is there at the end", found is None and it.answered > 0, found)
    is_sound(expect, program, it.file, "at the end")


# ---- a disk that loses what was acknowledged


def restored(copy, file):
    """A disk that has lost what came after a copy."""
    removed(file)
    copied(copy, os.path.dirname(file), os.path.basename(file))


@pytest.mark.cost(30)
@pytest.mark.proved
def test_loss_is_told(expect, program, disk_folder, folder):
    """What these tests are worth: where all is lost since the last server began they say so."""
    it = Rounds(program, os.path.join(disk_folder, "killed"))
    it.begin()
    copy = copied(it.file, folder, "before")
    it.lost = lambda: restored(copy, it.file)
    told = it.kill(8) or it.read()
    expect.note(told)
    expect(f"a loss is told, after {it.answered} answers", told is not None and " has " in told and it.answered > 0, told)


@pytest.mark.cost(20)
def test_one_lost_write_is_told(expect, program, disk_folder, folder):
    """They say so of one write that was acknowledged, and of no other."""
    it = Rounds(program, os.path.join(disk_folder, "killed"))
    it.begin()
    with it.server() as server:
        client = Client(server, it.keys, it.bodies, random.Random(1), threading.Event())
        client.write("green", "k0", "put")
        client.write("blue", "k1", "put")
        copy = copied(it.file, folder, "before")
        client.write("green", "k0", "delete")
    had = shown(it.keys["green", "k0"].writes[1].content)
    restored(copy, it.file)
    told = it.read()
    expect("one lost write is told", not client.wrong and told == f"green/k0 has {had}, and not nothing", f"{client.wrong} {told}")
