"""`bucketd serve` before thousands of connections that bring no request: silent ones, and ones with less than a head.

One client opens them one after another, on a Unix socket or from several addresses of 127.0.0.0/8, so that ports don't run out.
Meanwhile and afterwards others ask: each is answered within a bounded time. Where there are more than `--connections`, the oldest are
closed and no others, but not one whose head is there; else none is, until `--timeout` is over. The server lives, and its memory has
the bound that docs/OPERATING.md tells. There are 200 places, or of a program with a proof and --full 4,096.

FLOOD_CONNECTIONS: so many; else 3,000, of a program without a proof 600, with --full 20,000; but no more than the process may have
files (`ulimit -Hn`), and where the server has a place for each, half as many.
"""
import os
import resource
import select
import socket
import threading
import time

import pytest

from conftest import amount
from host import COUNT as COUNTED
from host import Answer, Server, all_of, is_quick, make_host, request, resets
from test_serve import BUSY
from test_unix_sockets import OnSocket

COUNT, QUICK_COUNT, FULL_COUNT = 600, 3_000, 20_000
# With fewer a flood shows nothing.
LEAST = 300
# Files that this process has open beside, and the server.
OTHER_FILES = 200
# Connections of one source address: it has 28,000 ports, of which some wait for their end.
OF_ADDRESS = 4_000
# How many wait for an accept at most, and how many clients ask meanwhile.
QUEUE, ASKING = 4096, 4
# Bytes of memory for all requests together, and beside that for each (docs/OPERATING.md).
FOR_ALL, FOR_EACH = 64 << 20, 32 << 10
HALF = request("green", "PUT", "/plans/half", b"a" * 1000)
# So many bytes of it, none of them a whole head.
BEGINNINGS = (0, 1, 20, HALF.index(b"\r\n\r\n") + 3)


@pytest.fixture
def files():
    """How many files this process may have open, and each that it starts: as many as the hard limit allows."""
    before = resource.getrlimit(resource.RLIMIT_NOFILE)
    resource.setrlimit(resource.RLIMIT_NOFILE, (before[1], before[1]))
    yield before[1]
    resource.setrlimit(resource.RLIMIT_NOFILE, before)


def count_of(program, full, files, is_held):
    """How many connections there are to be, whose server may have so many files: two for each that it holds."""
    usual = FULL_COUNT if full else QUICK_COUNT if is_quick(program) else COUNT
    return min(amount("FLOOD_CONNECTIONS", usual), (files // 2 if is_held else files) - OTHER_FILES)


class Flood:
    """Connections, the first one first, and when each was there."""

    def __init__(self, server, door):
        self.server, self.door, self.sockets, self.times = server, door, [], []

    def __enter__(self):
        return self

    def __exit__(self, *_):
        for it in self.sockets:
            it.close()

    def open(self, count):
        """Opens so many more, unless the server ends."""
        for number in range(count):
            try:
                it = self.connected(number)
            except ConnectionError:
                return
            try:
                it.sendall(HALF[: BEGINNINGS[number % len(BEGINNINGS)]])
            except ConnectionError:
                pass  # it was closed as one of the oldest
            self.sockets.append(it)
            self.times.append(time.monotonic())

    def connected(self, number):
        if self.door == "socket":
            return self.server.socket()
        it = socket.socket()
        it.settimeout(self.server.patience)
        it.bind((f"127.0.0.{2 + number // OF_ADDRESS}", 0))
        it.connect(("127.0.0.1", self.server.port))
        return it

    def closed(self):
        """The numbers of those that the server closed."""
        found = select.poll()
        for it in self.sockets:
            found.register(it, select.POLLIN)
        ready = {file for file, _ in found.poll(0)}
        return [number for number, it in enumerate(self.sockets) if it.fileno() in ready]


class OnPort(Server):
    """The same questions as to a server on a Unix socket."""

    def ask(self, method, target, body=b""):
        return super().ask("green", method, target, body)


class OnPath(OnSocket):
    """A server on a Unix socket. Where too many wait for it to accept them, the system refuses the next one, who tries again."""

    def socket(self, path=None):
        ends = time.monotonic() + self.patience
        while True:
            try:
                return super().socket(path)
            except BlockingIOError:
                assert time.monotonic() < ends, "nobody is accepted any more"
                time.sleep(0.001)


def asked(server, number, name="good"):
    """A put and a get of it: what went otherwise, or None, and the longest time that one took."""
    body, begun = b"body %d" % number, time.monotonic()
    put = server.ask("PUT", f"/plans/{name}", body)
    middle = time.monotonic()
    answer = server.ask("GET", f"/plans/{name}")
    is_well = put.status == 200 and (answer.status, answer.body) == (200, body)
    return None if is_well else f"{put} {answer}", max(middle - begun, time.monotonic() - middle)


class Asking(threading.Thread):
    """A client that asks all the time, and once at least, until it is ended."""

    def __init__(self, server, name):
        super().__init__(daemon=True)
        self.server, self.name, self.ends, self.count, self.worst, self.wrong = server, name, threading.Event(), 0, 0, []

    def run(self):
        while not self.count or not self.ends.is_set():
            try:
                wrong, took = asked(self.server, self.count, self.name)
            except OSError as error:
                wrong, took = f"{type(error).__name__} {error}", 0
            self.count, self.worst = self.count + 1, max(self.worst, took)
            self.wrong += [wrong] if wrong else []
            time.sleep(0.02)

    def end(self):
        self.ends.set()
        self.join(self.server.patience)


def served(program, folder, door, timeout, connections):
    """A server of so many connections, whose tenant has a bucket."""
    file, words = make_host(program, os.path.join(folder, "host"), ["green"]), ["--connections", str(connections)]
    if door == "socket":
        server = OnPath(program, file, os.path.join(folder, "clients"), *words, count=COUNTED, timeout=timeout)
    else:
        server = OnPort(program, file, *words, "--timeout", str(timeout), "--force")
    assert server.ask("PUT", "/plans").status == 200
    return server


def flooded(expect, flood, count, bound):
    """Opens all beside clients that ask, and asks once more when they are there. A request takes as many seconds as `bound` at most.
    Whether the server lives."""
    server, begun = flood.server, time.monotonic()
    asking = [Asking(server, name) for name in range(ASKING)]
    for it in asking:
        it.start()
    flood.open(count)
    took = time.monotonic() - begun
    for it in asking:
        it.end()
    asked_for, worst, wrong = sum(it.count for it in asking), max(it.worst for it in asking), [why for it in asking for why in it.wrong]
    expect(f"requests while {count} connections come", asked_for >= ASKING and not wrong and worst < bound, f"{worst:.1f} s, {wrong[:3]}")
    lives = server.is_up() and len(flood.sockets) == count
    if not expect("the server lives", lives, "" if lives else f"{len(flood.sockets)} came, and then: {server.end()}"):
        return False
    expect.note(f"{count} came in {took:.1f} s; of {asked_for} puts and gets meanwhile each took {worst:.2f} s at most")
    later = [asked(server, number) for number in range(10)]
    wrong, worst = [it for it, _ in later if it], max(it for _, it in later)
    expect.note(f"when they were there, each took {worst:.2f} s at most")
    return expect("requests beside them", not wrong and worst < BUSY and server.is_up(), f"{worst:.1f} s, {wrong[:3]}")


def memory_is_bounded(expect, program, server, before, places):
    grown, most = server.memory("VmHWM") - before, (FOR_ALL + FOR_EACH * places) / (1 << 20)
    expect.note(f"memory: {server.memory('VmRSS'):.0f} MiB, {before:.0f} before, at most {grown:.0f} more; {most:.0f} are the bound for {places} connections")
    expect("its memory", grown < most or not is_quick(program), f"{grown:.0f} MiB")


DOORS = pytest.mark.parametrize("door", ["port", pytest.param("socket", marks=pytest.mark.proved)])


@DOORS
@pytest.mark.cost(40)
def test_more_than_places(expect, program, folder, full, files, door):
    """More connections than the server has places: the oldest are closed. One with a head whose body comes late isn't, though it is
    older than all."""
    count, places = count_of(program, full, files, False), 4096 if full and is_quick(program) else 200
    if count < max(LEAST, places + 100):
        return expect.skip(f"more than {places} connections", f"a process may have {files} files here")
    with served(program, folder, door, 3600, places) as server, Flood(server, door) as flood:
        asked(server, 0)
        before, sender = server.memory("VmRSS"), server.socket()
        sender.sendall(HALF[:-1])
        # Those that wait for an accept go through all places, each of which is kept for a second.
        if not flooded(expect, flood, count, BUSY + 2 * (1 + min(count, QUEUE) / places)):
            return
        closed = flood.closed()
        is_oldest = closed == [*range(len(closed))] and count - places <= len(closed) < count
        expect(f"the oldest of {count} were closed", is_oldest, f"{len(closed)}, of {closed[:3]} to {closed[-3:]}")
        sender.sendall(HALF[-1:])
        answer = Answer(all_of(sender), "PUT")
        expect("a body that came before them is stored", answer.status == 200 and server.ask("GET", "/plans/half").body == b"a" * 1000, answer)
        memory_is_bounded(expect, program, server, before, places)


@DOORS
@pytest.mark.cost(40)
@pytest.mark.proved
def test_as_many_places(expect, program, folder, full, files, door):
    """A place for each connection: none is closed before its time is over, and then all are."""
    count, timeout = count_of(program, full, files, True), 60 if full else 20
    if count < LEAST:
        return expect.skip(f"{count} connections with a place each", f"a process may have {files} files here")
    with served(program, folder, door, timeout, 65536) as server, Flood(server, door) as flood:
        asked(server, 0)
        before = server.memory("VmRSS")
        if not flooded(expect, flood, count, BUSY):
            return
        early = [number for number in flood.closed() if time.monotonic() - flood.times[number] < 0.9 * timeout]
        expect("none is closed early", not early, early[:5])
        told = [all_of(it) for it in flood.sockets]
        rest, last = time.monotonic() - flood.times[-1], flood.times[-1] - flood.times[0]
        expect("each is closed after --timeout", told == [b""] * count and rest < 2 * timeout + BUSY, f"{rest:.1f} s after the last one, {last:.1f} s")
        wrong, took = asked(server, 1)
        expect("nothing of them is stored, and others are answered", not wrong and server.ask("GET", "/plans/half").status == 404, f"{wrong} {took:.1f} s")
        memory_is_bounded(expect, program, server, before, count)


@pytest.mark.cost(20)
def test_resets(expect, program, folder, full, files):
    """Connections that are reset, some at a time, as soon as they are there: the server closes their files."""
    count, at_once = count_of(program, full, files, False), 200
    if count < LEAST:
        return expect.skip("connections that are reset", f"a process may have {files} files here")
    with served(program, folder, "port", 3600, 65536) as server, Flood(server, "port") as flood:
        before = len(os.listdir(f"/proc/{server.process.pid}/fd"))
        for _ in range(count // at_once):
            flood.open(at_once)
            while flood.sockets:
                resets(flood.sockets.pop())
        wrong, took = asked(server, 0)
        expect(f"a request after {count} connections that were reset", not wrong and took < BUSY, f"{wrong} {took:.1f} s")
        begun = time.monotonic()
        while (left := len(os.listdir(f"/proc/{server.process.pid}/fd")) - before) > 0 and time.monotonic() - begun < server.patience:
            time.sleep(0.01)
        expect("their files are closed", left <= 0 and server.is_up(), left)
