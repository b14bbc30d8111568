"""`bucketd serve` with many clients at once: none waits for another one that is silent, slow, or doesn't read.

Connections of three tenants send their requests in pieces between one another's, in orders that are drawn; some are reset or closed half
way. Each tenant is answered as `bucketd script` answers its requests alone. The same is drawn each time.
"""
import os
import random
import select
import socket
import stat
import time

import pytest

from host import PATIENCE, Answer, Clock, all_of, differing, event, files, fill, is_fast, is_quick, make_host, names, request, resets, script, small_disk, without_moments
from test_operators import Operated
from test_serve import Served

TENANTS = ["green", "blue", "red"]
KEYS = ["x", "y", "a/b", "%C3%A9"]


def server_of(program, folder, *options, tenants=TENANTS, **more):
    return Served(program, make_host(program, os.path.join(folder, "host"), tenants), *options, **more)


# ---- drawn orders


class Job:
    """A request on a connection of its own, in pieces. Where it is `reset` its last piece is never sent."""

    def __init__(self, chance, tenant, data, end="whole"):
        self.tenant, self.end, self.answer = tenant, end, b""
        count = 1 if end == "once" else chance.randrange(1, 6)
        cuts = sorted({0, len(data), *(chance.randrange(1, len(data)) for _ in range(count - 1))})
        self.data, self.pieces, self.socket = data, [data[low:high] for low, high in zip(cuts, cuts[1:])], None

    def open(self, server):
        self.socket = server.socket()

    def send(self):
        self.socket.sendall(self.pieces.pop(0))

    def finish(self):
        """The last piece, after which the request is whole, or no more of it comes."""
        self.send()
        if self.end == "closed":
            self.socket.shutdown(socket.SHUT_WR)

    def is_answered(self):
        """Takes what there is of the answer; whether that is all."""
        piece = self.socket.recv(1 << 20)
        self.answer += piece
        if not piece:
            self.socket.close()
        return not piece


def drawn_job(chance, tenant, sizes):
    key, body = chance.choice(KEYS), os.urandom(chance.choice(sizes))
    kinds = {
        "put": lambda: Job(chance, tenant, request(tenant, "PUT", f"/plans/{key}", body)),
        "get": lambda: Job(chance, tenant, request(tenant, "GET", f"/plans/{key}")),
        "part": lambda: Job(chance, tenant, request(tenant, "GET", f"/plans/{key}", fields=["range: bytes=3-9"])),
        "head": lambda: Job(chance, tenant, request(tenant, "HEAD", f"/plans/{key}")),
        "delete": lambda: Job(chance, tenant, request(tenant, "DELETE", f"/plans/{key}")),
        "list": lambda: Job(chance, tenant, request(tenant, "GET", "/plans?versions")),
        "usage": lambda: Job(chance, tenant, request(tenant, "GET", "/?usage")),
        "another secret": lambda: Job(chance, tenant, request(tenant, "PUT", f"/plans/{key}", body, secret="another" + tenant)),
        "no request": lambda: Job(chance, tenant, b"PUT /plans\x01\r\n\r\n", "once"),
        "closed": lambda: Job(chance, tenant, request(tenant, "PUT", f"/plans/{key}", body, length=len(body) + 7), "closed"),
        "reset": lambda: Job(chance, tenant, request(tenant, "PUT", f"/plans/{key}", body + b"end"), "reset"),
    }
    return chance.choices(list(kinds.values()), [8, 4, 2, 1, 2, 2, 2, 1, 1, 2, 3])[0]()


def ask_all(chance, server, jobs):
    """Sends all pieces in a drawn order. Of a tenant one request at a time becomes whole, so that their order is known."""
    coming = {tenant: [it for it in jobs if it.tenant == tenant] for tenant in TENANTS}
    waiting, answered = {}, []
    for it in jobs:
        it.open(server)
    ends = time.monotonic() + PATIENCE
    while any(coming.values()) or waiting:
        assert time.monotonic() < ends, "some are not answered"
        for it in select.select([it.socket for it in waiting.values()], [], [], 0)[0] if waiting else []:
            job = next(job for job in waiting.values() if job.socket is it)
            if job.is_answered():
                answered.append(waiting.pop(job.tenant))
        begun = [it for queue in coming.values() for it in queue if len(it.pieces) > 1]
        ready = [queue[0] for tenant, queue in coming.items() if queue and tenant not in waiting and len(queue[0].pieces) == 1]
        if not begun and not ready:
            time.sleep(0.001)
            continue
        job = chance.choice(begun + ready)
        if len(job.pieces) > 1:
            job.send()
            continue
        coming[job.tenant].remove(job)
        if job.end == "reset":
            resets(job.socket)
        else:
            job.finish()
            waiting[job.tenant] = job
    return answered


def alone(program, tenant, jobs):
    """What a tenant's requests are answered where it has a host of its own."""
    setting = ['{"at":0,"op":"tenant-add","tenant":"%s","quota":%d}\n' % (tenant, 1 << 40),
               '{"at":0,"op":"key-add","tenant":"%s","name":"k1","secret":"%ssecret"}\n' % (tenant, tenant)]
    told = script(program, [*setting, event(request(tenant, "PUT", "/plans")), *(event(it.data) for it in jobs)])
    begun = script(program, [*setting, event(request(tenant, "PUT", "/plans"))])
    assert told.startswith(begun)
    return told[len(begun) :]


@pytest.mark.cost(60)
@pytest.mark.parametrize("number", range(3))
def test_drawn_orders(expect, program, folder, full, number):
    chance = random.Random(20261128 + number)
    sizes = [0, 1, 700, 70_000, 300_000, 1_300_000] if is_fast(program) else [0, 1, 700, 70_000]
    count = 50 if not full else 400
    with server_of(program, folder, "--log", timeout=600) as server:
        for tenant in TENANTS:
            assert server.ask(tenant, "PUT", "/plans").status == 200
        jobs = [drawn_job(chance, chance.choice(TENANTS), sizes) for _ in range(count)]
        silent = [server.socket() for _ in range(10)]
        answered = ask_all(chance, server, jobs)
        ended = [it.end for it in jobs]
        kinds = f"{ended.count('reset')} of them reset, {ended.count('closed')} closed half way"
        wrong = []
        for tenant in TENANTS:
            own = [it for it in answered if it.tenant == tenant]
            found = without_moments(b"".join(it.answer + b"\n" for it in own))
            wanted = without_moments(alone(program, tenant, own))
            if found != wanted or not own:
                wrong.append(f"{tenant}: {differing(wanted, found)}")
        is_told = len(answered) == count - ended.count("reset") and {"reset", "closed"} <= {*ended}
        expect(f"{count} connections of three tenants in pieces, {kinds}", not wrong and is_told, "\n".join(wrong))
        await_lines(server, 1 + len(TENANTS) + count)
        resets_told = sum(" - - " in it and it.split()[-2] == "0" for it in server.lines())
        expect("each has a line in the log", resets_told == ended.count("reset"), server.lines()[-5:])
        expect("no files are left", files(folder) == ["host", "host-wal"], names(folder))
        for it in silent:
            it.close()


def await_lines(server, count):
    for _ in range(2000):
        if len(server.lines()) >= count:
            return
        time.sleep(0.01)


# ---- those who are silent, slow, or don't read


def slowest(server, count=10):
    """The seconds that the slowest of some requests took, and whether all were answered."""
    took, status = [], []
    for _ in range(count):
        begun = time.monotonic()
        status.append(server.get("HEAD", "/plans")[0])
        took.append(time.monotonic() - begun)
    return max(took), status == [200] * count


def test_silent_clients(expect, program, folder):
    """Clients that say nothing, or half a head, hold up nobody, and are closed when their time is over."""
    with server_of(program, folder) as server:
        server.get("PUT", "/plans", b"")
        begun, beginning = time.monotonic(), request("green", "PUT", "/plans/half", b"a" * 1000)
        silent = [server.socket() for _ in range(200)]
        for place, it in enumerate(silent):
            it.sendall(beginning[: [0, 1, 20, 150, len(beginning) - 1][place % 5]])
        took, is_answered = slowest(server)
        is_soon = took < 0.5 * server.timeout
        expect("requests beside 200 silent clients", is_answered and is_soon, f"{took:.2f} s, {is_answered}")
        told = [all_of(it) for it in silent]
        closed = time.monotonic() - begun
        expect("they are closed after --timeout", told == [b""] * 200 and 0.9 * server.timeout <= closed < 2 * server.timeout + 1, f"{closed:.1f} s")
        expect("nothing of them is stored", server.get("GET", "/plans/half")[0] == 404)


def test_slow_senders(expect, program, folder):
    """Clients that send a byte now and then hold up nobody; a body of which enough comes in time may take longer than --timeout."""
    with server_of(program, folder) as server:
        server.get("PUT", "/plans", b"")
        slow = [server.socket() for _ in range(50)]
        data = request("green", "PUT", "/plans/slow", b"a" * 100)
        ends, worst, answered = time.monotonic() + 1, 0, True
        while time.monotonic() < ends:
            for it in slow:
                it.sendall(data[:1])
            data = data[1:]
            took, is_answered = slowest(server, 2)
            worst, answered = max(worst, took), answered and is_answered
        expect("requests beside 50 slow senders", answered and worst < 0.5 * server.timeout, f"{worst:.2f} s")
        for it in slow:
            it.close()
        if not is_fast(program):
            return expect.skip("a long body", "it takes a slow program too long")
        body = os.urandom(8 << 20)
        it, begun = server.socket(), time.monotonic()
        data = request("green", "PUT", "/plans/long", body)
        for start in range(0, len(data), 1 << 20):
            it.sendall(data[start : start + (1 << 20)])
            time.sleep(0.3 * server.timeout)
        answer, took = Answer(all_of(it), "PUT"), time.monotonic() - begun
        is_kept = server.get("GET", "/plans/long")[2] == body
        expect("a body that takes longer than --timeout, 1 MiB in each third of it", answer.status == 200 and is_kept and took > 2 * server.timeout, f"{answer} {took:.1f} s")


def test_clients_that_do_not_read(expect, program, folder):
    """Clients that ask for a large object and read nothing hold up nobody; one that reads late has all of it."""
    if not is_fast(program):
        return expect.skip("clients that don't read", "their object is too large for a slow program")
    with server_of(program, folder, timeout=6) as server:
        server.get("PUT", "/plans", b"")
        data = os.urandom(12 << 20)
        assert server.get("PUT", "/plans/large", data)[0] == 200
        deaf = [server.socket(room=4096) for _ in range(20)]
        for it in deaf:
            it.sendall(request("green", "GET", "/plans/large"))
        worst, is_answered = slowest(server)
        expect("requests beside 20 who don't read", is_answered and worst < 0.7 * server.timeout, f"{worst:.2f} s")
        whole = Answer(all_of(deaf[0]), "GET")
        expect("one that reads late has all", whole.is_whole and whole.body == data, f"{len(whole.body)} of {len(data)} bytes")
        time.sleep(server.timeout + 1)
        cut = Answer(all_of(deaf[-1]), "GET")
        expect("one that reads nothing is cut off", len(cut.body) < len(data) and data.startswith(cut.body), f"{len(cut.body)} of {len(data)} bytes")
        expect("no files are left", files(folder) == ["host", "host-wal"], names(folder))


def test_silent_operator(expect, program, folder):
    with Operated(program, make_host(program, os.path.join(folder, "host"), ["green"])) as it:
        silent = [it.operator() for _ in range(20)]
        for each in silent[:10]:
            each.sendall(b'{"op":"rep')
        begun = time.monotonic()
        told, status = it.order(op="report"), it.get("HEAD", "/plans")[0]
        took = time.monotonic() - begun
        expect("lines and requests beside 20 silent operators", told.startswith("blocks ") and status == 404 and took < 0.7 * it.timeout, f"{told} {took:.2f} s")


# ---- places, memory, files


def limited(program, folder, files):
    """A program that may have so many files open."""
    path = os.path.join(folder, "limited")
    with open(path, "w") as out:
        out.write(f'#!/bin/sh\nulimit -n {files}\nexec {program} "$@"\n')
    os.chmod(path, os.stat(path).st_mode | stat.S_IXUSR)
    return path


def test_places(expect, program, folder):
    """Where places run out the oldest client without a head gives its own to the next."""
    place = os.path.join(folder, "place")
    os.mkdir(place)
    with server_of(program, place) as server:
        server.get("PUT", "/plans", b"")
    with Served(limited(program, folder, 128), os.path.join(place, "host"), timeout=600) as server:
        body = request("green", "PUT", "/plans/slow", b"abc")
        sender = server.socket()
        sender.sendall(body[:-1])
        silent = [server.socket() for _ in range(100)]
        took, is_answered = slowest(server, 3)
        expect("requests beside more silent clients than there are places", is_answered and took < 60, f"{took:.1f} s")
        closed = [it for it in silent if select.select([it], [], [], 0)[0]]
        expect("the oldest of them were closed", closed and closed == silent[: len(closed)] and len(closed) < 100, len(closed))
        sender.sendall(body[-1:])
        answer = Answer(all_of(sender), "PUT")
        expect("a body that came before them is stored", answer.status == 200 and server.get("GET", "/plans/slow")[2] == b"abc", answer)


@pytest.mark.proved
def test_memory(expect, program, folder):
    """Bodies that wait for their ends are in files above a bound; so are answers that nobody reads."""
    if not is_quick(program):
        return expect.skip("memory", "a program without a proof has its own")
    with server_of(program, folder, timeout=60) as server:
        server.get("PUT", "/plans", b"")
        server.get("HEAD", "/plans")
        before, data = server.memory("VmRSS"), os.urandom(1 << 20)
        head, coming = request("green", "PUT", "/plans/x", b"", length=16 << 20), []
        for _ in range(200):
            it = server.socket()
            it.sendall(head + data)
            coming.append(it)
        small = [server.socket() for _ in range(200)]
        for it in small:
            it.sendall(request("green", "PUT", "/plans/y", data)[:-1])
        status, grown = server.get("HEAD", "/plans")[0], server.memory("VmHWM") - before
        expect("400 bodies of 1 MiB that wait", status == 200 and grown < 200, f"{grown:.0f} MiB")
        for it in [*coming, *small]:
            it.close()


def test_no_room_for_a_body(expect, program, folder):
    """A body that has room neither in memory nor on the disk is refused; others go on."""
    with small_disk(os.path.join(folder, "disk"), 24 << 20) as place:
        if not place:
            return expect.skip("a full disk", "this user mounts none")
        with server_of(program, place) as server:
            server.get("PUT", "/plans", b"")
            assert server.get("PUT", "/plans/x", b"abc")[0] == 200
            filler = os.path.join(place, "filler")
            fill(filler)
            status = server.get("PUT", "/plans/large", bytes(3 << 20))[0]
            expect("a body of 3 MiB on a full disk", status == 503, status)
            expect("a get there", server.get("GET", "/plans/x")[2] == b"abc")
            os.remove(filler)
            body = os.urandom(1_100_000 if is_fast(program) else 70_000)
            status = server.get("PUT", "/plans/large", body)[0]
            expect("a body when there is room again", status == 200 and server.get("GET", "/plans/large")[2] == body, status)


def test_answers_before_the_end(expect, program, folder):
    """A server that ends after so many requests sends all of their answers first."""
    with server_of(program, folder) as server:
        data = os.urandom(4 << 20 if is_fast(program) else 200_000)
        server.get("PUT", "/plans", b"")
        server.get("PUT", "/plans/large", data)
    with Served(program, os.path.join(folder, "host"), count=1, timeout=8) as server:
        it, silent = server.socket(room=4096), server.socket()
        it.sendall(request("green", "GET", "/plans/large"))
        time.sleep(0.5 * server.timeout)
        answer = Answer(all_of(it), "GET")
        expect("an answer that is read late", answer.is_whole and answer.body == data, f"{len(answer.body)} of {len(data)} bytes")
        expect("a client that said nothing", all_of(silent) == b"")
        expect("then it ends", server.process.wait(PATIENCE) == 0)


def test_files_are_short(expect, program, folder):
    """Bodies that strangers announced take all room in files: readers who read nothing then hold up nobody either."""
    if not is_fast(program):
        return expect.skip("files are short", "the object is too large for a slow program")
    with server_of(program, folder, "--connections", "600", timeout=6) as server:
        server.get("PUT", "/plans", b"")
        assert server.get("PUT", "/plans/large", os.urandom(16 << 20))[0] == 200
        announced = [server.socket() for _ in range(256)]
        for it in announced:
            it.sendall(request("green", "PUT", "/plans/no", b"a" * 1024, secret="anothersecret", length=16 << 20))
        deaf = [server.socket(room=4096) for _ in range(3)]
        for it in deaf:
            it.sendall(request("green", "GET", "/plans/large"))
        took, is_answered = slowest(server)
        expect("requests beside 3 who don't read, where 256 bodies have all room in files", is_answered and took < 0.5 * server.timeout, f"{took:.2f} s")


@pytest.mark.proved
@pytest.mark.cost(60)
def test_answers_without_room(expect, program, folder, disk_folder):
    """Answers that nobody reads take all room in files: more of them hold up others for a moment, all together, and are cut off."""
    if not is_fast(program):
        return expect.skip("answers without room", "2 GiB of answers take a slow program too long")
    with server_of(program, folder, "--connections", "450", "--spool", disk_folder, timeout=200) as server:
        server.get("PUT", "/plans", b"")
        large, small, get = os.urandom(16 << 20), os.urandom(1000), request("green", "GET", "/plans/large")
        assert [server.get("PUT", f"/plans/{name}", body)[0] for name, body in [("large", large), ("small", small)]] == [200, 200]
        # requests may have half of the 4 GiB of files, and answers the rest
        announced = [server.socket() for _ in range(128)]
        for it in announced:
            it.sendall(request("green", "PUT", "/plans/no", b"a" * 1024, secret="anothersecret", length=16 << 20))
        deaf = [server.socket(room=4096) for _ in range(200)]
        for it in deaf:
            it.sendall(get)
        # (requests are done in order, so these are done when the next one is)
        filled = server.get("GET", "/plans/small")[2] == small
        time.sleep(1.1)
        more, begun = [server.socket(room=4096) for _ in range(60)], time.monotonic()
        for it in more:
            it.sendall(get)
        told = [server.get("GET", "/plans/small")[2] for _ in range(10)]
        # (a quarter of a second for each of the 60 would be 15)
        took = time.monotonic() - begun
        expect("ten gets beside 60 who don't read, where 200 who don't read have all room in files", filled and told == [small] * 10 and took < 6, f"{took:.2f} s")
        cut = sum(len(all_of(it)) < len(large) for it in more)
        expect("most of the 60 are cut off", cut > 50, cut)
        time.sleep(1.1)
        expect("one that reads has all", server.get("GET", "/plans/large")[2] == large)
        for it in [*announced, *deaf]:
            it.close()


# ---- groups


@pytest.mark.proved
def test_groups_share_syncs(expect, program, folder, library):
    """Puts that are whole at one moment share a transaction: where each sync takes 5 ms longer, they take much less than one after another."""
    if not is_fast(program):
        return expect.skip("puts that share a transaction", "64 of them take a slow program longer than its syncs")
    with server_of(program, folder, LD_PRELOAD=library("late_sync")) as server:
        server.get("PUT", "/plans", b"")
        begun = time.monotonic()
        alone = [server.get("PUT", f"/plans/alone{number}", b"a" * 100)[0] for number in range(16)]
        each, clients = (time.monotonic() - begun) / 16, [server.socket() for _ in range(64)]
        begun = time.monotonic()
        for number, it in enumerate(clients):
            it.sendall(request("green", "PUT", f"/plans/x{number}", b"b" * 100))
        told = [Answer(all_of(it), "PUT").status for it in clients]
        took = time.monotonic() - begun
        expect("64 puts at once", alone == [200] * 16 and told == [200] * 64 and took < 32 * each, f"{1000 * took:.0f} ms, {1000 * each:.1f} ms alone")
        stored = [server.get("GET", f"/plans/x{number}")[2] for number in range(64)]
        expect("all are stored", stored == [b"b" * 100] * 64)


# ---- sweeps of its own


def stored(server):
    """How many bytes of blocks stand, and how many are referred to."""
    words = server.order(op="report").split()
    return int(words[3]), int(words[5])


def test_own_sweeps(expect, program, folder):
    """One object that is overwritten over and over: what nobody needs any more goes without an order, and nothing else does."""
    if not is_fast(program):
        return expect.skip("the server's own sweeps", "the bytes that begin one take a slow program too long")
    with Operated(program, make_host(program, os.path.join(folder, "host"), TENANTS)) as server:
        server.get("PUT", "/plans", b"")
        size, count = 8 << 20, 30
        kept = os.urandom(size)
        server.get("PUT", "/plans/stays", kept)
        most = 0
        for number in range(count):
            assert server.get("PUT", "/plans/x", number.to_bytes(4, "big") + os.urandom(size - 4))[0] == 200
            most = max(most, stored(server)[0])
        begun = time.monotonic()
        while stored(server)[0] > 10 * size and time.monotonic() - begun < PATIENCE:
            time.sleep(0.05)
        left, needed = stored(server)
        expect("what nobody needs goes", left <= 10 * size and most < 20 * size, f"{left} of {count * size} are left, at most {most}")
        expect("what is needed stays", needed == 2 * size and server.get("GET", "/plans/stays")[2] == kept, needed)


# ---- the clock


def of_clock(server):
    return [it for it in server.lines() if "clock" in it]


def test_clock_that_leaps(expect, program, folder):
    """A clock that leaps ahead by more than --clock-step stamps nothing: requests are refused until it is back. One that goes back
    is no fault."""
    now = int(time.time())
    clock = Clock(folder, now)
    with server_of(program, folder, "--clock-step", "600", timeout=60, **clock.env) as server:
        assert server.get("PUT", "/plans", b"")[0] == 200
        clock.set(now + 500)
        expect("a clock that is ahead by less", server.get("PUT", "/plans/x", b"abc")[0] == 200 and not of_clock(server), of_clock(server))
        clock.set(now + 100_000)
        told = [server.get("PUT", "/plans/x", b"def")[0], server.get("GET", "/plans/x")[0]]
        expect("by more: requests are refused", told == [500, 500] and [it.split(": ")[-1] for it in of_clock(server)] == ["requests are refused until it is back; if it is right, order clock-accept"], f"{told} {of_clock(server)}")
        clock.set(now + 501)
        told, lines = server.get("GET", "/plans/x"), of_clock(server)
        expect("it is back: they are answered", told[0] == 200 and told[2] == b"abc" and len(lines) == 2 and "the clock is back" in lines[1], f"{told} {lines}")
        clock.set(now + 90_000)
        expect("a second leap is told anew", server.get("GET", "/plans/x")[0] == 500 and len(of_clock(server)) == 3, of_clock(server))
        clock.set(now - 5_000)
        told = server.get("PUT", "/plans/y", b"ghi")[0], server.get("GET", "/plans/y")[2]
        expect("a clock that goes back", told == (200, b"ghi") and len(of_clock(server)) == 4, f"{told} {of_clock(server)}")
        clock.set(now + 502)
        expect("and comes again", server.get("GET", "/plans/y")[0] == 200 and len(of_clock(server)) == 4, of_clock(server))


# ---- resets


def test_resets_at_each_state(expect, program, folder):
    """Clients that reset their connection before, within and after a request, and within its answer, take nothing from others."""
    with server_of(program, folder) as server:
        server.get("PUT", "/plans", b"")
        body = os.urandom(1 << 20 if is_fast(program) else 20_000)
        assert server.get("PUT", "/plans/x", body)[0] == 200
        before = len(os.listdir(f"/proc/{server.process.pid}/fd"))
        put, get = request("green", "PUT", "/plans/y", b"a" * 5000), request("green", "GET", "/plans/x")
        for data in [b"", put[:1], put[:100], put[:-4000], put[:-1], get]:
            for _ in range(5):
                it = server.socket(room=4096)
                it.sendall(data)
                if data == get:
                    it.recv(100)
                resets(it)
        status, took = server.get("HEAD", "/plans")[0], time.monotonic()
        while (left := len(os.listdir(f"/proc/{server.process.pid}/fd")) - before) > 0 and time.monotonic() - took < PATIENCE:
            time.sleep(0.01)
        expect("a request after 30 resets", status == 200 and server.get("GET", "/plans/y")[0] == 404, status)
        # (the one that put may not have been closed yet when they were counted)
        expect("their files are closed", left <= 0, left)
        for _ in range(5):
            resets_after(server, put)
        expect("a put whose client is gone is stored", server.get("GET", "/plans/y")[2] == b"a" * 5000)


def resets_after(server, data):
    """A request comes whole, and then its client resets the connection."""
    it = server.socket()
    it.sendall(data)
    time.sleep(0.05)
    resets(it)


def test_file_handles(expect, program, folder):
    """Where the process may open no more files, clients wait and are answered when there is room again."""
    place = os.path.join(folder, "place")
    os.mkdir(place)
    with server_of(program, place) as server:
        server.get("PUT", "/plans", b"")
    with Served(limited(program, folder, 80), os.path.join(place, "host"), "--connections", "65536") as server:
        many = [server.socket() for _ in range(200)]
        for it in many:
            it.sendall(request("green", "HEAD", "/plans"))
        told = [Answer(all_of(it), "HEAD").status for it in many]
        expect("200 clients of a process that may have 80 files open", told == [200] * 200, told)
