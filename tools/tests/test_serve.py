"""`bucketd serve` on a file in a new folder: requests as they should be, bodies that come and go in pieces, clients that break off,
are slow, say nothing or don't read, a body that takes longer to store than a connection has time, a system without files, the
log, and a server that is killed once it has answered.

The large object has 8 MiB, and a connection 2 seconds; of a program that is slow (one without a proof, or built by Rattle's own
compiler) 32 KiB and 6 seconds, so that a busy machine answers in time."""
import base64
import hashlib
import json
import os
import re
import resource
import select
import signal
import socket
import subprocess
import time
from contextlib import suppress

import pytest

from host import PATIENCE, SCRIPTS, Server, all_of, command, event_words, is_fast, make_host, read, request, resets

ENABLED = b'{"Status":"Enabled"}'


# Seconds more that a busy machine may take for what a connection has --timeout for.
BUSY = 30


class Served(Server):
    """A server whose connections have some seconds, asked by the tenant green."""

    def __init__(self, program, file, *options, timeout=None, **more):
        self.large, self.timeout = (8 << 20, timeout or 2) if is_fast(program) else (32 << 10, timeout or 6)
        super().__init__(program, file, "--timeout", str(self.timeout), "--force", *options, **more)

    def get(self, method, path, body=None, *fields, secret=None):
        """Status, fields and body of the answer."""
        it = self.ask("green", method, path, body, fields, secret)
        return it.status, it.fields, it.body


@pytest.fixture
def file(program, folder):
    return make_host(program, os.path.join(folder, "host"), ["green"])


@pytest.fixture
def on(program, file):
    """A server with a bucket."""
    with Served(program, file) as it:
        assert it.get("PUT", "/plans", b"")[0] == 200
        yield it
        assert it.lines() == [f"listening on 127.0.0.1:{it.port}"], "without --log nothing is said of requests"


def head(method, path, length, *fields):
    """The head of a request whose body comes later."""
    return request("green", method, path, b"", fields, length=length)


def test_requests(expect, on):
    expect("a put", on.get("PUT", "/plans/x", b"abcdef")[0] == 200)
    status, fields, body = on.get("GET", "/plans/x")
    expect("a get", (status, body) == (200, b"abcdef"), f"{status} {body}")
    status, fields, body = on.get("GET", "/plans/x", None, "range: bytes=1-3")
    expect("a range", (status, body, fields["content-range"]) == (206, b"bcd", "bytes 1-3/6"), f"{status} {fields} {body}")
    status, fields, body = on.get("HEAD", "/plans/x")
    expect("a head", (status, fields["content-length"], body) == (200, "6", b""), f"{status} {fields} {body}")
    expect("a delete", on.get("DELETE", "/plans/x")[0] == 204)
    expect("a get of what was deleted", on.get("GET", "/plans/x")[0] == 404)
    expect("another secret", on.get("GET", "/plans/x", secret="greensecreT")[0] == 403)


def test_documents(expect, program, on):
    """A document may have 2 MiB, and the body of what reads none any length."""
    most, quick = 1 << 21, is_fast(program)
    on.get("PUT", "/papers", b"")
    if quick:
        status, _, body = on.get("PUT", "/papers?versioning", ENABLED.ljust(most))
        expect("a document of 2 MiB", (status, body) == (200, b""), f"{status} {body}")
    for name, length in (("a longer one", most + 1), ("one of 15 MiB", 15 << 20)):
        status, fields, body = on.get("PUT", "/papers?versioning", ENABLED.ljust(length))
        told = (status, fields["x-refusal"], body)
        expect(name, told == (400, "11 MalformedJSON", b'{"Code":"MalformedJSON","Resource":"/papers"}'), f"{told}")
    status, _, body = on.get("GET", "/papers?versioning", bytes(on.large))
    expect("a body that nothing reads", (status, body) == (200, ENABLED if quick else b"{}"), f"{status} {body}")
    status, _, body = on.get("PUT", "/rolls", bytes(on.large))
    expect("a bucket that is made with one", (status, body) == (200, b""), f"{status} {body}")


def test_large_object(expect, on):
    data, begun = os.urandom(on.large), time.monotonic()
    status, _, _ = on.get("PUT", "/plans/large", data)
    put = time.monotonic() - begun
    _, _, body = on.get("GET", "/plans/large")
    expect.note(f"{on.large} bytes put in {put:.2f} s, got in {time.monotonic() - begun - put:.2f} s")
    expect("a large object put and got", status == 200 and body == data, f"{status}, {len(body)} bytes")


def absent(expect, on, name, path):
    expect(f"nothing is stored: {name}", on.get("GET", path)[0] == 404)


def test_clients_that_break_off(expect, on):
    half = head("PUT", "/plans/half", 1000) + b"a" * 500
    on.reset(half)
    absent(expect, on, "a client that resets half way", "/plans/half")
    expect("a client that closes half way", b"x-refusal: 27 IncompleteBody\r\n" in on.exchange(half))
    absent(expect, on, "a client that closes half way", "/plans/half")
    on.socket().close()
    expect("a request after a client that says nothing and closes", on.get("HEAD", "/plans")[0] == 200)


def sent(on, *pieces):
    """The answer to a head and pieces of a body, each sent by itself, after which no more comes."""
    it = on.socket()
    for piece in pieces:
        it.sendall(piece)
        time.sleep(0.01)
    it.shutdown(socket.SHUT_WR)
    return all_of(it)


def test_bodies_in_pieces(expect, on):
    """Bodies that come in pieces: of one block and of several, cut within a block and at its end."""
    for size in (1, 65536, 65537, 200_001):
        data = os.urandom(size)
        cuts = sorted({0, 1, 4, size // 3, 65536, 65537, size} & {*range(size + 1)})
        path = f"/plans/pieces-{size}"
        answer = sent(on, head("PUT", path, size), *[data[low:high] for low, high in zip(cuts, cuts[1:])])
        is_same = on.get("GET", path)[2] == data
        expect(f"a body of {size} bytes in pieces", answer.startswith(b"HTTP/1.1 200 OK\r\n") and is_same, answer[-300:])
    for size in (1000, 200_000):
        data, other = os.urandom(size), base64.b64encode(hashlib.sha256(b"other").digest()).decode()
        checksum = f"x-amz-checksum-sha256: {other}"
        answer = sent(on, head("PUT", "/plans/spoilt", size, checksum), data[: size // 2], data[size // 2 :])
        expect(f"{size} bytes with another checksum", b"x-refusal: 26 BadDigest\r\n" in answer, answer[-300:])
        absent(expect, on, f"{size} bytes with another checksum", "/plans/spoilt")
        answer = sent(on, head("PUT", "/nowhere/x", size, checksum), data)
        expect(f"{size} bytes to a bucket that isn't there", b"x-refusal: 12 NoSuchBucket\r\n" in answer, answer[-300:])
        answer = sent(on, head("PUT", "/nowhere/x", size), data[:-1])
        expect(f"a byte less than {size} to a bucket that isn't there", b"x-refusal: 27 IncompleteBody\r\n" in answer, answer[-300:])
        answer = sent(on, head("PUT", "/plans/short", size, checksum), data[:-1])
        expect(f"a byte less than {size} with another checksum", b"x-refusal: 27 IncompleteBody\r\n" in answer, answer[-300:])
        absent(expect, on, f"a byte less than {size}", "/plans/short")


@pytest.mark.cost(20)
def test_objects_in_pieces(expect, on):
    """Objects of one block, of one more byte, and of several, whole and in ranges that begin and end within a block and at its end."""
    for size in (65536, 65537, 200_001, 400_000):
        data, path = os.urandom(size), f"/plans/out-{size}"
        on.get("PUT", path, data)
        status, fields, body = on.get("GET", path)
        expect(f"a get of {size} bytes", (status, body, fields["content-length"]) == (200, data, str(size)), f"{status} {fields}")
        status, fields, body = on.get("HEAD", path)
        expect(f"a head of {size} bytes", (status, body, fields["content-length"]) == (200, b"", str(size)), f"{status} {fields}")
        for first, last in ((0, size - 1), (1, size - 1), (0, 65535), (65535, 65536), (65536, size), (1, size - 2), (size - 1, size)):
            wanted = data[first : last + 1]
            status, fields, body = on.get("GET", path, None, f"range: bytes={first}-{last}")
            told = (206, wanted, f"bytes {first}-{min(last, size - 1)}/{size}") if wanted else (416, body, f"bytes */{size}")
            found = (status, body, fields.get("content-range"))
            expect(f"bytes {first} to {last} of {size}", found == told, f"{status} {fields} {len(body)} bytes")


def test_answers_half_read(expect, on):
    """Clients that read a part of a response: one rests and reads on, one resets."""
    data = os.urandom(1 << 20)
    on.get("PUT", "/plans/half-read", data)
    it = on.socket()
    it.sendall(head("GET", "/plans/half-read", 0))
    begun = it.recv(1000)
    time.sleep(1)
    answer = begun + all_of(it)
    expect("a client that rests within a response", answer.endswith(data), f"{len(answer)} bytes")
    it = on.socket()
    it.sendall(head("GET", "/plans/half-read", 0))
    it.recv(1000)
    resets(it)
    expect("a get after a client that resets within a response", on.get("GET", "/plans/half-read")[2] == data)


def timed(expect, on, name, act, rests=0, **room):
    """What comes to a client, whose connection is broken off after the timeout and no sooner; meanwhile the next is answered."""
    begun, it = time.monotonic(), on.socket(**room)
    act(it)
    asked = time.monotonic()
    status = on.get("HEAD", "/plans")[0]
    waited = time.monotonic() - asked
    time.sleep(rests)
    came = all_of(it)
    took, least = time.monotonic() - begun, 0.9 * on.timeout
    is_well = status == 200 and waited < 0.7 * on.timeout and least <= took < least + BUSY
    expect(name, is_well, f"{status} after {waited:.1f} s, and broken off after {took:.1f} s, not after {least:.1f} or somewhat more")
    return came


def drip(it):
    """A minute of bytes, or as long as the connection stands."""
    with suppress(OSError):
        for byte in head("PUT", "/plans/drip", 3) + b"abc":
            it.sendall(bytes([byte]))
            if select.select([it], [], [], 0.5)[0]:
                return


@pytest.mark.cost(40)
def test_slow_clients(expect, program, on):
    came = timed(expect, on, "a client that says nothing", lambda it: None)
    expect("is told nothing", came == b"", came)
    came = timed(expect, on, "a client that sends two bytes a second", drip)
    absent(expect, on, "a client that sends two bytes a second", "/plans/drip")
    if not is_fast(program):
        return expect.skip("a client that doesn't read", "its object is too large for a slow program")
    data = os.urandom(on.large)
    on.get("PUT", "/plans/large", data)
    came = timed(expect, on, "a client that doesn't read", lambda it: it.sendall(head("GET", "/plans/large", 0)), 1.5 * on.timeout, room=4096)
    body = came.partition(b"\r\n\r\n")[2]
    expect("has a part of its answer", came.startswith(b"HTTP/1.1 200 OK\r\n") and data.startswith(body) and len(body) < len(data), f"{len(body)} of {len(data)} bytes")


def test_bytes_that_are_too_many(expect, on):
    it = on.socket()
    try:
        it.sendall(head("PUT", "/plans/x", 10**12) + b"a" * 3_000_000)
        it.shutdown(socket.SHUT_WR)
    except OSError:
        pass
    answer = all_of(it)
    expect("a body that is too long is answered", answer.endswith(b"connection: close\r\n\r\n") and b"4 EntityTooLarge" in answer, answer[-300:])
    it = on.socket()
    it.sendall(head("PUT", "/plans/x", 3) + b"abc" + b"GET / HTTP/1.1\r\n" * 1000)
    answer = all_of(it)
    expect("bytes after a body are not read", answer.startswith(b"HTTP/1.1 200 OK\r\n") and answer.count(b"HTTP/1.1") == 1, answer[-300:])


def test_killed(expect, program, file, on):
    data = os.urandom(min(on.large, 100_000))
    status = on.get("PUT", "/plans/kept", data)[0]
    on.end(signal.SIGKILL)
    with Served(program, file) as other:
        _, _, body = other.get("GET", "/plans/kept")
    expect("an object that was acknowledged before SIGKILL", status == 200 and body == data, f"{status}, {len(body)} bytes")


@pytest.mark.cost(60)
@pytest.mark.proved
def test_body_that_takes_long(expect, program, file):
    """A body that takes longer to store than there is time to read it: in blocks of one byte, more of them each time."""
    with Served(program, file, "--block-size", "1", timeout=1) as on:
        on.patience, size, status, took = 600, 125, on.get("PUT", "/plans", b"")[0], 0
        while status == 200 and took < 3 and size < 8 << 20:
            size *= 2
            data, begun = os.urandom(size), time.monotonic()
            status = on.get("PUT", "/plans/long", data)[0]
            took = time.monotonic() - begun
        expect.note(f"{size} bytes were stored in {took:.1f} s")
        expect("a body that takes longer to store than --timeout", status == 200 and took >= 3, f"{status} after {took:.1f} s")
        body = on.get("GET", "/plans/long")[2]
        expect("a get of such a body", body == data, f"{len(body)} bytes")


def test_no_file_for_a_connection(expect, on):
    """Connections that the system has no file for wait until it has, and the server with them, without turning."""
    pid = on.process.pid
    soft, hard = resource.prlimit(pid, resource.RLIMIT_NOFILE)
    used = {int(name) for name in os.listdir(f"/proc/{pid}/fd")}
    resource.prlimit(pid, resource.RLIMIT_NOFILE, (min(set(range(len(used) + 1)) - used), hard))
    it, before = on.socket(), on.spent()
    it.sendall(head("HEAD", "/plans", 0))
    time.sleep(2)
    lives, took = on.is_up(), on.spent() - before
    resource.prlimit(pid, resource.RLIMIT_NOFILE, (soft, hard))
    answer = all_of(it)
    expect("a server without a file for a connection", lives and took < 0.5 and answer.startswith(b"HTTP/1.1 200 OK\r\n"), f"{lives} {took} {answer}")


def logged_after(on, before, count):
    """What the log has after so many lines, once there are so many more; an answer may come before its line."""
    begun = time.monotonic()
    while len(on.lines()) < before + count and time.monotonic() - begun < BUSY:
        time.sleep(0.01)
    return on.lines()[before:]


def asked(method, target, body="", key="x-access-key: green$k1\r\n", secret="greensecret"):
    return f"{method} {target} HTTP/1.1\r\nhost: h\r\n{key}x-secret-key: {secret}\r\ncontent-length: {len(body)}\r\n\r\n{body}"


LOGGED = [
    ("a put", asked("PUT", "/plans/log", "abc"), "green PUT /plans/log 200 -"),
    ("a get", asked("GET", "/plans/log"), "green GET /plans/log 200 -"),
    ("a query", asked("GET", "/plans?location&x=1"), "green GET /plans?location&x=1 501 2_NotImplemented"),
    ("a get of nothing", asked("GET", "/plans/none"), "green GET /plans/none 404 13_NoSuchKey"),
    ("another secret", asked("GET", "/plans/log", secret="greensecreT"), "green GET /plans/log 403 5_AccessDenied"),
    ("no key", asked("GET", "/plans/log", key=""), "- GET /plans/log 403 5_AccessDenied"),
    ("two keys", asked("GET", "/plans/log", key="x-access-key: green$k1\r\n" * 2), "- GET /plans/log 403 5_AccessDenied"),
    ("a key of no tenant", asked("GET", "/plans/log", key="x-access-key: greensecret\r\n"), "- GET /plans/log 403 6_InvalidAccessKeyId"),
    ("a long target", asked("GET", "/plans/" + "k" * 300), "green GET /plans/" + "k" * 193 + " 404 13_NoSuchKey"),
    ("a target that isn't ASCII", asked("GET", "/plans/\u00e9"), "green GET /plans/\\xc3\\xa9 404 13_NoSuchKey"),
    ("a target with a control byte", asked("GET", "/plans/\x01"), "- - - 400 1_BadRequest"),
    ("a head without a request", "x-secret-key: greensecret\r\n\r\n", "- - - 400 1_BadRequest"),
    ("half a body", asked("PUT", "/plans/log", "abc")[:-1], "green PUT /plans/log 400 27_IncompleteBody"),
]


def test_log(expect, program, file):
    with Served(program, file, "--log") as on:
        on.get("PUT", "/plans", b"")
        logged_after(on, 0, 2)
        for name, text, wanted in LOGGED:
            before, answer = len(on.lines()), on.exchange(text.encode())
            told = logged_after(on, before, 1)
            line = rf"\d{{4}}-\d\d-\d\dT\d\d:\d\d:\d\dZ {re.escape(wanted)} {len(text.encode())} {len(answer)} \d+"
            expect(name, len(told) == 1 and re.fullmatch(line, told[0]) is not None, f"{told}, not {line}")
        before = len(on.lines())
        on.reset(head("PUT", "/plans/log", 10)[:20])
        on.get("HEAD", "/plans")
        told = logged_after(on, before, 2)
        expect("a client that breaks off", len(told) == 2 and re.fullmatch(r"\S+ - (- -|PUT /plans/log) - - \d+ 0 \d+", told[0]) is not None, f"{told}")
        expect("no secret is in the log", not any("secret" in line.lower() for line in on.lines()), f"{on.lines()}")


def test_ends(expect, program, file):
    """A server's own end, and one that can't begin."""
    on = Served(program, file, count=2)
    on.get("HEAD", "/plans")
    on.get("HEAD", "/plans")
    out, _ = on.process.communicate(timeout=PATIENCE)
    told = (on.process.returncode, out, on.lines())
    expect("two connections, and its end", told == (0, b"", [f"listening on 127.0.0.1:{on.port}"]), f"{told}")
    with socket.create_server(("127.0.0.1", 0)) as taken:
        port = taken.getsockname()[1]
        done = subprocess.run([program, "serve", "--file", file, "--port", str(port), "--count", "1"], capture_output=True, text=True, timeout=PATIENCE)
    wanted = (1, "fault\n", f"bucketd: unable to listen on 127.0.0.1:{port}: Address already in use (os error 98)\n")
    expect("a port that is taken", (done.returncode, done.stdout, done.stderr) == wanted, f"{done}")
    told = command(program, file + "-missing", "serve", "--port", str(port), "--count", "1")
    expect("a file without a host", told == ("47 NotAHostFile", 1), f"{told}")


@pytest.mark.parametrize("name", ["first-path", "ranges", "head-limits"])
@pytest.mark.cost(20)
def test_script(expect, program, folder, name):
    """A stored script: its commands by subcommands, its requests over sockets."""
    host = os.path.join(folder, name)
    command(program, host, "init")
    events = [json.loads(line) for line in open(os.path.join(SCRIPTS, f"{name}.in"), encoding="utf-8")]
    told = [command(program, host, *event_words(it), "--force")[0].encode() for it in events if "op" in it]
    with Served(program, host) as on:
        told += [on.exchange(it["http"].encode()) for it in events if "http" in it]
    expect("its answers", b"".join(it + b"\n" for it in told) == read(SCRIPTS, f"{name}.out"), told)
