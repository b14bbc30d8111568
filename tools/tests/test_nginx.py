"""Debian's nginx-light, as deploy/nginx.conf sets it, before `bucketd serve`: whether what goes through is what the host says, and
whether a good GET is answered while others are slow.

The large object has 4 MiB, and 19 good GETs of 20 have 200 ms each, with --full all of them. Of a program that is slow (one without
a proof, or built by Rattle's own compiler): 32 KiB, fewer slow clients, and only the times are told.
"""
import os
import shutil
import socket
import ssl
import subprocess
import threading
import time
from http.client import HTTPConnection, HTTPSConnection

import pytest

from conftest import need
from host import PATIENCE, TOP, Server, await_listener, connected, free_port, is_fast, make_host, quick_folder, request

CREDENTIALS = {"x-access-key": "green$k1", "x-secret-key": "greensecret"}
MAX_BODY = 16 << 20
SECONDS = 15
# What a good GET may take; on a machine so busy that it takes longer with nobody else there, four times that.
MOST_MS = 200
# nginx's words of its own answers, and those that a proxy sets for itself (RFC 9110, section 7.6).
OWN_FIELDS = ("server", "date", "connection")
AROUND = """daemon off; worker_processes 2; {user}pid {at}/pid; error_log {at}/error.log;
events {{ worker_connections 1024; }}
http {{ access_log off; client_body_temp_path {at}/body; proxy_temp_path {at}/proxy; fastcgi_temp_path {at}/t1; uwsgi_temp_path {at}/t2;
scgi_temp_path {at}/t3; include {at}/site.conf; }}
"""


def fields_of(more):
    return {**CREDENTIALS, **{name.replace("_", "-"): value for name, value in more.items()}}


def ask(connection, method, target, body=None, **more):
    """Status, fields and body of the answer."""
    connection.request(method, target, body, fields_of(more))
    answer = connection.getresponse()
    data = answer.read()
    connection.close()
    return answer.status, {name.lower(): value for name, value in answer.getheaders()}, data


class Host(Server):
    """bucketd serve on a file, asked as nginx before it is."""

    def ask(self, method, target, body=None, **more):
        return ask(HTTPConnection("127.0.0.1", self.port, timeout=PATIENCE), method, target, body, **more)


class Front:
    """nginx as deploy/nginx.conf has it, but for ports and certificate."""

    def __init__(self, folder, host):
        self.port, self.folder = free_port(), folder
        self.certify()
        with open(os.path.join(TOP, "deploy/nginx.conf")) as conf, open(os.path.join(folder, "site.conf"), "w") as out:
            out.write(self.placed(conf.read(), host))
        # A master that is root has its workers be root too, so that they may write here.
        user = "user root; " if os.geteuid() == 0 else ""
        with open(os.path.join(folder, "nginx.conf"), "w") as out:
            out.write(AROUND.format(user=user, at=folder))
        self.process = subprocess.Popen(["nginx", "-c", os.path.join(folder, "nginx.conf")], stderr=subprocess.DEVNULL)
        assert await_listener(self.process, self.port)

    def certify(self):
        """A certificate of its own for 127.0.0.1, that clients are told to trust."""
        key, certificate = (os.path.join(self.folder, name) for name in ("key.pem", "fullchain.pem"))
        subprocess.run(["openssl", "req", "-x509", "-newkey", "ec", "-pkeyopt", "ec_paramgen_curve:prime256v1", "-nodes", "-days", "2",
                        "-subj", "/CN=bucketd test", "-addext", "subjectAltName=IP:127.0.0.1", "-keyout", key, "-out", certificate],
                       check=True, capture_output=True)
        self.context = ssl.create_default_context(cafile=certificate)

    def placed(self, conf, host):
        for old, new in (("server 127.0.0.1:8080;", f"server 127.0.0.1:{host.port};"), ("listen 443 ssl;", f"listen 127.0.0.1:{self.port} ssl;"),
                         ("    listen [::]:443 ssl;\n", ""), ("/etc/ssl/bucketd/fullchain.pem", f"{self.folder}/fullchain.pem"),
                         ("/etc/ssl/bucketd/key.pem", f"{self.folder}/key.pem")):
            assert conf.count(old) == 1, f"deploy/nginx.conf has '{old.strip()}' {conf.count(old)} times"
            conf = conf.replace(old, new)
        return conf

    def ask(self, method, target, body=None, **more):
        return ask(HTTPSConnection("127.0.0.1", self.port, timeout=PATIENCE, context=self.context), method, target, body, **more)

    def socket(self, room=None):
        return self.context.wrap_socket(connected(self.port, room=room), server_hostname="127.0.0.1")

    def end(self):
        self.process.terminate()
        self.process.wait()


def head(method, target, *fields):
    return request("green", method, target, None, fields)


def rest_of(it):
    pieces = list(iter(lambda: it.recv(65536), b""))
    it.close()
    return b"".join(pieces)


@pytest.fixture(scope="module")
def both(program):
    """A host and an nginx before it."""
    need("nginx", "openssl")
    folder, found = quick_folder("nginx-"), []
    os.chmod(folder, 0o755)
    try:
        found.append(Host(program, make_host(program, os.path.join(folder, "host"), ["green"])))
        assert found[0].ask("PUT", "/plans", b"")[0] == 200
        found.append(Front(folder, found[0]))
        yield found
    finally:
        for it in found[::-1]:
            it.end()
        shutil.rmtree(folder)


@pytest.fixture
def host(both):
    return both[0]


@pytest.fixture
def front(both):
    return both[1]


# All of these are one after another, on one worker.
pytestmark = pytest.mark.xdist_group("nginx")


def large_of(program):
    return 4 << 20 if is_fast(program) else 32 << 10


def test_tls(expect, front):
    expect("TLS 1.2 or 1.3", front.socket().version() in ("TLSv1.2", "TLSv1.3"))
    with socket.create_connection(("127.0.0.1", front.port), 60) as it:
        it.sendall(head("GET", "/plans/none"))
        answer = it.recv(65536)
    expect("a request without TLS is refused", answer.startswith(b"HTTP/1.1 400 "), answer[:100])


def test_same_answers(expect, host, front):
    """Each of these is answered through nginx as it is without."""
    host.ask("PUT", "/plans/x", b"abcdef")
    for name, method, target, body, more in (
        ("a get", "GET", "/plans/x", None, {}), ("a head", "HEAD", "/plans/x", None, {}), ("a range", "GET", "/plans/x", None, {"range": "bytes=1-3"}),
        ("a range past the end", "GET", "/plans/x", None, {"range": "bytes=9-"}), ("a listing", "GET", "/plans?list-type=2&prefix=a%2Fb", None, {}),
        ("a put", "PUT", "/plans/y", b"y", {}), ("a delete", "DELETE", "/plans/y", None, {}), ("another secret", "GET", "/plans/x", None, {"x_secret_key": "no"}),
        ("an operation that isn't there", "GET", "/plans", None, {}), ("a key that isn't there", "HEAD", "/plans/none", None, {}),
    ):
        answers = []
        for it in (host, front):
            host.ask("PUT", "/plans/y", b"y")
            status, fields, data = it.ask(method, target, body, **more)
            answers.append((status, {field: value for field, value in fields.items() if field not in OWN_FIELDS}, data))
        expect(f"{name} is answered as the host does", answers[0] == answers[1], answers)


def test_targets(expect, front):
    """A target comes to the host as it was sent: its refusals name it."""
    for path in ("/plans/none//a", "/plans/none%2Fa", "/plans/none%2fa", "/plans/%6Eone", "/plans/none/./a", "/plans/none/../a", "/plans/a%20b+c", "//plans/none",
                 "/plans/%C3%A9%3F%23%25"):
        answer = front.ask("GET", path)
        expect(f"the path {path}", b'"Resource":"%s"' % path.encode() in answer[2], answer)
    for key in ("a//b", "a/b", "/a"):
        front.ask("PUT", f"/plans/{key}", key.encode())
    answers = [front.ask("GET", f"/plans/{key}")[2] for key in ("a//b", "a%2F%2Fb", "a%2Fb", "%2Fa")]
    expect("keys with // and %2F are kept apart", answers == [b"a//b", b"a//b", b"a/b", b"/a"], answers)
    expect("above the top nginx answers itself", front.ask("GET", "/plans/../../a")[0] == 400)
    # A head has 64 fields at most, and the host counts all that came.
    answer = front.ask("GET", "/plans/none", **{f"x.{n}__": "1" for n in range(64)})
    expect("fields of odd names come to the host", "x-refusal" in answer[1] and answer[1]["x-refusal"] == "1 BadRequest", answer)


def chunks(data):
    for at in range(0, len(data), 10_000):
        yield data[at : at + 10_000]


def test_bodies(expect, program, front):
    data = os.urandom(large_of(program))
    answer = front.ask("PUT", "/plans/chunked", chunks(data))
    expect("a chunked upload", answer[0] == 200, answer)
    answer = front.ask("GET", "/plans/chunked")
    expect("a chunked upload is the object", answer[2] == data, f"{answer[0]}, {len(answer[2])} bytes")
    begun = time.monotonic()
    it = front.socket()
    it.sendall(head("PUT", "/plans/expected", "content-length: 3", "expect: 100-continue"))
    answer = it.recv(65536)
    took = time.monotonic() - begun
    it.sendall(b"abc")
    end = it.recv(65536)
    it.close()
    expect("100-continue at once", answer.startswith(b"HTTP/1.1 100 ") and end.startswith(b"HTTP/1.1 200 ") and took < 30, f"{answer}, {end}, {took:.2f} s")
    it = front.socket()
    it.sendall(head("PUT", "/plans/great", f"content-length: {MAX_BODY + 1}", "connection: close"))
    answer = rest_of(it)
    expect("a body above the host's limit", answer.startswith(b"HTTP/1.1 413 "), answer[:100])


class Slow(threading.Thread):
    """A client of its own speed. What it found is in `answer`."""

    def __init__(self, act, front, number, stop):
        super().__init__(daemon=True)
        self.act, self.front, self.number, self.stop, self.answer = act, front, number, stop, None

    def run(self):
        try:
            self.answer = self.act(self)
        except OSError as error:
            self.answer = repr(error).encode()


def body_of(number):
    return b"%4d" % number * 10_000


def sends_slowly(self):
    """Its body in pieces of 500 bytes, two a second, and the rest once it may."""
    it, data = self.front.socket(), body_of(self.number)
    it.sendall(head("PUT", f"/plans/slow/{self.number}", f"content-length: {len(data)}", "connection: close"))
    while not self.stop.wait(0.5):
        it.sendall(data[:500])
        data = data[500:]
    it.sendall(data)
    return rest_of(it)


def reads_slowly(self):
    """A large object, 500 bytes twice a second, and the rest once it may."""
    it = self.front.socket(room=4096)
    it.sendall(head("GET", "/plans/large", "connection: close"))
    data = b""
    while not self.stop.wait(0.5):
        data += it.recv(500)
    return data + rest_of(it)


def sends_bytes(self):
    """Head and body a byte a second, and the rest once it may."""
    it, data = self.front.socket(), b"abcdefghij" * 100
    data = head("PUT", "/plans/bytes", f"content-length: {len(data)}", "connection: close") + data
    while not self.stop.wait(1):
        it.sendall(data[:1])
        data = data[1:]
    it.sendall(data)
    return rest_of(it)


class Good(threading.Thread):
    """A client that gets a small object, again and again, and notes how many milliseconds each took."""

    def __init__(self, front, good):
        super().__init__(daemon=True)
        self.front, self.good, self.stop, self.times, self.other = front, good, threading.Event(), [], None

    def run(self):
        while not self.stop.wait(0.01) and self.other is None:
            begun = time.monotonic()
            answer = self.front.ask("GET", "/plans/good")
            self.times.append(1000 * (time.monotonic() - begun))
            self.other = None if answer[2] == self.good else answer

    def ended(self, expect, full):
        """The longest time of 19 gets of 20, or of all where the test is full, once it has ended."""
        self.stop.set()
        self.join()
        times = sorted(self.times)
        expect.note(f"{len(times)} good GETs, median {times[len(times) // 2]:.1f} ms, longest {times[-1]:.1f} ms")
        return times[-1 if full else len(times) * 19 // 20]


def pace_of(front, large):
    """The seconds between two clients, so that a host that sends each of them a large object has two thirds of its time left."""
    begun = time.monotonic()
    for _ in range(4):
        if front.ask("GET", "/plans/large")[2] != large:
            return 0
    return min(1, max(0.02, 3 * (time.monotonic() - begun) / 4))


def comes(expect, clients, pace):
    """Clients come one after another, and all stay for a while."""
    for client in clients:
        client.start()
        time.sleep(pace / 2)
    time.sleep(SECONDS)
    expect("none of them has ended meanwhile", all(it.is_alive() for it in clients), [it.answer[:100] for it in clients if it.answer])


@pytest.mark.cost(90)
def test_slow_clients(expect, program, full, host, front):
    """Good GETs go on from before the first slow client has come to before they end."""
    large, good, many, fast = os.urandom(large_of(program)), os.urandom(1000), 50 if is_fast(program) else 10, is_fast(program)
    for key, data in (("large", large), ("good", good)):
        front.ask("PUT", f"/plans/{key}", data)
    pace = pace_of(front, large)
    client = Good(front, good)
    client.start()
    time.sleep(3)
    most = max(MOST_MS, 4 * client.ended(expect, True)) if fast else float("inf")
    expect("good GETs alone", client.other is None, client.other)
    stop = threading.Event()
    slow = [Slow(act, front, number, stop) for number in range(many) for act in (sends_slowly, reads_slowly)] + [Slow(sends_bytes, front, 0, stop)]
    client = Good(front, good)
    client.start()
    comes(expect, slow, pace)
    took, turns = client.ended(expect, full), 1
    while took >= most and client.other is None and turns < 3:
        # Other work on the machine may have been what held it up: it doesn't three times.
        client, turns = Good(front, good), turns + 1
        client.start()
        time.sleep(SECONDS)
        took = client.ended(expect, full)
    name = f"good GETs beside {many} that send slowly, {many} that read slowly and one of a byte a second"
    expect(name, client.other is None and took < most, client.other or f"{took:.0f} ms, at attempt {turns}")
    stop.set()
    for it in slow:
        it.join()
    answered(expect, host, slow, large, many)


def answered(expect, host, slow, large, many):
    """Once they are as fast as others, slow clients have what they asked for."""
    answers = [it.answer for it in slow if it.act is reads_slowly]
    expect("those that read slowly have their object", all(it.startswith(b"HTTP/1.1 200 ") and it.endswith(large) for it in answers), [f"{it[:60]}.. {len(it)} bytes" for it in answers if not it.endswith(large)])
    answers = [it.answer for it in slow if it.act is sends_slowly]
    stored = all(host.ask("GET", f"/plans/slow/{number}")[2] == body_of(number) for number in range(many))
    expect("those that send slowly are stored", stored and all(it.startswith(b"HTTP/1.1 200 ") for it in answers), [it[:100] for it in answers])
    data = host.ask("GET", "/plans/bytes")[2]
    expect("and the one of a byte a second", slow[-1].answer.startswith(b"HTTP/1.1 200 ") and data == b"abcdefghij" * 100, slow[-1].answer[:100])


def test_restart(expect, program, both):
    host, front = both
    front.ask("PUT", "/plans/x", b"abcdef")
    host.end()
    answer = front.ask("GET", "/plans/x")
    expect("without a host it is 502", answer[0] == 502, answer)
    both[0] = Host(program, os.path.join(front.folder, "host"), port=host.port)
    answer = front.ask("GET", "/plans/x")
    expect("and once it is there again", answer[2] == b"abcdef", answer)
