"""An operator's lines to `bucketd serve` while it serves: each command beside requests, bad input, secrets, turns, and the log."""
import json
import os
import re
import socket
import subprocess
import threading
import time

import pytest

from host import PATIENCE, Clock, all_of, is_fast, make_host, request, run
from test_serve import BUSY, Served

SECRET = "Correct;horse:9battery"


class Operated(Served):
    """A server with a port for operators, and what is told it there."""

    def __init__(self, program, file, *options, **more):
        super().__init__(program, file, "--operator-port", "0", *options, **more)
        self.program, self.door = program, self.operators()

    def operator(self):
        it = socket.create_connection(("127.0.0.1", self.door), PATIENCE)
        it.settimeout(PATIENCE)
        return it

    def send(self, data, closes=False):
        """What is answered to bytes; as much as comes where the connection breaks."""
        with self.operator() as it:
            try:
                it.sendall(data)
                if closes:
                    it.shutdown(socket.SHUT_WR)
            except OSError:
                pass
            return all_of(it)

    def order(self, **members):
        return self.send(json.dumps(members).encode() + b"\n").decode()

    def tell(self, line, *more, given=None):
        line = line if isinstance(line, str) else json.dumps(line)
        told, status, _ = run(self.program, None, "tell", "--port", str(self.door), *more, line, given=given)
        return told, status

    def ask_as(self, tenant, secret, method, path, body=None):
        return self.ask(tenant, method, path, body, secret=secret).status


@pytest.fixture
def file(program, folder):
    return make_host(program, os.path.join(folder, "host"), ["green"])


@pytest.fixture
def it(program, file):
    with Operated(program, file) as it:
        it.get("PUT", "/plans", b"")
        yield it


@pytest.fixture
def blue(it):
    """The same with another tenant, who has no key."""
    assert it.order(op="tenant-add", tenant="blue", quota=200000) == "tenant blue\n"
    return it


def loaded(it, ends, counts, slot):
    """Requests of one client, until it is to end."""
    while not ends.is_set():
        path = f"/plans/load{slot}"
        counts[slot] += it.get("PUT", path, b"load" * 100)[0] == 200
        counts[slot] += it.get("GET", path)[0] == 200


class Load:
    """Clients that ask all the time."""

    def __init__(self, it, clients):
        self.ends, self.counts = threading.Event(), [0] * clients
        self.threads = [threading.Thread(target=loaded, args=(it, self.ends, self.counts, slot)) for slot in range(clients)]
        for thread in self.threads:
            thread.start()

    def end(self):
        self.ends.set()
        for thread in self.threads:
            thread.join()
        return sum(self.counts)


ORDERS = [
    ("tenant-add", "--tenant", "blue", "--quota", "100000"),
    ("tenant-add", "--tenant", "blue", "--quota", "1"),
    ("tenant-add", "--tenant", "Gr$en", "--quota", "1"),
    ("quota", "--tenant", "blue", "--quota", "18446744073709551615"),
    ("quota", "--tenant", "blue", "--quota", "200000"),
    ("key-add", "--tenant", "blue", "--name", "k2", "--secret", 'quoted"\\secret'),
    ("key-add", "--tenant", "blue", "--name", "k3", "--secret", "-"),
    ("key-add", "--tenant", "blue", "--name", "k3", "--secret", "short"),
    ("keys", "--tenant", "blue"),
    ("key-remove", "--tenant", "blue", "--name", "k2"),
    ("key-remove", "--tenant", "blue", "--name", "k2"),
    ("usage", "--tenant", "blue"),
    ("usage", "--tenant", 'a "name"\n{}'),
    ("tenant-remove", "--tenant", "none", "--with-objects"),
    ("tenant-remove", "--tenant", "Gr$en"),
    ("tenants",),
    ("tenant-remove", "--tenant", "blue"),
    ("tenant-remove", "--tenant", "blue", "--with-objects"),
    ("keys", "--tenant", "blue"),
    ("report",),
    ("sweep", "--limit", "4294967295"),
]


def test_one_language(program, folder, expect):
    """Each order on a file, and told to a server of an equal file by port, by socket and by the environment."""
    secret = os.path.join(folder, "secret")
    with open(secret, "w", opener=lambda path, flags: os.open(path, flags, 0o600)) as out:
        out.write(SECRET + "\n")
    files = [make_host(program, os.path.join(folder, name), ["green"]) for name in ("host", "by_port", "by_socket", "by_environment")]
    wanted = [run(program, None, *order, "--file", files[0], given="greensecret\n")[:2] for order in ORDERS]
    door = os.path.join(folder, "door")
    for file, listens_on in ((files[1], "--operator-port"), (files[2], "--operator-socket"), (files[3], None)):
        socket_given = listens_on == "--operator-socket"
        serve = ("--operator-socket", door) if socket_given else ("--operator-port", "0")
        with Served(program, file, *serve, "--operator-secret-file", secret) as it:
            more, environment = [], {}
            if socket_given:
                more = ["--operator-socket", door, "--operator-secret-file", secret]
            else:
                port = str(it.operators())
                if listens_on:
                    more = ["--operator-port", port, "--operator-secret-file", secret]
                else:
                    environment = {"BUCKETD_OPERATOR_PORT": port, "BUCKETD_OPERATOR_SECRET_FILE": secret}
            for order, was in zip(ORDERS, wanted):
                told = run(program, None, *order, *more, given="greensecret\n", **environment)[:2]
                expect(f"{' '.join(order)} to a server: {listens_on}", told == was, f"{told} {was}")
            copy = file + ".copy"
            told = run(program, None, "backup", "--to", copy, *more, **environment)[:2]
            expect(f"a backup by a server: {listens_on}", told == ("backup", 0) and os.path.exists(copy), told)
            told = run(program, None, "tenants", *[word for word in more if word not in ("--operator-secret-file", secret)],
                       **{name: value for name, value in environment.items() if "SECRET" not in name})[:2]
            expect(f"no order without the secret: {listens_on}", told == ("bad line", 1), told)
    both = {"BUCKETD_FILE": files[0], "BUCKETD_OPERATOR_PORT": "1"}
    told = run(program, None, "tenants", BUCKETD_FILE=files[0])[:2]
    expect("a file of the environment", told == run(program, None, "tenants", "--file", files[0])[:2], told)
    told = run(program, None, "tenants", "--file", files[0], **{**both, "BUCKETD_FILE": "none"})[:2]
    expect("a typed file wins", told[1] == 0, told)
    expect("a file and a server of the environment", run(program, None, "tenants", **both)[1] == 2, None)
    for port in ("", "none", "65536", "-1"):
        told = run(program, None, "tenants", BUCKETD_OPERATOR_PORT=port)
        expect(f"a port of the environment that is none: {port!r}", told[1] == 2, told)
    foreign = {"BUCKETD_FILE": os.fsdecode(b"\xff")}
    told = run(program, None, "tenants", **foreign)
    expect("a file of the environment that is no text", told[:2] == ("fault", 1) and "UTF-8" in told[2], told)
    told = run(program, None, "tenants", "--quota", "1", **foreign)
    expect("words that tell no command come before it", told[1] == 2, told)


def test_each_line(it, expect):
    """Each of an operator's lines while four clients ask."""
    load = Load(it, 4)
    lines = [
        ({"op": "tenant-add", "tenant": "blue", "quota": 100000}, "tenant blue\n"),
        ({"op": "tenant-add", "tenant": "blue", "quota": 1}, "41 TenantExists\n"),
        ({"op": "quota", "tenant": "blue", "quota": 200000}, "quota blue 200000\n"),
        ({"op": "key-add", "tenant": "blue", "name": "k1", "secret": "bluesecret"}, "key blue$k1\n"),
        ({"op": "usage", "tenant": "blue"}, "usage blue bytes 0 quota 200000\n"),
        ({"op": "usage", "tenant": "none"}, "42 NoSuchTenant\n"),
        ({"op": "keys", "tenant": "blue"}, "keys blue 1 k1\n"),
        ({"op": "keys", "tenant": "none"}, "42 NoSuchTenant\n"),
    ]
    for members, wanted in lines:
        told = it.order(**members)
        expect(f"an operator's line while requests come: {members['op']} {wanted.split()[0]}", told == wanted, told)
    status = [it.ask_as("blue", "bluesecret", "PUT", "/papers", b""), it.ask_as("blue", "bluesecret", "PUT", "/papers/x", b"12345")]
    expect("a key that was added while it serves is used at once", status == [200, 200], f"{status}")
    told = it.order(op="usage", tenant="blue", at=5)
    expect("an `at` in a line doesn't count", told == "usage blue bytes 5 quota 200000\n", told)
    it.ask_as("blue", "bluesecret", "DELETE", "/papers/x")
    told = it.order(op="tenants")
    expect("all tenants while it serves", re.fullmatch(r"tenants \d+( [a-z0-9]+ bytes \d+ quota \d+ keys \d+)+\n", told) is not None and " blue bytes 0 quota 200000 keys 1" in told, told)
    told = it.order(op="report")
    expect("a report while it serves", re.fullmatch(r"blocks \d+ stored \d+ referred \d+ clashes 0\n", told) is not None, told)
    told = it.order(op="sweep", limit=100000)
    expect("a sweep while it serves", re.fullmatch(r"sweep uploads 0 blocks [1-9]\d* (complete|partial)\n", told) is not None, told)
    told = it.order(op="key-remove", tenant="blue", name="k1")
    status = it.ask_as("blue", "bluesecret", "HEAD", "/papers")
    expect("a key that was removed while it serves is of no use at once", (told, status) == ("removed blue$k1\n", 403), f"{told} {status}")
    expect("requests go on meanwhile", load.end() > 0)


def test_tell(blue, expect):
    """The same by `bucketd tell`."""
    for line, wanted in (
        ({"op": "usage", "tenant": "blue"}, ("usage blue bytes 0 quota 200000", 0)),
        ({"op": "quota", "tenant": "blue", "quota": 1 << 61}, ("46 InvalidQuota", 1)),
        ({"op": "keys", "tenant": "blue"}, ("keys blue 0", 0)),
        ('{\n  "op": "usage",\n  "tenant": "blue"\n}', ("usage blue bytes 0 quota 200000", 0)),
        ("usage blue", ("bad line", 1)),
        ({"http": "GET / HTTP/1.1\r\n\r\n"}, ("bad line", 1)),
    ):
        told = blue.tell(line)
        expect(f"bucketd tell: {str(line)[:40]!r}", told == wanted, f"{told}")


def test_tell_by_standard_input(blue, expect):
    told = blue.tell("-", given='{"op":"usage","tenant":"blue"}\n{"op":"usage","tenant":"none"}\n')
    expect("bucketd tell of the first line of standard input", told == ("usage blue bytes 0 quota 200000", 0), f"{told}")
    told = blue.tell("-", given="")
    expect("bucketd tell of no standard input", told == ("bad line", 1), f"{told}")


def test_bad_input(blue, expect):
    it, timeout = blue, blue.timeout
    before = it.order(op="usage", tenant="blue")
    add = b'{"op":"tenant-add","tenant":"bad","quota":1}'
    cases = [
        ("a line of 1 MB", b'{"op":"tenant-add","tenant":"bad","quota":1' + b" " * (1 << 20) + b"}\n", True),
        ("a line of 16,385 bytes", add[:-1] + b" " * (16384 - len(add)) + b"}\n", True),
        ("half a line, and the end", add[:20], True),
        ("a whole object without a line feed, and the end", add, True),
        ("an empty line", b"\n", False),
        ("bytes that are no UTF-8", b'{"op":"tenant-add","tenant":"\xff","quota":1}\n', False),
        ("a request", b"GET /plans HTTP/1.1\r\nhost: h\r\n\r\n", False),
        ("a request of a script", b'{"http":"GET /plans HTTP/1.1\\r\\n\\r\\n"}\n', False),
        ("a member too many", add[:-1] + b',"more":1}\n', False),
        ("two objects", add + add + b"\n", False),
    ]
    for name, data, closes in cases:
        told = it.send(data, closes)
        # A socket that is closed with bytes unread may take the reply from whoever sent too many.
        expect(f"bad input: {name}", told == b"bad line\n" or (len(data) > 16384 and told == b""), f"{told!r}")
    begun = time.monotonic()
    told = it.send(b'{"op":"report"')
    took = time.monotonic() - begun
    expect("bad input: no line within --timeout", told == b"" and 0.9 * timeout <= took < timeout + BUSY, f"{told!r} after {took:.1f} s")
    longest = add[:-1].replace(b"bad", b"longest") + b" " * (16384 - len(add) - 5) + b"}\n"
    told = it.send(longest)
    expect("a line of 16,384 bytes", (len(longest), told) == (16384, b"tenant longest\n"), f"{len(longest)} {told!r}")
    expect("nothing of bad input was applied", it.order(op="usage", tenant="bad") == "42 NoSuchTenant\n")
    expect("serving goes on after bad input", it.get("HEAD", "/plans")[0] == 200 and it.order(op="usage", tenant="blue") == before)
    first, second = it.operator(), it.operator()
    second.sendall(b'{"op":"usage","tenant":"blue"}\n')
    first.sendall(b'{"op":"usage","tenant":"none"}\n')
    told = [each.makefile("rb").read() for each in (first, second)]
    expect("two operators at once", told == [b"42 NoSuchTenant\n", before.encode()], f"{told}")


def test_public_port(it, expect):
    line = b'{"op":"tenant-add","tenant":"public","quota":1}\n'
    answer = it.exchange(line + b"\r\n\r\n")
    told = it.order(op="usage", tenant="public")
    expect("an operator's line on the public port", answer.startswith(b"HTTP/1.1 400 ") and told == "42 NoSuchTenant\n", f"{answer} {told}")
    for op in OWN:
        answer = it.exchange(b'{"op":"%s"}\n\r\n\r\n' % op.encode())
        expect(f"{op} on the public port", answer.startswith(b"HTTP/1.1 400 ") and not any(word in answer for word in (b"health ok", b"bucketd_server", b"accepted")), answer)
    expect("the server goes on after these", it.get("HEAD", "/plans")[0] == 200)


def test_turns(blue, expect):
    """Lines one after another beside eight clients: neither starves the other."""
    load, took, ends = Load(blue, 8), [], time.monotonic() + 3
    while time.monotonic() < ends:
        begun = time.monotonic()
        blue.order(op="usage", tenant="blue")
        took.append((time.monotonic() - begun) * 1000)
        time.sleep(0.01)
    count = load.end()
    took.sort()
    expect.note(f"{len(took)} lines, {took[len(took) // 2]:.1f} ms in the middle and {took[-1]:.1f} at most, beside {count} requests")
    expect("lines and requests in turns", len(took) > 0 and count > 0, f"{len(took)} {count}")
    ends, lines = threading.Event(), []
    sending = [threading.Thread(target=lambda: [lines.append(blue.order(op="report")) for _ in iter(ends.is_set, True)]) for _ in range(8)]
    for thread in sending:
        thread.start()
    status = [blue.get("HEAD", "/plans")[0] for _ in range(5)]
    ends.set()
    for thread in sending:
        thread.join()
    expect("requests beside eight operators", status == [200] * 5, f"{status}")


def test_secrets(program, folder, file, expect):
    path = os.path.join(folder, "operator.secret")
    with open(os.open(path, os.O_CREAT | os.O_WRONLY, 0o600), "w") as out:
        out.write(SECRET + "\nmore\n")
    it = Operated(program, file, "--operator-secret-file", path, "--log")
    line = b'{"op":"tenant-add","tenant":"secretive","quota":1}\n'
    for name, data in (("no secret", line), ("another secret", b"Correct;horse:9batterx " + line), ("half a secret", SECRET[:8].encode() + b" " + line),
                       ("a longer secret", SECRET.encode() + b"0 " + line), ("a secret without a space", SECRET.encode() + line)):
        told = it.send(data)
        expect(f"a line with {name}", told == b"bad line\n", f"{told!r}")
    told = it.send(SECRET.encode() + b' {"op":"usage","tenant":"secretive"}\n')
    expect("a refused line isn't applied", told == b"42 NoSuchTenant\n", f"{told!r}")
    told = it.tell({"op": "key-add", "tenant": "green", "name": "k2", "secret": "anothersecret"}, "--secret-file", path)
    expect("bucketd tell with a secret", told == ("key green$k2", 0), f"{told}")
    told = it.tell({"op": "report"})
    expect("bucketd tell without it", told == ("bad line", 1), f"{told}")
    logged = [text for text in it.lines() if " operator " in text]
    wanted = r"\d{4}-\d\d-\d\dT\d\d:\d\d:\d\dZ - operator - - (-|bad_line|42_NoSuchTenant) \d+ \d+ \d+"
    expect("the log of lines", len(logged) == 8 and all(re.fullmatch(wanted, text) for text in logged), f"{logged}")
    expect("no secret of an operator is in the log", not any(SECRET[:7] in text or "secret" in text for text in it.lines()), f"{it.lines()}")
    it.end()
    words = [program, "serve", "--file", file, "--port", "0", "--operator-port", "0", "--operator-secret-file", path, "--count", "1"]
    os.chmod(path, 0o640)
    done = subprocess.run(words, cwd=folder, capture_output=True, text=True, timeout=PATIENCE)
    expect("a secret's file that others may read", (done.returncode, done.stdout) == (1, "fault\n") and "mode 0600" in done.stderr, f"{done}")
    os.chmod(path, 0o600)
    with open(path, "w") as out:
        out.write("short\n")
    done = subprocess.run(words, cwd=folder, capture_output=True, text=True, timeout=PATIENCE)
    expect("a secret of 5 characters", (done.returncode, done.stdout) == (1, "fault\n"), f"{done}")
    del words[words.index("--operator-port"):words.index("--operator-secret-file")]
    done = subprocess.run(words, cwd=folder, capture_output=True, text=True, timeout=PATIENCE)
    expect("a secret's file without a port for operators", done.returncode == 2 and "--operator-port" in done.stdout, f"{done}")


def test_counted(program, file, expect):
    it = Operated(program, file, count=2)
    told, status = it.order(op="report"), it.get("HEAD", "/plans")[0]
    it.process.communicate(timeout=PATIENCE)
    expect("a line and a request are two connections", told.startswith("blocks ") and (status, it.process.returncode) == (404, 0), f"{told} {status}")
    told = it.tell({"op": "report"})
    expect("bucketd tell where nobody listens", told == ("fault", 1), f"{told}")


def test_stop(program, folder, file, expect):
    """A server that is told to stop ends with status 0, once the answers that are due went out."""
    path = os.path.join(folder, "operator.secret")
    with open(os.open(path, os.O_CREAT | os.O_WRONLY, 0o600), "w") as out:
        out.write(SECRET + "\n")
    with Operated(program, file, "--operator-secret-file", path, timeout=60) as it:
        data = os.urandom(it.large)
        it.get("PUT", "/plans", b"")
        it.get("PUT", "/plans/large", data)
        for name, line in (("without the secret", b'{"op":"stop"}'), ("with another secret", b'Correct;horse:9batterx {"op":"stop"}'),
                           ("with a member more", SECRET.encode() + b' {"op":"stop","to":"x"}')):
            told = it.send(line + b"\n")
            expect(f"a stop {name}", told == b"bad line\n" and it.get("HEAD", "/plans")[0] == 200, f"{told!r}")
        slow = it.socket(room=4096)
        slow.sendall(request("green", "GET", "/plans/large"))
        begun = slow.recv(1000)
        told = it.send(SECRET.encode() + b' {"op":"stop"}\n')
        expect("a stop is answered", told == b"stop\n", f"{told!r}")
        answer = begun + all_of(slow)
        expect("a request that was carried out before is answered whole", answer.endswith(data), f"{len(answer)} bytes")
        out, _ = it.process.communicate(timeout=PATIENCE)
        expect("the server ends with status 0", (it.process.returncode, out) == (0, b""), f"{it.process.returncode} {out}")
    with Operated(program, file) as it:
        expect("the host opens again", it.get("GET", "/plans/large")[2] == data)
        told = it.tell({"op": "stop", "at": 5})
        it.process.communicate(timeout=PATIENCE)
        expect("bucketd tell of a stop with an `at`", (told, it.process.returncode) == (("stop", 0), 0), f"{told} {it.process.returncode}")
        told = it.tell({"op": "stop"})
        expect("a stop where nobody listens", told == ("fault", 1), f"{told}")


@pytest.mark.cost(60)
def test_many_tenants(program, folder, expect):
    """A list of tenants that is longer than any line that a host takes: 240 of the longest names are enough for that."""
    quotas = {f"t{number:031}": (1 << 59) + number for number in range(2000 if is_fast(program) else 240)}
    with Operated(program, make_host(program, os.path.join(folder, "many"), [])) as it:
        added = [it.order(op="tenant-add", tenant=tenant, quota=quota) for tenant, quota in quotas.items()]
        expect(f"{len(quotas)} tenants are added", added == [f"tenant {tenant}\n" for tenant in quotas], added[-1])
        told = it.order(op="tenants")
        found = {tenant: int(quota) for tenant, quota in re.findall(r" (t\d+) bytes 0 quota (\d+) keys 0", told)}
        expect("all of them are told", len(told) > 16384 and found == quotas, f"{len(told)} {told[:100]}")
        printed = it.tell({"op": "tenants"})
        expect("and printed by bucketd tell", printed == (told.removesuffix("\n"), 0), f"{printed[1]} {printed[0][:100]}")


OWN = ("stop", "health", "metrics", "clock-accept")


def figures(page):
    """The names in a page of Prometheus' text format, with their numbers."""
    return {name: float(number) for name, number in re.findall(r"^([a-z_]+(?:\{[^}]*\})?) ([0-9.]+)$", page, re.M)}


def test_about_itself(program, file, expect):
    """What a server tells of itself: its lines change nothing, aren't logged, and don't count as served."""
    begun = int(time.time())
    with Operated(program, file, "--log", count=4) as it:
        told = it.tell({"op": "health"})
        expect("health", told == ("health ok", 0), f"{told}")
        expect("no timestamp before a request", "last_stamp" not in it.order(op="metrics"))
        told = it.order(op="clock-accept")
        expect("a clock that isn't ahead is accepted", re.fullmatch(r"accepted (\d+)\n", told) and begun <= int(told.split()[1]) <= time.time(), told)
        asked = [it.get("PUT", "/plans", b"")[0], it.get("PUT", "/plans/a", b"x" * 3000)[0], it.get("GET", "/plans/none")[0]]
        page = it.order(op="metrics", at=5)
        found, name = figures(page), 'bucketd_server_requests_total{method="%s",status="%s"}'
        counts = [found.get(name % of) for of in (("PUT", "2xx"), ("GET", "4xx"), ("GET", "2xx"), ("other", "none"))]
        expect("metrics count requests", asked == [200, 200, 404] and counts == [2, 1, 0, 0], f"{asked} {page}")
        times = [found.get(f"bucketd_server_request_seconds_{of}") for of in ("count", 'bucket{le="+Inf"}', 'bucket{le="30.000"}')]
        expect("and their times", times == [3, 3, 3] and found.get("bucketd_server_request_seconds_sum", -1) >= 0, page)
        bytes_found = [found.get(f"bucketd_server_{of}_bytes_total", 0) for of in ("received", "sent")]
        expect("and their bytes", 3000 < bytes_found[0] < 6000 and 100 < bytes_found[1] < 6000, f"{bytes_found}")
        sizes = [os.path.getsize(file + tail) for tail in ("", "-wal")]
        expect("and tell the sizes of the host's files", [found.get(f"bucketd_server_{of}_bytes") for of in ("file", "log")] == sizes, f"{sizes} {page}")
        expect("and the last timestamp", begun <= found.get("bucketd_server_last_stamp_seconds", 0) <= time.time(), f"{begun} {page}")
        expect("no name of a tenant, bucket or object is in them", not any(word in page for word in ("green", "plans")), page)
        port = {"BUCKETD_OPERATOR_PORT": str(it.door)}
        for name, words, environment in (("by its port", ["--operator-port", str(it.door)], {}), ("by the environment", [], port),
                                         ("whose file doesn't count", [], {**port, "BUCKETD_FILE": file})):
            told = run(program, None, "health", *words, **environment)[:2]
            expect(f"bucketd health {name}", told == ("health ok", 0), f"{told}")
            told = run(program, None, "metrics", *words, **environment)[:2]
            expect(f"bucketd metrics {name}", told[1] == 0 and figures(told[0]).keys() == found.keys(), f"{told}")
        for line in ({"op": "health", "more": 1}, {"op": "metrics", "at": "now"}, {"op": "Health"}):
            # (the first of them is the last request that counts)
            told = it.tell(line)
            expect(f"bad form: {line}", told in (("bad line", 1), ("fault", 1)), f"{told}")
        it.process.communicate(timeout=PATIENCE)
        expect("three requests and one bad line are four", it.process.returncode == 0, it.process.returncode)
        logged = [text for text in it.lines() if " operator " in text]
        expect("only the bad line is logged", len(logged) == 1 and "bad_line" in logged[0], f"{logged}")


def test_stop_beside_a_backup(program, folder, file, expect):
    """A stop that comes while a copy is made waits until it is whole."""
    copy, told = os.path.join(folder, "copy"), []
    with Operated(program, file, timeout=60) as it:
        it.get("PUT", "/plans", b"")
        it.get("PUT", "/plans/large", os.urandom(it.large))
        backup = threading.Thread(target=lambda: told.append(it.order(op="backup", to=copy)))
        backup.start()
        ends = time.monotonic() + PATIENCE
        while not os.path.exists(copy) and time.monotonic() < ends:
            time.sleep(0.001)
        stopped = it.order(op="stop")
        backup.join(PATIENCE)
        it.process.communicate(timeout=PATIENCE)
        found = (told, stopped, it.process.returncode)
        expect("a stop while a backup runs", found == (["backup\n"], "stop\n", 0), f"{found}")
    for name, path in (("the host", file), ("its copy", copy)):
        checked = run(program, None, "check", "--file", path)[:2]
        expect(f"afterwards {name} is sound", checked == ("sound", 0), f"{checked}")


def test_stop_by_words(program, folder, file, expect):
    """`bucketd stop` ends a server, by its port, by its socket and by the environment, and none without its secret."""
    door, secret = os.path.join(folder, "door"), os.path.join(folder, "secret")
    with open(secret, "w", opener=lambda path, flags: os.open(path, flags, 0o600)) as out:
        out.write(SECRET + "\n")
    for name in ("port", "socket", "environment"):
        listens_on = ("--operator-socket", door) if name == "socket" else ("--operator-port", "0")
        with Served(program, file, *listens_on, "--operator-secret-file", secret) as it:
            port = None if name == "socket" else str(it.operators())
            if name == "environment":
                words, environment = [], {"BUCKETD_OPERATOR_PORT": port, "BUCKETD_OPERATOR_SECRET_FILE": secret}
            else:
                words, environment = [f"--operator-{name}", door if name == "socket" else port, "--operator-secret-file", secret], {}
            told = run(program, None, "stop", *(words[:2] or ["--operator-port", port]))[:2]
            expect(f"no stop without the secret: {name}", told == ("bad line", 1) and it.process.poll() is None, f"{told}")
            told = run(program, None, "health", *words, **environment)[:2]
            expect(f"bucketd health with the secret: {name}", told == ("health ok", 0), f"{told}")
            told = run(program, None, "stop", *words, **environment)[:2]
            it.process.communicate(timeout=PATIENCE)
            expect(f"bucketd stop: {name}", (told, it.process.returncode) == (("stop", 0), 0), f"{told} {it.process.returncode}")
        for own in OWN:
            told = run(program, None, own, *words, **environment)
            expect(f"bucketd {own} where no server is: {name}", told[:2] == ("fault", 1) and told[2].count("\n") == 1, f"{told}")


@pytest.mark.parametrize("name", OWN)
def test_no_server_named(program, folder, file, expect, name):
    for words, environment in (([], {}), ([], {"BUCKETD_FILE": file}), (["--operator-secret-file", "none"], {"BUCKETD_FILE": file}),
                               ([], {"BUCKETD_OPERATOR_PORT": "none"}), (["--file", file], {}),
                               (["--operator-port", "1", "--operator-socket", "none"], {})):
        told, status, _ = run(program, folder, name, *words, **environment)
        expect(f"bucketd {name} {' '.join(words)} {environment}", status == 2 and told.startswith("error: "), f"{status} {told}")


def test_clock_is_accepted(program, folder, file, expect):
    """A clock that leapt is refused until an operator accepts it: no other question does, and no client. Then it is the measure."""
    now, step = int(time.time()), 600
    clock = Clock(folder, now)
    with Operated(program, file, "--log", "--clock-step", str(step), timeout=60, **clock.env) as it:
        def put(name):
            return it.get("PUT", f"/plans/{name}", b"x")[0]

        def news():
            return [text for text in it.lines() if "clock" in text]

        asked = it.get("PUT", "/plans", b"")[0], put("a")
        clock.set(now + 100_000)
        expect("a leap is refused", asked == (200, 200) and put("b") == 500, f"{asked}")
        expect("standard error names the order", len(news()) == 1 and "clock-accept" in news()[0], f"{news()}")
        told = [it.tell({"op": "health"}), it.order(op="metrics")[:6], it.exchange(b'{"op":"clock-accept"}\n\r\n\r\n')[:13]]
        expect("health says so, and a client's line is no order", told == [("30 ClockOutOfRange", 1), "# HELP", b"HTTP/1.1 500 "], f"{told}")
        expect("it is refused unasked", put("b") == 500)
        told = run(program, None, "clock-accept", "--operator-port", str(it.door))[:2]
        expect("bucketd clock-accept", told == (f"accepted {clock.now}", 0), f"{told}")
        expect("then it is taken", (put("b"), it.tell({"op": "health"})) == (200, ("health ok", 0)) and len(news()) == 2, f"{news()}")
        stamp = figures(it.order(op="metrics")).get("bucketd_server_last_stamp_seconds")
        expect("and stamped", stamp == clock.now, f"{stamp}")
        clock.set(clock.now + step)
        expect("it is the measure: a step more", put("c") == 200)
        clock.set(clock.now + 100_000)
        expect("and a second leap is refused", put("d") == 500 and len(news()) == 3, f"{news()}")
        clock.set(now + 10)
        expect("it goes on by itself when the clock is back", put("d") == 200 and len(news()) == 4, f"{news()}")
        told = it.order(op="clock-accept")
        clock.set(now + 90_000)
        expect("an earlier reading is the measure too, once accepted", (told, put("e")) == (f"accepted {now + 10}\n", 500), told)
        clock.set(250_000_000_001)
        expect("a reading out of range isn't accepted", it.tell({"op": "clock-accept"}) == ("30 ClockOutOfRange", 1))
        clock.set(now + 20)
        expect("and is no measure", put("e") == 200)
        expect("none of these orders is logged", not [text for text in it.lines() if " operator " in text], f"{it.lines()}")
