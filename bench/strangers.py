#!/usr/bin/env python3
"""What others cost a good client of the gateway: 10,000 connections that say nothing, as many that have sent half a head, 100 documents
of 2 MiB that are too much, 64 senders of a byte a second. The good client's requests of 1 KiB, over one connection, are timed in turns
without the gateway, with nothing beside them, and with each of those, in one run.

    bench/strangers.py [--turns N] [--requests N] [--method GET] [--only LOAD] [--gateway PATH]... [PROGRAM]

PROGRAM: a bucketd; without it the stand-in of gateway/'s tests, which answers from memory. --gateway: a build to be measured in place
of one of these sources. It wants 11,000 open files (ulimit -n); the host's file lies in /dev/shm. A table of Markdown comes on standard
output, in milliseconds: the median of all turns, and the least median of a turn. The ratio is that of a turn's medians with the load
and without it: the median of all turns, the least and the greatest. Each turn has a line on standard error.
"""
import argparse
import multiprocessing
import os
import re
import socket
import statistics
import subprocess
import sys
import tempfile
import threading
import time

from server import SHARED_MEMORY, TOP, await_listener, free_port, request
from host import Answer, Program, all_of
from s3_requests import Client, Gateway, build_gateway, dial, make_host, quoted, write_keys

IDLE, DOCUMENTS, SENDERS = 10000, 100, 64
BODY = b"x" * 1024


def signed(client, method, path, query="", body=b"", size=None):
    """The bytes of a signed request's head; its length may be another one than that of the body that was signed."""
    payload = "UNSIGNED-PAYLOAD" if size else None
    head, _ = client.head(method, path, query, body, payload)
    if method != "GET":
        head["content-length"] = str(size or len(body))
    text = "".join(f"{it}: {value}\r\n" for it, value in head.items())
    return f"{method} {quoted(path)}{'?' + query if query else ''} HTTP/1.1\r\n{text}\r\n".encode()


def read_answer(link, rest=b""):
    """The status of an answer, its body, and what came behind it."""
    while b"\r\n\r\n" not in rest:
        more = link.recv(65536)
        if not more:
            raise OSError("the connection ended")
        rest += more
    head, _, rest = rest.partition(b"\r\n\r\n")
    size = int(re.search(rb"(?i)content-length: (\d+)", head)[1])
    while len(rest) < size:
        rest += link.recv(65536)
    return int(head.split()[1]), rest[:size], rest[size:]


def connect(port, source=None):
    return socket.create_connection(("127.0.0.1", port), timeout=30, source_address=(source, 0) if source else None)


class Good:
    """A client that asks over one connection of a gateway, or bucketd itself."""

    def __init__(self, gateway, inner, method):
        self.client, self.port, self.inner, self.method = Client(gateway.port), gateway.port, inner, method
        for path, body in (("/good", b""), ("/good/x", BODY)):
            status = self.client.ask("PUT", path, body)[0]
            if status not in (200, 409):
                sys.exit(f"PUT {path}: {status}")
        self.link, self.broken = None, 0

    def ask(self, request):
        """An answer, by the connection that is kept, or by a new one where that was closed."""
        for is_last in (False, True):
            try:
                self.link = self.link or connect(self.port)
                self.link.sendall(request)
                return read_answer(self.link)[:2]
            except OSError:
                if is_last:
                    raise
                self.link, self.broken = None, self.broken + 1

    def ask_bare(self, request):
        """An answer of bucketd, which has a connection for each request."""
        with dial(self.inner) as link:
            link.settimeout(30)
            link.sendall(request)
            answer = Answer(all_of(link), self.method)
        return answer.status, answer.body

    def times(self, count, is_over=lambda: False, is_bare=False):
        """Milliseconds of so many requests, or of those until something is over."""
        body, found = BODY if self.method == "PUT" else b"", []
        text = request("green", self.method, "/good/x", body) if is_bare else signed(self.client, self.method, "/good/x", body=body) + body
        while len(found) < count and not (is_over() and len(found) > 20):
            begun = time.perf_counter()
            status, got = (self.ask_bare if is_bare else self.ask)(text)
            found.append((time.perf_counter() - begun) * 1000)
            if status != 200 or len(got) != 1024 - len(body):
                sys.exit(f"the good client's answer: {status} {got[:200]}")
        return found


def hold(links, ready, ended):
    ready.set()
    ended.wait(60)
    for it in links:
        it.close()


def idle(port, ready, ended, text=b""):
    """Connections from eight addresses."""
    links = []
    for i in range(IDLE):
        try:
            links.append(connect(port, f"127.0.1.{1 + i % 8}"))
            if text:
                links[-1].sendall(text)
        except OSError:
            pass
    hold(links, ready, ended)


def half(port, ready, ended):
    idle(port, ready, ended, b"GET /good/x HTTP/1.1\r\nHost: h\r\n")


def documents(port, ready, ended):
    client, body = Client(port), b"<Delete>" + b"<Object/>" * 233000 + b"</Delete>"
    head, answers = signed(client, "POST", "/good", "delete=", body), []

    def send(i):
        try:
            with connect(port, f"127.0.1.{1 + i % 8}") as link:
                link.sendall(head + body)
                answers.append(read_answer(link)[0])
        except OSError:
            answers.append(0)  # (it was refused before it was sent)

    threads = [threading.Thread(target=send, args=(i,)) for i in range(DOCUMENTS)]
    ready.set()
    for it in threads:
        it.start()
    for it in threads:
        it.join(120)
    if len(answers) != DOCUMENTS or set(answers) - {0, 400}:
        print(f"the documents were answered {sorted(set(answers))}, {len(answers)} of {DOCUMENTS}", file=sys.stderr)
    ended.set()


def slow(port, ready, ended):
    client, links = Client(port), []
    for i in range(SENDERS):
        links.append(connect(port, f"127.0.1.{1 + i % 8}"))
        links[-1].sendall(signed(client, "PUT", f"/good/slow{i}", size=16 << 20))
    ready.set()
    while not ended.wait(1):
        for it in links:
            try:
                it.sendall(b"x")
            except OSError:
                pass


def beside(load, good, gateway, requests):
    """The good client's times with a load beside it, and the most resident memory meanwhile."""
    ready, ended, most = multiprocessing.Event(), multiprocessing.Event(), 0
    child = multiprocessing.Process(target=load, args=(good.port, ready, ended))
    child.start()
    stop = threading.Event()

    def watch():
        nonlocal most
        while not stop.wait(0.02):
            most = max(most, gateway.memory("VmRSS"))

    watcher = threading.Thread(target=watch)
    watcher.start()
    ready.wait(120)
    begun = time.monotonic()
    found = good.times(requests if load is not documents else 1 << 20, ended.is_set)
    took = time.monotonic() - begun
    ended.set()
    child.join()
    stop.set()
    watcher.join()
    return found, most, took


LOADS = {"10,000 silent connections": idle, "10,000 half heads": half, "100 documents of 2 MiB": documents, "64 slow senders": slow}


def start(folder, program, build):
    """A gateway, what else was started, and the port or the socket of the host behind it."""
    options = ["--connections", "10000"]
    if program:
        make_host(program, folder, {"green": 1 << 40})
        gateway = Gateway(build, program, folder, *options)
        return [gateway], gateway.inner()
    tests, port = os.path.join(folder, "tests"), free_port()
    subprocess.run(["go", "test", "-c", "-o", tests, "./internal/s3"], cwd=os.path.join(TOP, "gateway"), check=True)
    write_keys(folder, ["green"])
    standin = Program([tests, "-test.run", "^TestStandin$", "-test.timeout", "0"], port, STANDIN=f"127.0.0.1:{port}")
    await_listener(standin.process, port)
    return [Gateway(build, None, folder, *options, "--host", f"127.0.0.1:{port}", "--alone"), standin], port


def tell_turn(name, turn):
    """What one turn had, on standard error: so a ratio that stands out can be looked into."""
    told = ", ".join(f"{statistics.median(it):.2f} (longest {max(it):.0f})" for it in turn[:3])
    print(f"  {name}: {told}; {len(turn[2])} in {turn[4]:.1f} s, load {os.getloadavg()[0]:.0f}", file=sys.stderr, flush=True)


def measure(o, build):
    """Prints a row for each load."""
    loads = {name: it for name, it in LOADS.items() if o.only in (None, it.__name__)}
    with tempfile.TemporaryDirectory(dir=SHARED_MEMORY) as folder:
        started, inner = start(folder, o.program and os.path.abspath(o.program), os.path.abspath(build or build_gateway(folder)))
        try:
            good, rows = Good(started[0], inner, o.method), {}
            good.times(o.requests)
            for _ in range(o.turns):
                for name, load in loads.items():
                    bare, alone = good.times(o.requests, is_bare=True), good.times(o.requests)
                    turn = (bare, alone, *beside(load, good, started[0], o.requests))
                    rows.setdefault(name, []).append(turn)
                    tell_turn(name, turn)
                    time.sleep(1)
        finally:
            for it in started:
                it.end()
            print(*started[0].lines()[-9:], sep="\n", file=sys.stderr)
    print(f"  the good client's connection was closed {good.broken} times", file=sys.stderr)
    for name, turns in rows.items():
        medians = [[statistics.median(times) for times in turn[:3]] for turn in turns]
        cells = [f"{statistics.median(time for turn in turns for time in turn[i]):.3f}, {min(it[i] for it in medians):.3f}" for i in range(3)]
        ratios = sorted(it[2] / it[1] for it in medians)
        print(f"| {name} | {' | '.join(cells)} | {statistics.median(ratios):.2f} ({ratios[0]:.2f} to {ratios[-1]:.2f}) | "
              f"{max(it[3] for it in turns):.0f} MiB | {statistics.median(it[4] for it in turns):.1f} s |", flush=True)


def main():
    options = argparse.ArgumentParser()
    options.add_argument("--turns", type=int, default=3)
    options.add_argument("--requests", type=int, default=1000)
    options.add_argument("--method", choices=("GET", "PUT"), default="GET")
    options.add_argument("--only", choices=[it.__name__ for it in LOADS.values()])
    options.add_argument("--gateway", action="append")
    options.add_argument("program", nargs="?")
    o = options.parse_args()
    print(f"load before: {' '.join(open('/proc/loadavg').read().split()[:3])}\n")
    print(f"| Beside | {o.method} by bucketd: median, least | By the gateway | With the load | Ratio | Resident at most | Measured for |\n|---|---|---|---|---|---|---|")
    for build in o.gateway or [None]:
        measure(o, build)
    print(f"\nload after (with this run): {' '.join(open('/proc/loadavg').read().split()[:3])}")


main()
