#!/usr/bin/env python3
"""Times puts on hosts of both digest functions, beside nginx's DAV, a pass of OpenSSL's SHA-256, and SQLite's own commit of
the same blocks, over loopback.

    bench/digests.py [PROGRAM]        PROGRAM: crates/bucketd/out/bucketd

It needs Debian's nginx-light. The servers keep their files in one new folder in the current one (FOLDER in the environment
names another place), and are asked in turns, a connection a request: bodies that no block of the host has yet, and each of them
once more under another key. Times are medians; the processor's are those of the server's process. SQLite writes each body in
blocks of 65,536 bytes, one transaction a body, with a log that is synced (`journal_mode=wal`, `synchronous=full`).
"""
import hashlib
import os
import sqlite3
import statistics
import sys
import tempfile
import time

from server import Asked, Server, need, proved_program
from serving import start_nginx

SIZES = [(1 << 10, 200), (1 << 16, 100), (1 << 20, 30), (1 << 24, 8)]
BLOCK = 65536
TICKS = os.sysconf("SC_CLK_TCK")


class Nginx(Asked):
    """nginx's DAV in a folder."""

    def __init__(self, folder):
        self.process, self.port = start_nginx(folder)

    def __exit__(self, *_):
        self.process.terminate()
        self.process.wait()

    def put(self, key, body):
        return self.ask("PUT", key, body, status=b"201 Created", fields=["connection: close"])[0]


def spent(process):
    """The milliseconds of a processor that a process has taken."""
    with open(f"/proc/{process.pid}/stat") as file:
        fields = file.read().rpartition(")")[2].split()
    return 1000 * (int(fields[11]) + int(fields[12])) / TICKS


def put_all(servers, size, count, kind, bodies):
    """The median milliseconds of puts of these bodies to each server, and those of a processor for each put."""
    took, before = {name: [] for name in servers}, {name: spent(it.process) for name, it in servers.items()}
    for number, body in enumerate(bodies):
        for name, server in servers.items():
            took[name].append(server.put(f"/{kind}-{size}-{number}", body))
    return {name: (statistics.median(took[name]), (spent(it.process) - before[name]) / count) for name, it in servers.items()}


def passes(bodies):
    """The median milliseconds of a pass of OpenSSL's SHA-256."""
    took = []
    for body in bodies:
        before = time.perf_counter()
        hashlib.sha256(body).digest()
        took.append(1000 * (time.perf_counter() - before))
    return statistics.median(took)


def commits(folder, bodies):
    """The median milliseconds of SQLite's own commit of a body's blocks."""
    took = []
    with sqlite3.connect(os.path.join(folder, f"commits-{len(bodies[0])}"), isolation_level=None) as connection:
        connection.execute("PRAGMA journal_mode=wal")
        connection.execute("PRAGMA synchronous=full")
        connection.execute("CREATE TABLE blocks (name INTEGER PRIMARY KEY, bytes BLOB NOT NULL)")
        for body in bodies:
            before = time.perf_counter()
            connection.execute("BEGIN")
            for start in range(0, len(body), BLOCK):
                connection.execute("INSERT INTO blocks (bytes) VALUES (?)", (body[start : start + BLOCK],))
            connection.execute("COMMIT")
            took.append(1000 * (time.perf_counter() - before))
    return statistics.median(took)


def main():
    program = proved_program(sys.argv[1:])
    need(nginx="nginx-light")
    with tempfile.TemporaryDirectory(dir=os.environ.get("FOLDER", ".")) as folder:
        places = {name: os.path.join(os.path.abspath(folder), name) for name in ("sha256", "fast", "nginx")}
        for place in places.values():
            os.makedirs(place)
        with Server(program, places["sha256"]) as ours, Server(program, places["fast"], digest="fast") as fast, Nginx(places["nginx"]) as nginx:
            servers = {"sha256": ours, "fast": fast, "nginx": nginx}
            print(f"{'bodies':>6} {'bytes':>9} {'sha256 ms':>10} {'cpu':>7} {'fast ms':>8} {'cpu':>7} {'nginx ms':>9} {'to nginx':>12} {'OpenSSL ms':>11} {'SQLite ms':>10}")
            for size, count in SIZES:
                bodies = [os.urandom(size) for _ in range(count)]
                commit = commits(folder, bodies)
                for kind in ("new", "known"):
                    told = put_all(servers, size, count, kind, bodies)
                    (one, one_spent), (two, two_spent), (three, _) = (told[name] for name in servers)
                    ratios = f"{one / three:.2f} {two / three:.2f}"
                    print(f"{kind:>6} {size:>9} {one:>10.3f} {one_spent:>7.2f} {two:>8.3f} {two_spent:>7.2f} {three:>9.3f} {ratios:>12} {passes(bodies):>11.3f} {commit:>10.3f}", flush=True)


main()
