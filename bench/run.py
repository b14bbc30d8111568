#!/usr/bin/env python3
"""Times `bucketd script` over generated lists of puts and gets, beside SHA-256 alone over the same bytes.

    bench/run.py [PROGRAM]        PROGRAM: crates/bucketd/out/bucketd

Four tenants put and get objects in turn. Each list is a script of 1,000 or of 5,000 requests with bodies of
1 KiB or of 64 KiB, as many of them puts as fit a script's 2^26 bytes, and at most half.
"""
import hashlib
import os
import subprocess
import sys
import tempfile
import time

import events
from events import line
from server import proved_program

TENANTS = ["green", "blue", "red", "white"]
GREATEST_SCRIPT = 1 << 26


def request(method, tenant, path, body=None):
    return events.request(method, f"{tenant}$k1", tenant + "secret", path, body)


def script(requests, size):
    out = []
    for tenant in TENANTS:
        out.append(line({"at": 0, "op": "tenant-add", "tenant": tenant, "quota": 1 << 40}))
        out.append(line({"at": 0, "op": "key-add", "tenant": tenant, "name": "k1", "secret": tenant + "secret"}))
        out.append(line({"at": 0, "http": request("PUT", tenant, "/plans", "")}))
    puts = min(requests // 2, int(0.95 * GREATEST_SCRIPT) // (size + 256))
    bodies = [("%08d" % n + "abcdefgh" * (size // 8))[:size] for n in range(puts)]
    for n in range(requests):
        tenant = TENANTS[n % len(TENANTS)]
        if n < puts:
            out.append(line({"at": n, "http": request("PUT", tenant, f"/plans/k{n}", bodies[n])}))
        else:
            # a get of an object that this tenant has put
            at = (n % puts) // len(TENANTS) * len(TENANTS) + n % len(TENANTS)
            out.append(line({"at": n, "http": request("GET", tenant, f"/plans/k{at if at < puts else n % len(TENANTS)}")}))
    return "".join(out).encode(), puts


def main():
    program = proved_program(sys.argv[1:])
    print(f"{'requests':>9} {'puts':>6} {'body':>7} {'seconds':>8} {'requests/s':>11} {'body MB/s':>10} {'peak MB':>8} {'in + out MB':>12} {'SHA-256 alone, s':>17}")
    for size in (1024, 65536):
        for requests in (1000, 5000):
            text, puts = script(requests, size)
            with tempfile.TemporaryFile() as source:
                source.write(text)
                source.seek(0)
                before = time.perf_counter()
                child = subprocess.Popen([program, "script"], stdin=source, stdout=subprocess.PIPE)
                answered = child.stdout.read()
                _, status, usage = os.wait4(child.pid, 0)
                seconds = time.perf_counter() - before
            if status != 0 or answered.count(b"HTTP/1.1 200 OK") != requests + len(TENANTS):
                sys.exit(f"a request was refused: status {status}, {answered.count(b'HTTP/1.1 200 OK')} of {requests + len(TENANTS)}")
            body = b"x" * size
            before = time.perf_counter()
            for _ in range(puts):
                hashlib.sha256(body).digest()
            alone = time.perf_counter() - before
            moved = requests * size / 1e6
            print(f"{requests:>9} {puts:>6} {size:>7} {seconds:>8.2f} {requests / seconds:>11.0f} {moved / seconds:>10.1f} {usage.ru_maxrss / 1024:>8.0f} {(len(text) + len(answered)) / (1 << 20):>12.0f} {alone:>17.3f}")


main()
