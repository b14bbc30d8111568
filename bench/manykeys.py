#!/usr/bin/env python3
"""Lists a bucket of many keys through the gateway, page by page: each key once and in order.

    bench/manykeys.py [--keys N] [--puts N] [PROGRAM]       1,000,000 keys; PROGRAM: crates/bucketd/out/bucketd

The first keys (--puts, 2,000) are put by `bucketd serve`, one after another, and timed. A million puts take too long here, so SQLite
itself writes the rows of all others into the host's file, as empty objects; bucketd then serves it. The file lies in /dev/shm. Needs
Debian's golang-go. Prints the times of pages through the gateway and of bucketd itself, and, of 100,000 keys at most, of an aws-cli; exit 1
where a page isn't what it should be.
"""
import json
import os
import re
import shutil
import signal
import sqlite3
import subprocess
import sys
import tempfile
import time

from server import SHARED_MEMORY as FOLDER, proved_program, request
from s3_requests import Client, Gateway, build_gateway, dial, make_host



def key(n):
    return f"d{n // 1000:04d}/k{n % 1000:03d}"


def bare(port, method, target):
    """An answer of bucketd itself."""
    with dial(port) as link:
        link.sendall(request("green", method, target, b"" if method == "PUT" else None))
        answer = b""
        while part := link.recv(1 << 20):
            answer += part
    if not answer.startswith(b"HTTP/1.1 200"):
        sys.exit(f"{method} {target}: {answer[:200]}")
    return answer


def put(build, program, folder, count):
    gateway = Gateway(build, program, folder)
    port = gateway.inner()
    bare(port, "PUT", "/plans")
    begun = time.monotonic()
    for n in range(count):
        bare(port, "PUT", f"/plans/{key(n)}")
        if (n + 1) % max(1, count // 2) == 0:
            print(f"{n + 1} puts by bucketd serve: {(time.monotonic() - begun) / (n + 1) * 1000:.2f} ms each", flush=True)
    gateway.end()


def write_rows(file, first, count):
    """The host's tables and rows in a new file that SQLite writes, with the rows of all keys from the first on."""
    begun, old = time.monotonic(), sqlite3.connect(file)
    texts = [t for (t,) in old.execute("SELECT sql FROM sqlite_master WHERE sql IS NOT NULL ORDER BY rowid")]
    tables = [t for (t,) in old.execute("SELECT name FROM sqlite_master WHERE type = 'table'")]
    new = sqlite3.connect(file + "-new")
    for text in texts:
        new.execute(text)
    for table in tables:
        for row in old.execute(f"SELECT * FROM {table}"):
            new.execute(f"INSERT INTO {table} VALUES ({', '.join('?' * len(row))})", row)
    names = [it[1] for it in old.execute("PRAGMA table_info(versions)")]
    like = dict(zip(names, old.execute("SELECT * FROM versions ORDER BY seq DESC LIMIT 1").fetchone()))
    old.close()
    entry = like["seq"] - first + 1
    new.executemany(f"INSERT INTO versions VALUES ({', '.join('?' * len(names))})",
                    ([{**like, "seq": entry + n, "okey": key(n).encode()}[it] for it in names] for n in range(first, count)))
    new.execute("UPDATE tenants SET next_entry = next_entry + ?", (count - first,))
    new.commit()
    new.close()
    for end in ("", "-wal", "-shm"):
        if os.path.exists(file + end):
            os.remove(file + end)
    os.rename(file + "-new", file)
    print(f"{count - first} rows by SQLite in {time.monotonic() - begun:.1f} s: the file has {os.path.getsize(file) >> 20} MiB", flush=True)


def pages(name, count, ask, token_of, keys_of):
    """Asks for all pages and tells their times; exit 1 where keys are missing, twice or in another order."""
    times, seen, token = [], 0, ""
    while token is not None:
        begun = time.monotonic()
        text = ask("list-type=2" if not token else f"continuation-token={token}&list-type=2")
        times.append((time.monotonic() - begun) * 1000)
        for it in keys_of(text):
            if it != key(seen):
                sys.exit(f"{name}: {it} isn't {key(seen)}")
            seen += 1
        token = token_of(text)
    if seen != count:
        sys.exit(f"{name}: {seen} keys of {count}")
    times.sort()
    print(f"{name}: {seen} keys in {len(times)} pages, {sum(times) / 1000:.1f} s; the median {times[len(times) // 2]:.1f} ms, the greatest {times[-1]:.1f} ms", flush=True)


def listed_by_aws(port, count):
    told = {"AWS_ACCESS_KEY_ID": "green$k1", "AWS_SECRET_ACCESS_KEY": "greensecret", "AWS_DEFAULT_REGION": "us-east-1", "AWS_CONFIG_FILE": "/dev/null"}
    begun = time.monotonic()
    done = subprocess.run(["aws", "--endpoint-url", f"http://127.0.0.1:{port}", "s3", "ls", "--recursive", "s3://plans"], capture_output=True, text=True, env={**os.environ, **told})
    lines = done.stdout.count("\n")
    if lines != count:
        sys.exit(f"aws s3 ls: {lines} keys of {count}: {done.stderr[-300:]}")
    print(f"aws s3 ls --recursive: {lines} keys in {time.monotonic() - begun:.1f} s", flush=True)


def main():
    signal.signal(signal.SIGTERM, lambda *_: sys.exit(1))  # (what was started is ended, too)
    words, count, puts = sys.argv[1:], 1_000_000, 2000
    while words[:1] in (["--keys"], ["--puts"]):
        count, puts = (int(words[1]), puts) if words[0] == "--keys" else (count, int(words[1]))
        words = words[2:]
    program = proved_program(words)
    print(f"load before: {open('/proc/loadavg').read().split()[:3]}")
    with tempfile.TemporaryDirectory(dir=FOLDER) as folder:
        build = build_gateway(folder)
        if not build:
            sys.exit("no Go is here: apt-get install golang-go")
        make_host(program, folder, {"green": 1 << 40})
        put(build, program, folder, puts)
        write_rows(os.path.join(folder, "host"), puts, count)
        gateway = Gateway(build, program, folder)
        try:
            client, port = Client(gateway.port), gateway.inner()
            pages("the gateway", count, lambda query: client.ask("GET", "/plans", query=query)[2].decode(),
                  lambda text: (re.findall("<NextContinuationToken>(.*?)<", text) or [None])[0], lambda text: re.findall("<Key>(.*?)</Key>", text))
            pages("bucketd", count, lambda query: json.loads(bare(port, "GET", "/plans?" + query).split(b"\r\n\r\n", 1)[1]),
                  lambda page: page.get("NextContinuationToken"), lambda page: [it["Key"] for it in page["Contents"]])
            if shutil.which("aws") and count <= 100_000:  # (it takes a minute or more for as many)
                listed_by_aws(gateway.port, count)
        finally:
            gateway.end()


main()
