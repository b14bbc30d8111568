#!/usr/bin/env python3
"""Times pages of ListObjectsV2 in a host in memory, beside the same rows in SQLite itself.

    bench/pages.py [PROGRAM]        PROGRAM: crates/bucketd/out/bucketd

Pages of 1,000 of 10,000 and of 100,000 keys, from keys all over the bucket on; pages of 2 names of which each rolls 50,000
keys up; and one page of 1,000 names of which each rolls 100 keys up. Beside the first two: what SQLite's own program, as
Python has it, takes for the first 1,000 rows from such a key on, in a table of the same columns by an index of the same.
Exit 1 where a page of 1,000 takes more than 1.5 times as long in the great bucket as in the small one.
"""
import os
import re
import sqlite3
import sys
import tempfile
import time

from events import answered, line, request
from server import SHARED_MEMORY as FOLDER, proved_program

REQUESTS = 200
GREATEST_RATIO = 1.5
STEP = 7919


def http(method, path, body=None):
    return line({"at": 0, "http": request(method, "green$k1", "greensecret", path, body)})


def table(keys):
    """The lines that fill a bucket with an empty object of each key."""
    return [
        line({"at": 0, "op": "tenant-add", "tenant": "green", "quota": 1 << 40}),
        line({"at": 0, "op": "key-add", "tenant": "green", "name": "k1", "secret": "greensecret"}),
        http("PUT", "/plans", ""),
    ] + [http("PUT", f"/plans/{key}", "") for key in keys]


def milliseconds(program, keys, targets):
    """The time of one request for a page."""
    first, last = table(keys), [http("GET", target) for target in targets]
    text, _, spent = answered(program, first, last)
    if len(re.findall(rb"^HTTP/1.1 200 ", text, re.M)) != len(first) - 2 + len(last):
        sys.exit(f"a request was answered otherwise than it should be: {text[-300:]}")
    return spent / len(last) / 1000


def sqlite_milliseconds(keys, starts):
    """The time of SQLite's own program for the first 1,000 rows from a key on."""
    with tempfile.TemporaryDirectory(dir=FOLDER) as folder:
        connection = sqlite3.connect(os.path.join(folder, "rows"))
        connection.execute("CREATE TABLE versions (tenant TEXT, seq INTEGER, bucket TEXT, okey TEXT, id INTEGER, marker INTEGER, stamp INTEGER, size INTEGER, checksum TEXT)")
        connection.execute("CREATE INDEX newest ON versions (tenant, bucket, okey, seq)")
        connection.executemany(
            "INSERT INTO versions VALUES ('green', ?, 'plans', ?, 0, 0, 0, 0, '47DEQpj8HBSa+/TImW+5JCeuQeRkm5NMpJWZG3hSuFU=')",
            list(enumerate(keys)),
        )
        connection.commit()
        start = time.perf_counter()
        for key in starts:
            connection.execute(
                "SELECT okey, id, marker, stamp, size, checksum FROM versions WHERE tenant = 'green' AND bucket = 'plans' AND okey > ? ORDER BY okey, seq DESC LIMIT 1001",
                (key,),
            ).fetchall()
        return (time.perf_counter() - start) / len(starts) * 1000


def main():
    program = proved_program(sys.argv[1:])
    print("milliseconds a page".ljust(44) + f"{'bucketd':>10}{'SQLite':>10}")
    pages = []
    for many in (10_000, 100_000):
        keys = [f"k{n:06d}" for n in range(many)]
        starts = [keys[n * STEP % (many - 1000)] for n in range(REQUESTS)]
        targets = [f"/plans?list-type=2&continuation-token={key.encode().hex()}" for key in starts]
        pages.append(milliseconds(program, keys, targets))
        print(f"1,000 of {many:,} keys".ljust(44) + f"{pages[-1]:>10.3f}{sqlite_milliseconds(keys, starts):>10.3f}", flush=True)
    keys = [f"{name}/k{n:05d}" for name in "ab" for n in range(50_000)]
    rolled = milliseconds(program, keys, ["/plans?list-type=2&delimiter=/&max-keys=2"] * REQUESTS)
    print("2 names that roll up 50,000 keys each".ljust(44) + f"{rolled:>10.3f}", flush=True)
    keys = [f"d{name:03d}/k{n:02d}" for name in range(1000) for n in range(100)]
    rolled = milliseconds(program, keys, ["/plans?list-type=2&delimiter=/"] * 20)
    print("1,000 names that roll up 100 keys each".ljust(44) + f"{rolled:>10.3f}", flush=True)
    sys.exit(0 if pages[1] <= GREATEST_RATIO * pages[0] else f"a page of 100,000 keys takes more than {GREATEST_RATIO} times as long as one of 10,000")


main()
