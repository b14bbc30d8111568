#!/usr/bin/env python3
"""Times what a quota and rules for uploads cost, in a host in memory.

    bench/quotas.py [PROGRAM]        PROGRAM: crates/bucketd/out/bucketd

A put of a byte under a new key and GET /?usage, where the tenant has 10, 1,000 and 10,000 objects; a put over an object of
the same size, for which nothing is added up, by `bucketd serve` on a file that lies in memory, a connection each (the store
in memory passes over a whole table where a row goes); and a GET of an object where the tenant has 0 and 10,000 live uploads in a
bucket with a rule, none of them stale. Exit 1 where the last takes more than 1.3 times as long with uploads as without.
"""
import re
import sys
import tempfile

from events import answered, line, request
from server import SHARED_MEMORY, Server, proved_program

REQUESTS = 500
GREATEST_RATIO = 1.3
NOW = 1_700_000_000
RULE = '{"Rules":[{"AbortIncompleteMultipartUpload":{"DaysAfterInitiation":1},"Status":"Enabled"}]}'


def http(method, path, body=None):
    return line({"at": NOW, "http": request(method, "green$k1", "greensecret", path, body)})


START = [
    line({"at": NOW, "op": "tenant-add", "tenant": "green", "quota": 1 << 40}),
    line({"at": NOW, "op": "key-add", "tenant": "green", "name": "k1", "secret": "greensecret"}),
    http("PUT", "/plans", ""),
    http("PUT", "/plans?lifecycle", RULE),
    http("PUT", "/plans/one", "1"),
]


def microseconds(program, more, last):
    """The time of one of the last requests."""
    first = START + more
    text, _, spent = answered(program, first, last)
    if len(re.findall(rb"^HTTP/1.1 200 ", text, re.M)) != len(first) - 2 + len(last):
        sys.exit(f"a request was answered otherwise than it should be: {text[-300:]}")
    return spent / len(last)


def served_microseconds(program, objects):
    """The time of a put over an object of the same size, by a server, where there are so many others."""
    with tempfile.TemporaryDirectory(dir=SHARED_MEMORY) as folder, Server(program, folder) as server:
        server.put("/one", b"1")
        for n in range(objects):
            server.put(f"/k{n}", b"")
        return 1000 * sum(server.put("/one", b"2") for _ in range(REQUESTS)) / REQUESTS


def main():
    program = proved_program(sys.argv[1:])
    shapes = [10, 1000, 10_000]
    objects = {many: [http("PUT", f"/plans/k{n}", "") for n in range(many)] for many in shapes}
    timed = {
        "PUT of a new key": [http("PUT", f"/plans/new{n}", "x") for n in range(REQUESTS)],
        "GET /?usage": [http("GET", "/?usage")] * 20,
    }
    print("microseconds a request".ljust(36) + "".join(f"{f'{many:,} objects':>18}" for many in shapes))
    for kind, last in timed.items():
        print(kind.ljust(36) + "".join(f"{microseconds(program, objects[many], last):>18.1f}" for many in shapes), flush=True)
    print("PUT of as many bytes as before".ljust(36) + "".join(f"{served_microseconds(program, many):>18.1f}" for many in shapes), flush=True)
    gets = [http("GET", "/plans/one")] * 5000
    few, many = (min(microseconds(program, [http("POST", f"/plans/u{n}?uploads", "") for n in range(uploads)], gets) for _ in range(3)) for uploads in (0, 10_000))
    print(f"GET with no live upload {few:.1f}, with 10,000 {many:.1f}: {many / few:.2f} times")
    sys.exit(0 if many <= GREATEST_RATIO * few else f"a GET takes more than {GREATEST_RATIO} times as long with 10,000 live uploads")


main()
