#!/usr/bin/env python3
"""Times requests on versions in a host in memory, without and with many versions and keys.

    bench/versions.py [PROGRAM]        PROGRAM: crates/bucketd/out/bucketd

GET and HEAD of the newest, GET by id, PUT and DELETE in an Enabled bucket: of one key with 10, 100 and 10,000 versions,
and of 10,000 keys with one each. Exit 1 where a GET of the newest takes more than twice as long with 10,000 versions as
with 10.
"""
import re
import sys

from events import answered, line, request
from server import proved_program

REQUESTS = 5000
GREATEST_RATIO = 2
STEP = 7919
ENABLED = '{"Status":"Enabled"}'


def http(method, path, body=None):
    return line({"at": 0, "http": request(method, "green$k1", "greensecret", path, body)})


def table(versions, keys):
    """The lines that fill a bucket with so many versions of each of so many keys, and their number of puts."""
    out = [
        line({"at": 0, "op": "tenant-add", "tenant": "green", "quota": 1 << 40}),
        line({"at": 0, "op": "key-add", "tenant": "green", "name": "k1", "secret": "greensecret"}),
        http("PUT", "/plans", ""),
        http("PUT", "/plans?versioning", ENABLED),
    ]
    return out + [http("PUT", f"/plans/k{key}", "x") for _ in range(versions) for key in range(keys)]


def timed(kind, versions, keys):
    """The requests that are timed, and the status that each is answered with."""
    places = [n * STEP % keys for n in range(REQUESTS)]
    if kind == "get by id":
        return [http("GET", f"/plans/k{at}?versionId={n % versions * keys + at + 1:016x}") for n, at in enumerate(places)], 200
    method = {"get newest": "GET", "head newest": "HEAD", "put": "PUT", "delete": "DELETE"}[kind]
    body = "y" if method == "PUT" else None
    return [http(method, f"/plans/k{at}", body) for at in places], 204 if method == "DELETE" else 200


def microseconds(program, kind, versions, keys):
    """The time of one request."""
    first, (last, status) = table(versions, keys), timed(kind, versions, keys)
    text, _, spent = answered(program, first, last)
    expected = REQUESTS + (len(first) - 2 if status == 200 else 0)
    if len(re.findall(rb"^HTTP/1.1 %d " % status, text, re.M)) != expected:
        sys.exit(f"{kind}: a request was answered otherwise than it should be: {text[-300:]}")
    return spent / REQUESTS


def main():
    program = proved_program(sys.argv[1:])
    shapes = [(10, 1), (100, 1), (10000, 1), (1, 10000)]
    print("microseconds a request".ljust(24) + "".join(f"{f'{versions} x {keys} keys':>18}" for versions, keys in shapes))
    kinds = ["get newest", "head newest", "get by id", "put", "delete"]
    times = {}
    for kind in kinds:
        times[kind] = [microseconds(program, kind, versions, keys) for versions, keys in shapes]
        print(kind.ljust(24) + "".join(f"{time:>18.1f}" for time in times[kind]), flush=True)
    few, _, many, _ = times["get newest"]
    sys.exit(0 if many <= GREATEST_RATIO * few else f"a get of the newest of 10,000 takes more than {GREATEST_RATIO} times as long as of 10")


main()
