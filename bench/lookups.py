#!/usr/bin/env python3
"""Times lookups by key in a host in memory, at 1,000 rows and at 100,000.

    bench/lookups.py [PROGRAM]        PROGRAM: crates/bucketd/out/bucketd

Two lookups, each by 10,000 requests that write nothing: `authenticate`, which ends at a wrong secret, among that many
tenants with an access key each; `get`, of an object of one byte, among that many objects of one bucket. Exit 1 where
the greater table takes more than 3 times as long.
"""
import re
import sys

from events import answered, line, request
from server import proved_program

FEW, MANY = 1000, 100000
LOOKUPS = 10000
GREATEST_RATIO = 3
# A prime that divides neither number of rows, so that the lookups go through all rows and not in their order.
STEP = 7919


def tenant_with_key(tenant):
    return [
        line({"at": 0, "op": "tenant-add", "tenant": tenant, "quota": 1 << 40}),
        line({"at": 0, "op": "key-add", "tenant": tenant, "name": "k1", "secret": tenant + "secret"}),
    ]


def http(method, tenant, secret, path, body=None):
    return line({"at": 0, "http": request(method, f"{tenant}$k1", secret, path, body)})


def looked_up(rows):
    return [n * STEP % rows for n in range(LOOKUPS)]


def authenticate(rows):
    """A script, and a test of its answers."""
    out = []
    for row in range(rows):
        out += tenant_with_key(f"t{row}")
    out += [http("GET", f"t{row}", "anothersecret", "/plans/x") for row in looked_up(rows)]

    def is_right(text):
        counts = [len(re.findall(it, text, re.M)) for it in (rb"^tenant t\d+$", rb"^key t\d+\$k1$", rb'"AccessDenied"')]
        return counts == [rows, rows, LOOKUPS]

    return out, is_right


def get(rows):
    """The same."""
    out = tenant_with_key("green") + [http("PUT", "green", "greensecret", "/plans", "")]
    out += [http("PUT", "green", "greensecret", f"/plans/k{row}", "") for row in range(rows)]
    out += [http("GET", "green", "greensecret", f"/plans/k{row}") for row in looked_up(rows)]

    def is_right(text):
        stored = len(re.findall(rb"^content-length: 0\r\nx-amz-checksum-sha256: ", text, re.M))
        found = len(re.findall(rb"^accept-ranges: bytes\r\nx-amz-checksum-sha256: ", text, re.M))
        return stored == rows and found == LOOKUPS

    return out, is_right


def run(program, script, is_right):
    """The microseconds of all events that fill the tables, and of all lookups."""
    text, filling, looking = answered(program, script[:-LOOKUPS], script[-LOOKUPS:])
    if not is_right(text):
        sys.exit(f"an event was answered otherwise than it should be: {text[-300:]}")
    return filling, looking


def main():
    program = proved_program(sys.argv[1:])
    print(f"{'lookup':>12} {'rows':>7} {'filled in, s':>12} {'lookups':>8} {'microseconds a lookup':>21} {'ratio':>6}")
    is_flat = True
    for lookup in (authenticate, get):
        least = None
        for rows in (FEW, MANY):
            filling, looking = run(program, *lookup(rows))
            each = looking / LOOKUPS
            least = least or each
            print(f"{lookup.__name__:>12} {rows:>7} {filling / 1e6:>12.1f} {LOOKUPS:>8} {each:>21.1f} {each / least:>6.2f}", flush=True)
        is_flat = is_flat and each <= GREATEST_RATIO * least
    sys.exit(0 if is_flat else f"a lookup at {MANY} rows takes more than {GREATEST_RATIO} times as long as at {FEW}")


main()
