#!/usr/bin/env python3
"""What is kept beside the rows, in place of being added up, is worth: a program, and another in the same run.

    bench/totals.py [PROGRAM [BEFORE]]       PROGRAM: crates/bucketd/out/bucketd; BEFORE: an earlier one

Instructions, by callgrind, of a put of 1 KiB under a new key by `serve` where the tenant has 20 and 10,000 objects;
milliseconds of GET /?usage at 10,000 and of a sweep that finds nothing among 100,000 blocks in use, by `script`; of a
copy and of a delete of 16 MiB, by `serve` on a file that lies in memory. Exit 1 where a put among 10,000 takes more than
1.25 times the instructions of one among 20 (the trees are deeper).
"""
import os
import statistics
import sys
import tempfile

from callgrind import KEY, filled, served
from events import answered, line, request
from server import SHARED_MEMORY, Server, proved_program

NOW = 1_700_000_000
FEW, MORE = 10, 60
OBJECTS = (20, 10_000)
BLOCKS, EACH = 100_000, 100
USAGES, SWEEPS = 50, 20_000
COPIES = 7
GREATEST_RATIO = 1.25


def puts(name, many, size):
    return [request("PUT", *KEY, f"/plans/{name}{n}", ("%016d" % n * (size // 16))) for n in range(many)]


def instructions(program, objects, last):
    """Those of one of the last requests, where the tenant has so many objects: two servers on copies of a file differ by them."""
    with tempfile.TemporaryDirectory(dir=SHARED_MEMORY) as folder:
        file = filled(program, folder, puts("k", objects, 16))
        few, many = (sum(served(program, file, last[:count]).values()) for count in (FEW, FEW + MORE))
        return (many - few) / MORE


def milliseconds(program, first, event, count):
    """Those of one event among so many, where a script has others before it; the program's end takes as long in both runs."""
    few, many = (answered(program, first, [line(event)] * times) for times in (1, 1 + count))
    return (many[2] - few[2]) / 1000 / count, many[0]


def usage_milliseconds(program):
    first = [line({"at": NOW, "http": text}) for text in [request("PUT", *KEY, "/plans", ""), *puts("k", OBJECTS[-1], 16)]]
    return milliseconds(program, tenant("green") + first, {"at": NOW, "http": request("GET", *KEY, "/?usage")}, USAGES)[0]


def tenant(name):
    return [
        line({"at": NOW, "op": "tenant-add", "tenant": name, "quota": 1 << 40}),
        line({"at": NOW, "op": "key-add", "tenant": name, "name": "k1", "secret": "greensecret"}),
    ]


def sweep_milliseconds(program):
    """Those of a sweep that finds nothing, where tenants have a hundred objects each, all of bytes of their own."""
    first = []
    for number in range(BLOCKS // EACH):
        key = (f"t{number}$k1", KEY[1])
        bodies = [("PUT", "/plans", ""), *(("PUT", f"/plans/{n}", f"{number} {n}") for n in range(EACH))]
        first += tenant(f"t{number}") + [line({"at": NOW, "http": request(method, *key, path, body)}) for method, path, body in bodies]
    spent, text = milliseconds(program, first, {"at": NOW, "op": "sweep", "limit": 1000}, SWEEPS)
    if text.count(b"sweep uploads 0 blocks 0 complete\n") != SWEEPS + 1:
        sys.exit(f"a sweep found something: {text[-300:]}")
    return spent


def copy_milliseconds(program):
    """The medians of a copy and of a delete of 16 MiB."""
    body = os.urandom(1 << 24)
    with tempfile.TemporaryDirectory(dir=SHARED_MEMORY) as folder, Server(program, folder) as server:
        server.put("/one", body)
        copies = [server.ask("PUT", f"/c{n}", b"", fields=["x-amz-copy-source: /plans/one"])[0] for n in range(COPIES)]
        deletes = [server.ask("DELETE", f"/c{n}", status=b"204 No Content")[0] for n in range(COPIES)]
    return statistics.median(copies), statistics.median(deletes)


def told(name, found):
    """Prints a row: what each program takes, and how many times the earlier one's that of the later is."""
    ratio = f"{found[0] / found[1]:>8.2f}" if len(found) > 1 else ""
    print(name.ljust(54) + "".join(f"{it:>16,.3f}" for it in found) + ratio, flush=True)
    return found[0]


def main():
    programs = [proved_program(sys.argv[1:2]), *(os.path.abspath(it) for it in sys.argv[2:3])]
    last = puts("new", FEW + MORE, 1024)
    few, many = (told(f"PUT of 1 KiB among {it:,} objects, instructions", [instructions(program, it, last) for program in programs]) for it in OBJECTS)
    told("GET /?usage at 10,000 objects, ms", [usage_milliseconds(it) for it in programs])
    copies, deletes = zip(*(copy_milliseconds(it) for it in programs))
    told("a copy of 16 MiB, ms", copies)
    told("a delete of 16 MiB, ms", deletes)
    told("a sweep that finds nothing among 100,000 blocks, ms", [sweep_milliseconds(it) for it in programs])
    sys.exit(0 if many <= GREATEST_RATIO * few else f"a put takes {many / few:.2f} times as much among 10,000 objects")


main()
