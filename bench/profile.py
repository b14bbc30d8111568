#!/usr/bin/env python3
"""Counts the instructions of a put and of a get, and the functions that take most of them, by valgrind's callgrind.

    bench/profile.py [--digest NAME] [--cache-blocks N] [PROGRAM [SIZE..]]
                    PROGRAM: crates/bucketd/out/bucketd; SIZE in bytes: 1024, 65536 and 16777216; NAME: that of `init --digest`;
                    N: how many blocks that were read stay in memory, 0 if nothing is said. A get reads the same object again
                    and again, so with room for its blocks all gets but the first find them there

Below the ten functions that take most stands what each part of the program takes, and of puts how many times the
instructions of SHA-256, and of SHA-256 and the store, all are. Two runs of each kind differ by so many requests; a request's instructions are the
difference over their number. So what the program does once (its start, the tenant, the first statements' texts) doesn't
count. `script` answers a script of standard input on a host in memory; `serve` answers over loopback on a file in
/dev/shm, and puts new blocks and known ones. Counts are those of one processor's program alone: they don't change with
what runs beside it, and say nothing of the kernel. Each byte that the C library fills by `rep stosb` or copies by
`rep movsb` (a `memset` of 4 KiB, a `memcpy` of 64 KiB) counts as an instruction.
"""
import argparse
import sys
import tempfile

from callgrind import KEY, counted, filled, served
from events import line, request
from server import SHARED_MEMORY as FOLDER, proved_program

NOW = 1_700_000_000
FEW = {1024: 20, 65536: 10, 16777216: 1}
MORE = {1024: 200, 65536: 40, 16777216: 2}
SHOWN = 10
PARTS = [("SHA-256", "sha2"), ("the store", "sqlite"), ("this repository", ("bh_", "bucketd"))]


def body(size, number):
    return ("%016d" % number * (size // 16 + 1))[:size] if size <= 65536 else "".join("%016d" % (number * size + n) for n in range(size // 16))


def start():
    return [
        line({"at": NOW, "op": "tenant-add", "tenant": "green", "quota": 1 << 50}),
        line({"at": NOW, "op": "key-add", "tenant": "green", "name": "k1", "secret": "greensecret"}),
        line({"at": NOW, "http": request("PUT", *KEY, "/plans", "")}),
    ]


def script_of(requests):
    return "".join(start() + [line({"at": NOW, "http": text}) for text in requests]).encode()


def part_of(name):
    """Whose a function is, by its path; one without a path is the C library's, such as memcpy."""
    for part, beginning in PARTS:
        if name.startswith(beginning):
            return part
    return "other crates" if "::" in name else "the C library"


def told(kind, size, few, many, requests):
    each = {name: (many.get(name, 0) - few.get(name, 0)) / requests for name in many}
    total = sum(each.values())
    print(f"\n{kind} of {size:,} bytes: {total:,.0f} instructions")
    for name, count in sorted(each.items(), key=lambda one: -one[1])[:SHOWN]:
        print(f"{count:>16,.0f} {100 * count / total:>5.1f} %  {name}")
    parts = {}
    for name, count in each.items():
        parts[part_of(name)] = parts.get(part_of(name), 0) + count
    print("  " + "; ".join(f"{part} {100 * count / total:.1f} %" for part, count in sorted(parts.items(), key=lambda one: -one[1])))
    if parts.get("SHA-256", 0) > total / 10:
        both = parts["SHA-256"] + parts.get("the store", 0)
        print(f"  {total / parts['SHA-256']:.2f} times what SHA-256 takes, {total / both:.2f} times what it and the store take")
    sys.stdout.flush()


def profiled(program, size, options, cache):
    few, more = FEW[size], MORE[size]
    puts = [request("PUT", *KEY, f"/plans/k{n}", body(size, n)) for n in range(few + more)]
    gets = [request("GET", *KEY, "/plans/k0")] * (few + more)
    known = [request("PUT", *KEY, f"/plans/again{n}", body(size, n)) for n in range(few + more)]

    def script(requests):
        with tempfile.TemporaryDirectory(dir=FOLDER) as folder:
            return counted(folder, [program, "script", *options, *cache], text=script_of(requests))

    def serve(first, last):
        with tempfile.TemporaryDirectory(dir=FOLDER) as folder:
            return served(program, filled(program, folder, first, *options), last, *cache)

    if size * (few + more) < 1 << 25:
        told("script, put", size, script(puts[:few]), script(puts), more)
        told("script, get", size, script(puts[:1] + gets[:few]), script(puts[:1] + gets), more)
    told("serve, put", size, serve([], puts[:few]), serve([], puts), more)
    told("serve, put of known blocks", size, serve(puts, known[:few]), serve(puts, known), more)
    told("serve, get", size, serve(puts[:1], gets[:few]), serve(puts[:1], gets), more)


def main():
    parser = argparse.ArgumentParser(usage=__doc__)
    parser.add_argument("--digest", default="sha256")
    parser.add_argument("--cache-blocks", default="0")
    parser.add_argument("program", nargs="?")
    parser.add_argument("sizes", nargs="*", type=int, default=sorted(FEW))
    options = parser.parse_args()
    program = proved_program([options.program] if options.program else [])
    for size in options.sizes:
        profiled(program, size, ["--digest", options.digest], ["--cache-blocks", options.cache_blocks])


main()
