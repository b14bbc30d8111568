#!/usr/bin/env python3
"""Times blocks of 8 bytes by `bucketd serve` on a file that lies in memory, with 1,000 rows and with 100,000: objects of one block
each, 1,000 new and 1,000 known, a connection and a transaction each; an object of 1,000 new blocks; and 1,000 blocks removed by
`bucketd sweep`, beside a sweep that removes none.

    bench/blocks.py [PROGRAM]        PROGRAM: crates/bucketd/out/bucketd

The least of three runs counts. Exit 1 where one of them takes more than twice as long with 100,000 rows; those stored new
together may take longer, as each falls on another page of the index of a larger table, and all these pages are written at once.
"""
import subprocess
import sys
import tempfile
import time

from server import SHARED_MEMORY, Server, proved_program

FEW, MANY = 1000, 100000
COUNT = 1000
RUNS = 3
GREATEST_RATIO = 2
KINDS = ["new", "again", "new together", "removed"]
MAY_GROW = {"new together"}


def numbers(first, end):
    return b"".join(b"%08d" % n for n in range(first, end))


def swept(program, file, limit):
    """The milliseconds of a sweep, and what it told."""
    begun = time.perf_counter()
    done = subprocess.run([program, "sweep", "--file", file, "--limit", str(limit)], capture_output=True, text=True)
    return 1000 * (time.perf_counter() - begun), done.stdout


def one_run(program, rows):
    """The microseconds of a block, of each kind. Each put replaces the object before, so that no reference names its blocks."""
    with tempfile.TemporaryDirectory(dir=SHARED_MEMORY) as folder:
        with Server(program, folder, "--block-size", "8") as server:
            for first in range(0, rows, COUNT):
                server.put("/x", numbers(first, first + COUNT))
            new = sum(server.put("/x", numbers(n, n + 1)) for n in range(rows, rows + COUNT))
            again = sum(server.put("/x", numbers(n, n + 1)) for n in range(COUNT))
            together = server.put("/x", numbers(rows + COUNT, rows + 2 * COUNT))
            server.put("/x", b"")
        idle, _ = swept(program, server.file, 0)
        removed, told = swept(program, server.file, COUNT)
    if told != f"sweep uploads 0 blocks {COUNT} partial\n":
        sys.exit(f"a sweep told {told!r}")
    return [1000 * milliseconds / COUNT for milliseconds in (new, again, together, removed - idle)]


def microseconds(program, rows):
    """The least of some runs, of each kind."""
    return [min(times) for times in zip(*(one_run(program, rows) for _ in range(RUNS)))]


def main():
    program = proved_program(sys.argv[1:])
    few, many = microseconds(program, FEW), microseconds(program, MANY)
    print(f"{'microseconds a block':>20} {FEW:>9} {MANY:>9} {'ratio':>6}")
    for kind, least, most in zip(KINDS, few, many):
        print(f"{kind:>20} {least:>9.1f} {most:>9.1f} {most / least:>6.2f}")
    is_flat = all(most <= GREATEST_RATIO * least for kind, least, most in zip(KINDS, few, many) if kind not in MAY_GROW)
    sys.exit(0 if is_flat else f"a block takes more than {GREATEST_RATIO} times as long with {MANY} rows")


main()
