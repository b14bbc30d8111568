#!/usr/bin/env python3
"""Times sweeps and a report of a host on a file that lies in memory, by bucketd's subcommands.

    bench/sweeps.py [PROGRAM]        PROGRAM: crates/bucketd/out/bucketd

A sweep of 1,000 blocks that nothing refers to among 10,000 and among 100,000 that objects refer to; a sweep there that finds
nothing; and a report, each from its start to its end. Objects are of one block each, 100 of a tenant, so that its quota adds
up little, and are put by `bucketd serve`. The least of three runs on copies of the file counts.
"""
import os
import subprocess
import sys
import tempfile
import time

from server import SHARED_MEMORY, Server, copied, proved_program

DUE = 1000
EACH = 100
RUNS = 3


def filled(program, folder, tenants):
    """A host with these tenants, each with its bucket and objects of bytes of their own, deleted again where nothing shall refer
    to them."""
    file = os.path.join(folder, "host")
    if not os.path.exists(file):
        command(program, "init", file)
    for tenant, _ in tenants:
        command(program, "tenant-add", file, "--tenant", tenant, "--quota", str(1 << 40))
        command(program, "key-add", file, "--tenant", tenant, "--name", "k1", "--secret", "greensecret")
    with Server(program, folder) as server:
        for tenant, is_deleted in tenants:
            server.ask("PUT", "", b"", tenant=tenant)
            for n in range(EACH):
                server.ask("PUT", f"/k{n}", b"%s has %d" % (tenant.encode(), n), tenant=tenant)
                if is_deleted:
                    server.ask("DELETE", f"/k{n}", status=b"204 No Content", tenant=tenant)
    return file


def command(program, name, file, *words):
    subprocess.run([program, name, "--file", file, *words], check=True, stdout=subprocess.DEVNULL)


def milliseconds(program, file, words, wanted):
    """The least time of a command on copies of a file, which tells this."""
    return min(one_run(program, file, words, wanted) for _ in range(RUNS))


def one_run(program, file, words, wanted):
    copied(file, os.path.dirname(file), os.path.basename(file) + "-copy")
    begun = time.perf_counter()
    done = subprocess.run([program, words[0], "--file", f"{file}-copy", *words[1:]], capture_output=True, text=True)
    spent = 1000 * (time.perf_counter() - begun)
    if done.stdout != f"{wanted}\n":
        sys.exit(f"{words} told {done.stdout!r}, not {wanted!r}")
    return spent


def measured(program, used):
    """The milliseconds of a sweep that finds nothing, of one that removes blocks, and of a report."""
    in_use = [(f"t{number}", False) for number in range(used // EACH)]
    due = [(f"d{number}", True) for number in range(DUE // EACH)]
    sizes = sum(len(f"{tenant} has {n}") for tenant, _ in in_use for n in range(EACH))
    sweep = ["sweep", "--limit", str(DUE)]
    with tempfile.TemporaryDirectory(dir=SHARED_MEMORY) as folder:
        file = filled(program, folder, in_use)
        idle = milliseconds(program, file, sweep, "sweep uploads 0 blocks 0 complete")
        report = milliseconds(program, file, ["report"], f"blocks {used} stored {sizes} referred {sizes} clashes 0")
        filled(program, folder, due)
        swept = milliseconds(program, file, sweep, f"sweep uploads 0 blocks {DUE} complete")
    return idle, swept, report


def main():
    program = proved_program(sys.argv[1:])
    print(f"{'blocks in use':>14} {'removed, us each':>17} {'passed over, us each':>21} {'report, ms':>11}")
    for used in (10_000, 100_000):
        idle, swept, report = measured(program, used)
        print(f"{used:>14,} {1000 * (swept - idle) / DUE:>17.2f} {1000 * idle / used:>21.3f} {report:>11.1f}", flush=True)


main()
