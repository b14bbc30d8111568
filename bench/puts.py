#!/usr/bin/env python3
"""Processor time of puts of new bytes by several programs, asked in turns.

    bench/puts.py [--alone] [PROGRAM [BEFORE ..]]      PROGRAM: crates/bucketd/out/bucketd; BEFORE: programs that it is compared with

Each program serves a host of its own in one new folder of /dev/shm (FOLDER in the environment names another place). For each
size, each server in turn gets one body that no block of its host has yet, a connection a request. The milliseconds are those
of the server's process on a processor, by /proc/PID/schedstat: the median and the least. The ratio is that of PROGRAM's median
to another one's. The last lines have the most memory that each server had, in MiB.

With `--alone` each program serves a second host, whose blocks have 65,535 bytes. Lanes are for multiples of 64 bytes, so there
each block is hashed alone: the same program, and the same work but for the lanes. Bodies are whole blocks of each host, and the
ratios are to the first program's second host. Bodies of four to seven blocks are left out: idle lanes would be hashed alone, too.
"""
import os
import statistics
import sys
import tempfile

from server import SHARED_MEMORY, Server, proved_program

SIZES = [(1 << 10, 100), (1 << 16, 60), (1 << 17, 40), (1 << 18, 40), (3 << 17, 30), (1 << 19, 40), (1 << 20, 40), (1 << 24, 10)]
BLOCK, ODD = 65536, 65535


def put(server, size, number):
    """The milliseconds of a processor that a put of new bytes takes."""
    before = server.spent()
    server.put(f"/new-{size}-{number}", os.urandom(size))
    return 1000 * (server.spent() - before)


def size_for(size, block):
    """As many blocks as `size` has of 65,536 bytes."""
    return size if size < BLOCK else size // BLOCK * block


def start(programs, blocks, folder):
    """A server of each program for each size of blocks, with its title and that size."""
    servers = []
    for program in programs:
        for block in blocks:
            place = os.path.join(folder, str(len(servers)))
            os.makedirs(place)
            servers.append((Server(os.path.abspath(program), place, "--block-size", str(block)), block))
            print(f"{len(servers) - 1}: {program}, blocks of {block} bytes")
    return servers


def main():
    words = [it for it in sys.argv[1:] if it != "--alone"]
    alone = len(words) < len(sys.argv) - 1
    programs = [proved_program(words), *words[1:]]
    sizes = [it for it in SIZES if not (alone and 3 < it[0] // BLOCK < 8)]
    with tempfile.TemporaryDirectory(dir=os.environ.get("FOLDER", SHARED_MEMORY)) as folder:
        servers = start(programs, [ODD, BLOCK] if alone else [BLOCK], folder)
        print(f"{'bytes':>9} " + " ".join(f"{f'{it}: median (least)':>20} {'ratio':>6}" for it in range(len(servers))))
        for size, count in sizes:
            took = [[] for _ in servers]
            for number in range(count):
                for (server, block), times in zip(servers, took):
                    times.append(put(server, size_for(size, block), number))
            medians = [statistics.median(it) for it in took]
            ratios = [it / medians[0] if alone else medians[0] / it for it in medians]
            cells = (f"{f'{m:.2f} ({min(it):.2f})':>20} {ratio:>6.2f}" for m, it, ratio in zip(medians, took, ratios))
            print(f"{size:>9} " + " ".join(cells), flush=True)
        for number, (server, _) in enumerate(servers):
            print(f"{number}: {server.memory('VmHWM'):.1f} MiB")
            server.end()


main()
