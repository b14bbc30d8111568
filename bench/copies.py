#!/usr/bin/env python3
"""Counts the bytes that `bucketd serve` copies by memcpy and memmove for each byte of a body that is put or got.

    bench/copies.py [PROGRAM]      PROGRAM: crates/bucketd/out/bucketd

Bodies of 1 and 16 MiB, of blocks that are new, on a file in /dev/shm. A copy that the compiler made without a call isn't counted, nor
is what the kernel copies.
"""
import os
import subprocess
import sys
import tempfile

from server import SHARED_MEMORY, Server, proved_program

BENCH = os.path.dirname(os.path.abspath(__file__))
SIZES = [1 << 20, 1 << 24]


class CountedServer(Server):
    """A server that ends after so many connections, and tells then how many bytes it copied."""

    def __init__(self, program, folder, library, count):
        self.told = os.path.join(folder, "copied")
        self.given = {"LD_PRELOAD": library, "COPIED": self.told}
        os.environ.update(self.given)
        try:
            super().__init__(program, folder, count=count)
        finally:
            for name in self.given:
                del os.environ[name]

    def copied(self):
        self.process.wait(60)
        with open(self.told, encoding="utf-8") as file:
            return int(file.read())


def counted(program, folder, library, acts):
    """The bytes copied by a server that is asked so, beside a connection that closes without a byte."""
    with CountedServer(program, folder, library, 1 + len(acts)) as server:
        for act in acts:
            act(server)
        server.socket().close()
        return server.copied()


def main():
    program = proved_program(sys.argv[1:])
    with tempfile.TemporaryDirectory(dir=SHARED_MEMORY) as folder:
        library = os.path.join(folder, "count_copies.so")
        words = ["cc", "-O2", "-fno-builtin", "-shared", "-fPIC", "-o", library, os.path.join(BENCH, "count_copies.c")]
        subprocess.run(words, check=True)
        with Server(program, folder):
            pass
        print(f"{'request':>8} {'bytes':>9} {'copied for each byte':>21}")
        for size in SIZES:
            body, other = os.urandom(size), os.urandom(size)
            put, put_other = (lambda it: it.put("/x", body)), (lambda it: it.put("/y", other))
            counted(program, folder, library, [put])
            for name, act in (("PUT", put_other), ("GET", lambda it: it.get("/x", body))):
                opened = counted(program, folder, library, [])
                print(f"{name:>8} {size:>9} {(counted(program, folder, library, [act]) - opened) / size:>21.2f}", flush=True)


main()
