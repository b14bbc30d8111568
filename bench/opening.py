#!/usr/bin/env python3
"""Times the opening of a host's file, after a clean end and after a kill, with pages of 4, 16 and 64 KiB.

    bench/opening.py [PROGRAM [MEGABYTES..]]      the proved program, and files of 10 and 100 MB

The file is filled by `serve` with objects of 4 MiB. Told are the seconds from the start of `serve` until it listens, by the clock
and of a processor, the least of three, the greatest resident memory then, and the seconds of the command `usage`, which also
copies the log into the file and closes it. After a clean end the log is empty; after a kill it has up to 34 MB.

`init` makes pages of 4 KiB with a sum each. It takes a file of no tables as well, and keeps its pages: those of 16 and 64 KiB are
files of one page that Python's sqlite3 made, to which the sums of SQLite's cksumvfs are added here.
"""
import os
import re
import shutil
import sqlite3
import struct
import subprocess
import sys
import tempfile
import time

from server import SHARED_MEMORY, Server, await_listener, free_port, make_host, on_disk, proved_program

OBJECT = 4 << 20
# Bytes that the log may have where it isn't copied into the file yet: fewer than 3,800 pages of 4 KiB.
LOGGED = 12 << 20
PAGES = [(4096, True), (4096, False), (16384, True), (65536, True), (65536, False)]
# Files from this size on are made with sums alone.
MANY_MEGABYTES = 1000


def sum_of(page):
    """The sum of a page by cksumvfs, over all of it but the last 8 bytes."""
    first = second = 0
    for one, other in struct.iter_unpack("<II", page[:-8]):
        first = (first + one + second) & 0xFFFFFFFF
        second = (second + other + first) & 0xFFFFFFFF
    return struct.pack("<II", first, second)


def make_empty(file, size, has_sums):
    """A database without tables, of one page."""
    it = sqlite3.connect(file)
    it.executescript(f"PRAGMA page_size = {size}; PRAGMA user_version = 1; PRAGMA user_version = 0")
    it.close()
    if has_sums:
        with open(file, "rb") as data:
            page = bytearray(data.read())
        page[20] = 8  # reserved at the end of each page
        page[105:107] = struct.pack(">H", size - 8)  # where the cells of the first page begin
        page[-8:] = sum_of(page)
        with open(file, "wb") as out:
            out.write(page)


def make(program, folder, size, has_sums):
    file = os.path.join(folder, "host")
    if (size, has_sums) != (4096, True):
        make_empty(file, size, has_sums)
    return make_host(program, file, ["green"])


def fill(program, folder, total):
    """Puts objects of so many bytes altogether, and kills the server: seconds of the puts."""
    with Server(program, folder) as on:
        before = time.perf_counter()
        for _ in range(max(1, total // OBJECT)):
            on.put(f"/{os.urandom(8).hex()}", os.urandom(OBJECT))
        return time.perf_counter() - before


def listens(program, file):
    """Seconds until a server listens, by the clock and of a processor, and the greatest resident memory so far in 2^20 bytes. It is
    killed then."""
    port = free_port()
    before = time.perf_counter()
    process = subprocess.Popen([program, "serve", "--file", file, "--port", str(port), "--count", "1"], stderr=subprocess.DEVNULL)
    if not await_listener(process, port):
        sys.exit("the server doesn't open the file")
    seconds = time.perf_counter() - before
    with open(f"/proc/{process.pid}/status") as status:
        memory = int(re.search(r"VmHWM:\s+(\d+)", status.read()).group(1)) / 1024
    process.kill()
    _, _, used = os.wait4(process.pid, 0)
    process.returncode = -9
    return seconds, used.ru_utime + used.ru_stime, memory


def used(program, file):
    before = time.perf_counter()
    subprocess.run([program, "usage", "--file", file, "--tenant", "green"], check=True, stdout=subprocess.DEVNULL)
    return time.perf_counter() - before


def row(program, file, name, size, has_sums):
    length, log, packs = (it / 1e6 for it in on_disk(file))
    times = [listens(program, file) for _ in range(3)]
    print(f"| {length:.0f} | {log:.0f} | {packs:.0f} | {size // 1024} KiB{'' if has_sums else ', no sums'} | {name} | {min(it[0] for it in times):.2f} | "
          f"{min(it[1] for it in times):.2f} | {max(it[2] for it in times):.0f} | {used(program, file):.2f} |", flush=True)


def main():
    program = proved_program(sys.argv[1:2])
    sizes = [int(it) for it in sys.argv[2:]] or [10, 100]
    print("| File, MB | Log, MB | Packs, MB | Pages | after | until it listens, s | of a processor, s | resident, MB | `usage`, s |\n|---|---|---|---|---|---|---|---|---|")
    for megabytes in sizes:
        for size, has_sums in PAGES if megabytes < MANY_MEGABYTES else [it for it in PAGES if it[1]]:
            folder = tempfile.mkdtemp(prefix="opening-", dir=SHARED_MEMORY)
            try:
                file = make(program, folder, size, has_sums)
                with Server(program, folder) as on:
                    on.ask("PUT", "", b"")
                fill(program, folder, megabytes * 10**6)
                used(program, file)
                row(program, file, "a clean end", size, has_sums)
                fill(program, folder, min(LOGGED, megabytes * 10**6))
                row(program, file, "a kill", size, has_sums)
            finally:
                shutil.rmtree(folder)


if __name__ == "__main__":
    main()
