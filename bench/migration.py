#!/usr/bin/env python3
"""Times the first opening of a host's file of each earlier version, which brings it over, beside that of the same host of version 5.

    bench/migration.py [PROGRAM [MEGABYTES..]]      the proved program, and files of 1 and 100 MB

A host is filled by `serve` with objects of 4 MiB and closed; Python's sqlite3 drops the tables that the earlier version hasn't and
sets the number back, and each page gets its sum. Copies of such a file, and of the one that it becomes, are opened in turns, 9 times
each, by a `serve` that is killed once it listens: the least and the middle of its seconds of a processor, and the pages that the
opening has left in the log. Ends with 1 where bringing over a file adds 50 ms to the least, or writes 50 pages.
"""
import os
import shutil
import sqlite3
import statistics
import sys
import tempfile

from opening import fill, listens, make, sum_of, used
from server import SHARED_MEMORY, Server, host, proved_program

PAGE, HEAD, FRAME = 4096, 32, 4096 + 24
TURNS = 9
MOST_MILLISECONDS, MOST_PAGES = 50, 50
# The last tables, of each version.
TABLES = {5: ["unneeded"], 4: ["garbage", "rights", "upload_notes", "notes", "placed", "packs"], 3: ["tallies"], 2: ["retains", "locks"]}


def set_back(file, version):
    """Makes a host's file, whose log is empty, one of an earlier version, in which all bytes of blocks are in rows."""
    whole = host.opened(file)
    rows = whole.execute("SELECT bytes, digest, ord FROM blocks").fetchall() if version == 4 else []
    whole.close()
    it = sqlite3.connect(file, isolation_level=None)
    it.executemany("UPDATE blocks SET bytes = ? WHERE digest = ? AND ord = ?", rows)
    drops = [f"DROP TABLE IF EXISTS {table}" for number, tables in TABLES.items() if number > version for table in tables]
    for text in (*drops, f"UPDATE host SET version = {version}", "PRAGMA wal_checkpoint(TRUNCATE)"):
        it.execute(text)
    it.close()
    with open(file, "r+b") as data:
        for at in range(0, os.path.getsize(file), PAGE):
            data.seek(at)
            page = data.read(PAGE)
            data.seek(at + PAGE - 8)
            data.write(sum_of(page))


def version_of(file):
    """The number in a file whose log is empty."""
    it = sqlite3.connect(f"file:{file}?immutable=1", uri=True)
    try:
        return it.execute("SELECT version FROM host").fetchone()[0]
    finally:
        it.close()


def opened(program, file, kept):
    """Seconds of a processor until a copy of a file is opened, and the pages in its log then."""
    shutil.copy(kept, file)
    _, seconds, _ = listens(program, file)
    log = file + "-wal"
    pages = max(0, os.path.getsize(log) - HEAD) // FRAME if os.path.exists(log) else 0
    for it in (log, file):
        if os.path.exists(it):
            os.remove(it)
    return seconds, pages


def measured(program, megabytes):
    folder = tempfile.mkdtemp(prefix="migration-", dir=SHARED_MEMORY)
    try:
        file, kept = make(program, folder, PAGE, True), {it: os.path.join(folder, f"version-{it}") for it in (1, 2, 3, 4, 5)}
        with Server(program, folder) as on:
            on.ask("PUT", "", b"")
        fill(program, folder, megabytes * 10**6)
        used(program, file)
        for version in (4, 3, 2, 1):
            set_back(file, version)
            shutil.copy(file, kept[version])
        used(program, file)
        shutil.move(file, kept[5])
        if [version_of(it) for it in kept.values()] != [1, 2, 3, 4, 5]:
            sys.exit(f"versions {[version_of(it) for it in kept.values()]}")
        turns = [[opened(program, file, it) for it in kept.values()] for _ in range(TURNS)]
        length, is_well, least = os.path.getsize(kept[1]) / 1e6, True, []
        for at, name in enumerate(("1, brought over", "2, brought over", "3, brought over", "4, brought over", "5")):
            seconds, pages = [it[at][0] for it in turns], max(it[at][1] for it in turns)
            least.append(min(seconds))
            print(f"| {length:.0f} | {name} | {min(seconds):.3f} | {statistics.median(seconds):.3f} | {pages} |", flush=True)
            is_well = is_well and pages < MOST_PAGES
        return is_well and (max(least) - least[-1]) * 1000 < MOST_MILLISECONDS
    finally:
        shutil.rmtree(folder)


def main():
    program = proved_program(sys.argv[1:2])
    print("| File, MB | of version | opened, s of a processor, least | the middle one | pages written |\n|---|---|---|---|---|")
    results = [measured(program, it) for it in [int(it) for it in sys.argv[2:]] or [1, 100]]
    sys.exit(0 if all(results) else 1)


main()
