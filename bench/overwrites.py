#!/usr/bin/env python3
"""Times a tenant of 17 MiB who overwrites one object of 8 MiB over and over with new bytes, while the server sweeps by itself.

    bench/overwrites.py [--seconds S] [--keep-garbage BYTES].. [PROGRAM]

PROGRAM: crates/bucketd/out/bucketd. S: 60. BYTES: a server that keeps so many bytes that nobody needs, as 0 or 1GiB, one after another;
without the option one that keeps what it keeps if nothing is said. It tells the most bytes that file, log and packs had, beside what
is needed, in how many seconds the rest was swept, and the milliseconds of another tenant's GETs of 1 KiB, one after another, alone and
beside that. Then, of the first server, the rate of GETs by 8 clients, in turns without and with somebody who asks for the page of metrics
ten times a second. Files lie in a new folder of the current one, since a disk is measured. It needs Debian's wrk, and fails if the file
and its log had more than 1.3 times what is needed, what is kept, and 64 MiB: for the 64 MiB that are kept if nothing is said, 128 MiB.
"""
import argparse
import os
import re
import socket
import statistics
import sys
import tempfile
import threading
import time

from server import host, need, proved_program
from wrk import BODY, KEYS, ask, bucketd

MIB, BLOCK = 1 << 20, 1 << 16
QUOTA, SIZE = 17 * MIB, 8 * MIB
# What may be on the disk beside 1.3 times what is needed and what is kept. The most seconds of a sweep at the end.
SPARE, PATIENCE = 64 * MIB, 60


def tell(server, line):
    """What the server says to a line of an operator's."""
    with socket.create_connection(("127.0.0.1", server.operators()), 60) as it:
        it.sendall(line.encode() + b"\n")
        return host.all_of(it)


def put(server, path, body=b""):
    """Puts as the tenant of 17 MiB."""
    if host.Server.ask(server, "blue", "PUT", path, body).status != 200:
        sys.exit(f"a put of {path} was refused")


def figure(server, name):
    """A number of the page of metrics; None where it isn't there."""
    found = re.search(rf"^bucketd_server_{name} (\d+)$", tell(server, '{"op":"metrics"}').decode(), re.M)
    return int(found[1]) if found else None


def swept(server, keep):
    """Seconds until no more is left that nobody needs than is kept; None where that takes too long, or isn't told."""
    begun = time.monotonic()
    while time.monotonic() - begun < PATIENCE:
        if (left := figure(server, "garbage_bytes")) is None:
            return None
        if left <= keep:
            return time.monotonic() - begun
        time.sleep(0.1)
    return None


def overwrite(server, is_over, written):
    """Puts, of which each block is new."""
    body = bytearray(os.urandom(SIZE))
    while not is_over.is_set():
        for start in range(0, SIZE, BLOCK):
            body[start : start + 8] = os.urandom(8)
        put(server, "/maps/large", bytes(body))
        written.append(SIZE)


def gets(server, seconds):
    """Milliseconds of GETs, one after another, and the most bytes on the disk meanwhile."""
    took, most, ends = [], 0, time.monotonic() + seconds
    while time.monotonic() < ends:
        took.append(server.get("/key0", BODY))
        most = max(most, sum(host.on_disk(server.file)))
    return sorted(took), most


def percentile(took):
    return took[int(0.99 * len(took))]


def overwrites(server, seconds):
    """Whether the disk had no more than it may have."""
    tell(server, f'{{"op":"tenant-add","tenant":"blue","quota":{QUOTA}}}')
    tell(server, '{"op":"key-add","tenant":"blue","name":"k1","secret":"bluesecret"}')
    put(server, "/maps")
    alone, _ = gets(server, max(1, seconds // 6))
    is_over, written = threading.Event(), []
    writer = threading.Thread(target=overwrite, args=(server, is_over, written))
    writer.start()
    beside, most = gets(server, seconds)
    is_over.set()
    writer.join()
    keep = figure(server, "keep_garbage_bytes")
    keep = SPARE if keep is None else keep
    took = swept(server, keep)
    needed = SIZE + len(KEYS) * len(BODY)
    allowed = 1.3 * needed + keep + SPARE
    print(f"\n{keep / MIB:.1f} MiB that nobody needs are kept.\n\n| GETs of 1 KiB by one | count | median, ms | 99 % | longest |\n|---|---|---|---|---|")
    for name, all_took in (("alone", alone), ("beside overwrites", beside)):
        print(f"| {name} | {len(all_took)} | {statistics.median(all_took):.2f} | {percentile(all_took):.2f} | {all_took[-1]:.0f} |")
    print(f"\n{sum(written) / MIB:.0f} MiB came in {seconds} s, in {len(written)} puts. The file and its log had at most {most / MIB:.0f} MiB; "
          f"{needed / MIB:.0f} are needed, and {allowed / MIB:.0f} are allowed. 99 % of GETs rose by {percentile(beside) - percentile(alone):.1f} ms. "
          + ("What was left wasn't swept." if took is None else f"What was left was swept within {took:.1f} s."), flush=True)
    return most <= allowed


def scrape(server, is_over):
    while not is_over.wait(0.1):
        if not tell(server, '{"op":"metrics"}').startswith(b"#"):
            sys.exit("no page of metrics came")


def turn(server, target, is_asked):
    """The rate of GETs by 8 clients."""
    is_over = threading.Event()
    asker = threading.Thread(target=scrape, args=(server, is_over))
    if is_asked:
        asker.start()
    rate = ask(target, "GET", 8, 2).rate
    is_over.set()
    if is_asked:
        asker.join()
    return rate


def metrics(server, target):
    turns = [[turn(server, target, it) for it in (False, True)] for _ in range(6)]
    ratios = sorted(asked / alone for alone, asked in turns[1:])
    print(f"\nBeside metrics, GETs by 8 clients have {statistics.median(ratios):.2f} of the rate ({ratios[0]:.2f} to {ratios[-1]:.2f}).", flush=True)


def main():
    options = argparse.ArgumentParser()
    options.add_argument("--seconds", type=int, default=60)
    options.add_argument("--keep-garbage", action="append", metavar="BYTES")
    options.add_argument("program", nargs="?")
    o = options.parse_args()
    need(wrk="wrk")
    program = proved_program([o.program] if o.program else [])
    is_well = True
    with tempfile.TemporaryDirectory(dir=".") as folder:
        for number, keep in enumerate(o.keep_garbage or [None]):
            server, target = bucketd("bucketd", program, os.path.abspath(folder), "--operator-port", "0", *(["--keep-garbage", keep] if keep else []))
            with server:
                is_well = overwrites(server, o.seconds) and is_well
                if number == 0:
                    metrics(server, target)
    sys.exit(0 if is_well else "the disk had more than it may have")


main()
