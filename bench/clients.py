#!/usr/bin/env python3
"""Times `bucketd serve` with many clients at once, each request on a connection of its own.

    bench/clients.py [--only PARTS] [--turns N] [--seconds S] [--before BEFORE] [PROGRAM [BEFORE]]

PROGRAM: crates/bucketd/out/bucketd; BEFORE: another one, which is beside it in the parts latency, rates, one and synced. PARTS, with commas:
beside: GETs of 1 KiB by 8 clients, in turns of a server with nobody else, and of one that also has 1,000 silent clients, 300 who send
1 KiB of a body each 50 ms, and 300 who asked for 16 MiB and read nothing; latency: GETs of 1 KiB by one, alone and beside 8 who put
16 MiB of new bytes over and over; rates: puts of new bytes and gets, 1 KiB each, by 64 clients, beside nginx's DAV and radosgw; one: the
same by one client, without those; synced: puts by one client and by 64, where each sync takes 5 ms longer; memory: with nobody, 1,000
silent clients, and 300 who sent half of 128 KiB and wait.

It needs Debian's wrk; nginx-light, and radosgw with ceph-mon, ceph-osd and ceph-common, are left out where they aren't there. Files lie
in a new folder of /dev/shm (FOLDER in the environment names another place), but the 4 GB of answers that nobody reads in one of the
current folder. A turn has --seconds (1), twice as many beside strangers. Tables of Markdown come on standard output, each turn on
standard error.
"""
import argparse
import multiprocessing
import os
import resource
import statistics
import subprocess
import sys
import tempfile
import threading
import time

from server import SHARED_MEMORY, need, proved_program, request
from wrk import BODY, HEADS, ask, bucketd, cells, others

SILENT, SENDERS, READERS, PUTTERS, BODIES = 1000, 300, 300, 8, 300
LARGE, BLOCK = 1 << 24, 1 << 16


class Strangers:
    """Clients who are silent, who send slowly, and who asked for much and read nothing, until it ends."""

    def __init__(self, server):
        server.put("/large", os.urandom(LARGE))
        self.links = [server.socket() for _ in range(SILENT + READERS)]
        for it in self.links[SILENT:]:
            it.sendall(request("green", "GET", "/plans/large", None))
        self.senders, self.lost, self.over = [server.socket() for _ in range(SENDERS)], 0, threading.Event()
        for i, it in enumerate(self.senders):
            it.sendall(request("green", "PUT", f"/plans/slow{i}", length=LARGE))
        self.thread = threading.Thread(target=self.send)
        self.thread.start()
        self.held_up = self.settled(server)

    @staticmethod
    def settled(server):
        """Seconds until ten GETs, one after another, took less than 100 ms each: answers without room in files may hold up the others."""
        begun, quick = time.monotonic(), 0
        while quick < 10 and time.monotonic() - begun < 150:
            quick = quick + 1 if server.get("/key0", BODY) < 100 else 0
        return time.monotonic() - begun

    def send(self):
        while not self.over.wait(0.05):
            for it in list(self.senders):
                try:
                    it.sendall(BODY)
                except OSError:
                    self.senders.remove(it)
                    self.lost += 1

    def end(self):
        self.over.set()
        self.thread.join()
        for it in self.senders + self.links:
            it.close()


def beside(o, folder):
    with tempfile.TemporaryDirectory(dir=".") as spool:
        options = ["--timeout", "200", "--spool", os.path.abspath(spool)]
        (bare, alone), (server, crowded) = (bucketd(it, o.program, folder, *options) for it in ("alone", "beside strangers"))
        with bare, server:
            strangers = Strangers(server)
            try:
                for it in (alone, crowded):
                    ask(it, "GET", 8, 1)
                before = server.memory("VmRSS")
                found = [[ask(it, "GET", 8, 2 * o.seconds) for it in (alone, crowded)] for _ in range(o.turns)]
                memory = f"{before:.0f} to {server.memory('VmRSS'):.0f}, at most {server.memory('VmHWM'):.0f}"
            finally:
                strangers.end()
    print(f"\n| GETs of 1 KiB by 8 | {HEADS} |\n|---|---|---|---|---|")
    for name, turns in zip(("nobody else", f"{SILENT} silent, {SENDERS} slow senders, {READERS} who read nothing"), zip(*found)):
        print(f"| {name} | {cells(turns)} |")
    ratios = sorted(b.rate / a.rate for a, b in found)
    print(f"\nThe ratio of a turn is {statistics.median(ratios):.2f} ({ratios[0]:.2f} to {ratios[-1]:.2f}). Resident MiB beside strangers: {memory}. "
          f"{strangers.lost} slow senders were cut off. GETs were held up for {strangers.held_up:.1f} s before.", flush=True)


def put_over_and_over(server, is_over, count):
    """Puts of 16 MiB, of which each block is new."""
    body, head = bytearray(os.urandom(LARGE)), request("green", "PUT", f"/plans/large{os.getpid()}", length=LARGE)
    while not is_over.is_set():
        for start in range(0, LARGE, BLOCK):
            body[start : start + 8] = os.urandom(8)
        with server.socket() as it:
            it.sendall(head)
            it.sendall(body)
            is_done = it.recv(BLOCK).startswith(b"HTTP/1.1 200 ")
        with count.get_lock():
            count.value += is_done


def get_for(server, seconds):
    """Milliseconds of GETs, one after another."""
    took, ends = [], time.monotonic() + seconds
    while time.monotonic() < ends:
        took.append(server.get("/key0", BODY))
    return sorted(took)


def beside_putters(server, seconds):
    """Milliseconds of GETs, and how many bodies of 16 MiB were put in a second meanwhile."""
    is_over, count = multiprocessing.Event(), multiprocessing.Value("i")
    putters = [multiprocessing.Process(target=put_over_and_over, args=(server, is_over, count)) for _ in range(PUTTERS)]
    for it in putters:
        it.start()
    time.sleep(1)
    before, begun = count.value, time.monotonic()
    took = get_for(server, seconds)
    rate = (count.value - before) / (time.monotonic() - begun)
    is_over.set()
    for it in putters:
        it.join(60)
        it.kill()
    return took, rate


def latency(o, folder):
    print("\n| GETs of 1 KiB by one | count | median, ms | 99 % | longest | 16 MiB put a second |\n|---|---|---|---|---|---|", flush=True)
    for name, program in o.programs:
        with bucketd(name, program, folder)[0] as server:
            for beside, (took, rate) in (("alone", (get_for(server, o.seconds), 0)), (f"beside {PUTTERS}", beside_putters(server, 8 * o.seconds))):
                told = (statistics.median(took), took[int(0.99 * len(took))], took[-1], rate)
                print(f"| {name}, {beside} | {len(took)} | {' | '.join(f'{it:.2f}' for it in told)} |", flush=True)


def in_turns(o, folder, clients, more=lambda folder: []):
    """Rates of all servers, one after another in each turn, of which the first isn't counted."""
    targets = [bucketd(name, program, folder)[1] for name, program in o.programs]
    try:
        targets += more(folder)
        found = {(method, it.name): [] for method in ("PUT", "GET") for it in targets}
        for _ in range(o.turns + 1):
            for it in targets:
                for method in ("PUT", "GET"):
                    found[method, it.name].append(ask(it, method, clients, o.seconds))
    finally:
        for it in targets:
            it.end()
    print(f"\n| 1 KiB, clients: {clients} | {HEADS} | bucketd's rate to it |\n|---|---|---|---|---|---|")
    for (method, name), turns in found.items():
        ratio = statistics.median(a.rate / max(b.rate, 1) for a, b in zip(found[method, "bucketd"][1:], turns[1:]))
        print(f"| {method}, {name} | {cells(turns[1:])} | {ratio:.2f} |", flush=True)


def synced(o, folder):
    """Puts where each sync takes 5 ms longer: those that share a transaction share its syncs."""
    library = os.path.join(folder, "late_sync.so")
    subprocess.run(["cc", "-O2", "-shared", "-fPIC", "-o", library, os.path.join(os.path.dirname(__file__), "../tools/preload/late_sync.c")], check=True)
    print(f"\n| PUT of 1 KiB, a sync 5 ms longer | {HEADS} |\n|---|---|---|---|---|")
    for name, program in o.programs:
        server, target = bucketd(name, program, folder, LD_PRELOAD=library)
        with server:
            for clients in (1, 64):
                print(f"| {name}, clients: {clients} | {cells([ask(target, 'PUT', clients, o.seconds) for _ in range(o.turns)])} |", flush=True)


def memory(o, folder):
    with bucketd("bucketd", o.program, folder)[0] as server:
        told = {"nobody": server.memory("VmRSS")}
        silent = [server.socket() for _ in range(SILENT)]
        server.get("/key0", BODY)
        told[f"{SILENT} silent clients"] = server.memory("VmRSS")
        for it in silent:
            it.close()
        waiting = [server.socket() for _ in range(BODIES)]
        for i, it in enumerate(waiting):
            it.sendall(request("green", "PUT", f"/plans/wait{i}", os.urandom(BLOCK), length=2 * BLOCK))
        for _ in range(10):
            server.get("/key0", BODY)
            time.sleep(0.1)
        told[f"{BODIES} bodies of which 64 KiB wait"] = server.memory("VmRSS")
        for it in waiting:
            it.close()
    print("\n| Beside | Resident, MiB |\n|---|---|")
    for name, size in told.items():
        print(f"| {name} | {size:.1f} |", flush=True)


PARTS = {"beside": beside, "latency": latency, "rates": lambda o, folder: in_turns(o, folder, 64, others), "one": lambda o, folder: in_turns(o, folder, 1), "synced": synced,
         "memory": memory}


def main():
    options = argparse.ArgumentParser()
    options.add_argument("--only", default=",".join(PARTS))
    options.add_argument("--turns", type=int, default=5)
    options.add_argument("--seconds", type=int, default=1)
    options.add_argument("--before")
    options.add_argument("program", nargs="?")
    options.add_argument("before", nargs="?", default=argparse.SUPPRESS)
    o = options.parse_args()
    need(wrk="wrk")
    o.program = proved_program([o.program] if o.program else [])
    o.programs = [("bucketd", o.program)] + ([("before", os.path.abspath(o.before))] if o.before else [])
    most = resource.getrlimit(resource.RLIMIT_NOFILE)[1]
    resource.setrlimit(resource.RLIMIT_NOFILE, (most, most))
    load = lambda: " ".join(open("/proc/loadavg").read().split()[:3])
    print(f"load before: {load()}", flush=True)
    for name in o.only.split(","):
        with tempfile.TemporaryDirectory(dir=os.environ.get("FOLDER", SHARED_MEMORY)) as folder:
            PARTS[name](o, os.path.abspath(folder))
    print(f"\nload after (with this run): {load()}")


main()
