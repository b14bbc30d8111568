#!/usr/bin/env python3
"""Times puts and gets of bodies by `bucketd serve` over loopback, a connection each, one after another.

    bench/bodies.py [PROGRAM] [PART..]      PROGRAM: crates/bucketd/out/bucketd; PART: sizes, growth, memory, great, plain, digest (all)

sizes: bodies of 1 KiB to 16 MiB, of blocks that are new and of blocks that another object has, on a file that lies in
memory and on the disk (FOLDER in the environment names its folder). growth: puts and gets of 1 KiB in a bucket with 100
to 100,000 objects. memory: the greatest resident memory of a server that got or gave one body of 16 MiB; great: of
one that got 1 GiB as a document and with a request that reads no body, of one that got and gave an object of 1 GiB, and
how long the next client waits for one that reads nothing of that and is broken off after 2 seconds. plain: a get of 16 MiB beside a plain server's, which reads a file of the same bytes and sends it. digest:
the share of SHA-256 in puts of 16 MiB, by Linux's perf.
"""
import os
import re
import statistics
import subprocess
import sys
import tempfile
import time

from server import SHARED_MEMORY, PlainServer, Server, need, on_disk, proved_program

SIZES = [(1 << 10, 300), (1 << 16, 200), (1 << 20, 40), (1 << 24, 8)]
COUNTS = [100, 1000, 10000]


def in_folder(place):
    return tempfile.TemporaryDirectory(dir=place)


def sizes(program):
    print(f"{'folder':>10} {'bytes':>9} {'new ms':>9} {'known ms':>9} {'again ms':>9} {'get ms':>9} {'resident MB':>12}")
    for place in (SHARED_MEMORY, os.environ.get("FOLDER", ".")):
        with in_folder(place) as folder, Server(program, folder) as server:
            for size, count in SIZES:
                bodies = [os.urandom(size) for _ in range(count)]
                new = [server.put(f"/n{size}-{n}", body) for n, body in enumerate(bodies)]
                known = [server.put(f"/m{size}-{n}", bodies[0]) for n in range(count)]
                again = [server.put(f"/m{size}-{n}", bodies[n]) for n in range(count)]
                got = [server.get(f"/n{size}-{n}", body) for n, body in enumerate(bodies)]
                medians = " ".join(f"{statistics.median(times):>9.3f}" for times in (new, known, again, got))
                print(f"{os.path.relpath(place)[-10:]:>10} {size:>9} {medians} {server.memory('VmRSS'):>12.1f}", flush=True)


def growth(program):
    """The bodies are all different. What is timed is 300 puts of new keys, and gets that go over all keys."""
    print(f"{'objects':>9} {'put ms':>9} {'get ms':>9} {'file MB':>9}")
    body_of = lambda n: (b"%08d" % n) * 128
    with in_folder(SHARED_MEMORY) as folder, Server(program, folder) as server:
        count = 0
        for objects in COUNTS:
            while count < objects - min(300, objects // 2):
                server.put(f"/k{count}", body_of(count))
                count += 1
            puts = []
            while count < objects:
                puts.append(server.put(f"/k{count}", body_of(count)))
                count += 1
            keys = [n * 7919 % objects for n in range(300)]
            gets = [server.get(f"/k{n}", body_of(n)) for n in keys]
            length = sum(on_disk(server.file))
            print(f"{objects:>9} {statistics.median(puts):>9.3f} {statistics.median(gets):>9.3f} {length / 1e6:>9.1f}", flush=True)


def memory(program):
    body = os.urandom(1 << 24)
    with in_folder(SHARED_MEMORY) as folder:
        with Server(program, folder) as server:
            server.put("/x", body)
            print(f"PUT of 16 MiB: peak {server.memory('VmHWM'):.0f} MB")
            server.put("/y", body)
            print(f"PUT of a known 16 MiB then: peak {server.memory('VmHWM'):.0f} MB")
        with Server(program, folder) as server:
            server.get("/x", body)
            print(f"GET of 16 MiB: peak {server.memory('VmHWM'):.0f} MB")


def great(program):
    with in_folder(SHARED_MEMORY) as folder, Server(program, folder, limits=("--max-body", str(1 << 30))) as server:
        took, _ = server.ask("PUT", "?versioning", b" " * (1 << 30), b"400 Bad Request")
        print(f"a document of 1 GiB, refused: peak {server.memory('VmHWM'):.0f} MB; {took / 1000:.1f} s", flush=True)
        took, _ = server.ask("GET", "?versioning", b" " * (1 << 30))
        print(f"1 GiB that nothing reads: peak {server.memory('VmHWM'):.0f} MB; {took / 1000:.1f} s", flush=True)
    body = os.urandom(1 << 30)
    with in_folder(SHARED_MEMORY) as folder, Server(program, folder, "--timeout", "2", limits=("--max-body", str(len(body)))) as server:
        before = server.memory("VmHWM")
        took = server.put("/x", body)
        after = server.memory("VmHWM")
        print(f"PUT of 1 GiB: peak {after:.0f} MB, before it {before:.0f} MB; {took / 1000:.1f} s", flush=True)
        took = server.get("/x", body)
        print(f"GET of 1 GiB then: peak {server.memory('VmHWM'):.0f} MB; {took / 1000:.1f} s", flush=True)
        with server.silent("/x"):
            begun = time.monotonic()
            server.put("/y", b"y")
            print(f"beside a client that reads nothing of it the next is answered after {time.monotonic() - begun:.1f} s, peak {server.memory('VmHWM'):.0f} MB")


def plain(program):
    """The two servers take turns, so that what else the machine does meets both."""
    body = os.urandom(1 << 24)
    with in_folder(SHARED_MEMORY) as folder, Server(program, folder) as server, PlainServer(folder, body) as other:
        server.put("/x", body)
        pairs = [(server.get("/x", body), other.get("/x", body)) for _ in range(15)]
        ours, others = (statistics.median(times) for times in zip(*pairs))
        print(f"GET of 16 MiB: {ours:.1f} ms; a plain file's read and send {others:.1f} ms; ratio {ours / others:.2f}")


def shares(program, kind, act):
    """The greatest shares of the processor's time, by function, of what a server does."""
    with in_folder(SHARED_MEMORY) as folder, Server(program, folder) as server:
        bodies = [os.urandom(1 << 24) for _ in range(5)]
        for n, body in enumerate(bodies if kind != "PUT, new" else []):
            server.put(f"/x{n}", body)
        data = os.path.join(folder, "perf")
        perf = subprocess.Popen(["perf", "record", "-q", "-F", "999", "-p", str(server.process.pid), "-o", data], stderr=subprocess.DEVNULL)
        time.sleep(0.5)
        for n, body in enumerate(bodies):
            act(server, n, body)
        perf.send_signal(2)
        perf.wait()
        done = subprocess.run(["perf", "report", "-i", data, "--stdio", "--no-children", "-F", "overhead,symbol"], capture_output=True, text=True)
        found = re.findall(r"^\s*([\d.]+)%\s+\[[.k]\]\s+(.*\S)", done.stdout, re.M)
        print(f"{kind}: " + "; ".join(f"{share} % {name[:60]}" for share, name in found[:8]))


def digest(program):
    need(perf="linux-perf")
    shares(program, "PUT, new", lambda server, n, body: server.put(f"/x{n}", body))
    shares(program, "PUT, known", lambda server, n, body: server.put(f"/y{n}", body))
    shares(program, "GET", lambda server, n, body: server.get(f"/x{n}", body))


def main():
    parts = {"sizes": sizes, "growth": growth, "memory": memory, "great": great, "plain": plain, "digest": digest}
    words = sys.argv[1:]
    program = proved_program([words.pop(0)] if words and words[0] not in parts else [])
    for name in words or parts:
        parts[name](program)


main()
