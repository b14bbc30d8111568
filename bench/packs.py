#!/usr/bin/env python3
"""Hosts whose bytes go to packs, beside hosts that put all in rows, as those of programs without packs did (BUCKETD_PACKS=no).

    bench/packs.py [PROGRAM [PART..]]      PROGRAM: crates/bucketd/out/bucketd; PART: bodies, great, opening=MB.., checks=MB.., backup=MB.. (all)

bodies: milliseconds of the server's processor for puts of new bytes and for gets, asked of both in turns, the median and the least.
great: a put of 1 GiB: its seconds, the most memory, and the bytes of the log after it. opening: hosts of so many megabytes in blocks of
64 KiB: seconds of a processor until one listens, and memory then and at rest; above 1,000 MB those with packs alone. checks: seconds
and memory of a check. backup: how long three backups of a served host of so many megabytes take, the third to the file system of
ELSEWHERE (/tmp), and the slowest small get beside each. Hosts lie in FOLDER of the environment, or in /dev/shm.
"""
import os
import shutil
import statistics
import subprocess
import sys
import tempfile
import threading
import time

from opening import listens
from server import SHARED_MEMORY, Server, await_listener, free_port, on_disk, proved_program

SIZES = [(1 << 10, 300), (1 << 16, 100), (1 << 20, 40), (1 << 24, 10)]
KINDS = {"packs": "", "rows": "no"}
OBJECT, MOST_IN_ROWS = 1 << 24, 1000
FOLDER, ELSEWHERE = os.environ.get("FOLDER", SHARED_MEMORY), os.environ.get("ELSEWHERE", tempfile.gettempdir())
# Runs the words behind it without what they print, and tells their seconds of a processor and the most memory of them, in MiB.
WAITS = """import resource, subprocess, sys
subprocess.run(sys.argv[1:], check=True, stdout=subprocess.DEVNULL, stderr=subprocess.DEVNULL)
spent = resource.getrusage(resource.RUSAGE_CHILDREN)
print(spent.ru_utime + spent.ru_stime, spent.ru_maxrss / 1024)"""
LARGE = ("--max-body", str(1 << 30))


def took(server, act):
    """The milliseconds of a processor that a request takes."""
    before = server.spent()
    act(server)
    return 1000 * (server.spent() - before)


def told(times):
    return f"{statistics.median(times):.3f} ({min(times):.3f})"


def bodies(program):
    print("| Request | Bytes | packs, ms | rows, ms | Ratio |\n|---|---|---|---|---|")
    with tempfile.TemporaryDirectory(dir=FOLDER) as folder:
        servers = {}
        for kind, word in KINDS.items():
            os.mkdir(os.path.join(folder, kind))
            servers[kind] = Server(program, os.path.join(folder, kind), BUCKETD_PACKS=word)
        for size, count in SIZES:
            puts, gets = {kind: [] for kind in KINDS}, {kind: [] for kind in KINDS}
            for number in range(count):
                body = os.urandom(size)
                for kind, server in servers.items():
                    puts[kind].append(took(server, lambda it: it.put(f"/x{size}-{number}", body)))
                for kind, server in servers.items():
                    gets[kind].append(took(server, lambda it: it.get(f"/x{size}-{number}", body)))
            for name, times in (("PUT", puts), ("GET", gets)):
                ratio = statistics.median(times["packs"]) / statistics.median(times["rows"])
                print(f"| {name} | {size:,} | {told(times['packs'])} | {told(times['rows'])} | {ratio:.2f} |", flush=True)
        for kind, server in servers.items():
            print(f"{kind}: at most {server.memory('VmHWM'):.0f} MiB")
            server.process.kill()


def great(program):
    body = os.urandom(1 << 30)
    for kind, word in KINDS.items():
        with tempfile.TemporaryDirectory(dir=FOLDER) as folder, Server(program, folder, limits=LARGE, BUCKETD_PACKS=word) as server:
            seconds = server.put("/x", body) / 1000
            file, log, packs = (it / 1e6 for it in on_disk(server.file))
            print(f"{kind}: a put of 1 GiB takes {seconds:.1f} s, {server.memory('VmHWM'):.0f} MiB at most; then the file has {file:.0f} MB, the log "
                  f"{log:.0f} MB, the packs {packs:.0f} MB", flush=True)


def filled(program, folder, megabytes, word):
    """A host of so many megabytes, whose server was killed."""
    with Server(program, folder, BUCKETD_PACKS=word) as server:
        for number in range(max(1, megabytes * 1_000_000 // OBJECT)):
            server.put(f"/x{number}", os.urandom(OBJECT))
        server.put("/small", b"small")
    return server.file


def at_rest(program, file):
    """The memory that a server has ten seconds after it listens, in MiB."""
    port = free_port()
    process = subprocess.Popen([program, "serve", "--file", file, "--port", str(port), "--count", "1"], stderr=subprocess.DEVNULL)
    await_listener(process, port)
    time.sleep(10)
    with open(f"/proc/{process.pid}/status") as status:
        memory = next(int(line.split()[1]) / 1024 for line in status if line.startswith("VmRSS:"))
    process.kill()
    process.wait()
    return memory


def hosts(program, megabytes):
    """Hosts of so many megabytes, of both kinds where that is quick, one after another: the size, where the bytes are, and the file."""
    for size in megabytes:
        for kind, word in KINDS.items():
            if kind == "packs" or size <= MOST_IN_ROWS:
                with tempfile.TemporaryDirectory(dir=FOLDER) as folder:
                    yield size, kind, filled(program, folder, size, word)


def opening(program, megabytes):
    print("| Host, MB | Bytes in | File, MB | Log, MB | until it listens, s | of a processor, s | MiB then | at rest |\n|---|---|---|---|---|---|---|---|")
    for size, kind, file in hosts(program, megabytes):
        length, log, _ = (it / 1e6 for it in on_disk(file))
        clock, processor, memory = min((listens(program, file) for _ in range(3)), key=lambda it: it[1])
        print(f"| {size:,} | {kind} | {length:.0f} | {log:.0f} | {clock:.2f} | {processor:.2f} | {memory:.0f} | {at_rest(program, file):.0f} |", flush=True)


def longest_wait(server, until):
    """The milliseconds of the slowest of small gets, one after another."""
    longest = 0.0
    while not until.is_set():
        longest = max(longest, server.get("/small", b"small"))
    return longest


def stands_still(server, to):
    """The seconds of a backup of a server, and those of the slowest small get beside it."""
    until, waits = threading.Event(), []
    asking = threading.Thread(target=lambda: waits.append(longest_wait(server, until)))
    asking.start()
    begun = time.perf_counter()
    told = subprocess.run([server.process.args[0], "tell", "--port", str(server.operators()), '{"op":"backup","to":"%s"}' % to], capture_output=True, text=True)
    seconds = time.perf_counter() - begun
    until.set()
    asking.join()
    if told.stdout != "backup\n":
        sys.exit(f"a backup was answered {told.stdout}")
    return seconds, waits[0] / 1000


def backup(program, megabytes):
    print("| Host, MB | Bytes in | Backup | seconds | the slowest small get beside it |\n|---|---|---|---|---|")
    for size, kind, file in hosts(program, megabytes):
        elsewhere = tempfile.mkdtemp(dir=ELSEWHERE)
        with Server(program, os.path.dirname(file), "--operator-port", "0", BUCKETD_PACKS=KINDS[kind]) as server:
            copies = {"the first": file + "-1", "the second": file + "-2", "the third, to another file system": os.path.join(elsewhere, "copy")}
            for name, to in copies.items():
                seconds, longest = stands_still(server, to)
                print(f"| {size:,} | {kind} | {name} | {seconds:.2f} | {longest:.2f} |", flush=True)
                server.put(f"/after-{len(name)}", os.urandom(OBJECT))
        shutil.rmtree(elsewhere)


def checks(program, megabytes):
    print("| Host, MB | Bytes in | a check, s of a processor | MiB |\n|---|---|---|---|")
    for size, kind, file in hosts(program, megabytes):
        # A program of its own waits for it: the most memory of a process is told with that of the one that began it.
        words = ["/usr/bin/python3", "-c", WAITS, program, "check", "--file", file]
        seconds, memory = subprocess.run(words, check=True, stdout=subprocess.PIPE, text=True).stdout.split()
        print(f"| {size:,} | {kind} | {float(seconds):.2f} | {float(memory):.0f} |", flush=True)


def main():
    program = proved_program(sys.argv[1:2])
    for part in sys.argv[2:] or ["bodies", "great", "opening=100,1000,10000", "checks=100,1000", "backup=1000"]:
        name, _, sizes = part.partition("=")
        sizes = [int(it) for it in sizes.split(",") if it]
        if name == "bodies":
            bodies(program)
        elif name == "great":
            great(program)
        elif name == "opening":
            opening(program, sizes or [100, 1000])
        elif name == "checks":
            checks(program, sizes or [100, 1000])
        elif name == "backup":
            backup(program, sizes or [1000])
        else:
            sys.exit(f"there is no part {name}")


if __name__ == "__main__":
    main()
