#!/usr/bin/env python3
"""Times an operator's lines to `bucketd serve` beside clients, and what the operator's port costs requests.

    bench/telling.py [PROGRAM]       PROGRAM: crates/bucketd/out/bucketd

Two servers of one program, one with `--operator-port`, are asked in turns: gets of 1 KiB, a connection each, by one client and by
eight: how many a second, and the processor's time that the server takes for one. A line that changes nothing (`usage`) is timed from the connect to the end of its reply: alone, beside eight clients, and,
beside as many, a request of the same kind for comparison. Files lie in /dev/shm.
"""
import os
import shutil
import socket
import sys
import tempfile
import threading
import time

from server import Server, free_port, proved_program, request

GET = request("green", "GET", "/plans/x", None)
LINE = b'{"op":"usage","tenant":"green"}\n'
ROUNDS, SECONDS = 6, 2


def exchange(port, data):
    with socket.create_connection(("127.0.0.1", port), 60) as it:
        it.sendall(data)
        got = b""
        while piece := it.recv(65536):
            got += piece
    return got


def started(program, folder, name, *words):
    """A server on a new host, with an object of 1 KiB."""
    place = os.path.join(folder, name)
    os.mkdir(place)
    server = Server(program, place, *words)
    server.put("/x", b"x" * 1024)
    return server


def client(port, until, counts, slot):
    while time.monotonic() < until:
        if not exchange(port, GET).startswith(b"HTTP/1.1 200 "):
            sys.exit("a get was refused")
        counts[slot] += 1


def rate(server, clients, beside=None):
    """Gets a second, and the server's microseconds for one; and what is done beside them."""
    port, before = server.port, server.spent()
    counts, until = [0] * clients, time.monotonic() + SECONDS
    threads = [threading.Thread(target=client, args=(port, until, counts, slot)) for slot in range(clients)]
    for thread in threads:
        thread.start()
    if beside:
        beside(until)
    for thread in threads:
        thread.join()
    return sum(counts) / SECONDS, 1e6 * (server.spent() - before) / max(sum(counts), 1)


def timed(port, data, wanted, took):
    def run(until):
        while time.monotonic() < until:
            begun = time.monotonic()
            if not exchange(port, data).startswith(wanted):
                sys.exit("an answer is another")
            took.append((time.monotonic() - begun) * 1000)
            time.sleep(0.005)
    return run


def middle(values):
    values = sorted(values)
    return values[len(values) // 2]


def told(name, took):
    took = sorted(took)
    print(f"{name}: {middle(took):.2f} ms in the middle, {took[len(took) * 99 // 100]:.2f} of 99 in 100, {took[-1]:.2f} at most, of {len(took)}")


def main():
    program = proved_program(sys.argv[1:])
    folder = tempfile.mkdtemp(dir="/dev/shm")
    servers = []
    try:
        operators = free_port()
        servers.append(started(program, folder, "plain"))
        servers.append(started(program, folder, "operated", "--operator-port", str(operators)))
        plain, operated = servers
        for clients in (1, 8):
            rates = {plain: [], operated: []}
            for turn in range(ROUNDS):
                for server in (plain, operated) if turn % 2 else (operated, plain):
                    rates[server].append(rate(server, clients))
            ratios = [one[0] / other[0] for one, other in zip(rates[operated], rates[plain])]
            for name, server in (("without", plain), ("with", operated)):
                print(f"{clients} clients, {name} the port: {middle(it[0] for it in rates[server]):.0f} gets a second, {middle(it[1] for it in rates[server]):.1f} us of a processor each")
            print(f"  with to without: {middle(ratios):.2f} in the middle of {ROUNDS} ({min(ratios):.2f} to {max(ratios):.2f})")
        alone, beside, gets = [], [], []
        timed(operators, LINE, b"usage ", alone)(time.monotonic() + SECONDS)
        told("a line alone", alone)
        for _ in range(ROUNDS):
            rate(operated, 8, timed(operators, LINE, b"usage ", beside))
            rate(operated, 8, timed(operated.port, GET, b"HTTP/1.1 200 ", gets))
        told("a line beside 8 clients", beside)
        told("a get beside 8 clients", gets)
    finally:
        for server in servers:
            server.process.kill()
            server.process.wait()
        shutil.rmtree(folder)


main()
