"""Hosts with packs for the tests of packs: one with some objects, which each test copies, and what is read of their files."""
import os
import random
import shutil
import signal
import stat
import threading

import pytest

import host
from host import Server, command, copied, is_fast, make_host, opened, packs_of, removed
from model import faults_of

# A block of so many bytes is in its row, and a longer one in a pack.
MOST_IN_ROW, BLOCK, MIB = 4096, 65536, 1 << 20


def bodies_of(program):
    """Bodies by key. A slow program takes too long for many bytes."""
    great = {"great": 9 << 20} if is_fast(program) else {}
    sizes = {"none": 0, "byte": 1, "kib": 1024, "row": MOST_IN_ROW, "pack": MOST_IN_ROW + 1, "block": BLOCK, "blocks": 100 << 10, **great}
    return {key: random.Random(key).randbytes(size) for key, size in sizes.items()}


def statuses(server, method, bodies, tenant="green"):
    return {server.ask(tenant, method, f"/plans/{key}", body).status for key, body in bodies.items()}


def lacks(server, bodies, tenant="green"):
    """The keys whose bytes a server doesn't answer with."""
    found = {key: server.ask(tenant, "GET", f"/plans/{key}") for key in bodies}
    return {key: f"{it.status}, {len(it.body)} bytes" for key, it in found.items() if (it.status, it.body, it.is_whole) != (200, bodies[key], True)}


def rows(file, text):
    """Rows of a copy of a host's file, as SQLite reads it."""
    copy = copied(file, os.path.dirname(file), os.path.basename(file) + "-read")
    database = opened(copy)
    found = database.execute(text).fetchall()
    database.close()
    removed(copy)
    return found


def mode_of(path):
    return stat.S_IMODE(os.stat(path).st_mode)


@pytest.fixture(scope="session")
def first(program):
    """A host with some objects, which was ended well."""
    folder = host.quick_folder("packs-")
    file = make_host(program, os.path.join(folder, "a"), ["green", "blue"])
    bodies, umask = bodies_of(program), os.umask(0)
    with Server(program, file, "--force") as server:
        told = {server.ask("green", "PUT", "/plans").status} | statuses(server, "PUT", bodies)
        server.end(signal.SIGTERM)
    os.umask(umask)
    assert told == {200}, told
    yield file, bodies
    shutil.rmtree(folder)


@pytest.fixture
def bodies(first):
    return first[1]


@pytest.fixture
def file(first, folder):
    """A copy of that host, as `a` in a folder of its own."""
    if not os.path.isdir(packs_of(first[0])):
        pytest.skip("this program has no packs")
    return copied(first[0], folder)


def is_sound(program, file, folder):
    """What is found wrong in a file, by the program and by SQLite itself."""
    told = command(program, file, "check")
    copy = copied(file, folder, "seen")
    found = faults_of(copy)
    removed(copy)
    return ([] if told == ("sound", 0) else [told]) + found


def flipped(path, at):
    with open(path, "r+b") as it:
        it.seek(at)
        byte = it.read(1)
        it.seek(at)
        it.write(bytes([byte[0] ^ 1 << at % 8]))


def mebibyte(number):
    return random.Random(number).randbytes(MIB)


def put_mebibytes(server, count):
    """What a new bucket and so many objects of 1 MiB are answered."""
    return {server.ask("green", "PUT", "/plans").status} | {server.ask("green", "PUT", f"/plans/{it}", mebibyte(it)).status for it in range(count)}


class Putter(threading.Thread):
    """Puts one object after another, until the server is killed: those that were acknowledged, by key."""

    def __init__(self, server, number, sizes):
        super().__init__(daemon=True)
        self.server, self.number, self.sizes, self.draw, self.done, self.wrong = server, number, sizes, random.Random(number), {}, None

    def run(self):
        for at in range(1_000_000):
            key, body = f"{self.number}-{at}", self.draw.randbytes(self.draw.choice(self.sizes))
            answer = self.server.ask("green", "PUT", f"/plans/{key}", body)
            if answer.status is None:
                return
            if answer.status != 200:
                self.wrong = f"{key}: {answer}"
                return
            self.done[key] = body
