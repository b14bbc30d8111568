"""500 events of two tenants that are drawn, sweeps and reports among them: what `bucketd script` answers, on a host in memory, and
what `bucketd serve` and the commands on a file answer, are the same bytes, with no refusal for lack of memory or of the store.

Of a program without a proof only those of the operator's events are run that make the tenants, since each command takes it
seconds. Requests go over sockets, one a connection, to a server that ends by itself before the next command; the programs' clock
reads what the script's line says. The same is drawn each time, but for the first reading, which is the day's.
"""
import os
import random
import time

import pytest

from conftest import need
from host import PATIENCE, Clock, Server, command, event_words, is_quick
from two_tenants import OPTIONS, Drawn, answers, drawn_lines

EVENTS = 500
NONE_OF = (b"x-refusal: 31 ", b"48 Unavailable")


def lines(program):
    """Events whose clock begins now and never leaps by a day. They go on from where the tenants are made once more, and refused."""
    chance = random.Random(20261125)
    drawn = Drawn(chance, int(time.time()), is_past=False)
    while len(drawn.lines) < EVENTS:
        drawn_lines(chance, drawn)
    found = drawn.lines[:EVENTS]
    return found if is_quick(program) else [it for it in found if it.method or it.content["op"] in ("tenant-add", "key-add")]


def batches(found):
    """Each operator's event, and the requests between two."""
    batch = []
    for it in found:
        if it.method:
            batch.append(it)
            continue
        if batch:
            yield batch
        yield [it]
        batch = []
    if batch:
        yield batch


class Both:
    """A file, and the clock of the programs on it."""

    def __init__(self, program, folder, reading):
        self.program, self.file, self.clock = program, os.path.join(folder, "host"), Clock(folder, reading)

    def order(self, line):
        self.clock.set(line.reading)
        told, status = command(self.program, self.file, line.content["op"], *event_words(line.content)[1:], **self.clock.env)
        is_refused = told[:1].isdigit()
        return [told.encode() if status == int(is_refused) else f"{told}, status {status}".encode()]

    def serve(self, batch):
        """What each request is answered, and whether the server then ended by itself as it should."""
        server, told = Server(self.program, self.file, *OPTIONS[:2], "--clock-step", "4294967295", count=len(batch), **self.clock.env), []
        for line in batch:
            self.clock.set(line.reading)
            told.append(server.exchange(line.shown()))
        server.process.wait(PATIENCE)
        status, out, said = server.end()
        if (status, out) != (0, b""):
            told[-1] += f" and the server ended with status {status}: {out} {said}".encode()
        return told


@pytest.mark.cost(60)
def test_events_by_script_and_by_server(expect, program, folder):
    need("gcc")
    found = lines(program)
    wanted = [it.removesuffix(b"\n") for it in answers(program, found, [it.reading for it in found])]
    both, told = Both(program, folder, found[0].reading), []
    expect("a host in a file", command(program, both.file, "init", *OPTIONS[2:], **both.clock.env) == ("host", 0))
    for batch in batches(found):
        told += both.serve(batch) if batch[0].method else both.order(batch[0])
    wrong = [f"at {line.reading}: {line.shown()}\n  a script: {one}\n  a file: {other}" for line, one, other in zip(found, wanted, told) if one != other]
    expect(f"{len(found)} events are answered alike", not wrong and len(told) == len(wanted) == len(found) > 100, f"{len(wrong)} are not\n" + "\n".join(wrong[:3]))
    missing = [it for it in wanted + told if any(text in it for text in NONE_OF)]
    expect("none is refused for lack of memory or of the store", not missing, missing[:3])
    refused = sum(b"\r\nx-refusal: " in it or it[:1].isdigit() for it in told)
    expect("some are done and some refused", refused > 10 and len(told) - refused > 10, f"{len(told) - refused} done, {refused} refused")
