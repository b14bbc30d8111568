"""Each allocation is refused in turn.

The stored run, by `examples retried`, which applies an event that found no memory once more: it has to print what it prints with
ample memory, or to end with status 1 and print nothing, where the refused allocation lies outside an event (reading the script,
making the host).

`serve` on a file, for some connections: each is answered as with ample memory, or 503 and then, asked once more, as with ample
memory, the tenant's use and listing not having changed between; or the response to a get of an object above 64 KiB ends early, with
the first bytes of what it is with ample memory; or the server ends with status 1 before it listens, and prints nothing, `fault` or
`48 Unavailable`. At the end a server with ample memory finds what was acknowledged.

Without --full: some allocations, as many as there is time for in 15 seconds.
"""
import json
import os
import subprocess
import time
from concurrent.futures import ThreadPoolExecutor

import pytest

from faults import LANES, Budget
from host import CRATES, PATIENCE, SCRIPTS, Clock, Server, copied, make_host, read, removed

pytestmark = pytest.mark.proved
SHORT_SECONDS = 15
BODY = bytes(range(256)) * 300
# What is asked where a response is to end early, and for how many of its last allocations that is tried.
GET, TRIES = [("GET", "/plans/b", b"", 200)], 20
# Above so many bytes an object's are read and sent one block after the other, when its head was sent.
IN_ONE_WRITE = 65536
# Each connection's request, and the status with ample memory. No answer has a time in it.
REQUESTS = [("GET", "/plans/a", b"", 200), ("PUT", "/plans/b", BODY, 200), ("GET", "/plans/b", b"", 200), ("HEAD", "/plans/none", b"", 404),
            ("DELETE", "/plans/a", b"", 204), ("GET", "/?usage", b"", 200)]


# ---- the stored run


def run(program, data, library, **settings):
    return subprocess.run([program, "retried"], input=data, capture_output=True, env=os.environ | {"LD_PRELOAD": library} | settings, timeout=PATIENCE)


def test_stored_run(expect, library, full):
    program, preload = os.path.join(CRATES, "examples/out/examples"), library("refuse_allocation")
    if not os.path.exists(program):
        pytest.skip("the program 'examples' isn't there: 'make gate' makes it")
    data, expected = (read(SCRIPTS, f"first-path.{end}") for end in ("in", "out"))
    ample = run(program, data, preload, TELL_ALLOCATIONS="1")
    total = int(ample.stderr.split()[-1])
    same = outside = 0
    others = [] if ample.stdout == expected else [0]
    for number in range(1, total + 1, 1 if full else max(1, total // 60)):
        done = run(program, data, preload, REFUSED_ALLOCATION=str(number))
        if done.returncode == 0 and done.stdout == expected:
            same += 1
        elif done.returncode == 1 and done.stdout == b"":
            outside += 1
        else:
            others.append(number)
    found = f"of {total} allocations: {same} runs answer as with ample memory, {outside} end with status 1 and print nothing, others: {others[:10]}"
    expect.note(found)
    expect("each allocation of it refused", not others and same > 0 and outside > 0, found)


# ---- connections


class Counts:
    """How many requests were refused and how many responses ended early, and how many servers ended before they listened; and what
    went otherwise."""

    def __init__(self):
        self.refused = self.short = self.ended = 0
        self.wrong = []


def shown(server):
    """What the tenant has, without times."""
    listed = json.loads(server.ask("green", "GET", "/plans?list-type=2").body)["Contents"]
    return server.ask("green", "GET", "/?usage").data, [(it["Key"], it["Size"], it["ChecksumSHA256"]) for it in listed]


class Wanted:
    """The answers with ample memory, what was shown before each, and at the end."""

    def __init__(self, answers, states):
        self.answers, self.states = answers, states


def is_begun(method, got, answer):
    """Whether a response to a get ends within an object that doesn't go out with its head at once."""
    head = answer.index(b"\r\n\r\n") + 4
    return method == "GET" and len(answer) - head > IN_ONE_WRITE and head <= len(got.data) < len(answer) and answer.startswith(got.data)


def asked(server, wanted, counts):
    """The requests, each once more where it is refused. What is found otherwise, or None."""
    for (method, target, body, _), answer, state in zip(REQUESTS, wanted.answers, wanted.states):
        got = server.ask("green", method, target, body)
        if got.status == 503 and got.refusal() == 31 and got.is_whole:
            counts.refused += 1
            if (now := shown(server)) != state:
                return f"{method} {target} is answered 503, and then {now} is shown, not {state}"
            got = server.ask("green", method, target, body)
        elif is_begun(method, got, answer):
            counts.short += 1
            got = server.ask("green", method, target, body)
        if got.data != answer:
            return f"{method} {target} is answered {got.data[:200]}"
    return None


def found_later(program, file, wanted):
    """What another server finds otherwise, or None."""
    server = Server(program, file)
    now, body = shown(server), server.ask("green", "GET", "/plans/b").data
    server.end()
    return None if (now, body) == (wanted.states[-1], wanted.answers[2]) else f"another server shows {now}"


def served(program, base, folder, library, wanted, number, counts):
    """The requests where one allocation is refused."""
    file = copied(base, folder, f"copy-{number}")
    server = Server(program, file, LD_PRELOAD=library, REFUSED_ALLOCATION=str(number))
    listened = server.is_up()
    found = asked(server, wanted, counts) if listened else None
    lived = server.is_up()
    status, out, said = server.end()
    if not listened:
        counts.ended += 1
        found = None if (status, out) in ((1, b""), (1, b"fault\n"), (1, b"48 Unavailable\n")) else "it doesn't listen"
    elif not found:
        found = found_later(program, file, wanted) if lived else "it ended"
    if found:
        counts.wrong.append(f"{number}: {found}" + ("" if lived else f"; status {status}, {out} {said[-200:]}"))
    removed(file)


def base_of(program, folder):
    """A host with an object, as a server that was killed leaves it."""
    base = os.path.join(folder, "base")
    make_host(program, base, ["green"])
    server = Server(program, base)
    told = [server.ask("green", "PUT", "/plans"), server.ask("green", "PUT", "/plans/a", b"abc")]
    server.end()
    if any(it.status != 200 for it in told):
        raise RuntimeError([it.data for it in told])
    return base


def allocations(program, base, folder, library, requests):
    """How many allocations there are until a server ends that has been asked these requests, and to which one client said nothing."""
    file = copied(base, folder, "copy-0")
    server = Server(program, file, count=1 + len(requests), LD_PRELOAD=library, TELL_ALLOCATIONS="1")
    for method, target, body, _ in requests:
        server.ask("green", method, target, body)
    server.exchange(b"")
    server.process.wait(PATIENCE)
    _, _, said = server.end()
    removed(file)
    return int(said.split()[-1])


def ample(program, base, folder):
    """What is wanted."""
    file = copied(base, folder, "copy-0")
    server, states, told = Server(program, file), [], []
    for method, target, body, status in REQUESTS:
        states.append(shown(server))
        told.append(server.ask("green", method, target, body))
        if told[-1].status != status:
            raise RuntimeError(told[-1].data[:200])
    states.append(shown(server))
    server.end()
    removed(file)
    return Wanted([it.data for it in told], states)


def ends_early(expect, program, base, folder, library):
    """A get of an object of two blocks, where memory is refused once the first went out: the response ends there, the log says so,
    and the server answers the next."""
    total = allocations(program, base, folder, library, GET)
    found = None
    for number in range(total, total - TRIES, -1):
        file = copied(base, folder, f"copy-{number}")
        server = Server(program, file, "--log", LD_PRELOAD=library, REFUSED_ALLOCATION=str(number))
        got, again = (server.ask("green", "GET", "/plans/b") for _ in range(2))
        server.end()
        removed(file)
        line = server.lines()[1]
        found = (got.status, got.body == BODY[:IN_ONE_WRITE], again.body == BODY, line.endswith(" memory"))
        if not got.is_whole:
            break
    expect("a response that ends early", found == (200, True, True, True), f"{found}, {len(got.body)} bytes, allocation {number} of {total}: {server.lines()}")


def numbers_of(around, total, full):
    """The numbers of all allocations, or by turns of some while requests are answered and some while the file is opened."""
    if full:
        return range(1, total + 1)
    asked, opening = [*range(around, total + 1, 61)], [*range(1, around, 997)]
    return [it for pair in zip(asked, opening) for it in pair] + asked[len(opening) :] + opening[len(asked) :]


@pytest.mark.cost(60)
def test_connections(expect, program, folder, library, full):
    base, counts, done, preload = base_of(program, folder), Counts(), [], library("refuse_allocation")
    wanted = ample(program, base, folder)
    # Opening a file and closing it take so many.
    around, total = (allocations(program, base, folder, preload, requests) for requests in ([], REQUESTS))
    expect("allocations are counted", total > around + len(REQUESTS) > 1000, f"{total}, {around} where nothing is asked")
    begun, left = time.monotonic(), Budget(None if full else SHORT_SECONDS)

    def one(number):
        if len(counts.wrong) < 5 and left.is_left():
            served(program, base, folder, preload, wanted, number, counts)
            done.append(number)

    with ThreadPoolExecutor(LANES) as lanes:
        list(lanes.map(one, numbers_of(around, total, full)))
    expect.note(f"{len(done)} of {total} allocations refused ({around} of them where nothing is asked): {counts.refused} requests were answered 503, and then "
                f"as with ample memory; {counts.short} responses ended early; {counts.ended} servers ended before they listened; {time.monotonic() - begun:.0f} s")
    expect("connections", not counts.wrong, "\n".join(counts.wrong))
    is_refused = counts.refused + counts.short > 0 and counts.ended > 0
    expect("some requests are refused, and some servers end before they listen", is_refused, f"{len(done)} allocations refused, {vars(counts)}")


def test_response_that_ends_early(expect, program, folder, library, monkeypatch):
    base, clock = base_of(program, folder), Clock(folder, time.time() + 60)
    with Server(program, base) as server:
        server.ask("green", "PUT", "/plans/b", BODY)
    # By a clock that stands: the first request of each second writes a stamp, which allocates.
    monkeypatch.setenv("CLOCK_FILE", clock.file)
    ends_early(expect, program, base, folder, f"{library('refuse_allocation')}:{clock.env['LD_PRELOAD']}")
