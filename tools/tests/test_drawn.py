"""`bucketd script` answers what models in plain Python answer (drawn.py), whatever blocks the host has and however many of them stay in
memory: to events that hypothesis draws, and to some that are computed.

Where an answer is another, hypothesis looks for the fewest and smallest events that show it, and tells these. The same is drawn each
time.
"""
import random

import pytest

from drawn import KINDS, Script, Uploads, answered, checksum, spans, ways
from host import is_quick

LEAST = 4
TENANTS = ["green", "blue"]


# ---- events that are computed


def ranges(script):
    script.add("green", ["plans"])
    script.put("green", "plans", "x", b"abcdefghij")
    script.get("green", "plans", "x")
    for span in spans(10):
        script.get("green", "plans", "x", span=span)


def lengths(script):
    """Bodies of each length up to 35, put by two tenants, the second of whom begins alike and deletes all."""
    for tenant in TENANTS:
        script.add(tenant, ["plans"])
    body = random.Random(1).randbytes(33) + b"\r\n"
    for size in range(36):
        script.put("green", "plans", f"k{size}", body[:size])
        script.put("blue", "plans", f"k{size}", body[: size // 2] + bytes(size - size // 2))
    for size in range(36):
        script.get("blue", "plans", f"k{size}")
        script.delete("blue", "plans", f"k{size}")
        script.get("blue", "plans", f"k{size}")
        script.get("green", "plans", f"k{size}")
    for size in range(36):
        script.get("green", "plans", f"k{size}")
        script.get("green", "plans", f"k{size}", span=("-", 5))


def upload_ends(script):
    """What comes after an upload's end, two uploads of one key, and a completion in each state of a bucket."""
    script.add("green", KINDS)
    for state in ("plans", "kept", "held"):
        at = ("green", state, "x")
        script.put(*at, b"before")
        first, second = script.begin(*at), script.begin(*at)
        script.part(*at, first, 1, b"first")
        script.part(*at, second, 1, b"other")
        script.part(*at, second, 10_000, b"end")
        script.part("green", state, "y", first, 1, b"of another key")
        script.complete("green", state, "y", first, [(1, None)])
        script.abort("green", state, "y", first)
        script.complete(*at, second, [(1, None), (10_000, checksum(b"end"))])
        script.get(*at)
        script.complete(*at, second, [(1, None), (10_000, None)])
        script.part(*at, second, 2, b"late")
        script.abort(*at, second)
        script.part(*at, first, 2, b"more", checksum(b"less"))
        script.part(*at, first, 2, b"more", checksum(b"more"))
        script.complete(*at, first, [(1, checksum(b"more")), (2, None)])
        script.complete(*at, first, [(1, None), (2, None)])
        script.get(*at)
        third = script.begin(*at)
        script.part(*at, third, 1, b"never seen")
        script.abort(*at, third)
        script.abort(*at, third)
        script.part(*at, third, 1, b"too late")
        script.complete(*at, third, [(1, None)])
        script.delete(*at)
        script.get(*at)


def many_parts(script):
    """200 parts of one byte, joined in one object. bench/uploads.py joins 10,000."""
    script.add("green", ["plans"])
    upload = script.begin("green", "plans", "x")
    for part in range(10_000, 9_800, -1):
        script.part("green", "plans", "x", upload, part, b"%d" % (part % 10))
    script.complete("green", "plans", "x", upload, [(part, None) for part in range(9_801, 10_001)])
    script.get("green", "plans", "x")


COMPUTED = {ranges: Script(), lengths: Script(), upload_ends: Uploads(LEAST), many_parts: Uploads(0)}


@pytest.mark.cost(20)
@pytest.mark.parametrize("fill", COMPUTED, ids=lambda it: it.__name__)
def test_computed(expect, program, every, fill):
    script = COMPUTED[fill]
    script.events or fill(script)
    expect("its events are computed", len(script.events) > 80, len(script.events))
    all_ways, at = ways([1, 3, 4, 16, 65536]), [*COMPUTED].index(fill)
    for options in all_ways if is_quick(program) or every else [all_ways[at * 4]]:
        found = answered(program, script, *options)
        expect(" ".join(options), found is None, found)


# ---- events that are drawn


@pytest.mark.cost(60)
@pytest.mark.parametrize("machine", ["Requests", "Pages"])
def test_drawn(expect, program, full, machine):
    pytest.importorskip("hypothesis", reason="hypothesis isn't there")
    import machines

    count = 1000 if full else 100 if is_quick(program) else 10
    found = machines.found_by(getattr(machines, machine), program, count)
    expect(f"{count} scripts of events", found is None, found)
