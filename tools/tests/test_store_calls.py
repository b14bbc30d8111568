"""How often a get and a put ask the store, counted by valgrind's callgrind. A get asks for the version, its references and each block,
once the last stamp, that the tenant has no rule, the bucket's state and the key's secret are remembered. A put forgets none of it.

Nothing can be counted of a program whose functions have no names: as Rattle's own compiler builds one; of another that is a failure.
"""
import json
import os
import re
import subprocess

import pytest

from conftest import need
from host import event, request

pytestmark = pytest.mark.proved
ASKS = "sqlite::connection::Connection::query_all"
MANY = 100
GET = event(request("green", "GET", "/plans/x", None))
PUT = event(request("green", "PUT", "/plans/y", b"abcd"))
RULE = b'{"Rules":[{"AbortIncompleteMultipartUpload":{"DaysAfterInitiation":3},"Status":"Enabled"}]}'
# What is asked first, what stands before each of those that are counted, one of these, and how often it asks.
CASES = {
    "a get": (GET, "", GET, 3),
    "a get after another tenant's put": (GET, event(request("blue", "PUT", "/plans/y", b"abcd")), GET, 3),
    "a get after a head of the object": (GET, event(request("green", "HEAD", "/plans/x", None)), GET, 3),
    "a get after its own put": (GET, PUT, GET, 3),
    # The rules are asked for each time, and which uploads are stale.
    "a get of a tenant with a rule": (event(request("green", "PUT", "/plans?lifecycle", RULE)) + GET, "", GET, 5),
    # For the secret and the rules no more.
    "a put": (PUT, "", PUT, 14),
    "a put after a get": (PUT, GET, PUT, 14),
}


def start(tenant):
    added = [{"op": "tenant-add", "quota": 1 << 40}, {"op": "key-add", "name": "k1", "secret": f"{tenant}secret"}]
    lines = "".join(json.dumps({"at": 0, "tenant": tenant} | it) + "\n" for it in added)
    return lines + event(request(tenant, "PUT", "/plans")) + event(request(tenant, "PUT", "/plans/x", b"abc"))


def calls(program, folder, events):
    """How often the store was asked by a script; None where the program's functions have no names."""
    out = os.path.join(folder, "callgrind")
    words = ["valgrind", "--tool=callgrind", f"--callgrind-out-file={out}", program, "script"]
    subprocess.run(words, input=(start("green") + start("blue") + events).encode(), stdout=subprocess.DEVNULL, stderr=subprocess.PIPE, check=True)
    names, counts, callee = {}, {}, None
    with open(out, encoding="utf-8") as lines:
        for line in lines:
            if found := re.match(r"(c?fn)=\((\d+)\)(?: (.*))?", line):
                kind, number, name = found.groups()
                if name:
                    names[number] = name
                callee = number if kind == "cfn" else callee
            elif found := re.match(r"calls=(\d+)", line):
                counts[callee] = counts.get(callee, 0) + int(found[1])
    told = [count for number, count in counts.items() if names[number].startswith(ASKS)]
    return sum(told) if told else None


@pytest.mark.parametrize("name", CASES)
def test_calls_of_a_request(program, folder, name):
    """So often a request asks for which this stands before it, beside what that asks alone, but for the first and the last."""
    need("valgrind")
    before, between, asked, wanted = CASES[name]
    without, both = (calls(program, folder, before + it * MANY) for it in (between, between + asked))
    if without is None and program.endswith(".by-rattle"):
        pytest.skip("Rattle's own compiler gives functions no names")
    assert without is not None and both is not None, f"the program names no function {ASKS}"
    assert abs((both - without) / MANY - wanted) < 2 / MANY
