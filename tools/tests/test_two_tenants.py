"""Scripts of two tenants that are drawn: each is answered as where the other's events, sweeps and reports are left out.

Each script is run whole, and then once for each tenant with that tenant's lines only, each at the stamp that it had in the whole
script: the greatest reading so far. The answers to these lines are the same bytes. The same is drawn each time: 20 scripts with
--full, else two.
"""
import random
from collections import Counter

import pytest

from two_tenants import TENANTS, Drawn, answers, drawn_lines

SCRIPTS, SHORT = 20, 2


def difference(program, lines, whole, tenant, counts):
    """How a tenant alone is answered otherwise, or None."""
    own = [(line, answer) for line, answer in zip(lines, whole) if line.owner == tenant]
    mine = [line for line, _ in own]
    alone = answers(program, mine, [line.reading if line.stamp is None else line.stamp for line in mine])
    counts["answers"] += len(alone)
    counts["done"] += sum(not is_refusal(answer) for answer in alone)
    return next((f"{tenant} alone is answered otherwise\n  at {line.reading}: {line.shown()}\n  among others: {answer}\n  alone: {other}"
                 for (line, answer), other in zip(own, alone) if answer != other), None)


def is_refusal(answer):
    return b"\r\nx-refusal: " in answer or answer[:1].isdigit()


def swept(whole, counts):
    """Adds up what the sweeps of a script took away, and the tenants that went."""
    counts["removed"] += sum(answer == b"removed %s\n" % tenant.encode() for answer in whole for tenant in TENANTS)
    for words in (answer.split() for answer in whole if answer.startswith(b"sweep ")):
        counts["uploads"] += int(words[2])
        counts["blocks"] += int(words[4])
        counts[words[5].decode()] += 1


@pytest.mark.cost(60)
def test_each_tenant_alone(expect, program, full):
    chance, counts = random.Random(20261124), Counter()
    for number in range(1, (SCRIPTS if full else SHORT) + 1):
        lines = drawn_lines(chance, Drawn(chance))
        whole = answers(program, lines, [line.reading for line in lines])
        swept(whole, counts)
        found = [it for it in (difference(program, lines, whole, tenant, counts) for tenant in TENANTS) if it]
        expect(f"script {number}, {len(lines)} events", not found, "\n".join(found))
    is_enough = all(counts[word] for word in ("done", "uploads", "blocks", "complete", "partial", "removed"))
    expect("requests are done, tenants go, and sweeps take something away", is_enough, dict(counts))
