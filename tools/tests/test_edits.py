"""Requests that are drawn and edited: `bucketd script` and a server give the same bytes.

A tenant's requests of every operation have a bit flipped, a byte changed, put in, taken out or repeated, a field doubled, left
out or moved, an end cut off; they come in pieces of a few bytes. Each answer is a response whose head has nothing of its
request's, the program lives on, and what another tenant sees of its buckets is byte for byte as before. Hosts are new for each
lot of requests, and the same lots are drawn each time, as many as there is time for: 25 seconds, ten minutes with --full.
"""
import json
import random
import re
import time
from collections import Counter
from itertools import islice

import pytest

from faults import Budget
from host import event, is_fast, request, script, without_moments
from strangers import Host, fault_of
from two_tenants import BUCKETS, Drawn

SECRETS = {"green": "greensecret", "blue": "bluesecret"}
SEEN = ["/plans?versions", "/", "/?usage", "/plans?list-type=2", "/plans?uploads", "/plans?versioning", "/plans?lifecycle", "/plans/x", "/plans/y",
        "/plans/v?uploadId=0000000000000001"]
# Bytes that end, split, name or escape something.
SHARP = b"\0\t\n\r \"#$%&'()*+,-./0123456789:;<=>?@[\\]^_`{|}~\x7f\x80\xbf\xc0\xe2\xf0\xfe\xff"


def asked(tenant, method, target, *fields, body=None):
    return request(tenant, method, target, body, fields)


def beginning(tenant):
    """Buckets, objects and an upload with a part."""
    for bucket in BUCKETS:
        yield asked(tenant, "PUT", f"/{bucket}", *(["x-amz-bucket-object-lock-enabled: true"] if bucket == "vault" else []), body=b"")
    yield asked(tenant, "PUT", "/kept?versioning", body=b'{"Status":"Enabled"}')
    for target in ("/plans/x", "/plans/y", "/kept/x"):
        yield asked(tenant, "PUT", target, body=f"{tenant} {target}".encode())
    yield asked(tenant, "POST", "/plans/v?uploads", body=b"")
    yield asked(tenant, "PUT", "/plans/v?uploadId=0000000000000001&partNumber=1", body=b"part")


def requests_of(chance):
    """Requests of any operation without an end, as they should be, on buckets, keys and ids that may be there."""
    source = Drawn(chance)
    while True:
        source.step("green")
        if source.lines[-1:] and source.lines[-1].method:
            yield source.lines.pop().shown()


# ---- edits


def place(chance, text):
    """A place in a text, mostly where something begins or ends."""
    ends = [at for at, byte in enumerate(text) if byte in b"\r\n: /?&=$%\"{}[],"]
    return chance.choice(ends) if ends and chance.randrange(3) else chance.randrange(len(text) + 1)


def with_byte(chance, text):
    at, byte = place(chance, text), bytes([chance.choice(SHARP) if chance.randrange(3) else chance.randrange(256)])
    return text[:at] + byte + text[at + chance.randrange(2):]


def with_flipped_bit(chance, text):
    at = chance.randrange(len(text))
    return text[:at] + bytes([text[at] ^ 1 << chance.randrange(8)]) + text[at + 1:]


def without_bytes(chance, text):
    at = place(chance, text)
    return text[:at] + text[at + chance.randrange(1, 9):]


def repeated(chance, text):
    at = place(chance, text)
    end = min(at + chance.randrange(1, 30), len(text))
    return text[:end] + text[at:end] * chance.choice([1, 1, 2, 70, 400]) + text[end:]


def cut_off(chance, text):
    return text[:place(chance, text)]


def lines_edited(chance, text):
    """A field that stands twice, is left out, or changes its place."""
    head, end, body = text.partition(b"\r\n\r\n")
    lines = head.split(b"\r\n")
    at = chance.randrange(len(lines))
    line, kind = lines[at], chance.randrange(4)
    if kind:
        lines.insert(chance.randrange(len(lines) + 1), line)
    if kind in (0, 3):
        lines.remove(line)
    return b"\r\n".join(lines) + end + body


def other_length(chance, text):
    """Another length, or one that another field tells."""
    length = chance.choice([b"0", b"1", b"3", b"+3", b"3,3", b"", b"00000003", b"16777217", b"18446744073709551616", b"-1", b"0x3"])
    text = re.sub(rb"content-length: \d+", b"content-length: " + length, text)
    return text.replace(b"host: h", b"host: h\r\ntransfer-encoding: chunked", 1) if chance.randrange(4) == 0 else text


EDITS = [with_byte, with_byte, with_flipped_bit, without_bytes, repeated, cut_off, lines_edited, lines_edited, other_length]


def drawn(chance, text):
    """A request, mostly with an edit or more."""
    for _ in range(chance.choice([0, 0, 1, 1, 1, 1, 2, 3])):
        if text:
            text = chance.choice(EDITS)(chance, text)
    return text[:60_000]


# ---- what both answer


def lot(chance, size):
    """The requests of a host, of which the other tenant's first and last are as they should be."""
    seen = [asked("blue", "GET", target) for target in SEEN]
    first = [*beginning("green"), *beginning("blue"), *seen]
    return first, [drawn(chance, it) for it in islice(requests_of(chance), size)], [*seen, asked("green", "GET", "/?usage")]


COMMANDS = [{"at": 0, "op": "tenant-add", "tenant": tenant, "quota": 400} for tenant in SECRETS]
COMMANDS += [{"at": 0, "op": "key-add", "tenant": tenant, "name": "k1", "secret": secret} for tenant, secret in SECRETS.items()]


def over_a_socket(program, folder, chance, requests):
    """What a served host answers, the second of each answer, and whether no second went by within one."""
    host, is_exact, seconds = Host(program, folder, f"host{chance.random()}", "--min-part", "4"), True, []
    told = [host.command(event) for event in COMMANDS]
    server, answers = host.serve(), []
    for text in requests:
        if time.time() % 1 > 0.97:
            # The script is to have the second of the connection.
            time.sleep(0.04)
        begun = int(time.time())
        answers.append(server.exchange(text, chance.choice([None, None, 1, 2, 7, 100]) if len(text) < 4000 else None))
        seconds.append(begun)
        is_exact &= begun == int(time.time())
    lives = server.is_up()
    server.end()
    return told, answers, seconds, is_exact, lives


def compare(program, folder, seed, size):
    """One lot of requests, on a host that is served and on one that answers a script: what is found otherwise, how many answers
    there are of each kind, and whether they were also compared in their moments."""
    chance = random.Random(seed)
    first, middle, last = lot(chance, size)
    requests = [*first, *middle, *last]
    told, answers, seconds, is_exact, lives = over_a_socket(program, folder, chance, requests)
    counts = Counter(told_by(answer) for answer in answers[len(first) :])
    faults = [(fault, text) for text, answer in zip(requests, answers) if (fault := fault_of(text, answer))]
    if faults or not lives:
        return f"the program {'lives' if lives else 'has ended'}; {faults[:3]}", counts, is_exact
    seen = len(SEEN)
    if answers[len(first) - seen : len(first)] != answers[-seen - 1 : -1]:
        return f"the other tenant sees {answers[-seen - 1:-1]} and not {answers[len(first) - seen:len(first)]}", counts, is_exact
    lines = [json.dumps(it) + "\n" for it in COMMANDS] + [event(text, at) for at, text in zip(seconds, requests)]
    found, wanted = script(program, lines, "--min-part", "4"), b"".join(it + b"\n" for it in [*told, *answers])
    same = (lambda it: it) if is_exact else without_moments
    return None if same(found) == same(wanted) else difference(found, wanted, requests, [*told, *answers]), counts, is_exact


def told_by(answer):
    """The refusal of an answer, or its status."""
    refusal = re.search(rb"\r\nx-refusal: ([^\r]*)\r\n", answer)
    return (refusal[1] if refusal else answer[9:12]).decode()


def difference(found, wanted, requests, answers):
    """The first request that a script is answered otherwise."""
    start = 0
    for number, answer in enumerate(answers):
        if without_moments(found[start : start + len(answer) + 1]) != without_moments(answer + b"\n"):
            text = requests[number - len(COMMANDS)] if number >= len(COMMANDS) else COMMANDS[number]
            return f"request {number}: {text}\n  over a socket: {answer[:2000]}\n  by a script: {found[start:start + len(answer) + 300][:2000]}"
        start += len(answer) + 1
    return f"the bytes differ: {len(found)} and {len(wanted)}"


@pytest.mark.cost(60)
@pytest.mark.proved
def test_edited_requests(expect, program, folder, full):
    fast, counts, lots, exact = is_fast(program), Counter(), 0, 0
    left = Budget(600 if full else 25 if fast else 6)
    while lots == 0 or left.is_left():
        found, more, is_exact = compare(program, folder, 1 + lots, 500 if fast else 40)
        lots, exact, counts = lots + 1, exact + is_exact, counts + more
        if not expect(f"lot {lots}", found is None, found):
            break
    expect.note(f"{lots} lots, of which {exact} were also compared in their moments: " + ", ".join(f"{count} of {told}" for told, count in counts.most_common()))
    expect("requests are done and refused", counts["200"] > 0 and len(counts) > 5, counts)
