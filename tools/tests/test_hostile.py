"""What is made to break bucketd, over `bucketd script` and over sockets: whole answers are compared.

Stored scripts of hostile requests come over a socket whole, a byte at a time, and cut by a reset at each byte, after which
listings of both tenants are as before. Fields, keys and copy sources hold every byte and every length, and are answered as
plain Python says. Great inputs are timed, by the program's time on a processor: a table shows the slowest answer for each byte
that came and went.

With --full inputs have their full size, and the longest heads are cut at each byte (minutes).
"""
import json

import pytest

from drawn import checksum, listing
from hostile_rows import ANSWERED, asked
from host import SCRIPTS, differing, is_fast, read, script, without_moments
from strangers import Host, fault_of, request_of

# Stored scripts whose requests follow the operator's commands, and are answered alike at any reading but for moments.
ROWS = """beginnings head-limits framing targets lifecycle-documents versioning-documents tokens own-prefix foreign-bucket-not-there
keys-in-documents incomplete-body documents""".split()


# ---- stored scripts over a socket


def prepared(program, folder, name, events):
    """A served host to which a script's commands came, and before them another tenant with an object; what was told of them."""
    host = Host(program, folder, name)
    for op, more in (("tenant-add", {"quota": 1000}), ("key-add", {"name": "k1", "secret": "othersecret"})):
        host.command({"op": op, "at": 0, "tenant": "other"} | more)
    told = [host.command(event) for event in events if "op" in event]
    server = host.serve()
    server.exchange(asked("PUT", "/plans", tenant="other", body=b""))
    server.exchange(asked("PUT", "/plans/x", tenant="other", body=b"theirs"))
    return server, told


def seen(server):
    """All that both tenants can see of their buckets."""
    targets = ("/plans?list-type=2", "/plans?versions", "/plans?uploads", "/plans?lifecycle", "/plans?versioning", "/?usage", "/")
    return [server.exchange(asked("GET", target, tenant=tenant)) for tenant in ("green", "other") for target in targets]


def beginnings(requests, full, fast):
    """Proper beginnings of requests, each once; of a long one, unless all are wanted, those of its first and last bytes and few else."""
    found = set()
    for request in requests:
        step = 1 if full or len(request) < 600 else 251 if fast else 4001
        found.update(request[:end] for end in range(len(request)) if end % step == 0 or (fast and len(request) - end < 30))
    return sorted(found)


@pytest.mark.cost(20)
@pytest.mark.proved
@pytest.mark.parametrize("name", ROWS)
def test_stored_requests(expect, program, folder, full, name):
    """A stored script's requests whole and byte by byte, and then each beginning of them, cut by a reset."""
    events = [json.loads(line) for line in read(SCRIPTS, f"{name}.in").decode().splitlines() if line.strip()]
    wanted = without_moments(read(SCRIPTS, f"{name}.out"))
    requests = [request_of(event) for event in events if "op" not in event]
    for way, piece in (("whole", None), ("a byte at a time", 1)):
        server, told = prepared(program, folder, f"{name} {way}", events)
        told += [server.exchange(request, piece) for request in requests]
        text = without_moments(b"".join(it + b"\n" for it in told))
        expect(f"{len(requests)} requests, {way}", requests and text == wanted, differing(wanted, text))
        if piece:
            cut(expect, server, beginnings(requests, full, is_fast(program)))
        server.end()


def cut(expect, server, begun):
    before = seen(server)
    for count, beginning in enumerate(begun):
        server.reset(beginning)
        if count % 64 == 0:
            server.exchange(asked("HEAD", "/plans"))
    after = seen(server)
    expect(f"cut by a reset at {len(begun)} places", begun and server.is_up() and before == after, differing(b"".join(before), b"".join(after)))


# ---- every byte, every length


@pytest.mark.cost(20)
@pytest.mark.proved
@pytest.mark.parametrize("make", ANSWERED, ids=lambda it: it.__name__)
def test_rows(expect, program, folder, full, make):
    """Rows by `bucketd script`, and over a socket, each head of an answer read for bytes that aren't a response's."""
    rows = make(full)
    wanted = b"".join(rows.answers)
    text = script(program, rows.events)
    expect(f"{len(rows.events)} rows", len(rows.events) > 10 and text == wanted, differing(wanted, text))
    host, events = Host(program, folder, make.__name__), [json.loads(event) for event in rows.events]
    told = [host.command(event) for event in events if "op" in event]
    with host.serve() as server:
        requests = [request_of(event) for event in events if "hex" in event]
        answers = [server.exchange(request) for request in requests]
        text, wanted = without_moments(b"".join(it + b"\n" for it in [*told, *answers])), without_moments(wanted)
        expect("over a socket", text == wanted, differing(wanted, text))
        faults = [f"{fault} of {request[:200]}" for request, answer in zip(requests, answers) if (fault := fault_of(request, answer))]
        expect("the heads of answers", server.is_up() and not faults, faults[:3])


# ---- great inputs, timed


class Clock:
    """Times answers over a socket, and keeps the slowest for each byte."""

    def __init__(self, server, full, fast):
        self.server, self.full, self.fast, self.times, self.wrong = server, full, fast, {}, []

    def ask(self, name, request, refusal=None, document=None, tries=3):
        """One answer: a refusal, or 200 where there is none, and its document where it is given. The time of a processor is
        compared with the bytes that came and went; one that took too long is asked for again."""
        least = None
        for _ in range(tries):
            begun = self.server.spent()
            answer = self.server.exchange(request)
            took, size = self.server.spent() - begun, len(request) + len(answer)
            least = took if least is None else min(least, took)
            told = f"\r\nx-refusal: {refusal}\r\n".encode() if refusal else b"HTTP/1.1 200 OK\r\n"
            is_well = told in answer and (document is None or without_moments(answer).endswith(b"\r\n\r\n" + without_moments(document)))
            if not is_well or fault_of(request, answer):
                self.wrong.append(f"{name}, {size} bytes: {answer[:300]}")
            if least <= most_of(size):
                break
        self.times.setdefault(name, []).append((size, least))


# What an answer may take at most: some milliseconds, and a time for each byte that came or went. A program without a proof
# checks itself, and isn't timed.
LEAST, EACH_BYTE = 0.02, 0.5e-6


# Requests whose time is by rows: of the parts that are taken away, of the tenant's versions whose sizes a put adds up.
BY_ROWS, EACH_OF_THESE = ["all parts", "a key of 1,024 bytes put"], 40


def most_of(size):
    return LEAST + EACH_BYTE * size


def sizes(clock, most):
    """Up to the greatest size where all is asked for."""
    return [most // 4, most // 2, most] if clock.full else [most // 64, most // 16] if clock.fast else [most // 64]


# The greatest size of a document, in bytes.
DOCUMENT = 1 << 21


def documents(clock):
    """Bodies of JSON that are all one thing, up to a document's greatest size, and one of a body's."""
    kinds = {"[": b"[", "{\"a\":": b'{"a":', "[],": b"[],", "1": b"1", "spaces": b" ", "\"\"": b'""', "bytes of 255": b"\xff", "-": b"-"}
    begun = {"a text without an end": (b'"', b"a"), "escapes": (b'"', b"\\u0000"), "half escapes": (b'"', b"\\ud800"), "zeros after a point": (b"0.", b"0"),
             "an exponent": (b"1e", b"9"), "members of one name": (b"{", b'"a":1,'), "members of a status": (b"{", b'"Status":"Enabled",'),
             "numbers in a list": (b"[", b"1,"), "backslashes": (b'"', b"\\"), "lists in a list": (b"[", b"[1],")}
    begun |= {name: (b"", piece) for name, piece in kinds.items()}
    lengths = [DOCUMENT // 4, DOCUMENT // 2, DOCUMENT] if clock.full else [DOCUMENT // 8, DOCUMENT // 2] if clock.fast else [DOCUMENT // 8]
    for name, (start, piece) in begun.items():
        for size in [*lengths, *([1 << 24] if name == "[" and clock.fast else [])]:
            body = (start + piece * (size // len(piece) + 1))[:size]
            clock.ask(f"a document of {name}", asked("PUT", "/plans?versioning", body=body), "11 MalformedJSON")
    for size in lengths:
        names = b",".join(b'"%08d":1' % number for number in range(size // 13))
        clock.ask("a document of members of other names", asked("PUT", "/plans?versioning", body=b"{%s}" % names), "11 MalformedJSON")
        clock.ask("a document of one member over and over", asked("PUT", "/kept?versioning", body=b'{%s"Status":"Enabled"}' % (b'"Status":[],' * (size // 13 - 2))))
    for size in sizes(clock, 1 << 24):
        clock.ask("an object of zeros", asked("PUT", "/plans/zeros", body=bytes(size)))
        clock.ask("that object got", asked("GET", "/plans/zeros"))


def completion(numbers, sum=None):
    given = {"ChecksumSHA256": sum} if sum else {}
    return json.dumps({"Parts": [given | {"PartNumber": number} for number in numbers]}, separators=(",", ":")).encode()


def begun_upload(clock, key, count):
    """The path of an upload that was begun, to which so many parts were put."""
    document = clock.server.exchange(asked("POST", f"{key}?uploads", body=b"")).partition(b"\r\n\r\n")[2]
    path = f"{key}?uploadId={json.loads(document)['UploadId']}"
    for number in range(1, count + 1):
        clock.ask("a part", asked("PUT", f"{path}&partNumber={number}", body=b"%d" % number))
    return path


def completions(clock):
    """An upload's parts, named over and over in one document, and all parts of uploads of several sizes."""
    most = 1_000 if clock.fast else 12
    path, numbers = begun_upload(clock, "/plans/v", most), list(range(1, most + 1))
    for times in (2, 5, 10):
        for named in (numbers * times, [number for number in numbers for _ in range(times)]):
            clock.ask(f"{most} parts, each named up to 10 times", asked("POST", path, body=completion(named)), "22 InvalidPartOrder")
    for count in (2500, 5000, 10_000):
        clock.ask("parts of which most aren't there", asked("POST", path, body=completion(range(1, count + 1))), "21 InvalidPart")
    clock.ask("10,001 parts", asked("POST", path, body=completion([1] * 10_001)), "11 MalformedJSON")
    for size in sizes(clock, (1 << 24) - 100):
        clock.ask("a part with a great checksum", asked("POST", path, body=completion([1], "a" * size)), "21 InvalidPart")
    for count in (most // 4, most // 2, most):
        path = begun_upload(clock, f"/plans/v{count}", count)
        clock.ask("all parts", asked("POST", path, body=completion(range(1, count + 1))), tries=1)
        joined = b"".join(b"%d" % number for number in range(1, count + 1))
        clock.expect(f"{count} parts that were joined", clock.server.exchange(asked("GET", f"/plans/v{count}")).endswith(b"\r\n\r\n" + joined))


# Heads of at most 16,384 bytes: what stands before and after a piece that fills them, and how they are refused.
HEADS = {
    "line feeds before a request": (b"\n", b"\n", b"", "1 BadRequest"),
    "line ends before a request": (b"\r\n", b"\r\n", b"", "1 BadRequest"),
    "line feeds and then a request": (b"", b"\n", b"GET /plans/x HTTP/1.1\r\nhost: h\r\nx-access-key: green$k1\r\nx-secret-key: greensecret\r\n\r\n", None),
    "carriage returns": (b"GET / HTTP/1.1\r\n", b"\r", b"", "1 BadRequest"),
    "spaces around a value": (b"GET /plans/x HTTP/1.1\r\nhost: h\r\nx-access-key: green$k1\r\nx-secret-key:", b" ", b"greensecret\r\n\r\n", None),
    "spaces after a value": (b"GET /plans/x HTTP/1.1\r\nhost: h\r\nx-access-key: green$k1\r\nx-secret-key: greensecret", b" ", b"\r\n\r\n", None),
    "zeros of a length": (b"PUT /plans/y HTTP/1.1\r\nhost: h\r\nx-access-key: green$k1\r\nx-secret-key: greensecret\r\ncontent-length: ", b"0", b"3\r\n\r\nabc", None),
    "nines of a length": (b"PUT /plans/y HTTP/1.1\r\nhost: h\r\nx-access-key: green$k1\r\nx-secret-key: greensecret\r\ncontent-length: ", b"9", b"\r\n\r\n", "4 EntityTooLarge"),
    "nines of a range": (b"GET /plans/x HTTP/1.1\r\nhost: h\r\nx-access-key: green$k1\r\nx-secret-key: greensecret\r\nrange: bytes=", b"9", b"-\r\n\r\n", "25 InvalidRange"),
    "dollars of a key": (b"GET /plans/x HTTP/1.1\r\nhost: h\r\nx-secret-key: greensecret\r\nx-access-key: green", b"$", b"\r\n\r\n", "6 InvalidAccessKeyId"),
    "one name of a field": (b"GET / HTTP/1.1\r\n", b"host:h\n", b"\r\n", "1 BadRequest"),
}
# Targets, of heads of at most 16,384 bytes.
TARGETS = {
    "slashes": ("/plans/", "/", "", "9 KeyTooLongError"),
    "escapes": ("/plans/", "%2F", "", "9 KeyTooLongError"),
    "colons": ("/", ":", "/x", "5 AccessDenied"),
    "dots of a bucket": ("/b", ".", "/x", "8 InvalidBucketName"),
    "question marks": ("/plans/x?", "?", "", None),
    "ampersands": ("/plans/x?", "&", "", None),
    "equal signs": ("/plans/x?versionId", "=", "", "14 NoSuchVersion"),
    "parameters without a name of ours": ("/plans/x?", "a=1&", "", None),
    "parameters twice": ("/plans/x?", "versionId=1&", "", "10 InvalidArgument"),
    "escapes in a query": ("/plans/x?a=", "%ff", "", None),
    "half escapes in a query": ("/plans/x?a=", "%", "", None),
    "a prefix": ("/plans?list-type=2&prefix=", "k", "", None),
    "a delimiter": ("/plans?list-type=2&delimiter=", "k", "", None),
    "a token": ("/plans?list-type=2&continuation-token=", "6b", "", None),
    "a key marker": ("/plans?versions&key-marker=", "%00", "", None),
    "a version's id": ("/plans/x?versionId=", "0", "", "14 NoSuchVersion"),
    "an upload's id": ("/plans/x?uploadId=", "f", "", "15 NoSuchUpload"),
    "a part's number": ("/plans/x?uploadId=1&part-number-marker=", "0", "", "10 InvalidArgument"),
}


def heads(clock):
    for size in (4_000, 8_000, 16_000):
        for name, (start, piece, end, refusal) in HEADS.items():
            room = size if end or name == "one name of a field" else 16_385 * size // 16_000
            clock.ask(f"a head of {name}", start + piece * ((room - len(start) - len(end)) // len(piece)) + end, refusal)
        for name, (start, piece, end, refusal) in TARGETS.items():
            clock.ask(f"a target of {name}", asked("GET", start + piece * ((size - 200) // len(piece)) + end), refusal)


def shared(number):
    """Keys of the greatest length that differ in their last four bytes alone."""
    return "k" * 1020 + f"{number:04}"


def listings(clock):
    """Many keys that share all but four bytes, listed by delimiters of each of them and of what they share."""
    count = 10_000 if clock.full else 300 if clock.fast else 3
    current, body = {shared(number): (1, checksum(b"a")) for number in range(count)}, b"a"
    for key in current:
        clock.ask("a key of 1,024 bytes put", asked("PUT", f"/long/{key}", body=body))
    ask = lambda name, prefix, delimiter, size: listed_once(clock, f"a page of {size} by {name}", current, prefix, delimiter, size)
    first = list(current)[:3]
    for key in current:
        # A page of two begins with the first keys, whichever key is the delimiter.
        listed_once(clock, "a page of 2 by a whole key", {it: current[it] for it in sorted({*first, key})}, "", key, 2)
    for key in list(current)[:: max(count // 20, 1)]:
        ask("a whole key", "", key, 1000)
        ask("the last byte of what they share, and a key's end", "", "k" + key[1020:], 1000)
        ask("a key's end under what they share", "k" * 1020, key[1020:], 1000)
    for length in range(1, 1025, 31 if clock.full else 93):
        ask("what they share", "", "k" * length, 1000)
        ask("what none of them has", "", "k" * (length - 1) + "l", 1000)
        ask("what none of them has at its beginning", "", "l" + "k" * (length - 1), 1000)


def listed_once(clock, name, current, prefix, delimiter, size):
    """The first page of a listing, its document compared as a whole."""
    told = listing(current, prefix, delimiter, None, size)[0].replace(b'"Name":"plans"', b'"Name":"long"')
    clock.ask(name, asked("GET", f"/long?list-type=2&prefix={prefix}&delimiter={delimiter}&max-keys={size}"), None, told)


def table(expect, clock):
    """The slowest answer of each kind for each byte; whether all were within their time."""
    rows = []
    for name, times in clock.times.items():
        size, took = max(times, key=lambda it: it[1] / it[0])
        late = [(size, took) for size, took in times if took > most_of(size * (EACH_OF_THESE if name in BY_ROWS else 1))]
        rows.append((took / size, size, took, name, late))
    expect.note(f"{'nanoseconds a byte':>18} {'bytes':>10} {'ms':>9}  the slowest answer for each byte")
    for rate, size, took, name, _ in sorted(rows, reverse=True):
        expect.note(f"{rate * 1e9:18.0f} {size:10} {took * 1000:9.1f}  {name}")
    late = [(name, size, round(took, 3)) for _, _, _, name, times in rows for size, took in times]
    expect("each great input is answered in a time by its bytes", rows and (not clock.fast or not late), late[:9])


@pytest.mark.cost(120)
@pytest.mark.proved
def test_great_inputs(expect, program, folder, full):
    host = Host(program, folder, "great", "--min-part", "0")
    host.command({"op": "tenant-add", "at": 0, "tenant": "green", "quota": 1 << 40})
    host.command({"op": "key-add", "at": 0, "tenant": "green", "name": "k1", "secret": "greensecret"})
    with host.serve() as server:
        for target, body in (("/plans", b""), ("/plans/x", b"abc"), ("/long", b""), ("/kept", b"")):
            server.exchange(asked("PUT", target, body=body))
        clock = Clock(server, full, is_fast(program))
        clock.expect = expect
        for cases in (heads, documents, completions, listings):
            cases(clock)
            expect(f"the answers to great {cases.__name__}", not clock.wrong and server.is_up(), "\n".join(clock.wrong[:5]))
            clock.wrong.clear()
        table(expect, clock)
