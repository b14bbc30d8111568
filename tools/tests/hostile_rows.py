"""Requests that hold every byte in each place of theirs, keys and sources of every length, and what each is answered.

Each function makes a script (drawn.Script), its requests by their bytes; what bytes mean is said by RFC 9110 and RFC 9112, and
by docs/API.md where these leave it open.
"""
import functools
from urllib.parse import quote_from_bytes

from drawn import STATUSES, Script, checksum, listing, packed, refusal_of, response, shown, text_of
from host import request


def asked(method, target, *fields, tenant="green", body=None):
    return request(tenant, method, target, body, fields)


class Rows(Script):
    """A script, its requests by their bytes, and what each is answered."""

    def __init__(self):
        super().__init__()
        self.add("green", ["plans"])

    def row(self, request, answer):
        self.tell({"hex": request.hex()}, answer)

    def denied(self, request, refusal, resource=b"/plans/x"):
        """A refusal that has a document."""
        self.row(request, refusal_of(refusal, resource.decode()))

    def bare(self, request, refusal):
        self.row(request, response(STATUSES.get(refusal, "400 Bad Request"), ["content-length: 0", f"x-refusal: {refusal}"]))

    def bad(self, request):
        self.bare(request, "1 BadRequest")

    def object(self, request, body=b"abc", span=None):
        """An object, or a part of it from a first to a last byte."""
        first, last = span or (0, len(body) - 1)
        told = ["content-type: application/octet-stream", f"content-length: {last + 1 - first}"]
        told += [f"content-range: bytes {first}-{last}/{len(body)}"] if span else []
        status = "206 Partial Content" if span else "200 OK"
        self.row(request, response(status, [*told, "accept-ranges: bytes", f"x-amz-checksum-sha256: {checksum(body)}"], body[first:last + 1]))

    def stored(self, request, body=b"abc"):
        self.row(request, response("200 OK", ["content-length: 0", f"x-amz-checksum-sha256: {checksum(body)}"]))

    def copied(self, source):
        """A copy of x, whose bytes are abc."""
        self.row(copying(source), shown(packed({"ChecksumSHA256": checksum(b"abc"), "LastModified": text_of(0)})))

    def uncopied(self, source, refusal):
        self.denied(copying(source), refusal, b"/plans/y")


def with_field(field, method="GET", target="/plans/x", without=(), body=None):
    """A request with one more field at its head's end, which may stand in the place of one with that name."""
    names = {"host": "h", "x-access-key": "green$k1", "x-secret-key": "greensecret"}
    names |= {} if body is None else {"content-length": len(body)}
    lines = [f"{name}: {value}" for name, value in names.items() if name not in without]
    return "\r\n".join([f"{method} {target} HTTP/1.1", *lines]).encode() + b"\r\n" + field + b"\r\n\r\n" + (body or b"")


def asked_bytes(target):
    return b"GET %s HTTP/1.1\r\nhost: h\r\nx-access-key: green$k1\r\nx-secret-key: greensecret\r\n\r\n" % target


def copying(source):
    return with_field(b"x-amz-copy-source: " + source, "PUT", "/plans/y", body=b"")


TOKENS = set(b"!#$%&'*+-.^_`|~0123456789abcdefghijklmnopqrstuvwxyzABCDEFGHIJKLMNOPQRSTUVWXYZ")
VISIBLE = set(range(0x21, 0x7F))
VALUES = {0x09, 0x20} | VISIBLE | set(range(0x80, 0x100))
SPACES = {0x09, 0x20}
DIGITS = set(b"0123456789")
NAMES = set(b"0123456789abcdefghijklmnopqrstuvwxyz")
# Where a field ends by a line feed, the head ends by the line end that was to end the field, and the next bytes are the body's.
LINE_FEED = 0x0A
BODY_AFTER_IT = b"\r\na"


def new_rows():
    rows = Rows()
    rows.put("green", "plans", "x", b"abc")
    return rows


def each_byte(add):
    """Makes a script of the rows that a function adds for each byte."""

    @functools.wraps(add)
    def make(_):
        rows = new_rows()
        for byte in range(256):
            add(rows, byte)
        return rows

    return make


@each_byte
def field_bytes(rows, byte):
    """Each byte within a field's value, at its end, and in its name; RFC 9110, sections 5.1 and 5.5."""
    for field, accepted in ((b"f: a%cb", VALUES), (b"f: %c", VALUES | {LINE_FEED}), (b"f%cf: a", TOKENS | {0x3A}), (b"host2: %cb", VALUES)):
        (rows.object if byte in accepted else rows.bad)(with_field(field % byte))
    request = with_field(b"transfer-encoding: chunked%c" % byte, "PUT", body=b"abc")
    rows.bare(request, "2 NotImplemented" if byte in VALUES | {LINE_FEED} else "1 BadRequest")


@each_byte
def key_bytes(rows, byte):
    """Each byte after an access key's id and a secret: the white space around a value is none of it."""
    for field, refusal in ((b"x-access-key: green$k1", "6 InvalidAccessKeyId"), (b"x-secret-key: greensecret", "5 AccessDenied")):
        request = with_field(b"%s%c" % (field, byte), without=[field.decode().split(":")[0]])
        if byte in VALUES - SPACES:
            rows.denied(request, refusal)
        else:
            (rows.object if byte in SPACES | {LINE_FEED} else rows.bad)(request)


@each_byte
def length_bytes(rows, byte):
    """Each byte before and after a length of 3."""
    for text in (b"%c3" % byte, b"3%c" % byte):
        request = with_field(b"content-length: " + text, "PUT", without=["content-length"], body=b"abc")
        if byte in SPACES or text in (b"03", b"3\n"):
            rows.stored(request, BODY_AFTER_IT if text == b"3\n" else b"abc")
        else:
            rows.bare(request, "27 IncompleteBody" if byte in DIGITS else "1 BadRequest")


@each_byte
def range_bytes(rows, byte):
    """Each byte after a range of one byte: what is no range is ignored."""
    request = with_field(b"range: bytes=1-1%c" % byte)
    if byte in DIGITS | SPACES | {LINE_FEED}:
        rows.object(request, span=(1, 2 if byte in DIGITS else 1))
    else:
        (rows.object if byte in VALUES else rows.bad)(request)


@each_byte
def checksum_bytes(rows, byte):
    """Each byte after a body's checksum."""
    request = with_field(b"x-amz-checksum-sha256: %s%c" % (checksum(b"abc").encode(), byte), "PUT", body=b"abc")
    if byte in SPACES:
        rows.stored(request)
    elif byte in VALUES | {LINE_FEED}:
        rows.denied(request, "26 BadDigest")
    else:
        rows.bad(request)


@each_byte
def target_bytes(rows, byte):
    """Each byte at the end of a key, and each as an escape."""
    target = b"/plans/x%c" % byte
    if byte == 0x3F:
        rows.object(asked_bytes(target))
    elif byte in VISIBLE:
        rows.denied(asked_bytes(target), "7 InvalidURI" if byte == 0x25 else "13 NoSuchKey", target)
    else:
        rows.bad(asked_bytes(target))
    for target in (b"/plans/x%%%02x" % byte, b"/plans/x%%%02X" % byte):
        rows.denied(asked_bytes(target), "13 NoSuchKey" if byte < 0x80 else "7 InvalidURI", target)


@each_byte
def bucket_bytes(rows, byte):
    """Each byte within a bucket's name, and each as an escape."""
    target = b"/pla%cs/x" % byte
    if byte == 0x3F:
        # A bucket and a query that says nothing.
        rows.bare(asked_bytes(target), "2 NotImplemented")
    elif byte in b"%/":
        rows.denied(asked_bytes(target), "7 InvalidURI" if byte == 0x25 else "12 NoSuchBucket", target)
    elif byte in VISIBLE:
        named(rows, byte, target)
    else:
        rows.bad(asked_bytes(target))
    target = b"/pla%%%02xs/x" % byte
    if byte < 0x80:
        named(rows, byte, target)
    else:
        rows.denied(asked_bytes(target), "7 InvalidURI", target)


def named(rows, byte, target):
    """A bucket whose fourth byte is this one."""
    if byte == 0x6E:
        rows.object(asked_bytes(target))
    else:
        unknown = "12 NoSuchBucket" if byte in NAMES | {0x2D, 0x2E} else "8 InvalidBucketName"
        rows.denied(asked_bytes(target), "5 AccessDenied" if byte == 0x3A else unknown, target)


@each_byte
def source_bytes(rows, byte):
    """Each byte at the end of a copy's source."""
    source = b"/plans/x%c" % byte
    if byte in SPACES | {LINE_FEED}:
        rows.copied(source)
    elif byte >= 0x80 or byte in VISIBLE:
        rows.uncopied(source, "10 InvalidArgument" if byte >= 0x80 or byte in b"%?" else "13 NoSuchKey")
    else:
        rows.bad(copying(source))


def filled(start, piece, size=16_000):
    """So many bytes: a beginning, and then pieces."""
    return (start + piece * size)[:size]


def long_sources(is_long):
    """Sources of copies of 16,000 bytes, and of a key's greatest length and one more."""
    rows = new_rows()
    for source in (filled(b"/plans/", b"k"), filled(b"plans/", "\u00e9".encode()), b"/plans/" + b"%61" * 5_000, filled(b"/plans/", b"/"),
                   b"/plans/" + b"%61" * 1_025, b"/green:plans/" + b"k" * 1_025):
        rows.uncopied(source, "9 KeyTooLongError")
    for source in (b"/plans/" + b"%61" * 1_024, b"/green%3Aplans/" + b"k" * 1_024):
        rows.uncopied(source, "13 NoSuchKey")
    for source in (filled(b"/", b"b")[:-2] + b"/x", filled(b"/green:", b"b")[:-2] + b"/x", b"/plans%2Fx/" + b"k" * 9_000):
        rows.uncopied(source, "8 InvalidBucketName")
    for source in (filled(b"/", b"t")[:-8] + b":plans/x", filled(b"/", b":")[:-2] + b"/x"):
        rows.uncopied(source, "5 AccessDenied")
    for source in (filled(b"/", b"/"), filled(b"", b"%"), filled(b"/plans/x?", b"v"), filled(b"", b"b"), b"/plans/" + b"%ff" * 5_000, filled(b"/plans/x%4", b"%")):
        rows.uncopied(source, "10 InvalidArgument")
    for source in (filled(b"/plans/x?versionId=", b"a"), filled(b"/plans/x?versionId=", b"0"), filled(b"/plans/x?versionId=null", b"?")):
        rows.uncopied(source, "14 NoSuchVersion")
    for source in (b"/plans/x?versionId=null", b"plans/%78", b"/green:plans/x", b"/%67%72een%3aplans/x"):
        rows.copied(source)
    return rows


# Characters of each length of UTF-8, the first and the last of each, those that documents escape, and those that targets name.
CHARACTERS = ["\0", "\x01", "\x1f", " ", "\x7f", "\x80", "\u07ff", "\u0800", "\ud7ff", "\ue000", "\ufeff", "\ufffd", "\ufffe", "\uffff",
              "\U00010000", "\U0010ffff", *'"\\%+?#&=;:<>', "\t", "\n", "\r", "\b", "\f"]
# Names of folders, of nothing, and of an answer's head.
TEXTS = [".", "..", "/", "//", "/..", "../plans/x", "./", "a/../b", "a//b", "\r\nx-amz-version-id: null", "x\r\n\r\nHTTP/1.1 200 OK\r\n\r\n",
         "\ufffd\uffff", "e\u0301", "\u00e9", "X", "x ", " x", "x\0", "k%2Fk", "k%", "null"]
DELIMITERS = ["/", ".", "..", "//", "\0", "\uffff", "\U0010ffff", "k", "kk", "k" * 1023, "k" * 1024, "k" * 1025, '"', "\\", "\r\n", "\u00e9", "%", "+"]


def long_keys(is_long):
    """Keys of each length, each a prefix of the next by one byte, and of a key's greatest length in characters of each length."""
    lengths = range(1, 1025) if is_long else [*range(1, 1020, 93), 1022, 1023, 1024]
    mixed = ["\u00e9" * 512, "\uffff" * 341 + "k", "\U0010ffff" * 256, "k" * 1021 + "\uffff", "k" * 1020 + "\U00010000", "\0" * 1024]
    return ["k" * length for length in lengths] + mixed


def target_of(key):
    """A key in a target, each byte escaped that is no letter or digit."""
    return f"/plans/{quote_from_bytes(key.encode(), safe='')}"


def keys(is_long):
    """Keys of every kind are put, listed by delimiters and prefixes, and got back; longer ones are refused."""
    rows, current = Rows(), {}
    for number, key in enumerate([*CHARACTERS, *TEXTS, *long_keys(is_long)]):
        body = str(number).encode()
        rows.stored(asked("PUT", target_of(key), body=body), body)
        current[key] = (len(body), checksum(body))
    for key in ("k" * 1025, "\u00e9" * 512 + "k", "\U0010ffff" * 256 + "k", "/" * 1025):
        rows.denied(asked("PUT", target_of(key), body=b""), "9 KeyTooLongError", target_of(key).encode())
    for number, key in enumerate(current):
        rows.object(asked("GET", target_of(key)), str(number).encode())
    for plain in ("/plans/..", "/plans/.", "/plans///", "/plans/../plans/x", "/plans/a/../b", "/plans/\uffff", "/plans//"):
        rows.object(asked("GET", plain), str(list(current).index(plain[len("/plans/"):])).encode())
    for delimiter in ("", *DELIMITERS):
        for prefix in ("", "k", "k" * 1000, "/", "\U0010ffff"):
            listed(rows, current, prefix, delimiter, 1000 if delimiter or prefix else 7)
    return rows


def listed(rows, current, prefix, delimiter, size):
    """All pages of a listing."""
    after = None
    while after != "":
        query = {"prefix": prefix, "delimiter": delimiter, "continuation-token": after and after.encode().hex(), "max-keys": str(size)}
        text = "".join(f"&{name}={quote_from_bytes(value.encode(), safe='')}" for name, value in query.items() if value)
        told, after = listing(current, prefix, delimiter, after, size)
        rows.row(asked("GET", f"/plans?list-type=2{text}"), shown(told))
        after = after or ""


ANSWERED = [field_bytes, key_bytes, length_bytes, range_bytes, checksum_bytes, target_bytes, bucket_bytes, source_bytes, long_sources, keys]
