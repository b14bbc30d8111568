#!/usr/bin/env python3
"""Times multipart uploads by `bucketd serve` over loopback, on a file that lies in memory, a connection each.

    bench/uploads.py [PROGRAM]        PROGRAM: crates/bucketd/out/bucketd

Uploads of 1,000 and of 10,000 parts of one byte, on a host whose parts may have any size: a part put, all completed, the
object read, and as many parts aborted. Each answer is compared. The least of three runs counts. Exit 1 where a part takes
more than 1.5 times as long among 10,000 in any of them.
"""
import base64
import hashlib
import json
import sys
import tempfile

from server import SHARED_MEMORY, Server, proved_program

FEW, MANY = 1000, 10_000
RUNS = 3
GREATEST_RATIO = 1.5
KINDS = ["put", "completed", "read", "aborted"]


class AnyParts(Server):
    """A host whose parts may have any size."""

    def __init__(self, program, folder):
        super().__init__(program, folder, limits=("--min-part", "0"))

    def begin(self):
        return json.loads(self.ask("POST", "/x?uploads", b"")[1])["UploadId"]

    def put_parts(self, upload, count):
        """The milliseconds of all."""
        return sum(self.ask("PUT", f"/x?uploadId={upload}&partNumber={part}", b"%d" % (part % 10))[0] for part in range(count, 0, -1))

    def complete(self, upload, count):
        named = json.dumps({"Parts": [{"PartNumber": part} for part in range(1, count + 1)]}, separators=(",", ":")).encode()
        milliseconds, told = self.ask("POST", f"/x?uploadId={upload}", named)
        digests = b"".join(hashlib.sha256(b"%d" % (part % 10)).digest() for part in range(1, count + 1))
        wanted = f"{base64.b64encode(hashlib.sha256(digests).digest()).decode()}-{count}"
        if json.loads(told)["ChecksumSHA256"] != wanted:
            sys.exit(f"{count} parts completed: another checksum")
        return milliseconds


def milliseconds_a_part(program, count):
    """Of each kind."""
    with tempfile.TemporaryDirectory(dir=SHARED_MEMORY) as folder, AnyParts(program, folder) as server:
        upload = server.begin()
        put = server.put_parts(upload, count)
        completed = server.complete(upload, count)
        read = server.get("/x", b"".join(b"%d" % (part % 10) for part in range(1, count + 1)))
        upload = server.begin()
        server.put_parts(upload, count)
        aborted = server.ask("DELETE", f"/x?uploadId={upload}", status=b"204 No Content")[0]
    return [time / count for time in (put, completed, read, aborted)]


def least(program, count):
    return [min(times) for times in zip(*(milliseconds_a_part(program, count) for _ in range(RUNS)))]


def main():
    program = proved_program(sys.argv[1:])
    few, many = least(program, FEW), least(program, MANY)
    print(f"{'milliseconds a part':>20} {FEW:>9} {MANY:>9} {'ratio':>6}")
    for kind, short, long in zip(KINDS, few, many):
        print(f"{kind:>20} {short:>9.4f} {long:>9.4f} {long / short:>6.2f}")
    print(f"{MANY} parts were completed in {MANY * many[1] / 1000:.2f} seconds")
    is_flat = all(long <= GREATEST_RATIO * short for short, long in zip(few, many))
    sys.exit(0 if is_flat else f"a part takes more than {GREATEST_RATIO} times as long among {MANY}")


main()
