"""Lines of scripts: events as bucketd reads them, and the time that `bucketd script` takes for some of them."""
import json
import os
import subprocess
import sys
import threading
import time

# Commands about a tenant whose name is none, answered like nothing else in a script. They are more than the buffer before
# standard output holds, so that the first of their answers is out once they are answered.
MARKS = 700
MARK = b"45 InvalidName\n"


def request(method, key, secret, path, body=None):
    length = "" if body is None else f"content-length: {len(body)}\r\n"
    return f"{method} {path} HTTP/1.1\r\nhost: h\r\nx-access-key: {key}\r\nx-secret-key: {secret}\r\n{length}\r\n{body or ''}"


def line(members):
    return json.dumps(members) + "\n"


def answered(program, first, last):
    """What a host in memory answers to some lines and then to the last ones, and the microseconds of each."""
    mark = line({"at": 0, "op": "usage", "tenant": "-"})
    script = "".join([*first, *[mark] * MARKS, *last]).encode()
    started = time.perf_counter()
    process = subprocess.Popen([program, "script"], stdin=subprocess.PIPE, stdout=subprocess.PIPE)
    feed = threading.Thread(target=lambda: (process.stdin.write(script), process.stdin.close()))
    feed.start()
    text, begun, ended = bytearray(), None, 0.0
    while piece := os.read(process.stdout.fileno(), 1 << 16):
        seen = max(0, len(text) - len(MARK))
        text += piece
        ended = time.perf_counter()  # the program's own end takes longer the more its host has
        if begun is None and text.find(MARK, seen) >= 0:
            begun = ended
    feed.join()
    if process.wait() != 0 or text.count(MARK) != MARKS:
        sys.exit(f"an event was answered otherwise than it should be: status {process.returncode}, {bytes(text[-300:])}")
    return bytes(text).replace(MARK, b""), 1e6 * (begun - started), 1e6 * (ended - begun)
