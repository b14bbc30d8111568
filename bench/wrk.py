"""Servers that wrk asks over loopback, a connection a request: bucketd, and nginx's DAV and radosgw where they are there."""
import json
import os
import re
import shutil
import statistics
import subprocess
import sys
import tempfile
import time
from dataclasses import dataclass, field
from typing import Callable

import gateway
import serving
from server import Server
from s3_requests import Client

BODY = os.urandom(1024)
KEYS = [f"/key{i}" for i in range(64)]
FIELDS = ["x-access-key: green$k1", "x-secret-key: greensecret"]
# Each body is one that no other request had.
SCRIPT = """
wrk.method = "%s"
local paths, tail, count = {%s}, string.rep("x", 1004), %d
request = function()
  count = count + 1
  return wrk.format(nil, paths[count %% #paths + 1], nil, wrk.method == "PUT" and string.format("%%020d", count) .. tail or nil)
end
done = function(all, took)
  local e = all.errors
  print("TOLD", all.requests, all.duration, took:percentile(50), took:percentile(99), took.max, e.connect + e.read + e.write + e.timeout + e.status)
end
"""


@dataclass
class Target:
    """A server that is asked: by which paths and fields, what ends it, and the seconds that it was on a processor."""
    name: str
    port: int
    end: Callable
    paths: Callable = lambda method: ["/plans" + it for it in KEYS]
    fields: list = field(default_factory=list)
    spent: Callable = lambda: 0


@dataclass
class Turn:
    """What clients had for some seconds: requests a second, milliseconds of one, errors, the processor's milliseconds of one."""
    rate: float
    p50: float
    p99: float
    longest: float
    errors: int
    spent: float


def ask(target, method, clients, seconds):
    """Clients put 1 KiB, or get, over and over. Errors are statuses of 400 and above, and connections that broke or took 30 s."""
    words = ["wrk", "-t", "1", "-c", str(clients), "-d", f"{seconds}s", "--timeout", "30s", "-H", "Connection: close"]
    words += [word for it in target.fields for word in ("-H", it)]
    with tempfile.NamedTemporaryFile("w", suffix=".lua") as script:
        script.write(SCRIPT % (method, ", ".join(map(json.dumps, target.paths(method))), time.time_ns() // 1000))
        script.flush()
        before = target.spent()
        done = subprocess.run([*words, "-s", script.name, f"http://127.0.0.1:{target.port}"], capture_output=True, text=True, timeout=90)
        spent = target.spent() - before
    told = re.search(r"^TOLD\t(.*)$", done.stdout, re.M) or sys.exit(f"{target.name}: {done.stdout}{done.stderr}")
    requests, micros, p50, p99, longest, errors = map(float, told[1].split("\t"))
    it = Turn(1e6 * requests / micros, p50 / 1000, p99 / 1000, longest / 1000, int(errors), 1000 * spent / max(requests, 1))
    print(f"  {target.name}: {method} by {clients}: {it.rate:.0f}/s, {it.p50:.2f} ms, 99 % {it.p99:.2f}, longest {it.longest:.0f}, "
          f"processor {it.spent:.3f}, {it.errors} errors, load {os.getloadavg()[0]:.0f}", file=sys.stderr, flush=True)
    return it


def median(turns, name):
    return statistics.median(getattr(it, name) for it in turns)


def cells(turns):
    """Of some turns: requests a second, microseconds of each, milliseconds of one, the processor's milliseconds, all medians."""
    rate, errors, spent = median(turns, "rate"), sum(it.errors for it in turns), median(turns, "spent")
    told = f"{rate:.0f}" + (f", {errors} errors" if errors else "")
    return f"{told} | {1e6 / max(rate, 1):.0f} | {median(turns, 'p50'):.2f}, {median(turns, 'p99'):.2f} | " + (f"{spent:.3f}" if spent else "")


HEADS = "a second | us each | ms: median, 99 % | processor, ms"


def bucketd(name, program, folder, *words, **env):
    """On a new host with all keys: the server, in an environment with these variables, and it as one that is asked."""
    server = Server(program, tempfile.mkdtemp(dir=folder), *words, **env)
    for it in KEYS:
        server.put(it, BODY)
    return server, Target(name, server.port, server.end, fields=FIELDS, spent=server.spent)


def nginx(folder):
    process, port = serving.start_nginx(tempfile.mkdtemp(dir=folder))
    return Target("nginx", port, lambda: (process.terminate(), process.wait()))


def radosgw(folder):
    """Its paths have signatures; none where it doesn't start."""
    server = gateway.start_radosgw(tempfile.mkdtemp(dir=folder))
    if not server:
        return None
    client = Client(server.port)
    client.id = "greenk1"
    status = client.bare("PUT", client.presigned("PUT", "/plans"))[0]
    if status != 200:
        print(f"radosgw makes no bucket: {status}", file=sys.stderr)
    return Target("radosgw", server.port, server.end, lambda method: [client.presigned(method, "/plans" + it) for it in KEYS])


def others(folder):
    found = [nginx(folder)] if shutil.which("nginx") else []
    if all(map(shutil.which, ("radosgw", "ceph-mon", "ceph-osd", "ceph"))):
        found += filter(None, [radosgw(folder)])
    return found
