#!/usr/bin/env python3
"""Requests a second of one, two and four hosts behind one nginx, as deploy/shards.conf has it: each tenant is on one of them.

    bench/shards.py [PROGRAM]       PROGRAM: crates/bucketd/out/bucketd
        --tenants N                 so many tenants in all, spread over the hosts (40)
        --seconds N                 of each measure (5)
        --hosts N,N                 1,2,4

It needs Debian's nginx-light and wrk. The files lie in /dev/shm (FOLDER in the environment names another place). First each
tenant's object is asked for, and has what its own host holds. 'of linear' is the rate beside that of one host times their number:
nginx and the load take processors, too.
"""
import argparse
import json
import os
import re
import socket
import subprocess
import sys
import tempfile
from http.client import HTTPConnection

from server import TOP, await_listener, command, free_port, host, need, proved_program

CONNECTIONS = 32
SIZE = 1024
AROUND = """daemon off; worker_processes 1; {user}pid {at}/pid; error_log {at}/error.log;
events {{ worker_connections 1024; }}
http {{ access_log off; client_body_temp_path {at}/body; proxy_temp_path {at}/proxy; fastcgi_temp_path {at}/t1; uwsgi_temp_path {at}/t2;
scgi_temp_path {at}/t3; include {at}/shards.conf; include {at}/site.conf; }}
"""
LOAD = """
local count = 0
request = function()
  count = count + 1
  local name = "t" .. (count % {tenants})
  local body = nil
  if "{method}" == "PUT" then body = string.rep("a", {size} - 10) .. string.format("%010d", count) end
  return wrk.format("{method}", "/plans/x", {{["x-access-key"] = name .. "$k1", ["x-secret-key"] = name .. "secret"}}, body)
end
"""


def told(port, op, tenant, **members):
    """What an operator's line is answered."""
    with socket.create_connection(("127.0.0.1", port), 60) as it:
        it.sendall(json.dumps({"op": op, "tenant": tenant, **members}).encode() + b"\n")
        return it.makefile().read().strip()


class Host:
    """A host in a file with some tenants, each with an object of its own, served."""

    def __init__(self, program, file, tenants):
        command(program, file, "init")
        operators = free_port()
        self.server = host.Server(program, file, "--operator-port", str(operators))
        self.port = self.server.port
        for tenant in tenants:
            answers = [told(operators, "tenant-add", tenant, quota=1 << 40), told(operators, "key-add", tenant, name="k1", secret=tenant + "secret")]
            answers += [self.server.ask(tenant, "PUT", "/plans").status, self.server.ask(tenant, "PUT", "/plans/x", tenant.ljust(SIZE).encode()).status]
            if answers != [f"tenant {tenant}", f"key {tenant}$k1", 200, 200]:
                sys.exit(f"{tenant} wasn't made: {answers}")

    def end(self):
        self.server.end()


def gets(front, tenant):
    """What a tenant's object is, by nginx."""
    front.request("GET", "/plans/x", headers={"x-access-key": f"{tenant}$k1", "x-secret-key": f"{tenant}secret"})
    return front.getresponse().read().decode().rstrip()


def replaced(text, old, new):
    if text.count(old) != 1:
        sys.exit(f"what deploy/ has stands {text.count(old)} times in it, not once: {old!r}")
    return text.replace(old, new)


def upstreams(text, hosts):
    """The configuration with these hosts in the place of its two."""
    text = re.sub(r"(?ms)^upstream .*?^\}\n", "", text)
    return "".join(f"upstream bucketd_{n} {{ server 127.0.0.1:{host.port}; }}\n" for n, host in enumerate(hosts, 1)) + text


class Front:
    """nginx as deploy/nginx.conf and deploy/shards.conf have it, but for TLS."""

    def __init__(self, folder, hosts, tenants_of):
        self.port = free_port()
        with open(os.path.join(TOP, "deploy/nginx.conf")) as site, open(os.path.join(TOP, "deploy/shards.conf")) as shards:
            site, shards = site.read(), shards.read()
        site = re.sub(r"(?ms)^upstream .*?^\}\n", "", site)
        site = "".join(line for line in site.splitlines(True) if "ssl" not in line or "listen 443" in line)
        site = replaced(site, "listen 443 ssl;", f"listen 127.0.0.1:{self.port};")
        site = replaced(site, "proxy_pass http://bucketd;", "proxy_pass http://$bucketd_host;")
        shards = replaced(upstreams(shards, hosts), "/etc/nginx/bucketd-tenants.map", f"{folder}/tenants.map")
        lines = [f"{tenant} bucketd_{n};\n" for n, tenants in enumerate(tenants_of, 1) for tenant in tenants if n > 1]
        user = "user root; " if os.geteuid() == 0 else ""
        for name, text in (("site.conf", site), ("shards.conf", shards), ("tenants.map", "".join(lines)), ("nginx.conf", AROUND.format(user=user, at=folder))):
            with open(os.path.join(folder, name), "w") as out:
                out.write(text)
        self.process = subprocess.Popen(["nginx", "-c", os.path.join(folder, "nginx.conf")], stderr=subprocess.DEVNULL)
        if not await_listener(self.process, self.port):
            sys.exit("nginx doesn't start")

    def end(self):
        self.process.terminate()
        self.process.wait()


def rate(folder, port, tenants, method, seconds):
    """Requests a second; none may be refused."""
    script = os.path.join(folder, "load.lua")
    with open(script, "w") as out:
        out.write(LOAD.format(tenants=tenants, method=method, size=SIZE))
    words = ["wrk", "-t", "1", "-c", str(CONNECTIONS), "-d", f"{seconds}s", "-s", script, f"http://127.0.0.1:{port}/"]
    told = subprocess.run(words, check=True, capture_output=True, text=True).stdout
    if "Non-2xx" in told or "Socket errors" in told:
        sys.exit(told)
    return float(re.search(r"Requests/sec:\s+([\d.]+)", told)[1])


def measured(program, folder, number, options):
    """The rates of GET and PUT before so many hosts."""
    names = [f"t{n}" for n in range(options.tenants)]
    tenants_of = [names[n::number] for n in range(number)]
    hosts, front = [], None
    try:
        for n, tenants in enumerate(tenants_of):
            hosts.append(Host(program, os.path.join(folder, f"host{n}"), tenants))
        front = Front(folder, hosts, tenants_of)
        client = HTTPConnection("127.0.0.1", front.port, timeout=60)
        for name in names:
            if gets(client, name) != name:
                sys.exit(f"{name} isn't answered by its host")
        return [rate(folder, front.port, options.tenants, method, options.seconds) for method in ("GET", "PUT")]
    finally:
        for it in [*hosts, *([front] if front else [])]:
            it.end()


def main():
    parser = argparse.ArgumentParser(usage=__doc__)
    parser.add_argument("program", nargs="*")
    parser.add_argument("--tenants", type=int, default=40)
    parser.add_argument("--seconds", type=int, default=5)
    parser.add_argument("--hosts", default="1,2,4")
    options = parser.parse_args()
    program = proved_program(options.program)
    need(nginx="nginx-light", wrk="wrk")
    print(f"{'hosts':>5} {'GET/s':>8} {'of linear':>9} {'PUT/s':>8} {'of linear':>9}")
    first = None
    for number in map(int, options.hosts.split(",")):
        with tempfile.TemporaryDirectory(dir=os.environ.get("FOLDER", "/dev/shm")) as folder:
            rates = measured(program, folder, number, options)
        first = first or [it / number for it in rates]
        shares = [it / one / number for it, one in zip(rates, first)]
        print(f"{number:>5} {rates[0]:>8.0f} {shares[0]:>9.2f} {rates[1]:>8.0f} {shares[1]:>9.2f}", flush=True)


if __name__ == "__main__":
    main()
