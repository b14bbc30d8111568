#!/usr/bin/env python3
"""Times the gateway beside bare `bucketd serve`, radosgw and nginx's DAV in one run: puts and gets of 1 KiB to 16 MiB by 1, 8 and 64
clients at once, each with an object of its own; with notes of metadata, without, over TLS, and where others may write (each get is
then what the first get of an object is elsewhere: three requests to the host); its memory; silent clients.

    bench/gateway.py [--seconds S] [--only NAMES] [--sizes BYTES] [--clients NUMBERS] [--tables NAMES] [--beside GATEWAYS] [PROGRAM]

PROGRAM: crates/bucketd/out/bucketd. Lists, with commas, leave out other columns (but bucketd and gateway), sizes, numbers of clients, and
tables: rates, silence, memory, added. The last, which isn't made unasked, has what the gateway adds to a request of one client, and
other builds of it (--beside PATH,..): all are before the same bucketd and asked in turns, so that a busy machine's good and bad moments
fall on all. In the table of rates other builds have columns, too, each with a host of its own. Where PROGRAM is `stand-in`, only this table is made, before the stand-in of gateway/'s tests.
It needs Debian's golang-go and openssl, and for what it is measured beside radosgw, ceph-mon, ceph-osd and ceph-common, and
nginx-light: what isn't there is left out. All servers keep their files in one new folder in the current one (FOLDER in the
environment names another place). The load is TestLoad of gateway/. Tables of Markdown come on standard output.
"""
import json
import os
import re
import shutil
import signal
import socket
import subprocess
import sys
import tempfile
import uuid

from server import TOP, await_listener, free_port, proved_program
from host import Program
from s3_requests import build_gateway, make_host, write_keys

SIZES = [(1 << 10, "1 KiB"), (1 << 16, "64 KiB"), (1 << 20, "1 MiB"), (1 << 24, "16 MiB")]
CLIENTS = [1, 8, 64]
NGINX = """{user}daemon off; worker_processes 1; pid {at}/pid; error_log {at}/error.log; events {{}}
http {{ access_log off; client_max_body_size 32m; client_body_temp_path {at}/temp; proxy_temp_path {at}/t1; fastcgi_temp_path {at}/t2;
uwsgi_temp_path {at}/t3; scgi_temp_path {at}/t4; server {{ listen 127.0.0.1:{port}; location / {{ root {at}/files; dav_methods PUT DELETE; }} }} }}
"""
CEPH = """[global]
fsid = {id}
mon host = [v2:127.0.0.1:{v2},v1:127.0.0.1:{v1}]
auth cluster required = none
auth service required = none
auth client required = none
ms mon client mode = crc
osd pool default size = 1
osd pool default min size = 1
osd pool default pg num = 8
osd pool default pg autoscale mode = off
mon allow pool size one = true
mon data avail crit = 1
mon max pg per osd = 1000
osd crush chooseleaf type = 0
osd objectstore = bluestore
bluestore block create = true
bluestore block size = 21474836480
public addr = 127.0.0.1
cluster addr = 127.0.0.1
run dir = {at}
admin socket = {at}/$name.asok
log file = {at}/$name.log
pid file = {at}/$name.pid
crash dir = {at}
mon data = {at}/mon
osd data = {at}/osd
rgw data = {at}/rgw
rgw frontends = beast endpoint=127.0.0.1:{port} tcp_nodelay=1
"""


class Server(Program):
    """A process that listens, how the load asks it, and other processes that end with it."""

    def __init__(self, name, words, port, mode="s3", id="green$k1", scheme="http", more=()):
        super().__init__(words, port)
        self.name, self.mode, self.id, self.url, self.more = name, mode, id, f"{scheme}://127.0.0.1:{port}", more
        if not await_listener(self.process, port):
            sys.exit(f"{name} didn't start: {self.lines()}")

    def end(self):
        for it in self.more:
            it.terminate()
        super().end(signal.SIGTERM)
        for it in self.more:
            it.wait()


def load(tests, server, method, size, clients, seconds):
    """What TestLoad tells: requests a second, milliseconds of the median and of 99 in 100, faults."""
    plan = {"Mode": server.mode, "URL": server.url, "ID": server.id, "Secret": "greensecret", "Method": method, "Size": size, "Clients": clients, "Seconds": seconds}
    done = subprocess.run([tests, "-test.run", "^TestLoad$", "-test.v"], env={**os.environ, "LOAD": json.dumps(plan)}, capture_output=True, text=True)
    found = re.search(r"^LOAD (.*)$", done.stdout, re.M)
    return json.loads(found.group(1)) if found else {"rate": 0, "p50": 0, "p99": 0, "faults": done.stdout[-300:]}


def start_gateway(name, build, folder, *options, scheme="http"):
    port = free_port()
    words = [build, "--listen", f"127.0.0.1:{port}", "--keys", os.path.join(folder, "ours/keys"), "--spool", folder]
    return Server(name, [*words, *options], port, scheme=scheme)


def serving(program, folder, name):
    """The options of a gateway that serves a new host of its own."""
    at = os.path.join(folder, name)
    os.makedirs(at)
    make_host(program, at, {"green": 1 << 40})
    return ["--serve", os.path.join(at, "host"), "--program", program]


def start_nginx(folder):
    at, port = os.path.join(folder, "nginx"), free_port()
    os.makedirs(os.path.join(at, "files/load"))
    with open(os.path.join(at, "nginx.conf"), "w") as out:
        out.write(NGINX.format(user="user root; " if os.geteuid() == 0 else "", at=at, port=port))
    return Server("nginx", ["nginx", "-c", os.path.join(at, "nginx.conf")], port, mode="plain")


def start_radosgw(folder):
    """A monitor, one store and the gateway of Ceph, as few as go."""
    at, port = os.path.join(folder, "ceph"), free_port()
    for name in ("mon", "osd", "rgw"):
        os.makedirs(os.path.join(at, name))
    id, conf, v1, v2 = str(uuid.uuid4()), os.path.join(at, "ceph.conf"), free_port(), free_port()
    with open(conf, "w") as out:
        out.write(CEPH.format(id=id, at=at, v1=v1, v2=v2, port=port))
    run = lambda *words: subprocess.run(words, check=True, stdout=subprocess.DEVNULL, stderr=subprocess.DEVNULL, cwd=at, timeout=120, env={**os.environ, "CEPH_CONF": conf})
    background = lambda *words: subprocess.Popen([*words, "-c", conf, "-f"], stdout=subprocess.DEVNULL, stderr=subprocess.DEVNULL)
    more = []
    try:
        run("monmaptool", "--create", "--fsid", id, "--addv", "a", f"[v2:127.0.0.1:{v2},v1:127.0.0.1:{v1}]", "monmap")
        run("ceph-mon", "--mkfs", "-i", "a", "--monmap", "monmap", "-c", conf)
        more.append(background("ceph-mon", "-i", "a"))
        store = str(uuid.uuid4())
        run("ceph", "osd", "new", store)
        run("ceph-osd", "-i", "0", "--mkfs", "--osd-uuid", store, "-c", conf)
        run("ceph", "osd", "crush", "add-bucket", "host1", "host")
        run("ceph", "osd", "crush", "move", "host1", "root=default")
        run("ceph", "osd", "crush", "add", "osd.0", "1.0", "host=host1")
        more.append(background("ceph-osd", "-i", "0"))
        trust = ["--ms_mon_client_mode=crc", "--auth_client_required=none"]
        words = ["radosgw", "-n", "client.rgw.a", "-c", conf, "-f", *trust]
        server = Server("radosgw", words, port, id="greenk1", more=more)
        run("radosgw-admin", *trust, "user", "create", "--uid=green", "--display-name=green", "--access-key=greenk1", "--secret-key=greensecret")
        return server
    except (subprocess.SubprocessError, OSError, SystemExit) as error:
        for it in more:
            it.kill()
            it.wait()
        print(f"radosgw is left out: {error}", file=sys.stderr)


def added(tests, builds, folder, program, sizes, seconds):
    """Medians in turns of bare bucketd (or the stand-in) and of gateways before it, by a bare socket and by Go's client of HTTP."""
    at, port = os.path.join(folder, "ours"), free_port()
    if program == "stand-in":
        write_keys(at, ["green"])
        os.environ["STANDIN"] = f"127.0.0.1:{port}"
        words = [tests, "-test.run", "^TestStandin$", "-test.timeout", "0"]
    else:
        words = [program, "serve", "--file", os.path.join(at, "host"), "--port", str(port), "--count", "4294967295"]
    servers = [Server("bucketd", words, port, mode="bare")]
    try:
        for build in builds:
            for mode, name in (("kept", "a socket"), ("s3", "Go's client")):
                it = start_gateway(f"{os.path.basename(build)}, {name}", build, folder, "--host", f"127.0.0.1:{port}", "--alone")
                it.mode = mode
                servers.append(it)
        print("| Request | | median, ms | added | least | added | processor time, ms |\n|---|---|---|---|---|---|---|", flush=True)
        for size, shown in sizes:
            for method in ("PUT", "GET"):
                plans = [{"Mode": it.mode, "URL": it.url, "ID": it.id, "Secret": "greensecret", "Method": method, "Size": size, "Seconds": seconds,
                          "PIDs": [it.process.pid]} for it in servers]
                done = subprocess.run([tests, "-test.run", "^TestAdded$", "-test.v"], env={**os.environ, "ADDED": json.dumps(plans)}, capture_output=True, text=True)
                found = [json.loads(it) for it in re.findall(r"^ADDED (.*)$", done.stdout, re.M)]
                for server, it in zip(servers, found):
                    more = [f"{it[name]:.3f} | {it[name] - found[0][name]:.3f}" for name in ("p50", "least")]
                    print(f"| {method} {shown} | {server.name} | {more[0]} | {more[1]} | {it['spent']:.3f} |", flush=True)
                print(f"{method} {shown}: {found[0]['count']} requests each" if found else done.stdout[-500:], file=sys.stderr)
    finally:
        for it in servers:
            it.end()


def silent_clients(url):
    host, port = url.split("//")[1].split(":")
    links = [socket.create_connection((host, int(port))) for _ in range(50)]
    for i, it in enumerate(links):
        it.sendall((b"", b"PUT /load/x HTTP/1.1\r\nHost: h\r\n", b"PUT /load/x HTTP/1.1\r\nHost: h\r\nContent-Length: 100\r\n\r\nabc")[i % 3])
    return links


def rates(tests, servers, sizes, counts, seconds):
    names = [it.name for it in servers]
    print("| Request | Clients | " + " | ".join(names) + " |\n|---|---|" + "---|" * len(names), flush=True)
    for size, shown in sizes:
        for method in ("PUT", "GET"):
            for clients in counts:
                if size == 1 << 24 and clients == 64:
                    continue
                told = [load(tests, it, method, size, clients, seconds) for it in servers]
                cells = [f"{float(format(it['rate'], '.3g')):g} ({it['p50']:.3g})" + (" !" if it["faults"] else "") for it in told]
                print(f"| {method} {shown} | {clients} | " + " | ".join(cells) + " |", flush=True)
                for server, it in zip(servers, told):
                    if it["faults"]:
                        print(f"{server.name}: {it['faults']}", file=sys.stderr)


def memory(tests, build, folder, host, sizes, seconds):
    print("\n| 64 clients at once | peak resident MB of the gateway |\n|---|---|", flush=True)
    for size, shown in sizes:
        for method in ("PUT", "GET"):
            it = start_gateway("gateway", build, folder, "--host", f"127.0.0.1:{host}", "--alone")
            load(tests, it, method, size, 64, seconds)
            print(f"| {method} {shown} | {it.memory('VmHWM'):.0f} |", flush=True)
            it.end()


def silence(tests, gateway, seconds):
    print("\n| 8 clients, 1 KiB | requests/s | beside 50 silent clients |\n|---|---|---|")
    for method in ("PUT", "GET"):
        rate = lambda: load(tests, gateway, method, 1024, 8, seconds)["rate"]
        before, beside = [], []
        for _ in range(3):  # (in turns, so that a disk's good and bad seconds fall on both)
            before.append(rate())
            links = silent_clients(gateway.url)
            beside.append(rate())
            for it in links:
                it.close()
        print(f"| {method} | {sorted(before)[1]:.0f} | {sorted(beside)[1]:.0f} |", flush=True)


def main():
    signal.signal(signal.SIGTERM, lambda *_: sys.exit(1))  # (what was started is ended, too)
    words, told = sys.argv[1:], {"--seconds": "2", "--only": "", "--sizes": "", "--clients": "", "--tables": "rates,silence,memory", "--beside": ""}
    while words and words[0] in told:
        told[words[0]], words = words[1], words[2:]
    seconds, only, tables = float(told["--seconds"]), [it for it in told["--only"].split(",") if it], told["--tables"].split(",")
    sizes = [it for it in SIZES if not told["--sizes"] or str(it[0]) in told["--sizes"].split(",")]
    counts = [it for it in CLIENTS if not told["--clients"] or str(it) in told["--clients"].split(",")]
    beside = [os.path.abspath(it) for it in told["--beside"].split(",") if it]
    program = words[0] if words else os.path.join(TOP, "crates/bucketd/out/bucketd")
    if program == "stand-in":
        tables = ["added"]
    else:
        program = proved_program([program])
    with tempfile.TemporaryDirectory(dir=os.environ.get("FOLDER", ".")) as folder:
        folder = os.path.abspath(folder)
        build, tests, ours = build_gateway(folder), os.path.join(folder, "tests"), os.path.join(folder, "ours")
        if not build:
            sys.exit("no Go is here: apt-get install golang-go")
        subprocess.run(["go", "test", "-c", "-o", tests, "./internal/s3"], cwd=os.path.join(TOP, "gateway"), check=True)
        subprocess.run("openssl req -x509 -newkey ec -pkeyopt ec_paramgen_curve:prime256v1 -nodes -keyout tls.key -out tls.pem -days 2 -subj /CN=localhost".split(),
                       cwd=folder, check=True, capture_output=True)
        os.makedirs(ours)
        if program != "stand-in":
            make_host(program, ours, {"green": 1 << 40})
        print(f"load before: {' '.join(open('/proc/loadavg').read().split()[:3])}\n")
        if "added" in tables:
            added(tests, [build, *beside], folder, program, sizes, seconds)
        if tables == ["added"]:
            print(f"\nload after (with this run): {' '.join(open('/proc/loadavg').read().split()[:3])}")
            return
        port, servers = free_port(), []
        try:
            bare = [program, "serve", "--file", os.path.join(ours, "host"), "--port", str(port), "--count", "4294967295"]
            servers.append(Server("bucketd", bare, port, mode="bare"))
            tls = ["--cert", os.path.join(folder, "tls.pem"), "--cert-key", os.path.join(folder, "tls.key")]
            servers.append(start_gateway("gateway", build, folder, *serving(program, folder, "gateway-host")))
            for it in beside:
                servers.append(start_gateway(os.path.basename(it), it, folder, *serving(program, folder, f"host-of-{os.path.basename(it)}")))
            if not only or "no notes" in only:
                servers.append(start_gateway("no notes", build, folder, *serving(program, folder, "bare-host"), "--meta=false"))
            if not only or "TLS" in only:
                servers.append(start_gateway("TLS", build, folder, *serving(program, folder, "tls-host"), *tls, scheme="https"))
            if not only or "shared" in only:
                servers.append(start_gateway("shared", build, folder, "--host", f"127.0.0.1:{port}"))
            if shutil.which("radosgw") and shutil.which("ceph-osd") and (not only or "radosgw" in only):
                servers += filter(None, [start_radosgw(folder)])
            if shutil.which("nginx") and (not only or "nginx" in only):
                servers.append(start_nginx(folder))
            if "rates" in tables:
                rates(tests, servers, sizes, counts, seconds)
            if "silence" in tables:
                silence(tests, servers[1], seconds)
            if "memory" in tables:
                memory(tests, build, folder, port, sizes, seconds)
            print(f"\nload after (with this run): {' '.join(open('/proc/loadavg').read().split()[:3])}")
        finally:
            for it in servers:
                it.end()


if __name__ == "__main__":
    main()
