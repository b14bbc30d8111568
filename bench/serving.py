#!/usr/bin/env python3
"""Times `bucketd serve` beside nginx's DAV, by ab over loopback: puts and gets of one object, a connection each.

    bench/serving.py [PROGRAM]        PROGRAM: crates/bucketd/out/bucketd

It needs Debian's nginx-light and apache2-utils. Both servers keep their files in one new folder in the current one (FOLDER
in the environment names another place). Requests come one after another.
"""
import os
import re
import subprocess
import sys
import tempfile

from server import Server, await_listener, free_port, need, proved_program

SIZES = [(1 << 10, 2000), (1 << 16, 1000), (1 << 20, 200), (1 << 24, 20)]
FIELDS = ["-H", "x-access-key: green$k1", "-H", "x-secret-key: greensecret"]
CONFIG = """{user}daemon off; worker_processes 1; pid {at}/pid; error_log {at}/error.log;
events {{}}
http {{ sendfile on; tcp_nopush on; access_log off; client_max_body_size 32m; client_body_temp_path {at}/temp; proxy_temp_path {at}/t1; fastcgi_temp_path {at}/t2;
uwsgi_temp_path {at}/t3; scgi_temp_path {at}/t4; server {{ listen 127.0.0.1:{port}; location / {{ root {at}/files; dav_methods PUT DELETE; }} }} }}
"""


def start_nginx(folder):
    port = free_port()
    os.makedirs(os.path.join(folder, "files", "plans"))
    # A master that is root has its workers be root too, so that they may write here.
    user = "user root; " if os.geteuid() == 0 else ""
    with open(os.path.join(folder, "nginx.conf"), "w") as out:
        out.write(CONFIG.format(user=user, at=folder, port=port))
    server = subprocess.Popen(["nginx", "-c", os.path.join(folder, "nginx.conf")], stderr=subprocess.DEVNULL)
    await_listener(server, port)
    return server, port


def ab(port, requests, body=None):
    """The milliseconds of the median request, and the requests a second."""
    words = ["ab", "-q", "-n", str(requests), "-c", "1", *FIELDS]
    with tempfile.NamedTemporaryFile() as table:
        if body:
            words += ["-u", body, "-T", "application/octet-stream"]
        done = subprocess.run([*words, "-e", table.name, f"http://127.0.0.1:{port}/plans/x"], stdout=subprocess.PIPE, stderr=subprocess.STDOUT)
        text = done.stdout.decode()
        if done.returncode != 0 or "Non-2xx" in text or not re.search(r"Failed requests:\s+0\b", text):
            sys.exit(text)
        median = next(float(line.split(b",")[1]) for line in table if line.startswith(b"50,"))
    return median, float(re.search(r"Requests per second:\s+([\d.]+)", text).group(1))


def main():
    program = proved_program(sys.argv[1:])
    need(nginx="nginx-light", ab="apache2-utils")
    with tempfile.TemporaryDirectory(dir=os.environ.get("FOLDER", ".")) as folder:
        folder = os.path.abspath(folder)
        os.makedirs(os.path.join(folder, "ours"))
        os.makedirs(os.path.join(folder, "nginx"))
        ours = Server(program, os.path.join(folder, "ours"))
        nginx, other = start_nginx(os.path.join(folder, "nginx"))
        try:
            print(f"{'request':>8} {'bytes':>9} {'bucketd ms':>11} {'nginx ms':>9} {'ratio':>6} {'bucketd/s':>10} {'nginx/s':>9} {'resident MB':>12}")
            for size, requests in SIZES:
                body = os.path.join(folder, "body")
                with open(body, "wb") as out:
                    out.write(os.urandom(size))
                for kind in ("PUT", "GET"):
                    sent = body if kind == "PUT" else None
                    theirs, their_rate = ab(other, requests, sent)
                    our, our_rate = ab(ours.port, requests, sent)
                    print(f"{kind:>8} {size:>9} {our:>11.3f} {theirs:>9.3f} {our / theirs:>6.2f} {our_rate:>10.0f} {their_rate:>9.0f} {ours.memory('VmRSS'):>12.1f}", flush=True)
        finally:
            ours.end()
            nginx.terminate()
            nginx.wait()


if __name__ == "__main__":
    main()
