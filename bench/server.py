"""`bucketd serve` on a host in a folder, and a plain server of one file, asked over loopback, a connection a request."""
import os
import socket
import subprocess
import sys
import time

TOP = os.path.dirname(os.path.dirname(os.path.abspath(__file__)))
sys.path.insert(0, os.path.join(TOP, "tools"))
import host  # noqa: E402
from host import COUNT, SHARED_MEMORY, await_listener, command, copied, free_port, make_host, on_disk, proved_program, removed, request  # noqa: E402, F401

PLAIN = """
import socket, sys
name, port = sys.argv[1], int(sys.argv[2])
listener = socket.create_server(("127.0.0.1", port))
while True:
    link, _ = listener.accept()
    with link:
        asked = b""
        while not asked.endswith(b"\\r\\n\\r\\n"):
            more = link.recv(65536)
            if not more:
                break
            asked += more
        if asked:
            with open(name, "rb") as file:
                body = file.read()
            link.sendall(b"HTTP/1.1 200 OK\\r\\ncontent-length: %d\\r\\n\\r\\n" % len(body))
            link.sendall(body)
"""


def need(**tools):
    """Ends where a program isn't there; each with its Debian package."""
    for tool, package in tools.items():
        if not host.shutil.which(tool):
            sys.exit(f"{tool} isn't there: apt-get install {package}")


class Asked:
    """A server of requests on a port of its process's, asked over loopback, a connection a request."""

    def __enter__(self):
        return self

    def __exit__(self, *_):
        self.process.kill()
        self.process.wait()

    def ask(self, method, key, body=None, status=b"200 OK", tenant="green", fields=()):
        """The milliseconds of one request of a tenant, and the body of what it was answered."""
        asked = request(tenant, method, f"/plans{key}", body, fields, secret="greensecret")
        before = time.perf_counter()
        with socket.create_connection(("127.0.0.1", self.port)) as s:
            s.sendall(asked)
            parts = []
            while part := s.recv(1 << 20):
                parts.append(part)
        milliseconds = 1000 * (time.perf_counter() - before)
        answered = b"".join(parts)
        if not answered.startswith(b"HTTP/1.1 %s\r\n" % status):
            sys.exit(f"{method} {key}: {answered[:300]}")
        return milliseconds, answered[answered.index(b"\r\n\r\n") + 4 :]

    def silent(self, key):
        """A connection whose client has asked for an object and reads nothing."""
        it = socket.create_connection(("127.0.0.1", self.port))
        it.sendall(request("green", "GET", f"/plans{key}", None))
        return it

    def get(self, key, body):
        milliseconds, got = self.ask("GET", key)
        if got != body:
            sys.exit(f"GET {key}: other bytes")
        return milliseconds

    def put(self, key, body):
        return self.ask("PUT", key, body)[0]


class PlainServer(Asked):
    """Answers each request with the bytes of one file, which it reads anew each time."""

    def __init__(self, folder, body):
        name, self.port = os.path.join(folder, "plain"), free_port()
        with open(name, "wb") as file:
            file.write(body)
        self.process = subprocess.Popen([sys.executable, "-c", PLAIN, name, str(self.port)])
        await_listener(self.process, self.port)


class Server(Asked, host.Server):
    """`bucketd serve` on a host in a folder, which is made with the tenant green and its bucket where it isn't there."""

    def __init__(self, program, folder, *words, digest="sha256", limits=(), count=COUNT, **env):
        self.file = os.path.join(folder, "host")
        is_new = not os.path.exists(self.file)
        if is_new:
            make_host(program, self.file, ["green"], "--digest", digest, *limits)
        host.Server.__init__(self, program, self.file, *words, count=count, **env)
        if is_new:
            self.put("", b"")
