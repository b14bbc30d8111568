"""Requests to S3, signed by an implementation of Signature V4 of its own (Amazon S3 API Reference, "Authenticating Requests"),
and a gateway before a `bucketd serve` on a new host: for tools/test-gateway, tools/clients and bench/."""
import base64
import hashlib
import hmac
import os
import re
import shutil
import signal
import socket
import subprocess
import time
import urllib.parse
from http.client import HTTPConnection

import host
from host import TOP

SIGNED, SIGNED_TRAILER, TRAILER = (f"STREAMING-{it}" for it in
                                   ("AWS4-HMAC-SHA256-PAYLOAD", "AWS4-HMAC-SHA256-PAYLOAD-TRAILER", "UNSIGNED-PAYLOAD-TRAILER"))


def mac(key, text):
    return hmac.new(key, text.encode(), hashlib.sha256).digest()


def sha256(data):
    return hashlib.sha256(data).hexdigest()


def crc64nvme(data):
    crc = 0xFFFFFFFFFFFFFFFF
    for byte in data:
        crc ^= byte
        for _ in range(8):
            crc = (crc >> 1) ^ (0x9A6C9329AC4BC9B5 if crc & 1 else 0)
    return base64.b64encode((crc ^ 0xFFFFFFFFFFFFFFFF).to_bytes(8, "big")).decode()


def quoted(path):
    return urllib.parse.quote(path, safe="/-_.~")


class Client:
    """A client of a gateway, with a key; region and skew (seconds) are what its signatures say."""

    def __init__(self, port, tenant="green", secret=None, region="us-east-1", skew=0, host="127.0.0.1"):
        self.port, self.host, self.region, self.skew = port, host, region, skew
        self.id, self.secret = f"{tenant}$k1", secret or f"{tenant}secret"

    def now(self):
        return time.strftime("%Y%m%dT%H%M%SZ", time.gmtime(time.time() + self.skew))

    def key(self, day):
        return mac(mac(mac(mac(("AWS4" + self.secret).encode(), day), self.region), "s3"), "aws4_request")

    def head(self, method, path, query="", body=b"", payload=None, fields={}):
        """The fields of a signed request, and what its chunks are signed with."""
        now = self.now()
        scope = f"{now[:8]}/{self.region}/s3/aws4_request"
        payload = payload or sha256(body)
        head = {"host": f"{self.host}:{self.port}", "x-amz-date": now, "x-amz-content-sha256": payload, **fields}
        names = ";".join(sorted(head))
        text = "\n".join([method, quoted(path), query, "".join(f"{it}:{head[it]}\n" for it in sorted(head)), names, payload])
        signature = mac(self.key(now[:8]), "\n".join(["AWS4-HMAC-SHA256", now, scope, sha256(text.encode())])).hex()
        head["authorization"] = f"AWS4-HMAC-SHA256 Credential={self.id}/{scope},SignedHeaders={names},Signature={signature}"
        return head, (self.key(now[:8]), now, scope, signature)

    def chunks(self, body, size, signing, payload, trailer=None, spoil=None):
        """A body in chunks. Spoiled: the second chunk's signature, the trailer's, the first chunk sent for the second, or the end cut."""
        key, now, scope, previous = signing
        is_signed, data, first = "HMAC" in payload, b"", None
        for i, part in enumerate([body[at:at + size] for at in range(0, len(body), size)] + [b""]):
            previous = mac(key, "\n".join(["AWS4-HMAC-SHA256-PAYLOAD", now, scope, previous, sha256(b""), sha256(part)])).hex()
            told = "0" * 64 if spoil == "chunk" and i == 1 else previous
            chunk = f"{len(part):x}".encode() + (f";chunk-signature={told}".encode() if is_signed else b"") + b"\r\n" + (part + b"\r\n" if part else b"")
            first = first or chunk
            data += first if spoil == "replayed" and i == 1 else chunk
        if trailer:
            line = f"{trailer[0]}:{trailer[1]}"
            data += line.encode() + b"\r\n"
            if is_signed:
                text = "\n".join(["AWS4-HMAC-SHA256-TRAILER", now, scope, previous, sha256(line.encode() + b"\n")])
                told = "0" * 64 if spoil == "trailer" else mac(key, text).hex()
                data += f"x-amz-trailer-signature:{told}\r\n".encode()
        data += b"\r\n"
        return data[:len(data) // 2] if spoil == "cut" else data

    def ask(self, method, path, body=b"", query="", payload=None, fields={}, size=None, trailer=None, spoil=None, late={}):
        """Status, S3's code or '', body and fields. `late` fields are set after the signature was made."""
        fields = dict(fields)
        if size:
            fields.update({"x-amz-decoded-content-length": str(len(body)), "content-encoding": "aws-chunked"})
        if trailer:
            fields["x-amz-trailer"] = trailer[0]
        head, signing = self.head(method, path, query, body, payload, fields)
        if size:
            body = self.chunks(body, size, signing, payload, trailer, spoil)
        head.update(late)
        if method in ("PUT", "POST"):
            head["content-length"] = str(len(body))
        return self.send(method, quoted(path) + ("?" + query if query else ""), head, body)

    def send(self, method, target, head, body):
        link = HTTPConnection(self.host, self.port, timeout=300)
        link.putrequest(method, target, skip_host=True, skip_accept_encoding=True)
        for name, value in head.items():
            link.putheader(name, value)
        link.endheaders(body or None)
        answer = link.getresponse()
        text = answer.read()
        link.close()
        code = re.search(rb"<Error><Code>(\w+)", text)
        return answer.status, code.group(1).decode() if code else "", text, answer.headers

    def presigned(self, method, path, seconds=600, **more):
        now = self.now()
        scope = f"{now[:8]}/{self.region}/s3/aws4_request"
        query = {"X-Amz-Algorithm": "AWS4-HMAC-SHA256", "X-Amz-Credential": f"{self.id}/{scope}", "X-Amz-Date": now, "X-Amz-Expires": str(seconds),
                 "X-Amz-SignedHeaders": "host", **more}
        encode = lambda text: urllib.parse.quote(text, safe="-_.~")
        text = "&".join(f"{encode(it)}={encode(query[it])}" for it in sorted(query))
        signed = "\n".join([method, quoted(path), text, f"host:{self.host}:{self.port}\n", "host", "UNSIGNED-PAYLOAD"])
        signature = mac(self.key(now[:8]), "\n".join(["AWS4-HMAC-SHA256", now, scope, sha256(signed.encode())])).hex()
        return f"{quoted(path)}?{text}&X-Amz-Signature={signature}"

    def presigned_2(self, method, path, seconds=600):
        until = str(int(time.time()) + seconds)
        signature = hmac.new(self.secret.encode(), f"{method}\n\n\n{until}\n{quoted(path)}".encode(), hashlib.sha1).digest()
        query = {"AWSAccessKeyId": self.id, "Expires": until, "Signature": base64.b64encode(signature).decode()}
        return f"{quoted(path)}?{urllib.parse.urlencode(query)}"

    def bare(self, method, target, body=b""):
        """A request whose signature is in its target, or that has none."""
        return self.send(method, target, {"host": f"{self.host}:{self.port}", **({"content-length": str(len(body))} if method == "PUT" else {})}, body)


def build_gateway(folder):
    """The gateway's program, made in a folder with what Debian's packages give it here; None where no Go is there."""
    if not shutil.which("go"):
        return None
    path = os.path.join(folder, "gateway")
    subprocess.run([os.path.join(TOP, "gateway/build"), path], stdout=subprocess.DEVNULL, stderr=subprocess.DEVNULL, check=True)
    return path


def build_words():
    """The words by which Go takes what Debian's packages give the gateway."""
    done = subprocess.run([os.path.join(TOP, "gateway/build"), "--words"], capture_output=True, text=True, check=True)
    return done.stdout.split()


def dial(place):
    """A connection to a bucketd, at a port of this machine or the path of a Unix socket."""
    if isinstance(place, int):
        return socket.create_connection(("127.0.0.1", place))
    link = socket.socket(socket.AF_UNIX)
    link.connect(place)
    return link


def write_keys(folder, tenants):
    """The key file of tenants, for their gateway alone."""
    with open(os.open(os.path.join(folder, "keys"), os.O_CREAT | os.O_WRONLY, 0o600), "w") as keys:
        keys.writelines(f"{it}$k1 {it}secret\n" for it in tenants)


def make_host(program, folder, tenants, *options):
    """A new host that takes great parts, and the key file of its tenants, by name and quota."""
    host.make_host(program, os.path.join(folder, "host"), tenants, "--max-body", str(1 << 30), *options)
    write_keys(folder, tenants)


class Gateway(host.Program):
    """A gateway with the keys in a folder. It starts a bucketd on the host in that folder itself, where a program is named."""

    def __init__(self, gateway, program, folder, *options):
        words = [gateway, "--listen", "127.0.0.1:0", "--keys", os.path.join(folder, "keys"), "--spool", folder]
        if program:
            words += ["--serve", os.path.join(folder, "host"), "--program", program]
        super().__init__([*words, *options])
        self.port = self.announced(r".*listening on https?://[^:]+:(\d+).*")

    def text(self):
        return "\n".join(self.lines())

    def inner(self):
        """Where its bucketd listens, as that told last: a port, or the path of a socket."""
        begun = time.monotonic()
        while self.is_up() and time.monotonic() - begun < host.PATIENCE:
            for line in self.lines()[::-1]:
                if found := re.fullmatch(r"listening on (?:127\.0\.0\.1:(\d+)|(/.*))", line):
                    return int(found[1]) if found[1] else found[2]
            time.sleep(0.01)
        raise OSError(f"no bucketd listens: {self.lines()[-5:]}")

    def host_words(self):
        """The words that name its bucketd to another gateway."""
        place = self.inner()
        return ["--host", f"127.0.0.1:{place}"] if isinstance(place, int) else ["--host-socket", place]

    def status(self):
        """The port at which it tells its status."""
        return self.announced(r".*the status is at http://127\.0\.0\.1:(\d+)")

    def child(self):
        """The process of bucketd."""
        found = []
        for task in os.listdir(f"/proc/{self.process.pid}/task"):
            with open(f"/proc/{self.process.pid}/task/{task}/children") as children:
                found += children.read().split()
        return int(found[0]) if found else None

    def end(self):
        return super().end(signal.SIGTERM)[0]
