"""Attacks on a gateway, each with what it may not come to: tools/test-gateway runs them, and prints a line for each.

A World has the gateway and its clients. An attack is a function of it; whatever it raises is told as its result.
"""
import base64
import hashlib
import hmac
import os
import resource
import shutil
import socket
import ssl
import subprocess
import threading
import time
import urllib.parse
import zlib
from contextlib import contextmanager
from http.client import HTTPException

from host import PATIENCE
from s3_requests import TRAILER, Client, Gateway

NONE = "UNSIGNED-PAYLOAD"
HONEST = 20  # seconds that an honest client waits at most, on a machine with other work


def state(text):
    return f"<VersioningConfiguration><Status>{text}</Status></VersioningConfiguration>".encode()


def until(is_well, patience=PATIENCE):
    """Waits until something is so; whether it is, in the end."""
    end = time.monotonic() + patience
    while not (found := is_well()) and time.monotonic() < end:
        time.sleep(0.05)
    return found


class World:
    """A gateway that serves a host in a folder, clients of two tenants, and where results go: expect(name, is_well, found). Whether
    bucketd is fast says what can be asked of it."""

    def __init__(self, build, program, folder, gateway, expect, is_fast=False):
        self.build, self.program, self.folder, self.gateway, self.expect, self.is_fast = build, program, folder, gateway, expect, is_fast
        self.green, self.blue, self.count = Client(gateway.port), Client(gateway.port, "blue"), 0

    def want(self, name, answer, status, code=""):
        self.expect(name, answer[:2] == (status, code), answer[:3])

    def host(self):
        """The words that name bucketd to another gateway."""
        return self.gateway.host_words()

    @contextmanager
    def beside(self, *options, host=None):
        """Another gateway before the same host, with a folder and a key file of its own."""
        self.count += 1
        at = os.path.join(self.folder, f"beside{self.count}")
        os.mkdir(at)
        shutil.copy(os.path.join(self.folder, "keys"), at)
        other = Gateway(self.build, None, at, *(host or self.host()), *options)
        other.folder = at
        try:
            yield other
        finally:
            other.end()


def raw(port, text, seconds=HONEST, source="127.0.0.1"):
    """What comes back for some bytes, until the end or a pause of so many seconds."""
    with socket.create_connection(("127.0.0.1", port), timeout=seconds, source_address=(source, 0)) as link:
        link.sendall(text)
        got = b""
        try:
            while more := link.recv(65536):
                got += more
                if b"</Error>" in got:
                    break
        except TimeoutError:
            pass
        return got


def head_of(method, target, fields):
    return (f"{method} {target} HTTP/1.1\r\n" + "".join(f"{it}: {value}\r\n" for it, value in fields.items()) + "\r\n").encode()


def evidence(w):
    """The metadata of a version that stays is destroyed by an id that is none."""
    green = w.green
    green.ask("PUT", "/evidence", fields={"x-amz-bucket-object-lock-enabled": "true"})
    fields = {"x-amz-object-lock-mode": "COMPLIANCE", "x-amz-object-lock-retain-until-date": "2091-08-01T00:00:00Z", "x-amz-meta-case": "4711"}
    id = green.ask("PUT", "/evidence/a/b", b"evidence", fields=fields)[3]["x-amz-version-id"]
    w.want("a delete by an id that is none", green.ask("DELETE", "/evidence/b", query=f"versionId={id}%2Fa"), 400, "InvalidArgument")
    text = f"<Delete><Object><Key>b</Key><VersionId>{id}/a</VersionId></Object></Delete>".encode()
    w.want("one of several by such an id", green.ask("POST", "/evidence", text, query="delete="), 200, "InvalidArgument")
    w.want("a delete of no version", green.ask("DELETE", "/evidence/a/b", query="versionId=null"), 204)
    got = green.ask("GET", "/evidence/a/b")
    w.expect("metadata of a locked version stays", got[2] == b"evidence" and got[3]["x-amz-meta-case"] == "4711", got[:3] + (got[3]["x-amz-meta-case"],))


def no_room_for_metadata(w):
    """An overwrite whose metadata finds no room costs the old object."""
    blue = w.blue
    blue.ask("PUT", "/small")
    w.want("an object that fits", blue.ask("PUT", "/small/o", b"x" * 1700, fields={"x-amz-meta-n": "1"}), 200)
    w.want("24, its metadata is too much", blue.ask("PUT", "/small/o", b"y" * 1700, fields={"x-amz-meta-n": "m" * 1000}), 403, "QuotaExceeded")
    got = blue.ask("GET", "/small/o")
    w.expect("it stays with its own", got[2] == b"x" * 1700 and got[3]["x-amz-meta-n"] == "1", got[:2] + (got[2][:10], got[3]["x-amz-meta-n"]))
    blue.ask("DELETE", "/small/o")


def body_before_quota(w):
    """A body is taken that neither bucket nor quota lets in."""
    w.blue.ask("PUT", "/small")
    for name, target, code in (("quota", "/small/x", b"QuotaExceeded"), ("bucket", "/nothing/x", b"NoSuchBucket")):
        head, _ = w.blue.head("PUT", target, payload=NONE)
        got = raw(w.gateway.port, head_of("PUT", target, {**head, "content-length": "70000"}))
        w.expect(f"a great body is refused by its {name} before it comes", got.startswith(b"HTTP/1.1 4") and code in got, got[:200])


def full_disk(w):
    """A disk without room for bodies is told to others as their own fault."""
    at = os.path.join(w.folder, "full")
    os.mkdir(at)
    if subprocess.run(["mount", "-t", "tmpfs", "-o", "size=1m", "tmpfs", at], capture_output=True).returncode:
        print("no mount is here: a full disk isn't tried")
        return
    try:
        w.green.ask("PUT", "/full")
        with w.beside("--spool", at) as other:
            client = Client(other.port)
            w.want("a body that finds no room on the disk", client.ask("PUT", "/full/x", os.urandom(3 << 20)), 503, "SlowDown")
            told = "no space left" in other.text()
            w.expect("the log tells that the disk is full", told, other.text()[-300:])
    finally:
        subprocess.run(["umount", at], check=True)


def strangers(w):
    """Connections of who has no key take all places."""
    for name, text in (("refused again and again", b"GET / HTTP/1.1\r\nHost: h\r\n\r\n"), ("silent", b"")):
        with w.beside("--connections", "40") as other:
            links = []
            for _ in range(60):
                try:
                    links.append(socket.create_connection(("127.0.0.1", other.port), timeout=2, source_address=("127.0.0.2", 0)))
                    links[-1].sendall(text)
                except OSError:
                    pass
            time.sleep(1)
            honest, begun = Client(other.port), time.monotonic()
            try:
                status = raw(other.port, head_of("GET", "/", {**honest.head("GET", "/")[0], "connection": "close"}))[:12]
            except OSError as error:
                status = str(error)
            took = time.monotonic() - begun
            w.expect(f"strangers' connections that are {name} keep nobody out", status == b"HTTP/1.1 200" and took < HONEST, (status, f"{took:.1f} s"))
            for it in links:
                it.close()


def drip(w):
    """A body that brings a byte now and then holds its place for ever."""
    with w.beside("--silence", "3s") as other:
        head, _ = Client(other.port).head("PUT", "/base/drip", payload=NONE)
        w.green.ask("PUT", "/base")
        begun, got = time.monotonic(), b""
        with socket.create_connection(("127.0.0.1", other.port), timeout=0.5) as link:
            link.sendall(head_of("PUT", "/base/drip", {**head, "content-length": "60000"}))
            while not got and time.monotonic() - begun < 120:
                try:
                    link.sendall(b"x")
                    got = link.recv(1000)
                except TimeoutError:
                    pass
                except OSError as error:
                    got = str(error).encode()
        took = time.monotonic() - begun
        w.expect("a body that drips is ended, and not before half a minute", got and took > 25, (got, f"{took:.0f} s"))


def documents(w):
    """60 MB of XML by one key take processor and memory from all others."""
    w.green.ask("PUT", "/documents")
    text = b"<Delete>" + b"<Object/>" * 233000 + b"</Delete>"
    with w.beside() as other:
        def send():
            try:
                Client(other.port).ask("POST", "/documents", text, query="delete=")
            except (OSError, HTTPException):
                pass  # (who still sends when it is refused may find the connection closed)

        threads = [threading.Thread(target=send) for _ in range(30)]
        for it in threads:
            it.start()
        for it in threads:
            it.join()
        seconds, most = other.spent(), other.memory("VmHWM")
        w.expect("30 documents of 233,000 objects cost little", seconds < 6 and most < 200, f"{seconds:.1f} s of a processor, {most:.0f} MiB")
        print(f"  {seconds:.1f} s of a processor, {most:.0f} MiB")


def readers(w):
    """900 readers of a great object that take nothing keep the processors busy, as long as pieces come and then."""
    if not w.is_fast:
        print("Fast bucketd isn't here: readers that take nothing aren't tried")
        return
    resource.setrlimit(resource.RLIMIT_NOFILE, (min(4096, resource.getrlimit(resource.RLIMIT_NOFILE)[1]), resource.getrlimit(resource.RLIMIT_NOFILE)[1]))
    w.green.ask("PUT", "/readers")
    w.green.ask("PUT", "/readers/great", os.urandom(12 << 20))
    with w.beside("--connections", "4096") as other:
        target, links = Client(other.port).presigned("GET", "/readers/great"), []
        for i in range(900):
            link = socket.socket()
            link.setsockopt(socket.SOL_SOCKET, socket.SO_RCVBUF, 4096)
            link.settimeout(6 * HONEST)
            link.bind((f"127.0.0.{2 + i % 5}", 0))
            link.connect(("127.0.0.1", other.port))
            link.sendall(f"GET {target} HTTP/1.1\r\nHost: 127.0.0.1:{other.port}\r\n\r\n".encode())
            links.append(link)
        begun = sum(it.recv(15) == b"HTTP/1.1 200 OK" for it in links)
        for _ in range(20):  # (until the kernel has taken what it takes)
            before = other.spent()
            time.sleep(3)
            spent = other.spent() - before
            if spent < 0.5:
                break
        honest, most = time.monotonic(), other.memory("VmRSS")
        status = Client(other.port, "blue").ask("GET", "/")[0]
        waited = time.monotonic() - honest
        for it in links:
            it.close()
        told = f"{begun} begun, {other.spent():.1f} s of a processor in all, {spent:.1f} of the last 3 s, {most:.0f} MiB, {status} after {waited:.2f} s"
        w.expect("900 readers that take nothing cost little", begun == 900 and other.spent() < 11 and spent < 0.5 and most < 300 and status == 200 and waited < HONEST, told)
        print(f"  {told}")


def deletes_with_conditions(w):
    """DeleteObjects passes over a condition."""
    green = w.green
    green.ask("PUT", "/conditions")
    for key in ("tag", "size"):
        green.ask("PUT", f"/conditions/{key}", b"kept")
    text = b"<Delete><Object><Key>tag</Key><ETag>&quot;0000&quot;</ETag></Object><Object><Key>size</Key><Size>1</Size></Object></Delete>"
    got = green.ask("POST", "/conditions", text, query="delete=")
    w.expect("conditions of deletes are honoured or refused", b"<Code>PreconditionFailed" in got[2] and b"<Code>NotImplemented" in got[2], got[2])
    w.expect("what they protect stays", [green.ask("GET", f"/conditions/{it}")[0] for it in ("tag", "size")] == [200, 200])


def key_file(w):
    """A key file that is rewritten in place within the grain of its clock stays half read; an open one revokes nobody."""
    with w.beside() as other:
        name, now = os.path.join(other.folder, "keys"), time.time()
        with open(name) as file:
            whole = file.read()

        def write(text):
            with open(name, "w") as file:  # (in place, as cp does)
                file.write(text)
            os.utime(name, (now, now))

        write("# nothing yet\n" + whole.split("\n")[1] + "\n")
        client = Client(other.port)
        client.ask("HEAD", "/")
        write(whole)
        time.sleep(0.1)
        w.want("a key file that was read between two halves of a write", client.ask("GET", "/"), 200)
    with w.beside() as other:
        client = Client(other.port)
        w.want("a key that is in its file", client.ask("GET", "/"), 200)
        with open(os.path.join(other.folder, "keys"), "w") as file:
            file.write("what is no key\n" + whole.split("\n")[1] + "\n")
        until(lambda: client.ask("GET", "/")[0] == 403, HONEST)
        w.want("one that is revoked, beside a line that is bad", client.ask("GET", "/"), 403, "InvalidAccessKeyId")


def link_2(client, path, signed, parameters, seconds=600):
    """A URL of signature version 2 whose text that is signed has some parameters, and whose query has others."""
    until = str(int(time.time()) + seconds)
    sum = hmac.new(client.secret.encode(), f"GET\n\n\n{until}\n{path}?{signed}".encode(), hashlib.sha1).digest()
    query = {"AWSAccessKeyId": client.id, "Expires": until, "Signature": base64.b64encode(sum).decode()}
    return f"{path}?{urllib.parse.urlencode(query)}&{parameters}"


def links(w):
    """A link of version 2 for an old version is cut anew into one for the newest."""
    green = w.green
    green.ask("PUT", "/links")
    green.ask("PUT", "/links", state("Enabled"), query="versioning=")
    old = green.ask("PUT", "/links/o", b"public old")[3]["x-amz-version-id"]
    green.ask("PUT", "/links/o", b"SECRET new")
    signed = f"response-content-type=text/plain&versionId={old}"
    got = green.bare("GET", link_2(green, "/links/o", signed, f"response-content-type=text%2Fplain&versionId={old}"))
    w.expect("a link of version 2 for a version", got[2] == b"public old", got[:3])
    for cut in (f"response-content-type=text%2Fplain%26versionId={old}", f"response-content-type=text%2Fplain%26versionId%3D{old}"):
        w.want("one that is cut anew", green.bare("GET", link_2(green, "/links/o", signed, cut)), 403, "SignatureDoesNotMatch")


def subresources(w):
    """Sub-resources that S3 has fall through to the base call."""
    green = w.green
    green.ask("PUT", "/base")
    green.ask("PUT", "/empty")
    green.ask("PUT", "/base/o", b"abc")
    for method, target, query in (("DELETE", "/empty", "metadataConfiguration="), ("PUT", "/newb", "metadataTable="), ("PUT", "/base/o", "renameObject="),
                                  ("DELETE", "/base/o", "annotation="), ("PUT", "/base", "abac=")):
        w.want(f"{method} with {query[:-1]}", green.ask(method, target, query=query), 501, "NotImplemented")
    found = [green.ask("HEAD", "/empty")[0], green.ask("HEAD", "/newb")[0], green.ask("GET", "/base/o")[2]]
    w.expect("nothing is changed by them", found == [200, 404, b"abc"], found)


def upload_of(client, target, fields={}):
    return client.ask("POST", target, query="uploads=", fields=fields)[2].split(b"<UploadId>")[1].split(b"<")[0].decode()


def completion(tag, more=""):
    return f"<CompleteMultipartUpload><Part><PartNumber>1</PartNumber><ETag>{tag}</ETag>{more}</Part></CompleteMultipartUpload>".encode()


def uploads(w):
    """An upload that is resumed by the id of a listing loses its metadata; an id brings control bytes into a head."""
    green = w.green
    green.ask("PUT", "/resumed")
    upload_of(green, "/resumed/x", {"x-amz-meta-n": "4711"})
    id = green.ask("GET", "/resumed", query="uploads=")[2].split(b"<UploadId>")[1].split(b"<")[0].decode()
    tag = green.ask("PUT", "/resumed/x", b"abc", query=f"partNumber=1&uploadId={id}")[3]["etag"]
    green.ask("POST", "/resumed/x", completion(tag), query=f"uploadId={id}")
    got = green.ask("GET", "/resumed/x")[3]["x-amz-meta-n"]
    w.expect("an upload that is resumed by a listing has its metadata", got == "4711", got)
    id = upload_of(green, "/resumed/y")
    tag = green.ask("PUT", "/resumed/y", b"abc", query=f"partNumber=1&uploadId={id}")[3]["etag"]
    packed = base64.urlsafe_b64encode(b'{"x-amz-meta-a":"v\\u0001\\u007f"}').decode().rstrip("=")
    green.ask("POST", "/resumed/y", completion(tag), query=f"uploadId={id.split('.')[0]}.{packed}")
    got = green.ask("GET", "/resumed/y")[3]["x-amz-meta-a"]
    w.expect("an upload's id brings no control byte into a head", got is None, repr(got))


def promises(w):
    """What a request promises or asks for is passed over."""
    green = w.green
    green.ask("PUT", "/promises")
    green.ask("PUT", "/promises/o", b"abc")
    copied = {"x-amz-copy-source": "/promises/o"}
    for name, fields, status, code in (
            ("a storage class", {"x-amz-storage-class": "GLACIER"}, 501, "NotImplemented"), ("a token", {"x-amz-security-token": "bogus"}, 400, "InvalidToken"),
            ("a source's owner", {**copied, "x-amz-source-expected-bucket-owner": "blue"}, 403, "AccessDenied"),
            ("a directive", {**copied, "x-amz-metadata-directive": "replacee"}, 400, "InvalidArgument"),
            ("a field of a lock", {"x-amz-object-lock-m": "COMPLIANCE"}, 501, "NotImplemented")):
        w.want(f"{name} that isn't there", green.ask("PUT", "/promises/p", b"", fields=fields), status, code)
    crc = base64.b64encode(zlib.crc32(b"part").to_bytes(4, "big")).decode()
    for name, more, fields, status, code in (
            ("a part's checksum", "<ChecksumCRC32>AAAAAA==</ChecksumCRC32>", {}, 400, "InvalidPart"), ("a size", "", {"x-amz-mp-object-size": "999"}, 400, "InvalidRequest"),
            ("a checksum that isn't known", "", {"x-amz-checksum-crc64nvme": "AAAAAAAAAAA="}, 501, "NotImplemented")):
        id = upload_of(green, "/promises/u")
        tag = green.ask("PUT", "/promises/u", b"part", query=f"partNumber=1&uploadId={id}", fields={"x-amz-checksum-crc32": crc})[3]["etag"]
        w.want(f"a completion by {name} of others", green.ask("POST", "/promises/u", completion(tag, more), query=f"uploadId={id}", fields=fields), status, code)
    w.want("of an object that isn't there no tags are told", green.ask("GET", "/promises/none", query="tagging="), 404, "NoSuchKey")
    w.want("nor of a bucket its rules", green.ask("GET", "/nosuchbucket", query="cors="), 404, "NoSuchBucket")


def split_fields(w):
    """A field that was signed is split in two by who sits between; a length stands beside chunks."""
    green = w.green
    green.ask("PUT", "/split")
    for it in ("o", "nothing"):
        green.ask("PUT", f"/split/{it}", it.encode())
    head, _ = green.head("PUT", "/split/p", fields={"x-amz-copy-source": "/split/o,/split/nothing"})
    text = head_of("PUT", "/split/p", {**head, "content-length": "0", "connection": "close"})
    got = raw(w.gateway.port, text.replace(b"x-amz-copy-source: /split/o,/split/nothing", b"x-amz-copy-source: /split/o\r\nx-amz-copy-source: /split/nothing"))
    w.expect("a field that is split in two is refused", got.startswith(b"HTTP/1.1 400"), got[:200])
    chunks = b"3\r\nabc\r\n0\r\nx-amz-checksum-crc32:NSRBwg==\r\n\r\n"
    head, _ = green.head("PUT", "/split/q", payload=TRAILER, fields={"x-amz-decoded-content-length": "3", "x-amz-trailer": "x-amz-checksum-crc32"})
    text = head_of("PUT", "/split/q", {**head, "transfer-encoding": "chunked", "content-length": str(len(chunks)), "connection": "close"})
    got = raw(w.gateway.port, text + f"{len(chunks):x}\r\n".encode() + chunks + b"\r\n0\r\n\r\n")
    w.expect("a length beside chunks is refused", got.startswith(b"HTTP/1.1 400"), got[:200])


def certificate(folder, name):
    words = ["openssl", "req", "-x509", "-newkey", "rsa:2048", "-nodes", "-days", "2", "-subj", f"/CN={name}", "-keyout", os.path.join(folder, f"{name}.key"), "-out", os.path.join(folder, f"{name}.pem")]
    subprocess.run(words, check=True, capture_output=True)


def tls(w):
    """Keys are exchanged by RSA; a renewed certificate isn't seen."""
    if not shutil.which("openssl"):
        print("no openssl is here: TLS isn't tried")
        return
    at = os.path.join(w.folder, "tls")
    os.mkdir(at)
    for name in ("first", "second"):
        certificate(at, name)
    used = [os.path.join(at, "used.pem"), os.path.join(at, "used.key")]

    def use(name):
        for own, path in zip((f"{name}.pem", f"{name}.key"), used):
            shutil.copy(os.path.join(at, own), path + ".new")
            os.chmod(path + ".new", 0o600)
            os.replace(path + ".new", path)

    def handshake(ciphers):
        context = ssl.SSLContext(ssl.PROTOCOL_TLS_CLIENT)
        context.check_hostname, context.verify_mode, context.maximum_version = False, ssl.CERT_NONE, ssl.TLSVersion.TLSv1_2
        context.set_ciphers(ciphers)
        with socket.create_connection(("127.0.0.1", other.port), timeout=HONEST) as link:
            try:
                with context.wrap_socket(link) as safe:
                    return safe.cipher()[0], safe.getpeercert(True)
            except ssl.SSLError:
                return None, None

    use("first")
    with w.beside("--cert", used[0], "--cert-key", used[1]) as other:
        found = {it: handshake(it + ":@SECLEVEL=0")[0] for it in ("AES128-SHA", "AES256-GCM-SHA384", "ECDHE-RSA-AES128-SHA")}
        w.expect("keys aren't exchanged by RSA, nor bytes kept by CBC", not any(found.values()), found)
        before = handshake("ECDHE+AESGCM")[1]
        use("second")
        is_taken_up = until(lambda: handshake("ECDHE+AESGCM")[1] not in (before, None), HONEST)
        w.expect("a renewed certificate is taken up", before and is_taken_up, "the old one")


def log(w):
    """Who was refused, and what was asked, stands in no log."""
    w.green.ask("PUT", "/logged")
    with w.beside("--log") as other:
        client = Client(other.port)
        ids = [client.bare("GET", "/logged/x?X-Amz-Signature=abcdef")[3]["x-amz-request-id"] for _ in range(2)]
        client.ask("GET", "/logged/none")
        until(lambda: "green$k1" in other.text(), HONEST)
        text = other.text()
    w.expect("each request has an id of its own", len(set(ids)) == 2 and None not in ids, ids)
    w.expect("address and key stand in the log", "127.0.0.1" in text.split("listening", 1)[1].split("\n", 1)[1] and "green$k1" in text, text[-400:])
    w.expect("neither a secret nor a signature does", "greensecret" not in text and "abcdef" not in text, text[-400:])


def open_names(w):
    """A host's name is compared by its letters; names come as other ones."""
    w.green.ask("PUT", "/names")
    w.green.ask("PUT", "/names/a\x01b", b"x")
    got = w.green.ask("GET", "/names")[2]
    w.expect("a name with a control character isn't told as another name", b"<Key>a&#x1;b</Key>" in got, got[-300:])
    with w.beside("--domain", "s3.example") as other:
        for name in ("names.S3.example", "names.s3.example."):
            client = Client(other.port, host=name)
            head, _ = client.head("GET", "/a\x01b")
            head["host"] = f"{name}:{other.port}"
            got = raw(other.port, head_of("GET", "/a%01b", {**head, "connection": "close"}))
            w.expect(f"a host's name {name}", got.startswith(b"HTTP/1.1 200"), got[:200])


def bucket_in_host(w):
    """A client that names buckets in the host's name makes or deletes one of its key's name, where no --domain is given."""
    w.green.ask("PUT", "/hosted")
    with w.beside() as other:
        client = Client(other.port, host="hosted.files.example")

        def sent(method, target, query="", fields={}):
            head, _ = client.head(method, target, query, fields=fields)
            return raw(other.port, head_of(method, target + ("?" + query if query else ""), {**head, "content-length": "0", "connection": "close"}))

        for name, got in (("an empty object with a checksum", sent("PUT", "/unmade", fields={"x-amz-checksum-crc32": "AAAAAA=="})), ("one by its x-id", sent("PUT", "/unmade", "x-id=PutObject")),
                          ("one with metadata", sent("PUT", "/unmade", fields={"x-amz-meta-n": "1"})), ("one with a type", sent("PUT", "/unmade", fields={"content-type": "text/plain"})),
                          ("a deletion", sent("DELETE", "/hosted", "x-id=DeleteObject"))):
            w.expect(f"{name} is refused where it would be a bucket's", got.startswith(b"HTTP/1.1 400") and b"--domain" in got, got[:300])
    found = [w.green.ask("HEAD", it)[0] for it in ("/unmade", "/hosted")]
    w.expect("no bucket is made of a key, nor deleted", found == [404, 200], found)


ATTACKS = (evidence, no_room_for_metadata, body_before_quota, full_disk, strangers, drip, documents, readers, bucket_in_host, deletes_with_conditions, key_file, links, subresources, uploads,
           promises, split_fields, tls, log, open_names)


def run(w):
    for attack in ATTACKS:
        try:
            attack(w)
        except Exception as error:  # (an attack that ends so has not been withstood)
            w.expect(f"{attack.__name__} goes through", False, repr(error))
