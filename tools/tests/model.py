"""What a host keeps, in plain Python: each tenant's versions and uploads as dictionaries over bodies, which are cut into blocks
only to tell what a report and a sweep say; what is read back of a server; and steps that are drawn."""
import base64
import copy
import hashlib
import json
import os
from urllib.parse import quote

from host import opened, pack_of

BLOCK = 65536
# The least size of a part but the last, with which the hosts are made.
MIN_PART = 4
BUCKETS = {"plans": False, "kept": True}
KEYS = ["a", "b", "c/d"]


def digest(data):
    return hashlib.sha256(data).digest()


def text(raw):
    return base64.b64encode(raw).decode()


def blocks(body):
    return [body[at : at + BLOCK] for at in range(0, len(body), BLOCK)]


class Version:
    """A version, or a delete marker where it has no blocks. Its id is a number, or None for `null`."""

    def __init__(self, number, pieces, sum):
        self.number, self.pieces, self.sum = number, pieces, sum

    def id(self):
        return "null" if self.number is None else f"{self.number:016x}"

    def shown(self, is_latest):
        size = sum(map(len, self.pieces or []))
        return self.id(), is_latest, None if self.pieces is None else (size, self.sum, digest(b"".join(self.pieces)))


class Tenant:
    """`buckets`: of each the versions of a key, newest first; `uploads`: by number, bucket, key and the parts by number."""

    def __init__(self, name):
        self.name, self.buckets, self.uploads = name, {bucket: {} for bucket in BUCKETS}, {}
        self.versions = self.begun = 0

    def copied(self):
        return copy.deepcopy(self)

    def bodies(self):
        """The blocks of each body, of versions and of parts."""
        of_versions = [it.pieces for keys in self.buckets.values() for found in keys.values() for it in found if it.pieces is not None]
        return of_versions + [pieces for _, _, parts in self.uploads.values() for pieces in parts.values()]

    def push(self, bucket, key, pieces, sum):
        found = self.buckets[bucket].setdefault(key, [])
        if BUCKETS[bucket]:
            self.versions += 1
            found.insert(0, Version(self.versions, pieces, sum))
        else:
            found[:] = [Version(None, pieces, sum)]

    def shown(self):
        """What the server shows of the tenant, as `read` gives it."""
        buckets = {}
        for bucket, keys in self.buckets.items():
            entries = {key: [it.shown(at == 0) for at, it in enumerate(found)] for key, found in sorted(keys.items()) if found}
            uploads = {number: (key, {part: (sum(map(len, pieces)), text(digest(b"".join(pieces)))) for part, pieces in sorted(parts.items())})
                       for number, (of, key, parts) in self.uploads.items() if of == bucket}
            buckets[bucket] = (entries, uploads)
        return buckets, self.usage()

    def usage(self):
        found = [entries for keys in self.buckets.values() for entries in keys.values() if entries]
        kept = [it for entries in found for it in entries if it.pieces is not None]
        versions = sum(len(piece) for it in kept for piece in it.pieces)
        parts = sum(len(piece) for _, _, parts in self.uploads.values() for pieces in parts.values() for piece in pieces)
        return {"Buckets": len(self.buckets), "Bytes": versions + parts, "Markers": sum(map(len, found)) - len(kept),
                "Objects": sum(entries[0].pieces is not None for entries in found), "PartBytes": parts, "Quota": 1 << 40,
                "Uploads": len(self.uploads), "VersionBytes": versions, "Versions": len(kept)}


class Refused(RuntimeError):
    """Memory or the store was wanting, or the server has ended."""


def unexpected(answer, what):
    return (Refused if answer.status == 503 or not answer.data else RuntimeError)(f"{what}: {answer.data[:300]!r}")


def document(server, tenant, target):
    answer = server.ask(tenant, "GET", target)
    if answer.status != 200 or not answer.is_whole:
        raise unexpected(answer, f"GET {target} of {tenant}")
    return json.loads(answer.body)


def pages_of_versions(server, tenant, bucket):
    target = f"/{bucket}?versions"
    while target:
        page = document(server, tenant, target)
        yield from page["Versions"]
        target = None
        if page["IsTruncated"]:
            key, version = quote(page["NextKeyMarker"], safe=""), page["NextVersionIdMarker"]
            target = f"/{bucket}?versions&key-marker={key}&version-id-marker={version}"


def read_versions(server, tenant, bucket):
    found = {}
    for it in pages_of_versions(server, tenant, bucket):
        told = None
        if not it["DeleteMarker"]:
            answer = server.ask(tenant, "GET", f"/{bucket}/{it['Key']}?versionId={it['VersionId']}")
            if answer.status != 200 or not answer.is_whole:
                raise unexpected(answer, f"GET of {it}")
            told = it["Size"], it["ChecksumSHA256"], digest(answer.body)
        found.setdefault(it["Key"], []).append((it["VersionId"], it["IsLatest"], told))
    return found


def read_uploads(server, tenant, bucket):
    found = {}
    for it in document(server, tenant, f"/{bucket}?uploads")["Uploads"]:
        parts = document(server, tenant, f"/{bucket}/{it['Key']}?uploadId={it['UploadId']}")["Parts"]
        found[int(it["UploadId"], 16)] = it["Key"], {part["PartNumber"]: (part["Size"], part["ChecksumSHA256"]) for part in parts}
    return found


def read(server, tenant):
    """All that a server shows of a tenant: versions, markers and uploads, the digest of each version's bytes, and its use."""
    buckets = {bucket: (read_versions(server, tenant, bucket), read_uploads(server, tenant, bucket)) for bucket in BUCKETS}
    return buckets, document(server, tenant, "/?usage")


class Host:
    """Some tenants, and the blocks that were stored since the last sweep, by their digest."""

    def __init__(self, names):
        self.tenants, self.stored = {name: Tenant(name) for name in names}, {}

    def store(self, pieces):
        self.stored.update({digest(piece): len(piece) for piece in pieces})

    def needed(self):
        return {digest(piece): len(piece) for it in self.tenants.values() for pieces in it.bodies() for piece in pieces}

    def report(self):
        referred = sum(len(piece) for it in self.tenants.values() for pieces in it.bodies() for piece in pieces)
        return f"blocks {len(self.stored)} stored {sum(self.stored.values())} referred {referred} clashes 0"

    def swept(self):
        """What a complete sweep says, which then is done."""
        needed = self.needed()
        told = f"sweep uploads 0 blocks {len(set(self.stored) - set(needed))} complete"
        self.stored = needed
        return told


class Step:
    """A request of a tenant, the blocks that it brings, and what it makes of the tenant where it is done."""

    def __init__(self, tenant, method, target, change, body=b"", fields=(), brings=()):
        self.tenant, self.method, self.target, self.change = tenant, method, target, change
        self.body, self.fields, self.brings = body, fields, brings

    def ask(self, server):
        return server.ask(self.tenant, self.method, self.target, self.body, self.fields)

    def told(self):
        return f"{self.method} {self.target} of {self.tenant}, {len(self.body)} bytes"


# ---- steps of a tenant as it is


def put(tenant, bucket, key, body):
    def change(it):
        it.push(bucket, key, blocks(body), text(digest(body)))

    return Step(tenant.name, "PUT", f"/{bucket}/{key}", change, body, brings=blocks(body))


def delete(tenant, bucket, key, version=None):
    def change(it):
        found = it.buckets[bucket].setdefault(key, [])
        if version is not None:
            found[:] = [entry for entry in found if entry.number != version.number]
        elif BUCKETS[bucket]:
            it.push(bucket, key, None, None)
        else:
            found.clear()

    return Step(tenant.name, "DELETE", f"/{bucket}/{key}" + (f"?versionId={version.id()}" if version else ""), change)


def duplicate(tenant, bucket, key, source):
    """A copy of a version that is there: its bucket, its key and itself."""
    from_bucket, from_key, version = source

    def change(it):
        it.push(bucket, key, version.pieces, version.sum)

    return Step(tenant.name, "PUT", f"/{bucket}/{key}", change, fields=[f"x-amz-copy-source: /{from_bucket}/{from_key}?versionId={version.id()}"])


def begin(tenant, bucket, key):
    def change(it):
        it.begun += 1
        it.uploads[it.begun] = (bucket, key, {})

    return Step(tenant.name, "POST", f"/{bucket}/{key}?uploads", change)


def part(tenant, number, at, body):
    bucket, key, _ = tenant.uploads[number]

    def change(it):
        it.uploads[number][2][at] = blocks(body)

    return Step(tenant.name, "PUT", f"/{bucket}/{key}?uploadId={number:016x}&partNumber={at}", change, body, brings=blocks(body))


def complete(tenant, number):
    bucket, key, parts = tenant.uploads[number]
    named = sorted(parts.items())

    def change(it):
        del it.uploads[number]
        joined = text(digest(b"".join(digest(b"".join(pieces)) for _, pieces in named))) + f"-{len(named)}"
        it.push(bucket, key, [piece for _, pieces in named for piece in pieces], joined)

    body = json.dumps({"Parts": [{"PartNumber": at} for at, _ in named]}).encode()
    return Step(tenant.name, "POST", f"/{bucket}/{key}?uploadId={number:016x}", change, body)


def abort(tenant, number):
    bucket, key, _ = tenant.uploads[number]

    def change(it):
        del it.uploads[number]

    return Step(tenant.name, "DELETE", f"/{bucket}/{key}?uploadId={number:016x}", change)


class Drawn:
    """Draws a tenant's next step. Bodies are made of few pieces, so that they have blocks in common, also with the other's."""

    def __init__(self, chance, sizes):
        self.chance, self.sizes = chance, sizes
        self.pieces = [bytes([65 + n]) * BLOCK for n in range(4)]

    def body(self, least=0):
        size = max(least, self.chance.choice(self.sizes))
        whole, rest = divmod(self.chance.randrange(size + 1) if size else 0, BLOCK)
        pieces = [self.chance.choice(self.pieces) if self.chance.randrange(3) else self.chance.randbytes(BLOCK) for _ in range(whole)]
        return b"".join(pieces) + self.chance.randbytes(max(rest, least))

    def version(self, tenant):
        """Bucket, key and a version that is no marker; None where there is none."""
        found = [(bucket, key, it) for bucket, keys in tenant.buckets.items() for key, entries in keys.items() for it in entries if it.pieces is not None]
        return self.chance.choice(found) if found else None

    def surplus(self, tenant):
        """Versions and markers of a key that has many."""
        found = [(bucket, key, it) for bucket, keys in tenant.buckets.items() for key, entries in keys.items() if len(entries) > 3 for it in entries]
        return self.chance.choice(found) if found else None

    def upload(self, tenant, kind):
        """A step on an upload that is there, or one that begins one."""
        if not tenant.uploads or (len(tenant.uploads) < 3 and kind == 0):
            return begin(tenant, self.chance.choice(list(BUCKETS)), self.chance.choice(KEYS))
        number = self.chance.choice(list(tenant.uploads))
        parts = tenant.uploads[number][2]
        if len(parts) >= 2 and kind < 3:
            return complete(tenant, number)
        if kind == 3:
            return abort(tenant, number)
        return part(tenant, number, self.chance.randrange(1, 4), self.body(MIN_PART))

    def step(self, tenant):
        kind, bucket, key = self.chance.randrange(20), self.chance.choice(list(BUCKETS)), self.chance.choice(KEYS)
        source = self.version(tenant) if kind < 4 else None
        surplus = self.surplus(tenant) if kind < 8 else None
        if source and kind < 4:
            return duplicate(tenant, bucket, key, source)
        if surplus and kind < 8:
            return delete(tenant, *surplus)
        if kind < 10:
            return delete(tenant, bucket, key)
        if kind < 15:
            return self.upload(tenant, self.chance.randrange(8))
        return put(tenant, bucket, key, self.body())


# ---- the file itself


def faults_of(file):
    """What SQLite itself finds wrong in a host's file: pages, references without a block, blocks that aren't their digest's, places of
    a body that are left out, what rows of packs count, and how many bytes nobody needs, where the file counts them (from version 5 on)."""
    it = opened(file)
    it.text_factory = bytes
    faults = [f"integrity: {row[0]!r}" for row in it.execute("PRAGMA integrity_check") if row[0] != b"ok"]
    faults += [f"a block is missing: {row}" for row in it.execute(
        "SELECT refs.tenant, refs.body, refs.place FROM refs LEFT JOIN blocks ON refs.digest = blocks.digest AND refs.ord = blocks.ord WHERE blocks.digest IS NULL")]
    faults += [f"another block than {found.hex()}" for found, data in it.execute("SELECT digest, bytes FROM blocks") if digest(data) != found]
    faults += [f"places of a body: {row}" for row in it.execute("SELECT tenant, body, count(*), max(place) FROM refs GROUP BY 1, 2 HAVING count(*) <> max(place) + 1")]
    faults += [f"a reference of nobody: {row}" for row in it.execute(
        "SELECT DISTINCT tenant, body FROM refs WHERE NOT EXISTS (SELECT 1 FROM versions WHERE versions.tenant = refs.tenant AND seq = refs.body)"
        " AND NOT EXISTS (SELECT 1 FROM parts WHERE parts.tenant = refs.tenant AND parts.body = refs.body)")]
    if it.execute("SELECT count(*) FROM sqlite_master WHERE name = 'unneeded'").fetchone()[0]:
        counts, found = it.execute("SELECT bytes FROM unneeded").fetchall(), unneeded_in(it)
        faults += [] if counts == [(found,)] else [f"nobody needs {found} bytes, and it counts {counts}"]
        faults += [] if packed_in(it) == packs_in(it) else [f"blocks in packs have {packed_in(it)}, and their rows count {packs_in(it)}"]
        faults += [f"pack {pack} has fewer than {length} bytes" for pack, length in it.execute("SELECT pack, length FROM packs") if size_of(pack_of(file, pack)) < length]
    it.close()
    return faults


def size_of(file):
    return os.path.getsize(file) if os.path.exists(file) else -1


def packs_in(database):
    """What the rows of packs with live bytes count: of each its live bytes, and whether no block ends past its length."""
    rows = database.execute("SELECT pack, live, length >= (SELECT max(place + size) FROM placed WHERE placed.pack = packs.pack) FROM packs WHERE live > 0")
    return {pack: (live, bool(is_within)) for pack, live, is_within in rows}


def packed_in(database):
    """The same of the blocks that are in each pack."""
    return {pack: (size, True) for pack, size in database.execute("SELECT pack, sum(size) FROM placed GROUP BY pack")}


def unneeded_in(database):
    """The bytes of blocks that no reference names."""
    return database.execute("SELECT coalesce(sum(length(bytes)), 0) FROM blocks WHERE NOT EXISTS"
                            " (SELECT 1 FROM refs WHERE refs.digest = blocks.digest AND refs.ord = blocks.ord)").fetchone()[0]
