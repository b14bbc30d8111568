"""Events that are drawn, of two tenants, sweeps and reports among them, and what `bucketd script` answers them. Requests are of every
operation, on buckets, keys, versions and uploads that mostly are there."""
import json

from drawn import checksum
from host import request, script

STEPS = 300
OPTIONS = ["--block-size", "4", "--min-part", "4"]
TENANTS = {"green": "blue", "blue": "green"}
BUCKETS = {"plans": None, "kept": "Enabled", "held": "Suspended", "vault": "locked"}
KEYS = ["x", "y", "z", "a/b", "%C3%A9"]
DATE = "2091-08-01T00:00:00Z"
DATED = ["x-amz-object-lock-mode: COMPLIANCE", f"x-amz-object-lock-retain-until-date: {DATE}"]
LAST_READING = 250_000_000_000
HOUR = 3600


def compact(value):
    return json.dumps(value, separators=(",", ":")).encode()


def rule(days):
    return compact({"Rules": [{"AbortIncompleteMultipartUpload": {"DaysAfterInitiation": days}, "Status": "Enabled"}]})


class Line:
    """An event, and whose it is: a tenant's, or nobody's if it is a sweep or a report. A request has a method."""

    def __init__(self, owner, reading, content, method=None):
        self.owner, self.reading, self.content, self.method = owner, reading, content, method
        self.stamp = None

    def text(self, reading):
        return json.dumps({"at": reading} | self.content) + "\n"

    def shown(self):
        return bytes.fromhex(self.content["hex"]) if self.method else self.content


class Drawn:
    """The lines of a script, and of each tenant what its versions and uploads may be: refusals are not foreseen."""

    def __init__(self, chance, clock=1_389_781_800, is_past=True):
        self.chance, self.lines, self.clock, self.is_past = chance, [], clock, is_past
        self.states = {tenant: dict(BUCKETS) for tenant in TENANTS}
        self.versions, self.uploads = {tenant: [] for tenant in TENANTS}, {tenant: [] for tenant in TENANTS}

    def step(self, tenant):
        self.chance.choice(self.STEPS)(self, tenant)

    def add(self, owner, content, method=None):
        line = Line(owner, self.reading(), content, method)
        latest = next((it.stamp for it in reversed(self.lines) if it.stamp is not None), 0)
        if line.reading <= LAST_READING:
            line.stamp = max(latest, line.reading)
        self.lines.append(line)

    def reading(self):
        """Mostly some hours after the last, sometimes the same, before it, or past the last that has a stamp (`is_past`)."""
        kind = self.chance.randrange(40)
        if kind < 9:
            self.clock += self.chance.randrange(9) * HOUR
        elif kind < 11:
            return self.clock - self.chance.randrange(48) * HOUR
        elif kind == 11 and self.is_past:
            return LAST_READING + 1
        return self.clock

    def ask(self, tenant, method, target, body=b"", *fields, length=None, secret=None):
        self.add(tenant, {"hex": request(tenant, method, target, body, fields, secret, length).hex()}, method)

    def order(self, tenant, op, **members):
        self.add(tenant, {"op": op, "tenant": tenant} | members)

    def pick(self, *choices):
        return self.chance.choice(choices)

    def body(self):
        """Made of few pieces, so that bodies, also of both tenants, have blocks in common."""
        return b"".join(self.pick(b"aaaa", b"bbbb", b"cccc", b"\0\r\n\xff", b"a") for _ in range(self.chance.randrange(6)))

    def object(self):
        """A target of an object; now and then in a bucket that mostly isn't there."""
        bucket = self.pick(*BUCKETS) if self.chance.randrange(20) else "spare"
        return f"/{bucket}/{self.pick(*KEYS)}"

    def version(self, tenant):
        """A target of the newest version, or of one by its id, which may be there."""
        kind = self.chance.randrange(8)
        if kind < 3 and self.versions[tenant]:
            number, target = self.pick(*enumerate(self.versions[tenant], 1))
            return f"{target}?versionId={number:016x}"
        return self.object() + ("?versionId=null" if kind == 3 else "")

    def push(self, tenant, target):
        """A new version or delete marker, which has a number in an Enabled bucket."""
        if self.states[tenant].get(target.split("/")[1]) in ("Enabled", "locked"):
            self.versions[tenant].append(target)
        return target

    def upload(self, tenant):
        """A target of an upload that was begun, mostly one of the last, whatever became of it, and its parts."""
        begun = list(enumerate(self.uploads[tenant], 1))
        number, (target, parts) = self.pick(*(begun[-2:] if self.chance.randrange(6) else begun)) if begun else (1, ("/plans/x", {}))
        return f"{target}?uploadId={number:016x}", parts

    # ---- a tenant's steps

    def put(self, tenant):
        target, body, kind = self.object(), self.body(), self.chance.randrange(20)
        if kind == 0:
            self.ask(tenant, "PUT", target, body, f"x-amz-checksum-sha256: {checksum(b'another')}")
        elif kind == 1:
            self.ask(tenant, "PUT", target, body, length=len(body) + 3)
        elif kind < 5:
            self.ask(tenant, "PUT", self.push(tenant, f"/vault/{self.pick(*KEYS)}"), body, *DATED)
        else:
            fields = [f"x-amz-checksum-sha256: {checksum(body)}"] if kind == 5 else []
            self.ask(tenant, "PUT", self.push(tenant, target), body, *fields)

    def get(self, tenant):
        fields = [f"range: bytes={self.pick('0-2', '3-', '-5', '7-9', '50-69999')}"] if self.chance.randrange(3) == 0 else []
        self.ask(tenant, self.pick("GET", "GET", "HEAD"), self.version(tenant), b"", *fields)

    def retention(self, tenant):
        target, _, id = self.version(tenant).partition("?")
        target, date = f"{target}?retention{'&' if id else ''}{id}", compact({"Mode": "COMPLIANCE", "RetainUntilDate": DATE.replace("2091", "2092")})
        self.ask(tenant, *self.pick(("GET", target), ("PUT", target, date)))

    def delete(self, tenant):
        target = self.version(tenant)
        self.ask(tenant, "DELETE", target if "?" in target else self.push(tenant, target))

    def copy(self, tenant):
        source = self.version(tenant)
        source = self.pick(source, source, source, source[1:], f"/{tenant}:{source[1:]}", f"/{TENANTS[tenant]}:{source[1:]}")
        self.ask(tenant, "PUT", self.push(tenant, self.object()), b"", f"x-amz-copy-source: {source}")

    def begin(self, tenant):
        target = f"/{self.pick(*BUCKETS)}/{self.pick(*KEYS)}"
        self.uploads[tenant].append((target, {}))
        self.ask(tenant, "POST", f"{target}?uploads")

    def part(self, tenant):
        target, parts = self.upload(tenant)
        number, body = self.chance.randrange(1, 4), self.body()
        parts[number] = body
        self.ask(tenant, "PUT", f"{target}&partNumber={number}", body)

    def complete(self, tenant):
        target, parts = self.upload(tenant)
        self.push(tenant, target.split("?")[0])
        named = [{"PartNumber": number} for number in sorted(parts) or [1]]
        self.ask(tenant, "POST", target, compact({"Parts": named}))

    def abort(self, tenant):
        self.ask(tenant, "DELETE", self.upload(tenant)[0])

    def listing(self, tenant):
        bucket, other = f"/{self.pick(*BUCKETS)}", f"/{TENANTS[tenant]}:plans"
        query = f"max-keys={self.pick(0, 1, 2, 3)}&prefix={self.pick('', 'a', 'x')}&delimiter={self.pick('', '/', '%2F')}"
        targets = [f"{bucket}?list-type=2&max-keys=2", f"{bucket}?list-type=2&{query}&continuation-token={self.pick('', '61', 'ff')}", f"{bucket}?versions",
                   f"{bucket}?versions&{query}&key-marker=x&version-id-marker=null", f"{bucket}?uploads", f"{bucket}?uploads&key-marker=x&upload-id-marker=0000000000000001",
                   self.upload(tenant)[0], "/", "/?usage", f"{bucket}?lifecycle", f"{bucket}?versioning", f"{bucket}?object-lock", f"{other}?list-type=2"]
        self.ask(tenant, *self.pick(*(("GET", it) for it in targets), ("HEAD", bucket), ("PUT", f"{other}/x", self.body())))

    def change_version(self, tenant, bucket, state):
        self.states[tenant][bucket] = state
        self.ask(tenant, "PUT", f"/{bucket}?versioning", compact({"Status": state}))

    def settings(self, tenant):
        bucket = f"/{self.pick(*BUCKETS)}"
        kind = self.chance.randrange(6)
        if kind < 3:
            self.ask(tenant, "PUT", f"{bucket}?lifecycle", rule(self.chance.randrange(1, 4)))
        elif kind == 3:
            self.ask(tenant, "DELETE", f"{bucket}?lifecycle")
        elif kind == 4:
            self.change_version(tenant, self.pick("kept", "held"), self.pick("Enabled", "Suspended"))
        else:
            self.ask(tenant, self.pick("PUT", "DELETE"), self.pick("/spare", bucket))

    def leave(self, tenant):
        """The tenant is removed, if it has no date, and made anew."""
        self.order(tenant, "tenant-remove", with_objects=self.chance.randrange(4) > 0)
        self.states[tenant], self.versions[tenant], self.uploads[tenant] = dict(BUCKETS), [], []
        self.beginning(tenant)

    def account(self, tenant):
        kind = self.chance.randrange(6)
        if kind < 2:
            self.order(tenant, "usage")
        elif kind == 2:
            self.order(tenant, "quota", quota=self.pick(60, 1000))
        elif kind == 3:
            self.order(tenant, "key-add", name="k2", secret="longsecret")
        elif kind == 4:
            self.order(tenant, "key-remove", name="k2")
        else:
            self.ask(tenant, "GET", "/plans/x", secret="anothersecret")

    STEPS = [put] * 5 + [get] * 4 + [delete] * 3 + [copy] * 3 + [begin] * 3 + [part] * 5 + [complete] * 2
    STEPS += [abort, retention, listing, listing, settings, account, leave]

    def beginning(self, tenant):
        self.order(tenant, "tenant-add", quota=1000)
        self.order(tenant, "key-add", name="k1", secret=tenant + "secret")
        for bucket, state in BUCKETS.items():
            self.ask(tenant, "PUT", f"/{bucket}", b"", *(["x-amz-bucket-object-lock-enabled: true"] if state == "locked" else []))
            if state in ("Enabled", "Suspended"):
                self.change_version(tenant, bucket, state)
            if self.chance.randrange(3):
                self.ask(tenant, "PUT", f"/{bucket}?lifecycle", rule(self.chance.randrange(1, 3)))


def drawn_lines(chance, drawn):
    """Two tenants, the second of whom is added later, in turn with sweeps and reports. A tenant has some events in a row, so
    that the other's uploads can be stale when a sweep comes."""
    tenant = "green"
    drawn.beginning("green")
    begins = chance.randrange(20)
    for count in range(STEPS):
        if count == begins:
            drawn.beginning("blue")
        kind = chance.randrange(10)
        if kind == 0:
            drawn.add(None, {"op": "sweep", "limit": chance.randrange(4)})
        elif kind == 1:
            drawn.add(None, {"op": "report"})
        else:
            tenant = tenant if chance.randrange(15) else TENANTS[tenant]
            drawn.step(tenant)
    return drawn.lines


# ---- runs and what they answer


def cut(line, text, start):
    """Where an answer ends that begins at a place. A line of an operator has no end but its line feed."""
    if line.method is None:
        return text.index(b"\n", start) + 1
    end = text.index(b"\r\n\r\n", start) + 4
    fields = dict(it.split(b": ", 1) for it in text[start:end].split(b"\r\n")[1:] if it)
    length = 0 if line.method == "HEAD" else int(fields.get(b"content-length", 0))
    return end + length + 1


def answers(program, lines, readings):
    """What a new host answers to each line, at these readings."""
    told = script(program, [line.text(reading) for line, reading in zip(lines, readings)], *OPTIONS)
    found, start = [], 0
    for line in lines:
        end = cut(line, told, start)
        found.append(told[start:end])
        start = end
    assert start == len(told), f"{len(told) - start} bytes after the last answer"
    return found
