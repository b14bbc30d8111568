"""What a host answers, in plain Python: models that note events and their answers. A body is a value of Python here, never blocks, so
the answers are those of every block size."""
import base64
import hashlib
import json
import subprocess
import time
from urllib.parse import quote

from host import request

KINDS = {"plans": None, "kept": "Enabled", "held": "Suspended"}
# The status of each refusal but those of 400.
STATUSES = {"5 AccessDenied": "403 Forbidden", "6 InvalidAccessKeyId": "403 Forbidden", "12 NoSuchBucket": "404 Not Found", "13 NoSuchKey": "404 Not Found",
            "14 NoSuchVersion": "404 Not Found", "15 NoSuchUpload": "404 Not Found", "16 MethodNotAllowed": "405 Method Not Allowed",
            "19 InvalidBucketState": "409 Conflict", "25 InvalidRange": "416 Range Not Satisfiable", "2 NotImplemented": "501 Not Implemented"}
MARKER = "x-amz-delete-marker: true"
MODE, UNTIL = "x-amz-object-lock-mode: ", "x-amz-object-lock-retain-until-date: "
MOMENT = "1970-01-01T00:00:00Z"


def checksum(body):
    return base64.b64encode(hashlib.sha256(body).digest()).decode()


def text_of(moment):
    return time.strftime("%Y-%m-%dT%H:%M:%SZ", time.gmtime(moment))


def packed(value):
    """A document as the host writes it: members in the order of their names, those that are None left out."""
    value = {name: it for name, it in value.items() if it is not None}
    return json.dumps(value, ensure_ascii=False, sort_keys=True, separators=(",", ":")).encode()


def response(status, fields, body=b""):
    return "".join(f"{line}\r\n" for line in [f"HTTP/1.1 {status}", *fields, "connection: close"]).encode() + b"\r\n" + body


def shown(document, *fields):
    return response("200 OK", ["content-type: application/json", f"content-length: {len(document)}", *fields], document)


def refusal_of(refusal, resource, *fields):
    """The response to what is refused, with its document."""
    text = packed({"Code": refusal.split()[1], "Resource": resource})
    fields = ["content-type: application/json", f"content-length: {len(text)}", *fields, f"x-refusal: {refusal}"]
    return response(STATUSES.get(refusal, "400 Bad Request"), fields, text)


class Entry:
    """A version, or a delete marker where it has no body. A number is None for the id `null`; `until`: its date, or 0."""

    def __init__(self, number, body, sum):
        self.number, self.body, self.sum, self.until = number, body, sum, 0

    def id(self):
        return "null" if self.number is None else f"{self.number:016x}"


class Script:
    """`options`: those of `bucketd script` without which it is answered otherwise; `reading`: what the clock says; `now`: the moment of
    the last event, which is never before the one before it; `locked`: tenants and their locked buckets."""

    options = ()

    def __init__(self):
        self.events, self.answers, self.tenants, self.numbers, self.states, self.locked = [], [], {}, {}, {}, set()
        self.reading = self.now = 0

    def read_clock(self, reading):
        self.reading, self.now = reading, max(self.now, reading)

    def tell(self, event, answer):
        self.events.append(json.dumps({"at": self.reading} | event) + "\n")
        self.answers.append(answer + b"\n")

    def raw(self, tenant, method, path, answer, given=None, more=()):
        self.tell({"hex": request(tenant, method, path, given, more).hex()}, answer)

    def ask(self, tenant, method, path, status, fields, body=b"", given=None, more=()):
        self.raw(tenant, method, path, response(status, fields, body), given, more)

    def done(self, tenant, method, path, *fields, given=b"", more=()):
        self.ask(tenant, method, path, "200 OK", ["content-length: 0", *fields], b"", given, more)

    def answer(self, tenant, method, path, document, *fields, given=None, more=()):
        self.raw(tenant, method, path, shown(packed(document), *fields), given, more)

    def refused(self, tenant, method, path, refusal, *fields, given=None, more=()):
        self.raw(tenant, method, path, refusal_of(refusal, path.split("?")[0], *fields), given, more)

    def add(self, tenant, buckets):
        self.tenants[tenant], self.numbers[tenant] = {name: {} for name in buckets}, 0
        self.tell({"op": "tenant-add", "tenant": tenant, "quota": 1 << 40}, f"tenant {tenant}".encode())
        self.tell({"op": "key-add", "tenant": tenant, "name": "k1", "secret": tenant + "secret"}, f"key {tenant}$k1".encode())
        for name in buckets:
            self.states[tenant, name] = None
            self.done(tenant, "PUT", f"/{name}")
            if KINDS[name]:
                self.version(tenant, name, "Enabled")

    def lock(self, tenant, name):
        self.tenants[tenant][name], self.states[tenant, name] = {}, "Enabled"
        self.locked.add((tenant, name))
        self.done(tenant, "PUT", f"/{name}", more=["x-amz-bucket-object-lock-enabled: true"])

    def version(self, tenant, name, state):
        path, given = f"/{name}?versioning", b'{"Status":"%s"}' % state.encode()
        if (tenant, name) in self.locked and state == "Suspended":
            return self.refused(tenant, "PUT", path, "19 InvalidBucketState", given=given)
        self.states[tenant, name] = state
        self.done(tenant, "PUT", path, given=given)

    def entries(self, tenant, name, key):
        return self.tenants[tenant][name].setdefault(key, [])

    def newest(self, tenant, name, key):
        return next(iter(self.entries(tenant, name, key)), None)

    def told(self, tenant, name, entry):
        return [f"x-amz-version-id: {entry.id()}"] if self.states[tenant, name] else []

    def push(self, tenant, name, key, body, sum):
        """The new entry: numbered in an Enabled bucket, and else in the place of the one with the id `null`."""
        entries = self.entries(tenant, name, key)
        if self.states[tenant, name] == "Enabled":
            self.numbers[tenant] += 1
            entries.insert(0, Entry(self.numbers[tenant], body, sum))
        else:
            entries[:] = [Entry(None, body, sum)] + [entry for entry in entries if entry.number is not None]
        return entries[0]

    def flaw(self, tenant, name, date, present=0):
        """Why a version may not have a date, which is None where it isn't given as it should be."""
        if (tenant, name) not in self.locked:
            return "28 InvalidRequest"
        if date is None or date <= self.now:
            return "10 InvalidArgument"
        return "5 AccessDenied" if date < present else None

    def keep(self, tenant, name, key, body, sum, heads, date):
        """The new version, with a date where `heads` are given, or why there is none."""
        if flaw := self.flaw(tenant, name, date) if heads else None:
            return None, flaw
        entry = self.push(tenant, name, key, body, sum)
        entry.until = date if heads else 0
        return entry, None

    def put(self, tenant, name, key, body, heads=(), date=None):
        path, (entry, flaw) = path_of(name, key), self.keep(tenant, name, key, body, checksum(body), heads, date)
        if flaw:
            return self.refused(tenant, "PUT", path, flaw, given=body, more=heads)
        self.done(tenant, "PUT", path, f"x-amz-checksum-sha256: {entry.sum}", *self.told(tenant, name, entry), given=body, more=heads)

    def copy(self, tenant, name, key, source, heads=(), date=None):
        """Copies the newest version of another bucket and key, or one that is named by its id."""
        *of, entry = source
        path, more, found = path_of(name, key), [f"x-amz-copy-source: {path_of(*of, entry)}", *heads], entry or self.newest(tenant, *of)
        if found is None or found.body is None:
            return self.refused(tenant, "PUT", path, "28 InvalidRequest" if entry else "13 NoSuchKey", given=b"", more=more)
        new, flaw = self.keep(tenant, name, key, found.body, found.sum, heads, date)
        if flaw:
            return self.refused(tenant, "PUT", path, flaw, given=b"", more=more)
        told = {"ChecksumSHA256": new.sum, "LastModified": text_of(self.now)}
        self.answer(tenant, "PUT", path, told, *self.told(tenant, name, new), given=b"", more=more)

    def delete(self, tenant, name, key, entry=None):
        path = path_of(name, key, entry)
        if entry:
            self.entries(tenant, name, key).remove(entry)
        elif self.states[tenant, name]:
            entry = self.push(tenant, name, key, None, None)
        else:
            self.entries(tenant, name, key).clear()
        fields = self.told(tenant, name, entry) if entry else []
        self.ask(tenant, "DELETE", path, "204 No Content", fields + ([MARKER] if entry and entry.body is None else []))

    def get(self, tenant, name, key, entry=None, span=None):
        """`span`: a first and a last byte, either of which may be None."""
        path, it = path_of(name, key, entry), entry or self.newest(tenant, name, key)
        more = [] if span is None else [f"range: bytes={''.join('-' if it == '-' else str(it) for it in span)}"]
        if entry and entry.body is None:
            return self.refused(tenant, "GET", path, "16 MethodNotAllowed", "allow: DELETE", MARKER, more=more)
        if it is None or it.body is None:
            return self.refused(tenant, "GET", path, "13 NoSuchKey", *([MARKER] if it else []), more=more)
        sent = cut(it.body, span)
        if sent is None:
            return self.refused(tenant, "GET", path, "25 InvalidRange", f"content-range: bytes */{len(it.body)}", more=more)
        body, first = sent
        fields = ["content-type: application/octet-stream", f"content-length: {len(body)}"]
        fields += [] if first is None else [f"content-range: bytes {first}-{first + len(body) - 1}/{len(it.body)}"]
        fields += ["accept-ranges: bytes", f"x-amz-checksum-sha256: {it.sum}", *self.told(tenant, name, it)]
        self.ask(tenant, "GET", path, "200 OK" if first is None else "206 Partial Content", fields, body, more=more)


def path_of(name, key, entry=None):
    return f"/{name}/{quote(key)}" + (f"?versionId={entry.id()}" if entry else "")


def cut(body, span):
    """The bytes of a range and the first one's place, that is None where the range is ignored; None where it has no byte.

    RFC 9110, section 14.1.2: `3-5` has both ends, `3-` goes to the end, `-3` has the last three.
    """
    if span is None or (span[0] != "-" and span[2:] and span[2] < span[0]):
        return body, None
    first = max(0, len(body) - span[1]) if span[0] == "-" else span[0]
    sent = body[first : span[2] + 1] if span[0] != "-" and span[2:] else body[first:]
    return (sent, first) if sent else None


def page(entries, prefix, delimiter, marker, size):
    """A page of keys and their places (versions, uploads) after a marker, which is one of both, or has no place: how many entries it
    has at most, those that it has, a rolled-up name without a place, and the last one where some are left over."""
    most, found, (after, place) = 1000 if size is None else min(size, 1000), [], marker or (None, None)
    for key, at in sorted(entries, key=lambda it: (it[0].encode(), it[1])):
        end = key.find(delimiter, len(prefix)) if delimiter else -1
        entry = (key, at) if end < 0 else (key[: end + len(delimiter)], None)
        is_later = after is None or after.encode() < entry[0].encode() or (end < 0 and after == key and place is not None and place < at)
        # The keys of a rolled-up name stand together.
        if key.startswith(prefix) and is_later and found[-1:] != [entry]:
            found.append(entry)
    return most, found[:most], found[most - 1] if most and len(found) > most else None


def listing(current, prefix, delimiter, after, size):
    """The document of a page of objects, and the last key where some are left over; `current`: the size and checksum of each key's."""
    most, entries, following = page([(key, 0) for key in current], prefix, delimiter, after and (after, None), size)
    contents = [{"ChecksumSHA256": current[key][1], "Key": key, "LastModified": text_of(0), "Size": current[key][0]} for key, at in entries if at is not None]
    told = {"CommonPrefixes": rolled(entries), "Contents": contents, "IsTruncated": following is not None, "KeyCount": len(entries), "MaxKeys": most,
            "Name": "plans", "NextContinuationToken": following and following[0].encode().hex(), "Prefix": prefix}
    return packed(told), following and following[0]


def rolled(entries):
    return [{"Prefix": name} for name, at in entries if at is None]


# ---- uploads, upload by upload a map from numbers to bytes


def joined_checksum(parts):
    """That of the parts' digests, joined, and the parts' number."""
    digests = b"".join(hashlib.sha256(part).digest() for part in parts)
    return f"{base64.b64encode(hashlib.sha256(digests).digest()).decode()}-{len(parts)}"


class Uploads(Script):
    def __init__(self, least):
        super().__init__()
        self.least, self.uploads, self.begun = least, {}, {}
        self.options = ("--min-part", str(least))

    def begin(self, tenant, name, key):
        number = self.begun[tenant] = self.begun.get(tenant, 0) + 1
        self.uploads[tenant, number] = (name, key, {})
        self.answer(tenant, "POST", f"{path_of(name, key)}?uploads", {"Bucket": name, "Key": key, "UploadId": f"{number:016x}"}, given=b"")
        return number

    def found(self, tenant, name, key, number):
        """The parts of an upload of this bucket and key, if there is one, and its path."""
        upload = self.uploads.get((tenant, number))
        return upload[2] if upload and upload[:2] == (name, key) else None, f"{path_of(name, key)}?uploadId={number:016x}"

    def part(self, tenant, name, key, number, part, body, sum=None):
        parts, path = self.found(tenant, name, key, number)
        path, more = f"{path}&partNumber={part}", [f"x-amz-checksum-sha256: {sum}"] if sum else []
        flaw = "15 NoSuchUpload" if parts is None else "26 BadDigest" if sum not in (None, checksum(body)) else None
        if flaw:
            return self.refused(tenant, "PUT", path, flaw, given=body, more=more)
        parts[part] = body
        self.done(tenant, "PUT", path, f"x-amz-checksum-sha256: {checksum(body)}", given=body, more=more)

    def no_completion(self, parts, named):
        """Why parts aren't joined."""
        numbers = [part for part, _ in named]
        if parts is None:
            return "15 NoSuchUpload"
        if any(second <= first for first, second in zip(numbers, numbers[1:])):
            return "22 InvalidPartOrder"
        if any(part not in parts or sum not in (None, checksum(parts[part])) for part, sum in named):
            return "21 InvalidPart"
        return "23 EntityTooSmall" if any(len(parts[part]) < self.least for part in numbers[:-1]) else None

    def complete(self, tenant, name, key, number, named):
        """`named`: the number of each part and the checksum that it is said to have, or None."""
        parts, path = self.found(tenant, name, key, number)
        members = [{"PartNumber": part} if sum is None else {"ChecksumSHA256": sum, "PartNumber": part} for part, sum in named]
        given = json.dumps({"Parts": members}, separators=(",", ":")).encode()
        if flaw := self.no_completion(parts, named):
            return self.refused(tenant, "POST", path, flaw, given=given)
        del self.uploads[tenant, number]
        chosen = [parts[part] for part, _ in named]
        entry = self.push(tenant, name, key, b"".join(chosen), joined_checksum(chosen))
        self.answer(tenant, "POST", path, {"Bucket": name, "ChecksumSHA256": entry.sum, "Key": key}, *self.told(tenant, name, entry), given=given)

    def abort(self, tenant, name, key, number):
        parts, path = self.found(tenant, name, key, number)
        if parts is None:
            return self.refused(tenant, "DELETE", path, "15 NoSuchUpload")
        del self.uploads[tenant, number]
        self.ask(tenant, "DELETE", path, "204 No Content", [])


# ---- versions with dates


class Dates(Script):
    def dated(self, tenant, name, key, entry):
        """The version whose date is asked about, or why it isn't told of: of a marker only what may be done with one that was named."""
        newest = self.newest(tenant, name, key)
        if entry and entry.body is None:
            return None, ("16 MethodNotAllowed", "allow: DELETE")
        if entry is None and (newest is None or newest.body is None):
            return None, ("13 NoSuchKey",)
        return entry or newest, None

    def retention(self, tenant, name, key, entry, given=None, date=None):
        """Asks for a version's date, or gives it one by a document; `date` is None where that is no date, or none in this mode."""
        path, method = f"/{name}/{key}?retention" + (f"&versionId={entry.id()}" if entry else ""), "GET" if given is None else "PUT"
        if given is not None and date is None:
            return self.refused(tenant, method, path, "10 InvalidArgument" if given.startswith(b"{") else "11 MalformedJSON", given=given)
        version, why = self.dated(tenant, name, key, entry)
        if version and given is None:
            return self.answer(tenant, method, path, {"Mode": "COMPLIANCE", "RetainUntilDate": text_of(version.until)} if version.until else {})
        flaw = version and self.flaw(tenant, name, date, version.until)
        if why or flaw:
            return self.refused(tenant, method, path, *(why or [flaw]), given=given)
        version.until = date
        self.done(tenant, method, path, given=given)

    def remove(self, tenant, name, key, entry):
        """A delete by an id; of one that another key has nothing comes, whatever date there is."""
        if entry not in self.entries(tenant, name, key):
            return self.ask(tenant, "DELETE", path_of(name, key, entry), "204 No Content", [])
        if self.now < entry.until:
            return self.refused(tenant, "DELETE", path_of(name, key, entry), "5 AccessDenied")
        self.delete(tenant, name, key, entry)


# ---- listings: a plain fold over all keys in the order of their bytes


def version_of(key, at, entry):
    told = {"DeleteMarker": entry.body is None, "IsLatest": at == 0, "Key": key, "LastModified": MOMENT, "VersionId": entry.id()}
    return told if entry.body is None else told | {"ChecksumSHA256": entry.sum, "Size": len(entry.body)}


def part_document(upload, parts, most, after):
    """The document of a page of an upload's parts, and its last number where some are left over."""
    numbers = sorted(number for number in parts if number > after)
    found = numbers[:most]
    following = found[-1] if found and len(numbers) > most else None
    listed = [{"ChecksumSHA256": checksum(parts[it]), "LastModified": MOMENT, "PartNumber": it, "Size": len(parts[it])} for it in found]
    return packed({"Bucket": "plans", "IsTruncated": following is not None, "Key": upload[0], "MaxParts": most, "NextPartNumberMarker": following,
                   "Parts": listed, "UploadId": f"{upload[1]:016x}"}), following


class Listings(Uploads):
    """One tenant's bucket, its listings page by page."""

    def __init__(self):
        super().__init__(0)
        self.options = ()
        self.add("green", ["plans"])

    def tell_page(self, path, first, document, end="", **values):
        """A page by a query's first parameter, those that have a value, and the query's end."""
        words = [f"{name.replace('_', '-')}={quote(str(value), safe='')}" for name, value in values.items() if value is not None and value != ""]
        self.raw("green", "GET", f"{path}?{'&'.join([first, *words])}{end}", shown(document))

    def put_key(self, key, body):
        self.put("green", "plans", key, body.encode())

    def begun_keys(self):
        """The parts of each upload that is there, by its key and number."""
        return {(key, number): parts for (_, number), (_, key, parts) in self.uploads.items()}

    def list(self, prefix, delimiter, after, size):
        """The key after which the next page begins."""
        current = {key: (len(it[0].body), it[0].sum) for key, it in self.tenants["green"]["plans"].items() if it and it[0].body is not None}
        text, following = listing(current, prefix, delimiter, after, size)
        end, token = "&continuation-token=" if after == "" else "", after and after.encode().hex()
        self.tell_page("/plans", "list-type=2", text, end, prefix=prefix, delimiter=delimiter, continuation_token=token, max_keys=size)
        return following

    def list_versions(self, prefix, delimiter, marker, size):
        kept, (key, id) = self.tenants["green"]["plans"], marker or (None, None)
        ids = [it.id() for it in kept.get(key, [])]
        at = key, ids.index(id) if id in ids else None
        most, found, following = page([(key, at) for key, it in kept.items() for at in range(len(it))], prefix, delimiter, at if key else None, size)
        next_id = following and following[1] is not None and kept[following[0]][following[1]].id() or None
        text = packed({"CommonPrefixes": rolled(found), "IsTruncated": following is not None, "MaxKeys": most, "Name": "plans", "NextKeyMarker": following and following[0],
                       "NextVersionIdMarker": next_id, "Prefix": prefix, "Versions": [version_of(*it, kept[it[0]][it[1]]) for it in found if it[1] is not None]})
        self.tell_page("/plans", "versions", text, prefix=prefix, delimiter=delimiter, key_marker=key, version_id_marker=id, max_keys=size)
        return following and (following[0], next_id)

    def list_uploads(self, prefix, delimiter, marker, size):
        most, found, following = page(self.begun_keys(), prefix, delimiter, marker, size)
        next_key, number = following or (None, None)
        told = [{"Initiated": MOMENT, "Key": key, "UploadId": f"{at:016x}"} for key, at in found if at is not None]
        text = packed({"Bucket": "plans", "CommonPrefixes": rolled(found), "IsTruncated": following is not None, "MaxUploads": most, "NextKeyMarker": next_key,
                       "NextUploadIdMarker": number and f"{number:016x}", "Prefix": prefix, "Uploads": told})
        key, number = marker or (None, None)
        words = {"key_marker": key, "upload_id_marker": number and f"{number:016x}", "max_uploads": size}
        self.tell_page("/plans", "uploads", text, prefix=prefix, delimiter=delimiter, **words)
        return following

    def list_parts(self, upload, after, size):
        text, following = part_document(upload, self.begun_keys()[upload], 1000 if size is None else min(size, 1000), after or 0)
        self.tell_page(path_of("plans", upload[0]), f"uploadId={upload[1]:016x}", text, part_number_marker=after, max_parts=size)
        return following


# ---- whether a program answers so


def answered(program, script, *options):
    """What is answered otherwise than a model says, at the first event where it is, or None."""
    done = subprocess.run([program, "script", *options, *script.options], input="".join(script.events).encode(), capture_output=True)
    place = 0
    for event, wanted in zip(script.events, script.answers):
        if (found := done.stdout[place : place + len(wanted)]) != wanted:
            return f"{text_of_event(event)}\n  is answered {found!r}\n  and not {wanted!r}"
        place += len(wanted)
    return None if (done.returncode, len(done.stdout)) == (0, place) else f"status {done.returncode}, {len(done.stdout)} bytes of {place}: {done.stderr[-500:]!r}"


def text_of_event(event):
    """A script's line, its request as text."""
    told = json.loads(event)
    return f"at {told['at']}: {bytes.fromhex(told['hex']) if 'hex' in told else told}"


def ways(sizes):
    """Options, mostly in turn for each size of blocks."""
    return [["--block-size", str(size), *more] for size in sizes for more in (["--cache-blocks", "0"], ["--cache-blocks", "8"], ["--digest", "fast"])]


def spans(size):
    """Every range of so many bytes, and those that end or begin one byte and two past them."""
    both = [(first, "-", last) for first in range(size + 3) for last in range(size + 3)]
    return both + [(first, "-") for first in range(size + 3)] + [("-", count) for count in range(size + 3)]
