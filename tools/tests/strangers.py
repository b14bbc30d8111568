"""A host for requests of strangers, and what an answer may look like."""
import os
import re

from host import MOMENT, Server, command, event_words

STATUS = re.compile(
    rb"HTTP/1\.1 (200 OK|204 No Content|206 Partial Content|400 Bad Request|403 Forbidden|404 Not Found|405 Method Not Allowed"
    rb"|409 Conflict|411 Length Required|416 Range Not Satisfiable|500 Internal Server Error|501 Not Implemented)"
)
REFUSALS = [f"{number} {code}" for number, code in enumerate("""BadRequest NotImplemented MissingContentLength EntityTooLarge
AccessDenied InvalidAccessKeyId InvalidURI InvalidBucketName KeyTooLongError InvalidArgument MalformedJSON NoSuchBucket NoSuchKey
NoSuchVersion NoSuchUpload MethodNotAllowed BucketAlreadyOwnedByYou BucketNotEmpty InvalidBucketState NoSuchLifecycleConfiguration
InvalidPart InvalidPartOrder EntityTooSmall QuotaExceeded InvalidRange BadDigest IncompleteBody InvalidRequest""".split(), 1)]
# The fields of a response's head in their order, and all that each may say: nothing in it is text of a request's.
FIELDS = {
    b"content-type": rb"application/(json|octet-stream)",
    b"content-length": rb"[0-9]{1,10}",
    b"content-range": rb"bytes ([0-9]{1,10}-[0-9]{1,10}|\*)/[0-9]{1,10}",
    b"accept-ranges": rb"bytes",
    b"allow": rb"GET|DELETE|DELETE, GET, HEAD, PUT|DELETE, GET, HEAD, POST, PUT",
    b"x-amz-checksum-sha256": rb"[A-Za-z0-9+/]{43}=(-[0-9]{1,5})?",
    b"x-amz-version-id": rb"null|[0-9a-f]{16}",
    b"x-amz-delete-marker": rb"true",
    b"x-amz-abort-date": MOMENT.pattern,
    b"x-refusal": "|".join(REFUSALS).encode(),
    b"connection": rb"close",
}

def fault_of(request, answer):
    """What is wrong with an answer as a response, or none: its head has the lines of a response alone."""
    head, end, body = answer.partition(b"\r\n\r\n")
    lines = head.split(b"\r\n")
    if not end or not STATUS.fullmatch(lines[0]):
        return f"no response: {answer[:200]}"
    names, length = list(FIELDS), None
    for line in lines[1:]:
        name, _, value = line.partition(b": ")
        if name not in names or not re.fullmatch(FIELDS[name], value):
            return f"no field of a response: {line[:200]}"
        names = names[names.index(name) + 1:]
        length = int(value) if name == b"content-length" else length
    if names:
        return "no connection: close at the end"
    is_head = request.lstrip(b"\r\n").startswith(b"HEAD ")
    if len(body) != (0 if is_head else length or 0):
        return f"a body of {len(body)} bytes where {length} are told"
    return None


def request_of(event):
    return event["http"].encode() if "http" in event else bytes.fromhex(event["hex"])


class Host:
    """A new host on a file, to which commands and then connections come."""

    def __init__(self, program, folder, name, *limits):
        self.program, self.file, self.server = program, os.path.join(folder, name.replace(" ", "-")), None
        command(program, self.file, "init", *limits)

    def command(self, event):
        """What an operator is told whose event is a subcommand on a file."""
        name, *words = event_words(event)
        return command(self.program, self.file, name, *words, "--force")[0].encode()

    def serve(self):
        self.server = Server(self.program, self.file, "--force")
        return self.server
