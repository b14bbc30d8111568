"""Files of hosts that earlier programs made (crates/examples/data/hosts), and what has to be read of them: what those programs
told."""
import json
import os

from host import CRATES

READ = [("GET", it, "") for it in """/ /?usage /plans?list-type=2 /plans/a /plans/b%2Fc /kept?versions /kept?versioning /plans?lifecycle /kept/a
/kept/a?versionId=0000000000000001 /kept/b /kept?uploads /kept/v?uploadId=0000000000000001""".split()]
# Of a file of version 2 too, which has a locked bucket and a version with a date.
READ_DATED = [("GET", "/vault?object-lock", ""), ("GET", "/vault/x?retention", "")]
# The tables of versions 4 and 5 that nothing fills.
UNFILLED = ("packs", "placed", "notes", "upload_notes", "rights", "garbage")
# The bytes of each file's blocks that nobody needs.
UNNEEDED = 7
HOSTS = os.path.join(CRATES, "examples/data/hosts")


def kept_names():
    return sorted(it for it in os.listdir(HOSTS) if not it.endswith(".answers"))


def reads_of(name):
    """What is read of a file."""
    return READ if name == "version-1" else READ + READ_DATED


def told_by(name):
    """What the program that made a file answered to that."""
    with open(os.path.join(HOSTS, name + ".answers")) as told:
        return [it.encode() for it in json.load(told)]


def versions_of(database):
    """The number that a host's row has, how many rows of locks, of dates and of tallies there are, and of all the tables that nothing
    fills, and the bytes that nobody needs; none where it has no such tables."""
    tables = {name for (name,) in database.execute("SELECT name FROM sqlite_master WHERE type = 'table'")}
    count = lambda it: database.execute(f"SELECT count(*) FROM {it}").fetchone()[0]
    counts = [count(it) if it in tables else None for it in ("locks", "retains", "tallies")]
    unfilled = sum(map(count, UNFILLED)) if tables >= set(UNFILLED) else None
    unneeded = database.execute("SELECT sum(bytes) FROM unneeded").fetchone()[0] if "unneeded" in tables else None
    return (database.execute("SELECT version FROM host").fetchone()[0], *counts, unfilled, unneeded)
