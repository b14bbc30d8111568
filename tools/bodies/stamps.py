"""The stamps of wrong bodies: what each was when the prover last refused it, and the landings that they are counted in."""
import fcntl
import os
import subprocess
import time
from dataclasses import dataclass, replace

from .crates import kit, read

FRESH, AGED, NEVER = "fresh", "aged", "never"
REASONS = ("its text changed", "the function changed", "what the function rests on changed", "the toolchain's logic changed")
# The landings for which a stamp may be aged.
MOST_LANDINGS = 12


@dataclass(frozen=True)
class Stamp:
    """The last refusal of a wrong body. One that was never refused has no sums, and the landing that it came with."""

    landing: int
    sums: tuple = ()
    kit: str = ""
    # The commit that the refusal was tried on, and its day.
    commit: str = ""
    day: str = ""
    # The first landing that found it aged, or None.
    aged: int | None = None
    clauses: str = ""

    def line(self, name):
        if not self.sums:
            return f"{' '.join(name)} never {self.landing}\n"
        aged = "-" if self.aged is None else self.aged
        return f"{' '.join(name)} {'.'.join(self.sums)} {self.kit} {self.commit} {self.day} {self.landing} {aged} {self.clauses}\n"


def stamp_of(words):
    """The stamp of a line's words after its crate and its name."""
    if words[0] == NEVER:
        return Stamp(int(words[1]))
    sums, by, commit, day, landing, aged, clauses = words
    return Stamp(int(landing), tuple(sums.split(".")), by, commit, day, None if aged == "-" else int(aged), clauses)


@dataclass(frozen=True)
class Standing:
    """How a wrong body stands: fresh, aged or never refused, why, and for how many landings."""

    status: str
    why: str = ""
    landings: int = 0
    # The landing of its last refusal.
    refused: int = 0

    @property
    def is_too_old(self):
        """Whether a landing has to wait for it: it is aged for too long, or came without a refusal before this landing."""
        return self.landings > (MOST_LANDINGS if self.status == AGED else 0) and self.status != FRESH

    def __str__(self):
        ages = f", for {self.landings} landings" if self.landings else ""
        return f"{self.status}{ages}{': ' if self.why else ''}{self.why}"


class Stamps:
    """The stamps of a repository, in wrong-bodies/stamps, and the number of its last landing, in wrong-bodies/landing."""

    def __init__(self, folder):
        self.path, self.counter = f"{folder}/stamps", f"{folder}/landing"
        self.rows = self.read()

    @property
    def landing(self):
        return int(read(self.counter))

    def read(self):
        rows = [it.split() for it in read(self.path).split("\n")] if os.path.isfile(self.path) else []
        return {tuple(it[:2]): stamp_of(it[2:]) for it in rows if it}

    def standing(self, edit):
        stamp = self.rows.get((edit.crate.name, edit.name))
        if not stamp or not stamp.sums:
            return Standing(NEVER, "the prover never refused it", self.landing - stamp.landing if stamp else 0)
        changed = [reason for was, now, reason in zip(stamp.sums, edit.sums(), REASONS) if was != now]
        if not changed:
            return Standing(FRESH, refused=stamp.landing)
        landings = 0 if stamp.aged is None else self.landing - stamp.aged
        return Standing(AGED, " and ".join(changed), landings, stamp.landing)

    def refusal(self, edit, sums, clauses):
        """A stamp of a refusal as of now."""
        day = time.strftime("%Y-%m-%d", time.gmtime())
        return Stamp(self.landing, sums, kit(), commit_of(edit.crate.root), day, None, ",".join(clauses))

    def write(self, stamped=None, dropped=()):
        """Writes the file with these stamps by crate and name, and without those of dropped names; others may have written it
        meanwhile."""
        with open(self.path, "a", encoding="utf-8") as lock:
            fcntl.flock(lock, fcntl.LOCK_EX)
            self.rows = {name: it for name, it in (self.read() | (stamped or {})).items() if name not in dropped}
            with open(self.path, "w", encoding="utf-8") as file:
                file.writelines(self.rows[name].line(name) for name in sorted(self.rows))

    def land(self, edits):
        """Counts a landing: notes which stamps it found aged, and which wrong bodies came with it and were never refused."""
        standing = {it: self.standing(it) for it in edits}
        number = self.landing + 1
        changed = {}
        for it, now in standing.items():
            name = it.crate.name, it.name
            stamp = self.rows.get(name)
            if not stamp:
                changed[name] = Stamp(number)
            elif now.status == FRESH and stamp.aged is not None:
                changed[name] = replace(stamp, aged=None)
            elif now.status == AGED and stamp.aged is None:
                changed[name] = replace(stamp, aged=number)
        self.write(changed)
        with open(self.counter, "w", encoding="utf-8") as file:
            file.write(f"{number}\n")
        return number

    def take(self, text, edits):
        """Takes the stamps that a run elsewhere printed, as CI does, where they are fresh here; how many it took."""
        rows = [it.removeprefix("stamp: ").split() for it in text.split("\n") if it.startswith("stamp: ")]
        told = {tuple(it[:2]): stamp_of(it[2:]) for it in rows}
        sums = {(it.crate.name, it.name): it.sums() for it in edits if (it.crate.name, it.name) in told}
        taken = {name: it for name, it in told.items() if sums.get(name) == it.sums}
        self.write(taken)
        return len(taken)


def commit_of(root):
    """The commit that a repository stands at."""
    words = ["git", "rev-parse", "--short=12", "HEAD"]
    return subprocess.run(words, cwd=root, capture_output=True, text=True, check=True).stdout.strip()
