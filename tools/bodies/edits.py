"""Wrong bodies: edits of a crate's files, read, applied and summed."""
import os
import re
from dataclasses import dataclass
from functools import cached_property

from sources import functions

from .crates import PARTS, Crate, logic, read, sum_of

CLOSING = re.compile(r"[;,] ([)}\]])")
BRACKET = re.compile(r"([({\[]) | ([)}\]])")


class BadEdit(Exception):
    """Why an edit can't be applied, or didn't reach the prover."""


def laid_out(it):
    """Texts, alone or in lists, with each run of blanks as one space: where a line is broken means nothing."""
    return " ".join(it.split()) if isinstance(it, str) else [laid_out(part) for part in it]


def closed_alike(it):
    """Declarations that are laid out, without the separator that ends a list whose items stand on lines of their own."""
    return BRACKET.sub(r"\1\2", CLOSING.sub(r"\1", it)) if isinstance(it, str) else [closed_alike(part) for part in it]


@dataclass(frozen=True)
class Change:
    file: str
    old: str
    new: str


@dataclass(frozen=True)
class Place:
    """A function, by its file and by the type or trait whose method it is."""

    file: str
    owner: str
    trait: str
    name: str

    @property
    def module(self):
        return self.file.removeprefix("src/").removesuffix(".rt").removesuffix("/mod").replace("/", "::")

    @property
    def path(self):
        """Its name as a check prints it, without its crate, or an end of it: a method stands under its type, which another
        module may declare."""
        if self.owner:
            return f"{self.owner}{self.trait}::{self.name}"
        return self.name if self.module in ("lib", "main") else f"{self.module}::{self.name}"

    def is_named(self, path):
        """Whether a name that a check prints is this function's or that of one of its closures. A type may have types of its
        own in the name."""
        head, _, name = self.path.rpartition("::")
        above = rf"(\w+::)*{self.owner}[\w+]*{self.trait}::" if self.owner else re.escape(head and f"{head}::")
        return bool(re.fullmatch(rf"{above}(fn::{name}::.*|{name})", path))


@dataclass(frozen=True)
class Edit:
    """A wrong body: changes of a crate's files that the prover must refuse."""

    crate: Crate
    path: str

    @property
    def name(self):
        return os.path.basename(self.path).removesuffix(".edit")

    def __str__(self):
        return f"{self.crate.name}/{self.name}"

    @cached_property
    def changes(self):
        file, old, found = "", None, []
        for line in read(self.path).split("\n"):
            if line.startswith("file: "):
                file = line.removeprefix("file: ").strip()
                if os.path.normpath(file) != file or not file.startswith(tuple(f"{it}/" for it in PARTS)):
                    raise BadEdit("a 'file:' line names no file below src/, specs/ or proofs/")
            elif line.startswith("old: "):
                old = line.removeprefix("old: ")
            elif line.startswith("new:"):
                if not file or not old:
                    raise BadEdit("a 'new:' line stands before any 'file:' or 'old:' line")
                found.append(Change(file, old, line.removeprefix("new:").removeprefix(" ")))
                old = None
        if not found:
            raise BadEdit("it has no 'old:' and 'new:' pair")
        return found

    @cached_property
    def has_proof(self):
        """Whether a second part of it changes files of proofs/, so that they fit the wrong body."""
        return any(it.file.startswith("proofs/") for it in self.changes)

    def applied(self, texts):
        """The texts of the files that it changes, where texts has those that other edits changed before."""
        found = {}
        for it in self.changes:
            if not os.path.isfile(f"{self.crate.folder}/{it.file}"):
                raise BadEdit(f"there is no file {it.file}")
            text = found.get(it.file) or texts.get(it.file) or read(f"{self.crate.folder}/{it.file}")
            if text.count(it.old) != 1:
                raise BadEdit(f"an 'old:' text is in {it.file} {text.count(it.old)} times, and not once")
            found[it.file] = text.replace(it.old, it.new)
        return found

    def places(self):
        """The functions whose bodies hold its changes; None among them stands for a change outside of all bodies. Changes of
        proofs are no places."""
        found, texts = {}, {}
        for it in (change for change in self.changes if not change.file.startswith("proofs/")):
            text = texts.get(it.file) or read(f"{self.crate.folder}/{it.file}")
            line = text[: text.index(it.old)].count("\n")
            inside = [fn for fn in functions(text.split("\n")) if fn.body <= line <= fn.last]
            found |= {Place(it.file, fn.owner, fn.trait, fn.name): 0 for fn in inside} or {None: 0}
            texts[it.file] = text.replace(it.old, it.new)
        return [*found]

    def changed(self):
        """The functions that it changes, as they stand without it, each with its module and the type whose method it is."""
        found = []
        for place in self.places():
            lines = read(f"{self.crate.folder}/{place.file}").split("\n")
            module = "::".join([self.crate.name, *place.file.removeprefix("src/").removesuffix(".rt").split("/")])
            for it in functions(lines):
                if Place(place.file, it.owner, it.trait, it.name) == place:
                    found.append((module, it.owner, "\n".join(lines[it.first : it.last + 1])))
        return found

    def rests(self):
        """What these functions rest on, by where it stands."""
        found = [self.crate.sources.rests(module, f"{owner}\n{held}") for module, owner, held in self.changed()]
        return sorted({it for told in found for it in told})

    def sums(self):
        """The sums that its stamp stands under: of its text, of the functions that it changes, of what they rest on, and of the
        toolchain's logic. What is changed outside of functions rests on all statements below its crate."""
        text, tools = sum_of(read(self.path)), sum_of(logic())
        if None in self.places():
            return text, self.crate.sum, sum_of([(it.name, it.stated) for it in self.crate.below]), tools
        return text, sum_of(laid_out(self.changed())), sum_of(sorted(closed_alike(laid_out(self.rests())))), tools


def edits_in(folder, crate):
    """The edits of a crate in a folder."""
    names = sorted(os.listdir(folder)) if os.path.isdir(folder) else []
    return [Edit(crate, f"{folder}/{it}") for it in names if it.endswith(".edit")]


def faults(edits):
    """The edits that can't be applied, and why."""
    found = {}
    for it in edits:
        try:
            it.applied({})
        except (BadEdit, OSError, UnicodeDecodeError) as error:
            found[it] = str(error)
    return found
