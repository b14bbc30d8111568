"""The crates of the repository, and the libraries in their out/ that were proved."""
import hashlib
import os
import subprocess
from functools import cached_property, lru_cache

from rests import Sources
from sources import code, statements, test_modules

PARTS = ("src", "specs", "proofs")


def read(path):
    with open(path, encoding="utf-8") as file:
        return file.read()


def sum_of(*parts):
    return hashlib.sha256(repr(parts).encode()).hexdigest()[:12]


@lru_cache
def toolchain():
    return subprocess.run(["rt", "version"], capture_output=True, text=True, check=True).stdout.strip()


def kit():
    """The name of the toolchain's release, as `rt version` has it before its logic."""
    return toolchain().partition(" ")[0]


def logic():
    """The sum of the toolchain's logic, by whose rules everything is proved."""
    return toolchain().partition(" logic ")[2]


@lru_cache
def kit_folder():
    """The folder of the toolchain."""
    page = subprocess.run(["rt", "doc"], capture_output=True, text=True, check=True).stdout.strip()
    return os.path.dirname(page)


class Crate:
    """A crate of the repository, with the repository's libraries that it uses."""

    def __init__(self, root, name, listed, uses):
        self.root, self.name, self.listed, self.uses = root, name, listed, uses
        self.folder = f"{root}/crates/{name}"
        self.library = f"{self.folder}/out/rlib/{name}.rlib"
        self.root_file = next(it for it in ("src/main.rt", "src/lib.rt") if os.path.isfile(f"{self.folder}/{it}"))

    @cached_property
    def below(self):
        """The repository's libraries below the crate, each after those that it uses."""
        found = []
        for use in self.uses:
            found += [it for it in [*use.below, use] if it not in found]
        return found

    def files(self):
        """The texts of the crate's files by their path in it, without the files of its tests."""
        texts = {}
        for part in PARTS:
            for folder, _, names in os.walk(f"{self.folder}/{part}"):
                for name in names:
                    path = f"{folder}/{name}"
                    texts[os.path.relpath(path, self.folder)] = read(path)
        tests = [it for file in texts for it in test_modules(file, texts[file].split("\n"))[1]]
        return {file: texts[file] for file in sorted(texts) if not file.startswith(tuple(tests))}

    @cached_property
    def sum(self):
        return sum_of([(file, code(file, text)) for file, text in self.files().items()])

    @cached_property
    def sources(self):
        return Sources(self)

    @cached_property
    def made_of(self):
        """A sum of all that its library is made of."""
        files = [(file, read(f"{self.folder}/{file}")) for file in self.files()]
        return sum_of(files, self.listed, [it.made_of for it in self.uses], toolchain())

    @property
    def marker(self):
        """The file that says what the library in out/ was made of when it was proved."""
        return f"{self.folder}/out/proved_of"

    @property
    def is_proved(self):
        """Whether the library in out/ was proved, and is of these files."""
        return os.path.isdir(self.library) and os.path.isfile(self.marker) and read(self.marker) == self.made_of

    @property
    def is_ready(self):
        """Whether its wrong bodies can be tried over the libraries that are there."""
        return all(it.is_proved for it in [*self.below, self])

    @cached_property
    def stated(self):
        """A sum of what other crates see of it."""
        seen = [(file, text) for file, text in self.files().items() if not file.startswith("proofs/")]
        return sum_of([(file, statements(file, text)) for file, text in seen])


def crates_of(root):
    """The repository's crates by name, as crates.txt lists them, lowest first."""
    crates = {}
    for line in read(f"{root}/crates.txt").split("\n"):
        head, _, uses = line.partition("#")[0].partition(":")
        if head.split():
            name = head.split()[0]
            crates[name] = Crate(root, name, uses.split(), [crates[it] for it in uses.split() if it in crates])
    return crates


def mark(crates):
    """Notes of each crate's library in out/ that it was proved of the files as they stand."""
    for crate in crates:
        if os.path.isdir(crate.library):
            with open(crate.marker, "w", encoding="utf-8") as file:
                file.write(crate.made_of)
