"""What the statement of a function rests on: each declaration that it names, and what those name in turn, of its crate and of
those below. Names are followed through imports; what a name may mean is all taken, and a name of no file here (of the kit, a
local one) means nothing. Of a function other crates see its signature and contract, of a type its declaration and what it does for
traits, and its methods where their names are used."""
import os
import re
from dataclasses import dataclass, field
from functools import lru_cache

from sources import code, functions

NAME = r"[^\W\d][\w'◌-]*"
WORDS = re.compile(rf"{NAME}(?:(?:\.|::){NAME})*|\.{NAME}")
DECLARED = re.compile(r"(?:(?:pub|abbrev|record|data|unfoldable|infix[lr]?) )+(?:\d+ )?([^\s:]+)|([^\s({]+) : ")
INSIDE = re.compile(r" +(?:pub )?(\S+) :")
ITEM = re.compile(
    r"(?:pub(?:\([^)]*\))? )?(?:const |unsafe |extern \"[^\"]*\" )*(?:(?:struct|enum|trait|type|union|fn|static|const) )(?:mut )?(\w+)"
    r"|(?:const|static) (\w+)"
)
IMPL = re.compile(r"(?:unsafe )?impl\b(?:<.*?>)? (?:(?P<trait>\w[\w:]*)(?:<.*?>)? for )?&?(?:'\w+ )?(?P<type>\w[\w:]*)")
# An import of Rust ends at a semicolon; one of a spec at its brace, its alias or its path.
USE = re.compile(r"(?m)^ *(?:pub(?:\([^)]*\))? )?(?:ghost )?use ([^;]+);\n?")
SPEC_USE = re.compile(r"(?m)^ *(?:unfoldable )?(?:pub )?use ([^\s{]+(?:\{[^}]*\})?(?: as \S+)?)\n?")


@dataclass
class Module:
    """A file's declarations by name, and what its imports call what: a path of words."""

    texts: dict = field(default_factory=dict)
    names: dict = field(default_factory=dict)
    impls: dict = field(default_factory=dict)
    methods: dict = field(default_factory=dict)
    imports: dict = field(default_factory=dict)

    def add(self, name, text, others=()):
        self.texts.setdefault(name, []).append(text)
        for it in (name, *others):
            self.names.setdefault(it, []).append(name)

    def take_imports(self, pattern, text):
        """A text without its imports, which are noted."""
        for it in pattern.findall(text):
            for words, name in uses_of(" ".join(it.split())):
                self.imports.setdefault(name, []).append(tuple(words))
        return pattern.sub("", text)

    @property
    def operators(self):
        """The operators that its texts may use, by a notation that isn't their name."""
        return [it for it in {*self.names, *self.imports} if it.startswith("◌") or it.endswith("◌")]


def uses_of(rest, path=()):
    """The paths that an import names, each as its words, and the name that each has here."""
    head, brace, inner = rest.partition("{")
    if not brace:
        name, _, alias = rest.partition(" as ")
        words = [*path, *[it for it in re.split(r"::|\.", name.strip()) if it]]
        words = words[:-1] if words[-1] == "self" else words
        return [(words, alias.strip() or words[-1])]
    depth, parts = 0, [""]
    for char in inner[: inner.rindex("}")]:
        depth += {"{": 1, "}": -1}.get(char, 0)
        parts += [""] if char == "," and not depth else []
        parts[-1] += "" if char == "," and not depth else char
    above = [*path, *[it for it in re.split(r"::|\.", head) if it.strip()]]
    return [found for it in parts if it.strip() for found in uses_of(it.strip(), above)]


def spec_module(text):
    """A file of specs/. What stands in a module with parameters is read as what stands in the file, with that module's head."""
    module = Module()
    above, name, group, inside = [], None, [], []
    for line in [*module.take_imports(SPEC_USE, text).split("\n"), "end : "]:
        if not line.strip() or line.lstrip().startswith("-- "):
            continue
        indent = len(line) - len(line.lstrip())
        above = [it for it in above if it[0] < indent]
        line = line[2 * len(above) :]
        begins = DECLARED.match(line)
        if begins or line.startswith("module "):
            if name:
                module.add(name, "\n".join([*heads, *group]), inside)
            name, group, inside, heads = begins and (begins[1] or begins[2]), [], [], [it[1] for it in above]
        if line.startswith("module "):
            above = [*above, (indent, line)]
            continue
        group.append(line)
        inside += [INSIDE.match(line)[1]] if INSIDE.match(line) else []
    return module


def source_module(file, text):
    """A file of src/, without bodies of functions."""
    module = Module()
    lines = module.take_imports(USE, "\n".join(code(file, text))).split("\n")
    held = functions(lines)
    inside = {at for it in held for at in range(it.first, it.last + 1)}
    for it in held:
        stated = "\n".join(lines[it.first : it.body + 1])
        if it.owner:
            kept = module.impls if it.trait else module.methods
            kept.setdefault(it.owner, {}).setdefault(it.name, []).append(stated)
        else:
            module.add(it.name, stated)
    groups, attributes = [], []
    for line in (line for at, line in enumerate(lines) if at not in inside):
        begins = IMPL.match(line) or ITEM.match(line)
        if line.startswith("#["):
            attributes.append(line)
        elif begins:
            groups.append((begins, [*attributes, line]))
            attributes = []
        elif groups:
            groups[-1][1].append(line)
    for begins, group in groups:
        if begins.re is IMPL:
            module.impls.setdefault(begins["type"].rpartition(":")[2], {}).setdefault("", []).append("\n".join(group))
        else:
            module.add(begins[1] or begins[2], "\n".join(group))
    return module


class Sources:
    """The declarations of a crate and of those below it."""

    def __init__(self, crate):
        self.modules, self.known = {}, {}
        for it in [*crate.below, crate]:
            self.modules |= modules_of(it)
        self.typed = {}
        for key, it in self.modules.items():
            for name in {*it.impls, *it.methods}:
                self.typed.setdefault(name, []).append((key, it))

    def source_at(self, words):
        """The module of src/ that a path begins with, and the words after it."""
        for length in range(len(words), 0, -1):
            for end in ("", "::mod", "::lib", "::main"):
                if (key := "::".join(words[:length]) + end) in self.modules:
                    return key, words[length:]
        return None, words

    def spec_at(self, words):
        for length in range(len(words), 0, -1):
            if (key := ".".join(words[:length])) in self.modules:
                return key, words[length:]
        return None, words

    def of_path(self, here, words):
        """What a path means: a module and the words after it that name something in it."""
        words = [*words]
        if words[0] == "Rattle":
            crate, kind, *rest = [*words[1:], "", ""]
            if kind == "specs" and rest and rest[0] == "declared":
                return self.source_at([crate, *[it for it in rest[1:] if it and it != "TheVariants"]])
            return self.spec_at([it for it in words if it])
        if here is None or "." in here:
            return None, words
        above = here.split("::")
        above = above[:-1] if above[-1] in ("mod", "lib", "main") else above
        if words[0] == "crate":
            return self.source_at([above[0], *words[1:]])
        if words[0] in ("self", "super"):
            return self.source_at([*(above if words[0] == "self" else above[:-1]), *words[1:]])
        for start in (above, []):
            key, rest = self.source_at([*start, *words])
            if key and len(rest) < len(words):
                return key, rest
        return None, words

    def found(self, key, words, seen=()):
        """The declarations that words mean in a module: their keys, with a method's name where one follows its type."""
        if not key or not words or (key, words[0]) in seen:
            return []
        module, seen = self.modules[key], (*seen, (key, words[0]))
        found = [(key, it) for it in module.names.get(words[0], ())]
        if words[0] in module.impls or words[0] in module.methods:
            found.append((key, words[0]))
        for path in module.imports.get(words[0], ()):
            found += self.found(*self.of_path(key, [*path, *words[1:]]), seen)
        if not found and "." not in key:
            other, rest = self.of_path(key, words)
            found += self.found(other, rest, seen) if other != key else []
        return found

    def named(self, key, text):
        """The declarations that a text of a module names, and what may be methods that it calls."""
        if (key, text) not in self.known:
            found, calls = {}, set()
            for word in {*WORDS.findall(text), *self.modules[key].operators}:
                words = [word] if "◌" in word else [it for it in re.split(r"\.|::", word) if it]
                calls |= {*words[0 if word.startswith(".") else 1 :]}
                found |= {} if word.startswith(".") else {it: 0 for it in self.found(key, words)}
            self.known[key, text] = found, calls
        return self.known[key, text]

    def texts(self, decl, calls):
        """The texts of a declaration: its own, and of a type what it does for traits, and its methods of these names."""
        key, name = decl
        module = self.modules[key]
        found = [(key, name, it) for it in module.texts.get(name, ())]
        for other, it in self.typed.get(name, ()):
            found += [(other, name, text) for texts in it.impls.get(name, {}).values() for text in texts]
            found += [(other, f"{name}::{call}", text) for call, texts in it.methods.get(name, {}).items() if call in calls for text in texts]
        return found

    def rests(self, key, text):
        """All that a text of a module rests on, as texts by where they stand."""
        calls, decls, told, work = set(), {}, {}, [(key, text)]
        while work:
            for where, it in work:
                found, more = self.named(where, it)
                calls |= more
                decls |= found
            found = {it: 0 for decl in decls for it in self.texts(decl, calls)}
            work = [(at, it) for at, name, it in found if (at, name, it) not in told]
            told |= found
        return sorted(told)


@lru_cache(maxsize=None)
def read_module(path, kind, size, time):
    with open(path, encoding="utf-8") as file:
        text = file.read()
    return spec_module(text) if kind == "specs" else source_module(path, text)


@lru_cache(maxsize=None)
def modules_of(crate):
    """The modules of a crate, by their paths in Rust or in specs."""
    found = {}
    for file in crate.files():
        part, _, path = file.rpartition(".")[0].partition("/")
        if part == "proofs":
            continue
        at = f"{crate.folder}/{file}"
        stat = os.stat(at)
        dot = "." if part == "specs" else "::"
        head = f"Rattle.{crate.name}.specs" if part == "specs" else crate.name
        found[f"{head}{dot}{path.replace('/', dot)}"] = read_module(at, part, stat.st_size, stat.st_mtime_ns)
    return found
