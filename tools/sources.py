"""Reads Rattle sources by their layout, which `rt fmt` gives and the gate judges: functions with the lines of their
bodies, the statements that other crates see, and what is left without tests and comments. What fits no rule is kept."""
import os
import re
from dataclasses import dataclass

FUNCTION = re.compile(r'( *)(pub(?:\([^)]*\))? )?(?:const |unsafe |extern "[^"]*" )*fn (\w+)')
CLAUSE = re.compile(r" *(?:requires|ensures|ghost)\b")
IMPL = re.compile(r"( *)(?:unsafe )?(?:impl\b(?:<.*?>)? (?:(?P<trait>\w[\w:]*)(?P<of><.*>)? for )?|trait )(?P<type>\w[\w:]*)")
TEST_MODULE = re.compile(r"(?:pub )?mod (\w+)(;| \{)$")


@dataclass(frozen=True)
class Function:
    """A function with a body. Its lines are counted from 0; the body's first and last line hold its braces."""

    name: str
    owner: str  # the type or trait whose method it is, or ""
    trait: str  # the trait that its type implements by it, with the trait's own types, as `FromRefusal`, or ""
    is_private: bool  # a free function that only its crate can name
    first: int
    body: int
    last: int


def functions(lines):
    """The functions of a file that have a body of their own lines."""
    found, owner, trait = [], "", ""
    for at, line in enumerate(lines):
        if impl := IMPL.match(head_of(lines, at)):
            owner = impl["type"].rpartition(":")[2]
            of = re.sub(r"(?<=\w)<[^<>]*>", "", (impl["of"] or "")[1:-1])  # of `Folder<PackFile<S>>` the name is FolderPackFile
            trait = "".join(re.findall(r"(?<!')\b\w+\b(?!::)", f"{impl['trait'] or ''} {of}"))
        elif line == "}":
            owner = trait = ""
        head = FUNCTION.match(line)
        body = head and body_of(lines, at, head[1])
        if body:
            is_private = not owner and not head[1] and not head[2]
            found.append(Function(head[3], owner, trait, is_private, at, *body))
    return found


def head_of(lines, at):
    """A line, and the next one where the head of an `impl` goes on with its type."""
    more = lines[at + 1].strip() if at + 1 < len(lines) else ""
    return f"{lines[at]} {more}" if more.startswith("for ") else lines[at]


def body_of(lines, first, indent):
    """The first and last line of the body of the function that begins at a line: its brace stands alone after
    clauses, and else ends the signature. Within the braces of a clause a line may end as anything."""
    has_clauses, depth = False, 0
    for at in range(first, len(lines)):
        line = lines[at]
        has_clauses = has_clauses or bool(CLAUSE.match(line))
        if line == indent + "{" or (not has_clauses and line.endswith("{")):
            ends = (end for end in range(at + 1, len(lines)) if lines[end] == indent + "}")
            last = next(ends, None)
            return None if last is None else (at, last)
        depth += line.count("{") - line.count("}") if has_clauses else 0
        if depth == 0 and (line.endswith(";") or (not has_clauses and line.endswith("}")) or (at > first and FUNCTION.match(line))):
            return None
    return None


def test_modules(file, lines):
    """The lines of a file that hold its modules of tests, and the paths of those that stand in files of their own."""
    held, paths = set(), []
    folder = os.path.dirname(file) if os.path.basename(file) in ("lib.rt", "main.rt") else file.removesuffix(".rt")
    for at, line in enumerate(lines[:-1]):
        module = TEST_MODULE.match(lines[at + 1].strip())
        if line.strip() != "#[cfg(test)]" or not module:
            continue
        if module[2] == ";":
            held |= {at, at + 1}
            paths += [f"{folder}/{module[1]}.rt", f"{folder}/{module[1]}/"]
        else:
            indent = line[: line.index("#")]
            ends = (end for end in range(at, len(lines)) if lines[end] == indent + "}")
            held |= {*range(at, next(ends, at - 1) + 1)}
    return held, paths


def is_code(line):
    """Whether a line says anything: neither blank nor a comment alone."""
    return bool(line.strip()) and not line.lstrip().startswith("//")


def code(file, text):
    """A source without its modules of tests, comments and blank lines; any other file whole."""
    lines = text.split("\n")
    if not file.endswith(".rt"):
        return lines
    tests, _ = test_modules(file, lines)
    return [line for at, line in enumerate(lines) if at not in tests and is_code(line)]


def statements(file, text):
    """What other crates see of a source: its code without the bodies of functions, and without private functions."""
    lines = code(file, text)
    if not file.endswith(".rt"):
        return lines
    hidden = set()
    for it in functions(lines):
        hidden |= {*range(it.first if it.is_private else it.body + 1, it.last + 1)}
    return [line for at, line in enumerate(lines) if at not in hidden and not line.lstrip().startswith("#[tactic(")]
