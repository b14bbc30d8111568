"""The commands of README's first minute and of docs/API.md, typed one after another: each gives what the page has below it.

A command is a line of a block ```sh, and what it gives stands in the lines after it that begin with '# '. Of curl: the status
and the document, and a line for each field but those of FRAME, which are compared where they stand. Of another command: what
it prints, and its status: 1 for a refusal by its number or a `fault`, and else 0. Any time of day equals any other. The commands run
in one shell, in a new folder that has LICENSE and tools/bucketd, on a free port in place of 8080.
"""
import os
import re
import subprocess

import pytest

from conftest import need
from host import TOP, free_port

PAGES = [("README.md", "## The first minute"), ("docs/API.md", "")]
LEAST = 100
FRAME = {"content-type", "content-length", "connection", "accept-ranges"}
END = "--- the command has ended, status "
LONGEST = 1800


class Typed:
    """A command of a page, and the lines that say what it gives."""

    def __init__(self, page, number, command):
        self.name = f"{page}:{number} {command if len(command) < 100 else command[:97] + '...'}"
        self.command = command
        self.gives = []

    def is_curl(self):
        return self.command.startswith("curl ") or " | curl " in self.command


def commands(page, heading):
    """The commands of a page's shell blocks, from its heading on up to the next of the same rank."""
    inside, chosen, found = False, not heading, []
    with open(os.path.join(TOP, page), encoding="utf-8") as lines:
        for number, line in enumerate((line.rstrip("\n") for line in lines), 1):
            if line.startswith("```"):
                inside = chosen and line == "```sh"
            elif heading and not inside and line.startswith("## "):
                chosen = line == heading
            elif inside and line.startswith("# "):
                found[-1].gives.append(line[2:])
            elif inside and line:
                found.append(Typed(page, number, line))
    return found


def untimed(text):
    return re.sub(r"\d{4}-\d\d-\d\dT\d\d:\d\d:\d\dZ", "TIME", text)


def response(text):
    """What the page would have of a response: the status with the document, and the fields."""
    head, _, body = text.partition("\n\n")
    first, *fields = head.split("\n")
    return [" ".join([*first.split(" ")[1:2], *filter(None, [body])]), *fields]


def status_of(typed):
    """The status with which a command ends that gives these lines; None where it waits for a server that was killed."""
    if "; wait " in typed.command:
        return None
    last = (typed.gives or [""])[-1]
    return 1 if not typed.is_curl() and (last == "fault" or last == "bad line" or re.fullmatch(r"\d\d? \w+", last)) else 0


def is_given(typed, printed, status):
    if status_of(typed) not in (None, status):
        return False
    if not typed.is_curl():
        return untimed("\n".join(typed.gives)) == untimed(printed.rstrip("\n"))
    first, *fields = response(printed)
    told = [field for field in fields if field in typed.gives or field.split(":")[0] not in FRAME]
    return untimed("\n".join([first, *told])) == untimed("\n".join(typed.gives))


def typed_all(program, folder, lines):
    """What each command prints, and its status, typed one after another; and what all say on standard error."""
    port = str(free_port())
    text = "".join(f"{it.command.replace('8080', port)}\nstatus=$?; echo; echo '{END}'$status\n" for it in lines)
    os.mkdir(os.path.join(folder, "tools"))
    os.symlink(program, os.path.join(folder, "tools/bucketd"))
    os.symlink(os.path.join(TOP, "LICENSE"), os.path.join(folder, "LICENSE"))
    done = subprocess.run(["timeout", str(LONGEST), "bash", "-c", text], cwd=folder, capture_output=True)
    out = done.stdout.decode(errors="replace").replace("\r\n", "\n")
    found = re.split(re.escape("\n" + END) + r"(\d+)\n", out)
    return list(zip(found[::2], map(int, found[1::2]))), done.stderr.decode(errors="replace")


@pytest.mark.cost(100)
def test_commands_of_pages(expect, program, folder):
    need("curl", "bash")
    lines = [it for page, heading in PAGES for it in commands(page, heading)]
    printed, said = typed_all(program, folder, lines)
    printed += [("(not typed)", -1)] * (len(lines) - len(printed))
    for it, (text, status) in zip(lines, printed):
        expect(it.name, is_given(it, text, status), f"status {status}: {text!r}")
    expect("all commands are typed", len(lines) >= LEAST and sum(it.is_curl() for it in lines) > LEAST // 2, said[-2000:])
