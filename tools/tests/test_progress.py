"""Long work shows on standard error how far it is: each opening, `backup`, `check`, `export` and `import`. Elsewhere than on a terminal
a line follows after each 10 seconds; a terminal has one line, which is rewritten and cleared at the end. Short work shows nothing, and
standard output has the same bytes as ever. Work on few bytes takes long by a clock whose readings are far apart
(tools/preload/late_clock.c)."""
import os
import pty
import re
import subprocess

import pytest

import host
from host import PATIENCE, Server, command, copied, make_host, names, read, run

# What a tenant has, in blocks of which no two have equal bytes: so many bytes, of which the clock is asked at each 1 MiB.
BYTES = 6 << 20
SIZE = r"(\d+ B|\d(\.\d)? [kMG]B|\d{2,3} [kMG]B|\d{4,} GB)"
LEFT = r"\d+ (s|min) left"
OPEN, COPY, CHECK, IMPORT = (rf"{work}: (\d+) % of {SIZE}, {SIZE}/s, {LEFT}" for work in ("open", "copy", "check", "import"))
EXPORT = rf"export: {SIZE}, {SIZE}/s"
# Milliseconds from one reading of the clock to the next: each makes a line due, by a pause of 10 seconds, and of 200 ms on a terminal.
LATE, EARLY = "10000", "200"


@pytest.fixture(scope="session")
def first(program):
    """A host with some megabytes."""
    file = make_host(program, os.path.join(host.quick_folder("progress-"), "a"), ["green"])
    with Server(program, file, "--force", BUCKETD_PACKS="no") as server:  # (an opening of packs is over before a line is due)
        told = [server.ask("green", "PUT", "/plans").status, server.ask("green", "PUT", "/plans/a", os.urandom(BYTES)).status]
    assert told == [200, 200], told
    command(program, file, "usage", "--tenant", "green", "--force")
    yield file
    host.shutil.rmtree(os.path.dirname(file))


@pytest.fixture
def file(first, folder):
    """A copy of it, as `a` in a folder of its own."""
    return copied(first, folder)


def works(program, folder):
    """Each work by its name: its words, what it prints, and the lines of works that it shows."""
    yield "check", ["check", "--file", "a"], "sound", [OPEN, CHECK]
    yield "backup", ["backup", "--file", "a", "--to", "b"], "backup", [OPEN, COPY]
    yield "export", ["export", "--file", "a", "--tenant", "green", "--to", "c"], "export", [OPEN, EXPORT, COPY]
    make_host(program, os.path.join(folder, "d"), [])
    yield "import", ["import", "--file", "d", "--from", "c", "--force"], "tenant green", [OPEN, IMPORT]
    yield "usage", ["usage", "--file", "a", "--tenant", "green", "--force"], f"usage green bytes {BYTES} quota {1 << 40}", [OPEN]


def progress_in(text):
    """The lines of standard error that aren't remarks on a file."""
    return [it for it in text.splitlines() if not re.match(r"bucketd: [abcd]: ", it)]


@pytest.mark.cost(60)
@pytest.mark.proved
def test_lines(expect, program, folder, file, library):
    """Lines in a file or a pipe."""
    late = {"LD_PRELOAD": library("late_clock"), "CLOCK_STEP": LATE}
    for name, words, text, shown in works(program, folder):
        printed, status, said = run(program, folder, *words, **late)
        lines = progress_in(said)
        expect(f"{name} prints what it prints", (printed, status) == (text, 0), (printed, status, said))
        expect(f"{name}: each line is one of a work", all(any(re.fullmatch(f"bucketd: {it}", line) for it in shown) for line in lines), said)
        for work in shown:
            expect(f"{name} shows {work.partition(':')[0]}", any(re.fullmatch(f"bucketd: {work}", line) for line in lines), said)
        expect(f"{name} writes no control character", said.isprintable() or not set(said) & {"\r", "\x1b"}, repr(said))


@pytest.mark.cost(30)
@pytest.mark.proved
def test_short_work(expect, program, folder, file):
    """By the machine's clock this work is short, and shows nothing."""
    for name, words, text, _ in works(program, folder):
        printed, status, said = run(program, folder, *words)
        expect(f"{name} prints what it prints", (printed, status) == (text, 0), (printed, status, said))
        expect(f"{name} shows nothing", progress_in(said) == [], said)


def on_terminal(program, folder, words, **env):
    """What a command writes on standard output, its status, and what a terminal gets of its standard error."""
    ours, theirs = pty.openpty()
    said = b""
    with subprocess.Popen([program, *words], cwd=folder, stdout=subprocess.PIPE, stderr=theirs, env=os.environ | env) as process:
        os.close(theirs)
        try:
            while piece := os.read(ours, 1 << 16):
                said += piece
        except OSError:
            pass  # (the last process that had it is gone)
        printed = process.stdout.read()
        status = process.wait(PATIENCE)
    os.close(ours)
    return printed.decode().removesuffix("\n"), status, said.decode()


def screen_of(said):
    """The lines that stand on a terminal in the end, and the states in which a line stood on the way, each as it was written."""
    lines, states = [""], []
    for it in re.split(r"(\r\n|\r|\x1b\[K)", said):
        if it == "\r\n":
            lines.append("")
        elif it == "\r":
            states.append(lines[-1])
            lines[-1] = ""
        elif it != "\x1b[K":
            lines[-1] += it
    return lines, states


@pytest.mark.cost(60)
@pytest.mark.proved
def test_terminal(expect, program, folder, file, library):
    """On a terminal a line stands, and is gone in the end."""
    early = {"LD_PRELOAD": library("late_clock"), "CLOCK_STEP": EARLY}
    for name, words, text, shown in works(program, folder):
        printed, status, said = on_terminal(program, folder, words, **early)
        lines, states = screen_of(said)
        expect(f"{name} prints what it prints", (printed, status) == (text, 0), (printed, status, said))
        expect(f"{name}: no line of a work stays", progress_in("\n".join(it for it in lines if it)) == [], lines)
        for work in shown:
            expect(f"{name}: a line of {work.partition(':')[0]} stood", any(re.fullmatch(f"bucketd: {work}", it) for it in states), repr(said))


@pytest.mark.cost(20)
@pytest.mark.proved
def test_serving(expect, program, file, library):
    """A server shows how far its opening is, until it listens."""
    with Server(program, file, "--force", LD_PRELOAD=library("late_clock"), CLOCK_STEP=LATE) as server:
        said = server.end()[2].decode()
    shown = [n for n, it in enumerate(said.splitlines()) if re.fullmatch(f"bucketd: {OPEN}", it)]
    listens = [n for n, it in enumerate(said.splitlines()) if it.startswith("listening on ")]
    expect("its opening, before it listens", shown and listens and max(shown) < min(listens), said)


def test_files_stay(expect, program, folder, file):
    """What shows progress writes to no file."""
    before = read(file)
    expect("a check", command(program, file, "check")[1] == 0, names(folder))
    expect("leaves the file", read(file) == before, names(folder))
