"""The rows of words.txt: words of the command line, and what the program does; and sizes with their units."""
import os
import re
import socket
import sqlite3
import subprocess

import pytest

from host import PATIENCE, command, is_quick, listens, make_host, read

HERE = os.path.dirname(os.path.abspath(__file__))
LEAST = 130
UNITS = {"": 1, "B": 1, "kB": 10**3, "KB": 10**3, "MB": 10**6, "GB": 10**9, "TB": 10**12, "KiB": 2**10, "MiB": 2**20, "GiB": 2**30, "TiB": 2**40}
# What `clap` is given as it is, and refuses.
NO_SIZES = ["10gb", "10 GB", "1.5GB", "GB", "20000000TB", "-1GB", "+1GB", "10kiB", "10BB", "10GB ", "1_0GB", "\u0661GB", "10\u00e9B", ""]


def rows():
    """Each row's words and what is wanted, and whether it stands in the first block: each subcommand with what it needs."""
    blocks, found = 0, []
    for line in read(HERE, "words.txt").decode().split("\n"):
        if line.startswith("#") or not line.strip():
            blocks += not line
            continue
        row, _, wanted = line.partition(" => ")
        found.append((row, wanted, blocks == 0))
    return found


def takes_seconds(row, wanted):
    """Whether it opens a file with a host."""
    return not (wanted in ("fault", "help") or wanted.startswith("2 ") or row.split(" ")[1].startswith("-") or row.split(" ")[1] == "script")


def limits_of(folder, file):
    it = sqlite3.connect(os.path.join(folder, file))
    min_part, max_body = it.execute("SELECT min_part, max_body FROM host").fetchone()
    it.close()
    return f" min-part {min_part} max-body {max_body}"


def value_of(words, option):
    """What was given for an option, after a space or after =."""
    for n, word in enumerate(words):
        if word == option:
            return words[n + 1]
        if word.startswith(option + "="):
            return word.removeprefix(option + "=")
    return None


def takes(path):
    """Whether a server listens on a Unix socket."""
    with socket.socket(socket.AF_UNIX) as it:
        return it.connect_ex(path) == 0


def served(program, folder, words):
    """Whether a server says where it listens, or ends as one whose port is taken or not allowed."""
    server = subprocess.Popen([program, *words], stdout=subprocess.PIPE, stderr=subprocess.PIPE, text=True, cwd=folder)
    line = server.stderr.readline()
    said = re.fullmatch(r"listening on 127\.0\.0\.1:(\d+)\n", line)
    path = value_of(words, "--socket")
    if path:
        is_well = line == f"listening on {path}\n" and takes(os.path.join(folder, path))
    elif said:
        is_well = listens(int(said[1])) and value_of(words, "--port") in ("0", said[1])
    else:
        is_well = server.wait(PATIENCE) == 1 and server.stdout.read() == "fault\n"
    server.kill()
    server.communicate()
    return "serves" if is_well else f"status {server.returncode}"


def done(program, folder, name, words):
    """What a row of words does."""
    given = "" if words[:1] == ["script"] else "greensecret\n"
    it = subprocess.run([name, *words], executable=program, input=given, capture_output=True, text=True, cwd=folder, timeout=PATIENCE)
    first = (it.stdout.splitlines() or [""])[0]
    if first == "host":
        file = next(word for n, word in enumerate(words) if words[n - 1] == "--file" or word.startswith("--file="))
        first += limits_of(folder, file.removeprefix("--file="))
    kind = "fault" if first.startswith("error: ") else "help" if "\nUsage: bucketd" in it.stdout else None
    return [f"{it.returncode} {first}".strip(), *([kind] if kind and it.returncode == 2 else [])]


@pytest.mark.cost(100)
def test_words(expect, program, folder, every):
    all_rows = rows()
    left_out = 0
    for row, wanted, is_first in all_rows:
        if not (is_first or every or is_quick(program)) and takes_seconds(row, wanted):
            left_out += 1
            continue
        name, *given = row.split(" ")
        told = [served(program, folder, given)] if wanted == "serves" else done(program, folder, name, given)
        expect(row, wanted in told, told)
    expect("all rows are read", len(all_rows) >= LEAST, len(all_rows))
    if left_out:
        expect.skip(f"{left_out} rows that open a file", "a program without a proof takes too long (make test ALL=1)")


@pytest.mark.cost(10)
@pytest.mark.parametrize("unit", [it if it in ("GB", "GiB") else pytest.param(it, marks=pytest.mark.proved) for it in UNITS])
def test_sizes(expect, program, folder, unit):
    file = os.path.join(folder, "h")
    make_host(program, file, ["green"])
    for digits, words in (("7", ["--quota", f"7{unit}"]), ("0012", [f"--quota=0012{unit}"])):
        size = int(digits) * UNITS[unit]
        told = command(program, file, "quota", "--tenant", "green", *words)
        expect(f"{words}: told", told == (f"quota green {size}", 0), told)
        told = command(program, file, "usage", "--tenant", "green")
        expect(f"{words}: kept", told == (f"usage green bytes 0 quota {size}", 0), told)


@pytest.mark.parametrize("size", NO_SIZES)
def test_no_sizes(expect, program, folder, size):
    for words in (["--quota", size], [f"--quota={size}"]):
        it = subprocess.run([program, "quota", "--file", "h", "--tenant", "green", *words], capture_output=True, text=True, cwd=folder, timeout=PATIENCE)
        expect(words, it.returncode == 2 and it.stdout.startswith("error: "), f"{it.returncode} {it.stdout}")
