"""The wrong bodies that documents cite, and those that the list of famous ones names."""
import os
import re
import subprocess

from .crates import read

# What a document writes in back quotes as the name of one: whole words, so that no other name of the sources has its shape.
CITED = re.compile(r"`(?:\S*/)?([a-z]\w*_\w*_\w+)(?:\.edit)?`")
FILES = re.compile(r"(?<![\w/])((?:crates/\w+/must-fail|wrong-bodies/\w+)/\w+\.edit)")


def tracked(root, *patterns):
    words = ["git", "ls-files", "--cached", "--others", "--exclude-standard", *patterns]
    files = subprocess.run(words, cwd=root, capture_output=True, text=True, check=True).stdout.split("\n")
    return [it for it in files if it and os.path.isfile(f"{root}/{it}")]


def words_of_sources(root):
    """Every word of the sources, and the names of their files: what a document may mean by a name."""
    found = set()
    for file in tracked(root):
        if file.startswith("wrong-bodies/") or file.endswith((".md", ".edit")):
            continue
        found.add(os.path.basename(file).partition(".")[0])
        try:
            found |= {*re.findall(r"\w+", read(f"{root}/{file}"))}
        except UnicodeDecodeError:
            continue
    return found


def not_standing(root, names):
    """The citations of wrong bodies that don't stand, as lines to be printed."""
    known, found = {it.rpartition("/")[2] for it in names} | words_of_sources(root), []
    for file in tracked(root, "*.md"):
        for number, line in enumerate(read(f"{root}/{file}").split("\n"), 1):
            lost = [it for it in CITED.findall(line) if it not in known]
            lost += [it for it in FILES.findall(line) if not os.path.isfile(f"{root}/{it}")]
            found += [f"{file}:{number}: `{it}` is no wrong body that stands, and no name of the sources" for it in lost]
    return found


def famous_in(path):
    """The list of the famous ones: the names of each mistake's wrong bodies, by what the mistake is."""
    lines = [it for it in read(path).split("\n") if it.strip() and not it.startswith("#")]
    rows = [it.rpartition(":") for it in lines]
    return {mistake.strip(): names.split() for mistake, _, names in rows}
