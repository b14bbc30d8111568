"""Checks of edited functions in a copy of a crate, over the libraries below it in out/."""
import os
import re
import shutil
import signal
import subprocess
import time
from functools import cached_property

from .crates import PARTS, kit_folder, read
from .verdicts import Said

# What a check may take, in seconds.
PATIENCE = 3600
NO_FUNCTION = re.compile(r"has no function `([^`]*)`")


def words_over(crate):
    """The words by which rattle reads a crate, over the libraries below it in out/."""
    kit = kit_folder()
    words = ["--crate-name", crate.name, crate.root_file]
    for name in ["std", *[it for it in crate.listed if os.path.isdir(f"{kit}/rlibs/{it}.rlib")]]:
        words += ["--extern", f"{name}={kit}/rlibs/{name}.rlib"]
    words += ["-L", f"dependency={kit}/rlibs"]
    for it in crate.uses:
        words += ["--extern", f"{it.name}={it.library}"]
    for it in crate.below:
        words += ["-L", f"dependency={os.path.dirname(it.library)}"]
    words += ["--antt-project", f"{kit}/rattle/logic/antt-project.json", "--logic-built", f"{kit}/logic_built"]
    return [*words, "--links", f"{crate.name}="]


class OutOfTime(Exception):
    """A check was ended at the time until which it might run, or killed."""


class Room:
    """A copy of a crate alone, over the libraries below it in out/. Only the functions that edits change are checked, with what
    they call; that the crate is proved without an edit is known of the library in its own out/."""

    def __init__(self, crate, folder, until=float("inf")):
        self.crate, self.folder, self.until = crate, folder, until
        for part in PARTS:
            if os.path.isdir(f"{crate.folder}/{part}"):
                shutil.copytree(f"{crate.folder}/{part}", f"{self.folder}/{part}")
        # What checks of the crate kept, if any did: else the first check looks at every lemma anew.
        if os.path.isdir(f"{crate.folder}/out/incremental"):
            shutil.copytree(f"{crate.folder}/out/incremental", f"{self.folder}/incremental")

    @cached_property
    def words(self):
        """The words of a check of the crate, but for the functions."""
        return [f"{kit_folder()}/bin/rattle", "check", *words_over(self.crate), "--jobs", "1", "--incremental", f"{self.folder}/incremental"]

    def check(self, texts, places):
        """Checks functions, or the crate where None is among the places, with these texts in place of its own."""
        own = {path: read(f"{self.folder}/{path}") for path in texts}
        self.write(texts)
        only = [] if None in places else [it.path for it in places]
        try:
            sources = {it for it in texts if it.startswith("src/")}
            said = self.run(only, sources)
            while unknown := [it for it in NO_FUNCTION.findall(said.text) if it in only]:
                # A name that an impl for some types of its own makes: all of its module.
                modules = {it.path: it.module for it in places}
                only = [modules[it] if it in unknown else it for it in only]
                said = self.run(only, sources)
            return said
        finally:
            self.write(own)

    def types(self, texts):
        """What the front end says of the crate with these texts: names, types and loans, and no proof."""
        own = {path: read(f"{self.folder}/{path}") for path in texts}
        self.write(texts)
        try:
            return self.run([""], {it for it in texts if it.startswith("src/")})
        finally:
            self.write(own)

    def run(self, only, changed):
        words = [*self.words, *[word for it in only for word in ("--only", it)]]
        how = {"stdin": subprocess.DEVNULL, "stdout": subprocess.PIPE, "stderr": subprocess.STDOUT, "errors": "replace"}
        left = self.until - time.monotonic()
        try:
            ran = subprocess.run(words, cwd=self.folder, timeout=max(0, min(PATIENCE, left)), **how)
        except subprocess.TimeoutExpired:
            if left < PATIENCE:
                raise OutOfTime from None
            return Said(2, "it took too long", changed)
        if ran.returncode == -signal.SIGKILL:
            # The system kills the greatest process if memory runs out. That says nothing of any wrong body.
            print(f"{self.crate.name}: its check was killed, most likely for memory", flush=True)
            raise OutOfTime
        if ran.returncode < 0:
            raise SystemExit(f"{self.crate.name}: its check was stopped by signal {-ran.returncode}")
        return Said(ran.returncode, ran.stdout, changed)

    def write(self, texts):
        for path, text in texts.items():
            with open(f"{self.folder}/{path}", "w", encoding="utf-8") as file:
                file.write(text)
