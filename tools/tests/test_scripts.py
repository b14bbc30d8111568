"""`bucketd script` on stored scripts: what a host in memory answers, with blocks of several sizes, with and without blocks that stay in
memory, and by both functions that name blocks. No answer tells which of these there are."""
import os
import subprocess

import pytest

from host import CRATES, SCRIPTS, is_quick, read

NAMES = sorted(name[:-3] for name in os.listdir(SCRIPTS) if name.endswith(".in"))
# How many blocks stay in memory.
CACHES = [0, 1, 8]
# Each stored script is answered with its answers by a host of the default limits and blocks, but for these:
# those whose reports and sweeps count blocks of 4 bytes;
FOUR_BYTES = """blocks-counted two-tenants-share-blocks last-reference-goes copy-refers-again sweeps-between-requests""".split()
# those of parts below S3's least size, whose hosts' parts have 4 bytes at least, but for the last;
SMALL_PARTS = "complete-upload replaced-part enabled-before-completion upload-refused complete-and-used".split()
# one over connections that are cut, of the program 'examples', and those of a tenant with no number left, of test_files.py.
ELSEWHERE = ["cut-off", "counter-exhausted", "counter-exhausted-first"]
# These are answered alike by hosts whose blocks have few bytes.
SMALL_BLOCKS = """blocks shared-blocks last-reference blocks-and-ranges body-lengths half-equal-bodies copy copy-onto-itself
copy-of-markers ranges versions suspended put-again delete-twice head-object list-objects list-versions first-path
marker-of-nothing empty-object-is-no-block short-body-stores-nothing sweep-limit-0""".split()
LEAST_STORED = 100


def answered(expect, name, program, words, given, wanted):
    """One run; its status is 1 where it ends at a line that tells no event."""
    done = subprocess.run([program, *words], input=given, capture_output=True)
    status = 1 if wanted.splitlines()[-1:] and wanted.splitlines()[-1].startswith(b"bad line ") else 0
    others = [line.decode(errors="replace") for line in done.stdout.splitlines() if line not in wanted.splitlines()][:20]
    expect(name, (done.returncode, done.stdout) == (status, wanted), "\n".join([f"status {done.returncode}", *others, done.stderr.decode(errors="replace")[-500:]]))


def options_of(script):
    """The options with which a stored script is answered as stored, one set after another."""
    if script in SMALL_PARTS:
        return [["--min-part", "4", "--block-size", str(size)] for size in (1, 4, 65536)]
    if script in FOUR_BYTES:
        return [["--block-size", "4"]]
    return [[], *(["--block-size", str(size)] for size in ([1, 3, 4, 16] if script in SMALL_BLOCKS else []))]


def test_stored_scripts_are_there():
    """A folder that lost its scripts is no success."""
    named = {*FOUR_BYTES, *SMALL_PARTS, *ELSEWHERE, *SMALL_BLOCKS}
    assert named <= set(NAMES) and len(NAMES) >= LEAST_STORED
    assert [name for name in NAMES if not read(SCRIPTS, f"{name}.in")] == []


def test_stored_run(program):
    words = read(CRATES, "bucketd/args").decode().split()
    done = subprocess.run([program, *words], input=read(CRATES, "bucketd/stdin"), capture_output=True)
    assert (done.returncode, done.stdout) == (0, read(CRATES, "bucketd/stdout"))


@pytest.mark.parametrize("name", [it for it in NAMES if it not in ELSEWHERE])
def test_stored(expect, program, every, name):
    given, wanted = read(SCRIPTS, f"{name}.in"), read(SCRIPTS, f"{name}.out")
    kinds = [*(["--cache-blocks", str(kept)] for kept in CACHES), ["--digest", "fast"]]
    for at, options in enumerate(options_of(name), NAMES.index(name)):
        # A program without a proof is asked once for each set, in another of these ways each time.
        for more in kinds if is_quick(program) or every else [kinds[at % len(kinds)]]:
            answered(expect, " ".join(options + more), program, ["script", *options, *more], given, wanted)
