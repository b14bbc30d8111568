"""The stored examples of the program 'examples' without a proof: each of its tables and scripts. With a proof, the gate runs all
of them."""
import os
import subprocess

import pytest

from host import CRATES, TOP, read

# Words of 'examples', and those, with what their lines have, whose hundreds of hosts take a program without a proof too long: the
# first two take some minutes, and are run where all is asked.
WORDS = ["tables", "any-digest", "connections", "stops", "reopened", "breaks", "ample", "help", "retried"]
LEFT_OUT = {"any-digest": b" by any digest", "reopened": b" opened again after each event: ", "stops": b" stopped at each call: ", "breaks": b" broken at each byte: "}
LEAST = 15


def data_of(crate):
    """Words that have `rt try` put each file below the crate's data/ where `rt ci` puts it."""
    folder = os.path.join(CRATES, crate, "data")
    for at, _, names in sorted(os.walk(folder)):
        for name in sorted(names):
            file = os.path.join(at, name)
            yield from ("--data", f"{os.path.relpath(file, folder)}={file}")


def quick_words(left_out):
    """The words with which 'examples' is run where it has no proof."""
    is_quick = True
    for word in read(CRATES, "examples/args").decode().split():
        is_quick = word not in left_out if word in WORDS else is_quick
        if is_quick:
            yield word


def is_proved():
    """Whether the gate's program of these sources is there."""
    made, note = subprocess.run([os.path.join(TOP, "tools/made-of")], capture_output=True, check=True).stdout, os.path.join(CRATES, "examples/out/made_of")
    return os.path.exists(os.path.join(CRATES, "examples/out/examples")) and os.path.exists(note) and read(note) == made


@pytest.mark.cost(600)
def test_examples(expect, every):
    if is_proved():
        pytest.skip("the gate has run them")
    left_out = dict([*LEFT_OUT.items()][2:] if every else LEFT_OUT)
    words = ["rt", "try", *data_of("examples"), "--seconds", "3600", "--", *quick_words(left_out)]
    done = subprocess.run(words, cwd=os.path.join(CRATES, "examples"), input=read(CRATES, "examples/stdin"), capture_output=True)
    lines, wrote = read(CRATES, "examples/stdout").splitlines(True), done.stdout.splitlines()
    wanted = b"".join(line for line in lines if not any(text in line for text in left_out.values()))
    cases = [line for line in wanted.splitlines() if line.endswith((b" as expected", b" by any digest"))]
    expect.skip(", ".join(left_out), "a program without a proof takes too long (make gate runs them)")
    for line in cases:
        expect(line.decode(), line in wrote, "it isn't")
    others = [line.decode(errors="replace") for line in wrote if line not in wanted.splitlines()][:20]
    is_well = (done.returncode, done.stdout) == (0, wanted) and len(cases) >= LEAST
    expect(f"all {len(cases)}", is_well, "\n".join([*others, done.stderr.decode(errors="replace")[-2000:]]))
