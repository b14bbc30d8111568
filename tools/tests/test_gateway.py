"""The gateway's own tests, and requests through it to `bucketd serve`: the cases of tools/test-gateway."""
import os
import re
import subprocess

import pytest

from conftest import need
from host import TOP, is_fast, is_quick

CASE = re.compile(r"(.*): as expected")
LEFT_OUT = re.compile(r"(no \S+ is here|\S+ \S+ isn't here): (.*)")
LAST = re.compile(r"(\d+) passed, (\d+) failed")


def cases_of(expect, least, *words):
    need("go")
    with subprocess.Popen([os.path.join(TOP, "tools/test-gateway"), *words], stdout=subprocess.PIPE, stderr=subprocess.STDOUT, text=True) as it:
        passed, last, failed = 0, None, []
        for line in map(str.rstrip, it.stdout):
            if found := CASE.fullmatch(line):
                passed += expect(found[1], True)
            elif found := LAST.fullmatch(line):
                last = found
            elif found := LEFT_OUT.fullmatch(line):
                expect.skip(found[1], found[2])
            elif line.startswith("  "):
                expect.note(line.strip())
            else:
                failed.append(line)
    is_well = it.returncode == 0 and last and int(last[1]) == passed >= least and not int(last[2])
    expect(f"all {passed} cases", is_well, "\n".join(failed[-20:]) or f"status {it.returncode}, {passed} cases")


@pytest.mark.cost(250)
def test_go(expect, request):
    """Tests in Go need no bucketd; beside a program without a proof, which takes long enough, they fuzz for seconds."""
    program = request.config.option.program[0]
    cases_of(expect, 4, "--go", *([] if is_quick(program) else ["--slow"]), program)


@pytest.mark.cost(300)
def test_requests(expect, program):
    """Many clients at once are the gateway's matter: they are asked for before a fast program."""
    cases_of(expect, 150, "--requests", *([] if is_fast(program) else ["--slow"]), program)
