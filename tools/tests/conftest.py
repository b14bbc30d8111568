"""How these tests run: their options and fixtures, a line for each case with its seconds, and the last line.

A test takes `expect` to report its cases one by one: each is a line and is counted, and none stops those after it. A test
that takes it and reports no case has failed. A test without it is one case.
"""
import functools
import locale
import os
import shutil
import sys
import tempfile
import time
from collections import Counter

import pytest
from _pytest.reports import TestReport

sys.path.insert(0, os.path.dirname(os.path.dirname(os.path.abspath(__file__))))
import host  # noqa: E402

if locale.getpreferredencoding(False).lower() != "utf-8":
    # Texts are UTF-8, whatever the locale.
    os.environ["PYTHONUTF8"] = "1"
    os.execv(sys.executable, [sys.executable, "-m", "pytest", *sys.argv[1:]])

KINDS = {"passed": "ok", "failed": "FAILED", "skipped": "skipped"}
CASES = pytest.StashKey()


def pytest_addoption(parser):
    parser.addoption("--program", action="append", default=[], metavar="PATH", help="a bucketd; more than one are tried in turn (tools/bucketd tells one)")
    parser.addoption("--full", action="store_true", help="each test at its full size: minutes, some of them hours")
    parser.addoption("--all", action="store_true", help="all cases, also of a program without a proof, which opens a file in seconds")


@pytest.hookimpl(trylast=True)
def pytest_configure(config):
    config.addinivalue_line("markers", "proved: a program that opens a file in seconds isn't asked this but with --all")
    config.addinivalue_line("markers", "cost(seconds): about what it takes a program without a proof; the longest begin first")
    if not hasattr(config, "workerinput"):
        # Where no test needs a bucketd, it is named `-`.
        config.option.program = [host.program_of([it]) for it in config.option.program if it != "-"] or config.option.program or [host.program_of([])]
        for program in config.option.program:
            program == "-" or host.is_quick(program)
        os.environ["BASES_OF_HOSTS"] = host.quick_folder("bases-")
        config.pluginmanager.register(Lines(config.pluginmanager.getplugin("terminalreporter")), "lines")


# ---- what is reported


class Lines:
    """Prints a line for each case as it ends, and counts them."""

    def __init__(self, terminal):
        self.terminal, self.subjects = terminal, {}

    def pytest_collectreport(self, report):
        if report.failed:
            self.tell("failed", report.nodeid, 0, str(report.longrepr))

    def pytest_runtest_logreport(self, report):
        case = getattr(report, "case", None)
        if case is None and (report.passed and (report.when != "call" or getattr(report, "cases", 0))):
            return
        name = name_of(report.nodeid) + (f": {case}" if case else "" if report.when == "call" or report.skipped else f": {report.when}")
        why = report.longrepr[2] if isinstance(report.longrepr, tuple) else str(report.longrepr or "")
        self.tell(report.outcome, name, report.duration, why.removeprefix("Skipped: "), getattr(report, "notes", []))

    def tell(self, outcome, name, seconds, why, notes=()):
        self.subjects.setdefault(name.partition(":")[0], Counter()).update({outcome: 1, "seconds": seconds})
        self.terminal.write_line(f"{KINDS[outcome]:7} {seconds:7.1f} s  {name}" + (f": {why}" if outcome == "skipped" else ""))
        for it in [*notes, *([why] if outcome == "failed" else [])]:
            self.terminal.write_line("    " + it[:4000].replace("\n", "\n    "))

    def pytest_unconfigure(self):
        shutil.rmtree(os.environ.pop("BASES_OF_HOSTS"), ignore_errors=True)
        for subject, it in sorted(self.subjects.items()):
            self.terminal.write_line(f"{subject}: {numbers_of(it)}, {it['seconds']:.0f} s")
        self.terminal.write_line(numbers_of(sum(self.subjects.values(), Counter())))


def pytest_report_teststatus(report):
    """No letter for a test: its lines are printed here."""
    return (report.outcome if getattr(report, "case", None) or not getattr(report, "cases", 0) else ""), "", ""


def numbers_of(counts):
    return f"{counts['passed']} passed, {counts['failed']} failed, {counts['skipped']} skipped"


def name_of(nodeid):
    """The subject, the test and its parameters."""
    file, _, test = nodeid.partition("@")[0].partition("::")
    return f"{os.path.basename(file).removeprefix('test_').removesuffix('.py')}: {test.removeprefix('test_').replace('_', ' ', test.partition('[')[0].count('_'))}"


class Cases:
    """Reports a test's cases."""

    def __init__(self, item):
        self.item, self.begun, self.count, self.notes = item, time.monotonic(), 0, []

    def __call__(self, name, is_well, found=""):
        self.report(name, "passed" if is_well else "failed", "" if is_well else str(found))
        return bool(is_well)

    def skip(self, name, why):
        """A case that can't be run here."""
        self.report(name, "skipped", why)

    def note(self, text):
        """A line below the next case's."""
        self.notes.append(str(text))

    def report(self, name, outcome, why):
        now, notes = time.monotonic(), self.notes
        self.notes, self.count = [], self.count + 1
        it = TestReport(self.item.nodeid, self.item.location, {}, outcome, why, "call", duration=now - self.begun, case=name, notes=notes)
        self.begun = now
        self.item.ihook.pytest_runtest_logreport(report=it)


@pytest.hookimpl(hookwrapper=True)
def pytest_runtest_makereport(item, call):
    report = (yield).get_result()
    cases = item.stash.get(CASES, None)
    if call.when == "call" and cases is not None:
        report.cases, report.notes = cases.count, cases.notes
        if report.passed and not cases.count:
            report.outcome, report.longrepr = "failed", "it ran no case"


# ---- what is run


def pytest_generate_tests(metafunc):
    if "program" in metafunc.fixturenames:
        programs = metafunc.config.option.program
        ids = [os.path.basename(it) for it in programs]
        metafunc.parametrize("program", programs, ids=ids if len(set(ids)) == len(ids) else programs, scope="session")


def pytest_collection_modifyitems(config, items):
    """Those that take long begin first."""
    items.sort(key=lambda it: -next((mark.args[0] for mark in it.iter_markers("cost")), 0))


def asks_all(config):
    """Whether a program without a proof is asked all cases."""
    return config.option.all or config.option.full


def pytest_runtest_setup(item):
    program = getattr(item, "callspec", None) and item.callspec.params.get("program")
    if item.get_closest_marker("proved") and program and not asks_all(item.config) and not host.is_quick(program):
        pytest.skip("a program without a proof takes too long (make test ALL=1)")


@pytest.fixture
def expect(request):
    request.node.stash[CASES] = it = Cases(request.node)
    return it


@pytest.fixture(scope="session")
def full(request):
    """Whether tests are to have their full size."""
    return request.config.option.full


@pytest.fixture(scope="session")
def every(request):
    return asks_all(request.config)


def amount(name, usual):
    """How many there are to be: as many as the environment says, by a variable of that name, or else as many as usual."""
    return int(os.environ.get(name) or usual)


@pytest.fixture
def folder():
    """A new folder, in memory where there is such a file system."""
    it = host.quick_folder()
    yield it
    shutil.rmtree(it)


@pytest.fixture
def disk_folder():
    """A new folder on a disk."""
    it = tempfile.mkdtemp(prefix="bucketd-tests-")
    yield it
    shutil.rmtree(it)


@pytest.fixture(scope="session")
def library(tmp_path_factory):
    """A function that builds a library of tools/preload."""
    need("gcc")
    place = tmp_path_factory.mktemp("preload")
    return functools.cache(lambda name: host.built(place, name))


def need(*tools):
    """Skips a test where the machine lacks a program."""
    for it in tools:
        if not shutil.which(it):
            pytest.skip(f"{it} isn't there")
