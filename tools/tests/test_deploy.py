"""Whether deploy/ goes with bucketd: the page for man and the completions are what its help says, the units are sound and their
words are words of its, and `make install` puts all of it where it belongs and takes it away."""
import os
import re
import shutil
import subprocess

from host import TOP

DEPLOY = os.path.join(TOP, "deploy")
UNITS = ("bucketd.service",)
INSTALLED = {"bin/bucketd": 0o755, "bin/bucketd-salvage": 0o755, **{name: 0o644 for name in (
    "share/bucketd/host_pages.py", "share/man/man1/bucketd.1", "share/bash-completion/completions/bucketd", "lib/sysusers.d/bucketd.conf", "share/doc/bucketd/nginx.conf", "share/doc/bucketd/shards.conf",
    *(f"lib/systemd/system/{unit}" for unit in UNITS))}}


def run(words, **more):
    return subprocess.run(words, capture_output=True, text=True, **more)


def read(*names):
    path = os.path.join(*names)
    return open(path, encoding="utf-8").read() if os.path.isfile(path) else None


def test_pages(expect, program, folder):
    made = run([os.path.join(TOP, "tools/manual"), "--into", folder, program])
    for name in ("bucketd.1", "bucketd.bash"):
        same = made.returncode == 0 and read(folder, name) == read(DEPLOY, name)
        expect(f"deploy/{name} is of this program's help", same, made.stderr or "it is of another: 'make manual' makes it")
    page = os.path.join(DEPLOY, "bucketd.1")
    for tool, words in (("man", ["man", "--warnings=w", "-l", page]), ("groff", ["groff", "-ww", "-man", "-Tutf8", page]),
                        ("mandoc", ["mandoc", "-W", "warning,stop", "-Tutf8", page])):
        if not shutil.which(tool):
            expect.skip(f"the page by {tool}", f"{tool} isn't there")
        else:
            done = run(words, env={**os.environ, "LC_ALL": "C.UTF-8", "MANWIDTH": "100"})
            expect(f"the page by {tool}", done.returncode == 0 and not done.stderr and "bucketd serve" in done.stdout, done.stderr)


COMPLETE = """source "$1"
shift
COMP_WORDS=("$@")
COMP_CWORD=$(($# - 1))
_bucketd
printf '%s\\n' "${COMPREPLY[@]}"
"""


def test_completions(expect, folder):
    """What bash is told after some words, the last of which has only begun."""
    for name in ("green.host", "green host"):
        open(os.path.join(folder, name), "w").close()
    for words, wanted in (
        (["r"], ["report"]), (["s"], ["script", "serve", "stop", "sweep"]), (["serve", "--po"], ["--port"]), (["sweep", "--limit", ""], []),
        (["init", "--max-body", "9", "--m"], ["--min-part"]), (["sweep", "--limit", "7", "--li"], []), (["report", "--file", "gr"], ["green host", "green.host"]),
        (["report", "--file", "=", "green."], ["green.host"]), (["report", "--file", "="], ["green host", "green.host"]), (["sweep", "--limit", "="], []),
        (["help", "key-"], ["key-add", "key-remove"]), (["help", "init", ""], []), (["stop", "--f"], []),
        (["tenant-"], ["tenant-add", "tenant-remove"]), (["tenant-remove", "--tenant", "green", "--w"], ["--with-objects"]),
    ):
        done = run(["bash", "-c", COMPLETE, "bash", os.path.join(DEPLOY, "bucketd.bash"), "bucketd", *words], cwd=folder)
        found = [line for line in done.stdout.splitlines() if line]
        expect(f"completed: bucketd {' '.join(words)}", sorted(found) == wanted and not done.stderr, f"{found} {done.stderr}")


def test_words_of_units(expect, program):
    """Each unit's words, by the help of the subcommand: its options are there, and none that it demands is missing."""
    lines = [(unit, words) for unit in UNITS for words in re.findall(r"^Exec(?:Start|Stop)=/usr/local/bin/bucketd (.*)$", read(DEPLOY, unit), re.M)]
    expect("they start it and tell it to stop", [words.split()[0] for _, words in lines] == ["serve", "stop"] * len(UNITS), lines)
    for unit, words in lines:
        name, *rest = words.split()
        help = run([program, "help", name]).stdout
        given = {word for word in rest if word.startswith("--")}
        usage, options = re.search(r"^Usage: (.*)$", help, re.M)[1], set(re.findall(r"^ .*?(--[\w-]+)", help, re.M))
        demanded = set(re.findall(r"(?<!\[)(--[\w-]+)", usage))
        expect(f"the words of {unit}: {name}", given <= options and demanded <= given, f"unknown {given - options}, missing {demanded - given}")


def install(program, prefix, *more, destdir=""):
    words = ["make", "-s", "-C", TOP, *more, f"PREFIX={prefix}", f"DESTDIR={destdir}", f"PROGRAM={program}"]
    return run(words, env={name: value for name, value in os.environ.items() if name not in ("MAKEFLAGS", "MAKELEVEL", "MFLAGS")})


def files_below(folder):
    return {os.path.relpath(os.path.join(at, name), folder): os.stat(os.path.join(at, name)).st_mode & 0o777 for at, _, names in os.walk(folder) for name in names}


def test_install(expect, program, folder):
    place, staged, given = os.path.join(folder, "here"), os.path.join(folder, "staged"), os.path.join(folder, "a program")
    os.symlink(program, given)
    done = install(given, place, "install")
    expect("make install", files_below(place) == INSTALLED, f"{files_below(place)} {done.stderr}")
    expect("the program that was installed", open(os.path.join(place, "bin/bucketd"), "rb").read() == open(program, "rb").read())
    expect("its page and completions", all(read(place, name) == read(DEPLOY, source) for name, source in (
        ("share/man/man1/bucketd.1", "bucketd.1"), ("share/bash-completion/completions/bucketd", "bucketd.bash"))))
    done = install(program, "/usr", "install", destdir=staged)
    text = read(staged, "usr/lib/systemd/system/bucketd.service") or ""
    expect("below DESTDIR", files_below(os.path.join(staged, "usr")) == INSTALLED and "\nExecStart=/usr/bin/bucketd serve " in text and staged not in text, done.stderr)
    verified(expect, place)
    for name, at, words in (("make uninstall", place, (place, "uninstall")), ("make uninstall below DESTDIR", staged, ("/usr", "uninstall"))):
        done = install(program, *words, destdir="" if at == place else staged)
        expect(name, not files_below(at) and done.returncode == 0, f"{files_below(at)} {done.stderr}")
    done = install(os.path.join(folder, "none"), place, "install")
    expect("make install without a program", done.returncode != 0 and not files_below(place), files_below(place))


def verified(expect, place):
    """What systemd says of the units, whose program is there."""
    units = [os.path.join(place, "lib/systemd/system", unit) for unit in UNITS]
    if not shutil.which("systemd-analyze"):
        expect.skip("the units", "systemd-analyze isn't there")
    else:
        done = run(["systemd-analyze", "verify", "--man=no", *units])
        expect("the units, by systemd-analyze", done.returncode == 0 and not done.stderr, done.stderr)
    if not shutil.which("systemd-sysusers"):
        expect.skip("the user", "systemd-sysusers isn't there")
    else:
        root = os.path.join(place, "root")
        os.makedirs(os.path.join(root, "etc"))
        done = run(["systemd-sysusers", f"--root={root}", os.path.join(place, "lib/sysusers.d/bucketd.conf")])
        expect("the user, by systemd-sysusers", ":/var/lib/bucketd:" in (read(root, "etc/passwd") or ""), done.stderr)
        shutil.rmtree(root)
