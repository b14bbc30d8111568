"""Debian's packages of `make deb`: what is in them, and a fresh Debian in which they are installed, upgraded, removed and purged.

That Debian is a folder with processes and a network of its own: 200 MB, which mmdebstrap makes in one to three minutes, so it is
made with --full alone. systemd lies in it and doesn't run: the words, variables and users of its units are read and started here.
"""
import errno
import functools
import glob
import os
import re
import shutil
import subprocess
import time

import pytest

from conftest import need
from host import PATIENCE, TOP, listens

pytestmark = pytest.mark.xdist_group("packages")  # (packages are made once)
BUILDS = "/usr/lib/bucketd/x86-64-v{}/bucketd"
OLD, NEW, LAST = "0.1.0~1", "0.1.0~2", "0.1.0~3"
UNITS = ["bucketd.service", "bucketd-gateway.service", "bucketd-port.service"]
SYSTEM = "usr/lib/systemd/system"
FILES = {
    "bucketd": ["etc/bucketd/bucketd.conf", "usr/lib/bucketd/choose-build", "usr/lib/bucketd/x86-64-v2/bucketd", "usr/lib/bucketd/x86-64-v3/bucketd",
                *(f"{SYSTEM}/{it}" for it in (*UNITS[:1], "bucketd.service.d/10-package.conf")), "usr/lib/sysusers.d/bucketd.conf",
                "usr/bin/bucketd-salvage", "usr/share/bucketd/host_pages.py", "usr/share/bash-completion/completions/bucketd", "usr/share/man/man1/bucketd.1.gz",
                *(f"usr/share/doc/bucketd/{it}" for it in ("API.md", "OPERATING.md", "README.md", "SECURITY.md", "changelog.gz", "copyright", "nginx.conf", "shards.conf"))],
    "bucketd-gateway": ["etc/bucketd/bucketd.nft", "etc/bucketd/gateway.conf", "usr/bin/bucketd-gateway", "usr/share/man/man1/bucketd-gateway.1.gz",
                        *(f"{SYSTEM}/{it}" for it in (*UNITS[1:], *(f"{it}.d/10-package.conf" for it in UNITS[1:]))), "usr/lib/sysusers.d/bucketd-gateway.conf",
                        *(f"usr/share/doc/bucketd-gateway/{it}" for it in ("CLIENTS.md", "GATEWAY.md", "changelog.gz", "copyright", "fail2ban-gateway.conf", "gateway-alerts.yml", "gateway-board.json"))],
}
PROGRAMS = ("choose-build", "/bucketd", "bin/bucketd-gateway", "bin/bucketd-salvage")
# What /proc/cpuinfo tells of a processor of x86-64-v2, and what x86-64-v3 asks for beside that.
V2 = "fpu sse sse2 cx16 lahf_lm popcnt pni sse4_1 sse4_2 ssse3 xsave".split()
V3 = "abm avx avx2 bmi1 bmi2 f16c fma movbe xsave".split()
PORTS = {"bucketd": (8080, 8081), "bucketd-gateway": (9000,)}
# Changed by any installation: what dpkg, apt and the tools for users note, and caches.
NOTES = ("var/lib/dpkg/", "var/lib/apt/", "var/cache/", "var/log/", "var/lib/systemd/deb-systemd-helper", "etc/ld.so.cache", "etc/.pwd.lock", "run/", "tmp/", "proc/", "dev/", "root/")
ACCOUNTS = {f"etc/{name}{end}" for name in ("passwd", "group", "shadow", "gshadow") for end in ("", "-")}
OBJECT = bytes(range(256)) * 400


def run(words, **more):
    return subprocess.run(words, stdout=subprocess.PIPE, stderr=subprocess.STDOUT, text=True, **more)


def make_deb(into, **words):
    env = {name: value for name, value in os.environ.items() if name not in ("MAKEFLAGS", "MAKELEVEL", "MFLAGS")}
    # Packed as usual they are smaller, which takes a minute of a processor.
    env |= {"DPKG_DEB_COMPRESSOR_TYPE": "none"}
    return run(["make", "-s", "-C", TOP, "deb", f"INTO={into}", *(f"{name}={value}" for name, value in words.items())], env=env)


@pytest.fixture(scope="module")
def programs(request):
    """The first program, and the last one as if it were built for x86-64-v3."""
    given = request.config.option.program
    return {"PROGRAM": given[0], "PROGRAM_V3": given[-1]}


@pytest.fixture(scope="module")
def door(tmp_path_factory):
    """A gateway."""
    need("go")
    path = tmp_path_factory.mktemp("gateway") / "gateway"
    assert run([os.path.join(TOP, "gateway/build"), path]).returncode == 0
    return path


@pytest.fixture(scope="module")
def packages(tmp_path_factory, programs, door):
    """The paths of both packages, as make prints them, by version: the last one has one build of the program."""
    need("dpkg-deb")
    into = tmp_path_factory.mktemp("deb")

    @functools.cache
    def made(version, name=""):
        place = into / (name or version)
        given = {"PROGRAM": programs["PROGRAM"]} if version == LAST else programs
        done = make_deb(place, GATEWAY=door, VERSION=version, **given)
        assert done.returncode == 0, done.stdout
        paths = done.stdout.splitlines()
        assert sorted(paths) == sorted(glob.glob(f"{place}/*"))
        return paths

    return made


# ---- what is in them


def content(package, folder):
    """Where a package's files lie, and its control files: unpacked below a folder."""
    files, control = os.path.join(folder, "files"), os.path.join(folder, "control")
    os.mkdir(folder)
    assert run(["dpkg-deb", "-x", package, files]).returncode == 0 and run(["dpkg-deb", "-e", package, control]).returncode == 0
    return files, control


def files_below(place):
    return sorted(os.path.relpath(os.path.join(at, name), place) for at, _, names in os.walk(place) for name in names)


def text(*names):
    with open(os.path.join(*map(str, names)), encoding="utf-8") as it:
        return it.read()


def test_files(expect, packages, programs, folder):
    again = packages(OLD, "again")
    for name, package, second in zip(FILES, packages(OLD), again):
        place = os.path.join(folder, name)
        files, control = content(package, place)
        expect(f"the files of {name}", files_below(files) == sorted(FILES[name]), set(files_below(files)) ^ set(FILES[name]))
        modes = {it: os.stat(f"{files}/{it}").st_mode & 0o777 for it in files_below(files)}
        expect("their modes", all(mode == (0o755 if it.endswith(PROGRAMS) and "share" not in it else 0o644) for it, mode in modes.items()), modes)
        listed = run(["dpkg-deb", "-c", package]).stdout.splitlines()
        expect("they are root's", listed and all(" root/root " in it for it in listed), listed)
        expect("what an administrator changes is a conffile", text(control, "conffiles").split() == [f"/{it}" for it in FILES[name] if it.startswith("etc/")], text(control, "conffiles"))
        fields = dict(re.findall(r"^(\S+): (.*)$", text(control, "control"), re.M))
        expect("its name, version and machine", [fields[it] for it in ("Package", "Version", "Architecture")] == [name, OLD, "amd64"], fields)
        expect("its licence", "/usr/share/common-licenses/Apache-2.0" in text(files, "usr/share/doc", name, "copyright") and "Apache License" in text(TOP, "LICENSE"))
        for script in ("postinst", "prerm", "postrm"):
            expect(f"its {script} is read by sh", run(["sh", "-n", f"{control}/{script}"]).returncode == 0 and "#UNITS#" not in text(control, script))
        expect("it is made again, byte by byte", open(package, "rb").read() == open(second, "rb").read())
    pages(expect, folder)
    for build, given in zip((2, 3), programs.values()):
        path = os.path.join(folder, "bucketd/files" + BUILDS.format(build))
        expect(f"the build for x86-64-v{build}", open(path, "rb").read() == open(given, "rb").read())


def pages(expect, folder):
    """Both pages for man."""
    for name in FILES:
        page = os.path.join(folder, name, f"files/usr/share/man/man1/{name}.1.gz")
        if not shutil.which("man"):
            expect.skip(f"the page of {name}", "man isn't there")
            continue
        done = subprocess.run(["man", "--warnings=w", "-l", page], capture_output=True, text=True, env=os.environ | {"LC_ALL": "C.UTF-8", "MANWIDTH": "100"})
        expect(f"the page of {name}", done.returncode == 0 and not done.stderr and "--log" in done.stdout and f"{name} - " in done.stdout, done.stderr or done.stdout[:500])


def test_refusals(expect, programs, door, folder):
    program = programs["PROGRAM"]
    for name, words, why in (
        ("a program that isn't there", {"PROGRAM": "/none"}, "/none isn't there"),
        ("a program that isn't bucketd", {"PROGRAM": "/bin/true"}, "--version of /bin/true says"),
        ("a second build that isn't there", {"PROGRAM": program, "PROGRAM_V3": "/none"}, "/none isn't there"),
        ("a second build of another program", {"PROGRAM": program, "PROGRAM_V3": "/bin/echo"}, f"--version of {program} and /bin/echo says"),
        ("a gateway that isn't there", {"PROGRAM": program, "GATEWAY": "/none"}, "/none isn't there"),
        ("a gateway that is none", {"PROGRAM": program, "GATEWAY": "/bin/echo"}, "/bin/echo --help says"),
        ("a version that is none", {"PROGRAM": program, "GATEWAY": door, "VERSION": "new"}, "a version begins with a digit"),
    ):
        into = os.path.join(folder, "into")
        done = make_deb(into, **words)
        lines = [it for it in done.stdout.splitlines() if not it.startswith("make: ")]
        expect(name, done.returncode != 0 and len(lines) == 1 and lines[0].startswith(f"deb: {why}") and not os.path.exists(into), done.stdout)


# ---- a fresh Debian


class Debian:
    """A Debian in a folder, with processes and a network of its own, which end with it. `first`: the number of the first of them, or
    why there is none."""

    def __init__(self, place):
        self.place, self.begun, self.folder = place, {}, "/"
        words = ["setpriv", "--pdeathsig", "KILL", "unshare", "--mount", "--pid", "--net", "--ipc", "--fork", "--kill-child", "sh", "-c",
                 'ip link set lo up && read -r pid rest </proc/self/stat && mount -t proc proc "$0/proc" && echo "$pid" && exec sleep infinity', place]
        self.holder = subprocess.Popen(words, stdout=subprocess.PIPE, stderr=subprocess.STDOUT, text=True)
        self.first = self.holder.stdout.readline().strip()

    def words(self, words, env=None, inside=True):
        """Words that run in it, or with its network alone."""
        if not inside:
            return ["nsenter", f"--target={self.first}", "--net", "--", *words]
        given = {"PATH": "/usr/sbin:/usr/bin:/sbin:/bin", "HOME": "/root", "LC_ALL": "C.UTF-8", "DEBIAN_FRONTEND": "noninteractive", **(env or {})}
        sets = [f"{name}={value}" for name, value in given.items()]
        return ["nsenter", f"--target={self.first}", "--mount", "--pid", "--net", "--ipc", "--", "chroot", self.place, "env", "-i", *sets, *words]

    def run(self, *words, given=None):
        return run(self.words(words), input=given, timeout=PATIENCE)

    def begin(self, *words, env):
        """The number, in there, of a process that goes on."""
        it = subprocess.Popen(self.words(["sh", "-c", 'echo $$ && exec "$@"', "sh", *words], env), stdout=subprocess.PIPE, stderr=subprocess.PIPE, text=True)
        self.begun[int(it.stdout.readline())] = it
        return max(self.begun)

    def end_all(self):
        """Ends what was begun, the last one first, as systemd does."""
        for pid in sorted(self.begun, reverse=True):
            self.run("sh", "-c", f"kill {pid}")
            self.begun.pop(pid).communicate(timeout=PATIENCE)

    def ended(self):
        """What those said that ended by themselves."""
        return [it.communicate()[1][-2000:] for it in self.begun.values() if it.poll() is not None]

    def path(self, name):
        return os.path.join(self.place, name.lstrip("/"))

    def listens(self, port):
        """Waits until something listens on a port of 127.0.0.1."""
        end = time.monotonic() + PATIENCE
        while not listens(port, f"/proc/{self.first}/net/tcp"):
            if time.monotonic() > end or any(it.poll() is not None for it in self.begun.values()):
                return False
            time.sleep(0.05)
        return True

    def state(self, name):
        """Mode, user and group of a file, as `700 bucketd bucketd`."""
        return self.run("stat", "-c", "%a %U %G", name).stdout.strip()

    def paths(self):
        """All that lies in it but what any installation notes."""
        found = set()
        for at, folders, names in os.walk(self.place):
            for name in [*folders, *names]:
                path = os.path.relpath(os.path.join(at, name), self.place)
                if not f"{path}/".startswith(NOTES):
                    found.add(path)
        return found

    def unit(self, name):
        """The settings of a unit and its drop-ins, each a list: an empty one takes back those before (systemd.unit(5))."""
        found = {}
        for path in [self.path(f"{SYSTEM}/{name}"), *sorted(glob.glob(self.path(f"{SYSTEM}/{name}.d/*.conf")))]:
            for line in text(path).splitlines():
                key, is_setting, value = line.partition("=")
                if is_setting and not line.startswith("#"):
                    found[key] = [*found.get(key, []), value] if value else []
        return found

    def start(self, name):
        """Does what systemd does with a service: its variables, what it runs before as root, its folders, its user, its words."""
        unit = self.unit(name)
        settings = [it for it in unit.get("Environment", [])]
        for file in unit.get("EnvironmentFile", []):
            settings += [line for line in text(self.path(file)).splitlines() if "=" in line and not line.startswith("#")]
        env = dict(it.split("=", 1) for it in settings)
        for words in unit.get("ExecStartPre", []):
            assert words.startswith("+") and self.run(*words[1:].split()).returncode == 0
        (user,), (line,) = unit["User"], unit["ExecStart"]
        for folder in [*(f"/var/lib/{it}" for it in unit.get("StateDirectory", [])), *(f"/var/cache/{it}" for it in unit.get("CacheDirectory", []))]:
            self.run("install", "-d", "-o", user, "-g", user, "-m", "700", folder)
        words = [word for it in line.split() for word in (env[it[1:]].split() if it.startswith("$") else [it])]
        return self.begin("setpriv", f"--reuid={user}", f"--regid={user}", "--init-groups", "--no-new-privs", *words, env=env)

    def end(self):
        self.holder.kill()
        self.holder.wait()
        for it in self.begun.values():
            it.communicate()


@pytest.fixture
def debian(full, tmp_path_factory, expect):
    if not full:
        pytest.skip("it makes a Debian of 200 MB in minutes (make test NAME=packages)")
    need("mmdebstrap", "unshare", "nsenter", "ip")
    if os.geteuid() != 0:
        pytest.skip("the user isn't root")
    release = re.search(r"^VERSION_CODENAME=(\w+)", text("/etc/os-release"), re.M)
    place, begun = str(tmp_path_factory.mktemp("debian") / "root"), time.monotonic()
    done = run(["mmdebstrap", "--variant=apt", "--include=systemd,nftables", release[1] if release else "stable", place, "http://deb.debian.org/debian"])
    if done.returncode:
        shutil.rmtree(place, ignore_errors=True)
        pytest.skip(f"mmdebstrap made no Debian: {done.stdout.splitlines()[-1:]}")
    size = sum(os.lstat(os.path.join(at, name)).st_blocks * 512 for at, _, names in os.walk(place) for name in names)
    expect.note(f"a fresh Debian of {size >> 20} MiB in {time.monotonic() - begun:.0f} s")
    it = Debian(place)
    try:
        if not it.first.isdigit():
            pytest.skip(f"this machine gives no processes and network of their own: {it.first}")
        yield it
    finally:
        it.end()
        shutil.rmtree(place)


def cpuinfo(debian, *processors):
    """The path of a text like that of /proc/cpuinfo."""
    with open(debian.path("/root/cpuinfo"), "w") as it:
        it.write("".join(f"processor\t: {i}\nflags\t\t: {' '.join(flags)}\n\n" for i, flags in enumerate(processors)))
    return "/root/cpuinfo"


def installs(expect, debian, name, packages, version):
    for it in packages:
        shutil.copy(it, debian.path("/root"))
    done = debian.run("apt-get", "install", "-y", "--no-install-recommends", *(f"/root/{os.path.basename(it)}" for it in packages))
    told = debian.run("dpkg-query", "-W", "-f", "${Status} ${Version}\n", "bucketd", "bucketd-gateway").stdout
    expect(name, done.returncode == 0 and told == f"install ok installed {version}\n" * 2, done.stdout[-3000:] + told)
    return done


def installed(expect, debian, programs):
    expect("each file is as it was packed", debian.run("dpkg", "--verify", "bucketd", "bucketd-gateway").stdout == "")
    users = [it.split(":") for it in debian.run("getent", "passwd", "bucketd", "bucketd-gateway").stdout.splitlines()]
    expect("two users of their own", [(it[0], it[5], it[6]) for it in users] == [(it, f"/var/lib/{it}", "/usr/sbin/nologin") for it in FILES]
           and users[0][2] != users[1][2] and all(100 <= int(it[2]) < 1000 for it in users), users)
    for name, state in (("/var/lib/bucketd", "700 bucketd bucketd"), ("/var/lib/bucketd/host", "600 bucketd bucketd"), ("/etc/bucketd/operator.secret", "600 bucketd bucketd"),
                        ("/etc/bucketd/gateway.keys", "600 bucketd-gateway bucketd-gateway"), ("/etc/bucketd", "755 root root")):
        expect(f"{name}: {state}", debian.state(name) == state, debian.state(name))
    done = debian.run("systemd-analyze", "verify", "--man=no", *(f"/{SYSTEM}/{it}" for it in UNITS))
    expect("the units, by systemd-analyze", done.returncode == 0 and not done.stdout, done.stdout)
    for unit in UNITS:
        told = debian.run("systemctl", "is-enabled", unit).stdout.strip()
        expect(f"{unit} at boot", told == "enabled", told)
    for program in ("/usr/bin/bucketd", *(BUILDS.format(it) for it in (2, 3)), "/usr/bin/bucketd-gateway"):
        told = debian.run("ldd", program).stdout
        expect(f"{program} has its libraries", "not found" not in told and told, told)
    told = debian.run("bucketd", "--version").stdout
    expect("the program's version", told == run([programs["PROGRAM"], "--version"]).stdout, told)


def chosen(debian):
    return debian.run("readlink", "-f", "/usr/bin/bucketd").stdout.strip()


def builds(expect, debian):
    """The build that is linked, of machines with these and those flags."""
    def choose(*processors):
        return debian.run("/usr/lib/bucketd/choose-build", *([cpuinfo(debian, *processors)] if processors else []))

    mine = set(re.search(r"^flags\s*: (.*)$", text("/proc/cpuinfo"), re.M)[1].split())
    usual = BUILDS.format(3 if mine >= {*V2, *V3} else 2)
    expect("the link is that for this machine", chosen(debian) == usual, chosen(debian))
    whole = [*V2, *V3]
    for flag in V3:
        choose([it for it in whole if it != flag])
        expect(f"a processor without {flag} gets x86-64-v2", chosen(debian) == BUILDS.format(2), chosen(debian))
        choose(whole)
        expect("one that has it gets x86-64-v3", chosen(debian) == BUILDS.format(3), chosen(debian))
    choose(whole, V2)
    expect("one of two processors without it", chosen(debian) == BUILDS.format(2), chosen(debian))
    choose([it + "x" for it in whole], whole)
    expect("flags that begin alike", chosen(debian) == BUILDS.format(2), chosen(debian))
    old = choose(["sse", "sse2"])
    expect("a processor without x86-64-v2 is refused", old.returncode == 1 and len(old.stdout.splitlines()) == 1 and "can't run the program" in old.stdout, old.stdout)
    choose(whole)
    debian.run("update-alternatives", "--set", "bucketd", BUILDS.format(2))
    choose(whole)
    expect("what an administrator chose stays", chosen(debian) == BUILDS.format(2), chosen(debian))
    debian.run("update-alternatives", "--set", "bucketd", BUILDS.format(3))
    choose(V2)
    expect("but where it can't run", chosen(debian) == BUILDS.format(2), chosen(debian))
    choose()
    expect("and back to this machine's", chosen(debian) == usual, chosen(debian))
    before = os.stat(debian.path("/var/lib/dpkg/alternatives/bucketd")).st_ino
    expect("a choice that stands writes nothing", choose().stdout == "" and os.stat(debian.path("/var/lib/dpkg/alternatives/bucketd")).st_ino == before)


CLIENT = """import sys
sys.path.insert(0, sys.argv[1])
from s3_requests import Client
status, code, body, _ = Client(9000).ask(*sys.argv[2:4], sys.stdin.buffer.read())
sys.stdout.buffer.write(f"{status} {code}\\n".encode() + body)
"""


def asked(debian, method, path, body=b""):
    """The status, S3's code and the body of an answer through the gateway."""
    words = debian.words(["python3", "-c", CLIENT, os.path.join(TOP, "tools"), method, path], inside=False)
    status, _, got = subprocess.run(words, input=body, stdout=subprocess.PIPE, timeout=PATIENCE).stdout.partition(b"\n")
    return status.decode(), got


def starts(expect, debian, name):
    """The number of a service's process, which listens where its words say."""
    pid = debian.start(f"{name}.service")
    is_up = all(debian.listens(it) for it in PORTS[name])
    expect(f"{name} listens on {' and '.join(map(str, PORTS[name]))}", is_up, debian.ended())
    return pid


def first_minute():
    """The commands of README's first minute with packages."""
    part = text(TOP, "README.md").split("## The first minute with packages\n")[1].split("\n## ")[0]
    return part.split("```\n")[1].splitlines()


def serves(expect, debian):
    """What README says to do once the packages are installed: `systemctl start` is done by hand, and `aws` is that of this machine."""
    first, *commands = first_minute()
    expect("README installs both packages", first.startswith("apt install ./bucketd_*.deb ./bucketd-gateway_*.deb "), first)
    shown, exports = [], []
    for command in commands:
        if service := re.fullmatch(r"systemctl start (\S+)", command):
            shown.append(starts(expect, debian, service[1]))
        elif command.startswith("export "):
            exports.append(command)
        elif command.startswith("aws "):
            types(expect, command, debian.words(["bash", "-c", "; ".join([*exports, command])], inside=False), "aws")
        elif command.startswith("cd "):
            debian.folder = command[len("cd "):]
        else:
            types(expect, command, debian.words(["sh", "-c", f"cd {debian.folder} && " + "; ".join([*exports, command])]))
    expect("they start both", len(shown) == 2 and exports)
    return shown[0]


def types(expect, command, words, tool=""):
    """A command of README's, which ends well."""
    if tool and not shutil.which(tool):
        return expect.skip(command, f"{tool} isn't there")
    done = run(words, env=os.environ | {"AWS_EC2_METADATA_DISABLED": "true", "AWS_CONFIG_FILE": "/dev/null"}, timeout=PATIENCE)
    expect(command, done.returncode == 0, done.stdout)


def objects(expect, debian, pid):
    """The process is as its unit says, and an object that is put comes back, by another client, too."""
    environ = debian.run("cat", f"/proc/{pid}/environ").stdout.split("\0")
    expect("malloc is told to give back what was read", "MALLOC_MMAP_THRESHOLD_=65536" in environ, environ)
    program = debian.run("readlink", f"/proc/{pid}/exe").stdout.strip()
    expect("it is the build that was chosen, as its own user", program == chosen(debian) and debian.state(f"/proc/{pid}").endswith(" bucketd bucketd"), program)
    expect("a bucket", asked(debian, "PUT", "/papers")[0] == "200 ")
    expect("an object put", asked(debian, "PUT", "/papers/o", OBJECT)[0] == "200 ")
    expect("and got", asked(debian, "GET", "/papers/o") == ("200 ", OBJECT))
    if shutil.which("aws"):
        expect("what aws put", asked(debian, "GET", "/plans/hostname") == ("200 ", text("/etc/hostname").encode()))


def port_rules(expect, debian):
    """The port of bucketd is closed to other users by the rules that bucketd-port.service loads."""
    (line,) = debian.unit("bucketd-port.service")["ExecStart"]
    done = debian.run(*line.split())
    if done.returncode:
        return expect.skip("the rules of the port", f"nft has no power here: {done.stdout.splitlines()[:1]}")
    connect = "import os, socket, sys; os.setuid(int(sys.argv[1])); sys.exit(socket.socket().connect_ex(('127.0.0.1', int(sys.argv[2]))))"
    for port, user in (("8080", "33"), ("8081", "0")):
        found = [run(debian.words(["python3", "-c", connect, it, port], inside=False)).returncode for it in ("0", user, "65534")]
        expect(f"another user is refused port {port}, and root isn't", found == [0, 0, errno.ECONNREFUSED], found)
    expect("the gateway goes on", asked(debian, "GET", "/papers/o") == ("200 ", OBJECT))
    (line,) = debian.unit("bucketd-port.service")["ExecStop"]
    expect("the rules are taken back", debian.run(*line.split()).returncode == 0)


def kept(debian):
    """What the administrator has: sums of the host, of keys and of what was changed."""
    return debian.run("sh", "-c", "find /var/lib/bucketd/host* /etc/bucketd -type f | sort | xargs sha256sum").stdout


def upgraded(expect, debian, packages):
    debian.end_all()
    with open(debian.path("/etc/bucketd/bucketd.conf"), "a") as it:
        it.write("# mine\n")
    before, link = kept(debian), chosen(debian)
    installs(expect, debian, "an upgrade", packages(NEW), NEW)
    expect("host, keys and what was changed stay", kept(debian) == before and len(before.splitlines()) >= 6, f"{before}\n{kept(debian)}")
    expect("and the link", chosen(debian) == link, chosen(debian))
    starts(expect, debian, "bucketd")
    starts(expect, debian, "bucketd-gateway")
    expect("the object is there", asked(debian, "GET", "/papers/o") == ("200 ", OBJECT))
    debian.end_all()
    installs(expect, debian, "an upgrade to a package with one build", packages(LAST), LAST)
    expect("that is linked", chosen(debian) == BUILDS.format(2), chosen(debian))


def removed(expect, debian, packages, before):
    """Removed, installed again, and purged: each time what stays."""
    had = kept(debian)
    done = debian.run("apt-get", "remove", "-y", "bucketd", "bucketd-gateway")
    left = debian.paths() - before
    mine = {"etc/bucketd", *(f"etc/bucketd/{it}" for it in ("bucketd.conf", "bucketd.nft", "gateway.conf", "gateway.keys", "operator.secret"))}
    hosts = {it for it in left if it.startswith("var/lib/bucketd")}
    links = {it for it in left if it.startswith("etc/systemd/system/")}
    expect("removed", done.returncode == 0 and mine <= left <= mine | hosts | links | ACCOUNTS, left)
    expect("the host stays, and what was set", kept(debian) == had and "var/lib/bucketd/host" in left)
    installs(expect, debian, "installed again", packages(LAST), LAST)
    expect("the host is the same", kept(debian) == had, kept(debian))
    told = debian.run("setpriv", "--reuid=bucketd", "--regid=bucketd", "--init-groups", "bucketd", "tenants", "--file", "/var/lib/bucketd/host").stdout
    expect("its tenant is there", "green" in told, told)
    had = debian.run("sha256sum", "/var/lib/bucketd/host").stdout
    done = debian.run("apt-get", "purge", "-y", "bucketd", "bucketd-gateway")
    left = debian.paths() - before - ACCOUNTS
    others = {it for it in left if it not in ("var/lib/bucketd", "var/lib/bucketd/host-wal") and not it.startswith("var/lib/bucketd/host.packs")}
    expect("purged: a host alone is left", done.returncode == 0 and others == {"var/lib/bucketd/host"}, f"{left} {done.stdout[-2000:]}")
    expect("it says so", "the host stays: /var/lib/bucketd" in done.stdout, done.stdout)
    expect("the host is the same, and its user's", debian.run("sha256sum", "/var/lib/bucketd/host").stdout == had and debian.state("/var/lib/bucketd/host") == "600 bucketd bucketd")


@pytest.mark.cost(300)
def test_in_a_fresh_debian(expect, debian, packages, programs):
    before = debian.paths()
    installs(expect, debian, "an installation", packages(OLD), OLD)
    installed(expect, debian, programs)
    builds(expect, debian)
    objects(expect, debian, serves(expect, debian))
    port_rules(expect, debian)
    upgraded(expect, debian, packages)
    removed(expect, debian, packages, before)
