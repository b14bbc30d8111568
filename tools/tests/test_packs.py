"""The packs of a host in files: the folder F.packs beside its file F, with the files 00000001, .. that have the bytes of blocks above
4,096. Which bytes are there, what opens without them, what a crash leaves, and what a copy has.

Each test begins with a copy of one host, whose objects have as many bytes as are in a row, a byte more, and some blocks.
"""
import os
import random
import signal
import time

import pytest

import host
from conftest import amount
from host import Server, bytes_in, command, contents_of, copied, is_fast, is_quick, killed_under, make_host, names, opened, pack_of, packs_of, read, removed, run
from pack_hosts import BLOCK, MIB, MOST_IN_ROW, Putter, bodies, file, first, flipped, is_sound, lacks, mebibyte, mode_of, put_mebibytes, rows, statuses  # noqa: F401 (the fixtures)

WRONG = ("x-amz-checksum-sha256: 47DEQpj8HBSa+/TImW+5JCeuQeRkm5NMpJWZG3hSuFU=",)


# ---- which bytes are where


@pytest.mark.cost(30)
def test_places(expect, program, folder, file, bodies):
    """Blocks above 4,096 bytes are in a pack, and no others; they are there after a clean end and after a kill."""
    sizes = sorted(min(BLOCK, len(it) - at) for it in bodies.values() for at in range(0, len(it), BLOCK))
    found = [size for (size,) in rows(file, "SELECT size FROM placed ORDER BY size")]
    expect("longer blocks are in packs", found == [it for it in sizes if it > MOST_IN_ROW], found)
    found = [size for (size,) in rows(file, "SELECT length(bytes) FROM main.blocks WHERE length(bytes) > 0 ORDER BY 1")]
    expect("and others in rows", found == [it for it in sizes if it <= MOST_IN_ROW], found)
    (pack, length, live), *more = rows(file, "SELECT * FROM packs")
    needed = sum(it for it in sizes if it > MOST_IN_ROW)
    expect("one pack has them", not more and live == needed and length >= live, (pack, length, live, more))
    expect("its file is the only one", names(packs_of(file)) == ["00000001"] and os.path.getsize(pack_of(file, pack)) >= length, contents_of(packs_of(file)).keys())
    modes = mode_of(packs_of(file)), mode_of(pack_of(file, 0))
    expect("both are their owner's alone, whatever the umask", modes == (0o700, 0o600), [oct(it) for it in modes])
    for name, number in (("a clean end", signal.SIGTERM), ("a kill", signal.SIGKILL)):
        with Server(program, file, "--force") as server:
            found = lacks(server, bodies)
            expect(f"before {name}", not found, found)
            assert server.ask("green", "PUT", f"/plans/{number}", bodies["blocks"][::-1]).status == 200
            server.end(number)
        with Server(program, file, "--force") as server:
            found = lacks(server, {**bodies, str(int(number)): bodies["blocks"][::-1]})
            expect(f"after {name}", not found, found)
    found = is_sound(program, file, folder)
    expect("it is sound", not found, found)


@pytest.mark.cost(20)
def test_known_blocks(expect, program, file, bodies):
    """Bytes that another object or tenant has take no more room."""
    before = contents_of(packs_of(file))
    with Server(program, file, "--force") as server:
        told = {server.ask("blue", "PUT", "/plans").status} | statuses(server, "PUT", bodies, "blue")
        told.add(server.ask("green", "PUT", "/plans/copy", b"", ["x-amz-copy-source: /plans/blocks"]).status)
        found = lacks(server, bodies, "blue") | lacks(server, {"copy": bodies["blocks"]})
        server.end(signal.SIGTERM)
    expect("they are served", told == {200} and not found, f"{told} {found}")
    expect("the packs stay as they were", contents_of(packs_of(file)) == before, {it: len(data) for it, data in contents_of(packs_of(file)).items()})


@pytest.mark.cost(20)
def test_link_to_the_file(expect, program, folder, file, bodies):
    """The folder lies where links to the file lead."""
    os.mkdir(os.path.join(folder, "elsewhere"))
    link = os.path.join(folder, "elsewhere", "link")
    os.symlink(file, link)
    with Server(program, link, "--force") as server:
        found = lacks(server, bodies)
    expect("the host is served by a link to its file", not found, found)
    expect("and has no packs beside that", host.files(os.path.dirname(link)) == names(os.path.dirname(link)), names(os.path.dirname(link)))


def inlined(file):
    """Makes a host's file one whose bytes are all in rows, as those of a program without packs are: SQLite writes it anew."""
    old, new = opened(file), host.sqlite3.connect(file + "-new")
    new.executescript(";".join(t for (t,) in old.execute("SELECT sql FROM sqlite_master WHERE sql IS NOT NULL ORDER BY rowid")))
    for (table,) in old.execute("SELECT name FROM sqlite_master WHERE type = 'table' AND name NOT IN ('packs', 'placed')").fetchall():
        for row in old.execute(f"SELECT * FROM {table}"):
            new.execute(f"INSERT INTO {table} VALUES ({', '.join('?' * len(row))})", row)
    new.commit()
    new.close()
    old.close()
    removed(file)
    os.rename(file + "-new", file)
    return file


@pytest.mark.cost(30)
def test_host_without_packs(expect, program, folder, file, bodies):
    """A host whose bytes are all in rows, as programs without packs left them: they are served, and what comes goes to packs."""
    inlined(file)
    found = is_sound(program, file, folder)
    expect("it is sound", not found, found)
    with Server(program, file, "--force") as server:
        found = lacks(server, bodies)
        told = server.ask("green", "PUT", "/plans/new", bodies["blocks"][::-1]).status, server.ask("green", "PUT", "/plans/known", bodies["blocks"]).status
        server.end(signal.SIGTERM)
    expect("all is served", told == (200, 200) and not found, f"{told} {found}")
    found = [size for (size,) in rows(file, "SELECT size FROM placed ORDER BY size")]
    expect("only what came is in packs", found == [len(bodies["blocks"]) - BLOCK, BLOCK], found)
    with Server(program, file, "--force") as server:
        found = lacks(server, {**bodies, "new": bodies["blocks"][::-1], "known": bodies["blocks"]})
    expect("both kinds are served", not found, found)
    found = is_sound(program, file, folder)
    expect("and sound", not found, found)


@pytest.mark.cost(40)
def test_packs_that_nobody_wants(expect, program, folder, file, bodies):
    """Where the environment refuses packs, what they have is served, and what comes goes to rows."""
    had, new = rows(file, "SELECT * FROM placed ORDER BY digest, ord"), {"new": bodies["blocks"][::-1]}
    with Server(program, file, "--force", BUCKETD_PACKS="no") as server:
        told = server.ask("green", "PUT", "/plans/new", new["new"]).status
        found = lacks(server, bodies | new)
        server.end(signal.SIGTERM)
    expect("all is served", told == 200 and not found, f"{told} {found}")
    expect("no more is in packs", rows(file, "SELECT * FROM placed ORDER BY digest, ord") == had, had)
    with Server(program, file, "--force") as server:
        found = lacks(server, bodies | new)
        server.end(signal.SIGTERM)
    expect("it is served where they are wanted", not found, found)
    found = is_sound(program, file, folder)
    expect("and sound", not found, found)
    told = command(program, file, "report", BUCKETD_PACKS="perhaps")
    expect("another word is a fault", told == ("fault", 1), told)


# ---- bytes that no row names


@pytest.mark.cost(40)
def test_bytes_past_the_end(expect, program, folder, file, bodies):
    """Bytes past a pack's length, as a kill leaves them, are written over by what comes next."""
    (length,), = rows(file, "SELECT length FROM packs")
    for name, left in (("many bytes", os.urandom(300_000)), ("a byte", b"x"), ("none", b"")):
        with open(pack_of(file, 0), "r+b") as out:
            out.truncate(length)
            out.seek(length)
            out.write(left)
        body = os.urandom(70_000)
        with Server(program, file, "--force") as server:
            told = server.ask("green", "PUT", f"/plans/{len(left)}", body).status
            bodies = {**bodies, str(len(left)): body}
            found = lacks(server, bodies)
            server.end()
        expect(f"{name} past the length: a put, and all is served", told == 200 and not found, f"{told} {found}")
        was, ((length,),) = length, rows(file, "SELECT length FROM packs")
        data = read(pack_of(file, 0))
        expect(f"{name} past the length: written over", data[was:length] in (body, body[65536:] + body[:65536]) and length == was + len(body), f"{was} {length} {len(data)}")
        found = is_sound(program, file, folder)
        expect(f"{name} past the length: it is sound", not found, found)


@pytest.mark.cost(40)
def test_puts_that_are_taken_back(expect, program, folder, file, bodies):
    """Bodies that are refused once they came, that end early, or that are above the quota: no row names what they left in a pack, and what
    comes is stored beside it."""
    with Server(program, file, "--force") as server:
        before = rows(file, "SELECT digest, ord FROM placed ORDER BY 1")
        refused = [server.ask("green", "PUT", "/plans/wrong", os.urandom(70_000), WRONG).status for _ in range(3)]
        short = server.exchange(host.request("green", "PUT", "/plans/short", os.urandom(70_000), length=80_000)).split(b" ")[1:2]
        expect("bodies that are refused", refused == [400] * 3 and short == [b"400"], f"{refused} {short}")
        expect("leave no row", rows(file, "SELECT digest, ord FROM placed ORDER BY 1") == before)
        told = server.ask("green", "PUT", "/plans/after", bodies["blocks"][::-1]).status
        found = lacks(server, {**bodies, "after": bodies["blocks"][::-1]})
        expect("what comes is stored", told == 200 and not found, f"{told} {found}")
        server.end()
    with Server(program, file, "--force") as server:
        found = lacks(server, {**bodies, "after": bodies["blocks"][::-1]})
    expect("and there after a kill", not found, found)
    found = is_sound(program, file, folder)
    expect("it is sound", not found, found)


@pytest.mark.cost(60)
def test_kills(expect, program, folder, disk_folder, file, bodies, full):
    """A server under puts gets SIGKILL: all that was acknowledged is there, and no file that no row names after the next opening."""
    file, chance = copied(file, disk_folder), random.Random(1)
    bodies, sizes = {**bodies}, [100, 4096, 4097, 70_000, 300_000] if is_quick(program) else [100, 4097, 20_000]
    for number in range(1, amount("PACK_KILLS", 50 if full else 6 if is_quick(program) else 2) + 1):
        with Server(program, file, "--force") as server:
            putters = [Putter(server, 1000 * number + it, sizes) for it in range(8 if is_quick(program) else 2)]
            killed_under(server, putters, chance.uniform(0.2, 1.0 if is_quick(program) else 5))
        new = {key: body for it in putters for key, body in it.done.items()}
        bodies |= new
        past = os.path.getsize(pack_of(file, 0)) - sum(length for (length,) in rows(file, "SELECT length FROM packs"))
        found = [it.wrong for it in putters if it.wrong] + is_sound(program, file, folder)
        with Server(program, file, "--force") as server:
            missing = lacks(server, new if number % 4 and is_quick(program) else bodies)
        expect(f"kill {number}, {len(new)} objects acknowledged, {past} bytes past the length", not found and not missing, f"{found} {missing}")
        expect(f"kill {number}: files and rows are the same", names(packs_of(file)) == [f"{pack + 1:08d}" for (pack,) in rows(file, "SELECT pack FROM packs ORDER BY pack")], names(packs_of(file)))


# ---- what goes


def packs_told(file):
    return rows(file, "SELECT live FROM packs"), names(packs_of(file))


@pytest.mark.cost(60)
def test_all_deleted(expect, program, folder, file, bodies):
    """Everything is deleted and swept, by commands and by a server: no byte of a pack is live, and what comes is stored."""
    with Server(program, file, "--force") as server:
        told = statuses(server, "DELETE", dict.fromkeys(bodies, b""))
        server.end(signal.SIGTERM)
    expect("all is deleted", told == {204}, told)
    before = packs_told(file)
    told = [command(program, file, "sweep", "--limit", "1000000", "--force") for _ in range(2)]
    expect("and swept", all(it[1] == 0 and it[0].endswith(" complete") for it in told), told)
    (report, status), (live, left) = command(program, file, "report", "--force"), packs_told(file)
    expect("no block is left", (report, status) == ("blocks 0 stored 0 referred 0 clashes 0", 0), report)
    expect(f"no byte of a pack is live, and {len(left)} packs are left of {len(before[1])}", not any(n for (n,) in live) and len(left) == len(live), f"{live} {left}")
    found = is_sound(program, file, folder)
    expect("it is sound", not found, found)
    with Server(program, file, "--force") as server:
        told = statuses(server, "PUT", bodies)
        found = lacks(server, bodies)
        server.end()
    expect("what comes is stored", told == {200} and not found, f"{told} {found}")
    with Server(program, file, "--force") as server:
        found = lacks(server, bodies)
    expect("and there after a kill", not found, found)
    found = is_sound(program, file, folder)
    expect("it is sound in the end", not found, found)


@pytest.mark.cost(60)
def test_some_deleted(expect, program, folder, file, bodies):
    """Some objects are deleted and swept while others are read: these stay, byte for byte."""
    gone = [key for at, key in enumerate(sorted(bodies)) if at % 2]
    kept = {key: body for key, body in bodies.items() if key not in gone}
    with Server(program, file, "--force", "--operator-port", "0", "--keep-garbage", "0") as server:
        told = statuses(server, "DELETE", dict.fromkeys(gone, b""))
        time.sleep(2 if is_quick(program) else 10)
        found = lacks(server, kept)
        told |= statuses(server, "PUT", {key: bodies[key] for key in gone})
        found |= lacks(server, bodies)
        server.end()
    expect("they go and come again", told == {200, 204} and not found, f"{told} {found}")
    with Server(program, file, "--force") as server:
        found = lacks(server, bodies)
    expect("and are there after a kill", not found, found)
    found = is_sound(program, file, folder)
    expect("it is sound", not found, found)


FULL = 64 * MIB


def swept(program, server, times=40):
    """What sweeps that are ordered of a server are answered, up to one that leaves nothing, and the last one."""
    order = "sweep", "--operator-port", str(server.operators()), "--limit", "1000"
    for _ in range(times):
        told = run(program, os.path.dirname(server.file), *order)
        if told[1] != 0 or not told[0].endswith("partial"):
            return told
    return told


def delete_others(server, count, kept):
    return {server.ask("green", "DELETE", f"/plans/{it}").status for it in range(count) if str(it) not in kept}


def is_whole_in_the_end(expect, program, file, folder, kept):
    with Server(program, file, "--force") as server:
        found = lacks(server, kept)
    expect("what is needed is served in the end", not found, found)
    found = is_sound(program, file, folder)
    expect("it is sound", not found, found)


@pytest.mark.proved
@pytest.mark.cost(60)
def test_more_than_one_pack(expect, program, folder):
    """Packs end at 64 MiB. One of which less than 32 MiB is needed is emptied by sweeps while a server goes on, and its file goes."""
    if not is_fast(program):
        return expect.skip("more than one pack", "it needs 150 MB, and a program with a proof")
    file = make_host(program, os.path.join(folder, "host"), ["green"])
    kept = {str(it): mebibyte(it) for it in range(0, 150, 4)}
    with Server(program, file, "--force", "--operator-port", "0") as server:
        server.file = file
        told = put_mebibytes(server, 150)
        sizes = [len(it) for it in contents_of(packs_of(file)).values()]
        expect("a pack has 64 MiB at most, and the next one comes", told == {200} and len(sizes) == 3 and max(sizes) <= FULL, f"{told} {sizes}")
        told = delete_others(server, 150, kept)
        answers = [swept(program, server) for _ in range(8)]
        found = lacks(server, kept)
        expect("what is needed is served beside sweeps", told == {204} and not found and {it[1] for it in answers} == {0}, f"{told} {found} {answers}")
        sizes = [len(it) for it in contents_of(packs_of(file)).values()]
        expect("sparse packs are gone", sum(sizes) <= FULL and "00000001" not in names(packs_of(file)), f"{sizes} {names(packs_of(file))}")
        server.end()
    is_whole_in_the_end(expect, program, file, folder, kept)


@pytest.mark.proved
@pytest.mark.cost(60)
def test_one_sweep_by_hand(expect, program, folder):
    """One sweep while no server runs empties all packs of which less than 32 MiB is needed, and their files go."""
    if not is_fast(program):
        return expect.skip("one sweep by hand", "it needs 150 MB, and a program with a proof")
    file = make_host(program, os.path.join(folder, "host"), ["green"])
    kept = {str(it): mebibyte(it) for it in range(0, 130, 8)}
    with Server(program, file, "--force") as server:
        told = put_mebibytes(server, 130) | delete_others(server, 130, kept)
    before = sorted(names(packs_of(file)))
    told_of_sweep = command(program, file, "sweep", "--limit", "10000", "--force")
    after = {it: len(data) for it, data in contents_of(packs_of(file)).items()}
    expect("all packs that were full are gone", told == {200, 204} and told_of_sweep[1] == 0 and not {"00000001", "00000002"} & set(after), f"{told} {told_of_sweep} {before} {after}")
    expect("and what is needed stands in others", sum(after.values()) < FULL, after)
    is_whole_in_the_end(expect, program, file, folder, kept)


@pytest.mark.proved
@pytest.mark.cost(60)
def test_little_memory(expect, program, folder):
    """A check and a backup read all bytes of packs, and have a few blocks in memory at once. A check tells a wrong byte at their end."""
    if not is_fast(program):
        return expect.skip("little memory", "it needs 100 MB, and a program with a proof")
    file = make_host(program, os.path.join(folder, "host"), ["green"])
    with Server(program, file, "--force") as server:
        told = put_mebibytes(server, 100)
        server.end()
    with_little = "prlimit", folder, f"--as={32 * MIB}", program
    found = run(*with_little, "check", "--file", file)
    expect("a check has little memory", told == {200} and found[:2] == ("sound", 0), f"{told} {found}")
    found = run(*with_little, "backup", "--file", file, "--to", file + "-copy")
    expect("so has a backup", found[1] == 0, found)
    [(pack, last)] = rows(file, "SELECT pack, place + size - 1 FROM placed ORDER BY pack DESC, place DESC LIMIT 1")
    flipped(pack_of(file, pack), last)
    found = run(*with_little, "check", "--file", file)
    expect("a wrong byte at the end is told", found[1] == 1 and "a pack hasn't got these bytes" in found[0], found)


@pytest.mark.cost(20)
def test_report(expect, program, folder, file, bodies):
    """A report tells on standard error how many packs there are, their bytes, and how many of these blocks have: a server's, too."""
    with Server(program, file, "--force", "--operator-port", "0") as server:
        assert server.ask("green", "DELETE", "/plans/block").status == 204
        told = run(program, folder, "tell", "--port", str(server.operators()), '{"op":"report"}')
        server.end(signal.SIGTERM)
        lines = server.lines()
    count, length, live = rows(file, "SELECT count(*), sum(length), sum(live) FROM packs")[0]
    wanted = f"bucketd: packs {count}, bytes {length}, of blocks {live}"
    expect("a server's report", told[:2] == (told[0], 0) and told[0].startswith("blocks ") and wanted in lines, f"{told} {lines}")
    found = run(program, folder, "report", "--file", "a", "--force")
    expect("a report of a file", found[:2] == (told[0], 0) and wanted in found[2].splitlines(), f"{found} {wanted}")
    make_host(program, os.path.join(folder, "empty"), ["green"])
    found = run(program, folder, "report", "--file", "empty")
    expect("one of a host without packs tells nothing of them", found[:2] == ("blocks 0 stored 0 referred 0 clashes 0", 0) and "packs" not in found[2], found)


# ---- sums


def sum_of(data):
    """SipHash-1-3 (Aumasson and Bernstein, 2012) of eight zeros and then some bytes, under the key of zeros; never 0."""
    most = (1 << 64) - 1
    a, b, c, d = 0x736F6D6570736575, 0x646F72616E646F6D, 0x6C7967656E657261, 0x7465646279746573

    def mix(times):
        nonlocal a, b, c, d
        for _ in range(times):
            a, c = a + b & most, c + d & most
            b, d = (b << 13 | b >> 51) & most ^ a, (d << 16 | d >> 48) & most ^ c
            a, c = (a << 32 & most | a >> 32) + d & most, c + b & most
            b, c, d = (b << 17 | b >> 47) & most ^ c, (c << 32 | c >> 32) & most, (d << 21 | d >> 43) & most ^ a

    data = bytes(8) + data
    padded = data + bytes(7 - len(data) % 8) + bytes([len(data) % 256])
    for at in range(0, len(padded), 8):
        word = int.from_bytes(padded[at : at + 8], "little")
        d ^= word
        mix(1)
        a ^= word
    c ^= 0xFF
    mix(3)
    return a ^ b ^ c ^ d or 1


def test_sums(expect, program, file):
    """The sums of places are those of their bytes."""
    found = rows(file, "SELECT pack, place, size, sum FROM placed ORDER BY size LIMIT 4")
    wrong = [it for it in found if sum_of(bytes_in(pack_of(file, it[0]), it[1], it[2])) != it[3] % (1 << 64)]
    expect(f"{len(found)} sums", found and not wrong, wrong)
