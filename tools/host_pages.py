"""A host's file and its log as pages, the trees in them, and its packs, read as far as damage lets them be: SQLite's file format, whose
pages here end in a sum of their bytes. Nothing of these is written; `NewPacks` makes the packs of a new host."""
import fcntl
import os
import struct
from dataclasses import dataclass
from itertools import chain
from typing import Optional

PAGE = 4096
MAGIC = b"SQLite format 3\0"
MASK = (1 << 32) - 1
# The number of no page, which frames have that count what others lack.
COUNT = 0xFF000000
# The bytes of a database file that SQLite locks.
LOCKS = (0x40000000, 512)
# The end of a folder's name that has a host's packs. The most bytes of a block, and of a pack.
PACKS, LARGEST, PACK = ".packs", 1 << 20, 1 << 30


class Refused(Exception):
    """Why there is no new host, as the user reads it."""


class Unreadable(Exception):
    """Bytes that are no page, cell or row."""


WRONG = (Unreadable, IndexError, struct.error, UnicodeDecodeError)


# ---- the sums of pages


def sum_of(data, start=(0, 0), order="<"):
    """The running sum of SQLite's log and of its extension cksumvfs."""
    first, second = start
    words = struct.unpack(f"{order}{len(data) // 4}I", data)
    for one, other in zip(words[::2], words[1::2]):
        first = (first + one + second) & MASK
        second = (second + other + first) & MASK
    return first, second


def is_sealed(page):
    """Whether a page ends in the sum of what is before it. That of zeros is 0."""
    return struct.pack("<2I", *sum_of(page[:-8])) == page[-8:]


def weights(count):
    """How much each of so many words adds to both halves of a sum."""
    found, step = [], ((1, 1), (0, 1))
    for _ in range(count // 2):
        found += [step[1], step[0]]
        step = tuple(((one + other) & MASK, (one + 2 * other) & MASK) for one, other in step)
    return found[::-1]


def mended(data, start, wanted, order="<"):
    """The bytes that differ from `data` in one byte and have this sum, if that is certain: of high bits alone the sum tells too little."""
    found = sum_of(data, start, order)
    lacks = [(want - have) & MASK for want, have in zip(wanted, found)]
    if not (lacks[0] | lacks[1]) & 0xFFF:
        return None
    for at, pair in enumerate(weights(len(data) // 4)):
        odd = pair[0] % 2 == 0
        more = lacks[odd] * pow(pair[odd], -1, 1 << 32) & MASK
        if [more * it & MASK for it in pair] == lacks:
            old, new = data[4 * at : 4 * at + 4], struct.pack(order + "I", struct.unpack(order + "I", data[4 * at : 4 * at + 4])[0] + more & MASK)
            if sum(one != other for one, other in zip(old, new)) == 1:
                return data[: 4 * at] + new + data[4 * at + 4 :]
    return None


def mended_page(page):
    """The page with the right sum that differs from this one in one byte, of its own or of the sum, if it is certain which."""
    real, wanted = sum_of(page[:-8]), struct.unpack("<2I", page[-8:])
    body, end = mended(page[:-8], (0, 0), wanted), struct.pack("<2I", *real)
    is_other_sum = sum(one != other for one, other in zip(end, page[-8:])) == 1 and any((it - had) & 0xFFF for it, had in zip(real, wanted))
    if body and is_other_sum:
        return None
    return body + page[-8:] if body else page[:-8] + end if is_other_sum else None


# ---- the log


@dataclass
class Frame:
    """A change of a page: its number, or 0 where that can't be read; the page, or None; and the file's pages, if it ends a commit."""

    number: int
    page: Optional[bytes]
    size: int


class Log:
    """The pages that a log in SQLite's format has, as far as they were committed, each None where it is damaged, and what is lost."""

    def __init__(self, data, count):
        self.data, self.frames, self.flaws, self.pages, self.most = data, [], [], {}, count + len(data) // PAGE
        if len(data) < 32 + 24 + PAGE:
            self.flaws += ["it ends within a change"] * any(data[41:])
            return
        order = ">" if data[3] == 0x83 else "<"
        head, wanted = data[:24], struct.unpack(">2I", data[24:32])
        if head[:3] == b"\0\x7f\x06":
            return  # (it was copied into the file and given up)
        self.order, self.salt, starts = order, head[16:24], [wanted]
        if sum_of(head, order=order) != wanted:
            # The first frame has the salt, too, and its sum goes on from that of these bytes.
            self.order, self.salt = "<", data[40:48]
            starts = [it for it in (wanted, sum_of(head)) if len(set(self.sums(32, it))) == 1]
        if not starts:
            self.flaws.append("its first bytes can't be read, so nothing of it can")
            return
        self.read(starts[0])
        last = max((at for at, it in enumerate(self.frames) if it.size), default=-1)
        self.pages = {it.number: it.page for it in self.frames[: last + 1]}
        for place, it in enumerate(self.frames[: last + 1], 1):
            if self.pages[it.number] is None and it.page is None:
                what = f"of page {it.number}" if it.number else "of a page that isn't known, which may be as it was before"
                self.flaws.append(f"change {place} can't be read, {what}")

    def read(self, chain):
        """Reads frames; `chain`: the sum before the first."""
        is_sure, length = True, 24 + PAGE
        for at in range(32, len(self.data) - length + 1, length):
            if self.is_end(at):
                break
            frame, chain, is_sure = self.frame(at, chain, is_sure)
            self.frames.append(frame)
        rest = 32 + len(self.frames) * length
        if rest + 24 <= len(self.data) < rest + length and self.has_salt(rest) or self.frames and not self.frames[-1].size:
            self.flaws.append("it ends within a change")

    def has_salt(self, at):
        return self.data[at + 8 : at + 16] == self.salt

    def is_end(self, at):
        """Whether the log ends before a frame: it has another salt, as what is left of earlier days or of a change that wasn't made."""
        if self.has_salt(at):
            return False
        shut = bytes([int(self.salt[0] == 0)]) + self.salt[1:]
        later = range(at + 24 + PAGE, len(self.data) - 23, 24 + PAGE)
        return self.data[at + 8 : at + 16] == shut or not any(map(self.has_salt, later))

    def sums(self, at, chain):
        """The sum up to a frame's end, given the one before it, and the one that it tells."""
        front = sum_of(self.data[at : at + 8], chain, self.order)
        return sum_of(self.data[at + 24 : at + 24 + PAGE], front, self.order), struct.unpack(">2I", self.data[at + 16 : at + 24])

    def frame(self, at, chain, is_sure):
        """A frame, the sum before the next one, and whether that is sure."""
        (number, size), page, after = struct.unpack(">2I", self.data[at : at + 8]), self.data[at + 24 : at + 24 + PAGE], at + 24 + PAGE
        real, told = self.sums(at, chain)
        if real == told or number == COUNT:
            return Frame(number, page, size), told, real == told
        is_known = self.has_salt(at) and 0 < number <= self.most
        if is_known and not is_sealed(page):
            return Frame(number, mended_page(page), size), told, False
        if is_known and not is_sure:
            return Frame(number, page, size), told, True
        # The page is whole: either its number isn't right, or the sum, which the next frame tells.
        if after + 24 + PAGE <= len(self.data) and len(set(self.sums(after, real))) == 1:
            return Frame(number, page, size), real, True
        return Frame(0, None, size), told, False


# ---- the pages


class Pages:
    """The pages of a file with what its log changed. `is_mixed`: some page may be as it was at an earlier moment."""

    def __init__(self, path):
        self.file = os.open(path, os.O_RDONLY)
        try:
            fcntl.lockf(self.file, fcntl.LOCK_SH | fcntl.LOCK_NB, LOCKS[1], LOCKS[0])
        except OSError:
            raise Refused(f"{path}: another process has it") from None
        self.length = os.fstat(self.file).st_size
        self.count = -(-self.length // PAGE)
        self.log = Log(read_whole(path + "-wal") if os.path.exists(path + "-wal") else b"", self.count)
        self.changed = self.log.pages
        self.is_mixed = 0 in self.changed
        self.mended, self.good, self.damaged = {}, set(), set()
        first = self.raw(1) or bytes(PAGE)
        self.is_summed = any(is_sealed(it) for it in map(self.raw, range(1, min(self.count, 400) + 1)) if it and any(it))
        if not self.is_summed and (first[:16] != MAGIC or first[20] != 0):
            raise Refused(f"{path}: no host's file: none of its first pages has the sum of its bytes")
        self.usable = PAGE - 8 * self.is_summed
        page, is_good = self.get(1)
        told = struct.unpack(">I", page[28:32])[0] if is_good else self.count
        self.count = max([told, *(it for it in self.changed if it < 1 << 24)])

    def raw(self, number):
        """The bytes of a page as they are found, or None where there are none."""
        if number in self.changed:
            return self.changed[number]
        try:
            page = os.pread(self.file, PAGE, (number - 1) * PAGE)
        except OSError:
            return None
        return page if len(page) == PAGE else None

    def get(self, number):
        """A page's bytes, and whether they are as they were written."""
        if number in self.mended:
            return self.mended[number], True
        page = self.raw(number)
        if number in self.good:
            return page, True
        if number not in self.damaged and page is not None:
            is_sound = not self.is_summed or is_sealed(page)
            if is_sound and (number > 1 or page[:16] == MAGIC):
                self.good.add(number)
                return page, True
            other = None if is_sound else mended_page(page)
            if other:
                self.mended[number] = other
                return other, True
        self.damaged.add(number)
        return page or bytes(PAGE), False

    def free(self):
        """The pages of the list of free ones, or None where that can't be read."""
        first, is_good = self.get(1)
        trunk, count = struct.unpack(">2I", first[32:40])
        found = set()
        while is_good and not self.is_mixed and trunk and trunk not in found:
            page, is_good = self.get(trunk)
            after, length = struct.unpack(">2I", page[:8])
            leaves = struct.unpack(f">{length}I", page[8 : 8 + 4 * length]) if length <= self.usable // 4 - 2 else ()
            found |= {trunk, *leaves}
            trunk = after
        return found if is_good and not self.is_mixed and len(found) == count else None


def read_whole(path):
    """A file's bytes, with zeros for what the disk refuses."""
    with open(path, "rb", buffering=0) as file:
        size, pieces = os.fstat(file.fileno()).st_size, []
        for at in range(0, size, PAGE):
            try:
                pieces.append(os.pread(file.fileno(), min(PAGE, size - at), at))
            except OSError:
                pieces.append(bytes(min(PAGE, size - at)))
    return b"".join(pieces)


# ---- cells and trees, in SQLite's file format


def varint(data, at):
    """A number of up to nine bytes, and the place behind it."""
    value = 0
    for n in range(8):
        byte = data[at + n]
        value = value << 7 | byte & 127
        if byte < 128:
            return value, at + n + 1
    return value << 8 | data[at + 8], at + 9


SIZES = {0: 0, 1: 1, 2: 2, 3: 3, 4: 4, 5: 6, 6: 8, 8: 0, 9: 0}


def values_of(data):
    """The columns of a record: None, numbers, texts and bytes."""
    length, at = varint(data, 0)
    kinds, values, place = [], [], length
    while at < length:
        kind, at = varint(data, at)
        kinds.append(kind)
    for kind in kinds:
        size = SIZES.get(kind) if kind < 12 else (kind - 12) // 2
        if size is None or place + size > len(data):
            raise Unreadable
        piece, place = data[place : place + size], place + size
        number = None if kind == 0 else kind - 8 if kind in (8, 9) else int.from_bytes(piece, "big", signed=True)
        values.append(number if kind < 12 else piece.decode() if kind % 2 else piece)
    if at != length or place != len(data):
        raise Unreadable
    return values


def cells_of(page, number, usable):
    """What a page of a tree is (2 and 5 inside, 10 and 13 a leaf, of an index and of a table), its cells' places, and its last child."""
    start = 100 if number == 1 else 0
    kind, count = page[start], struct.unpack(">H", page[start + 3 : start + 5])[0]
    if kind not in (2, 5, 10, 13) or count > usable // 4:
        raise Unreadable
    head = start + (12 if kind < 10 else 8)
    places = struct.unpack(f">{count}H", page[head : head + 2 * count])
    if any(not head + 2 * count <= it < usable for it in places):
        raise Unreadable
    return kind, places, struct.unpack(">I", page[start + 8 : start + 12])[0] if kind < 10 else 0


def payload(pages, number, at):
    """Of a cell with a row or an entry: the row's number, its bytes, and whether all pages are good that they lie in."""
    page, is_good = pages.get(number)
    kind = page[100 if number == 1 else 0]
    size, at = varint(page, at + (4 if kind == 2 else 0))
    row, at = varint(page, at) if kind == 13 else (0, at)
    room = pages.usable - 35 if kind == 13 else (pages.usable - 12) * 64 // 255 - 23
    least = (pages.usable - 12) * 32 // 255 - 23
    more = least + (size - least) % (pages.usable - 4)
    here = size if size <= room else more if more <= room else least
    if at + here > pages.usable or size > 1 << 25:
        raise Unreadable
    pieces, rest = [page[at : at + here]], size - here
    after = struct.unpack(">I", page[at + here : at + here + 4])[0] if rest else 0
    while rest:
        page, is_well = pages.get(after) if 1 < after <= pages.count else (b"", False)
        if not page:
            raise Unreadable
        is_good &= is_well
        pieces.append(page[4 : 4 + min(rest, pages.usable - 4)])
        rest -= len(pieces[-1])
        after = struct.unpack(">I", page[:4])[0]
    return row, b"".join(pieces), is_good


class Tree:
    """The cells of a tree, as far as pages lead to them, each with whether its page is good. `is_whole`: none is missing."""

    def __init__(self, pages, root, is_index):
        self.pages, self.cells, self.seen, self.is_whole = pages, [], set(), True
        self.kinds = (2, 10) if is_index else (5, 13)
        ahead = [(root, -1, 1 << 64)]
        while ahead:
            number, low, high = ahead.pop()
            try:
                ahead += reversed(self.visit(number, low, high))
            except WRONG:
                self.is_whole = False
        self.is_whole &= all(is_good for _, _, is_good in self.cells)

    def visit(self, number, low, high):
        """Takes a page's cells, and tells its children with the row numbers between which theirs are."""
        if not 0 < number <= self.pages.count or number in self.seen:
            raise Unreadable
        self.seen.add(number)
        page, is_good = self.pages.get(number)
        kind, places, last = cells_of(page, number, self.pages.usable)
        if kind not in self.kinds:
            raise Unreadable
        self.is_whole &= is_good
        if kind == 13:
            rows = [varint(page, varint(page, it)[1])[0] for it in places]
            is_good &= rows == sorted(set(rows)) and (not rows or low < rows[0] and rows[-1] <= high)
        if kind != 5:
            self.cells += [(number, it, is_good) for it in places]
        if kind > 5 or not is_good:
            return []
        children = [struct.unpack(">I", page[it : it + 4])[0] for it in places] + [last]
        if kind == 2:
            return [(it, -1, 1 << 64) for it in children]
        bounds = [low, *(varint(page, it + 4)[0] for it in places), high]
        return list(zip(children, bounds, bounds[1:]))


# ---- packs


def sum_of_place(data):
    """The sum of a place in a pack, as a signed number: SipHash-1-3 of eight zeros and its bytes, and never 0."""
    most, data = (1 << 64) - 1, bytes(8) + data
    a, b, c, d = 0x736F6D6570736575, 0x646F72616E646F6D, 0x6C7967656E657261, 0x7465646279746573
    words = struct.iter_unpack("<Q", data + bytes(7 - len(data) % 8) + bytes([len(data) % 256]))
    for word, rounds in chain(((it, (1,)) for (it,) in words), ((None, (1, 2, 3)),)):
        c ^= 0xFF if word is None else 0
        d ^= word or 0
        for _ in rounds:
            a, c = a + b & most, c + d & most
            b, d = (b << 13 | b >> 51) & most ^ a, (d << 16 | d >> 48) & most ^ c
            a, c = (a << 32 & most | a >> 32) + d & most, c + b & most
            b, c, d = (b << 17 | b >> 47) & most ^ c, (c << 32 | c >> 32) & most, (d << 21 | d >> 43) & most ^ a
        a ^= word or 0
    found = a ^ b ^ c ^ d or 1
    return found - (1 << 64) if found >> 63 else found


class Packs:
    """The packs of a host's file, beside it where links to it lead: they are only read."""

    def __init__(self, file):
        self.folder = os.path.realpath(file) + PACKS

    def bytes_at(self, pack, place, size):
        """Some bytes of a pack; fewer where they can't be read."""
        try:
            with open(os.path.join(self.folder, f"{pack + 1:08d}"), "rb", buffering=0) as it:
                return os.pread(it.fileno(), min(size, LARGEST), place)
        except (OSError, OverflowError):
            return b""


class NewPacks:
    """The packs of a new host, beside its file. `rows`: of each its number, length and live bytes; `placed`: the blocks that they have."""

    def __init__(self, file):
        self.folder, self.out, self.rows, self.placed = file + PACKS, None, [], []

    def add(self, block, data, sum):
        """Adds a block's bytes."""
        if not self.rows or self.rows[-1][1] + len(data) > PACK:
            self.close()
            os.makedirs(self.folder, 0o700, exist_ok=True)
            name = os.path.join(self.folder, f"{len(self.rows) + 1:08d}")
            self.out = open(name, "xb", opener=lambda path, flags: os.open(path, flags, 0o600))
            self.rows.append([len(self.rows), 0, 0])
        row = self.rows[-1]
        self.placed.append((*block, row[0], row[1], len(data), sum or sum_of_place(data)))
        self.out.write(data)
        row[1:] = [row[1] + len(data)] * 2

    def close(self):
        """Closes the last pack, once it is on the disk."""
        if self.out:
            self.out.flush()
            os.fsync(self.out.fileno())
            self.out.close()
            self.out = None
