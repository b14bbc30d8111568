"""What a long run is made of (test_soak.py): a server that its clients know to end, a clock that jumps, tenants that change and read what
they have, and now and then go with all of it, an operator, and what was done so far."""
import json
import random
import re
import socket
import subprocess
import threading
import time
from array import array
from collections import Counter

from host import COUNT, PATIENCE, Clock, Server, all_of, command, is_quick, removed
from model import BUCKETS, KEYS, Drawn, Refused, delete

# What an answer says of a request: it was carried out, or refused for the clock, or nobody knows.
TOLD, REFUSED, OPEN = "told", "refused by the clock", "not answered"
# Seconds by which the clock may run ahead, and by how many it does where that is believed.
STEP, AHEAD = 600, 500
# The share of a tenant's requests that change something.
CHANGES = 0.4
SPARE, QUOTA = "spare", 1 << 40
# The share of what a tenant does by which it goes with all it has; of a program without a proof, which does little.
REMOVALS, SLOW_REMOVALS = 0.004, 0.02
# What a server may keep that nobody needs. None: what it keeps where nothing is said.
MUCH = "1TiB"
KEEPS = [None, None, "0", "100kB", "5MB", MUCH]
# The seconds between two backups, during which all others wait.
RESTS = (1, 20)


class Wrong(RuntimeError):
    """A server answered what it mustn't."""


class Tally:
    """How often each thing was done, and how long gets took."""

    def __init__(self):
        self.lock, self.counts, self.gets = threading.Lock(), Counter(), array("f")

    def add(self, kind, count=1):
        with self.lock:
            self.counts[kind] += count

    def got(self, seconds):
        with self.lock:
            self.gets.append(seconds)

    def of(self, kinds):
        """How often, by kind; of all of these kinds."""
        with self.lock:
            return {it: self.counts[it] for it in kinds}

    def slowest(self, share):
        """The seconds within which such a share of the gets was answered."""
        with self.lock:
            found = sorted(self.gets)
        return found[min(int(share * len(found)), len(found) - 1)] if found else 0


# ---- the clock


class Jumping(Clock):
    """The machine's clock, from which it jumps while it may: back, some minutes ahead, or days, which a server mustn't believe."""

    def __init__(self, folder, tally, chance):
        super().__init__(folder, time.time())
        self.tally, self.chance, self.lock, self.ends, self.may = tally, chance, threading.Lock(), threading.Event(), False
        self.offset, self.next, self.last_leap = 0, 0, 0
        self.thread = threading.Thread(target=self.run, daemon=True)
        self.thread.start()

    def run(self):
        while not self.ends.wait(0.1):
            with self.lock:
                if self.may and time.monotonic() > self.next:
                    self.jump()
                self.show()

    def show(self):
        """Programs read the time from here on."""
        self.set(time.time() + self.offset)
        if self.last_leap == float("inf") and self.offset <= AHEAD:
            self.last_leap = time.monotonic()

    def jump(self):
        kind = self.chance.choice(["back", "ahead", "home", "days ahead"] if self.offset <= AHEAD else ["home"])
        offsets = {"back": (-5000, 0), "ahead": (1, AHEAD), "home": (0, 1), "days ahead": (100_000, 10_000_000)}
        self.offset = self.chance.randrange(*offsets[kind])
        self.next = time.monotonic() + (self.chance.uniform(0.3, 1) if kind == "days ahead" else self.chance.uniform(0.5, 4))
        if kind == "days ahead":
            self.last_leap = float("inf")
        self.tally.add("jumps of the clock")

    def rest(self, may=False):
        """It is the machine's again, and jumps from now on, or doesn't."""
        with self.lock:
            self.offset, self.may, self.next = 0, may, time.monotonic() + 1
            self.show()

    def leapt(self, since):
        """Whether it was days ahead at some moment since then."""
        return self.last_leap >= since

    def end(self):
        self.ends.set()
        self.thread.join(PATIENCE)


# ---- a server


class Life(Server):
    """A server from its start to its end. `failing`: the first sync fails from that call on, after which it comes to its end; `keep`: what
    it keeps that nobody needs."""

    def __init__(self, program, file, door, clock, library, failing=None, keep=None):
        env = {"LD_PRELOAD": f"{clock.env['LD_PRELOAD']}:{library}", "CLOCK_FILE": clock.file}
        if failing:
            env |= {"CALL_DOES": "refuse-sync", "CALL_NUMBER": str(failing)}
        self.file, self.door, self.clock, self.fails, self.ending = file, door, clock, bool(failing), threading.Event()
        words = ["--operator-socket", door, "--clock-step", str(STEP), "--timeout", "60", "--force", *(["--keep-garbage", keep] if keep else [])]
        super().__init__(program, file, *words, count=COUNT, **env)

    def is_over(self):
        """Whether it is ended, or ends since a sync failed."""
        try:
            return self.ending.is_set() or self.fails and self.process.wait(PATIENCE) is not None
        except subprocess.TimeoutExpired:
            return False

    def order(self, **members):
        """The reply to an operator's line, as much as there is of it."""
        try:
            with socket.socket(socket.AF_UNIX) as it:
                it.settimeout(self.patience)
                it.connect(self.door)
                it.sendall(json.dumps(members).encode() + b"\n")
                return all_of(it).decode()
        except (ConnectionError, FileNotFoundError):
            return ""

    def outcome(self, answer, begun):
        """What an answer says of a request that was sent then."""
        if answer.is_whole and answer.refusal() == 30 and self.clock.leapt(begun):
            return REFUSED
        if answer.is_whole and answer.refusal() == 31 and self.fails:
            return OPEN
        return TOLD if answer.is_whole else self.unanswered(answer)

    def unanswered(self, found):
        if self.is_over():
            return OPEN
        raise Wrong(f"the server lives and answers {found!r}")

    def replied(self, reply, begun):
        """What a reply to an operator's line says."""
        if reply == "30 ClockOutOfRange\n" and self.clock.leapt(begun):
            return REFUSED
        if reply.endswith("\n") and not (self.fails and reply in ("48 Unavailable\n", "fault\n")):
            return TOLD
        return OPEN if reply and self.fails else self.unanswered(reply)

    def ordered(self, wanted, **members):
        """What is said of an order whose reply is to be this."""
        begun = time.monotonic()
        reply = self.order(**members)
        outcome = self.replied(reply, begun)
        if outcome == TOLD and reply != wanted:
            raise Wrong(f"{members} is answered {reply!r}")
        return outcome

    def asked(self, tenant, target, body=b""):
        """What is said of a tenant's PUT, which is to be done."""
        begun = time.monotonic()
        answer = self.ask(tenant, "PUT", target, body)
        outcome = self.outcome(answer, begun)
        if outcome == TOLD and answer.status != 200:
            raise Wrong(f"PUT {target} of {tenant} is answered {answer}")
        return outcome


class Client(threading.Thread):
    """Does one thing after another on a server until that ends. What went wrong is kept."""

    def __init__(self, life, tally):
        super().__init__(daemon=True)
        self.life, self.tally, self.begun, self.wrong = life, tally, time.monotonic(), None

    def run(self):
        try:
            while not self.life.ending.is_set():
                outcome = self.take()
                if outcome != TOLD:
                    self.tally.add(outcome)
                    time.sleep(0.05)
                if outcome == OPEN:
                    return
        except Exception as error:
            self.wrong = f"{type(error).__name__}: {error}"


# ---- tenants


class Question:
    """A request that changes nothing, and what is wanted of its answer."""

    def __init__(self, kind, method, target, wanted, fields=()):
        self.kind, self.method, self.target, self.wanted, self.fields = kind, method, target, wanted, fields


def body_of(entry):
    return b"".join(entry.pieces)


def size_of(entry):
    return sum(map(len, entry.pieces))


def place(tenant, chance):
    """A bucket, a key, and what the key has there: its versions, newest first."""
    bucket, key = chance.choice([*BUCKETS]), chance.choice(KEYS)
    return bucket, key, tenant.buckets[bucket].get(key, [])


def get(tenant, chance):
    bucket, key, found = place(tenant, chance)
    entry = chance.choice(found) if found and chance.random() < 0.5 else None
    told, target = entry or (found[0] if found else None), f"/{bucket}/{key}" + (f"?versionId={entry.id()}" if entry else "")
    if told is None or told.pieces is None:
        return Question("get of nothing", "GET", target, lambda it: it.status == (405 if entry else 404))
    return Question("get", "GET", target, lambda it: (it.status, it.body) == (200, body_of(told)))


def part_of(tenant, chance):
    bucket, key, found = place(tenant, chance)
    body = body_of(found[0]) if found and found[0].pieces is not None else b""
    if not body:
        return usage(tenant, chance)
    first = chance.randrange(len(body))
    last = chance.randrange(first, len(body))
    return Question("range", "GET", f"/{bucket}/{key}", lambda it: (it.status, it.body) == (206, body[first : last + 1]), [f"range: bytes={first}-{last}"])


def head(tenant, chance):
    bucket, key, found = place(tenant, chance)
    if not found or found[0].pieces is None:
        return Question("head", "HEAD", f"/{bucket}/{key}", lambda it: it.status == 404)
    size = str(size_of(found[0]))
    return Question("head", "HEAD", f"/{bucket}/{key}", lambda it: (it.status, it.fields.get("content-length")) == (200, size))


def listing(tenant, chance):
    bucket = chance.choice([*BUCKETS])
    wanted = [(key, size_of(found[0]), found[0].sum) for key, found in sorted(tenant.buckets[bucket].items()) if found and found[0].pieces is not None]
    return Question("list", "GET", f"/{bucket}?list-type=2",
                    lambda it: it.status == 200 and [(row["Key"], row["Size"], row["ChecksumSHA256"]) for row in json.loads(it.body)["Contents"]] == wanted)


def usage(tenant, chance):
    wanted = tenant.usage()
    return Question("usage", "GET", "/?usage", lambda it: it.status == 200 and json.loads(it.body) == wanted)


QUESTIONS = {get: 10, part_of: 3, head: 2, listing: 2, usage: 1}


def kind_of(step):
    """What a step does."""
    if step.fields:
        return "copy"
    if "?upload" in step.target:
        return {"PUT": "part", "DELETE": "abort", "POST": "begin" if step.target.endswith("s") else "complete"}[step.method]
    return step.method.lower()


class Removal:
    """An order by which a tenant goes, and after which it wasn't made anew. `is_sure`: it was answered."""

    def __init__(self, is_sure):
        self.is_sure = is_sure


def made_anew(life, tenant):
    """Makes a tenant that is gone anew, with its key and its buckets, as far as there is a server: what is said of the last of it."""
    name = tenant.name
    tenant.__init__(name)
    making = [lambda: life.ordered(f"tenant {name}\n", op="tenant-add", tenant=name, quota=QUOTA),
              lambda: life.ordered(f"key {name}$k1\n", op="key-add", tenant=name, name="k1", secret=name + "secret")]
    for bucket, is_enabled in BUCKETS.items():
        making.append(lambda bucket=bucket: life.asked(name, f"/{bucket}"))
        making += [lambda bucket=bucket: life.asked(name, f"/{bucket}?versioning", b'{"Status":"Enabled"}')] if is_enabled else []
    for make in making:
        while (outcome := make()) == REFUSED:
            time.sleep(0.05)
        if outcome == OPEN:
            break
    return outcome


def settle_removal(life, tenant, waiting):
    """Reads whether a tenant is gone; then it is made anew, from the start. Else it is as it was, which is left to be read."""
    name, removal = tenant.name, waiting[tenant.name]
    told = life.order(op="usage", tenant=name)
    removal.is_sure = removal.is_sure or told == "42 NoSuchTenant\n"
    if removal.is_sure:
        told = life.order(op="tenant-remove", tenant=name, with_objects=True)
        if told not in (f"removed {name}\n", "42 NoSuchTenant\n") or made_anew(life, tenant) != TOLD:
            raise Refused(f"tenant-remove of {name} is answered {told!r}, and it isn't there again")
    elif not told.startswith(f"usage {name} bytes "):
        raise Refused(f"usage of {name} is answered {told!r}")
    waiting.pop(name)


class Tenant(Client):
    """A tenant's steps and questions, each answered as the model says. `waiting`: a step, or a removal, that was not answered."""

    def __init__(self, life, tally, tenant, chance, sizes, most, removals):
        super().__init__(life, tally)
        self.tenant, self.chance, self.drawn, self.most, self.removals = tenant, chance, Drawn(random.Random(chance.random()), sizes), most, removals
        self.waiting = None

    def step(self):
        """The next one: where there are more versions than there are to be, one of them goes."""
        found = [(bucket, key, it) for bucket, keys in self.tenant.buckets.items() for key, entries in keys.items() for it in entries if it.number is not None]
        return delete(self.tenant, *self.chance.choice(found)) if len(found) > self.most else self.drawn.step(self.tenant)

    def take(self):
        if self.chance.random() < self.removals:
            return self.remove()
        if self.chance.random() < CHANGES:
            return self.change(self.step())
        question, = self.chance.choices([*QUESTIONS], QUESTIONS.values())
        return self.ask(question(self.tenant, self.chance))

    def change(self, step):
        begun, answer = time.monotonic(), step.ask(self.life)
        outcome = self.life.outcome(answer, begun)
        if outcome == OPEN:
            self.waiting = step
        elif outcome == TOLD:
            if answer.status not in (200, 204):
                raise Wrong(f"{step.told()} is answered {answer}")
            step.change(self.tenant)
            self.tally.add(kind_of(step))
        return outcome

    def remove(self):
        """The tenant goes with all it has, once it was refused to go without, and is made anew."""
        name = self.tenant.name
        outcome = self.life.ordered("49 TenantNotEmpty\n", op="tenant-remove", tenant=name, with_objects=False)
        if outcome != TOLD:
            return outcome
        outcome = self.life.ordered(f"removed {name}\n", op="tenant-remove", tenant=name, with_objects=True)
        self.waiting = None if outcome == REFUSED else Removal(outcome == TOLD)
        if outcome == TOLD:
            self.tally.add("tenants that went")
            outcome = made_anew(self.life, self.tenant)
            self.waiting = None if outcome == TOLD else self.waiting
        return outcome

    def ask(self, it):
        begun = time.monotonic()
        answer = self.life.ask(self.tenant.name, it.method, it.target, fields=it.fields)
        took = time.monotonic() - begun
        outcome = self.life.outcome(answer, begun)
        if outcome == TOLD:
            if not it.wanted(answer):
                raise Wrong(f"{it.kind} {it.target} of {self.tenant.name} is answered {answer}, {len(answer.body)} bytes")
            self.tally.add(it.kind)
            if it.kind == "get":
                self.tally.got(took)
        return outcome


# ---- the operator


class Spare:
    """A tenant that only the operator changes: its keys and its quota. `other`: what it may be where an order wasn't answered."""

    def __init__(self, keys=("k1",), quota=QUOTA, number=1):
        self.keys, self.quota, self.number, self.other = {*keys}, quota, number, None

    def told(self):
        return f"of keys {' '.join(sorted(self.keys))} and quota {self.quota}"

    def settle(self, life):
        """Reads what it is. A spare that is as one of both, or an error."""
        told = life.order(op="keys", tenant=SPARE), life.order(op="usage", tenant=SPARE)
        found = re.fullmatch(r"keys spare \d+((?: k\d+)*)\n", told[0]), re.fullmatch(r"usage spare bytes 0 quota (\d+)\n", told[1])
        if not all(found):
            life.unanswered(told)
            return self
        for it in filter(None, (self, self.other)):
            if (it.keys, it.quota) == ({*found[0][1].split()}, int(found[1][1])):
                it.other, it.number = None, max(self.number, it.number)
                return it
        raise Wrong(f"the spare tenant is {told}, and not {self.told()}, nor {self.other and self.other.told()}")


class Order:
    """An operator's line, the form of its reply, and what it makes of the spare tenant."""

    def __init__(self, wanted, change=None, **members):
        self.wanted, self.change, self.members = wanted, change, members


def key_added(spare, chance):
    spare.number += 1
    name = f"k{spare.number}"
    return Order(rf"key spare\${name}\n", lambda it: it.keys.add(name), op="key-add", tenant=SPARE, name=name, secret=f"{name}-secret")


def key_removed(spare, chance):
    if len(spare.keys) < 2:
        return key_added(spare, chance)
    name = chance.choice(sorted(spare.keys - {"k1"}))
    return Order(rf"removed spare\${name}\n", lambda it: it.keys.discard(name), op="key-remove", tenant=SPARE, name=name)


def quota_set(spare, chance):
    quota = chance.randrange(1, QUOTA)
    return Order(rf"quota spare {quota}\n", lambda it: setattr(it, "quota", quota), op="quota", tenant=SPARE, quota=quota)


def keys_told(spare, chance):
    return Order(rf"keys spare {len(spare.keys)}(?: k\d+)+\n", op="keys", tenant=SPARE)


def usage_told(spare, chance):
    return Order(rf"usage spare bytes 0 quota {spare.quota}\n", op="usage", tenant=SPARE)


def tenants_told(spare, chance):
    return Order(rf"tenants \d+( [a-z]+ bytes \d+ quota \d+ keys \d+)*? spare bytes 0 quota {spare.quota} keys {len(spare.keys)}( [a-z]+ .*)?\n", op="tenants")


def report_told(spare, chance):
    return Order(r"blocks \d+ stored \d+ referred \d+ clashes 0\n", op="report")


def swept(spare, chance):
    return Order(r"sweep uploads 0 blocks \d+ (complete|partial)\n", op="sweep", limit=chance.choice([1, 10, 1000]))


ORDERS = {key_added: 3, key_removed: 3, quota_set: 2, keys_told: 2, usage_told: 2, tenants_told: 1, report_told: 6, swept: 1}


class Operator(Client):
    """Orders, one after another, and now and then a backup, which is to be sound."""

    def __init__(self, life, tally, program, spare, chance):
        super().__init__(life, tally)
        self.program, self.spare, self.chance, self.stored = program, spare, chance, None
        self.rests = chance.uniform(*RESTS)

    def take(self):
        if is_quick(self.program) and time.monotonic() > self.begun + self.rests:
            self.begun = time.monotonic()
            return self.back_up()
        time.sleep(self.chance.uniform(0, 0.05))
        order, = self.chance.choices([*ORDERS], ORDERS.values())
        return self.give(order.__name__, order(self.spare, self.chance))

    def give(self, name, order):
        begun = time.monotonic()
        reply = self.life.order(**order.members)
        outcome = self.life.replied(reply, begun)
        if outcome == TOLD:
            if not re.fullmatch(order.wanted, reply):
                raise Wrong(f"{order.members} is answered {reply!r}")
            order.change and order.change(self.spare)
            self.tally.add("orders")
            self.look_at(name, reply)
        elif outcome == OPEN and order.change:
            self.spare.other = Spare(self.spare.keys, self.spare.quota, self.spare.number)
            order.change(self.spare.other)
        return outcome

    def look_at(self, name, reply):
        """Counts sweeps: those that were ordered, and those by which fewer bytes stood between two reports without one."""
        if name == "swept":
            self.tally.add("sweeps that were ordered")
            self.stored = None
        if name == "report_told":
            now = int(reply.split()[3])
            if self.stored is not None and now < self.stored:
                self.tally.add("own sweeps that were seen")
            self.stored = now

    def back_up(self):
        copy = self.life.file + "-copy"
        removed(copy)
        outcome = self.give("backup", Order(r"backup\n", op="backup", to=copy))
        if outcome == TOLD:
            told = command(self.program, copy, "check")
            if told != ("sound", 0):
                raise Wrong(f"check of a backup says {told}")
            self.tally.add("backups")
        removed(copy)
        return outcome


def measures_of(program):
    """The sizes of bodies that are drawn, how many versions a tenant has at most, all of which are read when a server begins, and how
    often it goes."""
    return ([0, 10, 3_000, 70_000, 200_000, 1_000_000, 3_000_000], 40, REMOVALS) if is_quick(program) else ([0, 10, 3_000, 10_000], 8, SLOW_REMOVALS)
