"""What hypothesis draws: events that a model answers (drawn.py), and whether `bucketd script` answers them so."""
from hypothesis import HealthCheck, settings, strategies as st
from hypothesis.stateful import RuleBasedStateMachine, initialize, precondition, rule, run_state_machine_as_test

from drawn import KINDS, MODE, UNTIL, Dates, Listings, Uploads, answered, checksum, packed, spans, text_of, ways

LEAST = 4
TENANTS = ["green", "blue"]
# A script has few places (tenant, bucket and key), so that events meet; `AT` is the number of one.
PLACES = st.tuples(st.sampled_from(TENANTS), st.sampled_from([*KINDS, "vault"]), st.sampled_from("xyz"))
AT = st.integers(0, 2)
# Made of few pieces, so that bodies have blocks in common, also with those of the other tenant.
BODIES = st.lists(st.sampled_from([b"a", b"aaaa", b"bbbb", b"cc", b"\0\r\n\xff"]), max_size=5).map(b"".join)
# The number of one of a key's versions, or 0 for the newest; of an upload, and whether it is asked for under another key.
VERSIONS = st.integers(0, 5)
UPLOADS = st.tuples(st.integers(0, 9), st.booleans())
# How a date is given, mostly not at all, and how far from now it lies.
FORMS = st.sampled_from([*[""] * 12, "both", "both", "turned", "a mode", "a date", "another mode", "z", "-", ".0Z", "+00:00"])
DATES = st.tuples(FORMS, st.sampled_from([3, 1, 0, -1, 9, 27, 86_400]))
WAYS = st.sampled_from(ways([4, 1, 3, 16, 65536]))
# Which parts an upload is completed with, of the numbers of those that are there.
NAMED = {"all": lambda it: it, "turned": lambda it: it[::-1], "each second": lambda it: it[::2], "another": lambda it: [*it, 7], "one twice": lambda it: it + it[-1:]}


class Whole(Dates, Uploads):
    """All of a host but its listings."""


after_a_begin = precondition(lambda it: it.begun)


class Drawn(RuleBasedStateMachine):
    """Events of a model, which are run once they are all drawn. `program`: the bucketd that is run."""

    program, script, options = None, None, []

    def teardown(self):
        found = answered(self.program, self.script, *self.options)
        assert found is None, found


class Requests(Drawn):
    """Requests of two tenants in turn, by a clock that goes on, stands still and goes back."""

    @initialize(places=st.lists(PLACES, min_size=3, max_size=3, unique=True), options=WAYS)
    def begins(self, places, options):
        self.script, self.places, self.options, self.begun = Whole(LEAST), places, options, []
        for tenant in TENANTS:
            self.script.add(tenant, KINDS)
            self.script.version(tenant, "held", "Suspended")
            self.script.lock(tenant, "vault")

    def version(self, at, number):
        """A version that is there, or none, which asks for the newest."""
        found = self.script.entries(*at) if self.script.states[at[:2]] else []
        return found[number - 1] if 0 < number <= len(found) else None

    def dated(self, form, offset):
        """The header fields of a date, and the date; None where it isn't given as it should be."""
        date = max(0, self.script.now + offset)
        mode, until = MODE + "COMPLIANCE", UNTIL + text_of(date)
        fields = {"": [], "both": [mode, until], "turned": [until, mode], "a mode": [mode], "a date": [until], "another mode": [MODE + "GOVERNANCE", until]}
        return fields.get(form, [until[:-1] + form.strip("-"), mode]), date if form in ("both", "turned") else None

    @rule(seconds=st.sampled_from([1, 0, 2, 5, 100, -3]))
    def read_clock(self, seconds):
        self.script.read_clock(max(0, self.script.now + seconds))

    @rule(at=AT, body=BODIES, date=DATES)
    def put(self, at, body, date):
        self.script.put(*self.places[at], body, *self.dated(*date))

    @rule(at=AT, source=AT, version=VERSIONS, date=DATES)
    def copy(self, at, source, version, date):
        at, (_, *source) = self.places[at], self.places[source]
        self.script.copy(*at, (*source, self.version((at[0], *source), version)), *self.dated(*date))

    @rule(at=AT, version=VERSIONS, span=st.none() | st.sampled_from(spans(6)))
    def get(self, at, version, span):
        self.script.get(*self.places[at], self.version(self.places[at], version), span)

    @rule(at=AT)
    def delete(self, at):
        self.script.delete(*self.places[at])

    @rule(at=AT, version=VERSIONS, is_astray=st.booleans())
    def remove(self, at, version, is_astray):
        if entry := self.version(self.places[at], version):
            self.script.remove(*self.places[at][:2], "other" if is_astray else self.places[at][2], entry)

    @rule(at=AT, state=st.sampled_from(["Enabled", "Suspended"]))
    def change(self, at, state):
        if self.places[at][1] != "plans":
            self.script.version(*self.places[at][:2], state)

    @rule(at=AT, version=VERSIONS)
    def ask_date(self, at, version):
        self.script.retention(*self.places[at], self.version(self.places[at], version))

    @rule(at=AT, version=VERSIONS, date=DATES)
    def give_date(self, at, version, date):
        form, given = date[0], max(0, self.script.now + date[1])
        told = {"Mode": "GOVERNANCE" if form == "another mode" else "COMPLIANCE", "RetainUntilDate": text_of(given)[: 10 if form == "a date" else None]}
        document = b"[]" if form == "" else packed(dict(sorted(told.items(), reverse=form == "turned")))
        self.script.retention(*self.places[at], self.version(self.places[at], version), document, None if form in ("", "another mode", "a date") else given)

    @rule(at=AT)
    def begin(self, at):
        self.begun.append((self.places[at], self.script.begin(*self.places[at])))

    def upload(self, which, is_astray):
        """An upload that was begun, whatever became of it: whose it is, bucket, key and number."""
        (tenant, name, key), number = self.begun[which % len(self.begun)]
        return tenant, name, "w" if is_astray else key, number

    @after_a_begin
    @rule(which=UPLOADS, number=st.integers(1, 6), body=BODIES, sum=st.sampled_from([None, True, False]))
    def part(self, which, number, body, sum):
        self.script.part(*self.upload(*which), number, body, None if sum is None else checksum(body if sum else b"another"))

    @after_a_begin
    @rule(which=UPLOADS, named=st.sampled_from([*NAMED]), has_sums=st.booleans())
    def complete(self, which, named, has_sums):
        tenant, name, key, number = self.upload(*which)
        parts = self.script.uploads.get((tenant, number), (name, key, {}))[2]
        numbers = NAMED[named](sorted(parts)) or [1]
        self.script.complete(tenant, name, key, number, [(it, checksum(parts.get(it, b"")) if has_sums else None) for it in numbers])

    @after_a_begin
    @rule(which=UPLOADS)
    def abort(self, which):
        self.script.abort(*self.upload(*which))

    def teardown(self):
        """One tenant deletes all that it may, and both read what they have."""
        for at in self.places:
            for entry in list(self.script.entries(*at)):
                at[0] == "blue" and self.script.states[at[:2]] and self.script.remove(*at, entry)
        for at in self.places:
            for number in range(len(self.script.entries(*at)) + 1):
                self.script.get(*at, self.version(at, number))
        super().teardown()


TEXTS = st.lists(st.sampled_from(["a", "b", "/", "--", "é", "a/", "b--", "z"]), max_size=3).map("".join)
NEW_KEYS = st.tuples(st.sampled_from("abz"), TEXTS).map("".join)
PAGE = {"prefix": TEXTS, "delimiter": st.sampled_from(["", "/", "--", "é", "/a", "zz"]), "size": st.sampled_from([None, 0, 1, 2, 3, 7, 1000, 1001]), "is_read_on": st.booleans()}
# More than a page reads at once.
MANY = 70


def read_on(ask, marker, is_read_on):
    """A page, and those after it."""
    following = ask(marker)
    while following is not None and is_read_on:
        following = ask(following)


class Pages(Drawn):
    """Listings of a bucket, of its versions, of its uploads and of their parts, page by page."""

    @initialize(options=WAYS)
    def begins(self, options):
        self.script, self.options, self.grew = Listings(), options, set()
        self.script.version("green", "plans", "Enabled")

    @rule(key=NEW_KEYS, size=st.integers(0, 3))
    def put(self, key, size):
        self.script.put_key(key, "x" * size)

    @rule(key=NEW_KEYS)
    def delete(self, key):
        self.script.delete("green", "plans", key)

    @rule(state=st.sampled_from(["Suspended", "Enabled"]))
    def change(self, state):
        self.script.version("green", "plans", state)

    @rule(of=st.sampled_from(["versions", "uploads"]))
    def grow(self, of):
        """A key with many entries."""
        for _ in range(0 if of in self.grew else MANY):
            self.script.put_key("many", "x") if of == "versions" else self.script.begin("green", "plans", "many")
        self.grew.add(of)

    @rule(key=NEW_KEYS)
    def begin(self, key):
        self.script.begin("green", "plans", key)

    def upload(self, which):
        found = list(self.script.begun_keys())
        return found[which % len(found)] if found else None

    @rule(which=st.integers(0, 99))
    def abort(self, which):
        if upload := self.upload(which):
            self.script.abort("green", "plans", *upload)

    @rule(which=st.integers(0, 99), numbers=st.lists(st.sampled_from([*range(1, 40), 9999, 10000])), body=BODIES)
    def part(self, which, numbers, body):
        for number in numbers if (upload := self.upload(which)) else ():
            self.script.part("green", "plans", *upload, number, body)

    @rule(after=st.none() | TEXTS, **PAGE)
    def page(self, after, prefix, delimiter, size, is_read_on):
        read_on(lambda it: self.script.list(prefix, delimiter, it, size), after, is_read_on)

    @rule(key=st.none() | TEXTS, which=st.integers(0, 99), id=st.sampled_from([None, 0, 1, 8, "null", f"{9999:016x}", "none"]), **PAGE)
    def page_of_versions(self, key, which, id, prefix, delimiter, size, is_read_on):
        found = [it for it, entries in self.script.tenants["green"]["plans"].items() if entries]
        if id is not None and found:
            key = found[which % len(found)]
            ids = [it.id() for it in self.script.entries("green", "plans", key)]
            id = ids[id % len(ids)] if isinstance(id, int) else id
        marker = (key, id if found else None) if key else None
        read_on(lambda it: self.script.list_versions(prefix, delimiter, it, size), marker, is_read_on)

    @rule(key=st.none() | TEXTS, which=st.integers(0, 99), number=st.sampled_from([None, 1, 2, 9, 69, 2**62 - 1, 2**62, 2**63, 2**64 - 1]), **PAGE)
    def page_of_uploads(self, key, which, number, prefix, delimiter, size, is_read_on):
        upload = self.upload(which)
        key, number = (upload[0], number) if number and upload else (key, None)
        read_on(lambda it: self.script.list_uploads(prefix, delimiter, it, size), (key, number) if key else None, is_read_on)

    @rule(which=st.integers(0, 99), after=st.sampled_from([None, 0, 1, 7, 39, 10000, 9999999999]), size=PAGE["size"], is_read_on=st.booleans())
    def page_of_parts(self, which, after, size, is_read_on):
        if upload := self.upload(which):
            read_on(lambda it: self.script.list_parts(upload, it, size), after, is_read_on)

    def teardown(self):
        for list in (self.script.list, self.script.list_versions, self.script.list_uploads):
            list("", "", None, None)
        super().teardown()


def found_by(machine, program, count):
    """What is answered otherwise in one of so many scripts, with the steps that lead to it, or None. The same is drawn each time."""
    how = settings(max_examples=count, stateful_step_count=100, derandomize=True, database=None, deadline=None, report_multiple_bugs=False, suppress_health_check=list(HealthCheck))
    try:
        run_state_machine_as_test(type(machine.__name__, (machine,), {"program": program}), settings=how)
    except AssertionError as error:
        return "\n".join([*getattr(error, "__notes__", []), str(error)])
    return None
