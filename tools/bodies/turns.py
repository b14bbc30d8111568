"""What CI asks: every wrong body can be applied, none is aged for too long, and the famous and the oldest are refused anew."""
import random
import tempfile
import time
from concurrent.futures import ThreadPoolExecutor

from .rooms import OutOfTime, Room
from .running import Queue, lanes, table
from .stamps import AGED, FRESH, NEVER
from .trials import batches

# How long all of this may take at a landing, and how much of it goes to those that are fresh, in seconds.
TURN, TURN_OF_FRESH = 20 * 60, 5 * 60


def by_age(edits, standing, famous, landing):
    """The order in which they are tried: the famous ones that aren't fresh, those that were never refused, the aged ones, the
    oldest first, and then the fresh ones by their last refusal. Those of one age come in another order at each landing, so that
    all have their turn though nobody has kept the stamps of the last one."""
    ranks = {NEVER: 1, AGED: 2, FRESH: 3}
    drawn = random.Random(landing)
    mixed = sorted(edits, key=str)
    drawn.shuffle(mixed)

    def rank(edit):
        it = standing[edit]
        first = 0 if str(edit) in famous and it.status != FRESH else ranks[it.status]
        return first, -it.landings, it.refused

    return sorted(mixed, key=rank)


def types_at_fault(crate, edits, until):
    """The wrong bodies of a crate that the front end can't read or that have a wrong type, and what it said; None if the time
    was over first."""
    found = {}

    def look(room, batch):
        texts = {}
        for it in batch:
            texts |= it.applied(texts)
        trouble = room.types(texts).trouble
        if trouble and len(batch) > 1:
            look(room, batch[: len(batch) // 2])
            look(room, batch[len(batch) // 2 :])
        elif trouble:
            found[batch[0]] = trouble

    with tempfile.TemporaryDirectory(prefix="wrong-bodies-") as folder:
        room = Room(crate, folder, until)
        try:
            for batch in batches(edits, len(edits)):
                look(room, batch)
        except OutOfTime:
            return None
    return found


def read_types(edits, jobs, until=float("inf")):
    """The same of all crates of these wrong bodies, whose libraries are there. What crates the time was too short for is
    printed."""
    crates = {it.crate.name: it.crate for it in edits}
    with ThreadPoolExecutor(jobs) as pool:
        found = pool.map(lambda crate: types_at_fault(crate, [it for it in edits if it.crate is crate], until), crates.values())
        told = dict(zip(crates, found))
    if unread := [name for name, faults in told.items() if faults is None]:
        print(f"types: no time for those of {' '.join(unread)}")
    return {it: why for faults in told.values() for it, why in (faults or {}).items()}


def is_demand_met(crates, edits, famous, stamps, seconds):
    """Whether the wrong bodies are as CI wants them, and what isn't is printed. It tries first the famous ones that aren't fresh,
    and then the oldest, so long as less than so many seconds are over. It writes the stamps of those that were refused, which
    `--take` brings to another copy of the repository."""
    until = time.monotonic() + seconds
    standing = {it: stamps.standing(it) for it in edits}
    print(f"landing {stamps.landing}", table(crates, edits, standing), sep="\n", flush=True)
    old = [it for it in edits if standing[it].is_too_old]
    print("".join(f"{it}: {standing[it]}\n" for it in old), end="")
    unready = [it for it in crates if any(edit.crate is it for edit in edits) and not it.is_ready]
    if unready:
        print(f"not tried: no proved libraries of these files of {' '.join(it.name for it in unready)} ('make gate')")
        return False
    is_well = are_famous_refused([it for it in edits if str(it) in famous and standing[it].status != FRESH], stamps, until)
    rest = [it for it in edits if str(it) not in famous or standing[it].status == FRESH]
    # The types of a fresh one are as they were: nothing that it rests on has changed.
    aged = [it for it in rest if standing[it].status != FRESH]
    wrong = read_types(aged, lanes(), (time.monotonic() + until) / 2)
    print("".join(f"{it}: BAD EDIT: {why}\n" for it, why in wrong.items()), end="", flush=True)
    return are_refused([it for it in rest if it not in wrong], standing, famous, stamps, until) and is_well and not old and not wrong


def are_famous_refused(edits, stamps, until):
    """Whether these are all refused anew. For each there has to be time."""
    due = Queue(sorted(edits, key=str), stamps, until)
    is_well = due.run(lanes())
    print("".join(f"{it}: famous, not fresh, and there was no time for it\n" for it in due.untried), end="", flush=True)
    return is_well and not due.untried


def are_refused(edits, standing, famous, stamps, until):
    """Whether the oldest wrong bodies, as many as there is time for, are refused anew."""
    order = by_age(edits, standing, famous, stamps.landing)
    began = time.monotonic()
    due = Queue([it for it in order if standing[it].status != FRESH], stamps, until)
    is_well = due.run(lanes())
    left = TURN_OF_FRESH if not due.untried else 0
    fresh = Queue([it for it in order if standing[it].status == FRESH], stamps, min(time.monotonic() + left, until))
    is_well = fresh.run(lanes()) and is_well
    refused = sum(it.is_refused for it in [*due.outcomes.values(), *fresh.outcomes.values()])
    tried = len(due.outcomes) + len(fresh.outcomes)
    print(f"{refused} of {tried} wrong bodies refused, in {time.monotonic() - began:.0f} s; {len(due.untried)} that aren't fresh not tried")
    return is_well
