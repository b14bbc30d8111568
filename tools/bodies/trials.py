"""Tries wrong bodies: what the prover says of them, and what it says of the right body with the same terms left out."""
import re
from dataclasses import dataclass, field

from .calls import are_apart
from .crates import read
from .edits import BadEdit
from .verdicts import Refusal, answered_by, clause_of, is_of_return, names_at, without

# Edits that are tried in one check, which reads all that lies below the crate but once.
AT_ONCE = 24
# How often what doesn't fit in proof files is left out: what names a declaration that went doesn't fit either.
ROUNDS = 4

REFUSED, BY_SHAPE, NO_EVIDENCE = "refused", "refused, by shape", "NO EVIDENCE"
NOT_REFUSED, NOT_TOLD, BAD_EDIT = "NOT REFUSED", "NOT TOLD", "BAD EDIT"


@dataclass(frozen=True)
class Outcome:
    kind: str
    said: str
    # The clauses that are open for the wrong body and not for the right one.
    clauses: tuple = ()
    # Whether a term of a proof file had to be left out, so that the right body was checked without it too.
    is_controlled: bool = False

    @property
    def is_refused(self):
        return self.kind == REFUSED

    def __str__(self):
        how = f", {','.join(self.clauses)}{' (not open for the right body)' if self.is_controlled else ''}"
        return f"{self.kind}{how if self.is_refused else ''}{self.said}"


class Trial:
    """One check of edits of different functions, what is said of each place in the end, and which terms were left out."""

    def __init__(self, room, edits, said):
        self.room, self.edits = room, edits
        self.told = {place: said for it in edits for place in it.places()}
        # The names of the terms that are left out of each place's proof, by file.
        self.left_out = {}
        # What is said of the right bodies of these places with the same terms left out.
        self.right = None
        # Whether one of the edits kept the others from being looked at again.
        self.is_cut_short = False

    def refusal(self, place):
        return self.told[place].refusal_of(self.room.crate, place)

    def leave_out_misfits(self):
        """Leaves out the terms of proof files that don't fit the edited bodies, so that the checker looks for a proof of these
        goals without them. Only the functions whose terms didn't fit, and of which nothing else is open, are looked at again,
        without the edits of others."""
        for _ in range(ROUNDS):
            found = {it: refusal for it in self.told if it and (refusal := self.refusal(it)) and refusal.misfits}
            found = {it: refusal for it, refusal in found.items() if not self.open_beyond(it)}
            texts = self.texts(found)
            if not any([self.add_left_out(it, refusal, texts) for it, refusal in found.items()]):
                return
            again = self.room.check(self.texts(found), [*found])
            if again.trouble:
                self.is_cut_short = len(self.edits) > 1
                return
            self.told |= {it: again for it in found}

    def own_texts(self, *places):
        """The texts of the edits of these places."""
        texts = {}
        for it in self.edits:
            texts |= it.applied(texts) if {*places} & {*it.places()} else {}
        return texts

    def texts(self, places):
        """The same without the terms that are left out."""
        texts = self.own_texts(*places)
        return texts | self.thinned(places, texts)

    def thinned(self, places, texts):
        """The proof files of places without the terms that are left out; some of them have texts of their own."""
        names = {file: left for it in places for file, left in self.left_out.get(it, {}).items()}
        return {file: without(self.text(file, texts), left) for file, left in names.items()}

    def text(self, file, texts):
        return texts.get(file) or read(f"{self.room.folder}/{file}")

    def misfits(self, refusal, texts):
        """The names of the terms that don't fit, by file, in proof files of these texts."""
        found = {}
        for file, number in refusal.misfits:
            found.setdefault(file, set()).update(names_at(self.text(file, texts), {number}))
        return found

    def add_left_out(self, place, refusal, texts):
        """Notes the terms that don't fit, and returns whether there are any that weren't left out before."""
        left, is_more = self.left_out.setdefault(place, {}), False
        for file, names in self.misfits(refusal, texts).items():
            is_more = is_more or not names <= left.get(file, set())
            left.setdefault(file, set()).update(names)
        return is_more

    def open_beyond(self, place):
        """The clauses that are open for the wrong body, and that no term which doesn't fit or was left out is an answer to: the
        right body is proved with no such term, so they are not open for it."""
        refusal, found = self.refusal(place), set()
        left = self.left_out.get(place, {})
        for file, names in [*left.items(), *self.misfits(refusal, self.texts([place])).items()]:
            answered = answered_by(file, self.text(file, self.own_texts(place)), names)
            if answered is None:
                return set()
            found |= answered
        return refusal.clauses(not all(is_of_return(it) for it in found)) - {clause_of(it) for it in found}

    def check_right_bodies(self):
        """The control: the right bodies of the places whose terms were left out, without these terms. What doesn't fit then is
        left out too."""
        places = [it for it in self.left_out if (refusal := self.refusal(it)) and refusal.goals and not self.open_beyond(it)]
        for _ in range(ROUNDS if places else 0):
            texts = self.thinned(places, {})
            said = self.room.check(texts, places)
            found = {it: refusal for it in places if (refusal := said.refusal_of(self.room.crate, it)) and refusal.misfits}
            if not any([self.add_left_out(it, refusal, texts) for it, refusal in found.items()]):
                self.right = said
                return

    def right_refusal(self, place):
        """Why the right body isn't proved without the same terms, or None where nothing is known of it."""
        if not self.right or self.right.trouble or not self.right.is_judged(self.room.crate, place):
            return None
        refusal = self.right.refusal_of(self.room.crate, place) or Refusal((), (), ())
        return None if refusal.misfits else refusal

    def evidence(self, place):
        """The clauses that are open for the wrong body and not for the right one without the same terms. What a call requires and
        what a loop keeps counts only where nothing of that kind is open for the right one."""
        beyond = self.open_beyond(place)
        right = self.right_refusal(place)
        if beyond or place not in self.left_out or right is None:
            return beyond
        return self.refusal(place).clauses(not all(is_of_return(it) for it in right.goals)) - right.clauses()

    def outcome(self, edit):
        """What came of an edit."""
        places = [it for it in edit.places() if it]
        if not places:
            return self.outcome_outside()
        found = {it: refusal for it in places if (refusal := self.refusal(it))}
        reasons = "".join(f"\n    {it}" for refusal in found.values() for it in refusal.reasons)
        clauses = {clause for it in found for clause in self.evidence(it)}
        if clauses:
            return Outcome(REFUSED, reasons, tuple(sorted(clauses)), any(self.left_out.get(it) for it in found))
        if any(it.goals for it in found.values()):
            why = "; ".join(self.words_of(self.right_refusal(it)) for it in found)
            return Outcome(NO_EVIDENCE, f": the right body without these terms {why}{reasons}")
        if found:
            return Outcome(BY_SHAPE, reasons)
        if all(self.told[it].is_proved(self.room.crate, it) for it in places):
            return Outcome(NOT_REFUSED, ": the functions that it changes are still proved")
        return self.untold()

    def words_of(self, right):
        return "has no verdict" if right is None else f"has open {','.join(sorted(right.clauses())) or 'nothing'}"

    def outcome_outside(self):
        """What came of an edit outside of all functions, as of a constant: the functions that use it tell."""
        found = [it for it in self.told[None].refused_anywhere(self.room.crate).values() if it.goals and not it.misfits]
        if not found:
            return self.untold()
        return Outcome(REFUSED, "".join(f"\n    {it}" for it in found[0].reasons), tuple(sorted(found[0].clauses())))

    def untold(self):
        said = [line for it in {id(it): it for it in self.told.values()}.values() for line in it.lines]
        why = [it for it in said if re.match(r"fn \S+: (no proof|not proved|could not tell)", it) or ": error" in it]
        return Outcome(NOT_TOLD, "\n    ".join([": no refusal names a function that it changes", *[it[:300] for it in why[:8]]]))


def try_together(room, edits):
    """The outcomes of edits of different functions in one check: a function is proved from the contracts of what it calls, so
    what the others' bodies do changes nothing."""
    texts = {}
    for it in edits:
        texts |= it.applied(texts)
    said = room.check(texts, [place for it in edits for place in it.places()])
    if said.trouble and len(edits) > 1:
        half = len(edits) // 2
        return try_together(room, edits[:half]) | try_together(room, edits[half:])
    if said.trouble:
        return {edits[0]: Outcome(BAD_EDIT, f": {said.trouble}")}
    trial = Trial(room, edits, said)
    trial.leave_out_misfits()
    trial.check_right_bodies()
    outcomes = {it: trial.outcome(it) for it in edits}
    return outcomes | try_apart(room, outcomes, trial.is_cut_short)


def try_apart(room, outcomes, is_cut_short):
    """The outcomes of those of a check that another edit may have kept from being told: a function that calls one that isn't
    proved is not tried at all."""
    found = {}
    for it in (edit for edit, outcome in outcomes.items() if is_cut_short and outcome.kind == BY_SHAPE):
        found |= try_together(room, [it])
    untold = [it for it, outcome in outcomes.items() if outcome.kind == NOT_TOLD and len(outcomes) > 1]
    for it in [untold] if len(untold) < len(outcomes) else [[it] for it in untold]:
        found |= try_together(room, it) if it else {}
    return found


def named(places):
    """Functions by the owner and the name of each."""
    return {(it.owner, it.name) for it in places if it}


@dataclass
class Batch:
    """Edits of different functions of a crate, none of which calls another, that can be applied one after another."""

    edits: list = field(default_factory=list)
    places: set = field(default_factory=set)
    texts: dict = field(default_factory=dict)

    def takes(self, edit, at_once):
        places = edit.places()
        if len(self.edits) >= at_once or self.edits and None in {*places} | self.places or self.places & {*places}:
            return False
        if self.edits and not are_apart(edit.crate, named(places), named(self.places)):
            return False
        try:
            edit.applied(self.texts)
        except BadEdit:
            return False
        return True

    def add(self, edit):
        self.edits.append(edit)
        self.places |= {*edit.places()}
        self.texts |= edit.applied(self.texts)


def batches(edits, at_once=AT_ONCE):
    """The edits in as few batches as their functions allow; an edit outside of functions' bodies has one of its own."""
    found = []
    for edit in edits:
        batch = next((it for it in found if it.takes(edit, at_once)), None)
        if not batch:
            batch = Batch()
            found.append(batch)
        batch.add(edit)
    return [it.edits for it in found]
