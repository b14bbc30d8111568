"""What a check of the prover printed, read."""
import re
from dataclasses import dataclass
from functools import cached_property

# A text of src/ or specs/ that could not be read, in which case no contract was tried.
ERROR = re.compile(r"(?:\./)?(\S+?):(\d+):\d+: error: (?:(`[^`]*`): )?(.*)")
UNREAD = re.compile(r"is not in scope|has no field|is no name|operand is missing|expected the end|cannot continue")
STALE = re.compile(r"module .Rattle-(\w+)-.*Run the lower steps again")
UNPROVED = ("no proof", "not proved")


def is_of_return(goal):
    """Whether a goal is for what the function ensures when it returns. The names of all others follow the body's text."""
    return goal.startswith("returns")


def clause_of(goal):
    """The contract's clause that a goal is for, or the name of another goal."""
    return goal.partition("clause-")[2] or "ensures" if is_of_return(goal) else goal


@dataclass(frozen=True)
class Refusal:
    """Why a function isn't proved: the goals that stay open, and what was said of each."""

    goals: tuple
    reasons: tuple
    # The lines of proof files, by file, whose terms fit no more: what was written for the right body says little of a wrong one.
    misfits: tuple

    def clauses(self, is_of_contract=False):
        """The contract's clauses among the goals, and unless these alone are asked for the names of other goals: what a call of the
        body requires, what a loop keeps."""
        return {clause_of(it) for it in self.goals if is_of_return(it) or not is_of_contract}


@dataclass
class Said:
    """What a check said."""

    status: int
    text: str
    # The files of src/ that an edit changed.
    changed: set

    @cached_property
    def lines(self):
        return self.text.rstrip("\n").split("\n")

    @cached_property
    def trouble(self):
        """Why the check says nothing of any contract, or None."""
        for line in self.lines:
            error = ERROR.match(line)
            if error and (error[1] in self.changed or error[1].startswith(("src/", "specs/"))):
                if not error[3] or UNREAD.search(re.sub(r"`[^`]*`", "", error[4])):
                    return f"the prover cannot read the edited text, so no contract was tried: {line[:200]}"
        if STALE.search(self.text):
            return "the kept work of a library could not be used"
        if self.status not in (0, 1) or not any(it.startswith(("logic=", "only=")) for it in self.lines):
            return "\n".join(["it did not reach the prover; what it said last:", *self.lines[-6:]])
        return None

    def verdicts(self, crate, place):
        """What is said of a function and its closures, by their paths."""
        named = re.findall(rf"(?m)^fn {crate.name}::(\S+): (.*)", self.text)
        return {path: verdict for path, verdict in named if place.is_named(path)}

    def refused_anywhere(self, crate):
        """The functions of a crate that in themselves aren't proved, by their names, and why."""
        paths = {path: 0 for path in re.findall(rf"(?m)^fn {crate.name}::(\S+): (?:no proof|not proved)", self.text)}
        found = {path: self.refusal_at(crate, [path]) for path in paths}
        return {path: refusal for path, refusal in found.items() if refusal}

    def is_proved(self, crate, place):
        found = self.verdicts(crate, place)
        return bool(found) and all(it.startswith("proved") for it in found.values())

    def is_judged(self, crate, place):
        """Whether the function has a verdict: proved or not, and no limit of the prover was met."""
        found = self.verdicts(crate, place)
        return bool(found) and all(it.startswith(("proved", *UNPROVED)) for it in found.values())

    def refusal_of(self, crate, place):
        """Why this function in itself isn't proved, or None: a callee that isn't proved is no reason."""
        return self.refusal_at(crate, self.verdicts(crate, place))

    def refusal_at(self, crate, paths):
        """The same of functions by their names in the crate."""
        goals, reasons, misfits = [], [], []
        verdicts = dict(re.findall(rf"(?m)^fn {crate.name}::(\S+): (.*)", self.text))
        for path, verdict in ((path, verdicts[path]) for path in paths):
            if not verdict.startswith(UNPROVED):
                continue
            open_goals = verdict.partition("`search` did not prove ")[2].partition("; it calls")[0]
            goals += re.findall(r"`([^`]+)`", open_goals)
            reasons += [f"open: {open_goals}"] if open_goals else []
            folder = f"proofs/{path.replace('::', '/')}/"
            errors = [error for it in self.lines if (error := ERROR.match(it)) and error[1].startswith(folder)]
            misfits += [(it[1], int(it[2])) for it in errors]
            reasons += [it[0][:300] for it in errors]
        return Refusal(tuple({it: 0 for it in goals}), tuple(reasons), tuple(misfits)) if goals or misfits else None


def declarations(text):
    """The declarations of a proof file, in order: their names, and the numbers of their lines, counted from 1. What comes before
    the first one has the name of its first word."""
    found, name = [], None
    for number, line in enumerate(text.split("\n"), 1):
        head = re.match(r"(?:pub |abbrev )*([^\s:]+)", line)
        if line[:1] not in ("", " ") and head and head[1] != name:
            name = head[1]
            found.append((name, []))
        if not found:
            found.append(("", []))
        found[-1][1].append(number)
    return found


def names_at(text, numbers):
    """The names of the declarations of a proof file that hold lines of these numbers; imports are none."""
    held = {name for name, lines in declarations(text) if numbers & {*lines}}
    return held - {"use", "mod", ""}


def without(text, names):
    """A proof file without the declarations of these names."""
    lines = text.split("\n")
    return "\n".join(lines[at - 1] for name, held in declarations(text) if name not in names for at in held)


def answered_by(file, text, names):
    """The goals that terms of a proof file answer, or None if that may be any: a whole path has one term, or it is a lemma that
    other terms use, or what a loop keeps."""
    goals = {*re.findall(r"(?m)^(?:abbrev )?(?:pub )?(\S+) : goal\.\1$", text)}
    is_whole = any(is_of_return(it) and "clause-" not in it for it in names)
    return None if is_whole or not names <= goals or not file.endswith("/Answers.antt") else names
