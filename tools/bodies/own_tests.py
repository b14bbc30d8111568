"""The tests of tools/wrong-bodies. Its right bodies mean what the code means: none may be called refused by a clause."""
import os
import tempfile
import unittest
from types import SimpleNamespace

from .libraries import build_libraries
from .edits import Place, edits_in
from .rooms import Room
from .stamps import AGED, FRESH, NEVER, Stamp, Standing, stamp_of
from .trials import NO_EVIDENCE, NOT_REFUSED, REFUSED, try_together
from .verdicts import Said, names_at, without

RIGHT = f"{os.path.dirname(os.path.realpath(__file__))}/right"
PROOF = """use Rattle.a.{b}

pub returns : goal.returns
returns g c =
    let x = 1 in
    x

pub returns-clause-told : goal.returns-clause-told
returns-clause-told g = refl
"""
LAST_TERM = "use Rattle.a.{b}\n\npub returns-clause-told : goal.returns-clause-told\nreturns-clause-told g = refl\n"
FILE = "proofs/a/f/Answers.antt"


class Scripted:
    """A room whose checks say what they are given, one after another, and note the proof file that each was given."""

    def __init__(self, folder, *said):
        self.crate, self.folder = SimpleNamespace(name="x"), folder
        self.said, self.proofs = [*said], []
        os.makedirs(f"{folder}/proofs/a/f")
        with open(f"{folder}/{FILE}", "w", encoding="utf-8") as file:
            file.write(PROOF)

    def check(self, texts, _places):
        self.proofs.append(texts.get(FILE, PROOF))
        return Said(1, self.said.pop(0), set())


class Changed:
    """An edit of one function."""

    def places(self):
        return [Place("src/a.rt", "", "", "f")]

    def applied(self, _texts):
        return {}


MISFIT = f"{FILE}:5:1: error: no such name\nfn x::a::f: not proved\nonly=1 proved=0"


def open_goals(*goals):
    return f"fn x::a::f: no proof: `search` did not prove {', '.join(f'`returns-clause-{it}`' for it in goals)}\nonly=1 proved=0"


class Parts(unittest.TestCase):
    """What needs no prover."""

    def tried(self, *said):
        with tempfile.TemporaryDirectory() as folder:
            room = Scripted(folder, *said)
            edit = Changed()
            outcome = try_together(room, [edit])[edit]
            self.assertEqual(room.said, [])
            return outcome, room.proofs

    def test_what_is_open_for_the_right_body_too_is_no_evidence(self):
        outcome, proofs = self.tried(MISFIT, open_goals("told"), open_goals("told"))
        self.assertEqual(outcome.kind, NO_EVIDENCE)
        self.assertEqual(proofs, [PROOF, without(PROOF, {"returns"}), without(PROOF, {"returns"})])

    def test_what_is_open_for_the_wrong_body_alone_is_evidence(self):
        outcome, _ = self.tried(MISFIT, open_goals("told", "kept"), open_goals("told"))
        self.assertEqual((outcome.kind, outcome.clauses), (REFUSED, ("kept",)))

    def test_what_no_term_answers_needs_no_control(self):
        also = MISFIT.replace(":5:", ":9:").replace("not proved", open_goals("kept").partition(": ")[2])
        outcome, _ = self.tried(also)
        self.assertEqual((outcome.kind, outcome.clauses), (REFUSED, ("kept",)))

    def test_a_control_without_a_verdict_is_no_evidence(self):
        outcome, _ = self.tried(MISFIT, open_goals("told"), "fn x::a::f: could not tell\nonly=1 proved=0")
        self.assertEqual(outcome.kind, NO_EVIDENCE)

    def test_a_proof_that_fits_needs_no_control(self):
        outcome, _ = self.tried(open_goals("told"))
        self.assertEqual((outcome.kind, outcome.clauses), (REFUSED, ("told",)))

    def test_what_is_found_without_its_terms_is_not_refused(self):
        outcome, _ = self.tried(MISFIT, "fn x::a::f: proved\nonly=1 proved=1")
        self.assertEqual(outcome.kind, NOT_REFUSED)

    def test_terms_are_left_out_by_name(self):
        self.assertEqual(names_at(PROOF, {5}), {"returns"})
        self.assertEqual(names_at(PROOF, {1}), set())
        self.assertEqual(without(PROOF, {"returns"}), LAST_TERM)

    def test_stamps_are_read_as_they_are_written(self):
        refused = Stamp(4, ("a", "b", "c", "d"), "kit", "c0ffee", "2026-11-28", None, "told")
        for it in (Stamp(3), refused, Stamp(4, ("a",), "kit", "c", "d", 5, "x,y")):
            self.assertEqual(stamp_of(it.line(("crate", "name")).split()[2:]), it)

    def test_what_a_landing_waits_for(self):
        self.assertTrue(Standing(AGED, landings=13).is_too_old)
        self.assertFalse(Standing(AGED, landings=12).is_too_old)
        self.assertTrue(Standing(NEVER, landings=1).is_too_old)
        self.assertFalse(Standing(NEVER, landings=0).is_too_old)
        self.assertFalse(Standing(FRESH, refused=1).is_too_old)


def is_well(crates, names):
    """Whether the tests pass, and the right bodies of these crates or of all aren't refused."""
    passed = unittest.TextTestRunner().run(unittest.defaultTestLoader.loadTestsFromTestCase(Parts)).wasSuccessful()
    tried = [crates[it] for it in sorted(os.listdir(RIGHT)) if not names or it in names]
    failed = build_libraries([it for it in crates.values() if any(it in [*crate.below, crate] for crate in tried)])
    for crate in (it for it in tried if not failed):
        with tempfile.TemporaryDirectory(prefix="wrong-bodies-") as folder:
            room = Room(crate, folder)
            for edit in edits_in(f"{RIGHT}/{crate.name}", crate):
                outcome = try_together(room, [edit])[edit]
                print(f"{'FAILED: ' * outcome.is_refused}{edit} (a right body): {outcome}", flush=True)
                passed = passed and not outcome.is_refused
    return passed and not failed
