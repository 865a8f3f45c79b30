#!/usr/bin/env python3
"""Tests how the messages of the prover on a mutant are judged, over outputs that were kept, and how mutants are chosen. Proves nothing.

Each text in tests/data/prover_output is the output of a check, without the lines that no judgement reads. The first is of a mutant, the one
of the same name with 'without' is of it without the answers that failed, and 'right' is of the right body without them.
"""
import pathlib
import sys
import unittest
import unittest.mock

sys.path.insert(0, str(pathlib.Path(__file__).resolve().parent / "lib"))
import check
from crates import TOP, listed
from selection import Choice, code_of, commit_before, edits_in, files_changed, names_in
from verdicts import Said, clause_of, without

SAMPLES = TOP / "tests/data/prover_output"


def said(name):
    """Returns the messages of a kept output."""
    return Said((SAMPLES / f"{name}.txt").read_text())


def compared(first, then, right):
    """Returns why a mutant is refused without its answers that failed, compared with the right body, or an empty text."""
    return said(then).whole().refusal_beside(said(right).whole(), said(first).whole().answers)


class Judgement(unittest.TestCase):
    """Tests the judgement by one check of a mutant."""

    def test_goals(self):
        """Takes a goal that is left for a refusal, also if only the function's line names it."""
        for name in ("goal_left", "goal_false", "search_at_its_limits"):
            self.assertTrue(said(name).whole().is_refused(), name)

    def test_no_goals(self):
        """Takes neither a failed answer for a refusal, nor a crate that can't be read, nor a proof."""
        answers = ("trivial", "trivial_for_all", "unfit", "names_a_field", "names_nothing", "imports_nothing")
        others = ("invariant_failed", "lemma_failed", "goals_renamed", "unread_name", "unread_text", "proved")
        for name in (*(f"answer_{it}" for it in answers), *others):
            self.assertFalse(said(name).whole().is_refused(), name)

    def test_ends(self):
        """Distinguishes a check that ended from one that couldn't read its crate, and one that proved everything that it was given."""
        unread = {it: (False, False) for it in ("unread_name", "unread_text", "unknown_function")}
        proved = {it: (True, True) for it in ("proved", "proved_whole")}
        rows = {**unread, **proved, **{it: (True, False) for it in ("goal_left", "not_proved_whole")}}
        self.assertEqual({name: (bool(said(name).ended), said(name).is_proved) for name in rows}, rows)
        self.assertEqual(said("unknown_function").unknown, {"pick"})
        self.assertEqual(said("goal_left").proved, {"handle::Handle::from_index", "arena::Iter::new"})

    def test_failures(self):
        """Finds why an answer failed: on a trivial goal, by a name, with a lemma, or because its goal is gone."""
        rows = {it: (True, False, False) for it in ("answer_trivial", "answer_trivial_for_all")}
        rows |= {it: (False, False, False) for it in ("answer_unfit", "lemma_failed")}
        rows |= {it: (False, True, False) for it in ("answer_names_a_field", "answer_names_a_field_below", "answer_names_nothing")}
        rows["goals_renamed"] = (False, True, True)
        failed = {name: said(name).whole().answers[-1] for name in rows}
        self.assertEqual({name: (it.is_trivial, it.is_by_name, it.is_gone) for name, it in failed.items()}, rows)
        self.assertEqual({tuple(it.names) for it in failed.values()}, {("returns-clause-twice",), ("returns-then-more-gt100",)})

    def test_rejected(self):
        """Follows an answer through the lemmas that it cites to the one that was rejected, and why."""
        answer = said("lemma_rejected").whole().answers[-1]
        self.assertEqual((answer.names, answer.is_by_name), (["returns"], False))

    def test_parts(self):
        """Separates the messages on several functions."""
        many = said("many")
        part = many.part(lambda file, line: (file, line) == ("src/unique_arena.rt", 109), {"unique_arena::UniqueArena::len"}.__contains__,
                         lambda folder: folder == "range/PlacesIterator/next")
        self.assertEqual(sorted(part.goals), ["overflow_sub-result", "returns-clause-entries", "returns-clause-len"])
        self.assertEqual([it.names for it in part.answers], [["returns-clause-steps"]])


class Comparison(unittest.TestCase):
    """Tests the judgement by two checks without the answers that failed, of the mutant and of the right body."""

    def test_trivial(self):
        """Refuses nothing if the goal of the answer that failed is trivial, so that the search proves it."""
        self.assertFalse(compared("answer_trivial", "proved", "goal_left_without"))
        self.assertFalse(compared("answer_trivial_for_all", "proved", "proved"))

    def test_left(self):
        """Refuses a mutant that leaves a goal of a clause for which the right body leaves none."""
        self.assertTrue(compared("answer_unfit", "goal_left_without", "proved"))
        self.assertTrue(compared("answer_names_a_field", "goal_left_without", "proved"))

    def test_both_left(self):
        """Refuses for a goal that both leave only if an answer for that goal failed, and not by a name alone."""
        self.assertTrue(compared("answer_unfit", "goal_left_without", "goal_left_without"))
        self.assertTrue(compared("lemma_failed", "goal_left_without", "goal_left_without"))
        self.assertFalse(compared("answer_names_a_field", "goal_left_without", "goal_left_without"))
        self.assertFalse(compared("goals_renamed", "goals_left_renamed", "goal_left_without"))
        self.assertTrue(compared("goals_renamed", "goals_left_renamed", "proved"))

    def test_false(self):
        """Refuses for a goal that is shown false, whatever the right body leaves."""
        self.assertTrue(compared("goals_renamed", "goals_false_renamed", "goal_left_without"))

    def test_invariant(self):
        """Refuses nothing if an invariant fails."""
        self.assertFalse(compared("answer_unfit", "invariant_failed", "proved"))


class Texts(unittest.TestCase):
    """Tests the reading of names and of proof files."""

    def test_clauses(self):
        """Finds the clause of a goal, whatever the steps before it."""
        rows = {"returns-clause-twice": ("returns", "twice"), "returns-then-same-gt50-clause-twice": ("returns", "twice")}
        rows |= {"type_of-requires-clause-names": ("requires", "names"), "sweep_cases-loop-case-preserved": ("preserved", "")}
        rows |= {"returns-then-is_struct": ("returns", ""), "overflow_add-all": ("overflow_add", "")}
        self.assertEqual({name: clause_of(name) for name in rows}, rows)

    def test_without(self):
        """Takes declarations out of a proof file, and leaves all others on their lines."""
        first, third = "first : A\nfirst = b\n", "third : A\nthird = b\n"
        second = "pub second : goal.second\nunfolding c\nsecond c =\n    let d : A = c in d\n"
        text = f"use A.{{b}}\n\n{first}\n{second}\n{third}"
        self.assertEqual(without(text, {"second"}), text.replace(second + "\n", "\n" * 5))
        self.assertEqual(without(text, {"first", "third"}), text.replace(first + "\n", "\n" * 3).replace(third, "\n\n"))


class Chosen(unittest.TestCase):
    """Tests which mutants a run tries."""

    def test_always(self):
        """Finds each mutant that every run tries."""
        always = Choice((), False).always
        paths = [TOP / "crates" / crate / f"mutants/{name}.edit" for crate, _, name in (it.partition("/") for it in always)]
        self.assertEqual([it for it in paths if not it.exists()], [])
        self.assertEqual(names_in("# a\n\nb/c\n"), {"b/c"})

    def test_named_crates(self):
        """Has a mutant that every run tries of each crate that a user names."""
        facade = ["shader_typing", *listed()["shader_typing"][1]]
        tried = {it.partition("/")[0] for it in Choice((), False).always}
        self.assertEqual({*facade, "shader_json_module", "report", "typer", "pethuvazh"} - tried, set())

    def test_takes(self):
        """Tries the list alone if nothing changed, all of a changed crate, and each mutant that changed."""
        choice = Choice((), False)
        choice.always, choice.changed, choice.edits = {"a/one"}, {"b"}, {"c/two"}
        rows = [("a", "one"), ("a", "two"), ("b", "one"), ("b", "two"), ("c", "one"), ("c", "two"), ("d", "one")]
        self.assertEqual([f"{crate}/{name}" for crate, name in rows if choice.takes(crate, name)], ["a/one", "b/one", "b/two", "c/two"])
        self.assertTrue(Choice((), True).takes("d", "one") and Choice(("d",), False).takes("d", "one"))

    def test_no_history(self):
        """Tries the list alone without a history, as nothing says what changed."""
        with unittest.mock.patch("selection.git", lambda *_: None):
            choice = Choice((), False)
        self.assertEqual((choice.takes_all, choice.since, choice.changed, choice.edits), (False, None, set(), set()))
        edits = [(it.parents[1].name, it.stem) for it in TOP.glob("crates/*/mutants/*.edit")]
        self.assertEqual({f"{crate}/{name}" for crate, name in edits if choice.takes(crate, name)}, choice.always)

    def test_since(self):
        """Finds the newest commit that is half a day older, and none in a shorter history."""
        half = 12 * 60 * 60
        rows = [f"a {9 * half}", f"b {8 * half + 1}", f"c {8 * half}", f"d {7 * half}"]
        self.assertEqual((commit_before(rows), commit_before(rows[:2])), ("c", None))

    def test_comments(self):
        """Takes no comment and no empty line for code, and any other line of a file."""
        texts = {"a.rt": "/// Says.\n\nfn a()\n    // why\n{}\n", "a.antt": "-- says\nabbrev a : ℕ\n  -- why\na = 1\n"}
        texts["a.edit"] = "// -- a\n"
        codes = {"a.rt": ["fn a()", "{}"], "a.antt": ["abbrev a : ℕ", "a = 1"], "a.edit": ["// -- a"]}
        self.assertEqual({it: code_of(it, texts[it]) for it in texts}, codes)

    def test_moved(self):
        """Takes a mutant that only moved within its crate for unchanged, and one that moved to another crate for a new one."""
        old, new = "crates/a/wrong-bodies", "crates/a/mutants"
        rows = {f"R100\t{old}/one.edit\t{new}/one.edit": set(), f"R100\tcrates/b/mutants/one.edit\t{new}/one.edit": {"a/one"}}
        rows |= {f"{it}\t{new}/two.edit": {"a/two"} for it in ("A", "M", "D")}
        rows |= {f"A\t{new}/controls/one.edit": set(), f"A\t{new}/unconfirmed/one.edit": set(), "M\tcrates/a/src/one.rt": set()}
        self.assertEqual({it: edits_in(files_changed([it])) for it in rows}, rows)


if __name__ == "__main__":
    sys.exit(check.run_tests(__doc__))
