#!/usr/bin/env python3
"""Tests scripts/lint, scripts/lint_additions and their modules on small texts, each with what they must report.

    tests/test_lint.py
"""
import pathlib
import sys
import tempfile
import unittest

sys.path.insert(0, str(pathlib.Path(__file__).resolve().parent / "lib"))
import check
import document_lists
import documents
import facade
from programs import script

lint, lint_additions = script("scripts/lint"), script("scripts/lint_additions")


def found(rule, path, text):
    """Returns how many times a text breaks a rule."""
    return len(list(rule(lint.Text(path, text))))


def function(lines):
    return "pub fn f(\n    a: u32,\n) -> u32\n    ensures { result \u2261 a }\n{\n" + "    a;\n" * (lines - 2) + "}\n"


class Rules(unittest.TestCase):
    """Which rules a text breaks."""

    def test_lengths(self):
        """Counts columns, except of an attribute, and lines of a file."""
        long = "x " * 100
        rows = {f"// {long}": 1, f"#[tactic(auto, using({long}))]": 0}
        self.assertEqual({it: found(lint.lengths, "a.rt", f"{it}\n") for it in rows}, rows)
        self.assertEqual([found(lint.lengths, "a.py", "x\n" * it) for it in (800, 801)], [0, 1])

    def test_functions(self):
        """Counts the lines of a body without its contract, in an impl too."""
        self.assertEqual([found(lint.functions, "a.rt", function(it)) for it in (40, 41)], [0, 1])
        within = "impl A {\n" + "".join(f"    {it}\n" for it in function(41).splitlines()) + "}\n"
        self.assertEqual(found(lint.functions, "a.rt", within), 1)
        self.assertEqual(found(lint.functions, "a.rt", "trait A {\n    fn f(&self);\n" + "    type B;\n" * 50 + "}\n"), 0)

    def test_comments(self):
        """Finds a roundabout word in a comment, not in code, and a function whose comment begins with no verb in the third person."""
        rows = {"// All but for one.\n": 1, "let told = but_for;\n": 0, "/// Returns a.\n#[inline]\npub fn f() {\n": 0}
        rows.update({"/// The a.\nfn f() {\n": 1, "/// The a.\nstruct A;\nfn f() {\n": 0, "    /// States, that a.\n    fn f() {\n": 0})
        self.assertEqual({it: found(lint.comments, "a.rt", it) for it in rows}, rows)

    def test_formats(self):
        """Finds blanks, ends of files, holes and folders of a machine."""
        rows = {"a\n": 0, "": 0, "a": 1, "a \n": 1, "a\tb\n": 1, "a\n\n": 1, "law = ?\n": 1, "in /ho" + "me/me/x\n": 1, "/dev/null\n": 0}
        self.assertEqual({it: found(lint.format_of, "a.antt", it) for it in rows}, rows)

    def test_names_and_links(self):
        """Finds a name in another style, and a link that leads nowhere."""
        rows = {"a/b_c.rt": 0, "a/B.rt": 1, "specs/Lib.antt": 0, "specs/lib.antt": 1, "a-b.edit": 1, "LICENSE": 0}
        self.assertEqual({it: found(lint.name_of, it, "") for it in rows}, rows)
        rows = {"[a](crates.txt)": 0, "[a](nowhere.md)": 1, "[a](https://nowhere)": 0, "[a](#b)": 0}
        self.assertEqual({it: found(document_lists.links, "a.md", it) for it in rows}, rows)

    def test_dead_names(self):
        """Finds a name in backticks that no source has, though the linter has it, and not one of a source."""
        rows = {"`nowhere_at_all`": 1, "`check_module` and `module.names_in_range`": 0, "`FILE.WORD`": 0}
        words = lint.vocabulary()
        self.assertEqual({it: found(lambda text: document_lists.dead_names(text, *words), "a.md", f"{it}\n") for it in rows}, rows)

    def test_words(self):
        """Finds a definition that has to be unfolded and that no document names."""
        words = "unfoldable pub one : \u2115\n  unfoldable pub two : \u2115\npub three : \u2115\n"
        self.assertEqual(document_lists.hidden(words, "`Numbers.one`, two"), ["two"])

    def test_answers(self):
        """Finds what is printed and not named, in a text or as a token, and a row on what isn't printed."""
        definitions = 'codes "{\\"one\\":" ++ key (codes "two") ++ text_member (codes "three") ++ codes "four" ++ "\\"Array\\""\n'
        page = "| Member | Meaning |\n|---|---|\n| `one[].four` | `three` |\n| `five` | two |\n"
        self.assertEqual(document_lists.unnamed(definitions, page), (["two"], ["five"]))

    def test_runs(self):
        """Finds a run of lines in two files, and in one, of any indent; not a shorter one, nor imports."""
        run = "".join(f"line {it};\n" for it in range(lint.RUN))
        two = lambda text: [lint.Text("a.rt", text), lint.Text("b.rt", "x;\n  " + text.replace("\n", "\n  "))]
        self.assertEqual(len(lint.runs(two(run))), 1)
        self.assertEqual(len(lint.runs([lint.Text("a.rt", run + run)])), 1)
        self.assertEqual(lint.runs(two(run.partition("\n")[2])), [])
        self.assertEqual(lint.runs(two(run.replace("line", "use line"))), [])

    def test_mutants(self):
        """Finds a mutant whose old text isn't there, an unconfirmed one too, and a control that fits though it must not."""
        edits = {
            "mutants/fits.edit": "file: src/a.rt\nold: a + 1\nnew: a\n",
            "mutants/is_gone.edit": "file: src/a.rt\nold: a + 2\nnew: a\n",
            "mutants/unconfirmed/stands_twice.edit": "file: src/a.rt\nold: a\nnew: b\n",
            "mutants/controls/is_elsewhere.edit": "control: unfit\nfile: src/a.rt\nold: a + 2\nnew: a\n",
            "mutants/controls/is_there.edit": "control: unfit\nfile: src/a.rt\nold: a + 1\nnew: a\n",
        }
        with tempfile.TemporaryDirectory() as room:
            for path, text in {"src/a.rt": "fn f(a: u32) -> u32 {\n    a + 1\n}\n", **edits}.items():
                (pathlib.Path(room) / path).parent.mkdir(parents=True, exist_ok=True)
                (pathlib.Path(room) / path).write_text(text)
            self.assertEqual(lint.unfit(pathlib.Path(room)), ["is_there", "is_gone", "stands_twice"])

    def test_controls(self):
        """Finds mutants without a harmless edit beside them; an edit that fits no file isn't one."""
        texts = {
            "src/a.rt": "fn f(a: u32) -> u32 {\n    a + 1\n}\n",
            "mutants/is_less.edit": "file: src/a.rt\nold: a + 1\nnew: a\n",
            "mutants/controls/is_gone.edit": "control: unfit\nfile: src/a.rt\nold: a + 2\nnew: a\n",
            "mutants/controls/is_turned.edit": "control: harmless\nfile: src/a.rt\nold: a + 1\nnew: 1 + a\n",
        }
        with tempfile.TemporaryDirectory() as room:
            folder, found = pathlib.Path(room), []
            for path, text in texts.items():
                (folder / path).parent.mkdir(parents=True, exist_ok=True)
                (folder / path).write_text(text)
                found.append(lint.is_controlled(folder))
            self.assertEqual(found, [True, False, False, True])


class Facade(unittest.TestCase):
    """Tests which public names the façade lacks."""

    def test_names(self):
        """Reads the names of each form of handing on."""
        text = "pub use a::b;\npub use a::c::{d, e,\n    f,\n};\npub use g as h;\nuse a::i;\n"
        self.assertEqual(facade.names_used(text), {"b", "d", "e", "f", "g"})

    def test_missing(self):
        """Finds a name that is neither handed on nor of a crate that is, nor an inner one."""
        public = {"a": {"one", "two", "three"}, "b": {"four"}, "c": {"five"}}
        self.assertEqual(facade.missing({"one"}, {"b"}, public, {"two", "c"}), ["a::three"])


class Documents(unittest.TestCase):
    """Which rules of form a document breaks."""

    def rules(self, text):
        """Returns the rule of each place that breaks one."""
        return [rule for _, rule, _ in documents.wrong_in(text)]

    def test_lines(self):
        """Counts columns of prose and of code, not of an address, and characters of a cell, a link as its text."""
        rows = {"word " * 21: "columns", "    " + "x" * 97: "shown", "a " * 20 + "https://" + "x" * 90: None}
        rows.update({f"| a | {'x' * 81} |": "cell", f"| a | {'x' * 80} |": None, f"| [{'x' * 70}]({'y' * 70}) | b |": None})
        self.assertEqual({it: self.rules(f"{it.rstrip()}\n") for it in rows}, {it: [rule] * bool(rule) for it, rule in rows.items()})

    def test_sentences(self):
        """Counts the words of a sentence over lines and in items, a span of code as one word, and begins anew after an end."""
        long = "A " + "word\n" * 29
        rows = {f"{long}x.\n": 1, f"{long.strip()}.\n": 0, f"{long.strip()}. {long.strip()}.\n": 0, f"- {long}x.\n": 1}
        rows.update({f"{long}`x`.\n": 1, "A " + "word " * 28 + "`two words`.": 0})
        self.assertEqual({it: self.rules(it).count("sentence") for it in rows}, rows)

    def test_words(self):
        """Finds a roundabout word, not one in a span or a block of code."""
        rows = {"All but for one.": ["words"], "All `but for` one.": [], "    all but for one": [], "It is told here.": ["words"]}
        self.assertEqual({it: self.rules(f"{it}\n") for it in rows}, rows)

    def test_exceptions(self):
        """Lets a document break a rule as often as it may, and reports an exception that allows more."""
        exceptions = documents.Exceptions("# why\n1 words a.md a reason\n2 cell b.md a reason\n")
        self.assertEqual(exceptions.beyond("a.md", "All but for one.\n"), [])
        self.assertEqual(len(exceptions.beyond("c.md", "All but for one.\n")), 1)
        self.assertEqual(len(exceptions.beyond("a.md", "All but for one, but for two.\n")), 2)
        self.assertEqual(exceptions.loose(), ["cell of b.md: 2, found 0"])

    def test_examples(self):
        """Takes a function with what is above it, and a definition up to the next blank line."""
        code = ["use a;", "", "/// Returns a.", "fn a() {", "    b", "}", ""]
        self.assertEqual(document_lists.function(code, "a"), code[2:6])
        words = ["-- before", "", "-- A is b.", "abbrev pub A (b : C) : B", "  = c", "", "D : E"]
        self.assertEqual(document_lists.definition(words, "A"), words[2:5])
        self.assertEqual([document_lists.function(code, "b"), document_lists.definition(words, "F")], [None, None])


class Additions(unittest.TestCase):
    """What a list has, and what it must have."""

    texts = {"crates/a/src/b.rt": "A::Old", "crates/a/specs/C.antt": "Old", "crates/c/src/d.rt": "Older"}
    arms = "    match a {\n        Kind::A | Kind::B => 1,\n        _ => 2,\n    }\n"

    def test_lists(self):
        """Reads items below their folder, over lines, up to the next paragraph."""
        items = "- `crates/a`: `src/b.rt`, what `Old` is;\n  `specs/D.antt`\n- `crates/e.rt`\n"
        guide = f"Files that name `Old` or `No`:\n\n{items}\nText `x.rt`.\n"
        wanted = {"crates/a/src/b.rt", "crates/a/specs/C.antt"}
        found = {"crates/a/src/b.rt", "crates/a/specs/D.antt", "crates/e.rt"}
        self.assertEqual([it[1:] for it in lint_additions.lists(guide, self.texts)], [(found, wanted)])

    def test_arms(self):
        """Finds a match of the type with an arm for all else, and no other."""
        rows = {self.arms: True, self.arms.replace("Kind", "Other"): False, self.arms.replace("_ =>", "Kind::C =>"): False}
        self.assertEqual({it: lint_additions.has_arm("Kind", it) for it in rows}, rows)


if __name__ == "__main__":
    sys.exit(check.run_tests(__doc__))
