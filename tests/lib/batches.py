"""Checks the mutants of a crate, many of them in one check, and judges each by the messages of the prover.

A contract is proved by itself, whatever the bodies of the functions that are called, so one check tries many mutants, one of each function:
a mutant is refused if a goal of its own function is. A mutant of a constant is refused by a goal that names it, and no other constant that
the check has wrong. A mutant on which a check says nothing, since a wrong callee hides it, is tried in a further check, and at last alone.
"""
import re
import shutil
import threading

from mutants import constants_within, function_at, homes_of, module_of
from programs import Ran
from verdicts import Said, without

CHECKED = re.compile(r"checked \w+::(\S+), \d+ of \d+$")
# So many edits make a check long compared with its loading, and short enough to share out.
MAX_EDITS = 80


class Crate:
    """Tries edits of one crate on copies of it, and judges them."""

    def __init__(self, copies, edits, lanes, cache):
        self.name, self.folder, self.copies, self.edits = copies.name, copies.folder, copies, edits
        self.lanes, self.cache = lanes, cache
        # Functions that only tests call are compiled with the tests.
        self.flags = ["--test"] * self.name.endswith("_tests")
        self.names = {name for it in self.folder.glob("src/**/*.rt") for name in re.findall(r"\bfn (\w+)", it.read_text())}
        # Paths that name no function, as rt check --only says.
        self.homes, self.unknown = homes_of(self.folder), set()
        self.guard, self.keys = threading.Lock(), {}
        self.seconds, self.alone = 0.0, 0

    def pending(self):
        """Returns the edits that a check has to try."""
        return [it for it in self.edits if not it.is_kept and it.fits]

    def has_own_name(self, module):
        """Returns whether rt check --only can name the module: it isn't the crate's root, and no function is named as it is."""
        return module and module.split("/")[-1] not in self.names

    def asked(self, edit):
        """Returns the paths that rt check --only is given for an edit, none if it can't name them.

        Those are its functions, or the module of one whose path isn't known; for a constant its own module and the laws.
        """
        if edit.asks:
            return set(edit.asks) - self.unknown
        paths = {it: [path for path in it.paths(self.homes) if path not in self.unknown][:1] for it in edit.functions.values()}
        modules = {it.module for it, found in paths.items() if not found}
        if not edit.functions and edit.file.startswith("src/"):
            modules = {module_of(edit.file), *["laws"] * (self.folder / "src/laws.rt").exists()}
        named = {it.replace("/", "::") for it in modules if self.has_own_name(it)} - self.unknown
        if edit.functions and len(named) < len(modules):
            return set()
        return named.union(*paths.values())

    def check(self, edits, is_whole=False, gone=(), is_right=False):
        """Checks on a copy of the crate what these edits change, or all of it, and returns the messages.

        The answers in `gone`, by file, are left out of the copy. With `is_right` the right bodies are checked in place of the edits.
        """
        texts = {file: without((self.folder / file).read_text(), names) for file, names in dict(gone).items()}
        for edit in edits if not is_right else []:
            texts[edit.file] = edit.apply(texts.get(edit.file) or (self.folder / edit.file).read_text())
        with self.lanes.idle, self.copies.lent() as copy:
            for file, text in texts.items():
                (copy / file).write_text(text)
            ran = self.checked(edits, is_whole, copy)
            for file in texts:
                shutil.copy(self.folder / file, copy / file)
        share_seconds(ran, edits, self.homes)
        return Said(ran.said)

    def checked(self, edits, is_whole, copy):
        """Runs the check on a copy that has these edits, again if it was given a path that names no function."""
        while True:
            asked = set() if is_whole or not all(map(self.asked, edits)) else set().union(*map(self.asked, edits))
            flags = [word for it in sorted(asked) for word in ("--only", it)]
            ran = Ran(["rt", "check", "--jobs", "1", *self.flags, *flags], copy)
            with self.guard:
                self.seconds += ran.seconds
                unknown = Said(ran.said).unknown
                self.unknown |= unknown
            if not unknown & asked:
                return ran

    def parts(self, edit, said, is_alone=False):
        """Returns the messages on each function of an edit, or on all functions if the edit is alone."""
        if is_alone or not edit.functions:
            return [said.whole()]
        rows = [(it.key(), set(it.paths(self.homes)), it.is_of) for it in edit.functions.values()]
        return [said.part(lambda file, line: self.key_at(file, line) == key, paths.__contains__, is_of) for key, paths, is_of in rows]

    def key_at(self, file, line):
        """Returns the key of the function at a line. Edits are of single lines, so each line keeps its number."""
        if (file, line) not in self.keys:
            found = function_at(file, (self.folder / file).read_text().split("\n"), line - 1)
            self.keys[file, line] = found and found.key()
        return self.keys[file, line]

    def judge(self, edits, said, is_alone=False, is_whole=False):
        """Judges edits by the messages of a check. If only answers of an edit failed, it is checked again without these."""
        unsure = {}
        for edit in edits:
            parts = self.parts(edit, said, is_alone)
            edit.is_refused, edit.how = bool(said.ended) and all(it.is_refused() for it in parts), how_of(said)
            if any(it.answers for it in parts) and not edit.is_refused:
                unsure[edit] = parts
            paths = [set(it.paths(self.homes)) for it in edit.functions.values()]
            if paths and all(said.proved & it for it in paths):
                edit.is_judged, edit.how = True, "proved"
        if unsure:
            self.try_without(unsure, is_alone, is_whole)

    def try_without(self, unsure, is_alone, is_whole):
        """Tries edits without their answers that failed, and the right bodies without the same answers, and judges by both."""
        taken = {edit: [list(it.answers) for it in parts] for edit, parts in unsure.items()}
        said, is_more = None, True
        # An answer that cites one that is left out fails in its turn.
        while is_more:
            gone = names_by_file(it for parts in taken.values() for part in parts for it in part)
            said, is_more = self.check([*unsure], is_whole, gone), False
            for edit in unsure:
                for part, now in zip(taken[edit], self.parts(edit, said, is_alone)):
                    new = [it for it in now.answers if set(it.names) - gone.get(it.path, set())]
                    part += new
                    is_more |= bool(new)
        right = self.check([*unsure], is_whole, gone, is_right=True)
        for edit, parts in unsure.items():
            now = self.parts(edit, said, is_alone)
            rows = zip(parts, now, self.parts(edit, right, is_alone), taken[edit])
            whys = ["a goal is left" if first.is_refused() else it.refusal_beside(then, out) for first, it, then, out in rows]
            edit.is_refused = all(whys)
            left = " ".join(sorted(name for it in now for name in it.goals))
            rest = "an invariant fails, which decides nothing" if any(it.failures for it in now) else "proved"
            how = f"without the answers that fail: {left} {whys[-1]}".rstrip() if left else f"{rest} without the answers that fail"
            edit.how = how if said.ended and right.ended else how_of(said if right.ended else right)
            edit.is_judged = bool(said.ended and right.ended and edit.functions)

    def try_together(self, edits):
        """Tries edits of different functions in one check, and returns those that it doesn't decide."""
        said = self.check(edits)
        if not said.ended and len(edits) > 1:
            # An edit that can't be read hides the others.
            half = len(edits) // 2
            return self.try_together(edits[:half]) + self.try_together(edits[half:])
        self.judge(edits, said)
        return self.undecided(edits)

    def try_constants(self, edits):
        """Tries edits of constants in one check, and returns those that it doesn't decide."""
        within, said = constants_within(self.folder), self.check(edits)
        if len(edits) == 1:
            self.judge(edits, said, is_alone=True)
        goals = [set(re.findall(r"\w+", it)) for it in said.goals]
        for goal in goals:
            named = set().union(*(within[it] for it in goal & within.keys()))
            wrong = [it for it in edits if it.constants & named]
            if len(wrong) == 1:
                wrong[0].is_refused = True
        return self.undecided(edits)

    def try_alone(self, edit):
        """Tries an edit in a check of its own."""
        said = self.check([edit])
        self.judge([edit], said, is_alone=True)
        # A wrong constant or type may make any function wrong.
        if not edit.is_settled() and not edit.functions and not edit.control and self.asked(edit):
            self.judge([edit], self.check([edit], is_whole=True), is_alone=True, is_whole=True)
        edit.is_judged |= bool(said.ended)
        self.undecided([edit])

    def undecided(self, edits):
        """Keeps the edits that pass in the cache, and returns those without a verdict."""
        self.cache.keep(self.name, [it for it in edits if it.passes()])
        return [it for it in edits if not it.is_settled()]

    def try_all(self, pool):
        """Tries all pending edits: of functions together, again while that decides more of them, then of constants, at last alone."""
        good = self.pending()
        left = [it for it in good if it.functions]
        while left:
            were, batches = left, split_functions([it for it in left if self.asked(it)], self.folder)
            batches += split_functions([it for it in left if not self.asked(it)], self.folder)
            left = []
            if not self.copies.made:
                left += pool.submit(self.try_together, batches.pop(0)).result()
                self.copies.keep()
            left += [it for undecided in pool.map(self.try_together, batches) for it in undecided]
            if len(left) == len(were):
                break
        constants = [it for it in good if it.constants and self.asked(it)]
        left += [it for it in good if not it.functions and it not in constants]
        left += [it for undecided in pool.map(self.try_constants, split_constants(constants, self.folder)) for it in undecided]
        self.alone = len(left)
        list(pool.map(self.try_alone, left))


def share_seconds(ran, edits, homes):
    """Shares the seconds of a check among its edits: those of its functions, by the times of their lines, and a part of the rest."""
    took, last = {}, None
    for when, line in ran.lines:
        found = CHECKED.match(line)
        if found and last is not None:
            took[found[1]] = when - last
        last = when if found else last
    paths = {edit: {path for it in edit.functions.values() for path in it.paths(homes)} for edit in edits}
    own = {edit: sum(took.get(it, 0) for it in paths[edit]) for edit in edits}
    rest = max(0, ran.seconds - sum(own.values())) / len(edits)
    for edit in edits:
        edit.seconds += own[edit] + rest


def how_of(said):
    """Returns how a check ended that refused nothing."""
    if not said.ended:
        return f"it can't be read: {said.text.partition(chr(10))[0][:200]}"
    return "proved" if said.is_proved else "no message on it counts"


def names_by_file(answers):
    """Returns the names of answers by their files."""
    found = {}
    for it in answers:
        found.setdefault(it.path, set()).update(it.names)
    return found


class Batch:
    """Collects the edits of one check: each fits its file as the ones before it have changed it."""

    def __init__(self, folder):
        self.folder, self.edits, self.texts = folder, [], {}

    def takes(self, edit):
        """Adds an edit, and returns whether it could."""
        text = self.texts.get(edit.file) or (self.folder / edit.file).read_text()
        if len(self.edits) == MAX_EDITS or not edit.fits_in(text):
            return False
        self.edits.append(edit)
        self.texts[edit.file] = edit.apply(text)
        return True


def split(edits, folder, are_apart):
    """Splits the edits into batches, in the order of their files, so that any two of a batch are apart."""
    batches = []
    for edit in sorted(edits, key=lambda it: it.file):
        if not any(all(are_apart(edit, it) for it in batch.edits) and batch.takes(edit) for batch in batches):
            batches.append(Batch(folder))
            batches[-1].takes(edit)
    return [it.edits for it in batches]


def split_functions(edits, folder):
    """Splits edits of functions so that no two of a batch change the same one."""
    return split(edits, folder, lambda a, b: not a.functions.keys() & b.functions.keys())


def split_constants(edits, folder):
    """Splits edits of constants so that no constant of a batch takes its value from another, before or after the edits."""
    within = constants_within(folder)
    named = lambda edit: {word for _, new in edit.pairs for word in re.findall(r"\w+", new)} & within.keys()
    values = lambda edit: set().union(*(within[it] for it in edit.constants | named(edit)))
    return split(edits, folder, lambda a, b: not (values(a) & b.constants or values(b) & a.constants))
