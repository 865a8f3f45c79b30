"""Judges the messages of the prover on an edit.

A goal that is left counts against the edit. It doesn't count if an answer written by hand for its clause names a goal that is gone, since
it may be that goal under a new name; if the prover found values that make it false, it counts in any case. If an invariant failed, no goal
counts.

If no goal counts and answers failed, two further checks leave these answers out: one of the edit and one of the right body. The edit is
refused if it leaves a goal for whose clause the right body leaves none. A goal that both leave decides nothing by itself. Then the edit is
refused only if the answer for that goal failed, on more than `Unit`, by its type or its search, and not by a name that the edit took away.
"""
import re

NOTE = re.compile(r"(?m)^note: (src/\S+?):(\d+):\d+: it is not proved (.*)$")
IN_NOTE = re.compile(r"\(`([^`]+)`\)")
IS_FALSE = "allow values at which this goal is false"
# A search that came to its limits shows only in the line of its function.
UNPROVED = re.compile(r"(?m)^fn \w+::(\S+): no proof: .*`search` did not prove (.*)$")
FAILED = re.compile(r"(?m)^(?:\./)?proofs/(\S+)\.antt:(\d+):\d+: (error.*(?:\n  .*)*)$")
OF_FAILED = re.compile(r"error: `([^`]+)`: ")
DEPENDS = re.compile(r"depends? on `([^`]+)`, which was (?:not admitted|rejected), (?:was|were) not checked: (.*)")
THROUGH = re.compile(r" \(via [^)]*\)")
NAME_IS_GONE = re.compile(r"has no field|is not in scope|has no `|was not admitted")
GOAL_IS_GONE = re.compile(r"Goals` has no `")
TRIVIAL = re.compile(r"expected type `(?:record \{\S+ : )?(?:[^`;]*(?:→|->) )?Unit \{0\}\}?`")
GOAL = re.compile(r"(?m)^note: `\S+` of proofs/\S+ must prove: (.*)$")
ENDED = re.compile(r"(?m)^(?:logic=(?P<whole>not-proved|proved)|only=(?P<asked>\d+) proved=(?P<proved>\d+))")
UNKNOWN = re.compile(r"(?m)^rattle: error: .* has no function `(\S+)`")
PROVED = re.compile(r"(?m)^fn \w+::(\S+): proved$")
# Matches the line that begins a declaration of a proof file, and so ends the one before it.
DECLARATION = re.compile(r"(?:(?:pub|abbrev|private|unfoldable) )*([^\s:]+) :(?: |$)|use |module |mutual\b")


def clause_of(goal):
    """Returns the kind and the name of the clause of a goal, whatever the names of the steps before it."""
    steps, _, clause = goal.partition("-clause-")
    words = steps.split("-")
    kinds = [it for it in words if it in ("returns", "requires", "preserved", "initial")]
    return (kinds or words)[0], clause


class Failure:
    """Holds an error that the prover found in an answer, an invariant or a lemma."""

    def __init__(self, path, line, why):
        self.folder, _, self.file = path.rpartition("/")
        self.path, self.line, self.why = f"proofs/{path}.antt", line, why
        self.depends = DEPENDS.search(why)
        found = OF_FAILED.match(why)
        self.names = THROUGH.sub("", self.depends[2]).split(", ") if self.depends else [found[1]] if found else []
        # A lemma that fails shows in the answers that cite it.
        self.is_answer, self.is_invariant = self.file == "Answers", self.file == "Invariants"
        self.is_gone, self.is_trivial = bool(GOAL_IS_GONE.search(why)), bool(TRIVIAL.search(why))
        self.is_by_name = False

    def only_names(self, failures, seen=()):
        """Returns whether it fails only by a name that the edit took away, itself or through the lemmas that it cites."""
        if self.depends and self.depends[1] not in seen:
            below = [it for it in failures if it is not self and self.depends[1] in it.names]
            return all(it.only_names(failures, (*seen, self.depends[1])) for it in below)
        # A message with a long path continues in a second line.
        return bool(NAME_IS_GONE.search(" ".join(self.why.split("\n")[:2])))


class Said:
    """Reads the output of a check."""

    def __init__(self, text):
        self.text, self.ended = text, ENDED.search(text)
        self.is_proved = bool(self.ended) and (self.ended["whole"] == "proved" or self.ended["asked"] == self.ended["proved"] is not None)
        self.notes = [(file, int(line), (IN_NOTE.findall(rest) or [""])[-1], IS_FALSE in rest) for file, line, rest in NOTE.findall(text)]
        self.unproved = [(path, name) for path, names in UNPROVED.findall(text) for name in re.findall(r"`([^`]+)`", names)]
        self.failures = [Failure(path, int(line), why) for path, line, why in FAILED.findall(text)]
        for it in self.failures:
            it.is_by_name = it.only_names(self.failures)
        self.proved = set(PROVED.findall(text))
        self.unknown = set(UNKNOWN.findall(text))
        self.goals = GOAL.findall(text)

    def part(self, is_noted, is_unproved, is_failed):
        """Returns the messages on one function, which three predicates recognize: by source line, by path and by folder of proofs."""
        goals = {name: False for path, name in self.unproved if is_unproved(path)}
        for file, line, name, is_false in self.notes:
            if is_noted(file, line):
                goals[name] = is_false or goals.get(name, False)
        return Part(goals, [it for it in self.failures if (it.is_answer or it.is_invariant) and is_failed(it.folder)])

    def whole(self):
        """Returns the messages on all functions."""
        return self.part(*[lambda *_: True] * 3)


class Part:
    """Holds the messages on a function: the goals that are left, each with whether it is shown false, and the failures of its proof."""

    def __init__(self, goals, failures):
        self.goals, self.failures = goals, failures
        self.answers = [it for it in failures if it.is_answer]

    def is_refused(self):
        """Returns whether a goal is left that decides by itself."""
        if len(self.answers) < len(self.failures):
            return False
        gone = {clause_of(name) for it in self.answers if it.is_gone for name in it.names}
        return any(is_false or clause_of(name) not in gone for name, is_false in self.goals.items())

    def refusal_beside(self, right, taken):
        """Returns why it is refused without the answers that were left out, compared with the right body, or an empty text."""
        if self.failures:
            return ""
        left = {clause_of(it) for it in right.goals}
        gone = {clause_of(name) for it in taken if it.is_gone for name in it.names}
        named = {name for it in taken for name in it.names}
        is_open = lambda name: clause_of(name) in left and (name in named or clause_of(name) in gone)
        if any(is_false or not is_open(name) for name, is_false in self.goals.items()):
            return "which the right body doesn't leave"
        unfit = {name for it in taken if not it.is_trivial and not it.is_by_name for name in it.names}
        return "for which its answer doesn't fit" if unfit & self.goals.keys() else ""


def without(text, names):
    """Returns a proof file without the declarations of these names. The other lines keep their numbers."""
    lines, is_out = [], False
    for line in text.split("\n"):
        found = DECLARATION.match(line)
        if found:
            is_out = found[1] in names
        lines.append("" if is_out else line)
    return "\n".join(lines)
