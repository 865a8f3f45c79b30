"""Checks the form of documents for scripts/lint: the length of a line, of a table cell and of a sentence, and roundabout words.

A document may break a rule a fixed number of times if tests/data/lint_exceptions.txt says so and why. Such a number may only shrink.
"""
import re

COLUMNS, CELL, WORDS = 100, 80, 30
# Words that say in a roundabout way what the plain one beside them says.
PLAIN = {
    r"\bbut for\b": "except",
    r"\bfor people\b": "text output",
    r"\b(?:is|are|was|were) told\b": "is printed, is reported",
    r"\bwrong[- ]bod(?:y|ies)\b": "mutant",
    r"\buntried\b": "unconfirmed",
}
LINK = re.compile(r"!?\[([^\]]*)\]\([^)\s]*\)")
SPAN = re.compile(r"(`+)(.+?)\1")
ITEM = re.compile(r"\s*(?:[-*+]|\d+[.)])\s+|\s*>\s?")
SENTENCE_END = re.compile(r"(?<=[.!?])[)\"'*_]*\s+(?=[\"'(*_]*[A-Z0-9`§\[])")
ABBREVIATION = re.compile(r"\b(?:e\.g|i\.e|etc|vs|cf|No|Nr)\.$")
ADDRESS = re.compile(r".*https?://\S+\S*$")


def is_row(line):
    return line.lstrip().startswith("|")


def cells_of(line):
    """Returns the cells of a row of a table as they are read: a link as its text."""
    shown = LINK.sub(r"\1", line.strip().replace("\\|", "¦"))
    return [it.strip() for it in shown.strip("|").split("|")]


def blocks_of(lines):
    """Yields each line with its number and its kind: `code`, `row`, `heading`, `blank`, `item` or `text`. What is indented below an item
    belongs to it; what four blanks indent after a blank line and outside an item is code."""
    fence, in_item, after_blank, in_code = None, False, True, False
    for number, line in enumerate(lines):
        bare = line.strip()
        if fence:
            yield number, line, "code"
            fence = None if bare.startswith(fence) else fence
            continue
        if bare.startswith(("```", "~~~")):
            fence = bare[:3]
            yield number, line, "code"
        elif not bare:
            after_blank = True
            yield number, line, "blank"
            continue
        elif line.startswith("    ") and (in_code or (after_blank and not in_item)):
            in_code = True
            yield number, line, "code"
            after_blank = False
            continue
        elif is_row(line):
            yield number, line, "row"
        elif bare.startswith("#"):
            in_item = False
            yield number, line, "heading"
        elif bare.startswith("<!--"):
            yield number, line, "comment"
        elif ITEM.match(line):
            in_item = True
            yield number, line, "item"
        else:
            if not line.startswith(" ") and after_blank:
                in_item = False
            yield number, line, "text"
        after_blank = in_code = False


def paragraphs(lines):
    """Yields each paragraph, item and cell of the prose with the number of its first line."""
    first, held = None, []
    for number, line, kind in blocks_of(lines):
        if kind == "text" and held:
            held.append(line.strip())
            continue
        if held:
            yield first, " ".join(held)
            held = []
        if kind in ("text", "item"):
            first, held = number, [ITEM.sub("", line, count=1).strip() if kind == "item" else line.strip()]
        elif kind == "row":
            for cell in cells_of(line):
                yield number, cell
    if held:
        yield first, " ".join(held)


def sentences(text):
    """Returns the sentences of a paragraph, a span of code as one word."""
    plain = SPAN.sub("`code`", LINK.sub(r"\1", text))
    found, held = [], ""
    for part in SENTENCE_END.split(plain):
        held = f"{held} {part}".strip()
        if not ABBREVIATION.search(held):
            found.append(held)
            held = ""
    return found + [held] * bool(held)


def words_of(sentence):
    return [it for it in sentence.split() if re.search(r"\w", it)]


def roundabout(prose):
    """Yields each roundabout word of a text, outside of spans of code, and the plain one."""
    plain = SPAN.sub("`code`", LINK.sub(r"\1", prose))
    for pattern, better in PLAIN.items():
        for found in re.findall(pattern, plain, re.I):
            yield found, better


def wrong_in(text):
    """Yields the number of each line of a document that breaks a rule, the name of the rule, and what is wrong."""
    lines = text.split("\n")
    for number, line, kind in blocks_of(lines):
        if kind == "row":
            for cell in cells_of(line):
                if len(cell) > CELL:
                    yield number, "cell", f"a cell of {len(cell)} characters, more than {CELL}"
        elif len(line) > COLUMNS and not (ADDRESS.match(line) and kind != "code"):
            yield number, "shown" if kind == "code" else "columns", f"a line of {len(line)} columns, more than {COLUMNS}"
    for number, paragraph in paragraphs(lines):
        for sentence in sentences(paragraph):
            count = len(words_of(sentence))
            if count > WORDS:
                yield number, "sentence", f"a sentence of {count} words, more than {WORDS}: {sentence[:60]} .."
        for found, better in roundabout(paragraph):
            yield number, "words", f"`{found}`: better {better}"


class Exceptions:
    """The places at which documents may break a rule, read from lines `COUNT RULE PATH reason`."""

    def __init__(self, text):
        found = (it.split(maxsplit=3) for it in text.splitlines() if it.strip() and not it.startswith("#"))
        self.most = {(path, rule): int(count) for count, rule, path, _ in found}
        self.seen = {}

    def beyond(self, path, text):
        """Returns the places of a document that break a rule more often than it may, and counts those of each rule."""
        by_rule = {}
        for number, rule, what in sorted(wrong_in(text)):
            by_rule.setdefault(rule, []).append((number, what))
        self.seen.update({(path, rule): len(it) for rule, it in by_rule.items()})
        return [it for rule, places in by_rule.items() if len(places) > self.most.get((path, rule), 0) for it in places]

    def loose(self):
        """Returns the exceptions that allow more than there is."""
        return [f"{rule} of {path}: {most}, found {self.seen.get((path, rule), 0)}"
                for (path, rule), most in self.most.items() if self.seen.get((path, rule), 0) < most]
