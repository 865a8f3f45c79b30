"""Asks the program test_rows the questions of rows, and finds the answers in the facts that it tells (tests/data/rows/README.md).

A fact is a tab, a name, a space and a value, mostly as Rust's Debug prints it.
"""
import re

BAD = "bad question"
KINDS = ("index", "buffer", "image_load", "binding_array")
SIZES = {"Bi": 2, "Tri": 3, "Quad": 4}
SCALAR = r"Scalar \{ kind: (\w+), width: (\d+) \}"
SCALAR_TYPE = re.compile(rf"Scalar\({SCALAR}\)")
VECTOR = re.compile(rf"Vector \{{ size: (\w+), scalar: {SCALAR} \}}")
MATRIX = re.compile(rf"Matrix \{{ columns: (\w+), rows: (\w+), scalar: {SCALAR} \}}")
LETTERS = {"Sint": "i", "Uint": "u", "Float": "f"}
WHOLE = {("Bool", "1"): "bool", ("AbstractInt", "8"): "AbstractInt", ("AbstractFloat", "8"): "AbstractFloat"}
FAULT = re.compile(r"Some\(FaultAt \{ location: (.*), fault: (\w+) \}\)")
LINK = re.compile(r"(Expression|Result)\((?:Function\(\[(\d+)\]\)|EntryPoint\((\d+)\))(?:, \[(\d+)\])?\)")
NAME = re.compile(r'Name \{ text: "([^"]*)" \}')
NAMED, OPTIONAL = re.compile(rf"\((.*), {NAME.pattern}\)"), re.compile(rf"Some\({NAME.pattern}\)")
STEPS = {"": "update", "twice": "update update", "anew": "update clear update", "added": "added", "stored": "update"}
# The questions on items of a function, with the list that has it.
IN_FUNCTION = {"function": "function", "entry": "entry", "argument": "function", "local": "function"}
COUNTS = ("types", "constants", "overrides", "expressions", "globals", "functions", "entries", "filters")


class Facts:
    """Holds the facts of a line, each a name and a value."""

    def __init__(self, facts):
        self.facts = facts

    @classmethod
    def of(cls, line):
        """Returns the facts of a line."""
        return cls([tuple(it.split(" ", 1)) if " " in it else (it, "") for it in line.split("\t")[1:]])

    def all(self, name):
        """Returns all values of a name."""
        return [value for it, value in self.facts if it == name]

    def get(self, name, at=0):
        """Returns a value of a name, or None."""
        return dict(enumerate(self.all(name))).get(at)

    def since(self, name):
        """Returns the facts from the first one of a name on, without that one."""
        names = [it for it, _ in self.facts]
        return Facts(self.facts[names.index(name) + 1 :]) if name in names else None

    def groups(self, name):
        """Returns the facts in groups, of which each but the last ends before a fact of a name."""
        groups = [[]]
        for it in self.facts:
            if it[0] == name:
                groups.append([])
            groups[-1].append(it)
        return [Facts(it) for it in groups]


def scalar_text(kind, width):
    """Returns a scalar as in module texts, or as Debug prints it if these have no word for it."""
    if kind in LETTERS:
        return f"{LETTERS[kind]}{8 * int(width)}"
    return WHOLE.get((kind, width), f"Scalar {{ kind: {kind}, width: {width} }}")


def inner_text(text):
    """Returns a scalar, vector or matrix as in module texts, and any other type as Debug prints it."""
    if found := SCALAR_TYPE.fullmatch(text):
        return scalar_text(*found.groups())
    if found := VECTOR.fullmatch(text):
        return f"vec{SIZES[found[1]]}<{scalar_text(found[2], found[3])}>"
    if found := MATRIX.fullmatch(text):
        return f"mat{SIZES[found[1]]}x{SIZES[found[2]]}<{scalar_text(found[3], found[4])}>"
    return text


def resolution_text(text):
    """Returns a type of the module by its position, or a type outside the arena."""
    if text.startswith("Handle(["):
        return f"handle {text[8:-2]}"
    return inner_text(text.removeprefix("Value(")[:-1])


def policies_text(word):
    """Returns the policies in the order in which they are asked for."""
    named = dict(it.split("=") for it in word.split(",")) if word != "-" else {}
    return " ".join(named.get(it, "Unchecked") for it in KINDS)


def link_words(word):
    """Returns the words for a link of a chain."""
    location, _, expression = word.partition(".")
    return f"{ {'f': 'function', 'e': 'entry'}[location[0]]} {location[1:]} {expression}".rstrip()


def type_words(words):
    """Returns the question on types for these words."""
    if words[0] in ("compare", "equal", "fits", "inner", "handle", "copy"):
        return f"resolve {' '.join(words[1:])}"
    return " ".join(["component" if words[0] == "part" else "type", *words[1:]])


def indexes_words(words):
    """Returns the question on policies for these words."""
    if words[0] == "policies":
        return f"bounds {policies_text(words[1])}"
    return f"bounds {policies_text(words[3])} {words[1]} {(words + ['0'])[4]}"


def asked(question):
    """Returns how a question is asked of the program."""
    if question.startswith("copied "):
        return f"copied {asked(question.removeprefix('copied '))}"
    kind, *words = question.split(" ")
    forms = {
        "indexes": lambda: indexes_words(words),
        "known": lambda: f"length {words[1]}",
        "layouts": lambda: f"layouts {STEPS[' '.join(words)]}",
        "length": lambda: f"resolve {words[1]}" if words[0] == "base" else " ".join(["length", *words[1:]]),
        "operands": lambda: f"part function {' '.join(words[1:])}",
        "origins": lambda: f"origins {link_words(words[0])}",
        "part": lambda: f"part {' '.join([IN_FUNCTION[words[0]], *words[1:]])}" if words[0] in IN_FUNCTION else "part",
        "size": lambda: " ".join(["length", *words[1:]]),
        "type": lambda: type_words(words),
    }
    try:
        return forms[kind]() if kind in forms else question
    except (IndexError, KeyError):
        return question


def length_text(facts, name):
    """Returns a length, or the reason why there is none."""
    names = [it for it, _ in facts.facts]
    found = facts.get(name)
    if found is None:
        return None
    return found[3:-1] if found.startswith("Ok") else f"{found[4:-1]}, {facts.facts[names.index(name) + 1][1]}"


def of_length(facts, words):
    """Returns the answer to a question on lengths."""
    if words[0] == "type":
        three = [length_text(facts, it) for it in ("own", "pending", "resolved")]
        return None if None in three else "; ".join(three)
    if words[0] == "known":
        return facts.get("known")
    return length_text(facts, {"base": "length", "size": "given"}[words[0]])


def of_size(facts, words):
    """Returns the answer to a question on sizes."""
    found = facts.get({"type": "size", "override": "override", "range": "range"}[words[0]])
    return found and re.sub(r"(?:Ok|Err|Some)\((.*)\)", r"\1", found)


def of_fault(facts, _):
    """Returns the first fault, if both calls tell the same."""
    found, checked = FAULT.fullmatch(facts.get("found")), facts.get("checked")
    if checked != (f"Err({found[2]})" if found else "Ok(())"):
        return "check_module tells another fault"
    return f"{found[1]} {found[2]}" if found else "none"


def of_nesting(facts, words):
    """Returns for each number whether the blocks nest no deeper."""
    return " ".join({"true": "yes", "false": "no"}[facts.get(it)] for it in words)


def of_origins(facts, _):
    """Returns the chain, if both calls tell the same."""
    chain = facts.get("chain")
    if chain is None or facts.get("again") != chain or facts.get("differs") != str(chain != "None").lower():
        return None
    links = []
    for kind, function, entry, expression in LINK.findall(chain):
        location = f"f{function}" if function else f"e{entry}"
        links.append(f"{location}.{expression}" if kind == "Expression" else location)
    return " ".join(links) or "-"


def of_layouts(facts, words):
    """Returns what the layouter contains after each step."""
    texts, outcome = [], ""
    for group in facts.groups("stored"):
        if stored := group.get("stored"):
            layouts = [] if words == ["stored"] else group.all("layout")
            texts.append("".join([stored, *(f" {it[1:-1].replace(', ', '/')}" for it in layouts), outcome]))
        outcome = f" {group.get('outcome')}: {group.get('reason')}" if group.get("outcome") else ""
    return ", ".join(texts) or None


def of_resolve(facts, _):
    """Returns the type of the expression, or the reason why it has none."""
    if facts.get("copied") == "false":
        return "a copy of the refusal differs"
    if refused := facts.get("refused"):
        return f"refused: {refused}"
    return resolution_text(facts.get("type")) if facts.get("type") else None


def of_step(facts):
    """Returns the answer to a step of a table of types."""
    step, outcome = facts.get("step"), facts.get("outcome")
    types = [resolution_text(it) for it in facts.all("type")]
    answers = {
        "stored": lambda: ", ".join([facts.get("stored"), *types]),
        "shape": lambda: facts.get("shape") and inner_text(facts.get("shape")),
        "register": lambda: facts.get("registered") and f"{facts.get('registered')[1:-1]} of {facts.get('of')}",
        "reset": lambda: "ok" if facts.get("stored") == "0" else None,
    }
    if step in answers:
        return answers[step]()
    return outcome and ("ok" if outcome == "Ok(())" else f"refused: {outcome[4:-1]}")


def of_typifier(facts, _):
    """Returns the answers to all steps, if each applies."""
    found = [of_step(it) for it in facts.groups("step")[1:]]
    return "; ".join(found) if found and None not in found else None


def declared_text(text):
    """Returns the name of a declaration, or `-`, and what it has besides."""
    if text is None:
        return None
    named = NAME.sub(r"\1", OPTIONAL.sub(r"\1", text[1:-1]))
    return re.sub(r"^None", "-", named).replace(", ", " ")


def body_text(facts):
    """Returns the blocks of a function."""
    forms = {"i32": "{}i", "u32": "{}u", "If": "If {}", "Switch": "Switch {}"}
    found = []
    for name, value in facts.facts:
        if name in ("of-expression", "of-statement"):
            break
        if name == "falls":
            found += ["falls"] if value == "true" else []
        elif name in (*forms, "{", "}", "Kill", "Loop", "default", "other"):
            found.append(forms[name].format(value.strip("[]")) if name in forms else name)
    return " ".join(found)


def function_text(facts):
    """Returns the parts of a function."""
    name = declared_text(f"({facts.get('name')})")
    counts = [len(facts.all("argument")), len(facts.all("local")), facts.get("function-expressions")]
    named = [NAMED.sub(r"\1=\2", it) for it in facts.all("named")]
    return " ".join([name, *map(str, counts), *named, body_text(facts)])


def of_part(facts, words):
    """Returns the answer to a question on the items of a module."""
    kind, number = words[0], int(words[-1]) if len(words) > 1 else 0
    if kind == "counts":
        return " ".join(facts.get(it) for it in COUNTS)
    if kind == "special":
        predeclared = [it[1:-1].rsplit(", ", 1) for it in facts.all("predeclared")]
        return "; ".join([f"{facts.get('intersection')} {facts.get('vertex')}", *map(" ".join, predeclared)])
    if kind in ("function", "entry"):
        stage = [facts.get("stage"), declared_text(f"({facts.get('entry-name')})")] if kind == "entry" else []
        return " ".join([*stage, function_text(facts)])
    return declared_text(facts.get(kind, number))


def of_operands(facts, words):
    """Returns the operands of an expression or a statement."""
    found = facts.since(f"of-{words[0]}")
    if found is None:
        return None
    operands = found.groups("of-statement")[0].all("operand")
    return " ".join(["operands", *(re.sub(r"\(\[(\d+)\], (\w+)\)", r"\1:\2", it) for it in operands)])


def of_indexes(facts, words):
    """Returns the answer to a question on policies."""
    if words[0] == "policies":
        return " ".join(facts.all("contained"))
    if words[2] == "policy":
        return facts.get("policy")
    return " ".join(it[1:-1] for it in facts.all("checked")) or "-"


ANSWERS = {
    "fault": of_fault,
    "indexes": of_indexes,
    "known": lambda facts, words: facts.get(words[0]),
    "layouts": of_layouts,
    "length": of_length,
    "nests": of_nesting,
    "operands": of_operands,
    "origins": of_origins,
    "part": of_part,
    "refusal": lambda facts, words: None if words else "none" if facts.all("none") else facts.get("end"),
    "resolve": of_resolve,
    "size": of_size,
    "type": lambda facts, words: facts.get("component" if words[0] == "part" else words[0]),
    "typifier": of_typifier,
}


def answer(question, line):
    """Returns the answer to a question, given the line of facts."""
    facts = Facts.of(line)
    if facts.get("unread"):
        return "bad module"
    kind, *words = question.removeprefix("copied ").split(" ")
    try:
        found = ANSWERS[kind](facts, words) if facts.facts and kind in ANSWERS else None
    except (IndexError, KeyError, AttributeError, TypeError, ValueError) as error:
        return f"{error!r} in {line:.300}"
    return BAD if found is None else found
