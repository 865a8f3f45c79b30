"""Reads modules as text (tests/data/rows/README.md) into the JSON that serde's derives print of naga's."""
import re

from rows.expression_text import expression
from rows.statement_text import Blocks
from rows.type_text import TextError, Types, binding, flags, need, parts, scalar, values

OPTIONS = {"clamp", "comparison", "committed", "row_major"}
VALUES = {"depth", "gather", "index", "offset", "result"}
STAGES = {"vertex", "fragment", "compute", "mesh", "task"}
GLOBALS = {
    "Function", "Private", "WorkGroup", "Uniform", "Handle", "Immediate", "TaskPayload", "RayPayload", "IncomingRayPayload",
}  # fmt: skip
STORAGES = {"Storage": "LOAD | STORE", "LoadedStorage": "LOAD", "StoredStorage": "STORE"}
SEVERITIES = {"Off", "Info", "Warning", "Error"}
BOUND = {
    "Argument": None, "LocationArgument": "location0", "WorkGroupIdArgument": "WorkGroupId",
    "WorkGroupSizeArgument": "WorkGroupSize", "NumWorkGroupsArgument": "NumWorkGroups", "OtherArgument": "VertexIndex",
}  # fmt: skip
LISTS = [
    "constants", "overrides", "global_variables", "global_expressions", "functions", "entry_points", "diagnostic_filters",
]  # fmt: skip
TOKEN = re.compile(r"'[^']*'|\S+")


def tokens(text):
    """Returns the words of a text: blanks outside of quotes separate them, { and } are words, and so is ; outside of types."""
    words = []
    for word in TOKEN.findall(text):
        start = depth = 0
        for at, letter in enumerate(word):
            depth += (letter in "<{") - (letter in ">}") if at > start or letter != "{" else 0
            if letter == ";" and depth == 0:
                words += [word[start:at], ";"]
                start = at + 1
        words.append(word[start:])
    return [it for it in words if it]


class Clause:
    """Holds a name with the words that follow it."""

    def __init__(self, name, types):
        self.name, self.types = name, types
        self.operands, self.options, self.values = [], set(), {}
        self.text = self.binding = self.flags = None

    def add(self, word):
        """Takes a word that follows the name."""
        if word.startswith("'"):
            self.text = word[1:-1]
        elif word.startswith("@"):
            self.binding = binding(word[1:])
        elif word.startswith("+"):
            self.flags = flags(word)
        elif word in OPTIONS:
            self.options.add(word)
        elif "=" in word:
            key, _, value = word.partition("=")
            need(key in VALUES, f"{key} behind {self.name} is no option")
            self.values[key] = value
        else:
            self.operands.append(None if word == "-" else word)

    def has(self, place):
        return place < len(self.operands) and self.operands[place] is not None

    def word(self, place):
        need(self.has(place), f"{self.name} has too few operands")
        return self.operands[place]

    def number(self, place):
        word = self.word(place)
        need(re.fullmatch(r"-?\d+", word), f"{word} behind {self.name} is no number")
        return int(word)

    def maybe(self, place):
        return self.number(place) if self.has(place) else None

    def value(self, key):
        return int(self.values[key]) if key in self.values else None

    def ty(self, place):
        return self.types.mentioned(self.word(place))

    def fields(self, *names, first=0):
        """Returns the operands from a position on by name: ty is a type, a name with ? may be absent, one with ! is an option."""
        found, place = {}, first
        for name in names:
            if name.endswith("!"):
                found[name[:-1]] = name[:-1] in self.options
                continue
            found[name.rstrip("?")] = self.ty(place) if name == "ty" else self.maybe(place) if name.endswith("?") else self.number(place)
            place += 1
        self.most(place)
        return found

    def most(self, count):
        need(len(self.operands) <= count, f"{self.name} has too many operands")


def clauses(words, types):
    """Yields the clauses of a part, and the braces between them."""
    clause = None
    for word in words:
        if word in "{}" or (word[0].isupper() and word not in ("AbstractInt", "AbstractFloat")):
            if clause:
                yield clause
            clause = None if word in "{}" else Clause(word, types)
            if word in "{}":
                yield word
        else:
            need(clause, f"{word} follows no name")
            clause.add(word)
    if clause:
        yield clause


def filter_of(clause):
    name = clause.name.removeprefix("Other")
    rule = {"Unknown": "other"} if name != clause.name else {"Standard": "DerivativeUniformity"}
    return {"inner": {"new_severity": name, "triggering_rule": rule}, **clause.fields("parent?")}


def global_of(clause):
    space = clause.name
    if space in STORAGES:
        space = {"Storage": {"access": STORAGES[space] if clause.flags is None else clause.flags}}
    return {"name": clause.text, "space": space, **clause.fields("ty", "init?")}


def predeclared(clause):
    """Returns the argument of a built-in function with two results, under the name of the result."""
    word = clause.word(0)
    if word.startswith("vec"):
        return {clause.name: values(*parts(word))["Vector"]}
    return {clause.name: {"size": None, "scalar": scalar(word)}}


class Module:
    """Reads a module."""

    def __init__(self):
        self.types = Types()
        self.special = {"ray_intersection": None, "ray_vertex_return": None, "predeclared_types": []}
        self.lists = {name: [] for name in LISTS}

    def declare(self, clause):
        """Takes a clause of the first part."""
        name = clause.name
        if name == "Type":
            self.types.declare(clause.word(0), clause.text)
        elif name in GLOBALS or name in STORAGES:
            self.lists["global_variables"].append(global_of(clause))
        elif name == "DeclareConstant":
            self.lists["constants"].append({"name": clause.text, **clause.fields("ty", "init")})
        elif name == "DeclareOverride":
            self.lists["overrides"].append({"name": clause.text, **clause.fields("ty", "init?")})
        elif name.removeprefix("Other") in SEVERITIES:
            self.lists["diagnostic_filters"].append(filter_of(clause))
        elif name in ("RayIntersection", "RayVertexReturn"):
            self.special["ray_intersection" if name == "RayIntersection" else "ray_vertex_return"] = clause.ty(0)
        elif name in ("ModfResult", "FrexpResult"):
            self.special["predeclared_types"].append([predeclared(clause), clause.ty(1)])
        else:
            made = expression(clause)
            need(made, f"{name} is no declaration")
            self.lists["global_expressions"].append(made)

    def add_function(self, words):
        function = Function()
        for clause in clauses(words, self.types):
            function.take(clause)
        made = function.finished()
        if function.entry is None:
            self.lists["functions"].append(made)
        else:
            self.lists["entry_points"].append({**function.entry, "function": made})

    def read(self, text):
        """Takes the whole text."""
        rows = [[]]
        for word in tokens(text):
            if word == ";":
                rows.append([])
            else:
                rows[-1].append(word)
        for clause in clauses(rows[0], self.types):
            need(clause not in ("{", "}"), "a block is outside of a function")
            self.declare(clause)
        for words in rows[1:]:
            self.add_function(words)
        return {"types": self.types.items, "special_types": self.special, **self.lists}


class Function:
    """Reads a function."""

    def __init__(self):
        self.entry, self.blocks = None, Blocks()
        self.made = {
            "name": None, "arguments": [], "result": None, "local_variables": [], "expressions": [], "named_expressions": {},
            "body": None, "diagnostic_filter_leaf": None,
        }  # fmt: skip

    def take(self, clause):
        """Takes a clause, or a brace."""
        if clause in ("{", "}"):
            self.blocks.brace(clause)
        elif not self.declare(clause):
            made = expression(clause)
            if made:
                self.made["expressions"].append(made)
            else:
                self.blocks.take(clause)

    def declare(self, clause):
        """Takes a clause that is neither an expression nor a statement, and returns whether it is such."""
        name = clause.name
        if name == "EntryPoint":
            stage = clause.word(0) if clause.has(0) else "fragment"
            need(stage in STAGES, f"{stage} is no stage")
            self.entry = {"name": "main" if clause.text is None else clause.text, "stage": stage.capitalize()}
        elif name == "Function":
            self.made["name"] = clause.text
        elif name in BOUND:
            bound = binding(BOUND[name]) if BOUND[name] else clause.binding
            self.made["arguments"].append({"name": clause.text, **clause.fields("ty"), "binding": bound})
        elif name == "Local":
            self.made["local_variables"].append({"name": clause.text, **clause.fields("ty", "init?")})
        elif name == "Result":
            self.made["result"] = {**clause.fields("ty"), "binding": clause.binding}
        elif name == "Name":
            self.made["named_expressions"][str(clause.number(0))] = "named" if clause.text is None else clause.text
        elif name == "Filter":
            self.made["diagnostic_filter_leaf"] = clause.number(0)
        else:
            return False
        return True

    def finished(self):
        return {**self.made, "body": self.blocks.body()}


def module_of(text):
    """Returns the module of a text, as objects of JSON."""
    try:
        return Module().read(text)
    except (IndexError, KeyError, ValueError) as error:
        raise TextError(f"{type(error).__name__} {error}") from error
