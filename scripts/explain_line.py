"""Says why a line is no question of `typer`: the grammar of lines, and the closest form or name.

    reason(line)      the reason, None for a line that is a question

The names come from the tables of crates/shader_type_text and shader_samples, or in a release, which has no sources, from
names.json. tests/launcher compares the verdict with lines that typer answers, and with lines that it doesn't.
"""
import functools
import json
import pathlib
import re

from report_arguments import closest, one_of

CRATES = pathlib.Path(__file__).resolve().parent.parent / "crates"
# The names of all tables, which scripts/release writes.
NAMES = pathlib.Path(__file__).resolve().with_name("names.json")
# The first word of a line, and the form of the line.
FORMS = {
    "call": "call NAME TYPE..",
    "rules": "rules NAME TYPE..",
    "layout": "layout TYPE",
    "convert": "convert TYPE TYPE",
    "module": "module SAMPLE",
}
TABLES = {
    "function": ("shader_type_text/src/builtins.rt", r"(?s)\[\$\(\$given\)\?\](.*?)\}", r"\w+"),
    "scalar": ("shader_type_text/src/scalars.rt", r"(?s)fn word\(self\).*?\n    \}\n", r'=> "(\w+)"'),
    "shape": ("shader_type_text/src/shape.rt", r"(?s)match word \{.*?\n    \}\n", r'b"(\w+)" =>'),
    "sample": ("shader_samples/src/sample.rt", r"(?s).*", r'Sample::\w+ => "([\w-]+)"'),
}
MAX_NUMBER = 4_294_967_295
MAX_SHOWN = 60
TYPES = "a TYPE is a scalar, vecN<S>, matCxR<S> or array<T,N,STRIDE>"
# Names of scalars in other shading languages, and the letters of WGSL's and GLSL's short names.
OTHER_SCALARS = {"int": "i32", "uint": "u32", "float": "f32", "double": "f64", "half": "f16"}
LETTERS = {"i": "i32", "u": "u32", "f": "f32", "h": "f16", "b": "bool", "d": "f64"}
SPACES = {"\t": "a tab", "\r": "a carriage return", "\ufeff": "a byte order mark", "\xa0": "a no-break space"}
# How similar to a word a scalar has to be to be suggested, from 0 to 1; these names are short.
CLOSE_SCALAR = 0.6


@functools.lru_cache(None)
def names(kind):
    """Returns the names of a table, in its order."""
    if NAMES.exists():
        return json.loads(NAMES.read_text())[kind]
    file, part, name = TABLES[kind]
    return re.findall(name, re.findall(part, (CRATES / file).read_text())[0])


def shown(text):
    """Returns a text in backticks as a message shows it: escaped, and cut if it is long."""
    escaped = text.encode("unicode_escape").decode() if not text.isprintable() else text
    return f"`{escaped[:MAX_SHOWN]}..`" if len(escaped) > MAX_SHOWN else f"`{escaped}`"


def is_number(word):
    """Returns whether a word is a decimal of 32 bits without leading zeros."""
    return bool(re.fullmatch(r"0|[1-9][0-9]{0,9}", word, re.ASCII)) and int(word) <= MAX_NUMBER


def is_plain(word):
    """Returns whether a word is a scalar, a vector or a matrix."""
    found = re.fullmatch(r"([^<]*)<(.*)>", word, re.DOTALL)
    return found[1] in names("shape") and found[2] in names("scalar") if found else word in names("scalar")


def items_of(word):
    """Returns the parts between commas of a word like array<..>, None for another word."""
    inside = word.startswith("array<") and word.endswith(">")
    return word[len("array<") : -1].split(",") if inside else None


def stride_of(plain):
    """Returns the stride of an array of a scalar, a vector or a matrix, in bytes."""
    shape, _, scalar = plain.rstrip(">").rpartition("<")
    width = 1 if scalar == "bool" else 8 if scalar.startswith("Abstract") else int(scalar[1:]) // 8
    rows = int(shape[-1]) if shape else 1
    return width * (4 if rows == 3 else rows) * (int(shape[3]) if shape.startswith("mat") else 1)


def suggested(word):
    """Returns the type that a word of another shading language, or a word without its scalar, means, None if none."""
    if word in OTHER_SCALARS:
        return OTHER_SCALARS[word]
    short = re.fullmatch(r"(vec[234]|mat[234]x[234])([iufhbd])", word)
    if short:
        return f"{short[1]}<{LETTERS[short[2]]}>"
    square = re.fullmatch(r"(d?)mat([234])(?:x([234]))?(?:<(\w+)>)?", word)
    if square:
        return f"mat{square[2]}x{square[3] or square[2]}<{square[4] or ('f64' if square[1] else 'f32')}>"
    vector = re.fullmatch(r"([iubd]?)vec([234])", word)
    if vector:
        return f"vec{vector[2]}<{LETTERS[vector[1] or 'f']}>"
    return None


def plain_reason(word):
    """Returns why a word is no scalar, vector or matrix."""
    other = suggested(word)
    if other:
        return f"{shown(word)} is no type; {other} is"
    if word.count("<") != word.count(">"):
        return f"{shown(word)} has unpaired brackets"
    found = re.fullmatch(r"([^<]*)<(.*)>", word, re.DOTALL)
    if found:
        return shaped_reason(word, *found.groups())
    near = closest(word, names("scalar"), CLOSE_SCALAR)
    return f"{shown(word)} is no type; {f'the closest is `{near}`' if near else TYPES}"


def shaped_reason(word, shape, scalar):
    """Returns why a word like SHAPE<SCALAR> is no vector or matrix."""
    if shape not in names("shape"):
        if re.fullmatch(r"vec\d*", shape):
            return f"{shown(word)} is no type; a vector is vec2, vec3 or vec4"
        if re.fullmatch(r"mat[\dx]*", shape):
            return f"{shown(word)} is no type; a matrix has 2 to 4 columns and rows, as mat2x3"
        return f"{shown(word)} is no type; {TYPES}"
    if not scalar:
        return f"{shown(word)} lacks its scalar, as {shape}<f32>"
    if suggested(scalar) in names("scalar"):
        return f"{shown(word)} is no type; {shape}<{suggested(scalar)}> is"
    near = closest(scalar, names("scalar"), CLOSE_SCALAR)
    return f"{shown(scalar)} in {shown(word)} is no scalar" + (f"; the closest is `{near}`" if near else "")


def array_reason(word, items):
    """Returns why a word like array<..> is no type, None if it is one."""
    base = items[0]
    if base.startswith("array"):
        return f"{shown(word)} is no type; the elements of an array are scalars, vectors or matrices"
    if base and not is_plain(base) and not suggested(base):
        return f"in {shown(word)}, {plain_reason(base)}"
    if len(items) != 3 or "" in items or not is_plain(base):
        return f"{shown(word)} is no type; an array has a type, a count and a stride in bytes, as {example(word)}"
    for part, item in zip(("count", "stride"), items[1:]):
        if not is_number(item):
            return f"the {part} {shown(item)} is no decimal from 0 to 4,294,967,295 without leading zeros"
    return "the count of an array is at least 1" if items[1] == "0" else None


def example(word):
    """Returns an array that is a type, with the elements and the count of a word if it has such."""
    items = [it.strip() for it in items_of(word)]
    base = items[0] if is_plain(items[0]) else suggested(items[0]) or "f32"
    base = base if is_plain(base) else "f32"
    count = items[1] if len(items) > 1 and is_number(items[1]) and items[1] != "0" else "4"
    return f"array<{base},{count},{stride_of(base)}>"


def type_reason(word):
    """Returns why a word is no type, None if it is one."""
    items = items_of(word)
    if items is not None:
        return array_reason(word, items)
    if word == "array":
        return "`array` needs a type, a count and a stride in bytes, as array<f32,4,4>"
    return None if is_plain(word) else plain_reason(word)


def types_reason(words):
    """Returns why a word among these is no type, None if each is one."""
    return next(filter(None, map(type_reason, words)), None)


def split_reason(words):
    """Returns an error if a type is split into several words, None if none is."""
    for at, word in enumerate(words[:-1]):
        if word.count("<") > word.count(">"):
            return f"a type has no space in it: here is one after {shown(word)}"
    return None


def function_reason(name):
    """Returns why a word is no name of a built-in function, None if it is one."""
    if name in names("function"):
        return None
    text = f"{shown(name)} is no name of a built-in function here"
    near = closest(name.partition("(")[0].replace("_", ""), names("function"))
    if near and "(" in name:
        return f"{text}; a call has no brackets: `call {near} TYPE..`"
    return f"{text}; the closest is `{near}`" if near else f"{text}; the names are those of naga's MathFunction, as CountOneBits"


def named_reason(kind, rest):
    """Returns why the words after `call` or `rules` are wrong, None if they are right."""
    if not rest:
        return f"`{kind}` needs a name and types; the form is `{FORMS[kind]}`"
    wrong = function_reason(rest[0]) or split_reason(rest[1:]) or types_reason(rest[1:])
    if not wrong and kind == "call" and len(rest) == 1:
        return f"`call` needs the type of at least one argument; the form is `{FORMS[kind]}`"
    return wrong


def module_reason(rest):
    """Returns why the words after `module` are wrong, None if they are right."""
    samples = f"a sample is {one_of(names('sample'))}"
    if len(rest) != 1:
        return f"the form is `{FORMS['module']}`; {samples}"
    if rest[0] in names("sample"):
        return None
    near = closest(rest[0], names("sample"))
    return f"{shown(rest[0])} is no sample; {f'the closest is `{near}`' if near else samples}"


def typed_reason(kind, rest):
    """Returns why the words after `layout` or `convert` are wrong, None if they are right."""
    count = FORMS[kind].count("TYPE")
    wrong = split_reason(rest) or types_reason(rest[:count])
    if not wrong and len(rest) != count:
        counted = f"{count} type{'s' if count > 1 else ''}"
        return f"`{kind}` needs {counted}, and the line has {len(rest)}; the form is `{FORMS[kind]}`"
    return wrong


def space_reason(text):
    """Returns the error in the spaces of a line, None if there is none."""
    for space, name in SPACES.items():
        if text.endswith(space) and text != space:
            end = "; a line feed alone ends a line" if space == "\r" else ""
            return f"a line ends right after its last word: here is {name}{end}"
        if space in text:
            return f"one space separates two words: here is {name}"
    if text.endswith(" "):
        return "a line ends right after its last word: here is a space"
    if text.startswith(" "):
        return "a line begins with its first word: here is a space"
    return "one space separates two words: here are several" if "  " in text else None


def first_reason(text, kind):
    """Returns why the first word begins no question."""
    if text.lower().lstrip("-") in ("help", "h", "?", "version"):
        return "this is no question; `typer --help` lists the questions"
    if text.startswith(("#", "//", ";")):
        return "a comment is no question; each line has to be one"
    begun = f"{shown(kind)} begins no question"
    if closest(kind, FORMS):
        return f"{begun}; the closest form is `{FORMS[closest(kind, FORMS)]}`"
    function = closest(kind.partition("(")[0].replace("_", ""), names("function"))
    if function:
        return f"{begun}; a call is `call {function} TYPE..`"
    if type_reason(kind) is None or suggested(kind):
        return f"{begun}; a layout is `layout {suggested(kind) or kind}`"
    return f"{begun}; a question begins with {one_of([*FORMS])}"


def reason(line):
    """Returns why a line, as bytes without its end, is no question of `typer`, None if it is one."""
    text = line.decode(errors="backslashreplace")
    if not text.strip():
        return "a line of spaces is no question" if text else "an empty line is no question"
    wrong = space_reason(text) if not text.startswith(("#", "//")) else None
    if wrong:
        return wrong
    kind, *rest = text.split(" ")
    if kind in ("call", "rules"):
        return named_reason(kind, rest)
    if kind in ("layout", "convert"):
        return typed_reason(kind, rest)
    return module_reason(rest) if kind == "module" else first_reason(text, kind)
