"""Mutates modules as JSON: their members, numbers, variants, flags, keys and types, or the bytes of their text.

A random generator draws each change. As a rule a mutant still is JSON, and often it still is a module.
"""
import collections
import json
import re

from second_reader import UNITS
from spelled_json import Number, Object, text_of, value_of

INTEGERS = [0, 1, 2, 3, 5, 7, 63, 255, 256, 65535, 65536, -1, *(2**it + more for it in (15, 31, 32, 63, 64) for more in (-2, -1, 0))]
INTEGERS += [-(2**15), -(2**15) - 1, -(2**31), -(2**31) - 1, -(2**63), -(2**63) - 1]
# How an integer may be spelled that is none for serde, and other numbers near the bounds of floats.
SPELLINGS = """{}.0 {}e0 {}E+0 {}.000e-0 -{} -0 -0.0 0{} +{} {}0e-1 .{} {}. 0x{} "{}" {}{}""".split()
FLOATS = """1e39 3.4028235677973366e38 3.4028235677973362e38 -3.4028236e38 1e308 1.7976931348623159e308 1.797693134862315807e308 -1e309
    1e-400 1e99999999999999999999 1e-99999999999999999999 0e99999999999999999999 65504 65520 0.5 1.0 -0 15360 1e4 0.1e1""".split()
STRINGS = ["", "x", "\0", "\U0001f600" * 50, "\u00e9", "Storage", "Literal", "Load", "Default", "None", "LOAD | STORE", "WorkGroupId"]
ZERO = Number("0")
KINDS = [None, True, ZERO, Number("-1.5"), "Float", [], Object(), [ZERO], Object([["Literal", Object([["U32", ZERO]])]])]
FLAGS = ["LOAD|STORE", " LOAD ", "LOAD | LOAD", "STORE | LOAD", "LOAD | STORE | ATOMIC", "load", "LOAD |", "| LOAD", "|", " ", "0x1", ""]
FLAGS += ["\u2003LOAD\u00a0|\tSTORE\n", "LOAD\u200b", "WORK_GROUP", "STORAGE | WORK_GROUP", "SUB_GROUP|TEXTURE", "LOAD, STORE", "ALL"]
OF_FLAGS = {"access", "ControlBarrier", "MemoryBarrier"}
KEYS = ["0", "1", "7", "+3", "03", "-0", "-1", "3 ", " 3", "3.0", "4294967294", "4294967295", "18446744073709551616", "", "\u0663"]
BUILT_INS = """Position Barycentric VertexIndex WorkGroupId DrawID PrimitiveIndex PointSize ViewIndex HitKind RayTmin SubgroupSize
    Frontfacing BaryCentric PositionInvariant Layer""".split()
FLAGS_OF_BUILT_INS = ["invariant", "perspective", "Invariant"]
VARIANT = re.compile("[A-Z]")
# Bytes that are put into a text.
PIECES = [b"[" * 200, b"//", b"\xef\xbb\xbf", b"\xff", b"NaN", b"1e999", b'"\\ud800"', b"\0", b"\xed\xa0\x80", b"\\u0000", b",", b"}", b":"]


def slots(value, name=""):
    """Yields each array or object of a value, with each index and the name of the nearest member around what stands there."""
    held = [(value, name)]
    while held:
        holder, name = held.pop()
        for at, it in enumerate(holder):
            key, below = it if isinstance(holder, Object) else (f"{name}[]", it)
            yield holder, at, key
            if isinstance(below, list):
                held.append((below, key))


def value_at(holder, at):
    return holder[at][1] if isinstance(holder, Object) else holder[at]


def put(holder, at, value):
    """Puts a value in the place of another."""
    if isinstance(holder, Object):
        holder[at] = [holder[at][0], value]
    else:
        holder[at] = value


def copied(value):
    """Returns a copy of a value."""
    if isinstance(value, Object):
        return Object([key, copied(it)] for key, it in value)
    return [copied(it) for it in value] if isinstance(value, list) else value


class Pool:
    """Holds texts of modules to mutate, and what these and some further texts have at members of each name, at items of each list, and as
    names of variants."""

    def __init__(self, texts, further=()):
        self.texts = texts
        self.values, self.variants = collections.defaultdict(list), set()
        for text in (*texts, *further):
            for holder, at, name in slots(value_of(text)):
                value = value_at(holder, at)
                self.values[name].append(value)
                if type(value) is str and VARIANT.match(value):
                    self.variants.add(value)
                if isinstance(value, Object) and len(value) == 1:
                    self.variants.add(value[0][0])
        self.variants = sorted(self.variants.union(*UNITS))


class Mutation:
    """Draws changes of a module."""

    def __init__(self, draw, pool, module):
        self.draw, self.pool, self.module = draw, pool, module
        self.slots = list(slots(module))

    def slot(self, fits=None):
        """Draws a place that fits, or any if none does. Every other time it draws a name first, so that rare members are changed, too."""
        found = [it for it in self.slots if fits(*it)] or self.slots if fits else self.slots
        if self.draw.random() < 0.5:
            name = self.draw.choice(sorted({it[2] for it in found}))
            found = [it for it in found if it[2] == name]
        return self.draw.choice(found)

    def another(self, name):
        """Draws a value that stands at members of that name, or another place of this module."""
        held = self.pool.values[name]
        if held and self.draw.random() < 0.8:
            return copied(self.draw.choice(held))
        return copied(value_at(*self.slot()[:2]))

    def other_value(self):
        """Changes a value to one that stands at such a place."""
        holder, at, name = self.slot()
        put(holder, at, self.another(name))

    def other_kind(self):
        """Changes a value to one of another kind."""
        holder, at, _ = self.slot()
        put(holder, at, copied(self.draw.choice(KINDS)))

    def near_value(self):
        """Changes a value to one that is near."""
        holder, at, name = self.slot(lambda holder, at, name: not isinstance(value_at(holder, at), Object))
        value = value_at(holder, at)
        if isinstance(value, bool):
            value = not value
        elif isinstance(value, Number):
            value = Number(int(value) + self.draw.choice([-2, -1, 1, 2]) if value.lstrip("-").isdecimal() else f"{value}1")
        elif isinstance(value, str):
            value = self.draw.choice([*STRINGS, value + "x", value[::-1], value.lower(), value.upper()])
        elif isinstance(value, list) and value:
            index = self.draw.randrange(len(value))
            value = self.draw.choice([value[:index] + value[index + 1 :], value + [copied(value[index])], value[::-1]])
        put(holder, at, value)

    def bound(self):
        """Changes a number to one at a bound of a type."""
        holder, at, _ = self.slot(lambda holder, at, name: isinstance(value_at(holder, at), Number))
        put(holder, at, Number(self.draw.choice(INTEGERS) if self.draw.random() < 0.6 else self.draw.choice(FLOATS)))

    def spelling(self):
        """Spells a number in another way."""
        holder, at, _ = self.slot(lambda holder, at, name: isinstance(value_at(holder, at), Number))
        value = value_at(holder, at)
        put(holder, at, Number(self.draw.choice(SPELLINGS).format(value, value)) if isinstance(value, Number) else Number("1"))

    def twice(self):
        """Gives an object a member twice."""
        holder, at, name = self.slot(lambda holder, at, name: isinstance(holder, Object))
        other = copied(value_at(holder, at)) if self.draw.random() < 0.5 else self.another(name)
        holder.insert(self.draw.randrange(len(holder) + 1), [name, other] if isinstance(holder, Object) else other)

    def gone(self):
        """Removes a member, or seldom an item."""
        holder, at, _ = self.slot(lambda holder, at, name: isinstance(holder, Object))
        del holder[at]

    def renamed(self):
        """Renames a member."""
        holder, at, name = self.slot(lambda holder, at, name: isinstance(holder, Object))
        if isinstance(holder, Object):
            other = self.slot()[2].removesuffix("[]")
            holder[at] = [self.draw.choice([other, other, name.lower(), name + "s", name[:-1], *STRINGS[:3]]), holder[at][1]]

    def added(self):
        """Gives an object a further member, of any name."""
        holder, _, _ = self.slot(lambda holder, at, name: isinstance(holder, Object))
        if isinstance(holder, Object):
            name = self.slot()[2].removesuffix("[]")
            holder.insert(self.draw.randrange(len(holder) + 1), [name, self.another(name)])

    def variant(self):
        """Writes a variant in another form, or another variant."""
        is_variant = lambda it: VARIANT.match(it) if type(it) is str else isinstance(it, Object) and len(it) == 1
        holder, at, name = self.slot(lambda holder, at, name: is_variant(value_at(holder, at)))
        value = value_at(holder, at)
        if isinstance(value, Object) and len(value) == 1:
            (label, below), = value
            forms = [label, Object([[label, None]]), Object([[label, [it for _, it in below] if isinstance(below, Object) else [below]]])]
            forms += [Object([[self.draw.choice(self.pool.variants), below]]), Object([*value, [label, copied(below)]]), Object()]
            forms += [Object([*value, [self.draw.choice(self.pool.variants), below]]), [label, below], Object([[label, value]])]
        else:
            below = self.draw.choice([None, Object(), [], ZERO])
            forms = [self.draw.choice(self.pool.variants), Object([[value if type(value) is str else "x", below]]), [value], ZERO, None]
        put(holder, at, self.draw.choice(forms))

    def sibling(self):
        """Changes the name of a variant to that of another one of its enum."""
        holder, at, _ = self.slot(lambda holder, at, name: type(value_at(holder, at)) is str and VARIANT.match(value_at(holder, at)))
        value = value_at(holder, at)
        put(holder, at, self.draw.choice(self.draw.choice([it for it in UNITS if value in it] or [[value]])))

    def flags(self):
        """Changes flags."""
        holder, at, _ = self.slot(lambda holder, at, name: name in OF_FLAGS)
        put(holder, at, self.draw.choice(FLAGS))

    def key(self):
        """Changes, or adds, the key of a named expression."""
        holder, at, _ = self.slot(lambda holder, at, name: name == "named_expressions")
        named = value_at(holder, at)
        if isinstance(named, Object):
            member = [self.draw.choice(KEYS), "x" if self.draw.random() < 0.9 else copied(self.draw.choice(KINDS))]
            named.insert(self.draw.randrange(len(named) + 1), member)

    def equal_type(self):
        """Adds a type that is equal to another one, or nearly so."""
        found = [it for key, it in self.module if key == "types" and type(it) is list and it]
        if not found:
            return
        types = found[0]
        other = copied(self.draw.choice(types))
        below = [it for it in slots(other)] if isinstance(other, list) else []
        kind = self.draw.random()
        if below and kind < 0.3:
            holder = self.draw.choice(below)[0]
            holder.insert(0, ["extra", ZERO] if isinstance(holder, Object) else copied(holder[0]))
        elif below and kind < 0.6:
            holder = self.draw.choice(below)[0]
            self.draw.shuffle(holder)
        elif below and kind < 0.8:
            holder, at, name = self.draw.choice(below)
            put(holder, at, self.another(name))
        types.insert(self.draw.randrange(len(types) + 1), other)

    def built_in(self):
        """Binds something to a built-in value, with or without a flag."""
        holder, at, name = self.slot(lambda holder, at, name: name in ("binding", "BuiltIn"))
        value = self.draw.choice(BUILT_INS + self.pool.variants[:5])
        if self.draw.random() < 0.6:
            flags = Object([[self.draw.choice(FLAGS_OF_BUILT_INS), self.draw.choice([True, False, True, False, None, "true"])]])
            flags += self.draw.choice([[], [], [["extra", None]], [["invariant", False]]])
            value = Object([[value, self.draw.choice([flags, flags, flags, None, Object(), [], True])]])
        put(holder, at, value if name == "BuiltIn" else Object([["BuiltIn", value]]))

    def change(self):
        """Makes one change."""
        kinds = [self.other_value] * 8 + [self.near_value] * 4 + [self.twice] * 2 + [self.variant] * 2 + [self.bound, self.sibling] * 2
        kinds += [self.other_kind, self.gone, self.renamed, self.added, self.spelling, self.flags, self.key, self.equal_type, self.built_in]
        self.draw.choice(kinds)()


def quoted(draw):
    """Returns a function that quotes strings: all in one style, of which one escapes each character of some strings."""
    is_ascii, escaped = draw.random() < 0.5, draw.choice([0, 0, 0.1])

    def quote(text):
        if draw.random() >= escaped:
            return json.dumps(text, ensure_ascii=is_ascii)
        units = text.encode("utf-16-be")
        return '"' + "".join(f"\\u{units[at : at + 2].hex()}" for at in range(0, len(units), 2)) + '"'

    return quote


def mutated(draw, pool):
    """Returns the text of a module with one to four changes."""
    module = value_of(draw.choice(pool.texts))
    for _ in range(draw.choice([1, 1, 1, 1, 2, 4])):
        mutation = Mutation(draw, pool, module)
        if mutation.slots:
            mutation.change()
    comma, colon = draw.choice([(",", ":"), (", ", ": "), (" ,\n\t", "\r: ")])
    return text_of(module, quoted(draw), comma, colon).encode()


def with_bytes_changed(draw, text):
    """Returns a text with some bytes changed."""
    text = bytearray(text)
    for _ in range(draw.choice([1, 2, 5])):
        at, kind = draw.randrange(len(text) + 1), draw.random()
        if kind < 0.3 and at < len(text):
            text[at] = draw.randrange(256)
        elif kind < 0.6:
            text[at : at + draw.randrange(1, 20)] = b""
        elif kind < 0.8:
            text[at:at] = text[max(0, at - 10) : at + draw.randrange(1, 30)]
        elif kind < 0.95:
            text[at:at] = draw.choice(PIECES)
        else:
            del text[at:]
    return bytes(text)
