"""Writes the JSON of a module as another text of the same module: members in another order, all strings by escapes, and other spaces."""

# The members whose objects are maps, in which the order has a meaning.
MAPS = {"named_expressions", "predeclared_types"}


def escaped(text):
    """Returns a string of JSON in which each character is an escape, one above U+FFFF two."""
    units = text.encode("utf-16-be")
    return '"' + "".join(f"\\u{units[at]:02x}{units[at + 1]:02X}" for at in range(0, len(units), 2)) + '"'


def pieces(value, name=None):
    """Yields the pieces of the text of a value, which is that of a member of this name or of an item of it."""
    if isinstance(value, dict):
        yield "{ "
        members = list(value.items()) if name in MAPS else list(value.items())[::-1]
        for at, (key, held) in enumerate(members):
            yield f"{',' if at else ''}\n{escaped(key)}\t: "
            yield from pieces(held, key)
        yield "\r\n}"
    elif isinstance(value, list):
        yield "[ "
        for at, held in enumerate(value):
            yield " , " if at else ""
            yield from pieces(held, name)
        yield " ]"
    elif isinstance(value, str):
        yield escaped(value)
    elif isinstance(value, float):
        yield f"{value:.17E}"
    else:
        yield {None: "null", True: "true", False: "false"}.get(value) if value is None or isinstance(value, bool) else str(value)


def rewritten(module):
    """Returns another text of a module."""
    return "".join(pieces(module)).encode()
