"""Finds where the value that a JSON pointer (RFC 6901) leads to stands in a text of JSON.

    Places(text).region(pointer)    its lines and columns, None if there is no such value
    Places(text).value(pointer)     the value itself, None if there is none

Lines and columns count from 1, columns in characters. The end is behind the last character.
"""
import json
import re
import typing
from json.decoder import scanstring

BLANKS = re.compile(r"[ \t\n\r]*")
# Numbers are only passed over, and a long one is an error to Python.
DECODER = json.JSONDecoder(parse_int=str, parse_float=str)


class Region(typing.NamedTuple):
    """The first character of a value, and the place behind its last one; the end is None if it isn't known."""

    line: int
    column: int
    end_line: int | None = None
    end_column: int | None = None


class Places:
    """The places of values in one text, which remembers the arrays and objects that it has passed through."""

    def __init__(self, text):
        """Takes the bytes of a text."""
        self.text = text.decode(errors="replace")
        self.spans = {}

    def after_blanks(self, at):
        """Returns the position of the first character from a position on that isn't white space."""
        return BLANKS.match(self.text, at).end()

    def children(self, start):
        """Returns the first and the last position of each part of the array or object that begins here, by its step of a pointer."""
        if start not in self.spans:
            self.spans[start] = self.read_children(start)
        return self.spans[start]

    def read_children(self, start):
        """Reads what `children` returns. Raises ValueError or IndexError if the text isn't JSON."""
        text, found = self.text, {}
        is_object = text[start] == "{"
        if not is_object and text[start] != "[":
            return found
        at = self.after_blanks(start + 1)
        while text[at] not in "]}":
            step = str(len(found))
            if is_object:
                step, at = scanstring(text, at + 1)
                at = self.after_blanks(self.after_blanks(at) + 1)
            _, end = DECODER.raw_decode(text, at)
            found.setdefault(step, (at, end))
            at = self.after_blanks(end)
            at = self.after_blanks(at + 1) if text[at] == "," else at
        return found

    def span(self, pointer):
        """Returns the first and the last position of the value that a pointer leads to, None if there is none."""
        try:
            start = self.after_blanks(0)
            span = (start, len(self.text.rstrip(" \t\n\r")))
            for step in pointer.split("/")[1:]:
                span = self.children(span[0])[step.replace("~1", "/").replace("~0", "~")]
        except (ValueError, LookupError, RecursionError):
            return None
        return span

    def line_and_column(self, at):
        """Returns line and column of a position."""
        return self.text.count("\n", 0, at) + 1, at - self.text.rfind("\n", 0, at)

    def region(self, pointer):
        """Returns the region of the value that a pointer leads to, None if there is none."""
        span = self.span(pointer)
        return span and Region(*self.line_and_column(span[0]), *self.line_and_column(span[1]))

    def value(self, pointer):
        """Returns the value that a pointer leads to, with numbers as they are spelled, None if there is none."""
        span = self.span(pointer)
        return span and DECODER.raw_decode(self.text, span[0])[0]


def region_of(location, places):
    """Returns where a location of a diagnostic is in the input, None if it isn't known. What the diagnostic says itself has no end."""
    if "line" in location:
        return Region(location["line"], location["column"])
    return places.region(location["pointer"]) if "pointer" in location else None
