"""Reads and writes JSON as it is spelled: a number is its text, and an object is its members in order, of which two may have one key.

Python's own parser decides what is JSON. Beyond RFC 8259 it takes words for numbers that aren't finite, and strings with half a pair of
surrogates, which are refused here.
"""
import json
import re

# The arrays and objects that may be open at once.
MAX_LEVELS = 128
SURROGATE = re.compile("[\ud800-\udfff]")


class NotJson(Exception):
    """The text is no JSON, or nests too deep."""


class Number(str):
    """The text of a number."""


class Object(list):
    """The members of an object: lists of a key and a value."""


def members(pairs):
    """Returns an object with these members, which are checked for what Python's parser takes and JSON doesn't have."""
    for key, value in pairs:
        refuse_surrogates(key)
        refuse_surrogates(value)
    return Object(map(list, pairs))


def refuse_surrogates(value):
    """Refuses a string with half a pair of surrogates, and looks into arrays, which Python's parser hands on to nobody."""
    if isinstance(value, str) and SURROGATE.search(value):
        raise ValueError(value)
    if type(value) is list:
        for it in value:
            refuse_surrogates(it)


def refused_constant(text):
    """Refuses a number that is no JSON, as NaN."""
    raise ValueError(text)


def levels(value):
    """Returns how many arrays and objects of a value are open at once."""
    held, most = [(value, 1)], 0
    while held:
        it, level = held.pop()
        if isinstance(it, list):
            most = max(most, level)
            held += [(below[1] if isinstance(it, Object) else below, level + 1) for below in it]
    return most


def value_of(text):
    """Returns the value of a text. Raises NotJson."""
    how = {"parse_constant": refused_constant, "parse_int": Number, "parse_float": Number, "object_pairs_hook": members}
    try:
        value = json.loads(text.decode(), **how)
        refuse_surrogates(value)
    except (ValueError, RecursionError) as error:
        raise NotJson(str(error)[:200]) from error
    if levels(value) > MAX_LEVELS:
        raise NotJson(f"more than {MAX_LEVELS} levels")
    return value


def text_of(value, quoted=json.dumps, comma=",", colon=":"):
    """Returns the text of a value, in which strings are quoted by a function."""
    if isinstance(value, Object):
        return "{" + comma.join(f"{quoted(key)}{colon}{text_of(it, quoted, comma, colon)}" for key, it in value) + "}"
    if isinstance(value, list):
        return "[" + comma.join(text_of(it, quoted, comma, colon) for it in value) + "]"
    if isinstance(value, Number):
        return str(value)
    return quoted(value) if isinstance(value, str) else json.dumps(value)
