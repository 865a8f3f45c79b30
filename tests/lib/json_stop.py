"""Finds where a text stops being the start of some JSON, by completing its beginnings and asking Python's reader.

    stop_of(text)              the first byte with which no JSON goes on; the length of a text that is too short, or that is JSON
    is_too_deep(text, stop)    whether the byte there is a bracket inside 128 others

A surrogate stands only in a pair. Bytes that aren't UTF-8 stop a text at the latest.
"""
import json
import re

MOST_OPEN = 128
# What may complete a word, a number or a value; and a string, after a backslash or within an escape, too.
OUTSIDE = ["", "0", "rue", "ue", "e", "alse", "lse", "se", "ull", "ll", "l", '"":0', ":0"]
PAIR = r"00\udc00"
INSIDE = ['"', 'n"', *(f'{"0" * it}"' for it in range(1, 5)), 'u0000"', *(f'{PAIR[it:]}"' for it in range(7))]


def refuse(word):
    """Refuses a number that is no JSON, as NaN."""
    raise ValueError(word)


def is_json(text):
    """Returns whether a text is JSON without a lone surrogate."""
    try:
        value = json.loads(text, parse_int=str, parse_float=str, parse_constant=refuse)
        json.dumps(value, ensure_ascii=False).encode()
    except ValueError:
        return False
    return True


def open_in(start):
    """Returns the brackets that are open behind the start of a text, the most that were open at once, and whether a string is open."""
    bare = re.sub(r'"(?:[^"\\]|\\.)*"', "", start, flags=re.DOTALL)
    bare, quote, _ = bare.partition('"')
    brackets, most = [], 0
    for bracket in re.findall(r"[\[{\]}]", bare):
        if bracket in "[{":
            brackets.append(bracket)
        elif brackets:
            brackets.pop()
        most = max(most, len(brackets))
    return brackets, most, bool(quote)


def goes_on(start, most_open=MOST_OPEN):
    """Returns whether some JSON begins so that has at most so many brackets in one another."""
    brackets, most, is_inside = open_in(start)
    ends = [end + more for end in INSIDE for more in ("", ":0")] if is_inside else OUTSIDE
    closers = "".join("]" if it == "[" else "}" for it in reversed(brackets))
    return most <= most_open and any(is_json(start + end + closers) for end in ends)


def valid_length(text):
    """Returns the length of the longest beginning of some bytes that is UTF-8."""
    try:
        text.decode()
    except UnicodeDecodeError as error:
        return error.start
    return len(text)


def stop_of(text):
    """Returns the first byte with which no JSON goes on, or the length of the text."""
    text = text[: valid_length(text)]
    starts = [it for it in range(len(text) + 1) if it == len(text) or not 128 <= text[it] < 192]
    first, last = 0, len(starts) - 1
    while first < last:
        middle = (first + last + 1) // 2
        if goes_on(text[: starts[middle]].decode()):
            first = middle
        else:
            last = middle - 1
    return starts[first]


def is_too_deep(text, stop):
    """Returns whether the byte at which a text stops is a bracket inside 128 others."""
    return text[stop : stop + 1] in (b"[", b"{") and goes_on(text[: stop + 1].decode(), MOST_OPEN + 1)
