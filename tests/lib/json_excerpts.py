"""Computes what `report` shows of a JSON text: the line around a value with marks below it, and all of the text on a wrong input.

    excerpt(text, begin, end, label)    the line with the byte `begin`, marked up to before the byte `end`
    place(text, byte)                   the line and the column of a byte, in words
    error_text(row, text)               the text on an input that is no module, by its row of expected.jsonl
"""
import sys
import textwrap

from crates import TOP

sys.path.insert(0, str(TOP / "scripts"))
from json_places import Places
from shown_names import HIDDEN

COLUMNS, COLUMNS_BEFORE, MOST_MARKED, ADVICE_COLUMNS = 76, 24, 40, 100
VERDICT = "not a module: 1 error\n"


def is_hidden(character):
    """Returns whether a reader can't see a character that isn't a blank."""
    return character != " " and any(first <= ord(character) <= last for first, last in HIDDEN)


def shown(line):
    """Yields the first byte of each character of a line, and how it is shown, or a byte that is part of none."""
    at = 0
    while at < len(line):
        for size in range(1, 5):
            try:
                character = line[at : at + size].decode()
            except UnicodeDecodeError:
                continue
            named = {"\t": "\\t", "\r": "\\r"}.get(character, f"\\u{{{ord(character):x}}}")
            yield at, named if is_hidden(character) else character
            break
        else:
            size = 1
            yield at, f"\\x{line[at]:x}"
        at += size


def line_around(text, byte):
    """Returns the bytes of the line with a byte, and the place of the byte in it."""
    start = text.rfind(b"\n", 0, byte) + 1
    end = text.find(b"\n", byte)
    return (text[start:] if end < 0 else text[start:end]).removesuffix(b"\r"), byte - start


def excerpt(text, begin, end, label=""):
    """Returns the line with a byte, cut to its middle if it is long, and marks below the bytes up to another one, with a label."""
    line, at = line_around(text, begin)
    pieces = list(shown(line))
    before = [it for place, it in pieces if place < at]
    after = [it for place, it in pieces if place >= at]
    marked = [it for place, it in pieces if at <= place < at + end - begin]
    width = lambda some: sum(map(len, some))
    room, start = max(COLUMNS_BEFORE, COLUMNS - width(after)), len(before)
    while start and width(before[start - 1 :]) <= room:
        start -= 1
    kept, last = before[start:], 0
    while last < len(after) and width(kept) + width(after[: last + 1]) <= COLUMNS:
        last += 1
    dots, more = "..." if start else "", "..." if last < len(after) else ""
    marks = " " * (len(dots) + width(kept)) + "^" * min(max(width(marked), 1), MOST_MARKED)
    return f"   | {dots}{''.join(kept + after[:last])}{more}\n   | {marks}{' ' * bool(label)}{label}\n"


def place(text, byte):
    """Returns the line and the column of a byte, in words."""
    before = text[:byte]
    column = sum(not 128 <= it < 192 for it in before.rpartition(b"\n")[2]) + 1
    return f"line {before.count(10) + 1}, column {column}"


def pointer_of(path):
    """Returns the JSON pointer of a path."""
    return "".join(f"/{it}" for it in path.replace("[", ".").replace("]", "").split(".") if it)


def span_of(text, path):
    """Returns the first byte of the value at a path, and the byte behind it."""
    places = Places(text)
    begin, end = places.span(pointer_of(path))
    return len(places.text[:begin].encode()), len(places.text[:end].encode())


def span_of_second(text, path):
    """Returns the first byte of the second key of the member at a path, or of the item, and the byte behind it."""
    span = span_of(text, path)
    if path.endswith("]"):
        return span
    key = f'"{path.rpartition(".")[2]}"'.encode()
    begin = text.index(key, span[1])
    return begin, begin + len(key)


def advice(word, words):
    """Returns a note or help, whose lines break at blanks."""
    lines = textwrap.wrap(words, ADVICE_COLUMNS - 11, break_long_words=False, break_on_hyphens=False)
    return f"   = {word}: " + "\n           ".join(lines) + "\n"


def marked_bytes(row, text):
    """Returns the first byte that a row is about, and the byte behind what is marked, None if no line is shown."""
    if "path" in row:
        return (span_of_second if row["code"] == "I012" else span_of)(text, row["path"])
    return row["byte"], row["byte"] + row["marked"] if "marked" in row else None


def error_text(row, text):
    """Returns the text on an input that is no module."""
    begin, end = marked_bytes(row, text)
    where = ": ".join(filter(None, (place(text, begin), row.get("path"))))
    lines = excerpt(text, begin, end, row.get("label", "")) if end is not None else ""
    lines += "".join(advice("note", it) for it in row.get("notes", [])) + "".join(advice("help", it) for it in row.get("help", []))
    return f"{VERDICT}\nerror[{row['code']}]: {row['message']}\n  --> {where}\n{lines}\n{VERDICT}"
