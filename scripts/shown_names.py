"""Shows the names of items as text output does (crates/report_names), which also escapes what can't be seen or could mislead."""

MOST_COLUMNS = 40
# The first and the last of each run of hidden characters, as crates/report_names/src/hidden.rt has them; tests/launcher compares.
HIDDEN = [
    (0x0, 0x20), (0x7F, 0xA0), (0xAD, 0xAD), (0x61C, 0x61C), (0x115F, 0x1160), (0x1680, 0x1680), (0x17B4, 0x17B5), (0x180B, 0x180F),
    (0x2000, 0x200F), (0x2028, 0x202F), (0x205F, 0x206F), (0x2800, 0x2800), (0x3000, 0x3000), (0x3164, 0x3164), (0xFE00, 0xFE0F),
    (0xFEFF, 0xFEFF), (0xFFA0, 0xFFA0), (0xFFF0, 0xFFFF), (0xE0000, 0xE0FFF),
]
ESCAPES = {"\n": "\\n", "\r": "\\r", "\t": "\\t", '"': '\\"', "\\": "\\\\"}


def is_escaped(character):
    """Returns whether a character of a name is written as an escape."""
    return character in '"\\`' or any(first <= ord(character) <= last for first, last in HIDDEN)


def shown_character(character):
    """Returns a character of a name as it is shown."""
    return ESCAPES.get(character, f"\\u{{{ord(character):x}}}") if is_escaped(character) else character


def fitting(shown, columns):
    """Returns the first of these texts, as many as fit into so many columns."""
    count, room = 0, columns
    while count < len(shown) and len(shown[count]) <= room:
        room -= len(shown[count])
        count += 1
    return shown[:count]


def shown_name(name):
    """Returns a name: in quotes if one of its characters is escaped, and cut if it takes more than 40 columns."""
    characters = name[: MOST_COLUMNS + 1]
    shown = [*map(shown_character, characters)]
    is_whole = len(fitting(shown, MOST_COLUMNS)) == len(shown)
    text = "".join(fitting(shown, MOST_COLUMNS if is_whole else MOST_COLUMNS - 3))
    text = f'"{text}"' if any(map(is_escaped, characters)) else text
    return text if is_whole else f"{text}..."
