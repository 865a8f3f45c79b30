"""Makes a command of GitHub's workflows for each diagnostic of `report --json`: an annotation of the file.

An answer comes as the name of the file, its bytes or the error by which it can't be read, and the end of the program on it.
The line and the column are those of the value in the JSON. No text can begin a line, so none can be a command.
"""
import json

from json_places import Places, region_of
from several_reports import ACCEPTED, NOT_MODULE, READ_FAILED, REFUSED, UNREADABLE, Piece, name_of, reason_of
from shown_names import shown_name

COMMANDS = {"error": "error", "warning": "warning", "info": "notice"}
# What a message escapes, and what a property escapes besides.
IN_TEXT = {"%": "%25", "\r": "%0D", "\n": "%0A"}
IN_PROPERTY = IN_TEXT | {":": "%3A", ",": "%2C"}


def escaped(text, signs):
    """Returns a text with these signs escaped."""
    return "".join(signs.get(it, it) for it in text)


def path_of(pointer):
    """Returns the path that a JSON pointer leads along, as diagnostics spell it."""
    steps = [it.replace("~1", "/").replace("~0", "~") for it in pointer.split("/")[1:]]
    return "".join(f"[{it}]" if it.isdigit() else f".{it}" for it in steps).removeprefix(".")


def body_of(location, places):
    """Returns the function or entry point of a location as text output has it, None if it is in none."""
    (kind, index), *_ = (location["body"] or {"": None}).items()
    name = shown_name(location.get("name") or "")
    if kind == "Function":
        return f"function `{name or f'function#{index}'}`"
    stage = places.value(f"/entry_points/{index}/stage") if kind == "EntryPoint" else None
    return f"{stage.lower()} entry point `{name}`" if isinstance(stage, str) else None


def place_of(found, places):
    """Returns the place of a diagnostic as text output has it: function and statement, or the path of a value; empty if it has none."""
    location = found["location"]
    body = body_of(location, places)
    path = location.get("path") or path_of(location.get("pointer", ""))
    if not body:
        return path
    if found["code"].startswith("M"):
        return f"{path} ({body})"
    return f"{body}, {location['statement']}" if "statement" in location else body


def annotation(file, places, found):
    """Returns the command for a diagnostic."""
    properties = {} if file == "-" else {"file": name_of(file)}
    region = region_of(found["location"], places)
    properties |= {"line": str(region.line), "col": str(region.column)} if region else {}
    properties["title"] = f"{found['code']} {found['name']}"
    place = place_of(found, places)
    message = found["message"] + (f" ({place})" if place else "")
    text = "\n".join([message, *(f"help: {it}" for it in found["help"])])
    return command(COMMANDS[found["severity"]], properties, text)


def command(kind, properties, text):
    """Returns a command as one line."""
    held = ",".join(f"{name}={escaped(it, IN_PROPERTY)}" for name, it in properties.items())
    return f"::{kind}{' ' if held else ''}{held}::{escaped(text, IN_TEXT)}\n"


def lines_on(file, text, answer):
    """Returns the commands for an answer, as one text."""
    if answer.status not in (ACCEPTED, REFUSED, NOT_MODULE):
        reason = UNREADABLE if answer.status == READ_FAILED else reason_of(answer)
        return command("error", {} if file == "-" else {"file": name_of(file)}, reason)
    diagnostics = json.loads(answer.output)["diagnostics"]
    places = Places(text) if diagnostics else None
    return "".join(annotation(file, places, it) for it in diagnostics)


def pieces(answers):
    """Yields the commands for each file."""
    for file, text, answer in answers:
        yield Piece(lines_on(file, text, answer).encode(errors="backslashreplace"))
