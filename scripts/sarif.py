"""Makes a SARIF 2.1.0 log of the answers of `report --json` to the files of a run.

An answer comes as the name of the file, its bytes or the error by which it can't be read, and the end of the program on it.
A place is that of the value in the JSON: each location has its region there, the name of the function, and the JSON pointer.
"""
import json
import os
import pathlib
import re
import urllib.parse

from json_places import Places, region_of
from several_reports import ACCEPTED, NOT_MODULE, READ_FAILED, REFUSED, UNREADABLE, Piece, reason_of

TOP = pathlib.Path(__file__).resolve().parent.parent
SCHEMA = "https://json.schemastore.org/sarif-2.1.0.json"
LEVELS = {"error": "error", "warning": "warning", "info": "note"}
# A row with a code and its sentence.
SENTENCE = re.compile(r"(?m)^\| ([A-Z]\d{3}) \| ([A-Z`].*\.) \|$")
# What is said of the place of a need, which ends the way from its source: the invocations that have to be together there.
QUAD, WORKGROUP, SUBGROUP = (f"needs all invocations of the {it}" for it in ("quad", "workgroup", "subgroup"))
NEEDS = {"U101": QUAD, "U102": QUAD, "U103": WORKGROUP, "U104": WORKGROUP, "U105": WORKGROUP, "U106": SUBGROUP}
# What is said in place of it where invocations may pass different pointers, and how the message tells that.
POINTER, BY_POINTER = "needs the same pointer in all invocations of the workgroup", "needs one pointer"


def sentences():
    """Returns the sentence of each code, which docs/DIAGNOSTICS.md has."""
    return dict(SENTENCE.findall((TOP / "docs/DIAGNOSTICS.md").read_text()))


def uri_of(file):
    """Returns the name of a file as a URI, or that of standard input."""
    return "stdin" if file == "-" else urllib.parse.quote(os.fsencode(file), safe="/")


def rules_of(names):
    """Returns the rules with these names of codes, in the order of the codes."""
    texts = sentences()
    return [
        {"id": code, "name": name.title().replace("-", ""), "shortDescription": {"text": texts.get(code, name)}}
        for code, name in sorted(names.items())
    ]


def artifact(file):
    """Returns the part of a location that names the file."""
    return {"artifactLocation": {"uri": uri_of(file)}}


def region_in(location, places):
    """Returns the region of a location as members, empty if it isn't known."""
    region = region_of(location, places)
    names = ("startLine", "startColumn", "endLine", "endColumn")
    held = {name: it for name, it in zip(names, region or ()) if it is not None}
    return {"region": held} if held else {}


def location_of(file, places, location, message=None):
    """Returns a location of a diagnostic, with what is said of it."""
    logical = [{"name": location["name"], "kind": "function"}] if "name" in location else []
    if "pointer" in location:
        logical.append({"fullyQualifiedName": location["pointer"], "kind": "value"})
    found = {"physicalLocation": artifact(file) | region_in(location, places)}
    found |= {"logicalLocations": logical} if logical else {}
    return found | ({"message": {"text": message}} if message else {})


def flow_of(file, places, found):
    """Returns the way from the source of a violated need to the need, empty for another diagnostic."""
    if not found["related"]:
        return {}
    steps = [(it["location"], it["message"]) for it in reversed(found["related"])]
    need = POINTER if BY_POINTER in found["message"] else NEEDS.get(found["code"], found["message"])
    steps.append((found["location"], need))
    locations = [{"location": location_of(file, places, *it)} for it in steps]
    return {"codeFlows": [{"threadFlows": [{"locations": locations}]}]}


def text_of(found):
    """Returns the message of a diagnostic, with a line for each note and each help."""
    notes = [f"note: {it}" for it in found["notes"]]
    return "\n".join([found["message"], *notes, *(f"help: {it}" for it in found["help"])])


def result_of(file, places, found):
    """Returns the result for a diagnostic, without the index of its rule."""
    result = {"ruleId": found["code"], "ruleIndex": None, "level": LEVELS[found["severity"]]}
    result |= {"message": {"text": text_of(found)}, "locations": [location_of(file, places, found["location"])]}
    return result | flow_of(file, places, found)


def notice_of(file, answer):
    """Returns the notification on a file without a report."""
    text = UNREADABLE if answer.status == READ_FAILED else reason_of(answer)
    return {"level": "error", "message": {"text": text}, "locations": [{"physicalLocation": artifact(file)}]}


def log_of(results, rules, notices, is_good):
    """Returns the whole log."""
    version = (TOP / "VERSION").read_text().strip()
    driver = {"name": "pethuvazh-report", "version": version, "rules": rules}
    invocation = {"executionSuccessful": is_good} | ({"toolExecutionNotifications": notices} if notices else {})
    run = {"tool": {"driver": driver}, "columnKind": "unicodeCodePoints", "results": results, "invocations": [invocation]}
    return {"$schema": SCHEMA, "version": "2.1.0", "runs": [run]}


def pieces(answers):
    """Yields the log of a run, at its end."""
    results, names, notices, is_good = [], {}, [], True
    for file, text, answer in answers:
        is_good = is_good and answer.status in (ACCEPTED, REFUSED)
        if answer.status not in (ACCEPTED, REFUSED, NOT_MODULE):
            notices.append(notice_of(file, answer))
            continue
        diagnostics = json.loads(answer.output)["diagnostics"]
        names |= {it["code"]: it["name"] for it in diagnostics}
        places = Places(text) if diagnostics else None
        results += [result_of(file, places, it) for it in diagnostics]
    rules = rules_of(names)
    at = {rule["id"]: index for index, rule in enumerate(rules)}
    for it in results:
        it["ruleIndex"] = at[it["ruleId"]]
    text = json.dumps(log_of(results, rules, notices, is_good), indent=1, ensure_ascii=False)
    yield Piece(f"{text}\n".encode(errors="backslashreplace"))
