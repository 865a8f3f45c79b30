"""Makes one output of the answers of `report` to several files: texts with the names of the files, or a line of JSON for each.

An answer comes as the name of the file, its bytes or the error by which it can't be read, and the end of the program on it.
"""
import json
import os
import re
import typing

ACCEPTED, REFUSED, READ_FAILED, NOT_MODULE = 0, 1, 3, 6
# How the line on all files counts an answer, by its status.
COUNTED = {ACCEPTED: "accepted", REFUSED: "refused", NOT_MODULE: "not a module", READ_FAILED: "unreadable"}
UNANSWERED = "without an answer"
VERDICT = re.compile(r"(?:accepted|refused|not a module)(?:: .*)?")
UNREADABLE = "can't be read"
# The beginning of each answer as JSON. The name of the file follows it.
VERSION = re.compile(rb'\{"version":"([^"]*)",')
FORMAT_VERSION = "1.0"


class Piece(typing.NamedTuple):
    """A part of what a run prints: bytes for standard output, and a text for standard error, each of which may be empty."""

    output: bytes = b""
    errors: str = ""


def name_of(file):
    """Returns the name of a file as text. A byte that is no part of a character is replaced."""
    return os.fsencode(file).decode(errors="replace")


def shown(file):
    """Returns the name of a file as one line shows it."""
    if file == "-":
        return "standard input"
    return "".join(it if it.isprintable() else "?" for it in name_of(file))


def reason_of(answer):
    """Returns why there is no report: what the program or the launcher says, without the name of the program."""
    said = answer.errors.decode(errors="backslashreplace").strip("\n").removeprefix("report: ")
    return said or f"no answer: the program ended with status {answer.status}"


def without_last_verdict(text):
    """Returns a report without the verdict at its end."""
    lines = text.rstrip("\n").split("\n")
    if len(lines) > 2 and not lines[-2] and VERDICT.fullmatch(lines[-1]):
        return "\n".join(lines[:-2])
    return "\n".join(lines)


def text_of(file, answer):
    """Returns an answer as text that begins with the name of its file, and has no verdict at its end."""
    label = shown(file)
    if answer.status == READ_FAILED:
        return f"{label}: {UNREADABLE}"
    if answer.status not in COUNTED:
        return f"{label}: {reason_of(answer)}"
    text = (answer.errors if answer.status == NOT_MODULE else answer.output).decode(errors="backslashreplace")
    if answer.status == NOT_MODULE and not VERDICT.fullmatch(text.split("\n", 1)[0]):
        return f"{label}: {COUNTED[NOT_MODULE]}: 1 error\n\n" + text.rstrip("\n")
    return f"{label}: {without_last_verdict(text)}"


def line_on_all(statuses):
    """Returns the last line of a run: how many files there are, and how many of them have each verdict."""
    words = [COUNTED.get(it, UNANSWERED) for it in statuses]
    counts = [f"{words.count(it)} {it}" for it in (*COUNTED.values(), UNANSWERED) if it in words]
    return f"{len(words)} files: {', '.join(counts)}"


def texts(answers):
    """Yields the texts of the answers to several files with an empty line behind each, and the line on all."""
    statuses = []
    for file, _, answer in answers:
        statuses.append(answer.status)
        yield Piece(f"{text_of(file, answer)}\n\n".encode(errors="backslashreplace"))
    yield Piece(f"{line_on_all(statuses)}\n".encode())


def compact(value):
    """Returns a value as JSON on one line without blanks, as the program prints it."""
    return json.dumps(value, separators=(",", ":"), ensure_ascii=False).encode()


def with_file(file, line):
    """Returns an answer as JSON with the member that has the name of its file. That of standard input has none."""
    begun = VERSION.match(line)
    if file == "-" or not begun:
        return line
    return begun[0] + b'"file":' + compact(name_of(file)) + b"," + line[begun.end() :]


def unreadable(file):
    """Returns the line on a file that can't be read."""
    return compact({"version": FORMAT_VERSION, "file": name_of(file), "verdict": "unreadable", "diagnostics": []}) + b"\n"


def json_line(file, answer):
    """Returns the line of JSON that answers a file, and what is said of it beside, if there is no such line."""
    if answer.status == READ_FAILED and file != "-":
        return Piece(unreadable(file))
    if answer.status in (ACCEPTED, REFUSED, NOT_MODULE):
        return Piece(with_file(file, answer.output))
    return Piece(errors=f"report: {shown(file)}: {reason_of(answer)}")


def json_lines(answers):
    """Yields the line of JSON on each file."""
    for file, _, answer in answers:
        yield json_line(file, answer)
