"""Runs ./report and ./typer on files: scripts/launch.py NAME ARGUMENT.., with standard input as descriptor 3.

If the proved program is built and no source is newer, that answers. Otherwise the toolchain compiles the same sources
with checks, once for all inputs, and proves nothing (scripts/run_unproved.py); two lines on standard error say so.
Arguments are checked before anything else. What is printed of several files, and of a whole run, is made here
(scripts/several_reports.py, scripts/sarif.py, scripts/github_annotations.py).
"""
import os
import pathlib
import re
import signal
import stat
import subprocess
import sys
import tempfile

TOP = pathlib.Path(__file__).resolve().parent.parent
sys.path.insert(0, str(TOP / "tests/lib"))
import run_unproved
import several_reports
from programs import is_built, program_of
from report_arguments import HELP, USAGE, VERSION, Arguments, WrongArgument, check_files, parsed, with_closest
from run_unproved import Answer
from several_reports import Piece, shown

STANDARD_INPUT = 3
BAD_USAGE, READ_FAILED, WRITE_FAILED, INTERRUPTED = 2, 3, 4, 130
# As many bytes of an input are read as show that it is too long.
MAX_INPUT = {"report": 268_435_456 + 1, "typer": 1_048_576 + 1}
# Flags that are for the text output alone.
WITHOUT_JSON = {"--all", "--all-structs", "--drawing", "--explain", "--no-drawing"}
AWAITED = {"report": "a module as JSON", "typer": "questions, one a line"}
BAD_LINE = re.compile(rb"(?:.*\n)?bad line (\d+)\n", re.DOTALL)
# The reasons that typer doesn't print itself.
ENDS_OF_TYPER = {5: "out of memory", 6: "the input has more than 1,048,576 bytes"}


class OutputFailed(Exception):
    """Standard output can't be written."""


def say(text):
    """Prints a line on standard error."""
    print(text, file=sys.stderr, flush=True)


def parsed_for_typer(words):
    """Returns the arguments of typer, which are files alone. Raises WrongArgument for another one."""
    end = words.index("--") if "--" in words else len(words)
    for word in words[:end]:
        if word.startswith("-") and word != "-":
            raise WrongArgument(with_closest(f"`{word}` is no flag", word, [*HELP, *VERSION]))
    files = words[:end] + words[end + 1 :]
    check_files(files)
    if files and files[0] in ("call", "rules", "layout", "convert", "module") and not os.path.exists(files[0]):
        example = f"echo '{' '.join(files)}' | typer"
        raise WrongArgument(f"`{files[0]}` is no file; a question is a line of the input, as in: {example}")
    return Arguments([], files)


def write(text):
    """Writes to standard output. Raises OutputFailed if that fails."""
    if sys.stdout is None:
        raise OutputFailed
    try:
        sys.stdout.buffer.write(text)
        sys.stdout.buffer.flush()
    except OSError:
        # Python writes the rest of its buffer at its end, which must not fail again.
        os.dup2(os.open(os.devnull, os.O_WRONLY), 1)
        raise OutputFailed


def opened(file):
    """Returns the descriptor of a file, of which `-` is standard input. Raises OSError for a directory, too."""
    descriptor = os.dup(STANDARD_INPUT) if file == "-" else os.open(file, os.O_RDONLY)
    if stat.S_ISDIR(os.fstat(descriptor).st_mode):
        os.close(descriptor)
        raise IsADirectoryError(0, "it is a directory")
    return descriptor


def is_readable(file):
    """Returns whether a file can probably be read. It isn't opened, since that may take bytes of a pipe."""
    try:
        mode = os.fstat(STANDARD_INPUT).st_mode if file == "-" else os.stat(file).st_mode
    except OSError:
        return False
    return not stat.S_ISDIR(mode) and (file == "-" or os.access(file, os.R_OK))


def read(name, file):
    """Returns the bytes of an input, or the error by which it can't be read."""
    try:
        with open(opened(file), "rb") as source:
            if file == "-" and source.isatty():
                say(f"{name}: waits for {AWAITED[name]} on standard input, ended by Ctrl-D")
            return source.read(MAX_INPUT[name])
    except OSError as error:
        return error


def unread(error):
    """Returns the answer to an input that can't be read."""
    return Answer(READ_FAILED, b"", f"can't be read: {error.strerror}\n".encode())


def run_built(name, flags, text):
    """Returns the answer of the built program to an input."""
    ran = subprocess.run([program_of(name), *flags], input=text, capture_output=True)
    status = ran.returncode if ran.returncode >= 0 else 128 - ran.returncode
    return Answer(status, ran.stdout, ran.stderr)


def warn_unproved(name):
    """Says on standard error that nothing is proved yet, and whether the toolchain differs from the pinned one."""
    say(f"{name}: not proved yet on this machine: the same code, compiled with checks, answers in one to two minutes")
    say(f"{name}: ./prove {name} proves and builds the program, which then answers at once")
    pinned = subprocess.run([TOP / "scripts/toolchain"], stdin=subprocess.DEVNULL, capture_output=True, text=True)
    if pinned.returncode:
        say(f"{name}: {pinned.stderr.strip()}")


def built_answers(name, arguments):
    """Yields each file with its bytes and the answer of the built program."""
    for file in arguments.files:
        text = read(name, file)
        answer = unread(text) if isinstance(text, OSError) else run_built(name, arguments.for_program(), text)
        yield file, text, answer


def unproved_answers(name, arguments):
    """Yields each file with its bytes and the answer of the program, compiled once without proof. Raises BuildFailed."""
    if any(map(is_readable, arguments.files)):
        warn_unproved(name)
    held = {it: read(name, it) for it in arguments.files}
    readable = {it: text for it, text in held.items() if isinstance(text, bytes)}
    found = run_unproved.run(name, [(arguments.for_program(), it) for it in readable.values()]) if readable else []
    answers = dict(zip(readable, found))
    for file in arguments.files:
        yield file, held[file], answers.get(file) or unread(held[file])


def reason_of(name, text, answer):
    """Returns why typer stops at a line or has no answer, None if it has one."""
    bad = BAD_LINE.fullmatch(answer.output)
    if name == "typer" and answer.status == BAD_USAGE and bad:
        from explain_line import reason
        number = int(bad[1])
        lines = text.removesuffix(b"\n").split(b"\n")
        more = len(lines) - number
        rest = f"; {more} more line{'s' if more > 1 else ''} without a reply" if more else ""
        return f"line {number}: {reason(lines[number - 1]) or 'this is no question'}{rest}"
    return ENDS_OF_TYPER.get(answer.status) if name == "typer" else None


def piece_of(name, file, text, answer, is_named):
    """Returns an answer and its errors, with the name of the file if there are several."""
    label, reason = shown(file), reason_of(name, text, answer)
    head = f"{label}:\n".encode() if is_named and (answer.output or answer.status == 0) else b""
    is_own = isinstance(text, OSError) or answer.status in (run_unproved.BEYOND_A_TRY, run_unproved.FAILED)
    prefix = f"{label}: " if is_named or isinstance(text, OSError) else ""
    errors = ""
    if answer.errors:
        own = f"{name}: " if is_own else ""
        errors = own + prefix + answer.errors.decode(errors="backslashreplace").rstrip("\n")
    elif reason:
        errors = f"{name}: {prefix}{reason}"
    return Piece(head + answer.output, errors)


def pieces_of(name, arguments, answers):
    """Returns what is printed of all answers, by the form that the arguments ask for."""
    form, _ = arguments.form()
    if form == "sarif":
        import sarif
        return sarif.pieces(answers)
    if form == "github":
        import github_annotations
        return github_annotations.pieces(answers)
    if form == "json":
        return several_reports.json_lines(answers)
    is_named = len(arguments.files) > 1
    if is_named and name == "report":
        return several_reports.texts(answers)
    return (piece_of(name, file, text, answer, is_named) for file, text, answer in answers)


def hand_on_all(name, arguments, answers):
    """Writes what is printed of all answers, and returns the highest exit status."""
    highest = 0

    def noted():
        nonlocal highest
        for it in answers:
            highest = max(highest, it[2].status)
            yield it

    try:
        for piece in pieces_of(name, arguments, noted()):
            write(piece.output)
            if piece.errors:
                say(piece.errors)
    except OutputFailed:
        say(f"{name}: the output can't be written")
        highest = max(highest, WRITE_FAILED)
    except run_unproved.BuildFailed as failure:
        with tempfile.NamedTemporaryFile(prefix=f"{name}-try-", suffix=".log", delete=False) as log:
            log.write(failure.args[0])
        say(f"{name}: no answer: the program can't be compiled; the output of the toolchain is in {log.name}")
        highest = run_unproved.FAILED
    return highest


def run_in_place(name, arguments):
    """Becomes the built program, with the only file as standard input. Returns a status if that can't be read."""
    try:
        source = opened(arguments.files[0])
    except OSError as error:
        return hand_on_all(name, arguments, [(arguments.files[0], error, unread(error))])
    if os.isatty(source):
        say(f"{name}: waits for {AWAITED[name]} on standard input, ended by Ctrl-D")
    os.dup2(source, 0)
    for it in {source, STANDARD_INPUT} - {0}:
        os.closerange(it, it + 1)
    # Python ignores these two, and a program that it becomes would, too.
    signal.signal(signal.SIGPIPE, signal.SIG_DFL)
    signal.signal(signal.SIGXFSZ, signal.SIG_DFL)
    program = str(program_of(name))
    os.execv(program, [program, *arguments.for_program()])


def answer_files(name, arguments):
    """Answers all files, and returns the exit status."""
    arguments.files = arguments.files or ["-"]
    form, word = arguments.form()
    if form != "text":
        for flag in sorted(WITHOUT_JSON.intersection(arguments.flags)):
            say(f"{name}: {flag} has no effect with {word}")
    if not is_built(name):
        return hand_on_all(name, arguments, unproved_answers(name, arguments))
    # An answer as JSON has the name of its file, which the program doesn't know.
    is_plain = form == "text" or (form == "json" and arguments.files == ["-"])
    if name == "report" and len(arguments.files) == 1 and is_plain:
        return run_in_place(name, arguments)
    return hand_on_all(name, arguments, built_answers(name, arguments))


def main():
    """Answers --help and --version, checks the arguments, and answers the files."""
    name, *words = sys.argv[1:]
    for word in words[: words.index("--") if "--" in words else len(words)]:
        if word in HELP:
            write((TOP / f"scripts/help_{name}.txt").read_bytes())
            return 0
        if word in VERSION:
            write(f"{name} {(TOP / 'VERSION').read_text()}".encode())
            return 0
    try:
        arguments = parsed(words) if name == "report" else parsed_for_typer(words)
    except WrongArgument as wrong:
        text = shown(str(wrong))
        say(f"{name}: {text}\n{USAGE}" if name == "report" else f"{name}: {text}; see {name} --help")
        return BAD_USAGE
    return answer_files(name, arguments)


if __name__ == "__main__":
    try:
        sys.exit(main())
    except OutputFailed:
        sys.exit(WRITE_FAILED)
    except KeyboardInterrupt:
        sys.exit(INTERRUPTED)
