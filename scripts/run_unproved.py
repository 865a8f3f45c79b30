"""Answers by a program of crates/ that isn't proved: `rt try` compiles its sources with checks, and runs it on each input.

One build answers all inputs of a call. An input has no answer if it or its output exceeds a limit of `rt try`.
"""
import pathlib
import re
import subprocess
import tempfile
import typing

CRATES = pathlib.Path(__file__).resolve().parent.parent / "crates"
# How an input ends that has no answer: by a limit of `rt try`, or as it fails.
BEYOND_A_TRY, FAILED = 70, 71
LIMITS = "at most 1 MiB of output and 60 seconds"
# `rt try` also interprets the program for so many steps, in vain: it can't interpret all that the programs call.
FLAGS = ["--steps", "1"]
CASE = re.compile(rb"(?m)^case=(\d+) run=(\S+)(?: status=(\d+))? .*proved=no\n")
OUTPUT = re.compile(rb"(?m)^== (\d+)\n")


class Answer(typing.NamedTuple):
    """The end of a program on an input: its exit status, standard output and standard error."""

    status: int
    output: bytes
    errors: bytes


class BuildFailed(Exception):
    """The program can't be compiled or run. The only argument is the output of the toolchain."""


def try_cases(name, folder):
    """Has the toolchain compile the program and run it on each file of a folder. Returns both of its outputs."""
    command = ["rt", "try", *FLAGS, "--cases", str(folder)]
    try:
        ran = subprocess.run(command, cwd=CRATES / name, stdin=subprocess.DEVNULL, capture_output=True)
    except OSError as error:
        raise BuildFailed(f"rt, the command of the Rattle toolchain, doesn't start: {error.strerror}\n".encode())
    return ran.stdout, ran.stderr


def write_case(folder, number, flags, text):
    """Writes an input and its flags as `rt try` reads them."""
    (folder / str(number)).write_bytes(text)
    if flags:
        (folder / f"{number}.args").write_text("".join(f"{it}\n" for it in flags))


def answer_of(ended, output, errors):
    """Returns the answer of an input from how its run ended."""
    kind, status = ended
    if kind == b"ended":
        return Answer(int(status), output, errors)
    if kind == b"no-answer":
        return Answer(BEYOND_A_TRY, b"", f"no answer: a run without proof has {LIMITS}\n".encode())
    return Answer(FAILED, b"", b"no answer: the program stopped at a check:\n" + errors)


def run(name, asked):
    """Returns the answers to inputs, each given by flags and bytes. Raises BuildFailed if there are none."""
    with tempfile.TemporaryDirectory() as room:
        folder = pathlib.Path(room) / "cases"
        folder.mkdir()
        for number, (flags, text) in enumerate(asked):
            write_case(folder, number, flags, text)
        output, said = try_cases(name, folder)
    pieces = OUTPUT.split(output)
    outputs = dict(zip(map(int, pieces[1::2]), pieces[2::2]))
    found, last = {}, 0
    for it in CASE.finditer(said):
        number = int(it[1])
        found[number] = answer_of((it[2], it[3]), outputs.get(number, b""), said[last : it.start()])
        last = it.end()
    if asked and not found:
        raise BuildFailed(said)
    missing = Answer(FAILED, b"", b"no answer: the toolchain stopped before this input\n")
    return [found.get(it, missing) for it in range(len(asked))]


def answers(name, asked):
    """Returns status and output of the program on inputs, each given by flags and bytes, by one build.

    The status is None for an input without an answer. The output of the toolchain is printed if it can't compile.
    """
    try:
        found = run(name, asked)
    except BuildFailed as failure:
        print(failure.args[0].decode(errors="replace"))
        return [(None, b"")] * len(asked)
    return [(None, b"") if it.status in (BEYOND_A_TRY, FAILED) else (it.status, it.output) for it in found]
