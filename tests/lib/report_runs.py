"""Asks the program `report` about modules as JSON, and judges its answers."""
import json
import re
import resource
import subprocess

import run_unproved
from answer_heads import parted, wrong_head
from check import RUN_SECONDS
from compare_info import difference
from crates import TOP
from programs import program_of

DATA = TOP / "tests/data"
MODULES, UNIFORMITY, RULES = DATA / "modules", DATA / "uniformity", DATA / "lines/rules.in"
REPORT = program_of("report")
ACCEPTED, REFUSED, BAD_USAGE, READ_FAILED, WRITE_FAILED, OUT_OF_MEMORY, NOT_MODULE = range(7)
MODULE = re.compile(rb'"module"\s*:\s*')
# The first line of a text on a refused module, and the first two lines of a block, of which a text without --all has at most so many, and
# the line on others.
VERDICT, MOST_BLOCKS = re.compile(r"refused: ([1-9]\d*) errors?"), 20
BLOCK = re.compile(r"(?m)^\nerror\[[A-Z]\d{3}\]: .+\n  --> .+$")
MORE = re.compile(r"(?m)^\n\.\.\. and ([1-9]\d*) more, which `--all` shows$")
INDEXING = {1: "textures", 2: "storage-textures", 3: "textures,storage-textures"}


class Case:
    """Reads a line with a module: its bytes, its value, and the arguments for its flags and capabilities."""

    def __init__(self, line):
        row = json.loads(line)
        text = line.rstrip()
        self.text = text[MODULE.search(text).end() : -1]
        self.module = row["module"]
        assert json.loads(self.text) == self.module
        self.words = ["--uniformity=naga" if row["flags"] & 1 else "--uniformity=off"]
        self.words += [f"--non-uniform-indexing={INDEXING[row['capabilities']]}"] if row["capabilities"] else []


def values_in(path):
    """Returns the value of each line of a file."""
    return [json.loads(line) for line in path.read_bytes().splitlines()]


def cases(path):
    """Returns a name and the case of each line."""
    lines = path.read_bytes().splitlines()
    return [(f"{path.parent.name}/{path.name}:{number}", Case(line)) for number, line in enumerate(lines, 1)]


def functions_asked():
    """Returns the names of the built-in functions, which are those of the questions on overloads."""
    return {line.split()[1].decode() for line in RULES.read_bytes().splitlines()}


def ask_all(text, words=("--json",), memory=None, program=REPORT):
    """Runs the program, and returns its status, None if it doesn't end, and the bytes of standard output and standard error."""
    limit = memory and (lambda: resource.setrlimit(resource.RLIMIT_AS, (memory, memory)))
    try:
        ended = subprocess.run([program, *words], input=text, capture_output=True, preexec_fn=limit, timeout=RUN_SECONDS)
    except subprocess.TimeoutExpired:
        return None, b"", b""
    return ended.returncode, ended.stdout, ended.stderr


def ask(text, words=("--json",), memory=None, program=REPORT):
    """Runs the program, and returns its status, None if it doesn't end, and the bytes of standard output."""
    return ask_all(text, words, memory, program)[:2]


def ask_many(program, asked, is_tried):
    """Returns status and output of a program on each of many inputs, given by arguments and text; tried ones share one build."""
    if is_tried:
        return run_unproved.answers(program.name, asked)
    return [ask(text, words, program=program) for words, text in asked]


def read(line):
    """Returns the object of a line that the program writes, without white space; for any other line an object that holds it."""
    try:
        value = json.loads(line)
        plain = json.dumps(value, separators=(",", ":"), ensure_ascii=False).encode() + b"\n"
    except ValueError:
        value, plain = None, None
    return value if isinstance(value, dict) and line == plain else {"line": line.decode(errors="replace")}


def answer_to(text, words=()):
    """Asks the program for JSON, and returns its status and the members behind the head of the line that it writes, or what is wrong."""
    status, line = ask(text, ("--json", *words))
    answer = read(line)
    wrong = wrong_head(status, answer, text)
    return status, {"wrong": wrong} if wrong else parted(answer)[1]


def is_accepted(answer):
    """Returns whether an answer is that to an accepted module."""
    return "layouts" in answer and "info" in answer


def status_of(answer):
    """Returns the status that goes with an answer to a module."""
    return ACCEPTED if is_accepted(answer) else REFUSED


class Asked:
    """Holds a question to `report`, the function that judges the answer, and the text that is wanted on standard error.

    The function takes the status and the output, with --json its value, and returns what is wrong, or None.
    """

    def __init__(self, name, text, words, judge, said=""):
        self.name, self.text, self.words, self.judge, self.said = name, text, words, judge, said

    def wrong(self, status, output, said=None):
        """Returns what is wrong with the answer, or None. A try gives no standard error."""
        if status is None:
            return "no answer"
        if said is not None and said.decode() != self.said:
            return f"standard error is {said.decode()!r}, wanted {self.said!r}"
        if "--json" not in self.words:
            text = output.decode(errors="replace")
            return (wrong_refusal(text, self.words) if status == REFUSED else None) or self.judge(status, text)
        answer = read(output)
        return wrong_head(status, answer, self.text) or self.judge(status, parted(answer)[1])


def judge_answer(case, want, cause=None):
    """Returns the function that compares the answer to a module with that of naga's own code, and with the causes of its refusal."""

    def judge(status, answer):
        wrong = None if status == status_of(want) else f"status {status}, wanted {status_of(want)}"
        return wrong or difference(answer, want, case.module, cause)

    return judge


def wrong_refusal(text, words):
    """Returns what is wrong with the text on a refused module, or None: its first and last line, and the number of its blocks, which
    --all doesn't limit."""
    lines = text.split("\n")
    count = VERDICT.fullmatch(lines[0])
    heads = len(BLOCK.findall(text))
    more = MORE.search(text)
    all_told = heads + (int(more[1]) if more else 0)
    within = not more if "--all" in words else heads <= MOST_BLOCKS
    good = count and lines[-2:] == [lines[0], ""] and all_told == int(count[1]) and within
    return None if good else f"{heads} blocks between the lines {lines[0]!r} and {lines[-2:]!r}"


def judge_text(want):
    """Returns the function that compares a text report with the one that is wanted."""

    def judge(status, text):
        good = text == want and status == (ACCEPTED if "accepted" in want.splitlines() else REFUSED)
        return None if good else f"status {status}, printed {text}"

    return judge


def ask_each(asked, is_tried):
    """Returns for each question its name and what is wrong with the answer, or None."""
    texts = [(it.words, it.text) for it in asked]
    found = run_unproved.answers(REPORT.name, texts) if is_tried else [ask_all(text, words) for words, text in texts]
    return [(it.name, it.wrong(*of_it)) for it, of_it in zip(asked, found)]
