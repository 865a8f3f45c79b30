"""Checks the arguments of `report` before anything is compiled or read.

The program checks its options again (crates/report_answers/src/options.rt and policies.rt), and says what is wrong by the same
words (crates/report/src/wrong_words.rt). tests/launcher compares both.
"""
import dataclasses
import difflib
import os

# What the launcher makes of the answers of a whole run.
OF_A_RUN = ("--format=sarif", "--format=github")
# The options of one group set the same thing, so at most one of them is given.
GROUPS = [
    ["--json", "--format=text", "--format=json", *OF_A_RUN],
    ["--uniformity=wgsl", "--uniformity=naga", "--uniformity=off", "--no-control-flow-uniformity"],
    [
        "--non-uniform-indexing=textures",
        "--non-uniform-indexing=storage-textures",
        "--non-uniform-indexing=textures,storage-textures",
        "--non-uniform-indexing=storage-textures,textures",
    ],
    ["--bounds-checks"],
    ["--resources"],
    ["--all-structs"],
    ["--drawing", "--no-drawing"],
    ["--explain"],
    ["--all"],
]
GROUP_OF = {flag: number for number, group in enumerate(GROUPS) for flag in group}
HELP, VERSION = ("-h", "--help"), ("-V", "--version")
# The values of each option that takes one.
VALUES = {
    "--format": ("text", "json", "sarif", "github"),
    "--uniformity": ("wgsl", "naga", "off"),
    "--non-uniform-indexing": ("textures", "storage-textures", "textures,storage-textures"),
}
# The names of options without their values, in the order of the program.
NAMES = [*dict.fromkeys(it.partition("=")[0] for it in GROUP_OF), "--help", "--version"]
KINDS = ("index", "buffer", "image_load", "binding_array")
POLICIES = ("Restrict", "ReadZeroSkipWrite", "Unchecked")
# The line after what is wrong with an argument.
USAGE = "usage: report [OPTION..] [FILE..], or `report --help`"
# How similar a name has to be to be suggested, from 0 to 1.
CLOSE = 0.72
MAX_COMPARED = 100


class WrongArgument(Exception):
    """An argument that is refused. The text says why."""


@dataclasses.dataclass
class Arguments:
    """The arguments for the program, and the names of files, of which `-` is standard input."""

    flags: list
    files: list

    def form(self):
        """Returns how the answers are printed, and the option that says so, None for the form that is so without one."""
        word = next((it for it in self.flags if GROUP_OF.get(it) == GROUP_OF["--json"]), None)
        return (word.partition("=")[2] or "json", word) if word else ("text", None)

    def for_program(self):
        """Returns the options for the program, which prints JSON where the launcher makes something of a whole run."""
        return ["--json" if it in OF_A_RUN else it for it in self.flags]


def closest(name, known, cutoff=CLOSE):
    """Returns the known name that is most similar, None if none is close. Case doesn't count."""
    by_case = {it.lower(): it for it in reversed([*known])}
    found = difflib.get_close_matches(name.lower()[:MAX_COMPARED], by_case, 1, cutoff)
    return by_case[found[0]] if found else None


def with_closest(text, name, known):
    """Returns a text with the closest known name after it, if there is one."""
    near = closest(name, known)
    return f"{text}; the closest is `{near}`" if near else text


def one_of(names):
    """Returns the names as an enumeration."""
    return f"{', '.join(names[:-1])} or {names[-1]}"


def all_of(names):
    """Returns the names in backticks as an enumeration of all."""
    quoted = [f"`{it}`" for it in names]
    return f"{', '.join(quoted[:-1])} and {quoted[-1]}"


def distance(one, other):
    """Returns how many letters have to be inserted, removed or exchanged so that one text becomes the other (Levenshtein)."""
    row = [*range(len(other) + 1)]
    for count, letter in enumerate(one, 1):
        before, row[0] = row[0], count
        for at, another in enumerate(other, 1):
            before, row[at] = row[at], min(row[at] + 1, row[at - 1] + 1, before + (letter != another))
    return row[-1]


def nearest(name):
    """Returns the option whose name differs least from a name, if at most a third of the letters differ, None otherwise."""
    near = min(NAMES, key=lambda it: distance(name, it))
    return near if distance(name, near) <= len(name) // 3 else None


def wrong_policies(word):
    """Returns the error in an argument that sets policies of bounds checks, None if there is none."""
    for part in word.split(","):
        kind, sign, policy = part.partition("=")
        if not sign:
            return f"`{part}` is no policy of a kind, as `index=Restrict`"
        if kind not in KINDS:
            return f"`{kind}` is no kind of access: kinds are {all_of(KINDS)}"
        if policy not in POLICIES:
            return f"`{kind}` takes no policy `{policy}`: policies are {all_of(POLICIES)}"
    return None


def wrong_option(word):
    """Returns the error in an argument that begins with a dash and is no option."""
    name, sign, value = word.partition("=")
    if name in VALUES:
        values = f"values are {all_of(VALUES[name])}"
        return f"`{name}` takes no value `{value}`: {values}" if sign else f"`{name}` needs a value: {values}"
    if name == "--bounds-checks":
        return f"`{name}` takes no value; policies stand by themselves, as `index=Restrict`"
    if name in NAMES:
        return f"`{name}` takes no value"
    near = nearest(name)
    return f"`{name}` is no option" + (f"; did you mean `{near}`?" if near else "")


def sets_policies(word):
    """Returns whether an argument is meant to set policies: it has a sign of equality, and is neither a file nor a path."""
    return "=" in word and "/" not in word and not word.endswith(".json") and not os.path.exists(word)


def parsed(words):
    """Returns the arguments that these words make. Raises WrongArgument for the first word that is wrong."""
    found, seen = Arguments([], []), {}
    for at, word in enumerate(words):
        if word == "--":
            found.files += words[at + 1 :]
            break
        if word in GROUP_OF:
            key = GROUP_OF[word]
        elif word.startswith("-") and word != "-":
            raise WrongArgument(wrong_option(word))
        elif "=" in word and not wrong_policies(word):
            key = "policies"
        elif sets_policies(word):
            raise WrongArgument(wrong_policies(word))
        else:
            found.files.append(word)
            continue
        if key in seen:
            raise WrongArgument(twice(seen[key], word))
        seen[key] = word
        found.flags.append(word)
    check_files(found.files)
    return found


def twice(before, word):
    """Returns the error in an argument that sets what one before it has set."""
    return f"`{word}` stands twice" if before == word else f"`{word}` contradicts `{before}` before it"


def check_files(files):
    """Raises WrongArgument if a name of a file is empty, or if standard input is named twice."""
    if "" in files:
        raise WrongArgument("an empty argument names no file")
    if files.count("-") > 1:
        raise WrongArgument("`-`, which is standard input, is given twice")
