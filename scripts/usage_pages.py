"""Makes man pages and completions for shells of the usage that `report --help` and `typer --help` print.

    Usage(text).man_page(version, date)     a page for `man`
    Usage(text).completion(shell)           a completion for bash, zsh or fish

The usage begins with its synopsis. Blocks with an empty line between them are texts, an example with four blanks at its
beginning, the line on statuses, and titles with entries below them: two blanks, a term, and what it means.
"""
import re
import typing

ENTRY = re.compile(r"  (\S.*?)(?:  +(\S.*))?")
NAME = re.compile(r"--?[a-z][a-z-]*")
# An option that stands for another one, and the words of an argument that has a form, as their texts say.
ALIAS = re.compile(r"(--[a-z-]+) is --[a-z-]+=")
KINDS = re.compile(r"KIND: (.*); POLICY: (.*)")
ROFF = {"\\": r"\e", "-": r"\-", "`": r"\(ga", "'": r"\(aq"}
BLANKS = " " * 4


class Option(typing.NamedTuple):
    """An option: its name, the values that it takes, and what it means."""

    name: str
    values: tuple
    text: str


def alternatives(text):
    """Returns the names of an enumeration, as `a, b or c`."""
    return re.split(r", | or ", text)


def entries_of(block):
    """Returns the titles of a block, each with its entries: terms, and what they mean."""
    found = []
    for line in block.split("\n"):
        entry = ENTRY.fullmatch(line)
        if not line.startswith(" "):
            found.append((line, []))
        elif entry and not line.startswith(BLANKS):
            found[-1][1].append((entry[1], entry[2] or ""))
        else:
            term, text = found[-1][1].pop()
            found[-1][1].append((term, f"{text} {line.strip()}".strip()))
    return found


def roff(text):
    """Returns a text as a line of roff shows it."""
    return "".join(ROFF.get(it, it) for it in text.replace("\n", " "))


def quoted(text):
    """Returns a text as one word of a shell."""
    return "'" + text.replace("'", "'\\''") + "'"


class Usage:
    """The usage of a program, by its parts."""

    def __init__(self, text):
        """Takes the text that `--help` prints."""
        head, *blocks = text.rstrip("\n").split("\n\n")
        self.synopsis = head.removeprefix("usage: ")
        self.name = self.synopsis.split()[0]
        self.titles, self.texts, self.status = [], [], ""
        for it in blocks:
            if it.startswith("Status: "):
                self.status = it.removeprefix("Status: ")
            elif it.startswith(BLANKS) or "\n  " not in it:
                self.texts.append(it)
            else:
                self.titles += entries_of(it)

    def entries(self):
        """Returns all entries."""
        return [entry for _, held in self.titles for entry in held]

    def options(self):
        """Returns the options, each by each of its names."""
        found = []
        for term, text in self.entries():
            for it in term.split(", ") if term.startswith("-") else ():
                name, _, values = it.partition(" ")[0].partition("=")
                found.append(Option(name, tuple(values.split("|")) if values else (), text))
            found += [Option(it, (), text) for it in ALIAS.findall(text)]
        return found

    def policies(self):
        """Returns the words KIND=POLICY, none if the usage names no kinds."""
        found = filter(None, (KINDS.search(text) for _, text in self.entries()))
        return [f"{kind}={policy}" for it in found for kind in alternatives(it[1]) for policy in alternatives(it[2])]

    def sentence(self):
        """Returns what the program does, as a phrase without a full stop."""
        first = self.texts[0].replace("\n", " ").partition(". ")[0].rstrip(".")
        return first[0].lower() + first[1:]

    def man_page(self, version, date):
        """Returns the page for `man`."""
        lines = [f'.TH {self.name.upper()} 1 "{date}" "pethuvazh {version}" "Pethuvazh"', ".ad l"]
        lines += [".SH NAME", rf"{self.name} \- {roff(self.sentence())}", ".SH SYNOPSIS", roff(self.synopsis), ".SH DESCRIPTION"]
        for it in self.texts:
            is_code = it.startswith(BLANKS)
            lines += [".PP", *((".nf", ".RS", roff(it.strip()), ".RE", ".fi") if is_code else (roff(it),))]
        for title, held in self.titles:
            lines.append(f".SH {title.upper()}")
            for term, text in held:
                lines += [".TP", rf"\fB{roff(term)}\fR", roff(text)]
        return "\n".join([*lines, ".SH EXIT STATUS", roff(self.status)]) + "\n"

    def words(self):
        """Returns each option with each of its values, as words of a command."""
        return [word for name, values, _ in self.options() for word in ([f"{name}={it}" for it in values] or [name])]

    def completion(self, shell):
        """Returns a completion for a shell."""
        return {"bash": self.for_bash, "zsh": self.for_zsh, "fish": self.for_fish}[shell]()

    def for_bash(self):
        """Returns the completion for bash, which replaces what stands behind a sign of equality alone."""
        return f"""# Completes the words of {self.name}.
_pethuvazh_{self.name}() {{
    local line=${{COMP_LINE:0:COMP_POINT}}
    local word=${{line##* }} words=
    case $word in
        -*) words="{' '.join(self.words())}" ;;
        *) [[ $line != *" --bounds-checks "* ]] || words="{' '.join(self.policies())}" ;;
    esac
    COMPREPLY=($(compgen -W "$words" -- "$word"))
    [[ $word != *=* ]] || COMPREPLY=("${{COMPREPLY[@]#*=}}")
}}
complete -o default -F _pethuvazh_{self.name} {self.name}
"""

    def for_zsh(self):
        """Returns the completion for zsh."""
        specs = [f"#compdef {self.name}", "_arguments \\"]
        for name, values, text in self.options():
            what = re.sub(r"([\[\]:])", r"\\\1", text or name)
            specs.append(f"    {quoted(f'{name}=[{what}]:value:({chr(32).join(values)})' if values else f'{name}[{what}]')} \\")
        return "\n".join([*specs, "    '*:file:_files'"]) + "\n"

    def for_fish(self):
        """Returns the completion for fish."""
        lines = []
        for name, values, text in self.options():
            kind = f"-l {name[2:]}" if name.startswith("--") else f"-s {name[1:]}"
            given = f" -x -a {quoted(' '.join(values))}" if values else ""
            lines.append(f"complete -c {self.name} {kind}{given} -d {quoted(text or name)}")
        return "\n".join(lines) + "\n"
