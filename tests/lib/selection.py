"""Chooses which mutants of crates/*/mutants a run tries, by the history of the commit.

A run tries all mutants of a crate whose src/ or specs/ changed, otherwise than in comments, since the newest commit that is half a day
older than HEAD, and each mutant that changed itself; one that only moved within its crate hasn't changed. It tries the mutants in
tests/data/mutants_always.txt. The mutants of a crate are tried together, since each check first reads everything below it. Without a
history, as in a copy without .git, nothing says what changed, and the run tries those of the list.
"""
import re
import subprocess

from crates import TOP

ALWAYS = TOP / "tests/data/mutants_always.txt"
# Longer than the work on one change. A change that lands has its own mutants tried then, so a longer time tries them again.
LATELY = 12 * 60 * 60
SOURCE = re.compile(r"crates/(\w+)/(?:src|specs)/")
EDIT = re.compile(r"crates/(\w+)/mutants/(\w+)\.edit$")
MOVED = re.compile(r"R100\tcrates/(\w+)/\S*\tcrates/\1/")
# What begins a line of a comment, by the kind of file.
COMMENTS = {".rt": "//", ".antt": "--"}


def git(*words):
    """Returns the lines that a command of git prints, None if it fails."""
    try:
        ran = subprocess.run(["git", *words], cwd=TOP, capture_output=True, text=True)
    except OSError:
        return None
    return ran.stdout.splitlines() if ran.returncode == 0 else None


def code_of(path, text):
    """Returns the lines of a file that are neither empty nor comments, without the spaces around them."""
    mark = COMMENTS.get(path[path.rfind("."):])
    lines = (it.strip() for it in text.splitlines())
    return [it for it in lines if it and not (mark and it.startswith(mark))]


def has_other_code(path, since):
    """Returns whether a file has other code than in an earlier commit. If either has no such file, its code is empty."""
    file = TOP / path
    old, new = "\n".join(git("show", f"{since}:{path}") or []), file.read_text() if file.exists() else ""
    return code_of(path, old) != code_of(path, new)


def commit_before(lines, seconds=LATELY):
    """Returns the newest commit that is so much older than HEAD, None if none is. Each line is 'NAME TIME', the first that of HEAD."""
    rows = [(int(time), name) for name, _, time in (it.partition(" ") for it in lines)]
    found = [it for it in rows if it[0] <= rows[0][0] - seconds]
    return max(found, key=lambda it: it[0])[1] if found else None


def names_in(text):
    """Returns the lines CRATE/NAME of a list, without comments."""
    return {it.strip() for it in text.splitlines() if it.strip() and not it.startswith("#")}


def edits_in(files):
    """Returns the mutants among some files, each as CRATE/NAME."""
    return {f"{it[1]}/{it[2]}" for it in map(EDIT.match, files) if it}


def files_changed(lines):
    """Returns the files that changed by lines of git, each 'STATUS' and paths with tabs, without those that only moved within a crate."""
    return [it.split("\t")[-1] for it in lines if not MOVED.match(it)]


class Choice:
    """Chooses the mutants of a run: all, those of the crates that it is given, or those that the history and the list select."""

    def __init__(self, crates, is_all):
        self.crates, self.takes_all = set(crates), bool(crates) or is_all
        self.always, self.changed, self.edits = names_in(ALWAYS.read_text()), set(), set()
        lines = [] if self.takes_all else git("log", "--format=%H %ct") or []
        self.since = commit_before(lines) if lines else None
        if self.since:
            # A file of src/ or specs/ that moves from one crate to another changes both.
            changed = git("diff", "--name-only", "--no-renames", self.since) or []
            edited = git("diff", "--name-status", "--find-renames=100%", self.since) or []
            others = git("ls-files", "--others", "--exclude-standard") or []
            sources = [it for it in [*changed, *others] if SOURCE.match(it)]
            self.changed = {SOURCE.match(it)[1] for it in sources if has_other_code(it, self.since)}
            self.edits = edits_in([*files_changed(edited), *others])

    def takes(self, crate, name):
        """Returns whether the run tries this mutant of a crate."""
        which = f"{crate}/{name}"
        return self.takes_all or crate in self.changed or which in self.edits or which in self.always

    def text(self):
        """Returns the choice in a line."""
        if self.takes_all:
            return f"all of {', '.join(sorted(self.crates))}" if self.crates else "all"
        listed = f"{len(self.always)} that every run tries"
        if not self.since:
            return f"{listed}, as no history of half a day says what changed"
        return f"{listed}, and those changed since {self.since[:9]}; crates changed since: {', '.join(sorted(self.changed)) or 'none'}"
