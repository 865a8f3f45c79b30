"""Builds a program over a crate that an edit makes wrong, so that a test can show that it refuses what no contract does."""
import contextlib
import pathlib
import shutil
import tempfile

from crates import TOP, listed
from mutants import Edit
from programs import PARTS, Ran

# ./check removes what a run that was ended early has left below this.
PREFIX = "mutants-"


def copied(names, top):
    """Copies the sources of crates into a repository of their own, which shares no built library with this one."""
    shutil.copy(TOP / "HANDLES", top)
    (top / "crates.txt").write_text("".join(f"{listed()[it][0]}\n" for it in names))
    for name in names:
        for part in PARTS:
            if (TOP / "crates" / name / part).exists():
                shutil.copytree(TOP / "crates" / name / part, top / "crates" / name / part)


@contextlib.contextmanager
def built_over(program, crate, path):
    """Yields a program that is proved and built in a copy where the edit of a file changes a crate below it, or None and why it isn't."""
    edit = Edit(path, TOP / "crates" / crate)
    if not edit.fits:
        yield None, "the edit doesn't fit its file"
        return
    (TOP / "out").mkdir(exist_ok=True)
    with tempfile.TemporaryDirectory(prefix=PREFIX, dir=TOP / "out") as room:
        top = pathlib.Path(room)
        copied([program, *listed()[program][1]], top)
        file = top / "crates" / crate / edit.file
        file.write_text(edit.apply(file.read_text()))
        ran = Ran(["rt", "run"], top / "crates" / program)
        made = top / "crates" / program / "out" / program
        if not made.exists():
            print(f"== {program} isn't proved over {edit.name}\n{ran.said[-3000:]}", flush=True)
        yield (made, None) if made.exists() else (None, "it isn't proved")
