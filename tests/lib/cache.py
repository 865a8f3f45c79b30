"""Keeps on this machine which mutants were refused, so that a later run tries only those that something has changed for."""
import contextlib
import hashlib
import os
import pathlib
import time

from crates import TOP
from libraries import sources_of

# Each file here stands for a refused mutant, or a control that passed. It is named by a sum of everything that decides the verdict.
KEPT = pathlib.Path(os.environ.get("XDG_CACHE_HOME") or pathlib.Path.home() / ".cache") / "pethuvazh/refused"
# The modules that judge a mutant. Other scripts may change without a new trial.
JUDGING = ("verdicts.py", "batches.py", "mutants.py")


class Cache:
    """Knows the mutants that passed in earlier runs, by sums of the toolchain, the crates, the mutant and the modules that judge."""

    def __init__(self, crates, is_anew):
        self.began, self.is_anew = time.time(), is_anew
        self.judging = b"".join((TOP / "tests/lib" / it).read_bytes() for it in JUDGING)
        # A stamp sums the toolchain, the crate's sources and those below it.
        self.crates = {it.name: it for it in crates}
        self.stamps = {it.name: it.stamp() for it in crates}

    def file_of(self, crate, edit):
        """Returns the file that exists if this mutant of a crate passed."""
        read = (self.stamps[crate], self.judging, edit.name, edit.path.read_bytes())
        return KEPT / hashlib.sha256(repr(read).encode()).hexdigest()

    def has(self, crate, edit):
        """Returns whether the mutant passed in an earlier run, and this run may use that."""
        try:
            return not self.is_anew and self.file_of(crate, edit).exists()
        except OSError:
            return False

    def keep(self, crate, edits):
        """Keeps that these mutants passed, if the cache can be written and no source was written since the run began."""
        if any(it.stat().st_mtime >= self.began for it in sources_of(self.crates[crate])):
            return
        with contextlib.suppress(OSError):
            KEPT.mkdir(parents=True, exist_ok=True)
            for edit in edits:
                self.file_of(crate, edit).write_text(f"{crate}/{edit.name}\n")
