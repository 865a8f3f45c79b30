"""Provides what a check of mutants runs on: processors, the built libraries of the crates, and copies of a crate with those below it."""
import contextlib
import functools
import importlib.machinery
import importlib.util
import os
import pathlib
import re
import shutil
import sys
import tempfile
import threading
import time

from crates import TOP
from programs import PARTS, Ran

# The memory of a check of the largest crate, in bytes.
MEMORY = 3_500_000_000
# The line in which rt ci says that a crate's library is built, or taken from an earlier run; and the start of the line that ./check writes
# after the run.
PROVED = re.compile(r"rt: (\w+) (?:proved$|is kept: )")
CI_ENDED = "== proofs: "


def number_in(file, pattern=r"(\d+)"):
    """Returns a number of a file, None if it has none or can't be read."""
    try:
        found = re.search(pattern, pathlib.Path(file).read_text())
        return int(found[1]) if found else None
    except OSError:
        return None


class Lanes:
    """Allows as many checks at a time as there are processors and memory, also under the limit of a control group.

    Half as many run while rt ci does, so that the memory suffices for both.
    """

    def __init__(self, is_shared):
        free = 1024 * number_in("/proc/meminfo", r"MemAvailable:\s+(\d+)")
        limit, held = (number_in(f"/sys/fs/cgroup/{it}") for it in ("memory.max", "memory.current"))
        if limit and held is not None:
            free = min(free, limit - held)
        self.count = max(1, min(len(os.sched_getaffinity(0)), free // MEMORY))
        self.shut = self.count // 2 if is_shared else 0
        self.idle = threading.Semaphore(self.count - self.shut)

    def open_all(self):
        """Uses all processors from now on."""
        if self.shut:
            self.idle.release(self.shut)
        self.shut = 0


class Libraries:
    """Finds the libraries of the repository that rt ci has built, as far as its output says so, and builds the others here.

    At its end rt ci puts back the libraries that it found, which don't fit the ones that it has built above others. So while it runs, each
    library is linked into a folder of its own as soon as it is proved, with its sources. The libraries below one crate are all from
    there, or all from their crates' folders.
    """

    def __init__(self, crates, log, room, began, stamps):
        self.crates, self.log, self.room = {it.name: it for it in crates}, log, pathlib.Path(room) / "libraries"
        self.began, self.stamps, self.caller = began, stamps, os.getppid()
        self.taken, self.is_begun, self.is_ended = set(), False, log is None

    def read_on(self):
        """Waits for the next line of rt ci and follows it. Ends the process if the one that writes the output has ended."""
        line = ""
        while not line.endswith("\n"):
            line += self.log.readline()
            if not line.endswith("\n"):
                if os.getppid() != self.caller:
                    sys.exit("the process that started this one has ended, so nothing reports on rt ci any more")
                time.sleep(0.2)
        found = PROVED.match(line)
        if found and found[1] in self.crates:
            self.is_begun = True
            self.take(found[1])
        self.is_ended = line.startswith(CI_ENDED)

    def take(self, name):
        """Links a library into the folder, if it was built in this run, from sources that were written before."""
        folder, to = pathlib.Path(self.crates[name].folder), self.room / name
        try:
            was = (folder / "out/rlib").stat()
            for part in PARTS:
                if (folder / part).exists():
                    shutil.copytree(folder / part, to / part)
            shutil.copytree(folder / "out/rlib", to / "out/rlib", copy_function=link)
            mark(to, self.stamps[name])
            # One of an earlier run may be put back at this moment.
            now = (folder / "out/rlib").stat()
            if self.is_of_this_run(self.crates[name]) and (was.st_ino, was.st_mtime_ns) == (now.st_ino, now.st_mtime_ns):
                self.taken.add(name)
        except OSError:
            # A program has no library; and one that is put back may be missing for a moment.
            pass

    def is_of_this_run(self, crate):
        """Returns whether a library was built since the run began, unlike one that rt ci puts back, and no source was written since."""
        sources = max(it.stat().st_mtime for it in sources_of(crate))
        return sources < self.began <= pathlib.Path(crate.rlib).stat().st_mtime

    def folder_of(self, name, below):
        """Returns the folder from which a crate with these crates below it takes one of their libraries."""
        return self.room / name if self.taken.issuperset(below) else TOP / "crates" / name

    def is_stamped(self, name):
        """Returns whether a library was built here, and not by rt ci, which leaves no stamp."""
        return (pathlib.Path(self.crates[name].folder) / "out/rlib/stamp").exists()

    def has(self, name):
        """Returns whether a library is built in its crate's folder from the present sources. Without a stamp its time decides."""
        crate = self.crates[name]
        return crate.is_built() if self.is_stamped(name) else is_newer(pathlib.Path(crate.rlib), crate)

    def are_below(self, below):
        """Returns whether all of these libraries are linked.

        Nothing is copied before rt ci has proved a crate, since it begins by reading the whole folder.
        """
        return self.is_begun and self.taken.issuperset(below)

    def build(self, uses):
        """Builds the libraries that are missing of those below some crates, and returns the crates for which all are there.

        A library of rt ci, which has no stamp, fits none that is built here: if there are both, those of rt ci are built again.
        """
        below = {it for found in uses.values() if not self.taken.issuperset(found) for it in found}
        if all(map(self.has, below)) and len(set(map(self.is_stamped, below))) < 2:
            return [*uses]
        missing = set()
        # First those that rt ci didn't prove: if one can't be built, the others below the same crates aren't needed.
        for name in sorted((it for it in self.crates if it in below), key=lambda it: it in self.taken):
            if self.crates[name].is_built() or not any(name in it and missing.isdisjoint(it) for it in uses.values()):
                continue
            ran = Ran(["rt", "lib"], self.crates[name].folder)
            if ran.status:
                print(f"== {name} is not proved, so nothing above it is tried\n{ran.said[-3000:]}", flush=True)
                missing.add(name)
            else:
                print(f"== {name} built, {ran.seconds:.0f} processor seconds", flush=True)
        return [name for name, found in uses.items() if missing.isdisjoint(found)]


class Copies:
    """Makes copies of a crate on which its mutants are checked, and lends each to one check at a time."""

    def __init__(self, name, crates, libraries, room):
        self.name, self.libraries, self.room = name, libraries, room
        self.folder, self.below = TOP / "crates" / name, crates[name][1]
        self.rows = [crates[it][0] for it in (name, *self.below)]
        self.free, self.made, self.guard = [], [], threading.Lock()
        self.kept = self.folder / "out/incremental"

    @contextlib.contextmanager
    def lent(self):
        """Lends a copy that no other check uses, and makes one if there is none."""
        with self.guard:
            copy = self.free.pop() if self.free else None
        copy = copy or self.make()
        yield copy
        with self.guard:
            self.free.append(copy)

    def make(self):
        """Makes a copy of the crate with its kept work, next to the libraries below it."""
        top = pathlib.Path(tempfile.mkdtemp(dir=self.room))
        self.made.append(top)
        shutil.copy(TOP / "HANDLES", top)
        (top / "crates.txt").write_text("".join(f"{it}\n" for it in self.rows))
        for name in self.below:
            folder = self.libraries.folder_of(name, self.below)
            for part in (*PARTS, "out/rlib"):
                if (folder / part).exists():
                    # Nothing writes to these: they are built.
                    shutil.copytree(folder / part, top / "crates" / name / part, copy_function=link)
            mark(top / "crates" / name, self.libraries.stamps[name])
        for part in PARTS:
            if (self.folder / part).exists():
                shutil.copytree(self.folder / part, top / "crates" / self.name / part)
        if self.kept.exists():
            shutil.copytree(self.kept, top / "crates" / self.name / "out/incremental", copy_function=link_proved)
        return top / "crates" / self.name

    def keep(self):
        """Keeps the work that the first check has proved, for the copies that are made after it."""
        made = self.free[0] / "out/incremental"
        if made.exists():
            self.kept = self.made[0] / "kept"
            shutil.copytree(made, self.kept, copy_function=link_proved)

    def remove(self):
        """Removes all copies."""
        for it in self.made:
            shutil.rmtree(it, ignore_errors=True)


def link(old, new):
    """Gives a file a second name, or copies it to another disk."""
    try:
        os.link(old, new)
    except OSError:
        shutil.copy2(old, new)


def mark(folder, stamp):
    """Marks the library of a crate as built, if its stamp is missing."""
    file = folder / "out/rlib/stamp"
    if not file.exists():
        file.write_text(stamp)


def link_proved(old, new):
    """Links the proved work on a module, hundreds of megabytes in a crate: a check writes a new file and leaves the old one."""
    if old.endswith(".oantt"):
        link(old, new)
    else:
        shutil.copy2(old, new)


def toolchain():
    """Returns the module of rt that knows whether a library is built from the present sources."""
    path = pathlib.Path(shutil.which("rt")).resolve().with_name("rtlib.py")
    loader = importlib.machinery.SourceFileLoader("rtlib", str(path))
    made = importlib.util.module_from_spec(importlib.util.spec_from_loader("rtlib", loader))
    sys.modules["rtlib"] = made
    loader.exec_module(made)
    # It would read a library once for each way that leads to it.
    made.Crate.stamp = functools.lru_cache(maxsize=None)(made.Crate.stamp)
    return made


def sources_of(crate):
    """Returns the files that a check of the crate reads: its own, those of the crates below it, and the list of crates."""
    folders = [pathlib.Path(it.folder) for it in (crate, *crate.below())]
    files = [it for folder in folders for part in PARTS for it in (folder / part).rglob("*") if it.is_file()]
    return [*files, TOP / "crates.txt"]


def is_newer(rlib, crate):
    """Returns whether a library was built after all its sources were written."""
    return rlib.exists() and all(it.stat().st_mtime < rlib.stat().st_mtime for it in sources_of(crate))
