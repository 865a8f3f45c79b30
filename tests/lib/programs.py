"""Finds, builds and measures programs: those of crates/, and for a library the program of its tests.

As a script it ends with status 0 if the program of a crate is built and no source of it is newer, and 1 if not.
"""
import importlib.machinery
import importlib.util
import os
import subprocess
import sys
import time

import check
from crates import TOP, listed

# The folders of a crate that its proof and its program are made from.
PARTS = ("src", "specs", "proofs")


class Ran:
    """Runs a command to its end, and holds its status, its output, the time of each line, its processor seconds and its memory in bytes."""

    def __init__(self, words, folder):
        started = subprocess.Popen(words, cwd=folder, stdin=subprocess.DEVNULL, stdout=subprocess.PIPE, stderr=subprocess.STDOUT)
        begun, self.lines = time.time(), []
        for line in started.stdout:
            self.lines.append((time.time() - begun, line.decode(errors="replace").rstrip("\n")))
        started.stdout.close()
        _, status, used = os.wait4(started.pid, 0)
        started.returncode = self.status = os.waitstatus_to_exitcode(status)
        self.seconds, self.memory = used.ru_utime + used.ru_stime, 1024 * used.ru_maxrss
        self.said = "".join(f"{it}\n" for _, it in self.lines)


def program_of(name):
    """Returns the path that the program of a crate has once it is built, or the archive of a static library."""
    folder = TOP / "crates" / name
    if listed()[name][0].startswith(f"{name} staticlib"):
        return folder / "out" / f"lib{name}.a"
    return folder / "out" / (name if (folder / "src/main.rt").exists() else f"{name}_tests")


def built(name):
    """Builds the program of a crate if a source is newer than it, and returns its path. It raises CalledProcessError if that fails."""
    subprocess.run([TOP / "scripts/build_program", "--build", name], check=True)
    return program_of(name)


def script(path):
    """Returns a script, named from the top of the repository, as a module."""
    loader = importlib.machinery.SourceFileLoader(os.path.basename(path), str(TOP / path))
    found = importlib.util.module_from_spec(importlib.util.spec_from_loader(loader.name, loader))
    loader.exec_module(found)
    return found


def files_of(folder):
    """Returns the modules of a folder of samples in their order. A folder without any is an error, since it would try nothing."""
    found = sorted(folder.glob("*.json"))
    assert found, f"{folder} has no module"
    return found


def sources_of(name):
    """Yields the files that a crate is proved and built from, and their folders, whose times show that a file was removed."""
    yield TOP / "crates.txt"
    for crate in (name, *listed()[name][1]):
        for part in PARTS:
            for folder, _, files in os.walk(TOP / "crates" / crate / part):
                yield folder
                yield from (os.path.join(folder, it) for it in files)


def is_built(name):
    """Returns whether the program is built and no source of it is newer. Only a proved program is ever built there."""
    program = program_of(name)
    if not os.access(program, os.R_OK if program.suffix == ".a" else os.X_OK):
        return False
    when = os.stat(program).st_mtime_ns
    return all(os.lstat(it).st_mtime_ns <= when for it in sources_of(name))


def main():
    words = check.arguments(__doc__)
    words.add_argument("crate", metavar="CRATE", choices=[*listed()], help="a crate of crates.txt")
    return 0 if is_built(words.parse_args().crate) else 1


if __name__ == "__main__":
    sys.exit(main())
