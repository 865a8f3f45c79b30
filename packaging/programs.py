"""Finds the programs of a release, which scripts/launch.py runs: they are proved and built."""
import pathlib

FOLDER = pathlib.Path(__file__).resolve().parents[3] / "libexec/pethuvazh"


def program_of(name):
    """Returns the path of a program."""
    return FOLDER / name


def is_built(name):
    """Returns whether the program can answer, as each program of a release can."""
    return program_of(name).exists()
