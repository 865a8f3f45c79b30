"""Provides the parts that all checks and scripts share: arguments with --help, timeouts, results and the closing line."""
import argparse
import pathlib
import sys

# Set once for all, as a script imports this module first.
sys.dont_write_bytecode = True
from crates import TOP

# For the scripts that checks import.
sys.path.append(str(TOP / "scripts"))

# The seconds after which a run counts as one that never ends: a run on a mutated input, a run in which memory fails, a run on any other
# input, and a run that may build a program or reads all inputs.
MUTANT_SECONDS, NO_MEMORY_SECONDS, RUN_SECONDS, LONG_SECONDS = 20, 60, 120, 600


def arguments(doc):
    """Returns the parser of a script's arguments. Its --help prints the docstring, and it refuses an unknown argument with status 2."""
    path = pathlib.Path(sys.argv[0]).resolve()
    name = path.relative_to(TOP) if path.is_relative_to(TOP) else path.name
    how = {"formatter_class": argparse.RawDescriptionHelpFormatter, "allow_abbrev": False}
    return argparse.ArgumentParser(prog=str(name), description=doc, **how)


def add_try(parser):
    """Adds the flag --try, for a check that needs no proved program."""
    what = "compiles the programs with checks (scripts/run_unproved.py), and proves and builds nothing"
    parser.add_argument("--try", dest="is_tried", action="store_true", help=what)


def close(passed, failed, skipped=0):
    """Prints the closing line of a check, which ./check sums, and returns the exit status."""
    rest = f", {skipped} skipped" if skipped else ""
    print(f"{passed} passed, {failed} failed{rest}", flush=True)
    return 1 if failed or not passed + skipped else 0


def close_on(results, skipped=()):
    """Prints each result that is wrong, closes, and returns the exit status.

    A result is a name and a text that says what is wrong, or None. Results may add to `skipped`, a list of the parts that can't run here.
    """
    passed = failed = 0
    for name, wrong in results:
        passed += wrong is None
        failed += wrong is not None
        if wrong is not None:
            print(f"{name}: {wrong}", flush=True)
    return close(passed, failed, len(skipped))


def compared(results):
    """Yields a result for each name with a value that was found and the one that is wanted."""
    for name, found, wanted in results:
        yield name, None if found == wanted else f"found {found!r:.200}, wanted {wanted!r:.200}"


def run_tests(doc):
    """Runs the unit tests of the script that calls it, and returns the exit status. The script takes no arguments."""
    import unittest

    arguments(doc).parse_args()
    tests = unittest.defaultTestLoader.loadTestsFromModule(sys.modules["__main__"])
    ran = unittest.TextTestRunner(stream=sys.stdout, verbosity=1).run(tests)
    failed = len(ran.failures) + len(ran.errors)
    return close(ran.testsRun - failed, failed)
