"""Reads the list of the crates of the repository, crates.txt."""
import pathlib
import re

TOP = pathlib.Path(__file__).resolve().parents[2]


def listed():
    """Returns for each crate of crates.txt, lowest first, its line and the crates of the repository below it."""
    rows = [it.partition("#")[0].strip() for it in (TOP / "crates.txt").read_text().splitlines()]
    rows = {re.match(r"\w+", it)[0]: it for it in rows if it}
    uses = {name: [it for it in re.findall(r"\w+", row.partition(":")[2]) if it in rows] for name, row in rows.items()}

    def below(name):
        """Returns the crates that it names and those below them, each once and before those that use it."""
        found = []
        for use in uses[name]:
            found += [it for it in (*below(use), use) if it not in found]
        return found

    all_below = {name: below(name) for name in rows}
    return {name: (rows[name], all_below[name]) for name in sorted(rows, key=lambda it: len(all_below[it]))}
