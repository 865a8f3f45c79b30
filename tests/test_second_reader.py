#!/usr/bin/env python3
"""Tests the second reader of modules, with which tests/fuzz compares `report`, on the samples of tests/data/modules.

    tests/test_second_reader.py
"""
import json
import pathlib
import re
import sys
import unittest

sys.path.insert(0, str(pathlib.Path(__file__).resolve().parent / "lib"))
import check
from crates import TOP
from generate_large import accepted
from programs import files_of
from second_reader import read
from spelled_json import NotJson, text_of, value_of

MODULES = TOP / "tests/data/modules"
# The one sample in which a second place is wrong, too.
WRONG_TOO = {"shape-width_256.json": "types[1].inner.Vector.scalar.width"}
TICKED = re.compile("`([^`]+)`")
ACCEPTED = ("modules.jsonl", "bounded/modules.jsonl", "broken/faulty.jsonl")


def lines(path):
    """Returns the value of each line of a file."""
    return [json.loads(it) for it in (MODULES / path).read_bytes().splitlines()]


def paths(text):
    """Returns the paths at which a text is no module, or None if it is no JSON."""
    try:
        return {path for path, _ in read(text)}
    except NotJson:
        return None


def literal(kind, number):
    """Returns a module with a literal as the only expression."""
    empty = {it: [] for it in "types constants overrides global_variables functions entry_points diagnostic_filters".split()}
    module = empty | {"special_types": {"predeclared_types": {}}, "global_expressions": [{"Literal": {kind: "NUMBER"}}]}
    return json.dumps(module).replace('"NUMBER"', number).encode()


class Samples(unittest.TestCase):
    """What is read of the samples."""

    def test_modules(self):
        """Reads each module, also one that isn't well formed."""
        found = {f"{path}:{at}": json.dumps(row["module"]).encode() for path in ACCEPTED for at, row in enumerate(lines(path), 1)}
        found |= {f"{name}/{it.name}": it.read_bytes() for name in ("real", "text", "drawn") for it in files_of(MODULES / name)}
        found |= {name: json.dumps(module).encode() for name, module in accepted()}
        self.assertEqual({name: paths(text) for name, text in found.items()}, dict.fromkeys(found, set()))

    def test_wrong_inputs(self):
        """Refuses each wrong input at its path alone, or as no JSON."""
        rows = {it["file"]: {it["path"]} if "path" in it else None for it in lines("broken/expected.jsonl")}
        for name, path in WRONG_TOO.items():
            rows[name].add(path)
        self.assertEqual({it: paths((MODULES / "broken" / it).read_bytes()) for it in rows}, rows)

    def test_names(self):
        """Knows the same names in each list as a refusal of the sample with an unknown one."""
        rows = [it for it in lines("broken/expected.jsonl") if it["code"] == "I014"]
        found = {it["file"]: read((MODULES / "broken" / it["file"]).read_bytes())[0][1] for it in rows}
        wanted = {it["file"]: " ".join(TICKED.findall(it["wanted"])).replace(" | ", " ") for it in rows}
        words = lambda texts: {name: sorted(text.split()) for name, text in texts.items()}
        self.assertEqual(words(found), words(wanted))

    def test_floats(self):
        """Refuses the numbers that have no finite float."""
        for row in lines("floats.jsonl"):
            for kind in ("F32", "F64"):
                wanted = {f"global_expressions[0].Literal.{kind}"} if row[kind] is None else set()
                self.assertEqual(paths(literal(kind, row["text"])), wanted, row)


class Spelling(unittest.TestCase):
    """How JSON is read and written."""

    def test_written(self):
        """Writes what it has read, with members that stand twice and numbers as they are spelled."""
        text = '{"a":[1.50,-0,1E+9,{}],"a":"\\u0000","b":[true,false,null]}'
        self.assertEqual(text_of(value_of(text.encode())), text)

    def test_no_json(self):
        """Refuses what Python's parser takes and JSON doesn't have, and too many levels."""
        deep = ["[" * 129 + "]" * 129, "[" * 9999]
        for it in ("NaN", "[-Infinity]", '"\\ud800"', '[["\\udc00"]]', '{"\\ud800":0}', '{"a":["\\udfff"]}', *deep):
            self.assertRaises(NotJson, value_of, it.encode())
        value_of(b"[" * 128 + b"]" * 128)
        self.assertEqual(value_of(b'"\\ud83d\\ude00"'), "\U0001f600")


if __name__ == "__main__":
    sys.exit(check.run_tests(__doc__))
