"""Prints the report on the module on standard input, with the arguments and statuses of the program `report`:
python3 report.py --json --resources < module.json. With --typed it prints the JSON after the package has read it, with --lines the
replies to lines."""
import sys

import pethuvazh
from pethuvazh import BoundsCheckPolicies, BoundsCheckPolicy, Options, Uniformity

BAD_USAGE, OUT_OF_MEMORY, NOT_MODULE = 2, 5, 6
# The status for a library of another version.
UNKNOWN = 70
FORMS = {"--format=text": "text", "--json": "json", "--format=json": "json", "--typed": "typed", "--lines": "lines"}
NAMES = ("resources", "drawing", "all_structs", "explain", "all")


def asked(words):
    """Returns the form of the output and the options. Raises ValueError with the argument that is wrong."""
    form, named, policies = "text", {}, None
    for word in words:
        name, _, value = word.partition("=")
        if word in FORMS:
            form = FORMS[word]
        elif name == "--uniformity":
            named["uniformity"] = Uniformity(value)
        elif name == "--non-uniform-indexing" and {*value.split(",")} <= {"textures", "storage-textures"}:
            named |= {f"non_uniform_{it.replace('-', '_')}": True for it in value.split(",")}
        elif word == "--bounds-checks":
            policies = policies or {}
        elif word.startswith("--") and word[2:].replace("-", "_") in NAMES:
            named[word[2:].replace("-", "_")] = True
        elif not word.startswith("--") and value:
            pairs = (it.partition("=") for it in word.split(","))
            policies = (policies or {}) | {kind: BoundsCheckPolicy(policy) for kind, _, policy in pairs}
        else:
            raise ValueError(f"`{word}` is no argument of this example")
    bounds_checks = None if policies is None else BoundsCheckPolicies(**policies)
    return form, Options(bounds_checks=bounds_checks, **named)


def answer(form, text, options):
    """Returns the output for an input, and the exit status."""
    if form == "lines":
        answers = pethuvazh.answer_lines(text)
        return answers.text, 0 if answers.is_complete else BAD_USAGE
    ask = {"text": pethuvazh.report_text, "json": pethuvazh.report_json, "typed": pethuvazh.report}[form]
    report = ask(text, options)
    return report.text, 0 if report.is_accepted else 1


def main():
    try:
        form, options = asked(sys.argv[1:])
    except (TypeError, ValueError) as error:
        print(error, file=sys.stderr)
        return BAD_USAGE
    try:
        text, status = answer(form, sys.stdin.buffer.read(), options)
    except pethuvazh.NotModule as error:
        sys.stderr.buffer.write(error.text)
        return NOT_MODULE
    except pethuvazh.Error as error:
        print(error, file=sys.stderr)
        is_too_long = isinstance(error, pethuvazh.TooLong)
        return OUT_OF_MEMORY if isinstance(error, pethuvazh.OutOfMemory) else NOT_MODULE if is_too_long else UNKNOWN
    sys.stdout.buffer.write(text)
    return status


if __name__ == "__main__":
    sys.exit(main())
