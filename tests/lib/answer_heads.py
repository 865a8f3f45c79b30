"""Judges the head of an answer of `report --json`: version, verdict and diagnostics, by the members behind them and by the input.

The codes are those of the tables in docs/DIAGNOSTICS.md. A pointer has to lead to a value of the input, and a byte to that same value.
"""
import json
import re

from answer_schema import ANSWER, VERSION, wrong

LONG, MOST_BYTES = 1 << 24, 1 << 28
HEAD = ["version", "verdict", "diagnostics"]
VERDICTS = {0: "accepted", 1: "refused", 6: "invalid_input"}
FAULTS = dict(zip("""HandleOutOfRange EmitRange TypeNotEarlier OperandNotEarlier FilterNotEarlier CalleeNotEarlier ArgumentCount
    ValuePointerArgument""".split(), (f"M00{it}" for it in range(1, 9))))
RESOLVE_ERRORS = dict(zip("""OutOfBoundsIndex InvalidAccess InvalidSubAccess InvalidScalar InvalidVector InvalidPointer InvalidImage
    IncompatibleOperands BuiltinArgumentsInvalid FunctionArgumentNotFound FunctionReturnsVoid MissingSpecialType""".split(),
                          (f"T{it:03}" for it in range(1, 13))))
LAYOUT_ERRORS = {"NonPowerOfTwoWidth": "L001", "TooLarge": "L002"}
CAPABILITIES = {"TEXTURE_AND_SAMPLER": "R001", "STORAGE_TEXTURE": "R002"}
RESOURCES = {"ExpectedGlobalOrArgument": "R003", "BindingArrayElement": "R004"}
NEEDS = {"DERIVATIVE": ["U101"], "IMPLICIT_LEVEL": ["U102"], "WORK_GROUP_BARRIER": ["U103", "U104", "U105"], "COOP_OPS": ["U106"]}
NAMES = """I001 empty-input I002 not-utf8 I003 not-a-module I004 invalid-json I005 nests-too-deep I006 too-long I011 missing-field
    I012 repeated-field I013 wrong-value I014 unknown-name I015 repeated-type I016 unsupported M001 index-out-of-range
    M002 emit-out-of-range M003 type-not-earlier M004 operand-not-earlier M005 filter-not-earlier M006 callee-not-earlier
    M007 argument-count M008 value-pointer-argument T001 index-past-the-end T002 not-indexable T003 pointee-not-indexable
    T004 not-a-scalar T005 not-a-vector T006 not-a-pointer T007 not-an-image T008 wrong-operands T009 no-overload T010 no-such-argument
    T011 no-result T012 no-result-type L001 odd-width L002 too-large R001 non-uniform-texture-index
    R002 non-uniform-storage-texture-index R003 not-a-resource R004 not-bindable C001 too-many-uses U101 derivative-in-divergent-flow
    U102 implicit-level-in-divergent-flow U103 barrier-in-divergent-flow U104 memory-barrier-in-divergent-flow
    U105 uniform-load-in-divergent-flow U106 cooperative-operation-in-divergent-flow""".split()
NAMES = dict(zip(NAMES[::2], NAMES[1::2]))
STEP = re.compile(r"\.?([^.\[\]]+)|\[(\d+)\]")


def parted(answer):
    """Returns the head of an answer, and the members behind it."""
    return {name: answer[name] for name in HEAD if name in answer}, {name: it for name, it in answer.items() if name not in HEAD}


def name_of(variant):
    return variant if isinstance(variant, str) else next(iter(variant))


def codes_of_cause(cause):
    """Returns the codes that may stand for the cause of a refusal."""
    (kind, value), = cause.items()
    if kind == "CountFull":
        return ["C001"]
    if kind == "NonUniformControlFlow":
        return NEEDS[value[0].split(" | ")[0]]
    error = value["error"]
    if name_of(error) == "ResolveError":
        return [RESOLVE_ERRORS[name_of(error["ResolveError"])]]
    if name_of(error) == "MissingCapabilities":
        return [code for name, code in CAPABILITIES.items() if error["MissingCapabilities"].startswith(name)]
    return [RESOURCES[error]]


def codes_of(members):
    """Returns for each fault that the members tell the codes that may stand for it, in the order of diagnostics."""
    found = [[FAULTS[members["fault"]]]] if "fault" in members else []
    found += [[LAYOUT_ERRORS[members["layout_error"]["inner"]]]] if "layout_error" in members else []
    return found + ([codes_of_cause(members["refused"]["cause"])] if "refused" in members else [])


def wrong_codes(found, members):
    """Returns what is wrong with the codes of diagnostics, or None."""
    bad = [it for it in found if NAMES.get(it["code"]) != it["name"]]
    if bad:
        return f"a code with another name: {bad[0]}"
    codes, flow = [it["code"] for it in found], members.get("uniformity_verdict", {"accepted": True})
    if "error" in members:
        return None if len(codes) == 1 and codes[0].startswith("I") else f"codes {codes} of an error"
    if not flow["accepted"]:
        return None if codes and all(it.startswith("U") for it in codes) else f"codes {codes} of control flow"
    wanted = codes_of(members)
    good = len(codes) == len(wanted) and all(code in some for code, some in zip(codes, wanted))
    return None if good else f"codes {codes}, wanted {wanted}"


def led_to(value, steps):
    """Returns the value to which steps lead, in a list, or nothing."""
    for step in steps:
        try:
            value = value[int(step) if isinstance(value, list) else step]
        except (KeyError, IndexError, TypeError, ValueError):
            return []
    return [value]


def pointed_to(value, pointer):
    return led_to(value, [it.replace("~1", "/").replace("~0", "~") for it in pointer.split("/")[1:]])


def wrong_position(location, text):
    """Returns what is wrong with the line and the column of a byte, or None. The byte behind the last one that is read has none."""
    if location["byte"] == MOST_BYTES:
        return f"a line that isn't known: {location}" if "line" in location else None
    before = text[: location["byte"]]
    line = before.rpartition(b"\n")[2]
    place = before.count(b"\n") + 1, sum(not 128 <= it < 192 for it in line) + 1
    return None if (location["line"], location["column"]) == place else f"line and column aren't those of the byte: {location}"


def wrong_value(location, text, value):
    """Returns what is wrong with the path, the pointer and the byte of a value in the input, or None."""
    by_path = led_to(value, [name or index for name, index in STEP.findall(location["path"])])
    if by_path != pointed_to(value, location["pointer"]):
        return f"path and pointer don't lead to one value: {location}"
    if "byte" not in location:
        return f"no byte: {location}"
    there, _ = json.JSONDecoder().raw_decode(text[location["byte"] :].decode())
    return None if [there] == by_path else f"another value at the byte: {location}"


def wrong_location(location, text, value):
    """Returns what is wrong with a location, or None. The value is that of the input, None if it isn't JSON."""
    if "byte" in location and (found := wrong_position(location, text)):
        return found
    if value is not None and "pointer" in location and not pointed_to(value, location["pointer"]):
        return f"the pointer leads nowhere: {location}"
    return None


def wrong_places(diagnostics, text, value):
    """Returns what is wrong with the place in the JSON of a diagnostic that only the JSON shows, or None."""
    if value is None:
        return None
    for it in diagnostics:
        if it["code"][0] in "ML" and (found := wrong_value(it["location"], text, value) if "path" in it["location"] else "no path"):
            return f"{found} of {it['code']}"
    return None


def value_of(text):
    """Returns the value of an input, None if Python finds no JSON or a member that stands twice, or if it is long."""
    def once(pairs):
        if len(dict(pairs)) < len(pairs):
            raise ValueError
        return dict(pairs)

    try:
        return json.loads(text, object_pairs_hook=once) if len(text) < LONG else None
    except (ValueError, RecursionError):
        return None


def wrong_head(status, answer, text):
    """Returns what is wrong with the head of an answer to an input, or None."""
    head, members = parted(answer)
    if list(answer)[:3] != HEAD or head["version"] != VERSION or head["verdict"] != VERDICTS.get(status):
        return f"status {status}, and the head {str(head):.100}"
    if found := wrong(answer, ANSWER) or wrong_codes(head["diagnostics"], members):
        return found
    value = value_of(text)
    places = [at for it in head["diagnostics"] for at in (it["location"], *(cause["location"] for cause in it["related"]))]
    found = next(filter(None, (wrong_location(it, text, value) for it in places)), None) or wrong_places(head["diagnostics"], text, value)
    if "error" in members and not found:
        location, error = places[0], members["error"]
        if any(location.get(name) != error[name] for name in ("path", "byte") if name in error):
            return f"the error and its diagnostic differ: {location}"
        return wrong_value(location, text, value) if "path" in error and value is not None and location["path"] else None
    return found
