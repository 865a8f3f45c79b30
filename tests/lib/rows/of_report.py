"""Answers questions about the analysis of a module and about its indexes by what `report --json` says of it.

tests/data/rows/README.md has the questions.
"""
import json

from compare_info import variant

KINDS, INDEXES, OF_INDEXES = ("analysis", "report"), "indexes", ("checked", "locals", "compare")
# The bits of each set of flags.
USES = {"READ": 1, "WRITE": 2, "QUERY": 4, "ATOMIC": 8}
NEEDS = {"WORK_GROUP_BARRIER": 1, "DERIVATIVE": 2, "IMPLICIT_LEVEL": 4, "COOP_OPS": 8}
CAPABILITIES = {"TEXTURE_AND_SAMPLER_BINDING_ARRAY_NON_UNIFORM_INDEXING": 1, "STORAGE_TEXTURE_BINDING_ARRAY_NON_UNIFORM_INDEXING": 2}
INDEXING = {"0": (), "1": ("textures",), "2": ("storage-textures",), "3": ("textures", "storage-textures")}
FLOW = {"checked": "--uniformity=naga", "unchecked": "--uniformity=off"}
PLACES = {"ConstExpression": "const", "Function": "fn", "EntryPoint": "entry"}
# How the errors of an expression are numbered.
ERRORS = {"ResolveError": "E1", "MissingCapabilities": "E2", "ExpectedGlobalOrArgument": "E3", "BindingArrayElement": "E4"}
U32 = {"Value": {"Scalar": {"kind": "Uint", "width": 4}}}
BAD = "bad question"


def is_of_report(question):
    """Returns whether a question is answered here."""
    words = question.split(" ")
    return words[0] in KINDS or (words[0] == INDEXES and words[3:4] != [] and words[3] in OF_INDEXES)


def arguments(question):
    """Returns the arguments of `report` for a question."""
    words = question.split(" ")
    if words[0] == INDEXES:
        policies = [words[4]] if words[3] != "compare" and words[4] != "-" else []
        return ["--json", FLOW["unchecked"], f"--non-uniform-indexing={','.join(INDEXING['3'])}", "--bounds-checks", *policies]
    flow, bits = words[3:5] if words[1:3] == ["first", "verdict"] and len(words) == 5 else ("checked", "0")
    return ["--json", FLOW[flow], *([f"--non-uniform-indexing={','.join(INDEXING[bits])}"] if INDEXING[bits] else [])]


def module_asked(question, text):
    """Returns the module about which `report` is asked. To compare an index is to ask about an access at the end of the function."""
    words = question.split(" ")
    if words[0] != INDEXES or words[3] != "compare":
        return text
    module, base, index = json.loads(text), int(words[4]), int(words[5][1:])
    kind = "AccessIndex" if words[5][0] == "n" else "Access"
    function_of(module, words)["expressions"].append({kind: {"base": base, "index": index}})
    return json.dumps(module)


def function_of(module, words):
    """Returns the function of a module that the words of a question name."""
    number = int(words[2])
    return module["functions"][number] if words[1] == "function" else module["entry_points"][number]["function"]


def bits_of(flags, names):
    """Returns the number of some flags."""
    return sum(names[it] for it in flags.split(" | ") if it)


def listed(items):
    """Returns the items with commas between them, or `-` if there are none."""
    return ",".join("-" if it is None else str(it) for it in items) or "-"


def spelled(value):
    """Returns a variant in words."""
    name, held = variant(value)
    return name if held is None else f"{name} {held}"


def of_error(error):
    """Returns the text for an error of an expression."""
    name, held = variant(error)
    details = f" {bits_of(held, CAPABILITIES)}" if name == "MissingCapabilities" else "" if held is None else f" {spelled(held)}"
    return f"{ERRORS[name]}{details}"


def of_refusal(refused):
    """Returns the text for a refusal: its location, the number of its cause, and the details of that."""
    place, number = variant(refused["place"])
    name, held = variant(refused["cause"])
    if name == "Expression":
        cause = f"A1 at {held['handle']} {of_error(held['error'])}"
    elif name == "NonUniformControlFlow":
        needs, handle, disruptor = held
        cause = f"A2 at {handle} needs {bits_of(needs, NEEDS)}: {spelled(disruptor)}"
    else:
        cause = f"A3 at {held}"
    return f"{PLACES[place]} {number} {cause}"


def report_of(told):
    """Returns the report as `typer` prints it: what is recorded of all functions, or a refusal's location and the number of its cause."""
    if "refused" in told:
        return f"refused {' '.join(of_refusal(told['refused']).split(' ')[:3])}"
    return of_info(told["info"], ["module"]) if "info" in told else BAD


def of_bounds(told, words, text):
    """Returns the answer to a question about indexes, given the text of the module."""
    if "functions" not in told.get("bounds", {}):
        return BAD
    found = told["bounds"]["functions" if words[1] == "function" else "entry_points"][int(words[2])]
    if words[3] == "compare":
        last = len(function_of(json.loads(module_asked(" ".join(words), text)), words)["expressions"]) - 1
        lengths = [it["length"] for it in found["accesses"] if it["access"] == last]
        return {"Dynamic": "dynamic"}.get(str(lengths[0])) or str(lengths[0]["Known"]) if lengths else "-"
    return " ".join(map(str, found["checked_indexes" if words[3] == "checked" else "oob_local_types"])) or "-"


def has_pair(info, words):
    """Returns whether a function samples the first of two resources with the second, of which one is an argument."""
    image, sampler = ({words[at].capitalize(): int(words[at + 1])} for at in (0, 2))
    return {"image": image, "sampler": sampler} in info["sampling"]


def section_of(info, words):
    """Returns a section of what is recorded of a function."""
    of_result = info["uniformity"]["non_uniform_result"]
    found = {
        "origins": lambda: listed(it["uniformity"]["non_uniform_result"] for it in info["expressions"]),
        "counts": lambda: listed(it["ref_count"] for it in info["expressions"]),
        "needs": lambda: str(bits_of(info["uniformity"]["requirements"], NEEDS)),
        "kills": lambda: str(info["may_kill"]).lower(),
        "uses": lambda: listed(bits_of(it, USES) for it in info["global_uses"]),
        "result": lambda: listed([of_result]),
        "pairs": lambda: f"{len(info['sampling'])} {len(info['sampling_set'])}",
        "samples": lambda: str(has_pair(info, words[1:])).lower(),
    }
    return found[words[0]]()


def summary_of(info):
    """Returns the uses of global variables, the pairs of two of them, the counts, and whether the result is uniform."""
    pairs = listed(f"{it['image']}/{it['sampler']}" for it in info["sampling_set"])
    result = "uniform" if info["uniformity"]["non_uniform_result"] is None else "non-uniform"
    return f"uses {section_of(info, ['uses'])} pairs {pairs} counts {section_of(info, ['counts'])} result {result}"


def of_info(info, words):
    """Returns the answer to a question about an accepted module, given all that is recorded."""
    functions, entry_points = info["functions"], info["entry_points"]
    if words[0] == "module":
        named = [f"fn {at} {summary_of(it)}" for at, it in enumerate(functions)]
        return "; ".join(named + [f"entry {at} {summary_of(it)}" for at, it in enumerate(entry_points)])
    if words[0] == "first":
        return "accepted" if words[1] == "verdict" else section_of(functions[0], words[1:])
    if words[0] == "constant":
        return "u32" if info["const_expression_types"][int(words[1])] == U32 else "other"
    if words[0] == "samplings":
        return str(sum(has_pair(it, words[1:]) for it in functions))
    return section_of({"function": functions, "entry": entry_points}[words[0]][int(words[1])], words[2:])


def answer(question, text, module):
    """Returns the answer to a question, given the line that `report` prints and the text of the module in the row."""
    told, words = json.loads(text), question.split(" ")
    if words[0] == INDEXES:
        return of_bounds(told, words, module)
    if words[0] == "report":
        return report_of(told)
    if "refused" in told:
        return of_refusal(told["refused"])
    return of_info(told["info"], words[1:]) if "info" in told else BAD
