"""The table bindings/options.json: the flags and statuses of the library, with the arguments of the program `report`.

It also has the other sources of these numbers, for a comparison, and the samples whose answers the flags change.
"""
import itertools
import json
import re

from crates import TOP

BINDINGS = TOP / "bindings"
TABLE = json.loads((BINDINGS / "options.json").read_text())
FLAGS = {it["name"]: it["value"] for it in TABLE["flags"]}
ARGUMENTS = {it["name"]: it["argument"] for it in TABLE["flags"]}
TEXT, BOUNDS_CHECKS = FLAGS["FOR_PEOPLE"], FLAGS["BOUNDS_CHECKS"]
# The two policies of each kind of access.
KINDS = ("INDEX", "BUFFER", "IMAGE_LOAD", "BINDING_ARRAY")
POLICIES = {kind: [FLAGS[f"{kind}_{it}"] for it in ("RESTRICT", "READ_ZERO_SKIP_WRITE")] for kind in KINDS}
POLICY_BITS = sum(map(sum, POLICIES.values()))
# A module whose answer each flag changes, and the flags that this takes.
CHANGED_BY = {
    "NO_CONTROL_FLOW_UNIFORMITY": ("real/derivative.json", 0),
    "NON_UNIFORM_TEXTURES": ("real/bindless.json", 0),
    "NON_UNIFORM_STORAGE_TEXTURES": ("text/storage_textures.json", 0),
    "FOR_PEOPLE": ("real/textured_quad.json", 0),
    "NAGA_UNIFORMITY": ("real/derivative.json", 0),
    "DRAWING": ("drawn/nested.json", TEXT),
    "RESOURCES": ("text/scene.json", 0),
    "BOUNDS_CHECKS": ("text/bounds_checks.json", 0),
    "ALL_STRUCTS": ("text/all_structs.json", TEXT),
    "EXPLAIN": ("text/explained_quad.json", TEXT),
    "ALL": ("text/thirty_needs_shown.json", TEXT),
}
# The text of each module shows all policies. As JSON, a policy of restricted image loads shows nowhere.
INDEXED, BINDLESS = ("text/bounds_checks.json", BOUNDS_CHECKS), ("real/bindless.json", BOUNDS_CHECKS + FLAGS["NON_UNIFORM_TEXTURES"])
CHANGED_BY |= {name: (INDEXED[0], INDEXED[1] + TEXT) for name in FLAGS if name.startswith(KINDS)}
# The Rattle source has other names for these statuses.
RENAMED = {"DONE": "ANSWERED"}


def arguments(flags):
    """Returns the arguments of `report` for flags, with that for the form of the output."""
    words = ["--format=text"] if flags & TEXT else ["--json"]
    given = [ARGUMENTS[name] for name, value in FLAGS.items() if flags & value and value != TEXT]
    policies = [it for it in given if not it.startswith("--")]
    indexing = [it.partition("=")[2] for it in given if it.startswith("--non-uniform-indexing=")]
    words += [it for it in given if it.startswith("--") and not it.startswith(("--non-uniform-indexing=", "--bounds-checks"))]
    words += [f"--non-uniform-indexing={','.join(indexing)}"] if indexing else []
    words += ["--bounds-checks"] if flags & BOUNDS_CHECKS or policies else []
    return words + ([",".join(policies)] if policies else [])


def flags_in(words):
    """Returns the flags for arguments of `report`, of which one may have a list."""
    given = {f"{name}={it}" if value else name for name, _, value in (it.partition("=") for it in words) for it in value.split(",")}
    return sum(value for name, value in FLAGS.items() if ARGUMENTS[name] in given)


def sums():
    """Yields each sum of flags that is tried, and the samples on which it is tried."""
    for name, value in FLAGS.items():
        module, more = CHANGED_BY[name]
        yield from ((flags, module) for flags in (more, more | value, more | value | TEXT))
    for some in itertools.chain(itertools.combinations(KINDS, 1), itertools.combinations(KINDS, 2), [KINDS]):
        for policies in itertools.product(*(POLICIES[kind] for kind in some)):
            for module, more in (INDEXED, BINDLESS):
                yield from ((more + form + sum(policies), module) for form in (0, TEXT))
    # Policies alone ask for checks, too, and all flags for text go together.
    yield from ((policy, INDEXED[0]) for policy in itertools.chain(*POLICIES.values()))
    yield TEXT + sum(FLAGS[it] for it in ("DRAWING", "RESOURCES", "ALL_STRUCTS", "EXPLAIN", "ALL")), "text/scene.json"
    both = FLAGS["NON_UNIFORM_TEXTURES"] + FLAGS["NON_UNIFORM_STORAGE_TEXTURES"]
    yield from ((both, module) for module in ("real/bindless.json", "text/storage_textures.json"))


def numbers(text, pattern):
    """Returns the numbers in a text by their names. The pattern has a group for a shift, too, if there may be one."""
    return {name: int(low.replace("_", "")) << int((*more, "0")[0] or 0) for name, low, *more in re.findall(pattern, text)}


def of_header():
    """Returns the flags and both kinds of statuses of pethuvazh.h."""
    text = (BINDINGS / "c/pethuvazh.h").read_text()
    enums = {name: numbers(body, r"PETHUVAZH_(\w+) = (\d+)(?: << (\d+))?") for name, body in re.findall(r"(?s)enum (\w+) \{(.*?)\};", text)}
    lines = enums["pethuvazh_lines_status"] | {"OUT_OF_MEMORY": enums["pethuvazh_report_status"]["OUT_OF_MEMORY"]}
    return enums["pethuvazh_flag"], enums["pethuvazh_report_status"], lines


def of_rust():
    """Returns those of the Rust crate."""
    text = (BINDINGS / "rust/sys/src/lib.rs").read_text()
    parts = re.split(r"pub mod (\w+) \{", text)
    held = {name: numbers(body, r"const (\w+): u32 = (\d+)(?: << (\d+))?;") for name, body in zip(parts[1::2], parts[2::2])}
    return held["flags"], held["report_status"], held["lines_status"]


def of_python(package):
    """Returns those of the Python package, which is given."""
    numbered = package.flags
    return tuple({it.name: int(it) for it in kind} for kind in (numbered.Flags, numbered.ReportStatus, numbered.LinesStatus))


def of_source():
    """Returns the single flags of the Rattle source without their names, and both kinds of statuses."""
    flags = numbers((TOP / "crates/pethuvazh/src/flags.rt").read_text(), r"(?m)^const (\w+): u32 = ([\d_]+);")
    single = {value for name, value in flags.items() if name not in ("BEHIND_POLICIES", "NO_FLAG")}
    enums = re.split(r"pub enum (\w+) \{", (TOP / "crates/pethuvazh/src/status.rt").read_text())
    statuses = {}
    for name, body in zip(enums[1::2], enums[2::2]):
        found = numbers(body.partition("\n}")[0], r"(?m)^ +(\w+) = (\d+),")
        upper = {re.sub(r"(?<!^)([A-Z])", r"_\1", it).upper(): value for it, value in found.items()}
        statuses[name] = {RENAMED.get(it, it): value for it, value in upper.items()}
    return single, flags["NO_FLAG"], statuses["ReportStatus"], statuses["LinesStatus"]


def wrong_numbers(package):
    """Yields what is wrong with the numbers of each source, or None."""
    table = (FLAGS, TABLE["report_statuses"], TABLE["lines_statuses"])
    for source, found in (("pethuvazh.h", of_header()), ("the Rust crate", of_rust()), ("the Python package", of_python(package))):
        for kind, held, wanted in zip(("flags", "statuses of reports", "statuses of lines"), found, table):
            yield f"{kind} of {source}", None if held == wanted else f"{held}, wanted {wanted}"
    single, behind, reports, lines = of_source()
    wanted = {it for it in FLAGS.values() if not it & POLICY_BITS}
    yield "flags of the source", None if (single, behind) == (wanted, 2 * max(wanted)) else f"{single}, {behind}"
    yield "statuses of the source", None if (reports, lines) == table[1:] else f"{reports}, {lines}"
