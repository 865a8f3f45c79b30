"""Makes the JSON Schema of the answers of `report --json`, docs/report.schema.json, and validates answers by it.

The schema is that of docs/JSON.md. It allows members that it doesn't name, since later versions may add some; is_strict forbids them.
"""
import json
import re

SCHEMA = "docs/report.schema.json"
VERSION = "1.0"
COLUMNS = 140
DEFINITIONS = {}
TEXT, BOOL, OBJECT = {"type": "string"}, {"type": "boolean"}, {"type": "object"}
NUMBER = {"type": "integer", "minimum": 0}
KINDS = "Sint Uint Float Bool AbstractInt AbstractFloat".split()
SPACES = "Function Private WorkGroup Uniform Handle Immediate TaskPayload RayPayload IncomingRayPayload".split()
TYPES = {"string": str, "boolean": bool, "integer": int, "object": dict, "array": list, "null": type(None)}


def define(name, of):
    """Defines a schema by a name, and returns the schema that refers to it."""
    DEFINITIONS[name] = of
    return {"$ref": f"#/definitions/{name}"}


def words(*names):
    return {"enum": [*names]}


def flags(*names):
    """Returns the schema of names with bars between them, or of none."""
    some = "|".join(names)
    return {"type": "string", "pattern": rf"^(({some})( \| ({some}))*)?$"}


def items(of, count=None):
    return {"type": "array", "items": of} | ({} if count is None else {"minItems": count, "maxItems": count})


def or_null(of):
    return {"anyOf": [of, {"type": "null"}]}


def members(needed=None, **more):
    """Returns the schema of an object with these members, and maybe with more."""
    needed = needed or {}
    return {"type": "object", "properties": needed | more, "required": [*needed]}


def variant(names=(), **of):
    """Returns the schema of one of these names, or of an object with one of these members."""
    held = [{"type": "object", "properties": {name: it}, "required": [name], "maxProperties": 1} for name, it in of.items()]
    return {"anyOf": ([words(*names)] if names else []) + held}


SCALAR = define("scalar", members({"kind": words(*KINDS), "width": NUMBER}))
SIZE, SIDE = define("size", words("Bi", "Tri", "Quad")), words("Eight", "Sixteen")
SPACE = define("space", variant(SPACES, Storage=members({"access": flags("LOAD", "STORE", "ATOMIC")})))
BODY = variant(Function=NUMBER, EntryPoint=NUMBER)
PLACE = define("place", variant(ConstExpression=NUMBER, Function=NUMBER, EntryPoint=NUMBER))
NEEDS = define("needs", flags("WORK_GROUP_BARRIER", "DERIVATIVE", "IMPLICIT_LEVEL", "COOP_OPS"))
USES = flags("READ", "WRITE", "QUERY", "ATOMIC")
VALUE = variant(
    Scalar=SCALAR,
    Vector=members({"size": SIZE, "scalar": SCALAR}),
    Matrix=members({"columns": SIZE, "rows": SIZE, "scalar": SCALAR}),
    CooperativeMatrix=members({"columns": SIDE, "rows": SIDE, "scalar": SCALAR, "role": words("A", "B", "C")}),
    Pointer=members({"base": NUMBER, "space": SPACE}),
    ValuePointer=members({"size": or_null(SIZE), "scalar": SCALAR, "space": SPACE}),
)
TYPE = define("type", variant(Handle=NUMBER, Value=VALUE))
UNIFORMITY = define("uniformity", members({"non_uniform_result": or_null(NUMBER), "requirements": NEEDS}))
PAIR = define("pair", members({"image": NUMBER, "sampler": NUMBER}))
SAMPLED = define("sampled", variant(Global=NUMBER, Argument=NUMBER))
STAGES = flags("VERTEX", "FRAGMENT", "COMPUTE", "MESH", "TASK")
FUNCTION = define("function", members({
    "available_stages": STAGES, "uniformity": UNIFORMITY, "may_kill": BOOL, "sampling_set": items(PAIR), "global_uses": items(USES),
    "expressions": items(members({"uniformity": UNIFORMITY, "ref_count": NUMBER, "ty": TYPE})),
    "sampling": items(members({"image": SAMPLED, "sampler": SAMPLED})), "dual_source_blending": BOOL,
}))
INFO = members({"functions": items(FUNCTION), "entry_points": items(FUNCTION), "const_expression_types": items(TYPE)})

AT = members({"expr": NUMBER, "index": NUMBER})
RESOLVE_ERROR = define("resolve_error", variant(
    ("FunctionReturnsVoid", "MissingSpecialType"), OutOfBoundsIndex=AT, InvalidAccess=members({"expr": NUMBER, "indexed": BOOL}),
    InvalidSubAccess=members({"ty": NUMBER, "indexed": BOOL}), InvalidScalar=NUMBER, InvalidVector=NUMBER, InvalidPointer=NUMBER,
    InvalidImage=NUMBER, IncompatibleOperands=TEXT, BuiltinArgumentsInvalid=TEXT, FunctionArgumentNotFound=NUMBER,
))
LACKING = flags(*(f"{it}_BINDING_ARRAY_NON_UNIFORM_INDEXING" for it in ("TEXTURE_AND_SAMPLER", "STORAGE_TEXTURE")))
EXPRESSION_ERROR = variant(
    ("ExpectedGlobalOrArgument", "BindingArrayElement"), ResolveError=RESOLVE_ERROR, MissingCapabilities=LACKING,
)
DISRUPTOR = variant(("Return", "Discard"), Expression=NUMBER)
FLOW = {"type": "array", "minItems": 3, "maxItems": 3, "items": {"anyOf": [NEEDS, NUMBER, DISRUPTOR]}}
CAUSE = variant(Expression=members({"handle": NUMBER, "error": EXPRESSION_ERROR}), NonUniformControlFlow=FLOW, CountFull=NUMBER)
LAYOUT = {"size": NUMBER, "alignment": NUMBER}
LAYOUT_ERROR = members({"ty": NUMBER, "inner": words("NonPowerOfTwoWidth", "TooLarge")})
FAULTS = """HandleOutOfRange EmitRange TypeNotEarlier OperandNotEarlier FilterNotEarlier CalleeNotEarlier ArgumentCount
    ValuePointerArgument""".split()

ACCESS = members({
    "access": NUMBER, "base": NUMBER, "index": variant(Expression=NUMBER, Known=NUMBER), "length": variant(("Dynamic",), Known=NUMBER),
    "policy": words("Restrict", "ReadZeroSkipWrite", "Unchecked"),
})
CHECKED = define("checked", members({"accesses": items(ACCESS), "checked_indexes": items(NUMBER), "oob_local_types": items(NUMBER)}))
BOUNDS = {"anyOf": [members({"functions": items(CHECKED), "entry_points": items(CHECKED)}), members({"override": NUMBER})]}
NAMED = {"name": or_null(TEXT)}
TYPED = NAMED | {"ty": NUMBER, "type": TEXT}
IN_OUT = define("in_out", members(TYPED | {it: or_null(TEXT) for it in ("builtin", "interpolation", "sampling")}
                 | {it: or_null(NUMBER) for it in ("location", "blend_src")}))
RESOURCES = define("resources", members({
    "types": items(members({"type": TEXT} | LAYOUT | {
        "stride": or_null(NUMBER), "members": or_null(items(members(TYPED | {"offset": NUMBER})))})),
    "globals": items(members(TYPED | {"group": or_null(NUMBER), "binding": or_null(NUMBER), "space": TEXT, "access": or_null(TEXT)})),
    "overrides": items(members(TYPED | {"id": or_null(NUMBER), "default": or_null(TEXT)})),
    "entry_points": items(members(NAMED | {
        "stage": words("vertex", "fragment", "compute", "mesh", "task"), "workgroup_size": items(or_null(NUMBER), 3),
        "workgroup_overrides": items(or_null(NUMBER), 3),
        "uses": items(members({"global": NUMBER} | dict.fromkeys(("read", "write", "query", "atomic"), BOOL))),
        "sampled": items(PAIR), "inputs": items(IN_OUT), "outputs": items(IN_OUT)})),
    "unused": items(NUMBER),
}))

LOCATION = define("location", members(
    {"body": or_null(PLACE)}, name=TEXT, statement=TEXT, expression=NUMBER, text=TEXT, type=NUMBER,
    pointer={"type": "string", "pattern": "^(/.*)?$"}, argument=NUMBER, path=TEXT,
    line=NUMBER | {"minimum": 1}, column=NUMBER | {"minimum": 1}, byte=NUMBER,
))
DIAGNOSTIC = define("diagnostic", members({
    "code": {"type": "string", "pattern": "^[A-Z][0-9]{3}$"}, "name": {"type": "string", "pattern": "^[a-z0-9-]+$"},
    "severity": words("error", "warning", "info"), "message": TEXT, "location": LOCATION, "data": OBJECT,
    "related": items(members({"message": TEXT, "location": LOCATION})), "omitted": NUMBER, "notes": items(TEXT), "help": items(TEXT),
}))
ERROR = {"anyOf": [members({"path": TEXT, "wanted": TEXT}), members({"byte": NUMBER, "wanted": TEXT})]}
ANSWER = members(
    {"version": {"type": "string", "pattern": "^1\\.[0-9]+$"}, "verdict": words("accepted", "refused", "invalid_input", "unreadable"),
     "diagnostics": items(DIAGNOSTIC)},
    file=TEXT, uniformity_verdict=members({"accepted": BOOL}, place=BODY), layouts=items(members(LAYOUT)), layout_error=LAYOUT_ERROR,
    info=INFO, refused=members({"place": PLACE, "cause": CAUSE}), bounds=BOUNDS, resources=RESOURCES, fault=words(*FAULTS), error=ERROR,
)


def schema():
    """Returns the whole schema."""
    head = {"$schema": "http://json-schema.org/draft-07/schema#", "$id": "urn:pethuvazh:report:1", "title": "An answer of report --json"}
    return head | ANSWER | {"definitions": DEFINITIONS}


def printed(value, indent=0):
    """Returns a value as JSON, on one line where that is short."""
    line = json.dumps(value)
    if len(line) + indent + 20 <= COLUMNS or not isinstance(value, (dict, list)):
        return line
    inner = "\n" + " " * (indent + 1)
    if isinstance(value, list):
        return "[" + inner + ("," + inner).join(printed(it, indent + 1) for it in value) + "]"
    return "{" + inner + ("," + inner).join(f"{json.dumps(key)}: {printed(it, indent + 1)}" for key, it in value.items()) + "}"


def names_of(by):
    """Returns the names of all members that a schema has."""
    held = {*by.get("properties", ())} if isinstance(by, dict) else set()
    inner = by.values() if isinstance(by, dict) else by if isinstance(by, list) else ()
    return held.union(*map(names_of, inner))


def wrong(value, by, is_strict=True, at=""):
    """Returns what is wrong with a value by a schema of the kinds above, or None."""
    if "$ref" in by:
        return wrong(value, DEFINITIONS[by["$ref"].rpartition("/")[2]], is_strict, at)
    if "anyOf" in by:
        found = [wrong(value, it, is_strict, at) for it in by["anyOf"]]
        return None if None in found else f"{at}: {found[-1]}"
    if "enum" in by:
        return None if value in by["enum"] else f"{at} is {value!r}"
    kind = TYPES[by["type"]]
    if not isinstance(value, kind) or kind is int and isinstance(value, bool):
        return f"{at} is no {by['type']}: {value!r:.60}"
    return wrong_inside(value, by, is_strict, at)


def wrong_inside(value, by, is_strict, at):
    """Returns what is wrong with a value of the type of its schema, or None."""
    if isinstance(value, str):
        return None if re.search(by.get("pattern", ""), value) else f"{at} is {value!r}"
    if isinstance(value, list):
        if not by.get("minItems", 0) <= len(value) <= by.get("maxItems", len(value)):
            return f"{at} has {len(value)} items"
        return next(filter(None, (wrong(it, by["items"], is_strict, f"{at}[{k}]") for k, it in enumerate(value))), None)
    if isinstance(value, dict):
        held = by.get("properties", {})
        lacking = {*by.get("required", ())} - {*value}
        unknown = {*value} - {*held} if is_strict and held else set()
        if lacking or unknown or len(value) > by.get("maxProperties", len(value)):
            return f"{at} lacks {sorted(lacking)} or has {sorted(unknown)}"
        return next(filter(None, (wrong(it, held[name], is_strict, f"{at}.{name}") for name, it in value.items() if name in held)), None)
    return None if not isinstance(value, int) or value >= by.get("minimum", value) else f"{at} is {value}"
