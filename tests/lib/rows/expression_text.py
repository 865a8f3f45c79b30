"""Reads the expressions of module texts (tests/data/rows/README.md)."""
import re

from rows.type_text import KINDS, SCALARS, SIZES, scalar

NUMBERS = ["Constant", "Override", "FunctionArgument", "GlobalVariable", "LocalVariable", "CallResult", "ArrayLength"]
UNITS = ["RayQueryProceedResult", "SubgroupBallotResult"]
# The fields of the others, as Clause.fields takes them.
FIELDS = {
    "Access": "base index", "AccessIndex": "base index", "Load": "pointer", "Select": "condition accept reject",
    "ImageLoad": "image coordinate array_index? sample? level?", "AtomicResult": "ty comparison!", "WorkGroupUniformLoadResult": "ty",
    "SubgroupOperationResult": "ty", "RayQueryVertexPositions": "query committed!", "RayQueryGetIntersection": "query committed!",
    "CooperativeMultiplyAdd": "a b c",
}  # fmt: skip
UNARY = ["Negate", "LogicalNot", "BitwiseNot"]
BINARY = """Add Subtract Multiply Divide Modulo Equal NotEqual Less LessEqual Greater GreaterEqual And ExclusiveOr InclusiveOr LogicalAnd
    LogicalOr ShiftLeft ShiftRight""".split()
RELATIONAL = ["All", "Any", "IsNan", "IsInf"]
MATH = """Abs Min Max Clamp Saturate Cos Cosh Sin Sinh Tan Tanh Acos Asin Atan Atan2 Asinh Acosh Atanh Radians Degrees Ceil Floor Round
    Fract Trunc Modf Frexp Ldexp Exp Exp2 Log Log2 Pow Dot Dot4I8Packed Dot4U8Packed Outer Cross Distance Length Normalize FaceForward
    Reflect Refract Sign Fma Mix Step SmoothStep Sqrt InverseSqrt Inverse Transpose Determinant QuantizeToF16 CountTrailingZeros
    CountLeadingZeros CountOneBits ReverseBits ExtractBits InsertBits FirstTrailingBit FirstLeadingBit Pack4x8snorm Pack4x8unorm
    Pack2x16snorm Pack2x16unorm Pack2x16float Pack4xI8 Pack4xU8 Pack4xI8Clamp Pack4xU8Clamp Unpack4x8snorm Unpack4x8unorm
    Unpack2x16snorm Unpack2x16unorm Unpack2x16float Unpack4xI8 Unpack4xU8""".split()
DERIVATIVE = re.compile(r"Derivative(?:(X|Y|Width)(Coarse|Fine|None)?)?")
# The fields that the level of a sample takes after the coordinate.
LEVELS = {"Auto": [], "Zero": [], "Exact": ["level"], "Bias": ["level"], "Gradient": ["x", "y"]}
QUERIES = {"ImageNumLevels": "NumLevels", "ImageNumLayers": "NumLayers", "ImageNumSamples": "NumSamples"}


def literal(clause):
    """Returns a literal: 0 or false if nothing follows the name."""
    name = clause.name.removeprefix("Literal") or "U32"
    word = clause.word(0) if clause.has(0) else "false" if name == "Bool" else "0"
    clause.most(1)
    if word in ("true", "false"):
        return {name: word == "true"}
    return {name: int(word) if re.fullmatch(r"-?\d+", word) else float(word)}


def swizzle(clause):
    pattern = clause.word(1)
    size = clause.number(2) if clause.has(2) else len(pattern)
    return {"size": SIZES[size], "vector": clause.number(0), "pattern": [it.upper() for it in pattern.ljust(4, "x")]}


def conversion(clause):
    word, width = clause.word(1), clause.maybe(2)
    if word in SCALARS or word.startswith("scalar<"):
        width = scalar(word)["width"]
    return {"expr": clause.number(0), "kind": KINDS[word] if word in KINDS else scalar(word)["kind"], "convert": width}


def derivative(clause):
    axis, control = DERIVATIVE.fullmatch(clause.name).groups()
    control = control or ("Fine" if axis == "Width" else "None")
    return {"axis": axis or "X", "ctrl": control, **clause.fields("expr")}


def sample(clause):
    """Returns the fields of a sample: an image, a sampler, a coordinate, the fields of the level, and the options."""
    name = clause.name.removeprefix("Sample")
    found = clause.fields("image", "sampler", "coordinate", *LEVELS[name])
    given = [found.pop(it) for it in LEVELS[name]]
    level = name if not given else {name: dict(zip("xy", given)) if name == "Gradient" else given[0]}
    gather = clause.values.get("gather")
    return {
        **found, "gather": gather and gather.upper(), "array_index": clause.value("index"), "offset": clause.value("offset"),
        "level": level, "depth_ref": clause.value("depth"), "clamp_to_edge": "clamp" in clause.options,
    }  # fmt: skip


def tile(clause, first):
    return {**clause.fields("pointer", "stride", first=first), "row_major": "row_major" in clause.options}


def cooperative_load(clause):
    """Returns the fields of a cooperative load: a matrix of 8 by 8 and role A if no operand says otherwise."""
    sizes = [it for it in clause.operands if "x" in it] or ["8x8"]
    roles = [it for it in clause.operands if it in "abc"] or ["a"]
    columns, rows = (SIZES[int(it)] for it in sizes[0].split("x"))
    clause.operands = [it for it in clause.operands if it.isdecimal()]
    return {"columns": columns, "rows": rows, "role": roles[0].upper(), "data": tile(clause, 0)}


def operation(clause):
    """Returns the operation of the clause on operands, or None."""
    name = clause.name
    if name in UNARY:
        return {"Unary": {"op": name, **clause.fields("expr")}}
    if name in BINARY:
        return {"Binary": {"op": name, **clause.fields("left", "right")}}
    if name in RELATIONAL:
        return {"Relational": {"fun": name, **clause.fields("argument")}}
    if name in MATH:
        return {"Math": {"fun": name, **clause.fields("arg", "arg1?", "arg2?", "arg3?")}}
    if DERIVATIVE.fullmatch(name):
        return {"Derivative": derivative(clause)}
    return None


def of_image(clause):
    """Returns the expression of the clause on an image, or None."""
    name = clause.name
    if name.removeprefix("Sample") in LEVELS and name.startswith("Sample"):
        return {"ImageSample": sample(clause)}
    if name == "ImageSize":
        found = clause.fields("image", "level?")
        return {"ImageQuery": {"image": found["image"], "query": {"Size": {"level": found["level"]}}}}
    if name in QUERIES:
        return {"ImageQuery": {**clause.fields("image"), "query": QUERIES[name]}}
    return None


def composed(clause):
    """Returns the expression of the clause with operands of several kinds, or None."""
    name = clause.name
    if name == "Compose":
        return {name: {"ty": clause.ty(0), "components": [clause.number(it) for it in range(1, len(clause.operands))]}}
    if name == "Splat":
        found = clause.fields("size", "value")
        return {name: {"size": SIZES[found["size"]], "value": found["value"]}}
    if name == "ZeroValue":
        return {name: clause.fields("ty")["ty"]}
    made = {"Swizzle": swizzle, "As": conversion, "CooperativeLoad": cooperative_load}.get(name)
    return {name: made(clause)} if made else None


def expression(clause):
    """Returns the expression of the clause, or None."""
    name = clause.name
    if re.fullmatch(r"Literal([A-Z]\w*)?", name):
        return {"Literal": literal(clause)}
    if name in NUMBERS:
        return {name: clause.fields("number")["number"]}
    if name in UNITS:
        clause.most(0)
        return name
    if name in FIELDS:
        return {name: clause.fields(*FIELDS[name].split())}
    return composed(clause) or operation(clause) or of_image(clause)
