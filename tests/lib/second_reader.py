"""Reads modules as JSON, apart from the reader of `report`: by tables of naga's names, and with no code or table in common.

`read` returns each place of a text at which something is no module. A reader may name any of them, so it agrees with this one if its path
is one of these. The tables are those of naga's IR, in the order of its fields. docs/DIFFERENCES.md has the choices in which `report` reads
less than serde would; they are choices of this reader, too.
"""
import re
from decimal import Decimal

from spelled_json import Number, Object, value_of

# The names of the variants without data, of each enum.
UNITS = []
GREATEST_HANDLE = 2**32 - 2
INTEGER = re.compile("0|-?[1-9][0-9]*")
# The digits of the greatest u64 or least i64 and a sign, and as many digits as make any exponent too large.
MOST_DIGITS, MOST_EXPONENT_DIGITS = 20, 9
# The white space of Unicode, which differs from that of Python's `strip`.
WHITE_SPACE = "\t\n\v\f\r \x85\xa0\u1680" + "".join(map(chr, range(0x2000, 0x200B))) + "\u2028\u2029\u202f\u205f\u3000"


class Place:
    """Names a value of the input by the path to it, and keeps what is refused."""

    __slots__ = ("path", "refused")

    def __init__(self, path, refused):
        self.path, self.refused = path, refused

    def field(self, name):
        return Place(f"{self.path}.{name}" if self.path else name, self.refused)

    def item(self, index):
        return Place(f"{self.path}[{index}]", self.refused)

    def refuse(self, wanted):
        """Notes that the value isn't what is wanted, and returns what stands in its place: an object that is equal to no other."""
        self.refused.append((self.path, wanted))
        return object()


# A reader below is a function of a value and its place, which returns what the module holds. Two values are equal in naga if these are.


def is_integer(text, least, greatest):
    """Returns whether a text is an integer in a range, without point, exponent, further zeros, or a sign of 0."""
    return len(text) <= MOST_DIGITS and INTEGER.fullmatch(text) is not None and least <= int(text) <= greatest


def integer(least, greatest):
    """Returns the reader of integers in a range."""

    def read(value, at):
        if isinstance(value, Number) and is_integer(value, least, greatest):
            return int(value)
        return at.refuse(f"an integer from {least} to {greatest}")

    return read


def number(precision, greatest_exponent):
    """Returns the reader of numbers whose nearest float, the even one of two, is finite. The float has so many bits, and is below twice the
    power of two with the greatest exponent."""
    # Half a step above the greatest float.
    limit = 2 ** (greatest_exponent + 1) - 2 ** (greatest_exponent - precision)

    def read(value, at):
        return value if isinstance(value, Number) and magnitude(value) < limit else at.refuse("a number that has a finite float")

    return read


def magnitude(value):
    """Returns a number without its sign. An exponent far out of every range is cut."""
    digits, _, exponent = value.lower().lstrip("-").partition("e")
    exponent_digits = exponent.lstrip("+-").lstrip("0")[: MOST_EXPONENT_DIGITS + 1]
    if len(exponent_digits) > MOST_EXPONENT_DIGITS:
        exponent_digits = "9" * MOST_EXPONENT_DIGITS
    return Decimal(f"{digits}e{'-' if exponent.startswith('-') else ''}{exponent_digits or 0}")


def boolean(value, at):
    return value if isinstance(value, bool) else at.refuse("true or false")


def string(value, at):
    return value if type(value) is str else at.refuse("a string")


def option(read):
    return lambda value, at: None if value is None else read(value, at)


def items(read, count=None):
    """Returns the reader of arrays, with so many items if a count is given."""

    def read_items(value, at):
        if type(value) is not list or count not in (None, len(value)):
            return at.refuse("an array" if count is None else f"an array of {count} items")
        return tuple(read(it, at.item(index)) for index, it in enumerate(value))

    return read_items


def flags(*names):
    """Returns the reader of flags: names with bars between them, or none. Blanks around a name don't count."""

    def read(value, at):
        if type(value) is not str:
            return at.refuse("flags")
        found = {it.strip(WHITE_SPACE) for it in value.split("|")} if value.strip(WHITE_SPACE) else set()
        return frozenset(found) if found.issubset(names) else at.refuse(" ".join(names))

    return read


def struct(words, **readers):
    """Returns the reader of objects with these fields: a question mark stands behind those that are an Option, and may be absent. A field
    without a reader is a handle. Further members don't count."""
    fields = [(it.rstrip("?"), it.endswith("?")) for it in words.split()]
    readers = {name: readers.get(name, handle) for name, _ in fields}

    def read(value, at):
        if not isinstance(value, Object):
            return at.refuse("an object")
        return tuple(read_field(value, at, name, readers[name], is_option) for name, is_option in fields)

    return read


def read_field(members, at, name, read, is_option):
    """Reads a field of an object, which stands there once."""
    found = [it for key, it in members if key == name]
    if len(found) > 1:
        return at.field(name).refuse("a field that stands once")
    if not found:
        return None if is_option else at.refuse(f"the field {name}")
    return None if is_option and found[0] is None else read(found[0], at.field(name))


def closed(words, **readers):
    """Returns the reader of objects that have these fields and no others."""
    read_struct = struct(words, **readers)
    names = words.replace("?", "").split()

    def read(value, at):
        for name in (key for key, _ in (value if isinstance(value, Object) else ()) if key not in names):
            at.field(name).refuse(f"no field but {names}")
        return read_struct(value, at)

    return read


def enum(units="", **variants):
    """Returns the reader of enums: names of the variants without data, and readers of the data of the others."""
    units = units.split()
    wanted = " ".join([*units, *variants])
    UNITS.append(units)

    def read(value, at):
        if type(value) is str:
            return value if value in units else at.refuse(wanted)
        if not isinstance(value, Object) or len(value) != 1 or value[0][0] not in variants:
            return at.refuse(wanted)
        (name, below), = value
        return name, variants[name](below, at.field(name))

    return read


def beside(read_struct, read_interface):
    """Returns the reader of objects that have members of the interface beside those of the IR, which alone are compared."""

    def read(value, at):
        if isinstance(value, Object):
            read_interface(value, at)
        return read_struct(value, at)

    return read


u8, u16, u32, u64 = (integer(0, 2**it - 1) for it in (8, 16, 32, 64))
i16, i32, i64 = (integer(-(2 ** (it - 1)), 2 ** (it - 1) - 1) for it in (16, 32, 64))
count, handle = integer(1, 2**32 - 1), integer(0, GREATEST_HANDLE)
f32, f64 = number(24, 127), number(53, 1023)

# The interface.
SAMPLING = {"interpolation": enum("Perspective Linear Flat PerVertex"), "sampling": enum("Center Centroid Sample First Either")}
INTERPOLATED = struct("interpolation? sampling? blend_src?", blend_src=u32, **SAMPLING)
IDENTIFIED = struct("id?", id=u16)
BOUND = struct("binding?", binding=struct("group binding", group=u32, binding=u32))
SIZES = {"workgroup_size": items(u32, 3), "workgroup_size_overrides": items(option(handle), 3)}
SIZED = struct("workgroup_size? workgroup_size_overrides?", **SIZES)

# Types. The payload of a built-in value is a flag, or there is none.
BUILT_INS = enum(
    """ViewIndex BaseInstance BaseVertex ClipDistance CullDistance InstanceIndex PointSize VertexIndex DrawIndex DrawID FragDepth PointCoord
    FrontFacing PrimitiveIndex SampleIndex SampleMask GlobalInvocationId LocalInvocationId LocalInvocationIndex WorkGroupId WorkGroupSize
    NumWorkGroups NumSubgroups SubgroupId SubgroupSize SubgroupInvocationId MeshTaskSize CullPrimitive PointIndex LineIndices
    TriangleIndices VertexCount Vertices PrimitiveCount Primitives RayInvocationId NumRayInvocations InstanceCustomData GeometryIndex
    WorldRayOrigin WorldRayDirection ObjectRayOrigin ObjectRayDirection RayTmin RayTCurrentMax ObjectToWorld WorldToObject HitKind""",
    Position=struct("invariant", invariant=boolean),
    Barycentric=struct("perspective", perspective=boolean),
)
KIND = enum("Sint Uint Float Bool AbstractInt AbstractFloat")
SCALAR = struct("kind width", kind=KIND, width=u8)
SIZE = enum("Bi Tri Quad")
COOPERATIVE = {"columns": enum("Eight Sixteen"), "rows": enum("Eight Sixteen"), "role": enum("A B C")}
ACCESS = flags("LOAD", "STORE", "ATOMIC")
SPACE = enum(
    "Function Private WorkGroup Uniform Handle Immediate TaskPayload RayPayload IncomingRayPayload", Storage=struct("access", access=ACCESS)
)
ARRAY_SIZE = enum("Dynamic", Constant=count, Pending=handle)
BINDING = enum(BuiltIn=BUILT_INS, Location=beside(struct("location", location=u32), INTERPOLATED))
MEMBER = struct("name? ty binding? offset", name=string, binding=BINDING, offset=u32)
CHANNELS = {8: "Unorm Snorm Uint Sint", 16: "Unorm Snorm Uint Sint Float", 32: "Uint Sint Float"}
FORMATS = [f"{channels}{bits}{it}" for channels in ("R", "Rg", "Rgba") for bits, kinds in CHANNELS.items() for it in kinds.split()]
FORMAT = enum(" ".join(FORMATS) + " Bgra8Unorm Rgb10a2Uint Rgb10a2Unorm Rg11b10Ufloat R64Uint")
IMAGE_CLASS = enum(
    "External",
    Sampled=struct("kind multi", kind=KIND, multi=boolean),
    Depth=struct("multi", multi=boolean),
    Storage=struct("format access", format=FORMAT, access=ACCESS),
)
INNER = enum(
    Scalar=SCALAR,
    Vector=struct("size scalar", size=SIZE, scalar=SCALAR),
    Matrix=struct("columns rows scalar", columns=SIZE, rows=SIZE, scalar=SCALAR),
    CooperativeMatrix=struct("columns rows scalar role", scalar=SCALAR, **COOPERATIVE),
    Atomic=SCALAR,
    Pointer=struct("base space", space=SPACE),
    ValuePointer=struct("size? scalar space", size=SIZE, scalar=SCALAR, space=SPACE),
    Array=struct("base size stride", size=ARRAY_SIZE, stride=u32),
    Struct=struct("members span", members=items(MEMBER), span=u32),
    Image=struct("dim arrayed class", dim=enum("D1 D2 D3 Cube"), arrayed=boolean, **{"class": IMAGE_CLASS}),
    Sampler=struct("comparison", comparison=boolean),
    AccelerationStructure=struct("vertex_return", vertex_return=boolean),
    RayQuery=struct("vertex_return", vertex_return=boolean),
    BindingArray=struct("base size", size=ARRAY_SIZE),
)
TYPE = struct("name? inner", name=string, inner=INNER)

# Expressions.
LITERAL = enum(
    F64=f64, F32=f32, F16=u16, U16=u16, I16=i16, U32=u32, I32=i32, U64=u64, I64=i64, Bool=boolean, AbstractInt=i64, AbstractFloat=f64
)
COMPONENT = enum("X Y Z W")
LEVEL = enum("Auto Zero", Exact=handle, Bias=handle, Gradient=struct("x y"))
QUERY = enum("NumLevels NumLayers NumSamples", Size=struct("level?"))
UNARY = enum("Negate LogicalNot BitwiseNot")
BINARY = enum(
    """Add Subtract Multiply Divide Modulo Equal NotEqual Less LessEqual Greater GreaterEqual And ExclusiveOr InclusiveOr LogicalAnd
    LogicalOr ShiftLeft ShiftRight"""
)
MATH = enum(
    """Abs Min Max Clamp Saturate Cos Cosh Sin Sinh Tan Tanh Acos Asin Atan Atan2 Asinh Acosh Atanh Radians Degrees Ceil Floor Round Fract
    Trunc Modf Frexp Ldexp Exp Exp2 Log Log2 Pow Dot Dot4I8Packed Dot4U8Packed Outer Cross Distance Length Normalize FaceForward Reflect
    Refract Sign Fma Mix Step SmoothStep Sqrt InverseSqrt Inverse Transpose Determinant QuantizeToF16 CountTrailingZeros CountLeadingZeros
    CountOneBits ReverseBits ExtractBits InsertBits FirstTrailingBit FirstLeadingBit Pack4x8snorm Pack4x8unorm Pack2x16snorm Pack2x16unorm
    Pack2x16float Pack4xI8 Pack4xU8 Pack4xI8Clamp Pack4xU8Clamp Unpack4x8snorm Unpack4x8unorm Unpack2x16snorm Unpack2x16unorm
    Unpack2x16float Unpack4xI8 Unpack4xU8"""
)
DATA = struct("pointer stride row_major", row_major=boolean)
SAMPLED = "image sampler gather? coordinate array_index? offset? level depth_ref? clamp_to_edge"
EXPRESSION = enum(
    "RayQueryProceedResult SubgroupBallotResult",
    Literal=LITERAL,
    Constant=handle,
    Override=handle,
    ZeroValue=handle,
    Compose=struct("ty components", components=items(handle)),
    Access=struct("base index"),
    AccessIndex=struct("base index", index=u32),
    Splat=struct("size value", size=SIZE),
    Swizzle=struct("size vector pattern", size=SIZE, pattern=items(COMPONENT, 4)),
    FunctionArgument=u32,
    GlobalVariable=handle,
    LocalVariable=handle,
    Load=struct("pointer"),
    ImageSample=struct(SAMPLED, gather=COMPONENT, level=LEVEL, clamp_to_edge=boolean),
    ImageLoad=struct("image coordinate array_index? sample? level?"),
    ImageQuery=struct("image query", query=QUERY),
    Unary=struct("op expr", op=UNARY),
    Binary=struct("op left right", op=BINARY),
    Select=struct("condition accept reject"),
    Derivative=struct("axis ctrl expr", axis=enum("X Y Width"), ctrl=enum("Coarse Fine None")),
    Relational=struct("fun argument", fun=enum("All Any IsNan IsInf")),
    Math=struct("fun arg arg1? arg2? arg3?", fun=MATH),
    As=struct("expr kind convert?", kind=KIND, convert=u8),
    CallResult=handle,
    AtomicResult=struct("ty comparison", comparison=boolean),
    WorkGroupUniformLoadResult=struct("ty"),
    ArrayLength=handle,
    RayQueryVertexPositions=struct("query committed", committed=boolean),
    RayQueryGetIntersection=struct("query committed", committed=boolean),
    SubgroupOperationResult=struct("ty"),
    CooperativeLoad=struct("columns rows role data", data=DATA, **COOPERATIVE),
    CooperativeMultiplyAdd=struct("a b c"),
)


def block(value, at):
    """Reads a block of statements, which may have blocks in them."""
    return items(STATEMENT)(value, at)


# Statements. The result of an Atomic is an Option in naga, and always there in the IR of `report`.
BARRIER = flags("STORAGE", "WORK_GROUP", "SUB_GROUP", "TEXTURE")
ATOMIC = enum("Add Subtract And ExclusiveOr InclusiveOr Min Max", Exchange=struct("compare?"))
RAY_QUERY = enum(
    "ConfirmIntersection Terminate",
    Initialize=struct("acceleration_structure descriptor"),
    Proceed=struct("result"),
    GenerateIntersection=struct("hit_t"),
)
GATHER = enum(
    "BroadcastFirst",
    Broadcast=handle,
    Shuffle=handle,
    ShuffleDown=handle,
    ShuffleUp=handle,
    ShuffleXor=handle,
    QuadBroadcast=handle,
    QuadSwap=enum("X Y Diagonal"),
)
COLLECTIVE = {"op": enum("All Any Add Mul Min Max And Or Xor"), "collective_op": enum("Reduce InclusiveScan ExclusiveScan")}
CASE = struct("value body fall_through", value=enum("Default", I32=i32, U32=u32), body=block, fall_through=boolean)
STATEMENT = enum(
    "Break Continue Kill",
    Emit=closed("start end", start=u32, end=u32),
    Block=block,
    If=struct("condition accept reject", accept=block, reject=block),
    Switch=struct("selector cases", cases=items(CASE)),
    Loop=struct("body continuing break_if?", body=block, continuing=block),
    Return=struct("value?"),
    ControlBarrier=BARRIER,
    MemoryBarrier=BARRIER,
    Store=struct("pointer value"),
    ImageStore=struct("image coordinate array_index? value"),
    Atomic=struct("pointer fun value result", fun=ATOMIC),
    ImageAtomic=struct("image coordinate array_index? fun value", fun=ATOMIC),
    WorkGroupUniformLoad=struct("pointer result"),
    Call=struct("function arguments result?", arguments=items(handle)),
    RayQuery=struct("query fun", fun=RAY_QUERY),
    RayPipelineFunction=enum(TraceRay=struct("acceleration_structure descriptor payload")),
    SubgroupBallot=struct("result predicate?"),
    SubgroupGather=struct("mode argument result", mode=GATHER),
    SubgroupCollectiveOperation=struct("op collective_op argument result", **COLLECTIVE),
    CooperativeStore=struct("target data", data=DATA),
)


def types(value, at):
    """Reads the types, of which no two are equal."""
    found, seen = items(TYPE)(value, at), set()
    for index, it in enumerate(found if isinstance(found, tuple) else ()):
        if it in seen:
            at.item(index).refuse("a type that stands once")
        seen.add(it)
    return found


def named_expressions(value, at):
    """Reads names of expressions, whose keys are handles, each of which stands once."""
    if not isinstance(value, Object):
        return at.refuse("an object")
    seen = set()
    for key, name in value:
        if not is_integer(key, 0, GREATEST_HANDLE):
            at.refuse("keys that are handles")
        elif key in seen:
            at.field(key).refuse("a key that stands once")
        else:
            string(name, at.field(key))
        seen.add(key)
    return None


SHAPE = struct("size? scalar", size=SIZE, scalar=SCALAR)
PREDECLARED = enum(ModfResult=SHAPE, FrexpResult=SHAPE, AtomicCompareExchangeWeakResult=SCALAR)


def predeclared_type(value, at):
    """Reads a pair of the key and the handle of a predeclared type, and returns the key."""
    if type(value) is not list or len(value) != 2:
        return at.refuse("an array of 2 items")
    handle(value[1], at.item(1))
    return PREDECLARED(value[0], at.item(0))


def predeclared_types(value, at):
    """Reads predeclared types: pairs, whose keys stand once, or the object that naga prints if there are none."""
    if isinstance(value, Object) and not value:
        return None
    found, seen = items(predeclared_type)(value, at), set()
    for index, it in enumerate(found if isinstance(found, tuple) else ()):
        if it in seen:
            at.item(index).item(0).refuse("a key that stands once")
        seen.add(it)
    return None


# The module.
ARGUMENT = struct("name? ty binding?", name=string, binding=BINDING)
RESULT = struct("ty binding?", binding=BINDING)
VARIABLE = struct("name? ty init?", name=string)
FUNCTION = struct(
    "name? arguments result? local_variables expressions named_expressions body diagnostic_filter_leaf?",
    name=string,
    arguments=items(ARGUMENT),
    result=RESULT,
    local_variables=items(VARIABLE),
    expressions=items(EXPRESSION),
    named_expressions=named_expressions,
    body=block,
)
ENTRY_POINT = struct("name stage function", name=string, stage=enum("Vertex Fragment Compute Mesh Task"), function=FUNCTION)
RULE = enum(Standard=enum("DerivativeUniformity"), Unknown=string, User=items(string, 2))
FILTER = struct("new_severity triggering_rule", new_severity=enum("Off Info Warning Error"), triggering_rule=RULE)
MODULE = struct(
    """types special_types constants overrides global_variables global_expressions functions entry_points diagnostic_filters""",
    types=types,
    special_types=struct("ray_intersection? ray_vertex_return? predeclared_types", predeclared_types=predeclared_types),
    constants=items(struct("name? ty init", name=string)),
    overrides=items(beside(VARIABLE, IDENTIFIED)),
    global_variables=items(beside(struct("name? space ty init?", name=string, space=SPACE), BOUND)),
    global_expressions=items(EXPRESSION),
    functions=items(FUNCTION),
    entry_points=items(beside(ENTRY_POINT, SIZED)),
    diagnostic_filters=items(struct("inner parent?", inner=FILTER)),
)


def read(text):
    """Returns each path at which a text is no module, and what is wanted there: none if it is one. Raises NotJson."""
    refused = []
    MODULE(value_of(text), Place("", refused))
    return refused
