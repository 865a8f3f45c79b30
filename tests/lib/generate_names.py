"""Makes modules as JSON for the names of built-in functions, operators and storage formats, each with the answer by the written rules."""

FLOATS, INTEGERS = ("Unorm", "Snorm", "Float"), ("Uint", "Sint")
# All storage formats.
FORMATS = [f"{channels}8{kind}" for channels in ("R", "Rg", "Rgba") for kind in ("Unorm", "Snorm", *INTEGERS)]
FORMATS += [f"{channels}16{kind}" for channels in ("R", "Rg", "Rgba") for kind in (*FLOATS, *INTEGERS)]
FORMATS += [f"{channels}32{kind}" for channels in ("R", "Rg", "Rgba") for kind in ("Float", *INTEGERS)]
FORMATS += ["Bgra8Unorm", "Rgb10a2Unorm", "Rgb10a2Uint", "Rg11b10Ufloat", "R64Uint"]
# Operators that take no array, and that a refusal names if they are given one.
COMPARISONS = ["Equal", "NotEqual", "Less", "LessEqual", "Greater", "GreaterEqual"]
OPERATORS = [*COMPARISONS, "LogicalAnd", "LogicalOr", "Multiply"]
RELATIONAL = ["IsNan", "IsInf"]

U32 = {"inner": {"Scalar": {"kind": "Uint", "width": 4}}}
ARRAY = {"inner": {"Array": {"base": 0, "size": {"Constant": 4}, "stride": 4}}}
TRUE = {"Literal": {"Bool": True}}


def module_of(**fields):
    """Returns a module that is empty except for these fields."""
    lists = ("types", "constants", "overrides", "global_variables", "global_expressions", "functions", "entry_points", "diagnostic_filters")
    return {**{name: [] for name in lists}, "special_types": {"predeclared_types": {}}, **fields}


def function_of(expressions):
    """Returns a function with these expressions and an empty body."""
    return {"arguments": [], "local_variables": [], "expressions": expressions, "named_expressions": {}, "body": []}


def refusal_of(error, name):
    """Returns the refusal of expression 1 of function 0 for operands that its operation doesn't take, by the operation's name."""
    return {"place": {"Function": 0}, "cause": {"Expression": {"handle": 1, "error": {"ResolveError": {error: name}}}}}


def refused(functions):
    """Yields operations that none of their operands fit, each by its name, its module and its refusal: no function takes a bool."""
    for name in functions:
        call = {"Math": {"fun": name, "arg": 0}}
        yield name, module_of(functions=[function_of([TRUE, call])]), refusal_of("BuiltinArgumentsInvalid", name)
    on_array = [(name, {"Binary": {"op": name, "left": 0, "right": 0}}) for name in OPERATORS]
    on_array += [(name, {"Relational": {"fun": name, "argument": 0}}) for name in RELATIONAL]
    for name, operation in on_array:
        function = function_of([{"ZeroValue": 1}, operation])
        yield name, module_of(types=[U32, ARRAY], functions=[function]), refusal_of("IncompatibleOperands", name)


def scalar_of(name):
    """Returns the scalar of a texel of the storage format."""
    kind = next((kind for kind in INTEGERS if name.endswith(kind)), "Float")
    return {"kind": kind, "width": 8 if name == "R64Uint" else 4}


def loads():
    """Returns a module that loads from an image of each storage format, and of each load its name, its expression and its type."""
    images = [{"Image": {"dim": "D1", "arrayed": False, "class": {"Storage": {"format": name, "access": "LOAD"}}}} for name in FORMATS]
    expressions, wanted = [{"Literal": {"I32": 0}}], []
    for place, name in enumerate(FORMATS):
        image = len(expressions)
        expressions += [{"GlobalVariable": place}, {"ImageLoad": {"image": image, "coordinate": 0}}]
        wanted.append((name, image + 1, {"Value": {"Vector": {"size": "Quad", "scalar": scalar_of(name)}}}))
    types = [{"inner": image} for image in images]
    variables = [{"space": "Handle", "ty": place} for place in range(len(FORMATS))]
    return module_of(types=types, global_variables=variables, functions=[function_of(expressions)]), wanted


def logical():
    """Returns a module with the operations that make a bool of two, and of each its name, its expression and its type."""
    operations = [{"Binary": {"op": name, "left": 0, "right": 0}} for name in ("LogicalAnd", "LogicalOr")]
    wanted = {"Value": {"Scalar": {"kind": "Bool", "width": 1}}}
    module = module_of(functions=[function_of([TRUE, *operations])])
    return module, [("LogicalAnd of bools", 1, wanted), ("LogicalOr of bools", 2, wanted)]
