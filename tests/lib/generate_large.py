"""Makes modules with more items, a longer name or more levels than the samples have, which are accepted, and one with more errors."""
from generate_names import U32, function_of, module_of

# A module has so many items of a kind, more than eight bits can count, and a name so many bytes.
ITEMS, NAME_BYTES = 300, 100_000
# The most levels of arrays and objects that a text may have. The body of a function is at level 4, and a block in it adds two.
LEVELS, LEVELS_AROUND_BODY, LEVELS_OF_BLOCK = 128, 4, 2

# So many violated needs of uniform control flow, of which the first ones are told with their causes.
NEEDS, MOST_EXPLAINED = 101, 100
F32, BOOL = ({"inner": {"Scalar": {"kind": kind, "width": width}}} for kind, width in (("Float", 4), ("Bool", 1)))

RULE = {"Standard": "DerivativeUniformity"}
# For each list of a module the item at an index.
ITEM_AT = {
    "types": lambda at: {"inner": {"Array": {"base": 0, "size": {"Constant": at}, "stride": 4}}} if at else U32,
    "constants": lambda at: {"name": f"c{at}", "ty": 0, "init": 0},
    "overrides": lambda at: {"name": f"o{at}", "id": at, "ty": 0, "init": 0},
    "global_variables": lambda at: {"name": f"g{at}", "space": "Private", "ty": 0},
    "global_expressions": lambda at: {"Literal": {"U32": at}},
    "functions": lambda at: function_of([]) | {"name": f"f{at}"},
    "entry_points": lambda at: {"name": f"e{at}", "stage": "Compute", "function": function_of([])},
    "diagnostic_filters": lambda at: {"inner": {"new_severity": "Off", "triggering_rule": RULE}, "parent": at - 1 if at else None},
}


def nested(levels):
    """Returns arrays in one another."""
    held = []
    for _ in range(levels - 1):
        held = [held]
    return held


def body(levels):
    """Returns blocks in one another, of which the innermost has no statement."""
    held = []
    for _ in range((levels - 1) // LEVELS_OF_BLOCK):
        held = [{"Block": held}]
    return held


def accepted():
    """Yields each module with a name."""
    least = {"types": [U32], "global_expressions": [ITEM_AT["global_expressions"](0)]}
    for kind, item_at in ITEM_AT.items():
        yield f"{ITEMS} {kind}", module_of(**least | {kind: [item_at(at) for at in range(ITEMS)]})
    yield f"a name of {NAME_BYTES} bytes", module_of(functions=[function_of([]) | {"name": "n" * NAME_BYTES}])
    yield f"{LEVELS} levels", module_of(functions=[function_of([]) | {"body": body(LEVELS - LEVELS_AROUND_BODY + 1)}])
    yield f"{LEVELS} levels in a member that isn't read", module_of(unread=nested(LEVELS - 1))


def refused():
    """Returns a module with many derivatives in control flow that depends on an input."""
    derivatives = [{"Derivative": {"axis": "X", "ctrl": "None", "expr": 0}} for _ in range(NEEDS)]
    condition = [{"FunctionArgument": 0}, {"Literal": {"F32": 0.5}}, {"Binary": {"op": "Greater", "left": 0, "right": 1}}]
    computed = [{"Emit": {"start": at, "end": at + 1}} for at in range(len(condition), len(condition) + NEEDS)]
    place = {"location": 0, "interpolation": "Perspective", "sampling": "Center", "blend_src": None, "per_primitive": False}
    function = function_of([*condition, *derivatives]) | {
        "arguments": [{"name": "x", "ty": 0, "binding": {"Location": place}}],
        "body": [{"Emit": {"start": 2, "end": 3}}, {"If": {"condition": 2, "accept": computed, "reject": []}}],
    }
    return module_of(types=[F32, BOOL], entry_points=[{"name": "main", "stage": "Fragment", "function": function}])
