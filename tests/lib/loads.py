"""Makes the loads of scripts/measure_calls: modules as JSON and calls of built-in functions, each of a given size.

Expressions come in groups of ten: a float, a vector of it, and operations on these. The mixes differ in the last two of a group.
"""
import json

FLOAT, UINT = ({"kind": kind, "width": 4} for kind in ("Float", "Uint"))
ABSTRACT = [{"kind": kind, "width": 8} for kind in ("AbstractFloat", "AbstractInt")]
GROUP = 10


def binary(op, left, right):
    """Returns an operation on two expressions."""
    return {"Binary": {"op": op, "left": left, "right": right}}


def math(fun, first, second):
    """Returns a call of a built-in function on two expressions."""
    return {"Math": {"fun": fun, "arg": first, "arg1": second, "arg2": None, "arg3": None}}


# The last two expressions of a group in each mix: no built-in functions, two with regular sets, and one with a list of overloads too.
LAST = {
    "without_builtins": lambda at: [{"Relational": {"fun": "All", "argument": at + 4}}, binary("Multiply", at, at + 1)],
    "without_lists": lambda at: [math("Max", at + 1, at + 2), math("Pow", at + 2, at + 1)],
    "all": lambda at: [math("Max", at + 1, at + 2), math("Mix", at + 1, at + 2)],
}


def group(mix, at):
    """Returns the ten expressions of a group whose first has this handle."""
    scalar, vector, total, test = at, at + 1, at + 2, at + 4
    return [
        {"Literal": {"F32": 0}},
        {"Splat": {"size": "Quad", "value": scalar}},
        binary("Add", vector, vector),
        {"Swizzle": {"size": "Bi", "vector": total, "pattern": ["X", "Y", "X", "X"]}},
        binary("Less", vector, total),
        {"Select": {"condition": test, "accept": vector, "reject": total}},
        {"AccessIndex": {"base": total, "index": 2}},
        {"As": {"expr": vector, "kind": "Sint", "convert": 4}},
        *LAST[mix](at),
    ]


def function(expressions, body, arguments=(), result=None):
    """Returns a function; each argument and the result is the handle of a type."""
    return {
        "arguments": [{"ty": it} for it in arguments],
        "result": None if result is None else {"ty": result},
        "local_variables": [],
        "expressions": expressions,
        "named_expressions": {},
        "body": body,
    }


def module(functions=(), types=(), global_variables=(), diagnostic_filters=()):
    """Returns a module as text."""
    empty = {name: [] for name in ("constants", "overrides", "global_expressions", "entry_points")}
    return json.dumps(
        {
            "types": [{"inner": it} for it in types],
            "special_types": {"predeclared_types": {}},
            "global_variables": list(global_variables),
            "functions": list(functions),
            "diagnostic_filters": list(diagnostic_filters),
            **empty,
        }
    )


def emits(count):
    """Returns a body that emits so many expressions in groups, every second group in a block of its own."""
    body = []
    for at in range(0, count, GROUP):
        emit = {"Emit": {"start": at, "end": min(at + GROUP, count)}}
        body.append(emit if at // GROUP % 2 == 0 else {"Block": [emit]})
    return body


def of_expressions(mix, count):
    """Returns a function of so many expressions."""
    expressions = [it for at in range(0, count, GROUP) for it in group(mix, at)][:count]
    return function(expressions, emits(len(expressions)))


def one_function(mix):
    """Returns the maker of a module of one function of a mix."""
    return lambda size: module([of_expressions(mix, size)])


def functions_of(count):
    """Returns the maker of a module of functions with so many expressions each, and with a given number of expressions in all."""
    return lambda size: module([of_expressions("without_lists", count)] * (size // count))


def calls(callee, result=None):
    """Returns a call of a function, whose result is an expression if one is given."""
    return {"Call": {"function": callee, "arguments": [], "result": result}}


def chained_calls(size):
    """Returns a module of functions, each of which returns the sum of a number and of the result of the one before."""
    first = function([{"Literal": {"U32": 1}}], [{"Return": {"value": 0}}], result=0)
    expressions = [{"Literal": {"U32": 1}}, None, binary("Add", 0, 1)]

    def caller(callee):
        body = [calls(callee, 1), {"Emit": {"start": 2, "end": 3}}, {"Return": {"value": 2}}]
        return function([expressions[0], {"CallResult": callee}, expressions[2]], body, result=0)

    return module([first, *(caller(it) for it in range(size - 1))], [{"Scalar": UINT}])


def condition(_size):
    """Returns a module of a function whose first expression is a condition, for blocks that the program nests."""
    return module([function([{"Literal": {"Bool": True}}], [])])


def shares(size):
    """Returns the expressions and the body of so many loads of one local variable, each stored again."""
    expressions = [{"LocalVariable": 0}, {"Literal": {"F32": 0}}, *({"Load": {"pointer": 0}} for _ in range(size))]
    steps = [({"Emit": {"start": it, "end": it + 1}}, {"Store": {"pointer": 0, "value": it}}) for it in range(2, size + 2)]
    return expressions, [{"Store": {"pointer": 0, "value": 1}}, *(step for pair in steps for step in pair)]


def shared_local(size, loops=0):
    """Returns a module of a function with so many loads and stores of one local variable, within so many nested loops of one round each."""
    expressions, body = shares(size)
    for _ in range(loops):
        body = [{"Loop": {"body": [*body, "Break"], "continuing": [], "break_if": None}}]
    local = {"name": None, "ty": 0, "init": None}
    return module([{**function(expressions, body), "local_variables": [local]}], [{"Scalar": FLOAT}])


def looped_local(size):
    return shared_local(size, 30)


def chained_locals(size):
    """Returns a module of so many local variables in a Loop: each gets the value of the next one, and the last gets an argument."""
    variables = [{"LocalVariable": it} for it in range(size)]
    loads = [{"Load": {"pointer": it + 2}} for it in range(size - 1)]
    steps = [({"Emit": {"start": it, "end": it + 1}}, {"Store": {"pointer": it - size, "value": it}}) for it in range(size + 1, 2 * size)]
    body = [*(step for pair in steps for step in pair), {"Store": {"pointer": size, "value": 0}}, "Break"]
    one = function([{"FunctionArgument": 0}, *variables, *loads], [{"Loop": {"body": body, "continuing": [], "break_if": None}}], [0])
    return module([{**one, "local_variables": [{"name": None, "ty": 0, "init": None}] * size}], [{"Scalar": FLOAT}])


def variable(ty, space):
    """Returns a global of a type in a space."""
    return {"space": space, "ty": ty}


def storage(ty):
    """Returns a global of a type in a storage buffer."""
    return variable(ty, {"Storage": {"access": "LOAD | STORE"}})


def globals_by_functions(size):
    """Returns a module of ten times as many globals as functions, of which each reads one, writes another and calls the one before."""

    def one(at):
        expressions = [{"GlobalVariable": 10 * at}, {"GlobalVariable": 10 * at + 5}, {"Load": {"pointer": 0}}]
        body = [{"Emit": {"start": 2, "end": 3}}, {"Store": {"pointer": 1, "value": 2}}]
        return function(expressions, body + [calls(at - 1)] * (at > 0))

    return module([one(it) for it in range(size)], [{"Scalar": UINT}], [storage(0)] * (10 * size))


def globals_by_calls(size):
    """Returns a module of as many globals as calls of one function, which reads the first."""
    callee = function([{"GlobalVariable": 0}, {"Load": {"pointer": 0}}], [{"Emit": {"start": 1, "end": 2}}])
    return module([callee, function([], [calls(0)] * size)], [{"Scalar": UINT}], [storage(0)] * size)


def pairs_up_callers(size):
    """Returns a module in which one function samples about `size` pairs of an image and a sampler, and as many call the one before."""
    side = round(size**0.5)
    images, samplers = list(range(side)), list(range(side, 2 * side))
    coordinate = [{"Literal": {"F32": 0}}, {"Splat": {"size": "Bi", "value": 2 * side}}]
    expressions = [*({"GlobalVariable": it} for it in images + samplers), *coordinate]
    rest = {"gather": None, "array_index": None, "offset": None, "depth_ref": None, "clamp_to_edge": False}
    samples = [
        {"ImageSample": {"image": image, "sampler": sampler, "coordinate": 2 * side + 1, "level": "Zero", **rest}}
        for image in images
        for sampler in samplers
    ]
    first = len(expressions)
    body = [{"Emit": {"start": first - 1, "end": first + len(samples)}}]
    sampling = function(expressions + samples, body)
    image = {"Image": {"dim": "D2", "arrayed": False, "class": {"Sampled": {"kind": "Float", "multi": False}}}}
    variables = [variable(0, "Handle")] * side + [variable(1, "Handle")] * side
    callers = [function([], [calls(it)]) for it in range(size)]
    return module([sampling, *callers], [image, {"Sampler": {"comparison": False}}], variables)


def filters_by_functions(size):
    """Returns a module of a chain of filters of another rule, and as many functions under the last of them."""
    rule = {"User": ["a", "b"]}
    filters = [
        {"inner": {"new_severity": "Off", "triggering_rule": rule}, "parent": None if it == 0 else it - 1} for it in range(size)
    ]
    return module([{**function([], []), "diagnostic_filter_leaf": size - 1}] * size, (), (), filters)


def cases(size):
    """Returns a module with a switch of so many empty cases."""
    each = [{"value": {"U32": it}, "body": [], "fall_through": False} for it in range(size)]
    last = {"value": "Default", "body": [], "fall_through": False}
    return module([function([{"Literal": {"U32": 1}}], [{"Switch": {"selector": 0, "cases": [*each, last]}}])])


def all_types(size):
    """Returns a module of so many types: scalars, vectors and matrices, and pointers, arrays and structs over earlier types."""
    texts, found = set(), []
    for place in range(4 * size):
        inner = type_at(place)
        text = json.dumps(inner)
        if text not in texts and len(found) < size:
            texts.add(text)
            found.append(inner)
    return module(types=found)


def type_at(place):
    """Returns the type of a number, over the type of half that number."""
    base = place // 2
    return [
        {"Scalar": FLOAT},
        {"Vector": {"size": "Quad", "scalar": FLOAT}},
        {"Matrix": {"columns": "Quad", "rows": "Tri", "scalar": FLOAT}},
        {"Pointer": {"base": base, "space": "Function"}},
        {"Array": {"base": base, "size": "Dynamic", "stride": place}},
        {"Array": {"base": base, "size": "Dynamic", "stride": place}},
        {"Struct": {"members": [{"ty": base, "offset": 0}], "span": place}},
        {"Struct": {"members": [{"ty": base, "offset": 0}], "span": place}},
    ][place % 8]


def leaves():
    """Returns a module of types to compare and convert: scalars, and a vector, a matrix and a pointer over each."""
    found = []
    for scalar in (FLOAT, ABSTRACT[0], UINT, ABSTRACT[1]):
        found.append({"Scalar": scalar})
        found.append({"Vector": {"size": "Quad", "scalar": scalar}})
        found.append({"Matrix": {"columns": "Quad", "rows": "Quad", "scalar": scalar}})
        found.append({"ValuePointer": {"size": None, "scalar": scalar, "space": "Function"}})
    return module(types=found)
