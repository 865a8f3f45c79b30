"""Compares the JSON report of a module with the answer of naga's own code.

Two things may differ: which of several causes at the first faulty location is named, and which origin of non-uniformity. The one that is
named must be among those that hold.
"""
import json

# The operands of an expression: fields that hold a handle, an array of them or null.
OPERANDS = {
    "Compose": ["components"], "Access": ["base", "index"], "AccessIndex": ["base"], "Splat": ["value"], "Swizzle": ["vector"],
    "Load": ["pointer"], "ImageSample": ["image", "sampler", "coordinate", "array_index", "offset", "depth_ref"],
    "ImageLoad": ["image", "coordinate", "array_index", "sample", "level"], "ImageQuery": ["image"], "Unary": ["expr"],
    "Binary": ["left", "right"], "Select": ["condition", "accept", "reject"], "Derivative": ["expr"], "Relational": ["argument"],
    "Math": ["arg", "arg1", "arg2", "arg3"], "As": ["expr"], "RayQueryVertexPositions": ["query"],
    "RayQueryGetIntersection": ["query"], "CooperativeMultiplyAdd": ["a", "b", "c"],
}  # fmt: skip
UNIFORM_BUILTINS = ("WorkGroupId", "WorkGroupSize", "NumWorkGroups")
VARYING_SPACES = ("Function", "Private", "RayPayload", "IncomingRayPayload", "Handle")
VARYING_RESULTS = ("LocalVariable", "AtomicResult", "RayQueryProceedResult", "SubgroupBallotResult", "SubgroupOperationResult")


def variant(value):
    """Returns the name and the data of an enum's value."""
    return (value, None) if isinstance(value, str) else next(iter(value.items()))


def operands(expression):
    """Returns the handles of the operands of an expression."""
    name, data = variant(expression)
    if name == "ArrayLength":
        return [data]
    found = []
    for field in OPERANDS.get(name, []):
        held = data.get(field)
        found += held if isinstance(held, list) else [held]
    if name == "ImageSample":
        level, held = variant(data["level"])
        found += [held] if level in ("Exact", "Bias") else [held["x"], held["y"]] if level == "Gradient" else []
    if name == "ImageQuery":
        query, held = variant(data["query"])
        found += [held.get("level")] if query == "Size" else []
    if name == "CooperativeLoad":
        found += [data["data"]["pointer"], data["data"]["stride"]]
    return [it for it in found if it is not None]


def statements(block):
    """Yields the names and the data of the statements at any depth."""
    for statement in block:
        name, data = variant(statement)
        yield name, data
        inner = []
        if name == "Block":
            inner = [data]
        elif name == "If":
            inner = [data["accept"], data["reject"]]
        elif name == "Loop":
            inner = [data["body"], data["continuing"]]
        elif name == "Switch":
            inner = [case["body"] for case in data["cases"]]
        for one in inner:
            yield from statements(one)


def is_source(module, function, name, data):
    """Returns whether the value of the expression may differ among invocations by itself."""
    if name == "FunctionArgument":
        arguments = function["arguments"]
        binding = arguments[data].get("binding") if data < len(arguments) else None
        kind, held = variant(binding) if binding else (None, None)
        return not (kind == "BuiltIn" and held in UNIFORM_BUILTINS)
    if name == "GlobalVariable":
        space, held = variant(module["global_variables"][data]["space"])
        return space in VARYING_SPACES or (space == "Storage" and "STORE" in held["access"])
    return name in VARYING_RESULTS


def origins(module):
    """Returns for each function, then each entry point, the origins of each expression and of the result, as sets of handles."""
    found, reached = [], []
    for place, function in enumerate(module["functions"] + [it["function"] for it in module["entry_points"]]):
        each, own, called = [], set(), {}
        for handle, expression in enumerate(function["expressions"]):
            name, data = variant(expression)
            from_here = set().union(*(each[it] for it in operands(expression)))
            if is_source(module, function, name, data):
                from_here.add((place, handle))
            if name == "CallResult":
                from_here |= found[data][1]
            each.append(from_here)
        for name, data in statements(function["body"]):
            if name == "Return" and data.get("value") is not None:
                own |= each[data["value"]]
            if name == "CooperativeStore":
                own = own.union(*(each[it] for it in (data["target"], data["data"]["pointer"], data["data"]["stride"])))
            if name == "Call":
                called |= reached[data["function"]]
        reached.append({**called, place: own})
        found.append((each, set().union(*reached[place].values())))
    return [([{it for _, it in one} for one in each], {it for _, it in result}) for each, result in found]


def take_origin(found, wanted, possible):
    """Puts the wanted origin in place of the one that was found, if that is a possible one."""
    this, that = found["non_uniform_result"], wanted["non_uniform_result"]
    if this is not None and that is not None and this in possible:
        found["non_uniform_result"] = that


def take_origins(found, wanted, module):
    """Puts the wanted origins of an info in place of the possible ones that were found."""
    locations = [(kind, at) for kind in ("functions", "entry_points") for at in range(len(wanted[kind]))]
    for (kind, at), (each, result) in zip(locations, origins(module)):
        this, that = found[kind][at], wanted[kind][at]
        take_origin(this["uniformity"], that["uniformity"], result)
        for one, other, possible in zip(this["expressions"], that["expressions"], each):
            take_origin(one["uniformity"], other["uniformity"], possible)


def first_difference(found, wanted, path=""):
    """Returns where two values first differ, and how."""
    if isinstance(found, dict) and isinstance(wanted, dict) and list(found) == list(wanted):
        parts = [(f"{path}.{it}", found[it], wanted[it]) for it in wanted]
    elif isinstance(found, list) and isinstance(wanted, list) and len(found) == len(wanted):
        parts = [(f"{path}[{at}]", *it) for at, it in enumerate(zip(found, wanted))]
    else:
        parts = []
    for below, this, that in parts:
        if this != that or json.dumps(this) != json.dumps(that):
            return first_difference(this, that, below)
    return f"{path}: {str(found):.100}, wanted {str(wanted):.100}"


def difference(found, wanted, module, causes):
    """Returns where an answer differs from the wanted one, or None. `causes` are those that hold at the first faulty location."""
    try:
        if "refused" in wanted and found["refused"]["cause"] in (causes or []):
            found["refused"]["cause"] = wanted["refused"]["cause"]
        if "info" in wanted:
            take_origins(found["info"], wanted["info"], module)
    except (KeyError, IndexError, TypeError) as error:
        return f"{type(error).__name__} {error}"
    return None if json.dumps(found) == json.dumps(wanted) else first_difference(found, wanted)
