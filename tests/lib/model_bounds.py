"""Computes the member `bounds` of a JSON report: the indexes of a module that naga's `proc::index` checks, by the types of the analysis.

It has the differences that docs/DIFFERENCES.md lists. Policies are written as on the command line, index=Restrict,buffer=ReadZeroSkipWrite;
a kind that isn't named is Unchecked.
"""
from compare_info import statements, variant

KINDS = ("index", "buffer", "image_load", "binding_array")
ZERO = "ReadZeroSkipWrite"
# One kind alone for each, and some together.
ALONE = [f"{kind}={ZERO}" for kind in KINDS]
POLICIES = [*ALONE, ",".join(ALONE), "index=Restrict,buffer=ReadZeroSkipWrite", ""]
INTEGERS = ("U16", "U32", "U64", "I16", "I32", "I64", "AbstractInt")


def policies_of(words):
    """Returns the policy of each kind."""
    return {**dict.fromkeys(KINDS, "Unchecked"), **dict(it.split("=") for it in words.split(",") if it)}


class Checks:
    """Computes the checks of one function, by the recorded types of its expressions."""

    def __init__(self, module, function, info, policies):
        self.module, self.function, self.policies = module, function, policies
        self.types = [it["ty"] for it in info["expressions"]]

    def inner(self, handle):
        """Returns the inner type of an expression."""
        name, held = variant(self.types[handle])
        return self.module["types"][held]["inner"] if name == "Handle" else held

    def literal(self, expressions, handle):
        """Returns the value of an expression that is a literal index, or None."""
        name, data = variant(expressions[handle])
        kind, value = variant(data) if name == "Literal" else (None, None)
        return value if kind in INTEGERS and 0 <= value < 1 << 32 else None

    def known(self, expressions, handle):
        """Returns the known value of an index: a literal, or that of a constant or an override, None if none is known."""
        name, data = variant(expressions[handle])
        if name in ("Constant", "Override"):
            declared = self.module[f"{name.lower()}s"][data]
            init = declared.get("init")
            return None if init is None else self.literal(self.module["global_expressions"], init)
        return self.literal(expressions, handle)

    def size(self, size):
        """Returns the size of an array, `Dynamic` at run time, None if an override without a value decides it."""
        name, held = variant(size)
        if name == "Pending":
            init = self.module["overrides"][held].get("init")
            return None if init is None else self.known(self.module["global_expressions"], init) or None
        return "Dynamic" if name == "Dynamic" else held

    def own_length(self, inner):
        """Returns the number of elements of a type, None if it has none."""
        name, data = variant(inner)
        if name in ("Vector", "Matrix"):
            return {"Bi": 2, "Tri": 3, "Quad": 4}[data["size" if name == "Vector" else "columns"]]
        return self.size(data["size"]) if name in ("Array", "BindingArray") else None

    def length(self, handle):
        """Returns the number of elements of an expression, or of the value that it points to."""
        name, data = variant(self.inner(handle))
        if name == "Pointer":
            return self.own_length(self.module["types"][data["base"]]["inner"])
        if name == "ValuePointer":
            return {"Bi": 2, "Tri": 3, "Quad": 4}.get(data.get("size"))
        return self.own_length(self.inner(handle))

    def policy(self, base):
        """Returns the policy for accesses to an expression."""
        name, data = variant(self.inner(base))
        if name == "BindingArray":
            return self.policies["binding_array"]
        space = variant(data["space"])[0] if name in ("Pointer", "ValuePointer") else None
        return self.policies["buffer" if space in ("Storage", "Uniform") else "index"]

    def check(self, access):
        """Returns the base, the index, known or an expression, the length and the policy of an access that needs a check, or None."""
        name, data = variant(self.function["expressions"][access])
        if name not in ("Access", "AccessIndex"):
            return None
        base, length = data["base"], self.length(data["base"])
        value = data["index"] if name == "AccessIndex" else self.known(self.function["expressions"], data["index"])
        # A struct has no length.
        if length is None or (value is not None and length != "Dynamic" and value < length):
            return None
        index = {"Known" if name == "AccessIndex" else "Expression": data["index"]}
        return {
            "access": access,
            "base": base,
            "index": index,
            "length": length if length == "Dynamic" else {"Known": length},
            "policy": self.policy(base),
        }

    def checked_indexes(self, accesses):
        """Returns the expressions that are indexes of checked accesses and of image loads."""
        found = {it["index"]["Expression"] for it in accesses if it["policy"] == ZERO and "Expression" in it["index"]}
        for name, data in map(variant, self.function["expressions"]):
            if name == "ImageLoad" and self.policies["image_load"] == ZERO:
                found |= {data.get(it) for it in ("coordinate", "array_index", "sample", "level")} - {None}
        return sorted(found)

    def is_unchecked(self, chain):
        """Returns whether an access on the way to a pointer needs a check."""
        while True:
            name, data = variant(self.function["expressions"][chain])
            if name not in ("Access", "AccessIndex"):
                return False
            if self.check(chain):
                return True
            chain = data["base"]

    def local_types(self):
        """Returns the types for which a back end needs a variable of its own for accesses out of bounds."""
        found = set()
        for name, data in statements(self.function["body"]) if self.policies["index"] == ZERO else ():
            if name == "Call":
                for parameter, argument in zip(self.module["functions"][data["function"]]["arguments"], data["arguments"]):
                    kind, held = variant(self.module["types"][parameter["ty"]]["inner"])
                    found |= {held["base"]} if kind == "Pointer" and self.is_unchecked(argument) else set()
        return sorted(found)

    def all(self):
        """Returns the member of the function."""
        accesses = [it for it in map(self.check, range(len(self.function["expressions"]))) if it]
        found = self.checked_indexes(accesses)
        return {"accesses": accesses, "checked_indexes": found, "oob_local_types": self.local_types()}


def bounds(module, info, words):
    """Returns the member `bounds`, given the member `info` of the answer."""
    policies = policies_of(words)
    sizes = Checks(module, None, {"expressions": []}, policies)
    for it in module["types"]:
        name, data = variant(it["inner"])
        if name in ("Array", "BindingArray") and sizes.size(data["size"]) is None:
            return {"override": variant(data["size"])[1]}
    functions = {"functions": module["functions"], "entry_points": [it["function"] for it in module["entry_points"]]}
    return {
        kind: [Checks(module, f, of, policies).all() for f, of in zip(functions[kind], info[kind])]
        for kind in functions
    }
