"""Reads types as words, such as array<vec3<f32>,4>, into the JSON of naga's types (tests/data/rows/README.md)."""
import re

SIZES = {2: "Bi", 3: "Tri", 4: "Quad", 8: "Eight", 16: "Sixteen"}
KINDS = {
    "sint": "Sint", "uint": "Uint", "float": "Float", "bool": "Bool", "abstract_int": "AbstractInt", "abstract_float": "AbstractFloat",
}  # fmt: skip
SCALARS = {f"{letter}{width * 8}": (kind, width) for letter, kind in (("u", "Uint"), ("i", "Sint")) for width in (2, 4, 8)}
SCALARS |= {f"f{width * 8}": ("Float", width) for width in (2, 4, 8)}
SCALARS |= {"bool": ("Bool", 1), "AbstractInt": ("AbstractInt", 8), "AbstractFloat": ("AbstractFloat", 8)}
SPACES = {
    "function": "Function", "private": "Private", "workgroup": "WorkGroup", "uniform": "Uniform", "handle": "Handle",
    "immediate": "Immediate", "task_payload": "TaskPayload", "ray_payload": "RayPayload", "incoming_ray_payload": "IncomingRayPayload",
}  # fmt: skip
ACCESSES = {"read": "LOAD", "write": "STORE", "read_write": "LOAD | STORE", "atomic": "LOAD | STORE | ATOMIC"}
IMAGE = re.compile(r"texture_(?:(?P<class>(?:depth_)?multisampled|depth|storage|external)_)?(?P<dim>1d|2d|3d|cube)(?P<arrayed>_array)?")
FORMAT = re.compile(r"(\w+?)([us]norm|[us]int|u?float)")
# Built-ins that are objects in naga's JSON.
BUILTINS = {"Position": {"Position": {"invariant": False}}, "Barycentric": {"Barycentric": {"perspective": True}}}


class TextError(Exception):
    """Reports a text that isn't one of this language."""


def need(condition, what):
    if not condition:
        raise TextError(what)


def number(word):
    need(word.isdecimal(), f"{word} is no number")
    return int(word)


def split(text, mark=","):
    """Returns the parts of a text between marks outside of all brackets."""
    parts, depth = [""], 0
    for letter in text:
        depth += (letter in "<{") - (letter in ">}")
        if letter == mark and depth == 0:
            parts.append("")
        else:
            parts[-1] += letter
    return parts if text else []


def scalar(word):
    if word in SCALARS:
        kind, width = SCALARS[word]
    else:
        given = re.fullmatch(r"scalar<(\w+),(\d+)>", word)
        need(given and given[1] in KINDS, f"{word} is no scalar")
        kind, width = KINDS[given[1]], int(given[2])
    return {"kind": kind, "width": width}


def flags(word):
    """Returns the flags A | B from +A+B."""
    need(word.startswith("+"), f"{word} isn't of flags")
    return " | ".join(word[1:].split("+")) if word != "+" else ""


def access(word):
    return ACCESSES[word] if word in ACCESSES else flags(word)


def space(word, flag_words):
    if word == "storage":
        return {"Storage": {"access": access(flag_words[0]) if flag_words else "LOAD | STORE"}}
    need(word in SPACES and not flag_words, f"{word} is no address space")
    return SPACES[word]


def binding(word):
    """Returns a binding from @location3 or @Position, without its first letter."""
    located = re.fullmatch(r"location(\d+)", word)
    return {"Location": {"location": int(located[1])}} if located else {"BuiltIn": BUILTINS.get(word, word)}


def storage_format(word):
    """Returns the name of a storage format, as Rgba8Sint, from its lower-case letters."""
    found = FORMAT.fullmatch(word)
    need(found, f"{word} is no storage format")
    return "".join(it.capitalize() for it in found.groups())


def image(word, given):
    """Returns the image of this name, with the text between its brackets."""
    if word == "texture_external":
        return {"Image": {"dim": "D2", "arrayed": False, "class": "External"}}
    found = IMAGE.fullmatch(word)
    need(found, f"{word} is no type")
    kind = found["class"] or ""
    if kind == "storage":
        form = {"Storage": {"format": storage_format(given[0]), "access": access(given[1])}}
    elif kind == "external":
        form = "External"
    elif kind.startswith("depth"):
        form = {"Depth": {"multi": kind.endswith("multisampled")}}
    else:
        form = {"Sampled": {"kind": scalar(given[0])["kind"], "multi": kind == "multisampled"}}
    dim = found["dim"].capitalize() if found["dim"] == "cube" else found["dim"][::-1].upper()
    return {"Image": {"dim": dim, "arrayed": bool(found["arrayed"]), "class": form}}


def values(word, given):
    """Returns a type over scalars alone, a sampler, an acceleration structure or a ray query, None for any other type."""
    matrix = re.fullmatch(r"(coop_)?mat(\d+)x(\d+)", word)
    if matrix:
        columns, rows = (SIZES[int(it)] for it in matrix.groups()[1:])
        fields = {"columns": columns, "rows": rows, "scalar": scalar(given[0])}
        return {"CooperativeMatrix": {**fields, "role": given[1].upper()}} if matrix[1] else {"Matrix": fields}
    if re.fullmatch(r"vec[234]", word):
        return {"Vector": {"size": SIZES[int(word[3])], "scalar": scalar(given[0])}}
    if word in ("sampler", "sampler_comparison"):
        return {"Sampler": {"comparison": word != "sampler"}}
    if word in ("acceleration_structure", "ray_query"):
        name = "RayQuery" if word == "ray_query" else "AccelerationStructure"
        return {name: {"vertex_return": given == ["vertex_return"]}}
    return {"Atomic": scalar(given[0])} if word == "atomic" else None


def value_pointer(where, pointed, *flag_words):
    vector = values(*parts(pointed)) if pointed.startswith("vec") else None
    size, held = (vector["Vector"]["size"], vector["Vector"]["scalar"]) if vector else (None, scalar(pointed))
    return {"ValuePointer": {"size": size, "scalar": held, "space": space(where, flag_words)}}


def parts(text):
    """Returns the name of a type and the text between its brackets."""
    name, opened, inside = text.partition("<")
    need(not opened or inside.endswith(">"), f"{text} lacks its end")
    return name, split(inside[:-1])


def up(size, alignment):
    return -(-size // alignment) * alignment


class Types:
    """Holds the types of a module, in order, to which each text that is read adds the types that it needs."""

    def __init__(self):
        self.items = []

    def layout(self, handle):
        """Returns the size and the alignment of a type, 0 and 1 if it has none."""
        (kind, held), = self.items[handle]["inner"].items() if handle < len(self.items) else ((None, None),)
        if kind in ("Scalar", "Atomic"):
            return held["width"], held["width"]
        if kind in ("Vector", "Matrix"):
            sizes = {name: size for size, name in SIZES.items()}
            rows, width = sizes[held.get("rows", held.get("size"))], held["scalar"]["width"]
            alignment = up(rows, 2) * width
            return (sizes[held["columns"]] * alignment if kind == "Matrix" else rows * width), alignment
        if kind == "Array":
            size = held["size"]["Constant"] if isinstance(held["size"], dict) and "Constant" in held["size"] else 1
            return size * held["stride"], self.layout(held["base"])[1]
        if kind == "Struct":
            return held["span"], max([self.layout(it["ty"])[1] for it in held["members"]], default=1)
        return 0, 1

    def array(self, name, base, *rest):
        counted = [it for it in rest if not it.startswith("stride")]
        strides = [number(it.removeprefix("stride")) for it in rest if it.startswith("stride")]
        size = "Dynamic"
        if counted:
            pending = counted[0].startswith("override")
            size = {"Pending": number(counted[0].removeprefix("override"))} if pending else {"Constant": number(counted[0])}
        handle = self.mentioned(base)
        if name == "binding_array":
            return {"BindingArray": {"base": handle, "size": size}}
        size_of, alignment = self.layout(handle)
        return {"Array": {"base": handle, "size": size, "stride": strides[0] if strides else up(size_of, alignment or 1)}}

    def member(self, text):
        found = re.fullmatch(r"(?:(\w+):)?(.+?)@(\d+)(?:@(\w+))?", text)
        need(found, f"{text} is no member")
        name, ty, offset, bound = found.groups()
        return {"name": name, "ty": self.mentioned(ty), "binding": binding(bound) if bound else None, "offset": int(offset)}

    def struct(self, text):
        members, span = split(text.removeprefix("struct{").removesuffix("}"), ";")
        return {"Struct": {"members": [self.member(it) for it in split(members)], "span": number(span)}}

    def inner(self, text):
        """Returns the type of a text, after adding the types that it names."""
        if text.startswith("struct{"):
            return self.struct(text)
        if text in SCALARS or text.startswith("scalar<"):
            return {"Scalar": scalar(text)}
        name, given = parts(text)
        if name == "ptr":
            return {"Pointer": {"base": self.mentioned(given[1]), "space": space(given[0], given[2:])}}
        if name == "value_ptr":
            return value_pointer(*given)
        if name in ("array", "binding_array"):
            return self.array(name, *given)
        return values(name, given) or image(name, given)

    def declare(self, text, name):
        self.items.append({"name": name, "inner": self.inner(text)})

    def mentioned(self, text):
        """Returns the handle of the type of a text, which is added if it isn't there."""
        if text.isdecimal():
            return int(text)
        if text.startswith("#"):
            if text[1:].isdecimal():
                return int(text[1:])
            return [at for at, it in enumerate(self.items) if it["name"] == text[1:]][0]
        inner = self.inner(text)
        for handle, item in enumerate(self.items):
            if item["inner"] == inner:
                return handle
        self.items.append({"name": None, "inner": inner})
        return len(self.items) - 1
