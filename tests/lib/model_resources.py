"""Computes the resources of a module, from its JSON and the answer of naga's own code: the member `resources` and the lists of the text.

The names of types are those of WGSL, written out here a second time, and so are the rules by which the text shows names.
"""
import json
import re

from compare_info import variant

SIZES = {"Bi": 2, "Tri": 3, "Quad": 4, "Eight": 8, "Sixteen": 16}
DIMENSIONS = {"D1": "1d", "D2": "2d", "D3": "3d", "Cube": "cube"}
SPACES = {"WorkGroup": "workgroup", "TaskPayload": "task_payload", "RayPayload": "ray_payload"}
SPACES |= {"IncomingRayPayload": "incoming_ray_payload"}
MAX_LEVELS = 16
# The text shows so many types one within another, and so many columns of a name.
MAX_NESTED, MAX_COLUMNS = 4, 40
# The characters of names that the text escapes: those that quote, and those that can't be seen.
ESCAPED = re.compile(
    "[\"\\\\`\x00-\x20\x7f-\xa0\xad\u061c\u115f\u1160\u1680\u17b4\u17b5\u180b-\u180f\u2000-\u200f\u2028-\u202f\u205f-\u206f\u2800"
    "\u3000\u3164\ufe00-\ufe0f\ufeff\uffa0\ufff0-\uffff\U000e0000-\U000e0fff]"
)
ESCAPES = {"\n": "\\n", "\r": "\\r", "\t": "\\t", '"': '\\"', "\\": "\\\\"}
# The built-in values and the ways to interpolate that have a word in WGSL or in naga's extensions. Of others the text shows naga's name.
WORDED = set(
    "VertexIndex InstanceIndex ClipDistance Position FrontFacing FragDepth PrimitiveIndex SampleIndex SampleMask LocalInvocationId "
    "LocalInvocationIndex GlobalInvocationId WorkGroupId NumWorkGroups SubgroupInvocationId SubgroupSize SubgroupId NumSubgroups ViewIndex "
    "Barycentric MeshTaskSize CullPrimitive PointIndex LineIndices TriangleIndices VertexCount Vertices PrimitiveCount Primitives".split()
)
FLOWS = set("Perspective Linear Flat PerVertex Center Centroid Sample First Either".split())
UNRULY = {"work_group_id": "workgroup_id", "num_work_groups": "num_workgroups", "clip_distance": "clip_distances"}


def scalar(given):
    """Returns the name of a scalar."""
    letters = {"Sint": "i", "Uint": "u", "Float": "f"}
    kind = given["kind"]
    return f"{letters[kind]}{8 * given['width']}" if kind in letters else {"Bool": "bool"}.get(kind, kind)


def sized(size, given):
    """Returns the name of a vector, or of a scalar if there is no size."""
    return f"vec{SIZES[size]}<{scalar(given)}>" if size else scalar(given)


def access(flags):
    """Returns the access mode of flags."""
    have = set(flags.split(" | "))
    return "atomic" if "ATOMIC" in have else "read_write" if {"LOAD", "STORE"} <= have else "write" if "STORE" in have else "read"


def space(given):
    """Returns the name of an address space, and its access mode or None."""
    name, data = variant(given)
    return SPACES.get(name, name.lower()), access(data["access"]) if data else None


def image(given):
    """Returns the name of an image's type."""
    dim = DIMENSIONS[given["dim"]] + ("_array" if given["arrayed"] else "")
    name, data = variant(given["class"])
    multi = "multisampled_" if data and data.get("multi") else ""
    if name == "Sampled":
        return f"texture_{multi}{dim}<{scalar({'kind': data['kind'], 'width': 4})}>"
    if name == "Storage":
        return f"texture_storage_{dim}<{data['format'].lower()}, {access(data['access'])}>"
    return f"texture_depth_{multi}{dim}" if name == "Depth" else "texture_external"


class Resources:
    """Computes the resources of a module, given naga's answer to it."""

    def __init__(self, module, answer):
        self.module, self.answer = module, answer

    def count(self, size):
        """Returns the size of an array as it follows the name of the base."""
        name, held = variant(size)
        if name == "Dynamic":
            return ""
        given = self.module["overrides"][held].get("name") if name == "Pending" else held
        return f", {f'#{held}' if given is None else given}"

    def built(self, ty, inner, levels):
        """Returns the name of a type that is built from others, so many levels deep."""
        name, data = variant(inner)
        if name in ("Pointer", "Array", "BindingArray"):
            base = self.words(data["base"], levels - 1)
        if name in ("Scalar", "Atomic"):
            return scalar(data) if name == "Scalar" else f"atomic<{scalar(data)}>"
        if name == "Vector":
            return sized(data["size"], data["scalar"])
        if name in ("Matrix", "CooperativeMatrix"):
            many = f"{SIZES[data['columns']]}x{SIZES[data['rows']]}"
            of = scalar(data["scalar"])
            return f"mat{many}<{of}>" if name == "Matrix" else f"coop_mat{many}<{of}, {data['role']}>"
        if name in ("Pointer", "ValuePointer"):
            to = base if name == "Pointer" else sized(data["size"], data["scalar"])
            return f"ptr<{space(data['space'])[0]}, {to}>"
        if name in ("Array", "BindingArray"):
            return f"{'array' if name == 'Array' else 'binding_array'}<{base}{self.count(data['size'])}>"
        if name == "Image":
            return image(data)
        if name == "Sampler":
            return "sampler_comparison" if data["comparison"] else "sampler"
        if name in ("AccelerationStructure", "RayQuery"):
            word = "ray_query" if name == "RayQuery" else "acceleration_structure"
            return word + ("<vertex_return>" if data["vertex_return"] else "")
        return f"#{ty}"

    def words(self, ty, levels=MAX_LEVELS):
        """Returns the name of a type."""
        found = self.module["types"][ty]
        if not levels:
            return f"#{ty}"
        return self.built(ty, found["inner"], levels) if found.get("name") is None else found["name"]

    def typed(self, ty):
        """Returns the two members that name a type."""
        return {"ty": ty, "type": self.words(ty)}

    def members(self, inner):
        """Returns the members of a struct, None for another type."""
        name, data = variant(inner)
        if name != "Struct":
            return None
        return [{"name": it.get("name"), **self.typed(it["ty"]), "offset": it["offset"]} for it in data["members"]]

    def types(self):
        """Yields each type with its layout."""
        for ty, (found, layout) in enumerate(zip(self.module["types"], self.answer["layouts"])):
            stride = found["inner"].get("Array", {}).get("stride")
            yield {"type": self.words(ty), **layout, "stride": stride, "members": self.members(found["inner"])}

    def globals(self):
        """Yields each global variable."""
        for it in self.module["global_variables"]:
            name, mode = space(it["space"])
            bound = it.get("binding") or {"group": None, "binding": None}
            yield {"name": it.get("name"), **bound, "space": name, "access": mode, **self.typed(it["ty"])}

    def default(self, init):
        """Returns the value of an override without another one, None if it has none that JSON can hold."""
        expression = None if init is None else self.module["global_expressions"][init]
        name, literal = variant(expression) if expression is not None else (None, None)
        kind, value = variant(literal) if name == "Literal" else ("F16", None)
        return None if kind == "F16" else value

    def overrides(self):
        """Yields each override."""
        for it in self.module["overrides"]:
            yield {"name": it.get("name"), "id": it.get("id"), **self.typed(it["ty"]), "default": self.default(it.get("init"))}

    def value(self, name, ty, binding):
        """Returns the values with a binding of their own: a value, or each member of a struct."""
        inner = self.module["types"][ty]["inner"]
        if "Struct" in inner:
            return [self.bound(of.get("name"), of["ty"], of.get("binding")) for of in inner["Struct"]["members"]]
        return [self.bound(name, ty, binding)]

    def bound(self, name, ty, binding):
        """Returns one value with its binding."""
        binding = binding or {}
        builtin = variant(binding["BuiltIn"])[0] if "BuiltIn" in binding else None
        keys = ("location", "blend_src", "interpolation", "sampling")
        at = {key: binding.get("Location", {}).get(key) for key in keys}
        return {"name": name, **self.typed(ty), "builtin": builtin, **at}

    def entry(self, it, info):
        """Returns an entry point with its uses, inputs and outputs."""
        function = it["function"]
        names = ("READ", "WRITE", "QUERY", "ATOMIC")
        used = [(at, set(uses.split(" | "))) for at, uses in enumerate(info["global_uses"]) if uses]
        result = function.get("result")
        return {
            "name": it["name"],
            "stage": it["stage"].lower(),
            "workgroup_size": it["workgroup_size"],
            "workgroup_overrides": it.get("workgroup_size_overrides") or [None] * 3,
            "uses": [{"global": at, **{name.lower(): name in uses for name in names}} for at, uses in used],
            "sampled": sorted(info["sampling_set"], key=lambda pair: (pair["image"], pair["sampler"])),
            "inputs": [part for of in function["arguments"] for part in self.value(of.get("name"), of["ty"], of.get("binding"))],
            "outputs": self.value(None, result["ty"], result.get("binding")) if result else [],
        }

    def all(self):
        """Returns the member."""
        infos = self.answer["info"]["entry_points"]
        entries = [self.entry(it, info) for it, info in zip(self.module["entry_points"], infos)]
        used = {use["global"] for entry in entries for use in entry["uses"]}
        bound = [at for at, it in enumerate(self.module["global_variables"]) if it.get("binding")]
        return {
            "types": list(self.types()),
            "globals": list(self.globals()),
            "overrides": list(self.overrides()),
            "entry_points": entries,
            "unused": [at for at in bound if at not in used],
        }


def resources(module, answer):
    """Returns the member `resources` of an answer."""
    return Resources(module, answer).all()


def escape(character):
    """Returns a character of a name as the text shows it."""
    if not ESCAPED.match(character):
        return character
    return ESCAPES.get(character, f"\\u{{{ord(character):x}}}")


def fitting(characters, columns):
    """Returns the first of some characters that fit into so many columns."""
    kept = ""
    for character in characters:
        if len(kept + escape(character)) > columns:
            break
        kept += escape(character)
    return kept


def shown(name):
    """Returns a name as the text shows it."""
    characters = name[: MAX_COLUMNS + 1]
    is_whole = sum(len(escape(character)) for character in characters) <= MAX_COLUMNS
    kept = fitting(characters, MAX_COLUMNS if is_whole else MAX_COLUMNS - 3)
    return (f'"{kept}"' if ESCAPED.search(characters) else kept) + ("" if is_whole else "...")


def item(kind, name, position):
    """Returns the name of an item, or its number."""
    return shown(name) if name else f"{kind}#{position}"


def word(name, known):
    """Returns the word for a name of naga's, if the name is one of the known ones."""
    small = re.sub("(?<!^)(?=[A-Z])", "_", name).lower()
    return UNRULY.get(small, small) if name in known else shown(name)


def columns(rows):
    """Returns lines of two columns, of which the second may be empty."""
    width = max((len(first) for first, second in rows if second), default=0)
    return "".join(f"  {first.ljust(width)}  {second}\n" if second else f"  {first}\n" for first, second in rows)


def listed(title, rows):
    """Returns a list behind an empty line and its title, or nothing if it is empty."""
    return f"\n{title}\n{columns(rows)}" if rows else ""


class Lists:
    """Computes the lists on the resources of a module, given the member `resources`."""

    def __init__(self, module, member):
        self.module, self.member = module, member

    def count(self, size):
        """Returns the size of an array as it follows the name of the base."""
        name, held = variant(size)
        if name == "Dynamic":
            return ""
        return f", {item('override', self.module['overrides'][held].get('name'), held) if name == 'Pending' else held}"

    def pointer(self, base, given):
        """Returns the name of a pointer type."""
        name, mode = space(given)
        return f"ptr<{name}, {base}{f', {mode}' if mode else ''}>"

    def type(self, ty, nested=MAX_NESTED):
        """Returns the name of a type, of which so many are shown one within another."""
        if not nested:
            return "..."
        found = self.module["types"][ty]
        name, data = variant(found["inner"])
        if name == "Struct":
            return item("struct", found.get("name"), ty)
        if name == "Pointer":
            return self.pointer(self.type(data["base"], nested - 1), data["space"])
        if name == "ValuePointer":
            return self.pointer(sized(data["size"], data["scalar"]), data["space"])
        if name in ("Array", "BindingArray"):
            return f"{'array' if name == 'Array' else 'binding_array'}<{self.type(data['base'], nested - 1)}{self.count(data['size'])}>"
        return Resources(self.module, None).built(ty, found["inner"], 1)

    def declared(self, position):
        """Returns a global variable as it is declared."""
        it = self.member["globals"][position]
        bound = "" if it["group"] is None else f"@group({it['group']}) @binding({it['binding']}) "
        brackets = "" if it["space"] == "handle" else f"<{it['space']}{', ' + it['access'] if it['access'] else ''}>"
        return f"{bound}var{brackets} {item('global', it['name'], position)}: {self.type(it['ty'])}"

    def room(self, it):
        """Returns the size and the alignment of a global variable."""
        ty, inner = self.member["types"][it["ty"]], self.module["types"][it["ty"]]["inner"]
        if it["space"] == "handle":
            return ""
        is_open = "Array" in inner and inner["Array"]["size"] == "Dynamic"
        size = f"{ty['stride']} bytes an element" if is_open else f"{ty['size']} bytes"
        return f"{size}, align {ty['alignment']}"

    def override(self, position, it):
        """Returns an override as it is declared."""
        attribute = "" if it["id"] is None else f"@id({it['id']}) "
        has_value = self.module["overrides"][position].get("init") is not None
        value = "..." if it["default"] is None else shown(json.dumps(it["default"]))
        rest = f" = {value}" if has_value else ""
        return f"{attribute}override {item('override', it['name'], position)}: {self.type(it['ty'])}{rest}"

    def values(self, way, values, names):
        """Yields the rows of inputs or outputs."""
        for of, name in zip(values, names, strict=True):
            line = f"@builtin({word(of['builtin'], WORDED)}) " if of["builtin"] else ""
            line += "".join(f"@{key}({of[key]}) " for key in ("location", "blend_src") if of[key] is not None)
            flow = ", ".join(word(of[key], FLOWS) for key in ("interpolation", "sampling") if of[key])
            yield f"{way} {line}{name}{self.type(of['ty'])}", flow

    def names(self, ty, name):
        """Returns what stands in front of the types of the values that a value of this type is bound as."""
        inner = self.module["types"][ty]["inner"]
        if "Struct" not in inner:
            return [name]
        return [f"{item('member', of.get('name'), index)}: " for index, of in enumerate(inner["Struct"]["members"])]

    def entry(self, it, of):
        """Returns the list on an entry point."""
        function, result = of["function"], of["function"].get("result")
        names = [self.names(at["ty"], f"{item('argument', at.get('name'), index)}: ") for index, at in enumerate(function["arguments"])]
        rows = list(self.values("in ", it["inputs"], [name for part in names for name in part]))
        rows += self.values("out", it["outputs"], self.names(result["ty"], "") if result else [])
        return listed(f"inputs and outputs of {it['stage']} entry point `{shown(it['name'])}`", rows)

    def all(self):
        """Returns the lists."""
        variables = [(self.declared(position), self.room(it)) for position, it in enumerate(self.member["globals"])]
        overrides = [(self.override(position, it), "") for position, it in enumerate(self.member["overrides"])]
        points = zip(self.member["entry_points"], self.module["entry_points"], strict=True)
        unused = [(self.declared(position), "") for position in self.member["unused"]]
        entries = "".join(self.entry(it, of) for it, of in points)
        return listed("global variables", variables) + listed("overrides", overrides) + entries + listed("used by no entry point", unused)


def lists(module, answer):
    """Returns the lists on the resources of a module."""
    return Lists(module, resources(module, answer)).all()
