"""Typed views of the answers of a report as JSON. The names are naga's; what docs/JSON.md calls a position is an int."""
import dataclasses
import enum
import functools
import json
import types
import typing

from .errors import AnswerError, VersionError

FORMAT = "1"
#: The attributes whose members have names that Python keeps for itself.
RENAMED = {"global_": "global"}
ABSENT = object()


def view(cls):
    """Makes a class a frozen dataclass of keywords."""
    return dataclasses.dataclass(frozen=True, kw_only=True)(cls)


class Outcome(enum.Enum):
    """Whether a module is accepted, and else why not."""

    #: No fault, and a layout for each type.
    ACCEPTED = "accepted"
    #: The only fault is that control flow isn't uniform where it must be, by the rules of WGSL.
    NON_UNIFORM = "non-uniform"
    #: The analysis found a fault, which is `refused`.
    REFUSED = "refused"
    #: A type has no layout, and the analysis found no fault.
    NO_LAYOUT = "no-layout"
    #: The module isn't well formed; `fault` says why.
    ILL_FORMED = "ill-formed"


@view
class Layout:
    """The layout of a type, in bytes. An array whose length is known at run time counts as one element."""

    size: int
    alignment: int


@view
class LayoutError:
    """The first type without a layout, and `NonPowerOfTwoWidth` or `TooLarge`."""

    ty: int
    inner: str


@view
class Location:
    """A place in a module. What doesn't apply is None. `body` is as `{"EntryPoint": 0}`."""

    body: dict | None
    name: str | None = None
    statement: str | None = None
    expression: int | None = None
    text: str | None = None
    type: int | None = None
    pointer: str | None = None
    argument: int | None = None
    path: str | None = None
    line: int | None = None
    column: int | None = None
    byte: int | None = None


@view
class Related:
    """A cause of an error, and where it is."""

    message: str
    location: Location


@view
class Diagnostic:
    """An error of a module or an input. Compare codes: the wording may change in any version."""

    code: str
    name: str
    severity: str
    message: str
    location: Location
    data: dict
    related: list[Related]
    omitted: int
    notes: list[str]
    help: list[str]


@view
class Uniformity:
    """The uniformity of a value, by naga's notion: an expression that makes it differ, or None, and needs as `DERIVATIVE`."""

    non_uniform_result: int | None
    requirements: str


@view
class SamplingKey:
    """A global image, and a global sampler that samples it."""

    image: int
    sampler: int


@view
class Sampling:
    """An image and a sampler, of which one is an argument: `{"Global": position}` or `{"Argument": index}`."""

    image: dict
    sampler: dict


@view
class ExpressionInfo:
    """What is recorded of an expression. `ty` is `{"Handle": position}` or `{"Value": type}`."""

    uniformity: Uniformity
    ref_count: int
    ty: dict


@view
class FunctionInfo:
    """What is recorded of a function or an entry point, with all its calls."""

    available_stages: str
    uniformity: Uniformity
    may_kill: bool
    sampling_set: list[SamplingKey]
    global_uses: list[str]
    expressions: list[ExpressionInfo]
    sampling: list[Sampling]
    dual_source_blending: bool


@view
class ModuleInfo:
    """What the analysis records of a module."""

    functions: list[FunctionInfo]
    entry_points: list[FunctionInfo]
    const_expression_types: list[dict]


@view
class Refusal:
    """The first place with a fault of the analysis, and a fault there, both as in docs/JSON.md."""

    place: dict
    cause: dict


@view
class Access:
    """An access whose index isn't known to be in bounds. `length` is `{"Known": number}` or `Dynamic`."""

    access: int
    base: int
    index: dict
    length: dict | str
    policy: str


@view
class FunctionBounds:
    """What a back end checks in a function or an entry point."""

    accesses: list[Access]
    checked_indexes: list[int]
    oob_local_types: list[int]


@view
class Bounds:
    """What a back end checks of indexes. `override` is one that sizes an array and needs a value; then the lists are None."""

    functions: list[FunctionBounds] | None = None
    entry_points: list[FunctionBounds] | None = None
    override: int | None = None


@view
class Member:
    """A member of a struct."""

    name: str | None
    ty: int
    type: str
    offset: int


@view
class Type:
    """A type with its layout: `stride` of an array, `members` of a struct."""

    type: str
    size: int
    alignment: int
    stride: int | None
    members: list[Member] | None


@view
class Global:
    """A global variable."""

    name: str | None
    ty: int
    type: str
    group: int | None
    binding: int | None
    space: str
    access: str | None


@view
class Override:
    """An override. `default` is a literal as the module spells it."""

    name: str | None
    ty: int
    type: str
    id: int | None
    default: str | None


@view
class Use:
    """How an entry point uses a global."""

    global_: int
    read: bool
    write: bool
    query: bool
    atomic: bool


@view
class InputOrOutput:
    """An input or an output of an entry point."""

    name: str | None
    ty: int
    type: str
    builtin: str | None
    location: int | None
    blend_src: int | None
    interpolation: str | None
    sampling: str | None


@view
class EntryPoint:
    """What an entry point uses, and its inputs and outputs."""

    name: str | None
    stage: str
    workgroup_size: list[int | None]
    workgroup_overrides: list[int | None]
    uses: list[Use]
    sampled: list[SamplingKey]
    inputs: list[InputOrOutput]
    outputs: list[InputOrOutput]


@view
class Resources:
    """What a module declares, and what its entry points use of it."""

    types: list[Type]
    globals: list[Global]
    overrides: list[Override]
    entry_points: list[EntryPoint]
    unused: list[int]


@view
class UniformityVerdict:
    """Whether control flow is uniform where it must be by the rules of WGSL, and else the first place where it isn't."""

    accepted: bool
    place: dict | None = None


@view
class Report:
    """The report on a module. What the module or the options don't give is None. `text` is the JSON from which all was read."""

    version: str
    verdict: str
    diagnostics: list[Diagnostic]
    uniformity_verdict: UniformityVerdict | None = None
    layouts: list[Layout] | None = None
    layout_error: LayoutError | None = None
    info: ModuleInfo | None = None
    refused: Refusal | None = None
    bounds: Bounds | None = None
    resources: Resources | None = None
    fault: str | None = None
    text: bytes = b""

    @property
    def is_accepted(self):
        """Whether the module has no fault and each type has a layout."""
        return self.outcome is Outcome.ACCEPTED

    @property
    def outcome(self):
        """Whether the module is accepted, and else why not."""
        if self.fault is not None:
            return Outcome.ILL_FORMED
        if self.refused is not None:
            return Outcome.REFUSED
        if self.layout_error is not None:
            return Outcome.NO_LAYOUT
        is_uniform = self.uniformity_verdict is None or self.uniformity_verdict.accepted
        return Outcome.ACCEPTED if is_uniform else Outcome.NON_UNIFORM


@view
class InputError:
    """The error of an input: `path` or `byte`."""

    wanted: str
    path: str | None = None
    byte: int | None = None


@view
class NoModule:
    """The answer to an input that is no module."""

    version: str
    diagnostics: list[Diagnostic]
    error: InputError


@view
class Versioned:
    """The version that each answer has."""

    version: str


@functools.cache
def fields(cls):
    """Returns of each field of a view its name, the name of its member, its type, and its default."""
    hints = typing.get_type_hints(cls)
    default = lambda it: ABSENT if it.default is dataclasses.MISSING else it.default
    return [(it.name, RENAMED.get(it.name, it.name), hints[it.name], default(it)) for it in dataclasses.fields(cls)]


def read(kind, value, path=""):
    """Returns a value of JSON as a type: a view, a list, a union or a type of JSON. Members that a view doesn't have are skipped."""
    origin = typing.get_origin(kind)
    if origin is types.UnionType:
        wanted = typing.get_args(kind)
        plain = next((it for it in wanted if isinstance(it, type) and type(value) is it), None)
        return value if plain else read(next((it for it in wanted if it is not type(None)), None), value, path)
    if origin is list and type(value) is list:
        (item,) = typing.get_args(kind)
        return [read(item, it, f"{path}[{at}]") for at, it in enumerate(value)]
    if dataclasses.is_dataclass(kind) and type(value) is dict:
        return kind(**{name: read_member(value, *rest, path) for name, *rest in fields(kind)})
    if kind is dict and type(value) is str:
        # A variant without a payload.
        return value
    if origin is None and type(value) is kind:
        return value
    raise AnswerError(f"the answer of the library has something else than {kind} at `{path}`")


def read_member(value, member, kind, default, path):
    """Returns the value of a member."""
    if member not in value and default is not ABSENT:
        return default
    if member not in value:
        raise AnswerError(f"the answer of the library has no `{path}.{member}`")
    return read(kind, value[member], f"{path}.{member}")


def read_answer(kind, text):
    """Returns the text of the library as a view."""
    try:
        value = json.loads(text)
    except ValueError as error:
        raise AnswerError(f"the answer of the library isn't JSON: {error}") from error
    version = read(Versioned, value).version
    if version.partition(".")[0] != FORMAT:
        raise VersionError(version)
    return read(kind, value)
