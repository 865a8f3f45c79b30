"""What a caller asks for."""
import dataclasses
import enum

from .flags import Flags


class Uniformity(enum.Enum):
    """The rules by which uniform control flow is checked."""

    #: The rules of WGSL, which follow jumps, stores and calls.
    WGSL = "wgsl"
    #: The rules of naga's analyser. A violation is in `refusal`, and there is no `info`.
    NAGA = "naga"
    #: No rules. A module is never refused for its control flow.
    OFF = "off"


class BoundsCheckPolicy(enum.Enum):
    """The treatment of an index that may be out of bounds, as naga's."""

    #: An index within bounds replaces it.
    RESTRICT = "Restrict"
    #: A read is zero, and a write is dropped.
    READ_ZERO_SKIP_WRITE = "ReadZeroSkipWrite"
    #: It is used as it is.
    UNCHECKED = "Unchecked"


@dataclasses.dataclass(frozen=True)
class BoundsCheckPolicies:
    """The policy for each kind of access: arrays, vectors and matrices; buffers; loads of texels; arrays of resources."""

    index: BoundsCheckPolicy = BoundsCheckPolicy.UNCHECKED
    buffer: BoundsCheckPolicy = BoundsCheckPolicy.UNCHECKED
    image_load: BoundsCheckPolicy = BoundsCheckPolicy.UNCHECKED
    binding_array: BoundsCheckPolicy = BoundsCheckPolicy.UNCHECKED

    @property
    def flags(self):
        """The flags for these policies."""
        named = [(it.name, BoundsCheckPolicy(getattr(self, it.name))) for it in dataclasses.fields(self)]
        found = Flags.BOUNDS_CHECKS
        for kind, policy in named:
            if policy is not BoundsCheckPolicy.UNCHECKED:
                found |= Flags[f"{kind.upper()}_{policy.name}"]
        return found


@dataclasses.dataclass(frozen=True)
class Options:
    """The options of a report. By default the device has no capability, and uniform control flow is checked by the rules of WGSL.

    `drawing`, `all_structs`, `explain` and `all` add to the text of `report_text` alone.
    """

    uniformity: Uniformity = Uniformity.WGSL
    #: The device indexes arrays of sampled textures and of samplers by values that may differ between invocations.
    non_uniform_textures: bool = False
    #: The same of arrays of storage textures.
    non_uniform_storage_textures: bool = False
    #: Reports the indexes that a back end checks, with these policies.
    bounds_checks: BoundsCheckPolicies | None = None
    #: Reports bindings and their uses, overrides, and inputs and outputs of entry points.
    resources: bool = False
    drawing: bool = False
    all_structs: bool = False
    explain: bool = False
    all: bool = False

    @property
    def flags(self):
        """The flags of pethuvazh.h for these options, without that for text."""
        found = Flags(0) if self.bounds_checks is None else self.bounds_checks.flags
        rules = Uniformity(self.uniformity)
        if rules is Uniformity.NAGA:
            found |= Flags.NAGA_UNIFORMITY
        elif rules is Uniformity.OFF:
            found |= Flags.NO_CONTROL_FLOW_UNIFORMITY
        for it in dataclasses.fields(self):
            if it.type is bool and getattr(self, it.name):
                found |= Flags[it.name.upper()]
        return found
