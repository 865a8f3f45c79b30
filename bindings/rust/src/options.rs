//! What a caller asks for.

use pethuvazh_sys::flags;

/// The rules by which uniform control flow is checked.
///
/// They decide whether a module is accepted, and where a violation is told. What [`info`](crate::info) says of expressions follows naga's
/// notion of uniformity under all of them.
#[derive(Clone, Copy, Debug, Default, PartialEq, Eq, Hash)]
#[non_exhaustive]
pub enum Uniformity {
    /// The rules of WGSL, which follow jumps, stores and calls. A violation is the outcome [`NonUniform`](crate::Outcome::NonUniform), and
    /// there is a diagnostic for each need that is violated.
    #[default]
    Wgsl,
    /// The rules of naga's analyser. They miss some violations, and see some that are none. A violation is a fault of the analysis: the
    /// outcome is [`Refused`](crate::Outcome::Refused) with the cause
    /// [`NonUniformControlFlow`](crate::refusal::Cause::NonUniformControlFlow), and there is no `info`.
    Naga,
    /// No rules. A module is never refused for its control flow, and what needs all invocations together may not have them.
    Off,
}

/// The treatment of an index that may be out of bounds, as naga's `proc::BoundsCheckPolicy`.
#[derive(Clone, Copy, Debug, Default, PartialEq, Eq, Hash)]
pub enum BoundsCheckPolicy {
    /// An index within bounds replaces it.
    Restrict,
    /// A read is zero, and a write is dropped. Such an index is among `checked_indexes`.
    ReadZeroSkipWrite,
    /// It is used as it is.
    #[default]
    Unchecked,
}

impl BoundsCheckPolicy {
    /// Returns the flag of this policy, from those of a kind of access.
    fn flag(self, restrict: u32, read_zero_skip_write: u32) -> u32 {
        match self {
            BoundsCheckPolicy::Unchecked => 0,
            BoundsCheckPolicy::Restrict => restrict,
            BoundsCheckPolicy::ReadZeroSkipWrite => read_zero_skip_write,
        }
    }
}

/// The policy for each kind of access, as naga's `proc::BoundsCheckPolicies`. By default each is [`BoundsCheckPolicy::Unchecked`].
///
/// A policy decides nothing about acceptance. It is the `policy` of the accesses of its kind in [`Bounds`](crate::bounds::Bounds).
#[derive(Clone, Copy, Debug, Default, PartialEq, Eq, Hash)]
pub struct BoundsCheckPolicies {
    index: BoundsCheckPolicy,
    buffer: BoundsCheckPolicy,
    image_load: BoundsCheckPolicy,
    binding_array: BoundsCheckPolicy,
}

impl BoundsCheckPolicies {
    /// Returns these policies with another one for arrays, vectors and matrices that no other kind has.
    #[must_use]
    pub const fn with_index(mut self, policy: BoundsCheckPolicy) -> Self {
        self.index = policy;
        self
    }

    /// Returns these policies with another one for uniform and storage buffers.
    #[must_use]
    pub const fn with_buffer(mut self, policy: BoundsCheckPolicy) -> Self {
        self.buffer = policy;
        self
    }

    /// Returns these policies with another one for loads of texels.
    #[must_use]
    pub const fn with_image_load(mut self, policy: BoundsCheckPolicy) -> Self {
        self.image_load = policy;
        self
    }

    /// Returns these policies with another one for arrays of resources.
    #[must_use]
    pub const fn with_binding_array(mut self, policy: BoundsCheckPolicy) -> Self {
        self.binding_array = policy;
        self
    }

    fn flags(self) -> u32 {
        let index = (flags::INDEX_RESTRICT, flags::INDEX_READ_ZERO_SKIP_WRITE);
        let buffer = (flags::BUFFER_RESTRICT, flags::BUFFER_READ_ZERO_SKIP_WRITE);
        let image_load = (
            flags::IMAGE_LOAD_RESTRICT,
            flags::IMAGE_LOAD_READ_ZERO_SKIP_WRITE,
        );
        let binding_array = (
            flags::BINDING_ARRAY_RESTRICT,
            flags::BINDING_ARRAY_READ_ZERO_SKIP_WRITE,
        );
        flags::BOUNDS_CHECKS
            | self.index.flag(index.0, index.1)
            | self.buffer.flag(buffer.0, buffer.1)
            | self.image_load.flag(image_load.0, image_load.1)
            | self.binding_array.flag(binding_array.0, binding_array.1)
    }
}

/// The options of a report.
///
/// By default the device has no capability, and uniform control flow is checked by the rules of WGSL. That isn't a validation by naga's
/// `Validator`: a module may be accepted here, and have operands, access modes or bindings that naga refuses.
///
/// ```
/// use pethuvazh::{BoundsCheckPolicies, BoundsCheckPolicy, Options, Uniformity};
///
/// let policies = BoundsCheckPolicies::default().with_buffer(BoundsCheckPolicy::Restrict);
/// let options = Options::new().with_uniformity(Uniformity::Naga).with_resources(true).with_bounds_checks(policies);
/// assert_eq!(options.flags(), 16 + 64 + 128 + 1024);
/// ```
#[derive(Clone, Copy, Debug, Default, PartialEq, Eq, Hash)]
pub struct Options {
    uniformity: Uniformity,
    bounds_checks: Option<BoundsCheckPolicies>,
    /// The flags that are each set by a method of their own.
    single: u32,
}

impl Options {
    /// Returns the options that ask for nothing more.
    #[must_use]
    pub const fn new() -> Self {
        Options {
            uniformity: Uniformity::Wgsl,
            bounds_checks: None,
            single: 0,
        }
    }

    const fn with(mut self, flag: u32, is_set: bool) -> Self {
        self.single = if is_set {
            self.single | flag
        } else {
            self.single & !flag
        };
        self
    }

    /// Chooses the rules of uniform control flow.
    #[must_use]
    pub const fn with_uniformity(mut self, rules: Uniformity) -> Self {
        self.uniformity = rules;
        self
    }

    /// Says whether the device indexes arrays of sampled textures and of samplers by values that may differ between invocations. Without it
    /// such an index is refused, with the code R001.
    #[must_use]
    pub const fn with_non_uniform_textures(self, is_allowed: bool) -> Self {
        self.with(flags::NON_UNIFORM_TEXTURES, is_allowed)
    }

    /// Says the same of arrays of storage textures, with the code R002.
    #[must_use]
    pub const fn with_non_uniform_storage_textures(self, is_allowed: bool) -> Self {
        self.with(flags::NON_UNIFORM_STORAGE_TEXTURES, is_allowed)
    }

    /// Asks for the indexes that a back end has to check, with the policy for each. They are in [`Bounds`](crate::bounds::Bounds).
    #[must_use]
    pub const fn with_bounds_checks(mut self, policies: BoundsCheckPolicies) -> Self {
        self.bounds_checks = Some(policies);
        self
    }

    /// Asks for [`Resources`](crate::resources::Resources): bindings and their uses, overrides, and inputs and outputs of entry points.
    #[must_use]
    pub const fn with_resources(self, is_asked: bool) -> Self {
        self.with(flags::RESOURCES, is_asked)
    }

    /// Draws structs in the text of [`report_text`](crate::report_text).
    #[must_use]
    pub const fn with_drawing(self, is_asked: bool) -> Self {
        self.with(flags::DRAWING, is_asked)
    }

    /// Declares structs in that text, with the layouts of their members.
    #[must_use]
    pub const fn with_all_structs(self, is_asked: bool) -> Self {
        self.with(flags::ALL_STRUCTS, is_asked)
    }

    /// Says in that text what each code means, and why the result of an entry point may differ between invocations.
    #[must_use]
    pub const fn with_explain(self, is_asked: bool) -> Self {
        self.with(flags::EXPLAIN, is_asked)
    }

    /// Shows all errors, causes, entry points and globals in that text, and not the first ones alone.
    #[must_use]
    pub const fn with_all(self, is_asked: bool) -> Self {
        self.with(flags::ALL, is_asked)
    }

    /// Returns the flags of `pethuvazh.h` for these options, without that for text.
    #[must_use]
    pub fn flags(self) -> u32 {
        let uniformity = match self.uniformity {
            Uniformity::Wgsl => 0,
            Uniformity::Naga => flags::NAGA_UNIFORMITY,
            Uniformity::Off => flags::NO_CONTROL_FLOW_UNIFORMITY,
        };
        self.single | uniformity | self.bounds_checks.map_or(0, BoundsCheckPolicies::flags)
    }
}
