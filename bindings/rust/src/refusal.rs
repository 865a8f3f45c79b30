//! Why a module is refused. The names of errors are naga's.

use crate::info::UniformityRequirements;
use crate::json::{read_flags, read_members, read_names, Read, Value, Wrong};

/// A part of a module that has expressions.
#[derive(Clone, Copy, Debug, PartialEq, Eq, Hash)]
#[non_exhaustive]
pub enum Place {
    /// The position of a global expression.
    ConstExpression(usize),
    /// The position of a function.
    Function(usize),
    /// The position of an entry point.
    EntryPoint(usize),
}

impl Read for Place {
    fn read(value: &Value<'_>) -> Result<Self, Wrong> {
        match value.variant()? {
            ("ConstExpression", Some(it)) => usize::read(it).map(Place::ConstExpression),
            ("Function", Some(it)) => usize::read(it).map(Place::Function),
            ("EntryPoint", Some(it)) => usize::read(it).map(Place::EntryPoint),
            _ => Err(Wrong::new("a place")),
        }
    }
}

/// The first place with a fault of the analysis, and a fault there. The order is: global expressions, functions, entry points.
#[derive(Clone, Debug, PartialEq, Eq)]
#[non_exhaustive]
pub struct Refusal {
    /// The place.
    pub place: Place,
    /// The fault. If the place has several, it is any of them.
    pub cause: Cause,
}
read_members!(Refusal { place, cause });

/// A fault of the analysis.
#[derive(Clone, Debug, PartialEq, Eq)]
#[non_exhaustive]
pub enum Cause {
    /// An expression is refused.
    #[non_exhaustive]
    Expression {
        /// Its position.
        handle: usize,
        /// Why it is refused.
        error: ExpressionError,
    },
    /// Uniform control flow is violated by naga's rules. Only [`Uniformity::Naga`](crate::Uniformity::Naga) gives this fault.
    #[non_exhaustive]
    NonUniformControlFlow {
        /// What is needed.
        requirements: UniformityRequirements,
        /// The position of the expression that needs it.
        expression: usize,
        /// What makes control flow non-uniform.
        disruptor: UniformityDisruptor,
    },
    /// The position of an expression that is used 2^64 times or more.
    CountFull(usize),
}

impl Read for Cause {
    fn read(value: &Value<'_>) -> Result<Self, Wrong> {
        match value.variant()? {
            ("Expression", Some(it)) => Ok(Cause::Expression {
                handle: it.member("handle")?,
                error: it.member("error")?,
            }),
            ("NonUniformControlFlow", Some(Value::Array(items))) => match &items[..] {
                [requirements, expression, disruptor] => Ok(Cause::NonUniformControlFlow {
                    requirements: Read::read(requirements)?,
                    expression: Read::read(expression)?,
                    disruptor: Read::read(disruptor)?,
                }),
                _ => Err(Wrong::new("three items")),
            },
            ("CountFull", Some(it)) => usize::read(it).map(Cause::CountFull),
            _ => Err(Wrong::new("a cause")),
        }
    }
}

/// What makes control flow non-uniform.
#[derive(Clone, Copy, Debug, PartialEq, Eq, Hash)]
#[non_exhaustive]
pub enum UniformityDisruptor {
    /// The position of a source of a condition. It may be an expression of a called function.
    Expression(usize),
    /// An earlier return.
    Return,
    /// An earlier discard.
    Discard,
}

impl Read for UniformityDisruptor {
    fn read(value: &Value<'_>) -> Result<Self, Wrong> {
        match value.variant()? {
            ("Expression", Some(it)) => usize::read(it).map(UniformityDisruptor::Expression),
            ("Return", None) => Ok(UniformityDisruptor::Return),
            ("Discard", None) => Ok(UniformityDisruptor::Discard),
            _ => Err(Wrong::new("a disruptor")),
        }
    }
}

/// Why an expression is refused.
#[derive(Clone, Debug, PartialEq, Eq)]
#[non_exhaustive]
pub enum ExpressionError {
    /// It has no type.
    ResolveError(ResolveError),
    /// What the device lacks for a non-uniform index of resources.
    MissingCapabilities(Capabilities),
    /// What is sampled is no global variable or argument.
    ExpectedGlobalOrArgument,
    /// The elements of a binding array are neither images nor samplers.
    BindingArrayElement,
}

impl Read for ExpressionError {
    fn read(value: &Value<'_>) -> Result<Self, Wrong> {
        match value.variant()? {
            ("ResolveError", Some(it)) => ResolveError::read(it).map(ExpressionError::ResolveError),
            ("MissingCapabilities", Some(it)) => {
                Capabilities::read(it).map(ExpressionError::MissingCapabilities)
            }
            ("ExpectedGlobalOrArgument", None) => Ok(ExpressionError::ExpectedGlobalOrArgument),
            ("BindingArrayElement", None) => Ok(ExpressionError::BindingArrayElement),
            _ => Err(Wrong::new("an error of an expression")),
        }
    }
}

/// Capabilities of a device.
#[derive(Clone, Copy, Debug, Default, PartialEq, Eq, Hash)]
#[non_exhaustive]
pub struct Capabilities {
    /// See [`with_non_uniform_textures`](crate::Options::with_non_uniform_textures).
    pub texture_and_sampler_binding_array_non_uniform_indexing: bool,
    /// See [`with_non_uniform_storage_textures`](crate::Options::with_non_uniform_storage_textures).
    pub storage_texture_binding_array_non_uniform_indexing: bool,
}
read_flags!(Capabilities {
    texture_and_sampler_binding_array_non_uniform_indexing "TEXTURE_AND_SAMPLER_BINDING_ARRAY_NON_UNIFORM_INDEXING",
    storage_texture_binding_array_non_uniform_indexing "STORAGE_TEXTURE_BINDING_ARRAY_NON_UNIFORM_INDEXING",
});

/// Why an expression has no type.
#[derive(Clone, Debug, PartialEq, Eq)]
#[non_exhaustive]
pub enum ResolveError {
    /// An index is beyond the components of its base.
    #[non_exhaustive]
    OutOfBoundsIndex {
        /// The position of the base.
        expr: usize,
        /// The index.
        index: u32,
    },
    /// A base has no components.
    #[non_exhaustive]
    InvalidAccess {
        /// The position of the base.
        expr: usize,
        /// True for an `AccessIndex`.
        indexed: bool,
    },
    /// A base points to a type without components.
    #[non_exhaustive]
    InvalidSubAccess {
        /// The position of that type.
        ty: usize,
        /// True for an `AccessIndex`.
        indexed: bool,
    },
    /// The position of an operand that is no scalar.
    InvalidScalar(usize),
    /// The position of an operand that is no vector.
    InvalidVector(usize),
    /// The position of an operand that is no pointer.
    InvalidPointer(usize),
    /// The position of an operand that is no image.
    InvalidImage(usize),
    /// The name of an operator that doesn't accept its operands.
    IncompatibleOperands(String),
    /// The name of a built-in function that doesn't accept its arguments.
    BuiltinArgumentsInvalid(String),
    /// The index of an argument that the function lacks.
    FunctionArgumentNotFound(u32),
    /// The function has no result.
    FunctionReturnsVoid,
    /// There is no type for the result of modf, frexp or a ray query.
    MissingSpecialType,
}

impl Read for ResolveError {
    fn read(value: &Value<'_>) -> Result<Self, Wrong> {
        Ok(match value.variant()? {
            ("OutOfBoundsIndex", Some(it)) => ResolveError::OutOfBoundsIndex {
                expr: it.member("expr")?,
                index: it.member("index")?,
            },
            ("InvalidAccess", Some(it)) => ResolveError::InvalidAccess {
                expr: it.member("expr")?,
                indexed: it.member("indexed")?,
            },
            ("InvalidSubAccess", Some(it)) => ResolveError::InvalidSubAccess {
                ty: it.member("ty")?,
                indexed: it.member("indexed")?,
            },
            ("InvalidScalar", Some(it)) => ResolveError::InvalidScalar(Read::read(it)?),
            ("InvalidVector", Some(it)) => ResolveError::InvalidVector(Read::read(it)?),
            ("InvalidPointer", Some(it)) => ResolveError::InvalidPointer(Read::read(it)?),
            ("InvalidImage", Some(it)) => ResolveError::InvalidImage(Read::read(it)?),
            ("IncompatibleOperands", Some(it)) => {
                ResolveError::IncompatibleOperands(Read::read(it)?)
            }
            ("BuiltinArgumentsInvalid", Some(it)) => {
                ResolveError::BuiltinArgumentsInvalid(Read::read(it)?)
            }
            ("FunctionArgumentNotFound", Some(it)) => {
                ResolveError::FunctionArgumentNotFound(Read::read(it)?)
            }
            ("FunctionReturnsVoid", None) => ResolveError::FunctionReturnsVoid,
            ("MissingSpecialType", None) => ResolveError::MissingSpecialType,
            _ => return Err(Wrong::new("why there is no type")),
        })
    }
}

/// Why a module isn't well formed.
#[derive(Clone, Copy, Debug, PartialEq, Eq, Hash)]
#[non_exhaustive]
pub enum ModuleFault {
    /// A handle is beyond the end of its arena.
    HandleOutOfRange,
    /// An `Emit` has an expression beyond the last one.
    EmitRange,
    /// A type names itself or a later type.
    TypeNotEarlier,
    /// An expression names itself or a later expression.
    OperandNotEarlier,
    /// The parent of a diagnostic filter is itself or a later filter.
    FilterNotEarlier,
    /// A function calls itself or a later one.
    CalleeNotEarlier,
    /// A call has more or fewer arguments than its function takes.
    ArgumentCount,
    /// A function has an argument of a type `ValuePointer`.
    ValuePointerArgument,
}
read_names!(ModuleFault {
    HandleOutOfRange,
    EmitRange,
    TypeNotEarlier,
    OperandNotEarlier,
    FilterNotEarlier,
    CalleeNotEarlier,
    ArgumentCount,
    ValuePointerArgument,
});
