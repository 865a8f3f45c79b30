//! What the analysis records of functions and expressions. The names are those of naga's `valid`, `proc` and `ir`.

use crate::json::{read_flags, read_members, read_names, Read, Value, Wrong};

/// What the analysis records of a module.
#[derive(Clone, Debug, PartialEq, Eq)]
#[non_exhaustive]
pub struct ModuleInfo {
    /// An item for each function, in order.
    pub functions: Vec<FunctionInfo>,
    /// An item for each entry point, in order.
    pub entry_points: Vec<FunctionInfo>,
    /// The type of each global expression.
    pub const_expression_types: Vec<TypeResolution>,
}
read_members!(ModuleInfo {
    functions,
    entry_points,
    const_expression_types
});

/// What the analysis records of a function or an entry point, with all its calls, at any depth.
#[derive(Clone, Debug, PartialEq, Eq)]
#[non_exhaustive]
pub struct FunctionInfo {
    /// All five stages: in naga the validator restricts them.
    pub available_stages: ShaderStages,
    /// The uniformity of the result.
    pub uniformity: Uniformity,
    /// True if a `Kill` may end an invocation in non-uniform control flow.
    pub may_kill: bool,
    /// The pairs of a global image and a global sampler that samples it.
    pub sampling_set: Vec<SamplingKey>,
    /// The uses of each global variable.
    pub global_uses: Vec<GlobalUse>,
    /// An item for each expression, in order.
    pub expressions: Vec<ExpressionInfo>,
    /// The pairs of image and sampler with an argument of the function among them, in ascending order.
    pub sampling: Vec<Sampling>,
    /// False: in naga the validator finds it.
    pub dual_source_blending: bool,
}
read_members!(FunctionInfo {
    available_stages,
    uniformity,
    may_kill,
    sampling_set,
    global_uses,
    expressions,
    sampling,
    dual_source_blending,
});

/// The uniformity of a result or a value, by naga's notion.
#[derive(Clone, Copy, Debug, PartialEq, Eq, Hash)]
#[non_exhaustive]
pub struct Uniformity {
    /// An expression that makes the value differ between invocations, or `None` if nothing does. It may be one of a called function.
    pub non_uniform_result: Option<usize>,
    /// What needs uniform control flow.
    pub requirements: UniformityRequirements,
}
read_members!(Uniformity {
    non_uniform_result,
    requirements
});

/// Needs of uniform control flow.
#[derive(Clone, Copy, Debug, Default, PartialEq, Eq, Hash)]
#[non_exhaustive]
pub struct UniformityRequirements {
    /// A barrier of the work group.
    pub work_group_barrier: bool,
    /// A derivative.
    pub derivative: bool,
    /// A sample with an implicit level.
    pub implicit_level: bool,
    /// An operation on cooperative matrices.
    pub coop_ops: bool,
}
read_flags!(UniformityRequirements {
    work_group_barrier "WORK_GROUP_BARRIER",
    derivative "DERIVATIVE",
    implicit_level "IMPLICIT_LEVEL",
    coop_ops "COOP_OPS",
});

/// The stages in which a function may run.
#[derive(Clone, Copy, Debug, Default, PartialEq, Eq, Hash)]
#[non_exhaustive]
pub struct ShaderStages {
    /// Vertex shaders.
    pub vertex: bool,
    /// Fragment shaders.
    pub fragment: bool,
    /// Compute shaders.
    pub compute: bool,
    /// Mesh shaders.
    pub mesh: bool,
    /// Task shaders.
    pub task: bool,
}
read_flags!(ShaderStages {
    vertex "VERTEX",
    fragment "FRAGMENT",
    compute "COMPUTE",
    mesh "MESH",
    task "TASK",
});

/// A global image and a global sampler that samples it.
#[derive(Clone, Copy, Debug, PartialEq, Eq, Hash)]
#[non_exhaustive]
pub struct SamplingKey {
    /// The position of the image in `global_variables`.
    pub image: usize,
    /// The position of the sampler.
    pub sampler: usize,
}
read_members!(SamplingKey { image, sampler });

/// An image and a sampler that samples it.
#[derive(Clone, Copy, Debug, PartialEq, Eq, Hash)]
#[non_exhaustive]
pub struct Sampling {
    /// The image.
    pub image: GlobalOrArgument,
    /// The sampler.
    pub sampler: GlobalOrArgument,
}
read_members!(Sampling { image, sampler });

/// What is sampled.
#[derive(Clone, Copy, Debug, PartialEq, Eq, Hash)]
#[non_exhaustive]
pub enum GlobalOrArgument {
    /// The position of a global variable.
    Global(usize),
    /// The index of an argument of the function.
    Argument(usize),
}

impl Read for GlobalOrArgument {
    fn read(value: &Value<'_>) -> Result<Self, Wrong> {
        match value.variant()? {
            ("Global", Some(it)) => usize::read(it).map(GlobalOrArgument::Global),
            ("Argument", Some(it)) => usize::read(it).map(GlobalOrArgument::Argument),
            _ => Err(Wrong::new("a global or an argument")),
        }
    }
}

/// How a global variable is used.
#[derive(Clone, Copy, Debug, Default, PartialEq, Eq, Hash)]
#[non_exhaustive]
pub struct GlobalUse {
    /// It is read, or an image, sampler or pointer that is passed to a function.
    pub read: bool,
    /// It is written.
    pub write: bool,
    /// An image or the length of an array is queried, or it is named and not used.
    pub query: bool,
    /// An atomic operation on an image; one on memory reads and writes.
    pub atomic: bool,
}
read_flags!(GlobalUse { read "READ", write "WRITE", query "QUERY", atomic "ATOMIC" });

/// What the analysis records of an expression.
#[derive(Clone, Debug, PartialEq, Eq)]
#[non_exhaustive]
pub struct ExpressionInfo {
    /// The uniformity of its value.
    pub uniformity: Uniformity,
    /// How often the function has it as an operand.
    pub ref_count: u64,
    /// Its type.
    pub ty: TypeResolution,
}
read_members!(ExpressionInfo {
    uniformity,
    ref_count,
    ty
});

/// The type of an expression.
#[derive(Clone, Debug, PartialEq, Eq, Hash)]
#[non_exhaustive]
pub enum TypeResolution {
    /// The position of a type in `types`.
    Handle(usize),
    /// A type that needn't be among `types`.
    Value(TypeInner),
}

impl Read for TypeResolution {
    fn read(value: &Value<'_>) -> Result<Self, Wrong> {
        match value.variant()? {
            ("Handle", Some(it)) => usize::read(it).map(TypeResolution::Handle),
            ("Value", Some(it)) => TypeInner::read(it).map(TypeResolution::Value),
            _ => Err(Wrong::new("a type")),
        }
    }
}

/// A type by value: those that typing rules give.
#[derive(Clone, Debug, PartialEq, Eq, Hash)]
#[non_exhaustive]
pub enum TypeInner {
    /// A scalar.
    Scalar(Scalar),
    /// A vector of scalars.
    #[non_exhaustive]
    Vector {
        /// The number of components.
        size: VectorSize,
        /// The type of a component.
        scalar: Scalar,
    },
    /// A matrix of columns.
    #[non_exhaustive]
    Matrix {
        /// The number of columns.
        columns: VectorSize,
        /// The number of rows.
        rows: VectorSize,
        /// The type of a component.
        scalar: Scalar,
    },
    /// A matrix that the invocations of a subgroup hold together.
    #[non_exhaustive]
    CooperativeMatrix {
        /// The number of columns.
        columns: CooperativeSize,
        /// The number of rows.
        rows: CooperativeSize,
        /// The type of a component.
        scalar: Scalar,
        /// The place in a product.
        role: CooperativeRole,
    },
    /// A pointer to a type of `types`.
    #[non_exhaustive]
    Pointer {
        /// The position of the type that it points to.
        base: usize,
        /// The address space.
        space: AddressSpace,
    },
    /// A pointer to a scalar or a vector.
    #[non_exhaustive]
    ValuePointer {
        /// The number of components, or `None` of a scalar.
        size: Option<VectorSize>,
        /// The type of a component.
        scalar: Scalar,
        /// The address space.
        space: AddressSpace,
    },
}

impl Read for TypeInner {
    fn read(value: &Value<'_>) -> Result<Self, Wrong> {
        let (name, Some(it)) = value.variant()? else {
            return Err(Wrong::new("a type by value"));
        };
        Ok(match name {
            "Scalar" => TypeInner::Scalar(Scalar::read(it)?),
            "Vector" => TypeInner::Vector {
                size: it.member("size")?,
                scalar: it.member("scalar")?,
            },
            "Matrix" => TypeInner::Matrix {
                columns: it.member("columns")?,
                rows: it.member("rows")?,
                scalar: it.member("scalar")?,
            },
            "CooperativeMatrix" => TypeInner::CooperativeMatrix {
                columns: it.member("columns")?,
                rows: it.member("rows")?,
                scalar: it.member("scalar")?,
                role: it.member("role")?,
            },
            "Pointer" => TypeInner::Pointer {
                base: it.member("base")?,
                space: it.member("space")?,
            },
            "ValuePointer" => TypeInner::ValuePointer {
                size: it.member("size")?,
                scalar: it.member("scalar")?,
                space: it.member("space")?,
            },
            _ => return Err(Wrong::new("a type by value")),
        })
    }
}

/// The type of a number or a truth value.
#[derive(Clone, Copy, Debug, PartialEq, Eq, Hash)]
#[non_exhaustive]
pub struct Scalar {
    /// The kind.
    pub kind: ScalarKind,
    /// The width in bytes.
    pub width: u8,
}
read_members!(Scalar { kind, width });

/// A kind of scalar.
#[derive(Clone, Copy, Debug, PartialEq, Eq, Hash)]
#[non_exhaustive]
pub enum ScalarKind {
    /// Signed integers.
    Sint,
    /// Unsigned integers.
    Uint,
    /// Floating-point numbers.
    Float,
    /// Truth values.
    Bool,
    /// Integers of WGSL without a type of their own.
    AbstractInt,
    /// Floating-point numbers of WGSL without a type of their own.
    AbstractFloat,
}
read_names!(ScalarKind {
    Sint,
    Uint,
    Float,
    Bool,
    AbstractInt,
    AbstractFloat
});

/// The number of components of a vector.
#[derive(Clone, Copy, Debug, PartialEq, Eq, Hash)]
pub enum VectorSize {
    /// Two.
    Bi = 2,
    /// Three.
    Tri = 3,
    /// Four.
    Quad = 4,
}
read_names!(VectorSize { Bi, Tri, Quad });

/// The number of columns or rows of a cooperative matrix.
#[derive(Clone, Copy, Debug, PartialEq, Eq, Hash)]
#[non_exhaustive]
pub enum CooperativeSize {
    /// Eight.
    Eight = 8,
    /// Sixteen.
    Sixteen = 16,
}
read_names!(CooperativeSize { Eight, Sixteen });

/// The place of a cooperative matrix in the sum of C and the product of A and B.
#[derive(Clone, Copy, Debug, PartialEq, Eq, Hash)]
pub enum CooperativeRole {
    /// The left factor.
    A,
    /// The right factor.
    B,
    /// The sum.
    C,
}
read_names!(CooperativeRole { A, B, C });

/// An address space.
#[derive(Clone, Copy, Debug, PartialEq, Eq, Hash)]
#[non_exhaustive]
pub enum AddressSpace {
    /// Variables of a function.
    Function,
    /// Variables of an invocation.
    Private,
    /// Variables of a work group.
    WorkGroup,
    /// Uniform buffers.
    Uniform,
    /// Storage buffers.
    #[non_exhaustive]
    Storage {
        /// What is allowed there.
        access: StorageAccess,
    },
    /// Images, samplers and other opaque values.
    Handle,
    /// Immediate data.
    Immediate,
    /// What a task shader hands to its mesh shaders.
    TaskPayload,
    /// What a ray carries.
    RayPayload,
    /// What the ray at hand carries.
    IncomingRayPayload,
}

impl Read for AddressSpace {
    fn read(value: &Value<'_>) -> Result<Self, Wrong> {
        Ok(match value.variant()? {
            ("Function", None) => AddressSpace::Function,
            ("Private", None) => AddressSpace::Private,
            ("WorkGroup", None) => AddressSpace::WorkGroup,
            ("Uniform", None) => AddressSpace::Uniform,
            ("Storage", Some(it)) => AddressSpace::Storage {
                access: it.member("access")?,
            },
            ("Handle", None) => AddressSpace::Handle,
            ("Immediate", None) => AddressSpace::Immediate,
            ("TaskPayload", None) => AddressSpace::TaskPayload,
            ("RayPayload", None) => AddressSpace::RayPayload,
            ("IncomingRayPayload", None) => AddressSpace::IncomingRayPayload,
            _ => return Err(Wrong::new("an address space")),
        })
    }
}

/// What is allowed in a storage buffer.
#[derive(Clone, Copy, Debug, Default, PartialEq, Eq, Hash)]
#[non_exhaustive]
pub struct StorageAccess {
    /// Loads.
    pub load: bool,
    /// Stores.
    pub store: bool,
    /// Atomic operations.
    pub atomic: bool,
}
read_flags!(StorageAccess { load "LOAD", store "STORE", atomic "ATOMIC" });
