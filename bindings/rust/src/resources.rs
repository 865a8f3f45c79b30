//! What a module declares, and what its entry points use of it.

use crate::info::SamplingKey;
use crate::json::{read_members, read_names};

/// What a module declares, if [`with_resources`](crate::Options::with_resources) asks for it. Lists but the last have an item for each item
/// of the module, in order.
///
/// A `notation` is the name of a type, or its notation in WGSL. It is `#` and a position for a struct without a name, and for a type that
/// nests more than 16 levels deep.
#[derive(Clone, Debug, PartialEq, Eq)]
#[non_exhaustive]
pub struct Resources {
    /// The types.
    pub types: Vec<Type>,
    /// The global variables.
    pub globals: Vec<Global>,
    /// The overrides.
    pub overrides: Vec<Override>,
    /// The entry points.
    pub entry_points: Vec<EntryPoint>,
    /// The positions of globals with a group that no entry point uses, ascending.
    pub unused: Vec<usize>,
}
read_members!(Resources {
    types,
    globals,
    overrides,
    entry_points,
    unused
});

/// A type with its layout.
#[derive(Clone, Debug, PartialEq, Eq)]
#[non_exhaustive]
pub struct Type {
    /// The type in words.
    pub notation: String,
    /// The size in bytes, as in [`Layout`](crate::Layout).
    pub size: u32,
    /// The alignment in bytes.
    pub alignment: u32,
    /// The distance of the elements of an array.
    pub stride: Option<u32>,
    /// The members of a struct.
    pub members: Option<Vec<Member>>,
}
read_members!(Type { notation "type", size, alignment, stride, members });

/// A member of a struct.
#[derive(Clone, Debug, PartialEq, Eq)]
#[non_exhaustive]
pub struct Member {
    /// The name, if it has one.
    pub name: Option<String>,
    /// The position of the type.
    pub ty: usize,
    /// The type in words.
    pub notation: String,
    /// The distance in bytes from the start of the struct.
    pub offset: u32,
}
read_members!(Member { name, ty, notation "type", offset });

/// A global variable.
#[derive(Clone, Debug, PartialEq, Eq)]
#[non_exhaustive]
pub struct Global {
    /// The name, if it has one.
    pub name: Option<String>,
    /// The position of the type.
    pub ty: usize,
    /// The type in words.
    pub notation: String,
    /// The group of its binding.
    pub group: Option<u32>,
    /// The number of its binding.
    pub binding: Option<u32>,
    /// The address space, as `storage`, `handle` or `ray_payload`.
    pub space: String,
    /// Of a storage buffer: `read`, `write`, `read_write` or `atomic`.
    pub access: Option<String>,
}
read_members!(Global { name, ty, notation "type", group, binding, space, access });

/// An override.
#[derive(Clone, Debug, PartialEq, Eq)]
#[non_exhaustive]
pub struct Override {
    /// The name, if it has one.
    pub name: Option<String>,
    /// The position of the type.
    pub ty: usize,
    /// The type in words.
    pub notation: String,
    /// The id, if it has one.
    pub id: Option<u16>,
    /// A literal as the module spells it; none of an f16, and without a literal.
    pub default: Option<String>,
}
read_members!(Override { name, ty, notation "type", id, default });

/// An entry point.
#[derive(Clone, Debug, PartialEq, Eq)]
#[non_exhaustive]
pub struct EntryPoint {
    /// The name.
    pub name: Option<String>,
    /// The stage.
    pub stage: ShaderStage,
    /// The sizes of a work group. naga writes 0 for vertex and fragment shaders.
    pub workgroup_size: [Option<u32>; 3],
    /// The positions of the global expressions that give sizes instead.
    pub workgroup_overrides: [Option<usize>; 3],
    /// The globals that it uses.
    pub uses: Vec<Use>,
    /// The pairs of image and sampler.
    pub sampled: Vec<SamplingKey>,
    /// The arguments; of a struct, its members.
    pub inputs: Vec<InputOrOutput>,
    /// The result; of a struct, its members.
    pub outputs: Vec<InputOrOutput>,
}
read_members!(EntryPoint {
    name,
    stage,
    workgroup_size,
    workgroup_overrides,
    uses,
    sampled,
    inputs,
    outputs
});

/// A stage of a pipeline.
#[derive(Clone, Copy, Debug, PartialEq, Eq, Hash)]
#[non_exhaustive]
pub enum ShaderStage {
    /// A vertex shader.
    Vertex,
    /// A fragment shader.
    Fragment,
    /// A compute shader.
    Compute,
    /// A mesh shader.
    Mesh,
    /// A task shader.
    Task,
}
read_names!(ShaderStage { Vertex "vertex", Fragment "fragment", Compute "compute", Mesh "mesh", Task "task" });

/// How an entry point uses a global, as in [`GlobalUse`](crate::info::GlobalUse).
#[derive(Clone, Copy, Debug, PartialEq, Eq, Hash)]
#[non_exhaustive]
pub struct Use {
    /// The position of the global.
    pub global: usize,
    /// It is read.
    pub read: bool,
    /// It is written.
    pub write: bool,
    /// It is queried, or named and not used.
    pub query: bool,
    /// There is an atomic operation on it.
    pub atomic: bool,
}
read_members!(Use {
    global,
    read,
    write,
    query,
    atomic
});

/// An input or an output of an entry point.
#[derive(Clone, Debug, PartialEq, Eq)]
#[non_exhaustive]
pub struct InputOrOutput {
    /// The name, if it has one.
    pub name: Option<String>,
    /// The position of the type.
    pub ty: usize,
    /// The type in words.
    pub notation: String,
    /// naga's name of the built-in value.
    pub builtin: Option<String>,
    /// The location.
    pub location: Option<u32>,
    /// The blend source.
    pub blend_src: Option<u32>,
    /// naga's name for how it is interpolated.
    pub interpolation: Option<String>,
    /// naga's name for where it is sampled.
    pub sampling: Option<String>,
}
read_members!(InputOrOutput {
    name,
    ty,
    notation "type",
    builtin,
    location,
    blend_src,
    interpolation,
    sampling,
});
