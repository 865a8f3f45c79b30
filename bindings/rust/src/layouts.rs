//! Layouts of types.

use crate::json::{read_members, read_names};

/// The layout of a type, in bytes.
///
/// The size of an array is its count times its stride, that of a struct its span. An array whose length is known at run time counts as one
/// element. A pointer has size 4 and alignment 1, and images, samplers and similar types have size 0 and alignment 1.
#[derive(Clone, Copy, Debug, PartialEq, Eq, Hash)]
#[non_exhaustive]
pub struct Layout {
    /// The size.
    pub size: u32,
    /// The alignment, a power of two.
    pub alignment: u32,
}
read_members!(Layout { size, alignment });

/// The first type without a layout.
#[derive(Clone, Copy, Debug, PartialEq, Eq, Hash)]
#[non_exhaustive]
pub struct LayoutError {
    /// The position of the type in `types`.
    pub ty: usize,
    /// Why it has none.
    pub inner: LayoutErrorInner,
}
read_members!(LayoutError { ty, inner });

/// Why a type has no layout.
#[derive(Clone, Copy, Debug, PartialEq, Eq, Hash)]
#[non_exhaustive]
pub enum LayoutErrorInner {
    /// The width of a scalar is no power of two.
    NonPowerOfTwoWidth,
    /// A count, or a size in bytes, is above 1,073,741,824.
    TooLarge,
}
read_names!(LayoutErrorInner {
    NonPowerOfTwoWidth,
    TooLarge
});
