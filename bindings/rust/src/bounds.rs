//! What a back end checks of indexes.

use crate::json::{read_members, read_names, Read, Value, Wrong};
use crate::BoundsCheckPolicy;

read_names!(BoundsCheckPolicy {
    Restrict,
    ReadZeroSkipWrite,
    Unchecked
});

/// What a back end checks of indexes, if [`with_bounds_checks`](crate::Options::with_bounds_checks) asks for it.
#[derive(Clone, Debug, PartialEq, Eq)]
#[non_exhaustive]
pub enum Bounds {
    /// The checks of each function and entry point.
    #[non_exhaustive]
    Known {
        /// An item for each function, in order.
        functions: Vec<FunctionBounds>,
        /// An item for each entry point, in order.
        entry_points: Vec<FunctionBounds>,
    },
    /// No length is known: the position of the first override that sizes an array and needs a value.
    Override(usize),
}

impl Read for Bounds {
    fn read(value: &Value<'_>) -> Result<Self, Wrong> {
        if let Some(it) = value.optional("override")? {
            return Ok(Bounds::Override(it));
        }
        Ok(Bounds::Known {
            functions: value.member("functions")?,
            entry_points: value.member("entry_points")?,
        })
    }
}

/// The checks of a function or an entry point.
#[derive(Clone, Debug, PartialEq, Eq)]
#[non_exhaustive]
pub struct FunctionBounds {
    /// The accesses whose indexes aren't known to be in bounds.
    pub accesses: Vec<Access>,
    /// The positions of expressions that are checked before use, ascending: indexes and operands of image loads that read zero out of
    /// bounds.
    pub checked_indexes: Vec<usize>,
    /// The positions of types of locals to which pointers out of bounds lead, ascending.
    pub oob_local_types: Vec<usize>,
}
read_members!(FunctionBounds {
    accesses,
    checked_indexes,
    oob_local_types
});

/// An access whose index isn't known to be in bounds.
#[derive(Clone, Copy, Debug, PartialEq, Eq, Hash)]
#[non_exhaustive]
pub struct Access {
    /// The position of the access.
    pub access: usize,
    /// The position of its base.
    pub base: usize,
    /// Its index.
    pub index: GuardedIndex,
    /// The number of items of the base.
    pub length: IndexableLength,
    /// The policy that applies.
    pub policy: BoundsCheckPolicy,
}
read_members!(Access {
    access,
    base,
    index,
    length,
    policy
});

/// The index of an access.
#[derive(Clone, Copy, Debug, PartialEq, Eq, Hash)]
#[non_exhaustive]
pub enum GuardedIndex {
    /// The index of an `AccessIndex`.
    Known(u32),
    /// The position of the index of an `Access`.
    Expression(usize),
}

impl Read for GuardedIndex {
    fn read(value: &Value<'_>) -> Result<Self, Wrong> {
        match value.variant()? {
            ("Known", Some(it)) => u32::read(it).map(GuardedIndex::Known),
            ("Expression", Some(it)) => usize::read(it).map(GuardedIndex::Expression),
            _ => Err(Wrong::new("an index")),
        }
    }
}

/// The number of items of a base.
#[derive(Clone, Copy, Debug, PartialEq, Eq, Hash)]
#[non_exhaustive]
pub enum IndexableLength {
    /// As many.
    Known(u32),
    /// It is known at run time.
    Dynamic,
}

impl Read for IndexableLength {
    fn read(value: &Value<'_>) -> Result<Self, Wrong> {
        match value.variant()? {
            ("Known", Some(it)) => u32::read(it).map(IndexableLength::Known),
            ("Dynamic", None) => Ok(IndexableLength::Dynamic),
            _ => Err(Wrong::new("a length")),
        }
    }
}
