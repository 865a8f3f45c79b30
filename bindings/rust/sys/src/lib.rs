//! The declarations of `pethuvazh.h`: functions, flags and statuses of `libpethuvazh.a`. The crate `pethuvazh` has a safe interface.
//!
//! # Safety
//!
//! No pointer may be null, even if a length is 0. Each points to as many bytes as its length says, at most `isize::MAX`. The buffer and
//! `*length` overlap neither each other nor the input, and nothing else uses them during the call. The library keeps no pointer. It reads
//! nothing of the buffer, so that may be uninitialized, and writes the first `*length` bytes of it, or none if they are more than `room`.

#![no_std]
#![deny(missing_docs)]

unsafe extern "C" {
    /// Writes the report on a module, which `json` has as JSON, into `text`. Returns one of [`report_status`].
    pub fn pethuvazh_report_into(
        json: *const u8,
        json_length: usize,
        flags: u32,
        text: *mut u8,
        room: usize,
        length: *mut usize,
    ) -> u32;

    /// Writes the replies to lines into `text`. Returns one of [`lines_status`].
    pub fn pethuvazh_answer_into(
        lines: *const u8,
        lines_length: usize,
        text: *mut u8,
        room: usize,
        length: *mut usize,
    ) -> u32;
}

/// The statuses of [`pethuvazh_report_into`].
pub mod report_status {
    /// A module without a fault, with a layout for each type.
    pub const ACCEPTED: u32 = 0;
    /// A module with a fault, or with a type without a layout.
    pub const REFUSED: u32 = 1;
    /// A bit is set that is no flag, or both policies of a kind are.
    pub const BAD_FLAGS: u32 = 2;
    /// An allocation failed.
    pub const OUT_OF_MEMORY: u32 = 5;
    /// The input is no module.
    pub const NOT_MODULE: u32 = 6;
}

/// The statuses of [`pethuvazh_answer_into`].
pub mod lines_status {
    /// Each line has a reply.
    pub const ANSWERED: u32 = 0;
    /// A line isn't a question; the text ends with its number.
    pub const BAD_LINE: u32 = 2;
    /// An allocation failed.
    pub const OUT_OF_MEMORY: u32 = 5;
    /// The lines have more than 1,048,576 bytes.
    pub const TOO_LONG: u32 = 6;
}

/// The flags of [`pethuvazh_report_into`].
pub mod flags {
    /// Doesn't check uniform control flow.
    pub const NO_CONTROL_FLOW_UNIFORMITY: u32 = 1 << 0;
    /// Allows non-uniform indexes of arrays of sampled textures and samplers.
    pub const NON_UNIFORM_TEXTURES: u32 = 1 << 1;
    /// Allows non-uniform indexes of arrays of storage textures.
    pub const NON_UNIFORM_STORAGE_TEXTURES: u32 = 1 << 2;
    /// Reports as text, and not as one line of JSON.
    pub const FOR_PEOPLE: u32 = 1 << 3;
    /// Checks uniform control flow as naga specifies it.
    pub const NAGA_UNIFORMITY: u32 = 1 << 4;
    /// Draws structs in the text.
    pub const DRAWING: u32 = 1 << 5;
    /// Reports resources, overrides, inputs and outputs.
    pub const RESOURCES: u32 = 1 << 6;
    /// Reports what a back end checks of indexes.
    pub const BOUNDS_CHECKS: u32 = 1 << 7;
    /// Restricts indexes of arrays, vectors and matrices.
    pub const INDEX_RESTRICT: u32 = 1 << 8;
    /// Reads zero and skips writes at indexes of arrays, vectors and matrices.
    pub const INDEX_READ_ZERO_SKIP_WRITE: u32 = 1 << 9;
    /// Restricts indexes of uniform and storage buffers.
    pub const BUFFER_RESTRICT: u32 = 1 << 10;
    /// Reads zero and skips writes at indexes of uniform and storage buffers.
    pub const BUFFER_READ_ZERO_SKIP_WRITE: u32 = 1 << 11;
    /// Restricts coordinates, levels and samples of loads of texels.
    pub const IMAGE_LOAD_RESTRICT: u32 = 1 << 12;
    /// Reads zero at coordinates, levels and samples of loads of texels.
    pub const IMAGE_LOAD_READ_ZERO_SKIP_WRITE: u32 = 1 << 13;
    /// Restricts indexes of arrays of resources.
    pub const BINDING_ARRAY_RESTRICT: u32 = 1 << 14;
    /// Reads zero and skips writes at indexes of arrays of resources.
    pub const BINDING_ARRAY_READ_ZERO_SKIP_WRITE: u32 = 1 << 15;
    /// Declares structs in the text.
    pub const ALL_STRUCTS: u32 = 1 << 16;
    /// Explains codes and results in the text.
    pub const EXPLAIN: u32 = 1 << 17;
    /// Shows all errors, causes, entry points and globals in the text.
    pub const ALL: u32 = 1 << 18;
}
