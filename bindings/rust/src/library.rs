//! Calls of the library.

use crate::Error;
use pethuvazh_sys::{pethuvazh_answer_into, pethuvazh_report_into, report_status};
use std::mem::MaybeUninit;

/// The kind of text that is requested for an input.
#[derive(Clone, Copy)]
pub(crate) enum Request {
    /// A report, by its flags.
    Report(u32),
    /// Replies to lines.
    Answers,
}

/// A buffer whose bytes needn't be initialized.
type Room = [MaybeUninit<u8>];

/// The room that is tried where a larger one isn't to be had.
const LEAST_ROOM: usize = 4096;
/// A text seldom is so many times longer than its input. Pages of the room that are never written cost nothing.
const TIMES_INPUT: usize = 8;

impl Request {
    /// Writes the text for an input into `room`, if it fits. Returns the status and the length of the text.
    ///
    /// If the length is at most that of `room`, so many bytes of it are initialized.
    fn write_into(self, input: &[u8], room: &mut Room) -> (u32, usize) {
        let mut length = 0;
        let (from, count) = (input.as_ptr(), input.len());
        let (to, most) = (room.as_mut_ptr().cast(), room.len());
        // SAFETY: pointers and lengths are those of slices and of a number that are lent for the call, and none is null. The library keeps
        // none of them. It reads nothing of the room, so that may be uninitialized.
        let status = unsafe {
            match self {
                Request::Report(flags) => {
                    pethuvazh_report_into(from, count, flags, to, most, &mut length)
                }
                Request::Answers => pethuvazh_answer_into(from, count, to, most, &mut length),
            }
        };
        (status, length)
    }
}

/// Returns the room that is tried first for the text for an input of so many bytes.
fn room_for(length: usize) -> usize {
    length
        .saturating_mul(TIMES_INPUT)
        .saturating_add(LEAST_ROOM)
}

/// Returns the status and the text for an input.
pub(crate) fn ask(request: Request, input: &[u8]) -> Result<(u32, String), Error> {
    if !has_instructions() {
        return Err(Error::Processor);
    }
    let room = room_for(input.len());
    let (status, text) = filled(room, |room| request.write_into(input, room))?;
    match String::from_utf8(text) {
        Ok(text) => Ok((status, text)),
        Err(_) => Err(Error::Answer {
            path: String::new(),
            expected: "UTF-8",
        }),
    }
}

/// Returns whether the processor has what the archive is built for.
#[cfg(target_arch = "x86_64")]
fn has_instructions() -> bool {
    is_x86_feature_detected!("ssse3")
        && is_x86_feature_detected!("sse4.2")
        && is_x86_feature_detected!("popcnt")
}

#[cfg(not(target_arch = "x86_64"))]
fn has_instructions() -> bool {
    false
}

/// Returns the status and the bytes that `write` puts into a buffer. It is called once more if the first buffer is too small.
///
/// `write` returns a status and a length, and initializes as many bytes of a buffer that has them.
fn filled(
    room: usize,
    mut write: impl FnMut(&mut Room) -> (u32, usize),
) -> Result<(u32, Vec<u8>), Error> {
    let mut text = Vec::new();
    // A text may fit into less than the room for it.
    if text.try_reserve_exact(room).is_err() {
        reserve(&mut text, LEAST_ROOM)?;
    }
    let (mut status, mut length) = write(text.spare_capacity_mut());
    if length > text.capacity() {
        reserve(&mut text, length)?;
        (status, length) = write(text.spare_capacity_mut());
    }
    if status == report_status::OUT_OF_MEMORY {
        return Err(Error::OutOfMemory);
    }
    if length > text.capacity() {
        return Err(Error::Library { status });
    }
    // SAFETY: `write` initialized so many bytes.
    unsafe { text.set_len(length) };
    text.shrink_to_fit();
    Ok((status, text))
}

fn reserve(text: &mut Vec<u8>, room: usize) -> Result<(), Error> {
    text.try_reserve_exact(room).map_err(|_| Error::OutOfMemory)
}

#[cfg(test)]
mod tests {
    use super::*;

    /// Fills a buffer with a text of so many bytes, and counts the calls.
    fn fill(room: usize, status: u32, length: usize) -> (Result<(u32, Vec<u8>), Error>, usize) {
        let mut calls = 0;
        let found = filled(room, |room| {
            calls += 1;
            if length <= room.len() {
                room[..length].fill(MaybeUninit::new(7));
            }
            (status, length)
        });
        (found, calls)
    }

    #[test]
    fn a_text_with_room_is_asked_for_once() {
        for length in [0, 1, 99, 100] {
            assert_eq!(fill(100, 0, length), (Ok((0, vec![7; length])), 1));
        }
        assert_eq!(fill(100, 1, 200), (Ok((1, vec![7; 200])), 2));
    }

    #[test]
    fn most_texts_have_room() {
        assert_eq!(
            [0, 1000, usize::MAX].map(room_for),
            [4096, 12_096, usize::MAX]
        );
    }

    #[test]
    fn refused_memory_is_an_error() {
        assert_eq!(
            fill(100, report_status::OUT_OF_MEMORY, 0),
            (Err(Error::OutOfMemory), 1)
        );
        // The small room is tried where the large one isn't to be had.
        assert_eq!(fill(usize::MAX, 0, 1), (Ok((0, vec![7])), 1));
        assert_eq!(fill(100, 0, usize::MAX), (Err(Error::OutOfMemory), 1));
    }

    #[test]
    fn a_text_that_grows_is_an_error() {
        let mut lengths = [200, 100_000].into_iter();
        let found = filled(100, |_| (9, lengths.next().unwrap()));
        assert_eq!(found, Err(Error::Library { status: 9 }));
    }
}
