//! The archive's words as lengths and places.

use core::ops::Range;

/// A word as a length or a place; `usize::MAX` for one that is greater.
pub(crate) fn size(word: u64) -> usize {
    usize::try_from(word).unwrap_or(usize::MAX)
}

/// A length or a place as a word.
pub(crate) fn word(size: usize) -> u64 {
    u64::try_from(size).unwrap_or(u64::MAX)
}

/// The places from a start to an end.
pub(crate) fn places(start: u64, end: u64) -> Range<usize> {
    size(start)..size(end)
}
