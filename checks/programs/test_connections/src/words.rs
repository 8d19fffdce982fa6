//! The words of a line.
use kit_text::{LineError, SPACE, cut, read_number};

/// The number that `-` stands for: no time, no limit.
pub(crate) const NEVER: u64 = u64::MAX;

/// The first of some words, and the words after it.
pub(crate) fn first_word(words: &[u8]) -> (&[u8], &[u8]) {
    let (first, rest) = cut(SPACE, words);
    (first, rest.unwrap_or(b""))
}

/// The first of some words as a number, [`NEVER`] where it is `-`, and the words after it.
pub(crate) fn first_number(words: &[u8]) -> Result<(u64, &[u8]), LineError> {
    let (first, rest) = first_word(words);
    if let b"-" = first {
        return Ok((NEVER, rest));
    }
    match read_number(first, NEVER) {
        Some(number) => Ok((number, rest)),
        None => Err(LineError::BadForm),
    }
}

/// A time or a limit, if there is one.
pub(crate) fn time_of(number: u64) -> Option<u64> {
    if number == NEVER { None } else { Some(number) }
}
