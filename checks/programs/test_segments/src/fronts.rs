//! Rows on cut segments from 10.0.0.1 to 10.0.0.2.
use crate::segments::{DST, SRC};
use crate::words::{number, two_words};
use kit_text::{LineError, push_bytes, push_named_fault, read_bytes};
use std::alloc::Global;
use tcp_wire::{checksum, decode};

/// Writes the right checksum.
fn mend(bytes: &mut [u8]) -> Result<(), LineError> {
    if bytes.len() < 20 || bytes.len() > 65_515 {
        return Err(LineError::BadForm);
    }
    let [high, low] = checksum(SRC, DST, bytes).to_be_bytes();
    bytes[16] = high;
    bytes[17] = low;
    Ok(())
}

/// Appends the fault of a segment, or its text.
fn push_decoded(alloc: Global, text: &mut String, bytes: &[u8]) -> Result<(), LineError> {
    match decode(SRC, DST, bytes) {
        Ok(segment) => {
            text.push_str("text ")?;
            Ok(push_bytes(alloc, text, segment.text)?)
        }
        Err(fault) => Ok(push_named_fault(text, fault)?),
    }
}

/// Appends what the first `len` bytes of a segment are read as, with its checksum or with the right one.
fn push_front(
    alloc: Global,
    text: &mut String,
    bytes: &[u8],
    len: usize,
    is_mended: bool,
) -> Result<(), LineError> {
    let Some(front) = bytes.get(..len) else {
        return Err(LineError::BadForm);
    };
    let mut front = front.to_vec(alloc)?;
    if is_mended {
        mend(&mut front)?;
    }
    write!(text, "{len} ")?;
    push_decoded(alloc, text, &front)
}

/// Appends what the segment's first bytes are read as, for each length from the first number up to the second.
pub(crate) fn push_fronts(
    alloc: Global,
    text: &mut String,
    rest: &[u8],
    is_mended: bool,
) -> Result<(), LineError> {
    let (from, rest) = two_words(rest)?;
    let (to, bytes) = two_words(rest)?;
    let from = number(from)? as usize;
    let to = number(to)? as usize;
    let bytes = read_bytes(alloc, bytes)?;
    for len in from..to + 1 {
        if len > from {
            text.push_str(", ")?;
        }
        push_front(alloc, text, &bytes, len, is_mended)?;
    }
    Ok(())
}
