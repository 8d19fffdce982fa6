//! Rows on sequence numbers and control bits.
use crate::words::{number, two_words};
use kit_text::{LineError, read_number};
use tcp_wire::{Flags, Seq};

const IN_WINDOW: &[u8] = b"in-window";

const FLAGS: &[u8] = b"flags";

/// Appends the answer of a call on a sequence number.
pub(crate) fn push_seq(text: &mut String, call: &[u8], rest: &[u8]) -> Result<(), LineError> {
    let (first, rest) = two_words(rest)?;
    let first = Seq(number(first)?);
    if call == IN_WINDOW {
        let (next, size) = two_words(rest)?;
        let answer = first.in_window(Seq(number(next)?), number(size)?);
        write!(text, "{answer}")?;
        return Ok(());
    }
    let second = number(rest)?;
    match call {
        b"plus" => write!(text, "{}", first.plus(second).0)?,
        b"minus" => write!(text, "{}", first.minus(Seq(second)))?,
        _ => write!(text, "{}", first.before(Seq(second)))?,
    }
    Ok(())
}

/// The control bits that a word gives as a number.
fn flags_of(word: &[u8]) -> Result<Flags, LineError> {
    let bits = read_number(word, 255).ok_or(LineError::BadForm)?;
    Ok(Flags(bits as u8))
}

/// Appends the names of control bits, or the answer of a call on two of them.
pub(crate) fn push_bits(text: &mut String, call: &[u8], rest: &[u8]) -> Result<(), LineError> {
    if call == FLAGS {
        write!(text, "{}", flags_of(rest)?)?;
        return Ok(());
    }
    let (first, second) = two_words(rest)?;
    let first = flags_of(first)?;
    let second = flags_of(second)?;
    match call {
        b"contains" => write!(text, "{}", first.contains(second))?,
        b"union" => write!(text, "{}", first.union(second))?,
        _ => return Err(LineError::BadForm),
    }
    Ok(())
}
