//! Words of a row, and rows on words.
use kit_text::{LineError, Lines, SPACE, cut, read_bytes, read_number};
use std::alloc::Global;

/// The two words of a row.
pub(crate) fn two_words(rest: &[u8]) -> Result<(&[u8], &[u8]), LineError> {
    let (first, rest) = cut(SPACE, rest);
    Ok((first, rest.ok_or(LineError::BadForm)?))
}

/// A number of at most 32 bits.
pub(crate) fn number(word: &[u8]) -> Result<u32, LineError> {
    let number = read_number(word, 4_294_967_295).ok_or(LineError::BadForm)?;
    Ok(number as u32)
}

/// Appends the number that a word is read as, where the second word is the greatest.
pub(crate) fn push_number(text: &mut String, rest: &[u8]) -> Result<(), LineError> {
    let (word, most) = two_words(rest)?;
    let most = read_number(most, u64::MAX).ok_or(LineError::BadForm)?;
    match read_number(word, most) {
        Some(number) => write!(text, "{number}")?,
        None => text.push_str("none")?,
    }
    Ok(())
}

/// Appends the numbers of the lines of a text, or the line of its first byte above 7f.
pub(crate) fn push_lines(alloc: Global, text: &mut String, rest: &[u8]) -> Result<(), LineError> {
    let bytes = read_bytes(alloc, rest)?;
    let lines = match Lines::new(&bytes) {
        Ok(lines) => lines,
        Err(line) => {
            write!(text, "above 7f in {line}")?;
            return Ok(());
        }
    };
    text.push_str("lines")?;
    for (number, _) in lines {
        write!(text, " {number}")?;
    }
    Ok(())
}
