//! Rows on sums of words, and on checksums of long texts.
use crate::words::{number, two_words};
use kit_text::LineError;
use std::alloc::{AllocError, Global};
use tcp_wire::{Addr, checks, checksum, word_sum};

/// The length in bytes of the longest segment.
const MAX_LEN: usize = 65515;

/// The header of an acknowledgement from port 1 to port 2, with the checksum field of 65495 zero bytes of text.
const HEADER: [u8; 20] = [
    0x00, 0x01, 0x00, 0x02, 0x00, 0x00, 0x00, 0x00, 0x00, 0x00, 0x00, 0x00, 0x50, 0x10, 0x10, 0x00,
    0x8b, 0xf7, 0x00, 0x00,
];

/// The sum of the words, one byte after the other.
fn plain_sum(bytes: &[u8]) -> u32 {
    let mut sum = 0u32;
    for (i, byte) in bytes.iter().enumerate() {
        let weight = if i % 2 == 0 { 256 } else { 1 };
        sum = sum.wrapping_add(weight * u32::from(*byte));
    }
    sum
}

/// Whether the first `len` bytes have the sum that is found plainly.
fn sums_agree(bytes: &[u8], len: usize) -> bool {
    if len > MAX_LEN || len > bytes.len() {
        return false;
    }
    word_sum(&bytes[..len]) == plain_sum(&bytes[..len])
}

/// As many bytes of 129 to 255 as the longest segment has, in a pattern of 127.
fn varied_bytes(alloc: Global) -> Result<Vec<u8>, AllocError> {
    let mut bytes = Vec::new(alloc);
    for i in 0..MAX_LEN as u32 {
        bytes.push((i * 7 % 127) as u8 + 129)?;
    }
    Ok(bytes)
}

/// Appends how many lengths from the first number to the second have sums that agree.
pub(crate) fn push_sums(alloc: Global, text: &mut String, rest: &[u8]) -> Result<(), LineError> {
    let (from, to) = two_words(rest)?;
    let from = number(from)? as usize;
    let to = number(to)? as usize;
    let bytes = varied_bytes(alloc)?;
    let mut count = 0u64;
    for len in from..to + 1 {
        if sums_agree(&bytes, len) {
            count = count.wrapping_add(1);
        }
    }
    write!(text, "{count} agree")?;
    Ok(())
}

/// The header, and `count` bytes ff after it.
fn header_and_ones(alloc: Global, count: u32) -> Result<Vec<u8>, AllocError> {
    let mut bytes = Vec::new(alloc);
    bytes.extend_from_slice(&HEADER)?;
    for _ in 0..count {
        bytes.push(255)?;
    }
    Ok(bytes)
}

/// Appends the checksum of a header and this many bytes ff after it.
pub(crate) fn push_ones(alloc: Global, text: &mut String, rest: &[u8]) -> Result<(), LineError> {
    let bytes = header_and_ones(alloc, number(rest)?)?;
    if bytes.len() < 20 || bytes.len() > MAX_LEN {
        return Err(LineError::BadForm);
    }
    let field = checksum(Addr([10, 0, 0, 1]), Addr([10, 0, 0, 2]), &bytes);
    write!(text, "checksum {field}")?;
    Ok(())
}

/// Appends the checksum of 65515 bytes ff between the addresses 255.255.255.255, and whether these check.
pub(crate) fn push_all_ones(alloc: Global, text: &mut String) -> Result<(), LineError> {
    let all = Addr([255; 4]);
    let bytes = vec![in alloc; 255u8; MAX_LEN]?;
    let field = checksum(all, all, &bytes);
    let is_right = checks(all, all, &bytes);
    write!(text, "checksum {field} {is_right}")?;
    Ok(())
}
