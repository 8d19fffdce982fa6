//! Rows on segments from 10.0.0.1 to 10.0.0.2.
use crate::words::number;
use arrayvec::ArrayVec;
use kit_text::{LineError, push_bytes, push_fields, push_named_fault, read_bytes};
use std::alloc::Global;
use tcp_wire::{
    Addr, Flags, Header, RawSegment, Segment, Seq, decode, encode, text_offset, write_around,
};

pub(crate) const SRC: Addr = Addr([10, 0, 0, 1]);

pub(crate) const DST: Addr = Addr([10, 0, 0, 2]);

/// The header of an acknowledgement from port 1 to port 2.
const HEADER: Header = Header {
    src_port: 1,
    dst_port: 2,
    seq: Seq(1),
    ack: Seq(1),
    reserved: 0,
    flags: Flags::ACK,
    window: 4096,
    urgent: 0,
};

/// Appends the bytes that are written for the segment of these bytes.
pub(crate) fn push_written(alloc: Global, text: &mut String, rest: &[u8]) -> Result<(), LineError> {
    let bytes = read_bytes(alloc, rest)?;
    match decode(SRC, DST, &bytes) {
        Ok(segment) => push_segment(alloc, text, &segment),
        Err(fault) => Ok(push_named_fault(text, fault)?),
    }
}

/// Appends the bytes of a segment.
fn push_segment(alloc: Global, text: &mut String, segment: &Segment<'_>) -> Result<(), LineError> {
    let mut out = vec![in alloc; 0u8; segment.wire_len()]?;
    if !segment.is_valid() || out.len() < segment.wire_len() {
        return Err(LineError::BadForm);
    }
    let len = encode(segment, SRC, DST, &mut out);
    write!(text, "{len} ")?;
    Ok(push_bytes(alloc, text, &out)?)
}

/// Appends the area of a segment, the count of its options, and its fields.
pub(crate) fn push_parsed(alloc: Global, text: &mut String, rest: &[u8]) -> Result<(), LineError> {
    let bytes = read_bytes(alloc, rest)?;
    let raw = match RawSegment::parse(SRC, DST, &bytes) {
        Ok(raw) => raw,
        Err(fault) => return Ok(push_named_fault(text, fault)?),
    };
    let has_area = raw.has_area();
    let count = raw.options().len();
    write!(text, "area {has_area} ")?;
    push_bytes(alloc, text, raw.area)?;
    write!(text, " options {count} ")?;
    Ok(push_fields(alloc, text, &raw.segment())?)
}

/// Appends the bytes of a segment that is written around its text.
pub(crate) fn push_around(alloc: Global, text: &mut String) -> Result<(), LineError> {
    let mut out = [0xaa; 22];
    out[20] = 0x41;
    let start = text_offset(&[], 0);
    let len = write_around(&HEADER, &[], 0, 1, SRC, DST, &mut out);
    write!(text, "{start} {len} ")?;
    Ok(push_bytes(alloc, text, &out)?)
}

/// Appends the length of a segment with these reserved bits, which is 0 where it can't be written.
pub(crate) fn push_length(text: &mut String, rest: &[u8]) -> Result<(), LineError> {
    let mut header = HEADER;
    header.reserved = (number(rest)? % 256) as u8;
    let segment = Segment {
        header,
        options: ArrayVec::new(),
        pad: 0,
        text: &[],
    };
    let is_valid = segment.is_valid();
    let len = segment.wire_len();
    write!(text, "{is_valid} {len}")?;
    Ok(())
}
