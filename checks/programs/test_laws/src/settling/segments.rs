//! The content of the segments that an end emitted, read from their bytes (RFC 9293, 3.1).
use tcp_replay::{Side, World};
use tcp_wire::{Flags, Seq};

/// A segment that was emitted.
#[derive(Clone, Copy)]
pub(crate) struct Segment {
    /// The position of its sequence number in the direction of the end that emitted it.
    pub(crate) start: u64,
    /// The position after its text and its SYN or FIN.
    pub(crate) end: u64,
    pub(crate) is_reset: bool,
}

impl Segment {
    /// Whether it has something at this position.
    pub(crate) fn covers(&self, position: u64) -> bool {
        !self.is_reset && self.start <= position && position < self.end
    }
}

/// How many sequence numbers a segment takes (RFC 9293, 3.4).
fn numbers_of(flags: Flags, len: usize, offset: u8) -> u64 {
    let text = len.saturating_sub(usize::from(offset / 16) * 4) as u64;
    text.saturating_add(u64::from(flags.is_syn()))
        .saturating_add(u64::from(flags.is_fin()))
}

/// Segment `k` that this side emitted.
pub(crate) fn segment_at(world: &World, side: Side, k: usize) -> Option<Segment> {
    let bytes = world.sent(side, k)?;
    let [_, _, _, _, s0, s1, s2, s3, _, _, _, _, offset, bits, ..] = bytes else {
        return None;
    };
    let flags = Flags(*bits);
    let end = world.endpoint(side);
    let seq = Seq(u32::from_be_bytes([*s0, *s1, *s2, *s3]));
    let start = seq.position(end.config().isn, end.snd_una());
    Some(Segment {
        start,
        end: start.saturating_add(numbers_of(flags, bytes.len(), *offset)),
        is_reset: flags.is_rst(),
    })
}
