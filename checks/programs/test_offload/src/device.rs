//! What a device does to segments.

/// The ones' complement sum of 16 bits (RFC 1071, 1), word by word.
fn ones_sum(bytes: &[u8]) -> u16 {
    let mut sum: u16 = 0;
    for (place, byte) in bytes.iter().enumerate() {
        let word = if place % 2 == 0 {
            u16::from(*byte) << 8
        } else {
            u16::from(*byte)
        };
        let (low, carry) = sum.overflowing_add(word);
        sum = low.wrapping_add(u16::from(carry));
    }
    sum
}

/// Sums a segment, and puts the complement of the sum into its checksum field.
pub(crate) fn complete(bytes: &mut [u8]) {
    let field = !ones_sum(bytes);
    if let Some(place) = bytes.get_mut(16) {
        *place = (field >> 8) as u8;
    }
    if let Some(place) = bytes.get_mut(17) {
        *place = (field & 255) as u8;
    }
}

/// Spoils the checksum field, which a device has checked.
pub(crate) fn spoil(bytes: &mut [u8]) {
    if let Some(place) = bytes.get_mut(16) {
        *place ^= 255;
    }
}
