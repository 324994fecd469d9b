//! Seats on offer: paper 01, "Seats on offer". A block has eight seats to the
//! byte, a set bit is sold, and the zero bits are on offer.

/// The longest block, in bytes.
pub const LONGEST: usize = 64;

// The blocks that the tests use.

/// Case 11: of eight seats the first and the third are sold.
pub const TWO_SOLD: &[u8] = &[0xA0];

/// The longest block with no seat sold, and with every seat.
pub const ALL_FREE: &[u8] = &[0x00; LONGEST];
pub const SOLD_OUT: &[u8] = &[0xFF; LONGEST];

/// A block that is a byte too long.
pub const TOO_LONG: &[u8] = &[0x00; LONGEST + 1];

/// The seats on offer, or `None` for a block of more than 64 bytes.
pub fn on_offer(block: &[u8]) -> Option<u32> {
    (block.len() <= LONGEST).then(|| block.iter().map(|byte| byte.count_zeros()).sum())
}

#[cfg(test)]
mod tests {
    use super::*;

    #[test]
    fn counts_zero_bits() {
        assert_eq!(on_offer(&[]), Some(0));
        assert_eq!(on_offer(TWO_SOLD), Some(6));
        assert_eq!(on_offer(&[0xFF, 0x00, 0x01]), Some(15));
        assert_eq!(on_offer(ALL_FREE), Some(512));
        assert_eq!(on_offer(SOLD_OUT), Some(0));
        assert_eq!(on_offer(TOO_LONG), None);
    }
}
