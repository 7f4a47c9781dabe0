//! Comparisons of bytes under masks. Bit i of a mask is for byte i of a block.

use crate::input::value;

/// The bytes of a word whose bits are set in the lowest eight bits of a mask, as ones.
fn spread(mask: u64) -> u64 {
    const ONES: u64 = 0x0101_0101_0101_0101;
    // Byte i keeps bit i alone. Adding 0x7f carries into a byte's highest bit unless the byte is 0.
    let own_bits = ((mask & 0xff) * ONES) & 0x8040_2010_0804_0201;
    (((own_bits + 0x7f * ONES) >> 7) & ONES) * 0xff
}

/// Whether two blocks agree at each byte that is not in the mask.
pub fn agree_outside(mask: u64, sent: &[u8], kept: &[u8]) -> bool {
    if mask == 0 {
        return sent == kept;
    }
    let words = sent.chunks_exact(8).zip(kept.chunks_exact(8));
    words
        .enumerate()
        .all(|(word, (sent, kept))| (value(sent) ^ value(kept)) & !spread(mask >> (8 * word)) == 0)
}

/// Whether the bytes sent are those of the block in the mask, rising.
pub fn agree_under(mask: u64, sent: &[u8], kept: &[u8]) -> bool {
    let mut rest = mask;
    sent.iter().all(|&byte| {
        let index = rest.trailing_zeros() as usize;
        rest &= rest.wrapping_sub(1);
        kept.get(index) == Some(&byte)
    })
}

#[cfg(test)]
mod tests {
    use super::*;

    #[test]
    fn a_mask_spreads_to_whole_bytes() {
        assert_eq!(spread(0), 0);
        assert_eq!(spread(0b1000_0001), 0xff00_0000_0000_00ff);
        assert_eq!(spread(0x1ff), u64::MAX);
    }

    #[test]
    fn only_the_bytes_of_a_mask_count() {
        let (kept, sent) = ([1, 2, 3, 4, 5, 6, 7, 8], [1, 9, 3, 4, 5, 6, 7, 8]);
        assert!(agree_outside(0b10, &sent, &kept) && !agree_outside(0b100, &sent, &kept));
        assert!(agree_under(0b101, &[1, 3], &kept) && !agree_under(0b11, &[1, 9], &kept));
    }
}
