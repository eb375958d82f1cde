//! The integrity sum, worked out twice: by long division for trust, by the usual byte table for speed.
//! The division shares nothing with the table.

/// A way to work out the integrity sum of some bytes.
pub trait Sum {
    fn of(bytes: &[u8]) -> u32;
}

/// The sum as the remainder of a polynomial division, one bit after the other.
pub struct Division;

/// The sum a byte at a time from 256 entries; for benchmarks.
pub struct Table;

const REFLECTED: u32 = 0xEDB8_8320;

/// The divisor with its highest power first, x^32 included.
const DIVISOR: u64 = 1 << 32 | REFLECTED.reverse_bits() as u64;

impl Sum for Division {
    fn of(bytes: &[u8]) -> u32 {
        let mut remainder = 0;
        // Four zero bytes multiply by x^32; the start value of all ones inverts the first 32 bits of that product.
        for (place, &byte) in bytes.iter().chain(&[0; 4]).enumerate() {
            remainder = bring_down(remainder, if place < 4 { !byte } else { byte });
        }
        !(remainder as u32).reverse_bits()
    }
}

/// Brings down the eight bits of a byte, lowest first, and takes the divisor away wherever it goes in.
fn bring_down(mut remainder: u64, byte: u8) -> u64 {
    for bit in 0..8 {
        remainder = remainder << 1 | u64::from(byte >> bit & 1);
        if remainder >> 32 == 1 {
            remainder ^= DIVISOR;
        }
    }
    remainder
}

impl Sum for Table {
    fn of(bytes: &[u8]) -> u32 {
        !bytes.iter().fold(!0, |sum, &byte| sum >> 8 ^ ENTRIES[usize::from(sum as u8 ^ byte)])
    }
}

const ENTRIES: [u32; 256] = entries();

const fn entries() -> [u32; 256] {
    let mut entries = [0; 256];
    let mut byte = 0;
    while byte < 256 {
        let mut entry = byte as u32;
        let mut bit = 0;
        while bit < 8 {
            entry = if entry & 1 == 1 { entry >> 1 ^ REFLECTED } else { entry >> 1 };
            bit += 1;
        }
        entries[byte] = entry;
        byte += 1;
    }
    entries
}

#[cfg(test)]
mod tests {
    use super::*;
    use crate::cases::published_sums;

    #[test]
    fn both_ways_give_the_published_sums() {
        for (bytes, sum) in published_sums() {
            assert_eq!(Division::of(&bytes), sum, "division of {bytes:02x?}");
            assert_eq!(Table::of(&bytes), sum, "table of {bytes:02x?}");
        }
    }

    #[test]
    fn both_ways_agree_at_every_short_length() {
        let bytes: Vec<u8> = (0..600_u32).map(|place| (place * place + 7 * place) as u8).collect();
        for length in 0..=bytes.len() {
            assert_eq!(Division::of(&bytes[..length]), Table::of(&bytes[..length]), "length {length}");
        }
    }
}
