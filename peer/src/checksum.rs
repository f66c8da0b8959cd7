//! The frame checksum: R3.3.

/// x^16 + x^12 + x^5 + 1 with its bits reversed, because bytes go in low bit first.
const POLYNOMIAL: u16 = 0x8408;

/// R3.3, bit by bit. It makes the table and the tests hold the table against it.
pub const fn bit_rule(mut sum: u16, mut byte: u8) -> u16 {
    let mut bit = 0;
    while bit < 8 {
        let differs = (sum ^ byte as u16) & 1 != 0;
        sum >>= 1;
        if differs {
            sum ^= POLYNOMIAL;
        }
        byte >>= 1;
        bit += 1;
    }
    sum
}

const fn every_byte() -> [u16; 256] {
    let mut table = [0; 256];
    let mut byte = 0;
    while byte < 256 {
        table[byte] = bit_rule(0, byte as u8);
        byte += 1;
    }
    table
}

static TABLE: [u16; 256] = every_byte();

#[inline]
pub fn step(sum: u16, byte: u8) -> u16 {
    let [low, high] = sum.to_le_bytes();
    u16::from(high) ^ TABLE[usize::from(low ^ byte)]
}

#[inline]
pub fn checksum(bytes: &[u8]) -> u16 {
    bytes.iter().fold(0, |sum, &byte| step(sum, byte))
}
