//! The table against the bit rule, and both against published values.

use peer::checksum::{bit_rule, checksum, step};
use peer::random::Random;

fn by_bits(seed: u16, bytes: &[u8]) -> u16 {
    bytes.iter().fold(seed, |sum, &byte| bit_rule(sum, byte))
}

fn by_table(seed: u16, bytes: &[u8]) -> u16 {
    bytes.iter().fold(seed, |sum, &byte| step(sum, byte))
}

/// The short formula of the IFX paper, 8.1.2.
fn short_formula(seed: u16, byte: u8) -> u16 {
    let h1 = (u32::from(seed) ^ u32::from(byte)) & 0xFF;
    let h2 = h1 & 0x0F;
    let h3 = (h2 << 4) ^ h1;
    let h4 = h3 >> 4;
    ((((((h3 << 1) ^ h4) << 4) ^ h2) << 3) ^ h4 ^ (u32::from(seed) >> 8)) as u16
}

#[test]
fn every_table_step_is_the_bit_rule() {
    for sum in 0..=u16::MAX {
        for byte in [0x00, 0x01, 0x5A, 0x80, 0xFF, (sum >> 3) as u8] {
            assert_eq!(step(sum, byte), bit_rule(sum, byte));
        }
    }
    for byte in 0..=u8::MAX {
        assert_eq!(step(0, byte), bit_rule(0, byte));
        assert_eq!(step(0xFFFF, byte), bit_rule(0xFFFF, byte));
    }
}

#[test]
fn short_formula_of_the_paper_agrees() {
    let mut random = Random::new(3);
    for _ in 0..100_000 {
        let (sum, byte) = (random.word() as u16, random.word() as u8);
        assert_eq!(step(sum, byte), short_formula(sum, byte));
    }
}

#[test]
fn random_strings_agree() {
    let mut random = Random::new(4);
    for length in 0..1100 {
        let bytes = random.bytes(length);
        assert_eq!(checksum(&bytes), by_bits(0, &bytes));
    }
}

/// The table of RFC 1662, which the IFX paper (8.1.3) names: its first and last 16 entries.
#[test]
fn table_of_rfc_1662() {
    let first = [
        0x0000, 0x1189, 0x2312, 0x329B, 0x4624, 0x57AD, 0x6536, 0x74BF, 0x8C48, 0x9DC1, 0xAF5A,
        0xBED3, 0xCA6C, 0xDBE5, 0xE97E, 0xF8F7,
    ];
    let last = [
        0xF78F, 0xE606, 0xD49D, 0xC514, 0xB1AB, 0xA022, 0x92B9, 0x8330, 0x7BC7, 0x6A4E, 0x58D5,
        0x495C, 0x3DE3, 0x2C6A, 0x1EF1, 0x0F78,
    ];
    for byte in 0..16u8 {
        assert_eq!(step(0, byte), first[usize::from(byte)]);
        assert_eq!(step(0, 0xF0 | byte), last[usize::from(byte)]);
    }
}

#[test]
fn kermit_values() {
    assert_eq!(checksum(b""), 0x0000);
    assert_eq!(checksum(b"A"), 0x538D);
    assert_eq!(checksum(b"123456789"), 0x2189);
}

/// Other published sums of the same polynomial, from other starts:
/// CRC-16/X-25, MCRF4XX, TMS37157, RIELLO and ISO 14443-3 type A.
#[test]
fn check_values_from_other_starts() {
    let digits = b"123456789";
    for (seed, inverted, check) in [
        (0xFFFF, 0xFFFF, 0x906E),
        (0xFFFF, 0x0000, 0x6F91),
        (0x3791, 0x0000, 0x26B1),
        (0x554D, 0x0000, 0x63D0),
        (0x6363, 0x0000, 0xBF05),
    ] {
        assert_eq!(by_table(seed, digits) ^ inverted, check);
        assert_eq!(by_bits(seed, digits) ^ inverted, check);
    }
}

/// The examples of ISO 14443-3, annex B.
#[test]
fn iso_14443_examples() {
    assert_eq!(by_table(0x6363, &[0x00, 0x00]).to_le_bytes(), [0xA0, 0x1E]);
    assert_eq!(by_table(0x6363, &[0x12, 0x34]).to_le_bytes(), [0x26, 0xCF]);
    for (bytes, sum) in [
        (&[0x00, 0x00, 0x00][..], [0xCC, 0xC6]),
        (&[0x0F, 0xAA, 0xFF], [0xFC, 0xD1]),
        (&[0x0A, 0x12, 0x34, 0x56], [0x2C, 0xF6]),
    ] {
        assert_eq!((by_table(0xFFFF, bytes) ^ 0xFFFF).to_le_bytes(), sum);
    }
}

/// With start 0 and the sum low byte first, a whole frame sums to 0.
#[test]
fn frame_with_its_sum_leaves_nothing() {
    let mut random = Random::new(5);
    for length in 0..300 {
        let mut bytes = random.bytes(length);
        let sum = checksum(&bytes);
        bytes.extend_from_slice(&sum.to_le_bytes());
        assert_eq!(checksum(&bytes), 0);
    }
}
