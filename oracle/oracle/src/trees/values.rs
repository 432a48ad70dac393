//! Numbers, names and marks that are worth trying.
use crate::rng::Rng;
use files::NONE;

/// Numbers beside the edges of the small-number test, and patterns that arithmetic would change.
pub const NUMBERS: [u64; 28] = [
    0x0000_0000_0000_0000, // 0
    0x8000_0000_0000_0000, // -0
    0x3FF0_0000_0000_0000, // 1
    0x4000_0000_0000_0000, // 2
    0x4008_0000_0000_0000, // 3
    0x406F_C000_0000_0000, // 254
    0x406F_E000_0000_0000, // 255
    0x4070_0000_0000_0000, // 256
    0x406F_DFFF_FFFF_FFFF, // just below 255
    0x406F_E000_0000_0001, // just above 255
    0x406F_FFFF_FFFF_FFFF, // just below 256
    0x406F_DFFC_B923_A29C, // 254.9999
    0x3FE0_0000_0000_0000, // 0.5
    0x4004_0000_0000_0000, // 2.5
    0xBFF0_0000_0000_0000, // -1
    0xBFE0_0000_0000_0000, // -0.5
    0x0000_0000_0000_0001, // the least above 0
    0x8000_0000_0000_0001, // the greatest below -0
    0x3FEF_FFFF_FFFF_FFFF, // just below 1
    0x7FEF_FFFF_FFFF_FFFF, // the greatest
    0x7FF0_0000_0000_0000, // infinity
    0xFFF0_0000_0000_0000, // minus infinity
    0x7FF8_0000_0000_0000, // a quiet NaN
    0x7FF8_0000_0000_1234, // with a payload
    0xFFF8_0000_0000_0001, // negative
    0x7FF0_0000_0000_0001, // a signalling NaN
    0xFFF4_5678_9ABC_DEF0, // negative
    0x41F0_0000_0000_0000, // 2^32
];

pub fn number_bits(rng: &mut Rng) -> u64 {
    match rng.below(10) {
        0..=3 => (rng.below(300) as f64).to_bits(),
        4..=7 => *rng.pick(&NUMBERS),
        8 => (rng.below(4096) as f64 / 8.0).to_bits(),
        _ => rng.next(),
    }
}

/// Any name but the empty text: often one of a few, so that names meet.
pub fn name(rng: &mut Rng) -> u16 {
    match rng.below(10) {
        0 => rng.below(9) as u16,
        1 => *rng.pick(&[9, 10, 255, 256, 32_767, 32_768, 65_533, 65_534]),
        2..=6 => 10 + rng.below(20) as u16,
        _ => rng.below(65_535) as u16,
    }
}

/// Any mark, with no mark and the edges of a byte often.
pub fn mark(rng: &mut Rng) -> u16 {
    match rng.below(8) {
        0 => NONE,
        1 => *rng.pick(&[0, 1, 255, 256, 65_534]),
        _ => rng.word(),
    }
}

/// Any mark of four bytes: none, the edges of two bytes and of four, and what two bytes could be mistaken for, often.
pub fn wide_mark(rng: &mut Rng) -> u32 {
    match rng.below(8) {
        0 => u32::MAX,
        1..=2 => *rng.pick(&WIDE_MARKS),
        3 => u32::from(mark(rng)),
        4 => u32::from(rng.word()) << 16 | u32::from(NONE),
        5 => u32::from(NONE) << 16 | u32::from(rng.word()),
        _ => rng.next() as u32,
    }
}

/// Marks of four bytes at the edges.
pub const WIDE_MARKS: [u32; 14] = [
    0,
    1,
    255,
    256,
    65_534,
    65_535, // no mark where it has two bytes
    65_536,
    65_537,
    0x0001_FFFF,
    0x7FFF_FFFF, // the greatest line of the source without a sign
    0x8000_0000,
    0xFFFF_0000,
    0xFFFF_FFFE,
    0xFFFF_FFFF, // no mark
];
