//! Random images to mend: the source's own with strays, taken ones whose jumps are hurt, and any; of both widths.
use super::{lent, real, Question};
use crate::images;
use crate::images::width::widened_at_random;
use crate::rng::Rng;
use crate::trees::damage::{joined, loose};
use crate::walks::mazes;
use files::opcodes::opcode;

/// Case k of a seed.
pub fn any(seed: u64, k: u64) -> Question {
    let mut rng = Rng::for_case(seed ^ 0x6D65_6E64, k);
    let mut image = match rng.below(10) {
        0..=2 => real::stray(&mut rng).unwrap_or_else(|| mazes::any(&mut rng)),
        3 => return lent(&mut rng, images::random::any(seed, k)),
        4..=5 => images::random::lowered(&mut rng, seed, k).unwrap_or_else(|| mazes::any(&mut rng)),
        _ => mazes::any(&mut rng),
    };
    if rng.chance(300) {
        image = widened_at_random(&mut rng, &image);
    }
    for _ in 0..rng.below(4) {
        hurt(&mut rng, &mut image);
    }
    if rng.chance(60) {
        let at = rng.below(image.len());
        image[at] ^= 1 << rng.below(8);
    }
    lent(&mut rng, image)
}

/// One Jmp gets another a or leads elsewhere; where there is none, an instruction becomes one.
fn hurt(rng: &mut Rng, image: &mut Vec<u8>) {
    let mut fields = loose(image);
    let code: Vec<usize> = (0..fields.len()).filter(|k| matches!(fields[*k].tag, 0x43 | 0x47)).collect();
    let jumps: Vec<usize> = code.iter().copied().filter(|k| fields[*k].payload[0] == opcode("Jmp")).collect();
    let among = if jumps.is_empty() || rng.chance(100) { &code } else { &jumps };
    let at = *rng.pick(among);
    let payload = &mut fields[at].payload;
    if payload[0] != opcode("Jmp") {
        payload[..4].copy_from_slice(&[opcode("Jmp"), 0, 0, 0]);
    }
    match rng.below(4) {
        0 => payload[1] = rng.range(1, 2) as u8,
        1 => payload[1] = *rng.pick(&[0, 0, 1, 2, 3, 255]),
        2 => payload[2..4].copy_from_slice(&(rng.range(0, 80) as i16 - 40).to_be_bytes()),
        _ => payload[2..4].copy_from_slice(&rng.word().to_be_bytes()),
    }
    *image = joined(&fields);
}
