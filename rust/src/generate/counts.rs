//! Random counts of doors, outside targets and labels: around each line between accepted and refused ones, and such as wrap at 32 bits.

use crate::evaluation::dearest::Counts;
use crate::evaluation::words::FILE_LIMIT;
use crate::random::Random;

/// Any number of so many bits at most.
pub fn number(random: &mut Random, bits: u32) -> u32 {
    let width = random.below(bits as usize + 1) as u32;
    random.word().checked_shr(32 - width).unwrap_or(0)
}

/// A part of at most so many words, or of one target more.
fn near_the_limit(random: &mut Random) -> Counts {
    let doors = number(random, 12).max(1);
    let most = (FILE_LIMIT as u32 - 1) / doors - 1;
    let fewer = number(random, 12).max(1);
    let targets = random.pick(&[most, most, most + 1, fewer]);
    [doors, targets, random.between(1, 15) as u32]
}

/// The number whose product with this odd one is 1, wrapped at 32 bits (Newton's steps: each makes twice as many bits right).
fn inverse(odd: u32) -> u32 {
    (0..5).fold(odd, |inverse, _| inverse.wrapping_mul(2u32.wrapping_sub(odd.wrapping_mul(inverse))))
}

/// The words of a part, wrapped at 32 bits, are within their limit; then also the doors and targets together, wrapped.
pub fn wrapping(random: &mut Random) -> [Counts; 2] {
    let (odd, words) = (random.word() | 1, random.between(0, FILE_LIMIT - 1) as u32);
    let product = [odd, inverse(odd).wrapping_mul(words).wrapping_sub(1), 1];
    let doors = (random.between(1, 65_535) as u32) << 16;
    [product, [doors, 65_535u32.wrapping_sub(doors), 15]]
}

pub fn counts(random: &mut Random) -> Counts {
    let mut counts = near_the_limit(random);
    match random.below(10) {
        0 => counts[random.below(3)] = 0,
        1 => counts[random.below(3)] = number(random, 32),
        2 => counts[2] = random.between(14, 18) as u32,
        3 => counts = counts.map(|_| number(random, 32)),
        4 => counts[random.below(3)] |= 1 << random.between(16, 31),
        5 => {
            let wrapped = wrapping(random);
            counts = random.pick(&wrapped);
        }
        _ => {}
    }
    counts
}
