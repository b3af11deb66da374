//! Desks: up to eight paths put to one part, whose replies share one output.
use crate::timing::REPLY_BYTES;
use crate::words::{size, words};

pub const DESKS: usize = 8;
/// The words of their output.
const MOST_WORDS: usize = REPLY_BYTES / 4;
/// The longest reply that is always put in.
pub const SHORT_WORDS: usize = 512;

/// The eight numbers as the call gives them, desk 1's in the lowest byte.
pub fn packed_eight(numbers: [u32; DESKS]) -> u64 {
    u64::from_le_bytes(numbers.map(|number| number as u8))
}

/// Of single calls for so many desks, their numbers and in `out` an output for each: what the desks are owed together, in the first of these
/// outputs, and the numbers that go with it. All short replies, and of the long ones, in the order of asking, those that fit beside them.
pub fn chosen(count: usize, numbers: u64, out: &mut [u8]) -> u64 {
    let mut numbers = numbers.to_le_bytes();
    let reply_size = |desk: usize| if numbers[desk] == 0 { size(words(&out[desk * REPLY_BYTES..][..4])[0]) } else { 0 };
    let sizes: Vec<usize> = (0..count).map(reply_size).collect();
    let mut taken: usize = sizes.iter().filter(|&&size| size <= SHORT_WORDS).sum();
    let mut end = 0;
    for (desk, &size) in sizes.iter().enumerate() {
        let long = if size > SHORT_WORDS { size } else { 0 };
        if taken + long > MOST_WORDS {
            numbers[desk] = 15;
            continue;
        }
        taken += long;
        out.copy_within(desk * REPLY_BYTES..desk * REPLY_BYTES + 4 * size, 4 * end);
        end += size;
    }
    out[4 * end..REPLY_BYTES].fill(0);
    u64::from_le_bytes(numbers)
}
