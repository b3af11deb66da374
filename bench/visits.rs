//! Visits: up to four paths put to one part, by one call or by a call each.
use crate::inputs::Ask;
use crate::timing::{outputs, REPLY_BYTES};

/// An output for each path.
pub fn four_outputs(out: &mut [u8]) -> [&mut [u8]; 4] {
    outputs(out, [REPLY_BYTES; 4])
}

/// The four numbers as a visit gives them, the first path's in the lowest byte.
pub fn packed(numbers: [u32; 4]) -> u32 {
    u32::from_le_bytes(numbers.map(|number| number as u8))
}

/// A call for each path, of at most so many.
pub fn singly<const N: usize>(ask: &Ask, out: &mut [u8], mut call: impl FnMut(&[u8], &mut [u8]) -> u32) -> [u32; N] {
    let mut numbers = [0; N];
    for ((number, path), out) in numbers.iter_mut().zip(&ask.paths).zip(outputs(out, [REPLY_BYTES; N])) {
        *number = call(path, out);
    }
    numbers
}
