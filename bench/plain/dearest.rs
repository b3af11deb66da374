//! The dearest part and path.
use super::files::{settle_each, unless};
use crate::inputs::Ask;
use crate::timing::{outputs, PART_BYTES, PATH_BYTES};
use crate::words::*;

/// 21. In 64 bits no sum and no product wraps.
fn check([doors, targets, labels]: [u32; 3]) -> Result<(), u32> {
    let (d, t) = (doors as u64, targets as u64);
    unless(21, d > 0 && t > 0 && 0 < labels && labels <= 15)?;
    unless(21, d + t <= 65_536 && 1 + d * (1 + t) <= 4096)
}

/// Doors, each with label 0 to all targets, which are the nodes behind them.
pub fn dear_part(doors: u32, targets: u32) -> Vec<u32> {
    let mut part = Vec::with_capacity(1 + (doors * (1 + targets)) as usize);
    part.push(header(1, 0, 0));
    for x in 0..doors {
        part.push(NODE | DOOR | x);
        part.extend((doors..doors + targets).map(|t| edge(0, t)));
    }
    part[0] |= part.len() as u32;
    part
}

/// A star of an or of full ranges.
pub fn dear_path(labels: u32) -> Vec<u32> {
    let mut path = Vec::with_capacity(2 * labels as usize + 1);
    path.push(header(4, 0, labels));
    for k in 0..labels {
        path.push(range(0, 4095));
        if k > 0 {
            path.push(OR);
        }
    }
    path.push(STAR);
    path[0] |= path.len() as u32;
    path
}

pub fn dearest(ask: &Ask, out: &mut [u8], work: &mut [u8]) -> u32 {
    let [number, _] = settle_each([4096, 64], outputs(out, [PART_BYTES, PATH_BYTES]), work, || {
        let [doors, targets, labels] = ask.counts;
        check(ask.counts)?;
        Ok([Ok(dear_part(doors, targets)), Ok(dear_path(labels))])
    });
    number
}
