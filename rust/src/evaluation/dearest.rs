//! The dearest part and path (request 13): for which counts they are written, the two files, and how long a first reply is at most.

use super::part::{Node, Part};
use super::path::Expression;
use super::words::*;

/// Doors, outside targets, labels.
pub type Counts = [u32; 3];

/// The lengths of the lent buffers, in bytes: the part's output, the path's, the working buffer.
pub type Rooms = [usize; 3];

/// The least that do not give 1.
pub const LEAST_ROOMS: Rooms = [4 * FILE_LIMIT, 4 * PATH_LIMIT, WORK_BYTES];

/// Number 21. The counts have 32 bits, so 64 hold their sum and their product.
pub fn check_counts(counts: Counts) -> Result<(), Refusal> {
    let [doors, targets, labels] = counts.map(u64::from);
    if doors == 0 {
        return refuse(21, "no doors");
    }
    if targets == 0 {
        return refuse(21, "no targets");
    }
    if labels == 0 {
        return refuse(21, "no labels");
    }
    if labels > 15 {
        return refuse(21, "over 15 labels");
    }
    if doors + targets > 65_536 {
        return refuse(21, "doors and targets over 65,536");
    }
    if 1 + doors * (1 + targets) > FILE_LIMIT as u64 {
        return refuse(21, "part over its limit");
    }
    Ok(())
}

/// The first nodes are doors, and each has links with label 0 to the nodes after them.
pub fn dearest_part(doors: u32, targets: u32) -> Part {
    let edges: Vec<(u32, u32)> = (doors..doors + targets).map(|target| (0, target)).collect();
    let node = |number| Node { number, door: true, root: false, stopped: false, edges: edges.clone() };
    Part { site: 0, nodes: (0..doors).map(node).collect() }
}

/// A star of an or of full ranges, in which each or is of all before it and one more.
pub fn dearest_path(labels: u32) -> Vec<u32> {
    let ranges = (2..=labels as usize).map(Expression::Label);
    let or = |before, range| Expression::Or(Box::new(before), Box::new(range));
    let star = Expression::Star(Box::new(ranges.fold(Expression::Label(1), or)));
    file(PATH, 0, labels, &star.postfix(&|_| LABEL << 28 | 4095 << 12))
}

pub fn dearest_files([doors, targets, labels]: Counts) -> [Vec<u32>; 2] {
    [dearest_part(doors, targets).words(), dearest_path(labels)]
}

/// The words of the longest first reply of a part with so many doors and outside targets for a path of so many labels.
pub fn longest_reply(doors: usize, targets: usize, labels: usize) -> usize {
    1 + doors * (1 + (labels + 1) * (1 + targets * labels))
}
