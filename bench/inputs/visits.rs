//! Visits: bundles of paths for one part.
use super::parts::{self, Doors};
use super::{paths, search, shape, Ask, Shape};
use crate::visits::packed;
use crate::words::bytes;

pub fn visit(part: Vec<u32>, paths: &[Vec<u32>]) -> Ask {
    Ask { paths: paths.iter().map(|path| bytes(path)).collect(), ..search(part, paths.concat()) }
}

pub fn four() -> [Vec<u32>; 4] {
    [paths::half_ranges(), paths::outside_halves(), paths::turns(), paths::groups()]
}

/// The second has two operands left, the fourth a header of another kind.
fn two_refused() -> [Vec<u32>; 4] {
    let [first, second, third, fourth] = four();
    [first, paths::unfinished(second), third, paths::foreign(fourth)]
}

fn four_times(path: Vec<u32>) -> [Vec<u32>; 4] {
    [(); 4].map(|_| path.clone())
}

/// A long part in which there is little to be searched.
pub fn long(size: usize) -> Vec<u32> {
    parts::bare(size, Doors::Root)
}

pub fn four_replies() -> Vec<Shape> {
    vec![
        shape("no link, one door: four paths", |n| visit(long(n), &four())),
        shape("no link, one door: one path four times", |n| visit(long(n), &four_times(paths::half_ranges()))),
        shape("no link, one door: one path alone", |n| visit(long(n), &[paths::half_ranges()])),
        shape("no link, one door: four paths, two refused (9, 3)", |n| Ask {
            number: packed([0, 9, 0, 3]).into(),
            ..visit(long(n), &two_refused())
        }),
        shape("two random links, all doors: four paths", |n| visit(parts::random(n, 2, Doors::All), &four())),
        four_replies_of_groups(),
        shape("one link outside a door, a row each: four paths", |n| visit(parts::doorways(n), &[0, 4, 8, 12].map(paths::any_label))),
        shape("document 01's part, at any size: four paths", |_| visit(parts::document_01(), &paths::document_01()[..4])),
        shape("document 01's part, at any size: one path alone", |_| visit(parts::document_01(), &paths::document_01()[..1])),
    ]
}

pub fn four_replies_of_groups() -> Shape {
    shape("two random links, all doors, groups: one path four times", |n| {
        visit(parts::random(n, 2, Doors::All), &four_times(paths::groups()))
    })
}
