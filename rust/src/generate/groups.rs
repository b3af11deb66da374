//! Random groups for paths over an alphabet, and paths that name them.

use super::path::{ends_near, group, or_of, range};
use crate::evaluation::groups::{Groups, OURS};
use crate::evaluation::words::{kind, LABEL};
use crate::random::Random;

/// A range that ends at labels of the alphabet or next to them.
fn near(random: &mut Random, alphabet: &[u32]) -> u32 {
    let (a, b) = (random.pick(alphabet), random.pick(alphabet));
    let (low, high) = ends_near(random, a, b);
    range(low, high)
}

fn anywhere(random: &mut Random) -> u32 {
    let (a, b) = (random.below(4096) as u32, random.below(4096) as u32);
    range(a.min(b), a.max(b))
}

fn single(random: &mut Random, alphabet: &[u32]) -> u32 {
    let label = random.pick(alphabet);
    range(label, label)
}

/// Ours, in order or not, all or all but one; or others, mostly with ends that matter to walks over the alphabet. They overlap mostly.
pub fn groups(random: &mut Random, alphabet: &[u32]) -> Groups {
    let mut groups = OURS;
    match random.below(10) {
        0 => {}
        1 => random.shuffle(&mut groups),
        2 => groups[random.below(8)] = near(random, alphabet),
        3 => groups = [near(random, alphabet); 8],
        4 => groups = OURS.map(|_| anywhere(random)),
        5 => groups = OURS.map(|_| single(random, alphabet)),
        _ => groups = OURS.map(|_| near(random, alphabet)),
    }
    groups
}

/// The path with all, some or none of its label words as group words; now and then the star of one group, so that its ends matter most.
pub fn naming(random: &mut Random, mut path: Vec<u32>) -> Vec<u32> {
    if random.chance(20) {
        return or_of(group(random.below(8) as u32), 1, true);
    }
    let percent = random.pick(&[0, 30, 60, 100]);
    for word in path.iter_mut().filter(|word| kind(**word) == LABEL) {
        if random.chance(percent) {
            *word = group(random.below(8) as u32);
        }
    }
    path
}

/// Groups over the alphabet and the paths with some of them named, or no groups and the paths as they are.
pub fn grouped_paths(
    random: &mut Random,
    alphabet: &[u32],
    paths: Vec<Vec<u32>>,
    grouped: bool,
) -> (Option<Groups>, Vec<Vec<u32>>) {
    if !grouped {
        return (None, paths);
    }
    let groups = groups(random, alphabet);
    (Some(groups), paths.into_iter().map(|path| naming(random, path)).collect())
}

/// The same of one path.
pub fn grouped(
    random: &mut Random,
    alphabet: &[u32],
    path: Vec<u32>,
    grouped: bool,
) -> (Option<Groups>, Vec<u32>) {
    let (groups, paths) = grouped_paths(random, alphabet, vec![path], grouped);
    (groups, paths.concat())
}
