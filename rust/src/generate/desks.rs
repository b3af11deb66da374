//! Random desks that ask one site: paths whose replies have just so many words, around the line between short and long ones and around what is
//! left for a long one; and bundles like those of visits.

use super::calls::AskedAtOnce;
use super::path::{group, outside, range, OR, STAR};
use super::visits::{damaged_visit, mixed, refused_file, visit_of};
use crate::beside::Desks;
use crate::evaluation::desks::{chosen, DESKS, SHORT_LIMIT};
use crate::evaluation::groups::{Groups, OURS};
use crate::evaluation::part::{Node, Part};
use crate::evaluation::words::*;
use crate::random::Random;

/// The links of a ladder: label 0 and on, each to a node of its own.
const RUNGS: usize = 280;

/// A door with all rungs, and now and then others of which none is reported: doors without links, or stopped.
fn ladder(random: &mut Random) -> Part {
    let rungs: Vec<(u32, u32)> = (0..RUNGS as u32).map(|label| (label, 30_000 + label)).collect();
    let doors = random.pick(&[1, 1, 2, 3]);
    let (full, root) = (random.below(doors), random.below(doors + 1));
    let door = |at: usize| {
        let stopped = at != full && random.chance(50);
        let edges = if stopped || at == full { rungs.clone() } else { vec![] };
        Node { number: 8 * at as u32, door: true, root: at == root, stopped, edges }
    };
    Part { site: 9, nodes: (0..doors).map(door).collect() }
}

/// A label word that holds just so many rungs.
fn holding(random: &mut Random, rungs: usize) -> u32 {
    let first = random.below(RUNGS - rungs + 1);
    match random.below(4) {
        0 => outside(rungs as u32, 4095),
        1 if rungs < RUNGS => outside(0, (RUNGS - rungs) as u32 - 1),
        _ => range(first as u32, (first + rungs) as u32 - 1),
    }
}

/// How many rungs a range holds.
fn held(word: u32) -> usize {
    let (low, high) = (bits(word, 11, 0) as usize, bits(word, 23, 12) as usize);
    (high + 1).min(RUNGS).saturating_sub(low)
}

/// So many label words, group words among them, that hold so many rungs together.
fn labels(random: &mut Random, groups: &Groups, count: usize, rungs: usize) -> Vec<u32> {
    let mut left = rungs;
    let label = |behind: usize| {
        let (fewest, most) = (left.saturating_sub(behind * RUNGS).max(1), RUNGS.min(left - behind));
        let (g, own) = (random.below(GROUP_COUNT), random.between(fewest, most));
        let by_group = (fewest..=most).contains(&held(groups[g])) && random.chance(50);
        let (word, rungs) = match by_group {
            true => (group(g as u32), held(groups[g])),
            false => (holding(random, own), own),
        };
        left -= rungs;
        word
    };
    (0..count).rev().map(label).collect()
}

/// An or of these, starred or not.
fn or_of(labels: &[u32], star: bool) -> Vec<u32> {
    let ors = labels[1..].iter().flat_map(|label| [*label, OR]);
    let words: Vec<u32> = [labels[0]].into_iter().chain(ors).chain(star.then_some(STAR)).collect();
    file(PATH, 0, labels.len() as u32, &words)
}

/// A path for which the reply of a ladder with so many doors has just so many words, enough for a row. An or has a row of the rungs that are
/// held in state 0, and a star of it one in each state.
fn path_for(random: &mut Random, groups: &Groups, doors: usize, words: usize) -> Vec<u32> {
    let rows = words - 1 - doors;
    let (n, star) = (random.between(1, 4), random.chance(30));
    let in_each = (rows / (n + 1)).saturating_sub(1);
    if star && rows % (n + 1) == 0 && (n..=n * RUNGS).contains(&in_each) {
        return or_of(&labels(random, groups, n, in_each), true);
    }
    let rungs = rows - 1;
    let n = random.between((rungs + RUNGS - 1) / RUNGS, rungs.min(15));
    or_of(&labels(random, groups, n, rungs), false)
}

/// A ladder, groups if they are asked for, and a path for each of these numbers of words, 6 to 4,200; for 0 one that is refused mostly. For a
/// number that was there before it is the same path or another.
pub fn asked_for(random: &mut Random, grouped: bool, words: &[usize]) -> AskedAtOnce {
    let part = ladder(random);
    let groups = grouped.then(|| {
        OURS.map(|_| {
            let (rungs, first) = (random.between(1, RUNGS / 2), random.below(RUNGS / 2));
            range(first as u32, (first + rungs) as u32 - 1)
        })
    });
    let path = |random: &mut Random, words: usize| {
        let path = path_for(random, &groups.unwrap_or(OURS), part.nodes.len(), words.max(6));
        match words {
            0 => refused_file(random, &path),
            _ => path,
        }
    };
    let mut paths: Vec<Vec<u32>> = vec![];
    for at in 0..words.len() {
        let before = words[..at].iter().position(|before| *before == words[at]).filter(|_| random.chance(50));
        paths.push(before.map_or_else(|| path(random, words[at]), |before| paths[before].clone()));
    }
    (part, groups, paths)
}

/// One desk's reply as long as there is room for, or a word off.
fn bring_near(random: &mut Random, words: &mut [usize]) {
    let at = random.below(words.len());
    words[at] = 0;
    let within = chosen(words);
    let beside = |other: &usize| words[*other] <= SHORT_LIMIT || *other < at && within[*other];
    let taken: usize = (0..words.len()).filter(beside).map(|other| words[other]).sum();
    words[at] = (FILE_LIMIT + random.pick(&[0, 1, 1, 2])).saturating_sub(taken + 1).max(6);
}

/// The words of replies: short and long ones, of which some have no room, and now and then one over its limit; 0 for a refused path.
pub fn some_words(random: &mut Random, count: usize) -> Vec<usize> {
    let length = |random: &mut Random| match random.below(16) {
        0 => 0,
        1..=3 => random.between(6, 60),
        4 => random.between(300, 511),
        5 | 6 => 512,
        7 | 8 => 513,
        9 | 10 => random.between(514, 900),
        11 | 12 => random.between(700, 2000),
        13 | 14 => random.between(1500, 3700),
        _ => random.pick(&[4095, 4096, 4097, 4150]),
    };
    let mut words: Vec<usize> = (0..count).map(|_| length(random)).collect();
    if random.chance(30) {
        words[random.below(count)] = random.pick(&words);
    }
    (0..random.pick(&[0, 1, 1, 2])).for_each(|_| bring_near(random, &mut words));
    words
}

/// The same for some number of desks, mostly not a few.
pub fn with_long_words(random: &mut Random) -> Vec<usize> {
    let count = random.pick(&[1, 2, 3, 3, 4, 4, 5, 6, 7, DESKS, DESKS, DESKS]);
    some_words(random, count)
}

/// Desks of which some have long replies, with a bundle that is not refused as a whole.
pub fn with_long_replies(random: &mut Random, grouped: bool) -> AskedAtOnce {
    let words = with_long_words(random);
    asked_for(random, grouped, &words)
}

/// How many desks ask, mostly a few.
fn some_desks(random: &mut Random) -> usize {
    random.pick(&[1, 1, 2, 2, 3, 3, 4, 5, 6, 7, DESKS])
}

/// An accepted part, groups if they are asked for, and a bundle that is not refused as a whole.
pub fn asked(random: &mut Random, grouped: bool) -> AskedAtOnce {
    if random.chance(45) {
        return with_long_replies(random, grouped);
    }
    let count = some_desks(random);
    mixed(random, grouped, count)
}

/// The desks with these files, one after another.
pub fn desks_of(asked: &AskedAtOnce) -> Desks {
    Desks(visit_of(asked))
}

/// Any desks, with some of part, paths and groups damaged.
pub fn desks(random: &mut Random, grouped: bool) -> Desks {
    if random.chance(9) {
        return desks_of(&with_long_replies(random, grouped));
    }
    let count = some_desks(random);
    Desks(damaged_visit(random, grouped, count, DESKS))
}
