//! Random call lists and replies that no site need have written.

use crate::evaluation::hub;
use crate::evaluation::part::Part;
use crate::evaluation::words::*;
use crate::generate::plant::number_beside;
use crate::random::Random;
use std::collections::{BTreeMap, BTreeSet};

/// A call list of n `n` that calls doors of the part, and sometimes nodes elsewhere. Now and then its n is another, or it calls a node that
/// is no door.
pub fn call_list(random: &mut Random, part: &Part, n: usize) -> Vec<u32> {
    let mut pairs = BTreeSet::new();
    let (own, other) = (random.pick(&[10, 50, 100]), random.pick(&[0, 0, 20]));
    let (wrong, other_n) = match random.below(12) {
        0 => (0, true),
        1 => (20, false),
        2 => (20, true),
        _ => (0, false),
    };
    let mut add = |node: u32, percent: usize| {
        while random.chance(percent) && random.chance(70) {
            pairs.insert((node, random.below(n + 1)));
        }
    };
    part.nodes.iter().for_each(|node| add(node.number, if node.door { own } else { wrong }));
    part.outside_targets().into_iter().for_each(|target| add(target, other));
    hub::call_list(if other_n { n as u32 + 1 } else { n as u32 } & 15, &pairs)
}

fn some_nodes(random: &mut Random, count: usize) -> Vec<u32> {
    let most = random.pick(&[4 * count, 65_536]);
    let mut nodes: BTreeSet<u32> = (0..count).map(|_| random.below(most) as u32).collect();
    nodes.extend([0, 65_535].into_iter().filter(|_| random.chance(10)));
    nodes.into_iter().collect()
}

/// Deals nodes, ascending, to distinct sites.
fn deal(random: &mut Random, nodes: &[u32], files: usize) -> Vec<(u32, Vec<u32>)> {
    let mut sites: Vec<u32> = (0..16).collect();
    random.shuffle(&mut sites);
    let mut dealt: Vec<(u32, Vec<u32>)> = sites[..files].iter().map(|site| (*site, vec![])).collect();
    for node in nodes {
        let file = random.below(files);
        dealt[file].1.push(*node);
    }
    dealt
}

/// Rows by state, and doors by node, as they are put into files.
type Rows = BTreeMap<u32, BTreeSet<(u32, u32)>>;
type Doors = BTreeMap<u32, Rows>;

fn door_words(door: u32, root: u32, rows: &Rows) -> Vec<u32> {
    let mut words = vec![DOOR << 28 | u32::from(door == root) << 16 | door];
    for (state, pairs) in rows {
        words.push(ROW << 28 | state);
        words.extend(pairs.iter().map(|(node, state)| REACH << 28 | node << 4 | state));
    }
    words
}

/// The doors dealt to so many files, in any order.
fn put_into_files(random: &mut Random, doors: &Doors, root: u32, files: usize, n: u32) -> Vec<Vec<u32>> {
    let nodes: Vec<u32> = doors.keys().copied().collect();
    let reply = |(site, own): (u32, Vec<u32>)| {
        let words = own.into_iter().flat_map(|door| door_words(door, root, &doors[&door]));
        file(FIRST, site, n, &words.collect::<Vec<_>>())
    };
    deal(random, &nodes, files).into_iter().map(reply).collect()
}

/// Any pair of one of these doors; `strays` of a hundred times that of a node that is none.
fn some_pair(random: &mut Random, doors: &[u32], n: usize, strays: usize) -> (u32, u32) {
    let node = match random.chance(strays) {
        true => number_beside(random, doors),
        false => random.pick(doors),
    };
    (node, random.below(n + 1) as u32)
}

fn rows(random: &mut Random, doors: &[u32], n: usize, strays: usize) -> Rows {
    let mut rows = Rows::new();
    let often = random.pick(&[0, 30, 70]);
    for state in 0..=n as u32 {
        if random.chance(often) {
            let most = random.pick(&[1, 3, 6]);
            let count = random.between(1, most);
            rows.insert(state, (0..count).map(|_| some_pair(random, doors, n, strays)).collect());
        }
    }
    rows
}

/// First replies, each a file of its own.
pub fn first_replies(random: &mut Random) -> Vec<Vec<u32>> {
    let (files, count, n) = (random.between(1, 5), random.between(1, 12), random.pick(&[0, 1, 2, 5, 15]));
    let nodes = some_nodes(random, count);
    let root = random.pick(&nodes);
    let strays = random.pick(&[0, 0, 3, 10, 40]);
    let doors = nodes.iter().map(|door| (*door, rows(random, &nodes, n, strays))).collect();
    put_into_files(random, &doors, root, files, n as u32)
}

/// So many door numbers or a few more: one after another, anywhere, or in sixteens that are full or not; now and then an end among them.
fn door_numbers(random: &mut Random, count: usize) -> Vec<u32> {
    let any = random.below(65_536 - count);
    let first = random.pick(&[0, 15, 65_536 - count, any]);
    let (sort, mut numbers) = (random.below(3), BTreeSet::new());
    while numbers.len() < count {
        let sixteen = 16 * random.below(4096);
        match sort {
            0 => numbers.extend(first..first + count),
            1 => drop(numbers.insert(random.below(65_536))),
            _ if random.chance(50) => numbers.extend(sixteen..sixteen + 16),
            _ => numbers.extend((sixteen..sixteen + 16).filter(|_| random.chance(40))),
        }
    }
    numbers.extend([0, 65_535].into_iter().filter(|_| random.chance(20)));
    numbers.into_iter().map(|number| number as u32).collect()
}

/// Most of the doors, in the order in which they call each other, ascending, descending or any; behind them now and then a node that is none.
fn chain(random: &mut Random, doors: &[u32]) -> Vec<u32> {
    let mut chain = doors.to_vec();
    match random.below(3) {
        0 => {}
        1 => chain.reverse(),
        _ => random.shuffle(&mut chain),
    }
    chain.truncate(random.between(chain.len() / 2, chain.len()));
    chain.extend(random.chance(20).then(|| number_beside(random, doors)));
    chain
}

/// Many doors in up to sixteen files, with rows or without: each of a chain calls the next, and some call others as well. In states in which
/// the chain does not come to them, some lead to nodes that are no doors.
pub fn many_doors(random: &mut Random) -> Vec<Vec<u32>> {
    let (files, n) = (random.between(1, 16), random.pick(&[0, 1, 15]));
    let count = random.pick(&[16, 60, 250, 900, if files > 4 { 1800 } else { 900 }]);
    let numbers = door_numbers(random, count);
    let mut doors: Doors = numbers.iter().map(|door| (*door, Rows::new())).collect();
    let chain = chain(random, &numbers);
    let (mut state, idle) = (0, random.pick(&[0, 0, 10]));
    for link in chain.windows(2) {
        let rows = doors.get_mut(&link[0]).expect("only the last may be no door");
        if random.chance(idle) {
            rows.insert(random.below(n + 1) as u32, BTreeSet::from([some_pair(random, &numbers, n, 100)]));
        }
        let further = random.chance(30).then(|| some_pair(random, &numbers, n, 0));
        let next = (link[1], random.below(n + 1) as u32);
        rows.insert(state, further.into_iter().chain([next]).collect());
        state = next.1;
    }
    put_into_files(random, &doors, chain[0], files, n as u32)
}

/// Two first replies whose call list has a length near its limit. Now and then a called door is missing, a followed row leads to a node that is
/// no door as well, or one does that nobody follows.
pub fn dear_replies(random: &mut Random) -> Vec<Vec<u32>> {
    let first = random.between(4080, 4093) as u32;
    let more = random.between(1, 15) as u32;
    let last = 2 + first / 16;
    let mut root = vec![DOOR << 28 | 1 << 16, ROW << 28];
    root.extend((0..first).map(|pair| REACH << 28 | (16 + pair)));
    let beside = random.pick(&[last + 1, 65_535]);
    let (missing, followed, idle) = match random.below(6) {
        0 => (random.between(2, last as usize) as u32, false, false),
        1 | 2 => (0, true, false),
        3 => (0, false, true),
        _ => (0, false, false),
    };
    let stray = REACH << 28 | beside << 4;
    let mut rest = vec![DOOR << 28 | 1, ROW << 28];
    rest.extend((0..more).map(|state| REACH << 28 | last << 4 | state));
    rest.extend(followed.then_some(stray));
    rest.extend((2..=last).filter(|door| *door != missing).map(|door| DOOR << 28 | door));
    rest.extend([DOOR << 28 | (last + 2), ROW << 28, stray].into_iter().filter(|_| idle));
    vec![file(FIRST, 3, 15, &root), file(FIRST, 0, 15, &rest)]
}

/// Second replies, each a file of its own.
pub fn second_replies(random: &mut Random) -> Vec<Vec<u32>> {
    let (files, n) = (random.between(1, 6), random.below(16) as u32);
    let most = random.pick(&[4, 20, 200]);
    let count = random.between(1, most);
    let nodes = some_nodes(random, count);
    let reply = |(site, own): (u32, Vec<u32>)| {
        let words: Vec<u32> = own.into_iter().map(|node| ANSWER << 28 | node).collect();
        file(SECOND, site, n, &words)
    };
    deal(random, &nodes, files).into_iter().map(reply).collect()
}
