//! Random wholes, paths and nodes to which walks are asked for. Many walks have the fewest links there, by links of one label to several nodes
//! and of several labels to one node; rings must be gone round many times; some walks have about as many links as they may have.

use super::calls::{damages, single};
use super::groups::grouped;
use super::path::*;
use super::plant::{number_beside, numbers, plant, stop, whole};
use super::triples::{filling, planted};
use crate::beside::Call;
use crate::evaluation::groups::{Groups, OURS};
use crate::evaluation::hub::nodes_of;
use crate::evaluation::part::Part;
use crate::evaluation::path::{read_path, Path};
use crate::evaluation::plant::Plant;
use crate::evaluation::walks::*;
use crate::evaluation::words::*;
use crate::random::Random;
use std::collections::{BTreeMap, BTreeSet};

/// What is asked: a whole, groups or none, a path, and a node.
#[derive(Clone, Debug)]
pub struct Asked {
    pub whole: Part,
    pub groups: Option<Groups>,
    pub path: Vec<u32>,
    pub node: u32,
}

impl Asked {
    pub fn read_path(&self) -> Path {
        read_path(&bytes_of(&self.path), &self.groups.unwrap_or(OURS)).expect("paths are made right")
    }

    /// Whole, groups and path as calls are handed them.
    fn inputs(&self) -> (Vec<u8>, Option<Vec<u8>>, Vec<u8>) {
        let groups = self.groups.map(|groups| bytes_of(&groups));
        (bytes_of(&self.whole.words()), groups, bytes_of(&self.path))
    }

    /// The call for a walk.
    pub fn walk(&self) -> Call {
        let (whole, groups, path) = self.inputs();
        Call::Walk { whole, groups, path, node: self.node }
    }

    pub fn old_search(&self) -> Call {
        let (whole, groups, path) = self.inputs();
        Call::OldSearch { whole, groups, path }
    }
}

/// A plant, the labels of its links, and a path over them.
type Planted = (Plant, Vec<u32>, Vec<u32>);

/// A label word that holds this label, and maybe not the other.
fn holding(random: &mut Random, label: u32, other: u32) -> u32 {
    let (beside, or_any) =
        (random.pick(&[label ^ 1, other]), random.pick(&[range(label, 4095), range(0, 4095)]));
    match random.below(6) {
        0 | 1 if beside != label => outside(beside, beside),
        2 => or_any,
        3 => range(0, label),
        _ => range(label, label),
    }
}

/// Label words that hold the labels of a walk, over any nodes, of so many links, one behind the other.
fn walked(random: &mut Random, plant: &Plant, alphabet: &[u32], length: usize) -> Vec<u32> {
    let (mut words, mut node) = (vec![], plant.root);
    for _ in 0..length {
        let links: Vec<(u32, u32)> = plant.nodes[&node].iter().copied().collect();
        let (label, target) = random.some(&links).unwrap_or((0, node));
        let other = random.pick(alphabet);
        words.push(vec![holding(random, label, other)]);
        node = target;
    }
    in_a_row(&words, THEN)
}

/// An or of the labels of such walks, of at most so many links: as many as a path has room for, or fewer.
fn either_walked(random: &mut Random, plant: &Plant, alphabet: &[u32], most: usize) -> Vec<u32> {
    let length = random.between(1, most);
    let count = random.between(1, 15 / length);
    let walks: Vec<Vec<u32>> = (0..count).map(|_| walked(random, plant, alphabet, length)).collect();
    path_of_words(&in_a_row(&walks, OR))
}

/// These operands one behind the other, and then any number of times the others.
fn first_and_again(first: &[Vec<u32>], again: &[Vec<u32>]) -> Vec<u32> {
    let again = [in_a_row(again, THEN), vec![STAR]].concat();
    path_of_words(&in_a_row(&[first, &[again]].concat(), THEN))
}

/// The plant with a second link beside some others, of another label that is mostly next to theirs.
fn doubled(random: &mut Random, mut plant: Plant, alphabet: &[u32]) -> Plant {
    for links in plant.nodes.values_mut() {
        let own: Vec<(u32, u32)> = links.iter().copied().filter(|_| random.chance(20)).collect();
        let other = random.pick(alphabet);
        links
            .extend(own.iter().map(|(label, target)| (random.pick(&[label ^ 1, label ^ 1, other]), *target)));
    }
    plant
}

/// Few nodes with any links.
fn any(random: &mut Random) -> Planted {
    let mut alphabet = alphabet(random);
    alphabet.truncate(random.between(1, 3));
    let (count, degree) = (random.between(1, 8), random.between(1, 5));
    let (near, stopped) = (random.pick(&[0, 50]), random.pick(&[0, 20, 40]));
    let plant = plant(random, count, degree, near, &alphabet);
    let plant = doubled(random, plant, &alphabet);
    let path = match random.chance(25) {
        true => either_walked(random, &plant, &alphabet, 4),
        false => some_path(random, &alphabet),
    };
    (stop(random, plant, stopped), alphabet, path)
}

/// Many nodes, as far as a whole has room for them.
fn large(random: &mut Random) -> Planted {
    let alphabet = alphabet(random);
    let (count, near) = (random.between(50, 250), random.pick(&[50, 95]));
    let plant = plant(random, count, 3, near, &alphabet);
    (stop(random, plant, 5), alphabet.clone(), some_path(random, &alphabet))
}

/// Layers of nodes, each with links to nodes of the next alone: so all walks to a node have as many links.
fn layered(random: &mut Random) -> Planted {
    let mut alphabet = alphabet(random);
    alphabet.truncate(random.between(1, 3));
    let (layers, width) = (random.between(1, 4), random.between(1, 3));
    let mut numbers = numbers(random, 1 + layers * width);
    random.shuffle(&mut numbers);
    let layer = |at: usize| if at == 0 { 0 } else { (at + width - 1) / width };
    let links = random.between(2, 6);
    let mut nodes: BTreeMap<u32, BTreeSet<(u32, u32)>> = BTreeMap::new();
    for (at, number) in numbers.iter().enumerate() {
        let next: Vec<u32> =
            (0..numbers.len()).filter(|to| layer(*to) == layer(at) + 1).map(|to| numbers[to]).collect();
        let count = if next.is_empty() { 0 } else { random.between(1, links) };
        let own = (0..count).map(|_| (random.pick(&alphabet), random.pick(&next)));
        nodes.insert(*number, own.collect());
    }
    let plant = Plant { root: numbers[0], nodes, stopped: BTreeSet::new() };
    let (plant, stopped) = (doubled(random, plant, &alphabet), random.pick(&[0, 15, 30]));
    let path = match random.chance(70) {
        true => either_walked(random, &plant, &alphabet, layers),
        false => or_of(any_label(random, &alphabet), random.between(1, 3), true),
    };
    (stop(random, plant, stopped), alphabet, path)
}

/// A ring over these nodes, with labels that come again and again.
fn ring(numbers: &[u32], labels: &[u32]) -> BTreeMap<u32, BTreeSet<(u32, u32)>> {
    let next = |at: usize| numbers[(at + 1) % numbers.len()];
    let link =
        |(at, number): (usize, &u32)| (*number, BTreeSet::from([(labels[at % labels.len()], next(at))]));
    numbers.iter().enumerate().map(link).collect()
}

/// One ring or two through the root, with labels that come again and again, and a path that counts links.
fn rings(random: &mut Random) -> Planted {
    let alphabet = alphabet(random);
    let sequence: Vec<u32> = (0..random.between(1, 3)).map(|_| random.pick(&alphabet)).collect();
    let sizes = [random.between(1, 9), random.between(0, 8) * random.below(2)];
    let mut numbers = numbers(random, sizes[0] + sizes[1]);
    random.shuffle(&mut numbers);
    let mut nodes = ring(&numbers[..sizes[0]], &sequence);
    let second = [&numbers[..1], &numbers[sizes[0]..]].concat();
    for (number, links) in ring(&second, &sequence).into_iter().filter(|_| sizes[1] > 0) {
        nodes.entry(number).or_default().extend(links);
    }
    let word = |at: usize| vec![range(sequence[at % sequence.len()], sequence[at % sequence.len()])];
    let (first, again) = (random.below(4), random.between(1, 11));
    let [first, again]: [Vec<Vec<u32>>; 2] =
        [(0..first), (first..first + again)].map(|at| at.map(word).collect());
    let plant = Plant { root: numbers[0], nodes, stopped: BTreeSet::new() };
    (plant, sequence.clone(), first_and_again(&first, &again))
}

/// The greatest common divisor.
fn divisor(a: usize, b: usize) -> usize {
    match b {
        0 => a,
        _ => divisor(b, a % b),
    }
}

/// How many labels come again and again, and how many nodes a ring has, so that a walk of so many links is the first that comes to its end: 15
/// labels at most, and at most so many nodes; `None` if no such ring is.
fn counts_for(random: &mut Random, links: usize, most: usize) -> Option<(usize, usize)> {
    let fits = |(labels, nodes): &(usize, usize)| {
        labels + links % labels <= 15 && links / nodes < *labels && divisor(*labels, *nodes) == 1
    };
    let all = (1..=15).flat_map(|labels| (1..=most).map(move |nodes| (labels, nodes)));
    random.some(&all.filter(fits).collect::<Vec<_>>())
}

/// A walk of so many links, a few more or less than it may have: over a ring whose links are single or have two labels, of which a label word
/// holds one or both.
pub fn long(random: &mut Random, links: usize) -> Asked {
    let low = random.below(4095) as u32;
    let high = random.between(low as usize + 1, 4095) as u32;
    let doubly = if random.chance(30) { counts_for(random, links, 341) } else { None };
    let (again, nodes) = doubly.or_else(|| counts_for(random, links, 511)).expect("a ring");
    let double = doubly.is_some();
    let mut numbers = numbers(random, nodes);
    random.shuffle(&mut numbers);
    let mut ringed = ring(&numbers, &[low]);
    for links in ringed.values_mut().filter(|_| double) {
        let second: Vec<(u32, u32)> = links.iter().map(|link| (high, link.1)).collect();
        links.extend(second);
    }
    let both = [(low, low), (high, high), (low, high)];
    let word = |random: &mut Random| if double { random.pick(&both) } else { (low, low) };
    let words: Vec<Vec<u32>> =
        (0..links % again + again).map(|_| word(random)).map(|(a, b)| vec![range(a, b)]).collect();
    let (first, words) = words.split_at(links % again);
    let plant = Plant { root: numbers[0], nodes: ringed, stopped: BTreeSet::new() };
    let node = numbers[links % nodes];
    Asked { whole: whole(random, &plant), groups: None, path: first_and_again(first, words), node }
}

/// A whole of just so many words, and a path that every walk spells.
pub fn sized(random: &mut Random, words: usize) -> Planted {
    let nodes = random.between(1, 300);
    let plant = planted(&filling(random, words, nodes, false));
    let labels: Vec<u32> = plant.links().iter().map(|link| link.1).collect();
    let path = or_of(any_label(random, &labels), random.between(1, 3), true);
    (plant, labels, path)
}

/// A node to which a walk is asked for: mostly one that is listed, or would be if all nodes were running; or any of the plant's, or none of these.
fn asked_node(random: &mut Random, plant: &Plant, path: &Path) -> u32 {
    let all: Vec<u32> = plant.nodes.keys().copied().collect();
    let sort = random.below(20);
    let stopped = if sort < 6 { BTreeSet::new() } else { plant.stopped.clone() };
    let listed: Vec<u32> = nodes_of(&Plant { stopped, ..plant.clone() }.search(path)).into_iter().collect();
    match sort {
        16 => number_beside(random, &all),
        17 => random.pick(&all) | 1 << random.between(16, 31),
        18 | 19 => random.pick(&all),
        _ => random.some(&listed).unwrap_or(all[0]),
    }
}

/// With groups or without.
pub fn asked(random: &mut Random, with_groups: bool) -> Asked {
    let sort = random.below(1000);
    if sort < 10 {
        let links = random.pick(&[4094, 4095, 4095, 4096, 4096, 4097]);
        return Asked { groups: with_groups.then_some(OURS), ..long(random, links) };
    }
    let (plant, alphabet, path) = match sort {
        10..=24 => large(random),
        25..=44 => {
            let words = random.between(1023, 1026);
            sized(random, words)
        }
        45..=149 => rings(random),
        150..=499 => layered(random),
        _ => any(random),
    };
    let (groups, path) = grouped(random, &alphabet, path, with_groups);
    let whole = whole(random, &plant);
    let mut asked = Asked { whole, groups, path, node: 0 };
    asked.node = asked_node(random, &plant, &asked.read_path());
    asked
}

/// The call for a walk, with some of its inputs damaged.
pub fn damaged(random: &mut Random, asked: &Asked) -> Call {
    let inputs = 2 + usize::from(asked.groups.is_some());
    let right = random.chance(30) || asked.whole.nodes.len() > 250;
    let damages = if right { 0 } else { damages(random, inputs) };
    let mut whole = single(random, &asked.whole.words(), WALKED_LIMIT, damages & 1 != 0);
    if random.chance(1) {
        whole.resize(4 * random.between(WALKED_LIMIT, WALKED_LIMIT + 2), 0);
    }
    let path = single(random, &asked.path, PATH_LIMIT, damages & 2 != 0);
    let groups = asked.groups.map(|groups| single(random, &groups, GROUP_COUNT, damages & 4 != 0));
    Call::Walk { whole, groups, path, node: asked.node }
}

pub fn walk(random: &mut Random, with_groups: bool) -> Call {
    let asked = asked(random, with_groups);
    damaged(random, &asked)
}
