//! Programs that go wrong about a whole from triples: which files are accepted, which links and nodes the whole has, and how it is written.

use super::turned;
use crate::evaluation::part::{Node, Part};
use crate::evaluation::plant::Link;
use crate::evaluation::triples::TRIPLES_LIMIT;
use crate::evaluation::words::*;
use crate::mistakes::lists::*;
use crate::mistakes::{Answer, Named};
use std::collections::{BTreeMap, BTreeSet};

/// A program that makes a whole of triples, step by step.
#[derive(Clone, Copy)]
pub struct Program {
    /// The number for so many bytes, 0 if they are accepted.
    counted: fn(usize) -> u32,
    /// Whether the word at a place is too large for its field.
    large: fn(&[u32], usize) -> bool,
    /// The triples as they are kept, by those that are handed in.
    kept: fn(Vec<Link>) -> Vec<Link>,
    /// The nodes, by root and triples.
    nodes: fn(u32, &[Link]) -> Vec<u32>,
    /// Whether a whole of so many words, from so many triples more than it has links, is over its limit.
    long: fn(usize, usize) -> bool,
    /// The words of the whole, from so many triples more.
    written: fn(Part, usize) -> Vec<u32>,
}

/// Without a mistake.
pub const RIGHT: Program = Program {
    counted,
    large: |words, at| words[at] > MOST[field(at)],
    kept: |links| neighbours_once(sorted(links)),
    nodes: |root, links| neighbours_once(sorted(ends(root, links).collect())),
    long: |words, _| words > FILE_LIMIT,
    written: |part, _| part.words(),
};

/// What a program does in another way; or all of it, by the bytes that it is handed.
pub enum Other {
    Counted(fn(usize) -> u32),
    Large(fn(&[u32], usize) -> bool),
    Kept(fn(Vec<Link>) -> Vec<Link>),
    Nodes(fn(u32, &[Link]) -> Vec<u32>),
    Long(fn(usize, usize) -> bool),
    Written(fn(Part, usize) -> Vec<u32>),
    All(fn(&[u8]) -> Answer),
}

use Other::*;

/// A whole from triples. A program that does not look at a word at all is found out wherever one is that accepts the next number.
pub const FROM: [Named<Other>; 56] = [
    ("18 for no words", Counted(|bytes| given_if(bytes == 0, 18, bytes))),
    ("bytes not in fours cut off", Counted(|bytes| counted(bytes / 4 * 4))),
    (
        "18 ahead of 2, bytes not in fours",
        Counted(|bytes| given_if(bytes % 4 > 0 && is_odd(bytes), 18, bytes)),
    ),
    (
        "18 ahead of 2, too many words",
        Counted(|bytes| given_if(bytes > 4 * 12_286 && is_odd(bytes), 18, bytes)),
    ),
    ("12,289 words accepted", Counted(|bytes| given_if(bytes == 4 * 12_289, 0, bytes))),
    ("12,286 words refused", Counted(|bytes| given_if(bytes == 4 * 12_286, 2, bytes))),
    ("over 4,096 words refused", Counted(|bytes| given_if(bytes > 4 * 4096, 2, bytes))),
    ("a lone root refused", Counted(|bytes| given_if(bytes == 4, 18, bytes))),
    ("a word left over dropped", Counted(|bytes| with_left_over(bytes, 2))),
    ("two words left over dropped", Counted(|bytes| with_left_over(bytes, 0))),
    ("root 65,536 accepted", Large(|words, at| is_large(words, at, 0, 65_536))),
    ("source 65,536 accepted", Large(|words, at| is_large(words, at, 1, 65_536))),
    ("label 4,096 accepted", Large(|words, at| is_large(words, at, 2, 4096))),
    ("target 65,536 accepted", Large(|words, at| is_large(words, at, 3, 65_536))),
    ("root 65,535 refused", Large(|words, at| is_large(words, at, 0, 65_534))),
    ("source 65,535 refused", Large(|words, at| is_large(words, at, 1, 65_534))),
    ("label 4,095 refused", Large(|words, at| is_large(words, at, 2, 4094))),
    ("target 65,535 refused", Large(|words, at| is_large(words, at, 3, 65_534))),
    ("words with a sign", Large(|words, at| words[at] as i32 > MOST[field(at)] as i32)),
    ("words cut to 16 bits", Large(|words, at| bits(words[at], 15, 0) > MOST[field(at)])),
    ("the first word not looked at", Large(|words, at| at > 0 && (RIGHT.large)(words, at))),
    ("the last word not looked at", Large(|words, at| at + 1 < words.len() && (RIGHT.large)(words, at))),
    ("the first triple alone looked at", Large(|words, at| at < 4 && (RIGHT.large)(words, at))),
    ("15 ahead of 18", All(|bytes| ahead(15, Large(|_, _| false).program().turn(bytes), RIGHT.turn(bytes)))),
    ("repeats kept", Kept(sorted)),
    ("repeats kept unless one after the other", Kept(|links| sorted(neighbours_once(links)))),
    ("repeated triples left out", Kept(without_repeats)),
    (
        "triples alike by source and label",
        Kept(|links| sorted(first_of_each(links, |link| (link.0, link.1)))),
    ),
    (
        "triples alike by source and target",
        Kept(|links| sorted(first_of_each(links, |link| (link.0, link.2)))),
    ),
    (
        "triples alike by label and target",
        Kept(|links| sorted(first_of_each(links, |link| (link.1, link.2)))),
    ),
    (
        "target before label in the order",
        Kept(|links| by((RIGHT.kept)(links), |link| (link.0, link.2, link.1))),
    ),
    ("in the order of the labels alone", Kept(|links| by(first_of_each(links, |link| link), |link| link.1))),
    ("in the order handed in", Kept(|links| first_of_each(links, |link| link))),
    ("in falling order", Kept(|links| (RIGHT.kept)(links).into_iter().rev().collect())),
    ("source and target exchanged", Kept(|links| (RIGHT.kept)(links.into_iter().map(turned).collect()))),
    (
        "links of a node to itself left out",
        Kept(|links| without((RIGHT.kept)(links), |link| link.0 == link.2)),
    ),
    ("the first triple left out", Kept(|links| (RIGHT.kept)(links.into_iter().skip(1).collect()))),
    ("the last triple left out", Kept(|links| (RIGHT.kept)(links[..links.len().max(1) - 1].to_vec()))),
    (
        "a node that is only a target forgotten",
        Nodes(|root, links| some_ends(root, links, |link| vec![link.0])),
    ),
    (
        "a node that is only a source forgotten",
        Nodes(|root, links| some_ends(root, links, |link| vec![link.2])),
    ),
    (
        "a node with a loop alone forgotten",
        Nodes(|root, links| {
            some_ends(root, links, |link| if link.0 == link.2 { vec![] } else { vec![link.0, link.2] })
        }),
    ),
    ("a root that is no end forgotten", Nodes(without_root)),
    ("node 0 forgotten", Nodes(|root, links| without((RIGHT.nodes)(root, links), |number| *number == 0))),
    (
        "node 65,535 forgotten",
        Nodes(|root, links| without((RIGHT.nodes)(root, links), |number| *number == 65_535)),
    ),
    (
        "nodes in the order handed in",
        Nodes(|root, links| first_of_each(ends(root, links).collect(), |number| number)),
    ),
    ("the root first", Nodes(|root, links| by((RIGHT.nodes)(root, links), |number| number != root))),
    ("nodes with a sign", Nodes(|root, links| by((RIGHT.nodes)(root, links), |number| number as i16))),
    ("a whole of 4,097 words accepted", Long(|words, _| words > 4097)),
    ("a whole of 4,096 words refused", Long(|words, _| words > 4095)),
    ("repeats counted", Long(|words, repeats| words + repeats > 4096)),
    (
        "repeats counted in the header",
        Written(|part, repeats| headed(part, |length| length + repeats as u32)),
    ),
    ("every node a door", Written(|part, _| with_nodes(part, |node| node.door = true))),
    ("a root that is no door", Written(|part, _| with_nodes(part, |node| node.door = false))),
    ("the least node the root", Written(|part, _| least_root(part))),
    (
        "nodes without links of their own stopped",
        Written(|part, _| with_nodes(part, |node| node.stopped = node.edges.is_empty() && !node.root)),
    ),
    ("a whole of site 1", Written(|part, _| Part { site: 1, ..part }.words())),
];

impl Other {
    /// What the program that is right but for this answers.
    pub fn turn(&self, bytes: &[u8]) -> Answer {
        match self {
            All(turn) => turn(bytes),
            _ => self.program().turn(bytes),
        }
    }

    fn program(&self) -> Program {
        match *self {
            Counted(counted) => Program { counted, ..RIGHT },
            Large(large) => Program { large, ..RIGHT },
            Kept(kept) => Program { kept, ..RIGHT },
            Nodes(nodes) => Program { nodes, ..RIGHT },
            Long(long) => Program { long, ..RIGHT },
            Written(written) => Program { written, ..RIGHT },
            All(_) => RIGHT,
        }
    }
}

impl Program {
    /// In buffers that are long enough.
    pub fn turn(&self, bytes: &[u8]) -> Answer {
        let number = (self.counted)(bytes.len());
        if number != 0 {
            return (number, vec![]);
        }
        let four = |b: &[u8]| u32::from_le_bytes([b[0], b[1], b[2], b[3]]);
        let words: Vec<u32> = bytes.chunks_exact(4).map(four).collect();
        if (0..words.len()).any(|at| (self.large)(&words, at)) {
            return (18, vec![]);
        }
        let handed: Vec<Link> =
            words[1..].chunks_exact(3).map(|three| (three[0], three[1], three[2])).collect();
        let count = handed.len();
        let (root, links) = (words[0], (self.kept)(handed));
        let part = whole_of(root, (self.nodes)(root, &links), &links);
        let repeats = count.saturating_sub(links.len());
        match (self.long)(1 + part.nodes.len() + links.len(), repeats) {
            true => (15, vec![]),
            false => (0, (self.written)(part, repeats)),
        }
    }
}

/// The largest words of a root, a source, a label and a target.
const MOST: [u32; 4] = [65_535, 65_535, 4095, 65_535];

/// Which of these a place has.
fn field(at: usize) -> usize {
    match at {
        0 => 0,
        _ => 1 + (at - 1) % 3,
    }
}

/// Whether a word is too large if a field may have words up to this one.
fn is_large(words: &[u32], at: usize, of: usize, most: u32) -> bool {
    words[at] > if field(at) == of { most } else { MOST[field(at)] }
}

/// Whether so many bytes are not a root and threes.
fn is_odd(bytes: usize) -> bool {
    bytes / 4 % 3 != 1
}

fn counted(bytes: usize) -> u32 {
    match bytes {
        0 => 2,
        _ if bytes % 4 > 0 || bytes / 4 > TRIPLES_LIMIT => 2,
        _ if is_odd(bytes) => 18,
        _ => 0,
    }
}

/// This number for such bytes.
fn given_if(such: bool, number: u32, bytes: usize) -> u32 {
    match such {
        true => number,
        false => counted(bytes),
    }
}

/// With so many words over a multiple of three accepted too.
fn with_left_over(bytes: usize, over: usize) -> u32 {
    given_if(counted(bytes) == 18 && bytes / 4 % 3 == over, 0, bytes)
}

/// The first answer if it has this number, else the second.
fn ahead(number: u32, first: Answer, second: Answer) -> Answer {
    match first.0 == number {
        true => first,
        false => second,
    }
}

fn without_repeats(links: Vec<Link>) -> Vec<Link> {
    let mut counts = BTreeMap::new();
    links.into_iter().for_each(|link| *counts.entry(link).or_insert(0) += 1);
    counts.into_iter().filter(|(_, count)| *count == 1).map(|(link, _)| link).collect()
}

fn ends(root: u32, links: &[Link]) -> impl Iterator<Item = u32> + '_ {
    std::iter::once(root).chain(links.iter().flat_map(|link| [link.0, link.2]))
}

/// The root and some ends of each link.
fn some_ends(root: u32, links: &[Link], of: fn(&Link) -> Vec<u32>) -> Vec<u32> {
    let numbers: BTreeSet<u32> = links.iter().flat_map(of).chain([root]).collect();
    numbers.into_iter().collect()
}

fn without_root(root: u32, links: &[Link]) -> Vec<u32> {
    let is_end = ends(root, links).skip(1).any(|number| number == root);
    without((RIGHT.nodes)(root, links), |number| *number == root && !is_end)
}

/// Of these nodes in this order, each with its links in theirs.
fn whole_of(root: u32, numbers: Vec<u32>, links: &[Link]) -> Part {
    let mut edges: BTreeMap<u32, Vec<(u32, u32)>> = BTreeMap::new();
    links.iter().for_each(|link| edges.entry(link.0).or_default().push((link.1, link.2)));
    let node = |number: u32| {
        let (root, edges) = (number == root, edges.remove(&number).unwrap_or_default());
        Node { number, door: root, root, stopped: false, edges }
    };
    Part { site: 0, nodes: numbers.into_iter().map(node).collect() }
}

fn least_root(part: Part) -> Vec<u32> {
    let least = part.nodes[0].number;
    with_nodes(part, |node| (node.door, node.root) = (node.number == least, node.number == least))
}
