//! Programs that go wrong about triples from a whole: which wholes triples can say, which triples there are and in which order, and how many
//! words they have.

use super::turned;
use crate::evaluation::learning::reached;
use crate::evaluation::part::{read_part, read_whole, Node, Part};
use crate::evaluation::plant::{links_of, Link};
use crate::evaluation::words::*;
use crate::generate::triples::{words_of_triples, Triples};
use crate::mistakes::lists::*;
use crate::mistakes::{Answer, Named};
use std::collections::BTreeSet;
use std::slice::from_ref;

/// A program that makes triples of a whole.
#[derive(Clone, Copy)]
pub struct Program {
    /// Whether triples cannot say it.
    unsaid: fn(&Part) -> bool,
    root: fn(&Part) -> u32,
    /// The links as they are written, by those of the whole in its order.
    links: fn(Vec<Link>, &Part) -> Vec<Link>,
    written: fn(&Triples) -> Vec<u32>,
    /// The count that is handed out, by the words and by the whole.
    count: fn(&[u32], &Part) -> usize,
}

/// Without a mistake.
pub const RIGHT: Program = Program {
    unsaid: |whole| but_for(whole, |_, _| false),
    root: |whole| whole.root().map_or(0, |node| node.number),
    links: |links, _| links,
    written: words_of_triples,
    count: |words, _| words.len(),
};

/// What a program does in another way; or all of it, by the bytes that it is handed.
pub enum Other {
    Unsaid(fn(&Part) -> bool),
    Root(fn(&Part) -> u32),
    Links(fn(Vec<Link>, &Part) -> Vec<Link>),
    Written(fn(&Triples) -> Vec<u32>),
    Count(fn(&[u32], &Part) -> usize),
    All(fn(&[u8]) -> Counted),
}

use Other::*;

/// An answer, and the count that is handed out.
pub type Counted = (Answer, usize);

/// Triples from a whole.
pub const TO: [Named<Other>; 41] = [
    ("a stopped root let through", Unsaid(|whole| but_for(whole, |node, _| node.stopped && node.root))),
    (
        "a stopped door let through",
        Unsaid(|whole| but_for(whole, |node, _| node.stopped && node.door && !node.root)),
    ),
    (
        "a stopped inner node let through",
        Unsaid(|whole| but_for(whole, |node, _| node.stopped && !node.door)),
    ),
    ("an isolated door let through", Unsaid(|whole| but_for(whole, |node, alone| alone && node.door))),
    ("an isolated inner node let through", Unsaid(|whole| but_for(whole, |node, alone| alone && !node.door))),
    (
        "an isolated first node let through",
        Unsaid(|whole| but_for(whole, |node, alone| alone && is_there(node, whole.nodes.first()))),
    ),
    (
        "an isolated last node let through",
        Unsaid(|whole| but_for(whole, |node, alone| alone && is_there(node, whole.nodes.last()))),
    ),
    ("an isolated root refused", Unsaid(|whole| also(whole, |_, alone| alone))),
    (
        "an isolated root beside others refused",
        Unsaid(|whole| also(whole, |_, alone| alone && whole.nodes.len() > 1)),
    ),
    (
        "a node with a loop alone refused",
        Unsaid(|whole| {
            let lone = alone(&without_loops(whole));
            also(whole, |node, _| !node.root && lone.contains(&node.number))
        }),
    ),
    (
        "a node that is only a target refused",
        Unsaid(|whole| also(whole, |node, _| !node.root && node.edges.is_empty())),
    ),
    (
        "a node that is only a source refused",
        Unsaid(|whole| {
            let targets = targets(whole);
            also(whole, |node, _| !node.root && !targets.contains(&node.number))
        }),
    ),
    (
        "a node that no walk comes to refused",
        Unsaid(|whole| {
            let reached = from_root(whole);
            also(whole, |node, _| !reached.contains(&node.number))
        }),
    ),
    ("a door beside the root refused", Unsaid(|whole| also(whole, |node, _| node.door && !node.root))),
    ("another site refused", Unsaid(|whole| also(whole, |_, _| whole.site != 0))),
    ("19 ahead of 7", All(|bytes| unsaid_ahead(bytes, 7))),
    ("19 ahead of 8", All(|bytes| unsaid_ahead(bytes, 8))),
    (
        "a link that ends nowhere let through",
        All(|bytes| {
            let left_out = read_part(bytes).ok().filter(|_| RIGHT.turn(bytes).0 .0 == 8);
            left_out.map_or(RIGHT.turn(bytes), |part| RIGHT.turn_whole(&part))
        }),
    ),
    ("the root with its marks", Root(|whole| (RIGHT.root)(whole) | 3 << 16)),
    ("the least node for the root", Root(|whole| whole.nodes[0].number)),
    ("the least door for the root", Root(|whole| whole.doors().next().map_or(0, |door| door.number))),
    ("sorted by source, target, label", Links(|links, _| by(links, |link| (link.0, link.2)))),
    ("sorted by label first", Links(|links, _| by(links, |link| link.1))),
    ("sorted by target first", Links(|links, _| by(links, |link| link.2))),
    ("sorted with a sign", Links(|links, _| by(links, |link| link.0 as i16))),
    ("in falling order", Links(|links, _| reversed(links))),
    ("the root's links first", Links(|links, whole| by(links, |link| link.0 != (RIGHT.root)(whole)))),
    ("source and target exchanged", Links(|links, _| sorted(links.into_iter().map(turned).collect()))),
    ("source, target, label", Links(|links, _| each(links, |link| (link.0, link.2, link.1)))),
    (
        "edge words for labels",
        Links(|links, _| each(links, |link| (link.0, EDGE << 28 | link.1 << 16 | link.2, link.2))),
    ),
    ("links of a node to itself left out", Links(|links, _| without(links, |link| link.0 == link.2))),
    (
        "links alike by source and target left out",
        Links(|links, _| first_of_each(links, |link| (link.0, link.2))),
    ),
    (
        "the doors' links alone",
        Links(|links, whole| without(links, |link| whole.node(link.0).map_or(false, |node| !node.door))),
    ),
    ("the root left out", Written(|triples| words_of_triples(triples)[1..].to_vec())),
    (
        "the root behind the triples",
        Written(|triples| [&words_of_triples(triples)[1..], &[triples.0]].concat()),
    ),
    ("triples counted", Count(|words, _| words.len() / 3)),
    ("the root's word not counted", Count(|words, _| words.len() - 1)),
    ("bytes counted", Count(|words, _| 4 * words.len())),
    ("a word too many counted", Count(|words, _| words.len() + 1)),
    ("the whole's words counted", Count(|_, whole| whole.words().len())),
    ("the count cut to 8 bits", Count(|words, _| words.len() % 256)),
];

impl Other {
    /// What the program that is right but for this answers.
    pub fn turn(&self, bytes: &[u8]) -> Counted {
        match *self {
            Unsaid(unsaid) => Program { unsaid, ..RIGHT }.turn(bytes),
            Root(root) => Program { root, ..RIGHT }.turn(bytes),
            Links(links) => Program { links, ..RIGHT }.turn(bytes),
            Written(written) => Program { written, ..RIGHT }.turn(bytes),
            Count(count) => Program { count, ..RIGHT }.turn(bytes),
            All(turn) => turn(bytes),
        }
    }
}

impl Program {
    /// In buffers that are long enough.
    pub fn turn(&self, bytes: &[u8]) -> Counted {
        match read_whole(bytes) {
            Ok(whole) => self.turn_whole(&whole),
            Err(refusal) => ((refusal.number, vec![]), 0),
        }
    }

    fn turn_whole(&self, whole: &Part) -> Counted {
        if (self.unsaid)(whole) {
            return ((19, vec![]), 0);
        }
        let links = links_of(from_ref(whole)).into_iter().collect();
        let words = (self.written)(&((self.root)(whole), (self.links)(links, whole)));
        let count = (self.count)(&words, whole);
        ((0, words), count)
    }
}

fn is_there(node: &Node, other: Option<&Node>) -> bool {
    other.map_or(false, |other| other.number == node.number)
}

fn each(links: Vec<Link>, other: impl Fn(Link) -> Link) -> Vec<Link> {
    links.into_iter().map(other).collect()
}

fn targets(whole: &Part) -> BTreeSet<u32> {
    whole.nodes.iter().flat_map(|node| node.edges.iter().map(|edge| edge.1)).collect()
}

/// The nodes without links.
fn alone(whole: &Part) -> BTreeSet<u32> {
    let targets = targets(whole);
    let lone = whole.nodes.iter().filter(|node| node.edges.is_empty() && !targets.contains(&node.number));
    lone.map(|node| node.number).collect()
}

/// Whether triples cannot say a whole if such nodes, with links or without, are let through.
fn but_for(whole: &Part, let_through: impl Fn(&Node, bool) -> bool) -> bool {
    let lone = alone(whole);
    whole.nodes.iter().any(|node| {
        let alone = lone.contains(&node.number);
        (node.stopped || alone && !node.root) && !let_through(node, alone)
    })
}

/// The same if such nodes are refused too.
fn also(whole: &Part, refused: impl Fn(&Node, bool) -> bool) -> bool {
    let lone = alone(whole);
    let refused = |node: &Node| refused(node, lone.contains(&node.number));
    (RIGHT.unsaid)(whole) || whole.nodes.iter().any(refused)
}

fn loopless(node: &Node) -> Node {
    let edges = without(node.edges.clone(), |edge| edge.1 == node.number);
    Node { edges, ..node.clone() }
}

fn without_loops(whole: &Part) -> Part {
    Part { site: whole.site, nodes: whole.nodes.iter().map(loopless).collect() }
}

/// The nodes that links lead to from the root.
fn from_root(whole: &Part) -> BTreeSet<u32> {
    let mut whole = whole.clone();
    whole.nodes.iter_mut().for_each(|node| node.door = node.root);
    reached(&whole)
}

/// With 19 ahead of this number.
fn unsaid_ahead(bytes: &[u8], number: u32) -> Counted {
    let right = RIGHT.turn(bytes);
    let read = read_part(bytes).ok().filter(|_| right.0 .0 == number);
    match read.map_or(false, |part| (RIGHT.unsaid)(&part)) {
        true => ((19, vec![]), 0),
        false => right,
    }
}
