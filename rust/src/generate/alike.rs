//! Random parts that no reply may tell apart, and parts that differ in one word of a reached node.

use super::plant::{labels_of, number_beside, some_label};
use crate::evaluation::learning::{only, reached};
use crate::evaluation::part::{Node, Part};
use crate::evaluation::plant::links_of;
use crate::evaluation::words::FILE_LIMIT;
use crate::mistakes::Named;
use crate::random::Random;
use std::collections::BTreeSet;

/// Labels and numbers for links; neither is empty.
struct Ends {
    labels: Vec<u32>,
    /// Ascending.
    numbers: Vec<u32>,
}

impl Ends {
    /// Those of these nodes and of their links, and of node 7 where there is none.
    fn of(nodes: &[Node]) -> Ends {
        let links = links_of(&[Part { site: 0, nodes: nodes.to_vec() }]);
        let numbers = nodes.iter().map(|node| node.number).chain(links.iter().map(|link| link.2));
        let numbers: BTreeSet<u32> = numbers.chain(nodes.is_empty().then_some(7)).collect();
        Ends { labels: labels_of(&links), numbers: numbers.into_iter().collect() }
    }

    fn target(&self, random: &mut Random) -> u32 {
        match random.chance(90) {
            true => random.pick(&self.numbers),
            false => random.below(65_536) as u32,
        }
    }

    fn edge(&self, random: &mut Random) -> (u32, u32) {
        (some_label(random, &self.labels), self.target(random))
    }

    /// Another stopped bit, maybe, and a few other links, to any of the numbers.
    fn alter(&self, random: &mut Random, node: &mut Node) {
        node.stopped = random.chance(30);
        let count = random.pick(&[0, 1, 2, 4]);
        let edges: BTreeSet<(u32, u32)> = (0..count).map(|_| self.edge(random)).collect();
        node.edges = edges.into_iter().collect();
    }
}

fn bare(number: u32) -> Node {
    Node { number, door: false, root: false, stopped: false, edges: vec![] }
}

/// Nodes with numbers that none of these nodes has and no link of theirs leads to: so what was reached reaches none of them.
fn further_nodes(random: &mut Random, nodes: &[Node]) -> Vec<Node> {
    let mut taken = Ends::of(nodes).numbers;
    let mut next = |random: &mut Random| {
        let number = number_beside(random, &taken);
        taken.insert(taken.partition_point(|other| *other < number), number);
        bare(number)
    };
    (0..random.pick(&[0, 1, 1, 2, 5])).map(|_| next(random)).collect()
}

/// Those of the nodes for which a part has room, in words; now and then the links of one fill it up.
fn within(random: &mut Random, mut nodes: Vec<Node>, mut room: usize) -> Vec<Node> {
    nodes.retain(|node| {
        let fits = node.edges.len() < room;
        room -= if fits { 1 + node.edges.len() } else { 0 };
        fits
    });
    if random.chance(2) && !nodes.is_empty() {
        let (at, target) = (random.below(nodes.len()), random.below(65_536) as u32);
        room += nodes[at].edges.len();
        nodes[at].edges = (0..room as u32).map(|label| (label, target)).collect();
    }
    nodes
}

/// A part with the same nodes reached from the doors. Of the others some are left, some get other links or are stopped or started, some are
/// taken out, and some put in.
pub fn alike_to(random: &mut Random, part: &Part) -> Part {
    let own = only(part, &reached(part));
    let (kept, changed) = (random.pick(&[0, 60, 100]), random.pick(&[0, 50, 100]));
    let mut others = part.nodes.clone();
    others.retain(|node| own.node(node.number).is_none() && random.chance(kept));
    let mut further = further_nodes(random, &[&own.nodes[..], &others].concat());
    let ends = Ends::of(&[&own.nodes[..], &others, &further].concat());
    further.iter_mut().for_each(|node| ends.alter(random, node));
    for node in &mut others {
        if random.chance(changed) {
            ends.alter(random, node);
        }
    }
    let others = within(random, [others, further].concat(), FILE_LIMIT - own.words().len());
    let mut nodes = [own.nodes, others].concat();
    nodes.sort_by_key(|node| node.number);
    Part { site: part.site, nodes }
}

/// Changes a word of the node at this place, or leaves it where it cannot be changed so.
pub type Difference = fn(&mut Random, &mut Part, usize);

/// What may differ in one word of a reached node, or in which nodes are reached.
pub const DIFFERENCES: [Named<Difference>; 10] = [
    ("another site", |random, part, _| part.site = (part.site + random.between(1, 15) as u32) % 16),
    ("another label", |random, part, at| {
        let ends = Ends::of(&part.nodes);
        with_edge(random, part, at, |random, edge| (some_label(random, &ends.labels), edge.1));
    }),
    ("another target", |random, part, at| {
        let ends = Ends::of(&part.nodes);
        with_edge(random, part, at, |random, edge| (edge.0, ends.target(random)));
    }),
    ("a link more", |random, part, at| {
        let edge = Ends::of(&part.nodes).edge(random);
        part.nodes[at].edges.push(edge);
    }),
    ("a link less", |random, part, at| {
        let edges = &mut part.nodes[at].edges;
        if !edges.is_empty() {
            edges.remove(random.below(edges.len()));
        }
    }),
    ("stopped or started", |_, part, at| part.nodes[at].stopped ^= true),
    ("a door more or less", |_, part, at| {
        part.nodes[at].door ^= true;
        part.nodes[at].root = false;
    }),
    ("a root more or less", |_, part, at| {
        let other = part.nodes.iter().any(|node| node.root && node.number != part.nodes[at].number);
        part.nodes[at].root ^= part.nodes[at].door && !other;
    }),
    ("a node less", |_, part, at| drop(part.nodes.remove(at))),
    ("a node more where a link led out", |_, part, at| {
        let targets = part.nodes[at].edges.iter().map(|edge| edge.1);
        let outside = targets.into_iter().find(|target| part.node(*target).is_none());
        part.nodes.extend(outside.map(bare));
    }),
];

type Edge = (u32, u32);

/// One link of the node replaced, if it has any: one that leads to a node of the part, rather than others.
fn with_edge(random: &mut Random, part: &mut Part, node: usize, other: impl Fn(&mut Random, Edge) -> Edge) {
    let edges = part.nodes[node].edges.clone();
    let inside = |at: &usize| part.node(edges[*at].1).is_some();
    for places in [(0..edges.len()).filter(inside).collect::<Vec<_>>(), (0..edges.len()).collect()] {
        if !places.is_empty() && random.chance(80) {
            let at = random.pick(&places);
            part.nodes[node].edges[at] = other(random, edges[at]);
            return;
        }
    }
}

/// The part with a difference at this node, and its words in order again.
pub fn with_difference(random: &mut Random, part: &Part, difference: Difference, node: u32) -> Part {
    let mut part = part.clone();
    let at = part.nodes.binary_search_by_key(&node, |node| node.number).expect("a node of the part");
    difference(random, &mut part, at);
    part.nodes.sort_by_key(|node| node.number);
    for node in &mut part.nodes {
        node.edges.sort();
        node.edges.dedup();
    }
    part
}
