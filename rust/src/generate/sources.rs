//! Random states and counts that plants are drawn from: around each line between accepted and refused counts, and states from which a node
//! draws equal edges.

use super::counts::number;
use crate::evaluation::generator::Source;
use crate::evaluation::part::Node;
use crate::random::Random;

/// At these a state, or what a draw makes of it, may be taken for another.
pub const STATES: [u32; 10] =
    [0, 1, 0x7fff, 0xffff, 0x1_0000, 0x0fff_ffff, 0x7fff_ffff, 0x8000_0000, 0xffff_0000, u32::MAX];

/// Counts that are refused, each next to an accepted one or taken for one if it is cut, wraps or has a sign.
pub const NODES: [u32; 12] =
    [0, 257, 258, 512, 513, 1024, 65_536, 65_537, 0x8000_0000, 0x8000_0001, 0xffff_ff00, u32::MAX];
pub const EDGES: [u32; 12] = [0, 5, 6, 8, 255, 256, 257, 260, 65_537, 0x8000_0001, 0xffff_fffc, u32::MAX];

pub fn state(random: &mut Random) -> u32 {
    match random.chance(10) {
        true => random.pick(&STATES),
        false => random.word(),
    }
}

/// Counts that are accepted, of few nodes mostly, and any state.
pub fn accepted(random: &mut Random) -> Source {
    let most = random.pick(&[1, 2, 3, 8, 8, 16, 40, 256]);
    let nodes = match most == 256 && random.chance(20) {
        true => most,
        false => random.between(1, most),
    };
    Source { state: state(random), nodes: nodes as u32, edges: random.between(1, 4) as u32 }
}

/// Whether a node has fewer edges than it has drawn.
pub fn has_equals(source: &Source, node: &Node) -> bool {
    node.edges.len() < source.edges as usize
}

/// One from which some node draws equal edges, found by search: about one state in 700 is, of four edges, whatever the number of nodes.
pub fn with_equals(random: &mut Random) -> Source {
    let nodes = random.pick(&[1, 1, 1, 2, 3]);
    loop {
        let source = Source { state: random.word(), nodes, edges: 4 };
        if source.part().nodes.iter().any(|node| has_equals(&source, node)) {
            return source;
        }
    }
}

/// Any, now and then with counts that are refused.
pub fn source(random: &mut Random) -> Source {
    let own = accepted(random);
    match random.below(20) {
        0 | 1 => Source { nodes: random.pick(&NODES), ..own },
        2 | 3 => Source { edges: random.pick(&EDGES), ..own },
        4 => Source { nodes: number(random, 32), edges: number(random, 32), ..own },
        5 => Source { nodes: random.pick(&NODES), edges: random.pick(&EDGES), ..own },
        6 => Source { nodes: random.between(254, 258) as u32, ..own },
        7 | 8 => with_equals(random),
        _ => own,
    }
}
