//! What a hub may learn of a part (request 12): the nodes reached from its doors, and parts that no reply may tell apart.

use super::part::{Node, Part};
use super::words::*;
use std::collections::BTreeSet;

/// The least set of the part's nodes that has its doors and all nodes of the part to which links of its members lead, under any labels, from
/// and to stopped nodes too. Pass by pass over all nodes, until one brings nothing new.
pub fn reached(part: &Part) -> BTreeSet<u32> {
    let mut reached: BTreeSet<u32> = part.doors().map(|door| door.number).collect();
    loop {
        let before = reached.len();
        for node in &part.nodes {
            if reached.contains(&node.number) {
                let targets = node.edges.iter().map(|edge| edge.1);
                reached.extend(targets.filter(|target| part.node(*target).is_some()));
            }
        }
        if reached.len() == before {
            return reached;
        }
    }
}

/// The part with just these of its nodes.
pub fn only(part: &Part, nodes: &BTreeSet<u32>) -> Part {
    let own = |node: &&Node| nodes.contains(&node.number);
    Part { site: part.site, nodes: part.nodes.iter().filter(own).cloned().collect() }
}

/// Parts of one site whose reached nodes are the same, with the same words.
pub fn alike(one: &Part, other: &Part) -> bool {
    alike_by(reached, one, other)
}

/// The same by another notion of what is reached, for the mistakes.
pub fn alike_by(reached: fn(&Part) -> BTreeSet<u32>, one: &Part, other: &Part) -> bool {
    let [one, other] = [one, other].map(|part| only(part, &reached(part)).words());
    one == other
}

/// Whether a call word of these bytes names a node of the part that is not reached. Bytes that are no words name none.
pub fn names_unreached(part: &Part, calls: &[u8]) -> bool {
    let words = words_of(calls, FILE_LIMIT).unwrap_or_default();
    let reached = reached(part);
    let unreached = |node: u32| part.node(node).is_some() && !reached.contains(&node);
    words.into_iter().skip(1).any(|word| kind(word) == CALL && unreached(bits(word, 19, 4)))
}
