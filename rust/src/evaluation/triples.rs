//! The triple edition (request 8): what a triple file says, the whole that says the same, and which wholes triples can say.

use super::part::{Node, Part};
use super::plant::{Link, Plant};
use super::words::*;
use super::Room;
use std::collections::BTreeSet;

/// The words of a triple file, at most.
pub const TRIPLES_LIMIT: usize = 12_286;

/// The least buffers that do not give 1: for a whole from triples, and for triples from a whole.
pub const LEAST_FROM: Room = Room { out: 4 * FILE_LIMIT, work: WORK_BYTES };
pub const LEAST_TO: Room = Room { out: 4 * TRIPLES_LIMIT, work: WORK_BYTES };

/// A plant by its root and its links alone.
#[derive(Clone, PartialEq, Eq, Debug)]
pub struct Edition {
    pub root: u32,
    pub links: BTreeSet<Link>,
}

/// Numbers 2 and 18, then what the words say.
pub fn read_triples(bytes: &[u8]) -> Result<Edition, Refusal> {
    let words = words_of(bytes, TRIPLES_LIMIT)?;
    if words.len() % 3 != 1 {
        return refuse(18, "not a root and threes");
    }
    let links: BTreeSet<Link> = words[1..].chunks(3).map(|three| (three[0], three[1], three[2])).collect();
    if words[0] > 65_535 {
        return refuse(18, "root too large");
    }
    if links.iter().any(|link| link.0 > 65_535) {
        return refuse(18, "source too large");
    }
    if links.iter().any(|link| link.1 > 4095) {
        return refuse(18, "label too large");
    }
    if links.iter().any(|link| link.2 > 65_535) {
        return refuse(18, "target too large");
    }
    Ok(Edition { root: words[0], links })
}

impl Edition {
    /// Number 19, then what is left of a whole without its site and its doors.
    pub fn of(whole: &Part) -> Result<Edition, Refusal> {
        let plant = Plant::of(whole);
        let edition = Edition { root: plant.root, links: plant.links() };
        if !plant.stopped.is_empty() {
            return refuse(19, "stopped node");
        }
        if !edition.nodes().iter().eq(plant.nodes.keys()) {
            return refuse(19, "node without links");
        }
        Ok(edition)
    }

    /// The root and all ends.
    pub fn nodes(&self) -> BTreeSet<u32> {
        self.links.iter().flat_map(|link| [link.0, link.2]).chain([self.root]).collect()
    }

    /// Of site 0, with the root as its only door.
    pub fn whole(&self) -> Part {
        let node = |number: u32| {
            let own = self.links.range((number, 0, 0)..(number + 1, 0, 0));
            let (root, edges) = (number == self.root, own.map(|link| (link.1, link.2)).collect());
            Node { number, door: root, root, stopped: false, edges }
        };
        Part { site: 0, nodes: self.nodes().into_iter().map(node).collect() }
    }

    /// The root, then the links in their order.
    pub fn words(&self) -> Vec<u32> {
        let links = self.links.iter().flat_map(|link| [link.0, link.1, link.2]);
        std::iter::once(self.root).chain(links).collect()
    }
}
