//! Mistakes about what a hub may learn: sites that tell too much, and notions of what is reached that have too few nodes.

use super::Named;
use crate::evaluation::learning::reached;
use crate::evaluation::part::{Node, Part};
use crate::evaluation::plant::links_of;
use std::collections::BTreeSet;
use std::slice::from_ref;

/// The part that a part is taken for.
pub type TakenPart = fn(&Part) -> Part;
/// Which nodes of a part are taken for those that are reached from its doors.
pub type Reaching = fn(&Part) -> BTreeSet<u32>;

/// Sites whose replies tell of nodes that are not reached from the doors.
pub const TELLING: [Named<TakenPart>; 5] = [
    ("links taken both ways", both_ways),
    ("links of the node behind taken too", |part| {
        beside(part, |node, behind| node.edges.extend(behind.edges.iter().copied()))
    }),
    ("the stopped bit of the node behind", |part| beside(part, |node, behind| node.stopped = behind.stopped)),
    ("an outside target taken for the next node", |part| {
        led_to(part, |target| part.nodes.iter().find(|node| node.number > target))
    }),
    ("an outside target taken for the node before", |part| {
        led_to(part, |target| part.nodes.iter().rfind(|node| node.number < target))
    }),
];

/// Notions of what is reached from the doors. Parts that are alike by one of them can be told apart; by the last, only by a call of a node
/// behind a stopped one.
pub const REACHED: [Named<Reaching>; 5] = [
    ("reached: the doors alone", |part| part.doors().map(|door| door.number).collect()),
    ("reached: one link from the doors and no further", |part| {
        reached(&each_node(part, |node| node.edges.retain(|_| node.door)))
    }),
    ("reached: from the root alone", |part| reached(&each_node(part, |node| node.door = node.root))),
    ("reached: without stopped nodes", |part| {
        let mut running = without_links_of_stopped(part);
        running.nodes.retain(|node| node.door || !node.stopped);
        reached(&running)
    }),
    ("reached: not through stopped nodes", reached_running),
];

/// The nodes reached from the doors, but not through stopped ones.
pub fn reached_running(part: &Part) -> BTreeSet<u32> {
    reached(&without_links_of_stopped(part))
}

fn each_node(part: &Part, other: impl Fn(&mut Node)) -> Part {
    let mut part = part.clone();
    for node in &mut part.nodes {
        other(node);
        node.edges.sort();
        node.edges.dedup();
    }
    part
}

fn without_links_of_stopped(part: &Part) -> Part {
    each_node(part, |node| node.edges.retain(|_| !node.stopped))
}

fn both_ways(part: &Part) -> Part {
    let links = links_of(from_ref(part));
    each_node(part, |node| {
        let back = links.iter().filter(|link| link.2 == node.number);
        node.edges.extend(back.map(|link| (link.1, link.0)));
    })
}

/// Each node as it is changed by the one behind it in the file, if there is one.
fn beside(part: &Part, other: impl Fn(&mut Node, &Node)) -> Part {
    each_node(part, |node| {
        let behind = part.nodes.iter().find(|behind| behind.number > node.number);
        behind.into_iter().for_each(|behind| other(node, behind));
    })
}

/// With targets that are no nodes of the part taken for nodes, where one is found.
fn led_to<'a>(part: &'a Part, found: impl Fn(u32) -> Option<&'a Node>) -> Part {
    let taken = |target: u32| match part.node(target) {
        Some(_) => target,
        None => found(target).map_or(target, |node| node.number),
    };
    each_node(part, |node| node.edges.iter_mut().for_each(|edge| edge.1 = taken(edge.1)))
}
