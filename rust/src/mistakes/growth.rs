//! Searches that go wrong, so that a new link or another path can take a node off their lists.

use super::Named;
use crate::evaluation::hub::nodes_of;
use crate::evaluation::path::{Expression, Path};
use crate::evaluation::plant::Plant;
use crate::evaluation::states::States;
use std::collections::BTreeSet;

/// The nodes that a search lists.
pub type Searching = fn(&Plant, &Path) -> BTreeSet<u32>;

/// By a link more or a started node.
pub const LINKED: [Named<Searching>; 2] = [
    ("one link followed of those with a label", |plant, path| {
        let mut plant = plant.clone();
        plant.nodes.values_mut().for_each(|out| *out = first_of_each_label(out));
        nodes_of(&plant.search(path))
    }),
    ("running nodes taken for stopped, and stopped for running", |plant, path| {
        let stopped = plant.nodes.keys().copied().filter(|node| !plant.stopped.contains(node)).collect();
        nodes_of(&Plant { stopped, ..plant.clone() }.search(path))
    }),
];

/// By another path.
pub const EITHER: [Named<Searching>; 3] = [
    ("a node entered once, in the state that comes first", entered_once),
    ("or lists what just one of the two lists", |plant, path| match operands(path) {
        Some([first, second]) => &nodes_of(&plant.search(&first)) ^ &nodes_of(&plant.search(&second)),
        None => nodes_of(&plant.search(path)),
    }),
    ("or lists what the second lists", |plant, path| {
        nodes_of(&operands(path).map_or(plant.search(path), |[_, second]| plant.search(&second)))
    }),
];

/// A search that enters each node once, in the state that comes first. A new link may do it too, but seldom.
pub fn entered_once(plant: &Plant, path: &Path) -> BTreeSet<u32> {
    let (states, plant) = (States::of(path), plant.left_out());
    let (mut entered, mut listed, mut waiting) = (BTreeSet::new(), BTreeSet::new(), vec![(plant.root, 0)]);
    while let Some((node, q)) = waiting.pop() {
        if plant.stopped.contains(&node) || !entered.insert(node) {
            continue;
        }
        listed.extend(states.accepts[q].then_some(node));
        for (label, target) in &plant.nodes[&node] {
            waiting.extend(states.after(path, q, *label).map(|p| (*target, p)));
        }
    }
    listed
}

fn first_of_each_label(out: &BTreeSet<(u32, u32)>) -> BTreeSet<(u32, u32)> {
    let first = |link: &&(u32, u32)| out.range((link.0, 0)..**link).next().is_none();
    out.iter().filter(first).copied().collect()
}

/// The two paths of a path that is an or.
fn operands(path: &Path) -> Option<[Path; 2]> {
    match &path.expression {
        Expression::Or(first, second) => Some([path.with(first), path.with(second)]),
        _ => None,
    }
}
