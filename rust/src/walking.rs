//! What walks of a question come to, by the states and by the links that its parts have, and what links that end nowhere have to do with it.

use crate::evaluation::hub::FirstBundle;
use crate::evaluation::part::{Node, Part};
use crate::evaluation::path::Path;
use crate::evaluation::plant::{links_of, Link};
use crate::evaluation::replies::Pair;
use crate::evaluation::states::States;
use crate::generate::question::Question;
use std::collections::{BTreeMap, BTreeSet};

/// The pairs that walks from the root come to, and those of them at which they cross between parts, with the root in state 0. They come into
/// stopped nodes, and to where no node is, as the part before cannot know of that; but from there no further.
pub struct Walks {
    pub come_to: BTreeSet<Pair>,
    pub crossings: BTreeSet<Pair>,
}

pub fn walks(question: &Question, path: &Path) -> Walks {
    let states = States::of(path);
    let mut nodes: BTreeMap<u32, (u32, &Node)> = BTreeMap::new();
    for part in &question.parts {
        nodes.extend(part.nodes.iter().map(|node| (node.number, (part.site, node))));
    }
    let root = (question.plant.root, 0);
    let mut walks = Walks { come_to: BTreeSet::from([root]), crossings: BTreeSet::from([root]) };
    let mut waiting = vec![root];
    while let Some((number, q)) = waiting.pop() {
        let (site, node) = match nodes.get(&number) {
            Some((site, node)) if !node.stopped => (site, node),
            _ => continue,
        };
        for (label, target) in &node.edges {
            let inside = nodes.get(target).map_or(false, |other| other.0 == *site);
            for pair in states.after(path, q, *label).map(|p| (*target, p)) {
                walks.crossings.extend((!inside).then_some(pair));
                waiting.extend(walks.come_to.insert(pair).then_some(pair));
            }
        }
    }
    walks
}

impl Walks {
    /// The nodes that they come to, ascending.
    pub fn nodes(&self) -> Vec<u32> {
        let nodes: BTreeSet<u32> = self.come_to.iter().map(|pair| pair.0).collect();
        nodes.into_iter().collect()
    }

    fn come(&self, node: u32) -> bool {
        self.come_to.range((node, 0)..(node + 1, 0)).next().is_some()
    }

    fn call(&self, door: u32) -> bool {
        self.crossings.range((door, 0)..(door + 1, 0)).next().is_some()
    }
}

/// The links of the parts that end nowhere.
pub fn strays(question: &Question) -> BTreeSet<Link> {
    links_of(&question.parts).into_iter().filter(|link| question.plant.ends_nowhere(link)).collect()
}

/// The part without such links.
pub fn without_strays(question: &Question, part: &Part) -> Part {
    let mut part = part.clone();
    let ends = |edge: &(u32, u32)| question.plant.nodes.contains_key(&edge.1);
    part.nodes.iter_mut().for_each(|node| node.edges.retain(ends));
    part
}

/// What there is of links that end nowhere and that nobody walks: why nobody does, which rows of first replies lead there, whose they are.
pub const IDLE: [&str; 10] = [
    "idle link of a stopped node",
    "idle link behind stopped nodes",
    "idle link of a node that no walk comes to",
    "idle link that no state steps on",
    "idle link in a row of a called door",
    "idle link in a row of a door that is not called",
    "idle link in no row",
    "idle links of several sites",
    "idle link of a part alone",
    "idle link of the plant alone",
];

/// The question with all nodes running.
fn all_running(question: &Question) -> Question {
    let mut question = question.clone();
    question.parts.iter_mut().flat_map(|part| &mut part.nodes).for_each(|node| node.stopped = false);
    question
}

/// Those of `IDLE` that a question has, in which no such link is walked.
pub fn idle(question: &Question, path: &Path, bundle: &FirstBundle) -> BTreeSet<&'static str> {
    let (own, plants) = (strays(question), question.plant.links());
    let mut met = BTreeSet::new();
    let of_plant = |link: &Link| question.plant.ends_nowhere(link) && !own.contains(link);
    met.extend(plants.iter().any(of_plant).then_some(IDLE[9]));
    if own.is_empty() {
        return met;
    }
    let (now, running) = (walks(question, path), walks(&all_running(question), path));
    for (node, _, target) in &own {
        met.insert(match () {
            () if question.plant.stopped.contains(node) => IDLE[0],
            () if !running.come(*node) => IDLE[2],
            () if !now.come(*node) => IDLE[1],
            () => IDLE[3],
        });
        let lead = |row: &[Pair]| row.iter().any(|pair| pair.0 == *target);
        let leading = bundle.rows.iter().filter(|(_, row)| lead(row));
        let doors: Vec<bool> = leading.map(|(pair, _)| now.call(pair.0)).collect();
        met.extend(doors.iter().map(|called| if *called { IDLE[4] } else { IDLE[5] }));
        met.extend(doors.is_empty().then_some(IDLE[6]));
    }
    let has = |part: &&Part| part.nodes.iter().any(|node| own.iter().any(|link| link.0 == node.number));
    met.extend((question.parts.iter().filter(has).count() > 1).then_some(IDLE[7]));
    met.extend(own.iter().any(|link| !plants.contains(link)).then_some(IDLE[8]));
    met
}
