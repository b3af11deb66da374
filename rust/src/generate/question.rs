//! Random whole questions: a plant, a true cut of it, a path, with groups or without; in many of them links that end nowhere.

use super::calls::n_of;
use super::path::{self, any_label, or_of, range, OR, THEN};
use super::{calls, groups, plant};
use crate::evaluation::groups::{Groups, OURS};
use crate::evaluation::part::{Node, Part};
use crate::evaluation::path::{read_path, Path};
use crate::evaluation::plant::{links_of, Link, Plant};
use crate::evaluation::words::{bytes_of, file, FILE_LIMIT, PATH};
use crate::random::Random;
use std::collections::{BTreeMap, BTreeSet};

/// Plant and parts may have different links that end nowhere.
#[derive(Clone, Debug)]
pub struct Question {
    pub plant: Plant,
    pub parts: Vec<Part>,
    /// Those that all its calls are handed, or none, for the calls without.
    pub groups: Option<Groups>,
    pub path: Vec<u32>,
}

impl Question {
    /// The path as it is read by these groups.
    pub fn path_by(&self, groups: &Groups) -> Path {
        read_path(&bytes_of(&self.path), groups).expect("paths are made right")
    }

    pub fn read_path(&self) -> Path {
        self.path_by(&self.groups.unwrap_or(OURS))
    }

    /// Whether its parts are parts.
    pub fn within_limits(&self) -> bool {
        self.parts.iter().all(|part| part.words().len() <= FILE_LIMIT)
    }

    fn add_to_part(&mut self, (source, label, target): Link) {
        let mut nodes = self.parts.iter_mut().flat_map(|part| &mut part.nodes);
        let edges = &mut nodes.find(|node| node.number == source).expect("a part has it").edges;
        edges.extend((!edges.contains(&(label, target))).then_some((label, target)));
        edges.sort();
    }
}

/// The question with these links that end nowhere, in plant and part or in one of the two; `idle` of a hundred times without those that are
/// walked.
fn with_strays(
    random: &mut Random,
    mut question: Question,
    strays: &BTreeSet<Link>,
    idle: usize,
) -> Question {
    let left = match random.chance(idle) {
        true => question.plant.walked(&question.read_path(), strays),
        false => BTreeSet::new(),
    };
    for link in strays.difference(&left) {
        let (in_plant, in_part) = random.pick(&[(true, true), (true, true), (true, false), (false, true)]);
        if in_plant {
            question.plant.nodes.entry(link.0).or_default().insert((link.1, link.2));
        }
        if in_part {
            question.add_to_part(*link);
        }
    }
    question
}

/// The question with a few links that end nowhere, or as it is.
fn with_some_strays(random: &mut Random, question: Question) -> Question {
    let count = random.pick(&[0, 1, 2, 6]);
    let strays = plant::strays(random, &question.plant, count);
    with_strays(random, question, &strays, 70)
}

fn some_sites(random: &mut Random) -> usize {
    let most = random.pick(&[1, 2, 3, 5, 16]);
    random.between(1, most)
}

/// How many of a hundred nodes are doors beyond those that must be.
const FURTHER: [usize; 5] = [0, 0, 10, 50, 100];

fn cut(random: &mut Random, plant: Plant, groups: Option<Groups>, path: Vec<u32>) -> Question {
    let (sites, further) = (some_sites(random), random.pick(&FURTHER));
    let parts = plant::true_cut(random, &plant, sites, further);
    Question { plant, parts, groups, path }
}

/// The question about another plant of the same nodes and with another path, cut anew: into any number of parts, or into as many as it was.
/// It may have the links that end nowhere which it had, in the plant or in a part, and others.
pub fn cut_anew(random: &mut Random, question: &Question, plant: &Plant, path: Vec<u32>) -> Question {
    let mut strays = links_of(&question.parts);
    strays.extend(question.plant.links());
    strays.retain(|link| plant.ends_nowhere(link));
    let (plant, own) = (plant.left_out(), question.parts.len());
    // with a long path first replies of two parts are over their limit mostly, and many doors in one take the evaluation long
    let (any, further) = match n_of(&path) > 8 {
        true => (random.between(1, 2), 0),
        false => (some_sites(random), random.pick(&FURTHER)),
    };
    let sites = random.pick(&[any, own]);
    let parts = plant::true_cut(random, &plant, sites, further);
    let mut other = Question { plant, parts, groups: question.groups, path };
    if !other.within_limits() {
        other.parts = plant::true_cut(random, &other.plant, own, 0);
    }
    let other = with_strays(random, other, &strays, 70);
    with_some_strays(random, other)
}

/// The same, cut as it was: the parts keep their links that end nowhere, and further doors.
pub fn cut_as_it_was(question: &Question, plant: &Plant, path: Vec<u32>) -> Question {
    let (mut parts, closed) = (question.parts.clone(), plant.left_out());
    for node in parts.iter_mut().flat_map(|part| &mut part.nodes) {
        node.stopped = plant.stopped.contains(&node.number);
        node.edges.retain(|edge| !plant.nodes.contains_key(&edge.1));
        node.edges.extend(&closed.nodes[&node.number]);
        node.edges.sort();
    }
    let crossed: BTreeSet<u32> = parts.iter().flat_map(Part::outside_targets).collect();
    let nodes = parts.iter_mut().flat_map(|part| &mut part.nodes);
    nodes.for_each(|node| node.door |= crossed.contains(&node.number));
    Question { plant: plant.clone(), parts, groups: question.groups, path }
}

pub fn small(random: &mut Random) -> Question {
    let alphabet = path::alphabet(random);
    let plant = plant::some_plant(random, &alphabet);
    let removed = random.pick(&[0, 0, 0, 10]);
    let (plant, strays) = plant::remove(random, plant, removed);
    let (path, grouped) = (path::some_path(random, &alphabet), random.chance(50));
    let (groups, path) = groups::grouped(random, &alphabet, path, grouped);
    let question = cut(random, plant, groups, path);
    let question = with_strays(random, question, &strays, 70);
    with_some_strays(random, question)
}

/// First replies that are long, many beyond their limit or beyond a bundle's.
pub fn dear(random: &mut Random) -> Question {
    let alphabet = path::alphabet(random);
    let (sites, each) = (random.between(2, 10), random.between(2, 8));
    let plant = plant::plant(random, sites * each, 4, 0, &alphabet);
    let stopped = random.pick(&[0, 0, 10]);
    let plant = plant::stop(random, plant, stopped);
    let (n, star) = (random.between(8, 15), random.chance(80));
    let (path, grouped) = (or_of(any_label(random, &alphabet), n, star), random.chance(25));
    let (groups, path) = groups::grouped(random, &alphabet, path, grouped);
    let parts = plant::true_cut(random, &plant, sites, 0);
    with_some_strays(random, Question { plant, parts, groups, path })
}

/// A plant too large for one file, cut where few links cross; some list more nodes than a bundle holds. A single stopped node ends most of
/// its long walks.
fn large(random: &mut Random) -> Question {
    let alphabet = path::alphabet(random);
    let count = random.pick(&[2000, 3000, 4000, 9000, 9000]);
    let degree = if count == 9000 { 1 } else { 3 };
    let mut plant = plant::plant(random, count, degree, 100, &alphabet);
    let numbers: Vec<u32> = plant.nodes.keys().copied().collect();
    for (at, links) in plant.nodes.values_mut().enumerate() {
        links.insert((random.pick(&alphabet), numbers[(at + 1) % count]));
        if random.below(count) < 12 {
            links.insert((random.pick(&alphabet), random.pick(&numbers)));
        }
    }
    if random.chance(25) {
        plant.stopped.insert(random.pick(&numbers));
    }
    let path = match random.chance(60) {
        true => or_of(any_label(random, &alphabet), 1, true),
        false => path::path(random, &alphabet, 4),
    };
    let grouped = random.chance(25);
    let (groups, path) = groups::grouped(random, &alphabet, path, grouped);
    let sites = random.between(6, 16);
    let parts = plant::true_cut(random, &plant, sites, 0);
    with_some_strays(random, Question { plant, parts, groups, path })
}

/// A call list with a length near its limit: the root links to `wide` nodes of a second site, in thirteen states each, and one of these to
/// `more` nodes of a third in one state. Nodes without links may be stopped: they are called all the same. Links that end nowhere are the
/// root's, walked and reported or not, and others'.
fn many_calls(random: &mut Random) -> Question {
    let wide = random.between(250, 280);
    let more = (4095 - 13 * wide) + random.below(4) - 2;
    let mut nodes: BTreeMap<u32, BTreeSet<(u32, u32)>> = BTreeMap::new();
    let (second, third) = (1000, 2000);
    nodes.insert(5, (0..wide as u32).map(|at| (7, second + at)).collect());
    nodes.extend((0..wide as u32).map(|at| (second + at, BTreeSet::new())));
    nodes.extend((0..more as u32).map(|at| (third + at, BTreeSet::new())));
    nodes.insert(second + 3, (0..more as u32).map(|at| (8, third + at)).collect());
    let bare = nodes.iter().filter(|(_, links)| links.is_empty()).map(|(number, _)| *number);
    let stopped = bare.filter(|_| random.chance(5)).collect();
    let plant = Plant { root: 5, nodes, stopped };
    let part = |site: u32, from: u32, to: u32| {
        let node = |(number, _): (&u32, _)| plant::node(&plant, *number, true);
        Part { site, nodes: plant.nodes.range(from..to).map(node).collect() }
    };
    let parts = vec![part(4, 0, second), part(0, second, third), part(11, third, 65_536)];
    let sevens = range(7, 7);
    let mut words = vec![sevens];
    (1..12).for_each(|_| words.extend([sevens, OR]));
    words.extend([sevens, range(8, 8), THEN, OR]);
    let mut strays = BTreeSet::from([(5, 7, 3000), (5, 8, 0), (second + 3, 7, 999), (third, 7, 65_535)]);
    strays.retain(|_| random.chance(50));
    let question = Question { plant, parts, groups: None, path: file(PATH, 0, 14, &words) };
    with_strays(random, question, &strays, 40)
}

/// A first reply near its limit, of a part whose targets are nodes of another or removed: with the root in it these links are walked, else
/// nobody calls its doors. So it can be over its limit by links that nobody walks.
fn dear_strays(random: &mut Random) -> Question {
    let (mut dear, groups, path) = calls::dearly_asked(random, false);
    let own = random.chance(30) && dear.nodes.len() > 1;
    dear.nodes.iter_mut().for_each(|node| node.root &= own);
    let bare = |number: u32, root: bool| Node { number, door: true, root, stopped: false, edges: vec![] };
    let percent = random.pick(&[10, 50, 100]);
    let targets = dear.outside_targets().into_iter().filter(|_| !random.chance(percent));
    let others: Vec<Node> = targets.map(|number| bare(number, false)).chain([bare(65_000, !own)]).collect();
    let parts = vec![dear, Part { site: 2, nodes: others }];
    let nodes = || parts.iter().flat_map(|part| &part.nodes);
    let root = nodes().find(|node| node.root).expect("one of them is").number;
    let stopped = nodes().filter(|node| node.stopped).map(|node| node.number).collect();
    let nodes = nodes().map(|node| (node.number, node.edges.iter().copied().collect())).collect();
    Question { plant: Plant { root, nodes, stopped }, parts, groups, path }
}

/// Any question whose parts are parts: each within its limit.
pub fn question(random: &mut Random) -> Question {
    let question = match random.below(200) {
        0 | 1 => large(random),
        2..=4 => many_calls(random),
        5..=11 => dear(random),
        12 | 13 => dear_strays(random),
        _ => small(random),
    };
    match question.within_limits() {
        true => question,
        false => small(random),
    }
}
