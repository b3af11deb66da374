//! Programs that go wrong about the plant that is drawn: for which counts, how it is drawn and written down, and what is left.

use super::leaving::*;
use super::lists::*;
use super::{names, Named};
use crate::beside::Left;
use crate::evaluation::generator::{state_after, Source, LEAST_ROOM};
use crate::evaluation::part::{Node, Part};
use crate::evaluation::words::*;
use crate::evaluation::{generate, Room};
use std::collections::BTreeSet;
use std::ops::RangeInclusive;

/// Label and target.
type Edge = (u32, u32);

/// Whether a plant is drawn for so many nodes, and edges of each.
pub type Accepting = fn(u32, u32) -> bool;

/// A program that draws, step by step.
#[derive(Clone, Copy)]
pub struct Program {
    /// The state that a draw makes of the one before.
    moved: fn(u32) -> u32,
    /// What a draw hands out, by the states before and after it.
    handed: fn(u32, u32) -> u32,
    /// The label of what was handed out.
    label: fn(u32) -> u32,
    /// The target of what was handed out, among so many nodes.
    target: fn(u32, u32) -> u32,
    /// The edges of each node as they are drawn.
    drawn: fn(&mut Draws) -> Vec<Vec<Edge>>,
    /// A node's edges as they are written.
    kept: fn(Vec<Edge>) -> Vec<Edge>,
    /// The words of the plant.
    written: fn(Part, &Source) -> Vec<u32>,
    /// The state that is given back, by the one after the last draw.
    back: fn(&Source, u32) -> u32,
}

/// Without a mistake.
pub const RIGHT: Program = Program {
    moved: |state| stepped(state, 1_664_525, 1_013_904_223),
    handed: |_, after| after >> 16,
    label: |drawn| drawn % 4096,
    target: |drawn, nodes| drawn % nodes,
    drawn: |draws| edge_by_edge(draws, Draws::edge),
    kept: |edges| sorted(first_of_each(edges, |edge| edge)),
    written: |part, _| part.words(),
    back: |_, last| last,
};

/// What a program does in another way.
pub enum Other {
    Moved(fn(u32) -> u32),
    Handed(fn(u32, u32) -> u32),
    Label(fn(u32) -> u32),
    Target(fn(u32, u32) -> u32),
    Drawn(fn(&mut Draws) -> Vec<Vec<Edge>>),
    Kept(fn(Vec<Edge>) -> Vec<Edge>),
    Written(fn(Part, &Source) -> Vec<u32>),
    Back(fn(&Source, u32) -> u32),
}

use Other::*;

/// A call that draws a plant, and its buffers.
pub type InRoom = (Source, Room);

/// What is left by it.
pub type Leaving = fn(&InRoom) -> Left;

/// For which counts a plant is drawn.
pub const COUNTS: [Named<Accepting>; 14] = [
    ("no nodes accepted", |nodes, edges| within(nodes, 0..=256) && within(edges, 1..=4)),
    ("257 nodes accepted", |nodes, edges| within(nodes, 1..=257) && within(edges, 1..=4)),
    ("only 255 nodes accepted", |nodes, edges| within(nodes, 1..=255) && within(edges, 1..=4)),
    ("a single node refused", |nodes, edges| within(nodes, 2..=256) && within(edges, 1..=4)),
    ("no edges accepted", |nodes, edges| within(nodes, 1..=256) && within(edges, 0..=4)),
    ("five edges accepted", |nodes, edges| within(nodes, 1..=256) && within(edges, 1..=5)),
    ("only three edges accepted", |nodes, edges| within(nodes, 1..=256) && within(edges, 1..=3)),
    ("a single edge refused", |nodes, edges| within(nodes, 1..=256) && within(edges, 2..=4)),
    ("nodes and edges exchanged", |nodes, edges| within(edges, 1..=256) && within(nodes, 1..=4)),
    ("1,024 edges in all accepted", |nodes, edges| {
        within(nodes, 1..=1024) && within(edges, 1..=4) && nodes * edges <= 1024
    }),
    ("nodes cut to 16 bits", |nodes, edges| within(bits(nodes, 15, 0), 1..=256) && within(edges, 1..=4)),
    ("edges cut to 8 bits", |nodes, edges| within(nodes, 1..=256) && within(bits(edges, 7, 0), 1..=4)),
    ("nodes with a sign", |nodes, edges| nodes != 0 && nodes as i32 <= 256 && within(edges, 1..=4)),
    ("edges with a sign", |nodes, edges| within(nodes, 1..=256) && edges != 0 && edges as i32 <= 4),
];

/// How a plant is drawn and written down. With states that wrap at 31 bits labels are the same, and so are targets among 2, 4, 8 or another
/// power of 2 of nodes.
pub const DRAWING: [Named<Other>; 61] = [
    ("the lower 16 bits handed out", Handed(|_, after| bits(after, 15, 0))),
    ("bits 30 to 15 handed out", Handed(|_, after| bits(after, 30, 15))),
    ("the bits before the draw handed out", Handed(|before, _| before >> 16)),
    ("the upper bits with a sign", Handed(|_, after| (after as i32 >> 16) as u32)),
    ("another multiplier", Moved(|state| stepped(state, 1_664_524, 1_013_904_223))),
    ("another increment", Moved(|state| stepped(state, 1_664_525, 1_013_904_222))),
    ("no increment", Moved(|state| stepped(state, 1_664_525, 0))),
    ("the increment added first", Moved(|state| stepped(state.wrapping_add(1_013_904_223), 1_664_525, 0))),
    ("states wrapped at 31 bits", Moved(|state| bits((RIGHT.moved)(state), 30, 0))),
    ("products wrapped at 31 bits", Moved(|state| bits(stepped(state, 1_664_525, 0), 30, 0) + 1_013_904_223)),
    (
        "products that stay at their most",
        Moved(|state| stepped(state.saturating_mul(1_664_525), 1, 1_013_904_223)),
    ),
    ("labels by 4,095", Label(|drawn| drawn % 4095)),
    ("labels of the upper 12 bits", Label(|drawn| bits(drawn, 15, 4))),
    ("labels of 8 bits", Label(|drawn| bits(drawn, 7, 0))),
    ("targets by one node less", Target(|drawn, nodes| drawn % (nodes - 1).max(1))),
    ("targets by one node more", Target(|drawn, nodes| drawn % (nodes + 1))),
    ("targets by 256", Target(|drawn, _| drawn % 256)),
    ("targets by the last node's bits", Target(|drawn, nodes| drawn & (nodes - 1))),
    ("targets in proportion", Target(|drawn, nodes| (drawn * nodes) >> 16)),
    ("targets from 1 upward", Target(|drawn, nodes| drawn % nodes + 1)),
    ("the target drawn before the label", Drawn(|draws| edge_by_edge(draws, Draws::target_first))),
    ("label and target of one draw", Drawn(|draws| edge_by_edge(draws, Draws::one_for_both))),
    ("no draw for the only target", Drawn(|draws| edge_by_edge(draws, Draws::none_for_one))),
    ("all labels of a node drawn first", Drawn(|draws| node_by_node(draws, labels_first))),
    ("an edge of each node by turns", Drawn(by_turns)),
    ("the last node drawn first", Drawn(|draws| reversed((RIGHT.drawn)(draws)))),
    ("the state not moved by an equal edge", Drawn(|draws| node_by_node(draws, put_back))),
    ("an equal edge drawn again", Drawn(|draws| node_by_node(draws, drawn_again))),
    ("equal edges kept", Kept(sorted)),
    ("equal edges left out", Kept(|edges| sorted(without_equals(&edges)))),
    ("edges equal by their labels", Kept(|edges| sorted(first_of_each(edges, |edge| edge.0)))),
    ("edges equal by their targets", Kept(|edges| sorted(first_of_each(edges, |edge| edge.1)))),
    ("edges equal to the one drawn before alone", Kept(|edges| sorted(neighbours_once(edges)))),
    ("edges in the order of the draws", Kept(|edges| first_of_each(edges, |edge| edge))),
    ("edges in falling order", Kept(|edges| reversed((RIGHT.kept)(edges)))),
    ("edges in the order of their labels alone", Kept(|edges| once_by(edges, |edge| edge.0))),
    ("edges in the order of their targets alone", Kept(|edges| once_by(edges, |edge| edge.1))),
    ("an edge put ahead of one other at most", Kept(|edges| one_ahead(first_of_each(edges, |edge| edge)))),
    ("three edges kept", Kept(|edges| (RIGHT.kept)(edges).into_iter().take(3).collect())),
    ("equal edges of two nodes become one", Written(|part, _| once_in_all(part))),
    ("every node a door", Written(|part, _| with_nodes(part, |node| node.door = true))),
    ("a root that is no door", Written(|part, _| with_nodes(part, |node| node.door = false))),
    ("a door that is no root", Written(|part, _| with_nodes(part, |node| node.root = false))),
    ("every node a root and a door", Written(|part, _| with_nodes(part, mark))),
    ("the last node root and door", Written(|part, _| last_marked(part))),
    ("a stopped root", Written(|part, _| with_nodes(part, |node| node.stopped = node.root))),
    ("all other nodes stopped", Written(|part, _| with_nodes(part, |node| node.stopped = !node.root))),
    ("nodes from 1 upward", Written(|part, _| with_nodes(part, |node| node.number += 1))),
    ("nodes and targets from 1 upward", Written(|part, _| with_nodes(part, one_up))),
    ("links of a node to itself left out", Written(|part, _| with_nodes(part, without_loops))),
    ("a plant of site 1", Written(|part, _| Part { site: 1, ..part }.words())),
    ("equal edges counted in the header", Written(|part, source| headed(part, |_| source.most_words()))),
    ("the header's word not counted", Written(|part, _| headed(part, |length| length - 1))),
    ("the length cut to 8 bits", Written(|part, _| headed(part, |length| bits(length, 7, 0)))),
    ("the state given back as it was", Back(|source, _| source.state)),
    ("state 0 given back", Back(|_, _| 0)),
    (
        "the state before the last draw given back",
        Back(|source, _| state_after(source.state, source.draws() - 1)),
    ),
    ("the state after one draw more given back", Back(|_, last| (RIGHT.moved)(last))),
    (
        "the state after a draw for each edge given back",
        Back(|source, _| state_after(source.state, source.draws() / 2)),
    ),
    (
        "the state after one node's draws given back",
        Back(|source, _| state_after(source.state, 2 * source.edges)),
    ),
    ("what was handed out last given back", Back(|_, last| last >> 16)),
];

/// What is left by the call. A program that does not look at the output's length is found out wherever one is that is content with room for
/// its file.
pub const LEAVING: [Named<Leaving>; 14] = [
    ("11 ahead of 1", inputs_first),
    ("room for the plant's words accepted", |call| content(call, 0)),
    ("any working buffer accepted", |call| content(call, 1)),
    ("an output of 16,384 bytes refused", |call| one_short(call, 0)),
    ("a working buffer of 32,768 bytes refused", |call| one_short(call, 1)),
    ("the output left after a refusal", |call| left_after_refusal(call, 0)),
    ("the working buffer left after a refusal", |call| left_after_refusal(call, 1)),
    ("the output left past the plant's words", |call| left_past_file(call, 0)),
    ("the working buffer left", |call| left_past_file(call, 1)),
    ("the output left past 16,384 bytes", |call| left_past_least(call, 0)),
    ("the working buffer left past 32,768 bytes", |call| left_past_least(call, 1)),
    ("the state moved by a refusal under 1", |call| refused(call, 1, RIGHT.moved)),
    ("the state moved by a refusal under 11", |call| refused(call, 11, RIGHT.moved)),
    ("the state set to 0 by a refusal", |call| refused(call, call.owed(call.lengths()).number(), |_| 0)),
];

/// The names of all mistakes about plants that are drawn.
pub fn in_drawn_plants() -> Vec<&'static str> {
    [names(&COUNTS, |_| true), names(&DRAWING, |_| true), names(&LEAVING, |_| true)].concat()
}

impl Other {
    /// The program that is right but for this.
    pub fn program(&self) -> Program {
        match *self {
            Moved(moved) => Program { moved, ..RIGHT },
            Handed(handed) => Program { handed, ..RIGHT },
            Label(label) => Program { label, ..RIGHT },
            Target(target) => Program { target, ..RIGHT },
            Drawn(drawn) => Program { drawn, ..RIGHT },
            Kept(kept) => Program { kept, ..RIGHT },
            Written(written) => Program { written, ..RIGHT },
            Back(back) => Program { back, ..RIGHT },
        }
    }
}

impl Program {
    /// The file, and the state that is given back.
    pub fn draw(&self, source: &Source) -> (Vec<u32>, u32) {
        let mut draws = Draws { program: *self, source: *source, state: source.state };
        let nodes = (0..).zip((self.drawn)(&mut draws)).map(|(number, edges)| {
            let (first, edges) = (number == 0, (self.kept)(edges));
            Node { number, door: first, root: first, stopped: false, edges }
        });
        let part = Part { site: 0, nodes: nodes.collect() };
        ((self.written)(part, source), (self.back)(source, draws.state))
    }
}

/// The draws of a program, one after the other.
pub struct Draws {
    program: Program,
    source: Source,
    state: u32,
}

impl Draws {
    fn draw(&mut self) -> u32 {
        let before = self.state;
        self.state = (self.program.moved)(before);
        (self.program.handed)(before, self.state)
    }

    fn label(&mut self) -> u32 {
        (self.program.label)(self.draw())
    }

    fn target(&mut self) -> u32 {
        (self.program.target)(self.draw(), self.source.nodes)
    }

    fn edge(&mut self) -> Edge {
        (self.label(), self.target())
    }

    fn target_first(&mut self) -> Edge {
        let target = self.target();
        (self.label(), target)
    }

    fn one_for_both(&mut self) -> Edge {
        let before = self.state;
        let label = self.label();
        self.state = before;
        (label, self.target())
    }

    fn none_for_one(&mut self) -> Edge {
        (self.label(), if self.source.nodes == 1 { 0 } else { self.target() })
    }
}

fn stepped(state: u32, multiplier: u32, increment: u32) -> u32 {
    state.wrapping_mul(multiplier).wrapping_add(increment)
}

fn node_by_node(draws: &mut Draws, node: impl Fn(&mut Draws) -> Vec<Edge>) -> Vec<Vec<Edge>> {
    (0..draws.source.nodes).map(|_| node(draws)).collect()
}

fn edge_by_edge(draws: &mut Draws, edge: impl Fn(&mut Draws) -> Edge) -> Vec<Vec<Edge>> {
    node_by_node(draws, |draws| (0..draws.source.edges).map(|_| edge(draws)).collect())
}

fn labels_first(draws: &mut Draws) -> Vec<Edge> {
    let labels: Vec<u32> = (0..draws.source.edges).map(|_| draws.label()).collect();
    labels.into_iter().map(|label| (label, draws.target())).collect()
}

fn by_turns(draws: &mut Draws) -> Vec<Vec<Edge>> {
    let mut all = vec![vec![]; draws.source.nodes as usize];
    (0..draws.source.edges).for_each(|_| all.iter_mut().for_each(|edges| edges.push(draws.edge())));
    all
}

/// With the state as it was before an edge that the node has.
fn put_back(draws: &mut Draws) -> Vec<Edge> {
    let mut edges = vec![];
    for _ in 0..draws.source.edges {
        let (before, edge) = (draws.state, draws.edge());
        match edges.contains(&edge) {
            true => draws.state = before,
            false => edges.push(edge),
        }
    }
    edges
}

/// With another edge for one that the node has.
fn drawn_again(draws: &mut Draws) -> Vec<Edge> {
    let mut edges = vec![];
    while edges.len() < draws.source.edges as usize {
        let edge = draws.edge();
        edges.extend((!edges.contains(&edge)).then_some(edge));
    }
    edges
}

fn without_equals(edges: &[Edge]) -> Vec<Edge> {
    let count = |edge: &Edge| edges.iter().filter(|other| *other == edge).count();
    edges.iter().copied().filter(|edge| count(edge) == 1).collect()
}

/// Each edge once, in this order, and those that it leaves open as they were drawn.
fn once_by(edges: Vec<Edge>, of: impl Fn(Edge) -> u32) -> Vec<Edge> {
    by(first_of_each(edges, |edge| edge), of)
}

fn one_ahead(mut edges: Vec<Edge>) -> Vec<Edge> {
    for at in (1..edges.len()).rev() {
        if edges[at] < edges[at - 1] {
            edges.swap(at - 1, at);
        }
    }
    edges
}

fn once_in_all(mut part: Part) -> Vec<u32> {
    let mut seen = BTreeSet::new();
    part.nodes.iter_mut().for_each(|node| node.edges.retain(|edge| seen.insert(*edge)));
    part.words()
}

fn mark(node: &mut Node) {
    (node.door, node.root) = (true, true);
}

fn last_marked(mut part: Part) -> Vec<u32> {
    let last = part.nodes.len() - 1;
    (part.nodes[0].door, part.nodes[0].root) = (false, false);
    mark(&mut part.nodes[last]);
    part.words()
}

fn one_up(node: &mut Node) {
    node.number += 1;
    node.edges.iter_mut().for_each(|edge| edge.1 += 1);
}

fn without_loops(node: &mut Node) {
    let own = node.number;
    node.edges.retain(|edge| edge.1 != own);
}

fn within(count: u32, bounds: RangeInclusive<u32>) -> bool {
    bounds.contains(&count)
}

impl Buffered<2> for InRoom {
    const LEAST: [usize; 2] = [LEAST_ROOM.out, LEAST_ROOM.work];

    fn lengths(&self) -> [usize; 2] {
        [self.1.out, self.1.work]
    }

    fn owed(&self, [out, work]: [usize; 2]) -> Left {
        Left::owed_drawn(&generate(&self.0, Room { out, work }), &self.0, self.1)
    }

    fn files(&self) -> Option<Vec<Vec<u32>>> {
        self.0.check().ok().map(|_| vec![self.0.part().words()])
    }
}

/// With another state after a refusal under this number.
fn refused(call: &InRoom, number: u32, other: impl Fn(u32) -> u32) -> Left {
    let left = call.owed(call.lengths());
    match left.number() == number && number != 0 {
        true => Left { word: Some(other(call.0.state)), ..left },
        false => left,
    }
}
