//! The walk to a listed node: breadth first back from it over pairs of a node and a state, then from the root link by link.
use super::automaton::{path, Automaton};
use super::files::{groups, settle, unless, Outcome};
use super::part::whole_up_to;
use super::search::Graph;
use crate::inputs::Ask;
use crate::timing::{outputs, WALK_BYTES};
use crate::walks::{walk_file, WALK_WORDS, WHOLE_WORDS};
use crate::words::*;

const NONE: u16 = u16::MAX;

/// The edges into each node, from the last of them on.
struct Chains {
    last: Vec<u16>,
    /// The edge before each one that has the same target.
    before: Vec<u16>,
    /// The node that each edge leaves.
    sources: Vec<u16>,
}

impl Chains {
    fn new(graph: &Graph) -> Chains {
        let mut last = vec![NONE; graph.nodes.len()];
        let before = (0..).zip(&graph.edges).map(|(x, e)| std::mem::replace(&mut last[e.slot as usize], x)).collect();
        let sources = (0..graph.nodes.len()).flat_map(|i| graph.edges_of(i).map(move |_| i as u16)).collect();
        Chains { last, before, sources }
    }
}

/// For each state a number, one more than the links that are left to the asked node, or 0 where there is none.
type Row = [u16; 16];

/// The states that have the number v.
fn having(row: &Row, v: u16) -> u16 {
    row.iter().enumerate().fold(0, |set, (q, &number)| set | u16::from(number == v) << q)
}

/// The states that may be followed by one of g.
fn preceding(follow: &[u16; 16], g: u16) -> u16 {
    follow.iter().enumerate().fold(0, |set, (q, &next)| set | u16::from(next & g != 0) << q)
}

/// Gives v to the states of the set that have no number. Whether these are the row's first with it.
fn spread(row: &mut Row, set: u16, v: u16) -> bool {
    let first = having(row, v) == 0;
    let mut new = set & having(row, 0);
    let any = new != 0;
    while new != 0 {
        row[new.trailing_zeros() as usize] = v;
        new &= new - 1;
    }
    any && first
}

struct Distances<'a> {
    graph: &'a Graph,
    follow: &'a Automaton,
    chains: Chains,
    rows: Vec<Row>,
}

impl Distances<'_> {
    /// Handles the edges into node i, which has the number before v; sources with their first v go on the list.
    fn visit(&mut self, i: usize, v: u16, list: &mut Vec<u16>) {
        let states = having(&self.rows[i], v - 1);
        let mut x = self.chains.last[i];
        while x != NONE {
            let (g, j) = (self.graph.edges[x as usize].mask & states, self.chains.sources[x as usize]);
            if g != 0 && spread(&mut self.rows[j as usize], preceding(&self.follow.follow, g), v) {
                list.push(j);
            }
            x = self.chains.before[x as usize];
        }
    }

    /// Level by level, until the root has a number in state 0 or no number is new.
    fn measure(&mut self, asked: usize, root: usize) {
        let nodes = self.graph.nodes.len();
        let (mut list, mut next, mut v) = (Vec::with_capacity(nodes), Vec::with_capacity(nodes), 1);
        spread(&mut self.rows[asked], self.follow.accepts, v);
        list.push(asked as u16);
        while self.rows[root][0] == 0 && !list.is_empty() {
            v += 1;
            list.iter().for_each(|&i| self.visit(i as usize, v, &mut next));
            (list, next) = (next, list);
            next.clear();
        }
    }

    /// The first edge of node i by which a state of those that may follow comes to the number v.
    fn first_open(&self, i: usize, follow: u16, v: u16) -> Option<usize> {
        self.graph.edges_of(i).find(|&x| {
            let e = self.graph.edges[x];
            e.mask & follow != 0 && e.mask & follow & having(&self.rows[e.slot as usize], v) != 0
        })
    }

    /// The edge words from the root on.
    fn links(&self, root: usize) -> Vec<u32> {
        let (mut i, mut states, number) = (root, 1, self.rows[root][0]);
        let mut links = Vec::with_capacity(number as usize);
        for left in (1..number).rev() {
            let follow = self.follow.follow_all(states);
            if let Some(x) = self.first_open(i, follow, left) {
                links.push(self.graph.links[x]);
                (i, states) = (self.graph.edges[x].slot as usize, self.graph.edges[x].mask & follow);
            }
        }
        links
    }
}

/// The links of the walk from the root to a running node, or 20 where there is none.
fn links(graph: &Graph, a: &Automaton, root: usize, asked: usize) -> Outcome {
    let rows = vec![[0; 16]; graph.nodes.len()];
    let mut distances = Distances { graph, follow: a, chains: Chains::new(graph), rows };
    distances.measure(asked, root);
    unless(20, distances.rows[root][0] != 0)?;
    Ok(distances.links(root))
}

/// With the tables that `graph` makes, and the links that `links` finds in them.
pub fn walk_by(
    ask: &Ask,
    handed: Option<&[u8]>,
    (out, work): (&mut [u8], &mut [u8]),
    graph: impl Fn(&[u32], &Automaton) -> Graph,
    links: impl Fn(&Graph, &Automaton, usize, usize) -> Outcome,
) -> u32 {
    let [out] = outputs(out, [WALK_BYTES]);
    settle(WALK_WORDS, out, work, || {
        let ws = whole_up_to(&ask.file, WHOLE_WORDS)?;
        let a = path(&ask.path, &groups(handed)?)?;
        let graph = graph(&ws, &a);
        let asked = graph.nodes.binary_search_by_key(&ask.node, |&w| node(w)).map_err(|_| 20u32)?;
        unless(20, graph.nodes[asked] & STOPPED == 0)?;
        let links = links(&graph, &a, graph.root(), asked)?;
        unless(15, links.len() < WALK_WORDS)?;
        Ok(walk_file(&links))
    })
}

pub fn walk(ask: &Ask, out: &mut [u8], work: &mut [u8]) -> u32 {
    walk_by(ask, None, (out, work), Graph::new, links)
}

pub fn walk_grouped(ask: &Ask, out: &mut [u8], work: &mut [u8]) -> u32 {
    walk_by(ask, Some(&ask.groups), (out, work), Graph::new, links)
}
