//! The search of a part: nodes in order with their edges, each edge with the slot of its target and the states that its label enters.
use super::automaton::Automaton;
use crate::words::*;
use std::ops::Range;

pub struct Graph {
    /// The node words, ascending.
    pub nodes: Vec<u32>,
    /// Where each node's edges begin, and the end.
    pub starts: Vec<u32>,
    pub edges: Vec<Edge>,
    /// The words of the edges.
    pub links: Vec<u32>,
    /// The targets outside the part that running nodes have, ascending; their slots follow those of the nodes.
    pub outside: Vec<u32>,
}

#[derive(Clone, Copy)]
pub struct Edge {
    pub slot: u16,
    pub mask: u16,
}

/// The node words, where each one's edges begin and the end, and the edge words. Those of stopped nodes are left out, so no walk leaves one.
pub fn split(ws: &[u32]) -> (Vec<u32>, Vec<u32>, Vec<u32>) {
    let (mut nodes, mut starts, mut edges) = (Vec::with_capacity(ws.len()), Vec::with_capacity(ws.len()), Vec::with_capacity(ws.len()));
    let mut stopped = false;
    for &w in &ws[1..] {
        if kind(w) == 2 {
            stopped = w & STOPPED != 0;
            nodes.push(w);
            starts.push(edges.len() as u32);
        } else if !stopped {
            edges.push(w);
        }
    }
    starts.push(edges.len() as u32);
    (nodes, starts, edges)
}

impl Graph {
    /// Targets are found by halves, and outside targets are put in their place one by one.
    pub fn new(ws: &[u32], a: &Automaton) -> Graph {
        let (nodes, starts, links) = split(ws);
        let mut outside: Vec<u32> = Vec::new();
        let place = |t: u32| nodes.binary_search_by_key(&t, |&w| node(w));
        for &w in links.iter().filter(|&&w| place(node(w)).is_err()) {
            if let Err(k) = outside.binary_search(&node(w)) {
                outside.insert(k, node(w));
            }
        }
        let slot = |t: u32| place(t).unwrap_or_else(|_| nodes.len() + outside.binary_search(&t).unwrap_or(0)) as u16;
        let edges = links.iter().map(|&w| Edge { slot: slot(node(w)), mask: a.mask(label(w)) }).collect();
        Graph { nodes, starts, edges, links, outside }
    }

    pub fn root(&self) -> usize {
        self.nodes.iter().position(|w| w & ROOT != 0).unwrap_or(0)
    }

    /// Where the edges of a node stand.
    pub fn edges_of(&self, i: usize) -> Range<usize> {
        self.starts[i] as usize..self.starts[i + 1] as usize
    }
}

pub struct Search<'a> {
    pub graph: &'a Graph,
    follow: &'a Automaton,
    /// The states that each slot is reached in, and those that a node is still to be left in.
    pub reached: Vec<u16>,
    pending: Vec<u16>,
    stack: Vec<u16>,
}

/// Enters a slot; a node that did not wait is put on the stack.
#[inline]
fn enter(reached: &mut [u16], pending: &mut [u16], stack: &mut Vec<u16>, slot: usize, states: u16) {
    let new = states & !reached[slot];
    if new == 0 {
        return;
    }
    reached[slot] |= new;
    if let Some(pending) = pending.get_mut(slot) {
        if *pending == 0 {
            stack.push(slot as u16);
        }
        *pending |= new;
    }
}

impl<'a> Search<'a> {
    pub fn new(graph: &'a Graph, follow: &'a Automaton) -> Search<'a> {
        let (n, t) = (graph.nodes.len(), graph.outside.len());
        Search { graph, follow, reached: vec![0; n + t], pending: vec![0; n], stack: Vec::with_capacity(n) }
    }

    pub fn enter(&mut self, slot: usize, states: u16) {
        enter(&mut self.reached, &mut self.pending, &mut self.stack, slot, states);
    }

    pub fn run(&mut self) {
        let (graph, follow) = (self.graph, self.follow);
        let (reached, pending, stack) = (&mut self.reached[..], &mut self.pending[..], &mut self.stack);
        while let Some(i) = stack.pop() {
            let i = i as usize;
            let states = follow.follow_all(std::mem::take(&mut pending[i]));
            for e in &graph.edges[graph.edges_of(i)] {
                enter(reached, pending, stack, e.slot as usize, e.mask & states);
            }
        }
    }

    pub fn reset(&mut self) {
        self.reached.fill(0);
    }

    /// The states that each outside target is reached in.
    pub fn reached_outside(&self) -> &[u16] {
        &self.reached[self.graph.nodes.len()..]
    }
}
