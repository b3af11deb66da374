//! The checker of walks with a place for each node number, and each word looked for by halves among the edges of its node.
use super::graph::whole_graph;
use crate::inputs::Ask;
use crate::plain::{check_walk_by, Automaton};
use crate::words::*;

/// No edge leaves a stopped node in the tables, so none but the last can be one.
fn leads(ws: &[u32], a: &Automaton, asked: u32, links: &[u32]) -> bool {
    let graph = whole_graph(ws, a);
    let (mut i, mut states) = (graph.root(), 1);
    for w in links {
        let edges = graph.edges_of(i);
        match graph.links[edges.clone()].binary_search(w) {
            Ok(k) => {
                let e = graph.edges[edges.start + k];
                (i, states) = (e.slot as usize, e.mask & a.follow_all(states));
            }
            Err(_) => return false,
        }
    }
    let last = graph.nodes[i];
    last & STOPPED == 0 && node(last) == asked && states & a.accepts != 0
}

pub fn check_walk(ask: &Ask, _: &mut [u8], work: &mut [u8]) -> u64 {
    check_walk_by(ask, None, work, leads)
}
