//! A part's tables with a place for each node number instead of a search by halves, and outside targets sorted at once.
use crate::inputs::Ask;
use crate::plain::{final_list, path, second_reply_by, settle, split, whole, Automaton, Edge, Graph};
use crate::words::*;

const NONE: u16 = u16::MAX;
/// Below so many words of a whole the label of each edge is read by itself.
const FEW: usize = 128;

pub fn graph(ws: &[u32], a: &Automaton) -> Graph {
    graph_by(ws, 1 << 16, |label| a.mask(label))
}

/// The same of a whole. Its targets are nodes, so there are no more places than up to the last node's; and but for few words, what each label enters
/// is worked out at once.
pub fn whole_graph(ws: &[u32], a: &Automaton) -> Graph {
    let last = ws[1..].iter().rfind(|&&w| kind(w) == 2).map_or(0, |&w| node(w));
    if ws.len() < FEW {
        return graph_by(ws, last as usize + 1, |label| a.mask(label));
    }
    let masks = masks(a);
    graph_by(ws, last as usize + 1, |label| masks[label as usize])
}

/// The states that each label enters: a range's state comes in at its low end and goes out behind its high one.
fn masks(a: &Automaton) -> Vec<u16> {
    let mut masks = vec![0; 4097];
    for (q, &(low, high)) in (1..).zip(&a.ends) {
        masks[low as usize] ^= 1 << q;
        masks[high as usize + 1] ^= 1 << q;
    }
    masks.iter_mut().fold(a.outside, |states, mask| {
        *mask ^= states;
        *mask
    });
    masks
}

/// With places for so many node numbers, where `mask` says which states a label enters.
fn graph_by(ws: &[u32], numbers: usize, mask: impl Fn(u32) -> u16) -> Graph {
    let (nodes, starts, links) = split(ws);
    let mut places = vec![NONE; numbers];
    for (i, &w) in nodes.iter().enumerate() {
        places[node(w) as usize] = i as u16;
    }
    let mut outside: Vec<u32> = links.iter().map(|&w| node(w)).filter(|&t| places[t as usize] == NONE).collect();
    outside.sort_unstable();
    outside.dedup();
    for (k, &t) in outside.iter().enumerate() {
        places[t as usize] = (nodes.len() + k) as u16;
    }
    let edges = links.iter().map(|&w| Edge { slot: places[node(w) as usize], mask: mask(label(w)) }).collect();
    Graph { nodes, starts, edges, links, outside }
}

pub fn old_search(ask: &Ask, out: &mut [u8], work: &mut [u8]) -> u32 {
    settle(8192, out, work, || {
        let ws = whole(&ask.file)?;
        let a = path(&ask.path, &OURS)?;
        final_list(&graph(&ws, &a), &a)
    })
}

pub fn second_reply(ask: &Ask, out: &mut [u8], work: &mut [u8]) -> u32 {
    second_reply_by(ask, out, work, graph)
}
