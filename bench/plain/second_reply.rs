//! The second reply.
use super::automaton::{path, Automaton};
use super::files::{calls, groups, settle, unless, Outcome};
use super::part::part;
use super::search::{Graph, Search};
use crate::inputs::Ask;
use crate::words::*;

/// The running nodes that are reached in an accepting state, behind a header of their own.
pub fn answers(search: &Search, accepts: u16, h: u32) -> Vec<u32> {
    let nodes = &search.graph.nodes;
    let mut list = Vec::with_capacity(nodes.len() + 1);
    list.push(h);
    let listed = nodes.iter().zip(&search.reached).filter(|(&w, &r)| r & accepts != 0 && w & STOPPED == 0);
    list.extend(listed.map(|(&w, _)| ANSWER | node(w)));
    list[0] |= list.len() as u32;
    list
}

/// The called pairs of the part: nodes and calls ascend, so one position moves forward over both. 14 where a called node is no door.
pub fn called(nodes: &[u32], calls: &[u32]) -> Result<Vec<(usize, u16)>, u32> {
    let (mut i, mut pairs) = (0, Vec::with_capacity(calls.len()));
    for &c in calls {
        let x = pair_node(c);
        while i < nodes.len() && node(nodes[i]) < x {
            i += 1;
        }
        if i < nodes.len() && node(nodes[i]) == x {
            unless(14, nodes[i] & DOOR != 0)?;
            pairs.push((i, 1 << state(c)));
        }
    }
    Ok(pairs)
}

fn reply(ask: &Ask, handed: Option<&[u8]>, graph: impl Fn(&[u32], &Automaton) -> Graph) -> Outcome {
    let ws = part(&ask.file)?;
    let a = path(&ask.path, &groups(handed)?)?;
    let cs = calls(&ask.calls)?;
    unless(12, labels(cs[0]) == a.n())?;
    let graph = graph(&ws, &a);
    let pairs = called(&graph.nodes, &cs[1..])?;
    let mut search = Search::new(&graph, &a);
    pairs.iter().for_each(|&(i, q)| search.enter(i, q));
    search.run();
    Ok(answers(&search, a.accepts, header(13, site(ws[0]), a.n())))
}

/// With the tables that `graph` makes.
pub fn second_reply_by(ask: &Ask, out: &mut [u8], work: &mut [u8], graph: impl Fn(&[u32], &Automaton) -> Graph) -> u32 {
    settle(4096, out, work, || reply(ask, None, graph))
}

pub fn second_reply(ask: &Ask, out: &mut [u8], work: &mut [u8]) -> u32 {
    second_reply_by(ask, out, work, Graph::new)
}

pub fn second_reply_grouped(ask: &Ask, out: &mut [u8], work: &mut [u8]) -> u32 {
    settle(4096, out, work, || reply(ask, Some(&ask.groups), Graph::new))
}
