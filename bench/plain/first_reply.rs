//! The first reply: a search for each door and state.
use super::automaton::{path, Automaton};
use super::files::{groups, settle, unless, Outcome};
use super::part::part;
use super::search::{Graph, Search};
use crate::inputs::Ask;
use crate::words::*;

/// Appends the row of state q, if anything outside was reached.
fn row(search: &Search, q: u32, list: &mut Vec<u32>) {
    let reached = search.reached_outside();
    if reached.iter().all(|&r| r == 0) {
        return;
    }
    list.push(ROW | q);
    for (&t, &r) in search.graph.outside.iter().zip(reached) {
        let mut rest = r;
        while rest != 0 {
            list.push(REACH | t << 4 | rest.trailing_zeros());
            rest &= rest - 1;
        }
    }
}

/// The longest reply.
pub const LIMIT: usize = 4096;

/// The door words with their rows, up to the limit; `each` appends the row of a door in a state.
pub fn door_words(
    ws: &[u32],
    a: &Automaton,
    graph: &Graph,
    limit: usize,
    mut each: impl FnMut(usize, u32, &mut Vec<u32>) -> Result<(), u32>,
) -> Outcome {
    let mut list = vec![header(7, site(ws[0]), a.n())];
    for (i, &w) in graph.nodes.iter().enumerate().filter(|(_, &w)| w & DOOR != 0) {
        list.push(DOOR_WORD | if w & ROOT != 0 { ROOT_DOOR } else { 0 } | node(w));
        for q in 0..=a.n() {
            each(i, q, &mut list)?;
            unless(15, list.len() <= limit)?;
        }
    }
    list[0] |= list.len() as u32;
    Ok(list)
}

/// The reply of a part that is accepted, of at most so many words: a search for every door and state. The marks of one that reached nothing
/// outside stay: whatever they have leads nowhere outside, so no later search need enter it.
pub fn reply(ws: &[u32], path_bytes: &[u8], groups: &Groups, limit: usize) -> Outcome {
    let a = path(path_bytes, groups)?;
    let graph = Graph::new(ws, &a);
    let mut search = Search::new(&graph, &a);
    door_words(ws, &a, &graph, limit, |i, q, list| {
        search.enter(i, 1 << q);
        search.run();
        let before = list.len();
        row(&search, q, list);
        if list.len() != before {
            search.reset();
        }
        Ok(())
    })
}

/// A single call.
pub fn single(ask: &Ask, handed: Option<&[u8]>, path_bytes: &[u8], out: &mut [u8], work: &mut [u8]) -> u32 {
    settle(LIMIT, out, work, || {
        let ws = part(&ask.file)?;
        reply(&ws, path_bytes, &groups(handed)?, LIMIT)
    })
}

pub fn first_reply(ask: &Ask, out: &mut [u8], work: &mut [u8]) -> u32 {
    single(ask, None, &ask.path, out, work)
}

pub fn first_reply_grouped(ask: &Ask, out: &mut [u8], work: &mut [u8]) -> u32 {
    single(ask, Some(&ask.groups), &ask.path, out, work)
}
