//! The old search.
use super::automaton::{path, Automaton};
use super::files::{groups, settle, Outcome};
use super::part::whole;
use super::search::{Graph, Search};
use super::second_reply::answers;
use crate::inputs::Ask;
use crate::words::*;

pub fn final_list(graph: &Graph, a: &Automaton) -> Outcome {
    let mut search = Search::new(graph, a);
    search.enter(graph.root(), 1);
    search.run();
    Ok(answers(&search, a.accepts, header(15, 0, 0)))
}

fn list(ask: &Ask, handed: Option<&[u8]>) -> Outcome {
    let ws = whole(&ask.file)?;
    let a = path(&ask.path, &groups(handed)?)?;
    final_list(&Graph::new(&ws, &a), &a)
}

pub fn old_search(ask: &Ask, out: &mut [u8], work: &mut [u8]) -> u32 {
    settle(8192, out, work, || list(ask, None))
}

pub fn old_search_grouped(ask: &Ask, out: &mut [u8], work: &mut [u8]) -> u32 {
    settle(8192, out, work, || list(ask, Some(&ask.groups)))
}
