//! The checker of walks: a set of states steps along the words, and each target's node word is looked for in the whole.
use super::automaton::{path, Automaton};
use super::files::{groups, settle, sized};
use super::part::whole_up_to;
use crate::inputs::Ask;
use crate::timing::counted;
use crate::walks::{WALK_WORDS, WHOLE_WORDS};
use crate::words::*;

/// Where the first node word stands that is such a one; a whole has one.
fn place(ws: &[u32], is: impl Fn(u32) -> bool) -> usize {
    1 + ws[1..].iter().position(|&w| kind(w) == 2 && is(w)).unwrap_or(0)
}

/// Whether the word is among the edge words behind the node word at a place.
fn has_edge(ws: &[u32], at: usize, word: u32) -> bool {
    ws[at + 1..].iter().take_while(|&&w| kind(w) == 3).any(|&w| w == word)
}

/// Whether the links lead from the root to the node, by running nodes and to a state that accepts.
fn leads(ws: &[u32], a: &Automaton, asked: u32, links: &[u32]) -> bool {
    let runs = |at: usize| ws[at] & STOPPED == 0;
    let (mut at, mut states) = (place(ws, |w| w & ROOT != 0), 1);
    for &w in links {
        if !runs(at) || !has_edge(ws, at, w) {
            return false;
        }
        states = a.follow_all(states) & a.mask(label(w));
        at = place(ws, |n| node(n) == node(w));
    }
    runs(at) && node(ws[at]) == asked && states & a.accepts != 0
}

/// Where `leads` says whether links of a whole lead to a node.
pub fn check_walk_by(ask: &Ask, handed: Option<&[u8]>, work: &mut [u8], leads: impl Fn(&[u32], &Automaton, u32, &[u32]) -> bool) -> u64 {
    let mut yes = false;
    let number = settle(0, &mut [], work, || {
        let ws = whole_up_to(&ask.file, WHOLE_WORDS)?;
        let a = path(&ask.path, &groups(handed)?)?;
        // the header is just the number of words
        let walk = sized(&ask.walk, WALK_WORDS).ok().filter(|walk| walk[0] as usize == walk.len());
        yes = walk.map_or(false, |walk| leads(&ws, &a, ask.node, &walk[1..]));
        Ok(Vec::new())
    });
    counted(number, yes.into())
}

pub fn check_walk(ask: &Ask, _: &mut [u8], work: &mut [u8]) -> u64 {
    check_walk_by(ask, None, work, leads)
}

pub fn check_walk_grouped(ask: &Ask, _: &mut [u8], work: &mut [u8]) -> u64 {
    check_walk_by(ask, Some(&ask.groups), work, leads)
}
