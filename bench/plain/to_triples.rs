//! To triples: the links of a whole, each with the node that it is of.
use super::files::{settle, unless};
use super::part::{whole, NodeSet};
use crate::inputs::Ask;
use crate::timing::counted;
use crate::triples::TRIPLE_WORDS;
use crate::words::*;

/// 19, what triples can't say: a stopped node, or a node other than the root that no link leaves or enters.
fn said(ws: &[u32]) -> Result<(), u32> {
    let mut targets = NodeSet::new();
    for &w in ws[1..].iter().filter(|&&w| kind(w) == 3) {
        targets.add(node(w));
    }
    let linked = |i: usize| ws.get(i + 1).map_or(false, |&next| kind(next) == 3) || targets.has(node(ws[i]));
    let is_said = |i: usize| kind(ws[i]) == 3 || ws[i] & STOPPED == 0 && (ws[i] & ROOT != 0 || linked(i));
    unless(19, (1..ws.len()).all(is_said))
}

/// The root, then the triples, which are sorted as the links are.
fn triples_of(ws: &[u32]) -> Vec<u32> {
    let root = ws[1..].iter().position(|&w| kind(w) == 2 && w & ROOT != 0).unwrap_or(0);
    let (mut triples, mut source) = (Vec::with_capacity(3 * ws.len()), 0);
    triples.push(node(ws[1 + root]));
    for &w in &ws[1..] {
        if kind(w) == 2 {
            source = node(w);
        } else {
            triples.extend([source, label(w), node(w)]);
        }
    }
    triples
}

pub fn to_triples(ask: &Ask, out: &mut [u8], work: &mut [u8]) -> u64 {
    let mut count = 0;
    let number = settle(TRIPLE_WORDS, out, work, || {
        let ws = whole(&ask.file)?;
        said(&ws)?;
        let triples = triples_of(&ws);
        count = triples.len() as u32;
        Ok(triples)
    });
    counted(number, count)
}
