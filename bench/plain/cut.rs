//! The cutter.
use super::files::{settle, unless, Outcome};
use super::part::{whole, NodeSet};
use crate::inputs::Ask;
use crate::words::*;

fn part_of(ws: &[u32], cuts: &[u8], asked: u32) -> Outcome {
    let mut sites = cuts.iter();
    let mut here = false;
    let mut doors = NodeSet::new();
    for &w in &ws[1..] {
        if kind(w) == 2 {
            here = sites.next() == Some(&(asked as u8));
        } else if !here {
            doors.add(node(w));
        }
    }
    let mut sites = cuts.iter();
    let mut part = Vec::with_capacity(ws.len());
    part.push(header(1, asked, 0));
    for &w in &ws[1..] {
        if kind(w) == 2 {
            here = sites.next() == Some(&(asked as u8));
        }
        if !here {
            continue;
        }
        part.push(match kind(w) {
            2 => w & !DOOR | if w & ROOT != 0 || doors.has(node(w)) { DOOR } else { 0 },
            _ => w,
        });
    }
    part[0] |= part.len() as u32;
    Ok(part)
}

pub fn cut(ask: &Ask, out: &mut [u8], work: &mut [u8]) -> u32 {
    settle(4096, out, work, || {
        let ws = whole(&ask.file)?;
        let nodes = ws[1..].iter().filter(|&&w| kind(w) == 2).count();
        unless(11, ask.cuts.len() == nodes && ask.cuts.iter().all(|&c| c <= 15))?;
        unless(11, ask.site <= 15)?;
        part_of(&ws, &ask.cuts, ask.site)
    })
}
