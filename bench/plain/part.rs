//! Parts and wholes.
use super::files::{file, unless, Outcome};
use crate::words::*;

/// A set of nodes.
pub struct NodeSet([u64; 1024]);

impl NodeSet {
    pub fn new() -> NodeSet {
        NodeSet([0; 1024])
    }

    pub fn has(&self, x: u32) -> bool {
        self.0[x as usize / 64] >> (x % 64) & 1 == 1
    }

    /// Whether x is new.
    pub fn add(&mut self, x: u32) -> bool {
        let new = !self.has(x);
        self.0[x as usize / 64] |= 1 << (x % 64);
        new
    }

    /// The nodes, ascending.
    pub fn each(&self, mut f: impl FnMut(u32)) {
        for (i, &cell) in self.0.iter().enumerate() {
            let mut rest = cell;
            while rest != 0 {
                f(64 * i as u32 + rest.trailing_zeros());
                rest &= rest - 1;
            }
        }
    }
}

fn scan(ws: &[u32]) -> Result<bool, u32> {
    let (mut last, mut low, mut rooted) = (0, 0, false);
    for &w in ws {
        match kind(w) {
            2 => {
                unless(5, w & 0x0ff8_0000 == 0)?;
                unless(6, low <= node(w))?;
                let root = w & ROOT != 0;
                unless(7, !root || (w & DOOR != 0 && !rooted))?;
                rooted |= root;
                low = node(w) + 1;
            }
            3 => {
                unless(5, low != 0)?;
                unless(6, last < w)?;
            }
            _ => return Err(5),
        }
        last = w;
    }
    Ok(rooted)
}

pub fn part(bytes: &[u8]) -> Outcome {
    let ws = file(bytes, 4096, 1, 0x00f0_0000)?;
    scan(&ws[1..])?;
    Ok(ws)
}

pub fn whole(bytes: &[u8]) -> Outcome {
    whole_up_to(bytes, 4096)
}

/// A whole of at most so many words.
pub fn whole_up_to(bytes: &[u8], most: usize) -> Outcome {
    let ws = file(bytes, most, 1, 0x00f0_0000)?;
    unless(7, scan(&ws[1..])?)?;
    let mut nodes = NodeSet::new();
    ws[1..].iter().filter(|&&w| kind(w) == 2).for_each(|&w| {
        nodes.add(node(w));
    });
    unless(8, ws[1..].iter().all(|&w| kind(w) != 3 || nodes.has(node(w))))?;
    Ok(ws)
}
