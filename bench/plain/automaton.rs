//! A path and its position automaton.
use super::files::{file, unless};
use crate::words::*;

/// At most so many operands wait at any word.
const MOST_WAITING: usize = 8;

pub struct Automaton {
    /// What may follow each state.
    pub follow: [u16; 16],
    pub accepts: u16,
    /// The range of each state's label word, from state 1 on.
    pub ends: Vec<(u32, u32)>,
    /// The states whose label word holds the labels outside its range.
    pub outside: u16,
}

impl Automaton {
    pub fn n(&self) -> u32 {
        self.ends.len() as u32
    }

    /// The states that a label enters.
    pub fn mask(&self, label: u32) -> u16 {
        let inside = |m, (i, &(low, high)): (usize, &(u32, u32))| m | ((low <= label && label <= high) as u16) << (i + 1);
        self.ends.iter().enumerate().fold(0, inside) ^ self.outside
    }

    pub fn follow_all(&self, set: u16) -> u16 {
        all_of(&self.follow, set)
    }
}

/// What the rows of the states of a set have, together.
#[inline]
pub fn all_of(rows: &[u16; 16], mut set: u16) -> u16 {
    let mut r = 0;
    while set != 0 {
        r |= rows[set.trailing_zeros() as usize];
        set &= set - 1;
    }
    r
}

#[derive(Clone, Copy)]
struct Operand {
    null: bool,
    begins: u16,
    ends: u16,
}

fn link(follow: &mut [u16; 16], ends: u16, begins: u16) {
    (0..16).filter(|q| ends >> q & 1 == 1).for_each(|q| follow[q] |= begins);
}

/// The ends of a label word's range; a group has those of its own word.
fn letter(w: u32, groups: &Groups) -> Result<(u32, u32), u32> {
    let (low, high) = ends(w);
    match sort(w) {
        0 | 2 => unless(5, low <= high).map(|_| (low, high)),
        1 => unless(5, w & 0x00ff_fff8 == 0).map(|_| ends(groups[(w & 7) as usize])),
        _ => Err(5),
    }
}

fn operate(op: u32, stack: &mut Vec<Operand>, follow: &mut [u16; 16]) -> Result<(), u32> {
    let empty = Operand { null: true, begins: 0, ends: 0 };
    let y = if op == 0 { empty } else { stack.pop().ok_or(9u32)? };
    let x = if op == 1 || op == 2 { stack.pop().ok_or(9u32)? } else { y };
    stack.push(match op {
        1 => {
            link(follow, x.ends, y.begins);
            let begins = x.begins | if x.null { y.begins } else { 0 };
            let ends = y.ends | if y.null { x.ends } else { 0 };
            Operand { null: x.null && y.null, begins, ends }
        }
        2 => Operand { null: x.null || y.null, begins: x.begins | y.begins, ends: x.ends | y.ends },
        3 => {
            link(follow, y.ends, y.begins);
            Operand { null: true, ..y }
        }
        _ => empty,
    });
    Ok(())
}

/// A path, read by these groups.
pub fn path(bytes: &[u8], groups: &Groups) -> Result<Automaton, u32> {
    let ws = file(bytes, 64, 4, 0x0f00_0000)?;
    let (mut stack, mut follow, mut ends, mut outside) = (Vec::with_capacity(MOST_WAITING + 1), [0; 16], Vec::with_capacity(16), 0);
    for &w in &ws[1..] {
        match kind(w) {
            5 => {
                ends.push(letter(w, groups)?);
                // a sixteenth label is refused at the end
                let only = 1u16.checked_shl(ends.len() as u32).unwrap_or(0);
                outside |= if sort(w) == 2 { only } else { 0 };
                stack.push(Operand { null: false, begins: only, ends: only });
            }
            6 => {
                unless(5, w & 0x0fff_fffc == 0)?;
                operate(w & 3, &mut stack, &mut follow)?;
            }
            _ => return Err(5),
        }
        unless(9, stack.len() <= MOST_WAITING)?;
    }
    unless(9, stack.len() == 1 && ends.len() == labels(ws[0]) as usize)?;
    follow[0] = stack[0].begins;
    Ok(Automaton { follow, accepts: stack[0].ends | stack[0].null as u16, ends, outside })
}
