//! Paths, of fifteen labels but for document 01's.
use super::Draws;
use crate::words::*;

fn seal(mut ws: Vec<u32>) -> Vec<u32> {
    let n = ws.iter().filter(|&&w| kind(w) == 5).count() as u32;
    ws[0] = header(4, 0, n) | ws.len() as u32;
    ws
}

fn star_of_or(labels: impl Iterator<Item = u32>) -> Vec<u32> {
    let mut ws = vec![0];
    for (i, w) in labels.enumerate() {
        ws.push(w);
        if i > 0 {
            ws.push(OR);
        }
    }
    ws.push(STAR);
    seal(ws)
}

/// An or of fifteen ranges, of which one alone holds label 0, the first if `turn` is 0: no star, so that only state 0 has a row.
pub fn any_label(turn: u32) -> Vec<u32> {
    let mut ws = star_of_or((0..15).map(|k| range((turn + k) % 15, 4095)));
    ws.pop();
    seal(ws)
}

/// A star of that or: every state has a row.
pub fn any_label_star(turn: u32) -> Vec<u32> {
    let mut ws = any_label(turn);
    ws.push(STAR);
    seal(ws)
}

/// A star of an or of fifteen full ranges.
pub fn full_ranges() -> Vec<u32> {
    star_of_or((0..15).map(|_| range(0, 4095)))
}

/// A star of fifteen full ranges one after another: a walk is in one state at a time.
pub fn turns() -> Vec<u32> {
    let mut ws = full_ranges();
    ws.iter_mut().filter(|w| **w == OR).for_each(|w| *w = THEN);
    ws
}

/// A star of an or of fifteen label words, each with a range of half the labels.
fn halves(word: fn(u32, u32) -> u32) -> Vec<u32> {
    let mut draws = Draws(7);
    star_of_or((0..15).map(|_| {
        let low = draws.below(2048);
        word(low, low + 2047)
    }))
}

pub fn half_ranges() -> Vec<u32> {
    halves(range)
}

pub fn outside_halves() -> Vec<u32> {
    halves(outside)
}

/// A star of an or of fifteen groups, each of the eight by turns.
pub fn groups() -> Vec<u32> {
    star_of_or((0..15).map(|k| group(k % 8)))
}

/// A star of fifteen labels under one operator, with the same states and steps but eight operands waiting: eight labels and their operators,
/// the other seven and theirs.
pub fn eight_waiting(path: Vec<u32>) -> Vec<u32> {
    let (labels, operators): (Vec<u32>, Vec<u32>) = path[1..].iter().partition(|&&w| kind(w) == 5);
    seal([&[0], &labels[..8], &operators[..7], &labels[8..], &operators[7..]].concat())
}

/// The path, an operator and a star at its end, without these: two operands are left (9).
pub fn unfinished(path: Vec<u32>) -> Vec<u32> {
    seal(path[..path.len() - 2].to_vec())
}

/// The path behind a header of another kind (3).
pub fn foreign(mut path: Vec<u32>) -> Vec<u32> {
    path[0] ^= 1 << 28;
    path
}

/// The path with a label word of a sort that there is not (5).
pub fn unsorted(mut path: Vec<u32>) -> Vec<u32> {
    path[1] |= 3 << 24;
    path
}

/// The path and stars behind it, 65 words in all (2).
pub fn overlong(mut path: Vec<u32>) -> Vec<u32> {
    path.resize(65, STAR);
    seal(path)
}

/// Document 01's own path, 5 then (6 then 5)*, and seven more over its labels: 5 then 6 then 5, the empty word, (5 or 6)*, 5, 6, 5* and
/// (5 then 6)*.
pub fn document_01() -> [Vec<u32>; 8] {
    let (five, six) = (range(5, 5), range(6, 6));
    [
        vec![0, five, six, five, THEN, STAR, THEN],
        vec![0, five, six, THEN, five, THEN],
        vec![0, EMPTY],
        vec![0, five, six, OR, STAR],
        vec![0, five],
        vec![0, six],
        vec![0, five, STAR],
        vec![0, five, six, THEN, STAR],
    ]
    .map(seal)
}

/// A star of an or of fifteen times the one label that no link of `parts::outward` has.
pub fn last_label() -> Vec<u32> {
    star_of_or((0..15).map(|_| range(4095, 4095)))
}

/// (x then (p1* or .. or p14*))*: x reads 1, and p_k reads 100 to 200 + k. A state of 2 to 15 keeps to itself on 150 and becomes 1 on 1;
/// from state 1 the label 200 + k enters the states of p_k to p_14.
pub fn one_by_one() -> Vec<u32> {
    let mut ws = vec![0, range(1, 1)];
    for k in 1..=14 {
        ws.extend([range(100, 200 + k), STAR]);
        if k > 1 {
            ws.push(OR);
        }
    }
    ws.extend([THEN, STAR]);
    seal(ws)
}
