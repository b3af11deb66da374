//! Bundles of first and second replies.
use super::Draws;
use crate::words::*;

/// A file's words behind a header of its own.
fn file(kind: u32, site: u32, body: Vec<u32>) -> Vec<u32> {
    let mut ws = vec![header(kind, site, 15) | (body.len() + 1) as u32];
    ws.extend(body);
    ws
}

fn reach(x: u32, q: u32) -> u32 {
    REACH | x << 4 | q
}

fn door(x: u32, root: bool) -> u32 {
    DOOR_WORD | x | if root { ROOT_DOOR } else { 0 }
}

/// Two files of doors with one row each, which leads to the door before; the last door is the root.
pub fn chain_back(size: usize) -> Vec<u32> {
    let half = ((size - 2) / 6) as u32;
    let body = |from: u32| (from..from + half).flat_map(|x| [door(x, x + 1 == 2 * half), ROW, reach(x.saturating_sub(1), 0)]).collect();
    [file(7, 0, body(0)), file(7, 1, body(half))].concat()
}

/// Two files of doors with a row for each state, which leads to the door before in that state, and from the first door to the last in the
/// next: pair after pair is called.
pub fn pairs_back(size: usize) -> Vec<u32> {
    let half = ((size - 2) / 66) as u32;
    let last = 2 * half - 1;
    let step = move |x: u32, q: u32| if x > 0 { reach(x - 1, q) } else { reach(last, (q + 1) % 16) };
    let rows = move |x: u32| (0..16).flat_map(move |q| [ROW | q, step(x, q)]);
    let body = |from: u32| (from..from + half).flat_map(|x| std::iter::once(door(x, x == last)).chain(rows(x))).collect();
    [file(7, 0, body(0)), file(7, 1, body(half))].concat()
}

/// Two doors, each with up to sixteen rows of reach words to the doors at the bundle's end; the root's first row calls both in all states.
pub fn to_the_last(size: usize) -> Vec<u32> {
    let room = size / 2 - 40;
    let targets = (1..).find(|t| 16 * (1 + 16 * t) >= room).unwrap_or(1);
    let (rows, targets) = ((room / (1 + 16 * targets)) as u32, targets as u32);
    let ends = |q| std::iter::once(ROW | q).chain((0..targets).flat_map(|t| (0..16).map(move |p| reach(100 + t, p))));
    let mut root = vec![door(0, true), ROW];
    root.extend((0..2).flat_map(|x| (0..16).map(move |p| reach(x, p))));
    root.extend(ends(0).skip(1).chain((1..rows).flat_map(ends)));
    let mut other = vec![door(1, false)];
    other.extend((0..rows).flat_map(ends));
    other.extend((0..targets).map(|t| door(100 + t, false)));
    [file(7, 0, root), file(7, 1, other)].concat()
}

/// Two files: the root, whose one row calls every door of the other.
pub fn all_at_once(size: usize) -> Vec<u32> {
    let doors = (size / 2 - 3) as u32;
    let root = [door(0, true), ROW].into_iter().chain((1..=doors).map(|x| reach(x, 0))).collect();
    let other = (1..=doors).map(|x| door(x, false)).collect();
    [file(7, 0, root), file(7, 1, other)].concat()
}

/// Sixteen files of doors that come from them by turns, each with one row, which leads to the door before; the last door is the root. The
/// first door, node 1, leads to `end`.
pub fn chain_by_turns(size: usize, end: u32) -> Vec<u32> {
    let each = ((size - 16) / 16 / 3) as u32;
    let to = |x: u32| if x > 1 { x - 1 } else { end };
    let body = |site: u32| (0..each).map(|k| 16 * k + site + 1).flat_map(|x| [door(x, x == 16 * each), ROW, reach(to(x), 0)]).collect();
    (0..16).map(|site| file(7, site, body(site))).collect::<Vec<_>>().concat()
}

/// Two doors with rows of all states, as long as their files allow. The first calls the second in its own state, and that the first in the
/// next one; so each is taken sixteen times, in one state. Behind that each row has reach words to doors without rows.
pub fn state_after_state(size: usize) -> Vec<u32> {
    let more = ((size / 2 - 40) / 16 - 2) as u32;
    let row = |q: u32, call: Option<u32>| {
        let others = (0..more).map(|k| reach(100 + k / 16, k % 16));
        [ROW | q].into_iter().chain(call).chain(others).collect::<Vec<_>>()
    };
    let mut first = vec![door(0, true)];
    first.extend((0..16).flat_map(|q| row(q, Some(reach(1, q)))));
    let mut second = vec![door(1, false)];
    second.extend((0..16).flat_map(|q| row(q, (q < 15).then(|| reach(0, q + 1)))));
    second.extend((0..(more + 15) / 16).map(|k| door(100 + k, false)));
    [file(7, 0, first), file(7, 1, second)].concat()
}

/// Sixteen files of doors with two rows of two reach words each, to any doors. If `idle` is not 0, each has a row more, of so many reach words
/// to nodes that are no doors, in a state that nobody calls.
pub fn random(size: usize, idle: u32) -> Vec<u32> {
    let words = 7 + if idle > 0 { 1 + idle as usize } else { 0 };
    let (each, mut draws) = (((size - 16) / 16 / words) as u32, Draws(size as u32));
    let files = (0..16).map(|site| {
        let mut body = Vec::new();
        for k in 0..each {
            body.push(door(16 * k + site, k + site == 0));
            for q in 0..2 {
                let mut to: Vec<u32> = (0..2).map(|_| reach(draws.below(16 * each), draws.below(2))).collect();
                to.sort_unstable();
                to.dedup();
                body.push(ROW | q);
                body.extend(to);
            }
            if idle > 0 {
                body.push(ROW | 15);
                body.extend((0..idle).map(|i| reach(16 * each + 16 * k + i, site)));
            }
        }
        file(7, site, body)
    });
    files.collect::<Vec<_>>().concat()
}

/// Second replies whose nodes come from the files by turns, `step` apart.
pub fn answers(size: usize, files: u32, step: u32) -> Vec<u32> {
    let each = (size as u32 - files) / files;
    let body = |site: u32| (0..each).map(|k| ANSWER | step * (k * files + site)).collect();
    (0..files).map(|site| file(13, site, body(site))).collect::<Vec<_>>().concat()
}
