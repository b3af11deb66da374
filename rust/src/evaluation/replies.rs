//! Walks inside a part; the words of first and second replies; reading them back from bundles.

use super::part::Part;
use super::path::Path;
use super::states::States;
use super::words::*;
use std::collections::BTreeSet;

pub type Pair = (u32, usize);

/// All pairs that walks from the given pairs of the part end in. Every node of a walk is running, its first and its last too; a node outside
/// the part ends its walk, and nobody here knows whether it is stopped.
pub fn walks(part: &Part, path: &Path, states: &States, from: &[Pair]) -> BTreeSet<Pair> {
    let mut reached = BTreeSet::new();
    let mut waiting = from.to_vec();
    while let Some((number, q)) = waiting.pop() {
        let node = part.node(number);
        if node.map_or(false, |node| node.stopped) || !reached.insert((number, q)) {
            continue;
        }
        for (label, target) in node.iter().flat_map(|node| &node.edges) {
            waiting.extend(states.after(path, q, *label).map(|p| (*target, p)));
        }
    }
    reached
}

pub fn pair_word(kind: u32, (node, state): Pair) -> u32 {
    kind << 28 | node << 4 | state as u32
}

/// What is reported of each door in each state: the pairs outside the part.
fn reports(part: &Part, path: &Path) -> Vec<Vec<Vec<Pair>>> {
    let states = States::of(path);
    let report = |door: u32, q: usize| {
        let reached = walks(part, path, &states, &[(door, q)]);
        reached.into_iter().filter(|pair| part.node(pair.0).is_none()).collect()
    };
    part.doors().map(|door| (0..=path.n()).map(|q| report(door.number, q)).collect()).collect()
}

pub fn first_reply_words(part: &Part, path: &Path) -> Vec<u32> {
    let mut words = vec![];
    for (door, rows) in part.doors().zip(reports(part, path)) {
        words.push(DOOR << 28 | u32::from(door.root) << 16 | door.number);
        for (q, row) in rows.into_iter().enumerate().filter(|(_, row)| !row.is_empty()) {
            words.push(ROW << 28 | q as u32);
            words.extend(row.into_iter().map(|pair| pair_word(REACH, pair)));
        }
    }
    file(FIRST, part.site, path.n() as u32, &words)
}

/// How many pairs are reported of each door in each state.
pub fn report_sizes(part: &Part, path: &Path) -> Vec<Vec<usize>> {
    let sizes = |rows: Vec<Vec<Pair>>| rows.iter().map(Vec::len).collect();
    reports(part, path).into_iter().map(sizes).collect()
}

/// How many words a first reply has before each door, and at its end: a header, for each door a door word, and for each state with anything
/// to report a row word and a word for each pair.
pub fn running_lengths(sizes: &[Vec<usize>]) -> Vec<usize> {
    let row = |pairs: &usize| if *pairs == 0 { 0 } else { 1 + pairs };
    let mut lengths = vec![1];
    for rows in sizes {
        lengths.push(lengths[lengths.len() - 1] + 1 + rows.iter().map(row).sum::<usize>());
    }
    lengths
}

pub fn second_reply_words(part: &Part, path: &Path, calls: &[Pair]) -> Vec<u32> {
    let states = States::of(path);
    let own = calls.iter().copied().filter(|call| part.node(call.0).is_some());
    let reached = walks(part, path, &states, &own.collect::<Vec<_>>());
    let accepted = reached.into_iter().filter(|pair| states.accepts[pair.1]);
    let nodes: BTreeSet<u32> =
        accepted.map(|pair| pair.0).filter(|node| part.node(*node).is_some()).collect();
    let words: Vec<u32> = nodes.into_iter().map(|node| ANSWER << 28 | node).collect();
    file(SECOND, part.site, path.n() as u32, &words)
}

pub struct Row {
    pub state: usize,
    pub reach: Vec<Pair>,
}

pub struct Door {
    pub node: u32,
    pub root: bool,
    pub rows: Vec<Row>,
}

pub struct FirstReply {
    pub header: Header,
    pub doors: Vec<Door>,
}

pub struct SecondReply {
    pub header: Header,
    pub nodes: Vec<u32>,
}

fn read_door(word: u32, doors: &[Door]) -> Result<Door, Refusal> {
    let (node, root) = (bits(word, 15, 0), bits(word, 16, 16) == 1);
    if bits(word, 27, 17) != 0 {
        return refuse(5, "door zero bit");
    }
    if doors.last().map_or(false, |last| last.node >= node) {
        return refuse(6, "doors");
    }
    if root && doors.iter().any(|door| door.root) {
        return refuse(7, "second root");
    }
    Ok(Door { node, root, rows: vec![] })
}

fn add_row(word: u32, n: u32, doors: &mut [Door]) -> Result<(), Refusal> {
    let state = bits(word, 3, 0);
    let door = doors.last_mut().map_or_else(|| refuse(5, "row before any door"), Ok)?;
    if bits(word, 27, 4) != 0 {
        return refuse(5, "row zero bit");
    }
    if state > n {
        return refuse(10, "row state");
    }
    let state = state as usize;
    if door.rows.last().map_or(false, |last| last.state >= state) {
        return refuse(6, "rows");
    }
    door.rows.push(Row { state, reach: vec![] });
    Ok(())
}

fn add_reach(word: u32, n: u32, doors: &mut [Door]) -> Result<(), Refusal> {
    let (node, state) = (bits(word, 19, 4), bits(word, 3, 0));
    let row = doors
        .last_mut()
        .and_then(|door| door.rows.last_mut())
        .map_or_else(|| refuse(5, "reach word before a row"), Ok)?;
    if bits(word, 27, 20) != 0 {
        return refuse(5, "reach zero bit");
    }
    if state > n {
        return refuse(10, "reach state");
    }
    let pair = (node, state as usize);
    if row.reach.last().map_or(false, |last| *last >= pair) {
        return refuse(6, "reach words");
    }
    row.reach.push(pair);
    Ok(())
}

fn bare_row(doors: &[Door]) -> bool {
    let last = doors.last().and_then(|door| door.rows.last());
    last.map_or(false, |row| row.reach.is_empty())
}

pub fn read_first_reply(header: Header, words: &[u32]) -> Result<FirstReply, Refusal> {
    let mut doors = vec![];
    for word in words {
        if bare_row(&doors) && kind(*word) != REACH {
            return refuse(5, "row without reach words");
        }
        match kind(*word) {
            DOOR => {
                let door = read_door(*word, &doors)?;
                doors.push(door);
            }
            ROW => add_row(*word, header.n, &mut doors)?,
            REACH => add_reach(*word, header.n, &mut doors)?,
            _ => return refuse(5, "neither door, row nor reach word"),
        }
    }
    if bare_row(&doors) {
        return refuse(5, "row without reach words at the end");
    }
    Ok(FirstReply { header, doors })
}

pub fn read_second_reply(header: Header, words: &[u32]) -> Result<SecondReply, Refusal> {
    let mut nodes: Vec<u32> = vec![];
    for word in words {
        if kind(*word) != ANSWER {
            return refuse(5, "no answer word");
        }
        if bits(*word, 27, 16) != 0 {
            return refuse(5, "answer zero bit");
        }
        let node = bits(*word, 15, 0);
        if nodes.last().map_or(false, |last| *last >= node) {
            return refuse(6, "answers");
        }
        nodes.push(node);
    }
    Ok(SecondReply { header, nodes })
}
