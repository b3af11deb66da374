//! Bundles, the call list, joining.

use super::replies::*;
use super::words::*;
use std::collections::{BTreeMap, BTreeSet};

/// Number 2 of the bundle, then its files, one after another.
fn read_bundle<T>(
    bytes: &[u8],
    expected: u32,
    read: impl Fn(Header, &[u32]) -> Result<T, Refusal>,
) -> Result<Vec<T>, Refusal> {
    let words = words_of(bytes, BUNDLE_LIMIT)?;
    let mut files = vec![];
    let mut start = 0;
    while start < words.len() {
        let header = read_header(words[start], expected)?;
        if header.length == 0 {
            return refuse(4, "length 0");
        }
        if header.length > FILE_LIMIT {
            return refuse(4, "length over 4,096");
        }
        if start + header.length > words.len() {
            return refuse(4, "length past the end");
        }
        files.push(read(header, &words[start + 1..start + header.length])?);
        start += header.length;
    }
    Ok(files)
}

/// Number 12 over all files of a bundle.
fn check_headers(headers: &[Header]) -> Result<(), Refusal> {
    for (at, header) in headers.iter().enumerate() {
        if headers[..at].iter().any(|other| other.site == header.site) {
            return refuse(12, "site twice");
        }
        if headers[..at].iter().any(|other| other.n != header.n) {
            return refuse(12, "different n");
        }
    }
    Ok(())
}

/// Number 13: files ascend, so a node that stands twice stands in two files.
fn check_once(nodes: impl Iterator<Item = u32>) -> Result<BTreeSet<u32>, Refusal> {
    let mut once = BTreeSet::new();
    for node in nodes {
        if !once.insert(node) {
            return refuse(13, "node in two files");
        }
    }
    Ok(once)
}

/// First replies that have passed all checks up to 13, over all their files.
#[derive(Clone)]
pub struct FirstBundle {
    n: u32,
    pub root: Pair,
    pub doors: BTreeSet<u32>,
    /// By door and state.
    pub rows: BTreeMap<Pair, Vec<Pair>>,
}

pub fn read_first_bundle(bytes: &[u8]) -> Result<FirstBundle, Refusal> {
    let files = read_bundle(bytes, FIRST, read_first_reply)?;
    check_headers(&files.iter().map(|file| file.header).collect::<Vec<_>>())?;
    let n = files[0].header.n;
    let doors: Vec<Door> = files.into_iter().flat_map(|file| file.doors).collect();
    let roots: Vec<u32> = doors.iter().filter(|door| door.root).map(|door| door.node).collect();
    let root = match roots[..] {
        [] => return refuse(7, "first bundle without root"),
        [root] => (root, 0),
        _ => return refuse(7, "roots in two files"),
    };
    let nodes = check_once(doors.iter().map(|door| door.node))?;
    let by_state = |door: Door| door.rows.into_iter().map(move |row| ((door.node, row.state), row.reach));
    Ok(FirstBundle { n, root, doors: nodes, rows: doors.into_iter().flat_map(by_state).collect() })
}

impl FirstBundle {
    pub fn is_stray(&self, pair: Pair) -> bool {
        !self.doors.contains(&pair.0)
    }

    /// The least set with the root in state 0 that is closed under the rows. A pair of a node that is no door is in it like any other, and has
    /// no row.
    pub fn called(&self) -> BTreeSet<Pair> {
        let mut called = BTreeSet::from([self.root]);
        let mut waiting = vec![self.root];
        while let Some(pair) = waiting.pop() {
            for next in self.rows.get(&pair).into_iter().flatten() {
                if called.insert(*next) {
                    waiting.push(*next);
                }
            }
        }
        called
    }

    /// Number 14, once the whole set is there.
    pub fn check_called(&self, called: &BTreeSet<Pair>) -> Result<(), Refusal> {
        match called.iter().any(|pair| self.is_stray(*pair)) {
            true => refuse(14, "called pair's node is no door"),
            false => Ok(()),
        }
    }

    pub fn call_list_words(&self, called: &BTreeSet<Pair>) -> Vec<u32> {
        call_list(self.n, called)
    }
}

/// The call list of these pairs, for a path of n `n`.
pub fn call_list(n: u32, called: &BTreeSet<Pair>) -> Vec<u32> {
    let words: Vec<u32> = called.iter().map(|pair| pair_word(CALL, *pair)).collect();
    file(CALLS, 0, n, &words)
}

pub fn read_second_bundle(bytes: &[u8]) -> Result<Vec<SecondReply>, Refusal> {
    let files = read_bundle(bytes, SECOND, read_second_reply)?;
    check_headers(&files.iter().map(|file| file.header).collect::<Vec<_>>())?;
    check_once(files.iter().flat_map(|file| file.nodes.iter().copied()))?;
    Ok(files)
}

pub fn final_list(nodes: &BTreeSet<u32>) -> Vec<u32> {
    let words: Vec<u32> = nodes.iter().map(|node| ANSWER << 28 | node).collect();
    file(FINAL, 0, 0, &words)
}

/// The nodes of such a list.
pub fn nodes_of(list: &[u32]) -> BTreeSet<u32> {
    list[1..].iter().map(|answer| bits(*answer, 15, 0)).collect()
}

/// A call list by itself: its n and its pairs.
pub fn read_call_list(bytes: &[u8]) -> Result<(usize, Vec<Pair>), Refusal> {
    let (header, words) = single_file(bytes, FILE_LIMIT, CALLS)?;
    let mut calls: Vec<Pair> = vec![];
    for word in words {
        let (node, state) = (bits(word, 19, 4), bits(word, 3, 0));
        if kind(word) != CALL {
            return refuse(5, "no call word");
        }
        if bits(word, 27, 20) != 0 {
            return refuse(5, "call zero bit");
        }
        if state > header.n {
            return refuse(10, "call state");
        }
        let pair = (node, state as usize);
        if calls.last().map_or(false, |last| *last >= pair) {
            return refuse(6, "calls");
        }
        calls.push(pair);
    }
    Ok((header.n as usize, calls))
}
