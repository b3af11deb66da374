//! A walk beside each listed node (request 10): which words are a walk that a path accepts, and which of these walks is given. Walks are tried
//! one after another in the order that the request has, and labels are looked at by what is left of the expression behind them.

use super::derivatives::Rests;
use super::meaning::listed;
use super::part::{edge_word, Node, Part};
use super::path::Path;
use super::words::*;
use std::collections::HashSet;
use std::hash::Hash;

/// Words of a whole in which a walk is looked for or checked.
pub const WALKED_LIMIT: usize = 1024;

/// Where a walk is, and, unless it starts there, which walk it goes on from and by which word.
type Walk<Place> = (Place, Option<(usize, u32)>);

/// The first walk to an end: shorter ones come first, and those of one length in the order of their words. `onward` has the words by which a
/// walk goes on, in their order, each with the place that it leads to. Where a walk is says all of how it can go on; so, of those to one
/// place, only the first does.
pub fn first_walk<Place: Clone + Eq + Hash>(
    starts: Vec<Place>,
    onward: impl Fn(&Place) -> Vec<(u32, Place)>,
    is_end: impl Fn(&Place) -> bool,
) -> Option<Vec<u32>> {
    let mut seen: HashSet<Place> = starts.iter().cloned().collect();
    let mut walks: Vec<Walk<Place>> = starts.into_iter().map(|place| (place, None)).collect();
    let mut at = 0;
    while at < walks.len() && !is_end(&walks[at].0) {
        let further = onward(&walks[at].0).into_iter().filter(|(_, place)| seen.insert(place.clone()));
        let further: Vec<Walk<Place>> = further.map(|(word, place)| (place, Some((at, word)))).collect();
        walks.extend(further);
        at += 1;
    }
    let last = walks.get(at)?;
    let mut words: Vec<u32> =
        std::iter::successors(last.1, |(before, _)| walks[*before].1).map(|(_, word)| word).collect();
    words.reverse();
    Some(words)
}

pub fn label_of(word: u32) -> u32 {
    bits(word, 27, 16)
}

pub fn target_of(word: u32) -> u32 {
    bits(word, 15, 0)
}

/// The edge words of a node, ascending as they stand.
pub fn words_behind(node: &Node) -> Vec<u32> {
    node.edges.iter().copied().map(edge_word).collect()
}

/// A walk that is sought: to this node, of those that the path accepts.
pub struct Sought<'a> {
    pub whole: &'a Part,
    pub path: &'a Path,
    pub node: u32,
    pub rests: Rests<'a>,
}

/// A node, and what is left of the path there.
pub type Stand = (u32, usize);

impl<'a> Sought<'a> {
    pub fn new(whole: &'a Part, path: &'a Path, node: u32) -> Sought<'a> {
        Sought { whole, path, node, rests: Rests::of(path) }
    }

    pub fn is_running(&self, number: u32) -> bool {
        self.whole.node(number).map_or(false, |node| !node.stopped)
    }

    /// The root, if walks may start there.
    pub fn starts(&self) -> Vec<u32> {
        self.whole.root().filter(|root| !root.stopped).map(|root| root.number).into_iter().collect()
    }

    /// The words by which walks may go on from a node.
    pub fn onward(&self, node: &Node) -> Vec<u32> {
        let mut words = words_behind(node);
        words.retain(|word| self.is_running(target_of(*word)));
        words
    }

    /// Where such words lead to, as far as the path can go on so.
    pub fn led(&self, (number, rest): Stand, onward: impl Fn(&Node) -> Vec<u32>) -> Vec<(u32, Stand)> {
        let by = |word: u32| {
            let left = self.rests.after(rest, label_of(word))?;
            Some((word, (target_of(word), left)))
        };
        self.whole.node(number).map_or(vec![], onward).into_iter().filter_map(by).collect()
    }

    /// The first accepted walk from one of these nodes, by the edge words that `onward` has for each node, in their order.
    pub fn first(&self, starts: Vec<u32>, onward: impl Fn(&Node) -> Vec<u32>) -> Option<Vec<u32>> {
        first_walk(
            starts.into_iter().map(|start| (start, 0)).collect(),
            |stand| self.led(*stand, &onward),
            |(number, rest)| *number == self.node && self.rests.may_end(*rest),
        )
    }
}

/// The words of a walk's links: of those with the fewest the lowest at the first difference; `None` of a node to which there is no walk.
pub fn lowest_walk(whole: &Part, path: &Path, node: u32) -> Option<Vec<u32>> {
    let sought = Sought::new(whole, path, node);
    sought.first(sought.starts(), |node| sought.onward(node))
}

/// The file of a walk, of kind 0.
pub fn walk_file(links: &[u32]) -> Vec<u32> {
    file(0, 0, 0, links)
}

/// Nodes in a row with these labels between them.
pub fn chain(labels: &[u32]) -> Vec<Vec<(u32, usize)>> {
    let link = |(at, label): (usize, &u32)| vec![(*label, at + 1)];
    labels.iter().enumerate().map(link).chain([vec![]]).collect()
}

/// Whether bytes are the file of a walk from the root to the node, by edges of the whole, through running nodes, that the path accepts.
pub fn is_walk(whole: &Part, path: &Path, node: u32, bytes: &[u8]) -> bool {
    let (header, links) = match words_of(bytes, FILE_LIMIT) {
        Ok(words) => (words[0], words[1..].to_vec()),
        Err(_) => return false,
    };
    let root = whole.root().map(|root| root.number);
    let nodes: Vec<u32> = root.into_iter().chain(links.iter().copied().map(target_of)).collect();
    let stands = |(word, from): (&u32, &u32)| {
        whole.node(*from).map_or(false, |node| words_behind(node).contains(word))
    };
    let runs = |number: &u32| whole.node(*number).map_or(false, |node| !node.stopped);
    let labels: Vec<u32> = links.iter().copied().map(label_of).collect();
    header as usize == 1 + links.len()
        && links.iter().zip(&nodes).all(stands)
        && nodes.iter().all(runs)
        && nodes.last() == Some(&node)
        && listed(path, &chain(&labels), 0).contains(&labels.len())
}
