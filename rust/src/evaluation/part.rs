//! Parts, wholes, cut lists.

use super::words::*;
use std::collections::BTreeSet;

#[derive(Clone, Debug)]
pub struct Node {
    pub number: u32,
    pub door: bool,
    pub root: bool,
    pub stopped: bool,
    /// Label and target.
    pub edges: Vec<(u32, u32)>,
}

#[derive(Clone, Debug)]
pub struct Part {
    pub site: u32,
    /// Ascending by number.
    pub nodes: Vec<Node>,
}

/// An edge, label and target, as a file has it.
pub fn edge_word((label, target): (u32, u32)) -> u32 {
    EDGE << 28 | label << 16 | target
}

impl Part {
    pub fn node(&self, number: u32) -> Option<&Node> {
        let at = self.nodes.binary_search_by_key(&number, |node| node.number);
        at.ok().map(|at| &self.nodes[at])
    }

    pub fn root(&self) -> Option<&Node> {
        self.nodes.iter().find(|node| node.root)
    }

    pub fn doors(&self) -> impl Iterator<Item = &Node> {
        self.nodes.iter().filter(|node| node.door)
    }

    pub fn outside_targets(&self) -> BTreeSet<u32> {
        let targets = self.nodes.iter().flat_map(|node| node.edges.iter().map(|edge| edge.1));
        targets.filter(|target| self.node(*target).is_none()).collect()
    }

    pub fn words(&self) -> Vec<u32> {
        let mut words = vec![];
        for node in &self.nodes {
            let marks =
                u32::from(node.door) << 16 | u32::from(node.root) << 17 | u32::from(node.stopped) << 18;
            words.push(NODE << 28 | marks | node.number);
            words.extend(node.edges.iter().copied().map(edge_word));
        }
        file(PART, self.site, 0, &words)
    }
}

fn read_node(word: u32, nodes: &[Node]) -> Result<Node, Refusal> {
    let number = bits(word, 15, 0);
    let [door, root, stopped] = [16, 17, 18].map(|bit| bits(word, bit, bit) == 1);
    if bits(word, 27, 19) != 0 {
        return refuse(5, "node zero bit");
    }
    if nodes.last().map_or(false, |last| last.number >= number) {
        return refuse(6, "nodes");
    }
    if root && !door {
        return refuse(7, "root without door");
    }
    if root && nodes.iter().any(|node| node.root) {
        return refuse(7, "second root");
    }
    Ok(Node { number, door, root, stopped, edges: vec![] })
}

fn add_edge(word: u32, nodes: &mut [Node]) -> Result<(), Refusal> {
    let edge = (bits(word, 27, 16), bits(word, 15, 0));
    let node = nodes.last_mut().map_or_else(|| refuse(5, "edge before any node"), Ok)?;
    if node.edges.last().map_or(false, |last| *last >= edge) {
        return refuse(6, "edges");
    }
    node.edges.push(edge);
    Ok(())
}

pub fn read_part(bytes: &[u8]) -> Result<Part, Refusal> {
    read_part_within(bytes, FILE_LIMIT)
}

/// A part of at most so many words.
fn read_part_within(bytes: &[u8], limit: usize) -> Result<Part, Refusal> {
    let (header, words) = single_file(bytes, limit, PART)?;
    let mut nodes = vec![];
    for word in words {
        match kind(word) {
            NODE => {
                let node = read_node(word, &nodes)?;
                nodes.push(node);
            }
            EDGE => add_edge(word, &mut nodes)?,
            _ => return refuse(5, "neither node nor edge"),
        }
    }
    Ok(Part { site: header.site, nodes })
}

pub fn read_whole(bytes: &[u8]) -> Result<Part, Refusal> {
    read_whole_within(bytes, FILE_LIMIT)
}

/// A whole of at most so many words.
pub fn read_whole_within(bytes: &[u8], limit: usize) -> Result<Part, Refusal> {
    let part = read_part_within(bytes, limit)?;
    if part.root().is_none() {
        return refuse(7, "whole without root");
    }
    if !part.outside_targets().is_empty() {
        return refuse(8, "target not a node");
    }
    Ok(part)
}

/// Number 11 for the list, then for the asked site.
pub fn check_cuts(whole: &Part, cuts: &[u8], site: u32) -> Result<(), Refusal> {
    if cuts.len() != whole.nodes.len() {
        return refuse(11, "cut list length");
    }
    if cuts.iter().any(|byte| *byte > 15) {
        return refuse(11, "cut list byte");
    }
    if site > 15 {
        return refuse(11, "asked site");
    }
    Ok(())
}

/// The asked site's part: its doors are the root and the targets of links from other sites' nodes, stopped ones too.
pub fn cut_part(whole: &Part, cuts: &[u8], site: u32) -> Part {
    let sited = || whole.nodes.iter().zip(cuts.iter().map(|byte| u32::from(*byte)));
    let elsewhere = sited().filter(|(_, at)| *at != site);
    let crossed: BTreeSet<u32> =
        elsewhere.flat_map(|(node, _)| node.edges.iter().map(|edge| edge.1)).collect();
    let marked = sited().filter(|(_, at)| *at == site).map(|(node, _)| {
        let door = node.root || crossed.contains(&node.number);
        Node { door, ..node.clone() }
    });
    Part { site, nodes: marked.collect() }
}
