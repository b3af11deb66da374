//! Parts and call lists. Without an outside target a part with its root is a whole.
use super::Draws;
use crate::words::*;

/// Which nodes are doors.
#[derive(Clone, Copy)]
pub enum Doors {
    Root,
    First(u32),
    All,
}

fn node_word(x: u32, first: bool, doors: Doors) -> u32 {
    let door = match doors {
        Doors::Root => first,
        Doors::First(n) => x < n,
        Doors::All => true,
    };
    NODE | x | if door { DOOR } else { 0 } | if first { DOOR | ROOT } else { 0 }
}

fn seal(mut ws: Vec<u32>) -> Vec<u32> {
    ws[0] = header(1, 0, 0) | ws.len() as u32;
    ws
}

/// The part with every eighth node stopped, from the eighth on: the first, which may be the root, runs.
pub fn stopped(mut part: Vec<u32>) -> Vec<u32> {
    part[1..].iter_mut().filter(|w| kind(**w) == 2).skip(7).step_by(8).for_each(|w| *w |= STOPPED);
    part
}

pub fn nodes(part: &[u32]) -> Vec<u32> {
    part[1..].iter().filter(|&&w| kind(w) == 2).map(|&w| node(w)).collect()
}

/// Nodes with so many random links each.
pub fn random(size: usize, links: usize, doors: Doors) -> Vec<u32> {
    let (nodes, mut draws) = (((size - 1) / (links + 1)) as u32, Draws(size as u32));
    let mut ws = vec![0];
    for x in 0..nodes {
        ws.push(node_word(x, x == 0, doors));
        let mut edges: Vec<u32> = (0..links).map(|_| edge(draws.below(4096), draws.below(nodes))).collect();
        edges.sort_unstable();
        edges.dedup();
        ws.extend(edges);
    }
    seal(ws)
}

/// As many nodes as each has links.
pub fn dense(size: usize, doors: Doors) -> Vec<u32> {
    let links = (1..size).take_while(|k| k * (k + 1) < size).last().unwrap_or(1);
    random(size, links, doors)
}

pub fn chain(size: usize, doors: Doors) -> Vec<u32> {
    let nodes = ((size - 1) / 2) as u32;
    let mut ws = vec![0];
    for x in 0..nodes {
        ws.extend([node_word(x, x == 0, doors), edge(x % 4096, (x + 1) % nodes)]);
    }
    seal(ws)
}

/// Nodes without links, with even numbers.
pub fn bare(size: usize, doors: Doors) -> Vec<u32> {
    let mut ws = vec![0];
    ws.extend((0..size as u32 - 1).map(|x| node_word(2 * x, x == 0, doors)));
    seal(ws)
}

/// One node whose links all leave the part, to lower and lower targets, by labels that `paths::last_label` does not read.
pub fn outward(size: usize) -> Vec<u32> {
    let mut ws = vec![0, node_word(0, true, Doors::Root)];
    ws.extend((0..size as u32 - 2).map(|k| edge(k, 60_000 - k)));
    seal(ws)
}

/// As many doors as a reply of that size holds with a row of one reach word each, each with a link 0 of its own out of the part; the other
/// nodes have no links.
pub fn doorways(size: usize) -> Vec<u32> {
    doorways_of(size, (size as u32 - 1) / 3)
}

/// The same with so many doors.
pub fn doorways_of(size: usize, doors: u32) -> Vec<u32> {
    let mut ws = vec![0];
    ws.extend((0..doors).flat_map(|x| [node_word(x, x == 0, Doors::All), edge(0, 30_000 + x)]));
    ws.extend((doors..size as u32 - 1 - doors).map(|x| node_word(x, false, Doors::Root)));
    seal(ws)
}

/// With `paths::one_by_one`: a chain of links 150 whose last node has a link 1 to a hall; the hall's links 201 to 214 lead to fourteen
/// porters, the k-th entered in the states of p_k to p_14, and each porter's link 150 leads back to the first node. The last porter is taken
/// off the stack first, so the chain is gone through in one state after another.
fn ring(size: usize, doors: Doors, leave: &[u32]) -> Vec<u32> {
    let m = ((size - 44 - leave.len()) / 2) as u32;
    let mut ws = vec![0];
    for x in 0..m {
        let link = if x + 1 < m { edge(150, x + 1) } else { edge(1, m) };
        ws.extend([node_word(x, x == 0, doors), link]);
    }
    ws.push(node_word(m, false, doors));
    ws.extend_from_slice(leave);
    ws.extend((1..=14).map(|k| edge(200 + k, m + k)));
    for k in 1..=14 {
        ws.extend([node_word(m + k, false, doors), edge(150, 0)]);
    }
    seal(ws)
}

pub fn one_by_one(size: usize, doors: Doors) -> Vec<u32> {
    ring(size, doors, &[])
}

/// The same with one link out of the hall: each door then has a row for each state but 0, of one reach word, and there are as many doors as
/// a reply of that size holds.
pub fn leaving(size: usize) -> Vec<u32> {
    ring(size, Doors::First((size as u32 - 1) / 31), &[edge(1, 60_000)])
}

/// A whole of nodes 0, 1, .., of which 0 is the root, with these edge words each.
pub fn whole(edges: impl Iterator<Item = Vec<u32>>) -> Vec<u32> {
    let mut ws = vec![0];
    for (x, edges) in (0..).zip(edges) {
        ws.push(node_word(x, x == 0, Doors::Root));
        ws.extend(edges);
    }
    seal(ws)
}

/// Document 01's whole.
pub fn whole_01() -> Vec<u32> {
    seal(vec![0, NODE | DOOR | ROOT | 1, edge(5, 2), NODE | 2, edge(6, 3), NODE | 3, edge(5, 2)])
}

/// Document 01's part of site 0.
pub fn document_01() -> Vec<u32> {
    seal(vec![0, NODE | DOOR | ROOT | 1, edge(5, 2), NODE | DOOR | 3, edge(5, 2)])
}

/// A call list of about `size` words: so many nodes as fit, each in states 0 to 3.
pub fn calls(nodes: &[u32], labels: u32, size: usize) -> Vec<u32> {
    let mut ws = vec![0];
    ws.extend(nodes.iter().flat_map(|x| (0..4).map(move |q| CALL | x << 4 | q)).take(size - 1));
    ws[0] = header(11, 0, labels) | ws.len() as u32;
    ws
}

pub fn call_of(x: u32, q: u32) -> Vec<u32> {
    vec![header(11, 0, 15) | 2, CALL | x << 4 | q]
}
