//! Wholes in which a walk to a node is asked for, and walks for the checker.
use super::parts::{self, Doors};
use super::{paths, search, shape, Ask, Shape};
use crate::plain;
use crate::timing::{counted, WALK_BYTES};
use crate::walks::{walk_file, WALK_WORDS};
use crate::words::{bytes, edge, size, words};

/// The most links of a walk.
const MOST_LINKS: u32 = WALK_WORDS as u32 - 1;
/// The labels of a path.
const LABELS: u32 = 15;

fn to(node: u32, whole: Vec<u32>, path: Vec<u32>) -> Ask {
    Ask { node, ..search(whole, path) }
}

/// To the node that document 01 lists.
fn document_01() -> Ask {
    let [path, ..] = paths::document_01();
    to(2, parts::whole_01(), path)
}

/// The links of the walk that is asked for, none where there is no such walk.
fn links(ask: &Ask) -> Vec<u32> {
    let (mut out, mut work) = (vec![0; WALK_BYTES], vec![0; 32_768]);
    plain::walk(ask, &mut out, &mut work);
    let ws = words(&out);
    ws[..size(ws[0])].iter().skip(1).copied().collect()
}

/// To the node whose walk has the most links.
fn to_the_farthest(whole: Vec<u32>, path: Vec<u32>) -> Ask {
    let asks = parts::nodes(&whole).into_iter().map(|node| to(node, whole.clone(), path.clone()));
    asks.max_by_key(|ask| links(ask).len()).expect("a whole with a node")
}

/// The greatest number up to this that shares no factor with fifteen: round a ring of so many nodes a star of fifteen turns comes to each node in
/// each state.
fn coprime(most: usize) -> u32 {
    (1..=most as u32).rev().find(|n| n % 3 != 0 && n % 5 != 0).unwrap_or(1)
}

/// The nodes of a ring of about so many words.
fn around(size: usize) -> u32 {
    coprime((size - 1) / 2)
}

fn ring(nodes: u32) -> Vec<u32> {
    parts::chain(2 * nodes as usize + 1, Doors::Root)
}

/// To the farthest node that is at most so many links away: up to fifteen times round.
fn round_a_ring(size: usize, most: u32) -> Ask {
    let nodes = around(size);
    let links = most.min(LABELS * (nodes - 1));
    let number = if links > MOST_LINKS { 15 } else { 0 };
    Ask { number, ..to(links % nodes, ring(nodes), paths::turns()) }
}

/// Two rings of as many nodes that have the root in common, each gone round as often as the other. To the farthest node of the first.
fn round_two_rings(size: usize) -> Ask {
    let n = coprime(size / 4);
    let edges = |x: u32| match x {
        0 => vec![edge(0, 1), edge(0, n)],
        _ if x == n - 1 || x == 2 * n - 2 => vec![edge(0, 0)],
        _ => vec![edge(0, x + 1)],
    };
    to(LABELS * (n - 1) % n, parts::whole((0..2 * n - 1).map(edges)), paths::turns())
}

/// The root has a link to a hub, and this one to and from each of the other nodes. To the last of them: by 15 links a walk is at the hub, so it
/// takes 30.
fn by_a_hub(size: usize) -> Ask {
    let last = 1 + (size as u32 - 4) / 3;
    let edges = |x: u32| match x {
        0 => vec![edge(0, 1)],
        1 => (2..=last).map(|y| edge(0, y)).collect(),
        _ => vec![edge(0, 1)],
    };
    to(last, parts::whole((0..=last).map(edges)), paths::turns())
}

/// The root has a link to `first`, and a ring of sixteen nodes, 1 to 16, is gone round fifteen times. All other words are links from the last two
/// nodes to the nodes fourteen before them, with the lower labels: of all nodes and states each such link leads to one that is 14 links farther,
/// so it never helps, and it is handled in every state and looked at whenever the walk comes by.
fn links_back(size: usize, first: u32) -> Ask {
    let back = |x: u32| (size as u32 - 35 + x % 2) / 2;
    let edges = |x: u32| match x {
        0 => vec![edge(0, first)],
        15 | 16 => (0..back(x)).map(|k| edge(k, x - 14)).chain([edge(4095, x % 16 + 1)]).collect(),
        _ => vec![edge(0, x + 1)],
    };
    to(16, parts::whole((0..=16).map(edges)), paths::turns())
}

pub fn walk() -> Vec<Shape> {
    vec![
        shape("document 01's whole, at any size", |_| document_01()),
        shape("three random links", |n| to_the_farthest(parts::random(n, 3, Doors::Root), paths::half_ranges())),
        shape("three random links, fifteen turns", |n| to_the_farthest(parts::random(n, 3, Doors::Root), paths::turns())),
        shape("three random links, fifteen turns, every eighth stopped", |n| {
            to_the_farthest(parts::stopped(parts::random(n, 3, Doors::Root)), paths::turns())
        }),
        walk_of_groups(),
        shape("dense, fifteen turns", |n| to_the_farthest(parts::dense(n, Doors::Root), paths::turns())),
        shape("hub, fifteen turns", by_a_hub),
        shape("ring, fifteen turns", |n| round_a_ring(n, MOST_LINKS)),
        shape("ring, fifteen turns, at 1024 words over the limit (15)", |n| round_a_ring(n, u32::MAX)),
        shape("two rings side by side, fifteen turns", round_two_rings),
        shape("ring of sixteen with links back, fifteen turns", |n| links_back(n, 1)),
        shape("ring of sixteen with links back, fifteen turns, not listed (20)", |n| Ask { number: 20, ..links_back(n, 0) }),
    ]
}

pub fn walk_of_groups() -> Shape {
    shape("three random links, groups", |n| to_the_farthest(parts::random(n, 3, Doors::Root), paths::groups()))
}

fn checking(ask: Ask, links: &[u32]) -> Ask {
    Ask { walk: bytes(&walk_file(links)), number: counted(0, 1), ..ask }
}

fn as_found(ask: Ask) -> Ask {
    let links = links(&ask);
    checking(ask, &links)
}

/// The longest walk round a ring.
fn around_and_around(size: usize, path: Vec<u32>) -> Ask {
    let nodes = around(size);
    let links: Vec<u32> = (0..MOST_LINKS).map(|k| k % nodes).map(|x| edge(x, (x + 1) % nodes)).collect();
    checking(to(MOST_LINKS % nodes, ring(nodes), path), &links)
}

/// One node, and always its last link.
fn last_of_loops(size: usize) -> Ask {
    let loops: Vec<u32> = (0..size as u32 - 2).map(|k| edge(k, 0)).collect();
    let last = *loops.last().unwrap_or(&0);
    checking(to(0, parts::whole([loops].into_iter()), paths::full_ranges()), &[last; MOST_LINKS as usize])
}

/// To the last of many nodes, and always its loop.
fn last_of_nodes(size: usize, node: u32) -> Ask {
    let last = size as u32 - 4;
    let edges = |x: u32| if x == 0 || x == last { vec![edge(0, last)] } else { vec![] };
    checking(to(node, parts::whole((0..=last).map(edges)), paths::full_ranges()), &[edge(0, last); MOST_LINKS as usize])
}

pub fn check_walk() -> Vec<Shape> {
    vec![
        shape("document 01's whole, at any size", |_| as_found(document_01())),
        shape("three random links, fifteen turns: the walk as found", |n| {
            as_found(to_the_farthest(parts::random(n, 3, Doors::Root), paths::turns()))
        }),
        shape("ring: 4,095 links", |n| around_and_around(n, paths::full_ranges())),
        check_walk_of_groups(),
        shape("one node: 4,095 times its last link", last_of_loops),
        shape("many nodes: 4,095 links to the last", |n| last_of_nodes(n, n as u32 - 4)),
        shape("many nodes: 4,095 links to the last, another asked for (no)", |n| Ask { number: counted(0, 0), ..last_of_nodes(n, 0) }),
    ]
}

pub fn check_walk_of_groups() -> Shape {
    shape("ring, groups: 4,095 links", |n| around_and_around(n, paths::groups()))
}
