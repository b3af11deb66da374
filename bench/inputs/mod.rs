//! Heavy inputs of each call, of about a given number of words or nodes, valid but for those that a number is named for.
mod bundles;
mod desks;
mod parts;
mod paths;
mod triples;
mod visits;
mod walks;

use crate::plain::{dear_part, dear_path};
use crate::words::{bytes, OURS};
pub use desks::{eight_replies, eight_replies_of_groups};
use parts::Doors;
use std::cell::Cell;
pub use triples::{from_triples, to_triples};
pub use visits::{four_replies, four_replies_of_groups};
pub use walks::{check_walk, check_walk_of_groups, walk, walk_of_groups};

/// What a call is asked: a part, a whole or a bundle, and whatever else the call takes.
#[derive(Clone, Default)]
pub struct Ask {
    pub file: Vec<u8>,
    /// Read by the grouped calls alone.
    pub groups: Vec<u8>,
    /// A path, or the bundle that a visit or desks hand in.
    pub path: Vec<u8>,
    /// The paths of that bundle, each by itself.
    pub paths: Vec<Vec<u8>>,
    pub cuts: Vec<u8>,
    pub site: u32,
    pub calls: Vec<u8>,
    /// Doors, outside targets and labels of the dearest files.
    pub counts: [u32; 3],
    /// Nodes, and edges of each, of the plant that is generated.
    pub plant: [u32; 2],
    /// The state that is lent for it. Each call goes on from where the one before left it, so that no two draw the same plant. With
    /// triple files, which of them is the next.
    pub state: Cell<u32>,
    /// Files of the same triples, of which each call takes the next: of one over and over the processor learns which triple is the lower.
    pub triples: Vec<Vec<u8>>,
    /// The node that a walk leads to.
    pub node: u32,
    /// What is handed to the checker as a walk.
    pub walk: Vec<u8>,
    /// What the call must answer: its number, or its numbers, one to a byte, and above it a count or a yes if it leaves one.
    pub number: u64,
}

impl Ask {
    pub fn next_triples(&self) -> &[u8] {
        let turn = self.state.get() as usize;
        self.state.set(((turn + 1) % self.triples.len()) as u32);
        &self.triples[turn]
    }
}

pub struct Shape {
    pub name: &'static str,
    pub make: fn(usize) -> Ask,
}

fn shape(name: &'static str, make: fn(usize) -> Ask) -> Shape {
    Shape { name, make }
}

/// Numbers drawn by document 02's step.
pub struct Draws(pub u32);

impl Draws {
    /// The upper 16 bits of the state, moved on.
    pub fn draw(&mut self) -> u32 {
        self.0 = self.0.wrapping_mul(1_664_525).wrapping_add(1_013_904_223);
        self.0 >> 16
    }

    pub fn below(&mut self, n: u32) -> u32 {
        self.draw() * n >> 16
    }
}

fn search(part: Vec<u32>, path: Vec<u32>) -> Ask {
    Ask { file: bytes(&part), groups: bytes(&OURS), path: bytes(&path), ..Ask::default() }
}

pub fn old_search() -> Vec<Shape> {
    vec![
        shape("three random links", |n| search(parts::random(n, 3, Doors::Root), paths::half_ranges())),
        shape("three random links, fifteen turns", |n| search(parts::random(n, 3, Doors::Root), paths::turns())),
        shape("states one by one", |n| search(parts::one_by_one(n, Doors::Root), paths::one_by_one())),
        shape("dense", |n| search(parts::dense(n, Doors::Root), paths::half_ranges())),
        shape("chain", |n| search(parts::chain(n, Doors::Root), paths::full_ranges())),
        shape("three random links, every eighth stopped", |n| {
            search(parts::stopped(parts::random(n, 3, Doors::Root)), paths::half_ranges())
        }),
        shape("three random links, labels outside ranges", |n| search(parts::random(n, 3, Doors::Root), paths::outside_halves())),
        shape("three random links, eight operands waiting", |n| {
            search(parts::random(n, 3, Doors::Root), paths::eight_waiting(paths::half_ranges()))
        }),
        old_search_of_groups(),
    ]
}

pub fn old_search_of_groups() -> Shape {
    shape("three random links, groups", |n| search(parts::random(n, 3, Doors::Root), paths::groups()))
}

fn cutting(whole: Vec<u32>, sites: u32) -> Ask {
    let (nodes, mut draws) = (parts::nodes(&whole).len(), Draws(7));
    let cuts = (0..nodes).map(|_| draws.below(sites) as u8).collect();
    Ask { file: bytes(&whole), cuts, site: 0, ..Ask::default() }
}

pub fn cut() -> Vec<Shape> {
    vec![
        shape("three random links, 16 sites", |n| cutting(parts::random(n, 3, Doors::Root), 16)),
        shape("three random links, 2 sites", |n| cutting(parts::random(n, 3, Doors::Root), 2)),
        shape("chain, 1 site", |n| cutting(parts::chain(n, Doors::Root), 1)),
        shape("no link, 2 sites", |n| cutting(parts::bare(n, Doors::Root), 2)),
        shape("three random links, 2 sites, every eighth stopped", |n| cutting(parts::stopped(parts::random(n, 3, Doors::Root)), 2)),
    ]
}

pub fn first_reply() -> Vec<Shape> {
    vec![
        shape("states one by one, all doors, nothing outside", |n| search(parts::one_by_one(n, Doors::All), paths::one_by_one())),
        shape("states one by one, one pair outside, 15 rows a door", |n| search(parts::leaving(n), paths::one_by_one())),
        shape("two random links, fifteen turns, all doors", |n| search(parts::random(n, 2, Doors::All), paths::turns())),
        shape("no link, all doors", |n| search(parts::bare(n, Doors::All), paths::full_ranges())),
        shape("one link outside a door, a row each", |n| search(parts::doorways(n), paths::any_label(0))),
        shape("one door, targets outside descending", |n| search(parts::outward(n), paths::last_label())),
        shape("two random links, fifteen turns, all doors, every eighth stopped", |n| {
            search(parts::stopped(parts::random(n, 2, Doors::All)), paths::turns())
        }),
        shape("one link outside a door, a row each, every eighth stopped", |n| {
            search(parts::stopped(parts::doorways(n)), paths::any_label(0))
        }),
        shape("two random links, all doors, labels outside ranges", |n| search(parts::random(n, 2, Doors::All), paths::outside_halves())),
        shape("two random links, fifteen turns, all doors, eight operands waiting", |n| {
            search(parts::random(n, 2, Doors::All), paths::eight_waiting(paths::turns()))
        }),
        shape("one link outside a door, all rows, over the limit (15)", |n| Ask {
            number: 15,
            ..search(parts::doorways(n), paths::full_ranges())
        }),
        first_reply_of_groups(),
        shape("the dearest files, one target, one label, a reply of so many words", |n| {
            search(dear_part((n as u32 - 1) / 5, 1), dear_path(1))
        }),
    ]
}

pub fn first_reply_of_groups() -> Shape {
    shape("two random links, all doors, groups", |n| search(parts::random(n, 2, Doors::All), paths::groups()))
}

pub fn call_list() -> Vec<Shape> {
    vec![
        shape("reach words to the last doors", |n| bundle(bundles::to_the_last(n))),
        shape("chain to the door before", |n| bundle(bundles::chain_back(n))),
        shape("pairs one by one", |n| bundle(bundles::pairs_back(n))),
        shape("16 files at random", |n| bundle(bundles::random(n, 0))),
        shape("one row to all doors", |n| bundle(bundles::all_at_once(n))),
        shape("16 files at random, idle links", |n| bundle(bundles::random(n, 6))),
        shape("chain back through 16 files by turns", |n| bundle(bundles::chain_by_turns(n, 1))),
        shape("chain back through 16 files by turns, ends nowhere (14)", |n| Ask { number: 14, ..bundle(bundles::chain_by_turns(n, 0)) }),
        shape("two doors by turns, state after state", |n| bundle(bundles::state_after_state(n))),
    ]
}

fn bundle(file: Vec<u32>) -> Ask {
    Ask { file: bytes(&file), ..Ask::default() }
}

fn called(part: Vec<u32>, path: Vec<u32>, calls: Vec<u32>) -> Ask {
    Ask { calls: bytes(&calls), ..search(part, path) }
}

fn all_called(part: Vec<u32>, path: Vec<u32>, size: usize) -> Ask {
    let calls = parts::calls(&parts::nodes(&part), 15, size);
    called(part, path, calls)
}

pub fn second_reply() -> Vec<Shape> {
    vec![
        shape("targets outside descending", |n| called(parts::outward(n), paths::last_label(), parts::calls(&[0], 15, n))),
        shape("three random links, all called", |n| all_called(parts::random(n, 3, Doors::All), paths::half_ranges(), n)),
        shape("states one by one", |n| called(parts::one_by_one(n, Doors::All), paths::one_by_one(), parts::call_of(0, 2))),
        shape("no link, calls elsewhere", |n| {
            let part = parts::bare(n, Doors::All);
            let odd: Vec<u32> = parts::nodes(&part).iter().map(|x| x + 1).collect();
            called(part, paths::full_ranges(), parts::calls(&odd, 15, n))
        }),
        shape("three random links, all called, every eighth stopped", |n| {
            all_called(parts::stopped(parts::random(n, 3, Doors::All)), paths::half_ranges(), n)
        }),
        shape("three random links, all called, labels outside ranges", |n| {
            all_called(parts::random(n, 3, Doors::All), paths::outside_halves(), n)
        }),
        shape("three random links, all called, eight operands waiting", |n| {
            all_called(parts::random(n, 3, Doors::All), paths::eight_waiting(paths::half_ranges()), n)
        }),
        second_reply_of_groups(),
    ]
}

pub fn second_reply_of_groups() -> Shape {
    shape("three random links, all called, groups", |n| all_called(parts::random(n, 3, Doors::All), paths::groups(), n))
}

pub fn join() -> Vec<Shape> {
    vec![
        shape("16 files by turns", |n| bundle(bundles::answers(n, 16, 1))),
        shape("16 files, far apart", |n| bundle(bundles::answers(n, 16, 8))),
        shape("two files", |n| bundle(bundles::answers(n, 2, 1))),
    ]
}

fn counting(doors: u32, targets: u32, labels: u32) -> Ask {
    Ask { counts: [doors, targets, labels], ..Ask::default() }
}

pub fn dearest() -> Vec<Shape> {
    vec![
        shape("as many doors as targets", |n| {
            let doors = (1..n as u32).take_while(|d| d * d < n as u32).last().unwrap_or(1);
            counting(doors, (n as u32 - 1) / doors - 1, 15)
        }),
        shape("one door", |n| counting(1, n as u32 - 2, 15)),
        shape("one target", |n| counting((n as u32 - 1) / 2, 1, 15)),
        shape("one door, one target, one label, at any size", |_| counting(1, 1, 1)),
        shape("a part of over 4,096 words (21)", |n| Ask { number: 21, ..counting(4096, n as u32, 15) }),
    ]
}

/// The least state from which the first two edges are equal, whichever of the sizes the node count is.
const EQUAL_EDGES: u32 = 2_189_437;

fn generating(nodes: u32, edges: u32) -> Ask {
    Ask { plant: [nodes, edges], state: Cell::new(EQUAL_EDGES), ..Ask::default() }
}

pub fn generate() -> Vec<Shape> {
    vec![
        shape("one edge a node", |n| generating(n as u32, 1)),
        shape("two edges a node", |n| generating(n as u32, 2)),
        shape("four edges a node", |n| generating(n as u32, 4)),
        shape("one node, one edge, at any size", |_| generating(1, 1)),
        shape("five edges a node (11)", |n| Ask { number: 11, ..generating(n as u32, 5) }),
    ]
}
