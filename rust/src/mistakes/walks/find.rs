//! Programs that go wrong about the walk that is given: where walks start, by which links they go on, which of them is found, and how it is
//! written.

use crate::evaluation::derivatives::Rests;
use crate::evaluation::part::Node;
use crate::evaluation::path::Expression;
use crate::evaluation::states::States;
use crate::evaluation::walks::*;
use crate::evaluation::words::*;
use crate::mistakes::lists::*;
use crate::mistakes::{Answer, Named};
use std::cell::RefCell;
use std::collections::{BTreeMap, BTreeSet};

/// The words of the links of a walk, if there is one.
pub type Found = Option<Vec<u32>>;

/// What a program does in another way.
pub enum Other {
    /// The nodes at which walks start.
    Starts(fn(&Sought) -> Vec<u32>),
    /// The words by which walks go on from a node, in the order in which they are tried.
    Onward(fn(&Sought, &Node) -> Vec<u32>),
    Found(fn(&Sought) -> Found),
}

use Other::*;

/// What is answered, by the walk that is found.
pub type Answered = fn(&Sought, Found) -> Answer;

/// Which walk is found.
pub const FIND: [Named<Other>; 20] = [
    (
        "a stopped root passed",
        Starts(|sought| sought.whole.root().map(|root| root.number).into_iter().collect()),
    ),
    (
        "a stopped node passed",
        Onward(|sought, node| {
            without(words_behind(node), |word| target_of(*word) == sought.node && !runs(sought, *word))
        }),
    ),
    (
        "a stopped node as the end",
        Onward(|sought, node| {
            without(words_behind(node), |word| target_of(*word) != sought.node && !runs(sought, *word))
        }),
    ),
    ("every door a start", Starts(|sought| running(sought, |node| node.door))),
    (
        "the least door the start",
        Starts(|sought| running(sought, |node| node.door).into_iter().take(1).collect()),
    ),
    ("the least node the start", Starts(|sought| running(sought, |_| true).into_iter().take(1).collect())),
    ("the higher word at the first difference", Onward(|sought, node| reversed(sought.onward(node)))),
    ("the lower target at the first difference", Onward(|sought, node| by(sought.onward(node), target_of))),
    ("the lower word at the last difference", Found(from_the_end)),
    ("a tie broken by the lower state", Found(|sought| by_states(sought, |states| states))),
    ("a tie broken by the higher state", Found(|sought| by_states(sought, reversed))),
    ("the lowest word wherever it leads on", Found(deep)),
    ("a node entered once", Found(entered_once)),
    ("labels not looked at", Found(by_any_labels)),
    ("labels that begin a word", Found(|sought| to_such(sought, |stand| stand.0 == sought.node))),
    ("one link of those with a label", Onward(|sought, node| first_of_each(sought.onward(node), label_of))),
    ("one link of those to a node", Onward(|sought, node| first_of_each(sought.onward(node), target_of))),
    (
        "links of a node to itself left out",
        Onward(|sought, node| without(sought.onward(node), |word| target_of(*word) == node.number)),
    ),
    ("the node cut to 16 bits", Found(|sought| lowest_walk(sought.whole, sought.path, sought.node & 0xffff))),
    (
        "the first accepted walk, wherever it ends",
        Found(|sought| to_such(sought, |stand| sought.rests.may_end(stand.1))),
    ),
];

/// What is answered by the walk that is right.
pub const ANSWERED: [Named<Answered>; 14] = [
    ("a walk of no links refused", |_, found| answered(found.filter(|links| !links.is_empty()))),
    ("a lone header for an unlisted node", |_, found| answered(Some(found.unwrap_or_default()))),
    ("15 for an unlisted node", |_, found| found.map_or((15, vec![]), |links| answered(Some(links)))),
    ("8 for a number that is no node", |sought, found| match sought.whole.node(sought.node) {
        Some(_) => answered(found),
        None => (8, vec![]),
    }),
    ("4,096 links given", |_, found| at_most(found, 4096)),
    ("4,095 links refused", |_, found| at_most(found, 4094)),
    ("links counted in the header", |_, found| written(found, |words| words[0] -= 1)),
    ("bytes counted in the header", |_, found| written(found, |words| words[0] *= 4)),
    ("a header of kind 1", |_, found| written(found, |words| words[0] |= PART << 28)),
    ("a header of kind F", |_, found| written(found, |words| words[0] |= FINAL << 28)),
    ("no header", |_, found| written(found, |words| *words = words[1..].to_vec())),
    ("targets for edge words", |_, found| written(found, |words| each(words, target_of))),
    ("labels for edge words", |_, found| written(found, |words| each(words, label_of))),
    ("from the node to the root", |_, found| written(found, |words| words[1..].reverse())),
];

impl Other {
    /// What the program that is right but for this answers.
    pub fn answer(&self, sought: &Sought) -> Answer {
        match self {
            Starts(starts) => answered(sought.first(starts(sought), |node| sought.onward(node))),
            Onward(onward) => answered(sought.first(sought.starts(), |node| onward(sought, node))),
            Found(found) => answered(found(sought)),
        }
    }
}

fn answered(found: Found) -> Answer {
    at_most(found, FILE_LIMIT - 1)
}

/// With so many links at most.
fn at_most(found: Found, most: usize) -> Answer {
    match found {
        None => (20, vec![]),
        Some(links) if links.len() > most => (15, vec![]),
        Some(links) => (0, walk_file(&links)),
    }
}

/// With other words.
fn written(found: Found, other: fn(&mut Vec<u32>)) -> Answer {
    let (number, mut words) = answered(found);
    if number == 0 {
        other(&mut words);
    }
    (number, words)
}

/// Other words behind the header.
fn each(words: &mut [u32], other: fn(u32) -> u32) {
    words.iter_mut().skip(1).for_each(|word| *word = other(*word));
}

fn runs(sought: &Sought, word: u32) -> bool {
    sought.is_running(target_of(word))
}

fn running(sought: &Sought, picked: fn(&Node) -> bool) -> Vec<u32> {
    let nodes = sought.whole.nodes.iter().filter(|node| picked(node) && !node.stopped);
    nodes.map(|node| node.number).collect()
}

fn starts(sought: &Sought) -> Vec<Stand> {
    sought.starts().into_iter().map(|start| (start, 0)).collect()
}

fn led(sought: &Sought, stand: Stand) -> Vec<(u32, Stand)> {
    sought.led(stand, |node| sought.onward(node))
}

/// Over nodes and states, each pair entered once: the links of each state are tried in the order of the states that they lead to.
fn by_states(sought: &Sought, order: fn(Vec<usize>) -> Vec<usize>) -> Found {
    let (path, states) = (sought.path, States::of(sought.path));
    let steps = |q: usize, word: u32, p: usize| states.after(path, q, label_of(word)).any(|to| to == p);
    first_walk(
        starts(sought),
        |(number, q)| {
            let words = sought.whole.node(*number).map_or(vec![], |node| sought.onward(node));
            let to = |p: usize| {
                let words = words.iter().copied().filter(move |word| steps(*q, *word, p));
                words.map(move |word| (word, (target_of(word), p))).collect::<Vec<_>>()
            };
            order((1..=path.n()).collect()).into_iter().flat_map(to).collect()
        },
        |(number, q)| *number == sought.node && states.accepts[*q],
    )
}

/// The words of an expression, each from its end.
fn turned(expression: &Expression) -> Expression {
    let of = |inner: &Expression| Box::new(turned(inner));
    match expression {
        Expression::Then(first, second) => Expression::Then(of(second), of(first)),
        Expression::Or(first, second) => Expression::Or(of(first), of(second)),
        Expression::Star(inner) => Expression::Star(of(inner)),
        other => other.clone(),
    }
}

/// From the node back to the root: so walks are compared from their ends.
fn from_the_end(sought: &Sought) -> Found {
    let path = sought.path.with(&turned(&sought.path.expression));
    let (rests, starts) = (Rests::of(&path), sought.starts());
    let mut back: BTreeMap<u32, BTreeSet<(u32, u32)>> = BTreeMap::new();
    for node in sought.whole.nodes.iter().filter(|node| !node.stopped) {
        let into = words_behind(node).into_iter().map(|word| (target_of(word), (word, node.number)));
        into.for_each(|(target, link)| back.entry(target).or_default().extend([link]));
    }
    let step = |rest: usize, (word, source): &(u32, u32)| {
        rests.after(rest, label_of(*word)).map(|left| (*word, (*source, left)))
    };
    let links = first_walk(
        Some((sought.node, 0)).filter(|_| sought.is_running(sought.node)).into_iter().collect(),
        |(number, rest)| {
            back.get(number).into_iter().flatten().filter_map(|link| step(*rest, link)).collect()
        },
        |(number, rest)| starts.contains(number) && rests.may_end(*rest),
    );
    links.map(reversed)
}

/// By a stack: as far as it leads on.
fn deep(sought: &Sought) -> Found {
    let mut seen = BTreeSet::new();
    let mut waiting: Vec<(Vec<u32>, Stand)> =
        starts(sought).into_iter().map(|start| (vec![], start)).collect();
    while let Some((links, stand)) = waiting.pop() {
        if stand.0 == sought.node && sought.rests.may_end(stand.1) {
            return Some(links);
        }
        if seen.insert(stand) {
            let longer = |word: u32| [&links[..], &[word]].concat();
            waiting.extend(reversed(led(sought, stand)).into_iter().map(|(word, next)| (longer(word), next)));
        }
    }
    None
}

/// With what is left of the path where a node is come to first.
fn entered_once(sought: &Sought) -> Found {
    let entered: RefCell<BTreeSet<u32>> = RefCell::new(sought.starts().into_iter().collect());
    first_walk(
        starts(sought),
        |stand| without(led(sought, *stand), |(_, next)| !entered.borrow_mut().insert(next.0)),
        |(number, rest)| *number == sought.node && sought.rests.may_end(*rest),
    )
}

fn by_any_labels(sought: &Sought) -> Found {
    let onward = |number: &u32| sought.whole.node(*number).map_or(vec![], |node| sought.onward(node));
    first_walk(
        sought.starts(),
        |number| onward(number).into_iter().map(|word| (word, target_of(word))).collect(),
        |number| *number == sought.node,
    )
}

/// To an end of another sort.
fn to_such(sought: &Sought, is_end: impl Fn(&Stand) -> bool) -> Found {
    first_walk(starts(sought), |stand| led(sought, *stand), is_end)
}
