//! Bytes to be checked as walks: walks of other makers, longer than need be and not the lowest, such with one thing wrong, and any others.

use super::damage::set_length;
use super::path::{or_of, range};
use super::walks::{asked, damaged, Asked};
use crate::beside::Call;
use crate::evaluation::groups::OURS;
use crate::evaluation::part::{edge_word, Node, Part};
use crate::evaluation::walks::*;
use crate::evaluation::words::*;
use crate::mistakes::Named;
use crate::random::Random;
use std::collections::BTreeSet;

/// The words of links, and the node that they are said to lead to.
pub type Links = (Vec<u32>, u32);

/// Bytes, and the node that they are said to lead to.
pub type Bytes = (Vec<u8>, u32);

/// Makes such bytes where it can.
pub type Maker = fn(&mut Random, &Sought) -> Option<Bytes>;

/// How a walk that is drawn may go on from a place.
type Led<'a> = &'a dyn Fn(&mut Random, Stand) -> Vec<(u32, Stand)>;

/// A walk from some node on, drawn link by link as it is led, and cut off at one of the places where the path accepts it.
fn drawn(random: &mut Random, sought: &Sought, start: u32, led: Led) -> Option<Links> {
    let most = random.pick(&[1, 4, 12, 12, 40]);
    let mut places: Vec<(u32, Stand)> = vec![(0, (start, 0))];
    while places.len() <= most {
        let next = led(random, places[places.len() - 1].1);
        match random.some(&next) {
            Some(next) => places.push(next),
            None => break,
        }
    }
    let ends: Vec<usize> = (0..places.len()).filter(|at| sought.rests.may_end(places[*at].1 .1)).collect();
    let end = random.some(&ends)?;
    Some((places[1..=end].iter().map(|(word, _)| *word).collect(), places[end].1 .0))
}

/// From a node on by running nodes, as the path has it.
fn drawn_from(random: &mut Random, sought: &Sought, start: u32) -> Option<Links> {
    drawn(random, sought, start, &|_, stand| sought.led(stand, |node| sought.onward(node)))
}

/// How the path goes on by a label that the whole has, or by one next to it.
fn some_rest(random: &mut Random, sought: &Sought, rest: usize) -> Option<usize> {
    let edges = sought.whole.nodes.iter().flat_map(|node| &node.edges);
    let labels: BTreeSet<u32> = edges.flat_map(|edge| [edge.0.max(1) - 1, edge.0, edge.0 + 1]).collect();
    let rests: Vec<usize> = labels.into_iter().filter_map(|label| sought.rests.after(rest, label)).collect();
    random.some(&rests)
}

/// From the root, now and then by a link whatever its label, as if the path went on by it.
fn drawn_beside(random: &mut Random, sought: &Sought) -> Option<Links> {
    let start = sought.starts().pop()?;
    drawn(random, sought, start, &|random, (number, rest)| {
        let left = some_rest(random, sought, rest).filter(|_| random.chance(40));
        let words = sought.whole.node(number).map_or(vec![], |node| sought.onward(node));
        match left {
            Some(left) => words.into_iter().map(|word| (word, (target_of(word), left))).collect(),
            None => sought.led((number, rest), |node| sought.onward(node)),
        }
    })
}

/// A walk from the root that the path accepts, mostly not the one that is given.
fn another(random: &mut Random, sought: &Sought) -> Option<Links> {
    let start = sought.starts().pop()?;
    drawn_from(random, sought, start)
}

/// The walk that is given, or another.
fn right(random: &mut Random, sought: &Sought) -> Option<Links> {
    let given = || lowest_walk(sought.whole, sought.path, sought.node).map(|links| (links, sought.node));
    match random.chance(50) {
        true => given(),
        false => another(random, sought),
    }
}

/// A walk from the root with as many links as a right one, or a few, whatever the path.
fn by_any_labels(random: &mut Random, sought: &Sought) -> Option<Links> {
    let (mut links, mut node) = (vec![], sought.starts().pop()?);
    let count = right(random, sought).map_or(random.below(4), |(links, _)| links.len().min(12));
    for _ in 0..count {
        let word = random.some(&sought.whole.node(node).map_or(vec![], |node| sought.onward(node)));
        links.extend(word);
        node = word.map_or(node, target_of);
    }
    Some((links, node))
}

fn written((links, node): Links) -> Bytes {
    (bytes_of(&walk_file(&links)), node)
}

/// A right walk with other links.
fn with_links(
    random: &mut Random,
    sought: &Sought,
    change: impl Fn(&mut Random, &mut Vec<u32>) -> Option<()>,
) -> Option<Bytes> {
    let (mut links, node) = right(random, sought)?;
    change(random, &mut links)?;
    Some(written((links, node)))
}

/// A right walk with other words, header included.
fn with_words(
    random: &mut Random,
    sought: &Sought,
    change: impl Fn(&mut Random, &mut Vec<u32>),
) -> Option<Bytes> {
    let (links, node) = right(random, sought)?;
    let mut words = walk_file(&links);
    change(random, &mut words);
    Some((bytes_of(&words), node))
}

/// The place of some link, if there are any.
fn some_place(random: &mut Random, links: &[u32]) -> Option<usize> {
    (!links.is_empty()).then(|| random.below(links.len()))
}

/// An edge word of the whole.
fn some_edge(random: &mut Random, sought: &Sought) -> Option<u32> {
    let all: Vec<u32> = sought.whole.nodes.iter().flat_map(words_behind).collect();
    random.some(&all)
}

/// An edge word that leads to the same node, mostly of another node.
fn to_the_same(random: &mut Random, sought: &Sought, word: u32) -> u32 {
    let all = sought.whole.nodes.iter().flat_map(words_behind);
    let same: Vec<u32> = all.filter(|other| target_of(*other) == target_of(word) && *other != word).collect();
    random.some(&same).unwrap_or_else(|| word ^ 1 << random.between(16, 27))
}

/// Makers, by what is right or wrong with their bytes.
pub const MAKERS: [Named<Maker>; 23] = [
    ("the walk that is given", |_, sought| {
        Some(written((lowest_walk(sought.whole, sought.path, sought.node)?, sought.node)))
    }),
    ("another walk", |random, sought| another(random, sought).map(written)),
    ("a word replaced", |random, sought| {
        with_links(random, sought, |random, links| {
            let at = some_place(random, links)?;
            links[at] = some_edge(random, sought)?;
            Some(())
        })
    }),
    ("an edge of another node", |random, sought| {
        with_links(random, sought, |random, links| {
            let at = some_place(random, links)?;
            links[at] = to_the_same(random, sought, links[at]);
            Some(())
        })
    }),
    ("another label between the same nodes", |random, sought| {
        with_links(random, sought, |random, links| {
            let at = some_place(random, links)?;
            let start = sought.starts().pop()?;
            let node = sought.whole.node(if at == 0 { start } else { target_of(links[at - 1]) })?;
            let other = |word: &u32| *word != links[at] && target_of(*word) == target_of(links[at]);
            let same = words_behind(node).into_iter().filter(other);
            links[at] = random.some(&same.collect::<Vec<_>>())?;
            Some(())
        })
    }),
    ("a bit of a word changed", |random, sought| {
        with_links(random, sought, |random, links| {
            let at = some_place(random, links)?;
            links[at] ^= 1 << random.below(32).max(random.below(32));
            Some(())
        })
    }),
    ("a word dropped", |random, sought| {
        with_links(random, sought, |random, links| {
            let at = some_place(random, links)?;
            links.remove(at);
            Some(())
        })
    }),
    ("a word added", |random, sought| {
        with_links(random, sought, |random, links| {
            let (at, edge) = (random.between(0, links.len()), some_edge(random, sought)?);
            let again = links.get(at).copied().unwrap_or(edge);
            links.insert(at, random.pick(&[edge, again]));
            Some(())
        })
    }),
    ("two words exchanged", |random, sought| {
        with_links(random, sought, |random, links| {
            let (at, other) = (some_place(random, links)?, some_place(random, links)?);
            links.swap(at, other);
            Some(())
        })
    }),
    ("another length in the header", |random, sought| {
        with_words(random, sought, |random, words| {
            let length = words.len();
            set_length(words, random.pick(&[length - 1, length + 1, 0, 4 * length, length ^ 1 << 13]));
        })
    }),
    ("a bit more in the header", |random, sought| {
        with_words(random, sought, |random, words| words[0] |= 1 << random.between(14, 31))
    }),
    ("no header", |random, sought| with_words(random, sought, |_, words| *words = words[1..].to_vec())),
    ("the last word cut off", |random, sought| {
        with_words(random, sought, |_, words| words.truncate(words.len() - 1))
    }),
    ("more words than the header says", |random, sought| {
        let edge = some_edge(random, sought)?;
        with_words(random, sought, |random, words| {
            let again = words[words.len() - 1];
            words.extend(vec![random.pick(&[edge, again, 0]); random.between(1, 3)]);
        })
    }),
    ("bytes not in fours", |random, sought| {
        let (mut bytes, node) = right(random, sought).map(written)?;
        match random.chance(50) {
            true => bytes.truncate(bytes.len() - random.between(1, 3)),
            false => bytes.extend(vec![0; random.between(1, 3)]),
        }
        Some((bytes, node))
    }),
    ("asked of another node", |random, sought| {
        let (links, node) = right(random, sought)?;
        let (other, large) = (random.pick(&sought.whole.nodes).number, node | 1 << random.between(16, 31));
        Some(written((links, random.pick(&[other, other, large]))))
    }),
    ("from another door", |random, sought| {
        let others: Vec<u32> =
            sought.whole.doors().filter(|door| !door.root && !door.stopped).map(|door| door.number).collect();
        let start = random.some(&others)?;
        drawn_from(random, sought, start).map(written)
    }),
    ("through a stopped node", |random, sought| {
        let root = sought.whole.root()?;
        let stops = |links: &Links| links.0.iter().any(|word| !sought.is_running(target_of(*word)));
        let led = |_: &mut Random, stand| sought.led(stand, words_behind);
        (0..8).find_map(|_| drawn(random, sought, root.number, &led).filter(stops)).map(written)
    }),
    ("a link whatever its label", |random, sought| drawn_beside(random, sought).map(written)),
    ("by any labels", |random, sought| Some(written(by_any_labels(random, sought)?))),
    ("no links", |_, sought| Some((bytes_of(&walk_file(&[])), sought.node))),
    ("no bytes", |_, sought| Some((vec![], sought.node))),
    ("any bytes", |random, sought| {
        let mut bytes = vec![0; random.below(40)];
        random.fill(&mut bytes);
        Some((bytes, sought.node))
    }),
];

/// Bytes of some maker, by its name.
pub fn made(random: &mut Random, asked: &Asked) -> (&'static str, Bytes) {
    let path = asked.read_path();
    let sought = Sought::new(&asked.whole, &path, asked.node);
    loop {
        let (name, maker) = random.pick(&MAKERS);
        if let Some(bytes) = maker(random, &sought) {
            return (name, bytes);
        }
    }
}

/// Loops of the root, and so many links over them, which any path over these labels accepts.
pub fn looped(random: &mut Random, links: usize) -> (Asked, Vec<u32>) {
    let number = random.below(65_536) as u32;
    let edges: Vec<(u32, u32)> = (0..random.between(1, 3) as u32).map(|label| (5 * label, number)).collect();
    let words: Vec<u32> = (0..links).map(|_| edge_word(random.pick(&edges))).collect();
    let whole = Part { site: 0, nodes: vec![Node { number, door: true, root: true, stopped: false, edges }] };
    let path = or_of(range(0, random.between(10, 4095) as u32), random.between(1, 3), true);
    (Asked { whole, groups: None, path, node: number }, words)
}

/// The call that checks bytes of some maker, with some of its other inputs damaged; now and then of about as many words as a walk may have.
pub fn check_walk(random: &mut Random, with_groups: bool) -> Call {
    if random.below(1000) < 7 {
        let links = random.between(4094, 4097);
        let (asked, links) = looped(random, links);
        let groups = with_groups.then_some(OURS);
        return Asked { groups, ..asked }.walk().checking(&bytes_of(&walk_file(&links)));
    }
    let asked = asked(random, with_groups);
    let (_, (bytes, node)) = made(random, &asked);
    damaged(random, &Asked { node, ..asked }).checking(&bytes)
}
