//! Random triple files, and wholes to be put into triples: numbers close together, so that repeats and shared ends are common, or anywhere in
//! their fields; around each line between accepted and refused ones; and damaged ones.

use super::damage::{damage_bytes, damaged};
use super::path::alphabet;
use super::plant::{any_plant, number_beside, some_plant, whole};
use crate::evaluation::plant::{Link, Plant};
use crate::evaluation::triples::TRIPLES_LIMIT;
use crate::evaluation::words::*;
use crate::random::Random;
use std::collections::{BTreeMap, BTreeSet};

/// The triples of a file, at most.
pub const MOST_TRIPLES: usize = TRIPLES_LIMIT / 3;

/// A root, and links in the order in which they are handed in, with repeats.
pub type Triples = (u32, Vec<Link>);

/// The words of a triple file.
pub fn words_of_triples((root, links): &Triples) -> Vec<u32> {
    let links = links.iter().flat_map(|link| [link.0, link.1, link.2]);
    std::iter::once(*root).chain(links).collect()
}

/// The links with some of them again, as far as a file has room, in any order.
pub fn repeated(random: &mut Random, links: &[Link]) -> Vec<Link> {
    let mut handed = links.to_vec();
    let more = links.len() * random.pick(&[0, 0, 10, 100, 300]) / 100;
    let room = MOST_TRIPLES.saturating_sub(links.len());
    handed.extend((0..more.min(room)).map(|_| random.pick(links)));
    random.shuffle(&mut handed);
    handed
}

/// Those of a plant; now and then with another root, which is no end.
fn of_plant(random: &mut Random) -> Triples {
    let alphabet = alphabet(random);
    let plant = some_plant(random, &alphabet);
    let (numbers, links): (Vec<u32>, Vec<Link>) =
        (plant.nodes.keys().copied().collect(), plant.links().into_iter().collect());
    let root = if random.chance(20) { number_beside(random, &numbers) } else { plant.root };
    (root, repeated(random, &links))
}

/// A few numbers from one on: at either end of a field of so many, or where a byte or a sign goes over.
fn few(random: &mut Random, field: u32) -> Vec<u32> {
    let count = random.between(1, 4) as u32;
    let first = random.pick(&[0, 254, field / 2 - 2, field - count]);
    (first..first + count).collect()
}

/// Few numbers and labels, so that repeats and shared ends are common; none at all now and then.
fn close(random: &mut Random) -> Triples {
    let (mut numbers, labels) = (few(random, 65_536), few(random, 4096));
    let root = random.pick(&numbers);
    if numbers.len() > 1 && random.chance(30) {
        numbers.retain(|number| *number != root);
    }
    let most = random.pick(&[0, 2, 6, 24]);
    let link = |_| (random.pick(&numbers), random.pick(&labels), random.pick(&numbers));
    (root, (0..most).map(link).collect())
}

/// Numbers and labels anywhere in their fields.
fn anywhere(random: &mut Random, count: usize) -> Triples {
    let field = |bits: u32| move |random: &mut Random| random.word() >> (32 - bits);
    let (number, label) = (field(16), field(12));
    let link = |_| (number(random), label(random), number(random));
    let links = (0..count).map(link).collect();
    (number(random), links)
}

/// A plant whose whole has just so many words, 4 at least, and this many nodes, as far as its links can end at all of them and a file has room
/// for these: a link of each node in turn, to the nodes that are left. Its root is one of them or is no end.
pub fn filling(random: &mut Random, words: usize, nodes: usize, apart: bool) -> Triples {
    let room = words - 1 - usize::from(apart);
    let nodes = nodes.clamp(room.saturating_sub(MOST_TRIPLES).max(1), 2 * room / 3);
    let links = room - nodes;
    let step = random.between(1, 65_534 / nodes);
    let number = |place: usize| (place % nodes * step + 1) as u32;
    let link = |at: usize| (number(at), (at / nodes) as u32, number(at + links));
    let all: Vec<Link> = (0..links).map(link).collect();
    let root = if apart { 0 } else { number(random.below(nodes)) };
    (root, repeated(random, &all))
}

/// At the limit of a whole, or within two words of it.
fn near_the_limit(random: &mut Random) -> Triples {
    let (words, any) = (random.pick(&[4095, 4096, 4096, 4097, 4097, 4098]), random.between(1, 2730));
    let (nodes, apart) = (random.pick(&[1, 2, 1365, 2047, 2730, any]), random.chance(20));
    filling(random, words, nodes, apart)
}

/// As many triples as a file has room for: repeats of fewer, or none.
fn longest(random: &mut Random) -> Triples {
    let (root, own) = match random.below(3) {
        0 => filling(random, 4096, 1, false),
        1 => close(random),
        _ => anywhere(random, MOST_TRIPLES),
    };
    let more = (own.len()..MOST_TRIPLES).map(|_| if own.is_empty() { (0, 0, 0) } else { random.pick(&own) });
    let mut links: Vec<Link> = own.iter().copied().chain(more).collect();
    random.shuffle(&mut links);
    (root, links)
}

/// Triples that a file has room for and whose words are within their fields.
pub fn triples(random: &mut Random) -> Triples {
    match random.below(100) {
        0..=39 => close(random),
        40..=69 => of_plant(random),
        70..=95 => {
            let count = random.below(30);
            anywhere(random, count)
        }
        96..=98 => near_the_limit(random),
        _ => longest(random),
    }
}

/// The words that a field of a triple file has, by their place.
fn field_at(place: usize) -> u32 {
    match place % 3 {
        2 => 4096,
        _ => 65_536,
    }
}

/// A word that is too large for its field: by one, by a bit, with a sign, or such that it is right if it is cut.
fn too_large(random: &mut Random, place: usize, own: u32) -> u32 {
    let field = field_at(place);
    let any = random.word() | field;
    random.pick(&[field, field, own | field, own | 0x1_0000, own | 0x8000_0000, u32::MAX, any])
}

/// A word too large, a word or two too many or too few; sometimes another of these beside it.
fn damage_words(random: &mut Random, words: &mut Vec<u32>) {
    for _ in 0..random.pick(&[1, 1, 1, 2]) {
        let at = random.below(words.len().max(1));
        match random.below(8) {
            0 => words.extend(vec![random.below(4096) as u32; random.between(1, 2)]),
            1 => words.truncate(words.len().saturating_sub(random.between(1, 2))),
            2 if words.len() > 1 => words[at] = field_at(at) - 1,
            _ if at < words.len() => words[at] = too_large(random, at, words[at]),
            _ => {}
        }
    }
}

/// A triple file, damaged or not.
pub fn triple_file(random: &mut Random) -> Vec<u8> {
    let mut words = words_of_triples(&triples(random));
    let sort = random.below(100);
    if sort >= 50 {
        damage_words(random, &mut words);
    }
    let mut bytes = bytes_of(&words);
    match sort {
        90..=93 => bytes.resize(4 * (TRIPLES_LIMIT + random.pick(&[0, 1, 3])), 0),
        94..=99 => damage_bytes(random, &mut bytes, TRIPLES_LIMIT),
        _ => {}
    }
    bytes
}

/// The plant that triples say.
pub fn planted((root, links): &Triples) -> Plant {
    let mut nodes: BTreeMap<u32, BTreeSet<(u32, u32)>> = BTreeMap::from([(*root, BTreeSet::new())]);
    for (source, label, target) in links {
        nodes.entry(*target).or_default();
        nodes.entry(*source).or_default().insert((*label, *target));
    }
    Plant { root: *root, nodes, stopped: BTreeSet::new() }
}

/// A plant that triples can say, as one whole: of any site, with any doors.
pub fn said(random: &mut Random) -> Vec<u32> {
    let triples = match random.below(50) {
        0 => {
            let nodes = random.between(1, 2730);
            filling(random, 4096, nodes, false)
        }
        1..=24 => close(random),
        _ => of_plant(random),
    };
    whole(random, &planted(&triples)).words()
}

/// The plant with a stopped node, or with a node more: without links, or with a loop alone.
fn with_unsaid(random: &mut Random, mut plant: Plant) -> Plant {
    let numbers: Vec<u32> = plant.nodes.keys().copied().collect();
    let (sort, beside) = (random.below(5), number_beside(random, &numbers));
    if sort < 2 {
        plant.stopped.insert(if random.chance(30) { plant.root } else { random.pick(&numbers) });
    } else {
        let own =
            if sort == 4 { BTreeSet::from([(random.below(4096) as u32, beside)]) } else { BTreeSet::new() };
        plant.nodes.insert(beside, own);
    }
    plant
}

/// A whole, with what triples cannot say or without, damaged or not.
pub fn whole_file(random: &mut Random) -> Vec<u8> {
    let words = match random.below(100) {
        0..=34 => said(random),
        35..=64 => {
            let triples = if random.chance(50) { close(random) } else { of_plant(random) };
            let plant = with_unsaid(random, planted(&triples));
            whole(random, &plant).words()
        }
        _ => {
            let alphabet = alphabet(random);
            let plant = any_plant(random, &alphabet);
            whole(random, &plant).words()
        }
    };
    match random.chance(40) {
        true => damaged(random, &words, FILE_LIMIT),
        false => bytes_of(&words),
    }
}
