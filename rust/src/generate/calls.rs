//! Random calls: inputs that are accepted, and damaged ones.

use super::{bundle, damage, groups, makers, path, plant, question, walks};
use crate::beside::Call;
use crate::evaluation::dearest::longest_reply;
use crate::evaluation::groups::Groups;
use crate::evaluation::part::{Node, Part};
use crate::evaluation::plant::Plant;
use crate::evaluation::replies::first_reply_words;
use crate::evaluation::words::*;
use crate::evaluation::Room;
use crate::random::Random;

/// Which inputs of a call are damaged, lowest bit first: none, mostly one, or any.
pub fn damages(random: &mut Random, inputs: usize) -> u32 {
    match random.below(10) {
        0..=2 => 0,
        3..=7 => 1 << random.below(inputs),
        _ => random.below(1 << inputs) as u32,
    }
}

pub fn single(random: &mut Random, words: &[u32], limit: usize, damage: bool) -> Vec<u8> {
    match damage {
        true => damage::damaged(random, words, limit),
        false => bytes_of(words),
    }
}

fn old_search(random: &mut Random, grouped: bool) -> Call {
    let alphabet = path::alphabet(random);
    let plant = plant::any_plant(random, &alphabet);
    let whole = plant::whole(random, &plant).words();
    let path = path::some_path(random, &alphabet);
    let (groups, path) = groups::grouped(random, &alphabet, path, grouped);
    let damages = damages(random, 2 + usize::from(grouped));
    let whole = single(random, &whole, FILE_LIMIT, damages & 1 != 0);
    let path = single(random, &path, PATH_LIMIT, damages & 2 != 0);
    let groups = groups.map(|groups| single(random, &groups, GROUP_COUNT, damages & 4 != 0));
    Call::OldSearch { whole, groups, path }
}

fn damage_cuts(random: &mut Random, cuts: &mut Vec<u8>, site: &mut u32) {
    let at = random.below(cuts.len());
    match random.below(5) {
        0 => drop(cuts.remove(at)),
        1 => cuts.push(0),
        2 => cuts[at] = random.pick(&[16, 17, 255]),
        3 => *site = random.pick(&[16, 17, 0x0100_0000, u32::MAX]),
        _ => cuts.clear(),
    }
}

fn cut(random: &mut Random) -> Call {
    let alphabet = path::alphabet(random);
    let plant = plant::any_plant(random, &alphabet);
    let whole = plant::whole(random, &plant).words();
    let sites = random.between(1, 16);
    let mut cuts: Vec<u8> = plant.nodes.keys().map(|_| random.below(sites) as u8).collect();
    let mut site = random.below(sites) as u32;
    let damages = damages(random, 2);
    if damages & 2 != 0 {
        damage_cuts(random, &mut cuts, &mut site);
    }
    Call::Cut { whole: single(random, &whole, FILE_LIMIT, damages & 1 != 0), cuts, site }
}

/// A part, a path, and groups if they are asked for.
pub type Asked = (Part, Option<Groups>, Vec<u32>);

/// The same with any number of paths.
pub type AskedAtOnce = (Part, Option<Groups>, Vec<Vec<u32>>);

/// Makes a plant with links over an alphabet.
type Planting = fn(&mut Random, &[u32]) -> Plant;

/// A part of a random true cut of a plant, and a path and groups over the same labels.
pub fn asked(random: &mut Random, plant: Planting, grouped: bool) -> Asked {
    let (part, groups, paths) = asked_at_once(random, plant, grouped, 1);
    (part, groups, paths.concat())
}

/// The same with so many paths.
pub fn asked_at_once(random: &mut Random, plant: Planting, grouped: bool, count: usize) -> AskedAtOnce {
    let alphabet = path::alphabet(random);
    let plant = plant(random, &alphabet);
    let (sites, further) = (random.pick(&[1, 2, 2, 3, 4]), random.pick(&[0, 0, 0, 10, 100]));
    let parts = plant::true_cut(random, &plant, sites, further);
    let most = parts.iter().max_by_key(|part| part.nodes.len()).expect("a cut has parts");
    let part = if random.chance(70) { most.clone() } else { random.pick(&parts) };
    let paths = (0..count).map(|_| path::some_path(random, &alphabet)).collect();
    let (groups, paths) = groups::grouped_paths(random, &alphabet, paths, grouped);
    (part, groups, paths)
}

/// A door with links of label 0 to so many targets, the first of them `first`.
fn dear_door(number: u32, first: u32, targets: usize) -> Node {
    let edges = (first..).take(targets).map(|target| (0, target)).collect();
    Node { number, door: true, root: false, stopped: false, edges }
}

/// With how many targets so many such doors have a reply of at most so many words, for a star of an or of n words that hold 0.
fn targets_within(words: usize, doors: usize, n: usize) -> usize {
    (((words - 1) / doors - 1) / (n + 1) - 1) / n
}

/// Doors with links of label 0 to the same targets, and a star of an or of words that hold 0: a reply near its limit, if no door is stopped.
pub fn dearly_asked(random: &mut Random, grouped: bool) -> Asked {
    let (doors, n) = (random.between(1, 3), random.between(1, 15));
    let targets = (targets_within(FILE_LIMIT, doors, n) + random.below(2)).clamp(1, 4000 / doors);
    let node = |door: usize| Node {
        root: door == 1,
        stopped: random.chance(8),
        ..dear_door(8 * door as u32, 30, targets)
    };
    let part = Part { site: 9, nodes: (0..doors).map(node).collect() };
    let path = path::or_of(path::any_label(random, &[0]), n, true);
    let (groups, path) = groups::grouped(random, &[0], path, grouped);
    (part, groups, path)
}

/// A part and a path whose first reply has just so many words: doors as above, and, among them, doors without links for the words that are
/// left.
pub fn asked_for_words(random: &mut Random, words: usize) -> (Part, Vec<u32>) {
    let (doors, n) = (random.between(1, 3), random.between(1, 15));
    let targets = targets_within(words, doors, n).min(3000 / doors);
    let lone = words - longest_reply(doors, targets, n);
    let mut places: Vec<usize> =
        (0..doors + lone).map(|place| if place < doors { targets } else { 0 }).collect();
    random.shuffle(&mut places);
    let node = |(place, targets): (usize, usize)| dear_door(8 * place as u32, 50_000, targets);
    let nodes = places.into_iter().enumerate().map(node).collect();
    (Part { site: 9, nodes }, path::or_of(path::range(0, 4095), n, true))
}

/// A call for a first reply, with some of part, path and groups damaged.
pub fn first_reply_of(random: &mut Random, (part, groups, path): &Asked, damages: u32) -> Call {
    let part = single(random, &part.words(), FILE_LIMIT, damages & 1 != 0);
    let path = single(random, path, PATH_LIMIT, damages & 2 != 0);
    let groups = groups.map(|groups| single(random, &groups, GROUP_COUNT, damages & 4 != 0));
    Call::FirstReply { part, groups, path }
}

fn first_reply(random: &mut Random, grouped: bool) -> Call {
    let dear = random.chance(2);
    let asked = match dear {
        true => dearly_asked(random, grouped),
        false => asked(random, plant::some_plant, grouped),
    };
    let damages = if dear { 0 } else { damages(random, 2 + usize::from(grouped)) };
    first_reply_of(random, &asked, damages)
}

/// A call for a second reply, with some of part, path, call list and groups damaged.
pub fn second_reply_of(
    random: &mut Random,
    (part, groups, path): &Asked,
    calls: &[u32],
    damages: u32,
) -> Call {
    let part = single(random, &part.words(), FILE_LIMIT, damages & 1 != 0);
    let path = single(random, path, PATH_LIMIT, damages & 2 != 0);
    let calls = single(random, calls, FILE_LIMIT, damages & 4 != 0);
    let groups = groups.map(|groups| single(random, &groups, GROUP_COUNT, damages & 8 != 0));
    Call::SecondReply { part, groups, path, calls }
}

/// The n of a path.
pub fn n_of(path: &[u32]) -> usize {
    bits(path[0], 23, 20) as usize
}

fn second_reply(random: &mut Random, grouped: bool) -> Call {
    let asked = asked(random, plant::any_plant, grouped);
    let calls = bundle::call_list(random, &asked.0, n_of(&asked.2));
    let mut damages = damages(random, 3 + usize::from(grouped));
    if random.chance(30) {
        damages |= 4;
    }
    second_reply_of(random, &asked, &calls, damages)
}

/// The first replies that the sites of a random question owe.
fn honest_replies(random: &mut Random) -> Vec<Vec<u32>> {
    let question = question::small(random);
    let path = question.read_path();
    question.parts.iter().map(|part| first_reply_words(part, &path)).collect()
}

fn call_list(random: &mut Random) -> Call {
    let files = match random.below(100) {
        0..=3 => bundle::dear_replies(random),
        4..=8 => bundle::many_doors(random),
        9..=30 => honest_replies(random),
        _ => bundle::first_replies(random),
    };
    let bundle = match random.chance(25) || files.concat().len() > 4000 {
        true => bytes_of(&files.concat()),
        false => damage::damaged_bundle(random, &files),
    };
    Call::CallList { bundle }
}

fn join(random: &mut Random) -> Call {
    let files = bundle::second_replies(random);
    let bundle = match random.chance(25) {
        true => bytes_of(&files.concat()),
        false => damage::damaged_bundle(random, &files),
    };
    Call::Join { bundle }
}

/// A random call of this name.
pub fn call(random: &mut Random, name: &str) -> Call {
    let plain = name.strip_suffix(" grouped");
    let grouped = plain.is_some();
    match plain.unwrap_or(name) {
        "old search" => old_search(random, grouped),
        "cut" => cut(random),
        "first reply" => first_reply(random, grouped),
        "call list" => call_list(random),
        "second reply" => second_reply(random, grouped),
        "join" => join(random),
        "walk" => walks::walk(random, grouped),
        "check walk" => makers::check_walk(random, grouped),
        _ => panic!("no call {name}"),
    }
}

/// A length of a buffer around a bound, mostly this itself.
fn around(random: &mut Random, bound: usize) -> usize {
    match random.below(8) {
        0 => 0,
        1 => bound.saturating_sub(1),
        2 => random.below(bound.max(1)),
        3 => bound + random.between(1, 3),
        4 => bound + random.below(5000),
        _ => bound,
    }
}

/// Whether one of these buffers is shorter than the least one in its place.
pub fn is_short(lengths: &[usize], least: &[usize]) -> bool {
    lengths.iter().zip(least).any(|(length, least)| length < least)
}

/// The lengths of a call's buffers by the least ones: mostly these, else some around every bound.
pub fn rooms<const N: usize>(random: &mut Random, least: [usize; N]) -> [usize; N] {
    match random.chance(80) {
        true => least,
        false => least.map(|bound| around(random, bound)),
    }
}

/// Buffers for a call: mostly the least ones, else some around every bound.
pub fn room(random: &mut Random, call: &Call) -> Room {
    room_from(random, call.least_room())
}

/// The same by the least ones.
pub fn room_from(random: &mut Random, least: Room) -> Room {
    let [out, work] = rooms(random, [least.out, least.work]);
    Room { out, work }
}

/// Buffers for a call, or of any lengths up to somewhat more than it needs.
pub fn any_room(random: &mut Random, call: &Call) -> Room {
    match random.chance(70) {
        true => room(random, call),
        false => Room { out: random.below(40_000), work: random.below(40_000) },
    }
}
