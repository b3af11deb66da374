//! Random visits: bundles of paths that are accepted, refused or some of each, and bundles that are refused as a whole.

use super::calls::{asked_at_once, dearly_asked, single, AskedAtOnce};
use super::damage::{damage_bytes, damage_path, mend, set_length};
use super::path::{some_path, EMPTY, STAR};
use super::plant::some_plant;
use crate::beside::Visit;
use crate::evaluation::part::Part;
use crate::evaluation::visit::VISIT_PATHS;
use crate::evaluation::words::*;
use crate::random::Random;

/// The empty word in a file of so many words: a path, if these are not too many.
pub fn stars(words: usize) -> Vec<u32> {
    file(PATH, 0, 0, &[vec![EMPTY], vec![STAR; words - 2]].concat())
}

/// The part, now and then without nodes, with all of them stopped, or without a root.
fn as_it_may_be(random: &mut Random, mut part: Part) -> Part {
    match random.below(16) {
        0 => part.nodes.clear(),
        1 => part.nodes.iter_mut().for_each(|node| node.stopped = true),
        2 => part.nodes.iter_mut().for_each(|node| node.root = false),
        _ => {}
    }
    part
}

/// Paths of which some have replies near the limit.
fn dearly_asked_at_once(random: &mut Random, grouped: bool) -> AskedAtOnce {
    let (part, groups, dear) = dearly_asked(random, grouped);
    let path = |random: &mut Random| match random.chance(60) {
        true => dear.clone(),
        false => some_path(random, &[0]),
    };
    let paths = (0..random.between(1, VISIT_PATHS)).map(|_| path(random)).collect();
    (part, groups, paths)
}

/// A file with the length that it says and refused mostly: too long for a path, with another header, or damaged behind it.
pub fn refused_file(random: &mut Random, path: &[u32]) -> Vec<u32> {
    let mut words = path.to_vec();
    match random.below(8) {
        0 => return stars(random.pick(&[65, 66, 300, 2000])),
        1 => words[0] = words[0] & 0x0fff_ffff | (random.below(16) as u32) << 28,
        2 => words[0] ^= 1 << random.between(14, 27),
        _ => damage_path(random, &mut words),
    }
    if words.is_empty() {
        return path.to_vec();
    }
    mend(&mut words);
    words
}

/// So many files, each with the length that it says: paths, and files that are refused.
pub fn mixed(random: &mut Random, grouped: bool, count: usize) -> AskedAtOnce {
    let refused = random.pick(&[0, 0, 40, 100]);
    let (part, groups, mut files) = asked_at_once(random, some_plant, grouped, count);
    for path in &mut files {
        if random.chance(refused) {
            *path = refused_file(random, path);
        }
    }
    if random.chance(10) {
        files[count - 1] = files[0].clone();
    }
    (as_it_may_be(random, part), groups, files)
}

/// An accepted part, groups if they are asked for, and a bundle that is not refused as a whole.
pub fn asked(random: &mut Random, grouped: bool) -> AskedAtOnce {
    if random.chance(4) {
        return dearly_asked_at_once(random, grouped);
    }
    let count = random.between(1, VISIT_PATHS);
    mixed(random, grouped, count)
}

/// Another file in the place of one, so that all have so many words.
fn fill_up(random: &mut Random, files: &mut [Vec<u32>], words: usize) {
    let at = random.below(files.len());
    let others = files.iter().map(Vec::len).sum::<usize>() - files[at].len();
    files[at] = stars(words - others);
}

/// Words that may be headers of short files, of any kind; now and then one says that its file has none.
pub fn some_headers(random: &mut Random) -> Vec<u32> {
    let longest = random.pick(&[2, 4, 8]);
    let header = |random: &mut Random| {
        let length = if random.chance(5) { 0 } else { random.between(1, longest) };
        random.word() & !0x3fff | length as u32
    };
    (0..random.between(1, 12)).map(|_| header(random)).collect()
}

/// One fault in the lengths of the files, or in how many there are, for a call that takes so many; or just as many words as a bundle may have.
fn damage_lengths(random: &mut Random, files: &mut Vec<Vec<u32>>, most: usize) {
    let at = random.below(files.len());
    let (own, left) = (files[at].len(), files[at..].iter().map(Vec::len).sum::<usize>());
    match random.below(9) {
        0 => set_length(&mut files[at], 0),
        1 => files.insert(at, vec![PATH << 28]),
        2 => set_length(&mut files[at], left + 1),
        3 => set_length(&mut files[at], random.pick(&[own - 1, own + 1, own + 4096, own + 8192])),
        4 => files.resize(most + random.pick(&[1, 1, 2, 4]), files[at].clone()),
        5 => *files = vec![some_headers(random)],
        _ => {
            let words = random.pick(&[BUNDLE_LIMIT, BUNDLE_LIMIT, BUNDLE_LIMIT + 1]);
            fill_up(random, files, words);
        }
    }
}

/// The files one after another, with a fault mostly.
fn damaged_paths(random: &mut Random, mut files: Vec<Vec<u32>>, most: usize) -> Vec<u8> {
    let by_size = random.chance(35);
    if !by_size {
        damage_lengths(random, &mut files, most);
    }
    let mut bytes = bytes_of(&files.concat());
    match random.below(4) {
        _ if !by_size => {}
        0 => bytes.clear(),
        1 => bytes.extend(vec![0x40; random.between(1, 3)]),
        _ => damage_bytes(random, &mut bytes, BUNDLE_LIMIT),
    }
    bytes
}

/// The visit with these files, one after another.
pub fn visit_of((part, groups, files): &AskedAtOnce) -> Visit {
    let (part, groups) = (bytes_of(&part.words()), groups.map(|groups| bytes_of(&groups)));
    Visit { part, groups, paths: bytes_of(&files.concat()) }
}

/// Any visit, with some of part, paths and groups damaged.
pub fn visit(random: &mut Random, grouped: bool) -> Visit {
    if random.chance(4) {
        return visit_of(&dearly_asked_at_once(random, grouped));
    }
    let count = random.between(1, VISIT_PATHS);
    damaged_visit(random, grouped, count, VISIT_PATHS)
}

/// Some of so many paths, part and groups damaged, or none, for a call that takes at most so many.
pub fn damaged_visit(random: &mut Random, grouped: bool, count: usize, most: usize) -> Visit {
    let (part, groups, files) = mixed(random, grouped, count);
    let damages = match random.below(10) {
        0..=4 => 0,
        5 | 6 => 1 << random.below(3),
        _ => random.below(8),
    };
    let part = single(random, &part.words(), FILE_LIMIT, damages & 1 != 0);
    let paths = match damages & 2 != 0 {
        true => damaged_paths(random, files, most),
        false => bytes_of(&files.concat()),
    };
    let groups = groups.map(|groups| single(random, &groups, GROUP_COUNT, damages & 4 != 0));
    Visit { part, groups, paths }
}
