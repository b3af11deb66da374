//! Damage to files, aimed so that every check is met.

use crate::evaluation::path::MOST_WAITING;
use crate::evaluation::words::*;
use crate::generate::path::{group, outside, range};
use crate::random::Random;

/// Writes a length into a file's header.
pub fn set_length(words: &mut [u32], length: usize) {
    if !words.is_empty() {
        words[0] = words[0] & !0x3fff | length as u32 & 0x3fff;
    }
}

/// The true one.
pub fn mend(words: &mut [u32]) {
    set_length(words, words.len());
}

fn header_damage(random: &mut Random, header: &mut u32) {
    let replace = |header: u32, high: u32, low: u32, value: u32| {
        let mask = (u32::MAX >> (31 - (high - low))) << low;
        header & !mask | value << low & mask
    };
    let length = bits(*header, 13, 0);
    *header = match random.below(6) {
        0 => replace(*header, 31, 28, random.below(16) as u32),
        1 => replace(*header, 27, 24, random.below(16) as u32),
        2 => replace(*header, 23, 20, random.below(16) as u32),
        3 => *header ^ 1 << random.between(14, 19),
        4 => replace(*header, 13, 0, random.pick(&[0, 1, 64, 4096, 4097, 8192, 16_383])),
        _ => replace(*header, 13, 0, random.pick(&[length + 1, length.wrapping_sub(1), length + 2])),
    };
}

/// A word of any kind with fields of its kind, mostly.
fn likely_word(random: &mut Random) -> u32 {
    let (node, state) = (random.below(12) as u32, random.below(16) as u32);
    let kind = random.below(16) as u32;
    let fields = match kind {
        NODE => node | (random.below(8) as u32 * 0x1_0000),
        EDGE => node | (random.below(4096) as u32 * 0x1_0000),
        LABEL if random.chance(50) => random.word(),
        LABEL => random.pick(&[node, node * 0x1001]) | (random.below(4) as u32) << 24,
        OPERATOR => node % 4,
        DOOR => node | (random.below(2) as u32 * 0x1_0000),
        ROW => state,
        REACH | CALL => node << 4 | state,
        ANSWER => node,
        _ => random.word(),
    };
    kind << 28 | fields & 0x0fff_ffff
}

/// A word with a field that its kind's checks look at changed.
fn kind_damage(random: &mut Random, word: u32) -> u32 {
    let (state, sort) = (random.below(16) as u32, random.below(16) as u32);
    match kind(word) {
        NODE => word & !(7 << 16) | random.pick(&[0, 2, 3, 6, 7]) << 16,
        DOOR => word ^ 1 << 16,
        LABEL if random.chance(40) => word & !(15 << 24) | random.pick(&[0, 1, 2, 3, sort]) << 24,
        LABEL if random.chance(50) => LABEL << 28 | 1 << 24 | 1 << random.between(0, 23),
        LABEL => LABEL << 28 | random.pick(&[0, 2]) << 24 | random.below(1 << 24) as u32,
        OPERATOR => OPERATOR << 28 | 1 << random.below(28),
        ROW | REACH | CALL => word & !15 | state,
        _ => word ^ 1 << random.below(28),
    }
}

/// A word of the same kind that may not follow this one, with a second fault mostly: which check comes first?
fn two_faults(random: &mut Random, word: u32) -> u32 {
    let node = if [REACH, CALL].contains(&kind(word)) { 16 } else { 1 };
    let lower = match word & 0xffff >= node {
        true => word - node,
        false => word,
    };
    match random.below(3) {
        0 => lower ^ (1 << random.between(16, 27)),
        1 => kind_damage(random, lower),
        _ => kind_damage(random, lower) | (random.below(2) as u32 * 15),
    }
}

/// One damage behind the header, or one that changes the number of words.
fn word_damage(random: &mut Random, words: &mut Vec<u32>) {
    let (at, other) = (random.below(words.len()), random.below(words.len()));
    match random.below(16) {
        0 => words[at] ^= 1 << random.below(32),
        1 => drop(words.remove(at)),
        2 => words.insert(at, words[at]),
        3 => words.swap(at, other),
        4 => words.insert(random.between(1, words.len()), likely_word(random)),
        5 => words[at] = words[at] & 0x0fff_ffff | (random.below(16) as u32) << 28,
        6 => words[at] = words[at].wrapping_add(random.pick(&[1, u32::MAX, 16, 0x1_0000, u32::MAX << 4])),
        7 => words[at] ^= 1 << random.between(16, 27),
        8 => words[at] = words[other],
        9 => words.insert(other, words[at]),
        10..=12 => words[at] = kind_damage(random, words[at]),
        13 => words.insert(at + 1, two_faults(random, words[at])),
        14 if at > 0 => words[at] = two_faults(random, words[at - 1]),
        _ => words[at] ^= random.pick(&[1 << 16, 3 << 16, 15, 1 << 4]),
    }
}

/// Damages one file. Mostly its length is mended, so that later checks are met.
pub fn damage_file(random: &mut Random, words: &mut Vec<u32>) {
    for _ in 0..random.pick(&[1, 1, 1, 2, 3]) {
        if words.is_empty() {
            return;
        }
        if random.chance(25) {
            header_damage(random, &mut words[0]);
        } else {
            word_damage(random, words);
            if random.chance(85) {
                mend(words);
            }
        }
    }
}

/// Other marks on a part's nodes, and now and then a word less: no root, a second one, one without door.
fn damage_marks(random: &mut Random, words: &mut Vec<u32>) {
    let (cleared, marked) = (random.chance(60), random.pick(&[2, 3, 3]));
    for word in words.iter_mut().filter(|word| kind(**word) == NODE) {
        if cleared {
            *word &= !(2 << 16);
        } else if random.chance(20) {
            *word |= marked << 16;
        }
    }
    if words.len() > 1 && random.chance(50) {
        words.remove(random.between(1, words.len() - 1));
        mend(words);
    }
}

/// More operands than may wait, or that are left at the end, another n, or another label word.
pub fn damage_path(random: &mut Random, words: &mut Vec<u32>) {
    match random.below(9) {
        0 => {
            let at = random.between(1, words.len());
            words.splice(at..at, vec![OPERATOR << 28; random.between(1, MOST_WAITING + 1)]);
        }
        1 => words.push(random.pick(&[OPERATOR << 28, LABEL << 28])),
        2 => words[0] ^= 1 << random.between(20, 23),
        3 => words.push(OPERATOR << 28 | random.between(1, 3) as u32),
        // one waits already, and all are taken up again, so that the number waiting is the only fault
        4 => {
            let count = random.between(MOST_WAITING - 1, MOST_WAITING);
            words.extend([vec![OPERATOR << 28; count], vec![OPERATOR << 28 | 1; count]].concat());
        }
        5 => {
            let labels: Vec<usize> = (1..words.len()).filter(|at| kind(words[*at]) == LABEL).collect();
            let at = if labels.is_empty() { 1 } else { random.pick(&labels) };
            words[at] = kind_damage(random, words[at]);
        }
        _ => return damage_file(random, words),
    }
    mend(words);
}

/// One group that may be wrong: of another kind or sort, or with other ends.
fn damage_groups(random: &mut Random, words: &mut [u32]) {
    let at = random.below(words.len());
    let (low, high) = (bits(words[at], 11, 0), bits(words[at], 23, 12));
    words[at] = match random.below(8) {
        0 => words[at] & 0x0fff_ffff | (random.below(16) as u32) << 28,
        1 => group(random.below(16) as u32),
        2 => outside(low, high),
        3 => words[at] | (random.between(1, 15) as u32) << 24,
        4 => range(high, low),
        5 => range(low, low.max(1) - 1),
        6 => words[at] ^ 1 << random.below(32),
        _ => random.word(),
    };
}

/// Bytes of a damaged size, or no file at all.
pub fn damage_bytes(random: &mut Random, bytes: &mut Vec<u8>, limit: usize) {
    let length = bytes.len();
    match random.below(8) {
        0 => bytes.clear(),
        1 => bytes.truncate(random.below(length + 1)),
        2 => bytes.truncate(length.saturating_sub(4 * random.between(1, 3))),
        3 => bytes.truncate(length.saturating_sub(random.between(1, 3))),
        4 => bytes.extend(vec![0; random.between(1, 3)]),
        5 => bytes.extend(bytes_of(&[random.word()])),
        6 => bytes.resize(4 * limit + random.pick(&[1, 4, 8]), 0),
        _ => random.fill(bytes),
    }
}

/// A single file, or the words of groups, damaged.
pub fn damaged(random: &mut Random, words: &[u32], limit: usize) -> Vec<u8> {
    let mut words = words.to_vec();
    let by_size = random.chance(if limit == GROUP_COUNT { 40 } else { 15 });
    if !by_size && limit == GROUP_COUNT {
        damage_groups(random, &mut words);
    } else if !by_size && limit == PATH_LIMIT {
        damage_path(random, &mut words);
    } else if !by_size && kind(words[0]) == PART && random.chance(20) {
        damage_marks(random, &mut words);
    } else if !by_size {
        damage_file(random, &mut words);
    }
    let mut bytes = bytes_of(&words);
    if by_size || random.chance(3) {
        damage_bytes(random, &mut bytes, limit);
    }
    bytes
}

/// Damage between the files of a bundle: sites, n, roots, and words that stand in two files or in none.
fn damage_between(random: &mut Random, files: &mut Vec<Vec<u32>>) {
    let (at, other) = (random.below(files.len()), random.below(files.len()));
    let word = random.below(files[at].len());
    match random.below(10) {
        0 => files.insert(at, files[other].clone()),
        1 => {
            let mut copy = files[other].clone();
            copy[0] = copy[0] & !0x0f00_0000 | (random.below(16) as u32) << 24;
            files.push(copy);
        }
        2 => drop(files.remove(at)),
        3 => files[at][0] ^= 1 << random.between(20, 27),
        4 => files[at][word] ^= 1 << 16,
        5 => files.swap(at, other),
        6 => {
            let moved = files[at][word];
            let place = random.between(1, files[other].len());
            files[other].insert(place, moved);
            mend(&mut files[other]);
        }
        7 => {
            let nodes: Vec<u32> = files.concat();
            files[at][word] = random.pick(&nodes);
        }
        8 => files[at][word] ^= random.pick(&[0x10, 0x20, 0x80, 0x800, 0x1, 0x3]),
        _ => {
            files[at].remove(word);
            mend(&mut files[at]);
        }
    }
}

/// The last words of rows, by file and place: each may name a higher node.
fn row_ends(files: &[Vec<u32>]) -> Vec<(usize, usize)> {
    let ends = |(at, words): (usize, &Vec<u32>)| {
        let end = |place: &usize| {
            let next = words.get(place + 1).map(|next| kind(*next));
            kind(words[*place]) == REACH && next != Some(REACH)
        };
        (1..words.len()).filter(end).map(|place| (at, place)).collect::<Vec<_>>()
    };
    files.iter().enumerate().flat_map(ends).collect()
}

/// A door less, with its rows: what calls it calls a node that is no door.
fn take_door(random: &mut Random, words: &mut Vec<u32>) {
    let doors: Vec<usize> = (1..words.len()).filter(|at| kind(words[*at]) == DOOR).collect();
    if doors.is_empty() {
        return;
    }
    let at = random.pick(&doors);
    let end = (at + 1..words.len()).find(|at| kind(words[*at]) == DOOR).unwrap_or(words.len());
    words.drain(at..end);
    mend(words);
}

/// Any of the faults that show over all files only, each file right by itself: which check comes first?
fn damage_over_all(random: &mut Random, files: &mut Vec<Vec<u32>>) {
    let (at, other) = (random.below(files.len()), random.below(files.len()));
    let node_words: Vec<u32> =
        files.concat().into_iter().filter(|word| [DOOR, ANSWER].contains(&kind(*word))).collect();
    if random.chance(30) && !node_words.is_empty() {
        let again = random.pick(&node_words) & !0x1_0000;
        files.push(file(kind(files[0][0]), random.below(16) as u32, bits(files[0][0], 23, 20), &[again]));
    }
    let ends = row_ends(files);
    if random.chance(40) && !ends.is_empty() {
        let (at, place) = random.pick(&ends);
        let last = bits(files[at][place], 19, 4) == 65_535;
        files[at][place] = match last || random.chance(50) {
            true => files[at][place] | 0xf_fff0,
            false => files[at][place] + 0x10,
        };
    }
    if random.chance(20) {
        take_door(random, &mut files[at]);
    }
    if random.chance(20) {
        files[at][0] = files[at][0] & !(15 << 24) | files[other][0] & 15 << 24;
    }
    if random.chance(20) && bits(files[at][0], 23, 20) < 15 {
        files[at][0] += 1 << 20;
    }
    if random.chance(40) {
        let roots = random.chance(50);
        let doors = files[at].iter_mut().filter(|word| kind(**word) == DOOR);
        doors.take(1).for_each(|door| *door = *door & !0x1_0000 | u32::from(roots) << 16);
    }
}

/// A bundle, damaged.
pub fn damaged_bundle(random: &mut Random, files: &[Vec<u32>]) -> Vec<u8> {
    let mut files = files.to_vec();
    let sort = random.below(100);
    if sort < 20 {
        damage_over_all(random, &mut files);
        return bytes_of(&files.concat());
    }
    for _ in 0..random.pick(&[1, 1, 2, 3]) {
        files.retain(|file| !file.is_empty());
        if files.is_empty() {
            return vec![];
        }
        if sort < 55 {
            damage_between(random, &mut files);
        } else if sort < 90 {
            let at = random.below(files.len());
            damage_file(random, &mut files[at]);
        }
    }
    let mut bytes = bytes_of(&files.concat());
    if sort >= 90 {
        damage_bytes(random, &mut bytes, BUNDLE_LIMIT);
    }
    bytes
}
