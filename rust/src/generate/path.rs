//! Random paths, as words with their header.

use crate::evaluation::groups::OURS;
use crate::evaluation::path::{read_path, MOST_WAITING};
use crate::evaluation::words::{bits, bytes_of, file, kind, LABEL, OPERATOR, PATH};
use crate::random::Random;

const ENDS: [u32; 18] =
    [0, 1, 5, 255, 256, 1023, 1024, 1535, 1536, 1791, 1792, 2047, 2048, 3071, 3072, 4031, 4032, 4095];

/// Labels that a plant and its paths share, so that walks go far: few of any kind, or ends of groups.
pub fn alphabet(random: &mut Random) -> Vec<u32> {
    let count = random.between(1, 5);
    let ends = random.chance(50);
    let label = |random: &mut Random| match ends {
        true => random.pick(&ENDS),
        false => random.below(4096) as u32,
    };
    (0..count).map(|_| label(random)).collect()
}

pub fn range(low: u32, high: u32) -> u32 {
    LABEL << 28 | high << 12 | low
}

/// All labels but those of the range.
pub fn outside(low: u32, high: u32) -> u32 {
    range(low, high) | 2 << 24
}

/// The labels of group g.
pub fn group(g: u32) -> u32 {
    LABEL << 28 | 1 << 24 | g
}

/// The labels before and after this one; at an end, itself.
fn next_to(label: u32) -> (u32, u32) {
    (label.saturating_sub(1), (label + 1).min(4095))
}

/// A range that ends at one of these labels, or next to one, so that it matters where it ends; some have all labels, and some one.
pub fn ends_near(random: &mut Random, a: u32, b: u32) -> (u32, u32) {
    let (before, after) = next_to(a);
    let any = random.below(4096) as u32;
    match random.below(10) {
        0..=2 => (a, a),
        3 | 4 => (a.min(b), a.max(b)),
        5 => (after, after.max(b)),
        6 => (before.min(b), before),
        7 => random.pick(&[(0, a), (a, 4095)]),
        8 => random.pick(&[(0, before), (after, 4095)]),
        _ => random.pick(&[(0, 4095), (any, any)]),
    }
}

pub fn label_word(random: &mut Random, alphabet: &[u32]) -> u32 {
    let (a, b) = (random.pick(alphabet), random.pick(alphabet));
    match random.below(15) {
        0..=4 => range(a, a),
        5 | 6 => range(a.min(b), a.max(b)),
        7 => range(0, 4095),
        8 => range(a.saturating_sub(1), a.saturating_sub(1).max(b)),
        9 => group(random.below(8) as u32),
        _ => {
            let (low, high) = ends_near(random, a, b);
            outside(low, high)
        }
    }
}

/// A label word that holds the whole alphabet: the full range, or all labels but one that is next to a label of the alphabet.
pub fn any_label(random: &mut Random, alphabet: &[u32]) -> u32 {
    let (before, after) = next_to(random.pick(alphabet));
    let other = random.pick(&[before, after]);
    match alphabet.contains(&other) || random.chance(50) {
        true => range(0, 4095),
        false => outside(other, other),
    }
}

pub const EMPTY: u32 = OPERATOR << 28;
pub const THEN: u32 = EMPTY | 1;
pub const OR: u32 = EMPTY | 2;
pub const STAR: u32 = EMPTY | 3;

/// A path with this many operands, 31 at most, of which up to 15 are labels.
pub fn path(random: &mut Random, alphabet: &[u32], operands: usize) -> Vec<u32> {
    let (mut words, mut n, mut waiting, mut left) = (vec![], 0, 0, operands);
    let eager = random.between(20, 90);
    let empties = random.pick(&[0, 5, 30]);
    while left > 0 || waiting > 1 {
        let may_push = left > 0 && waiting < MOST_WAITING;
        let push = waiting == 0 || may_push && (waiting == 1 || random.chance(eager));
        if push {
            let empty = n == 15 || random.chance(empties);
            words.push(if empty { EMPTY } else { label_word(random, alphabet) });
            n += u32::from(!empty);
            (waiting, left) = (waiting + 1, left - 1);
        } else {
            words.push(if random.chance(60) { THEN } else { OR });
            waiting -= 1;
        }
        let room = 63 - words.len() > left + (waiting + left);
        if room && random.chance(20) {
            words.push(STAR);
        }
    }
    file(PATH, 0, n, &words)
}

/// An or of a label word with itself, starred or not.
pub fn or_of(label: u32, n: usize, star: bool) -> Vec<u32> {
    let mut words = vec![label];
    (1..n).for_each(|_| words.extend([label, OR]));
    words.extend(star.then_some(STAR));
    file(PATH, 0, n as u32, &words)
}

/// Operands, at least one, one behind the other: each as its words.
pub fn in_a_row(operands: &[Vec<u32>], operator: u32) -> Vec<u32> {
    let behind = |operand: &Vec<u32>| [&operand[..], &[operator]].concat();
    [operands[0].clone(), operands[1..].iter().flat_map(behind).collect()].concat()
}

/// A path of these words, with the n that they have.
pub fn path_of_words(words: &[u32]) -> Vec<u32> {
    let n = words.iter().filter(|word| kind(**word) == LABEL).count();
    file(PATH, 0, n as u32, words)
}

/// The path of the words of two paths, one behind the other, and these operators; `None` if it is refused: by its labels, its words or the
/// operands that wait.
pub fn joined(first: &[u32], second: &[u32], operators: &[u32]) -> Option<Vec<u32>> {
    let n = [first, second].into_iter().map(|path| bits(path[0], 23, 20)).sum();
    let words = [&first[1..], &second[1..], operators].concat();
    let path = Some(file(PATH, 0, n, &words)).filter(|_| n < 16)?;
    read_path(&bytes_of(&path), &OURS).ok().map(|_| path)
}

/// Any path, now and then one that every walk spells, so that nothing but stopped nodes is in its way.
pub fn some_path(random: &mut Random, alphabet: &[u32]) -> Vec<u32> {
    if random.chance(20) {
        return or_of(any_label(random, alphabet), random.between(1, 3), true);
    }
    let most = random.pick(&[2, 4, 8, 16, 31]);
    let operands = random.between(1, most);
    path(random, alphabet, operands)
}
