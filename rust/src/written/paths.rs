//! Bundles of paths in words: such as are refused, and parts and groups beside them, for any call that takes a bundle.

use super::*;
use crate::evaluation::words::{file, PATH};
use crate::generate::damage::set_length;
use crate::generate::path::{group, range};
use crate::generate::visits::stars;

/// The star of nothing is refused with 9.
pub const NO_OPERAND: &str = "40000002 60000003";

/// A visit with these files, in words.
pub fn asking(part: &str, groups: Option<&Groups>, paths: &[&str]) -> Visit {
    Visit { part: bytes(part), groups: groups.map(|groups| bytes_of(groups)), paths: bytes(&paths.join(" ")) }
}

/// Each place of a path in bundles of at most so many.
pub fn places(most: usize) -> impl Iterator<Item = (usize, usize)> {
    (1..=most).flat_map(|count| (0..count).map(move |at| (at, count)))
}

/// The bytes of a bundle, but with lengths that do not use them up: cut off anywhere but behind a file, or with more behind them; and with other
/// lengths in one header, 0 or one word past the end among them.
pub fn not_used_up(paths: &[&str]) -> Vec<Vec<u8>> {
    let files: Vec<Vec<u32>> = paths.iter().map(|path| words(path)).collect();
    let all = bytes_of(&files.concat());
    let ends: Vec<usize> = (1..=files.len()).map(|count| 4 * files[..count].concat().len()).collect();
    let cut = (0..all.len()).filter(|length| !ends.contains(length)).map(|length| all[..length].to_vec());
    let more = [vec![0], vec![0; 2], vec![0; 3], vec![0; 4], bytes("40000002"), bytes("40003fff")];
    let longer = more.map(|more| [&all[..], &more].concat());
    let lengths = |at: usize| [0, files[at..].concat().len() + 1, 8192, 0x3fff].map(|length| (at, length));
    let others = (0..files.len()).flat_map(lengths).map(|(at, length)| {
        let mut files = files.clone();
        set_length(&mut files[at], length);
        bytes_of(&files.concat())
    });
    cut.chain(longer).chain(others).collect()
}

/// Parts that are refused, each with its number.
pub const WRONG_PARTS: [(u32, &str); 8] = [
    (2, ""),
    (3, "10100001"),
    (3, P),
    (4, "10000002"),
    (5, "10000002 30050002"),
    (6, "10000003 20000002 20000002"),
    (7, "10000002 20020001"),
    (7, "10000003 20030001 20030002"),
];

/// Bundles that are refused: none, a path more than so many, a length of 0, one past the end, over 8,192 words; and bytes that are not in fours.
fn wrong_bundles(most: usize) -> Vec<Vec<u8>> {
    let written = ["", "40000000", "40000003 60000000"].map(bytes);
    let too_many = bytes_of(&vec![file(PATH, 0, 0, &[]); most + 1].concat());
    let long = bytes_of(&[stars(8000), stars(193)].concat());
    written.into_iter().chain([too_many, long, vec![2, 0, 0], [bytes(P), vec![0]].concat()]).collect()
}

/// Groups that are refused and such that are not, each with its number; and none.
pub fn all_groups() -> Vec<(u32, Option<Vec<u8>>)> {
    let (ours, narrow) = (bytes_of(&OURS), bytes_of(&[range(5, 5); 8]));
    let wrong = [vec![], ours[..28].to_vec(), bytes_of(&[group(1); 8]), bytes_of(&[range(6, 5); 8])];
    let right = [None, Some(ours), Some(narrow)].map(|groups| (0, groups));
    wrong.map(|groups| (16, Some(groups))).into_iter().chain(right).collect()
}

/// Every part, groups and bundle of at most so many paths, right and wrong, beside each other, with the number under which the whole is refused,
/// if it is: the part comes first, then the groups, then the bundle.
pub fn beside_each_other(most: usize) -> Vec<(Visit, Option<u32>)> {
    let right = [P, NO_OPERAND, "10000001", ""].map(|path| (0, bytes(&[path, ONE_LABEL].join(" "))));
    let bundles: Vec<_> = wrong_bundles(most).into_iter().map(|paths| (17, paths)).chain(right).collect();
    let (parts, groups) =
        ([&WRONG_PARTS[..], &[(0, FILES.parts[0]), (0, "15000001")]].concat(), all_groups());
    let mut all = vec![];
    for (part, groups) in parts.iter().flat_map(|part| groups.iter().map(move |groups| (part, groups))) {
        for paths in &bundles {
            let visit = Visit { part: bytes(part.1), groups: groups.1.clone(), paths: paths.1.clone() };
            all.push((visit, [part.0, groups.0, paths.0].into_iter().find(|number| *number != 0)));
        }
    }
    all
}
