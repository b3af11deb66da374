//! Mistakes, each as what is taken for right by a program that makes it: another word, other groups, another rule. The tests fail where none
//! of their cases would find one out.

pub mod desks;
pub mod generator;
pub mod growth;
pub mod learning;
mod leaving;
mod lists;
mod paths;
pub mod triples;
pub mod visit;
pub mod walks;

use self::leaving::*;
use crate::beside::Left;
use crate::evaluation::dearest::{check_counts, dearest_files, Counts, Rooms, LEAST_ROOMS};
use crate::evaluation::groups::{Groups, OURS};
use crate::evaluation::hub::FirstBundle;
use crate::evaluation::path::{MayStand, MOST_WAITING};
use crate::evaluation::replies::{running_lengths, Pair};
use crate::evaluation::words::*;
use crate::evaluation::{call_list_of, check_result, dearest, Outcome};
use crate::generate::path::{group, outside, range, OR, STAR, THEN};
use std::collections::BTreeSet;
use std::ops::Range;

/// A mistake with its name.
pub type Named<F> = (&'static str, F);

/// Number and words.
pub type Answer = (u32, Vec<u32>);

/// The names of those mistakes of a table that are picked.
pub fn names<F>(table: &[Named<F>], picked: impl Fn(&F) -> bool) -> Vec<&'static str> {
    table.iter().filter(|(_, mistake)| picked(mistake)).map(|(name, _)| *name).collect()
}

/// The word that a word is taken for.
pub type Taken = fn(u32) -> u32;
/// The groups that accepted ones are taken for.
pub type Regrouped = fn(Groups) -> Groups;
/// The groups that accepted ones are taken for in the first trip and in the second.
pub type ByTrip = fn(Groups) -> (Groups, Groups);
/// The groups that refused ones are taken for.
pub type Mended = fn(&[u8]) -> Vec<u8>;
/// Whether refused groups are passed over: by the outcome that the call has with ours, and by its path.
pub type PassedOver = fn(&Outcome, &[u8]) -> bool;
/// What a hub makes of first replies that have passed all checks up to 13.
pub type Hub = fn(&FirstBundle) -> Outcome;
/// How long a first reply is held to be, by how many pairs are reported of each door in each state.
pub type Counted = fn(&[Vec<usize>]) -> usize;
/// Whether the dearest files are written for these counts.
pub type Accepting = fn(Counts) -> bool;
/// The dearest files as they are written.
pub type Written = fn(Counts) -> [Vec<u32>; 2];
/// A call for the dearest files: its counts, and its buffers.
pub type InRooms = (Counts, Rooms);
/// What is left by it.
pub type Leaving = fn(&InRooms) -> Left;

/// Nodes that are stopped, by root and door bit.
pub const STOPPED: [Named<Taken>; 3] = [
    ("stopped root taken for running", |word| running(word, 3)),
    ("stopped door taken for running", |word| running(word, 1)),
    ("stopped inner node taken for running", |word| running(word, 0)),
];

/// Labels outside a range. No walk is lost where more labels are held: so a program that holds no label below is found out wherever one is
/// that misses the nearest, and one that holds the whole range wherever one is that holds an end of it.
pub const OUTSIDE: [Named<Taken>; 6] = [
    ("outside taken for the range", |word| taken(word, range)),
    ("outside with its low end", |word| taken(word, |low, high| all_but(low + 1..high + 1))),
    ("outside with its high end", |word| taken(word, |low, high| all_but(low..high))),
    ("outside without the label below", |word| taken(word, |low, high| all_but(low.max(1) - 1..high + 1))),
    ("outside without the label above", |word| taken(word, |low, high| all_but(low..(high + 2).min(4096)))),
    ("outside all labels refused", |word| if word == outside(0, 4095) { NO_SORT } else { word }),
];

/// Operands that wait. A program that lets more of them wait is found out by refused calls alone.
pub const WAITING: [Named<MayStand>; 4] = [
    ("nine may wait", |_, after| after <= MOST_WAITING + 1),
    ("sixteen may wait", |_, after| after <= 16),
    ("only seven may wait", |_, after| after < MOST_WAITING),
    ("counted ahead of the word", |before, _| before < MOST_WAITING),
];

/// Groups that are accepted. One that has a single label keeps it.
pub const GROUPS: [Named<Regrouped>; 10] = [
    ("our groups for those handed in", |_| OURS),
    ("groups 0 to 3 not loaded", |[.., e, f, g, h]| [OURS[0], OURS[1], OURS[2], OURS[3], e, f, g, h]),
    ("groups 4 to 7 not loaded", |[a, b, c, d, ..]| [a, b, c, d, OURS[4], OURS[5], OURS[6], OURS[7]]),
    ("group 7 for group 0", |[_, b, c, d, e, f, g, h]| [h, b, c, d, e, f, g, h]),
    ("each group for the one before", |[a, b, c, d, e, f, g, h]| [b, c, d, e, f, g, h, a]),
    ("each group for the one behind", |[a, b, c, d, e, f, g, h]| [h, a, b, c, d, e, f, g]),
    ("groups without their low end", |groups| with_ends(groups, |low, high| (high.min(low + 1), high))),
    ("groups without their high end", |groups| {
        with_ends(groups, |low, high| (low, low.max(high.max(1) - 1)))
    }),
    ("groups with the label below", |groups| with_ends(groups, |low, high| (low.max(1) - 1, high))),
    ("groups with the label above", |groups| with_ends(groups, |low, high| (low, (high + 1).min(4095)))),
];

/// Groups that are accepted, in a question.
pub const TRIPS: [Named<ByTrip>; 2] = [
    ("our groups in the first trip", |groups| (OURS, groups)),
    ("our groups in the second trip", |groups| (groups, OURS)),
];

/// Groups that are refused.
pub const LOADED: [Named<Mended>; 7] = [
    ("fewer than 32 bytes filled up", |bytes| [bytes, &bytes_of(&OURS)[bytes.len().min(32)..]].concat()),
    ("more than 32 bytes cut off", |bytes| bytes[..bytes.len().min(32)].to_vec()),
    ("groups of any kind", |bytes| each(bytes, |word| LABEL << 28 | bits(word, 27, 0))),
    ("groups of sort 1", |bytes| {
        each(bytes, |word| if is_group(word) { OURS[word as usize & 7] } else { word })
    }),
    ("groups of sort 2", |bytes| each(bytes, |word| taken(word, range))),
    ("groups of any sort", |bytes| each(bytes, |word| word & !(15 << 24))),
    ("groups with a low end above the high one", |bytes| each(bytes, turned)),
];

/// Where groups are refused.
pub const PLACES: [Named<PassedOver>; 6] = [
    ("groups ahead of the buffers", |_, _| false),
    ("groups ahead of part or whole", |ours, _| refused(ours, &["buffers"])),
    ("groups ahead of the last check of part or whole", |ours, _| {
        ahead_of_groups(ours) && !by_last_check(ours)
    }),
    ("groups behind the path", |ours, _| ahead_of_groups(ours) || refused(ours, &["path"])),
    ("groups behind all other checks", |ours, _| ours.is_err()),
    ("groups passed over where the path names none", |ours, path| {
        ahead_of_groups(ours) || !names_groups(path)
    }),
];

/// Nodes that are no doors, strays, and doors that are not found. A program that looks at every reach word, followed or not, is found out
/// wherever one is that looks at those of one kind.
pub const STRAYS: [Named<Hub>; 14] = [
    ("14 for a stray of a door that is not called", |bundle| also_14(bundle, |called| !called)),
    ("14 for a stray of a called door in another state", |bundle| also_14(bundle, |called| called)),
    ("strays called like doors", |bundle| listed(bundle, &bundle.called())),
    ("strays dropped from the set", |bundle| call_list_of(&dropped(bundle))),
    ("strays dropped but for those of the root's row", |bundle| match bundle.rows.get(&bundle.root) {
        Some(row) if has_strays(bundle, row) => refuse(14, "stray of the root"),
        _ => call_list_of(&dropped(bundle)),
    }),
    ("a stray taken for the next door", |bundle| {
        taken_for_door(bundle, |doors, node| doors.range(node..).next().copied())
    }),
    ("a stray taken for the next door of its sixteen nodes", |bundle| {
        taken_for_door(bundle, |doors, node| doors.range(node..=node | 15).next().copied())
    }),
    ("a stray taken for the door before", |bundle| {
        taken_for_door(bundle, |doors, node| doors.range(..node).next_back().copied())
    }),
    ("15 ahead of 14", |bundle| listed(bundle, &bundle.called()).and_then(|_| call_list_of(bundle))),
    ("15 ahead of 14, strays not counted", |bundle| {
        listed(bundle, &dropped(bundle).called()).and_then(|_| call_list_of(bundle))
    }),
    ("a door without rows not found", |bundle| {
        not_found(bundle, |door| bundle.rows.range((door, 0)..(door + 1, 0)).next().is_none())
    }),
    ("the last door of sixteen not found", |bundle| {
        not_found(bundle, |door| door % 16 == 15 && bundle.doors.range(door - 15..=door).count() == 16)
    }),
    ("door 0 not found", |bundle| not_found(bundle, |door| door == 0)),
    ("door 65535 not found", |bundle| not_found(bundle, |door| door == 65_535)),
];

/// The length of a first reply. It is seen in the number alone: a reply is refused that fits, or the other way.
pub const LENGTHS: [Named<Counted>; 6] = [
    ("the length starts at 0", |doors| length(doors) - 1),
    ("door words not counted", |doors| length(doors) - doors.len()),
    ("a reach word of each door not counted", |doors| {
        length(doors) - doors.iter().filter(|rows| rows.iter().any(|pairs| *pairs > 0)).count()
    }),
    ("row words not counted", |doors| length(doors) - rows_with(doors, |pairs| pairs > 0)),
    ("rows without reach words counted", |doors| length(doors) + rows_with(doors, |pairs| pairs == 0)),
    ("doors without rows not counted", |doors| {
        length(doors) - doors.iter().filter(|rows| rows.iter().all(|pairs| *pairs == 0)).count()
    }),
];

/// For which counts the dearest files are written. A program that does not hold the words of a part to a limit is found out wherever one is
/// whose limit is too high; with the sum of doors and targets held to 65,536 first no product wraps.
pub const COUNTS: [Named<Accepting>; 12] = [
    ("no doors accepted", |counts| within(counts, [0, 1, 1], 15, 4096)),
    ("no targets accepted", |counts| within(counts, [1, 0, 1], 15, 4096)),
    ("no labels accepted", |counts| within(counts, [1, 1, 0], 15, 4096)),
    ("sixteen labels accepted", |counts| within(counts, [1; 3], 16, 4096)),
    ("only fourteen labels accepted", |counts| within(counts, [1; 3], 14, 4096)),
    ("a part of 4,097 words accepted", |counts| within(counts, [1; 3], 15, 4097)),
    ("a part of 4,096 words refused", |counts| within(counts, [1; 3], 15, 4095)),
    ("door words not counted in the part", |counts| within(counts, [1; 3], 15, 4096 + u64::from(counts[0]))),
    ("words wrapped at 32 bits", within_wrapped),
    ("words, and doors with targets, wrapped at 32 bits", |[doors, targets, labels]| {
        within_wrapped([doors, targets, labels]) && doors.wrapping_add(targets) <= 65_536
    }),
    ("counts cut to 16 bits", |counts| check_counts(counts.map(|count| count & 0xffff)).is_ok()),
    ("labels cut to 4 bits", |[doors, targets, labels]| check_counts([doors, targets, labels & 15]).is_ok()),
];

/// The dearest files.
pub const WRITTEN: [Named<Written>; 18] = [
    ("links of label 1", |counts| with_part(counts, EDGE, |word| word | 1 << 16)),
    ("targets one too high", |counts| with_part(counts, EDGE, |word| word + 1)),
    ("doors one too high", |counts| with_part(counts, NODE, |word| word + 1)),
    ("doors that are none", |counts| with_part(counts, NODE, |word| word & !(1 << 16))),
    ("the first door a root", |counts| {
        with_part(counts, NODE, |word| word | u32::from(word << 16 == 0) << 17)
    }),
    ("a part of site 1", |counts| with_part(counts, PART, |word| word | 1 << 24)),
    ("one door too many", |[doors, targets, labels]| dearest_files([doors + 1, targets, labels])),
    ("one target too many", |[doors, targets, labels]| dearest_files([doors, targets + 1, labels])),
    ("one label too many", |[doors, targets, labels]| dearest_files([doors, targets, labels + 1])),
    ("labels not in the header", |[doors, targets, labels]| {
        let [part, path] = dearest_files([doors, targets, labels]);
        [part, file(PATH, 0, 0, &path[1..])]
    }),
    ("ranges without label 0", |counts| {
        with_path(counts, |path| with_word(path, range(0, 4095), range(1, 4095)))
    }),
    ("ranges without label 4095", |counts| {
        with_path(counts, |path| with_word(path, range(0, 4095), range(0, 4094)))
    }),
    ("groups for ranges", |counts| with_path(counts, |path| with_word(path, range(0, 4095), group(0)))),
    ("then for or", |counts| with_path(counts, |path| with_word(path, OR, THEN))),
    ("each or behind the third range", |counts| with_path(counts, |path| ors_put_off(path.len() / 2, 2))),
    ("all ors behind all ranges", |counts| with_path(counts, |path| ors_put_off(path.len() / 2, 15))),
    ("no star", |counts| with_path(counts, |path| path[..path.len() - 1].to_vec())),
    ("a star of the first range alone", |counts| {
        with_path(counts, |path| [&path[..1], &[STAR], &path[1..path.len() - 1]].concat())
    }),
];

/// What is left by a call for the dearest files. A program that does not look at an output's length is found out wherever one is that is
/// content with room for its file.
pub const LEAVING: [Named<Leaving>; 16] = [
    ("21 ahead of 1", inputs_first),
    ("room for the part's words accepted", |call| content(call, 0)),
    ("room for the path's words accepted", |call| content(call, 1)),
    ("any working buffer accepted", |call| content(call, 2)),
    ("a part's output of 16,384 bytes refused", |call| one_short(call, 0)),
    ("a path's output of 256 bytes refused", |call| one_short(call, 1)),
    ("a working buffer of 32,768 bytes refused", |call| one_short(call, 2)),
    ("the part's output left after a refusal", |call| left_after_refusal(call, 0)),
    ("the path's output left after a refusal", |call| left_after_refusal(call, 1)),
    ("the working buffer left after a refusal", |call| left_after_refusal(call, 2)),
    ("the part's output left past its words", |call| left_past_file(call, 0)),
    ("the path's output left past its words", |call| left_past_file(call, 1)),
    ("the working buffer left", |call| left_past_file(call, 2)),
    ("the part's output left past 16,384 bytes", |call| left_past_least(call, 0)),
    ("the path's output left past 256 bytes", |call| left_past_least(call, 1)),
    ("the working buffer left past 32,768 bytes", |call| left_past_least(call, 2)),
];

fn length(doors: &[Vec<usize>]) -> usize {
    running_lengths(doors)[doors.len()]
}

fn rows_with(doors: &[Vec<usize>], picked: impl Fn(usize) -> bool) -> usize {
    doors.iter().flatten().filter(|pairs| picked(**pairs)).count()
}

/// A label word that is refused.
const NO_SORT: u32 = LABEL << 28 | 3 << 24;

fn running(word: u32, marks: u32) -> u32 {
    match kind(word) == NODE && bits(word, 17, 16) == marks {
        true => word & !(1 << 18),
        false => word,
    }
}

fn ends(word: u32) -> (u32, u32) {
    (bits(word, 11, 0), bits(word, 23, 12))
}

/// A label word outside a range as the word that `other` makes of the range's ends.
fn taken(word: u32, other: impl Fn(u32, u32) -> u32) -> u32 {
    let (low, high) = ends(word);
    match kind(word) == LABEL && bits(word, 27, 24) == 2 {
        true => other(low, high),
        false => word,
    }
}

fn all_but(labels: Range<u32>) -> u32 {
    match labels.is_empty() {
        true => range(0, 4095),
        false => outside(labels.start, labels.end - 1),
    }
}

/// The groups with the ends that `other` makes of theirs.
fn with_ends(groups: Groups, other: impl Fn(u32, u32) -> (u32, u32)) -> Groups {
    groups.map(|word| {
        let (low, high) = ends(word);
        let (low, high) = other(low, high);
        range(low, high)
    })
}

fn is_group(word: u32) -> bool {
    kind(word) == LABEL && bits(word, 27, 24) == 1
}

pub fn names_groups(path: &[u8]) -> bool {
    words_of(path, PATH_LIMIT).map_or(false, |words| words.into_iter().any(is_group))
}

/// A range with its low end above the high one as the range between them.
fn turned(word: u32) -> u32 {
    let (low, high) = ends(word);
    match low > high {
        true => word & !0x00ff_ffff | low << 12 | high,
        false => word,
    }
}

/// The words of groups as they are taken; bytes that are not in fours stay.
fn each(bytes: &[u8], taken: impl Fn(u32) -> u32) -> Vec<u8> {
    let words = words_of(bytes, FILE_LIMIT);
    words.map_or(bytes.to_vec(), |words| bytes_of(&words.into_iter().map(taken).collect::<Vec<_>>()))
}

pub fn refused(outcome: &Outcome, inputs: &[&str]) -> bool {
    outcome.as_ref().err().map_or(false, |refusal| inputs.contains(&refusal.input))
}

/// Refused by a check that comes ahead of the groups'.
pub fn ahead_of_groups(outcome: &Outcome) -> bool {
    refused(outcome, &["buffers", "whole", "part"])
}

fn by_last_check(outcome: &Outcome) -> bool {
    let last = |refusal: &Refusal| [("whole", 8), ("part", 7)].contains(&(refusal.input, refusal.number));
    outcome.as_ref().err().map_or(false, last)
}

fn listed(bundle: &FirstBundle, called: &BTreeSet<Pair>) -> Outcome {
    check_result(bundle.call_list_words(called), FILE_LIMIT)
}

fn has_strays(bundle: &FirstBundle, row: &[Pair]) -> bool {
    row.iter().any(|pair| bundle.is_stray(*pair))
}

/// 14 also for strays in rows that nobody follows, of doors that are called in other states, or of doors that are not.
fn also_14(bundle: &FirstBundle, picked: fn(bool) -> bool) -> Outcome {
    let all = bundle.called();
    let called = |door: u32| all.range((door, 0)..(door + 1, 0)).next().is_some();
    let mut idle = bundle.rows.iter().filter(|(pair, _)| !all.contains(pair));
    match idle.any(|(pair, row)| picked(called(pair.0)) && has_strays(bundle, row)) {
        true => refuse(14, "stray that nobody follows"),
        false => call_list_of(bundle),
    }
}

/// The bundle with other nodes for strays, or without these.
fn with_strays(bundle: &FirstBundle, other: impl Fn(u32) -> Option<u32>) -> FirstBundle {
    let taken = |pair: &Pair| match bundle.is_stray(*pair) {
        true => other(pair.0).map(|node| (node, pair.1)),
        false => Some(*pair),
    };
    let mut bundle = bundle.clone();
    bundle.rows.values_mut().for_each(|row| *row = row.iter().filter_map(taken).collect());
    bundle
}

fn dropped(bundle: &FirstBundle) -> FirstBundle {
    with_strays(bundle, |_| None)
}

/// With a door for each stray, if one is found.
fn taken_for_door(bundle: &FirstBundle, found: fn(&BTreeSet<u32>, u32) -> Option<u32>) -> Outcome {
    call_list_of(&with_strays(bundle, |node| found(&bundle.doors, node).or(Some(node))))
}

/// With some doors taken for strays, but for the root.
fn not_found(bundle: &FirstBundle, lost: impl Fn(u32) -> bool) -> Outcome {
    let mut other = bundle.clone();
    other.doors.retain(|door| *door == bundle.root.0 || !lost(*door));
    call_list_of(&other)
}

/// The words as they are taken, if any is taken for another.
pub fn mistaken(words: &[u32], taken: Taken) -> Option<Vec<u32>> {
    let others: Vec<u32> = words.iter().map(|word| taken(*word)).collect();
    (others != words).then_some(others)
}

/// The names of all mistakes about the dearest files.
pub fn in_dearest_files() -> Vec<&'static str> {
    [names(&COUNTS, |_| true), names(&WRITTEN, |_| true), names(&LEAVING, |_| true)].concat()
}

/// Whether no count is below the least, and labels, doors with targets and the words of a part are not above the most.
fn within(counts: Counts, least: Counts, most_labels: u64, most_words: u64) -> bool {
    let [doors, targets, labels] = counts.map(u64::from);
    counts.iter().zip(least).all(|(count, least)| *count >= least)
        && labels <= most_labels
        && doors + targets <= 65_536
        && 1 + doors * (1 + targets) <= most_words
}

/// The same of a part's words as they are in 32 bits, without doors and targets.
fn within_wrapped([doors, targets, labels]: Counts) -> bool {
    let words = doors.wrapping_mul(targets.wrapping_add(1)).wrapping_add(1);
    [doors, targets, labels].iter().all(|count| *count >= 1) && labels <= 15 && words <= 4096
}

/// The dearest files with other words of one kind in the part.
fn with_part(counts: Counts, of: u32, other: Taken) -> [Vec<u32>; 2] {
    let [part, path] = dearest_files(counts);
    let taken = |word: u32| if kind(word) == of { other(word) } else { word };
    [part.into_iter().map(taken).collect(), path]
}

/// The dearest files with other words behind the path's header.
fn with_path(counts: Counts, other: impl Fn(&[u32]) -> Vec<u32>) -> [Vec<u32>; 2] {
    let [part, path] = dearest_files(counts);
    [part, file(PATH, 0, counts[2], &other(&path[1..]))]
}

fn with_word(path: &[u32], word: u32, other: u32) -> Vec<u32> {
    path.iter().map(|own| if *own == word { other } else { *own }).collect()
}

/// A star of an or of so many full ranges, in which an or stands only once more than so many operands wait, or no range is left.
fn ors_put_off(ranges: usize, most: usize) -> Vec<u32> {
    let before = ranges.min(most);
    let behind = [range(0, 4095), OR].repeat(ranges - before);
    [vec![range(0, 4095); before], behind, vec![OR; before - 1], vec![STAR]].concat()
}

impl Buffered<3> for InRooms {
    const LEAST: Rooms = LEAST_ROOMS;

    fn lengths(&self) -> Rooms {
        self.1
    }

    fn owed(&self, taken: Rooms) -> Left {
        Left::owed_both(&dearest(self.0, taken), self.1)
    }

    fn files(&self) -> Option<Vec<Vec<u32>>> {
        check_counts(self.0).ok().map(|_| dearest_files(self.0).to_vec())
    }
}
