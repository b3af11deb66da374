//! Programs that go wrong about a bundle of paths, in any call that takes one: which bundles are refused, and where in the order of checks, what
//! becomes of each path, and in which byte its number is.

use super::{names, Named};
use crate::beside::{answer, numbers_of, Visit};
use crate::evaluation::groups::{read_groups, Groups, OURS};
use crate::evaluation::part::{read_part, Part};
use crate::evaluation::path::{read_path, Path};
use crate::evaluation::replies::{first_reply_words, walks, Pair};
use crate::evaluation::states::States;
use crate::evaluation::visit::split_paths;
use crate::evaluation::words::*;
use crate::evaluation::{first_reply_to, Outcome, Visited};
use std::cell::RefCell;
use std::collections::BTreeMap;

/// The words of a file.
pub type File = Vec<u32>;

/// What is made of the words that are left of a bundle: so many are a file or are passed over, or the whole is refused under a number.
pub enum Step {
    File(usize),
    Over(usize),
    Refused(u32),
}

/// A program that reads a bundle of paths and answers each, step by step.
#[derive(Clone, Copy)]
pub struct Program {
    /// The number of a bundle of so many bytes.
    sized: fn(usize) -> u32,
    /// What is made of the words that are left of it.
    step: fn(&[u32]) -> Step,
    /// The files that are answered by a call for so many, or the number of these.
    counted: fn(Vec<File>, usize) -> Result<Vec<File>, u32>,
    /// The number of the whole by those of buffers, part, groups and bundle.
    whole: fn([u32; 4]) -> u32,
    /// Gives the numbers of a call for so many paths whose whole is refused under this one.
    refused: fn(&mut [u32], u32, usize),
    /// What each file is answered.
    replies: fn(&Asked, &[File]) -> Vec<Outcome>,
    /// What becomes of all answers beside each other, in a call for so many.
    beside: fn(Vec<Outcome>, &[File], usize) -> Vec<Outcome>,
    /// Gives the numbers of so many paths their bytes.
    pub numbered: fn(&mut Vec<u32>, usize),
}

/// Without a mistake.
pub const RIGHT: Program = Program {
    sized: |bytes| sized(bytes, BUNDLE_LIMIT),
    step: |words| by_length(words, length(words)),
    counted: at_most,
    whole: first,
    refused: |numbers, number, _| numbers.fill(number),
    replies: |asked, files| asked.replies(files),
    beside: |replies, _, _| replies,
    numbered: |_, _| {},
};

/// What a program does in another way.
pub enum Other {
    Size(fn(usize) -> u32),
    Stepped(fn(&[u32]) -> Step),
    Counted(fn(Vec<File>, usize) -> Result<Vec<File>, u32>),
    Whole(fn([u32; 4]) -> u32),
    Refused(fn(&mut [u32], u32, usize)),
    Replies(fn(&Asked, &[File]) -> Vec<Outcome>),
    Beside(fn(Vec<Outcome>, &[File], usize) -> Vec<Outcome>),
    Numbered(fn(&mut Vec<u32>, usize)),
}

use Other::*;

/// Part, groups and paths that are handed to a call for at most so many paths.
pub struct Asked<'a> {
    pub visit: &'a Visit,
    pub most: usize,
    part: Result<Part, Refusal>,
    groups: Result<Groups, Refusal>,
    /// The replies that have been worked out, so that none is twice.
    replies: RefCell<BTreeMap<File, Outcome>>,
}

/// Which bundles are refused. A program that takes a length of 0 for 1 is found out wherever one is that passes over the word: no file of one
/// word is a path.
pub const BUNDLES: [Named<Other>; 24] = [
    ("no bytes accepted", Size(|bytes| if bytes == 0 { 0 } else { (RIGHT.sized)(bytes) })),
    ("bytes that are not in fours cut off", Size(|bytes| (RIGHT.sized)(bytes - bytes % 4))),
    ("a bundle of 8,193 words accepted", Size(|bytes| sized(bytes, BUNDLE_LIMIT + 1))),
    ("a bundle of 8,192 words refused", Size(|bytes| sized(bytes, BUNDLE_LIMIT - 1))),
    ("a bundle of over 4,096 words refused", Size(|bytes| sized(bytes, FILE_LIMIT))),
    ("2 for a bundle", Size(|bytes| (RIGHT.sized)(bytes).min(2))),
    ("a length of 0 passed over", Stepped(|words| at_zero(words, Step::Over(1)))),
    ("a length of 0 taken for the end", Stepped(|words| at_zero(words, Step::Over(words.len())))),
    ("a length of 0 taken for all that is left", Stepped(|words| at_zero(words, Step::File(words.len())))),
    ("4 for a length of 0", Stepped(|words| at_zero(words, Step::Refused(4)))),
    ("a length past the end cut off", Stepped(|words| past_the_end(words, Step::File(words.len())))),
    ("a file past the end left out", Stepped(|words| past_the_end(words, Step::Over(words.len())))),
    ("4 for a length past the end", Stepped(|words| past_the_end(words, Step::Refused(4)))),
    ("17 for a path of over 64 words", Stepped(|words| refused_if(words, length(words) > PATH_LIMIT))),
    ("17 for a file of over 4,096 words", Stepped(|words| refused_if(words, length(words) > FILE_LIMIT))),
    ("17 for a header of another kind", Stepped(|words| refused_if(words, kind(words[0]) != PATH))),
    ("17 for a header's zero bit", Stepped(|words| refused_if(words, bits(words[0], 19, 14) != 0))),
    ("17 for a header's site", Stepped(|words| refused_if(words, bits(words[0], 27, 24) != 0))),
    ("lengths of 8 bits", Stepped(|words| by_length(words, length(words) % 256))),
    ("lengths of 12 bits", Stepped(|words| by_length(words, length(words) % 4096))),
    ("lengths of 16 bits", Stepped(|words| by_length(words, bits(words[0], 15, 0) as usize))),
    ("lengths without the header", Stepped(|words| by_length(words, length(words) + 1))),
    ("a path too many left out", Counted(|files, most| Ok(files.into_iter().take(most).collect()))),
    ("as many paths as may be refused", Counted(|files, most| at_most(files, most - 1))),
];

/// In which order the whole is refused, and in which bytes.
pub const WHOLES: [Named<Other>; 5] = [
    ("17 ahead of the part", Whole(|[room, part, groups, paths]| first([room, paths, part, groups]))),
    ("17 ahead of the buffers", Whole(|[room, part, groups, paths]| first([paths, room, part, groups]))),
    (
        "the part ahead of the buffers",
        Whole(|[room, part, groups, paths]| first([part, room, groups, paths])),
    ),
    ("the whole refused in the lowest byte alone", Refused(|numbers, number, _| numbers[0] = number)),
    (
        "the whole refused in the bytes of its paths",
        Refused(|numbers, number, paths| numbers[..paths].fill(number)),
    ),
];

/// What becomes of each path: not what would become of it by itself.
pub const PATHS: [Named<Other>; 11] = [
    ("a refused path stops the rest", Beside(|replies, _, _| up_to(replies, Outcome::is_err))),
    ("a 15 stops the rest", Beside(|replies, _, _| up_to(replies, |own| answer(own).0 == 15))),
    (
        "a refused path refuses the rest",
        Beside(|replies, _, _| {
            let mut before = up_to(replies.clone(), Outcome::is_err);
            before.resize(replies.len(), before[before.len() - 1].clone());
            before
        }),
    ),
    ("a refused path refuses the whole", Beside(|replies, _, most| whole_refused(replies, most, |own| own))),
    (
        "17 for a refused path",
        Beside(|replies, _, most| whole_refused(replies, most, |_| refuse(17, "a path refused"))),
    ),
    (
        "the first path's n in every header",
        Beside(|replies, files, _| each(replies, |_, own| own.map(|words| with_n_of(&files[0], words)))),
    ),
    (
        "a path that was asked before not answered",
        Beside(|replies, files, _| {
            each(replies, |at, own| if files[..at].contains(&files[at]) { Ok(vec![]) } else { own })
        }),
    ),
    ("the last path not answered", Beside(|replies, _, _| replies[..replies.len() - 1].to_vec())),
    ("15 for replies of over 4,096 words together", Beside(|replies, _, _| together(replies))),
    ("the first path for all", Replies(|asked, files| asked.replies(&vec![files[0].clone(); files.len()]))),
    ("nodes that a path came to not entered by the next", Replies(marks_left)),
];

/// The same about groups.
pub const GROUPED: [Named<Other>; 3] = [
    ("17 ahead of the groups", Whole(|[room, part, groups, paths]| first([room, part, paths, groups]))),
    ("groups for the first path alone", Replies(|asked, files| ours_where(asked, files, |at| at > 0))),
    (
        "groups for the last path alone",
        Replies(|asked, files| ours_where(asked, files, |at| at + 1 < files.len())),
    ),
];

/// In which byte each number is, and what is in those past the last path.
pub const NUMBERS: [Named<Other>; 8] = [
    ("path 2's number in path 3's byte", Numbered(|numbers, _| numbers.swap(1, 2))),
    ("the first number in the highest byte", Numbered(|numbers, _| numbers.reverse())),
    ("each number one byte up", Numbered(|numbers, _| numbers.rotate_right(1))),
    ("numbers of four bits", Numbered(|numbers, _| *numbers = in_four_bits(numbers))),
    ("the first number alone", Numbered(|numbers, _| numbers[1..].fill(0))),
    (
        "the last number past the last path",
        Numbered(|numbers, paths| {
            let last = numbers[paths - 1];
            numbers[paths..].fill(last);
        }),
    ),
    ("2 past the last path", Numbered(|numbers, paths| numbers[paths..].fill(2))),
    ("17 past the last path", Numbered(|numbers, paths| numbers[paths..].fill(17))),
];

/// The programs of all tables, those about groups last.
const PROGRAMS: [&[Named<Other>]; 5] = [&BUNDLES, &WHOLES, &PATHS, &NUMBERS, &GROUPED];

/// The names of those programs that are picked.
pub fn programs(picked: impl Fn(Program) -> bool) -> Vec<&'static str> {
    PROGRAMS.map(|table| names(table, |other| picked(other.program()))).concat()
}

/// The names of all mistakes about bundles of paths, with groups or without.
pub fn in_bundles_of_paths(grouped: bool) -> Vec<&'static str> {
    let tables = if grouped { &PROGRAMS[..] } else { &PROGRAMS[..4] };
    tables.iter().flat_map(|table| names(table, |_| true)).collect()
}

impl Other {
    /// The program that is right but for this.
    pub fn program(&self) -> Program {
        match *self {
            Size(sized) => Program { sized, ..RIGHT },
            Stepped(step) => Program { step, ..RIGHT },
            Counted(counted) => Program { counted, ..RIGHT },
            Whole(whole) => Program { whole, ..RIGHT },
            Refused(refused) => Program { refused, ..RIGHT },
            Replies(replies) => Program { replies, ..RIGHT },
            Beside(beside) => Program { beside, ..RIGHT },
            Numbered(numbered) => Program { numbered, ..RIGHT },
        }
    }
}

impl Program {
    /// The files of a bundle, or the number under which it is refused.
    fn split(&self, bytes: &[u8], most: usize) -> Result<Vec<File>, u32> {
        match (self.sized)(bytes.len()) {
            0 => {}
            number => return Err(number),
        }
        let words = words_of(&bytes[..bytes.len() / 4 * 4], usize::MAX).unwrap_or_default();
        let (mut files, mut left) = (vec![], &words[..]);
        while !left.is_empty() {
            let taken = match (self.step)(left) {
                Step::File(length) => {
                    files.push(left[..length].to_vec());
                    length
                }
                Step::Over(length) => length,
                Step::Refused(number) => return Err(number),
            };
            left = &left[taken..];
        }
        (self.counted)(files, most)
    }

    /// How many paths there are and what becomes of each, by whether the buffers are too short for so many; or the numbers of a refusal of
    /// the whole.
    pub fn outcomes(
        &self,
        asked: &Asked,
        short: impl Fn(usize) -> bool,
    ) -> Result<(usize, Vec<Outcome>), Vec<u32>> {
        let files = self.split(&asked.visit.paths, asked.most);
        let paths = files.as_ref().map_or(asked.most, Vec::len);
        let [part, groups] = [asked.part.as_ref().err(), asked.groups.as_ref().err()]
            .map(|refusal| refusal.map_or(0, |refusal| refusal.number));
        let bundle = files.as_ref().err().map_or(0, |number| *number);
        let number = (self.whole)([u32::from(short(paths)), part, groups, bundle]);
        match files {
            Ok(files) if number == 0 => {
                let replies = (self.replies)(asked, &files);
                Ok((paths, (self.beside)(replies, &files, asked.most)))
            }
            _ => {
                let mut numbers = vec![0; asked.most];
                (self.refused)(&mut numbers, number, paths);
                Err(numbers)
            }
        }
    }
}

impl<'a> Asked<'a> {
    /// By what is right in buffers that are long enough.
    pub fn new(visit: &'a Visit, most: usize, right: &Visited) -> Asked<'a> {
        let files = split_paths(&visit.paths, most).unwrap_or_default();
        let files =
            files.into_iter().map(|bytes| words_of(bytes, BUNDLE_LIMIT).expect("a file of the bundle"));
        let replies = files.zip(right.iter().flatten().cloned()).filter(|(_, reply)| reply.is_ok()).collect();
        let (part, groups) = (read_part(&visit.part), read_groups(visit.groups.as_deref()));
        Asked { visit, most, part, groups, replies: RefCell::new(replies) }
    }

    /// The part and the groups, once these are not what refuses the whole.
    fn read(&self) -> (&Part, &Groups) {
        (self.part.as_ref().expect("an accepted part"), self.groups.as_ref().expect("accepted groups"))
    }

    fn replies(&self, files: &[File]) -> Vec<Outcome> {
        let (part, groups) = self.read();
        let reply = |file: &File| first_reply_to(part, groups, &bytes_of(file));
        let mut known = self.replies.borrow_mut();
        files.iter().map(|file| known.entry(file.clone()).or_insert_with(|| reply(file)).clone()).collect()
    }

    /// The words of the reply to a path that is accepted, whatever becomes of it.
    pub fn words_for(&self, at: usize) -> File {
        let (part, groups) = self.read();
        let files = split_paths(&self.visit.paths, self.most).expect("a bundle that is accepted");
        first_reply_words(part, &read_path(files[at], groups).expect("a path"))
    }
}

fn sized(bytes: usize, most_words: usize) -> u32 {
    match bytes == 0 || bytes % 4 != 0 || bytes / 4 > most_words {
        true => 17,
        false => 0,
    }
}

fn length(words: &[u32]) -> usize {
    bits(words[0], 13, 0) as usize
}

fn by_length(words: &[u32], length: usize) -> Step {
    match length == 0 || length > words.len() {
        true => Step::Refused(17),
        false => Step::File(length),
    }
}

/// The step that is right, but for such words.
fn but_for(words: &[u32], such: bool, step: Step) -> Step {
    match such {
        true => step,
        false => (RIGHT.step)(words),
    }
}

fn at_zero(words: &[u32], step: Step) -> Step {
    but_for(words, length(words) == 0, step)
}

fn past_the_end(words: &[u32], step: Step) -> Step {
    but_for(words, length(words) > words.len(), step)
}

fn refused_if(words: &[u32], wrong: bool) -> Step {
    but_for(words, wrong, Step::Refused(17))
}

fn at_most(files: Vec<File>, most: usize) -> Result<Vec<File>, u32> {
    match files.len() > most {
        true => Err(17),
        false => Ok(files),
    }
}

/// The first of these that is not 0.
fn first(numbers: [u32; 4]) -> u32 {
    numbers.into_iter().find(|number| *number != 0).unwrap_or(0)
}

pub fn each(replies: Vec<Outcome>, other: impl Fn(usize, Outcome) -> Outcome) -> Vec<Outcome> {
    replies.into_iter().enumerate().map(|(at, own)| other(at, own)).collect()
}

/// Those up to the first that is picked, with it.
fn up_to(mut replies: Vec<Outcome>, picked: impl Fn(&Outcome) -> bool) -> Vec<Outcome> {
    let end = replies.iter().position(picked).unwrap_or(replies.len());
    replies.truncate(end + 1);
    replies
}

/// If a path is refused, all that there may be.
fn whole_refused(replies: Vec<Outcome>, most: usize, under: impl Fn(Outcome) -> Outcome) -> Vec<Outcome> {
    let refused = replies.iter().find(|own| own.is_err()).cloned();
    refused.map_or(replies, |own| vec![under(own); most])
}

fn with_n_of(path: &[u32], mut words: File) -> File {
    words[0] = words[0] & !(15 << 20) | path[0] & 15 << 20;
    words
}

/// As if the replies stood one after another in one output, whatever their lengths.
fn together(replies: Vec<Outcome>) -> Vec<Outcome> {
    let mut used = 0;
    let fits = |own: Outcome| {
        let words = own?;
        if used + words.len() > FILE_LIMIT {
            return refuse(15, "over the limit together");
        }
        used += words.len();
        Ok(words)
    };
    replies.into_iter().map(fits).collect()
}

/// As if the nodes that a path's walks came to were marked as visited for the paths behind it: no walk enters them again.
fn marks_left(asked: &Asked, files: &[File]) -> Vec<Outcome> {
    let (part, groups) = asked.read();
    if part.nodes.iter().all(|node| node.door) {
        return asked.replies(files);
    }
    let (mut part, mut replies) = (part.clone(), vec![]);
    for bytes in files.iter().map(|file| bytes_of(file)) {
        replies.push(first_reply_to(&part, groups, &bytes));
        read_path(&bytes, groups).into_iter().for_each(|path| mark(&mut part, &path));
    }
    replies
}

/// Doors are not marked, as walks start there.
fn mark(part: &mut Part, path: &Path) {
    let starts = part.doors().flat_map(|door| (0..=path.n()).map(move |state| (door.number, state)));
    let reached = walks(part, path, &States::of(path), &starts.collect::<Vec<Pair>>());
    for node in part.nodes.iter_mut().filter(|node| !node.door) {
        node.stopped |= reached.range((node.number, 0)..(node.number + 1, 0)).next().is_some();
    }
}

/// With our groups for some of the paths.
fn ours_where(asked: &Asked, files: &[File], picked: impl Fn(usize) -> bool) -> Vec<Outcome> {
    let (part, groups) = asked.read();
    let by_ours = |at: usize| first_reply_to(part, &OURS, &bytes_of(&files[at]));
    each(asked.replies(files), |at, own| if *groups != OURS && picked(at) { by_ours(at) } else { own })
}

/// The bytes of a number that has four bits for each number.
fn in_four_bits(numbers: &[u32]) -> Vec<u32> {
    let together = numbers.iter().rev().fold(0, |together, number| together << 4 | u64::from(*number));
    numbers_of(together, numbers.len())
}
