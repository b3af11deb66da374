//! Programs that go wrong about walks, each a right one but for one thing: in the walk that is given, in the check of one, in reading the whole
//! for both, and in what is left.

pub mod check;
pub mod find;

use self::check::CHECK;
use self::find::{ANSWERED, FIND};
use super::leaving::*;
use super::{names, refused, Named};
use crate::beside::{answer, Call, Left};
use crate::evaluation::groups::read_groups;
use crate::evaluation::part::{read_whole, read_whole_within, Part};
use crate::evaluation::path::{read_path, Path};
use crate::evaluation::walks::{Sought, WALKED_LIMIT};
use crate::evaluation::words::*;
use crate::evaluation::{check_walk_in, walk_in, Outcome, Read, Room};
use crate::generate::calls::is_short;

/// How the whole is read.
pub type Reading = fn(&[u8]) -> Read;
/// Whether 20 is given ahead of groups and path.
pub type Ahead = fn(&Part, u32) -> bool;
/// What is left by the call that checks a walk.
pub type LeavingWord = fn(&Said) -> Left;

/// The whole of both calls. A program that reads more words is found out wherever one is that reads 1,025.
const READ: [Named<Reading>; 4] = [
    ("a whole of 1,025 words accepted", |whole| read_whole_within(whole, 1025)),
    ("a whole of 1,024 words refused", |whole| read_whole_within(whole, 1023)),
    ("the whole's header ahead of its size", |whole| match read_whole(whole) {
        Err(refusal) if [3, 4].contains(&refusal.number) => Err(refusal),
        _ => read_short(whole),
    }),
    ("the whole's size behind its other checks", |whole| read_whole(whole).and_then(|_| read_short(whole))),
];

/// Nodes to which there cannot be a walk, whatever the path.
const AHEAD: [Named<Ahead>; 2] = [
    ("20 ahead of groups and path, no such node", |whole, node| whole.node(node).is_none()),
    ("20 ahead of groups and path, a stopped node", |whole, node| {
        whole.node(node).map_or(false, |node| node.stopped)
    }),
];

/// The word that is left, which was garbage before.
const SAYING: [Named<LeavingWord>; 12] = [
    ("the inputs ahead of the buffer", inputs_first),
    ("any working buffer accepted", |call| content(call, 0)),
    ("a working buffer of the least length refused", |call| one_short(call, 0)),
    ("the working buffer left after a refusal", |call| left_after_refusal(call, 0)),
    ("the working buffer left", |call| left_past_file(call, 0)),
    ("the working buffer left past its least length", |call| left_past_least(call, 0)),
    ("neither yes nor no written", |call| word_left(call, |number| number == 0)),
    ("the word left on a refusal under 1", |call| word_left(call, |number| number == 1)),
    ("the word left on a refusal under 2", |call| word_left(call, |number| number == 2)),
    ("the word left on a refusal under 9", |call| word_left(call, |number| number == 9)),
    ("yes as all bits", |call| with_word(call, |yes| yes * u32::MAX)),
    ("yes and no exchanged", |call| with_word(call, |yes| 1 - yes)),
];

/// The names of all mistakes about the walk that is given, and about the check of one.
pub fn in_walks() -> Vec<&'static str> {
    let about_walks = [names(&FIND, |_| true), names(&ANSWERED, |_| true), names(&AHEAD, |_| true)].concat();
    [names(&READ, |_| true), about_walks, names(&leaving_one::<FILE_LIMIT>(), |_| true)].concat()
}

pub fn in_checks() -> Vec<&'static str> {
    [names(&READ, |_| true), names(&CHECK, |_| true), names(&SAYING, |_| true)].concat()
}

/// Nodes of a whole that is small enough for every mistake to be made in it.
const FEW: usize = 40;

fn read_short(whole: &[u8]) -> Read {
    read_whole_within(whole, WALKED_LIMIT)
}

/// Whole and path as they are read, if neither these nor the groups are refused.
fn read_both(whole: &[u8], groups: Option<&[u8]>, path: &[u8]) -> Option<(Part, Path)> {
    Some((read_short(whole).ok()?, read_path(path, &read_groups(groups).ok()?).ok()?))
}

/// The mistakes that a call about walks finds out: one with room those in reading the whole and, if its inputs are accepted, those about walks,
/// any one those in what is left.
pub fn found_out(call: &Call, room: Room, outcome: &Outcome) -> Vec<&'static str> {
    if refused(outcome, &["buffers"]) {
        return found_out_by_left(call, call.evaluate(call.least_room()), room);
    }
    let differs = |reading: &Reading| {
        read_otherwise(call, *reading).map_or(false, |other| answer(&other) != answer(outcome))
    };
    let reading = names(&READ, differs);
    [reading, found_out_with_room(call, outcome), found_out_by_left(call, outcome.clone(), room)].concat()
}

/// The outcome if the whole is read otherwise; `None` of a whole of so few words that it is the same.
fn read_otherwise(call: &Call, reading: Reading) -> Option<Outcome> {
    let read = |whole: &[u8]| (whole.len() >= 4 * WALKED_LIMIT).then(|| reading(whole));
    match call {
        Call::Walk { whole, groups, path, node } => {
            Some(walk_in(read(whole)?, groups.as_deref(), path, *node))
        }
        Call::CheckWalk { whole, groups, path, node, walk } => {
            Some(check_walk_in(read(whole)?, groups.as_deref(), path, *node, walk))
        }
        _ => None,
    }
}

fn found_out_with_room(call: &Call, outcome: &Outcome) -> Vec<&'static str> {
    let right = answer(outcome);
    let read =
        |whole: &[u8], groups: &Option<Vec<u8>>, path: &[u8]| read_both(whole, groups.as_deref(), path);
    match call {
        Call::Walk { whole, node, .. } if refused(outcome, &["groups", "path"]) => {
            read_short(whole).map_or(vec![], |whole| names(&AHEAD, |ahead| ahead(&whole, *node)))
        }
        Call::Walk { whole, groups, path, node } => {
            read(whole, groups, path).map_or(vec![], |(whole, path)| {
                let sought = Sought::new(&whole, &path, *node);
                let (few, links) =
                    (whole.nodes.len() <= FEW, sought.first(sought.starts(), |node| sought.onward(node)));
                let found = names(&FIND, |other| few && other.answer(&sought) != right);
                [found, names(&ANSWERED, |answered| answered(&sought, links.clone()) != right)].concat()
            })
        }
        Call::CheckWalk { whole, groups, path, node, walk } => {
            read(whole, groups, path).map_or(vec![], |(whole, path)| {
                let sought = Sought::new(&whole, &path, *node);
                names(&CHECK, |other| other.program().answer(&sought, walk) != right)
            })
        }
        _ => vec![],
    }
}

fn found_out_by_left(call: &Call, outcome: Outcome, room: Room) -> Vec<&'static str> {
    if let Call::CheckWalk { .. } = call {
        let call = Said { outcome, work: room.work };
        let left = call.owed(call.lengths());
        return names(&SAYING, |leaving| leaving(&call) != left);
    }
    let call = OneFile::<FILE_LIMIT> { outcome, room };
    let left = call.owed(call.lengths());
    names(&leaving_one(), |leaving: &LeavingOne<FILE_LIMIT>| leaving(&call) != left)
}

/// The call that says yes or no, by what is owed in a buffer of the least length; and its buffer.
pub struct Said {
    outcome: Outcome,
    work: usize,
}

impl Buffered<1> for Said {
    const LEAST: [usize; 1] = [WORK_BYTES];

    fn lengths(&self) -> [usize; 1] {
        [self.work]
    }

    fn owed(&self, taken: [usize; 1]) -> Left {
        let short = is_short(&taken, &Self::LEAST);
        let outcome = if short { refuse(1, "short") } else { self.outcome.clone() };
        Left::owed_said(&outcome, self.work)
    }

    fn files(&self) -> Option<Vec<Vec<u32>>> {
        self.outcome.clone().ok().map(|_| vec![])
    }
}

/// With another word for yes or no.
fn with_word(call: &Said, other: fn(u32) -> u32) -> Left {
    let left = call.owed(call.lengths());
    match left.number() {
        0 => Left { word: left.word.map(other), ..left },
        _ => left,
    }
}
