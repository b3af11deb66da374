//! Programs that go wrong about the triple edition, each a right one but for one thing: in a whole from triples, in triples from a whole, and in
//! what is left by both.

pub mod from;
pub mod to;

use super::leaving::*;
use super::{names, Named};
use crate::beside::{answer, Left};
use crate::evaluation::plant::Link;
use crate::evaluation::triples::{LEAST_FROM, LEAST_TO, TRIPLES_LIMIT};
use crate::evaluation::words::*;
use crate::evaluation::{from_triples, to_triples, Room};
use crate::generate::calls::is_short;

/// The count that is left, which was garbage before.
const COUNTS: [Named<LeavingOne<TRIPLES_LIMIT>>; 5] = [
    ("no count handed out", |call| word_left(call, |number| number == 0)),
    ("count left on a refusal under 1", |call| word_left(call, |number| number == 1)),
    ("count left on a refusal of the whole", |call| word_left(call, |number| (2..=8).contains(&number))),
    ("count left on a refusal under 19", |call| word_left(call, |number| number == 19)),
    ("the root counted on a refusal", |call| {
        let left = call.owed(call.lengths());
        Left { word: Some(left.word.unwrap_or(0).max(1)), ..left }
    }),
];

/// The names of all mistakes about a whole from triples, and about triples from a whole.
pub fn in_triples() -> Vec<&'static str> {
    [names(&from::FROM, |_| true), names(&leaving_one::<FILE_LIMIT>(), |_| true)].concat()
}

pub fn in_wholes() -> Vec<&'static str> {
    [names(&to::TO, |_| true), names(&leaving_one::<TRIPLES_LIMIT>(), |_| true), names(&COUNTS, |_| true)]
        .concat()
}

/// The mistakes that a call for a whole from triples finds out: one with room those about the files, any one those in what is left.
pub fn found_out_by_triples(triples: &[u8], room: Room) -> Vec<&'static str> {
    let owed = from_triples(triples, LEAST_FROM);
    let right = answer(&owed);
    let has_room = !is_short(&[room.out, room.work], &[LEAST_FROM.out, LEAST_FROM.work]);
    let call = OneFile::<FILE_LIMIT> { outcome: owed, room };
    let left = call.owed(call.lengths());
    let about_files = names(&from::FROM, |other| has_room && other.turn(triples) != right);
    [about_files, names(&leaving_one(), |leaving: &LeavingOne<FILE_LIMIT>| leaving(&call) != left)].concat()
}

/// The same of a call for triples from a whole.
pub fn found_out_by_whole(whole: &[u8], room: Room) -> Vec<&'static str> {
    let owed = to_triples(whole, LEAST_TO);
    let right = answer(&owed);
    let right = (right.clone(), right.1.len());
    let has_room = !is_short(&[room.out, room.work], &[LEAST_TO.out, LEAST_TO.work]);
    let call = OneFile::<TRIPLES_LIMIT> { outcome: owed, room };
    let left = call.owed(call.lengths());
    let differs = |leaving: &LeavingOne<TRIPLES_LIMIT>| leaving(&call) != left;
    let about_files = names(&to::TO, |other| has_room && other.turn(whole) != right);
    [about_files, names(&leaving_one(), differs), names(&COUNTS, differs)].concat()
}

fn turned((source, label, target): Link) -> Link {
    (target, label, source)
}
