//! Programs that go wrong about several paths in one visit: for which buffers, in which output each path is answered, and what is left. What
//! any call for a bundle of paths may go wrong about is in `paths.rs`.

use super::leaving::*;
use super::paths::{self, in_bundles_of_paths, programs, Asked, File};
use super::{names, Named};
use crate::beside::{answers, Left, Visit};
use crate::evaluation::visit::{Rooms, LEAST_ROOMS, VISIT_PATHS};
use crate::evaluation::words::*;
use crate::evaluation::{Outcome, Visited};
use crate::generate::calls::is_short;
use std::ops::Range;

/// A program that answers a visit.
#[derive(Clone, Copy)]
pub struct Program {
    /// Reads the bundle and answers each path.
    paths: paths::Program,
    /// Whether buffers are too short for so many paths.
    short: fn(&Rooms, usize) -> bool,
    /// Gives the replies to so many paths their outputs.
    put: fn(&mut Vec<File>, usize),
}

/// Without a mistake.
pub const RIGHT: Program =
    Program { paths: paths::RIGHT, short: |rooms, _| any_short(rooms, VISIT_PATHS), put: |_, _| {} };

/// What a program does in another way.
pub enum Other {
    Short(fn(&Rooms, usize) -> bool),
    Put(fn(&mut Vec<File>, usize)),
}

use Other::*;

/// A visit in its buffers.
pub struct Visiting<'a> {
    asked: Asked<'a>,
    rooms: Rooms,
    /// What is right in buffers that are long enough.
    right: Visited,
}

/// What is left by a program in its buffers.
pub type Leaving = fn(&Visiting) -> Left;

/// Which buffers are too short, and in which output each path is answered.
pub const OUTPUTS: [Named<Other>; 9] = [
    ("the first output's length alone looked at", Short(|rooms, _| any_short(rooms, 1))),
    ("the last output's length not looked at", Short(|rooms, _| any_short(rooms, VISIT_PATHS - 1))),
    ("short outputs past the last path accepted", Short(any_short)),
    (
        "outputs of 65,536 bytes together accepted",
        Short(|rooms, _| any_short(rooms, 0) || rooms[..VISIT_PATHS].iter().sum::<usize>() < 65_536),
    ),
    ("outputs exchanged", Put(|files, _| files.swap(0, 1))),
    ("the first reply in the last output", Put(|files, _| files.reverse())),
    (
        "no output for a refused path",
        Put(|files, _| {
            files.retain(|words| !words.is_empty());
            files.resize(VISIT_PATHS, vec![]);
        }),
    ),
    (
        "the last reply past the last path",
        Put(|files, paths| {
            let last = files[paths - 1].clone();
            files[paths..].fill(last);
        }),
    ),
    ("a lone header past the last path", Put(|files, paths| files[paths..].fill(file(FIRST, 0, 0, &[])))),
];

/// What is left in buffers. A program that does not look at an output's length is found out wherever one is that is content with room for its
/// reply.
pub const LEAVING: [Named<Leaving>; 26] = [
    ("a short output refuses its own path alone", short_by_itself),
    ("the inputs ahead of the buffers", |visiting| inputs_first(visiting)),
    ("room for the first reply's words accepted", |visiting| content(visiting, 0)),
    ("room for the second reply's words accepted", |visiting| content(visiting, 1)),
    ("room for the third reply's words accepted", |visiting| content(visiting, 2)),
    ("room for the last reply's words accepted", |visiting| content(visiting, 3)),
    ("any working buffer accepted", |visiting| content(visiting, 4)),
    ("a first output of 16,384 bytes refused", |visiting| one_short(visiting, 0)),
    ("a last output of 16,384 bytes refused", |visiting| one_short(visiting, 3)),
    ("a working buffer of 32,768 bytes refused", |visiting| one_short(visiting, 4)),
    ("the first output left after a refusal", |visiting| left_after_refusal(visiting, 0)),
    ("the second output left after a refusal", |visiting| left_after_refusal(visiting, 1)),
    ("the third output left after a refusal", |visiting| left_after_refusal(visiting, 2)),
    ("the last output left after a refusal", |visiting| left_after_refusal(visiting, 3)),
    ("the working buffer left after a refusal", |visiting| left_after_refusal(visiting, 4)),
    ("the first output left past 16,384 bytes", |visiting| left_past_least(visiting, 0)),
    ("the second output left past 16,384 bytes", |visiting| left_past_least(visiting, 1)),
    ("the third output left past 16,384 bytes", |visiting| left_past_least(visiting, 2)),
    ("the last output left past 16,384 bytes", |visiting| left_past_least(visiting, 3)),
    ("the working buffer left past 32,768 bytes", |visiting| left_past_least(visiting, 4)),
    ("the working buffer left", |visiting| left_past_file(visiting, 4)),
    ("the working buffer left behind a refused path", |visiting| match visiting.right.as_deref() {
        Ok([.., Err(_)]) => left_past_file(visiting, 4),
        _ => visiting.owed(visiting.rooms),
    }),
    ("an output left past its reply's words", |visiting| {
        left_where(visiting, |own| matches!(own, Some(Ok(_))))
    }),
    ("a refused path's output left", |visiting| left_where(visiting, |own| matches!(own, Some(Err(_))))),
    ("outputs past the last path left", |visiting| left_where(visiting, |own| own.is_none())),
    ("the words that fit left after a 15", words_that_fit),
];

/// The names of all mistakes about visits, with groups or without.
pub fn in_visits(grouped: bool) -> Vec<&'static str> {
    [in_bundles_of_paths(grouped), names(&OUTPUTS, |_| true), names(&LEAVING, |_| true)].concat()
}

/// The mistakes by which a program would leave another number, output or working buffer.
pub fn found_out(asked: &Visiting, visited: &Visited) -> Vec<&'static str> {
    let (right, left) = (answers(visited, VISIT_PATHS), Left::owed_visit(visited, asked.rooms));
    let differs = |program: Program| program.answer(asked) != right;
    let of_paths = programs(|paths| differs(Program { paths, ..RIGHT }));
    let own = names(&OUTPUTS, |other| differs(other.program()));
    [of_paths, own, names(&LEAVING, |leaving| leaving(asked) != left)].concat()
}

impl Other {
    /// The program that is right but for this.
    fn program(&self) -> Program {
        match *self {
            Short(short) => Program { short, ..RIGHT },
            Put(put) => Program { put, ..RIGHT },
        }
    }
}

impl Program {
    /// The numbers, and the words in the outputs.
    pub fn answer(&self, visiting: &Visiting) -> (Vec<u32>, Vec<File>) {
        match self.paths.outcomes(&visiting.asked, |paths| (self.short)(&visiting.rooms, paths)) {
            Ok((paths, outcomes)) => {
                let (mut numbers, mut outputs) = answers(&Ok(outcomes), VISIT_PATHS);
                (self.paths.numbered)(&mut numbers, paths);
                (self.put)(&mut outputs, paths);
                (numbers, outputs)
            }
            Err(numbers) => (numbers, vec![vec![]; VISIT_PATHS]),
        }
    }
}

impl<'a> Visiting<'a> {
    /// By what is right in these buffers.
    pub fn new(visit: &'a Visit, rooms: Rooms, visited: &Visited) -> Visiting<'a> {
        let right = match any_short(&rooms, VISIT_PATHS) {
            true => visit.evaluate(LEAST_ROOMS),
            false => visited.clone(),
        };
        Visiting { asked: Asked::new(visit, VISIT_PATHS, &right), rooms, right }
    }
}

impl Buffered<{ VISIT_PATHS + 1 }> for Visiting<'_> {
    const LEAST: Rooms = LEAST_ROOMS;

    fn lengths(&self) -> Rooms {
        self.rooms
    }

    fn owed(&self, taken: Rooms) -> Left {
        match any_short(&taken, VISIT_PATHS) {
            true => Left::owed(&[1; VISIT_PATHS], &[], &self.rooms),
            false => Left::owed_visit(&self.right, self.rooms),
        }
    }

    fn files(&self) -> Option<Vec<File>> {
        self.right.as_ref().ok().map(|_| answers(&self.right, VISIT_PATHS).1)
    }
}

/// Whether one of so many outputs is too short, or the working buffer.
fn any_short(rooms: &Rooms, outputs: usize) -> bool {
    let among = |range: Range<usize>| is_short(&rooms[range.clone()], &LEAST_ROOMS[range]);
    among(0..outputs) || among(VISIT_PATHS..rooms.len())
}

/// With 1 for the paths alone whose outputs are short.
fn short_by_itself(visiting: &Visiting) -> Left {
    if any_short(&visiting.rooms, 0) {
        return visiting.owed(visiting.rooms);
    }
    let (mut numbers, mut files) = answers(&visiting.right, VISIT_PATHS);
    for at in (0..VISIT_PATHS).filter(|at| visiting.rooms[*at] < LEAST_ROOMS[*at]) {
        (numbers[at], files[at]) = (1, vec![]);
    }
    Left::owed(&numbers, &files, &visiting.rooms)
}

/// With the outputs of some paths, or past the last one, left behind their words as they were lent.
fn left_where(visiting: &Visiting, picked: impl Fn(Option<&Outcome>) -> bool) -> Left {
    let (mut left, replies) = (visiting.owed(visiting.rooms), visiting.right.as_deref().unwrap_or(&[]));
    for at in (0..VISIT_PATHS).filter(|at| picked(replies.get(*at))) {
        left.buffers[at] = left_past_file(visiting, at).buffers.swap_remove(at);
    }
    left
}

/// With the beginning of replies that are over their limit in their outputs.
fn words_that_fit(visiting: &Visiting) -> Left {
    let mut left = visiting.owed(visiting.rooms);
    let over = |at: &usize| visiting.right.is_ok() && left.numbers[*at] == 15;
    for at in (0..VISIT_PATHS).filter(over).collect::<Vec<_>>() {
        let words = visiting.asked.words_for(at);
        left.buffers[at][..4 * FILE_LIMIT].copy_from_slice(&bytes_of(&words[..FILE_LIMIT]));
    }
    left
}
