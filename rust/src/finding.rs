//! Which mistakes a call or a path finds out: by which of them a program would give another outcome.

use crate::beside::{answer, Call, Desks, Left, Visit};
use crate::evaluation::dearest::{Counts, Rooms};
use crate::evaluation::desks::WITHOUT_ROOM;
use crate::evaluation::generator::Source;
use crate::evaluation::groups::{read_groups, Groups, OURS};
use crate::evaluation::hub::{read_first_bundle, FirstBundle};
use crate::evaluation::path::{read_path, read_path_by, MayStand, Path};
use crate::evaluation::visit;
use crate::evaluation::words::*;
use crate::evaluation::{BothFiles, Generated, Outcome, Room, Visited};
use crate::mistakes::desks::{self as asking, Asking};
use crate::mistakes::generator::{self, Other};
use crate::mistakes::visit::{self as visiting, Visiting};
use crate::mistakes::*;

/// The call with its plant's and path's words taken for others, if any of them is.
fn mistaken_call(call: &Call, taken: Taken) -> Option<Call> {
    let mut call = call.clone();
    let files = match &mut call {
        Call::OldSearch { whole, path, .. }
        | Call::Walk { whole, path, .. }
        | Call::CheckWalk { whole, path, .. } => vec![whole, path],
        Call::Cut { whole, .. } => vec![whole],
        Call::FirstReply { part, path, .. } | Call::SecondReply { part, path, .. } => vec![part, path],
        Call::CallList { .. } | Call::Join { .. } => vec![],
    };
    let mut changed = false;
    for file in files {
        if let Some(others) = mistaken(&words_of(file, FILE_LIMIT).ok()?, taken) {
            *file = bytes_of(&others);
            changed = true;
        }
    }
    changed.then_some(call)
}

/// A call in its buffers, with the outcome that is right.
struct Made<'a> {
    call: &'a Call,
    room: Room,
    outcome: &'a Outcome,
}

impl Made<'_> {
    fn differs(&self, other: &Outcome) -> bool {
        answer(other) != answer(self.outcome)
    }

    /// Whether a call whose inputs are accepted finds out a mistake in reading words.
    fn misread(&self, taken: Taken) -> bool {
        let other = || mistaken_call(self.call, taken).map(|call| call.evaluate(self.room));
        (self.outcome.is_ok() || refused(self.outcome, &["node"]))
            && other().map_or(false, |other| self.differs(&other))
    }

    /// Whether a program that holds words to this rule would give another number: the call comes to its path, and the path's number is
    /// another. No check behind the path's gives 9, so the call's number is another too.
    fn miscounted(&self, may_stand: MayStand) -> bool {
        let path = match self.call.groups_and_path() {
            Some((_, path)) => path,
            None => return false,
        };
        let number = |read: Result<Path, Refusal>| read.err().map(|refusal| refusal.number);
        !ahead_of_groups(self.outcome)
            && !refused(self.outcome, &["groups"])
            && number(read_path_by(path, &OURS, may_stand)) != number(read_path(path, &OURS))
    }

    fn with(&self, groups: &[u8]) -> Outcome {
        self.call.with(Some(groups)).expect("it reads a path").evaluate(self.room)
    }

    /// The mistakes in reading the groups that the call is handed, if it is.
    fn misgrouped(&self) -> Vec<&'static str> {
        let (groups, path) = match self.call.groups_and_path() {
            Some((Some(groups), path)) => (groups, path),
            _ => return vec![],
        };
        let differs = |groups: &[u8]| self.differs(&self.with(groups));
        if let Ok(right) = read_groups(Some(groups)) {
            let named = names_groups(path);
            return names(&GROUPS, |regrouped| named && differs(&bytes_of(&regrouped(right))));
        }
        let ours = self.with(&bytes_of(&OURS));
        let sixteen = refuse(16, "groups");
        let misplaced = |passed: bool| self.differs(if passed { &ours } else { &sixteen });
        let mended = names(&LOADED, |mended| differs(&mended(groups)));
        [mended, names(&PLACES, |passed_over| misplaced(passed_over(&ours, path)))].concat()
    }
}

/// The mistakes about strays by which a hub would give another outcome for this bundle, unless a check ahead of 14 refuses it.
pub fn found_out_by_bundle(bundle: &[u8], outcome: &Outcome) -> Vec<&'static str> {
    let differs = |bundle: &FirstBundle, hub: Hub| answer(&hub(bundle)) != answer(outcome);
    read_first_bundle(bundle).map_or(vec![], |bundle| names(&STRAYS, |hub| differs(&bundle, *hub)))
}

/// The mistakes that a call finds out: an accepted one those in reading words, any one those in counting operands, in reading groups, about
/// strays and about walks.
pub fn found_out_by_call(call: &Call, room: Room, outcome: &Outcome) -> Vec<&'static str> {
    if let Call::CallList { bundle } = call {
        return match refused(outcome, &["buffers"]) {
            true => vec![],
            false => found_out_by_bundle(bundle, outcome),
        };
    }
    let made = Made { call, room, outcome };
    let [stopped, outside] = [&STOPPED[..], &OUTSIDE].map(|table| names(table, |taken| made.misread(*taken)));
    let waiting = names(&WAITING, |may_stand| made.miscounted(*may_stand));
    let about_walks = match call {
        Call::Walk { .. } | Call::CheckWalk { .. } => walks::found_out(call, room, outcome),
        _ => vec![],
    };
    [stopped, outside, waiting, made.misgrouped(), about_walks].concat()
}

/// The mistakes that a call for the dearest files finds out: an accepted one those in the files, one that comes to its counts those in which
/// are accepted, any one those in what is left.
pub fn found_out_by_counts(counts: Counts, rooms: Rooms, outcome: &BothFiles) -> Vec<&'static str> {
    let right = Left::owed_both(outcome, rooms);
    let accepting = |accepting: &Accepting| right.number() != 1 && accepting(counts) != outcome.is_ok();
    let written = |written: &Written| outcome.as_ref().map_or(false, |files| written(counts) != *files);
    let leaving = |leaving: &Leaving| leaving(&(counts, rooms)) != right;
    [names(&COUNTS, accepting), names(&WRITTEN, written), names(&LEAVING, leaving)].concat()
}

/// The mistakes that a call for a drawn plant finds out: an accepted one those in how it is drawn, one that comes to its counts those in which
/// are accepted, any one those in what is left.
pub fn found_out_by_source(source: &Source, room: Room, outcome: &Generated) -> Vec<&'static str> {
    let right = Left::owed_drawn(outcome, source, room);
    let accepting = |accepting: &generator::Accepting| {
        right.number() != 1 && accepting(source.nodes, source.edges) != outcome.is_ok()
    };
    let drawing = |other: &Other| outcome.as_ref().map_or(false, |own| other.program().draw(source) != *own);
    let leaving = |leaving: &generator::Leaving| leaving(&(*source, room)) != right;
    let counts = names(&generator::COUNTS, accepting);
    [counts, names(&generator::DRAWING, drawing), names(&generator::LEAVING, leaving)].concat()
}

/// The mistakes that the last of some paths finds out as a call by itself, by what becomes of it; as such a call has it, if the whole is
/// refused. One whose reply has no room beside the others finds out none.
fn found_out_by_last_path(mut singles: Vec<Call>, room: Room, visited: &Visited) -> Vec<&'static str> {
    let single = match singles.pop() {
        Some(single) => single,
        None => return vec![],
    };
    let of_last = |outcomes: &Vec<Outcome>| outcomes.last().cloned();
    match visited.as_ref().ok().and_then(of_last).unwrap_or_else(|| single.evaluate(room)) {
        Err(Refusal { why: WITHOUT_ROOM, .. }) => vec![],
        outcome => found_out_by_call(&single, room, &outcome),
    }
}

/// The mistakes that a visit finds out: those that its last path does, in buffers as short as the shortest, and those about visits.
pub fn found_out_by_visit(visit: &Visit, rooms: visit::Rooms, visited: &Visited) -> Vec<&'static str> {
    let [outs @ .., work] = rooms;
    let room = Room { out: outs.into_iter().fold(usize::MAX, usize::min), work };
    let about_visits = visiting::found_out(&Visiting::new(visit, rooms, visited), visited);
    [found_out_by_last_path(visit.singles(), room, visited), about_visits].concat()
}

/// The same of desks.
pub fn found_out_by_desks(desks: &Desks, room: Room, visited: &Visited) -> Vec<&'static str> {
    let about_desks = asking::found_out(&Asking::new(desks, room, visited), visited);
    [found_out_by_last_path(desks.singles(), room, visited), about_desks].concat()
}

/// The mistakes in reading label words, and the groups that are handed in, by which a path is refused, or `of` it is not what is right.
pub fn found_out_by_path<T: PartialEq>(
    path: &[u32],
    groups: Option<Groups>,
    right: &T,
    of: impl Fn(&Path) -> T,
) -> Vec<&'static str> {
    let differs = |path: &[u32], groups: Groups| {
        read_path(&bytes_of(path), &groups).map_or(true, |path| of(&path) != *right)
    };
    let by = groups.unwrap_or(OURS);
    let misread = |taken: Taken| mistaken(path, taken).map_or(false, |other| differs(&other, by));
    let misgrouped = |regrouped: Regrouped| groups.map_or(false, |own| differs(path, regrouped(own)));
    [names(&OUTSIDE, |taken| misread(*taken)), names(&GROUPS, |regrouped| misgrouped(*regrouped))].concat()
}
