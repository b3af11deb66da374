//! One reply for eight askers (request 11): which of the desks' replies are put in.

use super::words::*;
use super::{Outcome, Room};

/// The desks that ask, at most.
pub const DESKS: usize = 8;

/// The words of a reply that is always put in, at most.
pub const SHORT_LIMIT: usize = 512;

/// The least buffers that do not give 1.
pub const LEAST_ROOM: Room = Room { out: 4 * FILE_LIMIT, work: WORK_BYTES };

/// Why a long reply is refused that is within its own limit.
pub const WITHOUT_ROOM: &str = "without room";

/// Whether the request's sentence is true at each desk if just these are in: a short one always is; a long one if and only if it fits beside
/// all short ones and the long ones in that were asked for before it.
fn meets(words: &[usize], within: &[bool]) -> bool {
    let short = |at: usize| words[at] <= SHORT_LIMIT;
    let beside = |at: usize, other: usize| other == at || short(other) || other < at && within[other];
    let together = |at: usize| -> usize {
        (0..words.len()).filter(|other| beside(at, *other)).map(|other| words[other]).sum()
    };
    (0..words.len()).all(|at| within[at] == (short(at) || together(at) <= FILE_LIMIT))
}

/// Which replies of so many words are in, a refused path's having none: of all choices the one at which the sentence is true at each desk.
/// There is just one.
pub fn chosen(words: &[usize]) -> Vec<bool> {
    let choice = |set: usize| (0..words.len()).map(|at| set >> at & 1 == 1).collect::<Vec<bool>>();
    let choices = (0..1 << words.len()).map(choice);
    let right: Vec<Vec<bool>> = choices.filter(|within| meets(words, within)).collect();
    assert_eq!(right.len(), 1, "replies of {words:?} words");
    right.concat()
}

/// The words of each reply, none where the path is refused.
pub fn sizes(replies: &[Outcome]) -> Vec<usize> {
    replies.iter().map(|reply| reply.as_ref().map_or(0, Vec::len)).collect()
}

/// Number 15 for the long replies that have no room.
pub fn put_in(replies: Vec<Outcome>) -> Vec<Outcome> {
    let chosen = chosen(&sizes(&replies));
    let beside = |(reply, within): (Outcome, bool)| {
        let words = reply?;
        if !within {
            return refuse(15, WITHOUT_ROOM).map_err(|refusal| refusal.of("result"));
        }
        Ok(words)
    };
    replies.into_iter().zip(chosen).map(beside).collect()
}
