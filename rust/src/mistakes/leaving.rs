//! What calls leave in their buffers, by programs that take a length for another or leave bytes as they were lent.

use super::Named;
use crate::beside::Left;
use crate::evaluation::triples::TRIPLES_LIMIT;
use crate::evaluation::words::{refuse, WORK_BYTES};
use crate::evaluation::{Outcome, Room};
use crate::generate::calls::is_short;

/// A call with N buffers: its outputs, and last its working buffer.
pub trait Buffered<const N: usize> {
    /// The least lengths that do not give 1.
    const LEAST: [usize; N];

    fn lengths(&self) -> [usize; N];

    /// What is owed in its buffers if they are taken to have these lengths.
    fn owed(&self, taken: [usize; N]) -> Left;

    /// The files of its inputs, one for each output, unless these are refused.
    fn files(&self) -> Option<Vec<Vec<u32>>>;
}

/// With the inputs checked ahead of the buffers.
pub fn inputs_first<const N: usize, C: Buffered<N>>(call: &C) -> Left {
    call.owed(if call.files().is_some() { call.lengths() } else { C::LEAST })
}

/// With the length of a buffer taken for another.
fn with_length<const N: usize>(call: &impl Buffered<N>, at: usize, other: impl Fn(usize) -> usize) -> Left {
    let mut taken = call.lengths();
    taken[at] = other(taken[at]);
    call.owed(taken)
}

/// With a buffer of the least length refused.
pub fn one_short<const N: usize>(call: &impl Buffered<N>, at: usize) -> Left {
    with_length(call, at, |length| length.saturating_sub(1))
}

/// With the least length for that of a buffer that has room for its file, if it has one.
pub fn content<const N: usize, C: Buffered<N>>(call: &C, at: usize) -> Left {
    let least = call.files().map_or(usize::MAX, |files| files.get(at).map_or(0, |file| 4 * file.len()));
    with_length(call, at, |length| if length < least { length } else { length.max(C::LEAST[at]) })
}

/// With the bytes of a buffer as they were lent, from where `from` has it by the bytes of its file, which a refusal has not.
fn as_lent<const N: usize, C: Buffered<N>>(
    call: &C,
    at: usize,
    from: impl Fn(Option<usize>) -> Option<usize>,
) -> Left {
    let mut left = call.owed(call.lengths());
    let files = call.files().filter(|_| !is_short(&call.lengths(), &C::LEAST));
    let file = files.map(|files| files.get(at).map_or(0, |file| 4 * file.len()));
    left.buffers[at].iter_mut().skip(from(file).unwrap_or(usize::MAX)).for_each(|byte| *byte = 0x55);
    left
}

pub fn left_after_refusal<const N: usize>(call: &impl Buffered<N>, at: usize) -> Left {
    as_lent(call, at, |file| file.map_or(Some(0), |_| None))
}

pub fn left_past_file<const N: usize>(call: &impl Buffered<N>, at: usize) -> Left {
    as_lent(call, at, |file| file)
}

pub fn left_past_least<const N: usize, C: Buffered<N>>(call: &C, at: usize) -> Left {
    as_lent(call, at, |_| Some(C::LEAST[at]))
}

/// With the word that the call is lent as it was, if its number is such.
pub fn word_left<const N: usize>(call: &impl Buffered<N>, picked: fn(u32) -> bool) -> Left {
    let left = call.owed(call.lengths());
    match picked(left.number()) {
        true => Left { word: Some(0x5555_5555), ..left },
        false => left,
    }
}

/// A call with an output of at least so many words, by what is owed in the least buffers; and its buffers.
pub struct OneFile<const WORDS: usize> {
    pub outcome: Outcome,
    pub room: Room,
}

/// What is left by it.
pub type LeavingOne<const WORDS: usize> = fn(&OneFile<WORDS>) -> Left;

/// A program that does not look at the output's length is found out wherever one is that is content with room for its file.
pub fn leaving_one<const WORDS: usize>() -> Vec<Named<LeavingOne<WORDS>>> {
    vec![
        ("the input ahead of the buffers", inputs_first),
        ("room for the result's words accepted", |call| content(call, 0)),
        ("any working buffer accepted", |call| content(call, 1)),
        ("an output of the least length refused", |call| one_short(call, 0)),
        ("a working buffer of the least length refused", |call| one_short(call, 1)),
        ("the output left after a refusal", |call| left_after_refusal(call, 0)),
        ("the working buffer left after a refusal", |call| left_after_refusal(call, 1)),
        ("the output left past the result's words", |call| left_past_file(call, 0)),
        ("the working buffer left", |call| left_past_file(call, 1)),
        ("the output left past its least length", |call| left_past_least(call, 0)),
        ("the working buffer left past its least length", |call| left_past_least(call, 1)),
    ]
}

impl<const WORDS: usize> Buffered<2> for OneFile<WORDS> {
    const LEAST: [usize; 2] = [4 * WORDS, WORK_BYTES];

    fn lengths(&self) -> [usize; 2] {
        [self.room.out, self.room.work]
    }

    fn owed(&self, taken: [usize; 2]) -> Left {
        let short = is_short(&taken, &Self::LEAST);
        let outcome = if short { refuse(1, "short") } else { self.outcome.clone() };
        match WORDS {
            TRIPLES_LIMIT => Left::owed_counted(&outcome, self.room),
            _ => Left::owed_one(&outcome, self.room),
        }
    }

    fn files(&self) -> Option<Vec<Vec<u32>>> {
        self.outcome.clone().ok().map(|words| vec![words])
    }
}
