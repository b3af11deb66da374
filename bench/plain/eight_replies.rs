//! First replies for up to eight desks, one after another in one output, of a part that is checked once. And the same by single calls.
use super::files::{groups, settle, Outcome};
use super::first_reply::{reply, single, LIMIT};
use super::four_replies::paths;
use super::part::part;
use crate::desks::{packed_eight, DESKS, SHORT_WORDS};
use crate::inputs::Ask;
use crate::timing::{outputs, REPLY_BYTES};
use crate::visits::singly;
use crate::words::Groups;

struct Desks<'a> {
    part: &'a [u32],
    groups: &'a Groups,
    paths: Vec<&'a [u8]>,
    /// The replies that are put in.
    list: Vec<u32>,
    numbers: [u32; DESKS],
}

impl Desks<'_> {
    /// A desk's reply, as far as there is room behind those that are put in.
    fn reply(&self, desk: usize) -> Outcome {
        reply(self.part, self.paths[desk], self.groups, LIMIT - self.list.len())
    }

    fn put(&mut self, desk: usize, outcome: Outcome) {
        match outcome {
            Ok(reply) => self.list.extend(reply),
            Err(number) => self.numbers[desk] = number,
        }
    }

    /// The first round, as long as every desk behind could still have a short reply. Gives the desk at which that ends.
    fn lay(&mut self) -> usize {
        let count = self.paths.len();
        for desk in 0..count {
            let outcome = self.reply(desk);
            let kept = SHORT_WORDS * (count - desk - 1);
            if outcome == Err(15) || self.list.len() + words(&outcome) + kept > LIMIT {
                return desk;
            }
            self.put(desk, outcome);
        }
        count
    }

    /// The second round, from a desk with a long reply on: the words of the short ones behind it are known first.
    fn choose(&mut self, from: usize) {
        let count = self.paths.len();
        let mut later: usize = (from + 1..count).map(|desk| short_words(&self.reply(desk))).sum();
        for desk in from..count {
            let outcome = self.reply(desk);
            later -= short_words(&outcome);
            let fits = self.list.len() + words(&outcome) + later <= LIMIT;
            self.put(desk, if fits { outcome } else { Err(15) });
        }
    }
}

fn words(outcome: &Outcome) -> usize {
    outcome.as_ref().map_or(0, Vec::len)
}

/// The words of a reply that is short.
fn short_words(outcome: &Outcome) -> usize {
    Some(words(outcome)).filter(|&words| words <= SHORT_WORDS).unwrap_or(0)
}

/// The words that are put in, and the desks' numbers.
fn replies(ask: &Ask, handed: Option<&[u8]>) -> Result<(Vec<u32>, [u32; DESKS]), u32> {
    let (part, groups) = (part(&ask.file)?, groups(handed)?);
    let paths = paths(&ask.path, DESKS)?;
    let mut desks = Desks { part: &part, groups: &groups, paths, list: Vec::new(), numbers: [0; DESKS] };
    let from = desks.lay();
    desks.choose(from);
    Ok((desks.list, desks.numbers))
}

fn share(ask: &Ask, handed: Option<&[u8]>, out: &mut [u8], work: &mut [u8]) -> u64 {
    let (mut numbers, [out]) = ([0; DESKS], outputs(out, [REPLY_BYTES]));
    let whole = settle(LIMIT, out, work, || {
        let (list, told) = replies(ask, handed)?;
        numbers = told;
        Ok(list)
    });
    packed_eight(if whole == 0 { numbers } else { [whole; DESKS] })
}

pub fn eight_replies(ask: &Ask, out: &mut [u8], work: &mut [u8]) -> u64 {
    share(ask, None, out, work)
}

pub fn eight_replies_grouped(ask: &Ask, out: &mut [u8], work: &mut [u8]) -> u64 {
    share(ask, Some(&ask.groups), out, work)
}

pub fn eight_single_replies(ask: &Ask, out: &mut [u8], work: &mut [u8]) -> u64 {
    packed_eight(singly(ask, out, |path, out| single(ask, None, path, out, work)))
}

pub fn eight_single_replies_grouped(ask: &Ask, out: &mut [u8], work: &mut [u8]) -> u64 {
    packed_eight(singly(ask, out, |path, out| single(ask, Some(&ask.groups), path, out, work)))
}
