//! Up to four first replies of a part that is checked once; all else is done for each path. And the same by single calls.
use super::bundle::stretch;
use super::files::{groups, settle_each, sized, Outcome};
use super::first_reply::{reply, single, LIMIT};
use super::part::part;
use crate::inputs::Ask;
use crate::visits::{four_outputs, packed, singly};

/// The paths of a bundle, at most so many, by their headers' lengths alone: 17.
pub fn paths(bytes: &[u8], most: usize) -> Result<Vec<&[u8]>, u32> {
    let ws = sized(bytes, 8192).map_err(|_| 17u32)?;
    let (mut files, mut at) = (Vec::with_capacity(most), 0);
    while at < ws.len() {
        let len = stretch(ws[at], ws.len() - at).filter(|_| files.len() < most).ok_or(17u32)?;
        files.push(&bytes[4 * at..4 * (at + len)]);
        at += len;
    }
    Ok(files)
}

/// Past the last path an output has no words.
fn replies(ask: &Ask, handed: Option<&[u8]>) -> Result<[Outcome; 4], u32> {
    let ws = part(&ask.file)?;
    let groups = groups(handed)?;
    let mut files = paths(&ask.path, 4)?.into_iter();
    Ok([(); 4].map(|_| files.next().map_or(Ok(Vec::new()), |file| reply(&ws, file, &groups, LIMIT))))
}

fn visit(ask: &Ask, handed: Option<&[u8]>, out: &mut [u8], work: &mut [u8]) -> u32 {
    packed(settle_each([LIMIT; 4], four_outputs(out), work, || replies(ask, handed)))
}

pub fn four_replies(ask: &Ask, out: &mut [u8], work: &mut [u8]) -> u32 {
    visit(ask, None, out, work)
}

pub fn four_replies_grouped(ask: &Ask, out: &mut [u8], work: &mut [u8]) -> u32 {
    visit(ask, Some(&ask.groups), out, work)
}

pub fn single_replies(ask: &Ask, out: &mut [u8], work: &mut [u8]) -> u32 {
    packed(singly(ask, out, |path, out| single(ask, None, path, out, work)))
}

pub fn single_replies_grouped(ask: &Ask, out: &mut [u8], work: &mut [u8]) -> u32 {
    packed(singly(ask, out, |path, out| single(ask, Some(&ask.groups), path, out, work)))
}
