//! Bundles: file by file, then over all.
use super::files::{head, sized, unless, Outcome};
use super::part::NodeSet;
use crate::words::*;

fn door(w: u32, last: u32, low: u32, rooted: bool) -> Result<(), u32> {
    unless(5, w & 0x0ffe_0000 == 0 && kind(last) != 9)?;
    unless(6, low <= node(w))?;
    unless(7, w & ROOT_DOOR == 0 || !rooted)
}

fn first_words(h: u32, ws: &[u32]) -> Result<(), u32> {
    let n = labels(h);
    let (mut last, mut low, mut next, mut rooted) = (0, 0, 0, false);
    for &w in ws {
        match kind(w) {
            8 => {
                door(w, last, low, rooted)?;
                rooted |= w & ROOT_DOOR != 0;
                (low, next) = (node(w) + 1, 0);
            }
            9 => {
                unless(5, w & 0x0fff_fff0 == 0 && low != 0 && kind(last) != 9)?;
                unless(10, state(w) <= n)?;
                unless(6, next <= state(w))?;
                next = state(w) + 1;
            }
            10 => {
                unless(5, w & 0x0ff0_0000 == 0 && matches!(kind(last), 9 | 10))?;
                unless(10, state(w) <= n)?;
                unless(6, last < w)?;
            }
            _ => return Err(5),
        }
        last = w;
    }
    unless(5, kind(last) != 9)
}

fn second_words(_: u32, ws: &[u32]) -> Result<(), u32> {
    let mut last = 0;
    for &w in ws {
        unless(5, w & 0xffff_0000 == ANSWER)?;
        unless(6, last < w)?;
        last = w;
    }
    Ok(())
}

/// The words of the file that begins with this header, of so many that are left. None where its length is 0 or past the end.
pub fn stretch(h: u32, left: usize) -> Option<usize> {
    Some(size(h)).filter(|&len| 0 < len && len <= left)
}

/// 2, then file by file.
fn files(bytes: &[u8], kind_is: u32, body: impl Fn(u32, &[u32]) -> Result<(), u32>) -> Outcome {
    let ws = sized(bytes, 8192)?;
    let mut rest = &ws[..];
    while let Some(&h) = rest.first() {
        head(h, kind_is, 0, size(h))?;
        let len = stretch(h, rest.len()).filter(|&len| len <= 4096).ok_or(4u32)?;
        body(h, &rest[1..len])?;
        rest = &rest[len..];
    }
    Ok(ws)
}

/// 12: a site twice, or a different n.
fn headers(ws: &[u32]) -> Result<(), u32> {
    let (mut sites, mut at) = (0u16, 0);
    while at < ws.len() {
        let h = ws[at];
        unless(12, sites >> site(h) & 1 == 0 && labels(h) == labels(ws[0]))?;
        sites |= 1 << site(h);
        at += size(h);
    }
    Ok(())
}

/// 13: a node in two words of a kind.
fn once(ws: &[u32], of: u32) -> Result<(), u32> {
    let mut seen = NodeSet::new();
    unless(13, ws.iter().all(|&w| kind(w) != of || seen.add(node(w))))
}

/// A bundle of first replies. 14 comes with the search.
pub fn first_bundle(bytes: &[u8]) -> Outcome {
    let ws = files(bytes, 7, first_words)?;
    headers(&ws)?;
    unless(7, ws.iter().filter(|&&w| kind(w) == 8 && w & ROOT_DOOR != 0).count() == 1)?;
    once(&ws, 8)?;
    Ok(ws)
}

pub fn second_bundle(bytes: &[u8]) -> Outcome {
    let ws = files(bytes, 13, second_words)?;
    headers(&ws)?;
    once(&ws, 14)?;
    Ok(ws)
}
