//! What all calls share: the checks of a file by itself, and what a call leaves in the lent buffers.
use crate::words::*;

/// The words of a result, or the number of the refusal.
pub type Outcome = Result<Vec<u32>, u32>;

/// Leaves an outcome in an output. Gives its number.
fn put(outcome: Outcome, out: &mut [u8]) -> u32 {
    let (number, words) = match outcome {
        Ok(words) => (0, words),
        Err(number) => (number, Vec::new()),
    };
    let (result, rest) = out.split_at_mut(4 * words.len());
    for (b, w) in result.chunks_exact_mut(4).zip(&words) {
        b.copy_from_slice(&w.to_le_bytes());
    }
    rest.fill(0);
    number
}

/// Runs a call whose result has at most `limit` words, and leaves its outcome in the buffers.
pub fn settle(limit: usize, out: &mut [u8], work: &mut [u8], call: impl FnOnce() -> Outcome) -> u32 {
    let [number] = settle_each([limit], [out], work, || Ok([call()]));
    number
}

/// The same of a call with several results, each with an output and a number of its own. What refuses the whole is the number of each.
pub fn settle_each<const N: usize>(
    limits: [usize; N],
    outs: [&mut [u8]; N],
    work: &mut [u8],
    call: impl FnOnce() -> Result<[Outcome; N], u32>,
) -> [u32; N] {
    let room = outs.iter().zip(limits).all(|(out, limit)| out.len() / 4 >= limit) && work.len() >= 32_768;
    let outcomes = if room { call() } else { Err(1) };
    work.fill(0);
    let outcomes = outcomes.unwrap_or_else(|number| [(); N].map(|_| Err(number)));
    let mut numbers = [0; N];
    for ((number, outcome), out) in numbers.iter_mut().zip(outcomes).zip(outs) {
        *number = put(outcome, out);
    }
    numbers
}

/// A number, unless all is well.
pub fn unless(number: u32, ok: bool) -> Result<(), u32> {
    if ok {
        Ok(())
    } else {
        Err(number)
    }
}

pub fn sized(bytes: &[u8], limit: usize) -> Outcome {
    unless(2, bytes.len() % 4 == 0 && !bytes.is_empty() && bytes.len() / 4 <= limit)?;
    Ok(words(bytes))
}

/// 3 and the length's 4; `unused` has the bits of the fields that the kind does not use.
pub fn head(h: u32, kind_is: u32, unused: u32, len: usize) -> Result<(), u32> {
    unless(3, kind(h) == kind_is && h & (0x000f_c000 | unused) == 0)?;
    unless(4, size(h) == len)
}

pub fn file(bytes: &[u8], limit: usize, kind_is: u32, unused: u32) -> Outcome {
    let ws = sized(bytes, limit)?;
    head(ws[0], kind_is, unused, ws.len())?;
    Ok(ws)
}

/// The groups that a call is handed: 16, unless they are eight ranges. Ours, where it is handed none.
pub fn groups(handed: Option<&[u8]>) -> Result<Groups, u32> {
    let mut groups = OURS;
    if let Some(bytes) = handed {
        unless(16, bytes.len() == 32)?;
        for (group, w) in groups.iter_mut().zip(words(bytes)) {
            let (low, high) = ends(w);
            unless(16, kind(w) == 5 && sort(w) == 0 && low <= high)?;
            *group = w;
        }
    }
    Ok(groups)
}

/// A call list.
pub fn calls(bytes: &[u8]) -> Outcome {
    let ws = file(bytes, 4096, 11, 0x0f00_0000)?;
    let (n, mut last) = (labels(ws[0]), 0);
    for &w in &ws[1..] {
        unless(5, w & 0xfff0_0000 == CALL)?;
        unless(10, state(w) <= n)?;
        unless(6, last < w)?;
        last = w;
    }
    Ok(ws)
}
