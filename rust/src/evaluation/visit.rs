//! Several paths in one visit (request 6): how a bundle of them is taken apart.

use super::words::*;
use std::iter::successors;

/// The paths of one visit, at most.
pub const VISIT_PATHS: usize = 4;

/// The lengths of the lent buffers, in bytes: an output for each path, and the working buffer.
pub type Rooms = [usize; VISIT_PATHS + 1];

/// The least that do not give 1.
pub const LEAST_ROOMS: Rooms = [4 * FILE_LIMIT, 4 * FILE_LIMIT, 4 * FILE_LIMIT, 4 * FILE_LIMIT, WORK_BYTES];

/// Why no file of a bundle ends where the bundle does, by the places where the first ones begin and the words of the bundle.
fn why_not(places: &[usize], words: usize) -> &'static str {
    match places {
        [.., last] if *last > words => "length past the end",
        [.., before, last] if before == last => "length 0",
        _ => "too many files",
    }
}

/// Number 17, then the files of a bundle of at most so many paths. From its beginning one goes on by each header's length, and within so many
/// steps must come to its end; nothing else of the files is looked at.
pub fn split_paths(bytes: &[u8], most: usize) -> Result<Vec<&[u8]>, Refusal> {
    let words = words_of(bytes, BUNDLE_LIMIT).map_err(|refusal| Refusal { number: 17, ..refusal })?;
    let next = |place: &usize| words.get(*place).map(|header| place + bits(*header, 13, 0) as usize);
    let mut places: Vec<usize> = successors(Some(0), next).take(most + 1).collect();
    match places.iter().position(|place| *place == words.len()) {
        Some(files) => {
            places.truncate(files + 1);
            Ok(places.windows(2).map(|ends| &bytes[4 * ends[0]..4 * ends[1]]).collect())
        }
        None => refuse(17, why_not(&places, words.len())),
    }
}
