//! Walks: a header that is just the number of words, then the edge words.

/// The most words of a whole in which a walk is asked for, and of a walk.
pub const WHOLE_WORDS: usize = 1024;
pub const WALK_WORDS: usize = 4096;

/// The file of these links.
pub fn walk_file(links: &[u32]) -> Vec<u32> {
    [&[1 + links.len() as u32], links].concat()
}
