//! Triple files: a root word, then source, label and target of each triple, a word each.

/// The most words of such a file.
pub const TRIPLE_WORDS: usize = 12_286;

/// A triple as one number, by which triples are sorted: source, label, target from high to low.
pub fn key(source: u32, label: u32, target: u32) -> u64 {
    u64::from(source) << 28 | u64::from(label) << 16 | u64::from(target)
}

pub fn source(key: u64) -> u32 {
    (key >> 28) as u32
}

pub fn target(key: u64) -> u32 {
    (key & 0xffff) as u32
}
