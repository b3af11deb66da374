//! The eight groups of labels: document 01's, or the ones that a call is handed (request 3).

use super::words::*;

/// Word g is laid out as a range and has the labels of group g.
pub type Groups = [u32; 8];

pub const OURS: Groups = [
    0x50ff_f000, // 0 to 4095
    0x503f_f000, // 0 to 1023
    0x500f_f000, // 0 to 255
    0x505f_f400, // 1024 to 1535
    0x506f_f600, // 1536 to 1791
    0x507f_f700, // 1792 to 2047
    0x50bf_f800, // 2048 to 3071
    0x50ff_ffc0, // 4032 to 4095
];

fn check_group(word: u32) -> Result<(), Refusal> {
    if kind(word) != LABEL {
        return refuse(16, "no label word");
    }
    match bits(word, 27, 24) {
        0 if bits(word, 11, 0) > bits(word, 23, 12) => refuse(16, "low end above high"),
        0 => Ok(()),
        1 => refuse(16, "sort 1"),
        2 => refuse(16, "sort 2"),
        _ => refuse(16, "label sort"),
    }
}

/// Number 16 of groups that are handed in, then their words; ours where none are.
pub fn read_groups(handed: Option<&[u8]>) -> Result<Groups, Refusal> {
    let bytes = match handed {
        Some(bytes) => bytes,
        None => return Ok(OURS),
    };
    if bytes.len() < 32 {
        return refuse(16, "fewer than 32 bytes");
    }
    if bytes.len() > 32 {
        return refuse(16, "more than 32 bytes");
    }
    let words = words_of(bytes, GROUP_COUNT).expect("32 bytes are eight words");
    words.iter().try_for_each(|word| check_group(*word))?;
    Ok(words.try_into().expect("eight words"))
}
