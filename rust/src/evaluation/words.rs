//! Words, headers and refusals.

/// A refusal: its number, the input at fault, and the check that failed. Only the number is document 01's; the tests count the rest.
#[derive(Clone, Copy, PartialEq, Eq, PartialOrd, Ord, Debug)]
pub struct Refusal {
    pub number: u32,
    pub input: &'static str,
    pub why: &'static str,
}

impl Refusal {
    pub fn of(self, input: &'static str) -> Refusal {
        Refusal { input, ..self }
    }
}

pub fn refuse<T>(number: u32, why: &'static str) -> Result<T, Refusal> {
    Err(Refusal { number, input: "", why })
}

pub const PART: u32 = 1;
pub const NODE: u32 = 2;
pub const EDGE: u32 = 3;
pub const PATH: u32 = 4;
pub const LABEL: u32 = 5;
pub const OPERATOR: u32 = 6;
pub const FIRST: u32 = 7;
pub const DOOR: u32 = 8;
pub const ROW: u32 = 9;
pub const REACH: u32 = 0xA;
pub const CALLS: u32 = 0xB;
pub const CALL: u32 = 0xC;
pub const SECOND: u32 = 0xD;
pub const ANSWER: u32 = 0xE;
pub const FINAL: u32 = 0xF;

/// Words of a part, a reply, a call list, a file in a bundle.
pub const FILE_LIMIT: usize = 4096;
/// Words of a bundle, a final list.
pub const BUNDLE_LIMIT: usize = 8192;
pub const PATH_LIMIT: usize = 64;
/// Just so many words are groups.
pub const GROUP_COUNT: usize = 8;
pub const WORK_BYTES: usize = 32_768;

/// Bits `high` to `low` of a word, both included.
pub fn bits(word: u32, high: u32, low: u32) -> u32 {
    (word >> low) & (u32::MAX >> (31 - (high - low)))
}

pub fn kind(word: u32) -> u32 {
    bits(word, 31, 28)
}

pub fn bytes_of(words: &[u32]) -> Vec<u8> {
    words.iter().flat_map(|word| word.to_le_bytes()).collect()
}

/// Number 2, then the words.
pub fn words_of(bytes: &[u8], limit: usize) -> Result<Vec<u32>, Refusal> {
    if bytes.is_empty() {
        return refuse(2, "no words");
    }
    if bytes.len() % 4 != 0 {
        return refuse(2, "not in fours");
    }
    if bytes.len() / 4 > limit {
        return refuse(2, "over the limit");
    }
    let four = |b: &[u8]| u32::from_le_bytes([b[0], b[1], b[2], b[3]]);
    Ok(bytes.chunks(4).map(four).collect())
}

#[derive(Clone, Copy, PartialEq, Eq, Debug)]
pub struct Header {
    pub site: u32,
    pub n: u32,
    pub length: usize,
}

/// Number 3, then the fields.
pub fn read_header(word: u32, expected: u32) -> Result<Header, Refusal> {
    let (site, n) = (bits(word, 27, 24), bits(word, 23, 20));
    if kind(word) != expected {
        return refuse(3, "header kind");
    }
    if bits(word, 19, 14) != 0 {
        return refuse(3, "header zero bit");
    }
    if site != 0 && ![PART, FIRST, SECOND].contains(&expected) {
        return refuse(3, "header site unused");
    }
    if n != 0 && ![PATH, FIRST, CALLS, SECOND].contains(&expected) {
        return refuse(3, "header n unused");
    }
    Ok(Header { site, n, length: bits(word, 13, 0) as usize })
}

/// Numbers 2, 3 and 4 of an input that is one file; its header and the words behind it.
pub fn single_file(bytes: &[u8], limit: usize, expected: u32) -> Result<(Header, Vec<u32>), Refusal> {
    let words = words_of(bytes, limit)?;
    let header = read_header(words[0], expected)?;
    if header.length != words.len() {
        return refuse(4, "length wrong");
    }
    Ok((header, words[1..].to_vec()))
}

/// A file of these words behind a header with the true length.
pub fn file(kind: u32, site: u32, n: u32, words: &[u32]) -> Vec<u32> {
    let header = kind << 28 | site << 24 | n << 20 | (words.len() as u32 + 1);
    std::iter::once(header).chain(words.iter().copied()).collect()
}
