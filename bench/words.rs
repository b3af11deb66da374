//! The documents' words, as the plain versions and the inputs use them.

pub const NODE: u32 = 2 << 28;
pub const EDGE: u32 = 3 << 28;
pub const DOOR_WORD: u32 = 8 << 28;
pub const ROW: u32 = 9 << 28;
pub const REACH: u32 = 10 << 28;
pub const CALL: u32 = 12 << 28;
pub const ANSWER: u32 = 14 << 28;
pub const DOOR: u32 = 1 << 16;
pub const ROOT: u32 = 1 << 17;
pub const STOPPED: u32 = 1 << 18;
/// The root bit of a door word.
pub const ROOT_DOOR: u32 = 1 << 16;

pub const EMPTY: u32 = 6 << 28;
pub const THEN: u32 = 6 << 28 | 1;
pub const OR: u32 = 6 << 28 | 2;
pub const STAR: u32 = 6 << 28 | 3;

pub const fn range(low: u32, high: u32) -> u32 {
    5 << 28 | high << 12 | low
}

/// The labels of group g.
pub fn group(g: u32) -> u32 {
    5 << 28 | 1 << 24 | g
}

/// Word g has the labels of group g.
pub type Groups = [u32; 8];

/// Document 01's.
pub const OURS: Groups = [
    range(0, 4095),
    range(0, 1023),
    range(0, 255),
    range(1024, 1535),
    range(1536, 1791),
    range(1792, 2047),
    range(2048, 3071),
    range(4032, 4095),
];

/// All labels but those of the range.
pub fn outside(low: u32, high: u32) -> u32 {
    range(low, high) | 2 << 24
}

pub fn edge(label: u32, target: u32) -> u32 {
    EDGE | label << 16 | target
}

pub fn header(kind: u32, site: u32, labels: u32) -> u32 {
    kind << 28 | site << 24 | labels << 20
}

pub fn kind(w: u32) -> u32 {
    w >> 28
}

pub fn site(w: u32) -> u32 {
    w >> 24 & 15
}

pub fn labels(w: u32) -> u32 {
    w >> 20 & 15
}

pub fn size(w: u32) -> usize {
    (w & 0x3fff) as usize
}

/// The number of a node, door or answer word, and the target of an edge word.
pub fn node(w: u32) -> u32 {
    w & 0xffff
}

pub fn label(w: u32) -> u32 {
    w >> 16 & 0xfff
}

/// The node of a reach or call word.
pub fn pair_node(w: u32) -> u32 {
    w >> 4 & 0xffff
}

pub fn state(w: u32) -> u32 {
    w & 15
}

/// The low and the high end of a label word with a range.
pub fn ends(w: u32) -> (u32, u32) {
    (w & 0xfff, w >> 12 & 0xfff)
}

/// The sort of a label word.
pub fn sort(w: u32) -> u32 {
    w >> 24 & 15
}

pub fn words(bytes: &[u8]) -> Vec<u32> {
    bytes.chunks_exact(4).map(|b| u32::from_le_bytes([b[0], b[1], b[2], b[3]])).collect()
}

pub fn bytes(words: &[u32]) -> Vec<u8> {
    words.iter().flat_map(|w| w.to_le_bytes()).collect()
}
