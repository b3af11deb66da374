//! Programs that go wrong about the check of a walk: which words and headers a walk may have, where it starts, which links and nodes it has,
//! where it ends, what it spells, and what is said.

use crate::evaluation::part::Node;
use crate::evaluation::walks::*;
use crate::evaluation::words::*;
use crate::mistakes::{Answer, Named};
use std::collections::BTreeSet;

/// A program that looks at bytes as a walk.
#[derive(Clone, Copy)]
pub struct Program {
    /// The words of the bytes, if a walk may have so many.
    words: fn(&[u8]) -> Option<Vec<u32>>,
    /// Whether they have the header of a walk.
    headed: fn(&[u32]) -> bool,
    /// The nodes at which it may start.
    starts: fn(&Sought) -> Vec<u32>,
    /// Whether it may go on from a node by a word.
    stands: fn(&Sought, &Node, u32) -> bool,
    /// Whether it may be at a node: by its place, and that of the last.
    passes: fn(&Node, usize, usize) -> bool,
    /// Whether it may go over just these nodes.
    ends: fn(&Sought, &[u32]) -> bool,
    spells: fn(&Sought, &[u32]) -> bool,
    /// What is said, by the bytes and by whether they are a walk.
    said: fn(&Sought, &[u8], bool) -> Answer,
}

/// Without a mistake.
pub const RIGHT: Program = Program {
    words: |bytes| words_of(bytes, FILE_LIMIT).ok(),
    headed: |words| words[0] as usize == words.len(),
    starts: |sought| sought.whole.root().map(|root| root.number).into_iter().collect(),
    stands: |_, node, word| words_behind(node).contains(&word),
    passes: |node, _, _| !node.stopped,
    ends: |sought, nodes| nodes.last() == Some(&sought.node),
    spells: |sought, labels| sought.rests.behind(labels).map_or(false, |rest| sought.rests.may_end(rest)),
    said: |_, _, yes| say(yes),
};

/// What a program does in another way.
pub enum Other {
    Words(fn(&[u8]) -> Option<Vec<u32>>),
    Headed(fn(&[u32]) -> bool),
    Starts(fn(&Sought) -> Vec<u32>),
    Stands(fn(&Sought, &Node, u32) -> bool),
    Passes(fn(&Node, usize, usize) -> bool),
    Ends(fn(&Sought, &[u32]) -> bool),
    Spells(fn(&Sought, &[u32]) -> bool),
    Said(fn(&Sought, &[u8], bool) -> Answer),
}

use Other::*;

/// The check of a walk.
pub const CHECK: [Named<Other>; 42] = [
    ("bytes not in fours cut off", Words(|bytes| (RIGHT.words)(&bytes[..bytes.len() / 4 * 4]))),
    (
        "no bytes taken for no links",
        Words(|bytes| if bytes.is_empty() { Some(vec![1]) } else { (RIGHT.words)(bytes) }),
    ),
    ("4,097 words accepted", Words(|bytes| words_of(bytes, FILE_LIMIT + 1).ok())),
    ("4,096 words refused", Words(|bytes| words_of(bytes, FILE_LIMIT - 1).ok())),
    ("words past the header's length passed over", Words(cut_to_length)),
    ("a header that says more words than there are", Headed(|words| words[0] as usize >= words.len())),
    ("the header not looked at", Headed(|_| true)),
    ("the header's length alone looked at", Headed(|words| bits(words[0], 13, 0) as usize == words.len())),
    ("the header's kind not looked at", Headed(|words| bits(words[0], 27, 0) as usize == words.len())),
    ("a header of sixteen bits", Headed(|words| bits(words[0], 15, 0) as usize == words.len())),
    ("links counted in the header", Headed(|words| words[0] as usize + 1 == words.len())),
    ("a walk from any door", Starts(|sought| sought.whole.doors().map(|door| door.number).collect())),
    ("a walk from any node", Starts(|sought| sought.whole.nodes.iter().map(|node| node.number).collect())),
    (
        "a walk from the least node",
        Starts(|sought| sought.whole.nodes.iter().map(|node| node.number).take(1).collect()),
    ),
    (
        "an edge of any node",
        Stands(|sought, _, word| sought.whole.nodes.iter().any(|node| words_behind(node).contains(&word))),
    ),
    ("links not looked at", Stands(|_, _, _| true)),
    (
        "a link by its label alone",
        Stands(|_, node, word| words_behind(node).iter().any(|own| own >> 16 == word >> 16)),
    ),
    (
        "a link by its target alone",
        Stands(|_, node, word| words_behind(node).iter().any(|own| target_of(*own) == target_of(word))),
    ),
    (
        "edge words of any kind",
        Stands(|_, node, word| words_behind(node).contains(&(EDGE << 28 | bits(word, 27, 0)))),
    ),
    (
        "the last edge of a node not found",
        Stands(|_, node, word| words_behind(node).iter().rev().skip(1).any(|own| *own == word)),
    ),
    ("a stopped root passed", Passes(|node, at, _| !node.stopped || at == 0)),
    ("a stopped node passed", Passes(|node, at, last| !node.stopped || at > 0 && at < last)),
    ("a stopped node as the end", Passes(|node, at, last| !node.stopped || at == last)),
    ("any end", Ends(|_, _| true)),
    ("a walk that passes the node", Ends(|sought, nodes| nodes.contains(&sought.node))),
    ("the node cut to 16 bits", Ends(|sought, nodes| nodes.last() == Some(&(sought.node & 0xffff)))),
    ("labels not looked at", Spells(|_, _| true)),
    ("labels that begin a word", Spells(|sought, labels| sought.rests.behind(labels).is_some())),
    (
        "labels of which the first are a word",
        Spells(|sought, labels| (0..=labels.len()).any(|count| (RIGHT.spells)(sought, &labels[..count]))),
    ),
    ("no labels always a word", Spells(|sought, labels| labels.is_empty() || (RIGHT.spells)(sought, labels))),
    ("no labels never a word", Spells(|sought, labels| !labels.is_empty() && (RIGHT.spells)(sought, labels))),
    (
        "no to a walk that is not the lowest",
        Said(|sought, bytes, yes| say(yes && given(sought) == words_of(bytes, FILE_LIMIT).ok())),
    ),
    (
        "no to more links than need be",
        Said(
            |sought, bytes, yes| say(yes && given(sought).map(|words| 4 * words.len()) == Some(bytes.len())),
        ),
    ),
    ("no to a node twice", Said(|sought, bytes, yes| say(yes && !comes_twice(sought, bytes)))),
    ("2 for no bytes", Said(|_, bytes, yes| refused_if(bytes.is_empty(), 2, yes))),
    ("2 for bytes not in fours", Said(|_, bytes, yes| refused_if(bytes.len() % 4 != 0, 2, yes))),
    ("2 for over 4,096 words", Said(|_, bytes, yes| refused_if(bytes.len() > 4 * FILE_LIMIT, 2, yes))),
    ("15 for over 4,096 words", Said(|_, bytes, yes| refused_if(bytes.len() > 4 * FILE_LIMIT, 15, yes))),
    (
        "3 for another kind",
        Said(|_, bytes, yes| refused_if(header(bytes).map_or(false, |word| kind(word) != 0), 3, yes)),
    ),
    (
        "4 for another length",
        Said(|_, bytes, yes| {
            let other = |word: u32| 4 * bits(word, 13, 0) as usize != bytes.len();
            refused_if(header(bytes).map_or(false, other), 4, yes)
        }),
    ),
    (
        "5 for a word that is no edge word",
        Said(|_, bytes, yes| {
            let words = words_of(bytes, FILE_LIMIT).unwrap_or_default();
            refused_if(words.iter().skip(1).any(|word| kind(*word) != EDGE), 5, yes)
        }),
    ),
    ("20 for an unlisted node", Said(|sought, _, yes| refused_if(!yes && given(sought).is_none(), 20, yes))),
];

impl Other {
    /// The program that is right but for this.
    pub fn program(&self) -> Program {
        match *self {
            Words(words) => Program { words, ..RIGHT },
            Headed(headed) => Program { headed, ..RIGHT },
            Starts(starts) => Program { starts, ..RIGHT },
            Stands(stands) => Program { stands, ..RIGHT },
            Passes(passes) => Program { passes, ..RIGHT },
            Ends(ends) => Program { ends, ..RIGHT },
            Spells(spells) => Program { spells, ..RIGHT },
            Said(said) => Program { said, ..RIGHT },
        }
    }
}

impl Program {
    pub fn answer(&self, sought: &Sought, bytes: &[u8]) -> Answer {
        (self.said)(sought, bytes, self.is_walk(sought, bytes))
    }

    fn is_walk(&self, sought: &Sought, bytes: &[u8]) -> bool {
        let words = match (self.words)(bytes) {
            Some(words) => words,
            None => return false,
        };
        let labels: Vec<u32> = words[1..].iter().copied().map(label_of).collect();
        let starts = (self.starts)(sought);
        (self.headed)(&words)
            && starts.into_iter().any(|start| self.leads(sought, start, &words[1..]))
            && (self.spells)(sought, &labels)
    }

    /// Whether these links lead from here to where they should.
    fn leads(&self, sought: &Sought, start: u32, links: &[u32]) -> bool {
        let nodes: Vec<u32> = std::iter::once(start).chain(links.iter().copied().map(target_of)).collect();
        let at =
            |number: u32, picked: &dyn Fn(&Node) -> bool| sought.whole.node(number).map_or(false, picked);
        links.iter().zip(&nodes).all(|(word, from)| at(*from, &|node| (self.stands)(sought, node, *word)))
            && (0..nodes.len()).all(|place| at(nodes[place], &|node| (self.passes)(node, place, links.len())))
            && (self.ends)(sought, &nodes)
    }
}

fn say(yes: bool) -> Answer {
    (0, vec![u32::from(yes)])
}

/// Such bytes refused under this number.
fn refused_if(such: bool, number: u32, yes: bool) -> Answer {
    match such {
        true => (number, vec![]),
        false => say(yes),
    }
}

/// The words of the walk that is given.
fn given(sought: &Sought) -> Option<Vec<u32>> {
    lowest_walk(sought.whole, sought.path, sought.node).map(|links| walk_file(&links))
}

fn header(bytes: &[u8]) -> Option<u32> {
    words_of(bytes, FILE_LIMIT).ok().map(|words| words[0])
}

/// The words up to where the header says that they end.
fn cut_to_length(bytes: &[u8]) -> Option<Vec<u32>> {
    let words = words_of(bytes, FILE_LIMIT).ok()?;
    let length = bits(words[0], 13, 0) as usize;
    Some(words[..length.clamp(1, words.len())].to_vec())
}

fn comes_twice(sought: &Sought, bytes: &[u8]) -> bool {
    let words = words_of(bytes, FILE_LIMIT).unwrap_or_default();
    let nodes: BTreeSet<u32> =
        words.iter().skip(1).copied().map(target_of).chain((RIGHT.starts)(sought)).collect();
    nodes.len() < words.len()
}
