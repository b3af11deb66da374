//! Lists put into another order or with some left out, and parts with other words, as programs that go wrong have them.

use crate::evaluation::part::{Node, Part};
use crate::evaluation::words::*;
use std::collections::BTreeSet;

pub fn sorted<T: Ord>(mut items: Vec<T>) -> Vec<T> {
    items.sort_unstable();
    items
}

pub fn reversed<T>(items: Vec<T>) -> Vec<T> {
    items.into_iter().rev().collect()
}

/// In this order, and where it leaves that open as they were.
pub fn by<T: Copy, Key: Ord>(mut items: Vec<T>, key: impl Fn(T) -> Key) -> Vec<T> {
    items.sort_by_key(|item| key(*item));
    items
}

/// The items without each that is by this the same as one before it.
pub fn first_of_each<T: Copy, Key: Ord>(mut items: Vec<T>, key: impl Fn(T) -> Key) -> Vec<T> {
    let mut seen = BTreeSet::new();
    items.retain(|item| seen.insert(key(*item)));
    items
}

pub fn neighbours_once<T: PartialEq>(mut items: Vec<T>) -> Vec<T> {
    items.dedup();
    items
}

pub fn without<T>(mut items: Vec<T>, dropped: impl Fn(&T) -> bool) -> Vec<T> {
    items.retain(|item| !dropped(item));
    items
}

pub fn with_nodes(mut part: Part, other: impl Fn(&mut Node)) -> Vec<u32> {
    part.nodes.iter_mut().for_each(other);
    part.words()
}

/// With another length in the header.
pub fn headed(part: Part, other: impl Fn(u32) -> u32) -> Vec<u32> {
    let mut words = part.words();
    words[0] = PART << 28 | other(bits(words[0], 13, 0));
    words
}
