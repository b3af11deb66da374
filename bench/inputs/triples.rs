//! Triple files, and the wholes of these.
use super::{bundle, shape, Ask, Draws, Shape};
use crate::plain::triples_whole;
use crate::timing::counted;
use crate::words::{bytes, kind, NODE};

type Triple = [u32; 3];

/// A triple file whose root is node 0.
fn file(triples: &[Triple]) -> Vec<u8> {
    bytes(&[&[0], triples.concat().as_slice()].concat())
}

fn from(triples: Vec<Triple>) -> Ask {
    Ask { triples: vec![file(&triples)], ..Ask::default() }
}

/// Sixteen files, each in another order.
fn from_shuffled(mut triples: Vec<Triple>) -> Ask {
    let mut draws = Draws(triples.len() as u32);
    let mut another = || {
        for i in (1..triples.len()).rev() {
            triples.swap(i, draws.below(i as u32 + 1) as usize);
        }
        file(&triples)
    };
    Ask { triples: (0..16).map(|_| another()).collect(), ..Ask::default() }
}

/// How many triples a file of so many words has.
fn triples_in(size: usize) -> u32 {
    size as u32 / 3
}

fn reversed(mut triples: Vec<Triple>) -> Vec<Triple> {
    triples.reverse();
    triples
}

/// Loops of node 0, ascending, all different but the last two. The whole has a word more than there are triples, and none of its size holds
/// more different ones.
fn loops(count: u32) -> Vec<Triple> {
    (0..count).map(|k| [0, k.min(count - 2), 0]).collect()
}

/// A ring of nodes far apart, each with a link to the next; each link twice, and one a third time. The whole has as many words as there are
/// triples.
fn ring(count: u32) -> Vec<Triple> {
    let nodes = (count - 1) / 2;
    (0..count).map(|k| k % nodes).map(|x| [32 * x, x, 32 * ((x + 1) % nodes)]).collect()
}

/// No two ends are the same. The whole has as many words as the file.
fn apart(count: u32) -> Vec<Triple> {
    (0..count).map(|k| [16 * k, k, 16 * k + 8]).collect()
}

fn ten() -> Vec<Triple> {
    let mut draws = Draws(10);
    (0..10).map(|_| [draws.below(5), draws.below(4096), draws.below(5)]).collect()
}

pub fn from_triples() -> Vec<Shape> {
    vec![
        shape("one node, shuffled", |n| from_shuffled(loops(triples_in(n)))),
        shape("one node, sorted", |n| from(loops(triples_in(n)))),
        shape("one node, reversed", |n| from(reversed(loops(triples_in(n))))),
        shape("one triple over and over", |n| from(vec![[0, 5, 1]; triples_in(n) as usize])),
        shape("ring, each link twice, shuffled", |n| from_shuffled(ring(triples_in(n)))),
        shape("no two ends the same, shuffled, from 6142 words on over the limit (15)", |n| Ask {
            number: if n > 4096 { 15 } else { 0 },
            ..from_shuffled(apart(triples_in(n)))
        }),
        shape("ten triples, at any size", |_| from(ten())),
    ]
}

/// The whole of these triples.
fn whole(triples: &[Triple]) -> Vec<u32> {
    triples_whole(&file(triples)).expect("triples whose whole is not too long")
}

/// A whole that triples can say.
fn to(whole: Vec<u32>) -> Ask {
    let links = whole[1..].iter().filter(|&&w| kind(w) == 3).count() as u32;
    Ask { number: counted(0, 1 + 3 * links), ..bundle(whole) }
}

/// The whole with one more node, the last, which has no link.
fn with_lone(mut whole: Vec<u32>) -> Vec<u32> {
    whole.push(NODE | 0xffff);
    whole[0] += 1;
    whole
}

pub fn to_triples() -> Vec<Shape> {
    vec![
        shape("one node", |n| to(whole(&loops(n as u32 - 1)))),
        shape("ring", |n| to(whole(&ring(n as u32 - 1)))),
        shape("ring, and a last node without a link (19)", |n| Ask { number: 19, ..bundle(with_lone(whole(&ring(n as u32 - 1)))) }),
        shape("one triple, at any size", |_| to(whole(&[[0, 5, 1]]))),
        shape("ten triples, at any size", |_| to(whole(&ten()))),
    ]
}
