//! The running length of a first reply (document 02, request 4), by the library and by the evaluation. Before a door it is the length of the
//! reply of the same part with that door and all behind it taken for other nodes, as a door changes no walk inside a part: so it can be seen
//! before each door, and where it is over the limit the part is refused.

use mowqachi_tests::beside::{answer, Call};
use mowqachi_tests::evaluation::groups::OURS;
use mowqachi_tests::evaluation::part::{read_part, Part};
use mowqachi_tests::evaluation::path::read_path;
use mowqachi_tests::evaluation::replies::{first_reply_words, report_sizes, running_lengths};
use mowqachi_tests::evaluation::words::*;
use mowqachi_tests::generate::calls::asked_for_words;
use mowqachi_tests::generate::{path, plant};
use mowqachi_tests::mistakes::{names, LENGTHS};
use mowqachi_tests::random::{cases, seed, Naming, Random};
use mowqachi_tests::written::*;
use std::collections::BTreeSet;

/// The part with its first doors alone. A root is a door, so it is none once it is no door.
fn with_first_doors(part: &Part, count: usize) -> Part {
    let mut part = part.clone();
    for node in part.nodes.iter_mut().filter(|node| node.door).skip(count) {
        node.door = false;
        node.root = false;
    }
    part
}

/// Holds the replies of the first doors to the reply of all, cut off before each door. Gives how many pairs are reported of each door.
fn before_each(random: &mut Random, part: &Part, path: &[u32], counts: &[usize]) -> Vec<Vec<usize>> {
    let read = read_path(&bytes_of(path), &OURS).expect("a path");
    let sizes = report_sizes(part, &read);
    let (lengths, all) = (running_lengths(&sizes), first_reply_words(part, &read));
    assert_eq!(lengths[sizes.len()], all.len());
    for count in counts.iter().map(|count| *count.min(&sizes.len())) {
        let part = with_first_doors(part, count);
        let call = Call::FirstReply { part: bytes_of(&part.words()), groups: None, path: bytes_of(path) };
        let (number, words) = answer(&call.check(random, call.least_room()));
        let length = lengths[count];
        match length <= FILE_LIMIT {
            true => assert_eq!(
                (number, &words[..]),
                (0, &file(FIRST, part.site, read.n() as u32, &all[1..length])[..])
            ),
            false => assert_eq!(number, 15, "{length} words"),
        }
    }
    sizes
}

#[test]
fn document_01s_own() {
    for (site, lengths) in [vec![1, 6, 11], vec![1, 6]].into_iter().enumerate() {
        let part = read_part(&bytes(FILES.parts[site])).expect("a part");
        let sizes = before_each(&mut Random::new(1, "own", 0), &part, &words(P), &[0, 1, 2]);
        assert_eq!(running_lengths(&sizes), lengths);
    }
}

#[test]
fn before_each_door() {
    for case in 0..cases() / 15 {
        let _naming = Naming("before each door", case);
        let random = &mut Random::new(seed(), "before each door", case);
        let alphabet = path::alphabet(random);
        let plant = plant::some_plant(random, &alphabet);
        let (sites, further) = (random.between(1, 3), random.pick(&[0, 50, 100]));
        let parts = plant::true_cut(random, &plant, sites, further);
        let part = random.pick(&parts);
        let path = path::some_path(random, &alphabet);
        let counts: Vec<usize> = (0..=part.doors().count()).collect();
        before_each(random, &part, &path, &counts);
    }
}

/// Replies of the limit and some words less or more, of all their doors, one less and half of them: which program that miscounts would give
/// another number.
#[test]
fn at_the_limit() {
    let mut found = BTreeSet::new();
    for case in 0..cases() / 150 {
        let _naming = Naming("at the limit", case);
        let random = &mut Random::new(seed(), "at the limit", case);
        let length = FILE_LIMIT - 2 + random.below(5);
        let (part, path) = asked_for_words(random, length);
        let doors = part.doors().count();
        let sizes = before_each(random, &part, &path, &[doors, doors - 1, doors / 2]);
        assert_eq!(running_lengths(&sizes)[doors], length);
        found.extend(names(&LENGTHS, |counted| (counted(&sizes) > FILE_LIMIT) != (length > FILE_LIMIT)));
    }
    let all: BTreeSet<&str> = names(&LENGTHS, |_| true).into_iter().collect();
    assert_eq!(found, all, "not found out");
}
