//! The dearest part and path (document 02, request 13), by the library and by the evaluation: the two files, which counts are refused, what is
//! left in outputs and working buffer; how long the first reply of just these files is, and that no first reply is longer.

use mowqachi_tests::beside::{answer, check_dearest, Call};
use mowqachi_tests::evaluation::dearest::*;
use mowqachi_tests::evaluation::groups::OURS;
use mowqachi_tests::evaluation::part::{Node, Part};
use mowqachi_tests::evaluation::path::{read_path, Path};
use mowqachi_tests::evaluation::replies::first_reply_words;
use mowqachi_tests::evaluation::words::*;
use mowqachi_tests::evaluation::BothFiles;
use mowqachi_tests::finding::found_out_by_counts;
use mowqachi_tests::generate::calls::{asked, dearly_asked, Asked};
use mowqachi_tests::generate::counts::wrapping;
use mowqachi_tests::generate::path::{or_of, range, OR, STAR, THEN};
use mowqachi_tests::generate::plant::some_plant;
use mowqachi_tests::meeting::meet;
use mowqachi_tests::mistakes::{in_dearest_files, names, Named};
use mowqachi_tests::random::{cases, seed, Random};
use mowqachi_tests::written::{bytes, path_of, words};
use std::collections::{BTreeMap, BTreeSet};

fn fixed() -> Random {
    Random::new(1, "dearest", 0)
}

/// In the least buffers.
fn dearest(random: &mut Random, counts: Counts) -> BothFiles {
    check_dearest(random, counts, LEAST_ROOMS)
}

fn number(outcome: &BothFiles) -> u32 {
    outcome.as_ref().err().map_or(0, |refusal| refusal.number)
}

/// How many of these counts are accepted, and how many get 21.
fn each(all: impl IntoIterator<Item = Counts>) -> [usize; 2] {
    let (random, mut met) = (&mut fixed(), [0, 0]);
    for counts in all {
        match number(&dearest(random, counts)) {
            0 => met[0] += 1,
            21 => met[1] += 1,
            other => panic!("{other} for {counts:?}"),
        }
    }
    met
}

#[test]
fn in_words() {
    let full = "50fff000";
    let further = |count: usize| format!("{full} 60000002 ").repeat(count);
    for (counts, part, path) in [
        ([1, 1, 1], "10000003 20010000 30000001", format!("40100003 {full} 60000003")),
        (
            [1, 2, 15],
            "10000004 20010000 30000001 30000002",
            format!("40f0001f {full} {}60000003", further(14)),
        ),
        (
            [2, 3, 3],
            "10000009 20010000 30000002 30000003 30000004 20010001 30000002 30000003 30000004",
            format!("40300007 {full} {full} 60000002 {full} 60000002 60000003"),
        ),
        (
            [3, 1, 2],
            "10000007 20010000 30000003 20010001 30000003 20010002 30000003",
            format!("40200005 {full} {full} 60000002 60000003"),
        ),
    ] {
        assert_eq!(dearest(&mut fixed(), counts), Ok([words(part), words(&path)]), "{counts:?}");
    }
    // as the other tests write such a path
    (1..=15).for_each(|n| assert_eq!(dearest_path(n as u32), or_of(range(0, 4095), n, true)));
}

#[test]
fn small_counts() {
    let pairs = (0..=8).flat_map(|doors| (0..=8).map(move |targets| (doors, targets)));
    let all = pairs.flat_map(|(doors, targets)| (0..=17).map(move |labels| [doors, targets, labels]));
    assert_eq!(each(all), [8 * 8 * 15, 9 * 9 * 18 - 8 * 8 * 15]);
}

/// Every part that can be written, with each number of labels by turns; and the next that cannot, of each number of doors and of targets.
#[test]
fn every_part() {
    let labelled = |[doors, targets]: [u32; 2]| [doors, targets, 1 + (doors ^ targets) % 15];
    let within = |doors: u32| (1..4095 / doors).map(move |targets| [doors, targets]);
    let parts = (1..=2047).flat_map(within);
    assert_eq!(each(parts.clone().map(labelled)), [parts.count(), 0]);
    let beyond = |own: u32| [[own, 4095 / own], [4095 / (own + 1) + 1, own]];
    assert_eq!(each((1..=4095).flat_map(beyond).map(labelled)), [0, 2 * 4095]);
}

/// At these a count, or a sum or product of two, may be taken for another.
const EDGES: &str = "0 1 2 14 15 16 17 31 63 64 65 2047 2048 4094 4095 4096 65535 65536 65537 \
                     2147483647 2147483648 2147483649 4294967294 4294967295";

#[test]
fn counts_at_the_edges() {
    let edges: Vec<u32> = EDGES.split_whitespace().map(|edge| edge.parse().expect(edge)).collect();
    let random = &mut fixed();
    for doors in &edges {
        for targets in &edges {
            let words = 1 + u128::from(*doors) * (1 + u128::from(*targets));
            let fits = *doors > 0 && *targets > 0 && words <= 4096;
            for labels in &edges {
                let owed = if fits && (1..=15).contains(labels) { 0 } else { 21 };
                let counts = [*doors, *targets, *labels];
                assert_eq!(number(&dearest(random, counts)), owed, "{counts:?}");
            }
        }
    }
}

#[test]
fn counts_that_wrap() {
    let [half, most] = [1 << 31, u32::MAX];
    let written = [
        [65_536, 65_535, 1],
        [65_535, 65_536, 1],
        [65_536, 65_536, 1],
        [half, 1, 1],
        [half, 2, 1],
        [2, half, 1],
        [2, half - 1, 1],
        [1, most, 1],
        [most, 1, 1],
        [65_536, most, 15],
        [most, most, most],
    ];
    assert_eq!(each(written), [0, written.len()]);
    let random = &mut Random::new(seed(), "counts that wrap", 0);
    assert_eq!(each((0..1000).flat_map(|_| wrapping(random))), [0, 2000]);
}

/// Each length around the least, none, half and twice as much, of each buffer; with counts that are accepted and such that are not.
#[test]
fn buffers() {
    let (random, mut met) = (&mut fixed(), BTreeMap::new());
    let lengths = |least: usize| [0, least / 2, 2 * least].into_iter().chain(least - 4..=least + 4);
    for (at, counts) in [[1, 1, 1], [63, 64, 15], [0, 1, 1], [2048, 1, 1]].into_iter().enumerate() {
        for part in lengths(16_384) {
            for path in lengths(256) {
                for work in lengths(32_768) {
                    let outcome = check_dearest(random, counts, [part, path, work]);
                    let short = part < 16_384 || path < 256 || work < 32_768;
                    assert_eq!(number(&outcome), if short { 1 } else { [0, 0, 21, 21][at] });
                    *met.entry(number(&outcome)).or_insert(0) += 1;
                }
            }
        }
    }
    assert_eq!(met, BTreeMap::from([(0, 2 * 216), (1, 4 * (1728 - 216)), (21, 2 * 216)]));
}

/// A few calls find each mistake out.
#[test]
fn mistakes() {
    let least = LEAST_ROOMS;
    let calls = [
        // every mistake in the files shows here
        ([2, 3, 3], least),
        // 4,096 words, fifteen labels
        ([63, 64, 15], least),
        // 4,097 words
        ([2048, 1, 1], least),
        ([0, 1, 1], least),
        ([1, 0, 1], least),
        ([1, 1, 0], least),
        ([1, 1, 16], least),
        ([1, 1, 17], least),
        ([65_537, 1, 1], least),
        ([65_536, 65_535, 1], least),
        ([65_536, u32::MAX, 1], least),
        ([1, 1, 1], [16_383, 256, 32_768]),
        ([1, 1, 1], [16_384, 255, 32_768]),
        ([1, 1, 1], [16_384, 256, 32_767]),
        ([1, 1, 16], [16_384, 255, 32_768]),
        ([1, 1, 1], [16_385, 257, 32_769]),
    ];
    let found = calls.into_iter().flat_map(|(counts, rooms)| {
        let outcome = check_dearest(&mut fixed(), counts, rooms);
        found_out_by_counts(counts, rooms, &outcome)
    });
    let all: BTreeSet<&str> = in_dearest_files().into_iter().collect();
    assert_eq!(found.collect::<BTreeSet<_>>(), all, "not found out");
}

/// The first reply of just these two files, by the library and by the evaluation.
fn reply(random: &mut Random, counts: Counts) -> (u32, Vec<u32>) {
    let [part, path] = dearest(random, counts).expect("counts that are accepted").map(|file| bytes_of(&file));
    let call = Call::FirstReply { part, groups: None, path };
    answer(&call.check(random, call.least_room()))
}

fn longest(counts: Counts) -> usize {
    let [doors, targets, labels] = counts.map(|count| count as usize);
    longest_reply(doors, targets, labels)
}

/// It has the longest reply's words, or is refused with 15 if these are too many.
fn replies_with_the_longest(random: &mut Random, counts: Counts) {
    let (number, words) = reply(random, counts);
    let owed = if longest(counts) <= 4096 { (0, longest(counts)) } else { (15, 0) };
    assert_eq!((number, words.len()), owed, "{counts:?}");
}

#[test]
fn document_01s_row_15() {
    assert_eq!([8, 9].map(|targets| longest([2, targets, 15])), [3875, 4355]);
    let (number, words) = reply(&mut fixed(), [2, 8, 15]);
    assert_eq!((number, words.len(), words[0]), (0, 3875, 0x70f0_0000 | 3875));
    assert_eq!(reply(&mut fixed(), [2, 9, 15]), (15, vec![]));
}

/// Of all counts with so many labels, those whose longest reply comes nearest to the limit from below, and from above.
fn nearest(labels: u32) -> [(usize, Vec<Counts>); 2] {
    let parts = (1..=2047).flat_map(|doors| (1..4095 / doors).map(move |targets| [doors, targets, labels]));
    let all: Vec<(usize, Counts)> = parts.map(|counts| (longest(counts), counts)).collect();
    let (below, above): (Vec<_>, Vec<_>) = all.into_iter().partition(|(length, _)| *length <= 4096);
    let of = |length: Option<usize>, side: &[(usize, Counts)]| {
        let length = length.expect("both sides have some");
        (length, side.iter().filter(|own| own.0 == length).map(|own| own.1).collect())
    };
    let (most, least) = (below.iter().map(|own| own.0).max(), above.iter().map(|own| own.0).min());
    [of(most, &below), of(least, &above)]
}

#[test]
fn replies_at_the_limit() {
    let (random, mut full) = (&mut fixed(), BTreeSet::new());
    for labels in 1..=15 {
        for (length, all) in nearest(labels) {
            println!("{labels:2} labels, {length} words: {all:?}");
            full.extend((length == 4096).then_some(labels));
            all.into_iter().for_each(|counts| replies_with_the_longest(random, counts));
        }
    }
    // the only ones with a reply of just 4,096 words
    assert_eq!(full, BTreeSet::from([1, 3, 7]));
}

#[test]
fn small_replies() {
    let random = &mut fixed();
    for (doors, targets) in (1..=4).flat_map(|doors| (1..=4).map(move |targets| (doors, targets))) {
        (1..=15).for_each(|labels| replies_with_the_longest(random, [doors, targets, labels]));
    }
}

/// A reply that is too long to be given has the longest reply's words all the same, by the evaluation.
#[test]
fn replies_over_the_limit() {
    for counts in
        [[2, 9, 15], [5, 100, 4], [819, 1, 2], [63, 64, 3], [1, 4094, 3], [2047, 1, 3], [20, 20, 15]]
    {
        let [doors, targets, labels] = counts;
        let path = read_path(&bytes_of(&dearest_path(labels)), &OURS).expect("a path");
        let length = first_reply_words(&dearest_part(doors, targets), &path).len();
        assert_eq!((length, length > 4096), (longest(counts), true), "{counts:?}");
    }
}

/// The counts of a part and a path, and how many words the first reply has that a site owes: no more than the longest of such counts.
fn held(part: &Part, path: &Path) -> ([usize; 3], usize) {
    let (doors, targets, labels) = (part.doors().count(), part.outside_targets().len(), path.n());
    let length = first_reply_words(part, path).len();
    assert!(length <= longest_reply(doors, targets, labels), "{length} words of {part:x?} for {path:x?}");
    ([doors, targets, labels], length)
}

/// All paths of at most four words behind the header, of full ranges and operators.
fn small_paths() -> Vec<Path> {
    let (mut all, mut last) = (vec![], vec![vec![]]);
    for _ in 0..4 {
        let longer =
            |words: &Vec<u32>| [range(0, 4095), THEN, OR, STAR].map(|word| [&words[..], &[word]].concat());
        last = last.iter().flat_map(longer).collect();
        all.extend(last.clone());
    }
    all.iter().filter_map(|words| read_path(&bytes(&path_of(words)), &OURS).ok()).collect()
}

/// All parts of two nodes with links to each other, to themselves and to two nodes outside, each a door or not, stopped or not, and all small
/// paths: of those with the same counts one has the longest reply.
#[test]
fn every_small_part() {
    let (paths, mut most) = (small_paths(), BTreeMap::new());
    for marks in 0..1u32 << 12 {
        let node = |number: u32| {
            let own = marks >> (6 * (number - 1));
            let edges = (0..4).filter(|target| own >> target & 1 == 1).map(|target| (0, target)).collect();
            Node { number, door: own >> 4 & 1 == 1, root: false, stopped: own >> 5 & 1 == 1, edges }
        };
        let part = Part { site: 0, nodes: vec![node(1), node(2)] };
        for (counts, length) in paths.iter().map(|path| held(&part, path)) {
            let own = most.entry(counts).or_insert(0);
            *own = length.max(*own);
        }
    }
    // without doors or outside targets there are no rows
    most.retain(|[doors, targets, _], _| *doors > 0 && *targets > 0);
    assert_eq!((paths.len(), most.len()), (12, 2 * 2 * 2));
    most.into_iter()
        .for_each(|([d, t, n], length)| assert_eq!(length, longest_reply(d, t, n), "{d} {t} {n}"));
}

/// What a part, groups or a path have.
const SORTS: [Named<fn(&Asked) -> bool>; 7] = [
    ("several doors", |(part, ..)| part.doors().count() > 1),
    ("several targets", |(part, ..)| part.outside_targets().len() > 1),
    ("several labels", |(_, _, path)| bits(path[0], 23, 20) > 1),
    ("a node that is no door", |(part, ..)| part.nodes.iter().any(|node| !node.door)),
    ("a stopped node", |(part, ..)| part.nodes.iter().any(|node| node.stopped)),
    ("groups", |(_, groups, path)| groups.is_some() && path.iter().any(|word| word >> 24 == 0x51)),
    ("labels outside a range", |(_, _, path)| path.iter().any(|word| word >> 24 == 0x52)),
];

/// Goes on for a while if one of the sorts has not been met with the longest reply of its counts.
#[test]
fn no_reply_is_longer() {
    meet("no reply is longer", [cases() / 5, 20_000], names(&SORTS, |_| true), |random| {
        let grouped = random.chance(50);
        let asked = match random.chance(5) {
            true => dearly_asked(random, grouped),
            false => asked(random, some_plant, grouped),
        };
        let path = read_path(&bytes_of(&asked.2), &asked.1.unwrap_or(OURS)).expect("a path");
        let ([doors, targets, labels], length) = held(&asked.0, &path);
        let longest = doors > 0 && targets > 0 && length == longest_reply(doors, targets, labels);
        names(&SORTS, |sort| longest && sort(&asked))
    });
}
