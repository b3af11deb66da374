//! The triple edition: triples turned into a whole and back. Small files all of them, words and counts at the edges of their fields, wholes at
//! their limit, both ways there and back, and the searches of wholes that were made from triples.

use mowqachi_tests::asking::made;
use mowqachi_tests::beside::{check_from_triples, check_to_triples, Call};
use mowqachi_tests::evaluation::groups::{read_groups, Groups};
use mowqachi_tests::evaluation::hub::final_list;
use mowqachi_tests::evaluation::part::{read_whole, Node, Part};
use mowqachi_tests::evaluation::path::{read_path, Path};
use mowqachi_tests::evaluation::plant::Link;
use mowqachi_tests::evaluation::replies::Pair;
use mowqachi_tests::evaluation::states::States;
use mowqachi_tests::evaluation::triples::{LEAST_FROM, LEAST_TO};
use mowqachi_tests::evaluation::words::*;
use mowqachi_tests::evaluation::{Outcome, Room};
use mowqachi_tests::generate::groups::grouped;
use mowqachi_tests::generate::path::some_path;
use mowqachi_tests::generate::triples::*;
use mowqachi_tests::meeting::meet;
use mowqachi_tests::mistakes::triples::*;
use mowqachi_tests::mistakes::{names, Named};
use mowqachi_tests::random::{cases, Random};
use mowqachi_tests::written::{words, W};
use std::collections::{BTreeMap, BTreeSet};

fn fixed() -> Random {
    Random::new(1, "triples", 0)
}

/// In the least buffers.
fn from(random: &mut Random, triples: &[u32]) -> Outcome {
    check_from_triples(random, &bytes_of(triples), LEAST_FROM)
}

fn to(random: &mut Random, whole: &[u32]) -> Outcome {
    check_to_triples(random, &bytes_of(whole), LEAST_TO)
}

fn number(outcome: &Outcome) -> u32 {
    outcome.as_ref().err().map_or(0, |refusal| refusal.number)
}

/// The root, and each triple once, in their order.
fn in_order((root, links): &Triples) -> Vec<u32> {
    let mut links = links.clone();
    links.sort_unstable();
    links.dedup();
    words_of_triples(&(*root, links))
}

/// The whole with site 0 and only the root as door.
fn stripped(whole: &[u32]) -> Vec<u32> {
    let only_root = |word: &u32| if bits(*word, 17, 17) == 1 { *word } else { word & !(1 << 16) };
    let strip = |word: &u32| if kind(*word) == NODE { only_root(word) } else { *word };
    [&[whole[0] & !(15 << 24)], &whole[1..].iter().map(strip).collect::<Vec<_>>()[..]].concat()
}

/// Triples, the whole that they say, and the triples that it gives back.
const IN_WORDS: [(&str, &str, &str); 8] = [
    ("7", "10000002 20030007", "7"),
    // document 01's plant, its triples in another order and one of them twice
    ("1 3 5 2 2 6 3 1 5 2 2 6 3", W, "1 1 5 2 2 6 3 3 5 2"),
    ("0 0 0 0", "10000003 20030000 30000000", "0 0 0 0"),
    ("ffff ffff fff ffff", "10000003 2003ffff 3fffffff", "ffff ffff fff ffff"),
    // a root that is no end; a node that is only a target, and one that is only a source
    ("5 9 1 2", "10000005 20000002 20030005 20000009 30010002", "5 9 1 2"),
    // the label comes before the target
    ("1 1 2 0 1 1 1", "10000005 20000000 20030001 30010001 30020000", "1 1 1 1 1 2 0"),
    (
        "1 1 1 3 1 1 2 1 1 1",
        "10000007 20030001 30010001 30010002 30010003 20000002 20000003",
        "1 1 1 1 1 1 2 1 1 3",
    ),
    // a node with a loop alone
    ("1 8 5 8", "10000004 20030001 20000008 30050008", "1 8 5 8"),
];

#[test]
fn in_words() {
    let random = &mut fixed();
    for (triples, whole, back) in IN_WORDS {
        assert_eq!(from(random, &words(triples)), Ok(words(whole)), "{triples}");
        assert_eq!(to(random, &words(whole)), Ok(words(back)), "{whole}");
    }
    // another site, and doors beside the root
    assert_eq!(
        to(random, &words("1a000005 20010003 20030004 30010003 30020004")),
        Ok(words("4 4 1 3 4 2 4"))
    );
    for (whole, owed) in [
        ("10000003 20030001 20000002", 19),
        ("10000003 20030001 20010002", 19),
        ("10000002 20070001", 19),
        ("10000004 20030001 30050002 20040002", 19),
        ("10000004 20030001 30050003 20040002", 8),
        ("10000002 20000001", 7),
        ("10000003 20040001 20000002", 7),
        ("10000003 20030001", 4),
    ] {
        assert_eq!(number(&to(random, &words(whole))), owed, "{whole}");
    }
}

/// All files of at most three triples over two nodes and two labels, with one of the nodes as root or another: for each root as many wholes as
/// there are sets of triples.
#[test]
fn every_small_file() {
    let random = &mut fixed();
    let triple = |at: u32| (at & 1, at >> 1 & 1, at >> 2);
    let mut files: Vec<Vec<Link>> = vec![vec![]];
    let mut wholes = BTreeSet::new();
    for _ in 0..=3 {
        for triples in files.iter().flat_map(|links| [0, 1, 2].map(|root| (root, links.clone()))) {
            let whole = from(random, &words_of_triples(&triples)).expect("words within their fields");
            assert_eq!(to(random, &whole), Ok(in_order(&triples)), "{triples:?}");
            wholes.insert(whole);
        }
        let longer =
            |links: &Vec<Link>| (0..8).map(|at| [&links[..], &[triple(at)]].concat()).collect::<Vec<_>>();
        files = files.iter().flat_map(longer).collect();
    }
    assert_eq!(wholes.len(), 3 * (1 + 8 + 28 + 56));
}

/// All plants of three nodes with links of one label, with each as root, and one of them stopped or none. Triples can say those without a
/// stopped node, but for the 16 in which the first of the two others has no links and the 16 in which the second has none; 2 are both.
#[test]
fn every_small_whole() {
    let (random, mut said) = (&mut fixed(), 0);
    for (links, root, stopped) in (0..512).flat_map(|links| (0..12).map(move |at| (links, at % 3, at / 3))) {
        let node = |number: u32| {
            let edges = (0..3).filter(|target| links >> (3 * number + target) & 1 == 1);
            let edges = edges.map(|target| (7, target)).collect();
            Node { number, door: number == root, root: number == root, stopped: number == stopped, edges }
        };
        let whole = Part { site: 0, nodes: (0..3).map(node).collect() }.words();
        match to(random, &whole) {
            Ok(triples) => {
                assert_eq!(from(random, &triples), Ok(whole));
                said += 1;
            }
            Err(refusal) => assert_eq!(refusal.number, 19),
        }
    }
    assert_eq!(said, 3 * (512 - 16 - 16 + 2));
}

/// The words of each field from half of its largest to twice of it and on, at each place of a file of two triples.
#[test]
fn words_at_the_edges() {
    let random = &mut fixed();
    for place in 0..7 {
        let most: u32 = if place % 3 == 2 { 4095 } else { 65_535 };
        let near = [0, 1, most / 2, most / 2 + 1, most - 1, most, most + 1, most + 2, 2 * most + 1];
        let powers = (0..32).flat_map(|bit| [1 << bit, 1 << bit | 5]);
        for word in near.into_iter().chain(powers).chain([u32::MAX - 1, u32::MAX]) {
            let mut triples = [9, 1, 2, 3, 4, 5, 6];
            triples[place] = word;
            let owed = if word > most { 18 } else { 0 };
            assert_eq!(number(&from(random, &triples)), owed, "{word} at {place}");
        }
    }
}

/// Every small count of bytes, and those around the most.
#[test]
fn counts_of_bytes() {
    let (random, most) = (&mut fixed(), 4 * 12_286);
    for count in (0..=120).chain(most - 16..=most + 16) {
        let owed = match count {
            0 => 2,
            _ if count % 4 != 0 || count > most => 2,
            _ if count % 12 != 4 => 18,
            _ => 0,
        };
        assert_eq!(number(&check_from_triples(random, &vec![0; count], LEAST_FROM)), owed, "{count} bytes");
    }
}

/// Wholes of up to two words more or less than their limit, of one node to as many as there can be, with repeats.
#[test]
fn at_the_limit() {
    let random = &mut fixed();
    let nodes = [1, 2, 3, 255, 256, 1023, 1365, 2047, 2048, 2729, 2730];
    for (words, nodes) in (4094..=4098).flat_map(|words| nodes.map(|nodes| (words, nodes))) {
        for apart in [false, true] {
            let triples = filling(random, words, nodes, apart);
            let outcome = from(random, &words_of_triples(&triples));
            assert_eq!(number(&outcome), if words > 4096 { 15 } else { 0 }, "{words} words, {nodes} nodes");
            if let Ok(whole) = outcome {
                assert_eq!(whole.len(), words);
                assert_eq!(to(random, &whole), Ok(in_order(&triples)));
            }
        }
    }
    // one node with 4,094 loops is all that 4,096 words can say, and leaves room for one more triple, which must be a repeat
    let loops = |last: u32| (3, (0..4094).chain([last]).map(|label| (3, label, 3)).collect());
    let whole = from(random, &words_of_triples(&loops(7))).expect("a repeat");
    assert_eq!((whole.len(), to(random, &whole).map(|words| words.len())), (4096, Ok(12_283)));
    assert_eq!(number(&from(random, &words_of_triples(&loops(4094)))), 15);
    // all triples one, and all different with different ends
    assert_eq!(
        from(random, &[&[3][..], &[3, 9, 3].repeat(4095)].concat()),
        Ok(words("10000003 20030003 30090003"))
    );
    let many = |count: u32| (0, (0..count).map(|at| (2 * at, 0, 2 * at + 1)).collect());
    assert_eq!(number(&from(random, &words_of_triples(&many(4095)))), 15);
    assert_eq!(from(random, &words_of_triples(&many(1365))).map(|whole| whole.len()), Ok(4096));
}

/// Each length around the least, none, half and twice as much, of each buffer; with inputs that are accepted and such that are not.
#[test]
fn buffers() {
    let (random, mut met) = (&mut fixed(), BTreeMap::new());
    let lengths = |least: usize| [0, 4, least / 2, least - 4, least - 1, least, least + 1, 2 * least];
    let from = [("1 1 2 1", 0), ("", 2), ("1 1", 18)].map(|(text, owed)| (bytes_of(&words(text)), owed));
    let to = [(W, 0), ("", 2), ("10000003 20030001 20000002", 19)];
    let to = to.map(|(text, owed)| (bytes_of(&words(text)), owed));
    for (least, calls) in [(LEAST_FROM, from), (LEAST_TO, to)] {
        for (bytes, owed) in calls {
            for (out, work) in
                lengths(least.out).iter().flat_map(|out| lengths(32_768).map(|work| (*out, work)))
            {
                let check = if least == LEAST_TO { check_to_triples } else { check_from_triples };
                let given = number(&check(random, &bytes, Room { out, work }));
                let short = out < least.out || work < 32_768;
                assert_eq!(given, if short { 1 } else { owed }, "{least:?} {out} {work}");
                *met.entry(given).or_insert(0) += 1;
            }
        }
    }
    assert_eq!(met, BTreeMap::from([(0, 2 * 9), (1, 6 * (64 - 9)), (2, 2 * 9), (18, 9), (19, 9)]));
}

/// What triples have.
type Sort = fn(&Triples) -> bool;

fn ends(links: &[Link]) -> BTreeSet<u32> {
    links.iter().flat_map(|link| [link.0, link.2]).collect()
}

const SORTS: [Named<Sort>; 13] = [
    ("a lone root", |(_, links)| links.is_empty()),
    ("a root that is no end", |(root, links)| !links.is_empty() && !ends(links).contains(root)),
    ("repeats", |triples| in_order(triples).len() < 1 + 3 * triples.1.len()),
    ("no repeats", |triples| in_order(triples).len() == 1 + 3 * triples.1.len()),
    ("triples out of order", |(_, links)| links.windows(2).any(|two| two[0] > two[1])),
    ("a node that is only a target", |(_, links)| {
        links.iter().any(|link| links.iter().all(|other| other.0 != link.2))
    }),
    ("a node that is only a source", |(_, links)| {
        links.iter().any(|link| links.iter().all(|other| other.2 != link.0))
    }),
    ("a loop", |(_, links)| links.iter().any(|link| link.0 == link.2)),
    ("ends 0 and 65,535", |(_, links)| ends(links).contains(&0) && ends(links).contains(&65_535)),
    ("labels 0 and 4,095", |(_, links)| {
        [0, 4095].iter().all(|label| links.iter().any(|link| link.1 == *label))
    }),
    ("4,095 triples", |(_, links)| links.len() == MOST_TRIPLES),
    ("a whole of 4,096 words", |triples| whole_words(triples) == 4096),
    ("a whole over its limit", |triples| whole_words(triples) > 4096),
];

fn whole_words(triples: &Triples) -> usize {
    let nodes: BTreeSet<u32> = ends(&triples.1).into_iter().chain([triples.0]).collect();
    1 + nodes.len() + in_order(triples).len() / 3
}

/// Triples into a whole and back are the root and the sorted set of them; in another order, with other repeats, they give the same whole. A
/// program that sorts them instead gives it too: mistakes are made in it.
#[test]
fn there_and_back() {
    meet("there and back", [cases() * 4 / 100, 20_000], names(&SORTS, |_| true), |random| {
        let triples = triples(random);
        let words = words_of_triples(&triples);
        let outcome = from(random, &words);
        assert_eq!(number(&outcome), if whole_words(&triples) > 4096 { 15 } else { 0 }, "{triples:?}");
        assert_eq!(
            from::RIGHT.turn(&bytes_of(&words)),
            (number(&outcome), outcome.clone().unwrap_or_default())
        );
        let set: BTreeSet<Link> = triples.1.iter().copied().collect();
        let again = (triples.0, repeated(random, &set.into_iter().collect::<Vec<_>>()));
        assert_eq!(from(random, &words_of_triples(&again)), outcome, "{triples:?} and {again:?}");
        if let Ok(whole) = outcome {
            assert_eq!(to(random, &whole), Ok(in_order(&triples)));
        }
        names(&SORTS, |sort| sort(&triples))
    });
}

/// What a whole has.
type WholeSort = fn(&Part) -> bool;

const WHOLES: [Named<WholeSort>; 6] = [
    ("another site", |whole| whole.site != 0),
    ("doors beside the root", |whole| whole.doors().count() > 1),
    ("no door beside the root", |whole| whole.doors().count() == 1 && whole.nodes.len() > 1),
    ("one node", |whole| whole.nodes.len() == 1),
    ("a root without links of its own", |whole| {
        whole.nodes.iter().any(|node| node.root && node.edges.is_empty())
    }),
    ("4,096 words", |whole| whole.words().len() == 4096),
];

/// A whole into triples and back has site 0 and only the root as door, and is else as it was; the triples, read again, are as they were.
#[test]
fn back_and_there() {
    meet("back and there", [cases() * 4 / 100, 20_000], names(&WHOLES, |_| true), |random| {
        let whole = said(random);
        let triples = to(random, &whole).expect("a whole that triples can say");
        let back = from(random, &triples).expect("a whole that fits");
        assert_eq!(back, stripped(&whole));
        assert_eq!(to(random, &back).as_ref(), Ok(&triples));
        assert_eq!(to::RIGHT.turn(&bytes_of(&whole)), ((0, triples.clone()), triples.len()));
        let whole = read_whole(&bytes_of(&whole)).expect("a whole");
        names(&WHOLES, |sort| sort(&whole))
    });
}

/// The nodes that walks over the triples as they are handed in come to in a state that accepts: from the root, round by round, over all of
/// them, until no pair is new.
fn walked((root, links): &Triples, path: &Path) -> Vec<u32> {
    let states = States::of(path);
    let mut pairs: BTreeSet<Pair> = BTreeSet::from([(*root, 0)]);
    loop {
        let before = pairs.len();
        for (source, label, target) in links {
            let at: Vec<Pair> = pairs.range((*source, 0)..(source + 1, 0)).copied().collect();
            pairs.extend(
                at.into_iter().flat_map(|pair| states.after(path, pair.1, *label)).map(|p| (*target, p)),
            );
        }
        if pairs.len() == before {
            break;
        }
    }
    final_list(&pairs.into_iter().filter(|pair| states.accepts[pair.1]).map(|pair| pair.0).collect())
}

/// A path over some labels of the triples, and groups or none.
fn asked(random: &mut Random, links: &[Link]) -> (Option<Groups>, Vec<u32>) {
    let labels: Vec<u32> = links.iter().map(|link| link.1).chain([5]).collect();
    let alphabet: Vec<u32> = (0..random.between(1, 5)).map(|_| random.pick(&labels)).collect();
    let (path, with_groups) = (some_path(random, &alphabet), random.chance(30));
    grouped(random, &alphabet, path, with_groups)
}

/// What triples and the list of a search have.
type Listed = fn(&Triples, &[u32]) -> bool;

const LISTS: [Named<Listed>; 5] = [
    ("no node listed", |_, list| list.len() == 1),
    ("the root listed", |(root, _), list| list.contains(&(ANSWER << 28 | root))),
    ("several nodes listed", |_, list| list.len() > 2),
    ("a node listed that is only a target", |(_, links), list| {
        list[1..].iter().any(|word| links.iter().all(|link| link.0 != bits(*word, 15, 0)))
    }),
    ("a whole of over a thousand words", |triples, _| whole_words(triples) > 1000),
];

/// The old search accepts each whole that was made from triples, with any accepted path, and lists what walks over the triples come to.
#[test]
fn searched() {
    meet("triples searched", [cases() * 4 / 100, 5_000], names(&LISTS, |_| true), |random| {
        let triples = triples(random);
        let whole = match from(random, &words_of_triples(&triples)) {
            Ok(whole) => bytes_of(&whole),
            Err(_) => return vec![],
        };
        let (groups, path) = asked(random, &triples.1);
        let (groups, path) = (groups.map(|groups| bytes_of(&groups)), bytes_of(&path));
        let read = read_groups(groups.as_deref()).and_then(|groups| read_path(&path, &groups));
        let list = made(random, Call::OldSearch { whole, groups, path }).expect("the old search accepts it");
        if whole_words(&triples) <= 1000 {
            assert_eq!(list, walked(&triples, &read.expect("an accepted path")), "{triples:?}");
        }
        names(&LISTS, |sort| sort(&triples, &list))
    });
}

/// Calls that find out mistakes about a whole from triples: files in words, in the least buffers.
const TELLING: [&str; 16] = [
    // repeats that stand apart and such that do not, a root that is no end, loops, nodes with one link each, out of order
    "9 5 2 1 3 1 0 5 1 4 3 1 0 3 1 0 7 1 7",
    // the same source and label, and the same label and target
    "5 5 1 4 5 1 3 6 1 3 5 0 3 6 2 0",
    "fffe ffff fff 0 0 0 ffff 1 0 1 8000 0 1",
    "7",
    "ffff",
    "1 2",
    "1 2 3",
    "1 ffff 0 ffff",
    "10000 1 1 1",
    "1 10000 1 1",
    "1 1 1000 1",
    "1 1 1 10000",
    "80000000 1 1 1",
    "10005 1 1 1",
    "1 1 1 1 10000 1 1",
    "1 1 fff 1",
];

/// The same for triples from a whole.
const TELLING_WHOLES: [&str; 18] = [
    W,
    // of site 10, with doors and a loop beside the root, links alike but for their labels, and nodes with a sign
    "1a00000b 20010003 30010009 20030004 30000004 30010003 30020003 20000009 30010004 2001fff0 30050003",
    "10000002 20030001",
    "10000004 20030001 20000002 30000002",
    "10000003 20030001 20000002",
    "10000003 20030001 20010002",
    "10000003 20000001 20030002",
    "10000005 20030001 30010003 20000002 20000003",
    "10000002 20070001",
    "10000004 20030001 30010002 20050002",
    "10000004 20030001 30010002 20040002",
    "10000003 20040001 30010001",
    "10000004 20030001 30010003 20040002",
    "10000003 20030001 30010003",
    "10000004 20000001 30010002 20030002",
    "10000004 20030001 30010002 20010002",
    "",
    "1",
];

/// A few calls find each mistake out.
#[test]
fn mistakes() {
    let random = &mut fixed();
    let loops = |count: u32| (3, (0..count).map(|label| (3, label % 4094, 3)).collect());
    let at_limits = [filling(random, 4096, 1, false), filling(random, 4097, 2000, false), loops(4095)];
    let mut files: Vec<Vec<u8>> = TELLING.iter().map(|text| bytes_of(&words(text))).collect();
    files.extend(at_limits.iter().map(|triples| bytes_of(&words_of_triples(triples))));
    // over the limit of a whole, with a word too large; other counts of bytes
    let large = [&words_of_triples(&filling(random, 4098, 2000, false))[..], &[0, 4096, 0]].concat();
    files.push(bytes_of(&large));
    files.extend([0, 5, 9, 4 * 12_287, 4 * 12_289].map(|count| vec![0; count]));
    let wholes: Vec<Vec<u8>> = TELLING_WHOLES.iter().map(|text| bytes_of(&words(text))).collect();
    let many = bytes_of(&from(random, &words_of_triples(&loops(4095))).expect("a whole"));
    let rooms = |least: Room| {
        let [short, long] = [least.out - 1, least.out + 1].map(|out| Room { out, ..least });
        [least, short, Room { work: least.work - 1, ..least }, Room { work: least.work + 1, ..long }]
    };
    let mut found = BTreeSet::new();
    for (triples, room) in files.iter().flat_map(|triples| rooms(LEAST_FROM).map(|room| (triples, room))) {
        check_from_triples(random, triples, room).ok();
        found.extend(found_out_by_triples(triples, room));
    }
    assert_eq!(found, in_triples().into_iter().collect(), "not found out");
    found.clear();
    for (whole, room) in
        wholes.iter().chain([&many]).flat_map(|whole| rooms(LEAST_TO).map(|room| (whole, room)))
    {
        check_to_triples(random, whole, room).ok();
        found.extend(found_out_by_whole(whole, room));
    }
    assert_eq!(found, in_wholes().into_iter().collect(), "not found out");
}
