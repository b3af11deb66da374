//! A walk beside each listed node, and the check of walks (document 02, request 10), by the library and by the evaluation: which walk is given,
//! to which nodes there is none, what is a walk and what not, at the limits of wholes and walks, and in which order calls are refused.

use mowqachi_tests::asking::made;
use mowqachi_tests::beside::{answer, Call};
use mowqachi_tests::evaluation::hub::nodes_of;
use mowqachi_tests::evaluation::part::Part;
use mowqachi_tests::evaluation::walks::*;
use mowqachi_tests::evaluation::words::*;
use mowqachi_tests::evaluation::{Outcome, Room};
use mowqachi_tests::finding::found_out_by_call;
use mowqachi_tests::generate::makers::{self, looped, MAKERS};
use mowqachi_tests::generate::plant::{number_beside, whole};
use mowqachi_tests::generate::walks::{asked, long, sized, Asked};
use mowqachi_tests::meeting::meet;
use mowqachi_tests::mistakes::walks::check::RIGHT;
use mowqachi_tests::mistakes::walks::find::FIND;
use mowqachi_tests::mistakes::walks::{in_checks, in_walks};
use mowqachi_tests::mistakes::{names, Named};
use mowqachi_tests::random::{cases, Random};
use mowqachi_tests::written::paths::{all_groups, WRONG_PARTS};
use mowqachi_tests::written::*;
use std::collections::{BTreeMap, BTreeSet};

fn fixed() -> Random {
    Random::new(1, "walks", 0)
}

/// Any links.
const ANY: &str = "40100003 50fff000 60000003";
/// 5 then 6 then 5.
const THREE_LABELS: &str = "40300006 50005005 50006006 60000001 50005005 60000001";
/// 5 then 7, or 5 then 6.
const SEVEN_OR_SIX: &str = "40400008 50005005 50007007 60000001 50005005 50006006 60000001 60000002";
/// The same the other way.
const SIX_OR_SEVEN: &str = "40400008 50005005 50006006 60000001 50005005 50007007 60000001 60000002";
/// Node 2 is a door from which a 5 leads to node 3.
const TWO_DOORS: &str = "10000006 20030001 30050002 20010002 30050003 20000003";

/// A whole, a path, a node, and the walk that is given; `None` of a node that is not listed.
const IN_WORDS: [(&str, &str, u32, Option<&str>); 25] = [
    (W, P, 2, Some("2 30050002")),
    (W, P, 1, None),
    (W, P, 3, None),
    (W, THREE_LABELS, 2, Some("4 30050002 30060003 30050002")),
    (W, EMPTY_WORD, 1, Some("1")),
    (W, ANY, 1, Some("1")),
    (W, ANY, 3, Some("3 30050002 30060003")),
    // numbers that are no nodes
    (W, ANY, 0, None),
    (W, ANY, 0x1_0003, None),
    (W, ANY, 0x8000_0001, None),
    (W, ANY, u32::MAX, None),
    // a link from the root to itself
    ("10000003 20030001 30050001", ONE_LABEL, 1, Some("2 30050001")),
    ("10000003 20030001 30050001", ANY, 1, Some("1")),
    // two labels to one node
    ("10000005 20030001 30050002 30060002 20000002", ANY, 2, Some("2 30050002")),
    // one label to two nodes, and a label that is lower while its target is higher
    (
        "10000009 20030001 30050002 30050003 20000002 30070004 20000003 30070004 20000004",
        ANY,
        4,
        Some("3 30050002 30070004"),
    ),
    (
        "10000009 20030001 30050003 30060002 20000002 30070004 20000003 30070004 20000004",
        ANY,
        4,
        Some("3 30050003 30070004"),
    ),
    // lower at the first difference and higher at the last
    (
        "10000009 20030001 30050002 30060003 20000002 30090004 20000003 30080004 20000004",
        ANY,
        4,
        Some("3 30050002 30090004"),
    ),
    // the first state goes on by the higher word
    (
        "10000007 20030001 30050002 20000002 30060003 30070003 20000003",
        SEVEN_OR_SIX,
        3,
        Some("3 30050002 30060003"),
    ),
    // fewer links and a higher word
    ("10000007 20030001 30050003 30090002 20000002 20000003 30050002", ANY, 2, Some("2 30090002")),
    // the shortest way goes through a stopped node
    (
        "10000009 20030001 30050002 30060004 20040002 30050003 20000003 20000004 30060003",
        ANY,
        3,
        Some("3 30060004 30060003"),
    ),
    // a stopped node, a stopped root
    (STOPPED, ANY, 3, None),
    ("10000002 20070001", EMPTY_WORD, 1, None),
    ("10000004 20070001 30050002 20000002", ANY, 2, None),
    // a walk starts at the root and at no other door
    (TWO_DOORS, ONE_LABEL, 3, None),
    (TWO_DOORS, ANY, 3, Some("3 30050002 30050003")),
];

#[test]
fn in_words() {
    for (whole, path, node, owed) in IN_WORDS {
        let call = walk(whole, path, node);
        match owed {
            Some(links) => {
                gives(call.clone(), links);
                gives(call.checking(&bytes(links)), "1");
            }
            None => refuses(call, 20),
        }
    }
}

/// Three nodes in a row, with none of them stopped, the first, the second and the third.
const ROW: &str = "10000006 20030001 30050002 20000002 30060003 20000003";
const ROW_STOPPED: [&str; 3] = [
    "10000006 20070001 30050002 20000002 30060003 20000003",
    "10000006 20030001 30050002 20040002 30060003 20000003",
    "10000006 20030001 30050002 20000002 30060003 20040003",
];

/// A whole, a path, words as a walk, the node that they are to lead to, and whether they do.
const CHECKED: [(&str, &str, &str, u32, bool); 39] = [
    (W, P, "2 30050002", 2, true),
    (W, P, "4 30050002 30060003 30050002", 2, true),
    (W, P, "6 30050002 30060003 30050002 30060003 30050002", 2, true),
    // the path does not accept it
    (W, P, "1", 1, false),
    (W, P, "3 30050002 30060003", 3, false),
    // it ends elsewhere
    (W, P, "2 30050002", 3, false),
    (W, P, "2 30050002", 1, false),
    (W, P, "2 30050002", 0x1_0002, false),
    (W, P, "4 30050002 30060003 30050002", 3, false),
    // headers
    (W, P, "1 30050002", 2, false),
    (W, P, "3 30050002", 2, false),
    (W, P, "0 30050002", 2, false),
    (W, P, "8 30050002", 2, false),
    (W, P, "4002 30050002", 2, false),
    (W, P, "10002 30050002", 2, false),
    (W, P, "100002 30050002", 2, false),
    (W, P, "1000002 30050002", 2, false),
    (W, P, "f0000002 30050002", 2, false),
    (W, P, "30050002", 2, false),
    // a word more than the header says, and one less
    (W, P, "2 30050002 30060003", 2, false),
    (W, P, "4 30050002 30060003", 2, false),
    // no edges, or not of the node
    (W, P, "2 30050003", 3, false),
    (W, P, "2 30060002", 2, false),
    (W, P, "2 20050002", 2, false),
    (W, P, "4 30050002 30050002 30050002", 2, false),
    (W, P, "2 30060003", 3, false),
    (W, ANY, "2 30060003", 3, false),
    // no links, and no words
    (W, EMPTY_WORD, "1", 1, true),
    (W, EMPTY_WORD, "", 1, false),
    (W, P, "", 2, false),
    // from a door that is not the root
    (TWO_DOORS, ONE_LABEL, "2 30050003", 3, false),
    (TWO_DOORS, ANY, "3 30050002 30050003", 3, true),
    // stopped nodes
    (ROW, ANY, "3 30050002 30060003", 3, true),
    (ROW_STOPPED[0], ANY, "3 30050002 30060003", 3, false),
    (ROW_STOPPED[1], ANY, "3 30050002 30060003", 3, false),
    (ROW_STOPPED[2], ANY, "3 30050002 30060003", 3, false),
    (ROW_STOPPED[2], ANY, "2 30050002", 2, true),
    ("10000002 20030001", EMPTY_WORD, "1", 1, true),
    ("10000002 20070001", EMPTY_WORD, "1", 1, false),
];

/// Calls that check a walk of three links cut off anywhere, or with bytes behind it: each with the count of its bytes.
fn cut_off() -> Vec<(usize, Call)> {
    let all = bytes("4 30050002 30060003 30050002 0");
    (0..all.len()).map(|count| (count, walk(W, P, 2).checking(&all[..count]))).collect()
}

#[test]
fn checked_in_words() {
    for (whole, path, links, node, yes) in CHECKED {
        gives(check_walk(whole, path, node, links), if yes { "1" } else { "0" });
    }
    for (count, call) in cut_off() {
        assert_eq!(made(&mut fixed(), call), yes_if(count == 16), "{count} bytes");
    }
}

/// The links that there can be between nodes 1 and 2 with labels 5 and 6, and the whole with some of them.
const LINKS: [(u32, u32); 8] = [
    (1, 0x3005_0001),
    (1, 0x3005_0002),
    (1, 0x3006_0001),
    (1, 0x3006_0002),
    (2, 0x3005_0001),
    (2, 0x3005_0002),
    (2, 0x3006_0001),
    (2, 0x3006_0002),
];

fn small_whole(links: usize, marks: [u32; 2]) -> Vec<u8> {
    let own = |node: u32| {
        let held = (0..8).filter(move |at| links >> at & 1 == 1).map(|at| LINKS[at]);
        held.filter(move |link| link.0 == node).map(|link| link.1)
    };
    let node = |number: u32| {
        std::iter::once(NODE << 28 | marks[number as usize - 1] << 16 | number).chain(own(number))
    };
    bytes_of(&file(PART, 0, 0, &node(1).chain(node(2)).collect::<Vec<_>>()))
}

const SMALL_PATHS: [&str; 5] = [
    ANY,
    P,
    SEVEN_OR_SIX,
    "40200006 50005005 50006006 60000002 60000003 60000003",
    "40300007 50fff000 50006006 60000001 50005005 60000002 60000003",
];

/// All plants of two nodes with links of two labels, the second one running or stopped.
#[test]
fn every_small_whole() {
    let (random, mut found) = (&mut fixed(), [0, 0]);
    for (links, mark) in (0..256).flat_map(|links| [0, 4].map(|mark| (links, mark))) {
        let whole = small_whole(links, [3, mark]);
        for (path, node) in SMALL_PATHS.iter().flat_map(|path| [1, 2].map(|node| (path, node))) {
            let call = Call::Walk { whole: whole.clone(), groups: None, path: bytes(path), node };
            found[usize::from(made(random, call).is_ok())] += 1;
        }
    }
    assert!(found.iter().all(|count| *count > 500), "{found:?}");
}

/// All walks of up to three of eight words, in some wholes. If all links are there, and any may be taken, four times as many walks have one link
/// more, and half of them end at each node.
#[test]
fn every_small_walk() {
    let random = &mut fixed();
    let next = |walks: &Vec<Vec<u32>>| {
        let longer = |links: &Vec<u32>| LINKS.map(|link| [&links[..], &[link.1]].concat());
        Some(walks.iter().flat_map(longer).collect::<Vec<_>>())
    };
    let walks: BTreeSet<Vec<u32>> =
        std::iter::successors(Some(vec![vec![]]), next).take(4).flatten().collect();
    for (links, path, owed) in [
        (255, ANY, Some([1 + 2 + 8 + 32, 2 + 8 + 32])),
        (0b1011_0110, ANY, None),
        (255, SEVEN_OR_SIX, None),
        (0b0110_1110, P, None),
    ] {
        let whole = small_whole(links, [3, 0]);
        let yes = [1, 2].map(|node| {
            let call = Call::Walk { whole: whole.clone(), groups: None, path: bytes(path), node };
            let is_yes =
                |links: &&Vec<u32>| made(random, call.checking(&bytes_of(&walk_file(links)))) == Ok(vec![1]);
            walks.iter().filter(is_yes).count()
        });
        assert!(owed.map_or(yes[1] > 0, |owed| owed == yes), "{links:b} {path}: {yes:?}");
    }
}

fn number(outcome: &Outcome) -> u32 {
    answer(outcome).0
}

fn yes_if(yes: bool) -> Outcome {
    Ok(vec![u32::from(yes)])
}

/// Walks of up to three links more or less than 4,095: those of over 4,096 words are neither given nor taken for walks.
#[test]
fn walks_at_the_limit() {
    let random = &mut fixed();
    for links in [4092, 4093, 4094, 4095, 4095, 4096, 4096, 4097, 4098] {
        let (asked, fits) = (long(random, links), links <= 4095);
        let (path, call) = (asked.read_path(), asked.walk());
        let outcome = made(random, call.clone());
        let words = walk_file(&lowest_walk(&asked.whole, &path, asked.node).expect("a ring"));
        assert_eq!((words.len(), number(&outcome)), (1 + links, if fits { 0 } else { 15 }), "{asked:x?}");
        assert_eq!(made(random, call.checking(&bytes_of(&words))), yes_if(fits), "{links} links");
        let (asked, links) = looped(random, links);
        assert_eq!(made(random, asked.walk().checking(&bytes_of(&walk_file(&links)))), yes_if(fits));
    }
}

/// Wholes of up to two words more or less than 1,024, of few nodes and of many.
#[test]
fn wholes_at_the_limit() {
    let random = &mut fixed();
    for words in (1022..=1026).flat_map(|words| [words; 3]) {
        let (plant, _, path) = sized(random, words);
        let asked = Asked { whole: whole(random, &plant), groups: None, path, node: plant.root };
        let (call, owed) = (asked.walk(), if words > 1024 { 2 } else { 0 });
        assert_eq!((asked.whole.words().len(), number(&made(random, call.clone()))), (words, owed));
        assert_eq!(number(&made(random, call.checking(&bytes("1")))), owed);
    }
}

/// Each length around the least, none, half and twice as much, of each buffer that a call has; with inputs that are accepted and such that are
/// not.
#[test]
fn buffers() {
    let (random, mut met) = (&mut fixed(), BTreeMap::new());
    let lengths = |least: usize| match least {
        0 => vec![0],
        _ => vec![0, 4, least / 2, least - 4, least - 1, least, least + 1, 2 * least],
    };
    let walks = [walk(W, P, 2), walk(W, P, 3), long(random, 4096).walk()];
    let checks = [check_walk(W, P, 2, "2 30050002"), check_walk(W, "", 2, "2 30050002")];
    for call in walks.iter().chain(&checks) {
        let least = call.least_room();
        let owed = number(&call.evaluate(least));
        let outs = lengths(least.out);
        for (out, work) in
            outs.iter().flat_map(|out| lengths(least.work).into_iter().map(move |work| (*out, work)))
        {
            let given = number(&call.check(random, Room { out, work }));
            let short = out < least.out || work < least.work;
            assert_eq!(given, if short { 1 } else { owed }, "{call:x?} {out} {work}");
            *met.entry(given).or_insert(0) += 1;
        }
    }
    assert_eq!(met, BTreeMap::from([(0, 9 + 3), (1, 3 * 55 + 2 * 5), (2, 3), (15, 9), (20, 9)]));
}

/// Wholes, right and wrong, with their numbers.
fn wholes() -> Vec<(u32, Vec<u8>)> {
    let more = [(7, "10000001"), (8, "10000003 20030001 30050002"), (0, W), (0, STOPPED)];
    let written = WRONG_PARTS.iter().chain(&more).map(|(number, whole)| (*number, bytes(whole)));
    let long = |header: u32, count: usize| (2, bytes_of(&[vec![header], vec![0; count - 1]].concat()));
    written
        .chain([long(0x1000_0401, 1025), long(0, 1025), long(0x1000_1000, 4096), long(0x1000_1001, 4097)])
        .collect()
}

const PATHS: [(u32, &str); 9] = [
    (2, ""),
    (3, W),
    (4, "40000003 60000000"),
    (5, "40100002 50005006"),
    (5, "40100002 51000008"),
    (9, "40000002 60000003"),
    (9, "40200002 50005005"),
    (0, P),
    (0, "40300007 52006006 52005005 52006006 60000001 60000003 60000001"),
];

/// Wholes, groups, paths and nodes, right and wrong, beside each other: the first of these that is wrong gives the number. Whatever is checked as
/// a walk gives none.
#[test]
fn numbers_in_their_order() {
    let (random, groups) = (&mut fixed(), all_groups());
    let mut met = BTreeSet::new();
    for (whole, path) in wholes().iter().flat_map(|whole| PATHS.map(|path| (whole, path))) {
        for (groups, node) in
            groups.iter().flat_map(|groups| [(0, 2), (20, 9), (20, 3)].map(|node| (groups, node)))
        {
            let first = |numbers: &[u32]| numbers.iter().copied().find(|number| *number != 0).unwrap_or(0);
            let call = Call::Walk {
                whole: whole.1.clone(),
                groups: groups.1.clone(),
                path: bytes(path.1),
                node: node.1,
            };
            let owed = first(&[whole.0, groups.0, path.0, node.0]);
            assert_eq!(number(&made(random, call.clone())), owed, "{call:x?}");
            let walk = random.pick(&[bytes("2 30050002"), bytes("1"), vec![], vec![0; 7], vec![0; 16_388]]);
            let checked = number(&made(random, call.checking(&walk)));
            assert_eq!(checked, first(&[whole.0, groups.0, path.0]), "{call:x?}");
            met.insert((owed, checked));
        }
    }
    assert_eq!(met.len(), 11, "{met:?}");
}

/// The nodes that a walk comes to.
fn nodes_on(sought: &Sought, links: &[u32]) -> Vec<u32> {
    sought.starts().into_iter().chain(links.iter().copied().map(target_of)).collect()
}

/// Whether some link of a walk has beside it another of its node with the same part of its word.
fn has_beside(sought: &Sought, links: &[u32], part: fn(u32) -> u32) -> bool {
    links.iter().zip(nodes_on(sought, links)).any(|(word, from)| {
        let own = sought.whole.node(from).map_or(vec![], |node| sought.onward(node));
        own.iter().filter(|other| part(**other) == part(*word)).count() > 1
    })
}

/// Whether a program that makes a mistake of this name gives another walk.
fn is_other_by(name: &str, sought: &Sought, links: &[u32]) -> bool {
    let other = FIND.iter().find(|(own, _)| *own == name).map(|(_, other)| other.answer(sought));
    other.expect("a mistake") != (0, walk_file(links))
}

/// What a walk has that is given.
type Sort = fn(&Sought, &[u32]) -> bool;

const SORTS: [Named<Sort>; 14] = [
    ("no links", |_, links| links.is_empty()),
    ("one link", |_, links| links.len() == 1),
    ("over ten links", |_, links| links.len() > 10),
    ("over fifty links", |_, links| links.len() > 50),
    ("a node twice", |sought, links| {
        nodes_on(sought, links).into_iter().collect::<BTreeSet<_>>().len() <= links.len()
    }),
    ("a link of a node to itself", |sought, links| {
        nodes_on(sought, links).windows(2).any(|two| two[0] == two[1])
    }),
    ("several labels to one node", |sought, links| has_beside(sought, links, target_of)),
    ("one label to several nodes", |sought, links| has_beside(sought, links, label_of)),
    ("another walk with as many links", |sought, links| {
        is_other_by("the higher word at the first difference", sought, links)
    }),
    ("another by the last difference", |sought, links| {
        is_other_by("the lower word at the last difference", sought, links)
    }),
    ("another by the lower state", |sought, links| {
        is_other_by("a tie broken by the lower state", sought, links)
    }),
    ("another by the higher state", |sought, links| {
        is_other_by("a tie broken by the higher state", sought, links)
    }),
    ("a stopped node in the way", |sought, links| {
        sought.first(sought.starts(), words_behind).map_or(false, |other| other != links)
    }),
    ("a shorter way from another door", |sought, links| {
        let doors = sought.whole.doors().filter(|door| !door.stopped).map(|door| door.number).collect();
        sought.first(doors, |node| sought.onward(node)).map_or(false, |other| other.len() < links.len())
    }),
];

/// The same plant with another site and other doors, as far as it may have such.
fn otherwise(random: &mut Random, whole: &Part) -> Part {
    let mut other = Part { site: random.below(16) as u32, nodes: whole.nodes.clone() };
    other.nodes.iter_mut().for_each(|node| node.door = node.root || random.chance(50));
    other
}

/// The sorts of the walk that is given, if one is: the check says yes to it, and no if it is said to lead elsewhere.
fn given_to(random: &mut Random, asked: &Asked, all: &[u32], listed: bool) -> Vec<&'static str> {
    let (call, path) = (asked.walk(), asked.read_path());
    let other = Asked { whole: otherwise(random, &asked.whole), ..asked.clone() };
    call.leaves_as(&other.walk(), random, call.least_room());
    let outcome = made(random, call.clone());
    assert_eq!(number(&outcome), if listed { 0 } else { 20 }, "{asked:x?}");
    let walk = match outcome {
        Ok(walk) => walk,
        Err(_) => return vec![],
    };
    let elsewhere = Asked { node: random.pick(all), ..asked.clone() };
    for (call, yes) in [(call, true), (elsewhere.walk(), elsewhere.node == asked.node)] {
        assert_eq!(made(random, call.checking(&bytes_of(&walk))), yes_if(yes), "{call:x?}");
    }
    let sought = Sought::new(&asked.whole, &path, asked.node);
    names(&SORTS, |sort| sort(&sought, &walk[1..]))
}

/// There is a walk to just the nodes that the old search lists. Another site and other doors make no difference.
#[test]
fn just_to_listed_nodes() {
    meet("walks to nodes", [cases() * 2 / 100, 10_000], names(&SORTS, |_| true), |random| {
        let with_groups = random.chance(40);
        let asked = asked(random, with_groups);
        if asked.whole.words().len() > 100 {
            return vec![];
        }
        let all: Vec<u32> = asked.whole.nodes.iter().map(|node| node.number).collect();
        let listed = nodes_of(&made(random, asked.old_search()).expect("accepted"));
        let more = [number_beside(random, &all), all[0] | 1 << 16, u32::MAX];
        let to = |node: u32| given_to(random, &Asked { node, ..asked.clone() }, &all, listed.contains(&node));
        all.iter().copied().chain(more).flat_map(to).collect()
    });
}

/// Makers whose bytes may be a walk, and whose bytes never are.
const MAY_BE: [&str; 12] = [
    "the walk that is given",
    "another walk",
    "a word replaced",
    "an edge of another node",
    "another label between the same nodes",
    "a word dropped",
    "a word added",
    "two words exchanged",
    "asked of another node",
    "a link whatever its label",
    "by any labels",
    "no links",
];
const NEVER: [&str; 9] = [
    "another length in the header",
    "a bit more in the header",
    "no header",
    "the last word cut off",
    "more words than the header says",
    "bytes not in fours",
    "through a stopped node",
    "no bytes",
    "any bytes",
];

/// What other makers hand in: walks that are longer or higher than need be get yes, and such with one thing wrong no.
#[test]
fn walks_of_other_makers() {
    let owed = MAY_BE.iter().map(|name| format!("{name}: yes"));
    let owed = owed.chain(names(&MAKERS[2..], |_| true).into_iter().map(|name| format!("{name}: no")));
    let owed: BTreeSet<String> = owed.collect();
    meet("other makers", [cases() * 4 / 100, 20_000], owed.clone(), |random| {
        let with_groups = random.chance(40);
        let asked = asked(random, with_groups);
        let (name, (bytes, node)) = makers::made(random, &asked);
        let asked = Asked { node, ..asked };
        let outcome = made(random, asked.walk().checking(&bytes));
        if number(&outcome) == 2 {
            return vec![];
        }
        let path = asked.read_path();
        let sought = Sought::new(&asked.whole, &path, node);
        assert_eq!(RIGHT.answer(&sought, &bytes), answer(&outcome), "{asked:x?} {bytes:x?}");
        let yes = outcome == yes_if(true);
        assert!(!(yes && NEVER.contains(&name)), "{name}: {asked:x?} {bytes:x?}");
        let met = format!("{name}: {}", if yes { "yes" } else { "no" });
        Some(met).filter(|met| owed.contains(met)).into_iter().collect()
    });
}

/// Calls that find out mistakes about the walk that is given, beside those above: whole, path and node.
const TELLING: [(&str, &str, u32); 8] = [
    (W, "", 9),
    (STOPPED, "", 3),
    // one label to two nodes, and two to one
    ("10000006 20030001 30050002 30050003 20000002 20000003", ANY, 3),
    ("10000005 20030001 30040002 30050002 20000002", ONE_LABEL, 2),
    // the second state goes on by the higher word
    ("10000007 20030001 30050002 20000002 30060003 30070003 20000003", SIX_OR_SEVEN, 3),
    // doors below the root
    ("10000005 20010001 30050002 20030002 30050001", ONE_LABEL, 1),
    ("10000005 20010001 30050002 20030002 30050001", ONE_LABEL, 2),
    ("10000004 20000001 30050002 20030002", ANY, 1),
];

/// Calls for walks at the limits of walks and wholes.
fn at_the_limits(random: &mut Random) -> Vec<Call> {
    let mut calls: Vec<Call> = [4095, 4096].map(|links| long(random, links).walk()).to_vec();
    for words in [1024, 1025] {
        let (plant, _, path) = sized(random, words);
        calls.push(Asked { whole: whole(random, &plant), groups: None, path, node: plant.root }.walk());
    }
    let wrong = wholes().into_iter().filter(|(_, whole)| whole.len() > 4096);
    calls.extend(wrong.map(|(_, whole)| Call::Walk { whole, groups: None, path: bytes(P), node: 2 }));
    calls
}

/// Makes these calls in buffers around the least, and fails if they do not find out each of these mistakes.
fn find_out(random: &mut Random, calls: &[Call], owed: Vec<&'static str>) {
    let mut found = BTreeSet::new();
    for call in calls {
        let least = call.least_room();
        let [short, long] = [least.out.max(1) - 1, least.out + 1].map(|out| Room { out, ..least });
        for room in
            [least, short, Room { work: least.work - 1, ..least }, Room { work: least.work + 1, ..long }]
        {
            let outcome = call.check(random, room);
            found.extend(found_out_by_call(call, room, &outcome));
        }
    }
    let owed: BTreeSet<&str> = owed.into_iter().collect();
    assert!(owed.is_subset(&found), "not found out: {:?}", &owed - &found);
}

/// A few calls find each mistake out.
#[test]
fn mistakes_about_the_walk_that_is_given() {
    let random = &mut fixed();
    let above = IN_WORDS.iter().map(|(whole, path, node, _)| walk(whole, path, *node));
    let more = TELLING.iter().map(|(whole, path, node)| walk(whole, path, *node));
    let calls: Vec<Call> = above.chain(more).chain(at_the_limits(random)).collect();
    find_out(random, &calls, in_walks());
}

#[test]
fn mistakes_about_the_check_of_walks() {
    let random = &mut fixed();
    let above = CHECKED.iter().map(|(whole, path, links, node, _)| check_walk(whole, path, *node, links));
    let above = above.chain(cut_off().into_iter().map(|(_, call)| call));
    let limits: Vec<Call> = at_the_limits(random).iter().map(|call| call.checking(&bytes("1"))).collect();
    let loops = [4095, 4096].map(|links| {
        let (asked, links) = looped(random, links);
        asked.walk().checking(&bytes_of(&walk_file(&links)))
    });
    let wrong_path = check_walk(W, "40000002 60000003", 2, "1");
    let calls: Vec<Call> = above.chain(limits).chain(loops).chain([wrong_path]).collect();
    find_out(random, &calls, in_checks());
}
