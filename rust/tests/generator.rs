//! The plant that is drawn from a lent state (document 02, request 2), by the library and by the evaluation: the file, the state that is given
//! back, which counts are refused, what is left in output and working buffer; that the old search accepts every such file, with any path and
//! groups, and lists what the split search does over its cuts.

use mowqachi_tests::asking::{made, old_search, run};
use mowqachi_tests::beside::{check_generate, Call};
use mowqachi_tests::evaluation::generator::{state_after, Source, LEAST_ROOM};
use mowqachi_tests::evaluation::groups::Groups;
use mowqachi_tests::evaluation::hub::nodes_of;
use mowqachi_tests::evaluation::part::{read_part, read_whole, Node, Part};
use mowqachi_tests::evaluation::plant::Plant;
use mowqachi_tests::evaluation::words::*;
use mowqachi_tests::evaluation::{Generated, Outcome, Room};
use mowqachi_tests::finding::found_out_by_source;
use mowqachi_tests::generate::groups::grouped;
use mowqachi_tests::generate::path::some_path;
use mowqachi_tests::generate::question::Question;
use mowqachi_tests::generate::sources::*;
use mowqachi_tests::meeting::meet;
use mowqachi_tests::mistakes::generator::{in_drawn_plants, RIGHT};
use mowqachi_tests::mistakes::{names, Named};
use mowqachi_tests::random::{cases, seed, Random};
use mowqachi_tests::written::words;
use std::collections::{BTreeMap, BTreeSet};

fn fixed() -> Random {
    Random::new(1, "generator", 0)
}

/// In the least buffers.
fn generate(random: &mut Random, source: &Source) -> Generated {
    check_generate(random, source, LEAST_ROOM)
}

fn from(state: u32, nodes: u32, edges: u32) -> Source {
    Source { state, nodes, edges }
}

/// A plant of all nodes and edges that there may be, in which two edges of one node are equal, and two of different nodes.
const FULL: Source = Source { state: 2134, nodes: 256, edges: 4 };

fn number(outcome: &Generated) -> u32 {
    outcome.as_ref().err().map_or(0, |refusal| refusal.number)
}

/// The number of these counts from this state, which a refusal leaves as it was.
fn number_of(random: &mut Random, source: &Source) -> u32 {
    number(&generate(random, source))
}

#[test]
fn in_words() {
    for (source, file, state) in [
        (from(0, 1, 1), "10000003 20030000 3c6e0000", 0x4750_2932),
        (
            from(0, 3, 2),
            "1000000a 20030000 31cc0002 3c6e0001 20000001 32520001 37fe0002 20000002 31fd0001 3bf60001",
            0xbcd1_195c,
        ),
        (
            from(1, 2, 4),
            "1000000b 20030000 31160001 36560000 3c880000 3cf00000 20000001 301d0000 34380001 37370001 3c2d0000",
            0xfb18_b891,
        ),
        (
            from(u32::MAX, 5, 1),
            "1000000b 20030000 3c550001 20000001 32830003 20000002 37b50004 20000003 39a50000 20000004 3fc20003",
            0x863b_bd51,
        ),
        // two edges of node 1 have one label, and the higher target is drawn first
        (
            from(96_982, 2, 2),
            "10000007 20030000 32590001 327b0001 20000001 3d5c0000 3d5c0001",
            0xfc90_353e,
        ),
        // two of four edges are equal
        (from(296, 1, 4), "10000005 20030000 38780000 39cc0000 3e410000", 0xd241_85d0),
        // two edges, by turns
        (from(7_244_953, 1, 4), "10000004 20030000 32430000 39020000", 0xc9fa_7f61),
    ] {
        assert_eq!(generate(&mut fixed(), &source), Ok((words(file), state)), "{source:x?}");
    }
}

/// The state after so many draws, by its number alone, is the one that so many steps lead to; and a program that draws step by step, which is
/// what mistakes are made in, is right without one.
#[test]
fn by_number_and_step_by_step() {
    let firsts = "3c6ef35f 47502932 d1ccf6e9 aaf95334 6252e503 9f2ec686 57fe6c2d a3d95fa8 81fdbee7 94f0af1a";
    (1..).zip(words(firsts)).for_each(|(draws, state)| assert_eq!(state_after(0, draws), state));
    let random = &mut Random::new(seed(), "by number", 0);
    for at in 0..30 {
        let first = STATES.get(at).copied().unwrap_or_else(|| random.word());
        let mut state = u64::from(first);
        for draws in 0..=2048 {
            assert_eq!(u64::from(state_after(first, draws)), state, "{first:x} and {draws} draws");
            state = (state * 1_664_525 + 1_013_904_223) % (1 << 32);
        }
        let source = Source { state: first, ..accepted(random) };
        assert_eq!(RIGHT.draw(&source), (source.part().words(), source.moved()), "{source:x?}");
    }
}

/// Site 0, nodes from 0 upward, node 0 as root and only door; each node with some edges, and no more than it draws.
fn check_plant(source: &Source, words: &[u32]) {
    let whole = read_whole(&bytes_of(words)).expect("a whole");
    let right = |(number, node): (u32, &Node)| {
        let marks = (node.door, node.root, node.stopped) == (number == 0, number == 0, false);
        marks && node.number == number && (1..=source.edges as usize).contains(&node.edges.len())
    };
    assert!((0..).zip(&whole.nodes).all(right), "{source:x?}");
    assert_eq!((whole.site, whole.nodes.len()), (0, source.nodes as usize), "{source:x?}");
    assert!(words.len() <= source.most_words() as usize && source.most_words() <= 1281, "{source:x?}");
}

/// All counts that are accepted, from the ends of the states and others by turns.
#[test]
fn every_plant() {
    let (random, mut equals, mut most) = (&mut Random::new(seed(), "every plant", 0), 0, 0);
    let counts = (1..=256).flat_map(|nodes| (1..=4).map(move |edges| (nodes, edges)));
    for (at, (nodes, edges)) in counts.enumerate() {
        let state = STATES.get(at % 40).copied().unwrap_or_else(|| random.word());
        let source = from(state, nodes, edges);
        let (words, given_back) = generate(random, &source).expect("counts that are accepted");
        check_plant(&source, &words);
        assert_ne!(given_back, state, "no plant has as many draws as there are states");
        equals += u32::from(words.len() < source.most_words() as usize);
        most = most.max(words.len());
    }
    println!("{equals} plants of 1,024 have equal edges, the longest {most} words");
    let (words, _) = generate(random, &FULL).expect("counts that are accepted");
    check_plant(&FULL, &words);
    assert_eq!(words.len(), 1280);
}

#[test]
fn counts_at_the_edges() {
    let random = &mut fixed();
    let (accepted_nodes, accepted_edges) = ([1, 2, 3, 255, 256], [1, 2, 3, 4]);
    for nodes in NODES.into_iter().chain(accepted_nodes) {
        for edges in EDGES.into_iter().chain(accepted_edges) {
            let accepted = accepted_nodes.contains(&nodes) && accepted_edges.contains(&edges);
            let source = from(state(random), nodes, edges);
            assert_eq!(number_of(random, &source), if accepted { 0 } else { 11 }, "{source:x?}");
        }
    }
    // every small count, next to the bounds and on
    let small = (0..=300).flat_map(|nodes| [0, 1, 4, 5].map(|edges| from(7, nodes, edges)));
    let refused = small.filter(|source| number_of(random, source) == 11).count();
    assert_eq!(refused, 4 * 301 - 2 * 256);
    assert_eq!((0..=300).filter(|edges| number_of(random, &from(7, 2, *edges)) == 0).count(), 4);
}

/// Each length around the least, none, half and twice as much, of each buffer; with counts that are accepted and such that are not.
#[test]
fn buffers() {
    let (random, mut met) = (&mut fixed(), BTreeMap::new());
    let lengths = |least: usize| [0, least / 2, 2 * least].into_iter().chain(least - 4..=least + 4);
    for (nodes, edges, owed) in [(1, 1, 0), (256, 4, 0), (257, 1, 11), (1, 0, 11)] {
        for out in lengths(16_384) {
            for work in lengths(32_768) {
                let source = from(state(random), nodes, edges);
                let outcome = check_generate(random, &source, Room { out, work });
                let short = out < 16_384 || work < 32_768;
                assert_eq!(number(&outcome), if short { 1 } else { owed }, "{source:x?} {out} {work}");
                *met.entry(number(&outcome)).or_insert(0) += 1;
            }
        }
    }
    assert_eq!(met, BTreeMap::from([(0, 2 * 36), (1, 4 * (144 - 36)), (11, 2 * 36)]));
}

/// How the four edges of a node stand to each other, in the order of the draws: for each how many others come before it, equal ones counted
/// once.
fn order(source: &Source) -> [usize; 4] {
    let edges = [0, 1, 2, 3].map(|place| source.edge(place));
    let distinct: BTreeSet<(u32, u32)> = edges.into_iter().collect();
    edges.map(|edge| distinct.range(..edge).count())
}

/// A state for each order in which three edges are equal, or two and two. Of the five orders that are left, 0 0 0 0, 0 0 0 1, 0 0 1 1, 1 0 0 0
/// and 1 1 0 0, no state has any: all of them were looked through.
const SELDOM: [u32; 10] = [
    4_018_196, 5_702_694, 6_371_968, 7_244_953, 12_202_018, 12_899_684, 17_868_668, 24_022_169, 27_398_838,
    30_927_704,
];

/// Four edges in every order that they can be drawn in, equal ones among them: 24 orders without such, 36 with two equal, ten more.
#[test]
fn every_order() {
    let mut found = BTreeMap::new();
    let mut states = SELDOM.into_iter().chain(0..);
    while found.len() < 24 + 36 + SELDOM.len() {
        let source = from(states.next().expect("states go on"), 1, 4);
        found.entry(order(&source)).or_insert(source);
        assert!(source.state < 1_000_000 || SELDOM.contains(&source.state), "{} orders found", found.len());
    }
    let mut lengths = BTreeMap::new();
    for (order, source) in &found {
        let (words, _) = generate(&mut fixed(), source).expect("counts that are accepted");
        let distinct: BTreeSet<&usize> = order.iter().collect();
        assert_eq!(words.len(), 2 + distinct.len(), "{order:?}");
        *lengths.entry(words.len()).or_insert(0) += 1;
    }
    assert_eq!(lengths, BTreeMap::from([(4, 10), (5, 36), (6, 24)]));
}

/// The thousand plants of a bench: each is drawn from the state that the one before has given back, which is the first one so many draws
/// further on; a refusal between them changes nothing.
#[test]
fn a_thousand_plants() {
    let (random, first) = (&mut fixed(), 1);
    let (mut state, mut draws) = (first, 0);
    for plant in 0..1000 {
        let source = from(state, 1 + plant * 37 % 256, 1 + plant % 4);
        assert_eq!(number_of(random, &Source { edges: 5, ..source }), 11);
        let (words, given_back) = generate(random, &source).expect("counts that are accepted");
        let further = Source { state: state_after(first, draws), ..source };
        assert_eq!(words, further.part().words(), "plant {plant}");
        draws += source.draws();
        state = given_back;
        assert_eq!(state, state_after(first, draws), "behind plant {plant}");
    }
}

/// A few calls find each mistake out.
#[test]
fn mistakes() {
    let least = LEAST_ROOM;
    let calls = [
        // edges out of order and links of a node to itself; nodes that are no power of 2
        (from(0, 7, 4), least),
        // all nodes and edges; two of one node equal, and two of different nodes
        (FULL, least),
        // two of four edges equal, not drawn one after the other
        (from(296, 1, 4), least),
        (from(7_244_953, 1, 4), least),
        // two edges with one label, the higher target drawn first
        (from(96_982, 2, 2), least),
        (from(1, 0, 1), least),
        (from(1, 257, 1), least),
        (from(1, 1, 0), least),
        (from(1, 1, 5), least),
        (from(1, 65_537, 1), least),
        (from(1, 1, 257), least),
        (from(1, 0x8000_0000, 1), least),
        (from(1, 1, 0x8000_0000), least),
        (from(1, 1, 1), Room { out: 16_383, ..least }),
        (from(1, 1, 1), Room { work: 32_767, ..least }),
        (from(1, 1, 5), Room { work: 32_767, ..least }),
        (from(1, 1, 1), Room { out: 16_385, work: 32_769 }),
    ];
    let found = calls.into_iter().flat_map(|(source, room)| {
        let outcome = check_generate(&mut fixed(), &source, room);
        found_out_by_source(&source, room, &outcome)
    });
    let all: BTreeSet<&str> = in_drawn_plants().into_iter().collect();
    assert_eq!(found.collect::<BTreeSet<_>>(), all, "not found out");
}

/// A path over some labels of a plant, and groups or none.
fn asked(random: &mut Random, whole: &Part) -> (Option<Groups>, Vec<u32>) {
    let labels: Vec<u32> = whole.nodes.iter().flat_map(|node| node.edges.iter().map(|edge| edge.0)).collect();
    let alphabet: Vec<u32> = (0..random.between(1, 5)).map(|_| random.pick(&labels)).collect();
    let (path, with_groups) = (some_path(random, &alphabet), random.chance(50));
    grouped(random, &alphabet, path, with_groups)
}

/// A question about a drawn plant, with a cut of it by the library's cutter.
fn question(random: &mut Random, words: &[u32]) -> Question {
    let whole = read_whole(&bytes_of(words)).expect("a whole");
    let (groups, path) = asked(random, &whole);
    let sites = random.pick(&[1, 2, 2, 3, 5, 16]);
    let cuts: Vec<u8> = whole.nodes.iter().map(|_| random.below(sites) as u8).collect();
    let part = |site: usize| {
        let cut = Call::Cut { whole: bytes_of(words), cuts: cuts.clone(), site: site as u32 };
        read_part(&bytes_of(&made(random, cut).expect("a part"))).expect("a part")
    };
    let parts = (0..sites).map(part).collect();
    Question { plant: Plant::of(&whole), parts, groups, path }
}

/// What a question and its joined list have.
type Sort = fn(&Question, &[u32]) -> bool;

const SORTS: [Named<Sort>; 7] = [
    ("joined, several sites", |question, _| question.parts.len() > 1),
    ("joined, sixteen sites", |question, _| question.parts.len() == 16),
    ("joined, groups", |question, _| question.groups.is_some()),
    ("joined, no groups", |question, _| question.groups.is_none()),
    ("joined, over a hundred nodes", |question, _| question.plant.nodes.len() > 100),
    ("joined, several nodes listed", |_, list| list.len() > 2),
    ("joined, a node listed that is not the root's target", |question, list| {
        let near: BTreeSet<u32> = question.plant.nodes[&0].iter().map(|link| link.1).chain([0]).collect();
        !nodes_of(list).is_subset(&near)
    }),
];

/// What becomes of a run. It is refused for a limit alone: of a first reply, or of a bundle or list of calls.
fn ended(question: &Question, outcome: &Outcome, old: &[u32]) -> Vec<&'static str> {
    match outcome {
        Ok(list) => {
            assert_eq!(list, old, "the old search's list");
            names(&SORTS, |sort| sort(question, list))
        }
        Err(refusal) => {
            assert!([2, 15].contains(&refusal.number), "{refusal:?}");
            vec!["over a limit"]
        }
    }
}

/// The old search accepts every drawn plant, and lists what the split search lists over its cuts wherever that is not refused.
#[test]
fn searched() {
    let owed = names(&SORTS, |_| true).into_iter().chain(["over a limit"]);
    meet("drawn and searched", [cases() * 2 / 100, 5_000], owed, |random| {
        let source = if random.chance(10) { with_equals(random) } else { accepted(random) };
        let (words, _) = generate(random, &source).expect("counts that are accepted");
        check_plant(&source, &words);
        let mut question = question(random, &words);
        let old = old_search(random, &question, &words).expect("the old search accepts it");
        let met = ended(&question, &run(random, &question).1, &old);
        for _ in 0..3 {
            (question.groups, question.path) = asked(random, &source.part());
            assert!(old_search(random, &question, &words).is_ok(), "the old search accepts it");
        }
        met
    });
}
