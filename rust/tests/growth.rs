//! What a new link may do (document 02, request 12): a link added between two nodes of a plant, where no node is newly stopped, takes no node
//! off the final list, nor does "that path or another", so long as neither run is refused. By the library, for whole questions, the two with
//! true cuts and orders of their own, with groups and links that end nowhere, and for the old search where a plant fits one file.

use mowqachi_tests::asking::{old_search, one_file, run};
use mowqachi_tests::beside::{answer, hex};
use mowqachi_tests::evaluation::groups::OURS;
use mowqachi_tests::evaluation::hub::nodes_of;
use mowqachi_tests::evaluation::part::read_whole;
use mowqachi_tests::evaluation::path::{read_path, read_path_by, Expression, MOST_WAITING};
use mowqachi_tests::evaluation::plant::Plant;
use mowqachi_tests::evaluation::words::bytes_of;
use mowqachi_tests::evaluation::Outcome;
use mowqachi_tests::generate::growth::*;
use mowqachi_tests::generate::path::{joined, OR, STAR, THEN};
use mowqachi_tests::generate::question::Question;
use mowqachi_tests::meeting::meet;
use mowqachi_tests::mistakes::growth::{entered_once, Searching, EITHER, LINKED};
use mowqachi_tests::mistakes::{names, Named};
use mowqachi_tests::random::{cases, Random};
use mowqachi_tests::walking::strays;
use mowqachi_tests::written::{bytes, lists, words, P, STOPPED, W};
use std::collections::BTreeSet;

/// What a question gives by the split search and, where its plant fits one file, by the old one.
fn given(random: &mut Random, question: &Question) -> Vec<Outcome> {
    assert!(question.plant.is_cut_into(&question.parts), "questions have true cuts");
    let split = run(random, question).1;
    let whole = one_file(&question.plant.left_out());
    let old = whole.map(|whole| old_search(random, question, &whole));
    [split].into_iter().chain(old).collect()
}

/// The pairs of searches before and after, by their places in what is given.
const PAIRS: [Named<[usize; 2]>; 4] = [
    ("split before, split after", [0, 0]),
    ("split before, old after", [0, 1]),
    ("old before, split after", [1, 0]),
    ("old before, old after", [1, 1]),
];

/// The lists of each pair of searches that both end with one.
fn both_lists(given: &[Vec<Outcome>; 2]) -> Vec<(&'static str, [BTreeSet<u32>; 2])> {
    let list = |at: usize, by: usize| given[at].get(by)?.as_ref().ok().map(|list| nodes_of(list));
    let pair = |(name, by): (&'static str, [usize; 2])| Some((name, [list(0, by[0])?, list(1, by[1])?]));
    PAIRS.into_iter().filter_map(pair).collect()
}

/// Something that two questions have.
type Sort = fn(&Two) -> bool;

/// Of two questions that the split search ends with a list.
const SORTS: [Named<Sort>; 5] = [
    ("groups", |[before, _]| before.groups.is_some()),
    ("stopped nodes", |[_, after]| !after.plant.stopped.is_empty()),
    ("links that end nowhere, in parts of both", |two| two.iter().all(|own| !strays(own).is_empty())),
    ("several sites in both", |two| two.iter().all(|own| own.parts.len() > 1)),
    ("a plant over one file", |two| two.iter().all(|own| one_file(&own.plant.left_out()).is_none())),
];

/// Of two plants.
const BY_PLANT: [Named<Sort>; 2] = [
    ("grown by the link", |two| listed(&two[0], &two[0].plant) != listed(&two[0], &with_link_alone(two))),
    ("grown by a started node", |two| {
        listed(&two[1], &two[1].plant) != listed(&two[1], &with_link_alone(two))
    }),
];

/// Of two paths, the second up to its limits.
const BY_PATH: [Named<Sort>; 3] = [
    ("grown by the other path", |two| listed(&two[0], &two[0].plant) != listed(&two[1], &two[1].plant)),
    ("fifteen labels", |[_, after]| after.read_path().n() == 15),
    ("eight operands wait", |[_, after]| {
        read_path_by(&bytes_of(&after.path), &OURS, |_, waiting| waiting < MOST_WAITING).is_err()
    }),
];

/// The list of a plant for the question's path.
fn listed(question: &Question, plant: &Plant) -> Vec<u32> {
    plant.search(&question.read_path())
}

/// The second plant with the nodes stopped that are in the first.
fn with_link_alone([before, after]: &Two) -> Plant {
    Plant { stopped: before.plant.stopped.clone(), ..after.plant.clone() }
}

/// Refusals that end the second run alone.
const REFUSED: [(u32, &str); 2] = [(14, "the second refused with 14"), (15, "the second refused with 15")];

/// What must be met, with these sorts and these searches that go wrong.
fn owed(sorts: &[Named<Sort>], searches: &[Named<Searching>]) -> Vec<&'static str> {
    let [pairs, refused] = [names(&PAIRS, |_| true), REFUSED.map(|(_, name)| name).to_vec()];
    [pairs, refused, names(&SORTS, |_| true), names(sorts, |_| true), names(searches, |_| true)].concat()
}

/// So many nodes are few enough for searches that go wrong.
const FEW: usize = 200;

/// Runs two questions, of which the second must list what the first lists by any pair of searches. What was met: pairs, refusals, sorts, and
/// searches that go wrong and would have been found out.
fn grows(
    random: &mut Random,
    two: &Two,
    sorts: &[Named<Sort>],
    searches: &[Named<Searching>],
) -> Vec<&'static str> {
    let given = [0, 1].map(|at| given(random, &two[at]));
    let [before, after] = [0, 1].map(|at| answer(&given[at][0]).0);
    let refused = REFUSED.into_iter().filter(|(number, _)| [before, after] == [0, *number]);
    let mut met: Vec<&str> = refused.map(|(_, name)| name).collect();
    for (name, [before, after]) in both_lists(&given) {
        assert!(before.is_subset(&after), "{name}: {before:?} and then {after:?} of {two:x?}");
        met.push(name);
    }
    if [before, after] == [0, 0] {
        let shrinks = |search: &Searching| {
            let [before, after] = [0, 1].map(|at| search(&two[at].plant, &two[at].read_path()));
            !before.is_subset(&after)
        };
        met.extend(names(&SORTS, |sort| sort(two)));
        met.extend(names(sorts, |sort| sort(two)));
        met.extend(names(searches, |search| two[0].plant.nodes.len() <= FEW && shrinks(search)));
    }
    met
}

#[test]
fn a_link_more_takes_no_node_off_the_list() {
    meet("a link more", [cases() / 75, 20_000], owed(&BY_PLANT, &LINKED), |random| {
        let two = with_another_plant(random, |random, question| {
            let plant = linked(random, question);
            started(random, plant)
        });
        assert!(two[0].plant.grows_into(&two[1].plant), "{two:x?}");
        grows(random, &two, &BY_PLANT, &LINKED)
    });
}

/// Whether the second path is "the first or another": the first's words come first, and are read as its first operand.
fn is_either([before, after]: &Two) -> bool {
    let either = match after.read_path().expression {
        Expression::Or(first, _) => *first == before.read_path().expression,
        _ => false,
    };
    either && after.path[1..].starts_with(&before.path[1..]) && after.groups == before.groups
}

#[test]
fn or_another_path_takes_no_node_off_the_list() {
    meet("or another path", [cases() / 75, 20_000], owed(&BY_PATH, &EITHER), |random| {
        with_another_path(random, &[OR]).map_or(vec![], |two| {
            assert!(is_either(&two), "{two:x?}");
            grows(random, &two, &BY_PATH, &EITHER)
        })
    });
}

/// Whether a node of the first list is off the second.
fn takes_off(random: &mut Random, two: &Two) -> bool {
    let given = [0, 1].map(|at| given(random, &two[at]));
    both_lists(&given).iter().any(|(_, [before, after])| !before.is_subset(after))
}

/// What is asked of the second plant is needed.
#[test]
fn a_newly_stopped_node_or_a_link_less_may_take_nodes_off() {
    let changes: [Named<Change>; 2] = [
        ("a link more, a node newly stopped", |random, question| {
            let plant = linked(random, question);
            newly_stopped(random, plant)
        }),
        ("a link more, another less", |random, question| {
            let plant = linked(random, question);
            unlinked(random, plant)
        }),
    ];
    meet("other plants", [cases() / 150, 20_000], names(&changes, |_| true), |random| {
        let (name, change) = random.pick(&changes);
        let two = with_another_plant(random, change);
        let off = takes_off(random, &two);
        assert!(!off || !two[0].plant.grows_into(&two[1].plant), "{name} of {two:x?}");
        off.then_some(name).into_iter().collect()
    });
}

/// What is asked of the second path is needed.
#[test]
fn another_operator_may_take_nodes_off() {
    let operators: [Named<&[u32]>; 2] = [("then", &[THEN]), ("a star of then", &[THEN, STAR])];
    meet("other operators", [cases() / 150, 20_000], names(&operators, |_| true), |random| {
        let (name, operators) = random.pick(&operators);
        let off = with_another_path(random, operators).map_or(false, |two| takes_off(random, &two));
        off.then_some(name).into_iter().collect()
    });
}

/// W with a link 5 of node 3 to itself, and with node 2 stopped besides.
const LOOPED: &str = "10000008 20030001 30050002 20000002 30060003 20000003 30050002 30050003";
const LOOPED_AND_STOPPED: &str = "10000008 20030001 30050002 20040002 30060003 20000003 30050002 30050003";
/// 5 then 6.
const TWO_LABELS: &str = "40200004 50005005 50006006 60000001";

/// By the old search, and by the split one over four cuts.
#[test]
fn document_01s_question() {
    let (two, two_and_three) = ("f0000002 e0000002", "f0000003 e0000002 e0000003");
    lists(W, None, P, two);
    lists(LOOPED, None, P, two_and_three);
    lists(LOOPED_AND_STOPPED, None, P, "f0000001");
    lists(STOPPED, None, P, two);
    let with = |operator: u32| joined(&words(P), &words(TWO_LABELS), &[operator]).expect("a path");
    lists(W, None, &hex(&bytes_of(&with(OR))), two_and_three);
    lists(W, None, &hex(&bytes_of(&with(THEN))), "f0000001");
}

/// A link 5 from the root to node 3, so that walks come there in a state that does not accept: a search that enters each node once loses it.
#[test]
fn a_node_is_entered_in_every_state() {
    let linked = "10000008 20030001 30050002 30050003 20000002 30060003 20000003 30050002";
    let path = read_path(&bytes(TWO_LABELS), &OURS).expect("a path");
    let [before, after] = [W, linked].map(|whole| {
        lists(whole, None, TWO_LABELS, "f0000002 e0000003");
        entered_once(&Plant::of(&read_whole(&bytes(whole)).expect("a whole")), &path)
    });
    assert_eq!((before, after), (BTreeSet::from([3]), BTreeSet::new()));
}
