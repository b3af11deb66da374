//! The evaluation's own meaning of label words and expressions, by methods that must agree, which walk it gives, and what it takes for a true
//! cut.

use mowqachi_tests::evaluation::derivatives::Rests;
use mowqachi_tests::evaluation::groups::{Groups, OURS};
use mowqachi_tests::evaluation::hub::nodes_of;
use mowqachi_tests::evaluation::learning::{alike, only, reached};
use mowqachi_tests::evaluation::meaning::{
    listed_by_flow, listed_by_relation, stepped_on_by_flow, stepped_on_by_relation,
};
use mowqachi_tests::evaluation::part::Part;
use mowqachi_tests::evaluation::path::{read_path, Path};
use mowqachi_tests::evaluation::plant::{links_of, Plant};
use mowqachi_tests::evaluation::relation::Relation;
use mowqachi_tests::evaluation::states::States;
use mowqachi_tests::evaluation::walks::*;
use mowqachi_tests::evaluation::words::{bytes_of, kind, LABEL};
use mowqachi_tests::finding::found_out_by_path;
use mowqachi_tests::generate::calls::asked;
use mowqachi_tests::generate::groups::{grouped, groups, naming};
use mowqachi_tests::generate::path::{alphabet, label_word, or_of, path};
use mowqachi_tests::generate::plant::some_plant;
use mowqachi_tests::generate::question::small;
use mowqachi_tests::generate::walks::asked as asked_walk;
use mowqachi_tests::meeting::meet;
use mowqachi_tests::mistakes::{GROUPS, OUTSIDE};
use mowqachi_tests::random::{cases, seed, Random};
use std::collections::BTreeSet;
use std::slice::from_ref;

/// Whether the labels, in order, are a word of the path's expression.
fn word_by_derivatives(path: &Path, word: &[u32]) -> bool {
    let rests = Rests::of(path);
    rests.behind(word).map_or(false, |left| rests.may_end(left))
}

/// The states to which runs over the word lead.
fn run_over(path: &Path, states: &States, word: &[u32]) -> BTreeSet<usize> {
    let step = |at: BTreeSet<usize>, label: &u32| -> BTreeSet<usize> {
        at.into_iter().flat_map(|q| states.after(path, q, *label)).collect()
    };
    word.iter().fold(BTreeSet::from([0]), step)
}

/// The same by the states: some run over the word ends in an accepting one.
fn word_by_states(path: &Path, states: &States, word: &[u32]) -> bool {
    run_over(path, states, word).into_iter().any(|q| states.accepts[q])
}

/// The labels of a range, those outside it and those of a group, by the digits of the word or of the group's own.
#[test]
fn labels() {
    for case in 0..cases() * 3 / 100 {
        let mut random = Random::new(seed(), "labels", case);
        let alphabet = alphabet(&mut random);
        let groups = groups(&mut random, &alphabet);
        let words = or_of(label_word(&mut random, &alphabet), 1, false);
        let words = naming(&mut random, words);
        let path = read_path(&bytes_of(&words), &groups).expect("a path");
        let mut digits = format!("{:08x}", words[1]);
        if let Some(group) = digits.strip_prefix("5100000") {
            digits = format!("{:08x}", groups[group.parse::<usize>().expect("a digit")]);
        }
        let [low, high] = [5..8, 2..5].map(|at| u32::from_str_radix(&digits[at], 16).expect("digits"));
        let owed: Vec<u32> = match &digits[..2] {
            "50" => (low..=high).collect(),
            _ => (0..low).chain(high + 1..4096).collect(),
        };
        let held: Vec<u32> = (0..4096).filter(|label| path.holds(1, *label)).collect();
        assert_eq!(held, owed, "{words:x?} {groups:x?}");
    }
}

/// A path of at most so many operands over an alphabet of its own, every other one with groups of its own.
fn drawn_path(random: &mut Random, case: u64, most: usize) -> (Vec<u32>, Vec<u32>, Option<Groups>, Path) {
    let alphabet = alphabet(random);
    let operands = random.between(1, most);
    let words = path(random, &alphabet, operands);
    let (groups, words) = grouped(random, &alphabet, words, case % 2 == 0);
    let path = read_path(&bytes_of(&words), &groups.unwrap_or(OURS)).expect("a path");
    (alphabet, words, groups, path)
}

/// Goes on for a while if a mistake in reading labels or groups has not been found out.
#[test]
fn words() {
    let (mut members, mut found, mut case, wanted) = (0, BTreeSet::new(), 0, cases() * 5 / 100);
    let mistakes = OUTSIDE.len() + GROUPS.len();
    while case < wanted || case < wanted + 10_000 && found.len() < mistakes {
        let mut random = Random::new(seed(), "words", case);
        let (alphabet, words, groups, path) = drawn_path(&mut random, case, 6);
        let labels: Vec<u32> = words.iter().copied().filter(|word| kind(*word) == LABEL).collect();
        assert_eq!(path.expression.postfix(&|position| labels[position - 1]), words[1..]);
        let states = States::of(&path);
        for length in 0..6 {
            let word: Vec<u32> = (0..length).map(|_| random.pick(&alphabet)).collect();
            let member = word_by_derivatives(&path, &word);
            members += u64::from(member);
            assert_eq!(word_by_states(&path, &states, &word), member, "{path:?} {word:?}");
            let listed = listed_by_relation(&path, &chain(&word), 0);
            assert_eq!(listed.contains(&length), member, "{path:?} {word:?}");
            found.extend(found_out_by_path(&words, groups, &member, |path| word_by_derivatives(path, &word)));
        }
        case += 1;
    }
    assert!(members > cases() / 30, "too few words belong: {members}");
    assert_eq!(found.len(), mistakes, "only these mistakes are found out: {found:?}");
}

/// A link is walked where some run goes over the labels before it and its own: the last of a chain, by four methods.
#[test]
fn steps() {
    let mut stepped = [0, 0];
    for case in 0..cases() * 3 / 100 {
        let mut random = Random::new(seed(), "steps", case);
        let (alphabet, _, _, path) = drawn_path(&mut random, case, 6);
        let states = States::of(&path);
        let before: Vec<u32> = (0..random.below(5)).map(|_| random.pick(&alphabet)).collect();
        let (label, links) = (random.pick(&alphabet), chain(&before));
        let word = [&before[..], &[label]].concat();
        let steps = Rests::of(&path).behind(&word).is_some();
        stepped[usize::from(steps)] += 1;
        assert_eq!(!run_over(&path, &states, &word).is_empty(), steps, "{path:?} {word:?}");
        for stepped_on in [stepped_on_by_relation, stepped_on_by_flow] {
            assert_eq!(stepped_on(&path, &links, 0, &[(label, before.len())]), [steps], "{path:?} {word:?}");
        }
    }
    assert!(stepped.iter().all(|count| *count > cases() / 200), "too few of one sort: {stepped:?}");
}

#[test]
fn lists() {
    for case in 0..cases() * 2 / 100 {
        let mut random = Random::new(seed(), "lists", case);
        let (alphabet, _, _, path) = drawn_path(&mut random, case, 15);
        let count = random.between(1, 20);
        let link = |random: &mut Random| (random.pick(&alphabet), random.below(count));
        let mut node = || (0..random.below(4)).map(|_| link(&mut random)).collect();
        let links: Vec<Vec<(u32, usize)>> = (0..count).map(|_| node()).collect();
        let root = random.below(count);
        assert_eq!(listed_by_relation(&path, &links, root), listed_by_flow(&path, &links, root));
        let further: Vec<(u32, usize)> = (0..random.below(5)).map(|_| link(&mut random)).collect();
        let [by_relation, by_flow] = [stepped_on_by_relation, stepped_on_by_flow]
            .map(|stepped_on| stepped_on(&path, &links, root, &further));
        assert_eq!(by_relation, by_flow);
    }
}

/// Walks from the root over running nodes with at most so many links, none of them left out: shorter ones first, and those of one length in the
/// order of their words.
fn all_walks(whole: &Part, most: usize) -> Vec<Vec<u32>> {
    let runs = |number: u32| whole.node(number).filter(|node| !node.stopped);
    let root = whole.root().map_or(0, |root| root.number);
    let longer = |links: &Vec<u32>| -> Vec<Vec<u32>> {
        let end = links.last().map_or(root, |word| target_of(*word));
        let words = runs(end).map_or(vec![], words_behind).into_iter();
        words
            .filter(|word| runs(target_of(*word)).is_some())
            .map(|word| [&links[..], &[word]].concat())
            .collect()
    };
    let first: Vec<Vec<u32>> = runs(root).map(|_| vec![]).into_iter().collect();
    let next = |walks: &Vec<Vec<u32>>| Some(walks.iter().flat_map(longer).collect::<Vec<_>>());
    std::iter::successors(Some(first), next).take(most + 1).flatten().collect()
}

/// The walk that is given is the first of all, and just the nodes of the list have one; the bytes of each walk are one to its end, if its labels
/// are a word.
#[test]
fn walks() {
    let sorts = ["a walk of several", "the only walk", "no walk", "a walk with more links"];
    meet("all walks", [cases() / 100, 10_000], sorts, |random| {
        let with_groups = random.chance(50);
        let asked = asked_walk(random, with_groups);
        let (whole, path, most) = (&asked.whole, asked.read_path(), random.between(2, 4));
        if whole.words().len() > 20 {
            return vec![];
        }
        let found = lowest_walk(whole, &path, asked.node);
        assert_eq!(
            found.is_some(),
            nodes_of(&Plant::of(whole).search(&path)).contains(&asked.node),
            "{asked:x?}"
        );
        let to_node = |links: &Vec<u32>| is_walk(whole, &path, asked.node, &bytes_of(&walk_file(links)));
        let all = all_walks(whole, most);
        let accepted: Vec<&Vec<u32>> = all.iter().filter(|links| to_node(links)).collect();
        for links in all.iter().take(100) {
            let labels: Vec<u32> = links.iter().copied().map(label_of).collect();
            let end = links
                .last()
                .copied()
                .map_or(whole.root().map(|root| root.number), |word| Some(target_of(word)));
            let owed = end == Some(asked.node) && word_by_derivatives(&path, &labels);
            assert_eq!(to_node(links), owed, "{asked:x?} {links:x?}");
        }
        let within = found.as_ref().filter(|links| links.len() <= most);
        assert_eq!(accepted.first().copied(), within, "{asked:x?}");
        match (accepted.len(), found.is_some()) {
            (0, true) => vec![sorts[3]],
            (0, false) => vec![sorts[2]],
            (1, _) => vec![sorts[1]],
            _ => vec![sorts[0]],
        }
    });
}

/// What is reached from the doors, by the closure of the links inside a part.
#[test]
fn reached_nodes() {
    let sorts = ["a reached node that is no door", "a node that is not reached"];
    meet("reached nodes", [cases() * 2 / 100, 10_000], sorts, |random| {
        let part = asked(random, some_plant, false).0;
        let place = |number: u32| part.nodes.iter().position(|node| node.number == number);
        let mut links = Relation::none(part.nodes.len());
        for (source, _, target) in links_of(from_ref(&part)) {
            place(source).zip(place(target)).into_iter().for_each(|(from, to)| links.add(from, to));
        }
        let (closed, all) = (links.star(), 0..part.nodes.len());
        let leads = |at: &usize| all.clone().any(|door| part.nodes[door].door && closed.has(door, *at));
        let owed: BTreeSet<u32> = all.clone().filter(leads).map(|at| part.nodes[at].number).collect();
        assert_eq!(reached(&part), owed, "{part:x?}");
        assert!(alike(&part, &only(&part, &owed)), "{part:x?}");
        let held = [owed.len() > part.doors().count(), owed.len() < part.nodes.len()];
        sorts.into_iter().zip(held).filter(|(_, held)| *held).map(|(sort, _)| sort).collect()
    });
}

/// One node of one part changed, so that the parts are no true cut any more; false where this node cannot be changed so.
type Damage = fn(&Plant, &mut Vec<Part>, usize, usize) -> bool;

const DAMAGES: [Damage; 7] = [
    |_, parts, part, _| {
        parts[part].site = parts[0].site;
        part > 0
    },
    |_, parts, part, node| {
        parts[part].nodes.remove(node);
        true
    },
    |_, parts, part, node| {
        let node = &mut parts[part].nodes[node];
        node.root = !node.root;
        true
    },
    |_, parts, part, node| {
        let node = &mut parts[part].nodes[node];
        node.stopped = !node.stopped;
        true
    },
    |plant, parts, part, node| {
        let edges = &mut parts[part].nodes[node].edges;
        let before = edges.len();
        edges.retain(|edge| !plant.nodes.contains_key(&edge.1));
        edges.len() < before
    },
    |plant, parts, part, node| {
        let node = &mut parts[part].nodes[node];
        let edge = (4094, plant.root);
        node.edges.push(edge);
        !plant.nodes[&node.number].contains(&edge)
    },
    |plant, parts, part, node| {
        let number = parts[part].nodes[node].number;
        parts[part].nodes[node].door = false;
        parts.iter().any(|other| other.outside_targets().contains(&number))
            && plant.nodes.contains_key(&number)
    },
];

/// Parts of questions are a true cut, whatever links end nowhere, and no longer once one of them is changed.
#[test]
fn true_cuts() {
    let mut damaged = [0; DAMAGES.len()];
    for case in 0..cases() * 2 / 100 {
        let mut random = Random::new(seed(), "true cuts", case);
        let question = small(&mut random);
        assert!(question.plant.is_cut_into(&question.parts), "{question:?}");
        let part = random.below(question.parts.len());
        if question.parts[part].nodes.is_empty() {
            continue;
        }
        let node = random.below(question.parts[part].nodes.len());
        for (at, damage) in DAMAGES.iter().enumerate() {
            let mut parts = question.parts.clone();
            if damage(&question.plant, &mut parts, part, node) {
                damaged[at] += 1;
                assert!(!question.plant.is_cut_into(&parts), "damage {at} of {question:?}");
            }
        }
    }
    assert!(damaged.iter().all(|count| *count > cases() / 1000), "too few of one sort: {damaged:?}");
}
