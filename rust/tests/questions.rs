//! Demand 3: whole questions over random plants, true cuts, paths, groups and orders, run by the library and held to the evaluation. Plants
//! and parts may have links that end nowhere, walked or not.

use mowqachi_tests::asking::{made, old_search, one_file, run, Run};
use mowqachi_tests::beside::{answer, Call};
use mowqachi_tests::evaluation::groups::Groups;
use mowqachi_tests::evaluation::hub::{call_list, nodes_of, read_first_bundle};
use mowqachi_tests::evaluation::part::Part;
use mowqachi_tests::evaluation::path::Path;
use mowqachi_tests::evaluation::plant::Plant;
use mowqachi_tests::evaluation::replies::{first_reply_words, second_reply_words, Pair};
use mowqachi_tests::evaluation::words::*;
use mowqachi_tests::evaluation::Outcome;
use mowqachi_tests::finding::{found_out_by_bundle, found_out_by_path};
use mowqachi_tests::generate::question::{question, Question};
use mowqachi_tests::meeting::meet;
use mowqachi_tests::mistakes::{names, ByTrip, GROUPS, OUTSIDE, STRAYS, TRIPS};
use mowqachi_tests::random::{cases, Random};
use mowqachi_tests::walking::{idle, strays, walks, without_strays, IDLE};
use std::collections::BTreeSet;

/// How a question may end, and what must have been asked about.
const ENDS: [&str; 11] = [
    "joined",
    "joined, further doors",
    "joined, sixteen sites",
    "joined, plant over one file",
    "first reply over its limit",
    "first reply over its limit by links that nobody walks",
    "call list over its limit",
    "first bundle over its limit",
    "second bundle over its limit",
    "a walked link ends nowhere",
    "a walked link ends nowhere, call list over its limit",
];

/// Stopped nodes whose bit a search might ignore, and what its list would then have besides: these nodes, or running ones behind them. Each
/// must have been met, so that such a search fails.
const IGNORED: [[&str; 2]; 3] = [
    ["stopped root listed", "stopped root left"],
    ["stopped door called and listed", "stopped door called and left"],
    ["stopped node inside a part listed", "stopped node inside a part left"],
];

/// The bound on traffic: reach words of a first reply by doors, outside targets and n.
fn check_traffic(part: &Part, n: usize, reply: &[u32]) {
    let reach = reply.iter().filter(|word| kind(**word) == REACH).count();
    let bound = part.doors().count() * part.outside_targets().len() * n * (n + 1);
    assert!(reach <= bound, "{reach} reach words, bound {bound}");
}

/// Whether the part owes a reply over its limit because of links that end nowhere, none of which is walked.
fn over_by_strays(question: &Question, part: &Part, path: &Path) -> bool {
    let without = first_reply_words(&without_strays(question, part), path);
    without.len() <= FILE_LIMIT && question.plant.walked(path, &strays(question)).is_empty()
}

/// Each first reply is within the bound on traffic, and one is refused only with 15.
fn check_firsts(question: &Question, path: &Path, run: &Run, number: u32) -> Result<(), &'static str> {
    let replied = question.parts.iter().zip(&run.firsts);
    replied.for_each(|(part, reply)| check_traffic(part, path.n(), reply));
    match question.parts.get(run.firsts.len()) {
        None => Ok(()),
        Some(part) if over_by_strays(question, part, path) => {
            refused(number, 15, "first reply over its limit by links that nobody walks")
        }
        Some(_) => refused(number, 15, "first reply over its limit"),
    }
}

/// The call list that the hub owes, however long, and whether it has pairs where no node is: just if some part has a link that ends nowhere
/// and is walked. What is walked comes from what expressions mean, and the pairs from states.
fn owed_calls(question: &Question, path: &Path) -> (Vec<u32>, bool) {
    let crossings = walks(question, path).crossings;
    let walked = question.plant.walked(path, &strays(question));
    let no_nodes =
        crossings.iter().map(|pair| pair.0).filter(|node| !question.plant.nodes.contains_key(node));
    let ends: BTreeSet<u32> = walked.iter().map(|link| link.2).collect();
    assert_eq!(no_nodes.collect::<BTreeSet<_>>(), ends, "where no node is");
    (call_list(path.n() as u32, &crossings), !walked.is_empty())
}

/// The hub's answer to a bundle within its limit: 14 exactly if a link that ends nowhere is walked; else the list that is owed, or 15 for it.
fn check_calls(
    question: &Question,
    path: &Path,
    bundle: &[u8],
    outcome: &Outcome,
    noted: &mut Vec<&'static str>,
) -> Result<(), &'static str> {
    let (number, list) = answer(outcome);
    if bundle.len() > 4 * BUNDLE_LIMIT {
        return refused(number, 2, "first bundle over its limit");
    }
    noted.extend(found_out_by_bundle(bundle, outcome));
    let (owed, walked) = owed_calls(question, path);
    match (walked, owed.len() > FILE_LIMIT) {
        (true, true) => refused(number, 14, "a walked link ends nowhere, call list over its limit"),
        (true, false) => refused(number, 14, "a walked link ends nowhere"),
        (false, true) => refused(number, 15, "call list over its limit"),
        (false, false) => {
            assert_eq!((number, &list), (0, &owed));
            noted.extend(idle(question, path, &read_first_bundle(bundle).expect("honest replies")));
            Ok(())
        }
    }
}

/// The end of a question that this number is due to.
fn refused<T>(number: u32, due: u32, end: &'static str) -> Result<T, &'static str> {
    assert_eq!(number, due, "{end}");
    Err(end)
}

/// The old search gives the same list for the plant with the links that end nowhere left out. With them it gives 8, and so does the cutter.
fn check_old(random: &mut Random, question: &Question, list: &[u32]) {
    let plant = &question.plant;
    if let Some(whole) = one_file(&plant.left_out()) {
        let given = answer(&old_search(random, question, &whole));
        assert_eq!(given, (0, list.to_vec()), "the old search's list");
    }
    let open = plant.links().iter().any(|link| plant.ends_nowhere(link));
    if let Some(whole) = one_file(plant).filter(|_| open) {
        assert_eq!(answer(&old_search(random, question, &whole)).0, 8);
        let cut = Call::Cut { whole: bytes_of(&whole), cuts: vec![0; plant.nodes.len()], site: 0 };
        assert_eq!(answer(&made(random, cut)).0, 8);
    }
}

fn check_list(random: &mut Random, question: &Question, path: &Path, list: &[u32], seconds: &[Vec<u32>]) {
    assert_eq!(list, question.plant.left_out().search(path), "demand 2's list");
    let mut answers: Vec<u32> = seconds.iter().flat_map(|reply| reply[1..].to_vec()).collect();
    answers.sort();
    assert_eq!(answers, list[1..], "the second replies hold the listed nodes, each once");
    check_old(random, question, list);
}

/// What of `IGNORED` the question holds. The hub calls stopped doors like others.
fn ignored(plant: &Plant, path: &Path, calls: &[u32], list: &[u32]) -> Vec<&'static str> {
    let called: BTreeSet<u32> = calls[1..].iter().map(|call| bits(*call, 19, 4)).collect();
    let place = |node: &u32| match node {
        _ if *node == plant.root => 0,
        _ if called.contains(node) => 1,
        _ => 2,
    };
    let mut found = vec![];
    for (at, names) in IGNORED.iter().enumerate() {
        let (some, stopped): (BTreeSet<u32>, _) = plant.stopped.iter().partition(|node| place(node) == at);
        if some.is_empty() {
            continue;
        }
        let more = Plant { stopped, ..plant.clone() }.search(path);
        let besides = &nodes_of(&more) - &nodes_of(list);
        found.extend((!besides.is_disjoint(&some)).then_some(names[0]));
        found.extend((!besides.is_subset(&some)).then_some(names[1]));
    }
    found
}

/// The answers of sites that read the path by these groups in the first trip and in the second; none where the hub gives 14.
fn answers_by(question: &Question, first: &Groups, second: &Groups) -> Option<BTreeSet<u32>> {
    let calls: Vec<Pair> = walks(question, &question.path_by(first)).crossings.into_iter().collect();
    let path = question.path_by(second);
    let reply = |part: &Part| second_reply_words(part, &path, &calls)[1..].to_vec();
    let at_nodes = calls.iter().all(|pair| question.plant.nodes.contains_key(&pair.0));
    at_nodes.then(|| question.parts.iter().flat_map(reply).collect())
}

/// The mistakes of `TRIPS` by which the joined list would be another.
fn trips(question: &Question, list: &[u32]) -> Vec<&'static str> {
    let owed: BTreeSet<u32> = list[1..].iter().copied().collect();
    let differs = |groups: Groups, by_trip: ByTrip| {
        let (first, second) = by_trip(groups);
        answers_by(question, &first, &second).as_ref() != Some(&owed)
    };
    names(&TRIPS, |by_trip| question.groups.map_or(false, |groups| differs(groups, *by_trip)))
}

/// Runs one question to its end, and notes what of `IGNORED` and `IDLE` it holds and which mistakes it finds out.
fn ask(
    random: &mut Random,
    question: &Question,
    noted: &mut Vec<&'static str>,
) -> Result<&'static str, &'static str> {
    let path = question.read_path();
    assert!(question.plant.is_cut_into(&question.parts), "questions have true cuts");
    let (run, outcome) = run(random, question);
    let number = answer(&outcome).0;
    check_firsts(question, &path, &run, number)?;
    let hub = run.calls.clone().map_or(outcome.clone(), Ok);
    check_calls(question, &path, &run.first_bundle, &hub, noted)?;
    assert_eq!(run.seconds.len(), question.parts.len(), "second replies have no limit to pass");
    if run.second_bundle.len() > 4 * BUNDLE_LIMIT {
        return refused(number, 2, "second bundle over its limit");
    }
    let list = outcome.expect("honest replies join");
    check_list(random, question, &path, &list, &run.seconds);
    noted.extend(ignored(&question.plant, &path, &hub.expect("a call list"), &list));
    let by_list = |path: &Path| question.plant.search(path);
    noted.extend(found_out_by_path(&question.path, question.groups, &list, by_list));
    noted.extend(trips(question, &list));
    Ok(joined(question))
}

/// The end of a question that has a list.
fn joined(question: &Question) -> &'static str {
    let crossed: BTreeSet<u32> = question.parts.iter().flat_map(Part::outside_targets).collect();
    let further = |part: &Part| part.doors().any(|door| !door.root && !crossed.contains(&door.number));
    match () {
        () if one_file(&question.plant).is_none() => "joined, plant over one file",
        () if question.parts.len() == 16 => "joined, sixteen sites",
        () if question.parts.iter().any(further) => "joined, further doors",
        () => "joined",
    }
}

/// Makes this share of the cases, and goes on for a while if something has not been met.
fn questions(stream: &'static str) {
    let in_words = [names(&OUTSIDE, |_| true), names(&GROUPS, |_| true), names(&TRIPS, |_| true)].concat();
    let mistakes = [in_words, names(&STRAYS, |_| true)].concat();
    let held = IGNORED.iter().flatten().chain(&IDLE);
    let owed = ENDS.iter().chain(held).chain(&mistakes).copied();
    meet(stream, [cases() * 6 / 100, 20_000], owed, |random| {
        let question = question(random);
        let mut met = vec![];
        let end = ask(random, &question, &mut met).unwrap_or_else(|end| end);
        met.push(end);
        met
    });
}

// Two tests, so that two cores share them.

#[test]
fn questions_a() {
    questions("questions a");
}

#[test]
fn questions_b() {
    questions("questions b");
}
