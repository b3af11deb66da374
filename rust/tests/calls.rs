//! Random and damaged inputs for every call, by the library and by the evaluation; every check of the documents must have refused some, and
//! every mistake in reading stopped nodes and labels outside a range, in counting operands, in loading groups, about nodes that are no doors,
//! about several paths in one visit, about one reply for eight askers, about the dearest files, about plants that are drawn, about the triple
//! edition and about walks must have been found out by some.

use mowqachi_tests::beside::{check_dearest, check_from_triples, check_generate, check_to_triples};
use mowqachi_tests::evaluation::dearest::LEAST_ROOMS;
use mowqachi_tests::evaluation::desks;
use mowqachi_tests::evaluation::generator::LEAST_ROOM;
use mowqachi_tests::evaluation::triples::{LEAST_FROM, LEAST_TO};
use mowqachi_tests::evaluation::visit;
use mowqachi_tests::evaluation::words::Refusal;
use mowqachi_tests::evaluation::Visited;
use mowqachi_tests::finding::*;
use mowqachi_tests::generate::calls::{call, room, room_from, rooms};
use mowqachi_tests::generate::counts::counts;
use mowqachi_tests::generate::desks::desks;
use mowqachi_tests::generate::sources::source;
use mowqachi_tests::generate::triples::{triple_file, whole_file};
use mowqachi_tests::generate::visits;
use mowqachi_tests::meeting::meet;
use mowqachi_tests::mistakes::desks::in_desks;
use mowqachi_tests::mistakes::generator::in_drawn_plants;
use mowqachi_tests::mistakes::triples::*;
use mowqachi_tests::mistakes::visit::in_visits;
use mowqachi_tests::mistakes::walks::{in_checks, in_walks};
use mowqachi_tests::mistakes::*;
use mowqachi_tests::random::{cases, Random};

type Checks = &'static [(u32, &'static str)];

const SIZE: Checks = &[(2, "no words"), (2, "not in fours"), (2, "over the limit")];
const HEADER: Checks = &[(3, "header kind"), (3, "header zero bit")];
const NO_SITE: Checks = &[(3, "header site unused"), (4, "length wrong")];
const IN_BUNDLE: Checks = &[(2, "over the limit"), (3, "header site unused")];
const NO_N: Checks = &[(3, "header n unused"), (4, "length wrong")];
const PART: Checks = &[
    (5, "neither node nor edge"),
    (5, "node zero bit"),
    (5, "edge before any node"),
    (6, "nodes"),
    (6, "edges"),
    (7, "root without door"),
    (7, "second root"),
];
const WHOLE: Checks = &[(7, "whole without root"), (8, "target not a node")];
const CUTS: Checks = &[(11, "cut list length"), (11, "cut list byte"), (11, "asked site")];
const PATH: Checks = &[
    (5, "neither label nor operator"),
    (5, "low end above high"),
    (5, "group zero bit"),
    (5, "outside: low end above high"),
    (5, "label sort"),
    (5, "operator zero bit"),
    (9, "operand missing"),
    (9, "9 waiting"),
    (9, "not one left"),
    (9, "label words not n"),
];
const EIGHT: Checks = &[
    (16, "fewer than 32 bytes"),
    (16, "more than 32 bytes"),
    (16, "no label word"),
    (16, "low end above high"),
    (16, "sort 1"),
    (16, "sort 2"),
    (16, "label sort"),
];
const CALLS: Checks = &[
    (5, "no call word"),
    (5, "call zero bit"),
    (10, "call state"),
    (6, "calls"),
    (12, "n not the path's"),
    (14, "called node is no door"),
];
const BUNDLE: Checks = &[
    (4, "length 0"),
    (4, "length over 4,096"),
    (4, "length past the end"),
    (12, "site twice"),
    (12, "different n"),
    (13, "node in two files"),
];
const BUNDLE_OF_PATHS: Checks = &[
    (17, "no words"),
    (17, "not in fours"),
    (17, "over the limit"),
    (17, "length 0"),
    (17, "length past the end"),
    (17, "too many files"),
];
const FIRST: Checks = &[
    (5, "neither door, row nor reach word"),
    (5, "door zero bit"),
    (5, "row before any door"),
    (5, "row zero bit"),
    (5, "reach word before a row"),
    (5, "reach zero bit"),
    (5, "row without reach words"),
    (5, "row without reach words at the end"),
    (10, "row state"),
    (10, "reach state"),
    (6, "doors"),
    (6, "rows"),
    (6, "reach words"),
    (7, "second root"),
    (7, "first bundle without root"),
    (7, "roots in two files"),
    (14, "called pair's node is no door"),
];
const SECOND: Checks = &[(5, "no answer word"), (5, "answer zero bit"), (6, "answers")];
const ROOM: Checks = &[(1, "output short"), (1, "working buffer short")];
const ROOM_BESIDE: Checks = &[(1, "output short")];
const NO_OUTPUT: Checks = &[(1, "working buffer short")];
const NUMBERS: Checks = &[
    (21, "no doors"),
    (21, "no targets"),
    (21, "no labels"),
    (21, "over 15 labels"),
    (21, "doors and targets over 65,536"),
    (21, "part over its limit"),
];
const SIZES: Checks = &[(11, "no nodes"), (11, "over 256 nodes"), (11, "no edges"), (11, "over 4 edges")];
const TRIPLES: Checks = &[
    (18, "not a root and threes"),
    (18, "root too large"),
    (18, "source too large"),
    (18, "label too large"),
    (18, "target too large"),
];
const UNSAID: Checks = &[(19, "stopped node"), (19, "node without links")];
const UNLISTED: Checks = &[(20, "not listed")];
const RESULT: Checks = &[(15, "over its limit")];
const BESIDE: Checks = &[(15, "without room")];

/// Inputs, each with the lists of its checks.
type Inputs<'a> = &'a [(&'static str, &'a [Checks])];

const IN_PART: &[Checks] = &[SIZE, HEADER, NO_N, PART];
const IN_WHOLE: &[Checks] = &[SIZE, HEADER, NO_N, PART, WHOLE];
const IN_PATH: &[Checks] = &[SIZE, HEADER, NO_SITE, PATH];
const IN_CALLS: &[Checks] = &[SIZE, HEADER, NO_SITE, CALLS];
const OLD_SEARCH: Inputs = &[("whole", IN_WHOLE), ("path", IN_PATH)];
const FIRST_REPLY: Inputs = &[("part", IN_PART), ("path", IN_PATH), ("result", &[RESULT])];
const FOUR_REPLIES: Inputs = &[
    ("buffers, output 1", &[ROOM]),
    ("buffers, output 2", &[ROOM_BESIDE]),
    ("buffers, output 3", &[ROOM_BESIDE]),
    ("buffers, output 4", &[ROOM_BESIDE]),
    ("part", IN_PART),
    ("paths", &[BUNDLE_OF_PATHS]),
    ("path", &[HEADER, IN_BUNDLE, PATH]),
    ("result", &[RESULT]),
];
const EIGHT_REPLIES: Inputs = &[
    ("buffers", &[ROOM]),
    ("part", IN_PART),
    ("paths", &[BUNDLE_OF_PATHS]),
    ("path", &[HEADER, IN_BUNDLE, PATH]),
    ("result", &[RESULT, BESIDE]),
];
const GROUPS_TOO: Inputs = &[("groups", &[EIGHT])];
const WALK: Inputs = &[("whole", IN_WHOLE), ("path", IN_PATH), ("node", &[UNLISTED]), ("result", &[RESULT])];
/// The walk that is checked has no check that refuses it.
const CHECK_WALK: Inputs =
    &[("buffers", &[NO_OUTPUT]), ("whole", IN_WHOLE), ("path", IN_PATH), ("walk", &[])];
const SECOND_REPLY: Inputs = &[("part", IN_PART), ("path", IN_PATH), ("call list", IN_CALLS)];

/// The mistakes in reading these inputs.
fn mistakes(inputs: Inputs) -> Vec<&'static str> {
    let has = |wanted: &[&str]| inputs.iter().any(|(input, _)| wanted.contains(input));
    let (nodes, path, groups) = (has(&["part", "whole"]), has(&["path"]), has(&["groups"]));
    let in_bundles = names(&STRAYS, |_| has(&["first bundle"]));
    let in_files = if has(&["counts"]) { in_dearest_files() } else { vec![] };
    let in_plants = if has(&["nodes and edges"]) { in_drawn_plants() } else { vec![] };
    let in_editions = match (has(&["triples"]), has(&["whole for triples"])) {
        (true, _) => in_triples(),
        (_, true) => in_wholes(),
        _ => vec![],
    };
    let about_walks = match (has(&["node"]), has(&["walk"])) {
        (true, _) => in_walks(),
        (_, true) => in_checks(),
        _ => vec![],
    };
    let in_bundles_of_paths = match (has(&["paths"]), has(&["buffers"])) {
        (true, true) => in_desks(groups),
        (true, false) => in_visits(groups),
        _ => vec![],
    };
    let in_words = [names(&STOPPED, |_| nodes), names(&OUTSIDE, |_| path), names(&WAITING, |_| path)];
    let in_groups = [names(&GROUPS, |_| groups), names(&LOADED, |_| groups), names(&PLACES, |_| groups)];
    let in_others = [in_bundles, in_files, in_plants, in_editions, about_walks, in_bundles_of_paths];
    [&in_words[..], &in_groups, &in_others].concat().concat()
}

fn named(refusal: Option<&Refusal>) -> String {
    refusal.map_or("accepted".to_string(), |r| format!("{} {}: {}", r.number, r.input, r.why))
}

/// What must be met at least once: acceptance, each check of each input, each mistake in reading them.
fn owed(inputs: Inputs) -> Vec<String> {
    let checks = inputs.iter().flat_map(|(input, lists)| {
        let list = lists.iter().flat_map(|list| list.iter());
        list.map(|(number, why)| named(Some(&Refusal { number: *number, input, why })))
    });
    let mistakes = mistakes(inputs).into_iter().map(str::to_string);
    checks.chain(mistakes).chain([named(None)]).collect()
}

/// The mistakes that a call finds out, and why it, or each path of a visit, is refused, if it is.
type Met = (Vec<&'static str>, Vec<Option<Refusal>>);

/// Makes this share of the cases, and goes on for a while if something has not been met.
fn share(name: &'static str, inputs: Inputs, make: impl Fn(&mut Random) -> Met) {
    meet(name, [cases() * 8 / 100, 50_000], owed(inputs), |random| {
        let (found_out, refusals) = make(random);
        let refusals = refusals.iter().map(|refusal| named(refusal.as_ref()));
        found_out.into_iter().map(str::to_string).chain(refusals).collect()
    });
}

/// With all inputs, buffers included.
fn run_all(name: &'static str, inputs: Inputs) {
    share(name, inputs, |random| {
        let call = call(random, name);
        let room = room(random, &call);
        let outcome = call.check(random, room);
        (found_out_by_call(&call, room, &outcome), vec![outcome.err()])
    });
}

fn run(name: &'static str, inputs: Inputs) {
    run_all(name, &[&[("buffers", &[ROOM][..])], inputs].concat());
}

/// The same with the groups that the call is handed.
fn run_grouped(name: &'static str, inputs: Inputs) {
    run(name, &[inputs, GROUPS_TOO].concat());
}

fn refusals(visited: Visited) -> Vec<Option<Refusal>> {
    let each = visited.map(|outcomes| outcomes.into_iter().map(Result::err).collect());
    each.unwrap_or_else(|refusal| vec![Some(refusal)])
}

fn run_visits(name: &'static str, inputs: Inputs, grouped: bool) {
    share(name, inputs, |random| {
        let (visit, rooms) = (visits::visit(random, grouped), rooms(random, visit::LEAST_ROOMS));
        let visited = visit.check(random, rooms);
        (found_out_by_visit(&visit, rooms, &visited), refusals(visited))
    });
}

fn run_desks(name: &'static str, inputs: Inputs, grouped: bool) {
    share(name, inputs, |random| {
        let (desks, room) = (desks(random, grouped), room_from(random, desks::LEAST_ROOM));
        let visited = desks.check(random, room);
        (found_out_by_desks(&desks, room, &visited), refusals(visited))
    });
}

#[test]
fn old_search() {
    run("old search", OLD_SEARCH);
}

#[test]
fn old_search_grouped() {
    run_grouped("old search grouped", OLD_SEARCH);
}

#[test]
fn cut() {
    run("cut", &[("whole", IN_WHOLE), ("cut list", &[CUTS])]);
}

#[test]
fn first_reply() {
    run("first reply", FIRST_REPLY);
}

#[test]
fn first_reply_grouped() {
    run_grouped("first reply grouped", FIRST_REPLY);
}

#[test]
fn four_replies() {
    run_visits("four replies", FOUR_REPLIES, false);
}

#[test]
fn four_replies_grouped() {
    run_visits("four replies grouped", &[FOUR_REPLIES, GROUPS_TOO].concat(), true);
}

#[test]
fn eight_replies() {
    run_desks("eight replies", EIGHT_REPLIES, false);
}

#[test]
fn eight_replies_grouped() {
    run_desks("eight replies grouped", &[EIGHT_REPLIES, GROUPS_TOO].concat(), true);
}

#[test]
fn call_list() {
    run("call list", &[("first bundle", &[SIZE, HEADER, BUNDLE, FIRST]), ("result", &[RESULT])]);
}

#[test]
fn second_reply() {
    run("second reply", SECOND_REPLY);
}

#[test]
fn second_reply_grouped() {
    run_grouped("second reply grouped", SECOND_REPLY);
}

#[test]
fn join() {
    run("join", &[("second bundle", &[SIZE, HEADER, BUNDLE, SECOND])]);
}

#[test]
fn dearest() {
    let buffers = [("part's buffers", &[ROOM][..]), ("path's buffers", &[ROOM_BESIDE])];
    share("dearest", &[&buffers[..], &[("counts", &[NUMBERS])]].concat(), |random| {
        let (counts, rooms) = (counts(random), rooms(random, LEAST_ROOMS));
        let outcome = check_dearest(random, counts, rooms);
        (found_out_by_counts(counts, rooms, &outcome), vec![outcome.err()])
    });
}

#[test]
fn generate() {
    share("generate", &[("buffers", &[ROOM]), ("nodes and edges", &[SIZES])], |random| {
        let (source, room) = (source(random), room_from(random, LEAST_ROOM));
        let outcome = check_generate(random, &source, room);
        (found_out_by_source(&source, room, &outcome), vec![outcome.err()])
    });
}

#[test]
fn from_triples() {
    let inputs: Inputs = &[("buffers", &[ROOM]), ("triples", &[SIZE, TRIPLES]), ("result", &[RESULT])];
    share("from triples", inputs, |random| {
        let (triples, room) = (triple_file(random), room_from(random, LEAST_FROM));
        let outcome = check_from_triples(random, &triples, room);
        (found_out_by_triples(&triples, room), vec![outcome.err()])
    });
}

#[test]
fn to_triples() {
    let inputs: Inputs = &[("buffers", &[ROOM]), ("whole for triples", &[IN_WHOLE, &[UNSAID]].concat())];
    share("to triples", inputs, |random| {
        let (whole, room) = (whole_file(random), room_from(random, LEAST_TO));
        let outcome = check_to_triples(random, &whole, room);
        (found_out_by_whole(&whole, room), vec![outcome.err()])
    });
}

#[test]
fn walk() {
    run("walk", WALK);
}

#[test]
fn walk_grouped() {
    run_grouped("walk grouped", WALK);
}

#[test]
fn check_walk() {
    run_all("check walk", CHECK_WALK);
}

#[test]
fn check_walk_grouped() {
    run_all("check walk grouped", &[CHECK_WALK, GROUPS_TOO].concat());
}
