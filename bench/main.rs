//! The twenty-one calls of the library beside plain Rust versions of the same algorithms, and beside better ones where such are known.
mod best;
#[path = "../rust/src/calls.rs"]
mod calls;
mod climb;
mod desks;
mod inputs;
mod library;
mod plain;
mod table;
mod timing;
mod triples;
mod visits;
mod walks;
mod words;

use table::{Call, BEST, BUNDLE, MOST_TRIPLES, PART, PLAIN_SINGLE, PLANT, SHOWN, SINGLE, TRIPLES, UNGROUPED};
use timing::{Run, Version};
use walks::WHOLE_WORDS;

fn versions(runs: Vec<Run<u32>>) -> Vec<Version> {
    runs.into_iter().map(Version::Word).collect()
}

/// The last version of a grouped call is the call without groups, on the same input: its groups are ours.
fn calls() -> Vec<Call> {
    use best as b;
    use library as l;
    use plain as p;
    let call = |name, sizes, shapes, runs| Call { name, sizes, shapes, versions: versions(runs), columns: vec![BEST] };
    let grouped = |name, shape, runs| Call { name, sizes: PART, shapes: vec![shape], versions: versions(runs), columns: vec![UNGROUPED] };
    let [old, first, second] = [inputs::old_search_of_groups(), inputs::first_reply_of_groups(), inputs::second_reply_of_groups()];
    vec![
        call("old search", PART, inputs::old_search(), vec![l::old_search, p::old_search, b::old_search]),
        call("cutter", PART, inputs::cut(), vec![l::cut, p::cut]),
        call("first reply", PART, inputs::first_reply(), vec![l::first_reply, p::first_reply, b::first_reply]),
        call("call list", BUNDLE, inputs::call_list(), vec![l::call_list, p::call_list, b::call_list]),
        call("second reply", PART, inputs::second_reply(), vec![l::second_reply, p::second_reply, b::second_reply]),
        call("join", BUNDLE, inputs::join(), vec![l::join, p::join]),
        call("dearest", PART, inputs::dearest(), vec![l::dearest, p::dearest]),
        call("generate", PLANT, inputs::generate(), vec![l::generate, p::generate]),
        grouped("old search, grouped", old, vec![l::old_search_grouped, p::old_search_grouped, l::old_search]),
        grouped("first reply, grouped", first, vec![l::first_reply_grouped, p::first_reply_grouped, l::first_reply]),
        grouped("second reply, grouped", second, vec![l::second_reply_grouped, p::second_reply_grouped, l::second_reply]),
    ]
}

/// Beside a visit stand single calls for its paths.
fn visits() -> Vec<Call> {
    use library as l;
    use plain as p;
    let visit = |name, shapes, runs, columns| Call { name, sizes: PART, shapes, versions: versions(runs), columns };
    vec![
        visit(
            "four replies",
            inputs::four_replies(),
            vec![l::four_replies, p::four_replies, l::single_replies, p::single_replies],
            vec![SINGLE, PLAIN_SINGLE],
        ),
        visit(
            "four replies, grouped",
            vec![inputs::four_replies_of_groups()],
            vec![l::four_replies_grouped, p::four_replies_grouped, l::single_replies_grouped, p::single_replies_grouped, l::four_replies],
            vec![SINGLE, PLAIN_SINGLE, UNGROUPED],
        ),
    ]
}

/// Beside desks stand single calls for their paths.
fn desks() -> Vec<Call> {
    use library as l;
    use plain as p;
    use Version::{Desks, Singly};
    vec![
        Call {
            name: "eight replies",
            sizes: PART,
            shapes: inputs::eight_replies(),
            versions: vec![
                Desks(l::eight_replies),
                Desks(p::eight_replies),
                Singly(l::eight_single_replies),
                Singly(p::eight_single_replies),
            ],
            columns: vec![SINGLE, PLAIN_SINGLE],
        },
        Call {
            name: "eight replies, grouped",
            sizes: PART,
            shapes: vec![inputs::eight_replies_of_groups()],
            versions: vec![
                Desks(l::eight_replies_grouped),
                Desks(p::eight_replies_grouped),
                Singly(l::eight_single_replies_grouped),
                Singly(p::eight_single_replies_grouped),
                Desks(l::eight_replies),
            ],
            columns: vec![SINGLE, PLAIN_SINGLE, UNGROUPED],
        },
    ]
}

fn triples() -> Vec<Call> {
    use library as l;
    use plain as p;
    let from = versions(vec![l::from_triples, p::from_triples]);
    let to = vec![Version::Counted(l::to_triples), Version::Counted(p::to_triples)];
    vec![
        Call { name: "from triples", sizes: TRIPLES, shapes: inputs::from_triples(), versions: from, columns: vec![] },
        Call { name: "to triples", sizes: PART, shapes: inputs::to_triples(), versions: to, columns: vec![BEST] },
    ]
}

/// The checker leaves a yes above its number, and has no output.
fn walks() -> Vec<Call> {
    use best as b;
    use library as l;
    use plain as p;
    let call = |name, shapes, versions, column| Call { name, sizes: SHOWN, shapes, versions, columns: vec![column] };
    let finders = |runs: [Run<u32>; 3]| versions(runs.to_vec());
    let checkers = |runs: [Run<u64>; 3]| runs.map(Version::Counted).to_vec();
    let [found, checked] = [inputs::walk_of_groups(), inputs::check_walk_of_groups()].map(|shape| vec![shape]);
    vec![
        call("walk", inputs::walk(), finders([l::walk, p::walk, b::walk]), BEST),
        call("check walk", inputs::check_walk(), checkers([l::check_walk, p::check_walk, b::check_walk]), BEST),
        call("walk, grouped", found, finders([l::walk_grouped, p::walk_grouped, l::walk]), UNGROUPED),
        call("check walk, grouped", checked, checkers([l::check_walk_grouped, p::check_walk_grouped, l::check_walk]), UNGROUPED),
    ]
}

/// The same from triples beside a version with Rust's sort.
fn sorting() -> Call {
    let runs = vec![library::from_triples, plain::from_triples, best::from_triples];
    Call { name: "from triples", sizes: MOST_TRIPLES, shapes: inputs::from_triples(), versions: versions(runs), columns: vec![] }
}

/// From every shape of the calls whose cost hangs on more than the number of words. First replies are dear, so small parts give more tries.
fn search(seconds: f64) {
    for call in calls().into_iter().chain(walks()) {
        let size = match call.name {
            "first reply" => 256,
            "walk" => WHOLE_WORDS,
            _ => 2048,
        };
        for shape in &call.shapes {
            let (name, start, library) = (format!("{}, {}", call.name, shape.name), (shape.make)(size), call.versions[0]);
            match call.name {
                "call list" => climb::climb::<climb::Bundle>(&name, library, &start, seconds),
                "old search" | "first reply" | "second reply" | "walk" => climb::climb::<climb::Plant>(&name, library, &start, seconds),
                _ => {}
            }
        }
    }
}

fn main() {
    let words: Vec<String> = std::env::args().skip(1).collect();
    match words.first().map(String::as_str) {
        Some("search") => search(words.get(1).and_then(|w| w.parse().ok()).unwrap_or(5.0)),
        _ => {
            let calls = calls().into_iter().chain(visits()).chain(desks()).chain(triples()).chain(walks());
            table::print(&calls.collect::<Vec<Call>>(), &sorting());
        }
    }
}
