//! What a hub may learn (document 02, request 12): parts of one site whose nodes reached from the doors are the same, with the same words,
//! have the same replies, whatever else is in them. By the library, for any bytes of a path and groups, for call lists that name no node of
//! either part that is not reached, and for buffers of any lengths.

use mowqachi_tests::beside::{answer, Call};
use mowqachi_tests::evaluation::hub::call_list;
use mowqachi_tests::evaluation::learning::*;
use mowqachi_tests::evaluation::part::{read_part, Part};
use mowqachi_tests::evaluation::plant::links_of;
use mowqachi_tests::evaluation::words::*;
use mowqachi_tests::evaluation::Room;
use mowqachi_tests::generate::alike::{alike_to, with_difference, DIFFERENCES};
use mowqachi_tests::generate::calls::{any_room, asked, damages, dearly_asked, n_of, Asked};
use mowqachi_tests::generate::calls::{first_reply_of, second_reply_of};
use mowqachi_tests::generate::plant::some_plant;
use mowqachi_tests::generate::{bundle, question};
use mowqachi_tests::meeting::meet;
use mowqachi_tests::mistakes::learning::{reached_running, REACHED, TELLING};
use mowqachi_tests::mistakes::{names, Named};
use mowqachi_tests::random::{cases, Random};
use mowqachi_tests::walking::walks;
use mowqachi_tests::written::{first_reply, gives, refuses, second_reply, FILES, P};
use std::collections::BTreeSet;
use std::slice::from_ref;

/// Two parts.
type Two = [Part; 2];

/// The call over each of two parts.
fn over_both(call: &Call, two: &Two) -> [Call; 2] {
    [0, 1].map(|at| call.over(&two[at]).expect("it reads a part"))
}

fn unreached(part: &Part) -> BTreeSet<u32> {
    let reached = reached(part);
    part.nodes.iter().map(|node| node.number).filter(|node| !reached.contains(node)).collect()
}

/// A reached node, if there is any: one that stopped nodes alone lead to, or one that is no door, rather than others.
fn some_reached(random: &mut Random, part: &Part) -> Option<u32> {
    let [all, running] = [reached(part), reached_running(part)];
    let doors: BTreeSet<u32> = part.doors().map(|door| door.number).collect();
    for some in [&all - &running, &all - &doors] {
        if !some.is_empty() && random.chance(60) {
            return Some(random.pick(&some.into_iter().collect::<Vec<_>>()));
        }
    }
    (!all.is_empty()).then(|| random.pick(&all.into_iter().collect::<Vec<_>>()))
}

/// A call list over the reached nodes of the part, and over this node as if it were a door.
fn calls_over(random: &mut Random, part: &Part, also: Option<u32>, path: &[u32]) -> Vec<u32> {
    let mut named = reached(part);
    named.extend(also);
    let mut called = only(part, &named);
    called.nodes.iter_mut().for_each(|node| node.door |= Some(node.number) == also);
    bundle::call_list(random, &called, n_of(path))
}

/// What a site is asked, and a call list: that of a hub, or one that names doors, now and then other reached nodes, and nodes elsewhere.
fn asked_twice(random: &mut Random) -> (Asked, Vec<u32>) {
    if random.chance(25) {
        let question = question::small(random);
        let part = random.pick(&question.parts);
        let crossings = walks(&question, &question.read_path()).crossings;
        let calls = call_list(n_of(&question.path) as u32, &crossings);
        return ((part, question.groups, question.path), calls);
    }
    let grouped = random.chance(50);
    let asked = match random.chance(4) {
        true => dearly_asked(random, grouped),
        false => asked(random, some_plant, grouped),
    };
    let also = if random.chance(15) { some_reached(random, &asked.0) } else { None };
    let calls = calls_over(random, &asked.0, also, &asked.2);
    (asked, calls)
}

/// A call for the first reply or for the second, every other time with some input but the part damaged.
fn some_call(random: &mut Random, second: bool) -> (Part, Call) {
    let (asked, calls) = asked_twice(random);
    let inputs = 1 + usize::from(second) + usize::from(asked.1.is_some());
    let damages = if random.chance(50) { damages(random, inputs) << 1 } else { 0 };
    let call = match second {
        false => first_reply_of(random, &asked, damages),
        true => second_reply_of(random, &asked, &calls, damages),
    };
    (asked.0, call)
}

/// The least buffers, or any.
fn some_room(random: &mut Random, call: &Call) -> Room {
    match random.chance(75) {
        true => call.least_room(),
        false => any_room(random, call),
    }
}

/// Whether the call list, if the call has one, names a node of either part that is not reached.
fn names_an_unreached(call: &Call, two: &Two) -> bool {
    match call {
        Call::SecondReply { calls, .. } => two.iter().any(|part| names_unreached(part, calls)),
        _ => false,
    }
}

/// The sites of `TELLING` that would give the two parts different replies.
fn told_apart(call: &Call, two: &Two, room: Room) -> Vec<&'static str> {
    names(&TELLING, |taken| {
        let [one, other] = over_both(call, &[taken(&two[0]), taken(&two[1])]).map(|call| call.evaluate(room));
        answer(&one) != answer(&other)
    })
}

/// Something that two parts have.
type Sort = fn(&Two) -> bool;

/// Of two parts that are alike and not the same.
const SORTS: [Named<Sort>; 11] = [
    ("a node more or less", |[one, other]| unreached(one) != unreached(other)),
    ("an unreached node stopped or started", |[one, other]| {
        one.nodes.iter().any(|node| other.node(node.number).map_or(false, |own| own.stopped != node.stopped))
    }),
    ("another link to a reached node", |two| another_link(two, reached)),
    ("another link to an unreached node", |two| another_link(two, unreached)),
    ("another link out of the part", |two| another_link(two, Part::outside_targets)),
    ("no doors", |[one, _]| one.doors().count() == 0),
    ("several doors", |[one, _]| one.doors().count() > 1),
    ("a reached node that is no door", |[one, _]| reached(one).len() > one.doors().count()),
    ("a stopped door", |[one, _]| one.doors().any(|door| door.stopped)),
    ("a node reached through stopped nodes alone", |[one, _]| reached_running(one) != reached(one)),
    ("a full part", |two| two.iter().any(|part| part.words().len() == FILE_LIMIT)),
];

/// Whether one of the parts has a link to one of these targets of it that the other has not.
fn another_link(two: &Two, targets: fn(&Part) -> BTreeSet<u32>) -> bool {
    let links = [0, 1].map(|at| links_of(from_ref(&two[at])));
    [0, 1].into_iter().any(|at| {
        let targets = targets(&two[at]);
        links[at].difference(&links[1 - at]).any(|link| targets.contains(&link.2))
    })
}

/// Two accepted parts that are alike.
fn two_alike(random: &mut Random, part: &Part) -> Two {
    let one = if random.chance(50) { part.clone() } else { alike_to(random, part) };
    let two = [one, alike_to(random, part)];
    assert!(two.iter().all(|part| read_part(&bytes_of(&part.words())).is_ok()), "{two:x?}");
    assert!(alike(&two[0], &two[1]), "{two:x?}");
    two
}

/// Both parts leave the same. Fails if a number or a sort of parts was never met, or if none of its cases would have found out one of the
/// sites that tell of unreached nodes.
fn same_replies(stream: &'static str, second: bool, numbers: &[u32]) {
    let named = |number: u32| format!("number {number}");
    let [sorts, telling] = [names(&SORTS, |_| true), names(&TELLING, |_| true)];
    let owed = numbers.iter().map(|number| named(*number));
    let owed = owed.chain([sorts, telling].concat().into_iter().map(str::to_string));
    meet(stream, [cases() * 6 / 100, 20_000], owed, |random| {
        let (part, call) = some_call(random, second);
        let two = two_alike(random, &part);
        if two[0].words() == two[1].words() || names_an_unreached(&call, &two) {
            return vec![];
        }
        let room = some_room(random, &call);
        let [one, other] = over_both(&call, &two);
        let number = one.leaves_as(&other, random, room).number();
        let mut met = names(&SORTS, |sort| number == 0 && sort(&two));
        if number == 0 && two.iter().all(|part| part.words().len() < 1000) {
            met.extend(told_apart(&call, &two, room));
        }
        met.into_iter().map(str::to_string).chain([named(number)]).collect()
    });
}

#[test]
fn first_replies_of_alike_parts_are_the_same() {
    same_replies("alike, first", false, &[0, 1, 2, 3, 4, 5, 9, 15, 16]);
}

#[test]
fn second_replies_of_alike_parts_are_the_same() {
    same_replies("alike, second", true, &[0, 1, 2, 3, 4, 5, 6, 9, 10, 12, 14, 16]);
}

/// What must be met of parts with a difference: it is seen in either reply, but for a root in the second, and each notion of what is reached
/// by which they are alike nevertheless.
fn owed_of_differences() -> Vec<String> {
    let seen = names(&DIFFERENCES, |_| true).into_iter().flat_map(|name| {
        let second = (name != "a root more or less").then(|| format!("{name}, in the second reply"));
        second.into_iter().chain([format!("{name}, in the first reply")])
    });
    seen.chain(names(&REACHED, |_| true).into_iter().map(str::to_string)).collect()
}

/// Most doors of the part in state 0 or in every state, and now and then this node too.
fn calls_of_doors(random: &mut Random, part: &Part, node: u32, n: usize) -> Vec<u32> {
    let (last, also) = (random.pick(&[0, n]), random.chance(30).then_some(node));
    let doors = part.doors().map(|door| door.number).filter(|_| random.chance(80));
    let pairs = doors.chain(also).flat_map(|node| (0..=last).map(move |state| (node, state)));
    call_list(n as u32, &pairs.collect())
}

/// The part and one with a difference, both accepted, if one is found in a few draws.
fn two_different(random: &mut Random, part: &Part) -> Option<(&'static str, u32, Two)> {
    let mut draws = (0..5).filter_map(|_| {
        let node = some_reached(random, part)?;
        let (name, difference) = random.pick(&DIFFERENCES);
        let other = with_difference(random, part, difference, node);
        let differs = other.words() != part.words() && read_part(&bytes_of(&other.words())).is_ok();
        differs.then(|| (name, node, [part.clone(), other]))
    });
    let different = draws.next();
    different.iter().for_each(|(_, _, two)| assert!(!alike(&two[0], &two[1]), "{different:x?}"));
    different
}

/// What is asked of two parts is needed: with one word that differs at a reached node, or one such node more or less, their replies may.
#[test]
fn a_difference_at_a_reached_node_may_show() {
    meet("differences", [cases() * 6 / 100, 20_000], owed_of_differences(), |random| {
        let (asked, _) = asked_twice(random);
        let (name, node, two) = match two_different(random, &asked.0) {
            Some(different) => different,
            None => return vec![],
        };
        let calls = calls_of_doors(random, &two[0], node, n_of(&asked.2));
        let replies =
            [first_reply_of(random, &asked, 0), second_reply_of(random, &asked, &calls, 0)].into_iter();
        let mut met = vec![];
        for (call, reply) in replies.zip(["first", "second"]) {
            let [one, other] = over_both(&call, &two).map(|call| call.leaves(random, call.least_room()));
            if one != other && !names_an_unreached(&call, &two) {
                met.push(format!("{name}, in the {reply} reply"));
                let alike = names(&REACHED, |by| alike_by(*by, &two[0], &two[1]));
                met.extend(alike.into_iter().map(str::to_string));
            }
        }
        met
    });
}

/// What is asked of call lists is needed: one part has the node that is called, and the other has not.
#[test]
fn a_call_of_an_unreached_node_may_show() {
    let owed = ["14 from one, accepted by the other", "14 from both"];
    meet("unreached calls", [cases() * 3 / 100, 20_000], owed, |random| {
        let (asked, _) = asked_twice(random);
        let two = two_alike(random, &asked.0);
        let nodes: Vec<u32> = unreached(&two[0]).into_iter().collect();
        let also = (!nodes.is_empty()).then(|| random.pick(&nodes));
        let calls = calls_over(random, &two[0], also, &asked.2);
        let call = second_reply_of(random, &asked, &calls, 0);
        let numbers = over_both(&call, &two).map(|call| call.leaves(random, call.least_room()).number());
        match (names_an_unreached(&call, &two), numbers) {
            (true, [14, 0] | [0, 14]) => vec![owed[0]],
            (true, [14, 14]) => vec![owed[1]],
            (_, [one, other]) => {
                assert_eq!(one, other, "{call:x?}");
                vec![]
            }
        }
    });
}

/// Document 01's part of site 0 with node 0 and a stopped node 7, to which nothing leads.
#[test]
fn document_01s_part_with_unreached_nodes() {
    let own = FILES.parts[0];
    let other = "1000000b 20000000 30050001 20030001 30050002 20010003 30050002 \
                 20040007 30050001 30060002 30060063";
    gives(first_reply(other, P), FILES.firsts[0]);
    gives(second_reply(other, P, FILES.calls), FILES.seconds[0]);
    let calls_of_7 = "b0300002 c0000070";
    gives(second_reply(own, P, calls_of_7), "d0300001");
    refuses(second_reply(other, P, calls_of_7), 14);
}
