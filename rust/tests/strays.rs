//! Links that end nowhere (document 02, request 5), by the library and by the evaluation: such as nobody walks leave a question as it is, a
//! walked one gives 14 at the hub, and the old search and the cutter refuse them all with 8.

use mowqachi_tests::beside::{hex, Call};
use mowqachi_tests::evaluation::part::read_part;
use mowqachi_tests::evaluation::words::{bytes_of, file, CALL, CALLS, DOOR, FIRST, REACH, ROW};
use mowqachi_tests::generate::path::{or_of, range};
use mowqachi_tests::written::*;

/// Document 01's question with idle links to node 99, which was removed: of node 2 under 5, which its site reports for states that nobody
/// calls it in, and likewise of node 3 under 6.
const IDLE: Files = Files {
    whole: "10000009 20030001 30050002 20000002 30050063 30060003 20000003 30050002 30060063",
    parts: ["10000006 20030001 30050002 20010003 30050002 30060063", "11000004 20010002 30050063 30060003"],
    firsts: [
        "7030000f 80010001 90000000 a0000021 90000002 a0000023 \
         80000003 90000000 a0000021 90000001 a0000632 90000002 a0000023 90000003 a0000632",
        "7130000a 80000002 90000000 a0000631 90000001 a0000032 90000002 a0000633 90000003 a0000032",
    ],
    ..FILES
};

#[test]
fn idle_links_of_both_sites() {
    both_trips_one_by_one(&IDLE, None, P);
    for site in 0..2 {
        let (mut parts, mut firsts) = (FILES.parts, FILES.firsts);
        (parts[site], firsts[site]) = (IDLE.parts[site], IDLE.firsts[site]);
        both_trips_one_by_one(&Files { parts, firsts, ..FILES }, None, P);
    }
    refuses(old_search(IDLE.whole, P), 8);
    (0..2).for_each(|site| refuses(cut(IDLE.whole, &[0, 1, 0], site), 8));
}

/// The parts with a link more, of this node.
fn with_link(parts: &[String], node: u32, link: (u32, u32)) -> Vec<String> {
    let add = |part: &String| {
        let mut part = read_part(&bytes(part)).expect("a part");
        for node in part.nodes.iter_mut().filter(|other| other.number == node) {
            node.edges.push(link);
            node.edges.sort();
        }
        hex(&bytes_of(&part.words()))
    };
    parts.iter().map(add).collect()
}

/// The plant with a link more that ends nowhere gives its list, or 14 if the link is one of those that walks step on, by node and label.
fn asked_with_a_link_more(whole: &str, path: &str, list: &str, walked: &[(u32, u32)]) {
    for cuts in CUTS {
        let parts = parts_of(whole, &cuts, 3);
        for (node, label) in (1..=3).flat_map(|node| [4, 5, 6, 7].map(|label| (node, label))) {
            for target in [0, 4, 99, 65_535] {
                let parts = with_link(&parts, node, (label, target));
                let given = ask(&parts, None, path).map(|(list, _)| list);
                let owed = if walked.contains(&(node, label)) { Err(14) } else { Ok(words(list)) };
                assert_eq!(given, owed, "{whole} {cuts:?} {path}, {label} from {node} to {target}");
            }
        }
    }
}

#[test]
fn one_link_more_on_any_site() {
    let node_2 = "f0000002 e0000002";
    asked_with_a_link_more(W, P, node_2, &[(1, 5), (2, 6), (3, 5)]);
    // nobody steps from node 3, and behind it no link is walked
    asked_with_a_link_more(STOPPED, P, node_2, &[(1, 5), (2, 6)]);
    asked_with_a_link_more(W, ONE_LABEL, node_2, &[(1, 5)]);
    asked_with_a_link_more(W, EMPTY_WORD, "f0000002 e0000001", &[]);
    let any = format!("40100003 {:08x} 60000003", range(5, 7));
    let walked: Vec<(u32, u32)> = (1..=3).flat_map(|node| (5..=7).map(move |label| (node, label))).collect();
    asked_with_a_link_more(W, &any, "f0000004 e0000001 e0000002 e0000003", &walked);
}

#[test]
fn a_step_from_where_nothing_is_accepted_is_one() {
    // 5 then 6 then a label that is none
    let path = "40300006 50005005 50006006 60000001 52fff000 60000001";
    asked_with_a_link_more(W, path, "f0000001", &[(1, 5), (2, 6)]);
}

/// A closed plant of one node, and a part of it with a link more: what counts is the part's links.
#[test]
fn a_link_that_the_plant_has_not() {
    let parts = ["10000003 20030001 30050002".to_string()];
    assert_eq!(ask(&parts, None, ONE_LABEL), Err(14));
    let other_label = "40100002 50006006";
    assert_eq!(ask(&parts, None, other_label).map(|(list, _)| list), Ok(words("f0000001")));
}

/// A link that nobody walks makes a first reply longer, and one too long is refused, whoever would read it.
#[test]
fn a_first_reply_over_its_limit_by_an_idle_link() {
    let path = hex(&bytes_of(&or_of(range(0, 4095), 15, true)));
    let root = "13000002 20030fff".to_string();
    for (targets, number) in [(8, 0), (9, 15)] {
        let part = hex(&dear_part(targets));
        refuses(first_reply(&part, &path), number);
        if number == 0 {
            let list = ask(&[root.clone(), part], None, &path).map(|(list, _)| list);
            assert_eq!(list, Ok(words("f0000002 e0000fff")));
        }
    }
}

#[test]
fn rows_that_nobody_follows() {
    // of the root in state 1, and of a door that is not called
    gives(call_list("70100007 80010001 90000001 a0000990 80000002 90000000 a0000990"), "b0100002 c0000010");
    // of a called door in another state
    let rows =
        |called: &str| format!("70100008 80010001 90000000 {called} 80000002 90000001 a0000990 a00ffff1");
    gives(call_list(&rows("a0000020")), "b0100003 c0000010 c0000020");
    refuses(call_list(&rows("a0000021")), 14);
}

fn door(node: u32, root: bool) -> u32 {
    DOOR << 28 | u32::from(root) << 16 | node
}

fn reach(node: u32) -> u32 {
    REACH << 28 | node << 4
}

/// The root in a file of its own, which calls `to`, and these doors in another, each of which calls the one before.
fn called_among(doors: &[u32], root: u32, to: u32) -> Call {
    let mut own = vec![];
    for (at, node) in doors.iter().enumerate() {
        own.push(door(*node, false));
        own.extend(at.checked_sub(1).into_iter().flat_map(|before| [ROW << 28, reach(doors[before])]));
    }
    let files = [file(FIRST, 7, 0, &[door(root, true), ROW << 28, reach(to)]), file(FIRST, 2, 0, &own)];
    Call::CallList { bundle: bytes_of(&files.concat()) }
}

/// Each door of sixteen nodes is found, whichever others there are, and none for a node that is none.
#[test]
fn doors_of_sixteen_nodes() {
    let root = 40_000;
    for first in [0, 16, 39_984, 40_001, 65_520] {
        for missing in first..=first + 16 {
            let doors: Vec<u32> = (first..first + 16).filter(|node| *node != missing).collect();
            for to in first..first + 16 {
                let call = called_among(&doors, root, to);
                if to == missing {
                    refuses(call, 14);
                    continue;
                }
                let mut called: Vec<u32> =
                    doors.iter().copied().filter(|node| *node <= to).chain([root]).collect();
                called.sort_unstable();
                let calls: Vec<u32> = called.into_iter().map(|node| CALL << 28 | node << 4).collect();
                assert_eq!(made(&call), (0, file(CALLS, 0, 0, &calls)), "{first} {missing} {to}");
            }
        }
    }
}

/// A node that is no door has no rows: not those of the doors beside it.
#[test]
fn doors_beside_a_stray() {
    for stray in [0u32, 1, 15, 16, 17, 31, 32, 4095, 4096, 65_519, 65_520, 65_534, 65_535] {
        let beside = [stray.wrapping_sub(1), stray + 1, stray.wrapping_sub(16), stray + 16, stray ^ 15];
        for beside in beside.into_iter().filter(|node| *node < 65_536) {
            refuses(called_among(&[beside], 40_000, stray), 14);
            refuses(called_among(&[beside], 40_000, beside), 0);
        }
        refuses(called_among(&[], 40_000, stray), 14);
    }
}

#[test]
fn order_at_the_hub() {
    let stray = "70000004 80010001 90000000 a0000020";
    refuses(call_list(stray), 14);
    for (number, behind) in [
        (2, "71000001 ".repeat(8192)),
        (3, "81000001".to_string()),
        (4, "71000002".to_string()),
        (5, "71000002 90000000".to_string()),
        (6, "71000003 80000005 80000004".to_string()),
        (7, "71000003 80010004 80010005".to_string()),
        (10, "71000004 80000003 90000000 a0000011".to_string()),
        (12, "70000001".to_string()),
        (12, "71100001".to_string()),
        (7, "71000002 80010003".to_string()),
        (13, "71000002 80000001".to_string()),
    ] {
        refuses(call_list(&format!("{stray} {behind}")), number);
    }
    // no root, so nothing is called
    refuses(call_list("70000004 80000001 90000000 a0000020"), 7);
}

/// 14 comes ahead of 15 where the set is too large, and is not given for what nobody follows.
#[test]
fn strays_at_the_limit() {
    let given = |words: &[u32]| made(&Call::CallList { bundle: bytes_of(words) }).0;
    for (more, number) in [(1, 0), (2, 15), (16, 15)] {
        let wide = wide_bundle(4093, more);
        assert_eq!(given(&wide), number);
        let (root, rest) = (&wide[..4096], &wide[4097..]);
        let with = |rest: &[u32]| given(&[root, &file(FIRST, 1, 15, rest)].concat());
        assert_eq!(with(rest), number);
        // the last door is missing
        assert_eq!(with(&rest[..rest.len() - 1]), 14);
        // a door that nobody calls leads to no door, and then the last door that is called does
        let idle = [rest, &[door(60_000, false), ROW << 28, reach(60_001)]].concat();
        assert_eq!(with(&idle), number);
        let followed = [rest, &[ROW << 28, reach(60_001)]].concat();
        assert_eq!(with(&followed), 14);
    }
}
