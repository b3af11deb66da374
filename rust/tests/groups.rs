//! Groups that calls are handed (document 02, request 3), by the library and by the evaluation: which labels they have, which are refused and
//! where in the order of checks, and that with ours every call leaves what it leaves without.

use mowqachi_tests::beside::Call;
use mowqachi_tests::evaluation::groups::{Groups, OURS};
use mowqachi_tests::evaluation::words::bytes_of;
use mowqachi_tests::evaluation::Room;
use mowqachi_tests::generate::calls::{any_room, call};
use mowqachi_tests::generate::path::{group, or_of, outside, range, STAR};
use mowqachi_tests::meeting::meet;
use mowqachi_tests::random::cases;
use mowqachi_tests::written::*;

/// A press maker's: 5, 6, 5 to 6, all, 0, 2048 to 4095, 5 again, 4095.
const PRESS: Groups =
    [0x5000_5005, 0x5000_6006, 0x5000_6005, 0x50ff_f000, 0x5000_0000, 0x50ff_f800, 0x5000_5005, 0x50ff_ffff];
/// P in their groups: 6 for 5 and 1 for 6.
const P_GROUPS: &str = "40300007 51000006 51000001 51000006 60000001 60000003 60000001";

/// The calls that read a path, of these, with these groups.
fn each_with(calls: Vec<Call>, groups: &[u8]) -> Vec<Call> {
    calls.iter().filter_map(|call| call.with(Some(groups))).collect()
}

#[test]
fn a_press_makers_groups() {
    made_one_by_one(&FILES, Some(&PRESS), P_GROUPS);
    made_one_by_one(&FILES, Some(&PRESS), P);
    lists(W, Some(&PRESS), P_GROUPS, "f0000002 e0000002");
    // ours has no 5 in group 6
    lists(W, None, P_GROUPS, "f0000001");
    // ours has 6 in group 0 too
    lists(W, Some(&PRESS), "40100003 51000000 60000003", "f0000003 e0000001 e0000002");
    lists(W, None, "40100003 51000000 60000003", "f0000004 e0000001 e0000002 e0000003");
}

/// All seven other groups say the contrary, so that no other word stands for this one.
#[test]
fn each_group_by_its_own_word() {
    let ends = "0-4095 0-0 7-7 4095-4095 0-7 7-4095 1-4095 0-4094 2047-2048 1024-1535";
    for (low, high) in ends.split(' ').map(|ends| ends.split_once('-').expect(ends)) {
        let [low, high] = [low, high].map(|end| end.parse::<u32>().expect(end));
        for label in [low.wrapping_sub(1), low, high, high + 1].into_iter().filter(|label| *label < 4096) {
            let inside = low <= label && label <= high;
            let other = if inside { (label + 1) % 4096 } else { label };
            for g in 0..8 {
                let mut groups = [range(other, other); 8];
                groups[g] = range(low, high);
                crosses(Some(&groups), group(g as u32), label, inside);
            }
        }
    }
}

#[test]
fn groups_that_overlap_or_are_equal() {
    let (root, two, all) =
        ("f0000002 e0000001", "f0000003 e0000001 e0000002", "f0000004 e0000001 e0000002 e0000003");
    let star = |g: usize| path_of(&[group(g as u32), STAR]);
    for (word, list) in [
        (range(0, 4095), all),
        (range(5, 6), all),
        (range(0, 5), two),
        (range(5, 5), two),
        (range(6, 6), root),
        (range(0, 4), root),
        (range(6, 4095), root),
        (range(7, 4095), root),
    ] {
        (0..8).for_each(|g| lists(W, Some(&[word; 8]), &star(g), list));
    }
    let nested = [0, 1, 2, 3, 4, 5, 6, 7].map(|at| range(at, 20 - at));
    (0..8).for_each(|g| lists(W, Some(&nested), &star(g), [all, all, all, all, all, all, root, root][g]));
}

/// Words that are no group: other kinds, other sorts, low ends above their high ends.
fn wrong_words() -> Vec<u32> {
    let kinds = (0..16).filter(|kind| *kind != 5).map(|kind| kind << 28 | 0x00ff_f000);
    let sorts = (1..16).flat_map(|sort| [0x5000_0003, 0x50ff_f000].map(|word| word | sort << 24));
    let turned = [range(1, 0), range(4095, 0), range(4095, 4094), range(6, 5), range(2048, 2047)];
    kinds.chain(sorts).chain(turned).collect()
}

/// The press maker's with another word at one place.
fn put(g: usize, word: u32) -> Vec<u8> {
    let mut groups = PRESS;
    groups[g] = word;
    bytes_of(&groups)
}

/// Groups of 0 to 40 bytes but 32, and ones with a wrong word at each place.
fn wrong_groups() -> Vec<Vec<u8>> {
    let press = bytes_of(&[PRESS, PRESS].concat());
    let lengths = (0..=40).filter(|length| *length != 32).map(|length| press[..length].to_vec());
    let words = (0..8).flat_map(|g| wrong_words().into_iter().map(move |word| put(g, word)));
    lengths.chain(words).collect()
}

/// One of each sort: none, a word less, a byte more, another kind, sorts 1 and 2, a low end above its high end.
fn some_wrong_groups() -> Vec<Vec<u8>> {
    let press = bytes_of(&PRESS);
    let lengths = [vec![], press[..28].to_vec(), [&press[..], &[0]].concat()];
    let words = [put(0, 0x4000_5005), put(1, group(1)), put(7, outside(5, 5)), put(6, range(6, 5))];
    lengths.into_iter().chain(words).collect()
}

#[test]
fn wrong_groups_are_refused() {
    for groups in wrong_groups() {
        // whether the path names a group or not
        for path in [P_GROUPS, ONE_LABEL, EMPTY_WORD] {
            each_with(over_a_path(path), &groups).into_iter().for_each(|call| refuses(call, 16));
        }
    }
    let right = [range(0, 0), range(4095, 4095), range(0, 4095), range(7, 7), range(2047, 2048)];
    for (g, word) in (0..8).flat_map(|g| right.map(|word| (g, word))) {
        each_with(over_a_path(P_GROUPS), &put(g, word)).into_iter().for_each(|call| refuses(call, 0));
    }
}

/// Calls with a fault ahead of the groups, by its number: in a part or whole, whatever the path.
fn faults_ahead() -> Vec<(u32, Call)> {
    let parts = [
        (2, ""),
        (3, "10100001"),
        (3, "70000001"),
        (4, "10000002"),
        (5, "10000002 30050002"),
        (6, "10000003 20000002 20000002"),
        (7, "10000002 20020001"),
        (7, "10000003 20030001 20030002"),
    ];
    let over = |(number, part)| over_a_part(part).into_iter().map(move |call| (number, call));
    let wholes = [(7, "10000001"), (8, "10000003 20030001 30050002")];
    let over_a_whole = |(number, whole)| {
        [old_search(whole, ""), walk(whole, "", 1), check_walk(whole, "", 1, "1")].map(|call| (number, call))
    };
    parts.into_iter().flat_map(over).chain(wholes.into_iter().flat_map(over_a_whole)).collect()
}

/// Calls with a fault behind the groups, by its number: in the path, in the call list, in what is made of them.
fn faults_behind() -> Vec<(u32, Call)> {
    let paths = [
        (2, ""),
        (3, "10000001"),
        (4, "40000003 60000000"),
        (5, "40100002 50005006"),
        (5, "40100002 51000008"),
        (5, "40100002 53005005"),
        (9, "40000002 60000003"),
        (9, "40200002 50005005"),
    ];
    let lists = [
        (2, ""),
        (3, "b1100001"),
        (4, "b0100002"),
        (5, "b0100002 e0000010"),
        (6, "b0100003 c0000010 c0000010"),
        (10, "b0100002 c0000012"),
        (12, "b0200001"),
        (14, "b0100002 c0000020"),
    ];
    let over = |(number, path)| over_a_path(path).into_iter().map(move |call| (number, call));
    let part = "10000003 20010001 20000002";
    let asked = |(number, list)| (number, second_reply(part, ONE_LABEL, list));
    let path = bytes_of(&or_of(range(0, 4095), 15, true));
    let dear = (15, Call::FirstReply { part: dear_part(9), groups: None, path });
    let unlisted = paths.map(|(number, path)| (number, walk(W, path, 9)));
    let walks = unlisted.into_iter().chain([(20, walk(W, ONE_LABEL, 9))]);
    paths.into_iter().flat_map(over).chain(lists.map(asked)).chain([dear]).chain(walks).collect()
}

#[test]
fn groups_come_behind_the_buffers_and_the_part() {
    for groups in some_wrong_groups() {
        for (number, call) in faults_ahead() {
            each_with(vec![call], &groups).into_iter().for_each(|call| refuses(call, number));
        }
        for call in each_with(over_a_path(P_GROUPS), &groups) {
            let Room { out, work } = call.least_room();
            let short = Room { out: out.saturating_sub(1), work: work - usize::from(out == 0) };
            for room in [short, Room { out, work: work - 1 }, Room { out: 0, work: 0 }] {
                assert_eq!(made_in(&call, room).0, 1, "{call:x?} {room:?}");
            }
        }
    }
}

#[test]
fn groups_come_ahead_of_path_and_call_list() {
    for (number, call) in faults_behind() {
        refuses(grouped(&call, &bytes_of(&PRESS)), number);
        some_wrong_groups().iter().for_each(|groups| refuses(grouped(&call, groups), 16));
    }
}

#[test]
fn a_path_is_checked_as_it_is_handed_in() {
    let gets = |path: &str, number| {
        let calls = [OURS, PRESS].map(|groups| each_with(over_a_path(path), &bytes_of(&groups)));
        calls.into_iter().flatten().for_each(|call| refuses(call, number));
    };
    (0..8).for_each(|g| gets(&path_of(&[group(g)]), 0));
    (3..24).for_each(|bit| gets(&path_of(&[group(1) | 1 << bit]), 5));
    (1..16).for_each(|sort| gets(&path_of(&[group(1) ^ sort << 24]), 5));
    // neither the header nor an operator is a group
    gets("41100002 51000001", 3);
    gets("51000002 51000001", 3);
    gets("40100003 51000001 61000003", 5);
    // one group word, and not two
    gets("40200002 51000001", 9);
}

/// With our groups a call leaves what it leaves without, for all bytes and buffer lengths. All its numbers must have been met.
fn same_with_ours(name: &'static str, numbers: &[u32]) {
    let named = |number: &u32| format!("{name}: {number}");
    meet("ours", [cases() * 2 / 100, 20_000], numbers.iter().map(named), |random| {
        let call = call(random, name).with(None).expect("it reads a path");
        let room = any_room(random, &call);
        let left = call.leaves_as(&grouped(&call, &bytes_of(&OURS)), random, room);
        vec![named(&left.number())]
    });
}

#[test]
fn ours_are_as_none() {
    same_with_ours("old search grouped", &[0, 1, 2, 3, 4, 5, 6, 7, 8, 9]);
    same_with_ours("first reply grouped", &[0, 1, 2, 3, 4, 5, 6, 7, 9, 15]);
    same_with_ours("second reply grouped", &[0, 1, 2, 3, 4, 5, 6, 7, 9, 10, 12, 14]);
    same_with_ours("walk grouped", &[0, 1, 2, 3, 4, 5, 6, 7, 8, 9, 15, 20]);
    same_with_ours("check walk grouped", &[0, 1, 2, 3, 4, 5, 6, 7, 8, 9]);
}
