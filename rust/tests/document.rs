//! Every example of document 01, stopped nodes in the same files, labels outside a range in the same paths, and as many operands waiting as
//! may and one more, by the library and by the evaluation; calls that read a path without groups and with ours.

use mowqachi_tests::beside::Call;
use mowqachi_tests::evaluation::words::bytes_of;
use mowqachi_tests::evaluation::Room;
use mowqachi_tests::written::*;

/// W with its root stopped.
const ROOT_STOPPED: &str = "10000007 20070001 30050002 20000002 30060003 20000003 30050002";
/// P with 5 said as all labels but 6, and 6 as all but 5: on W's labels the same.
const P_OUTSIDE: &str = "40300007 52006006 52005005 52006006 60000001 60000003 60000001";
/// 5 then 6 then 5.
const Q: &str = "40300006 50005005 50006006 60000001 50005005 60000001";
/// 5 then 6.
const TWO_LABELS: &str = "40200004 50005005 50006006 60000001";

fn all_calls() -> Vec<Call> {
    let mut calls = over_a_part("10000002 20030001");
    calls.extend([call_list("70000002 80010001"), join("d0000001")]);
    calls
}

#[test]
fn end_to_end() {
    [P, P_OUTSIDE].into_iter().for_each(|path| made_one_by_one(&FILES, None, path));
}

#[test]
fn end_to_end_with_a_stopped_door() {
    let files = Files {
        whole: STOPPED,
        parts: ["10000005 20030001 30050002 20050003 30050002", "11000003 20010002 30060003"],
        firsts: [
            "70300007 80010001 90000000 a0000021 90000002 a0000023 80000003",
            "71300006 80000002 90000001 a0000032 90000003 a0000032",
        ],
        calls: "b0300004 c0000010 c0000021 c0000032",
        seconds: ["d0300001", "d1300002 e0000002"],
        list: "f0000002 e0000002",
    };
    [P, P_OUTSIDE].into_iter().for_each(|path| made_one_by_one(&files, None, path));
}

#[test]
fn row_1_short_buffers() {
    for call in all_calls() {
        let least = call.least_room();
        assert_eq!(made(&call).0, 0);
        for (out, work) in [(1, 0), (0, 1), (1, 1), (least.out, 0), (0, least.work)] {
            // one call has no output
            let room = Room { out: least.out.saturating_sub(out), work: least.work - work };
            let owed = u32::from(room != least);
            assert_eq!(made_in(&call, room).0, owed, "{call:x?} {room:?}");
        }
    }
    let reply = first_reply("10000001", ONE_LABEL);
    assert_eq!(made_in(&reply, Room { out: 16_383, work: 32_768 }).0, 1);
    assert_eq!(made_in(&reply, Room { out: 16_384, work: 32_768 }).0, 0);
}

#[test]
fn row_2_sizes() {
    for length in [0, 1, 3, 5] {
        let short = vec![0u8; length];
        let whole = bytes("10000002 20030001");
        let path = bytes(ONE_LABEL);
        let calls = [
            Call::OldSearch { whole: short.clone(), groups: None, path: path.clone() },
            Call::OldSearch { whole: whole.clone(), groups: None, path: short.clone() },
            Call::Cut { whole: short.clone(), cuts: vec![0], site: 0 },
            Call::FirstReply { part: short.clone(), groups: None, path: path.clone() },
            Call::FirstReply { part: whole.clone(), groups: None, path: short.clone() },
            Call::CallList { bundle: short.clone() },
            Call::SecondReply { part: short.clone(), groups: None, path: path.clone(), calls: short.clone() },
            Call::SecondReply {
                part: whole.clone(),
                groups: None,
                path: short.clone(),
                calls: short.clone(),
            },
            Call::SecondReply { part: whole.clone(), groups: None, path: path.clone(), calls: short.clone() },
            Call::Walk { whole: short.clone(), groups: None, path, node: 1 },
            Call::Walk { whole: whole.clone(), groups: None, path: short.clone(), node: 1 },
            Call::Walk { whole, groups: None, path: short.clone(), node: 1 }.checking(&short),
            Call::Join { bundle: short },
        ];
        calls.into_iter().for_each(|call| refuses(call, 2));
    }
}

#[test]
fn rows_3_to_8() {
    let rows = [
        (3, "10100001"),
        (4, "10000002"),
        (5, "10000002 30050002"),
        (6, "10000003 20000002 20000002"),
        (7, "10000002 20020001"),
    ];
    for (number, part) in rows {
        over_a_part(part).into_iter().for_each(|call| refuses(call, number));
    }
    let open = "10000003 20030001 30050002";
    refuses(old_search(open, P), 8);
    refuses(cut(open, &[0], 0), 8);
    refuses(walk(open, EMPTY_WORD, 1), 8);
    refuses(check_walk(open, EMPTY_WORD, 1, "1"), 8);
    gives(first_reply(open, ONE_LABEL), "70100004 80010001 90000000 a0000021");
}

#[test]
fn row_9_paths() {
    for path in ["40000002 60000003", "40000001", "40000003 60000000 60000000"] {
        over_a_path(path).into_iter().for_each(|call| refuses(call, 9));
    }
}

#[test]
fn rows_10_to_14() {
    refuses(second_reply("10000001", EMPTY_WORD, "b0000002 c0000011"), 10);
    refuses(call_list("70000003 80010001 90000001"), 10);
    refuses(cut(W, &[0, 16, 0], 0), 11);
    refuses(cut(W, &[0, 1], 0), 11);
    refuses(cut(W, &[0, 1, 0], 16), 11);
    refuses(call_list("70000001 70000001"), 12);
    refuses(join("d0000001 d0000001"), 12);
    refuses(join("d0000001 d1100001"), 12);
    refuses(second_reply("10000001", P, "b0100001"), 12);
    refuses(call_list("70000002 80010001 71000002 80000001"), 13);
    refuses(join("d0000002 e0000001 d1000002 e0000001"), 13);
    refuses(call_list("70000004 80010001 90000000 a0000020"), 14);
    refuses(second_reply("10000002 20000001", EMPTY_WORD, "b0000002 c0000010"), 14);
}

const FULL: u32 = 0x50ff_f000;
/// Outside 1 to 4095.
const ONLY_0: u32 = 0x52ff_f001;
const EMPTY: u32 = 0x6000_0000;
const THEN: u32 = 0x6000_0001;
const OR: u32 = 0x6000_0002;
const STAR: u32 = 0x6000_0003;

/// An or of `count` words.
fn or_of(label: u32, count: usize) -> Vec<u32> {
    let mut words = vec![label];
    (1..count).for_each(|_| words.extend([label, OR]));
    words
}

#[test]
fn row_15_sizes() {
    for label in [FULL, ONLY_0] {
        let star = [or_of(label, 15), vec![STAR]].concat();
        let reply =
            |targets| Call::FirstReply { part: dear_part(targets), groups: None, path: path(15, &star) };
        refuses(reply(9), 15);
        let (number, words) = made(&reply(8));
        assert_eq!((number, words.len(), words[0]), (0, 3875, 0x70f0_0000 | 3875));
    }
}

/// One door with links to `targets` targets outside, and `stopped` doors that are stopped.
fn wide_part(targets: u32, stopped: u32) -> Vec<u8> {
    let mut part = vec![0x1000_0000 | (2 + targets + stopped), 0x2001_0000];
    part.extend((1..=targets).map(|target| 0x3000_0000 | target));
    part.extend((0..stopped).map(|door| 0x2005_ff00 | door));
    bytes_of(&part)
}

#[test]
fn first_reply_at_its_limit() {
    let reply = |targets, stopped| Call::FirstReply {
        part: wide_part(targets, stopped),
        groups: None,
        path: path(1, &[FULL]),
    };
    for stopped in [0, 1] {
        let (number, words) = made(&reply(4093 - stopped, stopped));
        assert_eq!((number, words.len()), (0, 4096));
        refuses(reply(4094 - stopped, stopped), 15);
        refuses(reply(4095 - stopped, stopped), 2);
    }
}

#[test]
fn call_list_at_its_limit() {
    let list = |more| Call::CallList { bundle: bytes_of(&wide_bundle(4093, more)) };
    let (number, words) = made(&list(1));
    assert_eq!((number, words.len(), words[0]), (0, 4096, 0xb0f0_1000));
    refuses(list(2), 15);
    refuses(list(16), 15);
}

#[test]
fn path_edges() {
    let root = "10000002 20030001";
    let search = |path| Call::OldSearch { whole: bytes(root), groups: None, path };
    let stars = |count| path(0, &[vec![EMPTY], vec![STAR; count]].concat());
    gives(search(stars(62)), "f0000002 e0000001");
    refuses(search(stars(63)), 2);
    for label in [FULL, ONLY_0] {
        gives(search(path(15, &or_of(label, 15))), "f0000001");
        refuses(search(path(14, &or_of(label, 15))), 9);
        refuses(search(path(15, &or_of(label, 16))), 9);
        refuses(search(path(0, &or_of(label, 16))), 9);
    }
    gives(search(bytes(EMPTY_WORD)), "f0000002 e0000001");
    gives(old_search(W, EMPTY_WORD), "f0000002 e0000001");
    let waiting = |before: usize, last| [vec![EMPTY; before], vec![last], vec![THEN; before]].concat();
    for (n, last, list) in [(0, EMPTY, "f0000002 e0000001"), (1, FULL, "f0000001"), (1, ONLY_0, "f0000001")] {
        gives(search(path(n, &waiting(7, last))), list);
        refuses(search(path(n, &waiting(8, last))), 9);
    }
}

#[test]
fn operands_that_wait() {
    for word in [EMPTY, FULL, ONLY_0] {
        let behind = |count: usize, words: &[u32]| [&vec![word; count][..], words].concat();
        for operator in [THEN, OR] {
            path_gets(&behind(8, &[operator; 7]), 0);
            path_gets(&behind(9, &[operator; 8]), 9);
        }
        path_gets(&behind(8, &[&[STAR], &[THEN; 7][..]].concat()), 0);
        // the ninth gives 9 at its word, and 5 comes before 9 there
        for wrong in [0, 0x5000_0001, 0x5200_0001, 0x5300_0000, 0x6000_0004] {
            path_gets(&behind(9, &[wrong]), 9);
            path_gets(&behind(8, &[wrong]), 5);
            path_gets(&behind(7, &[wrong, word, word]), 5);
        }
    }
}

#[test]
fn fifteen_labels_of_which_eight_wait() {
    for label in [FULL, ONLY_0] {
        for (first, number) in [(7, 9), (8, 0), (9, 9)] {
            let rest = 15 - first;
            let words = [vec![label; first], vec![OR; first - 1], vec![label; rest], vec![OR; rest]].concat();
            path_gets(&words, number);
        }
        for (first, number) in [(2, 0), (8, 0), (9, 9)] {
            let words = [vec![label; first], [OR, label].repeat(15 - first), vec![OR; first - 1]].concat();
            path_gets(&words, number);
        }
    }
    let labels = [0x5000_5005, 0x5000_6006].repeat(8);
    let words = [&labels[..8], &[THEN; 7], &labels[8..15], &[THEN; 7]].concat();
    lists(W, None, &path_of(&words), "f0000002 e0000002");
}

#[test]
fn label_words_at_their_ends() {
    let groups = "0-4095 0-1023 0-255 1024-1535 1536-1791 1792-2047 2048-3071 4032-4095";
    let others = "0-0 7-7 4095-4095 0-7 7-4095 1-4095 0-4094 1-4094 7-8";
    for (at, ends) in groups.split(' ').chain(others.split(' ')).enumerate() {
        let ends: Vec<u32> = ends.split('-').map(|end| end.parse().expect(end)).collect();
        let (low, high) = (ends[0], ends[1]);
        let [range, outside] = [0x5000_0000, 0x5200_0000].map(|sort| sort | high << 12 | low);
        let group = (at < 8).then_some(0x5100_0000 | at as u32);
        for label in [low.wrapping_sub(1), low, high, high + 1].into_iter().filter(|label| *label < 4096) {
            let inside = low <= label && label <= high;
            group.into_iter().chain([range]).for_each(|word| crosses(None, word, label, inside));
            crosses(None, outside, label, !inside);
        }
    }
}

#[test]
fn sorts_of_labels() {
    let gets = |sort: u32, fields: u32, number| path_gets(&[0x5000_0000 | sort << 24 | fields], number);
    let (right, wrong) = ([0, 0xff_f000, 0xff_ffff, 0x00_5005, 0x00_2001], [0x00_0001, 0x00_1002, 0xff_efff]);
    for sort in [0, 2] {
        right.into_iter().for_each(|ends| gets(sort, ends, 0));
        wrong.into_iter().for_each(|ends| gets(sort, ends, 5));
    }
    for sort in 3..16 {
        right.into_iter().chain(wrong).for_each(|fields| gets(sort, fields, 5));
    }
}

#[test]
fn visited_nodes_have_states() {
    lists(W, None, Q, "f0000002 e0000002");
}

#[test]
fn walks_resume_at_doors() {
    let (list, firsts) = question(W, &[0, 1, 0], 2, None, Q);
    assert_eq!(list, words("f0000002 e0000002"));
    assert_eq!(firsts[1], words("71300004 80000002 90000001 a0000032"));
}

#[test]
fn walks_go_on_through_doors() {
    let whole = "10000006 20030001 30050003 20000002 20000003 30060002";
    let part = "10000005 20030001 30050003 20010003 30060002";
    gives(first_reply(part, TWO_LABELS), "70200007 80010001 90000000 a0000022 80000003 90000001 a0000022");
    assert_eq!(question(whole, &[0, 1, 0], 2, None, TWO_LABELS).0, words("f0000002 e0000002"));
}

#[test]
fn a_star_needs_no_turn() {
    let whole = "10000006 20030001 30050002 20000002 30060003 20000003";
    lists(whole, None, P, "f0000002 e0000002");
}

#[test]
fn labels_outside_a_range() {
    let (root, two, all) =
        ("f0000002 e0000001", "f0000003 e0000001 e0000002", "f0000004 e0000001 e0000002 e0000003");
    for (word, list) in [
        ("52004004", all),
        ("52005005", root),
        ("52006006", two),
        ("52007007", all),
        ("52006005", root),
        ("52004000", all),
        ("52005000", root),
        ("52fff006", two),
        ("52fff007", all),
        ("52fff000", root),
    ] {
        lists(W, None, &format!("40100003 {word} 60000003"), list);
    }
    // all but 6, by the two ranges that say the same
    lists(W, None, "40200005 50005000 50fff007 60000002 60000003", two);
}

#[test]
fn a_stopped_node_is_neither_passed_nor_listed() {
    for (path, list) in [(Q, "f0000002 e0000002"), (TWO_LABELS, "f0000002 e0000003")] {
        lists(W, None, path, list);
        lists(STOPPED, None, path, "f0000001");
    }
}

#[test]
fn a_stopped_root_lists_nothing() {
    gives(old_search("10000002 20070001", EMPTY_WORD), "f0000001");
    for path in [P, Q, EMPTY_WORD] {
        lists(ROOT_STOPPED, None, path, "f0000001");
    }
}

#[test]
fn a_stopped_door_that_is_called_answers_nothing() {
    gives(second_reply("10000002 20010001", EMPTY_WORD, "b0000002 c0000010"), "d0000002 e0000001");
    gives(second_reply("10000002 20050001", EMPTY_WORD, "b0000002 c0000010"), "d0000001");
    refuses(second_reply("10000002 20040001", EMPTY_WORD, "b0000002 c0000010"), 14);
}

#[test]
fn links_of_stopped_nodes_make_doors() {
    gives(cut(STOPPED, &[1, 1, 0], 1), "11000005 20030001 30050002 20010002 30060003");
    gives(cut(STOPPED, &[1, 1, 0], 0), "10000003 20050003 30050002");
}

#[test]
fn checks_of_stopped_nodes() {
    for bit in 19..28 {
        let part = format!("10000002 {:08x}", 0x2003_0001 | 1 << bit);
        over_a_part(&part).into_iter().for_each(|call| refuses(call, 5));
    }
    over_a_part("10000002 20080001").into_iter().for_each(|call| refuses(call, 5));
    over_a_part("10000002 20060001").into_iter().for_each(|call| refuses(call, 7));
    over_a_part("10000003 20040002 20000002").into_iter().for_each(|call| refuses(call, 6));
    refuses(old_search("10000003 20070001 30050002", P), 8);
    refuses(cut("10000003 20070001 30050002", &[0], 0), 8);
}
