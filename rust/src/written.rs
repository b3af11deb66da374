//! Calls written in hexadecimal words, as the documents have them, and what the library answers.

pub mod paths;

use crate::beside::{answer, answers, hex, Call, Desks, Visit};
use crate::evaluation::dearest::dearest_part;
use crate::evaluation::desks::DESKS;
use crate::evaluation::groups::{Groups, OURS};
use crate::evaluation::hub::nodes_of;
use crate::evaluation::visit::VISIT_PATHS;
use crate::evaluation::words::bytes_of;
use crate::evaluation::Room;
use crate::generate::path::path_of_words;
use crate::random::Random;

/// Document 01's plant and path.
pub const W: &str = "10000007 20030001 30050002 20000002 30060003 20000003 30050002";
pub const P: &str = "40300007 50005005 50006006 50005005 60000001 60000003 60000001";
/// W with node 3 stopped.
pub const STOPPED: &str = "10000007 20030001 30050002 20000002 30060003 20040003 30050002";
pub const ONE_LABEL: &str = "40100002 50005005";
pub const EMPTY_WORD: &str = "40000002 60000000";

pub fn words(text: &str) -> Vec<u32> {
    text.split_whitespace().map(|word| u32::from_str_radix(word, 16).expect(word)).collect()
}

pub fn bytes(text: &str) -> Vec<u8> {
    bytes_of(&words(text))
}

/// The library's answer, held to the evaluation's.
pub fn made(call: &Call) -> (u32, Vec<u32>) {
    made_in(call, call.least_room())
}

/// The same in these buffers. A call without groups must give it with ours too, and a first reply in a visit for its path alone, and to a desk
/// that asks alone.
pub fn made_in(call: &Call, room: Room) -> (u32, Vec<u32>) {
    let random = &mut Random::new(1, "written", 0);
    let rooms = [room.out, room.out, room.out, room.out, room.work];
    let mut made = |call: &Call| {
        let given = answer(&call.check(random, room));
        if let Some(visit) = Visit::of(call) {
            let (numbers, files) = answers(&visit.check(random, rooms), VISIT_PATHS);
            assert_eq!((numbers[0], &files[0]), (given.0, &given.1), "{visit:x?}");
        }
        if let Some(desk) = Desks::of(call) {
            let (numbers, files) = answers(&desk.check(random, room), DESKS);
            assert_eq!((numbers[0], files.concat()), (given.0, given.1.clone()), "{desk:x?}");
        }
        given
    };
    let given = made(call);
    if let Some((None, _)) = call.groups_and_path() {
        assert_eq!(made(&grouped(call, &bytes_of(&OURS))), given, "{call:x?} with our groups");
    }
    given
}

pub fn gives(call: Call, text: &str) {
    assert_eq!(made(&call), (0, words(text)), "{call:x?}");
}

/// Under 0 it is accepted.
pub fn refuses(call: Call, number: u32) {
    assert_eq!(made(&call).0, number, "{call:x?}");
}

pub fn old_search(whole: &str, path: &str) -> Call {
    Call::OldSearch { whole: bytes(whole), groups: None, path: bytes(path) }
}

pub fn cut(whole: &str, cuts: &[u8], site: u32) -> Call {
    Call::Cut { whole: bytes(whole), cuts: cuts.to_vec(), site }
}

pub fn first_reply(part: &str, path: &str) -> Call {
    Call::FirstReply { part: bytes(part), groups: None, path: bytes(path) }
}

pub fn call_list(bundle: &str) -> Call {
    Call::CallList { bundle: bytes(bundle) }
}

pub fn second_reply(part: &str, path: &str, calls: &str) -> Call {
    Call::SecondReply { part: bytes(part), groups: None, path: bytes(path), calls: bytes(calls) }
}

pub fn join(bundle: &str) -> Call {
    Call::Join { bundle: bytes(bundle) }
}

pub fn walk(whole: &str, path: &str, node: u32) -> Call {
    Call::Walk { whole: bytes(whole), groups: None, path: bytes(path), node }
}

pub fn check_walk(whole: &str, path: &str, node: u32, words: &str) -> Call {
    walk(whole, path, node).checking(&bytes(words))
}

/// The call, which reads a path, with these groups.
pub fn grouped(call: &Call, groups: &[u8]) -> Call {
    call.with(Some(groups)).expect("it reads a path")
}

/// The call with these groups, if there are any and it reads a path.
fn handed(call: Call, groups: Option<&Groups>) -> Call {
    groups.and_then(|groups| call.with(Some(&bytes_of(groups)))).unwrap_or(call)
}

/// Every call that reads a part, with this one, for the whole too.
pub fn over_a_part(part: &str) -> Vec<Call> {
    vec![
        old_search(part, ONE_LABEL),
        cut(part, &[0], 0),
        first_reply(part, ONE_LABEL),
        second_reply(part, ONE_LABEL, "b0100001"),
        walk(part, EMPTY_WORD, 1),
        check_walk(part, ONE_LABEL, 1, "1"),
    ]
}

/// Every call that reads a path and accepts it, whatever it is, with this one, and a call list of its n.
pub fn over_a_path(path: &str) -> Vec<Call> {
    let calls = format!("b0{}00001", path.get(2..3).unwrap_or("0"));
    vec![
        old_search(W, path),
        first_reply("10000001", path),
        second_reply("10000001", path, &calls),
        check_walk(W, path, 1, "1"),
    ]
}

/// A path of these words behind a header with their n.
pub fn path_of(words: &[u32]) -> String {
    hex(&bytes_of(&path_of_words(words)))
}

/// A path of these words behind a header.
pub fn path(n: u32, words: &[u32]) -> Vec<u8> {
    let header = 0x4000_0000 | n << 20 | (words.len() as u32 + 1);
    bytes_of(&[&[header], words].concat())
}

/// The number that each call that reads paths gives for one of these words, with the n that they have.
pub fn path_gets(words: &[u32], number: u32) {
    over_a_path(&path_of(words)).into_iter().for_each(|call| refuses(call, number));
}

/// Two doors without links between them, each with label 0 to `targets` nodes outside.
pub fn dear_part(targets: u32) -> Vec<u8> {
    bytes_of(&dearest_part(2, targets).words())
}

/// Two first replies: the root calls `first` pairs of the doors behind it, and door 1 calls `more` states of the last door.
pub fn wide_bundle(first: u32, more: u32) -> Vec<u32> {
    let last = 2 + first / 16;
    let mut root = vec![0x70f0_0000 | (3 + first), 0x8001_0000, 0x9000_0000];
    root.extend((0..first).map(|pair| 0xa000_0010 + pair));
    let mut rest = vec![0x71f0_0000 | (2 + more + last), 0x8000_0001, 0x9000_0000];
    rest.extend((0..more).map(|state| 0xa000_0000 | last << 4 | state));
    rest.extend((2..=last).map(|door| 0x8000_0000 | door));
    [root, rest].concat()
}

/// The files of a question over the cut 0, 1, 0, by site.
pub struct Files {
    pub whole: &'static str,
    pub parts: [&'static str; 2],
    pub firsts: [&'static str; 2],
    pub calls: &'static str,
    pub seconds: [&'static str; 2],
    pub list: &'static str,
}

/// Those of document 01's question.
pub const FILES: Files = Files {
    whole: W,
    parts: ["10000005 20030001 30050002 20010003 30050002", "11000003 20010002 30060003"],
    firsts: [
        "7030000b 80010001 90000000 a0000021 90000002 a0000023 80000003 90000000 a0000021 90000002 a0000023",
        "71300006 80000002 90000001 a0000032 90000003 a0000032",
    ],
    calls: "b0300005 c0000010 c0000021 c0000023 c0000032",
    seconds: ["d0300001", "d1300002 e0000002"],
    list: "f0000002 e0000002",
};

pub fn made_one_by_one(files: &Files, groups: Option<&Groups>, path: &str) {
    for site in 0..2 {
        gives(cut(files.whole, &[0, 1, 0], site as u32), files.parts[site]);
    }
    both_trips_one_by_one(files, groups, path);
    gives(handed(old_search(files.whole, path), groups), files.list);
}

pub fn both_trips_one_by_one(files: &Files, groups: Option<&Groups>, path: &str) {
    for site in 0..2 {
        gives(handed(first_reply(files.parts[site], path), groups), files.firsts[site]);
        gives(handed(second_reply(files.parts[site], path, files.calls), groups), files.seconds[site]);
    }
    for (first, second) in [(0, 1), (1, 0)] {
        gives(call_list(&format!("{} {}", files.firsts[first], files.firsts[second])), files.calls);
        gives(join(&format!("{} {}", files.seconds[first], files.seconds[second])), files.list);
    }
}

/// Whether a path of this one label word leads over a link with this label, by each call that reads paths.
pub fn crosses(groups: Option<&Groups>, word: u32, label: u32, held: bool) {
    let edge = format!("{:08x}", 0x3000_0002 | label << 16);
    let whole = format!("10000004 20030001 {edge} 20000002");
    let part = format!("10000003 20030001 {edge}");
    let path = path_of(&[word]);
    let given = |over, none| if held { over } else { none };
    gives(handed(old_search(&whole, &path), groups), given("f0000002 e0000002", "f0000001"));
    let reply = given("70100004 80010001 90000000 a0000021", "70100002 80010001");
    gives(handed(first_reply(&part, &path), groups), reply);
    let reply = given("d0100002 e0000002", "d0100001");
    gives(handed(second_reply(&whole, &path, "b0100002 c0000010"), groups), reply);
    let links = format!("2 {edge}");
    let found = if held { (0, words(&links)) } else { (20, vec![]) };
    assert_eq!(made(&handed(walk(&whole, &path, 2), groups)), found, "{whole} {groups:x?} {path}");
    gives(handed(check_walk(&whole, &path, 2, &links), groups), given("1", "0"));
}

/// The words of a call that is accepted, with these groups if it reads a path.
fn accepted(call: Call, groups: Option<&Groups>) -> Vec<u32> {
    let call = handed(call, groups);
    let (number, words) = made(&call);
    assert_eq!(number, 0, "{call:x?}");
    words
}

/// The parts of these sites, 0 and on.
pub fn parts_of(whole: &str, cuts: &[u8], sites: u32) -> Vec<String> {
    let part = |site| hex(&bytes_of(&accepted(cut(whole, cuts, site), None)));
    (0..sites).map(part).collect()
}

/// The joined list of a question, and its first replies in the order of the parts.
pub type Asked = (Vec<u32>, Vec<Vec<u32>>);

/// Runs a question over these parts, or tells the number under which the hub refuses its first bundle.
pub fn ask(parts: &[String], groups: Option<&Groups>, path: &str) -> Result<Asked, u32> {
    let firsts: Vec<Vec<u32>> = parts.iter().map(|part| accepted(first_reply(part, path), groups)).collect();
    let (number, calls) = made(&Call::CallList { bundle: bytes_of(&firsts.concat()) });
    if number != 0 {
        return Err(number);
    }
    let calls = hex(&bytes_of(&calls));
    let second = |part: &String| accepted(second_reply(part, path, &calls), groups);
    let seconds: Vec<Vec<u32>> = parts.iter().map(second).collect();
    Ok((accepted(Call::Join { bundle: bytes_of(&seconds.concat()) }, None), firsts))
}

/// The same over a cut of a whole, which is not refused.
pub fn question(whole: &str, cuts: &[u8], sites: u32, groups: Option<&Groups>, path: &str) -> Asked {
    ask(&parts_of(whole, cuts, sites), groups, path).expect("no link ends nowhere")
}

/// Cuts of a plant of three nodes.
pub const CUTS: [[u8; 3]; 4] = [[0, 0, 0], [0, 1, 0], [0, 1, 2], [1, 0, 0]];

/// The old search and the question over each of these cuts give this list of a plant of three nodes, and there is a walk to just its nodes.
pub fn lists(whole: &str, groups: Option<&Groups>, path: &str, list: &str) {
    gives(handed(old_search(whole, path), groups), list);
    let listed = nodes_of(&words(list));
    let owed = |node: u32| if listed.contains(&node) { 0 } else { 20 };
    (0..5).for_each(|node| refuses(handed(walk(whole, path, node), groups), owed(node)));
    for cuts in CUTS {
        assert_eq!(
            question(whole, &cuts, 3, groups, path).0,
            words(list),
            "{whole} {cuts:?} {groups:x?} {path}"
        );
    }
}
