//! One reply for eight askers (document 02, request 11), by the library and by the evaluation: which desks' replies are put in, and where; a
//! short reply is the one of its call by itself, whatever the other desks ask for and in which order; what refuses the whole, and in which
//! order.

use mowqachi_tests::beside::{hex, Call, Desks, Left, Visit};
use mowqachi_tests::evaluation::desks::*;
use mowqachi_tests::evaluation::groups::{read_groups, OURS};
use mowqachi_tests::evaluation::part::read_part;
use mowqachi_tests::evaluation::path::read_path;
use mowqachi_tests::evaluation::replies::first_reply_words;
use mowqachi_tests::evaluation::words::*;
use mowqachi_tests::evaluation::Room;
use mowqachi_tests::finding::found_out_by_desks;
use mowqachi_tests::generate::calls::{is_short, room_from, AskedAtOnce};
use mowqachi_tests::generate::desks::*;
use mowqachi_tests::generate::path::{group, range, THEN};
use mowqachi_tests::generate::visits::{mixed, stars};
use mowqachi_tests::meeting::meet;
use mowqachi_tests::mistakes::desks::{in_desks, Asking, RIGHT};
use mowqachi_tests::mistakes::{names, Named};
use mowqachi_tests::random::{cases, Random};
use mowqachi_tests::written::paths::{asking, beside_each_other, not_used_up, places, NO_OPERAND};
use mowqachi_tests::written::*;
use std::collections::{BTreeMap, BTreeSet};

fn fixed() -> Random {
    Random::new(1, "desks", 0)
}

fn all_zero(bytes: &[u8]) -> bool {
    bytes.iter().all(|byte| *byte == 0)
}

/// What each desk finds in the output, and the words behind the last reply: it skips the replies of the desks before it whose number is 0, as
/// far as their headers say.
fn found(numbers: &[u32], output: &[u8]) -> (Vec<Option<Vec<u32>>>, Vec<u32>) {
    let mut left = words_of(&output[..4 * FILE_LIMIT], FILE_LIMIT).expect("an output in fours");
    let find = |number: &u32| {
        (*number == 0).then(|| {
            let behind = left.split_off(bits(left[0], 13, 0) as usize);
            std::mem::replace(&mut left, behind)
        })
    };
    (numbers.iter().map(find).collect(), left)
}

/// The number of a desk's call by itself and its words, as the library leaves them.
fn by_itself(random: &mut Random, single: &Call, room: Room) -> (u32, Option<Vec<u32>>) {
    let left = single.leaves(random, room);
    let own = found(&left.numbers, &left.buffers[0]).0.remove(0);
    (left.number(), own)
}

/// The numbers and what each desk finds, as the library leaves it, held to the evaluation; and held to what each desk's call by itself leaves
/// in buffers of the same lengths: the same, but for a 15 in the place of a long reply.
fn held(random: &mut Random, desks: &Desks, room: Room) -> (Vec<u32>, Vec<Option<Vec<u32>>>) {
    let visited = desks.check(random, room);
    let Left { numbers, buffers, .. } = Left::owed_desks(&visited, room);
    let short = is_short(&[room.out, room.work], &[LEAST_ROOM.out, LEAST_ROOM.work]);
    let readable = read_part(&desks.0.part).is_ok() && read_groups(desks.0.groups.as_deref()).is_ok();
    let singles = if short || !readable { vec![] } else { desks.singles() };
    assert!(all_zero(&buffers[1]), "{desks:x?} {room:?}");
    if singles.is_empty() {
        let number = match (short, readable) {
            (true, _) => 1,
            (_, true) => 17,
            _ => numbers[0].max(2),
        };
        assert!(numbers == [number; DESKS] && all_zero(&buffers[0]), "{desks:x?} {room:?}");
        return (numbers, vec![]);
    }
    let (asked, past) = numbers.split_at(singles.len());
    let (replies, behind) = found(asked, &buffers[0]);
    for (at, single) in singles.iter().enumerate() {
        let (number, own) = by_itself(random, single, room);
        let without_room = asked[at] == 15 && own.as_ref().map_or(false, |own| own.len() > SHORT_LIMIT);
        let same = asked[at] == number && replies[at] == own;
        assert!(same || without_room, "desk {at} of {desks:x?} {room:?}");
        assert_ne!(asked[at], 4, "desk {at} of {desks:x?}");
    }
    assert!(past.iter().chain(&behind).all(|word| *word == 0), "{desks:x?} {room:?}");
    assert!(all_zero(&buffers[0][4 * FILE_LIMIT..]), "{desks:x?} {room:?}");
    (numbers, replies)
}

/// The desks with these paths, in words.
fn with(part: &str, paths: &[&str]) -> Desks {
    Desks(asking(part, None, paths))
}

fn given(desks: &Desks) -> (Vec<u32>, Vec<Option<Vec<u32>>>) {
    held(&mut fixed(), desks, LEAST_ROOM)
}

fn numbers(desks: &Desks) -> Vec<u32> {
    given(desks).0
}

/// The whole is refused under this number.
fn refused(desks: &Desks, number: u32) {
    assert_eq!(numbers(desks), [number; DESKS], "{desks:x?}");
}

/// So many numbers, and 0 past them.
fn padded(numbers: &[u32]) -> Vec<u32> {
    let mut padded = numbers.to_vec();
    padded.resize(DESKS, 0);
    padded
}

const PART: &str = FILES.parts[0];

#[test]
fn in_words() {
    let one_label = "70100007 80010001 90000000 a0000021 80000003 90000000 a0000021";
    let empty_word = "70000003 80010001 80000003";
    let of_p = FILES.firsts[0];
    for (paths, owed, replies) in [
        (vec![P], vec![], vec![of_p]),
        (vec![ONE_LABEL, P], vec![], vec![one_label, of_p]),
        (vec![P, NO_OPERAND, EMPTY_WORD], vec![0, 9], vec![of_p, empty_word]),
        (vec![NO_OPERAND, ONE_LABEL, "10000001", P], vec![9, 0, 3], vec![one_label, of_p]),
        (vec!["40000001", "40100002 53005005"], vec![9, 5], vec![]),
        (vec![EMPTY_WORD; 8], vec![], vec![empty_word; 8]),
        (
            vec![NO_OPERAND, NO_OPERAND, P, P, "10000001", EMPTY_WORD, NO_OPERAND, ONE_LABEL],
            vec![9, 9, 0, 0, 3, 0, 9, 0],
            vec![of_p, of_p, empty_word, one_label],
        ),
    ] {
        let desks = with(PART, &paths);
        let (numbers, found) = given(&desks);
        assert_eq!(numbers, padded(&owed), "{paths:?}");
        let replies: Vec<Vec<u32>> = replies.into_iter().map(words).collect();
        assert_eq!(found.into_iter().flatten().collect::<Vec<_>>(), replies, "{paths:?}");
        assert_eq!(given(&Desks(asking(PART, Some(&OURS), &paths))), given(&desks), "{paths:?}");
    }
    // a site without nodes has its lone header for every path
    let lone = with("15000001", &[P, NO_OPERAND, EMPTY_WORD]);
    assert_eq!(given(&lone).1, [Some(words("75300001")), None, Some(words("75000001"))]);
    // 5 is in group 6 of these, and in no group 6 of ours
    let mut groups = OURS;
    groups[6] = range(5, 5);
    let (path, none) = (path_of(&[group(6)]), "70100003 80010001 80000003");
    let by_groups = Desks(asking(PART, Some(&groups), &[&path, ONE_LABEL]));
    assert_eq!(given(&by_groups).1, [one_label, one_label].map(|reply| Some(words(reply))));
    assert_eq!(given(&with(PART, &[&path, ONE_LABEL])).1, [none, one_label].map(|reply| Some(words(reply))));
}

/// Bundles of one to eight paths, of which those at some places are refused.
fn bundles() -> Vec<Vec<&'static str>> {
    let bundle = |count: usize, refused: usize| {
        let path =
            |at: usize| if refused >> at & 1 == 1 { NO_OPERAND } else { [P, ONE_LABEL, EMPTY_WORD][at % 3] };
        (0..count).map(path).collect()
    };
    (1..=DESKS).flat_map(|count| [0, 1, 0x54, 0xff].map(|refused| bundle(count, refused))).collect()
}

#[test]
fn lengths_that_do_not_use_up_the_bundle() {
    for bundle in bundles() {
        assert!(!numbers(&with(PART, &bundle)).contains(&17), "{bundle:?}");
        for paths in not_used_up(&bundle) {
            refused(&Desks(Visit { paths, ..asking(PART, None, &[]) }), 17);
        }
    }
}

#[test]
fn more_than_eight_files() {
    for path in [P, ONE_LABEL, NO_OPERAND, "40000001", "00000001", "ffffc001"] {
        (1..=8).for_each(|count| assert!(!numbers(&with(PART, &vec![path; count])).contains(&17)));
        (9..=13).for_each(|count| refused(&with(PART, &vec![path; count]), 17));
    }
    refused(&with(PART, &[P, P, P, P, P, P, P, P, "40000000"]), 17);
    refused(&with(PART, &[P, "40000000", P]), 17);
}

/// Desks with this file among them, at this place.
fn among(at: usize, count: usize, words: &[u32]) -> Desks {
    let file = hex(&bytes_of(words));
    let paths: Vec<&str> = (0..count).map(|own| if own == at { &file[..] } else { P }).collect();
    with(PART, &paths)
}

/// The file gets this number at each place, and its neighbours none.
fn gets_by_itself(words: &[u32], number: u32) {
    for (at, count) in places(DESKS) {
        let mut owed = [0; DESKS];
        owed[at] = number;
        assert_eq!(numbers(&among(at, count, words)), owed, "{} words, {at} of {count}", words.len());
    }
}

#[test]
fn headers_of_any_kind() {
    let path = words(ONE_LABEL);
    let with = |bits: u32| [&[path[0] ^ bits], &path[1..]].concat();
    gets_by_itself(&path, 0);
    [1, 2, 3, 8, 15].into_iter().for_each(|kind| gets_by_itself(&with(kind << 28), 3));
    [14, 19, 24, 27].into_iter().for_each(|bit| gets_by_itself(&with(1 << bit), 3));
    (20..24).for_each(|bit| gets_by_itself(&with(1 << bit), 9));
    gets_by_itself(&[0xffff_c001], 3);
    gets_by_itself(&[1], 3);
}

#[test]
fn long_files() {
    for (length, number) in [(64, 0), (65, 2), (256, 2), (4096, 2), (4097, 2), (8000, 2)] {
        gets_by_itself(&stars(length), number);
    }
    // the bundle has just 8,192 words, or one more
    for (at, count) in places(DESKS) {
        let others = 7 * (count - 1);
        let number = |words: usize| numbers(&among(at, count, &stars(words - others)))[at];
        assert_eq!([8192, 8193].map(number), [2, 17]);
    }
}

/// The part comes first, then the groups, then the bundle, then each path.
#[test]
fn parts_then_groups_then_the_bundle() {
    for (visit, number) in beside_each_other(DESKS) {
        match number {
            Some(number) => refused(&Desks(visit), number),
            None => assert!(numbers(&Desks(visit)).contains(&0)),
        }
    }
}

/// Lengths around the least of both buffers; any that is short refuses the whole, ahead of all else.
#[test]
fn buffers() {
    let (random, mut met) = (&mut fixed(), BTreeMap::new());
    let lengths = |least: usize| [0, 4, least / 2, least - 4, least - 1, least, least + 1, 2 * least];
    let [right, part, bundle] = [(PART, EMPTY_WORD), ("10000002", EMPTY_WORD), (PART, "40000000")];
    let all = [right, part, bundle].map(|(part, last)| with(part, &[P, NO_OPERAND, last]));
    let full = desks_of(&asked_for(random, false, &[4096]));
    for (out, work) in lengths(16_384).iter().flat_map(|out| lengths(32_768).map(|work| (*out, work))) {
        let short = out < 16_384 || work < 32_768;
        let owed = [padded(&[0, 9]), vec![4; DESKS], vec![17; DESKS], vec![0; DESKS]];
        for (desks, owed) in all.iter().chain([&full]).zip(owed) {
            let numbers = held(random, desks, Room { out, work }).0;
            assert_eq!(numbers, if short { vec![1; DESKS] } else { owed }, "{out} {work}");
            *met.entry(numbers[0]).or_insert(0) += 1;
        }
    }
    assert_eq!(met, BTreeMap::from([(0, 2 * 9), (1, 4 * (64 - 9)), (4, 9), (17, 9)]));
}

/// The words of replies, 0 for a path that is refused with 9, and the numbers of their desks.
const LINES: [(&[usize], &[u32]); 28] = [
    (&[4096], &[0]),
    (&[4097], &[15]),
    (&[512, 512, 512, 512, 512, 512, 512, 512], &[0; 8]),
    (&[513, 512, 512, 512, 512, 512, 512, 512], &[15, 0, 0, 0, 0, 0, 0, 0]),
    (&[512, 512, 512, 513, 512, 512, 512, 512], &[0, 0, 0, 15, 0, 0, 0, 0]),
    (&[512, 512, 512, 512, 512, 512, 512, 513], &[0, 0, 0, 0, 0, 0, 0, 15]),
    (&[512, 512, 512, 513, 512, 512, 512, 511], &[0; 8]),
    (&[513; 7], &[0; 7]),
    (&[513; 8], &[0, 0, 0, 0, 0, 0, 0, 15]),
    (&[513, 513, 513, 513, 513, 513, 513, 505], &[0; 8]),
    (&[513, 513, 513, 513, 513, 513, 513, 506], &[0, 0, 0, 0, 0, 0, 15, 0]),
    (&[4090, 6], &[0, 0]),
    (&[4091, 6], &[15, 0]),
    (&[6, 4090], &[0, 0]),
    (&[6, 4091], &[0, 15]),
    (&[2000, 2096], &[0, 0]),
    (&[2000, 2097], &[0, 15]),
    (&[2000, 2097, 2096], &[0, 15, 0]),
    (&[2000, 2097, 2096, 513], &[0, 15, 0, 15]),
    (&[2000, 3000, 1000, 1096], &[0, 15, 0, 0]),
    (&[513, 3583], &[0, 0]),
    (&[513, 3584], &[0, 15]),
    (&[4096, 513, 512], &[15, 0, 0]),
    (&[4097, 4096], &[15, 0]),
    (&[0, 4096, 0], &[9, 0, 9]),
    (&[0, 4090, 6, 0, 0, 0, 0, 0], &[9, 0, 0, 9, 9, 9, 9, 9]),
    (&[3000, 2000, 512, 512, 72, 0, 4097, 600], &[0, 15, 0, 0, 0, 9, 15, 15]),
    (&[1500, 1500, 1500, 697, 300, 100, 696, 513], &[0, 0, 15, 15, 0, 0, 0, 15]),
];

/// Desks with replies of so many words, in which a path is refused with 9 where these are 0.
fn for_words(random: &mut Random, grouped: bool, lengths: &[usize]) -> AskedAtOnce {
    let mut asked = asked_for(random, grouped, &lengths.iter().map(|own| (*own).max(6)).collect::<Vec<_>>());
    let refused = (0..lengths.len()).filter(|at| lengths[*at] == 0);
    refused.for_each(|at| asked.2[at] = words(NO_OPERAND));
    asked
}

#[test]
fn at_the_lines() {
    let random = &mut fixed();
    for (lengths, owed) in LINES {
        for grouped in [false, false, true] {
            let desks = desks_of(&for_words(random, grouped, lengths));
            let (numbers, replies) = held(random, &desks, LEAST_ROOM);
            assert_eq!(numbers, padded(owed), "{lengths:?}");
            let sizes: Vec<usize> = replies.iter().map(|own| own.as_ref().map_or(0, Vec::len)).collect();
            let put_in = |at: usize| if owed[at] == 0 { lengths[at] } else { 0 };
            assert_eq!(sizes, (0..lengths.len()).map(put_in).collect::<Vec<_>>(), "{lengths:?}");
        }
    }
}

/// The choice by counting, in the order of asking, the words that are taken.
fn one_by_one(words: &[usize]) -> Vec<bool> {
    let mut taken: usize = words.iter().filter(|own| **own <= SHORT_LIMIT).sum();
    let mut fits = |own: &usize| {
        let long = *own > SHORT_LIMIT;
        let fits = !long || taken + own <= FILE_LIMIT;
        taken += if long && fits { *own } else { 0 };
        fits
    };
    words.iter().map(&mut fits).collect()
}

/// There is just one choice at which the request's sentence is true, and it is the one that is found one by one: of any five of some lengths,
/// and of random ones. No more than there is room for is in.
#[test]
fn just_one_choice() {
    let some = [0, 512, 513, 1024, 2048, 3583, 4096];
    let five = |of: usize| -> Vec<usize> { (0..5).map(|place| some[of / 7usize.pow(place) % 7]).collect() };
    let random = &mut fixed();
    let others = (0..3000).map(|case| some_words(random, 1 + case % DESKS));
    for words in (0..7usize.pow(5)).map(five).chain(others) {
        let within = chosen(&words);
        assert_eq!(within, one_by_one(&words), "{words:?}");
        assert!((0..words.len()).filter(|at| within[*at]).map(|at| words[at]).sum::<usize>() <= FILE_LIMIT);
    }
}

/// What replies have, by their words and which of them are in.
type Sort = fn(&[usize], &[bool]) -> bool;

const SORTS: [Named<Sort>; 16] = [
    ("512 words", |words, _| words.contains(&512)),
    ("513 words", |words, _| words.contains(&513)),
    ("eight desks", |words, _| words.len() == 8),
    ("all short", |words, _| words.iter().all(|own| *own <= SHORT_LIMIT)),
    ("all long", |words, _| words.iter().all(|own| *own > SHORT_LIMIT)),
    ("4,095 words in", |words, within| taken(words, within) == 4095),
    ("4,096 words in", |words, within| taken(words, within) == 4096),
    ("a word too many", |words, within| left_out(words, within).any(|at| needed(words, within, at) == 4097)),
    ("two long ones in", |words, within| long_in(words, within).count() == 2),
    ("three long ones in", |words, within| long_in(words, within).count() > 2),
    ("a long one in behind one that has no room", |words, within| {
        left_out(words, within).any(|at| long_in(words, within).any(|other| other > at))
    }),
    ("a long one without room for a short one asked later", |words, within| {
        let later = |at: usize| words[at + 1..].iter().filter(|own| **own <= SHORT_LIMIT).sum::<usize>();
        left_out(words, within).any(|at| needed(words, within, at) - later(at) <= FILE_LIMIT)
    }),
    ("a long one without room for another long one", |words, within| {
        let before = |at: usize| long_in(words, within).take_while(move |other| *other < at);
        let long = |at: usize| before(at).map(|other| words[other]).sum::<usize>();
        left_out(words, within).any(|at| needed(words, within, at) - long(at) <= FILE_LIMIT)
    }),
    ("a reply over its limit beside a long one in", |words, within| {
        words.iter().any(|own| *own > FILE_LIMIT) && long_in(words, within).count() > 0
    }),
    ("a refused path beside a long one in", |words, within| {
        words.contains(&0) && long_in(words, within).count() > 0
    }),
    ("none without room", |words, within| {
        left_out(words, within).count() == 0 && long_in(words, within).count() > 0
    }),
];

fn taken(words: &[usize], within: &[bool]) -> usize {
    (0..words.len()).filter(|at| within[*at]).map(|at| words[at]).sum()
}

fn long_in<'a>(words: &'a [usize], within: &'a [bool]) -> impl Iterator<Item = usize> + 'a {
    (0..words.len()).filter(move |at| within[*at] && words[*at] > SHORT_LIMIT)
}

/// Those within their own limit that have no room.
fn left_out<'a>(words: &'a [usize], within: &'a [bool]) -> impl Iterator<Item = usize> + 'a {
    (0..words.len()).filter(move |at| !within[*at] && words[*at] <= FILE_LIMIT)
}

/// The words beside which a long reply would have to fit, with its own.
fn needed(words: &[usize], within: &[bool], at: usize) -> usize {
    let beside = |other: &usize| words[*other] <= SHORT_LIMIT || *other < at && within[*other];
    words[at] + (0..words.len()).filter(beside).map(|other| words[other]).sum::<usize>()
}

/// Of the random lengths each sort is met often, 1 case in 50 at least; and a path for a length has a reply of just this length.
#[test]
fn random_lengths() {
    let (random, mut met) = (&mut fixed(), BTreeMap::new());
    for _ in 0..4000 {
        let words = with_long_words(random);
        let within = chosen(&words);
        names(&SORTS, |sort| sort(&words, &within))
            .into_iter()
            .for_each(|sort| *met.entry(sort).or_insert(0) += 1);
    }
    met.iter().for_each(|(sort, count)| println!("{count:7} of 4000: {sort}"));
    assert!(names(&SORTS, |_| true).iter().all(|sort| met.get(sort) >= Some(&80)), "{met:?}");
    for case in 0..60 {
        let lengths: Vec<usize> = with_long_words(random).into_iter().map(|own| own.max(6)).collect();
        let (part, groups, paths) = asked_for(random, case % 2 == 1, &lengths);
        let reply = |path: &Vec<u32>| {
            let path = read_path(&bytes_of(path), &groups.unwrap_or(OURS)).expect("an accepted path");
            first_reply_words(&part, &path).len()
        };
        assert_eq!(paths.iter().map(reply).collect::<Vec<_>>(), lengths, "{part:?} {paths:x?}");
    }
}

/// The words of the replies of desks by the library, none where the path is refused, and one too many for a reply over its limit.
fn lengths(random: &mut Random, desks: &Desks) -> Vec<usize> {
    let length = |single: &Call| match by_itself(random, single, LEAST_ROOM) {
        (15, _) => FILE_LIMIT + 1,
        (_, own) => own.map_or(0, |own| own.len()),
    };
    desks.singles().iter().map(length).collect()
}

fn place(what: &str, at: usize, count: usize) -> String {
    format!("{what}, desk {} of {count}", at + 1)
}

/// The least buffers, or longer ones.
fn long_enough(random: &mut Random) -> Room {
    let [out, work] =
        [LEAST_ROOM.out, LEAST_ROOM.work].map(|least| least + random.pick(&[0, 0, 0, 1, 4, 5000]));
    Room { out, work }
}

/// What becomes of a desk, by its number and the words of its reply.
fn becomes(number: u32, words: usize) -> &'static str {
    match (number, words) {
        (0, 1..=SHORT_LIMIT) => "short",
        (0, _) => "long",
        (15, 1..=FILE_LIMIT) => "without room",
        _ => "refused",
    }
}

/// Bundles that are not refused, in buffers that are long enough. Fails if at some place a reply was not short, long and without room, and a
/// path refused, or a sort of replies was not met.
#[test]
fn as_each_path_by_itself() {
    let all = ["short", "long", "without room", "refused"];
    let possible = |at: usize, count: usize, what: &str| what != "without room" || at + count > 1;
    let each = places(DESKS).flat_map(|(at, count)| {
        all.into_iter().filter(move |what| possible(at, count, what)).map(move |what| place(what, at, count))
    });
    let sorts = names(&SORTS, |_| true).into_iter().map(str::to_string);
    meet("desks", [cases() * 3 / 100, 20_000], each.chain(sorts), |random| {
        let grouped = random.chance(50);
        let (desks, room) = (desks_of(&asked(random, grouped)), long_enough(random));
        let (numbers, _) = held(random, &desks, room);
        let words = lengths(random, &desks);
        let within: Vec<bool> = (0..words.len()).map(|at| numbers[at] == 0 || words[at] == 0).collect();
        let each = (0..words.len()).map(|at| place(becomes(numbers[at], words[at]), at, words.len()));
        let sorts = names(&SORTS, |sort| sort(&words, &within));
        each.chain(sorts.into_iter().map(str::to_string)).collect()
    });
}

/// Any bytes, in buffers of any lengths; with our groups a call leaves what it leaves without. The program in which mistakes are made is right
/// without one. Fails if a number was not met.
#[test]
fn whatever_is_refused() {
    let owed = [0, 1, 2, 3, 4, 5, 6, 7, 9, 15, 16, 17];
    meet("any desks", [cases() * 3 / 100, 20_000], owed, |random| {
        let grouped = random.chance(30);
        let (desks, room) = (desks(random, grouped), room_from(random, LEAST_ROOM));
        let (numbers, replies) = held(random, &desks, room);
        let visited = desks.evaluate(room);
        let output: Vec<u32> = replies.into_iter().flatten().flatten().collect();
        assert_eq!(
            RIGHT.answer(&Asking::new(&desks, room, &visited)),
            (numbers.clone(), output),
            "{desks:x?}"
        );
        if !grouped {
            let ours = Desks(Visit { groups: Some(bytes_of(&OURS)), ..desks.0.clone() });
            assert!(ours.leaves(random, room) == desks.leaves(random, room), "{desks:x?} {room:?}");
        }
        numbers.into_iter().collect::<BTreeSet<_>>().into_iter().collect()
    });
}

/// The numbers and what each desk finds, by the library alone.
fn answered(random: &mut Random, asked: &AskedAtOnce) -> Vec<(u32, Option<Vec<u32>>)> {
    let left = desks_of(asked).leaves(random, LEAST_ROOM);
    let numbers = &left.numbers[..asked.2.len()];
    numbers.iter().copied().zip(found(numbers, &left.buffers[0]).0).collect()
}

/// A part, groups or none, and fifteen files, of which the first has a short reply mostly.
fn fifteen(random: &mut Random) -> AskedAtOnce {
    let grouped = random.chance(50);
    if random.chance(40) {
        return mixed(random, grouped, 15);
    }
    let short = random.pick(&[6, 40, 300, 511, 512, 512]);
    let lengths = [vec![short], some_words(random, 7), some_words(random, 7)].concat();
    asked_for(random, grouped, &lengths)
}

/// Seven desks hand in any paths, accepted or not, and an eighth, with a short reply, gets the words that it gets by itself, at any place
/// among them, with the others in any order, and with others in their places; by the library alone.
#[test]
fn the_eighth_desk() {
    let others = ["short", "long", "without room", "refused"].map(|what| format!("beside {what}"));
    let each = (0..DESKS).map(|at| place("eighth", at, DESKS));
    let lengths_met = ["512 words", "a reply over its limit"].map(str::to_string);
    let owed = each.chain(others).chain(lengths_met.clone());
    meet("eighth desk", [cases() / 100, 5_000], owed, |random| {
        let (part, groups, mut files) = fifteen(random);
        let (eighth, mut met) = (files.remove(0), vec![]);
        let single = desks_of(&(part.clone(), groups, vec![eighth.clone()])).singles().remove(0);
        let alone = by_itself(random, &single, LEAST_ROOM);
        if !matches!(&alone, (0, Some(own)) if own.len() <= SHORT_LIMIT) {
            return met;
        }
        for _ in 0..3 {
            random.shuffle(&mut files);
            let (mut all, at) = (files[..7].to_vec(), random.below(DESKS));
            all.insert(at, eighth.clone());
            let asked = (part.clone(), groups, all);
            let (given, words) = (answered(random, &asked), lengths(random, &desks_of(&asked)));
            assert_eq!(given[at], alone, "{at} of {asked:x?}");
            met.push(place("eighth", at, DESKS));
            let others = (0..DESKS).filter(|other| *other != at);
            met.extend(others.map(|other| format!("beside {}", becomes(given[other].0, words[other]))));
            let such = [words[at] == SHORT_LIMIT, words.iter().any(|own| *own > FILE_LIMIT)];
            met.extend((0..2).filter(|sort| such[*sort]).map(|sort| lengths_met[sort].clone()));
        }
        met
    });
}

/// The places of so many desks in another order, in which long replies follow each other as before.
fn another_order(random: &mut Random, lengths: &[usize]) -> Vec<usize> {
    let mut order: Vec<usize> = (0..lengths.len()).collect();
    random.shuffle(&mut order);
    let long = |at: &usize| lengths[*at] > SHORT_LIMIT;
    let mut in_turn = (0..lengths.len()).filter(long);
    order.iter_mut().filter(|at| long(at)).for_each(|at| *at = in_turn.next().expect("as many"));
    order
}

/// Each desk gets the same if short replies and refused paths are asked for elsewhere among the others, if paths that are refused or without
/// room are left out, or others in the place of refused ones; by the library alone.
#[test]
fn in_any_order_and_number() {
    let owed = [
        "another order, long ones in",
        "another order, some without room",
        "some left out",
        "refused otherwise",
    ];
    meet("desks in order", [cases() / 100, 5_000], owed, |random| {
        let grouped = random.chance(50);
        let mut asked = with_long_replies(random, grouped);
        let (before, lengths) = (answered(random, &asked), lengths(random, &desks_of(&asked)));
        let files = asked.2.clone();
        let order = another_order(random, &lengths);
        asked.2 = order.iter().map(|at| files[*at].clone()).collect();
        let after: Vec<_> = order.iter().map(|at| before[*at].clone()).collect();
        assert_eq!(answered(random, &asked), after, "{order:?} of {files:x?} over {:?}", asked.0);
        let in_and_out = [
            before.iter().any(|own| own.1.iter().any(|own| own.len() > SHORT_LIMIT)),
            before.iter().any(|own| own.0 == 15),
        ];
        let kept: Vec<usize> =
            (0..files.len()).filter(|at| before[*at].0 == 0 || random.chance(50)).collect();
        let changed = before.iter().position(|own| ![0, 15].contains(&own.0));
        if !kept.is_empty() {
            asked.2 = kept.iter().map(|at| files[*at].clone()).collect();
            let after: Vec<_> = kept.iter().map(|at| before[*at].clone()).collect();
            assert_eq!(answered(random, &asked), after, "{kept:?} of {files:x?} over {:?}", asked.0);
        }
        if let Some(at) = changed {
            asked.2 = files.clone();
            asked.2[at] = random.pick(&[stars(65), words(NO_OPERAND), words("10000001")]);
            let after = answered(random, &asked);
            assert!(
                (0..files.len()).all(|other| other == at || after[other] == before[other]),
                "{at} of {files:x?}"
            );
        }
        let met = [in_and_out[0], in_and_out[1], kept.len() < files.len(), changed.is_some()];
        (0..4).filter(|sort| met[*sort]).map(|sort| owed[sort]).collect()
    });
}

/// A door from which a walk of 5 then 6 goes over a node that is none.
const OVER_A_NODE: &str = "10000005 20010001 30050002 20000002 30060009";
const TWO_LABELS: &str = "40200004 50005005 50006006 60000001";

/// Desks that ask in the least buffers.
fn telling_desks() -> Vec<Desks> {
    let with = |paths: &[&str]| with(OVER_A_NODE, paths);
    let long = |words: usize| with(&[&hex(&bytes_of(&stars(words))), P]);
    let mut groups = OURS;
    groups[6] = range(5, 6);
    let by_groups = path_of(&[group(6), group(6), THEN]);
    vec![
        with(&[TWO_LABELS, NO_OPERAND, ONE_LABEL]),
        with(&[TWO_LABELS, TWO_LABELS, EMPTY_WORD, NO_OPERAND]),
        with(&[P, NO_OPERAND, P, P, NO_OPERAND, TWO_LABELS, EMPTY_WORD, P]),
        Desks(asking(OVER_A_NODE, Some(&groups), &[&by_groups, &by_groups])),
        with(&[]),
        Desks(Visit { paths: [bytes(P), vec![0]].concat(), ..asking(PART, None, &[]) }),
        with(&[P, "40000000", P]),
        with(&[P, "40000003 60000000"]),
        with(&[P; 9]),
        long(65),
        long(4096),
        long(8185),
        long(8186),
        with(&[P, "10000001"]),
        with(&["40004001", P]),
        with(&["41000001", P]),
        Desks(asking("10000002", None, &["40000000"])),
        Desks(Visit { groups: Some(vec![0]), ..asking(PART, None, &["40000000"]) }),
        with(&[NO_OPERAND]),
    ]
}

/// Replies of so many words that tell which are put in, and where.
const TELLING_LENGTHS: [&[usize]; 13] = [
    &[512, 512, 512, 512, 512, 512, 512, 512],
    &[513, 512, 512, 512, 512, 512, 512, 512],
    &[513, 513, 513, 513, 513, 513, 513, 506],
    &[2000, 3000, 1000, 1096],
    &[4091, 6],
    &[6, 4091],
    &[4090, 0, 6],
    &[3584, 0, 512],
    &[4097, 4096],
    &[4097, 6],
    &[1200, 300, 1000, 600, 3000, 700, 20, 0],
    &[3000, 1500, 700, 600],
    &[1500, 700, 3300],
];

/// Desks in other buffers.
fn telling_rooms() -> Vec<(Desks, Room)> {
    let one = with(PART, &[P]);
    let rooms = [(16_383, 32_768), (16_384, 32_767), (16_385, 32_769), (100, 32_768)];
    let others = [
        (with(PART, &["40000000"]), Room { out: 0, work: 32_768 }),
        (with("10000002", &[P]), Room { out: 0, work: 32_768 }),
    ];
    rooms.into_iter().map(|(out, work)| (one.clone(), Room { out, work })).chain(others).collect()
}

/// A few desks find each mistake out.
#[test]
fn mistakes() {
    let random = &mut fixed();
    let mut same = for_words(random, false, &[2500, 6, 2500]);
    same.2[2] = same.2[0].clone();
    let by_lengths = TELLING_LENGTHS.iter().map(|lengths| for_words(random, false, lengths)).chain([same]);
    let by_lengths: Vec<Desks> = by_lengths.map(|asked| desks_of(&asked)).collect();
    let least = telling_desks().into_iter().chain(by_lengths).map(|desks| (desks, LEAST_ROOM));
    let found = least.chain(telling_rooms()).flat_map(|(desks, room)| {
        held(random, &desks, room);
        found_out_by_desks(&desks, room, &desks.evaluate(room))
    });
    let (found, all): (BTreeSet<_>, BTreeSet<_>) = (found.collect(), in_desks(true).into_iter().collect());
    assert_eq!(all.difference(&found).collect::<Vec<_>>(), Vec::<&&str>::new(), "not found out");
}
