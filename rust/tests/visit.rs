//! Several paths in one visit (document 02, request 6), by the library and by the evaluation: each path's number and output are those of its
//! call by itself, whatever becomes of its neighbours; what is past the last path; what refuses the whole, and in which order.

use mowqachi_tests::beside::{answers, hex, Left, Visit};
use mowqachi_tests::evaluation::groups::{read_groups, OURS};
use mowqachi_tests::evaluation::part::{read_part, Part};
use mowqachi_tests::evaluation::visit::*;
use mowqachi_tests::evaluation::words::*;
use mowqachi_tests::evaluation::Room;
use mowqachi_tests::finding::found_out_by_visit;
use mowqachi_tests::generate::calls::{asked_for_words, is_short, rooms};
use mowqachi_tests::generate::path::{group, or_of, range, THEN};
use mowqachi_tests::generate::visits::*;
use mowqachi_tests::meeting::meet;
use mowqachi_tests::mistakes::visit::{in_visits, Visiting, RIGHT};
use mowqachi_tests::mistakes::{names, Named};
use mowqachi_tests::random::{cases, Random};
use mowqachi_tests::written::paths::*;
use mowqachi_tests::written::*;
use std::collections::{BTreeMap, BTreeSet};

fn fixed() -> Random {
    Random::new(1, "visit", 0)
}

fn all_zero(buffers: &[Vec<u8>]) -> bool {
    buffers.iter().flatten().all(|byte| *byte == 0)
}

/// The numbers and the words of the outputs that the library leaves, held to the evaluation; and each path's number and output held to what
/// its call by itself leaves in buffers of the same lengths.
fn held(random: &mut Random, visit: &Visit, rooms: Rooms) -> (Vec<u32>, Vec<Vec<u32>>) {
    let visited = visit.check(random, rooms);
    let Left { numbers, buffers, .. } = Left::owed_visit(&visited, rooms);
    let (outs, work) = buffers.split_at(VISIT_PATHS);
    let singles = if is_short(&rooms, &LEAST_ROOMS) { vec![] } else { visit.singles() };
    for (at, single) in singles.iter().enumerate() {
        let own = single.leaves(random, Room { out: rooms[at], work: rooms[VISIT_PATHS] });
        let beside = (own.number(), &own.buffers[0], &own.buffers[1]);
        assert!((numbers[at], &outs[at], &work[0]) == beside, "path {at} of {visit:x?} {rooms:?}");
    }
    let by_inputs = read_part(&visit.part).is_err() || read_groups(visit.groups.as_deref()).is_err();
    let past = match (is_short(&rooms, &LEAST_ROOMS), by_inputs, singles.is_empty()) {
        (true, ..) => 1,
        (_, true, _) => numbers[0],
        (.., true) => 17,
        _ => 0,
    };
    assert_eq!(numbers[singles.len()..], vec![past; VISIT_PATHS - singles.len()], "{visit:x?} {rooms:?}");
    assert!(all_zero(&outs[singles.len()..]) && all_zero(work), "{visit:x?} {rooms:?}");
    answers(&visited, VISIT_PATHS)
}

/// The numbers and words that a visit gives in the least buffers.
fn given(visit: &Visit) -> (Vec<u32>, Vec<Vec<u32>>) {
    held(&mut fixed(), visit, LEAST_ROOMS)
}

fn numbers(visit: &Visit) -> Vec<u32> {
    given(visit).0
}

/// The whole is refused under this number.
fn refused(visit: &Visit, number: u32) {
    assert_eq!(numbers(visit), [number; VISIT_PATHS], "{visit:x?}");
}

const PART: &str = FILES.parts[0];

#[test]
fn in_words() {
    let one_label = "70100007 80010001 90000000 a0000021 80000003 90000000 a0000021";
    let empty_word = "70000003 80010001 80000003";
    for (paths, owed, replies) in [
        (vec![P], [0, 0, 0, 0], [FILES.firsts[0], "", "", ""]),
        (vec![ONE_LABEL, P], [0, 0, 0, 0], [one_label, FILES.firsts[0], "", ""]),
        (vec![P, NO_OPERAND, EMPTY_WORD], [0, 9, 0, 0], [FILES.firsts[0], "", empty_word, ""]),
        (vec![NO_OPERAND, ONE_LABEL, "10000001", P], [9, 0, 3, 0], ["", one_label, "", FILES.firsts[0]]),
        (vec!["40000001", "40100002 53005005"], [9, 5, 0, 0], ["", "", "", ""]),
    ] {
        let visit = asking(PART, None, &paths);
        assert_eq!(given(&visit), (owed.to_vec(), replies.map(words).to_vec()), "{paths:?}");
        assert_eq!(given(&asking(PART, Some(&OURS), &paths)), given(&visit), "{paths:?}");
    }
    // a site without nodes has its lone header for every path, and one whose doors are stopped its door words
    let lone = asking("15000001", None, &[P, EMPTY_WORD]);
    assert_eq!(given(&lone).1, ["75300001", "75000001", "", ""].map(words));
    let stopped = asking("10000005 20070001 30050002 20050003 30050002", None, &[P, ONE_LABEL]);
    assert_eq!(
        given(&stopped).1,
        ["70300003 80010001 80000003", "70100003 80010001 80000003", "", ""].map(words)
    );
    // 5 is in group 6 of these, and in no group 6 of ours
    let mut groups = OURS;
    groups[6] = range(5, 5);
    let (path, none) = (path_of(&[group(6)]), "70100003 80010001 80000003");
    assert_eq!(
        given(&asking(PART, Some(&groups), &[&path, ONE_LABEL])).1,
        [one_label, one_label, "", ""].map(words)
    );
    assert_eq!(given(&asking(PART, None, &[&path, ONE_LABEL])).1, [none, one_label, "", ""].map(words));
}

/// Bundles of one to four paths, of which those at some places are refused.
fn bundles() -> Vec<Vec<&'static str>> {
    let bundle = |count: usize, refused: usize| {
        let path =
            |at: usize| if refused >> at & 1 == 1 { NO_OPERAND } else { [P, ONE_LABEL, EMPTY_WORD, P][at] };
        (0..count).map(path).collect()
    };
    (1..=VISIT_PATHS).flat_map(|count| (0..1 << count).map(move |refused| bundle(count, refused))).collect()
}

#[test]
fn lengths_that_do_not_use_up_the_bundle() {
    for bundle in bundles() {
        assert!(!numbers(&asking(PART, None, &bundle)).contains(&17), "{bundle:?}");
        for paths in not_used_up(&bundle) {
            refused(&Visit { paths, ..asking(PART, None, &[]) }, 17);
        }
    }
}

#[test]
fn more_than_four_files() {
    for path in [P, ONE_LABEL, NO_OPERAND, "40000001", "00000001", "ffffc001"] {
        (1..=4).for_each(|count| assert!(!numbers(&asking(PART, None, &vec![path; count])).contains(&17)));
        (5..=9).for_each(|count| refused(&asking(PART, None, &vec![path; count]), 17));
    }
    refused(&asking(PART, None, &[P, P, P, P, "40000000"]), 17);
    refused(&asking(PART, None, &[P, "40000000", P]), 17);
}

/// Paths with this file among them, at this place.
fn among(at: usize, count: usize, words: &[u32]) -> Visit {
    let file = hex(&bytes_of(words));
    let paths: Vec<&str> = (0..count).map(|own| if own == at { &file[..] } else { P }).collect();
    asking(PART, None, &paths)
}

/// The file gets this number at each place, and its neighbours none.
fn gets_by_itself(words: &[u32], number: u32) {
    for (at, count) in places(VISIT_PATHS) {
        let mut owed = [0; VISIT_PATHS];
        owed[at] = number;
        assert_eq!(numbers(&among(at, count, words)), owed, "{} words, {at} of {count}", words.len());
    }
}

#[test]
fn headers_of_any_kind() {
    let path = words(ONE_LABEL);
    let with = |bits: u32| [&[path[0] ^ bits], &path[1..]].concat();
    gets_by_itself(&path, 0);
    (1..16).for_each(|kind| gets_by_itself(&with(kind << 28), 3));
    (14..20).chain(24..28).for_each(|bit| gets_by_itself(&with(1 << bit), 3));
    (20..24).for_each(|bit| gets_by_itself(&with(1 << bit), 9));
    gets_by_itself(&[0xffff_c001], 3);
    gets_by_itself(&[1], 3);
}

#[test]
fn long_files() {
    for (length, number) in
        [(63, 0), (64, 0), (65, 2), (128, 2), (256, 2), (4095, 2), (4096, 2), (4097, 2), (8000, 2)]
    {
        gets_by_itself(&stars(length), number);
    }
    // the bundle has just 8,192 words, or one more
    for (at, count) in places(VISIT_PATHS) {
        let others = 7 * (count - 1);
        let number = |words: usize| numbers(&among(at, count, &stars(words - others)))[at];
        assert_eq!([8191, 8192, 8193, 8194].map(number), [2, 2, 17, 17]);
    }
    // of another kind as well: 2 comes first
    gets_by_itself(&[&[0x7000_0041][..], &[0; 64]].concat(), 2);
}

#[test]
fn replies_at_their_limit() {
    let random = &mut fixed();
    let star = or_of(range(0, 4095), 15, true);
    let visit = |targets| Visit {
        part: dear_part(targets),
        groups: None,
        paths: bytes_of(&[star.clone(), words(EMPTY_WORD), star.clone(), words(ONE_LABEL)].concat()),
    };
    assert_eq!(numbers(&visit(9)), [15, 0, 15, 0]);
    let (numbers, replies) = given(&visit(8));
    assert_eq!((numbers, [0, 2].map(|at| replies[at].len())), (vec![0; 4], [3875; 2]));
    for (length, number) in [(4095, 0), (4096, 0), (4097, 15), (4100, 15)] {
        let (part, path) = asked_for_words(random, length);
        let files = vec![path.clone(), words(NO_OPERAND), path.clone(), path];
        let (numbers, _) = held(random, &visit_of(&(part, None, files)), LEAST_ROOMS);
        assert_eq!(numbers, [number, 9, number, number], "{length} words");
    }
}

/// The part comes first, then the groups, then the bundle, then each path.
#[test]
fn parts_then_groups_then_the_bundle() {
    for (visit, number) in beside_each_other(VISIT_PATHS) {
        match number {
            Some(number) => refused(&visit, number),
            None => assert!(numbers(&visit).contains(&0), "{visit:x?}"),
        }
    }
}

/// Some lengths around the least of each two buffers; any that is short refuses the whole, ahead of all else.
#[test]
fn buffers() {
    let (random, mut met) = (&mut fixed(), BTreeMap::new());
    let lengths = |at: usize| {
        let least = LEAST_ROOMS[at];
        [0, least / 2, least - 1, least, least + 1, 2 * least].map(|length| (at, length))
    };
    let each: Vec<(usize, usize)> = (0..=VISIT_PATHS).flat_map(lengths).collect();
    let [right, part, bundle] = [(PART, EMPTY_WORD), ("10000002", EMPTY_WORD), (PART, "40000000")];
    let visits = [right, part, bundle].map(|(part, last)| asking(part, None, &[P, NO_OPERAND, last]));
    for (one, other) in each.iter().flat_map(|one| each.iter().map(move |other| (one, other))) {
        let mut rooms = LEAST_ROOMS;
        [one, other].into_iter().for_each(|(at, length)| rooms[*at] = *length);
        for (visit, owed) in visits.iter().zip([[0, 9, 0, 0], [4; 4], [17; 4]]) {
            let numbers = held(random, visit, rooms).0;
            assert_eq!(numbers, if is_short(&rooms, &LEAST_ROOMS) { [1; 4] } else { owed }, "{rooms:?}");
            *met.entry(numbers[0]).or_insert(0) += 1;
        }
    }
    // of six lengths three are not short, and of five buffers twenty pairs are of two, in either order; of one, the second counts
    let long = 20 * 9 + 5 * 6 * 3;
    assert_eq!(met, BTreeMap::from([(0, long), (1, 3 * (900 - long)), (4, long), (17, long)]));
}

/// What a visit has, by its numbers too.
type Sort = fn(&Visit, &[u32]) -> bool;

const SORTS: [Named<Sort>; 12] = [
    ("a part without nodes", |visit, _| has(visit, |part| part.nodes.is_empty())),
    ("a part without root", |visit, _| has(visit, |part| part.nodes.iter().all(|node| !node.root))),
    ("no running door", |visit, _| has(visit, |part| part.doors().all(|door| door.stopped))),
    ("groups", |visit, _| visit.groups.is_some()),
    ("a path twice", |visit, _| {
        let paths: BTreeSet<&[u8]> = files(visit).into_iter().collect();
        paths.len() < files(visit).len()
    }),
    ("a file of over 64 words beside a path", |_, numbers| numbers.contains(&2) && numbers.contains(&0)),
    ("a file of another kind beside a path", |_, numbers| numbers.contains(&3) && numbers.contains(&0)),
    ("a reply over its limit beside another", |visit, numbers| {
        (0..files(visit).len()).any(|at| numbers[at] == 0) && numbers.contains(&15)
    }),
    ("an accepted path between refused ones", |_, numbers| {
        numbers.windows(3).any(|own| own[0] != 0 && own[1] == 0 && own[2] != 0)
    }),
    ("a refused path between accepted ones", |visit, numbers| {
        numbers[..files(visit).len()].windows(3).any(|own| own[0] == 0 && own[1] != 0 && own[2] == 0)
    }),
    ("two refused under different numbers", |_, numbers| {
        numbers.iter().filter(|number| **number != 0).collect::<BTreeSet<_>>().len() > 1
    }),
    ("four refused", |_, numbers| !numbers.contains(&0)),
];

fn files(visit: &Visit) -> Vec<&[u8]> {
    split_paths(&visit.paths, VISIT_PATHS).unwrap_or_default()
}

/// Whether the part, if it is accepted, is such.
fn has(visit: &Visit, such: impl Fn(&Part) -> bool) -> bool {
    read_part(&visit.part).map_or(false, |part| such(&part))
}

fn place(what: &str, at: usize, count: usize) -> String {
    format!("{what}, path {} of {count}", at + 1)
}

fn becomes(number: u32) -> &'static str {
    match number {
        0 => "accepted",
        _ => "refused",
    }
}

/// Bundles that are not refused, in buffers that are long enough. Fails if a path was not accepted and refused at each place.
#[test]
fn as_each_path_by_itself() {
    let each =
        places(VISIT_PATHS).flat_map(|(at, count)| [0, 1].map(|number| place(becomes(number), at, count)));
    let sorts = names(&SORTS, |_| true).into_iter().map(str::to_string);
    meet("visits", [cases() * 4 / 100, 20_000], each.chain(sorts), |random| {
        let grouped = random.chance(50);
        let (visit, rooms) = (visit_of(&asked(random, grouped)), long_enough(random));
        let (numbers, _) = held(random, &visit, rooms);
        let count = files(&visit).len();
        let each = (0..count).map(|at| place(becomes(numbers[at]), at, count));
        let sorts = names(&SORTS, |sort| sort(&visit, &numbers));
        each.chain(sorts.into_iter().map(str::to_string)).collect()
    });
}

/// The least buffers, or longer ones.
fn long_enough(random: &mut Random) -> Rooms {
    LEAST_ROOMS.map(|least| least + random.pick(&[0, 0, 0, 1, 4, 5000]))
}

/// Any bytes, in buffers of any lengths; with our groups a visit leaves what it leaves without. The program in which mistakes are made is right
/// without one. Fails if a number was not met.
#[test]
fn whatever_is_refused() {
    let owed = [0, 1, 2, 3, 4, 5, 6, 7, 9, 15, 16, 17];
    meet("any visits", [cases() * 4 / 100, 20_000], owed, |random| {
        let grouped = random.chance(30);
        let (visit, rooms) = (visit(random, grouped), rooms(random, LEAST_ROOMS));
        let answers = held(random, &visit, rooms);
        let visited = visit.evaluate(rooms);
        assert_eq!(RIGHT.answer(&Visiting::new(&visit, rooms, &visited)), answers, "{visit:x?}");
        if !grouped {
            let ours = Visit { groups: Some(bytes_of(&OURS)), ..visit.clone() };
            assert!(ours.leaves(random, rooms) == visit.leaves(random, rooms), "{visit:x?} {rooms:?}");
        }
        answers.0.into_iter().collect::<BTreeSet<_>>().into_iter().collect()
    });
}

/// What a visit leaves of all paths but one, and in the working buffer.
fn without(mut left: Left, at: usize) -> Left {
    left.numbers.remove(at);
    left.buffers.remove(at);
    left
}

/// A file for the place of one of these: another path, one that is refused, or one of the others.
fn another(random: &mut Random, files: &[Vec<u32>], at: usize) -> Vec<u32> {
    match random.below(4) {
        0 => stars(random.between(2, 70)),
        1 => random.pick(files),
        _ => refused_file(random, &files[at]),
    }
}

/// With another file in the place of one, the others' numbers and outputs are the same, by the library alone. Fails if a path at each place was
/// not refused and then accepted, and the other way.
#[test]
fn neighbours_are_left_alone() {
    let owed = places(VISIT_PATHS).flat_map(|(at, count)| {
        ["accepted, then refused", "refused, then accepted"].map(|what| place(what, at, count))
    });
    meet("neighbours", [cases() * 6 / 100, 20_000], owed, |random| {
        let grouped = random.chance(50);
        let (mut asked, rooms) = (asked(random, grouped), long_enough(random));
        let (at, count) = (random.below(asked.2.len()), asked.2.len());
        let before = visit_of(&asked);
        asked.2[at] = another(random, &asked.2, at);
        let after = visit_of(&asked);
        let [one, other] = [&before, &after].map(|visit| visit.leaves(random, rooms));
        let numbers = [one.numbers[at], other.numbers[at]];
        assert!(without(one, at) == without(other, at), "path {at} of {before:x?} and {after:x?}");
        let changed = (numbers[0] == 0) != (numbers[1] == 0);
        changed
            .then(|| place(&format!("{}, then {}", becomes(numbers[0]), becomes(numbers[1])), at, count))
            .into_iter()
            .collect()
    });
}

/// With two files exchanged their numbers and outputs are; without the last one the others' are the same, and its own are zero.
#[test]
fn in_any_order_and_number() {
    let owed = ["exchanged, one accepted", "exchanged, both accepted", "the last left out"];
    meet("orders", [cases() * 2 / 100, 20_000], owed, |random| {
        let (mut asked, rooms) = (asked(random, false), LEAST_ROOMS);
        let count = asked.2.len();
        if count == 1 {
            return vec![];
        }
        let mut left = visit_of(&asked).leaves(random, rooms);
        let (one, other) = (random.below(count), random.below(count));
        asked.2.swap(one, other);
        left.numbers.swap(one, other);
        left.buffers.swap(one, other);
        assert!(visit_of(&asked).leaves(random, rooms) == left, "{one} and {other} of {asked:x?}");
        let accepted = [one, other].into_iter().filter(|at| left.numbers[*at] == 0).count();
        asked.2.pop();
        left.numbers[count - 1] = 0;
        left.buffers[count - 1].fill(0);
        assert!(visit_of(&asked).leaves(random, rooms) == left, "{asked:x?}");
        let exchanged = (one != other && accepted > 0).then(|| owed[accepted - 1]);
        exchanged.into_iter().chain([owed[2]]).collect()
    });
}

/// The lengths of the files, found one after the other; `None` where they do not use up the words.
fn lengths_one_by_one(words: &[u32]) -> Option<Vec<usize>> {
    let (mut left, mut lengths) = (words.len(), vec![]);
    while left > 0 {
        let length = bits(words[words.len() - left], 13, 0) as usize;
        left = left.checked_sub(length).filter(|_| length > 0)?;
        lengths.push(length);
    }
    Some(lengths)
}

/// Bundles of words that all may be headers, for calls that take one to eight paths.
#[test]
fn bundles_taken_apart() {
    let split = (1..=8).flat_map(|most| (1..=most).map(move |count| format!("{count} of at most {most}")));
    let whys = ["length 0", "length past the end", "too many files"].map(str::to_string);
    meet("bundles", [cases() * 20 / 100, 20_000], split.chain(whys), |random| {
        let (words, most) = (some_headers(random), random.between(1, 8));
        let owed = lengths_one_by_one(&words).filter(|lengths| lengths.len() <= most);
        let bundle = bytes_of(&words);
        match split_paths(&bundle, most) {
            Ok(files) => {
                assert_eq!(files.concat(), bundle);
                assert_eq!(Some(files.iter().map(|file| file.len() / 4).collect()), owed);
                vec![format!("{} of at most {most}", files.len())]
            }
            Err(refusal) => {
                assert_eq!((refusal.number, owed), (17, None));
                vec![refusal.why.to_string()]
            }
        }
    });
}

/// A door from which a walk of 5 then 6 goes over a node that is none.
const OVER_A_NODE: &str = "10000005 20010001 30050002 20000002 30060009";
const TWO_LABELS: &str = "40200004 50005005 50006006 60000001";

/// Visits that are made in the least buffers.
fn telling_visits() -> Vec<Visit> {
    let with = |paths: &[&str]| asking(OVER_A_NODE, None, paths);
    let long = |words: usize| with(&[&hex(&bytes_of(&stars(words))), P]);
    let dear = |targets: u32| {
        let star = or_of(range(0, 4095), 15, true);
        let paths = bytes_of(&[&star[..], &star, &words(ONE_LABEL)].concat());
        Visit { part: dear_part(targets), groups: None, paths }
    };
    let mut groups = OURS;
    groups[6] = range(5, 6);
    let by_groups = path_of(&[group(6), group(6), THEN]);
    vec![
        with(&[TWO_LABELS, NO_OPERAND, ONE_LABEL]),
        with(&[TWO_LABELS, TWO_LABELS, EMPTY_WORD, NO_OPERAND]),
        asking(OVER_A_NODE, Some(&groups), &[&by_groups, &by_groups]),
        dear(8),
        dear(9),
        with(&[]),
        Visit { paths: [bytes(P), vec![0]].concat(), ..with(&[]) },
        with(&[P, "40000000", P]),
        with(&[P, "40000003 60000000"]),
        with(&[P, P, P, P, P]),
        long(65),
        long(4096),
        long(8185),
        long(8186),
        with(&[P, "10000001"]),
        with(&["40004001", P]),
        with(&["41000001", P]),
        asking("10000002", None, &["40000000"]),
        Visit { groups: Some(vec![0]), ..with(&["40000000"]) },
    ]
}

/// Visits in other buffers.
fn telling_rooms() -> Vec<(Visit, Rooms)> {
    let with = |at: usize, length: usize| {
        let mut rooms = LEAST_ROOMS;
        rooms[at] = length;
        rooms
    };
    let one = asking(PART, None, &[P]);
    let short = (0..=VISIT_PATHS).map(|at| (one.clone(), with(at, LEAST_ROOMS[at] - 1)));
    let others = [
        (one.clone(), LEAST_ROOMS.map(|least| least + 1)),
        (one.clone(), [16_383, 16_385, 16_384, 16_384, 32_768]),
        (asking(PART, None, &["40000000"]), with(3, 0)),
        (asking("10000002", None, &[P]), with(3, 0)),
    ];
    short.chain(others).collect()
}

/// A few visits find each mistake out.
#[test]
fn mistakes() {
    let least = telling_visits().into_iter().map(|visit| (visit, LEAST_ROOMS));
    let found = least.chain(telling_rooms()).flat_map(|(visit, rooms)| {
        held(&mut fixed(), &visit, rooms);
        found_out_by_visit(&visit, rooms, &visit.evaluate(rooms))
    });
    let (found, all): (BTreeSet<_>, BTreeSet<_>) = (found.collect(), in_visits(true).into_iter().collect());
    assert_eq!(all.difference(&found).collect::<Vec<_>>(), Vec::<&&str>::new(), "not found out");
}
