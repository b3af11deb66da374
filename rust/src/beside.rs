//! One call, made to the library in guarded buffers and given to the evaluation, and the two compared.

use crate::calls;
use crate::evaluation::dearest::{Counts, Rooms};
use crate::evaluation::desks::DESKS;
use crate::evaluation::generator::Source;
use crate::evaluation::part::Part;
use crate::evaluation::visit::{self, split_paths, VISIT_PATHS};
use crate::evaluation::words::*;
use crate::evaluation::{self, BothFiles, Generated, Outcome, Room, Visited};
use crate::random::Random;

/// A call that reads a path is made with groups or without. The one that checks a walk has no output: its outcome is the word that it hands out.
#[derive(Clone, Debug)]
pub enum Call {
    OldSearch { whole: Vec<u8>, groups: Option<Vec<u8>>, path: Vec<u8> },
    Cut { whole: Vec<u8>, cuts: Vec<u8>, site: u32 },
    FirstReply { part: Vec<u8>, groups: Option<Vec<u8>>, path: Vec<u8> },
    CallList { bundle: Vec<u8> },
    SecondReply { part: Vec<u8>, groups: Option<Vec<u8>>, path: Vec<u8>, calls: Vec<u8> },
    Join { bundle: Vec<u8> },
    Walk { whole: Vec<u8>, groups: Option<Vec<u8>>, path: Vec<u8>, node: u32 },
    CheckWalk { whole: Vec<u8>, groups: Option<Vec<u8>>, path: Vec<u8>, node: u32, walk: Vec<u8> },
}

/// First replies asked for in one visit, with groups or without: a bundle of paths, each answered in an output of its own.
#[derive(Clone, Debug)]
pub struct Visit {
    pub part: Vec<u8>,
    pub groups: Option<Vec<u8>>,
    pub paths: Vec<u8>,
}

/// The same for up to eight desks: each has a path of the bundle, and their replies share one output.
#[derive(Clone, Debug)]
pub struct Desks(pub Visit);

/// What a call leaves: its numbers, of which it mostly has one, and what is in the word that it is lent, if any, for a state, a count or a yes,
/// in its outputs, and last in its working buffer.
#[derive(PartialEq, Eq, Debug)]
pub struct Left {
    pub numbers: Vec<u32>,
    pub word: Option<u32>,
    pub buffers: Vec<Vec<u8>>,
}

impl Left {
    /// With a file in each of the first buffers, and zeros past it and in the others.
    pub fn owed(numbers: &[u32], files: &[Vec<u32>], lengths: &[usize]) -> Left {
        let left = |(at, length): (usize, &usize)| {
            let mut bytes = files.get(at).map_or(vec![], |words| bytes_of(words));
            bytes.resize(*length, 0);
            bytes
        };
        let buffers = lengths.iter().enumerate().map(left).collect();
        Left { numbers: numbers.to_vec(), word: None, buffers }
    }

    /// What a call with one result owes.
    pub fn owed_one(outcome: &Outcome, room: Room) -> Left {
        let (number, words) = answer(outcome);
        Left::owed(&[number], &[words], &[room.out, room.work])
    }

    /// What the call that hands out the count of its result's words owes.
    pub fn owed_counted(outcome: &Outcome, room: Room) -> Left {
        let count = outcome.as_ref().map_or(0, |words| words.len() as u32);
        Left { word: Some(count), ..Left::owed_one(outcome, room) }
    }

    /// What the call that says yes or no owes.
    pub fn owed_said(outcome: &Outcome, work: usize) -> Left {
        let (number, words) = answer(outcome);
        Left { word: Some(words.first().copied().unwrap_or(0)), ..Left::owed(&[number], &[], &[work]) }
    }

    /// What the call with two results owes.
    pub fn owed_both(outcome: &BothFiles, rooms: Rooms) -> Left {
        match outcome {
            Ok(files) => Left::owed(&[0], files, &rooms),
            Err(refusal) => Left::owed(&[refusal.number], &[], &rooms),
        }
    }

    /// What the call that is lent a state owes.
    pub fn owed_drawn(outcome: &Generated, source: &Source, room: Room) -> Left {
        let (number, words, state) = match outcome {
            Ok((words, state)) => (0, words.clone(), *state),
            Err(refusal) => (refusal.number, vec![], source.state),
        };
        Left { word: Some(state), ..Left::owed(&[number], &[words], &[room.out, room.work]) }
    }

    /// What a visit owes.
    pub fn owed_visit(visited: &Visited, rooms: visit::Rooms) -> Left {
        let (numbers, files) = answers(visited, VISIT_PATHS);
        Left::owed(&numbers, &files, &rooms)
    }

    /// What the call for desks owes.
    pub fn owed_desks(visited: &Visited, room: Room) -> Left {
        let (numbers, files) = answers(visited, DESKS);
        Left::owed(&numbers, &[files.concat()], &[room.out, room.work])
    }

    /// The number of a call that has one.
    pub fn number(&self) -> u32 {
        self.numbers[0]
    }

    /// The words of a buffer, without zeros at its end.
    fn told(&self, at: usize) -> String {
        let bytes = &self.buffers[at];
        hex(&bytes[..bytes.iter().rposition(|byte| *byte != 0).map_or(0, |last| last + 1)])
    }
}

/// The numbers of at most so many paths as the library gives them, each in a byte of its own, the first path's in the lowest.
pub fn numbers_of(given: u64, most: usize) -> Vec<u32> {
    given.to_le_bytes()[..most].iter().map(|byte| u32::from(*byte)).collect()
}

/// Makes a call in buffers of garbage. What it leaves, and whether its inputs and all guards stand.
fn made_in<const N: usize>(
    random: &mut Random,
    inputs: &[&[u8]],
    lengths: [usize; N],
    make: impl FnOnce(&[&[u8]], &mut [Guarded; N]) -> Vec<u32>,
) -> (Left, bool) {
    let given: Vec<Guarded> = inputs.iter().map(|bytes| Guarded::input(random, bytes)).collect();
    let mut lent = lengths.map(|length| Guarded::garbage(random, length));
    let numbers = make(&given.iter().map(Guarded::inner).collect::<Vec<_>>(), &mut lent);
    let kept = given.iter().zip(inputs).all(|(kept, bytes)| kept.inner() == *bytes);
    let guarded = given.iter().chain(&lent).all(Guarded::guards_stand);
    let buffers = lent.iter().map(|buffer| buffer.inner().to_vec()).collect();
    (Left { numbers, word: None, buffers }, kept && guarded)
}

/// The same of a call that is lent a word too, which has words of garbage around it.
fn made_with_word<const N: usize>(
    random: &mut Random,
    word: u32,
    inputs: &[&[u8]],
    lengths: [usize; N],
    make: impl FnOnce(&mut u32, &[&[u8]], &mut [Guarded; N]) -> Vec<u32>,
) -> (Left, bool) {
    let mut lent = [random.word(), word, random.word()];
    let [before, _, behind] = lent;
    let (left, stands) =
        made_in(random, inputs, lengths, |given, buffers| make(&mut lent[1], given, buffers));
    (Left { word: Some(lent[1]), ..left }, stands && lent == [before, lent[1], behind])
}

impl Call {
    fn name(&self) -> &'static str {
        match self {
            Call::OldSearch { .. } => "old search",
            Call::Cut { .. } => "cut",
            Call::FirstReply { .. } => "first reply",
            Call::CallList { .. } => "call list",
            Call::SecondReply { .. } => "second reply",
            Call::Join { .. } => "join",
            Call::Walk { .. } => "walk",
            Call::CheckWalk { .. } => "check walk",
        }
    }

    /// The least buffers that do not give 1.
    pub fn least_room(&self) -> Room {
        let limit = match self {
            Call::OldSearch { .. } | Call::Join { .. } => BUNDLE_LIMIT,
            Call::CheckWalk { .. } => 0,
            _ => FILE_LIMIT,
        };
        Room { out: 4 * limit, work: WORK_BYTES }
    }

    /// The same call with these groups, or without any; `None` of one that reads no path.
    pub fn with(&self, other: Option<&[u8]>) -> Option<Call> {
        let mut call = self.clone();
        match &mut call {
            Call::OldSearch { groups, .. }
            | Call::FirstReply { groups, .. }
            | Call::SecondReply { groups, .. }
            | Call::Walk { groups, .. }
            | Call::CheckWalk { groups, .. } => *groups = other.map(<[u8]>::to_vec),
            _ => return None,
        }
        Some(call)
    }

    /// The same call over another part; `None` of one that reads none.
    pub fn over(&self, other: &Part) -> Option<Call> {
        let mut call = self.clone();
        match &mut call {
            Call::FirstReply { part, .. } | Call::SecondReply { part, .. } => {
                *part = bytes_of(&other.words());
            }
            _ => return None,
        }
        Some(call)
    }

    /// The call that checks these bytes, by the call for a walk.
    pub fn checking(&self, walk: &[u8]) -> Call {
        match self.clone() {
            Call::Walk { whole, groups, path, node } => {
                Call::CheckWalk { whole, groups, path, node, walk: walk.to_vec() }
            }
            _ => panic!("no call for a walk"),
        }
    }

    /// The groups, if it is made with any, and the path; `None` of a call that reads no path.
    pub fn groups_and_path(&self) -> Option<(Option<&[u8]>, &[u8])> {
        match self {
            Call::OldSearch { groups, path, .. }
            | Call::FirstReply { groups, path, .. }
            | Call::SecondReply { groups, path, .. }
            | Call::Walk { groups, path, .. }
            | Call::CheckWalk { groups, path, .. } => Some((groups.as_deref(), path)),
            _ => None,
        }
    }

    fn inputs(&self) -> Vec<&[u8]> {
        let inputs = match self {
            Call::OldSearch { whole, groups, path } | Call::Walk { whole, groups, path, .. } => {
                [Some(whole), groups.as_ref(), Some(path), None]
            }
            Call::CheckWalk { whole, groups, path, walk, .. } => {
                [Some(whole), groups.as_ref(), Some(path), Some(walk)]
            }
            Call::Cut { whole, cuts, .. } => [Some(whole), Some(cuts), None, None],
            Call::FirstReply { part, groups, path } => [Some(part), groups.as_ref(), Some(path), None],
            Call::SecondReply { part, groups, path, calls } => {
                [Some(part), groups.as_ref(), Some(path), Some(calls)]
            }
            Call::CallList { bundle } | Call::Join { bundle } => [Some(bundle), None, None, None],
        };
        inputs.into_iter().flatten().map(Vec::as_slice).collect()
    }

    pub fn evaluate(&self, room: Room) -> Outcome {
        match self {
            Call::OldSearch { whole, groups, path } => {
                evaluation::old_search(whole, groups.as_deref(), path, room)
            }
            Call::Cut { whole, cuts, site } => evaluation::cut(whole, cuts, *site, room),
            Call::FirstReply { part, groups, path } => {
                evaluation::first_reply(part, groups.as_deref(), path, room)
            }
            Call::CallList { bundle } => evaluation::call_list(bundle, room),
            Call::SecondReply { part, groups, path, calls } => {
                evaluation::second_reply(part, groups.as_deref(), path, calls, room)
            }
            Call::Join { bundle } => evaluation::join(bundle, room),
            Call::Walk { whole, groups, path, node } => {
                evaluation::walk(whole, groups.as_deref(), path, *node, room)
            }
            Call::CheckWalk { whole, groups, path, node, walk } => {
                evaluation::check_walk(whole, groups.as_deref(), path, *node, walk, room.work)
            }
        }
    }

    /// What it owes by its outcome.
    pub fn owed(&self, outcome: &Outcome, room: Room) -> Left {
        match self {
            Call::CheckWalk { .. } => Left::owed_said(outcome, room.work),
            _ => Left::owed_one(outcome, room),
        }
    }

    /// A call that has groups has an input more.
    fn make(&self, given: &[&[u8]], out: &mut [u8], work: &mut [u8]) -> u32 {
        match (self, given) {
            (Call::OldSearch { .. }, [whole, path]) => calls::old_search(whole, path, out, work),
            (Call::OldSearch { .. }, [whole, groups, path]) => {
                calls::old_search_grouped(whole, groups, path, out, work)
            }
            (Call::Cut { site, .. }, [whole, cuts]) => calls::cut(whole, cuts, *site, out, work),
            (Call::FirstReply { .. }, [part, path]) => calls::first_reply(part, path, out, work),
            (Call::FirstReply { .. }, [part, groups, path]) => {
                calls::first_reply_grouped(part, groups, path, out, work)
            }
            (Call::SecondReply { .. }, [part, path, list]) => {
                calls::second_reply(part, path, list, out, work)
            }
            (Call::SecondReply { .. }, [part, groups, path, list]) => {
                calls::second_reply_grouped(part, groups, path, list, out, work)
            }
            (Call::CallList { .. }, [bundle]) => calls::call_list(bundle, out, work),
            (Call::Join { .. }, [bundle]) => calls::join(bundle, out, work),
            (Call::Walk { node, .. }, [whole, path]) => calls::walk(whole, path, *node, out, work),
            (Call::Walk { node, .. }, [whole, groups, path]) => {
                calls::walk_grouped(whole, groups, path, *node, out, work)
            }
            _ => unreachable!("inputs of another call"),
        }
    }

    /// Makes the call that says yes or no, with garbage in the word for that.
    fn say(&self, random: &mut Random, node: u32, work: usize) -> (Left, bool) {
        let garbage = random.word();
        made_with_word(random, garbage, &self.inputs(), [work], |yes, given, [work]| {
            let work = work.inner_mut();
            vec![match given {
                [whole, path, walk] => calls::check_walk(whole, path, node, walk, yes, work),
                [whole, groups, path, walk] => {
                    calls::check_walk_grouped(whole, groups, path, node, walk, yes, work)
                }
                _ => unreachable!("inputs of another call"),
            }]
        })
    }

    /// Makes the call in buffers of garbage. Panics where it changed an input or a guard.
    pub fn leaves(&self, random: &mut Random, room: Room) -> Left {
        let (left, stands) = match self {
            Call::CheckWalk { node, .. } => self.say(random, *node, room.work),
            _ => made_in(random, &self.inputs(), [room.out, room.work], |given, [out, work]| {
                vec![self.make(given, out.inner_mut(), work.inner_mut())]
            }),
        };
        assert!(stands, "{}, an input or a guard changed", self.told(room, &left));
        left
    }

    /// What both calls leave in buffers of the same lengths. Panics where they differ.
    pub fn leaves_as(&self, other: &Call, random: &mut Random, room: Room) -> Left {
        let [left, others] = [self, other].map(|call| call.leaves(random, room));
        assert!(left == others, "{}\nand of {}", self.told(room, &left), other.told(room, &others));
        left
    }

    /// Makes the call and holds it to the evaluation's outcome, which is handed back. Panics where they differ.
    pub fn check(&self, random: &mut Random, room: Room) -> Outcome {
        let outcome = self.evaluate(room);
        let left = self.leaves(random, room);
        let right = left == self.owed(&outcome, room);
        assert!(right, "{}, the evaluation {outcome:x?}", self.told(room, &left));
        outcome
    }

    /// The site or node that it is handed, if any.
    fn handed(&self) -> Option<u32> {
        match self {
            Call::Cut { site: number, .. }
            | Call::Walk { node: number, .. }
            | Call::CheckWalk { node: number, .. } => Some(*number),
            _ => None,
        }
    }

    /// The call with its inputs and what the library gave.
    pub fn told(&self, room: Room, left: &Left) -> String {
        let inputs: Vec<String> = self.inputs().into_iter().map(hex).collect();
        let grouped = matches!(self.groups_and_path(), Some((Some(_), _)));
        format!(
            "{}{}, {room:?}, inputs:\n{}\nhanded {:?}: the library gives {}, {:?} and {}",
            self.name(),
            if grouped { " grouped" } else { "" },
            inputs.join("\n"),
            self.handed(),
            left.number(),
            left.word,
            left.told(0),
        )
    }
}

impl Visit {
    /// The visit for the path of a first reply alone; `None` of another call, or where the path's bytes are not taken for just one file.
    pub fn of(call: &Call) -> Option<Visit> {
        match call {
            Call::FirstReply { part, groups, path } if split_paths(path, 1).is_ok() => {
                Some(Visit { part: part.clone(), groups: groups.clone(), paths: path.clone() })
            }
            _ => None,
        }
    }

    /// The calls for each path by itself; none where the bundle is refused.
    pub fn singles(&self) -> Vec<Call> {
        self.singles_of(VISIT_PATHS)
    }

    /// The same by a call that takes so many paths.
    fn singles_of(&self, most: usize) -> Vec<Call> {
        let single = |path: &[u8]| {
            let (part, groups, path) = (self.part.clone(), self.groups.clone(), path.to_vec());
            Call::FirstReply { part, groups, path }
        };
        split_paths(&self.paths, most).map_or(vec![], |files| files.into_iter().map(single).collect())
    }

    fn inputs(&self) -> Vec<&[u8]> {
        let inputs = [Some(&self.part), self.groups.as_ref(), Some(&self.paths)];
        inputs.into_iter().flatten().map(Vec::as_slice).collect()
    }

    pub fn evaluate(&self, rooms: visit::Rooms) -> Visited {
        evaluation::four_replies(&self.part, self.groups.as_deref(), &self.paths, rooms)
    }

    /// Makes the call in buffers of garbage. Panics where it changed an input or a guard.
    pub fn leaves(&self, random: &mut Random, rooms: visit::Rooms) -> Left {
        let (left, stands) = made_in(random, &self.inputs(), rooms, |given, lent| {
            let [one, two, three, four, work] = lent;
            let [one, two, three, four, work] = [one, two, three, four, work].map(Guarded::inner_mut);
            let given = match given {
                [part, paths] => calls::four_replies(part, paths, one, two, three, four, work),
                [part, groups, paths] => {
                    calls::four_replies_grouped(part, groups, paths, one, two, three, four, work)
                }
                _ => unreachable!("inputs of another call"),
            };
            numbers_of(given.into(), VISIT_PATHS)
        });
        assert!(stands, "{}, an input or a guard changed", self.told(rooms, &left));
        left
    }

    /// Makes the call and holds it to the evaluation's outcomes, which are handed back. Panics where they differ.
    pub fn check(&self, random: &mut Random, rooms: visit::Rooms) -> Visited {
        let visited = self.evaluate(rooms);
        let left = self.leaves(random, rooms);
        let right = left == Left::owed_visit(&visited, rooms);
        assert!(right, "{}, the evaluation {visited:x?}", self.told(rooms, &left));
        visited
    }

    /// The visit with its inputs and what the library gave.
    pub fn told(&self, rooms: visit::Rooms, left: &Left) -> String {
        let inputs: Vec<String> = self.inputs().into_iter().map(hex).collect();
        let outputs: Vec<String> = (0..VISIT_PATHS).map(|at| left.told(at)).collect();
        format!(
            "four replies, {rooms:?}, inputs:\n{}\nthe library gives {:?} and\n{}",
            inputs.join("\n"),
            left.numbers,
            outputs.join("\n"),
        )
    }
}

impl Desks {
    /// One desk with the path of a first reply, in the same way.
    pub fn of(call: &Call) -> Option<Desks> {
        Visit::of(call).map(Desks)
    }

    /// The calls for each path by itself; none where the bundle is refused.
    pub fn singles(&self) -> Vec<Call> {
        self.0.singles_of(DESKS)
    }

    pub fn evaluate(&self, room: Room) -> Visited {
        evaluation::eight_replies(&self.0.part, self.0.groups.as_deref(), &self.0.paths, room)
    }

    /// Makes the call in buffers of garbage. Panics where it changed an input or a guard.
    pub fn leaves(&self, random: &mut Random, room: Room) -> Left {
        let rooms = [room.out, room.work];
        let (left, stands) = made_in(random, &self.0.inputs(), rooms, |given, [out, work]| {
            let [out, work] = [out, work].map(Guarded::inner_mut);
            let given = match given {
                [part, paths] => calls::eight_replies(part, paths, out, work),
                [part, groups, paths] => calls::eight_replies_grouped(part, groups, paths, out, work),
                _ => unreachable!("inputs of another call"),
            };
            numbers_of(given, DESKS)
        });
        assert!(stands, "{}, an input or a guard changed", self.told(room, &left));
        left
    }

    /// Makes the call and holds it to the evaluation's outcomes, which are handed back. Panics where they differ.
    pub fn check(&self, random: &mut Random, room: Room) -> Visited {
        let visited = self.evaluate(room);
        let left = self.leaves(random, room);
        let right = left == Left::owed_desks(&visited, room);
        assert!(right, "{}, the evaluation {visited:x?}", self.told(room, &left));
        visited
    }

    /// The call with its inputs and what the library gave.
    pub fn told(&self, room: Room, left: &Left) -> String {
        let inputs: Vec<String> = self.0.inputs().into_iter().map(hex).collect();
        format!(
            "eight replies, {room:?}, inputs:\n{}\nthe library gives {:?} and\n{}",
            inputs.join("\n"),
            left.numbers,
            left.told(0),
        )
    }
}

/// Makes the call for the dearest files and holds it to the evaluation's outcome, which is handed back. Panics where they differ.
pub fn check_dearest(random: &mut Random, counts: Counts, rooms: Rooms) -> BothFiles {
    let [doors, targets, labels] = counts;
    let (left, stands) = made_in(random, &[], rooms, |_, [part, path, work]| {
        vec![calls::dearest(doors, targets, labels, part.inner_mut(), path.inner_mut(), work.inner_mut())]
    });
    let outcome = evaluation::dearest(counts, rooms);
    assert!(
        stands && left == Left::owed_both(&outcome, rooms),
        "dearest {counts:?}, {rooms:?}: the library gives {}, part\n{}\nand path\n{}, the evaluation {outcome:x?}",
        left.number(),
        left.told(0),
        left.told(1),
    );
    outcome
}

/// Makes the call that draws a plant and holds it to the evaluation's outcome, which is handed back. Panics where they differ.
pub fn check_generate(random: &mut Random, source: &Source, room: Room) -> Generated {
    let lengths = [room.out, room.work];
    let (left, stands) = made_with_word(random, source.state, &[], lengths, |state, _, [out, work]| {
        vec![calls::generate(state, source.nodes, source.edges, out.inner_mut(), work.inner_mut())]
    });
    let outcome = evaluation::generate(source, room);
    assert!(
        stands && left == Left::owed_drawn(&outcome, source, room),
        "generate {source:x?}, {room:?}: the library gives {}, state {:x?} and {}, the evaluation {outcome:x?}",
        left.number(),
        left.word,
        left.told(0),
    );
    outcome
}

/// Makes the call for a whole from triples and holds it to the evaluation's outcome, which is handed back. Panics where they differ.
pub fn check_from_triples(random: &mut Random, triples: &[u8], room: Room) -> Outcome {
    let (left, stands) = made_in(random, &[triples], [room.out, room.work], |given, [out, work]| {
        vec![calls::from_triples(given[0], out.inner_mut(), work.inner_mut())]
    });
    let outcome = evaluation::from_triples(triples, room);
    assert!(
        stands && left == Left::owed_one(&outcome, room),
        "from triples, {room:?}, input:\n{}\nthe library gives {} and {}, the evaluation {outcome:x?}",
        hex(triples),
        left.number(),
        left.told(0),
    );
    outcome
}

/// The same of the call for triples from a whole, with garbage in the word for the count.
pub fn check_to_triples(random: &mut Random, whole: &[u8], room: Room) -> Outcome {
    let (garbage, lengths) = (random.word(), [room.out, room.work]);
    let (left, stands) = made_with_word(random, garbage, &[whole], lengths, |count, given, [out, work]| {
        vec![calls::to_triples(given[0], out.inner_mut(), count, work.inner_mut())]
    });
    let outcome = evaluation::to_triples(whole, room);
    assert!(
        stands && left == Left::owed_counted(&outcome, room),
        "to triples, {room:?}, input:\n{}\nthe library gives {}, count {:?} and {}, the evaluation {outcome:x?}",
        hex(whole),
        left.number(),
        left.word,
        left.told(0),
    );
    outcome
}

/// An outcome as number and words; a refusal has none.
pub fn answer(outcome: &Outcome) -> (u32, Vec<u32>) {
    match outcome {
        Ok(words) => (0, words.clone()),
        Err(refusal) => (refusal.number, vec![]),
    }
}

/// The numbers and the words of a call for at most so many paths, for each: past the last path 0 and none, and a refusal of the whole has its
/// number for all.
pub fn answers(visited: &Visited, most: usize) -> (Vec<u32>, Vec<Vec<u32>>) {
    let (all, outcomes) = match visited {
        Ok(outcomes) => (0, &outcomes[..]),
        Err(refusal) => (refusal.number, &[][..]),
    };
    let (mut numbers, mut files): (Vec<_>, Vec<_>) = outcomes.iter().map(answer).unzip();
    numbers.resize(most, all);
    files.resize(most, vec![]);
    (numbers, files)
}

pub fn hex(bytes: &[u8]) -> String {
    let word = |four: &[u8]| four.iter().rev().map(|byte| format!("{byte:02x}")).collect::<String>();
    bytes.chunks(4).map(word).collect::<Vec<_>>().join(" ")
}

const GUARD: usize = 24;

/// Bytes with a guard before and behind, at any alignment.
struct Guarded {
    bytes: Vec<u8>,
    start: usize,
    end: usize,
    before: Vec<u8>,
    behind: Vec<u8>,
}

impl Guarded {
    fn garbage(random: &mut Random, length: usize) -> Guarded {
        let start = GUARD + random.below(8);
        let end = start + length;
        let mut bytes = vec![0; end + GUARD];
        random.fill(&mut bytes);
        let (before, behind) = (bytes[..start].to_vec(), bytes[end..].to_vec());
        Guarded { bytes, start, end, before, behind }
    }

    fn input(random: &mut Random, content: &[u8]) -> Guarded {
        let mut guarded = Guarded::garbage(random, content.len());
        guarded.inner_mut().copy_from_slice(content);
        guarded
    }

    fn inner(&self) -> &[u8] {
        &self.bytes[self.start..self.end]
    }

    fn inner_mut(&mut self) -> &mut [u8] {
        &mut self.bytes[self.start..self.end]
    }

    fn guards_stand(&self) -> bool {
        self.bytes[..self.start] == self.before && self.bytes[self.end..] == self.behind
    }
}
