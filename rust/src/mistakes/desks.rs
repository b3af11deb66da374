//! Programs that go wrong about one reply for eight askers: which replies are put in, where they stand in the output, what a desk gets whose
//! reply has no room, and what is left. What any call for a bundle of paths may go wrong about is in `paths.rs`.

use super::leaving::*;
use super::paths::Other::{Counted, Numbered};
use super::paths::{self, in_bundles_of_paths, programs, Asked, File};
use super::{names, Named};
use crate::beside::{answers, Desks, Left};
use crate::evaluation::desks::{sizes, DESKS, LEAST_ROOM, SHORT_LIMIT, WITHOUT_ROOM};
use crate::evaluation::words::*;
use crate::evaluation::{Outcome, Room, Visited};
use crate::generate::calls::is_short;

/// Whether each reply is in. That of a refused path has no words.
type Within = Vec<bool>;

/// A program that answers desks.
#[derive(Clone, Copy)]
pub struct Program {
    /// Reads the bundle and answers each path.
    paths: paths::Program,
    /// Which replies are put in.
    chosen: fn(&[Outcome]) -> Within,
    /// The number of a desk whose reply is not.
    left_out: u32,
    /// The words of the output.
    put: fn(&[Outcome], &[bool]) -> File,
}

/// Without a mistake: the words that are taken are counted in the order of asking, all short ones from the beginning.
pub const RIGHT: Program = Program {
    paths: paths::RIGHT,
    chosen: |replies| {
        let sizes = sizes(replies);
        choose(&sizes, short, asked(&sizes), |within, at| fits(&sizes, at, |other| within[other]))
    },
    left_out: 15,
    put: |replies, within| one_by_one(replies, within, |words| words.clone()),
};

/// What a program does in another way.
pub enum Other {
    Chosen(fn(&[Outcome]) -> Within),
    LeftOut(u32),
    Put(fn(&[Outcome], &[bool]) -> File),
}

use Other::*;

/// Desks in their buffers.
pub struct Asking<'a> {
    asked: Asked<'a>,
    room: Room,
    /// What is right in buffers that are long enough.
    right: Visited,
}

/// What is left by a program in its buffers.
pub type Leaving = fn(&Asking) -> Left;

/// Which replies are taken for short, and what is taken for the limit. A program that takes a long reply for short may put in more than there is
/// room for.
pub const LINES: [Named<Other>; 10] = [
    ("512 words taken for long", Chosen(|replies| by_lines(replies, |words| words < 512, FILE_LIMIT))),
    ("513 words taken for short", Chosen(|replies| by_lines(replies, |words| words <= 513, FILE_LIMIT))),
    ("over 512 bytes taken for long", Chosen(|replies| by_lines(replies, |words| words <= 128, FILE_LIMIT))),
    ("all taken for long", Chosen(|replies| by_lines(replies, |_| false, FILE_LIMIT))),
    ("all taken for short", Chosen(|replies| by_lines(replies, |_| true, FILE_LIMIT))),
    ("a limit of 4,095 words", Chosen(|replies| by_lines(replies, short, FILE_LIMIT - 1))),
    ("a limit of 4,097 words", Chosen(|replies| by_lines(replies, short, FILE_LIMIT + 1))),
    ("headers not counted", Chosen(|replies| by_sizes(replies, |words| words - 1))),
    ("a word more counted for each reply", Chosen(|replies| by_sizes(replies, |words| words + 1))),
    (
        "512 words counted for each short one",
        Chosen(|replies| by_sizes(replies, |words| words.max(SHORT_LIMIT))),
    ),
];

/// What a long reply is held to fit beside.
pub const ROOMS: [Named<Other>; 14] = [
    ("short ones asked later not counted", Chosen(|replies| beside(replies, |_, other, at| other < at))),
    (
        "short ones asked before not counted",
        Chosen(|replies| beside(replies, |words, other, at| !short(words) || other > at)),
    ),
    ("short ones not counted", Chosen(|replies| beside(replies, |words, _, _| !short(words)))),
    ("long ones not counted", Chosen(|replies| beside(replies, |words, _, _| short(words)))),
    (
        "the last long one alone counted",
        Chosen(|replies| {
            by_order(replies, asked, |sizes, within, at| {
                let last = (0..at).rev().find(|other| within[*other] && !short(sizes[*other]));
                fits(sizes, at, |other| short(sizes[other]) || Some(other) == last)
            })
        }),
    ),
    (
        "itself not counted",
        Chosen(|replies| {
            by_order(replies, asked, |sizes, within, at| {
                together(sizes, at, |other| within[other]) - sizes[at] < FILE_LIMIT
            })
        }),
    ),
    ("the first long one always in", Chosen(|replies| or_one_long(replies, |long| long.first()))),
    ("the last long one always in", Chosen(|replies| or_one_long(replies, |long| long.last()))),
    ("a word of room for a refused path", Chosen(|replies| with_room_for_refused(replies, 1))),
    ("512 words of room for a refused path", Chosen(|replies| with_room_for_refused(replies, SHORT_LIMIT))),
    (
        "no room behind a reply over its limit",
        Chosen(|replies| {
            let over = replies.iter().position(over_its_limit).unwrap_or(replies.len());
            by_order(replies, asked, |sizes, within, at| at < over && fits(sizes, at, |other| within[other]))
        }),
    ),
    (
        "512 words kept for each desk behind",
        Chosen(|replies| {
            by_order(replies, asked, |sizes, within, at| {
                let before = together(sizes, at, |other| other < at && within[other]);
                before + SHORT_LIMIT * (sizes.len() - 1 - at) <= FILE_LIMIT
            })
        }),
    ),
    (
        "512 words kept for each of eight desks",
        Chosen(|replies| {
            by_order(replies, asked, |sizes, within, at| {
                let before = together(sizes, at, |other| other < at && within[other]);
                before + SHORT_LIMIT * (DESKS - 1 - at) <= FILE_LIMIT
            })
        }),
    ),
    (
        "a reply that is put in twice counted once",
        Chosen(|replies| {
            by_order(replies, asked, |sizes, within, at| {
                let again = |other: usize| replies[..other].contains(&replies[other]) && sizes[other] > 0;
                fits(sizes, at, |other| within[other] && !again(other) && replies[other] != replies[at])
            })
        }),
    ),
];

/// In which order long replies are looked at, and which of them are preferred.
pub const ORDERS: [Named<Other>; 9] = [
    ("long ones from the last asked to the first", Chosen(|replies| in_order(replies, |_, at| DESKS - at))),
    ("the shortest long ones first", Chosen(|replies| in_order(replies, |words, _| words))),
    ("the longest ones first", Chosen(|replies| in_order(replies, |words, _| FILE_LIMIT - words))),
    (
        "a long one without room stops those behind it",
        Chosen(|replies| {
            by_order(replies, asked, |sizes, within, at| {
                (0..at).all(|other| within[other]) && fits(sizes, at, |other| within[other])
            })
        }),
    ),
    (
        "only one long one in",
        Chosen(|replies| {
            by_order(replies, asked, |sizes, within, at| {
                let other_long = (0..at).any(|other| within[other] && !short(sizes[other]));
                !other_long && fits(sizes, at, |other| within[other])
            })
        }),
    ),
    ("no long one in", Chosen(|replies| by_order(replies, asked, |_, _, _| false))),
    (
        "no long one in unless all are",
        Chosen(|replies| by_order(replies, asked, |sizes, _, _| sizes.iter().sum::<usize>() <= FILE_LIMIT)),
    ),
    ("as many words in as can be", Chosen(|replies| most(replies, |words| words))),
    ("as many replies in as can be", Chosen(|replies| most(replies, |_| 1))),
];

/// What a desk gets whose reply has no room.
pub const LEFT_OUT: [Named<Other>; 4] = [
    ("0 for a reply without room", LeftOut(0)),
    ("1 for a reply without room", LeftOut(1)),
    ("2 for a reply without room", LeftOut(2)),
    ("17 for a reply without room", LeftOut(17)),
];

/// How many desks may ask, and where their numbers are: as if they were four, or those that are put in came first.
pub const EIGHT: [Named<paths::Other>; 6] = [
    ("more than four desks refused", Counted(|files, _| if files.len() > 4 { Err(17) } else { Ok(files) })),
    ("the first four desks alone answered", Counted(|files, _| Ok(files.into_iter().take(4).collect()))),
    ("the numbers of four desks alone", Numbered(|numbers, _| numbers[4..].fill(0))),
    ("the numbers of four desks twice", Numbered(|numbers, _| numbers.copy_within(..4, 4))),
    ("the upper four numbers below", Numbered(|numbers, _| numbers.rotate_left(4))),
    (
        "the numbers of those put in first",
        Numbered(|numbers, paths| numbers[..paths].sort_by_key(|number| *number != 0)),
    ),
];

/// Where the replies stand, and what stands there beside them.
pub const PLACES: [Named<Other>; 22] = [
    ("the last asked first", Put(|replies, within| in_places(replies, within, |at, _| DESKS - at))),
    ("the shortest first", Put(|replies, within| in_places(replies, within, |_, words| words.len()))),
    (
        "the longest first",
        Put(|replies, within| in_places(replies, within, |_, words| FILE_LIMIT - words.len())),
    ),
    (
        "long ones behind the short ones",
        Put(|replies, within| in_places(replies, within, |_, words| usize::from(!short(words.len())))),
    ),
    (
        "short ones behind the long ones",
        Put(|replies, within| in_places(replies, within, |_, words| usize::from(short(words.len())))),
    ),
    (
        "each reply in 512 words of its own",
        Put(|replies, within| {
            one_by_one(replies, within, |words| {
                [&words[..], &vec![0; SHORT_LIMIT.saturating_sub(words.len())]].concat()
            })
        }),
    ),
    ("at the output's end", Put(|replies, within| at_the_end((RIGHT.put)(replies, within)))),
    (
        "each over the last word of the one before",
        Put(|replies, within| {
            put_in(replies, within).fold(vec![], |mut words: File, (_, own)| {
                words.pop();
                [&words[..], own].concat()
            })
        }),
    ),
    (
        "a zero word behind each",
        Put(|replies, within| one_by_one(replies, within, |words| [&words[..], &[0]].concat())),
    ),
    ("without headers", Put(|replies, within| one_by_one(replies, within, |words| words[1..].to_vec()))),
    (
        "one header for all",
        Put(|replies, within| {
            let bare = one_by_one(replies, within, |words| words[1..].to_vec());
            let header = put_in(replies, within).next().map(|(_, words)| words[0] & !0x3fff);
            header.map_or(vec![], |header| [vec![header | (bare.len() as u32 + 1)], bare].concat())
        }),
    ),
    ("a header ahead of all", Put(|replies, within| file(FIRST, 0, 0, &(RIGHT.put)(replies, within)))),
    (
        "the words of all ahead of them",
        Put(|replies, within| {
            let words = (RIGHT.put)(replies, within);
            [vec![words.len() as u32], words].concat()
        }),
    ),
    (
        "a reply that is put in twice put once",
        Put(|replies, within| {
            let again =
                |at: usize| put_in(&replies[..at], within).any(|(_, own)| Ok(own) == replies[at].as_ref());
            let once: Within = (0..replies.len()).map(|at| within[at] && !again(at)).collect();
            (RIGHT.put)(replies, &once)
        }),
    ),
    (
        "the last reply not put in",
        Put(|replies, within| {
            let last = put_in(replies, within).last().map_or(0, |(_, words)| words.len());
            let words = (RIGHT.put)(replies, within);
            words[..words.len() - last].to_vec()
        }),
    ),
    (
        "the last word not put in",
        Put(|replies, within| {
            let mut words = (RIGHT.put)(replies, within);
            words.pop();
            words
        }),
    ),
    (
        "a zero word for a refused path",
        Put(|replies, within| for_others(replies, within, |own| own.map_or(vec![0], |_| vec![]))),
    ),
    (
        "a lone header for a refused path",
        Put(|replies, within| {
            for_others(replies, within, |own| own.map_or(file(FIRST, 0, 0, &[]), |_| vec![]))
        }),
    ),
    (
        "a zero word for a reply without room",
        Put(|replies, within| for_others(replies, within, |own| own.map_or(vec![], |_| vec![0]))),
    ),
    (
        "the header of a reply without room stays",
        Put(|replies, within| {
            for_others(replies, within, |own| own.map_or(vec![], |words| words[..1].to_vec()))
        }),
    ),
    (
        "a reply without room put in as far as it fits",
        Put(|replies, within| {
            let first = (0..replies.len()).filter(|at| !within[*at]).find_map(|at| replies[at].as_ref().ok());
            let all = [(RIGHT.put)(replies, within), first.map_or(vec![], File::clone)].concat();
            all[..all.len().min(FILE_LIMIT)].to_vec()
        }),
    ),
    ("words of a reply without room stay behind the others", Put(written_over)),
];

/// What is left in buffers.
pub const LEAVING: [Named<Leaving>; 14] = [
    ("the inputs ahead of the buffers", |asking| inputs_first(asking)),
    ("room for the replies' words accepted", |asking| content(asking, 0)),
    ("any working buffer accepted", |asking| content(asking, 1)),
    ("an output of 16,384 bytes refused", |asking| one_short(asking, 0)),
    ("a working buffer of 32,768 bytes refused", |asking| one_short(asking, 1)),
    ("the output left after a refusal", |asking| left_after_refusal(asking, 0)),
    ("the working buffer left after a refusal", |asking| left_after_refusal(asking, 1)),
    ("the output left past 16,384 bytes", |asking| left_past_least(asking, 0)),
    ("the working buffer left past 32,768 bytes", |asking| left_past_least(asking, 1)),
    ("the output left past the replies", |asking| left_past_file(asking, 0)),
    ("the output left where no reply is put in", |asking| left_where(asking, 0, |_, all| all.is_empty())),
    ("the working buffer left", |asking| left_past_file(asking, 1)),
    ("the working buffer left behind a refused path", |asking| {
        left_where(asking, 1, |outcomes, _| matches!(outcomes, [.., Err(_)]))
    }),
    ("words of a reply over its limit left", words_that_fit),
];

/// Those that are not about bundles alone, but for what is left.
const PROGRAMS: [&[Named<Other>]; 5] = [&LINES, &ROOMS, &ORDERS, &LEFT_OUT, &PLACES];

/// The names of all mistakes about desks, with groups or without.
pub fn in_desks(grouped: bool) -> Vec<&'static str> {
    let own = PROGRAMS.iter().flat_map(|table| names(table, |_| true)).collect();
    [in_bundles_of_paths(grouped), own, names(&EIGHT, |_| true), names(&LEAVING, |_| true)].concat()
}

/// The mistakes by which a program would leave another number, output or working buffer.
pub fn found_out(asking: &Asking, visited: &Visited) -> Vec<&'static str> {
    let (numbers, files) = answers(visited, DESKS);
    let (right, left) = ((numbers, files.concat()), Left::owed_desks(visited, asking.room));
    let differs = |program: Program| program.answer(asking) != right;
    let of_paths = programs(|paths| differs(Program { paths, ..RIGHT }));
    let of_eight = names(&EIGHT, |other| differs(Program { paths: other.program(), ..RIGHT }));
    let own = PROGRAMS.map(|table| names(table, |other| differs(other.program()))).concat();
    [of_paths, of_eight, own, names(&LEAVING, |leaving| leaving(asking) != left)].concat()
}

impl Other {
    /// The program that is right but for this.
    fn program(&self) -> Program {
        match *self {
            Chosen(chosen) => Program { chosen, ..RIGHT },
            LeftOut(left_out) => Program { left_out, ..RIGHT },
            Put(put) => Program { put, ..RIGHT },
        }
    }
}

impl Program {
    /// The numbers, and the words in the output, up to the last that is not zero.
    pub fn answer(&self, asking: &Asking) -> (Vec<u32>, File) {
        let short = is_short(&asking.lengths(), &Asking::LEAST);
        match self.paths.outcomes(&asking.asked, |_| short) {
            Ok((paths, outcomes)) => {
                let within = (self.chosen)(&outcomes);
                let number = |at: usize| match &outcomes[at] {
                    Ok(_) if !within[at] => self.left_out,
                    own => own.as_ref().err().map_or(0, |refusal| refusal.number),
                };
                let mut numbers: Vec<u32> = (0..outcomes.len()).map(number).collect();
                numbers.resize(DESKS, 0);
                (self.paths.numbered)(&mut numbers, paths);
                (numbers, without_zeros((self.put)(&outcomes, &within)))
            }
            Err(numbers) => (numbers, vec![]),
        }
    }
}

impl<'a> Asking<'a> {
    /// By what is right in these buffers.
    pub fn new(desks: &'a Desks, room: Room, visited: &Visited) -> Asking<'a> {
        let right = match is_short(&[room.out, room.work], &Asking::LEAST) {
            true => desks.evaluate(LEAST_ROOM),
            false => visited.clone(),
        };
        Asking { asked: Asked::new(&desks.0, DESKS, &right), room, right }
    }
}

impl Buffered<2> for Asking<'_> {
    const LEAST: [usize; 2] = [LEAST_ROOM.out, LEAST_ROOM.work];

    fn lengths(&self) -> [usize; 2] {
        [self.room.out, self.room.work]
    }

    fn owed(&self, taken: [usize; 2]) -> Left {
        match is_short(&taken, &Self::LEAST) {
            true => Left::owed(&[1; DESKS], &[], &self.lengths()),
            false => Left::owed_desks(&self.right, self.room),
        }
    }

    fn files(&self) -> Option<Vec<File>> {
        self.right.as_ref().ok().map(|_| vec![answers(&self.right, DESKS).1.concat()])
    }
}

fn short(words: usize) -> bool {
    words <= SHORT_LIMIT
}

/// The order of asking.
fn asked(sizes: &[usize]) -> Vec<usize> {
    (0..sizes.len()).collect()
}

/// The words of a reply and of those that are counted beside it.
fn together(sizes: &[usize], at: usize, counted: impl Fn(usize) -> bool) -> usize {
    (0..sizes.len()).filter(|other| *other == at || counted(*other)).map(|other| sizes[other]).sum()
}

fn fits(sizes: &[usize], at: usize, counted: impl Fn(usize) -> bool) -> bool {
    together(sizes, at, counted) <= FILE_LIMIT
}

/// The short ones, and of the others, in this order, those that may be beside those that are in.
fn choose(
    sizes: &[usize],
    short: impl Fn(usize) -> bool,
    order: Vec<usize>,
    may: impl Fn(&[bool], usize) -> bool,
) -> Within {
    let mut within: Within = sizes.iter().map(|words| short(*words)).collect();
    for at in order {
        within[at] = within[at] || may(&within, at);
    }
    within
}

/// With other lines: which are short, and how many words fit.
fn by_lines(replies: &[Outcome], short: impl Fn(usize) -> bool, limit: usize) -> Within {
    let sizes = sizes(replies);
    choose(&sizes, short, asked(&sizes), |within, at| together(&sizes, at, |other| within[other]) <= limit)
}

/// With replies counted as if they had other words; which are short is by those that they have.
fn by_sizes(replies: &[Outcome], counted: impl Fn(usize) -> usize) -> Within {
    let own = sizes(replies);
    let sizes: Vec<usize> = own.iter().map(|words| if *words == 0 { 0 } else { counted(*words) }).collect();
    choose(&own, short, asked(&own), |within, at| fits(&sizes, at, |other| within[other]))
}

/// With another order of the long ones, and another rule.
fn by_order(
    replies: &[Outcome],
    order: impl Fn(&[usize]) -> Vec<usize>,
    may: impl Fn(&[usize], &[bool], usize) -> bool,
) -> Within {
    let sizes = sizes(replies);
    choose(&sizes, short, order(&sizes), |within, at| may(&sizes, within, at))
}

/// With the long ones in the order of a key, by words and place.
fn in_order(replies: &[Outcome], key: impl Fn(usize, usize) -> usize) -> Within {
    let order = |sizes: &[usize]| {
        let mut order = asked(sizes);
        order.sort_by_key(|at| key(sizes[*at], *at));
        order
    };
    by_order(replies, order, |sizes, within, at| fits(sizes, at, |other| within[other]))
}

/// Counting, of those that are in, such ones alone, by their words and place and the place of the reply that may be put in.
fn beside(replies: &[Outcome], counted: impl Fn(usize, usize, usize) -> bool) -> Within {
    by_order(replies, asked, |sizes, within, at| {
        fits(sizes, at, |other| within[other] && counted(sizes[other], other, at))
    })
}

/// With one of the long ones always in.
fn or_one_long(replies: &[Outcome], pick: impl Fn(&[usize]) -> Option<&usize>) -> Within {
    let sizes = sizes(replies);
    let long: Vec<usize> = (0..sizes.len()).filter(|at| !short(sizes[*at])).collect();
    by_order(replies, asked, |sizes, within, at| {
        pick(&long) == Some(&at) || fits(sizes, at, |other| within[other])
    })
}

/// With so many words counted for each path that is refused by itself.
fn with_room_for_refused(replies: &[Outcome], words: usize) -> Within {
    by_order(replies, asked, |sizes, within, at| {
        let refused = replies.iter().filter(|own| own.is_err()).count();
        together(sizes, at, |other| within[other]) + words * refused <= FILE_LIMIT
    })
}

/// The choice with the most of something, if it is more than that of the right one.
fn most(replies: &[Outcome], worth: fn(usize) -> usize) -> Within {
    let (sizes, right) = (sizes(replies), (RIGHT.chosen)(replies));
    let total = |within: &Within, of: fn(usize) -> usize| -> usize {
        (0..sizes.len()).filter(|at| within[*at] && sizes[*at] > 0).map(|at| of(sizes[at])).sum()
    };
    let choice = |set: usize| (0..sizes.len()).map(|at| short(sizes[at]) || set >> at & 1 == 1).collect();
    let choices =
        (0..1 << sizes.len()).map(choice).filter(|within| total(within, |words| words) <= FILE_LIMIT);
    let best = choices.max_by_key(|within| total(within, worth)).unwrap_or_else(|| right.clone());
    match total(&best, worth) > total(&right, worth) {
        true => best,
        false => right,
    }
}

/// Those that are put in, by their places.
fn put_in<'a>(replies: &'a [Outcome], within: &'a [bool]) -> impl Iterator<Item = (usize, &'a File)> {
    let accepted = move |at: usize| replies[at].as_ref().ok().filter(|_| within[at]).map(|words| (at, words));
    (0..replies.len()).filter_map(accepted)
}

/// Those that are put in, one after another, each in some way.
fn one_by_one(replies: &[Outcome], within: &[bool], written: impl Fn(&File) -> File) -> File {
    put_in(replies, within).map(|(_, words)| written(words)).collect::<Vec<_>>().concat()
}

/// In the order of a key, by place and words.
fn in_places(replies: &[Outcome], within: &[bool], key: impl Fn(usize, &File) -> usize) -> File {
    let mut all: Vec<(usize, &File)> = put_in(replies, within).collect();
    all.sort_by_key(|(at, words)| key(*at, words));
    all.into_iter().map(|(_, words)| words.clone()).collect::<Vec<_>>().concat()
}

/// With something for those that are not put in, in their places.
fn for_others(
    replies: &[Outcome],
    within: &[bool],
    instead: impl Fn(Result<&File, &Refusal>) -> File,
) -> File {
    let words = |at: usize| match &replies[at] {
        Ok(words) if within[at] => words.clone(),
        own => instead(own.as_ref()),
    };
    (0..replies.len()).map(words).collect::<Vec<_>>().concat()
}

fn at_the_end(words: File) -> File {
    [vec![0; FILE_LIMIT - words.len()], words].concat()
}

/// Each is written behind those that are in, as far as it fits, and the next one over it if it is not put in.
fn written_over(replies: &[Outcome], within: &[bool]) -> File {
    let (mut output, mut end) = (vec![0; FILE_LIMIT], 0);
    for (at, words) in replies.iter().enumerate().filter_map(|(at, own)| Some((at, own.as_ref().ok()?))) {
        output[end..].iter_mut().zip(words).for_each(|(place, word)| *place = *word);
        end += if within[at] { words.len() } else { 0 };
    }
    output
}

/// No reply ends with a zero word.
fn without_zeros(mut output: File) -> File {
    output.truncate(output.iter().rposition(|word| *word != 0).map_or(0, |last| last + 1));
    output
}

/// With a buffer left behind what is in it, where all outcomes and the words of the replies are such.
fn left_where(asking: &Asking, at: usize, such: impl Fn(&[Outcome], &File) -> bool) -> Left {
    match (&asking.right, asking.files()) {
        (Ok(outcomes), Some(files)) if such(outcomes, &files[0]) => left_past_file(asking, at),
        _ => asking.owed(asking.lengths()),
    }
}

/// Whether a reply has too many words by itself.
fn over_its_limit(reply: &Outcome) -> bool {
    matches!(reply, Err(refusal) if refusal.number == 15 && refusal.why != WITHOUT_ROOM)
}

/// With the words of a reply that is over its limit behind those that are put in.
fn words_that_fit(asking: &Asking) -> Left {
    let mut left = asking.owed(asking.lengths());
    let outcomes = asking.right.as_deref().unwrap_or(&[]);
    let over = outcomes.iter().position(over_its_limit).filter(|_| left.numbers[0] != 1);
    if let (Some(at), Some(files)) = (over, asking.files()) {
        let (words, taken) = (asking.asked.words_for(at), files[0].len());
        left.buffers[0][4 * taken..4 * FILE_LIMIT].copy_from_slice(&bytes_of(&words[taken..FILE_LIMIT]));
    }
    left
}
