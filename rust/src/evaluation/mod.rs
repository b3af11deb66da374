//! Document 01 evaluated, with labels outside a range (request 1), plants that are drawn (request 2), groups that a call is handed (request
//! 3), the length of a first reply before each door (request 4), links that nobody walks (request 5), several paths in one visit (request 6),
//! stopped nodes (request 7), the triple edition (request 8), eight operands waiting at most (request 9), a walk beside each listed node
//! (request 10), one reply for eight askers (request 11), which parts no reply tells apart and which plants are grown (request 12), and the
//! dearest part and path (request 13): every call as a function from bytes, numbers and buffer lengths to a refusal or the result's words. It
//! is written from the documents alone, for plainness and not for speed, and shares no method with the library where they leave a choice.

pub mod dearest;
pub mod derivatives;
pub mod desks;
pub mod generator;
pub mod groups;
pub mod hub;
pub mod learning;
pub mod meaning;
pub mod part;
pub mod path;
pub mod plant;
pub mod relation;
pub mod replies;
pub mod states;
pub mod triples;
pub mod visit;
pub mod walks;
pub mod words;

use self::dearest::{check_counts, dearest_files, Counts, Rooms};
use self::desks::{put_in, DESKS};
use self::generator::Source;
use self::groups::{read_groups, Groups};
use self::hub::*;
use self::part::*;
use self::path::{read_path, Path};
use self::plant::Plant;
use self::replies::*;
use self::triples::{read_triples, Edition, TRIPLES_LIMIT};
use self::visit::{split_paths, VISIT_PATHS};
use self::walks::{is_walk, lowest_walk, walk_file, WALKED_LIMIT};
use self::words::*;

pub type Outcome = Result<Vec<u32>, Refusal>;

/// That of a call with two results.
pub type BothFiles = Result<[Vec<u32>; 2], Refusal>;

/// That of a call that is lent a state: the result's words, and the state as it is given back. A refusal leaves the state as it was.
pub type Generated = Result<(Vec<u32>, u32), Refusal>;

/// That of a call for several paths: an outcome for each that there is, or a refusal of the whole.
pub type Visited = Result<Vec<Outcome>, Refusal>;

/// What a whole is read as, or why it is refused.
pub type Read = Result<Part, Refusal>;

/// The lengths of the lent buffers, in bytes.
#[derive(Clone, Copy, PartialEq, Eq, Debug)]
pub struct Room {
    pub out: usize,
    pub work: usize,
}

/// Number 1.
fn check_room(room: Room, limit: usize) -> Result<(), Refusal> {
    let short = |why| refuse::<()>(1, why).map_err(|refusal| refusal.of("buffers"));
    if room.out < 4 * limit {
        return short("output short");
    }
    if room.work < WORK_BYTES {
        return short("working buffer short");
    }
    Ok(())
}

/// Number 15.
pub fn check_result(words: Vec<u32>, limit: usize) -> Outcome {
    if words.len() > limit {
        return refuse(15, "over its limit").map_err(|refusal| refusal.of("result"));
    }
    Ok(words)
}

fn input<T>(name: &'static str, read: Result<T, Refusal>) -> Result<T, Refusal> {
    read.map_err(|refusal| refusal.of(name))
}

/// Groups, if the call is handed any, and then the path that they are for.
fn groups_and_path(groups: Option<&[u8]>, path: &[u8]) -> Result<Path, Refusal> {
    let groups = input("groups", read_groups(groups))?;
    input("path", read_path(path, &groups))
}

pub fn old_search(whole: &[u8], groups: Option<&[u8]>, path: &[u8], room: Room) -> Outcome {
    check_room(room, BUNDLE_LIMIT)?;
    let whole = input("whole", read_whole(whole))?;
    let path = groups_and_path(groups, path)?;
    check_result(Plant::of(&whole).search(&path), BUNDLE_LIMIT)
}

pub fn cut(whole: &[u8], cuts: &[u8], site: u32, room: Room) -> Outcome {
    check_room(room, FILE_LIMIT)?;
    let whole = input("whole", read_whole(whole))?;
    input("cut list", check_cuts(&whole, cuts, site))?;
    check_result(cut_part(&whole, cuts, site).words(), FILE_LIMIT)
}

pub fn first_reply(part: &[u8], groups: Option<&[u8]>, path: &[u8], room: Room) -> Outcome {
    check_room(room, FILE_LIMIT)?;
    let part = input("part", read_part(part))?;
    let groups = input("groups", read_groups(groups))?;
    first_reply_to(&part, &groups, path)
}

/// The path's checks, and then the reply and its 15.
pub fn first_reply_to(part: &Part, groups: &Groups, path: &[u8]) -> Outcome {
    let path = input("path", read_path(path, groups))?;
    check_result(first_reply_words(part, &path), FILE_LIMIT)
}

/// The inputs under which number 1 of a visit is counted.
const VISIT_BUFFERS: [&str; VISIT_PATHS] =
    ["buffers, output 1", "buffers, output 2", "buffers, output 3", "buffers, output 4"];

/// The first replies to up to four paths, each for an output of its own.
pub fn four_replies(part: &[u8], groups: Option<&[u8]>, paths: &[u8], rooms: visit::Rooms) -> Visited {
    let [outs @ .., work] = rooms;
    for (out, name) in outs.into_iter().zip(VISIT_BUFFERS) {
        input(name, check_room(Room { out, work }, FILE_LIMIT))?;
    }
    let part = input("part", read_part(part))?;
    let groups = input("groups", read_groups(groups))?;
    let files = input("paths", split_paths(paths, VISIT_PATHS))?;
    Ok(files.into_iter().map(|path| first_reply_to(&part, &groups, path)).collect())
}

/// The first replies to up to eight paths, of which those that are accepted stand one after another in one output.
pub fn eight_replies(part: &[u8], groups: Option<&[u8]>, paths: &[u8], room: Room) -> Visited {
    check_room(room, FILE_LIMIT)?;
    let part = input("part", read_part(part))?;
    let groups = input("groups", read_groups(groups))?;
    let files = input("paths", split_paths(paths, DESKS))?;
    Ok(put_in(files.into_iter().map(|path| first_reply_to(&part, &groups, path)).collect()))
}

pub fn call_list(bundle: &[u8], room: Room) -> Outcome {
    check_room(room, FILE_LIMIT)?;
    call_list_of(&input("first bundle", read_first_bundle(bundle))?)
}

/// 14, and then the list and its 15.
pub fn call_list_of(bundle: &FirstBundle) -> Outcome {
    let called = bundle.called();
    input("first bundle", bundle.check_called(&called))?;
    check_result(bundle.call_list_words(&called), FILE_LIMIT)
}

pub fn second_reply(part: &[u8], groups: Option<&[u8]>, path: &[u8], calls: &[u8], room: Room) -> Outcome {
    check_room(room, FILE_LIMIT)?;
    let part = input("part", read_part(part))?;
    let path = groups_and_path(groups, path)?;
    let (n, calls) = input("call list", read_call_list(calls))?;
    if n != path.n() {
        return input("call list", refuse(12, "n not the path's"));
    }
    let no_door = |call: &Pair| part.node(call.0).map_or(false, |node| !node.door);
    if calls.iter().any(no_door) {
        return input("call list", refuse(14, "called node is no door"));
    }
    check_result(second_reply_words(&part, &path, &calls), FILE_LIMIT)
}

pub fn join(bundle: &[u8], room: Room) -> Outcome {
    check_room(room, BUNDLE_LIMIT)?;
    let files = input("second bundle", read_second_bundle(bundle))?;
    let nodes = files.iter().flat_map(|file| file.nodes.iter().copied()).collect();
    check_result(final_list(&nodes), BUNDLE_LIMIT)
}

/// The dearest part and path, each for an output of its own.
pub fn dearest(counts: Counts, [part, path, work]: Rooms) -> BothFiles {
    input("part's buffers", check_room(Room { out: part, work }, FILE_LIMIT))?;
    input("path's buffers", check_room(Room { out: path, work }, PATH_LIMIT))?;
    input("counts", check_counts(counts))?;
    Ok(dearest_files(counts))
}

/// The plant that is drawn, and the state after the last draw.
pub fn generate(source: &Source, room: Room) -> Generated {
    check_room(room, FILE_LIMIT)?;
    input("nodes and edges", source.check())?;
    Ok((source.part().words(), source.moved()))
}

/// The whole that triples say.
pub fn from_triples(triples: &[u8], room: Room) -> Outcome {
    check_room(room, FILE_LIMIT)?;
    let edition = input("triples", read_triples(triples))?;
    check_result(edition.whole().words(), FILE_LIMIT)
}

/// The triples that say a whole, with the root before them. The count that is handed out too is that of these words.
pub fn to_triples(whole: &[u8], room: Room) -> Outcome {
    check_room(room, TRIPLES_LIMIT)?;
    let whole = input("whole for triples", read_whole(whole))?;
    Ok(input("whole for triples", Edition::of(&whole))?.words())
}

/// A walk to a node, with a header.
pub fn walk(whole: &[u8], groups: Option<&[u8]>, path: &[u8], node: u32, room: Room) -> Outcome {
    check_room(room, FILE_LIMIT)?;
    walk_in(read_whole_within(whole, WALKED_LIMIT), groups, path, node)
}

/// The checks behind the whole's, 20, and then the walk and its 15.
pub fn walk_in(whole: Read, groups: Option<&[u8]>, path: &[u8], node: u32) -> Outcome {
    let whole = input("whole", whole)?;
    let path = groups_and_path(groups, path)?;
    match lowest_walk(&whole, &path, node) {
        Some(links) => check_result(walk_file(&links), FILE_LIMIT),
        None => input("node", refuse(20, "not listed")),
    }
}

/// Whether bytes are a walk to a node, as a word: 1 or 0. There is no output.
pub fn check_walk(
    whole: &[u8],
    groups: Option<&[u8]>,
    path: &[u8],
    node: u32,
    walk: &[u8],
    work: usize,
) -> Outcome {
    check_room(Room { out: 0, work }, 0)?;
    check_walk_in(read_whole_within(whole, WALKED_LIMIT), groups, path, node, walk)
}

/// The checks behind the whole's, and then the word.
pub fn check_walk_in(whole: Read, groups: Option<&[u8]>, path: &[u8], node: u32, walk: &[u8]) -> Outcome {
    let whole = input("whole", whole)?;
    let path = groups_and_path(groups, path)?;
    Ok(vec![u32::from(is_walk(&whole, &path, node, walk))])
}
