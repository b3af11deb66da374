//! The library's twenty-one calls on what is asked, and the paths of a visit or of desks by single calls.
use crate::calls;
use crate::desks::packed_eight;
use crate::inputs::Ask;
use crate::timing::{counted, outputs, PART_BYTES, PATH_BYTES, REPLY_BYTES, WALK_BYTES};
use crate::visits::{four_outputs, packed, singly};

pub fn old_search(ask: &Ask, out: &mut [u8], work: &mut [u8]) -> u32 {
    calls::old_search(&ask.file, &ask.path, out, work)
}

pub fn old_search_grouped(ask: &Ask, out: &mut [u8], work: &mut [u8]) -> u32 {
    calls::old_search_grouped(&ask.file, &ask.groups, &ask.path, out, work)
}

pub fn cut(ask: &Ask, out: &mut [u8], work: &mut [u8]) -> u32 {
    calls::cut(&ask.file, &ask.cuts, ask.site, out, work)
}

pub fn first_reply(ask: &Ask, out: &mut [u8], work: &mut [u8]) -> u32 {
    calls::first_reply(&ask.file, &ask.path, out, work)
}

pub fn first_reply_grouped(ask: &Ask, out: &mut [u8], work: &mut [u8]) -> u32 {
    calls::first_reply_grouped(&ask.file, &ask.groups, &ask.path, out, work)
}

pub fn four_replies(ask: &Ask, out: &mut [u8], work: &mut [u8]) -> u32 {
    let [out1, out2, out3, out4] = four_outputs(out);
    calls::four_replies(&ask.file, &ask.path, out1, out2, out3, out4, work)
}

pub fn four_replies_grouped(ask: &Ask, out: &mut [u8], work: &mut [u8]) -> u32 {
    let [out1, out2, out3, out4] = four_outputs(out);
    calls::four_replies_grouped(&ask.file, &ask.groups, &ask.path, out1, out2, out3, out4, work)
}

pub fn single_replies(ask: &Ask, out: &mut [u8], work: &mut [u8]) -> u32 {
    packed(singly(ask, out, |path, out| calls::first_reply(&ask.file, path, out, work)))
}

pub fn single_replies_grouped(ask: &Ask, out: &mut [u8], work: &mut [u8]) -> u32 {
    packed(singly(ask, out, |path, out| calls::first_reply_grouped(&ask.file, &ask.groups, path, out, work)))
}

pub fn eight_replies(ask: &Ask, out: &mut [u8], work: &mut [u8]) -> u64 {
    let [out] = outputs(out, [REPLY_BYTES]);
    calls::eight_replies(&ask.file, &ask.path, out, work)
}

pub fn eight_replies_grouped(ask: &Ask, out: &mut [u8], work: &mut [u8]) -> u64 {
    let [out] = outputs(out, [REPLY_BYTES]);
    calls::eight_replies_grouped(&ask.file, &ask.groups, &ask.path, out, work)
}

pub fn eight_single_replies(ask: &Ask, out: &mut [u8], work: &mut [u8]) -> u64 {
    packed_eight(singly(ask, out, |path, out| calls::first_reply(&ask.file, path, out, work)))
}

pub fn eight_single_replies_grouped(ask: &Ask, out: &mut [u8], work: &mut [u8]) -> u64 {
    packed_eight(singly(ask, out, |path, out| calls::first_reply_grouped(&ask.file, &ask.groups, path, out, work)))
}

pub fn call_list(ask: &Ask, out: &mut [u8], work: &mut [u8]) -> u32 {
    calls::call_list(&ask.file, out, work)
}

pub fn second_reply(ask: &Ask, out: &mut [u8], work: &mut [u8]) -> u32 {
    calls::second_reply(&ask.file, &ask.path, &ask.calls, out, work)
}

pub fn second_reply_grouped(ask: &Ask, out: &mut [u8], work: &mut [u8]) -> u32 {
    calls::second_reply_grouped(&ask.file, &ask.groups, &ask.path, &ask.calls, out, work)
}

pub fn join(ask: &Ask, out: &mut [u8], work: &mut [u8]) -> u32 {
    calls::join(&ask.file, out, work)
}

pub fn dearest(ask: &Ask, out: &mut [u8], work: &mut [u8]) -> u32 {
    let ([doors, targets, labels], [part, path]) = (ask.counts, outputs(out, [PART_BYTES, PATH_BYTES]));
    calls::dearest(doors, targets, labels, part, path, work)
}

pub fn generate(ask: &Ask, out: &mut [u8], work: &mut [u8]) -> u32 {
    let ([nodes, edges], mut state, [plant]) = (ask.plant, ask.state.get(), outputs(out, [PART_BYTES]));
    let number = calls::generate(&mut state, nodes, edges, plant, work);
    ask.state.set(state);
    number
}

pub fn from_triples(ask: &Ask, out: &mut [u8], work: &mut [u8]) -> u32 {
    let [whole] = outputs(out, [PART_BYTES]);
    calls::from_triples(ask.next_triples(), whole, work)
}

/// Before the call the count is one that no call leaves.
pub fn to_triples(ask: &Ask, out: &mut [u8], work: &mut [u8]) -> u64 {
    let mut count = u32::MAX;
    let number = calls::to_triples(&ask.file, out, &mut count, work);
    counted(number, count)
}

pub fn walk(ask: &Ask, out: &mut [u8], work: &mut [u8]) -> u32 {
    let [walk] = outputs(out, [WALK_BYTES]);
    calls::walk(&ask.file, &ask.path, ask.node, walk, work)
}

pub fn walk_grouped(ask: &Ask, out: &mut [u8], work: &mut [u8]) -> u32 {
    let [walk] = outputs(out, [WALK_BYTES]);
    calls::walk_grouped(&ask.file, &ask.groups, &ask.path, ask.node, walk, work)
}

/// Before the call the yes is a word that no call leaves.
pub fn check_walk(ask: &Ask, _: &mut [u8], work: &mut [u8]) -> u64 {
    let mut yes = u32::MAX;
    let number = calls::check_walk(&ask.file, &ask.path, ask.node, &ask.walk, &mut yes, work);
    counted(number, yes)
}

pub fn check_walk_grouped(ask: &Ask, _: &mut [u8], work: &mut [u8]) -> u64 {
    let mut yes = u32::MAX;
    let number = calls::check_walk_grouped(&ask.file, &ask.groups, &ask.path, ask.node, &ask.walk, &mut yes, work);
    counted(number, yes)
}
