//! From triples by Rust's own sort of the triples as numbers of 64 bits. All else is the plain version's.
use crate::inputs::Ask;
use crate::plain::{settle, whole_of, Triples};
use crate::timing::{outputs, PART_BYTES};

pub fn from_triples(ask: &Ask, out: &mut [u8], work: &mut [u8]) -> u32 {
    let [out] = outputs(out, [PART_BYTES]);
    settle(4096, out, work, || {
        let mut triples = Triples::read(ask.next_triples())?;
        let nodes = triples.nodes();
        triples.keys.sort_unstable();
        triples.keys.dedup();
        whole_of(triples.root, &nodes, triples.keys.into_iter())
    })
}
