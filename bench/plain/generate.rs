//! A whole plant, drawn from a lent state.
use super::files::{settle, unless};
use crate::inputs::{Ask, Draws};
use crate::timing::{outputs, PART_BYTES};
use crate::words::*;

/// Puts an edge in its place among those from `first` on, unless it is there. At each the lesser stays and the greater goes on: the processor cannot
/// foresee a branch that hangs on what was drawn, and with `sort_unstable` the largest plants take 2.7 times as long.
fn put(plant: &mut Vec<u32>, first: usize, mut edge: u32) {
    for other in &mut plant[first..] {
        if *other == edge {
            return;
        }
        (*other, edge) = (edge.min(*other), edge.max(*other));
    }
    plant.push(edge);
}

fn plant(draws: &mut Draws, nodes: u32, edges: u32) -> Vec<u32> {
    let mut plant = Vec::with_capacity((1 + nodes * (1 + edges)) as usize);
    plant.push(header(1, 0, 0));
    for x in 0..nodes {
        plant.push(NODE | x | if x == 0 { DOOR | ROOT } else { 0 });
        let first = plant.len();
        for _ in 0..edges {
            let label = draws.draw() % 4096;
            put(&mut plant, first, edge(label, draws.draw() % nodes));
        }
    }
    plant[0] |= plant.len() as u32;
    plant
}

pub fn generate(ask: &Ask, out: &mut [u8], work: &mut [u8]) -> u32 {
    let [out] = outputs(out, [PART_BYTES]);
    settle(4096, out, work, || {
        let ([nodes, edges], mut draws) = (ask.plant, Draws(ask.state.get()));
        unless(11, (1..=256).contains(&nodes) && (1..=4).contains(&edges))?;
        let plant = plant(&mut draws, nodes, edges);
        ask.state.set(draws.0);
        Ok(plant)
    })
}
