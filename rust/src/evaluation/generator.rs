//! The plant that is drawn from a state (request 2): for which counts it is, the state after so many draws, and the plant.

use super::part::{Node, Part};
use super::words::*;
use super::Room;
use std::collections::BTreeSet;

/// What a plant is drawn from: the lent state, how many nodes, and how many edges each of them draws.
#[derive(Clone, Copy, PartialEq, Eq, Debug)]
pub struct Source {
    pub state: u32,
    pub nodes: u32,
    pub edges: u32,
}

/// The least buffers that do not give 1.
pub const LEAST_ROOM: Room = Room { out: 4 * FILE_LIMIT, work: WORK_BYTES };

const MULTIPLIER: u64 = 1_664_525;
const INCREMENT: u64 = 1_013_904_223;

/// The multiplier less 1 is four times an odd number, whose product with this one is 1, wrapped at 32 bits.
const INVERSE: u64 = 3_535_699_243;

/// The state after so many draws, without those before: with the multiplier's power p it is state × p + increment × (p − 1) / (multiplier − 1).
/// The power has 64 bits, so a quarter of p − 1 has its lower 62 right, and 32 of them are asked for.
pub fn state_after(state: u32, draws: u32) -> u32 {
    let power = MULTIPLIER.wrapping_pow(draws);
    let sum = ((power - 1) / 4).wrapping_mul(INVERSE);
    u64::from(state).wrapping_mul(power).wrapping_add(INCREMENT.wrapping_mul(sum)) as u32
}

impl Source {
    /// Number 11.
    pub fn check(&self) -> Result<(), Refusal> {
        if self.nodes == 0 {
            return refuse(11, "no nodes");
        }
        if self.nodes > 256 {
            return refuse(11, "over 256 nodes");
        }
        if self.edges == 0 {
            return refuse(11, "no edges");
        }
        if self.edges > 4 {
            return refuse(11, "over 4 edges");
        }
        Ok(())
    }

    /// How many draws the plant takes.
    pub fn draws(&self) -> u32 {
        2 * self.nodes * self.edges
    }

    /// The words of its file if no edges are equal.
    pub fn most_words(&self) -> u32 {
        1 + self.nodes * (1 + self.edges)
    }

    /// The state once the plant is drawn.
    pub fn moved(&self) -> u32 {
        state_after(self.state, self.draws())
    }

    /// What the draw of this number hands out, the first being 1.
    fn drawn(&self, draw: u32) -> u32 {
        state_after(self.state, draw) / 65_536
    }

    /// The edge of this place among all that are drawn, with the draws that are its own.
    pub fn edge(&self, place: u32) -> (u32, u32) {
        (self.drawn(2 * place + 1) % 4096, self.drawn(2 * place + 2) % self.nodes)
    }

    pub fn part(&self) -> Part {
        let node = |number: u32| {
            let places = number * self.edges..(number + 1) * self.edges;
            let edges: BTreeSet<(u32, u32)> = places.map(|place| self.edge(place)).collect();
            let first = number == 0;
            Node { number, door: first, root: first, stopped: false, edges: edges.into_iter().collect() }
        };
        Part { site: 0, nodes: (0..self.nodes).map(node).collect() }
    }
}
