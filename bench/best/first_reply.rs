//! The first reply by strongly connected components of the pairs of a node and a state: all pairs of a component reach the same pairs outside,
//! those that its own links lead to and those of the components behind it. So each pair is left once, and not once for each door and state.
use super::graph::graph;
use crate::inputs::Ask;
use crate::plain::{door_words, part, path, settle, Automaton, Graph, LIMIT};
use crate::words::*;

const NONE: u32 = u32::MAX;

/// A pair that is being left, and where what is left of its successors begins.
struct Frame {
    pair: usize,
    from: usize,
}

/// Tarjan's algorithm. A pair is slot * 16 + state, and those of outside targets come behind those of nodes.
struct Components<'a> {
    graph: &'a Graph,
    follow: &'a Automaton,
    /// When each pair was first met, and the earliest pair still open that it leads back to.
    met: Vec<u32>,
    low: Vec<u32>,
    component: Vec<u32>,
    /// The pairs outside that each component reaches, ascending.
    outside: Vec<Vec<u32>>,
    open: Vec<usize>,
    frames: Vec<Frame>,
    ahead: Vec<usize>,
    clock: u32,
}

impl<'a> Components<'a> {
    fn new(graph: &'a Graph, follow: &'a Automaton) -> Components<'a> {
        let pairs = 16 * graph.nodes.len();
        let (met, low, component) = (vec![NONE; pairs], vec![0; pairs], vec![NONE; pairs]);
        Components { graph, follow, met, low, component, outside: vec![], open: vec![], frames: vec![], ahead: vec![], clock: 0 }
    }

    fn successors(&self, pair: usize, mut each: impl FnMut(usize)) {
        let (i, states) = (pair / 16, self.follow.follow[pair % 16]);
        for e in &self.graph.edges[self.graph.edges_of(i)] {
            let mut rest = e.mask & states;
            while rest != 0 {
                each(16 * e.slot as usize + rest.trailing_zeros() as usize);
                rest &= rest - 1;
            }
        }
    }

    fn meet(&mut self, pair: usize) {
        (self.met[pair], self.low[pair]) = (self.clock, self.clock);
        self.clock += 1;
        self.open.push(pair);
        self.frames.push(Frame { pair, from: self.ahead.len() });
        let mut ahead = std::mem::take(&mut self.ahead);
        self.successors(pair, |p| ahead.push(p));
        self.ahead = ahead;
    }

    /// Makes a component of the pairs that were opened from `pair` on.
    fn close(&mut self, pair: usize) -> Result<(), u32> {
        let start = self.open.iter().rposition(|&p| p == pair).unwrap_or(0);
        let members = self.open.split_off(start);
        let name = self.outside.len() as u32;
        members.iter().for_each(|&p| self.component[p] = name);
        let (mut reached, mut behind) = (Vec::new(), Vec::new());
        for &p in &members {
            self.successors(p, |s| match self.component.get(s) {
                None => reached.push(s as u32),
                Some(&c) => behind.push(c),
            });
        }
        behind.sort_unstable();
        behind.dedup();
        behind.iter().filter(|&&c| c != name).for_each(|&c| reached.extend(&self.outside[c as usize]));
        reached.sort_unstable();
        reached.dedup();
        // some door's row would have as many
        if reached.len() > LIMIT {
            return Err(15);
        }
        self.outside.push(reached);
        Ok(())
    }

    /// The pairs outside that a pair reaches.
    fn reached(&mut self, pair: usize) -> Result<&[u32], u32> {
        if self.met[pair] == NONE {
            self.meet(pair);
        }
        while let Some(&Frame { pair, from }) = self.frames.last() {
            if self.ahead.len() > from {
                let next = self.ahead.pop().unwrap_or(0);
                match self.met.get(next) {
                    Some(&NONE) => self.meet(next),
                    Some(&met) if self.component[next] == NONE => self.low[pair] = self.low[pair].min(met),
                    _ => {}
                }
                continue;
            }
            self.frames.pop();
            if self.low[pair] == self.met[pair] {
                self.close(pair)?;
            } else if let Some(parent) = self.frames.last() {
                self.low[parent.pair] = self.low[parent.pair].min(self.low[pair]);
            }
        }
        Ok(&self.outside[self.component[pair] as usize])
    }
}

pub fn first_reply(ask: &Ask, out: &mut [u8], work: &mut [u8]) -> u32 {
    settle(LIMIT, out, work, || {
        let ws = part(&ask.file)?;
        let a = path(&ask.path, &OURS)?;
        let graph = graph(&ws, &a);
        let mut components = Components::new(&graph, &a);
        door_words(&ws, &a, &graph, LIMIT, |i, q, list| {
            let reached = components.reached(16 * i + q as usize)?;
            if !reached.is_empty() {
                list.push(ROW | q);
            }
            let target = |p: u32| graph.outside[p as usize / 16 - graph.nodes.len()];
            list.extend(reached.iter().map(|&p| REACH | target(p) << 4 | p % 16));
            Ok(())
        })
    })
}
