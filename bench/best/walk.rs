//! The walk by sets of states: the edges into a node side by side, those from one node as one, what may come before each state in a table, and for
//! each distance the nodes and states that have it, so that no number is looked for.
use super::graph::whole_graph;
use crate::inputs::Ask;
use crate::plain::{all_of, walk_by, Automaton, Graph, Outcome};
use crate::walks::WALK_WORDS;

/// The states that may come before each state.
fn preceding(follow: &[u16; 16]) -> [u16; 16] {
    std::array::from_fn(|p| (0..16).fold(0, |set, q| set | (follow[q] >> p & 1) << q))
}

/// The edges into each node: the nodes that they leave, and the states that they enter in it. Edges of a node follow one another, so those with
/// the same target become one.
struct Back {
    starts: Vec<u32>,
    ends: Vec<u32>,
    edges: Vec<(u16, u16)>,
}

impl Back {
    fn new(graph: &Graph) -> Back {
        let mut starts = vec![0; graph.nodes.len() + 1];
        graph.edges.iter().for_each(|e| starts[e.slot as usize + 1] += 1);
        (1..starts.len()).for_each(|i| starts[i] += starts[i - 1]);
        let mut back = Back { ends: starts.clone(), starts, edges: vec![(0, 0); graph.edges.len()] };
        for i in 0..graph.nodes.len() {
            graph.edges[graph.edges_of(i)].iter().for_each(|e| back.add(i as u16, e.slot as usize, e.mask));
        }
        back
    }

    fn add(&mut self, source: u16, slot: usize, mask: u16) {
        let end = self.ends[slot] as usize;
        if end > self.starts[slot] as usize && self.edges[end - 1].0 == source {
            self.edges[end - 1].1 |= mask;
        } else {
            self.edges[end] = (source, mask);
            self.ends[slot] += 1;
        }
    }
}

/// The pairs by their distance to the asked node: nodes, each with the states that have it, from `starts[d]` on.
struct Levels {
    preceding: [u16; 16],
    back: Back,
    nodes: Vec<(u16, u16)>,
    starts: Vec<u32>,
    seen: Vec<u16>,
    /// The states of each node that are new in the level at hand.
    new: Vec<u16>,
}

impl Levels {
    fn new(graph: &Graph, a: &Automaton, asked: usize) -> Levels {
        let count = graph.nodes.len();
        let mut levels = Levels {
            preceding: preceding(&a.follow),
            back: Back::new(graph),
            nodes: vec![(asked as u16, a.accepts)],
            starts: vec![0],
            seen: vec![0; count],
            new: vec![0; count],
        };
        levels.seen[asked] = a.accepts;
        levels
    }

    fn leave(&mut self, (i, states): (u16, u16)) {
        let (start, end) = (self.back.starts[i as usize] as usize, self.back.ends[i as usize] as usize);
        for &(source, mask) in &self.back.edges[start..end] {
            let j = source as usize;
            let set = all_of(&self.preceding, mask & states) & !self.seen[j];
            if set == 0 {
                continue;
            }
            if self.new[j] == 0 {
                self.nodes.push((source, 0));
            }
            self.new[j] |= set;
            self.seen[j] |= set;
        }
    }

    /// Level by level until the root has one in state 0; 20 if it never does.
    fn find(&mut self, root: usize) -> Result<(), u32> {
        let mut from = 0;
        while self.seen[root] & 1 == 0 {
            let to = self.nodes.len();
            if from == to {
                return Err(20);
            }
            (from..to).for_each(|k| self.leave(self.nodes[k]));
            let new = &mut self.new;
            self.nodes[to..].iter_mut().for_each(|(j, states)| *states = std::mem::take(&mut new[*j as usize]));
            self.starts.push(to as u32);
            from = to;
        }
        Ok(())
    }

    fn links(&self, graph: &Graph, a: &Automaton, root: usize) -> Vec<u32> {
        let (mut i, mut states, mut links) = (root, 1, Vec::with_capacity(self.starts.len()));
        // the states of each node that have the distance at hand, and above these the distance
        let mut near = vec![u32::MAX; graph.nodes.len()];
        for d in (0..self.starts.len() - 1).rev() {
            let level = &self.nodes[self.starts[d] as usize..self.starts[d + 1] as usize];
            level.iter().for_each(|&(j, set)| near[j as usize] = (d as u32) << 16 | u32::from(set));
            let follow = a.follow_all(states);
            let opens = |x: &usize| {
                let (e, near) = (graph.edges[*x], near[graph.edges[*x].slot as usize]);
                near >> 16 == d as u32 && near as u16 & e.mask & follow != 0
            };
            if let Some(x) = graph.edges_of(i).find(opens) {
                links.push(graph.links[x]);
                (i, states) = (graph.edges[x].slot as usize, graph.edges[x].mask & follow);
            }
        }
        links
    }
}

fn links(graph: &Graph, a: &Automaton, root: usize, asked: usize) -> Outcome {
    let mut levels = Levels::new(graph, a, asked);
    levels.find(root)?;
    if levels.starts.len() > WALK_WORDS {
        return Err(15);
    }
    Ok(levels.links(graph, a, root))
}

pub fn walk(ask: &Ask, out: &mut [u8], work: &mut [u8]) -> u32 {
    walk_by(ask, None, (out, work), whole_graph, links)
}
