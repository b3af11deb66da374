//! A part with its path and calls, or a whole with its path and the node that is asked for, open to change.
use super::Gene;
use crate::inputs::{Ask, Draws};
use crate::words::*;

/// Targets from here on are outside.
const OUTSIDE: u32 = 60_000;

#[derive(Clone)]
pub struct Plant {
    size: usize,
    /// The links of node 0, 1, ..: labels and targets.
    links: Vec<Vec<(u32, u32)>>,
    /// Its door and stopped bits.
    marks: Vec<u32>,
    path: Vec<u32>,
    calls: Vec<u8>,
    node: u32,
    number: u64,
}

impl Plant {
    fn label(&self, draws: &mut Draws) -> u32 {
        match draws.below(3) {
            0 => draws.below(4096),
            _ => self.any_link(draws).map_or(150, |(label, _)| label),
        }
    }

    fn any_link(&self, draws: &mut Draws) -> Option<(u32, u32)> {
        let links = &self.links[draws.below(self.links.len() as u32) as usize];
        (!links.is_empty()).then(|| links[draws.below(links.len() as u32) as usize])
    }

    /// A target of the part, or, where the part has any already, one outside.
    fn target(&self, draws: &mut Draws) -> u32 {
        let inside = draws.below(self.links.len() as u32);
        match self.any_link(draws) {
            Some((_, t)) if t >= OUTSIDE => OUTSIDE - 1 + draws.below(64),
            _ => inside,
        }
    }

    fn change_path(&mut self, draws: &mut Draws) {
        let (a, b) = (self.label(draws), self.label(draws));
        let word = if draws.below(4) == 0 { outside } else { range };
        let i = 1 + draws.below(self.path.len() as u32 - 1) as usize;
        match self.path[i] {
            THEN => self.path[i] = OR,
            OR => self.path[i] = THEN,
            STAR => {
                self.path.remove(i);
            }
            _ if draws.below(3) == 0 => self.path.insert(i + 1, STAR),
            _ => self.path[i] = word(a.min(b), a.max(b)),
        }
    }

    fn change_links(&mut self, draws: &mut Draws) {
        let (label, target) = (self.label(draws), self.target(draws));
        let i = draws.below(self.links.len() as u32) as usize;
        let j = draws.below(self.links.len() as u32) as usize;
        match draws.below(4) {
            0 => self.links.swap(i, j),
            1 => self.links[i].push((label, target)),
            2 => self.links[i].truncate(1),
            _ => {
                if let Some(link) = self.links[i].last_mut() {
                    *link = if draws.below(2) == 0 { (link.0, target) } else { (label, link.1) };
                }
            }
        }
    }

    /// The words of the part, without the links that do not fit.
    fn part(&self) -> Vec<u32> {
        let mut ws = vec![0];
        for (x, links) in self.links.iter().enumerate() {
            let root = if x == 0 { ROOT | DOOR } else { 0 };
            ws.push(NODE | root | self.marks[x] | x as u32);
            let room = self.size - ws.len() - (self.links.len() - 1 - x);
            let mut edges: Vec<u32> = links.iter().take(room).map(|&(label, target)| edge(label, target)).collect();
            edges.sort_unstable();
            edges.dedup();
            ws.extend(edges);
        }
        ws[0] = header(1, 0, 0) | ws.len() as u32;
        ws
    }
}

impl Gene for Plant {
    fn of(ask: &Ask) -> Plant {
        let (part, path) = (words(&ask.file), words(&ask.path));
        let numbers: Vec<u32> = part[1..].iter().filter(|&&w| kind(w) == 2).map(|&w| node(w)).collect();
        let place = |t: u32| numbers.binary_search(&t).map_or(OUTSIDE + t % 5000, |i| i as u32);
        let (mut links, mut marks): (Vec<Vec<(u32, u32)>>, Vec<u32>) = (Vec::new(), Vec::new());
        for &w in &part[1..] {
            if kind(w) == 2 {
                links.push(Vec::new());
                marks.push(w & (DOOR | STOPPED));
            } else if let Some(last) = links.last_mut() {
                last.push((label(w), place(node(w))));
            }
        }
        Plant { size: part.len(), links, marks, path, calls: ask.calls.clone(), node: place(ask.node), number: ask.number }
    }

    fn change(&mut self, draws: &mut Draws) {
        match draws.below(8) {
            0 => self.change_path(draws),
            1 => {
                let i = draws.below(self.marks.len() as u32) as usize;
                self.marks[i] ^= if draws.below(4) == 0 { STOPPED } else { DOOR };
            }
            _ => self.change_links(draws),
        }
    }

    fn ask(&self) -> Ask {
        let mut path = self.path.clone();
        let n = path.iter().filter(|&&w| kind(w) == 5).count() as u32;
        path[0] = header(4, 0, n) | path.len() as u32;
        let (calls, node, number) = (self.calls.clone(), self.node, self.number);
        Ask { file: bytes(&self.part()), path: bytes(&path), calls, node, number, ..Ask::default() }
    }

    fn describe(&self) -> String {
        let part = self.part();
        let nodes = self.links.len();
        let [doors, stopped] = [DOOR, STOPPED].map(|mark| self.marks.iter().filter(|&&m| m & mark != 0).count());
        let path: Vec<String> = self.path.iter().map(|w| format!("{w:08x}")).collect();
        format!(
            "{} words, {nodes} nodes, {doors} doors, {stopped} stopped, {} links, path {}",
            part.len(),
            part.len() - 1 - nodes,
            path.join(" ")
        )
    }
}
