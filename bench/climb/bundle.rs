//! A bundle of first replies, open to change.
use super::Gene;
use crate::inputs::{Ask, Draws};
use crate::words::*;

#[derive(Clone)]
pub struct Bundle {
    size: usize,
    number: u64,
    /// The doors of each file, in order.
    files: Vec<Vec<Door>>,
}

#[derive(Clone)]
struct Door {
    word: u32,
    /// States and pairs.
    rows: Vec<(u32, Vec<u32>)>,
}

impl Bundle {
    fn door(&mut self, draws: &mut Draws) -> &mut Door {
        let f = draws.below(self.files.len() as u32) as usize;
        let file = &mut self.files[f];
        let k = draws.below(file.len() as u32) as usize;
        &mut file[k]
    }

    fn words(&self) -> Vec<u32> {
        let mut ws = Vec::new();
        for (site, file) in self.files.iter().enumerate() {
            let start = ws.len();
            ws.push(header(7, site as u32, 15));
            for door in file {
                ws.push(door.word);
                for (q, pairs) in door.rows.iter().filter(|r| !r.1.is_empty()) {
                    ws.push(ROW | q);
                    ws.extend(pairs.iter().map(|p| REACH | p));
                }
            }
            ws[start] |= (ws.len() - start) as u32 & 0x3fff;
        }
        ws
    }
}

impl Gene for Bundle {
    fn of(ask: &Ask) -> Bundle {
        let ws = words(&ask.file);
        let mut files: Vec<Vec<Door>> = Vec::new();
        for &w in &ws {
            match kind(w) {
                7 => files.push(Vec::new()),
                8 => files.last_mut().unwrap().push(Door { word: w, rows: Vec::new() }),
                9 => files.last_mut().unwrap().last_mut().unwrap().rows.push((state(w), Vec::new())),
                _ => files.last_mut().unwrap().last_mut().unwrap().rows.last_mut().unwrap().1.push(w & 0xf_ffff),
            }
        }
        Bundle { size: ws.len(), number: ask.number, files }
    }

    fn change(&mut self, draws: &mut Draws) {
        let pair = node(self.door(draws).word) << 4 | draws.below(16);
        let (q, what) = (draws.below(16), draws.below(4));
        let room = self.words().len() < self.size;
        let door = self.door(draws);
        match (what, door.rows.iter().position(|r| r.0 == q)) {
            (0, Some(r)) => {
                door.rows.remove(r);
            }
            (1, Some(r)) => {
                door.rows[r].1.pop();
            }
            (_, Some(r)) if room => {
                let pairs = &mut door.rows[r].1;
                pairs.push(pair);
                pairs.sort_unstable();
                pairs.dedup();
            }
            (_, None) if room => {
                door.rows.push((q, vec![pair]));
                door.rows.sort();
            }
            _ => {}
        }
    }

    fn ask(&self) -> Ask {
        let ws = self.words();
        Ask { file: bytes(&ws[..ws.len().min(self.size)]), number: self.number, ..Ask::default() }
    }

    fn describe(&self) -> String {
        let doors: usize = self.files.iter().map(Vec::len).sum();
        let rows: usize = self.files.iter().flatten().map(|d| d.rows.len()).sum();
        format!("{} words, {} files, {doors} doors, {rows} rows", self.words().len(), self.files.len())
    }
}
