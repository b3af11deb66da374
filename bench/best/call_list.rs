//! The call list with a table from nodes to doors, a stack of doors that wait, and the doors sorted once.
use crate::inputs::Ask;
use crate::plain::{first_bundle, settle, Outcome};
use crate::words::*;

/// The place of each node's door, 0 where there is none.
fn doors(ws: &[u32]) -> Vec<u16> {
    let mut places = vec![0; 1 << 16];
    for (i, &w) in ws.iter().enumerate().filter(|(_, &w)| kind(w) == 8) {
        places[node(w) as usize] = i as u16;
    }
    places
}

/// The states that each door is called in, by the door word's place; 14 at the first followed reach word without a door.
fn search(ws: &[u32], places: &[u16]) -> Result<Vec<u16>, u32> {
    let (mut called, mut pending, mut stack) = (vec![0u16; ws.len()], vec![0u16; ws.len()], Vec::new());
    let root = ws.iter().position(|&w| kind(w) == 8 && w & ROOT_DOOR != 0).unwrap_or(0);
    (called[root], pending[root]) = (1, 1);
    stack.push(root);
    while let Some(i) = stack.pop() {
        let states = std::mem::take(&mut pending[i]);
        let mut on = false;
        for &w in ws[i + 1..].iter().take_while(|&&w| matches!(kind(w), 9 | 10)) {
            if kind(w) == 9 {
                on = states >> state(w) & 1 == 1;
            } else if on {
                let j = places[pair_node(w) as usize] as usize;
                if j == 0 {
                    return Err(14);
                }
                let new = 1 << state(w) & !called[j];
                if new != 0 && pending[j] == 0 {
                    stack.push(j);
                }
                called[j] |= new;
                pending[j] |= new;
            }
        }
    }
    Ok(called)
}

fn list(ws: &[u32], called: &[u16]) -> Outcome {
    let mut nodes: Vec<(u32, u16)> = ws.iter().zip(called).filter(|(_, &c)| c != 0).map(|(&w, &c)| (node(w), c)).collect();
    nodes.sort_unstable();
    let mut list = vec![header(11, 0, labels(ws[0]))];
    for (x, states) in nodes {
        list.extend((0..16).filter(|q| states >> q & 1 == 1).map(|q| CALL | x << 4 | q));
    }
    list[0] |= list.len() as u32;
    if list.len() <= 4096 {
        Ok(list)
    } else {
        Err(15)
    }
}

pub fn call_list(ask: &Ask, out: &mut [u8], work: &mut [u8]) -> u32 {
    settle(4096, out, work, || {
        let ws = first_bundle(&ask.file)?;
        list(&ws, &search(&ws, &doors(&ws))?)
    })
}
