//! A search for dearer inputs: random changes of the shapes' own inputs, kept where the library takes longer and still gives the same number.
mod bundle;
mod plant;

use crate::inputs::{Ask, Draws};
use crate::timing::{now, Buffers, Version};

/// An input that can be changed at random and asked.
pub trait Gene: Clone {
    fn of(ask: &Ask) -> Self;
    fn change(&mut self, draws: &mut Draws);
    fn ask(&self) -> Ask;
    fn describe(&self) -> String;
}

pub use bundle::Bundle;
pub use plant::Plant;

/// The least of several times of a call, 0 where its number is not the one that is due: at least three, more where the call is quick.
fn cost(version: Version, ask: &Ask, buffers: &mut Buffers) -> f64 {
    let (mut least, number) = buffers.once(version, ask);
    if number != ask.number {
        return 0.0;
    }
    for _ in 0..((1e-3 / least) as usize).clamp(2, 20) {
        least = least.min(buffers.once(version, ask).0);
    }
    least
}

/// The costs of two inputs, measured by turns so that a slow moment meets both.
fn both(version: Version, one: &Ask, other: &Ask, buffers: &mut Buffers) -> (f64, f64) {
    let turns = (0..3).map(|_| (cost(version, one, buffers), cost(version, other, buffers)));
    turns.fold((f64::MAX, f64::MAX), |least, turn| (least.0.min(turn.0), least.1.min(turn.1)))
}

/// Climbs for so many seconds from one input. Says where it began and where it came to.
pub fn climb<G: Gene>(name: &str, version: Version, start: &Ask, seconds: f64) {
    let (mut draws, mut buffers, begun) = (Draws(1), Buffers::new(), now());
    let (mut gene, mut tries) = (G::of(start), 0);
    let mut dearest = cost(version, &gene.ask(), &mut buffers);
    while now() - begun < seconds {
        let mut other = gene.clone();
        for _ in 0..1 << draws.below(6) {
            other.change(&mut draws);
        }
        tries += 1;
        if cost(version, &other.ask(), &mut buffers) <= dearest {
            continue;
        }
        let (old, new) = both(version, &gene.ask(), &other.ask(), &mut buffers);
        (gene, dearest) = if new > 1.01 * old { (other, new) } else { (gene, old) };
    }
    let (first, last) = both(version, start, &gene.ask(), &mut buffers);
    println!("{name}: {:.0} us, after {tries} changes {:.0} us; {}", first * 1e6, last * 1e6, gene.describe());
}
