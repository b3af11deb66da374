//! Desks: bundles of up to eight paths for one part, whose replies share one output.
use super::parts::{self, Doors};
use super::visits::{four, long, visit};
use super::{paths, shape, Ask, Shape};
use crate::desks::packed_eight;

fn eight() -> [Vec<u32>; 8] {
    let [a, b, c, d] = four();
    [a, b, c, d, paths::any_label(0), paths::last_label(), paths::one_by_one(), paths::full_ranges()]
}

/// Every other one is too long, of another kind, has a wrong word, or two operands left.
fn four_refused() -> [Vec<u32>; 8] {
    let [a, b, c, d, e, f, g, h] = eight();
    [a, paths::overlong(b), c, paths::foreign(d), e, paths::unsorted(f), g, paths::unfinished(h)]
}

/// Doors with a link outside each. A short path has a row for each of them, a long one sixteen.
fn doorways(size: usize, doors: u32, paths: [fn(u32) -> Vec<u32>; 8]) -> Ask {
    let handed: Vec<Vec<u32>> = (0..).zip(paths).map(|(turn, path)| path(turn)).collect();
    visit(parts::doorways_of(size, doors), &handed)
}

const SHORT: fn(u32) -> Vec<u32> = paths::any_label;
const LONG: fn(u32) -> Vec<u32> = paths::any_label_star;

/// Too long a reply by itself, short, long, two operands left, long, long, a header of another kind, and long without room.
fn all_sorts() -> [fn(u32) -> Vec<u32>; 8] {
    [|_| paths::full_ranges(), SHORT, LONG, |turn| paths::unfinished(LONG(turn)), LONG, LONG, |turn| paths::foreign(LONG(turn)), LONG]
}

pub fn eight_replies() -> Vec<Shape> {
    vec![
        shape("no link, one door: eight paths", |n| visit(long(n), &eight())),
        shape("no link, one door: one desk alone", |n| visit(long(n), &eight()[..1])),
        shape("no link, one door: eight paths, four refused (2, 3, 5, 9)", |n| Ask {
            number: packed_eight([0, 2, 0, 3, 0, 5, 0, 9]),
            ..visit(long(n), &four_refused())
        }),
        eight_replies_of_groups(),
        shape("170 doors with a link outside: eight short", |n| doorways(n, 170, [SHORT; 8])),
        shape("75 doors with a link outside: seven short, the fourth long", |n| {
            doorways(n, 75, [SHORT, SHORT, SHORT, LONG, SHORT, SHORT, SHORT, SHORT])
        }),
        shape("31 doors with a link outside: eight long, four without room (15)", |n| Ask {
            number: packed_eight([0, 0, 0, 0, 15, 15, 15, 15]),
            ..doorways(n, 31, [LONG; 8])
        }),
        shape("31 doors with a link outside: all sorts (15, 9, 3, 15)", |n| Ask {
            number: packed_eight([15, 0, 0, 9, 0, 0, 3, 15]),
            ..doorways(n, 31, all_sorts())
        }),
        shape("document 01's part, at any size: eight paths", |_| visit(parts::document_01(), &paths::document_01())),
        shape("document 01's part, at any size: one desk alone", |_| visit(parts::document_01(), &paths::document_01()[..1])),
    ]
}

pub fn eight_replies_of_groups() -> Shape {
    shape("two random links, up to 511 doors, groups: one path eight times", |n| {
        visit(parts::random(n, 2, Doors::First(511)), &[(); 8].map(|_| paths::groups()))
    })
}
