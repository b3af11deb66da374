//! Random plants and true cuts of them, and links that end nowhere.

use crate::evaluation::part::{Node, Part};
use crate::evaluation::plant::{Link, Plant};
use crate::random::Random;
use std::collections::{BTreeMap, BTreeSet};

/// Node numbers: close together, or anywhere with the ends among them.
pub fn numbers(random: &mut Random, count: usize) -> Vec<u32> {
    let mut numbers = BTreeSet::new();
    if random.chance(50) {
        let any = random.below(65_536 - count);
        let first = random.pick(&[0, 1, 65_536 - count, any]);
        numbers.extend((first..first + count).map(|number| number as u32));
    } else {
        numbers.extend(random.chance(50).then_some(0));
        while numbers.len() < count {
            let last = random.chance(5);
            numbers.insert(if last { 65_535 } else { random.below(65_536) as u32 });
        }
    }
    numbers.into_iter().collect()
}

/// A plant of `count` running nodes with up to `degree` links each; `near` of a hundred targets lie near their source, the others anywhere.
pub fn plant(random: &mut Random, count: usize, degree: usize, near: usize, alphabet: &[u32]) -> Plant {
    let numbers = numbers(random, count);
    let count = numbers.len();
    let mut nodes = BTreeMap::new();
    for at in 0..count {
        let links = (0..random.between(0, degree)).map(|_| {
            let target = match random.chance(near) {
                true => (at + random.below(4)) % count,
                false => random.below(count),
            };
            (random.pick(alphabet), numbers[target])
        });
        nodes.insert(numbers[at], links.collect());
    }
    Plant { root: random.pick(&numbers), nodes, stopped: BTreeSet::new() }
}

/// The plant with so many of a hundred nodes stopped. The root is seldom one of them, as it alone empties the list.
pub fn stop(random: &mut Random, plant: Plant, percent: usize) -> Plant {
    let root = percent > 0 && random.chance(15);
    let stops = |node: &u32| if *node == plant.root { root } else { random.chance(percent) };
    let stopped = plant.nodes.keys().copied().filter(stops).collect();
    Plant { stopped, ..plant }
}

/// The plant without some of its nodes, and the links that led to them.
pub fn remove(random: &mut Random, mut plant: Plant, percent: usize) -> (Plant, BTreeSet<Link>) {
    let root = plant.root;
    plant.nodes.retain(|node, _| *node == root || !random.chance(percent));
    plant.stopped.retain(|node| plant.nodes.contains_key(node));
    let strays = plant.links().into_iter().filter(|link| plant.ends_nowhere(link)).collect();
    (plant.left_out(), strays)
}

/// A number that is none of these, ascending: next to one of them, an end, or any.
pub fn number_beside(random: &mut Random, numbers: &[u32]) -> u32 {
    loop {
        let near = random.pick(numbers) as usize;
        let any = random.below(65_536);
        let beside = random.pick(&[near + 1, near + 65_535, near ^ 15, 0, 65_535, any]) % 65_536;
        if numbers.binary_search(&(beside as u32)).is_err() {
            return beside as u32;
        }
    }
}

/// One of these labels mostly, or any.
pub fn some_label(random: &mut Random, labels: &[u32]) -> u32 {
    match random.chance(90) {
        true => random.pick(labels),
        false => random.below(4096) as u32,
    }
}

/// The labels of some links, and a few more.
pub fn labels_of(links: &BTreeSet<Link>) -> Vec<u32> {
    links.iter().map(|link| link.1).chain([0, 5, 4095]).collect()
}

/// Links that end nowhere: of the root or any nodes, stopped ones too, with labels that the plant has or any.
pub fn strays(random: &mut Random, plant: &Plant, count: usize) -> BTreeSet<Link> {
    let numbers: Vec<u32> = plant.nodes.keys().copied().collect();
    let labels = labels_of(&plant.links());
    let link = |_| {
        let node = if random.chance(15) { plant.root } else { random.pick(&numbers) };
        (node, some_label(random, &labels), number_beside(random, &numbers))
    };
    (0..count).map(link).collect()
}

pub fn some_plant(random: &mut Random, alphabet: &[u32]) -> Plant {
    let most = random.pick(&[1, 4, 8, 8, 16, 16, 40, 100]);
    let (count, degree) = (random.between(1, most), random.between(1, 4));
    let (near, stopped) = (random.pick(&[0, 50, 95]), random.pick(&[0, 15, 40]));
    let plant = plant(random, count, degree, near, alphabet);
    stop(random, plant, stopped)
}

/// Now and then a plant that fills a file, or just does not fit.
pub fn any_plant(random: &mut Random, alphabet: &[u32]) -> Plant {
    if random.chance(99) {
        return some_plant(random, alphabet);
    }
    let (count, near) = (random.between(1200, 1400), random.pick(&[0, 50, 95]));
    let plant = plant(random, count, 4, near, alphabet);
    stop(random, plant, 10)
}

/// A node of the plant as a file has it; the root is a door in any case.
pub fn node(plant: &Plant, number: u32, door: bool) -> Node {
    let root = number == plant.root;
    let edges = plant.nodes[&number].iter().copied().collect();
    Node { number, door: door || root, root, stopped: plant.stopped.contains(&number), edges }
}

/// The plant as one file, with some nodes marked as doors.
pub fn whole(random: &mut Random, plant: &Plant) -> Part {
    let site = if random.chance(70) { 0 } else { random.below(16) as u32 };
    let doors = random.pick(&[0, 50]);
    let nodes = plant.nodes.keys().map(|number| node(plant, *number, random.chance(doors)));
    Part { site, nodes: nodes.collect() }
}

/// A site for every node: nodes near each other mostly have the same one, or any node has any.
fn assign(random: &mut Random, plant: &Plant, sites: &[u32]) -> BTreeMap<u32, u32> {
    let count = plant.nodes.len();
    let together = if count > 300 { 100 } else { random.pick(&[0, 95]) };
    let site = |(at, number): (usize, &u32)| {
        let site = match random.chance(together) {
            true => sites[at * sites.len() / count],
            false => random.pick(sites),
        };
        (*number, site)
    };
    plant.nodes.keys().enumerate().map(site).collect()
}

/// A true cut into this many parts, in any order, with `further` of a hundred other nodes marked as doors.
pub fn true_cut(random: &mut Random, plant: &Plant, parts: usize, further: usize) -> Vec<Part> {
    let mut sites: Vec<u32> = (0..16).collect();
    random.shuffle(&mut sites);
    sites.truncate(parts);
    let site_of = assign(random, plant, &sites);
    let links = plant.nodes.iter().flat_map(|(source, out)| out.iter().map(move |link| (source, link.1)));
    let crossed: BTreeSet<u32> =
        links.filter(|(source, target)| site_of[source] != site_of[target]).map(|link| link.1).collect();
    let part = |site: &u32| {
        let inside = plant.nodes.keys().filter(|number| site_of[number] == *site);
        let nodes =
            inside.map(|number| node(plant, *number, crossed.contains(number) || random.chance(further)));
        Part { site: *site, nodes: nodes.collect() }
    };
    sites.iter().map(part).collect()
}
